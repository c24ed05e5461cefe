"""The wire between an agent or an application and the master, carried by hand."""

import socket
import struct
import time

from model.frames import has_end
from shared.parties import text_of
from shared.processes import PATIENCE, Difference
from shared.sites import free_address

# Where peers dial from. (Masters listen elsewhere: no connection that goes out has a port of their address, so that of a master that is down stays free.)
PEERS = "127.0.0.1"


def dial(address):
    """A connection to a master. It listens only from its first `serve` on, so it is tried for a while."""
    limit = time.monotonic() + PATIENCE
    while time.monotonic() < limit:
        try:
            return socket.create_connection(address, PATIENCE, (PEERS, 0))
        except ConnectionRefusedError:
            time.sleep(0.001)
    raise Difference(f"nobody listens at {text_of(address)}")


def receive(side):
    """The next bytes of a connection, none where it has ended in any way."""
    try:
        return side.recv(65536)
    except (ConnectionResetError, BrokenPipeError):
        return b""
    except TimeoutError:
        raise Difference(f"a node says nothing for {PATIENCE:.0f} seconds, and does not close its connection") from None


class Passage:
    """One connection between a peer and the master, with the script in its middle. What one side says is gathered to its End frame before any of
    it is given to the other, so it can be cut at each byte."""

    def __init__(self, peer, master):
        self.sides = {"peer": peer, "master": master}
        for side in self.sides.values():
            side.settimeout(PATIENCE)
            side.setsockopt(socket.IPPROTO_TCP, socket.TCP_NODELAY, 1)

    def gather(self, name):
        """What a side says: to its End frame, or to where its connection ends."""
        said = b""
        while not has_end(said) and (piece := receive(self.sides[name])):
            said += piece
        return said

    def give(self, name, data):
        """Gives a side what the other one said. One that was killed hears nothing, which is as it should be."""
        try:
            self.sides[name].sendall(data)
        except (ConnectionResetError, BrokenPipeError):
            pass

    def end(self, name):
        """Ends the connection of a side, behind all that it was given, and waits until the side has ended it too. What it says still comes late."""
        side, late = self.sides[name], b""
        try:
            side.shutdown(socket.SHUT_WR)
        except OSError:
            pass
        while piece := receive(side):
            late += piece
        side.close()
        return late

    def reset(self, name):
        """Breaks the connection of a side: a read there is an error, and no end."""
        self.sides[name].setsockopt(socket.SOL_SOCKET, socket.SO_LINGER, struct.pack("ii", 1, 0))
        self.sides[name].close()


class Wire:
    """Where agents and applications dial. Masters come and go behind it, and listen at one address."""

    def __init__(self):
        self.listener = socket.create_server((PEERS, 0))
        self.listener.settimeout(PATIENCE)
        self.address, self.master = self.listener.getsockname(), free_address()

    def open(self):
        """The connection of a peer that dials to the master, which has to serve."""
        try:
            peer, _ = self.listener.accept()
        except TimeoutError:
            raise Difference(f"nobody dials for {PATIENCE:.0f} seconds") from None
        return Passage(peer, dial(self.master))

    def visit(self, data):
        """Dials the master, says this much and no more: what is answered."""
        with dial(self.master) as side:
            side.sendall(data)
            side.shutdown(socket.SHUT_WR)
            return receive(side)

    def close(self):
        self.listener.close()
