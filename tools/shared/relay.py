"""Hands connections on to a master that listens at another address, and tells of each from which party it came: the master itself does not say that."""

from __future__ import annotations

import contextlib
import select
import socket
import time

from shared.processes import PATIENCE, Difference
from shared.starting import address_of

# Of the frame that a peer says first: where its sender stands, a role in one byte and a number in four.
ROLE_AT, NUMBER_AT, BEHIND = 6, 7, 11
PIECE = 65536
# A master listens from its first `serve` on, which it comes to at once where the machine has time for it.
START_SECONDS = PATIENCE


class Relay:
    def __init__(self, address: str, target: tuple[str, int]) -> None:
        host, port = address_of(address)
        family = socket.AF_INET6 if ":" in host else socket.AF_INET
        self.target, self.listener = target, socket.create_server((host, port), family=family, backlog=128)

    def has_peer_within(self, seconds: float) -> bool:
        return bool(select.select([self.listener], [], [], seconds)[0])

    def carry(self) -> tuple[int, int] | None:
        """Hands the connection that waits on to the master until one of both ends it: the role and the number of who dialed, as its first frame
        says."""
        peer, _ = self.listener.accept()
        with peer, self.master() as master:
            first = b""
            ways = {peer: master, master: peer}
            for side in ways:
                side.settimeout(PATIENCE)
            with contextlib.suppress(OSError):
                while ready := select.select(list(ways), [], [], PATIENCE)[0]:
                    piece = ready[0].recv(PIECE)
                    if ready[0] is peer and len(first) < BEHIND:
                        first += piece[:BEHIND]
                    if piece:
                        ways[ready[0]].sendall(piece)
                    elif ready[0] is master:
                        break
                    else:
                        del ways[peer]
                        master.shutdown(socket.SHUT_WR)
        return (first[ROLE_AT], int.from_bytes(first[NUMBER_AT:BEHIND], "big")) if len(first) >= BEHIND else None

    def master(self) -> socket.socket:
        limit = time.monotonic() + START_SECONDS
        while True:
            try:
                return socket.create_connection(self.target, START_SECONDS)
            except OSError as why:
                if time.monotonic() > limit:
                    raise Difference(f"the master does not listen: {why}") from None
                time.sleep(0.005)

    def close(self) -> None:
        self.listener.close()
