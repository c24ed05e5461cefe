"""Where masters run: on this machine, or by turns in network namespaces as on machines of their own, with one address that moves to who leads."""

from __future__ import annotations

import fcntl
import os
import re
import shutil
import socket
import subprocess
import tempfile
from typing import Union

from shared.parties import text_of
from shared.processes import Difference

# Where the masters of this process listen. No connection that goes out has a port of this address, and no other process has the address, so a port
# that was free stays free.
MASTERS = f"127.{64 + (os.getpid() >> 16) % 64}.{os.getpid() >> 8 & 255}.{os.getpid() & 255}"
# The namespaces hang on a bridge; its address is that of the agents and applications.
BRIDGE, NET, MOVING = "fuxi-br", "10.77.61", "10.77.61.100"
PORT = 7000
# Who has the namespaces holds a lock on this file, which goes with its process.
LOCK = os.path.join(tempfile.gettempdir(), "fuxi-namespaces.lock")
# The addresses that were given to masters of this process.
given = set[tuple[str, int]]()


def free_address() -> tuple[str, int]:
    """An address for masters at which nobody listens, and that was not given before."""
    while True:
        with socket.create_server((MASTERS, 0)) as listener:
            address: tuple[str, int] = listener.getsockname()
        if address not in given:
            given.add(address)
            return address


def can_listen() -> bool:
    """Whether masters can be reached here at all."""
    try:
        with socket.create_server((MASTERS, 0)) as listener, socket.create_connection(listener.getsockname(), 5):
            return True
    except OSError:
        return False


class Loopback:
    """All masters listen at one address of this machine."""

    count = 1

    def __init__(self) -> None:
        self.address = text_of(free_address())

    def words(self, program: str, _site: int) -> str:
        return program

    def move(self, _site: int) -> None:
        pass

    def close(self) -> None:
        pass


def ip(*words: object) -> None:
    ran = subprocess.run(["ip", *map(str, words)], capture_output=True, text=True)
    if ran.returncode:
        raise Difference(f"ip {' '.join(map(str, words))}: {ran.stderr.strip()}")


class Namespaces:
    """So many network namespaces, with links to a bridge. It needs root, and ip of Debian's package iproute2."""

    def __init__(self, count: int) -> None:
        if not shutil.which("ip"):
            raise Difference("the command ip was not found: Debian has it in iproute2")
        self.count, self.address = count, f"{MOVING}:{PORT}"
        self.site: int | None = None
        self.made: list[tuple[str, ...]] = []
        self.lock = open(LOCK, "a", encoding="ascii")
        try:
            fcntl.flock(self.lock, fcntl.LOCK_EX | fcntl.LOCK_NB)
        except BlockingIOError:
            raise Difference(f"another cluster runs in the namespaces of this machine: it holds {LOCK}") from None
        clear_left()
        try:
            self.make()
        except Difference:
            self.close()
            raise

    def make(self) -> None:
        ip("link", "add", BRIDGE, "type", "bridge")
        self.made.append(("link", "del", BRIDGE))
        ip("addr", "add", f"{NET}.1/24", "dev", BRIDGE)
        ip("link", "set", BRIDGE, "up")
        for site in range(self.count):
            name = self.name(site)
            ip("netns", "add", name)
            self.made.append(("netns", "del", name))
            ip("link", "add", f"{name}-out", "type", "veth", "peer", "name", "eth0", "netns", name)
            # (by itself it would go with its namespace, which goes some time after it was deleted)
            self.made.append(("link", "del", f"{name}-out"))
            ip("link", "set", f"{name}-out", "master", BRIDGE, "up")
            for words in [("link", "set", "lo", "up"), ("addr", "add", f"{NET}.{10 + site}/24", "dev", "eth0"), ("link", "set", "eth0", "up")]:
                ip("-n", name, *words)

    def name(self, site: int) -> str:
        return f"fuxi-{site}"

    def words(self, program: str, site: int) -> list[str]:
        return ["ip", "netns", "exec", self.name(site), program]

    def move(self, site: int) -> None:
        """The address goes to this namespace, and who knew another link for it asks anew."""
        if self.site is not None:
            ip("-n", self.name(self.site), "addr", "del", f"{MOVING}/24", "dev", "eth0")
        ip("-n", self.name(site), "addr", "add", f"{MOVING}/24", "dev", "eth0")
        subprocess.run(["ip", "neigh", "flush", "to", MOVING], capture_output=True)
        self.site = site

    def close(self) -> None:
        for words in reversed(self.made):
            subprocess.run(["ip", *words], capture_output=True)
        self.made = []
        self.lock.close()


def clear_left() -> None:
    """Takes away the namespaces and links of a cluster that was killed. (Who holds the lock knows that nobody has them.)"""
    links = subprocess.run(["ip", "-o", "link"], capture_output=True, text=True).stdout
    for name in re.findall(rf"(?m)^\d+: ({BRIDGE}|fuxi-\d+-out)[@:]", links):
        subprocess.run(["ip", "link", "del", name], capture_output=True)
    names = subprocess.run(["ip", "netns", "list"], capture_output=True, text=True).stdout
    for name in re.findall(r"(?m)^fuxi-\d+\b", names):
        subprocess.run(["ip", "netns", "del", name], capture_output=True)


# Where masters run.
Sites = Union[Loopback, Namespaces]
