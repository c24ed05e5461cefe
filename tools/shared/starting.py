"""What a node needs before it starts, tested one by one: the node itself says of all of it no more than that its disk or its round failed."""

from __future__ import annotations

import errno
import fcntl
import ipaddress
import os
import re
import socket

from shared.checkpoints import DAMAGED, ODD, Checkpoint

FILE = "fuxi.state"
USAGE, NOT_THERE, DISK_FAULT = 2, 1, 8
FORM = "an address is an IP address and a port, as 10.0.0.5:7000 or [::1]:7000"


class NotStarted(Exception):
    """What is missing, and the status with which that ends."""

    def __init__(self, why: str, status: int = NOT_THERE) -> None:
        super().__init__(why)
        self.status = status


def address_of(text: str) -> tuple[str, int]:
    """The IP address and the port of an address as the program reads it."""
    host, colon, port = text.rpartition(":")
    if not colon or "]" in port:
        raise NotStarted(f"{text!r} has no port: {FORM}", USAGE)
    if not re.fullmatch("[0-9]{1,5}", port) or not 1 <= int(port) <= 65535:
        raise NotStarted(f"{text!r} has no port from 1 to 65535 behind its last colon: {FORM}", USAGE)
    bare = host[1:-1] if host.startswith("[") and host.endswith("]") else host
    try:
        found = ipaddress.ip_address(bare)
    except ValueError:
        raise NotStarted(f"{host!r} is no IP address (a name is none, and no number has a zero before it): {FORM}", USAGE) from None
    if (found.version == 6) != (bare is not host):
        raise NotStarted(f"{text!r}: an IPv6 address stands in brackets, and no other does: {FORM}", USAGE)
    return bare, int(port)


def listens_at(address: str) -> None:
    """Whether a master could listen there."""
    host, port = address_of(address)
    family = socket.AF_INET6 if ":" in host else socket.AF_INET
    with socket.socket(family, socket.SOCK_STREAM) as side:
        side.setsockopt(socket.SOL_SOCKET, socket.SO_REUSEADDR, 1)
        try:
            side.bind((host, port))
        except OSError as why:
            said = {
                errno.EADDRINUSE: "somebody listens there already",
                errno.EADDRNOTAVAIL: "this machine does not have the address",
                errno.EACCES: "this user may not listen at the port",
            }
            raise NotStarted(f"{address}: {said.get(why.errno or 0, why.strerror)}") from None


def folder_is_there(folder: str) -> None:
    if not os.path.isdir(folder):
        raise NotStarted(f"{folder} is no folder that can be written into: there is no such folder")
    if not os.access(folder, os.W_OK | os.X_OK):
        raise NotStarted(f"{folder} is no folder that can be written into by this user")


def file_of(folder: str, takes_it: bool) -> Checkpoint:
    """What the file of a master holds, if it can be opened, nobody has it, and it is neither damaged nor odd."""
    path = os.path.join(folder, FILE)
    room = os.statvfs(folder)
    if not room.f_bavail:
        raise NotStarted(f"{path}: the disk is full", DISK_FAULT)
    try:
        with open(path, "r+b") as file:
            fcntl.flock(file, fcntl.LOCK_EX | fcntl.LOCK_NB)
            found = Checkpoint(file.read())
    except FileNotFoundError:
        return Checkpoint(b"")
    except BlockingIOError:
        raise NotStarted(f"{path}: another master has it (`fuser {path}` says which process)", DISK_FAULT) from None
    except OSError as why:
        raise NotStarted(f"{path}: {why.strerror}", DISK_FAULT) from None
    if found.damaged_at is not None:
        raise NotStarted(f"{path} is damaged at byte {found.damaged_at}: {found.damage}. docs/OPERATING.md says how to go on (status 10)", DAMAGED)
    if found.odd and not takes_it:
        raise NotStarted(f"{path} looks odd: {'; '.join(found.odd)}. `tools/state {path}` shows it. Put a copy back, or start once with --take-file, which takes it for what it stands for: {found.summary()}", ODD)
    return found
