"""What was proved before: the library of each crate under the sum of all that it was made of. A build that was interrupted goes on from there,
and all checkouts of one user share it."""

from __future__ import annotations

import contextlib
import fcntl
import os
import shutil
import tempfile
from collections.abc import Callable, Iterator


def folder() -> str:
    home = os.environ.get("XDG_CACHE_HOME") or os.path.join(os.path.expanduser("~"), ".cache")
    return os.environ.get("FUXI_CACHE") or os.path.join(home, "fuxi")


def place(name: str, made_of: str) -> str:
    return f"{folder()}/libraries/{name}-{made_of[:32]}"


def has(name: str, made_of: str) -> bool:
    return os.path.isdir(place(name, made_of))


def keep(name: str, made_of: str, library: str) -> None:
    """Keeps a library that was just made. It stands under its name whole or not at all."""
    os.makedirs(os.path.dirname(place(name, made_of)), exist_ok=True)
    with contextlib.suppress(FileExistsError):
        os.rename(library, place(name, made_of))


@contextlib.contextmanager
def rooms(say_wait: Callable[[], None]) -> Iterator[str]:
    """A folder for the rooms of one build, which goes when the build ends. One build runs at a time, and clears what one that was killed has left."""
    os.makedirs(folder(), exist_ok=True)
    with open(f"{folder()}/lock", "w", encoding="utf-8") as lock:
        try:
            fcntl.flock(lock, fcntl.LOCK_EX | fcntl.LOCK_NB)
        except BlockingIOError:
            say_wait()
            fcntl.flock(lock, fcntl.LOCK_EX)
        for name in os.listdir(folder()):
            if name.startswith("rooms-"):
                shutil.rmtree(f"{folder()}/{name}", ignore_errors=True)
        room = tempfile.mkdtemp(prefix="rooms-", dir=folder())
        try:
            yield room
        finally:
            shutil.rmtree(room, ignore_errors=True)


def forget() -> None:
    shutil.rmtree(folder(), ignore_errors=True)


def mebibytes() -> int:
    return sum(os.path.getsize(f"{at}/{name}") for at, _, files in os.walk(folder()) for name in files) >> 20
