"""The crates of this checkout: which stand below which, of what they are made, and whether a program is built of them."""

from __future__ import annotations

import functools
import hashlib
import os
from collections.abc import Callable, Iterator

TOP = os.path.dirname(os.path.dirname(os.path.dirname(os.path.abspath(__file__))))
PARTS = ("src", "specs", "proofs")


def program_of(name: str) -> str:
    return f"{TOP}/crates/{name}/out/{name}"


def sum_file(name: str) -> str:
    """Beside a program that was built here: the sum of all that it was made of."""
    return f"{program_of(name)}.sum"


@functools.lru_cache(maxsize=None)
def listed() -> dict[str, list[str]]:
    """The libraries of each crate, as crates.txt names them."""
    found = {}
    with open(f"{TOP}/crates.txt", encoding="utf-8") as lines:
        for line in lines:
            head, colon, below = line.split("#")[0].partition(":")
            if colon:
                found[head.split()[0]] = below.split()
    return found


@functools.lru_cache(maxsize=None)
def direct(name: str) -> tuple[str, ...]:
    """The crates of this checkout that a crate names, without the toolchain's."""
    return tuple(it for it in listed()[name] if it in listed())


@functools.lru_cache(maxsize=None)
def below(name: str) -> tuple[str, ...]:
    """All crates below a crate, each behind those below it."""
    
    found: dict[str, None] = {}
    for it in direct(name):
        found.update(dict.fromkeys([*below(it), it]))
    return tuple(found)


def sources(name: str) -> Iterator[str]:
    """The files of a crate that its proof reads, in one order."""
    for part in PARTS:
        for folder, folders, files in os.walk(f"{TOP}/crates/{name}/{part}"):
            folders.sort()
            yield from (f"{folder}/{it}" for it in sorted(files))


@functools.lru_cache(maxsize=None)
def own_sum(name: str) -> str:
    made = hashlib.sha256(repr((name, listed()[name])).encode())
    for path in sources(name):
        with open(path, "rb") as file:
            made.update(repr((os.path.relpath(path, TOP), hashlib.sha256(file.read()).hexdigest())).encode())
    return made.hexdigest()


def sum_of(name: str, toolchain: str) -> str:
    """What tells a built crate from any other: its sources, those of all crates below it, and the toolchain."""
    parts = [toolchain, own_sum(name), *map(own_sum, below(name))]
    return hashlib.sha256("\n".join(parts).encode()).hexdigest()


def is_newer(name: str, moment: float) -> bool:
    """Whether a source of the program, or the list of crates, changed behind this moment."""
    paths = [f"{TOP}/crates.txt", *(path for it in [*below(name), name] for path in sources(it))]
    folders = {os.path.dirname(path) for path in paths[1:]}
    return any(os.stat(path).st_mtime > moment for path in [*paths, *folders])


def is_current(name: str, toolchain: Callable[[], str]) -> bool:
    """Whether the program is built of just these sources: no file changed since, or each is again what it was."""
    program = program_of(name)
    if not os.access(program, os.X_OK):
        return False
    if not is_newer(name, os.stat(program).st_mtime):
        return True
    try:
        with open(sum_file(name), encoding="utf-8") as file:
            return file.read() == sum_of(name, toolchain())
    except OSError:
        return False
