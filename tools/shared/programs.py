"""Which program is run: the one that the environment names, the one that is built of the sources as they are, or one without its proof."""

from __future__ import annotations

import contextlib
import functools
import os
import subprocess
import sys
import tempfile
import time

from shared import toolchain, trying
from shared.crates import is_current, program_of
from shared.toolchain import fail

# The times of files are not finer than this.
CLOCK_SECONDS = 0.05
HOW_TO_BUILD = "`./{0} build` proves and builds it, once: half an hour to an hour on four processors, and it goes on where it was interrupted"


def built_program() -> str | None:
    """The built program, or another one that the environment names; None where there is none."""
    program = os.environ.get("FUXI") or program_of("fuxi")
    return program if os.access(program, os.X_OK) else None


@functools.lru_cache(maxsize=None)
def runnable() -> str:
    """The program fuxi, for a tool."""
    named = os.environ.get("FUXI")
    if named and not os.access(named, os.X_OK):
        fail("fuxi", f"{named}, which the environment has as FUXI, cannot be run")
    return named or current("fuxi")


def replay(program: str, data: bytes) -> subprocess.CompletedProcess[bytes]:
    """The run of a schedule. (It reads a file and no pipe, so whoever feeds it meets no broken one where it ends before its input does.)"""
    with tempfile.TemporaryFile() as file:
        file.write(data)
        file.seek(0)
        return subprocess.run([program, "replay"], stdin=file, capture_output=True)


def current(name: str) -> str:
    """The program of the sources as they are. Where it is not built, standard error says that what runs is not proved."""
    program, moment = program_of(name), time.time() - CLOCK_SECONDS
    if not is_current(name, toolchain.version):
        return without_proof(name)
    # (a source that is newer says the same as before, or is of no crate below the program: the next call need not look again, but at an edit that comes meanwhile)
    with contextlib.suppress(OSError):
        os.utime(program, (moment, moment))
    return program


def without_proof(name: str) -> str:
    stale = " for the sources as they are now" if os.path.exists(program_of(name)) else ""
    if not toolchain.is_there():
        fail(name, f"not built{stale}, and the command rt of the Rattle toolchain, which proves and builds, was not found (CONTRIBUTING.md says where it is from)")
    say(name, f"not built{stale}, so this run is NOT PROVED. {HOW_TO_BUILD.format(name)}")
    try:
        return trying.program(name, lambda text: say(name, text))
    except (trying.NotMade, OSError) as why:
        fail(name, f"it cannot be compiled without its proof:\n{why}")


def say(name: str, text: str) -> None:
    print(f"{name}: {text}", file=sys.stderr, flush=True)
