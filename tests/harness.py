"""What the scripts of this folder share: the programs that they run, what they compare, processes that have ended when a script has, and its last line."""

from __future__ import annotations

import contextlib
import os
import select
import subprocess
import sys
import time
from collections.abc import Callable, Iterator, Sequence
from typing import IO, Any

TOP = os.path.dirname(os.path.dirname(os.path.abspath(__file__)))
TOOLS = f"{TOP}/tools"
sys.path.insert(0, TOOLS)

# How long anything may take that comes at once on a machine that has nothing else to do. Whoever waits so long fails, so it costs nothing to wait long.
PATIENCE = 120.0
LOOK_SECONDS = 0.05
# The words of a text that is too long for a line.
MOST_SHOWN = 1500


def built(name: str) -> str:
    """The built program of this checkout."""
    return f"{TOP}/crates/{name}/out/{name}"


PROGRAM = built("fuxi")


class Test:
    """A script: what it has found otherwise than it should be."""

    def __init__(self, name: str) -> None:
        self.name, self.failed = f"tests/{name}", list[str]()

    def compare(self, what: str, wanted: object, found: object) -> None:
        if wanted != found:
            self.fail(what, f"wanted {shortened(wanted)}, found {shortened(found)}")

    def fail(self, what: str, why: str) -> None:
        self.failed.append(what)
        self.say(f"{what}: {why}")

    def within(self, what: str, holds: Callable[[], object], patience: float = PATIENCE) -> bool:
        """Whether this came to hold in time; it is a failure where it did not."""
        if not in_time(holds, patience):
            self.fail(what, f"not within {patience:.0f} seconds")
            return False
        return True

    def say(self, text: str) -> None:
        print(f"{self.name}: {text}", file=sys.stderr)

    def needs(self, *programs: str) -> None:
        """Ends the script where a program is not built."""
        for program in programs:
            if not os.access(program, os.X_OK):
                name = os.path.basename(program)
                sys.exit(f"{self.name}: {name} is not built: `rt ci` and `./{name} build` do that")

    def needs_no(self, what: str, is_there: bool) -> bool:
        """Whether the script can be run at all; it says so where it cannot."""
        if not is_there:
            print(f"{self.name}: {what}, so it is not run")
        return is_there

    def end(self, said: str = "ok") -> int:
        """The last line, and the status."""
        print(f"{self.name}: {len(self.failed)} failed" if self.failed else f"{self.name}: {said}")
        return 1 if self.failed else 0


def shortened(value: object) -> str:
    text = repr(value)
    return text if len(text) <= MOST_SHOWN else f"{text[: MOST_SHOWN // 2]} .. {text[-MOST_SHOWN // 2 :]}"


def in_time(holds: Callable[[], object], patience: float = PATIENCE, look_seconds: float = LOOK_SECONDS) -> bool:
    """Whether this comes to hold."""
    limit = time.monotonic() + patience
    while not holds():
        if time.monotonic() > limit:
            return False
        time.sleep(look_seconds)
    return True


def read(path: str) -> bytes:
    with open(path, "rb") as file:
        return file.read()


def read_text(path: str) -> str:
    with open(path, encoding="utf-8") as file:
        return file.read()


def write(path: str, data: bytes | str) -> None:
    with open(path, "wb") as file:
        file.write(data.encode() if isinstance(data, str) else data)


def run(*words: str, text: str = "", top: str = TOP, **environment: str) -> tuple[int, str, str]:
    """The status, the output and the error text of a command that is run in this checkout, or in another folder."""
    ran = subprocess.run(words, input=text, capture_output=True, text=True, timeout=5 * PATIENCE, cwd=top, env={**os.environ, **environment})
    return ran.returncode, ran.stdout, ran.stderr


def pipe_of(pipe: IO[str] | None) -> IO[str]:
    """A pipe of a process that was started with it."""
    assert pipe
    return pipe


@contextlib.contextmanager
def started(words: Sequence[str], **how: Any) -> Iterator[subprocess.Popen[str]]:
    """A process that has ended when the block has, however that ends."""
    given: dict[str, Any] = {"stdin": subprocess.DEVNULL, "text": True, **how}
    process = subprocess.Popen(words, **given)
    try:
        yield process
    finally:
        process.kill()
        process.wait()
        for pipe in (process.stdin, process.stdout, process.stderr):
            if pipe:
                with contextlib.suppress(OSError):
                    pipe.close()


def line_of(process: subprocess.Popen[str], stream: str = "stdout") -> str:
    """The next line that a process prints, or what came of it in time."""
    pipe, said, limit = getattr(process, stream), b"", time.monotonic() + PATIENCE
    while not said.endswith(b"\n") and select.select([pipe], [], [], max(0.0, limit - time.monotonic()))[0]:
        # (byte by byte: whoever reads the rest of the pipe finds all of it)
        piece = os.read(pipe.fileno(), 1)
        if not piece:
            break
        said += piece
    return said.decode(errors="replace")


def status_of(process: subprocess.Popen[str]) -> int | str:
    """The status with which a process ends, or that it does not."""
    try:
        return process.wait(PATIENCE)
    except subprocess.TimeoutExpired:
        return "it hangs"


def processes_in(folder: str) -> list[int]:
    """The processes that run in a folder."""
    found, place = [], os.path.realpath(folder)
    for number in filter(str.isdigit, os.listdir("/proc")):
        with contextlib.suppress(OSError):
            if os.path.realpath(f"/proc/{number}/cwd") == place:
                found.append(int(number))
    return found


def left_in(folder: str) -> list[int]:
    """Those that are still there once all have had the time to end that were ended."""
    in_time(lambda: not processes_in(folder))
    return processes_in(folder)
