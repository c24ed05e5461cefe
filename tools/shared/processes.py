"""A node as a process that is told lines."""

from __future__ import annotations

import os
import select
import subprocess
import time
from collections import deque
from collections.abc import Iterable, Sequence
from typing import Any, Union

from shared.endings import leashed

# How long a node may take for a line, on a machine that has much else to do.
PATIENCE = 30.0
# What a node prints to a line of another kind of node.
NOT_HERE = "refused NotHere"


# A program, or the words that run it.
Command = Union[str, Sequence[str]]


class Difference(Exception):
    """A node did what it must not do, or did not what it has to do."""


def new_journal() -> deque[str]:
    """The last things that were done, to be printed with a difference."""
    return deque(maxlen=60)


class Node:
    """A node as a process of the program, or of these words that run it. Whatever is waited for has a time limit: a node that hangs is a difference, and no script that hangs."""

    def __init__(self, program: Command, folder: str, words: Sequence[object], cluster_line: str, journal: deque[str]) -> None:
        self.name, self.program, self.journal, self.events, self.unread = " ".join(map(str, words)), program, journal, 0, b""
        # (refused by each node of this kind: once that is printed, all that was told before is done)
        self.aside = "round" if words[0] == "master" else "serve"
        pipes: dict[str, Any] = {"stdin": subprocess.PIPE, "stdout": subprocess.PIPE, "stderr": subprocess.PIPE, "bufsize": 0, **leashed()}
        front = [program] if isinstance(program, str) else list(program)
        self.process: subprocess.Popen[bytes] = subprocess.Popen([*front, "node", *map(str, words)], cwd=folder, **pipes)
        assert self.process.stdin and self.process.stdout and self.process.stderr
        self.stdin, self.stdout, self.stderr = self.process.stdin, self.process.stdout, self.process.stderr
        self.note("starts")
        self.write([cluster_line])

    def note(self, what: str) -> None:
        self.journal.append(f"{self.name}: {what}")

    def write(self, lines: Iterable[str]) -> None:
        try:
            self.stdin.write("".join(f"{line}\n" for line in lines).encode())
        except BrokenPipeError:
            raise self.ended_by_itself() from None

    def ended_by_itself(self) -> Difference:
        status = self.process.wait(PATIENCE)
        return Difference(f"{self.name} has ended by itself with status {status} and {self.stderr.read().decode()!r}")

    def tell(self, *lines: str) -> None:
        """Hands it event lines, and waits for nothing."""
        for line in lines:
            self.note(f"is told {line}")
        self.events += len(lines)
        self.write(lines)

    def read_line(self) -> str | None:
        """The next line that it prints, or None where no more comes."""
        limit = time.monotonic() + PATIENCE
        while b"\n" not in self.unread:
            if not select.select([self.stdout], [], [], max(0.0, limit - time.monotonic()))[0]:
                raise Difference(f"{self.name} prints nothing for {PATIENCE:.0f} seconds")
            piece = os.read(self.stdout.fileno(), 65536)
            if not piece:
                return None
            self.unread += piece
        line, _, self.unread = self.unread.partition(b"\n")
        self.note(f"prints {line.decode()}")
        return line.decode()

    def has_line_within(self, seconds: float) -> bool:
        """Whether it prints something that was not read, and so long at most it takes to know."""
        return bool(self.unread or select.select([self.stdout], [], [], seconds)[0])

    def next_line(self) -> str:
        """The next line that it prints: it has to print one."""
        line = self.read_line()
        if line is None:
            raise self.ended_by_itself()
        return line

    def expect(self, wanted: str) -> None:
        """The next line that it prints is this one."""
        found = self.next_line()
        if found != wanted:
            raise Difference(f"{self.name} prints {found!r}, and not {wanted!r}")

    def ask(self, *lines: str) -> list[str]:
        """All that it prints to these lines."""
        self.tell(*lines, self.aside)
        printed = []
        while (line := self.next_line()) != NOT_HERE:
            printed.append(line)
        return printed

    def show(self) -> list[str]:
        """Its state, without the first line, which counts the events."""
        counted = self.events + 1
        first, *lines = self.ask("show")
        if first != f"state {counted}":
            raise Difference(f"{self.name} prints {first!r} at event {counted}")
        return lines

    def read_all(self) -> list[str]:
        """The whole lines that it prints to its end."""
        lines = []
        while (line := self.read_line()) is not None:
            lines.append(line)
        return lines

    def end(self) -> tuple[list[str], int, str]:
        """Ends its input: what it prints then, its status, and its error stream."""
        self.note("has no more lines")
        self.stdin.close()
        lines, status = self.read_all(), self.process.wait(PATIENCE)
        errors = self.stderr.read().decode()
        self.close_pipes()
        return lines, status, errors

    def end_quietly(self) -> None:
        """Ends its input, at which it prints its state once more, and nothing is wrong."""
        shown, events = self.show(), self.events
        found = self.end()
        if found != ([f"state {events}", *shown], 0, ""):
            raise Difference(f"{self.name} ends with {found}, and its state was {shown} after {events} events")

    def kill(self) -> list[str]:
        """Kills it where it stands: what it printed and was not read."""
        self.note("is killed")
        self.process.kill()
        self.process.wait(PATIENCE)
        lines = self.read_all()
        self.close_pipes()
        return lines

    def is_running(self) -> bool:
        return self.process.poll() is None

    def close_pipes(self) -> None:
        for pipe in [self.stdin, self.stdout, self.stderr]:
            pipe.close()
