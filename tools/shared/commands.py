"""The lines that a node is told while it runs. A node that cannot read a line ends, so each is read here before a node gets it, by the program itself."""

from __future__ import annotations

import re
from collections.abc import Sequence

from shared.line_faults import BAD_INPUT, report
from shared.programs import replay
from shared.schedules import is_skipped, read_lines

REFUSED = 1
GREATEST_JOB = 255
# Of the lines of a master that name its epoch first, how many words stand behind that. (Of `submit` that differs.)
BEHIND_EPOCH = {"finish": 1, "ban": 1, "unban": 1, "begin": 0, "preempt": 0}
# What each kind of node takes: the beginnings of its lines.
TAKEN = {
    "master": ["submit", *BEHIND_EPOCH, "resync master", "show"],
    "agent": ["resync agent", "show"],
    "app": ["want", "near", "rack", "avoid", "back", "resync app", "show"],
}
NAMES = {"master": "a master", "agent": "an agent", "app": "an application"}


class NotDone(Exception):
    """A command that was not done: what is answered, and the status of who asked."""

    def __init__(self, lines: list[str], status: int = REFUSED) -> None:
        super().__init__("\n".join(lines))
        self.lines, self.status = lines, status


def with_epoch(line: str, epoch: int) -> str:
    """A line of a master as it takes it. Its epoch may be `*`, or left out: a number in its place that can be a job is one."""
    words = line.split()
    if words[:3] == ["resync", "master", "*"]:
        return f"resync master {epoch}"
    if not words or words[0] != "submit" and words[0] not in BEHIND_EPOCH:
        return line
    head, *rest = words
    if rest[:1] == ["*"]:
        rest = rest[1:]
    elif has_epoch(head, rest):
        return line
    return " ".join([head, str(epoch), *rest])


def has_epoch(head: str, rest: Sequence[str]) -> bool:
    if head == "submit":
        return bool(rest) and rest[0].isdigit() and int(rest[0]) > GREATEST_JOB
    return len(rest) == BEHIND_EPOCH[head] + 1


def checked(program: str, cluster_line: str, line: str, kind: str) -> str:
    """The line, if a node of this kind takes it; else `NotDone` with what is wrong with it."""
    if is_skipped(line):
        raise NotDone(["the line says nothing"], BAD_INPUT)
    if line == "show":
        return line
    data = f"{cluster_line}\n{line}\n".encode("latin-1", "replace")
    found = re.fullmatch(r"line 2: (.+)", replay(program, data).stderr.decode(errors="replace").strip())
    if found:
        raise NotDone(report("-", read_lines(data), 2, found[1]).removeprefix("-:2: ").splitlines(), BAD_INPUT)
    if not any(line.split()[: len(head.split())] == head.split() for head in TAKEN[kind]):
        raise NotDone([f"refused NotHere: {NAMES[kind]} takes {', '.join(TAKEN[kind])}"])
    return line


def answered(lines: list[str]) -> list[str]:
    """What a node printed to a line, or that it is done."""
    if lines and lines[0].startswith("refused "):
        raise NotDone(lines)
    return lines or ["done"]
