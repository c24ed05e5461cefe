"""A schedule run by the program, event by event, with the state behind each. All that is known of a run is the program's own text."""

from __future__ import annotations

import re
from collections.abc import Iterable, Iterator

from shared.programs import replay, runnable
from shared.schedules import Cluster, Job, Line, read_lines
from shared.states import State

# A schedule that is read from standard input.
STREAM = "-"


class BadRun(Exception):
    """The program did not run the whole schedule: its status, and its line on standard error."""

    def __init__(self, status: int, said: str) -> None:
        super().__init__(said)
        self.status, self.said = status, said


def read_file(path: str) -> bytes:
    with open(0 if path == STREAM else path, "rb") as file:
        return file.read()


def run_program(data: bytes) -> tuple[int, list[str], str]:
    """The status, the lines of the output and the error text of a run."""
    ran = replay(runnable(), data)
    said = ran.stderr.decode(errors="replace").strip().splitlines()
    return ran.returncode, ran.stdout.decode("latin-1").splitlines(), said[-1] if said else ""


class Event:
    """A line of a schedule, what it printed, and the state behind it."""

    def __init__(self, line: Line, printed: list[str], state_lines: list[str]) -> None:
        self.line, self.printed, self.state_lines = line, printed, state_lines
        self.refusal = next((it.split()[1:] for it in printed if it.startswith("refused ")), None)

    def state(self) -> State:
        return State(self.state_lines)


class Run:
    """A whole run: its cluster, its events, and the jobs that were submitted."""

    def __init__(self, data: bytes) -> None:
        lines = read_lines(data)
        status, out, said = run_program("".join(f"{text}\n" for text in with_states(lines)).encode("latin-1"))
        if status:
            raise BadRun(status, in_own_numbers(said, lines))
        self.cluster, self.events, at = Cluster(lines[0]), list[Event](), 0
        for count, line in enumerate(lines[1:], 1):
            behind = next(place for place in range(at, len(out)) if out[place].startswith("state "))
            end = next(place for place in range(behind, len(out)) if out[place].startswith("packets ")) + 1
            state = [f"state {count}", *out[behind + 1 : end]]
            printed = state if line.words == ["show"] else out[at:behind]
            self.events.append(Event(line, printed, state))
            at = end

    def jobs(self) -> dict[int, Job]:
        """The jobs that were written, by their numbers: also one that was written by a master that stopped within it."""
        found = {}
        for event in self.events:
            words = event.line.words
            if words[0] == "halt":
                words = words[3:] if any(it.endswith(" after") for it in event.printed) else words[:1]
            if words[0] == "submit" and not event.refusal:
                job = Job(words)
                found[job.number] = job
        return found


def with_states(lines: Iterable[Line]) -> Iterator[str]:
    """The lines, and behind each event that does not show the state itself one that does."""
    for place, line in enumerate(lines):
        yield line.text
        if place and line.words != ["show"]:
            yield "show"


def in_own_numbers(said: str, lines: list[Line]) -> str:
    """The program's error with the number of the line in the schedule, in place of the one that it was given."""
    found = re.match(r"line (\d+): ", said)
    if not found:
        return said
    asked = [line.number for place, line in enumerate(lines) for _ in range(2 if place and line.words != ["show"] else 1)]
    number = asked[int(found[1]) - 1] if int(found[1]) <= len(asked) else (asked or [0])[-1] + 1
    return f"line {number}: {said[found.end():]}"
