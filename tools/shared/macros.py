"""Lines that stand for several lines of a schedule, which depend on what has happened so far."""

from __future__ import annotations

from collections.abc import Iterable

from shared.driver import Driver, NotTaken
from shared.event_words import FORMS, JOB, MACHINE, head_of
from shared.schedules import Cluster, Line

# A cluster that is left alone has nothing to tell any more after fewer rounds.
MOST_ROUNDS = 100
EVERY = "*"


# A plain line, and what it printed.
Told = tuple[str, list[str]]


class BadMacro(Exception):
    """A line of the script cannot be done, and why."""


class Script:
    """A script over a running replay: each of its lines becomes plain lines, which are done at once."""

    def __init__(self, program: str, cluster_line: Line) -> None:
        self.live = Driver(program, cluster_line.text)
        try:
            self.live.state_lines()
        except NotTaken as why:
            raise BadMacro(str(why)) from None
        self.cluster, self.open = Cluster(cluster_line), set[int]()

    def close(self) -> None:
        self.live.close()

    def take(self, words: list[str]) -> list[Told]:
        """The plain lines of a macro, each with what it printed."""
        if EVERY in words:
            return self.each(self.over_all(words))
        if words == ["calm"]:
            return self.calm()
        if words == ["quiet"]:
            return self.until_quiet()
        if words == ["deliver", "new"]:
            return self.deliver(sorted(self.open))
        self.open -= self.lost(words[1:])
        return []

    def each(self, lines: Iterable[str]) -> list[Told]:
        """Does plain lines, and answers each with what it printed."""
        before = self.live.sent
        try:
            done = self.live.take(lines)
        except NotTaken as why:
            raise BadMacro(f"{why.line}: {why}") from None
        self.open |= set(range(before + 1, self.live.sent + 1))
        for line, _ in done:
            self.note_delivered(line.split())
        return done

    def note_delivered(self, words: list[str]) -> None:
        if words[0] == "deliver" and all(it.isdigit() for it in words[1:]):
            first, last = int(words[1]), int(words[-1])
            self.open -= set(range(first, min(last, self.live.sent) + 1))

    def deliver(self, packets: Iterable[int]) -> list[Told]:
        """Deliveries of these packets, as ranges."""
        return self.each(f"deliver {first}" if first == last else f"deliver {first} {last}" for first, last in runs_of(packets))

    def lost(self, words: list[str]) -> set[int]:
        if words == ["new"]:
            return set(self.open)
        if len(words) in (1, 2) and all(it.isdigit() for it in words):
            first, last = int(words[0]), int(words[-1])
            if 1 <= first <= last <= self.live.sent:
                return set(range(first, last + 1))
            raise BadMacro(f"lose: the packets so far are 1 to {self.live.sent}")
        raise BadMacro("lose takes a packet, two of them, or new")

    def over_all(self, words: list[str]) -> list[str]:
        """The line once for each machine, agent, job or application that its `*` stands for."""
        place, head = words.index(EVERY), head_of(words)
        kind = FORMS[head][place - len(head)] if head and len(head) <= place < len(head) + len(FORMS[head]) else None
        if kind is None or kind not in (MACHINE, JOB) or words.count(EVERY) > 1:
            raise BadMacro("`*` stands once in a line, for a machine or for a job")
        return [" ".join([*words[:place], str(number), *words[place + 1 :]]) for number in self.numbers(words, kind)]

    def numbers(self, words: list[str], kind: tuple[str, str]) -> Iterable[int]:
        state = self.live.state()
        if kind is MACHINE:
            return sorted(state.agents) if words[0] in ("turn", "resync") else range(len(self.cluster.machines))
        live = sorted(number for number, (_, phase) in state.jobs.items() if phase == "live")
        return live if words[0] in ("app", "finish") else sorted(state.apps)

    def calm(self) -> list[Told]:
        """The newest master sends and is heard, and then all agents and applications."""
        state = self.live.state()
        done = self.send([f"turn master {max(state.masters)}"] if state.masters else [])
        return done + self.send([*(f"turn agent {it}" for it in sorted(state.agents)), *(f"turn app {it}" for it in sorted(state.apps))])

    def send(self, turns: Iterable[str]) -> list[Told]:
        before = self.live.sent
        done = self.each(turns)
        return done + self.deliver(range(before + 1, self.live.sent + 1))

    def until_quiet(self) -> list[Told]:
        done: list[Told] = []
        for _ in range(MOST_ROUNDS):
            one = self.calm()
            done += one
            if not any(it.split()[4] != "ack" for _, printed in one for it in printed if it.startswith("sent ")):
                return done
        raise BadMacro(f"after {MOST_ROUNDS} calm rounds there is still something to tell")


def runs_of(numbers: Iterable[int]) -> list[tuple[int, int]]:
    """Rising numbers as first and last of each part without a gap."""
    found: list[tuple[int, int]] = []
    for number in numbers:
        if found and found[-1][1] == number - 1:
            found[-1] = (found[-1][0], number)
        else:
            found.append((number, number))
    return found


def is_macro(words: list[str]) -> bool:
    return EVERY in words or words in (["calm"], ["quiet"], ["deliver", "new"]) or words[:1] == ["lose"]
