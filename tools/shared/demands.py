"""Which machines a job avoids, as each master has heard it. The program's state does not print that, so it is followed through the packets: what
an application avoids when it sends, the master knows when it hears."""

from __future__ import annotations

from collections.abc import Iterable

from shared.replays import Event

# An application sends so many changes in a turn at most, and then the last one need not be its present demand.
MOST_CHANGES = 64


# Pairs of unit and machine.
Pairs = frozenset[tuple[int, int]]


class Avoided:
    """Walk it over the events in their order; it then has, by master and job, the pairs of unit and machine that are avoided."""

    def __init__(self, events: Iterable[Event]) -> None:
        self.own: dict[int, Pairs] = {}
        self.packets: dict[int, tuple[int, int, Pairs | None]] = {}
        self.heard: dict[tuple[int, int], Pairs] = {}
        for event in events:
            self.take(event)

    def take(self, event: Event) -> None:
        words = event.line.words
        if event.refusal:
            return
        if words[0] == "app":
            self.own[int(words[1])] = frozenset()
        elif words[0] == "avoid":
            job, pair = int(words[1]), frozenset([(int(words[2]), int(words[3]))])
            own: Pairs = self.own.get(job, frozenset())
            self.own[job] = own | pair if words[4] == "1" else own - pair
        elif words[:2] == ["turn", "app"]:
            self.send(int(words[2]), event.printed)
        elif words[0] == "deliver":
            for printed in event.printed:
                self.hear(*printed.split())

    def send(self, job: int, printed: Iterable[str]) -> None:
        """The last ledger or change of a turn has the present demand, unless there were more changes than a turn sends."""
        sent = [it.split() for it in printed if it.split()[4] in ("full", "delta")]
        for words in sent:
            is_present = words is sent[-1] and len(sent) < MOST_CHANGES
            self.packets[int(words[1])] = (job, int(words[3].split("/")[1]), self.own.get(job, frozenset()) if is_present else None)

    def hear(self, _: str, number: str, *words: str) -> None:
        if int(number) not in self.packets:
            return
        job, epoch, avoided = self.packets[int(number)]
        if words[0] == "new":
            self.heard[epoch, job] = frozenset()
        if words[-1] == "taken" and avoided is not None:
            self.heard[epoch, job] = avoided

    def by(self, epoch: int, job: int) -> Pairs:
        return self.heard.get((epoch, job), frozenset())
