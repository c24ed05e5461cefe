"""A schedule in which packets are named by the turn that sends them, to whom, and as which of those, so that lines can be left out: in a run of what is
left each packet has the number that it has there."""

from __future__ import annotations

import contextlib
from collections.abc import Iterable

from shared.driver import Driver, NotTaken
from shared.schedules import Line
from shared.storms import PRINT

# A packet's name: the place of the turn that sends it, to whom, and as which of those.
Name = tuple[int, tuple[str, ...], int]


class Item:
    """An event line and, of one that names packets, the packets."""

    def __init__(self, place: int, text: str) -> None:
        self.place, self.text, self.words = place, text, Line(0, text).words
        self.packets: list[Name] | None = None

    def names_packets(self) -> bool:
        return self.words[0] in ("deliver", "dump")


class Names:
    """The numbers of packets in a run, by their names, and the other way round."""

    def __init__(self) -> None:
        self.numbers: dict[Name, int] = {}
        self.names: dict[int, Name] = {}

    def take(self, place: int, printed: Iterable[str]) -> None:
        """What a turn has sent."""
        counts: dict[tuple[str, ...], int] = {}
        for words in (line.split() for line in printed if line.startswith("sent ")):
            # (parties are told apart by role and number, whatever their boots)
            receiver = tuple(words[3].split("/")[:2])
            counts[receiver] = counts.get(receiver, 0) + 1
            name = (place, receiver, counts[receiver])
            self.numbers[name], self.names[int(words[1])] = int(words[1]), name

    def named(self, words: list[str]) -> list[Name] | None:
        """The names of the packets that a line names by numbers; nothing where one was not sent."""
        if not all(it.isdigit() for it in words[1:]) or len(words) < 2:
            return None
        numbers = range(int(words[1]), int(words[-1]) + 1)
        return [self.names[it] for it in numbers] if len(numbers) <= len(self.names) and all(it in self.names for it in numbers) else None

    def line(self, item: Item) -> str | None:
        """A line with the numbers that its packets have here; nothing where none of them was sent."""
        found = [self.numbers[it] for it in item.packets or () if it in self.numbers]
        if not found:
            return None
        first, last = min(found), max(found)
        return f"{item.words[0]} {first}" if len(item.words) == 2 else f"{item.words[0]} {first} {last}"


def played(program: str, cluster: str, items: Iterable[Item], is_first: bool = False) -> list[str]:
    """The plain lines of these items. In the first run, of all of them, the packets get their names."""
    names, lines = Names(), list[str]()
    # (where the program ends over one of these lines, it does so in the run of them, too, and what is behind them says nothing)
    with contextlib.suppress(NotTaken), Driver(program, cluster) as run:
        for item in items:
            if is_first and item.names_packets():
                item.packets = names.named(item.words)
            line = item.text if item.packets is None else names.line(item)
            if line is None:
                continue
            lines.append(line)
            run.tell(line)
            if item.words[0] in PRINT:
                names.take(item.place, run.ask())
    return lines
