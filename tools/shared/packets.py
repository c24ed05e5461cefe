"""The packets of a run: where each was sent, and where it was heard, how often and as what."""

from __future__ import annotations

from collections.abc import Iterable

from shared.replays import Event


class Heard:
    """One delivery: its event, its place among those of the event, and the words that were printed."""

    def __init__(self, event: int, place: int, of: int, words: list[str]) -> None:
        self.event, self.place, self.of, self.words = event, place, of, words

    @property
    def word(self) -> str:
        """The word of the rule that ended it."""
        return self.words[-1]


class Packet:
    def __init__(self, event: int, place: int, of: int, words: list[str]) -> None:
        _, number, sender, receiver, self.kind, self.index, self.size = words
        self.event, self.place, self.of, self.number = event, place, of, int(number)
        self.sender, self.receiver = party_of(sender), party_of(receiver)
        self.heard: list[Heard] = []


def party_of(text: str) -> tuple[str, int]:
    """The role and the number of a party, where masters are told apart by their epochs, and others not by their boots."""
    role, *numbers = text.split("/")
    return role, int(numbers[0])


def packets_of(events: Iterable[Event]) -> list[Packet]:
    """The packets of these events in their order. Events are counted from 0."""
    found: dict[int, Packet] = {}
    for at, event in enumerate(events):
        sent = [it.split() for it in event.printed if it.startswith("sent ")]
        for place, words in enumerate(sent):
            packet = Packet(at, place, len(sent), words)
            found[packet.number] = packet
        heard = [it.split() for it in event.printed if it.startswith("heard ")]
        for place, (_, number, *words) in enumerate(heard):
            found[int(number)].heard.append(Heard(at, place, len(heard), words))
    return list(found.values())
