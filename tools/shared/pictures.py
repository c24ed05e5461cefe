"""A run as a picture: parties and their packets above, and below over the same events what machines, groups and waiting units have."""

from __future__ import annotations

import textwrap
from collections.abc import Callable, Collection, Iterator
from typing import TypeVar

from shared.packets import packets_of
from shared.picture_charts import Charts
from shared.picture_lanes import Lanes
from shared.picture_style import AT_END, JOB_COLOURS, LABELLED_COLUMN, LEFT, MOST_OF_NAME, NARROWEST, NARROWEST_COLUMN, NOTE_LETTER, NOTES, RIGHT, SLANT, STYLE, TOP_OF_LABELS, WIDEST, WIDEST_COLUMN, WORDS, arrow_head, hatch, word_style
from shared.replays import Event, Run
from shared.states import State
from shared.svg import Drawing

Value = TypeVar("Value")


class Picture:
    """What all parts of a picture share: the columns of the events, the colours, and what was left out."""

    def __init__(self, run: Run, title: str, first: int, last: int) -> None:
        self.run, self.title = run, title
        self.events = [(at, event) for at, event in enumerate(run.events) if first <= event.line.number <= last]
        # (the state before what is drawn stands in front)
        before = [event.state() for event in run.events[: self.events[0][0]][-1:]] if self.events else []
        self.states = [*(before or [State([])]), *(event.state() for _, event in self.events)]
        self.columns = {at: column for column, (at, _) in enumerate(self.events)}
        self.width = max(NARROWEST_COLUMN, min(WIDEST_COLUMN, (WIDEST - LEFT - RIGHT) / max(1, len(self.events))))
        self.jobs, self.packets = run.jobs(), packets_of(run.events)
        # (the colours of the words first: those for a dark screen stand behind them)
        self.left_out, self.drawing, self.y = list[str](), Drawing(word_style() + STYLE), 0.0
        self.drawing.definitions += [*(arrow_head(word) for word in WORDS), hatch()]

    def x(self, column: int, place: float = 0.5) -> float:
        """A place in a column, 0 its left end and 1 its right one."""
        return LEFT + (column + place) * self.width

    def right(self) -> float:
        """The right end, behind the last event, so that its state can be seen."""
        return LEFT + max(1, len(self.events)) * self.width + AT_END

    def edge(self, column: int) -> float:
        """Where the state behind an event begins: behind the arrows that end there. In front of all columns it is -1."""
        if column < 0:
            return self.x(0, 0)
        if column >= len(self.events):
            return self.right()
        return self.x(column, 0.8 if self.events[column][1].line.words[0] == "deliver" else 0.5)

    def whole_width(self) -> float:
        return max(self.right() + RIGHT, NARROWEST)

    def name(self, y: float, text: str) -> None:
        """The words to the left of a line, in smaller letters where they would run into it."""
        self.drawing.text(12, y, text, "name" if len(text) <= MOST_OF_NAME else "name narrow")

    def job_colour(self, job: int) -> str:
        return JOB_COLOURS[job % len(JOB_COLOURS)]

    def runs_of(self, value: Callable[[State], Value]) -> list[tuple[int, int, Value]]:
        """The values of a thing over the states, as first column (-1 before the first event), column behind, value."""
        found: list[tuple[int, int, Value]] = []
        for column, state in enumerate(self.states, -1):
            now = value(state)
            if found and found[-1][2] == now:
                found[-1] = (found[-1][0], column + 1, now)
            else:
                found.append((column, column + 1, now))
        return found

    def draw(self) -> str:
        """The text of the picture."""
        self.head()
        Lanes(self).draw()
        Charts(self).draw()
        self.foot()
        return self.drawing.whole(self.whole_width(), self.y + 10, self.title, self.description())

    def description(self) -> str:
        """What there is to see, for who does not see it."""
        kinds: list[tuple[str, Callable[[State], Collection[int]]]] = [("master", lambda state: state.masters), ("agent", lambda state: state.agents), ("application", lambda state: state.apps)]
        parties = [counted(len({number for state in self.states for number in of(state)}), kind) for kind, of in kinds]
        refused = sum(bool(event.refusal) for _, event in self.events)
        drawn = [packet for packet in self.packets if packet.event in self.columns]
        lost = sum(not packet.heard for packet in drawn)
        return f"A run of {counted(len(self.events), 'event')}, of which {refused} are refused, with {', '.join(parties)}; {counted(len(drawn), 'packet')} were sent, and {lost} not delivered. Below: what each machine enforces and each group uses."

    def head(self) -> None:
        """The title, and above the columns what each event is."""
        self.drawing.text(12, 22, self.title, "title")
        labelled = [(column, event) for column, (_, event) in enumerate(self.events) if self.width >= LABELLED_COLUMN or is_important(event)]
        if self.width < LABELLED_COLUMN:
            self.left_out.append(f"the words of {len(self.events) - len(labelled)} turns, deliveries and demands")
        texts = [(column, short(event.line.text.strip(" ")), is_important(event)) for column, event in labelled]
        rise = max([len(text) for _, text, _ in texts], default=0) * 4.6
        self.y, behind, crowded = TOP_OF_LABELS + 30 + rise, 0.0, 0
        for column, text, important in texts:
            x = self.x(column)
            if x < behind:
                crowded += 1
                continue
            refusal = self.events[column][1].refusal
            kind = ("important" if important else "event") + (" refused" if refusal else "")
            self.drawing.text(x, self.y, text, kind, title=f"refused {' '.join(refusal)}" if refusal else None, transform=SLANT.format(x=f"{x:.1f}", y=f"{self.y:.1f}"))
            behind = x + LABELLED_COLUMN
        if crowded:
            self.left_out.append(f"the words of {crowded} events that stand too close to another one")
        self.y += 12

    def foot(self) -> None:
        """What the colours mean, and what was left out."""
        self.y += 16
        x, seen = 12.0, {heard.word for packet in self.packets for heard in packet.heard} | {"never" for packet in self.packets if not packet.heard}
        for word, (_, _, meaning) in WORDS.items():
            if word not in seen:
                continue
            width = 48 + 6.2 * len(meaning)
            if x + width > self.whole_width():
                x, self.y = 12.0, self.y + 17
            self.drawing.path([(x, self.y - 4), (x + 24, self.y - 4)], f"sample {word}", marker_end=f"url(#{word})")
            self.drawing.text(x + 32, self.y, meaning, "note")
            x += width
        marks = [note for is_there, note in self.marks() if is_there]
        for note in [*([" · ".join(marks)] if marks else []), *NOTES, *(f"left out: {what}" for what in self.left_out)]:
            self.y += 3
            for line in textwrap.wrap(note, int((self.whole_width() - 24) / NOTE_LETTER)):
                self.y += 14
                self.drawing.text(12, self.y, line, "note")


    def marks(self) -> Iterator[tuple[bool, str]]:
        """What the marks mean that are there."""
        words = {event.line.words[0] for _, event in self.events if not event.refusal}
        yield any(event.refusal for _, event in self.events), "a line that is struck out was refused"
        yield not words.isdisjoint(("stop", "halt")), "a bar across a master: it stopped"
        yield "halt" in words, "with a cross: within a writing"


def counted(count: int, what: str) -> str:
    return f"{count} {what}{'' if count == 1 else 's'}"


def is_important(event: Event) -> bool:
    return event.line.words[0] not in ("turn", "deliver", "show", "dump", "want", "near", "rack", "avoid", "back", "resync")


def short(text: str) -> str:
    return text if len(text) <= 26 else f"{text[:24]}.."
