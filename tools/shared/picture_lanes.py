"""The upper part of a picture: a line for each party, and the packets as arrows between them."""

from __future__ import annotations

from collections.abc import Callable, Mapping
from typing import TYPE_CHECKING, Union

from shared.packets import Heard, Packet
from shared.picture_style import LABELLED_COLUMN
from shared.states import Agent, App, State

if TYPE_CHECKING:
    from shared.pictures import Picture

LANE, MOST_LANES = 24.0, 40
# Past so many arrows, those of acknowledgements are left out.
MOST_ARROWS = 700
KINDS = {"master": "masters", "agent": "agents", "app": "applications"}


class Lanes:
    def __init__(self, picture: Picture) -> None:
        self.picture, self.drawing = picture, picture.drawing
        self.places: dict[tuple[str, int], float] = {}
        self.counts: dict[str, int] = {}

    def parties(self) -> dict[str, list[int]]:
        """All that ever ran: masters, agents, applications."""
        masters = sorted({epoch for state in self.picture.states for epoch in state.masters})
        agents = sorted({machine for state in self.picture.states for machine in state.agents})
        apps = sorted({job for state in self.picture.states for job in state.apps})
        return {"master": masters, "agent": agents, "app": apps}

    def drawn(self) -> list[tuple[str, int]]:
        """Those that are drawn: where there are too many, some of each kind, by their numbers."""
        left, found = MOST_LANES, self.parties()
        for share, kind in ((4, "master"), (2, "app"), (1, "agent")):
            others = sum(len(numbers) for other, numbers in found.items() if other != kind and other not in self.counts)
            self.counts[kind] = min(len(found[kind]), max(left // share, left - others))
            left -= self.counts[kind]
            missing = len(found[kind]) - self.counts[kind]
            if missing:
                self.picture.left_out.append(f"the lines of {missing} {KINDS[kind]}, with their packets")
        return [(kind, number) for kind, numbers in found.items() for number in numbers[: self.counts[kind]]]

    def draw(self) -> None:
        drawn = self.drawn()
        self.draw_columns(self.picture.y, self.picture.y + LANE * len(drawn))
        for party in drawn:
            self.picture.y += LANE
            self.places[party] = self.picture.y
            self.draw_lane(*party)
        self.draw_packets()
        self.picture.y += 14

    def draw_columns(self, top: float, bottom: float) -> None:
        if self.picture.width >= LABELLED_COLUMN:
            for column in range(len(self.picture.events)):
                x = self.picture.x(column)
                self.drawing.line(x, top + 8, x, bottom + 6, "column")

    def draw_lane(self, role: str, number: int) -> None:
        y, names = self.picture.y, {"master": "master {}", "agent": "agent of machine {}", "app": "application {}"}
        self.picture.name(y + 4, names[role].format(number))
        self.drawing.line(self.picture.x(0, 0), y, self.picture.right(), y, "lane")
        if role == "master":
            self.draw_master(number, y)
        else:
            self.draw_boots(role, number, y)

    def draw_master(self, epoch: int, y: float) -> None:
        for first, behind, phase in self.picture.runs_of(lambda state: state.masters[epoch].phase if epoch in state.masters else None):
            if phase:
                start, end = self.picture.edge(first), self.picture.edge(behind)
                self.drawing.rect(start, y - 4, end - start, 8, phase)
                if end - start > 70:
                    self.drawing.text(start + 3, y - 6, phase, "small")
            elif first >= 0:
                self.draw_end(first, y)

    def draw_end(self, column: int, y: float) -> None:
        """The mark where a master stopped, with a cross where that was within a writing."""
        event, x = self.picture.events[column][1], self.picture.edge(column)
        if event.line.words[0] in ("stop", "halt") and not event.refusal:
            self.drawing.line(x, y - 8, x, y + 8, "end")
            if event.line.words[0] == "halt":
                self.cross(x, y, "cross end")

    def draw_boots(self, role: str, number: int, y: float) -> None:
        """A line while it runs, with a circle at each start; and red while its machine is banned."""
        if role == "agent":
            for first, behind, is_banned in self.picture.runs_of(lambda state: number in state.bans):
                if is_banned:
                    self.drawing.rect(self.picture.edge(first), y - 9, self.picture.edge(behind) - self.picture.edge(first), 18, "banned")
        kinds: dict[str, Callable[[State], Mapping[int, Union[Agent, App]]]] = {"agent": lambda state: state.agents, "app": lambda state: state.apps}
        running = kinds[role]
        for first, behind, boot in self.picture.runs_of(lambda state: running(state)[number].boot if number in running(state) else None):
            if boot:
                start = self.picture.edge(first)
                self.drawing.line(start, y, self.picture.edge(behind), y, "runs")
                # (one that ran before what is drawn does not start there)
                if first >= 0:
                    self.drawing.add("circle", cx=start, cy=float(y), r=3.2, kind="start")
                if boot > 1:
                    self.drawing.text(start + 4, y - 5, f"boot {boot}", "small")

    def at(self, event: int, place: int, of: int) -> float | None:
        """Where in the column of an event one of its packets stands; nothing where the event is not drawn."""
        column = self.picture.columns.get(event)
        return None if column is None else self.picture.x(column, 0.2 + 0.6 * (place + 0.5) / max(1, of))

    def draw_packets(self) -> None:
        packets = [it for it in self.picture.packets if it.sender in self.places and it.receiver in self.places or it.receiver[0] == "master"]
        count = sum(len(it.heard) for it in packets)
        leaves_acks, skipped, outside = count > MOST_ARROWS, 0, 0
        for packet in packets:
            for heard in packet.heard:
                if leaves_acks and heard.word == "ack":
                    skipped += 1
                else:
                    outside += not self.draw_arrow(packet, heard)
            if not packet.heard:
                if leaves_acks and packet.kind == "ack":
                    skipped += 1
                else:
                    outside += not self.draw_undelivered(packet)
        if skipped:
            self.picture.left_out.append(f"the arrows of {skipped} acknowledgements")
        if outside:
            self.picture.left_out.append(f"{outside} packets that were sent or heard outside of what is drawn")

    def draw_arrow(self, packet: Packet, heard: Heard) -> bool:
        start, end = self.at(packet.event, packet.place, packet.of), self.at(heard.event, heard.place, heard.of)
        if start is None or end is None or packet.sender not in self.places or packet.receiver not in self.places:
            return False
        y, to = self.places[packet.sender], self.places[packet.receiver]
        title = f"packet {packet.number}: {packet.kind} {packet.index}, {packet.size} bytes, heard: {' '.join(heard.words)}"
        self.drawing.path([(start, y), (end, to)], f"heard {heard.word}", title, marker_end=f"url(#{heard.word})")
        if heard.words[0] == "new":
            self.drawing.add("circle", cx=end, cy=to, r=2.6, kind=f"fresh {heard.word}")
        if heard.word == "lost":
            self.cross(end, to, "cross lost")
        return True

    def draw_undelivered(self, packet: Packet) -> bool:
        """A short dashed line that ends in a cross."""
        start = self.at(packet.event, packet.place, packet.of)
        if start is None or packet.sender not in self.places:
            return False
        y = self.places[packet.sender]
        away = 1 if self.places.get(packet.receiver, y + 1) > y else -1
        end = (start + 3, y + 11 * away)
        self.drawing.path([(start, y), end], "never", f"packet {packet.number}: {packet.kind} {packet.index}, {packet.size} bytes, not delivered", stroke_dasharray="2 2")
        self.cross(*end, "cross never")
        return True

    def cross(self, x: float, y: float, kind: str) -> None:
        self.drawing.add("path", d=f"M{x - 2.5:.1f} {y - 2.5:.1f} l5 5 m0 -5 l-5 5", kind=kind)
