"""The lower part of a picture: over the events, the use of each machine, of each group, and the units that wait."""

from __future__ import annotations

import textwrap
from collections.abc import Iterator, Sequence
from typing import TYPE_CHECKING

from shared.picture_style import NOTE_LETTER
from shared.states import State, used_by, used_on

if TYPE_CHECKING:
    from shared.pictures import Picture

ROW, GAP = 17.0, 9.0
MOST_MACHINES, MOST_RESOURCES, MOST_GROUPS, MOST_UNITS = 24, 3, 12, 24
LEFT_OF_JOBS = 150.0
# A use above its limit is drawn up to here.
TALLEST = 1.2


class Charts:
    def __init__(self, picture: Picture) -> None:
        self.picture, self.drawing, self.cluster = picture, picture.drawing, picture.run.cluster
        self.resources = range(min(self.cluster.resources, MOST_RESOURCES))
        self.epochs = sorted({epoch for state in picture.states for epoch in state.masters})

    def draw(self) -> None:
        self.cut("machines", len(self.cluster.machines), MOST_MACHINES)
        self.cut("kinds of resource", self.cluster.resources, MOST_RESOURCES)
        self.cut("groups", len(self.cluster.groups), MOST_GROUPS)
        for machine in range(min(len(self.cluster.machines), MOST_MACHINES)):
            self.machine(machine)
        for group in range(min(len(self.cluster.groups), MOST_GROUPS)):
            self.group(group)
        self.waiting()
        self.jobs()

    def cut(self, what: str, count: int, most: int) -> None:
        if count > most:
            self.picture.left_out.append(f"{count - most} {what}")

    def rows(self, title: str, quantities: Sequence[int]) -> Iterator[tuple[int, float]]:
        """The bottom of each row of a chart, one for each kind of resource, with its frame; full, a row is the quantity that stands behind it."""
        top = self.picture.y + GAP
        self.picture.name(top + 12, title)
        for resource in self.resources:
            y = top + (resource + 1) * (ROW + 2)
            self.drawing.rect(self.picture.x(0, 0), y - ROW, self.picture.right() - self.picture.x(0, 0), ROW, "frame")
            self.drawing.text(self.picture.right() + 4, y - 5, f"resource {resource}: {short_quantity(quantities[resource])}", "small", title=f"{quantities[resource]:,}")
            self.picture.y = y
            yield resource, y

    def machine(self, machine: int) -> None:
        _, has = self.cluster.machines[machine]
        for resource, y in self.rows(f"machine {machine}", has):
            self.background(machine, y)
            self.enforced(machine, resource, has[resource], y)
            for epoch in self.epochs:
                self.granted(epoch, machine, resource, has[resource], y)

    def background(self, machine: int, y: float) -> None:
        for first, behind, mark in self.picture.runs_of(lambda state: (machine not in state.agents, machine in state.bans)):
            for is_so, kind in zip(mark, ("down", "banned")):
                if is_so:
                    self.bar(first, behind, y, ROW, kind)

    def bar(self, first: int, behind: int, y: float, height: float, kind: str, **more: str) -> None:
        """A bar over the states behind these events, standing at y."""
        start = self.picture.edge(first)
        self.drawing.rect(start, y - height, self.picture.edge(behind) - start, height, kind, **more)

    def enforced(self, machine: int, resource: int, has: int, y: float) -> None:
        """What the agent enforces, by job, one on the other."""
        def rows(state: State) -> tuple[tuple[tuple[int, int], int], ...]:
            table = state.agents[machine].rows if machine in state.agents else {}
            return tuple(sorted(table.items()))

        for first, behind, table in self.picture.runs_of(rows):
            bottom = y
            for (job, unit), count in table:
                size = self.picture.jobs[job].units[unit].size[resource] if job in self.picture.jobs else 0
                height = ROW * count * size / has if has else 0
                self.bar(first, behind, bottom, height, "enforced", fill=self.picture.job_colour(job))
                bottom -= height

    def granted(self, epoch: int, machine: int, resource: int, has: int, y: float) -> None:
        """What a master grants there, as a line over its events."""
        def use(state: State) -> int | None:
            used = used_on(state.masters[epoch], self.picture.jobs, machine) if epoch in state.masters else None
            return None if used is None else (used or [0] * self.cluster.resources)[resource]

        points: list[tuple[float, float]] = []
        for first, behind, used in self.picture.runs_of(use):
            if used is not None:
                height = ROW * used / has if has else 0
                points += [(self.picture.edge(first), y - height), (self.picture.edge(behind), y - height)]
        if points and any(at < y for _, at in points):
            self.drawing.path(points, "granted" if epoch == self.epochs[-1] else "granted-before")

    def group(self, group: int) -> None:
        quota, limit = self.cluster.groups[group]
        for resource, y in self.rows(f"group {group}", limit):
            if not limit[resource]:
                continue
            for first, behind, share in self.picture.runs_of(lambda state: self.share(state, group, resource, limit[resource])):
                height = ROW * min(share, TALLEST)
                if height:
                    self.bar(first, behind, y, height, "over" if share > 1 else "use")
            at = y - ROW * quota[resource] / limit[resource]
            self.drawing.line(self.picture.x(0, 0), at, self.picture.right(), at, "quota")

    def share(self, state: State, group: int, resource: int, limit: int) -> float:
        """Of the limit, what the newest master's grants take."""
        if not state.masters:
            return 0.0
        used = used_by(state.masters[max(state.masters)], self.picture.jobs, group) or [0] * self.cluster.resources
        return used[resource] / limit

    def waiting(self) -> None:
        """How many grants each unit waits for at the newest master."""
        pairs = sorted({pair for state in self.picture.states for master in state.masters.values() for pair in master.waits})
        self.cut("units that wait", len(pairs), MOST_UNITS)
        for job, unit in pairs[:MOST_UNITS]:
            self.picture.y += GAP + 12
            y = self.picture.y
            self.picture.name(y - 1, f"job {job} unit {unit} waits for")
            for first, behind, count in self.picture.runs_of(lambda state: state.masters[max(state.masters)].waits.get((job, unit), 0) if state.masters else 0):
                if count:
                    self.bar(first, behind, y, 12, "waits")
                    if (behind - first) * self.picture.width > 6 * len(str(count)) + 2:
                        self.drawing.text(self.picture.edge(first) + 2, y - 2.5, str(count), "wants")

    def jobs(self) -> None:
        """Which colour is whose."""
        self.picture.y += GAP + 14
        self.picture.name(self.picture.y, "jobs")
        x, room = LEFT_OF_JOBS, self.picture.whole_width()
        for number, job in sorted(self.picture.jobs.items()):
            words = f"{number}: group {job.group}, " + " / ".join(f"priority {unit.priority} size {' '.join(map(str, unit.size))}" for unit in job.units)
            if x > LEFT_OF_JOBS and x + NOTE_LETTER * len(words) + 30 > room:
                x, self.picture.y = LEFT_OF_JOBS, self.picture.y + 16
            self.drawing.rect(x, self.picture.y - 9, 10, 10, "job", fill=self.picture.job_colour(number))
            first, *more = textwrap.wrap(words, int((room - LEFT_OF_JOBS - 30) / NOTE_LETTER))
            self.drawing.text(x + 14, self.picture.y, first, "note")
            for line in more:
                self.picture.y += 14
                self.drawing.text(x + 14, self.picture.y, line, "note")
            x += 40 + NOTE_LETTER * len(first) if not more else room


def short_quantity(quantity: int) -> str:
    """A quantity in few letters."""
    for size, letter in ((10**12, "T"), (10**9, "G"), (10**6, "M")):
        if quantity >= size:
            return f"{quantity / size:.4g}{letter}"
    return str(quantity)
