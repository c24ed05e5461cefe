"""What the parties print of their grants, and in what all of it has to agree where nothing is left to tell."""

from __future__ import annotations

from collections.abc import Callable, Iterable, Sequence
from typing import Any

from shared.processes import Difference

# Counts by three numbers, as job, unit and machine.
Counts = dict[tuple[int, int, int], int]


def table(lines: Iterable[str], word: str, first: int) -> Counts:
    """The lines of this word, as a count by the three numbers that stand at these places behind it."""
    found = [list(map(int, line.split()[1:])) for line in lines if line.split()[0] == word]
    return {(numbers[first], numbers[first + 1], numbers[first + 2]): numbers[first + 3] for numbers in found}


class Tables:
    """Each table of grants is a count by job, unit and machine."""

    def __init__(self, cluster: Any) -> None:
        self.cluster, self.hard, self.shape = cluster, cluster.file.certain, cluster.shape
        self.state = cluster.master.show()
        self.granted = table(self.state, "grant", 1)
        rows = table([line for agent in cluster.agents for line in agent.node.show()], "row", 0)
        self.rows = {(job, unit, machine): count for (machine, job, unit), count in rows.items()}
        apps = [line for app in cluster.apps.values() for line in app.node.show()]
        self.holds, self.carried = table(apps, "hold", 0), table(apps, "carry", 0)

    def compare(self) -> None:
        """All is as it has to be."""
        if f"master {self.cluster.epoch} serving" not in self.state:
            raise Difference(f"master {self.cluster.epoch} does not serve, though all machines are reported")
        if self.carried or not self.granted == self.rows == self.holds:
            raise Difference(f"granted {self.granted}, in rows {self.rows}, held {self.holds}, carried {self.carried}")
        self.compare_line()
        for (job, unit, machine), count in self.granted.items():
            if count > self.most(job, unit):
                raise Difference(f"unit {unit} of job {job} has {count} grants on machine {machine}, and may have {self.most(job, unit)}")
            if self.hard.jobs[job].ended or machine in self.hard.bans:
                raise Difference(f"job {job} has grants on machine {machine}, though it has ended, or that is banned")
        for machine in range(len(self.shape.machines)):
            if min(self.free(machine)) < 0:
                raise Difference(f"machine {machine} is overbooked by {self.free(machine)}")

    def compare_line(self) -> None:
        """In the line stands what was asked for and is not granted, and none of it could be placed."""
        live = [app for app in self.cluster.apps.values() if app.number in self.hard.live_jobs()]
        missing = {(app.number, unit): count - self.held(app.number, unit) for app in live for unit, count in app.wants.items()}
        wanted = {pair: count for pair, count in missing.items() if count > 0}
        waits = [list(map(int, line.split()[2:])) for line in self.state if line.startswith("wait ")]
        found = {(job, unit): count for job, unit, count in waits}
        if found != wanted or len(found) != len(waits):
            raise Difference(f"in the line wait {waits}, and {wanted} is not granted of what was asked for")
        for job, unit in found:
            for machine in range(len(self.shape.machines)):
                if self.is_placeable(job, unit, machine):
                    raise Difference(f"unit {unit} of job {job} waits, and could be placed on machine {machine}")

    def held(self, job: int, unit: int) -> int:
        return sum(count for pair, count in self.granted.items() if pair[:2] == (job, unit))

    def size(self, job: int, unit: int) -> Sequence[int]:
        size: Sequence[int] = self.hard.jobs[job].units[unit][2:]
        return size

    def most(self, job: int, unit: int) -> int:
        return int(self.hard.jobs[job].units[unit][0])

    def free(self, machine: int) -> list[int]:
        return self.left_of(self.shape.machines[machine][1], lambda job, at: at == machine)

    def left_to(self, group: int) -> list[int]:
        """What a group may still use."""
        return self.left_of(self.shape.groups[group][1], lambda job, at: bool(self.hard.jobs[job].group == group))

    def left_of(self, has: Sequence[int], counts: Callable[[int, int], bool]) -> list[int]:
        """Of these quantities what is left by the grants that count."""
        used = [[count * quantity for quantity in self.size(job, unit)] for (job, unit, at), count in self.granted.items() if counts(job, at)]
        return [quantity - sum(column) for quantity, *column in zip(has, *used)]

    def is_placeable(self, job: int, unit: int, machine: int) -> bool:
        if machine in self.hard.bans or (unit, machine) in self.cluster.apps[job].avoided:
            return False
        if self.granted.get((job, unit, machine), 0) >= self.most(job, unit):
            return False
        room: Iterable[tuple[int, int, int]] = zip(self.size(job, unit), self.free(machine), self.left_to(self.hard.jobs[job].group))
        return all(size <= free and size <= left for size, free, left in room)
