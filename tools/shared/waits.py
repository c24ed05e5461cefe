"""Why a unit waits: of each machine what keeps it from a grant there, and of its group."""

from __future__ import annotations

from collections.abc import Collection, Iterable, Iterator, Mapping
from typing import Protocol

from shared.schedules import Cluster
from shared.states import AJob, Master, State, left_of, used_by, used_on


class Known(Protocol):
    """What is known of a run: its cluster and its jobs."""

    @property
    def cluster(self) -> Cluster: ...

    def jobs(self) -> Mapping[int, AJob]: ...


class Avoids(Protocol):
    """Which pairs of unit and machine a job avoids, as a master has heard it."""

    def by(self, epoch: int, job: int) -> Collection[tuple[int, int]]: ...


class Waits:
    """The reasons in one state of a run."""

    def __init__(self, run: Known, state: State, avoided: Avoids) -> None:
        self.cluster, self.jobs, self.state, self.avoided = run.cluster, run.jobs(), state, avoided

    def of_group(self, master: Master, job: int, unit: int) -> list[str]:
        """Where one more grant would pass the limit of the job's group."""
        size, group = self.jobs[job].units[unit].size, self.jobs[job].group
        if group >= len(self.cluster.groups):
            return [f"group {group}: the cluster does not have it, so its limit is 0"]
        left = left_of(self.cluster.groups[group][1], used_by(master, self.jobs, group))
        short = [place for place in range(len(left)) if size[place] > left[place]]
        return [f"group {group}: its limit leaves {max(left[place], 0)} of resource {place}, and a grant takes {size[place]}" for place in short]

    def on_machine(self, epoch: int, job: int, unit: int, machine: int) -> list[str]:
        """What keeps a unit from one more grant on this machine; nothing where only its group or the master's phase does."""
        master, asked, found = self.state.masters[epoch], self.jobs[job].units[unit], []
        if machine not in master.reported:
            found.append("not reported")
        if machine in self.state.bans:
            found.append("banned")
        if (unit, machine) in self.avoided.by(epoch, job):
            found.append("avoided by the job")
        if master.grants.get((job, unit, machine), 0) >= asked.most:
            found.append(f"has {asked.most} of its grants already, the most for one machine")
        left = left_of(self.cluster.machines[machine][1], used_on(master, self.jobs, machine))
        for place, quantity in enumerate(asked.size):
            if quantity > left[place]:
                found.append(f"too small: {left[place]} of resource {place} are free, and a grant takes {quantity}")
        return found

    def lines(self, only: int | None = None) -> Iterator[str]:
        """The reasons of all jobs, or of one alone."""
        for epoch, master in self.state.masters.items():
            waits = {pair: count for pair, count in master.waits.items() if only in (None, pair[0])}
            for (job, unit), count in waits.items():
                size = " ".join(map(str, self.jobs[job].units[unit].size))
                yield f"unit {unit} of job {job} waits for {count} more, of {size} each, at master {epoch}, because"
                if master.phase == "rebuilding":
                    yield f"    master {epoch} is rebuilding: it grants nothing until each machine is reported, or until `begin {epoch}`"
                yield from (f"    {it}" for it in self.of_group(master, job, unit))
                yield from self.machine_lines(epoch, job, unit)

    def machine_lines(self, epoch: int, job: int, unit: int) -> Iterator[str]:
        """Machines with the same reasons share a line."""
        reasons: dict[str, list[int]] = {}
        for machine in range(len(self.cluster.machines)):
            reasons.setdefault("; ".join(self.on_machine(epoch, job, unit, machine)), []).append(machine)
        for reason, machines in reasons.items():
            if reason:
                yield f"    machine{'s' * (len(machines) > 1)} {ranges(machines)}: {reason}"


def ranges(numbers: Iterable[int]) -> str:
    """Rising numbers as 0-3, 5."""
    parts: list[list[int]] = []
    for number in numbers:
        if parts and parts[-1][1] == number - 1:
            parts[-1][1] = number
        else:
            parts.append([number, number])
    return ", ".join(str(first) if first == last else f"{first}-{last}" for first, last in parts)
