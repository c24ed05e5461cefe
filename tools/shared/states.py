"""The state that the program prints, read back."""

from __future__ import annotations

from collections.abc import Iterable, Mapping, Sequence
from typing import Protocol


class AUnit(Protocol):
    """A unit, of a schedule or of a file."""

    @property
    def size(self) -> Sequence[int]: ...

    @property
    def most(self) -> int: ...


class AJob(Protocol):
    """A job, of a schedule or of a file."""

    @property
    def group(self) -> int: ...

    @property
    def units(self) -> Sequence[AUnit]: ...


class Master:
    def __init__(self, phase: str) -> None:
        self.phase, self.reported = phase, set[int]()
        self.grants: dict[tuple[int, int, int], int] = {}
        self.waits: dict[tuple[int, int], int] = {}


class Agent:
    def __init__(self, boot: int, place: str) -> None:
        self.boot, self.place = boot, place
        self.rows: dict[tuple[int, int], int] = {}

    def has_row(self) -> bool:
        """Whether it has taken a row of the master whose epoch its place names first."""
        return int(self.place.split(".")[1]) > 0


class App:
    def __init__(self, boot: int, place: str) -> None:
        self.boot, self.place = boot, place
        self.holds: dict[tuple[int, int], int] = {}
        self.carries: dict[tuple[int, int], int] = {}


class State:
    """Each table is a count: of a master by job, unit and machine, of an agent by job and unit, of an application by unit and machine."""

    def __init__(self, lines: Iterable[str]) -> None:
        self.jobs: dict[int, tuple[int, str]] = {}
        self.bans: set[int] = set()
        self.masters: dict[int, Master] = {}
        self.agents: dict[int, Agent] = {}
        self.apps: dict[int, App] = {}
        self.fence = self.packets = 0
        for line in lines:
            word, *values = line.split()
            getattr(self, f"take_{word}", self.take_nothing)(*values)

    def take_nothing(self, *_: str) -> None:
        """The number of events."""

    def take_fence(self, epoch: str) -> None:
        self.fence = int(epoch)

    def take_packets(self, count: str) -> None:
        self.packets = int(count)

    def take_job(self, number: str, group: str, phase: str) -> None:
        self.jobs[int(number)] = (int(group), phase)

    def take_ban(self, machine: str) -> None:
        self.bans.add(int(machine))

    def take_master(self, epoch: str, phase: str) -> None:
        self.masters[int(epoch)] = Master(phase)

    def take_reported(self, epoch: str, machine: str) -> None:
        self.masters[int(epoch)].reported.add(int(machine))

    def take_grant(self, epoch: str, job: str, unit: str, machine: str, count: str) -> None:
        self.masters[int(epoch)].grants[int(job), int(unit), int(machine)] = int(count)

    def take_wait(self, epoch: str, job: str, unit: str, count: str) -> None:
        self.masters[int(epoch)].waits[int(job), int(unit)] = int(count)

    def take_agent(self, machine: str, boot: str, place: str) -> None:
        self.agents[int(machine)] = Agent(int(boot), place)

    def take_row(self, machine: str, job: str, unit: str, count: str) -> None:
        self.agents[int(machine)].rows[int(job), int(unit)] = int(count)

    def take_app(self, job: str, boot: str, place: str) -> None:
        self.apps[int(job)] = App(int(boot), place)

    def take_hold(self, job: str, unit: str, machine: str, count: str) -> None:
        self.apps[int(job)].holds[int(unit), int(machine)] = int(count)

    def take_carry(self, job: str, unit: str, machine: str, count: str) -> None:
        self.apps[int(job)].carries[int(unit), int(machine)] = int(count)


def sums(sizes: Iterable[tuple[Sequence[int], int]]) -> list[int]:
    """Place by place; each of these is a size and how often it counts."""
    found: list[int] = []
    for size, count in sizes:
        found += [0] * (len(size) - len(found))
        for place, quantity in enumerate(size):
            found[place] += count * quantity
    return found


def used_on(master: Master, jobs: Mapping[int, AJob], machine: int) -> list[int]:
    """What a master's grants take of a machine."""
    return sums((jobs[job].units[unit].size, count) for (job, unit, at), count in master.grants.items() if at == machine and job in jobs)


def used_by(master: Master, jobs: Mapping[int, AJob], group: int) -> list[int]:
    """What a master's grants take for a group."""
    return sums((jobs[job].units[unit].size, count) for (job, unit, _), count in master.grants.items() if job in jobs and jobs[job].group == group)


def left_of(has: Sequence[int], used: Sequence[int]) -> list[int]:
    return [quantity - (used[place] if place < len(used) else 0) for place, quantity in enumerate(has)]
