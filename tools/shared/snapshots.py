"""A running master at one moment: what it shows over its control socket, and of its jobs what its file says."""

from __future__ import annotations

import os
from typing import Any

from shared.checkpoints import MOST_RECORDS, Checkpoint, Job
from shared.control import tell, unreached
from shared.schedules import Cluster, Line
from shared.starting import FILE
from shared.states import State, used_on
from shared.waits import Waits


class NotSeen(Exception):
    """Why nothing can be shown."""


class View:
    """What is shown: values for programs, and rows or lines for people."""

    def __init__(self, values: Any, rows: list[tuple[object, ...]] | None = None, lines: list[str] | None = None) -> None:
        self.values, self.rows, self.lines = values, rows, lines


class Snapshot:
    def __init__(self, folder: str) -> None:
        self.folder = folder
        self.state, self.cluster = State(self.told("show")), Cluster(Line(1, self.told("cluster")[0]))
        if not self.state.masters:
            raise NotSeen(f"the node that runs in {folder} is no master")
        self.epoch, self.master = next(iter(self.state.masters.items()))
        try:
            with open(os.path.join(folder, FILE), "rb") as file:
                self.file = Checkpoint(file.read())
        except OSError as why:
            raise NotSeen(f"{why.filename}: {why.strerror}") from None
        for unit in (unit for job in self.file.jobs.values() for unit in job.units):
            # (the file has eight quantities of each unit)
            unit.size = unit.size[: self.cluster.resources]
        self.pairs = self.read_avoided()

    def told(self, command: str) -> list[str]:
        try:
            status, said = tell(self.folder, command)
        except OSError as why:
            raise NotSeen(f"{unreached(self.folder, why)} (--folder names another)") from None
        if status:
            raise NotSeen(said.strip())
        return said.splitlines()

    def read_avoided(self) -> dict[int, set[tuple[int, int]]] | None:
        """The pairs of unit and machine that a job avoids, by job; None where that is not known: a master does not show it."""
        try:
            found = [tuple(map(int, it.split()[1:])) for it in self.told("avoided")]
        except NotSeen:
            return None
        return {job: {(unit, machine) for of, unit, machine in found if of == job} for job, _, _ in found}

    # What a wait is explained by.

    def jobs(self) -> dict[int, Job]:
        return self.file.jobs

    def by(self, _epoch: int, job: int) -> set[tuple[int, int]]:
        return (self.pairs or {}).get(job, set())

    def waits_of(self, job: int) -> dict[int, int]:
        return {unit: count for (of, unit), count in self.master.waits.items() if of == job}

    def grants_of(self, job: int, unit: int) -> dict[int, int]:
        """The counts of a unit by machine."""
        return {machine: count for (of, which, machine), count in self.master.grants.items() if (of, which) == (job, unit)}


def phase_of(job: Job) -> str:
    return "live" if job.is_live else "ended"


def status(seen: Snapshot) -> View:
    """How the master fares, in a few numbers."""
    live = sum(job.is_live for job in seen.file.jobs.values())
    values: dict[str, Any] = {
        "master": seen.epoch,
        "phase": seen.master.phase,
        "machines": len(seen.cluster.machines),
        "reported": len(seen.master.reported),
        "banned": sorted(seen.state.bans),
        "jobs": live,
        "ended": len(seen.file.jobs) - live,
        "grants": sum(seen.master.grants.values()),
        "waiting": sum(seen.master.waits.values()),
        "records": len(seen.file.records),
    }
    banned = f", banned {' '.join(map(str, values['banned']))}" if values["banned"] else ""
    rows: list[tuple[object, ...]] = [
        ("master", f"{seen.epoch}, {seen.master.phase}"),
        ("machines", f"{values['machines']}, of which {values['reported']} are reported{banned}"),
        ("jobs", f"{live} live, {values['ended']} ended, of 256 numbers"),
        ("grants", f"{values['grants']}, and {values['waiting']} more are waited for"),
        ("file", f"{values['records']:,} of {MOST_RECORDS:,} records"),
    ]
    return View(values, rows)


def machines(seen: Snapshot) -> View:
    """What each machine has, and what the master's grants take of it."""
    values: list[dict[str, Any]] = []
    rows: list[tuple[object, ...]] = [("machine", "rack", "reported", "banned", "granted of what it has", "jobs")]
    for machine, (rack, has) in enumerate(seen.cluster.machines):
        used = used_on(seen.master, seen.file.jobs, machine) or [0] * len(has)
        jobs = sorted({job for (job, _, at), count in seen.master.grants.items() if at == machine and count})
        is_reported, is_banned = machine in seen.master.reported, machine in seen.state.bans
        values.append({"machine": machine, "rack": rack, "reported": is_reported, "banned": is_banned, "has": has, "granted": used[: len(has)], "jobs": jobs})
        rows.append((machine, rack, yes(is_reported), yes(is_banned), "  ".join(f"{of}/{most}" for of, most in zip(used, has)), " ".join(map(str, jobs))))
    return View(values, rows)


def jobs(seen: Snapshot) -> View:
    """What each unit of each job has, and waits for."""
    values: list[dict[str, Any]] = []
    rows: list[tuple[object, ...]] = [("job", "group", "", "unit", "priority", "size", "granted", "waits for", "on machines")]
    for number, job in sorted(seen.file.jobs.items()):
        waits, units = seen.waits_of(number), []
        for place, unit in enumerate(job.units):
            grants, size = seen.grants_of(number, place), unit.size
            units.append({"unit": place, "priority": unit.priority, "size": size, "most": unit.most, "granted": {str(at): count for at, count in grants.items()}, "waits": waits.get(place, 0)})
            on = " ".join(f"{at}:{count}" for at, count in sorted(grants.items()))
            rows.append((number, job.group, phase_of(job), place, unit.priority, " ".join(map(str, size)), sum(grants.values()), waits.get(place, 0), on))
        values.append({"job": number, "group": job.group, "phase": phase_of(job), "units": units})
    return View(values, rows)


def why(seen: Snapshot, job: int) -> View:
    """Why the units of a job wait, in the words of explain."""
    if job not in seen.file.jobs:
        raise NotSeen(f"the master knows no job {job}")
    lines = list(Waits(seen, seen.state, seen).lines(job))
    if lines and seen.pairs is None:
        lines.append("(a machine that is not named here is one that the job avoids: a master does not show which these are)")
    if not lines:
        held = sum(sum(seen.grants_of(job, unit).values()) for unit in range(len(seen.file.jobs[job].units)))
        lines = [f"job {job} has ended" if not seen.file.jobs[job].is_live else f"job {job} waits for nothing: it has {held} grants, and its application asks for no more"]
    return View({"job": job, "waits": {str(unit): count for unit, count in seen.waits_of(job).items()}, "lines": lines}, lines=lines)


def yes(is_so: bool) -> str:
    return "yes" if is_so else "no"
