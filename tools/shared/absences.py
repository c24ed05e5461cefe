"""Machines whose agents have not been heard for long, and which of them were banned for that."""

from __future__ import annotations

import json
import os
import time

FILE = "fuxi.banned"
# Each ban and each lift is a record of the master's file for ever: so often at most one machine is banned, and none above so many records.
BAN_SECONDS, MOST_RECORDS = 3600.0, 60_000


class Absences:
    """When each agent was heard, by the clock of this process, and what was banned, by that of the day, in a file beside the master's."""

    def __init__(self, folder: str, machines: int, seconds: float, records: int) -> None:
        self.path, self.seconds, self.records = os.path.join(folder, FILE), seconds, records
        self.heard: dict[int, float] = {}
        self.bans: dict[int, tuple[bool, float]] = {}
        self.began = time.monotonic()
        self.machines = range(machines)
        try:
            with open(self.path, encoding="utf-8") as file:
                self.bans = {int(machine): (bool(is_banned), float(moment)) for machine, (is_banned, moment) in json.load(file).items()}
        except FileNotFoundError:
            pass

    def note(self, machine: int) -> None:
        if machine in self.machines:
            self.heard[machine] = time.monotonic()

    def silence(self, machine: int) -> float:
        """For how long it was not heard: since this master began, at most."""
        return time.monotonic() - self.heard.get(machine, self.began)

    def is_ours(self, machine: int) -> bool:
        return self.bans.get(machine, (False, 0.0))[0]

    def to_ban(self) -> list[int]:
        """The machines that are to be banned now."""
        if self.is_full():
            return []
        return [it for it in self.machines if self.silence(it) >= self.seconds and not self.is_ours(it) and time.time() - self.banned_at(it) >= BAN_SECONDS]

    def to_lift(self) -> list[int]:
        """Those that were banned here, and were heard again."""
        return [it for it in self.heard if self.is_ours(it) and self.silence(it) < self.seconds]

    def is_full(self) -> bool:
        return self.records >= MOST_RECORDS

    def banned_at(self, machine: int) -> float:
        return self.bans.get(machine, (False, 0.0))[1]

    def keep(self, machine: int, is_banned: bool, moment: float | None = None) -> None:
        """Writes down a ban or its lift, before it is told."""
        self.bans[machine] = (is_banned, self.banned_at(machine) if moment is None else moment)
        with open(f"{self.path}.new", "w", encoding="utf-8") as file:
            json.dump(self.bans, file)
            file.flush()
            os.fsync(file.fileno())
        os.replace(f"{self.path}.new", self.path)

    def forget(self, machine: int) -> None:
        """A ban that somebody else makes or lifts is theirs."""
        if self.is_ours(machine):
            self.keep(machine, False)
