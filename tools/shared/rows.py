"""The command of an agent that makes what it enforces so: it is told each row that has changed."""

from __future__ import annotations

import json
import os
import shlex
import subprocess
import time

from shared.logs import Log

FILE = "fuxi.rows"
# A command that has failed is run again behind so long, unless its row changes before that.
AGAIN_SECONDS = 2.0
# A row: its job and its unit.
Row = tuple[int, int]


class Rows:
    """What the agent enforces, and what the command has done: that is kept in a file, so the next agent tells what has changed meanwhile. One
    command runs at a time, and gets the number that its row has then."""

    def __init__(self, command: str, folder: str, machine: int, log: Log) -> None:
        self.words, self.path, self.machine, self.log = shlex.split(command), os.path.join(folder, FILE), machine, log
        self.wanted: dict[Row, int] | None = None
        self.done = self.read()
        self.process: subprocess.Popen[bytes] | None = None
        self.running: tuple[Row, int] = ((0, 0), 0)
        self.not_before: dict[Row, tuple[int, float]] = {}

    def read(self) -> dict[Row, int]:
        try:
            with open(self.path, encoding="utf-8") as file:
                return {(job, unit): number for job, unit, number in json.load(file)}
        except FileNotFoundError:
            return {}

    def keep(self) -> None:
        with open(f"{self.path}.new", "w", encoding="utf-8") as file:
            json.dump([[*row, number] for row, number in sorted(self.done.items()) if number], file)
        os.replace(f"{self.path}.new", self.path)

    def take(self, rows: dict[Row, int]) -> None:
        """What the agent enforces now, of which it has heard from a master since it started."""
        self.wanted = dict(rows)

    def work(self) -> None:
        """Sees whether the command has ended, and runs it for the next row."""
        if self.process and self.process.poll() is not None:
            self.end(self.process.returncode)
        row = self.next_row()
        if row is not None and not self.process:
            self.run(row)

    def next_row(self) -> Row | None:
        """A row that is not as the agent enforces it: those first of which less is to run, so that the others find room."""
        if self.wanted is None:
            return None
        changed = [row for row in sorted({*self.wanted, *self.done}) if self.number(row) != self.done.get(row, 0) and not self.has_to_wait(row)]
        return sorted(changed, key=self.is_more)[0] if changed else None

    def is_more(self, row: Row) -> bool:
        return self.number(row) > self.done.get(row, 0)

    def number(self, row: Row) -> int:
        return (self.wanted or {}).get(row, 0)

    def has_to_wait(self, row: Row) -> bool:
        number, moment = self.not_before.get(row, (-1, 0.0))
        return number == self.number(row) and time.monotonic() < moment

    def run(self, row: Row) -> None:
        self.running = (row, self.number(row))
        words = [*self.words, *map(str, row), str(self.number(row))]
        try:
            # (it goes on where the agent's tool ends: what it has begun is told the next one as not done)
            self.process = subprocess.Popen(words, stdin=subprocess.DEVNULL, env={**os.environ, "FUXI_MACHINE": str(self.machine)}, start_new_session=True)
        except OSError as why:
            self.failed(f"cannot be run: {why.strerror}")

    def end(self, status: int) -> None:
        """What comes of a command that has ended."""
        self.process = None
        (job, unit), number = self.running
        if status:
            self.failed(f"ends with status {status}")
            return
        self.done[job, unit] = number
        self.not_before.pop((job, unit), None)
        self.keep()
        self.log.say("row", f"unit {unit} of job {job}: {number}", job=job, unit=unit, number=number)

    def failed(self, why: str) -> None:
        (job, unit), number = self.running
        self.not_before[job, unit] = (number, time.monotonic() + AGAIN_SECONDS)
        self.log.say("row", f"unit {unit} of job {job}: {number}: the command {why}, and is run again in {AGAIN_SECONDS:.0f} s", job=job, unit=unit, number=number, failed=True)
