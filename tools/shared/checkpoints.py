"""The file of a master or a lease, read back: docs/FORMATS.md, "The checkpoint". What a file stands for is the program's to say; this shows it, and
says what looks odd in it though the program takes it."""

from __future__ import annotations

MOST_RECORDS, GREATEST_COUNT, GREATEST_QUANTITY, GREATEST_PRIORITY = 65_536, 100_000, 10**12, 9
CLOSED, OPEN = 0, 1
# Statuses: of the program where a record is damaged, and of the tools alone where something looks odd.
DAMAGED, ODD = 10, 11
# Of a record the gate and the length of its body; of a unit the bytes by the version of the record.
HEAD, UNIT_BYTES = 5, {1: 65, 2: 69}
# A crash leaves the length and the body of one record, and the gate behind it.
LONGEST_LEFT = 4 + 2 + 9 + 8 * UNIT_BYTES[2] + 1


class Damaged(Exception):
    """Why the bytes at a place are no record."""


def number(data: bytes) -> int:
    return int.from_bytes(data, "big")


class Unit:
    def __init__(self, data: bytes, has_most: bool) -> None:
        self.priority, self.size = data[0], [number(data[1 + 8 * place : 9 + 8 * place]) for place in range(8)]
        self.most = number(data[65:]) if has_most else GREATEST_COUNT
        if self.priority > GREATEST_PRIORITY or not any(self.size) or max(self.size) > GREATEST_QUANTITY or not 1 <= self.most <= GREATEST_COUNT:
            raise Damaged("a unit of this job has a number that is out of its range")

    def words(self) -> str:
        used = max(place for place, quantity in enumerate(self.size) if quantity) + 1
        most = f" most {self.most}" if self.most < GREATEST_COUNT else ""
        return f"priority {self.priority} size {' '.join(map(str, self.size[:used]))}{most}"


class Job:
    def __init__(self, group: int, units: list[Unit]) -> None:
        self.group, self.units, self.is_live = group, units, True

    def words(self) -> str:
        return f"group {self.group}, {' / '.join(unit.words() for unit in self.units)}"


class Checkpoint:
    """What a file stands for, its records as byte and words, and what is damaged or odd in it."""

    def __init__(self, data: bytes) -> None:
        self.data, self.fence, self.bans = data, 0, set[int]()
        self.jobs: dict[int, Job] = {}
        self.records: list[tuple[int, str]] = []
        self.damaged_at: int | None = None
        self.damage: str | None = None
        self.odd, self.end = list[str](), 0
        try:
            self.read()
        except Damaged as why:
            self.damaged_at, self.damage = self.end, str(why)
            return
        self.look()

    def read(self) -> None:
        while len(self.data) > 1 and self.data[self.end] == OPEN:
            length = number(self.data[self.end + 1 : self.end + HEAD])
            behind = self.end + HEAD + length
            if len(self.data) < self.end + HEAD or behind >= len(self.data):
                raise Damaged("its length runs past the end of the file, or no gate follows it")
            if len(self.records) == MOST_RECORDS:
                raise Damaged(f"{MOST_RECORDS:,} records came before it")
            self.records.append((self.end, self.take(self.data[self.end + HEAD : behind])))
            self.end = behind

    def take(self, body: bytes) -> str:
        """Does a record, and answers its words."""
        if len(body) < 2 or body[0] not in UNIT_BYTES or body[0] == 2 and body[1] != 2:
            raise Damaged("no record has this version and this kind")
        version, kind, rest = body[0], body[1], body[2:]
        if kind == 2:
            return self.take_job(version, rest)
        if kind not in (1, 3, 4, 5) or len(rest) != (8 if kind == 1 else 4):
            raise Damaged("no record has this kind and this length")
        return {1: self.take_fence, 3: self.take_finish, 4: self.take_ban, 5: self.take_unban}[kind](number(rest))

    def take_fence(self, epoch: int) -> str:
        if epoch <= self.fence:
            raise Damaged(f"the fence {epoch} is not above {self.fence}")
        self.fence = epoch
        return f"fence {epoch}"

    def take_job(self, version: int, rest: bytes) -> str:
        length = UNIT_BYTES[version]
        if len(rest) < 9 or not 1 <= rest[8] <= 8 or len(rest) != 9 + length * rest[8]:
            raise Damaged("a job of this length has another number of units")
        job, group = number(rest[:4]), number(rest[4:8])
        if job > 255 or group > 31 or job in self.jobs:
            raise Damaged(f"job {job} of group {group} is out of range, or known already")
        self.jobs[job] = Job(group, [Unit(rest[at : at + length], version == 2) for at in range(9, len(rest), length)])
        return f"job {job}: {self.jobs[job].words()}"

    def take_finish(self, job: int) -> str:
        if job not in self.jobs or not self.jobs[job].is_live:
            raise Damaged(f"job {job} is not known, or has ended")
        self.jobs[job].is_live = False
        return f"finish {job}"

    def take_ban(self, machine: int) -> str:
        if machine > 255 or machine in self.bans:
            raise Damaged(f"machine {machine} is out of range, or banned already")
        self.bans.add(machine)
        return f"ban {machine}"

    def take_unban(self, machine: int) -> str:
        if machine not in self.bans:
            raise Damaged(f"machine {machine} is not banned")
        self.bans.remove(machine)
        return f"unban {machine}"

    def look(self) -> None:
        """What the program takes, and no master has written."""
        gate, left = self.data[self.end : self.end + 1], self.data[self.end + 1 :]
        if gate and gate[0] not in (CLOSED, OPEN):
            self.odd.append(f"the gate at byte {self.end} is {gate[0]}, and a master writes 0 or 1 there: all from there on counts for nothing")
        if gate and gate[0] == OPEN:
            self.odd.append("the file is an open gate, and no record")
        if len(left) > LONGEST_LEFT and any(left):
            self.odd.append(f"behind the closed gate at byte {self.end} stand {len(left):,} bytes, and a crash leaves {LONGEST_LEFT} at most: they may be records whose gate was lost")

    def summary(self) -> str:
        return f"fence {self.fence}, {len(self.jobs)} jobs, {len(self.bans)} bans"

    def left(self) -> int:
        """How many bytes stand behind the closed gate."""
        return max(0, len(self.data) - self.end - 1)
