"""What masters have to find in their file, whoever of them was killed, and when."""

import os
import time

from model import checkpoints

from shared.processes import Difference

GREATEST_QUANTITY = 10**12
GREATEST_PRIORITY = 9
# Of a record its gate and the length of its body, of a body its version and kind; and the numbers behind these.
RECORD_HEAD, BODY_HEAD = 5, 2
FENCE_BYTES, JOB_BYTES, UNIT_BYTES, NUMBER_BYTES = 8, 9, 69, 4


def unit_of(words):
    """The greatest number per machine of a unit, and then its priority and its quantities."""
    most = checkpoints.GREATEST_COUNT
    if words[-2] == "most":
        *words, _, most = words
    return [int(most), *map(int, words)]


class Job:
    """A job of the hard state. A unit is its priority and its quantities, and its greatest number per machine."""

    def __init__(self, group, units, ended=False):
        self.group, self.units, self.ended = group, units, ended

    def phase(self):
        return "ended" if self.ended else "live"


class HardState:
    """The fence, the jobs and the bans, and how many records and bytes these took."""

    def __init__(self, shape):
        self.shape, self.fence, self.jobs, self.bans, self.records, self.size = shape, 0, {}, set(), 0, 0

    def copy(self):
        other = HardState(self.shape)
        other.fence, other.bans, other.records, other.size = self.fence, set(self.bans), self.records, self.size
        other.jobs = {number: Job(job.group, job.units, job.ended) for number, job in self.jobs.items()}
        return other

    def live_jobs(self):
        return [number for number, job in sorted(self.jobs.items()) if not job.ended]

    def take(self, line):
        """Does a line, and answers its refusal, or None. `raise E` stands for the start of the master of epoch E; what is told it later has to
        name its epoch."""
        word, epoch, *words = line.split()
        if word != "raise" and int(epoch) != self.fence:
            return "refused NotRunning"
        takes = {"raise": lambda: self.raise_fence(int(epoch)), "submit": lambda: self.submit(words)}
        numbered = {"finish": self.finish, "ban": self.ban, "unban": self.unban}
        return takes[word]() if word in takes else numbered[word](int(words[0]))

    def write(self, length):
        self.records += 1
        self.size += RECORD_HEAD + BODY_HEAD + length

    def raise_fence(self, epoch):
        self.fence = epoch
        self.write(FENCE_BYTES)

    def submit(self, words):
        number, group = int(words[0]), int(words[1])
        units = [unit_of(unit.split()) for unit in " ".join(words[2:]).split(" / ")]
        if group >= len(self.shape.groups):
            return "refused NoGroup"
        for place, unit in enumerate(units):
            if fault := self.unit_fault(*unit):
                return f"refused {fault} {place}"
        if number in self.jobs:
            return "refused Known"
        self.jobs[number] = Job(group, units)
        self.write(JOB_BYTES + UNIT_BYTES * len(units))
        return None

    def unit_fault(self, most, priority, *quantities):
        if len(quantities) != self.shape.resources:
            return "Dimensions"
        if priority > GREATEST_PRIORITY:
            return "PriorityRange"
        if max(quantities) > GREATEST_QUANTITY:
            return "QuantityRange"
        if not any(quantities):
            return "ZeroSize"
        return None if 1 <= most <= checkpoints.GREATEST_COUNT else "MostRange"

    def finish(self, number):
        if number not in self.jobs:
            return "refused NoJob"
        if self.jobs[number].ended:
            return "refused Ended"
        self.jobs[number].ended = True
        self.write(NUMBER_BYTES)
        return None

    def ban(self, machine):
        if machine >= len(self.shape.machines):
            return "refused NoMachine"
        if machine in self.bans:
            return "refused AlreadyBanned"
        self.bans.add(machine)
        self.write(NUMBER_BYTES)
        return None

    def unban(self, machine):
        if machine >= len(self.shape.machines):
            return "refused NoMachine"
        if machine not in self.bans:
            return "refused NotBanned"
        self.bans.remove(machine)
        self.write(NUMBER_BYTES)
        return None

    def shown(self):
        """Its lines in the state of a master."""
        jobs = [f"job {number} {job.group} {job.phase()}" for number, job in sorted(self.jobs.items())]
        return [f"fence {self.fence}", *jobs, *(f"ban {machine}" for machine in sorted(self.bans))]

    def stored(self):
        """What the reader of checkpoints says of its file."""
        lines = [f"fence {self.fence}, records {self.records}, bans" + "".join(f" {machine}" for machine in sorted(self.bans))]
        for number, job in sorted(self.jobs.items()):
            units = (" / " + " ".join(map(str, unit + [0] * (9 - len(unit)))) + checkpoints.most_text(most) for most, *unit in job.units)
            lines.append(f"  job {number} {job.group} {job.phase()}" + "".join(units))
        return lines


class HardFile:
    """The file of the masters: a state that is certain, and the lines that were told behind it of which nobody has read yet that they are done.
    A master that is killed has done as many of these as it has, from the first one on."""

    def __init__(self, shape, path):
        self.path, self.certain, self.open_lines, self.longest, self.broken_records = path, HardState(shape), [], 0, 0

    def tell(self, *lines):
        self.open_lines += lines

    def answer(self):
        """The first of the lines that were told is done: what it had to answer."""
        return self.certain.take(self.open_lines.pop(0))

    def states(self):
        """The states that the file may have, from that which is certain to that in which all lines are done."""
        states = [self.certain]
        for line in self.open_lines:
            states.append(states[-1].copy())
            states[-1].take(line)
        return states

    def read(self):
        """Its bytes; none where no master has come so far as to make it."""
        if not os.path.exists(self.path):
            return b""
        with open(self.path, "rb") as file:
            return file.read()

    def wait_for_growth(self, seconds):
        """Waits, so long at most, until a record is on its way into the file. Its body is written and synced before its gate is opened."""
        length, limit = os.path.getsize(self.path), time.monotonic() + seconds
        while os.path.getsize(self.path) == length and time.monotonic() < limit:
            time.sleep(0.0001)

    def look(self):
        """Finds out, by a reader of its own, what a master that was killed had done; from now on that is certain."""
        data = self.read()
        found = checkpoints.read(data)
        for state in self.states():
            if state.stored() == found:
                return self.settle_on(state, len(data))
        raise Difference(f"the file stands for {found}, and not for {self.certain.stored()} with a beginning of {self.open_lines}")

    def settle_on(self, state, length):
        """A file that has grown behind its closed gate has a record there that was broken off."""
        self.broken_records += length > max(state.size + 1, self.longest)
        self.longest = max(self.longest, length)
        self.certain, self.open_lines = state, []
