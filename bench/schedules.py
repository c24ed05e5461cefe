"""Schedules to measure with. In each a master serves and grants are placed.

A schedule is drawn beside a run of it: what was sent is asked of the program (a delivery of a packet that is not there is refused with
the number of packets), so deliveries name packets that exist. That wants a program that writes what an event prints before it reads on.
The questions are left out of the schedule. The same words and seed give the same schedule."""

import os
import random
import sys

sys.path.insert(0, os.path.join(os.path.dirname(os.path.dirname(os.path.abspath(__file__))), "tools"))

from shared.driver import Driver  # noqa: E402
from shared.parties import Shape  # noqa: E402

# So many lines are told between two questions.
BATCH = 64


def cluster(machines, has=(2400, 98304), groups=1, quota=1.0, limit=1.0, uneven=0.0, per_rack=16):
    shares = [1 + uneven * (2 * group + 1 - groups) / groups for group in range(groups)]

    def part(times):
        return tuple(int(machines * amount * times) for amount in has)

    return Shape([(machine // per_rack % 64, has) for machine in range(machines)], [(part(quota * share), part(limit * share)) for share in shares]).line()


class Drive:
    """A schedule as it is written, and a run of it."""

    def __init__(self, program, machines, path, **how):
        self.machines, self.jobs, self.epoch, self.sent, self.lines = machines, {}, 0, 0, 1
        self.file, self.run = open(path, "w", encoding="ascii"), Driver(program, cluster(machines, **how))
        self.file.write(f"{cluster(machines, **how)}\n")

    def say(self, *lines):
        for line in lines:
            self.file.write(f"{line}\n")
            self.run.tell(line)
            self.lines += 1
            if self.lines % BATCH == 0:
                self.ask()

    def ask(self):
        """Reads what was printed so far, and learns how many packets were sent."""
        self.run.ask()
        self.sent = self.run.sent

    def state(self):
        """The lines of the present state, which stand in no schedule."""
        return self.run.state_lines()

    def deliver_from(self, first):
        self.ask()
        if first <= self.sent:
            self.say(f"deliver {first} {self.sent}")

    def turns(self, *parties):
        """Turns, and a delivery of all that they send."""
        self.ask()
        first = self.sent + 1
        self.say(*(f"turn {party}" for party in parties))
        self.deliver_from(first)

    def peers(self):
        return [f"agent {m}" for m in range(self.machines)] + [f"app {a}" for a in self.jobs]

    def round(self):
        self.turns(f"master {self.epoch}")
        self.turns(*self.peers())

    def master(self):
        """Another master, which hears of all machines and serves."""
        if self.epoch:
            self.say(f"stop {self.epoch}")
        self.epoch += 1
        self.say(f"master {self.epoch}")

    def submit(self, job, units, group=0):
        text = " / ".join(" ".join(map(str, numbers)) for numbers in units)
        self.say(f"submit {self.epoch} {job} {group} {text}", f"app {job} 1")
        self.jobs[job] = len(units)

    def begin(self, jobs, units, group=lambda job: 0):
        self.master()
        self.say(*(f"agent {m} 1" for m in range(self.machines)))
        for job in range(jobs):
            self.submit(job, units(job), group(job))
        self.round()
        self.round()

    def end(self):
        self.file.close()
        self.run.close()


def sizes(count, priority=lambda u: u):
    return lambda job: [(priority(u), 50 + 10 * u, 1024 + 512 * u) for u in range(count)]


def command(draw, d):
    """A command of an application."""
    job = draw.randrange(len(d.jobs))
    unit, machine, kind = draw.randrange(d.jobs[job]), draw.randrange(d.machines), draw.random()
    if kind < 0.6:
        return f"want {job} {unit} {draw.randrange(60)}"
    if kind < 0.8:
        return f"near {job} {unit} {machine} {draw.randrange(5)}"
    if kind < 0.85:
        return f"rack {job} {unit} {machine // 16} {draw.randrange(9)}"
    if kind < 0.92:
        return f"avoid {job} {unit} {machine} {draw.randrange(2)}"
    return f"back {job} {unit} {machine} 1"


def kinds(d, draw, lines):
    """Lines of all kinds, with packets that are late, lost and repeated."""
    d.begin(16, sizes(3))
    while d.lines < lines:
        kind, machine = draw.random(), draw.randrange(d.machines)
        if kind < 0.5:
            d.say(f"deliver {max(1, d.sent - draw.randrange(60))}")
        elif kind < 0.52:
            turn = f"turn {draw.choice(d.peers())}"
            d.turns(turn[5:]) if draw.random() < 0.9 else d.say(turn)
        elif kind < 0.521:
            d.turns(f"master {d.epoch}")
        elif kind < 0.93:
            d.say(command(draw, d))
        elif kind < 0.96:
            d.say(f"ban {d.epoch} {machine}", f"unban {d.epoch} {machine}")
        elif kind < 0.98:
            d.say(f"resync agent {machine}")
        elif kind < 0.9999:
            d.say(f"preempt {d.epoch}")
        elif d.epoch < 250:
            d.master()
            d.round()


def turns(d, draw, lines):
    """Turns and deliveries, with a command now and then."""
    d.begin(32, sizes(4))
    while d.lines < lines:
        d.turns(*draw.sample(d.peers(), 8))
        if draw.random() < 0.1:
            d.say(command(draw, d))
        if draw.random() < 0.05:
            d.turns(f"master {d.epoch}")


def commands(d, draw, lines):
    """Commands of applications, and rounds between them."""
    d.begin(32, sizes(4))
    while d.lines < lines:
        d.say(*(command(draw, d) for _ in range(400)))
        d.round()


def changes(d, draw, lines):
    """Small changes of demands, each told at once, and a round now and then."""
    d.begin(64, sizes(8))
    while d.lines < lines:
        job = draw.randrange(64)
        d.say(f"want {job} {draw.randrange(8)} {draw.randrange(12)}")
        d.turns(f"app {job}")
        if draw.random() < 0.02:
            d.round()


def failovers(d, draw, lines):
    """Masters one after another, with the reports of all machines."""
    d.begin(16, sizes(4))
    d.say(*(f"want {a} {u} 40" for a in d.jobs for u in range(4)))
    d.round()
    d.round()
    while d.lines < lines:
        d.master()
        d.round()
        d.round()


def placing(d, draw, lines):
    """All machines filled, emptied and filled again, with a thousand units that wait."""
    d.begin(128, sizes(8))
    count = 300
    while d.lines < lines or count == 0:
        d.say(*(f"want {a} {u} {count}" for a in d.jobs for u in range(8)))
        for a in d.jobs:
            d.turns(f"app {a}")
        d.turns(f"master {d.epoch}")
        d.turns(*d.peers())
        count = 300 - count


def preemptions(d, draw, lines):
    """Groups above their quotas, and preemptions."""
    d.begin(16, sizes(4, lambda u: 2 * u), lambda job: job % 4)
    while d.lines < lines:
        d.say(*(f"want {a} {draw.randrange(4)} {draw.randrange(200)}" for a in d.jobs))
        d.turns(*(f"app {a}" for a in d.jobs))
        d.say(*(f"preempt {d.epoch}" for _ in range(64)))
        d.turns(f"master {d.epoch}")


def held(d):
    """By job what its application holds: unit, machine and number."""
    holds = {job: [] for job in d.jobs}
    for line in d.state():
        if line.startswith("hold "):
            job, unit, machine, count = map(int, line.split()[1:])
            holds[job].append((unit, machine, count))
    return holds


def contended(d, draw, lines):
    """Eight groups within quotas and limits, demands that rise and give back, and preemptions, most of which find nothing while hundreds of
    units wait."""
    kinds = [(draw.choice(range(10)), draw.choice((50, 100, 200, 400, 800)), draw.choice((1024, 4096, 12288, 32768)), draw.choice((1, 5, 20, 60))) for _ in range(128 * 8)]
    d.begin(128, lambda job: kinds[8 * job : 8 * job + 8], lambda job: job % 8)
    holds = held(d)
    while d.lines < lines:
        jobs = draw.sample(range(128), 9)
        for job in jobs:
            d.say(f"want {job} {draw.randrange(8)} {draw.randrange(14)}")
        for job in draw.sample(jobs, 7):
            if holds[job]:
                unit, machine, count = draw.choice(holds[job])
                d.say(f"back {job} {unit} {machine} {draw.randrange(1, count + 1)}")
        d.turns(*(f"app {job}" for job in jobs))
        d.say(*(f"preempt {d.epoch}" for _ in range(12)))
        if draw.random() < 0.05:
            d.round() if draw.random() < 0.2 else d.turns(f"master {d.epoch}")
            holds = held(d)


def demand(d, draw, lines):
    """One demand that gives 2,048 grants back, one on each of 256 machines of each of 8 units, and wants them again."""
    d.begin(1, lambda job: [(u, 1, 1) for u in range(8)])
    for unit in range(8):
        d.say(f"want 0 {unit} {d.machines}", *(f"near 0 {unit} {m} 1" for m in range(d.machines)))
    d.round()
    d.round()
    d.say(*(f"back 0 {u} {m} 1" for u in range(8) for m in range(d.machines)))
    d.turns("app 0")
    d.round()


def wants(d, draw, lines):
    """One command of an application again and again."""
    d.begin(1, sizes(1))
    d.say(*(f"want 0 0 {n % 7}" for n in range(lines)))
    d.round()


def heard(d, draw, lines):
    """One old packet again and again."""
    d.begin(1, sizes(1))
    d.say("want 0 0 1")
    d.round()
    d.say(*("deliver 1" for _ in range(lines)))
    d.round()


KINDS = {
    "kinds": (kinds, 16, 750_000, {}),
    "turns": (turns, 64, 500_000, {}),
    "commands": (commands, 64, 366_000, {}),
    "changes": (changes, 256, 115_000, {}),
    "failovers": (failovers, 64, 178_000, {}),
    "placing": (placing, 256, 13_000, {}),
    "preemptions": (preemptions, 64, 21_000, {"groups": 4, "quota": 0.3}),
    "contended": (contended, 128, 100_000, {"has": (2400, 98304, 200), "per_rack": 4, "groups": 8, "quota": 0.12, "limit": 0.25, "uneven": 0.7}),
    "demand": (demand, 256, 0, {}),
    "wants": (wants, 1, 1_000_000, {}),
    "heard": (heard, 1, 1_000_000, {}),
}


def write(program, kind, path, part=1.0):
    """Writes a schedule of this kind, or a part of its lines; the number of its lines and packets."""
    make, machines, lines, how = KINDS[kind]
    drive = Drive(program, machines, path, **how)
    make(drive, random.Random(7), int(lines * part))
    drive.ask()
    drive.end()
    return drive.lines - 1, drive.sent
