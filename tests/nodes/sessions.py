"""Inputs of a desk, drawn so that much depends on the order in which the calls of its sessions are taken."""

from collections import Counter

from model.frames import ACK, AGENT, APP, END, MASTER
from nodes.hostile import Draws
from model.packets import DELTA, FULL, Packet, padded, read_frame
from shared.parties import Shape

# Machines are scarce: they hold a few units each, and the applications of the jobs want more.
HAS = [(40, 100), (60, 80), (30, 120), (50, 50), (80, 60), (20, 200)]
SHAPE = Shape(machines=[(machine // 2, has) for machine, has in enumerate(HAS)], groups=[((100, 200), (180, 400)), ((60, 100), (120, 300))])
SIZES = [((10, 20), (8, 30)), ((5, 5), (20, 10))]
JOBS = 20
MASTER_HERE = (MASTER, 0, 1)
# Parties for which one session speaks, so that their changes come in their order; and those for which all do, with two of which nobody knows.
ALONE = [*((AGENT, machine) for machine in range(4)), *((APP, job) for job in range(12))]
SHARED = [(AGENT, 4), (AGENT, 5), *((APP, job) for job in range(12, JOBS))] * 4 + [(AGENT, len(HAS)), (APP, 255)]
# Parties with this number modulo 8 acknowledge their first packets alone, so that all changes are open behind these.
SILENT = 1


def submit_line(job):
    first, second = SIZES[job % 2]
    most = " most 2" if job % 3 == 0 else ""
    return f"submit 1 {job} {job % 2} {job % 4} %d %d{most} / {job % 3} %d %d" % (*first, *second)


def opening():
    """The cluster, its jobs, and lines that are refused."""
    refused = ["submit 2 99 0 1 1 1", "submit 1 99 2 1 1 1", "submit 1 99 0 1 1", "submit 1 99 0 1 1 1 / 10 1 1", "submit 1 0 0 1 1 1"]
    return [SHAPE.line(), *map(submit_line, range(JOBS)), *refused]


class Speaker:
    """A party, with its boot, the place up to which its ledgers were drawn, and what these gave back."""

    def __init__(self, chance, role, number):
        sizes = {(job, unit): padded(size) for job in range(JOBS) for unit, size in enumerate(SIZES[job % 2])}
        self.chance, self.draws = chance, Draws(chance, sizes, len(HAS))
        self.role, self.number, self.boot, self.index, self.given, self.said = role, number, 1, 0, Counter(), []

    def call(self):
        """The bytes of its next call: now and then the same again, and now and then none that is a call."""
        draw = self.chance.random()
        if not self.said:
            return self.say(self.first())
        if draw < 0.06:
            return self.bad()
        if draw < 0.12:
            return self.chance.choice(self.said)
        if draw < 0.125:
            self.boot, self.index, self.given = self.boot + 1, 0, Counter()
        return self.say(self.next())

    def first(self):
        """A small demand, and a report that is too much now and then."""
        return self.report() if self.role == AGENT else self.ledger(1, {(1, 0, 0): 3})

    def report(self):
        job, count = self.chance.randrange(JOBS), self.chance.choice([0, 1, 1, 100])
        return self.ledger(self.index + 1, {(job, 0, padded(SIZES[job % 2][0])): count} if count else {})

    def ledger(self, index, entries):
        return Packet(FULL, (self.role, self.number, self.boot), MASTER_HERE, (self.boot, index), (1, entries)).frame()

    def next(self):
        if self.chance.random() < 0.5:
            return self.demand() if self.role == APP else self.report()
        sender = (self.role, self.number, max(1, self.boot - (self.chance.random() < 0.05)))
        receiver = (MASTER, 0, self.chance.choice([1] * 10 + [0, 2]))
        acknowledged = self.chance.randrange(2 + (len(self.said) if self.number % 8 != SILENT else 2))
        return self.draws.packet(sender, receiver, self.index, acknowledged, 1)

    def demand(self):
        """How many of its units it wants now, of which machines are short; what it gave back; and sometimes which machine it avoids."""
        entries = {(1, unit, 0): wanted for unit in range(2) if (wanted := self.chance.choice([0, 1, 2, 4, 9]))}
        if self.chance.random() < 0.2:
            entries[4, 0, self.chance.randrange(len(HAS))] = 1
        if self.chance.random() < 0.7:
            self.given[5, self.chance.randrange(2), self.chance.randrange(len(HAS))] += self.chance.choice([1, 1, 2, 5])
        return self.ledger(self.index + self.chance.choice([1, 1, 1, 3]), {**entries, **self.given})

    def bad(self):
        frame, sender = self.chance.choice(self.said), (self.role, self.number, self.boot)
        others = [frame + b"\0", frame + frame, Packet(END, sender, MASTER_HERE).frame(), Packet(ACK, MASTER_HERE, sender).frame()]
        return self.chance.choice([*others, self.draws.spoilt(frame), self.draws.spoilt(frame)]) or b"\0"

    def say(self, frame):
        packet, _ = read_frame(frame)
        index, comes = packet.place[1], {FULL: packet.place[1] > self.index, DELTA: packet.place[1] == self.index + 1}
        if packet.sender[2] == self.boot and comes.get(packet.kind):
            self.index = index
        self.said.append(frame)
        return frame


def draw_sessions(chance, sessions, calls):
    """The calls of each session, so many in all."""
    speakers = {party: Speaker(chance, *party) for party in ALONE + SHARED}
    own, made = [ALONE[session::sessions] for session in range(sessions)], [[] for _ in range(sessions)]
    for call in range(calls):
        session = call % sessions
        party = chance.choice(own[session] if own[session] and chance.random() < 0.6 else SHARED)
        made[session].append(speakers[party].call())
    return made


def lines_of(sessions):
    """The lines of an input in which each session makes these calls."""
    return opening() + [f"call {session} {call.hex()}" for session, calls in enumerate(sessions) for call in calls]
