"""A master by itself, as the rules of parties and of the scheduler have it: it places by trying all pairs."""

from model.frames import AGENT, APP, END, ACK, MASTER
from model.packets import FULL, Packet, Refused, fits, padded, patched_tally, row_change, tally_change, total
from model.roles import Side

GREATEST_PRIORITY = 9
NO_GROUP = ((0,) * 8, (0,) * 8)


class Master:
    """The master of an epoch over the jobs and bans of a hard state (`HardState` of hard_file), which it shares."""

    role = MASTER

    def __init__(self, epoch, shape, hard):
        self.epoch, self.shape, self.hard, self.serving = epoch, shape, hard, False
        self.reported, self.table, self.line = set(), {}, []
        self.demands, self.credited = {}, {}
        self.sides = {(AGENT, machine): Side((0, {}), [{}]) for machine in range(len(shape.machines))}
        for job in sorted(hard.jobs):
            self.know(job)
        self.end_step(set(), set(hard.jobs))

    def know(self, job):
        self.sides[APP, job] = Side((0, {}), [(0, {})])
        self.demands[job], self.credited[job] = {}, {}

    # What its lines do.

    def admit(self, job):
        self.know(job)
        self.end_step(set(), {job})

    def finish(self, job):
        self.table = {spot: count for spot, count in self.table.items() if spot[0] != job}
        self.demands[job] = {}
        self.end_step(set(), set())

    def ban(self, machine):
        self.table = {spot: count for spot, count in self.table.items() if spot[2] != machine}
        self.end_step(set(), set())

    def settle_again(self):
        self.end_step(set(), set())

    def begin(self):
        self.serving = True
        self.end_step(set(), set())

    def resync(self):
        for side in self.sides.values():
            side.acknowledged = 0

    # What it hears.

    def allows(self, packet, peer):
        return packet.receiver[:2] == (MASTER, 0) and packet.sender[:2] in self.sides and (peer is None or peer[:2] == packet.sender[:2])

    def hear(self, packet):
        role, number, incarnation = packet.sender
        side, adopted = self.sides[role, number], set()
        if incarnation < side.known:
            return
        if incarnation > side.known:
            side.is_new(incarnation)
            if role == APP:
                self.demands[number], self.credited[number] = {}, {}
        if packet.kind == ACK:
            side.acknowledge(self.epoch, packet.place, len(side.history) - 1)
        elif packet.receiver[2] == self.epoch and side.takes(packet):
            take = self.take_report if role == AGENT else self.take_demand
            adopted = take(number, side, packet)
        self.end_step(adopted, set())

    def heard_as(self, packet):
        """Hears a packet, whoever sent it: the words that say as what."""
        if not self.allows(packet, None):
            return "stranger"
        side = self.sides[packet.sender[:2]]
        fresh, word = "new " if packet.sender[2] > side.known else "", side.word(self.epoch, packet)
        self.hear(packet)
        if word == "taken" and side.index != packet.place[1]:
            word = "exceeds" if packet.sender[0] == AGENT else "ledger"
        return fresh + word

    def kept(self, machine, row):
        """What of a report enters the table."""
        found = {}
        for (job, unit, size), count in row.items():
            known = self.hard.jobs.get(job)
            if machine not in self.hard.bans and known and not known.ended and unit < len(known.units) and self.size(job, unit) == size:
                found[job, unit, size] = count
        return found

    def take_report(self, machine, side, packet):
        epoch, row = packet.body
        adopts = epoch == self.epoch and machine not in self.reported
        kept = self.kept(machine, row) if adopts else {}
        if not fits(total(kept), padded(self.shape.machines[machine][1])):
            return set()
        side.received, side.index = packet.body, packet.place[1]
        if not adopts:
            return set()
        self.reported.add(machine)
        self.table.update({(job, unit, machine): count for (job, unit, _), count in kept.items()})
        return {machine}

    def take_demand(self, job, side, packet):
        try:
            side.received = packet.body if packet.kind == FULL else patched_tally(side.received, packet.body, "demand")
        except Refused:
            return set()
        side.index = packet.place[1]
        head, entries = side.received
        if head != self.epoch or self.hard.jobs[job].ended:
            self.demands[job] = {}
            return set()
        self.demands[job] = {key: value for key, value in entries.items() if self.is_there(job, key)}
        for (what, unit, machine), back in sorted(self.demands[job].items()):
            credited = self.credited[job].get((unit, machine), 0)
            if what == 5 and back > credited:
                self.take(job, unit, machine, min(back - credited, self.held(job, unit, machine)))
                self.credited[job][unit, machine] = back
        return set()

    def is_there(self, job, key):
        what, unit, number = key
        machines, racks = len(self.shape.machines), {rack for rack, _ in self.shape.machines}
        places = {1: number == 0, 2: number < machines, 3: number in racks, 4: number < machines, 5: number < machines}
        return unit < len(self.hard.jobs[job].units) and places[what]

    # Its table.

    def unit(self, job, unit):
        """The greatest number per machine, the priority and the size."""
        most, priority, *size = self.hard.jobs[job].units[unit]
        return most, priority, padded(size)

    def size(self, job, unit):
        return self.unit(job, unit)[2]

    def held(self, job, unit, machine):
        return self.table.get((job, unit, machine), 0)

    def take(self, job, unit, machine, count):
        left = self.held(job, unit, machine) - count
        self.table.pop((job, unit, machine), None)
        if left:
            self.table[job, unit, machine] = left

    def row(self, machine):
        return {(job, unit, self.size(job, unit)): count for (job, unit, at), count in self.table.items() if at == machine}

    def grants(self, job):
        entries = {(1, 0, machine): 1 for machine in self.reported}
        entries.update({(2, unit, machine): count for (app, unit, machine), count in self.table.items() if app == job})
        entries.update({(3, unit, machine): count for (unit, machine), count in self.credited[job].items()})
        return self.sides[APP, job].known, entries

    def usage(self, group):
        sums = [0] * 8
        for (job, unit, _), count in self.table.items():
            if self.hard.jobs[job].group == group:
                sums = [sum_ + count * quantity for sum_, quantity in zip(sums, self.size(job, unit))]
        return sums

    def out(self, job, unit):
        held = sum(count for (app, other, _), count in self.table.items() if (app, other) == (job, unit))
        return max(0, self.demands[job].get((1, unit, 0), 0) - held)

    # How a step ends.

    def line_up(self):
        waiting = [(job, unit) for job in sorted(self.demands) for unit in range(len(self.hard.jobs[job].units)) if self.out(job, unit)]
        kept = [pair for pair in self.line if pair in waiting]
        self.line = kept + [pair for pair in waiting if pair not in kept]

    def level(self, job, unit, machine):
        rack, demand = self.shape.machines[machine][0], self.demands[job]
        if demand.get((2, unit, machine), 0) > self.held(job, unit, machine):
            return 0
        in_rack = sum(self.held(job, unit, other) for other, (its, _) in enumerate(self.shape.machines) if its == rack)
        return 1 if demand.get((3, unit, rack), 0) > in_rack else 2

    def is_placeable(self, job, unit, machine):
        most, _, size = self.unit(job, unit)
        if machine not in self.reported or machine in self.hard.bans or (4, unit, machine) in self.demands[job] or self.held(job, unit, machine) >= most:
            return False
        taken, used = total(self.row(machine)), self.usage(self.hard.jobs[job].group)
        groups, group = self.shape.groups, self.hard.jobs[job].group
        limit = padded(groups[group][1]) if group < len(groups) else NO_GROUP[1]
        has = padded(self.shape.machines[machine][1])
        return fits([one + more for one, more in zip(taken, size)], has) and fits([one + more for one, more in zip(used, size)], limit)

    def settle(self):
        while True:
            ranks = []
            for place, (job, unit) in enumerate(self.line):
                for machine in range(len(self.shape.machines)):
                    if self.is_placeable(job, unit, machine):
                        ranks.append((GREATEST_PRIORITY - self.unit(job, unit)[1], self.level(job, unit, machine), place, machine))
            if not ranks:
                return
            _, _, place, machine = min(ranks)
            job, unit = self.line[place]
            self.table[job, unit, machine] = self.held(job, unit, machine) + 1
            if not self.out(job, unit):
                self.line.pop(place)

    def end_step(self, adopted, admitted):
        self.serving = self.serving or len(self.reported) == len(self.shape.machines)
        self.line_up()
        if self.serving:
            self.settle()
        for (role, number), side in self.sides.items():
            now = self.row(number) if role == AGENT else self.grants(number)
            if now != side.history[-1] or number in (adopted if role == AGENT else admitted):
                side.history.append(now)

    # What it says.

    def turn(self, peer):
        """Its frames to a peer of which it heard, behind them the one that ends them."""
        side, own = self.sides[peer[:2]], (MASTER, 0, self.epoch)
        other = (*peer[:2], side.known)
        difference = row_change if peer[0] == AGENT else lambda old, new: tally_change(old, new, "grants")
        return [*side.turn(own, other, difference), Packet(END, own, other)]

    def state(self):
        """Its own lines in a state, behind those of the hard state."""
        epoch = self.epoch
        reported = [f"reported {epoch} {machine}" for machine in sorted(self.reported)]
        grants = [f"grant {epoch} {job} {unit} {machine} {count}" for (job, unit, machine), count in sorted(self.table.items())]
        waits = [f"wait {epoch} {job} {unit} {self.out(job, unit)}" for job, unit in self.line]
        return [f"master {epoch} {'serving' if self.serving else 'rebuilding'}", *reported, *grants, *waits]

    def shown(self):
        return [*self.hard.shown(), *self.state()]
