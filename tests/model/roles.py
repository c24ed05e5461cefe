"""An agent and an application by itself, as the rules of hearing and of parties have them: a model that knows nothing of the program."""

from model.frames import ACK, AGENT, APP, END, MASTER
from model.packets import DELTA, FULL, SHORT, Packet, Refused, fits, padded, patched_row, patched_tally, read_frame, tally_change, total

MOST_FRAMES, MOST_KEPT, MOST_DELTAS = 4096, 256, 64


class Side:
    """One peer of a party: what is known of it, what came of it, and what it is told."""

    def __init__(self, received, history):
        self.known, self.index, self.acknowledged = 0, 0, 0
        self.empty, self.received, self.history = received, received, history

    def place(self):
        return (self.known, self.index)

    def is_new(self, incarnation):
        self.known, self.index, self.acknowledged, self.received = incarnation, 0, 0, self.empty

    def acknowledge(self, own, place, last):
        """What is said by this very packet is not yet among what may be acknowledged: `last` is the index before it."""
        if place[0] == own and self.acknowledged < place[1] <= last:
            self.acknowledged = place[1]

    def takes(self, packet):
        """Whether a change or a whole ledger comes in its order."""
        index = packet.place[1]
        return self.index < index if packet.kind == FULL else self.index == index - 1

    def word(self, own, packet):
        """As what a packet to the incarnation `own` of the party is heard, before it is known whether its ledger is refused."""
        incarnation, index = packet.sender[2], packet.place[1]
        received = self.index if incarnation == self.known else 0
        if incarnation < self.known:
            return "stale"
        if packet.kind == ACK:
            return "ack"
        if packet.receiver[2] != own:
            return "not-mine"
        if index <= received:
            return "old"
        return "taken" if packet.kind == FULL or index == received + 1 else "gap"

    def turn(self, own, peer, difference):
        """The packets that are sent: whole, or as changes, and an acknowledgement."""
        last, packets = len(self.history) - 1, []
        if self.known and last and self.acknowledged < last:
            if self.acknowledged == 0 or last - self.acknowledged > MOST_KEPT:
                packets.append(Packet(FULL, own, peer, (own[2], last), self.history[last]))
            else:
                for index in range(self.acknowledged + 1, min(last, self.acknowledged + MOST_DELTAS) + 1):
                    packets.append(Packet(DELTA, own, peer, (own[2], index), difference(self.history[index - 1], self.history[index])))
        packets.append(Packet(ACK, own, peer, self.place()))
        return packets


def hear_bytes(party, data):
    """Hears the frames of these bytes: how many it heard, how that ended (None where less than a frame is left), and of whom the last one was."""
    count, at, peer = 0, 0, None
    while count < MOST_FRAMES:
        packet, length = read_frame(data[at:])
        if packet == SHORT:
            return count, None, peer
        if isinstance(packet, str):
            return count, packet, peer
        if not party.allows(packet, peer):
            return count, "Stranger", peer
        peer = packet.sender
        if packet.kind == END:
            return count, "End", peer
        party.hear(packet)
        at += length
        count += 1
    return count, "Long", peer


class Own:
    """What an agent and an application have in common: they dial one master."""

    def identity(self):
        return (self.role, self.number, self.boot)

    def master(self):
        return (MASTER, 0, self.side.known)

    def allows(self, packet, peer):
        return packet.receiver[:2] == (self.role, self.number) and packet.sender[0] == MASTER

    def turn(self):
        """Its frames in a round, and how many they are without the last."""
        packets = self.side.turn(self.identity(), self.master(), self.difference) if self.side.known else []
        return packets + [Packet(END, self.identity(), self.master())]

    def hear(self, packet):
        side, last = self.side, len(self.side.history) - 1
        if packet.sender[2] < side.known:
            return
        if packet.sender[2] > side.known:
            held = self.at_join()
            side.is_new(packet.sender[2])
            self.join(held)
        if packet.kind == ACK:
            side.acknowledge(self.boot, packet.place, last)
        elif packet.receiver[2] == self.boot and side.takes(packet):
            self.take(packet)


class Agent(Own):
    """The agent of a machine."""

    role = AGENT

    def __init__(self, machine, boot, has):
        self.number, self.boot, self.has = machine, boot, padded(has)
        self.side, self.carried = Side({}, [(0, {})]), {}

    def table(self):
        return self.side.received if self.side.index else self.carried

    def at_join(self):
        return self.table()

    def join(self, held):
        self.carried = held
        self.side.history.append((self.side.known, held))

    def difference(self, old, new):
        return new

    def take(self, packet):
        try:
            row = packet.body if packet.kind == FULL else patched_row(self.side.received, packet.body)
        except Refused:
            return
        if fits(total(row), self.has):
            self.side.received, self.side.index = row, packet.place[1]

    def shown(self):
        rows = [f"row {self.number} {job} {unit} {self.table()[job, unit, size]}" for job, unit, size in sorted(self.table())]
        return ["agent %d %d %d.%d" % (self.number, self.boot, *self.side.place()), *rows]


class App(Own):
    """The application of a job."""

    role = APP

    def __init__(self, job, boot, units, machines):
        self.number, self.boot, self.units, self.machines = job, boot, units, machines
        self.demand, self.carried = (0, {}), {}
        self.side = Side((0, {}), [self.demand])

    def names(self, machine):
        return (1, 0, machine) in self.side.received[1]

    def held(self, unit, machine):
        head, entries = self.side.received
        if not self.names(machine):
            return self.carried.get(machine, {}).get(unit, 0)
        count = entries.get((2, unit, machine), 0)
        credited = entries.get((3, unit, machine), 0) if head == self.boot else 0
        return count - min(count, max(0, self.demand[1].get((5, unit, machine), 0) - credited))

    def at_join(self):
        return {machine: {unit: self.held(unit, machine) for unit in range(8)} for machine in range(256) if self.names(machine)}

    def join(self, held):
        self.carried.update(held)
        self.change(self.side.known, {key: value for key, value in self.demand[1].items() if key[0] != 5})

    def change(self, head, entries):
        if (head, entries) != self.demand:
            self.demand = (head, entries)
            self.side.history.append(self.demand)

    def set(self, key, value):
        """Does a command, which is not refused."""
        entries = {**self.demand[1], key: value}
        if value == 0:
            del entries[key]
        self.change(self.demand[0], entries)

    def give_back(self, unit, machine, count):
        """The refusal, or None."""
        usable = self.held(unit, machine) if self.names(machine) else 0
        if count > usable:
            return f"refused NotUsable {usable}"
        if count:
            self.set((5, unit, machine), self.demand[1].get((5, unit, machine), 0) + count)
        return None

    def difference(self, old, new):
        return tally_change(old, new, "demand")

    def take(self, packet):
        try:
            self.side.received = packet.body if packet.kind == FULL else patched_tally(self.side.received, packet.body, "grants")
            self.side.index = packet.place[1]
        except Refused:
            pass

    def shown(self):
        words = {True: "hold", False: "carry"}
        held = [f"{words[self.names(machine)]} {self.number} {unit} {machine} {self.held(unit, machine)}" for unit in range(self.units) for machine in range(self.machines) if self.held(unit, machine)]
        return ["app %d %d %d.%d" % (self.number, self.boot, *self.side.place()), *held]

