"""Peers that send what they should not, drawn by a number, and what a node makes of it."""

import socket
import time

from model.frames import ACK, AGENT, APP, END, MASTER
from model.hard_file import HardState
from nodes.lines import Lines
from model.masters import Master
from model.packets import DELTA, DEMAND, FULL, GRANTS, Packet, padded
from model.roles import Agent, App, hear_bytes
from nodes.wire import PEERS, dial, receive
from shared.parties import text_of
from shared.processes import PATIENCE, Difference, Node
from shared.sites import free_address

UNITS = 2
# So many rounds a node lives at most.
LONGEST_LIFE = 300
REFUSED = "refused "


def tcp_queues():
    """How many bytes wait to be read, of each connection on this machine by its two ports."""
    with open("/proc/net/tcp", encoding="ascii") as table:
        next(table)
        for line in table:
            _, local, remote, _, queues, *_ = line.split()
            yield (int(local.split(":")[1], 16), int(remote.split(":")[1], 16)), int(queues.split(":")[1], 16)


def wait_until_read(side):
    """Waits until the other end has read all that it was given."""
    ports = (side.getpeername()[1], side.getsockname()[1])
    limit = time.monotonic() + PATIENCE
    while time.monotonic() < limit:
        if dict(tcp_queues()).get(ports, 0) == 0:
            return
    raise Difference("a node does not read what it is given")


class Draws:
    """Packets and bytes, drawn so that most of them mean something to the one who hears them."""

    def __init__(self, chance, sizes, machines):
        self.chance, self.sizes, self.machines = chance, sizes, machines

    def near(self, number):
        return max(0, number + self.chance.choice([0, 0, 0, 0, 1, 1, -1, 2]))

    def row_key(self):
        job = self.chance.choice([0, 0, 1, 1, 2, 255])
        unit = self.chance.choice([0, 0, 1, 7])
        size = self.sizes.get((job, unit)) if self.chance.random() < 0.9 else None
        return job, unit, size or padded((self.chance.randint(0, 60), self.chance.randint(1, 300)))

    def row(self, full):
        values = [1, 1, 2, 3, 5, 100_000] if full else [1, 1, 2, -1, -1, -2, -100_000, 100_000]
        return {self.row_key(): self.chance.choice(values) for _ in range(self.chance.choice([0, 1, 1, 2, 3]))}

    def tally(self, kinds, full, head):
        found = {}
        for _ in range(self.chance.choice([0, 1, 2, 4, 6])):
            what = self.chance.choice(sorted(kinds))
            unit, number, value = kinds[what]
            key = (what, min(unit, self.chance.choice([0, 0, 1, 7])), min(number, self.chance.choice([0, 0, 1, self.machines, 255])))
            drawn = min(value, self.chance.choice([1, 1, 2, 3, 7, value]))
            found[key] = drawn if full else self.chance.choice([drawn, drawn, -drawn])
        return self.near(head), found

    def body(self, kind, sender, receiver, head):
        full = kind == FULL
        if kind in (ACK, END):
            return None
        if sender == AGENT:
            return self.near(head), self.row(True)
        if sender == APP:
            return self.tally(DEMAND, full, head)
        return self.row(full) if receiver == AGENT else self.tally(GRANTS, full, head)

    def packet(self, sender, receiver, index, last, head):
        """A packet whose place is near what is due: `index` of the one who hears, `last` of what it has said."""
        kind = self.chance.choice([ACK, DELTA, FULL, FULL])
        if kind == ACK:
            inc = self.chance.choice([receiver[2], receiver[2], 0, 1])
            place = (inc, self.near(last) if inc else 0)
        else:
            place = (sender[2], max(1 if kind == FULL else 2, index + self.chance.choice([1, 1, 1, 1, 0, 2, 5])))
        return Packet(kind, sender, receiver, place, self.body(kind, sender[0], receiver[0], head)).frame()

    def spoilt(self, frame):
        """A frame of which bytes are others, or that is cut."""
        way = self.chance.random()
        if way < 0.25:
            return frame[: self.chance.randrange(len(frame))]
        bytes_ = bytearray(frame)
        for _ in range(self.chance.choice([1, 1, 2])):
            bytes_[self.chance.choice([self.chance.randrange(len(bytes_)), self.chance.randrange(48)])] = self.chance.choice([0, 1, 2, 3, 4, 5, 44, 255])
        return bytes(bytes_)

    def pieces(self, data):
        at = 0
        while at < len(data):
            behind = at + self.chance.choice([1, 5, 48, 300, 4096, len(data), len(data)])
            yield data[at:behind]
            at = behind


class Peer:
    """Who speaks with a node over one connection, and ends it."""

    def __init__(self, chance, side):
        self.chance, self.side = chance, side
        side.settimeout(PATIENCE)
        side.setsockopt(socket.IPPROTO_TCP, socket.TCP_NODELAY, 1)

    def give(self, pieces):
        try:
            for piece in pieces:
                self.side.sendall(piece)
        except (ConnectionResetError, BrokenPipeError):
            pass

    def gather(self):
        """All that the node says to its end, or to the end of the connection."""
        said = b""
        while piece := receive(self.side):
            said += piece
        return said

    def hear(self, length):
        """So many bytes that the node says."""
        said = b""
        while len(said) < length and (piece := receive(self.side)):
            said += piece
        return said

    def half_close(self):
        try:
            self.side.shutdown(socket.SHUT_WR)
        except OSError:
            pass

    def reset(self):
        self.side.setsockopt(socket.SOL_SOCKET, socket.SO_LINGER, b"\1\0\0\0\0\0\0\0")
        self.side.close()


def line_of(heard, how, sent, is_reset):
    """The line of a round in which so many frames were heard, and that ended so."""
    if how == "End":
        return f"round done {heard} {sent}"
    if how == "Long":
        return "round long"
    if how is None:
        return "round fault" if is_reset else f"round bad {heard + 1} Short"
    return f"round bad {heard + 1} {how}"


def bytes_of(packets):
    return b"".join(packet.frame() for packet in packets)


class Hostile:
    """Nodes of the program, one of each kind after another, with peers that are drawn."""

    def __init__(self, program, folder, shape, chance, journal):
        self.program, self.folder, self.shape, self.chance, self.journal = program, folder, shape, chance, journal
        self.counts, self.epoch = {}, 0
        self.listener = socket.create_server((PEERS, 0))
        self.listener.settimeout(PATIENCE)
        self.hard, self.lines = HardState(shape), Lines(shape, chance)
        self.node = None

    def count(self, what):
        self.counts[what] = self.counts.get(what, 0) + 1

    def start(self, words, address):
        self.node = Node(self.program, self.folder, [*words, text_of(address)], self.shape.line(), self.journal)

    def end(self, party):
        found = self.node.end()
        wanted = ([f"state {self.node.events}", *party.shown()], 0, "")
        if found != wanted:
            raise Difference(f"{self.node.name} ends with {found}, and not with {wanted}")

    def compare_state(self, party):
        found, wanted = self.node.show(), party.shown()
        if found != wanted:
            raise Difference(f"{self.node.name} shows {found}, and not {wanted}")

    def live(self, rounds):
        """A node of a kind that is drawn, for some rounds: how many it had."""
        life = min(rounds, self.chance.randint(1, LONGEST_LIFE))
        kind = self.chance.choice([self.live_agent, self.live_app, self.live_master])
        kind(life)
        return life

    def live_agent(self, rounds):
        party = Agent(0, self.chance.choice([1, 2, 9]), self.shape.machines[0][1])
        self.start(["agent", 0, party.boot], self.listener.getsockname())
        for _ in range(rounds):
            self.dialed(party)
        self.end(party)

    def live_app(self, rounds):
        party = App(0, self.chance.choice([1, 2, 9]), UNITS, len(self.shape.machines))
        self.start(["app", 0, party.boot, UNITS], self.listener.getsockname())
        for _ in range(rounds):
            if self.chance.random() < 0.4:
                self.command(party)
            self.dialed(party)
        self.end(party)

    def command(self, app):
        """The application is told what it wants, or gives back."""
        unit, machine = self.chance.randrange(UNITS), self.chance.randrange(len(self.shape.machines))
        what, value = self.chance.choice([(1, 5), (1, 0), (2, 3), (4, 1), (4, 0), (5, 1), (5, 2)])
        word = {1: f"want 0 {unit}", 2: f"near 0 {unit} {machine}", 4: f"avoid 0 {unit} {machine}", 5: f"back 0 {unit} {machine}"}[what]
        refusal = app.give_back(unit, machine, value) if what == 5 else None
        if what != 5:
            self.set(app, (what, unit, 0 if what == 1 else machine), value)
        printed = self.node.ask(f"{word} {value}")
        if printed != ([refusal] if refusal else []):
            raise Difference(f"{self.node.name} prints {printed} to {word} {value}, and not {refusal}")

    def set(self, app, key, value):
        if value or key in app.demand[1]:
            app.set(key, value)

    # A round of a node that dials.

    def master_says(self, party, draws):
        """What a master, or somebody else, says to an agent or an application."""
        side, own = party.side, party.identity()
        epoch = max(1, side.known + self.chance.choice([0, 0, 0, 0, 1, -1]))
        receiver = (own[0], own[1], self.chance.choice([own[2], own[2], own[2], 0, own[2] + 1]))
        data = b""
        for _ in range(self.chance.choice([0, 1, 1, 2, 3, 6])):
            sender = (MASTER, 0, epoch)
            if self.chance.random() < 0.04:
                receiver = self.chance.choice([(AGENT, 1, 1), (APP, 1, 1), (AGENT, 0, 1)])
            frame = draws.packet(sender, receiver, side.index, len(side.history) - 1, own[2])
            data += draws.spoilt(frame) if self.chance.random() < 0.06 else frame
        return data + self.ending((MASTER, 0, epoch), own, draws)

    def ending(self, sender, receiver, draws):
        draw = self.chance.random()
        if draw < 0.6:
            return Packet(END, sender, receiver).frame() + self.chance.choice([b"", b"", b"more", Packet(ACK, sender, receiver).frame()])
        if draw < 0.65:
            return Packet(ACK, sender, receiver).frame() * self.chance.choice([4095, 4096, 5000]) + Packet(END, sender, receiver).frame()
        return self.chance.choice([b"", b"", draws.spoilt(Packet(END, sender, receiver).frame())])

    def dialed(self, party):
        sizes = {(job, unit): padded((10 + unit, 20 + job)) for job in range(3) for unit in range(2)}
        turn, draws = party.turn(), Draws(self.chance, sizes, len(self.shape.machines))
        data, said = self.master_says(party, draws), bytes_of(turn)
        heard, how, _ = hear_bytes(party, data)
        is_reset = how is None and self.chance.random() < 0.3
        self.node.tell("round")
        side, _ = self.listener.accept()
        peer = Peer(self.chance, side)
        found = peer.hear(len(said))
        if found != said:
            raise Difference(f"{self.node.name} says {found.hex()}, and not {said.hex()}")
        peer.give(draws.pieces(data))
        self.finish(peer, line_of(heard, how, len(turn) - 1, is_reset), how, is_reset, b"")
        self.compare_state(party)

    def finish(self, peer, line, how, is_reset, answer):
        """The peer ends the connection in its way, and the node prints its line, having said this and no more."""
        self.count(line.split()[1] + (" " + line.split()[3] if line.startswith("round bad") else ""))
        if is_reset:
            wait_until_read(peer.side)
            peer.reset()
        elif how is None or self.chance.random() < 0.5:
            peer.half_close()
        self.node.expect(line)
        if is_reset:
            return
        found = peer.gather()
        if found != answer:
            raise Difference(f"{self.node.name} answers {found.hex()}, and not {answer.hex()}")
        peer.side.close()

    # A round of a master.

    def live_master(self, rounds):
        self.epoch = self.hard.fence + self.chance.choice([1, 1, 5])
        self.hard.take(f"raise {self.epoch}")
        party, address = Master(self.epoch, self.shape, self.hard), free_address()
        self.start(["master", self.epoch], address)
        self.compare_state(party)
        for _ in range(rounds):
            if self.chance.random() < 0.06:
                self.master_line(party)
            self.served(party, address)
        self.end(party)

    def master_line(self, party):
        line = self.chance.choice([f"begin {self.epoch}", f"resync master {self.epoch}", self.hard_line()])
        word, _, *words = line.split()
        refusal = None
        if word == "begin":
            refusal = "refused AlreadyServing" if party.serving else None
            party.begin()
        elif word == "resync":
            party.resync()
        else:
            refusal = self.hard.take(line)
            if not refusal:
                {"submit": party.admit, "finish": party.finish, "ban": party.ban, "unban": lambda _: party.settle_again()}[word](int(words[0]))
        printed = self.node.ask(line)
        if printed != ([refusal] if refusal else []):
            raise Difference(f"{self.node.name} prints {printed} to {line}, and not {refusal}")

    def hard_line(self):
        live = len(self.hard.live_jobs())
        if self.lines.has_jobs() and live < 2:
            return self.lines.submission(self.epoch)
        return self.chance.choice([f"ban {self.epoch} {self.lines.machine()}", f"unban {self.epoch} {self.lines.machine()}", f"finish {self.epoch} {self.chance.choice(sorted(self.hard.jobs))}"])

    def peer_says(self, party, draws):
        """What an agent, an application, or somebody else says to a master."""
        live = self.hard.live_jobs() or [0]
        role, number = self.chance.choice([(AGENT, 0), (AGENT, 1), (AGENT, len(self.shape.machines)), *((APP, job) for job in live * 3), (APP, 255)])
        side = party.sides.get((role, number))
        known, index, last = (side.known, side.index, len(side.history) - 1) if side else (0, 0, 0)
        sender, data = (role, number, max(1, known + self.chance.choice([0, 0, 0, 0, 1, -1]))), b""
        receiver = (MASTER, 0, self.chance.choice([self.epoch, self.epoch, self.epoch, 0, self.epoch + 1]))
        for _ in range(self.chance.choice([0, 1, 1, 2, 3, 6])):
            frame = draws.packet(sender, receiver, index, last, self.epoch)
            data += draws.spoilt(frame) if self.chance.random() < 0.06 else frame
            if self.chance.random() < 0.02:
                data += Packet(ACK, (AGENT, 1 - min(number, 1), 1), receiver).frame()
        return data + self.ending(sender, receiver, draws)

    def served(self, party, address):
        sizes = {(job, unit): party.size(job, unit) for job in self.hard.jobs for unit in range(len(self.hard.jobs[job].units))}
        draws = Draws(self.chance, sizes, len(self.shape.machines))
        data = self.peer_says(party, draws)
        heard, how, last = hear_bytes(party, data)
        is_reset = how is None and self.chance.random() < 0.3
        turn = party.turn(last) if how == "End" else []
        self.node.tell("serve")
        peer = Peer(self.chance, dial(address))
        peer.give(draws.pieces(data))
        self.finish(peer, line_of(heard, how, len(turn) - 1, is_reset), how, is_reset, bytes_of(turn))
        self.compare_state(party)

    def close(self):
        self.listener.close()
        if self.node and self.node.is_running():
            self.node.kill()
