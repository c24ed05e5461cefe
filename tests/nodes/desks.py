"""A desk by itself: one thread that hears the calls of many sessions in an order that it is told, and what it prints of that."""

import json

from itertools import zip_longest

from model.frames import ACK, AGENT, APP, END, MASTER
from model.hard_file import HardState
from model.masters import Master
from model.packets import DELTA, FULL, read_frame
from shared.parties import Shape
from shared.processes import Difference

EPOCH = 1
KIND_WORDS = {ACK: "ack", DELTA: "delta", FULL: "full"}
PARTY_WORDS = {AGENT: "agent", APP: "app"}


def shape_of(line):
    """The cluster that its line describes."""
    told = json.loads(line)
    return Shape([(machine["rack"], machine["has"]) for machine in told["machines"]], [(group["quota"], group["limit"]) for group in told["groups"]])


def party_word(party):
    role, number, incarnation = party
    return f"master/{incarnation}" if role == MASTER else f"{PARTY_WORDS[role]}/{number}/{incarnation}"


def sent_line(packet):
    place = "%d.%d" % packet.place
    return f"sent {party_word(packet.sender)} {party_word(packet.receiver)} {KIND_WORDS[packet.kind]} {place} {len(packet.frame())}"


def read_call(data):
    """The packet that the bytes of a call are, or why they are none, as it is printed."""
    packet, length = read_frame(data)
    if isinstance(packet, str):
        return packet
    if length < len(data):
        return "Trailing"
    return "End" if packet.kind == END else packet


def order_in(text):
    """Which calls a text names, each by its session and its number there, in its order."""
    try:
        return [(int(line.split(" ")[1]), int(line.split(" ")[2])) for line in text if line.startswith("took ")]
    except (ValueError, IndexError) as fault:
        raise Difference(f"a line of the journal names no call: {fault}") from None


class Input:
    """What the lines of an input say: a cluster, the jobs that are submitted, and the calls of each session."""

    def __init__(self, lines):
        cluster, *told = (line for line in lines if line.strip(" ") and not line.startswith("#"))
        self.shape, self.submits, self.calls = shape_of(cluster), [], {}
        for line in told:
            word, *words = line.split()
            if word == "submit":
                self.submits.append(line)
            elif word == "call":
                self.calls.setdefault(int(words[0]), []).append(read_call(bytes.fromhex(words[1])))
            else:
                raise ValueError(f"no line of a desk: {line}")

    def check_order(self, order):
        """Each call of each session stands in an order once, in its session's order."""
        taken = dict.fromkeys(self.calls, 0)
        for session, number in order:
            if session not in taken or number != taken[session] + 1 or number > len(self.calls[session]):
                raise Difference(f"call {number} of session {session} stands where its call {taken.get(session, 0) + 1} has to")
            taken[session] = number
        for session, calls in self.calls.items():
            if taken[session] != len(calls):
                raise Difference(f"of the {len(calls)} calls of session {session} {taken[session]} stand in the journal")

    def run(self, order):
        """The lines that are printed where the calls are taken in this order."""
        hard = HardState(self.shape)
        hard.take(f"raise {EPOCH}")
        master = Master(EPOCH, self.shape, hard)
        for line in self.submits:
            refusal = hard.take(line)
            if refusal:
                yield refusal
            else:
                master.admit(int(line.split()[2]))
        for session, number in order:
            yield from taken(master, session, number, self.calls[session][number - 1])
        yield from master.state()


def taken(master, session, number, call):
    """The lines of a call. One that is bad makes no step."""
    if isinstance(call, str):
        yield f"took {session} {number} bad {call}"
        return
    yield f"took {session} {number} {master.heard_as(call)}"
    if call.sender[:2] in master.sides:
        yield from (sent_line(packet) for packet in master.turn(call.sender)[:-1])


def compare(lines, text):
    """The lines that were printed over an input, with those of the desk here over the order that they name."""
    told, order = Input(lines), order_in(text)
    told.check_order(order)
    for place, (line, own) in enumerate(zip_longest(text, told.run(order)), 1):
        if line != own:
            raise Difference(f"line {place} is {line!r}, and by the order of the journal it is {own!r}")
