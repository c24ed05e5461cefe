"""Packets with their bodies as bytes, written and read by the rules of frames, apart from the program."""

import struct

from model.frames import ACK, AGENT, APP, END, MASTER

DELTA, FULL = 2, 3
LEAST_LENGTH, GREATEST_LENGTH = 44, 262_188
MOST_NUMBER, MOST_ENTRIES = 255, 2048
GREATEST_COUNT, GREATEST_QUANTITY = 100_000, 10**12
HEADER = struct.Struct(">IBBBIQBIQQQ")
# Of a ledger of numbers: which kinds of entry there are, and of each the greatest unit, number and value.
UNIT, MACHINE, RACK = 7, 255, 63
GRANTS = {1: (0, MACHINE, 1), 2: (UNIT, MACHINE, GREATEST_COUNT), 3: (UNIT, MACHINE, GREATEST_QUANTITY)}
DEMAND = {1: (UNIT, 0, GREATEST_COUNT), 2: (UNIT, MACHINE, GREATEST_COUNT), 3: (UNIT, RACK, GREATEST_COUNT), 4: (UNIT, MACHINE, 1), 5: (UNIT, MACHINE, GREATEST_QUANTITY)}
# The kind of entry that goes with its head: what was credited, and what was given back.
DROPPED = {"grants": 3, "demand": 5}
SHORT, NOTHING = "Short", None


class NotBody(Exception):
    """Bytes are no body of their channel."""


class Refused(Exception):
    """A change brings a number below 0 or above its greatest."""


class Reader:
    """The bytes of a body, from the front on."""

    def __init__(self, data):
        self.data, self.at = data, 0

    def number(self, size):
        if self.at + size > len(self.data):
            raise NotBody
        self.at += size
        return int.from_bytes(self.data[self.at - size : self.at], "big")

    def change(self, size, greatest):
        value = self.number(size)
        value -= (value >> (8 * size - 1)) << (8 * size)
        if value == 0 or abs(value) > greatest:
            raise NotBody
        return value

    def end(self):
        if self.at != len(self.data):
            raise NotBody


def read_row(body, full):
    """A row, or a change of one: a value for each job, unit and size."""
    found, last = {}, None
    count = body.number(4)
    if count > MOST_ENTRIES:
        raise NotBody
    for _ in range(count):
        key = (body.number(4), body.number(1), tuple(body.number(8) for _ in range(8)))
        if key[0] > MOST_NUMBER or key[1] > UNIT or max(key[2]) > GREATEST_QUANTITY or not any(key[2]):
            raise NotBody
        value = body.number(4) if full else body.change(4, GREATEST_COUNT)
        if (full and not 1 <= value <= GREATEST_COUNT) or (last is not None and key <= last):
            raise NotBody
        found[key], last = value, key
    return found


def read_tally(body, full, kinds):
    """The head of a ledger of numbers, and a value for each key."""
    head, count = body.number(8), body.number(4)
    found, last = {}, None
    for _ in range(count):
        key = (body.number(1), body.number(1), body.number(2))
        most = kinds.get(key[0])
        if most is None or key[1] > most[0] or key[2] > most[1]:
            raise NotBody
        value = body.number(8) if full else body.change(8, most[2])
        if (full and not 1 <= value <= most[2]) or (last is not None and key <= last):
            raise NotBody
        found[key], last = value, key
    return head, found


def read_body(kind, sender, receiver, data):
    body, full = Reader(data), kind == FULL
    if kind in (ACK, END):
        found = NOTHING
    elif sender == AGENT:
        found = (body.number(8), read_row(body, True))
    elif sender == APP:
        found = read_tally(body, full, DEMAND)
    elif receiver == AGENT:
        found = read_row(body, full)
    else:
        found = read_tally(body, full, GRANTS)
    body.end()
    return found


class Packet:
    """Who says it to whom, both as a role, a number and an incarnation; its kind, its place and its body."""

    def __init__(self, kind, sender, receiver, place=(0, 0), body=NOTHING):
        self.kind, self.sender, self.receiver, self.place, self.body = kind, sender, receiver, place, body

    def frame(self):
        body = write_body(self)
        return HEADER.pack(LEAST_LENGTH + len(body), 1, self.kind, *self.sender, *self.receiver, *self.place) + body


def write_row(row, full):
    value = ">I" if full else ">i"
    entries = (struct.pack(">IB8Q", key[0], key[1], *key[2]) + struct.pack(value, row[key]) for key in sorted(row))
    return struct.pack(">I", len(row)) + b"".join(entries)


def write_tally(head, entries, full):
    value = ">Q" if full else ">q"
    written = (struct.pack(">BBH", *key) + struct.pack(value, entries[key]) for key in sorted(entries))
    return struct.pack(">QI", head, len(entries)) + b"".join(written)


def write_body(packet):
    full = packet.kind == FULL
    if packet.kind in (ACK, END):
        return b""
    if packet.sender[0] == AGENT:
        return struct.pack(">Q", packet.body[0]) + write_row(packet.body[1], True)
    if packet.sender[0] == MASTER and packet.receiver[0] == AGENT:
        return write_row(packet.body, full)
    return write_tally(*packet.body, full)


def are_parties(sender, receiver):
    if MASTER not in (sender[0], receiver[0]) or sender[2] == 0:
        return False
    master, other = (sender, receiver) if sender[0] == MASTER else (receiver, sender)
    return master[1] == 0 and other[0] in (AGENT, APP) and other[1] <= MOST_NUMBER


def has_place(kind, sender, place):
    if kind == ACK:
        return place[0] > 0 or place[1] == 0
    if kind == END:
        return place == (0, 0)
    return place[0] == sender[2] and place[1] >= (1 if kind == FULL else 2)


def read_frame(data):
    """The first packet of the bytes and its length, or why there is none: a fault as it is printed."""
    if len(data) < 4:
        return SHORT, 0
    length = int.from_bytes(data[:4], "big")
    if not LEAST_LENGTH <= length <= GREATEST_LENGTH:
        return f"Length {length}", 0
    if len(data) < 4 + length:
        return SHORT, 0
    _, version, kind, *numbers = HEADER.unpack_from(data)
    sender, receiver, place = tuple(numbers[:3]), tuple(numbers[3:6]), tuple(numbers[6:])
    if version != 1:
        return f"Version {version}", 0
    if not ACK <= kind <= END:
        return f"Kind {kind}", 0
    if not are_parties(sender, receiver):
        return "Role", 0
    if not has_place(kind, sender, place):
        return "Place", 0
    try:
        body = read_body(kind, sender[0], receiver[0], data[HEADER.size : 4 + length])
    except NotBody:
        return "Body", 0
    return Packet(kind, sender, receiver, place, body), 4 + length


def patched_row(row, change):
    changed = dict(row)
    for key in sorted(change):
        value = changed.get(key, 0) + change[key]
        if not 0 <= value <= GREATEST_COUNT or (key not in changed and len(changed) == MOST_ENTRIES):
            raise Refused
        changed[key] = value
        if value == 0:
            del changed[key]
    return changed


def patched_tally(tally, change, name):
    """The ledger behind a change: with another head, what goes with the head is gone first."""
    kinds = GRANTS if name == "grants" else DEMAND
    head, entries = tally
    changed = {key: value for key, value in entries.items() if head == change[0] or key[0] != DROPPED[name]}
    for key in sorted(change[1]):
        value = changed.get(key, 0) + change[1][key]
        if not 0 <= value <= kinds[key[0]][2]:
            raise Refused
        changed[key] = value
        if value == 0:
            del changed[key]
    return change[0], changed


def row_change(old, new):
    return {key: new.get(key, 0) - old.get(key, 0) for key in {*old, *new} if new.get(key, 0) != old.get(key, 0)}


def tally_change(old, new, name):
    kept = {key: value for key, value in old[1].items() if old[0] == new[0] or key[0] != DROPPED[name]}
    return new[0], row_change(kept, new[1])


def total(row):
    """What a row takes of each resource."""
    sums = [0] * 8
    for (_, _, size), count in row.items():
        sums = [sum_ + count * quantity for sum_, quantity in zip(sums, size)]
    return sums


def fits(sums, has):
    return all(sum_ <= quantity for sum_, quantity in zip(sums, has))


def padded(quantities):
    return tuple(quantities) + (0,) * (8 - len(quantities))
