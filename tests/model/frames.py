"""The frames of packets, as far as one has to know them who carries them from one node to another."""

import struct

from shared.processes import Difference

# Roles and kinds, and the length of a frame without a body.
MASTER, AGENT, APP = 1, 2, 3
ACK, END = 1, 4
BARE_LENGTH = 48
KIND_AT, SENDER_AT = 5, 6


def bare_frame(kind, sender, receiver, version=1, length=BARE_LENGTH - 4, place=(0, 0)):
    """A frame without a body. A party is its role, its number and its incarnation."""
    return struct.pack(">IBBBIQBIQQQ", length, version, kind, *sender, *receiver, *place)


def whole_frames(data):
    """The frames that stand whole at the front of the bytes."""
    frames, at = [], 0
    while len(data) - at >= 4:
        behind = at + 4 + int.from_bytes(data[at : at + 4], "big")
        if behind > len(data):
            break
        frames.append(data[at:behind])
        at = behind
    return frames


def has_end(data):
    """Whether the last whole frame is an End frame, behind which nothing comes."""
    frames = whole_frames(data)
    return bool(frames) and frames[-1][KIND_AT] == END


def sender(turn):
    """The role and the number of the party that says this turn."""
    return struct.unpack_from(">BI", turn, SENDER_AT)


def packets(turn):
    """How many packets a turn has: those before its End frame."""
    frames = whole_frames(turn)
    if not has_end(turn) or sum(map(len, frames)) != len(turn):
        raise Difference(f"a turn is {turn.hex()}, which does not end with an End frame")
    return len(frames) - 1
