"""The words of event lines for those who write them: what stands at each place. (Which line is one is the program's to say.)"""

from __future__ import annotations

import difflib
import re
from collections.abc import Sequence

EPOCH, BOOT = ("E", "an epoch: a number from 1 on"), ("B", "a boot: a number from 1 on")
MACHINE, JOB, UNIT = ("M", "a machine: 0 to 255"), ("A", "a job: 0 to 255"), ("U", "a unit of the job: 0 to 7")
RACK, GROUP, COUNT = ("R", "a rack: 0 to 63"), ("G", "a group: 0 to 31"), ("N", "a count: a number")
CHOICE, PACKET = ("X", "0 or 1"), ("K", "a packet: a number from 1 on")
LAST = ("L", "the last packet: not before the first")

# Behind the first word, or the first two.
FORMS: dict[tuple[str, ...], list[tuple[str, str]]] = {
    ("master",): [EPOCH],
    ("stop",): [EPOCH],
    ("agent",): [MACHINE, BOOT],
    ("app",): [JOB, BOOT],
    ("submit",): [EPOCH, JOB, GROUP],
    ("finish",): [EPOCH, JOB],
    ("ban",): [EPOCH, MACHINE],
    ("unban",): [EPOCH, MACHINE],
    ("begin",): [EPOCH],
    ("preempt",): [EPOCH],
    ("judge",): [EPOCH, ("T", "how many jobs at least: 1 to 256"), ("P", "a percentage: 0 to 100")],
    ("halt",): [("K", "a call on the disk: 1 to 4"), CHOICE],
    ("want",): [JOB, UNIT, COUNT],
    ("near",): [JOB, UNIT, MACHINE, COUNT],
    ("rack",): [JOB, UNIT, RACK, COUNT],
    ("avoid",): [JOB, UNIT, MACHINE, CHOICE],
    ("back",): [JOB, UNIT, MACHINE, COUNT],
    ("turn", "master"): [EPOCH],
    ("turn", "agent"): [MACHINE],
    ("turn", "app"): [JOB],
    ("resync", "master"): [EPOCH],
    ("resync", "agent"): [MACHINE],
    ("resync", "app"): [JOB],
    ("deliver",): [PACKET, LAST],
    ("dump",): [PACKET],
    ("show",): [],
}
TAILS = {"submit": " P Q .. Q / P Q .. Q most N", "halt": " LINE"}
OF_NODES = ("round", "serve")
PRIORITY, QUANTITY, MOST = "a priority: 0 to 9", "a quantity: a number up to 1,000,000,000,000", "the most grants on one machine: 1 to 100,000"

REFUSALS = {
    "NotRising": "the number has to be above {0}",
    "TooManyMasters": "{0} masters run already",
    "HardFull": "the hard state has {0} records, and takes no more",
    "NotRunning": "this party does not run (a master of another epoch is another party)",
    "NoMachine": "the cluster has no machine of this number",
    "NoJob": "no job of this number was submitted",
    "NoGroup": "the cluster has no group of this number",
    "NoUnit": "the job has no unit of this number",
    "NoRack": "no machine stands in this rack",
    "Ended": "the job has ended",
    "Fenced": "a master of epoch {0} has started, and from then on older ones write nothing",
    "Known": "a job of this number was submitted before, and a number is never used again",
    "AlreadyBanned": "the machine is banned already",
    "NotBanned": "the machine is not banned",
    "AlreadyServing": "the master serves already",
    "NotServing": "the master is rebuilding: machines have not reported to it",
    "NothingToPreempt": "no unit waits for which grants may be taken",
    "WantRange": "a count goes up to {0}",
    "NotUsable": "only {0} can be given back there: grants on a machine that reported to the job's master",
    "BackRange": "no more can be given back of this unit on this machine under this master",
    "NoPacket": "so far {0} packets were sent",
    "TooManyUnits": "a job has at most 8 units",
    "Dimensions": "unit {0} needs one quantity for each kind of resource",
    "PriorityRange": "the priority of unit {0} goes up to 9",
    "QuantityRange": "a quantity of unit {0} is above 1,000,000,000,000",
    "ZeroSize": "unit {0} asks for nothing of any resource",
    "MostRange": "the most grants of unit {0} on one machine are 1 to 100,000",
}


def head_of(words: Sequence[str]) -> tuple[str, ...] | None:
    """The words of a line that tell which form it has."""
    return next((head for head in FORMS if tuple(words[: len(head)]) == head), None)


def form_text(head: tuple[str, ...]) -> str:
    letters = ["[L]" if place is LAST else place[0] for place in FORMS[head]]
    return " ".join([*head, *letters]) + TAILS.get(head[0], "")


def form_of(words: Sequence[str]) -> str | None:
    """The form of the line with these words, as its author should have it."""
    if words[0] == "halt" and len(words) > 3 and head_of(words[3:]):
        return f"halt K X {form_of(words[3:])}"
    head = head_of(words)
    return form_text(head) if head else None


def meaning(words: Sequence[str], place: int) -> str:
    """What has to stand at a place of a line, the first word being place 0."""
    if words[0] == "halt" and place >= 3:
        return meaning(words[3:], place - 3)
    head = head_of(words)
    behind = place - len(head) if head else -1
    if head is None or behind < 0:
        return "a word that begins an event"
    if behind < len(FORMS[head]):
        return FORMS[head][behind][1]
    before = words[place - 1]
    return MOST if before == "most" else PRIORITY if before == "/" or behind == len(FORMS[head]) else QUANTITY


def unknown_place(words: Sequence[str]) -> int:
    """Which word of a line the program does not know."""
    if words[0] == "halt" and len(words) > 3:
        return 3 + unknown_place(words[3:])
    return 1 if len(words) > 1 and any(head[0] == words[0] for head in FORMS) else 0


def near_word(words: Sequence[str], place: int) -> str | None:
    """A word that stands near the one at this place."""
    start = 3 if words[0] == "halt" and place >= 3 else 0
    known = {head[1] for head in FORMS if len(head) == 2} if place > start else {head[0] for head in FORMS}
    found = difflib.get_close_matches(words[place], sorted(known), 1)
    return found[0] if found else None


def column_of(text: str, place: int) -> tuple[int, int]:
    """Where a word begins, and how long it is; behind the last one where there are not so many."""
    found = list(re.finditer("[^ ]+", text))
    return (found[place].start(), len(found[place][0])) if place < len(found) else (len(text), 1)
