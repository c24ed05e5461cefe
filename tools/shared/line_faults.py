"""What is wrong with a line that the program cannot read, where it stands, and what would be right. What the program answers decides; this explains it."""

from __future__ import annotations

from collections.abc import Sequence

from shared import cluster_faults, event_words
from shared.schedules import Line

BAD_INPUT = 3
# So much of a long line is shown before the place, and so much behind it.
SHOWN = 60


def pointed(text: str, column: int, width: int) -> str:
    """The part of a line around a place, and a caret under it."""
    first = max(0, column - SHOWN)
    front = ".. " if first else ""
    behind = " .." if column + SHOWN < len(text) else ""
    shown = text[first : column + SHOWN]
    return f"    {front}{shown}{behind}\n    {' ' * (len(front) + column - first)}{'^' * max(1, min(width, SHOWN))}"


def hint_of_word(words: Sequence[str], place: int) -> str:
    near = event_words.near_word(words, place)
    if words[place] in event_words.OF_NODES:
        return f"`{words[place]}` is a line of a node alone (`./fuxi help node`); in a schedule there are turn and deliver"
    return f"no event begins so; did you mean `{near}`?" if near else "no event begins so; `./fuxi help replay` has all words"


def event_fault(line: Line, name: str, place: str | None) -> tuple[int, int, str]:
    """The column and the width of what is wrong in an event line, and what would be right."""
    words = line.words
    if name == "UnknownWord":
        at = event_words.unknown_place(words)
        return *event_words.column_of(line.text, at), hint_of_word(words, at)
    if name == "WrongCount":
        return len(line.text), 1, f"the line has another number of words than it has to: {event_words.form_of(words)}"
    at = int(place or 0)
    column, width = event_words.column_of(line.text, at)
    need = event_words.meaning(words, at)
    if name == "BadNumber":
        return column, width, f"here has to stand {need}, in decimal digits without a sign and without a leading zero"
    return column, width, f"out of its range: here has to stand {need}"


def report(path: str, lines: Sequence[Line], number: int, said: str) -> str:
    """What is wrong with a line, in a few lines."""
    name, *values = said.split()
    line = next((it for it in lines if it.number == number), None)
    if name == "NoCluster":
        return "no line says what the cluster is: the first one that is no comment has to be its JSON"
    if line is None or name == "LineTooLong":
        return f"{path}:{number}: {said}: a line has at most 65,536 bytes"
    if line is lines[0]:
        column, why = cluster_faults.explain(line.text, said)
        width = 1
    else:
        column, width, why = event_fault(line, name, values[0] if values else None)
    return f"{path}:{number}: {said}\n{pointed(line.text, column, width)}\n  {why}"
