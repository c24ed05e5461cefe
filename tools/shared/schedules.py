"""A schedule as its author wrote it: which lines say something, and which of them are events. What a line means is the program's to say."""

from __future__ import annotations

import json


class Line:
    """A line that says something: its number among all lines, counted from 1, its text and its words."""

    def __init__(self, number: int, text: str) -> None:
        self.number, self.text, self.words = number, text, [it for it in text.split(" ") if it]


def is_skipped(text: str) -> bool:
    return not text.strip(" ") or text.startswith("#")


def read_lines(data: bytes) -> list[Line]:
    """The lines of these bytes that say something. Each byte stays one character, so that places are those of the program."""
    lines = data.decode("latin-1").split("\n")
    if lines[-1] == "":
        lines.pop()
    texts = [text.removesuffix("\r") for text in lines]
    return [Line(number, text) for number, text in enumerate(texts, 1) if not is_skipped(text)]


class Cluster:
    """What a cluster line says that the program has read."""

    def __init__(self, line: Line) -> None:
        said = json.loads(line.text)
        self.machines: list[tuple[int, list[int]]] = [(it["rack"], it["has"]) for it in said["machines"]]
        self.groups: list[tuple[list[int], list[int]]] = [(it["quota"], it["limit"]) for it in said["groups"]]
        self.resources: int = said["resources"]


GREATEST_MOST = 100_000


class Unit:
    """What a job asks for of one kind."""

    def __init__(self, words: list[str]) -> None:
        self.most = GREATEST_MOST
        if words[-2] == "most":
            *words, _, most = words
            self.most = int(most)
        self.priority, *self.size = map(int, words)


class Job:
    """A job as its line submitted it."""

    def __init__(self, words: list[str]) -> None:
        self.number, self.group = int(words[2]), int(words[3])
        self.units = [Unit(unit.split()) for unit in " ".join(words[4:]).split(" / ")]
