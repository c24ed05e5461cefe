"""A run as one page of HTML: its picture, a slider over the events, and the state behind each as tables. Nothing of it is from elsewhere."""

from __future__ import annotations

import html
import json
import os
import re

from shared.pictures import Picture

TEMPLATE = os.path.join(os.path.dirname(os.path.abspath(__file__)), "picture_page.html")
# What stands behind each word of a state.
COLUMNS = {
    "state": ["events"],
    "fence": ["epoch"],
    "job": ["job", "group", "phase"],
    "ban": ["machine"],
    "master": ["epoch", "phase"],
    "reported": ["epoch", "machine"],
    "grant": ["epoch", "job", "unit", "machine", "count"],
    "wait": ["epoch", "job", "unit", "count"],
    "agent": ["machine", "boot", "place"],
    "row": ["machine", "job", "unit", "count"],
    "app": ["job", "boot", "place"],
    "hold": ["job", "unit", "machine", "count"],
    "carry": ["job", "unit", "machine", "count"],
    "packets": ["sent"],
}


class Lines:
    """Lines of states, each of which stands once."""

    def __init__(self) -> None:
        self.numbers: dict[str, int] = {}

    def number(self, line: str) -> int:
        return self.numbers.setdefault(line, len(self.numbers))


def page_of(picture: Picture, drawn: str) -> str:
    """The page of a picture that was drawn."""
    lines, events = Lines(), []
    for column, (at, event) in enumerate(picture.events):
        events.append({
            "number": at + 1,
            "line": event.line.number,
            "text": event.line.text.strip(" "),
            "printed": [] if event.line.words == ["show"] else event.printed,
            "state": [lines.number(line) for line in event.state_lines],
            "from": round(picture.edge(column), 1),
            "to": round(picture.edge(column + 1), 1),
        })  # fmt: skip
    run = {"columns": COLUMNS, "lines": list(lines.numbers), "events": events}
    with open(TEMPLATE, encoding="utf-8") as file:
        template = file.read()
    parts = {
        "title": html.escape(picture.title),
        "picture": drawn,
        "last": html.escape("\n".join(picture.events[-1][1].state_lines)),
        # (no text of a schedule ends the script that it stands in)
        "run": json.dumps(run, separators=(",", ":")).replace("<", "\\u003c"),
    }
    return re.sub(r"\{(title|picture|last|run)\}", lambda found: parts[found[1]], template)
