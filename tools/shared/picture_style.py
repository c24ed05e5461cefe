"""Measures and colours of a picture, and what each colour means."""

from __future__ import annotations

# (words on a slant go out to the right of their column)
LEFT, RIGHT, TOP_OF_LABELS = 165, 112, 4
# So much room the state at the end has.
AT_END = 18
# A picture of all events is so wide at most, whatever its columns, and so wide at least; a column has these widths.
WIDEST, NARROWEST, NARROWEST_COLUMN, WIDEST_COLUMN = 1500, 640.0, 1.0, 24.0
# So wide is a letter of a note, at most.
NOTE_LETTER = 6.0
# Narrower columns have no room for the words of each event.
LABELLED_COLUMN = 11.0
# Longer words to the left of a line have smaller letters.
MOST_OF_NAME = 23
SLANT = "rotate(-55 {x} {y})"

# Colours that the colour-blind tell apart, too.
JOB_COLOURS = ["#0072b2", "#e69f00", "#009e73", "#cc79a7", "#56b4e9", "#d55e00", "#b8a800", "#7f6fb0"]
# Of each word that ends a delivery its colour, the dashes of its arrow (so that it is not its colour alone that tells it), and what it means.
WORDS = {
    "taken": ("#0a8a5f", None, "taken"),
    "ack": ("#8aa0b8", None, "acknowledgement"),
    "old": ("#2c7fb8", "1.5 2.5", "old: heard before"),
    "gap": ("#8e44ad", "8 2 2 2", "gap: one before it is missing"),
    "stale": ("#d62728", "6 3", "stale: of a master or a boot that is over"),
    "not-mine": ("#8c564b", "3 2", "not mine: for another boot"),
    "stranger": ("#d957a8", "10 3", "stranger"),
    "lost": ("#000000", None, "lost: nobody runs there"),
    "never": ("#000000", "2 2", "not delivered"),
}
NOTES = [
    "a circle at the end of an arrow: its sender was new there · a circle on a line: it started · grey: no agent runs · red: the machine is banned",
    "a row for each kind of resource; full, it is the quantity behind it: what the machine has, or the limit of the group",
    "machines: filled what the agent enforces, by job; the line is what the newest master grants, dashed an older one",
    "groups: filled what the newest master grants of the limit; the dashes are the quota",
]
STYLE = """
.ground { fill: #fff }
text { font-family: DejaVu Sans, Verdana, sans-serif; font-size: 11px; fill: #222 }
.title { font-size: 14px; font-weight: bold } .narrow { font-size: 8.5px } .small { font-size: 9px } .event { font-size: 9px; fill: #444 }
.important { font-size: 9px; fill: #000; font-weight: bold } .note { font-size: 10px; fill: #555 } .lane { stroke: #d0d0d0; stroke-width: 1 }
.column { stroke: #f0f0f0; stroke-width: 1 } .runs { stroke: #555; stroke-width: 2.2 } .rebuilding { fill: url(#hatch); stroke: #4a7ab5; stroke-width: 0.8 } .serving { fill: #4a7ab5 }
.down { fill: #ececec } .banned { fill: #d62728; fill-opacity: 0.16 } .frame { fill: none; stroke: #999; stroke-width: 0.7 }
.heard { fill: none; stroke-width: 1.1; stroke-opacity: 0.85 } .never { stroke: #000; stroke-width: 1.1; fill: none }
.start { fill: #fff; stroke: #222; stroke-width: 1.2 } .fresh { fill: #fff; stroke-width: 1.2 } .granted { fill: none; stroke: #111; stroke-width: 1.2 }
.granted-before { fill: none; stroke: #111; stroke-width: 1; stroke-dasharray: 3 2; stroke-opacity: 0.55 } .quota { stroke: #111; stroke-width: 1; stroke-dasharray: 5 3 }
.use { fill: #7aa6c2 } .over { fill: #d62728 } .end { stroke: #111; stroke-width: 2.2; fill: none } .refused { text-decoration: line-through; font-style: italic; fill: #777 } .hatched { stroke: #4a7ab5; stroke-width: 1.4 } .waits { fill: #cbbce6 } .wants { font-size: 8.5px }
@media (prefers-color-scheme: dark) {
.ground { fill: #16191d } text { fill: #d8d8d8 } .event, .note { fill: #a8a8a8 } .important { fill: #fff } .refused { fill: #8a8a8a } .lane { stroke: #3a3f45 }
.column { stroke: #24282d } .runs { stroke: #aaa } .down { fill: #2b3036 } .frame { stroke: #6b6b6b } .start, .fresh { fill: #16191d } .start { stroke: #ddd }
.granted, .granted-before, .quota, .end { stroke: #eee } .never, .lost { stroke: #ddd } .head.never, .head.lost { fill: #ddd } .wants { fill: #222 }
}
"""


def word_style() -> str:
    rules = [f".{word} {{ stroke: {colour} }} .head.{word} {{ fill: {colour}; stroke: none }}" for word, (colour, _, _) in WORDS.items()]
    dashes = [f".heard.{word}, .sample.{word} {{ stroke-dasharray: {dash} }}" for word, (_, dash, _) in WORDS.items() if dash]
    return " ".join([*rules, *dashes]) + " .heard.ack { stroke-width: 0.9 } .sample { fill: none; stroke-width: 1.6 }"


def arrow_head(word: str) -> str:
    return f'<marker id="{word}" viewBox="0 0 8 8" refX="7" refY="4" markerWidth="6" markerHeight="6" orient="auto"><path class="head {word}" d="M0 0.8 L8 4 L0 7.2 z"/></marker>'


def hatch() -> str:
    return '<pattern id="hatch" width="5" height="5" patternUnits="userSpaceOnUse" patternTransform="rotate(45)"><line x1="0" y1="0" x2="0" y2="5" class="hatched"/></pattern>'
