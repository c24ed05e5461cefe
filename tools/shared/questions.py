"""Questions about a state: an expression over its named fields, in the words of Python, of which only those are taken that compute."""

from __future__ import annotations

import ast
from collections.abc import Callable, Iterable, Mapping
from typing import Any

from shared.states import State

# What a count is told by.
KEYS = ("job", "unit", "machine")
FIELDS = {
    "grants": "grants of the newest master",
    "rows": "what all agents enforce",
    "holds": "what all applications hold",
    "carries": "what applications carry over to a master that does not serve yet",
    "waits": "for how many more units wait at the newest master",
    "bans": "the machines that are banned",
    "masters": "the epochs of the masters that run",
    "serving": "whether the newest master serves",
    "reported": "the machines that have reported to it",
    "agents": "the machines whose agents run",
    "apps": "the jobs whose applications run",
    "jobs": "the jobs that live",
    "fence": "the greatest epoch so far",
    "packets": "how many packets were sent",
}
FUNCTIONS: dict[str, Callable[..., Any]] = {"all": all, "any": any, "sum": sum, "min": min, "max": max, "len": len, "abs": abs, "range": range}
TAKEN = (
    ast.Expression, ast.BoolOp, ast.And, ast.Or, ast.UnaryOp, ast.Not, ast.USub, ast.BinOp, ast.Add, ast.Sub, ast.Mult, ast.FloorDiv, ast.Mod, ast.BitOr,
    ast.BitAnd, ast.Compare, ast.Eq, ast.NotEq, ast.Lt, ast.LtE, ast.Gt, ast.GtE, ast.In, ast.NotIn, ast.IfExp, ast.Call, ast.keyword, ast.Name, ast.Load,
    ast.Store, ast.Constant, ast.Set, ast.List, ast.Tuple, ast.GeneratorExp, ast.comprehension,
)  # fmt: skip


class BadQuestion(Exception):
    """Why an expression cannot be asked."""


class Counts(int):
    """A table of counts, which by itself is the sum of all: `rows(machine=0, job=2)` is that of a part, and `grants == rows` compares number by number."""

    table: dict[tuple[int, ...], int]

    def __new__(cls, table: Mapping[Any, int]) -> Counts:
        made = super().__new__(cls, sum(table.values()))
        made.table = {place: count for place, count in table.items() if count}
        return made

    def __call__(self, **asked: int) -> Counts:
        width = len(next(iter(self.table), KEYS))
        for key in asked:
            if key not in KEYS[:width]:
                raise BadQuestion(f"{key} is none of {', '.join(KEYS[:width])}")
        places = [(KEYS.index(key), number) for key, number in asked.items()]
        return Counts({place: count for place, count in self.table.items() if all(place[at] == number for at, number in places)})

    def __eq__(self, other: object) -> bool:
        return self.table == other.table if isinstance(other, Counts) else int(self) == other

    def __ne__(self, other: object) -> bool:
        return not self == other

    __hash__ = int.__hash__


class Question:
    """An expression that is true or false of a state."""

    def __init__(self, text: str) -> None:
        self.text = text
        try:
            tree = ast.parse(text.strip(), mode="eval")
        except (SyntaxError, ValueError) as why:
            raise BadQuestion(f"{text!r} is no expression: {why.args[0]}") from None
        self.look(tree)
        self.code = compile(tree, "<expression>", "eval")

    def look(self, tree: ast.Expression) -> None:
        """Only what computes is taken, and each name is a field, a function or bound in the expression."""
        names = [node for node in ast.walk(tree) if isinstance(node, ast.Name)]
        bound = {node.id for node in names if isinstance(node.ctx, ast.Store)}
        for node in ast.walk(tree):
            if not isinstance(node, TAKEN):
                raise BadQuestion(f"{self.text!r}: an expression has no {type(node).__name__}")
        for name in names:
            if name.id not in FIELDS and name.id not in FUNCTIONS and name.id not in bound:
                raise BadQuestion(f"{self.text!r}: there is no {name.id}; there are {', '.join([*FIELDS, *FUNCTIONS])}")
        self.fields = [field for field in FIELDS if any(name.id == field for name in names)]

    def holds(self, state: State) -> bool:
        try:
            return bool(eval(self.code, {"__builtins__": {}, **FUNCTIONS, **fields_of(state)}))
        except BadQuestion:
            raise
        except (TypeError, ValueError, ArithmeticError) as why:
            raise BadQuestion(f"{self.text!r}: {why}") from None

    def values(self, state: State) -> str:
        """The fields that it asks for."""
        found = fields_of(state)
        return ", ".join(f"{field} {shown(found[field])}" for field in self.fields)


def shown(value: object) -> str:
    if isinstance(value, frozenset):
        return "{" + ", ".join(map(str, sorted(value))) + "}"
    return str(int(value)) if isinstance(value, Counts) else str(value)


def fields_of(state: State) -> dict[str, Any]:
    newest = state.masters.get(max(state.masters, default=0))
    return {
        "grants": Counts(newest.grants if newest else {}),
        "rows": counts((*row, machine) + (count,) for machine, agent in state.agents.items() for row, count in agent.rows.items()),
        "holds": counts((job, *place, count) for job, app in state.apps.items() for place, count in app.holds.items()),
        "carries": counts((job, *place, count) for job, app in state.apps.items() for place, count in app.carries.items()),
        "waits": Counts(newest.waits if newest else {}),
        "bans": frozenset(state.bans),
        "masters": frozenset(state.masters),
        "serving": newest is not None and newest.phase == "serving",
        "reported": frozenset(newest.reported if newest else ()),
        "agents": frozenset(state.agents),
        "apps": frozenset(state.apps),
        "jobs": frozenset(job for job, (_, phase) in state.jobs.items() if phase == "live"),
        "fence": state.fence,
        "packets": state.packets,
    }


def counts(entries: Iterable[tuple[int, ...]]) -> Counts:
    return Counts({place: count for *key, count in entries for place in [tuple(key)]})
