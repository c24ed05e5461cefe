"""Where a fault of the cluster line stands, once the program has said which fault it is."""

from __future__ import annotations

import json
import re
from typing import Any, Union

KEYS = {"cluster": ("resources", "machines", "groups"), "machines": ("rack", "has"), "groups": ("quota", "limit")}
GREATEST_QUANTITY = 10**12
RANGES = {"resources": (1, 8), "machines": (1, 256), "groups": (1, 32), "rack": (0, 63)}
TOKEN = re.compile(r'\s*("(?:[^"\\]|\\.)*"|[{}\[\]:,]|[^\s{}\[\]:,"]+)')


# A step into the value: a key, or a number in a list; and what stands there before its key was read.
Step = Union[str, int, None]
Path = tuple[Step, ...]
# A fault as the program prints it, where it stands, and what would be right.
Fault = tuple[str, Path, str]


def is_whole(value: object) -> bool:
    return type(value) is int and 0 <= value < 2**64


def faults(said: object) -> list[Fault]:
    """Each fault of a cluster line as the program prints it, with the path to where it stands and what would be right, in the order of its tests."""
    if not isinstance(said, dict):
        return [("WrongKind cluster", (), "the line has to be one object: {\"resources\": .., \"machines\": [..], \"groups\": [..]}")]
    found: list[Fault] = [*of_keys(said, "cluster", ()), *of_number(said.get("resources"), "resources", ("resources",))]
    for word in ("machines", "groups"):
        found += of_list(said.get(word), word, said.get("resources"))
    return found


def of_keys(value: dict[str, Any], word: str, path: Path) -> list[Fault]:
    """An object of this kind has just its own keys."""
    keys = KEYS[word]
    wanted = " and ".join(f"`{key}`" for key in keys)
    found: list[Fault] = [("UnknownKey", (*path, key), f"`{key}` is no key here: there are {wanted}") for key in value if key not in keys]
    return found + [(f"MissingKey {key}", path, f"`{key}` is missing: there are {wanted}") for key in keys if key not in value]


def of_number(value: Any, word: str, path: Path) -> list[Fault]:
    low, high = RANGES[word]
    if not is_whole(value):
        return [(f"WrongKind {word}", path, f"`{word}` has to be a whole number, {low} to {high}")]
    return [] if low <= value <= high else [(f"Count {word}", path, f"`{word}` has to be {low} to {high}, and is {value}")]


def of_list(value: object, word: str, resources: object) -> list[Fault]:
    low, high = RANGES[word]
    if not isinstance(value, list):
        return [(f"WrongKind {word}", (word,), f"`{word}` has to be a list of {low} to {high} objects")]
    found: list[Fault] = [] if low <= len(value) <= high else [(f"Count {word}", (word,), f"there have to be {low} to {high} of `{word}`, and there are {len(value)}")]
    for number, item in enumerate(value):
        found += of_item(item, word, number, resources)
    return found


def of_item(item: Any, word: str, number: int, resources: object) -> list[Fault]:
    """One machine or one group."""
    path: Path = (word, number)
    name = f"{word[:-1]} {number}"
    if not isinstance(item, dict):
        return [(f"WrongKind {word}", path, f"{name} has to be an object")]
    found: list[Fault] = [(fault, at, f"{name}: {why}") for fault, at, why in of_keys(item, word, path)]
    if word == "machines":
        found += [(fault, at, f"{name}: {why}") for fault, at, why in of_number(item.get("rack"), "rack", (*path, "rack"))]
    for key in [it for it in KEYS[word] if it != "rack"]:
        found += [(fault, at, f"{name}: {why}") for fault, at, why in of_quantities(item.get(key), key, (*path, key), resources)]
    quota, limit = item.get("quota", ()), item.get("limit", ())
    if not found and word == "groups" and any(low > high for low, high in zip(quota, limit)):
        found.append((f"QuotaOverLimit {number}", (*path, "quota"), f"{name}: its quota {quota} is not within its limit {limit}"))
    return found


def of_quantities(value: object, key: str, path: Path, resources: object) -> list[Fault]:
    if not isinstance(value, list) or not all(map(is_whole, value)):
        return [(f"WrongKind {key}", path, f"`{key}` has to be a list of whole numbers")]
    if len(value) != resources:
        return [("LengthDiffers", path, f"`{key}` has {len(value)} quantities, and there are {resources} kinds of resource")]
    if any(quantity > GREATEST_QUANTITY for quantity in value):
        return [("QuantityRange", path, f"`{key}` has a quantity above {GREATEST_QUANTITY:,}")]
    return []


def places(text: str) -> dict[Path, int]:
    """Where each value of a JSON line begins, by its path; one that has a key, where the key does."""
    found: dict[Path, int] = {}
    path: list[Step] = []
    is_key = False
    for token in TOKEN.finditer(text):
        word, at = token[1], token.start(1)
        if word in "]}":
            path.pop()
        elif word == ",":
            last = path[-1]
            path[-1] = last + 1 if isinstance(last, int) else None
        elif word != ":":
            is_key = bool(path) and path[-1] is None
            if is_key:
                path[-1] = json.loads(word)
            found.setdefault(tuple(path), at)
            if word in "[{":
                path.append(0 if word == "[" else None)
    return found


def explain(text: str, said: str) -> tuple[int, str]:
    """Where in the line the fault stands that the program named, and what would be right."""
    try:
        value = json.loads(text)
    except ValueError as why:
        place = getattr(why, "pos", 0)
        return place, f"the line of the cluster has to be one line of JSON, and is none here: {getattr(why, 'msg', why)}"
    for fault, path, right in faults(value):
        if fault == said:
            return places(text).get(path, 0), right
    return 0, "the line of the cluster is no JSON as the program reads it" if said == "NotJson" else said
