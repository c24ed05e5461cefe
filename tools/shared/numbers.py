"""Numbers among the words of a tool."""

from __future__ import annotations

import argparse
import math
from collections.abc import Callable


def within(kind: Callable[[str], float], least: float, most: float | None = None) -> Callable[[str], float]:
    """What reads a number of this kind that is not below the least and not above the most."""
    what = f"a number from {least} on" if most is None else f"a number from {least} to {most}"

    def read(text: str) -> float:
        try:
            value = kind(text)
        except ValueError:
            value = math.nan
        if not least <= value <= (value if most is None else most):
            raise argparse.ArgumentTypeError(f"{text!r} is no such word: it has to be {what}")
        return value

    return read
