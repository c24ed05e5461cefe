"""A drawing, element by element, as the text of an SVG file."""

from __future__ import annotations

from collections.abc import Sequence
from typing import Union
from xml.sax.saxutils import escape, quoteattr


def number(value: float) -> str:
    return f"{value:.1f}".rstrip("0").rstrip(".")


# What an attribute is; one that is nothing is left out.
Value = Union[str, float, None]


class Drawing:
    def __init__(self, style: str) -> None:
        self.style, self.parts, self.definitions = style, list[str](), list[str]()

    def add(self, tag: str, content: str | None = None, /, **attributes: Value) -> None:
        """An element. `kind` is its class; numbers are rounded to a tenth."""
        attributes = {{"kind": "class"}.get(key, key.replace("_", "-")): value for key, value in attributes.items() if value is not None}
        words = "".join(f" {key}={quoteattr(number(value) if isinstance(value, float) else str(value))}" for key, value in attributes.items())
        self.parts.append(f"<{tag}{words}/>" if content is None else f"<{tag}{words}>{content}</{tag}>")

    def rect(self, x: float, y: float, width: float, height: float, kind: str, **more: Value) -> None:
        self.add("rect", x=float(x), y=float(y), width=float(width), height=float(height), kind=kind, **more)

    def line(self, x1: float, y1: float, x2: float, y2: float, kind: str, **more: Value) -> None:
        self.add("line", x1=float(x1), y1=float(y1), x2=float(x2), y2=float(y2), kind=kind, **more)

    def path(self, points: Sequence[tuple[float, float]], kind: str, title: str | None = None, **more: Value) -> None:
        shape = "M" + " L".join(f"{number(x)} {number(y)}" for x, y in points)
        self.add("path", None if title is None else f"<title>{escape(title)}</title>", d=shape, kind=kind, **more)

    def text(self, x: float, y: float, words: str, kind: str, title: str | None = None, **more: Value) -> None:
        hint = f"<title>{escape(title)}</title>" if title else ""
        self.add("text", escape(words) + hint, x=float(x), y=float(y), kind=kind, **more)

    def whole(self, width: float, height: float, title: str, description: str) -> str:
        box = f'width="{number(width)}" height="{number(height)}" viewBox="0 0 {number(width)} {number(height)}"'
        head = f'<svg xmlns="http://www.w3.org/2000/svg" {box} role="img" aria-labelledby="picture-title picture-description">'
        head += f'\n<title id="picture-title">{escape(title)}</title><desc id="picture-description">{escape(description)}</desc>'
        rules = f"<style>{self.style}</style><defs>{''.join(self.definitions)}</defs>"
        ground = '<rect width="100%" height="100%" class="ground"/>'
        return "\n".join([head, rules, ground, *self.parts, "</svg>"]) + "\n"
