"""Scenarios: blocks of lines, each with a line `----` behind it and then what it prints, up to an empty line. A line of a cluster begins a run
anew, so many scenarios stand in one file."""

from __future__ import annotations

from collections.abc import Iterable

from shared.macros import BadMacro, Script, is_macro
from shared.schedules import Line, is_skipped

RULE = "----"


class Block:
    """The lines of a block with their numbers, what is expected of it, and comments and empty lines before it."""

    def __init__(self, lines: list[Line], expected: list[str]) -> None:
        self.lines, self.expected = lines, expected


def read_blocks(text: str) -> tuple[list[Block], list[str]]:
    """The blocks of a file, and what stands behind the last one."""
    blocks, lines, rest = list[Block](), list[Line](), enumerate(text.split("\n"), 1)
    for number, line in rest:
        if line != RULE:
            lines.append(Line(number, line))
            continue
        expected: list[str] = []
        for _, printed in rest:
            if not printed:
                break
            expected.append(printed)
        blocks.append(Block(lines, expected))
        lines = []
    return blocks, [it.text for it in lines]


def write_blocks(blocks: Iterable[Block], printed: Iterable[list[str]], tail: Iterable[str]) -> str:
    parts: list[str] = []
    for block, found in zip(blocks, printed):
        parts += [*(it.text for it in block.lines), RULE, *found, ""]
    return "\n".join([*parts, *tail])


class Player:
    """Runs the blocks of a file, one after the other."""

    def __init__(self, program: str) -> None:
        self.program = program
        self.script: Script | None = None

    def close(self) -> None:
        if self.script:
            self.script.close()

    def play(self, block: Block) -> list[str]:
        """What a block prints: the plain lines that its macros stand for, and all that the program prints."""
        printed: list[str] = []
        for lines in parts_of([it for it in block.lines if not is_skipped(it.text)]):
            try:
                printed += self.take(lines)
            except BadMacro as why:
                raise BadMacro(f"line {lines[0].number}: {why}") from None
        return printed

    def take(self, lines: list[Line]) -> list[str]:
        if lines[0].text.startswith("{"):
            self.close()
            self.script = Script(self.program, lines[0])
            return []
        if not self.script:
            raise BadMacro("the first line of a scenario is that of a cluster")
        printed: list[str] = []
        if is_macro(lines[0].words):
            for plain, told in self.script.take(lines[0].words):
                printed += [f"> {plain}", *told]
        else:
            for _, told in self.script.each(it.text for it in lines):
                printed += told
        return printed


def parts_of(lines: Iterable[Line]) -> list[list[Line]]:
    """Plain lines that stand together are done together; each macro and each cluster by itself."""
    parts, joins = list[list[Line]](), False
    for line in lines:
        is_alone = line.text.startswith("{") or is_macro(line.words)
        if joins and not is_alone:
            parts[-1].append(line)
        else:
            parts.append([line])
        joins = not is_alone
    return parts
