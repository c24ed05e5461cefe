"""A living cluster as a table on the terminal."""

from __future__ import annotations

import time
from collections.abc import Iterator
from typing import TextIO

from shared.living import Living
from shared.states import State, left_of, sums

BAR = 16


class Screen:
    """Draws the cluster anew over itself on a terminal, or a line for each look where there is none."""

    def __init__(self, living: Living, out: TextIO) -> None:
        self.living, self.out, self.began = living, out, time.monotonic()
        self.is_terminal, self.height, self.before = out.isatty(), 0, (0, self.began)

    def rate(self) -> float:
        """Rounds a second since the last look."""
        now, (rounds, moment) = time.monotonic(), self.before
        self.before = (self.living.rounds, now)
        return (self.living.rounds - rounds) / max(now - moment, 0.001)

    def look(self) -> None:
        lines = self.lines() if self.is_terminal else [self.head(self.rate())]
        if self.is_terminal and self.height:
            self.out.write(f"\033[{self.height}F\033[J")
        self.out.write("".join(f"{line}\n" for line in lines))
        self.out.flush()
        self.height = len(lines)

    def head(self, rate: float) -> str:
        living = self.living
        phase = "serving" if living.is_serving else "rebuilding"
        site = f" at site {living.site}" if living.sites.count > 1 else ""
        times = [it.seconds() for it in living.failovers if it.served]
        failovers = f"{len(living.failovers)} failovers" + (f", the last in {1000 * times[-1]:.0f} ms" if times else "")
        return f"epoch {living.epoch} by {living.epochs.name}{site}, {phase}; {time.monotonic() - self.began:.0f} s; {rate:.0f} rounds a second; {failovers}"

    def lines(self) -> list[str]:
        master = State(self.living.ask_master("show"))
        return [self.head(self.rate()), "", *self.machines(master), "", *self.jobs(master)]

    def machines(self, master: State) -> Iterator[str]:
        yield f"{'machine':8}{'enforced by its agent':40}"
        for agent in self.living.agents:
            rows = State(agent.running.show()).agents[agent.number].rows
            used = sums((self.living.jobs.sizes(job)[unit], count) for (job, unit), count in rows.items() if job in self.living.jobs.submitted)
            has = self.living.shape.machines[agent.number][1]
            left = left_of(has, used)
            bars = "  ".join(f"{bar(quantity - free, quantity)} {quantity - free}/{quantity}" for quantity, free in zip(has, left))
            yield f"{agent.number:<8}{bars}{'  banned' if agent.number in master.bans else ''}"

    def jobs(self, master: State) -> Iterator[str]:
        yield f"{'job':5}{'group':7}{'unit':6}{'size':16}{'wanted':>8}{'held':>8}"
        for number, app in sorted(self.living.apps.items()):
            state = State(app.running.show()).apps[number]
            for unit, size in enumerate(self.living.jobs.sizes(number)):
                held = sum(count for (of, _), count in [*state.holds.items(), *state.carries.items()] if of == unit)
                group, phase = master.jobs.get(number, ("?", "?"))
                ended = "  ended" if phase == "ended" else ""
                yield f"{number:<5}{group:<7}{unit:<6}{' '.join(map(str, size)):16}{app.wants.get(unit, 0):>8}{held:>8}{ended}"


def bar(used: int, has: int) -> str:
    full = round(BAR * used / has) if has else 0
    return "█" * full + "░" * (BAR - full)


def summary(living: Living, seconds: float, agrees: bool) -> Iterator[str]:
    """What was done, in a few lines."""
    yield f"{living.rounds} rounds in {seconds:.0f} s, {living.faults} of them not done; {living.restarts} restarts; {living.handovers} handovers before the limit on lines"
    times = sorted(1000 * it.seconds() for it in living.failovers if it.served)
    if times:
        yield f"{len(living.failovers)} failovers; from the end of a master until the next one served {times[0]:.0f} to {times[-1]:.0f} ms, in the middle {times[len(times) // 2]:.0f} ms"
    yield "at the end nothing is left to tell, and what is granted, enforced and held is the same" if agrees else "at the end the tables do NOT agree"
