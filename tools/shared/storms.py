"""Storms of any size, drawn by a number: with the sizes and the chances that `fuxi storm` has, the events are the ones that it makes
(docs/FORMATS.md, "A storm")."""

from __future__ import annotations

import random
from collections.abc import Iterable, Iterator

from shared.driver import Driver
from shared.parties import Shape

DELIVER, TURN_MASTER, TURN_AGENT, TURN_APP, WANT, NEAR, BACK, RESTART = 3, 4, 5, 6, 7, 8, 9, 10
KINDS, MOST_WANTED, MOST_NEAR, CALM_ROUNDS = 12, 41, 5, 8
# Of each job the group, the priority and the size; further ones take them by turns.
JOBS = ["0 5 100 400", "0 3 200 300", "1 4 50 700"]


# Lines that print more than a refusal.
PRINT = ("turn", "deliver", "dump", "show", "judge")


class Storm:
    """The lines of a storm, one by one."""

    def __init__(self, program: str, seed: int, machines: int, jobs: int, loss: float, restarts: int) -> None:
        self.seed, self.x, self.machines, self.jobs, self.loss, self.restarts = seed, seed, machines, jobs, loss, restarts
        self.fence, self.boots, self.program, self.sent = 1, [1] * machines, program, 0

    def cluster(self) -> str:
        count = self.machines
        machines = [(machine // 2 % 64, [1000, 4000]) for machine in range(count)]
        return Shape(machines, [([500 * count, 2000 * count], [part * count, 4 * part * count]) for part in (1000, 750)]).line()

    def draw(self, bound: int) -> int:
        self.x = (self.x * 6364136223846793005 + 1442695040888963407) % 2**64
        return self.x // 2**33 % bound

    def lines(self, steps: int) -> Iterator[str]:
        """The cluster, and behind it each event."""
        with Driver(self.program, self.cluster()) as run:
            yield self.cluster()
            for line in self.events(steps):
                run.tell(line)
                if line.startswith(PRINT):
                    run.ask()
                    self.sent = run.sent
                yield line

    def events(self, steps: int) -> Iterator[str]:
        yield "master 1"
        yield from (f"agent {machine} 1" for machine in range(self.machines))
        yield from (f"submit 1 {job} {JOBS[job % len(JOBS)]}" for job in range(self.jobs))
        yield from (f"app {job} 1" for job in range(self.jobs))
        for _ in range(steps):
            yield from self.step(self.draw(KINDS))
        for _ in range(CALM_ROUNDS):
            yield from self.heard([f"turn master {self.fence}"])
            yield from self.heard([*(f"turn agent {it}" for it in range(self.machines)), *(f"turn app {it}" for it in range(self.jobs))])
        yield from self.heard([f"turn master {self.fence}"])

    def step(self, kind: int) -> Iterator[str]:
        if kind <= DELIVER:
            yield from self.delivery()
        elif kind == TURN_MASTER:
            yield f"turn master {self.fence}"
        elif kind == TURN_AGENT:
            yield f"turn agent {self.draw(self.machines)}"
        elif kind == TURN_APP:
            yield f"turn app {self.draw(self.jobs)}"
        elif kind == WANT:
            yield f"want {self.draw(self.jobs)} 0 {self.draw(MOST_WANTED)}"
        elif kind == NEAR:
            yield f"near {self.draw(self.jobs)} 0 {self.draw(self.machines)} {self.draw(MOST_NEAR)}"
        elif kind == BACK:
            yield f"back {self.draw(self.jobs)} 0 {self.draw(self.machines)} 1"
        elif kind == RESTART:
            yield from self.restart(self.draw(self.machines), self.draw(100))
        else:
            yield from self.trouble(self.draw(10))

    def delivery(self) -> Iterator[str]:
        if self.sent:
            packet = 1 + self.draw(self.sent)
            # (a packet that is lost is lost however often it is drawn)
            if random.Random(f"{self.seed} {packet}").random() * 100 >= self.loss:
                yield f"deliver {packet}"

    def restart(self, machine: int, number: int) -> Iterator[str]:
        # (of a hundred numbers these are the ones that are 0 modulo 10 where it is ten of them, as `fuxi storm` has it)
        if number % 10 * 10 + number // 10 < self.restarts:
            self.boots[machine] += 1
            yield f"agent {machine} {self.boots[machine]}"

    def trouble(self, number: int) -> Iterator[str]:
        if number == 0:
            if self.fence >= 2:
                yield f"stop {self.fence - 1}"
            self.fence += 1
            yield f"master {self.fence}"
        elif number <= 3:
            yield f"{('preempt', 'begin', 'resync master')[number - 1]} {self.fence}"

    def heard(self, turns: Iterable[str]) -> Iterator[str]:
        """Turns of which all packets arrive."""
        before = self.sent
        yield from turns
        if self.sent > before:
            yield f"deliver {before + 1} {self.sent}"
