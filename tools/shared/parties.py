"""What a cluster of nodes is made of: what its cluster line says, and its agents and applications."""

from __future__ import annotations

import json
from collections.abc import Sequence

from shared.processes import Node

# Of each kind of resource so much.
Quantities = Sequence[int]
# The roles of frames.
AGENT_ROLE, APP_ROLE = 2, 3


def text_of(address: tuple[str, int]) -> str:
    return "%s:%d" % address


class Shape:
    """What the cluster line says. A machine is its rack and its quantities, a group its quota and its limit."""

    def __init__(self, machines: Sequence[tuple[int, Quantities]], groups: Sequence[tuple[Quantities, Quantities]]) -> None:
        self.resources, self.machines, self.groups = len(machines[0][1]), machines, groups

    def line(self) -> str:
        machines = [{"rack": rack, "has": has} for rack, has in self.machines]
        groups = [{"quota": quota, "limit": limit} for quota, limit in self.groups]
        return json.dumps({"resources": self.resources, "machines": machines, "groups": groups}, separators=(",", ":"))


class Party:
    """An agent or an application, which is a process in each of its boots, and what an application asks for in this one."""

    def __init__(self, kind: str, number: int, *units: int) -> None:
        self.kind, self.number, self.units, self.boot = kind, number, units, 0
        self.node: Node | None = None
        self.wants: dict[int, int] = {}
        self.avoided: set[tuple[int, int]] = set()

    @property
    def running(self) -> Node:
        """Its process, which it has once it was started."""
        assert self.node
        return self.node

    def words(self) -> list[object]:
        return [self.kind, self.number, self.boot, *self.units]

    def identity(self) -> tuple[int, int]:
        """Its role and its number in frames."""
        return {"agent": AGENT_ROLE, "app": APP_ROLE}[self.kind], self.number
