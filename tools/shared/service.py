"""One node with its timer: its rounds, its commands, and what is said of it."""

from __future__ import annotations

import argparse
import socket
import time
from typing import Any

from shared.absences import Absences
from shared.commands import NAMES, TAKEN, NotDone, answered, checked, with_epoch
from shared.control import Listener
from shared.living import HANDOVER_BEFORE, ROUND_DONE
from shared.logs import Log, Losses
from shared.parties import AGENT_ROLE
from shared.processes import Node
from shared.relay import Relay
from shared.rows import Rows
from shared.schedules import Cluster, Line
from shared.starting import address_of
from shared.states import State

# How long a command waits for a node that is in a round, and for a master before it gets a peer.
MOST_BUSY, FREE_SECONDS = 20, 0.1
# How often a master is asked whether it serves, and how often it is told that it does not.
LOOK_SECONDS, REBUILDING_SECONDS = 1.0, 60.0
# Lines of a master that are records of its file.
WRITTEN = ("submit", "finish", "ban", "unban")


def machines_of(cluster_line: str) -> range:
    """The numbers of the machines; none where the line says nothing that can be read, of which the node says what is wrong with it."""
    try:
        return range(len(Cluster(Line(1, cluster_line)).machines))
    except (ValueError, KeyError, TypeError):
        return range(0)


def visit(address: str) -> None:
    """Dials an address, and leaves. Where nobody listens yet, the node says so by itself."""
    try:
        socket.create_connection(address_of(address), FREE_SECONDS).close()
    except OSError:
        pass


class Service:
    """A node of any kind. `listener` is the socket for its commands, `log` takes what is said."""

    def __init__(self, asked: argparse.Namespace, node: Node, number: int, cluster_line: str, listener: Listener, log: Log) -> None:
        self.asked, self.node, self.number, self.cluster_line, self.listener, self.log = asked, node, number, cluster_line, listener, log
        self.program, self.kind, self.wait = str(node.program), asked.kind, asked.round / 1000
        self.line, self.is_ended, self.is_waiting, self.visits, self.losses = "round", False, False, 0, Losses(log)
        listener.answer = self.answer

    def answer(self, line: str) -> list[str]:
        """A command: what it printed, or `NotDone`."""
        if line == "end":
            self.is_ended = True
            return ["ends"]
        if line == "cluster":
            return [self.cluster_line]
        if line == "help":
            return [f"{NAMES[self.kind]} takes {', '.join(TAKEN[self.kind])}; besides there are cluster, end and help"]
        return answered(self.ask(checked(self.program, self.cluster_line, self.completed(line), self.kind)))

    def completed(self, line: str) -> str:
        return line

    def ask(self, line: str) -> list[str]:
        """What the node prints to a line."""
        self.free()
        return self.node.ask(line)

    def free(self) -> None:
        """Waits until the node reads lines again."""
        limit = time.monotonic() + MOST_BUSY
        while self.is_waiting:
            if self.node.has_line_within(FREE_SECONDS):
                self.end_round()
            elif time.monotonic() > limit:
                raise NotDone([f"it is in a round, and reads no line before that ends: for {MOST_BUSY} seconds by now"])
            else:
                self.hasten()

    def hasten(self) -> None:
        """Nothing: a round that an agent or an application began ends by itself."""

    def end_round(self) -> str:
        line, self.is_waiting = self.node.next_line(), False
        if self.visits and not line.startswith(ROUND_DONE):
            self.visits -= 1
        else:
            self.losses.take(line)
        return line

    def run(self) -> None:
        while not self.is_ended and self.node.events < HANDOVER_BEFORE:
            self.round()
            self.listener.serve()
            self.work()
        self.log.say("end", "it was told to end" if self.is_ended else "it nears its limit on lines, and ends for the next one")

    def round(self) -> None:
        if not self.is_waiting:
            self.node.tell(self.line)
            self.is_waiting = True
        if self.node.has_line_within(self.wait):
            self.end_round()
            self.pause()

    def pause(self) -> None:
        time.sleep(self.wait)

    def work(self) -> None:
        """Whatever is due besides rounds."""


class AgentService(Service):
    """An agent: it has a command told what it enforces, where there is one."""

    def __init__(self, *parts: Any, rows: Rows | None = None) -> None:
        super().__init__(*parts)
        self.rows, self.is_changed = rows, False

    def end_round(self) -> str:
        line = super().end_round()
        # (who hears but one packet has heard an acknowledgement)
        self.is_changed |= line.startswith(ROUND_DONE) and int(line.split()[2]) > 1
        return line

    def work(self) -> None:
        if not self.rows:
            return
        if self.is_changed and not self.is_waiting:
            self.is_changed = False
            agent = next(iter(State(self.ask("show")).agents.values()))
            # (before it has taken a row of its master its table is empty, whatever runs on the machine)
            if agent.has_row() or self.rows.wanted is not None:
                self.rows.take(agent.rows)
        self.rows.work()


class MasterService(Service):
    """A master: it serves whoever comes, says when it serves all, and begins without some where it was told to."""

    def __init__(self, *parts: Any, relay: Relay | None = None, absences: Absences | None = None) -> None:
        super().__init__(*parts)
        self.relay, self.absences, self.is_full = relay, absences, False
        self.machines, self.next_rebuilding = machines_of(self.cluster_line), time.monotonic() + LOOK_SECONDS
        self.line, self.is_serving, self.began, self.next_look, self.next_ban = "serve", False, time.monotonic(), 0.0, 0.0

    def completed(self, line: str) -> str:
        return with_epoch(line, self.number)

    def round(self) -> None:
        """A master behind a relay serves once somebody has come, so it never waits for a peer."""
        if not self.relay:
            super().round()
        elif self.relay.has_peer_within(self.wait):
            self.node.tell(self.line)
            party = self.relay.carry()
            if self.end_round().startswith(ROUND_DONE) and party and party[0] == AGENT_ROLE and self.absences:
                self.absences.note(party[1])

    def answer(self, line: str) -> list[str]:
        answer, words = super().answer(line), line.split()
        if self.absences and words[0] in ("ban", "unban"):
            self.absences.forget(int(words[-1]))
        if self.absences and words[0] in WRITTEN:
            self.absences.records += 1
        return answer

    def hasten(self) -> None:
        """A master that waits for a peer gets one, that says nothing."""
        self.visits += 1
        visit(self.asked.address)

    def pause(self) -> None:
        pass

    def work(self) -> None:
        if not self.is_serving and time.monotonic() >= self.next_look:
            self.next_look = time.monotonic() + LOOK_SECONDS
            self.look()
        if self.absences and time.monotonic() >= self.next_ban:
            self.next_ban = time.monotonic() + LOOK_SECONDS
            self.lift_and_ban(self.absences)

    def look(self) -> None:
        """Says when it serves, and begins without some machines where that is due."""
        now = time.monotonic()
        seconds = now - self.began
        try:
            lines = self.ask("show")
        except NotDone:
            # (a peer holds it: it is asked again)
            return
        self.is_serving = f"master {self.number} serving" in lines
        if self.is_serving:
            self.log.say("serving", f"it serves, behind {seconds:.1f} s", seconds=round(seconds, 1))
            return
        missing = self.missing(lines)
        names = f"{len(missing)} of {len(self.machines)} machines have not reported: {' '.join(map(str, missing))}"
        if self.asked.begin_after is not None and seconds >= self.asked.begin_after:
            self.ask(f"begin {self.number}")
            self.log.say("begin", f"it begins, behind {seconds:.1f} s, though {names}", missing=missing)
        elif now >= self.next_rebuilding:
            self.next_rebuilding = now + REBUILDING_SECONDS
            self.log.say("rebuilding", f"it is rebuilding, and grants nothing: {names}", missing=missing)

    def missing(self, lines: list[str]) -> list[int]:
        """The machines that have not reported to it."""
        reported = {int(it.split()[2]) for it in lines if it.startswith("reported ")}
        return [it for it in self.machines if it not in reported]

    def lift_and_ban(self, absences: Absences) -> None:
        """Bans machines whose agents are silent for too long, and lifts what it banned of those that are back."""
        for machine in absences.to_lift():
            absences.keep(machine, False)
            self.write(absences, f"unban {self.number} {machine}", "unban", f"machine {machine} is back, and its ban is lifted", machine)
        for machine in absences.to_ban():
            seconds = absences.silence(machine)
            absences.keep(machine, True, time.time())
            if not self.write(absences, f"ban {self.number} {machine}", "ban", f"machine {machine} is banned: no round with its agent for {seconds:.0f} s", machine):
                absences.keep(machine, False)
        if absences.is_full() and not self.is_full:
            self.is_full = True
            self.log.say("full", "it bans no machine any more: its file has too many records")

    def write(self, absences: Absences, line: str, event: str, text: str, machine: int) -> bool:
        """Whether the master has done a line that it writes."""
        said = self.ask(line)
        absences.records += not said
        self.log.say(event, f"{text} ({said[0]})" if said else text, machine=machine)
        return not said
