"""A cluster of node processes with timers around them: rounds in turn, a standby that goes on when the master ends, restarts. It invents no
protocol: it tells proved parties their lines at the right times."""

from __future__ import annotations

import math
import re
import time
from collections.abc import Iterable

from shared.epochs import Epochs
from shared.jobs_file import Jobs
from shared.parties import Party
from shared.processes import Command, Difference, Node, new_journal
from shared.sites import Sites
from shared.tables import table

ROUND_DONE = "round done "
# A cluster that is left alone has nothing to tell any more after so many rounds of each party.
MOST_PASSES = 40
# A node reads 1,000,000 lines at most.
HANDOVER_BEFORE = 900_000


def present_boot() -> int:
    """Boots rise with the time: whoever starts a party again needs to know no earlier boot."""
    return time.time_ns() // 1_000_000


class Failover:
    """When the master before ended, when the next one started, and when it served."""

    def __init__(self, epoch: int, ended: float) -> None:
        self.epoch, self.ended = epoch, ended
        self.started: float | None = None
        self.served: float | None = None

    def seconds(self) -> float:
        return self.served - self.ended if self.served else math.nan


class Living:
    """One master after the other, an agent on each machine, an application for each job."""

    def __init__(self, program: str, folder: str, jobs: Jobs, epochs: Epochs, sites: Sites, most_lines: int = HANDOVER_BEFORE) -> None:
        self.program, self.folder, self.jobs, self.shape, self.epochs, self.sites = program, folder, jobs, jobs.shape, epochs, sites
        self.most_lines, self.journal, self.started = most_lines, new_journal(), list[Node]()
        self.apps: dict[int, Party] = {}
        self.epoch = self.site = self.rounds = self.faults = self.handovers = self.restarts = 0
        self.is_serving, self.failovers, self.pending = False, list[Failover](), 0
        self.leader: Node | None = None
        self.agents = [Party("agent", number) for number in range(len(self.shape.machines))]

    @property
    def master(self) -> Node:
        """The present one, which there is once the first was started."""
        assert self.leader
        return self.leader

    def start(self) -> None:
        """Starts all parties, and hands the jobs to the first master. Jobs that its file has already are refused, which is as it should be."""
        for agent in self.agents:
            self.start_party(agent)
        self.start_master()
        for job in self.jobs.submitted:
            self.submit(job)

    def node(self, words: Iterable[object], program: Command) -> Node:
        self.started = [it for it in self.started if it.is_running()]
        self.started.append(Node(program, self.folder, [*words, self.sites.address], self.shape.line(), self.journal))
        return self.started[-1]

    def start_party(self, party: Party) -> None:
        """Starts an agent or an application, with the time as its boot."""
        party.boot = max(party.boot + 1, present_boot())
        party.wants, party.avoided = {}, set()
        party.node = self.node(party.words(), self.program)
        if party.kind == "app":
            for line in self.jobs.demands[party.number]:
                self.demand(party, line)

    def restart(self, party: Party) -> None:
        party.running.kill()
        self.restarts += 1
        self.start_party(party)

    def submit(self, job: int) -> list[str]:
        refused = self.master.ask(f"submit {self.epoch} {self.jobs.submitted[job]}")
        if job not in self.apps and (not refused or refused == ["refused Known"]):
            self.apps[job] = Party("app", job, self.jobs.units(job))
            self.start_party(self.apps[job])
        return refused

    def demand(self, app: Party, line: str) -> list[str]:
        """Tells an application a line of its own, and keeps what it asks for with it."""
        printed, words = app.running.ask(line), line.split()
        if not printed and words[0] == "want":
            app.wants[int(words[2])] = int(words[3])
        if not printed and words[0] == "avoid":
            (app.avoided.add if words[4] == "1" else app.avoided.discard)((int(words[2]), int(words[3])))
        return printed

    # One master after the other.

    def start_master(self) -> None:
        """Starts a master with the next epoch, as soon as there is one."""
        while (epoch := self.epochs.acquire(self.site)) is None:
            time.sleep(0.02)
        self.sites.move(self.site)
        self.epoch, self.is_serving, self.pending = epoch, False, 0
        self.leader = self.node(["master", epoch], self.sites.words(self.program, self.site))
        try:
            self.master.show()
        except Difference as why:
            # (its epoch is not above the fence of a file that is there from before: a greater one is tried)
            stale = re.search(r"stale epoch (\d+)", str(why))
            if not stale:
                raise
            self.epochs.expire(self.epoch)
            self.epochs.passed(int(stale[1]))
            self.start_master()

    def fail_over(self, ended: float) -> None:
        """The standby goes on: the next epoch, at the next site, over the file that all share."""
        failover = Failover(self.epoch, ended)
        self.failovers.append(failover)
        self.epochs.expire(self.epoch)
        self.site = (self.site + 1) % self.sites.count
        self.start_master()
        failover.started = time.monotonic()

    def kill_master(self) -> None:
        """Kills the master in the middle of a round."""
        party = self.agents[self.rounds % len(self.agents)]
        if not self.pending:
            self.master.tell("serve")
        party.running.tell("round")
        ended = time.monotonic()
        self.master.kill()
        party.running.next_line()
        self.fail_over(ended)

    def hand_over(self) -> None:
        """A master that has read nearly as many lines as a node may ends, and the next one goes on."""
        ended = time.monotonic()
        self.master.kill()
        self.handovers += 1
        self.fail_over(ended)

    # Rounds.

    def parties(self) -> list[Party]:
        return [*self.agents, *self.apps.values()]

    def round(self, party: Party) -> str:
        """One round: the line that the party printed."""
        try:
            if not self.pending:
                self.master.tell("serve")
                self.pending = 1
            party.running.tell("round")
            line = party.running.next_line()
            # (a master that does not listen yet, or that is gone, has not served this round, and waits for the next)
            if line != "round fault" or self.master.has_line_within(0):
                self.master.next_line()
                self.pending = 0
        except Difference:
            if not self.mend():
                raise
            return "round fault"
        self.rounds += 1
        self.faults += not line.startswith(ROUND_DONE)
        if line == "round fault" and not self.master.is_running():
            self.mend()
        return line

    def mend(self) -> bool:
        """Starts again who has ended by itself: whether there was anybody."""
        ended, is_leaderless = [it for it in self.parties() if not it.running.is_running()], not self.master.is_running()
        if is_leaderless:
            self.master.kill()
            self.fail_over(time.monotonic())
        for party in ended:
            self.restart(party)
        return is_leaderless or bool(ended)

    def tick(self) -> None:
        """A round of each party. Whoever nears the limit on lines is started again before."""
        for party in self.parties():
            self.round(party)
            if party.running.events > self.most_lines:
                self.restart(party)
        if self.master.events > self.most_lines:
            self.hand_over()
        if not self.is_serving:
            self.look_for_service()

    def look_for_service(self) -> None:
        if f"master {self.epoch} serving" in self.ask_master("show"):
            self.is_serving = True
            if self.failovers and not self.failovers[-1].served:
                self.failovers[-1].served = time.monotonic()

    def ask_master(self, line: str) -> list[str]:
        """What the master prints to a line. One that waits for a peer gets one first."""
        self.free_master()
        return self.master.ask(line)

    def free_master(self) -> None:
        """A master that waits for a peer gets one. (At its first `serve` it may not listen yet when the peer dials.)"""
        while self.pending:
            if self.round(self.agents[0]) == "round fault":
                time.sleep(0.002)

    def settle(self) -> bool:
        """Rounds of all, until only acknowledgements go over the wire: whether that came."""
        for _ in range(MOST_PASSES):
            self.look_for_service()
            if {self.round(party) for party in self.parties()} == {f"{ROUND_DONE}1 1"}:
                self.look_for_service()
                return True
        return False

    def agrees(self) -> bool:
        """Whether what the master grants is what the agents enforce, and what the applications hold."""
        granted = table(self.ask_master("show"), "grant", 1)
        rows = table([line for agent in self.agents for line in agent.running.show()], "row", 0)
        holds = table([line for app in self.apps.values() for line in app.running.show()], "hold", 0)
        return granted == {(job, unit, machine): count for (machine, job, unit), count in rows.items()} == holds

    def end(self) -> None:
        """Ends all by the end of their input, and stops at the first that has something else to say."""
        self.free_master()
        for node in [*(party.running for party in self.parties()), self.master]:
            node.end_quietly()

    def close(self) -> None:
        """Leaves nothing behind, however the run ended."""
        for node in self.started:
            if node.is_running():
                node.kill()
        for it in (self.epochs, self.sites):
            try:
                it.close()
            except (Difference, OSError):
                pass
