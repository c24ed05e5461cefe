"""The processes of a cluster, and the file of its masters."""

import copy
import os
from collections import Counter

from model.hard_file import HardFile
from nodes.wire import Wire
from shared.parties import Party, text_of
from shared.processes import Difference, Node, new_journal

# So many applications of jobs that have ended stay, and so many earlier boots, since these are heard too.
MOST_ENDED, MOST_EARLIER = 2, 2


class Cluster:
    """A master after the other, an agent on each machine, an application for each job, and the wire between them."""

    def __init__(self, program, folder, shape):
        self.program, self.folder, self.shape, self.journal, self.counts = program, folder, shape, new_journal(), Counter()
        self.wire, self.file = Wire(), HardFile(shape, os.path.join(folder, "fuxi.state"))
        self.epoch, self.master, self.apps, self.earlier, self.started = 0, None, {}, [], []
        self.agents = [Party("agent", number) for number in range(len(shape.machines))]
        for agent in self.agents:
            self.start(agent)

    def new_node(self, words, address):
        self.started.append(Node(self.program, self.folder, [*words, text_of(address)], self.shape.line(), self.journal))
        return self.started[-1]

    def start(self, party):
        """Starts a party in its next boot, in which it asks for nothing yet."""
        party.boot += 1
        party.wants, party.avoided = {}, set()
        party.node = self.new_node(party.words(), self.wire.address)

    def restart(self, party):
        """Starts a party again where it was killed."""
        party.node.kill()
        self.start(party)

    def replace(self, party):
        """Starts a party again, as whoever does that thinks it is gone. It still runs, and what it says comes late."""
        self.earlier.append(copy.copy(party))
        if len(self.earlier) > MOST_EARLIER:
            self.earlier.pop(0).node.kill()
        self.start(party)

    def new_master(self, epoch):
        return self.new_node(["master", epoch], self.wire.master)

    def start_master(self, epoch):
        """Starts a master, which has the hard state and nothing else."""
        self.epoch, self.master = epoch, self.new_master(epoch)
        self.file.tell(f"raise {epoch}")
        self.file.answer()
        wanted = [*self.file.certain.shown(), f"master {epoch} rebuilding"]
        found = self.master.show()
        if found != wanted:
            raise Difference(f"master {epoch} starts with {found}, and not with {wanted}")
        self.counts["masters"] += 1
        self.fit_apps()

    def tell_hard(self, line):
        """Tells the master a line that writes the hard state, and waits until that is done."""
        self.file.tell(line)
        self.compare_answer(line, self.master.ask(line))
        self.fit_apps()

    def compare_answer(self, line, printed):
        """The line is done, and this was its answer."""
        refusal = self.file.answer()
        wanted = [refusal] if refusal else []
        if printed != wanted:
            raise Difference(f"to {line!r} master {self.epoch} prints {printed}, and not {wanted}")
        self.counts["lines written"] += not refusal

    def kill_master(self):
        """What it had printed, and nobody had read."""
        self.counts["kills"] += 1
        return self.master.kill()

    def fit_apps(self):
        """Starts an application for each job that has none, and ends some of those whose jobs have ended."""
        live = self.file.certain.live_jobs()
        for number in [number for number in self.apps if number not in live][:-MOST_ENDED]:
            self.apps.pop(number).node.end_quietly()
        for number in live:
            if number not in self.apps:
                self.apps[number] = Party("app", number, len(self.file.certain.jobs[number].units))
                self.start(self.apps[number])

    def parties(self):
        return [*self.agents, *self.apps.values()]

    def end(self):
        """Ends all of them by the end of their input."""
        for node in [*(party.node for party in self.parties()), self.master]:
            node.end_quietly()

    def close(self):
        """Leaves no process behind, however the run ended."""
        for node in self.started:
            if node.is_running():
                node.kill()
        self.wire.close()
