"""What is done to a cluster, as a number draws it."""

import random
import time

from nodes.lines import Lines
from shared.processes import NOT_HERE, Difference
from nodes.rounds import LONGEST_DELAY, Rounds
from shared.tables import Tables

# A cluster that is left alone has nothing to tell any more after so many rounds of each party.
MOST_PASSES = 20
# So many of these it takes until a new master knows all.
PASSES_TO_JOIN = 4
# What is done to a master before it is killed: so many steps at least and at most.
FEWEST_STEPS, MOST_STEPS = 6, 40
MOST_LINES_AT_ONCE = 16


class Schedule:
    """Masters one after another, each killed but the last, and what happens around them."""

    def __init__(self, cluster, seed):
        self.cluster, self.chance = cluster, random.Random(seed)
        self.rounds, self.lines = Rounds(cluster, self.chance), Lines(cluster.shape, self.chance)
        self.steps = [
            (40, self.whole_round),
            (5, self.crowd),
            (3, self.round_of_earlier_boot),
            (12, self.cut_round),
            (4, self.rounds.visit),
            (16, self.demand),
            (7, self.hard_line),
            (5, self.soft_line),
            (2, self.line_of_others),
            (2, self.resync),
            (3, self.restart),
            (2, self.restart_in_round),
        ]
        self.kills = [
            (2, "idle", self.cluster.kill_master),
            (1, "waiting", self.kill_waiting),
            (5, "in a round", self.kill_in_round),
            (5, "at the file", self.kill_writing),
        ]

    def run(self, kills):
        while self.cluster.counts["kills"] < kills:
            if self.chance.random() < 0.2:
                self.kill_starting()
                continue
            self.start_master()
            for _ in range(self.chance.randrange(FEWEST_STEPS, MOST_STEPS)):
                self.step()
            if self.chance.random() < 0.6:
                self.settle()
            if self.chance.random() < 0.2 and self.cluster.counts["kills"] + 1 < kills:
                self.fail_over()
            self.kill()
        self.start_master()
        self.settle()
        self.cluster.end()

    def step(self):
        weights = [weight for weight, _ in self.steps]
        _, step = self.chance.choices(self.steps, weights)[0]
        step()
        self.cluster.counts["steps"] += 1

    def party(self):
        return self.chance.choice(self.cluster.parties())

    # How a master starts.

    def start_master(self):
        if self.chance.random() < 0.3:
            self.try_stale()
        self.cluster.start_master(self.next_epoch())
        while len(self.cluster.file.certain.live_jobs()) < 2 and self.lines.has_jobs():
            self.cluster.tell_hard(self.lines.submission(self.cluster.epoch))

    def next_epoch(self):
        return self.cluster.file.certain.fence + self.chance.choice([1, 1, 1, 2, 9])

    def kill_starting(self):
        """A master that is killed before it prints anything has raised the fence or not."""
        epoch = self.next_epoch()
        self.cluster.file.tell(f"raise {epoch}")
        self.cluster.master = self.cluster.new_master(epoch)
        time.sleep(self.chance.uniform(0, 4 * LONGEST_DELAY))
        self.end_of_master("at the start", self.cluster.kill_master)

    def try_stale(self):
        """An epoch that is not above the fence never starts, and leaves the file."""
        fence = self.cluster.file.certain.fence
        if fence == 0:
            return
        before = self.cluster.file.read()
        found = self.cluster.new_master(self.chance.choice([fence, self.chance.randint(1, fence)])).end()
        if found != ([], 9, f"stale epoch {fence}\n") or self.cluster.file.read() != before:
            raise Difference(f"a master whose epoch is not above the fence {fence} ends with {found}, or has changed the file")
        self.cluster.counts["stale masters"] += 1

    # How a master ends.

    def kill(self):
        _, name, way = self.chance.choices(self.kills, [weight for weight, _, _ in self.kills])[0]
        self.end_of_master(name, way)

    def fail_over(self):
        """A master is killed where nothing is left to tell. The next one finds each grant again, and no agent sees anything of it."""
        before = self.settle()
        self.end_of_master("where all was told", self.cluster.kill_master)
        self.cluster.start_master(self.next_epoch())
        for _ in range(PASSES_TO_JOIN):
            self.round_of_each()
            rows = Tables(self.cluster).rows
            if rows != before.rows:
                raise Difference(f"under the next master the rows are {rows}, and under the one before it they were {before.rows}")
        self.settle()

    def end_of_master(self, name, way):
        """Kills the master; what it had done is in its file."""
        way()
        self.cluster.file.look()
        self.cluster.counts[f"kills {name}"] += 1

    def kill_waiting(self):
        """It waits for a peer, or is about to."""
        self.cluster.master.tell("serve")
        time.sleep(self.chance.uniform(0, LONGEST_DELAY))
        self.cluster.kill_master()

    def kill_in_round(self):
        self.rounds.kill_master(self.party())

    def kill_writing(self):
        """It has many lines to write, and is killed at one of them. Behind each stands a line that it refuses: what it printed tells how many
        were done at least."""
        master, file = self.cluster.master, self.cluster.file
        lines = self.hard_lines(self.chance.randint(2, MOST_LINES_AT_ONCE))
        file.tell(*lines)
        master.tell(*(each for line in lines for each in (line, master.aside)))
        printed = self.read_answers(self.chance.randrange(len(lines)))
        wait = self.chance.choice([time.sleep, file.wait_for_growth])
        wait(self.chance.uniform(0, LONGEST_DELAY))
        self.take_answers(lines, printed + self.cluster.kill_master())

    def hard_lines(self, count):
        """Lines of which each is drawn for the state behind those before it."""
        state, lines = self.cluster.file.certain.copy(), []
        for _ in range(count):
            lines.append(self.lines.hard_line(state))
            state.take(lines[-1])
        return lines

    def read_answers(self, count):
        printed = []
        while printed.count(NOT_HERE) < count:
            printed.append(self.cluster.master.next_line())
        return printed

    def take_answers(self, lines, printed):
        """Compares the answers of the lines that are known to be done: each stands before a line that was refused behind it."""
        for line in lines[: printed.count(NOT_HERE)]:
            behind = printed.index(NOT_HERE)
            self.cluster.compare_answer(line, printed[:behind])
            printed = printed[behind + 1 :]

    # What happens while it runs.

    def whole_round(self):
        self.rounds.whole(self.party())

    def crowd(self):
        """Some dial at once, and have to wait for one another."""
        parties = self.cluster.parties()
        self.rounds.whole(*self.chance.sample(parties, self.chance.randint(2, len(parties))))
        self.cluster.counts["crowds"] += 1

    def round_of_earlier_boot(self):
        """A party is heard that has started again since."""
        if self.cluster.earlier:
            self.rounds.whole(self.chance.choice(self.cluster.earlier))
            self.cluster.counts["rounds of earlier boots"] += 1

    def cut_round(self):
        self.rounds.cut(self.party())

    def restart_in_round(self):
        self.rounds.restart(self.party())

    def restart(self):
        """A party starts again with its next boot, and the one before is gone or still runs."""
        self.chance.choice([self.cluster.restart, self.cluster.replace])(self.party())
        self.cluster.counts["restarts between rounds"] += 1

    def resync(self):
        party = self.party()
        self.compare(party.node, f"resync {party.kind} {party.number}", [[]])

    def compare(self, node, line, answers):
        printed = node.ask(line)
        if printed not in answers:
            raise Difference(f"to {line!r} {node.name} prints {printed}, and none of {answers}")

    def hard_line(self):
        self.cluster.tell_hard(self.lines.hard_line(self.cluster.file.certain))

    def soft_line(self):
        master, epoch = self.cluster.master, self.cluster.epoch
        self.compare(master, *self.lines.soft_line(epoch, f"master {epoch} serving" in master.show()))

    def line_of_others(self):
        kind, node = self.chance.choice([("master", self.cluster.master), *((party.kind, party.node) for party in self.cluster.parties())])
        node.tell(self.lines.line_of_others(kind))
        node.expect(NOT_HERE)

    def demand(self):
        """An application asks for something, gives something back, or does what it may not."""
        app = self.chance.choice(list(self.cluster.apps.values()))
        draw = self.chance.random()
        if draw < 0.3:
            self.give_back(app)
        elif draw < 0.4:
            line, refusal = self.lines.wrong_demand(app)
            self.compare(app.node, line, [[refusal]])
        else:
            self.compare(app.node, self.lines.demand(app), [[]])

    def give_back(self, app):
        """Up to one more than it may. What it only carries it may not give back."""
        held = [line.split() for line in app.node.show() if line.startswith(("hold ", "carry "))]
        word, job, unit, machine, count = self.chance.choice(held or [["carry", str(app.number), "0", "0", "0"]])
        usable = int(count) if word == "hold" else 0
        given = self.chance.randint(1, usable + 1)
        refusal = [f"refused NotUsable {usable}"] if given > usable else []
        self.compare(app.node, f"back {job} {unit} {machine} {given}", [refusal])
        found = [line for line in app.node.show() if line.split()[:4] == [word, job, unit, machine]]
        left = int(count) - (0 if refusal else given)
        if found != ([f"{word} {job} {unit} {machine} {left}"] if left else []):
            raise Difference(f"{app.node.name} shows {found}, where of {count} {given} were given back")

    def round_of_each(self):
        """One after the other, or all at once."""
        parties = self.cluster.parties()
        return self.rounds.whole(*parties) if self.chance.random() < 0.5 else [self.rounds.whole(party)[0] for party in parties]

    def settle(self):
        """Rounds of all parties, until in one round of each only acknowledgements went over the wire. Then all has to agree."""
        for _ in range(MOST_PASSES):
            if set(self.round_of_each()) == {(1, 1)}:
                tables = Tables(self.cluster)
                tables.compare()
                self.cluster.counts["comparisons"] += 1
                return tables
        raise Difference(f"after {MOST_PASSES} rounds of each party there is still something to tell")
