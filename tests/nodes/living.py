"""A cluster as `tools/cluster` has it live: masters are killed in the middle of rounds, parties start again, the next process takes over before the
limit on lines; and at the end all of it is compared, as where the wire is carried by hand."""

import os
import random
import subprocess
import sys
import tempfile
import time

from model.hard_file import HardState
from shared.control import tell
from shared.crates import TOP
from shared.epochs import LeaseEpochs
from shared.jobs_file import Jobs
from shared.living import Living
from shared.processes import PATIENCE, Difference
from shared.sites import Loopback
from shared.tables import Tables

STEPS, TICKS, FEW_LINES = 60, 8, 600


class Model:
    """What the masters have to have written, for the tables: it is asked as the file of a cluster is."""

    def __init__(self, shape):
        self.certain = HardState(shape)

    def take(self, epoch, line):
        if self.certain.fence != epoch:
            self.certain.take(f"raise {epoch}")
        return self.certain.take(line)


class Driver:
    """What is done to the cluster, as a number draws it. Whatever writes the hard state is told the model too."""

    def __init__(self, living, seed):
        self.living, self.chance, self.model, self.next_job = living, random.Random(seed), Model(living.shape), 100
        for job in living.jobs.submitted:
            self.model.take(living.epoch, f"submit {living.epoch} {living.jobs.submitted[job]}")

    def hard(self, words):
        epoch, line = self.living.epoch, words.replace("*", str(self.living.epoch), 1)
        printed, wanted = self.living.ask_master(line), self.model.take(epoch, line)
        # (waiting for a peer, it may have met the end of its master and started the next one)
        if self.living.epoch == epoch and printed != ([wanted] if wanted else []):
            raise Difference(f"to {line!r} the master prints {printed}, and not {wanted}")

    def step(self):
        draw, machine = self.chance.randrange(12), self.chance.randrange(len(self.living.agents))
        if draw < 2:
            self.living.kill_master()
        elif draw < 4:
            self.living.restart(self.chance.choice(self.living.parties()))
        elif draw < 6:
            self.hard(f"{self.chance.choice(['ban', 'unban'])} * {machine}")
        elif draw < 7:
            self.submit()
        else:
            app = self.chance.choice(list(self.living.apps.values()))
            unit = self.chance.randrange(*app.units)
            words = self.chance.choice([f"want {app.number} {unit} {self.chance.randrange(30)}", f"avoid {app.number} {unit} {machine} {self.chance.randrange(2)}"])
            self.living.demand(app, words)
        for _ in range(self.chance.randrange(TICKS)):
            self.living.tick()

    def submit(self):
        job, self.next_job = self.next_job, self.next_job + 1
        self.living.jobs.submitted[job], self.living.jobs.demands[job] = f"{job} {self.chance.randrange(2)} {self.chance.randrange(10)} 50 100", [f"want {job} 0 3"]
        self.living.submit(job)
        self.model.take(self.living.epoch, f"submit {self.living.epoch} {self.living.jobs.submitted[job]}")


def compare(living, model):
    """Nothing is left to tell, and all tables are as they have to be."""
    if not living.settle():
        raise Difference("after many rounds of each party there is still something to tell")
    living.file = model
    living.free_master()
    Tables(living).compare()
    if not living.agrees():
        raise Difference("what the summary compares differs, and the tables do not")


def start_party(program, folder, name, address, *words):
    """A node under `tools/party`, in a folder of its own."""
    place = os.path.join(folder, name)
    os.makedirs(place, exist_ok=True)
    words = [f"{TOP}/tools/party", *words[:1], address, *words[1:], "--cluster", f"{TOP}/tools/cluster.jobs", "--round", "5", "--folder", place]
    return subprocess.Popen(words, env={**os.environ, "FUXI": program}, stdin=subprocess.DEVNULL, stderr=subprocess.DEVNULL), place


def ask(place, line):
    """Tells a party a line, as soon as it can be reached."""
    limit = time.monotonic() + PATIENCE
    while True:
        try:
            return tell(place, line)[1].splitlines()
        except OSError:
            if time.monotonic() > limit:
                raise Difference(f"{place} is not reached") from None
            time.sleep(0.01)


def shown(places, words):
    """The counts that parties show under these words, without who shows them."""
    found = [line.split() for place in places for line in ask(place, "show")]
    return sorted(tuple(map(int, it[1:])) for it in found if it[0] in words)


def compare_parties(places):
    """Parties that are left alone come to the same table."""
    limit = time.monotonic() + PATIENCE
    while time.monotonic() < limit:
        granted = sorted((machine, job, unit, count) for _, job, unit, machine, count in shown(places[:1], ["grant"]))
        rows = shown(places[1:-1], ["row"])
        holds = sorted((machine, job, unit, count) for job, unit, machine, count in shown(places[-1:], ["hold"]))
        if granted and sum(it[3] for it in granted) == 16 and granted == rows == holds:
            return
        time.sleep(0.05)
    raise Difference(f"under tools/party {granted} is granted, {rows} enforced and {holds} held")


def serve_parties(program):
    """Whether nodes under `tools/party` find each other, and their grants again when the master ends and is started again as a unit does that."""
    processes, machines = [], 5
    with tempfile.TemporaryDirectory() as folder:
        address = Loopback().address
        try:
            for name, *words in [("master", "master"), *((f"agent{it}", "agent", "--number", str(it)) for it in range(machines))]:
                processes.append(start_party(program, folder, name, address, *words))
            ask(processes[0][1], "submit * 0 0 5 100 400 most 4")
            processes.append(start_party(program, folder, "app", address, "app", "--number", "0", "--units", "1"))
            compare_parties([place for _, place in processes])
            processes[0][0].kill()
            processes[0][0].wait()
            processes[0] = start_party(program, folder, "master", address, "master")
            compare_parties([place for _, place in processes])
        except Difference as fault:
            print(f"tests/cluster_failures: {fault}", file=sys.stderr)
            return False
        finally:
            for process, _ in processes:
                process.kill()
                process.wait()
    print("nodes under tools/party: ok")
    return True


def hears_nonsense(program):
    """Whether a line that a node could not read is told to none."""
    with tempfile.TemporaryDirectory() as folder:
        process = subprocess.Popen([f"{TOP}/tools/cluster", "--folder", folder, "--calm"], env={**os.environ, "FUXI": program}, stdin=subprocess.DEVNULL, stdout=subprocess.DEVNULL)
        try:
            for line, wanted in [("nonsense", "UnknownWord"), ("ban x", "BadNumber 2"), ("want 0 0 x", "BadNumber 3"), ("show", "state "), ("end", "ends")]:
                said = ask(folder, line)
                if not said or wanted not in said[0]:
                    raise Difference(f"to {line!r} tools/cluster says {said}")
            if process.wait(PATIENCE):
                raise Difference(f"tools/cluster ends with status {process.returncode}")
        except Difference as fault:
            print(f"tests/cluster_failures: {fault}", file=sys.stderr)
            return False
        finally:
            process.kill()
            process.wait()
    print("commands to tools/cluster: ok")
    return True


def live(program, seed):
    """Whether a living cluster was without a difference."""
    with open(f"{TOP}/tools/cluster.jobs", "rb") as file:
        jobs = Jobs(file.read(), "tools/cluster.jobs")
    with tempfile.TemporaryDirectory() as folder:
        living = Living(os.path.abspath(program), folder, jobs, LeaseEpochs(program, folder), Loopback(), FEW_LINES)
        try:
            living.start()
            driver = Driver(living, seed)
            for step in range(1, STEPS + 1):
                driver.step()
                if step % 10 == 0:
                    compare(living, driver.model)
            living.end()
        except (Difference, OSError) as fault:
            print("what was done last:", *living.journal, f"tests/cluster_failures: a cluster that lives, seed {seed}: {fault}", sep="\n", file=sys.stderr)
            return False
        finally:
            living.close()
    print(f"a cluster that lives: {living.epoch} epochs by {living.epochs.name}, {len(living.failovers)} failovers, {living.restarts} restarts, {living.handovers} handovers, {living.rounds} rounds; ok")
    return True
