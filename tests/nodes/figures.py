"""How long rounds take over loopback."""

import statistics
import tempfile
import time

from model.frames import ACK, AGENT, MASTER, bare_frame
from shared.processes import Difference, Node, new_journal
from nodes.wire import dial, receive
from shared.parties import Party, Shape, text_of
from shared.sites import free_address

IDLE_ROUNDS = 2000
JOBS, UNITS = 256, 8
REPEATS = 5
# Behind so many rounds an agent and its master have nothing left to tell.
ROUNDS_TO_JOIN = 4
# A master hears so many packets of one connection.
MOST_FRAMES = 4096


class Bench:
    """One machine, on which one grant of each unit fits, its master, and parties that dial it themselves."""

    def __init__(self, program, folder):
        room = (JOBS * UNITS,)
        self.program, self.folder, self.shape, self.journal = program, folder, Shape([(0, room)], [(room, room)]), new_journal()
        self.address, self.agent, self.master, self.epoch = free_address(), Party("agent", 0), None, 0
        self.nodes = []

    def new_node(self, words):
        self.nodes.append(Node(self.program, self.folder, [*words, text_of(self.address)], self.shape.line(), self.journal))
        return self.nodes[-1]

    def start(self, party):
        if party.node:
            party.node.kill()
        party.boot += 1
        party.node = self.new_node(party.words())

    def start_master(self):
        """Starts the next master, and waits until it listens."""
        if self.master:
            self.master.kill()
        self.epoch += 1
        self.master = self.new_node(["master", self.epoch])
        self.master.tell("serve")
        dial(self.address).close()
        self.master.expect("round bad 1 Short")

    def round(self, party):
        """The line of the party, and how long its round took."""
        began = time.monotonic()
        self.master.tell("serve")
        party.node.tell("round")
        line, answer = party.node.next_line(), self.master.next_line()
        if not (line.startswith("round done") and answer.startswith("round done")):
            raise Difference(f"{party.node.name} prints {line!r}, and the master {answer!r}")
        return line, time.monotonic() - began

    def close(self):
        for node in self.nodes:
            if node.is_running():
                node.kill()


def peak_memory(node):
    """The most memory that a node has had, in MiB."""
    with open(f"/proc/{node.process.pid}/status") as status:
        return next(int(line.split()[1]) for line in status if line.startswith("VmHWM")) / 1024


def milliseconds(times):
    return f"{1000 * statistics.median(times):.1f} ms ({1000 * min(times):.1f} to {1000 * max(times):.1f})"


def memory(bench):
    return f"the agent takes {peak_memory(bench.agent.node):.1f} MiB, its master {peak_memory(bench.master):.1f} MiB"


def idle_rounds(bench):
    """Many rounds of which all are told at once, so that no script stands between them."""
    bench.start_master()
    bench.start(bench.agent)
    for _ in range(ROUNDS_TO_JOIN):
        bench.round(bench.agent)
    began = time.monotonic()
    bench.master.tell(*["serve"] * IDLE_ROUNDS)
    bench.agent.node.tell(*["round"] * IDLE_ROUNDS)
    for node in [bench.agent.node, bench.master] * IDLE_ROUNDS:
        node.expect("round done 1 1")
    seconds = time.monotonic() - began
    print(f"rounds of an idle agent: {IDLE_ROUNDS / seconds:,.0f} a second; {memory(bench)}")


def fill(bench):
    """All jobs that there can be, each with all units, of which each wants one grant. An application is needed until the master has heard it."""
    began = time.monotonic()
    unit = " / ".join(["5 1"] * UNITS)
    refused = bench.master.ask(*(f"submit {bench.epoch} {job} 0 {unit}" for job in range(JOBS)))
    submitted = time.monotonic() - began
    for job in range(JOBS):
        app = Party("app", job, UNITS)
        bench.start(app)
        refused += app.node.ask(*(f"want {job} {unit} 1" for unit in range(UNITS)))
        for _ in range(2):
            bench.round(app)
        app.node.kill()
    if refused:
        raise Difference(f"lines are refused: {refused[:3]}")
    print(f"{JOBS} jobs are submitted and written to the disk: {1000 * submitted / JOBS:.1f} ms each")
    print(f"an application starts for each, asks for {UNITS} grants and ends: {1000 * (time.monotonic() - began - submitted) / JOBS:.1f} ms each")


def expect_rows(bench):
    found = len([line for line in bench.agent.node.show() if line.startswith("row ")])
    if found != JOBS * UNITS:
        raise Difference(f"the agent has a row of {found} entries")


def whole_rows(bench):
    """An agent that starts again is told its whole row, in its second round."""
    times = []
    for _ in range(REPEATS):
        bench.start(bench.agent)
        bench.round(bench.agent)
        times.append(bench.round(bench.agent)[1])
        expect_rows(bench)
    print(f"a round in which a row of {JOBS * UNITS} entries goes to an agent: {milliseconds(times)}; {memory(bench)}")


def whole_reports(bench):
    """A master that starts is told the row of the agent, and the jobs by its file."""
    starts, times = [], []
    for _ in range(REPEATS):
        began = time.monotonic()
        bench.start_master()
        starts.append(time.monotonic() - began)
        bench.round(bench.agent)
        times.append(bench.round(bench.agent)[1])
        granted = len([line for line in bench.master.show() if line.startswith("grant ")])
        if granted != JOBS * UNITS:
            raise Difference(f"the master knows {granted} grants of the report")
    print(f"a master starts, over a file of {JOBS + bench.epoch} records: {milliseconds(starts)}")
    print(f"a round in which a master hears a report of {JOBS * UNITS} entries and answers with the row: {milliseconds(times)}")


def endless_peer(bench):
    """A peer that sends acknowledgements without end is cut."""
    frame = bare_frame(ACK, (AGENT, 0, bench.agent.boot), (MASTER, 0, bench.epoch))
    bench.master.tell("serve")
    began = time.monotonic()
    with dial(bench.address) as peer:
        try:
            for _ in range(4 * MOST_FRAMES // 64):
                peer.sendall(frame * 64)
        except (BrokenPipeError, ConnectionResetError):
            pass
        bench.master.expect("round long")
        seconds, answer = time.monotonic() - began, receive(peer)
    if answer:
        raise Difference(f"a peer without end is answered {answer.hex()}")
    bench.round(bench.agent)
    print(f"a peer that sends acknowledgements without end is cut after {MOST_FRAMES}: {1000 * seconds:.0f} ms")


def print_figures(program):
    """Measures, and answers the status of the script."""
    with tempfile.TemporaryDirectory() as folder:
        bench = Bench(program, folder)
        try:
            for measure in [idle_rounds, fill, whole_rows, whole_reports, endless_peer]:
                measure(bench)
        except (Difference, OSError) as fault:
            print(*bench.journal, f"tests/cluster_failures: {fault}", sep="\n")
            return 1
        finally:
            bench.close()
    return 0
