"""The open files of nodes behind very many rounds, of which most go wrong."""

import os
import socket
import tempfile

from model.frames import ACK, AGENT, MASTER, bare_frame
from nodes.hostile import Peer
from nodes.wire import PEERS, dial
from shared.parties import text_of
from shared.processes import Difference, Node, new_journal
from shared.sites import free_address

# So many rounds are told at once: their lines have room in the pipes.
BATCH = 200


def open_files(node):
    return sorted(os.readlink(f"/proc/{node.process.pid}/fd/{number}").split(":")[0] for number in os.listdir(f"/proc/{node.process.pid}/fd"))


def whole_rounds(agent, master):
    """Rounds of both with each other."""
    master.tell(*["serve"] * BATCH)
    agent.tell(*["round"] * BATCH)
    for node in [agent, master] * BATCH:
        if not node.next_line().startswith("round done"):
            raise Difference(f"{node.name} has a round that is not done")


def missed_rounds(agent):
    """Rounds of an agent that finds nobody."""
    agent.tell(*["round"] * BATCH)
    for _ in range(BATCH):
        agent.expect("round fault")


def broken_visits(master, address):
    """A master that is told nothing, what is no frame, or half of one, and whose peers are gone at once."""
    master.tell(*["serve"] * BATCH)
    frame = bare_frame(ACK, (AGENT, 0, 1), (MASTER, 0, 0))
    for number in range(BATCH):
        peer = Peer(None, dial(address))
        peer.give([[b"", b"\xff" * 64, frame[:20], frame][number % 4]])
        if number % 3 == 0:
            peer.reset()
        else:
            peer.half_close()
            peer.side.close()
    for _ in range(BATCH):
        if not master.next_line().startswith(("round bad", "round fault")):
            raise Difference(f"{master.name} has a round that is done with nobody")


def gone_masters(agent, listener):
    """An agent whose master is gone when it dials, half closes, or resets."""
    for number in range(BATCH):
        agent.tell("round")
        peer = Peer(None, listener.accept()[0])
        if number % 2:
            peer.reset()
        else:
            peer.hear(1)
            peer.half_close()
            peer.gather()
            peer.side.close()
        if not agent.next_line().startswith(("round bad 1 Short", "round fault")):
            raise Difference(f"{agent.name} has a round that is done with nobody")


def compare_descriptors(program, shape, rounds):
    """Whether the processes of nodes have the same files open behind so many rounds."""
    journal, nodes, done = new_journal(), [], 0
    with tempfile.TemporaryDirectory() as folder, socket.create_server((PEERS, 0)) as listener:
        def start(words, address):
            nodes.append(Node(program, folder, [*words, text_of(address)], shape.line(), journal))
            return nodes[-1]

        try:
            address = free_address()
            master, agent = start(["master", 1], address), start(["agent", 0, 1], address)
            lonely, left = start(["agent", 0, 2], (PEERS, 1)), start(["agent", 0, 3], listener.getsockname())
            broken_visits(master, address)
            whole_rounds(agent, master)
            missed_rounds(lonely)
            gone_masters(left, listener)
            before = [open_files(node) for node in nodes]
            steps = [lambda: whole_rounds(agent, master), lambda: missed_rounds(lonely), lambda: broken_visits(master, address), lambda: gone_masters(left, listener)]
            while done < rounds:
                steps[done // BATCH % len(steps)]()
                done += BATCH
            after = [open_files(node) for node in nodes]
            if before != after:
                raise Difference(f"the open files were {before}, and behind {done} rounds they are {after}")
        except (Difference, OSError) as fault:
            print(*journal, f"tests/hostile_peers: {fault}", sep="\n")
            return False
        finally:
            for node in nodes:
                if node.is_running():
                    node.kill()
    print(f"{done} rounds leave no file open")
    return True
