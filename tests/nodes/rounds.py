"""Rounds of a party with the master, whole and broken off, and what both have to print of them."""

import re
import time

from model.frames import ACK, AGENT, APP, BARE_LENGTH, END, MASTER, bare_frame, has_end, packets, sender, whole_frames
from shared.processes import Difference

# Where chance decides how far a master has come, it is killed after this many seconds at most.
LONGEST_DELAY = 0.006


def done(heard, sent):
    return f"round done {heard} {sent}"


def short_behind(data):
    """The line of a round that heard this much before its connection ended."""
    return f"round bad {len(whole_frames(data)) + 1} Short"


class Rounds:
    """Rounds over the wire of a cluster. What is left to chance is drawn."""

    def __init__(self, cluster, chance):
        self.cluster, self.chance = cluster, chance

    def begin(self, party):
        """Both are told. Gives the connection, and the turn of the party, of which the master has heard nothing yet."""
        self.cluster.master.tell("serve")
        party.node.tell("round")
        passage = self.cluster.wire.open()
        turn = passage.gather("peer")
        packets(turn)
        return passage, turn

    def give(self, passage, side, data):
        """Gives a side this in pieces: however bytes are cut, the frames are the same."""
        at = 0
        while at < len(data):
            behind = at + self.chance.choice([1, 7, BARE_LENGTH, 1000, len(data)])
            passage.give(side, data[at:behind])
            at = behind

    def front(self, data):
        """A part from the front, which is not all."""
        return data[: self.chance.randrange(len(data))]

    def answer(self, passage, turn):
        """The master hears the whole turn, and this is its answer."""
        self.give(passage, "master", turn)
        answer = passage.gather("master")
        if passage.end("master"):
            raise Difference("the master says more behind its End frame")
        self.cluster.master.expect(done(packets(turn), packets(answer)))
        return answer

    def whole(self, *parties):
        """Rounds as they should be, of parties that dial at once: how many packets went each way in each."""
        for party in parties:
            self.cluster.master.tell("serve")
            party.node.tell("round")
        passages = [self.cluster.wire.open() for _ in parties]
        return [self.carry(passage, parties) for passage in passages]

    def carry(self, passage, parties):
        """The round of whoever dialed here."""
        turn = passage.gather("peer")
        party = next(party for party in parties if party.identity() == sender(turn))
        answer = self.answer(passage, turn)
        self.give(passage, "peer", answer)
        passage.end("peer")
        party.node.expect(done(packets(answer), packets(turn)))
        self.cluster.counts["whole rounds"] += 1
        return packets(turn), packets(answer)

    def break_off(self, passage, side, node, heard):
        """The connection of a side that was given this much breaks off: it knows of it by an end, or by an error."""
        if self.chance.random() < 0.3:
            passage.reset(side)
            node.expect("round fault")
        else:
            passage.end(side)
            node.expect(short_behind(heard))

    def cut(self, party):
        """The connection breaks off somewhere."""
        way = self.chance.choice([self.cut_turn, self.cut_turn, self.cut_answer, self.cut_answer, self.lose_answer])
        way(party, *self.begin(party))
        self.cluster.counts["cut rounds"] += 1

    def cut_turn(self, party, passage, turn):
        """In the middle of what the party says."""
        part = self.front(turn)
        self.give(passage, "master", part)
        self.break_off(passage, "master", self.cluster.master, part)
        self.break_off(passage, "peer", party.node, b"")

    def cut_answer(self, party, passage, turn):
        """In the middle of what the master says, which does not know of it."""
        part = self.front(self.answer(passage, turn))
        self.give(passage, "peer", part)
        self.break_off(passage, "peer", party.node, part)

    def lose_answer(self, party, passage, turn):
        """Behind all that the party says: the master may have answered by then or not, and nobody hears it."""
        passage.give("master", turn)
        passage.reset("master")
        found = self.cluster.master.next_line()
        if not re.fullmatch(rf"round (fault|done {packets(turn)} \d+)", found):
            raise Difference(f"the master prints {found!r} where its answer is lost")
        self.break_off(passage, "peer", party.node, b"")

    def restart(self, party):
        """The party is killed when it has said its turn, and the master hears nothing of it, a part, or all."""
        passage, turn = self.begin(party)
        part = self.chance.choice([b"", self.front(turn), turn])
        self.cluster.restart(party)
        passage.reset("peer")
        if part == turn:
            self.answer(passage, turn)
        else:
            self.give(passage, "master", part)
            self.break_off(passage, "master", self.cluster.master, part)
        self.cluster.counts["restarts in a round"] += 1

    def kill_master(self, party):
        """The master is killed when it has heard nothing, a part, all but the end, or all, and then it may have answered or not."""
        passage, turn = self.begin(party)
        part = self.chance.choice([b"", self.front(turn), turn[:-BARE_LENGTH], turn, turn])
        passage.give("master", part)
        has_answered = part == turn and self.chance.random() < 0.5
        answer = passage.gather("master") if has_answered else b""
        time.sleep(self.chance.uniform(0, LONGEST_DELAY))
        self.cluster.kill_master()
        if not has_answered:
            answer = passage.gather("master")
        passage.end("master")
        self.hear_the_last(passage, party, turn, answer)

    def hear_the_last(self, passage, party, turn, answer):
        """The party is given what the killed master had said, or less."""
        part = self.chance.choice([answer, answer[: len(answer) // 2]])
        self.give(passage, "peer", part)
        passage.end("peer")
        party.node.expect(done(packets(part), packets(turn)) if has_end(part) else short_behind(part))

    def visit(self):
        """Somebody dials the master and says what is no round. It is told so, and answers nothing."""
        data, line = self.chance.choice(visits(len(self.cluster.shape.machines)))
        self.cluster.master.tell("serve")
        answer = self.cluster.wire.visit(data)
        if answer:
            raise Difference(f"the master answers {answer.hex()} to {data.hex()}")
        self.cluster.master.expect(line)
        self.cluster.counts["visits"] += 1


def visits(machines):
    """What somebody may say to a master that is no round, and its line. The acknowledgements are those of a first boot that has heard nothing, so
    they change nothing."""
    master, agent, another = (MASTER, 0, 0), (AGENT, 0, 1), (AGENT, 1, 1)
    hello = bare_frame(ACK, agent, master)
    return [
        (b"", "round bad 1 Short"),
        (hello[:3], "round bad 1 Short"),
        (hello[:-1], "round bad 1 Short"),
        (hello + hello[:20], "round bad 2 Short"),
        (bare_frame(ACK, agent, master, length=43), "round bad 1 Length 43"),
        (hello + bare_frame(END, agent, master, length=262189), "round bad 2 Length 262189"),
        (bare_frame(ACK, agent, master, version=2), "round bad 1 Version 2"),
        (bare_frame(9, agent, master), "round bad 1 Kind 9"),
        (bare_frame(END, agent, another), "round bad 1 Role"),
        (bare_frame(END, (AGENT, 0, 0), master), "round bad 1 Role"),
        (bare_frame(ACK, agent, master, place=(0, 1)), "round bad 1 Place"),
        (bare_frame(END, agent, master, place=(1, 0)), "round bad 1 Place"),
        (bare_frame(END, agent, master, length=45) + b"\0", "round bad 1 Body"),
        (bare_frame(END, (MASTER, 0, 1), agent), "round bad 1 Stranger"),
        (bare_frame(END, (AGENT, machines, 1), master), "round bad 1 Stranger"),
        (bare_frame(END, (APP, 255, 1), master), "round bad 1 Stranger"),
        (hello + bare_frame(END, another, master), "round bad 2 Stranger"),
    ]
