"""A replay that lives: it is told lines one after the other, and says what each printed, how many packets were sent, and the state."""

from __future__ import annotations

import contextlib
import os
import re
import select
import signal
import subprocess
from collections import deque
from collections.abc import Iterable

from shared.states import State

# A delivery of a packet that no run has: it is refused, and tells how many packets were sent. Behind it all is done that was told before.
QUESTION = f"deliver {2**64 - 1}"
ANSWER = "refused NoPacket "
# A run reads so many lines at most, of which the questions are some; before that it is run again without those that were asked.
MOST_LINES = 1_000_000
PIECE = 65536


class NotTaken(Exception):
    """The program did not take a line: the line, its number among those of the run (0 is the cluster), and why."""

    def __init__(self, line: str, place: int, why: str) -> None:
        super().__init__(why)
        self.line, self.place = line, place


class Group:
    """Lines without a question between them, and what they print. A delivery that may be refused, with the words of an answer, stands alone."""

    def __init__(self, may_be_refused: bool) -> None:
        self.may_be_refused, self.printed = may_be_refused, list[str]()
        # of each `show` among them the number of events so far, without questions
        self.shown: deque[int] = deque()

    def takes(self, line: str) -> bool:
        """Whether the line is what they print, and not the answer to the question behind them."""
        if line.startswith(ANSWER) and (self.printed or not self.may_be_refused):
            return False
        is_state = line.startswith("state ") and self.shown
        self.printed.append(f"state {self.shown.popleft()}" if is_state else line)
        return True


class Driver:
    """The lines so far, and the process that runs them."""

    def __init__(self, program: str, cluster_line: str, most_lines: int = MOST_LINES) -> None:
        # (whoever tells a program that has ended hears of it by the end of its output)
        signal.signal(signal.SIGPIPE, signal.SIG_IGN)
        self.program, self.lines, self.sent, self.most_lines = program, [cluster_line], 0, most_lines
        self.process: subprocess.Popen[bytes] | None = None
        self.is_open = False
        self.begin()

    def __enter__(self) -> Driver:
        return self

    def __exit__(self, *_: object) -> None:
        self.close()

    @property
    def events(self) -> int:
        return len(self.lines) - 1

    # What a user asks.

    def tell(self, *lines: str) -> None:
        """Hands it lines, and waits for nothing."""
        for line in lines:
            self.make_room()
            may_be_refused = self.may_be_refused(line)
            if may_be_refused or self.is_last_alone():
                self.question()
            if not self.is_open:
                self.groups.append(Group(may_be_refused))
                self.is_open = True
            self.lines.append(line)
            self.write(line, len(self.lines) - 1)
            if line.split() == ["show"]:
                self.groups[-1].shown.append(self.events)
            if len(self.unwritten) > PIECE:
                self.pump()

    def ask(self) -> list[str]:
        """All that was printed since this was asked last; behind it `sent` is the number of packets."""
        self.wait()
        printed = [line for group in self.done for line in group.printed]
        self.done.clear()
        return printed

    def take(self, lines: Iterable[str]) -> list[tuple[str, list[str]]]:
        """Does these lines, and answers each with what it printed."""
        told = list(lines)
        self.ask()
        for line in told:
            self.tell(line)
            self.question()
        self.wait()
        printed = [group.printed for group in self.done]
        self.done.clear()
        return list(zip(told, printed))

    def state_lines(self) -> list[str]:
        """The lines of the state, which are no event of the run."""
        self.wait()
        self.make_room()
        self.groups.append(Group(False))
        self.groups[-1].shown.append(self.events)
        self.is_open = True
        self.write("show", self.events)
        self.wait()
        return self.done.pop().printed

    def state(self) -> State:
        return State(self.state_lines())

    def close(self) -> None:
        if self.process:
            self.process.kill()
            self.process.wait()
            for pipe in (self.process.stdin, self.process.stdout, self.process.stderr):
                if pipe:
                    with contextlib.suppress(BrokenPipeError):
                        pipe.close()
            self.process = None

    # The process.

    def begin(self) -> None:
        """Starts the program, and hands it the lines so far."""
        process = subprocess.Popen([self.program, "replay"], bufsize=0, stdin=subprocess.PIPE, stdout=subprocess.PIPE, stderr=subprocess.PIPE)
        assert process.stdin and process.stdout
        self.process, self.stdin, self.stdout = process, process.stdin.fileno(), process.stdout.fileno()
        os.set_blocking(self.stdin, False)
        self.unwritten, self.unread = bytearray(), b""
        self.groups: deque[Group] = deque()
        self.done: list[Group] = []
        # of each line that it was told, the number of the last of the run's own
        self.places: list[int] = []
        self.is_open = False
        self.write(self.lines[0], 0)
        if self.events:
            self.run_again()

    def run_again(self) -> None:
        """Tells a process that was just started all lines of the run, of which nobody asks any more what they print."""
        for place, line in enumerate(self.lines[1:], 1):
            self.write(line, place)
            if len(self.unwritten) > PIECE:
                self.skip(None)
        self.write("show", self.events)
        # (no state that a line of the run prints has so many events)
        self.skip(f"state {self.events + 1}")
        self.skip("packets ")

    def skip(self, behind: str | None) -> None:
        """Writes what waits, and drops what is printed: up to a line that begins so."""
        while True:
            *lines, rest = self.unread.split(b"\n")
            for place, line in enumerate(lines):
                if behind and line.decode("latin-1").startswith(behind):
                    self.unread = b"\n".join([*lines[place + 1 :], rest])
                    return
            self.unread = rest
            if behind is None and not self.unwritten:
                return
            self.move()

    def make_room(self) -> None:
        """A process that was told nearly as many lines as it reads is followed by one that is told those of the run alone."""
        if not self.process or len(self.places) + 4 > self.most_lines:
            kept = self.done if self.process else []
            if self.process:
                self.wait()
                self.close()
            self.begin()
            self.done = kept

    def write(self, line: str, place: int) -> None:
        self.unwritten += line.encode("latin-1") + b"\n"
        self.places.append(place)

    def may_be_refused(self, line: str) -> bool:
        """Whether the line names packets that may not be there: it is refused then with the words of an answer."""
        words = line.split()
        return words[:1] in (["deliver"], ["dump"]) and not all(it.isdigit() and int(it) <= self.sent for it in words[1:])

    def is_last_alone(self) -> bool:
        return self.is_open and self.groups[-1].may_be_refused

    def question(self) -> None:
        """Ends a group of lines."""
        if self.is_open:
            self.write(QUESTION, self.events)
            self.is_open = False

    def wait(self) -> None:
        """Waits until all is done that was told."""
        if self.process:
            self.question()
            while self.groups:
                self.move()

    def pump(self) -> None:
        """Writes what waits, and reads what comes meanwhile: neither side waits for ever for the other."""
        while self.unwritten:
            self.move()

    def move(self) -> None:
        """Writes and reads some bytes."""
        reads, writes, _ = select.select([self.stdout], [self.stdin] if self.unwritten else [], [])
        if writes:
            try:
                del self.unwritten[: os.write(self.stdin, self.unwritten[:PIECE])]
            except BlockingIOError:
                pass
            except BrokenPipeError:
                # (it has ended: its output says so)
                self.unwritten.clear()
        if reads:
            piece = os.read(self.stdout, PIECE)
            if not piece:
                raise self.ended()
            self.hear(piece)

    def hear(self, piece: bytes) -> None:
        *lines, self.unread = (self.unread + piece).split(b"\n")
        for place, line in enumerate(lines):
            if not self.groups:
                self.unread = b"\n".join([*lines[place:], self.unread])
                return
            text = line.decode("latin-1")
            if not self.groups[0].takes(text):
                self.sent = int(text[len(ANSWER) :])
                self.done.append(self.groups.popleft())

    def ended(self) -> NotTaken:
        """Why the program has ended. The run is then that of the lines before, and goes on from there."""
        assert self.process and self.process.stderr
        said = self.process.stderr.read().decode(errors="replace").strip()
        self.close()
        found = re.match(r"line (\d+): (.+)", said)
        place = self.places[int(found[1]) - 1] if found else self.events
        line = self.lines[place]
        del self.lines[max(1, place) :]
        return NotTaken(line, place, found[2] if found else said)
