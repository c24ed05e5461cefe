"""Commands to a living cluster, by a socket in its folder: one line, and its answer."""

from __future__ import annotations

import contextlib
import errno
import fcntl
import os
import socket
import time
from collections.abc import Callable, Iterable

from shared.commands import NotDone, answered, checked, with_epoch
from shared.line_faults import BAD_INPUT
from shared.living import Living
from shared.parties import Party
from shared.processes import Difference

# A node that is in a round answers once that has ended.
TELL_SECONDS = 60.0
# Who dials and says nothing for so long is let go, and so is who does not take its answer.
SILENT_SECONDS, TAKE_SECONDS = 20.0, 5.0
# The last line of an answer.
STATUS = "status"
PLAIN = ("help", "cluster", "avoided", "end")
HELP = [
    "show · show agent M · show app A         what the master, an agent or an application prints",
    "submit * JOB GROUP P Q .. · finish * JOB",
    "ban * M · unban * M · preempt * · begin *    (`*` is the epoch, and may be left out)",
    "want JOB U N · near JOB U M N · rack JOB U R N · avoid JOB U M X · back JOB U M N",
    "kill master · kill agent M · kill app JOB    the party is started again",
    "cluster · avoided · end · help           the line of the cluster; what jobs avoid; the end of it all",
]


# What answers a line.
Answer = Callable[[str], list[str]]


def unanswered(line: str) -> list[str]:
    """Before there is anything to answer of."""
    raise NotDone([f"nobody can answer {line!r} yet"])


class Caller:
    """Who has dialed: what it has said so far. Nobody waits for it."""

    def __init__(self, side: socket.socket) -> None:
        self.side, self.said, self.limit = side, b"", time.monotonic() + SILENT_SECONDS
        side.setblocking(False)

    def line(self) -> str | None:
        """Its line once that is whole, or None; `OSError` where none comes any more."""
        try:
            piece = self.side.recv(65536)
        except BlockingIOError:
            if time.monotonic() > self.limit:
                raise
            return None
        self.said += piece
        if piece and b"\n" not in self.said:
            return None
        return self.said.partition(b"\n")[0].decode("latin-1").strip()

    def tell(self, lines: Iterable[str]) -> None:
        self.side.settimeout(TAKE_SECONDS)
        self.side.sendall("".join(f"{it}\n" for it in lines).encode("latin-1", "replace"))


class Listener:
    """The socket `control` of a folder: each that comes has one line, which `answer` answers by lines. The folder is locked for as long as the
    process runs, so a socket that stands there is one that a process left which was killed."""

    def __init__(self, folder: str, answer: Answer | None = None) -> None:
        self.path, self.callers = os.path.join(folder, "control"), list[Caller]()
        self.answer: Answer = answer or unanswered
        self.lock = lock_of(folder)
        if os.path.exists(self.path):
            os.remove(self.path)
        self.socket = socket.socket(socket.AF_UNIX, socket.SOCK_STREAM)
        self.socket.bind(self.path)
        self.socket.listen()
        self.socket.setblocking(False)

    def serve(self) -> None:
        """Answers who has come, and has said its line."""
        with contextlib.suppress(BlockingIOError):
            while True:
                self.callers.append(Caller(self.socket.accept()[0]))
        self.callers = [it for it in self.callers if not self.is_served(it)]

    def is_served(self, caller: Caller) -> bool:
        """Whether this one has its answer, or is gone. Behind the answer stands a line `status N`: 0 where the command was done."""
        try:
            line = caller.line()
            if line is None:
                return False
            try:
                lines, status = self.answer(line), 0
            except NotDone as why:
                lines, status = why.lines, why.status
            caller.tell([*lines, f"{STATUS} {status}"])
        except OSError:
            pass
        caller.side.close()
        return True

    def close(self) -> None:
        for it in self.callers:
            it.side.close()
        self.socket.close()
        if os.path.exists(self.path):
            os.remove(self.path)
        os.close(self.lock)


def lock_of(folder: str) -> int:
    """Holds the folder for this process, and answers what holds it."""
    held = os.open(folder, os.O_RDONLY | os.O_DIRECTORY)
    try:
        fcntl.flock(held, fcntl.LOCK_EX | fcntl.LOCK_NB)
    except BlockingIOError:
        os.close(held)
        raise Difference(f"another node or cluster runs in {folder}: each has a folder of its own") from None
    except OSError:
        # (not every shared file system locks a folder; a master's file has a lock of its own)
        pass
    return held


class Control:
    """Commands to a living cluster, which comes to it once it lives."""

    def __init__(self, folder: str) -> None:
        self.listener, self.is_ended = Listener(folder, self.answer), False
        self.present: Living | None = None

    @property
    def living(self) -> Living:
        if not self.present:
            raise NotDone(["the cluster starts"])
        return self.present

    def serve(self) -> None:
        self.listener.serve()

    def close(self) -> None:
        self.listener.close()

    def answer(self, line: str) -> list[str]:
        """What comes of a command. A node that ends over its line is started again."""
        try:
            return self.done(line)
        except Difference as why:
            if not self.living.mend():
                raise
            raise NotDone([str(why), "started again"]) from None

    def done(self, line: str) -> list[str]:
        living, words = self.living, line.split()
        if line in PLAIN:
            lines: list[str] = getattr(self, line)()
            return lines
        if words[:1] == ["kill"]:
            return self.kill(*words[1:])
        if words[:1] == ["show"] and len(words) > 1:
            return self.party(*words[1:3]).running.show()
        if words[:1] == ["submit"]:
            return self.submit(self.checked(with_epoch(line, living.epoch), "master"))
        if words[:1] in [[it] for it in ("want", "near", "rack", "avoid", "back")]:
            self.checked(line, "app")
            return answered(living.demand(self.party("app", words[1]), line))
        return answered(living.ask_master(self.checked(with_epoch(line, living.epoch), "master")))

    def checked(self, line: str, kind: str) -> str:
        return checked(self.living.program, self.living.shape.line(), line, kind)

    def help(self) -> list[str]:
        return HELP

    def cluster(self) -> list[str]:
        return [self.living.shape.line()]

    def avoided(self) -> list[str]:
        """What applications avoid, as they were told it."""
        return [f"avoid {job} {unit} {machine}" for job, app in sorted(self.living.apps.items()) for unit, machine in sorted(app.avoided)]

    def end(self) -> list[str]:
        self.is_ended = True
        return ["ends"]

    def party(self, kind: str, number: str) -> Party:
        """The party that a command names."""
        parties: dict[str, dict[int, Party]] = {"agent": dict(enumerate(self.living.agents)), "app": self.living.apps}
        if kind not in parties or not number.isdigit():
            raise NotDone([f"no such command here: {kind} {number}; `help` lists them"], BAD_INPUT)
        if int(number) not in parties[kind]:
            raise NotDone([f"refused NotRunning: there is no {kind} {number}"])
        return parties[kind][int(number)]

    def submit(self, line: str) -> list[str]:
        """A job, and its application. One that is refused leaves the job as it was that had its number."""
        jobs, (_, _, number, *rest) = self.living.jobs, line.split()
        job = int(number)
        before = jobs.submitted.get(job)
        jobs.submitted[job] = " ".join([number, *rest])
        jobs.demands.setdefault(job, [])
        refused = self.living.submit(job)
        if refused and before is None:
            del jobs.submitted[job], jobs.demands[job]
        elif refused and before is not None:
            jobs.submitted[job] = before
        return answered(refused)

    def kill(self, *words: str) -> list[str]:
        if words == ("master",):
            self.living.kill_master()
        elif len(words) == 2:
            self.living.restart(self.party(*words))
        else:
            raise NotDone(["kill takes master, agent M or app A"], BAD_INPUT)
        return ["killed, and started again"]


def unreached(folder: str, why: OSError) -> str:
    """Why a command was not answered."""
    is_nobody = why.errno in (errno.ENOENT, errno.ENOTDIR, errno.ECONNREFUSED)
    return f"{'no cluster runs in ' if is_nobody else ''}{folder}: {why.strerror or why}"


def tell(folder: str, line: str) -> tuple[int, str]:
    """Hands a command to the cluster or the node of a folder: the status, and what it says."""
    with socket.socket(socket.AF_UNIX, socket.SOCK_STREAM) as side:
        side.settimeout(TELL_SECONDS)
        side.connect(os.path.join(folder, "control"))
        side.sendall(f"{line}\n".encode())
        side.shutdown(socket.SHUT_WR)
        try:
            said, _, last = side.makefile(errors="replace", newline="\n").read().rstrip("\n").rpartition("\n")
        except socket.timeout:
            raise OSError(errno.ETIMEDOUT, f"it does not answer within {TELL_SECONDS:.0f} seconds") from None
    if not last.startswith(f"{STATUS} "):
        raise OSError(errno.ECONNRESET, "it ended over the command")
    return int(last.split()[1]), f"{said}\n" if said else ""
