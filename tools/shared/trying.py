"""A program without its proof, for who has not built it. `rt try` of the toolchain compiles all its crates with tests of each step (an index, a sum,
an unwrap, an access) and no proof, runs it over a folder of cases, and throws it away again. While a case runs, a copy of the program is taken. It
is kept beside the libraries of a build, under the sum of all that it is made of."""

from __future__ import annotations

import fcntl
import glob
import os
import shutil
import subprocess
import tempfile
import time
from collections.abc import Callable

from shared import kept, toolchain
from shared.crates import TOP, sum_of

# How many inputs there are, which are all empty: the copy is taken at one of the first.
CASES = 200
# A run over a case takes some twenty times as long.
LOOK_SECONDS = 0.002
# So many programs without a proof are kept, of all checkouts of one user.
MOST_KEPT = 4


class NotMade(Exception):
    """There is no program, and what the toolchain said last."""


def folder() -> str:
    return f"{kept.folder()}/unproved"


def place(name: str) -> str:
    return f"{folder()}/{name}-{sum_of(name, toolchain.version())[:32]}"


def program(name: str, say: Callable[[str], None]) -> str:
    """The program of the present sources without its proof. Where none is kept it is made, which takes a minute."""
    made = place(name)
    os.makedirs(folder(), exist_ok=True)
    with open(f"{folder()}/lock", "w", encoding="utf-8") as lock:
        # (who comes meanwhile waits, and takes what was made)
        fcntl.flock(lock, fcntl.LOCK_EX)
        if not os.access(made, os.X_OK):
            say("it is compiled without its proof now, once, which takes about a minute")
            make(name, made)
            forget_oldest()
    os.utime(made)
    return made


def make(name: str, made: str) -> None:
    with tempfile.TemporaryDirectory(prefix="fuxi-") as room:
        for part in ("cases", "runs"):
            os.mkdir(f"{room}/{part}")
        for number in range(CASES):
            open(f"{room}/cases/{number}", "wb").close()
        with open(f"{room}/said", "wb") as said:
            words, environment = ["rt", "try", "--cases", f"{room}/cases"], {**os.environ, "TMPDIR": f"{room}/runs"}
            run = subprocess.Popen(words, cwd=f"{TOP}/crates/{name}", env=environment, stdin=subprocess.DEVNULL, stdout=subprocess.DEVNULL, stderr=said, start_new_session=True)
        try:
            while not take(f"{room}/runs", f"{made}.new"):
                if run.poll() is not None:
                    raise NotMade(last_lines(f"{room}/said"))
                time.sleep(LOOK_SECONDS)
        finally:
            end(run)
    os.chmod(f"{made}.new", 0o755)
    os.replace(f"{made}.new", made)


def take(runs: str, copy: str) -> bool:
    """Copies the program of a run, if there is one: it is whole once the file for its output stands beside it, and goes when the run has ended."""
    for output in glob.glob(f"{runs}/**/stdout", recursive=True):
        try:
            with open(f"{os.path.dirname(output)}/program", "rb") as made, open(copy, "wb") as file:
                shutil.copyfileobj(made, file)
            return True
        except FileNotFoundError:
            pass
    return False


def last_lines(path: str) -> str:
    with open(path, encoding="utf-8", errors="replace") as said:
        return "".join(said.readlines()[-30:]).strip() or "rt try said nothing"


def end(run: subprocess.Popen[bytes]) -> None:
    """Ends `rt try`, which ends what it has started and takes its folder away."""
    run.terminate()
    try:
        run.wait(20)
    except subprocess.TimeoutExpired:
        run.kill()
        run.wait()


def forget_oldest() -> None:
    programs = sorted((it for it in os.scandir(folder()) if it.name != "lock"), key=lambda it: it.stat().st_mtime, reverse=True)
    for it in programs[MOST_KEPT:]:
        os.remove(it.path)
