"""Proves one crate after the other, lowest first, as many side by side as there are processors.

A library is proved and written by the toolchain's `rattle build`, with its statements alone: those above it then load no proof again. The command
`rt lib` of the toolchain would do the same in a repository, but keeps whole proofs, and locks the folders of all crates below. The program is proved,
compiled and linked by `rt run`."""

import os
import shutil
import signal
import subprocess
import threading
import time
from concurrent.futures import FIRST_COMPLETED, ThreadPoolExecutor, wait

from shared import kept, toolchain
from shared.crates import TOP, below, direct, listed, own_sum, program_of, sources, sum_file, sum_of

# So much memory a run may take, by a rule of thumb.
BYTES_FOR_A_RUN = 3 << 30
# Seconds for a crate, and for each line of its code.
BASE_SECONDS, LINE_SECONDS = 20.0, 0.12


class NotProved(Exception):
    """A crate was not proved: its name, and what the toolchain said last."""


def workers():
    """How many runs have a processor and memory."""
    memory = os.sysconf("SC_PAGE_SIZE") * os.sysconf("SC_PHYS_PAGES")
    return max(1, min(len(os.sched_getaffinity(0)), memory // BYTES_FOR_A_RUN))


def forget_sums():
    """Sources are read again for the next sum."""
    own_sum.cache_clear()


class Build:
    """A program with all crates below it."""

    def __init__(self, name, room, say):
        self.name, self.room, self.say = name, room, say
        self.version, self.libraries = toolchain.version(), below(name)
        self.sums = {it: sum_of(it, self.version) for it in [*self.libraries, name]}
        self.moment, self.running, self.lock, self.spent = time.time(), set(), threading.Lock(), {}
        self.is_stopped, self.kit = False, toolchain.folder()

    def copy_sources(self):
        """One copy of all sources, so that an edit meanwhile is no matter."""
        for it in self.sums:
            for path in sources(it):
                target = f"{self.room}/sources/{os.path.relpath(path, TOP)}"
                os.makedirs(os.path.dirname(target), exist_ok=True)
                shutil.copyfile(path, target)
        forget_sums()
        if any(sum_of(it, self.version) != made_of for it, made_of in self.sums.items()):
            raise NotProved("the sources change while they are copied: begin again")

    def seconds(self, name):
        """About how long a crate takes, before anything is known of this machine."""
        lines = 0
        for path in sources(name):
            if path.endswith(".rt"):
                with open(path, "rb") as file:
                    lines += file.read().count(b"\n")
        return BASE_SECONDS + LINE_SECONDS * lines

    def call(self, words, folder):
        """Runs a command of the toolchain and answers what it said; it ends with this build, however that ends."""
        began = time.monotonic()
        with self.lock:
            if self.is_stopped:
                raise NotProved("stopped")
            run = subprocess.Popen(words, cwd=folder, stdin=subprocess.DEVNULL, stdout=subprocess.PIPE, stderr=subprocess.STDOUT, text=True, errors="replace", start_new_session=True)
            self.running.add(run)
        said = run.communicate()[0]
        with self.lock:
            self.running.discard(run)
        return run.returncode, said, time.monotonic() - began

    def stop(self):
        with self.lock:
            self.is_stopped = True
            for run in self.running:
                try:
                    os.killpg(run.pid, signal.SIGKILL)
                except ProcessLookupError:
                    pass

    def libraries_of(self, name):
        """The words that name the libraries of a crate: those of the toolchain, those of this checkout, and where the ones below them are."""
        words = []
        for it in ["std", *(it for it in listed()[name] if it not in listed())]:
            words += ["--extern", f"{it}={self.kit}/rlibs/{it}.rlib"]
        for it in direct(name):
            words += ["--extern", f"{it}={kept.place(it, self.sums[it])}/{it}.rlib"]
        for it in below(name):
            words += ["-L", f"dependency={kept.place(it, self.sums[it])}"]
        return words

    def prove_library(self, name):
        made = f"{self.room}/{name}"
        os.mkdir(made)
        words = [f"{self.kit}/bin/rattle", "build", "--crate-name", name, "src/lib.rt", *self.libraries_of(name), "-L", f"dependency={self.kit}/rlibs"]
        words += ["--antt-project", f"{self.kit}/rattle/logic/antt-project.json", "--logic-built", f"{self.kit}/logic_built", "--jobs", "1", "--statements"]
        status, said, self.spent[name] = self.call([*words, "-o", f"{made}/{name}.rlib"], f"{self.room}/sources/crates/{name}")
        if status or "\nlogic=proved " not in f"\n{said}":
            raise NotProved(f"{name} was not proved:\n{last_lines(said)}")
        kept.keep(name, self.sums[name], made)

    def prove_program(self):
        """Proves, compiles and links the program, in a small repository of its own."""
        folder = f"{self.room}/program/crates/{self.name}"
        shutil.copytree(f"{self.room}/sources/crates/{self.name}", folder)
        shutil.copyfile(f"{TOP}/HANDLES", f"{self.room}/program/HANDLES")
        with open(f"{self.room}/program/crates.txt", "w", encoding="utf-8") as file:
            file.write(f"{self.name}:\n")
        # (run with a word that is no command, so that it reads nothing and only says how it is used)
        _, said, self.spent[self.name] = self.call(["rt", "run", "--jobs", "1", *self.libraries_of(self.name)[2:], "--", "-"], folder)
        made = f"{folder}/out/{self.name}"
        if not os.access(made, os.X_OK):
            raise NotProved(f"{self.name} was not proved, compiled and linked:\n{last_lines(said)}")
        self.place(made)

    def place(self, made):
        """Puts the program where the launcher looks. Its time is that of the sources, so that an edit meanwhile is newer."""
        program = program_of(self.name)
        os.makedirs(os.path.dirname(program), exist_ok=True)
        shutil.copyfile(made, f"{program}.new")
        os.chmod(f"{program}.new", 0o755)
        os.utime(f"{program}.new", (self.moment, self.moment))
        with open(sum_file(self.name), "w", encoding="utf-8") as file:
            file.write(self.sums[self.name])
        os.replace(f"{program}.new", program)

    def prove_all(self, side_by_side):
        """Proves all libraries that are not kept, those with the longest chain above them first, and then the program."""
        done = {it for it in self.libraries if kept.has(it, self.sums[it])}
        progress = Progress(self, done, side_by_side)
        left = sorted((it for it in self.libraries if it not in done), key=progress.chains.get, reverse=True)
        self.copy_sources()
        futures = {}
        with ThreadPoolExecutor(side_by_side) as pool:
            try:
                while left or futures:
                    for it in [it for it in left if done.issuperset(below(it))][: side_by_side - len(futures)]:
                        left.remove(it)
                        futures[pool.submit(self.prove_library, it)] = it
                    for ended in wait(futures, return_when=FIRST_COMPLETED).done:
                        name = futures.pop(ended)
                        ended.result()
                        done.add(name)
                        progress.tell(name)
            except BaseException:
                self.stop()
                raise
        self.prove_program()


def last_lines(said):
    return "\n".join(said.splitlines()[-30:])


class Progress:
    """How many crates are done of all, and about how many minutes are left."""

    def __init__(self, build, done, side_by_side):
        self.build, self.done, self.side_by_side = build, done, side_by_side
        self.guesses = {it: build.seconds(it) for it in build.sums if it not in done}
        above = {it: [other for other in self.guesses if it in direct(other)] for it in self.guesses}
        self.chains = {}
        for it in reversed(list(self.guesses)):
            self.chains[it] = self.guesses[it] + max((self.chains[other] for other in above[it]), default=0)
        build.say(f"{len(build.sums)} crates, of which {len(done)} are kept from before; {side_by_side} side by side; {self.left()}")

    def pace(self):
        """How much longer than guessed the crates took that are done."""
        spent = self.build.spent
        guessed = sum(self.guesses[it] for it in spent)
        return sum(spent.values()) / guessed if guessed else 1.0

    def left(self):
        rest = {it: guess for it, guess in self.guesses.items() if it not in self.done}
        seconds = max(sum(rest.values()) / self.side_by_side, max((self.chains[it] for it in rest), default=0))
        minutes = self.pace() * seconds / 60
        return f"about {minutes:.0f} minutes left" if minutes >= 1 else "less than a minute left"

    def tell(self, name):
        self.build.say(f"{len(self.done)} of {len(self.build.sums)}: {name}, {self.build.spent[name]:.0f} s; {self.left()}")
