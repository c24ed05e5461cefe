"""How a run of processes is asked to end: Ctrl-C, a unit that is stopped, a terminal that is closed."""

from __future__ import annotations

import contextlib
import ctypes
import os
import signal
from collections.abc import Iterator
from types import FrameType
from typing import Any

# prctl's word for the signal that a process gets when its parent ends.
SET_PARENT_DEATH_SIGNAL = 1
LIBRARY = ctypes.CDLL(None)


# Ctrl-C, a unit that is stopped, a terminal that is closed.
ENDINGS = (signal.SIGINT, signal.SIGTERM, signal.SIGHUP)


class BrokenOff(BaseException):
    """A signal came that ends the run at once. (No `except Exception` on its way takes it for a fault of its own.)"""


class Ending:
    """The signals so far. Within `gently` the first one is a flag that the run reads between its rounds, and the second one breaks it off;
    before it the first one does. Once the run is broken off, and behind `gently`, no signal disturbs what is cleared away."""

    def __init__(self) -> None:
        self.is_asked, self.is_gentle, self.is_closing = False, False, False
        for number in ENDINGS:
            signal.signal(number, self.take)

    def take(self, number: int, _: FrameType | None) -> None:
        if self.is_closing:
            return
        if self.is_gentle and not self.is_asked:
            self.is_asked = True
            return
        self.is_closing = True
        raise BrokenOff(f"broken off by {signal.Signals(number).name}")

    @contextlib.contextmanager
    def gently(self) -> Iterator[None]:
        self.is_gentle = True
        try:
            yield
        finally:
            self.close()

    def close(self) -> None:
        """From here on the system drops the signals: a handler would live only until the interpreter begins to end, and a signal that falls
        behind that would kill it, with a status that says so."""
        self.is_closing = True
        for number in ENDINGS:
            signal.signal(number, signal.SIG_IGN)


def end_with(parent: int) -> None:
    """For the side of a new process: it ends when the process that started it does, however that ends."""
    LIBRARY.prctl(SET_PARENT_DEATH_SIGNAL, signal.SIGKILL, 0, 0, 0)
    if os.getppid() != parent:
        os._exit(1)


def leashed() -> dict[str, Any]:
    """The words for `Popen` of a process that does not outlive this one. (A session of its own: Ctrl-C at a terminal is for whoever drives it.)"""
    parent = os.getpid()
    return {"start_new_session": True, "preexec_fn": lambda: end_with(parent)}
