"""The streams of a tool: what it cannot write is an error of one line, and who stops reading is none."""

from __future__ import annotations

import os
import signal
import sys
from collections.abc import Callable
from typing import NoReturn

# As the program has it.
WRITE_FAULT = 5


def run(name: str, main: Callable[[], int]) -> NoReturn:
    """Runs a tool, and ends with its status once all is written."""
    signal.signal(signal.SIGPIPE, signal.SIG_DFL)
    try:
        status = main()
        sys.stdout.flush()
    except BrokenPipeError:
        # (who stops reading ends a tool that feeds programs, too, and so does not end by the signal)
        give_up_output()
        status = 128 + signal.SIGPIPE
    except OSError as why:
        # (what a tool opens it tells by itself, with the name of the file)
        if why.filename is not None:
            raise
        give_up_output()
        print(f"{name}: standard output cannot be written: {why.strerror}", file=sys.stderr)
        status = WRITE_FAULT
    sys.exit(status)


def give_up_output() -> None:
    """What still waits to be written goes nowhere."""
    os.dup2(os.open(os.devnull, os.O_WRONLY), sys.stdout.fileno())
