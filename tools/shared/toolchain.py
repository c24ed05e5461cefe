"""The toolchain's command `rt`, by what it says of itself."""

from __future__ import annotations

import os
import shutil
import subprocess
import sys
from typing import NoReturn

# A launcher ends with this where there is no program to run; the program itself never does.
NO_PROGRAM = 126


def fail(name: str, why: str, status: int = NO_PROGRAM) -> NoReturn:
    print(f"{name}: {why}", file=sys.stderr)
    sys.exit(status)


def is_there() -> bool:
    return shutil.which("rt") is not None


def folder() -> str:
    """Where the toolchain is: its first page stands at its top."""
    page = subprocess.run(["rt", "doc"], stdin=subprocess.DEVNULL, capture_output=True, text=True).stdout.strip()
    return os.path.dirname(page)


def version() -> str:
    """The line by which a toolchain is told from any other, or nothing where there is none."""
    if not is_there():
        return ""
    return subprocess.run(["rt", "version"], stdin=subprocess.DEVNULL, capture_output=True, text=True).stdout.strip()
