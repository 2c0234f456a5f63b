"""Libraries of Debian that only some options need. Where this Python has none the system's may have it."""
from __future__ import annotations

from typing import NamedTuple
import importlib
import os
import subprocess
import sys

from gathjumli.cli import FILE_FAILED, Failure

SYSTEM = "/usr/bin/python3"


class Library(NamedTuple):
    """What is imported, which trial shows that it is new enough, and what is said if it is not there."""

    module: str
    trial: str
    missing: str


# what carries pages, and what reaches a store
PAGES = Library(
    "websockets.legacy.server",
    "import sys, websockets.legacy.server, websockets.version as found; sys.exit(int(found.version.split('.')[0]) < 10)",
    "pages need the library websockets, version 10 or later: apt-get install python3-websockets",
)
STORE = Library(
    "psycopg",
    "import sys, psycopg; sys.exit(int(psycopg.__version__.split('.')[0]) < 3)",
    "a store needs the library psycopg, version 3, and a PostgreSQL server: apt-get install python3-psycopg postgresql",
)


def need(*libraries: Library) -> None:
    """Goes on under the system's Python if this one has not all of these libraries; fails if neither has."""
    if all(map(is_here, libraries)):
        return
    is_system = os.path.realpath(sys.executable) == os.path.realpath(SYSTEM)
    for library in libraries:
        words = [SYSTEM, "-c", library.trial]
        if is_system and not is_here(library) or subprocess.run(words, stderr=subprocess.DEVNULL).returncode:  # fmt: skip
            raise Failure(FILE_FAILED, library.missing)
    sys.stdout.flush()
    os.execv(SYSTEM, [SYSTEM, *sys.argv])


def is_here(library: Library) -> bool:
    try:
        importlib.import_module(library.module)
        return True
    except ImportError:
        return False
