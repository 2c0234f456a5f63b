"""Long tests in parts, each a function part_NAME that has a folder and options."""
from __future__ import annotations

from collections.abc import Callable
import signal
import sys
import tempfile
import time
from typing import Any

from tests.lib.figures import notify

PREFIX = "part_"


def parts_of(names: dict[str, Any]) -> dict[str, Callable[[str, dict], None]]:
    """The parts among the names of a module."""
    return {name.removeprefix(PREFIX): names[name] for name in names if name.startswith(PREFIX)}


def do_parts(parts: dict[str, Callable], names: list[str], options: dict, title: str) -> None:
    """Does the parts that are named, or all, and says how long each took. A SIGTERM ends it as a failure does."""
    signal.signal(signal.SIGTERM, lambda *_: sys.exit(143))
    with tempfile.TemporaryDirectory(prefix=f"{title}-") as folder:
        for name in names or parts:
            begun = time.monotonic()
            parts[name](folder, options)
            notify(f"({name} took {time.monotonic() - begun:.0f} s)")
