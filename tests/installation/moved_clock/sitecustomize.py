"""A clock whose days a test moves on, for commands in Python that find this folder in PYTHONPATH. The file that MOVED_CLOCK names has a
line for each move: since which second, and how many seconds the clock is ahead from then on. A file's times are what the clock showed
when it was written."""
from __future__ import annotations

from typing import Any
import bisect
import os
import time

now, localtime, gmtime, strftime, stat = (
    time.time,
    time.localtime,
    time.gmtime,
    time.strftime,
    os.stat,
)


class Moves:
    """What the file has, read again when it is longer."""

    def __init__(self, path: str) -> None:
        self.path, self.size = path, 0
        self.since: list[float] = []
        self.ahead: list[float] = []

    def shown(self, second: float) -> float:
        """What the clock shows at a second of the host's."""
        if stat(self.path).st_size != self.size:
            with open(self.path) as file:
                lines = file.read()
            self.size = len(lines)
            self.since, self.ahead = zip(*(map(float, line.split()) for line in lines.splitlines()))
        place = bisect.bisect_right(self.since, second)
        return second + self.ahead[place - 1] if place else second


class Times:
    """What is known of a file, with its times as the clock showed them."""

    def __init__(self, found: os.stat_result, moves: Moves) -> None:
        self.found, self.moves = found, moves

    def __getattr__(self, name: str) -> Any:
        value = getattr(self.found, name)
        return self.moves.shown(value) if name in ("st_mtime", "st_ctime", "st_atime") else value

    def __getitem__(self, place: int) -> Any:
        return self.found[place]


def move(moves: Moves) -> None:
    """Has this process take the clock for the host's."""
    time.time = lambda: moves.shown(now())
    time.gmtime = lambda second=None: gmtime(time.time() if second is None else second)
    time.localtime = lambda second=None: localtime(time.time() if second is None else second)
    time.strftime = lambda text, when=None: strftime(text, when or time.localtime())
    for name in ("stat", "lstat", "fstat"):
        setattr(os, name, lambda *given, of=getattr(os, name), **more: Times(of(*given, **more), moves))  # fmt: skip


if "MOVED_CLOCK" in os.environ:
    move(Moves(os.environ["MOVED_CLOCK"]))
