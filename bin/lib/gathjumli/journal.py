"""What happens in an installation, line by line, for everybody who wants to know."""
from __future__ import annotations

from typing import Any
import collections
import contextlib
import os
import queue
import threading
import time

from gathjumli.figures import Data

MOST_UNREAD_LINES = 1000
MOST_PAST_LINES = 40
TIME = "%H:%M:%S"
DATE_AND_TIME = "%Y-%m-%d %H:%M:%S"


def printable(text: str) -> str:
    """A text without what a terminal, or a reader of lines, takes for something else: names of files are of others' making."""
    return "".join(item if item.isprintable() else "?" for item in text)


def amount(count: int, what: str) -> str:
    """So many of what is named by a word."""
    return f"{count} {what}{'s' * (count != 1)}"


class Outlet:
    """A file descriptor to which lines go, by a thread of its own. If nobody reads there nobody waits for that; how many lines are
    lost is said."""

    def __init__(
        self, handle: Any, time_format: Any = TIME, prefix: Any = "", farewell: str = ""
    ) -> None:
        self.handle = handle
        # what is put last if the installation ends as it was asked to
        self.farewell = farewell
        self.time_format = time_format
        self.prefix = prefix
        # whether whoever reads has gone
        self.is_gone = False
        self.lines = queue.Queue(MOST_UNREAD_LINES)
        self.lost = 0
        self.thread = threading.Thread(target=self.write_all, daemon=True)
        self.thread.start()

    def put(self, text: Any, prefix: Any = None) -> None:
        line = printable(str(text))
        prefix = self.prefix if prefix is None else prefix
        shown = line if isinstance(text, Data) else f"{self.now()} {line}"
        try:
            if self.lost:
                self.lines.put_nowait(f"{prefix}{self.now()} ({self.lost} lines are lost)")
                self.lost = 0
            self.lines.put_nowait(f"{prefix}{shown}")
        except queue.Full:
            self.lost += 1

    def show_past(self, lines: list[tuple[float, str]]) -> None:
        """Shows lines of before, each with its time."""
        for when, text in lines:
            at = time.strftime(self.time_format, time.localtime(when))
            self.put_as_is(f"{self.prefix}{at} {printable(text)}")

    def put_as_is(self, line: bytes) -> None:
        with contextlib.suppress(queue.Full):
            self.lines.put_nowait(line)

    def now(self) -> Any:
        return time.strftime(self.time_format)

    def write_all(self) -> None:
        while (line := self.lines.get()) is not None:
            data = f"{line}\n".encode(errors="surrogateescape")
            # not by sys.stdout, whose lock would be kept while nobody reads; and perhaps nobody is there any more
            with contextlib.suppress(OSError):
                while data:
                    data = data[os.write(self.handle, data) :]

    def close(self, seconds: int = 1) -> None:
        with contextlib.suppress(queue.Full):
            self.lines.put_nowait(None)
            self.thread.join(seconds)


class Journal:
    """Says all outlets what happens: standard output, the operators, and a file with dates where one is asked for."""

    def __init__(self, path: str = None) -> None:
        self.outlets = [Outlet(1)]
        # what a new operator sees of before
        self.past: collections.deque[tuple[float, str]] = collections.deque(maxlen=MOST_PAST_LINES)
        self.lock = threading.Lock()
        self.path = path
        if path:
            self.file = self.opened()
            self.outlets.append(Outlet(self.file, DATE_AND_TIME))

    def opened(self) -> int:
        return os.open(self.path, os.O_WRONLY | os.O_APPEND | os.O_CREAT, 0o600)

    def reopen(self) -> None:
        """Goes on in the file of its path, which may be another one since it was moved away."""
        if self.path:
            handle = self.opened()
            os.dup2(handle, self.file)
            os.close(handle)

    def notify(self, text: str) -> None:
        with self.lock:
            self.past.append((time.time(), str(text)))
            for outlet in self.outlets:
                outlet.put(text)

    def add(self, outlet: Any) -> None:
        """Has an outlet show the last lines, and then all that follow."""
        with self.lock:
            outlet.show_past(list(self.past))
            self.outlets.append(outlet)

    def remove(self, outlet: Any) -> None:
        with self.lock, contextlib.suppress(ValueError):
            self.outlets.remove(outlet)

    def say_farewell(self) -> None:
        """Has the outlets know that the installation ends as it was asked to."""
        for outlet in list(self.outlets):
            if farewell := getattr(outlet, "farewell", ""):
                outlet.put_as_is(farewell)

    def close(self) -> None:
        for outlet in list(self.outlets):
            outlet.close()
