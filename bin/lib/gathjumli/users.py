"""The users of an installation: who is on, whose machine runs, and what is shown at their terminals."""
from __future__ import annotations

from typing import Any
import collections
import time

# lines that one who appears back sees again
KEPT_LINES = 24
MINUTE = "%Y-%m-%d %H:%M"


class Unattended:
    """Stands for a user's terminal where there is no desk."""

    is_there = False

    def keep(self, text: str, minute: str) -> None:
        pass

    def show(self, text: str) -> None:
        pass

    def turn(self, is_on: Any, is_running: bool) -> None:
        pass


class User:
    """A user of the directory: whether he is on and his machine runs, and his terminal."""

    def __init__(self, name: str) -> None:
        self.name = name
        self.is_on = False
        self.is_running = False
        self.terminal = Unattended()
        # the last lines of his terminal, each with its minute
        self.lines = collections.deque(maxlen=KEPT_LINES)
        # whether he is being logged off
        self.is_forced = False
        # bytes that he typed, and his guests printed, since LOGON
        self.written = 0
        # about how many bytes of the program his open files take, as it said last
        self.open = 0
        # lines that were typed and shown at his terminal since the start of the command
        self.typed = self.shown = 0
        # turns that were dealt since then while his machine ran
        self.turns = 0

    def keep(self, texts: list[str], when: str | None = None) -> None:
        """Keeps lines for when he appears back, with the minute of their time."""
        self.written += sum(map(len, texts)) + len(texts)
        minute = when or time.strftime(MINUTE, time.gmtime())
        # those before them would not be seen again
        for text in texts[-KEPT_LINES:]:
            self.lines.append((minute, text))
            self.terminal.keep(text, minute)

    def show(self, texts: list[str], when: str | None = None) -> None:
        """Shows lines that were printed at his terminal."""
        self.keep(texts, when)
        if self.terminal.is_there:
            for text in texts:
                self.terminal.show(text)

    def become(self, state: str) -> None:
        if state in ("ON", "OFF"):
            self.is_on = state == "ON"
        else:
            self.is_running = state == "RUNS"
        if not self.is_on:
            self.lines.clear()
        if state == "OFF":
            self.written = self.open = 0
            self.is_forced = False
        self.terminal.turn(self.is_on, self.is_running)
