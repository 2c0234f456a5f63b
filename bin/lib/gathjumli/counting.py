"""A line at the terminal that says how far a command is."""
from __future__ import annotations

import os

ERASE = b"\r\x1b[K"
ERRORS = 2


class Count:
    """That line on standard error, if that is a terminal; it takes the place of the one before."""

    def __init__(self, name: str, stream: int = ERRORS) -> None:
        self.name = name
        self.stream = stream
        self.is_wanted = os.isatty(stream)
        self.is_shown = False

    def show(self, text: str) -> None:
        self.is_shown = self.write(ERASE + f"{self.name}: {text}".encode())

    def hide(self) -> None:
        if self.is_shown:
            self.is_shown = not self.write(ERASE)

    def write(self, data: bytes) -> bool:
        """Whether it is there; nobody may look on any more."""
        try:
            return self.is_wanted and os.write(self.stream, data) > 0
        except OSError:
            self.is_wanted = False
            return False
