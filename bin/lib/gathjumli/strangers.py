"""What people who are about to log on may take of the command: a part of its time, and few answers. What they do wrong is summed for
the journal."""
from __future__ import annotations

from collections.abc import Callable
from typing import Any
import asyncio
import collections
import time

# bytes of a stranger that the desk takes at once: a line, if it is no longer than lines may be
STRANGER_BYTES = 128
# how many seconds a stranger waits after each of these pieces
SECONDS_APART = 0.02
# all strangers together wait so many times as long as they took
TIMES_APART = 4
# what a stranger is answered, lines and options of telnet; then he is closed
MOST_ANSWERS = 64
# for so long what strangers do wrong is summed before the journal has it
SECONDS_TO_SUM = 60
IS_NO_LOGON = b"THAT IS NO LOGON\r\n"


class Share:
    """The part of the loop's time that all strangers together may take: a fifth. Each has his turn, in the order in which they ask."""

    def __init__(self) -> None:
        self.turns = asyncio.Lock()
        self.free_at = 0.0

    async def turn(self, work: Callable[[], Any]) -> Any:
        """Does the work of a stranger when it is his turn; what it returns."""
        async with self.turns:
            await asyncio.sleep(max(0.0, self.free_at - time.monotonic()))
            begun = time.monotonic()
            try:
                return work()
            finally:
                now = time.monotonic()
                self.free_at = now + TIMES_APART * (now - begun)


class Sums:
    """Sums what happens often, so that the journal has a line for many."""

    def __init__(self, notify: Callable[[str], None]) -> None:
        self.notify = notify
        self.counts: collections.Counter = collections.Counter()

    def add(self, what: Any, address: str) -> None:
        if not self.counts:
            asyncio.get_running_loop().call_later(SECONDS_TO_SUM, self.notify_all)
        self.counts[what, address] += 1

    def notify_all(self) -> None:
        for (what, address), count in self.counts.items():
            self.notify(f"{self.text(what, count)}{' from ' * bool(address)}{address}")
        self.counts.clear()

    def text(self, what: Any, count: int) -> str:
        """What has happened so often, in words."""
        raise NotImplementedError


class WrongPasswords(Sums):
    """The wrong passwords for each user, or for nobody of the directory."""

    def text(self, what: Any, count: int) -> str:
        passwords = "a wrong password" if count == 1 else f"{count} wrong passwords"
        return f"{passwords} for {what or 'nobody here'}"


class LockedOut(Sums):
    """The right passwords for each user whom the rules lock."""

    def text(self, what: Any, count: int) -> str:
        return f"{what} is locked, and was refused{f' {count} times' * (count > 1)}"


class WrongTokens(Sums):
    """The wrong tokens, or none, for each page that wants the operator's."""

    def text(self, what: Any, count: int) -> str:
        return f"{'a wrong token' if count == 1 else f'{count} wrong tokens'} at {what}"


class Closings(Sums):
    """The strangers' connections that are closed for a reason."""

    def text(self, what: Any, count: int) -> str:
        connections = "a connection is" if count == 1 else f"{count} connections are"
        return f"{connections} closed: {what}"
