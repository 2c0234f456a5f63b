"""Removes what has ended and is older than the rules keep: ended recordings, printouts, decks that were read in or refused, and old
lines of the journal. Nothing else is removed, and nothing without such a rule."""
from __future__ import annotations

from collections.abc import Callable, Iterator
from typing import Any
import asyncio
import collections
import contextlib
import os
import re
import stat
import time

from gathjumli.decks import OPEN_FOLDER, in_thread
from gathjumli.journal import DATE_AND_TIME, Journal, amount
from gathjumli.stores import SESSION

SECONDS_BETWEEN_LOOKS = 3600
DAY = 24 * 3600
# also those that an operator had printed again
PRINTOUT = re.compile(r"(PRT|PUN)[0-9]{4,}-[A-Z0-9]+(-[0-9]+)?\.txt")
# the folders of decks that were dealt with
DEALT_WITH = ("done", "refused")
# what a date and a time take at the beginning of a line of the journal
DATE_LENGTH = 19


class Retention:
    """Looks each hour, and when the rules were read again."""

    def __init__(self, installation: Any) -> None:
        self.installation = installation
        self.days: int | None = None
        self.changed = asyncio.Event()
        self.troubles: set[str] = set()

    def take(self, days: int | None) -> None:
        self.days = days
        self.changed.set()

    async def run(self) -> None:
        while True:
            self.changed.clear()
            if self.days:
                await in_thread(self.remove_old, time.time() - self.days * DAY)
            with contextlib.suppress(asyncio.TimeoutError):
                await asyncio.wait_for(self.changed.wait(), SECONDS_BETWEEN_LOOKS)

    def remove_old(self, limit: float) -> None:
        """Removes what is of before a time, and says how much that was. What cannot be removed is reported once, and stays."""
        installation = self.installation
        folder, store = installation.engine.printouts.folder, installation.engine.recording.store
        removed: collections.Counter = collections.Counter()
        works = [("ended recording", store.ended(limit)), ("deck", self.decks(limit))]
        if folder:
            works.append(("printout", old_printouts(folder, limit)))
        for what, removals in works:
            with self.reporting():
                for remove in removals:
                    with self.reporting():
                        remove()
                        removed[what] += 1
        with self.reporting():
            removed["journal"] += rotate(installation.journal, limit)
        texts = [amount(count, what) for what, count in removed.items() if count]
        if texts:
            installation.notify(f"older than {self.days} days, and removed: {', '.join(texts)}")

    @contextlib.contextmanager
    def reporting(self) -> Iterator[None]:
        """Reports what fails, once."""
        try:
            yield
        except OSError as reason:
            trouble = f"not removed: {reason.filename or 'a file'}: {reason.strerror}"
            if trouble not in self.troubles:
                self.installation.notify(trouble)
            self.troubles.add(trouble)

    def decks(self, limit: float) -> Iterator[Callable[[], None]]:
        """Removes files of users' folders. These are their own: no link in them is followed."""
        folder = self.installation.options["decks"]
        for name in self.installation.engine.users if folder else ():
            for inner in DEALT_WITH:
                with contextlib.suppress(OSError), contextlib.ExitStack() as opened:
                    user = opened_folder(opened, os.path.join(folder, name), None)
                    handle = opened_folder(opened, inner, user)
                    for file in os.listdir(handle):
                        found = os.stat(file, dir_fd=handle, follow_symlinks=False)
                        # a move keeps the time of the last write
                        if stat.S_ISREG(found.st_mode) and found.st_ctime < limit:
                            yield lambda: os.unlink(file, dir_fd=handle)


def opened_folder(opened: contextlib.ExitStack, path: str, within: int | None) -> int:
    handle = os.open(path, OPEN_FOLDER, dir_fd=within)
    opened.callback(os.close, handle)
    return handle


def old_printouts(folder: str, limit: float) -> Iterator[Callable[[], None]]:
    """Removes printouts of this session and of those before it that were written before a time, and folders that are then empty."""
    top = os.path.dirname(folder)
    for name in sorted(os.listdir(top)):
        session = os.path.join(top, name)
        if not SESSION.fullmatch(name) or os.path.islink(session) or not os.path.isdir(session):
            continue
        for file in sorted(os.listdir(session)):
            path = os.path.join(session, file)
            if PRINTOUT.fullmatch(file) and os.lstat(path).st_mtime < limit:
                yield lambda: os.unlink(path)
        if session != folder and not os.listdir(session):
            os.rmdir(session)


def rotate(journal: Journal, limit: float) -> bool:
    """Moves the journal away if its first line is of before a time, and removes what was moved away if its last line is; whether there
    was one of both."""
    if not journal.path:
        return False
    old = f"{journal.path}.old"
    if os.path.isfile(old) and os.stat(old).st_mtime < limit:
        os.unlink(old)
        return True
    with open(journal.path, errors="replace") as file:
        first = file.readline()[:DATE_LENGTH]
    try:
        begun = time.mktime(time.strptime(first, DATE_AND_TIME))
    except ValueError:
        return False
    if begun >= limit:
        return False
    os.replace(journal.path, old)
    journal.reopen()
    return True
