"""Where an installation keeps what it must not lose: the files of this host, or a database that several hosts use.

The recording and the files next to it are always in a folder here, which programs and readers use. A store has each append, and each
whole file that is named to it, where it outlives what may fail. It lets one engine at a time go on."""
from __future__ import annotations

from collections.abc import Callable, Iterator
from typing import Any
import contextlib
import errno
import fcntl
import glob
import os
import re
import shutil

from gathjumli.cli import Failure, REFUSED, write_whole

# the name of an ended session, as its folder next to the recording has it
SESSION = re.compile(r"[0-9]{4}-[0-9]{2}-[0-9]{2}-[0-9]{6}")


class Turned(Exception):
    """The session that is followed has ended, and the next one has begun."""


class FileStore:
    """Keeps an installation in the files of this host."""

    # whether this host may write: a standby of a database may not yet
    is_engine = True
    # whether a state that nobody waits for is still on its way to the store: no further one is saved meanwhile
    is_keeping = False
    # whether the session is followed from another host, which still adds to the recording
    follows = False
    # whether another recording can be put in the place of this one while people are on
    is_replaceable = True

    def __init__(self, record: str) -> None:
        self.record = record
        self.file: Any = None
        self.notify: Callable[[str], None] = lambda text: None
        # called if another engine has gone on
        self.on_lost: Callable[[], None] = lambda: None

    def about(self) -> list[str]:
        """Lines for the operator's status."""
        return []

    # --- the recording ---

    def begin_session(self) -> None:
        """Makes the folder's files those with which the session goes on."""

    def begin_anew(self) -> None:
        """Has the next session begin with what the store has then."""

    def open(self) -> None:
        """Opens the recording for appends, and refuses if another command has it open. Only its owner may read it: it has all that
        was typed, perhaps a password at a wrong place."""
        self.file = self.opened(self.record)

    def opened(self, path: str) -> Any:
        file = open(path, "ab", buffering=0, opener=lambda path, flags: os.open(path, flags, 0o600))
        try:
            fcntl.flock(file, fcntl.LOCK_EX | fcntl.LOCK_NB)
        except BlockingIOError:
            raise Failure(REFUSED, f"another installation goes on with {self.record}") from None
        return file

    def replace(self, path: str) -> None:
        """Puts another recording in the place of this one, and has it open; nobody else can open it in between."""
        file = self.opened(path)
        os.replace(path, os.path.realpath(self.record))
        self.file.close()
        self.file = file

    def append(self, data: bytes) -> None:
        """Adds bytes, which need not outlive a crash yet."""
        try:
            is_whole = not data or self.file.write(data) == len(data)
        except OSError as error:
            raise OSError(error.errno, error.strerror, self.record) from None
        if not is_whole:
            raise OSError(errno.ENOSPC, os.strerror(errno.ENOSPC), self.record)

    def settle(self) -> None:
        """Has all that was added outlive a crash. Nothing of it is shown before."""
        os.fdatasync(self.file.fileno())

    def cut(self, size: int) -> None:
        """Removes an end that a crash left in part."""
        self.file.truncate(size)

    def size(self) -> int:
        return os.fstat(self.file.fileno()).st_size

    def free(self) -> int:
        """Returns how many bytes are free on the recording's disk."""
        found = os.fstatvfs(self.file.fileno())
        return found.f_bavail * found.f_frsize

    def close(self) -> None:
        """Closes the recording."""
        if self.file:
            self.file.close()

    def await_more(self) -> bool:
        """Waits until another engine has added to the recording; returns whether it did."""
        return False

    def stop(self) -> None:
        """Has nobody wait for another engine any more."""

    # --- whole files in the folder of the recording, or in folders next to it ---

    def keep(self, path: str) -> None:
        """Has a file that is whole here outlive a crash."""

    def is_within(self, path: str) -> bool:
        """Returns whether a file is one that the store keeps too."""
        return False

    def keep_soon(self, path: str) -> None:
        """Has a file outlive a crash later. Nobody waits for it."""

    def have(self, path: str) -> None:
        """Brings a file here if only the store has it."""

    def kept(self, folder: str) -> set[str]:
        """Returns the names of those files of a folder that are kept elsewhere too."""
        return set()

    def write(self, path: str, data: bytes) -> None:
        """Writes a small file."""
        write_whole(path, data)

    def forget(self, path: str) -> None:
        """Removes a file, if it is there."""
        with contextlib.suppress(FileNotFoundError):
            os.unlink(path)

    # --- sessions ---

    def turn(self, aside: str, volumes: list[str]) -> None:
        """Notes that a session has ended. Its files are in the folder aside, and those of the next one are in their places. After a
        crash this is done again."""

    def ended(self, limit: float) -> Iterator[Callable[[], None]]:
        """Yields removals, one for each session that ended before a time."""
        for path in sorted(glob.glob(f"{glob.escape(self.record)}.*")):
            is_session = SESSION.fullmatch(path.removeprefix(f"{self.record}."))
            recording = os.path.join(path, "recording")
            # without a recording its end is under way
            if not is_session or os.path.islink(path) or not os.path.isfile(recording):
                continue
            if os.stat(recording).st_mtime < limit:
                yield lambda: shutil.rmtree(path)

    # --- hosts ---

    def tell_online(self, where: str) -> None:
        """Notes where people find the installation."""

    def leave(self) -> None:
        """Lets another engine go on at once."""
