"""Folders from which decks of cards are read in."""
from __future__ import annotations

from typing import Any
from collections.abc import Iterator
import asyncio
import contextlib
import itertools
import os
import stat

from gathjumli.parts import Part
from gathjumli.punching import CARD, cards_of, sent
from gathjumli.recording import DECK_READ


# a DECK line of a script has so many cards at most
MOST_CARDS = 1000
MOST_BYTES = 1 << 22
# files of a folder that are looked at in one round
MOST_FILES = 200
SECONDS = 2
# a user's folder is his own: no link in it is followed
OPEN_FOLDER = os.O_RDONLY | os.O_DIRECTORY | os.O_NOFOLLOW | os.O_CLOEXEC
OPEN_FILE = os.O_RDONLY | os.O_NOFOLLOW | os.O_NONBLOCK | os.O_CLOEXEC
OPEN_NEW = os.O_WRONLY | os.O_CREAT | os.O_EXCL | os.O_NOFOLLOW | os.O_CLOEXEC


def wrong_text(data: bytes) -> str:
    """Why a file is no deck of characters, or nothing."""
    cards = data.removesuffix(b"\n").split(b"\n")
    wrong = [place for place, item in enumerate(cards, 1) if len(item) > CARD]
    if wrong:
        return f"card {wrong[0]} is longer than {CARD}"
    return f"more than {MOST_CARDS} cards" if len(cards) > MOST_CARDS else ""


def text_deck(data: bytes, user: str) -> Any:
    """A deck of characters as a line of a script and its cards."""
    cards = data.replace(b"\r\n", b"\n").removesuffix(b"\n").split(b"\n")
    return b"DECK %s %d\n" % (user.encode(), len(cards)) + b"".join(card + b"\n" for card in cards)


class Sender:
    """A user of the directory whose machine punches decks of any bytes for others. Nobody logs on to it."""

    def __init__(self, name: str, punch: Any) -> None:
        self.name = name
        self.punch = punch

    def scripts(self, data: bytes, receiver: Any) -> list:
        return list(sent(cards_of(data), self.name, self.punch, receiver))


class DeckFile:
    """A file in a user's folder. Its state changes whenever the file does."""

    def __init__(self, name: str, state: str) -> None:
        self.name = name
        self.state = state


class DeckFolder:
    """The open folder of one user. Every name is looked up in the folder itself, so that links and renamed folders lead nowhere
    else. What the user does in it can only make an operation on his own file fail."""

    def __init__(self, path: str) -> None:
        self.handle = os.open(path, OPEN_FOLDER)

    def close(self) -> None:
        os.close(self.handle)

    def files(self) -> Iterator:
        """The plain files, in the order of their names; links, folders and pipes are no decks."""
        with os.scandir(self.handle) as entries:
            names = (
                entry.name
                for entry in entries
                if not entry.name.startswith(".") and entry.is_file(follow_symlinks=False)
            )
            found = sorted(itertools.islice(names, MOST_FILES))
        for name in found:
            with contextlib.suppress(FileNotFoundError):
                yield DeckFile(
                    name, state_of(os.stat(name, dir_fd=self.handle, follow_symlinks=False))
                )

    def changed(self) -> Any:
        """When a name was last added or removed."""
        return os.fstat(self.handle).st_mtime_ns

    def read(self, name: Any) -> tuple:
        """The bytes of a file, one more than a deck may have at most, and its state."""
        handle = os.open(name, OPEN_FILE, dir_fd=self.handle)
        with open(handle, "rb") as file:
            found = os.fstat(handle)
            if not stat.S_ISREG(found.st_mode) or found.st_nlink != 1:
                raise OSError(0, "the file has another name, or is no plain file")
            return file.read(MOST_BYTES + 1), state_of(found)

    def move(self, name: str, inner: Any, reason: Any) -> None:
        """Moves a file to an inner folder under a name that is new there, next to it the reason why it is refused, if it is."""
        with contextlib.suppress(FileExistsError):
            os.mkdir(inner, dir_fd=self.handle)
        target = os.open(inner, OPEN_FOLDER, dir_fd=self.handle)
        try:
            taken = set(os.listdir(target))
            numbered = (f"{name}.{count}" if count > 1 else name for count in itertools.count(1))
            moved = next(
                new for new in numbered if new not in taken and f"{new}.reason" not in taken
            )
            os.rename(name, moved, src_dir_fd=self.handle, dst_dir_fd=target)
            if reason:
                with open(os.open(f"{moved}.reason", OPEN_NEW, 0o666, dir_fd=target), "w") as file:
                    file.write(f"{reason}\n")
        finally:
            os.close(target)


class Folders:
    """A folder for each user; what is put into it is read in as a deck for him, and goes to `done` or `refused`. A file whose
    name ends with .deck has 80 bytes a card, any other is text, a line a card."""

    def __init__(self, folder: Any, engine: Any, readers: Any, sender: Any, notify: Any) -> None:
        self.folder = folder
        self.engine = engine
        self.readers = readers
        self.sender = sender
        self.notify = notify
        self.giving = asyncio.Lock()
        self.seen = {}
        # files that failed: with which state of the file and of the folder, and the reason
        self.failed = {}

    def make(self) -> None:
        """Makes the folders that are missing."""
        os.makedirs(self.folder, exist_ok=True)
        for user in sorted(self.readers):
            os.makedirs(os.path.join(self.folder, user), exist_ok=True)

    async def watch(self) -> None:
        """Looks at the folders every two seconds. A file is taken if it did not change in between."""
        while True:
            found = {}
            for user in self.engine.users:
                # a file system that fails or is slow concerns this user's folder only
                with contextlib.suppress(OSError):
                    await self.look_at(user, found)
            self.seen = found
            self.failed = {key: failure for key, failure in self.failed.items() if key in found}
            await asyncio.sleep(SECONDS)

    async def look_at(self, user: Any, found: Any) -> None:
        """Reads in the files of a user that have not changed since the last round."""
        folder = DeckFolder(os.path.join(self.folder, user))
        try:
            files = await in_thread(lambda: list(folder.files()))
            self.forget_moved(user, files)
            for file in files:
                key = (user, file.name)
                found[key] = file.state
                state = (file.state, folder.changed())
                if file.state == self.seen.get(key) and self.failed.get(key, [None])[0] != state:
                    await self.read(folder, file, user)
        finally:
            folder.close()

    def forget_moved(self, user: str, files: list[DeckFile]) -> None:
        """Forgets decks that were read in and whose files are no longer among these, all of a user's folder."""
        if len(files) < MOST_FILES:
            known = self.engine.recording.decks
            of_user = {mark for mark in known if mark.startswith(mark_of(user))}
            known.difference_update(of_user - {mark_of(user, file) for file in files})

    async def read(self, folder: Any, file: Any, user: Any) -> None:
        """Gives a user the deck of a file, and moves the file. If that fails the reason is reported once, and the file is skipped
        until it or its folder changes."""
        try:
            reason = await self.give(folder, file, user)
            await in_thread(folder.move, file.name, "refused" if reason else "done", reason)
            self.notify(f"deck {file.name} for {user}: {reason or 'read in'}")
        except OSError as error:
            key, reason = (user, file.name), error.strerror
            if self.failed.get(key, ["", ""])[1] != (file.state, reason):
                self.notify(
                    f"deck {file.name} for {user}: {reason}; the file is skipped until it changes"
                )
            self.failed[key] = [(file.state, folder.changed()), (file.state, reason)]

    async def give(self, folder: Any, file: Any, user: Any) -> Any:
        """Gives a user the deck of a file, once even if the host crashes before the file is moved; the reason if it is refused."""
        mark = mark_of(user, file)
        if mark in self.engine.recording.decks:
            return ""
        reason, scripts = await in_thread(self.judged, folder, file, user)
        if scripts:
            self.engine.recording.decks.add(mark)
            await self.give_all([*map(Part, scripts[:-1]), Part(scripts[-1] + mark, is_kept=True)])
        return reason

    def judged(self, folder: Any, file: Any, user: Any) -> Any:
        """Why the file is refused, or else the scripts that give it to the user."""
        data, state = folder.read(file.name)
        if state != file.state:
            raise OSError(0, "the file changes while it is read")
        return self.scripts_of(file.name, data, user)

    async def read_in(self, name: str, data: bytes, user: str) -> Any:
        """Gives a user a deck of these bytes; the reason if it is refused."""
        reason, scripts = self.scripts_of(name, data, user)
        if scripts:
            await self.give_all([*map(Part, scripts[:-1]), Part(scripts[-1], is_kept=True)])
        return reason

    async def give_all(self, parts: Any) -> None:
        """Has the parts of a deck done. The sender punches one deck after the other."""
        async with self.giving:
            for part in parts:
                await self.engine.give(part)

    def scripts_of(self, name: str, data: bytes, user: str) -> tuple:
        """Why a deck is refused, or else the scripts that give it to the user."""
        if user not in self.readers:
            return f"{user} has no reader", []
        if len(data) > MOST_BYTES:
            return f"more than {MOST_BYTES} bytes", []
        if not data:
            return "it has no card", []
        if not name.endswith(".deck"):
            wrong = wrong_text(data.replace(b"\r\n", b"\n"))
            return wrong, [] if wrong else [text_deck(data, user)]
        if len(data) % CARD:
            return f"a deck has cards of {CARD} bytes, and this one has {len(data)} bytes", []
        if not self.sender:
            return "nobody punches decks of any bytes: --sender USER", []
        return "", self.sender.scripts(data, user)


async def in_thread(work: Any, *given: Any) -> Any:
    """Does what waits for a disk without keeping anybody waiting."""
    return await asyncio.get_running_loop().run_in_executor(None, work, *given)


def mark_of(user: str, file: DeckFile | None = None) -> bytes:
    """The comment that a user was given the deck of a file, or how all such comments about him begin."""
    return DECK_READ + user.encode() + (b" %d %d %d\n" % file.state if file else b" ")


def state_of(found: Any) -> Any:
    """What differs as soon as a file has changed."""
    return found.st_ino, found.st_size, found.st_mtime_ns
