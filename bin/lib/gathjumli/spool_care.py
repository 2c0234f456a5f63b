"""What an operator does with files that users closed for him: what is on the disk. Where a file is says how it is, also after a restart: a
held one is in the folder `held` of the session's."""
from __future__ import annotations

from collections.abc import Callable
from typing import Any, NamedTuple, Union
import collections
import contextlib
import itertools
import os
import re

from gathjumli.checkpoints import copy_whole
from gathjumli.journal import amount
from gathjumli.spooling import Printout, UNWRITTEN, WRITTEN

HELD = "held"
MOST_SHOWN = 40
COPY = re.compile(r"(.+)-([0-9]+)\.txt")


class NotDone(Exception):
    """A command that is not carried out; the text says why."""


class Copy(NamedTuple):
    """A copy that was put next to a file."""

    name: str
    original: Printout
    state = WRITTEN

    @property
    def user(self) -> str:
        return self.original.user

    @property
    def lines(self) -> int:
        return self.original.lines


File = Union[Printout, Copy]


class SpoolCare:
    """Lists the session's files, holds them back, releases, removes and repeats them."""

    def __init__(self, printouts: Any, users: dict) -> None:
        self.printouts = printouts
        self.users = users

    def list(self, rest: str, reply: Callable[[str], None]) -> None:
        """Shows the last files, of all users or of one."""
        name = rest.upper()
        if name and name not in self.users:
            raise NotDone(f"there is no user {rest}")
        found = [item for item in self.files() if name in ("", item.user)]
        for printout in found[-MOST_SHOWN:]:
            reply(f"{printout.name} {amount(printout.lines, 'line')}, {self.state(printout)}")
        shown = f", the last {MOST_SHOWN} are shown" * (len(found) > MOST_SHOWN)
        reply(f"{amount(len(found), 'file')}{shown}")

    def files(self) -> list[File]:
        """All files, each with the copies of it that are there."""
        folder = self.printouts.folder
        if not folder:
            return list(self.printouts.all)
        names = {*names_in(folder), *names_in(os.path.join(folder, HELD))}
        copies = collections.defaultdict(set)
        for match in filter(None, map(COPY.fullmatch, names)):
            copies[f"{match[1]}.txt"].add(int(match[2]))
        files: list[File] = []
        for item in self.printouts.all:
            numbers = sorted(copies[item.name])
            files += [item, *(Copy(copy_name(item, number), item) for number in numbers)]
        return files

    def list_decks(self, name: str, decks: list[str], reply: Callable[[str], None]) -> None:
        """Shows the first decks in readers, of all users or of one."""
        found = [deck for deck in decks if not name or deck.startswith(f"{name}: ")]
        for deck in found[:MOST_SHOWN]:
            reply(deck)
        shown = f", the first {MOST_SHOWN} are shown" * (len(found) > MOST_SHOWN)
        reply(f"{amount(len(found), 'deck')}{shown}")

    def state(self, printout: File) -> str:
        """What has become of a file."""
        if not self.printouts.folder or printout.state in UNWRITTEN:
            return printout.state
        if os.path.lexists(self.place(printout)):
            return printout.state
        if os.path.lexists(self.place(printout, HELD)):
            return "held"
        # the host that went on with the session before has written it
        is_kept = printout.name in self.printouts.store.kept(self.printouts.folder)
        return "in the store" if is_kept else "removed"

    def place(self, printout: File, *inner: str) -> str:
        return os.path.join(self.printouts.folder, *inner, printout.name)

    def named(self, rest: str, *wanted: str) -> File:
        """The file of this name, which is to be in one of these states."""
        if not self.printouts.folder:
            raise NotDone("files are only reported, and not kept: --printouts FOLDER")
        name = rest.removesuffix(".txt").upper() + ".txt"
        found = next((item for item in self.files() if item.name == name), None)
        if not found:
            raise NotDone(f"there is no file {rest}" if rest else "the name of a file is missing")
        if (state := self.state(found)) not in wanted:
            raise NotDone(f"{name} is {state if state not in UNWRITTEN else 'not written yet'}")
        return found

    def hold(self, rest: str, reply: Callable[[str], None]) -> None:
        printout = self.named(rest, "written")
        os.makedirs(os.path.join(self.printouts.folder, HELD), exist_ok=True)
        os.replace(self.place(printout), self.place(printout, HELD))
        reply(f"{printout.name} is held in {os.path.join(self.printouts.folder, HELD)}")

    def release(self, rest: str, reply: Callable[[str], None]) -> None:
        printout = self.named(rest, "held")
        os.replace(self.place(printout, HELD), self.place(printout))
        with contextlib.suppress(OSError):
            # others may still be held
            os.rmdir(os.path.join(self.printouts.folder, HELD))
        reply(f"{printout.name} is released")

    def purge(self, rest: str, reply: Callable[[str], None]) -> None:
        printout = self.named(rest, "written", "held")
        is_held = self.state(printout) == "held"
        self.printouts.store.forget(self.place(printout, *[HELD] * is_held))
        reply(f"{printout.name} is removed")

    def reprint(self, rest: str, reply: Callable[[str], None]) -> None:
        """Puts a copy next to a file, under a name that is new there, for whoever prints what appears."""
        printout = self.named(rest, "written")
        original = printout.original if isinstance(printout, Copy) else printout
        taken = {item.name for item in self.files()}
        names = (copy_name(original, number) for number in itertools.count(2))
        path = os.path.join(
            self.printouts.folder, next(name for name in names if name not in taken)
        )
        copy_whole(self.place(printout), path)
        reply(f"{printout.name} is there again: {path}")


def names_in(folder: str) -> list[str]:
    """The names in a folder; none if it is not there."""
    with contextlib.suppress(OSError):
        return os.listdir(folder)
    return []


def copy_name(original: Printout, number: int) -> str:
    return f"{original.name[:-4]}-{number}.txt"
