"""What a directory adds to that of a session: users at its end, and minidisks at the end of a user's statements."""
from __future__ import annotations

from collections.abc import Iterator
from typing import NamedTuple

from gathjumli.cli import Failure, REFUSED

ONLY = "while people are on, users are added at its end, and minidisks at the end of a user's lines"


class Statement(NamedTuple):
    """A statement, without its password, and the number of its line."""

    line: int
    words: list[str]

    def text(self) -> str:
        return " ".join(self.words)


class Additions(NamedTuple):
    """The users and the minidisks that a directory adds, in its order."""

    users: list[str]
    # each with the user and the address
    disks: list[tuple[str, str]]

    def items(self) -> list[str]:
        """What is added, each in the words of a recording."""
        disks = [f"MDISK {user} {address}" for user, address in self.disks]
        return [*(f"USER {name}" for name in self.users), *disks]

    def text(self) -> str:
        """What is added, in words."""
        disks = [f"minidisk {address} of {user}" for user, address in self.disks]
        return ", ".join([*(f"user {name}" for name in self.users), *disks])


def statements_of(directory: bytes) -> Iterator[Statement]:
    """The statements of a directory. Its passwords are not told."""
    for line, text in enumerate(directory.decode("latin-1").split("\n"), 1):
        words = [word for word in text.split(" ") if word]
        if words and not text.startswith("*"):
            if words[0] == "USER" and len(words) == 4:
                words[2] = "X"
            yield Statement(line, words)


def by_user(directory: bytes) -> list[list[Statement]]:
    """The statements of each user, the first of which names him."""
    users: list[list[Statement]] = []
    for statement in statements_of(directory):
        if statement.words[0] == "USER" or not users:
            users.append([])
        users[-1].append(statement)
    return users


def additions(path: str, before: bytes, now: bytes) -> Additions:
    """What the directory at a path adds to that of before; refused if it has any other change."""
    old, new = by_user(before), by_user(now)
    disks = [disk for one, other in zip(old, new) for disk in more_of(path, one, other)]
    if len(new) < len(old):
        raise refused(path, f"has no longer the line {old[len(new)][0].text()}")
    further = [user[0] for user in new[len(old) :]]
    for statement in further:
        if statement.words[0] != "USER" or len(statement.words) != 4:
            raise refused(f"{path}, line {statement.line}", f"is {statement.text()}")
    return Additions([statement.words[1] for statement in further], disks)


def more_of(path: str, old: list[Statement], new: list[Statement]) -> Iterator[tuple[str, str]]:
    """The minidisks that the statements of a user add; refused if one of before has changed."""
    for one, other in zip(old, new):
        if one.words != other.words:
            where = f"{path}, line {other.line}"
            raise refused(where, f"is {other.text()}, and was {one.text()}")
    name = old[0].words[1] if len(old[0].words) > 1 else ""
    if len(new) < len(old):
        raise refused(path, f"has no longer the line {old[len(new)].text()} of {name}")
    for statement in new[len(old) :]:
        if statement.words[0] != "MDISK" or len(statement.words) < 2:
            raise refused(f"{path}, line {statement.line}", f"adds {statement.text()} to {name}")
        yield name, statement.words[1]


def refused(where: str, findings: str) -> Failure:
    return Failure(REFUSED, f"{where} {findings}; {ONLY}")
