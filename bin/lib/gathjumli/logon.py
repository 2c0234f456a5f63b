"""Who may log on, and whether a password is right."""
from __future__ import annotations

from collections.abc import Callable
from typing import Any
import hashlib
import hmac
import os
import re

from gathjumli.cli import Failure, REFUSED, read_file, reason_text

ENTRY = re.compile(rb"([A-Z][A-Z0-9]{0,7}) ([0-9a-f]{32}) ([0-9a-f]{64})")
# a sum takes some 50 ms and 16 MB, whoever makes it
COSTS = {"n": 1 << 14, "r": 8, "p": 1, "dklen": 32}


class Passwords:
    """The passwords of a directory, as sums that are good for this session alone."""

    def __init__(self, passwords: Any) -> None:
        self.names = list(passwords)
        self.key = os.urandom(32)
        self.sums = {name: self.sum_of(password) for name, password in passwords.items()}
        self.other = os.urandom(32)

    def sum_of(self, password: str) -> Any:
        return hmac.digest(self.key, password.encode("latin-1"), hashlib.sha256)

    def take(self, passwords: Any) -> None:
        """Has the same users have other passwords."""
        self.sums = {name: self.sum_of(passwords[name]) for name in self.names}

    def add(self, passwords: dict[str, str]) -> None:
        """Has further users, with these passwords."""
        self.names += passwords
        self.sums |= {name: self.sum_of(password) for name, password in passwords.items()}

    def are_right(self, name: str, password: str) -> Any:
        """Whether this is the password of the user of this name; of a name that is not there it takes as long."""
        return (
            hmac.compare_digest(self.sum_of(password), self.sums.get(name, self.other))
            and name in self.sums
        )


class PasswordsFile:
    """The passwords of a file, which has their salted sums (docs/man/passwords.1); it is read again each time. If it cannot be, its last
    good reading counts, and the journal has the reason."""

    def __init__(self, path: str, names: list[bytes], notify: Callable[[str], None]) -> None:
        self.path = path
        self.notify = notify
        # why it could not be read last
        self.trouble = ""
        self.names = list(names)
        self.other = (os.urandom(16), os.urandom(32))
        self.entries = read_entries(path)

    def add(self, passwords: dict[str, str]) -> None:
        """Has further users, whose passwords the file has."""
        self.names += passwords

    def read(self) -> str:
        """Reads the file; why it cannot be read, or nothing."""
        before, self.trouble = self.trouble, ""
        try:
            self.entries = read_entries(self.path)
        except (OSError, Failure) as reason:
            self.trouble = f"{self.path}: {reason_text(reason).removeprefix(f'{self.path}: ')}"
        if self.trouble and self.trouble != before:
            self.notify(f"{self.trouble}; the passwords count that were read last")
        return self.trouble

    def are_right(self, name: str, password: str) -> Any:
        """Whether this is the password of the user of this name; of a name that is not there it takes as long."""
        self.read()
        entries = self.entries
        salt, wanted = entries.get(name, self.other)
        return hmac.compare_digest(salted(password, salt), wanted) and name in entries


def salted(password: str, salt: Any) -> Any:
    """The sum of a password, whose letters the desk makes capitals."""
    return hashlib.scrypt(password.upper().encode("latin-1"), salt=salt, **COSTS)


def read_entries(path: str) -> Any:
    """The names of a passwords file with their salts and sums."""
    entries = {}
    for number, line in enumerate(read_file(path).splitlines(), 1):
        found = ENTRY.fullmatch(line)
        if not found:
            raise Failure(REFUSED, f"{path}: line {number} is no name with a salt and a sum")
        entries[found[1].decode()] = (
            bytes.fromhex(found[2].decode()),
            bytes.fromhex(found[3].decode()),
        )
    return entries


def entry_of(name: str, salt: Any, wanted: Any) -> str:
    return f"{name} {salt.hex()} {wanted.hex()}\n"
