"""What an installation reads again while it goes on: the journal's file, the certificate, the directory, the passwords and the rules.
What cannot be read stays as it was."""
from __future__ import annotations

from collections.abc import Callable
from typing import Any
import os

from gathjumli.cli import Failure, REFUSED, reason_text
from gathjumli.host import MEGABYTE
from gathjumli.logon import Passwords
from gathjumli.recording import read_whole, without_passwords
from gathjumli.rules import Rules, read_rules
from gathjumli.tls import load_certificate
from gathjumli.turning import Turn

ALL_READ = "journal, certificate, directory, passwords and rules are read again"


def warn_of_readers(path: str, what: str, notify: Callable[[str], None]) -> None:
    """Says it if others than its owner may read a file of secrets."""
    if os.stat(path).st_mode & 0o044:
        notify(f"{path} has {what}, and others may read it: chmod 600 {path}")


def named_reason(reason: Exception) -> str:
    """A line that says why a file was not read, and which."""
    name = getattr(reason, "filename", None)
    return f"{name}: {reason_text(reason)}" if name else reason_text(reason)


class Reload:
    """What is read again, and where it goes."""

    def __init__(self, installation: Any, passwords: Any, read_users: Callable[[], dict]) -> None:
        self.installation = installation
        self.passwords = passwords
        self.read_users = read_users
        self.stated = without_passwords(read_whole(installation.directory))
        self.path = f"{installation.options['record']}.rules"
        # whether a reload is under way
        self.is_busy = False
        # as the options have them
        self.limits = installation.limits
        self.take_rules()

    def all(self) -> list[str]:
        """Reads all again but what a directory adds, and has the store keep it; what could not be read."""
        steps = {"journal": self.installation.journal.reopen, "certificate": self.take_certificate,
                 "passwords": self.take_passwords, "rules": self.take_rules}  # fmt: skip
        troubles = []
        for what, step in steps.items():
            try:
                step()
            except (Failure, OSError) as reason:
                troubles.append(f"{what} not read again: {named_reason(reason)}")
        for path in (
            self.path,
            self.installation.directory,
            self.installation.options["passwords"],
        ):
            if path and self.installation.store.is_within(path):
                self.installation.store.keep_soon(path)
        return troubles

    async def do(self) -> list[str]:
        """Reads all again, and has the journal say how that ended; what could not be read."""
        self.is_busy = True
        try:
            with self.installation.options["manager"].told_of_reload():
                troubles = [*await self.take_directory(), *self.all()]
        finally:
            self.is_busy = False
        for text in troubles or [ALL_READ]:
            self.installation.notify(text)
        return troubles

    async def take_directory(self) -> list[str]:
        """Takes the users and minidisks that the directory adds; why it does not."""
        try:
            if not self.is_changed():
                return []
            turn = Turn(self.installation, self.stated)
            await turn.take()
        except (Failure, OSError) as reason:
            return [f"directory not read again: {named_reason(reason)}"]
        self.stated = turn.longer
        return []

    def is_changed(self) -> bool:
        """Whether the directory has other changes than passwords."""
        return without_passwords(read_whole(self.installation.directory)) != self.stated

    def take_certificate(self) -> None:
        options = self.installation.options
        if options["tls"]:
            load_certificate(options["tls"], options["certificate"], options["key"])
            warn_of_readers(options["key"], "the key", self.installation.notify)

    def take_passwords(self) -> None:
        if not isinstance(self.passwords, Passwords):
            if trouble := self.passwords.read():
                raise Failure(REFUSED, trouble)
            return
        if self.is_changed():
            directory = self.installation.directory
            raise Failure(REFUSED, f"{directory} has other changes than passwords")
        self.passwords.take(self.read_users())

    def take_rules(self) -> None:
        rules: Rules = read_rules(self.path)
        installation = self.installation
        installation.limits = self.limits._replace(
            user=rules.quota * MEGABYTE if rules.quota else self.limits.user,
            memory=rules.memory * MEGABYTE if rules.memory else self.limits.memory,
        )
        for name in sorted({*rules.locked} - installation.engine.users.keys()):
            installation.notify(f"{self.path} locks {name}, who is no user")
        installation.desk.take_rules(rules)
        installation.retention.take(rules.keep)
