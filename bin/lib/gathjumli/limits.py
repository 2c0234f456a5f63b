"""Bounds on what users take of the host: whoever passes one is stopped, or logged off."""
from __future__ import annotations

import asyncio
from typing import Any, NamedTuple

from gathjumli.host import MEGABYTE
from gathjumli.parts import typed_line

SECONDS = 1
# after somebody was stopped or logged off the program may grow by this part of its bound before the next one
STEP = 64
LITTLE_FREE = 64 * MEGABYTE


class Limits(NamedTuple):
    """How many bytes a user may write since LOGON, and how many the program may have in memory."""

    user: int
    memory: int


class Watch:
    """Looks each second at what users have written and at the program's memory."""

    def __init__(self, installation: Any) -> None:
        self.installation = installation
        self.engine = installation.engine
        # what each had written, and whose machine ran, when that was last looked at; the program's memory then
        self.before: dict[str, int] = {}
        self.ran: set[str] = set()
        self.memory = 0
        # what the program has grown by for each user, and who was already made to take no more
        self.grown: dict[str, float] = {}
        self.relieved: set[str] = set()
        # how many bytes one may write who was stopped for what he has written
        self.bounds: dict[str, int] = {}
        # the task of one who is being stopped
        self.relief: Any = None
        self.bound = installation.limits.memory
        self.is_disk_full = False

    @property
    def limits(self) -> Limits:
        """The bounds, which the operator may change."""
        return self.installation.limits

    async def run(self) -> None:
        while True:
            await asyncio.sleep(SECONDS)
            self.engine.look_again()
            self.look_at_users()
            self.look_at_memory()
            self.look_at_disk()

    def candidates(self) -> list:
        """The people who are on, and are not being logged off."""
        is_person = self.installation.is_person
        return [
            user
            for user in self.engine.users.values()
            if user.is_on and not user.is_forced and is_person(user)
        ]

    def look_at_users(self) -> None:
        """A user who has written too much is logged off. If some of that is in files that he has not closed, his machine is stopped and
        these are closed, which loses nothing; only if he writes more than that he is logged off.
        """
        candidates = self.candidates()
        self.bounds = {
            user.name: self.bounds[user.name] for user in candidates if user.name in self.bounds
        }
        for user in candidates:
            bound = max(self.bounds.get(user.name, 0), self.limits.user)
            if self.relief or user.written + user.open <= bound:
                continue
            reason = f"{self.limits.user // MEGABYTE} MB are written"
            if user.open and user.name not in self.bounds:
                self.begin_relief(user, reason)
            else:
                self.installation.force(user, reason)

    def look_at_memory(self) -> None:
        """If the program has too much memory, one user is made to take no more: his machine is stopped and his printer and punch files
        are closed, which loses nothing. One whose machine has taken more since is logged off. Nobody else is touched before that is
        done and the memory was looked at again. A state that is being saved is nobody's.
        """
        if self.engine.is_saving or self.relief:
            return
        memory = self.engine.memory()
        candidates = self.candidates()
        self.note_growth(memory, candidates)
        self.bound = max(self.limits.memory, min(self.bound, memory + self.limits.memory // STEP))
        is_busy = any(user.is_forced for user in self.engine.users.values())
        if memory <= self.bound or not candidates or is_busy:
            return
        user = max(candidates, key=lambda item: (self.holds(item), item.is_running, item.written))
        reason = f"there is no more memory than {self.limits.memory // MEGABYTE} MB"
        if user.name in self.relieved and self.holds(user) >= self.limits.memory // STEP:
            self.installation.force(user, reason)
        else:
            self.begin_relief(user, reason)
        self.bound = memory + self.limits.memory // STEP

    def holds(self, user: Any) -> float:
        """About how many bytes of the program are of a user: what it says of his open files, or if it is more, what it has grown by while
        his machine ran, since LOGON or since his files were closed.
        """
        return max(user.open, self.grown.get(user.name, 0.0))

    def note_growth(self, memory: int, candidates: list) -> None:
        """Has those whose machines ran be the ones by whom the program grew, or if none ran those who wrote, as much as they did."""
        growth, self.memory = max(0, memory - self.memory) if self.memory else 0, memory
        wrote = {user.name: user.written - self.before.get(user.name, 0) for user in candidates}
        running = {user.name: 1 for user in candidates if user.is_running or user.name in self.ran}
        shares = running or {name: count for name, count in wrote.items() if count > 0}
        on = {user.name for user in candidates}
        self.grown = {name: bytes for name, bytes in self.grown.items() if name in on}
        self.relieved &= on
        for name, share in shares.items():
            self.grown[name] = self.grown.get(name, 0.0) + growth * share / sum(shares.values())
        self.ran = {user.name for user in candidates if user.is_running}
        self.before = {user.name: user.written for user in candidates}

    def begin_relief(self, user: Any, reason: str) -> None:
        self.relief = asyncio.ensure_future(self.relieve(user, reason))
        self.relief.add_done_callback(self.end_relief)

    async def relieve(self, user: Any, reason: str) -> None:
        """Stops a user's machine and closes his files, by lines as he could type them."""
        self.installation.notify(f"{user.name} is stopped, and his files are closed: {reason}")
        user.terminal.show(f"YOUR MACHINE IS STOPPED, AND YOUR FILES ARE CLOSED: {reason.upper()}")
        lines = [b"#CP"] * user.is_running
        devices = self.engine.machines.devices.get(user.name, {})
        lines += [
            b"#CP CLOSE " + address.encode()
            for address, kind in devices.items()
            if kind in ("printer", "punch")
        ]
        for line in lines:
            await self.engine.give(typed_line(user.name, line))
        self.relieved.add(user.name)
        self.grown[user.name] = 0.0
        user.open = 0
        if user.written > self.limits.user:
            self.bounds[user.name] = user.written + self.limits.user // STEP

    def end_relief(self, task: asyncio.Future) -> None:
        self.relief = None
        # if the engine has stopped, it says so itself
        if not task.cancelled():
            task.exception()

    def look_at_disk(self) -> None:
        free = self.engine.recording.free()
        if (free < LITTLE_FREE) != self.is_disk_full:
            self.is_disk_full = not self.is_disk_full
            if self.is_disk_full:
                self.installation.notify(
                    f"the disk of {self.engine.recording.path} has {free // MEGABYTE} MB free"
                )
