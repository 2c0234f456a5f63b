"""Notices a program that hangs, and tells the service manager how the installation is.

A thread of its own looks each second, since whatever hangs may be what the event loop waits for. A program that was asked and gives no
sign of life is killed: that of the machines is started again, and without the desk the command ends, so that whoever keeps it starts it
again. The manager is systemd, or whoever reads datagrams at NOTIFY_SOCKET (sd_notify(3))."""
from __future__ import annotations

from collections.abc import Callable, Iterator
from typing import Any
import contextlib
import os
import socket
import threading
import time

from gathjumli.host import processor_seconds

SECONDS = 1
# a program that was asked may give no sign of life for so many seconds
HUNG_AFTER = 60
MICROSECONDS = 1000000
# what a stop may take longer while it makes progress
STOP_SECONDS = 120


class Manager:
    """The service manager, if there is one."""

    def __init__(self, path: str, watchdog: str) -> None:
        self.path = path
        # how many seconds the manager waits at most for a sign of life
        self.seconds = int(watchdog) / MICROSECONDS if watchdog.isdecimal() else 0.0
        self.is_online = False

    def tell(self, text: str) -> None:
        """Sends a datagram; a manager that is gone hinders nobody."""
        if not self.path:
            return
        place = f"\0{self.path[1:]}" if self.path.startswith("@") else self.path
        with contextlib.suppress(OSError), socket.socket(
            socket.AF_UNIX, socket.SOCK_DGRAM | socket.SOCK_CLOEXEC
        ) as found:
            found.setblocking(False)
            found.sendto(text.encode(), place)

    def tell_online(self) -> None:
        self.is_online = True
        self.tell("READY=1")

    @contextlib.contextmanager
    def told_of_reload(self) -> Iterator[None]:
        """Tells when a reload begins and when it ends. A reload before people may log on is part of the start, and is not told."""
        if self.is_online:
            self.tell(f"RELOADING=1\nMONOTONIC_USEC={time.monotonic_ns() // 1000}")
        try:
            yield
        finally:
            if self.is_online:
                self.tell("READY=1")

    def tell_stopping(self) -> None:
        """A session that was never online only ends the one before, and the next one follows."""
        if self.is_online:
            self.tell("STOPPING=1")


def manager_of_host() -> Manager:
    """The manager that the environment names; no other process is to take it for its own."""
    found = [os.environ.pop(name, "") for name in ("NOTIFY_SOCKET", "WATCHDOG_USEC")]
    return Manager(*found)


class Silence:
    """For how long somebody who was asked has given no sign of life. Time in which this command itself stood still does not count."""

    def __init__(self) -> None:
        self.signs: Any = None
        self.seconds = 0.0
        self.looked = time.monotonic()

    def look(self, is_awaited: bool, signs: Any) -> float:
        """How long it lasts now; signs: what changes with each sign of life."""
        now = time.monotonic()
        if is_awaited and signs == self.signs:
            self.seconds += min(now - self.looked, 2 * SECONDS)
        else:
            self.seconds = 0.0
        self.signs, self.looked = signs, now
        return self.seconds


class Watchdog:
    """Looks at the programs and at the event loop until the session is over."""

    def __init__(self, installation: Any, seconds: int, manager: Manager) -> None:
        self.installation = installation
        self.engine, self.desk = installation.engine, installation.desk
        self.seconds = seconds
        self.manager = manager
        self.loop = self.engine.loop
        self.silences = {who: Silence() for who in ("program", "desk", "loop", "stop")}
        self.beats = 0
        self.over = threading.Event()
        self.thread = threading.Thread(target=self.run, daemon=True)
        self.thread.start()

    def run(self) -> None:
        while not self.over.wait(SECONDS):
            self.look()

    def look(self) -> None:
        """Kills what hangs. The manager is told if the programs and the event loop answer."""
        silent = [self.look_at_program(), self.look_at_desk(), self.look_at_loop()]
        if self.installation.stopped.is_set():
            # volumes are being saved: then only the time that this takes of the host says that it goes on
            signs = processor_seconds(os.getpid()), self.engine.seconds()
            silent = [self.silences["stop"].look(True, signs)]
            if silent[0] < STOP_SECONDS:
                self.manager.tell(f"EXTEND_TIMEOUT_USEC={STOP_SECONDS * MICROSECONDS}")
        bounds = [bound for bound in (self.seconds, self.manager.seconds / 2) if bound]
        if self.manager.seconds and max(silent) < min(bounds):
            self.manager.tell("WATCHDOG=1")

    def look_at_program(self) -> float:
        program = self.engine.program
        # a part of a recording may take long: then also the time that it takes of the host is a sign
        worked = 0.0 if self.engine.is_whole else self.engine.seconds()
        signs = id(program), program.heard, worked
        silent = self.silences["program"].look(program.is_asked(), signs)
        return self.judge("program", "the program", silent, program.process.kill)

    def look_at_desk(self) -> float:
        desk = self.desk
        silent = self.silences["desk"].look(desk.is_asking, desk.flushes)
        return self.judge("desk", "the logon desk", silent, lambda: desk.program.kill())

    def judge(self, key: str, name: str, silent: float, kill: Callable[[], None]) -> float:
        """Has what hangs killed; how long it is silent."""
        if self.seconds and silent >= self.seconds:
            self.installation.notify(
                f"{name} gives no answer for {silent:.0f} seconds: it is killed"
            )
            kill()
            self.silences[key] = Silence()
        return silent

    def look_at_loop(self) -> float:
        silent = self.silences["loop"].look(True, self.beats)
        with contextlib.suppress(RuntimeError):
            # the loop may have ended
            self.loop.call_soon_threadsafe(self.beat)
        return silent

    def beat(self) -> None:
        self.beats += 1

    def close(self) -> None:
        self.over.set()
        self.thread.join()
