"""Commits of which nobody is in doubt. A commit counts only if the server has answered it without any warning: a wait for a copy that
somebody cancels ends with a warning, and else like a success. Whatever else happens, the same is asked again."""
from __future__ import annotations

from collections.abc import Callable
from typing import Any
import threading
import time

import psycopg

from gathjumli.databases import (
    EVERYWHERE,
    HERE,
    Line,
    SECONDS_TO_ANSWER,
    SECONDS_TO_TRY_AGAIN,
    first_line,
)

CANCELLED = "a wait for the copy was cancelled"
# commits of this engine that wait for a copy; its own may be cancelled by their role
WAITS = "FROM pg_stat_activity WHERE application_name = %s AND wait_event = 'SyncRep'"
# how long an attempt to find the copy again may take, before the next one is made
SECONDS_TO_PROBE = 30


class Commits:
    """Has commits done, again and again while there is any doubt. Everybody waits meanwhile, and the operator is told why."""

    def __init__(
        self, url: str, name: str, notify: Callable[[str], None], without_copy_after: int
    ) -> None:
        self.line = Line(url, name, EVERYWHERE)
        self.line.prepare = self.prepare
        self.probe = Line(url, f"{name} probe", EVERYWHERE)
        self.name = name
        self.notify = notify
        # after so many seconds without an answer of a copy commits do without; 0: people wait
        self.without_copy_after = without_copy_after
        self.is_doubtful = False
        # raises if there is no use in asking again, and refuses a server that is not the right one
        self.check: Callable[[], None] = lambda: None
        self.judge: Callable[[Any], None] = lambda server: None
        self.begun = 0.0
        self.told = ""

    def prepare(self, server: Any) -> None:
        server.add_notice_handler(self.take_notice)
        self.judge(server)

    def take_notice(self, notice: Any) -> None:
        self.is_doubtful = self.is_doubtful or notice.severity_nonlocalized == "WARNING"

    def do(self, work: Callable[[Any, bool], Any], seconds: float = SECONDS_TO_ANSWER) -> Any:
        """Returns what work answers, once it was done without doubt. It is told whether an attempt was made before."""
        is_retry, self.begun = False, time.monotonic()
        if self.without_copy_after:
            seconds = min(seconds, self.without_copy_after)
        while True:
            self.check()
            try:
                found = self.attempt(work, is_retry, seconds)
                break
            except psycopg.Error as error:
                is_retry = True
                self.say(f"the store does not answer, everybody waits: {first_line(error)}")
                time.sleep(SECONDS_TO_TRY_AGAIN)
        if self.told:
            waited = time.monotonic() - self.begun
            self.notify(f"the store answers again after {waited:.1f} s: nothing is lost")
            self.told = ""
        return found

    def attempt(self, work: Callable[[Any, bool], Any], is_retry: bool, seconds: float) -> Any:
        self.is_doubtful = False
        if is_retry:
            self.line.do(self.look_at_copy)
        found = self.line.do(lambda server: work(server, is_retry), seconds)
        if self.is_doubtful:
            self.line.close()
            raise psycopg.OperationalError(CANCELLED)
        return found

    def say(self, text: str) -> None:
        """Says once why all wait."""
        if text != self.told:
            self.notify(text)
        self.told = text

    # --- copies that do not answer ---

    def look_at_copy(self, server: Any) -> None:
        """Finds out whether it is the copy that gives no answer, and goes on without it if that is asked for."""
        waiting = server.execute(f"SELECT 1 {WAITS} LIMIT 1", (self.label(),)).fetchone()
        if not waiting or self.line.commit != EVERYWHERE:
            return
        if not self.without_copy_after or time.monotonic() - self.begun < self.without_copy_after:
            self.say("no copy of the store answers: everybody waits")
            return
        self.line.commit = HERE
        self.told = ""
        self.notify("no copy of the store answers: lines are at ONE server only from now on")
        server.execute(f"SELECT pg_cancel_backend(pid) {WAITS}", (self.label(),))
        server.execute("SET synchronous_commit = local")
        self.line.has = HERE
        threading.Thread(target=self.await_copy, daemon=True).start()

    def label(self) -> str:
        """The name by which the server knows connections for commits."""
        return f"gathjumli {self.name}"

    def await_copy(self) -> None:
        """Waits until a copy answers, and has commits wait for it again."""
        while True:
            try:
                self.probe.do(lambda server: self.ask_copy(server), SECONDS_TO_PROBE)
                break
            except psycopg.Error:
                time.sleep(SECONDS_TO_TRY_AGAIN)
        self.probe.close()
        self.line.commit = EVERYWHERE
        self.notify("a copy of the store answers again: each line is there too")

    def ask_copy(self, server: Any) -> None:
        """Commits a row that a copy has to have. One of before that still waits ends first, so that there is one at most."""
        doubts: list[Any] = []
        server.add_notice_handler(doubts.append)
        server.execute(f"SELECT pg_cancel_backend(pid) {WAITS}", (f"{self.label()} probe",))
        server.execute("INSERT INTO probe (installation) VALUES (%s)", (self.name,))
        if doubts:
            raise psycopg.OperationalError(CANCELLED)
        server.execute("DELETE FROM probe WHERE installation = %s", (self.name,))
