"""A host of an installation that is kept in PostgreSQL: it is its engine, or stands by.

A standby follows: its program does each part once that is committed, so that it can go on within seconds. It takes the installation
when the engine says nothing any more, or has left. Nothing depends on clocks: the epoch alone decides who may write."""
from __future__ import annotations

from typing import Any, NamedTuple
import os
import socket
import threading
import time

import psycopg

from gathjumli.cli import Failure, REFUSED
from gathjumli.databases import EVERYWHERE, Line, SECONDS_TO_TRY_AGAIN, first_line
from gathjumli.store_copies import download_all
from gathjumli.store_tables import recording_after
from gathjumli.stores import FileStore, Turned
from gathjumli.stores_postgres import EngineStore

# an engine that is silent for so long is taken as dead: sooner if the server saw its process go, and later if this host has just
# found the server again, since the engine may need longer for that
SECONDS_SILENT, SECONDS_GONE, SECONDS_SILENT_ANEW = 3.0, 1.0, 5.0
LOOK = """SELECT i.epoch, i.session, l.beat, l.holder, EXISTS (SELECT FROM pg_locks WHERE locktype = 'advisory'
    AND database = (SELECT oid FROM pg_database WHERE datname = current_database())
    AND classid = hashtext('gathjumli')::oid AND objid = hashtext(%(name)s)::oid) AS locked,
    EXISTS (SELECT FROM part p WHERE p.installation = i.name AND p.session = i.session) AS begun
    FROM installation i JOIN lease l USING (name) WHERE name = %(name)s"""
TAKE = "UPDATE installation SET epoch = epoch + 1 WHERE name = %s AND epoch = %s RETURNING epoch, session"
HOLD = "UPDATE lease SET beat = beat + 1, holder = %s, address = NULL WHERE name = %s"


class Sight(NamedTuple):
    """What a look at the lease shows."""

    epoch: int
    session: int
    beat: int
    holder: str | None
    # whether the server sees the process of the engine
    is_locked: bool
    # whether the recording of the session has anything
    is_begun: bool


class Lookout:
    """Looks at one engine, as long as one connection holds."""

    def __init__(self) -> None:
        self.since = time.monotonic()
        self.last: Sight | None = None
        self.was_locked = self.has_moved = False

    def take(self, sight: Sight) -> None:
        if self.last and (sight.beat, sight.epoch) != (self.last.beat, self.last.epoch):
            self.has_moved, self.since = True, time.monotonic()
        self.was_locked = self.was_locked or sight.is_locked
        self.last = sight

    def silent(self) -> float:
        """Returns for how many seconds the engine has said nothing."""
        return time.monotonic() - self.since

    def is_over(self) -> bool:
        """Returns whether the engine is to be taken as dead, or has left."""
        if self.last is None or self.last.holder is None:
            return self.last is not None
        if self.was_locked and not self.last.is_locked:
            return self.silent() > SECONDS_GONE
        return self.silent() > (SECONDS_SILENT if self.has_moved else SECONDS_SILENT_ANEW)


class PostgresStore(EngineStore):
    """The store of one host."""

    def __init__(self, url: str, name: str, folder: str, options: dict[str, Any]) -> None:
        super().__init__(url, name, folder, options)
        self.is_standby = bool(options["standby"])
        self.line = Line(url, f"{name} standby", EVERYWHERE)
        self.lookout = Lookout()
        self.line.prepare = self.look_anew
        self.changed = threading.Condition()
        self.thread: threading.Thread | None = None
        # how much of the recording was given to whoever follows it
        self.given = 0
        self.is_turned = self.is_closed = False
        self.trouble: Exception | None = None
        self.told = ""

    def look_anew(self, server: Any) -> None:
        """An outage of the servers moves nobody: what was seen before it does not count."""
        self.lookout = Lookout()

    def look(self, server: Any) -> Sight:
        row = server.execute(LOOK, self.values()).fetchone()
        if not row:
            raise Failure(
                REFUSED, f"the store has no installation {self.name}: bin/store lists all"
            )
        self.lookout.take(sight := Sight(*row))
        return sight

    def about(self) -> list[str]:
        if self.is_engine:
            return super().about()
        sight = self.lookout.last
        holder = sight.holder if sight else "nobody is seen to go on"
        return [f"stands by for {self.name}: {holder}; {self.place} bytes are done here too"]

    # --- the beginning of a session ---

    def begin_session(self) -> None:
        """Takes the installation, or has its files here as a standby that will follow."""
        if self.is_begun:
            return
        self.is_turned, self.is_closed, self.thread = False, False, None
        if not self.is_engine:
            self.wait_until_seen()
        self.patiently(self.fetch)
        self.given = self.place
        self.follows = not self.is_engine
        self.is_begun = True

    def begin_anew(self) -> None:
        self.is_begun = False

    def wait_until_seen(self) -> None:
        """Waits until it is clear whether another engine goes on. A standby takes only what has not begun yet: it compares first."""
        while not self.is_engine:
            try:
                if self.line.do(self.is_clear):
                    return
            except psycopg.Error as error:
                self.say(f"the store does not answer: {first_line(error)}")
            time.sleep(SECONDS_TO_TRY_AGAIN)

    def is_clear(self, server: Any) -> bool:
        sight = self.look(server)
        if self.is_standby and sight.is_begun:
            return True
        if self.lookout.is_over() and self.take(server, sight):
            self.begin_engine()
            return True
        if self.lookout.has_moved and not self.is_standby:
            raise Failure(
                REFUSED, f"{sight.holder} goes on with {self.name}; --standby waits for it"
            )
        return False

    def say(self, text: str) -> None:
        """Says something once."""
        if text != self.told:
            self.notify(text)
        self.told = text

    def take(self, server: Any, sight: Sight) -> bool:
        """Makes this host the engine, unless another one was quicker. Commits of the engine before are there or will never be."""
        me = f"{socket.gethostname()} process {os.getpid()}"
        with server.transaction():
            row = server.execute(TAKE, (self.name, sight.epoch)).fetchone()
            if row:
                server.execute(HOLD, (me, self.name))
        if not row:
            return False
        self.epoch, self.session = row
        if sight.holder:
            silent = self.lookout.silent()
            self.notify(f"{sight.holder} is silent for {silent:.1f} s: this host takes {self.name}")
        return True

    # --- following ---

    def await_more(self) -> bool:
        """Waits until the recording is longer, for a standby; False once this host is the engine, or stops."""
        if not self.follows:
            return False
        if not self.thread:
            self.notify(f"stands by for {self.name}: what is committed is done here too")
            self.thread = threading.Thread(target=self.follow_all, daemon=True)
            self.thread.start()
        with self.changed:
            self.changed.wait_for(lambda: self.place > self.given or not self.goes_on())
            is_more = self.place > self.given
            self.given = self.place
        if self.trouble:
            raise self.trouble
        if self.is_engine and not is_more:
            # what is added from now on is its own
            self.follows = False
        if self.is_turned and not is_more:
            self.is_begun = False
            raise Turned
        return is_more

    def goes_on(self) -> bool:
        """Returns whether the engine of another host is followed."""
        is_over = self.is_engine or self.is_turned or self.is_stopping or self.is_closed
        return not (is_over or self.trouble)

    def stop(self) -> None:
        with self.changed:
            self.is_stopping = True
            self.changed.notify_all()

    def close(self) -> None:
        self.is_closed = True
        if self.thread:
            self.thread.join()
        super().close()

    def follow_all(self) -> None:
        """Copies what is committed, until this host is the engine or the session has ended."""
        while self.goes_on():
            try:
                self.line.do(self.follow)
            except psycopg.Error as error:
                self.say(f"the store does not answer: {first_line(error)}")
            except (Failure, OSError) as reason:
                self.trouble = reason
            with self.changed:
                self.changed.notify_all()
            time.sleep(SECONDS_TO_TRY_AGAIN * self.goes_on())
        self.line.close()

    def follow(self, server: Any) -> None:
        sight = self.look(server)
        self.told = self.told if sight.holder is None else ""
        self.copy_new(server)
        if sight.session != self.session:
            self.is_turned = True
        elif self.lookout.is_over():
            self.take_over(server, sight)

    def copy_new(self, server: Any) -> None:
        """Adds what was committed since the last look to the recording here."""
        for data in recording_after(server, self.name, self.session, self.place):
            FileStore.append(self, data)
            self.place += len(data)

    def take_over(self, server: Any, sight: Sight) -> None:
        """Becomes the engine, with all that the one before has committed."""
        followed = self.session
        if not self.take(server, sight):
            return
        if self.session != followed:
            self.is_turned = True
        else:
            self.copy_new(server)
            download_all(server, self.name, self.folder)
        self.begin_engine()
