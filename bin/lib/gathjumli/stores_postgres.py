"""Keeps an installation in PostgreSQL, so that another host goes on with it (docs/HOSTS.md).

A folder of this host has copies, which programs read. Each commit says the epoch of this engine. Whoever takes the installation makes
the epoch a higher one: from then on commits of the engine before him change nothing, and that engine ends."""
from __future__ import annotations

from collections.abc import Callable, Iterator
from typing import Any
import contextlib
import glob
import os
import re
import shutil
import socket
import threading
import time

import psycopg

from gathjumli.cli import FILE_FAILED, Failure, REFUSED
from gathjumli.commits import Commits
from gathjumli.databases import (
    EVERYWHERE,
    HERE,
    Line,
    SECONDS_TO_ANSWER,
    SECONDS_TO_KEEP,
    SECONDS_TO_TRY_AGAIN,
    SOON,
    first_line,
)
from gathjumli.keeping import Keeper
from gathjumli.store_copies import PRINTOUTS, download_all, locked, remove_others
from gathjumli.store_tables import (
    APPEND,
    END,
    LIVE,
    SESSION_SUM,
    STATES,
    download,
    drop_unused,
    files_of,
    upload,
    write_recording,
)
from gathjumli.stores import FileStore, SESSION

SECONDS_TO_BEAT = 0.5
SECONDS_TO_BEAT_ONCE = 2
# of turns that show nobody anything a crash loses no more
SECONDS_TO_SETTLE = 1
BEAT = """UPDATE lease SET beat = beat + 1 WHERE name = %(name)s
    AND EXISTS (SELECT FROM installation WHERE name = %(name)s AND epoch = %(epoch)s)"""
WHERE_IT_IS = "SELECT coalesce(host(inet_server_addr()), 'local'), inet_server_port(), current_setting('synchronous_standby_names')"
# shows at once that the process of an engine has gone, which the beat shows later
LOCK = "SELECT pg_try_advisory_lock(hashtext('gathjumli'), hashtext(%(name)s))"
ENDED = re.compile(rf"recording\.({SESSION.pattern})/recording")


class Lost(Failure):
    """Another engine has gone on."""


class EngineStore(FileStore):
    """Keeps an installation in a database. One thread appends, one keeps files, and one says that this engine goes on."""

    is_engine = False
    is_replaceable = False

    def __init__(self, url: str, name: str, folder: str, options: dict[str, Any]) -> None:
        folder = os.path.abspath(folder)
        super().__init__(os.path.join(folder, "recording"))
        self.lock_file = locked(folder)
        self.url, self.name, self.folder = url, name, folder
        self.printouts = options["printouts"] and os.path.abspath(options["printouts"])
        # until there is a journal
        self.notify = lambda text: print(time.strftime("%H:%M:%S"), text, flush=True)
        self.commits = Commits(url, name, lambda text: self.notify(text), options["without-copy-after"] or 0)  # fmt: skip
        self.commits.check, self.commits.judge = self.refuse_lost, self.refuse_behind
        self.epoch = self.session = self.place = 0
        self.waiting: list[bytes] = []
        self.settled, self.took = time.monotonic(), 0.0
        self.is_lost = self.is_leaving = self.is_begun = self.is_stopping = False
        self.keeper = Keeper(url, name, lambda: self.is_lost)
        self.has_lock = False
        # what is known of the server, for the operator
        self.known: list[str] = []

    def words(self, has_passwords: bool) -> list[str]:
        """Returns the words that name the copies in the folder; has_passwords: whether other words name a file of passwords."""
        found, volumes = ["--record", self.record], []
        passwords = os.path.join(self.folder, "passwords")
        if os.path.isfile(passwords) and not has_passwords:
            found += ["--passwords", passwords]
        while os.path.isfile(path := os.path.join(self.folder, f"volume-{len(volumes) + 1}")):
            volumes.append(path)
        return [*found, os.path.join(self.folder, "directory"), *volumes]

    def values(self, **more: Any) -> dict[str, Any]:
        return {"name": self.name, "epoch": self.epoch, "session": self.session} | more

    def refuse_lost(self) -> None:
        if self.is_lost:
            raise self.lost()

    def refuse_behind(self, server: Any) -> None:
        """Refuses a server that has not all that was shown."""
        if not self.is_engine:
            return
        row = server.execute(END, self.values()).fetchone()
        if missing := max(0, self.place - (row[0] if row else 0)):
            raise psycopg.OperationalError(f"the server has {missing} bytes less than were shown: it is the wrong one")  # fmt: skip

    def lost(self) -> Lost:
        self.is_lost = True
        return Lost(FILE_FAILED, f"another host goes on with {self.name}: nothing more is written here")  # fmt: skip

    def about(self) -> list[str]:
        if not self.known:
            return []
        where, copies = self.known
        if self.commits.line.commit == HERE:
            copies = "NO copy answers: lines are at one server only"
        took = f"; the last commit took {1000 * self.took:.1f} ms" if self.took else ""
        return [f"store: {self.name} at {where}, epoch {self.epoch}; {copies}{took}"]

    @property
    def is_keeping(self) -> bool:
        # a standby saves no states, and what the store has not yet is followed by no further one
        return not self.is_engine or self.keeper.states > 0

    def patiently(self, work: Callable[[Any], Any]) -> Any:
        """Returns what work answers, on a connection of its own, while servers may fail."""
        line, told = Line(self.url, f"{self.name} files", EVERYWHERE), ""
        while True:
            try:
                return line.do(work, SECONDS_TO_KEEP)
            except psycopg.Error as error:
                if first_line(error) != told:
                    told = first_line(error)
                    self.notify(f"the store does not answer: {told}")
                self.refuse_lost()
                time.sleep(SECONDS_TO_TRY_AGAIN)
            finally:
                line.close()

    # --- the recording ---

    def append(self, data: bytes) -> None:
        if not data:
            return
        self.refuse_lost()
        super().append(data)
        self.waiting.append(data)
        if time.monotonic() - self.settled > SECONDS_TO_SETTLE:
            self.settle()

    def settle(self) -> None:
        self.refuse_lost()
        if not self.waiting:
            return
        data, begun = b"".join(self.waiting), time.monotonic()
        self.commits.do(lambda server, is_retry: self.commit(server, data, is_retry))
        self.settled = time.monotonic()
        self.took = self.settled - begun
        self.waiting.clear()
        self.place += len(data)

    def commit(self, server: Any, data: bytes, is_retry: bool) -> None:
        """Adds bytes at their place. Those of an attempt whose answer was lost are not added twice."""
        values = self.values(place=self.place, data=data)
        if server.execute(APPEND, values).rowcount == 1:
            return
        row = server.execute("SELECT epoch, data FROM part WHERE installation = %(name)s AND session = %(session)s "
                             "AND place = %(place)s", values).fetchone()  # fmt: skip
        # this attempt is a commit too, since it locks the row of the installation: a copy that has it has all before it
        if not (is_retry and row and row[0] == self.epoch and bytes(row[1]) == data):
            raise self.lost()

    def cut(self, size: int) -> None:
        if size != self.place:
            # a part is whole lines: only somebody else has written another end
            raise Failure(REFUSED, f"the recording of {self.name} in the store does not end with a whole line")  # fmt: skip

    def size(self) -> int:
        return super().size() if self.file and not self.file.closed else 0

    # --- files ---

    def name_of(self, path: str) -> str:
        """Returns the name of a file in the store: its path in the folder. Printouts may be elsewhere."""
        path = os.path.abspath(path)
        if self.printouts and path.startswith(f"{self.printouts}{os.sep}"):
            session = os.path.relpath(path, self.printouts).split(os.sep)[0]
            return f"{PRINTOUTS}/{session}/{os.path.basename(path)}"
        return os.path.relpath(path, self.folder)

    def is_within(self, path: str) -> bool:
        return os.path.dirname(os.path.abspath(path)) == self.folder

    def keep(self, path: str) -> None:
        done = self.keeper.later(lambda server: self.send(server, path))
        while not done.wait(SECONDS_TO_BEAT):
            self.refuse_lost()

    def keep_soon(self, path: str) -> None:
        if not self.is_engine or not os.path.isfile(path):
            return
        is_state = os.path.basename(path).startswith("recording.state-")
        work = self.sending_state(path) if is_state else lambda server: self.send(server, path)
        self.keeper.later(work, is_state)

    def send(self, server: Any, path: str) -> None:
        self.live(server, lambda: upload(server, self.name, self.name_of(path), path))

    def live(self, server: Any, work: Callable[[], Any]) -> None:
        """Has something committed if this engine still goes on."""
        with server.transaction():
            work()
            if server.execute(LIVE, self.values()).rowcount != 1:
                raise self.lost()

    def sending_state(self, path: str) -> Callable[[Any], None]:
        """Sends a state of the session of now, and removes those before the last two."""
        session = self.session

        def send(server: Any) -> None:
            if session == self.session and os.path.isfile(path):
                self.live(server, lambda: (upload(server, self.name, self.name_of(path), path), self.drop_states(server)))  # fmt: skip

        return send

    def drop_states(self, server: Any) -> None:
        server.execute(
            "DELETE FROM file WHERE installation = %(name)s AND name LIKE %(states)s AND name NOT IN (SELECT name FROM file WHERE "
            "installation = %(name)s AND name LIKE %(states)s ORDER BY length(name) DESC, name DESC LIMIT 2)",
            self.values(states=STATES))  # fmt: skip
        drop_unused(server, self.name)

    def write(self, path: str, data: bytes) -> None:
        super().write(path, data)
        self.keep_soon(path)

    def forget(self, path: str) -> None:
        super().forget(path)
        if self.is_engine:
            name = self.name_of(path)
            self.keeper.later(lambda server: self.live(server, lambda: server.execute(
                "DELETE FROM file WHERE installation = %s AND name = %s", (self.name, name))))  # fmt: skip

    def have(self, path: str) -> None:
        if not os.path.isfile(path):
            name = self.name_of(path)

            def bring(server: Any) -> None:
                if digits := files_of(server, self.name).get(name):
                    download(server, self.name, digits, path)

            self.patiently(bring)

    def kept(self, folder: str) -> set[str]:
        prefix = os.path.dirname(self.name_of(os.path.join(folder, "x")))
        try:
            line = Line(self.url, f"{self.name} files", SOON)
            names = line.do(lambda server: files_of(server, self.name))
            line.close()
        except psycopg.Error:
            return set()
        return {os.path.basename(name) for name in names if os.path.dirname(name) == prefix}

    # --- sessions ---

    def turn(self, aside: str, volumes: list[str]) -> None:
        """Commits the end of a session at once: its folder, the next volumes, and the next recording."""
        paths = [*sorted(glob.glob(f"{glob.escape(aside)}/*")), *map(os.path.realpath, volumes),
                 *glob.glob(f"{glob.escape(self.record)}.begin")]  # fmt: skip
        files = {self.name_of(path): path for path in paths if os.path.basename(path) != "recording"}  # fmt: skip
        following = b""
        if os.path.exists(self.record):
            with open(self.record, "rb") as file:
                following = file.read()
        ended = f"{os.path.basename(aside)}/recording"
        self.commits.do(lambda server, _: self.turned(server, files, ended, following), SECONDS_TO_KEEP)  # fmt: skip
        self.session, self.place, self.waiting = self.session + 1, len(following), []

    def turned(self, server: Any, files: dict[str, str], ended: str, following: bytes) -> None:
        """Does the turn, unless an attempt before has done it."""
        now = server.execute("SELECT epoch, session FROM installation WHERE name = %(name)s", self.values()).fetchone()  # fmt: skip
        if now == (self.epoch, self.session + 1):
            # a copy that has this has the turn too
            self.live(server, lambda: None)
            return
        values = self.values(next=self.session + 1, data=following, file=ended, sum=f"{SESSION_SUM}{self.session}",
                             size=self.place, states=STATES, has=bool(following))  # fmt: skip

        def change() -> None:
            for name, path in files.items():
                upload(server, self.name, name, path)
            server.execute("INSERT INTO file (installation, name, sum, size) VALUES (%(name)s, %(file)s, %(sum)s, %(size)s)", values)  # fmt: skip
            server.execute("DELETE FROM file WHERE installation = %(name)s AND (name LIKE %(states)s OR name LIKE 'recording.ending-%%' "
                           "OR name = 'recording.begin' AND NOT %(has)s)", values)  # fmt: skip
            server.execute("UPDATE installation SET session = %(next)s WHERE name = %(name)s AND session = %(session)s", values)  # fmt: skip
            server.execute("INSERT INTO part (installation, session, place, epoch, data) SELECT %(name)s, %(next)s, 0, %(epoch)s, "
                           "%(data)s WHERE %(has)s", values)  # fmt: skip
            drop_unused(server, self.name)

        self.live(server, change)

    def ended(self, limit: float) -> Iterator[Callable[[], None]]:
        def found(server: Any) -> list[tuple[str, str]]:
            rows = server.execute("SELECT name, sum FROM file WHERE installation = %s AND at < to_timestamp(%s)", (self.name, limit))  # fmt: skip
            return [(match[1], row[1]) for row in rows if (match := ENDED.fullmatch(row[0]))]

        for session, digits in self.patiently(found):
            yield lambda: self.remove_session(session, int(digits.removeprefix(SESSION_SUM)))

    def remove_session(self, session: str, number: int) -> None:
        """Removes an ended session with its printouts."""

        def remove(server: Any) -> None:
            for name in (f"recording.{session}/%", f"{PRINTOUTS}/{session}/%"):
                server.execute("DELETE FROM file WHERE installation = %s AND name LIKE %s", (self.name, name))  # fmt: skip
            server.execute("DELETE FROM part WHERE installation = %s AND session = %s", (self.name, number))  # fmt: skip
            drop_unused(server, self.name)

        self.patiently(lambda server: self.live(server, lambda: remove(server)))
        shutil.rmtree(f"{self.record}.{session}", ignore_errors=True)

    # --- copies in the folder ---

    def fetch(self, server: Any) -> None:
        """Makes the files of the folder what the store has at one moment."""
        with server.transaction():
            server.execute("SET TRANSACTION ISOLATION LEVEL REPEATABLE READ")
            self.session = server.execute("SELECT session FROM installation WHERE name = %(name)s", self.values()).fetchone()[0]  # fmt: skip
            remove_others(self.folder, files_of(server, self.name))
            download_all(server, self.name, self.folder)
            self.place = write_recording(server, self.name, self.session, self.record)

    # --- the engine ---

    def begin_engine(self) -> None:
        """Says from now on that this engine goes on, and keeps its files."""
        self.is_engine = True
        self.settled = time.monotonic()
        self.keeper.begin()
        threading.Thread(target=self.beat_all, daemon=True).start()

    def beat_all(self) -> None:
        """Says others that this engine goes on, and finds out if it does not."""
        line = Line(self.url, f"{self.name} beat", SOON)
        while not self.is_leaving and not self.is_lost:
            try:
                self.has_lock = self.has_lock and line.server is not None
                line.do(self.beat, SECONDS_TO_BEAT_ONCE)
            except psycopg.Error as error:
                self.known = ["?", first_line(error)]
            if self.is_lost:
                self.on_lost()
            time.sleep(SECONDS_TO_BEAT if line.server else SECONDS_TO_TRY_AGAIN)
        line.close()

    def beat(self, server: Any) -> None:
        self.has_lock = self.has_lock or server.execute(LOCK, self.values()).fetchone()[0]
        is_mine = server.execute(BEAT, self.values()).rowcount == 1
        host, port, copies = server.execute(WHERE_IT_IS).fetchone()
        text = f"each commit is at a copy too ({copies})" if copies else "NO synchronous copy: a lost host takes lines with it"  # fmt: skip
        self.known = [f"{host}:{port}", text]
        self.is_lost = self.is_lost or not is_mine and not self.is_leaving

    def tell_online(self, where: str) -> None:
        self.keeper.later(lambda server: self.live(server, lambda: server.execute(
            "UPDATE lease SET address = %s WHERE name = %s", (f"{socket.gethostname()} {where}", self.name))))  # fmt: skip

    def leave(self) -> None:
        if not self.is_engine or self.is_leaving:
            return
        # what nobody waits for is kept all the same, since another host may go on from it
        done, ends = self.keeper.later(lambda server: None), time.monotonic() + SECONDS_TO_ANSWER
        while not self.is_lost and time.monotonic() < ends and not done.wait(SECONDS_TO_TRY_AGAIN):
            pass
        self.is_leaving = True
        self.keeper.close()
        if not self.is_lost:
            line = Line(self.url, self.name, SOON)
            with contextlib.suppress(psycopg.Error, Lost):
                line.do(lambda server: self.live(server, lambda: server.execute(
                    "UPDATE lease SET holder = NULL, address = NULL WHERE name = %s", (self.name,))))  # fmt: skip
            line.close()
