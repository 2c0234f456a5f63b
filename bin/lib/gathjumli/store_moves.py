"""Moves an installation between files and a store, byte for byte (docs/HOSTS.md)."""
from __future__ import annotations

from collections.abc import Iterator
from typing import Any
import glob
import os
import re
import time

from gathjumli.cli import FILE_FAILED, Failure, REFUSED
from gathjumli.databases import SECONDS_TO_KEEP, answering
from gathjumli.recording import Recording, SAVED, SAVED_KEEPING
from gathjumli.store_tables import (
    NAME,
    SESSION_SUM,
    create_rows,
    download,
    drop_unused,
    files_of,
    make_tables,
    put_recording,
    upload,
    write_recording,
)
from gathjumli.stores import FileStore, SESSION
from gathjumli.strays import state_paths

# files next to a recording, by what follows its name
NEXT_TO_RECORDING = ("begin", "rules", "logmsg", "end-at", "web-token")
# what may be put into a store by hand, and the name that it has there
PUT = re.compile(r"directory|passwords|volume-[1-9][0-9]*|rules|logmsg")
ONLY_BEFORE = re.compile(r"directory|volume-.*")
# twice the time between two beats of an engine
SECONDS_TO_LOOK = 1.2


def create(server: Any, name: str, paths: list[str], options: dict[str, Any]) -> None:
    """Makes an installation of a directory and volumes, and of the recording with all next to it if that is given."""
    if not NAME.fullmatch(name):
        raise Failure(
            REFUSED, f"{name} is no name: a-z, 0-9, and . _ - after the first, at most 63"
        )
    make_tables(server)
    recording = Recording(FileStore(options["record"])) if options["record"] else None
    try:
        if recording and recording.last.startswith((SAVED, SAVED_KEEPING)):
            raise Failure(REFUSED, f"{recording.path} is in the midst of an end: start it once, which finishes that")  # fmt: skip
        with server.transaction():
            create_rows(server, name)
            for place, path in enumerate(paths):
                upload(server, name, f"volume-{place}" if place else "directory", path)
            if options["passwords"]:
                upload(server, name, "passwords", options["passwords"])
            if recording:
                send_recordings(server, name, recording.path)
            if options["printouts"]:
                for inner, path in printouts_in(options["printouts"]):
                    upload(server, name, inner, path)
    finally:
        if recording:
            recording.close()


def send_recordings(server: Any, name: str, record: str) -> None:
    """Puts a recording with the files next to it, and those of ended sessions, into the store."""
    session = 1
    for folder in sorted(glob.glob(f"{glob.escape(record)}.*")):
        ended = folder.removeprefix(f"{record}.")
        if not SESSION.fullmatch(ended) or not os.path.isdir(folder):
            continue
        for path in sorted(glob.glob(f"{glob.escape(folder)}/*")):
            inner = f"recording.{ended}/{os.path.basename(path)}"
            if os.path.basename(path) != "recording":
                upload(server, name, inner, path)
                continue
            size = put_recording(server, name, session, path)
            server.execute("INSERT INTO file (installation, name, sum, size) VALUES (%s, %s, %s, %s)",
                           (name, inner, f"{SESSION_SUM}{session}", size))  # fmt: skip
            session += 1
    put_recording(server, name, session, record)
    server.execute("UPDATE installation SET session = %s WHERE name = %s", (session, name))
    near = {inner: f"{record}.{inner}" for inner in NEXT_TO_RECORDING} | state_paths(record)
    for inner, path in near.items():
        if os.path.isfile(path) and ".new" not in inner:
            upload(server, name, f"recording.{inner}", path)


def printouts_in(folder: str) -> Iterator[tuple[str, str]]:
    """Yields the printouts of each session, those that are held too, with their names in a store."""
    for path in sorted(glob.glob(f"{glob.escape(folder)}/*/*") + glob.glob(f"{glob.escape(folder)}/*/held/*")):  # fmt: skip
        session = os.path.relpath(path, folder).split(os.sep)[0]
        if SESSION.fullmatch(session) and os.path.isfile(path):
            yield f"printouts/{session}/{os.path.basename(path)}", path


def fetch(server: Any, name: str, folder: str) -> int:
    """Writes all that the store has of an installation at one moment into a new folder; how many files that is."""
    if os.path.lexists(folder):
        raise Failure(REFUSED, f"{folder} is there already")
    with server.transaction():
        server.execute("SET TRANSACTION ISOLATION LEVEL REPEATABLE READ")
        session = session_of(server, name)
        os.makedirs(folder, 0o700)
        files = files_of(server, name)
        for inner, digits in files.items():
            path = os.path.abspath(os.path.join(folder, inner))
            if digits.startswith(SESSION_SUM):
                write_recording(server, name, int(digits.removeprefix(SESSION_SUM)), path)
            else:
                download(server, name, digits, path)
        size = write_recording(server, name, session, os.path.abspath(os.path.join(folder, "recording")))  # fmt: skip
        if not size:
            # nothing has begun
            os.unlink(os.path.join(folder, "recording"))
    return len(files) + bool(size)


def session_of(server: Any, name: str) -> int:
    row = server.execute("SELECT session FROM installation WHERE name = %s", (name,)).fetchone()
    if not row:
        raise Failure(REFUSED, f"the store has no installation {name}")
    return row[0]


def put(server: Any, name: str, inner: str, path: str) -> None:
    """Puts a file in the place of one of an installation with which no host goes on."""
    if not PUT.fullmatch(inner):
        raise Failure(
            REFUSED, f"{inner} is none of directory, volume-N, passwords, rules and logmsg"
        )
    session = session_of(server, name)
    refuse_engine(server, name)
    begun = server.execute("SELECT 1 FROM part WHERE installation = %s AND session = %s LIMIT 1", (name, session))  # fmt: skip
    if ONLY_BEFORE.fullmatch(inner) and begun.rowcount:
        raise Failure(
            REFUSED, f"the session of {name} is of another {inner}: give end logoff first"
        )
    known = f"recording.{inner}" if inner in NEXT_TO_RECORDING else inner
    with server.transaction():
        fence(server, name)
        upload(server, name, known, path)
        drop_unused(server, name)


def drop(server: Any, name: str) -> None:
    """Removes an installation with which no host goes on."""
    session_of(server, name)
    refuse_engine(server, name)
    with server.transaction():
        fence(server, name)
        with answering(server, SECONDS_TO_KEEP):
            server.execute("DELETE FROM installation WHERE name = %s", (name,))


def fence(server: Any, name: str) -> None:
    """Has an engine that wakes up find out that it is none any more."""
    server.execute("UPDATE installation SET epoch = epoch + 1 WHERE name = %s", (name,))


def refuse_engine(server: Any, name: str) -> None:
    """Refuses if a host goes on with an installation."""
    look = "SELECT beat, holder FROM lease WHERE name = %s"
    before, holder = server.execute(look, (name,)).fetchone()
    if holder is None:
        return
    time.sleep(SECONDS_TO_LOOK)
    if server.execute(look, (name,)).fetchone()[0] != before:
        raise Failure(REFUSED, f"{holder} goes on with {name}: suspend it first")


def list_all(server: Any) -> Iterator[str]:
    """Yields a line for each installation."""
    if not server.execute("SELECT to_regclass('lease')").fetchone()[0]:
        raise Failure(
            FILE_FAILED, "the database has no installations yet: create makes the first one"
        )
    rows = server.execute(
        "SELECT name, session, holder, address, coalesce((SELECT place + length(data) FROM part p WHERE "
        "p.installation = name AND p.session = i.session ORDER BY place DESC LIMIT 1), 0) FROM installation i JOIN lease USING (name) ORDER BY name").fetchall()  # fmt: skip
    for name, session, holder, address, size in rows:
        where = f"online at {address}" if address else "not online"
        yield f"{name}: session {session}, {size} bytes, {holder or 'no host'}, {where}"
