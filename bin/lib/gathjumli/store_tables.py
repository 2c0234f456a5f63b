"""The tables of a store in PostgreSQL, and how files and recordings go into them and come out (docs/HOSTS.md)."""
from __future__ import annotations

from collections.abc import Iterator
from typing import Any, BinaryIO
import contextlib
import hashlib
import os
import re

from gathjumli.cli import Failure, REFUSED
from gathjumli.databases import SECONDS_TO_KEEP, answering

# the beat is apart, since a commit locks the row of the installation; a probe finds out whether a copy answers again
SCHEMA = """
SELECT pg_advisory_xact_lock(hashtext('gathjumli tables'));
CREATE TABLE IF NOT EXISTS installation (name text PRIMARY KEY, epoch bigint NOT NULL DEFAULT 0, session int NOT NULL DEFAULT 1);
CREATE TABLE IF NOT EXISTS lease (name text PRIMARY KEY REFERENCES installation ON DELETE CASCADE, beat bigint NOT NULL DEFAULT 0,
    holder text, address text);
CREATE TABLE IF NOT EXISTS part (installation text REFERENCES installation ON DELETE CASCADE, session int, place bigint,
    epoch bigint NOT NULL, at timestamptz NOT NULL DEFAULT now(), data bytea NOT NULL, PRIMARY KEY (installation, session, place));
CREATE TABLE IF NOT EXISTS file (installation text REFERENCES installation ON DELETE CASCADE, name text, sum text NOT NULL,
    size bigint NOT NULL, at timestamptz NOT NULL DEFAULT now(), PRIMARY KEY (installation, name));
CREATE TABLE IF NOT EXISTS piece (installation text REFERENCES installation ON DELETE CASCADE, sum text, number int,
    data bytea NOT NULL, PRIMARY KEY (installation, sum, number));
CREATE TABLE IF NOT EXISTS probe (number bigserial PRIMARY KEY, installation text NOT NULL);
"""
NAME = re.compile(r"[a-z0-9][a-z0-9._-]{0,62}")
PIECE = 1 << 20
# in the place of the sum of an ended session's recording: its bytes are parts
SESSION_SUM = "session "
# the one row that says which engine may write; others' commits and a change of the epoch exclude each other
LIVE = "SELECT 1 FROM installation WHERE name = %(name)s AND epoch = %(epoch)s FOR SHARE"
APPEND = f"""WITH live AS ({LIVE}) INSERT INTO part (installation, session, place, epoch, data)
    SELECT %(name)s, %(session)s, %(place)s, %(epoch)s, %(data)s FROM live ON CONFLICT DO NOTHING"""
# how long a recording is
END = """SELECT place + length(data) FROM part WHERE installation = %(name)s AND session = %(session)s
    ORDER BY place DESC LIMIT 1"""
STATES = "recording.state-%"


def make_tables(server: Any) -> None:
    with server.transaction():
        server.execute(SCHEMA)


def create_rows(server: Any, name: str) -> None:
    """Makes the rows of a new installation."""
    made = server.execute("INSERT INTO installation (name) VALUES (%s) ON CONFLICT DO NOTHING", (name,)).rowcount  # fmt: skip
    if not made:
        raise Failure(REFUSED, f"the store has an installation {name}")
    server.execute("INSERT INTO lease (name) VALUES (%s)", (name,))


# --- files ---


def sum_of(file: BinaryIO) -> tuple[str, int]:
    """Returns the sum and the size of a file."""
    known, size = hashlib.sha256(), 0
    while data := file.read(PIECE):
        known.update(data)
        size += len(data)
    return known.hexdigest(), size


def upload(server: Any, installation: str, name: str, path: str) -> None:
    """Puts a file into the store under a name. Bytes that the store has already are not sent again."""
    with open(path, "rb") as file:
        digits, size = sum_of(file)
        found = server.execute("SELECT 1 FROM piece WHERE installation = %s AND sum = %s LIMIT 1", (installation, digits))  # fmt: skip
        if not found.rowcount:
            file.seek(0)
            send_pieces(server, installation, digits, file)
    server.execute(
        "INSERT INTO file (installation, name, sum, size) VALUES (%s, %s, %s, %s) ON CONFLICT (installation, name) "
        "DO UPDATE SET sum = excluded.sum, size = excluded.size, at = now()", (installation, name, digits, size))  # fmt: skip


def send_pieces(server: Any, installation: str, digits: str, file: BinaryIO) -> None:
    number, known = 0, hashlib.sha256()
    # an empty file has one piece too
    while (data := file.read(PIECE)) or not number:
        known.update(data)
        with answering(server, SECONDS_TO_KEEP):
            server.execute("INSERT INTO piece VALUES (%s, %s, %s, %s)", (installation, digits, number, data))  # fmt: skip
        number += 1
    if known.hexdigest() != digits:
        raise OSError(0, "the file changes while it is read")


def download(server: Any, installation: str, digits: str, path: str) -> None:
    """Makes a file here what the store has under this sum, if it is not that already."""
    if is_file_of(path, digits):
        return
    known, copied = hashlib.sha256(), f"{path}.copy"
    os.makedirs(os.path.dirname(path), 0o700, exist_ok=True)
    with open(os.open(copied, os.O_WRONLY | os.O_CREAT | os.O_TRUNC, 0o600), "wb") as file:
        for data in pieces(server, installation, digits):
            known.update(data)
            file.write(data)
    if known.hexdigest() != digits:
        os.unlink(copied)
        raise Failure(REFUSED, f"{path}: the store has another file than it says")
    # it need not outlive a crash of this host: the store has it, and its sum is compared again
    os.replace(copied, path)


def is_file_of(path: str, digits: str) -> bool:
    with contextlib.suppress(FileNotFoundError), open(path, "rb") as file:
        return sum_of(file)[0] == digits
    return False


def pieces(server: Any, installation: str, digits: str) -> Iterator[bytes]:
    number = 0
    while True:
        with answering(server, SECONDS_TO_KEEP):
            row = server.execute("SELECT data FROM piece WHERE installation = %s AND sum = %s AND number = %s",
                                 (installation, digits, number), binary=True).fetchone()  # fmt: skip
        if not row:
            return
        yield row[0]
        number += 1


def files_of(server: Any, installation: str) -> dict[str, str]:
    """Returns the sums of all files of an installation, by their names."""
    return dict(server.execute("SELECT name, sum FROM file WHERE installation = %s ORDER BY name", (installation,)).fetchall())  # fmt: skip


def drop_unused(server: Any, installation: str) -> None:
    """Removes bytes that no file has any more."""
    server.execute(
        "DELETE FROM piece p WHERE installation = %s AND NOT EXISTS (SELECT FROM file f WHERE f.installation = p.installation "
        "AND f.sum = p.sum)", (installation,))  # fmt: skip


# --- recordings ---


def parts_after(server: Any, installation: str, session: int, place: int) -> list[tuple[int, bytes]]:  # fmt: skip
    """Returns what a recording has from a place on, at most some pieces, each with its place."""
    return server.execute(
        "SELECT place, data FROM part WHERE installation = %s AND session = %s AND place >= %s ORDER BY place LIMIT 256",
        (installation, session, place), binary=True).fetchall()  # fmt: skip


def recording_after(server: Any, installation: str, session: int, place: int) -> Iterator[bytes]:
    """Yields the bytes of a recording from a place on. A gap is refused."""
    while True:
        with answering(server, SECONDS_TO_KEEP):
            rows = parts_after(server, installation, session, place)
        if not rows:
            return
        for at, data in rows:
            if at != place:
                raise Failure(REFUSED, f"the store has no bytes {place} to {at} of the recording of {installation}")  # fmt: skip
            place += len(data)
            yield data


def write_recording(server: Any, installation: str, session: int, path: str) -> int:
    """Writes a recording of the store into a file; its size."""
    os.makedirs(os.path.dirname(path), 0o700, exist_ok=True)
    copied, size = f"{path}.copy", 0
    with open(os.open(copied, os.O_WRONLY | os.O_CREAT | os.O_TRUNC, 0o600), "wb") as file:
        for data in recording_after(server, installation, session, 0):
            file.write(data)
            size += len(data)
    os.replace(copied, path)
    return size


def put_recording(server: Any, installation: str, session: int, path: str) -> int:
    """Puts a recording of a file into the store; its size."""
    place = 0
    with open(path, "rb") as file:
        while data := file.read(PIECE >> 4):
            with answering(server, SECONDS_TO_KEEP):
                server.execute("INSERT INTO part (installation, session, place, epoch, data) VALUES (%s, %s, %s, 0, %s)",
                               (installation, session, place, data))  # fmt: skip
            place += len(data)
    return place
