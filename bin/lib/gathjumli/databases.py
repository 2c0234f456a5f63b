"""Connections to the PostgreSQL servers of a store. A server that hangs, a connection that breaks, and a server that is not the primary
any more are expected: whoever asks gets an error within seconds, and asks again."""
from __future__ import annotations

from collections.abc import Callable, Iterator
from typing import Any
import contextlib
import os
import socket
import threading
import time

import psycopg
from psycopg.conninfo import conninfo_to_dict, make_conninfo

from gathjumli.cli import FILE_FAILED, Failure, UsageError

SECONDS_TO_TRY_AGAIN = 0.2
# an answer that takes longer is asked for on another connection
SECONDS_TO_ANSWER, SECONDS_TO_KEEP = 5, 60
SECONDS_BETWEEN_LOOKS = 0.25
SECONDS_TO_CONNECT = 2
# no setting of a role or of a database weakens a commit; a broken connection's commit does not wait for ever
SETTINGS = (
    "-c synchronous_commit={commit} -c statement_timeout=0 -c lock_timeout=0 "
    "-c client_connection_check_interval=2s -c idle_in_transaction_session_timeout=10s"
)
ALIVE = {"keepalives_idle": 1, "keepalives_interval": 1, "keepalives_count": 3, "tcp_user_timeout": 4000}  # fmt: skip
TIMELINE = "SELECT pg_walfile_name(pg_current_wal_insert_lsn())"
TIMELINE_DIGITS = 8
# how a commit ends: when the copies have it too, when this server has it, or at once
EVERYWHERE, HERE, SOON = "on", "local", "off"


def servers_of(url: str) -> list[dict[str, Any]]:
    """Returns the address of each server that a URL names."""
    try:
        given = conninfo_to_dict(url)
    except psycopg.Error as error:
        raise UsageError(f"{url} names no database: {first_line(error)}") from None
    hosts, ports = str(given.get("host", "")).split(","), str(given.get("port", "")).split(",")
    ports = ports if len(ports) == len(hosts) else ports[:1] * len(hosts)
    return [{"host": host, "port": port} for host, port in zip(hosts, ports)]


def connected(url: str, name: str = "", commit: str = EVERYWHERE) -> Any:
    """Returns a connection to the server that takes writes. Two may take them after a switch, if the former primary was started
    again: then it is the one of the later timeline."""
    found: list[tuple[str, int, Any]] = []
    reasons: list[str] = []

    def ask(address: dict[str, Any]) -> None:
        try:
            server = connected_to(url, address, name, commit)
            with answering(server, SECONDS_TO_CONNECT):
                timeline = server.execute(TIMELINE).fetchone()[0][:TIMELINE_DIGITS]
            found.append((timeline, len(found), server))
        except (psycopg.Error, OSError) as error:
            reasons.append(first_line(error))

    threads = [
        threading.Thread(target=ask, args=(address,), daemon=True) for address in servers_of(url)
    ]
    for thread in threads:
        thread.start()
    for thread in threads:
        thread.join()
    found.sort()
    for _, _, server in found[:-1]:
        server.close()
    if not found:
        raise psycopg.OperationalError("; ".join(sorted(set(reasons))))
    return found[-1][2]


def connected_to(url: str, address: dict[str, Any], name: str, commit: str) -> Any:
    """Returns a connection to one server, if that takes writes."""
    words = make_conninfo(
        url, **address, **ALIVE, connect_timeout=SECONDS_TO_CONNECT, target_session_attrs="read-write",
        application_name=f"gathjumli {name}".strip(), options=SETTINGS.format(commit=commit))  # fmt: skip
    return psycopg.connect(words, autocommit=True)


def reached(url: str) -> Any:
    """Returns a connection for a command that does not wait for a server."""
    try:
        return connected(url)
    except psycopg.Error as error:
        raise Failure(FILE_FAILED, f"the store does not answer: {first_line(error)}") from None


def first_line(error: Exception) -> str:
    return str(error).strip().partition("\n")[0] or type(error).__name__


# --- servers that hang ---

# what each thread asks: until when and how long it waits for an answer, and on which connection
ASKED: dict[int, tuple[float, float, Any]] = {}
WATCHING = threading.Lock()
WATCHERS: list[threading.Thread] = []


@contextlib.contextmanager
def answering(server: Any, seconds: float = SECONDS_TO_ANSWER) -> Iterator[None]:
    """Ends a connection whose answer takes too long, as that of a host that hangs does: whoever waits for it gets an error."""
    with WATCHING:
        if not WATCHERS:
            WATCHERS.append(threading.Thread(target=watch, daemon=True))
            WATCHERS[0].start()
    me = threading.get_ident()
    before = ASKED.get(me)
    ASKED[me] = time.monotonic() + seconds, seconds, server
    try:
        yield
    finally:
        ASKED.pop(me, None)
        if before:
            # a step is done: the next one has its own time
            ASKED[me] = time.monotonic() + before[1], *before[1:]


def watch() -> None:
    while True:
        time.sleep(SECONDS_BETWEEN_LOOKS)
        for thread, (until, _, server) in list(ASKED.items()):
            if time.monotonic() > until and ASKED.pop(thread, None):
                hang_up(server)


def hang_up(server: Any) -> None:
    """Shuts the socket of a connection: a thread that waits for its answer gets an error."""
    with contextlib.suppress(Exception):
        with socket.socket(fileno=os.dup(server.fileno())) as found:
            found.shutdown(socket.SHUT_RDWR)


def close(server: Any) -> None:
    """Closes a connection that may be broken."""
    if server is not None:
        hang_up(server)
        with contextlib.suppress(Exception):
            server.close()


class Line:
    """A connection of one thread, which is made anew after a failure."""

    def __init__(self, url: str, name: str, commit: str) -> None:
        self.url, self.name = url, name
        # how its commits end, and how those of the connection do that it has
        self.commit = self.has = commit
        self.server: Any = None
        # what is done with a new connection before it is used
        self.prepare: Callable[[Any], None] = lambda server: None

    def do(self, work: Callable[[Any], Any], seconds: float = SECONDS_TO_ANSWER) -> Any:
        """Returns what work answers about the connection. A failure ends the connection."""
        try:
            if self.server is None:
                self.server = connected(self.url, self.name, self.commit)
                self.has = self.commit
                with answering(self.server):
                    self.prepare(self.server)
            with answering(self.server, seconds):
                if self.has != self.commit:
                    self.server.execute(f"SET synchronous_commit = {self.commit}")
                    self.has = self.commit
                return work(self.server)
        except BaseException:
            self.close()
            raise

    def close(self) -> None:
        close(self.server)
        self.server = None
