"""A pair of PostgreSQL servers for tests: a primary and its synchronous copy, in a folder, as an unprivileged user."""
from __future__ import annotations

from typing import Any
import contextlib
import glob
import os
import pwd
import shutil
import signal
import subprocess
import sys
import time

from tests.lib.host import free_port

USER = "gathjumli"
DATABASE = "gathjumli"
PATIENCE = 60
SETTINGS = """
listen_addresses = '127.0.0.1'
unix_socket_directories = ''
port = {port}
max_wal_senders = 8
max_connections = 200
wal_keep_size = 256MB
hot_standby = on
fsync = {fsync}
wal_receiver_timeout = 10s
log_min_messages = warning
shared_buffers = 32MB
"""


def end_well() -> None:
    """Has a SIGTERM end this process as any failure does, so that its servers are stopped."""

    def end(*_: Any) -> None:
        # a second one would break that off
        signal.signal(signal.SIGTERM, signal.SIG_IGN)
        sys.exit(143)

    signal.signal(signal.SIGTERM, end)


def programs() -> str | None:
    """Returns the folder of the newest server that is installed, if there is one."""
    found = glob.glob("/usr/lib/postgresql/*/bin/initdb") + glob.glob("/usr/pgsql-*/bin/initdb")
    if not found and (path := shutil.which("initdb")):
        found = [os.path.realpath(path)]
    found.sort(key=lambda path: [int(word) for word in path.split("/") if word.isdigit()])
    return os.path.dirname(found[-1]) if found else None


def runner() -> dict[str, Any]:
    """Returns what has a process run as a user who is not root: servers refuse to."""
    if os.geteuid():
        return {}
    for name in ("postgres", "nobody"):
        with contextlib.suppress(KeyError):
            found = pwd.getpwnam(name)
            return {"user": found.pw_uid, "group": found.pw_gid, "extra_groups": []}
    return {}


class Server:
    """One server in a folder of its own."""

    def __init__(self, folder: str, name: str, fsync: bool) -> None:
        self.bin, self.runner = programs(), runner()
        self.folder, self.name = f"{folder}/{name}", name
        self.fsync = "on" if fsync else "off"
        self.port = free_port()
        self.process: subprocess.Popen | None = None

    def run(self, program: str, *words: str) -> None:
        done = subprocess.run(
            [f"{self.bin}/{program}", *words], capture_output=True, cwd="/", **self.runner
        )
        if done.returncode:
            raise AssertionError(f"{program}: {done.stderr.decode(errors='replace')}")

    def make(self) -> None:
        self.run(
            "initdb",
            "--no-sync",
            "-A",
            "trust",
            "-U",
            USER,
            "-E",
            "UTF8",
            "--locale=C",
            "-D",
            self.folder,
        )
        self.write_settings()

    def write_settings(self) -> None:
        with open(f"{self.folder}/postgresql.conf", "a") as file:
            file.write(SETTINGS.format(port=self.port, fsync=self.fsync))

    def copy_of(self, primary: Server) -> None:
        where = f"host=127.0.0.1 port={primary.port} user={USER} application_name={self.name}"
        self.run(
            "pg_basebackup",
            "-D",
            self.folder,
            "-R",
            "-X",
            "stream",
            "--no-sync",
            "-c",
            "fast",
            "-d",
            where,
        )
        self.write_settings()

    def make_again(self, primary: Server) -> None:
        """Has a server that died be a copy."""
        shutil.rmtree(self.folder)
        self.copy_of(primary)
        self.start()

    def start(self) -> None:
        log = open(f"{self.folder}.log", "ab")
        self.process = subprocess.Popen(
            [f"{self.bin}/postgres", "-D", self.folder],
            stdout=log,
            stderr=log,
            cwd="/",
            start_new_session=True,
            **self.runner,
        )
        log.close()
        until = time.monotonic() + PATIENCE
        while not self.answers():
            if time.monotonic() > until or self.process.poll() is not None:
                raise AssertionError(f"{self.name} does not start: see {self.folder}.log")
            time.sleep(0.1)

    def answers(self) -> bool:
        try:
            self.ask("SELECT 1")
            return True
        except Exception:
            return False

    def url(self) -> str:
        return f"postgresql://{USER}@127.0.0.1:{self.port}/{DATABASE}"

    def ask(self, text: str, *given: Any, database: str = "postgres") -> Any:
        """Returns the rows of a question that is asked on a connection of its own."""
        import psycopg

        where = f"postgresql://{USER}@127.0.0.1:{self.port}/{database}"
        with psycopg.connect(where, autocommit=True, connect_timeout=2) as server:
            found = server.execute(text, given or None)
            return found.fetchall() if found.description else found.rowcount

    def pids(self) -> list[int]:
        """Returns the ids of the server's processes, its own first."""
        found = subprocess.run(
            ["pgrep", "-P", str(self.process.pid)], capture_output=True, text=True
        )
        return [self.process.pid, *map(int, found.stdout.split())]

    def signal_all(self, number: int) -> None:
        for pid in self.pids():
            with contextlib.suppress(ProcessLookupError):
                os.kill(pid, number)

    def kill(self) -> None:
        """Kills the server as a host does that fails."""
        self.signal_all(signal.SIGSTOP)
        self.signal_all(signal.SIGKILL)
        self.process.wait()

    def promote(self) -> None:
        self.run("pg_ctl", "promote", "-w", "-D", self.folder)

    def stop(self) -> None:
        if self.process and self.process.poll() is None:
            self.signal_all(signal.SIGCONT)
            self.process.send_signal(signal.SIGINT)
            with contextlib.suppress(subprocess.TimeoutExpired):
                self.process.wait(10)
            if self.process.poll() is None:
                self.kill()


class Pair:
    """A primary and its synchronous copy."""

    def __init__(self, folder: str, fsync: bool = False) -> None:
        os.makedirs(folder, exist_ok=True)
        if not os.geteuid():
            os.chmod(folder, 0o711)
            os.chown(folder, runner()["user"], -1)
        self.primary, self.copy = Server(folder, "first", fsync), Server(folder, "second", fsync)
        self.primary.make()
        self.primary.start()
        self.primary.ask(f"CREATE DATABASE {DATABASE}")
        self.copy.copy_of(self.primary)
        self.copy.start()
        self.wait_for_copy()

    def wait_for_copy(self) -> None:
        """Has each commit of the primary wait for the copy."""
        self.primary.ask("ALTER SYSTEM SET synchronous_standby_names = '*'")
        self.primary.ask("SELECT pg_reload_conf()")
        until = time.monotonic() + PATIENCE
        state = "SELECT count(*) FROM pg_stat_replication WHERE state = 'streaming' AND sync_state = 'sync'"
        while self.primary.ask(state) != [(1,)]:
            if time.monotonic() > until:
                raise AssertionError("the copy does not follow")
            time.sleep(0.1)

    def url(self) -> str:
        return f"postgresql://{USER}@127.0.0.1:{self.primary.port},127.0.0.1:{self.copy.port}/{DATABASE}"

    def stop(self) -> None:
        for server in (self.copy, self.primary):
            server.stop()
