"""An installation, and people at it, as programs."""
from __future__ import annotations

from collections.abc import Callable, Iterator
import asyncio
import atexit
import contextlib
import os
import re
import resource
import select
import signal
import subprocess
import sys
import tempfile
import time

from tests.lib.host import memory_of

# what somebody is reported who has come
BANNER = "GATHJUMLI ONLINE: TYPE LOGON NAME"
# how long anything that has to come may take
PATIENCE = 60


class Site:
    """An installation that can be started, ended and killed; what its operator was reported."""

    def __init__(self, command: str, folder: str, directory: str, *words: object) -> None:
        self.command = command
        self.folder = folder
        self.record = f"{folder}/recording"
        self.words = ["--record", self.record, "--listen", f"{folder}/socket", *words]
        self.paths = [directory]
        self.process = None
        self.findings = []

    def start(self, *more: object, most_bytes: object = None) -> object:
        """Starts it; most_bytes: how long a file may become, as on a disk that is full."""
        before = most_bytes and (
            lambda: resource.setrlimit(resource.RLIMIT_FSIZE, (most_bytes, most_bytes))
        )
        streams = {"stdin": subprocess.PIPE, "stdout": subprocess.PIPE, "stderr": subprocess.STDOUT}
        words = [self.command, *self.words, *more, *self.paths]
        self.process = subprocess.Popen(
            words, start_new_session=True, text=True, bufsize=1, preexec_fn=before, **streams
        )
        self.findings.append("")
        # whatever ends this, it does not stay
        atexit.register(self.process.kill)
        return self

    def online(self, *more: object, most_bytes: object = None) -> object:
        self.start(*more, most_bytes=most_bytes)
        if not self.await_message("online at"):
            raise AssertionError("\n".join(self.findings))
        return self

    def await_message(self, text: str, seconds: object = PATIENCE) -> bool:
        """Waits until a text was shown to the operator since the last start; whether that came. Progress makes it patient."""
        until = time.monotonic() + seconds
        output = self.process.stdout
        while text not in self.since_start():
            if not select.select([output], [], [], max(0, until - time.monotonic()))[0]:
                return False
            if not (data := os.read(output.fileno(), 65536)):
                return text in self.since_start()
            self.findings.append(data.decode(errors="replace"))
            if "% done" in self.findings[-1]:
                # it goes on from a recording, and says that it appears on
                until = time.monotonic() + seconds
        return True

    def since_start(self) -> str:
        last = max(place for place, item in enumerate(self.findings) if not item)
        return "".join(self.findings[last:])

    def operate(self, line: bytes) -> None:
        self.process.stdin.write(f"{line}\n")
        self.process.stdin.flush()

    def ended(self, seconds: float | None = None) -> object:
        """Waits until it has ended, so long at most; its status."""
        self.findings.append(self.process.communicate(timeout=seconds or PATIENCE)[0] or "-")
        return self.process.returncode

    def stop(self) -> object:
        self.process.send_signal(signal.SIGTERM)
        return self.ended()

    def program(self) -> object:
        """The id of the program that it runs, or None."""
        found = subprocess.run(
            ["pgrep", "-P", str(self.process.pid), "-f", " vm370 "],
            capture_output=True,
            text=True,
        ).stdout.split()
        return int(found[0]) if found else None

    def kill(self, is_all: bool = False) -> None:
        """Kills it as a host does that fails, and with it the program."""
        child = self.program() if is_all else None
        self.process.kill()
        if child:
            with contextlib.suppress(ProcessLookupError):
                os.kill(child, signal.SIGKILL)
        self.process.communicate()

    def told_memory(self) -> str:
        """How much memory the command and its program had at most."""
        sizes = [memory_of(process) // 1024 for process in (self.process.pid, self.program())]
        return f"command {sizes[0]} MB, program {sizes[1]} MB"

    def session(self) -> str:
        """The name of the session that is under way."""
        with open(self.record) as file:
            begun = re.search(r"^\* BEGUN (\S+) (\S+) UTC$", file.read(), re.M)
        return f"{begun[1]}-{begun[2].replace(':', '')}"


class Person:
    """Somebody at a terminal, by a socket or an address."""

    def __init__(self, where: object) -> None:
        self.where = where
        self.lines = []
        # how long the next line may take
        self.patience = PATIENCE

    async def come(self) -> object:
        if isinstance(self.where, tuple):
            self.reader, self.writer = await asyncio.open_connection(*self.where)
        else:
            self.reader, self.writer = await asyncio.open_unix_connection(self.where)
        return self

    async def line(self) -> None:
        """The next line that is shown, or None at the end."""
        data = await asyncio.wait_for(self.reader.readline(), self.patience)
        if not data:
            return None
        self.lines.append(data.decode("latin-1").rstrip("\r\n"))
        return self.lines[-1]

    async def until(self, *texts: object) -> object:
        """The next line that is one of these; all that came until then are kept."""
        while (line := await self.line()) not in texts:
            if line is None:
                raise ConnectionError(f"ended before {texts}: {self.lines[-5:]}")
        return line

    def type(self, *lines: object) -> None:
        self.writer.write("".join(f"{line}\r\n" for line in lines).encode("latin-1"))

    async def logon(self, name: str, password: str) -> object:
        """Logs on; what is answered."""
        self.type(f"LOGON {name} {password}")
        await self.until(BANNER)
        return await self.line()

    async def rest(self) -> object:
        """All lines until the connection ends."""
        with contextlib.suppress(ConnectionError):
            while await self.line() is not None:
                pass
        return self.lines

    def go(self) -> None:
        """Goes without a word."""
        self.writer.transport.abort()


async def until_so(holds: object) -> None:
    """Waits until something holds, with patience."""
    until = time.monotonic() + PATIENCE
    while not holds() and time.monotonic() < until:
        await asyncio.sleep(0.05)


async def person(where: object) -> object:
    return await Person(where).come()


def sizes_of(record: object) -> list:
    """The words for the frames and slots of a recording."""
    with open(record) as file:
        return (
            re.search(r"^\* SIZES (\d+) (\d+)$", file.read(), re.M)
            .expand(r"--frames \1 --slots \2")
            .split()
        )


def replayed(program: str, directory: str, record: object, volumes: tuple = ()) -> tuple:
    """What the program itself makes of a recording: what each user was shown, and all of it."""
    words = [program, "vm370", *sizes_of(record), "--", directory, record, *volumes]
    shown, is_over = {}, False
    with tempfile.TemporaryFile() as errors, subprocess.Popen(
        words, stdout=subprocess.PIPE, stderr=errors
    ) as run_again:
        for line in reported_lines(run_again.stdout):
            is_over = is_over or line.startswith(b"== ")
            name, colon, text = line.decode("latin-1").partition(": ")
            if colon and not is_over:
                # a guest that prints for ever prints the same lines: each is kept once
                shown.setdefault(name, []).append(sys.intern(text))
        status = run_again.wait()
        errors.seek(0)
        done = subprocess.CompletedProcess(words, status, stderr=errors.read())
    return done, shown


def reported_lines(stream: object) -> Iterator:
    """The lines of a transcript but for those that say how turns ended, of which minutes of computing have a billion."""
    left = b""
    while data := stream.read1(1 << 16):
        whole, _, left = (left + data).rpartition(b"\n")
        if b": " in whole or b"== " in whole:
            yield from (part for part in whole.split(b"\n") if not part.startswith(b"= "))


run = asyncio.run


# --- sites with three users ---

DEVICES = "CONSOLE 009 3215\nSPOOL 00C READER\nSPOOL 00D PUNCH\nSPOOL 00E PRINTER\n"
DIRECTORY = "".join(
    f"USER {name} {password} 64K\n{DEVICES}"
    for name, password in (("ALICE", "WONDER"), ("BOB", "BUILDER"), ("OPER", "SECRET"))
)


def make_site(command: str, folder: str, *words: object) -> object:
    os.makedirs(folder)
    with open(f"{folder}/directory", "w") as file:
        file.write(DIRECTORY)
    return Site(command, folder, f"{folder}/directory", *words)


async def logged_on(site: object, name: str, password: str) -> object:
    """Logs on, and leaves."""
    one = await person(f"{site.folder}/socket")
    answer = await one.logon(name, password)
    one.go()
    return answer


async def on(site: object, name: str = "ALICE", password: str = "WONDER") -> object:
    """Somebody who has logged on."""
    one = await person(f"{site.folder}/socket")
    await one.logon(name, password)
    return one


async def answered(one: Person, until: Callable[[], bool], pause: float = 0.01) -> list[float]:
    """How long a line takes that somebody types again and again, in order of length."""
    took = []
    while not until():
        begun = time.monotonic()
        one.type("DISPLAY G1")
        await one.until("GPR 1 = 00000000")
        took.append(time.monotonic() - begun)
        await asyncio.sleep(pause)
    return sorted(took)


def processor_ticks(site: object) -> object:
    """The processor time that the command and its program took until now, in ticks of the host."""
    total = 0
    for process in (site.process.pid, site.program()):
        with open(f"/proc/{process}/stat") as file:
            fields = file.read().rpartition(")")[2].split()
        total += int(fields[11]) + int(fields[12])
    return total


# a guest that prints a line: SIO, TIO until that is done, and a disabled wait
PRINTS = ("STORE 48 00000800", "STORE 800 0900084020000005", "STORE 840 C8C5D3D3D6", "STORE 200 0002000000000000",
          "STORE 100 9C00000E9D00000E4770010482000200", "BEGIN 100")  # fmt: skip


def printing_for_ever(device: str) -> list[str]:
    """A guest that has a console or printer print lines for ever: it starts a program there, waits until that is done, and so on."""
    lines = [f"STORE {0x840 + 16 * number:X} {'C1' * 16}" for number in range(8)]
    program = f"STORE 100 9C000{device}9D000{device}4770010447F00100"
    return ["STORE 48 00000800", "STORE 800 0900084020000078", program, *lines, "BEGIN 100"]
