"""Tests how a long run is watched at a terminal (bin/lib/gathjumli/watched.py), over programs that print what is reported to them; and,
over built programs, that a terminal is shown each line when its event is over."""
from __future__ import annotations

from collections.abc import Callable
import os
import pty
import re
import select
import signal
import subprocess
import sys
import tempfile
import time

from gathjumli.watched import Count, turns_in
from tests.lib.places import TOP

# a script, how many runs, serves and turns it has, a transcript of it, and how many of them it has the ends of
COUNTED = {
    "runs": ("LINE A LOGON\nRUN A 5\nRUN A 6\n", 2, "A: LOGON OK\n= A 5 COUNT\n= A 6 WAIT\n", 2),
    "turns with a serve": (
        "AUTO 3\n",
        3,
        "= A 100 COUNT\nA: X\n= A SERVED 009\n= A 100 COUNT\n= B IDLE 00E\n= IDLE\n",
        3,
    ),
    "serves of turns without a slice": ("AUTO 2\n", 2, "= A SERVED 009\n= A SERVED 00E\n", 2),
    "what looks like an end": (
        "DECK A 1\nAUTO 9\nAUTO 2\n",
        2,
        "A: = A 1 COUNT\n== PRT 0001 A\n09 = IDLE\n",
        0,
    ),
    "half a line": ("RUN A 5\n", 1, "= A 5 COU", 0),
}

# a line, runs that take most of the time, and another line
LONG_RUN = (
    "LINE {0} LOGON\nLINE {0} STORE 100 47F00100\nLINE {0} BEGIN 100\n"
    + 40 * "RUN {0} 1000000\n"
    + "LINE {0} #CP DISPLAY PSW\n"
)


class Shown:
    """What a program shows at a terminal, in lines, and what of it went to its standard output if that is no terminal."""

    def __init__(
        self, program: str, script: str, is_piped: bool = False, interrupted_after: object = None
    ) -> None:
        outer, inner = pty.openpty()
        words = [
            sys.executable,
            f"{TOP}/bin/lib/run.py",
            "watched",
            "name",
            script,
            "sh",
            "-c",
            program,
        ]
        output = tempfile.TemporaryFile() if is_piped else inner
        process = subprocess.Popen(
            words,
            stdin=subprocess.DEVNULL,
            stdout=output,
            pass_fds=(),
            preexec_fn=lambda: os.dup2(inner, 3),
            close_fds=False,
        )
        os.close(inner)
        self.bytes, self.times, begun = b"", [], time.monotonic()
        while select.select([outer], [], [], 20)[0]:
            try:
                self.bytes += os.read(outer, 65536)
            except OSError:
                break
            self.times.append(time.monotonic() - begun)
            if interrupted_after and interrupted_after in self.bytes:
                process.send_signal(signal.SIGINT)
                interrupted_after = None
        self.status = process.wait(20)
        os.close(outer)
        if is_piped:
            output.seek(0)
            self.output = output.read()

    def left(self) -> object:
        """What is left to see of it: what was erased is not."""
        return re.sub(rb"[^\n]*\r\x1b\[K", b"", self.bytes.replace(b"\r\n", b"\n"))


def try_watching(check: Callable, folder: str) -> None:
    script = os.path.join(folder, "script")
    for name, (text, turns, transcript, done) in COUNTED.items():
        with open(script, "w") as file:
            file.write(text)
        found = Count()
        for byte in transcript.encode():
            found.take(bytes([byte]))
        check(
            f"events of {name}",
            (turns_in(script), found.done) == (turns, done),
            f"{turns_in(script)} {found.done}",
        )
    check("events of a script that is not there", turns_in(f"{folder}/none") == 0)
    with open(script, "w") as file:
        file.write("RUN A 5\nRUN A 6\n")
    findings = b"name: events done: 1 of 2"
    slow = "echo '= A 5 COUNT'; sleep 2.6; echo '= A 6 COUNT'; exit 4"
    shown = Shown(slow, script)
    check(
        "a long run is reported",
        findings in shown.bytes and shown.status == 4,
        f"{shown.status}",
        shown.bytes,
    )
    check("and then gone", shown.left() == b"= A 5 COUNT\n= A 6 COUNT\n", shown.bytes)
    check("the first line comes at once", shown.times[0] < shown.times[-1] - 2, f"{shown.times[0]}")
    piped = Shown(slow, script, is_piped=True)
    check(
        "nothing of it is in standard output",
        piped.output == b"= A 5 COUNT\n= A 6 COUNT\n" and findings in piped.bytes,
        piped.output,
        piped.bytes,
    )
    broken = Shown(
        "printf '= A 5 COUNT\nhalf a line'; exec sleep 20", script, interrupted_after=b"half"
    )
    check(
        "an interrupt loses nothing",
        broken.left() == b"= A 5 COUNT\nhalf a line" and broken.status == 143,
        f"{broken.status}",
        broken.bytes,
    )


def try_event_by_event(check: Callable, program: str, folder: str) -> None:
    """A terminal is shown what the program prints before long runs while these go on."""
    os.makedirs(folder)
    with open(f"{folder}/directory", "w") as file:
        file.write("USER A PW 8K\n")
    for part, user, first in ("vm370", "A", f"{folder}/directory"), ("bare370", "BARE", "8K"):
        with open(f"{folder}/script", "w") as file:
            file.write(LONG_RUN.format(user))
        shown, times = at_terminal([program, part, first, f"{folder}/script"])
        begin, end = f"{user}: LOGON OK".encode(), f"{user}: PSW ".encode()
        check(f"what {user}'s terminal shows", begin in shown and end in shown, shown)
        check(f"{user}'s first line comes before the run", times[0] < times[-1] / 2, *times)


def at_terminal(words: list[str]) -> tuple[bytes, list[float]]:
    """What a program shows at a terminal, and when each piece of it came."""
    outer, inner = pty.openpty()
    begun = time.monotonic()
    with subprocess.Popen(words, stdin=subprocess.DEVNULL, stdout=inner, stderr=inner):
        os.close(inner)
        shown, times = b"", []
        with open(outer, "rb", buffering=0) as terminal:
            try:
                while piece := terminal.read(65536):
                    shown += piece
                    times.append(time.monotonic() - begun)
            except OSError:
                # nobody has the terminal any more
                pass
    return shown, times
