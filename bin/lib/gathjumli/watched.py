"""Runs the program for somebody at a terminal: watched.py NAME SCRIPT PROGRAM WORD.., as bin/lib/program.sh calls it.

What the program prints is passed on as it appears. After two seconds a line at the terminal, which is file descriptor 3, says how many
of the script's events are done: a turn counts as one. Whatever ends the program, all that it had printed is passed on."""
from __future__ import annotations

from typing import Any

import os
import re
import selectors
import signal
import subprocess
import sys
import time
import tty

SECONDS_UNTIL_SHOWN, SECONDS_BETWEEN = 2, 0.5
CHUNK = 1 << 16
TERMINAL = 3
ERASE = b"\r\x1b[K"
# the line that says how an event ended, with a digit where units ran and an S or I where a device was served
ENDED = re.compile(rb"^= (?:IDLE$|\S+ (?:(\d)|(?:(S|I|F)[A-Z]+)))", re.M)


def turns_in(script: Any) -> int:
    """How many runs, serves and turns a script has, or 0 if it cannot be read before the program reads it."""
    if not os.path.isfile(script):
        return 0
    count, cards = 0, 0
    with open(script, "rb") as lines:
        for line in lines:
            word, _, rest = line.partition(b" ")
            if cards:
                cards -= 1
            elif word == b"DECK":
                cards = number_at_end(rest)
            elif word == b"AUTO":
                count += number_at_end(rest)
            else:
                count += word in (b"RUN", b"SERVE")
    return count


def number_at_end(text: Any) -> int:
    found = re.search(rb"[0-9]{1,7}\s*$", text)
    return int(found[0]) if found else 0


class Count:
    """Counts the events that a transcript has the ends of. A serve that follows a slice is of the same turn."""

    def __init__(self) -> None:
        self.done = 0
        self.left = b""
        self.was_slice = False

    def take(self, data: bytes) -> None:
        data = self.left + data
        end = data.rfind(b"\n") + 1
        self.left = data[end:]
        for found in ENDED.finditer(data, 0, end):
            is_slice = found[1] is not None
            self.done += is_slice or found[2] is None or not self.was_slice
            self.was_slice = is_slice


class Progress:
    """The line that says how far the run is."""

    def __init__(self, name: str, script: str) -> None:
        self.name = name
        self.count = Count()
        self.all = turns_in(script)
        self.is_shown = False
        self.next = time.monotonic() + SECONDS_UNTIL_SHOWN

    def wait(self) -> float:
        """The seconds until the line is to be shown again."""
        return max(0.0, self.next - time.monotonic())

    def show(self) -> None:
        self.next = time.monotonic() + SECONDS_BETWEEN
        of_all = f" of {self.all:,}" if self.all else ""
        done = min(self.count.done, self.all or self.count.done)
        self.write(ERASE + f"{self.name}: events done: {done:,}{of_all}".encode())
        self.is_shown = True

    def hide(self) -> None:
        if self.is_shown:
            self.write(ERASE)
            self.is_shown = False

    def write(self, data: bytes) -> None:
        try:
            os.write(TERMINAL, data)
        except OSError:
            # nobody looks on any more
            self.next = float("inf")


def opened() -> tuple[int, int]:
    """What the program writes to, and where that is read: a terminal if standard output is one, so that each event's lines come when
    it is done."""
    if not os.isatty(1):
        return os.pipe()
    reader, writer = os.openpty()
    # bytes are passed on as they are
    tty.setraw(writer)
    return reader, writer


def read(reader: int) -> bytes:
    """What has come, and nothing at the end."""
    try:
        return os.read(reader, CHUNK)
    except OSError:
        # a terminal that nobody writes to any more
        return b""


def pass_on(data: bytes) -> None:
    while data:
        data = data[os.write(1, data) :]


def watch(reader: int, progress: Progress) -> None:
    """Passes on what the program prints, until it has ended."""
    with selectors.DefaultSelector() as selector:
        selector.register(reader, selectors.EVENT_READ)
        while True:
            if not selector.select(progress.wait()):
                progress.show()
                continue
            data = read(reader)
            if not data:
                break
            progress.count.take(data)
            if os.isatty(1):
                progress.hide()
            pass_on(data)
            if not progress.wait():
                progress.show()
    progress.hide()


def main(name: str, script: str, *words: str) -> int:
    reader, writer = opened()
    process = subprocess.Popen(words, stdout=writer)
    os.close(writer)
    for number in (signal.SIGINT, signal.SIGTERM, signal.SIGHUP):
        signal.signal(number, lambda *_: process.terminate())
    try:
        watch(reader, Progress(name, script))
    except BrokenPipeError:
        # nobody reads on: the program finds that out
        os.close(reader)
    status = process.wait()
    return status if status >= 0 else 128 - status


if __name__ == "__main__":
    sys.exit(main(*sys.argv[1:]))
