#!/usr/bin/env python3
"""Measures a program's memory and its state while it is given a script part by part: tests/commands/growth.py [--program PATH]
[--thousands N] [--rounds N] [PART]... The parts are typed and closed. Neither may grow with lines that were typed and shown, nor with
what was in files that were written, also where a reader had them as decks; and the transcript of such parts, with its files, is that of
the whole script. The last line is 'N passed, M failed'."""
from __future__ import annotations

import os
import subprocess
import sys
import tempfile
from typing import NamedTuple

sys.dont_write_bytecode = True
TOP = os.path.dirname(os.path.dirname(os.path.dirname(os.path.realpath(__file__))))
sys.path[:0] = [TOP, f"{TOP}/bin/lib"]

from gathjumli.cli import last, number, read_arguments
from tests.commands.broken import Case, Check, Running, transcript_of
from tests.lib.counting import Counts
from tests.lib.files import write
from tests.lib.places import PROGRAM


class Size(NamedTuple):
    """What a program takes: its memory, and its state, in bytes."""

    memory: int
    state: int


def measured(running: Running, what: str) -> Size:
    """What a program takes now, which is said."""
    with open(f"/proc/{running.process.pid}/status", encoding="ascii") as file:
        kilobytes = next(int(line.split()[1]) for line in file if line.startswith("VmRSS"))
    found = Size(kilobytes << 10, len(running.save()))
    text = f"({what}: {kilobytes} kB, a state of {found.state} bytes)"
    print(text, file=sys.stderr, flush=True)
    return found


# --- typed lines ---

TYPISTS = b"USER A PW 8K\nCONSOLE 009 3215\nUSER B PW 8K\nCONSOLE 009 3215\n"
# a thousand lines: half are answered, and with half a message is delivered too
PART = b"LINE A DISPLAY G1\nLINE B MSG A HELLO\n" * 500
# after so many parts memory is measured first
FIRST_PARTS = 10
# what a program may take more than after its first parts: its allocator moves
MOST_GROWTH = 2 << 20


def typed(program: str, parts: int, folder: str) -> list[Size]:
    """Types so many parts; what the program takes after the first ones, and several times until the end."""
    running, found = Running(program, Case("typed lines", TYPISTS, [], [], [], None), folder), []
    try:
        running.part(b"LINE A LOGON\nLINE B LOGON\n")
        for done in range(1, parts + 1):
            running.part(PART)
            is_next = done > FIRST_PARTS and done % max(1, parts // 20) == 0
            if done in (FIRST_PARTS, parts) or is_next:
                found.append(measured(running, f"{done} thousand lines"))
        return found
    finally:
        running.close()


def try_typed(check: Check, program: str, parts: int) -> None:
    """Memory and state stay as they are after the first parts."""
    with tempfile.TemporaryDirectory(prefix="typed-lines-") as folder:
        first, *_, last_one = typed(program, parts, folder)
    is_flat = last_one.memory <= first.memory + MOST_GROWTH
    check(f"{parts} thousand typed lines: memory", is_flat, first, last_one)
    is_same = last_one.state == first.state
    check(f"{parts} thousand typed lines: the state", is_same, first, last_one)


# --- closed files ---

DIRECTORY = b"USER A PW 8K\nSPOOL 00D PUNCH\nSPOOL 00E PRINTER\nUSER B PW 8K\nSPOOL 00C READER\n"
ENTRIES = 40
# it punches and prints for ever: the channel program at 800 punches so many cards, that at A00 prints so many lines
GUEST = [
    "STORE 200 D203004803009C00000D9D00000D4720",
    "STORE 210 020AD203004803049C00000E9D00000E",
    "STORE 220 4720021C47F00200",
    "STORE 300 0000080000000A00",
    "STORE C00 " + "C1" * 16,
    *(
        f"STORE {start + 8 * place:X} {code}000C00{'40' if place < ENTRIES - 1 else '00'}000010"
        for start, code in ((0x800, "01"), (0xA00, "09"))
        for place in range(ENTRIES)
    ),
    "BEGIN 200",
]
# files that a round closes
FILES = 3
# rounds before memory is measured first
FIRST_ROUNDS = 100
# what a closed file may take without its entries, which took some thousands of bytes; and by how much memory may grow besides
MOST_OF_FILE = 200
MOST_OF_STATE = 40
MOST_MORE = 1 << 20


def round_of(place: int) -> bytes:
    """A round that closes a printer file and a punch file for the operator, and a deck for B, who purges it: a deck that waits keeps
    the entries of its file."""
    lines = ["LINE A #CP SPOOL 00D TO SYSTEM", "AUTO 4", "LINE A #CP CLOSE 00E"]
    lines += ["LINE A #CP CLOSE 00D", "LINE A #CP SPOOL 00D TO B", "AUTO 4", "LINE A #CP CLOSE 00D"]
    lines += [f"LINE B PURGE {FILES * (place + 1)}"]
    return "".join(f"{line}\n" for line in lines).encode()


def beginning() -> bytes:
    lines = ["LINE A LOGON", "LINE B LOGON", *(f"LINE A {line}" for line in GUEST)]
    return "".join(f"{line}\n" for line in lines).encode()


def try_memory(check: Check, program: str, rounds: int, folder: str) -> None:
    """Memory and state grow by the places of files, and not by their entries."""
    running, found = Running(program, Case("closed files", DIRECTORY, [], [], [], None), folder), []
    try:
        running.part(beginning())
        written = 0
        for place in range(rounds):
            shown = running.part(round_of(place))
            written += len(shown.files)
            if place + 1 in (FIRST_ROUNDS, rounds):
                found.append(measured(running, f"{place + 1} rounds, {written} bytes of files"))
    finally:
        running.close()
    first, last_one = found
    files = FILES * (rounds - FIRST_ROUNDS)
    check(f"{rounds} rounds: files have entries", written > 2 * rounds * ENTRIES * 16, written)
    is_small = last_one.memory <= first.memory + MOST_OF_FILE * files + MOST_MORE
    check(f"{rounds} rounds: memory", is_small, first, last_one)
    is_small = last_one.state <= first.state + MOST_OF_STATE * files
    check(f"{rounds} rounds: the state", is_small, first, last_one)


def try_transcript(check: Check, program: str, rounds: int, folder: str) -> None:
    """Parts, with a state between them, have the transcript of the whole script."""
    parts = [beginning(), *map(round_of, range(rounds))]
    write(f"{folder}/directory", DIRECTORY)
    write(f"{folder}/script", b"".join(parts))
    words = [program, "vm370", f"{folder}/directory", f"{folder}/script"]
    whole = subprocess.run(words, stdout=subprocess.PIPE, check=True).stdout
    case = Case("closed files", DIRECTORY, [], [], [], None)
    first, second = Running(program, case, folder), Running(program, case, folder)
    try:
        shown = list(map(first.part, parts[: rounds // 2]))
        second.restore(first.save())
        shown += list(map(second.part, parts[rounds // 2 :]))
    finally:
        first.close()
        second.close()
    check(f"{rounds} rounds in parts, and a state between them", transcript_of(shown) == whole)


def try_closed(check: Check, program: str, rounds: int) -> None:
    with tempfile.TemporaryDirectory(prefix="closed-files-") as folder:
        try_transcript(check, program, FIRST_ROUNDS, folder)
        try_memory(check, program, rounds, folder)


# each part with the option that says how long it is
PARTS = {"typed": ("--thousands", try_typed, 1000), "closed": ("--rounds", try_closed, 3000)}
OPTIONS = {
    "--program": str,
    "--thousands": number(FIRST_PARTS, 999999),
    "--rounds": number(2 * FIRST_ROUNDS, 999999),
}


def main() -> int:
    found, names = read_arguments(sys.argv[1:], OPTIONS, 0, len(PARTS))
    if unknown := [name for name in names if name not in PARTS]:
        sys.exit(f"there is no part {unknown[0]}: {' '.join(PARTS)}")
    program, counts = last(found["--program"], PROGRAM), Counts()
    for name in names or PARTS:
        option, try_part, usual = PARTS[name]
        try_part(counts.check, program, last(found[option], usual))
    return counts.report()


if __name__ == "__main__":
    sys.exit(main())
