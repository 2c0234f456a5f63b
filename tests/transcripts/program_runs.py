"""Plays the tables of runs of programs, transcripts/runs-*.txt: what each program answers to its words and files.

A paragraph ends with an empty line, and has one folder, in which its files stay from run to run.
    < NAME TEXT          the file NAME has this text: \\n is LF, \\ and two digits any other byte
    > LINE               a line more of the file 'script', whose last line has no LF
    x NAME DIGITS ..     the file has these bytes; C1*80 is eighty bytes C1. A blank NAME stands for no bytes
    + NAME DIGITS ..     such bytes after its last
    @ NAME PLACE DIGITS  bytes of it are changed, from a decimal place on
    / NAME LENGTH        it is cut to so many bytes
    $ PROGRAM WORD ..    a run; the lines after it say the effect of it, where it is not status 0 and nothing reported:
    ! STATUS LINE        its exit status, and the line of standard error, of which nothing is compared where it is left out
    ~ TEXT               standard error has this text in it
    ; NAME PLACE DIGITS  from this place on the file has these bytes, and ends
    ? NUMBER LINE        this line of standard output, counted from 0; those that are not named so are not compared
    * COUNT LINE         so many such lines of standard output
    ^ FROM TO STATUS LINE   over each beginning of its file (its directory, or the last) of FROM to TO - 1 bytes it ends so
    % PAGES | PAGES | PAGES | N    of a map of one user: pages that have frames, that have slots, that have neither, and PAGE INS
    &                    a write that fails at any byte of standard output is reported, after all bytes before it
    # ..                 a comment
Any other line is one of standard output."""
from __future__ import annotations

from collections.abc import Iterator
import os
import re
import resource
import subprocess
import tempfile

from tests.lib.files import read

# a run takes some milliseconds
SECONDS = 120


def text_of(spelled: object) -> bytes:
    """The bytes of a text."""
    out = bytearray()
    for part in re.split(r"(\\n|\\[0-9A-F]{2})", spelled):
        out += (
            b"\n"
            if part == "\\n"
            else bytes.fromhex(part[1:])
            if part[:1] == "\\"
            else part.encode()
        )
    return bytes(out)


def bytes_of(words: list[str]) -> str:
    """The bytes that words of digits spell."""
    parts = (word.split("*") for word in words)
    return b"".join(
        bytes.fromhex(part[0]) * int(part[1] if len(part) > 1 else 1)
        for part in parts
        if part[0] != "-"
    )


class Run:
    """A run, with the changes of files before it and what is wanted of it."""

    def __init__(self) -> None:
        self.place, self.changes, self.words, self.findings = "", [], [], []
        self.status, self.error, self.has, self.lines, self.files = 0, "", None, {}, []
        self.beginnings, self.pages, self.fails_writes = [], None, False

    def expect(self, mark: object, text: str) -> bool:
        """A line after the run; whether it is one that says the effect of it."""
        if mark == "!":
            status, _, line = text.partition(" ")
            self.status, self.error = int(status), line or None
        elif mark == "~":
            self.error, self.has = None, text
        elif mark == ";":
            name, place, *words = text.split()
            self.files.append((name, int(place), bytes_of(words)))
        elif mark == "?":
            number, _, line = text.partition(" ")
            self.lines[int(number)] = line
        elif mark == "*":
            count, _, line = text.partition(" ")
            self.findings += int(count) * [line]
        elif mark == "^":
            self.beginnings.append(text.split(" ", 3))
        elif mark == "%":
            self.pages = text
        elif mark == "&":
            self.fails_writes = True
        else:
            return False
        return True


def runs_of(path: str) -> object:
    """The paragraphs of a table, each a list of its runs."""
    paragraphs, runs, run = [], [], None
    name = os.path.basename(path)
    with open(path, newline="") as file:
        lines = file.read().split("\n")
    for number, line in enumerate(lines, 1):
        mark, text = line[:1], line[2:]
        if not line:
            paragraphs += [runs] if runs else []
            runs, run = [], None
        elif mark == "#":
            continue
        elif mark in "<>x+@/" and line[1:2] in (" ", ""):
            if run is None or run.words:
                run = Run()
            run.changes.append((mark, text))
        elif mark == "$" and line[1:2] == " ":
            if run is None or run.words:
                run = Run()
            run.place, run.words = f"{name}:{number}", text.split()
            runs.append(run)
        elif line[1:2] not in (" ", "") or not run.expect(mark, text):
            run.findings.append(line)
    return paragraphs + ([runs] if runs else [])


def change(room: int, mark: object, text: str) -> None:
    """Changes a file of a room."""
    name, _, rest = ("script", "", text) if mark == ">" else text.partition(" ")
    path = f"{room}/{name}"
    old = read(path) if os.path.exists(path) else b""
    if mark == "<":
        data = text_of(rest)
    elif mark == ">":
        data = (old + b"\n" if old or os.path.exists(path) else b"") + text_of(rest)
    elif mark == "x":
        data = bytes_of(rest.split())
    elif mark == "+":
        data = old + bytes_of(rest.split())
    elif mark == "@":
        place, *words = rest.split()
        new, at = bytes_of(words), int(place)
        data = old[:at] + new + old[at + len(new) :]
    else:
        data = old[: int(rest)]
    with open(path, "wb") as file:
        file.write(data)


def ended(programs: str, words: list[str], room: int) -> tuple:
    """Status, output and errors of a run."""
    done = subprocess.run(
        [*programs[words[0]], *words[1:]],
        cwd=room,
        stdin=subprocess.DEVNULL,
        capture_output=True,
        timeout=SECONDS,
        check=False,
    )
    return done.returncode, done.stdout, done.stderr.decode("latin-1")


def places_in(lines: list, word: str) -> object:
    """The pages that have frames, or slots, by the map of one user."""
    pages = set()
    for line in lines:
        item = re.fullmatch(rf"{word}S? [0-9-]+ \S+ ([0-9A-F]+)(?:-([0-9A-F]+))?", line)
        if item:
            pages |= set(range(int(item[1], 16) // 4096, int(item[2] or item[1], 16) // 4096 + 1))
    return pages


def otherwise_in_map(lines: list, wanted: object) -> object:
    """What of a map is not as it has to be."""
    *lists, count = (part.split() for part in wanted.split("|"))
    frames, slots = places_in(lines, "FRAME"), places_in(lines, "SLOT")
    looks = [
        (frames - slots, "in frames"),
        (slots - frames, "in slots"),
        (set(range(4096)) - frames - slots, "nowhere"),
    ]
    for pages, (there, what) in zip(lists, looks):
        wrong = set(map(int, pages)) - there
        if wrong:
            return f"pages {sorted(wrong)} are not {what}"
    return (
        None
        if lines[-1:] == [f"PAGE INS {count[0]}"]
        else f"{lines[-1:]}, and wanted is PAGE INS {count[0]}"
    )


def difference(run: object, programs: str, room: int) -> object:
    """What differs first from what a run has to be."""
    status, findings, errors = ended(programs, run.words, room)
    if (
        status != run.status
        or run.error is not None
        and errors.splitlines() != ([run.error] if run.error else [])
    ):
        return f"status {status}, {errors!r}, and wanted is status {run.status}, {run.error!r}"
    if run.has and run.has not in errors:
        return f"{errors!r} has not {run.has!r}"
    lines = findings.decode("latin-1").splitlines()
    if run.pages is not None:
        return otherwise_in_map(lines, run.pages)
    wanted = "".join(f"{item}\n" for item in run.findings).encode("latin-1")
    for number, line in run.lines.items():
        if lines[number : number + 1] != [line]:
            return f"line {number}: {lines[number:number + 1]}, and wanted is {line!r}"
    if not run.lines and findings != wanted:
        return f"{findings[:2000]!r}, and wanted is {wanted[:2000]!r}"
    for name, place, data in run.files:
        there = read(f"{room}/{name}")[place:]
        if there != data:
            return f"{name} from {place} on is {there.hex()}, and wanted is {data.hex()}"
    return otherwise_cut(run, programs, room) or (
        otherwise_written(run, programs, room, wanted) if run.fails_writes else None
    )


def otherwise_cut(run: object, programs: str, room: int) -> str | None:
    """What differs first where the last file has only a beginning of its bytes."""
    if not run.beginnings:
        return None
    # (where vm370 is run the directory is cut)
    path = f"{room}/{'directory' if 'directory' in run.words else run.words[-1]}"
    whole = read(path)
    try:
        for first, end, status, *line in run.beginnings:
            for length in range(int(first), int(end)):
                with open(path, "wb") as file:
                    file.write(whole[:length])
                done, _, errors = ended(programs, run.words, room)
                if (done, errors.splitlines()) != (int(status), line):
                    return f"its first {length} bytes: status {done}, {errors!r}, and wanted is status {status}, {line}"
    finally:
        with open(path, "wb") as file:
            file.write(whole)
    return None


def otherwise_written(run: object, programs: str, room: int, wanted: object) -> str | None:
    """What differs first where a write fails at any byte of standard output."""
    path = f"{room}/written"
    for size in range(len(wanted)):

        def limit() -> None:
            resource.setrlimit(resource.RLIMIT_FSIZE, (size, size))

        # (that a file may not grow is reported by the call, since the signal that says it too is ignored)
        with open(path, "wb") as file:
            done = subprocess.run(
                [*programs[run.words[0]], *run.words[1:]],
                cwd=room,
                stdout=file,
                stderr=subprocess.PIPE,
                timeout=SECONDS,
                preexec_fn=limit,
                restore_signals=False,
                check=False,
            )
        if (done.returncode, done.stderr) != (3, b"fault: file Device 1\n") or read(path) != wanted[
            :size
        ]:
            return f"a write that fails at byte {size}: status {done.returncode}, {done.stderr!r}, {read(path)!r}"
    return None


def play(runs: object, programs: str) -> Iterator:
    """Plays the runs of a paragraph: each place with what differs first, or nothing."""
    with tempfile.TemporaryDirectory() as room:
        for run in runs:
            for mark, text in run.changes:
                change(room, mark, text)
            yield run.place, difference(run, programs, room)
