#!/usr/bin/env python3
"""Breaks scripts off, and has another program go on from the state that was saved there; and gives the program states that were
spoiled. tests/commands/broken.py [--program PATH] [--every N] [--scripts N] [--states N] [--one-of N] [--seed N] [PART]...

The parts are broken (all examples of users, and N random scripts, broken at every Nth part), tables (one of N scripts of users of the
tables of tests/transcripts, broken once at random) and spoiled (N states for each of a few examples). The gate calls them by
tests/commands/people.py, with few scripts and states. The last line is 'N passed, M failed'."""
from __future__ import annotations

from collections.abc import Callable, Iterator
from typing import NamedTuple
import os
import random
import re
import subprocess
import sys
import tempfile

sys.dont_write_bytecode = True
TOP = os.path.dirname(os.path.dirname(os.path.dirname(os.path.realpath(__file__))))
sys.path[:0] = [TOP, f"{TOP}/bin/lib"]

from gathjumli.cli import last, number, read_arguments
from tests.lib.counting import Counts
from tests.lib.files import read, write
from tests.lib.places import PROGRAM
from tests.transcripts import run as tables

EXAMPLES = f"{TOP}/examples/users"
REFUSED = "fault: state Refused\n"
# what of the gate
EVERY, SCRIPTS, STATES, ONE_OF = 7, 10, 10, 100
# parts of tests/transcripts/run.py that have no function of their own name
TABLES = ("disk_programs", "states", "loadings", "unit_record", "instructions", "edges")
DECK = re.compile(rb"DECK \S+ ([0-9]+)\n")
# examples of pages, disks, decks, printouts, messages and timers
SPOILED = ("more-pages-than-frames", "two-on-a-volume", "decks-for-three", "spool-and-close", "two-users-chat", "two-timers")  # fmt: skip

Check = Callable[..., None]


class Case(NamedTuple):
    """What is broken: a directory, the parts of a script, images of volumes, sizes, and the transcript where that is known."""

    name: str
    directory: bytes
    parts: list[bytes]
    images: list[bytes]
    sizes: list[str]
    transcript: bytes | None


class Outcome(NamedTuple):
    """What appears after a part, the last state, and the images at the end."""

    transcript: bytes
    state: bytes
    images: list[bytes]


class Shown(NamedTuple):
    """What comes of a part: its lines of the transcript, and the lines of the files that it closed, which end a transcript."""

    lines: bytes
    files: bytes


def transcript_of(shown: list[Shown]) -> bytes:
    return b"".join(one.lines for one in shown) + b"".join(one.files for one in shown)


class Crashed(Exception):
    """The program has ended by itself."""

    def __init__(self, status: int, errors: str) -> None:
        super().__init__(f"status {status}: {errors[-600:]}")
        self.is_refusal = (status, errors) == (1, REFUSED)


class Running:
    """A program that is given parts and states, with copies of the images of a case in a folder."""

    def __init__(self, program: str, case: Case, folder: str) -> None:
        room = tempfile.mkdtemp(dir=folder)
        write(f"{room}/directory", case.directory)
        self.volumes = [f"{room}/volume-{place}" for place in range(len(case.images))]
        for path, image in zip(self.volumes, case.images):
            write(path, image)
        self.errors = tempfile.TemporaryFile()
        words = [program, "vm370", *case.sizes, "--save", "--follow", f"{room}/directory"]
        words += self.volumes
        streams = {"stdin": subprocess.PIPE, "stdout": subprocess.PIPE, "stderr": self.errors}
        self.process = subprocess.Popen(words, **streams)

    def send(self, data: bytes) -> None:
        try:
            self.process.stdin.write(data)
            self.process.stdin.flush()
        except BrokenPipeError:
            raise self.crashed() from None

    def line(self) -> bytes:
        if line := self.process.stdout.readline():
            return line
        raise self.crashed()

    def crashed(self) -> Crashed:
        status = self.process.wait()
        self.errors.seek(0)
        return Crashed(status, self.errors.read().decode(errors="replace"))

    def part(self, text: bytes) -> Shown:
        """What comes of a part."""
        self.send(b"%d\n%s" % (len(text), text))
        lines, files = [], []
        while not (line := self.line()).startswith((b"> DONE", b"> REFUSED")):
            if line.startswith((b"> ==", b"> |")):
                files.append(line.removeprefix(b"> ").removeprefix(b"|"))
            elif not line.startswith(b"> "):
                lines.append(line)
        assert line == b"> DONE\n", text
        return Shown(b"".join(lines), b"".join(files))

    def save(self) -> bytes:
        self.send(b"SAVE\n")
        state = self.process.stdout.read(int(self.line().removeprefix(b"> STATE ")))
        assert self.line() == b"> DONE\n"
        return state

    def restore(self, state: bytes) -> None:
        self.send(b"STATE\n%d\n%s" % (len(state), state))
        assert self.line() == b"> DONE\n"

    def end(self) -> tuple[bytes, list[bytes]]:
        """What the end of the session writes, and the images."""
        self.send(b"END\n")
        written = self.process.stdout.read()
        if self.process.wait():
            raise self.crashed()
        return written, [read(path) for path in self.volumes]

    def close(self) -> None:
        self.process.kill()
        self.process.wait()
        self.process.stdout.close()
        self.errors.close()
        try:
            self.process.stdin.close()
        except BrokenPipeError:
            pass


def parts_of(script: bytes) -> list[bytes]:
    """The lines of a script, each deck with its cards."""
    lines, parts = script.splitlines(True), []
    while lines:
        deck = DECK.fullmatch(lines[0])
        count = 1 + (int(deck[1]) if deck else 0)
        parts.append(b"".join(lines[:count]))
        del lines[:count]
    return parts


# --- cases ---


def example(name: str) -> Case:
    at = f"{EXAMPLES}/{name}"
    names = read(f"{at}/volumes").decode().split() if os.path.exists(f"{at}/volumes") else []
    stated = tables.stated
    sizes = read(f"{at}/sizes").decode().split()[:2] if os.path.exists(f"{at}/sizes") else []
    words = ["--frames", sizes[0], "--slots", sizes[1]] if sizes else []
    images = [stated(f"{at}/{item}.volume").image() for item in names]
    parts = parts_of(read(f"{at}/script"))
    return Case(name, read(f"{at}/directory"), parts, images, words, read(f"{at}/transcript"))


USERS = ("A", "B", "C")
DEVICES = "CONSOLE 009 3215\nSPOOL 00C READER\nSPOOL 00D PUNCH\nSPOOL 00E PRINTER\n"
# of a loop, of a channel program at 800 that is started, of one that waits for a line and of one that prints
GUESTS = (
    ("STORE 100 4111000147F00100", "STORE PSW 00000000 00000100", "BEGIN"),
    ("STORE 48 00000800", "STORE 800 0900084000000005", "STORE 840 C8C5D3D3D6", "STORE 100 9C0000099D00000947200104", "BEGIN 100"),
    ("STORE 48 00000800", "STORE 800 0A00084020000050", "STORE 100 9C0000099D00000947700104", "STORE 10C 82000200",
     "STORE 200 0202000000000000", "BEGIN 100"),
    ("STORE 48 00000800", "STORE 800 0900084020000005", "STORE 100 9C00000E9D00000E4770010447F00100", "BEGIN 100"),
    ("STORE 48 00000800", "STORE 800 0100084020000050", "STORE 100 9C00000D9D00000D4770010482000200", "BEGIN 100"),
    ("STORE 58 0000000000000100", "STORE 50 00000100", "STORE PSW 01000000 00000100", "STORE 100 47F00100", "BEGIN"),
)  # fmt: skip
LINES = ("LOGON", "LOGON", "LOGOFF", "#CP", "BEGIN", "DISPLAY G1", "DISPLAY 840", "DISPLAY PSW", "#CP CLOSE 00E", "#CP CLOSE 00D",
         "#CP SPOOL 00D TO B", "#CP SPOOL 00D TO SYSTEM", "#CP QUERY FILES", "#CP IPL 00C", "#CP SYSTEM RESET", "MSG A HELLO",
         "#CP MSG C HELLO", "STORE G1 00000007", "STORE 1FF0 DEADBEEF", "STORE 2FF0 01", "A LINE FOR A GUEST", "")  # fmt: skip


def random_part(dice: random.Random) -> str:
    """Something that happens."""
    user, kind = dice.choice(USERS), dice.random()
    if kind < 0.4:
        return f"LINE {user} {dice.choice(LINES)}\n"
    if kind < 0.5:
        return "".join(f"LINE {user} {line}\n" for line in ("LOGON", *dice.choice(GUESTS)))
    if kind < 0.7:
        return f"AUTO {dice.randint(1, 9)}\n"
    if kind < 0.8:
        return f"RUN {user} {dice.randint(1, 300)}\n"
    if kind < 0.85:
        return f"TICK {user}\n"
    if kind < 0.95:
        return f"SERVE {user} {dice.choice(('009', '00C', '00D', '00E'))}\n"
    cards = dice.randint(1, 3)
    return f"DECK {user} {cards}\n" + "".join(f"CARD {dice.randint(0, 99)}\n" for _ in range(cards))


def random_case(seed: int) -> Case:
    """A script of three users on few frames."""
    dice = random.Random(seed)
    directory = "".join(f"USER {user} PW {dice.choice((8, 16, 32))}K\n{DEVICES}" for user in USERS)
    sizes = ["--frames", "16", "--slots", str(dice.choice((0, 4, 16)))]
    script = "".join(random_part(dice) for _ in range(dice.randint(30, 90)))
    parts = parts_of(script.encode())
    return Case(f"random script {seed}", directory.encode(), parts, [], sizes, None)


# --- broken ---


def unbroken(
    program: str, case: Case, every: int, folder: str
) -> tuple[dict, list[Shown], Outcome]:
    """The states before every so manieth part, what appears of each part, and what has come of all."""
    states, shown = {}, []
    running = Running(program, case, folder)
    try:
        for place, part in enumerate(case.parts):
            if place % every == 0:
                states[place] = running.save()
            shown.append(running.part(part))
        state = running.save()
        states[len(case.parts)] = state
        written, images = running.end()
        return states, shown, Outcome(transcript_of(shown) + written, state, images)
    finally:
        running.close()


def rest_of(program: str, case: Case, before: list[Shown], state: bytes, folder: str) -> Outcome:
    """What comes of all parts, where these came of the first and the others are given to another program, which goes on from a
    state."""
    running = Running(program, case, folder)
    try:
        running.restore(state)
        shown = before + list(map(running.part, case.parts[len(before) :]))
        state = running.save()
        written, images = running.end()
        return Outcome(transcript_of(shown) + written, state, images)
    finally:
        running.close()


def break_case(check: Check, program: str, case: Case, every: int) -> int:
    """Breaks a script at every so manieth part; how many breaks there were."""
    with tempfile.TemporaryDirectory(prefix="broken-") as folder:
        states, shown, whole = unbroken(program, case, every, folder)
        if case.transcript is not None:
            check(f"{case.name}: saving changes nothing", whole.transcript == case.transcript)
        for place, state in states.items():
            found = rest_of(program, case, shown[:place], state, folder)
            names = [
                name for name in Outcome._fields if getattr(found, name) != getattr(whole, name)
            ]
            check(f"{case.name} broken at part {place}", not names, *names)
        return len(states)


def try_broken(check: Check, program: str, every: int, scripts: int, seed: int) -> int:
    """Breaks all examples of users, and so many random scripts; how many breaks there were."""
    breaks = 0
    for case in cases(scripts, seed):
        try:
            breaks += break_case(check, program, case, every)
        except Crashed as crashed:
            check(f"{case.name}: the program goes on", False, str(crashed))
    return breaks


def cases(scripts: int, seed: int) -> Iterator[Case]:
    yield from map(example, sorted(os.listdir(EXAMPLES)))
    yield from map(random_case, range(seed, seed + scripts))


# --- tables ---


def scripts_of_tables() -> Iterator[object]:
    """The scripts of users of all tables, each with what comes of it."""
    yield from (one for name in tables.SESSIONS for one in tables.sessions(name))
    for name in TABLES:
        yield from getattr(tables, name)()


def try_tables(check: Check, program: str, one_of: int, seed: int) -> int:
    """Breaks one of so many scripts of the tables once, at random; how many breaks there were."""
    dice, breaks = random.Random(seed), 0
    for session in scripts_of_tables():
        # what is drawn does not depend on which are of users
        is_drawn, share = dice.randrange(one_of) == 0, dice.random()
        if not isinstance(session, tables.Session) or not session.directory or session.errors:
            continue
        if is_drawn:
            breaks += 1
            check(f"{session.place} broken once", *broken_once(program, session, share))
    return breaks


def broken_once(program: str, session: object, share: float) -> tuple:
    """Whether a script that is broken after this share of it has the transcript and the volumes of its table, or what differs."""
    sizes = ["--frames", str(session.size[0]), "--slots", str(session.size[1])]
    directory = session.directory.encode("latin-1")
    parts = parts_of("".join(f"{line}\n" for line in session.script).encode("latin-1"))
    place = int(share * (len(parts) + 1))
    case = Case(session.place, directory, parts, session.volumes, sizes, None)
    with tempfile.TemporaryDirectory(prefix="tables-") as folder:
        try:
            shown, state = before_break(program, case, place, folder)
            whole, _, images = rest_of(program, case, shown, state, folder)
        except Crashed as crashed:
            return False, str(crashed)
    found = tables.lines_of_text(whole.decode("latin-1"))
    wanted = session.findings
    holds = len(found) == len(wanted) and all(map(tables.is_same, found, wanted))
    return holds and images == session.ended, f"at part {place} of {len(parts)}", *found[-3:]


def before_break(program: str, case: Case, place: int, folder: str) -> tuple[list[Shown], bytes]:
    """What comes of the parts before a place, and the state there."""
    running = Running(program, case, folder)
    try:
        return list(map(running.part, case.parts[:place])), running.save()
    finally:
        running.close()


# --- spoiled ---


def spoiled(dice: random.Random, state: bytes, others: list[bytes]) -> bytes:
    """A state that is cut, changed, lengthened or spliced with another one."""
    data, kind, place = bytearray(state), dice.random(), dice.randrange(len(state))
    if kind < 0.5:
        # numbers and marks are mostly in bytes that are not zero
        marked = [at for at in range(len(data)) if data[at]]
        place = dice.choice(marked) if dice.random() < 0.6 else place
        data[place] = dice.choice([0, 1, 2, 255, data[place] ^ (1 << dice.randrange(8))])
    elif kind < 0.65:
        del data[place:]
    elif kind < 0.8:
        data[place:place] = dice.randbytes(dice.randrange(1, 20))
    else:
        other = dice.choice(others)
        data[place:] = other[dice.choice((place, dice.randrange(len(other)))) :]
    return bytes(data)


def take(program: str, case: Case, state: bytes, folder: str) -> bool:
    """Whether a state is taken; then the program goes on, and saves another one that it takes too. Any other end than a refusal
    is a crash."""
    running = Running(program, case, folder)
    try:
        running.restore(state)
        if running.save() != state:
            raise Crashed(0, "what it takes it saves otherwise")
        running.part(b"AUTO 20\n")
        running.end()
        return True
    except Crashed as crashed:
        if crashed.is_refusal:
            return False
        raise
    finally:
        running.close()


def try_spoiled(check: Check, program: str, count: int, seed: int) -> tuple[int, int]:
    """Gives the program so many spoiled states of each of a few examples, and those of the others; how many were taken, and how many
    refused."""
    counts, dice = {True: 0, False: 0}, random.Random(seed)
    with tempfile.TemporaryDirectory(prefix="spoiled-") as folder:
        known = []
        for case in map(example, SPOILED):
            states, _, _ = unbroken(program, case, max(1, len(case.parts) // 3), folder)
            known.append((case, list(states.values())))
        for case, states in known:
            others = [state for _, other in known for state in other]
            given = [spoiled(dice, dice.choice(states), others) for _ in range(count)]
            given += [state for _, other in known if other is not states for state in other]
            for state in given:
                try:
                    counts[take(program, case, state, folder)] += 1
                    check("a spoiled state", True)
                except Crashed as crashed:
                    check(
                        f"{case.name}: a spoiled state of {len(state)} bytes", False, str(crashed)
                    )
    return counts[True], counts[False]


NUMBERS = {"--every": EVERY, "--scripts": 200, "--states": 170, "--one-of": 10, "--seed": 1}
OPTIONS = {name: number(0, 1000000) for name in NUMBERS} | {"--program": str}


def main() -> None:
    totals = Counts()
    check = totals.check
    found, names = read_arguments(sys.argv[1:], OPTIONS, 0, 3)
    every, scripts, states, one_of, seed = (
        last(found[name], usual) for name, usual in NUMBERS.items()
    )
    program = last(found["--program"], PROGRAM)
    if "broken" in names or not names:
        print("breaks:", try_broken(check, program, max(1, every), scripts, seed))
    if "tables" in names or not names:
        print("breaks in tables:", try_tables(check, program, max(1, one_of), seed))
    if "spoiled" in names or not names:
        print("taken and refused:", *try_spoiled(check, program, states, seed))
    sys.exit(totals.report())


if __name__ == "__main__":
    main()
