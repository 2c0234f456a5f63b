#!/usr/bin/env python3
"""Plays scripts over the programs that are built, and compares exit statuses, transcripts and saved volumes: with what tables
say, whose values come from an independent System/370 or from work by hand; and users of vm370 with machines of bare370 that are
given the same events.

    tests/transcripts/run.py [--built] [--programs FOLDER] [--jobs N] [--first N] [PART]..

Without a part all are played; --parts names them. Programs are those of the first compiler, of bin/ or of a gate, as
FOLDER/NAME/out/NAME, where FOLDER is crates if it is not reported. With --built, as the gate calls it, those of both compilers have
to be there, and each plays all parts. A session that is otherwise is reported by its place in its table, with the first line that
differs. The last line is 'N passed, M failed'."""
from __future__ import annotations

from collections.abc import Iterator
from typing import TYPE_CHECKING
import argparse
import concurrent.futures
import functools
import itertools
import os
import re
import subprocess
import sys
import tempfile
import time

sys.dont_write_bytecode = True
TOP = os.path.dirname(os.path.dirname(os.path.dirname(os.path.realpath(__file__))))
sys.path[:0] = [TOP, f"{TOP}/bin/lib"]
from tests.lib.counting import report
from tests.transcripts import halfwords, many, paging, program_runs

if TYPE_CHECKING:
    from tests.lib.desk import Account, Place
    from gathjumli.volumes import Track

TABLES = f"{TOP}/tests/transcripts"
EXAMPLES = f"{TOP}/examples"
# the parts of the program, which its first word names
PARTS = ("vm370", "bare370", "framemap", "mkvol", "trackmap")
# what the program's name ends with that the second compiler built
SECOND = ".by-rattle"
# The tables in the notation of sessions.txt, with how many sessions each has, and what the other parts have: a table that is cut
# or lost is seen by it.
SESSIONS = {"sessions": 49, "machines": 2, "slips": 66}
# Those in the notation of program_runs.py, with how many runs each has.
RUNS = {
    "runs-sessions": 19,
    "runs-volumes": 111,
    "runs-words": 117,
    "runs-directories": 128,
    "runs-pages": 65,
    "runs-scripts": 119,
    "runs-commands": 94,
    "runs-files": 1,
}
COUNTS = (
    {
        "disk-programs": 3082,
        "states": 162,
        "loadings": 158,
        "unit-record": 324,
        "instructions": 306,
        "edges": 974,
        "examples": 221,
        "by-hand": 603,
        "chains": 200,
        "changing": 200,
        "random": 500,
        "large": 12,
        "many": 2,
        "halfwords": 131072,
        "touched": 2000,
    }
    | SESSIONS
    | RUNS
)
SECONDS = 120
HEADS, MANY = 19, 24
# console, reader, punch and printer of a machine of bare370
BARE_DEVICES = (0x009, 0x00C, 0x00D, 0x00E)
# in what is wanted: a character that is not compared
ANY = "·"
SIGNS = set(
    "ABCDEFGHIJKLMNOPQRSTUVWXYZabcdefghijklmnopqrstuvwxyz0123456789 .<(+&$*);-/,%_>?:#@'=\""
)


# --- volumes ---


class Volume:
    """A volume: of each track the home address and the records, each an id, a key and data."""

    def __init__(self, serial: str, cylinders: int) -> None:
        self.serial, self.cylinders, self.records = serial, cylinders, {}
        self.homes = {
            (c, h): bytes([0, *c.to_bytes(2, "big"), 0, h])
            for c in range(cylinders)
            for h in range(HEADS)
        }

    def write(self, first: int, tracks: list[Track]) -> object:
        """Writes the tracks of a list, 'cylinder.head=id:key:data+..' joined by ';', onto a disk that begins at a cylinder."""
        for place, records in (part.split("=") for part in tracks.split(";") if part != "-"):
            cylinder, head = map(int, place.split("."))
            parts = (part.split(":") for part in records.split("+"))
            self.records[first + cylinder, head] = [
                tuple(map(bytes.fromhex, part)) for part in parts
            ]
        return self

    def image(self) -> str:
        """The bytes of docs/FORMATS.md, "Volume images"."""
        out, number = [b"CKD2", self.serial.ljust(6).encode(), self.cylinders.to_bytes(2, "big")], 0
        for place, home in self.homes.items():
            records = self.records.get(place, [])
            number += len(records)
            out += [home, bytes([len(records)])]
            for name, key, data in records:
                out += [name, bytes([len(key)]), len(data).to_bytes(2, "big"), key, data]
        return b"".join([*out, number.to_bytes(4, "big")])


def stated(name: str) -> object:
    """The volume that a text states (docs/FORMATS.md, "Volume texts"), of transcripts/volumes or by its path."""
    (_, serial, cylinders), *lines = (
        line.split(" ") for line in read(os.path.join(TABLES, "volumes", name)).splitlines()
    )
    volume = Volume(serial, int(cylinders))
    for verb, cylinder, head, *words in lines:
        place, parts = (int(cylinder), int(head)), [
            bytes.fromhex(word.replace("-", "")) for word in words
        ]
        if verb == "HOME":
            volume.homes[place] = parts[0]
        else:
            volume.records.setdefault(place, []).append(tuple(parts))
    return volume


def between(cylinders: int, tracks: list[Track]) -> object:
    """A volume with a disk after a cylinder of a neighbour, and before one."""
    volume = Volume("TEST01", cylinders + 2).write(1, tracks)
    for head in range(HEADS):
        for own in range(cylinders):
            volume.homes[own + 1, head] = bytes([0, 0, own, 0, head])
        for other in (0, cylinders + 1):
            volume.records[other, head] = [(b"\0\0\0\0\1", b"", b"NEIGHBOUR")]
    return volume


# --- sessions ---


class Session:
    """A script with the effect of it: a transcript, and volumes at the end; on so many frames and slots."""

    number = 1

    def __init__(
        self,
        place: Place,
        directory: str = None,
        storage: object = None,
        volumes: tuple = (),
        size: tuple = (64, 256),
        user: str = "A",
    ) -> None:
        self.place, self.directory, self.storage, self.size = place, directory, storage, size
        self.user = user if directory else "BARE"
        self.volumes = [volume.image() for volume in volumes]
        self.ended, self.script, self.findings = self.volumes, [], []
        # what is in standard error, with which it ends with status 1
        self.errors = []

    def line(self, text: str, *findings: object, user: Account = None) -> None:
        """A line is typed, to which this is said."""
        user = user or self.user
        self.script.append(f"LINE {user} {text}")
        self.findings += [f"{user}: {item}" for item in findings]

    def run(self, findings: str = "1 COUNT", user: Account = None) -> None:
        user = user or self.user
        self.script.append(f"RUN {user} {findings.split()[0]}")
        self.findings.append(f"= {user} {findings}")

    def serve(self, device: str, user: Account = None) -> None:
        user = user or self.user
        self.script.append(f"SERVE {user} {device}")
        self.findings.append(f"= {user} SERVED {device}")

    def store(self, address: int, digits: object, user: Account = None) -> None:
        for at in range(0, len(digits), 32):
            self.line(f"#CP STORE {address + at // 2:X} {digits[at:at + 32]}", "STORED", user=user)

    def start(self, psw: str = "00000000 00000100", user: Account = None) -> None:
        """A unit is run under a PSW."""
        self.line(f"#CP STORE PSW {psw}", "STORED", user=user)
        self.run(user=user)

    def channel_program(self, caw: object, device: str, user: Account = None) -> None:
        """SIO at 100, the serve, and TIO after it."""
        self.store(0x48, caw, user)
        self.start(user=user)
        self.serve(device, user)
        self.run(user=user)

    def shown(self, address: int, digits: object) -> None:
        """Sixteen bytes are displayed, which have these digits."""
        words = " ".join(digits[at : at + 8] for at in range(0, 32, 8))
        self.line(f"#CP DISPLAY {address:X}", f"{address:06X} {words}")


class Player:
    """The program of one compiler."""

    def __init__(self, folder: str, ending: object) -> None:
        self.folder, self.ending = folder, ending

    def path(self) -> str:
        return f"{self.folder}/gathjumli_cli/out/gathjumli_cli{self.ending}"

    def is_built(self) -> bool:
        return os.access(self.path(), os.X_OK)

    def words(self, session: object, size: object, room: int) -> tuple:
        """The files of a session are written; the program with its words, and the volumes."""
        files = {
            "directory": session.directory or "",
            "script": "".join(f"{item}\n" for item in session.script),
        }
        files |= {str(item): data for item, data in enumerate(session.volumes, 1)}
        for name, data in files.items():
            with open(f"{room}/{name}", "wb") as file:
                file.write(data if isinstance(data, bytes) else data.encode("latin-1"))
        images = [f"{room}/{number}" for number in range(1, len(session.volumes) + 1)]
        if session.storage:
            return [
                self.path(),
                "bare370",
                "--save",
                session.storage,
                f"{room}/script",
                *images,
            ], images
        sizes = ["--frames", str(size[0]), "--slots", str(size[1])]
        return [
            self.path(),
            "vm370",
            *sizes,
            "--save",
            f"{room}/directory",
            f"{room}/script",
            *images,
        ], images

    def play(self, session: object, size: object) -> tuple:
        """Status, transcript, errors and saved volumes of a session."""
        with tempfile.TemporaryDirectory() as room:
            words, images = self.words(session, size, room)
            done = subprocess.run(words, capture_output=True, timeout=SECONDS, check=False)
            findings, errors = (item.decode("latin-1") for item in (done.stdout, done.stderr))
            return done.returncode, findings, errors, [read(image, "rb") for image in images]

    def findings(self, part: str, files: list, words: list[str]) -> tuple:
        """Status and transcript of a part of the program over some files."""
        with tempfile.TemporaryDirectory() as room:
            for name, text in files.items():
                with open(f"{room}/{name}", "w", encoding="latin-1") as file:
                    file.write(text)
            done = subprocess.run(
                [self.path(), part, *words],
                cwd=room,
                capture_output=True,
                timeout=SECONDS,
                check=False,
            )
            return done.returncode, done.stdout.decode("latin-1")

    def map(self, session: object, size: object, room: int) -> str:
        """The map of the frames after a session."""
        words, _ = self.words(session, size, room)
        words = [self.path(), "framemap", *(word for word in words[2:] if word != "--save")]
        return subprocess.run(
            words, capture_output=True, timeout=SECONDS, check=True
        ).stdout.decode()

    def difference(self, session: object) -> object:
        """What differs first from what a session says; none where all is as it says."""
        if not isinstance(session, Session):
            return session.difference(self)
        status, findings, errors, volumes = self.play(session, session.size)
        if status != bool(session.errors):
            return f"status {status}: {errors}"
        for what, lines, all_wanted in (
            ("line", findings, session.findings),
            ("standard error, line", errors, session.errors),
        ):
            for number, (line, wanted) in enumerate(
                itertools.zip_longest(lines_of_text(lines), all_wanted), 1
            ):
                if line is None or wanted is None or not is_same(line, wanted):
                    return f"{what} {number}: {line!r}, and wanted is {wanted!r}"
        for index, (volume, wanted) in enumerate(zip(volumes, session.ended), 1):
            if volume != wanted:
                return f"volume {index}: {first_other(volume, wanted)}"
        return None


def lines_of_text(text: str) -> object:
    """The lines of a text, of which the last one ends too."""
    lines = text.split("\n")
    return lines[:-1] if not lines[-1] else [*lines[:-1], lines[-1] + " (without an end)"]


def is_same(line: bytes, wanted: object) -> object:
    return (
        line == wanted or ANY in wanted and re.fullmatch(re.escape(wanted).replace(ANY, "."), line)
    )


def first_other(volume: object, wanted: object) -> str:
    """Where an image differs first."""
    at = next(
        (item for item, (one, two) in enumerate(zip(volume, wanted)) if one != two),
        min(len(volume), len(wanted)),
    )
    return f"byte {at} is {volume[at:at + 8].hex().upper()}.., and wanted is {wanted[at:at + 8].hex().upper()}.."


# --- tables ---


def read(path: str, mode: str = "r") -> object:
    with open(path, mode, newline=None if "b" in mode else "") as file:
        return file.read()


def lines_of(name: str) -> Iterator:
    """The lines of a table with their places, without comments."""
    for number, line in enumerate(read(f"{TABLES}/{name}").splitlines(), 1):
        if line and not line.startswith("#"):
            yield f"{name}:{number}", line


def runs_of(items: object) -> list:
    """The items of a list, 'address:digits' joined by ','."""
    return [
        (int(at, 16), digits)
        for at, digits in (part.split(":") for part in items.split(",") if part != "-")
    ]


def sessions(table: object) -> Iterator:
    """Scripts by hand, whose notation the head of sessions.txt says."""
    number = 0
    for block in read(f"{TABLES}/{table}.txt").split("\n\n"):
        place, number = f"{table}.txt:{number + 1}", number + block.count("\n") + 2
        marks, findings = {mark: [] for mark in "@$:;%>!#"}, []
        for line in block.splitlines():
            mark, text = line[:1], line[2:]
            if mark in marks and line[1:2] in ("", " "):
                marks[mark].append(text)
            else:
                findings.append(text if line == "|" or line[:2] == "| " else line)
        if not marks["@"] + marks["$"]:
            continue
        volumes = [stated(mark) for mark in marks[":"]]
        for size in ["64 256"] if marks["$"] else marks["%"] or ["64 256", "16 256"]:
            directory = "".join(f"{mark}\n" for mark in marks["@"])
            session = Session(
                place,
                directory or None,
                next(iter(marks["$"]), None),
                volumes,
                tuple(map(int, size.split())),
            )
            session.script, session.findings, session.errors = marks[">"], findings, marks["!"]
            ended = [stated(mark).image() for mark in marks[";"]]
            session.ended = ended + session.volumes[len(ended) :]
            yield session


def disk_programs() -> Iterator:
    """programs.txt: a user's, whose disk lies between cylinders of a neighbour, and a bare machine's."""
    for place, line in lines_of("programs.txt"):
        fields = line.split(" ")
        size, arm, tracks, keys, before, caw, _, csw, after, sense, arm_after, tracks_after = fields
        cylinders, mode = int(size.split("x")[0]), "R" if size.endswith("R") else "W"
        directory = (
            f"USER A PW 4M\nMDISK 190 3330 1 {cylinders} TEST01 {mode}\nUSER B PW 8K\n"
            f"MDISK 190 3330 0 1 TEST01 W\nMDISK 191 3330 {cylinders + 1} 1 TEST01 W\n"
        )
        alone = Volume("TEST01", cylinders).write(0, tracks)
        users = Session(place, directory, None, [between(cylinders, tracks)], (64, 0))
        users.ended = [between(cylinders, tracks).write(1, tracks_after).image()]
        own = Session(place, None, "4M", [alone])
        own.ended = [alone.write(0, tracks_after).image()]
        # (no disk of a bare machine is only read)
        for session in (users, own) if mode == "W" else (users,):
            run_disk_program(
                session, *map(int, arm.split(".")), keys, before, caw, csw, after, sense, arm_after
            )
            yield session


def run_disk_program(
    session: object,
    cylinder: int,
    head: int,
    keys: object,
    before: str,
    caw: object,
    csw: object,
    after: object,
    sense: object,
    arm_after: object,
) -> None:
    memory = bytearray(1 << 22)
    session.line("LOGON", "LOGON OK")
    session.line("STORE 100 9C0001909D000190", "STORED")
    session.line("STORE 110 0812", "STORED")
    session.store(0x120, f"07000128000000060000{cylinder:04X}{head:04X}")
    session.line("BEGIN")
    session.channel_program("00000120", "190")
    for at, digits in runs_of(keys):
        session.line(f"#CP STORE G1 000000{digits}", "STORED")
        session.line(f"#CP STORE G2 {at:08X}", "STORED")
        session.start("00000000 00000110")
    for at, digits in runs_of(before):
        session.store(at, digits)
    session.channel_program(caw, "190")
    session.shown(0x40, csw.replace(".", ANY) + caw + "00000000")
    lines = set()
    for at, digits in runs_of(before) + runs_of(after):
        memory[at : at + len(digits) // 2] = bytes.fromhex(digits)
        lines |= {*range(at // 16 - 1, (at + len(digits) // 2) // 16 + 2)}
    for line in sorted(line for line in lines if 0x16 <= line < 0x40000):
        session.shown(16 * line, memory[16 * line : 16 * line + 16].hex().upper())
    # what is sensed, and whose home address the arm reads
    session.store(0x130, "04000140000000181A00015820000005")
    session.channel_program("00000130", "190")
    session.channel_program("00000138", "190")
    session.shown(0x140, sense.ljust(32, "0"))
    cylinder, head = map(int, arm_after.split("."))
    session.shown(0x150, f"{0:016}00{cylinder:04X}{head:04X}000000")


STATES = (
    "USER A PW 16K\nMDISK 190 3330 1 1 TEST01 W\nMDISK 191 3330 3 1 TEST01 W\nMDISK 290 3330 5 1 TEST01 W\n"
    "MDISK 390 3330 7 1 TEST01 W\nUSER B PW 8K\nMDISK 190 3330 0 1 TEST01 W\nMDISK 191 3330 2 1 TEST01 W\n"
    "MDISK 192 3330 4 1 TEST01 W\nMDISK 193 3330 6 1 TEST01 W\nMDISK 194 3330 8 1 TEST01 W\n"
)
PROGRAMS_OF_STATES = {"NOP": "00002000", "HA": "00002040", "NRF": "00002080", "SHORT": "000020C0"}
CODES = {"TIO": "9D000", "HIO": "9E000", "TCH": "9F000"}
UNTOUCHED = "E" * 16


def states() -> Iterator:
    """states.txt: what instructions are answered in each state of four disks, and what interrupts."""
    for place, line in lines_of("states.txt"):
        session = Session(place, STATES, None, [stated("neighbours")], (16, 0))
        session.line("LOGON", "LOGON OK")
        session.line("BEGIN")
        for at, digits in (
            (0x2000, "0300000020000001"),
            (0x2040, "1A00300020000005"),
            (0x20C0, "1A00300000000008"),
            (0x2080, "07003100400000061200300020000008"),
            (0x78, "0000000000000300"),
            (0x300, "0700"),
        ):
            session.store(at, digits)
        caw, started = "00000000", []
        for step in line.split()[1:]:
            asked, _, wanted = step.partition("=")
            verb, _, operand = asked.partition(":")
            if verb == "SERVE":
                for device in sorted(started):
                    session.serve(device)
                started = []
                continue
            mask, code = "00", CODES.get(verb, "") + operand.ljust(3, "0")
            if verb == "SIO":
                device, program = operand.split(",")
                caw, code = PROGRAMS_OF_STATES[program], "9C000" + device
                session.store(0x48, caw)
                started += [device] if wanted == "0" else []
            elif verb == "INT":
                mask, code = operand, "0700"
            session.store(0x38, UNTOUCHED)
            session.store(0x40, UNTOUCHED)
            session.store(0x200, code)
            session.start(f"{mask}000000 00000200")
            answer, _, csw = wanted.partition(",")
            if verb == "INT":
                session.shown(0x30, "0" * 16 + (f"{mask}000{answer}00000200" if csw else UNTOUCHED))
            else:
                session.line("#CP DISPLAY PSW", f"PSW 00000000 {answer}0000204")
            session.shown(0x40, (csw or UNTOUCHED) + caw + "00000000")
        yield session


def loadings() -> Iterator:
    """loadings.txt: of a user, whose disk lies between cylinders of a neighbour or whose deck the neighbour punched, and of a
    machine of its own."""
    for place, line in lines_of("loadings.txt"):
        _, kind, content, end, after = line.split(" ")
        for storage in (None, "16K"):
            if kind == "reader":
                session = Session(
                    place,
                    None
                    if storage
                    else "USER A PW 16K\nSPOOL 190 READER\nUSER B PW 16K\nSPOOL 00D PUNCH\n",
                    storage,
                    (),
                    (16, 0),
                )
                punch(session, content, session.user if storage else "B")
                device = "00C" if storage else "190"
            else:
                cylinders = int(kind.split("x")[0])
                directory = (
                    f"USER A PW 16K\nMDISK 190 3330 1 {cylinders} TEST01 W\nUSER B PW 8K\nMDISK 190 3330 0 1 TEST01 W\n"
                    f"MDISK 191 3330 {cylinders + 1} 1 TEST01 W\n"
                )
                volume = (
                    Volume("TEST01", cylinders).write(0, content)
                    if storage
                    else between(cylinders, content)
                )
                session, device = (
                    Session(place, None if storage else directory, storage, [volume], (16, 0)),
                    "190",
                )
            load(session, device, end == "OK", after)
            yield session


def punch(session: object, cards: list, user: Account) -> None:
    """Cards are punched into the reader of a session's user."""
    session.line("LOGON", "LOGON OK", user=user)
    if cards != "-":
        session.line(f"SPOOL 00D TO {session.user}", "SPOOLED", user=user)
        session.line("STORE 100 9C00000D9D00000D", "STORED", user=user)
        session.line("STORE 800 0100100020000050", "STORED", user=user)
        session.line("BEGIN", user=user)
        for card in cards.split("+"):
            session.store(0x1000, card.ljust(160, "0"), user)
            session.channel_program("00000800", "00D", user)
        session.line("#CP CLOSE 00D", "FILE 0001 CLOSED", user=user)
    session.line("#CP LOGOFF", "LOGOFF OK", user=user)


def load(session: object, device: str, is_loaded: object, after: object) -> None:
    session.line("LOGON", "LOGON OK")
    if is_loaded:
        session.line(f"IPL {device}")
        session.script.append(f"RUN {session.user} 1")
        session.findings += [
            f"{session.user}: STOPPED DISABLED WAIT",
            f"= {session.user} 0 DISABLEDWAIT",
        ]
    else:
        session.line(f"IPL {device}", "IPL FAILED")
        session.run("1 STOPPED")
        session.findings[-1] = f"= {session.user} 0 STOPPED"
    memory = bytearray(0x4000)
    for at, digits in runs_of(after):
        memory[at : at + len(digits) // 2] = bytes.fromhex(digits)
    digits = memory.hex().upper()
    if is_loaded and device != "190":
        digits = digits[:4] + "0" + device + digits[8:]
    digits = digits[:0xA0] + 8 * ANY + digits[0xA8:]
    if not is_loaded:
        digits = 16 * ANY + digits[16:]
    for at in range(0, 0x4000, 16):
        session.shown(at, digits[2 * at : 2 * at + 32])


def unit_record() -> Iterator:
    """units.txt and moved.txt: programs of a reader, a punch and a printer, of a user next to a neighbour who pages, and of a bare
    machine."""
    for place, line in itertools.chain(lines_of("units.txt"), lines_of("moved.txt")):
        fields = line.split(" ")
        _, kind, cards, keys, before, caw, _, csw, after, *left = fields
        device = {"reader": "00C", "punch": "00D", "printer": "00E"}[kind]
        size = "60K" if place.startswith("moved") else "4M"
        spools = "SPOOL 00C READER\nSPOOL 00D PUNCH\nSPOOL 00E PRINTER\n"
        directory = f"USER A PW {size}\n{spools}USER B PW 64K\nSPOOL 00D PUNCH\n"
        for storage in (None, size):
            session = Session(place, None if storage else directory, storage, (), (16, 16))
            punch(session, cards, "BARE" if storage else "B")
            run_unit_program(session, device, keys, before, caw, csw, after, *left[:2])
            yield session


def run_unit_program(
    session: object,
    device: str,
    keys: object,
    before: str,
    caw: object,
    csw: object,
    after: object,
    sense: object = None,
    made: object = None,
) -> None:
    session.line("LOGON", "LOGON OK")
    session.line(f"STORE 100 9C000{device}9D000{device}", "STORED")
    session.line("STORE 110 0812", "STORED")
    session.line("BEGIN")
    for at, digits in runs_of(keys):
        session.line(f"#CP STORE G1 000000{digits}", "STORED")
        session.line(f"#CP STORE G2 {at:08X}", "STORED")
        session.start("00000000 00000110")
    for at, digits in runs_of(before):
        session.store(at, digits)
    session.store(0x48, caw)
    session.start()
    if session.directory:
        # the neighbour's pages take all frames
        session.line("LOGON", "LOGON OK", user="B")
        for page in range(16):
            session.line(
                f"DISPLAY {4096 * page:X}",
                f"{4096 * page:06X} 00000000 00000000 00000000 00000000",
                user="B",
            )
    session.serve(device)
    session.run()
    session.shown(0x40, csw + caw + "00000000")
    memory, lines = bytearray(1 << 22), set()
    for at, digits in runs_of(before) + runs_of(after):
        memory[at : at + len(digits) // 2] = bytes.fromhex(digits)
        lines |= {*range(at // 16 - 1, (at + len(digits) // 2) // 16 + 2)}
    last = 0xF00 if session.storage == "60K" or "PW 60K" in (session.directory or "") else 0x40000
    for line in sorted(line for line in lines if 0x16 <= line < last):
        session.shown(16 * line, memory[16 * line : 16 * line + 16].hex().upper())
    if sense and sense != "..":
        session.store(0x130, "0400014000000001")
        session.channel_program("00000130", device)
        session.shown(0x140, sense.ljust(32, "0"))
    if made == "-" and device != "00C":
        session.line(f"#CP CLOSE {device}", "NO FILE")
    elif made and made not in ("-", ".."):
        session.line(f"#CP CLOSE {device}", f"FILE 000{ANY} CLOSED")
        # (each is shown at the end of the transcript)
        for item in made.split("+"):
            code, _, digits = item.rpartition(":")
            session.findings.append((f"{code} " if code else "") + printed(bytes.fromhex(digits)))
        first = -len(made.split("+"))
        session.findings.insert(
            first, f"== {'PUN' if device == '00D' else 'PRT'} 000{ANY} {session.user}"
        )


def printed(data: bytes) -> str:
    """The characters of EBCDIC bytes, as a file for the operator has them."""
    return "".join(item if item in SIGNS else "." for item in data.decode("cp037"))


def instructions() -> Iterator:
    """instructions.txt: each of a user, whose other pages took all frames before, and of a bare machine; some in each session."""
    lines = list(lines_of("instructions.txt"))
    for first in range(0, len(lines), MANY):
        for storage in (None, "4M"):
            session = Session(
                lines[first][0], None if storage else "USER A PW 4M\n", storage, (), (16, 256)
            )
            for place, line in lines[first : first + MANY]:
                if not (storage and names_a_device(line.split(" "))):
                    run_instruction(session, line.split(" "))
            yield session


def names_a_device(fields: object) -> bool:
    """Whether an instruction is for a device that each machine of bare370 has, and the machine of the table has not."""
    if fields[0] not in ("SIO", "TIO", "HIO"):
        return False
    base, displacement = int(fields[1][4], 16), int(fields[1][5:8], 16)
    register = int(fields[3][8 * base : 8 * base + 8], 16) if base else 0
    return (register + displacement) & 0xFFFF in BARE_DEVICES


def run_instruction(session: object, fields: object) -> None:
    (
        row,
        _,
        psw,
        general,
        control,
        keys,
        before,
        ending,
        after,
        generals,
        controls,
        keys_after,
        stored,
    ) = fields
    memory = bytearray(1 << 22)
    session.line("LOGON", "LOGON OK")
    session.line("BEGIN")
    for at, digits in runs_of(keys):
        session.store(0x10, "0812")
        session.line(f"#CP STORE G1 000000{digits}", "STORED")
        session.line(f"#CP STORE G2 {at:08X}", "STORED")
        session.start("00000000 00000010")
        session.store(0x10, "0000")
    for at, digits in ((0x60, "0002000000FFFF60"), (0x68, "0002000000FFFF68"), *runs_of(before)):
        session.store(at, digits)
        memory[at : at + len(digits) // 2] = bytes.fromhex(digits)
    registers = {"G": general, "X": "000000E0" + 120 * "0" if control == "-" else control}
    registers = {
        kind: [item[at : at + 8] for at in range(0, 128, 8)] for kind, item in registers.items()
    }
    if control != "-":
        # LCTL 0,15,100
        session.store(0x100, control)
        session.store(0x10, "B70F0100")
        session.start("00000000 00000010")
        session.store(0x10, "00000000")
        session.store(0x100, 128 * "0")
    for number in range(16):
        session.line(f"#CP STORE G{number} {registers['G'][number]}", "STORED")
    session.line(f"#CP STORE PSW {psw[:8]} {psw[8:]}", "STORED")
    # pages that this line does not name take all frames
    named = {at // 4096 for at, _ in runs_of(before) + runs_of(stored)} | {0}
    for page in itertools.islice((number for number in range(32) if number not in named), 17):
        session.shown(4096 * page, 32 * "0")
    changed = {"G": generals, "X": controls}
    changed = {
        kind: dict(part.split(":") for part in items.split(",") if part != "-")
        for kind, items in changed.items()
    }
    session.run(f"{units_of(row, registers['G'], changed['G'], fields)} COUNT")
    old = {"P": 0x28, "S": 0x20}.get(ending[0])
    if old:
        memory[old : old + 8] = bytes.fromhex(after)
        after = f"0002000000FFFF{0x68 if ending[0] == 'P' else 0x60:02X}"
    for at, digits in runs_of(stored):
        memory[at : at + len(digits) // 2] = bytes.fromhex(digits)
    session.line("#CP DISPLAY PSW", f"PSW {after[:8]} {after[8:]}")
    for kind, number in itertools.product("GX", range(16)):
        name, value = "GPR" if kind == "G" else "CR", changed[kind].get(
            str(number), registers[kind][number]
        )
        session.line(f"#CP DISPLAY {kind}{number}", f"{name} {number} = {value}")
    for at, digits in (dict(runs_of(keys)) | dict(runs_of(keys_after))).items():
        session.line(f"#CP DISPLAY K{at:X}", f"KEY {at:06X} = {digits}")
    lines = {2, 6}
    for at, digits in runs_of(before) + runs_of(stored):
        lines |= {*range(at // 16 - 1, (at + len(digits) // 2) // 16 + 2)}
    for line in sorted(line for line in lines if 0 <= line < 0x40000):
        session.shown(16 * line, memory[16 * line : 16 * line + 16].hex().upper())
    session.line("#CP LOGOFF", "LOGOFF OK")


def units_of(row: object, before: str, after: object, fields: object) -> object:
    """How many units an instruction takes that is done in parts of 256 bytes."""
    code = fields[1]
    if row == "EX":
        code = next(
            (
                digits
                for at, digits in runs_of(fields[6])
                if len(digits) <= 12 and digits[:2] in ("0E", "0F")
            ),
            "",
        )
    if code[:2] not in ("0E", "0F") or fields[7] != "-":
        return 1
    if row == "EX":
        more = int(before[int(fields[1][2], 16)], 16) % 256 if fields[1][2] != "0" else 0
        code = code[:2] + f"{int(code[2:4], 16) | more:02X}"
    lengths = [int(code[2], 16) + 1, int(code[3], 16) + 1]
    done = [
        (int(before[length], 16) - int(after.get(str(length), before[length]), 16)) % (1 << 24)
        for length in lengths
    ]
    parts = max(done) // 256 + (max(done) % 256 > 0)
    is_low = code[:2] == "0F" and int(fields[8][8:10], 16) >> 4 & 3 and max(done) % 256 == 0
    return max(parts + bool(is_low), 1)


def edges() -> Iterator:
    """edges.txt: instructions at the edges of the table, of a user and of a bare machine."""
    for place, line in lines_of("edges.txt"):
        given, left = line.split(" | ")
        _, code, *found = given.split()
        for storage in (None, "8K"):
            session = Session(place, None if storage else "USER A PW 8K\n", storage, (), (16, 0))
            session.line("LOGON", "LOGON OK")
            state = {f"G{number}": "0" * 8 for number in range(16)} | {"PSW": "0" * 13 + "200"}
            memory = bytearray(0x2000)
            first = [("60", "0000000000000C00"), ("68", "0000000000000800"), ("200", code)]
            for at, digits in first + [item.split("=") for item in found]:
                put(state, memory, at, digits)
                text = f"{digits[:8]} {digits[8:]}" if at == "PSW" else digits
                session.line(f"STORE {at} {text}", "STORED")
            if state["PSW"] == "0" * 13 + "200":
                session.line("STORE PSW 00000000 00000200", "STORED")
            state["PSW"] = f"{int(state['PSW'], 16) + len(code) // 2:016X}"
            session.line("BEGIN")
            session.run()
            for at, digits in (part.split("=") for part in left.split()):
                put(state, memory, at, digits)
            session.line("#CP DISPLAY PSW", f"PSW {state['PSW'][:8]} {state['PSW'][8:]}")
            for number in range(16):
                session.line(f"#CP DISPLAY G{number}", f"GPR {number} = {state[f'G{number}']}")
            for at in range(0, 0x2000, 16):
                session.shown(at, memory[at : at + 16].hex().upper())
            yield session


def put(state: str, memory: int, place: Place, digits: object) -> None:
    if place in state:
        state[place] = digits
    else:
        memory[int(place, 16) : int(place, 16) + len(digits) // 2] = bytes.fromhex(digits)


def examples() -> Iterator:
    """The examples of users, and those of one machine, whose scripts a user of its name plays too, with his disks in the middle
    of volumes."""
    for folder in sorted(os.listdir(f"{EXAMPLES}/users")):
        at = f"{EXAMPLES}/users/{folder}"
        names = lines_in(f"{at}/volumes")
        volumes = [stated(f"{at}/{name}.volume") for name in names]
        ended = [
            stated(
                f"{at}/{name}.{'after' if os.path.exists(f'{at}/{name}.after') else 'volume'}"
            ).image()
            for name in names
        ]
        for size in lines_in(f"{at}/sizes") or ["64 256", "16 256"]:
            session = Session(
                f"{folder} on {size}",
                read(f"{at}/directory"),
                None,
                volumes,
                tuple(map(int, size.split())),
            )
            session.script, session.findings, session.ended = (
                lines_in(f"{at}/script"),
                lines_in(f"{at}/transcript"),
                ended,
            )
            yield session
    for folder in sorted(item for item in os.listdir(f"{EXAMPLES}/machines") if item != "include"):
        at = f"{EXAMPLES}/machines/{folder}"
        storage = (lines_in(f"{at}/storage") or ["64K"])[0]
        names = list(
            itertools.takewhile(
                lambda item: os.path.exists(f"{at}/{item}"),
                (f"{number:X}" for number in range(0x190, 0x1A0)),
            )
        )
        disks = [stated(f"{at}/{name}") for name in names]
        middle = [in_the_middle(disk) for disk in disks]
        ended = [
            stated(f"{at}/{name}-saved" if os.path.exists(f"{at}/{name}-saved") else f"{at}/{name}")
            for name in names
        ]
        directory = (
            f"USER BARE PW {storage}\nCONSOLE 009 3215\nSPOOL 00C READER\nSPOOL 00D PUNCH\nSPOOL 00E PRINTER\n"
            + "".join(
                f"MDISK {0x190 + index:X} 3330 1 {item.cylinders} {item.serial} W\n"
                for index, item in enumerate(disks)
            )
        )
        for size in (None, (64, 256), (16, 256)):
            place = f"{folder} on {' '.join(map(str, size))}" if size else folder
            volumes = middle if size else disks
            session = Session(
                place, directory if size else None, storage, volumes, size or (64, 256), "BARE"
            )
            session.script, session.findings = lines_in(f"{at}/script"), lines_in(
                f"{at}/transcript"
            )
            session.ended = [(in_the_middle(item) if size else item).image() for item in ended]
            session.storage = None if size else storage
            yield session


def in_the_middle(disk: object) -> object:
    """A volume with a disk in its middle."""
    volume = Volume(disk.serial, disk.cylinders + 2)
    volume.homes |= {(c + 1, h): home for (c, h), home in disk.homes.items()}
    volume.records = {(c + 1, h): records for (c, h), records in disk.records.items()}
    return volume


def lines_in(path: str) -> list:
    return read(path).removesuffix("\n").split("\n") if os.path.exists(path) else []


# --- users and bare machines ---


class Sequence:
    """A fixed sequence of numbers: a linear congruential generator, with the factor and the increment of Knuth's MMIX."""

    def __init__(self, seed: object) -> None:
        self.state = seed

    def below(self, limit: object) -> object:
        self.state = (self.state * 6364136223846793005 + 1442695040888963407) % (1 << 64)
        return (self.state >> 33) % limit

    def of(self, items: object) -> object:
        return items[self.below(len(items))]

    def digits(self, count: int) -> str:
        return "".join(f"{self.below(256):02X}" for _ in range(count))


# a user with all kinds of devices, and a neighbour who touches his pages in turn and writes his disks; together they have one
# page more than there are frames
STAGE = (
    "USER NEIGHBOR PW 36K\nCONSOLE 009 3215\nMDISK 190 3330 0 1 SHARED W\nMDISK 191 3330 3 1 SHARED W\nUSER GUEST PW 32K\n"
    "CONSOLE 009 3215\nSPOOL 00C READER\nSPOOL 00D PUNCH\nSPOOL 00E PRINTER\nMDISK 190 3330 1 2 SHARED W\n"
)
EXTENTS = {"NEIGHBOR": [(0, 1), (3, 1)], "GUEST": [(1, 2)]}
# TIO 190; SIO 190; then the end of each page in turn is stored
NEIGHBOR = [
    "LOGON",
    "STORE 48 00000800",
    "STORE 68 0000000000000200",
    "STORE 200 9D0001909C00019041100FFC41330001",
    "STORE 210 5030100041110FFF4111000147F0020C",
    "STORE 800 07000840400000063100084640000005",
    "STORE 810 080008080000000005000FC020000040",
    "STORE 840 0000000000010000000101",
    "BEGIN 200",
]
# LM 1,4,440; ST 2,0(1); ALR 2,3; LA 1,4(1); BCT 4,404: storage is filled from 1000 on
GUEST = [
    "LOGON",
    "STORE 400 98140440502100001E23411100044640",
    "STORE 410 0404",
    "STORE 440 00001000123456789E3779B900001C00",
    "SPOOL 00D TO GUEST",
    "BEGIN 400",
]
# the code that sets the key of each block; eight seeks, identifiers and file masks
FIXED = [
    "200 1B111B66415000104346030008414166",
    "210 00014111080046500208070007000700",
    "700 00000000000000000000000000010000",
    "710 00000000000200000000000100000000",
    "720 00000001001200000000000200000000",
    "730 00000000001300000001000000000000",
    "740 00000000010000000000000002000000",
    "750 00000000030000000000000101000000",
    "760 00000002020000000001000001000000",
    "770 00010000020000000001001201000000",
    "780 004080C018100801",
]
UNITS = {
    "009": [0x01, 0x09, 0x09, 0x0A, 0x0A, 0x03, 0x04],
    "00C": [0x02, 0x02, 0x02, 0x02, 0x03, 0x04],
    "00D": [1, 1, 1, 3, 4],
    "00E": [0x01, 0x09, 0x11, 0x19, 0x89, 0x0B, 0x13, 0x1B, 0x8B, 0x03, 0x04],
    "190": [
        0x03,
        0x04,
        0x07,
        0x1F,
        0x1A,
        0x39,
        0xB9,
        0x31,
        0x51,
        0x71,
        0xB1,
        0xD1,
        0xF1,
        0x29,
        0xA9,
        0x12,
        0x06,
        0x06,
        0x0E,
        0x1E,
        0x02,
        0x05,
        0x05,
        0x0D,
        0x1D,
    ],
}
STORAGE, EACH = 0x8000, 10


class Plan:
    """Where a program is, for which device, and whether it reads over its own words."""

    def __init__(self, sequence: object, is_changing: object) -> None:
        self.next, self.is_changing = sequence, is_changing
        units = (
            ["009", "00C", "00C", "190", "190"]
            if is_changing
            else ["009", "00D", "00E", "00C", "190", "190"]
        )
        self.unit = sequence.of(units)
        self.base = sequence.of([0x800, 0x800, 0x800, 0xFE8, 0x1FF0, 0x2800, 0x3FF8, 0x7FD8])
        self.list = sequence.of([0x600, 0x600, 0x0FFC, 0x27F8, 0x7FF4])

    def address(self) -> object:
        """Of bytes that move: at ends of pages, blocks and storage, past it, or over the own words."""
        below = self.next.below
        places = [
            lambda: 0x4FF0 + below(32),
            lambda: 0x6FF0 + below(32),
            lambda: 0x57F0 + below(32),
            lambda: STORAGE - below(0x90),
            lambda: STORAGE + below(0x1000),
            lambda: below(1 << 24),
            lambda: 0x700 + below(0xA0),
            lambda: 0x4000 + below(0x3F00),
        ]
        own = [lambda: self.list + below(16), lambda: self.base + 8 * below(8)]
        return self.next.of(places + 4 * places[-1:] + (own if self.is_changing else []))()

    def change(self, index: object) -> object:
        """A word that reads over words after it, or over what a seek or a list has there."""
        code = {"009": [0x0A], "190": [0x06, 0x06, 0x0E, 0x1E]}.get(self.unit, [0x02])
        ahead = self.base + 8 * (index + 1 + self.next.below(3)) + self.next.of([0, 0, 0, 4, 4, 2])
        address = self.next.of(6 * [ahead] + [0x700 + self.next.below(0x40), self.list])
        flags, count = self.next.of([0x60, 0x60, 0x60, 0x40]), self.next.of(
            [1, 4, 8, 16, 24, 40, 80, 80]
        )
        return word(self.next.of(code), address, flags, count)

    def command(self, index: object, is_last: bool = False) -> object:
        """A word of any kind, most often one that the device knows."""
        below, kind = self.next.below, self.next.below(24)
        if kind == 0:
            return self.next.digits(8)
        ahead = self.base + 8 * (index + 1 + below(3))
        if kind <= 2 and index:
            return word(
                0x08,
                self.next.of(
                    12 * [ahead]
                    + [
                        ahead + 4,
                        STORAGE + below(64),
                        self.base + 8 * index - 16,
                        below(STORAGE) // 8 * 8,
                    ]
                ),
                0,
                0,
            )
        code = below(256) if below(16) == 0 else self.next.of(UNITS[self.unit])
        chain = (
            0
            if is_last and below(16)
            else self.next.of([0x80, 0x80, 0x80, 0x80, 0, 0xC0] + 10 * [0x40])
        )
        flags = (
            chain
            | self.next.of([0, 0x20, 0x20, 0x20])
            | (below(10) == 0) * 0x10
            | (below(64) == 0) * 0x08
        )
        which = 8 * below(8)
        argument = {
            0x07: (0x700 + which, 6),
            0x39: (0x702 + which, 4),
            0xB9: (0x702 + which, 4),
            0x1F: (0x780 + which // 8, 1),
        }
        argument |= {item: (0x740 + which, 5) for item in (0x31, 0x51, 0x71, 0xB1, 0xD1, 0xF1)}
        if self.unit == "190" and code in argument:
            return word(code, argument[code][0], flags, argument[code][1])
        counts = [
            below(3),
            below(1 << 16),
            132,
            133,
            80,
            80,
            80,
            80,
            80,
            below(0x1000) + 1,
            below(100) + 1,
            below(100) + 1,
        ]
        count = self.next.of(counts)
        if below(4) == 0:
            return word(code, self.list + self.next.of([0, 4, 8, 0, 4, 8, 2]), flags | 0x04, count)
        return word(code, self.address(), flags, count)

    def words(self, kind: str) -> str:
        """The words of a program, a random one before it and two after."""
        below = self.next.below
        if kind == "random":
            codes = lambda: self.next.of([below(256), *UNITS[self.unit]])
            some = [
                self.next.digits(8)
                if below(3) == 0
                else word(codes(), below(0x8100), below(256) & 0xF4, below(1 << 16))
                for _ in range(8)
            ]
        else:
            some = []
            if self.unit == "190" and below(4):
                seek, search = 0x700 + 8 * below(6), self.next.of([0x31, 0x31, 0xB1, 0x39, 0x71])
                argument = (
                    (seek + 2, 0x40, 4) if search == 0x39 else (0x740 + 8 * below(8), 0x40, 5)
                )
                some = [
                    word(0x07, seek, 0x40, 6),
                    word(search, *argument),
                    word(0x08, self.base + 8, 0, 0),
                ]
            if self.is_changing:
                some.append(self.change(len(some)))
            last = len(some) + 1 + below(6)
            some += [self.command(number, number == last) for number in range(len(some), last + 1)]
        return "".join([self.next.digits(8), *some, self.next.digits(16)])

    def card(self) -> str:
        """A card with words of a program; where it is loaded, the second reads over those after it."""
        return "".join(
            self.change(number) if self.base == 0 and number == 1 else self.command(number)
            for number in range(10)
        )


def word(code: int, address: int, flags: object, count: int) -> str:
    """A channel command word."""
    return f"{code % 0x100:02X}{address % (1 << 24):06X}{flags:02X}00{count % (1 << 16):04X}"


class Twins:
    """A session of users, and one of each user's bare machine, which is given the same events."""

    number = 1

    def __init__(self, place: Place, sequence: object) -> None:
        self.place, self.next, volume = place, sequence, Volume("SHARED", 4)
        for cylinder, head in itertools.product(range(4), (0, 1, 2, 18)):
            own = (cylinder - 1) % 4
            volume.homes[cylinder, head] = bytes([0, 0, own, 0, head])
            volume.records[cylinder, head] = [self.record(own, head, item) for item in (1, 2, 3)]
        self.both = Session(place, STAGE, None, [volume], (16, 16), "GUEST")
        self.bare = {
            item: Session(place, None, size, cut(volume, item))
            for item, size in (("NEIGHBOR", "36K"), ("GUEST", "32K"))
        }

    def record(self, cylinder: int, head: int, number: int) -> tuple:
        plan = Plan(self.next, True)
        plan.unit, plan.list, plan.base = (
            "190",
            0x600,
            0 if (cylinder, head, number) == (0, 0, 1) else 0x800,
        )
        data = "".join(plan.command(number) for number in range(3 + self.next.below(8)))
        return (
            bytes([0, cylinder, 0, head, number]),
            b"KEY2" if number == 2 else b"",
            bytes.fromhex(data),
        )

    def event(self, verb: object, user: Account, text: str) -> None:
        self.both.script.append(f"{verb} {user} {text}")
        self.bare[user].script.append(f"{verb} BARE {text.replace('TO GUEST', 'TO BARE')}")

    def type(self, *lines: object, user: str = "GUEST") -> None:
        for line in lines:
            self.event("LINE", user, line)

    def store(self, address: int, digits: object) -> None:
        self.type(
            *(
                f"#CP STORE {address + at // 2:X} {digits[at:at + 32]}"
                for at in range(0, len(digits), 32)
            )
        )

    def begin(self) -> None:
        self.type(*NEIGHBOR, user="NEIGHBOR")
        self.type(*GUEST)
        self.event("RUN", "GUEST", "28673")

    def program(self, kind: str) -> None:
        """A channel program is started and served, or loaded, while the neighbour runs."""
        plan = Plan(self.next, kind == "changing")
        self.type(*(f"#CP STORE {item}" for item in FIXED))
        is_loaded = kind == "changing" and self.next.below(4) == 0
        if is_loaded:
            plan.unit, plan.base = self.next.of(["190", "00C", "00C"]), 0
        cards = (
            [plan.card() for _ in range(self.next.below(3) + (kind == "changing"))]
            if plan.unit == "00C"
            else []
        )
        for card in cards:
            self.store(0x7000, card)
            self.store(0x680, "0100700020000050")
            self.start("00D", "00000680")
            self.event("SERVE", "GUEST", "00D")
            self.event("RUN", "GUEST", "2")
        if cards:
            self.type("#CP CLOSE 00D")
        key = self.next.below(2) * self.next.below(16)
        keys = [16 * key] * 16
        for _ in range(self.next.below(3)):
            keys[self.next.below(16)] = 8 * self.next.below(32)
        self.store(0x300, bytes(keys).hex().upper())
        addresses = lambda: [
            self.next.digits(4),
            f"{plan.address():08X}",
            *(f"{2048 * number:08X}" for number in range(16)),
        ]
        self.store(
            plan.list, "".join(self.next.of(addresses()) for _ in range(3 + self.next.below(3)))
        )
        if is_loaded:
            self.type(f"#CP IPL {plan.unit}")
        else:
            self.store(plan.base - 8, plan.words(kind))
            caw = key << 28 | plan.base
            caw = self.next.of([caw | 1 << 24, caw + 4, caw | 1 << 23] + 61 * [caw])
            self.start(plan.unit, f"{caw:08X}", self.next.of(["FF", "00", "00", "00"]))
            if plan.unit == "009" and (kind == "changing" or self.next.below(2)):
                self.type(
                    self.next.of(
                        ["HELLO", "", "A LINE OF SOME LENGTH, WITH A MARK AND A NUMBER: 370", "X"]
                    )
                )
            self.event("RUN", "GUEST", "88")
        self.event("RUN", "NEIGHBOR", "11")
        self.event("SERVE", "NEIGHBOR", "190")
        if not is_loaded:
            self.event("SERVE", "GUEST", plan.unit)
        self.event("RUN", "GUEST", "1")
        self.look(plan.unit, self.next.below(8))

    def start(self, device: str, caw: object, mask: str = "00") -> None:
        """TIO, SIO, TIO, and a branch to itself, after the code that sets the keys."""
        self.store(0x220, f"9D000{device}9C000{device}9D000{device}47F0022C")
        self.store(0x40, f"{0:016}{caw}{0:08}")
        self.type(
            f"#CP STORE PSW {mask}000000 00000{'220' if caw == '00000680' else '200'}", "#CP BEGIN"
        )
        if caw == "00000680":
            self.event("RUN", "GUEST", "2")

    def look(self, unit: object, page: object) -> None:
        """What is seen of the user: registers, PSW, keys, the first block, a page; what is sensed, and where the arm is."""
        self.type(
            "#CP DISPLAY PSW",
            *(f"#CP DISPLAY {kind}{number}" for kind in "GX" for number in range(16)),
        )
        self.type(*(f"#CP DISPLAY K{at:X}" for at in range(0, STORAGE, 2048)), "#CP QUERY FILES")
        self.type(
            *(
                f"#CP DISPLAY {at:X}"
                for at in [*range(0, 0x80, 16), *range(4096 * page, 4096 * page + 4096, 16)]
            )
        )

    def end(self) -> None:
        """All that is seen of both at the end."""
        for page in range(8):
            self.look("190", page)
        for device in UNITS:
            for code, count in (
                ("04", 24 if device == "190" else 1),
                *([("1A", 5)] if device == "190" else []),
            ):
                self.store(0x680, f"{code}00069000000000"[:8] + f"2000{count:04X}")
                self.start(device, "00000680")
                self.event("SERVE", "GUEST", device)
                self.event("RUN", "GUEST", "2")
                self.type("#CP DISPLAY 40", "#CP DISPLAY 690", "#CP DISPLAY 6A0")
        self.type("#CP SPOOL 00D TO SYSTEM", "#CP CLOSE 00D", "#CP CLOSE 00E")
        self.type(*(f"#CP DISPLAY {at:X}" for at in range(0, 0x9000, 16)), user="NEIGHBOR")
        self.type(*(f"#CP DISPLAY G{number}" for number in range(16)), user="NEIGHBOR")

    def difference(self, player: object) -> str | None:
        """What a user is shown that his bare machine does not show, or the other way round."""
        status, findings, errors, shared = player.play(self.both, self.both.size)
        if status:
            return f"status {status}: {errors}"
        for user, bare in self.bare.items():
            own = shown_to(user, findings)
            status, other, errors, volumes = player.play(bare, bare.size)
            if status:
                return f"{user}'s machine: status {status}: {errors}"
            mapped = [re.sub(r"\bBARE\b", user, line) for line in other.splitlines()]
            for number, (line, wanted) in enumerate(itertools.zip_longest(own, mapped), 1):
                if line != wanted:
                    return f"{user}, line {number}: {line!r}, and bare {wanted!r}"
            for (first, count), alone in zip(EXTENTS[user], volumes):
                if tracks_of(shared[0])[first : first + count] != tracks_of(alone):
                    return f"{user}: a track from cylinder {first} on"
        return None


def shown_to(user: Account, findings: object) -> object:
    """The lines of a transcript that are a user's: those of his terminal, of his events, and of his files for the operator."""
    lines = findings.splitlines()
    files = next((at for at, line in enumerate(lines) if line.startswith("== ")), len(lines))
    own, is_own = [
        line for line in lines[:files] if line.startswith((f"{user}:", f"= {user} "))
    ], False
    for line in lines[files:]:
        is_own = line.endswith(f" {user}") if line.startswith("== ") else is_own
        own += [line] if is_own else []
    return own


def cut(volume: object, user: Account) -> Iterator:
    """The disks of a user as volumes of their own."""
    for index, (first, count) in enumerate(EXTENTS[user]):
        own = Volume(f"DISK{index}", count)
        own.homes = {(c, h): volume.homes[first + c, h] for c in range(count) for h in range(HEADS)}
        own.records = {
            (c, h): volume.records.get((first + c, h), [])
            for c in range(count)
            for h in range(HEADS)
        }
        yield own


def tracks_of(image: object) -> object:
    """The bytes of each cylinder of an image."""
    at, cylinders = 12, []
    for _ in range(int.from_bytes(image[10:12], "big")):
        begin = at
        for _ in range(HEADS):
            records, at = image[at + 5], at + 6
            for _ in range(records):
                at += 8 + image[at + 5] + int.from_bytes(image[at + 6 : at + 8], "big")
        cylinders.append(image[begin:at])
    return cylinders


class ByHand(Twins):
    """A channel program of the cases by hand, on a device with the commands that come nearest to those of theirs."""

    number = 1

    def __init__(self, place: Place, line: bytes, unit: object) -> None:
        self.place, self.unit = f"{place} on {unit}", unit
        directory = (
            "USER NEIGHBOR PW 64K\nUSER GUEST PW 16K\nCONSOLE 009 3215\nSPOOL 00C READER\nSPOOL 00D PUNCH\n"
            "SPOOL 00E PRINTER\n"
        )
        self.both = Session(self.place, directory, None, (), (16, 16), "GUEST")
        self.bare = {
            item: Session(self.place, None, size)
            for item, size in (("NEIGHBOR", "64K"), ("GUEST", "16K"))
        }
        self.type(*NEIGHBOR, user="NEIGHBOR")
        self.type("LOGON", "STORE 110 0812", "BEGIN 100")
        self.event("DECK", "GUEST", "3")
        for session in (self.both, self.bare["GUEST"]):
            session.script += [80 * item for item in "ABC"]
        given, _ = line.split(" | ")
        self.start("00000008", given.split()[1:])
        self.look("NEIGHBOR", [*range(0, 0x100, 16), *range(0xFF0, 0x10000, 4096)])
        self.look("GUEST", range(0, 0x4000, 16))
        self.type("#CP CLOSE 00D")

    def start(self, caw: object, items: object) -> None:
        """What a case finds is stored; its program is started and served, while the neighbour runs."""
        for item in items:
            place, _, digits = item.partition("=")
            if not digits and re.fullmatch("[0-9A-F]{8}", item):
                caw = item
            elif place[0] == "K":
                self.type(f"#CP STORE G1 000000{digits}", f"#CP STORE G2 {int(place[1:], 16):08X}")
                self.type("#CP STORE PSW 00000000 00000110")
                self.event("RUN", "GUEST", "1")
            elif digits and re.fullmatch("[0-9A-F]{1,6}", place):
                words = (digits[number : number + 16] for number in range(0, len(digits), 16))
                self.store(
                    int(place, 16),
                    "".join(
                        self.nearest(word[:2]) + word[2:] if len(word) == 16 else word
                        for word in words
                    ),
                )
        self.type(
            f"#CP STORE 100 9D000{self.unit}9C000{self.unit}9D000{self.unit}47F0010C",
            f"#CP STORE 48 {caw}",
        )
        self.type(
            "#CP STORE PSW 00000000 00000100",
            *(["A LINE THAT WAITS"] if self.unit == "009" else []),
        )
        self.event("RUN", "GUEST", "2")
        self.event("RUN", "NEIGHBOR", "11")
        self.event("SERVE", "GUEST", self.unit)
        self.event("RUN", "GUEST", "1")

    def nearest(self, code: int) -> object:
        """The command that appears nearest to one that the device of the cases knows."""
        low = int(code, 16) % 16
        takes = (
            {"00D": "01", "009": "09"}
            if low in (1, 5, 9, 11, 13, 15)
            else {"009": "0A"}
            if low in (2, 6, 10, 12, 14)
            else {}
        )
        if low in (1, 2, 5, 6, *range(9, 16)):
            takes["00C"] = "02"
        return takes.get(self.unit, f"0{low}" if low in (3, 4) else code)

    def look(self, user: Account, lines: list) -> None:
        """What is seen of a user: registers, PSW, keys, and these lines of storage."""
        self.type(
            "#CP DISPLAY PSW",
            *(f"#CP DISPLAY {kind}{number}" for kind in "GX" for number in range(16)),
            user=user,
        )
        self.type(
            *(f"#CP DISPLAY K{at:X}" for at in range(0, 0x4000, 2048)),
            *(f"#CP DISPLAY {at:X}" for at in lines),
            user=user,
        )


def by_hand() -> Iterator:
    """The cases of channel_programs by hand, on a reader, a punch and a console."""
    table = f"{TOP}/tests/programs/channel_programs/data/cases.txt"
    for number, line in enumerate(read(table).splitlines(), 1):
        if line and not line.startswith("#"):
            yield from (ByHand(f"cases.txt:{number}", line, unit) for unit in ("00C", "00D", "009"))


def guest_programs(kind: str, count: int) -> Iterator:
    """Channel programs of fixed sequences, some in each session."""
    for seed in range(count // EACH):
        twins = Twins(f"{kind} {seed}", Sequence(370_000 + seed))
        twins.begin()
        for _ in range(EACH):
            twins.program(kind)
        twins.end()
        yield twins


# --- runs of programs ---


class Paragraph:
    """Runs of a table of program_runs.py that have one folder."""

    def __init__(self, runs: object) -> None:
        self.place, self.runs, self.number = runs[0].place, runs, len(runs)

    def difference(self, player: object) -> object:
        """What differs first in one of the runs."""
        programs = {part: [player.path(), part] for part in PARTS}
        ends = (
            f"{place}: {what}"
            for place, what in program_runs.play(self.runs, programs)
            if what is not None
        )
        return next(ends, None)


def runs_of_programs(table: object) -> Iterator:
    """A table of runs."""
    yield from map(Paragraph, program_runs.runs_of(f"{TABLES}/{table}.txt"))


# --- all ---


def judged(player: object, session: object) -> tuple:
    """A session, and what is otherwise in it."""
    try:
        return session, player.difference(session)
    except (OSError, subprocess.SubprocessError, ValueError) as error:
        return session, repr(error)


def play_part(player: object, name: str, items: object, jobs: object, first: int) -> tuple:
    """Plays the sessions of a part; how many agree, and how many do not."""
    begun, agreed, count = time.time(), 0, 0
    with concurrent.futures.ThreadPoolExecutor(jobs) as pool:
        while some := list(itertools.islice(items, max(min(64, (first or count + 64) - count), 0))):
            for session, what in pool.map(functools.partial(judged, player), some):
                count, agreed = count + session.number, agreed + session.number - (what is not None)
                if what is not None:
                    print(f"{session.place}: {what}")
    print(
        f"{name}{player.ending}: {agreed} of {count} agree, {time.time() - begun:.0f} seconds",
        flush=True,
    )
    if count != COUNTS[name] and not first:
        print(
            f"{name}: {count} sessions and not {COUNTS[name]}: its table was cut, or has new lines"
        )
        return agreed, count - agreed + 1
    return agreed, count - agreed


def main() -> int:
    parts = {session: functools.partial(sessions, session) for session in SESSIONS}
    parts |= {
        "disk-programs": disk_programs,
        "states": states,
        "loadings": loadings,
        "unit-record": unit_record,
        "instructions": instructions,
        "edges": edges,
        "examples": examples,
    }
    parts |= {"by-hand": by_hand} | {run: functools.partial(runs_of_programs, run) for run in RUNS}
    parts |= {
        name: functools.partial(guest_programs, name, EACH * COUNTS[name])
        for name in ("chains", "changing", "random")
    }
    parts["halfwords"] = halfwords.halfwords
    parts["large"] = functools.partial(paging.large, Session, Volume)
    parts["many"] = functools.partial(many.many, Session)
    parts["touched"] = functools.partial(paging.touched, Session, COUNTS["touched"])
    parser = argparse.ArgumentParser(
        description=__doc__, formatter_class=argparse.RawDescriptionHelpFormatter
    )
    parser.add_argument(
        "--built", action="store_true", help="both compilers' programs, which have to be there"
    )
    parser.add_argument("--programs", default=f"{TOP}/crates")
    parser.add_argument("--jobs", type=int, default=os.cpu_count())
    parser.add_argument("--first", type=int, help="only so many sessions of each part")
    parser.add_argument("--parts", action="store_true", help="names the parts")
    parser.add_argument("part", nargs="*")
    words = parser.parse_args()
    if words.parts:
        print(*parts, sep="\n")
        return 0
    if unknown := [item for item in words.part if item not in parts]:
        parser.error(f"no part has the name {unknown[0]}; --parts names them")
    players = [
        Player(os.path.abspath(words.programs), item)
        for item in ("", SECOND)[: 2 if words.built else 1]
    ]
    for player in players:
        if not player.is_built():
            print(f"not built: {player.path()}")
            return 1
    passed = failed = 0
    for player in players:
        for name in words.part or parts:
            try:
                agreed, others = play_part(player, name, parts[name](), words.jobs, words.first)
            except OSError as error:
                print(f"{name}: its table is lost: {error}")
                agreed, others = 0, 1
            passed, failed = passed + agreed, failed + others
    return report(passed, failed)


if __name__ == "__main__":
    sys.exit(main())
