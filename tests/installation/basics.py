"""What an installation does for people: logging on, files, recovery, and its end. Called by tests/commands/people.py."""
from __future__ import annotations

from collections.abc import Callable, Iterator
import asyncio
import collections
import os
import re
import signal
import socket
import subprocess
import time

from tests.lib.files import names_in, read, write
from tests.lib.images import blank_image
from tests.lib.sites import (
    BANNER,
    PRINTS,
    logged_on,
    make_site,
    person,
    processor_ticks,
    replayed,
    run,
    until_so,
)

TELLS = re.compile("([0-9:]{8}) (.*)")


# --- tables of what needs no program ---

TYPED = {
    "the four ends of lines": (b"A\rB\nC\r\nD\r\0E", ["A", "B", "C", "D"], b""),
    "a command between return and newline": (b"A\r\xff\xf1\nB\n", ["A", "B"], b""),
    "two ends": (b"A\n\nB\r\r", ["A", "", "B", ""], b""),
    "what is no printable character": (b"A\tB\x00\x1b\xc3\xa9C\n", ["A B    C"], b""),
    "130 characters": (b"X" * 131 + b"\n" + b"Y" * 130 + b"\n", ["X" * 130, "Y" * 130], b""),
    "what is rubbed out": (b"AB\x08C\x7f\x7f\x7f\x7fD\n\x08E\n", ["D", "E"], b""),
    "what is rubbed out by telnet": (b"AB\xff\xf7C\n" + b"AB\xff\xf8C\n", ["AC", "C"], b""),
    "a break and an interrupt": (b"A\xff\xf3B\xff\xf4\n", ["#CP", "#CP", ""], b""),
    "options, all declined": (b"\xff\xfb\x1f\xff\xfd\x03\xff\xfd\x01\xff\xfc\x01\xff\xfe\x01A\n", ["A"],
                              b"\xff\xfe\x1f\xff\xfc\x03"),  # fmt: skip
    "what is said of an option": (b"A\xff\xfa\x18\x00\nX\xff\xff\xf0Y\xff\xf0B\n", ["AB"], b""),
    "whether somebody is there": (b"A\xff\xf6B\n", ["AB"], b"[YES]\r\n"),
    "a byte 255": (b"A\xff\xffB\n", ["A B"], b""),
}
BEGINS = b"* GATHJUMLI RECORDING 1\n* BEGUN 2026-11-26 12:00:00 UTC\n"
ENTRIES = {
    "whole lines": (b"AUTO 3\nLINE A LOGON\n", [b"AUTO 3\n", b"LINE A LOGON\n"]),
    "a line that is cut": (b"AUTO 3\nLINE A LOG", [b"AUTO 3\n"]),
    "a deck": (b"DECK A 2\nAUTO 1\n* X\nTICK A\n", [b"DECK A 2\nAUTO 1\n* X\n", b"TICK A\n"]),
    "a deck that is cut": (b"TICK A\nDECK A 2\nX\n", [b"TICK A\n"]),
    "a card that is cut": (b"TICK A\nDECK A 2\nX\nY", [b"TICK A\n"]),
    "comments": (b"* 2026-11-26 12:00:01 UTC\nTICK A\n", [b"TICK A\n"]),
}


def try_tables(check: Callable, folder: str) -> None:
    try_passwords(check)
    try_wrong_passwords(check)
    try_terminal(check)
    try_recordings(check, folder)
    try_pace(check)
    try_no_room(check)


def try_passwords(check: Callable) -> None:
    """Passwords are right for their names alone, and are not kept."""
    from gathjumli.logon import Passwords

    passwords = Passwords({"A": "SECRET", "B": "OTHER"})
    cases = {
        ("A", "SECRET"): True,
        ("A", "OTHER"): False,
        ("B", "OTHER"): True,
        ("C", "SECRET"): False,
        ("", ""): False,
    }
    for (name, password), wanted in cases.items():
        check(f"{name} {password}", passwords.are_right(name, password) == wanted)
    kept = repr(vars(passwords))
    check("no password is kept", "SECRET" not in kept and "OTHER" not in kept)


def try_wrong_passwords(check: Callable) -> None:
    """Many wrong passwords are a line of the journal, with the name and the address."""
    from gathjumli.logon_server import WrongPasswords

    async def summed() -> tuple:
        findings = []
        wrong = WrongPasswords(findings.append)
        for name, address in [("A", "10.0.0.5")] * 7 + [("B", "")] + [(None, "10.0.0.5")] * 2:
            wrong.add(name, address)
        before = list(findings)
        wrong.notify_all()
        return before, findings, dict(wrong.counts)

    before, findings, left = run(summed())
    wanted = [
        "7 wrong passwords for A from 10.0.0.5",
        "a wrong password for B",
        "2 wrong passwords for nobody here from 10.0.0.5",
    ]
    check("wrong passwords are summed", (before, findings, left) == ([], wanted, {}), *findings)


def try_typed(check: Callable, answers: object) -> None:
    """The lines that bytes of a terminal make, in pieces; answers: what the desk says to each line."""
    begin = [
        "USER 0 41",
        "ROOM 0 1",
        "OPEN 0 0 0",
        f"CAME 0 0 {b'LOGON A B'.hex().upper()}0A",
        "SAYS 1 0 1 41 42",
        "TURN 1 0 1",
        "DONE 1 0",
    ]
    for what, (given, wanted, replies) in TYPED.items():
        for size in (1, 3, len(given)):
            pieces = [given[at : at + size].hex().upper() for at in range(0, len(given), size)]
            lines = [
                *begin,
                *(f"CAME 2 0 {piece}" for piece in pieces),
                *["DONE 3 0"] * len(wanted),
            ]
            findings = [
                line.split() for answer in list(answers(lines))[len(begin) - 1 :] for line in answer
            ]
            found = [
                bytes.fromhex(item[2].replace("-", "")).decode()
                for item in findings
                if item[0] == "TYPE"
            ]
            given_back = b"".join(bytes.fromhex(item[2]) for item in findings if item[0] == "GIVE")
            check(
                f"{what}, {size} bytes at once",
                (found, given_back) == (wanted, replies),
                *found,
                given_back,
            )


class Unread:
    """A connection of which nobody reads."""

    def __init__(self) -> None:
        self.transport = self
        self.size, self.is_gone = 0, False

    def write(self, data: bytes) -> None:
        self.size += len(data)

    def get_write_buffer_size(self) -> object:
        return self.size

    def get_extra_info(self, _: int) -> object:
        return socket.socket()

    def is_closing(self) -> object:
        return self.is_gone

    def abort(self) -> None:
        self.is_gone = True


def try_terminal(check: Callable) -> None:
    """One who does not read is closed, and takes no more memory then."""
    from gathjumli.logon_server import MOST_UNREAD, SocketConnection

    findings, writer = [], Unread()
    connection = SocketConnection(writer, findings.append)
    for _ in range(10000):
        connection.send(b"X" * 130)
    check(
        "one who does not read is closed",
        writer.is_gone and writer.size <= MOST_UNREAD + 200 and len(findings) == 1,
        *findings,
    )


def try_recordings(check: Callable, folder: str) -> None:
    """What of a recording is whole, what is none, and what another one is of."""
    from gathjumli.cli import Failure
    from gathjumli.recording import Recording, differing, without_passwords
    from gathjumli.stores import FileStore

    path = f"{folder}/some"
    for what, (text, wanted) in ENTRIES.items():
        write(path, BEGINS + text)
        recording = Recording(FileStore(path))
        found = [entry for _, _, entry in recording.entries()]
        recording.close()
        whole = b"".join(wanted)
        check(
            f"{what} of a recording",
            found == wanted and read(path) in (BEGINS + text, BEGINS + whole),
            *found,
        )
    for text in (
        b"LINE A LOGON\n",
        b"x",
        b"* GATHJUMLI RECORDING 2\n",
        b"* GATHJUMLI RECORDING 1 \n",
    ):
        write(path, text)
        try:
            Recording(FileStore(path)).close()
            check(f"{text} is no recording", False)
        except Failure:
            check(f"{text} is no recording, and stays", read(path) == text)
    for text in (b"", b"* GATHJUMLI", b"* GATHJUMLI RECORDING 1\n* PROGRAM 1\n"):
        write(path, text)
        Recording(FileStore(path)).close()
        check(f"{text} was never begun", read(path) == b"")
    one = [b"* T", b"* PROGRAM 1", b"* DIRECTORY a /x", b"* SIZES 1 2", b"* VOLUME b /y"]
    check("paths may differ", differing(one, [*one[:2], b"* DIRECTORY a /z", *one[3:]]) is None)
    findings = [
        differing(one, [*one[:place], b"* VOLUME c d", *one[place + 1 :]]) for place in range(1, 5)
    ]
    names = ["version of the program", "directory", "numbers of --frames and --slots", "volume 1"]
    check(
        "what differs is reported",
        all(name in item for name, item in zip(names, findings)),
        *findings,
    )
    hidden = without_passwords(b"* A\nUSER A SECRET 64K\n CONSOLE 009  3215\n")
    check("passwords are no part of it", hidden == b"USER A X 64K\nCONSOLE 009 3215\n", hidden)


def try_pace(check: Callable) -> None:
    """A part takes about the same time, however long a turn is."""
    from gathjumli.following import PartResult
    from gathjumli.parts import FEW_TURNS, Pace, STUCK_TURNS

    for seconds_a_turn in (1e-7, 1e-6, 1e-3, 0.02):
        pace = Pace(0.01)
        for _ in range(30):
            turns = pace.turns
            pace.took(turns, turns * seconds_a_turn, PartResult([], [], [], False))
        took = turns * seconds_a_turn
        holds = took <= max(0.011, seconds_a_turn) and (took >= 0.005 or turns == 100000)
        check(f"a turn of {seconds_a_turn} s", holds, f"{turns}")
    pace.turns = 1000
    pace.took(1000, 0.001, PartResult([], [], [], True))
    check("few turns where all wait", not pace.is_busy and pace.turns <= FEW_TURNS)
    pace.woke(PartResult([], [], [], False))
    done = 0
    while pace.is_busy and done < 10 * STUCK_TURNS:
        done += pace.turns
        pace.took(pace.turns, 0.001, PartResult(["= A 0 FRAMES"] * pace.turns, [], [], False))
    check("who lack frames wait too", not pace.is_busy and done >= STUCK_TURNS, f"{done}")


def try_no_room(check: Callable) -> None:
    """Whoever typed hears that a line found no room for a page, and nobody hears so of a turn that found none."""
    from gathjumli.engine import NO_ROOM, Engine
    from gathjumli.following import PartResult
    from gathjumli.parts import Pace, typed_line
    from gathjumli.users import User

    engine, given, shown = Engine.__new__(Engine), [], []
    user = User("A")
    user.show = lambda texts, when=None: shown.extend(texts)
    engine.users, engine.receiver, engine.pace = {"A": user}, None, Pace(1)
    engine.marks, engine.turns = collections.deque(), 0
    short, done = PartResult(["= A FRAMES"], [], [], True), PartResult([], [], [], True)

    def try_results(*results: PartResult) -> None:
        left = list(results)
        engine.done = lambda part: (given.append(part), left.pop(0))[1]
        given.clear()
        for part, result in engine.do_waiting([typed_line("A", b"X")]):
            engine.take(part, result)

    try_results(short, done)
    check("a line that found no room is reported", shown == [NO_ROOM], *shown)
    shown.clear()
    try_results(done, short)
    check("a turn that found none is not", not shown, *shown)
    first, then = given
    check(
        "a typed line is a part, and its turns another",
        first.lines == b"LINE A X\n" and then.turns >= 4,
    )
    check("which deal nothing else", not then.typed)


# --- what is tried in seconds, over the stand-in or the program itself ---


def try_logging_on(check: Callable, site: object) -> None:
    """Logging on, refusals, another terminal, leaving and coming back."""

    async def tried() -> None:
        where = f"{site.folder}/socket"
        for given in ("LOGON ALICE BUILDER", "LOGON NOBODY WONDER", "LOGON OPER SECRET"):
            stranger = await person(where)
            begun = time.monotonic()
            stranger.type(given)
            answers = [await stranger.line(), await stranger.line()]
            took = time.monotonic() - begun
            check(
                f"{given} is refused",
                answers == [BANNER, "LOGON REFUSED"] and took >= 0.5,
                f"{took:.2f} s",
                *answers,
            )
            stranger.go()
        stranger = await person(where)
        stranger.type(
            "HELLO",
            "",
            "LOGON ALICE WONDER X",
            "LOGON",
            "LOGON ALICE",
            "TWO WORDS",
            "logon alice wonder",
        )
        await stranger.until("LOGON OK")
        hints = [
            line for line in stranger.lines if line == "TYPE LOGON NAME, AND THEN THE PASSWORD"
        ]
        check("what is no name and password is no guess", len(hints) == 4, *stranger.lines)
        stranger.type("LOGOFF")
        await stranger.rest()
        alice = await person(where)
        check(
            "a name and a password",
            await alice.logon("alice", "wonder") == "LOGON OK",
            *alice.lines,
        )
        alice.type("STORE G1 0000002A", "DISPLAY G1", "", "MSG BOB HELLO")
        await alice.until("UNKNOWN COMMAND", "USER NOT LOGGED ON", "SENT")
        shown = ["LOGON OK", "STORED", "GPR 1 = 0000002A"]
        check("a terminal shows what comes of its lines", alice.lines[1:4] == shown, *alice.lines)
        other = await person(where)
        check(
            "another terminal", await other.logon("ALICE", "WONDER") == "RECONNECTED", *other.lines
        )
        await other.until(alice.lines[-1])
        seen = [line for line in other.lines if line in shown]
        check(
            "is shown what was typed and answered",
            seen == shown and "STORE G1 0000002A" in other.lines,
            *other.lines,
        )
        check(
            "and the first one is reported",
            (await alice.rest())[-1] == "ANOTHER TERMINAL TAKES OVER",
            *alice.lines,
        )
        other.go()
        bob = await person(where)
        await bob.logon("BOB", "BUILDER")
        bob.type("MSG ALICE ARE YOU THERE")
        await bob.until("SENT")
        back = await person(where)
        await back.logon("ALICE", "WONDER")
        await back.until("MSG FROM BOB: ARE YOU THERE")
        check("who comes back is shown what came meanwhile", True)
        back.type("LOGOFF")
        check("LOGOFF closes", (await back.rest())[-1] == "LOGOFF OK", *back.lines)
        again = await person(where)
        check(
            "and the machine was off",
            await again.logon("ALICE", "WONDER") == "LOGON OK",
            *again.lines,
        )
        again.type("DISPLAY G1")
        await again.until("GPR 1 = 00000000")
        check("with fresh registers", True)
        again.type("LOGOFF")
        bob.type("LOGOFF")
        await asyncio.gather(again.rest(), bob.rest())

    site.online("--sender", "OPER")
    run(tried())
    site.operate("end logoff")
    status = site.ended()
    check(
        "an end where nobody is on",
        status == 0 and "the session has ended" in site.since_start(),
        *site.findings,
    )
    written = "".join(read_all(site.folder))
    secrets = [name for name in ("WONDER", "BUILDER", "SECRET") if name in written]
    check("no password is recorded", not secrets, *secrets)
    check(
        "the recording is for its owner alone",
        os.stat(f"{site.folder}/{kept_of(site)}/recording").st_mode & 0o777 == 0o600,
    )


def try_passwords_file(check: Callable, repository: str, site: object) -> None:
    """People log on with the passwords of a file, which change while the installation runs."""
    path = f"{site.folder}/passwords"

    def set_password(name: str, *words: object, given: str = "") -> object:
        return subprocess.run(
            [f"{repository}/bin/passwords", *words, path, name],
            input=given,
            capture_output=True,
            text=True,
        )

    async def answer(*words: object) -> object:
        one = await person(f"{site.folder}/socket")
        findings = await one.logon(*words)
        one.go()
        return findings

    done = set_password("ALICE", given="Looking\nGLASS\n")
    check("a password is set", done.returncode == 0 and not done.stdout, done.stderr)
    kept = read(path)
    check(
        "its file is for its owner alone, and has it not",
        b"LOOKING" not in kept.upper() and os.stat(path).st_mode & 0o777 == 0o600,
    )
    for name, given in (("BOB", "TWO WORDS\n"), ("BOB", "\n"), ("BOB", "\xe9\n")):
        done = set_password(name, given=given)
        check(f"{given!r} is no password", done.returncode == 1 and read(path) == kept, done.stderr)
    check("a name is a user's", set_password("bob", given="X\n").returncode == 2)
    check("nobody is removed who is not there", set_password("BOB", "--remove").returncode == 1)
    site.online("--passwords", path)
    check("the directory's passwords are none", run(answer("ALICE", "WONDER")) == "LOGON REFUSED")
    check("those of the file are", run(answer("ALICE", "looking")) == "LOGON OK")
    set_password("BOB", given="NEW\n")
    check("also one that is set meanwhile", run(answer("BOB", "NEW")) == "LOGON OK")
    set_password("NOBODY", given="THERE\n")
    check("a name of the file alone is refused", run(answer("NOBODY", "THERE")) == "LOGON REFUSED")
    set_password("ALICE", "--remove")
    check("and one that is removed is none", run(answer("ALICE", "LOOKING")) == "LOGON REFUSED")
    check("it is suspended", site.stop() == 0, *site.findings)
    write(path, b"ALICE 12 34\n")
    site.start("--passwords", path)
    check(
        "another file is refused",
        site.ended() == 1 and "line 1 is no name with a salt and a sum" in site.since_start(),
        *site.findings,
    )


def kept_of(site: object) -> object:
    """The folder of the session that was ended."""
    return max(item for item in os.listdir(site.folder) if item.startswith("recording.2"))


def read_all(folder: str) -> Iterator:
    """What the files of a folder have, but for its directory."""
    for path, _, names in os.walk(folder):
        for name in names:
            if not (path == folder and name == "directory") and name != "socket":
                with open(f"{path}/{name}", errors="replace") as file:
                    yield file.read()


def try_recovery(check: Callable, site: object, program: str) -> None:
    """Kills, a torn end, and one who goes on with what he was shown."""

    async def on_and_count(rounds: object) -> tuple:
        alice = await person(f"{site.folder}/socket")
        first = await alice.logon("ALICE", "WONDER")
        for count in rounds:
            alice.type(f"STORE G1 {count:08X}", "DISPLAY G1")
            await alice.until(f"GPR 1 = {count:08X}")
        alice.go()
        return first, alice.lines

    site.online()
    first, _ = run(on_and_count(range(1, 4)))
    site.kill()
    with open(site.record, "ab") as file:
        file.write(b"LINE ALICE DISPL")
    site.online()
    again, lines = run(on_and_count(range(4, 6)))
    holds = first == "LOGON OK" and again == "RECONNECTED" and "GPR 1 = 00000003" in lines
    check("a start goes on where a kill was, and cuts a torn end", holds, *lines)
    site.kill(is_all=True)
    site.online()
    other = subprocess.run(
        [site.command, *site.words, *site.paths],
        capture_output=True,
        text=True,
        stdin=subprocess.DEVNULL,
    )
    check(
        "a second one is refused",
        other.returncode == 1 and "another installation goes on" in other.stderr,
        other.stderr,
    )
    run(on_and_count(range(6, 7)))
    check("a suspension ends well", site.stop() == 0, *site.findings)
    done, shown = replayed(program, site.paths[0], site.record)
    wanted = [item for count in range(1, 7) for item in ("STORED", f"GPR 1 = {count:08X}")]
    check(
        "the recording is a script that shows the same",
        shown.get("ALICE") == ["LOGON OK", *wanted],
        done.stderr,
        *shown,
    )
    fill_disk(check, site, program)
    refuse_other(check, site)


def fill_disk(check: Callable, site: object, program: str) -> None:
    """Where the disk is full it ends, and nothing was shown that is not in the recording."""

    async def type_on() -> object:
        alice = await person(f"{site.folder}/socket")
        await alice.logon("ALICE", "WONDER")
        alice.type(*(f"STORE G1 {number:08X}" for number in range(1000)))
        return await alice.rest()

    site.online(most_bytes=os.path.getsize(site.record) + 2000)
    lines = run(type_on())
    check("it ends where the disk is full", site.ended() == 3, *site.findings)
    count = lines.count("STORED")
    site.online()
    check("and goes on when it is not", site.stop() == 0, *site.findings)
    _, shown = replayed(program, site.paths[0], site.record)
    check("with all that was shown", 0 < count <= shown["ALICE"].count("STORED"), f"{count}")


def refuse_other(check: Callable, site: object) -> None:
    """A recording is of one directory, whatever its passwords, and of one number of frames."""
    with open(site.paths[0]) as file:
        before = file.read()
    cases = {
        "other numbers of --frames": (before, ["--frames", "99"]),
        "another directory": (before + "USER MORE PW 64K\n", []),
    }
    for findings, (directory, more) in cases.items():
        with open(site.paths[0], "w") as file:
            file.write(directory)
        words = [site.command, *site.words, *site.paths, *more]
        done = subprocess.run(words, capture_output=True, text=True, stdin=subprocess.DEVNULL)
        check(
            f"{findings} is reported", done.returncode == 1 and findings in done.stderr, done.stderr
        )
    with open(site.paths[0], "w") as file:
        file.write(before.replace("WONDER", "LOOKING"))
    site.online()
    check("a changed password is no other directory", site.stop() == 0, *site.findings)


def try_silence(check: Callable, site: object) -> None:
    """An operator who does not read keeps nobody waiting."""

    async def come_and_go() -> None:
        for _ in range(2):
            people = [await person(f"{site.folder}/socket") for _ in range(20)]
            for item in people:
                item.type("LOGON ALICE WONDER")
            for item in people:
                await item.until("LOGON OK", "RECONNECTED", "ANOTHER TERMINAL TAKES OVER")
                item.go()

    site.online()
    for _ in range(300):
        site.operate("help")
    begun = time.monotonic()
    run(come_and_go())
    check("people are served meanwhile", time.monotonic() - begun < 20)
    site.process.send_signal(signal.SIGTERM)
    check("and it can be ended", site.process.wait(20) == 0)
    site.process.communicate()


def try_computing(check: Callable, site: object) -> None:
    """A guest that computes is dealt turns while others type; where all wait no time is taken."""

    async def tried() -> None:
        alice, bob = await person(f"{site.folder}/socket"), await person(f"{site.folder}/socket")
        await alice.logon("ALICE", "WONDER")
        await bob.logon("BOB", "BUILDER")
        # adds one to register 1 for ever
        alice.type("STORE G1 00000000", "STORE 100 4111000147F00100", "BEGIN 100")
        await asyncio.sleep(0.5)
        bob.type("MSG ALICE HOW FAR")
        await bob.until("SENT")
        await alice.until("MSG FROM BOB: HOW FAR")
        alice.type("#CP", "DISPLAY G1")
        while not (await alice.line()).startswith("GPR 1 = "):
            pass
        check(
            "turns are dealt to who computes",
            int(alice.lines[-1].split()[-1], 16) > 0,
            *alice.lines,
        )
        took = await idle_ticks(site)
        check("no processor time where all wait", took <= 1, f"{took} ticks of the host")
        alice.go()
        bob.go()

    site.online("--ticks", "20")
    run(tried())
    recording = read(site.record)
    check("who runs has ticks", b"\nTICK ALICE\n" in recording and b"TICK BOB" not in recording)
    site.operate("status")
    check(
        "the operator hears of it",
        site.await_message("2 on, 0 about to log on") and "all wait" in site.since_start(),
        *site.findings,
    )
    site.operate("message GOOD NIGHT")
    site.operate("end logoff")
    check("no end while somebody is on", site.await_message("still on: ALICE BOB"), *site.findings)
    site.operate("end logoff now")
    check("unless it is asked for", site.ended() == 0, *site.findings)


async def idle_ticks(site: object) -> object:
    """The processor time that they take in 1.5 seconds; a loaded host may need another try until all that was typed is done."""
    for _ in range(3):
        await asyncio.sleep(0.5)
        before = processor_ticks(site)
        await asyncio.sleep(1.5)
        took = processor_ticks(site) - before
        if took <= 1:
            break
    return took


def try_files(check: Callable, site: object, prints: object) -> object:
    """Decks from folders, and printouts when they are closed; prints: what is typed to have HELLO printed, and what closes."""
    folder = f"{site.folder}/decks/BOB"

    def put(name: str, data: bytes) -> None:
        os.makedirs(folder, exist_ok=True)
        with open(f"{folder}/{name}", "wb") as file:
            file.write(data)

    async def tried() -> object:
        alice, bob = await person(f"{site.folder}/socket"), await person(f"{site.folder}/socket")
        await alice.logon("ALICE", "WONDER")
        await bob.logon("BOB", "BUILDER")
        bob.type("STORE 100 4111000147F00100", "BEGIN 100")
        alice.type(*prints[0])
        if prints[1]:
            await alice.until("STOPPED DISABLED WAIT")
            alice.type(prints[1])
            await alice.until("FILE 0001 CLOSED")
        put("text", b"FIRST CARD\r\nSECOND\n")
        put("long", b"X" * 81)
        put("bytes.deck", bytes(range(160)))
        put("half.deck", bytes(79))
        put("empty", b"")
        put("many.deck", bytes(80) * 100)
        await until_so(lambda: len(names_in(f"{folder}/done") + names_in(f"{folder}/refused")) == 9)
        bob.type("#CP QUERY FILES", "#CP DISPLAY G1")
        while not (await bob.line()).startswith("GPR 1 = "):
            pass
        check("his machine runs on", int(bob.lines[-1].split()[-1], 16) > 0, *bob.lines)
        alice.go()
        bob.go()
        return bob.lines

    words = ["--decks", f"{site.folder}/decks", "--printouts", f"{site.folder}/prints"]
    words += ["--sender", "OPER"]
    site.online(*words)
    shown = run(tried())
    name = f"{site.folder}/prints/{site.session()}/PRT0001-ALICE.txt"
    holds = os.path.exists(name) and read(name) == b"HELLO\n"
    check("a printout is there when it is closed", holds, *names_in(site.folder))
    check(
        "decks are read in",
        names_in(f"{folder}/done") == ["bytes.deck", "many.deck", "text"],
        *names_in(f"{folder}/done"),
    )
    refused = names_in(f"{folder}/refused")
    findings = [
        open(f"{folder}/refused/{item}").read() for item in refused if item.endswith(".reason")
    ]
    wanted = [
        "it has no card\n",
        "a deck has cards of 80 bytes, and this one has 79 bytes\n",
        "card 1 is longer than 80\n",
    ]
    check("or refused with a reason", findings == wanted and len(refused) == 6, *refused, *findings)
    site.kill()
    os.replace(f"{folder}/done/text", f"{folder}/text")
    site.online(*words)
    check(
        "a deck that was read in before a crash is only moved",
        site.await_message("deck text for BOB: read in"),
        *site.findings,
    )
    check("they are suspended", site.stop() == 0)
    os.unlink(name)
    site.online("--printouts", f"{site.folder}/prints")
    check(
        "and a printout that was taken away does not come back",
        site.stop() == 0 and not os.path.exists(name),
    )
    with open(site.record, "rb") as file:
        before = file.read()
    check("what is written is noted", before.count(b"* PRINTED PRT0001-ALICE.txt\n") == 1)
    write(site.record, without_sums(before).replace(b"* PRINTED PRT0001-ALICE.txt\n", b""))
    site.online("--printouts", f"{site.folder}/prints")
    check(
        "one that a crash kept from being written is",
        site.await_message(f"closed: {name}") and read(name) == b"HELLO\n",
    )
    check("they are suspended again", site.stop() == 0)
    with open(site.record, "rb") as file:
        check(
            "one deck was given once", file.read().count(b"DECK BOB 2\nFIRST CARD\nSECOND\n") == 1
        )
    return shown


def try_report(check: Callable, repository: str, site: object, looks: object) -> None:
    """A page of a recording, without outside parts."""
    out = f"{site.folder}/page.html"
    words = [f"{repository}/bin/report", "--looks", str(looks), site.record, out]
    done = subprocess.run(words, capture_output=True, text=True)
    page = read(out).decode() if os.path.exists(out) else ""
    wanted = [">LOGON</span>", ">LOGON OK</span>", "HELLO", 'class="card"', 'class="paper"', "units</title>", '<a href="#ALICE">',
              '<h2 id="ALICE">', "1 connections", " UTC<td>", '<time class="when">']  # fmt: skip
    absent = [item for item in wanted if item not in page]
    check("a page of a recording", done.returncode == 0 and not absent, done.stderr, *absent)
    outside = re.findall(r"src=|href=(?!\"#)|url\(|https?:|<script|<link|@import", page)
    check("has no outside parts", not outside, *outside)
    os.rename(site.paths[0], f"{site.folder}/moved")
    done = subprocess.run(words, capture_output=True, text=True)
    check(
        "a directory that is gone",
        done.returncode == 1 and "the directory is not there as it was" in done.stderr,
        done.stderr,
    )
    done = subprocess.run(
        [*words, "--directory", f"{site.folder}/moved"], capture_output=True, text=True
    )
    check("or was moved", done.returncode == 0, done.stderr)


def try_ending(check: Callable, site: object) -> None:
    """What becomes of volumes: a suspension saves none, an end saves all, and so does a start after a crash in an end's midst."""
    old = [blank_image(name, 1) for name in ("V1", "V2")]
    volumes = [f"{site.folder}/{name}" for name in ("one", "two")]
    site.paths += volumes

    def has(images: object) -> bool:
        return [read(volume) for volume in volumes] == images

    def is_kept(folder: str) -> bool:
        return [read(f"{site.folder}/{folder}/volume-{item}") for item in (1, 2)] == old

    for path, data in zip(volumes, old):
        write(path, data)
    os.chmod(volumes[0], 0o640)
    site.online()
    run(logged_on(site, "ALICE", "WONDER"))
    check("a suspension saves nothing", site.stop() == 0 and has(old), *site.findings)
    site.online()
    site.kill()
    check("and neither does a kill", has(old))
    site.online()
    site.operate("end logoff now")
    status = site.ended()
    new = [read(volume) for volume in volumes]
    first = kept_of(site)
    holds = (
        status == 0 and new != old and old[0] not in new and old[1] not in new and is_kept(first)
    )
    check("an end saves all, and keeps what was there", holds, f"status {status}", *site.findings)
    check("for the same people", os.stat(volumes[0]).st_mode & 0o777 == 0o640)
    check(
        "and the recording goes with it",
        "directory" in names_in(f"{site.folder}/{first}") and not os.path.exists(site.record),
    )
    # a crash between the two volumes, and one before any was saved
    os.replace(f"{site.folder}/{first}/recording", site.record)
    folder = re.search(r"^\* SAVED (\S+)", read(site.record).decode(), re.M)[1]
    os.makedirs(f"{site.folder}/{folder}")
    for place, data in enumerate(new, 1):
        write(f"{site.folder}/{folder}/volume-{place}", data)
    write(f"{site.folder}/{folder}/directory", read(f"{site.folder}/{first}/directory"))
    write(volumes[1], old[1])
    site.online()
    check(
        "a start finishes saving",
        has(new) and is_kept(first) and "the session has ended" in site.since_start(),
        *site.findings,
    )
    run(logged_on(site, "ALICE", "WONDER"))
    site.kill()
    for path, data in zip(volumes, old):
        write(path, data)
    with open(site.record, "rb") as file:
        whole = file.read()
    base = read(f"{site.folder}/{first}/recording").split(b"* BEGUN")[0]
    write(site.record, without_sums(base + b"* BEGUN" + whole.split(b"* BEGUN")[1]) + b"* END\n")
    site.online()
    done = [item for item in names_in(site.folder) if item.startswith("recording.2")]
    check(
        "and an end that was begun",
        has(new) and len(done) == 2 and is_kept(done[1]),
        *site.findings,
        *done,
    )
    site.operate("end logoff now")
    check("then it is online again, and takes commands", site.ended() == 0, *site.findings)


def without_sums(recording: object) -> object:
    """A recording as it was made before stamps had sums."""
    return re.sub(rb"(?m)^(\* [0-9: -]{19} UTC) [0-9a-f]{8}$", rb"\1", recording)


def try_all(check: Callable, repository: str, folder: str, is_stand_in: object) -> None:
    """All that is tried in seconds."""
    command = f"{repository}/bin/installation"
    program = f"{repository}/crates/gathjumli_cli/out/gathjumli_cli"
    prints = (["PRINT HELLO"], "") if is_stand_in else (PRINTS, "CLOSE 00E")
    try_logging_on(check, make_site(command, f"{folder}/logging on"))
    try_passwords_file(check, repository, make_site(command, f"{folder}/passwords"))
    try_recovery(check, make_site(command, f"{folder}/recovery"), program)
    try_silence(check, make_site(command, f"{folder}/silence"))
    try_computing(check, make_site(command, f"{folder}/computing"))
    site = make_site(command, f"{folder}/files")
    shown = try_files(check, site, prints)
    try_report(check, repository, site, 0)
    if not is_stand_in:
        wanted = ["FROM OPER CARDS 2", "FROM OPER CARDS 100", "FROM SYSTEM CARDS 2"]
        check(
            "decks come to the reader",
            [item[10:] for item in shown if item.startswith("FILE ")] == wanted,
            *shown,
        )
    try_ending(check, make_site(command, f"{folder}/ending"))
