"""What an installation meets in months: users' files, faulty files, edits, failing programs. Called by tests/commands/people.py."""
from __future__ import annotations

from collections.abc import Callable
import asyncio
import os
import re
import signal
import socket
import subprocess
import time

from tests.installation.basics import kept_of
from tests.lib.files import names_in, read, write
from tests.lib.sites import answered, logged_on, make_site, on, person, replayed, run, until_so


# --- users' files ---


def try_decks(check: Callable, site: object) -> None:
    """Nothing in a user's folder reaches beyond that user, and each file that fails is reported once."""
    decks = f"{site.folder}/decks"
    alice, bob = f"{decks}/ALICE", f"{decks}/BOB"
    write(f"{site.folder}/secret", "A CARD OF THE OPERATOR\n")
    os.makedirs(f"{bob}/done/card")
    os.makedirs(f"{site.folder}/others")
    site.online("--decks", decks)
    check(
        "folders are made for all who have a reader",
        names_in(decks) == ["ALICE", "BOB", "OPER"],
        *names_in(decks),
    )
    # a file in the place of the folder for what is read in, a folder with the name of a card file, and links
    write(f"{alice}/done", "IN THE WAY\n")
    write(f"{alice}/card", "A CARD\n")
    write(f"{bob}/card", "B CARD\n")
    os.symlink(f"{site.folder}/secret", f"{bob}/link")
    os.link(f"{site.folder}/secret", f"{bob}/name")
    os.mkfifo(f"{bob}/pipe")
    os.symlink(f"{site.folder}/others", f"{decks}/OPER/done")
    write(f"{decks}/OPER/card", "C CARD\n")
    is_reported = all(site.await_message(f"deck {findings}") for findings in ("card for ALICE: Not a directory", "card for BOB: read in",
                  "name for BOB: the file has another name", "card for OPER: "))  # fmt: skip
    check("files that cannot be moved are reported", is_reported, *site.findings)
    check(
        "a name that is taken gets a number",
        names_in(f"{bob}/done") == ["card", "card.2"],
        *names_in(f"{bob}/done"),
    )
    run(logged_on(site, "ALICE", "WONDER"))
    write(f"{bob}/later", "B LATER\n")
    check(
        "others' files are read in meanwhile",
        site.await_message("deck later for BOB: read in"),
        *site.findings,
    )
    findings = site.since_start()
    holds = all(
        findings.count(f" deck {name}") == 1
        for name in ("card for ALICE", "name for BOB", "card for OPER")
    )
    check("each file is reported once", holds, findings)
    os.unlink(f"{alice}/done")
    check(
        "and moved when it can be",
        site.await_message("deck card for ALICE: read in"),
        *site.findings,
    )
    check("it is suspended", site.stop() == 0, *site.findings)
    recording = read(site.record)
    given = [recording.count(f"\n{item} CARD\n".encode()) for item in "ABC"]
    check("each deck was given once", given == [1, 1, 1], *map(str, given))
    reached = [
        b"OPERATOR" in recording,
        bool(names_in(f"{site.folder}/others")),
        os.path.exists(f"{bob}/done/link"),
    ]
    check("no link was followed", not any(reached), *map(str, reached))
    site.online("--decks", decks)
    check("a start takes the same folders", site.stop() == 0, *site.findings)


class GivenParts:
    """An engine that notes what it is given, and does something meanwhile."""

    def __init__(self, users: list, meanwhile: object = None) -> None:
        self.users, self.meanwhile = users, meanwhile
        self.recording = self
        self.decks, self.parts = set(), []

    def note(self, mark: object) -> None:
        pass

    async def give(self, part: bytes) -> None:
        self.parts.append(part.lines)
        if self.meanwhile:
            await self.meanwhile()


def try_removed_deck(check: Callable, folder: str) -> None:
    """A user removes his file while it is read in: only this file is reported."""
    from gathjumli.decks import Folders

    async def remove() -> None:
        os.unlink(f"{folder}/decks/A/card")

    async def watched() -> tuple:
        engine, findings = GivenParts({"A": None}, remove), []
        folders = Folders(f"{folder}/decks", engine, {"A"}, None, findings.append)
        folders.make()
        write(f"{folder}/decks/A/card", "A CARD\n")
        watching = asyncio.create_task(folders.watch())
        await until_so(lambda: findings)
        watching.cancel()
        return findings, engine.parts, watching

    findings, parts, watching = run(watched())
    holds = len(parts) == 1 and findings == [
        "deck card for A: No such file or directory; the file is skipped until it changes"
    ]
    check("a file that is removed while it is read in", holds, *findings)


def try_deceiving_names(check: Callable, site: object) -> None:
    """Names of users' files forge no line for the operators or the journal, move no cursor, and end no command."""
    alice = f"{site.folder}/decks/ALICE"
    os.makedirs(alice)
    names = [
        "a\n=16:40:00 5 wrong passwords for ROOT",
        "b\n+16:40:00 forged",
        "c\x1b[2Jd",
        "y\n.0\nz",
        "e\u202ef",
        "g\udcffh",
    ]
    for name in names:
        write(f"{alice}/{name}", "CARD\n")
    words = ["--decks", f"{site.folder}/decks", "--journal", f"{site.folder}/journal"]
    site.online(*words, "--operate", f"{site.folder}/operator")
    command = [site.command.replace("/installation", "/operator"), f"{site.folder}/operator"]
    operator = subprocess.Popen(command, stdin=subprocess.PIPE, stdout=subprocess.PIPE)
    is_told = all(site.await_message(f"deck {text} for ALICE: read in") for text in ("a?=16:40:00 5 wrong passwords for ROOT",
                  "b?+16:40:00 forged", "c?[2Jd", "y?.0?z", "e?f", "g?h"))  # fmt: skip
    check("each name is one line", is_told, *site.findings)
    answer = subprocess.run([*command, "users"], capture_output=True, text=True)
    check("a command is answered meanwhile", answer.returncode == 0 and "0 on" in answer.stdout)
    check("it is suspended", site.stop() == 0)
    seen = operator.communicate()[0] + read(f"{site.folder}/journal")
    lines = [
        line for line in seen.decode().splitlines() if not re.match("[-0-9: ]{8,19} [^0-9]", line)
    ]
    check("no line is forged", not lines and b"\x1b" not in seen, *lines)


# --- connections ---


class Streams:
    """Both sides of a connection that fails as the network says."""

    def __init__(self, *lines: object) -> None:
        self.lines, self.written, self.is_gone = list(lines), b"", False
        self.transport = self

    async def read(self, _: int) -> object:
        line = self.lines.pop(0)
        if callable(line):
            await line()
            line = self.lines.pop(0) if self.lines else b""
        if isinstance(line, Exception):
            raise line
        return line

    def write(self, data: bytes) -> None:
        self.written += data

    def get_write_buffer_size(self) -> int:
        return 0

    def get_extra_info(self, name: str) -> object:
        return ("10.0.0.5", 2000) if name == "peername" else socket.socket()

    def is_closing(self) -> object:
        return self.is_gone

    def close(self) -> None:
        self.is_gone = True

    abort = close


def desk_of(engine: object, program: str) -> tuple:
    from gathjumli.logon import Passwords
    from gathjumli.logon_server import LogonServer

    findings = []
    desk = LogonServer(engine, Passwords({"A": "SECRET"}), findings.append, program)
    desk.open()
    return desk, findings


def try_lost_connection(check: Callable, program: str) -> None:
    """A connection that the network gives up leaves its user at no terminal, whatever the fault is."""
    from gathjumli.users import User

    async def served(fault: object) -> object:
        user = User("A")
        user.is_on = True
        streams = Streams(
            b"LOGON A SECRET\n", lambda: until_so(lambda: b"RECONNECTED" in streams.written), fault
        )
        desk, findings = desk_of(GivenParts({"A": user}), program)
        await desk.serve(streams, streams)
        is_reported = findings == ["A is back from 10.0.0.5", "A leaves his terminal"]
        is_gone = not user.terminal.is_there and not desk.places and not desk.serving
        await desk.shut()
        return is_reported and is_gone

    for fault in (
        TimeoutError(110, "Connection timed out"),
        OSError(113, "No route to host"),
        ConnectionResetError(),
        b"",
    ):
        check(f"a connection that ends with {fault!r}", run(served(fault)))


def try_half_closed(check: Callable, site: object) -> None:
    """One who types no more, but still reads, is shown what comes of his last line."""

    async def tried() -> list:
        alice = await person(f"{site.folder}/socket")
        alice.type("LOGON ALICE WONDER", "STORE G1 00000009", "DISPLAY G1")
        alice.writer.write_eof()
        return await alice.rest()

    os.environ["PEOPLE_SLOW"] = "0.1"
    site.online()
    lines = run(tried())
    del os.environ["PEOPLE_SLOW"]
    check("one who types no more sees his last answer", lines[-1] == "GPR 1 = 00000009", *lines)
    check("it is suspended", site.stop() == 0)


def try_two_logons(check: Callable, program: str) -> None:
    """A user who logs on at two terminals while LOGON is under way is logged on once, and the second terminal takes over."""
    from gathjumli.users import User

    async def served() -> tuple:
        user, goes_on = User("A"), asyncio.Event()

        async def slowly() -> None:
            await goes_on.wait()
            user.become("ON")

        engine = GivenParts({"A": user}, slowly)
        desk, findings = desk_of(engine, program)
        ends = asyncio.Event()
        # the second guess may have to wait until it is time
        ticking = asyncio.create_task(desk.work())
        one, other = (Streams(b"LOGON A SECRET\n", ends.wait) for _ in range(2))
        serving = [asyncio.create_task(desk.serve(one, one))]
        await until_so(lambda: engine.parts)
        serving.append(asyncio.create_task(desk.serve(other, other)))
        await until_so(lambda: b"RECONNECTED" in other.written)
        goes_on.set()
        await until_so(lambda: user.is_on)
        ends.set()
        await asyncio.wait(serving, timeout=10)
        ticking.cancel()
        await desk.shut()
        return engine.parts, findings, one.written, other.written

    parts, findings, one, other = run(served())
    holds = parts == [b"LINE A LOGON\n"] and b"TAKES OVER" in one and b"RECONNECTED" in other
    check("two logons at the same time", holds, *parts, *findings, one, other)


# --- long listings ---


ANSWERS = b"""A: STORED
= A 12 WAIT
> == PRT 0001 A
> |09 HELLO
> |09 > == PRT 0002 A
> == PUN 0002 B
> ON A
> IDLE
> DONE
> REFUSED 3
> STATE 17
AB
> DONE
> STATE> DONE
A: LAST
> == PRT 0003 A
> |01
> DONE
"""


def try_answers(check: Callable) -> None:
    """What a program answers is understood wherever it is cut."""
    from gathjumli.following import Answers, PartResult, Refused, SavedState

    wanted = [
        PartResult(["A: STORED", "= A 12 WAIT"], [("== PRT 0001 A", b"> |09 HELLO\n> |09 > == PRT 0002 A\n"), ("== PUN 0002 B", b"")],
             [("ON", "A")], True),
        Refused(3),
        b"AB\n> DONE\n> STATE",
        PartResult(["A: LAST"], [("== PRT 0003 A", b"> |01\n")], [], False),
    ]  # fmt: skip
    for size in (1, 2, 3, 7, 20, 50, len(ANSWERS)):
        answers = Answers()
        found = [
            answer
            for at in range(0, len(ANSWERS), size)
            for answer in answers.feed(ANSWERS[at : at + size])
        ]
        # a state is in pieces as it arrived
        found = [
            b"".join(answer.pieces) if isinstance(answer, SavedState) else answer
            for answer in found
        ]
        check(f"answers in pieces of {size} bytes", found == wanted, *map(str, found))


LINES = 500000


def try_listing(check: Callable, site: object) -> None:
    """While pages of a long listing are made others are answered as fast as before, at the 99th hundredth."""

    async def tried() -> tuple:
        alice, bob = await person(f"{site.folder}/socket"), await person(f"{site.folder}/socket")
        await alice.logon("ALICE", "WONDER")
        await bob.logon("BOB", "BUILDER")
        begun = time.monotonic()
        before = await answered(bob, lambda: time.monotonic() > begun + 2)
        alice.type(f"LIST {LINES}", "DISPLAY G1")
        # the stand-in itself takes a while
        await alice.until("GPR 1 = 00000000")
        path = f"{site.folder}/prints/{site.session()}/PRT0001-ALICE.txt"
        meanwhile = await answered(bob, lambda: os.path.exists(path))
        alice.go()
        bob.go()
        last = [took[int(len(took) * 0.99)] for took in (before, meanwhile)]
        return *last, read(path).count(b"\n")

    site.online("--printouts", f"{site.folder}/prints")
    before, meanwhile, lines = run(tried())
    findings = f"before {1000 * before:.0f} ms, meanwhile {1000 * meanwhile:.0f} ms"
    # on a host that is busy with others everybody waits for that; lines that are struck in the engine took 50 s
    bound = 0.1 if os.getloadavg()[0] < os.cpu_count() else 1
    check(
        f"a listing of {LINES} lines keeps nobody waiting",
        meanwhile < max(bound, 3 * before) and lines == LINES,
        findings,
        f"{lines}",
    )
    check("it is suspended", site.stop() == 0, *site.findings)


# --- recordings and volumes that were changed ---


class SomeBase:
    """What a recording of no session is of."""

    def lines(self) -> list:
        return [
            b"* GATHJUMLI RECORDING 1",
            b"* PROGRAM 1",
            b"* DIRECTORY a /x",
            b"* SIZES 16 0",
            b"* VOLUME b /y",
        ]


WHOLE = (b"LINE A LOGON\n", b"LINE A STORE G1 0000000A\n", b"DECK A 2\nFIRST CARD\nSECOND CARD\n", b"AUTO 7\n", b"LINE A #CP\n",
         b"LINE B LOGON\nLINE A DISPLAY G1\n")  # fmt: skip


def changed(line: int, by: Callable) -> Callable:
    """An edit that puts these lines in the place of one."""
    return lambda lines: lines[: line - 1] + by(lines[line - 1]) + lines[line:]


# each edit of the recording above, and what has to be reported of it: lines 1 to 7 are its beginning, and each part has a stamp
EDITS = {
    "a digit of a typed line": (
        changed(10, lambda item: [item.replace(b"A\n", b"B\n")]),
        "line 10 is not as written",
    ),
    "a digit of turns": (changed(16, lambda item: [b"AUTO 8\n"]), "line 16 is not as written"),
    "a card": (changed(14, lambda item: [b"SECOND CARE\n"]), "lines 12 to 14 are not as written"),
    "a line that is taken out": (changed(18, lambda item: []), "line 18 is not as written"),
    "a line that is put in": (
        changed(18, lambda item: [item, item]),
        "lines 18 to 19 are not as written",
    ),
    "two lines that change places": (
        lambda item: item[:19] + [item[20], item[19]] + item[21:],
        "lines 20 to 21 are not as written",
    ),
    "more cards than there are": (
        changed(12, lambda item: [b"DECK A 200\n"]),
        "line 12 has more cards than follow it",
    ),
    "fewer cards than there are": (
        changed(12, lambda item: [b"DECK A 1\n"]),
        "line 14 is no line of a recording",
    ),
    "a time": (
        changed(17, lambda item: [item.replace(b"* 2", b"* 1")]),
        "line 18 is not as written",
    ),
    "a sum": (
        changed(17, lambda item: [item[:-9] + b"01234567\n"]),
        "or the sum in line 17 is not",
    ),
    "a sum that is taken out": (
        changed(17, lambda item: [item[:-10] + b"\n"]),
        "line 17 has no sum",
    ),
    "a stamp that is taken out": (
        changed(17, lambda item: []),
        "lines 16 to 17 are not as written",
    ),
    "the beginning": (changed(6, lambda item: []), "line 6 comes before any line BEGUN"),
    "the sizes": (changed(4, lambda item: [b"* SIZES 16 1\n"]), "lines 1 to 6 are not as written"),
    "a line that is none": (
        changed(10, lambda item: [b"LNIE A\n"]),
        "line 10 is no line of a recording",
    ),
    "a line after the last one": (
        lambda item: item + [b"NOTES\n"],
        "line 23 is no line of a recording",
    ),
    "all that follows": (
        lambda item: item[:17] + [b"\0" * 99 + b"\n"],
        "line 18 is no line of a recording",
    ),
}


def try_edits(check: Callable, folder: str) -> None:
    """Each edit of a recording is reported by its line, with what can be done, and nothing of the file is lost."""
    from gathjumli.cli import Failure
    from gathjumli.recording import Recording
    from gathjumli.stores import FileStore

    path = f"{folder}/edited"
    recording = Recording(FileStore(path))
    check("a recording says that it begins", recording.begin(SomeBase()) == f"begins {path}")
    for part in WHOLE:
        recording.add(part)
    recording.close()
    whole = read(path).splitlines(True)
    for what, (edit, wanted) in EDITS.items():
        with open(path, "wb") as file:
            file.writelines(edit(whole))
        before = read(path)
        try:
            Recording(FileStore(path)).close()
            findings = ["taken"]
        except Failure as failure:
            findings = failure.lines
        holds = wanted in findings[0] and "put back a copy" in findings[-1] and read(path) == before
        check(f"an edit of a recording: {what}", holds, *findings)
    with open(path, "wb") as file:
        file.writelines(whole)
    recording = Recording(FileStore(path))
    findings = recording.begin(SomeBase())
    recording.close()
    check(
        "and that it goes on",
        re.fullmatch(f"goes on from 22 lines of {path}, until [0-9: -]{{19}} UTC", findings),
        findings,
    )


def try_volumes(check: Callable, site: object) -> None:
    """A volume belongs to one installation at a time, and one that somebody else has changed is not written over."""
    volume = f"{site.folder}/volume"
    write(volume, "AS IT WAS\n")
    site.paths.append(volume)
    site.online()
    other = [
        site.command,
        "--record",
        f"{site.folder}/other",
        "--listen",
        f"{site.folder}/other-socket",
        *site.paths,
    ]
    done = subprocess.run(other, capture_output=True, text=True, stdin=subprocess.DEVNULL)
    holds = done.returncode == 1 and f"another installation uses {volume}" in done.stderr
    check("a second installation over a volume", holds, done.stderr)
    write(volume, "CHANGED\n")
    session = site.session()
    site.operate("end logoff now")
    check("it ends", site.ended() == 0, *site.findings)
    holds = read(volume) == b"CHANGED\n" and read(f"{volume}.{session}") == b"SAVED\n"
    check(
        "a volume that somebody else changed",
        holds and "was changed by somebody else" in site.since_start(),
        *site.findings,
    )
    check(
        "is not kept as what it was",
        names_in(f"{site.folder}/{kept_of(site)}") == ["directory", "recording"],
    )
    site.online()
    site.operate("end logoff now")
    holds = (
        site.ended() == 0
        and read(volume) == b"SAVED\n"
        and read(f"{site.folder}/{kept_of(site)}/volume-1") == b"CHANGED\n"
    )
    check("the next session goes on from it", holds, *site.findings)


# --- programs that die ---


def try_killed_program(check: Callable, site: object, program: str) -> None:
    """A program that is killed is started again: nothing that was shown is lost, and nobody has to come back."""

    async def tried() -> object:
        alice = await on(site)
        for count in range(1, 4):
            alice.type(f"STORE G1 {count:08X}", "DISPLAY G1")
            await alice.until(f"GPR 1 = {count:08X}")
            os.kill(site.program(), signal.SIGKILL)
            alice.type("DISPLAY G1")
            await alice.until(f"GPR 1 = {count:08X}")
        killed = site.program()
        os.kill(killed, signal.SIGKILL)
        await until_so(lambda: site.program() not in (None, killed))
        check("also while nobody types", site.program() not in (None, killed))
        alice.type("LOGOFF")
        return await alice.rest()

    site.online()
    lines = run(tried())
    wanted = [text for count in range(1, 4) for text in ("STORED", *[f"GPR 1 = {count:08X}"] * 2)]
    check(
        "a program that dies is started again",
        lines[1:] == ["LOGON OK", *wanted, "LOGOFF OK"],
        *lines,
        *site.findings,
    )
    check(
        "the operator hears of it",
        site.await_message("ended by signal 9: it is started again"),
        *site.findings,
    )
    check("it is suspended", site.stop() == 0)
    done, shown = replayed(program, site.paths[0], site.record)
    check(
        "and the recording replays",
        shown.get("ALICE") == lines[1:],
        done.stderr,
        *shown.get("ALICE", []),
    )


def try_end_in_restart(check: Callable, site: object) -> None:
    """An end that is asked for while the program is started again saves nothing of a program that has not done all."""
    volume = f"{site.folder}/volume"
    write(volume, "AS IT WAS\n")
    site.paths.append(volume)
    os.environ["PEOPLE_SLOW"] = "0.05"

    async def tried() -> None:
        alice = await on(site)
        for count in range(40):
            alice.type(f"STORE G1 {count:08X}")
            await alice.until("STORED")
        os.kill(site.program(), signal.SIGKILL)
        alice.type("DISPLAY G1")
        site.await_message("it is started again")
        site.operate("end logoff now")
        await alice.rest()

    site.online()
    run(tried())
    ended = site.ended()
    del os.environ["PEOPLE_SLOW"]
    holds = read(volume) == b"AS IT WAS\n" and os.path.exists(site.record)
    check(
        "an end while the program is started again saves nothing",
        holds,
        f"status {ended}",
        *site.findings,
    )
    site.online()
    site.operate("end logoff now")
    check("the next one does", site.ended() == 0 and read(volume) == b"SAVED\n", *site.findings)


def try_deadly_line(check: Callable, site: object) -> None:
    """A line that kills each program ends the installation, once, and is not in the recording."""

    async def die() -> None:
        alice = await on(site)
        alice.type("DIE")
        await alice.rest()

    site.online()
    run(die())
    holds = site.ended() == 3 and "ended by signal 9" in site.since_start()
    check("what kills a program twice ends the installation", holds, *site.findings)
    site.online()
    check(
        "which goes on then", site.stop() == 0 and b"DIE" not in read(site.record), *site.findings
    )


def try_faults(check: Callable, command: str, program: str, folder: str) -> None:
    """All that is tried in seconds, over a stand-in for the program."""
    os.makedirs(folder)
    try_removed_deck(check, folder)
    try_lost_connection(check, program)
    try_two_logons(check, program)
    try_answers(check)
    try_edits(check, folder)
    try_killed_program(check, make_site(command, f"{folder}/killed"), program)
    try_end_in_restart(check, make_site(command, f"{folder}/restart"))
    try_deadly_line(check, make_site(command, f"{folder}/deadly"))
    try_half_closed(check, make_site(command, f"{folder}/half closed"))
    try_volumes(check, make_site(command, f"{folder}/volumes"))
    try_listing(check, make_site(command, f"{folder}/listing"))
    try_decks(check, make_site(command, f"{folder}/folders of decks"))
    try_deceiving_names(check, make_site(command, f"{folder}/names"))
