#!/usr/bin/env python3
"""Tests the commands in Python: tests/commands/people.py [--record | --built | NAME..]. Programs are played from a recording,
tests/commands/recorded/recording, and nothing is proved or built; with --record, over programs that are built, the recording and the
sessions are made anew; with --built the built vm370 is given the examples part by part. With names only those tests are made. The last
line is 'N passed, M failed'."""
from __future__ import annotations

from collections.abc import Callable, Iterator
from typing import TYPE_CHECKING
import base64
import hashlib
import itertools
import json
import os
import pty
import re
import select
import shutil
import subprocess
import sys
import tempfile
import threading
import xml.dom.minidom
import zlib

sys.dont_write_bytecode = True
TOP = os.path.dirname(os.path.dirname(os.path.dirname(os.path.realpath(__file__))))
os.environ.pop("GATHJUMLI_UNPROVED", None)
PEOPLE = f"{TOP}/tests/commands/recorded"
RECORDING = f"{PEOPLE}/recording"
sys.path[:0] = [TOP, f"{TOP}/bin/lib"]
from tests.commands import broken, growth, scripts_for_people, state_commands, watching
from tests.installation import (
    basics,
    faults,
    figures,
    further,
    keeping,
    maps,
    operators,
    page_tables,
    proxies,
    reload,
    replays,
    spool,
    states,
    strangers,
    strays,
    watchdog,
)
from tests.installation.town import Town
from tests.lib import desk
from tests.lib.counting import Counts
from tests.lib.files import read, write
from tests.lib.installed import copy_commands
from tests.lib.places import PROGRAM
from tests.lib.sites import DIRECTORY, make_site
from tests.lib.stand_in import stand_in
from tests.replay import any_moment

if TYPE_CHECKING:
    from tests.lib.desk import Account

COMMANDS = (
    "terminal trace370 replay turns deck2script printouts img2vol vol2img vol2text framepicture trackpicture installation operator "
    "report store"
).split()
BUILDING = ["terminal", "trace370", "turns"]
# words before a file that is not there
WORDS = {
    "installation": ["--record", "r"],
    "report": ["none"],
    "store": ["postgresql://x/y", "create", "plant"],
} | {item: ["--bare", "8K"] for item in BUILDING}
WORDS |= {name: ["o"] for name in ("img2vol", "vol2img", "printouts")}
# of a file for the operator; a card that looks like one has blanks after it
HEADING = re.compile(b"^== P(?:RT|UN) [0-9]{4} [A-Z0-9]+\n", re.M)

totals = Counts()
check = totals.check


# --- programs that are played ---


def key_of(part: str, words: list[str]) -> str:
    """What a run is known by: the part of the program, its words, and what the files among them have."""
    findings = [read(word) if os.path.isfile(word) else word.encode() for word in words]
    return part + " " + hashlib.sha256(b"\0".join(findings)).hexdigest()[:16]


def recorded() -> dict[str, str]:
    """The transcripts of the recording by their keys."""
    return json.loads(zlib.decompress(base64.b64decode(read(RECORDING))))


def record(folder: str) -> None:
    """Makes the recording of the runs that were kept in a folder, each in a file with its key as a name."""
    runs = {key: read(f"{folder}/{key}").decode("latin-1") for key in os.listdir(folder)}
    write(
        RECORDING, base64.encodebytes(zlib.compress(json.dumps(runs, sort_keys=True).encode(), 9))
    )


def played(part: str, words: list[str]) -> tuple[int, bytes, bytes]:
    """Status, output and errors of a part: what the recording has, or the program itself where the recording is made."""
    key = key_of(part, words)
    if os.environ.get("PEOPLE_RECORD"):
        done = subprocess.run([PROGRAM, part, *words], capture_output=True)
        if done.returncode == 0:
            write(f"{os.environ['PEOPLE_RECORD']}/{key}", done.stdout)
        return done.returncode, done.stdout, done.stderr
    text = recorded().get(key)
    if text is not None:
        return 0, text.encode("latin-1"), b""
    wrong = [
        place
        for place, line in enumerate(read(words[words.index("--") + 2]).split(b"\n"), 1)
        if line.startswith(b"BAD")
    ]
    findings = f"fault: script Line {wrong[0]}\n" if wrong else f"the run {key} is not recorded\n"
    return 1 if wrong else 5, b"", findings.encode()


def play(part: str, words: list[str]) -> None:
    """Plays a part of the program, also one that is given its script part by part."""
    if part == "logondesk":
        desk.stand_in(words)
        sys.exit(0)
    if "PEOPLE_STAND_IN" in os.environ:
        stand_in(words)
        sys.exit(0)
    if "--follow" in words:
        status, errors = follow(part, words)
    else:
        status, out, errors = played(part, words)
        sys.stdout.buffer.write(out)
    sys.stderr.buffer.write(errors)
    sys.exit(status)


def follow(name: str, words: list[str]) -> tuple[int, bytes]:
    """Does part after part, each by a run of the script until then, and notes each in a file; gives the status at the end, and what
    is reported then. By PEOPLE_FOLLOW a program refuses to, or fails at the line that it names."""
    how = os.environ.get("PEOPLE_FOLLOW", "")
    if how == "never":
        return 2, b"usage: no such option\n"
    notes = open(os.environ["PEOPLE_NOTES"], "ab", buffering=0)
    notes.write(b"begun\n")
    words = [word for word in words if word != "--follow"]
    text = tempfile.NamedTemporaryFile()
    words.insert(words.index("--") + 2, text.name)
    script, before, closed = b"", 0, 0
    while (size := sys.stdin.buffer.readline()) not in (b"", b"END\n"):
        part = sys.stdin.buffer.read(int(size))
        notes.write(part)
        if how and how.encode() in part:
            return 4, b"fault: memory Memory\n"
        write(text.name, script + part)
        status, out, errors = played(name, words)
        if status == 0:
            events = re.split(b"(?m)^== ", out)[0].splitlines(True)
            files = [b"> " + match for match in HEADING.findall(out)]
            sys.stdout.buffer.write(b"".join([*events[before:], *files[closed:], b"> DONE\n"]))
            script += without_idle_turns(part, events)
            before, closed = len(events), len(files)
        elif wrong := re.fullmatch(b"fault: script Line ([0-9]+)\n", errors):
            sys.stdout.buffer.write(b"> REFUSED %d\n" % (int(wrong[1]) - script.count(b"\n")))
        else:
            return status, errors
        sys.stdout.buffer.flush()
    return 0, b""


def without_idle_turns(part: bytes, events: list[bytes]) -> bytes:
    """A part without the turns at its end that did nothing, and these are taken from the transcript."""
    found = re.search(b"AUTO ([0-9]+)\n$", part)
    turns = left = int(found[1]) if found else 0
    while left and events[-1] == b"= IDLE\n":
        events.pop()
        left -= 1
    return part[: found.start()] + (b"AUTO %d\n" % left if left else b"") if turns else part


PLAYED = f'exec "{sys.executable}" "{os.path.realpath(__file__)}" --play "$@"'
BUILT = f'exec "{PROGRAM}" "$@"'


def make_repository(work: str, program: str = PLAYED) -> object:
    """A repository of the commands and of a program that is played, or is the one that was built, and a kit that builds it."""
    repository = f"{work}/a place with blanks/repository"
    copy_commands(repository)
    write(f"{repository}/crates.txt", "low:\ngathjumli_cli: low\n")
    for crate in ("low", "gathjumli_cli"):
        os.makedirs(f"{repository}/crates/{crate}/src")
        write(f"{repository}/crates/{crate}/src/main.rt", f"// {crate}\n")
    os.makedirs(f"{work}/kit/bin")
    write(f"{work}/kit/KIT-ID", "kit\n")
    write(f"{work}/program", f"#!/bin/sh\n{program}\n")
    rt = f'#!/bin/sh\necho "$1 ${{PWD##*/}}" >> "{work}/calls"\n[ "$1" != run ] || cp "{work}/program" "out/${{PWD##*/}}"\n'
    write(f"{work}/kit/bin/rt", rt)
    os.chmod(f"{work}/program", 0o755)
    os.chmod(f"{work}/kit/bin/rt", 0o755)
    os.environ["PATH"] = f"{work}/kit/bin:{os.environ['PATH']}"
    os.environ["PEOPLE_NOTES"] = f"{work}/notes"
    return repository


class Done:
    """A command that has run: its status and what it printed."""

    def __init__(self, repository: str, command: str, *words: object, given: bytes = b"") -> None:
        words = [f"{repository}/bin/{command}", *words]
        done = subprocess.run(words, input=given, capture_output=True)
        self.status, self.raw = done.returncode, done.stdout
        self.out, self.err = done.stdout.decode("latin-1"), done.stderr.decode("latin-1")

    def findings(self) -> tuple:
        return f"status {self.status}", *self.out.splitlines()[:40], *self.err.splitlines()[:10]


# --- the tests; each is given the repository and a folder ---


def test_words(repository: str, work: str) -> None:
    wrong = {command: [["--no-such-option"]] for command in COMMANDS}
    for command in COMMANDS:
        wrong[command].append(["x"] * 1002)
    for command in set(COMMANDS) - {"framepicture", "trackpicture"}:
        wrong[command].append([])
    wrong["terminal"] += [
        ["--frames", "15", "d"],
        ["--times=yes", "d"],
        ["--bare", "9K"],
        ["--bare", "--frames", "16", "8K"],
        ["--turns", "x", "d"],
        ["--user", "a", "d"],
    ]
    wrong["trace370"] += [
        ["d"],
        ["--range", "9-8", "d", "s"],
        ["--stop-on", "G16", "d", "s"],
        ["--units", "0", "d", "s"],
    ]
    wrong["deck2script"] += [
        ["--reader", "600", "d"],
        ["--user", "a", "d"],
        ["--punch", "00C", "d"],
    ]
    wrong["vol2text"] += [["--data", "0,0", "i"], ["--data", "0,0,1", "--data", "0,0,1", "i"]]
    wrong["operator"] = wrong["operator"][:3] + [[]]
    recorded = ["--record", "r"]
    wrong["installation"] += [
        [*recorded, "--listen", "here", "d"],
        [*recorded, "--ticks", "0", "d"],
        [*recorded, "--bare", "8K"],
    ]
    wrong["report"] += [["r"], ["--looks", "x", "r", "o"]]
    wrong["img2vol"] += [["--serial", "TOOLONG", "o", "i"]]
    for command, cases in wrong.items():
        for words in cases:
            done = Done(repository, command, *words)
            findings = ["usage: ", "--help says more", *([] if words else [" is missing\n"])]
            is_reported = all(item in done.err for item in findings) and "statuses" not in done.err
            check(
                f"{command} {words[:4]} is answered at once",
                done.status == 2 and is_reported and not done.out,
                *done.findings(),
            )
    for command, word in itertools.product(COMMANDS, ("--help", "-h")):
        done = Done(repository, command, word)
        has_all = all(name in done.out for name in ("usage: ", "example: ", "statuses"))
        check(
            f"{command} {word} is answered at once",
            done.status == 0 and has_all and not done.err,
            *done.findings(),
        )
    for command in COMMANDS:
        done = Done(repository, command, "--version")
        first = f"{command} (Gathjumli) {read(f'{TOP}/VERSION').decode()}"
        check(
            f"{command} --version",
            done.status == 0 and done.out.startswith(first) and not done.err,
            *done.findings(),
        )
    for command in COMMANDS:
        done = Done(repository, command, *WORDS.get(command, []), f"{work}/none")
        check(
            f"{command} of a file that is not there",
            done.status == 3 and "none: No such file" in done.err,
            *done.findings(),
        )
    check("nothing of this builds", not os.path.exists(f"{work}/calls"))
    for command in COMMANDS:
        check(f"a page of {command}", os.path.exists(f"{TOP}/docs/man/{command}.1"))
        check(
            f"a line of {command}",
            f"`bin/{command} " in read(f"{TOP}/docs/COMMAND_LINE.md").decode(),
        )


SESSIONS = {"bare": ["--bare", "64K"], "users": ["directory"]}


def test_session(repository: str, work: str) -> None:
    """Each session is typed at a terminal, and shows what it showed when it was recorded, also where the program takes no script
    part by part."""
    write(f"{work}/directory", "USER A PW 16K\nCONSOLE 009 3215\nUSER B PW 16K\n")
    write(f"{work}/lines", "* lines of a script\nLINE BARE STORE 200 0A07\nLINE BARE DISPLAY 200")
    write(f"{work}/wrong", "LINE BARE DISPLAY PSW\nBAD\n")
    write(f"{work}/nothing", "")
    Done(repository, "bare370", "--", "8K", f"{work}/nothing")
    Done(repository, "vm370", "--", f"{work}/directory", f"{work}/nothing")
    for session, words in SESSIONS.items():
        kept = f"{PEOPLE}/{session}.session"
        wanted = read(kept).decode().splitlines()
        typed = [found[1] for item in wanted if (found := re.match("[A-Z]+> ?(.*)", item))]
        for how in ("", "never"):
            os.environ["PEOPLE_FOLLOW"] = how
            shown, status = converse([f"{repository}/bin/terminal", *words], typed, work)
            if os.environ.get("PEOPLE_RECORD") and status == 0 and not how:
                write(kept, "".join(f"{item}\n" for item in shown))
                wanted = shown
            check(
                f"the session {session} {how}",
                shown == wanted and status == 0,
                f"status {status}",
                *shown,
            )
    os.environ["PEOPLE_FOLLOW"] = ""
    first = Done(
        repository, "terminal", "--bare", "64K", given=b"LOGON\nDISPLAY PSW\n:save /dev/stdout\n"
    )
    holds = first.status == 0 and "LINE BARE DISPLAY PSW\n" in first.out and "> " not in first.out
    check("lines that nobody types", holds, *first.findings())
    saved = read(f"{work}/saved")
    done = Done(repository, "bare370", "--", "64K", f"{work}/saved")
    check(
        "a saved session is a script",
        done.status == 0 and saved.startswith(b"LINE BARE LOGON\n"),
        *done.findings(),
    )
    lines = [
        line
        for line in read(f"{PEOPLE}/bare.session").decode().splitlines()
        if not re.match("[A-Z]+> |[(?:]", line)
    ]
    replayed = [line.removeprefix("BARE: ") for line in done.out.splitlines()]
    missing = [item for item in replayed if item not in lines and not item.startswith("= ")]
    check("its transcript is what was shown", not missing, *missing)


def converse(words: list[str], typed: object, work: str) -> tuple:
    """Types lines at a command that sits at a terminal, each once it asks; what the terminal shows, and the status."""
    outer, inner = pty.openpty()
    given = {
        "stdin": inner,
        "stdout": inner,
        "stderr": inner,
        "cwd": work,
        "env": {**os.environ, "TERM": "dumb"},
    }
    process = subprocess.Popen(words, start_new_session=True, **given)
    os.close(inner)
    shown, typed = b"", list(typed)
    while select.select([outer], [], [], 60)[0]:
        try:
            more = os.read(outer, 65536)
        except OSError:
            break
        shown += more
        if re.search(rb"(^|\n)[A-Z]+> $", shown) and typed:
            os.write(outer, typed.pop(0).encode() + b"\n")
    os.close(outer)
    return shown.decode().replace("\r", "").splitlines(), process.wait(10)


def test_going_on(repository: str, work: str) -> None:
    """A program is begun once and does what is typed, and nothing of what was typed before; another is begun where it ends, or
    where something is taken back."""

    def typed(*lines: object) -> tuple:
        write(f"{work}/notes", "")
        given = "".join(f"{line}\n" for line in lines).encode()
        return (
            Done(repository, "terminal", "--bare", "64K", given=given),
            read(f"{work}/notes").decode(),
        )

    logon, display = (f"LINE BARE {name}\nAUTO 1000\n" for name in ("LOGON", "DISPLAY PSW"))
    done, notes = typed("LOGON", "DISPLAY PSW")
    check(
        "a line goes on",
        done.status == 0 and notes == "begun\n" + logon + display,
        *done.findings(),
        notes,
    )
    done, in_capitals = typed("logon", "Display psw")
    check("commands may be in lower case", notes == in_capitals, *done.findings(), in_capitals)
    done, notes = typed("logon", "display 3-12", "display 200-100", ":tick 5")
    rows = "".join(f"LINE BARE DISPLAY {row}\n" for row in ("0", "10"))
    complaints = [line for line in done.out.splitlines() if line.startswith("? ")]
    check(
        "a range is several commands",
        notes == f"begun\n{logon}{rows}{AUTO_ALL}" and done.out.count("00000000") == 8,
        *done.findings(),
        notes,
    )
    check("another range, and a word too many, are refused", len(complaints) == 2, *complaints)
    done, notes = typed("LOGON", "DISPLAY PSW", ":undo", "DISPLAY PSW")
    begun = f"begun\n{logon}{display}begun\n{logon.replace(AUTO_ALL, '')}{display}"
    check(
        "what is taken back begins anew",
        done.status == 0 and notes == begun,
        *done.findings(),
        notes,
    )
    os.environ["PEOPLE_FOLLOW"] = "FAIL"
    done, notes = typed("LOGON", "FAIL", "DISPLAY PSW")
    del os.environ["PEOPLE_FOLLOW"]
    findings = "LOGON OK\n? fault: memory Memory\nPSW 00000000 00000000\n"
    check(
        "a program that fails is begun anew",
        done.status == 0 and done.out == findings,
        *done.findings(),
        notes,
    )


AUTO_ALL = "AUTO 1000\n"


def test_watching(repository: str, work: str) -> None:
    watching.try_watching(check, work)


TRACED = """* a call, a branch and count, an instruction under EX, a start and a program interruption
LINE BARE LOGON
LINE BARE STORE 48 00000800
LINE BARE STORE 60 0000000000000180
LINE BARE STORE 68 0000000000000190
LINE BARE STORE 78 000200000000600D
LINE BARE STORE 100 4110000344200140461001080A07
LINE BARE STORE 10E 9C00000900000000
LINE BARE STORE 140 D20003000304
LINE BARE STORE 180 82000020
LINE BARE STORE 190 82000198
LINE BARE STORE 198 8002000000000000
LINE BARE STORE 304 C1C2C3C4C5C6C7C8
LINE BARE STORE 800 0300000060000001
LINE BARE STORE 808 0900084000000005
LINE BARE STORE 840 C8C5D3D3D6
LINE BARE BEGIN 100
AUTO 5
"""


def try_interruptions() -> None:
    """An interruption at a machine whose new PSWs are zero is one that its masks let in, whatever else was stored before."""
    from gathjumli.tracing import interruption

    # of a program (28): operation; and of the timer (18), which only bit 7 of the PSW lets in
    program = b"\0\0\0\x01\x40\0\0\x02"
    low = bytearray(0x80)
    low[0x28 - 0x10 : 0x28 - 8] = program
    found = interruption(bytes(8), bytes(8), bytes(low), bytes(low), False)
    check(
        "an interruption that repeats is of the program", found == ("program", program), f"{found}"
    )
    timer = b"\x01\0\0\x80\0\0\x02\0"
    before = b"\x01\0\0\0\0\0\x02\0"
    low[0x18 - 0x10 : 0x18 - 8] = timer
    found = interruption(before, bytes(8), bytes(0x80), bytes(low), False)
    check("one of the timer is external", found == ("external", timer), f"{found}")


def test_trace(repository: str, work: str) -> None:
    try_interruptions()
    write(f"{work}/script", TRACED)
    kept = f"{PEOPLE}/trace"
    done = Done(repository, "trace370", "--bare", "--range", "300-30F", "64K", f"{work}/script")
    if os.environ.get("PEOPLE_RECORD"):
        write(kept, done.out)
    check("a trace", done.status == 0 and done.out == read(kept).decode(), *done.findings())
    for words, end in {
        ("--stop-at", "10C"): "STOP at 00010C",
        ("--stop-on", "300-303"): "STOP on a change of 000300-000303",
        ("--stop-on", "G1"): "STOP on a change of G1",
        ("--units", "2"): "STOP after 2 units",
    }.items():
        done = Done(repository, "trace370", "--bare", *words, "64K", f"{work}/script")
        check(
            f"a trace {words} ends",
            done.status == 0 and done.out.splitlines()[-1] == end,
            *done.findings(),
        )
    later = Done(
        repository, "trace370", "--bare", "--first", "4", "--units", "1", "64K", f"{work}/script"
    )
    check(
        "a trace that begins later",
        "UNIT 4 " in later.out and "UNIT 3 " not in later.out,
        *later.findings(),
    )
    write(f"{work}/bad", "LINE BARE LOGON\nBAD\n")
    done = Done(repository, "trace370", "--bare", "64K", f"{work}/bad")
    findings = "fault: script Line 2\ntrace370: line 2 is: 'BAD'\ntrace370: a line begins with RUN, LINE, TICK, SERVE, AUTO, DECK, TRANSFER or LOAD, and not with BAD\n"
    check(
        "a refused script is reported", done.status == 1 and done.err == findings, *done.findings()
    )


def test_scripts(repository: str, work: str) -> None:
    # bare370 says which steps its first build takes
    Done(repository, "bare370", "8K", "-")
    scripts_for_people.try_scripts(
        check, work, lambda command, *words, **given: Done(repository, command, *words, **given)
    )


# a loop without an end, whose register 1 changes in unit 2, and a typed line in between
LOOPED = """LINE BARE LOGON
LINE BARE STORE 100 41200001411000074130300147F00108
LINE BARE BEGIN 100
RUN BARE 40
LINE BARE #CP DISPLAY PSW
LINE BARE BEGIN
RUN BARE 1000000
"""


def try_long_trace(repository: str, work: str) -> float:
    """A trace stops where it is to, however many units it might show; how much processor time it took, in seconds."""
    write(f"{work}/script", LOOPED)
    before = os.times()
    words = ["--stop-on", "G1", "--units", "100000", "--bare", "64K", f"{work}/script"]
    done = Done(repository, "trace370", *words)
    after = os.times()
    lines = done.out.splitlines()
    check(
        "a long trace stops soon",
        done.status == 0 and lines[-1] == "STOP on a change of G1" and "UNIT 2 " in lines[-2],
        *done.findings(),
    )
    return sum(after[2:4]) - sum(before[2:4])


def test_long_trace(repository: str, work: str) -> None:
    """A trace is made in pieces: it stops soon, and no unit is lost or shown twice where a piece ends."""
    try_long_trace(repository, work)
    words = ["--bare", "64K", f"{work}/script"]
    done = Done(repository, "trace370", "--units", "90", *words)
    units = [int(number) for number in re.findall("^UNIT ([0-9]+) ", done.out, re.M)]
    check("each unit is shown once", units == list(range(1, 91)), *done.findings())
    lines = done.out.splitlines()
    place = lines.index("DO LINE BARE #CP DISPLAY PSW")
    is_once = sum("PSW" in line for line in lines) == 2
    is_there = lines[place - 1].startswith("UNIT 40 ") and lines[place + 3].startswith("UNIT 41 ")
    check("a typed line stands where it was typed", is_once and is_there, *done.findings())


NAMED = """ ORG X'100'
START LA 1,3
 EX 2,X'140'
AGAIN BCT 1,AGAIN
 END
"""


def test_names(repository: str, work: str) -> None:
    write(f"{work}/script", TRACED)
    write(f"{work}/source", NAMED)
    done = Done(
        repository,
        "trace370",
        "--bare",
        "--range",
        "300-30F",
        "--source",
        f"{work}/source",
        "64K",
        f"{work}/script",
    )
    lines = done.out.splitlines(True)
    unnamed = "".join(line for line in lines if not line.startswith("AT "))
    is_same = re.sub(r"(@[0-9A-F]{6})\([^)]*\)( *)", r"\1", unnamed).replace(" ", "") == read(
        f"{PEOPLE}/trace"
    ).decode().replace(" ", "")
    check("operands have names", "@000108(AGAIN)" in done.out and "@000140(" in done.out)
    check("a trace with names is the same trace", done.status == 0 and is_same, *done.findings())
    for name, place in ("START", "000100"), ("AGAIN", "000108"):
        named = [that.split()[2] for item, that in zip(lines, lines[1:]) if item == f"AT {name}\n"]
        check(f"the name {name}", named and set(named) == {place}, *done.findings())


# says which machine runs, and waits after five units of the first turn
WAITING = f"""#!{sys.executable}
import re, sys
while "--follow" in sys.argv and (size := sys.stdin.buffer.readline()):
    part = sys.stdin.buffer.read(int(size))
    turns = re.findall(b"AUTO ([0-9]+)", part)
    out = ["= BARE 5 WAIT"] + ["= IDLE"] * (int(turns[-1]) - 1) if turns else []
    out += ["> RUNS BARE"] if b"BEGIN" in part else ["> STOPS BARE"] if b"#CP\\n" in part else []
    print(*out, "> DONE", sep="\\n", flush=True)
"""
WAITS = "(the machine runs: the line waits for its program; #CP stops it, #CP TEXT is a command)"


def test_waiting(repository: str, work: str) -> None:
    """What is said where a line waits for a machine that runs, and how many turns a script needs, over a program that waits."""
    shutil.copytree(f"{repository}/bin", f"{work}/waiting/bin")
    shutil.copy(f"{TOP}/VERSION", f"{work}/waiting")
    os.mkdir(f"{work}/waiting/programs")
    write(f"{work}/waiting/programs/gathjumli_cli", WAITING)
    os.chmod(f"{work}/waiting/programs/gathjumli_cli", 0o755)
    write(f"{work}/waiting/programs/gathjumli_cli.built", "sources 0\nkit none\nproved\n")
    done = Done(
        f"{work}/waiting", "terminal", "--bare", "8K", given=b"HELLO\nBEGIN\nHELLO\n#CP\nHELLO\n"
    )
    check(
        "a line that waits", done.status == 0 and done.out.splitlines() == [WAITS], *done.findings()
    )
    script = b"* first\nLINE BARE BEGIN\nAUTO\nDECK BARE 1\nAUTO\nAUTO 3\nAUTO"
    done = Done(f"{work}/waiting", "turns", "--bare", "8K", "-", given=script)
    wanted = "* first\nLINE BARE BEGIN\nAUTO 1\nDECK BARE 1\nAUTO\nAUTO 3\nAUTO 1\n"
    check("turns until all wait", done.status == 0 and done.out == wanted, *done.findings())
    done = Done(f"{work}/waiting", "turns", "--bare", "--most", "1", "8K", "-", given=script)
    check(
        "turns that are too few",
        done.status == 1 and "line 3: somebody does not wait after 1 turns" in done.err,
        *done.findings(),
    )


def test_instructions(repository: str, work: str) -> None:
    """Each instruction of docs/INSTRUCTIONS.md has its name, and its text is what the assembler takes."""
    from gathjumli.instructions import INSTRUCTIONS, text_of

    page = read(f"{TOP}/docs/INSTRUCTIONS.md").decode()
    rows = re.findall(r"^\| ?([0-9A-F, ]+?) ?\| ?([A-Z, ]+?) ?\|[^|]+\|[^|]*\|[^|]*\|", page, re.M)
    stated = {}
    for codes, names in rows:
        stated |= dict(zip(codes.split(", "), names.split(", ")))
    known = {f"{code:02X}": name for code, (name, _) in INSTRUCTIONS.items()}
    stated = {code: name for code, name in stated.items() if re.fullmatch("[0-9A-F]{2}", code)}
    other = sorted(map(str, set(stated.items()) ^ set(known.items())))
    check(
        "the instructions are those of docs/INSTRUCTIONS.md",
        stated == known and len(known) > 90,
        *other,
    )
    codes = [bytes([code, 0x24, 0x68, 0xAC, 0x13, 0x57]) for code in sorted(INSTRUCTIONS)]
    codes = [code[: (2, 4, 4, 6)[code[0] >> 6]] for code in codes]
    # no field is lost: those that an instruction ignores are zero
    codes = [
        bytes([code[0], 0]) + code[2:]
        if code[0] in (0x80, 0x82, 0x93) or code[0] & 0xFC == 0x9C
        else code
        for code in codes
    ]
    codes = [
        bytes([code[0], code[1] & 0xF0]) + code[2:]
        if code[0] == 0x04 or code[0] & 0xF8 == 0x88
        else code
        for code in codes
    ]
    codes += [bytes.fromhex(name) for name in ("9C018004", "9E018004", "47F0C010")]
    lines = "".join(f" {' '.join(text_of(code))}\n" for code in codes)
    write(f"{work}/all.asm", f"{lines} END\n")
    done = Done(repository, "asm370", f"{work}/all.asm")
    check("the assembler takes their texts", done.status == 0, *done.findings())
    found = {}
    for line in done.out.splitlines():
        address, stored = line.split(" ")[3:5]
        found |= {int(address, 16) + at: item for at, item in enumerate(bytes.fromhex(stored))}
    whole = b"".join(codes)
    check("and gives their bytes", bytes(found.get(at, 0) for at in range(len(whole))) == whole)


def test_deck(repository: str, work: str) -> None:
    deck = b"".join(bytes([place]) + b"\x00\x02" + bytes(range(77)) for place in range(42))
    done = Done(
        repository,
        "deck2script",
        "--user",
        "A",
        "--reader",
        "10C",
        "--punch",
        "10D",
        "-",
        given=deck,
    )
    stored = re.findall("LINE A STORE ([0-9A-F]+) ([0-9A-F]+)\n", done.out)
    cards = b"".join(bytes.fromhex(item) for at, item in stored if 0x1000 <= int(at, 16) < 0x1C80)
    check("the cards of a deck are stored", done.status == 0 and cards == deck, *done.findings())
    is_loaded = done.out.endswith("LINE A LOGON\nLINE A IPL 10C\n")
    check("in two batches", done.out.count("SERVE A 10D\n") == 2 and is_loaded, *done.findings())
    check(
        "a command word a card",
        ("1C80", "010010004000005001001050" + "40000050") in stored,
        *stored[-20:],
    )
    done = Done(repository, "deck2script", "-", given=deck[:-1])
    check(
        "a deck that ends in a card is refused",
        done.status == 1 and "80 bytes" in done.err,
        *done.findings(),
    )
    # a card that is loaded alone: a PSW that waits, two words that do nothing
    card = bytes.fromhex("000200000000600D" + "0300000020000001" + "0300000020000001").ljust(
        80, b"\x00"
    )
    script = Done(repository, "deck2script", "-", given=card).out + "LINE BARE #CP DISPLAY PSW\n"
    write(f"{work}/loads", script)
    done = Done(repository, "bare370", "--", "8K", f"{work}/loads")
    check(
        "the machine loads the deck",
        done.out.endswith("BARE: PSW 00020000 0000600D\n"),
        *done.findings(),
    )


PRINTED = (
    """A: == PRT 0009 NOBODY
= IDLE
== PRT 0001 A
89 TITLE
01 ____
09 WORD
01 OOO
09 ///
11 TWO
0B 
09 THREE
8B 
09 NEXT
== PUN 0002 B
"""
    + "== PRT 0001 A".ljust(80)
    + "\n"
    + "CARD".ljust(80)
    + "\n"
)


def test_printouts(repository: str, work: str) -> None:
    done = Done(repository, "printouts", f"{work}/prints", given=PRINTED.encode())
    made = f"{work}/prints/PRT0001-A.txt\n{work}/prints/PUN0002-B.txt\n"
    check("printed files", done.status == 0 and done.out == made, *done.findings())
    wanted = "TITLE\n\f____\rWORD\nOOO\r///\nTWO\n\n\nTHREE\n\fNEXT\n"
    found = read(f"{work}/prints/PRT0001-A.txt").decode()
    check("have their pages", found == wanted, repr(found))
    punched = read(f"{work}/prints/PUN0002-B.txt").decode().splitlines()
    check(
        "and punched ones their cards",
        [len(item) for item in punched] == [80, 80] and punched[0].startswith("== PRT"),
        *punched,
    )
    over = "== PRT 0001 A\n01 A B\n09  C\n" + "09 X\n" * 3
    done = Done(repository, "printouts", "--page", "2", f"{work}/short", given=over.encode())
    check(
        "short pages", read(f"{work}/short/PRT0001-A.txt") == b"ACB\nX\n\fX\nX\n", *done.findings()
    )
    done = Done(repository, "printouts", f"{work}/wrong prints", given=b"== PRT 0001 A\n0A X\n")
    check(
        "another code is refused",
        done.status == 1 and not os.path.exists(f"{work}/wrong prints"),
        *done.findings(),
    )


def test_volumes(repository: str, work: str) -> None:
    """A small image that dasdload made of a volume with a table of contents, cards and a directory."""
    image = zlib.decompress(base64.b64decode(read(f"{PEOPLE}/load01.image")))
    write(f"{work}/image", image)
    done = Done(repository, "img2vol", f"{work}/volume", f"{work}/image")
    check("an image becomes a volume", done.status == 0, *done.findings())
    done = Done(repository, "vol2img", f"{work}/back", f"{work}/volume")
    check(
        "and comes back byte for byte",
        done.status == 0 and read(f"{work}/back") == image,
        *done.findings(),
    )
    if shutil.which("dasdls"):
        listed = subprocess.run(["dasdls", f"{work}/back"], capture_output=True).stdout.decode()
        check(
            "dasdls takes it",
            all(name in listed for name in ("VOLSER=LOAD01", "SYS1.CARDS", "SYS1.LIB")),
            listed,
        )
    text = Done(repository, "vol2text", f"{work}/volume")
    lines = text.out.splitlines()
    label = lines[3].startswith("REC 0 0 0000000003 E5D6D3F1 ")
    check("its text", text.status == 0 and lines[0] == "VOLUME LOAD01 6" and label, *lines[:4])
    label = Done(repository, "vol2text", "--data", "0,0,3", f"{work}/volume")
    check(
        "its label",
        "DATA 0000 E5D6D3F1 D3D6C1C4 F0F14000" in label.out and "VOL1LOAD01 " in label.out,
        *label.findings(),
    )
    check(
        "no such record",
        Done(repository, "vol2text", "--data", "0,0,9", f"{work}/volume").status == 1,
    )
    mapped = Done(repository, "trackmap", "--text", f"{work}/volume")
    check(
        "trackmap has the text too",
        mapped.status == 0 and mapped.raw == text.raw,
        *mapped.findings(),
    )
    mapped = Done(repository, "trackmap", f"{work}/volume", "--data=0,0,3")
    check(
        "trackmap has the label too",
        mapped.status == 0 and mapped.raw == label.raw,
        *mapped.findings(),
    )
    check("neither builds", not os.path.exists(f"{work}/calls"))
    refuse_images(repository, work, image)
    refuse_volumes(repository, work)
    alternates(repository, work)


def refuse_images(repository: str, work: str, image: object) -> None:
    """What a volume cannot hold is reported, and nothing is written."""
    size = 13312
    second = 512 + size

    def changed(at: int, data: bytes) -> object:
        return image[:at] + data + image[at + len(data) :]

    full = (
        b"".join(bytes([0, 0, 0, 1, number, 0, 0, 1, 0]) for number in range(1, 98)) + b"\xff" * 8
    )
    cases = {
        "the image is compressed: copy it": b"CKD_C370" + image[8:],
        "the file is no image CKD_P370": b"CKD2" + image[4:],
        "the image is of a 3330 with 20 heads": changed(8, b"\x14"),
        "one of several files": changed(17, b"\x01"),
        "has not whole cylinders": image[:-1],
        "cylinder 0 head 1: its record zero is not as it was formatted": changed(
            second + 13, b"\x01"
        ),
        "cylinder 0 head 1: it has no record zero": changed(second + 9, b"\x05"),
        "cylinder 0 head 1: its records take 13192 bytes of 13165": changed(second + 21, full),
        "cylinder 0 head 1: its records have no end": changed(second + 5, bytes(size - 5)),
        "no label that has its serial number": changed(
            image.index("VOL1LOAD".encode("cp037")), b"\x00"
        ),
    }
    for findings, data in cases.items():
        write(f"{work}/changed", data)
        done = Done(repository, "img2vol", f"{work}/none", f"{work}/changed")
        check(
            findings,
            done.status == 1 and findings in done.err and not os.path.exists(f"{work}/none"),
            *done.findings(),
        )
    done = Done(repository, "img2vol", "--serial", "OTHER", f"{work}/other", f"{work}/changed")
    check(
        "a serial number that is given",
        done.status == 0 and read(f"{work}/other")[:10] == b"CKD2OTHER ",
        *done.findings(),
    )


def refuse_volumes(repository: str, work: str) -> None:
    """Images of volumes are judged as the programs judge them."""
    whole = read(f"{work}/volume")
    too_full = b"CKD2WORK01\0\1" + bytes(5) + b"\1" + bytes(5) + b"\0\xff\xff" + bytes(65535)
    too_full += bytes(6) * 18 + b"\0\0\0\1"
    cases = {
        "BadMagic": b"CKD3" + whole[4:], "Truncated": whole[:-1], "Trailing": whole + b"\0", "BadTotal": whole[:-1] + b"\xff",
        "BadTrack 0 0": too_full,
    }  # fmt: skip
    for fault, data in cases.items():
        write(f"{work}/changed", data)
        done = Done(repository, "vol2img", f"{work}/none", f"{work}/changed")
        check(
            f"an image with {fault}",
            done.status == 1 and done.err == f"fault: image {fault}\n",
            *done.findings(),
        )
    zero = b"CKD2WORK01\0\1" + bytes(5) + b"\1" + bytes(8) + bytes(6) * 18 + b"\0\0\0\1"
    write(f"{work}/changed", zero)
    done = Done(repository, "vol2img", f"{work}/none", f"{work}/changed")
    findings = "cylinder 0 head 0: a record has the number zero"
    check(
        "a record of the number zero", done.status == 1 and findings in done.err, *done.findings()
    )
    done = Done(repository, "vol2img", "--alternates", f"{work}/none", f"{work}/volume")
    check(
        "alternates of six cylinders",
        done.status == 1 and not os.path.exists(f"{work}/none"),
        *done.findings(),
    )


def alternates(repository: str, work: str) -> None:
    """A volume of 404 cylinders, with alternate ones and without; and the emulator's own tools, where they are there."""
    blank = b"".join(
        bytes([0, number // 19 >> 8, number // 19 & 255, 0, number % 19, 0])
        for number in range(404 * 19)
    )
    write(f"{work}/volume", b"CKD2WORK01" + (404).to_bytes(2, "big") + blank + bytes(4))
    done = Done(repository, "vol2img", "--alternates", f"{work}/image", f"{work}/volume")
    check(
        "alternate cylinders",
        done.status == 0 and os.path.getsize(f"{work}/image") == 512 + 411 * 19 * 13312,
        *done.findings(),
    )
    done = Done(repository, "img2vol", "--serial", "WORK01", f"{work}/back", f"{work}/image")
    is_same = read(f"{work}/back") == read(f"{work}/volume")
    check("are left out where nothing is on them", done.status == 0 and is_same, *done.findings())
    with open(f"{work}/image", "r+b") as file:
        file.seek(512 + 404 * 19 * 13312)
        file.write(b"\x80")
    done = Done(repository, "img2vol", "--serial", "WORK01", f"{work}/none", f"{work}/image")
    check(
        "and reported where one is used",
        "cylinder 404 head 0: an alternate track is used" in done.err,
        *done.findings(),
    )
    if not shutil.which("dasdinit"):
        print("no dasdinit: images were not compared with the emulator's")
        return
    loaded_by_emulator(repository, work)
    for words in (["3330-1", "MADE01"], ["-a", "3330-1", "MADE02"]):
        option, model = words[:-2], words[-2:]
        made = f"{work}/{model[1]}"
        subprocess.run(["dasdinit", *option, made, *model], capture_output=True, check=True)
        Done(repository, "img2vol", f"{work}/volume", made)
        done = Done(
            repository,
            "vol2img",
            *(["--alternates"] if option else []),
            f"{work}/image",
            f"{work}/volume",
        )
        check(
            f"dasdinit {words}",
            done.status == 0 and read(made) == read(f"{work}/image"),
            *done.findings(),
        )


LOADED = """load02 3330 8
sysvtoc VTOC TRK 1
SYS1.CARDS SEQ cards CYL 1 1 0 PS F 80 0
SYS1.EMPTY EMPTY TRK 2 0 0 PS F 80 80
SYS1.WORK DIP CYL 3
"""


def loaded_by_emulator(repository: str, work: str) -> None:
    """A volume that dasdload makes, there and back."""
    write(f"{work}/loads", LOADED)
    write(
        f"{work}/cards",
        "".join(card.ljust(80) for card in ("FIRST CARD", "SECOND CARD")).encode("cp037"),
    )
    done = subprocess.run(["dasdload", "loads", "loaded", "0"], cwd=work, capture_output=True)
    made = Done(repository, "img2vol", f"{work}/volume", f"{work}/loaded")
    back = Done(repository, "vol2img", f"{work}/image", f"{work}/volume")
    is_same = back.status == 0 and read(f"{work}/loaded") == read(f"{work}/image")
    check("dasdload", done.returncode == 0 and is_same, *made.findings(), *back.findings())
    card = Done(repository, "vol2text", "--data", "1,0,1", f"{work}/volume")
    check("a card that it loaded", "FIRST CARD" in card.out, *card.findings())


FRAMES = """FRAMES 0-1 ALPHA 01B000-01C000
FRAME 2 B 001000
FREE FRAMES 13 OF 16
SLOTS 0-1 ALPHA 000000-001000
FREE SLOTS 6 OF 8
PAGE INS 18
"""
TRACKS = """VOLUME V1 CYLINDERS 2
TRACK 0 0 HOME 0000000000 RECORDS 2 FILL 331 OF 13165
  0000000001 KEY 0 DATA 2 COST 137
  0000000002 KEY 3 DATA 0 COST 194
TRACK 1 18 HOME 8000010012 RECORDS 97 FILL 13165 OF 13165
BLANK TRACKS 36
"""


def try_tracks(drawn: bytes, titles: list[str]) -> None:
    """Each track of the picture is named once, and its colors have a legend."""
    named = []
    for title in titles:
        first, last, head = re.match(r"cylinders? (\d+)(?: to (\d+))? head (\d+): ", title).groups()
        named += [(cylinder, int(head)) for cylinder in range(int(first), int(last or first) + 1)]
    tracks = [(cylinder, head) for cylinder in range(2) for head in range(19)]
    check("each track is named once", sorted(named) == tracks, *titles)
    check("shades have a legend", b">blank</text>" in drawn and b">100% full</text>" in drawn)


def test_pictures(repository: str, work: str) -> None:
    cases = {
        "framepicture": (FRAMES, 16 + 8 + 2, "frame 1: ALPHA 01C000", "    0 AAB.............\n"),
        "trackpicture": (
            TRACKS,
            # two tracks with records, a blank one next to each, and 17 rows of two blank ones
            2 + 2 + 17,
            "cylinder 0 head 0: 2 records, 331 of 13165 bytes",
            "18 | @|\n",
        ),
    }
    for command, (text, squares, title, row) in cases.items():
        done = Done(repository, command, given=text.encode())
        titles = [
            item.firstChild.data
            for item in xml.dom.minidom.parseString(done.raw).getElementsByTagName("title")
        ]
        check(f"{command} draws", len(titles) == squares and title in titles, *titles)
        if command == "trackpicture":
            try_tracks(done.raw, titles)
        done = Done(repository, command, "--text", "-", given=text.encode())
        check(f"{command} as text", done.status == 0 and row in done.out, *done.findings())
        done = Done(repository, command, given=b"no map\n")
        check(f"{command} of another text", done.status == 1 and not done.out, *done.findings())


def test_installation(repository: str, work: str) -> None:
    """People at an installation, over a stand-in for the program."""
    basics.try_tables(check, work)
    os.environ["PEOPLE_STAND_IN"] = "yes"
    write(f"{work}/directory", DIRECTORY)
    write(f"{work}/nothing", "")
    Done(repository, "vm370", "--", f"{work}/directory", f"{work}/nothing")
    basics.try_typed(check, desk.answers)
    desk.try_honest(check)
    desk.try_class(check)
    basics.try_all(check, repository, f"{work}/sites", is_stand_in=True)
    program = f"{repository}/crates/gathjumli_cli/out/gathjumli_cli"
    faults.try_faults(check, f"{repository}/bin/installation", program, f"{work}/faults")
    strangers.try_strangers(check, f"{repository}/bin/installation", f"{work}/strangers")
    reload.try_reloading(check, f"{repository}/bin/installation", f"{work}/reload")
    strays.try_strays(check, f"{repository}/bin/installation", f"{work}/strays")
    keeping.try_keeping(check, f"{repository}/bin/installation", f"{work}/keeping")
    spool.try_spool(check, f"{repository}/bin/installation", f"{work}/spool")
    figures.try_figures(check, f"{repository}/bin/installation", f"{work}/figures")
    maps.try_maps(check, f"{repository}/bin/installation", f"{work}/maps")
    replays.try_replays(check, f"{repository}/bin/installation", f"{work}/replays")
    proxies.try_proxies(check, f"{repository}/bin/installation", f"{work}/proxies")
    watchdog.try_watchdog(check, f"{repository}/bin/installation", f"{work}/watchdog")
    operators.try_operating(check, f"{repository}/bin/installation", f"{work}/operators")
    states.try_states(check, f"{repository}/bin/installation", program, f"{work}/states")
    del os.environ["PEOPLE_STAND_IN"]


def test_pages(repository: str, work: str) -> None:
    """What pages are reported and may do, and how an installation is asked for them."""
    write(f"{work}/directory", "USER A PW 16K\n")
    words = {("--web", "8370"): "--web is ADDRESS:PORT, and not 8370", ("--web", "127.0.0.1:99999"): "--web is ADDRESS:PORT",
             ("--web", "./pages"): "--web is ADDRESS:PORT, and no path", ("--key", "k"): "--certificate and --key go together"}  # fmt: skip
    for given, findings in words.items():
        done = Done(
            repository, "installation", "--record", f"{work}/record", *given, f"{work}/directory"
        )
        check(
            f"pages by {given}",
            done.status == 2 and findings in done.err and not os.path.exists(f"{work}/record"),
            *done.findings(),
        )
    write(
        f"{work}/desk",
        f"#!/bin/sh\nPYTHONPATH='{TOP}' exec '{sys.executable}' -Bc 'from tests.lib import desk; desk.stand_in([])'\n",
    )
    os.chmod(f"{work}/desk", 0o755)
    page_tables.try_pages(check, f"{work}/pages", f"{work}/desk")


# --- over a built program ---


def compare_parts() -> None:
    """Each example of users is given to the program event by event, and as a whole: what it writes is the transcript, and after
    each part the files that it closed, who has logged on or off, and that it was done."""
    examples = f"{TOP}/examples/users"
    for name in sorted(os.listdir(examples)):
        folder = f"{examples}/{name}"
        if os.path.exists(f"{folder}/volumes"):
            continue
        sizes = (
            read(f"{folder}/sizes").decode().split()
            if os.path.exists(f"{folder}/sizes")
            else ("64", "256")
        )
        words = [
            PROGRAM,
            "vm370",
            "--frames",
            sizes[0],
            "--slots",
            sizes[1],
            "--follow",
            f"{folder}/directory",
        ]
        script, transcript = read(f"{folder}/script"), read(f"{folder}/transcript")
        for given in (list(events_of(script)), [script]):
            done = subprocess.run(
                words, input=b"".join(map(part_of, given)) + b"END\n", capture_output=True
            )
            lines = done.stdout.splitlines(True)
            findings = [line[2:] for line in lines if line.startswith(b"> ")]
            written = b"".join(line for line in lines if not line.startswith(b"> "))
            is_reported = findings.count(b"DONE\n") == len(given) and [
                item for item in findings if item[:1] in b"=|"
            ] == closed_in(transcript)
            is_reported = is_reported and (
                len(given) == 1 or who_goes(findings) == who_is_notified(transcript)
            )
            holds = done.returncode == 0 and written == without_files(transcript) and is_reported
            check(f"{name} in {len(given)} parts", holds, f"status {done.returncode}", *lines[:60])
        leave_out_turns(name, words, list(events_of(script)))
    user = re.search("USER ([A-Z0-9]+)", read(f"{examples}/two-users/directory").decode())[1]
    for what, user in (
        (["vm370", f"{examples}/two-users/directory"], user),
        (["bare370", "8K"], "BARE"),
    ):
        refuse_parts(what, user)
        notify_changes(what, user)
        save_after_parts(what, user)
    answer_each_part(
        ["vm370", "--follow", f"{examples}/two-users/directory"], f"{examples}/two-users"
    )
    answer_each_part(["bare370", "--follow", "64K"], f"{TOP}/examples/machines/hello")
    follow_one_machine()


def first_file(lines: list) -> int:
    """Where the files at the end of a transcript begin."""
    return next((place for place, line in enumerate(lines) if HEADING.fullmatch(line)), len(lines))


def closed_in(transcript: object) -> list:
    """The files at the end of a transcript, as the answers to parts have them."""
    lines = transcript.splitlines(True)
    files = lines[first_file(lines) :]
    return [line if HEADING.fullmatch(line) else b"|" + line for line in files]


def without_files(transcript: bytes) -> bytes:
    """A transcript without the files at its end, which the answers to parts have."""
    lines = transcript.splitlines(True)
    return b"".join(lines[: first_file(lines)])


def who_goes(findings: object) -> list:
    return [item for item in findings if item.startswith((b"ON ", b"OFF "))]


def who_is_notified(transcript: object) -> list:
    """Who logs on and off by what is reported to them, where no guest prints that."""
    words = {b"LOGON": b"ON", b"LOGOFF": b"OFF"}
    found = re.findall(rb"^(\S+): (LOGON|LOGOFF) OK$", transcript, re.M)
    return [b"%s %s\n" % (words[word], user) for user, word in found]


def answers_to(words: list[str], parts: object) -> object:
    """The lines of the transcript that come of each part."""
    done = subprocess.run(
        words, input=b"".join(map(part_of, parts)) + b"END\n", capture_output=True
    )
    answers, lines = [[] for _ in range(len(parts) + 1)], done.stdout.splitlines(True)
    number = 0
    for line in lines:
        if line == b"> DONE\n":
            number += 1
        elif not line.startswith(b"> "):
            answers[min(number, len(parts))].append(line)
    return answers


def leave_out_turns(name: str, words: list[str], parts: object) -> None:
    """With --terminals how turns ended is left out, and nothing else."""
    whole, scant = answers_to(words, parts), answers_to(
        [*words[:-2], "--terminals", *words[-2:]], parts
    )
    for part, lines in zip(parts, whole):
        if part.startswith(b"AUTO "):
            lines[:] = [
                line for line in lines if not line.startswith(b"= ") or line.endswith(b" FRAMES\n")
            ]
    place = next(
        (item for item, (one, other) in enumerate(zip(whole, scant)) if one != other), None
    )
    check(
        f"{name} without the ends of turns",
        place is None,
        *(scant[place][:20] if place is not None else ()),
    )


def follow_one_machine() -> None:
    """A machine of its own is followed too: the scripts of examples, event by event."""
    examples = f"{TOP}/examples/machines"
    for name in sorted(os.listdir(examples)):
        folder = f"{examples}/{name}"
        if not os.path.exists(f"{folder}/script") or os.path.exists(f"{folder}/190"):
            continue
        storage = (
            read(f"{folder}/storage").decode().strip()
            if os.path.exists(f"{folder}/storage")
            else "64K"
        )
        words = [PROGRAM, "bare370", "--follow", storage]
        done = subprocess.run(
            words,
            input=b"".join(map(part_of, events_of(read(f"{folder}/script")))) + b"END\n",
            capture_output=True,
        )
        written = b"".join(
            line for line in done.stdout.splitlines(True) if not line.startswith(b"> ")
        )
        holds = done.returncode == 0 and written == without_files(read(f"{folder}/transcript"))
        check(
            f"{name} on a machine of its own in parts",
            holds,
            f"status {done.returncode}",
            done.stderr,
        )
        leave_out_turns(
            f"{name} on a machine of its own", words, list(events_of(read(f"{folder}/script")))
        )


def answer_each_part(words: list[str], folder: str) -> None:
    """Each part is answered before the next is given: nothing is held back until more appears."""
    streams = {"stdin": subprocess.PIPE, "stdout": subprocess.PIPE}
    with subprocess.Popen([PROGRAM, *words], **streams) as run:
        late = threading.Timer(60, run.kill)
        late.start()
        answers = []
        for part in events_of(read(f"{folder}/script")):
            try:
                run.stdin.write(part_of(part))
                run.stdin.flush()
            except BrokenPipeError:
                break
            lines = list(iter(lambda: run.stdout.readline() or b"> DONE\n", b"> DONE\n"))
            answers += [line for line in lines if not line.startswith(b"> ")]
        run.stdin.close()
        answers += run.stdout.readlines()
        late.cancel()
    wanted = without_files(read(f"{folder}/transcript"))
    holds = run.returncode == 0 and b"".join(answers) == wanted
    check(
        f"{words[0]}: each part is answered before the next",
        holds,
        f"status {run.returncode}",
        *answers[:60],
    )


def save_after_parts(what: str, user: Account) -> None:
    """Images are saved where the end is asked for, as version 2, for the same people, also where no file can be made next to them,
    and through a link, which stays; where the input just ends they are not."""
    whole = (
        b"CKD%d"
        + b"V1".ljust(6)
        + b"\0\1"
        + b"".join(bytes([0, 0, 0, 0, head, 0]) for head in range(19))
    )
    old, new = whole % 1, whole % 2 + bytes(4)
    part, named = what
    for is_in_the_way, end in ((False, b"END\n"), (True, b"END\n"), (False, b"")):
        with tempfile.TemporaryDirectory() as room:
            write(f"{room}/image", old)
            os.chmod(f"{room}/image", 0o640)
            os.symlink("image", f"{room}/link")
            if is_in_the_way:
                write(f"{room}/image.new", b"in the way")
            given = part_of(f"LINE {user} LOGON\n".encode()) + end
            done = subprocess.run(
                [PROGRAM, part, "--save", "--follow", named, f"{room}/link"],
                input=given,
                capture_output=True,
            )
            kept = read(f"{room}/image.new") if is_in_the_way else b"in the way"
            is_saved = (
                read(f"{room}/image") == (new if end else old)
                and os.stat(f"{room}/image").st_mode & 0o777 == 0o640
            )
            holds = (
                done.returncode == 0
                and is_saved
                and kept == b"in the way"
                and os.path.islink(f"{room}/link")
            )
            check(
                f"{part}: saved after the parts, over the old file: {is_in_the_way}, with an end: {bool(end)}",
                holds,
                f"status {done.returncode}",
                done.stderr,
            )


def notify_changes(what: str, user: Account) -> None:
    """What each part answers of who is on and whose machine runs: a machine that is started runs, one that is stopped stops."""
    part, named = what
    findings = {
        "LOGON": ["ON"],
        "BEGIN": ["RUNS"],
        "#CP DISPLAY PSW": [],
        "#CP": ["STOPS"],
        "DISPLAY PSW": [],
        "BEGIN 200": ["RUNS"],
        "#CP SYSTEM RESET": ["STOPS"],
        "BEGIN 100": ["RUNS"],
        "#CP LOGOFF": ["STOPS", "OFF"],
    }
    given = b"".join(part_of(f"LINE {user} {line}\n".encode()) for line in findings) + b"END\n"
    done = subprocess.run([PROGRAM, part, "--follow", named], input=given, capture_output=True)
    answers = [line for line in done.stdout.decode().splitlines() if line.startswith("> ")]
    wanted = [
        line
        for words in findings.values()
        for line in (*(f"> {word} {user}" for word in words), "> DONE")
    ]
    check(
        f"{part}: who is on, and whose machine runs",
        answers == wanted,
        f"status {done.returncode}",
        *answers,
    )


def part_of(text: str) -> object:
    return b"%d\n%s" % (len(text), text)


def events_of(script: str) -> Iterator:
    """The events of a script, each with the cards after it, and the lines between."""
    lines = script.splitlines(True)
    while lines:
        deck = re.fullmatch(rb"DECK \S+ ([0-9]+)\n", lines[0])
        count = 1 + (int(deck[1]) if deck else 0)
        yield b"".join(lines[:count])
        del lines[:count]


def refuse_parts(what: str, user: Account) -> None:
    """A part that is refused has done nothing, also one whose last line has no end, and an input that is cut off is a failed
    file."""
    part, named = what
    texts = (
        f"LINE {user} LOGON\n",
        f"LINE {user} STORE 0 FF\nBAD\n",
        f"LINE {user} STORE 0 FF\nLINE {user} STORE 4 FF",
        f"LINE {user} DISPLAY 0\n",
    )
    given = b"".join(part_of(text.encode()) for text in texts)
    findings = (
        f"{user}: LOGON OK\n> ON {user}\n> DONE\n> REFUSED 2\n> REFUSED 2\n{user}: 000000"
        + 4 * " 00000000"
        + "\n> DONE\n"
    )
    failed_file = "fault: file Device 1\n"
    for more, status, fault in (
        (b"", 0, ""),
        (b"5\nTICK", 3, failed_file),
        (b"x\n", 3, failed_file),
        (b"5", 3, failed_file),
    ):
        words = [PROGRAM, part, "--follow", named]
        done = subprocess.run(words, input=given + more, capture_output=True)
        is_so = (done.returncode, done.stdout.decode(), done.stderr.decode()) == (
            status,
            findings,
            fault,
        )
        check(
            f"{part}: parts and {more!r}",
            is_so,
            f"status {done.returncode}",
            done.stdout.decode(),
            done.stderr.decode(),
        )


def try_over_programs(repository: str, folder: str) -> None:
    """What of operators and faults needs no stand-in."""
    command, program = (
        f"{repository}/bin/installation",
        f"{repository}/crates/gathjumli_cli/out/gathjumli_cli",
    )
    faults.try_killed_program(check, make_site(command, f"{folder}/killed"), program)
    operators.try_operators(check, make_site(command, f"{folder}/operators"))
    operators.try_commands(check, make_site(command, f"{folder}/commands"))
    states.try_over_program(check, command, program, f"{folder}/states")
    operators.try_endless(check, Town(f"{folder}/endless", 7, command=command))
    strangers.try_floods(check, make_site(command, f"{folder}/floods"))
    strangers.try_crowd(check, Town(f"{folder}/crowd", strangers.CROWD, command=command))

    def run(name: str, *words: str, **given: object) -> Done:
        return Done(repository, name, *words, **given)

    scripts_for_people.try_loads(check, folder, run)
    seconds = try_long_trace(repository, folder)
    # processor time does not hang on what else the host does
    check("and within two seconds", seconds < 2, f"{seconds:.1f} seconds")


def try_states(repository: str, folder: str) -> None:
    """Scripts that are broken off, states that are spoiled, and the commands for states."""
    state_commands.try_commands(check, repository, PROGRAM, folder)
    broken.try_broken(check, PROGRAM, broken.EVERY, broken.SCRIPTS, 1)
    broken.try_tables(check, PROGRAM, broken.ONE_OF, 1)
    broken.try_spoiled(check, PROGRAM, broken.STATES, 1)
    growth.try_typed(check, PROGRAM, 50)
    growth.try_closed(check, PROGRAM, 300)
    any_moment.try_moments(check, repository, PROGRAM, 60)
    watching.try_event_by_event(check, PROGRAM, f"{folder}/watched")


def chosen(names: list[str]) -> list[Callable[[str, str], None]]:
    """The tests of these names, or all."""
    tests = {name: test for name, test in globals().items() if name.startswith("test_")}
    if unknown := [name for name in names if f"test_{name}" not in tests]:
        known = " ".join(name.removeprefix("test_") for name in tests)
        sys.exit(f"there is no test {unknown[0]}: {known}")
    return [
        test for name, test in tests.items() if not names or name.removeprefix("test_") in names
    ]


def main() -> None:
    if sys.argv[1:2] == ["--play"]:
        play(sys.argv[2], sys.argv[3:])
    folder = tempfile.TemporaryDirectory()
    if sys.argv[1:] == ["--record"]:
        os.environ["PEOPLE_RECORD"] = folder.name
    if sys.argv[1:] == ["--built"]:
        compare_parts()
        desk.try_program(check, PROGRAM)
        desk.try_honest(check, PROGRAM)
        desk.try_class(check, PROGRAM)
        basics.try_typed(check, desk.reported_by(PROGRAM))
        repository = make_repository(folder.name, BUILT)
        basics.try_all(check, repository, f"{folder.name}/sites", is_stand_in=False)
        try_over_programs(repository, folder.name)
        try_states(repository, f"{folder.name}/state commands")
        command = f"{repository}/bin/installation"
        further.try_further(check, command, PROGRAM, f"{folder.name}/further")
        sys.exit(totals.report())
    for test in chosen([word for word in sys.argv[1:] if word != "--record"]):
        work = tempfile.mkdtemp()
        path = os.environ["PATH"]
        try:
            test(make_repository(work), work)
        finally:
            os.environ["PATH"] = path
            shutil.rmtree(work)
    if sys.argv[1:] == ["--record"]:
        record(folder.name)
    sys.exit(totals.report())


main()
