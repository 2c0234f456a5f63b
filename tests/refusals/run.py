#!/usr/bin/env python3
"""Tests what the parts of the built program do where the host refuses them memory, fails a call of a file, or gives them a file that is
cut. Each allocation and each call of a file is refused once; of the first 100 allocations and each seventh after them also all that
follow. A program has to end as docs/FORMATS.md says: with its ordinary answer, or with the fault, its status, a beginning of its
transcript, and images each of which is whole.

It needs the program that rt ci or the commands of bin/ built, and gcc on Linux with glibc; if one is missing, it says what and fails.
--programs FOLDER takes it from FOLDER/gathjumli_cli/out. The last line is 'N passed, M failed'."""
from __future__ import annotations

import os
import re
import shutil
import subprocess
import sys
import tempfile
from concurrent.futures import ThreadPoolExecutor

sys.dont_write_bytecode = True
TOP = os.path.dirname(os.path.dirname(os.path.dirname(os.path.realpath(__file__))))
sys.path[:0] = [TOP, f"{TOP}/bin/lib"]
from gathjumli.state_growth import PlacedState, grown
from tests.lib import desk
from tests.lib.counting import Counts
from tests.lib.files import read, write
from tests.lib.images import image_of
from tests.refusals import refused_states

SOURCE = f"{TOP}/tests/refusals/refusing.c"
EXAMPLES = f"{TOP}/examples/users"
BARE_EXAMPLES = f"{TOP}/examples/machines"
SESSIONS = f"{TOP}/tests/transcripts"
# what happens at the logon desk, of which most lines are drawn
DESK_LINES = 150
# a run of a program takes some milliseconds
SECONDS = 60
# of the allocations of a state so many are refused, and by a command in Python, which takes longer, so many
MOST_REFUSED, MOST_COMMANDS = 500, 16
# runs the program that it names, whose host alone refuses something
REFUSED_PROGRAM = """#!/bin/sh
LD_PRELOAD="$LIBRARY" REFUSE="$REFUSED" exec "$PROGRAM" "$@"
"""

totals = Counts()
check = totals.check
counts = {}


def count(what: str, number: int) -> None:
    """Adds to what is reported at the end."""
    counts[what] = counts.get(what, 0) + number


# --- cases: a part of the program, what it is given, and what it answers where nothing fails ---


class Case:
    """A part with its words and files. Of the files some are written, and are old or new at the end."""

    def __init__(
        self,
        name: str,
        part: str,
        words: list[str],
        files: list,
        findings: object,
        ended: object = None,
        given: bytes = b"",
    ) -> None:
        self.name, self.part, self.words, self.files, self.findings = (
            name,
            part,
            words,
            files,
            findings,
        )
        # what it reads from standard input
        self.given = given
        # the written files in the order in which they are written, with what each is at the end
        self.ended = ended or {}


def serial_of(text: str) -> object:
    """The serial number of the volume that a text states."""
    return text.decode().split(" ", 2)[1]


def user_case(
    name: str, directory: str, script: str, findings: object, volumes: tuple = (), ended: tuple = ()
) -> object:
    """Users' machines; their images are old ones of version 1, so that one that was written anew is another."""
    names = [serial_of(volume) for volume in volumes]
    files = {"directory": directory, "script": script}
    files |= {item: image_of(text, 1) for item, text in zip(names, volumes)}
    wanted = {item: image_of(text) for item, text in zip(names, [*ended, *volumes[len(ended) :]])}
    words = ["--save"] * bool(volumes) + ["directory", "script", *names]
    return Case(name, "vm370", words, files, findings, wanted)


def example(name: str) -> object:
    """An example of users without disks."""
    folder = f"{EXAMPLES}/{name}"
    return user_case(
        name, *(read(f"{folder}/{name}") for name in ("directory", "script", "transcript"))
    )


def session_after(comment: object, *more: object) -> object:
    """The session of the table that follows this comment, with more volumes that nobody has."""
    blocks = read(f"{SESSIONS}/sessions.txt").decode().split("\n\n")
    [lines] = [block.split("\n") for block in blocks if f"# {comment}\n" in f"{block}\n"]
    of = lambda mark: [line[2:] for line in lines if line.startswith(f"{mark} ")]
    text = lambda findings: "".join(f"{item}\n" for item in findings).encode()
    findings = text(line for line in lines if line and line[0] not in "#@$:;%>!")
    volumes = [read(f"{SESSIONS}/volumes/{item}") for item in of(":")]
    ended = [read(f"{SESSIONS}/volumes/{item}") for item in of(";")]
    return user_case(comment, text(of("@")), text(of(">")), findings, [*volumes, *more], ended)


def bare_example(name: str) -> object:
    """An example of a machine of its own, whose disks are saved."""
    folder = f"{BARE_EXAMPLES}/{name}"
    disks = sorted(item for item in os.listdir(folder) if re.fullmatch("19[0-9A-F]", item))
    texts = {disk: read(f"{folder}/{disk}") for disk in disks}
    saved = {
        disk: read(f"{folder}/{disk}-saved")
        for disk in disks
        if os.path.isfile(f"{folder}/{disk}-saved")
    }
    storage = (
        read(f"{folder}/storage").decode().strip() if os.path.isfile(f"{folder}/storage") else "64K"
    )
    files = {"script": read(f"{folder}/script")} | {
        item: image_of(text, 1) for item, text in texts.items()
    }
    ended = {item: image_of(text) for item, text in (texts | saved).items()}
    words = ["--save"] * bool(disks) + [storage, "script", *disks]
    return Case(f"bare370 {name}", "bare370", words, files, read(f"{folder}/transcript"), ended)


def in_the_way(case: object) -> object:
    """The case where a file stands in the way of the new images, so that the old ones are written over."""
    case.name = "written over: " + case.name
    case.files |= {f"{item}.new": b"in the way" for item in case.ended}
    return case


def shorter_case() -> object:
    """An image that gets shorter, since a record is written on a track where longer ones were, and is written over the old one."""
    script = b"""\
LINE A LOGON
LINE A STORE 48 00000800
LINE A STORE 800 39000840600000040800080000000000
LINE A STORE 810 1D00085000000009
LINE A STORE 850 0000000001000001C1
LINE A STORE 100 9C000190
LINE A STORE PSW 00000000 00000100
LINE A BEGIN
RUN A 1
SERVE A 190
"""
    findings = b"A: LOGON OK\n" + b"A: STORED\n" * 6 + b"= A 1 COUNT\n= A SERVED 190\n"
    longer = b"REC 0 0 0000000001 - C1C2C3C4\nREC 0 0 0000000002 - %s\n" % (b"C5" * 200)
    volume, directory = b"VOLUME SHORT 1\n", b"USER A PW 8K\nMDISK 190 3330 0 1 SHORT W\n"
    ended = volume + b"REC 0 0 0000000001 - C1\n"
    case = user_case("a shorter image", directory, script, findings, [volume + longer], [ended])
    return in_the_way(case)


def long_case() -> object:
    """A transcript that is too long to be handed to the host at once: a line again and again."""
    lines = b"LINE A LOGON\n" + b"LINE A DISPLAY 0\n" * 300
    findings = b"A: LOGON OK\n" + b"A: 000000 00000000 00000000 00000000 00000000\n" * 300
    return user_case("a long transcript", b"USER A PW 8K\n", lines, findings)


def maker_case(text: str) -> object:
    """mkvol, over an image that is there already."""
    files = {"text": text, "image": b"an older image"}
    return Case("mkvol", "mkvol", ["image", "text"], files, b"", {"image": image_of(text)})


def map_case() -> object:
    """trackmap, of a volume with one record."""
    text = b"VOLUME V1 1\nREC 0 0 0000000001 - C1\n"
    findings = b"VOLUME V1 CYLINDERS 1\nTRACK 0 0 HOME 0000000000 RECORDS 1 FILL 136 OF 13165\n"
    findings += b"  0000000001 KEY 0 DATA 1 COST 136\nBLANK TRACKS 18\n"
    return Case("trackmap", "trackmap", ["image"], {"image": image_of(text)}, findings)


def cases() -> list:
    """Those in which a disk is saved have two, so that one fails before or after the other."""
    spare = b"VOLUME SPARE 1\nREC 0 3 0000000001 - C1\n"
    return [
        example("supervisor-call"),
        example("a-line-on-the-console"),
        example("a-card-after-a-deck"),
        session_after(
            "A record is found by its number and read whole: search, transfer back to the search, read.",
            spare,
        ),
        session_after("Two users on one volume, each with an arm of his own.", spare),
        session_after(
            "A machine is loaded from a disk that begins in the middle of a volume.", spare
        ),
        in_the_way(
            session_after(
                "A machine is loaded from a disk that begins in the middle of a volume.", spare
            )
        ),
        long_case(),
        bare_example("written-track"),
        bare_example("reader-decks"),
        maker_case(read(f"{SESSIONS}/volumes/numbered")),
        map_case(),
    ]


# --- a run ---


class Host:
    """Where the program runs: each run has a folder of its own."""

    def __init__(self, program: str, library: object, work: str) -> None:
        self.program, self.library, self.work = program, library, work

    def run(self, case: object, refuse: str = "", report: bool = False) -> object:
        """What the program did whose host refuses this: its end, and the files of its folder."""
        folder = tempfile.mkdtemp(dir=self.work)
        for name, data in case.files.items():
            write(f"{folder}/{name}", data)
        variables = {"LD_PRELOAD": self.library, "REFUSE": refuse}
        if report:
            variables["REFUSE_REPORT"] = f"{folder}.report"
        words = [self.program, case.part, *case.words]
        try:
            how = {
                "cwd": folder,
                "env": variables,
                "capture_output": True,
                "timeout": SECONDS,
                "close_fds": False,
                "input": case.given,
            }
            ended = Ended(subprocess.run(words, **how))
        except subprocess.TimeoutExpired:
            ended = Ended(subprocess.CompletedProcess(words, "hangs", b"", b""))
        ended.files = {item: read(f"{folder}/{item}") for item in os.listdir(folder)}
        shutil.rmtree(folder)
        if report:
            ended.report = read(f"{folder}.report").decode().split(" ")
        return ended


class Ended:
    """How a run ended, what it printed, and what it left."""

    def __init__(self, done: object) -> None:
        self.status, self.out, self.err = done.returncode, done.stdout, done.stderr
        self.files = {}

    def findings(self) -> tuple:
        return (
            f"status {self.status}",
            f"out {self.out[-200:]}",
            f"err {self.err[-300:]}",
            f"files {sorted(self.files)}",
        )


# --- what may be at the end ---


def is_ordinary(case: object, ended: object) -> bool:
    """The answer as if nothing had been refused."""
    files = case.files | case.ended
    return (ended.status, ended.out, ended.err, ended.files) == (0, case.findings, b"", files)


def fault_of(case: object, ended: object, fault: object) -> str | None:
    """What is wrong where a program ended with this fault, or None."""
    lines = ended.err.decode().splitlines()
    written = list(case.ended)
    unsaved = None
    if case.words[0] == "--save" and len(lines) == 2 and lines[1].startswith("not saved: "):
        unsaved = lines.pop()[len("not saved: ") :]
        if unsaved not in written:
            return "the image that is not saved is none of the words"
        if ended.out != case.findings:
            return "images are saved after the transcript is written"
    if lines != [fault]:
        return "another fault is reported"
    if not case.findings.startswith(ended.out):
        return "the transcript is no beginning"
    if sorted(ended.files) != sorted(case.files):
        return "a file is left, or is gone"
    for name, data in ended.files.items():
        before, after = case.files[name], case.ended.get(name, case.files[name])
        if case.name == "mkvol" and name in written:
            is_right = data == before or after.startswith(data)
        elif unsaved is not None and name in written:
            at, of = written.index(name), written.index(unsaved)
            is_right = (
                data == after if at < of else data == before if at > of else data in (before, after)
            )
        else:
            is_right = data == before
        if not is_right:
            return f"the file {name} is not as it was, or as it has to be"
    return None


def judged(
    case: object, ended: object, fault: object, status: object, may_be_ordinary: object
) -> object:
    """What is wrong with an end, or None."""
    if is_ordinary(case, ended):
        return None if may_be_ordinary else "nothing is said of the failure"
    if ended.status != status:
        return "another end"
    return fault_of(case, ended, fault)


# --- the tests ---


def refuse_each(
    host: object, pool: object, case: object, kind: str, numbers: object, verdict: object
) -> int:
    """Runs a case once for each number and prints the first ends that are wrong; how many of the ends were ordinary."""
    runs = list(pool.map(lambda item: host.run(case, f"{kind}:{item[0]}:{item[1]}"), numbers))
    wrong = [(at, ended, why) for at, ended in zip(numbers, runs) if (why := verdict(at, ended))]
    for at, ended, why in wrong[:3]:
        print(
            f"    {case.name}, {kind} {at[0]} to {at[1]}: {why}",
            *ended.findings(),
            sep="\n        ",
        )
    check(f"{case.name}: {kind} refused, {len(wrong)} of {len(runs)} wrong", not wrong)
    return sum(is_ordinary(case, run) for run in runs)


def once(total: object) -> list:
    return [(n, n) for n in range(1, total + 1)]


def onwards(total: object) -> list:
    """Each call with all that follow it: of the first hundred, and of each seventh after them."""
    return [(n, 10**9) for n in range(1, total + 1) if n <= 100 or n % 7 == 0]


MEMORY = "fault: memory Memory"
FILE = "fault: file Device 1"


def test_case(host: object, pool: object, case: object) -> None:
    """Refuses each allocation and each call of a file of a case."""
    whole = host.run(case, report=True)
    check(
        f"{case.name}: its answer where nothing is refused",
        is_ordinary(case, whole),
        *whole.findings(),
    )
    if case.words[0] == "--save":
        check(
            f"{case.name}: each image is on the host's disk",
            whole.report[1].count("s") == len(case.ended),
            whole.report[1],
        )
    refuse_memory(host, pool, case, int(whole.report[0]))
    fail_files(host, pool, case, whole.report[1])


def test_shorter(host: Host, pool: ThreadPoolExecutor) -> None:
    """An image that is written over a longer one is cut, whichever call of a file fails."""
    case = shorter_case()
    whole = host.run(case, report=True)
    is_cut = is_ordinary(case, whole) and len(case.ended["SHORT"]) < len(case.files["SHORT"])
    check(f"{case.name}: its answer", is_cut, *whole.findings())
    fail_files(host, pool, case, whole.report[1])


def refuse_memory(host: object, pool: object, case: object, allocations: object) -> None:
    """Each allocation once, and then some with all that follow."""
    memory = lambda at, ended: judged(case, ended, MEMORY, 4, True)
    ordinary = refuse_each(host, pool, case, "memory", once(allocations), memory)
    count("allocations refused", allocations)
    count("  the program did without", ordinary)
    refuse_each(host, pool, case, "memory", onwards(allocations), memory)
    count("allocations refused with all that follow", len(onwards(allocations)))


def fail_files(host: object, pool: object, case: object, letters: object) -> None:
    """Each call of a file once, which the letters tell; and each read and write moves less than it was asked for."""
    # a failed read, write, sync or rename is reported; of the other calls a program may do without one
    needed = lambda at: letters[at[0] - 1] in "rwsn"
    files = lambda at, ended: judged(case, ended, FILE, 3, not needed(at))
    ordinary = refuse_each(host, pool, case, "file", once(len(letters)), files)
    for letter, what in {
        "r": "reads",
        "w": "writes",
        "s": "syncs",
        "n": "renames",
        "o": "opens",
    }.items():
        count(f"{what} failed", letters.count(letter))
    count("other calls of files failed", sum(letter not in "rwsno" for letter in letters))
    count("  the program did without one", ordinary)
    short = lambda at, ended: None if is_ordinary(case, ended) else "another answer"
    refuse_each(
        host,
        pool,
        case,
        "short",
        [item for item in once(len(letters)) if letters[item[0] - 1] in "rw"],
        short,
    )


# --- the logon desk ---


def test_desk(host: Host, pool: ThreadPoolExecutor) -> None:
    """The logon desk whose host refuses it each allocation, or fails each call of a file: it ends and says so, and of what it has
    decided it has written whole lines, in order."""
    lines = list(desk.some_lines(1, DESK_LINES))
    written = "".join(f"{line}\n" for answers in desk.answers(lines) for line in answers).encode()
    case = Case(
        "the logon desk",
        "logondesk",
        ["lines"],
        {"lines": "".join(f"{line}\n" for line in lines)},
        written,
    )
    whole = host.run(case, report=True)
    check(
        "the logon desk where nothing is refused",
        whole.status == 0 and whole.out == written,
        *whole.findings(),
    )
    allocations, letters = int(whole.report[0]), whole.report[1]
    cut = lambda at, ended: desk_fault(case, ended)
    refuse_each(host, pool, case, "memory", once(allocations), cut)
    refuse_each(host, pool, case, "memory", onwards(allocations), cut)
    refuse_each(host, pool, case, "file", once(len(letters)), cut)
    short = (
        lambda at, ended: None if (ended.status, ended.out) == (0, written) else "another answer"
    )
    refuse_each(
        host,
        pool,
        case,
        "short",
        [at for at in once(len(letters)) if letters[at[0] - 1] in "rw"],
        short,
    )
    count("allocations of the logon desk refused", allocations)


def desk_fault(case: Case, ended: Ended) -> str | None:
    """What is wrong with how the logon desk ended, or None."""
    if (ended.status, ended.out) == (0, case.findings):
        return None
    if ended.status == 0 or not ended.err:
        return "nothing is said of the failure"
    if not isinstance(ended.status, int) or ended.status < 0:
        return "it was ended by a signal"
    return None if case.findings.startswith(ended.out) else "it has written something else"


# --- states ---


def saved_after(host: Host, requests: bytes, further: bytes = b"") -> tuple[bytes, bytes]:
    """What a session that nothing interrupts answers to requests of which the last is SAVE or VIEW, and the state in it."""
    ended = host.run(follow_case("", requests, b"", further))
    assert ended.status == 0, ended.findings()
    place = ended.out.index(b"> STATE ")
    size, _, state = ended.out[place:].partition(b"\n")
    return ended.out[place:], state[: int(size.split()[2])]


def follow_case(name: str, requests: bytes, findings: bytes, further: bytes = b"") -> Case:
    """Users over their volumes who are given requests; further: more lines of their directory."""
    images = {serial: image_of(text) for serial, text in refused_states.VOLUMES.items()}
    files = {"directory": refused_states.DIRECTORY + further} | images
    words = [*refused_states.SIZES, "--follow", "directory", *images]
    return Case(name, "vm370", words, files, findings, given=requests + b"END\n")


def map_of_state(host: Host, state: bytes) -> Case:
    """The map of frames after a script from a state, which is that after the whole script."""
    files = follow_case("", b"", b"").files
    words = [*refused_states.SIZES, "directory", "script", *refused_states.VOLUMES]
    whole = files | {"script": refused_states.BEFORE + refused_states.AFTER}
    findings = host.run(Case("", "framemap", words, whole, b"")).out
    files |= {"state": state, "script": refused_states.AFTER}
    words = ["--state", "state", *words]
    return Case("framemap from a state", "framemap", words, files, findings)


def state_cases(host: Host) -> list[Case]:
    """A part from a state, the same with a state that is saved then, with that of one user, and a map from a state."""
    before, after = (
        refused_states.part(text) for text in (refused_states.BEFORE, refused_states.AFTER)
    )
    _, state = saved_after(host, before + b"SAVE\n")
    saved, _ = saved_after(host, before + after + b"SAVE\n")
    viewed, _ = saved_after(host, before + after + b"VIEW 1\n")
    requests = refused_states.begun_from(state) + after
    return [
        follow_case("a state", requests, refused_states.ANSWER),
        follow_case(
            "a state, and another one", requests + b"SAVE\n", refused_states.ANSWER + saved
        ),
        follow_case(
            "a state, and that of a user", requests + b"VIEW 1\n", refused_states.ANSWER + viewed
        ),
        longer_case(host, state, after),
        map_of_state(host, state),
    ]


def longer_case(host: Host, state: bytes, after: bytes) -> Case:
    """A part from a state with a further user, who comes then."""
    _, booted = saved_after(host, b"SAVE\n", refused_states.FURTHER)
    longer = grown(PlacedState(state), PlacedState(booted))
    requests = refused_states.begun_from(longer) + after + refused_states.part(refused_states.COMES)
    findings = refused_states.ANSWER + refused_states.COMES_ANSWER
    return follow_case("a state with a user more", requests, findings, refused_states.FURTHER)


def spread(total: int, most: int) -> list[tuple[int, int]]:
    """Each call, or so many of them, the first and the last among them."""
    if total <= most:
        return once(total)
    numbers = {1 + place * (total - 1) // (most - 1) for place in range(most)}
    return [(number, number) for number in sorted(numbers)]


def test_states(host: Host, pool: ThreadPoolExecutor) -> None:
    """Allocations of programs that go on from a state are refused. Memory that is refused is no state that is refused."""
    memory = lambda at, ended: judged(case, ended, MEMORY, 4, True)
    for case in state_cases(host):
        whole = host.run(case, report=True)
        check(f"{case.name}: its answer", is_ordinary(case, whole), *whole.findings())
        numbers = spread(int(whole.report[0]), MOST_REFUSED)
        ordinary = refuse_each(host, pool, case, "memory", numbers, memory)
        count("allocations of states refused", len(numbers))
        count("  the program did without", ordinary)


class StateCommand:
    """What bin/vm370 with states runs, over a program whose host alone refuses something."""

    def __init__(self, host: Host) -> None:
        self.host = host
        self.room = tempfile.mkdtemp(dir=host.work)
        self.files = follow_case("", b"", b"").files
        texts = {"before": refused_states.BEFORE, "after": refused_states.AFTER}
        for name, data in (self.files | texts | {"program": REFUSED_PROGRAM}).items():
            write(f"{self.room}/{name}", data)
        os.chmod(f"{self.room}/program", 0o755)

    def run(self, refuse: str, *words: str) -> Ended:
        """How it ended with these words before the volumes."""
        variables = {"LIBRARY": self.host.library, "REFUSED": refuse}
        variables |= {"PROGRAM": self.host.program}
        variables |= {} if refuse else {"REFUSE_REPORT": f"{self.room}/report"}
        command = [
            sys.executable,
            "-B",
            f"{TOP}/bin/lib/run.py",
            "state_runs",
            "vm370",
            "./program",
        ]
        how = {"cwd": self.room, "env": os.environ | variables, "capture_output": True}
        words = [*command, *refused_states.SIZES, *words, *refused_states.VOLUMES]
        return Ended(subprocess.run(words, stdin=subprocess.DEVNULL, timeout=SECONDS, **how))


def test_state_command(host: Host, pool: ThreadPoolExecutor) -> None:
    """bin/vm370 --state reports that its program is refused memory, and not that it refuses the state."""
    command, wanted = StateCommand(host), refused_states.TRANSCRIPT
    saved = command.run("", "--save-state", "state", "directory", "before")
    check("bin/vm370 saves a state", saved.status == 0, *saved.findings())
    words = ["--state", "state", "directory", "after"]
    whole = command.run("", *words)
    holds = (whole.status, whole.out, whole.err) == (0, wanted, b"")
    check("bin/vm370 --state", holds, *whole.findings())
    numbers = spread(int(read(f"{command.room}/report").split()[0]), MOST_COMMANDS)
    fault = (4, f"{MEMORY}\n".encode())
    for ended in pool.map(lambda at: command.run(f"memory:{at[0]}:{at[1]}", *words), numbers):
        is_told = (ended.status, ended.err) == fault and wanted.startswith(ended.out)
        is_whole = (ended.status, ended.out, ended.err) == (0, wanted, b"")
        check("bin/vm370 --state without memory", is_told or is_whole, *ended.findings())
    count("allocations of bin/vm370 --state refused", len(numbers))


# --- files that are cut ---


def test_cut_images(host: object, pool: object) -> None:
    """The image of one blank cylinder, and one with records, cut to each length from 0 to its end, and with one byte more."""
    blank = b"VOLUME V1 1\n"
    texts = [blank, blank + b"REC 0 0 0000000001 - C1C2\nREC 0 18 0000001201 C3 C4C5C6\n"]
    users = {"directory": b"USER A PW 8K\n", "script": b""}
    for text, version in [(text, version) for text in texts for version in (1, 2)]:
        whole = image_of(text, version)
        for part, words in [
            ("trackmap", ["image"]),
            ("vm370", ["directory", "script", "image"]),
        ]:
            lengths = range(len(whole) + 2)
            cut = lambda at: Case("", part, words, users | {"image": (whole + b"\0")[:at]}, b"")
            ends = list(pool.map(lambda at: host.run(cut(at)), lengths))
            wanted = [(1, b"fault: image Truncated\n")] * len(whole) + [
                (0, b""),
                (1, b"fault: image Trailing\n"),
            ]
            wrong = [at for at in lengths if (ends[at].status, ends[at].err) != wanted[at]]
            wrong += [at for at in lengths if ends[at].status and ends[at].out]
            name = f"{part} of an image of version {version} with {len(whole)} bytes"
            check(
                f"{name}, cut",
                not wrong,
                f"at {wrong[:9]}",
                *(ends[wrong[0]].findings() if wrong else []),
            )
            count("images that were cut", len(whole))


class Directory:
    """What docs/FORMATS.md says of a directory, line by line; `fault` is the first that is refused, with its numbers."""

    OPERANDS = {
        b"USER": rb"(?!SYSTEM )[A-Z][A-Z0-9]{0,7} [A-Z0-9]{1,8} [1-9][0-9]*[KM]",
        b"CONSOLE": rb"[0-5][0-9A-F]{2} 3215",
        b"SPOOL": rb"[0-5][0-9A-F]{2} (READER|PUNCH|PRINTER)",
        b"MDISK": rb"[0-5][0-9A-F]{2} 3330 [0-9]{1,4} [0-9]{1,4} [A-Z0-9]{1,6} [RW]",
    }

    def __init__(self, text: str) -> None:
        self.users, self.devices, self.kinds, self.extents = [], [], [], []
        self.fault = None
        for number, line in enumerate(text.split(b"\n"), 1):
            words = [part for part in line.split(b" ") if part]
            if words and not line.startswith(b"*") and (name := self.fault_of(number, *words)):
                self.fault = f"{name} {number}"
                return

    def fault_of(self, number: int, statement: object, *operands: object) -> object:
        if statement not in self.OPERANDS:
            return "UnknownStatement"
        if not re.fullmatch(self.OPERANDS[statement], b" ".join(operands)):
            return "Syntax"
        if statement == b"USER":
            return self.user(*operands)
        return self.device(number, statement, *operands) if self.users else "Syntax"

    def user(self, name: str, _: int, storage: object) -> str | None:
        size = int(storage[:-1]) * (1024 if storage.endswith(b"M") else 1)
        if name in self.users:
            return "DuplicateUser"
        if size % 4 or not 8 <= size <= 4096:
            return "BadStorage"
        if len(self.users) == 64:
            return "TooMany"
        self.users.append(name)
        self.devices, self.kinds = [], []
        return None

    def device(self, number: int, statement: object, address: int, *rest: object) -> str | None:
        kind = {b"CONSOLE": b"CONSOLE", b"SPOOL": rest[0]}.get(statement)
        if address in self.devices:
            return "DuplicateDevice"
        if statement == b"MDISK":
            start, size, volume, mode = int(rest[1]), int(rest[2]), rest[3], rest[4]
            if size == 0 or start + size > 808:
                return "BadExtent"
            for line, of, first, end, other in self.extents:
                if (
                    of == volume
                    and first < start + size
                    and start < end
                    and (mode, other) != (b"R", b"R")
                ):
                    return f"Overlap {line}"
            self.extents.append((number, volume, start, start + size, mode))
        if len(self.devices) == 32 or kind is not None and kind in self.kinds:
            return "TooMany"
        self.devices.append(address)
        self.kinds.append(kind)
        return None


DIRECTORIES = [
    b"USER A P 8K\nMDISK 191 3330 000 005 VOL1 W\nUSER B P 8K\nMDISK 191 3330 %s 005 VOL1 W\n"
    % item
    for item in (b"004", b"005")
]
DIRECTORIES.append(
    b"""* the operator, and a guest
USER OPER SECRET 64K
CONSOLE 009 3215
SPOOL 00C READER
MDISK 190 3330 000 005 VOL1 R
USER GUEST X 1M
MDISK 190 3330 000 005 VOL1 R
 SPOOL  00E PRINTER
MDISK 191 3330 05 5 VOL1 W
USER OPER X 8K
"""
)


def test_cut_directories(host: object, pool: object) -> None:
    """Directories cut after each byte, over a volume of ten cylinders and an empty script."""
    volume = {"script": b"", "VOL1": image_of(b"VOLUME VOL1 10\n")}
    for text in DIRECTORIES:
        cuts = [text[:at] for at in range(len(text) + 1)]
        cut = lambda item: Case(
            "", "vm370", ["directory", "script", "VOL1"], volume | {"directory": item}, b""
        )
        ends = list(pool.map(lambda item: host.run(cut(item)), cuts))
        faults = [Directory(cut).fault for cut in cuts]
        wanted = [
            (1, b"", f"fault: directory {fault}\n".encode()) if fault else (0, b"", b"")
            for fault in faults
        ]
        wrong = [
            at for at, item in enumerate(ends) if (item.status, item.out, item.err) != wanted[at]
        ]
        findings = [
            f"{cuts[at][-40:]}: {wanted[at]}, but {ends[at].findings()}" for at in wrong[:3]
        ]
        check(f"a directory with {len(text)} bytes, cut, {len(wrong)} wrong", not wrong, *findings)
        count("directories that were cut", len(cuts))


def main() -> int:
    words = sys.argv[1:]
    built = os.path.abspath(words[1]) if words[:1] == ["--programs"] else f"{TOP}/crates"
    program = f"{built}/gathjumli_cli/out/gathjumli_cli"
    if not os.path.isfile(program):
        print(f"FAILED: {program} is not built")
        return 1
    work = tempfile.mkdtemp()
    try:
        library = f"{work}/refusing.so"
        try:
            subprocess.run(
                ["gcc", "-O1", "-shared", "-fPIC", "-o", library, SOURCE, "-ldl"], check=True
            )
        except (OSError, subprocess.CalledProcessError):
            print("FAILED: no gcc that can build tests/refusals/refusing.c")
            return 1
        os.mkdir(f"{work}/runs")
        shutil.copyfile(program, f"{work}/program")
        os.chmod(f"{work}/program", 0o755)
        host = Host(f"{work}/program", library, f"{work}/runs")
        with ThreadPoolExecutor(4) as pool:
            for case in cases():
                test_case(host, pool, case)
            test_shorter(host, pool)
            test_desk(host, pool)
            test_states(host, pool)
            test_state_command(host, pool)
            test_cut_images(host, pool)
            test_cut_directories(host, pool)
    finally:
        shutil.rmtree(work)
    for what, number in counts.items():
        print(f"{what}: {number}")
    return totals.report()


sys.exit(main())
