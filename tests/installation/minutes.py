#!/usr/bin/env python3
"""Tries an installation for minutes, over the programs that are built, with many people, kills and hostile clients; what takes seconds
tests/commands/people.py has. tests/installation/minutes.py [--seconds N] [--kills N] [--lines N] [PART]...; the parts are telnet, load,
kills, ends, hostile, connections, mute, endless and listing. Prints figures (docs/BENCHMARK.md), and last 'N passed, M failed'."""
from __future__ import annotations

from collections.abc import Iterator
from typing import TYPE_CHECKING
import asyncio
import collections
import concurrent.futures
import contextlib
import os
import random
import re
import shutil
import socket
import subprocess
import sys
import tempfile
import threading
import time

sys.dont_write_bytecode = True
TOP = os.path.dirname(os.path.dirname(os.path.dirname(os.path.realpath(__file__))))
sys.path[:0] = [TOP, f"{TOP}/bin/lib"]

from gathjumli.cli import last, number, read_arguments
from gathjumli.recording import entries_of
from tests.installation.town import COUNTS, Town
from tests.lib.counting import Counts
from tests.lib.figures import hundredths, notify
from tests.lib.files import read, write
from tests.lib.images import blank_image
from tests.lib.parts import do_parts, parts_of
from tests.lib.places import PROGRAM
from tests.lib.sites import (
    BANNER,
    Person,
    person,
    printing_for_ever,
    processor_ticks,
    replayed,
    sizes_of,
)

if TYPE_CHECKING:
    from tests.lib.desk import Account, Place

# adds one to register 1 for ever
COMPUTES = "STORE 100 4111000147F00100"
# the time of the lines that follow, as one who appears back sees it
TIME = re.compile(r"-- [0-9: -]{16} UTC")

totals = Counts()
check = totals.check


def replays(town: object) -> tuple:
    """What appears of the recording as a whole, and what each user's machine of its own is to be given, side by side."""
    begun = time.monotonic()
    with concurrent.futures.ThreadPoolExecutor(1) as next_to:
        scripts = next_to.submit(bare_scripts, town)
        done, shown = replayed(PROGRAM, town.paths[0], town.record)
        scripts = scripts.result()
    notify(f"replays, as a whole and part by part: {time.monotonic() - begun:.1f} s")
    return done, shown, scripts


def check_replay(town: object, seen: dict, found: object) -> None:
    """The recording replays to what each was shown; and his part is that of a machine of his own."""
    shown = check_machines(town, found)
    for user, connections in seen.items():
        check_seen(user, connections, shown.get(user, []))


def check_machines(town: object, found: object) -> object:
    """The recording replays, and each user's part is that of a machine of his own; what each was shown."""
    done, shown, scripts = found
    check("the recording replays", done.returncode == 0, done.stderr)
    check_bare(town, shown, scripts)
    return shown


def check_seen(user: Account, connections: object, lines: list) -> None:
    """What was shown at each connection is a piece of what the replay shows, each after the one before, without a gap."""
    place = 0
    for shown in connections:
        shown = [
            item
            for item in shown
            if item not in (BANNER, "RECONNECTED", "GATHJUMLI GOES DOWN")
            and not TIME.fullmatch(item)
        ]
        # what one sees again who appears back has also what he typed
        starts = range(max(0, place - 24), place + 1)
        found = next(
            (start for start in starts if lines[start : start + len(shown)] == shown), None
        )
        if found is None:
            check(
                f"{user} saw what the replay shows", False, f"{place} of {len(lines)}", *shown[:5]
            )
            return
        place = max(place, found + len(shown))
    check(f"{user} saw what the replay shows", True)


def check_bare(town: object, shown: object, scripts: object) -> None:
    """Each user's lines are those of a machine of his own that is given his events."""
    begun, compared = time.monotonic(), 0
    with concurrent.futures.ThreadPoolExecutor(os.cpu_count()) as pool:
        ran = pool.map(lambda user: run_bare(town, user, scripts.lines[user]), scripts.lines)
        for user, (done, lines) in zip(scripts.lines, ran):
            # what he sends himself goes to another name there
            wanted = [item.replace(user, "BARE") for item in shown.get(user, [])]
            check(
                f"{user} is a machine of his own",
                done.returncode == 0 and lines == wanted,
                done.stderr,
                *lines[-3:],
            )
            compared += len(lines)
    notify(f"{len(scripts.lines)} machines of their own: {time.monotonic() - begun:.1f} s, {scripts.granted / 1e6:.0f} million units, "
         f"{compared} lines compared")  # fmt: skip


def run_bare(town: object, user: Account, script: str) -> tuple:
    """A machine of its own that is given a script, and the lines that it shows."""
    path = f"{town.folder}/bare-{user}"
    write(path, b"".join(script))
    words, lines, is_over = [PROGRAM, "bare370", "--", "64K", path], [], False
    with tempfile.TemporaryFile() as errors, subprocess.Popen(
        words, stdout=subprocess.PIPE, stderr=errors
    ) as run:
        for line in run.stdout:
            is_over = is_over or line.startswith(b"== ")
            if not is_over and line.startswith(b"BARE: "):
                # each line is kept once: a guest that prints for ever has ten minutes of them
                lines.append(sys.intern(line[6:].decode("latin-1").removesuffix("\n")))
        status = run.wait()
        errors.seek(0)
        done = subprocess.CompletedProcess(words, status, stderr=errors.read())
    os.unlink(path)
    return done, lines


class BareScripts:
    """Of each user the events of his machine, as a script of a machine of its own. Slices that go on are one run."""

    def __init__(self) -> None:
        self.lines = collections.defaultdict(list)
        self.units = collections.Counter()
        self.granted = 0

    def add(self, entry: object, findings: object) -> None:
        """Adds an entry of the recording, of which the program has reported this."""
        word, user, *rest = entry.split(b" ", 2)
        if word in (b"LINE", b"TICK", b"DECK"):
            user = user.strip()
            typed = [item.replace(user, b"BARE") for item in rest]
            self.put(
                user.decode(), b" ".join([word, b"BARE", *typed]) if rest else word + b" BARE\n"
            )
            return
        slices, *served = SERVED.split(findings) if b" SERVED " in findings else [findings]
        self.add_slices(slices)
        for user, device, slices in zip(served[::3], served[1::3], served[2::3]):
            self.put(user.decode(), b"SERVE BARE %s\n" % device)
            self.add_slices(slices)

    def add_slices(self, findings: object) -> None:
        for line, count in counted(findings).items():
            if ran := SLICE.fullmatch(line):
                # one that ended by itself was granted more
                self.units[ran[1].decode()] += count * (int(ran[2]) + (ran[3] != b"COUNT"))

    def put(self, user: Account, line: bytes) -> None:
        self.settle(user)
        self.lines[user].append(line)

    def settle(self, user: Account) -> None:
        left = self.units.pop(user, 0)
        self.granted += left
        while left:
            some = min(1000000, left)
            self.lines[user].append(b"RUN BARE %d\n" % some)
            left -= some


SERVED = re.compile(rb"^= (U\d\d) SERVED ([0-9A-F]{3})\n", re.M)
SLICE = re.compile(rb"= (U\d\d) (\d+) ([A-Z]+)")


def counted(text: str) -> object:
    """How often each line is there. Those who take turns have the same few again and again, which is seen without a look at each."""
    first = text[: text.find(b"\n") + 1]
    around = text[: text.find(b"\n" + first) + 1]
    times = len(text) // len(around) if around else 0
    if not text.startswith(around * times):
        times = 0
    counts = collections.Counter(text[times * len(around) :].split(b"\n"))
    for line, count in collections.Counter(around.split(b"\n")[:-1]).items():
        counts[line] += times * count
    return counts


def bare_scripts(town: object) -> object:
    """What each user's machine of its own is to be given. Minutes of computing are reported in gigabytes, of which a part is here at
    once."""
    scripts = BareScripts()
    words = [PROGRAM, "vm370", *sizes_of(town.record), "--follow", "--", town.paths[0]]
    with subprocess.Popen(words, stdin=subprocess.PIPE, stdout=subprocess.PIPE) as program:
        threading.Thread(target=feed, args=(program.stdin, town.record), daemon=True).start()
        findings = pieces(program.stdout, b"> DONE\n")
        for entry in entries_in(town.record):
            scripts.add(entry, next(findings, b""))
        # after the last part come the files of the session
        collections.deque(findings, maxlen=0)
    if program.returncode:
        raise AssertionError("the program does not take the recording part by part")
    for user in list(scripts.units):
        scripts.settle(user)
    return scripts


def entries_in(record: object) -> Iterator:
    with open(record, "rb") as file:
        yield from (item for item in entries_of(file) if not item.startswith(b"*"))


def feed(stream: object, record: object) -> None:
    """Gives a program the entries of a recording part by part. Why it ends before that its status says."""
    with contextlib.suppress(BrokenPipeError), stream:
        for item in entries_in(record):
            stream.write(b"%d\n%s" % (len(item), item))


def pieces(stream: object, mark: object) -> Iterator:
    """What is in a stream before each mark."""
    left = b""
    while data := stream.read(1 << 20):
        *whole, left = (left + data).split(mark)
        yield from whole


# --- the parts; each is given a folder and the numbers of the words ---


def part_telnet(folder: str, options: object) -> None:
    """Debian's telnet, with a person's own terminal (tmux), and nc."""
    if not all(map(shutil.which, ("telnet", "nc", "tmux"))):
        notify("no telnet, nc or tmux: they were not tried")
        return
    town = Town(f"{folder}/telnet", 2).online()
    name = f"installation-{os.getpid()}"

    def tmux(*words: object) -> object:
        return subprocess.run(["tmux", "-L", name, *words], capture_output=True, text=True).stdout

    def type_and_await(text: str, wanted: object) -> object:
        tmux("send-keys", "-t", "0", text, "Enter")
        return await_shown(wanted)

    def await_shown(wanted: object) -> object:
        until = time.monotonic() + 20
        while (
            wanted not in (shown := tmux("capture-pane", "-p", "-t", "0"))
            and time.monotonic() < until
        ):
            time.sleep(0.1)
        check(f"telnet shows {wanted}", wanted in shown, shown)
        return shown

    tmux("new-session", "-d", "-x", "100", "-y", "40", f"telnet {town.where[0]} {town.where[1]}")
    await_shown(BANNER)
    type_and_await("logon u00", "ENTER PASSWORD:")
    check("a password is not shown", "pw00" not in type_and_await("pw00", "LOGON OK"))
    tmux("send-keys", "-t", "0", COMPUTES, "Enter")
    type_and_await("BEGIN 100", "STORED")
    tmux("send-keys", "-t", "0", "C-]")
    await_shown("telnet>")
    tmux("send-keys", "-t", "0", "send brk", "Enter")
    type_and_await("DISPLAY G1", "GPR 1 = ")
    tmux("kill-server")
    given = "LOGON U00 PW00\nMSG U00 HELLO\n#CP LOGOFF\n".encode()
    done = subprocess.run(
        ["nc", "-q", "20", *map(str, town.where)], input=given, capture_output=True, timeout=60
    )
    lines = done.stdout.decode().splitlines()
    holds = (
        lines[1] == "RECONNECTED"
        and lines[-3:] == ["SENT", "MSG FROM U00: HELLO", "LOGOFF OK"]
        and "DISPLAY G1" in lines
    )
    check("nc takes the terminal up again", holds, *lines)
    check("it is suspended", town.stop() == 0)
    done, _ = replayed(PROGRAM, town.paths[0], town.record)
    check("the recording replays", done.returncode == 0, done.stderr)


def part_load(folder: str, options: object) -> None:
    """64 people at guests that compute, each of whom types every few seconds."""
    town = Town(f"{folder}/load", 64).online()
    took, seen = [], {}

    async def live(user: Account, place: Place, until: object, everybody: object) -> object:
        one = await town.on(user)
        seen[user] = [one.lines]
        one.type(COMPUTES)
        await one.until("STORED")
        one.type("BEGIN 100")
        everybody.append(user)
        while len(everybody) < len(town.users):
            await asyncio.sleep(0.1)
        chance = random.Random(place)
        while time.monotonic() < until:
            await asyncio.sleep(chance.uniform(1.5, 6))
            begun = time.monotonic()
            # it stops the machine
            one.type("#CP DISPLAY G1")
            while not (await one.line()).startswith("GPR 1 = "):
                pass
            took.append(time.monotonic() - begun)
            one.type("BEGIN")
        one.type("#CP", "DISPLAY G1")
        while not (await one.line()).startswith("GPR 1 = "):
            pass
        return one

    async def all_live() -> None:
        until = time.monotonic() + 10 + options["seconds"]
        everybody = []
        people = await asyncio.gather(
            *(live(user, place, until, everybody) for place, user in enumerate(town.users))
        )
        await asyncio.sleep(1)
        before = processor_ticks(town)
        await asyncio.sleep(10)
        ticks = processor_ticks(town) - before
        check("no processor time where all wait", ticks <= 1, f"{ticks} ticks of the host")
        notify(f"load: {len(took)} lines of 64 people in {options['seconds']} s: {hundredths(took)}; "
             f"{ticks} ticks in 10 s where all wait; {town.told_memory()}")  # fmt: skip
        for one in people:
            one.go()

    asyncio.run(all_live())
    town.operate("status")
    town.await_message("a start that goes on")
    town.await_message("printouts: ")
    notify(f"load: {re.search('(the last|no) state.*', town.since_start())[0]}")
    notify(
        f"load: {re.search('a start that.*', town.since_start())[0]}; the recording has {os.path.getsize(town.record)} bytes"
    )
    check("it is suspended", town.stop() == 0)
    with concurrent.futures.ThreadPoolExecutor(1) as next_to:
        found = next_to.submit(replays, town)
        begun = time.monotonic()
        town.online()
        notify(
            f"load: a start that goes on takes {time.monotonic() - begun:.1f} s, next to two replays"
        )
        check("and is suspended again", town.stop() == 0)
        found = found.result()
    check_replay(town, seen, found)


def part_kills(folder: str, options: object) -> None:
    """Kills at random moments, each other one of the program too, each fifth with a torn end, next to six people whose guests
    count; a state is saved after each second of computing."""
    town = Town(f"{folder}/kills", 6, "--state-every", "1").online()
    chance = random.Random(7)
    seen = {user: [] for user in town.users}
    counts = dict.fromkeys(town.users, 0)
    back = []

    async def live(user: Account, stop: object) -> None:
        while not stop.is_set():
            try:
                one = await person(town.where)
                seen[user].append(one.lines)
                await stay(one, user, stop)
            except (OSError, EOFError, asyncio.TimeoutError, AttributeError):
                await asyncio.sleep(0.05)

    async def stay(one: object, user: Account, stop: object) -> None:
        if await one.logon(user, f"PW{user[1:]}") == "RECONNECTED":
            back.append(user)
        if not counts[user]:
            one.type(COUNTS)
        while not stop.is_set():
            counts[user] += 1
            one.type(
                f"#CP STORE G5 {counts[user]:08X}",
                "#CP STORE G2 00010000",
                "#CP DISPLAY G5",
                "#CP BEGIN 100",
            )
            await one.until(f"GPR 5 = {counts[user]:08X}")
            await asyncio.sleep(chance.uniform(0, 0.1))
        one.go()

    async def all_live() -> object:
        stop = asyncio.Event()
        tasks = [asyncio.create_task(live(user, stop)) for user in town.users]
        await asyncio.sleep(3)
        took = []
        for round in range(options["kills"]):
            await asyncio.sleep(chance.uniform(0.1, 1.5))
            town.kill(is_all=round % 2 == 1)
            before = read(town.record)
            if round % 5 == 4:
                write(
                    town.record, before + (b"LINE U00 DISP" if round % 2 else b"DECK U00 3\nA\nB\n")
                )
            begun, had = time.monotonic(), len(back)
            await asyncio.get_running_loop().run_in_executor(None, town.online)
            await asyncio.sleep(0.2)
            for _ in range(600):
                if len(back) >= had + len(town.users):
                    break
                await asyncio.sleep(0.05)
            took.append(time.monotonic() - begun)
            check("a recording goes on", read(town.record).startswith(before), f"round {round}")
        await asyncio.sleep(1)
        stop.set()
        await asyncio.wait(tasks, timeout=60)
        return took

    took = asyncio.run(all_live())
    check("it is suspended", town.stop() == 0)
    lines = sum(len(connection) for connections in seen.values() for connection in connections)
    connections = sum(map(len, seen.values()))
    count = read(town.record).count(b"\n* STATE ")
    check("states were saved", count > 0)
    notify(f"kills: {count} states were saved")
    notify(f"kills: {options['kills']}, {connections} connections, {lines} lines seen; seconds until six people were back: "
         f"{min(took):.1f} to {max(took):.1f}; the recording has {os.path.getsize(town.record)} bytes")  # fmt: skip
    shown = check_machines(town, replays(town))
    typed = typed_in(town.record)
    for user, connections in seen.items():
        check_pieces(user, connections, shown.get(user, []), typed.get(user, set()))


def typed_in(record: object) -> object:
    """What each user has typed."""
    found = {}
    for user, text in re.findall(r"^LINE (\S+) (.*)$", read(record).decode("latin-1"), re.M):
        found.setdefault(user, set()).add(text)
    return found


def check_pieces(user: Account, connections: object, lines: list, typed: object) -> None:
    """Each connection shows a piece of what the replay shows, the next begins no later than where it ended. What one who appears
    back sees has what he typed between."""
    place = 0
    for shown in connections:
        shown = [
            item
            for item in shown
            if item not in (BANNER, "RECONNECTED")
            and not TIME.fullmatch(item)
            and (item not in typed or item in lines)
        ]
        found = next(
            (
                number
                for number in range(max(0, place - 24), place + 1)
                if lines[number : number + len(shown)] == shown
            ),
            None,
        )
        if found is None:
            check(
                f"nothing that {user} saw is missing",
                False,
                f"{place} of {len(lines)}",
                *shown[:3],
                "..",
                *shown[-3:],
            )
            return
        place = max(place, found + len(shown))
    check(f"nothing that {user} saw is missing", True)


def part_ends(folder: str, options: object) -> None:
    """Kills in the midst of an end, of which half keep the machines: after the next start all volumes are as they were and the
    session goes on, or all are saved and the recording is set aside. Machines that are kept are there in both cases.
    """
    old = [blank_image(name, 1) for name in ("V1", "V2", "V3")]
    chance, saved, kept = random.Random(5), 0, 0
    town = Town(f"{folder}/ends", 1)
    town.paths += [f"{folder}/ends/{number}" for number in range(len(old))]
    for round in range(options["kills"]):
        for path, data in zip(town.paths[1:], old):
            write(path, data)
        town.online()
        asyncio.run(leave_a_mark(town, round))
        is_keeping = round // 2 % 2 == 1
        town.operate("end now" if is_keeping else "end logoff now")
        time.sleep(chance.uniform(0, 0.05))
        town.kill(is_all=round % 2 == 1)
        town.online()
        are_old = [read(item) == data for item, data in zip(town.paths[1:], old)]
        check(
            "all volumes are saved, or none is",
            len(set(are_old)) == 1,
            f"round {round}",
            *map(str, are_old),
        )
        is_set_aside = "U00" not in read(town.record).decode("latin-1").partition("* BEGUN")[2]
        check("and the recording stands with them", is_set_aside != are_old[0], f"round {round}")
        if is_keeping or are_old[0]:
            value = asyncio.run(marked(town))
            check("and the machines", value == f"GPR 1 = {round:08X}", f"round {round}", value)
        saved, kept = saved + (not are_old[0]), kept + are_old[0]
        town.operate("end logoff now")
        check("it ends", town.ended() == 0, *town.findings)
        for entry in os.listdir(town.folder):
            if entry.startswith("recording.2"):
                shutil.rmtree(f"{town.folder}/{entry}")
    notify(
        f"ends: {saved + kept} kills in the midst of an end; {saved} times all was saved then, {kept} times the session went on"
    )


async def marked(town: object) -> str:
    """What the register has that was stored before."""
    one = await town.on("U00")
    one.type("DISPLAY G1")
    while not (line := await one.line()).startswith("GPR 1 = "):
        pass
    one.go()
    return line


async def leave_a_mark(town: object, round: object) -> None:
    one = await town.on("U00")
    one.type(f"STORE G1 {round:08X}")
    await one.until("STORED")
    one.go()


class Honest:
    """Two people who type all the time, next to whom others are hostile."""

    def __init__(self, town: object) -> None:
        self.town = town
        self.seen = {}
        self.worst = 0
        self.took = []
        self.is_over = False

    async def live(self, user: Account) -> None:
        one = await self.town.on(user)
        self.seen[user] = [one.lines]
        count = 0
        while not self.is_over:
            count += 1
            begun = time.monotonic()
            one.type(f"STORE G5 {count:08X}", "DISPLAY G5")
            await one.until(f"GPR 5 = {count:08X}")
            self.took.append(time.monotonic() - begun)
            self.worst = max(self.worst, self.took[-1])
            await asyncio.sleep(0.05)
        one.go()


async def half_lines(town: object) -> str:
    people = [await person(town.where) for _ in range(10)]
    for entry in people:
        entry.writer.write(b"LOGON U0")
    shown = await asyncio.gather(*(asyncio.wait_for(person.reader.read(), 90) for person in people))
    check("half a line is too late", all(item.endswith(b"\r\nTOO LATE\r\n") for item in shown))
    return f"{len(people)} half lines"


async def long_line(town: object, user: Account) -> str:
    one = await (town.on(user) if user else person(town.where))
    for _ in range(160):
        one.writer.write(b"x" * 65536)
        await one.writer.drain()
    one.writer.write(b"\n")
    await one.until("TYPE LOGON NAME, AND THEN THE PASSWORD" if not user else "UNKNOWN COMMAND")
    one.go()
    return f"10 MB without a line feed, {user or 'a stranger'}"


async def all_bytes(town: object) -> str:
    one = await town.on("U02")
    one.writer.write(
        b"#CP MSG U02 "
        + bytes(range(256))
        + b"\r\n"
        + b"\xff\xfa\x18\x00abc\xff\xf0#CP MSG U02 AB\xff\xffCD\r\n"
    )
    one.writer.write(
        b"\xff\xfd\x01\xff\xfb\x1f\xff\xf4\xff\xf3" + random.Random(3).randbytes(200000)
    )
    await asyncio.sleep(3)
    one.go()
    return "all bytes, telnet's own, 200 KB of noise"


async def drops(town: object) -> str:
    for _ in range(50):
        one = await town.on("U03")
        one.type(*["#CP DISPLAY 0"] * 8)
        await asyncio.sleep(0.02)
        one.writer.get_extra_info("socket").setsockopt(
            socket.SOL_SOCKET, socket.SO_LINGER, b"\1\0\0\0\0\0\0\0"
        )
        one.go()
    return "50 resets in the midst of output"


async def mute(town: object) -> str:
    """One who asks for more than he reads."""
    one = await town.on("U02")
    one.writer.transport.pause_reading()
    sent, until = 0, time.monotonic() + 40
    try:
        while time.monotonic() < until:
            one.type(*["#CP DISPLAY 0"] * 200)
            sent += 200
            await asyncio.wait_for(one.writer.drain(), 10)
            await asyncio.sleep(0)
    except (ConnectionError, asyncio.TimeoutError):
        pass
    one.go()
    return f"a reader that never reads, {sent} lines"


async def mute_guest(town: object) -> str:
    """One whose guest prints without end, and who does not read: he is closed, and his machine goes on."""
    one = await town.on("U03")
    one.type("#CP SYSTEM RESET", *printing_for_ever("009"))
    await one.until("STORED")
    one.writer.transport.pause_reading()
    is_reported = await asyncio.get_running_loop().run_in_executor(
        None, town.await_message, "U03 does not read: closed", 300
    )
    check("one who does not read is closed", is_reported)
    one.go()
    again = await town.on("U03")
    check("and comes back to his machine", "RECONNECTED" in again.lines, *again.lines)
    again.type("#CP LOGOFF")
    await again.until("LOGOFF OK")
    return "a guest that prints without end to one who does not read"


async def guesses(town: object) -> str:
    """Many who guess the password of one user, who himself logs on next to them."""
    begun, tried = time.monotonic(), 0

    async def guess() -> None:
        nonlocal tried
        one = await person(town.where)
        one.type(*["LOGON U04 WRONG"] * 3)
        shown = await one.rest()
        tried += shown.count("LOGON REFUSED")

    tasks = [asyncio.create_task(guess()) for _ in range(60)]
    await asyncio.sleep(2)
    asked = time.monotonic()
    one = await person(town.where)
    answer = await one.logon("U04", "PW04")
    took = time.monotonic() - asked
    check(
        "a right password is let in next to guesses",
        answer == "LOGON OK" and took < 6,
        answer,
        f"{took:.1f} s",
    )
    one.go()
    await asyncio.wait(tasks, timeout=30)
    return f"60 guess at one name, {tried} guesses in {time.monotonic() - begun:.0f} s, its user is on after {took:.1f} s"


async def thousand(town: object) -> str:
    people = []
    for _ in range(1000):
        try:
            people.append(await asyncio.wait_for(Person(town.where).come(), 5))
        except (OSError, asyncio.TimeoutError):
            pass
    begun = time.monotonic()
    one = await town.on("U05")
    took = time.monotonic() - begun
    check("one logs on next to them", one.lines[-1] in ("LOGON OK", "RECONNECTED"), *one.lines)
    for item in [one, *people]:
        item.go()
    return f"{len(people)} connections, a logon next to them takes {1000 * took:.0f} ms"


def beside_honest(folder: str, name: str, phases: object) -> None:
    """Has hostile people come one after another next to two honest ones."""
    town = Town(f"{folder}/{name}", 6).online()
    honest = Honest(town)

    async def tried() -> None:
        tasks = [asyncio.create_task(honest.live(name)) for name in ("U00", "U01")]
        await asyncio.sleep(2)
        for phase in phases:
            honest.worst = 0
            begun = time.monotonic()
            findings = await phase(town)
            await asyncio.sleep(0.3)
            notify(f"{name}: {findings}; {time.monotonic() - begun:.1f} s, the honest wait {1000 * honest.worst:.0f} ms at most; "
                 f"{town.told_memory()}")  # fmt: skip
        honest.is_over = True
        await asyncio.gather(*tasks)

    asyncio.run(tried())
    check("it is suspended", town.stop() == 0, *town.findings)
    check_replay(town, honest.seen, replays(town))


def part_hostile(folder: str, options: object) -> None:
    long_lines = [lambda town, item=item: long_line(town, item) for item in (None, "U02")]
    beside_honest(
        folder, "hostile", [half_lines, *long_lines, all_bytes, drops, mute, mute_guest, guesses]
    )


def part_connections(folder: str, options: object) -> None:
    beside_honest(folder, "connections", [thousand, thousand])


# makes a channel program of so many lines of 120 characters, has it done as often as the word at 318 says, and stops; a program is
# served as a whole, so that a long one would keep all waiting
LINES_AT_ONCE = 50
LISTS = [f"STORE 300 000020000900084060000078{LINES_AT_ONCE:08X}", "STORE 310 2000007800000004", "STORE 48 00002000",
         "STORE 200 0002000000000000", *(f"STORE {0x840 + 16 * number:X} {'C1' * 16}" for number in range(8)),
         "STORE 100 5810030058200304583003085840030C", "STORE 110 90231000411010084640011058600310",
         "STORE 120 5B100314506010005850031847000000", "STORE 130 9C00000E9D00000E4770013446500130",
         "STORE 140 82000200"]  # fmt: skip


async def measured(honest: object, what: str, work: str) -> object:
    """How long the lines of honest people take while something is done: the 99th hundredth."""
    honest.took.clear()
    begun = time.monotonic()
    await work
    notify(f"{what}: {time.monotonic() - begun:.1f} s, {len(honest.took)} lines of others: {hundredths(honest.took)}; "
         f"{honest.town.told_memory()}")  # fmt: skip
    return sorted(honest.took)[int(len(honest.took) * 0.99)]


def part_endless(folder: str, options: object) -> None:
    """A guest prints without end; whenever its user is logged off for that he appears back, and has it print again."""
    town = Town(f"{folder}/endless", 6, "--quota", "64").online()
    honest = Honest(town)
    logons = 0

    async def print_on() -> None:
        nonlocal logons
        while True:
            one = await town.on("U02")
            logons += one.lines[-1] == "LOGON OK"
            if one.lines[-1] == "LOGON OK":
                one.type("#CP SYSTEM RESET", *printing_for_ever("009"))
                await one.until("STORED")
            # nobody reads what it prints
            one.go()
            await asyncio.sleep(2)

    async def tried() -> None:
        tasks = [asyncio.create_task(honest.live(name)) for name in ("U00", "U01")]
        await asyncio.sleep(1)
        before = await measured(honest, "endless: nothing is printed", asyncio.sleep(10))
        printing = asyncio.create_task(print_on())
        during = await measured(
            honest, "endless: a guest prints", asyncio.sleep(options["seconds"])
        )
        printing.cancel()
        check(
            "others are answered as fast as before",
            during < max(0.1, 2 * before),
            f"{1000 * before:.0f} and {1000 * during:.0f} ms",
        )
        honest.is_over = True
        await asyncio.gather(*tasks)

    asyncio.run(tried())
    town.operate("status")
    town.await_message("memory: ")
    notify(
        f"endless: {logons} logons; {re.search('memory: .*', town.since_start())[0]}; the recording has {os.path.getsize(town.record)} bytes"
    )
    check("it is suspended", town.stop() == 0, *town.findings)
    check_replay(town, honest.seen, replays(town))


def part_listing(folder: str, options: object) -> None:
    """A listing of so many lines is printed, closed and made pages of, while two people type."""
    lines = options["lines"] // 1000 * 1000
    prints = f"{folder}/listing/prints"
    town = Town(f"{folder}/listing", 6, "--printouts", prints).online()
    honest = Honest(town)

    async def stopped(one: object) -> None:
        while not one.lines or one.lines[-1] != "STOPPED DISABLED WAIT":
            # it may take minutes
            with contextlib.suppress(asyncio.TimeoutError):
                await one.line()

    async def written() -> None:
        path = f"{prints}/{town.session()}/PRT0001-U02.txt"
        while not os.path.exists(path):
            await asyncio.sleep(0.1)
        with open(path, "rb") as file:
            check(
                "the listing is whole",
                sum(data.count(b"\n") for data in iter(lambda: file.read(1 << 20), b"")) == lines,
            )
        # what takes no time has to be measured for a while, too
        await asyncio.sleep(5)

    async def closed(one: object) -> None:
        one.type("CLOSE 00E")
        await one.until("FILE 0001 CLOSED")
        await written()

    async def tried() -> None:
        tasks = [asyncio.create_task(honest.live(name)) for name in ("U00", "U01")]
        await asyncio.sleep(1)
        await measured(honest, "listing: nothing is printed", asyncio.sleep(10))
        one = await town.on("U02")
        one.type(*LISTS, f"STORE 318 {lines // LINES_AT_ONCE:08X}", "BEGIN 100")
        await measured(honest, f"listing: {lines} lines are printed", stopped(one))
        slow = await measured(honest, "listing: it is closed, and its pages are made", closed(one))
        check(
            "others are answered within 100 ms at the 99th hundredth",
            slow < 0.1,
            f"{1000 * slow:.0f} ms",
        )
        honest.is_over = True
        await asyncio.gather(*tasks)
        one.go()

    asyncio.run(tried())
    check("it is suspended", town.stop() == 0, *town.findings)
    check_replay(town, honest.seen, replays(town))


def part_mute(folder: str, options: object) -> None:
    beside_honest(folder, "mute", [mute_guest])


OPTIONS = {
    "--seconds": number(1, 100000),
    "--kills": number(1, 10000),
    "--lines": number(1000, 9999999),
}
USUAL = {"--seconds": 600, "--kills": 100, "--lines": 500000}
PARTS = parts_of(dict(globals()))


def main() -> None:
    found, names = read_arguments(sys.argv[1:], OPTIONS, 0, 100)
    options = {name.removeprefix("--"): last(found[name], usual) for name, usual in USUAL.items()}
    do_parts(PARTS, names, options, "minutes")
    sys.exit(totals.report())


main()
