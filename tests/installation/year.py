#!/usr/bin/env python3
"""Tries a year of an installation whose clock is moved on day by day, over the programs that were built: tests/installation/year.py
[--unproved] [--users N] [--days N] [--minutes N] [--lines N] [--keep N] [--seed N]. Each day everybody types, as many lines as --lines
says or else as the minutes allow; some print, get decks, leave and come back. Each week the session ends, and each fourth week all is
killed in its midst. What is bounded has to stay so, each start to be short, and recordings to replay. It prints figures, and last 'N
passed, M failed'. A SIGTERM ends it after the week. The gate has seven weeks of three users."""
from __future__ import annotations

from typing import NamedTuple
import asyncio
import glob
import os
import random
import re
import signal
import subprocess
import sys
import tempfile
import time

sys.dont_write_bytecode = True
TOP = os.path.dirname(os.path.dirname(os.path.dirname(os.path.realpath(__file__))))
sys.path[:0] = [TOP, f"{TOP}/bin/lib"]

from tests.lib.files import names_in, read, write
from tests.lib.host import memory_of
from tests.lib.images import blank_image
from tests.lib.sites import PRINTS, processor_ticks, sizes_of
from tests.lib import sites

# others may share the host
sites.PATIENCE = 900
from tests.installation.operators import operator
from tests.installation.town import COUNTS, Town, lay_out
from tests.lib.counting import Counts
from tests.lib.figures import notify
from gathjumli.cli import last, number, read_arguments
from gathjumli.consoles import END_OF_ANSWER

DAY = 24 * 3600
WEEK = 7
# at a start everybody may wait so many seconds
SECONDS_TO_START = 10
# one of so many users prints on a day, and one leaves for good; of half as many one only drops his connection
SOME = 8
CARDS = 10
# weeks of which the recordings are replayed
REPLAYED = 3
# what is flat is not larger at the end than this many times what it was once old files were removed
FLAT = 1.25
LEAST_WEEKS = 4
# the wait of before goes with a reset
RESET = "SYSTEM RESET"
COUNTING = (RESET, COUNTS, "STORE G2 00001000", "BEGIN 100")
STOPPED = "STOPPED DISABLED WAIT"
CLOSED = re.compile(r"FILE \d+ CLOSED")
ENDED = re.compile(r"recording\.(\d{4}-\d\d-\d\d)-\d{6}")

totals = Counts()
check = totals.check


class Clock:
    """The clock of the installation's commands (moved_clock)."""

    def __init__(self, path: str) -> None:
        self.path, self.begun = path, time.time()
        os.environ |= {"MOVED_CLOCK": path, "PYTHONPATH": f"{TOP}/tests/installation/moved_clock"}
        write(path, b"")

    def begin_day(self, day: int) -> None:
        """Moves it on to the beginning of a day; one that has begun goes on."""
        now = time.time()
        with open(self.path, "a") as file:
            file.write(f"{now:.3f} {max(0.0, self.begun + day * DAY - now):.3f}\n")

    def date(self, day: int) -> str:
        return time.strftime("%Y-%m-%d", time.gmtime(self.begun + day * DAY))


class Worker:
    """Somebody at his terminal. What he was shown is kept in pieces, each without a gap in it."""

    def __init__(self, town: Town, place: int) -> None:
        self.town, self.place = town, place
        self.user = town.users[place]
        self.neighbour = town.users[(place + 1) % len(town.users)]
        self.count = self.typed = 0
        self.seen: list[list[str]] = []

    def text(self) -> str:
        """What nobody else types, and he only once."""
        self.count += 1
        return f"{self.user}-{self.count}."

    def type(self, *lines: str) -> None:
        self.typed += len(lines)
        self.one.type(*(f"#CP {line}" for line in lines))

    async def come(self) -> None:
        """Logs on, or comes back; what is shown again of before is in no piece."""
        self.one, text = await self.town.on(self.user), self.text()
        self.type(f"MSG {self.user} {text}")
        await self.one.until(f"MSG FROM {self.user}: {text}")
        self.one.lines = []
        self.seen.append(self.one.lines)

    def go(self) -> None:
        self.one.go()

    async def work(self, day: int, lines: int, until: float) -> None:
        """Types so many lines, or until the day is over."""
        before = self.typed
        while self.typed < before + lines if lines else time.monotonic() < until:
            await self.type_some()
        turn = (day + self.place) % SOME
        if turn == 0:
            await self.print_and_read()
        if turn == 1:
            self.type("LOGOFF")
            await self.one.until("LOGOFF OK")
        if turn in (1, 2, 3):
            self.go()
            await self.come()

    async def type_some(self) -> None:
        """Stores and displays; now and then sends a message, and has his machine count."""
        text = self.text()
        if self.count % 10 == 0:
            self.type(f"MSG {self.neighbour} {text}")
            await self.one.until("SENT", "USER NOT LOGGED ON")
        elif self.count % 20 == 5:
            self.type(*COUNTING)
            await self.one.until(STOPPED)
        else:
            self.type(f"STORE G5 {self.count:08X}", "DISPLAY G5")
            await self.one.until(f"GPR 5 = {self.count:08X}")

    async def print_and_read(self) -> None:
        """Prints a file, and withdraws the decks that came to his reader."""
        self.type(RESET, *PRINTS)
        await self.one.until(STOPPED)
        self.type("CLOSE 00E", "QUERY FILES", "DISPLAY G5")
        decks = []
        shown = []
        while not (line := await self.one.line()).startswith("GPR 5 = "):
            shown.append(line)
            decks += re.findall(r"FILE (\d+) FROM", line)
        check("a file is closed", any(CLOSED.fullmatch(line) for line in shown), *shown)
        for deck in decks:
            self.type(f"PURGE {deck}")
            await self.one.until("PURGED")


class Sizes(NamedTuple):
    """What an installation has on the disk before its session ends, and the memory that its program had at most: bytes, and numbers
    of files."""

    recording: int
    states: int
    beginning: int
    ended: int
    ended_bytes: int
    prints: int
    decks: int
    journal: int
    program: int


def bytes_of(*patterns: str) -> int:
    paths = [path for pattern in patterns for path in glob.glob(pattern, recursive=True)]
    return sum(os.path.getsize(path) for path in paths if os.path.isfile(path))


class Year:
    """An installation from week to week."""

    def __init__(self, folder: str, repository: str, options: dict[str, int]) -> None:
        self.folder, self.repository, self.options = folder, repository, options
        self.clock = Clock(f"{folder}/clock")
        place = f"{folder}/town"
        words = [word for name, option in OPTION_OF.items() for word in (option, f"{place}/{name}")]
        command = f"{repository}/bin/installation"
        self.town = Town(place, options["users"], *words, command=command)
        self.town.paths.append(f"{place}/volume")
        write(f"{place}/volume", blank_image("YEAR01", 2))
        write(f"{self.town.record}.rules", f"keep {options['keep']} days\n")
        self.workers = [Worker(self.town, place) for place in range(options["users"])]
        self.until = time.monotonic() + 60 * options["minutes"]
        # of each start, the seconds that it took, and those of processor time among them
        self.starts: list[float] = []
        self.computed: list[float] = []
        self.sizes: list[Sizes] = []
        # the day on which a deck was first seen to be read in
        self.read_in: dict[str, int] = {}
        # whether it is to end after this week
        self.is_over = False

    def start(self) -> None:
        begun = time.monotonic()
        self.town.start()
        is_online = self.town.await_message("online at", sites.PATIENCE)
        check("it is online", is_online, *self.town.findings[-9:])
        self.starts.append(time.monotonic() - begun)
        self.computed.append(processor_ticks(self.town) / os.sysconf("SC_CLK_TCK"))

    def run(self) -> None:
        weeks = self.options["days"] // WEEK
        chance = random.Random(self.options["seed"])
        replayed = set(chance.sample(range(1, weeks), min(REPLAYED, weeks - 1)))
        self.clock.begin_day(0)
        self.start()
        for week in range(weeks):
            asyncio.run(self.week(week))
            self.look(week)
            ended = self.end()
            self.clock.begin_day(WEEK * (week + 1))
            self.start()
            if week in replayed:
                self.replay(week, ended)
            for worker in self.workers:
                worker.seen.clear()
            if self.is_over:
                break
        check("it is suspended", self.town.stop() == 0, *self.town.findings[-3:])

    async def week(self, week: int) -> None:
        """Seven days; in the midst of each fourth week all is killed, and everybody comes back."""
        await self.all_come()
        for day in range(WEEK * week, WEEK * (week + 1)):
            self.clock.begin_day(day)
            user = self.town.users[day % len(self.town.users)]
            cards = b"".join(b"CARD %d\n" % card for card in range(CARDS))
            write(f"{self.folder}/town/decks/{user}/day-{day:03}", cards)
            days_left = self.options["days"] - day
            until = time.monotonic() + max(0.0, self.until - time.monotonic()) / days_left
            lines = self.options["lines"]
            work = [worker.work(day, lines, until) for worker in self.workers]
            await asyncio.gather(self.reload(), *work)
            self.note_decks(day)
            if day == WEEK * week + WEEK // 2 and week % 4 == 3:
                self.town.kill(is_all=True)
                self.start()
                await self.all_come()
        for worker in self.workers:
            worker.go()

    async def reload(self) -> None:
        """Has the rules read again, after which old files are looked for as they are each hour."""
        reader, writer = await asyncio.open_unix_connection(f"{self.folder}/town/operator")
        writer.write(b"reload\n")
        while not (line := await reader.readline()).startswith(END_OF_ANSWER.encode()):
            check("a reload is answered", line)
        writer.close()

    async def all_come(self) -> None:
        await asyncio.gather(*(worker.come() for worker in self.workers))

    def end(self) -> str:
        """Ends the session; the folder that it leaves. An end is refused while a printout is not written."""
        begun = time.monotonic()
        while (
            done := operator(self.town, "end")
        ).returncode and time.monotonic() < begun + sites.PATIENCE:
            time.sleep(0.1)
        check("it ends", done.returncode == 0 and self.town.ended() == 0, done.stdout)
        return f"{self.folder}/town/{self.ended()[-1]}"

    def decks(self) -> list[str]:
        """The decks that were read in and are still there."""
        return glob.glob(f"{self.folder}/town/decks/*/done/*")

    def note_decks(self, day: int) -> None:
        """Notes on which day those were first seen; on a short day some are read in after its end."""
        for deck in self.decks():
            self.read_in.setdefault(deck, day)

    def ended(self) -> list[str]:
        return [name for name in names_in(f"{self.folder}/town") if ENDED.fullmatch(name)]

    def look(self, week: int) -> None:
        """Notes sizes at the end of a week, and whether what is too old is gone."""
        place, record = f"{self.folder}/town", self.town.record
        ended = self.ended()
        found = Sizes(
            os.path.getsize(record),
            bytes_of(f"{record}.state-*"),
            bytes_of(f"{record}.begin"),
            len(ended),
            bytes_of(*(f"{place}/{name}/*" for name in ended)),
            len(glob.glob(f"{place}/prints/*/PRT*")),
            len(self.decks()),
            bytes_of(f"{place}/journal", f"{place}/journal.old"),
            1024 * memory_of(self.town.program()),
        )
        self.sizes.append(found)
        self.refuse_old(WEEK * (week + 1) - 1)
        check("two states at most", len(glob.glob(f"{record}.state-*")) <= 2)
        lines = sum(worker.typed for worker in self.workers)
        took = f"start {self.starts[-1]:.1f} s, {self.computed[-1]:.1f} s computed"
        values = ", ".join(f"{name} {value}" for name, value in found._asdict().items())
        notify(f"week {week + 1}: {lines} lines typed so far, {took}; {values}")

    def refuse_old(self, day: int) -> None:
        """What is older than the rule keeps is gone on the day after: the rules were read each day."""
        place, keep = f"{self.folder}/town", self.options["keep"]
        oldest = self.clock.date(day - keep - 1)
        # the name of a session has the day when it began, a week before its end
        begun = [ENDED.fullmatch(name)[1] for name in self.ended()]
        check("ended sessions", not begun or begun[0] >= self.clock.date(day - keep - 1 - WEEK), *begun)  # fmt: skip
        self.note_decks(day)
        decks = [self.read_in[deck] for deck in self.decks()]
        check("decks", min(decks, default=day) >= day - keep - 1, f"{min(decks, default=day)}")
        printed = len(glob.glob(f"{place}/prints/*/PRT*"))
        check("printouts", printed <= (keep + 2) * -(-len(self.workers) // SOME), f"{printed}")
        journal = read(f"{place}/journal")[:10].decode()
        check("journal", journal >= oldest, f"{journal}, and not {oldest}")
        if os.path.exists(f"{place}/journal.old"):
            old = read(f"{place}/journal.old")[:10].decode()
            check("old journal", old >= self.clock.date(day - 2 * keep - 2), old)

    def replay(self, week: int, folder: str) -> None:
        """The recording of a week has in its transcript what everybody was shown, without a gap."""
        begun = f"{folder}/begin"
        words = [f"{self.repository}/bin/vm370", *sizes_of(f"{folder}/recording")]
        words += ["--state", begun] if os.path.exists(begun) else []
        paths = [f"{folder}/{name}" for name in ("directory", "recording", "volume-1")]
        at = time.monotonic()
        done = subprocess.run([*words, "--", *paths], capture_output=True, text=True, errors="replace")  # fmt: skip
        check(f"week {week + 1} replays", done.returncode == 0, done.stderr)
        shown: dict[str, list[str]] = {}
        for line in done.stdout.partition("\n== ")[0].split("\n"):
            name, colon, text = line.partition(": ")
            if colon:
                shown.setdefault(name, []).append(text)
        pieces = sum(len(worker.seen) for worker in self.workers)
        wrong = [f"{worker.user}: {piece[:3]}" for worker in self.workers for piece in missing(worker, shown)]  # fmt: skip
        check("and shows what everybody saw", pieces and not wrong, f"{len(wrong)} of {pieces} pieces", *wrong[:5])  # fmt: skip
        notify(
            f"week {week + 1} replays in {time.monotonic() - at:.1f} s: {sum(map(len, shown.values()))} lines"
        )

    def judge(self) -> None:
        """What is bounded is no larger in the last quarter than in the quarter after old files were first removed."""
        quarter = max(1, len(self.sizes) // 4)
        steady = -(-2 * self.options["keep"] // WEEK)
        for name in Sizes._fields:
            found = [getattr(size, name) for size in self.sizes]
            before, after = max(found[steady : steady + quarter], default=0), max(found[-quarter:])
            # few weeks differ by who was on at their ends
            if before and quarter >= LEAST_WEEKS and len(found) >= steady + 2 * quarter:
                check(f"{name} is flat", after <= FLAT * before, f"{before} and then {after}")
            notify(f"{name}: {min(found)} to {max(found)}, in the last quarter {after} at most")
        worst = max(self.starts)
        computed = f"{min(self.computed):.1f} to {max(self.computed):.1f} s computed"
        notify(f"{len(self.starts)} starts: {min(self.starts):.1f} to {worst:.1f} s, {computed}")
        check("each start computes little", max(self.computed) < SECONDS_TO_START, computed)
        # a host that is busy with others makes everybody wait
        is_busy = os.getloadavg()[0] >= os.cpu_count()
        holds = worst < SECONDS_TO_START * (10 if is_busy else 1)
        check("each start is short", holds, f"{worst:.1f} s")


def missing(worker: Worker, shown: dict[str, list[str]]) -> list[list[str]]:
    """The pieces that somebody saw which a transcript has not, one after another."""
    lines, place, wrong = shown.get(worker.user, []), 0, []
    for piece in filter(None, worker.seen):
        found = next((at for at in range(place, len(lines)) if lines[at : at + len(piece)] == piece), None)  # fmt: skip
        if found is None:
            wrong.append(piece)
        else:
            place = found + len(piece)
    return wrong


OPTION_OF = {"operator": "--operate", "journal": "--journal", "prints": "--printouts", "decks": "--decks"}  # fmt: skip
OPTIONS = {
    "--unproved": None,
    "--users": number(1, 64),
    "--days": number(14, 10000),
    "--minutes": number(1, 1000),
    "--lines": number(0, 100000),
    "--keep": number(1, 1000),
    "--seed": number(0, 1000000),
}
USUAL = {"--users": 64, "--days": 364, "--minutes": 20, "--lines": 0, "--keep": 30, "--seed": 1}


def main() -> None:
    found, _ = read_arguments(sys.argv[1:], OPTIONS, 0, 0)
    options = {name.removeprefix("--"): last(found[name], usual) for name, usual in USUAL.items()}
    with tempfile.TemporaryDirectory(prefix="try-year-") as folder:
        year = Year(folder, lay_out(folder, bool(found["--unproved"])), options)
        signal.signal(signal.SIGTERM, lambda *_: setattr(year, "is_over", True))
        year.run()
        year.judge()
    sys.exit(totals.report())


main()
