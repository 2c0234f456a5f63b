"""Measures the built vm370 and bare370 from outside, by processor time: of two scripts, of which one does more, the difference.
So the start of a program, the reading of a script and its first pages are not in it. bin/bench calls it (docs/BENCHMARK.md).

    bench.py PROGRAM loops THOUSANDS LOOPS PLACES
    bench.py PROGRAM rates THOUSANDS LOOPS PLACES      without instructions of the host
    bench.py PROGRAM channels PROGRAMS CYLINDERS
    bench.py PROGRAM installation USERS FRAMES SLOTS
    bench.py PROGRAM spool CARDS FILES"""
from __future__ import annotations

from typing import Any
import os
import re
import shutil
import subprocess
import sys
import tempfile
import time

# Guest loops that never end, at 200. Register 1 counts down from zero.
LOOPS = {
    "bct": ["STORE 200 4610020082000208"],
    "mixed": [
        "STORE G2 00001000",
        "STORE 200 585020005A5020045050200841303001",
        "STORE 210 95F0201047800224D207201820101842",
        "STORE 220 47F0022446100200",
        "STORE 1000 00000005000000070000000000000000C1C2C3C4C5C6C7C8",
    ],
    "mvc": ["STORE G3 00004000", "STORE G4 00002000", "STORE 200 D2FF3000400046100200"],
    "mvcl": ["STORE 200 984702100E4646100200", "STORE 210 00020000000100000001000000010000"],
    "loads": [
        "STORE 200 58100300501003045810030050100304",
        "STORE 210 58100300501003045810030050100304",
        "STORE 220 581003005010030482000310",
        "STORE 300 00000005",
        "STORE 310 0000000000000200",
    ],
}
# how often a script is run; the fastest counts
TIMES = 5
HEADS, TRACK = 19, 13030
# how many cards a program punches
CHAIN = 1000
# TIO, SIO of a device, and a branch back to both; the program is at 800, and what it seeks at 840
GUEST = ["STORE 48 00000800", "STORE 200 9D000{0}9C000{0}47F00200"]
FOUND = [
    "STORE 800 07000840400000063100084640000005",
    "STORE 810 0800080800000000{0}0020002000{1:02X}{2:02X}",
    "STORE 840 0000000000000000000001",
]
# each program: its device, what is typed, and how many bytes it moves
CHANNELS = {
    "card": ("00C", ["STORE 800 0200200020000050"], 80),
    "record": ("190", [FOUND[0], FOUND[1].format("06", 0, 80), FOUND[2]], 80),
    "page": ("190", [FOUND[0], FOUND[1].format("06", *divmod(4096, 256)), FOUND[2]], 4096),
    "track": ("190", [FOUND[0], FOUND[1].format("06", *divmod(TRACK, 256)), FOUND[2]], TRACK),
    "written": ("190", [FOUND[0], FOUND[1].format("05", *divmod(TRACK, 256)), FOUND[2]], TRACK),
    "printed": ("00E", ["STORE 800 0900200020000084"], 132),
}


# the crates whose parts of a serve are reported
PARTS = ["cp_core", "cp_needs", "cp_ccw", "cp_volumes", "s370_channel", "ckd_volume", "unit_record"]


def notify(text: str) -> None:
    print(text, flush=True)


class Bench:
    """The program that runs machines."""

    def __init__(self, program: Any) -> None:
        self.program = program

    def command(
        self, room: Any, first: Any, script: str, volumes: tuple = (), sizes: tuple = ()
    ) -> list:
        """The program with its words: of users where the first text is a directory, else of a machine with so much storage."""
        files = []
        for number, data in enumerate([first, "".join(f"{item}\n" for item in script), *volumes]):
            files.append(f"{room}/{number}")
            with open(files[-1], "wb") as file:
                file.write(data.encode() if isinstance(data, str) else data)
        if "USER" in first:
            return [self.program, "vm370", *sizes, *files]
        return [self.program, "bare370", first, *files[1:]]

    def seconds(self, *words: Any) -> Any:
        """The least processor time of some runs."""
        best = float("inf")
        with tempfile.TemporaryDirectory() as room:
            command = self.command(room, *words)
            for _ in range(TIMES):
                child = subprocess.Popen(command, stdout=subprocess.DEVNULL)
                _, status, used = os.wait4(child.pid, 0)
                child.returncode = os.waitstatus_to_exitcode(status)
                if child.returncode:
                    sys.exit(child.returncode if child.returncode > 0 else 1)
                best = min(best, used.ru_utime + used.ru_stime)
        return best

    def output(self, *words: Any) -> str:
        """What a run prints."""
        with tempfile.TemporaryDirectory() as room:
            return subprocess.run(
                self.command(room, *words), stdout=subprocess.PIPE, check=True
            ).stdout.decode()

    def instructions(self, *words: Any) -> int:
        """How many instructions of the host a run takes."""
        with tempfile.TemporaryDirectory() as room:
            valgrind = [
                "valgrind",
                "--tool=callgrind",
                "--callgrind-out-file=/dev/null",
                *self.command(room, *words),
            ]
            findings = subprocess.run(
                valgrind, stdout=subprocess.DEVNULL, stderr=subprocess.PIPE, check=False
            ).stderr
        found = re.search(rb"Collected : ([0-9]+)", findings)
        return int(found[1]) if found else 0

    def functions(self, *words: Any) -> dict:
        """How many instructions of the host each function takes, with those that it calls."""
        with tempfile.TemporaryDirectory() as room:
            valgrind = [
                "valgrind",
                "--tool=callgrind",
                f"--callgrind-out-file={room}/out",
                *self.command(room, *words),
            ]
            subprocess.run(
                valgrind, stdout=subprocess.DEVNULL, stderr=subprocess.DEVNULL, check=False
            )
            annotate = ["callgrind_annotate", "--inclusive=yes", "--threshold=100", f"{room}/out"]
            findings = subprocess.run(
                annotate, stdout=subprocess.PIPE, stderr=subprocess.DEVNULL, check=False
            ).stdout.decode()
        lines = (
            re.match(r" *([0-9,]+) .*?\) +[^ ]*?:(\w+::[^ ]*)", line)
            for line in findings.splitlines()
        )
        return {line[2]: int(line[1].replace(",", "")) for line in lines if line}

    def each(self, first: int, ready: Any, again: Any, count: int, *more: Any) -> Any:
        """Microseconds of what is done again, by three times as much of it; never none, so that a rate can be reported."""
        less, most = (self.seconds(first, ready + again * (count * item), *more) for item in (1, 3))
        return max((most - less) / (2 * count) * 1e6, 1e-6)


def measure_rates(bench: Any, thousands: Any, loops: Any, places: Any) -> Any:
    """Rates of guest loops; their settings."""
    places_of = {"bare": [], "one": ["A"], "eight": list("ABCDEFGH")}
    cases = [(loop, place) for loop in loops.split() for place in places.split()]
    settings = {}
    for loop, place in cases:
        users = places_of[place]
        names = users or ["BARE"]
        ready = [
            f"LINE {name} {line}" for name in names for line in ["LOGON", *LOOPS[loop], "BEGIN 200"]
        ]
        first = "".join(f"USER {user} PW 256K\n" for user in users) or "256K"
        settings[loop, place] = first, ready, len(users) > 1
    runs, units = max(int(thousands) // 1000, 1), min(max(int(thousands), 1), 1000) * 1000
    for (loop, place), (first, ready, is_in_turns) in settings.items():
        # (a turn has 100 units)
        again = (
            [f"AUTO {units // 100}"]
            if is_in_turns
            else [f"RUN {first[5] if 'USER' in first else 'BARE'} {units}"]
        )
        cost = bench.each(first, ready, again, runs, (), ("--frames", "512"))
        notify(f"{loop} {place}: {units / cost:.1f} million units a second")
    return settings


def measure_loops(bench: Any, *words: Any) -> None:
    """Rates of guest loops, and instructions of the host a unit."""
    settings = measure_rates(bench, *words)
    if not shutil.which("valgrind"):
        notify("instructions of the host are not counted: valgrind is not here")
        return
    for (loop, place), (first, ready, is_in_turns) in settings.items():
        again = (
            "AUTO 400" if is_in_turns else f"RUN {first[5] if 'USER' in first else 'BARE'} 40000"
        )
        less, more = (
            bench.instructions(first, ready + [again] * item, (), ("--frames", "512"))
            for item in (1, 3)
        )
        notify(f"{loop} {place}: {(more - less) / 80000:.1f} instructions of the host a unit")


def full_volume(cylinders: int) -> Any:
    """The image of a volume with one record of a full track on each."""
    out = [b"CKD2BENCH1", cylinders.to_bytes(2, "big")]
    for cylinder in range(cylinders):
        for head in range(HEADS):
            place = cylinder.to_bytes(2, "big") + head.to_bytes(2, "big")
            out += [b"\0", place, b"\1", place, b"\1\0", TRACK.to_bytes(2, "big"), bytes(TRACK)]
    return b"".join([*out, (cylinders * HEADS).to_bytes(4, "big")])


def measure_parts(bench: Any, name: Any, first: Any, ready: Any, again: Any) -> None:
    """Instructions of the host of a serve with its units: of each crate those of the function that takes the most of them."""
    less, more = (
        bench.functions(first, ready + again * item, [full_volume(1)]) for item in (20, 60)
    )
    most = {}
    for function, count in more.items():
        crate, each = function.split("::")[0], (count - less.get(function, 0)) / 40
        if crate in PARTS and each > most.get(crate, (0, ""))[0]:
            most[crate] = each, function.split("::<")[0]
    parts = ", ".join(f"{most[part][1]} {most[part][0]:.0f}" for part in PARTS if part in most)
    notify(f"{name} user: instructions of the host: {parts}")


def measure_channels(bench: Any, programs: Any, cylinders: Any) -> None:
    """What a serve costs that runs a program, and one that does nothing; and how fast an image is read."""
    programs = max(int(programs), 1)
    devices = "SPOOL 00C READER\nSPOOL 00E PRINTER\nMDISK 190 3330 0 1 BENCH1 W\n"
    for name, (device, typed, count) in CHANNELS.items():
        for place, first, user in (
            ("bare", "256K", "BARE"),
            ("user", f"USER A PW 256K\n{devices}", "A"),
        ):
            ready = [
                f"LINE {user} {item.format(device)}"
                for item in ["LOGON", *GUEST, *typed, "BEGIN 200"]
            ]
            volumes, run, serve = [full_volume(1)], [f"RUN {user} 3"], [f"SERVE {user} {device}"]
            # (a card has a deck of its own, which is given in both)
            run = [f"DECK {user} 1", "A", *run] if device == "00C" else run
            whole = bench.each(first, ready, run + serve, programs, volumes)
            units = bench.each(first, ready, run, programs, volumes)
            idle = bench.each(first, [f"LINE {user} LOGON"], serve, programs, volumes)
            notify(
                f"{name} {place}: three units and a serve {whole:.2f} us, the units {units:.2f}, an idle serve {idle:.2f}; "
                f"{count / whole:.0f} MB a second"
            )
            if place == "user":
                # a byte of the first word that means nothing is stored before each serve: the same, or another each time
                kept, first_ones = (
                    sum(
                        ([f"LINE A #CP STORE 805 {item:02X}", *run, *serve] for item in bytes_of),
                        [],
                    )
                    for bytes_of in ((0, 0), (0, 1))
                )
                cost = (
                    bench.each(first, ready, item, programs // 2, volumes) / 2
                    for item in (first_ones, kept)
                )
                notify(
                    f"{name} user: a serve whose program is not the kept one takes {next(cost) - next(cost):.2f} us more"
                )
            if place == "user" and shutil.which("callgrind_annotate"):
                measure_parts(bench, name, first, ready, run + serve)
    size = max(int(cylinders), 1)
    image = full_volume(size)
    taken = bench.seconds("8K", [], [image]) - bench.seconds("8K", [])
    notify(
        f"image of {size} cylinders: {len(image)} bytes, {len(image) / max(taken, 1e-6) / 1e6:.0f} MB a second"
    )


def measure_installation(bench: Any, users: Any, frames: Any, slots: Any) -> None:
    """A boot, a LOGON, pages that come into frames, and turns."""
    users, frames, slots = int(users), int(frames), int(slots)
    names = [f"U{number}" for number in range(users)]
    first, sizes = "".join(f"USER {name} PW 4M\n" for name in names), (
        "--frames",
        str(frames),
        "--slots",
        str(slots),
    )
    pages = max(min((frames + slots) // users - 1, 1000), 1)
    # L 1,304; L 2,300; ST 3,0(2); A 2,308; BCT 1,208; and from the first page on again
    typed = [
        "STORE 200 5810030458200300503020005A200308",
        "STORE 210 4610020847F00200",
        f"STORE 300 00001000{pages:08X}00001000",
    ]
    on = [f"LINE {name} LOGON" for name in names]
    ready = on + [f"LINE {name} {line}" for name in names for line in [*typed, "BEGIN 200"]]
    round_of = [f"RUN {name} {3 * pages + 3}" for name in names]
    begun = bench.seconds(first, [], (), sizes)
    notify(
        f"{users} users on {frames} frames and {slots} slots, of whom each touches {pages} pages"
    )
    notify(f"start and boot: {begun * 1e3:.2f} ms")
    off = [f"LINE {name} LOGOFF" for name in names]
    notify(f"LOGON and LOGOFF: {bench.each(first, [], on + off, 100, (), sizes) / users:.2f} us")
    before, once = (bench.seconds(first, ready + round_of * item, (), sizes) for item in (0, 1))
    count = users * pages
    notify(
        f"page touched for the first time, with three units: {max(once - before, 0) / count * 1e6:.3f} us, {count} of them"
    )
    again = bench.each(first, ready + round_of, round_of, 10, (), sizes) / count
    notify(f"page touched once more, with three units: {again:.3f} us")
    notify(
        f"turn of 100 units: {bench.each(first, ready + round_of, ['AUTO 100'], 100, (), sizes) / 100:.2f} us"
    )


class Followed:
    """A session of vm370 that is given its script part by part, each of which is timed."""

    def __init__(self, program: Any, directory: str, room: Any) -> None:
        with open(f"{room}/directory", "w", encoding="utf-8") as file:
            file.write(directory)
        words = [program, "vm370", "--frames", "512", "--follow", f"{room}/directory"]
        self.child = subprocess.Popen(words, stdin=subprocess.PIPE, stdout=subprocess.PIPE)

    def do(self, lines: list) -> Any:
        """Microseconds until these lines are answered, by the clock."""
        part = "".join(f"{line}\n" for line in lines).encode()
        begun = time.perf_counter()
        self.child.stdin.write(b"%d\n%s" % (len(part), part))
        self.child.stdin.flush()
        for line in self.child.stdout:
            if line == b"> DONE\n":
                return (time.perf_counter() - begun) * 1e6
        return sys.exit(self.child.wait() or 1)

    def end(self) -> None:
        self.child.stdin.close()
        self.child.stdout.read()
        self.child.wait()


def measure_deck(bench: Any, cards: Any) -> None:
    """What CLOSE takes of a punch with so many cards, which come to another user, and of one without any."""
    words = [f"01002000{'60' if number < CHAIN - 1 else '20'}000050" for number in range(CHAIN)]
    program = [
        f"LINE A STORE {0x3000 + 8 * number:X} {words[number]}{words[number + 1]}"
        for number in range(0, CHAIN, 2)
    ]
    ready = [
        "LINE A LOGON",
        "LINE B LOGON",
        "LINE A SPOOL 00D TO B",
        *program,
        "LINE A STORE 48 00003000",
        "LINE A STORE 200 9D00000D9C00000D47F00200",
        "LINE A BEGIN 200",
    ]
    with tempfile.TemporaryDirectory() as room:
        session = Followed(
            bench.program,
            "USER A PW 256K\nSPOOL 00D PUNCH\nUSER B PW 256K\nSPOOL 00C READER\n",
            room,
        )
        session.do(ready)
        for _ in range(0, cards, CHAIN):
            session.do(["RUN A 3", "SERVE A 00D"])
        taken, empty = (session.do(["LINE A #CP CLOSE 00D"]) for _ in range(2))
        session.end()
    notify(
        f"a deck of {cards} cards is closed and comes to another user: {taken:.0f} us; nothing is closed: {empty:.0f} us"
    )


def measure_files(bench: Any, others: Any) -> None:
    """What a user's own commands and reads take next to so many files of others."""
    users, own, times = [f"U{number}" for number in range(64)], 10, 200
    # each card is the line after its own
    decks = [f"DECK {users[1 + number % 63]} 1\nA" for number in range(others)] + [
        "DECK U0 1\nA"
    ] * (own + times)
    with tempfile.TemporaryDirectory() as room:
        session = Followed(
            bench.program,
            "".join(f"USER {user} PW 64K\nSPOOL 00C READER\n" for user in users),
            room,
        )
        session.do([f"LINE {user} LOGON" for user in users] + decks)
        asked = session.do(["LINE U0 QUERY FILES"] * times) / times
        purged = (
            session.do([f"LINE U0 PURGE {others + own + 1 + number}" for number in range(times)])
            / times
        )
        session.do(
            [
                "LINE U0 STORE 300 0200200020000050",
                "LINE U0 STORE 48 00000300",
                "LINE U0 STORE 200 9D00000C9C00000C47F00200",
                "LINE U0 BEGIN 200",
            ]
        )
        read = session.do(["RUN U0 3", "SERVE U0 00C"] * own) / own
        session.end()
    notify(
        f"next to {others} files of 63 other users: QUERY FILES of {own + times} decks {asked:.1f} us, PURGE {purged:.2f} us, "
        f"a read and its units {read:.1f} us"
    )


def measure_spool(bench: Any, cards: Any, files: Any) -> None:
    """Decks of growing sizes, and files of others."""
    for size in sorted({min(item, int(cards)) for item in (CHAIN, 30 * CHAIN, 1000 * CHAIN)}):
        measure_deck(bench, size)
    for others in (0, int(files)):
        measure_files(bench, others)


def main() -> None:
    program, what, *words = sys.argv[1:]
    measures = {
        "loops": measure_loops,
        "rates": measure_rates,
        "channels": measure_channels,
        "installation": measure_installation,
        "spool": measure_spool,
    }
    measures[what](Bench(program), *words)


if __name__ == "__main__":
    main()
