"""Measures guests that are no loops on the built vm370 and bare370 and on the emulator of Debian's package hercules, by processor
time: a sort, a parser and a sieve; a supervisor with two tasks; a copy of cards to the printer. Their sources are in
bin/lib/guests. A longer run is compared with a shorter one. bin/bench-against calls it (docs/BENCHMARK.md).

    guests.py VM370 BARE370 ROUNDS SECONDS"""
from __future__ import annotations

from typing import Any
import os
import re
import subprocess
import sys
import tempfile
from dataclasses import dataclass

from gathjumli.bench import Bench, notify
from gathjumli.kinds import CONF, END, Emulator


HERE = os.path.dirname(os.path.dirname(os.path.realpath(__file__)))
ENTRY = 0x200
# the most cards of a deck
DECK = 1000
# turns of a card: the machine, the reader, the machine, the printer
TURNS = 4
# as many turns as a line of a script may deal
MOST_TURNS = 100000
# as many units as a line of a script runs here, and more than any round takes
UNITS = 1000000
MOST_UNITS = 3000
CARD = "A CARD OF SOME SIXTY COLUMNS, WHICH IS PRINTED AS IT STANDS"
DIRECTORY = "USER A PW 256K\nSPOOL 00C READER\nSPOOL 00E PRINTER\n"


@dataclass
class Guest:
    """A guest: its name and source, what a round of it is, how many rounds its shorter run has, and whether it reads cards."""

    name: str
    source: str
    round: str
    least: int
    reads: bool = False


GUESTS = [
    Guest("a sort, a parser and a sieve", "routines", "each of them once", 1000),
    Guest("a supervisor with two tasks", "tasks", "a turn of a task, with two calls", 1000),
    Guest("a copy of cards to the printer", "copier", "a card", DECK, reads=True),
]


def assembled(guest: Any) -> list:
    """The addresses of a guest's storage and the bytes for each."""
    command = [f"{HERE}/../asm370", f"{HERE}/guests/{guest.source}.asm"]
    lines = subprocess.run(command, stdout=subprocess.PIPE, check=True).stdout.decode()
    return [(int(at, 16), data) for at, data in re.findall(r"STORE ([0-9A-F]+) ([0-9A-F]+)", lines)]


class Emulated:
    """A guest on the emulator."""

    def __init__(self, guest: Any, room: Any) -> None:
        self.guest, self.room = guest, room

    def seconds(self, rounds: Any) -> Any:
        """The processor time of so many rounds."""
        conf, count = CONF, rounds
        if self.guest.reads:
            with open(f"{self.room}/deck", "w", encoding="ascii") as deck:
                deck.write(f"{CARD}\n" * rounds)
            conf, count = (
                f"{CONF}000C 3505 {self.room}/deck ascii eof\n000E 1403 {self.room}/printed\n",
                1,
            )
        storage = [f"r {at:X}={data}" for at, data in assembled(self.guest)]
        commands = [f"gpr 1={count:08X}", *storage, f"r 0=00080000{ENTRY:08X}", "restart"]
        return Emulator(self.room, conf).used(commands, b"isabled wait")


class Ours:
    """A guest on a bare machine or as one user."""

    def __init__(self, guest: Any, bench: Any, place: Any) -> None:
        self.guest, self.bench = guest, bench
        self.user, self.first = ("A", DIRECTORY) if place == "user" else ("BARE", "256K")

    def script(self, rounds: Any) -> Any:
        """The script that does so many rounds."""
        decks = rounds // DECK
        count = decks if self.guest.reads else rounds
        stores = [f"STORE {at:X} {data}" for at, data in assembled(self.guest)]
        lines = [
            f"LINE {self.user} {line}"
            for line in ("LOGON", *stores, f"STORE G1 {count:08X}", f"BEGIN {ENTRY:X}")
        ]
        if not self.guest.reads:
            return lines + [f"RUN {self.user} {UNITS}"] * (rounds * MOST_UNITS // UNITS + 1)
        turns = TURNS * (rounds + decks) + TURNS
        dealt = [f"AUTO {min(MOST_TURNS, turns - at)}" for at in range(0, turns, MOST_TURNS)]
        return (
            lines[:-1] + [f"DECK {self.user} {DECK}", *[CARD] * DECK] * decks + lines[-1:] + dealt
        )

    def seconds(self, rounds: Any) -> Any:
        """The processor time of so many rounds, after which the guest waits at its end."""
        script = self.script(rounds) + [f"LINE {self.user} DISPLAY PSW"]
        if f"{END:08X}" not in self.bench.output(self.first, script).splitlines()[-1]:
            sys.exit(f"{self.guest.name}: the guest did not end")
        return self.bench.seconds(self.first, script)


def rate(machine: Any, seconds: Any) -> Any:
    """Rounds a second: of a run of some seconds, what the least run does not take."""
    least = machine.guest.least
    begun, rounds = machine.seconds(least), 4 * least
    while (taken := machine.seconds(rounds) - begun) < seconds:
        rounds = max(2 * rounds, int(rounds * 1.2 * seconds / max(taken, 0.05)) // DECK * DECK)
    return (rounds - least) / taken


def main() -> None:
    program, rounds, seconds = sys.argv[1:]
    bench = Bench(program)
    notify("Guest | A round | Emulator | Bare | One user | Bare, ratio | One user, ratio")
    notify("---|---|---|---|---|---|---")
    for guest in GUESTS:
        with tempfile.TemporaryDirectory() as room:
            machines = [
                Emulated(guest, room),
                Ours(guest, bench, "bare"),
                Ours(guest, bench, "user"),
            ]
            theirs, bare, user = (
                max(rate(machine, float(seconds)) for _ in range(int(rounds)))
                for machine in machines
            )
        notify(
            f"{guest.name} | {guest.round} | {theirs:.0f} | {bare:.0f} | {user:.0f} | {bare / theirs:.2f} | {user / theirs:.2f}"
        )


if __name__ == "__main__":
    main()
