"""Measures each kind of instruction on the built vm370 and bare370 and on the emulator of Debian's package hercules, by processor
time: a loop of sixteen copies and a BCT, of which a longer run is compared with a shorter one. bin/bench-against calls it
(docs/BENCHMARK.md).

A drawn program has some hundred instructions of many kinds in a random order, as often as code of its sort has them.

    kinds.py VM370 BARE370 ROUNDS SECONDS [KIND]..."""
from __future__ import annotations

from typing import Any
import os
import random
import shutil
import signal
import subprocess
import sys
import tempfile
import time
from dataclasses import dataclass

from gathjumli.bench import Bench, notify


# the status of a usage error
WRONG_USE = 2
# The loop is here, and register 10 has its address; each copy is followed by the next.
LOOP = 0x8000
COPIES = 16
# What the registers have: 1 counts rounds; 5 names what is fetched, 6 what is stored.
REGISTERS = {2: 3, 3: 7, 4: 0, 5: 0x1000, 6: 0x2000, 7: 0, 8: 4, 9: 0, 10: LOOP, 14: 0, 15: 0}
STORAGE = {
    0x20: "00080000" + "00000000",
    0x60: "0000000000000180",
    0x180: "82000020",
    0x1000: "0000000500000007",
    0x1010: "C1C2C3C4C5C6C7C8",
    0x1018: "000000000001234C",
    0x1030: "00",
    0x1040: "00000003000000070000000000001000",
    0x1080: "D20760605010",
    0x1088: "D50760605010",
    0x10C0: "000000E0",
    0x10F0: "F1F2F3F4",
    0x10F8: "01234C",
    **{0x1100 + at: bytes(range(at, at + 16)).hex().upper() for at in range(0, 256, 16)},
    0x2060: "C1C2C3C4C5C6C7C8",
    0x2070: "40",
}
# Each kind by its name: a copy in hexadecimal, where {next} is the address of what follows it as base and displacement; and how many
# instructions it has.
KINDS = {
    "LR": ("1823", 1),
    "LTR": ("1223", 1),
    "LCR": ("1323", 1),
    "LPR": ("1023", 1),
    "LNR": ("1123", 1),
    "AR": ("1A23", 1),
    "SR": ("1B23", 1),
    "ALR": ("1E23", 1),
    "SLR": ("1F23", 1),
    "CR": ("1923", 1),
    "CLR": ("1523", 1),
    "NR": ("1423", 1),
    "OR": ("1623", 1),
    "XR": ("1723", 1),
    "MR": ("1CE3", 1),
    "DR": ("1DE3", 1),
    "SPM": ("0470", 1),
    "BALR": ("0540", 1),
    "BCTR": ("0640", 1),
    "BCR": ("0700", 1),
    "SLL": ("89200001", 1),
    "SRL": ("88200001", 1),
    "SLA": ("8B200001", 1),
    "SRA": ("8A200001", 1),
    "SLDL": ("8DE00001", 1),
    "SRDL": ("8CE00001", 1),
    "SLDA": ("8FE00001", 1),
    "SRDA": ("8EE00001", 1),
    "LA": ("41205001", 1),
    "L": ("58205000", 1),
    "ST": ("50206010", 1),
    "A": ("5A205004", 1),
    "S": ("5B205004", 1),
    "AL": ("5E205004", 1),
    "SL": ("5F205004", 1),
    "N": ("54205004", 1),
    "O": ("56205004", 1),
    "X": ("57205004", 1),
    "C": ("59205004", 1),
    "CL": ("55205004", 1),
    "M": ("5CE05000", 1),
    "D": ("5DE05000", 1),
    "LH": ("48205002", 1),
    "STH": ("40206012", 1),
    "AH": ("4A205002", 1),
    "SH": ("4B205002", 1),
    "CH": ("49205002", 1),
    "MH": ("4C205002", 1),
    "IC": ("43205003", 1),
    "STC": ("42206013", 1),
    "CVD": ("4E206018", 1),
    "CVB": ("4F205018", 1),
    "BC not taken": ("4700A000", 1),
    "BC taken": ("47F0{next}", 1),
    "BAL": ("4540{next}", 1),
    "BCT": ("4640{next}", 1),
    "BXLE": ("874E{next}", 1),
    "BXH": ("864E{next}", 1),
    "TM": ("91015000", 1),
    "CLI": ("95105000", 1),
    "MVI": ("92016020", 1),
    "NI": ("94FF6021", 1),
    "OI": ("96006021", 1),
    "XI": ("97016021", 1),
    "TS": ("93006022", 1),
    "STM of 4": ("90256030", 1),
    "LM of 4": ("98255040", 1),
    "ICM of 3": ("BF275000", 1),
    "STCM of 3": ("BE276044", 1),
    "CLM of 3": ("BD275000", 1),
    "CS": ("BA236050", 1),
    "CDS": ("BBE86058", 1),
    "MVC of 8": ("D20760605010", 1),
    "MVC of 256": ("D2FF61005100", 1),
    "MVC that fills 80": ("D24F60716070", 1),
    "CLC of 8": ("D50760605010", 1),
    "NC of 4": ("D40360805010", 1),
    "OC of 4": ("D60360805010", 1),
    "XC of 8": ("D70760886088", 1),
    "MVN of 4": ("D10360805010", 1),
    "MVZ of 4": ("D30360805010", 1),
    "TR of 8": ("DC0760905100", 1),
    "TRT of 8": ("DD0750105200", 1),
    "PACK": ("F27360A050F0", 1),
    "UNPK": ("F37260A850F8", 1),
    "MVO": ("F13260B050F8", 1),
    "EX of MVC": ("44005080", 1),
    "EX of CLC": ("44005088", 1),
    "SSM": ("80005030", 1),
    "STNSM": ("ACFF6024", 1),
    "STOSM": ("AD006025", 1),
    "SSK": ("0846", 1),
    "ISK": ("0946", 1),
    "LCTL": ("B70050C0", 1),
    "STCTL": ("B60060C0", 1),
    "SVC and LPSW": ("0A00", 2),
}
# Drawn programs: how often each kind is among so many.
COMPILED = {
    "L": 16,
    "ST": 9,
    "LA": 9,
    "LR": 8,
    "BC taken": 8,
    "BC not taken": 6,
    "AR": 4,
    "A": 4,
    "LH": 4,
    "SR": 3,
    "C": 3,
    "LTR": 3,
    "IC": 3,
    "TM": 3,
    "CLI": 3,
    "S": 2,
    "CR": 2,
    "BCR": 2,
    "STH": 2,
    "STC": 2,
    "SLL": 2,
    "MVI": 2,
    "BALR": 2,
    "MVC of 8": 2,
    "SRL": 1,
    "SRA": 1,
    "N": 1,
    "O": 1,
    "CLC of 8": 1,
    "STM of 4": 1,
    "LM of 4": 1,
}
SUPERVISOR = {
    "L": 10,
    "ST": 8,
    "LA": 8,
    "BC taken": 6,
    "BC not taken": 5,
    "LR": 5,
    "TM": 5,
    "NI": 3,
    "OI": 3,
    "MVI": 3,
    "CLI": 3,
    "BAL": 3,
    "LH": 3,
    "MVC of 8": 3,
    "STM of 4": 2,
    "LM of 4": 2,
    "IC": 2,
    "STC": 2,
    "AR": 2,
    "SR": 2,
    "LTR": 2,
    "CS": 1,
    "ICM of 3": 1,
    "STCM of 3": 1,
    "SSM": 1,
    "STNSM": 1,
    "STOSM": 1,
    "SVC and LPSW": 1,
}
STRINGS = {
    "MVC of 8": 8,
    "LA": 8,
    "L": 6,
    "CLC of 8": 5,
    "BC not taken": 5,
    "BC taken": 4,
    "IC": 4,
    "STC": 4,
    "TR of 8": 3,
    "MVC of 256": 2,
    "MVC that fills 80": 2,
    "XC of 8": 2,
    "EX of MVC": 2,
    "NC of 4": 1,
    "OC of 4": 1,
    "TRT of 8": 1,
    "PACK": 1,
    "UNPK": 1,
    "EX of CLC": 1,
    "LM of 4": 1,
    "STM of 4": 1,
}
DRAWN = {
    f"drawn as {name}, {seed}": (weights, seed)
    for name, weights in (
        ("compiled code", COMPILED),
        ("a supervisor", SUPERVISOR),
        ("strings", STRINGS),
    )
    for seed in (1, 2, 3)
}
# how many instructions are drawn, whose bytes the displacements of the loop's base reach
DRAWN_COUNT = 400
# The emulator stops at a disabled wait.
CONF = """ARCHMODE S/370
CPUSERIAL 000001
CPUMODEL 3168
MAINSIZE 4
NUMCPU 1
OSTAILOR QUIET
PANRATE SLOW
HERCPRIO 0
CPUPRIO 0
DEVPRIO 0
TODPRIO 0
0009 3215-C
"""
END = 0x900


@dataclass
class Loop:
    """The loop of a kind: its bytes in hexadecimal, and how many instructions a round has."""

    code: str
    units: int


def copies_of(kind: str) -> Any:
    """What is in the loop of a kind, kind by kind."""
    if kind in KINDS:
        return [kind] * COPIES
    weights, seed = DRAWN[kind]
    return random.Random(seed).choices(list(weights), list(weights.values()), k=DRAWN_COUNT)


def loop_of(kind: str) -> Any:
    """The loop that a kind has."""
    code, units = "", 1
    for each in copies_of(kind):
        copy, count = KINDS[each]
        code += copy.format(next=f"A{(len(code) + len(copy.format(next='0000'))) // 2:03X}")
        units += count
    return Loop(code + "4610A000" + f"8200{END:04X}", units)


def stored(loop: Any) -> list:
    """The addresses of storage and the bytes for each, at most sixteen at a time."""
    pieces = {**STORAGE, END: "0002000000000000"}
    return [
        *pieces.items(),
        *((LOOP + at // 2, loop.code[at : at + 32]) for at in range(0, len(loop.code), 32)),
    ]


class Emulator:
    """The emulator, started once for each run: by its commands' file, since it reads no input without a terminal."""

    def __init__(self, room: Any, conf: Any = CONF) -> None:
        self.room = room
        with open(f"{room}/conf", "w", encoding="utf-8") as file:
            file.write(conf)

    def used(self, commands: Any, text: Any) -> Any:
        """Seconds of processor time that it has used when its log has a text."""
        with open(f"{self.room}/commands", "w", encoding="utf-8") as file:
            file.write("".join(f"{command}\n" for command in commands))
        with open(f"{self.room}/log", "wb") as log:
            child = subprocess.Popen(
                ["hercules", "-d", "-f", f"{self.room}/conf"],
                stdin=subprocess.DEVNULL,
                stdout=log,
                stderr=subprocess.STDOUT,
                env={**os.environ, "HERCULES_RC": f"{self.room}/commands"},
            )
        try:
            for _ in range(6000):
                time.sleep(0.02)
                with open(f"{self.room}/log", "rb") as log:
                    if text in log.read():
                        with open(f"/proc/{child.pid}/stat", encoding="utf-8") as stat:
                            return int(stat.read().rsplit(")", 1)[1].split()[11]) / os.sysconf(
                                "SC_CLK_TCK"
                            )
            return sys.exit("the emulator did not end a loop")
        finally:
            child.send_signal(signal.SIGKILL)
            child.wait()

    def rate(self, loop: Any, seconds: Any) -> Any:
        """Million instructions a second: of a run of some seconds, what a run of one round does not take."""
        begun = self.timed(loop, 1)
        rounds = 1000000
        while (taken := self.timed(loop, rounds) - begun) < seconds:
            rounds = max(2 * rounds, int(rounds * 1.2 * seconds / max(taken, 0.05)))
        return rounds * loop.units / taken / 1e6

    def timed(self, loop: Any, rounds: Any) -> Any:
        registers = [f"gpr {name}={value:08X}" for name, value in {**REGISTERS, 1: rounds}.items()]
        storage = [f"r {at:X}={data}" for at, data in stored(loop)]
        return self.used(
            [*registers, *storage, f"r 0=00080000{LOOP:08X}", "restart"], b"isabled wait"
        )


def started(place: Any, loop: Any) -> tuple:
    """The directory or the storage of a bare machine or of one user, and the lines after which his machine runs the loop."""
    user, first = ("A", "USER A PW 256K\n") if place == "user" else ("BARE", "256K")
    typed = [
        "LOGON",
        *(f"STORE G{name} {value:08X}" for name, value in REGISTERS.items()),
        *(f"STORE {at:X} {data}" for at, data in stored(loop)),
        f"BEGIN {LOOP:X}",
    ]
    return user, first, [f"LINE {user} {line}" for line in typed]


def our_rate(bench: Any, place: Any, loop: Any, seconds: Any) -> Any:
    """Million instructions a second of a bare machine or of one user."""
    user, first, ready = started(place, loop)
    units, runs = 1000000, 1
    begun = bench.seconds(first, ready + [f"RUN {user} 1"])
    while (taken := bench.seconds(first, ready + [f"RUN {user} {units}"] * runs) - begun) < seconds:
        runs = max(2 * runs, int(runs * 1.2 * seconds / max(taken, 0.01)))
    return runs * units / taken / 1e6


def host_instructions(bench: Any, place: Any, loop: Any) -> Any:
    """Instructions of the host that one takes."""
    user, first, ready = started(place, loop)
    less, more = (
        bench.instructions(first, ready + [f"RUN {user} {units}"]) for units in (1000, 21000)
    )
    return (more - less) / 20000


def main() -> None:
    program, rounds, seconds, *kinds = sys.argv[1:]
    for kind in kinds:
        if kind not in {**KINDS, **DRAWN}:
            print(
                f"KIND is one of {', '.join({**KINDS, **DRAWN})}, and not {kind}", file=sys.stderr
            )
            sys.exit(WRONG_USE)
    bench, rounds, seconds = Bench(program), int(rounds), float(seconds)
    lines = []
    with tempfile.TemporaryDirectory() as room:
        emulator = Emulator(room)
        for kind in kinds or [*KINDS, *DRAWN]:
            loop = loop_of(kind)
            # They take turns, so that a slow minute of the host is one for all.
            rates = [
                (
                    emulator.rate(loop, seconds),
                    *(our_rate(bench, place, loop, seconds) for place in ("bare", "user")),
                )
                for _ in range(rounds)
            ]
            theirs, bare, user = (max(side) for side in zip(*rates))
            count = (
                f"{host_instructions(bench, 'user', loop):.0f}" if shutil.which("valgrind") else "-"
            )
            lines.append(
                (
                    user / theirs,
                    f"{kind} | {theirs:.1f} | {bare:.1f} | {user:.1f} | {bare / theirs:.2f} | {user / theirs:.2f} | {count}",
                )
            )
    notify(
        "Kind | Emulator | Bare | One user | Bare, ratio | One user, ratio | Host instructions of one user"
    )
    notify("---|---|---|---|---|---|---")
    for _, line in sorted(lines):
        notify(line)


if __name__ == "__main__":
    main()
