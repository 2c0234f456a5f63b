#!/usr/bin/env python3
"""Runs the programs of tests/programs/, which look at what no script shows of the crates. Nothing of them is proved: `rt try` compiles
them with all that they call, and stops at an index out of bounds, an overflow, or a byte that is read where there is none. Each
has to print what its `stdout` has.

Of a check with a file `refused` each word is also run alone, and each of its allocations refused once: the run has to end with
status 1 and a line of that file, or to do without it. The last line of the file says how many all the words do without. The last
allocation of a run is one that is needed, and that says END: so each before it is tried, needed or not.

    tests/programs/run.py [NAME]..

The last line is 'N passed, M failed'."""
from __future__ import annotations

from collections.abc import Iterator
import contextlib
import glob
import os
import re
import shutil
import subprocess
import sys
import tempfile
import time
from concurrent.futures import ThreadPoolExecutor

sys.dont_write_bytecode = True
TOP = os.path.dirname(os.path.dirname(os.path.dirname(os.path.realpath(__file__))))
sys.path.insert(0, TOP)

from tests.lib.counting import report

PROGRAMS = f"{TOP}/tests/programs"
# what the names of sources end with that nothing proves: rt ci takes no .rt file that it does not prove
UNPROVED = "-unproved"
# what of a crate no check needs
LEFT_OUT = {"out", "data", "must-fail", "planted"}
# what one takes at most
SECONDS = 900
# rt try --fail-alloc takes one number, which it compiles into the program, and a build takes a minute. So there is one build, for a
# number that no run reaches, and each run is given its own in that place. It is where memory is given, and where more of it is
NUMBER = 0x6B3F91D258A704EC
PLACES = 2
# what a run says whose last allocation is refused, and a number that no allocation of a run has
END = "Error: this was the last allocation\n"
MOST = 4096


class Fault(Exception):
    """Why a check fails."""


def read(path: str) -> object:
    with open(path, encoding="utf-8") as file:
        return file.read()


def repository(folder: str, checks: object) -> None:
    """A repository of copies, in which the checks stand next to the crates."""
    for name in os.listdir(f"{TOP}/crates"):
        shutil.copytree(
            f"{TOP}/crates/{name}",
            f"{folder}/crates/{name}",
            ignore=lambda at, found: {*found} & LEFT_OUT,
        )
    for name in checks:
        shutil.copytree(f"{PROGRAMS}/{name}", f"{folder}/crates/{name}")
        for place, _, files in os.walk(f"{folder}/crates/{name}"):
            for file in files:
                os.rename(f"{place}/{file}", f"{place}/{file.removesuffix(UNPROVED)}")
    with open(f"{folder}/crates.txt", "w", encoding="utf-8") as file:
        file.write(read(f"{TOP}/crates.txt") + read(f"{PROGRAMS}/libraries.txt"))
    shutil.copy(f"{TOP}/HANDLES", folder)


# --- refused memory ---


class Refusing:
    """The program of a check, which refuses itself one allocation."""

    def __init__(self, path: str) -> None:
        if not os.path.exists(path):
            raise Fault("rt try made no program where it was looked for")
        with open(path, "rb") as file:
            program = file.read()
        self.path = path
        self.places = [match.start() for match in re.finditer(re.escape(bytes_of(NUMBER)), program)]
        if len(self.places) != PLACES:
            raise Fault(
                f"the number of rt try --fail-alloc stands {len(self.places)} times in the program, and not {PLACES} times"
            )

    def run(self, word: str, number: int) -> object:
        """A run for this word, in which the allocation of this number is refused."""
        with open(self.path, "r+b") as file:
            for place in self.places:
                file.seek(place)
                file.write(bytes_of(number))
        return subprocess.run(
            [self.path, word], env={}, capture_output=True, text=True, timeout=SECONDS
        )

    def runs(self, word: str) -> Iterator:
        """A run for each allocation but the last, which is refused there."""
        for number in range(1, MOST):
            ended = self.run(word, number)
            if ended.stderr == END:
                return
            yield ended
        raise Fault(f"{word}: no allocation below {MOST} says {END}")


def bytes_of(number: int) -> bytes:
    """As they stand in a program."""
    return number.to_bytes(8, "little")


def refuse_each(program: str, words: list[str], lines: list) -> None:
    """Refuses each allocation once."""
    count, without = 0, dict.fromkeys(words, 0)
    for word in words:
        for number, ended in enumerate(program.runs(word), 1):
            if ended.returncode and (ended.returncode != 1 or ended.stderr not in lines):
                raise Fault(
                    f"{word} without allocation {number}: status {ended.returncode}\n{ended.stdout}{ended.stderr}"
                )
            count += 1
            without[word] += not ended.returncode
    findings = f"done without: {sum(without.values())}\n"
    if findings != lines[-1]:
        raise Fault(f"of {count} allocations {findings}{without}")
    print(f"allocations refused: {count}")


def keeping(command: str, path: str, **how: object) -> object:
    """What rt try answers. The program that it makes has then this name too, and stays."""
    with tempfile.TemporaryDirectory(prefix="checks-") as place, ThreadPoolExecutor(1) as pool:
        ended = pool.submit(subprocess.run, command, env=os.environ | {"TMPDIR": place}, **how)
        while not ended.done():
            for made in glob.glob(f"{place}/**/program", recursive=True):
                # it is there already, or the run is over
                with contextlib.suppress(OSError):
                    os.link(made, path)
            time.sleep(0.05)
        return ended.result()


# --- a check ---


def see_format(crate: str) -> None:
    """rt fmt leaves it as it is."""
    shaped = subprocess.run(["rt", "fmt"], cwd=crate, capture_output=True, text=True)
    if shaped.returncode or "formatted" in shaped.stdout + shaped.stderr:
        raise Fault(f"rt fmt writes it otherwise\n{shaped.stdout}{shaped.stderr}")


def see_printed(crate: str, words: list[str], program: str, options: object) -> None:
    """rt try prints what it has to print, and the program stays under this name."""
    # one step of the interpreter that rt runs next to the compiled program
    command = ["rt", "try", "--steps", "1", "--seconds", str(SECONDS), *options, "--", *words]
    ended = keeping(command, program, cwd=crate, capture_output=True, text=True, timeout=SECONDS)
    if ended.returncode:
        raise Fault(f"status {ended.returncode}\n{ended.stdout}{ended.stderr}")
    wanted = read(f"{crate}/stdout")
    if ended.stdout != wanted:
        raise Fault(f"it has to print\n{wanted}and it printed\n{ended.stdout}{ended.stderr}")


def see_check(folder: str, name: str) -> None:
    """A check is as it has to be."""
    crate, program = f"{folder}/crates/{name}", f"{folder}/{name}"
    see_format(crate)
    if not os.path.exists(f"{crate}/src/main.rt"):
        return
    words = read(f"{crate}/args").split()
    options = [
        word
        for item in words
        if os.path.exists(f"{crate}/data/{item}")
        for word in ("--data", f"{item}=data/{item}")
    ]
    if not os.path.exists(f"{crate}/refused"):
        see_printed(crate, words, program, options)
        return
    see_printed(crate, words, program, ["--fail-alloc", str(NUMBER), *options])
    refuse_each(Refusing(program), words, read(f"{crate}/refused").splitlines(keepends=True))


def fault_of(folder: str, name: str) -> str | None:
    """Why a check fails, or None."""
    try:
        see_check(folder, name)
    except Fault as fault:
        return str(fault)
    except subprocess.TimeoutExpired:
        return f"it did not end within {SECONDS} seconds"
    return None


def main() -> int:
    known = [
        name for name in sorted(os.listdir(PROGRAMS)) if os.path.isdir(f"{PROGRAMS}/{name}/src")
    ]
    chosen = sys.argv[1:] or known
    for name in chosen:
        if name not in known:
            sys.exit(f"there is no check {name}: {' '.join(known)}")
    failed = 0
    with tempfile.TemporaryDirectory(prefix="checks-") as folder:
        repository(folder, known)
        for name in chosen:
            fault = fault_of(folder, name)
            failed += fault is not None
            print(f"{name}: {fault or 'passed'}", flush=True)
    return report(len(chosen) - failed, failed)


if __name__ == "__main__":
    sys.exit(main())
