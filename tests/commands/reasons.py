#!/usr/bin/env python3
"""Tests that each faulty text, image or argument of tests/commands/reasons.txt is answered by a line that says what is wrong. The commands
are laid out as bin/install does it, with stand-ins that report the program's line of the table; with --built the programs that rt ci has
built report it, with --unproved those that run without proof. Each script, directory and text of a volume that the tables of
tests/transcripts refuse has some reason too. With programs files fail too (tests/commands/failing_files.py). The last line is 'N passed, M
failed'."""
from __future__ import annotations

from collections.abc import Iterator
import glob
import os
import re
import subprocess
import sys
import tempfile

sys.dont_write_bytecode = True
TOP = os.path.dirname(os.path.dirname(os.path.dirname(os.path.realpath(__file__))))
sys.path[:0] = [TOP, f"{TOP}/bin/lib"]
from gathjumli.reasons import reason
from tests.commands import failing_files
from tests.lib.counting import report
from tests.lib.installed import install, program_of
from tests.transcripts.program_runs import bytes_of, text_of

TABLE = f"{TOP}/tests/commands/reasons.txt"
# how many runs the table has at least, how many of them name file, line and column, and how many texts the others refuse
FEWEST, FEWEST_PLACED, FEWEST_REFUSED = 100, 80, 225
# and how many runs there are with files that fail
FEWEST_FAILING = 250
# a reason after file, line and column
PLACED = re.compile("[a-z]+:[0-9]+:[0-9]+: ")
STAND_IN = '#!/bin/sh\nprintf "%s\\n" "$FAULT" >&2\nexit 1\n'


class Run:
    """A run of the table: the files that it needs, its words, and the lines that it has to report."""

    def __init__(self, files: list, words: list[str]) -> None:
        self.files, self.words, self.fault, self.reason = dict(files), words, "", ""


def runs_of(text: str) -> object:
    """The runs of the table; the files of a paragraph stay from run to run."""
    files, found = {}, []
    for line in text.split("\n"):
        mark, _, rest = line.partition(" ")
        name, _, spelled = rest.partition(" ")
        if not line:
            files = {}
        elif mark == "<":
            files[name] = text_of(spelled)
        elif mark == ">":
            files["script"] = (
                files["script"] + b"\n" + text_of(rest) if "script" in files else text_of(rest)
            )
        elif mark == "x":
            files[name] = bytes_of(spelled.split())
        elif mark == "+":
            files[name] = files.get(name, b"") + bytes_of(spelled.split())
        elif mark == "$":
            found.append(Run(files, rest.split(" ")))
        elif mark == "!":
            found[-1].fault = rest
        elif mark == "~":
            found[-1].reason = rest
    return found


def lay_out(folder: str, argument: str) -> None:
    """The commands and their program, as an installation has them."""
    if argument:
        install(folder, program_of(argument == "--unproved"))
    else:
        install(folder, text=STAND_IN)


def difference(run: object, folder: str) -> str | None:
    """What of a run is not as the table says, or None."""
    work = tempfile.mkdtemp(dir=folder)
    for name, data in run.files.items():
        with open(f"{work}/{name}", "wb") as file:
            file.write(data)
    words = [f"{folder}/bin/{run.words[0]}", *run.words[1:]]
    done = subprocess.run(
        words,
        cwd=work,
        env={**os.environ, "FAULT": run.fault},
        stdin=subprocess.DEVNULL,
        capture_output=True,
    )
    lines = done.stderr.decode(errors="replace").splitlines()
    # a command that drives a program has it reported by the program's own command
    notifier = {"terminal": "vm370"}.get(run.words[0], run.words[0]) if run.fault else run.words[0]
    wanted = f"{notifier}: {run.reason}"
    place = PLACED.match(run.reason)
    if place:
        # what follows are later faults
        wanted = run.reason
        is_right = lines[:1] == [run.fault] and wanted in lines
    elif run.fault:
        is_right = lines[:1] == [run.fault] and lines[-1] == wanted
    else:
        is_right = lines[:1] == [wanted]
    if not is_right or done.stdout or done.returncode != (1 if run.fault else 2):
        return "\n    ".join(
            [
                " ".join(run.words),
                f"wanted: {run.fault} {wanted}",
                f"status {done.returncode}",
                *lines[:8],
            ]
        )
    return None


def refused_texts() -> Iterator:
    """The runs of the other tables that refuse a text, whose lines begin with the status."""
    for path in sorted(glob.glob(f"{TOP}/tests/transcripts/runs-*.txt")):
        with open(path, encoding="latin-1") as file:
            for run in runs_of(file.read()):
                run.fault = run.fault.partition(" ")[2]
                if re.match("fault: (script|directory|text) ", run.fault):
                    yield run


def without_reason(run: object) -> object:
    """A run of another table whose fault has no reason, or None."""
    texts = [run.files.get(name, b"") for name in ("directory", "script", "text")]
    is_there = reason(run.fault, *texts, is_bare=run.words[0] == "bare370")
    return None if is_there else f"{' '.join(run.words)}: {run.fault} has no reason: {texts}"


def main(argument: object) -> int:
    os.environ.pop("GATHJUMLI_UNPROVED", None)
    with open(TABLE, encoding="latin-1") as file:
        runs = runs_of(file.read())
    with tempfile.TemporaryDirectory() as folder:
        lay_out(folder, argument)
        failed = [item for item in (difference(run, folder) for run in runs) if item]
        cases = failing_files.try_files(folder, f"{folder}/failing") if argument else []
    failed += [f"{case}: {what}" for case, what in cases if what]
    placed = sum(bool(PLACED.match(run.reason)) for run in runs)
    refused = list(refused_texts())
    failed += [item for item in map(without_reason, refused) if item]
    if len(runs) < FEWEST or placed < FEWEST_PLACED or len(refused) < FEWEST_REFUSED:
        failed.append(
            f"there are {len(runs)} runs, {placed} with a place, and {len(refused)} refused texts"
        )
    if argument and len(cases) < FEWEST_FAILING:
        failed.append(f"there are {len(cases)} runs with files that fail")
    for entry in failed:
        print(f"FAILED: {entry}")
    return report(len(runs) + len(refused) + len(cases) - len(failed), len(failed))


if __name__ == "__main__":
    if sys.argv[1:] not in ([], ["--built"], ["--unproved"]):
        sys.exit(__doc__)
    sys.exit(main((sys.argv[1:] or [""])[0]))
