#!/usr/bin/env python3
"""Tests what CONTRIBUTING.md says of the text of crates: lines of src/ and specs/ have at most 100 columns, unless a text or an
attribute in them is long, and those of proofs/ 120; each definition in specs/, and each lemma that another file uses, has a
sentence above it; and the doc comment of each public function that returns a Result has `# Errors`.

    tests/texts/comments.py [CRATE]..

The last line is 'N passed, M failed'."""
from __future__ import annotations

import glob
import os
import re
import sys

sys.dont_write_bytecode = True
TOP = os.path.dirname(os.path.dirname(os.path.dirname(os.path.realpath(__file__))))
sys.path.insert(0, TOP)

from tests.lib.counting import report

WIDTH = 100
WIDTH_OF_PROOFS = 120
# lines that a text, an attribute, an example or one name makes long
LONG = re.compile(r'"|^\s*#\[|^\s*//|^use .* as |^use [^, ]*$')
DEFINITION = re.compile(
    r"(abbrev |opaque )?(pub )?(abbrev |opaque |record |data )*(?P<name>\w+) ?[:({]"
)
HEAD = re.compile(r"(abbrev|opaque|pub|record|data)\b")
FUNCTION = re.compile(r"\s*pub fn (\w+)")
LEMMA = re.compile(r"pub (record |data |abbrev )?(?P<name>[\w'-]+) ?[:({]")
# what a proof or a tactic takes from a file of proofs/
TAKEN = re.compile(r"use Rattle\.(\w+)\.proofs\.([\w.]+)\.\{([^}]*)\}")
APPLIED = re.compile(r"\b(\w+)::proofs::([\w:]+)::(\w+)")
# crates that only test others
TESTS = {"promise_checks", "side_by_side"}
# definitions of which each line says all
PLAIN = {("crates/saved_bytes/specs/Codes.antt", "flag")}


def lines_of(path: str) -> list[str]:
    with open(path, encoding="utf-8") as file:
        return file.read().split("\n")


def signature(lines: list[str], at: int) -> str:
    """What a function takes and returns, in one line."""
    text = ""
    for line in lines[at:]:
        if re.match(r"\s*(requires|ensures)\b", line) or line.strip() == "{":
            break
        text += f" {line.strip()}"
        if line.rstrip().endswith(("{", ";")):
            break
    return text


def doc_comment(lines: list[str], at: int) -> str:
    """The doc comment above a line, between which attributes and comments of the code may stand."""
    found = []
    for line in reversed(lines[:at]):
        if line.strip().startswith("///"):
            found.append(line.strip())
        elif not line.strip().startswith(("#[", "//")):
            break
    return "\n".join(reversed(found))


def wide(path: str, lines: list[str], width: int = WIDTH) -> list[str]:
    return [
        f"{path}:{number}: {len(line)} columns"
        for number, line in enumerate(lines, 1)
        if len(line) > width and not LONG.search(line)
    ]


def taken() -> set[tuple[str, str, str]]:
    """The lemmas that another file uses: crate, file and name."""
    found = set()
    for path in glob.glob(f"{TOP}/crates/*/[sp]*/**/*.*t", recursive=True):
        crate, text = os.path.relpath(path, TOP).split("/")[1], "\n".join(lines_of(path))
        for user, file, names in TAKEN.findall(text):
            found |= {
                (user, file.replace(".", "/"), name.split()[0])
                for name in names.split(",")
                if name.strip()
            }
        for user, file, name in APPLIED.findall(text):
            found.add((crate if user == "crate" else user, file.replace("::", "/"), name))
    return found


def unsaid_lemmas(crate: str, path: str, lines: list[str], used: set) -> list[str]:
    """The lemmas of a file that another one uses, and that have no sentence above them."""
    file = os.path.relpath(path, f"crates/{crate}/proofs").removesuffix(".antt")
    return [
        f"{path}:{number}: {found['name']} has no sentence above it"
        for number, line in enumerate(lines, 1)
        if (found := LEMMA.match(line))
        and (crate, file, found["name"]) in used
        and not lines[number - 2].startswith("--")
    ]


def unsaid(path: str, lines: list[str]) -> list[str]:
    """The definitions of a file without a sentence above them."""
    return [
        f"{path}:{number}: {found['name']} has no sentence above it"
        for number, line in enumerate(lines, 1)
        if HEAD.match(line)
        and (found := DEFINITION.match(line))
        and (path, found["name"]) not in PLAIN
        and not lines[number - 2].startswith("--")
    ]


def without_errors(path: str, lines: list[str]) -> list[str]:
    """The public functions of a file that return a Result, and do not say which errors there are."""
    return [
        f"{path}:{number}: {function[1]} says no errors"
        for number, line in enumerate(lines, 1)
        if (function := FUNCTION.match(line))
        and "-> Result<" in signature(lines, number - 1)
        and "# Errors" not in doc_comment(lines, number - 1)
    ]


def main(names: list[str]) -> int:
    faults, passed, used = [], 0, taken()
    for crate in names or sorted(os.listdir(f"{TOP}/crates")):
        folder = f"{TOP}/crates/{crate}"
        found = []
        for path in sorted(glob.glob(f"{folder}/src/**/*.rt", recursive=True)):
            lines, place = lines_of(path), os.path.relpath(path, TOP)
            found += [] if crate in TESTS else wide(place, lines) + without_errors(place, lines)
        for path in sorted(glob.glob(f"{folder}/specs/**/*.antt", recursive=True)):
            lines, place = lines_of(path), os.path.relpath(path, TOP)
            found += wide(place, lines) + unsaid(place, lines)
        for path in sorted(glob.glob(f"{folder}/proofs/**/*.antt", recursive=True)):
            lines, place = lines_of(path), os.path.relpath(path, TOP)
            found += wide(place, lines, WIDTH_OF_PROOFS) + unsaid_lemmas(crate, place, lines, used)
        faults += found
        passed += not found
    for fault in faults:
        print(f"FAILED: {fault}")
    return report(passed, len(faults))


if __name__ == "__main__":
    sys.exit(main(sys.argv[1:]))
