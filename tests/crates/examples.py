#!/usr/bin/env python3
"""Tests the examples of the crates: those of the first pages, which are the //! lines at the head of crates/NAME/src/lib.rt, and
those under `# Examples` in doc comments. Each fenced block there becomes a function, with `rt` and `alloc` at hand, of a crate that
is made for them; rt try runs it, without any proof, so this takes two to three minutes. It reports which example is refused, which
asserts what does not hold or nothing at all, and which crate has none.

    tests/crates/examples.py [CRATE]..

The last line is 'N passed, M failed'."""
from __future__ import annotations

import os
import re
import shutil
import sys
import tempfile

sys.dont_write_bytecode = True
TOP = os.path.dirname(os.path.dirname(os.path.dirname(os.path.realpath(__file__))))
sys.path.insert(0, TOP)

from tests.lib.counting import report
from tests.lib.host import done_in

SCRATCH = "page_examples"
HEAD = "use std::test::Fail;\n"
BEGIN = """
#[test]
fn line_{}(rt: HostRuntime) -> Result<(), Fail> {{
    let alloc = rt.alloc();
"""
END = """    Ok(())
}
"""
PLACE = re.compile(r"src/of_(\w+)\.rt:(\d+):\d+")
# a compilation takes a minute, and a round is wanted for each kind of refusal
SECONDS = 1200


def page_of(crate: str) -> list:
    """The first page of a crate, line by line."""
    with open(f"{TOP}/crates/{crate}/src/lib.rt", encoding="utf-8") as file:
        lines = file.read().split("\n")
    count = next((at for at, line in enumerate(lines) if not line.startswith("//!")), len(lines))
    return [line.removeprefix("//!").removeprefix(" ") for line in lines[:count]]


def blocks_of(lines: list) -> list:
    """The fenced blocks of numbered lines: the number of the first line of each, and its lines."""
    found, block = [], None
    for number, line in lines:
        if not line.startswith("```"):
            if block is not None:
                block[1].append(line)
        elif block is None:
            block = (number + 1, [])
        else:
            found.append(block)
            block = None
    # a block that is not closed ends in what is no code, and so is refused
    return found if block is None else [*found, (block[0], [*block[1], "```"])]


def comments_of(path: str) -> list:
    """The examples under `# Examples` in the doc comments of a file."""
    with open(path, encoding="utf-8") as file:
        lines = [line.strip() for line in file]
    found, taken = [], None
    for number, line in enumerate(lines, 1):
        text = line.removeprefix("///").removeprefix(" ") if line.startswith("///") else None
        if text == "# Examples":
            taken = []
        elif taken is not None and text is not None and not text.startswith("# "):
            taken.append((number, text))
        elif taken is not None:
            found += blocks_of(taken)
            taken = None
    return found


def pages_of(crate: str) -> dict:
    """The examples of a crate by the files that have them: of its first page, and of doc comments."""
    source = f"{TOP}/crates/{crate}/src"
    pages = {f"{crate}/src/lib.rt": blocks_of(list(enumerate(page_of(crate), 1)))}
    for folder, _, names in sorted(os.walk(source)):
        for name in sorted(name for name in names if name.endswith(".rt")):
            path = os.path.relpath(f"{folder}/{name}", f"{TOP}/crates")
            examples = comments_of(f"{folder}/{name}")
            if examples:
                pages[path] = pages.get(path, []) + examples
    return pages


def module_name(path: str) -> str:
    """The module in which the examples of a file are."""
    return path.removesuffix(".rt").replace("/src/", "__").replace("/", "__")


def module_of(examples: object) -> tuple:
    """The text of a module with these examples, and for each of its lines the first line of its example and its own, as the page
    counts them."""
    text, places = HEAD, [None] * HEAD.count("\n")
    for first, block in examples:
        last = first + len(block) - 1
        for part, numbers in [
            (BEGIN.format(first), [first] * BEGIN.count("\n")),
            ("".join(f"    {line}\n" for line in block), range(first, last + 1)),
            (END, [last] * END.count("\n")),
        ]:
            text += part
            places += [(first, number) for number in numbers]
    return text, places


def libraries() -> list:
    """The crates of the repository that are libraries."""
    names = sorted(os.listdir(f"{TOP}/crates"))
    return [name for name in names if os.path.isfile(f"{TOP}/crates/{name}/src/lib.rt")]


def write(path: str, text: str) -> None:
    os.makedirs(os.path.dirname(path), exist_ok=True)
    with open(path, "w", encoding="utf-8") as file:
        file.write(text)


def make_repository(room: int, pages: object) -> None:
    """Makes a repository of the sources of this one, and lists one crate more, which has the libraries that the examples name."""
    with open(f"{TOP}/crates.txt", encoding="utf-8") as file:
        text = file.read()
    entries = [
        line.partition(":")
        for line in text.splitlines()
        if line.strip() and not line.startswith("#")
    ]
    for name, _, _ in entries:
        os.makedirs(f"{room}/crates/{name.strip()}")
        os.symlink(f"{TOP}/crates/{name.strip()}/src", f"{room}/crates/{name.strip()}/src")
    named = {
        word
        for examples in pages.values()
        for _, block in examples
        for word in re.findall(r"\b(\w+)::", "\n".join(block))
    }
    known = {*libraries(), *(word for _, _, rest in entries for word in rest.split())}
    write(f"{room}/crates.txt", f"{text}\n{SCRATCH}: {' '.join(sorted(named & known))}\n")


def run(room: int, pages: object) -> tuple:
    """Runs the examples of these crates; what rt try wrote, and where the lines of each module stand."""
    places = {}
    shutil.rmtree(f"{room}/crates/{SCRATCH}", ignore_errors=True)
    for path, examples in pages.items():
        text, places[module_name(path)] = module_of(examples)
        write(f"{room}/crates/{SCRATCH}/src/of_{module_name(path)}.rt", text)
    modules = "".join(f"#[cfg(test)]\nmod of_{module_name(path)};\n" for path in pages)
    write(f"{room}/crates/{SCRATCH}/src/lib.rt", f"#![tactic(auto)]\n\n{modules}")
    done = done_in(f"{room}/crates/{SCRATCH}", ["rt", "try", "--test"], SECONDS)
    return done.stdout, places


def refused(written: object, places: object) -> object:
    """Of an output the examples that do not compile: module, first line, the line of the file, and why."""
    found = {}
    for line in written.splitlines():
        place = PLACE.match(line)
        if place and ": error" in line:
            crate, at = place[1], places[place[1]][int(place[2]) - 1]
            if at is not None:
                found.setdefault((crate, at[0]), (at[1], line.partition(": ")[2]))
    return found


def failed(written: object, places: object) -> object:
    """Of an output the examples that failed when they ran, likewise."""
    found = {}
    for crate, first, why in re.findall(
        r"^test of_(\w+)::line_(\d+) \.\.\. FAILED\n((?:    .*\n)*)", written, re.M
    ):
        place = PLACE.search(why)
        number = places[crate][int(place[2]) - 1][1] if place else int(first)
        findings = [line.strip() for line in why.splitlines() if not PLACE.search(line)]
        found[crate, int(first)] = (number, "; ".join(findings))
    return found


def tried(pages: object) -> object:
    """The examples that do not hold, as `refused` gives them; those that compile are run without those that do not."""
    found, left = {}, pages
    with tempfile.TemporaryDirectory() as room:
        make_repository(room, pages)
        while any(left.values()):
            written, places = run(
                room, {path: examples for path, examples in left.items() if examples}
            )
            wrong = refused(written, places)
            found |= wrong
            if not wrong:
                if "\ntest result: " not in written:
                    print(f"{written}\nFAILED: the examples were not run\n0 passed, 1 failed")
                    raise SystemExit(1)
                return found | failed(written, places)
            left = {
                path: [
                    example for example in examples if (module_name(path), example[0]) not in wrong
                ]
                for path, examples in left.items()
            }
    return found


def main(names: list[str]) -> int:
    pages = {}
    for crate in names or libraries():
        pages |= pages_of(crate)
    faults = [
        f"crates/{path}: its first page has no example"
        for path, examples in pages.items()
        if not examples
    ]
    silent = {
        (module_name(path), first): (first, "it asserts nothing")
        for path, examples in pages.items()
        for first, block in examples
        if not any("assert" in line for line in block)
    }
    wrong = silent | tried(pages)
    paths = {module_name(path): path for path in pages}
    faults += [
        f"crates/{paths[module]}:{number}: {why}"
        for (module, _), (number, why) in sorted(wrong.items())
    ]
    for fault in faults:
        print(f"FAILED: {fault}")
    return report(sum(map(len, pages.values())) - len(wrong), len(faults))


if __name__ == "__main__":
    sys.exit(main(sys.argv[1:]))
