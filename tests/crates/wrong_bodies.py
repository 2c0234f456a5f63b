#!/usr/bin/env python3
"""Tries wrong bodies, each of which the prover has to refuse at the contract of its function: those of tests/crates/wrong-bodies.txt, or
of another list, over the libraries that rt ci has built. Only the functions are proved, those of a crate together, so each takes
seconds; must-fail/ has those for which a whole crate is proved once more (docs/PLANTED.md).

    tests/crates/wrong_bodies.py [--jobs N] [--list FILE] [CRATE]..

A line for each check says how many seconds it took. The last line is 'N passed, M failed'."""
from __future__ import annotations

import argparse
import concurrent.futures
import os
import re
import shutil
import subprocess
import sys
import tempfile
import time

sys.dont_write_bytecode = True
TOP = os.path.dirname(os.path.dirname(os.path.dirname(os.path.realpath(__file__))))
sys.path.insert(0, TOP)

from tests.lib.counting import report
from tests.lib.host import done_in

LIST = f"{TOP}/tests/crates/wrong-bodies.txt"
# what a check of a crate reads
PARTS = ("src", "specs", "proofs")
# a wrong body takes a minute or two
SECONDS = 900


def bodies_of(path: str) -> list:
    """The wrong bodies of a list: crate, name, function."""
    with open(path, encoding="utf-8") as file:
        lines = [line.split() for line in file if line.strip() and not line.startswith("#")]
    return [tuple(line) for line in lines]


def dependencies() -> dict:
    """Of each crate those on which it is, as crates.txt says; what it does not list is the kit's."""
    with open(f"{TOP}/crates.txt", encoding="utf-8") as file:
        lines = [line.partition(":") for line in file if line.strip() and not line.startswith("#")]
    return {name.strip(): rest.split() for name, _, rest in lines}


def below(crate: str, known: object) -> object:
    """All crates of the repository below one, each after those on which it is."""
    found = []
    for dep in (item for item in known[crate] if item in known):
        found += [item for item in [*below(dep, known), dep] if item not in found]
    return found


def check_words(crate: str, functions: object, kit: object) -> list:
    """The prover's words for some functions, over the libraries as they stand."""
    known = dependencies()
    of_kit = ["std", *[item for item in known[crate] if item not in known]]
    rlibs = {item: f"{TOP}/crates/{item}/out/rlib" for item in below(crate, known)}
    # a program has no library
    root = next(
        name for name in ("lib", "main") if os.path.isfile(f"{TOP}/crates/{crate}/src/{name}.rt")
    )
    words = [f"{kit}/bin/rattle", "check", "--crate-name", crate, f"src/{root}.rt"]
    for name in of_kit:
        words += ["--extern", f"{name}={kit}/rlibs/{name}.rlib"]
    words += ["-L", f"dependency={kit}/rlibs"]
    for name in (item for item in known[crate] if item in known):
        words += ["--extern", f"{name}={rlibs[name]}/{name}.rlib"]
    for folder in rlibs.values():
        words += ["-L", f"dependency={folder}"]
    words += [
        "--antt-project",
        f"{kit}/rattle/logic/antt-project.json",
        "--logic-built",
        f"{kit}/logic_built",
    ]
    only = (word for function in functions for word in ("--only", function))
    return [*words, "--jobs", "1", "--links", f"{crate}=", *only]


def edit(body: object, folder: str, texts: object) -> object:
    """Makes the changes of a wrong body in texts, the files that are changed already; why it can't be made, or None."""
    path, old, changes = "", "", 0
    for line in body.splitlines():
        if line.startswith("file: "):
            path = line[len("file: ") :].strip()
            if not os.path.isfile(f"{folder}/{path}"):
                return f"there is no {path}"
        elif line.startswith("old: "):
            old = line[len("old: ") :]
        elif line.startswith("new: "):
            if path not in texts:
                with open(f"{folder}/{path}", encoding="utf-8") as file:
                    texts[path] = file.read()
            if texts[path].count(old) != 1:
                return f"its old text stands {texts[path].count(old)} times in {path}"
            texts[path] = texts[path].replace(old, line[len("new: ") :])
            changes += 1
    return None if changes else "it has no old and new text"


def judged(done: object, crate: str, changed: object, functions: object) -> object:
    """What the check of changed functions came to, of each: None where its contract refused it, else why not."""
    lines = done.stdout.rstrip("\n").split("\n")
    findings = [line for line in lines if re.match(r"(note: )?\S+:\d+:\d+: error", line)]
    unread = [
        line
        for line in findings
        if re.search(r"error\[[\w-]+\]|is not in scope|has no field|expected ", line)
        and line.removeprefix("./").startswith(tuple(changed))
    ]
    if unread:
        return dict.fromkeys(functions, f"no contract was tried: {unread[0][:200]}")
    if done.returncode not in (0, 1):
        return dict.fromkeys(
            functions,
            "\n    ".join([f"the check ended with status {done.returncode}", *lines[-6:]]),
        )
    ends = dict(
        found.groups()
        for line in lines
        if (found := re.match(r"fn (\S+): ((?:not proved|no proof).*)", line))
    )
    ends = {
        function: ends.get(f"{crate}::{function}", "it is still proved") for function in functions
    }
    # one that only calls another that is refused is none
    own = re.compile(r"did not prove|^(?!.*it calls)(?:not proved|no proof)")
    return {item: None if own.search(end) else end for item, end in ends.items()}


def tried(kit: object, crate: str, bodies: object, kept: str) -> object:
    """Tries wrong bodies of a crate, by their functions, in one check, which takes what earlier ones have kept in a folder: of each its
    name, and why its contract does not refuse it, or None."""
    folder, texts, ends = f"{TOP}/crates/{crate}", {}, []
    for function, name in list(bodies.items()):
        with open(f"{folder}/planted/{name}.edit", encoding="utf-8") as file:
            changed = dict(texts)
            if why := edit(file.read(), folder, changed):
                ends.append((name, why))
                bodies = {other: body for other, body in bodies.items() if other != function}
            else:
                texts = changed
    if not bodies:
        return ends
    with tempfile.TemporaryDirectory() as room:
        for part in (part for part in PARTS if os.path.isdir(f"{folder}/{part}")):
            shutil.copytree(f"{folder}/{part}", f"{room}/{part}")
        for path, text in texts.items():
            with open(f"{room}/{path}", "w", encoding="utf-8") as file:
                file.write(text)
        words = [*check_words(crate, bodies, kit), "--incremental", kept]
        try:
            done = done_in(room, words, SECONDS)
        except subprocess.TimeoutExpired:
            return [
                *ends,
                *((name, f"no verdict in {SECONDS} seconds") for name in bodies.values()),
            ]
    for function, why in judged(done, crate, texts, bodies).items():
        # one that calls another is tried again alone
        is_again = why and "it calls" in why and len(bodies) > 1
        ends += (
            tried(kit, crate, {function: bodies[function]}, kept)
            if is_again
            else [(bodies[function], why)]
        )
    return ends


def tried_crate(kit: object, crate: str, checks: list) -> list:
    """Tries the wrong bodies of a crate, in these checks one after another, and prints how many seconds each takes. What it proves of other
    functions is kept for the next."""
    found = []
    with tempfile.TemporaryDirectory() as kept:
        for bodies in checks:
            begun = time.monotonic()
            ends = tried(kit, crate, bodies, kept)
            seconds = time.monotonic() - begun
            names = ", ".join(sorted(bodies.values()))
            print(f"{seconds:4.0f} seconds: {crate}, {names}", flush=True)
            found += ends
    return found


def rounds(bodies: list) -> dict:
    """The checks that try all bodies, by crates: of each function its wrong body."""
    checks: dict = {}
    for crate, name, function in bodies:
        of_crate = checks.setdefault(crate, [])
        some = next((some for some in of_crate if function not in some), None)
        if some is None:
            of_crate.append(some := {})
        some[function] = name
    return checks


def main() -> int:
    parser = argparse.ArgumentParser(description=__doc__.split("\n", maxsplit=1)[0])
    parser.add_argument("--jobs", type=int, default=2)
    parser.add_argument("--list", default=LIST)
    parser.add_argument("crates", nargs="*", metavar="CRATE")
    words = parser.parse_args()
    # the page to read first is in the kit's folder
    kit = os.path.dirname(
        subprocess.run(["rt", "doc"], check=True, capture_output=True, text=True).stdout.strip()
    )
    bodies = [body for body in bodies_of(words.list) if not words.crates or body[0] in words.crates]
    failed = 0
    with concurrent.futures.ThreadPoolExecutor(words.jobs) as pool:
        checks = {
            pool.submit(tried_crate, kit, crate, some): crate
            for crate, some in rounds(bodies).items()
        }
        for check in concurrent.futures.as_completed(checks):
            for name, why in (end for end in check.result() if end[1]):
                failed += 1
                print(f"FAILED: {checks[check]}, {name}: {why}", flush=True)
    return report(len(bodies) - failed, failed)


if __name__ == "__main__":
    sys.exit(main())
