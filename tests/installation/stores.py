#!/usr/bin/env python3
"""Tests installations that are kept in PostgreSQL, over a primary with a synchronous copy that are made in a folder and fail in many ways.
Programs are stand-ins. With --mutants each planted fault has to be caught. The last line is 'N passed, M failed', or says what is to be
installed."""
from __future__ import annotations

from collections.abc import Callable
import atexit
import importlib.util
import os
import re
import shutil
import subprocess
import sys
import tempfile
import time

sys.dont_write_bytecode = True
TOP = os.path.dirname(os.path.dirname(os.path.dirname(os.path.realpath(__file__))))
sys.path[:0] = [TOP, f"{TOP}/bin/lib"]
from tests.installation import servers, store_cases
from tests.lib.counting import Counts
from tests.lib.installed import install

SYSTEM = "/usr/bin/python3"
# a stand-in for the program, whose first word names the part
PLAYER = """#!/bin/sh
module=stand_in
[ "$1" != logondesk ] || module=desk
exec '{python}' -Bc "import sys; sys.path.insert(0, '{top}'); from tests.lib.$module import stand_in; stand_in(sys.argv[1:])" "$@"
"""

totals = Counts()
check = totals.check


def need_packages() -> None:
    """Goes on under a Python that has psycopg; ends if that or the servers are not installed."""
    if not importlib.util.find_spec("psycopg"):
        is_there = not subprocess.run(
            [SYSTEM, "-c", "import psycopg"], stderr=subprocess.DEVNULL
        ).returncode
        if is_there and os.path.realpath(sys.executable) != os.path.realpath(SYSTEM):
            os.execv(SYSTEM, [SYSTEM, *sys.argv])
        skip("python3-psycopg")
    if not servers.programs():
        skip("postgresql")


def skip(package: str) -> None:
    print(f"skipped: {package} is not installed")
    sys.exit(0)


def try_group(cases: list[Callable], work: str, repository: str) -> None:
    """Runs cases over one pair of servers."""
    pair = servers.Pair(f"{work}/{cases[0].__name__}")
    try:
        for number, case in enumerate(cases):
            begun = time.monotonic()
            case(check, store_cases.Place(pair, repository, f"{work}/{cases[0].__name__}-{number}"))
            print(f"{case.__name__}: {time.monotonic() - begun:.1f} s", file=sys.stderr, flush=True)
    finally:
        store_cases.kill_all()
        pair.stop()


# --- planted faults ---

# the case that has to catch each: the file, what is in it, and what is there instead
MUTANTS = {
    "a warning is taken as success": ("try_cancelled_waits", "commits.py",
        "self.is_doubtful or notice.severity_nonlocalized == \"WARNING\"", "False"),
    "commits do not wait for the copy": ("try_cancelled_waits", "databases.py",
        "synchronous_commit={commit}", "synchronous_commit=off"),
    "an append asks for no epoch": ("try_stale_engine", "store_tables.py",
        "WITH live AS ({LIVE})", "WITH live AS (SELECT 1)"),
    "an end asks for no epoch": ("try_stale_engine", "stores_postgres.py", "self.live(server, change)", "change()"),
    "a lost answer is taken as another engine's": ("try_lost_answers", "stores_postgres.py",
        "if not (is_retry and row", "if not (False and row"),
    "a line is done twice after a lost answer": ("try_lost_answers", "stores_postgres.py",
        "values = self.values(place=self.place, data=data)", "values = self.values(place=self.place + is_retry, data=data)"),
    "nothing keeps a take-over from a commit": ("try_open_commit", "store_tables.py",
        "epoch = %(epoch)s FOR SHARE", "epoch = %(epoch)s"),
    "an earlier timeline is taken": ("try_server_changes", "databases.py", "    found.sort()\n", "    found.sort(reverse=True)\n"),
    "a server without what was shown is taken": ("try_server_changes", "stores_postgres.py", "row[0] < self.place", "False"),
    "an answer is waited for without end": ("try_copy_stopped", "databases.py",
        "                hang_up(server)\n", "                pass\n"),
}  # fmt: skip


def try_mutants(work: str) -> None:
    """Runs the cases of the store alone with each fault."""
    for what, (case, name, old, new) in MUTANTS.items():
        copy = f"{work}/mutant"
        shutil.rmtree(copy, ignore_errors=True)
        for inner in ("bin", "tests", "web"):
            shutil.copytree(f"{TOP}/{inner}", f"{copy}/{inner}")
        shutil.copy(f"{TOP}/VERSION", copy)
        path = f"{copy}/bin/lib/gathjumli/{name}"
        with open(path) as file:
            text = file.read()
        if text.count(old) != 1:
            check(f"{what}: the text is there once", False)
            continue
        with open(path, "w") as file:
            file.write(text.replace(old, new))
        try:
            done = subprocess.run(
                [f"{copy}/tests/installation/stores.py", case], capture_output=True, timeout=120
            )
            is_caught, findings = done.returncode != 0, done.stdout.decode(errors="replace")
        except subprocess.TimeoutExpired:
            is_caught, findings = True, "FAILED: it does not end"
        check(f"caught: {what}", is_caught, findings)
        print(
            what,
            *[line for line in findings.splitlines() if "FAILED" in line][:2],
            sep="\n    ",
            file=sys.stderr,
            flush=True,
        )


# each group has servers of its own
GROUPS = {
    "--store": store_cases.OF_STORE,
    "--hosts": store_cases.OF_HOSTS,
    "--servers": store_cases.OF_SERVERS,
}


def try_cases(work: str, words: list[str]) -> None:
    """Runs the groups or the cases that are named."""
    player = PLAYER.format(python=sys.executable, top=TOP)
    repository = install(f"{work}/repository", text=player)
    for name, group in GROUPS.items():
        if cases := [case for case in group if name in words or case.__name__ in words]:
            try_group(cases, work, repository)


def try_all() -> None:
    """Runs the groups next to each other, since they mostly wait."""
    running = [
        subprocess.Popen([sys.executable, __file__, name], stdout=subprocess.PIPE, text=True)
        for name in GROUPS
    ]
    # whatever ends this, none of them stays
    atexit.register(lambda: [process.terminate() for process in running])
    for process in running:
        lines = process.communicate()[0].splitlines()
        print(*lines[:-1], sep="\n", flush=True)
        counts = re.fullmatch(r"(\d+) passed, (\d+) failed", lines[-1] if lines else "")
        check("a group of cases ends", counts, *lines[-1:])
        totals.add(*map(int, counts.groups() if counts else (0, 0)))


def main() -> None:
    need_packages()
    servers.end_well()
    # commands run under the Python that has the library, and need not look for it
    os.environ["PATH"] = f"{os.path.dirname(sys.executable)}:{os.environ['PATH']}"
    work = tempfile.mkdtemp()
    os.chmod(work, 0o711)
    begun = time.monotonic()
    try:
        if sys.argv[1:] == ["--mutants"]:
            try_mutants(work)
        elif len(sys.argv) > 1:
            try_cases(work, sys.argv[1:])
        else:
            try_all()
    finally:
        store_cases.kill_all()
        shutil.rmtree(work, ignore_errors=True)
    print(f"{time.monotonic() - begun:.0f} s", file=sys.stderr)
    sys.exit(totals.report())


if __name__ == "__main__":
    main()
