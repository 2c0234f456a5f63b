"""What an operator asks for that takes long, and what he sees of before he came. Called by tests/commands/people.py."""
from __future__ import annotations

from collections.abc import Callable
import os
import re
import shutil
import subprocess
import time

from tests.installation.operators import operator
from tests.installation.states import stored
from tests.lib.files import read, write
from tests.lib.sites import Site, logged_on, make_site, run

PATIENCE = 30
# what makes maps says which script and state it is given, or takes for ever
TELLS = """
for word; do case $word in */state) echo "STATE $(wc -c < "$word")" ;; esac; done
echo SCRIPT; exec cat
"""
HANGS = """
echo $$ > "%s"
cat > /dev/null
exec sleep 600
"""
# or notes what script it is given, and makes a map
MAPS = """
count=$(cat "%s" 2> /dev/null | wc -l)
for word; do case $word in */state) echo "state $(wc -c < "$word"), script $(wc -c)" >> "%s" ;; esac; done
cat <<END
FRAMES 0-1 ALICE 01B000-01C000
FREE FRAMES 13 OF 15
PAGE INS $((10 * count + 10))
END
"""


def program_of(site: Site) -> str:
    """The program, which is built, and of which a copy is kept."""
    repository = os.path.dirname(os.path.dirname(site.command))
    path = f"{repository}/crates/gathjumli_cli/out/gathjumli_cli"
    write(f"{site.folder}/script", "")
    words = [f"{repository}/bin/framemap", "--", *site.paths, f"{site.folder}/script"]
    subprocess.run(words, capture_output=True, stdin=subprocess.DEVNULL)
    shutil.copy(path, f"{path}.kept")
    return path


def replace(path: str, lines: str) -> None:
    """Has these lines of the shell make maps of frames; the copy does all else."""
    os.unlink(path)
    write(path, f'#!/bin/sh\n[ "$1" = framemap ] || exec "{path}.kept" "$@"\n{lines}')
    os.chmod(path, 0o755)


def put_back(path: str) -> None:
    os.replace(f"{path}.kept", path)


def try_frames(check: Callable, site: Site) -> None:
    """Frames are looked for from the last state on; the search ends with the operator, and with the installation."""
    path = program_of(site)
    operate = ["--operate", f"{site.folder}/operator"]
    site.online(*operate)
    run(stored(site, 5))
    check("it is suspended", site.stop() == 0, *site.findings)
    site.online(*operate)
    run(stored(site, 6))
    replace(path, TELLS)
    done = operator(site, "frames")
    lines = done.stdout.splitlines()
    holds = done.returncode == 0 and any(
        re.fullmatch(r".{8} STATE [1-9]\d*", item) for item in lines
    )
    check("frames begin at the last state", holds, done.stdout, done.stderr)
    is_short = "STORE G1 00000006" in done.stdout and "STORE G1 00000005" not in done.stdout
    check("and repeat only what followed it", is_short, done.stdout)
    noted = f"{site.folder}/search"
    replace(path, HANGS % noted)
    check("a search ends with its operator", ended(noted, operate[1], site), *site.findings)
    leaving = searching(noted, operate[1], site)
    status = site.stop()
    holds = status == 0 and is_gone(noted)
    check("and with the installation", holds, f"status {status}", *site.findings)
    leaving.communicate()
    put_back(path)


def searching(noted: str, where: str, site: Site) -> subprocess.Popen:
    """An operator who has asked for frames, which takes long."""
    command = site.command.replace("/installation", "/operator")
    found = subprocess.Popen([command, where, "frames"], stdout=subprocess.PIPE, text=True)
    told = found.stdout.readline()
    if "the frames are being looked for, " not in told or not os.path.exists(noted):
        raise AssertionError(told)
    return found


def ended(noted: str, where: str, site: Site) -> bool:
    found = searching(noted, where, site)
    found.kill()
    found.communicate()
    return is_gone(noted)


def is_gone(noted: str) -> bool:
    """Whether the process that has noted its number is gone soon; the note goes too."""
    process, until = int(read(noted)), time.monotonic() + PATIENCE
    while os.path.exists(f"/proc/{process}") and time.monotonic() < until:
        time.sleep(0.05)
    os.unlink(noted)
    return time.monotonic() < until


def try_past(check: Callable, site: Site) -> None:
    """A new operator sees the last lines of the journal first, and only so many."""
    from gathjumli.journal import MOST_PAST_LINES

    site.online("--operate", f"{site.folder}/operator")
    run(logged_on(site, "ALICE", "WONDER"))
    done = operator(site, given="users\n")
    lines = done.stdout.splitlines()
    found = [place for place, line in enumerate(lines) if "ALICE logs on" in line]
    answers = [place for place, line in enumerate(lines) if line.endswith(" 1 on")]
    check("he sees what was before him", found and answers and found[0] < answers[0], *lines)
    done = operator(site, "users")
    check("a command alone does not", "logs on" not in done.stdout, done.stdout)
    for _ in range(MOST_PAST_LINES):
        run(logged_on(site, "ALICE", "WONDER"))
    lines = operator(site, given="users\n").stdout.splitlines()
    count = sum("ALICE" in line and "users" not in line for line in lines) - 1
    check("no more than the last", 0 < count <= MOST_PAST_LINES, f"{count}", *lines)
    check("it is suspended", site.stop() == 0)


def try_looks(check: Callable, site: Site) -> None:
    """A report's looks at frames take no longer for what was before them, and its progress is told."""
    path = program_of(site)
    noted = f"{site.folder}/looks"
    site.online()
    for value in range(20):
        run(stored(site, value))
    check("it is suspended", site.stop() == 0, *site.findings)
    replace(path, MAPS % (noted, noted))
    command, out = site.command.replace("/installation", "/report"), f"{site.folder}/page.html"
    os.environ["PEOPLE_SLOW"] = "0.1"
    done = subprocess.run(
        [command, "--looks", "4", site.record, out], capture_output=True, text=True
    )
    del os.environ["PEOPLE_SLOW"]
    check("a report is made", done.returncode == 0, done.stderr)
    lines = read(noted).decode().splitlines() if os.path.exists(noted) else []
    holds = len(lines) == 4 and all(re.fullmatch(r"state \d+, script 0", item) for item in lines)
    check("each look is at a state", holds, *lines)
    page = read(out).decode()
    holds = "Frames at the end" in page and "40 page-ins" in page.replace("page ins", "page-ins")
    check("the page has what they saw", holds, *re.findall("[^<>]*page.ins[^<>]*", page))
    shares = [int(item) for item in re.findall(r"report: (\d+)% done", done.stderr)]
    check("progress is told", len(shares) > 1 and shares == sorted(shares), done.stderr)
    put_back(path)


def try_maps(check: Callable, command: str, folder: str) -> None:
    """All that is tried in seconds, over a stand-in for the program."""
    os.makedirs(folder)
    try_past(check, make_site(command, f"{folder}/past"))
    try_looks(check, make_site(command, f"{folder}/looks"))
    try_frames(check, make_site(command, f"{folder}/frames"))
