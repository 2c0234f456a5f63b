#!/usr/bin/env python3
"""Runs the EXAMPLES of each man page as they are printed, and the example of each usage text, over programs that are laid out as
bin/install does it: those that rt ci has built, or with --unproved those without proof; or with --installed over those that the host has
by its package (tests/commands/package). A page's lines are run one after another in a folder of its own, which has the files that the page
supposes (GIVEN). What is not run is in NOT_RUN with its reason. A command that prints is run again with standard output on a full disk,
and with a reader who has gone. The last line is 'N passed, M failed'."""
from __future__ import annotations

import glob
import gzip
import os
import re
import shutil
import subprocess
import sys
import tempfile

sys.dont_write_bytecode = True
TOP = os.path.dirname(os.path.dirname(os.path.dirname(os.path.realpath(__file__))))
sys.path.insert(0, TOP)

from tests.lib.counting import report_faults
from tests.lib.installed import install, program_of

SECONDS = 60

PROGRAM = """         ORG   X'100'
BEGIN    LA    1,5
         LPSW  DONE
DONE     PSW   X'20000',X'AAAA'
         END   BEGIN
"""
DIRECTORY = "USER A PW 8K\n"
SCRIPT = "LINE A LOGON\nLINE A STORE 1000 0A07\nLINE A DISPLAY 1000\n"
# a guest that prints nothing, and one that changes a word in a loop
BARE_SCRIPT = "LINE BARE LOGON\nLINE BARE STORE 100 5A1003105010031047F00100\nLINE BARE STORE 310 00000001\nLINE BARE BEGIN 100\nRUN BARE 9\n"
# files that a page supposes, by its name
GIVEN = {
    "deck2script": {"program.asm": PROGRAM},
    "turns": {"program.asm": PROGRAM},
    "trace370": {"script": BARE_SCRIPT},
    "printouts": {"script": BARE_SCRIPT},
    "vm370-listing": {"users": DIRECTORY, "script": SCRIPT},
}
# images that a page supposes, made of the text of their volume
IMAGES = {
    "vol2img": ["work01"],
    "img2vol": ["work01"],
    "vol2text": ["work01"],
    "trackpicture": ["work01"],
}
# the text of a volume that has a label, as dasdinit makes it
LABEL = "E5D6D3F1E6D6D9D2F0F1" + 70 * "40"
TEXT = f"""VOLUME WORK01 1
REC 0 0 0000000001 - {48 * "0"}
REC 0 0 0000000002 - {288 * "0"}
REC 0 0 0000000003 E5D6D3F1 {LABEL}
"""
# what a line begins with that is not run here, and why
NOT_RUN = {
    "bin/bench": "it measures for minutes; tests/commands/run runs it over stand-ins",
    "bin/plant": "it proves; tests/crates/wrong_bodies.py tries its bodies",
    "bin/build": "it builds; tests/commands/run runs it over stand-ins",
    "bin/install ": "it builds; tests/commands/run runs it over stand-ins",
    "bin/package": "it builds; tests/commands/package runs it",
    "apt-get": "it changes the host; tests/commands/package runs it",
    "gathjumli ": "it is that of an installation (tests/commands/run)",
    "bin/book": "it needs the sources; tests/commands/run runs it",
    "bin/installation": "it runs until it is ended; tests/commands/people.py runs it",
    "telnet": "it needs an installation that runs; tests/commands/people.py logs on",
    "bin/operator": "it needs an installation that runs; tests/commands/people.py runs it",
    "bin/store": "it needs servers; tests/installation/stores.py runs it",
    "bin/passwords": "it asks at a terminal; tests/commands/people.py runs it",
    "bin/report": "it needs a recording; tests/commands/people.py runs it",
    "bin/replay": "it runs until it is interrupted; tests/commands/people.py compares its moments",
    "bin/vm370 --unproved DIRECTORY": "its words are placeholders",
}
# a guest of the page's reader may have none of what is looked for
FINDS_NOTHING = ["bin/trace370 --bare 64K script | grep -E '^(INT|CSW)'"]
# what a program without proof says first
UNPROVED = b"not proved; slow"
# what the first line of a listing begins with, which is not indented more
LISTED = "     1  "
# programs of others: a line with one is left out if the host does not have it, and with it the rest of its block
OTHERS = {"dasdinit": "hercules"}


# where a package has its pages, and what its one command calls the others
INSTALLED_PAGES = "/usr/share/man/man1/gathjumli*.1.gz"
SUBCOMMANDS = "/usr/lib/gathjumli/bin/lib/subcommands"


class Commands:
    """How a command is typed, and which command a line or a page is about."""

    def __init__(self, is_installed: bool) -> None:
        self.is_installed = is_installed
        self.names: dict[str, str] = {}
        if is_installed:
            with open(SUBCOMMANDS) as file:
                self.names = dict(reversed(line.split()) for line in file)

    def typed(self, name: str) -> str:
        if not self.is_installed:
            return f"bin/{name}"
        return name if name == "gathjumli" else f"gathjumli {self.names.get(name, name)}"

    def of_checkout(self, line: str) -> str:
        """A line of an installed page as a checkout's page has it."""
        found = re.match("gathjumli ([a-z][a-z0-9-]*)", line)
        if not self.is_installed or not found:
            return line
        words = {word: name for name, word in self.names.items()}
        return f"bin/{words.get(found[1], found[1])}{line[found.end():]}"

    def pages(self) -> dict[str, str]:
        """The text of each page, by the name of its command in a checkout."""
        if not self.is_installed:
            paths = sorted(glob.glob(f"{TOP}/docs/man/*.1"))
            return {os.path.basename(path)[:-2]: open(path).read() for path in paths}
        found = {}
        for path in sorted(glob.glob(INSTALLED_PAGES)):
            page = os.path.basename(path)[: -len(".1.gz")]
            name = self.of_checkout(page.replace("-", " ", 1)).removeprefix("bin/")
            with gzip.open(path, "rt") as file:
                found[name] = file.read()
        return found


def unescaped(line: str) -> str:
    """A line of a page as it is printed."""
    return line.replace("\\-", "-").replace("\\\\", "\\").replace("\\e", "\\")


class Block:
    """Lines between .nf and .fi, and the sentence before them."""

    def __init__(self, before: str) -> None:
        self.before = before
        self.lines: list[str] = []


def blocks_of(text: str) -> list[Block]:
    """The blocks of a page's EXAMPLES."""
    text = text.partition(".SH EXAMPLES\n")[2].partition("\n.SH ")[0]
    found, before, is_block = [], [], False
    for line in text.split("\n"):
        if line == ".nf":
            found.append(Block(" ".join(before)))
            before, is_block = [], True
        elif line == ".fi":
            is_block = False
        elif is_block:
            found[-1].lines.append(unescaped(line))
        elif not line.startswith("."):
            before.append(line)
    return found


def lay_out(folder: str, argument: str) -> None:
    """The commands and their program, as an installation has them, with its examples."""
    install(folder, program_of(argument == "--unproved"))
    shutil.copytree(f"{TOP}/examples", f"{folder}/examples")


def make_room(folder: str, laid_out: str, page: str, commands: Commands) -> str:
    """A folder for a page, with the files that it supposes."""
    room = f"{folder}/{page}"
    os.mkdir(room)
    if not commands.is_installed:
        shutil.copytree(f"{laid_out}/examples/", f"{room}/examples", symlinks=True)
        os.symlink(f"{laid_out}/bin", f"{room}/bin")
    for name, text in GIVEN.get(page, {}).items():
        with open(f"{room}/{name}", "w") as file:
            file.write(text)
    for name in IMAGES.get(page, []):
        with open(f"{room}/{name}.text", "w") as file:
            file.write(TEXT)
        mkvol, vol2img = map(commands.typed, ("mkvol", "vol2img"))
        run(f"{mkvol} {name} {name}.text && {vol2img} {name}.3330 {name}", room)
    return room


def run(line: str, room: str) -> subprocess.CompletedProcess:
    return subprocess.run(
        ["sh", "-c", line], cwd=room, stdin=subprocess.DEVNULL, capture_output=True, timeout=SECONDS
    )


def is_left_out(line: str, commands: Commands) -> bool:
    line = commands.of_checkout(line)
    other = next((name for name in OTHERS if line.startswith(name)), None)
    return any(map(line.startswith, NOT_RUN)) or bool(other and not shutil.which(other))


def faults_of_block(
    block: Block, page: str, room: str, printed: str, commands: Commands
) -> tuple[list[str], str]:
    """What of a block is wrong, and what its last line printed."""
    named = re.search(r"in the file ([\w.]+):", block.before)
    if not block.lines[0].startswith(LISTED):
        block.lines = [line.removeprefix("    ") for line in block.lines]
    text = "\n".join(block.lines) + "\n"
    if named:
        with open(f"{room}/{named[1]}", "w") as file:
            file.write(text)
        return [], ""
    if re.search(r"\bprints\b", block.before):
        return [] if printed == text else [f"{page}: printed {printed!r}, not {text!r}"], ""
    faults = []
    for line in block.lines:
        if is_left_out(line, commands):
            return faults, ""
        done = run(line, room)
        printed = done.stdout.decode("latin-1")
        if printed and not set(line) & set("|>;&"):
            faults += faults_of_output(f"{page}: {line}", line, room)
        said = [item for item in done.stderr.splitlines() if not item.endswith(UNPROVED)]
        finds_nothing = commands.of_checkout(line) in FINDS_NOTHING and not said
        if done.returncode and not finds_nothing:
            faults.append(f"{page}: {line}: status {done.returncode}: {done.stderr.decode()}")
    return faults, printed


def faults_of_output(what: str, line: str, room: str) -> list[str]:
    """What is wrong with a command that prints to a full disk, or to a reader who has gone."""
    full = run(f"{line} > /dev/full", room)
    # the shell's own status is that of the reader
    gone = run(f"{{ {line}; echo $? >&2; }} | true", room)
    faults = []
    if full.returncode != 3 or not full.stderr or b"Traceback" in full.stderr:
        faults.append(f"{what}: on a full disk status {full.returncode}: {full.stderr.decode()}")
    if b"Traceback" in gone.stderr:
        faults.append(f"{what}: without a reader: {gone.stderr.decode()}")
    return faults


def faults_of_page(
    page: str, text: str, folder: str, laid_out: str, commands: Commands
) -> list[str]:
    room = make_room(folder, laid_out, page, commands)
    faults, printed = [], ""
    for block in blocks_of(text):
        new, printed = faults_of_block(block, page, room, printed, commands)
        faults += new
    ended = re.search(r"last line is (.*)\. The", text)
    if ended and printed.splitlines()[-1] != ended[1]:
        faults.append(f"{page}: the last line is {printed.splitlines()[-1]}, not {ended[1]}")
    return faults + faults_of_usage(page, room, commands)


def faults_of_usage(page: str, room: str, commands: Commands) -> list[str]:
    """What is wrong with the example of the usage text, after those of the page."""
    text = run(f"{commands.typed(page)} --help", room).stdout.decode()
    example = re.search("^example: (.*)", text, re.M)
    if not example:
        return [f"{page}: its usage text has no example"]
    if is_left_out(example[1], commands):
        return []
    done = run(example[1], room)
    if done.returncode:
        return [f"{page}: {example[1]}: status {done.returncode}: {done.stderr.decode()}"]
    return []


def main(argument: str) -> int:
    os.environ.pop("GATHJUMLI_UNPROVED", None)
    faults, commands = {}, Commands(argument == "--installed")
    with tempfile.TemporaryDirectory() as folder:
        laid_out = f"{folder}/laid-out"
        os.mkdir(laid_out)
        if not commands.is_installed:
            lay_out(laid_out, argument)
        for page, text in commands.pages().items():
            faults[page] = faults_of_page(page, text, folder, laid_out, commands)
    return report_faults(faults)


if __name__ == "__main__":
    if sys.argv[1:] not in ([], ["--built"], ["--unproved"], ["--installed"]):
        sys.exit(__doc__)
    sys.exit(main((sys.argv[1:] or [""])[0]))
