"""The machines that a command drives: a program with its words, which runs a script and prints a transcript (docs/FORMATS.md)."""
from __future__ import annotations

from typing import Any
from collections.abc import Iterator
import os
import re
import subprocess
import tempfile

from gathjumli.cli import (
    FILE_FAILED, Failure, REFUSED, ROOT, UNPROVED, UsageError, ask_build, number, read_file, read_arguments, user_name,
    version,
)  # fmt: skip
from gathjumli.reasons import reason
from gathjumli.volumes import header_of

BARE = "BARE"
UNITS = {
    "CONSOLE": "console",
    "READER": "reader",
    "PUNCH": "punch",
    "PRINTER": "printer",
    "MDISK": "disk",
}
# no line of a script, nor a card
WRONG = b"BAD" + 80 * b"."
STORAGE = re.compile("([1-9][0-9]{0,6})([KM])")


class ScriptRefused(Failure):
    """A script that the program refuses, and the number of its first wrong line."""

    def __init__(self, line: Any, *lines: Any) -> None:
        super().__init__(REFUSED, *lines)
        self.line = line


class Machines:
    """A part of the program, its words and the users whose machines it runs; `run` gives it a script."""

    def __init__(self, name: Any, before: Any, volumes: Any, users: Any, devices: Any) -> None:
        self.name = name
        self.before = before
        self.volumes = volumes
        self.users = users
        self.devices = devices
        self.folder = tempfile.TemporaryDirectory(prefix="people-")
        # the directory that followed programs read, if it is not that of `before`, which may be edited
        self.followed = None
        self.is_built = False
        # whether frames and slots are as many as pages
        self.has_room_for_all = False
        # the transcript of an empty script
        self.of_nothing = b""
        self.path = None

    def close(self) -> None:
        self.folder.cleanup()

    def words(self, script: Any) -> list:
        """The words of the program, its part first, for a script that is written for them."""
        path = os.path.join(self.folder.name, "script")
        with open(path, "wb") as file:
            file.write(script)
        return [self.name, *self.before[:-1], "--", self.before[-1], path, *self.volumes]

    def follow_words(self, *options: str) -> list:
        """Those for a script that the program is given part by part, with more options."""
        first, before = self.followed or self.before[-1], self.before[:-1]
        return [self.name, *options, *before, "--follow", "--", first, *self.volumes]

    def reason(self, script: Any, line: Any) -> list:
        """Why a line of a script is refused, as a list of lines, which is empty where it cannot be found out."""
        is_bare = self.name == "bare370"
        directory = b"" if is_bare else read_file(self.before[-1])
        found = reason(
            f"fault: script Line {line}", directory, script, is_bare=is_bare, images=self.volumes
        )
        return [found] if found else []

    def program(self) -> Any:
        self.path = self.path or ask_build("path")
        return self.path

    def made_of(self) -> str:
        """What says one version of the program from another: the sum of its sources, and the version of Gathjumli."""
        return f"{ask_build('tell').split()[1]} {version()}"

    def build(self) -> None:
        """Has the program built where that is to be done, and has it do nothing, so that it judges what it is given."""
        self.path = ask_build("ensure")
        words = self.words(b"")
        done = subprocess.run([self.path, *words], stdin=subprocess.DEVNULL, capture_output=True)
        if done.returncode:
            # the command of this name says what is wrong, and why
            part, *words = words
            command = os.path.join(ROOT, "bin", part)
            raise Failure(
                subprocess.run(
                    [command, *words], stdin=subprocess.DEVNULL, stdout=subprocess.DEVNULL
                ).returncode
            )
        self.is_built = True
        self.of_nothing = done.stdout

    def check(self, script: bytes) -> None:
        """Has the program judge a script, of which nothing is done: a line that is surely wrong follows it."""
        whole = script + b"\n" * (script[-1:] not in (b"", b"\n"))
        try:
            self.run(whole + WRONG + b"\n")
        except ScriptRefused as refused:
            if refused.line <= whole.count(b"\n"):
                raise

    def run(self, script: Any) -> Any:
        """The transcript of a script, both as bytes."""
        if not self.is_built:
            self.build()
        if not script:
            return self.of_nothing
        done = subprocess.run(
            [self.program(), *self.words(script)], stdin=subprocess.DEVNULL, capture_output=True
        )
        if done.returncode == 0:
            return done.stdout
        findings = done.stderr.decode(errors="surrogateescape").splitlines()
        wrong = re.fullmatch("fault: script Line ([0-9]+)", findings[0]) if findings else None
        if wrong:
            raise ScriptRefused(int(wrong[1]), *findings)
        raise failure(done.returncode, findings)


def refused_line(
    machines: Machines, whole: bytes, number: int, script: bytes, line: int
) -> Failure:
    """The failure that a refused line is: its number among the lines that people wrote, and in the script of the program."""
    shown = whole.split(b"\n")[number - 1].decode(errors="surrogateescape")
    return Failure(
        REFUSED,
        f"fault: script Line {number}",
        f"line {number} is: {shown!r}",
        *machines.reason(script, line),
    )


def failure(status: Any, findings: Any) -> Any:
    """The failure that a program's end with this status is, and what it reported."""
    if status < 0:
        return Failure(FILE_FAILED, f"the program was ended by signal {-status}")
    return Failure(status, *(item for item in findings if item))


def read_storage(text: str) -> Any:
    """How many pages a size of storage has, as a directory or bare370 takes it."""
    found = STORAGE.fullmatch(text)
    kilobytes = int(found[1]) * (1024 if found[2] == "M" else 1) if found else 0
    if kilobytes % 4 or not 8 <= kilobytes <= 4096:
        raise ValueError
    return kilobytes // 4


def pages_of(text: str) -> Any:
    """How many pages a stated storage has, and none where the program refuses it."""
    try:
        return read_storage(text)
    except ValueError:
        return 0


def statements(directory: Any) -> Iterator:
    """The words of each statement of a directory."""
    for line in directory.decode("latin-1").split("\n"):
        words = [part for part in line.split(" ") if part]
        if words and not line.startswith("*"):
            yield words


def stated(directory: Any) -> tuple:
    """The users of a directory with their pages, and what is at each of their addresses; what is wrong the program says."""
    users, devices = {}, {}
    for words in statements(directory):
        if words[0] == "USER" and len(words) == 4:
            user = words[1]
            users[user] = pages_of(words[3])
            devices[user] = {}
        elif users and len(words) > 2:
            kind = words[2] if words[0] == "SPOOL" else words[0]
            devices[user][words[1]] = UNITS.get(kind, "")
    return users, devices


def of_bare(storage: Any, volumes: Any) -> Any:
    """One machine of its own with its devices."""
    try:
        pages = read_storage(storage)
    except ValueError:
        raise UsageError(
            f"{storage} is no size of storage: 8K to 4096K in steps of 4K, or 1M to 4M"
        ) from None
    if len(volumes) > 16:
        raise UsageError("there are more than 16 volumes")
    devices = {"009": "console", "00C": "reader", "00D": "punch", "00E": "printer"}
    devices |= {f"{0x190 + number:03X}": "disk" for number in range(len(volumes))}
    return Machines("bare370", [storage], volumes, {BARE: pages}, {BARE: devices})


def in_system(bare: Machines) -> Machines:
    """A machine of its own as that of the only user of a system, which has states: with these devices, each volume as one minidisk, and
    a frame for each page. He has at each moment the state that a machine of his own has (docs/PROMISES.md).
    """
    bare.close()
    found = Machines("vm370", [], [], bare.users, bare.devices)
    found.volumes = with_different_serials(bare.volumes, found.folder.name)
    disks = iter(map(header_of, found.volumes))
    lines = [f"USER {BARE} {BARE} {bare.before[0]}"]
    for address, kind in bare.devices[BARE].items():
        if kind == "console":
            lines.append(f"CONSOLE {address} 3215")
        elif kind == "disk":
            header = next(disks)
            lines.append(f"MDISK {address} 3330 0 {header.cylinders} {header.serial} W")
        else:
            lines.append(f"SPOOL {address} {kind.upper()}")
    found.before = [os.path.join(found.folder.name, "directory")]
    with open(found.before[0], "w") as file:
        file.writelines(f"{line}\n" for line in lines)
    room_for_all(found)
    return found


def with_different_serials(volumes: list[str], folder: str) -> list[str]:
    """Images of these volumes, each with a serial number of its own, as a system has them: where two have one, the later one is a copy.
    No machine sees the numbers."""
    taken = [header_of(path).serial for path in volumes]
    found = []
    for place, path in enumerate(volumes):
        if taken[place] in taken[:place]:
            data = read_file(path)
            taken[place] = next(
                name for name in map("V{:05}".format, range(100)) if name not in taken
            )
            path = os.path.join(folder, f"volume-{place + 1}")
            with open(path, "wb") as file:
                file.write(data[:4] + taken[place].encode().ljust(6) + data[10:])
        found.append(path)
    return found


def of_directory(directory: Any, sizes: Any, volumes: Any) -> Any:
    """The machines of the users of a directory."""
    users, devices = stated(read_file(directory))
    if not users:
        raise Failure(REFUSED, f"{directory} states no user")
    return Machines("vm370", [*sizes, directory], volumes, users, devices)


SIZE_OPTIONS = {"--frames": number(16, 4096), "--slots": number(0, 65536)}


def sizes_in(found: dict[str, list]) -> list[str]:
    """The words for frames and slots among options that were read."""
    given = [option for option in SIZE_OPTIONS if found[option]]
    return [word for option in given for word in (option, str(found[option][-1]))]


# for each command that runs a program
UNPROVED_OPTION = {"--unproved": None}


def use_unproved(found: Any) -> None:
    """Has this command, and those that it starts, run programs without proof where the option asks for it."""
    if found["--unproved"]:
        os.environ[UNPROVED] = "1"


def read_machines(words: list[str], options: Any, paths_after: Any) -> tuple:
    """The machines that the words name, the other options and the paths that stand after the first one."""
    found, paths = read_arguments(
        words, {"--bare": None} | UNPROVED_OPTION | SIZE_OPTIONS | options, 1 + paths_after, 1000
    )
    use_unproved(found)
    trailing = ["/dev/stdin" if path == "-" else path for path in paths[1 : 1 + paths_after]]
    first, volumes = paths[0], paths[1 + paths_after :]
    for path in [*trailing, *volumes]:
        with open(path, "rb"):
            pass
    sizes = sizes_in(found)
    if found["--bare"]:
        if sizes:
            raise UsageError("a machine of its own has no frames and slots")
        return of_bare(first, volumes), found, trailing
    return of_directory(first, sizes, volumes), found, trailing


def room_for_all(machines: Any) -> None:
    """Frames and slots in which every page of every user has room, so that no event is ever reported that none is free."""
    pages = sum(machines.users.values())
    frames = min(4096, max(16, pages))
    machines.before = [
        "--frames",
        str(frames),
        "--slots",
        str(max(0, pages - frames)),
        machines.before[-1],
    ]


def choose_user(machines: Any, name: str) -> Any:
    """The user of this name, or the first by default."""
    if name is None:
        return next(iter(machines.users))
    if name not in machines.users:
        raise UsageError(f"there is no user {name}")
    return name


def parts(transcript: Any) -> tuple:
    """The lines of the events, and those of the files for the operator."""
    lines = transcript.decode(errors="surrogateescape").split("\n")[:-1]
    for place, line in enumerate(lines):
        if line.startswith("== "):
            return lines[:place], lines[place:]
    return lines, []


def headings_of(files: list) -> list:
    """The headings of the files for the operator. A card that looks like one has blanks after it."""
    return [file for file in files if re.fullmatch("== (PRT|PUN) [0-9]{4,} [A-Z0-9]+", file)]


USER_OPTION = {"--user": user_name}
