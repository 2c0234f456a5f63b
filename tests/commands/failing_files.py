"""Each command with a folder in place of each file that it reads or writes, with standard output on a full disk and without a reader,
and with a full disk in place of the file that it writes, or below all files: it says so, and shows no traceback. Each command of bin/ is in
a table here. tests/commands/reasons.py calls it."""
from __future__ import annotations

from collections.abc import Iterator
import os
import re
import shutil
import subprocess

from tests.lib.places import TOP

SECONDS = 60
FILE_FAILED = 3
NOT_COPIED = 76
FULL = "No space left on device"
# what a host says of a file when none may grow, and what a program says
TOO_LARGE = ("File too large", "fault: file", "No usable temporary directory")
# a source that cannot be read, and a reader who has gone
REFUSED_SOURCE, SIGPIPE = 74, -13
TEXTS = {
    "d": "USER A PW 8K\nMDISK 191 3330 0 1 WORK01 R\n",
    "s": "LINE A LOGON\nLINE A DISPLAY 0\n",
    "b": "LINE BARE LOGON\nLINE BARE STORE 100 47F00100\nLINE BARE BEGIN 100\nRUN BARE 2\n",
    "a.asm": " ORG X'100'\nBEGIN LA 1,5\n END BEGIN\n",
    "text": "VOLUME WORK01 1\nREC 0 0 0000000001 - C1\n",
    "frames": "FREE FRAMES 64 OF 64\nFREE SLOTS 256 OF 256\nPAGE INS 0\n",
    "tracks": "VOLUME WORK01 CYLINDERS 1\nBLANK TRACKS 19\n",
    "transcript": "== PRT 0001 A\n09 HELLO\n",
}
# commands that print, with their words; those with a dot before them are files
PRINTING = (
    "vm370 .d .s .i",
    "vm370 --quiet .d .s .i",
    "vm370-listing .d .s .i",
    "framemap .d .s .i",
    "bare370 8K .b",
    "bare370-listing 8K .b",
    "trackmap .i",
    "vol2text .i",
    "vol2text --data 0,0,1 .i",
    "asm370 .a.asm",
    "asm370 --deck .a.asm",
    "asm370 --listing .a.asm",
    "asm370 --volume WORK01 .a.asm",
    "deck2script .deck",
    "framepicture .frames",
    "framepicture --text .frames",
    "trackpicture .tracks",
    "trackpicture --text .tracks",
    "turns --bare 8K .b",
    "trace370 --bare 8K .b",
    "terminal .d .i",
    "terminal --bare 8K",
    "bench 1 bct bare",
    "book --clauses s370_psw",
)
# those that write a file, here >NAME, or below a folder
WRITING = (
    "mkvol >out .text",
    "img2vol --serial WORK01 >out .h",
    "vol2img >out .i",
    "printouts >out .transcript",
    "bare370 --save 8K .b >i",
    "vm370 --save-state >out .d .s .i",
    "passwords >out ALICE",
    "report .recording >out",
    "installation --listen ./socket --record >out .d .i",
)
# those that run until they are ended
SERVING = ("replay .d .s .i", "replay .recording")
# those that another test tries with files that fail: over stand-ins, or over servers
ELSEWHERE = {
    "build": "test-commands",
    "install": "test-commands",
    "package": "test-commands",
    "plant": "test-commands",
    "bench-against": "test-commands",
    "gathjumli": "test-commands",
    "store": "test-stores.py",
}
# a file and a device in place of a folder, a folder in place of a socket, and what is said
OTHERS = {
    "printouts .text .transcript": "text is no folder",
    "printouts /dev/full .transcript": "/dev/full is no folder",
    "operator .folder status": "folder",
    "passwords .folder ALICE": "folder",
    "report .folder out.html": "folder",
    "terminal .folder": "folder",
    "installation --record .folder .d .i": "folder",
    "installation --record r --journal .folder .d .i": "folder",
}
# no file may grow, as on a full disk; the signal that says so is ignored, so that a write fails
NO_ROOM = 'trap "" XFSZ; ulimit -f 0; '
# what is typed, and commands that run over the sources
TYPED = {
    "terminal": b"LOGON\nDISPLAY 0\n",
    "passwords": b"SECRET\n",
    "installation": b"status\nsuspend\n",
}
OF_SOURCES = ("book",)


class Place:
    """A folder with the files, and the commands laid out as an installation has them."""

    def __init__(self, laid_out: str, folder: str) -> None:
        self.laid_out, self.folder = laid_out, folder
        os.mkdir(folder)
        os.mkdir(f"{folder}/folder")
        for name, text in TEXTS.items():
            with open(f"{folder}/{name}", "w") as file:
                file.write(text)
        with open(f"{folder}/deck", "wb") as file:
            file.write(80 * b"\xc1")
        self.run("mkvol >i .text")
        self.run("vol2img >h .i")
        # bin/report and bin/replay read what an installation has recorded
        self.run("installation --listen ./socket --record >recording .d .i")

    def words(self, line: str, replaced: str = "", by: str = "") -> list[str]:
        """The words of a line, with another file in place of one."""
        name, *words = line.split(" ")
        found = [by if word == replaced else word.lstrip(".>") for word in words]
        return [f"{TOP if name in OF_SOURCES else self.laid_out}/bin/{name}", *found]

    def run(
        self, line: str, replaced: str = "", by: str = "", redirected: str = "", before: str = ""
    ) -> tuple[int, str]:
        """The status of a command and what it says on standard error; the shell does something before."""
        words = self.words(line, replaced, by)
        if redirected or before:
            words = ["sh", "-c", f'{before}"$@" {redirected}', "sh", *words]
        done = subprocess.run(
            words,
            cwd=self.folder,
            input=TYPED.get(line.split(" ")[0], b""),
            capture_output=True,
            timeout=SECONDS,
        )
        return done.returncode, done.stderr.decode(errors="replace")

    def forget(self, name: str) -> None:
        """Removes a file or a folder."""
        path = f"{self.folder}/{name}"
        if os.path.isdir(path):
            shutil.rmtree(path)
        elif os.path.exists(path):
            os.remove(path)

    def has(self, name: str) -> bool:
        """Whether a file of this name, or one in a folder of this name, has a byte."""
        path = f"{self.folder}/{name}"
        inner = [f"{top}/{item}" for top, _, items in os.walk(path) for item in items]
        return any(os.path.isfile(item) and os.path.getsize(item) for item in [path, *inner])


def wrong(done: tuple[int, str], statuses: tuple[int, ...], *texts: str) -> str:
    """What is wrong with how a command ended, if anything: its status, a traceback, or that none of these texts is in what it says."""
    status, said = done
    if "Traceback" in said:
        return f"a traceback: {said}"
    if status not in statuses:
        return f"status {status}: {said}"
    return "" if not texts or any(text in said for text in texts) else f"it says {said!r}"


def unlisted(laid_out: str) -> Iterator[tuple[str, str]]:
    """The commands that no table here has."""
    tried = {line.split(" ")[0] for line in (*PRINTING, *WRITING, *SERVING, *OTHERS)}
    commands = {name for name in os.listdir(f"{laid_out}/bin") if name != "lib"}
    for name in sorted(commands):
        is_known = name in tried or name in ELSEWHERE
        yield f"{name} is tried", "" if is_known else "no table has it"


def helps(place: Place) -> Iterator[tuple[str, str]]:
    """The usage text of each command on a full disk, and without a reader."""
    for name in sorted(set(os.listdir(f"{place.laid_out}/bin")) - {"lib"}):
        line = f"{name} --help"
        yield f"{line}: a full disk", wrong(place.run(line, redirected="> /dev/full"), (3,), FULL)
        yield f"{line}: no reader", wrong(place.run(line, redirected="| true"), (0,))


def folders(place: Place) -> Iterator[tuple[str, str]]:
    """Each file of each command replaced by a folder."""
    for line in (*PRINTING, *WRITING, *SERVING):
        for word in line.split(" "):
            # printouts are written into a folder
            if re.match("[.>][a-z]", word) and not line.startswith(f"printouts {word}"):
                done = place.run(line, word, "folder")
                statuses = (FILE_FAILED, REFUSED_SOURCE)
                yield f"{line}: a folder for {word}", wrong(done, statuses, "folder", "directory")


def outputs(place: Place) -> Iterator[tuple[str, str]]:
    """Standard output, and each file that is written, on a full disk; and a reader who has gone."""
    for line in PRINTING:
        done = place.run(line, redirected="> /dev/full")
        yield f"{line}: a full disk", wrong(done, (FILE_FAILED,), FULL, "fault: file")
        # a shell has its reader's status, so only what is said counts
        done = place.run(line, redirected="| true")
        yield f"{line}: no reader", wrong(done, (0,))
    for line in WRITING:
        # an image that is saved is read first, and /dev/full has no end
        if ">out" in line and not line.startswith(("passwords", "installation")):
            done = place.run(line, ">out", "/dev/full")
            yield f"{line}: a full disk for >out", wrong(done, (1, 2, FILE_FAILED))
        # where no file may grow, none is left that looks whole
        place.forget("new")
        done = place.run(line, ">out", "new", before=NO_ROOM)
        yield f"{line}: no room for files", wrong(done, (1, FILE_FAILED), *TOO_LARGE)
        yield f"{line}: nothing is left", "a file is left" if place.has("new") else ""
    for line in PRINTING:
        done = place.run(line, before=NO_ROOM)
        yield f"{line}: no room for copies", wrong(done, (0, FILE_FAILED, NOT_COPIED))


def others(place: Place) -> Iterator[tuple[str, str]]:
    """A file and a device in place of a folder, a folder in place of a socket."""
    for line, text in OTHERS.items():
        yield line, wrong(place.run(line), (FILE_FAILED,), text)


def try_files(laid_out: str, folder: str) -> list[tuple[str, str]]:
    """Each case with what is wrong, if anything."""
    place = Place(laid_out, folder)
    return [*unlisted(laid_out), *helps(place), *folders(place), *outputs(place), *others(place)]
