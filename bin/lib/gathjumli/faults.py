"""All faults of a script, a directory or the text of a volume, each as FILE:LINE:COLUMN: what is wrong, and what would be right.

    faults.py NAME PROGRAM PART FAULT FRAMES SLOTS SHOWN DIRECTORY SCRIPT TEXT STORAGE [IMAGE]..

The program reports its first fault, FAULT. It is asked again about the text without the line that it refused, until it refuses none: so
its grammar is stated nowhere else. What the command does not have is empty; SHOWN is what the script is called."""
from __future__ import annotations

from collections.abc import Iterator
import os
import re
import subprocess
import sys
import tempfile
import time

from gathjumli.machines import WRONG
from gathjumli.reasons import image_for_text, read, reason
from gathjumli.script_lines import LOAD, UNTIL_ALL_WAIT

MOST_FAULTS = 50
MOST_SECONDS = 5
FAULT = re.compile("fault: (script|text|directory)(?: [A-Za-z]+)? ((?:[0-9]+ ?)+)")
# what a reason says of the word that is wrong
WORD = re.compile(r"(?:, and not|there is no user|has no device at|by line|bytes:) (\S+?):?(?: |$)")
NO_TEXT = re.compile(rb"[\x00-\x08\x0e-\x1f]")


class Texts:
    """The texts that a part of the program is given, and how it is asked about them."""

    def __init__(
        self, part: list[str], sizes: list[str], paths: dict[str, str], images: list
    ) -> None:
        # the program and the name of its part
        self.part = part
        self.sizes = sizes
        self.paths = paths
        self.images = images
        self.data = {kind: read(path) if path else b"" for kind, path in paths.items()}
        self.folder = tempfile.TemporaryDirectory(prefix="faults-")

    def close(self) -> None:
        self.folder.cleanup()

    def ask(self, kind: str, lines: list[bytes]) -> str:
        """The fault that the program reports of a text of these lines, of which nothing is done."""
        path = os.path.join(self.folder.name, kind)
        texts = {**self.data, kind: b"\n".join(lines) + b"\n"}
        # a line that is surely wrong ends the script, or the text
        last = "text" if kind == "text" else "script"
        texts[last] = (texts[last] if kind == last else b"") + WRONG + b"\n"
        for name, data in texts.items():
            with open(os.path.join(self.folder.name, name), "wb") as file:
                file.write(data)
        words = [*self.part, *self.words(path)]
        done = subprocess.run(words, stdin=subprocess.DEVNULL, capture_output=True)
        return done.stderr.decode(errors="replace").partition("\n")[0]

    def words(self, path: str) -> list[str]:
        folder = self.folder.name
        if self.paths["text"]:
            return [os.path.join(folder, "image"), path]
        first = self.paths["storage"] or os.path.join(folder, "directory")
        return [*self.sizes, "--", first, os.path.join(folder, "script"), *self.images]


def left_out(kind: str, lines: list[bytes], number: int) -> bool:
    """Takes the line of a fault out of a text whose other lines keep their numbers; whether more can be asked."""
    line = lines[number - 1]
    if kind == "script":
        # an empty line is a card too; the cards of a refused DECK would be lines
        lines[number - 1] = b""
        return not line.startswith(b"DECK ")
    if kind == "text":
        # a home address that any track may have; without its first line a text says nothing
        lines[number - 1] = b"HOME 0 0 0000000000"
        return number > 1
    lines[number - 1] = b"*"
    if line.split()[:1] == [b"USER"]:
        for place in range(number, len(lines)):
            if lines[place].split()[:1] == [b"USER"]:
                break
            lines[place] = b"*"
    return True


def all_faults(texts: Texts, fault: str) -> Iterator[str]:
    """The faults of the text that the first one names, in order."""
    found = FAULT.fullmatch(fault)
    kind = found[1]
    lines = texts.data[kind].split(b"\n")
    lines = lines if lines[-1] else lines[:-1]
    if kind == "script":
        lines = [b"*" if item == UNTIL_ALL_WAIT or LOAD.fullmatch(item) else item for item in lines]
    until, last = time.monotonic() + MOST_SECONDS, 0
    for _ in range(MOST_FAULTS):
        number = int(found[2].split()[-1])
        if not last < number <= len(lines):
            return
        yield fault
        if not left_out(kind, lines, number) or time.monotonic() > until:
            return
        last = number
        fault = texts.ask(kind, lines)
        found = FAULT.fullmatch(fault)
        if not found or found[1] != kind:
            return


def column_of(line: bytes, text: str) -> int:
    """The column of the word that a reason names, counted from 1."""
    shown = line.decode("latin-1")
    word = WORD.search(text.encode(errors="surrogateescape").decode("latin-1"))
    places = [found.start() for found in re.finditer(r"[^ ]+", shown)]
    words = shown.split()
    if word and word[1] in words:
        return places[len(words) - 1 - words[::-1].index(word[1])] + 1
    for mark in ("\t", "  "):
        if mark in shown:
            return shown.index(mark) + len(mark)
    return max(1, len(shown)) if shown.endswith((" ", "\r")) else 1


def described(texts: Texts, fault: str, names: dict[str, str]) -> str:
    """A fault with its place and its reason."""
    found = FAULT.fullmatch(fault)
    kind, number = found[1], int(found[2].split()[-1])
    line = texts.data[kind].split(b"\n")[number - 1]
    is_image = kind == "text" and image_for_text(texts.data[kind])
    if NO_TEXT.search(line) and not is_image:
        return f"{names[kind]}:{number}:1: this is no text"
    why = reason(
        fault,
        *(texts.data[item] for item in ("directory", "script", "text")),
        is_bare=bool(texts.paths["storage"]),
        images=tuple(texts.images),
    )
    column = 1 if is_image else column_of(line, why or "")
    return f"{names[kind]}:{number}:{column}: {why or fault}"


def main(words: list[str]) -> None:
    name, program, part, fault, *words = words
    frames, slots, shown, directory, script, text, storage, *images = words
    paths = {"directory": directory, "script": script, "text": text, "storage": storage}
    if not FAULT.fullmatch(fault):
        data = [read(path) for path in (directory, script, text)]
        if why := reason(fault, *data, bool(storage), tuple(images)):
            print(f"{name}: {why}")
        return
    sizes = ["--frames", frames] * bool(frames) + ["--slots", slots] * bool(slots)
    texts = Texts([program, part], sizes, {**paths, "storage": storage}, images)
    texts.data.pop("storage")
    names = {"directory": directory, "script": shown or script, "text": text}
    try:
        if not texts.data[FAULT.fullmatch(fault)[1]]:
            # it could be read only once
            return
        for item in all_faults(texts, fault):
            print(described(texts, item, names))
    finally:
        texts.close()


if __name__ == "__main__":
    sys.stdout.reconfigure(encoding="utf-8", errors="surrogateescape")
    main(sys.argv[1:])
