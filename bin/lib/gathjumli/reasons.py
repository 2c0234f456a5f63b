"""Why a program refuses a text, an image or a boot, in words (docs/FORMATS.md): what is wrong, and what would be right. The programs
themselves report one fixed line. What cannot be found out is left out."""
from __future__ import annotations

from typing import Any
from collections.abc import Iterator
import contextlib
import os
import re

from gathjumli.cli import Failure
from gathjumli.volumes import HEADS, MOST_CYLINDERS, ROOM, is_serial, read_volume

MOST = {"RUN": 1000000, "AUTO": 100000, "DECK": 1000}
# the operands of each line of a script, and how each is called
OPERANDS = {
    "RUN": ["user", "units"],
    "LINE": ["user", "text"],
    "TICK": ["user"],
    "SERVE": ["user", "device"],
    "AUTO": ["turns"],
    "DECK": ["user", "cards"],
    "TRANSFER": ["user", "number", "receiver"],
}
STATEMENTS = {
    "USER": "USER name password storage", "CONSOLE": "CONSOLE address 3215", "SPOOL": "SPOOL address READER, PUNCH or PRINTER",
    "MDISK": "MDISK address 3330 start count volser mode",
}  # fmt: skip
STORAGE = "storage is 8K to 4096K in steps of 4K, or 1M to 4M"
LAST_CYLINDER = 807
# a reason repeats words of a text, which may be of any length
MOST_CHARACTERS = 400


def lines_of(data: Any) -> Any:
    """The lines of a text; each byte is a character."""
    lines = data.decode("latin-1").split("\n")
    return lines if lines[-1] else lines[:-1]


def invisible(line: Any) -> str | None:
    """What of a line a reader does not see, or None."""
    if line.startswith("\xef\xbb\xbf"):
        return "a byte order mark stands before the line: save the file without it"
    if line.endswith("\r"):
        return "the line ends with a carriage return: tr -d '\\r' takes them away"
    if "\t" in line:
        return "a tab separates no words: expand replaces tabs"
    return None


def is_number(text: str, least: int, most: int) -> bool:
    return re.fullmatch("[0-9]{1,7}", text) is not None and least <= int(text) <= most


# --- scripts ---


class Users:
    """Who may be named in a script, and the addresses of each one's devices."""

    def __init__(self, devices: Any, whose: Any) -> None:
        self.devices = devices
        self.whose = whose

    def unknown(self, name: str) -> str:
        if name.upper() in self.devices:
            return f"names of users are in upper case: {name.upper()}, and not {name}"
        return f"there is no user {name or '(no name)'}: {self.whose} {', '.join(self.devices)}"

    def no_device(self, name: str, address: Any) -> Any:
        found = self.devices[name]
        if address.upper() in found:
            return f"addresses are in upper case: {address.upper()}, and not {address}"
        return f"{name} has no device at {address or '(no address)'}: " + (
            f"it has {', '.join(found)}" if found else "it has none"
        )


def users_of(directory: Any) -> Any:
    """The users of a directory."""
    devices = {}
    for words in (item.split() for item in lines_of(directory) if not item.startswith("*")):
        if words[:1] == ["USER"] and len(words) > 1:
            devices[words[1]] = []
        elif devices and len(words) > 1:
            devices[list(devices)[-1]].append(words[1])
    return Users(devices, "the directory has")


def bare_user(disks: Any) -> Any:
    """The user of one machine of its own with so many disks."""
    return Users(
        {
            "BARE": [
                "009",
                "00C",
                "00D",
                "00E",
                *(f"{0x190 + number:03X}" for number in range(disks)),
            ]
        },
        "the machine is that of",
    )


def cards_before(lines: list, number: int) -> bool:
    """Whether a line, counted from 1, is a card of a deck."""
    cards = 0
    for line in lines[: number - 1]:
        if cards:
            cards -= 1
        elif found := re.fullmatch("DECK [^ ]+ ([0-9]{1,7})", line):
            cards = int(found[1])
    return cards > 0


def script_reason(lines: list, number: int, users: list) -> Any:
    """Why a line of a script is refused."""
    line = lines[number - 1]
    if cards_before(lines, number):
        return f"a card has at most 80 characters, and this one has {len(line)}"
    first, *words = line.split(" ")
    if first not in OPERANDS:
        return wrong_verb(line, first)
    if first == "LINE":
        # the rest of the line is any text
        line, words = " ".join(words[:1]), words[:1]
    return (
        invisible(line)
        or wrong_blanks(first, words)
        or wrong_operands(first, words, users, len(lines) - number)
    )


def wrong_verb(line: Any, first: Any) -> Any:
    if line.lstrip().startswith("*") or line.startswith(("#", ";", "//")):
        return "a comment begins with * in the first column"
    if line.startswith((" ", "\t")):
        return "a line begins with its first word: no blank stands before it"
    if first.upper().strip() in OPERANDS and first != first.upper():
        return f"first words are in upper case: {first.upper()}, and not {first}"
    if first == "LOAD":
        return (
            "bin/vm370, bin/bare370 and bin/trace370 take LOAD u FILE: u is a user, and FILE is what bin/asm370 wrote;"
            " for other commands bin/turns writes the lines that it types"
        )
    return (
        invisible(line)
        or "a line begins with RUN, LINE, TICK, SERVE, AUTO, DECK, TRANSFER or LOAD, and not with "
        + first
    )


def wrong_blanks(first: int, words: list[str]) -> str | None:
    if "" not in words:
        return None
    if first == "LINE":
        return "LINE, one blank and the name of a user begin the line"
    return (
        "a blank stands at the end of the line"
        if not words[-1]
        else "one blank stands between words, and not two"
    )


def wrong_operands(first: Any, words: list[str], users: Any, lines_after: Any) -> Any:
    wanted = OPERANDS[first]
    if first == "AUTO" and not words:
        return "AUTO needs a number here: bin/turns fills it in"
    if len(words) != len(wanted) and first != "LINE" or not words:
        return f"{first} is written: {first} {' '.join(wanted)}"
    if wanted[0] == "user" and words[0] not in users.devices:
        return users.unknown(words[0])
    if first in MOST and re.fullmatch("[0-9]{8,}", words[-1]):
        return f"{wanted[-1]} are a number of at most 7 digits, and not {words[-1]}"
    if first in MOST and not is_number(words[-1], 1, MOST[first]):
        return f"{wanted[-1]} are a number from 1 to {MOST[first]}, and not {words[-1]}"
    if first == "TRANSFER" and not is_number(words[1], 0, 9999999):
        return f"the number of a deck has 1 to 7 digits, and is not {words[1]}"
    if first == "TRANSFER":
        return users.unknown(words[2])
    if first == "SERVE" and words[1] not in users.devices[words[0]]:
        return users.no_device(*words)
    if first == "DECK":
        return f"a deck of {int(words[1])} takes the next {int(words[1])} lines, and {lines_after} follow"
    return None


# --- directories ---


def directory_reason(lines: list, fault: Any, numbers: Any) -> Any:
    """Why a line of a directory is refused."""
    number = numbers[-1]
    words = [part for part in lines[number - 1].split(" ") if part]
    if hidden := invisible(lines[number - 1]):
        return hidden
    if fault == "UnknownStatement":
        return unknown_statement(lines[number - 1], words[0])
    if fault == "Syntax":
        return wrong_statement(words, any(line.startswith("USER ") for line in lines[: number - 1]))
    if fault == "BadStorage":
        return f"{STORAGE}, and not {words[3]}"
    if fault == "BadExtent":
        return f"{extent_text(words)}: a minidisk has at least one cylinder, and ends at {LAST_CYLINDER}"
    if fault == "Overlap":
        other = [part for part in lines[numbers[0] - 1].split(" ") if part]
        return f"{extent_text(other)} and {extent_text(words)} of {words[5]} meet, and not both have the mode R"
    return repeated(lines, fault, number, words)


def extent_text(words: list[str]) -> str:
    start, count = int(words[3]), int(words[4])
    return f"cylinders {start} to {start + count - 1}" if count else f"no cylinder from {start} on"


def unknown_statement(line: Any, first: Any) -> str:
    if line.lstrip().startswith("*") or line.startswith(("#", ";", "//")):
        return "a comment begins with * in the first column"
    if first.upper() in STATEMENTS:
        return f"statements are in upper case: {first.upper()}, and not {first}"
    return f"a statement is USER, CONSOLE, SPOOL or MDISK, and not {first}"


def wrong_statement(words: list[str], has_user: Any) -> Any:
    verb = words[0]
    if len(words) != len(STATEMENTS[verb].split(" READER")[0].split()) + (verb == "SPOOL"):
        return f"it is written: {STATEMENTS[verb]}"
    if verb == "USER":
        return wrong_user(words)
    if not has_user:
        return "a device stands after the USER statement of the user who has it"
    if not re.fullmatch("[0-5][0-9A-F]{2}", words[1]):
        return f"an address is 000 to 5FF, three digits 0-9 A-F, and not {words[1]}"
    return wrong_device(words)


def wrong_user(words: list[str]) -> str:
    if words[1] == "SYSTEM":
        return "SYSTEM is the operator's name: a user has another one"
    if not re.fullmatch("[A-Z][A-Z0-9]{0,7}", words[1]):
        return f"a name is 1 to 8 of A-Z and 0-9, a letter first, and not {words[1]}"
    if not re.fullmatch("[A-Z0-9]{1,8}", words[2]):
        return f"a password is 1 to 8 of A-Z and 0-9, and not {words[2]}"
    return f"{STORAGE}, and not {words[3]}"


def wrong_device(words: list[str]) -> str:
    kinds = {"CONSOLE": ["3215"], "SPOOL": ["READER", "PUNCH", "PRINTER"], "MDISK": ["3330"]}[
        words[0]
    ]
    if words[2] not in kinds:
        return f"after the address of {words[0]} stands {' or '.join(kinds)}, and not {words[2]}"
    for name, word in zip(("start", "count"), words[3:5]):
        if not re.fullmatch("[0-9]{1,4}", word):
            return f"{name} is a decimal number of 1 to 4 digits, and not {word}"
    if not is_serial(words[5]):
        return f"a serial number is 1 to 6 of A-Z and 0-9, and not {words[5]}"
    return f"the mode is R or W, and not {words[6]}"


def repeated(lines: list, fault: Any, number: int, words: list[str]) -> str:
    """Returns the reason of a statement that an earlier one excludes."""
    place, of_user = user_before(lines, number)
    if fault == "DuplicateUser":
        earlier = next(
            at for at, item in enumerate(lines, 1) if item.split()[:2] == ["USER", words[1]]
        )
        return f"the user {words[1]} is stated in line {earlier} already"
    if fault == "DuplicateDevice":
        earlier = next(at for at, item in of_user if item[1] == words[1])
        return f"the user {place} has a device at {words[1]} already, by line {earlier}"
    if fault == "TooMany" and words[0] == "USER":
        return "a directory has at most 64 users, and this is the 65th"
    if fault == "TooMany" and len(of_user) >= 32:
        return f"a user has at most 32 devices, and this is the 33rd of {place}"
    kind = "console" if words[0] == "CONSOLE" else words[2].lower()
    return f"a user has one {kind}, and this is the second of {place}"


def user_before(lines: Any, number: Any) -> tuple:
    """The user to whom a line belongs, and the lines with his devices before it, each with its number."""
    name, found = "", []
    for at, words in enumerate((line.split() for line in lines[: number - 1]), 1):
        if words[:1] == ["USER"]:
            name, found = words[1], []
        elif len(words) > 1 and words[0] in STATEMENTS:
            found.append((at, words))
    return name, found


# --- texts of volumes ---


def text_reason(lines: list, number: int) -> Any:
    """Why a line of the text of a volume is refused."""
    line = lines[number - 1] if number <= len(lines) else ""
    words = line.split(" ")
    if hidden := invisible(line):
        return hidden
    if number == 1:
        return wrong_volume(words)
    if words[0] == "VOLUME":
        return "VOLUME is the first line alone"
    if words[0] not in ("HOME", "REC"):
        return wrong_text_verb(line, words[0])
    if "" in words:
        return "one blank stands between words, and none at the end"
    return wrong_track(words, int(lines[0].split(" ")[2])) or wrong_record(words)


def wrong_volume(words: list[str]) -> str:
    if words[0] != "VOLUME":
        return "the first line is: VOLUME serial cylinders"
    if "" in words:
        return "one blank stands between words, and none at the end"
    if len(words) != 3:
        return "it is written: VOLUME serial cylinders"
    if not is_serial(words[1]):
        return f"a serial number is 1 to 6 of A-Z and 0-9, and not {words[1]}"
    return f"a volume has 1 to {MOST_CYLINDERS} cylinders, a number of at most 7 digits, and not {words[2]}"


def wrong_text_verb(line: Any, first: Any) -> str:
    if not line:
        return "the text of a volume has no empty lines"
    if line.startswith(("*", "#", ";")):
        return "the text of a volume has no comments"
    if first.upper() in ("HOME", "REC"):
        return f"first words are in upper case: {first.upper()}, and not {first}"
    return f"a line begins with HOME or REC, and not with {first}"


def wrong_track(words: list[str], cylinders: int) -> Any:
    if len(words) != {"HOME": 4, "REC": 6}[words[0]]:
        return (
            "it is written: "
            + {
                "HOME": "HOME cylinder head address",
                "REC": "REC cylinder head id key data, with - for no key or no data",
            }[words[0]]
        )
    if not is_number(words[1], 0, cylinders - 1):
        return f"the volume has cylinders 0 to {cylinders - 1}, and not {words[1]}"
    if not is_number(words[2], 0, HEADS - 1):
        return f"a cylinder has heads 0 to {HEADS - 1}, and not {words[2]}"
    if not re.fullmatch("[0-9A-F]{10}", words[3]):
        name = {"HOME": "a home address", "REC": "an id"}[words[0]]
        return f"{name} is ten digits 0-9 A-F, and not {words[3]}"
    return None


def wrong_record(words: list[str]) -> str:
    for name, field in zip(("the key", "the data"), words[4:]):
        if field != "-" and (len(field) % 2 or not re.fullmatch("[0-9A-F]+", field)):
            return f"{name} is an even number of digits 0-9 A-F, or - for none"
    if len(words[4]) > 510:
        return f"a key has at most 255 bytes, and this one has {len(words[4]) // 2}"
    return f"the track has no room for this record: it has {ROOM} bytes, and each record takes 135 and its data, or 191, its key and its data"


# --- images and boots ---


def image_reason(paths: Any, fault: Any) -> str | None:
    """Which image is refused, and why."""
    for path in paths:
        data = read(path)
        try:
            read_volume(data)
        except Failure as item:
            if item.lines[0] == f"fault: image {fault}":
                return f"{path}: {image_text(data, fault.split())}"
    return None


def image_text(data: bytes, fault: Any) -> str:
    if data[:8] in (b"CKD_P370", b"CKD_C370"):
        return "it is an image of Hercules: bin/img2vol makes a volume of it"
    if data[:7] == b"VOLUME ":
        return "it is the text of a volume: bin/mkvol makes its image"
    if fault[0] in ("BadMagic", "Truncated") and data[:4] not in (b"CKD1", b"CKD2"):
        return f"an image begins with CKD1 or CKD2, and not with {shown(data[:4])}; bin/mkvol makes one"
    if fault[0] == "BadMagic":
        return f"after its first word stand a serial number and 1 to {MOST_CYLINDERS} cylinders (404 after CKD1), and not {shown(data[4:10])} and {int.from_bytes(data[10:12], 'big')}"
    if fault[0] == "BadTrack":
        return f"the records of cylinder {fault[1]} head {fault[2]} take more than the {ROOM} bytes of a track"
    if fault[0] == "BadTotal":
        return f"its last four bytes give the number of its records, and not {int.from_bytes(data[-4:], 'big')}"
    if fault[0] == "Trailing":
        return "bytes follow the end of the volume"
    return f"it ends after {len(data)} bytes, and the volume does not: was it copied whole?"


def shown(data: bytes) -> str:
    return repr(data.decode("latin-1"))


def serial_of(path: str) -> str:
    return read(path)[4:10].decode("latin-1").rstrip(" ")


def boot_reason(fault: Any, directory: Any, paths: Any) -> str:
    """Which serial number, which user."""
    kind, *rest = fault.split()
    if kind == "TooFewFrames":
        return "a system has at least 16 frames: --frames 16 or more"
    serials = {path: serial_of(path) for path in paths}
    if kind == "DuplicateVolume":
        one, other = next(
            (item, that)
            for at, item in enumerate(paths)
            for that in paths[:at]
            if serials[item] == serials[that]
        )
        return f"{other} and {one} both have the serial number {serials[one]}"
    disks = [
        (at, user_before(lines_of(directory), at)[0], words) for at, words in minidisks(directory)
    ]
    if kind == "NoVolume":
        at, user, words = next(disk for disk in disks if disk[2][5] == rest[0])
        there = (
            f"the images are those of {', '.join(serials.values())}"
            if paths
            else "no image is given"
        )
        return f"line {at} gives {user} a minidisk at {words[1]} on {rest[0]}, and {there}"
    at, _, words = next(disk for disk in disks if disk[1] == rest[0] and disk[2][1] == rest[1])
    path = next(path for path in paths if serials[path] == words[5])
    cylinders = int.from_bytes(read(path)[10:12], "big")
    return f"line {at} gives {rest[0]} {extent_text(words)} of {words[5]}, and {path} has cylinders 0 to {cylinders - 1}"


def minidisks(directory: Any) -> Iterator:
    for at, words in enumerate((item.split() for item in lines_of(directory)), 1):
        if words[:1] == ["MDISK"] and len(words) == 7:
            yield at, words


def image_for_text(data: bytes) -> str | None:
    """What is said of an image that is given as a text."""
    if data[:4] in (b"CKD1", b"CKD2"):
        return "this is an image, and no text: bin/vol2text makes the text of it"
    if data[:4] == b"CKD_":
        return "this is an image of Hercules, and no text: bin/img2vol makes a volume of it"
    return None


# --- all faults ---


def read(path: Any) -> Any:
    """The bytes of a file; of what can be read only once there are none."""
    if not os.path.isfile(path):
        return b""
    with open(path, "rb") as file:
        return file.read()


def reason(
    fault: Any,
    directory: Any = b"",
    script: Any = b"",
    text: Any = b"",
    is_bare: bool = False,
    images: tuple = (),
) -> Any:
    """Why, in words, or None where it cannot be found out; the texts are given as bytes."""
    found = find_reason(fault, directory, script, text, is_bare, images)
    if found:
        # each byte was a character; a text of UTF-8 is shown as one
        with contextlib.suppress(UnicodeError):
            found = found.encode("latin-1").decode()
    return found and "".join(
        item if item.isprintable() or "\udc80" <= item <= "\udcff" else "?"
        for item in found[:MOST_CHARACTERS]
    )


def find_reason(
    fault: Any, directory: Any, script: Any, text: Any, is_bare: Any, images: Any
) -> Any:
    found = re.fullmatch("fault: (script|text) Line ([0-9]+)", fault)
    try:
        if found and found[1] == "script":
            users = bare_user(len(images)) if is_bare else users_of(directory)
            return script_reason(lines_of(script), int(found[2]), users)
        if found:
            return image_for_text(text) or text_reason(lines_of(text), int(found[2]))
        kind, _, rest = fault.removeprefix("fault: ").partition(" ")
        if kind == "directory":
            name, *numbers = rest.split()
            return directory_reason(lines_of(directory), name, list(map(int, numbers)))
        if kind == "boot":
            return boot_reason(rest, directory, list(images))
        return image_reason(images, rest) if kind == "image" else None
    except (IndexError, StopIteration, ValueError, OSError):
        # a text that changed meanwhile, or could be read only once
        return None
