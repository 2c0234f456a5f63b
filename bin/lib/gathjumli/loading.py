"""Why an IPL failed: what a machine that could not be loaded is asked, and what its answers say. The control program itself answers
IPL FAILED and nothing else. The questions change the machine, so they are asked where that is taken back."""
from __future__ import annotations

from collections.abc import Iterable
import re

FAILED = "IPL FAILED"
IPL = re.compile(rb"LINE ([^ ]+) +(?:#CP +)?IPL +([0-5][0-9A-F]{2}) *\n?")
# what is stored where the first record comes, so that it is seen whether it came
MARK = bytes.fromhex("DEADBEEFDEADBEEF")
# a program that senses the device, its command word, and the bytes that it reads
PROGRAM, COMMAND, SENSED = 0x110, 0x100, 0x120
# what sense bits say: byte, bit and text (docs/DEVICES.md, docs/DISKS.md)
SENSE = (
    (0, 0x40, "the reader has no deck (intervention required)"),
    (0, 0x80, "a command word has a command that the device does not take there (command reject)"),
    (1, 0x08, "a record that a command looks for is not on its track (no record found)"),
    (1, 0x40, "a record does not fit on its track (invalid track format)"),
    (1, 0x20, "the program passes the end of a cylinder (end of cylinder)"),
    (1, 0x04, "the file mask forbids a seek (file protected)"),
    (1, 0x02, "the disk may only be read (write inhibited)"),
)
# what may be wrong where nothing can be taken back, and so nothing asked, by the kind of the device
ADVICE = {
    "reader": "THE READER HAS NO DECK, OR ITS FIRST CARD NO COMMAND WORDS THAT READ THE OTHERS",
    "disk": "THE DISK'S FIRST TRACK HAS NO RECORD 1, OR ITS COMMAND WORDS FAIL",
}
TYPED = re.compile(r" *(?:#CP +)?IPL +([0-5][0-9A-F]{2}) *")
SHOWN = re.compile(r"([0-9A-F]{6})((?: [0-9A-F]{8}){4})")
# the flags that chain, and those that no word may have
CHAINED, REFUSED_FLAGS = 0xC0, 0x0B


def advice(typed: list[str], kinds: dict[str, str]) -> list[str]:
    """What may be wrong after an IPL of these lines failed, with what is at each address."""
    found = {kinds.get(match[1], "") for text in typed if (match := TYPED.fullmatch(text))}
    return [text for kind, text in ADVICE.items() if kind in found]


def questions(line: bytes) -> bytes:
    """Lines of a script that do an IPL again, and show the first record and what the device says of its last unit check."""
    user, device = IPL.fullmatch(line).groups()
    typed = [
        b"DISPLAY 0",
        b"DISPLAY 10",
        b"STORE %X 04%06X20000018" % (COMMAND, SENSED),
        b"STORE 48 %08X" % COMMAND,
        b"STORE %X 9C000%s" % (PROGRAM, device),
        b"STORE PSW 00000000 %08X" % PROGRAM,
        b"BEGIN",
    ]
    marked = b"LINE %s #CP STORE 0 %s\n" % (user, MARK.hex().upper().encode())
    asked = b"".join(b"LINE %s #CP %s\n" % (user, command) for command in typed)
    served = b"RUN %s 1\nSERVE %s %s\n" % (user, user, device)
    shown = b"LINE %s #CP DISPLAY %X\n" % (user, SENSED)
    return marked + line.rstrip(b"\n") + b"\n" + asked + served + shown


def storage(user: str, answers: Iterable[str]) -> dict[int, bytes]:
    """What was shown of a user's storage, sixteen bytes at an address."""
    found = {}
    for answer in answers:
        shown = SHOWN.fullmatch(answer.removeprefix(f"{user}: "))
        if shown:
            found[int(shown[1], 16)] = bytes.fromhex(shown[2])
    return found


def wrong_word(word: bytes, place: int) -> str | None:
    """What is wrong with a channel command word after the first one, if it can be seen."""
    code, flags, count = word[0], word[4], int.from_bytes(word[6:8], "big")
    what = f"the command word at {place:X} is {word[:4].hex().upper()} {word[4:].hex().upper()}, which has"
    if code & 0x0F == 0x08:
        return f"{what} an address off a doubleword" if word[3] % 8 else None
    if not code & 0x0F:
        return f"{what} no command"
    if not count:
        return f"{what} a count of zero"
    return f"{what} a flag that no word may have" if flags & REFUSED_FLAGS else None


def reason(user: str, kind: str, answers: list[str]) -> str:
    """Why the load failed, by the answers to the questions."""
    shown = storage(user, answers)
    record = (shown.get(0, b"") + shown.get(0x10, b""))[:24]
    sense = shown.get(SENSED, bytes(16))
    was_read = not record.startswith(MARK)
    for byte, bit, text in SENSE:
        if sense[byte] & bit:
            is_first = byte == 1 and bit == 0x08 and not was_read
            return "the disk's first track has no record 1 (no record found)" if is_first else text
    if len(record) < 24:
        return "there are too few frames to look"
    if not was_read:
        return f"the {'deck has no more cards' if kind == 'reader' else 'record has no data'} (unit exception)"
    wrong = wrong_word(record[8:16], 8)
    if not wrong and record[12] & CHAINED and record[8] & 0x0F != 0x08:
        wrong = wrong_word(record[16:24], 0x10)
    where = "card" if kind == "reader" else "record"
    return (
        f"in the first {where} {wrong}"
        if wrong
        else f"a command word that the first {where} leads to is wrong, or its command ended early"
    )
