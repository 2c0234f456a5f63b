"""Channel words as text (docs/CHANNELS.md)."""
from __future__ import annotations

from typing import Any

FLAGS = {0x80: "CD", 0x40: "CC", 0x20: "SLI", 0x10: "SKIP", 0x08: "PCI", 0x04: "IDA"}
UNIT_STATUS = {
    0x80: "attention", 0x40: "status modifier", 0x20: "control unit end", 0x10: "busy", 0x08: "channel end",
    0x04: "device end", 0x02: "unit check", 0x01: "unit exception",
}  # fmt: skip
CHANNEL_STATUS = {
    0x80: "PCI", 0x40: "incorrect length", 0x20: "program check", 0x10: "protection check", 0x08: "channel data check",
    0x04: "channel control check", 0x02: "interface control check", 0x01: "chaining check",
}  # fmt: skip

SENSES = {0x03: "No-operation", 0x04: "Sense"}
COMMANDS = {
    "reader": {0x02: "Read"},
    "punch": {0x01: "Punch"},
    "printer": {
        0x01: "Write", 0x09: "Write, space 1", 0x11: "Write, space 2", 0x19: "Write, space 3", 0x89: "Write, skip to 1",
        0x0B: "Space 1", 0x13: "Space 2", 0x1B: "Space 3", 0x8B: "Skip to 1",
    },
    "console": {0x01: "Write", 0x09: "Write, end of line", 0x0A: "Read"},
    "disk": {
        0x07: "Seek", 0x1F: "Set File Mask", 0x1A: "Read Home Address", 0x39: "Search Home Address Equal",
        0xB9: "Search Home Address Equal MT", 0x31: "Search Identifier Equal", 0x51: "Search Identifier High",
        0x71: "Search Identifier Equal or High", 0xB1: "Search Identifier Equal MT", 0xD1: "Search Identifier High MT",
        0xF1: "Search Identifier Equal or High MT", 0x29: "Search Key Equal", 0xA9: "Search Key Equal MT", 0x12: "Read Count",
        0x06: "Read Data", 0x0E: "Read Key and Data", 0x1E: "Read Count, Key and Data", 0x02: "Read IPL", 0x05: "Write Data",
        0x0D: "Write Key and Data", 0x1D: "Write Count, Key and Data",
    },
}  # fmt: skip


def names(bits: Any, table: Any) -> str:
    return ", ".join(text for bit, text in table.items() if bits & bit)


def is_jump(word: Any) -> bool:
    """Whether a command word is a transfer in channel."""
    return word[0] & 15 == 8


def address_in(word: Any) -> Any:
    return int.from_bytes(word[1:4], "big")


def command_text(word: Any, kind: Any) -> str:
    """A command word: its fields in hexadecimal, and what they say."""
    shown = (
        f"{word[0]:02X} {address_in(word):06X} {word[4]:02X} {int.from_bytes(word[6:8], 'big'):04X}"
    )
    if is_jump(word):
        return f"{shown}  Transfer in Channel"
    said = (SENSES | COMMANDS.get(kind, {})).get(
        word[0], "a command that the device does not have" if kind else ""
    )
    return f"{shown}  {said}; {names(word[4], FLAGS)}".rstrip("; ")


def status_text(word: Any) -> str:
    """A channel status word: its fields in hexadecimal, and what they say."""
    said = "; ".join(
        item for item in (names(word[4], UNIT_STATUS), names(word[5], CHANNEL_STATUS)) if item
    )
    shown = f"{word[0]:02X} {address_in(word):06X} {word[4]:02X}{word[5]:02X} {int.from_bytes(word[6:8], 'big'):04X}"
    return f"{shown}  {said}".rstrip()


def chained(start: Any, word_at: Any) -> list:
    """The places of a program's words and the words, in the order in which chaining and transfers lead to them; of a transfer
    back what a status modifier leads to after it. word_at gives a word, or None where there is none.
    """
    found = {}
    place, before = start, None
    while place is not None and place not in found and len(found) < 400:
        word = word_at(place)
        found[place] = word
        if word is None:
            break
        following = place + 8 & 0xFFFFFF
        if is_jump(word):
            to = address_in(word)
            can_skip = before is not None and before[4] & 0xC0 == 0x40
            place = to if to not in found else following if can_skip else None
        else:
            place = following if word[4] & 0xC0 else None
            before = word
    return list(found.items())
