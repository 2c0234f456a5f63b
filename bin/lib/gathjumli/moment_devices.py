"""What the devices of a user are at a moment, and the channel programs that they have."""
from __future__ import annotations

from typing import Any

from gathjumli.channels import chained, command_text, status_text
from gathjumli.instructions import place_of
from gathjumli.machines import UNITS
from gathjumli.moment_storage import Storage, characters, line_text

MOST_WORDS = 24
# bytes of a channel program's data that are shown
DATA_SHOWN = 24
MODELS = {"console": "3215", "reader": "3505", "punch": "3525", "printer": "1403", "disk": "3330"}
assert set(MODELS) == set(UNITS.values())
CSW, CAW = 0x40, 0x48


def kinds_of(user: Any) -> dict[int, str]:
    """What is at each address of a user's."""
    found = {
        place: kind for kind, place in user.devices.places._asdict().items() if place is not None
    }
    return found | {disk.address: "disk" for disk in user.minidisks}


def devices_of(user: Any, storage: Storage) -> list[dict[str, Any]]:
    kinds = kinds_of(user)
    return [
        device_of(channel, kinds[channel.address], user, storage)
        for channel in user.machine.subchannels
        if channel.address in kinds
    ]


def device_of(channel: Any, kind: str, user: Any, storage: Storage) -> dict[str, Any]:
    address, word = channel.address, channel.state.word
    row = {"address": f"{address:03X}", "kind": kind, "model": MODELS[kind]}
    row |= {"state": channel.state.kind, "attention": channel.attention}
    if channel.state.kind == "working":
        row["word"] = f"CAW {word:08X}"
        row["program"] = program_of(word & 0xFFFFFF, storage, kind)
    elif channel.state.kind == "pending":
        row["word"] = status_text(word.to_bytes(8, "big"))
    return row | {"more": more_of(kind, address, user)}


def more_of(kind: str, address: int, user: Any) -> list[str]:
    """What there is to say of a device beside its state."""
    if kind == "console":
        console = user.devices.console
        unfinished = line_text(console.unfinished)
        lines = [f"waits: {line_text(line)}" for line in console.waiting]
        return lines + ([f"unfinished: {unfinished}"] if unfinished else [])
    if kind == "reader":
        return decks_of(user.files)
    if kind in ("punch", "printer"):
        count = len(getattr(user.devices, kind).entries)
        return [f"{count} entries in the open file"] if count else []
    disk = next(item.minidisk for item in user.minidisks if item.address == address)
    sense = "".join(f"{byte:02X}" for byte in disk.sense)
    only = "" if disk.extent.writable else ", read only"
    found = [f"arm at {disk.cylinder}/{disk.head}", f"{disk.extent.count} cylinders{only}"]
    return found + ([f"sense {sense}"] if sense != "0000" else [])


def decks_of(files: Any) -> list[str]:
    read = files.place or 0
    found = []
    for place, deck in enumerate(files.decks):
        count = len(deck.cards)
        left = count - (0 if place else read)
        found.append(f"deck {deck.label}: {left} of {count} cards left")
    return found


def channel_of(user: Any, storage: Storage) -> dict[str, Any]:
    """The channel program to which the channel address word points, and both words."""
    word = storage.at(CAW, 4)
    start = int.from_bytes(word[1:], "big")
    return {
        "program": program_of(start, storage, device_of_caw(user, storage)),
        "caw": word.hex().upper(),
        "csw": status_text(storage.at(CSW, 8)),
    }


def device_of_caw(user: Any, storage: Storage) -> str:
    """The kind of the device for which the address word is: that which the next instruction starts, or the one that works with it."""
    kinds = kinds_of(user)
    cpu = user.machine.cpu
    code = storage.at(cpu.psw.address, 4)
    if code[:1] == b"\x9c" and len(code) == 4:
        return kinds.get(place_of(code, cpu.general) & 0xFFFF, "")
    word = int.from_bytes(storage.at(CAW, 4), "big")
    for channel in user.machine.subchannels:
        if channel.state == ("working", word):
            return kinds.get(channel.address, "")
    return ""


def program_of(start: int, storage: Storage, kind: str) -> list[list]:
    """The words of the channel program at an address, as they stand now, with the characters at the addresses in them."""
    if not start or start % 8:
        return []
    found = []
    for place, word in chained(start, storage.word)[:MOST_WORDS]:
        text = command_text(word, kind).replace("  ; ", "  ") if word else "stands past storage"
        data = ""
        if word and word[0] & 3:
            address, count = int.from_bytes(word[1:4], "big"), int.from_bytes(word[6:8], "big")
            data = characters(storage.at(address, min(DATA_SHOWN, count)))
        found.append([place, text, data])
    return found
