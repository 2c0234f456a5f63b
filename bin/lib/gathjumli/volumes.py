"""Volumes: images as docs/FORMATS.md says them ("Volume images"), and images that the emulator Hercules has (CKD_P370)."""
from __future__ import annotations

from collections.abc import Iterator
from typing import Any, NamedTuple

from gathjumli.cli import Failure, REFUSED

HEADS = 19
ROOM = 13165
MOST_CYLINDERS = 808
# of an image, before its tracks
HEADER_BYTES = 12
# cylinders of the two models of a 3330, each with the alternate ones
ALTERNATES = 7
MODELS = {404 + ALTERNATES: 404, 808 + ALTERNATES: 808}

KIND = b"CKD_P370"
OTHER_KINDS = {b"CKD_C370": "compressed", b"CKD_S370": "a shadow file"}
HEADER = 512
TRACK_SIZE = 13312
DEVICE_TYPE = 0x30
END = b"\xff" * 8


class Record(NamedTuple):
    """A record: its id of five bytes, its key and its data."""

    id: bytes
    key: bytes
    data: bytes

    def cost(self) -> Any:
        """What it takes of its track."""
        return 191 + len(self.key) + len(self.data) if self.key else 135 + len(self.data)

    def whole(self) -> Any:
        return (
            self.id
            + bytes([len(self.key)])
            + len(self.data).to_bytes(2, "big")
            + self.key
            + self.data
        )


class Track(NamedTuple):
    """A track: its home address of five bytes, and its records."""

    home: bytes
    records: list


class Volume(NamedTuple):
    """A volume: its serial number, and its tracks, head by head and cylinder by cylinder."""

    serial: str
    tracks: list

    def cylinders(self) -> Any:
        return len(self.tracks) // HEADS


def own_home(cylinder: int, head: int) -> Any:
    """The home address of a track that was never given another."""
    return bytes([0]) + cylinder.to_bytes(2, "big") + head.to_bytes(2, "big")


def record_zero(cylinder: int, head: int) -> Any:
    """Record zero of a track as it is formatted."""
    return Record(own_home(cylinder, head)[1:] + b"\0", b"", bytes(8))


def places(tracks: list[Track]) -> Any:
    """Each track with its cylinder and head."""
    return ((place // HEADS, place % HEADS, track) for place, track in enumerate(tracks))


def is_serial(text: str) -> bool:
    return 1 <= len(text) <= 6 and all(
        item in "ABCDEFGHIJKLMNOPQRSTUVWXYZ0123456789" for item in text
    )


def refused(fault: Any) -> Any:
    return Failure(REFUSED, f"fault: image {fault}")


class Reader:
    """Bytes that are read one part after another."""

    def __init__(self, data: bytes) -> None:
        self.data = data
        self.at = 0

    def take(self, count: int) -> Any:
        if self.at + count > len(self.data):
            raise refused("Truncated")
        self.at += count
        return self.data[self.at - count : self.at]

    def number(self, count: int) -> Any:
        return int.from_bytes(self.take(count), "big")


class ImageHeader(NamedTuple):
    """What an image begins with."""

    version: int
    serial: str
    cylinders: int


def read_header(reader: Reader) -> ImageHeader:
    magic, serial, cylinders = reader.take(4), reader.take(6), reader.number(2)
    version = {b"CKD1": 1, b"CKD2": 2}.get(magic, 0)
    serial = serial.decode("latin-1").rstrip(" ")
    most = {1: 404, 2: MOST_CYLINDERS}.get(version, 0)
    if not is_serial(serial) or not 1 <= cylinders <= most:
        raise refused("BadMagic")
    return ImageHeader(version, serial, cylinders)


def header_of(path: str) -> ImageHeader:
    """The header of an image."""
    with open(path, "rb") as file:
        return read_header(Reader(file.read(HEADER_BYTES)))


def read_volume(data: bytes) -> Any:
    """The volume of an image, which is judged as the programs judge it."""
    reader = Reader(data)
    version, serial, cylinders = read_header(reader)
    tracks = []
    for cylinder in range(cylinders):
        for head in range(HEADS):
            track = Track(reader.take(5), [read_record(reader) for _ in range(reader.number(1))])
            if sum(record.cost() for record in track.records) > ROOM:
                raise refused(f"BadTrack {cylinder} {head}")
            tracks.append(track)
    if version == 2 and reader.number(4) != sum(len(track.records) for track in tracks):
        raise refused("BadTotal")
    if reader.at < len(data):
        raise refused("Trailing")
    return Volume(serial, tracks)


def read_record(reader: Any) -> Any:
    id, key, length = reader.take(5), reader.number(1), reader.number(2)
    return Record(id, reader.take(key), reader.take(length))


def image_of(volume: Any) -> bytes:
    """The image of a volume, version 2."""
    image = bytearray(
        b"CKD2" + volume.serial.encode().ljust(6) + volume.cylinders().to_bytes(2, "big")
    )
    for track in volume.tracks:
        image += track.home + bytes([len(track.records)])
        for record in track.records:
            image += record.whole()
    return bytes(image + sum(len(track.records) for track in volume.tracks).to_bytes(4, "big"))


def text_of(volume: Any) -> Iterator:
    """The lines of a text that states a volume, as bin/mkvol takes it."""
    yield f"VOLUME {volume.serial} {volume.cylinders()}"
    for cylinder, head, track in places(volume.tracks):
        if track.home != own_home(cylinder, head):
            yield f"HOME {cylinder} {head} {track.home.hex().upper()}"
        for record in track.records:
            key, data = record.key.hex().upper() or "-", record.data.hex().upper() or "-"
            yield f"REC {cylinder} {head} {record.id.hex().upper()} {key} {data}"


class Faults:
    """What the one format cannot hold of the other, reported by track."""

    def __init__(self) -> None:
        self.lines = []

    def add(self, cylinder: int, head: int, text: Any) -> None:
        self.lines.append(f"cylinder {cylinder} head {head}: {text}")

    def end(self) -> None:
        """Refuses where there was one."""
        if len(self.lines) > 20:
            self.lines[20:] = [f"and {len(self.lines) - 20} more"]
        if self.lines:
            raise Failure(REFUSED, *self.lines)


def read_emulated(data: Any, serial: Any) -> Any:
    """The volume of an image CKD_P370; serial is its serial number, or None where its label says."""
    tracks = emulated_tracks(data)
    faults = Faults()
    kept = MODELS.get(len(tracks) // HEADS, len(tracks) // HEADS) * HEADS
    found = []
    for cylinder, head, track in places(tracks):
        try:
            records = parsed_track(track, cylinder, head)
        except ValueError as item:
            faults.add(cylinder, head, item)
            continue
        if len(found) < kept:
            found.append(Track(track[:5], records))
        elif records or track[:5] != own_home(cylinder, head):
            faults.add(cylinder, head, "an alternate track is used")
    if kept > MOST_CYLINDERS * HEADS:
        raise Failure(
            REFUSED,
            f"there are {kept // HEADS} cylinders, and a volume has at most {MOST_CYLINDERS}",
        )
    faults.end()
    serial = serial or labelled(found)
    if serial is None:
        raise Failure(REFUSED, "the volume has no label that has its serial number: give --serial")
    return Volume(serial, found)


def emulated_tracks(data: bytes) -> list:
    """The tracks of an image CKD_P370, as bytes."""
    kind = data[:8]
    if kind in OTHER_KINDS:
        raise Failure(
            REFUSED, f"the image is {OTHER_KINDS[kind]}: copy it with dasdcopy to one that is not"
        )
    if kind != KIND or len(data) < HEADER:
        raise Failure(REFUSED, "the file is no image CKD_P370")
    heads, size = (int.from_bytes(data[item : item + 4], "little") for item in (8, 12))
    if heads != HEADS or data[16] != DEVICE_TYPE:
        raise Failure(
            REFUSED,
            f"the image is of a 33{data[16]:02X} with {heads} heads, and not of a 3330 with {HEADS}",
        )
    if data[17] or data[18:20] != b"\0\0":
        raise Failure(REFUSED, "the image is one of several files of a volume")
    if not 21 <= size <= 65536 or (len(data) - HEADER) % (size * HEADS) or len(data) == HEADER:
        raise Failure(
            REFUSED, f"the image has not whole cylinders of {HEADS} tracks of {size} bytes"
        )
    return [data[number : number + size] for number in range(HEADER, len(data), size)]


def parsed_track(track: Any, cylinder: int, head: int) -> Any:
    """The records of a track but its record zero; ValueError says what cannot be held."""
    records, at = [], 5
    while track[at : at + 8] != END:
        key, length = track[at + 5 : at + 6], int.from_bytes(track[at + 6 : at + 8], "big")
        end = at + 8 + (key[0] if key else 0) + length
        if end > len(track):
            raise ValueError("its records have no end")
        record = Record(track[at : at + 5], track[at + 8 : end - length], track[end - length : end])
        records.append(record)
        at = end
    if not records or records[0].id[4]:
        raise ValueError("it has no record zero")
    if records[0] != record_zero(cylinder, head):
        raise ValueError("its record zero is not as it was formatted")
    full = sum(record.cost() for record in records[1:])
    if full > ROOM:
        raise ValueError(f"its records take {full} bytes of {ROOM}")
    return records[1:]


def labelled(tracks: list[Track]) -> str | None:
    """The serial number that the label of a volume says, or None."""
    for record in tracks[0].records:
        text = record.data[:10].decode("cp037")
        if record.id[4] == 3 and text.startswith("VOL1") and is_serial(text[4:].rstrip(" ")):
            return text[4:].rstrip(" ")
    return None


def emulated(volume: Any, has_alternates: Any) -> Iterator:
    """The image CKD_P370 of a volume, as its parts; with alternate cylinders where that is asked for."""
    faults = Faults()
    yield KIND + HEADS.to_bytes(4, "little") + TRACK_SIZE.to_bytes(4, "little") + bytes(
        [DEVICE_TYPE]
    ) + bytes(HEADER - 17)
    tracks = list(volume.tracks)
    if has_alternates:
        tracks += [
            Track(own_home(len(tracks) // HEADS + number // HEADS, number % HEADS), [])
            for number in range(ALTERNATES * HEADS)
        ]
    for cylinder, head, track in places(tracks):
        if any(record.id[4] == 0 for record in track.records):
            faults.add(cylinder, head, "a record has the number zero, which is record zero's")
        whole = b"".join(item.whole() for item in [record_zero(cylinder, head), *track.records])
        yield (track.home + whole + END).ljust(TRACK_SIZE, b"\0")
    faults.end()
