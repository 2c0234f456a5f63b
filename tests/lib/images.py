"""Images of volumes, by their definition in docs/FORMATS.md and not by the programs."""
from __future__ import annotations

HEADS = 19


def image_of(text: bytes, version: int = 2) -> bytes:
    """The image of the volume that a text states."""
    lines = [line.split(" ") for line in text.decode().splitlines()]
    _, serial, cylinders = lines[0]
    places = [(c, h) for c in range(int(cylinders)) for h in range(HEADS)]
    homes = {(c, h): bytes([0, *c.to_bytes(2, "big"), *h.to_bytes(2, "big")]) for c, h in places}
    tracks = {place: [] for place in places}
    for word, cylinder, head, *rest in lines[1:]:
        place = int(cylinder), int(head)
        if word == "HOME":
            homes[place] = bytes.fromhex(rest[0])
            continue
        name, key, data = (bytes.fromhex("" if item == "-" else item) for item in rest)
        tracks[place].append(name + bytes([len(key)]) + len(data).to_bytes(2, "big") + key + data)
    body = b"".join(
        homes[place] + bytes([len(tracks[place])]) + b"".join(tracks[place]) for place in places
    )
    total = sum(map(len, tracks.values())).to_bytes(4, "big") if version == 2 else b""
    return (
        b"CKD%d" % version
        + serial.encode().ljust(6)
        + int(cylinders).to_bytes(2, "big")
        + body
        + total
    )


def blank_image(serial: str, version: int) -> bytes:
    """A volume of one cylinder without a record."""
    return image_of(f"VOLUME {serial} 1\n".encode(), version)
