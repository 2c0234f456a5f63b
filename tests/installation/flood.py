#!/usr/bin/env python3
"""Strangers who send without an end: tests/installation/flood.py SOCKET HOW-MANY BYTES-A-SECOND SECONDS HEX. They come again when they are
closed, and read what they are answered. It prints how many bytes they sent, and how often they came."""
from __future__ import annotations

import contextlib
import socket
import sys
import time

STEP = 0.01


def come(path: str) -> socket.socket | None:
    """Connects, if there is room."""
    found = socket.socket(socket.AF_UNIX, socket.SOCK_STREAM)
    found.setblocking(False)
    try:
        found.connect(path)
        return found
    except OSError:
        found.close()
        return None


def send(stranger: socket.socket, data: bytes) -> int | None:
    """Sends what the other side takes, and reads what is there; how much was sent, or None if it is closed."""
    sent = 0
    try:
        with contextlib.suppress(BlockingIOError):
            sent = stranger.send(data)
        with contextlib.suppress(BlockingIOError):
            if not stranger.recv(1 << 16):
                raise ConnectionError
        return sent
    except OSError:
        stranger.close()
        return None


def flood(path: str, count: int, rate: int, seconds: float, text: bytes) -> tuple[int, int]:
    strangers: list[socket.socket | None] = [None] * count
    piece = max(len(text), int(rate * STEP / count)) // len(text) * text
    until, sent, came = time.monotonic() + seconds, 0, 0
    begun = time.monotonic()
    while (now := time.monotonic()) < until:
        for place, stranger in enumerate(strangers):
            if stranger is None:
                strangers[place] = come(path)
                came += strangers[place] is not None
            elif sent < rate * (now - begun):
                taken = send(stranger, piece)
                strangers[place] = None if taken is None else stranger
                sent += taken or 0
        time.sleep(STEP)
    return sent, came


if __name__ == "__main__":
    _, path, count, rate, seconds, text = sys.argv
    print(*flood(path, int(count), int(rate), float(seconds), bytes.fromhex(text)))
