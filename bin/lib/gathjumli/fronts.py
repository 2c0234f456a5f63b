"""The front of a long recording, which a start does not look at line by line: what comes before its last states."""
from __future__ import annotations

from collections.abc import Iterator
from typing import NamedTuple
import hashlib
import mmap
import os
import re

# a shorter front is read line by line, as all that follows it
LEAST = 1 << 20
CHUNK = 1 << 20
# what is looked through at once, and how long what is looked for may be
WINDOW = 1 << 24
LONGEST = 16
# what a stamp before the end of the front is looked for in
LAST_BYTES = 1 << 16
# lines that say more than what is done, and decks, whose cards may look like any line
SPECIAL = re.compile(rb"\n(?=DECK |\* (?:DECK|PRINTED|STATE|SAVED|KEPT) |\* END)")
DECK_LINE = re.compile(rb"DECK [A-Z0-9]+ ([0-9]+)\n")
STATE_LINE = re.compile(rb"\* STATE state-")
STAMP_LINE = re.compile(rb"^\* (\d{4}-\d\d-\d\d \d\d:\d\d:\d\d) UTC [0-9a-f]{8}\n", re.M)


class Front(NamedTuple):
    """How long a front is, in bytes and in lines; the sum of its bytes; the time of its last stamp; its comments; and of the last
    states in it the marks, each with the bytes and lines up to its end and the time of the last stamp before it.
    """

    place: int
    lines: int
    sum: hashlib._Hash
    until: bytes
    comments: list[bytes]
    marks: list[tuple[bytes, int, int, bytes]]


def front_of(path: str, states: int) -> Front | None:
    """What comes before the last state of a recording, if that is long, with the marks of so many last states but that one. The
    first stamp that follows shows whether all of it is as it was written."""
    if os.path.getsize(path) < LEAST:
        return None
    with open(path, "rb") as file, mmap.mmap(file.fileno(), 0, access=mmap.ACCESS_READ) as data:
        comments = list(comments_in(data))
        marks = [item for item in comments if STATE_LINE.match(item[1])][-states:]
        place = marks[-1][0] if marks else 0
        stamps = [last_stamp(data, at) for at, _ in marks]
        if place < LEAST or not all(stamps):
            return None
        lines, known = counted(data, [at for at, _ in marks])
        before = [line for at, line in comments if at < place]
        earlier = [
            (line, at + len(line), count + 1, until)
            for (at, line), count, until in zip(marks, lines, stamps)
        ]
        return Front(place, lines[-1], known, stamps[-1], before, earlier[:-1])


def last_stamp(data: mmap.mmap, place: int) -> bytes:
    """The time of the last stamp before a place, or nothing if there is none near it."""
    stamps = STAMP_LINE.findall(data[max(0, place - LAST_BYTES) : place])
    return stamps[-1] if stamps else b""


def comments_in(data: mmap.mmap) -> Iterator[tuple[int, bytes]]:
    """The comments about decks, printouts, states and ends, each with its place."""
    place = forgotten = 0
    while found := next_special(data, place):
        if place - forgotten > WINDOW:
            # what was looked through is not kept in memory
            data.madvise(mmap.MADV_DONTNEED)
            forgotten = place
        start = found.end()
        stop = data.find(b"\n", start) + 1 or len(data)
        deck = DECK_LINE.match(data, start)
        if not deck:
            yield start, data[start:stop]
        # the line feed before the next line is looked for
        place = after_cards(data, stop, int(deck[1])) - 1 if deck else stop - 1


def next_special(data: mmap.mmap, place: int) -> re.Match[bytes] | None:
    """The next such line."""
    while True:
        end = min(len(data), place + WINDOW)
        found = SPECIAL.search(data, place, end)
        if found or end == len(data):
            return found
        data.madvise(mmap.MADV_DONTNEED)
        # one that begins before the end of what was looked through is seen in what follows
        place = end - LONGEST


def after_cards(data: mmap.mmap, place: int, cards: int) -> int:
    for _ in range(cards):
        place = data.find(b"\n", place) + 1 or len(data)
    return place


def counted(data: mmap.mmap, places: list[int]) -> tuple[list[int], hashlib._Hash]:
    """How many lines are before each of these places, which ascend, and the sum of the bytes before the last one."""
    lines, known = [], hashlib.sha256()
    for start, end in zip([0, *places], places):
        lines.append(lines[-1] if lines else 0)
        for place in range(start, end, CHUNK):
            piece = data[place : min(end, place + CHUNK)]
            lines[-1] += piece.count(b"\n")
            known.update(piece)
            data.madvise(mmap.MADV_DONTNEED)
    return lines, known
