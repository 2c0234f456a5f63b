"""The lines that people may write in a script beside those that the program reads: LOAD, and AUTO without a number
(docs/FORMATS.md, "Lines for people"). Each becomes lines of the program's script; which those are is said here and nowhere else."""
from __future__ import annotations

from collections.abc import Iterator
import re
from typing import NamedTuple

from gathjumli.cli import read_file
from gathjumli.punching import CARD, cards_of, stores

DECK = re.compile(rb"DECK [^ ]+ ([0-9]{1,7})")
LOAD = re.compile(rb"LOAD ([^ ]+) (.+)")
TYPED = re.compile(rb"LINE [^ ]+ (.*)")
UNTIL_ALL_WAIT = b"AUTO"
# a card of an object deck: 02 and TXT in EBCDIC, an address, a length, and from column 17 on the bytes
TEXT_CARD = b"\x02\xe3\xe7\xe3"
TEXT_AT, LONGEST_TEXT = 16, 56
# what a reason shows of a line
MOST_SHOWN = 40


class Wrong(Exception):
    """What is wrong with a line, and what would be right; the column counts from 1."""

    def __init__(self, line: int, column: int, text: str) -> None:
        super().__init__(text)
        self.line, self.column, self.text = line, column, text


class Event(NamedTuple):
    """An event of a script: the number of its line there, that line, and the lines that the program is given."""

    number: int
    line: bytes
    given: list[bytes]

    def text(self) -> bytes:
        return b"".join(item + b"\n" for item in self.given)

    def user(self) -> str:
        return self.line.split(b" ")[1].decode("latin-1") if b" " in self.line else ""


def events_of(script: bytes) -> Iterator[Event]:
    """The events of a script, each with its cards; comments and empty lines are events of nothing."""
    lines = script.split(b"\n")
    lines = lines if lines[-1] else lines[:-1]
    at = 0
    while at < len(lines):
        line, number = lines[at], at + 1
        deck = DECK.fullmatch(line)
        cards = lines[at + 1 : at + 1 + int(deck[1])] if deck else []
        at += 1 + len(cards)
        load = LOAD.fullmatch(line)
        yield Event(number, line, loaded(number, *load.groups()) if load else [line, *cards])


def plain(events: list[Event], turns: int) -> tuple[bytes, list[int]]:
    """The program's script of these events, with so many turns where AUTO has no number, and of each line of it the number of the
    line that it came of."""
    lines, numbers = [], []
    for event in events:
        given = [b"AUTO %d" % turns] if event.line == UNTIL_ALL_WAIT else event.given
        is_loaded = given[:1] != [event.line]
        lines += given
        numbers += [event.number + (0 if is_loaded else at) for at in range(len(given))]
    return b"".join(line + b"\n" for line in lines), numbers


def loaded(number: int, user: bytes, path: bytes) -> list[bytes]:
    """The lines by which what bin/asm370 wrote is stored: its script, typed by this user, or the cards of its deck."""
    column = len(b"LOAD ") + len(user) + 2
    name = path.decode(errors="surrogateescape")
    try:
        data = read_file(name)
    except OSError as error:
        raise Wrong(number, column, f"{name}: {error.strerror}") from None
    is_deck = data[:1] in (b"\0", b"\x02")
    other = None if is_deck else other_line(data)
    if other:
        text = other.decode("latin-1")[:MOST_SHOWN]
        raise Wrong(
            number, column, f"{name} may have lines LINE and comments, and no other line: {text}"
        )
    typed = texts_of_cards(data) if is_deck else typed_lines(data)
    if not typed:
        raise Wrong(
            number,
            column,
            f"{name} has no line LINE and no card TXT: bin/asm370 writes both, and a deck has cards of {CARD} bytes",
        )
    return [b"LINE " + user + b" " + line for line in typed]


def lines_of_script(data: bytes) -> list[bytes]:
    """The lines of a script but for comments."""
    return [line for line in data.split(b"\n") if line and not line.startswith(b"*")]


def other_line(data: bytes) -> bytes | None:
    """The first line of a script that is another event than a typed line; None if none is, or no line is typed at all."""
    lines = lines_of_script(data)
    if not any(TYPED.fullmatch(line) for line in lines):
        return None
    return next((line for line in lines if not TYPED.fullmatch(line)), None)


def typed_lines(data: bytes) -> list[bytes]:
    """What the lines of a script type."""
    return [match[1] for line in lines_of_script(data) if (match := TYPED.fullmatch(line))]


def texts_of_cards(data: bytes) -> list[bytes]:
    """The stores of a deck's cards TXT; a deck that is cut off has none."""
    if len(data) % CARD:
        return []
    found = []
    for card in cards_of(data):
        size = int.from_bytes(card[10:12], "big")
        if card.startswith(TEXT_CARD) and size <= LONGEST_TEXT:
            place = int.from_bytes(card[5:8], "big")
            found += stores(place, card[TEXT_AT : TEXT_AT + size])
    return [line.encode() for line in found]
