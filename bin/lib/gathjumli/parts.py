"""Parts of a script, as an installation gives them to the program, and how many turns one deals."""
from __future__ import annotations

from itertools import chain
from typing import Any, NamedTuple
import re

from gathjumli.following import PartResult
from gathjumli.recording import TURNS, TYPED

# turns in a part at most; after all waited at most, and after typed lines at least
MOST_TURNS = 100000
FEW_TURNS = 4
# if so many turns found no frame all wait for one: each of 64 users may have 32 programs to be served
STUCK_TURNS = 64 * 32
LACKED = re.compile("= [A-Z0-9]+ 0 FRAMES")


class Part(NamedTuple):
    """Lines that the program is given at once; what of them is typed, each with the user's name; how
    many turns it deals; whether it has to be on the disk before anything else is done."""

    lines: bytes
    typed: tuple = ()
    turns: int = 0
    is_kept: bool = False


def turns_part(turns: int) -> Part:
    return Part(b"AUTO %d\n" % turns, turns=turns)


def typed_line(name: str, text: Any) -> Part:
    line = b"LINE %s %s\n" % (name.encode(), text)
    return Part(line, ((name, text.decode("latin-1")),), is_kept=True)


def part_of(entry: bytes) -> Part:
    """The part that an entry of a recording was."""
    if turns := TURNS.fullmatch(entry):
        return turns_part(int(turns[1]))
    typed = TYPED.fullmatch(entry)
    return typed_line(typed[1].decode(), typed[2]) if typed else Part(entry)


def joined(parts: list[Part]) -> Part:
    """Parts as one."""
    typed = tuple(line for part in parts for line in part.typed)
    lines = b"".join(part.lines for part in parts)
    return Part(lines, typed, is_kept=any(part.is_kept for part in parts))


def joined_results(results: list[PartResult]) -> PartResult:
    """What came of parts, as if they were one."""
    events, files, states = (
        [*chain.from_iterable(result[place] for result in results)] for place in range(3)
    )
    return PartResult(events, files, states, results[-1].is_idle)


def is_shown(result: PartResult) -> bool:
    """Whether anybody is shown something of a part."""
    return bool(result.files) or any(not event.startswith("= ") for event in result.events)


class Pace:
    """How many turns a part deals, so that one takes about the same time whatever the guests and the host do."""

    def __init__(self, aim: float) -> None:
        self.aim = aim
        self.turns = 1
        self.is_busy = True
        self.stuck = 0
        # how long a turn took last
        self.seconds_a_turn = 0.0

    def took(self, turns: int, seconds: float, came: PartResult) -> None:
        """Notes what came of so many turns."""
        self.seconds_a_turn = round(seconds / turns, 9)
        absent = sum(
            event.startswith("= ") and bool(LACKED.fullmatch(event)) for event in came.events
        )
        self.stuck = self.stuck + turns if absent >= turns else 0
        self.is_busy = not came.is_idle and self.stuck < STUCK_TURNS
        self.turns = max(
            1, min(MOST_TURNS, 2 * self.turns, int(self.turns * self.aim / max(seconds, 1e-6)))
        )
        if not self.is_busy:
            # little is wasted where the next line wakes nobody
            self.turns = min(self.turns, FEW_TURNS)

    def woke(self, came: PartResult) -> None:
        """Notes what came of lines that were typed, and of a few turns after them."""
        self.is_busy = not came.is_idle
        self.stuck = 0
