"""Brings a program to where a recording ends. A long way is saved on the way, so that a start that is broken off need not begin again."""
from __future__ import annotations

from bisect import bisect_right
from collections.abc import Callable, Sequence
import collections
import hashlib
import time
from typing import Any, NamedTuple

from gathjumli.following import PartResult, SavedState
from gathjumli.machines import ScriptRefused
from gathjumli.parts import Part, part_of
from gathjumli.recording import StateMark, sum_digits, weight_of

# parts that are given before the first of them is answered
AHEAD = 256
# how often it is looked whether a state is to be saved
SECONDS_BETWEEN_LOOKS = 0.2
# for so long a state waits until the printouts before it are written
SECONDS_TO_PRINT = 5


class Progress:
    """How far something is of which the whole is known, reported each second."""

    def __init__(self, whole: Any, notify: Any) -> None:
        self.whole = max(1, whole)
        self.notify = notify
        self.done = 0
        self.notified = time.monotonic()

    def share(self) -> float:
        """How much is done, from 0 to 1."""
        return min(1.0, self.done / self.whole)

    def add(self, amount: Any) -> None:
        self.done += amount
        if time.monotonic() - self.notified >= 1:
            self.notified = time.monotonic()
            self.notify(self.share())


def nearest(states: Sequence, place: Any, place_of: Callable) -> Any:
    """The last of some states, which are in order, that is no later than a place; the first one is before all places."""
    return states[bisect_right([place_of(state) for state in states], place) - 1]


class RecordingPlace(NamedTuple):
    """A place in a recording: how many bytes and lines are before it, their sum, and the time of the next stamp."""

    bytes: int
    lines: int
    sum: str
    until: bytes


class PlaceReader:
    """Counts and sums the beginning of a recording, place by place."""

    def __init__(self, path: str) -> None:
        self.file = open(path, "rb")
        self.lines = 0
        self.known = hashlib.sha256()

    def place(self, lines: int, until: bytes) -> RecordingPlace:
        """The place after so many lines, which is no earlier than the one before."""
        while self.lines < lines and (line := self.file.readline()):
            self.known.update(line)
            self.lines += 1
        return RecordingPlace(self.file.tell(), self.lines, sum_digits(self.known).decode(), until)

    def close(self) -> None:
        self.file.close()


def reached(path: str, place: RecordingPlace) -> RecordingPlace:
    """What a recording is at the line at which it is said to be so."""
    reader = PlaceReader(path)
    try:
        return reader.place(place.lines, place.until)
    finally:
        reader.close()


class Sent(NamedTuple):
    """What the program was given and has not answered: a part, or the question for the state at a place; the number of its first
    line and the time of the stamp that follows it."""

    asked: Part | RecordingPlace
    number: int
    when: bytes


class Replay:
    """One way through a recording, from a mark to its end."""

    def __init__(
        self, engine: Any, mark: StateMark | None, take: Callable, is_saving: bool
    ) -> None:
        self.engine = engine
        self.mark = mark
        self.take = take
        # a program that is started again among people has notes of now, and not of the way
        self.is_saving = is_saving
        self.sent: collections.deque[Sent] = collections.deque()
        self.reader = PlaceReader(engine.recording.path)
        self.looked = time.monotonic()

    def run(self) -> bool:
        """Goes to the end, or until the engine is stopped; whether it has come to the end."""
        try:
            return self.go()
        finally:
            self.reader.close()

    def go(self) -> bool:
        for number, when, entry in self.engine.recording.entries(self.mark, self.take_all):
            if self.engine.is_stopping:
                return False
            part = part_of(entry)
            self.engine.program.send(part.lines)
            self.sent.append(Sent(part, number, when))
            if self.is_state_due():
                self.ask_for_state(number - 1 + entry.count(b"\n"), when)
            if len(self.sent) >= AHEAD:
                self.take_first()
        return not self.sent

    def take_all(self) -> None:
        """Waits until all that was given is answered, or the engine is stopped."""
        while self.sent and not self.engine.is_stopping:
            self.take_first()

    def take_first(self) -> None:
        """Waits for what is answered next."""
        asked, number, when = self.sent.popleft()
        if isinstance(asked, RecordingPlace):
            self.save(asked)
            return
        result: PartResult = self.engine.checked(self.engine.program.answer, line=number)
        self.take(asked, result, when.decode()[:16])
        self.engine.progress.add(weight_of(asked.lines))
        self.engine.entries += 1

    # --- states on the way ---

    def is_state_due(self) -> bool:
        now = time.monotonic()
        if not self.is_saving or now - self.looked < SECONDS_BETWEEN_LOOKS:
            return False
        self.looked = now
        is_asked = any(isinstance(item.asked, RecordingPlace) for item in self.sent)
        return not is_asked and self.engine.states.is_due(self.engine.seconds_to_repeat())

    def ask_for_state(self, lines: int, when: bytes) -> None:
        place = self.reader.place(lines, when)
        self.engine.program.ask_for_state()
        self.sent.append(Sent(place, lines, when))

    def save(self, place: RecordingPlace) -> None:
        """Saves the state that the program answers. What was printed before it has to be written first."""
        engine, begun = self.engine, time.monotonic()
        saved = self.answer()
        engine.printouts.settle(SECONDS_TO_PRINT)
        if engine.marks:
            engine.recording.add(engine.take_marks())
        if not engine.printouts.unwritten():
            engine.states.save_on_way(saved, place, engine.notes())
        engine.states.tried_on_way(engine.seconds_to_repeat(), time.monotonic() - begun)

    def answer(self) -> SavedState | None:
        try:
            return self.engine.program.answer()
        except ScriptRefused:
            return None
