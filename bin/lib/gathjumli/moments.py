"""Any moment of a run. A moment is (event, unit): so many events are done, and so many units of the next one. What is seen of it is what
the program answers to SAVE there, or where states are large to VIEW of one user, and the lines that it printed. The program gets there
from the nearest state before it."""
from __future__ import annotations

from bisect import bisect_left, bisect_right
import collections
import threading
from typing import NamedTuple

from gathjumli.replaying import nearest
from gathjumli.run_index import Mark, Printed, Run
from gathjumli.state_programs import StateProgram
from gathjumli.state_view import UserView
from gathjumli.tracing import SLICE

KEPT_MOMENTS = 24
# the most bytes for pieces of moments; pieces of the kept states have a bound of their own
MOST_BYTES = 64 << 20
# programs that have read directory and volumes, and wait for a state, and what their frames and slots take at most
SPARE, MOST_SPARE_BYTES = 2, 128 << 20
WAYS = ("unit+", "unit-", "own+", "own-", "event+", "event-")


class Place(NamedTuple):
    """Where a moment is in the script: so many whole entries are done, turns of the next one, and units of it if it is a run; what is
    still to be done within a turn."""

    entry: int
    turn: int
    unit: int
    rest: bytes

    def before(self) -> tuple[int, int, int]:
        return self.entry, self.turn, self.unit


class Moment(NamedTuple):
    event: int
    unit: int
    # of all users, or of one where states are large
    view: UserView
    # lines that were printed in this event until now
    lines: list[Printed]


class Live(NamedTuple):
    """A program that is at a moment, and may go on from there; what the event printed until then."""

    program: StateProgram
    event: int
    unit: int
    place: Place
    lines: list[Printed]


class Moments:
    """The moments of a run, made one at a time."""

    def __init__(self, run: Run) -> None:
        self.run = run
        self.steps = run.steps
        # by event, unit, and the user of whom the view is
        self.known: collections.OrderedDict[
            tuple[int, int, str], Moment
        ] = collections.OrderedDict()
        self.spare: list[StateProgram] = []
        self.live: Live | None = None
        # for all that belongs to moments, and for the spare programs, which searches take too
        self.lock, self.spare_lock = threading.RLock(), threading.Lock()
        self.printed_in = [line.event for line in run.lines]

    def close(self) -> None:
        with self.lock, self.spare_lock:
            if self.live:
                self.live.program.close()
            for program in self.spare:
                program.close()
            self.live, self.spare = None, []

    # --- programs ---

    def fresh(self) -> StateProgram:
        """A program that has read directory and volumes; others are made ready meanwhile."""
        with self.spare_lock:
            found = self.spare.pop() if self.spare else StateProgram(self.run.machines)
            while len(self.spare) < min(SPARE, MOST_SPARE_BYTES // max(1, self.run.room)):
                self.spare.append(StateProgram(self.run.machines))
        return found

    def restored(self, mark: Mark) -> StateProgram:
        """A program that is where a state is."""
        program = self.fresh()
        try:
            program.restore(mark.state.size, mark.state.data(self.run.pieces))
        except BaseException:
            program.close()
            raise
        return program

    # --- a moment ---

    def ordered(self, event: int, unit: int) -> tuple[int, int]:
        """A moment that there is: all units of an event are the moment after it."""
        event = max(0, min(event, len(self.steps)))
        if unit and unit >= self.units_of(event):
            return min(event + 1, len(self.steps)), 0
        return event, unit

    def place_of(self, event: int, unit: int) -> Place:
        """Where a moment is: after whole turns only, and what of a turn is done then."""
        if event >= len(self.steps):
            return Place(len(self.run.entries), 0, 0, b"")
        step = self.steps[event]
        if unit and not step.is_dealt:
            return Place(step.entry, 0, unit, b"")
        rest = f"RUN {self.steps[event - 1].user} {SLICE}\n" if step.is_after_slice else ""
        rest += f"RUN {step.user} {unit}\n" if unit else ""
        return Place(step.entry, step.turn, 0, rest.encode())

    def key_of(self, event: int, unit: int, user: str) -> tuple[int, int, str]:
        """By what a moment is known."""
        return event, unit, user if self.run.is_large() else ""

    def moment(self, event: int, unit: int, user: str = "") -> Moment:
        """A moment; where states are large it shows only this user, or all if none is named."""
        key = self.key_of(event, unit, user)
        with self.lock:
            found = self.known.pop(key, None) or self.made(*key)
            self.known[key] = found
            while len(self.known) > KEPT_MOMENTS:
                self.known.popitem(last=False)
            if self.run.is_full(MOST_BYTES):
                self.run.forget_but([moment.view for moment in self.known.values()])
            return found

    def program_at(self, event: int, unit: int) -> StateProgram:
        """A program that is led to a moment from the last state before it. Where one takes much, the live one ends first."""
        with self.lock:
            if self.live and self.run.room > MOST_SPARE_BYTES:
                self.live.program.close()
                self.live = None
        place = self.place_of(event, unit)
        mark = self.mark_before(place)
        program = self.restored(mark)
        try:
            script = self.between(mark.entry, mark.turn, mark.unit, place) + [place.rest]
            for part in filter(None, script):
                program.do(part)
        except BaseException:
            program.close()
            raise
        return program

    def made(self, event: int, unit: int, user: str) -> Moment:
        """A moment, from the last state before it or from the last moment that was made, whatever is nearer."""
        place = self.place_of(event, unit)
        mark = self.mark_before(place)
        live, self.live = self.live, None
        if live and self.can_go_on(live, event, unit, place, mark):
            script = self.way_on(live, event, unit, place)
            lines = live.lines if live.event == event else []
            program = live.program
        else:
            if live:
                live.program.close()
            program = self.restored(mark)
            script = self.between(mark.entry, mark.turn, mark.unit, place) + [place.rest]
            lines = self.lines_before(mark, event)
        try:
            found = self.printed_by(program, script, event, unit) if unit else []
            if not unit:
                for part in filter(None, script):
                    program.do(part)
            view = (
                program.user_view(user, self.run.machines.users, self.run.pieces)
                if user
                else self.run.view_of(program)
            )
        except BaseException:
            program.close()
            raise
        lines = lines + found if unit else []
        self.live = Live(program, event, unit, place, lines)
        return Moment(event, unit, view, lines)

    def can_go_on(self, live: Live, event: int, unit: int, place: Place, mark: Mark) -> bool:
        """Whether the live program is before a moment, at a place from which AUTO deals as it did, and no state is nearer."""
        if live.event == event and live.unit <= unit and self.units_of(event):
            return live.place.before() >= mark.place()
        is_before = (live.event, live.unit) <= (event, unit)
        return is_before and not live.place.rest and live.place.before() >= mark.place()

    def way_on(self, live: Live, event: int, unit: int, place: Place) -> list[bytes]:
        """What the live program is to do until a moment."""
        if live.event == event and self.units_of(event):
            count = unit - live.unit
            return [f"RUN {self.steps[event].user} {count}\n".encode()] if count else []
        start = live.place
        return self.between(start.entry, start.turn, start.unit, place) + [place.rest]

    def printed_by(
        self, program: StateProgram, script: list[bytes], event: int, unit: int
    ) -> list[Printed]:
        """Has the program do parts of a script; what the last one has printed."""
        lines: list[Printed] = []
        for part in filter(None, script):
            lines = [
                Printed(event, unit, *line.split(": ", 1))
                for line in program.do(part).events
                if not line.startswith("= ") and ": " in line
            ]
        return lines

    def lines_before(self, mark: Mark, event: int) -> list[Printed]:
        """What an event printed before a state within it."""
        if mark.event != event:
            return []
        place = bisect_left(self.printed_in, event)
        found = self.run.lines[place : bisect_right(self.printed_in, event)]
        return [line for line in found if line.unit <= mark.unit]

    def mark_before(self, place: Place) -> Mark:
        return nearest(self.run.marks, place.before(), Mark.place)

    def between(self, entry: int, turn: int, unit: int, place: Place) -> list[bytes]:
        """The script from one place to another, whole turns only; the last part is of the entry in which that place is."""
        entries = self.run.entries
        if entry == place.entry:
            if place.unit > unit:
                return [f"RUN {entries[entry].words[1]} {place.unit - unit}\n".encode()]
            return [b"AUTO %d\n" % (place.turn - turn)] if place.turn > turn else []
        script = b""
        if turn:
            script += b"AUTO %d\n" % (entries[entry].turns - turn)
        if unit:
            script += f"RUN {entries[entry].words[1]} {entries[entry].units() - unit}\n".encode()
        first = entry + bool(turn or unit)
        script += b"".join(self.text_of(number) for number in range(first, place.entry))
        last = f"RUN {entries[place.entry].words[1]} {place.unit}\n" if place.unit else ""
        last += f"AUTO {place.turn}\n" if place.turn else ""
        return [script, last.encode()]

    def text_of(self, entry: int) -> bytes:
        """The lines of an entry as the program reads them."""
        found = self.run.entries[entry]
        if found.words[0] != "AUTO":
            return found.text
        # one without a number may have found nobody ready
        return b"AUTO %d\n" % found.turns if found.turns else b""

    # --- going ---

    def units_of(self, event: int) -> int:
        return self.steps.units[event] if event < len(self.steps) else 0

    def owner_of(self, event: int) -> str:
        return self.steps[event].user if event < len(self.steps) else ""

    def before(self, event: int, unit: int) -> tuple[int, int]:
        """The moment before one, by a unit if there is one."""
        if unit:
            return event, unit - 1
        return max(0, event - 1), max(0, self.units_of(event - 1) - 1) if event else 0

    def is_unit(self, since: tuple[int, int], to: tuple[int, int], user: str) -> bool:
        """Whether one unit of a user leads from a moment to another."""
        event, unit = since
        is_own = self.owner_of(event) == user and unit < self.units_of(event)
        return is_own and self.ordered(event, unit + 1) == to

    def go(self, event: int, unit: int, user: str, way: str) -> tuple[int, int]:
        """Where a key leads: to the next or last unit of a user, or event of anybody or of a user."""
        if way == "event+":
            return self.ordered(event + 1, 0)
        if way == "event-":
            return (event, 0) if unit else self.ordered(event - 1, 0)
        is_unit = way.startswith("unit")
        if way.endswith("+"):
            return self.forward(event, unit, user, is_unit)
        return self.back(event, unit, user, is_unit)

    def forward(self, event: int, unit: int, user: str, is_unit: bool) -> tuple[int, int]:
        if is_unit and self.owner_of(event) == user and self.units_of(event) > unit:
            return self.ordered(event, unit + 1)
        own = self.steps.lanes[user].events
        place = bisect_left(own, event + (unit > 0))
        if place == len(own):
            return len(self.steps), 0
        # what is before it of others is done as well
        found = own[place]
        return self.ordered(found, 1) if is_unit and self.units_of(found) else (found + 1, 0)

    def back(self, event: int, unit: int, user: str, is_unit: bool) -> tuple[int, int]:
        if unit:
            return event, unit - 1 if is_unit else 0
        own = self.steps.lanes[user].events
        place = bisect_left(own, event) - 1
        if place < 0:
            return 0, 0
        found = own[place]
        return found, max(0, self.units_of(found) - 1) if is_unit else 0
