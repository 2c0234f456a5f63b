"""A run that is done once from its beginning to its end: its events, what terminals showed, the files that it closed, and states on the way,
from which any moment is near."""
from __future__ import annotations

from collections.abc import Callable, Iterator
import collections
import itertools
import time
from typing import Any, NamedTuple

from gathjumli.cli import Failure, REFUSED
from gathjumli.following import PartResult
from gathjumli.replaying import Progress
from gathjumli.run_steps import Step, Steps
from gathjumli.script_lines import Event
from gathjumli.state_files import StateFile, restore
from gathjumli.state_pieces import Pieces
from gathjumli.state_programs import StateProgram
from gathjumli.state_view import PAGE, PackedState, StateView, UserView
from gathjumli.tracing import SLICE

# what is done between two states, in units, at first and at most; a line counts as some. Where there are many states, every other one
# goes, and the next ones are farther apart
LEAST_SPACING, MOST_SPACING = 1_250, 20_000
MANY_STATES = 256
WORK_OF_LINE = 40
MOST_TURNS = 100_000
# parts that are given before the first of them is answered
AHEAD = 16
# pieces of states take at most so many bytes of memory, and so many of a file; then every other state goes
MOST_STATE_BYTES, MOST_FILE_BYTES = 192 << 20, 1 << 30
MIDDLING_STATE, LARGE_STATE = 64 << 10, 4 << 20
IDLE = "= IDLE"


class Entry(NamedTuple):
    """Lines of a script that are given together: an event but for AUTO, which deals many; how many turns that deals, if it is said; and
    the number of the first line."""

    words: list[str]
    text: bytes
    turns: int
    number: int

    def units(self) -> int:
        return int(self.words[2]) if self.words[0] == "RUN" else 0


class Mark(NamedTuple):
    """A state that is kept: so many events are done, and units of the next one; so many whole entries, and turns of the next one."""

    event: int
    unit: int
    entry: int
    turn: int
    state: PackedState

    def place(self) -> tuple[int, int, int]:
        return self.entry, self.turn, self.unit


class Piece(NamedTuple):
    """What the program is given at once: an entry, or some turns or units of it, of which so many are before."""

    entry: int
    before: int
    count: int
    text: bytes


class Printed(NamedTuple):
    """A line that a terminal showed: in which event, after so many of its units at the latest."""

    event: int
    unit: int
    user: str
    text: str


def entries_of(events: list[Event]) -> list[Entry]:
    """What the lines of a script are to the program, each typed line of a LOAD by itself."""
    found = []
    for event in events:
        if not event.line or event.line.startswith(b"*"):
            continue
        is_load = event.line.startswith(b"LOAD ")
        for lines in [[line] for line in event.given] if is_load else [event.given]:
            words = lines[0].decode("latin-1").split(" ", 2)
            turns = int(words[1]) if words[0] == "AUTO" and len(words) > 1 else 0
            text = b"".join(line + b"\n" for line in lines)
            found.append(Entry(words, text, turns, event.number))
    return found


class Run:
    """A run that was done once."""

    def __init__(
        self,
        machines: Any,
        entries: list[Entry],
        beginning: StateFile | None,
        notify: Callable[[float], None],
    ) -> None:
        self.machines = machines
        self.users: list[str] = list(machines.users)
        self.entries = entries
        self.steps = Steps(self.users)
        self.pieces = Pieces()
        self.lines: list[Printed] = []
        # closed files with the event that closed them
        self.files: list[tuple[int, str, bytes]] = []
        self.marks: list[Mark] = []
        # units and lines since the last state, and how long that took
        self.work = 0
        # what is done between two states; the program is given as much at once
        self.spacing = LEAST_SPACING
        self.marked_at, self.marking = 0.0, 0.0
        # the bytes of all frames and slots, which each program has
        self.room = 0
        self.is_cut = False
        self.progress = Progress(sum(map(work_of, entries)), notify)
        begun = time.monotonic()
        self.go(beginning)
        self.seconds = time.monotonic() - begun

    # --- what the program is given ---

    def go(self, beginning: StateFile | None) -> None:
        program = StateProgram(self.machines)
        try:
            if beginning:
                restore(program, beginning)
            self.mark(program, 0, 0, 0)
            self.give_all(program)
            self.mark(program, len(self.entries), 0, 0)
        finally:
            program.close()

    def give_all(self, program: StateProgram) -> None:
        sent: collections.deque[Piece] = collections.deque()
        for number, entry in enumerate(self.entries):
            if entry.units() > self.spacing or entry.words[0] == "AUTO" and not entry.turns:
                # how one piece ends decides whether there is another one
                self.take_all(program, sent)
                give = self.give_run if entry.units() else self.give_until_all_wait
                give(program, number, entry)
                continue
            for piece in self.pieces_of(number, entry):
                program.send(piece.text)
                sent.append(piece)
                self.work += work_of(entry, piece.count)
                if len(sent) > AHEAD:
                    self.take(sent.popleft(), program.answer())
                if self.is_mark_due():
                    self.take_all(program, sent)
                    self.mark_after(program, piece)
        self.take_all(program, sent)

    def pieces_of(self, number: int, entry: Entry) -> Iterator[Piece]:
        """An entry of which the length is known, in pieces."""
        if entry.words[0] != "AUTO":
            yield Piece(number, 0, entry.units(), entry.text)
            return
        before = 0
        while before < entry.turns:
            count = min(self.spacing // SLICE, entry.turns - before)
            yield Piece(number, before, count, b"AUTO %d\n" % count)
            before += count

    def take_all(self, program: StateProgram, sent: collections.deque[Piece]) -> None:
        while sent:
            self.take(sent.popleft(), program.answer())

    def give_run(self, program: StateProgram, number: int, entry: Entry) -> None:
        """Gives a long run piece by piece, until one ends early."""
        before = 0
        while before < entry.units():
            count = min(self.spacing, entry.units() - before)
            text = f"RUN {entry.words[1]} {count}\n".encode()
            result = program.do(text)
            piece = Piece(number, before, count, text)
            self.take(piece, result)
            self.work += count
            if not result.events[-1].endswith(" COUNT"):
                return
            before += count
            if self.is_mark_due() and before < entry.units():
                self.mark_after(program, piece)

    def give_until_all_wait(self, program: StateProgram, number: int, entry: Entry) -> None:
        """Deals turns until one finds nobody ready. That one, and those after it, change nothing, and are left out."""
        before = 0
        while before < MOST_TURNS:
            count = min(self.spacing // SLICE, MOST_TURNS - before)
            text = b"AUTO %d\n" % count
            result = program.do(text)
            idle = idle_turns(result.events)
            events = result.events[: len(result.events) - idle]
            piece = Piece(number, before, count - idle, text)
            self.take(piece, result._replace(events=events))
            self.work += SLICE * piece.count
            if idle:
                self.entries[number] = entry._replace(turns=before + piece.count)
                return
            before += count
            if self.is_mark_due():
                self.mark_after(program, piece)
        text = f"somebody does not wait after {MOST_TURNS} turns: write AUTO with a number"
        raise Failure(REFUSED, f"line {entry.number}: {text}")

    # --- states ---

    def is_mark_due(self) -> bool:
        """Whether so much was done that a state is kept. Of large states there are fewer, so that they take half of the time at most, and
        so there are of middling ones that are nearer to each other than states may be."""
        if self.work < self.spacing:
            return False
        most = LARGE_STATE if self.work >= MOST_SPACING else MIDDLING_STATE
        return self.marks[-1].state.size < most or time.monotonic() - self.marked_at >= self.marking

    def mark_after(self, program: StateProgram, piece: Piece) -> None:
        entry, done = self.entries[piece.entry], piece.before + piece.count
        if entry.words[0] == "AUTO" and done != entry.turns:
            self.mark(program, piece.entry, done, 0)
        elif entry.units() > done:
            self.mark(program, piece.entry, 0, done)
        else:
            self.mark(program, piece.entry + 1, 0, 0)

    def mark(self, program: StateProgram, entry: int, turn: int, unit: int) -> None:
        """Keeps the state where the program is."""
        begun = time.monotonic()
        event = len(self.steps) - (unit > 0)
        view = self.view_of(program)
        self.marks.append(Mark(event, unit, entry, turn, view.state))
        self.room = PAGE * (len(view.supply.owners) + len(view.supply.slots))
        is_dense = len(self.marks) > MANY_STATES and self.spacing < MOST_SPACING
        if is_dense or self.is_full():
            self.forget_half()
            self.spacing = min(2 * self.spacing, MOST_SPACING)
        self.work = 0
        self.marked_at = time.monotonic()
        self.marking = self.marked_at - begun

    def is_full(self, more: int = 0) -> bool:
        """Whether pieces take more than they may, and so many bytes more."""
        is_large = self.pieces.size > MOST_STATE_BYTES + more
        return is_large or self.pieces.blocks.used() > MOST_FILE_BYTES + more

    def forget_half(self) -> None:
        """Keeps the first state and every other one before the last one, from which the end is near, and that."""
        self.marks = self.marks[:-1:2] + self.marks[-1:]
        self.forget_but([])

    def forget_but(self, views: list[UserView]) -> None:
        """Forgets all pieces but those of the kept states, and of these views."""
        used = [
            *(mark.state.used(self.pieces) for mark in self.marks),
            *(view.used() for view in views),
        ]
        self.pieces.forget_others(itertools.chain.from_iterable(used))

    def view_of(self, program: StateProgram) -> StateView:
        """The state where a program is."""
        return program.view(self.machines.users, self.pieces)

    def is_large(self) -> bool:
        """Whether a state takes so long that only one user is looked at."""
        return self.marks[-1].state.size >= LARGE_STATE

    # --- what the program answers ---

    def take(self, piece: Piece, result: PartResult) -> None:
        entry, before = self.entries[piece.entry], len(self.steps)
        self.progress.add(work_of(entry, piece.count))
        if entry.words[0] == "AUTO":
            self.take_turns(piece, result.events)
        else:
            self.take_event(piece, entry, result.events)
        for heading, body in result.files:
            self.files.append((max(before, len(self.steps) - 1), heading, body))

    def take_event(self, piece: Piece, entry: Entry, events: list[str]) -> None:
        """Takes an event of the script; of a long run the pieces after the first make it longer."""
        kind, user = entry.words[:2]
        text = entry.text.partition(b"\n")[0].decode("latin-1")
        # how it ended: a run, a serve, or what found no frame
        end = events[-1].split(" ") if events and events[-1].startswith("= ") else []
        is_counted = kind == "RUN" and len(end) > 3
        units = int(end[2]) if is_counted else 0
        reason = end[3] if is_counted else end[2] if end else ""
        if kind == "RUN" and piece.before:
            self.show(events, len(self.steps) - 1, piece.before + units)
            self.steps.lengthen(units, reason)
            return
        self.show(events, len(self.steps), units)
        self.steps.add(Step(kind, user, text, units, reason, piece.entry, 0, False, False))

    def take_turns(self, piece: Piece, events: list[str]) -> None:
        """Takes the events of turns. A serve is in the turn of the slice before it."""
        printed: list[str] = []
        turn, has_slice = piece.before - 1, False
        for event in events:
            if not event.startswith("= "):
                printed.append(event)
                continue
            words = event.split(" ")
            is_slice = len(words) == 4 and words[2].isdigit()
            if event == IDLE or is_slice or not has_slice:
                turn += 1
                has_slice = False
            self.show(printed, len(self.steps), 0)
            printed = []
            self.add_dealt(words, piece.entry, turn, is_slice, has_slice)
            has_slice = is_slice
        if turn != piece.before + piece.count - 1:
            raise Failure(REFUSED, "the turns of AUTO are not as the transcript says")

    def add_dealt(
        self, words: list[str], entry: int, turn: int, is_slice: bool, is_after_slice: bool
    ) -> None:
        """Adds what a turn has dealt, by the words of its last line in the transcript."""
        if len(words) == 2:
            self.steps.add(Step("IDLE", "", "", 0, "IDLE", entry, turn, True, False))
        elif is_slice:
            step = Step("RUN", words[1], "", int(words[2]), words[3], entry, turn, True, False)
            self.steps.add(step)
        else:
            step = Step("SERVE", words[1], "", 0, words[2], entry, turn, True, is_after_slice)
            self.steps.add(step, int(words[3], 16) if len(words) > 3 else 0)

    def show(self, events: list[str], place: int, unit: int) -> None:
        for event in events:
            if not event.startswith("= "):
                user, _, text = event.partition(": ")
                self.lines.append(Printed(place, unit, user, text))


def idle_turns(events: list[str]) -> int:
    """How many turns at the end found nobody ready."""
    return next((at for at, event in enumerate(reversed(events)) if event != IDLE), len(events))


def work_of(entry: Entry, count: int | None = None) -> int:
    """About how much is to be done for an entry, or for so many turns or units of it."""
    if entry.words[0] == "AUTO":
        return SLICE * (entry.turns if count is None else count)
    return WORK_OF_LINE + (entry.units() if count is None else count)
