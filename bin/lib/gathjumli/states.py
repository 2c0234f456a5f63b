"""The states that an installation saves of its machines, so that a start computes only what came after the last one."""
from __future__ import annotations

from collections.abc import Callable, Iterator
from typing import TYPE_CHECKING, Any, NamedTuple
import glob
import time

from gathjumli.cli import FILE_FAILED, Failure, REFUSED, reason_text
from gathjumli.following import Died, Program, SavedState
from gathjumli.host import MEGABYTE
from gathjumli.limits import LITTLE_FREE
from gathjumli.checkpoints import LAST_STATE
from gathjumli.recording import END, MOST_STATES, Recording, StateMark
from gathjumli.spooling import Printout, Printouts, TOLD, WRITTEN
from gathjumli.state_files import (
    MOST_BYTES,
    StateFile,
    TITLE,
    is_state,
    read_state,
    write_state,
)

from gathjumli.replaying import RecordingPlace, reached
from gathjumli.strays import SESSION, forget_states, state_paths

if TYPE_CHECKING:
    from gathjumli.users import User

SECONDS_TO_TRY_AGAIN = 1
# for how many seconds everybody may wait for a state; after so many in a row for which they waited longer, none is saved before a
# suspend, since the next ones take longer still
MOST_WAITED = 1.0
SLOW_ONES = 2
# between two states is so many times what people wait for one
WAITS_APART = 50
# in the notes of a state that has no mark: the bytes and the lines before it, their sum, and a time
WAY = "way"


class LastState(NamedTuple):
    """What is reported of the last state: its bytes, and how long everybody waited while it was saved."""

    size: int
    waited: float


class States:
    """Saves states next to the recording, which has a mark for each, and finds those from which a start can go on."""

    def __init__(
        self, recording: Recording, printouts: Printouts, every: int, notify: Callable[[str], None]
    ) -> None:
        self.recording = recording
        self.printouts = printouts
        self.every = every
        self.notify = notify
        self.is_off = not every
        # the engine's seconds at the last state, and when the next one is due
        self.at = 0.0
        self.due = float("inf")
        # how many of these seconds the reading of a state takes, as far as that is known
        self.reading = 0.0
        self.last: LastState | None = None
        self.slow = 0
        self.trouble = ""
        # states without a mark, which starts have saved on their way
        self.on_way: list[StateMark] = []

    # --- saving ---

    def goes_on(self, seconds: float, reading: float, state: StateFile | None) -> None:
        """The program is where a state was, or at the beginning, after so many seconds."""
        self.at, self.due = seconds, seconds + self.every
        if state:
            self.reading, self.last = reading, LastState(state.size, 0.0)

    def has_turned(self, seconds: float, state: LastState) -> None:
        """Another recording goes on from a state that was saved just now."""
        self.on_way = []
        self.at, self.due, self.reading = seconds, seconds + self.every, state.waited
        self.last = state

    def is_due(self, seconds: float) -> bool:
        is_free = not self.recording.store.is_keeping
        return not self.is_off and self.slow < SLOW_ONES and seconds >= self.due and is_free

    def can_save(self, seconds: float) -> bool:
        """Whether a state may be saved now, which else is tried again soon. A printout that waits would be lost with what is before
        a state."""
        self.due = seconds + SECONDS_TO_TRY_AGAIN
        return not self.is_off and self.recording.is_past_state and not self.printouts.unwritten()

    def save(self, program: Program, notes: dict[str, Any]) -> bool:
        """Saves the state where the recording ends, which is on the disk before. Says whether it is saved, or else reports why not."""
        begun = time.monotonic()
        self.recording.settle()
        try:
            saved = program.save()
        except Died:
            self.stop("the program has died while it was saved")
            raise
        name = f"state-{self.recording.lines}"
        digits = self.written(name, saved, notes)
        if not digits:
            return False
        self.recording.mark_state(name, digits)
        self.on_way = []
        self.forget_before(MOST_STATES)
        self.note(LastState(saved.size(), time.monotonic() - begun))
        return True

    def written(self, name: str, saved: SavedState | None, notes: dict[str, Any]) -> str:
        """Writes the file of a state; its sum, or nothing if it is not saved for a reason that is reported."""
        if saved is None or saved.size() > MOST_BYTES:
            why = f"it has more than {MOST_BYTES} bytes" if saved else "the program refuses it"
            self.stop(why)
            return ""
        if (free := self.recording.free()) < saved.size() + LITTLE_FREE:
            # what people type has to find room
            self.report(f"its disk has {free // MEGABYTE} MB free")
            return ""
        notes = notes | {SESSION: self.recording.name()}
        try:
            digits = write_state(self.path(name), self.base(), notes, saved)
        except OSError as error:
            self.report(error.strerror)
            return ""
        self.recording.store.keep_soon(self.path(name))
        self.trouble = ""
        return digits

    def save_last(self, program: Program, path: str, notes: dict[str, Any]) -> str:
        """Saves the state with which the next session goes on; its sum."""
        try:
            saved = program.save()
            if saved is None or saved.size() > MOST_BYTES:
                why = f"it has more than {MOST_BYTES} bytes" if saved else "the program refuses it"
                raise Failure(FILE_FAILED, why)
            return write_state(path, self.base(), notes, saved)
        except (Failure, OSError) as reason:
            is_marked = self.recording.last.startswith(END)
            how = "with --without-machines" if is_marked else "again and give end logoff"
            raise Failure(
                FILE_FAILED,
                f"the session has not ended, since the state of its machines is not saved: {reason_text(reason)}",
                f"make room, or start {how}, which ends it without its machines",
            ) from None

    def note(self, state: LastState) -> None:
        """Notes how long everybody waited for a state, and says once that there are no more before a suspend."""
        self.last = state
        self.slow = self.slow + 1 if state.waited > MOST_WAITED else 0
        if self.slow == SLOW_ONES:
            self.notify(
                f"everybody waited {state.waited:.1f} seconds for a state of {state.size // MEGABYTE} MB: "
                "no further one is saved before a suspend"
            )

    def tried(self, seconds: float, is_saved: bool) -> None:
        """The program has taken so many seconds until a state was saved, or was not. The next one is not due before so much was
        computed that people waited for little of it."""
        waited = self.last.waited if self.last and is_saved else 0.0
        self.due = seconds + max(self.every, WAITS_APART * waited)
        if is_saved:
            self.at = seconds

    def stop(self, why: str) -> None:
        self.is_off = True
        self.report(f"{why}; no further one is tried until the next start")

    def report(self, why: str) -> None:
        """Says once why no state is saved."""
        if why != self.trouble:
            self.notify(f"no state is saved: {why}")
        self.trouble = why

    # --- on the way through a recording ---

    def save_on_way(
        self, saved: SavedState | None, place: RecordingPlace, notes: dict[str, Any]
    ) -> None:
        """Saves the state at a place which the recording has no mark for: the state itself says where that is."""
        name = f"state-{place.lines}"
        way = [place.bytes, place.lines, place.sum, place.until.decode()]
        digits = self.written(name, saved, notes | {WAY: way})
        if digits and saved:
            mark = StateMark(name, digits, place.bytes, place.lines, place.until, None)
            self.on_way = [*self.on_way, mark][-MOST_STATES:]
            self.forget_before(MOST_STATES)
            self.last = LastState(saved.size(), 0.0)

    def tried_on_way(self, seconds: float, took: float) -> None:
        """A state was saved on the way, or was not, after so many seconds of the program. The next one is not due too soon."""
        self.at, self.due = seconds, seconds + max(self.every, WAITS_APART * took)

    def find_on_way(self) -> None:
        """Finds the states that starts have saved on their way since the last one with a mark."""
        marks = [
            *[self.recording.beginning] * bool(self.recording.beginning),
            *self.recording.states,
        ]
        known = {mark.name for mark in marks}
        paths = [item for item in state_paths(self.recording.path).items() if item[0] not in known]
        found = [mark for name, path in paths if (mark := self.mark_on_way(name, path))]
        last = max((mark.place for mark in marks), default=0)
        later = [mark for mark in found if mark.place > last]
        self.on_way = sorted(later, key=lambda mark: mark.place)[-MOST_STATES:]

    def mark_on_way(self, name: str, path: str) -> StateMark | None:
        """The mark that a state on the way would have, if it is one of this recording as that is now."""
        try:
            state = read_state(path)
            state.file.close()
            *way, until = state.notes[WAY]
            place = RecordingPlace(*way, until.encode())
            found = reached(self.recording.path, place)
        except (Failure, OSError, KeyError, TypeError, ValueError, AttributeError):
            # another kind of state, or none
            return None
        if found != place or state.notes.get(SESSION) != self.recording.name():
            return None
        return StateMark(name, state.sum, place.bytes, place.lines, place.until, None)

    # --- files ---

    def base(self) -> list[bytes]:
        """What states of this session are of: the program, the directory and the sizes, as the recording has them."""
        return [TITLE, *self.recording.base[1:4]]

    def path(self, name: str) -> str:
        return f"{self.recording.path}.{name}"

    def forget_before(self, count: int) -> None:
        """Removes all files but those of so many last marks."""
        kept = {mark.name for mark in self.recording.states[-count:]} if count else set()
        kept |= {mark.name for mark in self.on_way}
        forget_states(self.recording.path, kept)

    # --- going on ---

    def found(self) -> Iterator[tuple[StateMark, StateFile]]:
        """The states from which the program can go on, the last one first; then that with which the session began."""
        beginning = [self.recording.beginning] * bool(self.recording.beginning)
        states = self.recording.states[-MOST_STATES:]
        for mark in reversed([*beginning, *states, *self.on_way]):
            try:
                self.recording.store.have(self.path(mark.name))
                state = read_state(self.path(mark.name))
                if (state.sum, state.base) != (mark.sum, self.base()):
                    raise Failure(0, f"{state.path} is another one than the recording says")
            except Failure as failure:
                self.notify(failure.lines[0])
            except OSError as error:
                self.notify(f"{self.path(mark.name)}: {error.strerror}")
            else:
                if self.has_printed(state):
                    yield mark, state
                else:
                    self.notify(f"{state.path} is not taken: a printout before it is not written")

    def lost_beginning(self) -> Failure:
        """The failure that a session cannot go on from the one before, and what can be done."""
        mark = self.recording.beginning
        paths = glob.glob(glob.escape(self.recording.path) + f".*/{LAST_STATE}")
        copies = [path for path in paths if is_state(path, mark.sum)]
        advice = f"put back {self.path(mark.name)} from {copies[0] if copies else 'a backup'}"
        return Failure(
            REFUSED,
            f"{self.recording.path} goes on from the session before, whose state is lost",
            f"{advice}, or start with --without-machines: the volumes are as that session left them",
        )

    def has_printed(self, state: StateFile) -> bool:
        """Whether all that was closed before a state is written, if it is to be."""
        names = {Printout(heading, b"").name for heading, _ in state.notes["printouts"]}
        return not self.printouts.folder or names <= self.printouts.noted


def notes_of(users: dict[str, User], printouts: Printouts) -> dict[str, Any]:
    """What is noted with a state: who is on and whose machine runs, what users who appear back are shown, and what was closed."""
    people = users.values()
    return {
        "on": [user.name for user in people if user.is_on],
        "running": [user.name for user in people if user.is_running],
        "lines": {user.name: list(user.lines) for user in people},
        "written": {user.name: user.written for user in people},
        "printouts": [(printout.heading, printout.lines) for printout in printouts.all],
    }


def take_notes(notes: dict[str, Any], users: dict[str, User], printouts: Printouts) -> None:
    """Has users and printouts be as was noted with a state."""
    for user in users.values():
        user.is_on = user.name in notes["on"]
        user.is_running = user.name in notes["running"]
        user.written = notes["written"].get(user.name, 0)
        user.lines.extend((minute, text) for minute, text in notes["lines"].get(user.name, []))
    for heading, lines in notes["printouts"]:
        printout = Printout(heading, b"")
        printout.lines, printout.state = lines, WRITTEN if printouts.folder else TOLD
        printouts.all.append(printout)
