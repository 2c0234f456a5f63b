"""Takes further users and minidisks while people are on: another program goes on where that of the session is, over the longer
directory, and the next session begins with its state. Whatever is refused before the last step changes nothing."""
from __future__ import annotations

from typing import Any
import os
import time

from gathjumli.additions import Additions, additions
from gathjumli.checkpoints import Checkpoint, TURNED
from gathjumli.cli import FILE_FAILED, Failure, REFUSED, write_whole
from gathjumli.following import NotFollowed, Program, SavedState
from gathjumli.host import size_text
from gathjumli.limits import LITTLE_FREE
from gathjumli.machines import Machines, of_directory, room_for_all
from gathjumli.reasons import reason
from gathjumli.recording import (
    ADDED,
    beginning_with,
    read_whole,
    sum_of,
    without_passwords,
)
from gathjumli.state_files import MOST_BYTES, TITLE, write_state
from gathjumli.state_growth import PlacedState, grown
from gathjumli.states import LastState
from gathjumli.users import User

IN_STORE = (
    "an installation in a store takes no users while people are on: end it, and start it again"
)
UNWRITTEN = "files for the operator are not written yet: give the command again when they are"


class Turn:
    """One turn of an installation to a directory that adds users or minidisks."""

    def __init__(self, installation: Any, stated: bytes) -> None:
        self.installation = installation
        self.engine = installation.engine
        self.checkpoint: Checkpoint = installation.checkpoint
        self.path = installation.directory
        self.now = read_whole(self.path)
        self.longer = without_passwords(self.now)
        self.added: Additions = additions(self.path, stated, self.now)
        self.machines: Machines | None = None
        self.program: Program | None = None

    async def take(self) -> str:
        """Takes what the directory adds; what that is, in words."""
        recording, loop = self.engine.recording, self.engine.loop
        if not recording.store.is_replaceable:
            raise Failure(REFUSED, IN_STORE)
        try:
            await loop.run_in_executor(None, self.prepare)
            aside = await self.engine.at_rest(self.do, self.then)
        except BaseException:
            self.give_up()
            raise
        if further := self.further():
            await self.installation.desk.add(further)
        added = self.added.text()
        self.installation.notify(f"{added}; the recording of before is in {aside}")
        return added

    # --- before anybody waits ---

    def prepare(self) -> None:
        """Boots the longer directory, and has at hand all that does not hang on the moment."""
        recording = self.engine.recording
        self.checkpoint.prepare_turn(recording)
        self.machines = self.longer_machines()
        self.boot()
        self.booted = PlacedState(whole_of(self.program.save()))
        self.begun = recording.next_begun()

    def boot(self) -> None:
        """Has a program boot the longer directory, or says why it refuses that."""
        self.program = Program(self.machines, "--terminals", "--save")
        try:
            self.program.do(b"")
        except NotFollowed:
            raise Failure(FILE_FAILED, "the program takes no script part by part") from None
        except Failure as failure:
            raise Failure(failure.status, self.why(failure)) from None
        finally:
            os.unlink(self.machines.before[-1])

    def longer_machines(self) -> Machines:
        """The machines of the longer directory."""
        before = self.engine.machines
        # what the program reads is what was compared, whoever edits the file
        copy = os.path.join(self.checkpoint.folder, "longer")
        write_whole(copy, self.now)
        made = of_directory(copy, before.before[:-1], before.volumes)
        made.path = before.program()
        if before.has_room_for_all:
            room_for_all(made)
            made.has_room_for_all = True
        return made

    def why(self, failure: Failure) -> str:
        """Why the program refuses the directory, with the line."""
        lines = failure.lines or ["the program has ended"]
        found = reason(lines[0], self.now, images=self.machines.volumes)
        return f"{self.path}: {' '.join(lines)}{f': {found}' if found else ''}"

    # --- while everybody waits ---

    def do(self, notes: dict[str, Any]) -> str:
        """Has the other program be where that of the session is, and the next recording in the place of this one; the folder of
        this one."""
        engine, begun = self.engine, time.monotonic()
        if engine.printouts.unwritten():
            raise Failure(REFUSED, UNWRITTEN)
        if engine.marks:
            engine.recording.add(engine.take_marks())
        engine.recording.settle()
        engine.is_saving = True
        try:
            state = PlacedState(whole_of(engine.answered(lambda: engine.program.save())))
            data = grown(state, self.booted)
            if len(data) > MOST_BYTES:
                raise Failure(REFUSED, f"the state would have more than {MOST_BYTES} bytes")
            if (free := engine.recording.free()) < len(data) + LITTLE_FREE:
                raise Failure(REFUSED, f"the disk has {size_text(free)} free")
            self.program.restore(len(data), [data])
            judge(self.program, PlacedState(data), state, self.booted)
            aside = self.put(SavedState([data]), notes)
        finally:
            engine.is_saving = False
        engine.go_on_with(self.program)
        last = LastState(len(data), time.monotonic() - begun)
        engine.states.has_turned(engine.seconds_to_repeat(), last)
        return aside

    def put(self, saved: SavedState, notes: dict[str, Any]) -> str:
        """Puts the next recording, and the state from which it goes on, in the place of this one."""
        recording = self.engine.recording
        star, kind, _, path = recording.base[2].split(b" ", 3)
        directory = b" ".join([star, kind, sum_of(self.longer).encode(), path])
        sizes = f"* SIZES {' '.join(self.machines.before[1:-1:2])}".encode()
        base = [*recording.base[:2], directory, sizes, *recording.base[4:]]
        comments = [ADDED + item.encode() for item in self.added.items()]
        comments += recording.decks_there()
        noted = notes | {"printouts": [], TURNED: recording.name()}
        return self.checkpoint.turn(
            recording,
            self.longer,
            lambda path: write_state(path, [TITLE, *base[1:4]], noted, saved),
            lambda digits: beginning_with(base, self.begun, digits, *comments),
        )

    # --- after that ---

    def further(self) -> list[User]:
        return [self.engine.users[name] for name in self.added.users]

    def then(self, aside: str) -> None:
        """Has everything know what is added, before the next part."""
        installation, engine = self.installation, self.engine
        engine.users |= {name: User(name) for name in self.added.users}
        machines = engine.machines
        machines.before = [*self.machines.before[:-1], self.path]
        machines.users = self.machines.users
        machines.devices = self.machines.devices
        self.machines.close()
        installation.has_turned(self.further())

    def give_up(self) -> None:
        """Nothing has changed."""
        if self.program and self.program is not self.engine.program:
            self.program.close()
        if self.machines:
            self.machines.close()
        self.checkpoint.undo_turn(self.engine.recording)


def judge(program: Program, made: PlacedState, state: PlacedState, booted: PlacedState) -> None:
    """Refuses a program that has not, by its own answer, each user of a state as he was, and each further one as after a boot."""
    for number in range(len(made.users.starts)):
        source = state if number < len(state.users.starts) else booted
        answer = whole_of(program.save_user(number))
        user, storage = made.user(number), source.storage_of(number)
        is_same = source.user(number) == made.without_more(number, source)
        if not (is_same and answer.startswith(user) and answer.endswith(storage)):
            raise Failure(REFUSED, "the program would have other machines")


def whole_of(saved: SavedState | None) -> bytes:
    """The bytes of a state."""
    if saved is None:
        raise Failure(REFUSED, "the program gives no state")
    return saved.whole()
