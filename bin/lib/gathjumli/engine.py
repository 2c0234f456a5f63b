"""What gives the program one part after another, and shows each user the effect of it."""
from __future__ import annotations

from collections.abc import Callable
import asyncio
import collections
import concurrent.futures
import contextlib
import re
import time
from typing import Any

from gathjumli import loading
from gathjumli.checkpoints import changed_volume
from gathjumli.figures import Waits
from gathjumli.following import Died, NotFollowed, PartResult, Program, is_out_of_memory
from gathjumli.host import memory_of, processor_seconds
from gathjumli.machines import ScriptRefused
from gathjumli.cli import Failure, FILE_FAILED, REFUSED, reason_text
from gathjumli.parts import (
    FEW_TURNS,
    Pace,
    Part,
    is_shown,
    joined,
    joined_results,
    turns_part,
)
from gathjumli.recording import PRINTED, StateMark, sum_of_file
from gathjumli.replaying import Progress, Replay
from gathjumli.state_files import StateFile
from gathjumli.states import States, notes_of, take_notes

# turns are dealt for so many seconds, or until so many lines are printed, before anybody is shown what came of them
DEAL_SECONDS = 0.02
MOST_LINES = 1000
# lines that wait go before turns, but no longer than this
LINES_SECONDS = 0.01
# how often it is asked what users hold by files that they have not closed, and about how many bytes an entry takes
OPEN_FILES_SECONDS = 1.0
ENTRY_BYTES = 144
# about how long this command takes to do a recorded line again, without what the program takes
ENTRY_SECONDS = 0.00003
# how often others get their turn after lines were done: whoever has typed more is known then
TURNS_OF_LOOP = 4
LACKS = re.compile("= ([A-Z0-9]+) FRAMES")
NO_ROOM = "NOT DONE: NO ROOM FOR A PAGE, TYPE IT AGAIN"


class Engine:
    """Gives the program parts: what waits, then some turns while somebody is ready. What appears of a part is shown when the
    recording has it. One thread alone touches the program, the recording and the printouts."""

    def __init__(
        self,
        machines: Any,
        recording: Any,
        users: Any,
        aim: Any,
        printouts: Any,
        states: States,
        notify: Any,
    ) -> None:
        self.machines = machines
        self.recording = recording
        self.notify = notify
        self.users = users
        # the user whose console the operators see
        self.receiver = None
        self.pace = Pace(aim)
        self.printouts = printouts
        self.states = states
        # whether a state is being saved or read, which takes memory that is nobody's
        self.is_saving = False
        # the sum of the program's file, which an update may replace
        self.program_sum = sum_of_file(machines.program())
        # how often the program was started
        self.starts = 0
        self.program = self.begun()
        self.thread = concurrent.futures.ThreadPoolExecutor(1)
        # parts that are to be done, each with the future that says when it is
        self.waiting = collections.deque()
        # what is to be done between parts: that, what follows in the loop, and the future that says that it is done
        self.resting = collections.deque()
        # when somebody was shown something last, and how long lines went before turns
        self.shown = self.lines_seconds = 0.0
        # when the program was last asked what users hold, and how many parts it had done then
        self.looked_at_files = 0.0
        self.looked_after = 0
        # comments that the recording is to have
        self.marks = collections.deque()
        self.loop = asyncio.get_running_loop()
        self.woken = asyncio.Event()
        self.is_stopping = False
        # whether the program has done all that the recording has, and else how far it is
        self.is_whole = False
        self.progress = Progress(0, notify)
        printouts.note = lambda name: self.note(PRINTED + name.encode() + b"\n")
        # what was done since the start of the command
        self.parts = self.turns = 0
        # lines and other entries of the recording, also those that were done again
        self.entries = 0
        self.waits = Waits()

    def begun(self) -> Any:
        self.starts += 1
        return Program(self.machines, "--terminals", "--save")

    def seconds(self) -> float:
        """The processor time that the program took."""
        return processor_seconds(self.program.process.pid)

    def seconds_to_repeat(self) -> float:
        """About what a start takes that does again what was done until now: the program's time, and this command's for each entry."""
        return self.seconds() + ENTRY_SECONDS * self.entries

    def seconds_to_start(self) -> float:
        """About what a start takes: the reading of the last state, and what was done after it."""
        return self.states.reading + self.seconds_to_repeat() - self.states.at

    def memory(self) -> Any:
        """The bytes of memory that the program has."""
        return memory_of(self.program.process.pid)

    async def give(self, part: Part) -> None:
        """Has a part done; ends when the effect of it is shown."""
        done, begun = asyncio.get_running_loop().create_future(), time.monotonic()
        self.waiting.append((part, done))
        self.woken.set()
        await done
        if part.typed:
            self.waits.add(time.monotonic() - begun)

    async def at_rest(self, work: Callable[[dict], Any], then: Callable[[Any], None]) -> Any:
        """Has something done between two parts, while everybody waits, and then something with what it returns. It gets what is noted
        with a state."""
        done = asyncio.get_running_loop().create_future()
        self.resting.append((work, then, done))
        self.woken.set()
        return await done

    async def rest(self, work: Callable, then: Callable, done: asyncio.Future) -> None:
        try:
            result = await self.loop.run_in_executor(self.thread, work, self.notes())
        except (Failure, OSError) as reason:
            done.set_exception(reason)
            return
        then(result)
        done.set_result(result)

    def note(self, mark: bytes) -> None:
        """Has the recording get a comment line; any thread may ask for that."""
        self.marks.append(mark)
        with contextlib.suppress(RuntimeError):
            # the loop may have ended: then the end of the session writes it
            self.loop.call_soon_threadsafe(self.woken.set)

    def take_marks(self) -> bytes:
        marks = [self.marks.popleft() for _ in range(len(self.marks))]
        return b"".join(marks)

    async def work(self) -> None:
        """Gives parts until it is stopped."""
        while not self.is_stopping:
            if not self.waiting and not self.marks and not self.resting and not self.pace.is_busy:
                self.woken.clear()
                await self.woken.wait()
            await self.go_on()
            while self.resting and not self.is_stopping:
                await self.rest(*self.resting.popleft())
            if self.states.is_due(self.seconds_to_repeat()) and not self.is_stopping:
                await self.loop.run_in_executor(self.thread, self.save_state, self.notes())
        for *_, done in [*self.waiting, *self.resting]:
            done.cancel()

    async def go_on(self) -> None:
        """Deals turns until somebody waits, does what waits, and shows what came of all that."""
        results, given = await self.loop.run_in_executor(self.thread, self.step)
        for part, result in results:
            self.parts += 1
            self.entries += max(1, len(part.typed))
            self.take(part, result)
        for done in given:
            if not done.done():
                done.set_result(None)
        if given:
            # whoever typed several lines has the next one done before further turns
            for _ in range(TURNS_OF_LOOP):
                await asyncio.sleep(0)

    def step(self) -> tuple[list, list]:
        """Does parts, and has them on the disk together if something of them is shown; what came of each, and who waited."""
        results, given = [], []
        if not self.waiting or self.lines_seconds >= LINES_SECONDS:
            results += self.deal()
            self.lines_seconds = 0.0
        begun = time.monotonic()
        if self.waiting or self.marks:
            given = [self.waiting.popleft() for _ in range(len(self.waiting))]
            results += self.do_waiting([part for part, _ in given])
        if any(part.is_kept or is_shown(result) for part, result in results):
            self.recording.settle()
            self.shown = time.monotonic()
        for _, result in results:
            self.printouts.put(result.files)
        self.lines_seconds += time.monotonic() - begun
        self.look_at_open_files()
        return results, [done for _, done in given]

    def look_again(self) -> None:
        """Has what users hold asked once more if something was done since it was. A program that has died is asked too: it is
        started again before anybody types."""
        if self.parts != self.looked_after or self.program.process.poll() is not None:
            self.woken.set()

    def look_at_open_files(self) -> None:
        """Asks what users hold by files that they have not closed, if that was not asked lately."""
        now = time.monotonic()
        if now < self.looked_at_files + OPEN_FILES_SECONDS:
            return
        self.looked_at_files, self.looked_after = now, self.parts
        for name, entries in self.answered(lambda: self.program.held()).items():
            self.users[name].open = entries * ENTRY_BYTES

    async def readers(self) -> list[str]:
        """The lines that QUERY FILES shows each user, when all that was given before is done."""
        ask = lambda: self.answered(lambda: self.program.readers())
        return await self.loop.run_in_executor(self.thread, ask)

    async def transfer(self, line: bytes) -> list[str]:
        """Has the line of a script done that moves a deck; the decks in readers right after it."""
        return await self.loop.run_in_executor(self.thread, self.do_transfer, line)

    def do_transfer(self, line: bytes) -> list[str]:
        self.done(Part(line, is_kept=True))
        self.recording.settle()
        self.entries += 1
        return self.answered(lambda: self.program.readers())

    def deal(self) -> list[tuple[Part, PartResult]]:
        """Deals turns in short parts, so that whoever types waits for no more than one of them. If lines went before them for
        long, turns take as long."""
        results: list[PartResult] = []
        begun, turns, lines = time.monotonic(), 0, 0
        while self.pace.is_busy and not self.is_stopping:
            part, at = turns_part(self.pace.turns), time.monotonic()
            results.append(self.done(part))
            now = time.monotonic()
            self.pace.took(part.turns, now - at, results[-1])
            turns, lines = turns + part.turns, lines + len(results[-1].events)
            if self.is_enough(results[-1], now - begun, lines, now):
                break
        return [(turns_part(turns), joined_results(results))] if results else []

    def is_enough(self, result: PartResult, took: float, lines: int, now: float) -> bool:
        """Whether what came of turns is to be shown, or somebody waits. A stream of lines is shown at intervals."""
        is_time = lines >= MOST_LINES or took >= DEAL_SECONDS
        is_new = is_shown(result) and now - self.shown >= DEAL_SECONDS
        owed = self.lines_seconds if self.lines_seconds >= LINES_SECONDS else 0.0
        is_awaited = bool(self.waiting) and took >= owed
        return is_time or is_new or is_awaited or bool(result.files or result.states)

    def do_waiting(self, parts: list[Part]) -> list[tuple[Part, PartResult]]:
        """All that waits is one part, so that many people wait for the disk once. A few turns follow before the disk is waited for,
        so that a machine's answer to a typed line is not kept waiting by other users' turns."""
        part = joined([*parts, Part(self.take_marks())])
        results = [(part, self.done(part))]
        if parts:
            then = turns_part(max(FEW_TURNS, self.count_running() + len(part.typed)))
            results.append((then, self.done(then)))
            self.pace.woke(results[-1][1])
        return results

    def count_running(self) -> int:
        """How many machines run."""
        return sum(user.is_running for user in self.users.values())

    def done(self, part: Part) -> PartResult:
        """What comes of a part, which the recording gets: a program that dies in the next one does this one again."""
        result = self.asked(part)
        self.record(part)
        return result

    def record(self, part: Part) -> None:
        if part.turns:
            self.recording.add_turns(part.turns)
        else:
            self.recording.add(part.lines)

    def asked(self, part: Part) -> PartResult:
        """What comes of a part."""
        return self.answered(lambda: self.program.do(part.lines))

    def answered(self, ask: Callable[[], Any]) -> Any:
        """What the program answers. One that has died is started again and asked once more; what kills it twice ends all."""
        try:
            return self.checked(ask)
        except Died as death:
            if self.is_stopping:
                raise
            self.notify(
                f"{death.lines[0] if death.lines else 'the program has died'}: it is started again"
            )
            self.restart()
            if not self.is_whole:
                raise
            self.notify("the program goes on")
            return self.checked(ask)

    def notes(self) -> dict[str, Any]:
        """What is noted with a state, while no part is under way."""
        return notes_of(self.users, self.printouts)

    def save_state(self, notes: dict[str, Any]) -> None:
        """Saves the state of all that was done and shown. Everybody waits meanwhile."""
        if not self.is_whole or not self.states.can_save(self.seconds_to_repeat()):
            return
        self.is_saving = True
        try:
            if self.marks:
                self.recording.add(self.take_marks())
            is_saved = self.states.save(self.program, notes)
            self.states.tried(self.seconds_to_repeat(), is_saved)
        except Died:
            if not self.is_stopping:
                self.restart()
        finally:
            self.is_saving = False

    def save_last_state(self, path: str) -> str:
        """Saves the state with which the next session goes on; its sum. What was printed stays with this session."""
        notes = self.notes() | {"printouts": []}
        return self.states.save_last(self.program, path, notes)

    def go_on_with(self, program: Program) -> None:
        """Has another program, which is where this one is, go on in its place."""
        self.program.close()
        self.program = program
        self.starts += 1
        # what was done is in the state from which the recording begins
        self.entries = 0

    def restart(self) -> None:
        """Has another program do the recording: all that anybody was shown is in it."""
        self.recording.put(self.recording.turns_line())
        for volume, known in zip(self.machines.originals, self.recording.volume_sums()):
            if sum_of_file(volume) != known:
                findings = f"{volume} was changed by somebody else during the session, which cannot go on without it as it was"
                mend = changed_volume(self.recording.path, volume, known)
                raise Failure(REFUSED, f"{findings}; {mend}")
        if sum_of_file(self.machines.program()) != self.program_sum:
            findings = f"{self.machines.program()} was replaced during the session, which goes on with the one before"
            raise Failure(REFUSED, findings)
        self.program.close()
        self.program = self.begun()
        self.do_recording(
            lambda share: self.notify(f"the program is started again: {100 * share:.0f}% done"),
            lambda *_: None,
            lambda _: None,
            is_saving=False,
        )

    def checked(self, ask: Any, *given: Any, line: Any = None) -> Any:
        """An answer of the program; line is where in the recording its part begins, if it is from there."""
        try:
            return ask(*given)
        except NotFollowed:
            raise Failure(FILE_FAILED, "the program takes no script part by part") from None
        except ScriptRefused as item:
            if line is not None:
                raise self.recording.edited(
                    line + item.line - 1, "is refused by the program"
                ) from None
            raise Failure(REFUSED, f"the program refuses line {item.line} of a part") from None

    def take(self, part: Any, came: Any, when: Any = None) -> None:
        """Shows each user what was printed at his terminal, and keeps who is on and whose machine runs."""
        if when is None:
            self.count_turns(part.turns)
        for heading, body in came.files:
            self.users[heading.rpartition(" ")[2]].written += len(body)
        for name, text in part.typed:
            self.users[name].keep([text], when)
            self.users[name].typed += when is None
        for name, texts in self.printed(part, came).items():
            self.users[name].show(texts, when)
            self.users[name].shown += len(texts) if when is None else 0
            if name == self.receiver and when is None:
                for text in texts:
                    self.notify(f"{name}: {text}")
        for state, name in came.states:
            self.users[name].become(state)

    def count_turns(self, turns: int) -> None:
        """Counts turns for each user whose machine ran. Which of them had a slice the program does not say."""
        self.turns += turns
        for user in self.users.values():
            user.turns += turns * user.is_running

    def printed(self, part: Part, came: PartResult) -> dict[str, list[str]]:
        """The lines of each user that a part printed, and what is said of typed lines that were not done."""
        printed: dict[str, list[str]] = {}
        for event in came.events:
            name, colon, text = event.partition(": ")
            if colon and name in self.users:
                printed.setdefault(name, []).append(text)
                if text == loading.FAILED:
                    typed = [str(line) for who, line in part.typed if who == name]
                    printed[name] += loading.advice(typed, self.machines.devices[name])
            elif part.typed and (absent := LACKS.fullmatch(event)):
                printed.setdefault(absent[1], []).append(NO_ROOM)
        return printed

    def replay(self, notify: Any) -> None:
        """Brings the program to where the recording ends; how far it is is reported each second, from 0 to 1."""

        def take(part: Part, came: PartResult, when: str) -> None:
            self.take(part, came, when)
            self.printouts.put(came.files, is_replay=True)

        def take_state(state: StateFile) -> None:
            take_notes(state.notes, self.users, self.printouts)
            self.notify(f"begins with {state.path}")

        self.do_recording(notify, take, take_state, is_saving=True)

    def restore(self) -> tuple[StateMark | None, StateFile | None]:
        """Has the program go on from the last state that it takes, or else be at the beginning; where that is in the recording. If
        the host refuses it memory, the start ends, and all states stay."""
        for mark, state in self.states.found():
            before = self.seconds()
            self.is_saving = True
            try:
                self.checked(self.program.restore, state.size, state.pieces())
            except (Failure, OSError) as reason:
                if is_out_of_memory(reason):
                    # the state is right, and a start with more memory takes it
                    self.notify(f"{state.path} is not read: the host is out of memory")
                    raise
                # whatever else it is: all can be computed from further back
                self.notify(f"{state.path} is not taken: {reason_text(reason)}")
                self.program.close()
                self.program = self.begun()
                continue
            finally:
                self.is_saving = False
            self.states.goes_on(self.seconds_to_repeat(), self.seconds() - before, state)
            return mark, state
        if self.recording.beginning:
            raise self.states.lost_beginning()
        # it has read the volumes when it has answered
        self.checked(self.program.do, b"")
        self.states.goes_on(self.seconds_to_repeat(), 0.0, None)
        return None, None

    def do_recording(
        self,
        notify: Any,
        take: Callable,
        take_state: Callable[[StateFile], None],
        is_saving: bool,
    ) -> None:
        """Has the program do all that the recording has, from the last state on, and takes the effect of each part. States are
        saved on the way if that is asked for."""
        self.is_whole = False
        self.progress = Progress(0, notify)
        mark, state = self.restore()
        if state:
            take_state(state)
        self.progress = Progress(self.recording.weight_since(mark), notify)
        self.is_whole = Replay(self, mark, take, is_saving).run()

    def stop(self) -> None:
        self.is_stopping = True
        self.woken.set()

    def settle(self) -> None:
        """Has the recording whole on the disk."""
        self.printouts.settle()
        self.printouts.close()
        if self.marks:
            self.recording.add(self.take_marks())
        self.recording.settle()

    def close(self) -> None:
        self.printouts.close()
        self.program.close()
        self.thread.shutdown()
