"""Searches in a run: the moment at which the next instruction is at an address, or at which a register or a word of storage is another one.
Forward, a program seeks it (SEEK), or goes unit by unit and is asked by DISPLAY after each. Back, states are compared first, and only
what is between two of them is gone through."""
from __future__ import annotations

from bisect import bisect_left
from collections.abc import Callable, Iterator
import time
from typing import Any, NamedTuple

from gathjumli.cli import Failure, REFUSED
from gathjumli.following import PartResult, Program
from gathjumli.moments import Moments
from gathjumli.run_steps import Step
from gathjumli.state_view import PAGE, UserView

ADDRESS, REGISTER, WORD = "psw", "gpr", "word"
KINDS = (ADDRESS, REGISTER, WORD)
# units whose answers are asked for at once, as many as are answered soon: so a search can be stopped
FEWEST_AT_ONCE, MOST_AT_ONCE = 100, 4_000
SOON = 0.3
# if the last find came after fewer units than these, the next units are gone through one by one
DENSE = 16
# units and events of others, and units that are sought, that are done at once, for each of these
OTHERS = 25
MOST_SECONDS = 60.0
NO_FRAME = "the search finds no frame for what it asks about: look unit by unit"

Where = tuple[int, int]


class Wanted(NamedTuple):
    """What is looked for: whose, of which kind, and which address or register; changes by which instructions are passed over."""

    user: str
    kind: str
    number: int
    passed_over: frozenset[int] = frozenset()


class Hit(NamedTuple):
    """A moment that was found, what was before it and is then, and which instruction was next before it, if that was asked."""

    where: Where
    old: str
    new: str
    by: int | None


class Stretch(NamedTuple):
    """Units of the user one after another: the moment before them, and how many."""

    event: int
    unit: int
    count: int


class Asked:
    """What is asked at each moment of a search, by DISPLAY, and what it was before."""

    def __init__(self, wanted: Wanted) -> None:
        self.wanted = wanted
        user, kind, number, _ = wanted
        row = f"{number & 0xFFFFF0:06X}"
        asked = {ADDRESS: "PSW", REGISTER: f"G{number}", WORD: row}[kind]
        heads = {ADDRESS: "PSW ", REGISTER: f"GPR {number} = ", WORD: f"{row} "}
        self.head, self.psw_head = f"{user}: {heads[kind]}", f"{user}: {heads[ADDRESS]}"
        # what begins the line that ends a run or a serve of the user
        self.end = f"= {user} "
        names = [asked, "PSW"] if wanted.passed_over else [asked]
        self.question = "".join(f"LINE {user} #CP DISPLAY {name}\n" for name in names).encode()
        # what a program seeks for it
        letter = {ADDRESS: "I", REGISTER: "G", WORD: "W"}[kind]
        self.sought = f"{letter} {number & (0xFFFFFC if kind == WORD else 0xFFFFFF):06X}"
        # how many lines answer it
        self.lines = len(names)
        self.before = ""
        self.next: int | None = None
        self.units = 0
        self.is_late = False

    def value(self, line: str) -> str:
        """The part of an answer that is looked at; nothing if it is none, as of a machine that is off."""
        if not line.startswith(self.head):
            return ""
        text = line.removeprefix(self.head)
        if self.wanted.kind == ADDRESS:
            return address_in(text)
        return (
            text if self.wanted.kind == REGISTER else text.split(" ")[self.wanted.number >> 2 & 3]
        )

    def start(self, program: Program) -> None:
        # the answer is the last lines
        answer = program.do(self.question).events[-self.lines :] or [""]
        self.before, self.next = self.value(answer[0]), self.next_in(answer)

    def found(self, program: Program, where: Where) -> Iterator[Hit]:
        """The hit at which a program has ended to seek; none of a machine that is off."""
        answer = program.do(self.question).events[-self.lines :] or [""]
        value = self.value(answer[0])
        if self.is_hit(value):
            yield Hit(where, self.before, value, None)
        self.before = value or self.before

    def count(self, events: list[str]) -> int:
        """How many units of the user these lines are of, which were sought."""
        count = sum(line.startswith(self.end) for line in events)
        self.units += count
        return count

    def next_in(self, answer: list[str]) -> int | None:
        """The address of the next instruction, if it was asked."""
        if self.lines == 1 or not answer[-1].startswith(self.psw_head):
            return None
        return int(address_in(answer[-1].removeprefix(self.psw_head)), 16)

    def judge(self, places: list[Where], events: list[str]) -> Iterator[Hit]:
        """The hits. The answer to a question is the lines after that which ends a run or a serve of the user, or the last lines."""
        self.units += len(places)
        count = self.lines
        begins = [at + 1 for at, line in enumerate(events) if line.startswith(self.end)]
        begins = [max(0, len(events) - count)] if len(places) == 1 else begins
        answers = [events[at : at + count] for at in begins]
        if len(answers) != len(places) or not all(map(self.is_answer, answers)):
            raise Failure(REFUSED, NO_FRAME)
        for place, answer in zip(places, answers):
            value = self.value(answer[0])
            if self.is_hit(value):
                yield Hit(place, self.before, value, self.next)
            # a machine that is off has none
            self.before, self.next = value or self.before, self.next_in(answer)

    def is_answer(self, lines: list[str]) -> bool:
        """Whether these lines answer a question, and none of them ends an event."""
        return len(lines) == self.lines and not any(line.startswith("= ") for line in lines)

    def is_hit(self, value: str) -> bool:
        if self.wanted.kind == ADDRESS:
            return bool(value) and int(value, 16) == self.wanted.number
        return bool(value and self.before) and value != self.before


def address_in(psw: str) -> str:
    """The address in a PSW as DISPLAY shows it."""
    return psw[11:17]


class Search:
    """One search; another one that is begun ends it."""

    def __init__(self, moments: Moments, wanted: Wanted, is_wanted: Any) -> None:
        self.moments, self.run, self.steps = moments, moments.run, moments.steps
        self.wanted = wanted
        self.asked = Asked(wanted)
        self.begun = time.monotonic()
        self.at_once = FEWEST_AT_ONCE
        # whether what was found lately was found after few units
        self.is_dense = False
        # the last moment that was looked at
        self.at: Where | None = None
        # whether anybody still waits for it
        self.is_wanted = is_wanted

    def forward(self, event: int, unit: int) -> dict[str, Any]:
        """The next hit after a moment."""
        return self.answer(self.scan((event, unit), None, is_last=False))

    def back(self, event: int, unit: int, is_strict: bool, after: int | None) -> dict[str, Any]:
        """The last hit until a moment, or before it. A change that was undone before the next state may be passed over: the answer
        says from which event on there may be one, and all units since that event `after` are looked at if it is given, and since the
        beginning if changes are passed over."""
        end = (event, unit)
        if is_strict or self.wanted.kind == ADDRESS:
            end = self.moments.before(event, unit)
        if self.wanted.kind == ADDRESS or after is not None or self.wanted.passed_over:
            return self.answer(self.all_units(end, after or 0))
        place = self.mark_until(end)
        now, last = self.value_in(self.moments.moment(*end, self.wanted.user).view), place
        while place >= 0 and self.value_at(place) == now:
            place -= 1
        if place < 0:
            return self.answer(None) | {"unsure": 0}
        until = end if place == last else self.where(place + 1)
        hit = self.scan(self.where(place), until, is_last=True)
        return self.answer(hit) | ({} if place == last else {"unsure": until[0]})

    def all_units(self, end: Where, after: int) -> Hit | None:
        """The last hit before a moment, from state to state back until an event."""
        place = self.mark_until(end)
        while True:
            hit = self.scan(self.where(place), end, is_last=True)
            if hit or place == 0 or self.asked.is_late or self.where(place)[0] <= after:
                return hit
            end = self.where(place)
            place -= 1

    def progress(self) -> dict[str, Any]:
        """How far it is."""
        return {"units": self.asked.units, "event": self.at[0] if self.at else None}

    # --- values ---

    def where(self, place: int) -> Where:
        mark = self.run.marks[place]
        return mark.event, mark.unit

    def mark_until(self, end: Where) -> int:
        """The last state before a moment, or that at the beginning."""
        places = [(mark.event, mark.unit) for mark in self.run.marks]
        return max(0, bisect_left(places, end) - 1)

    def value_at(self, place: int) -> Any:
        """The register or the page with the word in a state: pages that are one have one number."""
        user, kind, number, _ = self.wanted
        state, index = self.run.marks[place].state, self.run.users.index(user)
        if kind == REGISTER:
            return state.general[index][number]
        table = state.table(self.run.pieces, index)
        page = table[number // PAGE] if number // PAGE < len(table) else 0
        content = self.run.pieces.piece(page, PAGE) if page else bytes(PAGE)
        return content[number % PAGE & ~3 :][:4]

    def value_in(self, view: UserView) -> Any:
        user, kind, number, _ = self.wanted
        if kind == REGISTER:
            return view.users[user].machine.cpu.general[number]
        return view.storage_of(user, number & ~3, 4)

    def answer(self, hit: Hit | None) -> dict[str, Any]:
        seconds = round(time.monotonic() - self.begun, 3)
        found = {"seconds": seconds, "units": self.asked.units, "late": self.asked.is_late}
        if not hit:
            return found
        event, unit = self.moments.ordered(*hit.where)
        return found | {"event": event, "unit": unit, "old": hit.old, "new": hit.new}

    # --- going over moments ---

    def scan(self, first: Where, end: Where | None, is_last: bool) -> Hit | None:
        """Goes over moments one by one, and asks at each; the first hit, or the last one."""
        program = self.moments.program_at(*first)
        found = None
        try:
            self.asked.start(program)
            for hit in self.hits_between(program, first, end):
                found = found if self.is_passed_over(hit) else hit
                if found and not is_last:
                    return found
            return found
        finally:
            program.close()

    def hits_between(self, program: Program, first: Where, end: Where | None) -> Iterator[Hit]:
        """The hits from a moment to another one, while somebody waits for them."""
        for part in self.parts_between(first, end):
            if isinstance(part, Stretch):
                yield from self.hits_in(program, part)
            else:
                yield from self.judged(program, *part)
            if self.is_left():
                return

    def is_left(self) -> bool:
        """Whether nobody waits any more, or it took too long."""
        if not self.asked.is_late:
            is_late = time.monotonic() - self.begun > MOST_SECONDS
            self.asked.is_late = not self.is_wanted() or is_late
        return self.asked.is_late

    def judged(self, program: Program, places: list[Where], part: bytes) -> Iterator[Hit]:
        """The hits of a part with questions."""
        yield from self.asked.judge(places, self.done_soon(program, part))
        self.at = places[-1] if places else self.at

    def hits_in(self, program: Program, stretch: Stretch) -> Iterator[Hit]:
        """The hits among units one after another: they are sought, or where there are many, gone through."""
        event, unit, left = stretch
        while left and not self.asked.is_late:
            is_sought = not self.is_dense and not self.wanted.passed_over
            count = min(OTHERS * self.at_once if is_sought else self.at_once, left)
            if is_sought:
                answer = self.soon(lambda: program.seek(self.asked.sought, self.wanted.user, count))
                count = self.asked.count(answer.events)
                if answer.is_found:
                    yield from self.asked.found(program, (event, unit + count))
                self.is_dense = answer.is_found and count < DENSE
            else:
                places = [(event, unit + number + 1) for number in range(count)]
                one = f"RUN {self.wanted.user} 1\n".encode() + self.asked.question
                hits = list(self.judged(program, places, one * count))
                yield from hits
                self.is_dense = DENSE * len(hits) > count
            unit, left = unit + count, left - count
            self.at = event, unit
            self.is_left()

    def is_passed_over(self, hit: Hit) -> bool:
        """Whether a change is by an instruction that is not looked for; a typed line and a device are none."""
        event, unit = hit.where
        is_by_unit = unit > 0 or self.steps[event - 1].kind == "RUN"
        return is_by_unit and hit.by in self.wanted.passed_over

    def done_soon(self, program: Program, part: bytes) -> list[str]:
        """What a part prints."""
        return self.soon(lambda: program.do(part)).events

    def soon(self, ask: Callable[[], PartResult]) -> PartResult:
        """An answer. The next questions are for more units if it took little time, and for fewer if it took much."""
        begun = time.monotonic()
        answer = ask()
        is_soon = time.monotonic() - begun < SOON
        size = 2 * self.at_once if is_soon else self.at_once // 2
        self.at_once = max(FEWEST_AT_ONCE, min(size, MOST_AT_ONCE))
        return answer

    def parts_between(
        self, first: Where, end: Where | None
    ) -> Iterator[tuple[list[Where], bytes] | Stretch]:
        """What the program is given from a moment to another one, and which moments the questions in it are of; or units one after
        another. What other users do changes neither registers nor storage of this one, so nothing is asked then.
        """
        places: list[Where] = []
        text: list[bytes] = []
        work = 0
        for where, step, stop in self.events_between(first, end):
            is_typed = step.kind in ("LINE", "TICK")
            if step.kind == "RUN" and step.user == self.wanted.user:
                if text:
                    yield places, b"".join(text)
                    places, text, work = [], [], 0
                yield self.stretch_of(where, step, stop)
                continue
            for asked, part in self.parts_of(where, step, stop):
                if (
                    len(places) >= self.at_once
                    or work >= OTHERS * self.at_once
                    or places
                    and is_typed
                ):
                    yield places, b"".join(text)
                    places, text, work = [], [], 0
                places += asked
                text.append(part)
                work += 1 if asked else 1 + step.units
            if is_typed and places:
                yield places, b"".join(text)
                places, text = [], []
        if places:
            yield places, b"".join(text)

    def events_between(
        self, first: Where, end: Where | None
    ) -> Iterator[tuple[Where, Step, int | None]]:
        """The events from a moment to another one: where each begins, and after which unit it ends, if it is cut."""
        event, unit = first
        stop = end or (len(self.steps), 0)
        while (event, unit) < stop and event < len(self.steps):
            yield (event, unit), self.steps[event], (stop[1] if stop[0] == event else None)
            event, unit = event + 1, 0

    def parts_of(
        self, where: Where, step: Step, stop: int | None
    ) -> Iterator[tuple[list[Where], bytes]]:
        """What the program is given for an event, part by part, and the moments of the questions in each."""
        event, unit = where
        question = self.asked.question
        if step.user != self.wanted.user or step.kind in ("DECK", "TRANSFER"):
            if stop is None and step.kind != "IDLE":
                yield [], self.text_of(step, unit)
            return
        yield [(event + 1, 0)], self.text_of(step, unit) + question

    def stretch_of(self, where: Where, step: Step, stop: int | None) -> Stretch:
        """The units of a run. That which ends it, as a wait, is an attempt of one unit more."""
        event, unit = where
        attempt = stop is None and step.reason != "COUNT"
        return Stretch(event, unit, (step.units if stop is None else stop) - unit + attempt)

    def text_of(self, step: Step, unit: int) -> bytes:
        """The lines by which an event is done, or the rest of it."""
        if step.kind == "RUN":
            count = int(step.text.split(" ")[2]) - unit
            return f"RUN {step.user} {count}\n".encode()
        if step.kind == "SERVE":
            return step.text.encode() + b"\n"
        return self.run.entries[step.entry].text
