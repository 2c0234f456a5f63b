"""The units of a guest one by one. A script is done again with its runs as single units, and between these the machine is
asked by DISPLAY; the guest does not notice. What is asked depends on earlier answers, so the script is run until nothing is
left to ask. That is done piece by piece, each with more units than the one before, so that a trace that stops soon is soon there; each
begins at the state with which the one before has ended."""
from __future__ import annotations

import bisect
from collections.abc import Iterator
import re
from typing import Any, NamedTuple

from gathjumli.channels import chained, command_text, status_text
from gathjumli.following import Program, SavedState
from gathjumli.instructions import length, place_of, storage_operands, text_of, under_execute
from gathjumli.machines import parts
from gathjumli.replaying import nearest
from gathjumli.cli import Failure, REFUSED


SLICE = 100
# how many units the first piece has, and at most the last ones
FIRST_PIECE, MOST_PIECE = 25, 800
# how far behind a name an address may be that is shown by it
FARTHEST = 255
# if an interruption stores the old PSW, and where its new PSW is
INTERRUPTIONS = {
    "external": (0x18, 0x58),
    "svc": (0x20, 0x60),
    "program": (0x28, 0x68),
    "io": (0x38, 0x78),
}
PROGRAM_CODES = {
    1: "operation", 2: "privileged operation", 3: "execute", 4: "protection", 5: "addressing", 6: "specification", 7: "data",
    8: "fixed-point overflow", 9: "fixed-point divide",
}  # fmt: skip
CSW = 0x40
LOADING = re.compile(rb"LINE [A-Z0-9]+ (?:#CP )?IPL ([0-5][0-9A-F]{2})\n")
GENERAL = [f"G{number}" for number in range(16)]
CONTROL = [f"X{number}" for number in range(16)]
LOW_ROWS = range(0x10, 0x80, 0x10)
PREFETCHED = 8
CHANGED = (
    "the machines do something else when the script is done again: has a volume changed meanwhile?"
)


class Step(NamedTuple):
    """A line of the script that is run; kind is unit, run, serve, which each have a last line in the transcript, or line."""

    kind: str
    text: bytes
    user: str = ""
    device: str = ""


def events_of(script: Any) -> Iterator:
    """The events of a script that is accepted, each with its cards."""
    lines = script.split(b"\n")
    while lines:
        line = lines.pop(0)
        if not line or line.startswith(b"*"):
            continue
        words = line.split(b" ", 2)
        text = [line]
        if words[0] == b"DECK":
            count = int(words[2])
            text, lines = text + lines[:count], lines[count:]
        yield [word.decode("latin-1") for word in words], b"".join(item + b"\n" for item in text)


class Played:
    """As much of a script as was run: its events, what terminals showed, and how its runs, turns and serves ended."""

    def __init__(self, machines: Any, user: str, script: bytes) -> None:
        machines.check(script)
        self.machines = machines
        self.user = user
        self.events = list(events_of(script))
        # how many units it was run for, and the events that this is
        self.bound = 0
        self.is_whole = False
        self.reached = []

    def reach(self, units: int) -> None:
        """Runs as much of the script as so many units of the user can come of."""
        if self.is_whole or units <= self.bound:
            return
        self.bound = units
        findings, _ = parts(self.machines.run(self.beginning(units)))
        self.printed = printed(findings)
        self.ends = [item.split(" ") for item in findings if item.startswith("= ")]
        if any(end[-1] == "FRAMES" for end in self.ends):
            raise Failure(
                REFUSED,
                "an event of the script finds no frame free, also with as many as there may be",
            )

    def beginning(self, units: int) -> bytes:
        """The script up to the event in which the user's machine may do that many units, and of this event as much."""
        texts = []
        for number, (words, text) in enumerate(self.events, 1):
            slices = SLICE if words[0] == "AUTO" else 1
            is_own = words[0] == "AUTO" or words[:2] == ["RUN", self.user]
            most = int(words[-1]) * slices if is_own else 0
            if most > units:
                self.reached = self.events[:number]
                words = [*words[:-1], str(-(-units // slices))]
                return b"".join(texts) + " ".join(words).encode() + b"\n"
            units -= most
            texts.append(text)
        self.is_whole, self.reached = True, self.events
        return b"".join(texts)


class Expansion:
    """The steps of a script: turns as the runs and the served devices that they were, and the runs of one user as single
    units, of which those from `first` on are traced, at most `most`."""

    def __init__(self, played: Played, user: str, first: int, most: int) -> None:
        self.user = user
        self.first, self.most = first, most
        self.units = 0
        self.is_cut = False
        self.steps = []
        self.printed = played.printed
        # what is still to be expanded, the next one last
        self.ends = played.ends[::-1]
        for words, text in played.reached:
            if self.is_cut:
                break
            self.expand(words, text)

    def first_unit(self) -> int:
        """The place of the first unit that is traced."""
        return next(place for place, step in enumerate(self.steps) if step.kind == "unit")

    def expand(self, words: list[str], text: Any) -> None:
        if words[0] == "RUN":
            self.run(words[1], int(words[2]))
        elif words[0] == "SERVE":
            self.serve()
        elif words[0] == "AUTO":
            for _ in range(int(words[1])):
                self.turn()
        else:
            self.steps.append(Step("line", text, words[1]))

    def turn(self) -> None:
        if not self.ends:
            # the script was run no further
            return
        if self.ends[-1] == ["=", "IDLE"]:
            self.ends.pop()
            return
        if self.ends[-1][2] != "SERVED":
            self.run(self.ends[-1][1], SLICE)
        # A device is served in the turn of the slice before it, or in a turn without a slice: where a turn with a slice
        # serves none, no program is in the line, and none is served in the next one.
        if self.ends and not self.is_cut and self.ends[-1][2:3] == ["SERVED"]:
            self.serve()

    def serve(self) -> None:
        _, user, _, device = self.ends.pop()
        self.add("serve", f"SERVE {user} {device}", user, device)

    def add(self, kind: Any, text: Any, user: Any, device: Any = "") -> None:
        if not self.is_cut:
            self.steps.append(Step(kind, text.encode() + b"\n", user, device))

    def run(self, user: str, count: int) -> None:
        _, _, done, reason = self.ends.pop()
        if user != self.user:
            self.add("run", f"RUN {user} {count}", user)
            return
        done = int(done)
        before = max(0, min(done, self.first - 1 - self.units))
        if before:
            self.add("run", f"RUN {user} {before}", user)
        self.units += before
        for _ in range(done - before):
            if self.units - self.first + 1 >= self.most:
                self.is_cut = True
                return
            self.units += 1
            self.add("unit", f"RUN {user} 1", user)
        if reason != "COUNT":
            self.add("run", f"RUN {user} {count - done}", user)


def printed(findings: Any) -> list:
    """The lines of a transcript that terminals show."""
    return [item for item in findings if not item.startswith("= ")]


class Start(NamedTuple):
    """Where runs of some steps begin: before which step, after so many printed lines, and at which state; None is the beginning."""

    place: int
    printed: int
    state: SavedState | None


BEGINNING = Start(0, 0, None)


def program_at(machines: Any, start: Start) -> Program:
    program = Program(machines)
    try:
        if start.state:
            program.restore(start.state.size(), start.state.pieces)
    except BaseException:
        program.close()
        raise
    return program


class Machine:
    """What is known of a machine after each number of steps: `ask` gives an answer, or None where it is yet to be asked."""

    def __init__(self, machines: Any, user: Any, expansion: Any, start: Start) -> None:
        self.machines = machines
        self.user = user
        self.steps = steps = expansion.steps
        # where runs may begin, the first one first
        self.starts = [start]
        self.known = {}
        self.wanted = {}
        self.findings = self.run(start, self.text(start.place, len(steps)))
        shown, known = printed(self.findings), expansion.printed[start.printed :]
        if shown != known[: len(shown) if expansion.is_cut else None]:
            raise Failure(REFUSED, CHANGED)
        # how many lines come of the steps from the first start on until each place
        self.trailing = {start.place: 0, len(steps): len(self.findings)}
        ends = [place + 1 for place, item in enumerate(self.findings) if item.startswith("= ")]
        for place, step in enumerate(steps[start.place :], start.place):
            if step.kind != "line":
                self.trailing[place + 1] = ends.pop(0)

    def text(self, begin: int, end: int) -> bytes:
        return b"".join(step.text for step in self.steps[begin:end])

    def run(self, start: Start, script: bytes) -> list[str]:
        """What a script prints from a start on."""
        if not start.state:
            return parts(self.machines.run(script))[0]
        program = program_at(self.machines, start)
        try:
            return program.do(script).events
        finally:
            program.close()

    def start_before(self, place: int) -> Start:
        """The nearest start at or before a place."""
        return nearest(self.starts, place, lambda start: start.place)

    def start_at(self, place: int) -> Start | None:
        """The state at a place; None if the machines have no states."""
        begin = self.start_before(place)
        program = program_at(self.machines, begin)
        try:
            program.do(self.text(begin.place, place))
            state = program.save()
        finally:
            program.close()
        shown = printed(self.findings[: self.lines_after(place)])
        return state and Start(place, self.starts[0].printed + len(shown), state)

    def lines_after(self, place: Any) -> Any:
        """How many lines the transcript has after so many steps; of a typed line a run of the script up to it says."""
        if place not in self.trailing:
            start = self.starts[0]
            self.trailing[place] = len(self.run(start, self.text(start.place, place)))
        return self.trailing[place]

    def ask(self, place: Any, what: Any) -> Any:
        answer = self.known.get((place, what))
        if answer is None:
            self.wanted.setdefault(place, {})[what] = True
        return answer

    def learn(self) -> bool:
        """Asks what is wanted; says whether there was something."""
        if not self.wanted:
            return False
        wanted, self.wanted = self.wanted, {}
        start, script = self.start_before(min(wanted)), b""
        for place in range(start.place, len(self.steps) + 1):
            script += b"".join(
                f"LINE {self.user} #CP DISPLAY {item}\n".encode() for item in wanted.get(place, ())
            )
            script += self.steps[place].text if place < len(self.steps) else b""
        findings, last = self.run(start, script), self.lines_after(start.place)
        for place in sorted(wanted):
            trailing = self.lines_after(place)
            if findings[: trailing - last] != self.findings[last:trailing]:
                raise Failure(REFUSED, CHANGED)
            findings, last = findings[trailing - last :], trailing
            for what in wanted[place]:
                self.known[place, what] = findings.pop(0).removeprefix(self.user + ": ")
        return True

    def psw(self, place: Any) -> Any:
        """The PSW as eight bytes."""
        answer = self.ask(place, "PSW")
        words = answer.split(" ") if answer else []
        return bytes.fromhex("".join(words[1:])) if words[:1] == ["PSW"] else None

    def registers(self, place: Any, names: Any = GENERAL) -> list | None:
        answers = [self.ask(place, name) for name in names]
        if not all(answer and "=" in answer for answer in answers):
            return None
        return [int(answer.split(" ")[3], 16) for answer in answers]

    def row(self, place: Any, address: int) -> Any:
        """Sixteen bytes of storage; none past its end."""
        answer = self.ask(place, f"{address:06X}")
        words = answer.split(" ") if answer else []
        if words[:1] == [f"{address:06X}"]:
            return bytes.fromhex("".join(words[1:]))
        return None if answer is None else b""

    def storage(self, place: Any, address: int, count: int) -> Any:
        """Bytes of storage, fewer where it ends; None where some are yet to be asked."""
        rows = [
            self.row(place, number)
            for number in range(address & 0xFFFFF0, min(address + count, 1 << 24), 16)
        ]
        if None in rows:
            return None
        return b"".join(rows)[address & 15 :][:count]


class Trace:
    """The lines of a trace of `most` units from the unit `first` on."""

    def __init__(
        self,
        machines: Any,
        user: str,
        script: bytes,
        first: int,
        most: int,
        ranges: Any,
        stop_at: Any,
        stop_on: Any,
        names: Any,
    ) -> None:
        self.machines = machines
        self.user = user
        self.played = Played(machines, user, script)
        self.first, self.most = first, most
        self.devices = machines.devices[user]
        self.ranges = ranges
        self.stop_at = stop_at
        self.stop_on = stop_on
        self.names = names
        self.named = sorted(names)
        # devices with a program that is still to be done, before a piece and so far
        self.started_before, self.started = {}, {}
        self.is_stopped = False
        self.done = 0
        # where the next piece begins
        self.start = BEGINNING

    def pieces(self) -> Iterator:
        """The lines, piece by piece."""
        size = FIRST_PIECE
        while not self.is_stopped:
            yield self.piece(min(size, self.most - self.done))
            size = min(2 * size, MOST_PIECE)

    def piece(self, size: int) -> list:
        """The lines of so many units more. What is before them was shown with the piece before."""
        self.expansion = self.expanded(size)
        begin = self.expansion.first_unit() if self.done else 0
        start = self.start._replace(place=begin) if self.start.state else BEGINNING
        self.machine = Machine(self.machines, self.user, self.expansion, start)
        self.begin_late()
        while True:
            found = list(self.pass_over(begin))
            if not self.machine.learn():
                break
        self.started_before = self.started
        self.done += size
        if not self.is_stopped:
            self.start = self.state_at(len(self.machine.steps)) or BEGINNING
        return found

    def begin_late(self) -> None:
        """Has the first piece's questions about its units begin at the first one, if there are many before it."""
        if not self.done and self.first > FIRST_PIECE and self.expansion.is_cut:
            found = self.state_at(self.expansion.first_unit())
            self.machine.starts += [found] if found else []

    def state_at(self, place: int) -> Start | None:
        """The state at a place. A machine of its own has none."""
        return self.machine.start_at(place) if self.machines.name == "vm370" else None

    def expanded(self, size: int) -> Expansion:
        """The steps of a piece, from as much of the script as it needs."""
        first = self.first + self.done
        # one more, which ends the piece
        units = first + size
        while True:
            self.played.reach(units)
            expansion = Expansion(self.played, self.user, first, size)
            if expansion.is_cut or self.played.is_whole:
                return expansion
            units *= 2

    def end(self) -> str:
        """The line at the end of a piece, if the trace ends there."""
        if not self.expansion.is_cut:
            return "END of the script"
        if self.done + self.expansion.most == self.most:
            return f"STOP after {self.most} units"
        return ""

    def pass_over(self, begin: int) -> Iterator:
        """All lines from a place on, as far as the answers are there."""
        self.started = dict(self.started_before)
        self.is_stopped = True
        unit = self.expansion.first - 1
        shown = self.machine.lines_after(begin)
        for place in range(begin, len(self.machine.steps)):
            step = self.machine.steps[place]
            if step.kind == "unit":
                before = self.machine.psw(place)
                address = int.from_bytes(before[5:], "big") if before else None
                if self.stop_at is not None and address == self.stop_at:
                    yield f"STOP at {self.stop_at:06X}"
                    return
                unit += 1
                if address in self.names:
                    yield f"AT {self.names[address]}"
                yield from self.unit(place, unit)
            elif step.kind == "serve":
                yield f"SERVE {step.user} {step.device}"
                yield from self.program(place, step)
            else:
                yield from self.typed(place, step)
            # a typed line's replies come where they are known to end
            if place + 1 in self.machine.trailing:
                trailing = self.machine.trailing[place + 1]
                yield from replies(step, self.machine.findings[shown:trailing])
                shown = trailing
            if step.kind == "unit" and (what := self.stop(place)):
                yield f"STOP on a change of {what}"
                return
        end = self.end()
        self.is_stopped = bool(end)
        if end:
            yield end

    def typed(self, place: int, step: Step) -> Iterator:
        """The lines of a step of the script."""
        for item, text in enumerate(text_lines(step)):
            yield f"{'CARD' if item else 'DO'} {text}"
        if found := LOADING.fullmatch(step.text):
            yield from self.loading(place, step.user, found[1].decode())

    def where(self, address: int) -> str:
        """An address, and how it is called."""
        at = bisect.bisect_right(self.named, address) - 1
        if at < 0 or address - self.named[at] > FARTHEST:
            return f"@{address:06X}"
        rest = address - self.named[at]
        return f"@{address:06X}({self.names[self.named[at]]}{f'+{rest:X}' if rest else ''})"

    def stop(self, place: Any) -> Any:
        """What of that on which the trace stops a unit has changed."""
        for what in self.stop_on:
            if isinstance(what, str):
                before, after = self.machine.ask(place, what), self.machine.ask(place + 1, what)
                name = what
            else:
                before, after = (
                    self.machine.storage(item, what[0], what[1] - what[0] + 1)
                    for item in (place, place + 1)
                )
                name = f"{what[0]:06X}-{what[1]:06X}"
            if before is not None and after is not None and before != after:
                return name
        return None

    def unit(self, place: Any, number: Any) -> Iterator:
        machine = self.machine
        before, after = machine.psw(place), machine.psw(place + 1)
        registers, later = machine.registers(place), machine.registers(place + 1)
        low = [
            machine.storage(item, LOW_ROWS[0], LOW_ROWS[-1] + 16 - LOW_ROWS[0])
            for item in (place, place + 1)
        ]
        changed = [self.changed_bytes(place, item) for item in self.ranges]
        if None in (before, after, registers, later, *low, *changed):
            return
        address = int.from_bytes(before[5:], "big")
        code = machine.storage(place, address, 6)
        if code is None:
            return
        code = code[: length(code[0])] if code else b""
        target = self.target(place, code, registers)
        if target is None:
            return
        kind, old = interruption(before, after, *low, (target or code)[:1] == b"\x0a")
        if kind not in ("external", "io"):
            changes = self.changes(place, code, before, after, registers, later, kind) + "".join(
                changed
            )
            name, operands = text_of(code) if code else ("", "")
            shown = f"UNIT {number} {address:06X} {code.hex().upper():<12} {name:<5} {operands:<20}"
            if target:
                shown += f" > {' '.join(text_of(target)):<20}"
            places = storage_operands(code, registers) + storage_operands(target, registers)
            shown += f" {' '.join(map(self.where, places)):<15}"
            yield f"{shown} {changes}".rstrip()
            yield from self.channel(place, target or code, registers, after, kind)
        if kind:
            said = old[2:4].hex().upper()
            if kind == "program":
                said += " " + PROGRAM_CODES.get(int(said, 16), "")
            new = f"{after[:4].hex().upper()} {after[4:].hex().upper()}"
            rest = "".join(changed) if kind in ("external", "io") else ""
            yield f"INT {number} {address:06X} {kind} {said} PSW={new}{rest}".rstrip()
            if kind == "io":
                yield f"CSW {said[1:]} {status_text(low[1][CSW - 0x10 : CSW - 8])}"

    def target(self, place: Any, code: Any, registers: Any) -> Any:
        """The target of EX as it is carried out; empty for another instruction, None where it is yet to be asked."""
        if code[:1] != b"\x44" or len(code) < 4:
            return b""
        found = self.machine.storage(place, place_of(code, registers), 6)
        if not found or len(found) < length(found[0]):
            return found and b""
        return under_execute(code, found[: length(found[0])], registers)

    def changes(
        self,
        place: Any,
        code: Any,
        before: Any,
        after: Any,
        registers: Any,
        later: Any,
        kind: Any,
    ) -> str:
        """What a unit has changed of registers, condition code and PSW."""
        said = [
            f"G{number}={later[number]:08X}"
            for number in range(16)
            if registers[number] != later[number]
        ]
        if code[:1] == b"\xb7":
            controls = [self.machine.registers(item, CONTROL) for item in (place, place + 1)]
            if None not in controls:
                said += [
                    f"X{item}={new:08X}"
                    for item, (old, new) in enumerate(zip(*controls))
                    if old != new
                ]
        if not kind:
            if before[:4] != after[:4] or before[4] & 15 != after[4] & 15:
                said.append(f"PSW={after[:4].hex().upper()}_{after[4:].hex().upper()}")
            elif before[4] != after[4]:
                said.append(f"CC={after[4] >> 4 & 3}")
        return " ".join(said)

    def changed_bytes(self, place: Any, bounds: Any) -> Any:
        """The changed bytes of a range, run by run."""
        low, high = bounds
        old, new = (self.machine.storage(item, low, high - low + 1) for item in (place, place + 1))
        if old is None or new is None:
            return None
        said, at = "", 0
        while at < len(old):
            end = at
            while end < len(old) and old[end] != new[end]:
                end += 1
            if end > at:
                said += f" M{low + at:06X}={new[at:end].hex().upper()}"
            at = end + 1
        return said

    def channel(self, place: Any, code: Any, registers: Any, after: Any, kind: str) -> Iterator:
        """What an instruction of the channel did."""
        if kind or len(code) < 4 or code[0] not in (0x9C, 0x9D, 0x9E):
            return
        device = f"{place_of(code, registers) & 0xFFFF:04X}"[1:]
        said = after[4] >> 4 & 3
        words = self.machine.storage(place + 1, CSW, 16)
        if code[0] == 0x9C and said == 0:
            self.started[device] = int.from_bytes(words[9:12], "big")
            yield f"CAW {device} {words[8]:02X} {self.started[device]:06X}"
        elif said == 1:
            yield f"CSW {device} {status_text(words[:8])}"

    def program(self, place: Any, step: Any) -> Iterator:
        """The words of the program of a device that is served, as they stand before."""
        if step.user != self.machine.user:
            return
        if step.device not in self.started:
            yield f"CCW {step.device} its start was not traced"
            return
        yield from self.words(step.device, place, self.started.pop(step.device))

    def words(self, device: Any, place: Any, start: int) -> Iterator:
        kind = self.devices.get(device, "")
        for at, word in chained(start, lambda item: self.word(place, item)):
            yield f"CCW {device} {at:06X} " + (
                "stands past storage" if not word else command_text(word, kind)
            )

    def loading(self, place: Any, user: Any, device: Any) -> Iterator:
        """The words of a program that has loaded the machine: the implied first one, and those that it read, as they stand then."""
        if user != self.machine.user:
            return
        low = self.machine.storage(place + 1, 0, 8)
        if low and low[2:4] == int(device, 16).to_bytes(2, "big"):
            yield f"CCW {device} ------ {command_text(bytes.fromhex('0200000060000018'), self.devices.get(device, ''))}"
            yield from self.words(device, place + 1, 8)

    def word(self, place: Any, address: int) -> Any:
        """A command word; None where there is none, or where it is yet to be asked."""
        word = self.machine.storage(place, address, 8)
        if word is None:
            self.machine.storage(place, address, 16 * PREFETCHED)
        return word if word and len(word) == 8 else None


def replies(step: Step, findings: list) -> list:
    """What terminals showed after a step; how a unit or a serve ended its own line says."""
    is_told = step.kind in ("unit", "serve")
    return [f"TOLD {item}" for item in findings if not (is_told and item.startswith("= "))]


def text_lines(step: Any) -> Any:
    return step.text.decode("latin-1").split("\n")[:-1]


def interruption(before: str, after: Any, old_low: Any, new_low: Any, is_call: Any) -> Any:
    """Which interruption a unit ended in, and the old PSW that it stored; None where it ended in none."""
    found = []
    for kind, (old, new) in INTERRUPTIONS.items():
        stored = new_low[old - 0x10 : old - 8]
        # what a PSW has once it is loaded: no interruption code and no instruction length
        loaded = bytearray(new_low[new - 0x10 : new - 8])
        loaded[2:4] = b"\0\0"
        loaded[4] &= 0x3F
        stays = kind in ("external", "io")
        if bytes(loaded) != after or stored[:2] != before[:2]:
            continue
        if (
            stays
            and (
                stored[5:] != before[5:]
                or stored[4] != before[4]
                or not before[0] & (0x01 if kind == "external" else 0xFE)
            )
            or kind == "svc"
            and not is_call
        ):
            continue
        found.append((stored == old_low[old - 0x10 : old - 8], kind, stored))
    # one whose old PSW is new appears before one whose old PSW was there
    found.sort(key=lambda item: (item[0], item[1] != "svc"))
    return found[0][1:] if found else (None, None)
