"""Runs a script that has lines for people, or leaves out what people need not see, or ends at the first complaint: script_runs.py
NAME PROGRAM PART SCRIPT WORD.., as bin/lib/program.sh calls it. The program is given the script part by part (docs/man/vm370.1), an event each."""
from __future__ import annotations

import re
import sys
from typing import Any

from gathjumli import cli, loading
from gathjumli.cli import Failure, REFUSED, last, read_arguments, read_file
from gathjumli.following import Program
from gathjumli.machines import (
    Machines,
    ScriptRefused,
    of_bare,
    refused_line,
    sizes_in,
    stated,
)
from gathjumli.script_lines import Event, UNTIL_ALL_WAIT, Wrong, events_of, plain
from gathjumli.state_files import NOBODY, StateFile, after, restore, save_state, state_of
from gathjumli.state_runs import ENTRY, OPTIONS as STATE_OPTIONS, Output

# the status of a run that ends at a complaint
COMPLAINED = 79
# turns that are given at once, so that what they print is there soon; and at most until all wait
TURNS, MOST_TURNS = 100, 100000
IDLE = "= IDLE"
# how the control program answers a line that it does not do
COMPLAINT = re.compile(
    "UNKNOWN COMMAND|BAD OPERAND [0-9]+|(?:ALREADY|NOT) LOGGED ON|ADDRESS PAST STORAGE|NO CONSOLE|LINE LOST|IPL FAILED"
    "|(?:DEVICE|USER|FILE) NOT FOUND|USER NOT LOGGED ON|NO FILE"
)
STORE = re.compile(rb"LINE [^ ]+ +(?:#CP +)?STORE ")
OPTIONS = STATE_OPTIONS | {"--quiet": None, "--strict": None}


class Run:
    """A script that is given event by event."""

    def __init__(
        self, program: Program, machines: Machines, script: str, is_quiet: bool, is_strict: bool
    ) -> None:
        self.program, self.machines = program, machines
        self.script = script
        self.is_quiet, self.is_strict = is_quiet, is_strict
        self.output = Output()
        self.files: list = []
        self.states: list = []
        # what was given so far, and what the program began with
        self.given: list[bytes] = []
        self.begun: StateFile | None = None

    def do(self, event: Event) -> None:
        if event.line == UNTIL_ALL_WAIT:
            self.deal_until_all_wait(event)
        elif event.line.startswith(b"AUTO "):
            self.deal(int(event.line.split(b" ")[1]))
        else:
            for given in typed_one_by_one(event):
                self.give(event, given)

    def give(self, event: Event, given: bytes) -> list[str]:
        """Has lines done, and prints what came of them."""
        result = self.program.do(given)
        self.given.append(given)
        self.files += result.files
        self.states += result.states
        self.print_lines([line for line in result.events if self.is_shown(event, given, line)])
        if f"{event.user()}: {loading.FAILED}" in result.events:
            self.say_why_not_loaded(event, given)
        if self.is_strict and given.startswith(b"LINE "):
            self.refuse_complaint(event, given, result.events)
        return result.events

    def say_why_not_loaded(self, event: Event, given: bytes) -> None:
        """Says why an IPL failed: another program is led to the same place and asked there."""
        found = loading.IPL.fullmatch(given)
        if not found:
            return
        # it is done again there, so not yet
        before = b"".join(self.given[:-1])
        other = Program(self.machines)
        try:
            if self.begun:
                restore(other, self.begun)
            if before:
                other.do(before)
            answers = other.do(loading.questions(given)).events
        except (Failure, ScriptRefused):
            return
        finally:
            other.close()
        kind = self.devices()[event.user()].get(found[2].decode(), "")
        why = loading.reason(event.user(), kind, answers)
        cli.say(f"{self.script}:{event.number}:1: {loading.FAILED}: {why}")

    def devices(self) -> dict[str, dict[str, str]]:
        """What is at each address of each user, which the program has accepted."""
        return self.machines.devices or stated(read_file(self.machines.before[-1]))[1]

    def is_shown(self, event: Event, given: bytes, line: str) -> bool:
        if not self.is_quiet:
            return True
        is_stored = STORE.match(given) and line == f"{event.user()}: STORED"
        return line != IDLE and not is_stored

    def print_lines(self, lines: list[str]) -> None:
        self.output.write("".join(f"{line}\n" for line in lines).encode(errors="surrogateescape"))
        sys.stdout.flush()

    def refuse_complaint(self, event: Event, given: bytes, lines: list[str]) -> None:
        """Ends the run if the control program complains of a typed line."""
        for line in lines:
            user, _, answer = line.partition(": ")
            if user == event.user() and COMPLAINT.fullmatch(answer):
                typed = given.decode(errors="surrogateescape").rstrip("\n")
                raise Failure(
                    COMPLAINED, f"{self.script}:{event.number}:1: {typed}: the answer is {answer}"
                )

    def deal(self, turns: int) -> bool:
        """Deals turns; whether the last one found nobody ready."""
        events = []
        for begun in range(0, turns, TURNS):
            size = min(TURNS, turns - begun)
            events = self.give(Event(0, b"AUTO", []), b"AUTO %d\n" % size)
        return events[-1:] == [IDLE]

    def deal_until_all_wait(self, event: Event) -> None:
        """Deals turns until nobody is ready; turns in which nothing happens are not shown."""
        was_quiet, self.is_quiet = self.is_quiet, True
        for _ in range(0, MOST_TURNS, TURNS):
            if self.deal(TURNS):
                self.is_quiet = was_quiet
                return
        raise Failure(
            REFUSED,
            f"{self.script}:{event.number}:1: somebody does not wait after {MOST_TURNS} turns: write AUTO with a number",
        )

    def print_files(self) -> None:
        """Prints closed files as a transcript has them."""
        for heading, entries in self.files:
            self.output.write(heading.encode(errors="surrogateescape") + b"\n")
            self.output.write(ENTRY.sub(b"", entries))

    def finish(self) -> None:
        sys.stdout.flush()
        self.program.finish()
        if self.output.failure:
            raise self.output.failure


def typed_one_by_one(event: Event) -> list[bytes]:
    """What the program is given at once: each line of a LOAD by itself, all else as it is."""
    if event.line.startswith(b"LOAD "):
        return [line + b"\n" for line in event.given]
    return [event.text()]


def judged(machines: Machines, script: bytes, path: str, is_explained: bool = False) -> list[Event]:
    """The events of a script in which no line is wrong; nothing of it is done. Why one is refused the command of the program says, or
    this does if it is to be explained."""
    try:
        events = list(events_of(script))
    except Wrong as wrong:
        raise Failure(REFUSED, f"{path}:{wrong.line}:{wrong.column}: {wrong.text}") from None
    given, numbers = plain(events, 1)
    try:
        machines.check(given)
    except ScriptRefused as refused:
        number = numbers[refused.line - 1]
        if is_explained:
            raise refused_line(machines, script, number, given, refused.line) from None
        raise Failure(REFUSED, f"fault: script Line {number}") from None
    return events


def command(words: list[str]) -> None:
    # the script may be a copy of what has this name
    program_path, part, shown, *words = words
    found, (first, script, *volumes) = read_arguments(words, OPTIONS, 2, 1000)
    sizes = sizes_in(found)
    is_bare = part == "bare370"
    # what is wrong with a directory the program says
    own = Machines("vm370", [*sizes, first], volumes, {}, {})
    machines = of_bare(first, volumes) if is_bare else own
    machines.path, machines.is_built = program_path, True
    given, to = last(found["--state"], None), last(found["--save-state"], None)
    try:
        state = given and state_of(given, machines)
        events = judged(machines, read_file(script), shown)
        program = Program(machines, *(["--save"] if found["--save"] else []))
    except BaseException:
        machines.close()
        raise
    run = Run(program, machines, shown, bool(found["--quiet"]), bool(found["--strict"]))
    try:
        carry_out(run, events, state)
        if to:
            save_state(program, to, machines, after(state.notes if state else NOBODY, run.states))
        run.print_files()
        run.finish()
    finally:
        program.close()
        machines.close()


def carry_out(run: Run, events: list[Event], state: Any) -> None:
    """Does the events, from a state if there is one. If it ends early, files that were closed are printed all the same."""
    if state:
        restore(run.program, state)
        run.begun = state
    try:
        for event in events:
            run.do(event)
    except Failure:
        run.print_files()
        sys.stdout.flush()
        raise


if __name__ == "__main__":
    del sys.argv[0]
    cli.run(command, "")
