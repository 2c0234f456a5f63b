"""Runs a script from a state, or saves the state at its end: state_runs.py NAME PROGRAM WORD.., as bin/lib/program.sh calls it."""
from __future__ import annotations

import re
import sys

from gathjumli import cli
from gathjumli.cli import Failure, REFUSED, last, read_arguments, read_file
from gathjumli.following import Answers, PartResult, Program, SavedState
from gathjumli.machines import Machines, SIZE_OPTIONS, ScriptRefused, of_directory, sizes_in
from gathjumli.state_files import NOBODY, StateFile, after, restore, save_state, state_of

# what is before an entry of a file in an answer, and not in a transcript
ENTRY = re.compile(rb"^> \|", re.MULTILINE)
OPTIONS = {"--save": None, "--state": str, "--save-state": str} | SIZE_OPTIONS


class Output:
    """Standard output. After a failure nothing more is written, which is reported at the end."""

    def __init__(self) -> None:
        self.failure: OSError | None = None

    def write(self, data: bytes) -> None:
        if self.failure:
            return
        try:
            sys.stdout.buffer.write(data)
        except OSError as error:
            self.failure = error


class PrintedAnswers(Answers):
    """Answers of which the lines of the transcript are printed as they arrive."""

    def __init__(self, output: Output) -> None:
        super().__init__()
        self.output = output

    def take_events(self, lines: bytes) -> None:
        self.output.write(lines)

    def done(self) -> PartResult | SavedState:
        sys.stdout.flush()
        return super().done()


class Script(Program):
    """A program whose transcript is printed."""

    def __init__(self, machines: Machines, *options: str) -> None:
        self.output = Output()
        super().__init__(machines, *options)

    def cutter(self) -> Answers:
        return PrintedAnswers(self.output)

    def print_files(self, files: list[tuple[str, bytes]]) -> None:
        """Prints closed files as a transcript has them."""
        for heading, entries in files:
            self.output.write(heading.encode(errors="surrogateescape") + b"\n")
            self.output.write(ENTRY.sub(b"", entries))

    def finish(self) -> None:
        super().finish()
        while self.answers.get() is not None:
            pass
        if self.output.failure:
            raise self.output.failure


def run(program: Program, script: bytes, state: StateFile | None) -> tuple:
    """Does a script, from a state if there is one; who is on and whose machine runs then, and the files that it closed."""
    if state:
        restore(program, state)
    try:
        result = program.do(script)
    except ScriptRefused as refused:
        raise Failure(REFUSED, f"fault: script Line {refused.line}") from None
    return after(state.notes if state else NOBODY, result.states), result.files


def command(words: list[str]) -> None:
    path, *words = words
    found, (directory, script, *volumes) = read_arguments(words, OPTIONS, 2, 1000)
    sizes = sizes_in(found)
    machines = of_directory(directory, sizes, volumes)
    machines.path = path
    given, to = last(found["--state"], None), last(found["--save-state"], None)
    state, lines = given and state_of(given, machines), read_file(script)
    # a part is whole lines
    lines += b"\n" * (lines[-1:] not in (b"", b"\n"))
    program = Script(machines, *(["--save"] if found["--save"] else []))
    try:
        notes, files = run(program, lines, state)
        if to:
            save_state(program, to, machines, notes)
        program.print_files(files)
        program.finish()
    finally:
        program.close()
        machines.close()


if __name__ == "__main__":
    del sys.argv[0]
    cli.run(command, "")
