"""A program that goes on from where a script has led it (docs/COMMAND_LINE.md, "Parts of a script")."""
from __future__ import annotations

from collections.abc import Iterable, Iterator
import os
import queue
import re
import subprocess
import tempfile
import threading
from typing import Any, NamedTuple

from gathjumli.machines import ScriptRefused, failure
from gathjumli.cli import Failure, NO_MEMORY, WRONG_USE

STATES = (b"ON", b"RUNS", b"STOPS", b"OFF")
# the end of a file's entries: a line end that no further entry follows
FILE_ENDS = re.compile(rb"\n(?!> \|)")
CHUNK = 1 << 20
STATE_REFUSED = "fault: state Refused"


class NotFollowed(Exception):
    """The program takes no script part by part."""


class Died(Failure):
    """The program was killed, or the host refused it memory: another one may go on."""


def is_out_of_memory(reason: Exception) -> bool:
    """Whether a program ended because the host refused it memory."""
    return isinstance(reason, Died) and reason.status == NO_MEMORY


class StateRefused(Failure):
    """A state that the program refuses."""


class PartResult(NamedTuple):
    """What came of a part: the lines of the transcript; each file that it closed for the operator, its heading and the lines of its
    entries, as bytes; each user's new state, a word and his name; whether its last turn found nobody ready; whether what was sought
    was found.
    """

    events: list
    files: list
    states: list
    is_idle: bool
    is_found: bool = False

    def headings(self) -> list:
        return [heading for heading, _ in self.files]


class Refused(NamedTuple):
    """The answer to a part that is refused: the number of its first wrong line."""

    line: int


class SavedState(NamedTuple):
    """The bytes of a state, in pieces as they arrived."""

    pieces: list[bytes]

    def size(self) -> int:
        return sum(map(len, self.pieces))

    def whole(self) -> bytes:
        return b"".join(self.pieces)


class Answers:
    """Cuts what a program writes into answers as it arrives. A file's entries stay as they are, since a listing may have millions
    of lines, and whoever handles each of them keeps others waiting."""

    def __init__(self) -> None:
        self.left = b""
        self.begin()

    def begin(self) -> None:
        self.events: list[str] = []
        self.files: list[tuple[str, list[bytes]]] = []
        self.states: list[tuple[str, str]] = []
        # how many entries the open files of each user have, if that was asked for
        self.held: dict[str, int] = {}
        self.is_idle = self.is_found = False
        # the pieces of a state that have arrived, and how many bytes are missing
        self.pieces: list[bytes] = []
        self.is_state = False
        self.awaited = 0

    def feed(self, data: bytes) -> Iterator:
        """The answers that these bytes end."""
        data = self.left + data
        self.left = b""
        while data:
            place = self.take_piece(data) if self.awaited else 0
            place, answers = self.take_lines(data, place, data.rfind(b"\n") + 1)
            yield from answers
            if not self.awaited:
                self.left = data[place:]
                return
            data = data[place:]

    def take_piece(self, data: bytes) -> int:
        """Takes what these bytes have of a state; where that ends."""
        self.pieces.append(data[: self.awaited])
        self.awaited -= len(self.pieces[-1])
        return len(self.pieces[-1])

    def take_lines(self, data: bytes, place: int, end: int) -> tuple[int, list]:
        """Takes whole lines until a state begins; where that is, and the answers that they end."""
        answers = []
        while place < end and not self.awaited:
            if self.files and data.startswith(b"> |", place):
                stop = FILE_ENDS.search(data, place, end).end()
                self.files[-1][1].append(data[place:stop])
            elif data.startswith(b"> ", place):
                stop = data.index(b"\n", place) + 1
                if answer := self.take(data[place : stop - 1]):
                    answers.append(answer)
            else:
                stop = data.find(b"\n> ", place, end) + 1 or end
                self.take_events(data[place:stop])
            place = stop
        return place, answers

    def take_events(self, lines: bytes) -> None:
        """Takes lines of the transcript, of which a printing guest makes many."""
        self.events += text_of(lines).split("\n")[:-1]

    def take(self, line: bytes) -> Any:
        """Takes a line that is none of the transcript; the answer that it ends, or None."""
        word, _, rest = line[2:].partition(b" ")
        if word == b"==":
            self.files.append((text_of(line[2:]), []))
        elif word in STATES:
            self.states.append((text_of(word), text_of(rest)))
        elif word == b"HOLDS":
            name, *counts = text_of(rest).split(" ")
            self.held[name] = sum(map(int, counts))
        elif word == b"IDLE":
            self.is_idle = True
        elif word == b"FOUND":
            self.is_found = True
        elif word == b"STATE":
            self.is_state, self.awaited = True, int(rest)
        elif word in (b"DONE", b"REFUSED"):
            answer = Refused(int(rest)) if rest else self.done()
            self.begin()
            return answer
        return None

    def done(self) -> PartResult | SavedState | dict[str, int]:
        """The answer that ends here."""
        if self.is_state:
            return SavedState(self.pieces)
        if self.held:
            return self.held
        files = [(heading, b"".join(pieces)) for heading, pieces in self.files]
        return PartResult(self.events, files, self.states, self.is_idle, self.is_found)


def text_of(line: bytes) -> str:
    return line.decode(errors="surrogateescape")


class Program:
    """A program that is given a script part by part; some of its answers may be still to come."""

    def __init__(self, machines: Any, *options: Any) -> None:
        self.errors = tempfile.TemporaryFile()
        streams = {"stdin": subprocess.PIPE, "stdout": subprocess.PIPE, "stderr": self.errors}
        # an interrupt at the terminal is for the command alone
        words = [machines.program(), *machines.follow_words(*options)]
        self.process = subprocess.Popen(words, start_new_session=True, **streams)
        self.awaited = 0
        # how many answers it was asked for, how many it has given, and how often anything of it was heard
        self.asked = self.answered = self.heard = 0
        self.answers = queue.SimpleQueue()
        threading.Thread(target=self.listen, daemon=True).start()

    def listen(self) -> None:
        """Takes what the program writes, so that it never waits for a reader."""
        answers = self.cutter()
        with self.process.stdout as output:
            while data := os.read(output.fileno(), CHUNK):
                self.heard += 1
                for answer in answers.feed(data):
                    self.answered += 1
                    self.answers.put(answer)
        self.answers.put(None)

    def cutter(self) -> Answers:
        """What cuts that which it writes into answers."""
        return Answers()

    def is_asked(self) -> bool:
        """Whether it has yet to give an answer."""
        return self.asked > self.answered

    def expect(self) -> None:
        """Counts an answer that it is asked for."""
        self.awaited += 1
        self.asked += 1

    def send(self, part: Any) -> None:
        """Gives it a part, whose answer is awaited later."""
        self.expect()
        self.write(b"%d\n%s" % (len(part), part))

    def write(self, data: bytes) -> None:
        try:
            self.process.stdin.write(data)
            self.process.stdin.flush()
        except BrokenPipeError:
            # it has ended, and its answer will tell why
            pass

    def do(self, part: bytes) -> Any:
        """What appears of a part. If it is refused, nothing has happened."""
        self.send(part)
        while self.awaited > 1:
            self.answer()
        return self.answer()

    def answer(self) -> Any:
        """What came of the first part whose answer is awaited."""
        self.awaited -= 1
        answer = self.answers.get()
        if answer is None:
            raise self.failed()
        if isinstance(answer, Refused):
            raise ScriptRefused(answer.line)
        return answer

    def seek(self, sought: str, user: str, units: int) -> PartResult:
        """What came of single units of a user, until one of them has left what is sought."""
        self.expect()
        text = f"{sought}\nRUN {user} {units}\n".encode()
        self.write(b"SEEK\n%d\n%s" % (len(text), text))
        while self.awaited > 1:
            self.answer()
        return self.answer()

    def save(self) -> SavedState | None:
        """The state where all that was given has led, or None if the program has none."""
        return self.saved(b"SAVE\n")

    def save_user(self, number: int) -> SavedState | None:
        """What that state has of the user of this number, with the frames and his storage."""
        return self.saved(b"VIEW %d\n" % number)

    def saved(self, request: bytes) -> SavedState | None:
        while self.awaited:
            self.answer()
        self.ask_for_state(request)
        try:
            return self.answer()
        except ScriptRefused:
            return None

    def ask_for_state(self, request: bytes = b"SAVE\n") -> None:
        """Asks for the state where all that was given will have led; the answer is awaited later."""
        self.expect()
        self.write(request)

    def held(self) -> dict[str, int]:
        """How many entries the open files of each user have."""
        return self.told(b"HOLDS\n")

    def readers(self) -> list[str]:
        """The lines that QUERY FILES shows each user."""
        return self.told(b"FILES\n").events

    def told(self, question: bytes) -> Any:
        """What is answered to a question that changes nothing."""
        self.expect()
        self.write(question)
        while self.awaited > 1:
            self.answer()
        return self.answer()

    def restore(self, size: int, pieces: Iterable[bytes]) -> None:
        """Has it go on from a state of so many bytes. It comes before the first part."""
        self.expect()
        self.write(b"STATE\n%d\n" % size)
        for piece in pieces:
            self.write(piece)
        self.answer()

    def finish(self) -> None:
        """Ends the session, which saves volumes if the program was reported to."""
        self.write(b"END\n")
        if self.process.wait():
            raise self.failed()

    def failed(self) -> Any:
        """Why the program has ended by itself."""
        status = self.process.wait()
        self.errors.seek(0)
        findings = self.errors.read().decode(errors="surrogateescape").splitlines()
        if status == WRONG_USE:
            return NotFollowed()
        if findings[:1] == [STATE_REFUSED]:
            return StateRefused(status, *findings)
        found = failure(status, findings)
        return Died(found.status, *found.lines) if status < 0 or status == NO_MEMORY else found

    def close(self) -> None:
        self.process.kill()
        self.process.wait()
        self.errors.close()
        try:
            self.process.stdin.close()
        except BrokenPipeError:
            pass


class Follower(Program):
    """One that keeps the script which it was given."""

    def __init__(self, machines: Any) -> None:
        super().__init__(machines)
        self.script = b""

    def send(self, part: Any) -> None:
        self.script += part
        super().send(part)

    def do(self, part: bytes) -> Any:
        before = self.script
        try:
            return super().do(part)
        except ScriptRefused:
            self.script = before
            raise
