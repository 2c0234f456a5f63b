"""The recording of an installation: the script of all that the program accepted (docs/INSTALLATION.md)."""
from __future__ import annotations

from collections.abc import Callable, Iterator
import calendar
import hashlib
import os
import re
import time
from typing import Any, NamedTuple

from gathjumli.fronts import Front, front_of
from gathjumli.machines import statements
from gathjumli.stores import FileStore
from gathjumli.cli import Failure, REFUSED

TITLE = b"* GATHJUMLI RECORDING 1"
BEGUN = b"* BEGUN "
# an end that was asked for, without machines and with them; what was saved for each
END = b"* END"
END_KEEPING = b"* END KEEPING MACHINES"
SAVED = b"* SAVED "
SAVED_KEEPING = b"* KEPT "
DECK_READ = b"* DECK "
STATE = b"* STATE "
# what the directory of this session has more than that of the one before, from whose state it goes on
ADDED = b"* ADDED "
# states that are kept: the last one, and the one before where the last cannot be read
MOST_STATES = 2
# the name of the state with which a session goes on from the one before
BEGINNING = "begin"
PRINTED = b"* PRINTED "
MOST_TURNS = 100000
SUM_DIGITS = 32
# of the running sum that a stamp has
STAMP_DIGITS = 8
SECONDS_TO_STAMP_TURNS = 60
MOST_UNSTAMPED = 10000
# what the program has to do for a line, in turns
LINE_WEIGHT = 20
TIME = "%Y-%m-%d %H:%M:%S UTC"
DECK = re.compile(rb"DECK [A-Z0-9]+ ([0-9]+)\n")
TURNS = re.compile(rb"AUTO ([0-9]+)\n")
TYPED = re.compile(rb"LINE ([A-Z0-9]+) ?(.*)\n")
STAMP = re.compile(rb"\* (\d{4}-\d\d-\d\d \d\d:\d\d:\d\d) UTC(?: ([0-9a-f]{8}))?\n", re.M)
STAMPED = re.compile(rb"^" + STAMP.pattern, re.M)
SCRIPT_WORDS = (
    b"LINE ",
    b"AUTO ",
    b"*",
    b"DECK ",
    b"TRANSFER ",
    b"RUN ",
    b"SERVE ",
    b"TICK ",
    b"\n",
)


class StateMark(NamedTuple):
    """A line of a recording that names a state: the name and the sum of its file, how many bytes and lines the recording has up to
    that line, the time, and the weight of all entries before it."""

    name: str
    sum: str
    place: int
    lines: int
    until: bytes
    # None if it is not known
    weight: int | None


class Base(NamedTuple):
    """What a recording uses."""

    program: str
    sizes: str
    directory: str
    volumes: list

    def lines(self) -> list:
        """The first lines of a recording of it. The paths are for readers, and may differ."""
        files = [
            ("DIRECTORY", self.directory, sum_of(without_passwords(read_whole(self.directory))))
        ]
        files += [("VOLUME", volume, sum_of_file(volume)) for volume in self.volumes]
        findings = [f"* {kind} {known} {os.path.abspath(path)}" for kind, path, known in files]
        texts = [f"* PROGRAM {self.program}", findings[0], f"* SIZES {self.sizes}", *findings[1:]]
        return [TITLE, *(text.encode(errors="surrogateescape") for text in texts)]


def read_whole(path: str) -> Any:
    with open(path, "rb") as file:
        return file.read()


def sum_of(data: bytes) -> Any:
    return hashlib.sha256(data).hexdigest()[:SUM_DIGITS]


def sum_of_file(path: str) -> Any:
    known = hashlib.sha256()
    with open(path, "rb") as file:
        while data := file.read(1 << 20):
            known.update(data)
    return known.hexdigest()[:SUM_DIGITS]


def without_passwords(directory: str) -> bytes:
    """A directory that states the same but for the passwords, which are X."""
    stated = (
        [*statement[:2], "X", *statement[3:]]
        if statement[0] == "USER" and len(statement) == 4
        else statement
        for statement in statements(directory)
    )
    return "".join(" ".join(item) + "\n" for item in stated).encode("latin-1")


def entries_of(file: Any) -> Iterator:
    """Each entry of a script that is there whole: a line, or a deck with its cards."""
    while (line := file.readline()).endswith(b"\n"):
        lines = [line]
        if line.startswith(b"DECK ") and (deck := DECK.fullmatch(line)):
            lines += [file.readline() for _ in range(int(deck[1]))]
        if not lines[-1].endswith(b"\n"):
            return
        yield b"".join(lines)


def stamp_in(entry: Any) -> Any:
    """The time and the sum of a stamp, or None."""
    return STAMP.fullmatch(entry) if entry.startswith(b"* ") and entry[2:3].isdigit() else None


def stamped(file: Any) -> Iterator:
    """The entries of a recording in groups, each with the time of the stamp that follows it, or an empty time."""
    group = []
    for entry in entries_of(file):
        if stamp := stamp_in(entry):
            yield stamp[1].decode(), group
            group = []
        else:
            group.append(entry)
        if len(group) >= MOST_UNSTAMPED:
            yield "", group
            group = []
    yield "", group


def known_part(line: bytes) -> Any:
    """What of a first line is compared: not the path, nor after the sources' sum the version."""
    words = line.split(b" ", 3)
    return words[:3] if words[1] in (b"PROGRAM", b"DIRECTORY", b"VOLUME") else words


def differing(found: Any, wanted: Any) -> str | None:
    """What the first lines of a recording tell otherwise than what it is to go on with, in words, or None."""
    if len(found) != len(wanted):
        return "it has another number of volumes"
    names = [
        "another kind",
        "another version of the program",
        "another directory",
        "other numbers of --frames and --slots",
    ]
    names += [f"another volume {number}" for number in range(1, len(wanted) - 3)]
    for name, one, other in zip(names, found, wanted):
        if known_part(one) != known_part(other):
            return f"it is of {name}"
    return None


class Recording:
    """A recording that goes on. Nobody else may write it meanwhile. Each part is followed by a stamp: the time, and the sum of all
    bytes before."""

    def __init__(self, store: FileStore) -> None:
        self.path = store.record
        self.store = store
        self.turns = 0
        self.stamped = self.written = time.monotonic()
        self.reset()
        store.open()
        self.look()

    def reset(self) -> None:
        """Before anything of it is read."""
        self.base = []
        self.begun = b""
        self.last = b""
        self.until = b""
        self.decks = set()
        self.printed = set()
        self.weight = 0
        self.lines = 0
        self.bytes = 0
        # the marks of the last states, that with which the session began, and whether anything was done after the last one
        self.states: list[StateMark] = []
        self.beginning: StateMark | None = None
        self.is_past_state = False
        self.cut = 0
        self.sum = hashlib.sha256()
        self.has_sums = False
        # the last line of which the sum is known to be right
        self.right = 0

    def look(self) -> None:
        """Reads all that it has, and refuses what is not as it was written. What comes before the last states is compared as a whole,
        and line by line only to tell where it is wrong."""
        with open(self.path, "rb") as file:
            if not (TITLE + b"\n").startswith(file.read(len(TITLE) + 1)):
                raise Failure(REFUSED, f"{self.path} is no recording of an installation")
        front = front_of(self.path, MOST_STATES)
        self.has_front = bool(front)
        try:
            self.read(front)
        except Failure:
            if not front:
                raise
            self.reset()
            self.has_front = False
            self.read(None)

    def read(self, front: Front | None) -> None:
        """Reads it, from the end of a front if that is given. An end that a crash of the host left in part was never shown, and is
        cut."""
        with open(self.path, "rb") as file:
            if front:
                self.take_front(front, file)
            size = file.tell() + self.take_entries(file)
            file.seek(size)
            torn = file.read()
        if STAMPED.search(torn):
            raise self.edited(self.lines + 1, "has more cards than follow it")
        if not self.begun:
            # not even its first lines were written: nothing was done
            size, self.base, self.lines, self.bytes, self.sum = 0, [], 0, 0, hashlib.sha256()
        self.cut = len(torn)
        self.store.cut(size)

    def take_entries(self, file: Any) -> int:
        """Takes all entries that are whole, from where a file is; how many bytes these are."""
        size = 0
        for entry in entries_of(file):
            size += len(entry)
            self.judge(entry)
            self.count(entry)
            self.note(entry)
        return size

    def take_more(self) -> bool:
        """Waits until another engine has added to the recording, and takes that; whether there was more."""
        if not self.store.await_more():
            return False
        with open(self.path, "rb") as file:
            file.seek(self.bytes)
            self.take_entries(file)
        return True

    def take_front(self, front: Front, file: Any) -> None:
        """Takes what a front says, and goes to its end."""
        for entry in entries_of(file):
            if self.begun and not entry.startswith(STATE):
                break
            self.judge(entry)
            self.count(entry)
            self.note(entry)
        for comment in front.comments:
            if not comment.startswith(STATE):
                self.note(comment)
        for line, place, lines, until in front.marks:
            name, digits = mark_in(line)
            self.states.append(StateMark(name, digits, place, lines, until, None))
        if self.beginning:
            # how much was done since then would be read line by line
            self.beginning = self.beginning._replace(weight=None)
        self.bytes, self.lines, self.sum = front.place, front.lines, front.sum
        self.right, self.until, self.has_sums = front.lines, front.until, True
        # how much it has to do does not matter, as it is done
        self.weight = LINE_WEIGHT
        file.seek(front.place)

    def judge(self, entry: Any) -> None:
        """Refuses an entry that is not as it was written."""
        if not entry.startswith(SCRIPT_WORDS):
            raise self.edited(self.lines + 1, "is no line of a recording")
        stamp = stamp_in(entry)
        if not self.begun and (stamp or not entry.startswith(b"* ")):
            raise self.edited(self.lines + 1, "comes before any line BEGUN")
        if stamp:
            self.judge_stamp(stamp, self.lines + 1)

    def judge_stamp(self, stamp: Any, line: Any) -> None:
        if stamp[2] and stamp[2] != self.digits():
            first, last = self.right + 1, line - 1
            which = f"lines {first} to {last} are" if first < last else f"line {first} is"
            raise self.edited(
                first, "", f"{which} not as written, or the sum in line {line} is not"
            )
        if self.has_sums and not stamp[2]:
            raise self.edited(line, "has no sum, as the lines before it have")
        self.has_sums = bool(stamp[2])
        self.right = line
        self.until = stamp[1]

    def edited(self, line: Any, fault: Any, findings: str = "") -> Any:
        """The failure that a wrong line is, and what can be done."""
        findings = findings or f"line {line} {fault}"
        right = min(self.right, line - 1)
        until = f"until {self.until.decode()} UTC, " if right == self.right else ""
        kept = f"{until}head -n {right} {self.path} > OTHER" if right else "nothing"
        advice = f"put back a copy from before it was changed, or go on with what is known to be right: {kept}"
        return Failure(REFUSED, f"{self.path}: {findings}", advice)

    def digits(self) -> bytes:
        return sum_digits(self.sum)

    def count(self, data: bytes) -> None:
        self.sum.update(data)
        self.bytes += len(data)
        self.lines += data.count(b"\n")

    def note(self, entry: Any) -> None:
        if not self.begun and not entry.startswith(BEGUN):
            self.base.append(entry[:-1])
            return
        if entry.startswith(b"*"):
            if stamp_in(entry):
                return
            self.note_comment(entry)
        else:
            self.is_past_state = True
            self.weight += weight_of(entry)
        if not entry.startswith((PRINTED, STATE)):
            # an end that was asked for is the last word, whatever is noted after it
            self.last = entry

    def note_comment(self, entry: Any) -> None:
        if entry.startswith(BEGUN):
            self.begun = self.begun or entry
            self.until = entry.removeprefix(BEGUN)[:19]
        elif entry.startswith(DECK_READ):
            self.decks.add(entry)
        elif entry.startswith(STATE):
            self.note_state(entry)
        elif entry.startswith(PRINTED):
            self.printed.add(entry.removeprefix(PRINTED).decode().rstrip("\n"))

    def note_state(self, entry: bytes) -> None:
        name, digits = mark_in(entry)
        mark = StateMark(name, digits, self.bytes, self.lines, self.until, self.weight)
        if name == BEGINNING:
            self.beginning = mark
        else:
            self.states = [*self.states, mark][-MOST_STATES:]
        self.is_past_state = False

    def begin(self, base: Any) -> Any:
        """Begins it on this base, or goes on if it has the same. What it says about that is for the operator."""
        wanted = base.lines()
        if self.base:
            self.refuse_others(wanted)
            if self.store.follows:
                return f"follows {self.path}, of which {self.lines} lines are here"
            cut = f"; {self.cut} bytes after the last whole line are cut" if self.cut else ""
            findings = f"goes on from {self.lines} lines of {self.path}, until {self.until.decode()} UTC{cut}"
            # a full disk is found here, and not when somebody types
            self.put(b"", is_stamped=True)
        else:
            findings = f"begins {self.path}"
            self.begun = begun_now()
            while os.path.exists(self.aside()):
                # another session was begun in this second
                time.sleep(0.1)
                self.begun = begun_now()
            self.base = wanted
            self.put(b"".join(item + b"\n" for item in wanted) + self.begun, is_stamped=True)
        self.store.settle()
        sync_folder(self.path)
        return findings

    def refuse_others(self, wanted: list[bytes]) -> None:
        """Refuses to go on with another program, directory, volume or other sizes than those that the recording is of."""
        if differs := differing(self.base, wanted):
            anew = "start with --without-machines" if self.beginning else "move the file away"
            advice = f"put back what it is of, or {anew}: then a session begins anew"
            raise Failure(REFUSED, f"{self.path}: {differs}", advice)

    def volume_sums(self) -> list:
        """The sums of the volumes when the session began."""
        return [line.split(b" ")[2].decode() for line in self.base if line.startswith(b"* VOLUME ")]

    def name(self) -> Any:
        """What this session is called among those of the same files: the time when it was begun."""
        return self.begun_at().translate({ord(" "): "-", ord(":"): None})

    def begun_at(self) -> Any:
        return self.begun.removeprefix(BEGUN).decode()[:19]

    def seconds(self) -> Any:
        """How long ago it was begun."""
        return time.time() - calendar.timegm(time.strptime(self.begun_at(), "%Y-%m-%d %H:%M:%S"))

    def size(self) -> Any:
        return self.store.size()

    def free(self) -> Any:
        """The bytes that are free on its disk."""
        return self.store.free()

    def aside(self) -> str:
        """The folder to which it goes when the session ends."""
        return f"{self.path}.{self.name()}"

    def entries(
        self, state: StateMark | None = None, at_end: Callable[[], None] | None = None
    ) -> Iterator:
        """What was done until now, or since a state: each entry with the number of its line, and the time of the stamp that follows it.
        With at_end, which is called at the end, it goes on while another engine adds to the recording.
        """
        number, waiting, when = 1, [], self.begun.removeprefix(BEGUN)[:19]
        if state:
            number, when = state.lines + 1, state.until
        place, is_more = state.place if state else 0, True
        with open(self.path, "rb") as file:
            while is_more:
                file.seek(place)
                for entry in entries_of(file):
                    place += len(entry)
                    stamp = stamp_in(entry)
                    if stamp:
                        when = stamp[1]
                    elif not entry.startswith(b"*"):
                        waiting.append((number, entry))
                    if stamp or len(waiting) >= MOST_UNSTAMPED:
                        yield from ((line, when, text) for line, text in waiting)
                        waiting = []
                    number += entry.count(b"\n")
                yield from ((line, when, text) for line, text in waiting)
                waiting, is_more = [], False
                if at_end:
                    at_end()
                    is_more = self.take_more()

    def weight_since(self, mark: StateMark | None) -> int:
        """About how much was done since a mark, or since the beginning."""
        if mark and mark.weight is not None:
            return self.weight - mark.weight
        if not mark and not self.has_front:
            return self.weight
        return sum(weight_of(entry) for _, _, entry in self.entries(mark))

    def whole(self) -> Any:
        """All that it has."""
        return read_whole(self.path)

    def add(self, part: bytes) -> None:
        """Adds lines that were done; they need not be on the disk yet."""
        self.put(self.turns_line() + part, is_stamped=True)
        self.written = time.monotonic()
        self.weight += LINE_WEIGHT * part.count(b"\n")
        self.is_past_state = True

    def add_turns(self, turns: int) -> None:
        """Adds turns that were done; those that follow each other are one line, which is written each second."""
        if self.turns + turns > MOST_TURNS:
            self.put(self.turns_line())
        self.turns += turns
        self.weight += turns
        self.is_past_state = True
        now = time.monotonic()
        if now - self.written >= 1:
            self.put(self.turns_line(), is_stamped=now - self.stamped >= SECONDS_TO_STAMP_TURNS)
            self.written = now

    def turns_line(self) -> Any:
        line = b"AUTO %d\n" % self.turns if self.turns else b""
        self.turns = 0
        return line

    def put(self, data: bytes, is_stamped: bool = False) -> None:
        """Writes lines, and a stamp after them if that is asked for, at once."""
        self.count(data)
        if is_stamped:
            stamp = stamp_of(self.digits())
            self.count(stamp)
            self.stamped, self.until = time.monotonic(), stamp[2:21]
            data += stamp
        self.store.append(data)

    def settle(self) -> None:
        """What was added is on the disk now."""
        self.put(self.turns_line())
        self.store.settle()

    def mark(self, line: bytes) -> None:
        """Adds a comment line, and has it on the disk."""
        self.put(self.turns_line() + line + b"\n", is_stamped=True)
        self.settle()
        self.last = line + b"\n"

    def mark_state(self, name: str, digits: str) -> None:
        """Says that the state of all before is saved."""
        line = STATE + f"{name} {digits}\n".encode()
        self.put(self.turns_line() + line)
        self.note_state(line)
        self.put(b"", is_stamped=True)
        self.settle()

    def volumes_with(self, sums: list[str]) -> list[bytes]:
        """The lines of its volumes, with other sums."""
        lines = [line.split(b" ", 3) for line in self.base if line.startswith(b"* VOLUME ")]
        return [b" ".join([*line[:2], known.encode(), line[3]]) for line, known in zip(lines, sums)]

    def succeeding(self, sums: list[str], digits: str) -> bytes:
        """The recording of a session that goes on from the state of this sum, with volumes of these sums."""
        base = [*self.base[:4], *self.volumes_with(sums)]
        return beginning_with(base, self.next_begun(), digits, *self.decks_there())

    def decks_there(self) -> list[bytes]:
        """The comments about decks that were read in and whose files may still be where they were, for the next session: they are only
        moved."""
        return [mark[:-1] for mark in sorted(self.decks)]

    def next_begun(self) -> bytes:
        """The line that says when the next session begins: sessions are named by the second."""
        while (begun := begun_now()) == self.begun:
            time.sleep(0.1)
        return begun

    def turn(self, path: str) -> None:
        """Goes on with the recording at a path, which is put in the place of this one."""
        self.store.replace(path)
        self.turns = 0
        self.reset()
        self.look()

    def close(self) -> None:
        self.store.close()


def beginning_with(base: list[bytes], begun: bytes, digits: str, *comments: bytes) -> bytes:
    """The recording of a session that goes on from the state of this sum: what it is of, when it begins, and comments."""
    mark = STATE + f"{BEGINNING} {digits}".encode()
    text = b"".join(line + b"\n" for line in [*base, begun[:-1], mark, *comments])
    return text + stamp_of(sum_digits(hashlib.sha256(text)))


def stamp_of(digits: bytes) -> bytes:
    """A stamp of now."""
    return time.strftime(f"* {TIME} ", time.gmtime()).encode() + digits + b"\n"


def mark_in(line: bytes) -> tuple[str, str]:
    """The name and the sum of the state for which a line is the mark."""
    name, _, digits = line.removeprefix(STATE).decode(errors="replace").strip().partition(" ")
    return name, digits


def sum_digits(known: Any) -> bytes:
    return known.hexdigest()[:STAMP_DIGITS].encode()


def begun_now() -> bytes:
    return time.strftime(f"{BEGUN.decode()}{TIME}\n", time.gmtime()).encode()


def weight_of(entry: Any) -> int:
    """About how much the program has to do for an entry, in turns."""
    turns = TURNS.fullmatch(entry) if entry.startswith(b"AUTO ") else None
    return int(turns[1]) if turns else LINE_WEIGHT


def sync_folder(path: str) -> None:
    """Has the name of a file on the disk."""
    folder = os.open(os.path.dirname(os.path.abspath(path)), os.O_RDONLY)
    try:
        os.fsync(folder)
    finally:
        os.close(folder)
