"""What a recording says of each user: his console, his cards, his files, and what his machine did at which moment."""
from __future__ import annotations

from typing import Any
import collections
import re

from gathjumli.printout_lines import entries_in
from gathjumli.recording import TYPED


# lines of a console that are kept, the last ones
MOST_LINES = 3000
MOST_DECKS = 20
MOST_CONNECTIONS = 200
# moments of a typed line; a unit is one
LINE_MOMENTS = 20
# stretches that a line of time has
STRETCHES = 480
RAN = re.compile("= ([A-Z0-9]+) ([0-9]+) ([A-Z]+)")
SERVED = re.compile("= ([A-Z0-9]+) SERVED ([0-9A-F]{3})")
LACKED = re.compile("= ([A-Z0-9]+) FRAMES")
KINDS = ("units", "serves", "lines", "shortages")


class Time:
    """How much of each kind there was in each stretch of time. Stretches are joined in pairs as it goes on, so that it takes no
    more memory the longer it is."""

    def __init__(self) -> None:
        self.width = 1
        self.now = 0
        self.lanes = collections.defaultdict(
            lambda: {kind: collections.Counter() for kind in KINDS}
        )
        self.clock = []

    def add(self, user: Any, kind: Any, amount: Any) -> None:
        self.lanes[user][kind][self.now // self.width] += amount

    def pass_by(self, moments: Any) -> None:
        self.now += moments
        while self.now // self.width >= 2 * STRETCHES:
            self.width *= 2
            for lane in self.lanes.values():
                for kind, counts in lane.items():
                    lane[kind] = halved(counts)

    def stamp(self, text: str) -> None:
        """Notes a time of the day."""
        if not self.clock or self.now - self.clock[-1][0] >= self.width:
            self.clock.append((self.now, text))
        if len(self.clock) > 4 * STRETCHES:
            del self.clock[1::2]


def halved(counts: Any) -> Any:
    found = collections.Counter()
    for place, amount in counts.items():
        found[place // 2] += amount
    return found


class Life:
    """What a user's console shows, each line with its kind and its time, the decks that the operator gave him, and when somebody
    was at his terminal: from when until when, and from where."""

    def __init__(self) -> None:
        self.console = collections.deque(maxlen=MOST_LINES)
        self.lines = 0
        self.decks = collections.deque(maxlen=MOST_DECKS)
        self.connections = collections.deque(maxlen=MOST_CONNECTIONS)
        self.is_connected = False

    def print(self, kind: str, text: str, when: Any) -> None:
        self.lines += 1
        self.console.append((kind, text, when))

    def connect(self, when: Any, address: Any) -> None:
        self.disconnect(when)
        self.connections.append([when, "", address])
        self.is_connected = True

    def disconnect(self, when: Any) -> None:
        if self.is_connected:
            self.connections[-1][1] = when
        self.is_connected = False


class Story:
    """What a recording says, entry by entry."""

    def __init__(self, users: Any) -> None:
        self.lives = {user: Life() for user in users}
        self.time = Time()
        self.files = []
        self.when = ""

    def take(self, program: Any, when: Any, entries: Any) -> None:
        """Has a program do the entries of a recording that have one time."""
        if when:
            self.when = when
            self.time.stamp(when)
        for entry in entries:
            if entry.startswith(b"*"):
                self.read_comment(entry.decode(errors="replace").split())
                continue
            typed = self.read_entry(entry)
            came = program.do(entry)
            self.files += [(heading, entries_in(body)) for heading, body in came.files]
            for event in came.events:
                self.read_event(event, typed)

    def read_comment(self, words: list[str]) -> None:
        """Notes who reaches a terminal, and who leaves it."""
        if words[1:2] == ["CONNECTED"] and len(words) == 4 and words[2] in self.lives:
            self.lives[words[2]].connect(self.when, words[3])
        elif words[1:2] == ["DISCONNECTED"] and words[2:] and words[2] in self.lives:
            self.lives[words[2]].disconnect(self.when)

    def are_people(self) -> Any:
        """The users at whose terminals somebody was; all, if the recording is of before that was noted."""
        found = {name for name, life in self.lives.items() if life.connections}
        return found or set(self.lives)

    def read_entry(self, entry: Any) -> Any:
        """Notes what is typed and given; who typed it, or None."""
        if typed := TYPED.fullmatch(entry):
            name = typed[1].decode()
            self.lives[name].print("typed", typed[2].decode("latin-1"), self.when)
            self.time.add(name, "lines", 1)
            self.time.pass_by(LINE_MOMENTS)
            return name
        if entry.startswith(b"DECK "):
            head, *cards = entry.decode("latin-1").split("\n")[:-1]
            self.lives[head.split(" ")[1]].decks.append(cards)
        return None

    def read_event(self, event: Any, typed: Any) -> None:
        name, colon, text = event.partition(": ")
        if colon and name in self.lives:
            self.lives[name].print(kind_of(text, name == typed), text, self.when)
        elif ran := RAN.fullmatch(event):
            self.time.add(ran[1], "units", int(ran[2]))
            if ran[3] == "FRAMES":
                self.time.add(ran[1], "shortages", 1)
            self.time.pass_by(int(ran[2]))
        elif served := SERVED.fullmatch(event):
            self.time.add(served[1], "serves", 1)
        elif was_absent := LACKED.fullmatch(event):
            self.time.add(was_absent[1], "shortages", 1)


def kind_of(text: str, is_reply: Any) -> str:
    return "other" if text.startswith("MSG FROM ") else "reply" if is_reply else "guest"
