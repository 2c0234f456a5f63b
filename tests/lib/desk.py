"""The logon desk once more, in Python: it is in for the program where nothing is built, and tests/commands/people.py compares the two.

It takes and gives the lines of crates/logon_desk_cli (frame.rt, printing.rt).
"""
from __future__ import annotations

from collections.abc import Callable, Iterator
from typing import TextIO
import random
import subprocess
import sys

NOTICES = {
    "online": b"GATHJUMLI ONLINE: TYPE LOGON NAME\r\n",
    "type logon": b"TYPE LOGON NAME, AND THEN THE PASSWORD\r\n",
    "enter password": b"ENTER PASSWORD:\r\n\xff\xfb\x01",
    "password taken": b"\xff\xfc\x01",
    "no password": b"\xff\xfc\x01THAT IS NO PASSWORD: TYPE LOGON NAME\r\n",
    "refused": b"LOGON REFUSED\r\n",
    "too late": b"TOO LATE\r\n",
    "reconnected": b"RECONNECTED\r\n",
    "takes over": b"ANOTHER TERMINAL TAKES OVER\r\n",
    "is there": b"[YES]\r\n",
}
BANNER = NOTICES["online"].decode().strip()
LINE, MOST_WAITING, SHOWN, KEPT, MOST_STRANGERS, MOST_GUESSED = 130, 4096, 1024, 24, 80, 1024
TIME_TO_LOG_ON, MOST_TRIES = 60000, 3
PAUSES = (500, 1000, 2000)
WAITS = ((5000, 0), (15000, 250), (25000, 500), (35000, 1000), (45000, 2000))


class Decoder:
    """The bytes of a terminal as lines."""

    def __init__(self) -> None:
        self.line, self.expects, self.is_after_return = b"", "text", False

    def take(self, byte: int) -> bool | tuple[str, bytes] | None:
        """What appears of a byte: a line, bytes to be answered, or None."""
        if self.expects == "text":
            return self.take_text(byte)
        if self.expects == "command":
            return self.take_command(byte)
        if self.expects == "parameter":
            self.expects = "end" if byte == 255 else "parameter"
            return None
        if self.expects == "end":
            self.expects = "text" if byte == 240 else "parameter"
            return None
        command, self.expects = self.expects, "text"
        if command == 251 or command == 253 and byte != 1:
            return ("answer", bytes([255, 254 if command == 251 else 252, byte]))
        return None

    def take_text(self, byte: int) -> tuple[str, bytes] | None:
        if byte == 255:
            self.expects = "command"
            return None
        was_return, self.is_after_return = self.is_after_return, False
        if was_return and byte in (10, 0):
            return None
        if byte in (13, 10):
            self.is_after_return = byte == 13
            line, self.line = self.line, b""
            return ("line", line)
        self.line = self.line[:-1] if byte in (8, 127) else self.added(byte)
        return None

    def added(self, byte: int) -> bytes:
        return (self.line + printable(bytes([byte])))[:LINE]

    def take_command(self, byte: int) -> object:
        self.expects = byte if 251 <= byte <= 254 else "parameter" if byte == 250 else "text"
        if byte == 255:
            self.is_after_return = False
            self.line = self.added(32)
        elif byte == 247:
            self.line = self.line[:-1]
        elif byte in (248, 243, 244):
            self.line = b""
        if byte in (243, 244):
            return ("line", b"#CP")
        return ("answer", NOTICES["is there"]) if byte == 246 else None


def printable(text: bytes) -> bytes:
    return bytes(item if 32 <= item < 127 else 32 for item in text)


def words_of(line: bytes) -> list[bytes]:
    return [part for part in line.split(b" ") if part]


def meaning(line: bytes) -> tuple:
    """What a line of somebody who is about to log on says."""
    words = words_of(line.upper())
    if len(words) == 1:
        return ("word", words[0])
    if words[:1] != [b"LOGON"] or len(words) > 3:
        return ("other",)
    return ("name", words[1]) if len(words) == 2 else ("both", words[1], words[2])


def trailing(line: bytes) -> bytes:
    """What is after the first word of a line and a blank."""
    return line.lstrip(b" ").partition(b" ")[2]


def script_line(line: bytes, is_running: bool) -> bytes:
    def begins(text: bytes, word: bytes) -> bool:
        return text.lstrip(b" ").partition(b" ")[0].upper() == word

    asks = begins(line, b"#CP")
    if is_running and not asks:
        return line
    command = trailing(line) if asks else line
    message = trailing(trailing(command)) if begins(command, b"MSG") else b""
    return line[: len(line) - len(message)].upper() + message


class Place:
    """A connection."""

    def __init__(self, address: int, now: int) -> None:
        self.stage, self.decoder, self.waiting, self.address = ("naming",), Decoder(), b"", address
        self.deadline, self.left, self.due, self.tries = now + TIME_TO_LOG_ON, 0, 0, 0


class Account:
    """A user."""

    def __init__(self, name: bytes) -> None:
        self.name, self.terminal, self.kept = name, None, []
        self.is_on = self.is_running = self.is_busy = False


class Guessed:
    """A name that was guessed at from an address: until when that is remembered, and when the next guess is free."""

    def __init__(self, name: bytes, address: int) -> None:
        self.name, self.address, self.until, self.free = name, address, 0, 0


class LogonServer:
    """The places, the users and the names that were guessed at."""

    def __init__(self, names: list[bytes], room: int) -> None:
        self.accounts, self.places = [Account(name) for name in names], [None] * room
        self.guessed = []
        self.out, self.reading = [], []

    # --- what appears ---

    def apply(self, word: str, now: int, words: list[str]) -> None:
        if word in ("OPEN", "CAME", "GONE", "SAYS"):
            getattr(self, word.lower())(int(words[0], 16), now, *words[1:])
        elif word != "TIME":
            getattr(self, word.lower())(self.accounts[int(words[0], 16)], *words[1:])
        for number in range(len(self.places)):
            while self.take(number, now):
                pass
            self.wake(number, now)

    def open(self, number: int, now: int, address: str) -> None:
        if self.strangers() >= MOST_STRANGERS:
            self.gone(self.busiest(), now)
        self.places[number] = Place(int(address, 16), now)
        self.say(number, "online")

    def came(self, number: int, _: int, data: str) -> None:
        data, place = read_bytes(data), self.places[number]
        if not place:
            return
        self.reading.append(number)
        if len(place.waiting) + len(data) > MOST_WAITING:
            self.end(number)
        else:
            place.waiting += data

    def gone(self, number: int, _: int) -> None:
        user = self.user_at(number)
        if user and user.terminal == number:
            self.note(number, "LEFT", user)
        self.end(number)

    def says(self, number: int, now: int, answer: str, name: str, password: str) -> None:
        place = self.places[number]
        if place and place.stage == ("judged", read_bytes(name), read_bytes(password)):
            user = next(
                (account for account in self.accounts if account.name == read_bytes(name)), None
            )
            if user and int(answer, 16) == 1:
                self.log_on(number, place, user, now)
            else:
                place.stage = ("refused",)
                place.due, place.tries = now + PAUSES[min(place.tries, 2)], place.tries + 1
                self.note(number, "FAIL", user)

    def show(self, user: Account, text: str) -> None:
        place = self.places[user.terminal] if user.terminal is not None else None
        if place and place.stage == ("on", user):
            self.give(user.terminal, printable(read_bytes(text)[:SHOWN]) + b"\r\n")

    def keep(self, user: Account, minute: str, text: str) -> None:
        user.kept = [
            *user.kept,
            (printable(read_bytes(minute)[:SHOWN]), printable(read_bytes(text)[:SHOWN])),
        ][-KEPT:]

    def turn(self, user: Account, state: str) -> None:
        user.is_on, user.is_running = int(state, 16) > 0, int(state, 16) == 2
        if not user.is_on:
            user.terminal, user.kept = None, []

    def done(self, user: Account) -> None:
        user.is_busy = False
        if not user.is_on:
            user.terminal = None

    # --- the effect of that ---

    def user_at(self, number: int) -> Account | None:
        place = self.places[number]
        return place.stage[1] if place and place.stage[0] == "on" else None

    def is_taking(self, number: int) -> bool:
        user, place = self.user_at(number), self.places[number]
        if user:
            return user.terminal == number and not user.is_busy
        return place is not None and place.stage[0] in ("naming", "asking")

    def take(self, number: int, now: int) -> bool | tuple[str, bytes] | None:
        """Takes a byte; whether there was one to take."""
        place = self.places[number]
        if not place or not place.waiting or not self.is_taking(number):
            return False
        byte, place.waiting = place.waiting[0], place.waiting[1:]
        came = place.decoder.take(byte)
        if came and came[0] == "answer":
            self.give(number, came[1])
        elif came and (user := self.user_at(number)):
            user.is_busy = True
            self.type(user, script_line(came[1], user.is_running))
        elif came:
            self.log_on_by(number, place, meaning(came[1]), now)
        return True

    def log_on_by(self, number: int, place: Place, said: tuple, now: int) -> None:
        if place.stage[0] == "asking":
            if said[0] != "word":
                place.stage = ("naming",)
                self.say(number, "no password")
                return
            self.say(number, "password taken")
            said = ("both", place.stage[1], said[1])
        if said[0] == "name":
            place.stage = ("asking", said[1])
            self.say(number, "enter password")
        elif said[0] == "both":
            place.stage = ("waiting", said[1], said[2])
            place.left, place.due = max(0, place.deadline - now), now
        else:
            self.say(number, "type logon")

    def has_turn(self, place: Place, now: int) -> bool:
        """Whether the host may be asked about a guess: none at its name from its address is judged, waits for longer or holds it back."""
        name = place.stage[1]
        rivals = [
            item
            for item in self.places
            if item
            and item.address == place.address
            and item.stage[0] in ("waiting", "judged")
            and item.stage[1] == name
        ]
        return not any(
            item.stage[0] == "judged" or item.due < place.due for item in rivals
        ) and not any(
            (item.name, item.address) == (name, place.address) and now < item.free
            for item in self.guessed
        )

    def guess(self, name: bytes, address: int, now: int) -> None:
        """Remembers a guess about which the host is asked."""
        item = self.guessed_at(name, address)
        if item is None:
            item = Guessed(name, address)
            over = (
                number
                for number, other in enumerate(self.guessed)
                if max(other.until, other.free) <= now
            )
            number = next(over, len(self.guessed))
            self.guessed[number : number + 1] = [item]
            del self.guessed[: max(0, len(self.guessed) - MOST_GUESSED)]
        owed = min(max(0, item.until - now), 190000) + 10000
        item.until = now + owed
        item.free = now + next((wait for most, wait in WAITS if owed < most), 4000)

    def guessed_at(self, name: bytes, address: int) -> Guessed | None:
        return next(
            (item for item in self.guessed if (item.name, item.address) == (name, address)), None
        )

    def wake(self, number: int, now: int) -> None:
        place = self.places[number]
        if not place:
            return
        kind = place.stage[0]
        if kind in ("naming", "asking") and place.deadline <= now:
            self.end(number, "too late")
        elif kind == "waiting" and self.has_turn(place, now):
            self.guess(place.stage[1], place.address, now)
            place.stage = ("judged", *place.stage[1:])
            self.out.append(
                f"ASKS {number:04X} {written(place.stage[1])} {written(place.stage[2])}"
            )
        elif kind == "refused" and place.due <= now:
            if place.tries >= MOST_TRIES:
                self.end(number, "refused")
            else:
                place.stage, place.deadline = ("naming",), now + min(place.left, TIME_TO_LOG_ON)
                self.say(number, "refused")
        elif kind == "on" and place.stage[1].terminal != number:
            self.end(number, *(["takes over"] if place.stage[1].terminal is not None else []))

    def log_on(self, number: int, place: Place, user: Account, now: int) -> None:
        if item := self.guessed_at(user.name, place.address):
            item.until = now + max(0, min(item.until - now - 10000, 200000))
        place.stage, user.terminal = ("on", user), number
        if not user.is_on and not user.is_busy:
            user.is_busy = True
            self.note(number, "LOGS", user)
            self.type(user, b"LOGON")
            return
        self.note(number, "BACK", user)
        self.say(number, "reconnected")
        self.out += [
            f"BACK {number:04X} {written(minute)} {written(text)}" for minute, text in user.kept
        ]

    def strangers(self) -> int:
        return sum(1 for place in self.places if place and place.stage[0] != "on")

    def busiest(self) -> object:
        strangers = [
            (number, item)
            for number, item in enumerate(self.places)
            if item and item.stage[0] != "on"
        ]
        counts = [
            sum(1 for _, other in strangers if other.address == item.address)
            for _, item in strangers
        ]
        return max(
            (count, item.deadline, number) for count, (number, item) in zip(counts, strangers)
        )[2]

    # --- what is to be done ---

    def give(self, number: int, data: bytes) -> None:
        self.out.append(f"GIVE {number:04X} {written(data)}")

    def say(self, number: int, notice: str) -> None:
        self.give(number, NOTICES[notice])

    def end(self, number: int, *notices: str) -> None:
        for notice in notices:
            self.say(number, notice)
        self.places[number] = None
        self.out.append(f"ENDS {number:04X}")

    def type(self, user: Account, line: bytes) -> None:
        self.out.append(f"TYPE {self.accounts.index(user):04X} {written(line)}")

    def note(self, number: int, word: str, user: Account | None) -> None:
        self.out.append(
            f"NOTE {number:04X} {word} " + (f"{self.accounts.index(user):04X}" if user else "-")
        )

    def findings(self) -> list[str]:
        """All that is to be done, and at which places more may come."""
        read = [
            item for item in self.reading if not (self.places[item] and self.places[item].waiting)
        ]
        lines = [
            *self.out,
            *(f"READ {item:04X}" for item in read if self.places[item]),
            f"THAT {self.strangers():04X}",
        ]
        self.reading, self.out = [item for item in self.reading if item not in read], []
        return lines


def read_bytes(word: str) -> bytes:
    return b"" if word == "-" else bytes.fromhex(word)


def written(data: bytes) -> str:
    return data.hex().upper() or "-"


def answers(lines: TextIO) -> Iterator[list[str]]:
    """What the desk says to each line."""
    names, desk = [], None
    for line in lines:
        word, now, *words = line.split()
        if word == "USER":
            names.append(read_bytes(words[0]))
        elif word == "ROOM":
            desk = LogonServer(names, int(words[0], 16))
            yield ["THAT 0000"]
        else:
            desk.apply(word, int(now, 16), words)
            yield desk.findings()


def stand_in(words: list[str]) -> None:
    """Plays the program with the words `logondesk`."""
    for findings in answers(sys.stdin):
        sys.stdout.write("\n".join(findings) + "\n")
        sys.stdout.flush()


# --- the program against this ---


def some_lines(seed: object, count: int) -> Iterator:
    """Lines of a few people and strangers, at random: mostly sensible, and noise."""
    dice, now, room = random.Random(seed), 0, 6
    names = [b"ALICE", b"BOB", b"OPER"]
    asked = [(item, password) for item in (*names, b"NOBODY") for password in (b"GOOD", b"BAD")]
    texts = [b"logon ", b"LOGON alice", b"LOGON bob GOOD", b"GOOD", b"BAD", b"", b"MSG bob hi", b"#cp q x", b"  #Cp msg a b c",
             b"\xff\xf4", b"\xff\xfa\x18x\xff\xff\xf0\xff\xf0", b"\xff\xfd\x03", b"\xff\xfb\x1f", b"\xff\xf6", b"ab\x08c\x7f",
             b"\xff\xf7\xff\xf8", b"x" * 140, bytes(dice.randrange(256) for _ in range(40))]  # fmt: skip
    yield from (f"USER 0 {written(name)}" for name in names)
    yield f"ROOM 0 {room:X}"
    for _ in range(count):
        now += dice.choice((0, 0, 1, 1, 30, 300, 3000, 30000))
        place, user = f"{dice.randrange(room):X}", f"{dice.randrange(3):X}"
        name, password = dice.choice(asked)
        data = b"".join(
            dice.choice(texts) + dice.choice((b"\r\n", b"\r", b"\n", b"\r\0", b"", b"\r\xff\xf1\n"))
            for _ in range(dice.randrange(4))
        )
        yield dice.choice((
            f"OPEN {now:X} {place} {dice.randrange(3):X}", f"CAME {now:X} {place} {written(data)}",
            f"CAME {now:X} {place} {written(b'LOGON ' + name + b' ' + password + dice.choice((b'', data)))}0D",
            f"CAME {now:X} {place} {written(data * 30)}", f"TIME {now:X}", f"TIME {now:X}",
            *[f"SAYS {now:X} {place} {int(password == b'GOOD'):X} {written(name)} {written(password)}"] * 3,
            f"SHOW {now:X} {user} {written(data)}", f"KEEP {now:X} {user} {written(b'12:00')} {written(data)}",
            f"TURN {now:X} {user} {dice.randrange(3):X}", f"DONE {now:X} {user}", f"DONE {now:X} {user}",
            f"GONE {now:X} {place}" if dice.randrange(4) == 0 else f"TIME {now:X}"))  # fmt: skip
        if dice.randrange(3) == 0:
            yield from (f"CAME {now:X} {place} {written(b'logon ' + name + b' good')}0D", f"TIME {now + 4000:X}",
                        f"SAYS {now + 4000:X} {place} 1 {written(name)} {written(b'GOOD')}", f"TURN {now + 4000:X} {user} 1",
                        f"KEEP {now + 4000:X} {user} {written(b'12:01')} {written(data)}", f"DONE {now + 4000:X} {user}")  # fmt: skip


def reported_by(program: str) -> object:
    """What a program says to each line, as `answers` has it."""

    def findings(lines: list) -> list[str]:
        done = subprocess.run(
            [program, "logondesk"],
            input="".join(f"{line}\n" for line in lines),
            capture_output=True,
            text=True,
        )
        parts = [[]]
        for line in done.stdout.splitlines():
            parts[-1].append(line)
            if line.startswith("THAT"):
                parts.append([])
        return parts[:-1]

    return findings


def try_program(check: Callable, program: str, seeds: int = 4, count: int = 4000) -> None:
    """The program answers lines at random as the one here does."""
    for seed in range(seeds):
        lines = list(some_lines(seed, count))
        wanted = [line for findings in answers(lines) for line in findings]
        done = subprocess.run(
            [program, "logondesk"],
            input="".join(f"{line}\n" for line in lines),
            capture_output=True,
            text=True,
        )
        found = done.stdout.splitlines()
        first = next(
            (place for place, (a, b) in enumerate(zip(found, wanted)) if a != b),
            min(len(found), len(wanted)),
        )
        holds = done.returncode == 0 and found == wanted
        check(
            f"the desk on {count} lines at random, {seed}",
            holds,
            f"answer {first} of {len(wanted)}",
            *found[first : first + 3],
            *wanted[first : first + 3],
        )
        is_full = (
            sum(item.startswith("TYPE") for item in wanted) > 100
            and sum(item.startswith("BACK") for item in wanted) > 20
        )
        check("which have much of all", is_full)


class Talk:
    """Somebody who says the stand-in, or a program, lines one after another, and does as a host does."""

    def __init__(self, program: str = None) -> None:
        self.lines, self.places, self.typed, self.asked = [], {}, [], []
        self.process = program and subprocess.Popen(
            [program, "logondesk"], stdin=subprocess.PIPE, stdout=subprocess.PIPE, text=True
        )
        self.answers = answers(iter(lambda: self.lines.pop(0), None))

    def findings(self, line: bytes) -> list[str]:
        if not self.process:
            self.lines.append(line)
            return next(self.answers)
        self.process.stdin.write(line + "\n")
        self.process.stdin.flush()
        return self.until_that()

    def until_that(self) -> object:
        lines = [self.process.stdout.readline().strip()]
        while not lines[-1].startswith("THAT"):
            lines.append(self.process.stdout.readline().strip())
        return lines

    def begin(self, names: list[bytes], room: int) -> None:
        for line in (f"USER 0 {written(name)}" for name in names):
            if self.process:
                self.process.stdin.write(line + "\n")
            else:
                self.lines.append(line)
        self.room = room
        self.findings(f"ROOM 0 {room:X}")

    def say(self, line: bytes) -> None:
        """Says a line, and notes the effect of it."""
        for findings in self.findings(line):
            word, number, *words = findings.split()
            if word == "ENDS":
                self.places.pop(int(number, 16), None)
            elif word == "TYPE":
                self.typed.append((int(number, 16), read_bytes(words[0])))
            elif word == "ASKS":
                self.asked.append((number, *words))

    def come(self, now: int, address: int) -> tuple:
        place = next(number for number in range(self.room) if number not in self.places)
        self.places[place] = token = object()
        # as the sum that a host makes of an address
        self.say(f"OPEN {now:X} {place:X} {address * 0x9E3779B97F4A7C15 % 2**56:X}")
        return place, token

    def is_there(self, place: Place, token: object) -> bool:
        return self.places.get(place) is token

    def type(self, now: int, place: Place, text: str) -> None:
        self.say(f"CAME {now:X} {place:X} {written(text)}")

    def judge(self, now: int, password: str) -> None:
        for number, name, given in self.asked:
            self.say(f"SAYS {now:X} {number} {int(read_bytes(given) == password):X} {name} {given}")
        self.asked.clear()

    def close(self) -> None:
        if self.process:
            self.process.communicate()


def try_honest(check: Callable, program: str = None) -> None:
    """Among 67 strangers a second and others who guess at his name, somebody who types a step each five seconds is on each time, also where
    they come from his own address."""
    for what, origin, count in (("elsewhere", 2, 20), ("his address", 1, 4)):
        for tries in range(5):
            talk = Talk(program)
            talk.begin([b"ALICE", b"BOB"], MOST_STRANGERS + 3)
            guessers = [talk.come(0, 100 + number if origin != 1 else 1) for number in range(count)]
            mine = talk.come(10 * tries, 1)
            was_on = None
            for now in range(15, 32000, 15):
                talk.come(now, origin)
                for guesser in guessers:
                    if talk.is_there(*guesser) and now % 500 == 0:
                        talk.type(now, guesser[0], b"LOGON ALICE GUESS\r")
                if now in (4995, 9990) and talk.is_there(*mine):
                    talk.type(now, mine[0], b"LOGON ALICE\r" if now == 4995 else b"WONDER\r")
                talk.judge(now, b"WONDER")
                if talk.typed:
                    was_on = now
                    break
            talk.close()
            # guesses from elsewhere do not delay him; at his address he comes after those before him
            most = 9990 + (4100 * (count + 1) if origin == 1 else 100)
            check(
                f"he is on among strangers of {what}, {tries}",
                was_on is not None and was_on <= most,
                f"{was_on}",
            )


def try_class(check: Callable, program: str = None) -> None:
    """While somebody behind their router guesses at one name by twelve connections, thirty people behind it log on at once."""
    talk = Talk(program)
    names = [b"PERSON%d" % number for number in range(30)]
    talk.begin(names, MOST_STRANGERS + 31)
    guessers = [talk.come(0, 1) for _ in range(12)]
    guesses, seconds = 0, {}
    for now in range(100, 24000, 100):
        for number, guesser in enumerate(guessers):
            if not talk.is_there(*guesser):
                guessers[number] = talk.come(now, 1)
            if now % 1000 == 0:
                talk.type(now, guessers[number][0], b"LOGON PERSON0 GUESS\r")
        if now == 12000:
            for name in names:
                talk.type(now, talk.come(now, 1)[0], b"LOGON %s WONDER\r" % name)
        talk.say(f"TIME {now:X}")
        guesses += sum(read_bytes(given) == b"GUESS" for _, _, given in talk.asked)
        talk.judge(now, b"WONDER")
        for number, _ in talk.typed:
            seconds.setdefault(number, (now - 12000) / 1000)
    talk.close()
    others = [seconds.get(number, 60) for number in range(1, 30)]
    check("whoever is not guessed at is on at once", max(others) < 0.1, f"{others}")
    check("one name is guessed at each four seconds", guesses <= 6 + 24 / 4, f"{guesses}")
