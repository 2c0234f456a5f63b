"""Sessions about pages that come one at a time, for test-transcripts: users of large storage on few frames, who are loaded and
run to their end as machines of their own are; and channel programs of fixed sequences where frames and slots are few, of which
it is reckoned here, from docs/MACHINE.md alone, which pages they touch and whether there is room for each."""
from __future__ import annotations

from collections.abc import Iterator
import itertools
import random
import re
import tempfile

PAGE = 4096
SIZES = {"512K": 14, "1M": 15, "4M": 17}
FEW = (16, 64)
MANY = (64, 256)
WALKED = "LOADED, AND WALKED"


def ebcdic(text: str) -> bytes:
    return text.encode("cp037")


def words(*numbers: object) -> str:
    """Words of four bytes."""
    return b"".join(number.to_bytes(4, "big") for number in numbers)


def ccw(code: int, address: int, flags: int = 0, count: int = 1) -> object:
    """A channel command word."""
    return words(code << 24 | address, flags << 24 | count)


# --- users of large storage ---


def walker(step: object, high: object) -> object:
    """A program for 200: it stores the address at each step below a high one, looks at all of them, writes the line whose
    command word is at the high address on the console, and stops."""
    code = (
        f"41200001 892000{step:02X} 58500244 1815 1B12 47C0021C 50110000 47F0020E 1815 1B12 47C00230 59110000 4780021E"
        f" 47F0022C 50500048 9C000009 9D000009 47200238 82000248 {high:08X} 00020000 0000600D"
    )
    return bytes.fromhex(code)


def written(high: object) -> object:
    """What is at the high address: the command word of the line, and its text."""
    text = ebcdic(WALKED)
    return (ccw(9, high + 8, 0x20, len(text)) + text).ljust(80, b"\0")


class Large:
    """A user of so much storage is loaded from a reader or a disk and runs to his end, on so many frames and slots; what he is
    shown is what a machine of its own shows."""

    number = 1

    def __init__(
        self, session: object, volume: object, size: object, way: object, places: object
    ) -> None:
        step = SIZES[size]
        self.place = f"{size} from a {way} on {places[0]} frames and {places[1]} slots"
        self.high = (32 << step) - PAGE
        devices = "CONSOLE 009 3215\nSPOOL 00C READER\nSPOOL 00D PUNCH\nSPOOL 00E PRINTER\nMDISK 190 3330 000 001 LARGE W\n"
        disk = volume("LARGE", 1).write(0, self.records(step))
        self.user = session(
            self.place, f"USER LARGE PW {size}\n{devices}", None, [disk], places, "LARGE"
        )
        self.bare = session(self.place, None, size, [disk])
        for one in (self.user, self.bare):
            (self.from_cards if way == "reader" else self.from_disk)(one, step)
            one.script += [f"RUN {one.user} 2000", f"SERVE {one.user} 009", f"RUN {one.user} 100"]
            one.script += [
                f"LINE {one.user} #CP DISPLAY {at:X}"
                for at in (0x40, self.high - (1 << step), self.high)
            ]

    def records(self, step: object) -> object:
        """After a PSW the first record has a word that reads the second record to where the next words are."""
        first = words(0, 0x200) + ccw(6, 0x100, 0x60, 16) + ccw(8, 0x100)
        parts = (
            first,
            ccw(6, 0x200, 0x60, 80) + ccw(6, self.high, 0x20, 80),
            walker(step, self.high),
            written(self.high),
        )
        return "0.0=" + "+".join(
            f"00000000{item:02X}::{data.hex()}" for item, data in enumerate(parts, 1)
        )

    def from_disk(self, one: object, step: object) -> None:
        one.script += [f"LINE {one.user} LOGON", f"LINE {one.user} IPL 190"]

    def from_cards(self, one: object, step: object) -> None:
        """Three cards are punched, and come to the user's own reader."""
        loader = (words(0, 0x200) + ccw(2, 0x200, 0x60, 80) + ccw(2, self.high, 0x20, 80)).ljust(
            80, b"\0"
        )
        one.script += [
            f"LINE {one.user} {item}"
            for item in ("LOGON", f"SPOOL 00D TO {one.user}", "STORE 100 9C00000D")
        ]
        stored = ccw(1, 0x840, 0x60, 80) + ccw(1, 0x890, 0x60, 80) + ccw(1, 0x8E0, 0x20, 80)
        stored = stored.ljust(64, b"\0") + loader + walker(step, self.high) + written(self.high)
        lines = (
            (0x800 + at, stored[at : at + 16].hex().upper()) for at in range(0, len(stored), 16)
        )
        one.script += [f"LINE {one.user} STORE {at:X} {digits}" for at, digits in lines]
        one.script += [
            f"LINE {one.user} {name}"
            for name in ("STORE 48 00000800", "STORE PSW 00000000 00000100", "BEGIN")
        ]
        one.script += [f"RUN {one.user} 1", f"SERVE {one.user} 00D"]
        one.script += [f"LINE {one.user} #CP {name}" for name in ("CLOSE 00D", "IPL 00C")]

    def difference(self, player: object) -> object:
        """What the user is shown otherwise than the machine."""
        shown = []
        for one in (self.user, self.bare):
            status, findings, errors, volumes = player.play(one, one.size)
            if status or volumes != one.volumes:
                return f"{one.user}: status {status}: {errors}"
            shown.append(re.sub(r"\bBARE\b", "LARGE", findings).splitlines())
        for number, (line, wanted) in enumerate(itertools.zip_longest(*shown), 1):
            if line != wanted:
                return f"line {number}: {line!r}, and a machine of its own shows {wanted!r}"
        ends = f"LARGE: {WALKED}" in shown[0] and "LARGE: STOPPED DISABLED WAIT" in shown[0]
        return None if ends else f"it is not walked: {shown[0][-6:]}"


def large(session: object, volume: object) -> Iterator:
    for size, way, places in itertools.product(SIZES, ("reader", "disk"), (MANY, FEW)):
        yield Large(session, volume, size, way, places)


# --- which pages a program touches ---


def pages_of(address: int, count: int) -> set:
    return set(range(address // PAGE, (address + count - 1) // PAGE + 1)) if count else set()


class Walk:
    """The walk of a channel program over a copy of storage, on a console, reader or punch: which pages it touches. Programs here
    have no indirect lists, and suppress incorrect length."""

    def __init__(self, storage: object, given: object) -> None:
        self.storage, self.given, self.pages = bytearray(storage), list(given), set()

    def word(self, at: int) -> tuple:
        self.pages |= pages_of(at, 8)
        word = self.storage[at : at + 8]
        return word[0], int.from_bytes(word[1:4], "big"), word[4], int.from_bytes(word[6:], "big")

    def run(self, at: int, unit: object, is_first: bool = True) -> None:
        """From the word at this address on; a jump is none where it is first."""
        is_jump = is_first
        while True:
            code, address, flags, count = self.word(at)
            if code % 16 == 8:
                if is_jump:
                    return
                at, is_jump = address, True
                continue
            at = self.command(at, unit, code, address, flags, count)
            if at is None:
                return
            is_jump = False

    def command(
        self, at: int, unit: object, code: int, address: int, flags: object, count: int
    ) -> object:
        """A command with its data chain; the address of the next, where there is one."""
        if count == 0 or flags & 0x0B:
            return None
        if code in (0x02, 0x0A):
            if not self.given:
                return None
            data, most = self.given.pop(0), None
        else:
            data, most = None, 132 if unit == "009" else 80
        left = len(data) if data is not None else most
        while True:
            moved = min(left, count)
            if data is not None and moved and not flags & 0x10:
                self.pages |= pages_of(address, moved)
                self.storage[address : address + moved] = data[len(data) - left :][:moved]
            elif data is None:
                self.pages |= pages_of(address, moved)
            left -= moved
            if moved < count or not flags & 0x80:
                break
            at += 8
            _, address, flags, count = self.word(at)
            if count == 0 or flags & 0x0B:
                return None
            if left == 0:
                return None
        # (a word that chains data is no end of a command that goes on)
        return at + 8 if flags & 0x40 and not flags & 0x80 else None


# --- programs where room is short ---


class Short:
    """Two users, of whom B's pages stand where A's program may want to come: whether it is reported that frames are out, and what is
    seen then, and when B has gone."""

    number = 1

    def __init__(self, seed: object, session: object) -> None:
        self.place, self.next, self.session = (
            f"touched {seed}",
            random.Random(370_000 + seed),
            session,
        )
        self.storage, self.lines, self.script = bytearray(64 * 1024), {"A": set(), "B": set()}, []
        self.places = self.next.randint(16, 20), self.next.randint(0, 30)
        self.kind = ("console", "reader", "cards", "console", "punch")[seed % 5]
        self.unit = {"console": "009", "punch": "00D"}.get(self.kind, "00C")
        self.given, self.typed = [], []
        # which pages are needed together; none of a program that an input could change
        self.together = None
        for user in "AB":
            self.type("LOGON", user=user)
        getattr(self, self.kind)()
        self.fill()
        if self.kind != "cards":
            self.store(0x48, words(self.start))
            self.store(0x100, bytes.fromhex(f"9D000{self.unit}9C000{self.unit}9D000{self.unit}"))
            self.type("#CP STORE PSW 00000000 00000100", "#CP BEGIN", *self.typed)
            self.script.append("RUN A 2")

    def type(self, *lines: object, user: str = "A") -> None:
        self.script += [f"LINE {user} {line}" for line in lines]

    def store(self, address: int, data: bytes, user: str = "A") -> None:
        """Bytes are stored, line by line of sixteen."""
        if user == "A":
            self.storage[address : address + len(data)] = data
        for at in range(0, len(data), 16):
            self.type(f"#CP STORE {address + at:X} {data[at:at + 16].hex().upper()}", user=user)
            self.lines[user] |= {
                (address + at) // 16 * 16,
                (address + min(at + 15, len(data) - 1)) // 16 * 16,
            }

    def area(self, most: int) -> tuple:
        """Where data are: often across a page end."""
        page, count = self.next.randrange(1, 15), self.next.randint(1, most)
        return PAGE * page + self.next.choice([0x300, 0x700, PAGE - count // 2 - 1]), count

    def write(self, code: int, flags: object) -> tuple:
        """A write, one in three of two parts; the pages of its areas."""
        most = 60 if code == 9 else 40
        address, count = self.area(most)
        if self.next.randrange(3):
            return ccw(code, address, flags | 0x20, count), pages_of(address, count)
        other, more = self.area(most)
        return (
            ccw(code, address, 0xA0, count) + ccw(0, other, flags | 0x20, more),
            pages_of(address, count) | pages_of(other, more),
        )

    def program(self, code: int, read: object) -> None:
        """A program that begins with a read, goes to words elsewhere, and writes there. What is read lies before them, or reaches
        into the count of the first: then an input could change it. Of a punch there is no read."""
        self.start = PAGE * self.next.randrange(1, 15) + 0x100
        there = PAGE * self.next.randrange(1, 15) + 0x200
        first, pages = (
            self.write(code, 0x40)
            if code
            else (ccw(read, PAGE + 0x700, 0x60, 80), pages_of(PAGE + 0x700, 80))
        )
        if len(first) == 8 and self.next.randrange(2) == 0:
            first = first[:6] + (self.next.randint(1, 60)).to_bytes(2, "big")
            pages |= pages_of(int.from_bytes(first[1:4], "big"), first[7])
        last, others = (
            self.write(code, 0)
            if code
            else (ccw(read, 2 * PAGE + 0x700, 0x20, 80), pages_of(2 * PAGE + 0x700, 80))
        )
        pages |= others | pages_of(self.start, 16) | pages_of(there, len(first) + len(last))
        begin = ccw(8, there)
        if read and self.given:
            length = len(self.given[0])
            how = self.next.randrange(3)
            count = length if how == 0 else 120 if how == 1 else length
            address = there + 8 - count if how < 2 else PAGE * self.next.randrange(1, 15) + 0x900
            begin = ccw(read, address, 0x60, count) + begin
            pages |= pages_of(self.start, 16) | pages_of(address, count)
            is_open = how < 2
        else:
            begin, is_open = (
                ccw(code, *self.small()) if code else ccw(3, 0, 0x60, 1)
            ) + begin, False
            pages |= pages_of(int.from_bytes(begin[1:4], "big"), begin[7]) if code else {0}
        self.store(self.start, begin)
        self.store(there, first + last)
        self.together = None if is_open else pages

    def small(self) -> tuple:
        address, count = self.area(20)
        return address, 0x60, count

    def console(self) -> None:
        length = self.next.randint(1, 40)
        if self.next.randrange(4):
            self.typed = ["".join(self.next.choice("ABCDEFGHI") for _ in range(length))]
            self.given = [ebcdic(item) for item in self.typed]
        self.program(9, 0x0A)

    def punch(self) -> None:
        self.program(1, None)

    def deck(self, *cards: object) -> None:
        """Cards are punched, and come to A's own reader."""
        self.type("#CP SPOOL 00D TO A")
        last = len(cards) - 1
        self.store(
            0x400,
            b"".join(
                ccw(1, 0x800 + 80 * number, 0x60 if number < last else 0x20, 80)
                for number in range(len(cards))
            ),
        )
        self.store(0x800, b"".join(cards))
        self.store(0x48, words(0x400))
        self.store(0x100, bytes.fromhex("9C00000D"))
        self.type("#CP STORE PSW 00000000 00000100", "#CP BEGIN")
        self.script += ["RUN A 1", "SERVE A 00D", "RUN A 1"]
        self.type("#CP CLOSE 00D")
        self.given = [bytes(card) for card in cards]

    def reader(self) -> None:
        text = lambda: ebcdic("".join(self.next.choice("ABCDEFGHI") for _ in range(80)))
        self.deck(text(), text(), text())
        self.program(None, 2)

    def cards(self) -> None:
        """A deck for IPL: its words read the second card to words elsewhere, or go on by themselves."""
        there = PAGE * self.next.randrange(1, 15) + self.next.choice([0x100, PAGE - 8, PAGE - 40])
        area, other = (
            PAGE * self.next.randrange(1, 15) + self.next.choice([0x300, PAGE - 30])
            for _ in range(2)
        )
        last = ccw(2, other, 0x20, 80)
        if self.next.randrange(2):
            head, second = ccw(2, there, 0x60, 80) + ccw(8, there), ccw(2, area, 0x60, 80) + last
        else:
            head, second = ccw(2, area, 0x60, 80) + last, b"DATA"
        card = lambda data: data.ljust(80, b"\x40")
        self.deck(card(words(0, 0x100) + head), card(second), card(b"THIRD"), card(b"FOURTH"))

    def fill(self) -> None:
        """B's pages take all places, or all but a few."""
        own = len({line // PAGE for line in self.lines["A"]} | {0})
        room = sum(self.places) - own - self.next.randrange(4)
        for page in self.next.sample(range(64), max(min(room, 64), 0)):
            self.store(PAGE * page + 0x10, b"B", user="B")

    # what is reckoned

    def walked(self) -> object:
        """The pages that the program touches."""
        walk = Walk(self.storage, self.given)
        if self.kind == "cards":
            walk.pages.add(0)
            walk.storage[:24] = walk.given.pop(0)[:24]
            walk.run(8, self.unit, is_first=False)
        else:
            walk.run(self.start, self.unit)
        # (a word that was changed may name bytes past storage, which are in no page)
        walk.pages = {page for page in walk.pages if page * PAGE < len(self.storage)}
        return walk

    def is_out(self, there: object, taken: object, walk: object) -> object:
        """Whether there is no room: `there` has the pages of A that stand somewhere, `taken` says how many places are taken."""
        frames, slots = self.places
        wanted = walk.pages if self.together is None else self.together
        is_short = len(wanted - there) > frames + slots - taken
        return is_short or self.together is not None and len(wanted) > frames

    # what is seen

    def map(self, player: object) -> object:
        """Which pages are somewhere for each user, as a map says it; and how many."""
        with tempfile.TemporaryDirectory() as room:
            one = self.of(self.script)
            findings = player.map(one, self.places, room)
        there = {"A": set(), "B": set()}
        for user, first, last in re.findall(
            r"^(?:FRAME|SLOT)S? [0-9-]+ (\S+) ([0-9A-F]+)(?:-([0-9A-F]+))?$", findings, re.M
        ):
            there[user] |= set(range(int(first, 16) // PAGE, int(last or first, 16) // PAGE + 1))
        return there

    def of(self, script: str) -> object:
        directory = (
            "USER A PW 64K\nCONSOLE 009 3215\nSPOOL 00C READER\nSPOOL 00D PUNCH\nSPOOL 00E PRINTER\n"
            "USER B PW 256K\n"
        )
        one = self.session(self.place, directory, None, (), self.places)
        one.script = list(script)
        return one

    def event(self) -> list:
        return ["LINE A #CP IPL 00C"] if self.kind == "cards" else [f"SERVE A {self.unit}"]

    def shows(self, there: object) -> object:
        """All that is seen of both, of their storage what is in these pages."""
        script = [
            f"LINE A #CP {item}"
            for item in (
                "DISPLAY PSW",
                "QUERY FILES",
                *(f"DISPLAY G{number}" for number in range(16)),
            )
        ]
        for user in "AB":
            script += [
                f"LINE {user} #CP DISPLAY {at:X}"
                for at in sorted(self.lines[user])
                if at // PAGE in there[user]
            ]
            script += [f"LINE {user} #CP DISPLAY K{at * PAGE:X}" for at in sorted(there[user])]
        return script

    def difference(self, player: object) -> str | None:
        """What is otherwise than reckoned, or than if the event had come only when B had gone."""
        there, walk = self.map(player), self.walked()
        for page in walk.pages:
            self.lines["A"] |= set(range(PAGE * page, PAGE * page + PAGE, 0x100))
        is_out = self.is_out(there["A"], sum(map(len, there.values())), walk)
        later = ["LINE B LOGOFF", *self.event(), *([] if self.kind == "cards" else ["RUN A 1"])]
        later += self.shows({"A": set(range(16)), "B": set()})
        shows = self.shows(there)
        findings = self.findings(player, self.script + self.event() + shows + later)
        at = len(self.findings(player, self.script))
        if (findings[at : at + 1] == ["= A FRAMES"]) != is_out:
            return f"{findings[at:at + 1]}, and frames are out: {is_out}; {self.places}, {sorted(walk.pages - there['A'])}"
        if not is_out:
            return None
        wanted = self.findings(player, self.script + shows + later)
        for number, (line, other) in enumerate(
            itertools.zip_longest(findings[at + 1 :], wanted[at:]), 1
        ):
            if line != other:
                return f"line {number} after: {line!r}, and without the event {other!r}"
        return None

    def findings(self, player: object, script: str) -> list:
        status, findings, errors, _ = player.play(self.of(script), self.places)
        if status:
            raise ValueError(f"status {status}: {errors}")
        return findings.splitlines()


def touched(session: object, count: int) -> Iterator:
    for seed in range(count):
        yield Short(seed, session)
