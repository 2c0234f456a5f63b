"""What a saved state shows (`SAVE` and `VIEW`, docs/man/vm370.1): the machines of all users, or that of one, as the program has them.
Bytes are only read here: which fields there are, and in which order, is said by the definitions from which the prover knows them
(state_fields.py). A byte too many or too few is refused."""
from __future__ import annotations

from collections import namedtuple
from collections.abc import Callable, Iterable, Iterator
from array import array
import struct
from typing import Any, NamedTuple

from gathjumli.cli import Failure, REFUSED
from gathjumli.state_fields import FIELDS
from gathjumli.state_pieces import Pieces

PAGE = 4096
# storage keys are of blocks of so many bytes
BLOCK = 2048
NUMBER = struct.Struct(">Q")
ZERO_PAGE = bytes(PAGE)
# so many values of a list are read at once
MOST_AT_ONCE = 1024
MALFORMED = "a state is cut, or not as the program writes it"


def malformed() -> Failure:
    return Failure(REFUSED, MALFORMED)


class Reader:
    """Bytes that are read from the first one on, while they arrive in pieces."""

    def __init__(self, pieces: Iterable[bytes]) -> None:
        self.pieces = iter(pieces)
        self.data = b""
        self.at = 0
        # where what was not cut off begins, and what of it was before the data
        self.begun = 0
        self.before: list[bytes] = []
        self.size = 0

    def need(self, count: int) -> None:
        """Has so many bytes there."""
        while len(self.data) - self.at < count:
            piece = next(self.pieces, None)
            if piece is None:
                raise malformed()
            self.size += len(piece)
            self.before.append(self.data[self.begun : self.at])
            self.data = self.data[self.at :] + piece
            self.at = self.begun = 0

    def take(self, count: int) -> bytes:
        if self.at + count > len(self.data):
            self.need(count)
        piece = self.data[self.at : self.at + count]
        self.at += count
        return piece

    def number(self) -> int:
        if self.at + 8 > len(self.data):
            self.need(8)
        (found,) = NUMBER.unpack_from(self.data, self.at)
        self.at += 8
        return found

    def flag(self) -> bool:
        if self.at >= len(self.data):
            self.need(1)
        found = self.data[self.at]
        self.at += 1
        if found > 1:
            raise malformed()
        return found == 1

    def bytes(self) -> bytes:
        return self.take(self.number())

    def each(self, one: Callable[[], Any]) -> list:
        found = []
        while self.flag():
            found.append(one())
        return found

    def option(self, one: Callable[[], Any]) -> Any:
        return one() if self.flag() else None

    def named(self, names: tuple[str, ...]) -> str:
        """One of some names, by its number."""
        number = self.number()
        if number >= len(names):
            raise malformed()
        return names[number]

    def many(self, size: int) -> Iterator[tuple[int, int]]:
        """The places of a list of values that have so many bytes each, with a 1 before each: where some are, and how many."""
        step = size + 1
        while True:
            self.need(1)
            if not self.data[self.at]:
                self.at += 1
                return
            self.need(step)
            there = min((len(self.data) - self.at) // step, MOST_AT_ONCE)
            marks = self.data[self.at : self.at + there * step : step]
            end = marks.find(b"\0")
            count = there if end < 0 else end
            if marks[:count] != b"\1" * count:
                raise malformed()
            yield self.at, count
            self.at += count * step

    def numbers(self) -> list[int]:
        found: list[int] = []
        for at, count in self.many(8):
            found += struct.unpack_from(">" + "xQ" * count, self.data, at)
        return found

    def flags(self) -> bytes:
        """A list of flags, each a byte."""
        found = b"".join(self.data[at + 1 : at + 2 * count : 2] for at, count in self.many(1))
        if found.translate(None, b"\0\1"):
            raise malformed()
        return found

    def cut(self) -> bytes:
        """What was read since the last cut."""
        found = b"".join([*self.before, self.data[self.begun : self.at]])
        self.before, self.begun = [], self.at
        return found

    def finish(self) -> None:
        """Refuses bytes that are left."""
        if self.at < len(self.data) or next(self.pieces, None):
            raise malformed()


class Values:
    """Reads values as FIELDS has them: those of a definition with several fields as a tuple with their names. What is given of a
    definition is called in the place of that."""

    def __init__(self, read: Reader, given: dict[str, Callable[[], Any]]) -> None:
        self.read = read
        self.made: dict[str, Callable[[], Any]] = {
            "number": read.number,
            "flag": read.flag,
            "bytes": read.bytes,
            **given,
        }

    def value(self, name: str) -> Any:
        return self.named(name)()

    def named(self, name: str) -> Callable[[], Any]:
        if name not in self.made:
            layout = FIELDS[name]
            if isinstance(layout, list):
                self.made[name] = self.fields(name, layout)
            else:
                self.made[name] = self.of(layout)
        return self.made[name]

    def fields(self, name: str, layout: list) -> Callable[[], Any]:
        make = namedtuple(name, [field for field, _ in layout])._make  # type: ignore[misc]
        readers = [self.of(one) for _, one in layout]
        return lambda: make([reader() for reader in readers])

    def of(self, layout: Any) -> Callable[[], Any]:
        if isinstance(layout, str):
            return self.named(layout)
        read, (kind, what) = self.read, layout
        if kind == "named":
            return lambda: read.named(what)
        if layout == ("each", "number"):
            return read.numbers
        if layout == ("each", "flag"):
            return read.flags
        one = self.of(what)
        return (lambda: read.each(one)) if kind == "each" else (lambda: read.option(one))


class PackedState(NamedTuple):
    """A state of which the pieces are kept: what is before the storages, for each storage the numbers of its pages as bytes, what is
    after them; its size, and the general registers of each user."""

    head: list[tuple[int, int]]
    storages: list[tuple[int, int]]
    tail: bytes
    size: int
    general: list[tuple[int, ...]]

    def table(self, pieces: Pieces, user: int) -> array:
        """The numbers of a user's pages, 0 for one that is all zero."""
        found = array("I")
        found.frombytes(pieces.piece(*self.storages[user]))
        return found

    def data(self, pieces: Pieces) -> Iterator[bytes]:
        """The bytes of the state, in parts."""
        yield b"".join(pieces.piece(number, size) for number, size in self.head)
        for user in range(len(self.storages)):
            table = self.table(pieces, user)
            parts = [b"\1", NUMBER.pack(PAGE * len(table))]
            for page in table:
                parts.append(b"\1" + pieces.piece(page, PAGE) if page else b"\0")
            yield b"".join(parts)
        yield b"\0" + self.tail

    def used(self, pieces: Pieces) -> Iterator[int]:
        """The numbers of all pieces that it needs."""
        yield from (number for number, _ in self.head)
        for user, (number, _) in enumerate(self.storages):
            yield number
            yield from self.table(pieces, user)


class UserView:
    """What a state has of one user, by name, of the frames and of his storage."""

    # those of all users are in no answer for one
    volumes: list[Any] = []

    def __init__(
        self, arriving: Iterable[bytes], name: str, users: dict[str, int], pieces: Pieces
    ) -> None:
        self.read = Reader(arriving)
        self.pieces = pieces
        found = Values(self.read, {"storage_bytes": self.storage}).value("user_part_bytes")
        self.users: dict[str, Any] = {name: found.user}
        # what is in frames and slots, and in which order frames are taken
        self.supply = found.supply
        # the numbers of his pages
        self.tables: dict[str, array] = {name: found.storage}
        self.read.finish()
        self.judge(users)

    def judge(self, users: dict[str, int]) -> None:
        """Refuses a user who is none of the directory, or has other storage keys."""
        for user in self.users.values():
            number = user.devices.user
            if number >= len(users):
                raise malformed()
            if len(user.keys) != list(users.values())[number] * PAGE // BLOCK:
                raise malformed()

    def used(self) -> Iterator[int]:
        """The numbers of all pieces that it needs."""
        for table in self.tables.values():
            yield from table

    def page(self, name: str, number: int) -> bytes:
        """A page of a user's storage."""
        found = self.tables[name][number]
        return self.pieces.piece(found, PAGE) if found else ZERO_PAGE

    def storage_of(self, name: str, low: int, count: int) -> bytes:
        """So many bytes of a user's storage from an address on, fewer where it ends."""
        last = min((low + count - 1) // PAGE, len(self.tables[name]) - 1)
        whole = b"".join(self.page(name, number) for number in range(low // PAGE, last + 1))
        return whole[low % PAGE :][:count]

    def storage(self) -> array:
        """The numbers of the pages of a storage, each of which has a mark before it, that alone if it is all zero."""
        read, keep = self.read, self.pieces.keep
        found = array(
            "I", [keep(read.take(PAGE)) if read.flag() else 0 for _ in range(read.number() // PAGE)]
        )
        # they are kept as pages
        read.cut()
        return found


class StateView(UserView):
    """The parts of a state by name. Of volumes there is how full each cylinder is."""

    def __init__(self, arriving: Iterable[bytes], users: dict[str, int], pieces: Pieces) -> None:
        read = self.read = Reader(arriving)
        self.pieces = pieces
        self.head: list[tuple[int, int]] = []
        whole = Values(read, {"record_bytes": self.record})
        self.tracks = whole.named("cylinder_bytes")
        supply = whole.named("supply_bytes")
        given = {"cylinder_bytes": self.cylinder, "storage_bytes": self.storage}
        given["supply_bytes"] = lambda: self.before_storages(supply)
        values = Values(read, given)
        self.lines = values.value("lines_bytes")
        system = values.value("system_bytes")
        read.finish()
        self.volumes, self.supply = system.volumes, system.pool.supply
        self.users = dict(zip(users, system.users))
        self.tables = dict(zip(users, system.pool.storages))
        if not len(users) == len(system.users) == len(system.pool.storages):
            raise malformed()
        self.judge(users)
        self.state = self.packed(read.cut())

    def used(self) -> Iterator[int]:
        return self.state.used(self.pieces)

    def packed(self, tail: bytes) -> PackedState:
        storages = [self.keep(table.tobytes()) for table in self.tables.values()]
        general = [tuple(user.machine.cpu.general) for user in self.users.values()]
        # the list of storages ended with a mark
        return PackedState(self.head, storages, tail[1:], self.read.size, general)

    def keep(self, piece: bytes) -> tuple[int, int]:
        return self.pieces.keep(piece), len(piece)

    def cut_head(self) -> None:
        self.head.append(self.keep(self.read.cut()))

    def before_storages(self, supply: Callable[[], Any]) -> Any:
        found = supply()
        self.cut_head()
        return found

    # --- volumes ---

    def cylinder(self) -> int:
        """How many bytes of records a cylinder has."""
        self.cut_head()
        return sum(sum(track.records) for track in self.tracks())

    def record(self) -> int:
        """How many bytes a record has."""
        return sum(len(self.read.bytes()) for _ in FIELDS["record_bytes"])
