"""A saved state with further users and minidisks: each user whom it has keeps his bytes, and each further one has those of a boot.

Nothing of a state is made here: what is put into it are bytes of another one, which the program saved when it was booted over the
longer directory. The program restores the result only if it would save that very state again (docs/PROMISES.md)."""
from __future__ import annotations

from collections.abc import Callable, Iterator
from typing import Any, NamedTuple

from gathjumli.cli import Failure, REFUSED
from gathjumli.state_view import NUMBER, PAGE, Reader, Values

# an entry of a list has a mark before it
MARK = b"\1"
# a frame or slot without a page, and a frame that is not pinned, each with its mark
FREE = b"\1\0"


class Listed(NamedTuple):
    """A list in a state: where each entry begins, with its mark, what it has, and where the mark of the end is."""

    starts: list[int]
    values: Any
    end: int


class Places(Values):
    """Reads a state, of which each list says where it is."""

    def of(self, layout: Any) -> Callable[[], Any]:
        if isinstance(layout, str) or layout[0] != "each":
            return super().of(layout)
        read = self.read
        if layout in (("each", "number"), ("each", "flag")):
            whole = super().of(layout)

            def short() -> Listed:
                values = whole()
                return Listed([], values, read.at - 1)

            return short
        one = self.of(layout[1])

        def listed() -> Listed:
            starts, values = [], []
            while True:
                start = read.at
                if not read.flag():
                    return Listed(starts, values, start)
                starts.append(start)
                values.append(one())

        return listed


class PlacedState:
    """A state with the places of its parts."""

    def __init__(self, data: bytes) -> None:
        self.data = data
        read = self.read = Reader([data])
        values = Places(read, {"volume_bytes": self.volume, "storage_bytes": self.storage})
        values.value("lines_bytes")
        # the number of users is the last of the lines
        self.lines_end = read.at
        system = values.value("system_bytes")
        read.finish()
        self.volumes, self.users, self.pool = system.volumes, system.users, system.pool

    def volume(self) -> bytes:
        """Passes a volume, which has many records; its serial number."""
        read = self.read
        serial = read.bytes()
        read.number()
        while read.flag():
            while read.flag():
                read.bytes()
                while read.flag():
                    for _ in range(3):
                        read.bytes()
        return serial

    def storage(self) -> int:
        """Passes a storage; its size."""
        size = self.read.number()
        for _ in range(size // PAGE):
            if self.read.flag():
                self.read.take(PAGE)
        return size

    def rest(self, listed: Listed, count: int) -> bytes:
        """The entries of a list after the first ones."""
        return self.data[listed.starts[count] : listed.end] if count < len(listed.starts) else b""

    def user(self, number: int) -> bytes:
        """The bytes of a user."""
        return self.entry(self.users, number)

    def storage_of(self, number: int) -> bytes:
        """The bytes of a user's storage."""
        return self.entry(self.pool.storages, number)

    def entry(self, listed: Listed, number: int) -> bytes:
        """An entry of a list, without its mark."""
        ends = [*listed.starts[1:], listed.end]
        return self.data[listed.starts[number] + 1 : ends[number]]

    def without_more(self, number: int, other: PlacedState) -> bytes:
        """The bytes of a user without the minidisks and subchannels that he has not in another state."""
        user, there = self.users.values[number], other.users.values[number]
        first = self.users.starts[number] + 1
        known = {item.address for item in there.machine.subchannels.values}
        found = user.machine.subchannels
        entries = [*zip(found.values, found.starts, [*found.starts[1:], found.end])]
        cuts = [(start, end) for item, start, end in entries if item.address not in known]
        disks = user.minidisks
        if len(disks.starts) > len(there.minidisks.starts):
            cuts.append((disks.starts[len(there.minidisks.starts)], disks.end))
        left, at = [], first
        for start, end in cuts:
            left.append(self.data[at:start])
            at = end
        return b"".join([*left, self.data[at : first + len(self.user(number))]])


def grown(state: PlacedState, booted: PlacedState) -> bytes:
    """A state with what a boot over a longer directory has more."""
    pieces, at = [], 0
    for place, until, piece in sorted(changes(state, booted), key=lambda change: change[:2]):
        pieces += [state.data[at:place], piece]
        at = until
    return b"".join([*pieces, state.data[at:]])


def changes(state: PlacedState, booted: PlacedState) -> Iterator[tuple[int, int, bytes]]:
    """What is put where: between which bytes of a state."""
    count = len(state.users.starts)
    size = NUMBER.size
    yield state.lines_end - size, state.lines_end, booted.data[booted.lines_end - size :][:size]
    yield at_end(state.users, booted.rest(booted.users, count))
    yield at_end(state.pool.storages, booted.rest(booted.pool.storages, count))
    yield from more_frames(state.pool.supply, booted.pool.supply)
    for number in range(count):
        yield from more_disks(state, booted, number)


def at_end(listed: Listed, entries: bytes) -> tuple[int, int, bytes]:
    return listed.end, listed.end, entries


def more_frames(old: Any, new: Any) -> Iterator[tuple[int, int, bytes]]:
    """Further frames and slots, which are free; the frames are the last ones in the order."""
    first, last = len(old.owners.starts), len(new.owners.starts)
    slots = len(new.slots.starts) - len(old.slots.starts)
    if last < first or slots < 0:
        raise Failure(REFUSED, "frames and slots are never taken away")
    yield at_end(old.owners, FREE * (last - first))
    yield at_end(old.slots, FREE * slots)
    yield at_end(old.pins, FREE * (last - first))
    numbers = reversed(range(first, last))
    yield at_end(old.order, b"".join(MARK + NUMBER.pack(number) for number in numbers))


def more_disks(
    state: PlacedState, booted: PlacedState, number: int
) -> Iterator[tuple[int, int, bytes]]:
    """Further minidisks of a user who is there, and a subchannel for each, in the order of their addresses."""
    old, new = state.users.values[number], booted.users.values[number]
    yield at_end(old.minidisks, booted.rest(new.minidisks, len(old.minidisks.starts)))
    there, others = old.machine.subchannels, new.machine.subchannels
    known = [subchannel.address for subchannel in there.values]
    ends = [*others.starts[1:], others.end]
    for subchannel, start, end in zip(others.values, others.starts, ends):
        if subchannel.address not in known:
            later = [
                place for place, address in zip(there.starts, known) if address > subchannel.address
            ]
            place = min([*later, there.end])
            yield place, place, booted.data[start:end]
