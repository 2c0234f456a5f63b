"""What is in a user's storage at a moment."""
from __future__ import annotations

from array import array
from collections.abc import Iterator

from gathjumli.state_view import PAGE, UserView

ROWS = 20
ROW = 16
MOST_RANGES = 24


def characters(data: bytes) -> str:
    """EBCDIC as text, a point for what is none."""
    return "".join(sign if " " <= sign <= "~" else "." for sign in data.decode("cp037"))


def line_text(data: bytes) -> str:
    return characters(data).rstrip()


class Storage:
    """A user's storage at a moment, and what it was before."""

    def __init__(self, view: UserView, old: UserView | None, user: str) -> None:
        self.view, self.old, self.user = view, old or view, user
        self.table: array = view.tables[user]
        self.size = PAGE * len(self.table)

    def at(self, address: int, count: int) -> bytes:
        return self.view.storage_of(self.user, address, count) if address < self.size else b""

    def word(self, address: int) -> bytes | None:
        """Eight bytes of a channel program, if they are there."""
        found = self.at(address, 8)
        return found if len(found) == 8 else None

    def rows(self, address: int) -> list[list]:
        """Rows of sixteen bytes about an address: the address, the bytes, their characters, and which of them have changed."""
        low = max(0, min(address & -ROW, self.size - ROW * ROWS))
        now = self.at(low, ROW * ROWS)
        before = self.old.storage_of(self.user, low, ROW * ROWS)
        return [
            [low + at, row.hex().upper(), characters(row), differing(row, before[at : at + ROW])]
            for at in range(0, len(now), ROW)
            if (row := now[at : at + ROW])
        ]

    def first_used(self) -> int:
        """The address of the first byte that is not zero; 0 if all are."""
        number = next((number for number, page in enumerate(self.table) if page), None)
        if number is None:
            return 0
        page = self.view.page(self.user, number)
        return PAGE * number + next((at for at, byte in enumerate(page) if byte), 0)

    def changed(self) -> list[list[int]]:
        """Where it has changed: ranges of addresses, the first ones."""
        found: list[list[int]] = []
        for address in self.changed_addresses():
            if found and found[-1][1] == address:
                found[-1][1] = address + 1
            elif len(found) < MOST_RANGES:
                found.append([address, address + 1])
            else:
                break
        return found

    def changed_addresses(self) -> Iterator[int]:
        for number, (page, before) in enumerate(zip(self.table, self.old.tables[self.user])):
            if page == before:
                continue
            new, old = self.view.page(self.user, number), self.old.page(self.user, number)
            for low in range(0, PAGE, 256):
                if new[low : low + 256] != old[low : low + 256]:
                    part = range(low, low + 256)
                    yield from (PAGE * number + at for at in part if new[at] != old[at])


def differing(row: bytes, before: bytes) -> str:
    return "".join("1" if one != two else "0" for one, two in zip(row, before))
