"""A source that an option names, and its statements by the addresses of their bytes."""
from __future__ import annotations

from typing import Any
import os

from gathjumli.asm370 import PROGRAM, Refused, addresses, assembled
from gathjumli.cli import FILE_FAILED, Failure, REFUSED

LISTING_BEFORE, LISTING_AFTER = 6, 14


def source_given(path: str) -> Any:
    """The program of a source."""
    if not os.path.exists(path):
        raise Failure(FILE_FAILED, f"{path} is not there")
    try:
        return assembled(path)
    except Refused:
        raise Failure(REFUSED, f"{path} is refused: bin/asm370 says why") from None


class Source:
    """The statements of a source by the addresses of their bytes."""

    def __init__(self, program: Any) -> None:
        self.rows: list[tuple[int | None, bytes, str]] = []
        self.at: dict[int, int] = {}
        # labels by their addresses
        self.labels: dict[int, str] = addresses(program)
        for statement, section, place, data in program.lines:
            is_here = section == PROGRAM
            if is_here and (data or statement.name):
                self.at.setdefault(place, len(self.rows))
            found = (place, data) if is_here else (None, b"")
            self.rows.append((*found, statement.text.rstrip()))

    def number_of(self, address: int) -> int | None:
        """The statement whose bytes are at an address; one that only names it comes before that."""
        number = self.at.get(address)
        while number is not None and number + 1 < len(self.rows):
            place, data, _ = self.rows[number]
            if place != address or data:
                break
            number += 1
        return number

    def around(self, address: int) -> list[dict[str, Any]]:
        """The statements about an address; empty if none is at it."""
        number = self.number_of(address)
        if number is None:
            return []
        shown = self.rows[max(0, number - LISTING_BEFORE) : number + LISTING_AFTER]
        return [
            {
                "address": place,
                "code": data[:8].hex().upper(),
                "text": text,
                "here": place == address and bool(data),
            }
            for place, data, text in shown
        ]

    def labels_in(self, low: int, count: int) -> list[tuple[int, str]]:
        """The labels of so many bytes from an address on, each with its address."""
        return [(at, self.labels[at]) for at in range(low, low + count) if at in self.labels]

    def text_at(self, address: int) -> str:
        number = self.number_of(address)
        return self.rows[number][2] if number is not None else ""
