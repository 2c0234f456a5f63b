"""The listing of a program that bin/asm370 has assembled: its lines with addresses and bytes, and where each name is defined and used."""
from __future__ import annotations

from collections.abc import Iterator
from typing import Any

# statements that have a place even if they make no bytes
PLACED = {"DS", "DC", "ORG", "DSECT", "CSECT", "LTORG", ""}


def print_listing(program: Any, section_of_program: str) -> None:
    for line in listed(program, section_of_program):
        print(line)
    print()
    for line in cross_reference(program):
        print(line)


def listed(program: Any, section_of_program: str) -> Iterator[str]:
    """Of each line its address, its bytes, eight a line, its number in its file, + if a macro made it, and its text."""
    made = {id(statement): rest for statement, *rest in program.lines}
    for item in program.shown:
        section, place, data = made.get(id(item), (None, 0, b""))
        has_place = section is not None and (data or item.operation in PLACED)
        address = f"{place:06X}" if section == section_of_program else f"+{place:05X}"
        mark = "+" if item.origin.caller else " "
        yield (
            f"{address if has_place else '':6} {data[:8].hex().upper():16}"
            f" {line_of(item.origin):5}{mark} {item.text.rstrip()}"
        ).rstrip()
        for start in range(8, len(data), 8):
            yield f"{place + start:06X} {data[start : start + 8].hex().upper()}"


def line_of(origin: Any) -> int:
    return origin.pieces[0][1]


def written_at(origin: Any) -> int:
    """The line that somebody wrote: of what a macro made, that of the call."""
    while origin.caller:
        origin = origin.caller
    return line_of(origin)


def cross_reference(program: Any) -> Iterator[str]:
    """Of each name and literal its address and length, the line that defines it, and the lines that use it."""
    found = [
        (str(key if isinstance(key, str) else key[1]), symbol)
        for key, symbol in program.symbols.items()
    ]
    for name, symbol in sorted(found):
        defined = f" line {written_at(program.places[name])}" if name in program.places else ""
        lines = sorted({written_at(origin) for origin in program.uses.get(name, []) if origin})
        used = f", used in {' '.join(map(str, lines))}" if lines else ""
        yield f"{symbol.value.number:06X} {symbol.length:5d} {name:8}{defined}{used}".rstrip()
