"""Files for the operator as pages and cards: what bin/printouts makes of a transcript."""
from __future__ import annotations

from typing import Any
import re

from gathjumli.cli import Failure, REFUSED

HEADING = re.compile("== (PRT|PUN) ([0-9]+) ([A-Z][A-Z0-9]{0,7})")
CARD = 80
PAGE_LENGTH = 66
# how far the paper moves after what is printed: lines, or the next page
SPACES = {0x01: 0, 0x09: 1, 0x11: 2, 0x19: 3, 0x0B: 1, 0x13: 2, 0x1B: 3}
SKIPS = {0x89, 0x8B}


class Paper:
    """Pages of lines, each line the texts that were printed over each other."""

    def __init__(self, length: Any) -> None:
        self.length = length
        self.pages = [{}]
        self.line = 0

    def print(self, text: str) -> None:
        self.pages[-1].setdefault(self.line, []).append(text)

    def space(self, lines: Any) -> None:
        self.line += lines
        while self.line >= self.length:
            self.line -= self.length
            self.pages.append({})

    def skip(self) -> None:
        """To the first line of the next page; paper that is there and is blank stays."""
        if self.line or self.pages[-1]:
            self.pages.append({})
            self.line = 0

    def text(self) -> str:
        pages = self.pages if len(self.pages) == 1 or self.pages[-1] else self.pages[:-1]
        return "\f".join(
            "".join(
                f"{struck(page.get(number, []))}\n" for number in range(max(page, default=-1) + 1)
            )
            for page in pages
        )


def struck(texts: Any) -> Any:
    """Texts that were printed over each other as one, or with carriage returns where two characters meet."""
    texts = [text for text in (text.rstrip(" ") for text in texts) if text]
    if len(texts) < 2:
        return texts[0] if texts else ""
    merged = ""
    for column in range(max(map(len, texts), default=0)):
        met = {text[column : column + 1] for text in texts} - {"", " "}
        if len(met) > 1:
            return "\r".join(texts)
        merged += met.pop() if met else " "
    return merged


def printed(lines: Any, length: Any) -> Any:
    """The pages of a printer's entries."""
    paper = Paper(length)
    for line in lines:
        code = int(line[:2], 16) if re.match("[0-9A-F]{2}( |$)", line) else None
        if code not in SPACES and code not in SKIPS:
            raise Failure(REFUSED, f"no entry of a printer begins with {line[:3]!r}")
        if code & 3 == 1:
            paper.print(line[3:])
        if code in SKIPS:
            paper.skip()
        else:
            paper.space(SPACES[code])
    return paper.text()


def files_of(lines: Any) -> Any:
    """Each file's kind, number and user, and its lines."""
    found = []
    for line in lines:
        heading = HEADING.fullmatch(line)
        if heading and len(line) < CARD:
            found.append((heading.groups(), []))
        elif found:
            found[-1][1].append(line)
        else:
            raise Failure(REFUSED, f"{line!r} begins no file")
    return found


def page_text(kind: str, entries: Any, length: int) -> Any:
    """A file's entries as they are printed on pages, or a line a card."""
    return printed(entries, length) if kind == "PRT" else "".join(f"{entry}\n" for entry in entries)


def entries_in(body: Any) -> list:
    """The entries of a file as a program's answer has them."""
    return [line[3:] for line in body.decode(errors="surrogateescape").split("\n")[:-1]]
