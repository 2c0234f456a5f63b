#!/usr/bin/env python3
"""The fields of a saved state, as commands read it (bin/lib/gathjumli/state_fields.py), are those of the definitions from which the prover
knows its bytes (crates/*/specs/Saved.antt): there is one description of a state.

    tests/texts/state_fields.py [--write]

The last line is 'N passed, M failed'; with --write the file is written anew."""
from __future__ import annotations

import glob
import os
import re
import sys
from typing import Any, Iterator, NamedTuple

sys.dont_write_bytecode = True
TOP = os.path.dirname(os.path.dirname(os.path.dirname(os.path.realpath(__file__))))
sys.path.insert(0, TOP)

from tests.lib.counting import Counts
from tests.lib.files import read_text

MADE = f"{TOP}/bin/lib/gathjumli/state_fields.py"
# the order of turns, a system, and what is saved of one user
ROOTS = ("lines_bytes", "system_bytes", "user_part_bytes")
# what crates/saved_bytes defines, and the pages of a storage
PRIMITIVES = ("number", "flag", "bytes", "storage_bytes")
HEAD = '''"""The fields of a saved state, in the order in which it has them, by the names of the definitions from which the prover knows its bytes.
Made from these by tests/texts/state_fields.py --write."""
from __future__ import annotations

# For each definition its fields, each with its name and its kind; or the kind of the definition, if it has no fields. A kind is another
# definition, "number", "flag" or "bytes"; "each" is a list, "optional" a value that may be absent, "named" a number that stands for a name.
FIELDS: dict[str, object] = {
'''


class Equation(NamedTuple):
    """NAME PATTERN = BODY"""

    pattern: str
    body: str


def equations_in(path: str) -> Iterator[tuple[str, Equation]]:
    """The equations of a file, with the names that they define."""
    text = re.sub(r"^--.*\n", "", read_text(path), flags=re.MULTILINE)
    # an equation begins at the margin, and what goes on is indented
    for block in re.split(r"\n(?=\S)", text):
        found = re.match(r"(\w+) ((?:[^=]|=(?=\S))*?) =\s(.*)", block, re.DOTALL)
        if found and not block.startswith(("use ", "abbrev ", "unfoldable ", "pub ")):
            name, pattern, body = found.groups()
            yield name, Equation(pattern, " ".join(body.split()))


def terms_of(text: str) -> list:
    """The terms of a sum, each a list of words, or of sums where they stand in brackets."""
    words = re.findall(r"\+\+|[()]|[^\s()]+", text)
    return sum_of(iter([*words, ")"]))


def sum_of(words: Iterator[str]) -> list:
    """The sum up to the closing bracket."""
    terms: list = [[]]
    for word in words:
        if word == ")":
            return terms
        if word == "++":
            terms.append([])
        else:
            terms[-1].append(sum_of(words) if word == "(" else word)
    raise ValueError("a bracket is not closed")


class Definitions:
    """Those of all crates, and what they say of the bytes of a state."""

    def __init__(self) -> None:
        self.equations: dict[str, list[Equation]] = {}
        for path in sorted(glob.glob(f"{TOP}/crates/*/specs/Saved.antt")):
            for name, equation in equations_in(path):
                self.equations.setdefault(name, []).append(equation)
        self.fields: dict[str, Any] = {}

    def add(self, name: str) -> None:
        """Finds what a definition has, and those that it cites."""
        if name in self.fields or name in PRIMITIVES:
            return
        (equation,) = self.equations[name]
        self.fields[name] = None
        found = list(self.parts_of(terms_of(equation.body), equation.pattern))
        # what has one part is that
        self.fields[name] = found[0][1] if len(found) == 1 else found

    def parts_of(self, terms: list, own: str) -> Iterator[tuple[str, Any]]:
        """What each term of a sum is, with the name of the field. The fields of a definition that is of the same are among them."""
        for words in terms:
            if len(words) == 1 and isinstance(words[0], list):
                yield from self.parts_of(words[0], own)
                continue
            *head, argument = words
            if argument == own and head[0] in self.equations:
                self.add(head[0])
                yield from self.fields[head[0]]
                continue
            layout = self.layout_of(head, argument)
            # what is of several is named by what it is
            name = str(layout).removesuffix("_bytes") if " " in own else self.name_of(argument)
            yield name, layout

    def layout_of(self, head: list, argument: Any) -> Any:
        """What is written by these words before an argument."""
        word, *rest = [word[0] if isinstance(word, list) else word for word in head]
        if isinstance(word, list):
            return self.layout_of(word, argument)
        if word in ("each", "optional"):
            (one,) = rest
            return (word, self.layout_of(one if isinstance(one, list) else [one], ""))
        names = self.names_of(argument)
        if word == "number" and names:
            return ("named", names)
        if word not in PRIMITIVES:
            self.add(word)
        return word

    def names_of(self, argument: Any) -> tuple[str, ...]:
        """The names of those that a function tells by their numbers, if the argument is such a function of something."""
        if not isinstance(argument, list):
            return ()
        equations = self.equations.get(argument[0][0], [])
        named = {
            equation.body: re.sub(r"[()]", "", equation.pattern).split()[0].split(".")[-1].lower()
            for equation in equations
        }
        is_numbered = len(equations) > 1 and sorted(named) == [
            str(number) for number in range(len(equations))
        ]
        return tuple(named[str(number)] for number in range(len(equations))) if is_numbered else ()

    def name_of(self, argument: Any) -> str:
        """The name of the field that an argument is: its own, or the last word of what is told of the whole."""
        if isinstance(argument, list):
            words = argument[0]
            told = words[0].split("_")[-1]
            return f"{self.name_of(words[-1])}_{told}" if "." in words[-1] else told
        return [part for part in argument.split(".") if not part.isdigit()][-1]


def reached(fields: dict[str, Any]) -> set[str]:
    """The definitions that are read by their names; the fields of the others stand among those of another definition."""
    found, left = set(), list(ROOTS)
    while left:
        name = left.pop()
        if name in fields and name not in found:
            found.add(name)
            left += kinds_in(fields[name])
    return found


def kinds_in(layout: Any) -> Iterator[str]:
    """The kinds of all that a definition has."""
    if isinstance(layout, list):
        for _, kind in layout:
            yield from kinds_in(kind)
    elif isinstance(layout, str):
        yield layout
    elif layout[0] != "named":
        yield from kinds_in(layout[1])


def text_of(definitions: Definitions) -> str:
    """The file that the definitions make."""
    for root in ROOTS:
        definitions.add(root)
    lines = []
    named = reached(definitions.fields)
    for name, layout in definitions.fields.items():
        if name not in named:
            continue
        if isinstance(layout, list):
            lines.append(f'    "{name}": [\n')
            lines += [f"        {quoted(field)},\n" for field in layout]
            lines.append("    ],\n")
        else:
            lines.append(f'    "{name}": {quoted(layout)},\n')
    return HEAD + "".join(lines) + "}\n"


def quoted(layout: Any) -> str:
    if isinstance(layout, tuple):
        return f"({', '.join(map(quoted, layout))})"
    return f'"{layout}"'


def main() -> int:
    made = text_of(Definitions())
    if "--write" in sys.argv[1:]:
        with open(MADE, "w", encoding="utf-8") as file:
            file.write(made)
    counts = Counts()
    counts.check(
        "bin/lib/gathjumli/state_fields.py has the fields of the definitions",
        read_text(MADE) == made,
    )
    return counts.report()


if __name__ == "__main__":
    sys.exit(main())
