#!/usr/bin/env python3
"""Assembles a program for System/370 in basic control mode; docs/man/asm370.1 has the notation.

    asm370.py script USER SOURCE     lines of a script that store the program
    asm370.py begin USER SOURCE      the same after a LOGON, and one that starts it where END says
    asm370.py deck SOURCE            cards for initial program loading
    asm370.py volume NAME SOURCE     the text of a volume for initial program loading
    asm370.py listing SOURCE         addresses and bytes next to the statements, and all names

A source goes through three rooms. Expander makes statements of its lines: macros, conditional assembly and COPY end here.
Assembler goes over the statements until each name keeps its address, and then makes bytes of them. A form prints the bytes.
"""

from __future__ import annotations

from typing import Any
import os
import re
import sys
from collections import namedtuple

from gathjumli.asm370_listing import print_listing
from gathjumli.cli import FILE_FAILED, give_up_output, output_failure

REFUSED = 74
# no machine has more storage
MOST_STORAGE = 4096 * 1024
LETTERS = "A-Za-z@#$_"
NAME = re.compile(f"[{LETTERS}][{LETTERS}0-9]*")
VARIABLE = re.compile(f"&([{LETTERS}][{LETTERS}0-9]*)")
# the apostrophe of L'NAME, K'&NAME and N'&NAME opens no text
ATTRIBUTE = re.compile(f"(?<![{LETTERS}0-9])[LKN]'(?=[{LETTERS}&])")


class Fault(Exception):
    """What is wrong with a statement, and at which index of its text where one is known."""

    def __init__(self, text: str, index: Any = None) -> None:
        super().__init__(text)
        self.text = text
        self.index = index


class Follows(Fault):
    """A statement that uses a name whose own statement is refused: no fault of its own."""


class NotYet(Fault):
    """A name that has no value so far, and perhaps in a later pass."""


class Refused(Exception):
    """The source as a whole is refused, by this text."""


# --- characters ---

ALPHABET = " .<(+&$*);-/,%_>?:#@'=\"abcdefghijklmnopqrstuvwxyzABCDEFGHIJKLMNOPQRSTUVWXYZ0123456789"
CODES = bytes.fromhex(
    "404B4C4D4E505B5C5D5E60616B6C6D6E6F7A7B7C7D7E7F"
    "818283848586878889919293949596979899A2A3A4A5A6A7A8A9"
    "C1C2C3C4C5C6C7C8C9D1D2D3D4D5D6D7D8D9E2E3E4E5E6E7E8E9F0F1F2F3F4F5F6F7F8F9"
)
EBCDIC = dict(zip(ALPHABET, CODES))


def ebcdic(text: str, index: Any = None) -> bytes:
    """The bytes of a text."""
    for character in text:
        if character not in EBCDIC:
            raise Fault(f"no EBCDIC character: {character}", index)
    return bytes(EBCDIC[character] for character in text)


# --- reading a statement ---


class Origin:
    """Where a statement came from: its file, where its pieces stood there, and the call of the macro that made it."""

    def __init__(self, path: str, pieces: Any, caller: Any = None, made: Any = None) -> None:
        self.path = path
        self.pieces = pieces
        self.caller = caller
        self.made = made

    def place(self) -> str:
        """The file and the line."""
        return f"{self.path}:{self.pieces[0][1]}"

    def message(self, fault: Any) -> Any:
        """The lines that tell a fault."""
        index = fault.index or 0
        start, line, column = [
            piece for piece in self.pieces if piece[0] <= index or piece[0] == 0
        ][-1]
        where = f"{self.path}:{line}"
        if fault.index is not None:
            where += f":{column + index - start + 1}"
        # the column of a statement that a macro made is that of the statement as made
        made = "" if self.made is None else f", in: {self.made.rstrip()}"
        lines = [f"{where}: {fault.text}{made}"]
        if self.caller:
            lines.append(f"{self.caller.place()}: the macro was called here")
        return lines


class Statement:
    """A name, an operation and operands, as parts of one text."""

    def __init__(self, text: Any, origin: Any) -> None:
        self.text = text
        self.origin = origin
        match = re.match(r"\S*", text)
        self.name = match.group()
        self.operation_at = skip_blanks(text, match.end())
        match = re.match(r"\S*", text[self.operation_at :])
        self.operation = match.group().upper()
        self.start = skip_blanks(text, self.operation_at + match.end())
        self.end = None

    def reader(self) -> Any:
        """A reader of the operands, which end at the first blank that is in no text."""
        if self.end is None:
            self.end = operands_end(self.text, self.start)
        return Reader(self.text, self.start, self.end)

    def operands(self) -> Any:
        """The operands as they stand."""
        reader = self.reader()
        return reader.text[reader.at : reader.end]


def skip_blanks(text: str, at: int) -> Any:
    while at < len(text) and text[at] in " \t":
        at += 1
    return at


def operands_end(text: str, start: int) -> Any:
    """Where operands that begin here end."""
    quoted = None
    for at in range(start, len(text)):
        if text[at] == "'" and (quoted is not None or not ATTRIBUTE.match(text, at - 1)):
            quoted = at if quoted is None else None
        elif text[at] in " \t" and quoted is None:
            return at
    if quoted is not None:
        raise Fault(
            "the apostrophe that opens this text has no other that closes it (a line goes on after a comma alone, not by column 72)",
            quoted,
        )
    return len(text)


def split_list(text: str) -> Any:
    """The parts between the commas that are in no text and in no parentheses."""
    parts, depth, quoted, last = [], 0, False, 0
    for at, character in enumerate(text):
        if character == "'" and (quoted or at == 0 or not ATTRIBUTE.match(text, at - 1)):
            quoted = not quoted
        elif quoted:
            continue
        elif character in "()":
            depth += 1 if character == "(" else -1
        elif character == "," and depth == 0:
            parts.append(text[last:at])
            last = at + 1
    return parts + [text[last:]]


class Reader:
    """A place in a text, which goes forward."""

    def __init__(self, text: str, at: int, end: Any) -> None:
        self.text = text
        self.at = at
        self.end = end

    def is_done(self) -> bool:
        return self.at >= self.end

    def peek(self) -> Any:
        return "" if self.is_done() else self.text[self.at]

    def take(self, character: Any) -> bool:
        """Whether this character is next; it is read then."""
        if self.peek() != character:
            return False
        self.at += 1
        return True

    def need(self, character: Any) -> None:
        if not self.take(character):
            raise Fault(f"'{character}' is missing before {self.rest()}", self.at)

    def match(self, pattern: Any) -> Any:
        """What a pattern matches here, which is read then, or None."""
        found = re.compile(pattern).match(self.text, self.at, self.end)
        if found:
            self.at = found.end()
        return found

    def rest(self) -> Any:
        return self.text[self.at : self.end] or "the end"

    def quoted(self) -> tuple:
        """The text between apostrophes that begins here, with each doubled one read as one, and where it began."""
        self.need("'")
        start = self.at
        found = self.match("(?:[^']|'')*")
        self.need("'")
        return found.group().replace("''", "'"), start


def read_lines(path: str) -> list:
    try:
        with open(path, "rb") as file:
            text = file.read()
    except OSError as error:
        raise Refused(f"{path} cannot be read: {error.strerror}") from error
    lines = text.decode("utf-8", "surrogateescape").split("\n")
    return [line.rstrip("\r") for line in lines]


# --- macros and conditional assembly ---

CONDITIONAL = set(
    "AIF AGO ANOP SETA SETB SETC LCLA LCLB LCLC GBLA GBLB GBLC MNOTE MEXIT COPY".split()
)
MOST_JUMPS = 4096
MOST_DEPTH = 40

# a line that makes no statement: a comment, the call of a macro, a definition
SourceLine = namedtuple("SourceLine", "text origin")
Macro = namedtuple("Macro", "name label positional keywords path lines first takes_lists")


class Frame:
    """Lines that are gone through: those of a file, or those of a macro that was called."""

    def __init__(self, path: Any, lines: Any, first: Any = 1, caller: Any = None) -> None:
        self.path = path
        self.lines = lines
        self.first = first
        self.caller = caller
        self.at = 0
        self.jumps = 0
        self.variables = {}
        self.lists = []
        self.places = sequence_symbols(lines)

    def next_text(self) -> tuple | None:
        """The next statement's text, with the lines that it goes on in, and where its pieces stood; None at the end."""
        if self.at >= len(self.lines):
            return None
        text, pieces = "", []
        while True:
            line, number = self.lines[self.at], self.at + self.first
            self.at += 1
            column = skip_blanks(line, 0) if pieces else 0
            pieces.append((len(text), number, column))
            text += line[column:]
            if (
                is_comment(text)
                or not goes_on(text)
                or self.at >= len(self.lines)
                or is_comment(self.lines[self.at])
            ):
                return text, pieces
            text = text[: operands_end(text, Statement(text, None).start)]


def is_comment(line: Any) -> bool:
    return line.startswith(("*", ".*")) or not line.strip()


def goes_on(text: str) -> bool:
    """Whether the operands end in a comma, so that the next line has more of them."""
    statement = Statement(text, None)
    if statement.operation in CONDITIONAL or not statement.operation:
        return False
    try:
        return text[statement.start : operands_end(text, statement.start)].endswith(",")
    except Fault:
        return False


def sequence_symbols(lines: Any) -> Any:
    """The place of each line whose name begins with a point, except in macros that are defined here."""
    places, depth = {}, 0
    for at, line in enumerate(lines):
        if is_comment(line):
            continue
        operation = Statement(line, None).operation
        if operation == "MEND":
            depth -= 1
        if depth <= 0 and line.startswith("."):
            places.setdefault(line.split()[0], at)
        if operation == "MACRO":
            depth += 1
    return places


class Expander:
    """Makes statements of a source."""

    def __init__(self) -> None:
        self.statements = []
        self.faults = []
        # the names of statements that are refused before they are assembled
        self.refused = set()
        self.macros = {}
        self.globals = {}
        self.calls = 0
        self.has_ended = False
        # the first line after END, if there is one
        self.left_over = None
        # what a listing shows: statements, and the lines that make none
        self.shown = []

    def go(self, path: Any) -> None:
        frame = Frame(path, read_lines(path))
        self.run(frame, 0)
        self.left_over = (
            f"{path}:{frame.at + frame.first}"
            if any(not is_comment(line) for line in frame.lines[frame.at :])
            else None
        )

    def run(self, frame: Any, depth: Any) -> None:
        if depth > MOST_DEPTH:
            raise Refused(f"macros or copies stand in one another more than {MOST_DEPTH} deep")
        while not self.has_ended:
            origin = Origin(frame.path, [(0, frame.at + frame.first, 0)], frame.caller)
            try:
                found = frame.next_text()
                if found is None:
                    return
                text, pieces = found
                origin = Origin(frame.path, pieces, frame.caller)
                if is_comment(text):
                    self.note(text, origin)
                    continue
                statement = Statement(text, origin)
                if statement.operation in ("MEXIT", "MEND") and frame.caller:
                    return
                self.refused.add(statement.name)
                self.step(frame, statement, depth)
                self.refused.discard(statement.name)
            except Fault as fault:
                self.faults.append((origin, fault))

    def note(self, text: str, origin: Origin) -> None:
        """Has a line of the source shown that makes no statement."""
        if not origin.caller:
            self.shown.append(SourceLine(text, origin))

    def step(self, frame: Any, statement: Any, depth: Any) -> None:
        if statement.operation == "MACRO":
            begun = frame.at - 1
            self.define(frame)
            for at in range(begun, frame.at):
                place = Origin(frame.path, [(0, at + frame.first, 0)], frame.caller)
                self.note(frame.lines[at], place)
        elif statement.operation in CONDITIONAL:
            self.note(statement.text, statement.origin)
            self.condition(frame, statement, depth)
        else:
            self.statement(frame, statement, depth)

    def statement(self, frame: Any, statement: Any, depth: Any) -> None:
        """A statement of the program, or a call."""
        text = substitute(statement.text, frame, self)
        if text != statement.text:
            pieces = statement.origin.pieces[:1]
            statement = Statement(text, Origin(frame.path, pieces, frame.caller, made=text))
        if statement.name.startswith("."):
            statement = Statement(
                " " * len(statement.name) + statement.text[len(statement.name) :], statement.origin
            )
        if statement.operation in self.macros:
            self.shown.append(SourceLine(statement.text, statement.origin))
            self.call(self.macros[statement.operation], statement, depth)
            return
        self.statements.append(statement)
        self.shown.append(statement)
        if statement.operation == "END":
            self.has_ended = True

    def define(self, frame: Any) -> None:
        """A macro, whose prototype is the next statement."""
        found = frame.next_text()
        while found and is_comment(found[0]):
            found = frame.next_text()
        if found is None:
            raise Fault("MACRO has no prototype")
        text, pieces = found
        prototype = Statement(text, None)
        label = prototype.name[1:] if prototype.name.startswith("&") else None
        positional, keywords = [], {}
        for operand in split_list(prototype.operands()):
            match = VARIABLE.match(operand)
            if not match and operand:
                raise Fault(f"a parameter is a name after &, and not {operand}", prototype.start)
            if match and operand[match.end() : match.end() + 1] == "=":
                keywords[match.group(1)] = operand[match.end() + 1 :]
            elif match:
                positional.append(match.group(1))
        body, first, depth = [], frame.at + frame.first, 0
        while True:
            if frame.at >= len(frame.lines):
                raise Fault(f"the macro {prototype.operation} has no MEND")
            line = frame.lines[frame.at]
            frame.at += 1
            operation = "" if is_comment(line) else Statement(line, None).operation
            body.append(line)
            if operation == "MEND" and depth == 0:
                break
            depth += {"MACRO": 1, "MEND": -1}.get(operation, 0)
        takes_lists = any("&SYSLIST" in line for line in body)
        self.macros[prototype.operation] = Macro(
            prototype.operation, label, positional, keywords, frame.path, body, first, takes_lists
        )

    def call(self, macro: Any, statement: Any, depth: Any) -> None:
        self.calls += 1
        frame = Frame(macro.path, macro.lines, macro.first, statement.origin)
        frame.variables = dict(macro.keywords)
        frame.variables["SYSNDX"] = f"{self.calls:04d}"
        frame.lists = [statement.name]
        operands = statement.operands()
        for operand in split_list(operands) if operands else []:
            match = NAME.match(operand)
            if (
                match
                and operand[match.end() : match.end() + 1] == "="
                and match.group() in macro.keywords
            ):
                frame.variables[match.group()] = operand[match.end() + 1 :]
            else:
                frame.lists.append(operand)
        if len(frame.lists) - 1 > len(macro.positional) and not macro.takes_lists:
            surplus = frame.lists[len(macro.positional) + 1]
            raise Fault(f"the macro {macro.name} has no parameter for {surplus}", statement.start)
        for number, name in enumerate(macro.positional, 1):
            frame.variables[name] = frame.lists[number] if number < len(frame.lists) else ""
        if macro.label:
            frame.variables[macro.label] = statement.name
        self.run(frame, depth + 1)

    def condition(self, frame: Any, statement: Any, depth: Any) -> None:
        """A statement of conditional assembly."""
        operation, reader = statement.operation, Reader(
            statement.text, statement.start, len(statement.text.rstrip())
        )
        if operation == "AIF":
            reader.need("(")
            terms = Terms(reader, frame, self)
            is_so = terms.either()
            terms.need(")")
            if is_so:
                self.jump(frame, reader)
        elif operation == "AGO":
            self.jump(frame, reader)
        elif operation in ("SETA", "SETB"):
            terms = Terms(reader, frame, self)
            self.assign(frame, statement, str(terms.number(terms.either())))
        elif operation == "SETC":
            self.assign(frame, statement, read_text(reader, frame, self))
        elif operation[:3] in ("LCL", "GBL"):
            self.declare(frame, statement)
        elif operation == "MNOTE":
            raise Fault(
                substitute(statement.text[statement.start :], frame, self).strip().strip("'")
            )
        elif operation == "COPY":
            named = substitute(statement.operands(), frame, self).strip("'")
            path = os.path.join(os.path.dirname(frame.path), named)
            try:
                copied = Frame(path, read_lines(path), caller=None)
            except Refused as refused:
                raise Fault(str(refused), statement.start) from refused
            self.run(copied, depth + 1)

    def jump(self, frame: Any, reader: Any) -> None:
        found = reader.match(rf"\.{NAME.pattern}")
        if not found or found.group() not in frame.places:
            raise Fault(
                f"no statement here has the name {reader.rest() if not found else found.group()}",
                reader.at,
            )
        frame.jumps += 1
        if frame.jumps > MOST_JUMPS:
            raise Refused(f"more than {MOST_JUMPS} jumps: AIF or AGO goes round for ever")
        frame.at = frame.places[found.group()]

    def declare(self, frame: Any, statement: Any) -> None:
        start = "" if statement.operation[3] == "C" else "0"
        for name in split_list(statement.operands()):
            match = VARIABLE.fullmatch(name)
            if not match:
                raise Fault(f"a variable is a name after &, and not {name}", statement.start)
            if statement.operation.startswith("GBL"):
                self.globals.setdefault(match.group(1), start)
                frame.variables[match.group(1)] = None
            else:
                frame.variables[match.group(1)] = start

    def assign(self, frame: Any, statement: Any, value: Any) -> None:
        match = VARIABLE.fullmatch(statement.name)
        if not match:
            raise Fault(f"{statement.operation} has the name of a variable before it, as &N", 0)
        name = match.group(1)
        if name in self.globals and frame.variables.get(name, "") is None:
            self.globals[name] = value
        else:
            frame.variables[name] = value

    def value(self, frame: Any, name: str, index: Any) -> Any:
        value = frame.variables.get(name)
        if value is None and name in frame.variables:
            value = self.globals[name]
        if value is None:
            raise Fault(f"no such variable: &{name}; an ampersand itself is written &&", index)
        return value


def substitute(text: str, frame: Any, expander: Any) -> Any:
    """A text with the values of its variables."""
    out, at = "", 0
    while True:
        found = text.find("&", at)
        if found < 0:
            return out + text[at:]
        out += text[at:found]
        if text.startswith("&&", found):
            out, at = out + "&&", found + 2
            continue
        match = VARIABLE.match(text, found)
        if not match:
            raise Fault("an ampersand itself is written &&", found)
        value, at = variable(text, match, frame, expander)
        out += value
        if text.startswith(".", at):
            at += 1


def variable(text: Any, match: Any, frame: Any, expander: Any) -> tuple:
    """The value of the variable that was matched, with its subscript, and where it ends."""
    name, at = match.group(1), match.end()
    if text.startswith("(", at) and (name == "SYSLIST" or name in frame.variables and frame.caller):
        reader = Reader(text, at + 1, len(text))
        terms = Terms(reader, frame, expander)
        number = terms.sum()
        terms.need(")")
        if name == "SYSLIST":
            return element(frame.lists, number), reader.at
        return (
            element([""] + members(expander.value(frame, name, match.start())), number),
            reader.at,
        )
    return expander.value(frame, name, match.start()), at


def members(value: Any) -> Any:
    """The parts of a list in parentheses; anything else is a list of itself."""
    if value.startswith("(") and value.endswith(")"):
        return split_list(value[1:-1])
    return [value] if value else []


def element(parts: Any, number: int) -> Any:
    return parts[number] if 0 <= number < len(parts) else ""


def read_text(reader: Any, frame: Any, expander: Any) -> Any:
    """The value of SETC: texts between apostrophes, cut by (first,length), one after another by a point."""
    out = ""
    while True:
        raw, start = reader.quoted()
        value = substitute(raw, frame, expander)
        if reader.take("("):
            terms = Terms(reader, frame, expander)
            first = terms.sum()
            terms.need(",")
            length = terms.sum()
            terms.need(")")
            if first < 1 or length < 0:
                raise Fault("a part of a text begins at 1 or above", start)
            value = value[first - 1 : first - 1 + length]
        out += value
        if not reader.take("."):
            return out


class Terms:
    """Reads and works out an expression of conditional assembly: a number, or a text."""

    def __init__(self, reader: Any, frame: Any, expander: Any) -> None:
        self.reader = reader
        self.frame = frame
        self.expander = expander

    def need(self, character: Any) -> None:
        self.skip()
        self.reader.need(character)

    def skip(self) -> None:
        self.reader.match(r"[ \t]*")

    def word(self, *words: Any) -> Any:
        self.skip()
        found = self.reader.match(r"(?:%s)\b" % "|".join(words))
        return found.group() if found else None

    def either(self) -> Any:
        value = self.both()
        while self.word("OR"):
            right = self.both()
            value = bool(value) or bool(right)
        return value

    def both(self) -> Any:
        value = self.negation()
        while self.word("AND"):
            right = self.negation()
            value = bool(value) and bool(right)
        return value

    def negation(self) -> Any:
        if self.word("NOT"):
            return not self.negation()
        left = self.sum()
        relation = self.word("EQ", "NE", "LT", "LE", "GT", "GE")
        if not relation:
            return left
        right = self.sum()
        if isinstance(left, str) != isinstance(right, str):
            raise Fault("a number and a text cannot be compared", self.reader.at)
        if isinstance(left, str):
            left, right = (len(left), left), (len(right), right)
        return {
            "EQ": left == right,
            "NE": left != right,
            "LT": left < right,
            "LE": left <= right,
            "GT": left > right,
            "GE": left >= right,
        }[relation]

    def sum(self) -> Any:
        value = self.product()
        while self.reader.peek() in ("+", "-") and self.reader.peek():
            sign = 1 if self.reader.take("+") else -1
            if sign < 0:
                self.reader.need("-")
            value = self.number(value) + sign * self.number(self.product())
        return value

    def product(self) -> Any:
        value = self.term()
        while self.reader.peek() in ("*", "/") and self.reader.peek():
            if self.reader.take("*"):
                value = self.number(value) * self.number(self.term())
            else:
                self.reader.need("/")
                value = quotient(self.number(value), self.number(self.term()))
        return value

    def number(self, value: Any) -> Any:
        if isinstance(value, str):
            raise Fault(f"{value!r} is no number", self.reader.at)
        return int(value)

    def term(self) -> Any:
        self.skip()
        reader, at = self.reader, self.reader.at
        if reader.take("("):
            value = self.either()
            self.need(")")
            return value
        if reader.take("-"):
            return -self.number(self.term())
        if reader.peek() == "'":
            return substitute(reader.quoted()[0], self.frame, self.expander)
        found = reader.match(rf"([KN])'{VARIABLE.pattern}")
        if found:
            if found.group(1) == "N" and found.group(2) == "SYSLIST":
                return len(self.frame.lists) - 1
            value = self.expander.value(self.frame, found.group(2), at)
            return len(value) if found.group(1) == "K" else len(members(value))
        found = reader.match(VARIABLE)
        if found:
            value, reader.at = variable(reader.text, found, self.frame, self.expander)
            return self.self_defining(value, at)
        found = reader.match(r"[0-9]+|[XBC]'[^']*'")
        if not found:
            raise Fault(f"no number and no text: {reader.rest()}", at)
        return self.self_defining(found.group(), at)

    @staticmethod
    def self_defining(text: str, at: int) -> Any:
        match = re.fullmatch(r"(-?[0-9]+)|X'([0-9A-Fa-f]+)'|B'([01]+)'|C'(.*)'", text)
        if not match:
            raise Fault(f"{text!r} is no number", at)
        if match.group(1):
            return int(match.group(1))
        if match.group(2):
            return int(match.group(2), 16)
        return (
            int(match.group(3), 2)
            if match.group(3)
            else int.from_bytes(ebcdic(match.group(4), at), "big")
        )


def quotient(left: Any, right: Any) -> Any:
    """Towards zero; by zero it is zero, as in the field."""
    if right == 0:
        return 0
    value = abs(left) // abs(right)
    return value if (left < 0) == (right < 0) else -value


# --- instructions ---

# the operations of docs/INSTRUCTIONS.md by the form of their operands, with their codes
FORMS = {
    "R1,R2": "SSK 08 ISK 09 LPR 10 LNR 11 LTR 12 LCR 13 NR 14 CLR 15 OR 16 XR 17 LR 18 CR 19 AR 1A SR 1B MR 1C DR 1D "
    "ALR 1E SLR 1F BALR 05 BCTR 06 MVCL 0E CLCL 0F",
    "R1": "SPM 04",
    "I": "SVC 0A",
    "M1,R2": "BCR 07",
    "R1,D2(X2,B2)": "STH 40 LA 41 STC 42 IC 43 EX 44 BAL 45 BCT 46 LH 48 CH 49 AH 4A SH 4B MH 4C CVD 4E CVB 4F ST 50 "
    "N 54 CL 55 O 56 X 57 L 58 C 59 A 5A S 5B M 5C D 5D AL 5E SL 5F",
    "M1,D2(X2,B2)": "BC 47",
    "R1,R3,D2(B2)": "BXH 86 BXLE 87 STM 90 LM 98 STCTL B6 LCTL B7 CS BA CDS BB",
    "R1,M3,D2(B2)": "CLM BD STCM BE ICM BF",
    "R1,D2(B2)": "SRL 88 SLL 89 SRA 8A SLA 8B SRDL 8C SLDL 8D SRDA 8E SLDA 8F",
    "D1(B1),I2": "TM 91 MVI 92 NI 94 CLI 95 OI 96 XI 97 STNSM AC STOSM AD",
    "D2(B2)": "SSM 8000 LPSW 8200 TS 9300 SIO 9C00 SIOF 9C01 TIO 9D00 HIO 9E00 HDV 9E01 TCH 9F00",
    "D1(L,B1),D2(B2)": "MVN D1 MVC D2 MVZ D3 NC D4 CLC D5 OC D6 XC D7 TR DC TRT DD",
    "D1(L1,B1),D2(L2,B2)": "MVO F1 PACK F2 UNPK F3",
}
# branches by the name of their condition
MASKS = {
    "B": 15, "NOP": 0, "BH": 2, "BL": 4, "BE": 8, "BNH": 13, "BNL": 11, "BNE": 7, "BO": 1, "BP": 2, "BM": 4, "BZ": 8,
    "BNP": 13, "BNM": 11, "BNZ": 7, "BNO": 14,
}  # fmt: skip
# what System/370 has and this machine has not
ABSENT = set(
    "AP SP MP DP ZAP CP ED EDMK SRP MC RDD WRD DIAGNOSE RRB SPKA IPK STCK STCKC SCK SCKC STPT SPT STAP SIGP SPX STPX STIDP STIDC "
    "LRA PTLB LDR LD LER LE STD STE ADR AD AER AE AWR AW AUR AU SDR SD SER SE SWR SW SUR SU MDR MD MER ME DDR DD DER DE HDR HER "
    "LTDR LTER LCDR LCER LPDR LPER LNDR LNER CDR CD CER CE AXR SXR MXR MXDR MXD LRDR LRER CLRIO".split()
)


def operations() -> Any:
    """Each operation's form, codes and mask, by its name."""
    table = {}
    for form, text in FORMS.items():
        words = text.split()
        for name, code in zip(words[::2], words[1::2]):
            table[name] = (form, bytes.fromhex(code), None)
    for name, mask in MASKS.items():
        table[name] = ("D2(X2,B2)", b"\x47", mask)
        register = "NOPR" if name == "NOP" else name + "R"
        table[register] = ("R2", b"\x07", mask)
    return table


OPERATIONS = operations()
LENGTHS = {0: 2, 1: 4, 2: 4, 3: 6}


# --- constants ---

# of each type the length by default (0: that of the value), and the alignment
TYPES = {
    "C": (0, 1), "X": (0, 1), "B": (0, 1), "P": (0, 1), "Z": (0, 1), "H": (2, 2), "Y": (2, 2), "S": (2, 2), "F": (4, 4),
    "A": (4, 4), "D": (8, 8),
}  # fmt: skip
Constant = namedtuple("Constant", "times type explicit value start length alignment")
Value = namedtuple("Value", "number section")
Symbol = namedtuple("Symbol", "value length")
Base = namedtuple("Base", "value register")
PROGRAM = "the program"
NOTHING = {"PRINT", "TITLE", "EJECT", "SPACE"}


def digits_value(text: Any, start: int, base: Any) -> int:
    digits = "0123456789ABCDEF"[:base]
    for place, character in enumerate(text):
        if character.upper() not in digits:
            name = "hexadecimal" if base == 16 else "binary"
            raise Fault(f"no {name} digit: {character}", start + place)
    return int(text, base) if text else 0


def fitted(data: bytes, length: int, start: int, is_left: bool = False, fill: bytes = b"\0") -> Any:
    """Bytes in an area of a length: filled where they are shorter, and refused where a byte would be lost."""
    if not length:
        return data
    if len(data) > length:
        lost = data[length:] if is_left else data[: len(data) - length]
        if lost.strip(fill):
            raise Fault(f"the value has {len(data)} bytes, and the constant {length}", start)
        return data[:length] if is_left else data[len(data) - length :]
    more = fill * (length - len(data))
    return data + more if is_left else more + data


def number_bytes(number: int, length: int, start: int, is_signed: Any) -> bytes:
    """A number in so many bytes, as a signed one, or as whichever it fits."""
    lowest, highest = -(1 << (8 * length - 1)), (1 << (8 * length - (1 if is_signed else 0))) - 1
    if not lowest <= number <= highest:
        raise Fault(
            f"{number} does not fit into a length of {length}, which holds {lowest} to {highest}",
            start,
        )
    return (number & ((1 << (8 * length)) - 1)).to_bytes(length, "big")


def packed(text: Any, start: int) -> Any:
    match = re.fullmatch(r"([+-]?)([0-9]+)", text)
    if not match:
        raise Fault(f"no decimal number: {text}", start)
    digits = match.group(2) + ("D" if match.group(1) == "-" else "C")
    return bytes.fromhex(digits if len(digits) % 2 == 0 else "0" + digits)


def zoned(text: Any, start: int) -> bytes:
    data = bytearray(ebcdic(text.lstrip("+-"), start))
    packed(text, start)
    data[-1] = (0xD0 if text.startswith("-") else 0xC0) + (data[-1] & 15)
    return bytes(data)


# --- the assembler ---


class Assembler:
    """Statements become bytes. A pass goes over all of them; passes end when no name's value changes any more."""

    def __init__(self, statements: Any, refused: set | None = None) -> None:
        self.statements = statements
        self.names = {statement.name for statement in statements}
        self.symbols = {}
        # the names of statements that were refused before, and of those that are in a pass
        self.lost = refused or set()
        self.refused = set()
        self.faults = []
        self.forms = {
            "R1,R2": self.form_rr, "R1": self.form_r, "I": self.form_i, "M1,R2": self.form_rr, "R2": self.form_br,
            "R1,D2(X2,B2)": self.form_rx, "M1,D2(X2,B2)": self.form_rx, "D2(X2,B2)": self.form_bx, "R1,R3,D2(B2)": self.form_rs,
            "R1,M3,D2(B2)": self.form_rs, "R1,D2(B2)": self.form_shift, "D1(B1),I2": self.form_si, "D2(B2)": self.form_s,
            "D1(L,B1),D2(B2)": self.form_ss, "D1(L1,B1),D2(L2,B2)": self.form_ss2,
        }  # fmt: skip
        self.directives = {
            "DC": self.data, "DS": self.data, "EQU": self.equate, "ORG": self.origin, "START": self.begin, "CSECT": self.section,
            "DSECT": self.section, "USING": self.using, "DROP": self.drop, "LTORG": self.pool, "END": self.end, "CCW": self.command,
            "PSW": self.status,
        }  # fmt: skip

    def go(self) -> None:
        for _ in range(30):
            before = self.symbols, self.refused
            self.one_pass()
            if (self.symbols, self.refused) == before:
                return
        raise Refused(
            "some names never keep a value: an EQU, ORG or DS depends on what is defined after it"
        )

    def one_pass(self) -> None:
        self.before, self.symbols, self.faults = self.symbols, {}, []
        self.refused_before, self.refused, self.places = self.refused, set(), {}
        # where each name is used
        self.uses = {}
        self.memory, self.stated = bytearray(), bytearray()
        self.lines, self.entry = [], None
        self.sections, self.highest, self.here_in = {PROGRAM: 0}, {PROGRAM: 0}, PROGRAM
        self.bases, self.pending, self.pools = [], {}, 0
        for self.statement in self.statements:
            self.start_of_line = Value(self.sections[self.here_in], self.here_in)
            self.made = (self.start_of_line.number, b"")
            try:
                self.lay(self.statement)
            except Fault as fault:
                self.refuse(self.statement, fault)
            self.lines.append((self.statement, self.here_in, *self.made))
        try:
            self.place_literals()
        except Fault as fault:
            self.faults.append((self.statement.origin, fault))

    def refuse(self, statement: Any, fault: Fault) -> None:
        """Keeps a fault, and the name of the statement, so that no use of it is a fault too."""
        if statement.name not in self.symbols and not isinstance(fault, NotYet):
            self.refused.add(statement.name)
        if not isinstance(fault, Follows):
            self.faults.append((statement.origin, fault))

    def lay(self, statement: Any) -> None:
        operation = statement.operation
        if operation in OPERATIONS:
            self.instruction(statement)
        elif operation in self.directives:
            self.directives[operation](statement)
        elif operation in NOTHING:
            return
        elif not operation:
            self.define(statement.name, self.start_of_line, 1)
        else:
            raise Fault(self.unknown(operation), statement.operation_at)

    @staticmethod
    def unknown(operation: Any) -> str:
        if operation in ABSENT:
            return (
                f"this machine has no {operation} (docs/INSTRUCTIONS.md); DC X'..' stores any bytes"
            )
        if operation.startswith("."):
            return f"{operation.lower()} is a directive of GNU as, and none of this notation (docs/man/asm370.1)"
        return f"no instruction and no macro has the name {operation}"

    # names and places

    def define(self, name: str, value: Any, length: int) -> None:
        if not name:
            return
        if not NAME.fullmatch(name):
            raise Fault(f"{name} is no name: a letter, and then letters and digits", 0)
        if name in self.symbols:
            raise Fault(
                f"the name {name} stands before another statement too: {self.places[name].place()}",
                0,
            )
        self.symbols[name] = Symbol(value, length)
        self.places[name] = self.statement.origin

    def here(self) -> Any:
        return self.sections[self.here_in]

    def align(self, alignment: Any) -> None:
        self.move_to(-(-self.here() // alignment) * alignment)

    def move_to(self, place: Any) -> None:
        if not 0 <= place <= MOST_STORAGE:
            raise Fault(
                f"the address {place & 0xFFFFFFFF:X} is past all storage", self.statement.start
            )
        self.sections[self.here_in] = place
        self.highest[self.here_in] = max(self.highest[self.here_in], place)

    def reserve(self, length: int) -> Any:
        """An area here; where it begins."""
        place = self.here()
        self.move_to(place + length)
        if self.here_in == PROGRAM:
            self.grow()
            self.stated[place : place + length] = b"\1" * length
        return place

    def grow(self) -> None:
        missing = self.highest[PROGRAM] - len(self.memory)
        self.memory += bytes(max(0, missing))
        self.stated += bytes(max(0, missing))

    def store(self, place: Any, data: bytes) -> None:
        if self.here_in == PROGRAM:
            self.memory[place : place + len(data)] = data
        self.made = (self.made[0], self.made[1] + data) if self.made[1] else (place, data)

    # expressions

    def expression(self, reader: Any) -> tuple:
        """The value, and the length of what its first term names, or None where that is a number."""
        start = reader.at
        sign = -1 if reader.take("-") else 1
        if sign > 0:
            reader.take("+")
        value, length = self.product(reader)
        if sign < 0:
            value = self.joined(Value(0, None), value, -1, start)
        while reader.peek() in ("+", "-") and reader.peek():
            sign = 1 if reader.take("+") else -1
            if sign < 0:
                reader.need("-")
            value = self.joined(value, self.product(reader)[0], sign, start)
        return value, length

    @staticmethod
    def joined(left: Any, right: Any, sign: Any, start: int) -> Any:
        number = left.number + sign * right.number
        if right.section is None:
            return Value(number, left.section)
        if sign < 0 and left.section == right.section:
            return Value(number, None)
        if sign > 0 and left.section is None:
            return Value(number, right.section)
        if {left.section, right.section} <= {None, PROGRAM}:
            return Value(number, None)
        raise Fault("an address of a DSECT is joined with another address", start)

    def product(self, reader: Any) -> tuple:
        start = reader.at
        value, length = self.term(reader)
        while reader.peek() in ("*", "/") and reader.peek():
            is_times = reader.take("*") or not reader.take("/")
            right, _ = self.term(reader)
            if {value.section, right.section} - {None, PROGRAM}:
                raise Fault("an address of a DSECT is multiplied or divided", start)
            if not is_times and right.number == 0:
                raise Fault("a division by zero", start)
            number = (
                value.number * right.number if is_times else quotient(value.number, right.number)
            )
            value = Value(number, None)
        return value, length

    def term(self, reader: Any) -> tuple:
        at = reader.at
        if reader.take("("):
            value, length = self.expression(reader)
            reader.need(")")
            return value, length
        if reader.take("*"):
            if self.start_of_line is None:
                raise Fault("an asterisk has no place in a literal", at)
            return self.start_of_line, self.instruction_length
        if reader.match("L'"):
            return Value(self.length_of(reader), None), None
        found = reader.match(r"[XBC](?=')")
        if found:
            return Value(self.self_defining(reader, found.group()), None), None
        found = reader.match("[0-9]+")
        if found:
            return Value(int(found.group()), None), None
        found = reader.match(NAME)
        if not found:
            if reader.is_done():
                raise Fault("a value is missing at the end of the line", at)
            raise Fault(f"no value: {reader.rest()}", at)
        symbol = self.symbol(found.group(), at)
        return symbol.value, symbol.length

    @staticmethod
    def self_defining(reader: Any, kind: str) -> Any:
        text, start = reader.quoted()
        if kind == "C":
            data = ebcdic(text.replace("&&", "&"), start)
            if not 1 <= len(data) <= 4:
                raise Fault("C'..' as a number has one to four characters", start)
            return int.from_bytes(data, "big")
        if not text:
            raise Fault(f"{kind}'..' has no digit", start)
        number = digits_value(text, start, 16 if kind == "X" else 2)
        if number >= 1 << 32:
            raise Fault(f"{kind}'..' has more than 32 bits", start)
        return number

    def length_of(self, reader: Any) -> Any:
        at = reader.at
        found = reader.match(NAME)
        if not found:
            raise Fault(f"L' wants a name, and not {reader.rest()}", at)
        return self.symbol(found.group(), at).length

    def symbol(self, name: str, at: int) -> Any:
        self.uses.setdefault(name, []).append(self.statement.origin)
        if name in self.symbols:
            return self.symbols[name]
        if name in self.before:
            return self.before[name]
        if name in self.refused_before or name in self.lost:
            raise Follows(f"the statement of {name} is refused", at)
        if name in self.names:
            raise NotYet(f"the value of {name} is not known here: it hangs on itself", at)
        raise Fault(f"no statement has the name {name}", at)

    def absolute(self, reader: Any, lowest: Any, highest: Any, what: str) -> Any:
        """A number within bounds."""
        at = reader.at
        value, _ = self.expression(reader)
        if value.section not in (None, PROGRAM):
            raise Fault(f"{what} is an address of a DSECT", at)
        if not lowest <= value.number <= highest:
            raise Fault(f"{what} is {lowest} to {highest}, and not {value.number}", at)
        return value.number

    # operands

    def register(self, reader: int, what: str = "a register") -> Any:
        return self.absolute(reader, 0, 15, what)

    def comma(self, reader: Any) -> None:
        if reader.is_done():
            raise Fault(f"{self.statement.operation} needs an operand here", reader.at)
        reader.need(",")

    def finish(self, reader: Any) -> None:
        if not reader.is_done():
            raise Fault(f"{self.statement.operation} has no use for {reader.rest()}", reader.at)

    def base_of(self, value: Any) -> Any:
        """The register and the displacement of an address by USING, or None."""
        best = None
        for base in self.bases:
            distance = value.number - base.value.number
            if base.value.section == value.section and 0 <= distance <= 4095:
                if best is None or (distance, -base.register) < (best[1], -best[0]):
                    best = (base.register, distance)
        return best

    def implied(self, value: Any, at: int) -> Any:
        """The register and the displacement of an address for which none is written."""
        if value.section is None and 0 <= value.number <= 4095:
            return 0, value.number
        found = self.base_of(value)
        if found:
            return found
        if value.section == PROGRAM and 0 <= value.number <= 4095:
            return 0, value.number
        if value.section not in (None, PROGRAM):
            raise Fault(f"no USING says which register has an address of {value.section}", at)
        raise Fault(self.unreached(value), at)

    def written(self, value: Any, register: Any, at: int) -> tuple:
        if value.section == PROGRAM and value.number > 4095:
            raise Fault(self.unreached(value), at)
        if not 0 <= value.number <= 4095:
            raise Fault(f"the displacement is 0 to 4095, and not {value.number}", at)
        return register, value.number

    @staticmethod
    def unreached(value: Any) -> str:
        place = f"{value.number} ({value.number & 0xFFFFFFFF:X} in hexadecimal)"
        return f"the address {place} needs a base: no USING reaches it, and it lies past 4095 (FFF)"

    def place(self, reader: Any) -> tuple:
        """An address as it is written: its value, its length, and what is in parentheses after it."""
        if reader.is_done():
            raise Fault(f"{self.statement.operation} needs an operand here", reader.at)
        value, length = self.literal(reader) if reader.peek() == "=" else self.expression(reader)
        inner = []
        if reader.take("("):
            while True:
                inner.append(None if reader.peek() in (",", ")") else reader.at)
                if inner[-1] is not None:
                    self.expression(reader)
                if not reader.take(","):
                    break
            reader.need(")")
        return value, length, inner

    def inner_number(self, at: Any, highest: Any, what: str) -> Any:
        """A number from 0 on within parentheses, or any number if there is no highest one."""
        lowest, highest = (-(1 << 31), 1 << 31) if highest is None else (0, highest)
        reader = Reader(self.statement.text, at, self.statement.end)
        return self.absolute(reader, lowest, highest, what)

    def indexed(self, reader: Any) -> tuple:
        """D(X,B): index, base and displacement."""
        at = reader.at
        value, _, inner = self.place(reader)
        if not inner:
            return 0, *self.implied(value, at)
        if len(inner) > 2 or inner[-1] is None:
            raise Fault("D(X,B) has an index and a base, or one of them", at)
        last = self.inner_number(inner[-1], 15, "a register")
        if len(inner) == 2:
            index = 0 if inner[0] is None else self.inner_number(inner[0], 15, "an index register")
            return index, *self.written(value, last, at)
        if value.section is not None and self.base_of(value):
            return last, *self.base_of(value)
        return 0, *self.written(value, last, at)

    def based(self, reader: Any) -> Any:
        """D(B): base and displacement."""
        at = reader.at
        value, _, inner = self.place(reader)
        if not inner:
            return self.implied(value, at)
        if len(inner) > 1 or inner[0] is None:
            raise Fault("D(B) has a base and nothing else", at)
        if value.section is not None and self.base_of(value):
            raise Fault(
                f"{self.statement.operation} has no index here, and USING gives this address its base",
                at,
            )
        return self.written(value, self.inner_number(inner[0], 15, "a register"), at)

    def long(self, reader: Any, most: Any) -> tuple:
        """D(L,B): length, base and displacement."""
        at = reader.at
        length_at = at
        value, length, inner = self.place(reader)
        if len(inner) > 2 or (len(inner) == 2 and inner[1] is None):
            raise Fault("D(L,B) has a length and a base", at)
        if inner and inner[0] is not None:
            length_at = inner[0]
            length = self.inner_number(length_at, None, "a length")
        elif length is None:
            raise Fault("the length is not known: a number has none, so write it, as X'48'(4)", at)
        if length < 0:
            raise Fault(f"a length is 0 to {most}, and not {length}", length_at)
        if length > most:
            more = f"write another {self.statement.operation} for the rest"
            raise Fault(f"a length is at most {most}, and not {length}: {more}", length_at)
        if len(inner) == 2:
            return length, *self.written(value, self.inner_number(inner[1], 15, "a register"), at)
        return length, *self.implied(value, at)

    # instructions

    def instruction(self, statement: Any) -> None:
        self.align(2)
        form, code, mask = OPERATIONS[statement.operation]
        length = LENGTHS[code[0] >> 6]
        self.start_of_line = Value(self.here(), self.here_in)
        self.instruction_length = length
        self.define(statement.name, self.start_of_line, length)
        place = self.reserve(length)
        reader = statement.reader()
        data = (
            self.forms[form](code, reader) if mask is None else self.forms[form](code, reader, mask)
        )
        self.finish(reader)
        self.store(place, data)

    @staticmethod
    def halfword(base: Any, displacement: Any) -> bytes:
        return bytes([base << 4 | displacement >> 8, displacement & 255])

    def form_rr(self, code: Any, reader: Any) -> Any:
        first = self.register(reader)
        self.comma(reader)
        return code + bytes([first << 4 | self.register(reader)])

    def form_r(self, code: Any, reader: Any) -> Any:
        return code + bytes([self.register(reader) << 4])

    def form_i(self, code: Any, reader: Any) -> Any:
        return code + bytes([self.absolute(reader, 0, 255, "the code")])

    def form_br(self, code: Any, reader: Any, mask: Any) -> Any:
        return code + bytes([mask << 4 | self.register(reader)])

    def form_rx(self, code: int, reader: int) -> Any:
        first = self.register(reader)
        self.comma(reader)
        return self.form_bx(code, reader, first)

    def form_bx(self, code: Any, reader: Any, first: Any) -> Any:
        index, base, displacement = self.indexed(reader)
        return code + bytes([first << 4 | index]) + self.halfword(base, displacement)

    def form_rs(self, code: Any, reader: Any) -> Any:
        first = self.register(reader)
        self.comma(reader)
        third = self.register(reader)
        self.comma(reader)
        return code + bytes([first << 4 | third]) + self.halfword(*self.based(reader))

    def form_shift(self, code: Any, reader: Any) -> Any:
        first = self.register(reader)
        self.comma(reader)
        return code + bytes([first << 4]) + self.halfword(*self.based(reader))

    def form_si(self, code: Any, reader: Any) -> Any:
        place = self.halfword(*self.based(reader))
        self.comma(reader)
        return code + bytes([self.absolute(reader, 0, 255, "the byte")]) + place

    def form_s(self, code: Any, reader: Any) -> Any:
        return code + self.halfword(*self.based(reader))

    def form_ss(self, code: Any, reader: Any) -> Any:
        length, base, displacement = self.long(reader, 256)
        self.comma(reader)
        return (
            code
            + bytes([max(length - 1, 0)])
            + self.halfword(base, displacement)
            + self.halfword(*self.based(reader))
        )

    def form_ss2(self, code: Any, reader: Any) -> Any:
        first, *place = self.long(reader, 16)
        self.comma(reader)
        second, *other = self.long(reader, 16)
        return (
            code
            + bytes([max(first - 1, 0) << 4 | max(second - 1, 0)])
            + self.halfword(*place)
            + self.halfword(*other)
        )

    # constants

    def constant(self, reader: Any, is_area: Any) -> Any:
        """Reads one constant: [times]type[Llength][value]."""
        start = reader.at
        times = 1
        found = reader.match("[0-9]+")
        if found:
            times = int(found.group())
        elif reader.take("("):
            times = self.absolute(reader, 0, MOST_STORAGE, "the number of times")
            reader.need(")")
        kind = reader.match("[A-Za-z]")
        if not kind or kind.group().upper() not in TYPES:
            raise Fault(f"no type of a constant: {kind.group() if kind else reader.rest()}", start)
        kind = kind.group().upper()
        explicit = self.explicit_length(reader, kind)
        normal, alignment = TYPES[kind]
        value, at = None, reader.at
        if reader.peek() == "'" and kind not in "AYS":
            value, at = reader.quoted()
        elif reader.peek() == "(" and kind in "AYS":
            reader.take("(")
            at = reader.at
            value = self.in_parentheses(reader)
        if value is None and not is_area and times:
            how = "(..)" if kind in "AYS" else "'..'"
            raise Fault(f"{kind} wants its value as {kind}{how}", at)
        length = self.constant_length(kind, explicit or normal, value, at)
        return Constant(times, kind, explicit, value, at, length, 1 if explicit else alignment)

    def explicit_length(self, reader: Any, kind: str) -> Any:
        if not reader.match("L"):
            return None
        at = reader.at
        if reader.take("("):
            length = self.absolute(reader, 1, 65535, "the length")
            reader.need(")")
        else:
            found = reader.match("[0-9]+")
            if not found:
                raise Fault(f"no length: {reader.rest()}", at)
            length = int(found.group())
        most = {"F": 8, "H": 8, "D": 8, "A": 4, "Y": 2, "S": 2, "P": 16, "Z": 16}.get(kind, 65535)
        if not 1 <= length <= most or (kind == "S" and length != 2):
            raise Fault(f"the length of {kind} is 1 to {most}, and not {length}", at)
        return length

    @staticmethod
    def in_parentheses(reader: Any) -> Any:
        start, depth, quoted = reader.at, 1, False
        while not reader.is_done():
            character = reader.peek()
            if character == "'" and (quoted or not ATTRIBUTE.match(reader.text, reader.at - 1)):
                quoted = not quoted
            if not quoted:
                depth += {"(": 1, ")": -1}.get(character, 0)
            reader.at += 1
            if depth == 0:
                return reader.text[start : reader.at - 1]
        raise Fault("')' is missing", start)

    def constant_length(self, kind: str, length: int, value: Any, start: int) -> Any:
        """How many bytes all values of a constant have, done once."""
        if value is None:
            return length or 1
        if kind == "C":
            return length or len(value.replace("&&", "&"))
        parts = split_list(value)
        if kind in "XB" and not length:
            width = 2 if kind == "X" else 8
            return sum(-(-len(part) // width) for part in parts)
        if kind == "P" and not length:
            return sum(len(packed(part, start)) for part in parts)
        if kind == "Z" and not length:
            return sum(len(part.lstrip("+-")) for part in parts)
        return length * len(parts)

    def constant_bytes(self, constant: Any, place: Any) -> Any:
        """The bytes of a constant, once, at a place."""
        kind, value, start = constant.type, constant.value, constant.start
        if kind == "D":
            raise Fault(
                "D has no value here, since the machine has no floating point: DS D, or 0D to align",
                start,
            )
        if kind == "C":
            return fitted(
                ebcdic(value.replace("&&", "&"), start), constant.explicit, start, True, b"\x40"
            )
        out = b""
        for part in split_list(value):
            out += self.part_bytes(constant, part, start, place + len(out))
            start += len(part) + 1
        return out

    def part_bytes(self, constant: Any, part: Any, start: Any, place: Any) -> Any:
        kind, explicit = constant.type, constant.explicit
        if kind in "XB":
            width, base = (2, 16) if kind == "X" else (8, 2)
            size = -(-len(part) // width)
            return fitted(digits_value(part, start, base).to_bytes(size, "big"), explicit, start)
        if kind == "P":
            return fitted(packed(part, start), explicit, start)
        if kind == "Z":
            return fitted(zoned(part, start), explicit, start, fill=b"\xf0")
        length = explicit or TYPES[kind][0]
        if kind in "FH":
            if not re.fullmatch("[+-]?[0-9]+", part):
                raise Fault(f"no whole number: {part}", start)
            return number_bytes(int(part), length, start, True)
        reader = Reader(part, 0, len(part))
        try:
            return self.address_bytes(reader, kind, length, place)
        except Fault as fault:
            raise type(fault)(fault.text, start + (fault.index or 0)) from fault

    def address_bytes(self, reader: Any, kind: str, length: Any, place: Any) -> Any:
        line = self.start_of_line
        if line is not None:
            self.start_of_line = Value(place, self.here_in)
        try:
            if kind == "S":
                statement, self.statement = self.statement, Statement("", None)
                self.statement.text, self.statement.end = reader.text, reader.end
                try:
                    data = self.halfword(*self.based(reader))
                finally:
                    self.statement = statement
            else:
                value, _ = self.expression(reader)
                if value.section not in (None, PROGRAM):
                    raise Fault(f"{value.section} has no address before the program runs", 0)
                data = number_bytes(value.number, length, 0, False)
        finally:
            self.start_of_line = line
        if not reader.is_done():
            raise Fault(f"{kind}(..) has no use for {reader.rest()}", reader.at)
        return data

    def lay_constant(self, constant: Any, is_area: Any) -> None:
        """One constant where the program is now."""
        place = self.reserve(constant.times * constant.length)
        if is_area or constant.times == 0:
            return
        if constant.type in "AYS":
            data = b"".join(
                self.constant_bytes(constant, place + n * constant.length)
                for n in range(constant.times)
            )
        else:
            data = self.constant_bytes(constant, place) * constant.times
        self.store(place, data)

    def data(self, statement: Any) -> None:
        """DC and DS."""
        is_area = statement.operation == "DS"
        reader = statement.reader()
        self.instruction_length = None
        is_first = True
        if reader.is_done():
            raise Fault(f"{statement.operation} needs an operand here", reader.at)
        fault = None
        while is_first or not reader.is_done():
            if not is_first:
                self.comma(reader)
            constant = self.constant(reader, is_area)
            self.align(constant.alignment)
            if is_first:
                self.define(statement.name, Value(self.here(), self.here_in), constant.length)
                self.made = (self.here(), b"")
            is_first = False
            try:
                self.lay_constant(constant, is_area)
            except Fault as first:
                fault = fault or first
        if fault:
            raise fault

    # literals

    def literal(self, reader: Any) -> Any:
        """The place of a literal, which is after the next LTORG or at the end."""
        start = reader.at
        reader.need("=")
        constant = self.constant(reader, False)
        if constant.times == 0 or constant.value is None:
            raise Fault("a literal has a value", start)
        text = reader.text[start : reader.at]
        self.pending.setdefault(text, (constant, self.statement.origin, start))
        return self.symbol_of_literal(text, constant)

    def symbol_of_literal(self, text: str, constant: Any) -> tuple:
        symbol = self.before.get((self.pools, text))
        if symbol is None:
            return Value(self.here(), PROGRAM), constant.length
        return symbol.value, constant.length

    def pool(self, statement: Any) -> None:
        """LTORG."""
        self.align(8)
        self.define(statement.name, Value(self.here(), self.here_in), 1)
        if self.here_in != PROGRAM:
            raise Fault("literals have no place in a DSECT", statement.operation_at)
        self.place_literals()

    def place_literals(self) -> None:
        """Those that came since the last LTORG: doublewords first, then words, halfwords and others, in order."""
        if not self.pending:
            return
        self.here_in = PROGRAM
        if self.statement.operation != "LTORG":
            self.move_to(self.highest[PROGRAM])
            self.align(8)

        def rank(text: str) -> Any:
            size = self.pending[text][0].times * self.pending[text][0].length
            return -max(unit for unit in (8, 4, 2, 1) if size % unit == 0)

        for text in sorted(self.pending, key=rank):
            constant, origin, start = self.pending[text]
            self.align(constant.alignment)
            self.symbols[(self.pools, text)] = Symbol(Value(self.here(), PROGRAM), constant.length)
            self.start_of_line = None
            try:
                self.lay_constant(constant, False)
            except Fault as fault:
                self.faults.append(
                    (origin, Fault(fault.text, start if fault.index is None else fault.index))
                )
        self.pending = {}
        self.pools += 1

    # other statements

    def equate(self, statement: Any) -> None:
        reader = statement.reader()
        self.instruction_length = 1
        value, length = self.expression(reader)
        if reader.take(","):
            length = self.absolute(reader, 0, 65535, "the length")
        if not statement.name:
            raise Fault("EQU has a name before it", 0)
        self.finish(reader)
        self.define(statement.name, value, 1 if length is None else length)

    def origin(self, statement: Any) -> None:
        if statement.name:
            raise Fault("ORG has no name: write it before the next statement, or before EQU *", 0)
        reader = statement.reader()
        if reader.is_done():
            self.move_to(self.highest[self.here_in])
            return
        at = reader.at
        value, _ = self.expression(reader)
        self.finish(reader)
        if value.section not in (self.here_in, None) or (
            value.section is None and self.here_in != PROGRAM
        ):
            raise Fault(f"ORG leads out of {self.here_in}", at)
        self.move_to(value.number)

    def begin(self, statement: Any) -> None:
        """START."""
        self.here_in = PROGRAM
        reader = statement.reader()
        if not reader.is_done():
            self.move_to(self.absolute(reader, 0, MOST_STORAGE, "the address"))
            self.finish(reader)
        self.define(statement.name, Value(self.here(), PROGRAM), 1)

    def section(self, statement: Any) -> None:
        """CSECT goes on with the program, DSECT states what storage looks like somewhere."""
        if statement.operation == "CSECT":
            self.here_in = PROGRAM
            if statement.name not in self.symbols:
                self.define(statement.name, Value(self.here(), PROGRAM), 1)
            return
        if not statement.name:
            raise Fault("DSECT has a name before it", 0)
        self.here_in = statement.name
        if statement.name not in self.sections:
            self.sections[statement.name] = self.highest[statement.name] = 0
            self.define(statement.name, Value(0, statement.name), 1)
        self.made = (self.here(), b"")

    def using(self, statement: Any) -> None:
        reader = statement.reader()
        value, _ = self.expression(reader)
        if reader.is_done():
            raise Fault("USING has an address and a register", reader.at)
        while reader.take(","):
            register = self.register(reader)
            self.bases = [base for base in self.bases if base.register != register] + [
                Base(value, register)
            ]
            value = Value(value.number + 4096, value.section)
        self.finish(reader)

    def drop(self, statement: Any) -> None:
        reader = statement.reader()
        if reader.is_done():
            self.bases = []
            return
        while True:
            at = reader.at
            register = self.register(reader)
            if all(base.register != register for base in self.bases):
                raise Fault(f"no USING has the register {register}", at)
            self.bases = [base for base in self.bases if base.register != register]
            if not reader.take(","):
                break
        self.finish(reader)

    def end(self, statement: Any) -> None:
        reader = statement.reader()
        if not reader.is_done():
            self.entry = self.absolute(reader, 0, MOST_STORAGE - 1, "the address to begin at")
            self.finish(reader)

    def doubleword(self, statement: Any) -> tuple:
        self.align(8)
        self.start_of_line = Value(self.here(), self.here_in)
        self.instruction_length = 8
        self.define(statement.name, self.start_of_line, 8)
        return self.reserve(8), statement.reader()

    def command(self, statement: Any) -> None:
        """CCW code,address,flags,count"""
        place, reader = self.doubleword(statement)
        code = self.absolute(reader, 0, 255, "the command")
        self.comma(reader)
        address = self.absolute(reader, 0, 0xFFFFFF, "the address")
        self.comma(reader)
        flags = self.absolute(reader, 0, 255, "the flags")
        self.comma(reader)
        count = self.absolute(reader, 0, 65535, "the count")
        self.finish(reader)
        self.store(
            place,
            bytes([code])
            + address.to_bytes(3, "big")
            + bytes([flags, 0])
            + count.to_bytes(2, "big"),
        )

    def status(self, statement: Any) -> None:
        """PSW left,address"""
        place, reader = self.doubleword(statement)
        left = self.absolute(reader, 0, 0xFFFFFFFF, "the left word")
        self.comma(reader)
        right = self.absolute(reader, 0, 0xFFFFFFFF, "the right word")
        self.finish(reader)
        self.store(place, left.to_bytes(4, "big") + right.to_bytes(4, "big"))

    instruction_length = None


# --- what appears out ---


def assembled(path: str) -> Any:
    """The program of a source: an Assembler that has gone over all of it."""
    expander = Expander()
    expander.go(path)
    assembler = Assembler(expander.statements, expander.refused)
    assembler.go()
    faults = expander.faults + assembler.faults
    if faults or assembler.refused:
        for origin, fault in sorted(
            faults, key=lambda pair: pair[0].pieces[0][1] if pair[0].path == path else 0
        ):
            for line in origin.message(fault):
                print(line, file=sys.stderr)
        raise Refused(None)
    assembler.shown = expander.shown
    if expander.left_over:
        print(f"asm370: {expander.left_over}: what follows END is not assembled", file=sys.stderr)
    assembler.memory += bytes(-len(assembler.memory) % 8)
    return assembler


def entry_of(program: Any) -> Any:
    if program.entry is None:
        raise Refused("END names no address to begin at: END BEGIN, say, names the statement BEGIN")
    return program.entry


def print_script(program: Any, user: Any, has_begin: Any) -> None:
    """Sixteen bytes a line, without the words of zero at either end; with its start it is a script of its own."""
    if has_begin:
        print(f"LINE {user} LOGON")
    for start in range(0, len(program.memory), 16):
        data = program.memory[start : start + 16]
        while data[:4] == bytes(4):
            data, start = data[4:], start + 4
        while data[-4:] == bytes(4):
            data = data[:-4]
        if data:
            print(f"LINE {user} STORE {start:X} {data.hex().upper()}")
    if has_begin:
        print(f"LINE {user} BEGIN {entry_of(program):06X}")


# the loader of a deck: where it is unless the program has that place, and how many bytes it and its card take
LOADER, LOADER_SIZE = 0x80, 0xE0


def print_deck(program: Any) -> None:
    """Three cards of the loader, 48 bytes of the program a card, and the end with the words that channels use."""
    entry = entry_of(program)
    place = LOADER
    if any(program.stated[LOADER : LOADER + LOADER_SIZE]):
        place = -(-len(program.memory) // 8) * 8
    lines = read_lines(os.path.join(os.path.dirname(os.path.abspath(__file__)), "loader.asm"))
    loader = Expander()
    loader.run(Frame("loader.asm", [f"LOADER   EQU   {place}"] + lines, first=0), 0)
    loader = assembled_statements(loader.statements)
    cards = [loader[:24], loader[place : place + 72], loader[place + 72 : place + 144]]
    for start in range(0, len(program.memory), 48):
        # the loader is not written over
        below, above = min(start + 48, max(start, place)), max(
            start, min(start + 48, place + LOADER_SIZE)
        )
        for first, data in (
            (start, program.memory[start:below]),
            (above, program.memory[above : start + 48]),
        ):
            if any(data):
                cards.append(card("TXT", first, data))
    cards.append(card("END", entry, program.memory[64:76].ljust(12, b"\0")))
    for data in cards:
        sys.stdout.buffer.write(data + b"\x40" * (80 - len(data)))


def assembled_statements(statements: Any) -> Any:
    assembler = Assembler(statements)
    assembler.go()
    for origin, fault in assembler.faults:
        raise Refused("; ".join(origin.message(fault)))
    return bytes(assembler.memory)


def card(kind: str, address: int, data: bytes) -> Any:
    """02 and the kind, an address in columns 6 to 8, a length in 11 and 12, the bytes from column 17 on."""
    blank = b"\x40"
    return (
        b"\x02"
        + ebcdic(kind)
        + blank
        + address.to_bytes(3, "big")
        + 2 * blank
        + len(data).to_bytes(2, "big")
        + 4 * blank
        + data
    )


def print_volume(program: Any, serial: Any) -> None:
    """Record 1 of the first track is the PSW and the command word that reads record 2, the program from 18 on."""
    entry = entry_of(program)
    if any(program.memory[:24]):
        raise Refused(
            "a program on a volume begins at 18 at the lowest: below stand its first bytes, which say how to go on"
        )
    data = program.memory[24:]
    if len(data) > 12871:
        raise Refused(
            "a program on a volume ends at 325F at the highest, where the first track is full"
        )
    print(f"VOLUME {serial} 1")
    print(f"REC 0 0 0000000001 - 0000000000{entry:06X}060000182000{len(data):04X}0000000000000000")
    print(f"REC 0 0 0000000002 - {data.hex().upper()}")


def addresses(program: Any) -> Any:
    """The names of the program's addresses, but those that other names or numbers equate."""
    found = {}
    for statement, section, place, _ in program.lines:
        if section == PROGRAM and statement.name and statement.operation not in ("EQU", "DSECT"):
            found.setdefault(place, statement.name)
    return found


def main(words: list[str]) -> Any:
    form, source = words[0], words[-1]
    try:
        program = assembled(source)
        if form in ("script", "begin"):
            if form == "begin":
                entry_of(program)
            print_script(program, words[1], form == "begin")
        elif form == "deck":
            print_deck(program)
        elif form == "volume":
            print_volume(program, words[1])
        else:
            print_listing(program, PROGRAM)
        sys.stdout.flush()
    except Refused as refused:
        text = refused.args[0]
        print(
            f"asm370: {source}: {text}" if text else f"asm370: {source} is refused", file=sys.stderr
        )
        return REFUSED
    return 0


def run(words: list[str]) -> int:
    """The status of a run, also if standard output fails; a reader who has gone is not reported."""
    try:
        return main(words)
    except BrokenPipeError:
        return FILE_FAILED
    except OSError as item:
        print(f"asm370: {output_failure(item)}", file=sys.stderr)
        return FILE_FAILED


if __name__ == "__main__":
    sys.stderr.reconfigure(errors="backslashreplace")
    sys.exit(give_up_output(run(sys.argv[1:])))
