"""Long sessions, for test-transcripts: 64 users on 16 frames, each of whom uses his devices, and a script of a million bytes.
What appears of them is reckoned here from docs/COMMANDS.md and docs/FORMATS.md."""
from __future__ import annotations

from collections.abc import Iterator

DEVICES = "CONSOLE 009 3215\nSPOOL 00C READER\nSPOOL 00D PUNCH\nSPOOL 00E PRINTER\n"
NAMES = [f"U{number:02}" for number in range(1, 65)]
# a card that an IPL loads: its PSW, and a no-operation that ends the program
CARD = "0000000000000200" "0300000020000001"
# a command word that punches the card at 900, and one that prints the five characters at 980
COMMANDS = "0100090020000050" "0900098020000005"
TEXT = "HELLO"


class Users:
    """Each user punches and prints, sends his cards and a message to the next, loads what came to him, and logs off with open
    files."""

    def __init__(self, session: object) -> None:
        directory = "".join(f"USER {name} PW 8K\n{DEVICES}" for name in NAMES)
        self.session = session("64 users on 16 frames", directory, None, (), (16, 256), NAMES[0])
        self.closed = 0
        self.printed = []

    def played(self) -> object:
        one = self.session
        for name in NAMES:
            one.line("LOGON", "LOGON OK", user=name)
        for name, following in zip(NAMES, NAMES[1:] + NAMES[:1]):
            one.store(0x900, CARD.ljust(160, "0"), name)
            one.store(0x980, TEXT.encode("cp037").hex().upper(), name)
            one.store(0x800, COMMANDS, name)
            one.store(0x100, "9C00000D9D00000D9C00000E9D00000E", name)
            one.line("BEGIN", user=name)
            self.write(name)
            one.line(f"#CP SPOOL 00D TO {following}", "SPOOLED", user=name)
            one.line("#CP CLOSE 00D", f"FILE {self.closes():04} CLOSED", user=name)
            one.line("#CP CLOSE 00E", f"FILE {self.closes(name):04} CLOSED", user=name)
            one.line(f"#CP MSG {following} {TEXT}", "SENT", user=name)
            one.findings.append(f"{following}: MSG FROM {name}: {TEXT}")
        for number, name in enumerate(NAMES):
            sender = (number - 1) % len(NAMES)
            decks = [f"FILE {2 * sender + 1:04} FROM {NAMES[sender]} CARDS 1"]
            if number:
                decks.append(f"FILE {self.closed - 1:04} FROM {NAMES[sender]} CARDS 1")
            one.line("#CP QUERY FILES", *decks, user=name)
            one.line("#CP IPL 00C", user=name)
            one.line("#CP DISPLAY PSW", "PSW 00000000 00000200", user=name)
            self.write(name)
            one.line("#CP LOGOFF", "LOGOFF OK", user=name)
            self.closes()
            self.closes(name)
        one.findings += [line for heading in self.printed for line in (heading, f"09 {TEXT}")]
        return one

    def write(self, name: str) -> None:
        """A card is punched and a line is printed."""
        one = self.session
        one.channel_program("00000800", "00D", name)
        one.store(0x48, "00000808", name)
        one.run(user=name)
        one.serve("00E", name)
        one.run(user=name)

    def closes(self, printer: object = None) -> object:
        """The number of a file that is closed: the punch's, or the printer's of this user."""
        self.closed += 1
        if printer:
            self.printed.append(f"== PRT {self.closed:04} {printer}")
        return self.closed


def million(session: object) -> object:
    """A script of more than a million bytes."""
    one = session("a script of a million bytes", "USER A PW 8K\n")
    one.line("LOGON", "LOGON OK")
    while len(one.script) < 53_000:
        one.line("DISPLAY PSW", "PSW 00000000 00000000")
    return one


def many(session: object) -> Iterator:
    yield Users(session).played()
    yield million(session)
