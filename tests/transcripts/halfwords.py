"""Each first halfword of an instruction, in supervisor and in problem state, by a user of vm370 next to a neighbour and by a machine
of bare370 that is given the same events: a part of tests/transcripts/run.py."""
from __future__ import annotations

from collections.abc import Iterator
from typing import TYPE_CHECKING
import itertools

if TYPE_CHECKING:
    from tests.lib.desk import Account

# The user has the name that bare370 gives its machine. The neighbour's machine is running, and is never let run.
DIRECTORY = """USER NEIGHBOR PW 8K
CONSOLE 009 3215
SPOOL 00D PUNCH
USER BARE PW 8K
CONSOLE 009 3215
SPOOL 00C READER
SPOOL 00D PUNCH
SPOOL 00E PRINTER
"""
# what is typed once: bytes that instructions come to
FILLING = """STORE 0 000000000012345C8142C3D4F1F2F3F4
STORE 10 F5F6F7F8F9D1C9E25AA55AA500FF00FF
STORE 80 0123456789ABCDEFFEDCBA9876543210
STORE F0 7FFFFFFF80000000FFFFFFFF00000001
STORE 700 180247F07000581007F0920107F10AFF
STORE 780 182047F0770450F007800700D20707F8
STORE 7F8 A1B2C3D4E5F60718293A4B5C6D7E8F90
STORE A00 000000000000001C000000000000002D
STORE C00 00010203040506070809101112131415
STORE C40 02000FC06000005004000FBF20000001
STORE FF8 112233445566778899AABBCCDDEEFF00
STORE 1800 C1C2C3C4C5C6C7C8C9D1D2D3D4D5D6D7
STORE 1FF0 F0F1F2F3F4F5F6F7F8F9C0D0A0B0E0F0""".splitlines()
# STD 0,360; STD 2,368; STD 4,370; STD 6,378
FLOATING = "340 60000360602003686040037060600378"
# What an instruction finds: the first bytes of storage, the PSWs that a supervisor call and a program interruption load, the
# channel address word of a program that reads a card over the end of a page and a sense that is refused; at 400 what the
# registers are loaded from.
SETTING = [
    "0 000000000012345C8142C3D4F1F2F3F4",
    "48 00000C40",
    "60 00000000000007000004000000000780",
    "400 00000800000001230000100040000100",
    "410 00001FF00000001000001FFE7FFFFFFF",
    "420 80000000FFFFFFFF00000A0400000001",
    "430 00000C00000000030000180000000306",
    FLOATING,
]
# supervisor and problem state, with a program mask of ones, at LM 0,15,400
STATES = {"supervisor": "00000000 0F0002FC", "problem": "00010000 0F0002FC"}
# its LCTL shows the control registers each time
LOADS_CONTROL = 0xB7
# how many instructions stand between two looks at all of the storage
EACH = 32


def typed(user: Account, lines: list) -> str:
    """Lines that are typed while the machine may run."""
    return "".join(f"LINE {user} #CP {line}\n" for line in lines)


def shown(user: Account, lines: list) -> object:
    return typed(user, (f"DISPLAY {line}" for line in lines))


GENERAL = [f"G{number}" for number in range(16)]
CONTROL = [f"X{number}" for number in range(16)]
ALL = [
    *GENERAL,
    *CONTROL,
    *(f"K{number:X}" for number in range(0, 0x2000, 2048)),
    *(f"{number:X}" for number in range(0, 0x2000, 16)),
]
# What is seen of each instruction, registers for floating point by storing them; a reader that it started is served.
LOOK = (
    shown("BARE", ["PSW", *GENERAL, *(f"{number:X}" for number in range(0, 0x50, 16))])
    + "SERVE BARE 00C\n"
)
LOOK += (
    typed("BARE", ["STORE PSW 00000000 00000340", "BEGIN"])
    + "RUN BARE 4\n"
    + shown("BARE", ["360", "370"])
)
BEFORE = typed("BARE", (f"STORE {item}" for item in SETTING))
BEGUN = (
    "".join(f"LINE BARE {item}\n" for item in ["LOGON", *FILLING])
    + "DECK BARE 3\n"
    + "".join(80 * item + "\n" for item in "ABC")
)
NEIGHBOUR = "".join(
    f"LINE NEIGHBOR {item}\n" for item in ["LOGON", *FILLING, "STORE G7 00ABCDEF", "BEGIN 700"]
)
NEIGHBOUR_ENDED = shown("NEIGHBOR", ["PSW", *ALL])


class Halfwords:
    """An operation code with each second byte, in one state."""

    number = 256

    def __init__(self, state: str, code: int) -> None:
        self.place, self.state, self.code = f"{state} state, {code:02X}", state, code

    def script(self) -> str:
        """What the user is given."""
        some = [BEGUN]
        look = LOOK + shown("BARE", CONTROL) * (self.code == LOADS_CONTROL)
        for second in range(256):
            some += [
                BEFORE,
                f"LINE BARE #CP STORE 2FC 980F0400{self.code:02X}{second:02X}000C0000\n",
                f"LINE BARE #CP STORE PSW {STATES[self.state]}\nLINE BARE #CP BEGIN\nRUN BARE 2\n",
                look,
            ]
            if (second + 1) % EACH == 0:
                some.append(shown("BARE", ALL))
        return "".join(some)

    def difference(self, player: object) -> object:
        """What differs first between the user and the machine, or of the neighbour and his."""
        own = self.script()
        ended, findings = player.findings(
            "vm370",
            {"script": NEIGHBOUR + own + NEIGHBOUR_ENDED, "directory": DIRECTORY},
            ["--frames", "16", "--slots", "0", "directory", "script"],
        )
        bare, wanted = player.findings("bare370", {"script": own}, ["8K", "script"])
        script = (NEIGHBOUR + NEIGHBOUR_ENDED).replace("NEIGHBOR", "BARE")
        other, stays = player.findings("bare370", {"script": script}, ["8K", "script"])
        if ended or bare or other:
            return f"statuses {ended}, {bare}, {other}"
        stays = stays.replace("BARE: ", "NEIGHBOR: ")
        if wanted in findings and findings.replace(wanted, "", 1) == stays:
            return None
        lines = [line for line in findings.splitlines() if "NEIGHBOR" not in line]
        pairs = enumerate(itertools.zip_longest(lines, wanted.splitlines()), 1)
        others = (f"line {at}: {one!r}, and bare {two!r}" for at, (one, two) in pairs if one != two)
        return next(others, "the neighbour's machine")


def halfwords() -> Iterator:
    """All of them, a session for each operation code and state."""
    yield from (Halfwords(state, code) for state in STATES for code in range(256))
