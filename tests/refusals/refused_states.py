"""Users of whom a state has all that it may have, for tests/refusals/run.py: what they do before it and after it, and what is
answered then, by docs/COMMANDS.md, docs/FORMATS.md and docs/MACHINE.md."""
from __future__ import annotations

# two users who have a device of each kind, and a disk on a volume each
DIRECTORY = "".join(
    f"""\
USER {user} PW 64K
CONSOLE 009 3215
SPOOL 00C READER
SPOOL 00D PUNCH
SPOOL 00E PRINTER
MDISK 190 3330 0 1 VOL{user} W
"""
    for user in "AB"
).encode()
VOLUMES = {
    f"VOL{user}": f"VOLUME VOL{user} 1\nREC 0 0 0000000001 C1 C2C3\nHOME 0 3 0000000009\n".encode()
    for user in "AB"
}
# more pages are stored into than have a frame
SIZES = ["--frames", "16", "--slots", "64"]
PAGES = 11
# SSK, then SIO and TIO of printer, punch, reader and console, then SIO of the disk
CODE = (
    "08129C00000E9D00000E9C00000D9D00000D9C00000C9D00000C9C0000099D0000099C000190",
    "0900090000000004010009000000005002000980000000500100090000000004",
    "0700095820000006",
)
# the places of code and channel program of these devices
DEVICES = {
    "00E": (0x102, 0x800),
    "00D": (0x10A, 0x808),
    "00C": (0x112, 0x810),
    "009": (0x11A, 0x818),
}


def works(user: str, device: str) -> list[str]:
    """A device does its channel program."""
    code, words = DEVICES[device]
    return [
        f"LINE {user} #CP STORE PSW 00000000 {code:08X}",
        f"LINE {user} #CP STORE 48 {words:08X}",
        f"RUN {user} 1",
        f"SERVE {user} {device}",
        f"RUN {user} 1",
    ]


def begins(user: str) -> list[str]:
    """A user logs on, with two decks, and sets registers, storage and a key."""
    stores = [f"{0x100 + at // 2:X} {CODE[0][at:at + 32]}" for at in range(0, len(CODE[0]), 32)]
    stores += [f"800 {CODE[1][:32]}", f"810 {CODE[1][32:]}", f"820 {CODE[2]}"]
    stores += ["900 C1C2C3C4", "958 000000000001", "G1 000000F8", "G2 00000800"]
    stores += [f"{page:X}000 {page:02X}" for page in range(1, PAGES)]
    return [
        f"LINE {user} LOGON",
        f"DECK {user} 2",
        "ONE",
        "TWO",
        f"DECK {user} 1",
        "THREE",
        *[f"LINE {user} STORE {store}" for store in stores],
        f"LINE {user} STORE PSW 00000000 00000100",
        f"LINE {user} BEGIN",
        f"RUN {user} 1",
    ]


def goes_on(user: str) -> list[str]:
    """A user has a printed and a punched file closed and one of each open, is reading a deck, has a console with an unfinished line and
    one that waits, and a disk whose program is started."""
    lines = [line for device in ("00E", "00D") for line in works(user, device)]
    lines += [f"LINE {user} #CP CLOSE 00E", f"LINE {user} #CP CLOSE 00D"]
    lines += [line for device in DEVICES for line in works(user, device)]
    return [
        *lines,
        f"LINE {user} HELLO",
        f"LINE {user} #CP STORE 48 00000820",
        f"LINE {user} #CP STORE PSW 00000000 00000122",
        f"RUN {user} 1",
    ]


def text_of(lines: list[str]) -> bytes:
    return "".join(f"{line}\n" for line in lines).encode()


# A punches for B, so that each number of a file has a known kind
BEFORE = text_of(
    [*begins("A"), *begins("B"), "LINE A #CP SPOOL 00D TO B", *goes_on("A"), *goes_on("B")]
)
AFTER = text_of(
    [
        "LINE A #CP DISPLAY G1",
        "LINE B #CP DISPLAY K800",
        "LINE A #CP DISPLAY 980",
        "LINE B #CP QUERY FILES",
        "AUTO 2",
        "LINE A #CP CLOSE 00E",
        "LINE B #CP DISPLAY 1000",
    ]
)
# what is answered to a state, and to the part after it
ANSWER = b"""\
> DONE
A: GPR 1 = 000000F8
B: KEY 000800 = F8
A: 000980 D6D5C540 40404040 40404040 40404040
B: FILE 0003 FROM SYSTEM CARDS 2
B: FILE 0004 FROM SYSTEM CARDS 1
B: FILE 0006 FROM A CARDS 1
= A 100 COUNT
= A SERVED 190
= B 100 COUNT
= B SERVED 190
A: FILE 0009 CLOSED
B: 001000 01000000 00000000 00000000 00000000
> == PRT 0009 A
> |09 ABCD
> DONE
"""
# a user more, who comes after that part, and what is answered to him
FURTHER = b"USER C PW 16K\nCONSOLE 009 3215\n"
COMES = b"LINE C LOGON\nLINE C DISPLAY 1000\n"
COMES_ANSWER = b"""\
C: LOGON OK
C: 001000 00000000 00000000 00000000 00000000
> ON C
> DONE
"""
# what a transcript has of the part
EVENTS, FILES = ANSWER.removeprefix(b"> DONE\n").removesuffix(b"> DONE\n").split(b"> ", 1)
TRANSCRIPT = EVENTS + FILES.replace(b"> |", b"")


def part(text: bytes) -> bytes:
    """A request that a part is done."""
    return b"%d\n%s" % (len(text), text)


def begun_from(state: bytes) -> bytes:
    """A request to go on from a state."""
    return b"STATE\n%d\n%s" % (len(state), state)
