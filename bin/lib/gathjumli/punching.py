"""Lines of a script that have a machine punch a deck of cards of any bytes: a DECK line has characters only."""
from __future__ import annotations

from typing import Any
from collections.abc import Iterator


CARD = 80
# if the machine punches from: a batch of cards, and after it a command word a card
CARDS_AT = 0x1000
BATCH = 40
COMMANDS_AT = CARDS_AT + BATCH * CARD
CAW = 0x48
PROGRAM_AT = 0x100


def stores(address: int, data: bytes) -> Iterator:
    """Lines that store bytes, sixteen at most in one."""
    for at in range(0, len(data), 16):
        yield f"STORE {address + at:X} {data[at : at + 16].hex().upper()}"


def punched(cards: list, punch: Any) -> Iterator:
    """What is typed and done to punch some cards: one channel program, started and waited for."""
    yield from stores(CARDS_AT, b"".join(cards))
    words = b""
    for place in range(len(cards)):
        chains = 0x40 if place + 1 < len(cards) else 0
        words += (
            bytes([1]) + (CARDS_AT + CARD * place).to_bytes(3, "big") + bytes([chains, 0, 0, CARD])
        )
    yield from stores(COMMANDS_AT, words)
    yield f"STORE {CAW:X} {COMMANDS_AT:08X}"
    # SIO, and TIO, which takes the status
    yield f"STORE {PROGRAM_AT:X} 9C000{punch}9D000{punch}"
    yield f"BEGIN {PROGRAM_AT:X}"
    yield "RUN"
    yield "SERVE"
    yield "RUN"
    yield "#CP"


def all_punched(cards: list, punch: Any) -> Iterator:
    """What is typed and done to punch all cards, in batches."""
    for at in range(0, len(cards), BATCH):
        yield from punched(cards[at : at + BATCH], punch)


def script_line(line: Any, user: Any, punch: Any) -> Any:
    return {"RUN": f"RUN {user} 1", "SERVE": f"SERVE {user} {punch}"}.get(
        line, f"LINE {user} {line}"
    )


def cards_of(data: bytes) -> list:
    """The cards of a deck of any bytes."""
    return [data[at : at + CARD] for at in range(0, len(data), CARD)]


def sent(cards: Any, sender: Any, punch: Any, receiver: Any) -> Iterator:
    """The lines that have the machine of a user send a deck to another's reader, in pieces that take a moment each. It is on for
    that alone."""
    # what it had begun to punch when the host crashed goes to the operator, and not into this deck
    before = [
        "#CP",
        "LOGON",
        f"SPOOL {punch} TO SYSTEM",
        f"CLOSE {punch}",
        "SYSTEM RESET",
        f"SPOOL {punch} TO {receiver}",
    ]
    yield script_of(before, sender, punch)
    for at in range(0, len(cards), BATCH):
        yield script_of(punched(cards[at : at + BATCH], punch), sender, punch)
    yield script_of([f"CLOSE {punch}", "LOGOFF"], sender, punch)


def script_of(lines: Any, sender: Any, punch: Any) -> bytes:
    return "".join(f"{script_line(line, sender, punch)}\n" for line in lines).encode()
