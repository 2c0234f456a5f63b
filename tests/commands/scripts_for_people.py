"""Tests scripts with lines for people, --quiet and --strict (docs/FORMATS.md, "Lines for people"), and what is said of an IPL that
failed, over bare370."""
from __future__ import annotations

from gathjumli import loading
from tests.lib.files import write

# register 1 becomes 5; then the machine waits for nothing
SOURCE = """ ORG X'100'
BEGIN LA 1,5
 LPSW DONE
DONE PSW X'20000',X'600D'
 END BEGIN
"""
SCRIPT = """* a guest
LINE BARE LOGON
LOAD BARE {path}
LINE BARE BEGIN 100
AUTO
LINE BARE #CP DISPLAY G1
"""
ENDED = "BARE: STOPPED DISABLED WAIT\n= BARE 2 DISABLEDWAIT\nBARE: GPR 1 = 00000005\n"
# loads that fail: without a deck, from a card of text, from the rest of that deck, from a blank disk
FAILED_LOADS = """LINE BARE LOGON
LINE BARE IPL 00C
DECK BARE 1
HELLO WORLD THIS IS A CARD
LINE BARE #CP IPL 00C
LINE BARE IPL 00C
LINE BARE IPL 190
LINE BARE #CP DISPLAY 0
"""
REASONS = {
    2: "the reader has no deck (intervention required)",
    5: "in the first card the command word at 8 is D9D3C440 E3C8C9E2, which has a flag that no word may have",
    6: "the deck has no more cards (unit exception)",
    7: "the disk's first track has no record 1 (no record found)",
}
# sixteen bytes at 100; a card's 48 begin at F0
STORES = {"stores": 1, "deck": 2}


def try_scripts(check: object, work: str, run: object) -> None:
    """Each on its own: run gives a command its words and standard input."""
    write(f"{work}/a.asm", SOURCE)
    write(f"{work}/stores", run("asm370", f"{work}/a.asm").raw)
    write(f"{work}/deck", run("asm370", "--deck", f"{work}/a.asm").raw)

    def played(script: str, *options: str) -> object:
        write(f"{work}/script", script)
        return run("bare370", *options, "64K", f"{work}/script")

    for name, count in STORES.items():
        script = SCRIPT.format(path=f"{work}/{name}")
        done = played(script)
        whole = "BARE: LOGON OK\n" + count * "BARE: STORED\n" + ENDED
        check(f"LOAD of {name}", done.status == 0 and done.out == whole, *done.findings())
    done = run("bare370", "--quiet", "--strict", "64K", "-", given=script.encode())
    is_right = done.status == 0 and done.out == f"BARE: LOGON OK\n{ENDED}" and not done.err
    check("a quiet run from a pipe", is_right, *done.findings())
    try_complaints(check, work, played, script)
    try_faults(check, work, played, script)


def try_loads(check: object, work: str, run: object) -> None:
    """What is said of an IPL that failed, and that nothing of what was asked for it is in the transcript."""
    tracks = b"".join(bytes([0, 0, 0, 0, head, 0]) for head in range(19))
    write(f"{work}/image", b"CKD2WORK01\0\1" + tracks + bytes(4))
    write(f"{work}/script", FAILED_LOADS)
    done = run("bare370", "64K", f"{work}/script", f"{work}/image")
    wanted = "".join(
        f"bare370: {work}/script:{line}:1: IPL FAILED: {why}\n" for line, why in REASONS.items()
    )
    # the first run also says that it builds
    said = "".join(line for line in done.err.splitlines(True) if ": IPL FAILED: " in line)
    check("reasons of loads that fail", done.status == 0 and said == wanted, *done.findings())
    shown = "BARE: 000000 C8C5D3D3 D640E6D6 D9D3C440 E3C8C9E2\n"
    out = "BARE: LOGON OK\n" + 4 * "BARE: IPL FAILED\n" + shown
    check("their transcript", done.out == out, *done.findings())
    kinds = {"00C": "reader", "190": "disk"}
    advice = [loading.advice([f"#CP IPL {addr}"], kinds) for addr in ("00C", "190", "00D")]
    is_right = [len(item) for item in advice] == [1, 1, 0] and "DECK" in advice[0][0]
    check("what an installation says of them", is_right, *map(str, advice))
    done = run("terminal", "--bare", "64K", given=b"LOGON\nIPL 00C\nIPL 00C\n:undo\n:quit\n")
    reason = f"IPL FAILED\n({REASONS[2]})\n"
    out = f"LOGON OK\n{reason}{reason}(taken back: LINE BARE IPL 00C)\n"
    check("a load that fails at a terminal", done.out == out, *done.findings())


def try_complaints(check: object, work: str, played: object, script: str) -> None:
    wrong = script + "LINE BARE STORE 100 5A10020\nLINE BARE DISPLAY G1\n"
    done = played(wrong, "--strict", "--quiet")
    check(
        "a complaint ends a strict run",
        done.status == 79 and done.out.endswith(f"{ENDED}BARE: BAD OPERAND 2\n"),
        *done.findings(),
    )
    wanted = (
        f"bare370: {work}/script:7:1: LINE BARE STORE 100 5A10020: the answer is BAD OPERAND 2\n"
    )
    check("and is reported with its line", done.err == wanted, *done.findings())
    done = played(wrong)
    check("without the option it does not", done.status == 0, *done.findings())


def try_faults(check: object, work: str, played: object, script: str) -> None:
    with open(f"{work}/turns", "w") as file:
        file.write("* A script with turns.\nLINE BARE LOGON\nAUTO 2\n")
    done = played(script + "BAD\n")
    is_right = done.status == 1 and done.err.startswith("fault: script Line 7\n") and not done.out
    check("a wrong line is counted as in the script", is_right, *done.findings())
    for path, reason in (
        (f"{work}/none", "No such file or directory"),
        (work, "Is a directory"),
        (f"{work}/a.asm", "has no line LINE and no card TXT"),
        (f"{work}/turns", "may have lines LINE and comments, and no other line: AUTO 2"),
    ):
        done = played(f"LINE BARE LOGON\nLOAD BARE {path}\n")
        is_right = done.status == 1 and f"{work}/script:2:11: {path}" in done.err
        check(f"LOAD: {reason}", is_right and reason in done.err, *done.findings())
