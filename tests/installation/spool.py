"""What an operator does with files that users closed. Called by tests/commands/people.py."""
from __future__ import annotations

from collections.abc import Callable
import os

from tests.installation.operators import operator
from tests.lib.files import names_in, read, write
from tests.lib.sites import Site, make_site, on, run

FIRST, SECOND, OTHER = "PRT0001-ALICE", "PRT0002-ALICE", "PRT0003-BOB"


async def print_some(site: Site) -> None:
    for name, password, texts in (
        ("ALICE", "WONDER", ("ONE", "TWO")),
        ("BOB", "BUILDER", ("THREE",)),
    ):
        user = await on(site, name, password)
        user.type(*[f"PRINT {text}" for text in texts], "LOGOFF")
        await user.rest()


def answered(check: Callable, site: Site, words: str, status: int, *wanted: str) -> None:
    """What a command answers."""
    done = operator(site, *words.split())
    holds = done.returncode == status and all(text in done.stdout for text in wanted)
    check(words, holds, f"status {done.returncode}", done.stdout, done.stderr)


def try_care(check: Callable, site: Site) -> None:
    """Files are listed by user, held, released, removed and repeated; each wrong wish is refused by its reason, and changes nothing."""
    prints = f"{site.folder}/prints"
    words = ["--operate", f"{site.folder}/operator", "--printouts", prints]
    site.online(*words)
    run(print_some(site))
    check("all are written", site.await_message(f"{OTHER}.txt"), *site.findings)
    folder = f"{prints}/{site.session()}"
    answered(check, site, "spool", 0, f"{FIRST}.txt 1 line, written", "3 files")
    answered(check, site, "spool bob", 0, f"{OTHER}.txt 1 line, written", "1 file")
    answered(check, site, "spool NOBODY", 1, "there is no user NOBODY")
    answered(check, site, f"hold {FIRST}", 0, f"{FIRST}.txt is held in {folder}/held")
    check("it is in its folder", names_in(f"{folder}/held") == [f"{FIRST}.txt"])
    answered(check, site, f"hold {FIRST}", 1, f"{FIRST}.txt is held")
    answered(check, site, f"reprint {FIRST}", 1, f"{FIRST}.txt is held")
    answered(check, site, f"release {SECOND}", 1, f"{SECOND}.txt is written")
    for wrong in ("../../directory", "PRT0009-ALICE", "held"):
        answered(check, site, f"purge {wrong}", 1, f"there is no file {wrong}")
    answered(check, site, "purge", 1, "the name of a file is missing")
    check("it is suspended", site.stop() == 0, *site.findings)
    site.online(*words)
    answered(check, site, "spool ALICE", 0, f"{FIRST}.txt 1 line, held")
    check("a held one is not written again", not os.path.exists(f"{folder}/{FIRST}.txt"))
    answered(check, site, f"release {FIRST.lower()}.txt", 0, f"{FIRST}.txt is released")
    check(
        "it is back", read(f"{folder}/{FIRST}.txt") == b"ONE\n" and "held" not in names_in(folder)
    )
    answered(check, site, f"reprint {FIRST}", 0, f"{folder}/{FIRST}-2.txt")
    answered(check, site, f"reprint {FIRST}", 0, f"{folder}/{FIRST}-3.txt")
    check("copies are whole", read(f"{folder}/{FIRST}-3.txt") == b"ONE\n")
    answered(check, site, "spool alice", 0, f"{FIRST}-2.txt 1 line, written", "4 files")
    answered(check, site, f"hold {FIRST}-2", 0, f"{FIRST}-2.txt is held in {folder}/held")
    answered(check, site, f"reprint {FIRST}-3", 0, f"{folder}/{FIRST}-4.txt")
    answered(check, site, f"purge {FIRST}-2", 0, f"{FIRST}-2.txt is removed")
    answered(check, site, f"purge {FIRST}-2", 1, f"there is no file {FIRST}-2")
    told = site.await_message(f"the operator's command reprint {FIRST}-3 is done")
    check("the journal has it", told, site.since_start())
    answered(check, site, f"purge {SECOND}", 0, f"{SECOND}.txt is removed")
    answered(check, site, "spool ALICE", 0, f"{SECOND}.txt 1 line, removed")
    answered(check, site, f"hold {SECOND}", 1, f"{SECOND}.txt is removed")
    wanted = {f"{FIRST}-3.txt", f"{FIRST}-4.txt", f"{FIRST}.txt", f"{OTHER}.txt"}
    check("nothing else has changed", wanted <= set(names_in(folder)) <= wanted | {"held"})
    check("it ends", operator(site, "end").returncode == 0 and site.ended() == 0, *site.findings)


def try_transfer(check: Callable, site: Site) -> None:
    """A deck goes to the end of another reader; a wrong wish is refused by its reason, and changes nothing."""
    answered(check, site, "transfer ALICE 9 BOB", 1, "there is no deck 9 in the reader of ALICE")
    answered(check, site, "transfer ALICE 1 NOBODY", 1, "there is no user NOBODY")
    answered(check, site, "transfer ALICE BOB", 1, "transfer USER NUMBER OTHER")
    answered(check, site, "readers", 0, "ALICE: FILE 0001 FROM SYSTEM CARDS 2", "2 decks")
    answered(check, site, "transfer alice 0001 bob", 0, "BOB: FILE 0003 FROM SYSTEM CARDS 2")
    answered(check, site, "transfer ALICE 1 BOB", 1, "there is no deck 1 in the reader of ALICE")
    told = site.await_message("the operator's command transfer alice 0001 bob is done")
    check("the journal has it", told, site.since_start())
    with open(site.record) as file:
        check("it is an event", "TRANSFER ALICE 1 BOB\n" in file.read())


def try_readers(check: Callable, site: Site) -> None:
    """Decks in readers are listed by user, also after a restart."""
    words = ["--operate", f"{site.folder}/operator", "--decks", f"{site.folder}/decks"]
    site.online(*words)
    answered(check, site, "readers", 0, "0 decks")
    for name, text in (("ALICE", "ONE\nTWO\n"), ("BOB", "THREE\n")):
        write(f"{site.folder}/decks/{name}/deck", text.encode())
        check(f"{name} has a deck", site.await_message(f"deck deck for {name}: read in"))
    alice, bob = "ALICE: FILE 0001 FROM SYSTEM CARDS 2", "BOB: FILE 0002 FROM SYSTEM CARDS 1"
    for _ in range(2):
        answered(check, site, "readers", 0, alice, bob, "2 decks")
        answered(check, site, "readers bob", 0, bob, "1 deck")
        found = operator(site, "readers", "bob").stdout
        check("nobody else's are listed", "ALICE" not in found, found)
        answered(check, site, "readers NOBODY", 1, "there is no user NOBODY")
        check("it is suspended", site.stop() == 0, *site.findings)
        site.online(*words)
    try_transfer(check, site)
    check("it is suspended", site.stop() == 0, *site.findings)
    site.online(*words)
    answered(check, site, "readers", 0, "BOB: FILE 0003 FROM SYSTEM CARDS 2", "2 decks")
    check("it is suspended", site.stop() == 0, *site.findings)


def try_no_folder(check: Callable, site: Site) -> None:
    """Without a folder files are listed, and there is nothing to do to them."""
    site.online("--operate", f"{site.folder}/operator")
    run(print_some(site))
    answered(check, site, "spool", 0, f"{OTHER}.txt 1 line, closed")
    answered(check, site, f"purge {FIRST}", 1, "files are only reported, and not kept")
    check("it is suspended", site.stop() == 0)


def try_spool(check: Callable, command: str, folder: str) -> None:
    """All that is tried in seconds, over a stand-in for the program."""
    os.makedirs(folder)
    try_care(check, make_site(command, f"{folder}/care"))
    try_readers(check, make_site(command, f"{folder}/readers"))
    try_no_folder(check, make_site(command, f"{folder}/no folder"))
