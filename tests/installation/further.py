#!/usr/bin/env python3
"""Users and minidisks that a directory adds while people are on, over the program that was built: tests/installation/further.py [--unproved].
Called by tests/commands/people.py too. The last line is 'N passed, M failed'."""
from __future__ import annotations

from collections.abc import Callable, Iterator
import asyncio
import itertools
import os
import shutil
import signal
import subprocess
import sys
import tempfile
import time

sys.dont_write_bytecode = True
TOP = os.path.dirname(os.path.dirname(os.path.dirname(os.path.realpath(__file__))))
sys.path[:0] = [TOP, f"{TOP}/bin/lib"]
from gathjumli.cli import Failure
from gathjumli.following import Program
from gathjumli.machines import of_directory, room_for_all
from gathjumli.state_growth import NUMBER, PAGE, PlacedState, grown
from gathjumli.turning import judge
from tests.installation.operators import operator
from tests.installation.states import TURN_STEPS, killed_site
from tests.installation.town import lay_out
from tests.lib.counting import Counts
from tests.lib.files import names_in, read, write
from tests.lib.images import blank_image
from tests.lib.sites import (
    BANNER,
    DEVICES,
    DIRECTORY,
    Site,
    logged_on,
    make_site,
    on,
    person,
    run,
    sizes_of,
)

Check = Callable[..., None]

# of people who come back
NUMBERS = itertools.count(1)

DISK = "MDISK 191 3330 0 1 V1 W\n"
CAROL = f"USER CAROL NEWEST 64K\n{DEVICES}{DISK}"
# people notice no more of it; without proof the program takes longer
PAUSE, UNPROVED_PAUSE = 1.0, 5.0
# a guest that counts in register 2 for ever
COUNTS = ("STORE G2 00000000", "STORE 100 4120200147F00100", "STORE PSW 00000000 00000100")
# a guest that asks for the state of device 191, and has the condition code in register 2
TESTS_DISK = ("STORE 100 9D000191052082000200", "STORE 200 0002000000000000", "BEGIN 100")


def with_disk(user: str, disk: str) -> str:
    """The directory with a further minidisk of a user."""
    return DIRECTORY.replace(f"USER {user}", f"USER {user}", 1).replace(DEVICES, DEVICES + disk, 1)


# what is refused, and what is said of it
REFUSED = {
    DIRECTORY.replace("USER BOB BUILDER 64K", "USER BOB BUILDER 128K"): "line 6 is USER BOB X 128K, and was USER BOB X 64K",
    DIRECTORY.replace("USER BOB", "USER BEN"): "line 6 is USER BEN X 64K, and was USER BOB X 64K",
    CAROL + DIRECTORY: "line 1 is USER CAROL X 64K, and was USER ALICE X 64K",
    DIRECTORY[: DIRECTORY.index("USER OPER")]: "has no longer the line USER OPER X 64K",
    DIRECTORY.removesuffix("SPOOL 00E PRINTER\n"): "has no longer the line SPOOL 00E PRINTER of OPER",
    DIRECTORY + "SPOOL 01E PRINTER\n": "line 16 adds SPOOL 01E PRINTER to OPER",
    DIRECTORY.replace("SPOOL 00C READER\n", "", 1): "line 3 is SPOOL 00D PUNCH, and was SPOOL 00C READER",
    "* NEW\n" + DIRECTORY + CAROL.replace("64K", "63K"): "BadStorage 17",
    DIRECTORY + CAROL.replace("V1", "V2"): "V2",
    DIRECTORY + CAROL + "USER DAVE NEW 64K\n" + DISK: "cylinders 0 to 0 and cylinders 0 to 0 of V1 meet",
    DIRECTORY + CAROL.replace("CAROL", "ALICE"): "ALICE",
}  # fmt: skip


def reload(site: Site) -> subprocess.CompletedProcess:
    return operator(site, "reload")


def with_volume(site: Site) -> Site:
    volume = f"{site.folder}/volume"
    write(volume, blank_image("V1", 1))
    site.paths.append(volume)
    return site


def site_with_volume(site: Site) -> Site:
    site.words += ["--operate", f"{site.folder}/operator"]
    return with_volume(site)


# --- what is refused ---


def try_refused(check: Check, site: Site) -> None:
    """A directory that does anything else than add is refused with the line, and nothing changes."""
    site.online()

    async def works() -> None:
        alice = await on(site)
        for number, (directory, wanted) in enumerate(REFUSED.items(), 1):
            write(site.paths[0], directory)
            done = await asyncio.to_thread(reload, site)
            holds = done.returncode == 1 and "directory not read again" in done.stdout
            check(f"refused: {wanted}", holds and wanted in done.stdout, done.stdout, done.stderr)
            alice.type(f"STORE G1 {number:08X}", "DISPLAY G1")
            await alice.until(f"GPR 1 = {number:08X}")
        alice.go()

    run(works())
    left = [name for name in names_in(site.folder) if name.startswith("recording.")]
    left = [name for name in left if "state" not in name and "ending" not in name]
    check("which leaves nothing", not left, *left)
    write(site.paths[0], DIRECTORY)
    check("the directory of before is taken", reload(site).returncode == 0, *site.findings)
    check("nobody was added", run(logged_on(site, "CAROL", "NEWEST")) == "LOGON REFUSED")
    check("it is suspended", site.stop() == 0, *site.findings)


# --- people who work meanwhile ---


async def answered(one: object, line: str, answer: str) -> float:
    """How long the answer to a line takes."""
    begun = time.monotonic()
    one.type(line)
    try:
        await one.until(answer)
    except asyncio.TimeoutError:
        raise AssertionError(f"{line} was not answered by {answer}: {one.lines[-5:]}") from None
    return time.monotonic() - begun


async def types(one: object, register: int, until: asyncio.Event) -> float:
    """Somebody stores and looks until something has happened; the longest wait."""
    longest, value = 0.0, 0
    while not until.is_set():
        value += 1
        one.type(f"STORE G{register} {value:08X}")
        wanted = f"GPR {register} = {value:08X}"
        longest = max(longest, await answered(one, f"DISPLAY G{register}", wanted))
    return longest


def try_added(check: Check, site: Site, pause: float) -> None:
    """A user is added while two work, and a third one computes; nobody notices, and the new one works."""
    site.online()

    async def works() -> None:
        alice, bob, oper = [await on(site, *words) for words in PEOPLE]
        stranger = await person(f"{site.folder}/socket")
        await stranger.until(BANNER)
        oper.type(*COUNTS, "BEGIN")
        await answered(alice, "STORE 200 12345678", "STORED")
        done = asyncio.Event()
        waits = [
            asyncio.create_task(types(one, place, done))
            for place, one in enumerate((alice, bob), 3)
        ]
        # a line that is not whole yet
        await asyncio.sleep(0.3)
        again = await on(site, "OPER", "SECRET")
        again.writer.write(b"#CP DISPL")
        await again.writer.drain()
        write(site.paths[0], DIRECTORY + CAROL)
        told = await asyncio.to_thread(reload, site)
        done.set()
        longest = max([await wait for wait in waits])
        check("a user is added", told.returncode == 0, told.stdout, told.stderr, *site.findings)
        check("people wait for less than a second", longest < pause, f"{longest:.2f} s")
        again.writer.write(b"AY G1\r\n")
        await again.until("GPR 1 = 00000000")
        check("a line that was begun is whole", "GPR 1 = 00000000" in again.lines, *again.lines)
        await answered(alice, "DISPLAY 200", "000200 12345678 00000000 00000000 00000000")
        for one in (alice, bob):
            wrong = [line for line in one.lines if not line.startswith(KNOWN)]
            check("nobody notices", not wrong and one.lines.count("LOGON OK") == 1, *wrong)
        stranger.type("LOGON CAROL NEWEST")
        answer = await stranger.until("LOGON OK", "LOGON REFUSED")
        check("the new one logs on, also from before", answer == "LOGON OK", *stranger.lines)
        await answered(stranger, "STORE 300 ABCDEF01", "STORED")
        alice.type("MSG CAROL HELLO")
        await stranger.until("MSG FROM ALICE: HELLO")
        stranger.type("QUERY VIRTUAL")
        other = await on(site)
        check("a terminal is taken over", "RECONNECTED" in other.lines, *other.lines)
        await alice.until("ANOTHER TERMINAL TAKES OVER")
        for one in (bob, stranger, again, other):
            one.go()

    run(works())
    told = site.await_message("user CAROL; the recording of before is in")
    check("the journal has it", told, *site.findings)


PEOPLE = (("ALICE", "WONDER"), ("BOB", "BUILDER"), ("OPER", "SECRET"))
KNOWN = (BANNER, "LOGON OK", "STORED", "GPR ", "000200 12345678", "SENT")


async def back(site: Site, name: str = "ALICE", password: str = "WONDER") -> object:
    """Somebody who has come back, and has seen the lines of before."""
    one = await on(site, name, password)
    value = next(NUMBERS)
    one.type(f"STORE G9 {value:08X}")
    await answered(one, "DISPLAY G9", f"GPR 9 = {value:08X}")
    return one


async def has_all(check: Check, site: Site, name: str) -> None:
    """All that was done is there."""
    carol = await back(site, "CAROL", "NEWEST")
    await answered(carol, "DISPLAY 300", "000300 ABCDEF01 00000000 00000000 00000000")
    alice = await back(site)
    await answered(alice, "DISPLAY 200", "000200 12345678 00000000 00000000 00000000")
    check(name, "RECONNECTED" in alice.lines, *alice.lines)
    alice.go()
    carol.go()


def try_kills(check: Check, site: Site) -> None:
    """What was done after the turn outlives a kill of all, and a program that dies."""
    site.kill(is_all=True)
    site.online()
    run(has_all(check, site, "a kill loses nothing"))
    os.kill(site.program(), signal.SIGKILL)
    run(has_all(check, site, "nor does a program that dies"))


def try_again(check: Check, site: Site) -> None:
    """A further user and a minidisk of one who is there, by a SIGHUP; then a suspend."""
    write(site.paths[0], DIRECTORY + CAROL + "USER DAVE DAY 64K\n" + DEVICES)
    site.process.send_signal(signal.SIGHUP)
    check("by a signal", site.await_message("user DAVE;"), *site.findings)
    check("who logs on", run(logged_on(site, "DAVE", "DAY")) == "LOGON OK")
    check("it is suspended", site.stop() == 0, *site.findings)
    site.online()
    run(has_all(check, site, "the next start goes on"))


def replayed(command: str, site: Site, directory: str, record: str, state: str = "") -> str:
    """What the program makes of a recording, from a state if there is one."""
    words = [*sizes_of(record), *(["--state", state] if state else []), "--", directory, record]
    command = command.replace("/installation", "/vm370")
    done = subprocess.run([command, *words, *site.paths[1:]], capture_output=True, text=True)
    return done.stdout if done.returncode == 0 else done.stderr


def try_replays(check: Check, site: Site) -> None:
    """The recordings before and after a turn replay, each over its directory."""
    check("it is suspended", site.stop() == 0, *site.findings)
    folders = sorted(name for name in names_in(site.folder) if name.startswith("recording.2"))
    check("a folder for each session before", len(folders) == 2, *folders)
    for place, name in enumerate(folders):
        folder = f"{site.folder}/{name}"
        state = f"{folder}/begin" if place else ""
        text = replayed(site.command, site, f"{folder}/directory", f"{folder}/recording", state)
        wanted = ("ALICE: STORED", "CAROL: STORED")[place]
        check(f"the recording {place + 1} replays", wanted in text, text[-500:])
        check("without who came later", ("DAVE" in text) is False)
    begin = f"{site.record}.begin"
    text = replayed(site.command, site, site.paths[0], site.record, begin)
    check("so does the last one", "DAVE: LOGON OK" in text, text[-500:])
    check("which says what was added", b"* ADDED USER DAVE\n" in read(site.record))


def try_disks(check: Check, site: Site) -> None:
    """A minidisk of a user who is there."""
    site.online()
    run(logged_on(site, "ALICE", "WONDER"))
    write(site.paths[0], with_disk("ALICE", DISK))
    done = reload(site)
    holds = done.returncode == 0 and site.await_message("minidisk 191 of ALICE;")
    check("a minidisk is added", holds, done.stdout, *site.findings)

    async def looks() -> None:
        alice = await back(site)
        alice.type(*TESTS_DISK)
        await alice.until("STOPPED DISABLED WAIT")
        found = await answered(alice, "DISPLAY G2", "GPR 2 = 40000106")
        check("its user has it at once", found >= 0)
        alice.go()

    run(looks())
    check("it ends", operator(site, "end").returncode == 0 and site.ended() == 0, *site.findings)
    site.online()
    run(looks())
    check("it is suspended", site.stop() == 0, *site.findings)


def try_decks(check: Check, site: Site) -> None:
    """A deck that was read in and can't be moved is not read in again, neither after a turn nor after an end."""
    folder, words = f"{site.folder}/decks", ["--decks", f"{site.folder}/decks"]
    site.online(*words)
    check("BOB is on", run(logged_on(site, "BOB", "BUILDER")) == "LOGON OK", *site.findings)
    # where the folder of decks that were read in should be
    os.symlink("nowhere", f"{folder}/BOB/done")
    write(f"{folder}/BOB/text", b"FIRST CARD\n")
    stays = "; the file is skipped until it changes"
    check("a deck is read in and stays", site.await_message(stays), *site.findings)
    write(site.paths[0], DIRECTORY + CAROL)
    check("a user is added", reload(site).returncode == 0, *site.findings)
    site.kill(is_all=True)
    site.online(*words)
    check("it still stays", site.await_message(stays), *site.findings)
    check("it ends", operator(site, "end").returncode == 0 and site.ended() == 0, *site.findings)
    os.unlink(f"{folder}/BOB/done")
    site.online(*words)
    check("then it is moved", site.await_message("deck text for BOB: read in"), *site.findings)
    bob = run(queried(site))
    check("it was read in once", len([line for line in bob if " FROM " in line]) == 1, *bob)
    check("it is suspended", site.stop() == 0, *site.findings)


async def queried(site: Site) -> list[str]:
    """What BOB is shown of his files."""
    bob = await on(site, "BOB", "BUILDER")
    bob.type("STORE G9 00000001", "QUERY FILES", "DISPLAY G9")
    await bob.until("GPR 9 = 00000001")
    bob.go()
    return bob.lines


# --- states that are put together wrongly ---


def at_place(data: bytes, place: int, piece: bytes) -> bytes:
    """Bytes with other ones from a place on."""
    return data[:place] + piece + data[place + len(piece) :]


def wrong_states(state: PlacedState, booted: PlacedState) -> Iterator[tuple[str, bytes]]:
    """States that take a user's place or give somebody what is another's, by what is wrong."""
    right = grown(state, booted)
    yield "a state over a shorter directory", state.data
    yield "a further user in the place of one", right.replace(state.user(1), booted.user(3))
    made = PlacedState(right)
    first, last = made.users.starts[0], made.users.starts[1]
    yield "a user more before all", right[:first] + right[first:last] + right[first:]
    yield "a further user who is not as booted", right.replace(made.user(3), made.user(2))
    # his first page in the last frame, with what is in ALICE's
    page = b"\1" + state.storage_of(0)[9:][:PAGE]
    storage = made.pool.storages.starts[3] + 9
    owner = made.pool.supply.owners.starts[-1]
    placed = right[:storage] + page + right[storage + 1 :]
    there = b"\1\1" + NUMBER.pack(3) + NUMBER.pack(0)
    yield "a further user with storage of another", placed[:owner] + there + placed[owner + 2 :]
    keys = made.users.values[0].keys.end - 8
    yield "a user with another key", at_place(right, keys, NUMBER.pack(7))


def try_wrong(check: Check, program: str, folder: str) -> None:
    """A state that is put together wrongly is refused: by the program, or by what it answers of each user."""
    os.makedirs(folder)
    volume = f"{folder}/volume"
    write(volume, blank_image("V1", 1))

    def begun(name: str, directory: str) -> Program:
        write(f"{folder}/{name}", directory)
        machines = of_directory(f"{folder}/{name}", [], [volume])
        room_for_all(machines)
        machines.path = program
        return Program(machines, "--terminals")

    def placed(running: Program, script: bytes) -> PlacedState:
        running.do(script)
        saved = PlacedState(running.save().whole())
        running.close()
        return saved

    script = b"LINE ALICE LOGON\nLINE ALICE STORE 0 12345678\nLINE BOB LOGON\n"
    state = placed(begun("before", DIRECTORY), script)
    booted = placed(begun("longer", DIRECTORY + CAROL), b"")
    wrong = {"none": grown(state, booted), **dict(wrong_states(state, booted))}
    for name, data in wrong.items():
        running = begun("longer", DIRECTORY + CAROL)
        try:
            running.restore(len(data), [data])
            judge(running, PlacedState(data), state, booted)
            is_refused = False
        except Failure:
            is_refused = True
        running.close()
        check(f"refused: {name}", is_refused == (name != "none"))


# --- a command that dies between two steps ---


async def does(site: Site, line: str, answer: str) -> None:
    """ALICE types a line that is answered so, and goes."""
    alice = await back(site)
    await answered(alice, line, answer)
    alice.go()


def try_step(check: Check, site: Site, step: str, is_second: bool) -> None:
    """A kill at a step of a turn: the session goes on, with or without the new user, with all that was shown."""
    site.online()
    run(does(site, "STORE 200 12345678", "STORED"))
    if is_second:
        # a session that goes on from the state of another one
        site.operate("end")
        check("it ends", site.ended() == 0, *site.findings)
        site.online()
        run(does(site, "STORE 204 9ABCDEF0", "STORED"))
    os.environ["PEOPLE_STEP"] = step
    site.kill(is_all=True)
    site.online("--operate", f"{site.folder}/operator")
    write(site.paths[0], DIRECTORY + CAROL)
    site.process.send_signal(signal.SIGHUP)
    site.ended()
    os.environ["PEOPLE_STEP"] = ""
    # the operator puts back the directory of the session, if it was not turned
    has_turned = step == "go_on_with"
    write(site.paths[0], DIRECTORY + CAROL * has_turned)
    site.online()
    word = "9ABCDEF0" if is_second else "00000000"
    run(does(site, "DISPLAY 200", f"000200 12345678 {word} 00000000 00000000"))
    answer = run(logged_on(site, "CAROL", "NEWEST"))
    wanted = "LOGON OK" if has_turned else "LOGON REFUSED"
    check(f"a kill at {step}", answer == wanted, *site.findings)
    check("it is suspended", site.stop() == 0, *site.findings)


def try_further(
    check: Check, command: str, program: str, folder: str, pause: float = PAUSE
) -> None:
    """All that is tried in seconds, over the program."""
    try_wrong(check, program, f"{folder}/wrong")
    try_refused(check, site_with_volume(make_site(command, f"{folder}/refused")))
    site = site_with_volume(make_site(command, f"{folder}/added"))
    try_added(check, site, pause)
    try_kills(check, site)
    try_again(check, site)
    try_replays(check, site)
    try_disks(check, site_with_volume(make_site(command, f"{folder}/disks")))
    try_decks(check, site_with_volume(make_site(command, f"{folder}/decks")))
    for step in TURN_STEPS:
        for is_second in (False, True):
            site = killed_site(command, f"{folder}/{step} {is_second}")
            try_step(check, with_volume(site), step, is_second)


def main() -> None:
    is_unproved = "--unproved" in sys.argv[1:]
    folder = tempfile.mkdtemp()
    totals = Counts()
    try:
        repository = lay_out(folder, is_unproved)
        command, program = f"{repository}/bin/installation", f"{repository}/programs/gathjumli_cli"
        pause = UNPROVED_PAUSE if is_unproved else PAUSE
        try_further(totals.check, command, program, folder, pause)
    finally:
        shutil.rmtree(folder)
    sys.exit(totals.report())


if __name__ == "__main__":
    main()
