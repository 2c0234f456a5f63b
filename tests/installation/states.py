"""States of an installation: what a start takes and refuses, and kills between the steps of saving. Called by
tests/commands/people.py."""
from __future__ import annotations

from collections.abc import Callable
import asyncio
import errno
import itertools
import os
import re
import runpy
import signal
import subprocess
import sys

from tests.installation.basics import without_sums
from tests.lib.files import names_in, read, write
from tests.lib.images import blank_image
from tests.lib.places import TOP
from tests.lib.sites import PRINTS, Site, make_site, on, replayed, run, sizes_of, until_so

Check = Callable[..., None]

# what comes after each step of saving
STEPS = {
    "the file is written": "fsync",
    "the file is on the disk": "replace",
    "the file has its name": "sync_folder",
    "the name is on the disk": "mark_state",
    "the mark is written": "marked",
}
# those of taking further users, of which the last one is after the other recording is in its place
TURN_STEPS = (
    "prepare_turn",
    "write_state",
    "beginning_with",
    "forget_states",
    "replace",
    "go_on_with",
)
# of people who appear back
NUMBERS = itertools.count(100)
# what the stand-in refuses
WRONG = b"no state"


# --- a command that dies at a step ---


class Instead:
    """A module with one function that is another."""

    def __init__(self, module: object, name: str, function: Callable) -> None:
        self.module = module
        setattr(self, name, function)

    def __getattr__(self, name: str) -> object:
        return getattr(self.module, name)


def die(*_: object) -> None:
    os.kill(os.getpid(), signal.SIGKILL)


def fail(*_: object) -> None:
    raise OSError(errno.ENOSPC, os.strerror(errno.ENOSPC))


def die_before(name: str) -> None:
    """Has the command die where it calls a function of this name to save a state."""
    from gathjumli import recording, state_files, states

    if name in ("fsync", "replace"):
        state_files.os = Instead(os, name, die)
    elif name == "mark_state":
        recording.Recording.mark_state = die
    elif name == "sync_folder":
        state_files.sync_folder = die
    elif name == "marked":
        mark = recording.Recording.mark_state
        recording.Recording.mark_state = lambda *given: (mark(*given), die())
    elif name == "full":
        state_files.os = Instead(os, "fsync", fail)
    elif name == "little":
        recording.Recording.free = lambda _: states.LITTLE_FREE
    elif name == "bound":
        states.MOST_BYTES = 10
    elif name == "broken":
        break_reading()
    elif name in END_STEPS.values():
        die_in_end(name)
    elif name in TURN_STEPS:
        die_in_turn(name)


def die_in_end(name: str) -> None:
    """Has the command die where it calls a function of this name to end a session."""
    from gathjumli import checkpoints, recording, states
    from gathjumli.following import Program

    if name == "save_last":
        states.States.save_last = die
    elif name == "mark":
        recording.Recording.mark = die
    elif name == "finish":
        Program.finish = die
    elif name == "succeeding":
        recording.Recording.succeeding = die
    elif name == "forget":
        checkpoints.sync_folder = lambda path: path.endswith("/recording") and die()
    else:
        setattr(checkpoints.Checkpoint, name, die)


def die_in_turn(name: str) -> None:
    """Has the command die where it calls a function of this name to take further users."""
    from gathjumli import checkpoints, engine, stores, turning

    places = {
        "prepare_turn": checkpoints.Checkpoint,
        "write_state": turning,
        "beginning_with": turning,
        "forget_states": checkpoints,
        "replace": stores.FileStore,
        "go_on_with": engine.Engine,
    }
    setattr(places[name], name, die)


def break_reading() -> None:
    """Has the program end otherwise than by a refusal where it reads a state."""
    from gathjumli.cli import Failure
    from gathjumli.following import Program

    def ends(*_: object) -> None:
        raise Failure(70)

    Program.restore = ends


def run_killed(step: str, command: str, *words: str) -> None:
    sys.path.insert(0, f"{os.path.dirname(command)}/lib")
    if step:
        die_before(step)
    sys.argv = [command, *words]
    runpy.run_path(command, run_name="__main__")


def killed_site(command: str, folder: str, *words: str) -> Site:
    """An installation that dies at the step which the environment names."""
    site = make_site(f"{folder}/installation", folder, *words)
    begun = f"import sys; sys.path.insert(0, '{TOP}'); from tests.installation.states import run_killed; run_killed(*sys.argv[1:])"
    text = f'#!/bin/sh\nexec "{sys.executable}" -Bc "{begun}" "$PEOPLE_STEP" "{command}" "$@"\n'
    write(site.command, text)
    os.chmod(site.command, 0o755)
    os.environ["PEOPLE_STEP"] = ""
    return site


# --- what people do ---


async def stored(site: Site, value: int) -> None:
    """Somebody stores a value, and goes."""
    alice = await on(site)
    alice.type(f"STORE G1 {value:08X}", "DISPLAY G1")
    await alice.until(f"GPR 1 = {value:08X}")
    alice.go()


async def typed_last(site: Site) -> None:
    """Somebody types a line, at which the installation ends."""
    alice = await on(site)
    alice.type("DISPLAY G1")
    await alice.rest()


async def shown(site: Site) -> list[str]:
    """What somebody who appears back sees, and what the register has."""
    alice = await on(site)
    # no line from before looks like it
    last = next(NUMBERS)
    alice.type("DISPLAY G1", f"STORE G2 {last:08X}", "DISPLAY G2")
    await alice.until(f"GPR 2 = {last:08X}")
    alice.go()
    return alice.lines


def value_in(lines: list[str]) -> int:
    return int([line for line in lines if line.startswith("GPR 1 = ")][-1].split()[-1], 16)


def state_names(site: Site) -> list[str]:
    return [name for name in names_in(site.folder) if name.startswith("recording.state-")]


def last_state(site: Site) -> str:
    """The path of the state that the recording names last."""
    name = re.findall(rb"^\* STATE (\S+)", read(site.record), re.M)[-1].decode()
    return f"{site.record}.{name}"


def begun_with(site: Site) -> str:
    """The state with which the last session began, or nothing."""
    return (re.findall(r"begins with (.*)", site.since_start()) or [""])[-1]


# --- tests ---


def try_going_on(check: Check, site: Site, program: str) -> None:
    """A suspension saves a state, from which the next start goes on; nothing of what was shown or stored is lost."""
    site.online()
    run(stored(site, 1))
    check("it is suspended", site.stop() == 0 and len(state_names(site)) == 1, *site.findings)
    path = last_state(site)
    check("a state is for its owner alone", os.stat(path).st_mode & 0o777 == 0o600)
    site.online()
    lines = run(shown(site))
    check("a start goes on from the state", begun_with(site) == path, *site.findings)
    holds = value_in(lines) == 1 and "STORE G1 00000001" in lines and "STORED" in lines
    check("and who appears back sees his lines", holds and "RECONNECTED" in lines, *lines)
    site.operate("status")
    check("status reports it", site.await_message("the last state has"), *site.findings)
    os.kill(site.program(), signal.SIGKILL)
    check("a program that dies goes on from it", value_in(run(shown(site))) == 1, *site.findings)
    site.kill(is_all=True)
    site.online()
    check("also after a kill", value_in(run(shown(site))) == 1 and begun_with(site) == path)
    for value in (2, 3):
        run(stored(site, value))
        check("it is suspended again", site.stop() == 0, *site.findings)
        site.online()
    check("two states are kept", len(state_names(site)) == 2, *state_names(site))
    check("it ends", site.stop() == 0)
    done, seen = replayed(program, site.paths[0], site.record)
    check("the recording is a script as before", done.returncode == 0, done.stderr)
    values = [line for line in seen["ALICE"] if line.startswith("GPR 1 = ")]
    check(
        "which shows the same", values == [f"GPR 1 = {n:08X}" for n in (1, 1, 1, 1, 2, 3)], *values
    )


def try_seconds(check: Check, site: Site) -> None:
    """While a guest computes states are saved, and none without the option."""
    for words, is_saved in ((["--state-every", "0"], False), (["--state-every", "1"], True)):
        site.online(*words)

        async def computes() -> None:
            alice = await on(site)
            alice.type("STORE G1 00000000", "STORE 100 4111000147F00100", "BEGIN 100")
            if is_saved:
                await until_so(lambda: state_names(site))
            else:
                await asyncio.sleep(3)
            alice.type("#CP")
            alice.go()

        run(computes())
        check(f"with {words} states are saved: {is_saved}", bool(state_names(site)) == is_saved)
        if is_saved:
            site.kill(is_all=True)
            site.online()
            check("a start goes on from one", begun_with(site) != "", *site.findings)
        check("it is suspended", site.stop() == 0, *site.findings)
        check("a suspension without them saves none", bool(state_names(site)) == is_saved)


def try_steps(check: Check, site: Site) -> None:
    """A kill between each two steps of saving loses nothing, and leaves no file that nobody removes."""
    site.online()
    run(stored(site, 1))
    check("it is suspended", site.stop() == 0, *site.findings)
    before = last_state(site)
    for value, (what, step) in enumerate(STEPS.items(), 2):
        os.environ["PEOPLE_STEP"] = step
        site.online()
        run(stored(site, value))
        check(f"it is killed when {what}", site.stop() == -signal.SIGKILL, *site.findings)
        os.environ["PEOPLE_STEP"] = ""
        is_marked = last_state(site) != before
        check(f"when {what} there is a mark: {is_marked}", is_marked == (step == "marked"))
        site.online()
        check(f"a start goes on when {what}", begun_with(site) == last_state(site), *site.findings)
        check(f"nothing is lost when {what}", value_in(run(shown(site))) == value, *site.findings)
        check("it is suspended", site.stop() == 0, *site.findings)
        before = last_state(site)
        names = state_names(site)
        is_clean = len(names) == 2 and not any(".new" in name for name in names)
        check(f"two states are kept when {what}", is_clean, *names)


def spoil(path: str) -> None:
    data = bytearray(read(path))
    data[-60] ^= 1
    write(path, bytes(data))


def put_wrong_state(site: Site) -> None:
    """Has the last state be one that the program refuses, with all sums right."""
    from gathjumli.following import SavedState
    from gathjumli.state_files import read_state, write_state

    known = read_state(last_state(site))
    digits = write_state(known.path, known.base, known.notes, SavedState([WRONG]))
    text = read(site.record).replace(known.sum.encode(), digits.encode())
    write(site.record, without_sums(text))


def try_wrong_states(check: Check, site: Site) -> None:
    """A state that is not as it was written, or that the program refuses, is reported, and the one before is taken, or none."""
    for value in (1, 2):
        site.online()
        run(stored(site, value))
        check("it is suspended", site.stop() == 0, *site.findings)
    one, other = sorted(
        (f"{site.folder}/{name}" for name in state_names(site)), key=os.path.getmtime
    )
    kept = read(one), read(other), read(site.record)

    def begins(what: str, *findings: str, path: str) -> None:
        site.online()
        holds = all(text in site.since_start() for text in findings) and begun_with(site) == path
        check(what, holds, *site.findings)
        check(f"{what}: nothing is lost", value_in(run(shown(site))) == 2, *site.findings)
        site.kill(is_all=True)
        for name, data in zip((one, other, site.record), kept):
            write(name, data)

    spoil(other)
    begins("a state that was changed", f"{other} is not as it was written", path=one)
    spoil(one)
    spoil(other)
    begins("two that were changed", "is not as it was written", path="")
    os.unlink(other)
    begins("one that is gone", f"{other}: No such file", path=one)
    write(other, read(one))
    begins("another one", "is another one than the recording says", path=one)
    write(other, read(other)[:100])
    begins("one that is cut", f"{other} is not as it was written", path=one)
    put_wrong_state(site)
    begins("one that the program refuses", f"{other} is not taken", "state Refused", path=one)


def try_replaced(check: Check, site: Site, program: str) -> None:
    """A program that is another one after an update is given no state, and no recording, of the one before."""
    site.online()
    run(stored(site, 1))
    before = read(program)
    write(f"{program}.other", before + b"# updated\n")
    os.chmod(f"{program}.other", 0o755)
    os.replace(f"{program}.other", program)
    os.kill(site.program(), signal.SIGKILL)

    run(typed_last(site))
    holds = site.ended() == 1 and "was replaced during the session" in site.since_start()
    write(program, before)
    check("a program that was replaced", holds, *site.findings)
    site.online()
    check("the one before goes on", value_in(run(shown(site))) == 1, *site.findings)
    check("it is suspended", site.stop() == 0, *site.findings)


def try_unread(check: Check, site: Site) -> None:
    """However the reading of a state fails, the start computes all from the beginning."""
    site.online()
    run(stored(site, 1))
    check("it is suspended", site.stop() == 0, *site.findings)
    os.environ["PEOPLE_STEP"] = "broken"
    site.online()
    holds = "is not taken" in site.since_start() and value_in(run(shown(site))) == 1
    check("a state at which the program ends", holds and not begun_with(site), *site.findings)
    os.environ["PEOPLE_STEP"] = ""
    check("it is suspended", site.stop() == 0, *site.findings)


def try_no_memory(check: Check, site: Site) -> None:
    """A program that is refused memory while it takes a state ends the installation, which keeps all states."""
    no_memory = os.environ["PEOPLE_NO_MEMORY"] = f"{site.folder}/no-memory"

    def is_reported(path: str) -> bool:
        """Whether it has ended with the fault's status, and blamed the memory and not the state."""
        has_ended = site.await_message("the host is out of memory") and site.ended() == 4
        found = site.since_start()
        is_told = f"{path} is not read: the host is out of memory" in found
        return has_ended and is_told and "is not taken" not in found and "is lost" not in found

    def ends(what: str, path: str) -> None:
        """A start without memory ends, and one with memory goes on from the state."""
        before = names_in(site.folder), read(path)
        write(no_memory, "")
        site.start()
        holds = is_reported(path) and "fault: memory Memory" in site.since_start()
        check(f"{what}: the fault is reported", holds, *site.findings)
        os.unlink(no_memory)
        names = [name for name in names_in(site.folder) if ".ending-" not in name]
        check(f"{what}: all files stay", (names, read(path)) == before, *names)
        site.online()
        holds = value_in(run(shown(site))) == 2 and begun_with(site) == path
        check(f"{what}: with memory it goes on", holds, *site.findings)

    for value in (1, 2):
        site.online()
        run(stored(site, value))
        check("it is suspended", site.stop() == 0, *site.findings)
    ends("no memory for the last state", last_state(site))
    write(no_memory, "")
    os.kill(site.program(), signal.SIGKILL)
    run(typed_last(site))
    check("a program that is started again", is_reported(last_state(site)), *site.findings)
    os.unlink(no_memory)
    site.online()
    site.operate("end now")
    check("it ends", site.ended() == 0, *site.findings)
    ends("no memory for the first state", f"{site.record}.begin")
    check("it is suspended", site.stop() == 0, *site.findings)


def try_ending(check: Check, site: Site) -> None:
    """An end that was asked for is done by the next start, whatever was noted after it."""
    site.online()
    run(stored(site, 1))
    site.kill(is_all=True)
    write(site.record, read(site.record) + b"* END\n* PRINTED X\n* STATE state-5 0\n")
    site.start()
    check("an end is not forgotten", site.await_message("the session has ended"), *site.findings)
    site.await_message("online at")
    check("it is suspended", site.stop() == 0, *site.findings)


# what comes after each step of an end that keeps the machines
END_STEPS = {
    "the state is to be saved": "save_last",
    "the end is to be marked": "mark",
    "volumes are to be saved": "finish",
    "what was saved is to be marked": "saved_mark",
    "all is to be set aside": "set_aside",
    "the directory is aside": "keep_beginning",
    "the state is to be in its place": "put_next",
    "the next recording is to be written": "succeeding",
    "the next recording is in its place": "forget",
}


def kept_names(site: Site) -> list[str]:
    """The folders of sessions that have ended."""
    return [name for name in names_in(site.folder) if name.startswith("recording.2")]


def has_begun_anew(site: Site) -> bool:
    """Whether the session is one that goes on from another one, and in which nothing was done yet."""
    text = read(site.record)
    return b"* STATE begin " in text and b"\nLINE " not in text


def add_volume(site: Site) -> str:
    """Gives a site a volume."""
    site.paths.append(f"{site.folder}/volume")
    write(site.paths[-1], blank_image("V1", 1))
    return site.paths[-1]


def try_kept_machines(check: Check, site: Site, program: str, has_frames: bool = False) -> None:
    """An end saves the volumes, and the next session goes on with all machines."""
    volume, before = add_volume(site), blank_image("V1", 1)
    site.online()
    run(stored(site, 5))
    site.operate("end")
    holds = site.await_message("the session has ended") and site.ended() == 0
    check("an end while somebody is on", holds, *site.findings)
    check("saves the volumes", read(volume) != before and has_begun_anew(site))
    (aside,) = kept_names(site)
    wanted = ["directory", "end", "recording", "volume-1"]
    check("and sets the session aside", names_in(f"{site.folder}/{aside}") == wanted)
    check("without states of it", state_names(site) == [], *state_names(site))
    site.online()
    lines = run(shown(site))
    holds = value_in(lines) == 5 and "RECONNECTED" in lines and "STORE G1 00000005" in lines
    check("the next session has the machines", holds, *lines)
    check("from the state", begun_with(site) == f"{site.record}.begin", *site.findings)
    if has_frames:
        site.operate("frames")
        check("frames are those of the state", site.await_message("PAGE INS"), *site.findings)
    site.kill(is_all=True)
    site.online()
    check("also after a kill", value_in(run(shown(site))) == 5, *site.findings)
    os.kill(site.program(), signal.SIGKILL)
    check("and if the program dies", value_in(run(shown(site))) == 5, *site.findings)
    site.operate("end logoff")
    check("no end without machines", site.await_message("still on: ALICE"), *site.findings)
    site.operate("end logoff now")
    check("unless it is asked for", site.ended() == 0, *site.findings)
    last = kept_names(site)[-1]
    wanted = ["begin", "directory", "recording", "volume-1"]
    check("which keeps its beginning", names_in(f"{site.folder}/{last}") == wanted)
    site.online()
    alice = run(person_on(site))
    check("then all are off", alice == "LOGON OK", alice)
    check("it is suspended", site.stop() == 0)


def try_kept_files(
    check: Check, site: Site, prints: tuple, repository: str, looks: int = 0
) -> None:
    """Files that are open or closed at an end: each is printed once, and numbers go on; what the next session did replays."""

    async def does(*steps: tuple[tuple, str]) -> None:
        alice = await on(site)
        for lines, text in steps:
            alice.type(*lines)
            await alice.until(text)
        alice.go()

    def printed(name: str) -> list[str]:
        folder = f"{site.folder}/prints/{site.session()}"
        site.await_message(f"closed: {folder}/{name}")
        return names_in(folder)

    lines, close = prints
    stops, decks = "STOPPED DISABLED WAIT", f"{site.folder}/decks"
    site.online("--printouts", f"{site.folder}/prints", "--decks", decks)
    if close:
        # the second one stays open, and a deck waits
        opens = (("STORE PSW 00000000 00000100", "BEGIN"), stops)
        run(does((lines, stops), (close, "FILE 0001 CLOSED"), opens))
        write(f"{decks}/ALICE/cards", "ONE\nTWO\n")
        run(until_so(lambda: names_in(f"{decks}/ALICE/done")))
    else:
        run(does(((*lines, "DISPLAY G1"), "GPR 1 = 00000000")))
    check(
        "a file is printed", printed("PRT0001-ALICE.txt") == ["PRT0001-ALICE.txt"], *site.findings
    )
    site.operate("end")
    check("it ends", site.ended() == 0, *site.findings)
    site.online("--printouts", f"{site.folder}/prints")
    run(does(((*(close or lines), "DISPLAY G1", "DISPLAY G2"), "GPR 2 = 00000000")))
    # the deck is a file too
    name = "PRT0003-ALICE.txt" if close else "PRT0002-ALICE.txt"
    check("the next one goes on", printed(name) == [name], *site.findings)
    path = f"{site.folder}/prints/{site.session()}/{name}"
    check("and is whole", read(path) == b"HELLO\n", read(path))
    if close:
        run(does((("QUERY FILES",), "FILE 0002 FROM SYSTEM CARDS 2")))
    check("it is suspended", site.stop() == 0)
    try_replays(check, site, repository, looks)


def try_replays(check: Check, site: Site, repository: str, looks: int) -> None:
    """A session that went on from another one replays from its state, and has a page."""
    words = [
        *sizes_of(site.record),
        "--state",
        f"{site.record}.begin",
        "--",
        site.paths[0],
        site.record,
    ]
    done = subprocess.run([f"{repository}/bin/vm370", *words], capture_output=True, text=True)
    holds = "ALICE: GPR 1 = 00000000\n" in done.stdout and "LOGON OK" not in done.stdout
    check("the session replays from its state", done.returncode == 0 and holds, done.stderr)
    out = f"{site.folder}/page.html"
    words = [f"{repository}/bin/report", "--looks", str(looks), site.record, out]
    done = subprocess.run(words, capture_output=True, text=True)
    text = read(out).decode() if done.returncode == 0 else ""
    holds = "GPR 1 = 00000000" in text and ("Frames at the end" in text) == (looks > 0)
    check("and has a page", holds, done.stderr)
    os.rename(f"{site.record}.begin", f"{site.record}.away")
    done = subprocess.run(words, capture_output=True, text=True)
    os.rename(f"{site.record}.away", f"{site.record}.begin")
    check("which needs the state", "the state with which the session began is not" in done.stderr)


async def person_on(site: Site) -> str:
    """What is answered to a logon."""
    alice = await on(site)
    alice.go()
    return alice.lines[-1]


def try_end_at(check: Check, site: Site) -> None:
    """The time of an end is known to the next start, also of one without machines."""
    site.online()
    site.operate("end logoff at 03:00")
    check("it is planned", site.await_message("without its machines"), *site.findings)
    check("it is suspended", site.stop() == 0)
    site.online()
    check("also then", "03:00, without its machines" in site.since_start(), *site.findings)
    site.operate("end at 03:00")
    site.await_message("the session ends at", 5)
    check("it is suspended again", site.stop() == 0)
    holds = read(f"{site.record}.end-at").endswith(b" 03:00\n")
    check("the other end", holds and not read(f"{site.record}.end-at").startswith(b"logoff"))


def try_lost_beginning(check: Check, site: Site) -> None:
    """If the state is lost with which a session goes on, nothing is overwritten, and the message says what can be done."""
    site.online()
    run(stored(site, 6))
    site.operate("end now")
    check("it ends", site.ended() == 0, *site.findings)
    begin, whole = f"{site.record}.begin", read(site.record)
    copy = f"{site.folder}/{kept_names(site)[0]}/end"
    os.unlink(begin)
    site.start()
    text = f"put back {begin} from {copy}"
    check("it is refused", site.await_message(text) and site.ended() == 1, *site.findings)
    write(begin, read(copy)[:-70] + b"X" * 70)
    site.start()
    check("also if it is spoiled", site.await_message(text) and site.ended() == 1, *site.findings)
    check("nothing is overwritten", read(site.record)[: len(whole)] == whole)
    write(begin, read(copy))
    site.online()
    check("with the copy it goes on", value_in(run(shown(site))) == 6, *site.findings)
    check("it is suspended", site.stop() == 0)
    site.start("--without-machines")
    holds = site.await_message("has machines, and they are there") and site.ended() == 1
    check("machines that are there are not left", holds, *site.findings)
    for path in [begin, *(f"{site.folder}/{name}" for name in state_names(site))]:
        os.unlink(path)
    site.online("--without-machines")
    alice = run(person_on(site))
    check("without the state they are", alice == "LOGON OK", alice, *site.findings)
    check("and the session is aside", len(kept_names(site)) == 2, *kept_names(site))
    check("it is suspended again", site.stop() == 0)


def try_end_steps(check: Check, site: Site) -> None:
    """A kill between each two steps of an end loses nothing: it is before the end, or after it."""
    volume, before = add_volume(site), blank_image("V1", 1)
    for value, (what, step) in enumerate(END_STEPS.items(), 7):
        os.environ["PEOPLE_STEP"] = step
        site.online()
        run(stored(site, value))
        site.operate("end now")
        check(f"it is killed when {what}", site.ended() == -signal.SIGKILL, *site.findings)
        os.environ["PEOPLE_STEP"] = ""
        site.online()
        value_now = value_in(run(shown(site)))
        check(f"nothing is lost when {what}", value_now == value, value_now, *site.findings)
        has_ended = "the session has ended" in site.since_start() or step == "forget"
        check(f"it has ended when {what}", has_ended == (step not in ("save_last", "mark")))
        check("it is suspended", site.stop() == 0)
        leftovers = [name for name in names_in(site.folder) if ".ending-" in name]
        check("and nothing is left", not leftovers, *leftovers)
    check("volumes are saved", read(volume) != before)


def changed_volume(check: Check, site: Site) -> str:
    """A volume that somebody else has changed during a session, which has ended."""
    volume = add_volume(site)
    site.online()
    run(stored(site, 4))
    write(volume, blank_image("V2", 1))
    site.operate("end now")
    check("it ends", site.ended() == 0, *site.findings)
    return volume


def try_changed_volume(check: Check, site: Site) -> None:
    """A volume that somebody else changed during a session stays, and the next session says what can be done."""
    volume = changed_volume(check, site)
    check("the volume stays", read(volume) == blank_image("V2", 1))
    site.start()
    holds = site.await_message("or start with --without-machines") and site.ended() == 1
    check("the machines do not go on with it", holds and "another volume 1" in site.since_start())
    site.online("--without-machines")
    alice = run(person_on(site))
    check("others do", alice == "LOGON OK" and read(volume) == blank_image("V2", 1), alice)
    check("it is suspended", site.stop() == 0)


def try_mended_volume(check: Check, site: Site) -> None:
    """The end and the next start name the file that mends a changed volume; with it the machines go on."""
    volume = changed_volume(check, site)
    own = next(
        f"{site.folder}/{name}" for name in names_in(site.folder) if name.startswith("volume.")
    )
    told = f"cp '{own}' '{volume}'" if " " in own else f"cp {own} {volume}"
    check("the end names the file that mends it", told in site.since_start(), *site.findings)
    status = site.start().ended()
    check("so does the next start", status == 1 and told in site.since_start(), *site.findings)
    os.rename(own, f"{site.folder}/elsewhere")
    site.start()
    wanted = "put back a copy of it whose SHA-256 begins with "
    holds = site.ended() == 1 and wanted in site.since_start()
    check("without that file the sum is said", holds, *site.findings)
    write(volume, read(f"{site.folder}/elsewhere"))
    site.online()
    check("with its own it goes on", value_in(run(shown(site))) == 4, *site.findings)
    site.kill(is_all=True)
    write(volume, blank_image("V3", 1))
    status = site.start().ended()
    wanted = f"or move {site.record} away, and start with --without-machines"
    check("a session with machines", status == 1 and wanted in site.since_start(), *site.findings)
    os.rename(site.record, f"{site.folder}/away")
    site.online("--without-machines")
    holds = run(person_on(site)) == "LOGON OK" and read(volume) == blank_image("V3", 1)
    check("begins anew as is said", holds, *site.findings)
    check("it is suspended", site.stop() == 0)


def try_unsaved_end(check: Check, site: Site) -> None:
    """An end at which the state cannot be saved has not begun, or is done without machines where that is asked for."""
    os.environ["PEOPLE_STEP"] = "full"
    site.online("--state-every", "0")
    run(stored(site, 3))
    site.operate("end now")
    holds = site.ended() == 3 and "the session has not ended" in site.since_start()
    check("an end without room for a state", holds, *site.findings)
    os.environ["PEOPLE_STEP"] = ""
    site.online()
    check("the session goes on", value_in(run(shown(site))) == 3 and not kept_names(site))
    site.kill(is_all=True)
    write(site.record, read(site.record) + b"* END KEEPING MACHINES\n")
    os.environ["PEOPLE_STEP"] = "full"
    site.start()
    holds = site.await_message("start with --without-machines") and site.ended() == 3
    check("one that was begun neither", holds, *site.findings)
    site.online("--without-machines")
    alice = run(person_on(site))
    holds = len(kept_names(site)) == 1 and alice == "LOGON OK"
    check("without machines it ends", holds, *site.findings)
    os.environ["PEOPLE_STEP"] = ""
    site.kill(is_all=True)


def try_weights(check: Check, folder: str) -> None:
    """What is left after a state is known as well while the recording is written as when it is read."""
    from gathjumli.recording import Base, Recording
    from gathjumli.stores import FileStore

    os.makedirs(folder)
    write(f"{folder}/directory", "USER A PW 8K\n")
    recording = Recording(FileStore(f"{folder}/recording"))
    recording.begin(Base("program", "64 256", f"{folder}/directory", []))
    recording.add(b"LINE A LOGON\nLINE A BEGIN\n")
    recording.mark_state("state-1", "0")
    recording.add(b"LINE A DISPLAY G1\n")
    recording.add_turns(7)
    recording.settle()
    recording.close()
    again = Recording(FileStore(f"{folder}/recording"))
    again.close()
    for what, one in (("written", recording), ("read", again)):
        left = one.weight - one.states[-1].weight
        check(f"what is left after a state that was {what}", (one.weight, left) == (67, 27), left)


def long_recording(folder: str) -> str:
    """A recording of some parts, with cards that look like comments, and three states."""
    from gathjumli.recording import Base, Recording
    from gathjumli.stores import FileStore

    os.makedirs(folder)
    write(f"{folder}/directory", "USER A PW 8K\n")
    recording = Recording(FileStore(f"{folder}/recording"))
    recording.begin(Base("program", "64 256", f"{folder}/directory", []))
    for number in range(1, 301):
        recording.add(b"LINE A DISPLAY G%d\n" % (number % 10))
        recording.add_turns(number)
        recording.add(b"* DECK A %d\nDECK A 3\n* STATE state-1 0\nDECK A 9\n* END\n" % number)
        recording.put(b"* PRINTED PRT%04d-A.txt\n" % number)
        if number % 70 == 0:
            recording.mark_state(f"state-{number}", "0" * 32)
    recording.settle()
    recording.close()
    return recording.path


def try_fronts(check: Check, folder: str) -> None:
    """What comes before the last states of a long recording is read as a whole, and means what it means line by line."""
    from gathjumli import fronts
    from gathjumli.cli import Failure
    from gathjumli.recording import Recording
    from gathjumli.stores import FileStore

    path, usual = long_recording(folder), fronts.LEAST

    def look(least: int) -> Recording | str:
        fronts.LEAST = least
        try:
            recording = Recording(FileStore(path))
            recording.close()
            return recording
        except Failure as failure:
            return str(failure.lines)
        finally:
            fronts.LEAST = usual

    whole, one = look(1 << 30), look(1)
    names = ("base", "begun", "last", "until", "decks", "printed", "lines", "bytes", "right", "cut")
    check("a front is read", fronts.LEAST == usual and one.weight < whole.weight)
    differ = [name for name in names if getattr(one, name) != getattr(whole, name)]
    check("a front means the same", not differ and one.digits() == whole.digits(), *differ)
    marks = [
        [(mark._replace(weight=0), item.weight_since(mark)) for mark in item.states]
        for item in (one, whole)
    ]
    check("so do the last states", marks[0] == marks[1] and len(marks[0]) == 2, *marks)
    text = read(path)
    for place in (text.index(b"DISPLAY"), text.index(b"G9"), text.rindex(b"G9")):
        write(path, text[:place] + b"X" + text[place + 1 :])
        found = look(1)
        holds = found == look(1 << 30) and "not as written" in found
        check(f"a front that was edited at byte {place}", holds, found)
    write(path, text)


def try_slow_states(check: Check, folder: str) -> None:
    """States for which everybody waits too long are not saved by the clock, and one that was slow alone changes nothing."""
    from gathjumli.recording import Base, Recording
    from gathjumli.stores import FileStore
    from gathjumli.spooling import Printouts
    from gathjumli.states import LastState, States

    os.makedirs(folder)
    write(f"{folder}/directory", "USER A PW 8K\n")
    recording = Recording(FileStore(f"{folder}/recording"))
    recording.begin(Base("program", "64 256", f"{folder}/directory", []))
    said: list[str] = []
    recording.add(b"LINE A LOGON\n")
    states = States(
        recording, Printouts(None, said.append, set(), recording.store), 30, said.append
    )
    states.goes_on(0.0, 0.0, None)
    for waited in (1.5, 0.2, 1.5):
        states.note(LastState(5 << 20, waited))
    check("a state that was slow alone", (states.is_due(31.0), said) == (True, []), said)
    states.note(LastState(700 << 20, 2.25))
    wanted = "everybody waited 2.2 seconds for a state of 700 MB: no further one is saved before a suspend"
    check("two slow states in a row", (states.is_due(31.0), said) == (False, [wanted]), said)
    check("one at a suspend", states.can_save(31.0))
    states.tried(100.0, True)
    check("the next one waits longer", states.due == 100.0 + 50 * 2.25, states.due)
    recording.close()


def try_other_files(check: Check, site: Site) -> None:
    """Files of others that are called like states stay, and what cannot be removed keeps nobody from his machine."""
    others = ("recording.state-mine", "recording.state-7.copy")
    for name in others:
        write(f"{site.folder}/{name}", "mine")
    os.makedirs(f"{site.record}.state-7")
    write(f"{site.record}.state-8.new-abcdefgh", "of a kill")
    site.online()
    run(stored(site, 1))
    check("a folder called as a state is", site.stop() == 0, *site.findings)
    wanted = sorted([*others, "recording.state-7", os.path.basename(last_state(site))])
    check("files of others stay", sorted(state_names(site)) == wanted, *state_names(site))


def try_no_state(check: Check, site: Site) -> None:
    """Where no state can be saved that is reported once, and the installation goes on."""
    for step, reported in (
        ("bound", "it has more than 10 bytes"),
        ("full", "No space left on device"),
        ("little", "its disk has 64 MB free"),
    ):
        os.environ["PEOPLE_STEP"] = step
        site.online()
        run(stored(site, 1))
        holds = site.stop() == 0 and site.since_start().count("no state is saved: " + reported) == 1
        check(f"a state that cannot be saved: {reported}", holds, *site.findings)
        check("leaves nothing", not state_names(site), *state_names(site))
    os.environ["PEOPLE_STEP"] = ""


def try_printouts(check: Check, site: Site) -> None:
    """A printout that is not written yet keeps a state from being saved, and is written by the next start."""
    prints = f"{site.folder}/prints"
    os.makedirs(prints)

    async def prints_one() -> None:
        alice = await on(site)
        alice.type("PRINT HELLO", "DISPLAY G1")
        await alice.until("GPR 1 = 00000000")
        alice.go()

    site.online("--printouts", prints)
    write(f"{prints}/{site.session()}", "in the way\n")
    run(prints_one())
    check("it waits", site.await_message("cannot be written"), *site.findings)
    check("no state is saved meanwhile", site.stop() == 0 and not state_names(site))
    os.unlink(f"{prints}/{site.session()}")
    site.online("--printouts", prints)
    name = f"{prints}/{site.session()}/PRT0001-ALICE.txt"
    check("then it is written", site.await_message(f"closed: {name}"), *site.findings)
    check("and a state is saved", site.stop() == 0 and bool(state_names(site)), *site.findings)
    site.online("--printouts", prints)
    site.operate("spool")
    holds = site.await_message("PRT0001-ALICE.txt 1 line, written") and begun_with(site)
    check("of which the spool has it", holds, *site.findings)
    run(prints_one())
    check("another is written", site.await_message("PRT0002-ALICE.txt"), *site.findings)
    check("it is suspended", site.stop() == 0)
    try_printed_and_died(check, site, prints)


def try_printed_and_died(check: Check, site: Site, prints: str) -> None:
    """A program that dies goes on from a state after what was printed in the same run."""
    site.online("--printouts", prints, "--state-every", "1")

    async def prints_and_computes() -> None:
        alice = await on(site)
        alice.type("PRINT HELLO", "BEGIN 100")
        before = last_state(site)
        await until_so(lambda: last_state(site) != before)
        alice.type("#CP")
        alice.go()

    run(prints_and_computes())
    os.kill(site.program(), signal.SIGKILL)
    run(shown(site))
    holds = site.await_message("the program goes on") and "is not taken" not in site.since_start()
    check("a program that dies goes on from it", holds, *site.findings)
    check("it is suspended", site.stop() == 0)


def try_states(check: Check, command: str, program: str, folder: str) -> None:
    """All that is tried in seconds, over a stand-in for the program."""
    try_going_on(check, make_site(command, f"{folder}/going on"), program)
    try_seconds(check, make_site(command, f"{folder}/seconds"))
    try_wrong_states(check, make_site(command, f"{folder}/wrong"))
    try_other_files(check, make_site(command, f"{folder}/others"))
    try_no_memory(check, make_site(command, f"{folder}/no memory"))
    try_ending(check, make_site(command, f"{folder}/ending"))
    try_kept_machines(check, make_site(command, f"{folder}/kept"), program)
    repository = os.path.dirname(os.path.dirname(command))
    files = make_site(command, f"{folder}/kept files")
    try_kept_files(check, files, (("PRINT HELLO",), ()), repository)
    try_end_at(check, make_site(command, f"{folder}/end at"))
    try_lost_beginning(check, make_site(command, f"{folder}/lost"))
    try_end_steps(check, killed_site(command, f"{folder}/end steps"))
    try_unsaved_end(check, killed_site(command, f"{folder}/unsaved"))
    try_changed_volume(check, make_site(command, f"{folder}/changed"))
    try_mended_volume(check, make_site(command, f"{folder}/mended"))
    try_replaced(check, make_site(command, f"{folder}/replaced"), program)
    try_weights(check, f"{folder}/weights")
    try_fronts(check, f"{folder}/fronts")
    try_slow_states(check, f"{folder}/slow")
    try_printouts(check, make_site(command, f"{folder}/printouts"))
    try_no_state(check, killed_site(command, f"{folder}/none"))
    try_unread(check, killed_site(command, f"{folder}/unread"))
    try_steps(check, killed_site(command, f"{folder}/steps"))


def try_over_program(check: Check, command: str, program: str, folder: str) -> None:
    """What of these needs no stand-in."""
    try_going_on(check, make_site(command, f"{folder}/going on"), program)
    try_seconds(check, make_site(command, f"{folder}/seconds"))
    try_wrong_states(check, make_site(command, f"{folder}/wrong"))
    try_steps(check, killed_site(command, f"{folder}/steps"))
    repository = os.path.dirname(os.path.dirname(command))
    files = make_site(command, f"{folder}/kept files")
    try_kept_files(check, files, (PRINTS, ("CLOSE 00E",)), repository, looks=1)
    # the report has the program for frames built
    try_kept_machines(check, make_site(command, f"{folder}/kept"), program, has_frames=True)
    try_end_steps(check, killed_site(command, f"{folder}/end steps"))
