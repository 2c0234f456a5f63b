"""Random moments of runs, as bin/replay has them, compared with runs from the beginning: field by field, and with what DISPLAY says. Called
by tests/commands/people.py --built."""
from __future__ import annotations

from collections.abc import Callable
import contextlib
import http.client
import os
import random
import subprocess
import tempfile
import threading
import time
from typing import Any
import unittest.mock

from gathjumli.cli import Failure
from gathjumli.following import SavedState
from gathjumli.machines import Machines, in_system, of_bare, of_directory, room_for_all
from gathjumli.moment_page import MomentPage, places_in
from gathjumli.moment_search import REGISTER, Search, WORD, Wanted
from gathjumli.moment_storage import Storage
from gathjumli.moments import Moments
from gathjumli.recorded_files import beginning_of, script_of, stands_on
from gathjumli.recording import BEGINNING, Base
from gathjumli.replay_server import ReplayServer, RunAnswers
from gathjumli.run_index import MOST_SPACING, Run, entries_of
from gathjumli.script_lines import events_of
from gathjumli.sources import Source, source_given
from gathjumli.state_files import NOBODY, TITLE, write_state
from gathjumli.state_pieces import Pieces
from gathjumli.state_programs import StateProgram
from gathjumli.state_view import StateView
from gathjumli.tracing import Trace
from tests.lib.files import read_text
from tests.lib.images import image_of
from tests.lib.places import TOP

VOLUME = b"VOLUME WORK01 3\nREC 0 0 0000000001 - 44415441\n"
EXAMPLES = f"{TOP}/examples/users"
MACHINES = f"{os.path.dirname(EXAMPLES)}/machines"
# examples of one machine: typed lines, timers, devices, files that are closed
ALONE = ("console-lines", "timers", "auto-devices", "two-open-files")
DISKS = ["MDISK 190 3330 0 3 WORK01 W", "MDISK 191 3330 0 3 V00000 W"]
CUT = "cards-for-another"
NAMES = ("two-tasks", "ipl-from-cards", "more-pages-than-frames", "frames-out", "two-users-chat")
PARTS = ("lines", "volumes", "supply", "tables")
# for so many seconds something is awaited
PATIENCE = 120
# a loop that adds the word at 204 to register 1, and stores the sum at 200
LOOP = "5A1002045010020047F00100"
DIRECTORY = (
    "USER A PW 64K\nCONSOLE 009 3215\nMDISK 190 3330 0 2 WORK01 W\n"
    "USER B PW 32K\nMDISK 191 3330 2 1 WORK01 R\n"
)
LONG = f"""LINE A LOGON
LINE A STORE 100 {LOOP}
LINE A STORE 204 00000001
LINE A BEGIN 100
RUN A {4 * MOST_SPACING + 7}
LINE B LOGON
LINE B STORE 100 {LOOP}
LINE B STORE 204 00000010
LINE B BEGIN 100
AUTO 1000
"""
# AUTO without a number: what it deals, and where nobody is ready
WAITING = f"""AUTO
LINE A LOGON
LINE A STORE 100 {LOOP}
LINE A STORE 108 82000300
LINE A STORE 300 0002000000000BAD
LINE A BEGIN 100
AUTO
AUTO
LINE A DISPLAY PSW
"""


def machines_of(program: str, directory: str, sizes: list[str], volumes: list[str]) -> Machines:
    found = of_directory(directory, sizes, volumes)
    found.path, found.is_built = program, True
    return found


def view_from_beginning(
    moments: Moments, event: int, unit: int, program: StateProgram
) -> StateView:
    """A moment that a program is led to from the beginning, in one way."""
    place = moments.place_of(event, unit)
    for part in filter(None, [*moments.between(0, 0, 0, place), place.rest]):
        program.do(part)
    return moments.run.view_of(program)


def differing(one: StateView, other: StateView) -> list[str]:
    """The parts in which two states differ. Entries of a closed file may be in one of them only: the program drops them after the part
    that closes it, but not those which a reader has then."""
    found = [part for part in PARTS if getattr(one, part) != getattr(other, part)]
    for name, user in one.users.items():
        parts = zip(user._fields, user, other.users[name])
        found += [f"{name} {field}" for field, part, same in parts if not is_alike(part, same)]
    return found


def is_alike(one: Any, other: Any) -> bool:
    """Whether a part of a user is the same, but for closed files of which one has no entries."""
    if not hasattr(one, "punched"):
        return one == other
    rest = [files._replace(punched=[], printed=[]) for files in (one, other)]
    return rest[0] == rest[1] and all(
        len(files) == len(others) and all(map(is_alike_file, files, others))
        for files, others in ((one.punched, other.punched), (one.printed, other.printed))
    )


def is_alike_file(one: Any, other: Any) -> bool:
    is_emptied = not one.entries or not other.entries
    return one.target == other.target and (is_emptied or one.entries == other.entries)


def bytes_of_closed(view: StateView) -> int:
    """How many bytes of a state are entries of closed files: each a flag, a number, a length and what it has."""
    return sum(
        1 + 8 + 8 + len(entry.bytes)
        for user in view.users.values()
        for file in (*user.files.punched, *user.files.printed)
        for entry in file.entries
    )


def try_cuts(check: Callable, program: str) -> None:
    """The state after a script is one, however that is cut into parts, but for the entries of closed files. A card goes to another user,
    who withdraws it before the end."""
    machines = machines_of(program, f"{EXAMPLES}/{CUT}/directory", [], [])
    with open(f"{EXAMPLES}/{CUT}/script", "rb") as file:
        events = [entry.text for entry in entries_of(list(events_of(file.read())))]
    events = [*events[: events.index(b"LINE B QUERY FILES\n")], b"LINE B PURGE 1\n"]
    pieces, views = Pieces(), {}
    try:
        for size in (1, 5, len(events)):
            other = StateProgram(machines)
            try:
                for at in range(0, len(events), size):
                    other.do(b"".join(events[at : at + size]))
                views[size] = other.view(machines.users, pieces)
            finally:
                other.close()
    finally:
        machines.close()
    one, *others = views.values()
    for size, view in zip(list(views)[1:], others):
        found = differing(one, view)
        check(
            f"the state of a script in parts of {size} events is that of single ones",
            not found,
            *found,
        )
        sizes = [each.state.size - bytes_of_closed(each) for each in (one, view)]
        check(f"to the byte, in parts of {size}", sizes[0] == sizes[1], *sizes)
    check("a file of which a reader had the deck keeps its entries", bytes_of_closed(one) > 0)
    check("and not after a part in which that was withdrawn", bytes_of_closed(others[-1]) == 0)


def try_bare(check: Callable, program: str) -> None:
    """A machine of its own is played as the only user of a system: its examples have the transcripts that they have."""
    for name in ALONE:
        folder = f"{MACHINES}/{name}"
        storage = (
            read_text(f"{folder}/storage").strip() if os.path.exists(f"{folder}/storage") else "64K"
        )
        with open(f"{folder}/script", "rb") as file:
            script = file.read()
        machines = in_system(of_bare(storage, []))
        machines.path, machines.is_built = program, True
        try:
            found = machines.run(script).decode("latin-1").splitlines()
            wanted = read_text(f"{folder}/transcript").splitlines()
            check(f"{name} at a system is as alone", found == wanted, *set(found) ^ set(wanted))
        finally:
            machines.close()
    with tempfile.TemporaryDirectory() as folder:
        paths = [f"{folder}/one", f"{folder}/other"]
        for path in paths:
            with open(path, "wb") as file:
                file.write(image_of(VOLUME))
        machines = in_system(of_bare("64K", paths))
        stated = read_text(machines.before[-1]).splitlines()
        check("each volume is a minidisk", stated[5:] == DISKS, *stated)
        machines.path, machines.is_built = program, True
        run = Run(
            machines, entries_of(list(events_of(b"LINE BARE LOGON\n"))), None, lambda share: None
        )
        moments = Moments(run)
        disks = moments.moment(1, 0).view.users["BARE"].minidisks
        extents = [(disk.address, disk.minidisk.extent) for disk in disks]
        found = [(address, extent.count, extent.writable) for address, extent in extents]
        check("its states have them", found == [(0x190, 3, True), (0x191, 3, True)], *found)
        moments.close()
        machines.close()


def displayed(program: StateProgram, view: StateView, user: str) -> list[str]:
    """What DISPLAY says otherwise than a state. Nothing is said of a page for which there is no frame."""
    cpu = view.users[user].machine.cpu
    words = [view.storage_of(user, 0x200 + 4 * word, 4).hex().upper() for word in range(4)]
    wanted = {f"G{number}": f"{value:08X}" for number, value in enumerate(cpu.general)}
    wanted |= {"X0": f"{cpu.control[0]:08X}", "200": " ".join(words)}
    wanted["PSW"] = f"{cpu.psw.address:06X}"
    lines = [f"LINE {user} #CP DISPLAY {name}\n" for name in wanted]
    answers = program.do("".join(lines).encode()).events
    return [
        f"{name}: {answer}, and not {text}"
        for (name, text), answer in zip(wanted.items(), answers)
        if not answer.endswith((text, " FRAMES"))
    ]


def is_viewed(program: StateProgram, whole: StateView, user: str, run: Run) -> bool:
    """Whether what a program tells of one user is what its state has of him, of the frames and of his storage."""
    one = program.user_view(user, run.machines.users, run.pieces)
    is_same = one.users[user] == whole.users[user] and one.tables[user] == whole.tables[user]
    return is_same and one.supply == whole.supply


def try_moment(check: Callable, name: str, moments: Moments, event: int, unit: int) -> None:
    view = moments.moment(event, unit).view
    program = StateProgram(moments.run.machines)
    try:
        other = view_from_beginning(moments, event, unit, program)
        found = differing(view, other)
        check(
            f"{name}: the moment {event}.{unit} is that of a run from the beginning",
            not found,
            *found,
        )
        others = [user for user in view.users if not is_viewed(program, other, user, moments.run)]
        check(f"{name}: VIEW has of each at {event}.{unit} what SAVE has", not others, *others)
        for user, state in view.users.items():
            if state.machine.mode != "off":
                wrong = displayed(program, view, user)
                check(
                    f"{name}: DISPLAY says of {user} at {event}.{unit} what the state does",
                    not wrong,
                    *wrong,
                )
    finally:
        program.close()


def try_spoilt(check: Callable, name: str, moments: Moments, chance: random.Random) -> None:
    """States that are cut, longer or spoilt are refused."""
    run = moments.run
    data = b"".join(moments.moment(len(run.steps), 0).view.state.data(run.pieces))
    cuts = [data[: chance.randrange(len(data))] for _ in range(20)]
    for spoilt in (*cuts, data[:-1], data + b"\0", b"\2" + data[1:], b""):
        try:
            StateView([spoilt], run.machines.users, run.pieces)
            check(
                f"{name}: a state of {len(spoilt)} bytes in place of {len(data)} is refused", False
            )
        except Failure:
            check(f"{name}: a spoilt state is refused", True)
    for size in (9, 4096):
        pieces = [data[at : at + size] for at in range(0, len(data), size)]
        whole = StateView(pieces, run.machines.users, run.pieces)
        check(f"{name}: a state that arrives in pieces of {size}", whole.state.size == len(data))


def try_ways(check: Callable, name: str, moments: Moments, event: int, unit: int) -> None:
    """A unit forward and back again leads to where it began."""
    for user in moments.run.users:
        to = moments.go(event, unit, user, "unit+")
        is_own = moments.owner_of(event) == user and unit < moments.units_of(event)
        if is_own:
            check(f"{name}: back from {to}", moments.go(*to, user, "unit-") == (event, unit))
        check(f"{name}: on from {event}.{unit}", to >= (event, unit))


def searched(
    moments: Moments, kind: str, number: int, where: tuple[int, int], *passed_over: int
) -> dict[str, Any]:
    search = Search(moments, Wanted("A", kind, number, frozenset(passed_over)), lambda: True)
    return search.back(*where, is_strict=False, after=None)


def try_search(check: Callable, moments: Moments) -> None:
    """What changed a word or a register last, a long time ago and lately: A's loop is done by the runs of three units."""
    run = moments.run
    last = next(at for at in range(len(run.steps)) if run.steps[at].kind == "RUN")
    for unit in (5, 2 * MOST_SPACING + 3, 4 * MOST_SPACING + 1):
        found = searched(moments, WORD, 0x200, (last, unit))
        # of each three units the second stores
        wanted = last, unit - (unit + 1) % 3
        check(
            f"the word changed last before unit {unit}",
            (found.get("event"), found.get("unit")) == wanted,
            found,
        )
        found = searched(moments, REGISTER, 1, (last, unit))
        wanted = last, unit - (unit + 2) % 3
        check(
            f"the register changed last before unit {unit}",
            (found.get("event"), found.get("unit")) == wanted,
            found,
        )
    found = searched(moments, WORD, 0x204, (len(run.steps), 0))
    check("a word that was typed long ago", found.get("event") == 3, found)
    found = searched(moments, WORD, 0x204, (last, 5), 0x100)
    check("a typed line is no instruction", found.get("event") == 3, found)
    found = searched(moments, WORD, 0x200, (last, 50), 0x100)
    check("a change by another instruction", found.get("unit") == 50, found)
    found = searched(moments, WORD, 0x200, (last, 50), 0x104)
    check("no other instruction has changed a word", "event" not in found, found)
    found = searched(moments, WORD, 0x300, (len(run.steps), 0))
    check("a word that nobody changed", "event" not in found, found)


def try_seek(check: Callable, moments: Moments) -> None:
    """What is sought after 5 units of A's loop is found after as many as its instructions say, and the state is that of these units."""
    run = moments.run
    last = next(at for at in range(len(run.steps)) if run.steps[at].kind == "RUN")
    for sought, most, count, is_found in (
        ("I 000100", 9, 1, True),
        ("I 000108", 9, 3, True),
        ("G 000001", 9, 2, True),
        ("W 000200", 9, 3, True),
        ("W 000201", 3, 3, True),
        ("W 000200", 2, 2, False),
        ("W 000204", 9, 9, False),
        ("W FFFFFE", 9, 9, False),
        ("G 000010", 9, 9, False),
    ):
        program, other = moments.program_at(last, 5), moments.program_at(last, 5)
        try:
            found = program.seek(sought, "A", most)
            lines = other.do(b"RUN A 1\n" * count).events
            is_same = found.events == lines and found.is_found == is_found
            check(f"{sought} is sought in {most} units", is_same, found)
            states = [b"".join(run.view_of(one).state.data(run.pieces)) for one in (program, other)]
            check(f"the state after {sought} was sought", states[0] == states[1])
        finally:
            program.close()
            other.close()


def try_going_on(check: Callable, program: str, folder: str) -> None:
    """A recording that began with the machines of the session before."""
    path = f"{folder}/going on"
    machines = machines_of(program, f"{folder}/directory", [], [f"{folder}/volume"])
    before = StateProgram(machines)
    try:
        before.do(b"LINE A LOGON\nLINE A STORE 200 0000CAFE\n")
        before.ask_for_state()
        saved = SavedState(list(before.arriving()))
        before.answer()
    finally:
        before.close()
    digits = write_state(f"{path}.{BEGINNING}", [TITLE], NOBODY, saved)
    base = Base("1-2 0", "64 256", f"{folder}/directory", [f"{folder}/volume"]).lines()
    with open(path, "wb") as file:
        file.write(b"".join(line + b"\n" for line in base) + b"* BEGUN 2026-11-30 04:00:00 UTC\n")
        file.write(b"* STATE begin %s\nLINE A STORE 204 01\nAUTO 1\n" % digits.encode())
    events = entries_of(list(events_of(script_of(path)[0])))
    run = Run(machines, events, beginning_of(path), lambda share: None)
    moments = Moments(run)
    try:
        for event, wanted in ((0, "0000CAFE00"), (1, "0000CAFE01"), (2, "0000CAFE01")):
            found = moments.moment(event, 0).view.storage_of("A", 0x200, 5).hex().upper()
            check(f"the moment {event} of a session that goes on", found == wanted, found)
    finally:
        moments.close()
        machines.close()


def asked(port: int, path: str, heads: list[tuple[str, str]]) -> tuple[int, bytes]:
    """The status and the bytes of an answer."""
    connection = http.client.HTTPConnection("127.0.0.1", port, timeout=60)
    try:
        connection.putrequest("GET", path, skip_host=True)
        for name, value in heads:
            connection.putheader(name, value)
        connection.endheaders()
        answer = connection.getresponse()
        return answer.status, answer.read()
    finally:
        connection.close()


def try_server(check: Callable, moments: Moments) -> None:
    """Who may ask the server of a run, and for what."""
    with ReplayServer(0) as server:
        port = server.server_address[1]
        server.take(RunAnswers(moments, MomentPage(moments, None, "script", [])))
        threading.Thread(target=server.serve_forever, daemon=True).start()
        own = ("Host", f"127.0.0.1:{port}")
        origin = ("Origin", f"http://127.0.0.1:{port}")
        run, moment = "/data/run", "/data/moment?user=A&event=3&unit=0&since=before"
        search = "/data/search?user=A&event=3&unit=0&way=back&what="
        for what, status, path, heads in (
            ("its page", 200, "/", [own]),
            ("its page by another name of the host", 200, "/", [("Host", f"localhost:{port}")]),
            ("the run", 200, run, [own, origin, ("Sec-Fetch-Site", "same-origin")]),
            ("a moment", 200, moment, [own]),
            ("the line of time", 200, "/data/line?from=0&to=9&columns=4", [own]),
            ("a search", 200, f"{search}word&of=200", [own]),
            ("another host", 421, run, [("Host", f"example.org:{port}")]),
            ("another port", 421, run, [("Host", "127.0.0.1:1")]),
            ("no host", 421, run, []),
            ("two hosts", 421, run, [own, own]),
            ("another origin", 403, run, [own, ("Origin", "http://example.org")]),
            ("no origin", 403, run, [own, ("Origin", "null")]),
            ("a page of another site", 403, run, [own, ("Sec-Fetch-Site", "cross-site")]),
            ("a file that is not of the page", 404, "/user.html", [own]),
            ("a way out of its folder", 404, "/../VERSION", [own]),
            ("no user", 400, "/data/moment?event=3", [own]),
            ("no number", 400, "/data/moment?user=A&event=-3", [own]),
            ("a number that is too large", 400, f"/data/moment?user=A&event={9 ** 99}", [own]),
            ("no moment", 400, "/data/moment?user=A&since=3.x", [own]),
            ("a register that is no number", 400, f"{search}gpr&of=X", [own]),
            ("an address that is none", 400, f"{search}word&of=XYZ", [own]),
            ("a search that passes over", 200, f"{search}word&of=200&passed=104,1A8", [own]),
            ("no address in a list", 400, f"{search}word&of=200&passed=104,XYZ", [own]),
            ("an empty list", 400, f"{search}word&of=200&passed=104,,1", [own]),
            ("how far the search is", 200, "/data/progress", [own]),
            ("the end of a search", 200, "/data/stop", [own]),
            ("a moment after all", 200, "/data/moment?user=A&event=99999999&unit=7", [own]),
            ("no register", 400, f"{search}gpr&of=16", [own]),
            ("an address past storage", 200, f"{search}word&of=FFFFFFFF", [own]),
        ):
            found = asked(port, path, heads)
            check(f"the server of a run gives {status} for {what}", found[0] == status, *found)
        server.shutdown()


def try_pieces(check: Callable) -> None:
    """Pages that cannot be packed are in a file, all others in memory; a full file has no more of them."""
    chance, pieces = random.Random(1), Pieces()
    noise = [chance.randbytes(4096) for _ in range(40)]
    mixed = bytes(1024) + chance.randbytes(3072)
    plain = [bytes(range(64)) * 64, noise[0][:4095], b"short", mixed]
    numbers = [pieces.keep(piece) for piece in [*noise, *plain, *noise]]
    found = [pieces.piece(number, len(piece)) for number, piece in zip(numbers, [*noise, *plain])]
    check("all pieces are as they were", found == [*noise, *plain])
    check("each is kept once", numbers[44:] == numbers[:40])
    check("40 pages and one with a quarter of zeros are in a file", pieces.blocks.used() == 41 * 4096)  # fmt: skip
    check("the others are in memory", 4095 <= pieces.size < 4095 + 500, pieces.size)
    pieces.forget_others(numbers[20:40])
    check("what is forgotten has no room", (pieces.blocks.used(), pieces.size) == (20 * 4096, 0))
    again = [chance.randbytes(4096) for _ in range(20)]
    others = [pieces.keep(piece) for piece in again]
    kept = zip([*numbers[20:40], *others], [*noise[20:], *again])
    check("others have its blocks", all(pieces.piece(number, 4096) == piece for number, piece in kept))  # fmt: skip
    check("and the file is no larger", pieces.blocks.count == 41, pieces.blocks.count)
    with unittest.mock.patch("os.pwrite", side_effect=OSError):
        number = pieces.keep(mixed)
    check("a file that is full", pieces.piece(number, 4096) == mixed and pieces.size > 3072)


def try_full(check: Callable, program: str, folder: str) -> None:
    """States that take more than they may: those of the beginning and of the end stay."""
    machines = machines_of(program, f"{folder}/directory", [], [f"{folder}/volume"])
    script = f"LINE A LOGON\nLINE A STORE 100 {LOOP}\nLINE A BEGIN 100\nRUN A 6000\n"
    with unittest.mock.patch("gathjumli.run_index.MOST_STATE_BYTES", 0):
        run = Run(machines, entries_of(list(events_of(script.encode()))), None, lambda share: None)
    places = [(mark.event, mark.unit) for mark in run.marks]
    check("a state of the beginning and one of the end", places == [(0, 0), (4, 0)], *places)
    machines.close()


def try_long_search(check: Callable, program: str, folder: str) -> None:
    """A search says how far it is, and ends once nobody waits for it. A short script has states within its run."""
    machines = machines_of(program, f"{folder}/directory", [], [f"{folder}/volume"])
    script = f"LINE A LOGON\nLINE A STORE 100 {LOOP}\nLINE A BEGIN 100\nRUN A 6000\n"
    run = Run(machines, entries_of(list(events_of(script.encode()))), None, lambda share: None)
    check("a short run has states within it", sum(mark.unit > 0 for mark in run.marks) == 4)
    moments = Moments(run)
    try:
        looked: list[dict[str, Any]] = []
        search = Search(
            moments, Wanted("A", WORD, 0x300), lambda: bool(looked.append(search.progress()))
        )
        found = search.forward(3, 0)
        check("a search that nobody waits for ends", found["late"] and "event" not in found, found)
        check("and looked at one part", [item["event"] for item in looked] == [3], *looked)
        check("of so many units", 0 < looked[0]["units"] == found["units"] < 6000, *looked)
    finally:
        moments.close()
        machines.close()


def try_source(check: Callable, program: str) -> None:
    """What labels of a source are shown, and where a page begins: at the next instruction."""
    example = f"{EXAMPLES}/two-tasks"
    machines = machines_of(program, f"{example}/directory", [], [])
    with open(f"{example}/script", "rb") as file:
        run = Run(machines, entries_of(list(events_of(file.read()))), None, lambda share: None)
    moments = Moments(run)
    try:
        page = MomentPage(moments, Source(source_given(f"{example}/A.asm")), "script", [])
        labels = page.about()["labels"]
        check("labels of a source", (labels["ONES"], labels["COUNT2"]) == (0x800, 0x404), labels)
        shown = page.look((18, 20), "A", None, (18, 20))
        rows = {row[0]: label for row, label in zip(shown["storage"], shown["labels"])}
        check("its storage begins above the next instruction", shown["storage"][0][0] == 0x7D0)
        named = [(0x800, "ONES"), (0x80C, "THREES")]
        check("labels stand in rows", rows[0x800] == named and rows[0x810] == [], rows)
        shown = page.look((21, 1), "A", None, (21, 0))
        led = shown["done"], shown["interruption"]
        check(
            "a unit that is an interruption",
            led == (None, "external interruption, code 0080"),
            *led,
        )
        shown = page.look((18, 20), "A", None, (18, 19))
        check(
            "one that is an instruction", shown["done"] and not shown["interruption"], shown["done"]
        )
        # where no instruction is, it begins at the first byte that is not zero
        shown = page.look((1, 0), "A", None, (1, 0))
        check("a machine without any", shown["storage"][0][0] == 0, shown["storage"][0])
        rows = MomentPage(moments, None, "script", []).look((18, 20), "A", 0x800, (18, 20))
        check("without a source there are none", not any(rows["labels"]), rows["labels"])
        for code, wanted in (
            ("D20302000204", {"places": [[0x200, ""], [0x204, ""]]}),
            ("5810F010", {"places": [[0x1234, ""]]}),
            ("9C00000C", {"device": "00C", "places": []}),
            ("1812", {"places": []}),
            ("8B100004", {"places": []}),
        ):
            nothing = Storage(moments.moment(0, 0).view, None, "A")
            found = places_in(bytes.fromhex(code), [0] * 15 + [0x1224], nothing)
            is_there = [[at, there and ""] for at, there in found["places"]]
            check(
                f"where the operands of {code} are", found | {"places": is_there} == wanted, found
            )
    finally:
        moments.close()
        machines.close()


def try_trace(check: Callable, program: str) -> None:
    """A trace that begins late, at a state, has the units of one from the beginning."""
    found = {}
    for first in (1, 40):
        machines = machines_of(program, f"{EXAMPLES}/two-tasks/directory", [], [])
        room_for_all(machines)
        script = read_text(f"{EXAMPLES}/two-tasks/script").encode()
        try:
            trace = Trace(machines, "A", script, first, 60 - first, [], None, [], {})
            lines = [line for piece in trace.pieces() for line in piece]
        finally:
            machines.close()
        found[first] = [line for line in lines if line.startswith(("UNIT ", "INT "))]
    check("a trace of all units", len(found[1]) == 59, *found[1])
    check("a late trace has the same units", found[40] == found[1][39:], *found[40])


def awaited(holds: Callable[[], Any]) -> bool:
    """Whether something holds before long."""
    until = time.monotonic() + PATIENCE
    while not holds() and time.monotonic() < until:
        time.sleep(0.05)
    return bool(holds())


def program_of(process: int) -> int | None:
    """The program of machines that a command runs now."""
    with open(f"/proc/{process}/task/{process}/children") as file:
        children = file.read().split()
    for child in children:
        with contextlib.suppress(OSError):
            if read_text(f"/proc/{child}/comm").startswith("gathjumli_cli"):
                return int(child)
    return None


def try_left(check: Callable, repository: str, folder: str) -> None:
    """A trace that is ended has its program end as well."""
    with open(f"{folder}/endless", "w") as file:
        file.write(LONG + "RUN A 1000000\n" * 100)
    words = [
        f"{repository}/bin/trace370",
        "--first",
        "9999999",
        f"{folder}/directory",
        f"{folder}/endless",
    ]
    command = subprocess.Popen([*words, f"{folder}/volume"], stderr=subprocess.DEVNULL)
    check("a trace has a program", awaited(lambda: program_of(command.pid)))
    program = program_of(command.pid)
    command.terminate()
    status = command.wait(PATIENCE)
    check("a trace that is ended was interrupted", status == 130, status)
    is_gone = program and awaited(lambda: not os.path.exists(f"/proc/{program}"))
    check("and its program is gone", is_gone, program)


def try_run(check: Callable, name: str, machines: Machines, script: bytes, count: int) -> None:
    chance = random.Random(name)
    run = Run(machines, entries_of(list(events_of(script))), None, lambda share: None)
    moments = Moments(run)
    try:
        for _ in range(count):
            event = chance.randrange(len(run.steps) + 1)
            unit = chance.randrange(moments.units_of(event) + 1)
            where = moments.ordered(event, unit)
            try_moment(check, name, moments, *where)
            try_ways(check, name, moments, *where)
        try_spoilt(check, name, moments, chance)
        if name == "long":
            check("a long run has states within it", any(mark.unit for mark in run.marks))
            try_search(check, moments)
            try_seek(check, moments)
            try_server(check, moments)
    finally:
        moments.close()
        machines.close()


def try_recording(check: Callable, program: str, folder: str) -> None:
    """A copy of a recording that is being written: its files are found by their sums, and what is not whole is left out."""
    base = Base("1-2 0", "64 256", f"{folder}/directory", [f"{folder}/volume"]).lines()
    begun = b"* BEGUN 2026-11-30 04:00:00 UTC\n* 2026-11-30 04:00:00 UTC\n"
    script = b"LINE A LOGON\n* 2026-11-30 04:01:00 UTC\nAUTO 2\nLINE B LOGON\n* 2026-11-30 04:02:00 UTC\n"
    with open(f"{folder}/recording", "wb") as file:
        file.write(b"".join(line + b"\n" for line in base) + begun + script + b"DECK A 2\nONE\nTW")
    sizes, directory, volumes = stands_on(
        f"{folder}/recording", {"--directory": [], "--volume": []}
    )
    events, times = script_of(f"{folder}/recording")
    machines = machines_of(program, directory, sizes, volumes)
    run = Run(machines, entries_of(list(events_of(events))), None, lambda share: None)
    moments = Moments(run)
    try:
        texts = [run.steps[event].kind for event in range(len(run.steps))]
        check("the events of a recording", texts == ["LINE", "IDLE", "IDLE", "LINE"], texts)
        page = MomentPage(moments, None, "recording", times)
        clock = [page.when(event)[11:16] for event in (0, 1, 3, 4)]
        check("the times of a recording", clock == ["04:01", "04:02", "04:02", "04:02"], clock)
        shown = page.look((4, 0), "B", 0, (3, 0))
        check("its console", ["LOGON", "LOGON OK"] == [line[1] for line in shown["console"]], shown)
    finally:
        moments.close()
        machines.close()


def try_moments(check: Callable, repository: str, program: str, count: int) -> None:
    """So many random moments of each of some runs."""
    try_pieces(check)
    try_cuts(check, program)
    try_bare(check, program)
    try_source(check, program)
    try_trace(check, program)
    for name in NAMES:
        example = f"{EXAMPLES}/{name}"
        sizes: list[str] = []
        if os.path.exists(f"{example}/sizes"):
            with open(f"{example}/sizes") as file:
                frames, slots = file.read().split()
                sizes = ["--frames", frames, "--slots", slots]
        with open(f"{example}/script", "rb") as file:
            script = file.read()
        try_run(check, name, machines_of(program, f"{example}/directory", sizes, []), script, count)
    with tempfile.TemporaryDirectory() as folder:
        with open(f"{folder}/directory", "w") as file:
            file.write(DIRECTORY)
        with open(f"{folder}/volume", "wb") as file:
            file.write(image_of(VOLUME))
        machines = machines_of(program, f"{folder}/directory", [], [f"{folder}/volume"])
        try_run(check, "long", machines, LONG.encode(), count)
        machines = machines_of(program, f"{folder}/directory", [], [f"{folder}/volume"])
        try_run(check, "waiting", machines, WAITING.encode(), count)
        try_long_search(check, program, folder)
        try_full(check, program, folder)
        try_left(check, repository, folder)
        try_recording(check, program, folder)
        try_going_on(check, program, folder)
