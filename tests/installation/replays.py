"""A long replay that is broken off goes on from where it was. Called by tests/commands/people.py."""
from __future__ import annotations

from collections.abc import Callable
import os
import time

from tests.installation.operators import operator
from tests.installation.states import begun_with, shown, state_names, stored, value_in
from tests.lib.files import names_in, read, write
from tests.lib.sites import Site, make_site, run

# lines of a recording that has no state
LINES = 40000
# the value that is stored last
LAST = 0x77


def make_long(site: Site) -> None:
    """Has the recording of a session without states be long."""
    from gathjumli.recording import Recording
    from gathjumli.stores import FileStore

    site.online("--state-every", "0")
    run(stored(site, 1))
    if site.stop():
        raise AssertionError("\n".join(site.findings))
    recording = Recording(FileStore(site.record))
    for first in range(0, LINES, 500):
        lines = (f"LINE ALICE STORE G1 {count:08X}\n" for count in range(first, first + 500))
        recording.add("".join(lines).encode())
    recording.add(f"LINE ALICE STORE G1 {LAST:08X}\nLINE ALICE DISPLAY G1\n".encode())
    recording.close()


def has_state(site: Site) -> bool:
    return any(".new" not in name for name in state_names(site))


def go_on_way(site: Site) -> None:
    """Starts it, and waits until a state is saved on its way; the program takes its time, so that an operator may ask meanwhile."""
    os.environ["PEOPLE_SLOW"] = "0.0003"
    site.start("--operate", f"{site.folder}/operator", "--state-every", "1")
    del os.environ["PEOPLE_SLOW"]
    until = time.monotonic() + 60
    while not has_state(site) and time.monotonic() < until:
        time.sleep(0.02)


def try_broken_off(check: Callable, site: Site) -> None:
    """A replay that is killed, or suspended, goes on from a state that it saved on its way; the recording stays as it was."""
    make_long(site)
    before = read(site.record)
    go_on_way(site)
    status = operator(site, "status").stdout
    holds = (
        "nobody can log on yet: the recording is done again, " in status and "% so far" in status
    )
    check("status says how far it is", holds, status)
    check("and promises no start", "a start that goes on from here" not in status, status)
    site.kill(is_all=True)
    names = [name for name in state_names(site) if ".new" not in name]
    check("a state is there after a kill", len(names) in (1, 2), *names)
    check("the recording has no mark", b"* STATE" not in read(site.record)[len(before) :])
    last = max(names, key=lambda name: int(name.rpartition("-")[2]))
    go_on_way(site)
    is_begun = site.await_message("begins with ")
    holds = is_begun and begun_with(site) == f"{site.folder}/{last}"
    check("the next start goes on from the last one", holds, *site.findings)
    status = site.stop()
    check("it is suspended on its way", status == 0, *site.findings)
    names = [name for name in state_names(site) if ".new" not in name]
    check("with its states", 1 <= len(names) <= 2, *names)
    site.online("--state-every", "1")
    check("the one after that does so too", begun_with(site) != "", *site.findings)
    lines = run(shown(site))
    check("nothing is lost", value_in(lines) == LAST, *lines)
    check("it is suspended at the end", site.stop() == 0, *site.findings)
    site.online()
    holds = value_in(run(shown(site))) == LAST and "is no state" not in site.since_start()
    check("a state with a mark follows", holds, *site.findings)
    check("two states are kept", len(state_names(site)) <= 2, *state_names(site))
    check("it is suspended again", site.stop() == 0)


def try_other_way(check: Callable, site: Site) -> None:
    """A state on the way is not taken if the recording before it is another one, or if it is not whole."""
    make_long(site)
    go_on_way(site)
    site.kill(is_all=True)
    whole = {
        name: read(f"{site.folder}/{name}") for name in state_names(site) if ".new" not in name
    }
    for name, data in whole.items():
        write(f"{site.folder}/{name}", data[:-60] + b"X" + data[-59:])
    from gathjumli.recording import Recording
    from gathjumli.stores import FileStore
    from gathjumli.states import States

    recording = Recording(FileStore(site.record))
    states = States(recording, None, 1, print)
    states.find_on_way()
    check("a state that is not whole is none", states.on_way == [], *map(str, states.on_way))
    for name, data in whole.items():
        write(f"{site.folder}/{name}", data)
    states.find_on_way()
    check("a whole one is", len(states.on_way) == len(whole), *map(str, states.on_way))
    text = read(site.record)
    write(site.record, text.replace(b"STORE G1 00000000", b"STORE G1 0000000A", 1))
    states.find_on_way()
    check("nor is one of another recording", states.on_way == [], *map(str, states.on_way))
    recording.close()
    write(site.record, text)


def try_printed_on_way(check: Callable, site: Site) -> None:
    """What was printed before a state on the way is written, once."""
    make_long(site)
    from gathjumli.recording import Recording
    from gathjumli.stores import FileStore

    recording = Recording(FileStore(site.record))
    recording.add(b"LINE ALICE PRINT FIRST\n")
    recording.add(b"".join(b"LINE ALICE STORE G1 %08X\n" % count for count in range(LINES // 2)))
    recording.close()
    prints = f"{site.folder}/prints"
    site.words += ["--printouts", prints]
    go_on_way(site)
    site.kill(is_all=True)
    site.online("--operate", f"{site.folder}/operator", "--state-every", "1")
    spool = operator(site, "spool").stdout
    name = f"{prints}/{site.session()}/PRT0001-ALICE.txt"
    holds = "PRT0001-ALICE.txt 1 line, written" in spool and os.path.exists(name)
    check("what was printed is written", holds, spool, *names_in(prints))
    check("it is suspended", site.stop() == 0, *site.findings)


def try_front(check: Callable, site: Site) -> None:
    """A long recording of which the state before the last is old is read from the last one on."""
    from gathjumli import fronts
    from gathjumli.recording import Recording
    from gathjumli.stores import FileStore

    make_long(site)
    recording = Recording(FileStore(site.record))
    recording.mark_state("state-5", "0" * 32)
    for _ in range(40):
        recording.add(b"LINE ALICE DISPLAY G1\n" * 1000)
    recording.mark_state("state-9", "0" * 32)
    recording.add(b"LINE ALICE DISPLAY G1\n" * 10)
    recording.close()
    front = fronts.front_of(site.record, 2)
    size = os.path.getsize(site.record)
    holds = front and front.place > size - 2000 and len(front.marks) == 1
    check("the front ends at the last state", holds, str(front and front.place), f"{size}")
    again = Recording(FileStore(site.record))
    again.close()
    left = [again.weight_since(mark) for mark in again.states]
    check("what is left is known", left == [20 * 40010, 20 * 10], *map(str, left))


def try_replays(check: Callable, command: str, folder: str) -> None:
    """All that is tried in seconds, over a stand-in for the program."""
    os.makedirs(folder)
    try_broken_off(check, make_site(command, f"{folder}/broken off"))
    try_other_way(check, make_site(command, f"{folder}/other way"))
    try_printed_on_way(check, make_site(command, f"{folder}/printed"))
    try_front(check, make_site(command, f"{folder}/front"))
