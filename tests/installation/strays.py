"""A recording that was emptied, lost, or replaced by another one, next to the states of the right one. Called by
tests/commands/people.py."""
from __future__ import annotations

from collections.abc import Callable
import os

from tests.installation.states import shown, state_names, stored, value_in
from tests.lib.files import names_in, read, write
from tests.lib.sites import Site, make_site, run

# what may have been done to the recording: its bytes then, or None if it is gone; and what the refusal says of the last state
CHANGES: dict[str, tuple[Callable[[dict[str, bytes]], bytes | None], str]] = {
    "emptied": (lambda item: b"", "recording is empty"),
    "missing": (lambda item: None, "recording is empty"),
    "older": (lambda item: item["older"], "it was saved after "),
    "foreign": (lambda item: item["foreign"], "it is of the session of "),
}


def put(path: str, data: bytes | None) -> None:
    """Has a file these bytes, or none."""
    if data is None:
        os.unlink(path)
    else:
        write(path, data)


def files_of(site: Site) -> dict[str, bytes]:
    """The plain files next to the recording, with their bytes."""
    names = [name for name in names_in(site.folder) if os.path.isfile(f"{site.folder}/{name}")]
    return {name: read(f"{site.folder}/{name}") for name in names}


def try_changed_recordings(check: Callable, site: Site, other: Site) -> None:
    """A start over another recording than that of the states is refused by name, and removes nothing; with the right one it goes on."""
    kept = {}
    other.online()
    run(stored(other, 3))
    check("another installation is suspended", other.stop() == 0, *other.findings)
    kept["foreign"] = read(other.record)
    site.online()
    run(stored(site, 5))
    check("it ends with its machines", site.operate("end now") or site.ended() == 0, *site.findings)
    site.online()
    kept["older"] = read(site.record)
    for value in (6, 7):
        run(stored(site, value))
        check("it is suspended", site.stop() == 0, *site.findings)
        site.online()
    check("it is suspended again", site.stop() == 0, *site.findings)
    whole, before = read(site.record), files_of(site)
    last, begin = f"{site.folder}/{state_names(site)[-1]}", f"{site.record}.begin"
    for what, (change, wanted) in CHANGES.items():
        put(site.record, change(kept))
        status = site.start().ended()
        findings = site.since_start()
        holds = status == 1 and f"{last} is no state of this recording: " in findings
        check(f"a recording that is {what} is refused", holds and wanted in findings, findings)
        is_named = what == "older" or f"{begin} is no state of this recording" in findings
        check("with the state with which the session began", is_named, findings)
        now = files_of(site)
        is_kept = all(now[name] == data for name, data in before.items() if name != "recording")
        check("and nothing is removed", is_kept, *now)
        check("or made", now.get("recording") == change(kept), *now)
    write(site.record, whole)
    site.online()
    check("with its recording it goes on", value_in(run(shown(site))) == 7, *site.findings)
    check("it is suspended at the end", site.stop() == 0, *site.findings)


def try_meant(check: Callable, site: Site) -> None:
    """With --without-machines a session begins anew, and the states are kept in a folder."""
    site.online()
    run(stored(site, 5))
    site.operate("end now")
    check("it ends with its machines", site.ended() == 0, *site.findings)
    site.online()
    run(stored(site, 6))
    check("it is suspended", site.stop() == 0)
    states = ["recording.begin", *state_names(site)]
    write(site.record, b"")
    site.online("--without-machines")
    asides = [name for name in names_in(site.folder) if ".left-" in name]
    found = names_in(f"{site.folder}/{asides[0]}") if asides else []
    check("others' states are set aside", found == sorted(states), *found, *site.findings)
    run(stored(site, 8))
    site.operate("end logoff now")
    check("it ends without machines", site.ended() == 0, *site.findings)
    check("no state stays", not state_names(site), *state_names(site))
    site.online()
    check("and the next session begins", site.stop() == 0, *site.findings)


def try_left_state(check: Callable, site: Site) -> None:
    """A state without a mark, of a save that a kill broke off, hinders no start."""
    site.online()
    run(stored(site, 5))
    check("it is suspended", site.stop() == 0)
    last = f"{site.folder}/{state_names(site)[-1]}"
    write(f"{site.record}.state-4", read(last))
    site.online()
    check("a state without a mark is removed", "recording.state-4" not in names_in(site.folder))
    check("and it goes on", value_in(run(shown(site))) == 5, *site.findings)
    check("it is suspended again", site.stop() == 0)


def try_strays(check: Callable, command: str, folder: str) -> None:
    """All that is tried in seconds, over a stand-in for the program."""
    os.makedirs(folder)
    try_changed_recordings(
        check, make_site(command, f"{folder}/changed"), make_site(command, f"{folder}/other")
    )
    try_meant(check, make_site(command, f"{folder}/meant"))
    try_left_state(check, make_site(command, f"{folder}/left"))
