"""State files next to a recording that are not of it: the recording was emptied, lost, or replaced by an older one or by another
session's. All machines may be in these files, so none is removed before somebody has looked."""
from __future__ import annotations

from typing import Any
import glob
import os
import re
import time

from gathjumli.cli import Failure, REFUSED
from gathjumli.recording import BEGINNING, Recording
from gathjumli.state_files import read_head

# the names of states, and of what was written of one before a kill
NAME = re.compile(r"state-([0-9]+)(\.new-\w+)?")
# in the notes of a state: the session that it is of
SESSION = "session"
ADVICE = "put back the recording that they are of, or start with --without-machines, which sets these files aside"


def state_paths(record: str) -> dict[str, str]:
    """The paths of the states next to a recording, by the names that its marks have."""
    prefix = f"{record}."
    names = [path.removeprefix(prefix) for path in glob.glob(glob.escape(f"{prefix}state-") + "*")]
    return {name: prefix + name for name in names if NAME.fullmatch(name)}


def strays_of(recording: Recording) -> dict[str, str]:
    """The states next to a recording that are not of it, each with what shows it."""
    found = {}
    for name, path in sorted(state_paths(recording.path).items()):
        if os.path.isfile(path) and "new" not in name and (why := why_stray(recording, name, path)):
            found[path] = why
    beginning = f"{recording.path}.{BEGINNING}"
    if os.path.exists(beginning) and not recording.beginning:
        found[beginning] = f"{recording.path} begins with no state"
    return found


def why_stray(recording: Recording, name: str, path: str) -> str:
    """What shows that a state is not of this recording, or nothing. One without a mark may be of a save that a kill has broken off."""
    lines = int(NAME.fullmatch(name)[1])
    session = session_of(path)
    if not recording.begun:
        return f"{recording.path} is empty"
    if session not in ("", recording.name()):
        return (
            f"it is of the session of {session}, and {recording.path} of that of {recording.name()}"
        )
    if lines > recording.lines:
        return f"it was saved after {lines} lines, and {recording.path} has {recording.lines}"
    return ""


def session_of(path: str) -> str:
    """The session that a state says to be of, or nothing."""
    return noted_in(path, SESSION)


def noted_in(path: str, note: str) -> str:
    """A note of a state, or nothing."""
    try:
        with open(path, "rb") as file:
            return str(read_head(path, file)[1].get(note, ""))
    except (Failure, OSError):
        return ""


def refuse_strays(recording: Recording) -> None:
    """Refuses a recording next to which there are others' states."""
    if strays := strays_of(recording):
        findings = [f"{path} is no state of this recording: {why}" for path, why in strays.items()]
        raise Failure(REFUSED, *findings, ADVICE)


def set_strays_aside(recording: Recording, notify: Any) -> bool:
    """Moves others' states into a folder of their own; whether there were any."""
    strays = strays_of(recording)
    if strays:
        aside = f"{recording.path}.left-{time.strftime('%Y-%m-%d-%H%M%S', time.gmtime())}"
        os.makedirs(aside, 0o700, exist_ok=True)
        for path in strays:
            os.replace(path, os.path.join(aside, os.path.basename(path)))
        notify(f"states that are not of {recording.path} are now in {aside}")
    return bool(strays)


def forget_states(record: str, kept: Any = ()) -> None:
    """Removes the states next to a recording, except those of these names."""
    for name, path in state_paths(record).items():
        if name not in kept:
            # one that stays hinders nobody
            try:
                os.unlink(path)
            except OSError:
                pass
