"""The files that a recording names, each found by its checksum, and the state with which it began."""
from __future__ import annotations

from collections.abc import Callable
from typing import Any
import os

from gathjumli.checkpoints import FIRST_STATE
from gathjumli.cli import Failure, REFUSED, read_file
from gathjumli.recording import (
    BEGINNING,
    BEGUN,
    STATE,
    TITLE,
    entries_of,
    stamp_in,
    sum_of,
    sum_of_file,
    without_passwords,
)
from gathjumli.state_files import StateFile, read_state, sum_of_state

# options of commands that do a recording once more
OPTIONS = {"--directory": str, "--volume": str}


def is_recording(path: str) -> bool:
    """Whether a file is the recording of an installation."""
    with open(path, "rb") as file:
        return file.readline(len(TITLE) + 1) == TITLE + b"\n"


def stands_on(recording: str, found: dict[str, list]) -> tuple[list[str], str, list[str]]:
    """The sizes, the directory and the volumes that a recording names. Each file is found by its
    checksum: where the arguments say, at its old place, or next to the recording."""
    if not is_recording(recording):
        raise Failure(REFUSED, f"{recording} is no recording of an installation")
    lines = []
    with open(recording, "rb") as file:
        file.readline()
        while (line := file.readline()).startswith(b"* ") and not line.startswith(BEGUN):
            words = line.decode(errors="surrogateescape").rstrip("\n").split(" ", 3)[1:]
            if len(words) < 3:
                raise Failure(REFUSED, f"{recording} is not as an installation writes it")
            lines.append(words)
    next_to = os.path.dirname(os.path.abspath(recording))
    sizes, directory, volumes = [], "", []
    for kind, *rest in lines:
        if kind == "SIZES":
            sizes = ["--frames", rest[0], "--slots", rest[1]]
        elif kind == "DIRECTORY":
            places = [*found["--directory"], rest[1], os.path.join(next_to, "directory")]
            directory = having(
                rest[0],
                places,
                "the directory",
                lambda item: sum_of(without_passwords(read_file(item))),
            )
        elif kind == "VOLUME":
            places = [
                *found["--volume"],
                rest[1],
                os.path.join(next_to, f"volume-{len(volumes) + 1}"),
            ]
            volumes.append(having(rest[0], places, f"volume {len(volumes) + 1}", sum_of_file))
    return sizes, directory, volumes


def script_of(recording: str) -> tuple[bytes, list[tuple[int, str]]]:
    """The script that a recording is, without what is not there whole, as in a copy of one that is being written; and its times, each
    with how many lines of it were done by then."""
    entries, times, count = [], [], 0
    with open(recording, "rb") as file:
        for entry in entries_of(file):
            entries.append(entry)
            if stamp := stamp_in(entry):
                times.append((count, stamp[1].decode()))
            count += entry.count(b"\n")
    return b"".join(entries), times


def beginning_of(recording: str) -> StateFile | None:
    """The state with which a session began that went on from another one: next to the recording, or in its folder."""
    with open(recording, "rb") as file:
        while (line := file.readline()).startswith(b"* ") and not line.startswith(BEGUN):
            pass
        line = file.readline()
    if not line.startswith(STATE + BEGINNING.encode() + b" "):
        return None
    digits = line.split()[-1].decode(errors="replace")
    folder = os.path.dirname(os.path.abspath(recording))
    places = [f"{recording}.{BEGINNING}", os.path.join(folder, FIRST_STATE)]
    place = having(digits, places, "the state with which the session began", sum_of_state)
    return read_state(place)


def having(wanted: str, places: list[str], name: str, known: Callable[[str], Any]) -> str:
    """The first of some places at which there is a file of this sum."""
    for place in places:
        if os.path.isfile(place) and known(place) == wanted:
            return place
    raise Failure(
        REFUSED, f"{name} is not there as it was: looked for at {', '.join(dict.fromkeys(places))}"
    )
