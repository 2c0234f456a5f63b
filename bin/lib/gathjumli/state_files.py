"""State files: a state of the machines with what it is of, and the sum of all that (docs/FORMATS.md, "State files")."""
from __future__ import annotations

from collections.abc import Iterable, Iterator
from typing import Any, BinaryIO, NamedTuple
import contextlib
import errno
import hashlib
import json
import os
import re
import tempfile

from gathjumli.cli import FILE_FAILED, Failure, REFUSED
from gathjumli.following import Program, SavedState, StateRefused
from gathjumli.machines import Machines
from gathjumli.recording import Base, SUM_DIGITS, differing, sync_folder

TITLE = b"* GATHJUMLI STATE 1"
NOTES = b"* NOTES "
BYTES = b"* BYTES "
SIZE = re.compile(re.escape(BYTES) + rb"([0-9]{1,9})\n")
SUM = b"* SUM "
# the program reads the sizes of states, as those of parts, with nine digits
MOST_BYTES = 999_999_999
USUAL_SIZES = {"--frames": "64", "--slots": "256"}
CHUNK = 1 << 20
# who is on, and whose machine runs
NOBODY: dict[str, list[str]] = {"on": [], "running": []}
NO_STATE = "a machine of its own has no state"
OTHER_VOLUMES = "the state is of other volumes, or not as the program writes it"


class StateFile(NamedTuple):
    """A state file that is whole: what it is of, what is noted of the users, where its state is, and its sum."""

    path: str
    base: list[bytes]
    notes: dict[str, Any]
    # it stays open, since another state may get its name
    file: BinaryIO
    place: int
    size: int
    sum: str

    def pieces(self) -> Iterator[bytes]:
        """The bytes of the state."""
        self.file.seek(self.place)
        left = self.size
        while left and (data := self.file.read(min(left, CHUNK))):
            left -= len(data)
            yield data
        if left:
            raise Failure(REFUSED, f"{self.path} was cut")


def base_of(machines: Machines) -> list[bytes]:
    """What a state of these machines is of: the program, the directory and the sizes."""
    if machines.name == "bare370":
        raise Failure(REFUSED, NO_STATE)
    *words, directory = machines.before
    sizes = USUAL_SIZES | dict(zip(words[::2], words[1::2]))
    return [TITLE, *Base(machines.made_of(), " ".join(sizes.values()), directory, []).lines()[1:]]


def write_state(path: str, base: list[bytes], notes: dict[str, Any], saved: SavedState) -> str:
    """Writes a state file that is there whole or not at all, also after the host has crashed; its sum."""
    head = [*base, NOTES + json.dumps(notes).encode(), BYTES + b"%d" % saved.size()]
    if os.path.exists(path) and not os.path.isfile(path):
        raise OSError(errno.EEXIST, "it is no plain file", path)
    path = os.path.realpath(path)
    # it has the storages of guests, and is for its owner only
    handle, written = tempfile.mkstemp(
        prefix=f"{os.path.basename(path)}.new-", dir=os.path.dirname(path)
    )
    try:
        digits = write_summed(handle, [b"".join(line + b"\n" for line in head), *saved.pieces])
        os.replace(written, path)
    except BaseException:
        with contextlib.suppress(OSError):
            os.unlink(written)
        raise
    sync_folder(path)
    return digits


def write_summed(handle: int, pieces: list[bytes]) -> str:
    """Writes bytes and their sum, which is returned, onto the disk."""
    known = hashlib.sha256()
    with open(handle, "wb") as file:
        for piece in pieces:
            known.update(piece)
            file.write(piece)
        digits = known.hexdigest()[:SUM_DIGITS]
        file.write(b"\n" + SUM + digits.encode() + b"\n")
        file.flush()
        os.fsync(file.fileno())
    return digits


def read_state(path: str) -> StateFile:
    """A state file that is whole: it is as long as it says, and its sum is right."""
    if os.path.exists(path) and not os.path.isfile(path):
        raise Failure(REFUSED, f"{path} is no state file")
    file = open(path, "rb")
    base, notes, size = read_head(path, file)
    place, known = file.tell(), hashlib.sha256()
    file.seek(0)
    left = place + size
    while left and (data := file.read(min(left, CHUNK))):
        known.update(data)
        left -= len(data)
    digits = known.hexdigest()[:SUM_DIGITS]
    if left or file.read() != b"\n" + SUM + digits.encode() + b"\n":
        raise Failure(REFUSED, f"{path} is not as it was written")
    return StateFile(path, base, notes, file, place, size, digits)


def sum_of_state(path: str) -> str:
    """The sum of a state that is whole, or nothing."""
    try:
        state = read_state(path)
    except (Failure, OSError):
        return ""
    state.file.close()
    return state.sum


def is_state(path: str, digits: str) -> bool:
    """Whether a file is the state of this sum."""
    return sum_of_state(path) == digits


def read_head(path: str, file: BinaryIO) -> tuple[list[bytes], dict[str, Any], int]:
    """What a state file is of, its notes, and how many bytes follow."""
    base = [file.readline(CHUNK).rstrip(b"\n")]
    if base != [TITLE]:
        raise Failure(REFUSED, f"{path} is no state file")
    try:
        while not (line := file.readline()).startswith(NOTES):
            if not line.startswith(b"* "):
                raise ValueError
            base.append(line.rstrip(b"\n"))
        notes, size = json.loads(line.removeprefix(NOTES)), file.readline(CHUNK)
        if not isinstance(notes, dict) or not NOBODY.keys() <= notes.keys():
            raise ValueError
        if not (digits := SIZE.fullmatch(size)):
            raise ValueError
        return base, notes, int(digits[1])
    except (ValueError, RecursionError):
        raise Failure(REFUSED, f"{path} is not as it was written") from None


def state_of(path: str, machines: Machines) -> StateFile:
    """The state in a file, from which these machines can go on."""
    found = read_state(path)
    if differs := differing(found.base, base_of(machines)):
        raise Failure(REFUSED, f"{path}: {differs}")
    return found


# --- programs ---


def restore(program: Program, state: StateFile) -> None:
    """Has a program go on from a state."""
    try:
        program.restore(state.size, state.pieces())
    except StateRefused as refused:
        raise StateRefused(refused.status, *refused.lines, OTHER_VOLUMES) from None


def write_bytes(state: StateFile, path: str) -> None:
    """Writes the bytes of a state, as programs read them, into a file that only its owner may read."""
    handle = os.open(path, os.O_WRONLY | os.O_CREAT | os.O_EXCL, 0o600)
    with open(handle, "wb") as file:
        file.writelines(state.pieces())


def save_state(program: Program, path: str, machines: Machines, notes: dict[str, Any]) -> None:
    """Writes the state of a program into a file."""
    base, saved = base_of(machines), program.save()
    if saved is None:
        raise Failure(REFUSED, NO_STATE)
    if saved.size() > MOST_BYTES:
        raise Failure(
            FILE_FAILED, f"the state has {saved.size()} bytes, and at most {MOST_BYTES} can be read"
        )
    write_state(path, base, notes, saved)


def after(noted: dict[str, list[str]], changes: Iterable[tuple[str, str]]) -> dict[str, list[str]]:
    """Who is on and whose machine runs after these changes."""
    found = {word: dict.fromkeys(noted[word]) for word in NOBODY}
    words = {"ON": ("on", True), "OFF": ("on", False)} | {
        "RUNS": ("running", True),
        "STOPS": ("running", False),
    }
    for change, name in changes:
        word, holds = words[change]
        found[word].pop(name, None)
        found[word] |= {name: None} if holds else {}
    return {word: sorted(names) for word, names in found.items()}
