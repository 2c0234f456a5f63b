"""The folder in which a host has copies of the files of an installation that is kept in a store."""
from __future__ import annotations

from typing import Any
import fcntl
import glob
import os
import re
import shutil

from gathjumli.cli import Failure, REFUSED
from gathjumli.store_tables import STATES, download, files_of, is_file_of
from gathjumli.stores import SESSION

PRINTOUTS = "printouts"
# files here that are there or not as the store says
OURS = re.compile(
    r"recording\.(?:begin|state-.*|ending-.*|logmsg|end-at)|.*\.(?:new-.*|copy)", re.DOTALL
)


def locked(folder: str) -> Any:
    """Returns a file that keeps other commands from a folder while it is open."""
    os.makedirs(folder, 0o700, exist_ok=True)
    file = open(os.path.join(folder, "lock"), "ab")
    try:
        fcntl.flock(file, fcntl.LOCK_EX | fcntl.LOCK_NB)
    except BlockingIOError:
        text = f"another command has its copies in {folder}: --work is one for each"
        raise Failure(REFUSED, text) from None
    return file


def is_of_session(name: str) -> bool:
    """Returns whether a session goes on with a file: it is no printout, no state, and not in the folder of an ended session."""
    is_ended = SESSION.fullmatch(os.path.dirname(name).removeprefix("recording."))
    return not is_ended and not name.startswith((f"{PRINTOUTS}/", STATES[:-1]))


def download_all(server: Any, installation: str, folder: str) -> None:
    """Brings all files that a session goes on with. States are brought when they are needed."""
    for name, digits in files_of(server, installation).items():
        if is_of_session(name):
            download(server, installation, digits, os.path.join(folder, name))


def remove_others(folder: str, files: dict[str, str]) -> None:
    """Removes what the store has not: also what an engine that was killed here has written in part, and its last states."""
    for path in glob.glob(os.path.join(glob.escape(folder), "*")):
        name = os.path.basename(path)
        if not OURS.fullmatch(name):
            continue
        is_other = name.startswith("recording.state-") and not is_file_of(path, files.get(name, ""))
        if os.path.isdir(path):
            shutil.rmtree(path, ignore_errors=True)
        elif name not in files or is_other:
            os.unlink(path)
