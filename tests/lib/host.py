"""What tests ask of their host."""
from __future__ import annotations

import re
import socket
import subprocess

from tests.lib.files import read_text

ADDRESS = "127.0.0.1"


def free_port() -> int:
    """A port of the loopback address that nobody has."""
    with socket.socket() as found:
        found.bind((ADDRESS, 0))
        return found.getsockname()[1]


def memory_of(process: int) -> int:
    """The most memory that a process had, in kilobytes."""
    return int(re.search(r"VmHWM:\s+(\d+)", read_text(f"/proc/{process}/status"))[1])


def done_in(folder: str, words: list[str], seconds: float) -> subprocess.CompletedProcess:
    """What a command prints in a folder, standard error among it, which may take so long."""
    streams = {"stdin": subprocess.DEVNULL, "stdout": subprocess.PIPE, "stderr": subprocess.STDOUT}
    return subprocess.run(
        words, cwd=folder, timeout=seconds, text=True, check=False, errors="replace", **streams
    )
