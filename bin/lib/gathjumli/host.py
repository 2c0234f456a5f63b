"""What processes take of the host."""
from __future__ import annotations

from typing import Any
import os

MEGABYTE = 1 << 20
# in the path of what systemd mounts for one service
PRIVATE = "/systemd-private-"


def size_text(size: int) -> str:
    """A length in words, of which a short one is not rounded to nothing."""
    return f"{size / MEGABYTE:.1f} MB" if size >= MEGABYTE else f"{-(-size // 1024)} KB"


def memory_of(process: Any) -> Any:
    """The bytes of memory that a process has, or 0 if it is gone."""
    try:
        with open(f"/proc/{process}/statm") as file:
            return int(file.read().split()[1]) * os.sysconf("SC_PAGE_SIZE")
    except OSError:
        return 0


def processor_seconds(process: Any) -> Any:
    """The processor time that a process took until now, or 0 if it is gone."""
    try:
        with open(f"/proc/{process}/stat") as file:
            fields = file.read().rpartition(")")[2].split()
        return (int(fields[11]) + int(fields[12])) / os.sysconf("SC_CLK_TCK")
    except OSError:
        return 0.0


def usual_memory() -> Any:
    """Half of the host's memory."""
    return os.sysconf("SC_PHYS_PAGES") * os.sysconf("SC_PAGE_SIZE") // 2


def is_private(path: str, mounts: str) -> bool:
    """Whether a path is below a folder that only this service sees, and that goes when it stops, by what /proc/self/mountinfo has."""
    places = [words[4] for words in map(str.split, mounts.splitlines()) if PRIVATE in words[3]]
    return any(os.path.join(path, "").startswith(os.path.join(place, "")) for place in places)
