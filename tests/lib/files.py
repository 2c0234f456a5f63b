"""Files that tests read and write."""
from __future__ import annotations

import os


def read(path: str) -> bytes:
    with open(path, "rb") as file:
        return file.read()


def read_text(path: str) -> str:
    """A text, each byte of which is a character."""
    return read(path).decode("latin-1")


def write(path: str, data: bytes | str) -> None:
    with open(path, "wb") as file:
        file.write(data if isinstance(data, bytes) else data.encode())


def names_in(folder: str) -> list[str]:
    """The names in a folder, which may be missing."""
    return sorted(os.listdir(folder)) if os.path.exists(folder) else []
