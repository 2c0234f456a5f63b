"""Copies all that a session needs to go on elsewhere, while it goes on. In one moment, between two parts, all its files are opened. They
are replaced by others and not written over, except that the recording grows: so what is open is of that moment, however long the copying
takes and whatever happens meanwhile."""
from __future__ import annotations

from collections.abc import Callable
from typing import Any, BinaryIO, NamedTuple
import asyncio
import contextlib
import errno
import hashlib
import os
import shutil
import tempfile
import threading

from gathjumli.checkpoints import sync_file
from gathjumli.cli import FILE_FAILED, Failure, REFUSED, reason_text
from gathjumli.host import size_text
from gathjumli.recording import SUM_DIGITS, sync_folder

CHUNK = 1 << 20
CONTENTS = "contents"
# files next to the recording, which may be there
NEXT_TO_RECORDING = ("rules", "logmsg", "end-at")


class Source(NamedTuple):
    """A file that is to be copied: its name in the copy, the open file, how many bytes of it, and the sum that it has to have, if
    that is known."""

    name: str
    file: BinaryIO
    size: int
    wanted: str = ""


class Backup:
    """One copy at a time, in a thread of its own."""

    def __init__(self, installation: Any) -> None:
        self.installation = installation
        self.is_stopping = False
        self.thread: threading.Thread | None = None
        self.task: asyncio.Task | None = None

    def is_busy(self) -> bool:
        return bool(self.task and not self.task.done()) or bool(
            self.thread and self.thread.is_alive()
        )

    def start(self, folder: str, reply: Callable, end: Callable[[bool], None]) -> None:
        """Begins a copy into a folder that is not there; end is told whether it is whole."""
        self.task = asyncio.ensure_future(self.open_and_copy(folder, reply, end))

    async def open_and_copy(self, folder: str, reply: Callable, end: Callable) -> None:
        engine = self.installation.engine
        try:
            # between two parts
            sources = await engine.loop.run_in_executor(engine.thread, self.open_all)
        except (OSError, Failure, RuntimeError) as reason:
            # the engine may have stopped meanwhile
            reply(f"no backup is made: {reason_text(reason)}")
            end(False)
            return
        given = (folder, sources, reply, end)
        self.thread = threading.Thread(target=self.copy_all, args=given, daemon=True)
        self.thread.start()

    def open_all(self) -> list[Source]:
        """Opens all files that the session needs; the recording is on the disk until here."""
        installation, recording = self.installation, self.installation.engine.recording
        recording.settle()
        found = [source("recording", recording.path)]
        marks = [*[recording.beginning] * bool(recording.beginning), *recording.states]
        for mark in marks:
            # of states the last ones only save time
            with contextlib.suppress(FileNotFoundError):
                found.append(source(f"recording.{mark.name}", f"{recording.path}.{mark.name}"))
        for name in NEXT_TO_RECORDING:
            with contextlib.suppress(FileNotFoundError):
                found.append(source(f"recording.{name}", f"{recording.path}.{name}"))
        found.append(source("directory", installation.directory))
        if installation.options["passwords"]:
            found.append(source("passwords", installation.options["passwords"]))
        sums = recording.volume_sums()
        for place, (volume, wanted) in enumerate(zip(installation.volumes, sums), 1):
            found.append(source(f"volume-{place}", volume)._replace(wanted=wanted))
        return found

    def copy_all(self, folder: str, sources: list, reply: Callable, end: Callable) -> None:
        """Copies what is open into the folder, which is there whole or not at all."""
        try:
            folder = os.path.abspath(folder)
            place, name = os.path.split(folder)
            made = tempfile.mkdtemp(prefix=f"{name}.new-", dir=place)
            try:
                lines = [self.copy(item, made) for item in sources]
                write_private(os.path.join(made, CONTENTS), "".join(lines).encode())
                sync_folder(os.path.join(made, CONTENTS))
                if os.path.lexists(folder):
                    raise Failure(REFUSED, f"{folder} is there already")
                os.rename(made, folder)
                sync_folder(folder)
            except BaseException:
                shutil.rmtree(made, ignore_errors=True)
                raise
        except (OSError, Failure) as reason:
            is_closed = getattr(reason, "errno", None) == errno.EROFS
            hint = ", or the service's unit does not name the folder (ReadWritePaths)" * is_closed
            reply(f"no backup is made: {reason_text(reason)}{hint}")
            end(False)
            return
        finally:
            for item in sources:
                item.file.close()
        size = size_text(sum(item.size for item in sources))
        told = f"a backup is in {folder}: {len(sources)} files, {size}"
        reply(told)
        end(True)

    def copy(self, item: Source, folder: str) -> str:
        """Copies a file, and returns its line of the contents."""
        known, left = hashlib.sha256(), item.size
        path = os.path.join(folder, item.name)
        handle = os.open(path, os.O_WRONLY | os.O_CREAT | os.O_EXCL, 0o600)
        with item.file, open(handle, "wb") as file:
            while left and (data := item.file.read(min(left, CHUNK))):
                if self.is_stopping:
                    raise Failure(FILE_FAILED, "the session stops")
                known.update(data)
                left -= len(data)
                file.write(data)
        digits = known.hexdigest()[:SUM_DIGITS]
        if left or item.wanted and digits != item.wanted:
            raise Failure(REFUSED, f"{item.file.name} is not as it was when the session began")
        sync_file(path)
        return f"{digits} {item.name} {os.path.abspath(item.file.name)}\n"

    def close(self) -> None:
        """Breaks a copy off that goes on."""
        self.is_stopping = True
        if self.thread:
            self.thread.join()


def source(name: str, path: str) -> Source:
    file = open(path, "rb")
    return Source(name, file, os.fstat(file.fileno()).st_size)


def write_private(path: str, data: bytes) -> None:
    """Writes a file for its owner only, onto the disk."""
    handle = os.open(path, os.O_WRONLY | os.O_CREAT | os.O_EXCL, 0o600)
    with open(handle, "wb") as file:
        file.write(data)
        file.flush()
        os.fsync(file.fileno())
