"""The volumes of an installation. While a session goes on they stay as they were when it began; its end replaces them, and a
crash in the midst of that is made good by the next start."""
from __future__ import annotations

from typing import Any
from collections.abc import Callable
import contextlib
import fcntl
import glob
import os
import shlex
import shutil
import tempfile

from gathjumli.cli import FILE_FAILED, Failure, REFUSED, write_whole
from gathjumli.recording import (
    BEGINNING,
    SAVED_KEEPING,
    Recording,
    SAVED,
    read_whole,
    sum_of_file,
    sync_folder,
    without_passwords,
)
from gathjumli.state_files import is_state
from gathjumli.stores import FileStore
from gathjumli.strays import forget_states, noted_in, state_paths

DIRECTORY = "directory"
# in the folder of a session: the states with which it began and ended
FIRST_STATE = "begin"
LAST_STATE = "end"
ENDING = ".ending-"
# in the notes of a state: the session from which another one goes on with it, while people are on
TURNED = "turned"


class Checkpoint:
    """Where the images of a session come to when it ends: a folder next to the recording, until they are in their places. Each
    start has another one, since a program whose command was killed may still write to its own."""

    def __init__(self, store: FileStore, directory: Any, volumes: Any) -> None:
        self.store = store
        self.record = store.record
        self.directory = directory
        self.volumes = volumes
        self.folder = ""
        self.locked = []

    def lock(self) -> None:
        """Keeps the volumes from any other installation until it is closed."""
        for volume in self.volumes:
            file = open(volume, "rb")
            self.locked.append(file)
            try:
                fcntl.flock(file, fcntl.LOCK_EX | fcntl.LOCK_NB)
            except BlockingIOError:
                raise Failure(
                    REFUSED, f"another installation uses {volume}, or it is named twice"
                ) from None

    def close(self) -> None:
        for file in self.locked:
            file.close()

    def paths(self) -> list:
        return [
            os.path.join(self.folder, f"volume-{place}")
            for place in range(1, len(self.volumes) + 1)
        ]

    def state(self) -> str:
        """The file of the machines' state at the end of a session."""
        return os.path.join(self.folder, LAST_STATE)

    def beginning(self) -> str:
        """The file of the state with which the session began, if it began with one."""
        return f"{self.record}.{BEGINNING}"

    def begin(self) -> Any:
        """The paths by which the program reads the volumes, and will save others."""
        self.forget()
        if os.path.isfile(self.beginning()):
            # it may be of a version that made it for others to read
            os.chmod(self.beginning(), 0o600)
        where, name = os.path.split(os.path.abspath(self.record))
        self.folder = tempfile.mkdtemp(prefix=f"{name}{ENDING}", dir=where)
        for path, volume in zip(self.paths(), self.volumes):
            os.symlink(os.path.realpath(volume), path)
        self.keep_directory(without_passwords(read_whole(self.directory)))
        return self.paths()

    def stated(self) -> str:
        """The file of the directory as it was when the session began, without passwords: whoever edits the other one changes
        nothing before a reload."""
        return os.path.join(self.folder, DIRECTORY)

    def keep_directory(self, data: bytes) -> None:
        write_whole(self.stated(), data, is_settled=True)

    def forget(self) -> None:
        """Removes the folders of this start and of those before it."""
        for path in glob.glob(glob.escape(os.path.abspath(self.record) + ENDING) + "*"):
            shutil.rmtree(path, ignore_errors=True)

    def make_room(self) -> None:
        """What the program saves from now on goes into the folder, and not to the volumes themselves."""
        for path in self.paths():
            os.unlink(path)
            with open(path, "xb"):
                pass

    def saved_mark(self, digits: str) -> Any:
        """The line of the recording that says that all is saved, once it is on the disk: in which folder, and the sums; digits: the
        sum of the state with which the next session begins, if any."""
        for path in self.paths():
            sync_file(path)
        sync_folder(self.stated())
        for path in [
            *self.paths(),
            self.stated(),
            *[self.state()] * bool(digits),
        ]:
            self.store.keep(path)
        sums = [*([digits] * bool(digits)), *map(sum_of_file, self.paths())]
        words = " ".join([os.path.basename(self.folder), *sums])
        return (SAVED_KEEPING if digits else SAVED) + words.encode(errors="surrogateescape")

    def set_aside(self, recording: Any, notify: Callable) -> Any:
        """Puts the saved images in the places of the volumes, and returns the folder to which the recording goes with these as they
        were, and with the directory. What of this was done before a crash stays."""
        digits = self.find(recording.last)
        # what the session has is in the images and in the state with which it ended
        forget_states(self.record)
        aside = recording.aside()
        os.makedirs(aside, 0o700, exist_ok=True)
        for path, volume, known in zip(self.paths(), self.volumes, recording.volume_sums()):
            self.replace(
                path,
                volume,
                known,
                recording.name(),
                os.path.join(aside, os.path.basename(path)),
                notify,
            )
        copy_whole(self.stated(), os.path.join(aside, DIRECTORY))
        self.keep_beginning(recording, aside)
        if digits:
            self.put_next(recording, aside, digits)
        else:
            self.leave_beginning(aside)
            os.replace(self.record, os.path.join(aside, "recording"))
        sync_folder(self.record)
        self.store.turn(aside, self.volumes)
        self.forget()
        return aside

    def keep_beginning(self, recording: Recording, aside: str) -> None:
        """Keeps the state with which the session began, which a replay of it needs."""
        mark, path = recording.beginning, self.beginning()
        if mark and is_state(path, mark.sum):
            keep(path, os.path.join(aside, FIRST_STATE))

    # --- a session that goes over into the next one while people are on ---

    def prepare_turn(self, recording: Recording) -> None:
        """Has in the folder of a session what a replay of it will need, while the session goes on."""
        aside = recording.aside()
        os.makedirs(aside, 0o700, exist_ok=True)
        for path, volume in zip(self.paths(), self.volumes):
            keep(volume, os.path.join(aside, os.path.basename(path)))
        copy_whole(self.stated(), os.path.join(aside, DIRECTORY))
        self.keep_beginning(recording, aside)
        for path in (os.path.join(aside, DIRECTORY), aside):
            sync_folder(path)

    def turn(
        self,
        recording: Recording,
        directory: bytes,
        write: Callable[[str], str],
        text_with: Callable[[str], bytes],
    ) -> str:
        """Sets a recording aside, and has another one in its place that goes on from a state over another directory; the folder of the
        first one. The file of the state is written first, its sum is in the text, and the last step makes it count.
        """
        aside, following = recording.aside(), os.path.join(self.folder, "recording")
        digits = write(self.beginning())
        write_whole(following, text_with(digits), is_settled=True)
        os.chmod(following, 0o600)
        keep(self.record, os.path.join(aside, "recording"))
        forget_states(self.record)
        sync_folder(os.path.join(aside, "recording"))
        recording.turn(following)
        sync_folder(self.record)
        self.keep_directory(directory)
        self.store.turn(aside, self.volumes)
        return aside

    def undo_turn(self, recording: Recording) -> None:
        """Takes back what there is of a turn that has not come to its last step: the session goes on as if it had not been tried."""
        if not recording.begun or not os.path.isdir(recording.aside()):
            return
        path, mark, aside = self.beginning(), recording.beginning, recording.aside()
        if os.path.isfile(path) and turned_from(path) == recording.name():
            kept = os.path.join(aside, FIRST_STATE)
            if mark and is_state(kept, mark.sum):
                copy_whole(kept, path)
            elif not mark:
                os.unlink(path)
        shutil.rmtree(aside, ignore_errors=True)

    def leave_beginning(self, aside: str) -> None:
        """Has the state with which the session began in the session's folder only: the next one begins without any."""
        if os.path.isfile(self.beginning()):
            keep(self.beginning(), os.path.join(aside, FIRST_STATE))
            os.unlink(self.beginning())

    def put_next(self, recording: Recording, aside: str, digits: str) -> None:
        """Puts the recording of the next session, which begins with the state of this sum, in the place of this one. There is always
        one of the two."""
        copy_whole(self.state(), self.beginning())
        copy_whole(self.state(), os.path.join(aside, LAST_STATE))
        keep(self.record, os.path.join(aside, "recording"))
        sync_folder(os.path.join(aside, "recording"))
        following = os.path.join(self.folder, "recording")
        sums = [sum_of_file(path) for path in self.paths()]
        write_whole(following, recording.succeeding(sums, digits), is_settled=True)
        os.chmod(following, 0o600)
        os.replace(following, os.path.realpath(self.record))

    def set_beginning_aside(self, recording: Recording) -> str:
        """Sets a session aside that is to begin anew, with volumes as they are; the folder to which it goes."""
        aside = recording.aside()
        os.makedirs(aside, 0o700, exist_ok=True)
        self.leave_beginning(aside)
        for name, path in state_paths(self.record).items():
            os.replace(path, os.path.join(aside, name))
        os.replace(self.record, os.path.join(aside, "recording"))
        sync_folder(self.record)
        self.store.turn(aside, self.volumes)
        return aside

    def replace(
        self, path: str, volume: Any, known: Any, name: str, aside: Any, notify: Callable
    ) -> None:
        """Puts a saved image in the place of a volume whose sum is still as it is known, and keeps the old one aside. A volume
        that somebody else has changed stays as it is: the image follows to it."""
        now = sum_of_file(volume) if os.path.exists(volume) else ""
        if now == known:
            keep(volume, aside)
        if now in (known, sum_of_file(path)):
            put(path, volume)
            return
        copied = f"{os.path.realpath(volume)}.{name}"
        copy_whole(path, copied, os.stat(volume) if os.path.exists(volume) else None)
        notify(
            f"{volume} was changed by somebody else during the session, and stays as it is; the volume of the session is {copied}: "
            f"{put_back(copied, volume)}, if the next session is to go on with it"
        )

    def find(self, mark: Any) -> str:
        """Finds the images that were saved, as the recording says, and the state, if there is one; its sum."""
        is_kept = mark.startswith(SAVED_KEEPING)
        words = (
            mark.removeprefix(SAVED_KEEPING if is_kept else SAVED)
            .decode(errors="surrogateescape")
            .rstrip("\n")
            .rsplit(" ", is_kept + len(self.volumes))
        )
        digits = words.pop(1) if is_kept else ""
        self.folder = os.path.join(os.path.dirname(os.path.abspath(self.record)), words[0])
        sums = [sum_of_file(path) if os.path.exists(path) else "" for path in self.paths()]
        if words[1:] != sums or digits and not is_state(self.state(), digits):
            raise Failure(
                FILE_FAILED,
                f"{self.folder} has no images that were saved at the end of {self.record}",
            )
        return digits


def turned_from(path: str) -> str:
    """The session from which another one was to go on with the state in a file, or nothing."""
    return noted_in(path, TURNED)


def put_back(copy: str, volume: str) -> str:
    """The command that puts a copy in the place of a volume."""
    return f"cp {shlex.quote(copy)} {shlex.quote(volume)}"


def copies_of(record: str, volume: str, wanted: str) -> list[str]:
    """The copies of a volume with this sum, which an end has left next to it or in the folder of a session."""
    beside = f"{glob.escape(os.path.realpath(volume))}.*"
    folders = f"{glob.escape(os.path.abspath(record))}.*/volume-*"
    paths = [path for pattern in (beside, folders) for path in sorted(glob.glob(pattern))]
    return [path for path in paths if os.path.isfile(path) and sum_of_file(path) == wanted]


def changed_volume(record: str, volume: str, wanted: str) -> str:
    """What mends it that a volume is not the one with this sum."""
    copies = copies_of(record, volume, wanted)
    if copies:
        return f"its own is {copies[0]}: {put_back(copies[0], volume)}, and start again"
    return f"put back a copy of it whose SHA-256 begins with {wanted}, and start again"


def refuse_changed_volumes(recording: Recording, volumes: list[str]) -> None:
    """Refuses volumes that are not those of a recording, and says what would mend it."""
    sums = recording.volume_sums()
    if len(sums) != len(volumes):
        return
    found = [
        (place, volume, wanted)
        for place, (volume, wanted) in enumerate(zip(volumes, sums), 1)
        if sum_of_file(volume) != wanted
    ]
    if found:
        path = recording.path
        lines = [
            f"{path}: it is of another volume {place} than {volume}; {changed_volume(path, volume, wanted)}"
            for place, volume, wanted in found
        ]
        away = "" if recording.beginning and not recording.weight else f"move {path} away, and "
        anew = "then a session begins anew, with the volumes as they are"
        raise Failure(REFUSED, *lines, f"or {away}start with --without-machines: {anew}")


def keep(volume: Any, aside: Any) -> None:
    """Has an image under another name too, where that is not there yet."""
    if os.path.exists(aside):
        return
    try:
        os.link(os.path.realpath(volume), aside)
    except OSError:
        # another file system, or one without links
        copy_whole(volume, aside)


def put(path: Any, volume: Any) -> None:
    """Puts a file in the place of a volume, for the same people."""
    place = os.path.realpath(volume)
    copy_whole(path, place, os.stat(place))


def copy_whole(path: str, to: Any, owned: Any = None) -> None:
    """A copy that is there whole or not at all, also after the host has crashed; whose it is, is reported by a file's state."""
    copied = f"{to}.new-{os.getpid()}"
    try:
        # states have the storages of guests: what has no owner to be like is for this one only
        os.close(os.open(copied, os.O_WRONLY | os.O_CREAT | os.O_TRUNC, 0o600))
        shutil.copyfile(path, copied)
        if owned:
            os.chmod(copied, owned.st_mode & 0o7777)
            with contextlib.suppress(PermissionError):
                os.chown(copied, owned.st_uid, owned.st_gid)
        sync_file(copied)
        os.replace(copied, to)
    except OSError as error:
        with contextlib.suppress(OSError):
            os.unlink(copied)
        # the place that has no room is named, and not the file that was read
        raise Failure(FILE_FAILED, f"{to} cannot be written: {error.strerror}") from None
    except BaseException:
        with contextlib.suppress(FileNotFoundError):
            os.unlink(copied)
        raise
    sync_folder(to)


def sync_file(path: str) -> None:
    file = os.open(path, os.O_RDONLY)
    try:
        os.fsync(file)
    finally:
        os.close(file)
