"""How a session stops: it is suspended, or it ends, and the next one goes on with its machines or begins without them."""
from __future__ import annotations

from collections.abc import Callable
import enum
import os

from gathjumli.checkpoints import Checkpoint
from gathjumli.cli import Failure, REFUSED
from gathjumli.engine import Engine
from gathjumli.host import size_text
from gathjumli.recording import END, END_KEEPING, Recording
from gathjumli.state_files import is_state

AGAIN = (
    "what was shown is in the recording: make room, and give the same command again, which ends it"
)


class Ending(enum.Enum):
    """How a session stops."""

    SUSPENDED = "suspended"
    # the next session goes on with its machines
    KEEPING = "end"
    LOGOFF = "end logoff"


def asked_in(recording: Recording, is_without_machines: bool) -> Ending:
    """The end that was asked for, of which the recording has the mark."""
    if not recording.last.startswith(END):
        return Ending.SUSPENDED
    is_kept = recording.last.startswith(END_KEEPING) and not is_without_machines
    return Ending.KEEPING if is_kept else Ending.LOGOFF


def end_session(
    engine: Engine, checkpoint: Checkpoint, ending: Ending, notify: Callable[[str], None]
) -> None:
    """Has the volumes saved, and the state of the machines if the next session is to have them, and sets the recording aside. If the
    state cannot be saved, nothing has ended."""
    recording = engine.recording
    digits = engine.save_last_state(checkpoint.state()) if ending == Ending.KEEPING else ""
    if not recording.last.startswith(END):
        recording.mark(END_KEEPING if digits else END)
    checkpoint.make_room()
    try:
        engine.program.finish()
    except Failure as failure:
        trouble = room_trouble(checkpoint.volumes, recording.free())
        lines = [*failure.lines, f"the session has not ended: {trouble or 'a volume is not saved'}"]
        raise Failure(failure.status, *lines, AGAIN) from None
    recording.mark(checkpoint.saved_mark(digits))
    finish_ending(recording, checkpoint, notify)


def room_trouble(volumes: list[str], free: int) -> str:
    """Why volumes cannot be saved on a disk with so many bytes free, or nothing."""
    needed = sum(os.path.getsize(volume) for volume in volumes)
    if free >= needed:
        return ""
    return (
        f"the disk is full: it has {size_text(free)} free, and the volumes need {size_text(needed)}"
    )


def finish_ending(
    recording: Recording, checkpoint: Checkpoint, notify: Callable[[str], None]
) -> None:
    aside = checkpoint.set_aside(recording, notify)
    notify(f"the session has ended; its recording is in {aside}")


def leave_machines(
    recording: Recording, checkpoint: Checkpoint, notify: Callable[[str], None]
) -> None:
    """Sets a session aside that was to go on from the one before. One that does go on is not left so."""
    mark = recording.beginning
    if recording.weight and mark and is_state(checkpoint.beginning(), mark.sum):
        advice = "start without --without-machines, and give end logoff"
        raise Failure(REFUSED, f"{recording.path} has machines, and they are there", advice)
    aside = checkpoint.set_beginning_aside(recording)
    notify(f"a session begins without machines; that of before is in {os.path.abspath(aside)}")
