"""Finds in which frames pages are: bin/framemap goes on from the last state, next to all else. It ends with whoever has asked."""
from __future__ import annotations

from collections.abc import Callable
from typing import Any
import contextlib
import os
import signal
import subprocess
import threading
import time

from gathjumli.cli import Failure, ask_build, reason_text
from gathjumli.state_files import StateFile, read_state

SECONDS_BETWEEN_LOOKS = 0.5
SECONDS_BETWEEN_REPORTS = 5
BEING_LOOKED_FOR = "the frames are being looked for"
NOT_BUILT = "the program is not built: run bin/framemap once by hand"


class FrameMap:
    """One search at a time, in a thread and a process of its own."""

    def __init__(self, engine: Any, words: list[str]) -> None:
        self.engine = engine
        # of bin/framemap, for a session that begins without a state
        self.words = words
        self.is_stopping = False
        self.thread: threading.Thread | None = None

    def is_busy(self) -> bool:
        return bool(self.thread and self.thread.is_alive())

    def start(self, reply: Callable, end: Callable[[bool], None], is_there: Callable) -> None:
        """Begins a search; end is told whether it has found the frames, and it stops if nobody is there any more."""
        size = self.engine.recording.size()
        given = (size, reply, end, lambda: is_there() and not self.is_stopping)
        self.thread = threading.Thread(target=self.find, args=given, daemon=True)
        self.thread.start()

    def find(self, size: int, reply: Callable, end: Callable, is_wanted: Callable) -> None:
        """Finds the frames. The answer is what was found, or why nothing was."""
        try:
            status, lines = self.found(size, reply, is_wanted)
        except (Failure, OSError) as reason:
            status, lines = 1, [f"the frames are not found: {reason_text(reason)}"]
        for line in lines:
            reply(line)
        end(not status)

    def found(self, size: int, reply: Callable, is_wanted: Callable) -> tuple[int, list[str]]:
        """The status of bin/framemap, and what it prints."""
        # a build would take minutes in silence
        if ask_build("tell").endswith("not built"):
            return 1, [NOT_BUILT]
        place, state = self.last_state()
        with contextlib.ExitStack() as files:
            if state:
                files.enter_context(state.file)
            return self.run(self.script(place, size), state, reply, is_wanted)

    def last_state(self) -> tuple[int, StateFile | None]:
        """The last state that can be read, and from which byte of the recording it goes on. Its file stays open, as others follow."""
        recording = self.engine.recording
        beginning = [recording.beginning] * bool(recording.beginning)
        for mark in reversed([*beginning, *recording.states, *self.engine.states.on_way]):
            with contextlib.suppress(Failure, OSError):
                recording.store.have(self.engine.states.path(mark.name))
                state = read_state(self.engine.states.path(mark.name))
                if state.sum == mark.sum:
                    return mark.place, state
                state.file.close()
        return 0, None

    def script(self, place: int, size: int) -> bytes:
        with open(self.engine.recording.path, "rb") as file:
            file.seek(place)
            return file.read(size - place)

    def run(
        self, script: bytes, state: StateFile | None, reply: Callable, is_wanted: Callable
    ) -> tuple[int, list[str]]:
        """Runs bin/framemap until it ends, or is not wanted any more; its status and what it prints."""
        handles = [state.file.fileno()] if state else []
        named = [word for handle in handles for word in ("--state", f"/proc/self/fd/{handle}")]
        place = self.words.index("--")
        words = [*self.words[:place], *named, *self.words[place:]]
        streams = {name: subprocess.PIPE for name in ("stdin", "stdout", "stderr")}
        process = subprocess.Popen(words, pass_fds=handles, start_new_session=True, **streams)
        given: bytes | None = script
        begun = reported = time.monotonic()
        while True:
            try:
                out, errors = process.communicate(given, SECONDS_BETWEEN_LOOKS)
                break
            except subprocess.TimeoutExpired:
                given = None
            if not is_wanted():
                with contextlib.suppress(ProcessLookupError):
                    os.killpg(process.pid, signal.SIGKILL)
            elif time.monotonic() - reported >= SECONDS_BETWEEN_REPORTS:
                reported = time.monotonic()
                reply(f"{BEING_LOOKED_FOR}, {reported - begun:.0f} s so far")
        found = errors if process.returncode else out
        return process.returncode, found.decode(errors="replace").splitlines()

    def close(self) -> None:
        """Ends a search that goes on."""
        self.is_stopping = True
        if self.thread:
            self.thread.join()
