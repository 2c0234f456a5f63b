"""The files for the operator: each goes into a folder once, whole, when its user closes it."""
from __future__ import annotations

from typing import Any
import collections
import os
import threading

from gathjumli.printout_lines import HEADING
from gathjumli.printing import Printing
from gathjumli.stores import FileStore

# files that are not written yet have so many bytes at most; of further ones the next start makes the pages
MOST_WAITING = 1 << 28
SECONDS_TO_TRY_AGAIN = 5
SECONDS_TO_FINISH = 10
WRITTEN, WAITS, WAITS_FOR_START, TOLD = "written", "waits", "waits for the next start", "closed"
UNWRITTEN = (WAITS, WAITS_FOR_START)


class Printout:
    """A file for the operator, how many lines it has, and what has become of it."""

    def __init__(self, heading: Any, body: Any) -> None:
        kind, number, user = HEADING.fullmatch(heading).groups()
        self.name = f"{kind}{number}-{user}.txt"
        self.heading = heading
        self.user = user
        self.body = body
        self.lines = body.count(b"\n")
        self.state = WAITS


class Printouts:
    """Writes printouts one after another in a thread, and notes in the recording which are written. One that cannot be written
    waits, and those after it. Without a folder printouts are only reported."""

    def __init__(self, folder: Any, notify: Any, noted: Any, store: FileStore) -> None:
        self.folder = folder
        self.store = store
        self.notify = notify
        # how to note that a file is written, and the names of those that are noted
        self.note = lambda name: None
        self.noted = noted
        self.all = []
        self.waiting = collections.deque()
        # of the files that wait, in bytes
        self.size = 0
        self.trouble = ""
        self.is_closing = False
        # a standby writes none: its engine does, and notes which are written
        self.is_held = store.follows
        self.changed = threading.Condition()
        self.thread = None
        if folder:
            # the folder of the session is made when it is needed: a full disk keeps nobody from his machine
            os.makedirs(os.path.dirname(folder), exist_ok=True)
            self.thread = threading.Thread(target=self.write_all, daemon=True)
            self.thread.start()

    def put(self, files: list, is_replay: bool = False) -> None:
        """Takes closed files, each with its heading and entries. In a replay it waits while too much waits to be written."""
        for heading, body in files:
            printout = Printout(heading, body)
            with self.changed:
                self.all.append(printout)
                self.decide(printout, is_replay)
                if self.is_held:
                    self.drop_noted()
                while is_replay and self.size > MOST_WAITING // 2 and not self.trouble:
                    if self.is_held:
                        break
                    self.changed.wait(1)

    def decide(self, printout: Any, is_replay: Any) -> None:
        """Whether a printout is to be written."""
        if not self.folder:
            printout.state = TOLD
            if not is_replay:
                self.notify(f"closed: {printout.name}")
        elif printout.name in self.noted:
            printout.state = WRITTEN
        elif self.size + len(printout.body) > MOST_WAITING and self.waiting:
            printout.state = WAITS_FOR_START
            self.notify(f"{printout.name} waits for the next start: too much waits to be written")
        else:
            self.waiting.append(printout)
            self.size += len(printout.body)
            self.changed.notify_all()
            return
        printout.body = b""

    def drop_noted(self) -> None:
        """Has those wait no more that another engine has written."""
        for printout in [item for item in self.waiting if item.name in self.noted]:
            self.waiting.remove(printout)
            self.size -= len(printout.body)
            printout.state, printout.body = WRITTEN, b""

    def release(self) -> None:
        """Writes what the engine before has not."""
        with self.changed:
            self.is_held = False
            self.drop_noted()
            self.changed.notify_all()

    def write_all(self) -> None:
        """Writes what waits, until it is closed."""
        printing = Printing()
        while printout := self.first():
            path = os.path.join(self.folder, printout.name)
            try:
                os.makedirs(self.folder, exist_ok=True)
                # one from before written files were noted
                is_new = not os.path.exists(path)
                if is_new:
                    printing.write(path, printout.heading, printout.body)
                self.store.keep(path)
            except OSError as error:
                self.wait_after(printout, error.strerror)
                continue
            with self.changed:
                self.waiting.popleft()
                self.size -= len(printout.body)
                printout.state, printout.body, self.trouble = WRITTEN, b"", ""
                self.changed.notify_all()
            self.note(printout.name)
            self.noted.add(printout.name)
            if is_new:
                self.notify(f"closed: {path}")
        printing.close()

    def first(self) -> Any:
        """The printout that is to be written next, or None at the end."""
        with self.changed:
            while (not self.waiting or self.is_held) and not self.is_closing:
                self.changed.wait()
            is_over = self.is_closing and (self.trouble or self.is_held)
            return None if not self.waiting or is_over else self.waiting[0]

    def wait_after(self, printout: Any, reason: Any) -> None:
        """Waits a while after a failure, which is reported once."""
        if reason != self.trouble:
            self.notify(f"{printout.name} cannot be written, and waits: {reason}")
        with self.changed:
            self.trouble = reason
            self.changed.notify_all()
            if not self.is_closing:
                self.changed.wait(SECONDS_TO_TRY_AGAIN)

    def turn(self, folder: str | None, noted: set[str]) -> None:
        """Has what is closed from now on be that of another session; all files of this one are written."""
        with self.changed:
            self.folder, self.noted, self.all = folder, noted, []

    def unwritten(self) -> list:
        """The names of the files that are not written."""
        return [item.name for item in self.all if item.state in UNWRITTEN]

    def settle(self, seconds: Any = SECONDS_TO_FINISH) -> None:
        """Waits until all is written, unless something cannot be."""
        with self.changed:
            self.changed.wait_for(lambda: not self.waiting or self.trouble or self.is_held, seconds)

    def close(self) -> None:
        """Ends the thread; what still waits is written by the next start."""
        with self.changed:
            self.is_closing = True
            self.changed.notify_all()
        if self.thread:
            self.thread.join(SECONDS_TO_FINISH)
