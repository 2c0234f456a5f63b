"""A thread that keeps files of an installation in a store, one after another: nobody waits for most of them."""
from __future__ import annotations

from collections.abc import Callable
from typing import Any, NamedTuple
import queue
import threading
import time

import psycopg

from gathjumli.cli import Failure
from gathjumli.databases import EVERYWHERE, Line, SECONDS_TO_KEEP, SECONDS_TO_TRY_AGAIN


class Task(NamedTuple):
    """What is to be done on a connection, and what says that it is."""

    work: Callable[[Any], None]
    done: threading.Event
    is_state: bool


class Keeper:
    """Does tasks in their order, each until a server has done it or the engine is none any more."""

    def __init__(self, url: str, name: str, is_lost: Callable[[], bool]) -> None:
        self.line = Line(url, f"{name} files", EVERYWHERE)
        self.is_lost = is_lost
        self.tasks: queue.Queue[Task | None] = queue.Queue()
        # how many states are not in the store yet
        self.states = 0

    def later(self, work: Callable[[Any], None], is_state: bool = False) -> threading.Event:
        """Has something done; the event says when it is."""
        self.states += is_state
        self.tasks.put(task := Task(work, threading.Event(), is_state))
        return task.done

    def begin(self) -> None:
        threading.Thread(target=self.run, daemon=True).start()

    def run(self) -> None:
        while (task := self.tasks.get()) is not None:
            while not self.is_lost() and not self.has_done(task):
                time.sleep(SECONDS_TO_TRY_AGAIN)
            self.states -= task.is_state
        self.line.close()

    def has_done(self, task: Task) -> bool:
        try:
            self.line.do(task.work, SECONDS_TO_KEEP)
        except psycopg.Error:
            return False
        except Failure:
            # another engine goes on: whoever waits finds that out too
            return True
        except OSError:
            # a later file has its place
            pass
        task.done.set()
        return True

    def close(self) -> None:
        """Ends the thread once all before is done."""
        self.tasks.put(None)
