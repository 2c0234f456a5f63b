"""Operators who come and go at a socket, several at once (bin/operator).

An operator sends lines, each a command. What is sent to him are lines that begin with + for what happens and with = for an answer;
at the end of each answer a dot and a number say whether the command was done, was refused, or ends the installation. If that
has ended or is suspended as it was asked to, a dot and ENDED is the last line."""
from __future__ import annotations

from typing import Any
import contextlib
import os
import socket
import threading
import time

from gathjumli.journal import Outlet
from gathjumli.listening import SECONDS_WITHOUT_FILES
from gathjumli.operating import ENDED

MOST_OPERATORS = 16
MOST_COMMAND = 4096
HAPPENS, ANSWER, END_OF_ANSWER = "+", "=", "."


class Consoles:
    """The operators at a socket."""

    def __init__(self, listener: Any, operator: Any, journal: Any, loop: Any) -> None:
        self.listener = listener
        self.operator = operator
        self.journal = journal
        self.loop = loop
        self.count = 0
        self.is_closed = False
        threading.Thread(target=self.accept_all, daemon=True).start()

    def accept_all(self) -> None:
        while True:
            try:
                connection, _ = self.listener.accept()
            except OSError:
                if self.is_closed:
                    return
                # the host allows no more files just now
                time.sleep(SECONDS_WITHOUT_FILES)
                continue
            if self.count >= MOST_OPERATORS:
                connection.close()
                continue
            self.count += 1
            threading.Thread(target=self.serve, args=(connection,), daemon=True).start()

    def serve(self, connection: Any) -> None:
        """Serves one operator until he goes."""
        outlet = Outlet(
            os.dup(connection.fileno()), prefix=HAPPENS, farewell=f"{END_OF_ANSWER}{ENDED}"
        )
        self.journal.add(outlet)
        try:
            with contextlib.suppress(OSError), connection.makefile("rb") as lines:
                while line := lines.readline(MOST_COMMAND):
                    text = line.decode(errors="replace").strip()
                    self.loop.call_soon_threadsafe(self.do, text, outlet)
        except RuntimeError:
            # the loop has ended
            pass
        finally:
            outlet.is_gone = True
            self.count -= 1
            self.journal.remove(outlet)
            # who does not read what waits is left
            outlet.close()
            with contextlib.suppress(OSError):
                connection.shutdown(socket.SHUT_RDWR)
            connection.close()
            outlet.close()
            os.close(outlet.handle)

    def do(self, text: str, outlet: Any) -> None:
        """Has a command done, whose answer is for this operator only."""
        self.operator.do(
            text,
            lambda answer: outlet.put(answer, ANSWER),
            lambda how: outlet.put_as_is(f"{END_OF_ANSWER}{how}"),
            lambda: not outlet.is_gone,
        )

    def close(self) -> None:
        self.is_closed = True
        with contextlib.suppress(OSError):
            self.listener.shutdown(socket.SHUT_RDWR)
        self.listener.close()
