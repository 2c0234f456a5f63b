"""Programs whose states are read while they arrive, so that a large one is never there as a whole."""
from __future__ import annotations

from collections.abc import Iterator
from typing import Any, TypeVar
import queue

from gathjumli.cli import Failure, REFUSED
from gathjumli.following import Answers, Program
from gathjumli.machines import ScriptRefused
from gathjumli.state_files import NO_STATE
from gathjumli.state_pieces import Pieces
from gathjumli.state_view import StateView, UserView

# pieces that wait to be read; then the program waits
MOST_WAITING = 16
SECONDS_TO_LOOK = 1.0
END = b""
Found = TypeVar("Found", bound=UserView)


class ArrivingAnswers(Answers):
    """Answers whose states go on, piece by piece, to whoever reads them."""

    def __init__(self) -> None:
        super().__init__()
        self.arrived: queue.Queue[bytes] = queue.Queue(MOST_WAITING)
        self.is_closed = False

    def take_piece(self, data: bytes) -> int:
        size = super().take_piece(data)
        self.give(self.pieces.pop())
        return size

    def done(self) -> Any:
        if self.is_state:
            self.give(END)
        return super().done()

    def give(self, piece: bytes) -> None:
        while not self.is_closed:
            try:
                self.arrived.put(piece, timeout=SECONDS_TO_LOOK)
                return
            except queue.Full:
                pass


class StateProgram(Program):
    """A program that is asked for the state where it is."""

    def cutter(self) -> Answers:
        self.cuts = ArrivingAnswers()
        return self.cuts

    def view(self, users: dict[str, int], pieces: Pieces) -> StateView:
        """The state where all that was given has led."""
        self.ask("SAVE")
        return self.read(StateView(self.arriving(), users, pieces))

    def user_view(self, name: str, users: dict[str, int], pieces: Pieces) -> UserView:
        """What that state has of one user."""
        self.ask(f"VIEW {list(users).index(name)}")
        return self.read(UserView(self.arriving(), name, users, pieces))

    def ask(self, request: str) -> None:
        """Asks for a state when all that was given before is answered."""
        while self.awaited:
            self.answer()
        self.expect()
        self.write(f"{request}\n".encode())

    def read(self, found: Found) -> Found:
        """What was read of a state while it arrived, when the program says that this is all."""
        try:
            self.answer()
        except ScriptRefused:
            raise Failure(REFUSED, NO_STATE) from None
        return found

    def arriving(self) -> Iterator[bytes]:
        """The pieces of the state that was asked for."""
        while True:
            try:
                piece = self.cuts.arrived.get(timeout=SECONDS_TO_LOOK)
            except queue.Empty:
                if self.is_asked() and self.process.poll() is None:
                    continue
                # it has ended, or has no state: the answer says which
                self.answer()
                raise Failure(REFUSED, NO_STATE) from None
            if piece == END:
                return
            yield piece

    def close(self) -> None:
        self.cuts.is_closed = True
        super().close()
