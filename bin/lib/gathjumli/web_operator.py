"""The operator's page: what happens, who is on, and the commands of bin/operator (docs/OPERATING.md), to whoever has the token."""
from __future__ import annotations

from typing import Any
import asyncio
import contextlib
import os
import secrets
import time

from gathjumli.figures import figures
from gathjumli.frame_maps import BEING_LOOKED_FOR
from gathjumli.host import MEGABYTE
from gathjumli.operating import DONE, plain
from gathjumli.strangers import WrongTokens
from gathjumli.web_pages import Refused, is_token, milliseconds, text_in


PAGE = "/operator"
SECONDS_BETWEEN_STATES = 1
MOST_PAGES = 16
MOST_COMMAND = 4096
# lines that wait to be sent to one page
MOST_UNSENT = 2000
TOKEN_BYTES = 24


class PageOutlet:
    """An outlet of the journal that leads to a page; any thread may put a line."""

    def __init__(self, page: Any, loop: Any) -> None:
        self.page = page
        self.loop = loop
        # what the page has seen already, in milliseconds
        self.since = 0

    def put(self, text: Any, prefix: Any = None) -> None:
        self.put_at(time.time(), text)

    def show_past(self, lines: list[tuple[float, str]]) -> None:
        """Shows lines of before, each with its time."""
        for when, text in lines:
            if milliseconds(when) > self.since:
                self.put_at(when, text)

    def put_at(self, when: float, text: str) -> None:
        message = {"is": "happens", "time": milliseconds(when), "text": plain(text)}
        try:
            self.loop.call_soon_threadsafe(self.page.put, message)
        except RuntimeError:
            # the loop has ended
            pass

    def close(self) -> None:
        pass


class OperatorPage:
    """One page of an operator: nothing is sent to it before its token was right."""

    def __init__(self, pages: Any, address: int, outbox: Any) -> None:
        self.pages = pages
        self.address = address
        self.outbox = outbox
        self.is_known = False
        self.outlet = PageOutlet(self, pages.loop)

    def is_somebody(self) -> Any:
        return self.is_known

    def put(self, message: Any) -> None:
        if len(self.outbox.messages) < MOST_UNSENT:
            self.outbox.put(message)

    def open(self) -> None:
        if len(self.pages.all) >= MOST_PAGES:
            raise Refused("there are too many operators")
        self.is_known = True
        self.pages.all.add(self)
        self.pages.opened.set()
        self.pages.notify(f"an operator comes by a page from {self.address}")
        self.put({"is": "open"})
        self.put(self.pages.state())
        self.pages.journal.add(self.outlet)

    def close(self) -> None:
        if self.is_known:
            self.pages.all.discard(self)
            self.pages.journal.remove(self.outlet)

    async def take(self, message: Any) -> None:
        """Obeys a message. Each has the token."""
        kind = str(message.get("is"))
        try:
            if not self.is_known and self.pages.penalties.seconds(self.address):
                raise Refused("there were too many wrong tokens from your address: come back later")
            if not is_token(message.get("token"), self.pages.token):
                self.pages.note_wrong(PAGE, self.address)
                await asyncio.sleep(1)
                raise Refused("the token is wrong")
            if not self.is_known:
                since = message.get("since")
                self.outlet.since = since if type(since) is int else 0
                self.open()
            if kind == "command":
                self.command(
                    plain(text_in(message, "text"))[:MOST_COMMAND].strip(), message.get("number")
                )
            elif kind == "frames":
                self.frames()
            elif kind != "open":
                raise Refused(f"there is no message {plain(kind)[:20]}")
        except Refused as reason:
            self.put({"is": "refused", "what": plain(kind)[:20], "why": str(reason)})

    def command(self, text: Any, number: Any) -> None:
        """Has a command done; its answer appears in lines, and how it ended last."""
        self.pages.operator.do(
            text,
            self.sender("answer", number),
            lambda how: self.from_thread({"is": "end", "number": number, "how": how}),
            self.is_there,
        )

    def sender(self, kind: Any, number: int) -> Any:
        return lambda text: self.from_thread({"is": kind, "number": number, "text": plain(text)})

    def frames(self) -> None:
        """Has the frames looked for, and sends the map as a whole."""
        lines, begun = [], time.monotonic()

        def take(text: str) -> None:
            # the page itself shows that it waits
            if not text.startswith(f"{BEING_LOOKED_FOR}, "):
                lines.append(text)

        def end(how: Any) -> None:
            took = round(time.monotonic() - begun, 2)
            self.from_thread({"is": "frames", "lines": lines, "done": how == DONE, "took": took})

        self.pages.operator.do("frames", take, end, self.is_there)

    def is_there(self) -> bool:
        """Whether the page is still open; any thread may ask."""
        return self in self.pages.all

    def from_thread(self, message: Any) -> None:
        # the loop may have ended
        with contextlib.suppress(RuntimeError):
            self.pages.loop.call_soon_threadsafe(self.put, message)


class OperatorPages:
    """All pages of operators."""

    def __init__(self, installation: Any, loop: Any) -> None:
        self.installation = installation
        self.operator = installation.operator
        self.journal = installation.journal
        self.notify = installation.notify
        self.loop = loop
        self.all = set()
        self.wrong = WrongTokens(self.notify)
        self.penalties = installation.desk.penalties
        self.opened = asyncio.Event()
        self.path = f"{installation.options['record']}.web-token"
        self.token = self.read_token()

    def read_token(self) -> Any:
        """The token of the file next to the recording, which only its owner can read; it is made if it is not there, or was for others
        to read."""
        with contextlib.suppress(FileNotFoundError):
            if not os.stat(self.path).st_mode & 0o077:
                with open(self.path) as file:
                    if found := file.read().strip():
                        return found
            os.unlink(self.path)
        token = secrets.token_urlsafe(TOKEN_BYTES)
        handle = os.open(self.path, os.O_WRONLY | os.O_CREAT | os.O_EXCL, 0o600)
        with open(handle, "w") as file:
            file.write(f"{token}\n")
        return token

    def note_wrong(self, page: str, address: str) -> None:
        """A wrong token for a page came from an address."""
        self.wrong.add(page, address)
        self.penalties.add(address)

    def state(self) -> dict:
        """What an operator sees at a glance."""
        found = figures(self.installation)
        memory, recording, printouts = found["memory"], found["recording"], found["printouts"]
        return {
            "is": "state", "time": milliseconds(time.time()), "users": found["users"], "strangers": found["strangers"],
            "parts": found["parts"], "busy": found["busy"], "command": memory["command"] // MEGABYTE,
            "program": memory["program"] // MEGABYTE, "most": memory["most"] // MEGABYTE, "lines": recording["lines"],
            "size": recording["bytes"], "begun": recording["begun"], "start": found["start"], "free": recording["free"] // MEGABYTE,
            "printouts": printouts["closed"], "unwritten": printouts["unwritten"], "ending": found["ending"],
        }  # fmt: skip

    async def watch(self) -> None:
        """Says all pages how things are, each second."""
        while True:
            await self.opened.wait()
            await asyncio.sleep(SECONDS_BETWEEN_STATES)
            if not self.all:
                self.opened.clear()
                continue
            state = self.state()
            for page in list(self.all):
                page.put(state)
