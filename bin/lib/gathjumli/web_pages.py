"""What passes between a page in a browser and the installation, as messages that are JSON objects; bin/lib/gathjumli/web_server.py carries them.

A page logs on at a connection of its own to the desk, as a terminal does: it sees what the user sees who is logged on there, and
nothing once he is not. If the browser's connection drops, the page keeps the desk's for a while, with the lines that were not seen."""
from __future__ import annotations

from typing import Any
import asyncio
import base64
import collections
import contextlib
import hmac
import os
import re
import secrets
import time

from gathjumli.operating import plain
from gathjumli.report_line import PageLine, serve, users_at


# a page that is not connected is given up after so many seconds
SECONDS_TO_COME_BACK = 120
SECONDS_BETWEEN_LOOKS = 0.25
MOST_DECK = 1 << 22
# the part of a listing that is sent at once
PIECE = 1 << 16
MOST_FILES = 200
MESSAGES_AT_ONCE, MESSAGES_A_SECOND = 400, 200
NO_LINE = "NOT LOGGED ON"
# what it takes to keep a line, without its text
LINE_COST = 64
KEYS = {"attention": b"", "stop": b"#CP", "external": b"#CP EXTERNAL", "begin": b"BEGIN"}


class Refused(Exception):
    """A message that is not obeyed; the text says why."""


class Outbox:
    """The messages that wait to be sent to a browser."""

    def __init__(self) -> None:
        self.messages = []
        self.changed = asyncio.Event()
        self.emptied = asyncio.Event()
        self.is_closed = False

    def put(self, message: Any) -> None:
        if message["is"] == "lines" and self.messages and self.messages[-1]["is"] == "lines":
            self.messages[-1]["lines"] += message["lines"]
        else:
            self.messages.append(message)
        self.changed.set()

    async def taken(self) -> Any:
        """All that waits, once something does."""
        await self.changed.wait()
        self.changed.clear()
        messages, self.messages = self.messages, []
        self.emptied.set()
        return messages

    async def room(self) -> None:
        """Waits until what is there is being sent, so that who asks and does not read has two answers kept for him at most."""
        if self.messages and not self.is_closed:
            self.emptied.clear()
            await self.emptied.wait()

    def close(self) -> None:
        self.is_closed = True
        self.emptied.set()


class Rate:
    """How many messages of a page are obeyed: some at once, as when a deck appears, and then so many a second."""

    def __init__(self) -> None:
        self.left = float(MESSAGES_AT_ONCE)
        self.when = time.monotonic()

    def wait(self) -> Any:
        """Counts a message; how many seconds it waits."""
        now = time.monotonic()
        self.left = min(MESSAGES_AT_ONCE, self.left + (now - self.when) * MESSAGES_A_SECOND) - 1
        self.when = now
        return max(0.0, -self.left / MESSAGES_A_SECOND)


class UserPage:
    """A user's page: one connection to the desk, and the browser's connection while there is one."""

    def __init__(self, pages: Any, address: Any) -> None:
        self.pages = pages
        self.address = address
        self.name = secrets.token_urlsafe(12)
        self.token = secrets.token_urlsafe(24)
        self.outbox = None
        # the browser's connection, whatever carries it
        self.connection = None
        self.left_at = 0.0
        self.line = None
        self.conversation = None
        # whether somebody has logged on at the line
        self.was_used = False
        self.number = 0
        # lines that the browser has not said to have seen: number, time, text
        self.lines = collections.deque()
        self.size = 0
        self.deck = None
        self.findings = None

    # --- the browser's connection ---

    def attach(self, outbox: Any) -> None:
        self.outbox = outbox
        self.findings = None
        if self.lines:
            outbox.put({"is": "lines", "lines": list(self.lines)})
        self.look(self.user())

    def detach(self) -> None:
        self.outbox = None
        self.left_at = time.monotonic()
        if not self.line:
            self.pages.forget(self)

    def put(self, message: Any) -> None:
        if self.outbox:
            self.outbox.put(message)

    # --- what the desk shows ---

    def show(self, text: Any) -> None:
        self.number += 1
        self.size += len(text) + LINE_COST
        entry = (self.number, milliseconds(time.time()), text)
        self.lines.append(entry)
        self.put({"is": "lines", "lines": [entry]})

    def unread(self) -> Any:
        return self.size

    def seen(self, number: int) -> None:
        while self.lines and self.lines[0][0] <= number:
            self.size -= len(self.lines.popleft()[2]) + LINE_COST

    def user(self) -> Any:
        """The user who is logged on at this page's connection to the desk."""
        return self.pages.users_at().get(self.line) if self.line else None

    def is_somebody(self) -> bool:
        """Whether somebody was on here when that was last looked at."""
        return bool(self.findings) and self.findings["is"] == "on"

    def look(self, user: Any) -> None:
        """Sends the browser who is on, and whether his machine runs, if that has changed."""
        found = (
            {"is": "on", "user": user.name, "running": user.is_running} if user else {"is": "off"}
        )
        self.was_used = self.was_used or bool(user)
        if found != self.findings:
            self.findings = found
            self.put(found)

    async def converse(self) -> None:
        """Has the desk serve the page until one of them ends that."""
        line = self.line
        try:
            await serve(self.pages.desk, line)
        finally:
            self.line = None
            self.deck = None
            if not self.was_used:
                self.put(
                    {
                        "is": "refused",
                        "what": "logon",
                        "why": "the desk has closed the connection: log on again",
                    }
                )
            self.look(None)
            if not self.outbox:
                self.pages.forget(self)

    def close(self) -> None:
        if self.line:
            self.line.close()

    # --- what the browser sends ---

    async def take(self, message: Any) -> None:
        """Obeys a message."""
        kind = str(message.get("is"))
        try:
            if kind in CHANGING and not is_token(message.get("token"), self.token):
                raise Refused("the token is wrong")
            if kind not in OBEYED:
                raise Refused(f"there is no message {plain(kind)[:20]}")
            await OBEYED[kind](self, message)
        except Refused as reason:
            self.put({"is": "refused", "what": plain(kind)[:20], "why": str(reason)})

    async def log_on(self, message: Any) -> None:
        name, password = (
            text_in(message, field).encode("latin-1", "replace") for field in ("name", "password")
        )
        if not re.fullmatch(b"[!-~]+", name) or not re.fullmatch(b"[ -~]+", password):
            raise Refused("a name is a word, and a password a line")
        if self.user():
            raise Refused("you are logged on")
        if not self.line:
            self.line, self.was_used = PageLine(self.address, self.show, self.unread), False
            self.conversation = asyncio.create_task(self.converse())
        # the password is a line of its own, as a telnet sends it that is asked for it
        await self.line.type(b"LOGON " + name)
        await self.line.type(password)

    async def type(self, message: str) -> None:
        await self.type_line(text_in(message, "text").encode("latin-1", "replace"))

    async def press(self, message: str) -> None:
        key = text_in(message, "key")
        if key not in KEYS:
            raise Refused("there is no such key")
        await self.type_line(KEYS[key])

    async def type_line(self, line: Any) -> None:
        self.logged_on()
        await self.line.type(line)

    def logged_on(self) -> Any:
        """The user who is on, without whom nothing is done."""
        user = self.user()
        if not user:
            raise Refused(NO_LINE)
        return user

    async def put_cards(self, message: Any) -> None:
        """Takes a piece of a deck, and after the last one reads it in for the user who is on."""
        user, name = self.logged_on(), plain(text_in(message, "name"))[:80]
        try:
            piece = base64.b64decode(text_in(message, "data"), validate=True)
        except ValueError:
            raise Refused("a deck comes in base64") from None
        if self.deck is None or self.deck[0] != (user, name):
            self.deck = ((user, name), bytearray())
        data = self.deck[1]
        data += piece
        if len(data) > MOST_DECK:
            self.deck = None
            raise Refused(f"more than {MOST_DECK} bytes")
        if not message.get("more"):
            self.deck = None
            findings = await self.pages.read_in(name, bytes(data), user.name)
            self.put({"is": "deck", "name": name, "findings": findings})

    async def list_files(self, message: Any) -> None:
        user = self.logged_on()
        files = [printout for printout in self.pages.printouts.all if printout.user == user.name][
            -MOST_FILES:
        ]
        findings = [
            {"name": printout.name, "lines": printout.lines, "state": printout.state}
            for printout in files
        ]
        self.put({"is": "files", "files": findings, "kept": bool(self.pages.printouts.folder)})

    async def show_file(self, message: Any) -> None:
        """Sends a piece of one of the user's own files."""
        user, name, place = self.logged_on(), text_in(message, "name"), number_in(message, "at")
        if not any(
            printout.name == name and printout.user == user.name
            for printout in self.pages.printouts.all
        ):
            raise Refused("you have no such file")
        if not self.pages.printouts.folder:
            raise Refused("the operator keeps no printouts")
        path = os.path.join(self.pages.printouts.folder, name)
        try:
            data, size = await in_thread(piece_of, path, place)
        except OSError as error:
            raise Refused(f"{name}: {error.strerror}") from None
        # who has logged off meanwhile sees nothing
        if self.user() is not user:
            raise Refused(NO_LINE)
        text = data.decode("utf-8", "replace")
        self.put(
            {
                "is": "piece",
                "name": name,
                "at": place,
                "next": place + len(data),
                "size": size,
                "text": text,
            }
        )

    async def show_disks(self, message: Any) -> None:
        user = self.logged_on()
        try:
            disks = await in_thread(self.pages.minidisks.of, user.name)
        except OSError as error:
            raise Refused(str(error.strerror)) from None
        if self.user() is not user:
            raise Refused(NO_LINE)
        self.put({"is": "disks", "disks": disks})

    async def note_seen(self, message: str) -> None:
        self.seen(number_in(message, "number"))

    async def leave(self, message: str) -> None:
        self.close()


OBEYED = {"logon": UserPage.log_on, "line": UserPage.type, "key": UserPage.press, "deck": UserPage.put_cards, "files": UserPage.list_files,
          "file": UserPage.show_file, "disks": UserPage.show_disks, "seen": UserPage.note_seen, "leave": UserPage.leave}  # fmt: skip
# what changes something has the page's token
CHANGING = {"logon", "line", "key", "deck", "leave"}


class Pages:
    """All users' pages, and what they need of the installation."""

    def __init__(self, installation: Any, minidisks: Any) -> None:
        self.desk = installation.desk
        self.engine = installation.engine
        self.folders = installation.folders
        self.printouts = installation.engine.printouts
        self.notify = installation.notify
        self.minidisks = minidisks
        self.all = {}
        self.opened = asyncio.Event()

    def users_at(self) -> Any:
        """Each connection to the desk at which a user is logged on, with that user."""
        return users_at(self.engine.users.values())

    def open(self, message: Any, address: int) -> tuple:
        """The page that a browser's first message asks for, and the answer."""
        if message.get("is") == "resume":
            page = self.all.get(str(message.get("page")))
            # a page that the desk has left has nothing more to show
            if page and page.line and is_token(message.get("token"), page.token):
                with contextlib.suppress(Refused):
                    page.seen(number_in(message, "seen"))
                page.address = address
                return page, {"is": "resumed"}
        page = UserPage(self, address)
        self.all[page.name] = page
        self.opened.set()
        return page, {"is": "new", "page": page.name, "token": page.token}

    def forget(self, page: Any) -> None:
        self.all.pop(page.name, None)

    async def watch(self) -> None:
        """Says pages what has become of their machines, and gives up those to which no browser appears back."""
        while True:
            if not self.all:
                # nobody is there for whom to look
                self.opened.clear()
                await self.opened.wait()
            await asyncio.sleep(SECONDS_BETWEEN_LOOKS)
            users, now = self.users_at(), time.monotonic()
            for page in list(self.all.values()):
                if page.outbox:
                    page.look(users.get(page.line))
                elif now > page.left_at + SECONDS_TO_COME_BACK:
                    page.close()
                    self.forget(page)

    async def read_in(self, name: str, data: bytes, user: str) -> Any:
        """Reads in a deck for a user; how that went."""
        reason = await self.folders.read_in(name, data, user)
        self.notify(f"deck {name} for {user}, from a page: {reason or 'read in'}")
        return reason or "read in"


def milliseconds(when: float) -> int:
    """A time as browsers have it."""
    return round(when * 1000)


def is_token(found: Any, token: Any) -> Any:
    return isinstance(found, str) and hmac.compare_digest(
        found.encode(errors="replace"), token.encode()
    )


def text_in(message: Any, name: Any) -> Any:
    text = message.get(name)
    if not isinstance(text, str):
        raise Refused(f"{name} is a text")
    return text


def number_in(message: Any, name: Any) -> Any:
    number = message.get(name)
    if type(number) is not int or not 0 <= number < 1 << 53:
        raise Refused(f"{name} is a number")
    return number


def piece_of(path: str, place: Any) -> tuple:
    """The bytes of a file from a place on, whole lines if a line ends in them, and the size of the file."""
    with open(path, "rb") as file:
        size = os.fstat(file.fileno()).st_size
        file.seek(place)
        data = file.read(PIECE)
    end = data.rfind(b"\n") + 1
    return data[: end or len(data)], size


async def in_thread(work: Any, *given: Any) -> Any:
    return await asyncio.get_running_loop().run_in_executor(None, work, *given)
