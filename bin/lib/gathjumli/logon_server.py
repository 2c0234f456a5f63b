"""The connections of people, and the program that is the logon desk.

The desk (crates/logon_desk_cli) decides who logs on, whose line a typed line is and who is shown what; here are the sockets. Whoever
brings people, by telnet or otherwise, makes a Connection: `LogonServer.come` opens it, `receive` gives the desk bytes that came, at most
USER_BYTES and only while `may_send` is set, and `leave` reports that it has ended. The desk gives it bytes by `send`, and ends it by
`close`. What strangers take of the command's time is bounded (bin/lib/gathjumli/strangers.py).
"""
from __future__ import annotations

from typing import Any
from collections.abc import Callable
import asyncio
import collections
import concurrent.futures
import contextlib
import hashlib
import os
import socket
import subprocess
import time

from gathjumli.cli import FILE_FAILED, Failure
from gathjumli.parts import typed_line
from gathjumli.penalties import Penalties
from gathjumli.rules import Rules
from gathjumli.strangers import (
    Closings,
    IS_NO_LOGON,
    LockedOut,
    MOST_ANSWERS,
    SECONDS_APART,
    STRANGER_BYTES,
    Share,
    WrongPasswords,
)
from gathjumli.users import KEPT_LINES


# those who are about to log on, as the desk counts them, and one more
MOST_STRANGERS = 80
# bytes of one who is on that the desk gets at once: nobody waits long for what is done with them
USER_BYTES = 512
# lines that the desk is given at once: what they and their answers take fits a pipe
MOST_PENDING = 16
# how many bytes of an unfinished line are kept for a new program of the desk: more than a line can have
LONGEST_KEPT = 2048
# what waits for a reader: he is closed over so many bytes
MOST_UNREAD = 1 << 20
# of what waits the host takes so many bytes; the rest waits here, where it is counted
SEND_BUFFER = 1 << 16
# a connection that is closed has so many seconds to read what waits, where that is little
SECONDS_TO_LEAVE = 2
LITTLE_UNREAD = 1 << 16
# how often the desk is given the time while somebody is about to log on
TICK = 0.05
LOGON = b"LOGON"
# a terminal is to show what is typed
SHOWN_AGAIN = b"\xff\xfc\x01"
HIDDEN = b"\xff\xfb\x01"
GOES_DOWN = b"GATHJUMLI GOES DOWN\r\n"
CLOSED = b"LOGON IS CLOSED\r\n"
REFUSED_FOR_NOW = b"REFUSED: TOO MANY WRONG PASSWORDS FROM YOUR ADDRESS, COME BACK LATER\r\n"


class Connection:
    """Somebody who appears from an address; the number of its place, while the desk has one for it."""

    def __init__(self, address: int) -> None:
        self.address = address
        self.place = None
        self.user = None
        # what came since the end of the last line that came whole, and how that line ended
        self.typed, self.line_end = b"", b""
        # when lines are shown again, the minute that was shown last
        self.minute = ""
        self.may_send = asyncio.Event()
        # whether its last guess was right, for a user whom the rules lock
        self.is_locked = False
        # how much it was answered before anybody logged on there
        self.answers = 0
        # whether its terminal does not show what is typed
        self.is_hidden = False

    def note(self, data: bytes) -> None:
        """Keeps what a new program of the desk has to know of the line that is not whole."""
        typed = self.typed + data
        end = max(typed.rfind(b"\r"), typed.rfind(b"\n")) + 1
        self.line_end = typed[end - 1 : end] if end else self.line_end
        self.typed = typed[end:][:LONGEST_KEPT]

    def send(self, data: Any) -> None:
        """Gives it bytes."""

    def close(self) -> None:
        """Ends it, when it has read what waits."""


class SocketConnection(Connection):
    """A connection by telnet or plain."""

    def __init__(self, writer: Any, notify: Callable, address: str | None = None) -> None:
        peer = writer.get_extra_info("peername")
        its_own = peer[0] if isinstance(peer, tuple) else ""
        # a proxy has another one
        super().__init__(its_own if address is None else address)
        self.writer = writer
        self.notify = notify
        # one that is gone already cannot be asked for anything
        with contextlib.suppress(OSError):
            connection = writer.get_extra_info("socket")
            connection.setsockopt(socket.SOL_SOCKET, socket.SO_SNDBUF, SEND_BUFFER)
            if connection.family != socket.AF_UNIX:
                # one that goes without a word is found out some time
                connection.setsockopt(socket.SOL_SOCKET, socket.SO_KEEPALIVE, 1)

    def send(self, data: Any) -> None:
        if self.writer.is_closing():
            return
        self.writer.write(data)
        if self.unread() > MOST_UNREAD:
            self.notify(f"{self.user.name if self.user else 'a stranger'} does not read: closed")
            self.writer.transport.abort()

    def unread(self) -> Any:
        return self.writer.transport.get_write_buffer_size()

    def close(self) -> None:
        if self.writer.is_closing():
            return
        if self.unread() > LITTLE_UNREAD:
            self.writer.transport.abort()
            return
        self.writer.close()
        asyncio.get_running_loop().call_later(SECONDS_TO_LEAVE, self.writer.transport.abort)


class Terminal:
    """The terminal of a user, who logs on at the desk."""

    def __init__(self, desk: Any, number: int) -> None:
        self.desk = desk
        self.number = number
        self.connection = None
        # lines that the desk gets before somebody comes back
        self.lines = collections.deque(maxlen=KEPT_LINES)

    @property
    def is_there(self) -> bool:
        return self.connection is not None

    def keep(self, text: str, minute: str) -> None:
        """Keeps a line for when he appears back."""
        self.lines.append((encoded(minute), encoded(text)))

    def tell_kept(self) -> None:
        """Gives the desk the lines that it is to show again."""
        while self.lines:
            self.desk.notify_soon("KEEP", self.number, *self.lines.popleft())

    def show(self, text: str) -> None:
        """Shows him a line, which is on the disk, if he is there."""
        self.desk.notify_soon("SHOW", self.number, encoded(text))

    def turn(self, is_on: Any, is_running: bool) -> None:
        if not is_on:
            self.lines.clear()
        self.desk.ask("TURN", self.number, (1 + is_running) * is_on)

    def close(self) -> None:
        if self.connection:
            self.desk.leave(self.connection)


class LogonServer:
    """The program as the desk, the connections at its places, and the people who log on."""

    def __init__(self, engine: Any, passwords: Any, notify: Any, program: Any) -> None:
        self.engine = engine
        self.passwords = passwords
        # which addresses may come
        self.rules = Rules()
        self.notify = notify
        # what everybody is shown who logs on
        self.log_message = ""
        # whether nobody may log on who is not on
        self.is_closed = False
        # how many are about to log on
        self.strangers = 0
        self.people = [engine.users[name] for name in passwords.names]
        self.begun = time.monotonic()
        self.key = os.urandom(16)
        self.wrong, self.locked_out = WrongPasswords(notify), LockedOut(notify)
        self.penalties = Penalties(notify)
        self.closings = Closings(notify)
        self.share = Share()
        self.pending = []
        self.places = {}
        # the connection of which a new program is just told, and what other connections sent while the desk changes its program
        self.moved = None
        self.held = None
        self.serving = set()
        self.tasks = set()
        # the task of each user's last line, by his number
        self.giving = {}
        self.judging = concurrent.futures.ThreadPoolExecutor(1)
        self.is_asked = asyncio.Event()
        self.has_failed = asyncio.Event()
        # whether the program is asked just now, and how often it was
        self.is_asking = False
        self.flushes = 0
        self.path = program
        self.program = None

    def open(self) -> None:
        """Begins the program, and gives it the users, and what is known of them since a replay."""
        self.begin()
        for number, user in enumerate(self.people):
            user.terminal = Terminal(self, number)
            self.tell_of(user)
        self.flush()

    def begin(self) -> None:
        """Begins the program, which gets the names of the users."""
        self.program = subprocess.Popen(
            [self.path, "logondesk"],
            stdin=subprocess.PIPE,
            stdout=subprocess.PIPE,
            start_new_session=True,
        )
        for user in self.people:
            self.ask("USER", encoded(user.name))
        self.room = MOST_STRANGERS + 1 + len(self.people)
        self.ask("ROOM", self.room)

    def tell_of(self, user: Any) -> None:
        """Has the program know a user's state, and his terminal the lines that he sees when he comes back."""
        user.terminal.turn(user.is_on, user.is_running)
        user.terminal.lines.clear()
        for minute, text in user.lines:
            user.terminal.keep(text, minute)

    # --- further users ---

    async def add(self, users: list) -> None:
        """Has another program be the desk, which knows these users too. Connections stay as they are there."""
        self.held = []
        while busy := [task for task in self.giving.values() if not task.done()]:
            await asyncio.wait(busy, return_when=asyncio.FIRST_COMPLETED)
        self.flush()
        before = self.program
        for user in users:
            user.terminal = Terminal(self, len(self.people))
            self.people.append(user)
        try:
            self.begin()
        except OSError:
            self.has_failed.set()
            raise
        for user in self.people:
            self.tell_of(user)
        # people who are on come first: if there are too many connections, one without a user has to go
        for connection in sorted(self.places.values(), key=lambda one: one.user is None):
            self.move(connection)
        before.kill()
        before.wait()
        for stream in (before.stdin, before.stdout):
            with contextlib.suppress(OSError):
                stream.close()
        held, self.held = self.held, None
        for connection, data in held:
            self.receive(connection, data)

    def move(self, connection: Any) -> None:
        """Tells a new program of a connection: its user is on there, or a name is asked for again."""
        user = connection.user
        if not user:
            connection.typed = b""
            if connection.is_hidden:
                connection.send(SHOWN_AGAIN)
            self.ask("OPEN", connection.place, self.origin(connection.address))
            return
        # he has given his password to the program before, and has seen all that is shown again here
        self.moved = connection
        place, line = connection.place, b"LOGON %s X" % user.name.encode()
        end = b"\r" if connection.line_end == b"\r" else b"\r\n"
        self.ask("OPEN", place, self.origin(connection.address))
        self.ask("CAME", place, (line + end + connection.typed).hex().upper())
        # the answer to what it has asked then
        self.flush()
        self.moved = None

    # --- the lines that pass (crates/logon_desk_cli/src: frame.rt, printing.rt) ---

    def ask(self, word: Any, *words: Any) -> None:
        """Says the desk what has happened, and does what it says then."""
        self.pending.append(self.line(word, *words))
        self.flush()

    def notify_soon(self, word: str, *words: Any) -> None:
        """Gives the desk something with what follows, at the end of this turn at the latest."""
        self.pending.append(self.line(word, *words))
        if len(self.pending) == MOST_PENDING:
            self.flush()
        elif len(self.pending) == 1:
            asyncio.get_running_loop().call_soon(self.flush)

    def line(self, word: str, *words: Any) -> Any:
        return (
            " ".join(
                [word, f"{int(1000 * (time.monotonic() - self.begun)):X}", *map(written, words)]
            )
            + "\n"
        )

    def flush(self) -> None:
        """Says the desk what waits for that, and does what it says to each line."""
        pending, self.pending = self.pending, []
        self.is_asking = True
        self.flushes += 1
        try:
            self.program.stdin.write("".join(pending).encode())
            self.program.stdin.flush()
            for line in pending:
                # it is silent until it knows everybody
                if not line.startswith("USER"):
                    self.obey_all()
        except (OSError, ValueError):
            self.has_failed.set()
        self.is_asking = False
        if self.strangers:
            self.is_asked.set()

    def obey_all(self) -> None:
        """Does what the desk says to a line."""
        while True:
            word, *words = self.program.stdout.readline().decode().split()
            if word == "THAT":
                self.strangers = int(words[0], 16)
                return
            self.obey(word, *words)

    def obey(self, word: Any, number: Any, *words: Any) -> None:
        number = int(number, 16)
        if word == "TYPE":
            typed = self.give(self.people[number], number, read_bytes(words[0]))
            self.giving[number] = self.start(typed)
        elif connection := self.places.get(number):
            getattr(self, f"obey_{word.lower()}")(connection, *words)

    def obey_give(self, connection: Any, data: Any) -> None:
        if connection is self.moved:
            return
        text = read_bytes(data)
        connection.is_hidden = (
            text.endswith(HIDDEN) or connection.is_hidden and SHOWN_AGAIN not in text
        )
        connection.answers += not connection.user
        connection.send(text)

    def obey_back(self, connection: Any, minute: str, text: str) -> None:
        """A line that he has seen before, and its minute where that is another one."""
        if connection is self.moved:
            return
        if minute != connection.minute:
            connection.send(b"-- %s UTC\r\n" % read_bytes(minute))
        connection.minute = minute
        connection.send(read_bytes(text) + b"\r\n")

    def obey_read(self, connection: Any) -> None:
        connection.may_send.set()

    def obey_asks(self, connection: Any, name: Any, password: Any) -> None:
        if connection is self.moved:
            self.pending.append(self.line("SAYS", connection.place, 1, name, password))
            return
        self.start(self.judge(connection, name, password))

    def obey_ends(self, connection: Any) -> None:
        del self.places[connection.place]
        connection.place = None
        connection.may_send.set()
        connection.close()
        user = connection.user
        if user and user.terminal.connection is connection:
            user.terminal.connection = None
            self.engine.note(b"* DISCONNECTED %s\n" % user.name.encode())
            self.notify(f"{user.name} {'leaves his terminal' if user.is_on else 'is logged off'}")

    def obey_note(self, connection: Any, word: str, number: Any) -> None:
        if connection is self.moved:
            return
        user = None if number == "-" else self.people[int(number, 16)]
        if word == "FAIL":
            summed = self.locked_out if connection.is_locked else self.wrong
            summed.add(user and user.name, connection.address)
            self.penalties.add(connection.address)
        elif word in ("LOGS", "BACK"):
            connection.user, user.terminal.connection = user, connection
            origin = f" from {connection.address}" if connection.address else ""
            self.notify(f"{user.name} {'logs on' if word == 'LOGS' else 'is back'}{origin}")
            self.engine.note(f"* CONNECTED {user.name} {connection.address or '-'}\n".encode())

    # --- what takes time ---

    def start(self, work: Any) -> asyncio.Task:
        self.tasks.add(task := asyncio.get_running_loop().create_task(work))
        task.add_done_callback(self.tasks.discard)
        return task

    async def give(self, user: Any, number: int, text: Any) -> None:
        """Has a line done that is typed for a user."""
        was_on = user.is_on
        with contextlib.suppress(asyncio.CancelledError):
            await self.engine.give(typed_line(user.name, text))
            if user.is_on and not was_on and text == LOGON and self.log_message:
                user.terminal.show(self.log_message)
            self.ask("DONE", number)

    async def judge(self, connection: Any, name: str, password: str) -> None:
        """Answers whether a name and a password are right."""
        given = [word.decode("latin-1") for word in map(read_bytes, (name, password))]
        is_right = await asyncio.get_running_loop().run_in_executor(
            self.judging, self.passwords.are_right, *given
        )
        if connection.place is None:
            return
        # a passwords file may name somebody whom the directory has not
        is_right = is_right and given[0] in self.engine.users
        # who is locked out is answered as if he were wrong
        connection.is_locked = is_right and given[0] in self.rules.locked
        is_right = is_right and not connection.is_locked
        if is_right and self.is_closed and not self.engine.users[given[0]].is_on:
            connection.send(CLOSED)
            self.leave(connection)
            return
        if is_right:
            self.engine.users[given[0]].terminal.tell_kept()
        self.ask("SAYS", connection.place, int(is_right), name, password)

    async def work(self) -> None:
        """Says the desk the time while somebody waits for it; fails where the desk does."""
        while not self.has_failed.is_set():
            if not self.strangers:
                self.is_asked.clear()
                await first_of(self.is_asked, self.has_failed)
            await asyncio.sleep(TICK)
            self.ask("TIME")
        raise Failure(FILE_FAILED, "the program of the logon desk has died")

    # --- connections ---

    def take_rules(self, rules: Rules) -> None:
        """Has these rules hold for whoever comes from now on."""
        self.rules = rules
        self.penalties.trusted = rules.trusted

    def come(self, connection: Any) -> bool:
        """A connection has come; whether there is a place for it."""
        if not self.rules.lets_in(connection.address):
            self.closings.add("the rules refuse its address", connection.address)
            return False
        if self.penalties.seconds(connection.address):
            self.closings.add("its address is refused for a while", connection.address)
            connection.send(REFUSED_FOR_NOW)
            return False
        connection.place = next(
            (number for number in range(self.room) if number not in self.places), None
        )
        if connection.place is None:
            return False
        self.places[connection.place] = connection
        connection.may_send.set()
        self.ask("OPEN", connection.place, self.origin(connection.address))
        return connection.place is not None

    def origin(self, address: Any) -> Any:
        """A number for an address, which nobody outside can know; neighbours in a network of IPv6 have the same one."""
        parts = address.split(":")
        network = ":".join(parts[:4]) if len(parts) > 1 else address
        return int.from_bytes(
            hashlib.blake2b(network.encode(), key=self.key, digest_size=7).digest(), "big"
        )

    def receive(self, connection: Any, data: bytes) -> None:
        """Bytes have come at a connection."""
        if connection.place is None:
            return
        connection.may_send.clear()
        if self.held is not None:
            self.held.append((connection, data))
        else:
            connection.note(data)
            self.ask("CAME", connection.place, data.hex().upper())

    def is_crowded(self) -> bool:
        """Whether as many connections wait for a place as there may be strangers."""
        return len(self.serving) - len(self.places) > MOST_STRANGERS

    def leave(self, connection: Any) -> None:
        """A connection has ended."""
        if connection.place is not None:
            self.ask("GONE", connection.place)

    async def serve(self, reader: Any, writer: Any, address: str | None = None) -> None:
        """Serves a socket until it ends; address: whose it is, if that is not the socket's other end."""
        connection = SocketConnection(writer, self.notify, address)
        self.serving.add(asyncio.current_task())
        # the installation stops by an end of all these
        try:
            with contextlib.suppress(asyncio.CancelledError, OSError):
                is_open = await self.share.turn(lambda: self.come(connection))
                while is_open:
                    await connection.may_send.wait()
                    data = await reader.read(USER_BYTES if connection.user else STRANGER_BYTES)
                    if not data or connection.place is None:
                        await self.answered(connection)
                        break
                    is_open = await self.take(connection, data)
        finally:
            self.leave(connection)
            connection.close()
            self.serving.discard(asyncio.current_task())

    async def take(self, connection: Connection, data: bytes) -> bool:
        """Gives the desk what came at a connection; a stranger waits for his turn. Whether the connection goes on."""
        if connection.user:
            begun = time.monotonic()
            self.receive(connection, data)
            # whoever sends without an end leaves others as much time
            await asyncio.sleep(time.monotonic() - begun)
            return True
        await self.share.turn(lambda: self.receive(connection, data))
        if not connection.user and connection.answers > MOST_ANSWERS:
            self.closings.add("too much that is no LOGON", connection.address)
            connection.send(IS_NO_LOGON)
            return False
        await asyncio.sleep(0 if connection.user else SECONDS_APART)
        return True

    async def answered(self, connection: Connection) -> None:
        """Waits for the answer to the last line of a connection that types no more, but may still read."""
        user = connection.user
        task = user and self.giving.get(user.terminal.number)
        if task and not task.done():
            await asyncio.wait({task})

    async def shut(self) -> None:
        """Says all connections that it ends, and closes them."""
        for connection in list(self.places.values()):
            connection.send(GOES_DOWN)
            connection.close()
        self.wrong.notify_all()
        self.locked_out.notify_all()
        self.closings.notify_all()
        for task in [*self.serving, *self.tasks]:
            task.cancel()
        if self.serving:
            await asyncio.wait(list(self.serving))
        self.judging.shutdown(wait=False)
        if self.program:
            with contextlib.suppress(OSError):
                self.program.stdin.close()
            self.program.wait()
            self.program.stdout.close()


async def first_of(*events: Any) -> None:
    """Waits until one of these happens."""
    tasks = [asyncio.ensure_future(event.wait()) for event in events]
    try:
        await asyncio.wait(tasks, return_when=asyncio.FIRST_COMPLETED)
    finally:
        for task in tasks:
            task.cancel()


def encoded(text: str) -> str:
    """A text as the desk reads bytes."""
    return text.encode(errors="surrogateescape").hex().upper() or "-"


def written(word: str) -> Any:
    return f"{word:X}" if isinstance(word, int) else word


def read_bytes(word: Any) -> Any:
    return b"" if word == "-" else bytes.fromhex(word)
