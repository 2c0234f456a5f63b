"""A page's connection to the desk: all that pages know of the desk is here. A page appears by the same door as a telnet: its connection is
opened with an address, gives bytes that are typed, gets bytes that are shown, and is closed."""
from __future__ import annotations

from typing import Any
import asyncio
import socket


MOST_TYPED = 1 << 14
# what is no printable ASCII character is a blank
CLEAN = bytes(byte if 32 <= byte < 127 else 32 for byte in range(256))
# IAC WILL ECHO and IAC WONT ECHO: a telnet shows no more what is typed, and again
HIDE, SHOW = b"\xff\xfb\x01", b"\xff\xfc\x01"


class NoSocket:
    """In the place of a terminal's socket, of which a page has none of its own."""

    family = socket.AF_UNIX

    def setsockopt(self, *_: Any) -> None:
        pass


class PageLine:
    """A connection in the form of a stream's reader and writer: what is typed appears as bytes, and what is shown goes as lines."""

    def __init__(self, address: int, shown: Any, unread: Any) -> None:
        self.address = address
        self.shown = shown
        self.unread = unread
        self.transport = self
        self.typed = bytearray()
        self.changed = asyncio.Event()
        self.is_closed = False
        self.left = b""

    async def type(self, line: bytes) -> None:
        """Types a line; waits while much is typed that nobody has read."""
        while len(self.typed) > MOST_TYPED and not self.is_closed:
            await asyncio.sleep(0.02)
        self.typed += line.translate(CLEAN) + b"\r\n"
        self.changed.set()

    async def read(self, most: int) -> Any:
        while not self.typed and not self.is_closed:
            self.changed.clear()
            await self.changed.wait()
        data = bytes(self.typed[:most])
        del self.typed[:most]
        return data

    def write(self, data: bytes) -> None:
        *lines, self.left = (self.left + data.replace(HIDE, b"").replace(SHOW, b"")).split(b"\r\n")
        for line in lines:
            self.shown(line.decode("latin-1"))

    def get_write_buffer_size(self) -> Any:
        return self.unread()

    def get_extra_info(self, name: str) -> Any:
        return {"peername": (self.address, 0), "socket": NoSocket()}.get(name)

    def is_closing(self) -> Any:
        return self.is_closed

    def close(self) -> None:
        self.is_closed = True
        self.changed.set()

    abort = close


async def serve(desk: Any, line: Any) -> None:
    """Has the desk serve a connection until one of both ends that."""
    try:
        await desk.serve(line, line)
    finally:
        line.close()


def users_at(users: list) -> dict:
    """Each page's connection at which a user is logged on, with that user."""
    there = [user for user in users if user.is_on and user.terminal.is_there]
    return {user.terminal.connection.writer: user for user in there}


def place_of(user: Any) -> Any:
    """Where a user's terminal is, or None where he is at none."""
    return (user.terminal.connection.address or "here") if user.terminal.is_there else None


def count_strangers(desk: Any) -> Any:
    return desk.strangers
