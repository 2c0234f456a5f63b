"""The address of a client whose connection a proxy passes on: the header of the PROXY protocol, version 2, that comes before all else.
It is taken only from the proxies that the operator names, and these have to send it."""
from __future__ import annotations

from typing import Any
import asyncio
import ipaddress
import socket

SIGNATURE = b"\r\n\r\n\0\r\nQUIT\n"
# the signature, the version with the command, the family, and how many bytes follow
HEAD = len(SIGNATURE) + 4
LOCAL, PROXY = 0x20, 0x21
# the bytes of an address of each family of TCP
ADDRESSES = {0x11: 4, 0x21: 16}
# what may follow, with whatever else the proxy says
MOST_BYTES = 4096


class NoHeader(Exception):
    """What came is no header."""


def length_of(head: bytes) -> int:
    """How many bytes follow the head of a header."""
    length = int.from_bytes(head[-2:], "big")
    if not head.startswith(SIGNATURE) or head[12] not in (LOCAL, PROXY) or length > MOST_BYTES:
        raise NoHeader
    return length


def client_in(head: bytes, rest: bytes, proxy: str) -> str:
    """The client's address that a header states; that of the proxy if it speaks for itself."""
    if head[12] == LOCAL:
        return proxy
    size = ADDRESSES.get(head[13])
    # the addresses of both ends, and their ports
    if size is None or len(rest) < 2 * size + 4:
        raise NoHeader
    return str(ipaddress.ip_address(rest[:size]))


async def client_of(loop: asyncio.AbstractEventLoop, found: socket.socket, proxy: str) -> str:
    """Reads the header of a connection, and nothing after it; the address of the client."""
    head = await received(loop, found, HEAD)
    return client_in(head, await received(loop, found, length_of(head)), proxy)


async def received(loop: Any, found: socket.socket, size: int) -> bytes:
    """So many bytes of a connection."""
    data = b""
    while len(data) < size:
        if not (piece := await loop.sock_recv(found, size - len(data))):
            raise NoHeader
        data += piece
    return data
