"""Listens at an address or at a path, and accepts connections. Until its handshake is over a connection counts for its address, and only
a few such may be open: if there are too many, the oldest one of the address with most of them is closed."""
from __future__ import annotations

from collections.abc import Callable
from typing import Any
import asyncio
import collections
import contextlib
import functools
import os
import resource
import socket
import stat

from gathjumli.cli import FILE_FAILED, Failure
from gathjumli.proxies import NoHeader, client_of
from gathjumli.rules import is_in
from gathjumli.strangers import Closings

# connections that are in a handshake
MOST_IN_HANDSHAKES = 80
# one that does not come to an end of its handshake goes
SECONDS_FOR_A_HANDSHAKE = 10
# files and connections that the command may have open
MOST_OPEN = 1 << 13
# if the host allows no more of them, for so long none is taken
SECONDS_WITHOUT_FILES = 0.1
# the least time between two handshakes, which take the command's time
SECONDS_APART = 0.002
BACKLOG = 512
TOO_MANY = "too many that say nothing"
NO_HEADER = "no header of the PROXY protocol, version 2"


class Door:
    """A socket that listens, and the connections at it that are in a handshake. Each of the others has a protocol of its own."""

    def __init__(
        self,
        listener: socket.socket,
        factory: Callable,
        tls: Any,
        notify: Any,
        is_crowded: Callable[[], bool] = lambda: False,
        proxies: tuple = (),
    ) -> None:
        self.sockets = [listener]
        # what makes the protocol of a connection from an address
        self.factory = factory
        # the networks of proxies, who say from where their connections are
        self.proxies = proxies
        self.tls = tls
        # whether so many wait inside that nobody else is let in yet
        self.is_crowded = is_crowded
        self.closings = Closings(notify)
        # those in a handshake, the oldest first, each with its address and its task
        self.waiting: dict[socket.socket, tuple[str, asyncio.Task]] = {}
        self.loop = asyncio.get_running_loop()
        listener.setblocking(False)
        self.task = self.loop.create_task(self.accept_all(listener))

    async def accept_all(self, listener: socket.socket) -> None:
        while True:
            try:
                found, peer = await self.loop.sock_accept(listener)
            except OSError:
                # no more files, or it was gone before it was taken
                await asyncio.sleep(SECONDS_WITHOUT_FILES)
                continue
            address = peer[0] if isinstance(peer, tuple) else ""
            task = self.loop.create_task(self.let_in(found, address))
            self.waiting[found] = (address, task)
            if len(self.waiting) > MOST_IN_HANDSHAKES:
                self.close_oldest()
            # whoever has come is served before the next one is taken
            await asyncio.sleep(SECONDS_APART if self.tls else 0)
            while self.is_crowded():
                await asyncio.sleep(SECONDS_APART)

    def close_oldest(self) -> None:
        counts = collections.Counter(address for address, _ in self.waiting.values())
        crowded = counts.most_common(1)[0][0]
        found = next(item for item, (address, _) in self.waiting.items() if address == crowded)
        self.closings.add(TOO_MANY, crowded)
        self.waiting.pop(found)[1].cancel()

    async def let_in(self, found: socket.socket, address: str) -> None:
        """Has a connection shake hands, and gives it its protocol."""
        words = handshake_words(self.tls)
        try:
            if is_in(address, self.proxies):
                address = await self.client_of(found, address)
            await self.loop.connect_accepted_socket(lambda: self.factory(address), found, **words)
        except BaseException:
            # whatever is wrong with it, it is of this connection only
            found.close()
        finally:
            self.waiting.pop(found, None)

    async def client_of(self, found: socket.socket, proxy: str) -> str:
        """The address from which a proxy's connection is; from now on it counts for that."""
        try:
            reading = client_of(self.loop, found, proxy)
            client = await asyncio.wait_for(reading, SECONDS_FOR_A_HANDSHAKE)
        except (NoHeader, OSError, asyncio.TimeoutError):
            self.closings.add(NO_HEADER, proxy)
            raise
        self.waiting[found] = (client, self.waiting[found][1])
        return client

    # what a server of pages asks of its server of connections

    def get_loop(self) -> Any:
        return self.loop

    def is_serving(self) -> bool:
        return not self.task.done()

    def close(self) -> None:
        self.task.cancel()
        for _, task in self.waiting.values():
            task.cancel()
        self.closings.notify_all()
        for listener in self.sockets:
            listener.close()

    async def wait_closed(self) -> None:
        with contextlib.suppress(asyncio.CancelledError):
            await self.task


def handshake_words(tls: Any) -> dict:
    """The words of a connection for its encryption."""
    return {"ssl": tls, "ssl_handshake_timeout": SECONDS_FOR_A_HANDSHAKE} if tls else {}


def stream_factory(serve: Callable) -> Callable:
    """What makes the protocol of a connection that is served by streams."""

    def factory(address: str) -> asyncio.StreamReaderProtocol:
        loop = asyncio.get_running_loop()
        served = functools.partial(serve, address=address)
        return asyncio.StreamReaderProtocol(asyncio.StreamReader(loop=loop), served, loop=loop)

    return factory


def address_socket(where: str) -> socket.socket:
    """A socket that listens at ADDRESS:PORT."""
    address, _, port = where.rpartition(":")
    try:
        kind, *_, place = socket.getaddrinfo(
            address.strip("[]"), int(port), type=socket.SOCK_STREAM, flags=socket.AI_PASSIVE
        )[0]
        found = socket.socket(kind, socket.SOCK_STREAM)
        try:
            found.setsockopt(socket.SOL_SOCKET, socket.SO_REUSEADDR, 1)
            if kind == socket.AF_INET6:
                found.setsockopt(socket.IPPROTO_IPV6, socket.IPV6_V6ONLY, 1)
            found.bind(place)
            found.listen(BACKLOG)
            return found
        except OSError:
            found.close()
            raise
    except OSError as error:
        raise Failure(FILE_FAILED, f"{where}: {error.strerror}") from None


def allow_more_files() -> None:
    """Has the host allow so many files that a flood of connections leaves some for others."""
    soft, hard = resource.getrlimit(resource.RLIMIT_NOFILE)
    most = MOST_OPEN if hard == resource.RLIM_INFINITY else min(MOST_OPEN, hard)
    if soft != resource.RLIM_INFINITY and soft < most:
        resource.setrlimit(resource.RLIMIT_NOFILE, (most, hard))


def unix_socket(path: str, mode: int = None) -> Any:
    """A socket that listens at a path, with these rights of its file. What a dead process left there is replaced; a living one
    keeps it."""
    found = socket.socket(socket.AF_UNIX, socket.SOCK_STREAM)
    try:
        if os.path.exists(path) and stat.S_ISSOCK(os.stat(path).st_mode):
            free(path)
        mask = os.umask(0o777 & ~mode) if mode is not None else None
        try:
            found.bind(path)
        finally:
            if mask is not None:
                os.umask(mask)
        found.listen(BACKLOG)
        return found
    except OSError as error:
        found.close()
        raise Failure(FILE_FAILED, f"{path}: {error.strerror or error}") from None


def free(path: str) -> None:
    """Removes the socket of a process that is gone."""
    with socket.socket(socket.AF_UNIX, socket.SOCK_STREAM) as trial:
        try:
            trial.connect(path)
        except ConnectionRefusedError:
            os.unlink(path)
            return
    raise Failure(FILE_FAILED, f"another process listens at {path}")
