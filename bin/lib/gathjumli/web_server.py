"""Pages in browsers: files of the folder web, and a WebSocket for each page (docs/OPERATING.md, "Pages"). Debian's python3-websockets does
the protocol; what the messages mean is in bin/lib/gathjumli/web_pages.py and bin/lib/gathjumli/web_operator.py."""
from __future__ import annotations

from collections.abc import Callable
from typing import Any
import asyncio
import collections
import functools
import http
import json
import logging

from websockets.exceptions import ConnectionClosed
from websockets.legacy.server import WebSocketServer, WebSocketServerProtocol

from gathjumli.figures import figures, metrics
from gathjumli.minidisks import Minidisks
from gathjumli.web_operator import OperatorPage, OperatorPages
from gathjumli.web_requests import (
    HEADERS,
    METRICS,
    METRICS_KIND,
    BEARER,
    USER_SOCKET,
    answer_to,
    is_own_host,
    read_files,
)
from gathjumli.web_pages import Outbox, Pages, Rate, is_token
from gathjumli.listening import Door, address_socket

# a connection that asks for nothing goes after so many seconds; of too many that nobody has logged on at one goes
SECONDS_TO_ASK = 10
MOST_CONNECTIONS = 512
MOST_MESSAGE = 3 << 14
LIMITS = {"max_size": MOST_MESSAGE, "max_queue": 2, "read_limit": 1 << 16, "write_limit": 1 << 16, "ping_interval": 20, "ping_timeout": 20,
          "close_timeout": 2, "server_header": None}  # fmt: skip
WRONG_MESSAGE = 1008


class Connection(WebSocketServerProtocol):
    """A browser's connection, which goes if it asks for nothing."""

    crowd = None
    web = None
    page = None
    # from where it is, which is not its other end if that is a proxy
    client_address = ""

    def connection_made(self, transport: Any) -> None:
        super().connection_made(transport)
        self.crowd.add(self)
        self.loop.call_later(SECONDS_TO_ASK, self.give_up)

    def connection_lost(self, error: Any) -> None:
        super().connection_lost(error)
        self.crowd.discard(self)

    async def process_request(self, path: str, headers: Any) -> tuple | None:
        return self.web.answer(self.address(), path, headers)

    def give_up(self) -> None:
        if self.state.name == "CONNECTING":
            self.transport.abort()

    def is_stranger(self) -> bool:
        """Whether nobody is logged on here."""
        return not (self.page and self.page.is_somebody())

    def address(self) -> str:
        return self.client_address


class Crowd:
    """All connections, the oldest first. Of too many the oldest stranger goes of the address that has most strangers."""

    def __init__(self) -> None:
        self.all = {}

    def add(self, connection: Any) -> None:
        self.all[connection] = None
        if len(self.all) > MOST_CONNECTIONS:
            strangers = [other for other in self.all if other.is_stranger()]
            counts = collections.Counter(other.address() for other in strangers)
            crowded = counts.most_common(1)[0][0] if counts else None
            gone = next((other for other in strangers if other.address() == crowded), connection)
            self.discard(gone)
            gone.transport.abort()

    def discard(self, connection: Any) -> None:
        self.all.pop(connection, None)


class Web:
    """The server of pages."""

    def __init__(self, installation: Any, tls: Any) -> None:
        self.installation = installation
        self.tls = tls
        self.files = read_files()
        loop = asyncio.get_running_loop()
        self.pages = Pages(installation, Minidisks(installation.directory, installation.volumes))
        self.operators = OperatorPages(installation, loop)
        self.crowd = Crowd()
        self.tasks = [loop.create_task(pages.watch()) for pages in (self.pages, self.operators)]

    def read_minidisks(self) -> None:
        """Has pages show the minidisks of the directory as it is now."""
        installation = self.installation
        self.pages.minidisks = Minidisks(installation.directory, installation.volumes)

    async def listen(self, where: Any) -> None:
        logger = logging.Logger("web", logging.CRITICAL + 1)
        kind = type("OwnConnection", (Connection,), {"crowd": self.crowd, "web": self})
        self.server = WebSocketServer(logger=logger)
        words = {"logger": logger, "secure": bool(self.tls)}
        made = functools.partial(kind, self.serve, self.server, **words, **LIMITS)
        notify, proxies = self.installation.notify, self.installation.options["proxies"]
        factory = functools.partial(made_for, made)
        self.server.wrap(Door(address_socket(where), factory, self.tls, notify, proxies=proxies))
        scheme = "https" if self.tls else "http"
        self.installation.notify(
            f"pages are at {scheme}://{where}/, the operator's at /operator with the token in {self.operators.path}"
        )

    def answer(self, address: str, path: str, headers: Any) -> tuple | None:
        """What a request gets before it is a WebSocket, or None if it becomes one."""
        # of a header that is there twice none is taken
        host, origin, given = (
            found[0] if len(found := headers.get_all(name)) == 1 else ""
            for name in ("Host", "Origin", "Authorization")
        )
        names = self.installation.options["hosts"]
        if path == METRICS and is_own_host(host, names):
            found = self.metrics(address, given)
        else:
            found = answer_to(path, host, origin, bool(self.tls), self.files, names)
        if found is None:
            return None
        status, kind, body = found
        return (
            status,
            {
                **HEADERS,
                "Content-Type": kind,
                "Content-Length": str(len(body)),
                "Connection": "close",
            }.items(),
            body,
        )

    def metrics(self, address: str, given: str) -> tuple:
        """The figures of the installation, for whoever has the operator's token."""
        if self.operators.penalties.seconds(address):
            return http.HTTPStatus.TOO_MANY_REQUESTS, "text/plain", b"too many wrong tokens\n"
        if not is_token(given.removeprefix(BEARER), self.operators.token):
            self.operators.note_wrong(METRICS, address)
            return http.HTTPStatus.FORBIDDEN, "text/plain", b"the operator's token is wanted\n"
        lines = metrics(figures(self.installation))
        return http.HTTPStatus.OK, METRICS_KIND, "".join(f"{line}\n" for line in lines).encode()

    async def serve(self, connection: Any) -> None:
        """Serves the page of a connection until that ends."""
        outbox = Outbox()
        sender = asyncio.create_task(send_all(connection, outbox))
        try:
            page = (
                self.page_of(connection, outbox, await received(connection))
                if connection.path.startswith(USER_SOCKET)
                else None
            )
            if page:
                await self.converse_with_user(connection, page, outbox)
            else:
                await self.converse_with_operator(connection, outbox)
        except (ValueError, RecursionError):
            await connection.close(WRONG_MESSAGE)
        except ConnectionClosed:
            pass
        finally:
            sender.cancel()

    def page_of(self, connection: Any, outbox: Any, message: str) -> Any:
        page, answer = self.pages.open(message, connection.address())
        connection.page = page
        if page.connection:
            # the browser has come back before its old connection was missed
            page.connection.transport.abort()
        page.connection = connection
        outbox.put(answer)
        page.attach(outbox)
        return page

    async def converse_with_user(self, connection: Any, page: Any, outbox: Any) -> None:
        rate = Rate()
        try:
            while True:
                await outbox.room()
                await asyncio.sleep(rate.wait())
                await page.take(await received(connection))
        finally:
            if page.connection is connection:
                page.connection = None
                page.detach()

    async def converse_with_operator(self, connection: Any, outbox: Any) -> None:
        page = connection.page = OperatorPage(self.operators, connection.address(), outbox)
        try:
            while True:
                await outbox.room()
                await page.take(await received(connection))
                if not page.is_known:
                    await connection.close(WRONG_MESSAGE)
        finally:
            page.close()

    async def close(self) -> None:
        for task in self.tasks:
            task.cancel()
        self.operators.wrong.notify_all()
        self.server.close()
        await self.server.wait_closed()


def made_for(made: Callable[[], Connection], address: str) -> Connection:
    """A connection from an address."""
    connection = made()
    connection.client_address = address
    return connection


async def received(connection: Any) -> Any:
    """The next message of a page, an object. What is none is a ValueError."""
    text = await connection.recv()
    if isinstance(text, bytes):
        raise ValueError
    found = json.loads(text)
    if not isinstance(found, dict):
        raise ValueError
    return found


async def send_all(connection: Any, outbox: Any) -> None:
    """Sends a page its messages, as fast as the browser takes them."""
    try:
        while True:
            await connection.send(json.dumps(await outbox.taken()))
    except ConnectionClosed:
        pass
    finally:
        outbox.close()
