"""The server of bin/replay: files of the folder web, and what is asked of a run. It is for this host only, and only for its own page:
whoever may ask sees all storage of all users."""
from __future__ import annotations

from collections.abc import Callable
from http import HTTPStatus
from typing import Any
from urllib.parse import parse_qs, urlsplit
import contextlib
import http.server
import json
import os
import threading

from gathjumli.cli import Failure
from gathjumli.moment_page import MomentPage
from gathjumli.moment_search import KINDS, REGISTER, Search, Wanted
from gathjumli.moments import Moments, WAYS
from gathjumli.web_requests import FOLDER, HEADERS, HTML, SCRIPT, SHEET

HOST = "127.0.0.1"
FILES = {
    "/": ("replay.html", HTML),
    "/style.css": ("style.css", SHEET),
    "/replay.css": ("replay.css", SHEET),
    "/icon.svg": ("icon.svg", "image/svg+xml"),
    **{f"/{name}": (name, SCRIPT) for name in ("replay.js", "replay_panels.js", "replay_line.js")},
    **{f"/{name}": (name, SCRIPT) for name in ("paper.js", "connection.js")},
}
JSON, TEXT = "application/json", "text/plain; charset=utf-8"
MOST_NUMBER = 1 << 53
MOST_SHOWN = 40
MOST_COLUMNS = 4096
BEFORE = "before"
AN_ADDRESS = "an address is hexadecimal"
OTHER_HOST = b"this host has another name\n"
OTHER_ORIGIN = b"a page of another origin\n"


class WrongRequest(Exception):
    """A request that asks for nothing that there is."""


def number_in(text: str, base: int, most: int, meant: str) -> int:
    """The number that a text is; else what is meant is said."""
    try:
        number = int(text, base)
    except ValueError:
        number = -1
    if not 0 <= number <= most:
        raise WrongRequest(f"{meant}, and not {text[:MOST_SHOWN]}")
    return number


class Words:
    """The words of a request."""

    def __init__(self, query: str) -> None:
        self.found = {name: values[-1] for name, values in parse_qs(query).items()}

    def has(self, name: str) -> bool:
        return name in self.found

    def number(self, name: str, usual: int = 0) -> int:
        return self.read(name, 10, usual, MOST_NUMBER, f"{name} is a number from 0 on")

    def address(self, name: str) -> int:
        return self.read(name, 16, 0, MOST_NUMBER, AN_ADDRESS)

    def addresses(self, name: str) -> frozenset[int]:
        """Addresses with commas between them, of a word that may be absent."""
        texts = self.found[name].split(",") if self.has(name) else []
        return frozenset(number_in(text, 16, MOST_NUMBER, AN_ADDRESS) for text in texts)

    def register(self, name: str) -> int:
        return self.read(name, 10, 0, 15, "a register is a number from 0 to 15")

    def read(self, name: str, base: int, usual: int, most: int, meant: str) -> int:
        """The number that a word is, or the usual one if it is absent."""
        text = self.found.get(name, "")
        return number_in(text, base, most, meant) if text else usual

    def word(self, name: str, allowed: Any) -> str:
        if self.found.get(name) not in allowed:
            raise WrongRequest(f"{name} is one of these: {', '.join(allowed)}")
        return self.found[name]

    def where(self, name: str) -> tuple[int, int]:
        """A moment in one word."""
        event, _, unit = self.found.get(name, "").partition(".")
        if not (event.isdecimal() and unit.isdecimal() and len(event + unit) < 20):
            raise WrongRequest(f"{name} is a moment as 12.0, or {BEFORE}")
        return int(event), int(unit)


class RunAnswers:
    """What requests get of a run."""

    def __init__(self, moments: Moments, page: MomentPage) -> None:
        self.moments, self.page = moments, page
        self.users = moments.run.users
        # moments are made in turn; of searches only the last one is wanted, until it is stopped
        self.lock = threading.Lock()
        self.last_search: Search | None = None

    def about(self, words: Words) -> dict[str, Any]:
        return self.page.about()

    def line(self, words: Words) -> dict[str, Any]:
        count = len(self.moments.steps)
        first = min(words.number("from"), max(0, count - 1))
        columns = min(MOST_COLUMNS, words.number("columns", usual=1))
        return self.moments.steps.line(first, words.number("to", usual=count), columns)

    def moment(self, words: Words) -> dict[str, Any]:
        user = words.word("user", self.users)
        where = self.moments.ordered(words.number("event"), words.number("unit"))
        since = where
        if words.has("go"):
            where = self.moments.go(*where, user, words.word("go", WAYS))
        elif words.found.get("since") == BEFORE:
            since = self.moments.before(*where)
        elif words.has("since"):
            since = self.moments.ordered(*words.where("since"))
        with self.lock:
            address = words.address("address") if words.has("address") else None
            return self.page.look(where, user, address, since)

    def search(self, words: Words) -> dict[str, Any]:
        kind = words.word("what", KINDS)
        number = words.register("of") if kind == REGISTER else min(words.address("of"), 0xFFFFFF)
        user = words.word("user", self.users)
        wanted = Wanted(user, kind, number, words.addresses("passed"))
        search = Search(self.moments, wanted, lambda: search is self.last_search)
        self.last_search = search
        where = self.moments.ordered(words.number("event"), words.number("unit"))
        if words.word("way", ("back", "forward")) == "forward":
            return search.forward(*where)
        after = words.number("after") if words.has("after") else None
        return search.back(*where, words.has("strict"), after)

    def progress(self, words: Words) -> dict[str, Any]:
        """How far the search is that somebody waits for."""
        return self.last_search.progress() if self.last_search else {}

    def stop(self, words: Words) -> dict[str, Any]:
        found, self.last_search = self.progress(words), None
        return found


class Handler(http.server.BaseHTTPRequestHandler):
    """Answers requests of the page of one run."""

    protocol_version = "HTTP/1.1"
    # a connection that asks for nothing goes after so many seconds
    timeout = 300
    # head and body go together, or the body waits until the browser has acknowledged the head
    wbufsize = -1
    server: ReplayServer

    def do_GET(self) -> None:
        with contextlib.suppress(ConnectionError, TimeoutError):
            self.give(*self.answer())

    def answer(self) -> tuple[int, str, bytes]:
        """The status, the kind and the bytes of an answer."""
        hosts, origins = self.headers.get_all("Host", []), self.headers.get_all("Origin", [])
        if len(hosts) != 1 or hosts[0] not in self.server.names:
            return HTTPStatus.MISDIRECTED_REQUEST, TEXT, OTHER_HOST
        # a page of another site may not make the program work
        site = self.headers.get("Sec-Fetch-Site", "none")
        if origins not in ([], [f"http://{hosts[0]}"]) or site not in ("same-origin", "none"):
            return HTTPStatus.FORBIDDEN, TEXT, OTHER_ORIGIN
        parts = urlsplit(self.path)
        if parts.path in FILES:
            name, kind = FILES[parts.path]
            with open(os.path.join(FOLDER, name), "rb") as file:
                return HTTPStatus.OK, kind, file.read()
        if parts.path not in self.server.asked:
            return HTTPStatus.NOT_FOUND, TEXT, b"there is no such page\n"
        return self.data(self.server.asked[parts.path], parts.query)

    def data(self, asked: Callable[[Words], dict], query: str) -> tuple[int, str, bytes]:
        """What is asked of the run, or why there is no answer."""
        try:
            found = json.dumps(asked(Words(query)), separators=(",", ":"))
            return HTTPStatus.OK, JSON, found.encode(errors="replace")
        except WrongRequest as reason:
            return HTTPStatus.BAD_REQUEST, TEXT, f"{reason}\n".encode(errors="replace")
        except Failure as failure:
            text = "\n".join(map(str, failure.lines)) or "the program has ended"
            return HTTPStatus.INTERNAL_SERVER_ERROR, TEXT, text.encode(errors="replace")

    def give(self, status: int, kind: str, body: bytes) -> None:
        self.send_response(status)
        head = {**HEADERS, "Content-Type": kind, "Content-Length": str(len(body))}
        for name, value in head.items():
            self.send_header(name, value)
        self.end_headers()
        self.wfile.write(body)

    def version_string(self) -> str:
        return "Gathjumli"

    def log_message(self, *_: Any) -> None:
        pass


class ReplayServer(http.server.ThreadingHTTPServer):
    """The server of one run, at a port of this host."""

    daemon_threads = True

    def __init__(self, port: int) -> None:
        super().__init__((HOST, port), Handler)
        at = self.server_address[1]
        self.names = [f"{name}:{at}" for name in (HOST, "localhost")]
        if at == 80:
            self.names += [HOST, "localhost"]
        # until the run is done nothing can be asked
        self.asked: dict[str, Callable[[Words], dict]] = {}

    def take(self, answers: RunAnswers) -> None:
        self.asked = {
            "/data/run": answers.about,
            "/data/line": answers.line,
            "/data/moment": answers.moment,
            "/data/search": answers.search,
            "/data/progress": answers.progress,
            "/data/stop": answers.stop,
        }

    def handle_error(self, *_: Any) -> None:
        """A connection that fails is over, and nothing else is."""
