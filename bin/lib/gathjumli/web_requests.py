"""What a browser may ask for: the files of the folder web, and WebSockets from pages of the same origin."""
from __future__ import annotations

from typing import Any
import http
import ipaddress
import os
import re
import socket

from gathjumli.cli import ROOT

FOLDER = os.path.join(ROOT, "web")
HTML, SCRIPT, SHEET = (
    "text/html; charset=utf-8",
    "text/javascript; charset=utf-8",
    "text/css; charset=utf-8",
)
FILES = {"/": ("user.html", HTML), "/operator": ("operator.html", HTML), "/style.css": ("style.css", SHEET),
         "/icon.svg": ("icon.svg", "image/svg+xml"),
         **{f"/{name}": (name, SCRIPT) for name in ("connection.js", "paper.js", "user.js", "operator.js")}}  # fmt: skip
# what Prometheus asks for, with the operator's token, and the form of the answer
METRICS, METRICS_KIND = "/metrics", "text/plain; version=0.0.4; charset=utf-8"
BEARER = "Bearer "
USER_SOCKET, OPERATOR_SOCKET = "/socket", "/operator/socket"
POLICY = ("default-src 'none'; script-src 'self'; style-src 'self'; connect-src 'self'; img-src 'self'; base-uri 'none'; "
          "form-action 'none'; frame-ancestors 'none'")  # fmt: skip
HEADERS = {"Content-Security-Policy": POLICY, "X-Content-Type-Options": "nosniff", "X-Frame-Options": "DENY", "Referrer-Policy": "no-referrer",
           "Cross-Origin-Opener-Policy": "same-origin", "Cross-Origin-Resource-Policy": "same-origin", "Cache-Control": "no-store"}  # fmt: skip


NAME = re.compile("[a-z0-9]([a-z0-9.-]{0,251}[a-z0-9])?")


def host_name(text: str) -> str:
    """A name of this host, as the operator gives it."""
    if not NAME.fullmatch(text.lower()):
        raise ValueError("a name of this host, as cp.example.org")
    return text.lower()


def is_own_host(host: Any, names: tuple = ()) -> bool:
    """Whether a page may be asked for by this name: an address, a name of this host, or one that the operator gave. By any other
    name another site could have a browser take it for its own."""
    name, _, port = (
        host.rpartition(":") if not host.endswith("]") and ":" in host else (host, "", "")
    )
    name = name.lower()
    try:
        ipaddress.ip_address(name.strip("[]"))
        return True
    except ValueError:
        return name in (*names, "localhost", socket.gethostname().lower(), socket.getfqdn().lower())


def answer_to(
    path: Any, host: Any, origin: Any, is_secure: Any, files: Any, names: tuple = ()
) -> tuple | None:
    """What a request gets: the status, the type and the bytes of an answer, or None where it is a WebSocket that may be opened."""
    path = path.partition("?")[0]
    if not is_own_host(host, names):
        return http.HTTPStatus.MISDIRECTED_REQUEST, "text/plain", b"this host has another name\n"
    if path in (USER_SOCKET, OPERATOR_SOCKET):
        # a proxy may have encrypted what comes here as it is
        if origin != f"https://{host}" and (is_secure or origin != f"http://{host}"):
            return http.HTTPStatus.FORBIDDEN, "text/plain", b"a page of another origin\n"
        return None
    if path not in files:
        return http.HTTPStatus.NOT_FOUND, "text/plain", b"there is no such page\n"
    return http.HTTPStatus.OK, *files[path]


def read_files() -> Any:
    """The types and the bytes of the files, by the paths under which they are asked for."""
    found = {}
    for path, (name, kind) in FILES.items():
        with open(os.path.join(FOLDER, name), "rb") as file:
            found[path] = (kind, file.read())
    return found
