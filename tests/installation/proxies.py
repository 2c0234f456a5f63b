"""Proxies before an installation, names by which it is asked for, and addresses that are refused for a while. Called by
tests/commands/people.py."""
from __future__ import annotations

from collections.abc import Callable
import asyncio
import contextlib
import http.client
import importlib.util
import os
import socket
import ssl
import subprocess

from tests.installation.operators import operator
from tests.installation.strangers import make_certificate
from tests.lib.files import write
from tests.lib.host import free_port
from tests.lib.sites import BANNER, Person, Site, make_site, run

# the other ends of connections, all of this host
PROXY, GUESSER, OTHER = "127.0.0.3", "127.0.0.4", "127.0.0.5"
SIGNATURE = bytes.fromhex("0d0a0d0a000d0a515549540a")
PORTS = (40000).to_bytes(2, "big") + (3215).to_bytes(2, "big")
V4 = socket.inet_aton("192.0.2.7") + socket.inet_aton("192.0.2.1")
V6 = socket.inet_pton(socket.AF_INET6, "2001:db8::7") + bytes(16)
# a TLV after the addresses, as the protocol has them
MORE = b"\x04\x00\x03abc"


def header(command: int, family: int, rest: bytes, length: int | None = None) -> bytes:
    size = len(rest) if length is None else length
    return SIGNATURE + bytes([command, family]) + size.to_bytes(2, "big") + rest


# headers, and the client of each
CLIENTS = {
    "IPv4": (header(0x21, 0x11, V4 + PORTS), "192.0.2.7"),
    "IPv4 with more": (header(0x21, 0x11, V4 + PORTS + MORE), "192.0.2.7"),
    "IPv6": (header(0x21, 0x21, V6 + PORTS), "2001:db8::7"),
    "the proxy itself": (header(0x20, 0x00, b""), PROXY),
}
# what is no header
MALFORMED = {
    "nothing but a line": b"LOGON ALICE WONDER\r\n" + b"\r\n" * 8,
    "version 1": b"PROXY TCP4 192.0.2.7 192.0.2.1 40000 3215\r\n",
    "another signature": b"\r\n\r\n\0\r\nQUIT!" + header(0x21, 0x11, V4 + PORTS)[12:],
    "another version": header(0x11, 0x11, V4 + PORTS),
    "another command": header(0x22, 0x11, V4 + PORTS),
    "a socket of the host": header(0x21, 0x31, bytes(216)),
    "UDP": header(0x21, 0x12, V4 + PORTS),
    "no family": header(0x21, 0x00, b""),
    "short addresses": header(0x21, 0x11, V4),
    "short addresses of IPv6": header(0x21, 0x21, V4 + PORTS),
    "too long": header(0x21, 0x11, V4 + PORTS, 60000),
}


async def come_from(address: str, port: int, first: bytes = b"", tls: bool = False) -> Person:
    """Somebody who comes from an address of this host, and sends this before all else."""
    one = Person((address, port))
    found = socket.socket()
    found.setblocking(False)
    found.bind((address, 0))
    loop = asyncio.get_running_loop()
    await loop.sock_connect(found, ("127.0.0.1", port))
    await loop.sock_sendall(found, first)
    words = {}
    if tls:
        context = ssl.SSLContext(ssl.PROTOCOL_TLS_CLIENT)
        context.check_hostname, context.verify_mode = False, ssl.CERT_NONE
        words = {"ssl": context, "server_hostname": "localhost"}
    one.reader, one.writer = await asyncio.open_connection(sock=found, **words)
    return one


def at_port(site: Site) -> int:
    port = free_port()
    site.words[site.words.index("--listen") + 1] = f"127.0.0.1:{port}"
    return port


async def logs_on(one: Person) -> str | None:
    """What is answered to a right password, or nothing if the connection is closed."""
    one.type("LOGON ALICE WONDER")
    try:
        await one.until(BANNER)
        answer = await one.until("LOGON OK", "RECONNECTED")
    except ConnectionError:
        answer = None
    one.go()
    return answer


def try_headers(check: Callable, site: Site) -> None:
    """The client's address is taken from the proxy that is named, and from nobody else; what is malformed is closed."""
    port = at_port(site)
    site.online("--proxy-from", f"{PROXY}/32")
    for what, (given, wanted) in CLIENTS.items():
        answer = run(on_from(PROXY, port, given))
        is_told = site.await_message(f" from {wanted}", 10)
        check(f"a header of {what}", answer is not None and is_told, *site.findings)
    for what, given in MALFORMED.items():
        lines = run(rest_of(PROXY, port, given))
        check(f"a header that is none: {what}", lines == [], *lines)
    answer = run(on_from(OTHER, port, CLIENTS["IPv4"][0] + b"\r\n"))
    is_told = site.await_message(f"ALICE is back from {OTHER}", 10)
    check("a header of nobody who is trusted is not taken", answer and is_told, *site.findings)
    check("it is suspended", site.stop() == 0)
    wanted = f"{len(MALFORMED)} connections are closed: no header of the PROXY protocol, version 2 from {PROXY}"
    check("the journal has what was malformed", wanted in site.since_start(), *site.findings)


async def on_from(address: str, port: int, first: bytes = b"", tls: bool = False) -> str | None:
    return await logs_on(await come_from(address, port, first, tls))


async def rest_of(address: str, port: int, first: bytes) -> list[str]:
    one = await come_from(address, port, first)
    # it may be closed already
    with contextlib.suppress(OSError):
        # what is shorter than it says is not waited for
        one.writer.write_eof()
        await one.rest()
    return one.lines


def try_encrypted(check: Callable, site: Site) -> None:
    """The header comes before the encryption."""
    words = make_certificate(site.folder)
    if not words:
        print("no openssl: an encrypted connection of a proxy was not tried")
        return
    port = at_port(site)
    site.online("--proxy-from", PROXY, *words)
    answer = run(on_from(PROXY, port, CLIENTS["IPv4"][0], tls=True))
    is_told = site.await_message("ALICE logs on from 192.0.2.7", 10)
    check("a header before encryption", answer == "LOGON OK" and is_told, *site.findings)
    check("it is suspended", site.stop() == 0)


def answered(address: str, port: int, first: bytes, host: str, path: str = "/") -> int:
    """The status of a page that is asked for by this name."""
    with socket.socket() as found:
        found.settimeout(10)
        found.bind((address, 0))
        found.connect(("127.0.0.1", port))
        found.sendall(first)
        connection = http.client.HTTPConnection("127.0.0.1", port)
        connection.sock = found
        connection.request("GET", path, headers={"Host": host})
        return connection.getresponse().status


def try_hosts(check: Callable, site: Site) -> None:
    """Pages are there by the names that the operator gives, behind a proxy too."""
    if not importlib.util.find_spec("websockets"):
        print("no websockets: pages by other names were not tried")
        return
    web = free_port()
    names = ("--host", "cp.example.org", "--host", "CP2.example.org")
    site.online("--web", f"127.0.0.1:{web}", *names, "--proxy-from", PROXY)
    check("pages are there", site.await_message("pages are at"), *site.findings)
    given = CLIENTS["IPv4"][0]
    cases = {"cp.example.org": 200, "CP.example.org:443": 200, "cp2.example.org": 200,
             "evil.example.org": 421, "127.0.0.1": 200}  # fmt: skip
    for host, wanted in cases.items():
        found = [answered(PROXY, web, given, host), answered(OTHER, web, b"", host)]
        check(f"a page of {host}", found == [wanted] * 2, *map(str, found))
    check("it is suspended", site.stop() == 0, *site.findings)


def try_wrong_words(check: Callable, site: Site) -> None:
    """Names and networks that are none are refused."""
    for words, wanted in {
        ("--host", "-x"): "--host is a name of this host, as cp.example.org, and not -x",
        ("--proxy-from", "proxy"): "--proxy-from is an address or a network, as 10.0.0.0/8",
    }.items():
        given = [site.command, *site.words, *words, *site.paths]
        done = subprocess.run(given, capture_output=True, text=True, stdin=subprocess.DEVNULL)
        check(f"{' '.join(words)}", done.returncode == 2 and wanted in done.stderr, done.stderr)


# --- penalties ---


def try_growth(check: Callable) -> None:
    """Refusals of an address grow, are forgotten, and the table of addresses is bounded."""
    from gathjumli import penalties
    from gathjumli.rules import network

    now, said = [0.0], []
    found = penalties.Penalties(said.append, lambda: now[0])

    def guess(address: str, count: int) -> float:
        for _ in range(count):
            found.add(address)
        return found.seconds(address)

    check("few wrong passwords", guess("192.0.2.7", penalties.MOST_WRONG - 1) == 0)
    check("one too many", guess("192.0.2.7", 1) == 60, *said)
    wanted = "192.0.2.7 is refused for 60 seconds: 30 wrong passwords or tokens"
    check("the journal says so", said == [wanted], *said)
    check("another address is not refused", found.seconds("192.0.2.8") == 0)
    lasted = []
    for _ in range(8):
        now[0] += found.seconds("192.0.2.7")
        check("it is over", found.seconds("192.0.2.7") == 0)
        lasted.append(guess("192.0.2.7", penalties.MOST_WRONG))
    check(
        "refusals grow", lasted == [120, 240, 480, 960, 1920, 3600, 3600, 3600], *map(str, lasted)
    )
    now[0] += penalties.SECONDS_TO_FORGET_ALL + 3601
    check("they are forgotten", guess("192.0.2.7", penalties.MOST_WRONG) == 60)
    for _ in range(200):
        now[0] += penalties.SECONDS_TO_FORGET_ONE
        found.add("192.0.2.9")
    check("who is wrong now and then is not refused", found.seconds("192.0.2.9") == 0)
    guess("2001:db8::1", penalties.MOST_WRONG)
    holds = found.seconds("2001:db8::ffff") > 0 and not found.seconds("2001:db8:0:1::1")
    check("a network of IPv6 is one", holds)
    check("a socket of the host is nobody's", guess("", 100) == 0)
    found.trusted = (network("198.51.100.0/24"),)
    check("a trusted one is not refused", guess("198.51.100.4", 100) == 0)
    for number in range(2 * penalties.MOST_ADDRESSES):
        found.add(f"10.0.{number >> 8}.{number & 255}")
    holds = len(found.all) == penalties.MOST_ADDRESSES and found.seconds("2001:db8::1") > 0
    check("addresses are bounded, and who is refused stays", holds, f"{len(found.all)}")


def try_guesser(check: Callable, site: Site) -> None:
    """An address with many wrong passwords is refused for a while, and others are not; who is trusted comes at once."""
    port = at_port(site)

    async def guess(count: int) -> None:
        one = await come_from(GUESSER, port)
        for place in range(3):
            one.type(f"LOGON X{count}Y{place} Z")
            await one.until("LOGON REFUSED")
        await one.rest()

    async def guess_all() -> None:
        await asyncio.gather(*map(guess, range(12)))

    site.online("--operate", f"{site.folder}/operator")
    run(guess_all())
    lines = run(rest_of(GUESSER, port, b""))
    wanted = "REFUSED: TOO MANY WRONG PASSWORDS FROM YOUR ADDRESS, COME BACK LATER"
    check("a guesser is refused", lines == [wanted], *lines)
    check("another address is not", run(on_from(OTHER, port)) == "LOGON OK", *site.findings)
    is_told = site.await_message(f"{GUESSER} is refused for 60 seconds", 10)
    check("the operator is told", is_told, *site.findings)
    status = operator(site, "status").stdout
    check("and sees it later", f"refused for a while: {GUESSER}" in status, status)
    write(f"{site.record}.rules", f"trust {GUESSER}\n")
    check("a reload", operator(site, "reload").returncode == 0)
    check("a trusted one comes", run(on_from(GUESSER, port)) == "RECONNECTED", *site.findings)
    check("it is suspended", site.stop() == 0)


def try_proxies(check: Callable, command: str, folder: str) -> None:
    """All that is tried in seconds, over stand-ins for the programs."""
    os.makedirs(folder)
    try_growth(check)
    try_headers(check, make_site(command, f"{folder}/headers"))
    try_encrypted(check, make_site(command, f"{folder}/encrypted"))
    try_hosts(check, make_site(command, f"{folder}/hosts"))
    try_wrong_words(check, make_site(command, f"{folder}/words"))
    try_guesser(check, make_site(command, f"{folder}/guesser"))
