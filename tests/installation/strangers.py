"""What strangers try against an installation, and what people who are on notice of it. Called by tests/commands/people.py."""
from __future__ import annotations

from collections.abc import Callable
import asyncio
import os
import resource
import shutil
import socket
import ssl
import subprocess
import sys
import time

from tests.installation.town import Town
from tests.lib.files import write
from tests.lib.host import free_port
from tests.lib.sites import Person, answered, make_site, on, person, run

FLOOD = os.path.join(os.path.dirname(os.path.realpath(__file__)), "flood.py")
# bytes a second that all strangers of an attack send together, and for how long
RATE = 300000
SECONDS = 2
# connections that say nothing
SILENT = 1200
FLOODS = {
    "line feeds": b"\n",
    "options of telnet": b"\xff\xfd\x03",
    "LOGONs": b"LOGON X Y\n",
}


def bound_of_line() -> float:
    """How long the 99th hundredth of lines may take; on a host that is busy with others everybody waits for that."""
    return 0.1 if os.getloadavg()[0] < os.cpu_count() else 1.0


def show_figures(what: str, findings: str) -> None:
    """Prints what was measured, if that is asked for."""
    if os.environ.get("PEOPLE_FIGURES"):
        print(f"{what}: {findings} (load {os.getloadavg()[0]:.1f})")


def try_floods(check: Callable, site: object) -> None:
    """One stranger, and a hundred, send what is no LOGON as fast as they can: a line of somebody who is on takes as long as before."""

    async def tried(count: int, text: bytes) -> tuple:
        where = f"{site.folder}/socket"
        alice = await on(site)
        words = [sys.executable, FLOOD, where, str(count), str(RATE), str(SECONDS), text.hex()]
        with subprocess.Popen(words, stdout=subprocess.PIPE) as strangers:
            took = await answered(alice, lambda: strangers.poll() is not None)
            sent, came = map(int, strangers.stdout.read().split())
        alice.go()
        return took[int(len(took) * 0.99)], took[-1], sent, came

    site.online()
    for what, text in FLOODS.items():
        for count in (1, 100):
            last, most, sent, came = run(tried(count, text))
            findings = f"{1000 * last:.0f} ms, at most {1000 * most:.0f} ms; {sent} bytes, {came} connections"
            show_figures(f"{count} send {what}", findings)
            check(f"{count} send {what}", last < bound_of_line(), findings)
    check("it is suspended", site.stop() == 0, *site.findings)
    holds = "closed: too much that is no LOGON" in site.since_start()
    check("the journal has strangers who are closed", holds, site.since_start()[-2000:])


def try_noise(check: Callable, site: object) -> None:
    """A stranger is closed after 64 lines that are no LOGON, and one who logs on before is not."""

    async def tried() -> tuple:
        where = f"{site.folder}/socket"
        noisy, alice = await person(where), await person(where)
        alice.type(*["HELLO"] * 40, "LOGON ALICE WONDER")
        await alice.until("LOGON OK")
        noisy.type(*["HELLO"] * 200)
        lines = await noisy.rest()
        alice.type(*["DISPLAY G1"] * 100, "LOGOFF")
        return lines, (await alice.rest()).count("GPR 1 = 00000000")

    site.online()
    lines, count = run(tried())
    check("a noisy stranger is closed", lines[-1] == "THAT IS NO LOGON", *lines[-3:])
    check("and somebody who is on is not", count == 100, f"{count}")
    check("it is suspended", site.stop() == 0)


# people of one address who log on at once, and one at whom somebody guesses
CROWD = 31
# a guess at the first
GUESS = "LOGON U00 GUESS"


def try_crowd(check: Callable, town: Town) -> None:
    """While somebody guesses at a name again and again, thirty people of his address log on at once."""

    async def guess() -> None:
        while True:
            one = await person(town.where)
            one.type(*[GUESS] * 3)
            await one.rest()

    async def took(user: str) -> float:
        begun = time.monotonic()
        one = await town.on(user)
        seconds = time.monotonic() - begun
        one.go()
        return seconds

    async def tried() -> list[float]:
        guessers = [asyncio.create_task(guess()) for _ in range(4)]
        # until they wait for each other
        await asyncio.sleep(2)
        found = await asyncio.gather(*map(took, town.users[1:]))
        for guesser in guessers:
            guesser.cancel()
        return sorted(found)

    town.online()
    found = run(tried())
    middle = found[len(found) // 2]
    findings = f"median {middle:.2f} s, at most {found[-1]:.2f} s"
    show_figures(f"{len(found)} people log on at once", findings)
    check("a crowd logs on while somebody guesses", middle < 10 * bound_of_line(), findings)
    check("it is suspended", town.stop() == 0, *town.findings)
    told = "wrong passwords for U00" in town.since_start()
    check("the journal tells of guesses", told, town.since_start()[-1000:])


def make_certificate(folder: str) -> list[str]:
    """The words for a certificate that this host makes for itself, or none if it has no openssl."""
    if not shutil.which("openssl"):
        return []
    words = "openssl req -x509 -newkey ec -pkeyopt ec_paramgen_curve:prime256v1 -nodes -days 2 -subj /CN=localhost"
    paths = [f"{folder}/certificate", f"{folder}/key"]
    made = [*words.split(), "-out", paths[0], "-keyout", paths[1]]
    subprocess.run(made, check=True, capture_output=True)
    return ["--certificate", paths[0], "--key", paths[1]]


def come_silently(port: int, count: int) -> list[socket.socket]:
    """Connections that say nothing."""
    found = []
    for _ in range(count):
        silent = socket.socket()
        silent.setblocking(False)
        silent.connect_ex(("127.0.0.1", port))
        found.append(silent)
    return found


async def encrypted_logon(port: int) -> str:
    """Logs on by TLS; what is answered."""
    context = ssl.SSLContext(ssl.PROTOCOL_TLS_CLIENT)
    context.check_hostname, context.verify_mode = False, ssl.CERT_NONE
    alice = Person(("127.0.0.1", port))
    alice.reader, alice.writer = await asyncio.open_connection("127.0.0.1", port, ssl=context)
    answer = await alice.logon("ALICE", "WONDER")
    alice.go()
    return answer


def timed(words: list[str]) -> tuple[subprocess.CompletedProcess, float]:
    """A command that was run, and how long it took."""
    begun = time.monotonic()
    done = subprocess.run(words, capture_output=True, text=True)
    return done, time.monotonic() - begun


def try_silent(check: Callable, site: object) -> None:
    """Silent connections leave room for the operator and for people, also if few files may be open."""
    soft, hard = resource.getrlimit(resource.RLIMIT_NOFILE)
    resource.setrlimit(resource.RLIMIT_NOFILE, (min(hard, 2 * SILENT), hard))
    port, limited = free_port(), f"{site.folder}/installation"
    write(limited, f'#!/bin/sh\nulimit -n 1024\nexec "{site.command}" "$@"\n')
    os.chmod(limited, 0o755)
    operate = [site.command.replace("/installation", "/operator"), f"{site.folder}/operator"]
    site.command = limited
    site.words[site.words.index("--listen") + 1] = f"127.0.0.1:{port}"
    site.online("--operate", operate[1], *make_certificate(site.folder))
    _, before = timed([*operate, "status"])
    silent = come_silently(port, SILENT)
    time.sleep(0.5)
    status, took = timed([*operate, "status"])
    # a host that is busy with others makes everybody wait
    holds = status.returncode == 0 and took < max(1.0, 4 * before)
    findings = f"{took:.2f} s, and {before:.2f} s before"
    check(f"the operator among {SILENT} who are silent", holds, findings, status.stderr)
    if "--certificate" in site.process.args:
        answer = run(encrypted_logon(port))
        check("somebody logs on", answer == "LOGON OK", answer)
    show_figures(f"{SILENT} are silent, and status takes", findings)
    check("it is suspended", subprocess.run([*operate, "suspend"]).returncode == 0)
    check("it ends well", site.ended() == 0)
    for item in silent:
        item.close()
    findings = site.since_start()
    holds = "closed: too many that say nothing from 127.0.0.1" in findings
    check("the journal has them", holds and "Traceback" not in findings, findings[-2000:])


def try_strangers(check: Callable, command: str, folder: str) -> None:
    """All that is tried in seconds, over stand-ins for the programs."""
    os.makedirs(folder)
    try_noise(check, make_site(command, f"{folder}/noise"))
    try_floods(check, make_site(command, f"{folder}/floods"))
    try_silent(check, make_site(command, f"{folder}/silent"))
    try_crowd(check, Town(f"{folder}/crowd", CROWD, command=command))
