"""Programs that hang, and what the service manager is told of an installation. Called by tests/commands/people.py."""
from __future__ import annotations

from collections.abc import Callable, Iterator
import contextlib
import os
import re
import signal
import socket
import subprocess
import sys
import time

from tests.lib.files import read, write
from tests.lib.places import TOP
from tests.lib.sites import Site, make_site, on, run

# a program that does not answer is killed in these tests after so many times as many seconds as a stand-in takes to begin, within bounds
TIMES_TO_BEGIN, LEAST, MOST = 20, 5, 30
# by how much a look of the watchdog may be late
LATE = 2
# seconds after which the manager of these tests wants a sign of life
WATCHDOG = 4
# how long a test waits for what has to come
PATIENCE = 90


def seconds_to_hang() -> int:
    """After how many seconds a program hangs: on a busy host one that works may take long to answer too."""
    begun = time.monotonic()
    subprocess.run([sys.executable, "-Bc", "import asyncio, json"], check=True)
    took = time.monotonic() - begun
    return round(max(LEAST, min(TIMES_TO_BEGIN * took, MOST)))


def patience(hung: int) -> float:
    """How long what follows a hang may take: the watchdog counts no time in which the host keeps it from looking."""
    return PATIENCE + 4 * hung


def is_told_of(site: Site, who: str, hung: int) -> bool:
    """Whether the operator is told that this one hung for so long, and is killed."""
    text = rf"{who} gives no answer for (\d+) seconds: it is killed"
    found = re.search(text, site.since_start())
    return bool(found) and hung <= int(found[1]) <= hung + LATE


@contextlib.contextmanager
def manager(folder: str) -> Iterator[socket.socket]:
    """A service manager, who is in the environment."""
    with socket.socket(socket.AF_UNIX, socket.SOCK_DGRAM) as found:
        found.bind(f"{folder}/notify")
        found.settimeout(0.1)
        environment = {
            "NOTIFY_SOCKET": f"{folder}/notify",
            "WATCHDOG_USEC": str(WATCHDOG * 1000000),
        }
        os.environ.update(environment)
        try:
            yield found
        finally:
            for name in environment:
                del os.environ[name]


def told(found: socket.socket, wanted: str, seconds: float = PATIENCE) -> list[str]:
    """What a manager is told until that is the wanted text, or for so long."""
    until, texts = time.monotonic() + seconds, []
    while time.monotonic() < until and texts[-1:] != [wanted]:
        with contextlib.suppress(TimeoutError):
            texts.append(found.recv(1000).decode())
    return texts


def child_of(site: Site, name: str) -> int:
    words = ["pgrep", "-P", str(site.process.pid), "-f", name]
    return int(subprocess.run(words, capture_output=True, text=True).stdout.split()[0])


def try_hung_program(check: Callable, site: Site, hung: int) -> None:
    """A program that is stopped is killed and started again, under the same connections, and nothing that was shown is lost."""

    async def tried() -> tuple[list[str], float]:
        alice = await on(site)
        alice.patience = patience(hung)
        alice.type("STORE G1 00000005", "DISPLAY G1")
        await alice.until("GPR 1 = 00000005")
        os.kill(site.program(), signal.SIGSTOP)
        begun = time.monotonic()
        alice.type("DISPLAY G1")
        await alice.until("GPR 1 = 00000005")
        took = time.monotonic() - begun
        alice.type("LOGOFF")
        return await alice.rest(), took

    site.online("--hung-after", str(hung))
    lines, took = run(tried())
    check("a line is answered after the program hung", lines[-1] == "LOGOFF OK", *lines)
    check("not at once, and soon", hung - 1 <= took < patience(hung), f"{took:.1f} s")
    goes_on = site.await_message("the program goes on")
    check("the operator is told", goes_on and is_told_of(site, "the program", hung), *site.findings)
    check("it is suspended", site.stop() == 0, *site.findings)


def try_slow_program(check: Callable, site: Site, hung: int) -> None:
    """A replay that takes longer than a program may hang is none that hangs."""

    async def lines() -> None:
        alice = await on(site)
        for count in range(60):
            alice.type(f"STORE G1 {count:08X}")
            await alice.until("STORED")
        alice.go()

    words = ["--hung-after", str(hung), "--state-every", "0"]
    site.online(*words)
    run(lines())
    site.kill(is_all=True)
    os.environ["PEOPLE_SLOW"] = str(1.5 * hung / 60)
    site.online(*words)
    del os.environ["PEOPLE_SLOW"]
    check("a long replay is left alone", "it is killed" not in "".join(site.findings))
    check("it is suspended", site.stop() == 0, *site.findings)


def try_hung_desk(check: Callable, site: Site, hung: int) -> None:
    """A desk that hangs is killed, which ends the command, with its reason."""
    site.online("--hung-after", str(hung))
    os.kill(child_of(site, "logondesk"), signal.SIGSTOP)
    with socket.socket(socket.AF_UNIX) as stranger:
        stranger.connect(f"{site.folder}/socket")
        status = site.ended(patience(hung))
    is_told = is_told_of(site, "the logon desk", hung)
    check("a desk that hangs ends the command", status == 3 and is_told, status, *site.findings)


def try_manager(check: Callable, site: Site) -> None:
    """The manager hears when people may log on, that the program answers, that files are read again, and when the installation stops."""
    with manager(site.folder) as found:
        site.online("--hung-after", "0", "--operate", f"{site.folder}/operator")
        texts = told(found, "READY=1")
        check("it is ready once it is online", texts[-1:] == ["READY=1"], *texts)
        site.process.send_signal(signal.SIGHUP)
        texts = [text for text in told(found, "READY=1") if text != "WATCHDOG=1"]
        holds = len(texts) == 2 and re.fullmatch(r"RELOADING=1\nMONOTONIC_USEC=\d+", texts[0])
        check("it says that it reads files again, and when it is ready", holds, *texts)
        check("it lives", told(found, "WATCHDOG=1")[-1:] == ["WATCHDOG=1"])
        with open(f"/proc/{site.program()}/environ") as file:
            check("no other process is to tell it", "NOTIFY_SOCKET" not in file.read())
        program = site.program()

        async def hangs() -> tuple[list[str], list[str]]:
            alice = await on(site)
            os.kill(program, signal.SIGSTOP)
            alice.type("DISPLAY G1")
            told(found, "nothing", WATCHDOG / 2 + 2)
            silent = told(found, "WATCHDOG=1", WATCHDOG)
            os.kill(program, signal.SIGCONT)
            await alice.until("GPR 1 = 00000000")
            alice.go()
            return silent, told(found, "WATCHDOG=1")

        silent, again = run(hangs())
        check("it is silent while the program hangs", silent == [], *silent)
        check("and lives again", again[-1:] == ["WATCHDOG=1"], *again)
        site.process.send_signal(signal.SIGTERM)
        texts = told(found, "STOPPING=1")
        check("it says that it stops", texts[-1:] == ["STOPPING=1"], *texts)
        check("it is suspended", site.ended() == 0, *site.findings)
        wanted = "the installation is suspended by a SIGTERM"
        check("and says by what", wanted in site.since_start(), site.since_start())


def try_readable_key(check: Callable, site: Site) -> None:
    """A key that others may read is told."""
    from gathjumli.reloading import warn_of_readers

    said: list[str] = []
    path = f"{site.folder}/key"
    write(path, "KEY\n")
    for mode in (0o600, 0o640, 0o604):
        os.chmod(path, mode)
        warn_of_readers(path, "the key", said.append)
    wanted = f"{path} has the key, and others may read it: chmod 600 {path}"
    check("a key that others may read", said == [wanted] * 2, *said)


def try_unit(check: Callable) -> None:
    """The unit asks for what the command tells."""
    lines = read(f"{TOP}/docs/installation.service").decode().splitlines()
    wanted = {"Type=notify", "TimeoutStartSec=infinity", "WatchdogSec=180", "LimitNOFILE=8192"}
    check("the unit is notified", wanted <= set(lines), *lines)


def try_watchdog(check: Callable, command: str, folder: str) -> None:
    """All that is tried in seconds, over stand-ins for the programs."""
    os.makedirs(folder)
    try_unit(check)
    try_readable_key(check, make_site(command, f"{folder}/key"))
    hung = seconds_to_hang()
    try_hung_program(check, make_site(command, f"{folder}/program"), hung)
    try_slow_program(check, make_site(command, f"{folder}/slow"), hung)
    try_hung_desk(check, make_site(command, f"{folder}/desk"), hung)
    try_manager(check, make_site(command, f"{folder}/manager"))
