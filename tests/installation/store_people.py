"""People at installations in a store while hosts and servers fail. Called by tests/installation/store_cases.py."""
from __future__ import annotations

from collections.abc import Callable
from typing import Any
import asyncio
import contextlib
import glob
import importlib.util
import os
import random
import re
import shutil
import signal
import socket
import subprocess
import threading
import time
import urllib.request

from tests.lib.files import write
from tests.lib.host import free_port
from tests.lib.images import blank_image
from tests.lib.places import TOP
from tests.lib.sites import Person, Site, run

Check = Callable[..., None]
PEOPLE = 20
# everybody is back so soon after what lets them
SECONDS_BACK = 10
THINKS = 0.3
SITES: list[Site] = []


def kill_all() -> None:
    """Kills what a case has left."""
    for site in SITES:
        if site.process and site.process.poll() is None:
            with contextlib.suppress(Exception):
                site.process.send_signal(signal.SIGCONT)
                site.kill(is_all=True)
    SITES.clear()


class Host(Site):
    """A host of an installation in a store."""

    def __init__(self, place: Any, inner: str, *words: str) -> None:
        folder = f"{place.folder}/{inner}"
        os.makedirs(folder, exist_ok=True)
        super().__init__(f"{place.repository}/bin/installation", folder, "")
        self.socket = f"{folder}/socket"
        self.words = ["--store", place.pair.url(), "--name", place.name, "--work", f"{folder}/work", "--standby",
                      "--listen", self.socket, *words]  # fmt: skip
        self.record, self.paths = f"{folder}/work/recording", []
        SITES.append(self)

    def stands_by(self) -> Host:
        self.start()
        if not self.await_message("stands by for "):
            raise AssertionError("\n".join(self.findings))
        return self


class Typists:
    """People who type a line each now and then, come back if they are cut off, and note what they were shown."""

    def __init__(self, sockets: list, count: int, thinks: float = THINKS) -> None:
        self.sockets = sockets
        self.thinks = thinks
        self.names = [f"P{number:02}" for number in range(1, count + 1)]
        self.shown: dict[str, list[str]] = {name: [] for name in self.names}
        self.waits: list[tuple[float, float]] = []
        self.cuts: list[float] = []
        # when each was shown something last
        self.seen = dict.fromkeys(self.names, 0.0)
        self.is_over = False
        self.thread = threading.Thread(target=lambda: asyncio.run(self.all()), daemon=True)
        self.thread.start()

    async def all(self) -> None:
        await asyncio.gather(*map(self.person, self.names))

    async def person(self, name: str) -> None:
        number = 0
        while not self.is_over:
            for where in self.sockets:
                with contextlib.suppress(OSError, ConnectionError, asyncio.TimeoutError):
                    number = await self.visit(Person(where), name, number)
                if self.is_over:
                    return
            await asyncio.sleep(random.uniform(0.5, 1.5) * min(1, self.thinks / 3))

    async def visit(self, person: Person, name: str, number: int) -> int:
        """Types until the connection ends; the number of the last line."""
        await asyncio.wait_for(person.come(), 2)
        try:
            await asyncio.wait_for(person.logon(name, "SECRET"), 10)
            while not self.is_over:
                number += 1
                text, begun = f"{name}-{number}.", time.monotonic()
                person.type(f"MSG {name} {text}")
                await person.until(f"MSG FROM {name}: {text}")
                self.shown[name].append(text)
                self.waits.append((begun, time.monotonic() - begun))
                self.seen[name] = time.monotonic()
                await asyncio.sleep(random.uniform(0.5, 1.5) * self.thinks)
        except ConnectionError:
            self.cuts.append(time.monotonic())
        finally:
            person.go()
        return number

    def are_back(self, since: float) -> bool:
        """Waits until everybody was shown something that was typed after a moment; whether that came."""
        ends = time.monotonic() + 60
        while not all(seen > since for seen in self.seen.values()):
            if time.monotonic() > ends:
                return False
            time.sleep(0.05)
        return True

    def stop(self) -> None:
        self.is_over = True
        self.thread.join(30)

    def faults(self, recorded: bytes) -> list[str]:
        """What of that which was shown is not in the recording once and in order."""
        found: dict[str, list[str]] = {name: [] for name in self.names}
        for name, text in re.findall(
            r"^LINE (P\d\d) MSG P\d\d (P\d\d-\d+\.)$", recorded.decode(), re.M
        ):
            found[name].append(text)
        faults = []
        for name, shown in self.shown.items():
            lost = set(shown) - set(found[name])
            faults += [f"lost: {text}" for text in sorted(lost)]
            numbers = [int(text[4:-1]) for text in found[name]]
            faults += [f"twice or not in order: {name}"] * (numbers != sorted(set(numbers)))
        return faults


class Scene:
    """Two hosts, people, and what has happened."""

    def __init__(self, check: Check, place: Any, *words: str) -> None:
        self.check, self.place = check, place
        place.create(
            "".join(
                f"USER P{number:02} SECRET 16K\nCONSOLE 009 3215\n"
                for number in range(1, PEOPLE + 1)
            )
        )
        self.engine, self.standby = Host(place, "a", *words), Host(place, "b", *words)
        self.engine.online()
        self.standby.stands_by()
        self.typists = Typists([self.engine.socket, self.standby.socket], PEOPLE)
        self.typists.are_back(0)

    def turn(self) -> None:
        """Has the standby be the engine, and the former engine be started again as a standby."""
        self.engine, self.standby = self.standby, self.engine
        self.standby.stands_by()

    def judge(self, what: str, since: float) -> None:
        """Everybody is back in time after a moment."""
        is_back = self.typists.are_back(since)
        took = max(self.typists.seen.values()) - since
        took = min(took, max(first_after(self.typists, since)))
        self.check(
            f"{what}: everybody is back in time",
            is_back and took < SECONDS_BACK,
            f"{took:.1f} s",
            *self.standby.findings[-5:],
        )
        print(f"    {what}: the last of {PEOPLE} is back after {took:.1f} s", flush=True)


def first_after(typists: Typists, since: float) -> list[float]:
    """After how many seconds each was shown something for the first time since a moment; at most a minute."""
    shown = [begun + took - since for begun, took in typists.waits if begun + took > since]
    return [min(shown, default=60.0), *typists_firsts(typists, since)]


def typists_firsts(typists: Typists, since: float) -> list[float]:
    return [typists.seen[name] - since for name in typists.names if typists.seen[name] > since]


# --- hosts ---


def try_hosts(check: Check, place: Any) -> None:
    """Engines are killed, or stopped and continued, while people type."""
    scene = Scene(check, place)
    odd = Host(place, "c", "--frames", "99").start()
    is_refused = odd.ended() == 1 and "other numbers of --frames" in odd.since_start()
    epoch = place.ask("SELECT epoch FROM installation WHERE name = %s", place.name)
    check(
        "a standby of other sizes is refused, and takes nothing",
        is_refused and epoch == [(1,)],
        epoch,
        *odd.findings,
    )
    since = time.monotonic()
    scene.engine.kill(is_all=True)
    scene.judge("an engine that is killed", since)
    scene.turn()
    scene.typists.are_back(time.monotonic())
    stale, since = scene.engine, time.monotonic()
    stale.process.send_signal(signal.SIGSTOP)
    taken = scene.standby.await_message("online at")
    # whoever is at a host that hangs sees that only by the time that it takes
    check(
        "an engine that is stopped is taken as dead",
        taken and time.monotonic() - since < SECONDS_BACK,
        *scene.standby.findings,
    )
    size = os.path.getsize(stale.record)
    since = time.monotonic()
    stale.process.send_signal(signal.SIGCONT)
    ended = stale.ended()
    check(
        "a stale engine ends by itself",
        ended == 3 and "another host goes on" in stale.since_start(),
        ended,
        *stale.findings,
    )
    scene.judge("an engine that was stopped and wakes", since)
    assert size
    scene.turn()
    scene.typists.are_back(time.monotonic())
    scene.engine.stop()
    since = time.monotonic()
    scene.judge("an engine that is suspended", since)
    scene.typists.stop()
    faults = scene.typists.faults(place.recorded())
    count = sum(map(len, scene.typists.shown.values()))
    check(
        f"hosts fail: nothing of {count} shown lines is lost, nothing twice",
        count > 100 and not faults,
        *faults[:9],
    )
    print(
        f"    {count} lines were shown, {len(scene.typists.cuts)} times somebody was cut off",
        flush=True,
    )
    kill_all()


# --- servers ---


def try_servers(check: Check, place: Any) -> None:
    """Primaries die or hang, and copies are promoted, while people type: nobody is cut off."""
    scene = Scene(check, place)
    pair = place.pair
    for what, fail in (
        ("a primary that dies", lambda: pair.primary.kill()),
        ("a primary that hangs", lambda: pair.primary.signal_all(signal.SIGSTOP)),
    ):
        cuts = len(scene.typists.cuts)
        fail()
        time.sleep(2)
        pair.copy.promote()
        since = time.monotonic()
        scene.judge(what, since)
        check(
            f"{what}: nobody is cut off",
            len(scene.typists.cuts) == cuts,
            *scene.engine.findings[-5:],
        )
        pair.primary, pair.copy = pair.copy, pair.primary
        if what.endswith("hangs"):
            pair.copy.signal_all(signal.SIGCONT)
            time.sleep(1)
            scene.typists.are_back(time.monotonic())
        else:
            pair.copy.make_again(pair.primary)
            pair.wait_for_copy()
            scene.typists.are_back(time.monotonic())
    scene.typists.stop()
    faults = scene.typists.faults(place.recorded())
    count = sum(map(len, scene.typists.shown.values()))
    check(
        f"servers fail: nothing of {count} shown lines is lost, nothing twice",
        count > 100 and not faults,
        *faults[:9],
    )
    check(
        "a standby stands by still", scene.standby.process.poll() is None, *scene.standby.findings
    )
    kill_all()


# --- ends ---

# what keeps an end from going further, and what the recording has then
LOCKS = {
    "before it is noted": ("LOCK TABLE part IN EXCLUSIVE MODE", b""),
    "before its images are kept": ("LOCK TABLE file IN EXCLUSIVE MODE", b"\n* END KEEPING"),
    "before the next session is there": ("LOCK TABLE installation IN SHARE MODE", b"\n* KEPT "),
}
WAITING = "SELECT count(*) FROM pg_stat_activity WHERE wait_event_type = 'Lock' AND application_name LIKE 'gathjumli %%'"


def try_ends(check: Check, place: Any) -> None:
    """A host is killed in each step of an end: the next one finishes it, and no line is lost."""
    import psycopg

    write(
        f"{place.folder}/users",
        "USER ALICE WONDER 64K\nCONSOLE 009 3215\nMDISK 191 3330 0 1 V1 W\n",
    )
    write(f"{place.folder}/volume", blank_image("V1", 1))
    place.store("create", place.name, f"{place.folder}/users", f"{place.folder}/volume")
    hosts = [Host(place, inner, "--state-every", "0") for inner in "ab"]
    hosts[0].online()
    write(f"{hosts[0].folder}/work/recording.rules", "quota 7\n")
    for line in ("logmsg WELCOME TO ALL", "reload", "logmsg"):
        hosts[0].operate(line)
    ended = 0
    for number, (what, (lock, noted)) in enumerate([*LOCKS.items(), ("after it", ("", b""))]):
        engine, standby = hosts
        standby.stands_by()
        run(stored(engine.socket, number + 1))
        with psycopg.connect(place.pair.primary.url()) as server:
            server.execute(lock or "SELECT 1")
            engine.operate("end now")
            if lock:
                holds = wait_for(lambda: noted in place.recorded() and place.ask(WAITING) != [(0,)])
            else:
                holds = wait_for(lambda: session_of(place) == ended + 2)
            check(f"an end is under way, {what}", holds, *engine.findings)
            engine.kill(is_all=True)
        online = standby.await_message("online at")
        ended += number > 0
        check(
            f"a kill {what} of an end: the next host goes on",
            online and session_of(place) == ended + 1,
            session_of(place),
            *standby.findings,
        )
        value = run(shown(standby.socket))
        check(
            f"a kill {what} of an end: the machines are there",
            value == f"GPR 1 = {number + 1:08X}",
            value,
        )
        hosts.reverse()
    hosts[0].operate("logmsg")
    holds = hosts[0].await_message("WELCOME TO ALL")
    check("a log message goes along", holds, *hosts[0].findings[-2:])
    with open(f"{hosts[0].folder}/work/recording.rules") as file:
        check("and rules that were read again", file.read() == "quota 7\n")
    hosts[0].stop()
    place.store("fetch", place.name, f"{place.folder}/fetched")
    kept = sorted(
        os.path.basename(path) for path in glob.glob(f"{place.folder}/fetched/recording.*-*/*")
    )
    wanted = sorted(ended * ["begin", "directory", "end", "recording", "volume-1"])[1:]
    check("each ended session is in the store", kept == wanted, *kept)
    store = place.begun("later")
    for remove in store.ended(time.time() - 3600):
        remove()
    counts = "SELECT (SELECT count(*) FROM file WHERE installation = %s), (SELECT count(DISTINCT session) FROM part WHERE installation = %s)"
    before = place.ask(counts, place.name, place.name)
    for remove in store.ended(time.time() + 3600):
        remove()
    after = place.ask(counts, place.name, place.name)
    check(
        "ended sessions go when they are old",
        before[0][1] == ended + 1 and after[0][1] == 1 and after[0][0] < 9,
        before,
        after,
    )
    store.leave()
    store.close()
    kill_all()


async def stored(where: str, value: int) -> None:
    person = await Person(where).come()
    await person.logon("ALICE", "WONDER")
    person.type(f"#CP STORE G1 {value:08X}", "#CP DISPLAY G1")
    await person.until(f"GPR 1 = {value:08X}")
    person.go()


async def shown(where: str) -> str:
    person = await Person(where).come()
    await person.logon("ALICE", "WONDER")
    # what was shown before is shown again: a number that is new shows where that ends
    new = f"{time.time_ns() // 1000000 % (1 << 32):08X}"
    person.type(f"#CP STORE G2 {new}", "#CP DISPLAY G1", "#CP DISPLAY G2")
    await person.until(f"GPR 2 = {new}")
    person.go()
    return [line for line in person.lines if line.startswith("GPR 1")][-1]


def session_of(place: Any) -> int:
    return place.ask("SELECT session FROM installation WHERE name = %s", place.name)[0][0]


def wait_for(holds: Callable[[], object], seconds: float = 20) -> bool:
    ends = time.monotonic() + seconds
    while not holds():
        if time.monotonic() > ends:
            return False
        time.sleep(0.02)
    return True


# --- following ---

SLOW = "0.004"
LINES = 2600


def try_following(check: Check, place: Any) -> None:
    """What took long to compute is done by a standby already: it takes over within seconds, where a start needs much longer."""
    place.create("USER ALICE WONDER 64K\nCONSOLE 009 3215\n")
    engine = Host(place, "a", "--state-every", "0").online()
    run(stored(engine.socket, 1))
    engine.stop()
    lengthen(place)
    os.environ["PEOPLE_SLOW"] = SLOW
    try:
        hosts = [Host(place, inner, "--state-every", "0") for inner in "ab"]
        begun = time.monotonic()
        hosts[0].online()
        took = time.monotonic() - begun
        hosts[1].stands_by()
        since = time.monotonic()
        hosts[0].kill(is_all=True)
        online = hosts[1].await_message("online at")
        took_over = time.monotonic() - since
    finally:
        os.environ["PEOPLE_SLOW"] = "0"
    findings = f"a start takes {took:.1f} s, and taking over took {took_over:.1f} s"
    check(
        "a standby has done what is long",
        online and took > 10 > took_over,
        findings,
        *hosts[1].findings,
    )
    value = run(shown(hosts[1].socket))
    check("and its machines are as they were", value == f"GPR 1 = {LINES:08X}", value)
    print(f"    {findings}", flush=True)
    kill_all()


def lengthen(place: Any) -> None:
    """Has the recording have much more that was done."""
    from gathjumli.recording import Recording

    store = place.begun("long")
    recording = Recording.__new__(Recording)
    store.close()
    Recording.__init__(recording, store)
    for first in range(1, LINES + 1, 100):
        lines = (f"LINE ALICE #CP STORE G1 {number:08X}\n" for number in range(first, first + 100))
        recording.add("".join(lines).encode())
    recording.settle()
    recording.close()
    store.leave()
    store.lock_file.close()


# --- files ---


def files_site(command: str, folder: str) -> Site:
    """An installation of files with ended sessions, states, printouts, a log message and the time of an end."""
    write(
        f"{folder}/users",
        "USER ALICE WONDER 64K\nCONSOLE 009 3215\nSPOOL 00E PRINTER\nMDISK 191 3330 0 1 V1 W\n",
    )
    write(f"{folder}/volume", blank_image("V1", 1))
    site = Site(command, folder, f"{folder}/users", "--printouts", f"{folder}/prints")
    site.record = f"{folder}/today"
    site.words[1] = site.record
    site.paths.append(f"{folder}/volume")
    SITES.append(site)
    for value in (1, 2):
        site.online()
        run(typed(site, value))
        site.operate("end now")
        site.ended()
    site.online()
    run(typed(site, 3))
    for line in ("logmsg WELCOME", "end at 23:59"):
        site.operate(line)
    site.await_message("the session ends at")
    site.stop()
    write(f"{site.record}.rules", "keep 30 days\n")
    return site


async def typed(site: Site, value: int) -> None:
    person = await Person(f"{site.folder}/socket").come()
    await person.logon("ALICE", "WONDER")
    person.type(f"#CP STORE G1 {value:08X}", f"#CP PRINT PAGE {value}", "#CP DISPLAY G1")
    await person.until(f"GPR 1 = {value:08X}")
    person.go()


def made_files(folder: str) -> dict[str, str]:
    """The files of that installation, by the names that a store gives them."""
    found = {
        "directory": f"{folder}/users",
        "volume-1": f"{folder}/volume",
        "recording": f"{folder}/today",
    }
    for path in glob.glob(f"{folder}/today.*") + glob.glob(f"{folder}/today.*/*"):
        if os.path.isfile(path):
            found[f"recording.{os.path.relpath(path, folder).removeprefix('today.')}"] = path
    for path in glob.glob(f"{folder}/prints/*/*"):
        found[f"printouts/{os.path.relpath(path, f'{folder}/prints')}"] = path
    return found


# --- one address ---


def haproxy_words(folder: str, place: dict[str, str]) -> str:
    """The configuration of docs/HOSTS.md, with other addresses."""
    block = haproxy_block()
    for old, new in place.items():
        if block.count(old) != 1:
            raise AssertionError(f"{old} is not there once")
        block = block.replace(old, new)
    path = f"{folder}/haproxy.cfg"
    write(path, block)
    return path


def haproxy_block() -> str:
    """The configuration that docs/HOSTS.md shows."""
    with open(f"{TOP}/docs/HOSTS.md") as file:
        block = re.search(r"^    defaults\n(?:    .*\n|\n)+", file.read(), re.M)[0]
    return "\n".join(line[4:] for line in block.split("\n"))


def try_haproxy(check: Check, place: Any) -> None:
    """HAProxy, as docs/HOSTS.md has it, leads people to the engine, and says from where they come."""
    if not (program := shutil.which("haproxy") or shutil.which("haproxy", path="/usr/sbin")):
        print("skipped: haproxy is not installed", flush=True)
        return
    ports = [free_port() for _ in range(6)]
    has_pages = importlib.util.find_spec("websockets") is not None
    names = {"bind :3215": f"bind 127.0.0.1:{ports[0]}", "10.0.0.1:3215": f"127.0.0.1:{ports[1]}", "10.0.0.2:3215": f"127.0.0.1:{ports[2]}",
             "bind :8370": f"bind 127.0.0.1:{ports[3]}", "10.0.0.1:8370": f"127.0.0.1:{ports[4]}", "10.0.0.2:8370": f"127.0.0.1:{ports[5]}"}  # fmt: skip
    place.create(
        "".join(f"USER P{number:02} SECRET 16K\nCONSOLE 009 3215\n" for number in range(1, 7))
    )
    hosts = []
    for number, inner in enumerate("ab", 1):
        pages = ["--web", f"127.0.0.1:{ports[3 + number]}"] if has_pages else []
        host = Host(place, inner, "--proxy-from", "127.0.0.1", *pages)
        host.words[host.words.index("--listen") + 1] = f"127.0.0.1:{ports[number]}"
        hosts.append(host)
    hosts[0].online()
    hosts[1].stands_by()
    door = subprocess.Popen(
        [program, "-f", haproxy_words(place.folder, names)], stderr=subprocess.DEVNULL
    )
    try:
        typists = Typists([("127.0.0.1", ports[0])], 5)
        check("people come by one address", typists.are_back(time.monotonic()))
        with socket.create_connection(("127.0.0.1", ports[0]), 5, ("127.0.0.7", 0)) as one:
            one.sendall(b"LOGON P06 SECRET\r\n")
            holds = hosts[0].await_message("P06 logs on from 127.0.0.7")
        check("the journal has their own addresses", holds, *hosts[0].findings[-3:])
        if has_pages:
            with urllib.request.urlopen(f"http://127.0.0.1:{ports[3]}/", timeout=10) as found:
                check("pages come by it too", found.status == 200)
        for what, fail in (
            ("killed", lambda host: host.kill(is_all=True)),
            ("stopped", lambda host: host.process.send_signal(signal.SIGSTOP)),
        ):
            since = time.monotonic()
            fail(hosts[0])
            is_back = typists.are_back(since + 1)
            took = max(typists_firsts(typists, since + 1), default=60.0) + 1
            check(
                f"by one address all are back if the engine is {what}",
                is_back and took < SECONDS_BACK + 1,
                f"{took:.1f} s",
            )
            hosts[0].process.send_signal(signal.SIGCONT)
            hosts.reverse()
            if what == "killed":
                hosts[1].stands_by()
        typists.stop()
        faults = typists.faults(place.recorded())
        check("behind HAProxy nothing is lost, nothing twice", not faults, *faults[:9])
    finally:
        door.kill()
        door.wait()
    kill_all()


OF_HOSTS = [try_hosts, try_ends]
OF_SERVERS = [try_following, try_haproxy, try_servers]
