#!/usr/bin/python3
"""Tries the pages of an installation in a browser, with many of them, and with hostile ones; what needs no browser
tests/commands/people.py has. tests/installation/web.py [--seconds N] [--pictures FOLDER] [PART]...; the parts are afternoon, encrypted,
many and hostile. It needs Debian's chromium, chromium-driver, python3-selenium and python3-websockets. With GATHJUMLI_UNPROVED=1 it tries
the program without proof. Prints figures (docs/BENCHMARK.md), and last 'N passed, M failed'."""
from __future__ import annotations

from typing import TYPE_CHECKING
import asyncio
import base64
import contextlib
import json
import os
import random
import select
import shutil
import socket
import ssl
import subprocess
import sys
import tempfile
import threading
import time

sys.dont_write_bytecode = True
TOP = os.path.dirname(os.path.dirname(os.path.dirname(os.path.realpath(__file__))))
sys.path[:0] = [TOP, f"{TOP}/bin/lib"]

import websockets.legacy.client
from selenium import webdriver
from selenium.common.exceptions import WebDriverException
from selenium.webdriver.chrome.service import Service
from selenium.webdriver.common.by import By
from selenium.webdriver.common.keys import Keys
from selenium.webdriver.support.ui import WebDriverWait
from websockets.exceptions import ConnectionClosed, InvalidStatusCode, WebSocketException

from gathjumli.cli import ask_build, last, number, read_arguments
from tests.lib.counting import Counts
from tests.lib.figures import hundredths, notify
from tests.lib.files import read, write
from tests.lib.host import ADDRESS, free_port, memory_of
from tests.lib.parts import do_parts, parts_of
from tests.lib.sites import DEVICES, Site, person, replayed

if TYPE_CHECKING:
    from tests.lib.desk import Account

LISTING = f"{TOP}/examples/machines/card-listing/BARE.asm"
NAMES = [
    "AMDAHL, GENE           360",
    "BROOKS, FRED        000075",
    "HOLBERTON, BETTY        42",
    "CODD, EDGAR F.          12",
]
# what the desk shows, and the machine does not
OF_THE_DESK = "GATHJUMLI ", "ENTER PASSWORD:", "OPERATOR: ", "LOGON REFUSED", "YOU ARE LOGGED OFF"
# drops a file at the card reader, as a hand would
DROP = """
const [name, data] = arguments, bytes = Uint8Array.from(atob(data), (character) => character.charCodeAt(0)), dropped = new DataTransfer();
dropped.items.add(new File([bytes], name));
document.getElementById("hopper").dispatchEvent(new DragEvent("drop", { dataTransfer: dropped, bubbles: true, cancelable: true }));
"""
UNLABELLED = """
return [...document.querySelectorAll("input, button, [role], section")].filter((found) => !found.labels?.length && !found.textContent.trim()
  && !found.getAttribute("aria-label") && !found.closest("[hidden]") && found.getAttribute("role") !== "status").map((found) => found.outerHTML);
"""
totals = Counts()
check = totals.check


class Place(Site):
    """An installation with pages."""

    def __init__(self, folder: str, directory: str, *words: object) -> None:
        os.makedirs(folder)
        write(f"{folder}/directory", directory.encode())
        os.chmod(f"{folder}/directory", 0o600)
        self.telnet, self.web = (ADDRESS, free_port()), free_port()
        super().__init__(
            f"{TOP}/bin/installation",
            folder,
            f"{folder}/directory",
            "--web",
            f"{ADDRESS}:{self.web}",
            *words,
        )
        self.words[3] = f"{ADDRESS}:{self.telnet[1]}"

    def online(self) -> object:
        super().online()
        check("the pages are there", self.await_message("pages are at"), *self.findings)
        return self

    def token(self) -> str:
        with open(f"{self.record}.web-token") as file:
            return file.read().strip()


class Wire:
    """A line between a browser and the installation that can be cut."""

    def __init__(self, port: object) -> None:
        self.port = port
        self.is_cut = False
        self.ends = []
        self.listener = socket.create_server((ADDRESS, 0))
        self.where = self.listener.getsockname()[1]
        threading.Thread(target=self.accept, daemon=True).start()

    def accept(self) -> None:
        while True:
            one, _ = self.listener.accept()
            if self.is_cut:
                one.close()
                continue
            other = socket.create_connection((ADDRESS, self.port))
            self.ends += [one, other]
            threading.Thread(target=self.carry, args=(one, other), daemon=True).start()

    def carry(self, one: object, other: object) -> None:
        with contextlib.suppress(OSError, ValueError):
            while True:
                for source, target in ((one, other), (other, one)):
                    if source in select.select([one, other], [], [], 0.2)[0]:
                        data = source.recv(65536)
                        if not data:
                            raise OSError
                        target.sendall(data)
        for end in (one, other):
            end.close()

    def cut(self) -> None:
        self.is_cut = True
        for end in self.ends:
            with contextlib.suppress(OSError):
                end.shutdown(socket.SHUT_RDWR)
        self.ends = []

    def mend(self) -> None:
        self.is_cut = False


class Window:
    """A browser with one page."""

    def __init__(self, port: object, pictures: object, path: str = "/") -> None:
        options = webdriver.ChromeOptions()
        for word in (
            "--headless=new",
            "--no-sandbox",
            "--disable-dev-shm-usage",
            "--window-size=1280,1000",
        ):
            options.add_argument(word)
        options.set_capability("goog:loggingPrefs", {"browser": "ALL"})
        self.downloads = tempfile.mkdtemp()
        options.add_experimental_option("prefs", {"download.default_directory": self.downloads})
        self.browser = webdriver.Chrome(service=Service("/usr/bin/chromedriver"), options=options)
        self.pictures = pictures
        self.browser.get(f"http://{ADDRESS}:{port}{path}")

    def find(self, name: str) -> object:
        return self.browser.find_element(By.ID, name)

    def await_(self, what: str, holds: object, seconds: int = 20) -> bool:
        try:
            WebDriverWait(self.browser, seconds, 0.1).until(lambda _: holds())
            return True
        except WebDriverException:
            check(what, False, *self.lines()[-5:])
            return False

    def log_on(self, name: str, password: str) -> None:
        self.find("name").clear()
        self.find("name").send_keys(name)
        self.find("password").send_keys(f"{password}\n")

    def type(self, *lines: object) -> None:
        for line in lines:
            self.find("line").send_keys(f"{line}\n")

    def lines(self, style: str = "came") -> object:
        script = f"return [...document.querySelectorAll('.row.{style} .text')].map((row) => row.textContent)"
        return self.browser.execute_script(script)

    def until(self, text: str) -> object:
        return self.await_(
            f"the page shows {text}", lambda: any(text in line for line in self.lines())
        )

    def by_tab(self, times: object) -> object:
        """What the tabulator key leads to."""
        found = set()
        script = (
            "const active = document.activeElement; return active.id || active.dataset.key || ''"
        )
        for _ in range(times):
            webdriver.ActionChains(self.browser).send_keys(Keys.TAB).perform()
            found.add(self.browser.execute_script(script))
        return found

    def drop(self, name: str, data: bytes) -> None:
        self.browser.execute_script(DROP, name, base64.b64encode(data).decode())

    def press(self, selector: object) -> None:
        self.browser.execute_script("document.querySelector(arguments[0]).click()", selector)

    def wide(self, pixels: object, high: int = 1000) -> None:
        words = {"width": pixels, "height": high, "deviceScaleFactor": 1, "mobile": pixels < 500}
        self.browser.execute_cdp_cmd("Emulation.setDeviceMetricsOverride", words)

    def picture(self, name: str, pixels: int = 1280, high: int = 1400) -> None:
        self.wide(pixels, high)
        time.sleep(0.3)
        fits = self.browser.execute_script("return document.scrollingElement.scrollWidth") <= pixels
        check(f"the page {name} is as wide as its window", fits)
        if self.pictures:
            self.browser.save_screenshot(f"{self.pictures}/{name}.png")

    def close(self) -> None:
        wrong = [
            entry["message"]
            for entry in self.browser.get_log("browser")
            if "WebSocket connection" not in entry["message"]
        ]
        check("the browser complains of nothing", not wrong, *wrong)
        self.browser.quit()
        shutil.rmtree(self.downloads)


def listing_deck() -> object:
    """The deck that lists cards, and the cards."""
    done = subprocess.run([f"{TOP}/bin/asm370", "--deck", LISTING], capture_output=True, check=True)
    return done.stdout + b"".join(name.ljust(80).encode("cp037") for name in NAMES)


def part_afternoon(folder: str, options: object) -> None:
    """Two users and an operator, an afternoon long."""
    directory = "".join(
        f"USER {user}\n{DEVICES}" for user in ("ALICE WONDER 64K", "BOB BUILDER 64K")
    )
    directory = directory.replace("USER BOB", "MDISK 191 3330 0 10 WORK01 W\nUSER BOB")
    directory += "USER OPER SECRET 16K\nCONSOLE 009 3215\nUSER CARDS SECRET 16K\nCONSOLE 009 3215\nSPOOL 00D PUNCH\n"
    prints = f"{folder}/afternoon/prints"
    place = Place(
        f"{folder}/afternoon",
        directory,
        "--printouts",
        prints,
        "--sender",
        "CARDS",
        "--operator",
        "OPER",
    )
    tracks = "".join(f"REC {track // 19} {track % 19} {track // 19:04X}{track % 19:04X}{record:02X} - {'C1' * 60 * (track + 1)}\n"
                     for track in range(40) for record in (1, 2))  # fmt: skip
    write(f"{folder}/text", f"VOLUME WORK01 10\n{tracks}".encode())
    subprocess.run(
        [f"{TOP}/bin/mkvol", f"{folder}/afternoon/work.image", f"{folder}/text"], check=True
    )
    place.paths.append(f"{folder}/afternoon/work.image")
    place.online()
    wire = Wire(place.web)
    alice, bob = Window(wire.where, options["pictures"]), Window(place.web, options["pictures"])
    operator = Window(place.web, options["pictures"], f"/operator#{place.token()}")
    windows = (alice, bob, operator)
    try:
        seen = live_afternoon(place, wire, *windows)
    finally:
        for window in windows:
            window.close()
    check("it has ended", place.ended() == 0, *place.findings)
    aside = next(
        f"{place.folder}/{name}"
        for name in os.listdir(place.folder)
        if name.startswith("recording.2")
    )
    done, shown = replayed(program(), place.paths[0], f"{aside}/recording", [f"{aside}/volume-1"])
    check("the recording replays", done.returncode == 0, done.stderr)
    for user, lines in seen.items():
        lines = [line for line in lines if not line.startswith(OF_THE_DESK)]
        check(
            f"{user} saw what the replay shows",
            lines == shown[user],
            *lines[-5:],
            "and not",
            *shown[user][-5:],
        )
        notify(f"afternoon: {user} saw {len(lines)} lines, as the replay shows them")


def live_afternoon(
    place: Place, wire: object, alice: object, bob: object, operator: object
) -> dict:
    alice.picture("logon")
    alice.wide(1280)
    alice.log_on("alice", "WRONG")
    alice.until("LOGON REFUSED")
    alice.log_on("alice", "wonder")
    bob.log_on("bob", "builder")
    alice.until("LOGON OK")
    bob.until("LOGON OK")
    check(
        "a page has labels",
        not alice.browser.execute_script(UNLABELLED),
        *alice.browser.execute_script(UNLABELLED),
    )
    reached = alice.by_tab(40)
    missing = {
        "leave",
        "paper",
        "line",
        "attention",
        "external",
        "stop",
        "begin",
        "look",
        "deck",
        "waiting",
        "again",
        "show-disks",
    } - reached
    check("the keyboard reaches everything", not missing, *missing)
    alice.drop("listing.deck", listing_deck())
    alice.await_("the deck is read in", lambda: "listing.deck: read in" in alice.find("decks").text)
    alice.type("ipl 00c")
    alice.until("STOPPED DISABLED WAIT")
    alice.type("display psw", "close 00e")
    alice.until("FILE 0002 CLOSED")
    alice.press("#look")
    alice.until("GPR 15 = ")
    check("the machine's PSW is shown", "00600D" in alice.find("psw").text, alice.find("psw").text)
    alice.press("#show-disks")
    alice.await_(
        "the tracks are shown", lambda: "40 tracks with records" in alice.find("tracks").text
    )
    read_listing(place, alice)
    send_cards(alice, bob)
    drop_the_line(wire, alice, bob)
    operate(place, operator, alice)
    return {"ALICE": alice.lines(), "BOB": bob.lines()}


def read_listing(place: Place, alice: object) -> None:
    def opened() -> object:
        alice.press("#again")
        time.sleep(0.3)
        return alice.browser.execute_script(
            "const found = document.querySelector('#files button:enabled'); found?.click(); return !!found"
        )

    alice.await_("a listing is there", opened)
    alice.await_("the listing is shown", lambda: "HOLBERTON" in alice.find("pages").text)
    text = alice.find("pages").text
    check(
        "and whole", all(name[:20].strip() in text for name in NAMES) and "SUM SO FAR" in text, text
    )
    alice.press("#download")
    path = f"{alice.downloads}/PRT0002-ALICE.txt"
    if alice.await_("the listing is downloaded", lambda: os.path.exists(path)):
        printed = f"{place.folder}/prints/{place.session()}/PRT0002-ALICE.txt"
        check("as it was printed", read(path) == read(printed), read(path))
    alice.picture("user", 1280, 2000)
    alice.picture("user-360", 360, 2600)
    alice.browser.execute_cdp_cmd("Emulation.setEmulatedMedia", {"media": "print"})
    alice.picture("printed", 800, 1000)
    shown = alice.browser.execute_script(
        "return [...document.querySelectorAll('header, #console, .side, #pages')].map((found) => found.offsetHeight > 0)"
    )
    check("only the listing is printed", shown == [False, False, False, True], *map(str, shown))
    alice.browser.execute_cdp_cmd("Emulation.setEmulatedMedia", {"media": ""})
    alice.wide(1280)


def send_cards(alice: object, bob: object) -> None:
    """ALICE punches a card for BOB."""
    alice.type("system reset", "spool 00d to bob", "store 48 00000800", "store 200 9C00000D", "store 800 0100084000000050",
               "store 840 C3C1D9C440D6C640C140F0F1", "store 204 4770020482000210", "store 210 0002000000000000", "begin 200")  # fmt: skip
    alice.until("SPOOLED")
    alice.await_("the punch has stopped", lambda: alice.lines().count("STOPPED DISABLED WAIT") == 2)
    alice.type("close 00d")
    alice.until("FILE 0003 CLOSED")
    bob.type("query files")
    bob.until("FILE 0003 FROM ALICE CARDS 1")
    # and one for the operator, which is drawn
    alice.type("system reset", "spool 00d to system", "begin 200")
    alice.await_(
        "the punch has stopped again", lambda: alice.lines().count("STOPPED DISABLED WAIT") == 3
    )
    alice.type("close 00d")
    alice.until("FILE 0004 CLOSED")
    script = "document.querySelector('#again').click(); const found = [...document.querySelectorAll('#files button:enabled')]" \
             ".find((button) => button.textContent.startsWith('PUN')); found?.click(); return Boolean(found)"  # fmt: skip
    alice.await_("a card is there", lambda: time.sleep(0.3) or alice.browser.execute_script(script))
    holes = "return document.querySelectorAll('#pages .hole').length"
    alice.await_("its holes are drawn", lambda: alice.browser.execute_script(holes) >= 16)
    alice.picture("cards", 1280, 1800)
    alice.wide(1280)


def drop_the_line(wire: object, alice: object, bob: object) -> None:
    """ALICE's line is cut, and appears back; what BOB sent meanwhile is there once."""
    wire.cut()
    alice.await_(
        "the page says that the line is cut", lambda: "no connection" in alice.find("link").text
    )
    bob.type(*(f"msg alice Number {count}" for count in range(5)))
    bob.await_("all is sent", lambda: bob.lines().count("SENT") == 5)
    wire.mend()
    begun = time.monotonic()
    alice.until("Number 4")
    notify(f"afternoon: a page is back {time.monotonic() - begun:.1f} s after its line is")
    findings = [line for line in alice.lines() if "Number" in line]
    check(
        "no line is missing, and none is there twice",
        findings == [f"MSG FROM BOB: Number {count}" for count in range(5)],
        *findings,
    )
    alice.type("system reset", "store 100 4111000147F00100", "begin 100")
    alice.await_("the machine runs", lambda: alice.find("lamp").text == "runs")
    alice.press("[data-key=external]")
    alice.press("[data-key=stop]")
    alice.await_("the machine is stopped", lambda: alice.find("lamp").text == "stopped")
    alice.press("[data-key=begin]")
    alice.await_("the machine runs again", lambda: alice.find("lamp").text == "runs")


def operate(place: Place, operator: object, alice: object) -> None:
    """The operator watches, and ends."""
    operator.await_("the operator sees who is on", lambda: "2 on" in operator.find("who").text)
    check("the token is not in the address", place.token() not in operator.browser.current_url)
    check("the operator's page has labels", not operator.browser.execute_script(UNLABELLED))
    operator.press("#look")
    operator.await_("the frames are shown", lambda: "page-ins" in operator.find("looked").text)
    operator.press("#follow")
    operator.await_(
        "the frames are followed",
        lambda: "a second since the last look" in operator.find("looked").text,
    )
    operator.press("#follow")
    operator.type("message Good night")
    alice.until("OPERATOR: Good night")
    operator.type("status")
    operator.await_(
        "a command is answered", lambda: any("2 on" in line for line in operator.lines("answer"))
    )
    time.sleep(3)
    operator.picture("operator", 1280, 1000)
    operator.picture("operator-360", 360, 2200)
    operator.wide(1280)
    operator.type("force bob")
    operator.await_("BOB is gone", lambda: "1 on" in operator.find("who").text)
    operator.type("end now")
    operator.await_(
        "the operator sees the end", lambda: "the session ends" in " ".join(operator.lines())
    )


def program() -> object:
    return ask_build("path")


# --- encryption ---


def part_encrypted(folder: str, options: object) -> None:
    """Pages and telnet with a certificate; what is not encrypted gets nothing."""
    words = f"req -x509 -newkey rsa:2048 -nodes -days 2 -subj /CN=localhost -keyout {folder}/key -out {folder}/certificate".split()
    if subprocess.run(["openssl", *words], capture_output=True).returncode:
        notify("no openssl: encryption was not tried")
        return
    place = Place(
        f"{folder}/encrypted",
        users(2),
        "--certificate",
        f"{folder}/certificate",
        "--key",
        f"{folder}/key",
    ).online()
    context = ssl.create_default_context(cafile=f"{folder}/certificate")

    async def tried() -> None:
        page = Page(place.web, context, "localhost")
        await (await page.come()).log_on("U00")
        await page.ask(1)
        reader, writer = await asyncio.open_connection(
            *place.telnet, ssl=context, server_hostname="localhost"
        )
        writer.write(b"LOGON U01 PW01\r\n")
        shown = [(await asyncio.wait_for(reader.readline(), 10)).strip() for _ in range(2)]
        holds = shown[0].startswith(b"GATHJUMLI ONLINE") and shown[1] == b"LOGON OK"
        check("an encrypted telnet", holds, *map(str, shown))
        half = [await asyncio.open_connection(ADDRESS, place.web) for _ in range(20)]
        for _, one in half:
            one.write(b"\x16\x03\x01")
        for port in (place.web, place.telnet[1]):
            reader, plain = await asyncio.open_connection(ADDRESS, port)
            plain.write(b"GET / HTTP/1.1\r\nHost: localhost\r\n\r\n")
            with contextlib.suppress(ConnectionError):
                data = await asyncio.wait_for(reader.read(), 10)
                check(
                    "what is not encrypted gets nothing",
                    b"html" not in data and b"GATHJUMLI" not in data,
                    str(data),
                )
            plain.close()
        ended = 0
        for one, _ in half:
            with contextlib.suppress(ConnectionError):
                await asyncio.wait_for(one.read(), 15)
            ended += one.at_eof()
        check("half handshakes are closed", ended == len(half), f"{ended}")
        await page.ask(2)
        writer.close()
        await page.socket.close()

    asyncio.run(tried())
    check("it is suspended", place.stop() == 0, *place.findings[-3:])


# --- many pages ---


class Page:
    """A page as a program: what a browser would send, and what it is reported."""

    def __init__(self, port: object, tls: object = None, host: object = ADDRESS) -> None:
        self.port = port
        self.host = f"{host}:{port}"
        self.tls = tls
        self.lines = []
        self.numbers = []
        self.findings = []

    async def come(self, origin: str = None, path: str = "/socket", **more: object) -> object:
        origin = origin or f"http{'s' * bool(self.tls)}://{self.host}"
        address, more = (
            f"ws{'s' * bool(self.tls)}://{self.host}{path}",
            {"compression": None, "max_size": None, "ssl": self.tls} | more,
        )
        self.socket = await websockets.legacy.client.connect(address, origin=origin, **more)
        await self.send({"is": "open"})
        new = await self.next("new")
        self.page, self.token = new["page"], new["token"]
        return self

    async def send(self, message: str) -> None:
        await self.socket.send(json.dumps(message))

    async def change(self, message: str) -> None:
        await self.send({**message, "token": self.token})

    async def receive(self) -> None:
        for message in json.loads(await asyncio.wait_for(self.socket.recv(), 60)):
            self.findings.append(message)
            for line_number, _, text in message.get("lines", ()):
                self.numbers.append(line_number)
                self.lines.append(text)
        await self.send({"is": "seen", "number": self.numbers[-1] if self.numbers else 0})

    async def next(self, kind: str) -> object:
        while not (found := [message for message in self.findings if message["is"] == kind]):
            await self.receive()
        self.findings = [message for message in self.findings if message["is"] != kind]
        return found[-1]

    async def until(self, text: str) -> None:
        while not any(text in line for line in self.lines):
            await self.receive()
        self.lines = self.lines[
            next(place for place, line in enumerate(self.lines) if text in line) + 1 :
        ]

    async def log_on(self, user: Account) -> object:
        message = {"is": "logon", "name": user, "password": f"PW{user[1:]}"}
        await self.change(message)
        while not any(findings["is"] == "on" for findings in self.findings):
            await self.receive()
            if any(findings["is"] == "refused" for findings in self.findings):
                # of too many who are about to log on one goes, and appears again
                self.findings = []
                await self.change(message)
        await self.next("on")
        return self

    async def ask(self, count: int) -> object:
        """Types a line; how long the answer takes."""
        line, answer = question(count)
        begun = time.monotonic()
        await self.change({"is": "line", "text": line})
        await self.until(answer)
        return time.monotonic() - begun


def question(count: int) -> tuple:
    """A line, and the answer that no other line has."""
    address = 16 * (count % 4096)
    return f"DISPLAY {address:X}", f"{address:06X}{' 00000000' * 4}"


def users(count: int) -> str:
    return "".join(f"USER U{place:02} PW{place:02} 64K\n{DEVICES}" for place in range(count))


def part_many(folder: str, options: object) -> None:
    """64 pages and 64 telnets, of which half have users who type; the others only are there."""
    place = Place(f"{folder}/many", users(64)).online()
    took = {"pages": [], "telnet": []}

    async def at_page(user: Account, until: object) -> None:
        page = await (await Page(place.web).come()).log_on(user)
        chance, count = random.Random(user), 0
        while time.monotonic() < until:
            count += 1
            took["pages"].append(await page.ask(count))
            await asyncio.sleep(chance.uniform(0.5, 3))
        check(f"no line of {user} is lost", page.numbers == list(range(1, len(page.numbers) + 1)))
        await page.socket.close()

    async def at_telnet(user: Account, until: object) -> None:
        one = await person(place.telnet)
        await one.logon(user, f"PW{user[1:]}")
        chance, count = random.Random(user), 0
        while time.monotonic() < until:
            count += 1
            line, answer = question(count)
            begun = time.monotonic()
            one.type(line)
            await one.until(answer)
            took["telnet"].append(time.monotonic() - begun)
            await asyncio.sleep(chance.uniform(0.5, 3))
        one.go()

    async def strange_page(until: object) -> None:
        page = await Page(place.web).come()
        with contextlib.suppress(asyncio.TimeoutError):
            while time.monotonic() < until:
                await asyncio.wait_for(
                    asyncio.shield(page.socket.wait_closed()), max(0.1, until - time.monotonic())
                )
                check("a page that only is there stays", False)
        await page.socket.close()

    async def strange_telnet(until: object) -> None:
        while time.monotonic() < until:
            one = await person(place.telnet)
            # how long one may take to log on is the desk's affair
            with contextlib.suppress(asyncio.TimeoutError):
                await asyncio.wait_for(one.rest(), 30)
            one.go()

    async def live() -> None:
        until = time.monotonic() + options["seconds"]
        memory = [place.told_memory()]
        tasks = [at_page(f"U{count:02}", until) for count in range(32)] + [
            at_telnet(f"U{count:02}", until) for count in range(32, 64)
        ]
        tasks += [strange_page(until) for _ in range(32)] + [
            strange_telnet(until) for _ in range(32)
        ]
        running = asyncio.gather(*tasks)
        while not running.done():
            await asyncio.wait([running], timeout=options["seconds"] / 4)
            memory.append(place.told_memory())
        await running
        notify(f"many: memory {'; '.join(memory)}")

    asyncio.run(live())
    for name, seconds in took.items():
        notify(
            f"many: {len(seconds)} answers by {name} in {options['seconds']} s: {hundredths(seconds)}"
        )
        check(
            f"answers by {name} in 50 ms at the 99th hundredth",
            sorted(seconds)[int(len(seconds) * 0.99)] < 0.05,
        )
    check("it is suspended", place.stop() == 0, *place.findings[-3:])


# --- hostile pages ---


async def thousand_sockets(place: Place) -> str:
    """Sockets that ask for nothing."""
    opened = []
    for _ in range(1000):
        with contextlib.suppress(OSError, asyncio.TimeoutError):
            opened.append(await asyncio.wait_for(asyncio.open_connection(ADDRESS, place.web), 5))
    page = await (await Page(place.web).come()).log_on("U05")
    await page.ask(5)
    await asyncio.sleep(12)
    ended = 0
    for reader, writer in opened:
        with contextlib.suppress(OSError, asyncio.TimeoutError):
            ended += await asyncio.wait_for(reader.read(1), 1) == b""
        writer.close()
    await page.socket.close()
    check(
        "sockets that ask for nothing are closed",
        ended >= len(opened) - 2,
        f"{ended} of {len(opened)}",
    )
    return f"{len(opened)} sockets that ask for nothing, {ended} closed within 12 s"


async def thousand_pages(place: Place) -> str:
    """Pages at which nobody logs on."""
    pages = []
    for _ in range(1000):
        # whatever the installation does with it
        with contextlib.suppress(OSError, asyncio.TimeoutError, WebSocketException):
            pages.append(await asyncio.wait_for(Page(place.web).come(), 5))
    page = await (await Page(place.web).come()).log_on("U04")
    await page.ask(6)
    for one in [*pages, page]:
        one.socket.transport.abort()
    return f"{len(pages)} pages at which nobody logs on"


async def large_frames(place: Place) -> str:
    """Frames of 10 MB, and one that says to have 2^62 bytes."""
    ended = 0
    for user in ("U02", None):
        page = await Page(place.web).come()
        if user:
            await page.log_on(user)
        with contextlib.suppress(ConnectionClosed, OSError):
            await page.socket.send("x" * 10_000_000)
            await page.socket.recv()
            await page.socket.recv()
        ended += page.socket.closed
    page = await Page(place.web).come()
    page.socket.transport.write(
        b"\x81\xff" + (1 << 62).to_bytes(8, "big") + b"mask" + b"x" * 100000
    )
    with contextlib.suppress(ConnectionClosed, asyncio.TimeoutError):
        while True:
            await asyncio.wait_for(page.socket.recv(), 5)
    ended += page.socket.closed
    check("a page that sends too much is closed", ended == 3, f"{ended}")
    return "frames of 10 MB and of 2^62 bytes"


async def greedy(place: Place) -> str:
    """A page that asks and asks, and reads nothing."""
    page = await (await Page(place.web).come()).log_on("U03")
    page.socket.transport.pause_reading()
    before, sent, until = memory_of(place.process.pid), 0, time.monotonic() + 20
    with contextlib.suppress(ConnectionClosed, asyncio.TimeoutError):
        while sent < 200000 and time.monotonic() < until:
            await asyncio.wait_for(page.send({"is": "disks"}), 5)
            sent += 1
    grown = (memory_of(place.process.pid) - before) // 1024
    check("who asks and does not read takes no memory", grown < 8, f"{grown} MB")
    page.socket.transport.abort()
    return f"{sent} questions of one who reads no answer"


async def wrong_messages(place: Place) -> str:
    texts = ["[]", "{", "1", '"x"', "{}", '{"is": "open"}', '{"is": ["x"]}', '{"is": "line", "text": 5}', '{"is": "seen", "number": -1}', "[" * 60000,
             '{"is": "file", "name": "../../etc/passwd", "at": 0}', '{"is": "resume", "page": null, "token": 7}']  # fmt: skip
    for text in texts:
        page = await Page(place.web).come()
        with contextlib.suppress(ConnectionClosed, asyncio.TimeoutError):
            await page.socket.send(text)
            await asyncio.wait_for(page.socket.recv(), 0.3)
        await page.socket.close()
    page = await (await Page(place.web).come()).log_on("U03")
    for name in ("../../../etc/passwd", "PRT0001-U00.txt"):
        await page.send({"is": "file", "name": name, "at": 0})
        check(
            "a file of somebody else is not shown",
            (await page.next("refused"))["why"] == "you have no such file",
        )
    await page.send({"is": "line", "text": "DISPLAY 0", "token": "stolen"})
    check(
        "without the token nothing is typed",
        (await page.next("refused"))["why"] == "the token is wrong",
    )
    await page.socket.close()
    return f"{len(texts)} wrong messages"


async def other_origins(place: Place) -> str:
    refused = 0
    hosts = [
        ("http://evil.example", None),
        (f"http://{ADDRESS}:1", None),
        ("null", None),
        ("http://evil.example", "evil.example"),
    ]
    for origin, host in hosts:
        try:
            await Page(place.web).come(origin, extra_headers={"Host": host} if host else {})
        except InvalidStatusCode as error:
            refused += error.status_code in (403, 400, 421)
    check("a page of another origin opens nothing", refused == len(hosts), f"{refused}")
    return f"{refused} of {len(hosts)} other origins refused"


async def stolen_page(place: Place) -> str:
    """A page's name and token after LOGOFF, and while its user is on."""
    page = await (await Page(place.web).come()).log_on("U02")
    await page.change({"is": "line", "text": "LOGOFF"})
    await page.until("LOGOFF OK")
    await page.next("off")
    thief = Page(place.web)
    thief.socket = await websockets.legacy.client.connect(
        f"ws://{ADDRESS}:{place.web}/socket", origin=f"http://{ADDRESS}:{place.web}"
    )
    await page.socket.close()
    await thief.send({"is": "resume", "page": page.page, "token": page.token, "seen": 0})
    answer = await thief.next("new")
    lines = [
        {"is": "line", "text": "LOGON", "token": token} for token in (page.token, answer["token"])
    ]
    for message in (*lines, {"is": "files"}, {"is": "disks"}):
        await thief.send(message)
        check(
            "after LOGOFF a page shows nothing",
            (await thief.next("refused"))["why"] in ("the token is wrong", "NOT LOGGED ON"),
        )
    check("and no line", not thief.lines, *thief.lines)
    other = await (await Page(place.web).come()).log_on("U02")
    thief.findings = []
    await thief.send({"is": "resume", "page": other.page, "token": "guessed", "seen": 0})
    check("nor by the name of a page alone", (await thief.next("refused"))["what"] == "resume")
    await other.change({"is": "line", "text": "LOGOFF"})
    await other.until("LOGOFF OK")
    return "a page after LOGOFF"


async def guessed_tokens(place: Place) -> str:
    for token in ("", "x" * 1000, place.token()[:-1], None):
        socket_ = await websockets.legacy.client.connect(
            f"ws://{ADDRESS}:{place.web}/operator/socket", origin=f"http://{ADDRESS}:{place.web}"
        )
        await socket_.send(json.dumps({"is": "command", "text": "end now", "token": token}))
        findings = []
        with contextlib.suppress(ConnectionClosed):
            while True:
                findings += json.loads(await asyncio.wait_for(socket_.recv(), 10))
        check(
            "without its token the operator's page shows nothing",
            [message["is"] for message in findings] == ["refused"],
            *map(str, findings),
        )
    return "guessed tokens of the operator"


class Honest:
    """Somebody at a page and somebody at a telnet, who type all the time."""

    def __init__(self, place: Place) -> None:
        self.place = place
        self.took = []
        self.is_over = False

    async def at_page(self) -> None:
        page = await (await Page(self.place.web).come()).log_on("U00")
        count = 0
        while not self.is_over:
            count += 1
            self.took.append(await page.ask(count))
            await asyncio.sleep(0.05)
        check(
            "no line of an honest page is lost",
            page.numbers == list(range(1, len(page.numbers) + 1)),
        )

    async def at_telnet(self) -> None:
        one = await person(self.place.telnet)
        await one.logon("U01", "PW01")
        count = 0
        while not self.is_over:
            count += 1
            line, answer = question(count)
            begun = time.monotonic()
            one.type(line)
            await one.until(answer)
            self.took.append(time.monotonic() - begun)
            await asyncio.sleep(0.05)
        one.go()


def part_hostile(folder: str, options: object) -> None:
    place = Place(f"{folder}/hostile", users(6)).online()
    honest = Honest(place)

    async def tried() -> None:
        tasks = [asyncio.create_task(work) for work in (honest.at_page(), honest.at_telnet())]
        await asyncio.sleep(2)
        for phase in (
            other_origins,
            wrong_messages,
            large_frames,
            greedy,
            thousand_sockets,
            thousand_pages,
            stolen_page,
            guessed_tokens,
        ):
            honest.took.clear()
            begun = time.monotonic()
            findings = await phase(place)
            await asyncio.sleep(0.3)
            notify(
                f"hostile: {findings}; {time.monotonic() - begun:.1f} s, lines of the honest: {hundredths(honest.took)}; {place.told_memory()}"
            )
            check("the honest are answered", max(honest.took) < 2, hundredths(honest.took))
            check("they type on", not any(task.done() for task in tasks))
        honest.is_over = True
        await asyncio.gather(*tasks)

    asyncio.run(tried())
    check("it is suspended", place.stop() == 0, *place.findings[-3:])


OPTIONS = {"--seconds": number(1, 100000), "--pictures": str}
PARTS = parts_of(dict(globals()))


def main() -> None:
    found, names = read_arguments(sys.argv[1:], OPTIONS, 0, 100)
    options = {
        "seconds": last(found["--seconds"], 600),
        "pictures": last(found["--pictures"], None),
    }
    do_parts(PARTS, names, options, "web")
    sys.exit(totals.report())


main()
