#!/usr/bin/env python3
"""Tries the page of bin/replay in Chromium, over a pipe: nothing else is needed than Debian's chromium. Three runs: an interruption, a
channel program that changes itself, and two users out of frames. With GATHJUMLI_UNPROVED=1 the programs are those without proof.
tests/replay/page.py [--built] [--pictures FOLDER]; with --built the program is that which the gate has built. The last line is 'N passed,
M failed'."""
from __future__ import annotations

from collections.abc import Iterator
import base64
import contextlib
import json
import os
import select
import shutil
import subprocess
import sys
import tempfile
import time

sys.dont_write_bytecode = True
TOP = os.path.dirname(os.path.dirname(os.path.dirname(os.path.realpath(__file__))))
sys.path.insert(0, TOP)

from tests.lib.counting import Counts
from tests.lib.host import free_port
from tests.lib.installed import install

FOUND = "document.getElementById('found').textContent"
# a loop that moves a word, and adds 1 to it, for more units than are sought before anybody stops a search: some ten seconds of them
RUNS = 20
UNITS = 50_000 if os.environ.get("GATHJUMLI_UNPROVED") else 1_000_000
TYPED = """LINE A LOGON
LINE A STORE 100 D2030200020458100204
LINE A STORE 10A 5A1002085010020447F00100
LINE A STORE 208 00000001
LINE A BEGIN 100
"""
LOOP = TYPED + f"RUN A {UNITS}\n" * RUNS
EVENTS = TYPED.count("\n") + RUNS
# a loop that adds 1 to a register and stores the sum, and once stores another word there
TWO_WAYS = """LINE A LOGON
LINE A STORE 100 5A1002045010020059100208477001
LINE A STORE 10F 00D2030200020C47F00100
LINE A STORE 204 00000001000000200000CAFE
LINE A BEGIN 100
RUN A 394
"""
EXAMPLES = os.path.join(TOP, "examples", "users")
SIZES = {"wide": 1500, "narrow": 420}
HEIGHT = 1000
SECONDS_TO_ANSWER = 60
# a host that has much else to do is slow
SECONDS_TO_GO = 120
QUIET = {"stdout": subprocess.DEVNULL, "stderr": subprocess.DEVNULL}
OPTIONS = (
    "--headless=new --no-sandbox --disable-gpu --disable-dev-shm-usage --hide-scrollbars --no-first-run "
    "--disable-background-networking --remote-debugging-pipe"
).split()

totals = Counts()
check = totals.check
# where the commands are
place = TOP


class Browser:
    """Chromium with one page, driven by the DevTools protocol."""

    def __init__(self, folder: str) -> None:
        (asked, self.out), (self.answers, answered) = os.pipe(), os.pipe()
        words = ["chromium", *OPTIONS, f"--user-data-dir={folder}", "about:blank"]
        places = f'exec 3<&{asked} 4>&{answered}; exec "$@"'
        self.process = subprocess.Popen(
            ["sh", "-c", places, "sh", *words], pass_fds=(asked, answered), **QUIET
        )
        os.close(asked)
        os.close(answered)
        self.left, self.number, self.session = b"", 0, ""
        self.faults: list = []
        targets = self.send("Target.getTargets")["targetInfos"]
        target = next(one["targetId"] for one in targets if one["type"] == "page")
        self.session = self.send("Target.attachToTarget", targetId=target, flatten=True)[
            "sessionId"
        ]
        for part in ("Page", "Runtime", "Log", "Accessibility", "Inspector"):
            self.send(f"{part}.enable")
        self.resize("wide")
        self.shade("light")

    def resize(self, name: str) -> None:
        size = {"width": SIZES[name], "height": HEIGHT}
        self.send("Emulation.setDeviceMetricsOverride", **size, deviceScaleFactor=1, mobile=False)

    def shade(self, name: str) -> None:
        features = [{"name": "prefers-color-scheme", "value": name}]
        self.send("Emulation.setEmulatedMedia", features=features)

    def send(self, method: str, **params: object) -> dict:
        self.number += 1
        message = {"id": self.number, "method": method, "params": params}
        message |= {"sessionId": self.session} if self.session else {}
        os.write(self.out, json.dumps(message).encode() + b"\0")
        while True:
            answer = self.next()
            if answer.get("id") == self.number:
                if "error" in answer:
                    raise RuntimeError(answer["error"])
                return answer["result"]
            if answer.get("method") in ("Runtime.exceptionThrown", "Log.entryAdded"):
                self.faults.append(answer["params"])

    def next(self) -> dict:
        while b"\0" not in self.left:
            is_there = select.select([self.answers], [], [], SECONDS_TO_ANSWER)[0]
            data = os.read(self.answers, 1 << 20) if is_there else b""
            if not data:
                raise EOFError("Chromium has ended, or does not answer")
            self.left += data
        one, _, self.left = self.left.partition(b"\0")
        found = json.loads(one)
        if found.get("method") == "Inspector.targetCrashed":
            raise EOFError("the page has crashed in Chromium: has the host memory?")
        return found

    def js(self, text: str) -> object:
        found = self.send(
            "Runtime.evaluate", expression=text, returnByValue=True, awaitPromise=True
        )
        if "exceptionDetails" in found:
            raise RuntimeError(found["exceptionDetails"])
        return found["result"].get("value")

    def until(self, text: str, seconds: float = SECONDS_TO_GO) -> bool:
        end = time.monotonic() + seconds
        while time.monotonic() < end:
            with contextlib.suppress(RuntimeError):
                if self.js(text):
                    return True
            time.sleep(0.05)
        return False

    def press(self, key: str, is_shift: bool = False) -> bool:
        """Presses a key that leads to another moment; whether it does."""
        before = self.js("location.hash")
        self.strike(key, is_shift)
        return self.until(f"location.hash !== {json.dumps(before)}")

    def strike(self, key: str, is_shift: bool = False) -> None:
        text = {"text": key} if len(key) == 1 else {}
        words = {"key": key, "modifiers": 8 if is_shift else 0}
        self.send("Input.dispatchKeyEvent", type="keyDown", **words, **text)
        self.send("Input.dispatchKeyEvent", type="keyUp", **words)

    def open(self, port: int, place: str = "") -> bool:
        self.send("Page.navigate", url="about:blank")
        self.send("Page.navigate", url=f"http://127.0.0.1:{port}/{place}")
        return self.until("document.getElementById('where').textContent")

    def text(self, name: str) -> str:
        return str(self.js(f"document.getElementById('{name}').textContent"))

    def at(self, text: str) -> bool:
        return self.until(f"document.getElementById('where').textContent.startsWith('{text}')")

    def says(self, text: str) -> bool:
        """Whether the page says soon what fits an expression."""
        return self.until(f"/{text}/.test({FOUND})")

    def ask_for(self, address: str) -> None:
        """Has an address shown."""
        field = "document.getElementById('address')"
        self.js(f"{field}.value = '{address}'; {field}.form.requestSubmit()")

    def picture(self, path: str) -> None:
        with open(path, "wb") as file:
            data = self.send("Page.captureScreenshot", format="png")["data"]
            file.write(base64.b64decode(data))

    def close(self) -> None:
        self.process.terminate()
        self.process.wait()


@contextlib.contextmanager
def served(*words: str) -> Iterator[int]:
    """The page of a run, at a port."""
    port = free_port()
    words = (os.path.join(place, "bin", "replay"), "--port", str(port), *words)
    server = subprocess.Popen(words, stderr=subprocess.PIPE, text=True)
    try:
        said = ""
        while "the page is at" not in said and (line := server.stderr.readline()):
            said += line
        check("it says where the page is", f":{port}/" in said, said)
        yield port
    finally:
        server.terminate()
        check("it ends", has_ended(server))


def has_ended(server: subprocess.Popen) -> bool:
    """Whether a server that was told to end does so; one that does not is killed."""
    with contextlib.suppress(subprocess.TimeoutExpired):
        server.wait(SECONDS_TO_GO)
        return True
    server.kill()
    server.wait()
    return False


class Looks:
    """The pictures of the page that are kept, if a folder is given."""

    def __init__(self, browser: Browser, folder: str | None) -> None:
        self.browser, self.folder = browser, folder

    def take(self, name: str) -> None:
        """Looks at the page in light and in the dark, wide and narrow; nothing is wider than the window."""
        browser = self.browser
        for size, width in SIZES.items():
            browser.resize(size)
            for shade in ("light", "dark"):
                wanted = "true" if shade == "dark" else "false"
                has = "document.documentElement.classList.contains('dark')"
                browser.js(f"if ({has} !== {wanted}) document.getElementById('shade').click()")
                time.sleep(0.3)
                wide = browser.js("document.documentElement.scrollWidth")
                check(f"{name} is no wider than a {size} window", wide <= width, wide)
                if self.folder:
                    browser.picture(os.path.join(self.folder, f"{name}-{size}-{shade}.png"))
        browser.resize("wide")
        browser.js("document.getElementById('shade').click()")


# --- an interruption ---


def try_keys(browser: Browser, port: int) -> None:
    opened = browser.open(port, "#event=18&unit=20&user=A&address=400")
    where = browser.text("where")
    check("a bookmark opens its moment", opened and "event 18 of 34, unit 20 of 45" in where, where)
    here = "document.querySelector('#code .is-here').textContent"
    check("the next instruction is shown", "THREES" in browser.js(here))
    check("a key leads a unit on", browser.press("ArrowRight"))
    check("what it changed is marked", browser.js("document.querySelectorAll('.new').length"))
    check("a unit forward", browser.at("event 18 of 34, unit 21 of 45"))
    check("a unit back", browser.press("ArrowLeft") and browser.at("event 18 of 34, unit 20"))
    check("an event back", browser.press("PageUp") and browser.at("event 18 of 34, next"))
    check("an event forward", browser.press("PageDown") and browser.at("event 19 of 34"))
    check("the end", browser.press("End") and "the end" in browser.text("where"))
    check("the start", browser.press("Home") and browser.at("event 0 of 34"))
    forward = browser.press("ArrowRight", is_shift=True)
    check("an event of his forward", forward and browser.at("event 1 of 34"))


def try_searches(browser: Browser, port: int) -> None:
    browser.open(port, "#event=27&unit=0&user=A&address=380")
    browser.js("document.querySelector('[data-word=\"000404\"]').click()")
    top = "document.getElementById('words').getBoundingClientRect().top + scrollY"
    before = browser.js(top)
    check("who changed a word last", browser.says("moments? in"))
    check("nothing moves under the mouse", browser.js(top) == before, before, browser.js(top))
    by = "a change of COUNT2 (000404): 00000039 became 0000003C by ST 5,COUNT2 at 000810"
    check(
        "the message names the instruction",
        browser.text("found").startswith(by),
        browser.text("found"),
    )
    check("it is the unit that did", browser.at("event 24 of 34, unit 44"), browser.text("found"))
    done = "document.querySelector('#code .is-done').textContent"
    check("its instruction is shown", "ST    5,COUNT2" in browser.js(done))
    led = "document.querySelector('#code .led').textContent"
    check("and marked among its neighbours", "ST    5,COUNT2" in browser.js(led))
    check("who changed it before", browser.press("b") and browser.at("event 24 of 34, unit 41"))
    check("who changes it next", browser.press("f") and browser.at("event 24 of 34, unit 44"))
    browser.js("history.back()")
    check("the browser's own way back", browser.at("event 24 of 34, unit 41"))
    browser.js("what.value = 'psw'; of.value = '10A'; of.blur()")
    check("until an address", browser.press("b"), browser.text("found"))
    message = r"the instruction at .*\(00010A\)"
    check("a message is there", browser.says(message), browser.text("found"))
    browser.press("ArrowLeft")
    check("and goes with the next step", browser.says("^Arrows"), browser.text("found"))
    browser.js("what.value = 'gpr'; of.value = 'G16'; of.blur()")
    browser.strike("f")
    check("no register", browser.says("G16 is no register: G0 to G15"), browser.text("found"))


def try_beginning(browser: Browser, port: int) -> None:
    """Where the page begins, and what its field for an address takes."""
    browser.open(port)
    check("it begins at the end", "the end" in browser.text("where"), browser.text("where"))
    words = browser.text("words")
    psw = int(str(browser.js("document.querySelector('#psw dd').textContent")), 16)
    check("above the next instruction", int(words[:6], 16) == (psw & ~15) - 64, words[:60], psw)
    browser.ask_for("count2")
    asked = "document.querySelector('#words .asked')?.dataset.word"
    check("a label of the source is an address", browser.until(f"{asked} === '000404'"))
    check("labels stand in storage", "0:COUNT1 4:COUNT2" in browser.text("words"))
    browser.ask_for("count1")
    check("another label", browser.until(f"{asked} === '000400'"))
    browser.ask_for("count1+4")
    check("so is one with a number", browser.until(f"{asked} === '000404'"))
    focused = "document.activeElement.dataset.word"
    check("the keys are at its word", browser.until(f"{focused} === '000404'"))
    browser.strike("a")
    focused = browser.js("document.activeElement.id")
    check("a key leads to the address", focused == "address", focused)
    for word, reason in (
        ("count9", "COUNT9 is no hexadecimal address, nor a label of the source"),
        ("2000", "002000 is past the storage of A, whose last byte is at 001FFF"),
        ("", "no address is given"),
    ):
        browser.ask_for(word)
        check(f"the address {word!r} is refused", browser.says(reason), browser.text("found"))
        check("and storage stays", browser.js(f"{asked} === '000404'"))


def try_order(browser: Browser, port: int) -> None:
    """Keys that are pressed while an answer is awaited are done one after another."""
    browser.open(port, "#event=18&unit=20&user=A&address=400")
    for key in ("ArrowRight", "ArrowRight", "ArrowRight", "PageDown", "ArrowLeft"):
        browser.strike(key)
    check("no key is lost", browser.at("event 18 of 34, unit 44"), browser.text("where"))


def try_reading(browser: Browser) -> None:
    """What a screen reader gets."""
    nodes = browser.send("Accessibility.getFullAXTree")["nodes"]
    roles = [
        (node.get("role", {}).get("value"), node.get("name", {}).get("value", ""))
        for node in nodes
        if not node.get("ignored")
    ]
    for role, name in (
        ("tablist", "Users"), ("slider", "Events"), ("region", "Storage"), ("log", "What the console has shown"),
        ("search", ""), ("table", "General registers"), ("button", "Unit ▷"), ("textbox", "Address"),
    ):  # fmt: skip
        check(f"a screen reader finds {role} {name}", (role, name) in roles)
    nameless = [
        role for role, name in roles if role in ("button", "textbox", "slider") and not name
    ]
    check("all that can be used has a name", not nameless, nameless)
    browser.js("document.querySelector('#words button[tabindex=\"0\"]').focus()")
    first = browser.js("document.activeElement.dataset.word")
    browser.strike("ArrowDown")
    check(
        "a key leads from word to word", browser.js("document.activeElement.dataset.word") != first
    )


def try_interruption(browser: Browser, looks: Looks) -> None:
    example = f"{EXAMPLES}/two-tasks"
    words = "--source", f"{example}/A.asm", f"{example}/directory", f"{example}/script"
    with served(*words) as port:
        try_beginning(browser, port)
        looks.take("beginning")
        try_keys(browser, port)
        try_order(browser, port)
        try_searches(browser, port)
        browser.open(port, "#event=20&unit=0&user=A&address=0")
        check("a tick is no unit", browser.press("PageDown") and browser.at("event 21 of 34"))
        check(
            "the interruption", browser.press("ArrowRight") and browser.at("event 21 of 34, unit 1")
        )
        done = browser.js("document.querySelector('#code .is-done').textContent")
        check("it is named, and no instruction", done == "external interruption, code 0080", done)
        changed = browser.js("document.getElementById('changes').textContent")
        check("the old PSW is marked as changed", "00001" in str(changed), changed)
        try_reading(browser)
        looks.take("interruption")


# --- a channel program that changes itself ---


def try_channel_program(browser: Browser, looks: Looks) -> None:
    example = f"{EXAMPLES}/ipl-from-cards"
    with served(f"{example}/directory", f"{example}/script") as port:
        browser.open(port, "#event=0")
        browser.js("what.value = 'word'; of.value = '8'; of.blur()")
        check("the words that the first card brings", browser.press("f"), browser.text("found"))
        browser.js("document.getElementById('address').value = '0'")
        words = browser.text("words")
        check("they are in storage", words.startswith("000000"), words[:60])
        looks.take("channel-program")


# --- a run of many units ---


def try_stopping(browser: Browser, folder: str) -> None:
    """A search that takes long says how far it is, and ends if it is stopped."""
    with open(f"{folder}/directory", "w") as file:
        file.write("USER A PW 16K\n")
    with open(f"{folder}/script", "w") as file:
        file.write(LOOP)
    with served(f"{folder}/directory", f"{folder}/script") as port:
        browser.open(port, "#event=5&unit=1&user=A&address=200")
        places = browser.js(
            "[...document.querySelectorAll('#operand button')].map((one) => one.textContent).join()"
        )
        check("the operands", places == "operand at 000204: 00000000", places)
        browser.press("ArrowLeft")
        places = browser.js(
            "[...document.querySelectorAll('#operand button')].map((one) => one.textContent).join()"
        )
        check(
            "both operands of MVC",
            places == "operand at 000200: 00000000,operand at 000204: 00000000",
            places,
        )
        browser.js("what.value = 'word'; of.value = '300'; of.blur()")
        browser.strike("f")
        is_told = browser.says(rf"so far, now at event \d+ of {EVENTS}")
        check("a search says how far it is", is_told, browser.text("found"))
        if not is_told:
            # what does not last cannot be stopped
            return
        stop = "document.getElementById('stop')"
        check("it can be stopped", browser.js(f"!{stop}.hidden"))
        browser.strike("Escape")
        check("it is stopped", browser.says("^stopped after"), browser.text("found"))
        check("and no more", browser.js(f"{stop}.hidden"))
        browser.strike("f")
        browser.until(f"!{stop}.hidden")
        browser.js(f"{stop}.click()")
        check("also by its button", browser.says("^stopped"), browser.text("found"))
        # what was stopped answers once its part is done, and not to a page that is left
        browser.send("Page.navigate", url="about:blank")


# --- a word that two instructions change ---


def try_another(browser: Browser, folder: str) -> None:
    """The last change by another instruction than that which was found."""
    with open(f"{folder}/script", "w") as file:
        file.write(TWO_WAYS)
    with served(f"{folder}/directory", f"{folder}/script") as port:
        browser.open(port)
        browser.strike("o")
        check("nothing was found yet", browser.says("first look for a change"))
        browser.js("what.value = 'word'; of.value = '200'; of.blur()")
        check("a change is found", browser.press("b"))
        by = browser.says("00000061 became 00000062 by ST 1,512.0,0. at 000104")
        check("it is by one instruction", by, browser.text("found"))
        check("another one is looked for", browser.press("o"))
        by = browser.says("by another instruction: 00000020 became 0000CAFE by MVC .* at 000110")
        check("it is found", by, browser.text("found"))
        where = browser.text("where")
        browser.js("document.querySelector('#found button').click()")
        check("there is no third", browser.says("^no such moment"), browser.text("found"))
        check("the page stays", browser.text("where") == where, browser.text("where"))


# --- two users out of frames ---


def try_frames(browser: Browser, looks: Looks) -> None:
    example = f"{EXAMPLES}/frames-out"
    with open(f"{example}/sizes") as file:
        frames, slots = file.read().split()
    sizes = "--frames", frames, "--slots", slots
    with served(*sizes, f"{example}/directory", f"{example}/script") as port:
        browser.open(port)
        check("it begins at the end", "the end" in browser.text("where"))
        check("who has which frame", "16 of 16" in browser.text("frames-note"))
        browser.js("document.querySelectorAll('#people button')[1].click()")
        check("the other user", browser.until("location.hash.includes('user=B')"))
        looks.take("frames")


def main() -> None:
    global place
    pictures = sys.argv[sys.argv.index("--pictures") + 1] if "--pictures" in sys.argv else None
    if not shutil.which("chromium"):
        print("no chromium: the page is not tried")
        return
    with tempfile.TemporaryDirectory(ignore_cleanup_errors=True) as folder:
        if "--built" in sys.argv:
            # the commands run the program that was built, as if they were installed
            place = install(f"{folder}/installed")
        browser = Browser(f"{folder}/browser")
        try:
            looks = Looks(browser, pictures)
            try_interruption(browser, looks)
            try_channel_program(browser, looks)
            try_stopping(browser, folder)
            try_another(browser, folder)
            try_frames(browser, looks)
            check("the page reports no fault", not browser.faults, *browser.faults[:3])
        finally:
            browser.close()
    sys.exit(totals.report())


main()
