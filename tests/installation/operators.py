"""Operators of an installation: where they come from, what they do, and what is reported to them. Called by tests/commands/people.py."""
from __future__ import annotations

from collections.abc import Callable
import asyncio
import fcntl
import os
import pty
import re
import shutil
import subprocess
import termios
import time

from tests.installation.strangers import bound_of_line, show_figures
from tests.installation.town import Town
from tests.lib.files import names_in, read, write
from tests.lib.places import TOP
from tests.lib.sites import (
    PATIENCE,
    logged_on,
    make_site,
    on,
    person,
    printing_for_ever,
    run,
    until_so,
)


def operator(site: object, *words: object, given: object = None) -> object:
    """What an operator's command answers."""
    command = site.command.replace("/installation", "/operator")
    words = [command, f"{site.folder}/operator", *words]
    return subprocess.run(words, input=given, capture_output=True, text=True, timeout=PATIENCE)


def at_window(words: list[str]) -> tuple:
    """Starts a command in a window of its own: the command, and the window."""
    window, inside = pty.openpty()
    own_window = lambda: fcntl.ioctl(0, termios.TIOCSCTTY, 0)
    streams = {"stdin": inside, "stdout": inside, "stderr": inside}
    process = subprocess.Popen(words, start_new_session=True, preexec_fn=own_window, **streams)
    os.close(inside)
    return process, window


def try_operators(check: Callable, site: object) -> None:
    """Operators come and go, several at once; the installation outlives the window where it was started."""
    words = [
        site.command,
        *site.words,
        "--operate",
        f"{site.folder}/operator",
        "--journal",
        f"{site.folder}/journal",
        *site.paths,
    ]
    process, window = at_window(words)
    shown = b""
    while b"online at" not in shown:
        shown += os.read(window, 65536)
    os.close(window)

    answer = run(logged_on(site, "ALICE", "WONDER"))
    check("it goes on when its window is closed", answer == "LOGON OK" and process.poll() is None)
    status = operator(site, "status")
    holds = status.returncode == 0 and "1 on, 0 about to log on" in status.stdout
    check("an operator is answered", holds, status.stdout, status.stderr)
    wrong = operator(site, "nothing")
    holds = wrong.returncode == 1 and "there is no command nothing" in wrong.stdout
    check("a command that is none is refused", holds, wrong.stdout)
    still = operator(site, "end", "logoff")
    check(
        "so is an end while somebody is on",
        still.returncode == 1 and "still on: ALICE" in still.stdout,
        still.stdout,
    )
    streams = {"stdin": subprocess.PIPE, "stdout": subprocess.PIPE, "text": True}
    command = [site.command.replace("/installation", "/operator"), f"{site.folder}/operator"]
    others = [subprocess.Popen(command, **streams) for _ in range(2)]
    for other in others:
        other.stdin.write("users\n")
        other.stdin.flush()
        holds = any(
            "ALICE is stopped, at no terminal" in line for line in iter(other.stdout.readline, "")
        )
        check("several operators at once", holds)
    several = operator(site, given="users\nmessage GOOD NIGHT\n")
    check(
        "commands from a file", several.returncode == 0 and "1 on" in several.stdout, several.stdout
    )
    second = subprocess.run([*words[:1], *(word.replace("recording", "other") for word in words[1:])], capture_output=True, text=True,
                            stdin=subprocess.DEVNULL)  # fmt: skip
    holds = second.returncode == 3 and "another process listens at" in second.stderr
    check("a second one at its sockets is refused", holds, second.stderr)
    ended = operator(site, "end", "logoff", "now")
    check(
        "an operator ends it",
        ended.returncode == 0 and "the session has ended" in ended.stdout,
        ended.stdout,
        ended.stderr,
    )
    check("and it has ended well", process.wait(PATIENCE) == 0)
    for other in others:
        check(
            "all operators see that",
            "the session has ended" in other.communicate(timeout=PATIENCE)[0],
        )
    gone = operator(site, "status")
    check(
        "who comes later hears why",
        gone.returncode == 3 and "operator:" in gone.stderr,
        gone.stderr,
    )
    journal = read(f"{site.folder}/journal").decode()
    dated = re.findall(r"^\d{4}-\d\d-\d\d \d\d:\d\d:\d\d (.*)$", journal, re.M)
    check(
        "the journal has it all with dates",
        "ALICE logs on" in dated and "the session ends" in dated,
        journal,
    )


def try_unit(check: Callable, folder: str) -> None:
    """The unit for systemd is one."""
    if not shutil.which("systemd-analyze"):
        print("no systemd-analyze: the unit was not verified")
        return
    unit = read(f"{TOP}/docs/installation.service").decode().replace("/opt/gathjumli", TOP)
    write(f"{folder}/installation.service", unit)
    done = subprocess.run(
        ["systemd-analyze", "verify", f"{folder}/installation.service"],
        capture_output=True,
        text=True,
    )
    check(
        "the unit for systemd",
        done.returncode == 0 and "installation.service" not in done.stderr,
        done.stderr,
    )


def try_limits(check: Callable, site: object) -> None:
    """Who takes too much is logged off and reported why, and that is an event of the recording; others stay."""

    async def written() -> tuple:
        alice, bob = await on(site), await on(site, "BOB", "BUILDER")
        alice.type("LIST 10000", "DISPLAY G1")
        await alice.until("GPR 1 = 00000000")
        alice.type("LIST 10000")
        shown = await alice.rest()
        bob.type("DISPLAY G1")
        await bob.until("GPR 1 = 00000000")
        bob.type("LOGOFF")
        await bob.rest()
        again = await on(site)
        again.type("LOGOFF")
        return shown, (await again.rest())[1]

    site.online("--quota", "1")
    shown, again = run(written())
    check(
        "a user who writes too much is logged off",
        shown[-2:] == ["YOU ARE LOGGED OFF: 1 MB ARE WRITTEN", "LOGOFF OK"],
        *shown,
    )
    check(
        "the operator hears why",
        site.await_message("ALICE is logged off: 1 MB are written"),
        *site.findings,
    )
    check("and he may come back", again == "LOGON OK", again)
    check("it is suspended", site.stop() == 0)
    check("it is an event like any other", read(site.record).count(b"LINE ALICE #CP LOGOFF\n") == 1)

    async def fill() -> list:
        """What ALICE is shown who fills a file that she does not close, and goes on after she was stopped."""
        alice, bob = await on(site), await on(site, "BOB", "BUILDER")
        alice.type("STORE G1 7", "FILL 9000")
        while not (await alice.line()).startswith(
            "YOUR MACHINE IS STOPPED, AND YOUR FILES ARE CLOSED: 1 MB ARE WRITTEN"
        ):
            pass
        alice.type("DISPLAY G1")
        await alice.until("GPR 1 = 00000007")
        bob.type("DISPLAY G1")
        await bob.until("GPR 1 = 00000000")
        alice.type("LOGOFF")
        return (await alice.rest())[-1:]

    site.online("--quota", "1")
    shown = run(fill())
    check("whose open files are too long is only stopped", shown == ["LOGOFF OK"], *shown)
    check(
        "within ten seconds the operator knows whose they are",
        site.await_message("ALICE is stopped, and his files are closed: 1 MB are written"),
        *site.findings,
    )
    check("it is suspended after that", site.stop() == 0)

    async def stay() -> object:
        alice = await on(site)
        alice.type("BEGIN 100")
        while not (await alice.line()).startswith(
            "YOUR MACHINE IS STOPPED, AND YOUR FILES ARE CLOSED"
        ):
            pass
        await until_so(lambda: b"LINE ALICE #CP CLOSE 00E" in read(site.record))
        alice.type("DISPLAY G1", "LOGOFF")
        return (await alice.rest())[-1:]

    site.online("--memory", "1")
    shown = run(stay())
    check(
        "while the program has too much memory a machine is stopped", shown == ["LOGOFF OK"], *shown
    )
    check("it is suspended again", site.stop() == 0)
    recording = read(site.record)
    check(
        "but its user is not logged off",
        b"ALICE #CP LOGOFF" not in recording.partition(b"#CP CLOSE")[2],
    )
    check(
        "nor are files lost",
        all(b"LINE ALICE #CP CLOSE %s\n" % item in recording for item in (b"00D", b"00E")),
    )


def try_endless(check: Callable, town: Town) -> None:
    """Next to six who type one prints for ever: he is named within ten seconds, and nobody else is stopped or logged off."""

    async def types(user: str, is_over: asyncio.Event) -> list[str]:
        one = await town.on(user)
        while not is_over.is_set():
            one.type("DISPLAY G1")
            await one.until("GPR 1 = 00000000")
            await asyncio.sleep(0.1)
        one.go()
        return one.lines

    async def tried() -> tuple[float, list[list[str]]]:
        is_over = asyncio.Event()
        others = [asyncio.create_task(types(user, is_over)) for user in town.users[1:]]
        one = await town.on(town.users[0])
        one.type(*printing_for_ever("00E"))
        begun = time.monotonic()
        while not (await one.line()).startswith("YOUR MACHINE IS STOPPED"):
            pass
        took = time.monotonic() - begun
        # he goes on
        one.type("BEGIN 100")
        await one.until("LOGOFF OK")
        is_over.set()
        return took, await asyncio.gather(*others)

    town.online("--quota", "1", "--operate", f"{town.folder}/operator")
    took, seen = run(tried())
    show_figures("one prints for ever, and is named", f"after {took:.1f} s")
    check("who prints for ever is stopped", took < 100 * bound_of_line(), f"{took:.1f} s")
    told = town.await_message(f"{town.users[0]} is stopped, and his files are closed: 1 MB")
    check("the operator knows who it was", told, *town.findings)
    on = operator(town, "users").stdout
    check("nobody else is logged off", f"{len(town.users) - 1} on\n" in on, on)
    lost = [lines for lines in seen if any(line.startswith("YOU") for line in lines)]
    check("or stopped", not lost, *lost)
    check("it is suspended", town.stop() == 0, *town.findings)


class SomeMachines:
    """An engine whose program has memory as users' machines print, and its installation."""

    def __init__(self, printing: dict[str, int], is_freed: bool, is_told: bool) -> None:
        from gathjumli.limits import Limits, Watch
        from gathjumli.users import User

        self.users = {name: User(name) for name in ("A", "B", "C", "D", "E", "F")}
        self.printing, self.is_freed, self.is_told = printing, is_freed, is_told
        self.held = dict.fromkeys(self.users, 0)
        self.engine = self.machines = self
        self.devices = {name: {"00E": "printer", "009": "console"} for name in self.users}
        self.is_saving = False
        self.lines, self.forced, self.findings = [], [], []
        self.limits = Limits(256 << 20, 60 << 20)
        for user in self.users.values():
            user.is_on = True
            user.is_running = user.name in printing
        self.watch = Watch(self)

    notify = property(lambda self: self.findings.append)

    def is_person(self, user: object) -> bool:
        return True

    def memory(self) -> int:
        return (10 << 20) + sum(self.held.values())

    def tell(self) -> None:
        """What the program says of open files."""
        for user in self.users.values():
            user.open = self.held[user.name] if self.is_told else 0

    async def give(self, part: object) -> None:
        name, text = part.typed[0]
        self.lines.append(f"{name} {text}")
        if text == "#CP":
            self.users[name].is_running = False
        elif self.is_freed:
            self.held[name] = 0

    def force(self, user: object, reason: str) -> None:
        self.forced.append(user.name)
        user.is_forced = True

    async def second(self) -> None:
        """A second in which machines print, and B and C type."""
        for name, count in self.printing.items():
            if self.users[name].is_running:
                self.held[name] += count << 20
        for name in ("B", "C"):
            self.users[name].written += 900
        self.tell()
        self.watch.look_at_users()
        self.watch.look_at_memory()
        await asyncio.sleep(0)
        await asyncio.sleep(0)


# whose machines take how many megabytes a second, whether a close frees them, whether the program says whose they are, and whether the
# first begins again each time; who is stopped and who is logged off in thirty seconds
RELIEFS = {
    "one who prints": (({"A": 3}, True, True, False), ["A"], []),
    "one who prints, and others who compute": (
        ({"A": 3, "D": 0, "E": 0}, True, True, False),
        ["A"],
        [],
    ),
    "one of whose files nothing is said": (({"A": 3}, True, False, False), ["A"], []),
    "one whose files stay": (({"A": 3}, False, True, False), ["A"], []),
    "one who begins again": (({"A": 3}, False, True, True), ["A"], ["A"]),
}


def try_relief(check: Callable) -> None:
    """At the bound of memory the one who took it is stopped, and logged off only if he goes on; nobody else is, whoever types."""

    async def tried(
        printing: dict[str, int], is_freed: bool, is_told: bool, is_stubborn: bool
    ) -> tuple:
        some = SomeMachines(printing, is_freed, is_told)
        for _ in range(30):
            await some.second()
            some.users["A"].is_running |= is_stubborn and not some.users["A"].is_forced
        stopped = [line.split()[0] for line in some.lines if line.endswith("#CP")]
        return sorted(set(stopped)), sorted(set(some.forced)), some.lines

    for what, (given, stopped, forced) in RELIEFS.items():
        found = run(tried(*given))
        check(f"memory of {what}", found[:2] == (stopped, forced), *map(str, found))


def try_waiting_printout(check: Callable, site: object) -> None:
    """A printout that cannot be written waits, and is written when it can be."""
    site.online("--printouts", f"{site.folder}/prints", "--operate", f"{site.folder}/operator")
    folder = f"{site.folder}/prints/{site.session()}"
    write(folder, "IN THE WAY\n")

    async def tried() -> object:
        alice = await on(site)
        alice.type("PRINT HELLO", "LOGOFF")
        return await alice.rest()

    run(tried())
    is_reported = site.await_message("PRT0001-ALICE.txt cannot be written, and waits: File exists")
    check("a printout that cannot be written", is_reported, *site.findings)
    status, spool, end = (operator(site, word).stdout for word in ("status", "spool", "end"))
    holds = (
        "1 closed, 1 not written: File exists" in status
        and "PRT0001-ALICE.txt 1 line, waits" in spool
    )
    check("is seen by the operator", holds, status, spool)
    check("and keeps the session from its end", "not written: PRT0001-ALICE.txt" in end, end)
    os.unlink(folder)
    check(
        "and is written when it can be",
        site.await_message(f"closed: {folder}/PRT0001-ALICE.txt"),
        *site.findings,
    )
    spool = operator(site, "spool").stdout
    check("which is seen too", "PRT0001-ALICE.txt 1 line, written" in spool, spool)
    check(
        "then it ends",
        operator(site, "end", "logoff").returncode == 0 and site.ended() == 0,
        *site.findings,
    )


def try_commands(check: Callable, site: object) -> None:
    """What operators do to users, and users to operators; small letters; the times of what one sees again."""

    async def tried() -> None:
        alice, bob = await on(site), await on(site, "BOB", "BUILDER")
        alice.type(
            "store g1 0000002a",
            "  #cp display g1",
            "msg bob Hello there",
            "begin 100",
            "hello",
            "#cp Display G2",
        )
        for text in ("STORED", "GPR 1 = 0000002A", "SENT", "GPR 2 = 00000000"):
            await alice.until(text)
        await bob.until("MSG FROM ALICE: Hello there")
        check("small letters of commands are capitals", True)
        alice.type("#cp", "msg oper Help me")
        await alice.until("SENT")
        findings = site.await_message("OPER: MSG FROM ALICE: Help me")
        check("a message to the operator", findings, *site.findings)
        commands = ["message BOB For you", "message bob For you too", "message For all", "force bob", "force BOB", "message BOB x",
                    "force NOBODY", "force", "logmsg Closed on Sunday", "end at 03:00", "end cancel", "end at 24:00", "force OPER"]  # fmt: skip
        answers = [operator(site, *words.split()).returncode for words in commands]
        check(
            "commands of an operator",
            answers == [0, 0, 0, 0, 1, 1, 1, 1, 0, 0, 0, 1, 1],
            *map(str, answers),
        )
        seen = await bob.rest()
        wanted = [
            "OPERATOR: For you",
            "OPERATOR: For you too",
            "OPERATOR: For all",
            "YOU ARE LOGGED OFF: BY THE OPERATOR",
            "LOGOFF OK",
        ]
        check("are seen by who they are for", seen[-5:] == wanted, *seen)
        await alice.until("OPERATOR: For all")
        told = operator(site, "message", "NOBODY", "is", "here").stdout
        check("an operator hears how many see a message", "shown at 1 terminal\n" in told, told)
        check("and by nobody else", not any("or you" in line for line in alice.lines), *alice.lines)
        alice.go()
        back, bob = await on(site), await on(site, "BOB", "BUILDER")
        await back.until("SENT")
        times = [
            line for line in back.lines if re.fullmatch(r"-- \d{4}-\d\d-\d\d \d\d:\d\d UTC", line)
        ]
        check(
            "what one sees again has its times",
            back.lines[1] == "RECONNECTED" and back.lines[2] in times,
            *back.lines,
        )
        await bob.until("Closed on Sunday")
        check(
            "who logs on sees the log message",
            bob.lines[1:] == ["LOGON OK", "Closed on Sunday"],
            *bob.lines,
        )
        back.type("logoff")
        bob.type("logoff")
        await asyncio.gather(back.rest(), bob.rest())

    more = ("--operate", f"{site.folder}/operator", "--operator", "OPER")
    site.online(*more)
    run(tried())
    recording = read(site.record)
    holds = b"LINE ALICE hello\n" in recording and b"LINE ALICE   #CP DISPLAY G1\n" in recording
    check("what goes to a running machine stays as it was typed", holds)
    planned = operator(site, "end", "at", "03:00").stdout
    site.stop()
    site.online(*more)
    answer = operator(site, "logmsg").stdout
    check("the log message outlives a start", "Closed on Sunday" in answer, answer)
    check(
        "so does a planned end",
        planned and planned[9:] in site.since_start(),
        planned,
        *site.findings,
    )
    holds = operator(site, "end", "cancel").returncode == 0 and not os.path.exists(
        f"{site.record}.end-at"
    )
    check("until it is taken back", holds)
    run(try_closed(check, site))
    site.stop()
    write(f"{site.record}.end-at", "2026-01-02 03:00\n")
    site.online(*more)
    findings = "the session was to end at 2026-01-02 03:00, which is past: it goes on"
    check(
        "one that is past is reported",
        findings in site.since_start() and not os.path.exists(f"{site.record}.end-at"),
        *site.findings,
    )
    check(
        "the operator's user is nobody who is on",
        operator(site, "end", "logoff").returncode == 0 and site.ended() == 0,
        *site.findings,
    )


async def try_closed(check: Callable, site: object) -> None:
    """While logon is closed who is on may come back, and nobody else may come."""
    alice = await on(site)
    closed = operator(site, "logon", "closed").stdout
    alice.go()
    back = await on(site)
    other = await person(f"{site.folder}/socket")
    refused = await other.logon("BOB", "BUILDER")
    opened = operator(site, "logon", "open").stdout
    bob = await on(site, "BOB", "BUILDER")
    findings = (closed[9:], back.lines[1], refused, opened[9:], bob.lines[1])
    wanted = ("logon is closed\n", "RECONNECTED", "LOGON IS CLOSED", "logon is open\n", "LOGON OK")
    check("logon is closed, and opened", findings == wanted, *findings)
    for one in (back, bob):
        one.type("LOGOFF")
        await one.rest()


def try_small_faults(check: Callable, site: object) -> None:
    """Faults that are reported at once, by the place where they are."""
    from gathjumli.checkpoints import copy_whole
    from gathjumli.cli import Failure

    streams = {"capture_output": True, "text": True, "stdin": subprocess.DEVNULL}
    wrong = subprocess.run(
        [site.command, "--record", "r", "--listen", "127.0.0.1:99999", *site.paths], **streams
    )
    same = subprocess.run(
        [site.command, *site.words, "--sender", "OPER", "--operator", "OPER", *site.paths],
        **streams,
    )
    check(
        "one user for two things",
        same.returncode == 2 and "--operator is another one" in same.stderr,
        same.stderr,
    )
    check(
        "a port that is none",
        wrong.returncode == 2 and "is no value of --listen" in wrong.stderr,
        wrong.stderr,
    )
    write(f"{site.folder}/file", "")
    wrong = subprocess.run(
        [site.command, *site.words, "--decks", f"{site.folder}/file", *site.paths], **streams
    )
    holds = (
        wrong.returncode == 3
        and "file: File exists" in wrong.stderr
        and "online" not in wrong.stdout
    )
    check("a folder of decks that is a file", holds, wrong.stderr)
    try:
        copy_whole(f"{site.folder}/file", f"{site.folder}/none/copy")
    except Failure as failure:
        check(
            "a copy names the place that fails",
            f"{site.folder}/none/copy cannot be written" in failure.lines[0],
            *failure.lines,
        )
    site.start(most_bytes=os.path.getsize(site.record) + 10)
    holds = (
        site.ended() == 3
        and f"installation: {site.record}: " in site.since_start()
        and "online" not in site.since_start()
    )
    check("a full disk is found before anybody is served", holds, *site.findings)
    os.unlink(site.record)
    os.makedirs(f"{site.folder}/real")
    os.symlink("real/recording", site.record)
    os.chmod(site.paths[0], 0o644)
    site.online()
    check(
        "passwords that others may read are reported",
        "others may read it: chmod 600" in site.since_start(),
        *site.findings,
    )
    site.operate("end logoff")
    check("it ends", site.ended() == 0, *site.findings)
    kept = [name for name in names_in(f"{site.folder}/real") if name.startswith("recording.2")]
    holds = len(kept) == 1 and "recording" in names_in(f"{site.folder}/real/{kept[0]}")
    check("a recording that is a link is set aside where it is", holds, *kept)


def try_failed_end(check: Callable, site: object) -> None:
    """An end without room is refused with the reason, and one that fails later has another status than one that ends well."""
    volume = f"{site.folder}/volume"
    write(volume, "AS IT WAS\n")
    site.paths.append(volume)
    operate = ["--operate", f"{site.folder}/operator"]
    site.online(*operate)
    run(logged_on(site, "ALICE", "WONDER"))
    disk = os.statvfs(site.folder)
    # a file of which nothing is on the disk
    os.truncate(volume, disk.f_bavail * disk.f_frsize + (1 << 31))
    for words in (("end",), ("end", "now"), ("end", "logoff", "now")):
        refused = operator(site, *words)
        holds = refused.returncode == 1 and "the disk is full: it has " in refused.stdout
        check(f"{' '.join(words)} without room", holds, refused.stdout, refused.stderr)
    write(volume, "AS IT WAS\n")
    answer = run(logged_on(site, "ALICE", "WONDER"))
    check("the session goes on", answer == "RECONNECTED", answer, *site.findings)
    check("it is suspended", operator(site, "suspend").returncode == 0 and site.ended() == 0)
    os.environ["PEOPLE_SAVES"] = "fails"
    site.online(*operate)
    failed = operator(site, "end")
    del os.environ["PEOPLE_SAVES"]
    holds = failed.returncode == 3 and "not as it was asked to" in failed.stderr
    check("an end that fails", holds, failed.stdout, failed.stderr)
    holds = "the session has not ended: a volume is not saved" in failed.stdout
    check("the reason is said", holds and site.ended() == 3, failed.stdout, *site.findings)
    site.online(*operate)
    check("the next start ends it, and the next session begins", site.stop() == 0, *site.findings)
    check("volumes are saved", read(volume) == b"SAVED\n", *site.findings)


def try_operating(check: Callable, command: str, folder: str) -> None:
    """All that is tried in seconds, over a stand-in for the program."""
    os.makedirs(folder)
    try_unit(check, folder)
    try_relief(check)
    try_operators(check, make_site(command, f"{folder}/operators"))
    try_failed_end(check, make_site(command, f"{folder}/failed end"))
    try_limits(check, make_site(command, f"{folder}/limits"))
    try_waiting_printout(check, make_site(command, f"{folder}/waiting"))
    try_commands(check, make_site(command, f"{folder}/commands"))
    try_small_faults(check, make_site(command, f"{folder}/small"))
