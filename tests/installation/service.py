#!/usr/bin/env python3
"""Tries docs/installation.service under a systemd of its own, over the program that was built: tests/installation/service.py [--unproved].
People log on while files are read again, programs hang and are killed, a session ends, and all is put back from a backup. Of the unit
only the times after which something hangs are shorter, and the port is another. It needs the superuser, systemd and cgroup2, and is no
part of the gate. The last line is 'N passed, M failed'."""
from __future__ import annotations

from collections.abc import Callable, Iterator
import asyncio
import contextlib
import os
import re
import subprocess
import sys
import tempfile
import time

sys.dont_write_bytecode = True
TOP = os.path.dirname(os.path.dirname(os.path.dirname(os.path.realpath(__file__))))
sys.path[:0] = [TOP, f"{TOP}/bin/lib"]

from gathjumli.cli import read_arguments
from tests.installation.keeping import restoring
from tests.installation.town import lay_out
from tests.lib.counting import Counts
from tests.lib.files import read_text, write
from tests.lib.host import ADDRESS, free_port
from tests.lib.images import blank_image
from tests.lib.sites import DIRECTORY, person

STATE = "/var/lib/gathjumli"
OPERATOR = "/opt/gathjumli/bin/gathjumli operator /run/gathjumli/operator"
# the seconds after which a program and the command hang, here and in the unit
HUNG, WATCHDOG = 5, 10
# how long a start may take
PATIENCE = 60
CAROL = "USER CAROL NEW 64K\nCONSOLE 009 3215\n"

totals = Counts()
check = totals.check


@contextlib.contextmanager
def own_cgroup() -> Iterator[str]:
    """A group of processes that a systemd may have for its root; the word with which a command joins it."""
    found = next(line for line in read_text("/proc/mounts").splitlines() if " cgroup2 " in line)
    path = f"{found.split()[1]}/service-{os.getpid()}"
    os.mkdir(path)
    try:
        yield f"{path}/cgroup.procs"
    finally:
        until = time.monotonic() + PATIENCE
        # those in it take a moment to end
        while os.path.exists(path) and time.monotonic() < until:
            for folder, _, _ in os.walk(path, topdown=False):
                with contextlib.suppress(OSError):
                    os.rmdir(folder)
            time.sleep(0.1)


class Service:
    """The unit, under a systemd in namespaces of its own."""

    def __init__(self, folder: str, installed: str) -> None:
        self.port, self.count = free_port(), 0
        unit = read_text(f"{TOP}/docs/installation.service")
        words = f"installation --hung-after {HUNG} --listen {ADDRESS}:{self.port} "
        unit = unit.replace("installation --operate", f"{words}--operate")
        write(f"{folder}/unit", re.sub("WatchdogSec=.*", f"WatchdogSec={WATCHDOG}", unit))
        os.mkdir(f"{folder}/state")
        os.mkdir(f"{folder}/base")
        write(f"{folder}/state/users", DIRECTORY)
        write(f"{folder}/state/work.image", blank_image("WORK01", 2))
        self.words = [f"{TOP}/tests/installation/own_systemd", f"{folder}/base", f"{folder}/unit"]
        self.words += [installed, f"{folder}/state"]

    def start(self, group: str) -> None:
        """Starts the systemd; the service then starts with it."""
        spaces = "unshare --pid --fork --kill-child --mount --uts --ipc --cgroup".split()
        joins = ["sh", "-c", f'echo $$ > {group} && exec "$@"', "sh", *spaces, *self.words]
        self.outer = subprocess.Popen(joins, stdin=subprocess.DEVNULL, start_new_session=True)
        holds = self.await_so(lambda: self.show("ActiveState") == "active")
        check("the service is started", holds, self.journal())

    def stop(self) -> None:
        # and with it all in the namespaces
        self.outer.kill()
        self.outer.wait(PATIENCE)

    def first(self) -> int:
        """The first process of the namespaces."""
        path = f"/proc/{self.outer.pid}/task/{self.outer.pid}/children"
        return int(read_text(path).split()[0])

    def inside(self, command: str) -> subprocess.CompletedProcess:
        """Runs a command of the shell as root there."""
        spaces = [*"nsenter -m -p -u -i -C --root --wdns=/ -t".split(), str(self.first())]
        names = ["env", "-i", "PATH=/usr/sbin:/usr/bin:/sbin:/bin"]
        words = [*spaces, *names, "sh", "-c", command]
        return subprocess.run(words, capture_output=True, text=True, timeout=2 * PATIENCE, cwd="/")

    def show(self, name: str) -> str:
        """What systemd says of the service."""
        return self.inside(f"systemctl show installation -P {name}").stdout.strip()

    def journal(self) -> str:
        return self.inside(f"cat {STATE}/journal").stdout

    def operate(self, command: str) -> subprocess.CompletedProcess:
        return self.inside(f"{OPERATOR} {command}")

    def await_so(self, holds: Callable[[], object]) -> bool:
        """Waits until something holds; whether it came so."""
        until = time.monotonic() + PATIENCE
        while time.monotonic() < until:
            with contextlib.suppress(IndexError, OSError):
                if holds():
                    return True
            time.sleep(0.2)
        return False

    async def typed(self, *lines: str, name: str = "ALICE", password: str = "WONDER") -> str:
        """The last line that somebody is shown who logs on, types these, and goes."""
        one = await person((ADDRESS, self.port))
        # lines of before are shown again
        self.count += 1
        await one.logon(name, password)
        one.type(*lines, f"MSG {name} OVER {self.count}")
        await one.until(f"MSG FROM {name}: OVER {self.count}")
        one.go()
        return one.lines[-3]

    def value(self) -> str:
        return asyncio.run(self.typed("DISPLAY G1"))

    def is_back(self, restarts: int) -> bool:
        """Whether the service is active after so many restarts."""
        return self.await_so(
            lambda: (self.show("NRestarts"), self.show("ActiveState")) == (f"{restarts}", "active")
        )


def try_reload(service: Service) -> None:
    """A reload succeeds or fails as what is read does."""
    asyncio.run(service.typed("STORE G1 00000007"))
    done = service.inside("systemctl reload installation")
    holds = done.returncode == 0 and service.journal().count("are read again") == 1
    check("a reload", holds, done.stderr, service.journal())
    check("it is active after that", service.show("ActiveState") == "active")
    # as root writes it, it is not the service's to read
    service.inside(f"umask 077 && echo lock ALICE > {STATE}/today.rules")
    done = service.inside("systemctl reload installation")
    wanted = "rules not read again: today.rules: Permission denied"
    check("a reload that fails", done.returncode and wanted in service.journal(), service.journal())
    service.inside(f"rm {STATE}/today.rules")
    check("the service goes on", service.value() == "GPR 1 = 00000007")


def try_hangs(service: Service) -> None:
    """Whatever hangs or is killed is started again, and nothing that was shown is lost."""
    service.inside("pkill -STOP -P $(systemctl show installation -P MainPID) -f ' vm370 '")
    check("a line is answered after the program hung", service.value() == "GPR 1 = 00000007")
    wanted = f"the program gives no answer for {HUNG} seconds: it is killed"
    holds = wanted in service.journal() and service.show("NRestarts") == "0"
    check("the command has killed it", holds, service.journal())
    for count, sent in enumerate(("STOP", "KILL"), 1):
        service.inside(f"kill -{sent} $(systemctl show installation -P MainPID)")
        check(f"the command after a SIG{sent}", service.is_back(count), service.journal())
        check("goes on", service.value() == "GPR 1 = 00000007")


def try_backup(service: Service) -> None:
    """A backup goes where the service may write and where it stays, and is put back by the command of the document."""
    done = service.operate("backup /tmp/monday")
    check("a backup that nobody would find", "PrivateTmp" in done.stdout and done.returncode == 1)
    done = service.operate("backup /srv/monday")
    check("one that cannot be written", "ReadWritePaths" in done.stdout and done.returncode == 1)
    done = service.operate(f"backup {STATE}/monday")
    check("a backup", done.returncode == 0, done.stdout, done.stderr)
    asyncio.run(service.typed("STORE G1 00000008"))
    lost = f"systemctl stop installation && cd {STATE} && mkdir /root/lost && mv today* users work.image /root/lost"
    put_back = restoring().replace("COPY", "monday")
    done = service.inside(f"{lost} && {put_back} && systemctl start installation")
    check("it is put back", done.returncode == 0, done.stderr, service.journal())
    check("with what was shown before", service.value() == "GPR 1 = 00000007")


def try_ends(service: Service) -> None:
    """After an end the next session begins; after an end with a stop another directory may be put there."""
    restarts = int(service.show("NRestarts"))
    done = service.operate("end")
    check("it ends", done.returncode == 0, done.stdout, done.stderr)
    check("the next session begins", service.is_back(restarts + 1), service.journal())
    check("with the machines", service.value() == "GPR 1 = 00000007")
    done = service.inside(f"{OPERATOR} end logoff now && systemctl stop installation")
    holds = done.returncode == 0 and service.show("ActiveState") == "inactive"
    check("it ends and stays down", holds, done.stdout, done.stderr)
    service.inside(f"printf '{CAROL}' >> {STATE}/users && systemctl start installation")
    shown = asyncio.run(service.typed("DISPLAY G1", name="CAROL", password="NEW"))
    check("with another directory", shown == "GPR 1 = 00000000", shown, service.journal())


def try_refused(service: Service) -> None:
    """A stop suspends; what is refused stays down."""
    done = service.inside("systemctl stop installation")
    holds = done.returncode == 0 and service.show("Result") == "success"
    check("a stop", holds and "is suspended" in service.journal(), service.journal())
    service.inside(f"sed -i s/NEW/OLD/ {STATE}/users && sed -i 's/LOGON/LOGOFF/' {STATE}/today")
    done = service.inside("systemctl start installation")
    time.sleep(6)
    found = [service.show(name) for name in ("ActiveState", "ExecMainStatus", "NRestarts")]
    check("what is refused stays down", found == ["failed", "1", "0"], *found, service.journal())


def main() -> None:
    found, _ = read_arguments(sys.argv[1:], {"--unproved": None}, 0, 0)
    with tempfile.TemporaryDirectory(prefix="try-service-") as folder, own_cgroup() as group:
        service = Service(folder, lay_out(folder, bool(found["--unproved"])))
        service.start(group)
        try:
            for part in (try_reload, try_hangs, try_backup, try_ends, try_refused):
                part(service)
        finally:
            service.stop()
    sys.exit(totals.report())


main()
