"""Backups of an installation while it runs, and what it removes by its rules. Called by tests/commands/people.py."""
from __future__ import annotations

from collections.abc import Callable
import asyncio
import glob
import os
import re
import subprocess
import time

from tests.installation.operators import operator
from tests.installation.states import shown, stored, value_in
from tests.lib.files import names_in, read, write
from tests.lib.images import blank_image
from tests.lib.places import TOP
from tests.lib.sites import Site, make_site, on, run, until_so

DAY = 24 * 3600
BACKUPS = 5
# bytes of a volume whose copy takes a while
LARGE = 1 << 29


# --- backups ---


def restored(command: str, folder: str, backup: str) -> Site:
    """An installation that goes on from a copy of a backup."""
    os.makedirs(folder)
    copy = f"{folder}/copy"
    subprocess.run(["cp", "-a", backup, copy], check=True)
    site = Site(command, folder, f"{copy}/directory")
    site.record = f"{copy}/recording"
    site.words[site.words.index("--record") + 1] = site.record
    site.paths += [f"{copy}/{name}" for name in names_in(copy) if name.startswith("volume-")]
    return site


def try_backup(check: Callable, site: Site, folder: str) -> None:
    """Each backup that is made while somebody types goes on elsewhere with all that was shown before it, and nothing half done."""
    volume = f"{site.folder}/volume"
    write(volume, blank_image("V1", 1))
    site.paths.append(volume)
    write(f"{site.record}.rules", "quota 99\n")
    site.online("--operate", f"{site.folder}/operator", "--state-every", "1")
    backups = [f"{site.folder}/backup {place}" for place in range(BACKUPS)]
    seen: list[tuple[int, int]] = []

    async def typed() -> None:
        alice, values = await on(site), [0]

        async def types() -> None:
            while len(seen) < BACKUPS:
                alice.type(f"STORE G1 {values[0] + 1:08X}", "DISPLAY G1")
                await alice.until(f"GPR 1 = {values[0] + 1:08X}")
                values[0] += 1

        typing = asyncio.create_task(types())
        for path in backups:
            before = values[0]
            done = await asyncio.to_thread(operator, site, "backup", path)
            check("a backup is made", done.returncode == 0, done.stdout, done.stderr)
            seen.append((before, values[0] + 1))
        await typing
        alice.go()

    run(typed())
    again = operator(site, "backup", backups[0])
    holds = again.returncode == 1 and "is there already" in again.stdout
    check("a backup in the place of another is refused", holds, again.stdout)
    wrong = operator(site, "backup", "here")
    check("so is a path from elsewhere", wrong.returncode == 1, wrong.stdout)
    check("it is suspended", site.stop() == 0, *site.findings)
    for place, (path, (least, most)) in enumerate(zip(backups, seen)):
        names = names_in(path)
        wanted = {"recording", "recording.rules", "directory", "volume-1", "contents"}
        modes = {os.stat(f"{path}/{name}").st_mode & 0o777 for name in names}
        check("it has all, for its owner", wanted <= set(names) and modes == {0o600}, *names)
        other = restored(site.command, f"{folder}/{place}", path)
        other.online()
        value = value_in(run(shown(other)))
        check("it goes on from there", least <= value <= most, f"{least} {value} {most}")
        check("it is suspended", other.stop() == 0, *other.findings)


def restoring() -> str:
    """The command of docs/OPERATING.md that puts all of a backup back where it was."""
    return re.search(r"(?m)^ +(while read .*)$", read(f"{TOP}/docs/OPERATING.md").decode())[1]


def try_put_back(check: Callable, site: Site) -> None:
    """A backup is put back in its place by the command of the document, when what is left there was moved away."""
    volume = f"{site.folder}/volume"
    write(volume, blank_image("V1", 1))
    site.paths.append(volume)
    write(f"{site.record}.rules", "quota 99\n")
    site.online("--operate", f"{site.folder}/operator")
    run(stored(site, 7))
    # a state is in the backup too
    check("it is suspended", site.stop() == 0, *site.findings)
    site.online("--operate", f"{site.folder}/operator")
    path = f"{site.folder}/monday"
    check("a backup is made", operator(site, "backup", path).returncode == 0, *site.findings)
    run(stored(site, 8))
    check("it is suspended", site.stop() == 0, *site.findings)
    away = f"{site.folder}/away"
    os.makedirs(away)
    for old in (*glob.glob(f"{site.record}*"), *site.paths):
        os.rename(old, f"{away}/{os.path.basename(old)}")
    words = ["sh", "-c", restoring().replace("COPY", os.path.basename(path))]
    done = subprocess.run(words, cwd=site.folder, capture_output=True, text=True)
    check("it is put back", done.returncode == 0, done.stderr)
    check("with its rules", os.path.exists(f"{site.record}.rules"), *names_in(site.folder))
    site.online()
    check("it goes on from there", value_in(run(shown(site))) == 7, *site.findings)
    check("it is suspended", site.stop() == 0, *site.findings)


def try_backup_after_end(check: Callable, site: Site, folder: str) -> None:
    """A backup of a session that goes on from another one has its machines; one that is not done when the session stops is none."""
    volume = f"{site.folder}/volume"
    write(volume, blank_image("V1", 1))
    site.paths.append(volume)
    operate = ["--operate", f"{site.folder}/operator"]
    site.online(*operate)
    run(stored(site, 7))
    check("it ends", operator(site, "end").returncode == 0 and site.ended() == 0)
    site.online(*operate)
    path = f"{site.folder}/backup"
    check("a backup is made", operator(site, "backup", path).returncode == 0, *site.findings)
    other = restored(site.command, f"{folder}/ended", path)
    other.online()
    check("with the machines", value_in(run(shown(other))) == 7, *other.findings)
    check("it is suspended", other.stop() == 0, *other.findings)
    check("it is suspended too", site.stop() == 0, *site.findings)


def try_broken_off(check: Callable, site: Site) -> None:
    """A backup that is not done when the session is suspended, or whose volume was changed, leaves nothing."""
    volume = f"{site.folder}/volume"
    write(volume, b"V")
    os.truncate(volume, LARGE)
    site.paths.append(volume)
    site.online("--operate", f"{site.folder}/operator")
    command = [site.command.replace("/installation", "/operator"), f"{site.folder}/operator"]
    path = f"{site.folder}/backup"
    making = subprocess.Popen([*command, "backup", path], stdout=subprocess.PIPE, text=True)
    run(until_so(lambda: any(".new-" in name for name in names_in(site.folder))))
    second = operator(site, "backup", f"{path}2")
    check("one at a time", "a backup is being made" in second.stdout, second.stdout)
    status = site.stop()
    answer = making.communicate()[0]
    left = [name for name in names_in(site.folder) if name.startswith("backup")]
    holds = status == 0 and "no backup is made: the session stops" in answer and making.returncode
    check("one that is not done is broken off", holds and not left, answer, *left)
    os.truncate(volume, 100)
    write(volume, b"OTHER")
    site.start()
    check("a changed volume", site.ended() == 1, *site.findings)


def try_changed_meanwhile(check: Callable, site: Site) -> None:
    """A volume that others change while the session goes on is none of a backup."""
    volume = f"{site.folder}/volume"
    write(volume, b"AS IT WAS\n")
    site.paths.append(volume)
    site.online("--operate", f"{site.folder}/operator")
    write(volume, b"CHANGED\n")
    done = operator(site, "backup", f"{site.folder}/backup")
    holds = done.returncode == 1 and "is not as it was when the session began" in done.stdout
    check("a backup with a changed volume", holds, done.stdout)
    check("leaves nothing", "backup" not in names_in(site.folder))
    check("it is suspended", site.stop() == 0)


# what a service with PrivateTmp sees of its mounts
MOUNTS = """22 1 254:0 / / rw - ext4 /dev/vda rw
31 22 254:0 /tmp/systemd-private-8fcd-installation.service-yAah5X/tmp /tmp rw - ext4 /dev/vda rw
32 22 254:0 /var/tmp/systemd-private-8fcd-installation.service-Zq/tmp /var/tmp rw - ext4 /dev/vda rw
"""
FOLDERS = {"/tmp/monday": True, "/var/tmp/monday": True, "/tmpx/monday": False, "/var/lib/monday": False}  # fmt: skip


def try_private(check: Callable) -> None:
    """Which folders only the service sees, so that nobody would find a backup there."""
    from gathjumli.host import is_private

    for folder, wanted in FOLDERS.items():
        check(f"{folder} of a service", is_private(folder, MOUNTS) == wanted)
    check("of none", not is_private("/tmp/monday", MOUNTS.splitlines()[0]))


# --- what is removed ---


def make_old(path: str) -> None:
    then = time.time() - 3 * DAY
    os.utime(path, (then, then))


def try_keep(check: Callable, site: Site) -> None:
    """What has ended and is old goes by the rule alone: ended recordings, printouts and the journal; what is of now, or others', stays."""
    prints, journal = f"{site.folder}/prints", f"{site.folder}/journal"
    words = ["--operate", f"{site.folder}/operator", "--printouts", prints, "--journal", journal]

    async def prints_one(session: int) -> None:
        alice = await on(site)
        alice.type("PRINT HELLO", "LOGOFF")
        await alice.rest()
        # an end before that is refused
        await until_so(lambda: len(glob.glob(f"{prints}/*/PRT*.txt")) > session)

    ended = []
    for session in range(2):
        site.online(*words)
        run(prints_one(session))
        check("it ends", operator(site, "end").returncode == 0 and site.ended() == 0)
        ended = kept_names(site)
    old, new = (f"{site.folder}/{name}" for name in ended)
    sessions = [f"{prints}/{name.partition('.')[2]}" for name in ended]
    make_old(f"{old}/recording")
    make_old(f"{sessions[0]}/PRT0001-ALICE.txt")
    others = [f"{site.record}.2026-01-01-000000", f"{site.record}.left-2026-01-01-000000"]
    for path in others:
        os.makedirs(path)
        write(f"{path}/mine", "MINE\n")
        make_old(f"{path}/mine")
    write(f"{sessions[1]}/mine", "MINE\n")
    make_old(f"{sessions[1]}/mine")
    write(journal, "2026-01-01 00:00:00 ALICE logs on\n" + read(journal).decode())
    site.online(*words)
    time.sleep(0.5)
    check(
        "without a rule all stays", os.path.exists(old) and "2026-01-01" in read(journal).decode()
    )
    write(f"{site.record}.rules", "keep 2 days\n")
    check("a reload", operator(site, "reload").returncode == 0)
    told = "older than 2 days, and removed: 1 ended recording, 1 printout, 1 journal"
    check("it says what goes", site.await_message(told), *site.findings)
    check("an old ended recording", not os.path.exists(old) and os.path.exists(new))
    check("an old printout", names_in(prints) == [os.path.basename(sessions[1])], *names_in(prints))
    check("no other printout", len(names_in(sessions[1])) == 2, *names_in(sessions[1]))
    check("nothing of others", all(os.path.exists(f"{path}/mine") for path in others))
    check("it is suspended", site.stop() == 0, *site.findings)
    has_old = b"2026-01-01" in read(f"{journal}.old") and b"2026-01-01" not in read(journal)
    check("the journal begins anew", has_old and told.encode() in read(journal), read(journal))


def kept_names(site: Site) -> list[str]:
    return [name for name in names_in(site.folder) if name.startswith("recording.2")]


class Decks:
    """What retention needs of an installation that has only decks."""

    def __init__(self, folder: str) -> None:
        from gathjumli.stores import FileStore

        self.options = {"record": f"{folder}/recording", "decks": f"{folder}/decks"}
        self.engine = self.printouts = self.journal = self.recording = self
        self.store = FileStore(f"{folder}/recording")
        self.folder, self.path = None, None
        self.users = {"ALICE": None, "BOB": None, "NONE": None}
        self.findings: list[str] = []
        self.notify = self.findings.append


async def decks_removed(check: Callable, folder: str) -> None:
    """Decks that were read in or refused go; links, folders and what waits stay."""
    from gathjumli.retention import Retention

    decks, secret = Decks(folder), f"{folder}/secret"
    alice, bob = f"{folder}/decks/ALICE", f"{folder}/decks/BOB"
    os.makedirs(f"{alice}/done/folder")
    os.makedirs(f"{alice}/refused")
    os.makedirs(secret)
    os.makedirs(bob)
    for path in (f"{alice}/waits", f"{alice}/done/a", f"{alice}/refused/b", f"{secret}/card"):
        write(path, "CARD\n")
    os.symlink(secret, f"{bob}/done")
    os.symlink(f"{secret}/card", f"{alice}/done/link")
    retention = Retention(decks)
    retention.take(2)
    retention.remove_old(time.time() - DAY)
    check("new decks stay", names_in(f"{alice}/done") == ["a", "folder", "link"])
    retention.remove_old(time.time() + DAY)
    check("old decks go", names_in(f"{alice}/done") == ["folder", "link"], *decks.findings)
    check("refused ones too", names_in(f"{alice}/refused") == [])
    holds = os.path.exists(f"{alice}/waits") and os.path.exists(f"{secret}/card")
    check("what waits stays, and what links lead to", holds)
    told = ["older than 2 days, and removed: 2 decks"]
    check("it says so", decks.findings == told, *decks.findings)


def try_keeping(check: Callable, command: str, folder: str) -> None:
    """All that is tried in seconds, over a stand-in for the program."""
    os.makedirs(folder)
    try_private(check)
    run(decks_removed(check, f"{folder}/decks"))
    try_keep(check, make_site(command, f"{folder}/keep"))
    try_backup(check, make_site(command, f"{folder}/backup"), f"{folder}/restored")
    after = make_site(command, f"{folder}/after")
    try_backup_after_end(check, after, f"{folder}/restored after")
    try_put_back(check, make_site(command, f"{folder}/put back"))
    try_broken_off(check, make_site(command, f"{folder}/broken"))
    try_changed_meanwhile(check, make_site(command, f"{folder}/changed"))
