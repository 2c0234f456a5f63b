"""What an installation reads again without a restart, and what it does if that fails. Called by tests/commands/people.py."""
from __future__ import annotations

from collections.abc import Callable
import os
import signal
import ssl
import subprocess

from tests.installation.operators import operator
from tests.installation.strangers import make_certificate
from tests.lib.files import read, write
from tests.lib.host import free_port
from tests.lib.sites import DIRECTORY, Site, logged_on, make_site, run

REFUSED = "LOGON REFUSED"
FORMS = "a line is one of quota, memory, lock, deny, allow, trust, keep, and a word, and after keep N the word days"
# wrong lines of the rules, and what is said of them
WRONG_RULES = {
    "quota many": "quota is followed by a number from 1 to 999999, and not by many",
    "deny 10.0.0.0/99": "deny is followed by an address or a network, as 10.0.0.0/8, and not by 10.0.0.0/99",
    "lock alice": "lock is followed by the name of a user, in capitals, and not by alice",
    "lock": FORMS,
    "hold ALICE": FORMS,
    "keep 30": FORMS,
    "keep 30 weeks": FORMS,
    "quota 30 days": FORMS,
    "keep all days": "keep is followed by a number from 1 to 999999, and not by all",
}
ADDRESSES = {
    "": True,
    "10.1.2.3": False,
    "::ffff:10.1.2.3": False,
    "11.1.2.3": True,
    "12.1.2.3": False,
    "2001:db8::1": True,
    "fe80::1%eth0": False,
}


def set_password(site: Site, path: str, name: str, password: str) -> None:
    command = site.command.replace("/installation", "/passwords")
    subprocess.run(
        [command, path, name], input=f"{password}\n", text=True, check=True, capture_output=True
    )


def answer(site: Site, password: str, name: str = "ALICE") -> str:
    return run(logged_on(site, name, password))


def try_passwords_file(check: Callable, site: Site) -> None:
    """A broken line of the passwords file refuses nobody, and the journal names it."""
    path = f"{site.folder}/passwords"
    set_password(site, path, "ALICE", "FIRST")
    site.online("--passwords", path)
    check("a password of the file", answer(site, "FIRST") == "LOGON OK", *site.findings)
    whole = read(path).decode()
    write(path, f"{whole}BOB garbage\n")
    check("a broken line refuses nobody", answer(site, "FIRST") == "RECONNECTED", *site.findings)
    wanted = (
        f"{path}: line 2 is no name with a salt and a sum; the passwords count that were read last"
    )
    check("the journal names file and line", site.await_message(wanted), *site.findings)
    os.unlink(path)
    check("nor does a file that is lost", answer(site, "FIRST") == "RECONNECTED", *site.findings)
    set_password(site, path, "ALICE", "SECOND")
    check("a new one counts", answer(site, "SECOND") == "RECONNECTED", *site.findings)
    check("it is suspended", site.stop() == 0)


def try_reload(check: Callable, site: Site) -> None:
    """The journal, the certificate, the passwords of the directory and the rules are read again."""
    journal, directory = f"{site.folder}/journal", site.paths[0]
    words = ["--operate", f"{site.folder}/operator", "--journal", journal]
    site.online(*words)
    os.rename(journal, f"{journal}.1")
    write(directory, DIRECTORY.replace("WONDER", "ANOTHER"))
    check("before a reload", answer(site, "ANOTHER") == REFUSED)
    done = operator(site, "reload")
    check("a reload", done.returncode == 0 and "are read again" in done.stdout, done.stdout)
    check("a password of the directory", answer(site, "ANOTHER") == "LOGON OK", *site.findings)
    check("the old one is wrong", answer(site, "WONDER") == REFUSED, *site.findings)
    check("the journal goes on in a new file", b"ALICE logs on" in read(journal))
    write(f"{site.record}.rules", "# at night\nlock BOB\nlock BEN\nquota 9\n")
    os.rename(journal, f"{journal}.2")
    site.process.send_signal(signal.SIGHUP)
    wanted = f"{site.record}.rules locks BEN, who is no user"
    check("a lock of nobody is told", site.await_message(wanted), *site.findings)
    check("a locked user", answer(site, "BUILDER", "BOB") == REFUSED)
    told = operator(site, "users").stdout
    check("the operator sees who is locked", "BOB is locked\n" in told, told)
    check("a SIGHUP does so", b"are read again" in read(journal), read(journal))
    write(directory, DIRECTORY.replace("USER BOB", "USER BEN"))
    write(f"{site.record}.rules", "quota many\n")
    done = operator(site, "reload")
    wanted = (
        "passwords not read again",
        "has other changes than passwords",
        "rules, line 1: quota is",
    )
    holds = done.returncode == 1 and all(text in done.stdout for text in wanted)
    check("what cannot be read stays", holds, done.stdout, done.stderr)
    check("the journal says so", site.await_message(wanted[2]), site.since_start())
    check("as does the lock", answer(site, "BUILDER", "BOB") == REFUSED)
    check("and his wrong passwords are wrong", answer(site, "WONDER", "BOB") == REFUSED)
    write(directory, DIRECTORY)
    os.unlink(f"{site.record}.rules")
    check("without rules", operator(site, "reload").returncode == 0)
    check("he is let in", answer(site, "BUILDER", "BOB") == "LOGON OK", *site.findings)
    check("it is suspended", site.stop() == 0)
    told = site.since_start()
    holds = (
        "BOB is locked, and was refused 2 times\n" in told and "a wrong password for BOB\n" in told
    )
    check("the journal tells a lock from a wrong password", holds, told)


def certificate_at(port: int) -> str:
    return ssl.get_server_certificate(("127.0.0.1", port))


def try_new_certificate(check: Callable, site: Site) -> None:
    """A new certificate counts after a reload; one whose key does not fit does not."""
    words = make_certificate(site.folder)
    if not words:
        print("no openssl: a new certificate was not tried")
        return
    port, path = free_port(), words[1]
    site.words[site.words.index("--listen") + 1] = f"127.0.0.1:{port}"
    site.online("--operate", f"{site.folder}/operator", *words)
    first = certificate_at(port)
    make_certificate(site.folder)
    check("before a reload", certificate_at(port) == first != read(path).decode())
    check("a reload", operator(site, "reload").returncode == 0)
    second = certificate_at(port)
    check("the new certificate", second.strip() == read(path).decode().strip() != first)
    write(path, first)
    done = operator(site, "reload")
    holds = done.returncode == 1 and "certificate not read again" in done.stdout
    check("one without its key", holds and certificate_at(port) == second, done.stdout)
    check("it is suspended", site.stop() == 0)


def try_rules(check: Callable, folder: str) -> None:
    """Wrong rules are refused by file and line, and rules say which addresses may come."""
    from gathjumli.cli import Failure
    from gathjumli.rules import read_rules

    path = f"{folder}/rules"
    for line, wanted in WRONG_RULES.items():
        write(path, f"quota 7\n\n{line}\n")
        try:
            findings = str(read_rules(path))
        except Failure as failure:
            findings = failure.lines[0]
        check(f"a rule that is none: {line}", findings == f"{path}, line 3: {wanted}", findings)
    write(path, "deny 10.0.0.0/8 # others\nallow 10.0.0.0/7\nallow 2001:db8::/32\n")
    rules = read_rules(path)
    for address, wanted in ADDRESSES.items():
        check(f"rules for {address!r}", rules.lets_in(address) == wanted)


def try_modes(check: Callable, site: Site) -> None:
    """Whatever the umask is, files with guests' storages are for their owner only."""
    mask = os.umask(0o022)
    try:
        site.online()
        answer(site, "WONDER")
        site.operate("end now")
        check("it ends", site.ended() == 0, *site.findings)
        site.online()
        answer(site, "WONDER")
        check("it is suspended", site.stop() == 0, *site.findings)
    finally:
        os.umask(mask)
    found = {}
    for folder, _, names in os.walk(site.folder):
        for name in names:
            if name in ("begin", "end", "recording") or name.startswith("recording."):
                found[os.path.join(folder, name)] = (
                    os.stat(os.path.join(folder, name)).st_mode & 0o777
                )
    holds = len(found) >= 4 and set(found.values()) == {0o600}
    check("states and recordings are for their owner", holds, *map(str, found.items()))


def try_reloading(check: Callable, command: str, folder: str) -> None:
    """All that is tried in seconds, over a stand-in for the program."""
    os.makedirs(folder)
    try_rules(check, folder)
    try_passwords_file(check, make_site(command, f"{folder}/passwords"))
    try_reload(check, make_site(command, f"{folder}/reload"))
    try_new_certificate(check, make_site(command, f"{folder}/certificate"))
    try_modes(check, make_site(command, f"{folder}/modes"))
