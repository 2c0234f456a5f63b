"""What happens to installations in a store when hosts, servers and connections fail. Called by tests/installation/stores.py."""
from __future__ import annotations

from collections.abc import Callable
from typing import Any
import filecmp
import glob
import os
import signal
import subprocess
import threading
import time

from tests.installation import store_people
from tests.installation.servers import Pair
from tests.lib.files import write

Check = Callable[..., None]
CUTS = 40
DIRECTORY = "USER ALICE WONDER 64K\nCONSOLE 009 3215\nUSER BOB BUILDER 64K\nCONSOLE 009 3215\n"
COMMITS = "FROM pg_stat_activity WHERE query LIKE 'WITH live%' AND pid <> pg_backend_pid()"
WAITS = "FROM pg_stat_activity WHERE wait_event = 'SyncRep'"


class Place:
    """The servers, the commands, and a folder of its own for a case."""

    def __init__(self, pair: Pair, repository: str, folder: str) -> None:
        self.pair, self.repository, self.folder = pair, repository, folder
        os.makedirs(folder)
        self.name = os.path.basename(folder).lower().replace("_", "-")
        self.said: list[str] = []

    def store(self, *words: str, status: int = 0) -> str:
        """What bin/store answers."""
        done = subprocess.run(
            [f"{self.repository}/bin/store", self.pair.url(), *words],
            capture_output=True,
            text=True,
        )
        if done.returncode != status:
            raise AssertionError(f"store {words}: {done.returncode} {done.stdout} {done.stderr}")
        return done.stdout + done.stderr

    def create(self, directory: str = DIRECTORY) -> None:
        write(f"{self.folder}/directory", directory)
        self.store("create", self.name, f"{self.folder}/directory")

    def engine(self, inner: str, is_standby: bool = False, **options: Any) -> Any:
        """An engine's store in a folder, which has taken the installation."""
        from gathjumli.standbys import PostgresStore

        given = {"printouts": None, "standby": is_standby, "without-copy-after": 0} | options
        found = PostgresStore(self.pair.url(), self.name, f"{self.folder}/{inner}", given)
        found.notify = self.said.append
        return found

    def begun(self, inner: str, **options: Any) -> Any:
        found = self.engine(inner, **options)
        found.begin_session()
        found.open()
        return found

    def ask(self, text: str, *given: Any) -> Any:
        return self.pair.primary.ask(text, *given, database="gathjumli")

    def recorded(self) -> bytes:
        """The recording as the primary has it."""
        rows = self.ask("SELECT place, data FROM part p JOIN installation i ON i.name = installation AND i.session = p.session "
                        "WHERE installation = %s ORDER BY place", self.name)  # fmt: skip
        data = b""
        for place, piece in rows:
            if place != len(data):
                raise AssertionError(f"a part is at {place}, and {len(data)} bytes are before it")
            data += bytes(piece)
        return data


def add(store: Any, data: bytes) -> None:
    store.append(data)
    store.settle()


def later(work: Callable[[], None]) -> threading.Thread:
    thread = threading.Thread(target=work, daemon=True)
    thread.start()
    return thread


def until(holds: Callable[[], object], seconds: float = 30) -> bool:
    """Waits until something holds; whether it does."""
    ends = time.monotonic() + seconds
    while not holds():
        if time.monotonic() > ends:
            return False
        time.sleep(0.05)
    return True


def refused(work: Callable[[], None]) -> bool:
    from gathjumli.stores_postgres import Lost

    try:
        work()
    except Lost:
        return True
    return False


def leave(*stores: Any) -> None:
    for store in stores:
        store.leave()
        store.close()
        store.lock_file.close()


# --- commits ---


def try_cuts(check: Check, place: Place) -> None:
    """A connection is cut at changing moments of commits: each is there once, in order."""
    place.create()
    engine = place.begun("a")
    for number in range(CUTS):

        def cut() -> None:
            time.sleep(0.0007 * (number % 10))
            place.ask(f"SELECT pg_terminate_backend(pid) {COMMITS}")

        thread = later(cut)
        add(engine, b"LINE %d\n" % number)
        thread.join()
    wanted = b"".join(b"LINE %d\n" % number for number in range(CUTS))
    check(
        "each of 40 commits is there once, in order", place.recorded() == wanted, place.recorded()
    )
    engine.cut(len(wanted))
    with open(engine.record, "rb") as file:
        check("and in the copy here", file.read() == wanted)
    leave(engine)


def try_lost_answers(check: Check, place: Place) -> None:
    """A commit is done, and its answer does not come: it is not done twice, and this engine goes on."""
    place.create()
    engine = place.begun("a")
    add(engine, b"LINE 1\n")
    place.pair.copy.signal_all(signal.SIGSTOP)

    def cut() -> None:
        until(lambda: place.ask(f"SELECT count(*) {WAITS}") != [(0,)])
        place.ask(f"SELECT pg_terminate_backend(pid) {WAITS}")
        time.sleep(1)
        place.pair.copy.signal_all(signal.SIGCONT)

    thread = later(cut)
    add(engine, b"LINE 2\n")
    thread.join()
    add(engine, b"LINE 3\n")
    check("a lost answer", place.recorded() == b"LINE 1\nLINE 2\nLINE 3\n", place.recorded())
    holds = any("everybody waits" in text for text in place.said) and any(
        "answers again" in text for text in place.said
    )
    check("the operator is told", holds, *place.said)
    leave(engine)


def try_cancelled_waits(check: Check, place: Place) -> None:
    """Somebody cancels the wait for the copy: the commit counts only when the copy has it, whatever a role's settings are."""
    place.create()
    place.ask("ALTER DATABASE gathjumli SET synchronous_commit = off")
    engine = place.begun("a")
    place.pair.copy.signal_all(signal.SIGSTOP)
    done: list[float] = []
    begun = time.monotonic()

    def work() -> None:
        add(engine, b"LINE 1\n")
        done.append(time.monotonic() - begun)

    thread = later(work)
    is_waiting = until(lambda: place.ask(f"SELECT count(*) {WAITS}") != [(0,)], 5)
    check("a commit waits for the copy", is_waiting and not done, *done)
    place.ask(f"SELECT pg_cancel_backend(pid) {WAITS}")
    time.sleep(1)
    check("a cancelled wait is no success", not done, *done)
    place.pair.copy.signal_all(signal.SIGCONT)
    thread.join(30)
    check(
        "it is one when the copy has it",
        bool(done) and place.recorded() == b"LINE 1\n",
        place.recorded(),
    )
    place.ask("ALTER DATABASE gathjumli RESET synchronous_commit")
    leave(engine)


def try_copy_stopped(check: Check, place: Place) -> None:
    """The copy does not answer: people wait, or go on if that was asked for; the operator is told, also when it is back."""
    place.create()
    engine = place.begun("a")
    place.pair.copy.signal_all(signal.SIGSTOP)
    thread = later(lambda: add(engine, b"LINE 1\n"))
    told = until(
        lambda: any("no copy of the store answers: everybody waits" in text for text in place.said),
        15,
    )
    check(
        "everybody waits for a copy that is stopped, and it is said",
        told and thread.is_alive(),
        *place.said,
    )
    place.pair.copy.signal_all(signal.SIGCONT)
    thread.join(30)
    leave(engine)
    engine = place.begun("b", **{"without-copy-after": 1})
    place.pair.copy.signal_all(signal.SIGSTOP)
    begun = time.monotonic()
    add(engine, b"LINE 2\n")
    took = time.monotonic() - begun
    add(engine, b"LINE 3\n")
    is_told = any("ONE server only" in text for text in place.said)
    check(
        "people go on without a copy if that is asked for",
        is_told and 0.9 < took < 8,
        took,
        *place.said,
    )
    check("status says so", "NO copy answers" in " ".join(engine.about()), *engine.about())
    place.pair.copy.signal_all(signal.SIGCONT)
    is_back = until(lambda: any("each line is there too" in text for text in place.said), 40)
    add(engine, b"LINE 4\n")
    check("and with it when it is back", is_back and engine.commits.line.has == "on", *place.said)
    check(
        "nothing is lost by that",
        place.recorded() == b"LINE 1\nLINE 2\nLINE 3\nLINE 4\n",
        place.recorded(),
    )
    leave(engine)


def try_full_database(check: Check, place: Place) -> None:
    """The database has no room: everybody waits, the reason is said, and nothing is lost when it has."""
    place.create()
    engine = place.begun("a")
    add(engine, b"LINE 1\n")
    place.ask("CREATE FUNCTION is_full() RETURNS trigger LANGUAGE plpgsql AS $$ BEGIN RAISE 'No space left on device' USING ERRCODE = '53100'; "
              "END $$; CREATE TRIGGER is_full BEFORE INSERT ON part EXECUTE FUNCTION is_full()")  # fmt: skip
    thread = later(lambda: add(engine, b"LINE 2\n"))
    told = until(lambda: any("No space left" in text for text in place.said), 10)
    check("a full database is reported, and waited for", told and thread.is_alive(), *place.said)
    place.ask("DROP TRIGGER is_full ON part; DROP FUNCTION is_full()")
    thread.join(20)
    check("then it goes on", place.recorded() == b"LINE 1\nLINE 2\n", place.recorded())
    leave(engine)


# --- engines ---


def stop_beating(engine: Any) -> None:
    """Has an engine say nothing any more, as one that hangs."""
    engine.is_leaving = True
    # the beat that is under way is seen before anybody looks
    time.sleep(1.5)


def try_stale_engine(check: Check, place: Place) -> None:
    """An engine that was taken as dead writes nothing any more: no line, no file and no end."""
    place.create()
    stale = place.begun("a")
    add(stale, b"LINE 1\n")
    stop_beating(stale)
    new = place.begun("b")
    stale.is_leaving = False
    check("the next one has the higher epoch", new.epoch == stale.epoch + 1, stale.epoch, new.epoch)
    check("a line of a stale engine", refused(lambda: add(stale, b"STALE\n")))
    stale.is_lost = False
    write(f"{place.folder}/a/recording.logmsg", "STALE\n")
    check("a file of a stale engine", refused(lambda: stale.commits.do(
        lambda server, _: stale.send(server, f"{place.folder}/a/recording.logmsg"))))  # fmt: skip
    stale.is_lost = False
    os.makedirs(f"{place.folder}/a/recording.2026-01-01-000000")
    check(
        "an end by a stale engine",
        refused(lambda: stale.turn(f"{place.folder}/a/recording.2026-01-01-000000", [])),
    )
    add(new, b"LINE 2\n")
    check(
        "the recording is the new one's", place.recorded() == b"LINE 1\nLINE 2\n", place.recorded()
    )
    stale.is_lost = True
    leave(new, stale)


def try_open_commit(check: Check, place: Place) -> None:
    """Whoever takes an installation waits for a commit that is under way, and has it."""
    import psycopg
    from gathjumli.store_tables import APPEND

    place.create()
    stale = place.begun("a")
    add(stale, b"LINE 1\n")
    stop_beating(stale)
    taken: list[Any] = []
    where = place.pair.primary.url()
    with psycopg.connect(where) as server:
        server.execute(APPEND, stale.values(place=stale.place, data=b"LINE 2\n"))
        thread = later(lambda: taken.append(place.begun("b")))
        time.sleep(7)
        check("a commit that is under way is waited for", not taken)
    thread.join(40)
    check("and is there then", bool(taken) and place.recorded() == b"LINE 1\nLINE 2\n", *place.said)
    if taken:
        add(taken[0], b"LINE 3\n")
        check("it goes on after it", place.recorded() == b"LINE 1\nLINE 2\nLINE 3\n")
        stale.is_lost = True
        leave(taken[0], stale)


def try_second_engine(check: Check, place: Place) -> None:
    """One that is no standby is refused while another one goes on; after it has left it is not."""
    from gathjumli.cli import Failure

    place.create()
    first = place.begun("a")
    second = place.engine("b")
    try:
        second.begin_session()
        check("a second engine is refused", False)
    except Failure as failure:
        check(
            "a second engine is refused",
            "--standby waits for it" in failure.lines[0],
            *failure.lines,
        )
    try:
        place.engine("a")
        check("a folder is one command's", False)
    except Failure as failure:
        check(
            "a folder is one command's",
            "--work is one for each" in failure.lines[0],
            *failure.lines,
        )
    leave(first)
    begun = time.monotonic()
    second.begin_session()
    check("after it has left it is not", second.is_engine and time.monotonic() - begun < 3)
    second.open()
    leave(second)


def try_refusals(check: Check, place: Place) -> None:
    """What bin/store refuses, and that nothing is half done then."""
    place.create()
    cases = {
        ("create", place.name, f"{place.folder}/directory"): f"the store has an installation {place.name}",
        ("create", "No Name", f"{place.folder}/directory"): "is no name",
        ("fetch", "nobody", f"{place.folder}/x"): "the store has no installation nobody",
        ("fetch", place.name, place.folder): "is there already",
        ("put", place.name, "recording", f"{place.folder}/directory"): "is none of",
        ("drop", "nobody"): "the store has no installation nobody",
    }  # fmt: skip
    for words, wanted in cases.items():
        found = place.store(*words, status=1)
        check(f"store {words[:2]}", wanted in found, found)
    found = place.store("create", "other", f"{place.folder}/none", status=3)
    check(
        "a file that is not there",
        "No such file" in found and "other" not in place.store("list"),
        found,
    )
    engine = place.begun("a")
    for words in (("drop", place.name), ("put", place.name, "rules", f"{place.folder}/directory")):
        found = place.store(*words, status=1)
        check(f"{words[0]} while a host goes on", "suspend it first" in found, found)
    add(engine, b"LINE 1\n")
    leave(engine)
    found = place.store("put", place.name, "directory", f"{place.folder}/directory", status=1)
    check("another directory for a session", "give end logoff first" in found, found)
    place.store("put", place.name, "rules", f"{place.folder}/directory")
    place.store("drop", place.name)
    rows = [
        place.ask(f"SELECT count(*) FROM {table} WHERE installation = %s", place.name)
        for table in ("part", "file", "piece")
    ]
    check("what is dropped is gone", rows == 3 * [[(0,)]], rows)


# --- servers ---


def try_server_changes(check: Check, place: Place) -> None:
    """The primary dies and its copy is promoted, then the old one is started again next to it; the later timeline is taken."""
    place.create()
    engine = place.begun("a")
    add(engine, b"LINE 1\n")
    old, new = place.pair.primary, place.pair.copy
    old.kill()
    thread = later(lambda: add(engine, b"LINE 2\n"))
    time.sleep(1)
    check("everybody waits for a primary", thread.is_alive())
    new.ask("SELECT 1")
    new.promote()
    begun = time.monotonic()
    new.ask("ALTER SYSTEM SET synchronous_standby_names = ''")
    new.ask("SELECT pg_reload_conf()")
    thread.join(30)
    check(
        "and goes on at the promoted one",
        not thread.is_alive() and time.monotonic() - begun < 10,
        *place.said,
    )
    old.start()
    place.pair.primary, place.pair.copy = new, old
    old.ask("ALTER SYSTEM SET synchronous_standby_names = ''")
    old.ask("SELECT pg_reload_conf()")
    for number in (3, 4):
        engine.commits.line.close()
        add(engine, b"LINE %d\n" % number)
    wanted = b"LINE 1\nLINE 2\nLINE 3\nLINE 4\n"
    check(
        "an old primary next to the new one is not taken",
        place.recorded() == wanted,
        place.recorded(),
    )
    # one that has not all that was shown is none, also alone
    new.signal_all(signal.SIGSTOP)
    engine.commits.line.close()
    thread = later(lambda: add(engine, b"LINE 5\n"))
    told = until(lambda: any("less than were shown" in text for text in place.said), 20)
    check("nor is it if the new one does not answer", told and thread.is_alive(), *place.said)
    new.signal_all(signal.SIGCONT)
    thread.join(30)
    check("nothing is lost or twice", place.recorded() == wanted + b"LINE 5\n", place.recorded())
    leave(engine)


# --- files and the store ---


def try_moves(check: Check, place: Place) -> None:
    """An installation of files goes into the store and comes out again, byte for byte."""
    folder, command = place.folder, f"{place.repository}/bin/installation"
    site = store_people.files_site(command, folder)
    files = store_people.made_files(folder)
    place.store(
        "create",
        "--record",
        site.record,
        "--printouts",
        f"{folder}/prints",
        place.name,
        *site.paths,
    )
    place.store("fetch", place.name, f"{folder}/fetched")
    wrong = [name for name, path in files.items()
             if not os.path.isfile(f"{folder}/fetched/{name}") or not filecmp.cmp(f"{folder}/fetched/{name}", path, shallow=False)]  # fmt: skip
    found = [
        os.path.relpath(path, f"{folder}/fetched")
        for path in glob.glob(f"{folder}/fetched/**", recursive=True)
        if os.path.isfile(path)
    ]
    check(
        "what goes into the store comes out as it was",
        len(files) > 8 and not wrong,
        *files,
        "wrong:",
        *wrong,
    )
    check("and nothing else", sorted(found) == sorted(files), *found)
    found = place.store(
        "create", "--record", f"{folder}/today", f"{place.name}-2", *site.paths, "x", status=3
    )
    check("a volume that is not there", "No such file" in found, found)


def kill_all() -> None:
    store_people.kill_all()


OF_STORE = [try_second_engine, try_cuts, try_lost_answers, try_cancelled_waits, try_copy_stopped, try_full_database, try_stale_engine,
                 try_open_commit, try_refusals, try_server_changes]  # fmt: skip
OF_HOSTS = [try_moves, *store_people.OF_HOSTS]
OF_SERVERS = store_people.OF_SERVERS
