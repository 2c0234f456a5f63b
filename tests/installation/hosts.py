#!/usr/bin/env python3
"""Many people at installations of a store on three hosts behind HAProxy, one of which is killed in the midst: tests/installation/hosts.py
[--unproved] [--installations N] [--people N] [--minutes N] [--thinks SECONDS] FOLDER. Hosts are addresses of the loopback range, and
servers a primary with a synchronous copy, made in FOLDER. It says how long lines waited, when all were back, and what was lost. Not in the
gate."""
from __future__ import annotations

from typing import Any
import os
import re
import shutil
import subprocess
import sys
import time

sys.dont_write_bytecode = True
TOP = os.path.dirname(os.path.dirname(os.path.dirname(os.path.realpath(__file__))))
sys.path[:0] = [TOP, f"{TOP}/bin/lib"]
from gathjumli.cli import last, number, read_arguments
from gathjumli.libraries import STORE, need
from tests.installation import servers
from tests.installation.store_cases import Place
from tests.installation.store_people import Host, Typists, haproxy_block, kill_all
from tests.installation.town import lay_out
from tests.lib.host import free_port
from tests.lib.sites import sizes_of

HOSTS = ["127.0.1.1", "127.0.1.2", "127.0.1.3"]


class Plant:
    """One installation on three hosts, and its people."""

    def __init__(self, place: Any, turn: int, count: int) -> None:
        self.place, self.count = place, count
        self.door, port = free_port(), free_port()
        people = "".join(
            f"USER P{item:02} SECRET 16K\nCONSOLE 009 3215\n" for item in range(1, count + 1)
        )
        place.create(people)
        self.hosts: dict[str, Host] = {}
        # the first of them goes on at first
        for address in HOSTS[turn:] + HOSTS[:turn]:
            host = Host(place, address, "--proxy-from", "127.0.0.0/8", "--state-every", "60")
            host.words[host.words.index("--listen") + 1] = f"{address}:{port}"
            self.hosts[address] = host
        lines = [f"    server {address} {address}:{port}\n" for address in HOSTS]
        self.words = (
            f"listen {place.name}\n    bind 127.0.0.1:{self.door}\n    option tcp-check\n    tcp-check expect string ONLINE\n"
            + "".join(lines)
        )

    def start(self) -> None:
        for number_of, host in enumerate(self.hosts.values()):
            host.online() if number_of == 0 else host.start()

    def people(self, thinks: float) -> Typists:
        self.typists = Typists([("127.0.0.1", self.door)], self.count, thinks)
        return self.typists

    def faults(self, repository: str) -> list[str]:
        """What was lost, and whether the recording replays."""
        found = self.typists.faults(self.place.recorded())
        folder = f"{self.place.folder}/fetched"
        self.place.store("fetch", self.place.name, folder)
        words = [
            f"{repository}/programs/gathjumli_cli",
            "vm370",
            *sizes_of(f"{folder}/recording"),
            "--",
            f"{folder}/directory",
            f"{folder}/recording",
        ]
        done = subprocess.run(words, capture_output=True)
        shown = len(re.findall(rb"^P\d\d: MSG FROM P\d\d: P\d\d-", done.stdout, re.M))
        if done.returncode or shown < sum(map(len, self.typists.shown.values())):
            found.append(
                f"{self.place.name} does not replay: status {done.returncode}, {shown} lines"
            )
        return found


def percentile(waits: list[float], share: float) -> float:
    return 1000 * sorted(waits)[min(len(waits) - 1, int(share * len(waits)))] if waits else 0.0


def tell(what: str, plants: list[Plant], since: float, until: float) -> None:
    waits = [
        took for plant in plants for begun, took in plant.typists.waits if since < begun < until
    ]
    values = ", ".join(
        f"{name} {percentile(waits, share):.1f}"
        for name, share in (("median", 0.5), ("p95", 0.95), ("p99", 0.99), ("worst", 1))
    )
    print(
        f"{what}: {len(waits)} lines, {len(waits) / max(1, until - since):.0f} a second; milliseconds: {values}",
        flush=True,
    )


def run(
    folder: str, repository: str, pair: Any, counts: list[int], minutes: float, thinks: float
) -> int:
    places = [Place(pair, repository, f"{folder}/plant-{item}") for item in range(len(counts))]
    plants = [
        Plant(place, item % 3, count) for item, (place, count) in enumerate(zip(places, counts))
    ]
    for plant in plants:
        plant.start()
    for plant in plants:
        for host in list(plant.hosts.values())[1:]:
            if not host.await_message("stands by for "):
                raise AssertionError("\n".join(host.findings))
    print(
        f"{len(plants)} installations on 3 hosts: {subprocess.run(['uptime'], capture_output=True, text=True).stdout.strip()}",
        flush=True,
    )
    with open(f"{folder}/haproxy.cfg", "w") as file:
        file.write(
            haproxy_block().partition("listen ")[0] + "".join(plant.words for plant in plants)
        )
    door = subprocess.Popen(
        [shutil.which("haproxy") or "/usr/sbin/haproxy", "-f", f"{folder}/haproxy.cfg"],
        stderr=subprocess.DEVNULL,
    )
    try:
        everybody = [plant.people(thinks) for plant in plants]
        begun = time.monotonic()
        are_on = all(typists.are_back(begun) for typists in everybody)
        print(
            f"{sum(counts)} people are on after {time.monotonic() - begun:.0f} s: {are_on}",
            flush=True,
        )
        begun = time.monotonic()
        time.sleep(30 * minutes)
        tell("before", plants, begun, time.monotonic())
        killed = time.monotonic()
        for plant in plants:
            plant.hosts[HOSTS[0]].kill(is_all=True)
        cut = [plant for item, plant in enumerate(plants) if item % 3 == 0]
        are_back = all(plant.typists.are_back(killed + 1) for plant in plants)
        firsts = [
            min(b + t for b, t in plant.typists.waits if b > killed + 0.5) - killed for plant in cut
        ]
        print(
            f"{HOSTS[0]} is killed with {len(cut)} engines: online again after {min(firsts):.1f} to {max(firsts):.1f} s; "
            f"all are back: {are_back}, {sum(len(plant.typists.cuts) for plant in plants)} cut off",
            flush=True,
        )
        time.sleep(30 * minutes)
        tell("after", plants, killed + 15, time.monotonic())
        for plant in plants:
            plant.typists.is_over = True
        for plant in plants:
            plant.typists.stop()
        faults = [fault for plant in plants for fault in plant.faults(repository)]
        shown = sum(len(lines) for plant in plants for lines in plant.typists.shown.values())
        print(
            f"{shown} lines were shown; lost, twice or not replayed: {len(faults)}",
            *faults[:9],
            sep="\n    ",
        )
        return bool(faults)
    finally:
        door.kill()
        kill_all()


def main() -> int:
    need(STORE)
    options = {
        "--unproved": None,
        "--installations": number(1, 16),
        "--people": number(1, 1000),
        "--minutes": number(1, 60),
        "--thinks": float,
    }
    servers.end_well()
    found, (folder,) = read_arguments(sys.argv[1:], options, 1, 1)
    os.makedirs(folder)
    os.chmod(folder, 0o711)
    many, people = last(found["--installations"], 16), last(found["--people"], 1000)
    counts = [people // many + (item < people % many) for item in range(many)]
    repository = lay_out(folder, bool(found["--unproved"]))
    pair = servers.Pair(f"{folder}/servers", fsync=True)
    try:
        return run(
            folder,
            repository,
            pair,
            counts,
            last(found["--minutes"], 10),
            last(found["--thinks"], 10.0),
        )
    finally:
        pair.stop()
        shutil.rmtree(folder, ignore_errors=True)


if __name__ == "__main__":
    sys.exit(main())
