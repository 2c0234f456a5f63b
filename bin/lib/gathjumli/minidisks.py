"""A user's minidisks with their tracks, as they were when the session began: the volumes of an installation change at its end only."""
from __future__ import annotations

from typing import Any
import os
import re
import subprocess
import threading

from gathjumli.machines import statements
from gathjumli.cli import ROOT, ask_build, read_file


TRACK = re.compile(rb"TRACK (\d+) (\d+) .*RECORDS (\d+) FILL (\d+) OF (\d+)")
VOLUME = re.compile(rb"VOLUME (\S+) CYLINDERS (\d+)")


class Minidisks:
    """Finds out of which tracks minidisks have what, once for each volume."""

    def __init__(self, directory: Any, volumes: Any) -> None:
        self.volumes = volumes
        self.maps = None
        self.reading = threading.Lock()
        self.stated = {}
        user = ""
        for words in statements(read_file(directory)):
            if words[0] == "USER":
                user = words[1]
            elif words[0] == "MDISK" and len(words) == 7:
                self.stated.setdefault(user, []).append(words[1:])

    def of(self, user: Any) -> list:
        """A user's minidisks: address, volume, right, cylinders, and of each track that is not blank its cylinder, its head, its
        records and the hundredths of it that are full."""
        with self.reading:
            if self.maps is None:
                self.maps = dict(map(self.read, self.volumes))
        return [self.disk(*words) for words in self.stated.get(user, [])]

    def disk(self, address: Any, _: Any, first: Any, count: Any, serial: Any, right: Any) -> dict:
        first, count = int(first), int(count)
        tracks = [
            (cylinder - first, *rest)
            for cylinder, *rest in self.maps.get(serial, [])
            if first <= cylinder < first + count
        ]
        return {
            "address": address,
            "volume": serial,
            "right": right,
            "cylinders": count,
            "tracks": tracks,
        }

    def read(self, volume: Any) -> tuple:
        """The serial number of a volume, and its tracks."""
        if ask_build("tell").endswith("not built"):
            raise OSError(0, "the program is not built: run bin/trackmap once by hand")
        done = subprocess.run(
            [os.path.join(ROOT, "bin", "trackmap"), "--", volume],
            stdin=subprocess.DEVNULL,
            capture_output=True,
        )
        found = VOLUME.match(done.stdout)
        if done.returncode or not found:
            raise OSError(0, "the volume cannot be read")
        tracks = [tuple(map(int, track)) for track in TRACK.findall(done.stdout)]
        return found[1].decode(), [(*track[:3], 100 * track[3] // track[4]) for track in tracks]
