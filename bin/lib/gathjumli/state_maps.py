"""Prints the map of frames after a script that goes on from a state: state_maps.py NAME PROGRAM WORD.., as bin/lib/program.sh calls it."""
from __future__ import annotations

import os
import subprocess
import sys
import tempfile

from gathjumli import cli
from gathjumli.cli import last, read_arguments
from gathjumli.following import STATE_REFUSED, StateRefused
from gathjumli.machines import SIZE_OPTIONS, failure, of_directory, sizes_in
from gathjumli.state_files import OTHER_VOLUMES, state_of, write_bytes

OPTIONS = {"--save": None, "--state": str} | SIZE_OPTIONS


def command(words: list[str]) -> None:
    path, *words = words
    found, (directory, script, *volumes) = read_arguments(words, OPTIONS, 2, 1000)
    sizes = sizes_in(found)
    machines = of_directory(directory, sizes, volumes)
    state = state_of(last(found["--state"], None), machines)
    save = ["--save"] if found["--save"] else []
    with tempfile.TemporaryDirectory(prefix="map-") as folder:
        written = os.path.join(folder, "state")
        write_bytes(state, written)
        given = [*sizes, *save, "--state", written, "--", directory, script, *volumes]
        done = subprocess.run(
            [path, "framemap", *given],
            stderr=subprocess.PIPE,
        )
    machines.close()
    lines = done.stderr.decode(errors="surrogateescape").splitlines()
    if STATE_REFUSED in lines:
        raise StateRefused(done.returncode, *lines, OTHER_VOLUMES)
    if done.returncode:
        raise failure(done.returncode, lines)


if __name__ == "__main__":
    del sys.argv[0]
    cli.run(command, "")
