"""Commands as bin/install lays them out, with the program that was built or one that is in for it."""
from __future__ import annotations

import os
import shutil
import subprocess

from tests.lib.files import write
from tests.lib.places import PROGRAM, TOP


def copy_commands(folder: str) -> None:
    """Copies the commands, and what they read besides programs and examples."""
    for name in ("bin", "web"):
        left_out = shutil.ignore_patterns("__pycache__")
        shutil.copytree(f"{TOP}/{name}", f"{folder}/{name}", ignore=left_out)
    shutil.copy(f"{TOP}/VERSION", folder)


def program_of(is_unproved: bool) -> str:
    """Where the program is that was built, or that without proof."""
    if not is_unproved:
        return PROGRAM
    words, asked = [f"{TOP}/bin/lib/built", "tests", "path"], {"GATHJUMLI_UNPROVED": "1"}
    done = subprocess.run(words, env=os.environ | asked, capture_output=True, check=True)
    return done.stdout.decode().strip()


def install(folder: str, program: str = PROGRAM, text: str = "", proof: str = "proved") -> str:
    """Lays the commands out with a copy of this program, or with this text in place of one; the folder."""
    copy_commands(folder)
    os.makedirs(f"{folder}/programs")
    path = f"{folder}/programs/gathjumli_cli"
    if text:
        write(path, text)
        os.chmod(path, 0o755)
    else:
        shutil.copy(program, path)
    write(f"{path}.built", f"sources 0\nkit none\n{proof}\n")
    return folder
