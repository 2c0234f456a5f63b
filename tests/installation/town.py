"""Commands as they are installed, with the program that was built, and a town: an installation with users of one directory. What
tests/installation/minutes.py, tests/installation/hosts.py and tests/installation/year.py share."""
from __future__ import annotations

from typing import TYPE_CHECKING
import os

from tests.lib.files import write
from tests.lib.host import ADDRESS, free_port
from tests.lib.installed import install, program_of
from tests.lib.places import TOP
from tests.lib.sites import DEVICES, Site, person

if TYPE_CHECKING:
    from tests.lib.desk import Account

COMMAND = f"{TOP}/bin/installation"
# counts register 2 down and stops
COUNTS = "STORE 100 46200100820001080002000000000000"


def lay_out(folder: str, is_unproved: bool) -> str:
    """The commands as they are installed, with the program that was built."""
    return install(f"{folder}/repository", program_of(is_unproved), proof="not proved")


class Town(Site):
    """An installation of so many users U00, U01 .. with passwords PW00, PW01 .., at a port."""

    def __init__(self, folder: str, users: int, *words: object, command: str = COMMAND) -> None:
        os.makedirs(folder)
        self.users = [f"U{number:02}" for number in range(users)]
        write(
            f"{folder}/directory",
            "".join(f"USER {user} PW{user[1:]} 64K\n{DEVICES}" for user in self.users).encode(),
        )
        self.where = (ADDRESS, free_port())
        super().__init__(
            command, folder, f"{folder}/directory", "--listen", f"{ADDRESS}:{self.where[1]}", *words
        )
        self.words = [
            word for word in self.words if word != "--listen" and not word.endswith("/socket")
        ]
        self.words[2:2] = ["--listen"]

    async def on(self, user: Account) -> object:
        """Somebody who has logged on."""
        one = await person(self.where)
        await one.logon(user, f"PW{user[1:]}")
        return one
