"""A stand-in for the program, which does a few commands."""
from __future__ import annotations

import json
import os
import signal
import sys
import time


class StandIn:
    """Takes parts of a script as the program does, for users who type LOGON, LOGOFF, #CP, BEGIN, STORE, DISPLAY of a register,
    MSG, CLOSE, and four that no program has: PRINT prints a file of a line, LIST one of so many, FILL adds so many to an open one, and DIE
    kills the program.
    """

    def __init__(self, directory: str, has_slices: bool) -> None:
        self.has_slices = has_slices
        with open(directory) as file:
            self.users = {
                item.split()[1]: {"mode": "OFF", "G1": 0, "open": 0, "decks": []}
                for item in file
                if item.startswith("USER ")
            }
        self.files = []
        self.decks = 0
        self.findings = []

    def say(self, name: str, text: str) -> None:
        self.findings.append(f"{name}: {text}")

    def part(self, script: bytes) -> list[str]:
        """What is reported of a part, with or without the lines of slices."""
        before = {name: item["mode"] for name, item in self.users.items()}
        self.findings, self.closed, self.is_idle = [], [], False
        lines = script.decode("latin-1").split("\n")[:-1]
        while lines:
            word, _, rest = lines.pop(0).partition(" ")
            if word == "LINE":
                name, _, text = rest.partition(" ")
                self.line(name, self.users[name], text)
            elif word == "DECK":
                name, count = rest.split()
                del lines[: int(count)]
                self.deck(name, f"FROM SYSTEM CARDS {count}")
            elif word == "TRANSFER":
                self.transfer(*rest.split())
            elif word == "AUTO":
                self.auto(int(rest))
            elif word not in ("", "TICK", "RUN", "SERVE") and not word.startswith("*"):
                return None
        self.findings += self.closed
        for name, entry in self.users.items():
            self.findings += [f"> {state} {name}" for state in became(before[name], entry["mode"])]
        return self.findings + ["> IDLE"] * self.is_idle

    def deck(self, name: str, text: str) -> None:
        """A deck comes to a reader."""
        self.decks += 1
        self.users[name]["decks"].append((len(self.files) + self.decks, text))

    def transfer(self, name: str, number: str, other: str) -> None:
        """A deck that is there goes to the end of another reader, under a new number."""
        decks = self.users[name]["decks"]
        if found := [deck for deck in decks if deck[0] == int(number)][:1]:
            decks.remove(found[0])
            self.deck(other, found[0][1])

    def auto(self, turns: int) -> None:
        running = [name for name, item in self.users.items() if item["mode"] == "RUNS"]
        for entry in running:
            self.users[entry]["G1"] += turns
        if self.has_slices:
            self.findings += [f"= {item} {100 * turns} COUNT" for item in running]
        self.is_idle = not running

    def line(self, name: str, user: dict[str, object], text: str) -> None:
        words = text.split()
        if text == "#CP":
            user["mode"] = "ON" if user["mode"] == "RUNS" else user["mode"]
            return
        words = words[1:] if words[:1] == ["#CP"] else words
        if user["mode"] == "OFF":
            user["mode"] = "ON" if words == ["LOGON"] else "OFF"
            self.say(name, "LOGON OK" if words == ["LOGON"] else "NOT LOGGED ON")
        elif words == ["LOGOFF"]:
            user.update({"mode": "OFF", "G1": 0, "open": 0})
            self.say(name, "LOGOFF OK")
        elif words[:1] == ["BEGIN"]:
            user["mode"] = "RUNS"
        elif words[:1] == ["STORE"]:
            user.update({words[1]: int(words[2], 16)})
            self.say(name, "STORED")
        elif words[:1] == ["DISPLAY"]:
            self.say(name, f"GPR {words[1][1:]} = {user.get(words[1], 0):08X}")
        elif words[:1] == ["MSG"] and words[1] in self.users:
            self.say(name, "SENT")
            self.say(words[1], f"MSG FROM {name}: {text.split(words[1] + ' ')[1]}")
        elif words[:1] == ["PRINT"]:
            self.files.append(
                [f"== PRT {len(self.files) + 1:04} {name}", f"09 {' '.join(words[1:])}"]
            )
            self.closed += [f"> {self.files[-1][0]}", f"> |{self.files[-1][1]}"]
        elif words[:1] == ["FILL"]:
            user["open"] += int(words[1])
        elif words[:1] == ["CLOSE"]:
            user["open"] *= words[1] != "00E"
            self.say(name, "NO FILE")
        elif words == ["DIE"]:
            os.kill(os.getpid(), signal.SIGKILL)
        elif words[:1] == ["LIST"]:
            self.files.append([f"== PRT {len(self.files) + 1:04} {name}"])
            self.closed += [f"> {self.files[-1][0]}", *[f"> |09 {'A' * 60}"] * int(words[1])]
        elif words:
            self.say(name, "UNKNOWN COMMAND")

    def last_lines(self) -> list[str]:
        return [line for file in self.files for line in file]

    def save(self) -> None:
        """Answers SAVE."""
        state = json.dumps([self.users, self.files, self.decks]).encode()
        sys.stdout.buffer.write(b"> STATE %d\n%s> DONE\n" % (len(state), state))
        sys.stdout.flush()

    def holds(self) -> None:
        """Answers HOLDS."""
        lines = [f"> HOLDS {name} 0 {user['open']}" for name, user in self.users.items()]
        print("\n".join([*lines, "> DONE"]), flush=True)

    def readers(self) -> None:
        """Answers FILES."""
        decks = [(name, *deck) for name, user in self.users.items() for deck in user["decks"]]
        lines = [f"{name}: FILE {number:04} {text}" for name, number, text in decks]
        print("\n".join([*lines, "> DONE"]), flush=True)

    def restore(self) -> None:
        """Takes the bytes of a state, or has no memory for it while there is the file that PEOPLE_NO_MEMORY names."""
        size = int(sys.stdin.buffer.readline())
        if os.path.exists(os.environ.get("PEOPLE_NO_MEMORY", "")):
            sys.stderr.write("fault: memory Memory\n")
            sys.exit(4)
        try:
            self.users, self.files, self.decks = json.loads(sys.stdin.buffer.read(size))
        except ValueError:
            sys.exit("fault: state Refused")
        print("> DONE", flush=True)


def became(before: str, now: str) -> list[str]:
    """The states that are reported of a user."""
    findings = ["STOPS"] if before == "RUNS" != now else []
    findings += ["ON"] if before == "OFF" != now else []
    findings += ["RUNS"] if now == "RUNS" != before else []
    return findings + (["OFF"] if now == "OFF" != before else [])


def stand_in(words: list[str]) -> None:
    """Plays the program: part by part with --follow, else a whole script."""
    paths = words[words.index("--") + 1 :]
    program = StandIn(paths[0], "--terminals" not in words)
    if "--follow" not in words:
        with open(paths[1], "rb") as file:
            findings = program.part(file.read())
        lines = [item for item in findings if not item.startswith("> ")] + program.last_lines()
        sys.stdout.write("".join(f"{line}\n" for line in lines))
        return
    asked = {
        b"SAVE\n": program.save,
        b"STATE\n": program.restore,
        b"HOLDS\n": program.holds,
        b"FILES\n": program.readers,
    }
    while (size := sys.stdin.buffer.readline()) not in (b"", b"END\n"):
        if size in asked:
            asked[size]()
            continue
        time.sleep(float(os.environ.get("PEOPLE_SLOW", "0")))
        findings = program.part(sys.stdin.buffer.read(int(size)))
        findings = ["> REFUSED 1"] if findings is None else [*findings, "> DONE"]
        sys.stdout.write("\n".join(findings) + "\n")
        sys.stdout.flush()
    if size == b"END\n" and os.environ.get("PEOPLE_SAVES") == "fails":
        sys.stderr.write("fault: file Device 1\n")
        sys.exit(3)
    if size == b"END\n" and "--save" in words:
        for path in paths[1:]:
            with open(f"{path}.new", "x") as file:
                file.write("SAVED\n")
            os.replace(f"{path}.new", path)
            if os.environ.get("PEOPLE_SAVES") == "slowly":
                time.sleep(5)
