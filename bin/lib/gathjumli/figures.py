"""How an installation is, in figures: for the operator's page, for programs as JSON, and for Prometheus as text."""
from __future__ import annotations

from collections.abc import Iterator
from typing import Any
import bisect
import collections
import os

from gathjumli.host import memory_of
from gathjumli.report_line import count_strangers, place_of
from gathjumli.spooling import UNWRITTEN

# seconds that a typed line may wait, as Prometheus counts such
BOUNDS = (0.005, 0.01, 0.025, 0.05, 0.1, 0.25, 0.5, 1.0, 2.5, 5.0, 10.0)
PREFIX = "gathjumli_"
# figures of a user: the name, what it is, and whether it only grows
OF_USERS = {
    "on": ("user_on", "whether the user is logged on", False),
    "running": ("user_running", "whether the user's machine runs", False),
    "typed": ("user_lines_typed_total", "lines that were typed at the user's terminal", True),
    "shown": ("user_lines_shown_total", "lines that were shown at the user's terminal", True),
    "turns": (
        "user_turns_shared_total",
        "turns that were dealt while the user's machine ran",
        True,
    ),
    "written": (
        "user_written_bytes",
        "bytes that the user and his guests wrote since LOGON",
        False,
    ),
    "open": ("user_open_file_bytes", "what the user's open files take of the program", False),
    "files": ("user_files_closed", "files that the user closed for the operator", False),
    "unwritten": ("user_files_not_written", "closed files of the user that wait", False),
}
# figures of the installation, in the same way, by the way to them
OF_ALL = {
    ("online",): ("online", "whether people may log on", False),
    ("repeated",): ("recording_repeated_ratio", "how much of the recording is done again", False),
    ("strangers",): ("strangers", "connections that are about to log on", False),
    ("parts",): ("parts_total", "parts that the program has done", True),
    ("turns",): ("turns_total", "turns that were dealt", True),
    ("busy",): ("busy", "whether somebody computes", False),
    ("starts",): ("program_starts_total", "starts of the program", True),
    ("memory", "command"): ("command_memory_bytes", "memory of the command", False),
    ("memory", "program"): ("program_memory_bytes", "memory of the program", False),
    ("memory", "most"): ("program_memory_limit_bytes", "the bound of --memory", False),
    ("recording", "lines"): ("recording_lines", "lines of the recording", False),
    ("recording", "bytes"): ("recording_bytes", "length of the recording", False),
    ("recording", "seconds"): ("session_seconds", "age of the session", False),
    ("recording", "free"): ("disk_free_bytes", "what is free on the disk of the recording", False),
    ("state", "bytes"): ("state_bytes", "length of the last state", False),
    ("state", "age"): ("state_age_seconds", "seconds of computing since the last state", False),
    ("state", "waited"): ("state_wait_seconds", "how long all waited for the last state", False),
    ("start",): ("start_seconds", "about how long a start takes that goes on from here", False),
    ("printouts", "closed"): ("printouts_closed", "files closed for the operator", False),
    ("printouts", "unwritten"): ("printouts_not_written", "closed files that wait", False),
    ("turn",): ("turn_seconds", "how long a turn takes", False),
    ("refused",): ("addresses_refused", "addresses that are refused for a while", False),
}


class Data(str):
    """A line for programs, which is shown without the time."""


class Waits:
    """How long typed lines have waited until their effect was shown."""

    def __init__(self) -> None:
        self.sum = 0.0
        # how many waited no longer than each bound, and longer than the one before; the last ones longer than all
        self.counts = [0] * (len(BOUNDS) + 1)

    def add(self, seconds: float) -> None:
        self.sum += seconds
        self.counts[bisect.bisect_left(BOUNDS, seconds)] += 1

    def figures(self) -> dict[str, Any]:
        upto = [sum(self.counts[: place + 1]) for place in range(len(BOUNDS))]
        within = {str(bound): count for bound, count in zip(BOUNDS, upto)}
        return {"count": sum(self.counts), "sum": round(self.sum, 6), "within": within}


def figures(installation: Any) -> dict[str, Any]:
    """All that is known of an installation at a moment."""
    engine, recording = installation.engine, installation.engine.recording
    people = [user for user in engine.users.values() if user is not installation.receiver]
    printouts, last = engine.printouts, engine.states.last
    # there may be many files: each is looked at once
    files = collections.Counter(item.user for item in printouts.all)
    waiting = collections.Counter(item.user for item in printouts.all if item.state in UNWRITTEN)
    return {
        "online": installation.is_ready and engine.is_whole,
        "repeated": 1.0 if engine.is_whole else round(engine.progress.share(), 4),
        "users": [user_figures(user, files[user.name], waiting[user.name]) for user in people],
        "strangers": count_strangers(installation.desk),
        "refused": len(installation.desk.penalties.refused()),
        "parts": engine.parts,
        "turns": engine.turns,
        "busy": engine.pace.is_busy,
        "starts": engine.starts,
        "turn": engine.pace.seconds_a_turn,
        "waits": engine.waits.figures(),
        "memory": {
            "command": memory_of(os.getpid()),
            "program": engine.memory(),
            "most": installation.limits.memory,
        },
        "recording": {
            "lines": recording.lines,
            "bytes": recording.size(),
            "begun": recording.begun_at(),
            "seconds": round(recording.seconds()),
            "free": recording.free(),
        },
        "state": {
            "bytes": last.size if last else 0,
            "waited": round(last.waited, 3) if last else 0.0,
            "age": round(max(0.0, engine.seconds_to_repeat() - engine.states.at), 3),
        },
        "start": round(engine.seconds_to_start(), 1),
        "printouts": {
            "closed": len(printouts.all),
            "unwritten": waiting.total(),
            "trouble": printouts.trouble,
        },
        "ending": installation.operator.ending[:1],
    }


def user_figures(user: Any, files: int, unwritten: int) -> dict[str, Any]:
    """What is known of a user; lines and turns count since the start of the command."""
    return {
        "name": user.name,
        "on": user.is_on,
        "running": user.is_running,
        "from": place_of(user),
        "written": user.written,
        "open": user.open,
        "typed": user.typed,
        "shown": user.shown,
        "turns": user.turns,
        "files": files,
        "unwritten": unwritten,
    }


def metrics(found: dict[str, Any]) -> Iterator[str]:
    """The figures as Prometheus reads them (its text format, version 0.0.4)."""
    for way, (name, about, grows) in OF_ALL.items():
        value: Any = found
        for word in way:
            value = value[word]
        yield from heading(name, about, "counter" if grows else "gauge")
        yield f"{PREFIX}{name} {number(value)}"
    for key, (name, about, grows) in OF_USERS.items():
        yield from heading(name, about, "counter" if grows else "gauge")
        for user in found["users"]:
            yield f'{PREFIX}{name}{{user="{user["name"]}"}} {number(user[key])}'
    yield from histogram("line_wait_seconds", "how long typed lines waited", found["waits"])


def heading(name: str, about: str, kind: str) -> Iterator[str]:
    yield f"# HELP {PREFIX}{name} {about}"
    yield f"# TYPE {PREFIX}{name} {kind}"


def histogram(name: str, about: str, waits: dict[str, Any]) -> Iterator[str]:
    yield from heading(name, about, "histogram")
    for bound, count in [*waits["within"].items(), ("+Inf", waits["count"])]:
        yield f'{PREFIX}{name}_bucket{{le="{bound}"}} {count}'
    yield f"{PREFIX}{name}_sum {waits['sum']}"
    yield f"{PREFIX}{name}_count {waits['count']}"


def number(value: Any) -> str:
    return str(int(value)) if isinstance(value, bool) else str(value)
