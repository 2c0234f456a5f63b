"""The events of a run in little memory, as the line of time shows them: turns of AUTO are events of their own, a slice and a serve."""
from __future__ import annotations

from array import array
from bisect import bisect_left
from typing import Any, NamedTuple

from gathjumli.tracing import SLICE

KINDS = ("RUN", "LINE", "TICK", "SERVE", "DECK", "TRANSFER", "IDLE")
# of the events that are no runs, which bit of a mark on the line of time each has
MARKED = {"LINE": 1, "SERVE": 2, "TICK": 4, "DECK": 8, "TRANSFER": 8}
NOBODY = 255


class Step(NamedTuple):
    """An event: whose it is, what the program was given, how many units it had and how it ended; the entry of the script, and the turn
    of that; whether AUTO deals it, and whether the slice of its turn is before it."""

    kind: str
    user: str
    text: str
    units: int
    reason: str
    entry: int
    turn: int
    is_dealt: bool
    is_after_slice: bool


class Lane:
    """The events of one user: his runs with the sum of their units until each, and all others by their kinds."""

    def __init__(self) -> None:
        self.events = array("I")
        self.runs = array("I")
        self.sums = array("Q", [0])
        self.others = {kind: array("I") for kind in MARKED}

    def add(self, event: int, kind: str, units: int) -> None:
        if kind == "RUN":
            self.runs.append(event)
            self.sums.append(self.sums[-1] + units)
        elif kind in self.others:
            self.others[kind].append(event)
        if units or kind != "RUN":
            self.events.append(event)

    def lengthen(self, units: int) -> None:
        self.sums[-1] += units

    def columns(self, edges: list[int]) -> dict[str, list]:
        """How many units there are between each two edges, and which other events: of columns that have some, their numbers with it."""
        places = [bisect_left(self.runs, edge) for edge in edges]
        units = [self.sums[after] - self.sums[before] for before, after in zip(places, places[1:])]
        marks = [0] * len(units)
        for kind, events in self.others.items():
            at = [bisect_left(events, edge) for edge in edges] if events else []
            for column, (before, after) in enumerate(zip(at, at[1:])):
                marks[column] |= MARKED[kind] if after > before else 0
        return {
            "units": [[column, count] for column, count in enumerate(units) if count],
            "marks": [[column, bits] for column, bits in enumerate(marks) if bits],
        }


class Steps:
    """All events of a run in their order."""

    def __init__(self, users: list[str]) -> None:
        self.users = users
        self.number_of = {user: number for number, user in enumerate(users)}
        self.kinds, self.owners, self.reasons = bytearray(), bytearray(), bytearray()
        self.flags = bytearray()
        self.units, self.entries, self.turns = array("I"), array("I"), array("I")
        self.devices = array("H")
        self.texts: dict[int, str] = {}
        self.reason_names: list[str] = [""]
        self.lanes = {user: Lane() for user in users}

    def __len__(self) -> int:
        return len(self.kinds)

    def add(self, step: Step, device: int = 0) -> None:
        if step.reason not in self.reason_names:
            self.reason_names.append(step.reason)
        if step.user in self.lanes:
            self.lanes[step.user].add(len(self), step.kind, step.units)
        if step.text:
            self.texts[len(self)] = step.text
        self.kinds.append(KINDS.index(step.kind))
        self.owners.append(self.number_of.get(step.user, NOBODY))
        self.reasons.append(self.reason_names.index(step.reason))
        self.flags.append(step.is_dealt | step.is_after_slice << 1)
        self.units.append(step.units)
        self.entries.append(step.entry)
        self.turns.append(step.turn)
        self.devices.append(device)

    def lengthen(self, units: int, reason: str) -> None:
        """Makes the last event, a run, longer; it ends for this reason then."""
        if reason not in self.reason_names:
            self.reason_names.append(reason)
        self.units[-1] += units
        self.reasons[-1] = self.reason_names.index(reason)
        self.lanes[self.users[self.owners[-1]]].lengthen(units)

    def __getitem__(self, event: int) -> Step:
        owner = self.owners[event]
        user = self.users[owner] if owner != NOBODY else ""
        kind = KINDS[self.kinds[event]]
        return Step(
            kind,
            user,
            self.texts.get(event) or self.dealt_text(event, kind, user),
            self.units[event],
            self.reason_names[self.reasons[event]],
            self.entries[event],
            self.turns[event],
            bool(self.flags[event] & 1),
            bool(self.flags[event] & 2),
        )

    def dealt_text(self, event: int, kind: str, user: str) -> str:
        """The line of a script that does what AUTO has dealt."""
        if kind == "RUN":
            return f"RUN {user} {SLICE}"
        return f"SERVE {user} {self.devices[event]:03X}" if kind == "SERVE" else "AUTO 1"

    def line(self, first: int, last: int, columns: int) -> dict[str, Any]:
        """The line of time from one event to another in so many columns, of each user."""
        last = max(first + 1, min(last, len(self)))
        columns = max(1, min(columns, last - first))
        edges = [first + (last - first) * column // columns for column in range(columns + 1)]
        lanes = [lane.columns(edges) for lane in self.lanes.values()]
        return {"from": first, "to": last, "columns": columns, "lanes": lanes}
