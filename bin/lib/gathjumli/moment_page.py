"""What a page shows of a moment, as an object for JSON: taken from the state of that moment, and from the lines printed until then."""
from __future__ import annotations

from bisect import bisect_left
from collections.abc import Iterator
from typing import Any

from gathjumli.cli import Failure
from gathjumli.instructions import length, place_of, storage_operands, text_of
from gathjumli.moment_devices import channel_of, devices_of
from gathjumli.moment_storage import ROW, Storage, line_text
from gathjumli.moments import Moment, Moments
from gathjumli.printout_lines import PAGE_LENGTH, entries_in, page_text
from gathjumli.sources import Source
from gathjumli.state_view import BLOCK, UserView
from gathjumli.tracing import LOW_ROWS, PROGRAM_CODES, interruption

INSTRUCTIONS_SHOWN = 16
MOST_LINES = 400
MOST_ENTRIES = 200
MOST_FILES = 20
# below a typed line that was not obeyed
NO_FRAME = "(no frame is free: nothing was done)"
# frames and slots of which it is said which page they have
MOST_PLACES = 4096
# rows of storage above that of the next instruction
ROWS_BEFORE = 4
# bytes that are shown of an operand
OPERAND_SHOWN = 4
# SIO, TIO, HIO and TCH, without their last two bits
OF_CHANNELS = 0x9C
INTERRUPTION_NAMES = {
    "external": "external",
    "svc": "supervisor-call",
    "program": "program",
    "io": "input/output",
}


class MomentPage:
    """What the page shows of the moments of a run."""

    def __init__(
        self, moments: Moments, source: Source | None, title: str, times: list[tuple[int, str]]
    ) -> None:
        self.moments, self.run, self.source = moments, moments.run, source
        self.title = title
        # the times of a recording, each with how many lines were done by then
        self.times = times

    def about(self) -> dict[str, Any]:
        """What there is of the run."""
        pages = self.run.machines.users
        return {
            "title": self.title,
            "users": [{"name": user, "pages": pages[user]} for user in self.run.users],
            "events": len(self.run.steps),
            "labels": {label: at for at, label in self.source.labels.items()}
            if self.source
            else {},
        }

    def look(
        self, where: tuple[int, int], user: str, address: int | None, since: tuple[int, int]
    ) -> dict[str, Any]:
        """A moment of a user, with storage from an address on, or where he would look first. What differs from the moment `since` is
        said."""
        # the earlier one first: a program goes on from there
        made = {at: self.moments.moment(*at, user) for at in sorted({where, since})}
        moment, old = made[where], made[since].view if since != where else None
        storage = Storage(moment.view, old, user)
        now, before = moment.view.users[user], (old or moment.view).users[user]
        found = {"event": moment.event, "unit": moment.unit, "since": ".".join(map(str, since))}
        found |= self.what_is_next(moment.event) | {"when": self.when(moment.event)}
        found |= self.processor(now.machine, before.machine)
        found |= self.instructions(
            now.machine.cpu, before.machine.cpu, storage, self.moments.is_unit(since, where, user)
        )
        found |= self.storage(
            storage, now, first_address(storage, now) if address is None else address
        )
        found |= {"devices": devices_of(now, storage), "console": self.console(user, moment)}
        found |= channel_of(now, storage)
        return found | {"files": self.files(moment.event, user, now)} | system_of(moment.view)

    def what_is_next(self, event: int) -> dict[str, Any]:
        steps = self.run.steps
        found: dict[str, Any] = {"next": None, "last": steps[event - 1].text if event else ""}
        if event < len(steps):
            step = steps[event]
            found["next"] = {
                "text": step.text,
                "user": step.user,
                "units": step.units,
                "reason": step.reason,
                "dealt": step.is_dealt,
            }
        return found

    def when(self, event: int) -> str:
        """The time of an event in a recording, or nothing."""
        entries, steps = self.run.entries, self.run.steps
        line = (
            entries[steps[event].entry].number
            if event < len(steps)
            else len(entries) and entries[-1].number
        )
        place = bisect_left(self.times, (line,))
        return self.times[min(place, len(self.times) - 1)][1] if self.times else ""

    def processor(self, now: Any, before: Any) -> dict[str, Any]:
        cpu, old = now.cpu, before.cpu
        return {
            "mode": now.mode,
            "psw": psw_of(cpu.psw),
            "old psw": psw_of(old.psw),
            "registers": numbers(cpu.general, old.general),
            "control": numbers(cpu.control, old.control),
            "pending": [kind for kind, is_set in now.pending._asdict().items() if is_set],
        }

    # --- instructions ---

    def instructions(
        self, now: Any, before: Any, storage: Storage, is_unit: bool
    ) -> dict[str, Any]:
        """The next instructions, and what led here by one unit: an instruction, as it stood then, an interruption, or both."""
        address = now.psw.address
        then = Storage(storage.old, None, storage.user)
        done = self.instruction(before.psw.address, then) if is_unit else None
        kind, text = interruption_of(now, before, storage, done) if is_unit else ("", "")
        return {
            "code": self.following(address, now.general, storage),
            # these are taken before an instruction is done
            "done": None if kind in ("external", "io") else done,
            "interruption": text,
            "listing": self.source.around(address) if self.source else [],
        }

    def following(self, at: int, registers: list[int], storage: Storage) -> list[dict[str, Any]]:
        """The next instructions, as they stand one after another."""
        found: list[dict[str, Any]] = []
        while len(found) < INSTRUCTIONS_SHOWN and (row := self.instruction(at, storage)):
            found.append(row)
            at += len(row["code"]) // 2
        if found:
            found[0] |= places_in(bytes.fromhex(found[0]["code"]), registers, storage)
        return found

    def instruction(self, at: int, storage: Storage) -> dict[str, Any] | None:
        code = storage.at(at, 6)
        if len(code) < 2 or len(code) < length(code[0]):
            return None
        code = code[: length(code[0])]
        name, operands = text_of(code)
        row = {"address": at, "code": code.hex().upper(), "name": name, "operands": operands}
        return row | ({"source": self.source.text_at(at)} if self.source else {})

    def storage(self, storage: Storage, now: Any, address: int) -> dict[str, Any]:
        rows = storage.rows(address)
        labels = [self.source.labels_in(row[0], ROW) if self.source else [] for row in rows]
        key = now.keys[(rows[0][0] if rows else 0) // BLOCK]
        return {
            "storage": rows,
            "labels": labels,
            "size": storage.size,
            "changed": storage.changed(),
            "key": key,
            "pages": [int(page != 0) for page in storage.table],
        }

    # --- paper ---

    def console(self, user: str, moment: Moment) -> list[list]:
        """What the user's terminal has shown, the last lines of it: with the event of each, and whether it was typed."""
        run, event = self.run, moment.event
        end = bisect_left(self.moments.printed_in, event)
        shown: list[list] = [[event, line.text, 0] for line in moment.lines if line.user == user]
        shown.reverse()
        while end and len(shown) < MOST_LINES:
            end -= 1
            line = run.lines[end]
            if line.user == user:
                shown.append([line.event, line.text, 0])
        typed = run.steps.lanes[user].others["LINE"]
        last = bisect_left(typed, event)
        for place in typed[max(0, last - MOST_LINES) : last]:
            step = run.steps[place]
            shown.append([place, step.text.split(" ", 2)[2] if step.text.count(" ") > 1 else "", 1])
            shown += [[place, NO_FRAME, 0]] if step.reason == "FRAMES" else []
        shown.sort(key=lambda item: (item[0], -item[2]))
        return shown[-MOST_LINES:]

    def files(self, event: int, user: str, now: Any) -> list[dict[str, Any]]:
        """What the user printed and punched: closed files, and what is open."""
        closed = [
            file
            for file in self.run.files[: bisect_left(self.run.files, (event,))]
            if file[1].endswith(f" {user}")
        ]
        found = [
            file_of(heading.removeprefix("== "), place, heading[3:6], entries_in(body))
            for place, heading, body in closed[-MOST_FILES:]
        ]
        printer, punch = now.devices.printer.entries, now.devices.punch.entries
        if printer:
            lines = [f"{code:02X} {line_text(data)}" for code, data in printer]
            found.append(file_of("printer, open", None, "PRT", lines))
        if punch:
            cards = [line_text(data) for _, data in punch]
            found.append(file_of("punch, open", None, "PUN", cards))
        return found


def file_of(title: str, event: int | None, kind: str, entries: list[str]) -> dict[str, Any]:
    """A file as it is shown: the pages of the last entries, or the last cards."""
    shown = entries[-MOST_ENTRIES:]
    try:
        text = page_text(kind, shown, PAGE_LENGTH)
    except Failure:
        # characters of a guest that no printer has
        text = "\n".join(shown)
    more = len(entries) - len(shown)
    return {"title": title, "event": event, "kind": kind, "text": text, "more": more}


def places_in(code: bytes, registers: list[int], storage: Storage) -> dict[str, Any]:
    """Where the operands of an instruction are in storage, with what is there, or which device it names."""
    if code[0] & 0xFC == OF_CHANNELS and len(code) == 4:
        return {"device": f"{place_of(code, registers) & 0xFFFF:03X}", "places": []}
    places = storage_operands(code, registers)
    return {"places": [[at, storage.at(at, OPERAND_SHOWN).hex().upper()] for at in places]}


def interruption_of(
    now: Any, before: Any, storage: Storage, done: dict[str, Any] | None
) -> tuple[str, str]:
    """The kind of the interruption in which a unit ended, and what is said of it; nothing if it ended in none."""
    first, count = LOW_ROWS[0], LOW_ROWS[-1] + ROW - LOW_ROWS[0]
    old = storage.old.storage_of(storage.user, first, count)
    words = ["".join(psw_of(cpu.psw)["words"]) for cpu in (before, now)]
    psws = [bytes.fromhex(text) for text in words]
    may_call = done is not None and done["name"] in ("SVC", "EX")
    kind, stored = interruption(*psws, old, storage.at(first, count), may_call)
    if not kind:
        return "", ""
    code = stored[2:4].hex().upper()
    cause = PROGRAM_CODES.get(int(code, 16), "") if kind == "program" else ""
    return kind, f"{INTERRUPTION_NAMES[kind]} interruption, code {code} {cause}".rstrip()


def first_address(storage: Storage, now: Any) -> int:
    """Where a user would look first: at his next instruction, or at the first byte that is not zero."""
    address = now.machine.cpu.psw.address
    if any(storage.at(address, 2)):
        return max(0, (address & -ROW) - ROWS_BEFORE * ROW)
    return storage.first_used() & -ROW


def psw_of(psw: Any) -> dict[str, Any]:
    """The fields of a PSW, and its two words."""
    bits = psw.extended << 3 | psw.machine_check << 2 | psw.wait << 1 | psw.problem
    first = psw.system_mask << 24 | psw.key << 20 | bits << 16
    second = (psw.condition << 4 | psw.program_mask) << 24 | psw.address
    return psw._asdict() | {"words": [f"{first:08X}", f"{second:08X}"]}


def numbers(now: list[int], before: list[int]) -> list[list[str]]:
    """Registers, and what those were that have changed."""
    return [
        [f"{value:08X}", f"{old:08X}" if old != value else ""] for value, old in zip(now, before)
    ]


# --- what all users have in common ---


def system_of(view: UserView) -> dict[str, Any]:
    return {
        "frames": places_of(view.supply.owners),
        "slots": places_of(view.supply.slots),
        "pins": [place for place, is_pinned in enumerate(view.supply.pins) if is_pinned],
        "page ins": view.supply.page_ins,
        "volumes": volumes_of(view),
    }


def places_of(owners: list) -> dict[str, Any]:
    """How many frames or slots there are, and which pages the used ones have."""
    used = [[place, *owner] for place, owner in enumerate(owners) if owner]
    return {"count": len(owners), "full": len(used), "used": used[:MOST_PLACES]}


def volumes_of(view: UserView) -> list[dict[str, Any]]:
    """Each volume's cylinders: how full, and whose."""
    found = []
    for number, volume in enumerate(view.volumes):
        owners: list = [None] * len(volume.cylinders)
        for name, disk in own_disks(view, number):
            extent = disk.minidisk.extent
            for at in range(extent.count):
                has_arm = int(at == disk.minidisk.cylinder)
                owner = [name, f"{disk.address:03X}", int(extent.writable), has_arm]
                owners[extent.start + at] = owner
        serial = volume.volser.decode("latin-1").strip()
        found.append({"serial": serial, "fill": volume.cylinders, "owners": owners})
    return found


def own_disks(view: UserView, volume: int) -> Iterator[tuple[str, Any]]:
    """The minidisks on a volume, each with its user."""
    for name, user in view.users.items():
        yield from ((name, disk) for disk in user.minidisks if disk.volume == volume)
