"""What an operator of an installation types, and what is answered."""
from __future__ import annotations

from typing import Any
import asyncio
import contextlib
import datetime
import json
import os
import re

from gathjumli.host import MEGABYTE, is_private, memory_of, size_text
from gathjumli.backups import Backup
from gathjumli.cli import Failure, read_file, reason_text
from gathjumli.ending import Ending, room_trouble
from gathjumli.spool_care import NotDone, SpoolCare
from gathjumli.figures import Data, figures, metrics
from gathjumli.frame_maps import BEING_LOOKED_FOR, FrameMap
from gathjumli.journal import amount
from gathjumli.reloading import ALL_READ

DONE, NOT_DONE, ENDS, ENDED = range(4)
# before all of the recording is done again
ALWAYS = {"status", "metrics", "help", "suspend"}
# the commands of operators that the journal notes when they are done
NOTED = {"hold", "release", "purge", "reprint", "transfer", "message", "logmsg", "logon", "backup"}
# addresses that one line names
MOST_NAMED = 8
WARNED_MINUTES = (10, 5, 1)
LOGOFF = "logoff "
MINUTE = "%Y-%m-%d %H:%M"
HELP = """\
status             who is on, memory, sizes, the age of the session, how long a start takes
status --json      the same and more in figures, a line for programs
metrics            these figures as Prometheus reads them; so are they at /metrics of the pages
users              who is on, and how much each has written since LOGON; who is locked
frames             in which frames pages are; what followed the last state is done for it
spool              the files that users closed for the operator, the last ones; spool USER his
hold FILE          moves a written file into the folder held; release FILE moves it back
purge FILE         removes a written or held file; reprint FILE puts a copy next to it
readers            the decks in all readers, by their numbers; readers USER those in his
transfer USER NUMBER OTHER
                   moves a deck that is not being read to the end of another user's reader
message TEXT       a line for each terminal; message USER TEXT for one user
logmsg TEXT        a line for everybody who logs on; logmsg alone shows it, logmsg off ends it
logon closed       nobody logs on any more, but who is on may come back; logon open ends that
force USER         logs a user off
reload             reads journal, certificate, directory, passwords and rules again, as a SIGHUP
                   does; of the directory, users at its end and minidisks that it adds
backup /FOLDER     copies all that the session needs to go on elsewhere into a new folder
suspend            ends this command; the next start goes on from here
end                if all printouts are written, ends the session: volumes are saved, the
                   recording is set aside, and the next session goes on with all machines
end now            ends it even if printouts are not written
end at HH:MM       ends it then, also after a suspend that ends before; users are warned;
                   end cancel takes it back
end logoff         if nobody is on and all printouts are written, ends it without its
                   machines; end logoff now and end logoff at HH:MM do so whoever is on"""
DECK_NUMBER = re.compile("[0-9]{1,7}")
ENDS_AT = re.compile(r"(logoff )?at ([01]?\d|2[0-3]):([0-5]\d)")


class Operator:
    """Does the commands of the operators."""

    def __init__(self, installation: Any, framemap: Any) -> None:
        self.installation = installation
        self.engine = installation.engine
        self.store = self.engine.recording.store
        self.frames = FrameMap(self.engine, framemap)
        self.backup = Backup(installation)
        self.care = SpoolCare(self.engine.printouts, self.engine.users)
        # commands whose answer may take long
        self.long = {
            "frames": self.find_frames,
            "backup": self.make_backup,
            "readers": lambda *asked: self.ask(self.show_readers, *asked),
            "transfer": lambda *asked: self.ask(self.transfer, *asked),
            "reload": self.reload,
        }
        self.reloading = set()
        # questions to the program that are not answered yet
        self.asking: set[asyncio.Future] = set()
        self.notify = installation.notify
        self.ending = []
        # if the time of the end is written down, so that the next start knows it
        self.ending_path = f"{installation.options['record']}.end-at"
        self.commands = {"status": self.status, "users": self.users, "spool": self.care.list, "message": self.message,
                         "logmsg": self.set_log_message, "logon": self.set_logon, "force": self.force, "suspend": self.suspend, "end": self.end,
                         "metrics": self.metrics, "help": self.help, "hold": self.care.hold, "release": self.care.release,
                         "purge": self.care.purge, "reprint": self.care.reprint}  # fmt: skip

    def read(self, loop: Any, lines: list) -> None:
        """Takes commands from a stream as they come; answers go to everybody."""
        for line in lines:
            loop.call_soon_threadsafe(self.do, line.strip(), self.notify)

    def do(
        self,
        line: Any,
        reply: Any,
        end: Any = lambda how: None,
        is_there: Any = lambda: True,
    ) -> None:
        """Does a command. How it ended is reported when its answer is whole. What takes long stops if who has asked is not there."""
        word, _, rest = line.partition(" ")
        if not word:
            return
        if not self.installation.is_ready and word not in ALWAYS:
            reply("the installation is not online yet")
            end(NOT_DONE)
            return
        if word in NOTED and rest and reply != self.notify:
            end = self.noted(line, end)
        if word in self.long:
            self.long[word](rest.strip(), reply, end, is_there)
            return
        try:
            if word not in self.commands:
                raise NotDone(f"there is no command {word}; help shows all")
            how = self.commands[word](rest.strip(), reply)
        except (NotDone, Failure, OSError) as reason:
            reply(" ".join(map(str, reason.lines)) if isinstance(reason, Failure) else str(reason))
            how = NOT_DONE
        end(how or DONE)

    def noted(self, line: str, end: Any) -> Any:
        """Returns a function that ends a command and, if it is done, notes it in the journal."""

        def end_noted(how: int) -> None:
            if how == DONE:
                self.notify(f"the operator's command {line} is done")
            end(how)

        return end_noted

    def help(self, rest: str, reply: Any) -> None:
        for line in HELP.split("\n"):
            reply(line)

    def named(self, name: str) -> Any:
        user = self.engine.users.get(name.upper())
        if not user:
            raise NotDone(f"there is no user {name}" if name else "the name of a user is missing")
        return user

    def on(self) -> list:
        """The people who are on."""
        return [
            user
            for user in self.engine.users.values()
            if user.is_on and user is not self.installation.receiver
        ]

    def status(self, rest: str, reply: Any) -> None:
        if rest == "--json":
            reply(Data(json.dumps(figures(self.installation))))
            return
        if rest:
            raise NotDone("status or status --json")
        engine, desk, recording = self.engine, self.installation.desk, self.engine.recording
        reply(self.activity())
        reply(state_text(engine))
        most = self.installation.limits.memory // MEGABYTE
        reply(
            f"memory: command {memory_of(os.getpid()) // MEGABYTE} MB, program {engine.memory() // MEGABYTE} MB of {most} MB"
        )
        reply(f"the session began {recording.begun_at()} UTC, {age(recording.seconds())} ago; "
              f"its recording has {recording.lines} lines, {size_text(recording.size())}, "
              f"and its disk {recording.free() // MEGABYTE} MB free")  # fmt: skip
        for text in self.store.about():
            reply(text)
        printouts = engine.printouts
        waiting = printouts.unwritten()
        trouble = f": {printouts.trouble}" if printouts.trouble else ""
        reply(f"printouts: {len(printouts.all)} closed, {len(waiting)} not written{trouble}")
        if refused := desk.penalties.refused():
            more = f" and {len(refused) - MOST_NAMED} more" * (len(refused) > MOST_NAMED)
            reply(f"refused for a while: {' '.join(refused[:MOST_NAMED])}{more}")
        for text in self.ending[:1]:
            reply(text)

    def metrics(self, rest: str, reply: Any) -> None:
        for line in metrics(figures(self.installation)):
            reply(Data(line))

    def activity(self) -> str:
        """Who is on and what the program does, or how far it is in the recording."""
        engine, strangers = self.engine, self.installation.desk.strangers
        who = f"{len(self.on())} on, {strangers} about to log on, {engine.parts} parts"
        if self.store.follows:
            return f"{len(self.on())} on at another host; nobody can log on here"
        if not engine.is_whole:
            is_ready, share = self.installation.is_ready, 100 * engine.progress.share()
            how = f"{who}; the program is started again" if is_ready else "nobody can log on yet"
            return f"{how}: the recording is done again, {share:.0f}% so far"
        does = "somebody computes" if engine.pace.is_busy else "all wait"
        start = f"a start that goes on from here takes about {engine.seconds_to_start():.0f} s"
        return f"{who}, {does}; {start}"

    def users(self, rest: str, reply: Any) -> None:
        for user in self.on():
            where = "" if user.terminal.is_there else ", at no terminal"
            reply(
                f"{user.name} {'runs' if user.is_running else 'is stopped'}{where}, {size_text(user.written)} written"
            )
        for name in sorted(self.installation.desk.rules.locked):
            reply(f"{name} is locked")
        reply(f"{len(self.on())} on")

    def close(self) -> None:
        """Ends what takes long."""
        self.frames.close()
        self.backup.close()

    def make_backup(self, folder: str, reply: Any, end: Any, is_there: Any) -> None:
        """Has the session copied into a folder, for one operator at a time."""
        why = "a backup is being made" if self.backup.is_busy() else wrong_folder(folder)
        if why:
            reply(why)
            end(NOT_DONE)
            return
        self.backup.start(folder, reply, lambda is_done: end(DONE if is_done else NOT_DONE))

    def find_frames(self, rest: str, reply: Any, end: Any, is_there: Any) -> None:
        """Has the frames looked for, for one operator at a time."""
        if self.frames.is_busy():
            reply(BEING_LOOKED_FOR)
            end(NOT_DONE)
            return
        self.frames.start(reply, lambda is_done: end(DONE if is_done else NOT_DONE), is_there)

    def ask(self, question: Any, rest: str, reply: Any, end: Any, is_there: Any) -> None:
        """Has a command done for which the program is asked."""
        self.asking.add(task := asyncio.ensure_future(self.asked(question, rest, reply, end)))
        task.add_done_callback(self.asking.discard)

    async def asked(self, question: Any, rest: str, reply: Any, end: Any) -> None:
        try:
            await question(rest, reply)
        except (NotDone, Failure) as reason:
            reply(reason_text(reason))
            end(NOT_DONE)
            return
        end(DONE)

    async def show_readers(self, name: str, reply: Any) -> None:
        """Shows the decks in all readers, or in that of one user."""
        user = self.named(name).name if name else ""
        self.care.list_decks(user, await self.engine.readers(), reply)

    async def transfer(self, rest: str, reply: Any) -> None:
        """Moves a deck from one reader to another, and shows it there."""
        words = rest.split()
        if len(words) != 3 or not DECK_NUMBER.fullmatch(words[1]):
            raise NotDone("transfer USER NUMBER OTHER: the number is one that readers shows")
        user, other = self.named(words[0]).name, self.named(words[2]).name
        deck = re.compile(f"{user}: FILE 0*{int(words[1])} ")
        if not any(map(deck.match, await self.engine.readers())):
            raise NotDone(f"there is no deck {words[1]} in the reader of {user}")
        line = f"TRANSFER {user} {int(words[1])} {other}\n".encode()
        after = await self.engine.transfer(line)
        if any(map(deck.match, after)):
            raise NotDone(f"the deck {words[1]} is being read, and stays with {user}")
        reply([shown for shown in after if shown.startswith(f"{other}: ")][-1])

    def message(self, text: str, reply: Any) -> None:
        """A line for the user whose name is the first word, else for each terminal."""
        word, _, rest = text.partition(" ")
        user = self.engine.users.get(word.upper())
        if not user or not rest:
            reply(f"shown at {amount(self.announce(text), 'terminal')}")
        elif not user.is_on:
            raise NotDone(f"{user.name} is not on")
        else:
            user.show([f"OPERATOR: {plain(rest)}"])
            reply(
                f"{user.name} is at no terminal, and sees it when he comes back"
                if not user.terminal.is_there
                else f"sent to {user.name}"
            )

    def announce(self, text: str) -> int:
        """A line for each terminal; at how many somebody sees it."""
        for user in self.engine.users.values():
            user.terminal.show(f"OPERATOR: {plain(text)}")
        return sum(user.terminal.is_there for user in self.engine.users.values())

    def set_log_message(self, text: str, reply: Any) -> None:
        if text:
            self.installation.set_log_message("" if text == "off" else plain(text))
        reply(self.installation.desk.log_message or "there is no log message")

    def set_logon(self, text: str, reply: Any) -> None:
        desk = self.installation.desk
        if text not in ("", "open", "closed"):
            raise NotDone("logon closed or logon open")
        if text:
            desk.is_closed = text == "closed"
        reply(f"logon is {'closed' if desk.is_closed else 'open'}")

    def force(self, name: str, reply: Any) -> None:
        user = self.named(name)
        if not self.installation.is_person(user):
            raise NotDone(f"nobody logs on as {user.name}")
        if not user.is_on:
            raise NotDone(f"{user.name} is not on")
        self.installation.force(user, "by the operator")

    def reload(self, rest: str, reply: Any, end: Any, is_there: Any = None) -> None:
        """Reads all again, for one operator at a time."""
        if self.installation.reload.is_busy:
            reply("a reload is under way")
            end(NOT_DONE)
            return
        self.reloading.add(task := asyncio.ensure_future(self.read_again(reply, end)))
        task.add_done_callback(self.reloading.discard)

    async def read_again(self, reply: Any, end: Any) -> None:
        troubles = await self.installation.reload.do()
        if reply != self.notify:
            for text in troubles or [ALL_READ]:
                reply(text)
        end(NOT_DONE if troubles else DONE)

    def suspend(self, rest: str, reply: Any) -> Any:
        self.installation.suspend()
        return ENDS

    def end(self, rest: Any, reply: Any) -> Any:
        """Ends the session, now or later."""
        if rest == "cancel":
            return self.cancel()
        if found := ENDS_AT.fullmatch(rest):
            return self.end_at(found[1] or "", int(found[2]), int(found[3]), reply)
        if rest not in ("", "now", "logoff", "logoff now"):
            raise NotDone("end, end now, end at HH:MM, end logoff or end cancel")
        ending = Ending.LOGOFF if rest.startswith("logoff") else Ending.KEEPING
        if not rest.endswith("now"):
            self.judge_end(ending)
        if trouble := room_trouble(self.installation.volumes, self.engine.recording.free()):
            raise NotDone(f"the session has not ended: {trouble}")
        self.cancel()
        self.notify("the session ends")
        self.installation.stop(ending)
        return ENDS

    def judge_end(self, ending: Ending) -> None:
        """Refuses an end that would take something from somebody."""
        on, unwritten = [user.name for user in self.on()], self.engine.printouts.unwritten()
        now = f"{ending.value} now ends all the same"
        if on and ending == Ending.LOGOFF:
            raise NotDone(f"still on: {' '.join(on)} ({now})")
        if unwritten:
            names = " ".join(unwritten[:8])
            raise NotDone(f"not written: {names} ({now}: bin/printouts makes them later)")

    def end_at(self, how: str, hour: int, minute: int, reply: Any) -> None:
        self.cancel()
        now = datetime.datetime.now()
        when = now.replace(hour=hour, minute=minute, second=0, microsecond=0)
        when += datetime.timedelta(days=1) * (when <= now)
        self.store.write(self.ending_path, f"{how}{when:{MINUTE}}\n".encode())
        self.plan_end(how, when)
        reply(self.ending[0])

    def resume(self) -> None:
        """Plans the end again that was planned before a suspend."""
        if not os.path.exists(self.ending_path):
            return
        text = read_file(self.ending_path).decode(errors="replace").strip()
        how = LOGOFF if text.startswith(LOGOFF) else ""
        with contextlib.suppress(ValueError):
            when = datetime.datetime.strptime(text.removeprefix(how), MINUTE)
            if when > datetime.datetime.now():
                self.plan_end(how, when)
                self.notify(self.ending[0])
                return
        self.store.forget(self.ending_path)
        self.notify(f"the session was to end at {text}, which is past: it goes on")

    def plan_end(self, how: str, when: Any) -> None:
        loop, left = asyncio.get_running_loop(), (when - datetime.datetime.now()).total_seconds()
        self.ending = [f"the session ends at {when:{MINUTE}}{', without its machines' * bool(how)}"]
        for minutes in WARNED_MINUTES:
            if left > 60 * minutes:
                findings = f"GATHJUMLI GOES DOWN IN {minutes} MINUTE{'S' * (minutes > 1)}"
                self.ending.append(loop.call_later(left - 60 * minutes, self.announce, findings))
        self.ending.append(loop.call_later(left, self.do, f"end {how}now", self.notify))

    def cancel(self) -> None:
        for planned in self.ending[1:]:
            planned.cancel()
        self.ending = []
        self.store.forget(self.ending_path)


def wrong_folder(folder: str) -> str:
    """Why nothing can be copied into a folder, or nothing."""
    if not os.path.isabs(folder):
        return "backup /FOLDER: a path from the root, since this command may run elsewhere"
    if is_private(os.path.realpath(folder), read_file("/proc/self/mountinfo").decode()):
        return f"{folder} would be seen by this service only, and go when it stops (PrivateTmp)"
    return f"{folder} is there already" if os.path.lexists(folder) else ""


def state_text(engine: Any) -> str:
    """The last state that was saved: how old it is, how long it is, and how long everybody waited for it."""
    last = engine.states.last
    if not last:
        return "no state is saved yet"
    waited = f", for which all waited {last.waited:.2f} s" if last.waited else ""
    ago = engine.seconds_to_repeat() - engine.states.at
    return f"the last state has {size_text(last.size)} and is {ago:.0f} s of computing old{waited}"


def plain(text: str) -> Any:
    """A text without what a terminal takes for something else."""
    return "".join(item if " " <= item <= "~" else " " for item in text)


def age(seconds: Any) -> str:
    """A time span in words."""
    for unit, name in ((86400, "days"), (3600, "hours"), (60, "minutes")):
        if seconds >= 2 * unit:
            return f"{seconds // unit:.0f} {name}"
    return f"{max(0, seconds):.0f} seconds"
