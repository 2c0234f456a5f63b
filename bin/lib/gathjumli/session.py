"""A person's session: what is typed becomes a script that grows. The program goes on from where it is, or where it cannot, runs
the script from its beginning each time."""
from __future__ import annotations

from typing import Any
from gathjumli.cli import Failure, REFUSED
from gathjumli.following import Follower, NotFollowed
from gathjumli.machines import ScriptRefused, headings_of, parts
from gathjumli.state_files import NOBODY, StateFile, after, restore, save_state, state_of


class Replaying:
    """Each time the whole script is run, which does not tell whose machine runs."""

    # whose machine started or stopped in the last part
    states = ()

    def __init__(self, machines: Any) -> None:
        self.machines = machines

    def go_on(self, session: Any, part: bytes) -> tuple:
        """The lines of the transcript that come of a part after the session's script, and the headings of the files that it
        closes for the operator. If the program refuses or fails, nothing has happened."""
        try:
            events, files = parts(self.machines.run(session.script() + part))
        except ScriptRefused as entry:
            raise ScriptRefused(entry.line - session.count_lines(), *entry.lines) from None
        closed = [item for item in headings_of(files) if item not in session.headings]
        return events[len(session.events) :], closed

    def settle(self, script: str, added: Any, is_busy: Any) -> None:
        """The last part was kept as these lines, which now end the script; whether only few of its turns were, since somebody does
        not wait."""

    def replayed(self, script: bytes) -> tuple[list, list]:
        """The lines of the transcript of a script, and the headings of the files that it closes."""
        events, files = parts(self.machines.run(script))
        return events, headings_of(files)

    def begin_from(self, state: StateFile) -> None:
        raise Failure(REFUSED, "the program goes on from no state")

    def program_at(self, script: bytes) -> Follower:
        raise Failure(REFUSED, "the program saves no state")

    def close(self) -> None:
        pass


class Following:
    """One program does part after part; where it does not stand where the session does, another begins with its script. While
    somebody does not wait, of whose turns most are not kept, another one is held ready there."""

    def __init__(self, machines: Any) -> None:
        self.machines = machines
        # the state from which scripts begin, if any
        self.state: StateFile | None = None
        self.follower = self.begun(b"")
        self.spare = None
        self.states = ()

    def begun(self, script: Any) -> Any:
        follower = Follower(self.machines)
        try:
            if self.state:
                restore(follower, self.state)
            if script:
                follower.send(script)
        except BaseException:
            follower.close()
            raise
        return follower

    def begin_from(self, state: StateFile) -> None:
        """Has scripts begin where a state was. If it is refused, nothing has happened."""
        before, self.state = self.state, state
        try:
            follower = self.begun(b"")
        except BaseException:
            self.state = before
            raise
        self.close()
        self.follower = follower

    def program_at(self, script: bytes) -> Follower:
        """The program where this script has led it."""
        self.stand_at(script)
        return self.follower

    def replayed(self, script: bytes) -> tuple[list, list]:
        """What another program makes of a script."""
        if not self.state:
            events, files = parts(self.machines.run(script))
            return events, headings_of(files)
        other = self.begun(b"")
        try:
            came = other.do(script)
            return came.events, came.headings()
        finally:
            other.close()

    def go_on(self, session: Any, part: bytes) -> tuple:
        try:
            self.stand_at(session.script())
            came = self.follower.do(part)
            self.states = came.states
            return came.events, came.headings()
        except ScriptRefused:
            raise
        except BaseException:
            self.close()
            raise

    def stand_at(self, script: bytes) -> None:
        if self.follower and self.follower.script == script:
            return
        if self.spare and self.spare.script == script:
            self.follower.close()
            self.follower, self.spare = self.spare, None
        else:
            self.close()
            self.follower = self.begun(script)

    def settle(self, script: str, added: Any, is_busy: Any) -> None:
        self.follower.script = script
        if self.spare:
            self.spare.send(added)
        elif is_busy:
            self.spare = self.begun(script)

    def close(self) -> None:
        for item in (self.follower, self.spare):
            if item:
                item.close()
        self.follower = self.spare = None


def find_way(machines: Any) -> Any:
    """How a program is brought to do what is typed."""
    way = Following(machines)
    try:
        way.follower.do(b"")
        return way
    except NotFollowed:
        way.close()
        return Replaying(machines)


class Session:
    """The entries of a session, each the lines of a script that it added, how many lines and headings were there before it, and who was
    on and whose machines ran then; and the transcript as it is."""

    def __init__(self, machines: Any, user: Any, turns: Any) -> None:
        self.machines = machines
        self.user = user
        self.turns = turns
        self.entries = []
        self.people = NOBODY
        self.events, files = parts(machines.run(b""))
        self.headings = headings_of(files)
        self.way = find_way(machines)

    def close(self) -> None:
        self.way.close()

    def script(self) -> Any:
        return b"".join(entry[0] for entry in self.entries)

    def count_lines(self) -> Any:
        return self.script().count(b"\n")

    def do(self, lines: list, turns: int, kept: Any = None) -> tuple:
        """Does these lines, and deals turns until nobody is ready, at most so many. If somebody is ready even then, only
        `kept` turns are dealt, where a number is given: so a guest that never waits does not make each later line slow. Gives
        the new lines of the transcript, and how many turns were dealt where somebody is still ready, else None. If the
        program refuses or fails, nothing has happened."""
        added = b"".join(line + b"\n" for line in lines)
        new, closed, idle = self.dealt(added, turns)
        is_busy = bool(turns and not idle and kept and kept < turns)
        if is_busy:
            turns = kept
            new, closed, idle = self.dealt(added, turns)
        # turns in which nothing happens are not kept
        if turns - idle:
            added += b"AUTO %d\n" % (turns - idle)
        self.entries.append((added, len(self.events), len(self.headings), self.people))
        self.people = after(self.people, self.way.states)
        self.events += new
        self.headings += closed
        self.way.settle(self.script(), added, is_busy)
        return new + closed, turns if turns and not idle else None

    def dealt(self, added: Any, turns: int) -> tuple:
        """What appears of these lines and so many turns, and how many of the turns did nothing, whose lines are left out."""
        new, closed = self.way.go_on(self, added + (b"AUTO %d\n" % turns if turns else b""))
        idle = 0
        while idle < turns and new and new[-1] == "= IDLE":
            new.pop()
            idle += 1
        return new, closed, idle

    def is_running(self) -> bool:
        """Whether the user's machine runs, so far as the program says it."""
        return isinstance(self.way, Replaying) or self.user in self.people["running"]

    def was_running(self) -> bool:
        """Whether the user's machine ran before the last entry."""
        return self.user in self.entries[-1][3]["running"]

    def undo(self) -> Any:
        """Takes back the last entry, and gives its lines."""
        added, events, headings, self.people = self.entries.pop()
        del self.events[events:], self.headings[headings:]
        return added

    def replays(self) -> bool:
        """Whether the script as it is leads to what was shown."""
        return self.way.replayed(self.script()) == (self.events, self.headings)

    def save_state(self, path: str) -> None:
        """Saves the state where the session is."""
        program = self.way.program_at(self.script())
        save_state(program, path, self.machines, self.people)

    def begin_from(self, path: str) -> None:
        """Begins anew where a state was saved. If that is refused, nothing has happened."""
        state = state_of(path, self.machines)
        self.way.begin_from(state)
        self.entries, self.events, self.headings = [], [], []
        self.people = {word: state.notes[word] for word in NOBODY}
