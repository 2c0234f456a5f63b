"""Commands that save states and begin from them, over programs that were built. Called by tests/commands/people.py."""
from __future__ import annotations

from collections.abc import Callable
import os
import re
import subprocess

from tests.commands.broken import EXAMPLES as ALL_EXAMPLES, example
from tests.lib.files import read, write
from tests.lib.images import blank_image

Check = Callable[..., None]

# examples of disks, pages and decks, and at which part each is broken off
EXAMPLES = {"two-on-a-volume": 5, "more-pages-than-frames": 9, "decks-for-three": 4}
# a user with a minidisk on each of two volumes of one cylinder
TWO_VOLUMES = """\
USER A PW 8K
MDISK 190 3330 0 1 VOLA W
USER B PW 8K
MDISK 190 3330 0 1 VOLB W
"""
# what is typed at a terminal, and what is shown at the end
TYPED = """\
LOGON
STORE G1 0000000A
:save-state {folder}/typed
STORE G1 0000000B
:undo
:state {folder}/typed
STORE G1 0000000D
:save-state {folder}/typed
:undo
DISPLAY G1
:save-state {folder}/typed
DISPLAY G1
:state {folder}/typed
DISPLAY G1
STORE G1 0000000C
:save {folder}/saved
:undo
DISPLAY G1
:undo
:undo
:undo
:state {folder}/nothing
:state
:state {folder}/directory
DISPLAY G1
"""
SHOWN = ["LOGON OK", "STORED", "(the state is in {folder}/typed)", "STORED", "(taken back: LINE A STORE G1 0000000B)",
         "(on: A)", "STORED", "(the state is in {folder}/typed)", "(taken back: LINE A STORE G1 0000000D)",
         "GPR 1 = 0000000A", "(the state is in {folder}/typed)",
         "GPR 1 = 0000000A", "(on: A)", "GPR 1 = 0000000A", "STORED", "(2 lines)", "(taken back: LINE A STORE G1 0000000C)",
         "GPR 1 = 0000000A", "(taken back: LINE A DISPLAY G1)", "(taken back: LINE A DISPLAY G1)", "? there is nothing to take back",
         "? {folder}/nothing: No such file or directory", "? a file is to be named", "? {folder}/directory is no state file",
         "GPR 1 = 0000000A"]  # fmt: skip
# the parts of the program
PARTS = ("vm370", "bare370", "framemap", "mkvol", "trackmap", "logondesk")
NO_TEXT = b"a word of the command line is no UTF-8 text, and so names no file here\n"


def done(*words: str, given: str = "") -> subprocess.CompletedProcess:
    return subprocess.run(words, input=given.encode(), capture_output=True)


def findings_of(done: subprocess.CompletedProcess) -> tuple:
    return f"status {done.returncode}", done.stdout.decode(), done.stderr.decode()


def cut_at_files(transcript: bytes) -> tuple[bytes, bytes]:
    """The lines of events of a transcript, and the files at its end."""
    events, heading, files = transcript.partition(b"== ")
    return events, heading + files


def try_script(check: Check, command: str, folder: str, name: str, place: int) -> None:
    """A script in two runs writes what it writes in one, and the same volumes."""
    case = example(name)
    os.makedirs(folder)
    write(f"{folder}/directory", case.directory)
    # a last line without an end is a line
    write(f"{folder}/one", b"".join(case.parts[:place]).rstrip(b"\n"))
    write(f"{folder}/two", b"".join(case.parts[place:]))
    write(f"{folder}/whole", b"".join(case.parts))
    volumes = [f"{folder}/volume-{number}" for number in range(len(case.images))]

    def run(script: str, *words: str) -> subprocess.CompletedProcess:
        for path, image in zip(volumes, case.images):
            write(path, image)
        return done(
            command, *case.sizes, *words, f"{folder}/directory", f"{folder}/{script}", *volumes
        )

    whole, images = run("whole", "--save"), list(map(read, volumes))
    first = run("one", "--save-state", f"{folder}/state")
    second = run("two", "--save", "--state", f"{folder}/state", f"--save-state={folder}/state")
    # each run has the files that it closed at its end
    (one, closed), (other, more) = map(cut_at_files, (first.stdout, second.stdout))
    holds = whole.returncode == first.returncode == second.returncode == 0
    check(f"{name} in two runs", holds and one + other + closed + more == whole.stdout == case.transcript,
          *findings_of(first), *findings_of(second))  # fmt: skip
    check(f"{name} in two runs: its volumes", list(map(read, volumes)) == images)


def try_map(check: Check, repository: str, folder: str) -> None:
    """The map of frames after a script in two runs is that after the whole, and what is refused is reported with a reason."""
    folder = f"{folder}/more-pages-than-frames"
    sizes, state = example("more-pages-than-frames").sizes, f"{folder}/mapped"
    command, named = [f"{repository}/bin/framemap", *sizes], f"{folder}/directory"
    first = done(f"{repository}/bin/vm370", *sizes, "--save-state", state, named, f"{folder}/one")
    whole = done(*command, named, f"{folder}/whole")
    found = done(*command, "--state", state, named, f"{folder}/two")
    holds = first.returncode == found.returncode == 0 and found.stdout == whole.stdout != b""
    check("a map from a state", holds, *findings_of(first), *findings_of(found))
    write(f"{folder}/bad", b"BAD")
    found = done(*command, f"--state={state}", named, f"{folder}/bad")
    holds = found.returncode == 1 and b"fault: script Line 1\n" in found.stderr
    check("a map of a script that is refused", holds, *findings_of(found))
    write(f"{folder}/other", b"USER B PW 8K\n")
    found = done(*command, "--state", state, f"{folder}/other", f"{folder}/two")
    holds = found.returncode == 1 and b"it is of another directory" in found.stderr
    check("a map from a state of another directory", holds, *findings_of(found))


def refuse_states(check: Check, command: str, folder: str) -> None:
    """What is no state of these machines is refused, with a reason, and a script that is refused leaves none."""
    os.makedirs(folder)
    write(f"{folder}/directory", b"USER A PW 8K\n")
    write(f"{folder}/other", b"USER B PW 8K\n")
    write(f"{folder}/script", b"LINE A LOGON\n")
    write(f"{folder}/wrong", b"LINE A DISPLAY G1\nBAD\n")
    named = [f"{folder}/directory", f"{folder}/script"]
    check(
        "a state is saved", done(command, "--save-state", f"{folder}/state", *named).returncode == 0
    )
    state = read(f"{folder}/state")
    write(f"{folder}/changed", state.replace(b'"A"', b'"B"'))
    write(f"{folder}/cut", state[:-70])
    write(f"{folder}/longer", state + b"\n")
    os.mkfifo(f"{folder}/pipe")
    cases = {
        "of another directory": (1, "it is of another directory", [f"{folder}/other", named[1]], "state"),
        "of other sizes": (1, "it is of other numbers of --frames and --slots", ["--frames", "99", *named], "state"),
        "that was changed": (1, "changed is not as it was written", named, "changed"),
        "that was cut": (1, "cut is not as it was written", named, "cut"),
        "with more at its end": (1, "longer is not as it was written", named, "longer"),
        "in a pipe": (1, "pipe is no state file", named, "pipe"),
        "that is none": (1, "script is no state file", named, "script"),
        "that is not there": (3, "nothing is not there", named, "nothing"),
        "with --follow": (2, "--state and --save-state are for scripts", ["--follow", named[0]], "state"),
    }  # fmt: skip
    for what, (status, text, words, name) in cases.items():
        found = done(command, "--state", f"{folder}/{name}", *words)
        holds = found.returncode == status and text in found.stderr.decode() and not found.stdout
        check(f"a state {what}", holds, *findings_of(found))
    write(f"{folder}/to.new", b"mine")
    found = done(command, "--save-state", f"{folder}/to", *named)
    check("a state leaves other files", read(f"{folder}/to.new") == b"mine", *findings_of(found))
    found = done(command, "--save-state", f"{folder}/pipe", *named)
    holds = found.returncode == 3 and b"pipe: it is no plain file" in found.stderr
    check("a state goes into a plain file", holds, *findings_of(found))
    found = done(
        command,
        "--state",
        f"{folder}/state",
        "--save-state",
        f"{folder}/none",
        named[0],
        f"{folder}/wrong",
    )
    holds = (
        found.returncode == 1
        and b"fault: script Line 2\n" in found.stderr
        and b"line 2 is: BAD" in found.stderr
    )
    check(
        "a script that is refused",
        holds and not os.path.exists(f"{folder}/none"),
        *findings_of(found),
    )


def type_states(check: Check, repository: str, folder: str) -> None:
    """A terminal saves states and begins from them, and what it saves as a script goes on from there."""
    os.makedirs(folder)
    write(f"{folder}/directory", b"USER A PW 8K\n")
    found = done(
        f"{repository}/bin/terminal", f"{folder}/directory", given=TYPED.format(folder=folder)
    )
    shown = [line.format(folder=folder) for line in SHOWN]
    check("states at a terminal", found.stdout.decode().splitlines() == shown, *findings_of(found))
    words = ["--state", f"{folder}/typed", f"{folder}/directory", f"{folder}/saved"]
    found = done(f"{repository}/bin/vm370", *words)
    check(
        "a script from there",
        found.stdout == b"A: GPR 1 = 0000000A\nA: STORED\n",
        *findings_of(found),
    )
    found = done(
        f"{repository}/bin/terminal",
        "--bare",
        "8K",
        given=f":save-state {folder}/bare\n:state {folder}/typed\n",
    )
    is_refused = found.stdout == b"? a machine of its own has no state\n" * 2
    check("a machine of its own has none", is_refused, *findings_of(found))


def refuse_words(check: Check, program: str, folder: str) -> None:
    """What vm370 and bare370 answer to SAVE, VIEW, SEEK, STATE, HOLDS and FILES, also if that cannot be done."""
    write(f"{folder}/directory", b"USER A PW 8K\n")
    cases = {
        "a machine of its own is saved": ([program, "bare370", "--follow", "8K"], b"SAVE\n", 0, b"> REFUSED 0\n", b""),
        "a machine of its own goes on": ([program, "bare370", "--follow", "8K"], b"STATE\n1\nx", 1, b"", b"fault: state Refused\n"),
        "what a machine of its own holds": ([program, "bare370", "--follow", "8K"], b"HOLDS\nEND\n", 0, b"> HOLDS BARE 0 0\n> DONE\n", b""),
        "the decks of a machine of its own": ([program, "bare370", "--follow", "8K"], b"16\nDECK BARE 2\nA\nB\nFILES\nEND\n", 0, b"> DONE\nBARE: FILE 0001 FROM SYSTEM CARDS 2\n> DONE\n", b""),
        "no decks in readers": ([program, "vm370", "--follow", f"{folder}/directory"], b"FILES\nEND\n", 0, b"> DONE\n", b""),
        "a machine of its own is viewed": ([program, "bare370", "--follow", "8K"], b"VIEW 0\n", 0, b"> REFUSED 0\n", b""),
        "a user who is not there is viewed": ([program, "vm370", "--follow", f"{folder}/directory"], b"VIEW 01\nEND\n", 0, b"> REFUSED 0\n", b""),
        "a user of no number is viewed": ([program, "vm370", "--follow", f"{folder}/directory"], b"VIEW A\n", 3, b"", b"fault: file Device 1\n"),
        "a user of three digits is viewed": ([program, "vm370", "--follow", f"{folder}/directory"], b"VIEW 000\n", 3, b"", b"fault: file Device 1\n"),
        "a machine of its own is sought in": ([program, "bare370", "--follow", "8K"], b"SEEK\n20\nI 000000\nRUN BARE 2\nEND\n", 0, b"= BARE 0 STOPPED\n> FOUND\n> DONE\n", b""),
        "a text that does not say what is sought": ([program, "vm370", "--follow", f"{folder}/directory"], b"SEEK\n8\nRUN A 9\nEND\n", 0, b"> REFUSED 0\n", b""),
        "a text without a run": ([program, "vm370", "--follow", f"{folder}/directory"], b"SEEK\n9\nG 000001\nEND\n", 0, b"> REFUSED 0\n", b""),
        "a text with another user's run": ([program, "vm370", "--follow", f"{folder}/directory"], b"SEEK\n17\nG 000001\nRUN B 9\nEND\n", 0, b"> REFUSED 0\n", b""),
        "a text with two runs": ([program, "vm370", "--follow", f"{folder}/directory"], b"SEEK\n25\nG 000001\nRUN A 9\nRUN A 9\nEND\n", 0, b"> REFUSED 0\n", b""),
        "a text of a machine that is off": ([program, "vm370", "--follow", f"{folder}/directory"], b"SEEK\n17\nW 000000\nRUN A 2\nEND\n", 0, b"= A 0 STOPPED\n= A 0 STOPPED\n> DONE\n", b""),
        "a text without a size": ([program, "vm370", "--follow", f"{folder}/directory"], b"SEEK\nx\n", 3, b"", b"fault: file Device 1\n"),
        "a text that is cut": ([program, "vm370", "--follow", f"{folder}/directory"], b"SEEK\n9\nx", 3, b"", b"fault: file Device 1\n"),
        "a word that is no request": ([program, "vm370", "--follow", f"{folder}/directory"], b"HOLD\n", 3, b"", b"fault: file Device 1\n"),
        "a state of no bytes": ([program, "vm370", "--follow", f"{folder}/directory"], b"STATE\n0\n", 1, b"", b"fault: state Refused\n"),
        "a state that is cut": ([program, "vm370", "--follow", f"{folder}/directory"], b"STATE\n9\nx", 3, b"", b"fault: file Device 1\n"),
        "a state without a size": ([program, "vm370", "--follow", f"{folder}/directory"], b"STATE\nx\n", 3, b"", b"fault: file Device 1\n"),
    }  # fmt: skip
    for part in ("vm370", "bare370", "framemap", "mkvol"):
        cases[f"a word of {part} that is no text"] = (
            [program, part, b"\xff", "x"],
            b"",
            2,
            b"",
            NO_TEXT,
        )
    for what, (words, given, *wanted) in cases.items():
        found = asked(words, given)
        check(what, found == tuple(wanted), *found)
    for words in ([], ["vm371", "users"]):
        status, out, errors = asked([program, *words], b"")
        named = all(f" {part} ".encode() in errors for part in PARTS)
        check(f"no part is named by {words}", (status, out, named) == (2, b"", True), errors)


def asked(words: list, given: bytes) -> tuple[int, bytes, bytes]:
    """The status, the output and the errors of a program that is given these requests."""
    found = subprocess.run(words, input=given, capture_output=True)
    return found.returncode, found.stdout, found.stderr


def saved_state(words: list[str]) -> bytes:
    """The state with which a program begins."""
    _, out, _ = asked(words, b"SAVE\nEND\n")
    return out[out.index(b"\n") + 1 : -len(b"> DONE\n")]


def refuse_volumes(check: Check, program: str, folder: str) -> None:
    """A state is of its volumes in their order: others of the same sizes are refused."""
    os.makedirs(folder)
    write(f"{folder}/directory", TWO_VOLUMES.encode())
    write(f"{folder}/none", b"USER A PW 8K\n")
    for serial in ("VOLA", "VOLB", "VOLC"):
        write(f"{folder}/{serial}", blank_image(serial, 2))
    refused = (1, b"", b"fault: state Refused\n")
    cases = {
        "a state over its volumes": ("directory", "VOLA VOLB", "VOLA VOLB", (0, b"> DONE\n", b"")),
        "a state over exchanged volumes": ("directory", "VOLA VOLB", "VOLB VOLA", refused),
        "a state with another spare volume": ("directory", "VOLA VOLB", "VOLA VOLB VOLC", refused),
        "a state over exchanged spare volumes": ("none", "VOLA VOLB", "VOLB VOLA", refused),
        "a state over another serial number": ("none", "VOLA", "VOLC", refused),
    }
    for what, (directory, before, after, wanted) in cases.items():
        command = [program, "vm370", "--follow", f"{folder}/{directory}"]
        state = saved_state(command + [f"{folder}/{serial}" for serial in before.split()])
        words = command + [f"{folder}/{serial}" for serial in after.split()]
        found = asked(words, b"STATE\n%d\n%sEND\n" % (len(state), state))
        check(what, found == wanted, *found)


def refuse_long_sizes(check: Check, program: str, folder: str) -> None:
    """A size has at most nine digits, of a state and of a part."""
    write(f"{folder}/directory", b"USER A PW 8K\n")
    words = [program, "vm370", "--follow", f"{folder}/directory"]
    state, line = saved_state(words), b"LINE A LOGON\n"
    done, failed = b"> DONE\n", b"fault: file Device 1\n"
    logged_on = b"A: LOGON OK\n> ON A\n" + done
    cases = {
        "a state with a size of nine digits": (b"STATE\n%09d\n%s", state, (0, done, b"")),
        "a state with a size of ten digits": (b"STATE\n%010d\n%s", state, (3, b"", failed)),
        "a part with a size of nine digits": (b"%09d\n%s", line, (0, logged_on, b"")),
        "a part with a size of ten digits": (b"%010d\n%s", line, (3, b"", failed)),
    }
    for what, (request, data, wanted) in cases.items():
        found = asked(words, request % (len(data), data) + b"END\n")
        check(what, found == wanted, *found)


def tell_open_files(check: Check, program: str) -> None:
    """Before a file is closed its entries are told as what its user holds: as many as its listing, or the deck that it becomes, has."""

    def held_before(name: str, close: bytes) -> list[str]:
        part = read(f"{ALL_EXAMPLES}/{name}/script").partition(close)[0]
        requests = b"%d\n%sHOLDS\nEND\n" % (len(part), part)
        _, out, _ = asked(
            [program, "vm370", "--follow", f"{ALL_EXAMPLES}/{name}/directory"], requests
        )
        return [line for line in out.decode("latin-1").splitlines() if line.startswith("> HOLDS ")]

    listing = read(f"{ALL_EXAMPLES}/card-listing-of-a-user/transcript").partition(
        b"== PRT 0002 BARE\n"
    )
    found = held_before("card-listing-of-a-user", b"LINE BARE CLOSE 00E\n")
    wanted = ["> HOLDS BARE 0 %d" % listing[2].count(b"\n")]
    check("what is held by a printer", found == wanted, *found, *wanted)
    cards = re.search(rb"CARDS ([0-9]+)", read(f"{ALL_EXAMPLES}/cards-for-another/transcript"))[1]
    found = held_before("cards-for-another", b"LINE A #CP CLOSE 00D\n")
    wanted = ["> HOLDS A %s 0" % cards.decode(), "> HOLDS B 0 0"]
    check("what is held by a punch", found == wanted, *found, *wanted)


def tell_readers(check: Check, program: str) -> None:
    """The decks in readers are told as QUERY FILES shows them, also of a user who is not on."""
    folder = f"{ALL_EXAMPLES}/cards-for-another"
    part = read(f"{folder}/script").partition(b"LINE B LOGON\n")[0]
    requests = b"%d\n%sFILES\nEND\n" % (len(part), part)
    _, out, _ = asked([program, "vm370", "--follow", f"{folder}/directory"], requests)
    shown = re.search(rb"^B: FILE .*\n", read(f"{folder}/transcript"), re.M)[0]
    check("the decks in readers", out.endswith(b"> DONE\n%s> DONE\n" % shown), out, shown)


def try_commands(check: Check, repository: str, program: str, folder: str) -> None:
    os.makedirs(folder)
    for name, place in EXAMPLES.items():
        try_script(check, f"{repository}/bin/vm370", f"{folder}/{name}", name, place)
    try_map(check, repository, folder)
    refuse_states(check, f"{repository}/bin/vm370", f"{folder}/refused")
    type_states(check, repository, f"{folder}/typed")
    refuse_words(check, program, folder)
    tell_open_files(check, program)
    tell_readers(check, program)
    refuse_volumes(check, program, f"{folder}/volumes")
    refuse_long_sizes(check, program, folder)
