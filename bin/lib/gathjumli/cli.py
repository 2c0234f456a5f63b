"""What the commands in Python share: their words, how they end, and the programs that they run (docs/COMMAND_LINE.md)."""
from __future__ import annotations

from typing import Any
from collections.abc import Callable
import difflib
import os
import re
import signal
import subprocess
import sys
import tempfile

ROOT = os.path.dirname(
    os.path.dirname(os.path.dirname(os.path.dirname(os.path.realpath(__file__))))
)
# the command as it was typed, which is another one if bin/gathjumli runs this one
TYPED = os.environ.pop("GATHJUMLI_TYPED", None)
# set where programs run without proof (bin/lib/building.sh)
UNPROVED = "GATHJUMLI_UNPROVED"

REFUSED, WRONG_USE, FILE_FAILED, NO_MEMORY = 1, 2, 3, 4

STATUSES = """statuses:
  0   it ended well
  1   {refused} is refused; standard error says where
  2   usage error
  3   a file failed
  4   the host had no memory
"""

BUILDS = """ 70   the program was not built; standard error has the log
 71   the Rattle kit is not there (no rt in PATH), and the program is not built
 72   the program is not built, and its folder cannot be written
"""


class Failure(Exception):
    """An end with a status, and what standard error says."""

    def __init__(self, status: Any, *lines: Any) -> None:
        super().__init__(*lines)
        self.status = status
        self.lines = lines


def reason_text(reason: Exception) -> str:
    """A line that says why something failed."""
    if isinstance(reason, Failure) and reason.lines:
        return str(reason.lines[0])
    return getattr(reason, "strerror", None) or str(reason)


class UsageError(Exception):
    """Wrong words; the text says which."""


class Missing(UsageError):
    """A word is missing after so many: the usage text has its name. Options map a name to how its value is read."""

    def __init__(self, given: int, options: dict[str, Any]) -> None:
        super().__init__("a word is missing")
        self.given, self.options = given, options

    def text(self, usage: str) -> str:
        """The name of the missing word, as the line of the usage text has it to which the options belong."""
        lines = re.findall(r"^(?:usage:|      ) (\{command\} .*)", usage, re.M)
        chosen = [line for line in lines if set(line.split()) & set(sys.argv[1:])] or lines[:1]
        names, words = [], re.sub(r"\[[^]]*\](?:\.\.\.)?", "", chosen[0]).split()[1:]
        while words:
            word = words.pop(0)
            if not word.startswith("--"):
                names.append(word)
            elif self.options.get(word) is not None:
                words.pop(0)
        return f"{names[self.given]} is missing" if self.given < len(names) else str(self)


class Help(Exception):
    """The usage text is asked for."""


class Version(Exception):
    """The version is asked for."""


def name() -> Any:
    return os.path.basename(typed())


def typed() -> str:
    return TYPED or sys.argv[0]


def say(text: Any) -> None:
    sys.stdout.flush()
    print(f"{name()}: {text}", file=sys.stderr, flush=True)


def version() -> str:
    with open(os.path.join(ROOT, "VERSION")) as file:
        return file.read().strip()


def ask_build(word: str) -> Any:
    """What bin/lib/built says of the program."""
    done = subprocess.run(
        [os.path.join(ROOT, "bin", "lib", "built"), name(), word],
        stdin=subprocess.DEVNULL,
        stdout=subprocess.PIPE,
    )
    if done.returncode:
        raise Failure(done.returncode)
    return done.stdout.decode(errors="surrogateescape").removesuffix("\n")


def print_version(runs: bool) -> None:
    """The version, and of a command that runs the program what that is."""
    print(f"{name()} (Gathjumli) {version()}")
    if runs:
        print(ask_build("tell"))


def usage_text(usage: str) -> str:
    """The usage text, in an installation with the names that things have there."""
    text = usage.format(command=typed())
    if not ROOT.endswith("/lib/gathjumli"):
        return text
    words = [os.path.join(ROOT, "bin", "lib", "built"), name(), "names"]
    return subprocess.run(words, input=text, stdout=subprocess.PIPE, text=True).stdout or text


def perform(command: Any, usage: Any, runs: bool) -> None:
    """What the words of a command ask for."""
    try:
        command(sys.argv[1:])
    except Help:
        print(usage_text(usage), end="")
    except Version:
        print_version(runs)


def run(command: Any, usage: Any, runs: bool = False) -> None:
    """Runs a command on its words, and ends with its status; runs is whether it runs the program."""
    for stream in (sys.stdin, sys.stdout, sys.stderr):
        stream.reconfigure(errors="surrogateescape")
    try:
        perform(command, usage, runs)
        sys.stdout.flush()
        status = 0
    except UsageError as item:
        say(item.text(usage) if isinstance(item, Missing) else item)
        print(usage_text(usage).partition("\n\n")[0], file=sys.stderr)
        print(f"{name()} --help says more", file=sys.stderr)
        status = WRONG_USE
    except Failure as item:
        for line in item.lines:
            print(line if line.startswith("fault: ") else f"{name()}: {line}", file=sys.stderr)
        status = item.status
    except BrokenPipeError:
        status = FILE_FAILED
    except OSError as item:
        say(output_failure(item))
        status = FILE_FAILED
    except MemoryError:
        say("the host has no more memory")
        status = NO_MEMORY
    except KeyboardInterrupt:
        status = 130
    sys.exit(give_up_output(status))


def end_what_was_started() -> None:
    """Has the end by a service manager, or of the terminal, be an interrupt too: then programs that were started end as well."""
    for number in (signal.SIGTERM, signal.SIGHUP):
        # nohup has the terminal's end ignored
        if signal.getsignal(number) == signal.SIG_DFL:
            signal.signal(number, signal.default_int_handler)


def output_failure(item: OSError) -> str:
    """What a file, or standard output, failed with."""
    return f"{item.filename}: {item.strerror}" if item.filename else str(item.strerror)


def give_up_output(status: int) -> int:
    """Flushes standard output at the end; the status of the command, or that of a failed file."""
    try:
        sys.stdout.flush()
        return status
    except OSError:
        # nobody reads on, or there is no room: what is left of the output is given up
        os.dup2(os.open(os.devnull, os.O_WRONLY), sys.stdout.fileno())
        return status or FILE_FAILED


def read_arguments(words: Any, options: Any, least: Any, most: Any) -> tuple:
    """The options, each to a list of its values, and the other words; options maps a name to how its value is read, or to None
    where it has none."""
    found = {option: [] for option in options}
    paths = []
    words = list(words)
    while words:
        word = words.pop(0)
        if word == "--":
            paths += words
            break
        if not word.startswith("-") or word == "-":
            paths.append(word)
            continue
        if word in ("--help", "-h"):
            raise Help
        if word == "--version":
            raise Version
        option, given, value = word.partition("=")
        if option not in options:
            raise UsageError(f"no such option: {option}{did_you_mean(option, options)}")
        if given and options[option] is None:
            raise UsageError(f"{option} has no value: {word}")
        if options[option] is None:
            value = True
        elif not given:
            if not words:
                raise UsageError(f"{option} needs a value after it")
            value = words.pop(0)
        found[option].append(
            value if options[option] is None else read_value(option, value, options[option])
        )
    if len(paths) < least:
        raise Missing(len(paths), options)
    if len(paths) > most:
        raise UsageError(f"one argument too many: {paths[most]}")
    return found, paths


def did_you_mean(option: str, options: Any) -> str:
    """The known option that was perhaps meant."""
    near = difflib.get_close_matches(option, [*options, "--help", "--version"], 1)
    return f"; did you mean {near[0]}?" if near else ""


def read_value(option: Any, value: Any, read: Any) -> Any:
    try:
        return read(value)
    except ValueError as item:
        # what a value is, where its reader says so
        text = (
            f"{option} is {item}, and not {value}"
            if str(item)
            else f"{value} is no value of {option}"
        )
        raise UsageError(text) from None


def last(values: Any, otherwise: Any) -> Any:
    """The value of an option that is given at most once."""
    if len(values) > 1:
        raise UsageError("an option is given twice")
    return values[0] if values else otherwise


def number(least: int, most: int) -> Callable:
    """Reads a decimal number within these bounds."""

    def read(text: Any) -> Any:
        if not re.fullmatch("[0-9]{1,7}", text) or not least <= int(text) <= most:
            raise ValueError(f"a number from {least} to {most}")
        return int(text)

    return read


def user_name(text: str) -> Any:
    """A user's name, as a directory may state it."""
    if not re.fullmatch("[A-Z][A-Z0-9]{0,7}", text):
        raise ValueError("1 to 8 of A-Z and 0-9, a letter first")
    return text


def serial(text: str) -> Any:
    """The serial number of a volume."""
    if not re.fullmatch("[A-Z0-9]{1,6}", text):
        raise ValueError("1 to 6 of A-Z and 0-9")
    return text


def device(text: str) -> Any:
    """The address of a device: three hexadecimal digits, 000 to 5FF."""
    if not re.fullmatch("[0-5][0-9A-F]{2}", text):
        raise ValueError("000 to 5FF, three digits 0-9 A-F")
    return text


def address(text: str) -> int:
    """An address of storage: one to six hexadecimal digits."""
    if not re.fullmatch("[0-9A-F]{1,6}", text):
        raise ValueError("an address, 1 to 6 digits 0-9 A-F")
    return int(text, 16)


def read_file(path: str) -> Any:
    with open(path, "rb") as file:
        return file.read()


def read_input(path: str) -> Any:
    """The bytes of a file, or of standard input where no path or - is given."""
    return sys.stdin.buffer.read() if path in (None, "-") else read_file(path)


def write_whole(path: str, data: bytes, is_settled: bool = False) -> None:
    """Writes a file that is there whole or not at all, and where that is asked for also after the host has crashed; what is no
    plain file is written to as it is."""
    if os.path.exists(path) and not os.path.isfile(path):
        with open(path, "wb") as file:
            file.write(data)
        return
    path = os.path.realpath(path)
    handle, next_to = tempfile.mkstemp(prefix=".new-", dir=os.path.dirname(path))
    try:
        with os.fdopen(handle, "wb") as file:
            file.write(data)
            if is_settled:
                file.flush()
                os.fsync(file.fileno())
        mask = os.umask(0)
        os.umask(mask)
        os.chmod(next_to, 0o666 & ~mask)
        os.replace(next_to, path)
    except BaseException as item:
        os.unlink(next_to)
        if isinstance(item, OSError) and not item.filename:
            item.filename = path
        raise
