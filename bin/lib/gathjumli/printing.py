"""Makes the pages of printouts in a process of its own, as fast as the host has time left: Printing is the other side of it."""
from __future__ import annotations

from typing import Any
import json
import os
import subprocess
import sys

if __name__ == "__main__":
    sys.dont_write_bytecode = True

from gathjumli.cli import ROOT, write_whole
from gathjumli.printout_lines import HEADING, PAGE_LENGTH, entries_in, page_text


class Printing:
    """The process that makes pages. It is started when it is needed, and again if it has died."""

    def __init__(self) -> None:
        self.process = None

    def write(self, path: Any, heading: Any, body: Any) -> None:
        """Has a file written whole. An OSError says why that failed."""
        if not self.process or self.process.poll() is not None:
            streams = {"stdin": subprocess.PIPE, "stdout": subprocess.PIPE}
            # an interrupt at the terminal is for the command only
            self.process = subprocess.Popen(
                [sys.executable, f"{ROOT}/bin/lib/run.py", "printing"],
                start_new_session=True,
                **streams,
            )
        try:
            head = json.dumps([path, heading, len(body)]).encode()
            self.process.stdin.write(head + b"\n" + body)
            self.process.stdin.flush()
        except BrokenPipeError:
            pass
        answer = self.process.stdout.readline()
        if not answer:
            self.close()
            raise OSError(0, "the process that makes pages has died")
        reason = json.loads(answer)
        if reason:
            raise OSError(0, reason)

    def close(self) -> None:
        if self.process:
            self.process.kill()
            self.process.wait()
            self.process.stdout.close()
            try:
                self.process.stdin.close()
            except BrokenPipeError:
                pass
            self.process = None


def write_pages(path: str, heading: Any, body: Any) -> Any:
    """Writes the pages of a file; why that failed, or nothing."""
    try:
        text = page_text(HEADING.fullmatch(heading)[1], entries_in(body), PAGE_LENGTH)
        write_whole(path, text.encode(errors="surrogateescape"), is_settled=True)
        return ""
    except OSError as error:
        return error.strerror
    except MemoryError:
        return "the host has no more memory"


def serve() -> None:
    # whoever types appears first
    os.nice(10)
    while line := sys.stdin.buffer.readline():
        path, heading, size = json.loads(line)
        answer = write_pages(path, heading, sys.stdin.buffer.read(size))
        print(json.dumps(answer), flush=True)


if __name__ == "__main__":
    serve()
