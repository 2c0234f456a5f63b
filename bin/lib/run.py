"""Runs a module of the package as a program: run.py MODULE ARGUMENT... A file that fails is reported by the name of the command."""

import runpy
import sys

from gathjumli.cli import FILE_FAILED, give_up_output, output_failure, say

if __name__ == "__main__":
    module, status = f"gathjumli.{sys.argv.pop(1)}", 0
    try:
        runpy.run_module(module, run_name="__main__", alter_sys=True)
    except BrokenPipeError:
        status = FILE_FAILED
    except OSError as item:
        say(output_failure(item))
        status = FILE_FAILED
    sys.exit(give_up_output(status))
