"""Where things are."""
from __future__ import annotations

import os

TOP = os.path.dirname(os.path.dirname(os.path.dirname(os.path.realpath(__file__))))
# the program that rt ci or the commands of bin/ have built
PROGRAM = f"{TOP}/crates/gathjumli_cli/out/gathjumli_cli"
