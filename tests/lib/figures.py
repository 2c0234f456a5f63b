"""Figures that long tests print while they go on."""
from __future__ import annotations

from collections.abc import Iterable
import statistics


def notify(text: str) -> None:
    print(text, flush=True)


def hundredths(seconds: Iterable[float]) -> str:
    """The median, the 99th hundredth and the worst, in milliseconds."""
    found = sorted(second * 1000 for second in seconds)
    return f"median {statistics.median(found):.1f} ms, 99th {found[int(len(found) * 0.99)]:.1f} ms, worst {found[-1]:.1f} ms"
