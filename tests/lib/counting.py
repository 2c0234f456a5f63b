"""What tests count, and how they say it: each that does not hold with its findings, and last 'N passed, M failed'."""
from __future__ import annotations


class Counts:
    """How many tests passed and failed until now."""

    def __init__(self) -> None:
        self.passed = self.failed = 0

    def check(self, what: str, holds: object, *findings: object) -> None:
        """Counts a test, and says what is wrong where it does not hold."""
        self.add(bool(holds), not holds)
        if not holds:
            print(f"FAILED: {what}", *findings, sep="\n    ", flush=True)

    def add(self, passed: int, failed: int) -> None:
        """Adds tests that were counted elsewhere."""
        self.passed, self.failed = self.passed + passed, self.failed + failed

    def report(self) -> int:
        """Says how many there were; the exit status."""
        return report(self.passed, self.failed)


def report(passed: int, failed: int) -> int:
    """Says how many tests passed and failed; the exit status."""
    print(f"{passed} passed, {failed} failed", flush=True)
    return int(failed != 0)


def report_faults(faults: dict[str, list[str]]) -> int:
    """Says what is wrong in each test, and how many have nothing; the exit status."""
    for fault in sum(faults.values(), []):
        print(f"FAILED: {fault}")
    failed = sum(map(bool, faults.values()))
    return report(len(faults) - failed, failed)
