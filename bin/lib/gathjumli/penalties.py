"""Addresses that are refused for a while after many wrong passwords or tokens, longer each time."""
from __future__ import annotations

from collections.abc import Callable
import dataclasses
import ipaddress
import time

from gathjumli.rules import is_in

# an address is refused at so many, of which one is forgotten in so many seconds
MOST_WRONG = 30
SECONDS_TO_FORGET_ONE = 20
FIRST_SECONDS, MOST_SECONDS = 60, 3600
# a refusal no longer makes the next one longer after so many seconds without one
SECONDS_TO_FORGET_ALL = 24 * 3600
# addresses that are remembered
MOST_ADDRESSES = 4096
# the part of an address of IPv6 that stands for all of its network
NETWORK_BITS = 64


@dataclasses.dataclass
class Penalty:
    """How many wrong passwords of an address count at a time, how often it was refused, and until when it is."""

    wrong: float = 0.0
    at: float = 0.0
    times: int = 0
    until: float = 0.0


class Penalties:
    """The addresses that have tried wrong passwords. Of too many that goes which was refused least often, and of these the oldest."""

    def __init__(
        self, notify: Callable[[str], None], clock: Callable[[], float] = time.monotonic
    ) -> None:
        self.notify = notify
        self.clock = clock
        # networks that are never refused
        self.trusted: tuple = ()
        self.all: dict[str, Penalty] = {}

    def add(self, address: str) -> None:
        """Counts a wrong password from an address; a socket of the host has none."""
        if not address or is_in(address, self.trusted):
            return
        now = self.clock()
        found = self.all.setdefault(network_of(address), Penalty(at=now))
        if now > found.until + SECONDS_TO_FORGET_ALL:
            found.times = 0
        found.wrong = max(0.0, found.wrong - (now - found.at) / SECONDS_TO_FORGET_ONE) + 1
        found.at = now
        if found.wrong >= MOST_WRONG:
            self.refuse(address, found)
        if len(self.all) > MOST_ADDRESSES:
            del self.all[min(self.all, key=lambda item: (self.all[item].times, self.all[item].at))]

    def refuse(self, address: str, found: Penalty) -> None:
        seconds = min(FIRST_SECONDS << min(found.times, 16), MOST_SECONDS)
        found.wrong, found.times, found.until = 0.0, found.times + 1, self.clock() + seconds
        self.notify(
            f"{address} is refused for {seconds} seconds: {MOST_WRONG} wrong passwords or tokens"
        )

    def seconds(self, address: str) -> float:
        """For how long an address is refused."""
        found = self.all.get(network_of(address)) if self.all and address else None
        if not found or is_in(address, self.trusted):
            return 0.0
        return max(0.0, found.until - self.clock())

    def refused(self) -> list[str]:
        """The addresses that are refused."""
        now = self.clock()
        return [name for name, found in self.all.items() if found.until > now]


def network_of(address: str) -> str:
    """What stands for an address: whoever has one of IPv6 has its whole network."""
    try:
        found = ipaddress.ip_address(address.partition("%")[0])
    except ValueError:
        return address
    found = getattr(found, "ipv4_mapped", None) or found
    if found.version == 4:
        return str(found)
    return str(ipaddress.ip_network((found, NETWORK_BITS), strict=False))
