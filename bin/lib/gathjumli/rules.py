"""The rules of an installation that may change while it goes on: a file next to the recording, which a start and a `reload` read."""
from __future__ import annotations

from typing import Any, NamedTuple
import ipaddress
import os
import re

from gathjumli.cli import Failure, REFUSED, read_file

NUMBER = re.compile("[1-9][0-9]{0,5}")
NAME = re.compile("[A-Z][A-Z0-9]{0,7}")


class Rules(NamedTuple):
    """The bounds in megabytes, or None where the options have them; users who may not log on; networks from which nobody may, and
    networks outside of which nobody may, if there are any; networks of which no address is ever refused for wrong passwords.
    """

    quota: int | None = None
    memory: int | None = None
    locked: tuple = ()
    denied: tuple = ()
    allowed: tuple = ()
    trusted: tuple = ()
    # for how many days what has ended is kept, or None: for ever
    keep: int | None = None

    def lets_in(self, address: str) -> bool:
        """Whether somebody of this address may connect; a socket of the host has none."""
        if not is_address(address):
            return True
        is_allowed = not self.allowed or is_in(address, self.allowed)
        return is_allowed and not is_in(address, self.denied)


def is_address(address: str) -> bool:
    try:
        ipaddress.ip_address(address.partition("%")[0])
    except ValueError:
        return False
    return True


def is_in(address: str, networks: tuple) -> bool:
    """Whether an address is in one of these networks."""
    if not networks or not is_address(address):
        return False
    found = ipaddress.ip_address(address.partition("%")[0])
    # an address of IPv4 may come in the form of IPv6
    found = getattr(found, "ipv4_mapped", None) or found
    return any(found in item for item in networks)


def number(text: str) -> int:
    if not NUMBER.fullmatch(text):
        raise ValueError("a number from 1 to 999999")
    return int(text)


def name(text: str) -> str:
    if not NAME.fullmatch(text):
        raise ValueError("the name of a user, in capitals")
    return text


def network(text: str) -> Any:
    try:
        return ipaddress.ip_network(text, strict=False)
    except ValueError:
        raise ValueError("an address or a network, as 10.0.0.0/8") from None


# the words of a line: which rule it is, and what follows it
WORDS = {"quota": ("quota", number), "memory": ("memory", number), "lock": ("locked", name), "deny": ("denied", network),
         "allow": ("allowed", network), "trust": ("trusted", network), "keep": ("keep", number)}  # fmt: skip
# what follows that word, if anything does
UNITS = {"keep": ["days"]}
FORMS = f"a line is one of {', '.join(WORDS)}, and a word, and after keep N the word days"


def read_rules(path: str) -> Rules:
    """The rules in a file; none if there is no file. A line that is none is refused."""
    if not os.path.exists(path):
        return Rules()
    rules = Rules()
    for place, line in enumerate(read_file(path).decode(errors="replace").splitlines(), 1):
        words = line.split("#")[0].split()
        if words:
            try:
                rules = with_rule(rules, words)
            except ValueError as reason:
                raise Failure(REFUSED, f"{path}, line {place}: {reason}") from None
    return rules


def with_rule(rules: Rules, words: list[str]) -> Rules:
    """The rules with one more line."""
    if len(words) < 2 or words[0] not in WORDS or words[2:] != UNITS.get(words[0], []):
        raise ValueError(FORMS)
    field, kind = WORDS[words[0]]
    try:
        value = kind(words[1])
    except ValueError as wanted:
        raise ValueError(f"{words[0]} is followed by {wanted}, and not by {words[1]}") from None
    before = getattr(rules, field)
    return rules._replace(**{field: (*before, value) if isinstance(before, tuple) else value})
