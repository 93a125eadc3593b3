"""Semantic versions, and addresses of networks."""

import ipaddress
import re
from typing import Any, Optional

from ..evaluator.values import GREATEST
from .results import CIDR, IP, Semver

NUMBER = r"(0|[1-9][0-9]*)"
IDENTIFIER = r"(?:0|[1-9][0-9]*|[0-9]*[A-Za-z-][0-9A-Za-z-]*)"
SEMVER = re.compile(
    rf"{NUMBER}\.{NUMBER}\.{NUMBER}(?:-({IDENTIFIER}(?:\.{IDENTIFIER})*))?(?:\+[0-9A-Za-z-]+(?:\.[0-9A-Za-z-]+)*)?"
)
MOST = 2**64
PREFIX = re.compile(r"0|[1-9][0-9]*")


def rank(identifier: str) -> tuple[Any, ...]:
    """What orders an identifier of a pre-release: numbers are below names."""
    return (0, int(identifier), "") if identifier.isdigit() else (1, 0, identifier)


def normal(text: str) -> Optional[str]:
    """The version that a lax text is read as, or None."""
    parts = (text[1:] if text.startswith("v") else text).split(".", 2)
    for place, part in enumerate(parts):
        if len(part) > 1:
            cut = part.lstrip("0")
            parts[place] = cut if re.match("[0-9]", cut) else "0" + cut
    if len(parts) < 3 and re.search("[-+]", parts[-1]):
        return None
    return ".".join(parts + ["0"] * (3 - len(parts)))


def semver(text: str, lax: bool = False) -> Optional[Semver]:
    spelled = normal(text) if lax else text
    match = SEMVER.fullmatch(spelled) if spelled is not None else None
    if not match:
        return None
    numbers = tuple(map(int, match.groups()[:3]))
    identifiers = [rank(one) for one in match[4].split(".")] if match[4] else []
    if max(*numbers, *(one[1] for one in identifiers)) >= MOST:
        return None
    # a version without a pre-release is above those with one
    return Semver(numbers, (0, *identifiers) if match[4] else (1,))


def number_of(version: Semver, method: str) -> Optional[int]:
    """What `major()`, `minor()` or `patch()` returns, or None."""
    number = version.numbers[["major", "minor", "patch"].index(method)]
    return number if number <= GREATEST else None


def address(text: str) -> Any:
    """The address of a text, or None."""
    # Python takes zones and the other digits of Unicode
    if not text.isascii() or "%" in text:
        return None
    try:
        found = ipaddress.ip_address(text)
    except ValueError:
        return None
    return None if found.version == 6 and found.ipv4_mapped is not None else found


def ip(text: str) -> Optional[IP]:
    found = address(text)
    return IP(str(found)) if found is not None else None


def network(text: str) -> Any:
    """The network of a text, whose host bits may be set, or None."""
    before, slash, bits = text.partition("/")
    found = address(before)
    if found is None or not slash or not PREFIX.fullmatch(bits) or int(bits) > found.max_prefixlen:
        return None
    return ipaddress.ip_interface(f"{found}/{bits}")


def cidr(text: str) -> Optional[CIDR]:
    found = network(text)
    return CIDR(f"{found.ip}/{found.network.prefixlen}") if found is not None else None


def contains(given: CIDR, one: IP) -> bool:
    host, whole = ipaddress.ip_address(one.canonical), network(given.canonical).network
    return host.version == whole.version and host in whole


ADDRESS_PARTS: dict[str, Any] = {
    "family": lambda host: host.version,
    "isUnspecified": lambda host: host.is_unspecified,
    "isLoopback": lambda host: host.is_loopback,
}


def part_of_address(one: IP, method: str) -> Any:
    return ADDRESS_PARTS[method](ipaddress.ip_address(one.canonical))
