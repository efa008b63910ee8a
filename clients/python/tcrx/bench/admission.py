"""Which connections a port takes: from whom, how many, and which one gives up its place to a new one."""
from __future__ import annotations

import ipaddress
import resource
import time
from typing import TYPE_CHECKING

if TYPE_CHECKING:
    from .ports import Port

# Ports whose peers send something. Those that read from other ports are silent by design.
HEARD = ("tc-tcp", "lines")
# Seconds after which a connection that sent nothing gives up its place if its port is full.
SILENT = 60.0
# How many connections may have been told why they are closed and not be closed yet. Files that may be open besides the connections that are
# taken: these, and the bench's own.
MOST_LINGERING = 256
OTHER_FILES = MOST_LINGERING + 64


def plain(address: str) -> str:
    """Returns an address without its zone. An IPv4 address that is written as an IPv6 address becomes the IPv4 address."""
    try:
        given = ipaddress.ip_address(address.partition("%")[0])
    except ValueError:
        return address
    return str(getattr(given, "ipv4_mapped", None) or given)


def refusal_of(port: Port, address: str) -> str:
    """Returns why a new connection from an address, as `plain` returns it, isn't taken, or an empty text if it is taken."""
    hub = port.hub
    if not port.place.allows(address):
        return "this address isn't allowed here"
    if hub.per_address and sum(each.address == address for each in port.open) >= hub.per_address:
        return f"this address has {hub.per_address} connections, and no more are taken"
    if len(port.open) >= hub.most and not has_made_room(port):
        return f"there are {hub.most} connections, and no more are taken"
    return ""


def has_made_room(port: Port) -> bool:
    """Closes the oldest connection that never sent anything, if it has been silent for long. Returns whether there was one."""
    if port.place.kind not in HEARD:
        return False
    now = time.monotonic()
    silent = [each for each in port.open if not each.octets and not each.done and now - each.since > SILENT]
    if not silent:
        return False
    oldest = min(silent, key=lambda each: each.since)
    oldest.turn_away(f"nothing came in {now - oldest.since:.0f} seconds, and the port is full: a new connection takes this place")
    port.open.discard(oldest)
    return True


def room_for(ports: int, wanted: int) -> int:
    """How many connections each of so many ports can take at a time, up to what is wanted. Raises the process's own limit of open files if it
    can and must."""
    soft, hard = resource.getrlimit(resource.RLIMIT_NOFILE)
    needed = ports * wanted + OTHER_FILES
    if soft == resource.RLIM_INFINITY or soft >= needed:
        return wanted
    most = needed if hard == resource.RLIM_INFINITY else min(needed, hard)
    try:
        resource.setrlimit(resource.RLIMIT_NOFILE, (most, hard))
    except (OSError, ValueError):
        most = soft
    return max(1, min(wanted, (most - min(OTHER_FILES, most // 2)) // max(1, ports)))
