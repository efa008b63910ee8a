"""Defines the parts that the checks of the client in Python share: comparisons, and octets in the standard's layout."""
from __future__ import annotations

import sys
from typing import Any, Callable

from comparing import TOP, expect

CLIENT = TOP / "clients/python"
sys.path.insert(0, str(CLIENT))
# pylint: disable-next=wrong-import-position  # the client is found by the path above
from tcrx import Clcw, Delivery  # noqa: E402

NOTHING = Delivery(0, 0, False)


def same(answer: object, wanted: object, what: str) -> None:
    """Compares an answer and its type with `wanted` and its type."""
    expect(answer == wanted and type(answer) is type(wanted), f"{what}: {answer!r}, and not {wanted!r}")


def raises(kind: type[BaseException], call: Callable[..., object], what: str) -> Any:
    """Checks that a call raises an exception of exactly the type `kind`. Returns the exception."""
    try:
        answer = call()
    except Exception as fault:  # pylint: disable=broad-exception-caught  # any exception is compared
        # pylint: disable-next=unidiomatic-typecheck  # a subclass of it counts as another exception
        expect(type(fault) is kind, f"{what}: {fault!r}, and not {kind.__name__}")
        return fault
    expect(False, f"{what}: {answer!r}, and no {kind.__name__}")
    return None


# --- Octets in the standard's layout (docs/reference/formats.md) ---

# pylint: disable-next=too-many-arguments  # the fields of a frame
def frame(number: int, data: bytes, channel: int = 1, bypass: int = 0, command: int = 0, scid: int = 42, fecf: bool = False) -> bytes:
    """Returns a frame with these fields. If `fecf` is true, it ends with its frame error control field."""
    length = 5 + len(data) + 2 * fecf - 1
    octets = (bypass << 13 | command << 12 | scid).to_bytes(2, "big") + (channel << 10 | length).to_bytes(2, "big") + bytes([number]) + data
    return octets + sum_of(octets) if fecf else octets


def sum_of(octets: bytes) -> bytes:
    """Returns the frame error control field of octets, computed bit by bit (CCSDS 232.0-B, 4.1.4)."""
    register = 0xFFFF
    for octet in octets:
        for place in range(7, -1, -1):
            out = (register >> 15 ^ octet >> place) & 1
            register = (register << 1 & 0xFFFF) ^ (0x1021 * out)
    return register.to_bytes(2, "big")


def coded(octets: bytes) -> bytes:
    """Returns the code block of seven octets: these octets, their complemented parity bits, and a filler bit that is 0 (CCSDS 231.0-B, 3.3)."""
    left = int.from_bytes(octets, "big") << 7
    for bit in range(62, 6, -1):
        left ^= 0b1100_0101 << bit - 7 if left >> bit & 1 else 0
    return octets + bytes([(left ^ 0x7F) << 1])


def cltu(octets: bytes) -> bytes:
    """Returns the CLTU of a frame, which has the frame and its fill in code blocks between the start sequence and the tail sequence."""
    filled = octets + b"\x55" * (-len(octets) % 7)
    return b"\xeb\x90" + b"".join(coded(filled[at:at + 7]) for at in range(0, len(filled), 7)) + bytes.fromhex("c5c5c5c5c5c5c579")


def packet(apid: int, *data: int) -> bytes:
    """Returns a telecommand packet for an application with these octets of data."""
    return (0x1000 | apid).to_bytes(2, "big") + b"\xc0\x00" + (len(data) - 1).to_bytes(2, "big") + bytes(data)


def whole(map_id: int, data: bytes) -> bytes:
    """Returns a data field with an unsegmented unit."""
    return bytes([0xC0 | map_id]) + data


UNLOCK, SET_VR_9 = frame(0, b"\x00", bypass=1, command=1), frame(0, b"\x82\x00\x09", bypass=1, command=1)
ONE = packet(5, 0xAA)


def word(channel: int, flags: int, farm_b: int, report: int) -> Clcw:
    """Returns a CLCW of COP-1. `flags` is a sum of No RF (16), No Bit Lock (8), Lockout (4), Wait (2) and Retransmit (1), and `report` is V(R)."""
    return Clcw(0x01000000 | channel << 18 | flags << 11 | farm_b << 9 | report)
