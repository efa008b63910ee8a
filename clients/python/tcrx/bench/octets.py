"""Frames, as far as the bench looks into them: to cut a stream into them. The receiver judges each by itself."""
from __future__ import annotations

import re
from binascii import crc_hqx
from typing import List, Optional

# Octets of a header, and of the shortest frame.
HEADER, SHORTEST = 5, 6
# How a browser begins, as no frame and no line for the receiver does: by a method of HTTP and a space, or by the first message of TLS,
# with the kind of its record, two octets of its version, two of its length, and its own kind.
METHODS = (b"GET ", b"HEAD ", b"POST ", b"PUT ", b"DELETE ", b"CONNECT ", b"OPTIONS ", b"TRACE ", b"PATCH ")
HELLO = b"\x16\x03\x01\x00\x00\x01"
REQUEST = re.compile(rb"^(?:%b|\x16\x03[\x00-\x04]..\x01)" % b"|".join(METHODS), re.M | re.S)
LONGEST_FRONT = max(map(len, (*METHODS, HELLO)))
# What is wrong with octets that begin so.
BROWSER = "a browser asks here, and isn't obeyed; the page is at --http"


def ends_with_sum(octets: bytes) -> bool:
    """Returns whether the frame at the front of octets ends with the right frame error control field."""
    return not crc_hqx(octets[:((octets[2] & 3) << 8 | octets[3]) + 1], 0xFFFF)


def begins_frame(octets: bytes, scid: int, fecf: bool) -> bool:
    """Returns whether octets begin with a whole frame of this spacecraft, with the right frame error control field if frames have one."""
    if len(octets) < SHORTEST or octets[0] & 0xCC or (octets[0] & 3) << 8 | octets[1] != scid:
        return False
    return SHORTEST <= ((octets[2] & 3) << 8 | octets[3]) + 1 <= len(octets) and (not fecf or ends_with_sum(octets))


def has_request(octets: bytes) -> bool:
    """Returns whether a line of these octets begins as a browser does."""
    return REQUEST.search(octets) is not None


def begins_request(octets: bytes) -> Optional[bool]:
    """Returns whether a stream that begins with these octets is a browser's, or None if more must come to know that."""
    if REQUEST.match(octets):
        return True
    whole = octets + HELLO[len(octets):]
    may_be = any(method.startswith(octets) for method in METHODS) or (whole != octets and REQUEST.match(whole))
    return None if may_be else False


class Cutter:
    """Cuts the octets of one connection into frames by their own length field.

    With `resync` it looks for the next header of its spacecraft behind octets that begin no frame. Where a frame may begin, one of
    another spacecraft is cut off whole, as its data may look like a frame; with sums only if its sum holds.
    """

    def __init__(self, scid: int, fill: int, resync: bool, fecf: bool = False) -> None:
        self.fill, self.resync, self.fecf = fill, resync, fecf
        self.kept, self.to_skip = bytearray(), 0
        self.place = 0
        """How many octets were cut off so far."""
        self.skipped, self.is_lost = 0, False
        """How many octets began no frame, and were left out to find the next header; and whether no frame came since."""
        self.fault = ""
        """What is wrong with the octets that come next, where nothing can be cut off them."""
        first = bytes(flags << 4 | scid >> 8 for flags in range(4))
        self.pattern = re.compile(b"[" + re.escape(first) + b"]" + re.escape(bytes([scid & 255])), re.S)

    def cut(self, most: int) -> List[bytes]:
        """Cuts off up to so many pieces: frames, each of which is returned, and octets that begin no frame, for which an empty piece is returned.
        There are fewer pieces only if more octets must come first, or if `fault` says what is wrong with the next ones."""
        kept = self.kept
        if not self.place and (is_request := begins_request(bytes(kept[:LONGEST_FRONT]))) is not False:
            # Nothing is cut off before that is known, so that no frame that a page has sent is found behind it.
            self.fault = BROWSER if is_request else ""
            return []
        pieces: List[bytes] = []
        at, end = 0, len(kept)
        while len(pieces) < most:
            if self.to_skip:
                step = min(self.to_skip, end - at)
                at, self.to_skip = at + step, self.to_skip - step
            if end - at < HEADER:
                break
            length = ((kept[at + 2] & 3) << 8 | kept[at + 3]) + 1
            is_own = not self.resync or self.pattern.match(kept, at)
            begins = not kept[at] & 0xCC and length >= SHORTEST and (is_own or not self.is_lost)
            if begins and end - at < length:
                break
            octets = bytes(kept[at:at + length])
            if begins and (is_own or not self.fecf or not crc_hqx(octets, 0xFFFF)):
                pieces.append(octets)
                at, self.to_skip, self.is_lost = at + length, -length % self.fill, False
            elif self.resync:
                pieces.append(b"")
                at = self.find_next(at + 1)
            else:
                self.fault = f"octets that begin no frame: {kept[at:at + HEADER].hex()} at octet {self.place + at}"
                break
        self.place += at
        del kept[:at]
        return pieces

    def find_next(self, begin: int) -> int:
        """Returns the place at which the next header of this spacecraft may begin. Counts the octets before it as skipped."""
        found = self.pattern.search(self.kept, begin)
        # A last octet may be the first of a header.
        at = found.start() if found else max(begin, len(self.kept) - 1)
        self.skipped += at - begin + 1
        self.is_lost = True
        return at

    def skip_begun(self) -> None:
        """Leaves out the first octet of a frame whose others didn't come."""
        at = self.find_next(1)
        self.place += at
        del self.kept[:at]
