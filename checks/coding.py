"""Implements CLTUs, telemetry frames and the random sequence a second time, in another form than the library's. Words are whole numbers, parity
bits come from long division, streams are searched by patterns and slices, and headers are strings of bits. `client_parts.py` makes code
blocks, CLTUs and frame error control fields."""
from __future__ import annotations

import binascii
import re
from typing import List, Optional, Tuple

GENERATOR = 0b1100_0101
START, TAIL = bytes.fromhex("eb90"), bytes.fromhex("c5c5c5c5c5c5c579")
MOST = 1029
MODES = {"detect": 0, "correct": 1}


def remainder(polynomial: int) -> int:
    """Returns the remainder of a division by the generator."""
    while polynomial.bit_length() > 7:
        polynomial ^= GENERATOR << (polynomial.bit_length() - 8)
    return polynomial


# The remainder of each octet in each of the eight places of a block. The filler bit, which is the last, is no part of the word.
LEFT = [[remainder(octet << 8 * (7 - place) >> 1) for octet in range(256)] for place in range(8)]
# The place of the wrong bit in a word, by the remainder that this bit alone leaves.
WRONG_BIT = {remainder(1 << bit): bit for bit in range(63)}


def decoded(block: bytes, most: int) -> Tuple[Optional[bytes], bool]:
    """Returns the octets that a code block carries, and whether a wrong bit was corrected. `most` is 1 if one bit may be corrected, else 0. The
    octets are None if the block is rejected."""
    left = remainder(0x7F)
    for place in range(8):
        left ^= LEFT[place][block[place]]
    if left == 0:
        return block[:7], False
    bit = WRONG_BIT.get(left)
    if bit is None or most == 0:
        return None, False
    word = int.from_bytes(block, "big") >> 1 ^ 1 << bit
    return (word >> 7).to_bytes(7, "big"), True


Found = Tuple[List[bytes], int, int, int]


def searched(stream: bytes, most: int) -> Found:
    """Searches a stream for CLTUs. Returns the candidates, the number of corrected blocks, the number of rejected blocks other than tail sequences,
    and the number of CLTUs that are too long."""
    frames, corrected, rejected, overlong, at = [], 0, 0, 0, 0
    while found := STARTS[most].search(stream, at):
        at, frame, ends = found.end(), b"", False
        while not ends and at + 8 <= len(stream):
            block = stream[at:at + 8]
            information, was_corrected = decoded(block, most)
            at += 8
            if information is None:
                ends, rejected = True, rejected + (block != TAIL)
                frames += [frame] if frame else []
            elif len(frame) + 7 > MOST:
                ends, overlong = True, overlong + 1
            else:
                frame, corrected = frame + information, corrected + was_corrected
        if not ends:
            break
    return frames, corrected, rejected, overlong


def taken_out(candidate: bytes, most: int) -> Tuple[List[bytes], bytes]:
    """Returns at most `most` frames from the front of a candidate, and the octets after them."""
    frames: List[bytes] = []
    while len(frames) < most:
        bits = "".join(f"{octet:08b}" for octet in candidate[:5])
        length = int(bits[22:32], 2) + 1 if len(bits) == 40 else 0
        if bits[:2] != "00" or bits[4:6] != "00" or not 6 <= length <= len(candidate):
            break
        frames.append(candidate[:length])
        candidate = candidate[length:]
    return frames, candidate


# For each number of bits that may be wrong, a pattern that lists all words that count as a start sequence.
STARTS = [re.compile(b"|".join(re.escape((0xEB90 ^ bits).to_bytes(2, "big")) for bits in range(1 << 16) if bin(bits).count("1") <= most))
          for most in MODES.values()]


def sequence(count: int) -> bytes:
    """Returns the first `count` octets of the random sequence."""
    bits = [1] * 8
    while len(bits) < 8 * count:
        bits.append((bits[-2] + bits[-4] + bits[-5] + bits[-6] + bits[-7] + bits[-8]) % 2)
    return bytes(int("".join(map(str, bits[at:at + 8])), 2) for at in range(0, 8 * count, 8))


def telemetry(scid: int, vcid: int, counts: Tuple[int, int], control: bytes, size: int, fecf: bool) -> bytes:
    """Returns a telemetry frame with only idle data. `counts` are those of the master channel and of the virtual channel."""
    bits = f"00{scid:010b}{vcid:03b}1{counts[0]:08b}{counts[1]:08b}000" + "11" + "11111111110"
    header = int(bits, 2).to_bytes(6, "big")
    frame = header + b"\x55" * (size - 10 - 2 * fecf) + control
    return frame + binascii.crc_hqx(frame, 0xFFFF).to_bytes(2, "big") * fecf


def wrong(octets: bytes, bits: List[int]) -> bytes:
    """Returns octets with these bits inverted. The first bit is bit 0."""
    number = int.from_bytes(octets, "big")
    for bit in bits:
        number ^= 1 << 8 * len(octets) - 1 - bit
    return number.to_bytes(len(octets), "big")


def read_telemetry(frame: bytes, fecf: bool) -> List[str]:
    """Returns the words of the answer of `tcmake` to a telemetry frame: its fields, or why the octets are refused."""
    bits, least = "".join(f"{octet:08b}" for octet in frame), 13 if fecf else 11
    faults = {"short": len(frame) < least, "version": bits[:2] != "00", "control": bits[15:16] != "1", "check": fecf and binascii.crc_hqx(frame, 0xFFFF) != 0}
    if any(faults.values()):
        return ["refused", next(fault for fault, holds in faults.items() if holds)]
    control = frame[-6:-2] if fecf else frame[-4:]
    places = {"scid": (2, 12), "vc": (12, 15), "master": (16, 24), "channel": (24, 32), "pointer": (37, 48)}
    numbers = [f"{name} {int(bits[begin:end], 2)}" for name, (begin, end) in places.items()]
    return ["tm", *numbers, "report" if control[0] > 127 else "clcw", control.hex()]


def read_clcw(word: int) -> str:
    """Returns the answer of `tcmake` to a CLCW: its fields, or a refusal if the word isn't a CLCW of COP-1."""
    bits, at, fields = f"{word:032b}", 0, {}
    for name, width in (("type", 1), ("version", 2), ("status", 3), ("cop", 2), ("vc", 6), ("spare", 2), ("norf", 1), ("nobitlock", 1), ("lockout", 1),
                        ("wait", 1), ("retransmit", 1), ("farmb", 2), ("last", 1), ("vr", 8)):
        fields[name], at = int(bits[at:at + width], 2), at + width
    if (fields["type"], fields["version"], fields["cop"], fields["spare"], fields["last"]) != (0, 0, 1, 0, 0):
        return "refused clcw"
    return " ".join(["clcw", *(f"{name} {fields[name]}" for name in ("vc", "status", "norf", "nobitlock", "lockout", "wait", "retransmit", "farmb", "vr"))])
