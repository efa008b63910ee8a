"""Defines the test vectors of each part of a receiver: their steps, and the comments that explain them. `vector_run` adds the outcomes."""
from __future__ import annotations

import random
import re
from collections import Counter
from itertools import combinations, product
from typing import Any, Callable, Dict, Iterable, Iterator, List, Tuple, Union

from vector_run import READS, USUAL, Differ, Pair, Settings, Step, agreed, perform, set_up
# pylint: disable=wrong-import-order  # vector_run adds the folders of these modules to the path
from client_parts import UNLOCK, coded, frame, packet, sum_of, whole
from client_parts import cltu as cltu_by_model
from coding import START, TAIL, read_clcw, sequence, telemetry, wrong
from tcrx import Clcw, write_cltu, write_tm

FRAME, SEGMENT, REASSEMBLY = "CCSDS 232.0-B, 4.1", "CCSDS 232.0-B, 4.1.3.2.2", "CCSDS 232.0-B, 4.4"
COMMAND, FECF, CLCW = "CCSDS 232.0-B, 4.1.3.3", "CCSDS 232.0-B, 4.1.4", "CCSDS 232.0-B, 4.2"
FARM, WINDOW, PACKET, CODING, TELEMETRY = "CCSDS 232.1-B, 6.3", "CCSDS 232.1-B, 6.1", "CCSDS 133.0-B, 4.1", "CCSDS 231.0-B", "CCSDS 132.0-B, 4.1"
# The meaning of each flag. It describes an outcome that this project chose. Another receiver may choose a different one.
FLAGS = {
    "e3-s2": "In S2 a frame ahead of V(R) sets no flag.",
    "e7-retransmit": "Unlock clears the Retransmit flag.",
    "e8-s3": "In S3 Set V(R) raises the FARM-B counter, and changes nothing else.",
    "e10-s3": "In S3 a release clears the Wait flag, and the channel stays in S3.",
    "e9": "A Type-AC frame is invalid, and changes nothing. So is a Type-BC frame whose data field is neither Unlock nor Set V(R).",
    "least-length": "A frame has at least 6 octets.",
    "fill": "Octets behind a raw frame are ignored, and with a frame error control field the octets are refused.",
    "type-b-number": "N(S) of a Type-B frame is ignored.",
    "no-run": "A continuing or last segment without a first segment is dropped.",
    "services": "The segments of Type-AD and of Type-BD frames of a MAP are reassembled separately.",
    "largest-unit": "A unit has at most 65,542 octets.",
    "unchecked": "The secondary header flag, the sequence flags and the sequence count of a packet aren't checked.",
    "left-over": "Octets with which no packet begins are left over, and so is all that follows them in the unit. A packet has version 000.",
    "dropped": "A packet is dropped if it is a telemetry or an idle packet, if its application has no queue, or if that queue is full.",
    "status": "The status field of a CLCW may have any value.",
    "start-bit": "With correction, one wrong bit in a start sequence is tolerated, and otherwise none.",
    "longest-cltu": "A CLTU carries at most 1,029 octets. A longer one is dropped.",
    "frames-per-cltu": "At most as many frames as are set are taken out of a CLTU. Octets that follow them and aren't fill are reported.",
    "telemetry-length": "A telemetry frame has 11 to 2,048 octets, and with a frame error control field at least 13.",
}


class Vector:
    """A test vector whose steps are carried out as they are added."""

    # pylint: disable-next=too-many-arguments  # they are the parts of a vector
    def __init__(self, name: str, comment: str, section: str, rule: str, flags: Iterable[str] = (), **settings: Any) -> None:
        self.settings: Settings = {**USUAL, **settings}
        self.head = {"id": name, "comment": comment, "section": section, "rule": rule}
        self.flags, self.invalid = set(flags), False
        self.steps: List[Step] = []
        self._pair = Pair(self.settings)
        set_up(self._pair, self.settings)
        self.word = int(self._pair.live(f"clcw {self.settings['vcid']}").split()[2], 16)

    @property
    def vr(self) -> int:
        """Returns V(R) after the last step."""
        return self.word & 255

    def add(self, what: str, octets: bytes = b"", **given: Any) -> Vector:
        """Adds a step."""
        step: Step = {"do": what, **({"octets": octets.hex()} if octets else {}), **given}
        step.update(perform(self._pair, self.settings, step))
        self.flags |= set(self._choices(step))
        self.word = int(step["clcw"], 16) if what not in READS else self.word
        self.steps.append(step)
        return self

    def _choices(self, step: Step) -> Iterator[str]:
        """Yields the flags of the cells of FARM-1's table that a step meets."""
        for shown in (step, *step.get("frames", ())):
            cell, had = f"{shown.get('event')}/{shown.get('state')}", self.word >> 11 & 3
            shows = {"e3-s2": cell == "E3/S2", "e7-retransmit": cell[:2] == "E7" and had & 1, "e8-s3": cell == "E8/S3",
                     "e10-s3": cell == "E10/S3" and had & 2, "e9": cell[:2] == "E9"}
            yield from (flag for flag, holds in shows.items() if holds)

    def bring(self, *frames: bytes) -> Vector:
        """Adds a step for each frame."""
        for octets in frames:
            self.add("frame", octets)
        return self

    def numbered(self, *offsets: int) -> Vector:
        """Adds a step with a Type-AD frame for each distance from V(R)."""
        for offset in offsets:
            number = (self.vr + offset) % 256
            self.bring(frame(number, whole(0, packet(5, number)), channel=self.settings["vcid"], scid=self.settings["scid"],
                             fecf=self.settings["fecf"]))
        return self

    def refused(self, reason: str) -> Vector:
        """Marks the vector as invalid, and then adds a step with a good frame, unless the last step only reads octets. Raises `Differ` if the
        last step wasn't refused for this reason."""
        if self.steps[-1].get("refused") != reason:
            raise Differ(f"{self.head['id']} isn't refused for the reason `{reason}`")
        self.invalid = True
        return self if self.steps[-1]["do"] in READS else self.numbered(0)

    def written(self) -> Dict[str, Any]:
        """Returns the vector in the form of its file."""
        result = "invalid" if self.invalid else "acceptable" if self.flags else "valid"
        return {**self.head, "result": result, "flags": sorted(self.flags), "settings": self.settings, "steps": self.steps}


# --- FARM-1 ---

SET_VR = {x: frame(0, bytes([0x82, 0, x]), bypass=1, command=1) for x in (7, 255)}
BD = frame(0, whole(0, packet(5, 0xBD)), bypass=1)


def leads(half: int) -> Dict[str, Tuple[str, int, List[int]]]:
    """Returns the ways into each state. A way has words for a comment, the size of the buffer, and the distances of frames from V(R)."""
    ways: Dict[str, Tuple[str, int, List[int]]] = {
        "open": ("is open", 1, []),
        "open-full": ("is open, and its buffer is full", 1, [0]),
        "wait": ("is in Wait", 1, [0, 0]),
        "lockout": ("is in Lockout", 1, [half]),
        "lockout-full": ("is in Lockout, and its buffer is full", 1, [0, half]),
        "lockout-held": ("is in Lockout, with two data fields in a buffer for three", 3, [0, 0, half]),
        "lockout-wait": ("is in Lockout, and Wait is set", 1, [0, 0, half]),
    }
    if half > 1:
        ways["open-retransmit"] = "is open, and Retransmit is set", 1, [1]
        ways["lockout-retransmit"] = "is in Lockout, and Retransmit is set", 1, [1, half]
    return ways


# An arrival: the distance of a Type-AD frame from V(R), the octets of another frame, or None for a release.
Arrival = Union[int, bytes, None]


def arrivals(half: int) -> Dict[str, Tuple[str, Arrival]]:
    """Returns the arrivals that are tried in each state, with the words for a comment."""
    found: Dict[str, Tuple[str, Arrival]] = {
        "expected": ("The expected frame", 0),
        "behind-first": ("The nearest frame behind V(R)", -1),
        "behind-last": ("The farthest frame behind V(R) that is in the window", -half),
        "above": ("A frame with the first number ahead that is outside the window", half),
        "below": ("A frame with the first number behind that is outside the window", -half - 1),
        "bd": ("A Type-BD frame", BD),
        "unlock": ("An Unlock", UNLOCK),
        "set-7": ("A Set V(R) to 7", SET_VR[7]),
        "set-255": ("A Set V(R) to 255", SET_VR[255]),
        "ac": ("A Type-AC frame", frame(0, b"\x00", command=1)),
        "no-command": ("A Type-BC frame without a command", frame(0, b"\x01", bypass=1, command=1)),
        "release": ("A release", None),
    }
    if half > 1:
        found["ahead-first"] = "The nearest frame ahead of V(R)", 1
        found["ahead-last"] = "The farthest frame ahead of V(R) that is in the window", half - 1
    return found


def effect(before: int, after: int) -> str:
    """Returns a sentence, without its full stop, about the changes from a CLCW to a later one."""
    fields = {"Lockout": (13, 1), "Wait": (12, 1), "Retransmit": (11, 1), "the FARM-B counter": (9, 3), "V(R)": (0, 255)}
    changes = [f"{name} becomes {after >> place & most}" for name, (place, most) in fields.items() if (before ^ after) >> place & most]
    text = " and ".join(changes) or "the CLCW stays as it is"
    return text[0].upper() + text[1:]


def farm_vector(width: int, lead: str, name: str, end: str) -> Vector:
    """Returns a vector for an arrival in a state. The expected frame comes after it, and before that a release if `end` isn't empty."""
    (state, places, offsets), (words, arrival) = leads(width // 2)[lead], arrivals(width // 2)[name]
    section = WINDOW if isinstance(arrival, int) and arrival else FARM
    vector = Vector(f"farm-{width}-{lead}-{name}{end}", "", section, "", width=width, buffer=places, firstVr=250).numbered(*offsets)
    before = vector.word
    if arrival is None:
        vector.add("release")
    elif isinstance(arrival, bytes):
        vector.bring(arrival)
    else:
        vector.numbered(arrival)
    step, behind = vector.steps[-1], "a release and the expected frame come" if end else "the expected frame comes"
    vector.head["rule"] = f"{step['event']}/{step['state']}" if "event" in step else step["refused"]
    vector.head["comment"] = f"The window has {width} numbers. The channel {state}. {words} comes. {effect(before, vector.word)}. Then {behind}."
    if end:
        vector.add("release")
    return vector.numbered(0)


def farm_vectors() -> Iterator[Vector]:
    """Yields vectors for each cell of FARM-1's table from each state, at both edges of three windows, and for counters that wrap around."""
    for width in (2, 10, 254):
        for lead, name in product(leads(width // 2), arrivals(width // 2)):
            for end in ("", "-release") if width == 10 else ("",):
                yield farm_vector(width, lead, name, end)
    for name, octets in {"bd": BD, "unlock": UNLOCK, "set-7": SET_VR[7]}.items():
        yield Vector(f"farm-counter-{name}", "The FARM-B counter goes from 3 to 0.", FARM, "FARM-B + 1 is modulo 4").bring(*[octets] * 5)
    yield Vector("farm-vr-wraps", "V(R) goes from 255 to 0.", FARM, "V(R) + 1 is modulo 256", firstVr=254, buffer=4).numbered(0, 0, 0, -1)


# --- Frames ---

GOOD = frame(0, whole(0, packet(5, 1)))
# The faults of a header, in the order in which a receiver looks for them. Each has words for a comment, and the bits that are flipped.
FAULTS: Dict[str, Tuple[str, int]] = {
    "version": ("its version bits are 01", 0x40000000),
    "spare": ("a spare bit is 1", 0x04000000),
    "length": ("its length field says that it has 5 octets", 0x00000008),
    "truncated": ("its length field says that it has 1,024 octets", 0x000003F3),
    "spacecraft": ("it is for spacecraft 43", 0x00010000),
    "channel": ("it is for virtual channel 33", 0x00008000),
}
# Other values of the same fields.
MORE_FAULTS = {"version-10": 0x80000000, "version-11": 0xC0000000, "spare-10": 0x08000000, "spare-11": 0x0C000000, "length-0": 0x0000000C,
               "truncated-by-1": 0x00000001, "spacecraft-0": 0x002A0000, "channel-0": 0x00000400}


def turned(*masks: int) -> bytes:
    """Returns the good frame with some bits of its header flipped."""
    header = int.from_bytes(GOOD[:4], "big")
    for mask in masks:
        header ^= mask
    return header.to_bytes(4, "big") + GOOD[4:]


def refused_vector(name: str, comment: str, octets: bytes, reason: str) -> Vector:
    """Returns a vector for octets that are refused."""
    return Vector(f"frames-{name}", comment, FRAME, reason).add("frame", octets).refused(reason)


def frame_vectors() -> Iterator[Vector]:
    """Yields vectors for octets with one fault or two, and for frames at the bounds of their fields."""
    for length in range(1, 5):
        yield refused_vector(f"short-{length}", "The octets are too few for a header.", GOOD[:length], "short")
    comment = "The octets are too few for a header, and their version bits are 01."
    yield refused_vector("short-version", comment, turned(FAULTS["version"][1])[:4], "short")
    for fault, (words, mask) in FAULTS.items():
        yield refused_vector(fault, f"The frame is refused because {words}.", turned(mask), fault)
    for name, mask in MORE_FAULTS.items():
        yield refused_vector(name, "A field of the header has another value that is refused.", turned(mask), name.partition("-")[0])
    for (fault, (words, mask)), (second, (more, other)) in combinations(FAULTS.items(), 2):
        if (fault, second) != ("length", "truncated"):
            comment = f"The frame is refused because {words}. Besides, {more}, which would be the second reason."
            yield refused_vector(f"{fault}-{second}", comment, turned(mask, other), fault)
    for length in (5, 6, 7, 12):
        yield refused_vector(f"cut-to-{length}", f"Only {length} octets of a frame of 13 octets came.", GOOD[:length], "truncated")
    for scid, vcid in ((0, 0), (1023, 63), (256, 32), (767, 31)):
        yield Vector(f"frames-for-{scid}-{vcid}", f"The frame is for spacecraft {scid} and virtual channel {vcid}, as the receiver is.", FRAME,
                     "spacecraft id and virtual channel id", scid=scid, vcid=vcid).numbered(0)
    for name, comment, octets, flag in (
            ("shortest", "The frame has 6 octets, which is the least.", frame(0, b"\xc0"), "least-length"),
            ("longest", "The frame has 1,024 octets, which is the most.", frame(0, whole(0, packet(5, *[7] * 1011))), ""),
            ("fill", "Seven octets follow the frame, and are ignored.", GOOD + bytes(7), "fill"),
            ("fill-frame", "Another frame follows the frame, and is ignored.", GOOD + frame(1, whole(0, packet(5, 2))), "fill"),
            ("bd-number", "The N(S) of a Type-BD frame is ignored.", frame(200, whole(0, packet(5, 1)), bypass=1), "type-b-number"),
            ("bc-number", "The N(S) of an Unlock is ignored.", frame(200, b"\x00", bypass=1, command=1), "type-b-number")):
        yield Vector(f"frames-{name}", comment, FRAME, "a whole frame", [flag] if flag else []).bring(octets).add("release").numbered(0)


# --- Control commands ---

NO_COMMANDS = ("01", "7f", "80", "ff", "0000", "000000", "82", "8200", "820107", "82000700", "830007", "020007", "820000000000", "00" * 1019)


def command_vectors() -> Iterator[Vector]:
    """Yields vectors for Unlock, for Set V(R), and for data fields that are neither."""
    for x in (0, 1, 127, 128, 254, 255):
        vector = Vector(f"commands-set-{x}", f"Set V(R) sets V(R) to {x}.", COMMAND, "E8/S1", firstVr=100)
        yield vector.bring(frame(0, bytes([0x82, 0, x]), bypass=1, command=1)).numbered(0, -1)
    yield Vector("commands-unlock", "Unlock ends Lockout.", COMMAND, "E7/S3").numbered(128).bring(UNLOCK).numbered(0)
    vector = Vector("commands-unlock-and-set", "Set V(R) leaves V(R) as it is in Lockout, and sets it after an Unlock.", COMMAND, "E8/S3")
    yield vector.numbered(128).bring(SET_VR[7], UNLOCK, SET_VR[7]).numbered(0)
    for digits in NO_COMMANDS:
        name = digits if len(digits) < 20 else f"{len(digits) // 2}-octets"
        vector = Vector(f"commands-none-{name}", "The data field of a Type-BC frame is neither Unlock nor Set V(R).", COMMAND, "E9/S3")
        yield vector.numbered(128).bring(frame(0, bytes.fromhex(digits), bypass=1, command=1)).numbered(0)
    for name, field in (("unlock", b"\x00"), ("set", b"\x82\x00\x07")):
        vector = Vector(f"commands-ac-{name}", "A command comes in a Type-AC frame, and isn't obeyed.", COMMAND, "E9/S3")
        yield vector.numbered(128).bring(frame(0, field, command=1)).numbered(0)
        vector = Vector(f"commands-bd-{name}", "The data field of a Type-BD frame looks like a command, but is data.", COMMAND, "E6/S3", ["no-run"])
        yield vector.numbered(128).bring(frame(0, field, bypass=1)).numbered(0)


# --- Segments ---

PARTS_OF_UNITS = {"first": 0x40, "more": 0x00, "last": 0x80, "whole": 0xC0}
# Rows of segments. A segment is written as its part and its MAP, with an `a` behind them if it comes in a Type-AD frame.
ROWS = (
    ("whole", "The unit has one segment.", "whole0", ()),
    ("two", "The unit has two segments.", "first0 last0", ()),
    ("three", "The unit has three segments.", "first0 more0 last0", ()),
    ("four-ad", "The unit has four segments, in Type-AD frames.", "first0a more0a more0a last0a", ()),
    ("empty", "The last two segments of the unit have no data.", "first0 more0 more0 more0 more0 last0", ()),
    ("last-alone", "A last segment without a first one is dropped.", "last0 whole0", ("no-run",)),
    ("continuing-alone", "A continuing segment without a first one is dropped, and the last one behind it, too.", "more0 last0 whole0", ("no-run",)),
    ("first-again", "Another first segment gives up the unit that was begun.", "first0 first0 last0", ()),
    ("whole-between", "An unsegmented unit gives up the unit that was begun.", "first0 whole0 last0", ("no-run",)),
    ("after-last", "Another last segment is dropped.", "first0 last0 last0", ("no-run",)),
    ("maps", "The segments of two MAPs alternate.", "first1 first2 more2 more1 last1 last2", ()),
    ("maps-0-63", "The segments of the lowest and of the highest MAP alternate.", "first0 first63 last63 last0", ()),
    ("services", "The segments of a MAP alternate in Type-AD and in Type-BD frames.", "first0a first0 last0 last0a", ("services",)),
    ("other-service", "The first segment came by the other service.", "first0a last0 last0a", ("services", "no-run")),
)


def segmented(name: str, comment: str, row: str, flags: Iterable[str] = (), unit: bytes = packet(5, *range(12)), **settings: Any) -> Vector:
    """Returns a vector for segments of a unit, five octets each. The data field of a Type-AD frame is released at once."""
    vector, rest = Vector(f"segments-{name}", comment, REASSEMBLY, "a unit is made of segments", flags, **settings), Counter[str]()
    for part, place, service in re.findall(r"([a-z]+)(\d+)(a?)", row):
        begin = rest[place + service] if part in ("more", "last") else 0
        rest[place + service] = end = begin + 5 if part in ("first", "more") else len(unit)
        vector.bring(frame(vector.vr, bytes([PARTS_OF_UNITS[part] | int(place)]) + unit[begin:end], bypass=int(not service)))
        if service:
            vector.add("release")
    return vector


def segment_vectors() -> Iterator[Vector]:
    """Yields vectors for segment headers and for reassembly."""
    for name, comment, row, flags in ROWS:
        yield segmented(name, comment, row, flags)
    comment = "MAP 1 has a queue, so its units are delivered whole. Those of MAP 0 are cut into packets."
    yield segmented("map-access", comment, "whole1 whole0 first1 last1", maps={"1": 4})
    yield segmented("map-access-octets", "The octets of a unit that is delivered whole aren't looked at.", "whole1 first1 last1",
                    unit=bytes(range(200, 209)), maps={"1": 4})
    yield segmented("map-access-empty", "A unit that is delivered whole has no octets.", "whole1", unit=b"", maps={"1": 4})
    yield segmented("map-access-both", "The units of a MAP by both services wait in one queue.", "whole1 whole1a first1 last1", maps={"1": 4})
    plain = Vector("segments-plain", "Without segment headers each data field is a unit.", SEGMENT, "no segment headers", segmentHeaders=False)
    yield plain.bring(frame(0, packet(5, 1))).add("release").bring(frame(0, packet(5, 2) + packet(5, 3), bypass=1))
    for size, fate in ((65_542, "delivered"), (65_543, "dropped")):
        unit = packet(5, *[0xAA] * 65_536) + b"\xaa" * (size - 65_542)
        vector = Vector(f"segments-{size}", f"A unit of {size:,} octets is {fate}.", REASSEMBLY, "the longest unit", ["largest-unit"])
        for at in range(0, size, 1018):
            part = "first" if at == 0 else "last" if at + 1018 >= size else "more"
            vector.bring(frame(0, bytes([PARTS_OF_UNITS[part]]) + unit[at:at + 1018], bypass=1))
        yield vector


# --- Packets ---

ONE, TWO = packet(5, 1), packet(6, 2, 3)
UNITS: Dict[str, Tuple[bytes, str, str]] = {
    "one": (ONE, "The unit has one packet.", ""),
    "two": (ONE + TWO, "The unit has two packets, for two applications.", ""),
    "three": (ONE + packet(5, 2) + packet(5, 3), "The unit has three packets for one application.", ""),
    "apids": (packet(0, 1) + packet(2046, 2) + packet(1023, 3), "The packets are for applications 0, 2,046 and 1,023.", ""),
    "longest": (packet(5, *[7] * 1011), "The packet fills the longest frame.", ""),
    "nothing": (b"", "The unit has no octets.", ""),
    "rest-1": (ONE + b"\x00", "An octet is left over behind the packet.", "left-over"),
    "rest-6": (ONE + ONE[:6], "A header without data is left over behind the packet.", "left-over"),
    "cut": (ONE + TWO[:-1], "The second packet has an octet too few, and is left over.", "left-over"),
    "rest-alone": (b"\x10\x05", "The unit has two octets, which are left over.", "left-over"),
    "version-001": (b"\x30" + ONE[1:] + TWO, "The version of the first packet isn't 000, so all octets are left over.", "left-over"),
    "version-111": (ONE + b"\xf0" + TWO[1:], "The version of the second packet isn't 000, so its octets are left over.", "left-over"),
    "no-queue": (packet(9, 1) + ONE, "The first packet is for an application without a queue.", "dropped"),
    "idle": (packet(2047, 1) + ONE, "The first packet is an idle packet.", "dropped"),
    "telemetry": (b"\x00" + ONE[1:] + TWO, "The first packet is a telemetry packet.", "dropped"),
    "secondary-header": (b"\x18" + ONE[1:] + TWO, "The first packet has the secondary header flag.", "unchecked"),
    "flags-00": (ONE[:2] + b"\x00" + ONE[3:] + TWO, "The sequence flags of the first packet are 00.", "unchecked"),
    "flags-01": (ONE[:2] + b"\x40" + ONE[3:] + TWO, "The sequence flags of the first packet are 01.", "unchecked"),
    "count": (ONE[:2] + b"\xff\xff" + ONE[4:] + ONE, "The sequence count of the first packet is 16,383, and that of the second is 0.", "unchecked"),
}


def packet_vectors() -> Iterator[Vector]:
    """Yields vectors for units that are cut into packets, and for queues that become full and empty."""
    queues = {str(apid): 256 for apid in (5, 6, 0, 2046, 1023)}
    for name, (unit, comment, flag) in UNITS.items():
        vector = Vector(f"packets-{name}", comment, PACKET, "a unit is cut into packets", [flag] if flag else [], queues=queues)
        yield vector.bring(frame(0, whole(0, unit), bypass=1))
    for capacity in (1, 2, 3):
        comment = f"A queue whose capacity is {capacity} drops packets while it is full, and gives the others in order."
        vector = Vector(f"packets-queue-{capacity}", comment, PACKET, "bounded queues", ["dropped"], queues={"5": capacity}, drain=False)
        vector.bring(frame(0, whole(0, b"".join(packet(5, number) for number in range(capacity + 1))), bypass=1)).add("take", apid=5)
        vector.bring(frame(0, whole(0, packet(5, 8) + packet(5, 9)), bypass=1))
        for _ in range(capacity + 1):
            vector.add("take", apid=5)
        yield vector.add("take", apid=6)
    comment = "A queue for two units drops the third, and gives the others in order."
    vector = Vector("packets-queue-of-units", comment, REASSEMBLY, "bounded queues", ["dropped"], maps={"1": 2}, drain=False)
    vector.bring(*(frame(0, whole(1, bytes([number])), bypass=1) for number in range(3)))
    yield vector.add("take", map=1).add("take", map=1).add("take", map=1).add("take", map=2)


# --- The CLCW and the frame error control field ---

def clcw_vectors() -> Iterator[Vector]:
    """Yields vectors for the fields of a CLCW as a channel makes them, and for words that are read."""
    for vcid in (0, 1, 31, 32, 63):
        comment = f"The CLCW of virtual channel {vcid} has each flag and each value of the FARM-B counter."
        vector = Vector(f"clcw-channel-{vcid}", comment, CLCW, "fields of a CLCW", vcid=vcid, firstVr=255).numbered(0, 0, 128)
        yield vector.bring(*[frame(0, b"\x00", channel=vcid, bypass=1, command=1)] * 4).add("release").numbered(1)
    vector = Vector("clcw-link", "The flags No RF Available and No Bit Lock are those of the link.", CLCW, "the flags of the link")
    for no_rf, no_bit_lock in ((1, 0), (1, 1), (0, 1), (0, 0)):
        vector.add("link", noRf=no_rf, noBitLock=no_bit_lock)
    yield vector
    for bit in range(32):
        word, flags = 0x01000000 ^ 1 << bit, ["status"] if 26 <= bit <= 28 else []
        refused = read_clcw(word).startswith("refused")
        comment = f"Bit {bit} of a CLCW, counted from the last one, is turned. The word is {'refused' if refused else 'read'}."
        vector = Vector(f"clcw-bit-{bit}", comment, CLCW, "fields of a CLCW", flags).add("clcw", word.to_bytes(4, "big"))
        yield vector.refused("clcw") if refused else vector
    yield Vector("clcw-all", "Each field has its largest value.", CLCW, "fields of a CLCW", ["status"]).add("clcw", bytes.fromhex("1dfcfeff"))


CHECKED = frame(0, whole(0, packet(5, 1)), fecf=True)


def unchecked() -> Iterator[Tuple[str, str, bytes]]:
    """Yields a name, a comment and octets that aren't one frame with the right field."""
    draw, bits = random.Random(1), range(8 * len(CHECKED))
    yield from ((f"bit-{bit}", f"Bit {bit} of the frame is wrong.", wrong(CHECKED, [bit])) for bit in bits[::3])
    for count, series in product((2, 3, 5), "abcd"):
        yield f"{count}-bits-{series}", f"{count} bits of the frame are wrong.", wrong(CHECKED, draw.sample(bits, count))
    yield from ((f"burst-{at}", f"16 bits in a row are wrong, from bit {at} on.", wrong(CHECKED, [*range(at, at + 16)])) for at in bits[:100:20])
    yield "none", "The frame has no field.", GOOD
    yield "zeros", "The field is 0.", CHECKED[:-2] + bytes(2)
    yield "swapped", "The octets of the field are swapped.", CHECKED[:-2] + CHECKED[:-3:-1]
    yield "cut", "The last octet is missing.", CHECKED[:-1]
    yield "7-octets", "The frame would have 5 octets without its field.", b"\x00\x2a\x04\x06\x00" + sum_of(b"\x00\x2a\x04\x06\x00")
    yield "4-octets", "The octets are too few for a header.", CHECKED[:4]
    yield "spacecraft", "The frame is for another spacecraft, and the field is wrong, which is looked at first.", wrong(CHECKED, [15])


def fecf_vectors() -> Iterator[Vector]:
    """Yields vectors for frames with right and wrong frame error control fields."""
    good = {"ad": frame(0, whole(0, packet(5, 1)), fecf=True), "bd": frame(0, whole(0, packet(5, 1)), bypass=1, fecf=True),
            "unlock": frame(0, b"\x00", bypass=1, command=1, fecf=True), "longest": frame(0, whole(0, packet(5, *[7] * 1009)), fecf=True)}
    for name, octets in good.items():
        yield Vector(f"fecf-{name}", "The field is right.", FECF, "a right field", fecf=True).bring(octets).add("release").numbered(0)
    comment = "The field is right, and the frame has 8 octets, which is the least."
    vector = Vector("fecf-shortest", comment, FECF, "a right field", ["least-length"], fecf=True)
    yield vector.bring(frame(0, b"\xc0", fecf=True)).numbered(0)
    for reason, octets in {"spacecraft": frame(0, b"\xc0\x01", scid=43, fecf=True), "channel": frame(0, b"\xc0\x01", channel=2, fecf=True)}.items():
        vector = Vector(f"fecf-{reason}", f"The field is right, and the frame is for another {reason}.", FECF, reason, fecf=True)
        yield vector.add("frame", octets).refused(reason)
    for name, comment, octets in unchecked():
        yield Vector(f"fecf-wrong-{name}", comment, FECF, "check", fecf=True).add("frame", octets).refused("check")
    vector = Vector("fecf-fill", "An octet follows a frame whose field is right.", FECF, "check", ["fill"], fecf=True)
    yield vector.add("frame", CHECKED + b"\x55").refused("check")


# --- CLTUs ---

CARRIED = GOOD + b"\x55"
BLOCKS = [coded(CARRIED[at:at + 7]) for at in (0, 7)]


def cltu(octets: bytes) -> bytes:
    """Returns the CLTU that carries octets. The library and the second implementation must write the same one."""
    return agreed("a CLTU", write_cltu(octets), cltu_by_model(octets))


# pylint: disable-next=too-many-arguments  # they are the parts of a vector
def streamed(mode: str, name: str, comment: str, pieces: Iterable[bytes], flag: str = "", rule: str = "a CLTU", **settings: Any) -> Vector:
    """Returns a vector for octets of a stream, which come in pieces. The vector is invalid if none of their frames reaches FARM-1."""
    its = {"framesPerCltu": 1, **settings}
    vector = Vector(f"cltu-{mode}-{name}", comment, CODING, rule, [flag] if flag else [], cltu=mode, **its)
    for piece in pieces:
        vector.add("stream", piece)
    vector.invalid = not any("event" in shown for step in vector.steps for shown in step["frames"])
    return vector


def wrong_bits(mode: str) -> Iterator[Vector]:
    """Yields vectors for a CLTU of two code blocks with wrong bits."""
    draw, body = random.Random(2), b"".join(BLOCKS)
    for bit in range(64):
        words = "The filler bit" if bit == 63 else f"Bit {bit}"
        stream = START + wrong(BLOCKS[0], [bit]) + BLOCKS[1] + TAIL
        yield streamed(mode, f"bit-{bit}", f"{words} of the first code block is wrong.", [stream], rule="wrong bits")
    for series, first, second in product("ab", range(4), range(4)):
        blocks = [wrong(block, draw.sample(range(63), count)) for block, count in zip(BLOCKS, (first, second))]
        comment = f"The number of wrong bits is {first} in the first code block, and {second} in the second."
        yield streamed(mode, f"{first}-and-{second}-bits-{series}", comment, [START + b"".join(blocks) + TAIL], rule="wrong bits")
    for bits in ([0], [7], [8], [15], [0, 1], [0, 15], [7, 8]):
        comment = f"The number of wrong bits in the start sequence is {len(bits)}."
        yield streamed(mode, f"start-{'-'.join(map(str, bits))}", comment, [wrong(START, bits) + body + TAIL], "start-bit" if len(bits) == 1 else "")
    for bit in (0, 31, 63):
        yield streamed(mode, f"tail-{bit}", f"Bit {bit} of the tail sequence is wrong.", [START + body + wrong(TAIL, [bit])])


def numbered_frames(count: int) -> bytes:
    """Returns frames with the numbers from 0 on."""
    return b"".join(frame(number, whole(0, packet(5, *range(number + 1)))) for number in range(count))


def candidates(mode: str) -> Iterator[Vector]:
    """Yields vectors for CLTUs with fill, of several frames, and of frames with a check sum or a random sequence."""
    for length in range(1, 8):
        octets = frame(0, whole(0, packet(5, *range(length))))
        fill = -len(octets) % 7
        yield streamed(mode, f"fill-{fill}", f"The number of octets of fill behind the frame is {fill}.", [cltu(octets)], rule="fill")
    for count in range(1, 5):
        comment = f"The CLTU carries {count} of at most 4 frames."
        yield streamed(mode, f"frames-{count}", comment, [cltu(numbered_frames(count))], framesPerCltu=4, buffer=4)
    comment = "The CLTU carries 5 frames, of which 4 are taken."
    yield streamed(mode, "frames-5", comment, [cltu(numbered_frames(5))], "frames-per-cltu", framesPerCltu=4, buffer=4)
    yield streamed(mode, "fill-7", "Seven octets behind the frame aren't fill.", [cltu(GOOD + b"\x55" * 7)], "frames-per-cltu", "fill")
    yield streamed(mode, "no-frame", "What the CLTU carries doesn't begin with a frame.", [cltu(b"\xff" * 7)], "frames-per-cltu")
    yield streamed(mode, "fecf", "The frame has the right frame error control field.", [cltu(CHECKED)], fecf=True)
    yield streamed(mode, "fecf-wrong", "The frame has a wrong frame error control field.", [cltu(wrong(CHECKED, [60]))], fecf=True)
    randomised = bytes(one ^ other for one, other in zip(CARRIED, sequence(len(CARRIED))))
    yield streamed(mode, "randomised", "What the CLTU carries has the random sequence added.", [cltu(randomised)], randomiser=True)


def streams(mode: str) -> Iterator[Vector]:
    """Yields vectors for CLTUs in pieces, one behind the other, among other octets, and too long."""
    stream, idle = cltu(GOOD), b"\x55" * 20
    for size in (1, 2, 3, 7, 8, 9):
        pieces = [stream[at:at + size] for at in range(0, len(stream), size)]
        yield streamed(mode, f"pieces-of-{size}", f"The CLTU comes in pieces whose length is {size}.", pieces)
    yield streamed(mode, "two", "Two CLTUs come, one behind the other.", [stream + cltu(frame(1, whole(0, packet(5, 2))))], buffer=2)
    yield streamed(mode, "idle", "The CLTU comes between idle octets.", [idle + stream + idle])
    yield streamed(mode, "half-start", "The first octet of a start sequence comes before the CLTU.", [b"\xeb" + stream])
    yield streamed(mode, "of-nothing", "A CLTU without code blocks comes before the CLTU.", [START + TAIL + stream])
    comment = "A code block that is rejected ends the first CLTU, as a tail sequence does."
    yield streamed(mode, "no-tail", comment, [stream[:-8] + bytes(7) + b"\x01" + stream])
    yield streamed(mode, "longest", "A CLTU of 147 code blocks comes.", [cltu(GOOD + b"\x55" * 1016)], "frames-per-cltu")
    comment = "A CLTU of 148 code blocks is dropped, and the next one is found."
    yield streamed(mode, "overlong", comment, [cltu_by_model(b"\x55" * 1036) + stream], "longest-cltu")


def cltu_vectors() -> Iterator[Vector]:
    """Yields vectors for CLTUs in both modes."""
    for mode in ("detect", "correct"):
        for vectors in (wrong_bits, candidates, streams):
            yield from vectors(mode)


# --- Telemetry frames ---

def telemetry_vectors() -> Iterator[Vector]:
    """Yields vectors for telemetry frames that carry a CLCW in their operational control field."""
    words = {"open": "01040001", "lockout": "01042200", "flags": "01fcfeff", "type-2": "80000000"}
    for fecf in (False, True):
        end, least = ("-fecf", 13) if fecf else ("", 11)
        for (name, digits), (scid, vcid, size) in product(words.items(), ((42, 1, least), (0, 0, 100), (1023, 7, 2048))):
            comment = f"The frame has {size:,} octets, and its control field is {digits}."
            vector = Vector(f"telemetry-{name}-{size}{end}", comment, f"{TELEMETRY}.5", "the operational control field",
                            ["telemetry-length"] if size != 100 else [], fecf=fecf)
            by_library = write_tm(scid, vcid, 255, 7, Clcw(int(digits, 16)), size=size, fecf=fecf)
            yield vector.add("telemetry", agreed(comment, by_library, telemetry(scid, vcid, (255, 7), bytes.fromhex(digits), size, fecf)))
        good = telemetry(42, 1, (0, 0), bytes.fromhex("01040001"), 20, fecf)
        bad = {"short": (good[:least - 1], "The octets are too few for a frame."), "version": (b"\x42" + good[1:], "The version bits are 01."),
               "control": (good[:1] + b"\xa2" + good[2:], "The frame has no operational control field.")}
        for reason, (octets, comment) in bad.items():
            flags = ["telemetry-length"] if reason == "short" else []
            yield Vector(f"telemetry-{reason}{end}", comment, TELEMETRY, reason, flags, fecf=fecf).add("telemetry", octets).refused(reason)
    for bit in range(3, 8 * len(good), 13):
        vector = Vector(f"telemetry-bit-{bit}", f"Bit {bit} of a frame with its field is wrong.", f"{TELEMETRY}.6", "check", fecf=True)
        yield vector.add("telemetry", wrong(good, [bit])).refused("check")


# The parts of the receiver by the names of their files. Each has a title and the function that yields its vectors.
PARTS: Dict[str, Tuple[str, Callable[[], Iterator[Vector]]]] = {
    "frames": ("Transfer frames, and why octets are refused", frame_vectors),
    "farm-1": ("FARM-1", farm_vectors),
    "commands": ("Control commands", command_vectors),
    "segments": ("Segments and reassembly", segment_vectors),
    "packets": ("Packets and queues", packet_vectors),
    "clcw": ("Fields of the CLCW", clcw_vectors),
    "fecf": ("The frame error control field", fecf_vectors),
    "cltu": ("CLTUs", cltu_vectors),
    "telemetry": ("Telemetry frames with the CLCW", telemetry_vectors),
}
