#!/usr/bin/env python3
"""Answers scripts by a model of the receiver. The model is written from the pages of docs/reference alone (scripts, formats, FARM-1 and
limits) and shares no source with the programs, whose answers checks compare with its answers. It also answers scripts if nothing is built.

usage: checks/model.py run --scid N < SCRIPT         prints what `tcrx run` must print
       checks/model.py parallel --scid N < SCRIPT    prints what `tcrx parallel` must print

A fault of the script goes to standard error, with status 1. The model needs Python 3.9 or later and its standard library. Nothing about the
model is proved.
"""
from __future__ import annotations

import argparse
import re
import sys
from collections import Counter, deque
from typing import Callable, Counter as Count, Deque, Dict, List, NamedTuple, Optional, Tuple

LONGEST_SCRIPT, LONGEST_LINE, LARGEST_UNIT = 1_048_576, 8_192, 65_542
# For each line that sets something up, the largest number that each word can have. A larger number is the fault `bad number`. A smaller one
# that its field doesn't allow is another fault, for example `bad channel`.
SETTINGS = {"channel": (255, 255, 255, 255), "queue": (255, 65_535, 65_535), "map": (255, 255, 65_535)}
OPERATIONS = {"release": (255,), "take": (255, 65_535), "unit": (255, 255), "clcw": (255,)}
# The operations that only `tclive` has.
LIVE = {"link": (255, 1, 1), "report": (255,), "deliver": (255,), "collect": (255,)}
# The table of FARM-1: for each event, the actions of its cells for S1 Open, S2 Wait and S3 Lockout. A frame that meets an empty cell is discarded.
TABLE = {
    "E1": ["accept, V(R) + 1, Retransmit 0", "", ""],
    "E2": ["Retransmit 1, Wait 1, to S2", "", ""],
    "E3": ["Retransmit 1", "", ""],
    "E4": ["", "", ""],
    "E5": ["Lockout 1, to S3", "Lockout 1, to S3", ""],
    "E6": ["accept, FARM-B + 1", "accept, FARM-B + 1", "accept, FARM-B + 1"],
    "E7": ["FARM-B + 1, Retransmit 0", "FARM-B + 1, Retransmit 0, Wait 0, to S1", "FARM-B + 1, Retransmit 0, Wait 0, Lockout 0, to S1"],
    "E8": ["FARM-B + 1, Retransmit 0, V(R) = x", "FARM-B + 1, Retransmit 0, V(R) = x, Wait 0, to S1", "FARM-B + 1"],
    "E9": ["", "", ""],
    "E10": ["", "Wait 0, to S1", "Wait 0"],
}


class BadLine(Exception):
    """The fault of a bad line. Its argument is the reason."""


class Refused(Exception):
    """The refusal of an operation. Its argument is the reason."""


def want(holds: bool, otherwise: Exception) -> None:
    """Raises `otherwise` unless `holds` is true."""
    if not holds:
        raise otherwise


class Frame(NamedTuple):
    """A transfer frame."""

    bypass: int
    control: int
    scid: int
    vcid: int
    number: int
    field: bytes


def read_frame(octets: bytes) -> Frame:
    """Returns the frame at the start of `octets`. Raises `Refused` if they don't start with a frame."""
    want(len(octets) >= 5, Refused("short"))
    want(octets[0] >> 6 == 0, Refused("version"))
    want(octets[0] & 0b1100 == 0, Refused("spare"))
    length = (octets[2] & 0b11) << 8 | octets[3]
    want(length >= 5, Refused("length"))
    want(length + 1 <= len(octets), Refused("truncated"))
    return Frame(octets[0] >> 5 & 1, octets[0] >> 4 & 1, (octets[0] & 0b11) << 8 | octets[1], octets[2] >> 2, octets[4], octets[5:length + 1])


def carries_more(octets: bytes) -> bool:
    """Returns whether more than fill follows the frame of a candidate: more than six octets, or another frame."""
    try:
        rest = octets[5 + len(read_frame(octets).field):]
    except Refused:
        return False
    try:
        return bool(read_frame(rest))
    except Refused:
        return len(rest) > 6


class Farm:
    """FARM-1 of a virtual channel: the state, V(R), the flags and the FARM-B counter."""

    def __init__(self, width: int, first: int) -> None:
        self.width, self.state, self.vr, self.farm_b = width, 1, first, 0
        self.flags = {"Lockout": 0, "Wait": 0, "Retransmit": 0}

    def event(self, frame: Frame, room: bool) -> str:
        """Returns the event of the table that a frame causes. `room` is true if the buffer has a free place."""
        if frame.control:
            unlock, set_vr = frame.field == b"\x00", len(frame.field) == 3 and frame.field[:2] == b"\x82\x00"
            return "E9" if not frame.bypass else "E7" if unlock else "E8" if set_vr else "E9"
        if frame.bypass:
            return "E6"
        ahead, behind = (frame.number - self.vr) % 256, (self.vr - frame.number) % 256
        if ahead == 0:
            return "E1" if room else "E2"
        return "E3" if ahead <= self.width // 2 - 1 else "E4" if behind <= self.width // 2 else "E5"

    def step(self, event: str, field: bytes = b"") -> bool:
        """Carries out the actions of an event in the current state. Returns whether they accept `field`, which is the data field of a frame."""
        accepted = False
        for effect in TABLE[event][self.state - 1].split(", "):
            if effect == "accept":
                accepted = True
            elif effect == "V(R) + 1":
                self.vr = (self.vr + 1) % 256
            elif effect == "V(R) = x":
                self.vr = field[2]
            elif effect == "FARM-B + 1":
                self.farm_b = (self.farm_b + 1) % 4
            elif effect.startswith("to S"):
                self.state = int(effect[4:])
            elif effect:
                self.flags[effect[:-2]] = int(effect[-1])
        return accepted

    def clcw(self, vcid: int, link: int = 0) -> str:
        """Returns the CLCW as hexadecimal digits. `link` has the flags of the link as bits of the CLCW."""
        flags = link | self.flags["Lockout"] << 13 | self.flags["Wait"] << 12 | self.flags["Retransmit"] << 11
        return f"{1 << 24 | vcid << 18 | flags | self.farm_b << 9 | self.vr:08x}"


# A queue of data fields, packets or units. Its `maxlen` is its capacity, and the oldest item is taken first.
Queue = Deque[bytes]


def put(queue: Queue, item: bytes) -> bool:
    """Appends an item to a queue if there is room. Returns whether there was."""
    room = len(queue) != queue.maxlen
    if room:
        queue.append(item)
    return room


class Delivery(NamedTuple):
    """The numbers of packets or units that an operation queued and dropped, and 1 if octets of the unit were left over, else 0."""

    queued: int = 0
    dropped: int = 0
    rest: int = 0

    def __str__(self) -> str:
        return f"queued {self.queued} dropped {self.dropped} rest {self.rest}"


class VirtualChannel:
    """A virtual channel: FARM-1, the buffer of its data fields, reassembly, and its queues."""

    def __init__(self, vcid: int, farm: Farm, places: int, plain: bool, reached: Count[str]) -> None:
        self.vcid, self.farm, self.plain, self.reached = vcid, farm, plain, reached
        self.buffer: Queue = deque(maxlen=places)
        # The data so far of each incomplete unit, by service and MAP.
        self.runs: Dict[Tuple[str, int], bytes] = {}
        # The queues of packets by application, and those of units by chosen MAP, in the order in which they were set up.
        self.queues: Dict[int, Queue] = {}
        self.maps: Dict[int, Queue] = {}
        self.events = 0
        # The flags No RF Available and No Bit Lock, as bits of the CLCW.
        self.link = 0

    def frame(self, frame: Frame) -> str:
        """Applies FARM-1 to a frame. Returns the answer."""
        event, before = self.farm.event(frame, len(self.buffer) != self.buffer.maxlen), self.farm.vr
        self.reached[f"{event} in S{self.farm.state}"] += 1
        if event == "E2":
            self.reached[f"a full buffer of {len(self.buffer)}"] += 1
        accepted, delivery = self.farm.step(event, frame.field), Delivery()
        self.events += 1
        if accepted and event == "E6":
            delivery = self.pass_on("BD", frame.field)
        elif accepted:
            self.buffer.append(frame.field)
            self.reached["V(R) past 255"] += self.farm.vr < before
        return f"frame {self.vcid} {event} accepted {int(accepted)} {delivery}"

    def release(self) -> str:
        """Passes on the oldest data field in the buffer. Returns the answer to `release`."""
        want(len(self.buffer) > 0, Refused("empty"))
        self.events += 1
        self.reached[f"E10 in S{self.farm.state}"] += 1
        self.farm.step("E10")
        return f"release {self.vcid} {self.pass_on('AD', self.buffer.popleft())}"

    def take(self, word: str, key: int, queue: Optional[Queue]) -> str:
        """Takes the oldest item of a queue, which is None if no queue has the number `key`. Returns the answer to `word`."""
        if queue is None:
            raise Refused("no map" if word == "unit" else "no queue")
        want(len(queue) > 0, Refused("empty"))
        self.events += 1
        return f"{word} {self.vcid} {key} {queue.popleft().hex() or '-'}"

    def clcw(self) -> str:
        """Returns the answer to `clcw`."""
        return f"clcw {self.vcid} {self.farm.clcw(self.vcid, self.link)}"

    def counts(self) -> List[str]:
        """Returns one text for each queue, with the number of items that wait in it."""
        return [f"{word} {key} {len(queue)}" for word, queues in (("queue", self.queues), ("map", self.maps)) for key, queue in queues.items()]

    def state(self) -> str:
        """Returns the answer to `report`."""
        farm, state = self.farm, ("open", "wait", "lockout")[self.farm.state - 1]
        self.reached[f"a report of {state}"] += 1
        flags = " ".join(f"{name.lower()} {value}" for name, value in farm.flags.items())
        return " ".join([f"report {self.vcid} state {state} vr {farm.vr} {flags} farm-b {farm.farm_b} buffered {len(self.buffer)}", *self.counts()])

    def deliver(self, releases: bool = True) -> str:
        """Releases a data field if `releases` is true, and takes everything that is queued. Returns the lines that answer `deliver`, or
        `collect` if nothing is released."""
        lines = [self.release() if self.buffer else "refused empty"] if releases else []
        for word, queues in (("take", self.queues), ("unit", self.maps)):
            for key, queue in queues.items():
                self.reached[f"a delivery by {word}"] += len(queue)
                lines += [self.take(word, key, queue) for _ in range(len(queue))]
        return "\n".join([*lines, self.clcw()])

    def pass_on(self, service: str, field: bytes) -> Delivery:
        """Passes a data field on to reassembly, and queues the unit that it completes, if any. Returns how many items were queued and dropped."""
        if self.plain:
            self.reached["a unit of a plain channel"] += 1
            return self.cut(field)
        chosen = self.maps.get(field[0] & 63)
        unit = self.unit(service, field)
        if unit is None:
            return Delivery()
        if chosen is None:
            return self.cut(unit)
        self.reached["a unit of a chosen MAP"] += 1
        room = put(chosen, unit)
        self.reached["a full queue of units"] += not room
        return Delivery(int(room), int(not room))

    def unit(self, service: str, field: bytes) -> Optional[bytes]:
        """Adds a segment to the unit of its service and MAP. Returns that unit if the segment completes it."""
        place, first, last = (service, field[0] & 63), field[0] >> 6 & 1, field[0] >> 7
        run = b"" if first else self.runs.get(place)
        self.runs.pop(place, None)
        if run is None:
            return None
        run += field[1:]
        if last or len(run) > LARGEST_UNIT:
            self.reached[f"a unit of {len(run)} octets"] += 1
        if len(run) > LARGEST_UNIT:
            return None
        if last:
            return run
        self.runs[place] = run
        return None

    def cut(self, unit: bytes) -> Delivery:
        """Cuts a unit into packets, and queues those that have a queue with room."""
        queued = dropped = 0
        while len(unit) > 6 and unit[0] >> 5 == 0 and len(unit) >= (size := int.from_bytes(unit[4:6], "big") + 7):
            telecommand, apid = unit[0] & 0b10000, (unit[0] & 0b111) << 8 | unit[1]
            queue = self.queues.get(apid) if telecommand else None
            room = queue is not None and put(queue, unit[:size])
            self.reached["a full queue of packets"] += queue is not None and not room
            queued, dropped, unit = queued + room, dropped + (not room), unit[size:]
        return Delivery(queued, dropped, int(len(unit) > 0))

    def report(self) -> List[str]:
        """Returns the channel's lines of the final report."""
        front = f"final {self.vcid} {self.farm.clcw(self.vcid)} events {self.events} buffered {len(self.buffer)}"
        return [front, *(line.replace(" ", f" {self.vcid} ", 1) for line in self.counts())]


def read_numbers(words: List[str], bounds: Tuple[int, ...]) -> List[int]:
    """Returns the numbers of a line. `bounds` has the largest number that each word can have."""
    want(len(words) == len(bounds), BadLine("wrong number of words"))
    for word, most in zip(words, bounds):
        want(re.fullmatch("[0-9]{1,5}", word) is not None and int(word) <= most, BadLine("bad number"))
    return [int(word) for word in words]


def read_octets(words: List[str]) -> bytes:
    """Returns the octets of a line with a frame or a candidate."""
    want(len(words) == 1, BadLine("wrong number of words"))
    want(re.fullmatch("([0-9a-fA-F]{2})*", words[0]) is not None, BadLine("bad hex"))
    return bytes.fromhex(words[0])


class Receiver:
    """The virtual channels of a spacecraft, which the lines of a script set up and operate on."""

    def __init__(self, scid: int, live: bool = False) -> None:
        self.scid, self.operating, self.operations = scid, False, {**OPERATIONS, **(LIVE if live else {})}
        self.with_octets = ("frame", "candidate") if live else ("frame",)
        self.channels: Dict[int, VirtualChannel] = {}
        # How often each situation occurred. drawing.py needs these counts.
        self.reached: Count[str] = Counter()

    def answer(self, line: str) -> Optional[str]:
        """Carries out a line. Returns its answer, or None for a comment, for a line without words and for a line that sets something up."""
        words = [word for word in re.split("[ \t\r]", line) if word]
        if not words or words[0].startswith("#"):
            return None
        if words[0] in SETTINGS:
            self.set_up(words[0], words[1:])
            return None
        want(words[0] in self.with_octets or words[0] in self.operations, BadLine("unknown command"))
        octets = read_octets(words[1:]) if words[0] in self.with_octets else b""
        numbers = [] if words[0] in self.with_octets else read_numbers(words[1:], self.operations[words[0]])
        if words[0] == "candidate" and carries_more(octets):
            self.reached["a candidate with more"] += 1
            return "refused more"
        want(len(self.channels) > 0, BadLine("no channel"))
        self.operating = True
        try:
            return self.operate(words[0], numbers) if numbers else self.bring(octets)
        except Refused as why:
            return f"refused {why}"

    def set_up(self, command: str, words: List[str]) -> None:
        """Carries out a line that sets something up. Looks for faults in the order in which docs/reference/scripts.md lists them."""
        option = words[4:] if command == "channel" and len(words) == 5 else []
        numbers = read_numbers(words[:4] if option else words, SETTINGS[command])
        want(option in ([], ["plain"]), BadLine("bad option"))
        want(not self.operating, BadLine("too late"))
        if command == "channel":
            self.add_channel(numbers, bool(option))
        else:
            self.add_queue(numbers, command == "map")

    def add_channel(self, numbers: List[int], plain: bool) -> None:
        """Adds a virtual channel."""
        vcid, width, places, first = numbers
        want(vcid not in self.channels, BadLine("double channel"))
        want(vcid <= 63, BadLine("bad channel"))
        want(width % 2 == 0 and 2 <= width <= 254, BadLine("bad window"))
        want(1 <= places <= 64, BadLine("bad buffer"))
        self.channels[vcid] = VirtualChannel(vcid, Farm(width, first), places, plain, self.reached)

    def add_queue(self, numbers: List[int], is_map: bool) -> None:
        """Adds a queue to a virtual channel, for packets of an application or for units of a MAP."""
        vcid, key, capacity = numbers
        want(vcid in self.channels, BadLine("unknown channel"))
        channel = self.channels[vcid]
        queues = channel.maps if is_map else channel.queues
        want(key <= (63 if is_map else 2_046), BadLine("bad map" if is_map else "bad application"))
        want(key not in queues, BadLine("double map" if is_map else "double application"))
        want(1 <= capacity <= 256, BadLine("bad units" if is_map else "bad capacity"))
        want(not (is_map and channel.plain), BadLine("map on plain channel"))
        queues[key] = deque(maxlen=capacity)

    def bring(self, octets: bytes) -> str:
        """Passes the frame at the start of `octets` to its channel. Returns the answer."""
        frame = read_frame(octets)
        want(frame.scid == self.scid, Refused("spacecraft"))
        want(frame.vcid in self.channels, Refused("channel"))
        return self.channels[frame.vcid].frame(frame)

    def operate(self, command: str, numbers: List[int]) -> str:
        """Carries out any operation other than `frame` and `candidate`. Returns the answer."""
        vcid, key = numbers[0], numbers[-1]
        want(vcid in self.channels, Refused("channel"))
        channel = self.channels[vcid]
        if command == "link":
            channel.link = numbers[1] << 15 | numbers[2] << 14
            return f"link {vcid} {numbers[1]} {numbers[2]}"
        alone: Dict[str, Callable[[], str]] = {"release": channel.release, "clcw": channel.clcw, "report": channel.state, "deliver": channel.deliver,
                                               "collect": lambda: channel.deliver(releases=False)}
        if command in alone:
            return alone[command]()
        return channel.take(command, key, channel.maps.get(key) if command == "unit" else channel.queues.get(key))

    def report(self) -> List[str]:
        """Returns the lines of the final report."""
        return [line for vcid in sorted(self.channels) for line in self.channels[vcid].report()]


class Outcome(NamedTuple):
    """The outcome of a script: the answers, the final report, the fault or an empty text, and how often each situation occurred."""

    answers: List[str]
    report: List[str]
    fault: str
    reached: Count[str]


def perform(scid: int, script: bytes, live: bool = False) -> Outcome:
    """Performs a script as `tcrx run` must, up to its end or its first bad line. If `live` is true, performs the lines as `tclive` must, which
    answers a bad line and goes on."""
    receiver = Receiver(scid, live)
    if len(script) > LONGEST_SCRIPT and not live:
        return Outcome([], [], "line 0: too long", receiver.reached)
    lines, answers = script.decode("latin-1").split("\n"), []
    for number, line in enumerate(lines if lines[-1] else lines[:-1], 1):
        try:
            if live and len(line) > LONGEST_LINE:
                raise BadLine("too long")
            answers.append(receiver.answer(line))
        except BadLine as reason:
            if not live:
                return Outcome([answer for answer in answers if answer], [], f"line {number}: {reason}", receiver.reached)
            answers.append(str(reason) if str(reason).startswith("bad ") else f"bad {reason}")
    return Outcome([answer for answer in answers if answer], receiver.report(), "", receiver.reached)


def main() -> int:
    """Answers the script on standard input. Returns the exit status."""
    parser = argparse.ArgumentParser(description="Answers a script by a model, which isn't the receiver and isn't proved.")
    parser.add_argument("command", choices=("run", "parallel"))
    parser.add_argument("--scid", type=int, required=True, choices=range(1_024), metavar="N")
    given = parser.parse_args()
    print("model.py: this is the model in Python, and not the receiver", file=sys.stderr)
    outcome = perform(given.scid, sys.stdin.buffer.read())
    shown = outcome.report if given.command == "parallel" else outcome.answers + outcome.report
    print("".join(f"{line}\n" for line in shown), end="")
    if outcome.fault:
        print(outcome.fault, file=sys.stderr)
    return 1 if outcome.fault else 0


if __name__ == "__main__":
    sys.exit(main())
