#!/usr/bin/env python3
"""Draws scripts at random. The model carries out each line as it is drawn, so that the next line can fit the state of the receiver: it can send
the frame that is expected, complete a unit, or fill a queue. The module also counts, by the model and its answers, what scripts reach.

usage: checks/drawing.py [--seed N] [--scripts N] FOLDER    adds drawn scripts without a bad line to the stored cases in FOLDER

It prints the seed. With the seed that an earlier run printed, it draws the same scripts again.
"""
from __future__ import annotations

import argparse
import random
import re
from collections import Counter
from functools import lru_cache, partial
from pathlib import Path
from typing import Callable, Counter as Count, Dict, List, NamedTuple, Tuple

from model import LARGEST_UNIT, LONGEST_LINE, LONGEST_SCRIPT, OPERATIONS, SETTINGS, BadLine, Outcome, Receiver, VirtualChannel, perform

# The number of octets of a unit that the longest frame carries after its segment header.
LONGEST_PART = 1_018
UNLOCK, SET_VR = b"\x00", b"\x82\x00"
REFUSALS = {"frame": ("short", "version", "spare", "length", "truncated", "spacecraft", "channel"), "release": ("channel", "empty"),
            "take": ("channel", "no queue", "empty"), "unit": ("channel", "no map", "empty"), "clcw": ("channel",)}
REASONS = ("unknown command", "wrong number of words", "bad number", "bad hex", "bad option", "too late", "no channel", "double channel",
           "unknown channel", "bad channel", "bad window", "bad buffer", "bad application", "double application", "bad capacity", "bad map",
           "double map", "bad units", "map on plain channel", "too long")
# The reasons for which `bad_line` draws a line.
BAD = REASONS[:-1]
# The largest number that each word of a command can have.
NUMBERS = {**SETTINGS, **OPERATIONS}
# The situations that scripts must reach: bounds of sizes, each row of FARM-1's table in each state in which it can occur, and each refusal
# and each reason from above.
BOUNDS = ("a unit of 65542 octets", "a unit of 65543 octets", "64 channels", "a full buffer of 64", "a full queue of packets",
          "a full queue of units", "V(R) past 255", "a unit of a plain channel", "a unit of a chosen MAP", "2047 queues of a channel",
          "64 maps of a channel", "thousands of operations")
OF_LIVE = ("a report of open", "a report of wait", "a report of lockout", "a delivery by take", "a delivery by unit", "a candidate with more")
ROWS = tuple(f"E{row} in S{state}" for row in range(1, 10) for state in (1, 2, 3) if (row, state) != (1, 2))
WANTED = BOUNDS + OF_LIVE + ROWS + tuple(f"{word} refused {why}" for word, reasons in REFUSALS.items() for why in reasons) + REASONS


class Script(NamedTuple):
    """A script for the spacecraft `scid`. If it is `live`, its lines are for `tclive`."""

    scid: int
    lines: Tuple[str, ...]
    live: bool = False

    @property
    def octets(self) -> bytes:
        """Returns the octets that a program reads."""
        return "".join(f"{line}\n" for line in self.lines).encode("latin-1")

    @property
    def outcome(self) -> Outcome:
        """Returns the outcome that the script must have."""
        return outcome_of(self)


@lru_cache(maxsize=None)
def outcome_of(script: Script) -> Outcome:
    """Returns the outcome of a script by the model, which performs each script only once."""
    return perform(script.scid, script.octets, script.live)


def reached_by(script: Script) -> Count[str]:
    """Returns how often a script reaches each situation."""
    outcome = script.outcome
    if script.live:
        return outcome.reached
    operations = [words[0] for words in map(str.split, script.lines) if words and words[0] in REFUSALS]
    reached = outcome.reached + Counter(f"{word} {answer}" for word, answer in zip(operations, outcome.answers) if answer.startswith("refused"))
    reached[f"{sum(line.startswith('final') for line in outcome.report)} channels"] += 1
    of_channels = Counter(" ".join(line.split(" ")[:2]) for line in outcome.report)
    reached.update(f"{count} {each.partition(' ')[0]}s of a channel" for each, count in of_channels.items())
    reached["thousands of operations"] += len(operations) >= 5_000
    reached[re.sub("^line [0-9]+: ", "", outcome.fault) or "no fault"] += 1
    return reached


class Drawer:
    """A drawer of one script. It has the model carry out each line that it adds."""

    def __init__(self, chance: random.Random, live: bool) -> None:
        self.chance, self.scid, self.live = chance, chance.choice((0, 1, 42, 511, 512, 1_023, chance.randrange(1_024))), live
        self.receiver = Receiver(self.scid, live)
        self.lines: List[str] = []
        # The share of operations that release a data field. If it is small, buffers become full.
        self.releases = chance.choice((0.02, 0.1, 0.25))

    def add(self, line: str) -> None:
        """Adds a line and has the model carry it out. For `tclive`, other lines follow some of the lines from the first operation on. Many of
        these others are bad."""
        self.lines.append(line)
        try:
            self.receiver.answer(line)
        except BadLine:
            pass
        if self.live and self.receiver.operating and self.chance.random() < 0.15:
            vcid = self.chance.choice([*self.receiver.channels] * 3 + [63, 256])
            link = f"link {vcid} {self.chance.choice((0, 0, 1, 1, 2))} {self.chance.randrange(2)}"
            few = self.chance.choice(("link 1 0", "report", "deliver 1 1", "collect x", "candidate 0"))
            good = (link, f"report {vcid}", f"deliver {vcid}", f"collect {vcid}")
            self.add(self.chance.choice((*good, few, bad_line(self.chance, self.chance.choice(BAD)))))

    # --- Set-up ---

    def channel(self, vcid: int, **more: int) -> VirtualChannel:
        """Sets up a channel with at most five queues. The width, the number of places in the buffer, and whether the channel is plain are drawn if
        `more` doesn't give them."""
        chance = self.chance
        width, places = more.get("width", chance.choice((2, 4, 10, 128, 252, 254))), more.get("places", chance.choice((1, 2, 7, 64)))
        first, plain = chance.choice((0, 1, 127, 250, 255, chance.randrange(256))), more.get("plain", int(chance.random() < 0.25))
        self.add(f"channel {vcid} {width} {places} {first}{' plain' * plain}")
        capacities = (1, 2, 5, chance.randrange(1, 257))
        for apid in chance.sample((0, 5, 9, 255, 256, 2_046), chance.randrange(4)):
            self.add(f"queue {vcid} {apid} {chance.choice(capacities)}")
        for place in chance.sample((0, 3, 62, 63), 0 if plain else chance.randrange(3)):
            self.add(f"map {vcid} {place} {chance.choice(capacities)}")
        return self.receiver.channels[vcid]

    # --- Operations ---

    def packet(self, channel: VirtualChannel) -> bytes:
        """Returns a packet for one of the channel's queues, or one that is dropped or left over."""
        chance = self.chance
        apid = chance.choice([*channel.queues] * 4 + [5, 7, 1_029, 2_047])
        first = chance.choice((0x10,) * 8 + (0x18, 0x00, 0x30, 0x50, 0x90)) | apid >> 8
        data = chance.randbytes(chance.choice((1, 1, 2, 9, chance.randrange(1, 300))))
        return bytes([first, apid & 255, chance.randrange(256), chance.randrange(256)]) + (len(data) - 1).to_bytes(2, "big") + data

    def data(self, channel: VirtualChannel) -> bytes:
        """Returns at most three packets in a row, sometimes cut short."""
        octets = b"".join(self.packet(channel) for _ in range(self.chance.choice((0, 1, 1, 1, 2, 3))))
        return octets[:self.chance.choice((len(octets),) * 5 + (self.chance.randrange(len(octets) + 1),))][:LONGEST_PART]

    def field(self, channel: VirtualChannel) -> bytes:
        """Returns a data field. If the channel has segments, it is often one for the MAP of an incomplete unit."""
        if channel.plain:
            return self.data(channel) or b"\x00"
        chance = self.chance
        place = chance.choice([*channel.maps] + [place for _, place in channel.runs] + [0, 0, 3, chance.randrange(64)])
        return bytes([chance.choice((0xC0, 0xC0, 0x40, 0x00, 0x80)) | place]) + self.data(channel)

    def octets(self, first: int, vcid: int, number: int, field: bytes) -> bytes:
        """Returns a frame of these parts. `first` is the first octet of the header without the bits of the spacecraft id."""
        return bytes([first | self.scid >> 8, self.scid & 255, vcid << 2 | len(field) + 4 >> 8, len(field) + 4 & 255, number % 256]) + field

    def frame(self, channel: VirtualChannel) -> bytes:
        """Returns a frame for a channel, mostly one that is accepted."""
        chance, half, expected = self.chance, channel.farm.width // 2, channel.farm.vr
        if chance.random() < 0.25 or channel.farm.state == 3 and chance.random() < 0.4:
            any_octet = bytes([chance.randrange(256)])
            command = chance.choice((UNLOCK, UNLOCK, SET_VR + any_octet, SET_VR + any_octet, b"\x82\x01\x00", b"\x82\x00", b"\x00\x00", any_octet))
            return self.octets(chance.choice((0x30,) * 9 + (0x10,)), channel.vcid, chance.randrange(256), command)
        if chance.random() < 0.3:
            return self.octets(0x20, channel.vcid, chance.randrange(256), self.field(channel))
        beside = (1, -1, half - 1, half, half + 1, -half, -half - 1, chance.randrange(256))
        return self.octets(0x00, channel.vcid, expected + chance.choice((0,) * 12 + beside), self.field(channel))

    def spoilt(self, octets: bytes) -> bytes:
        """Returns a copy of a frame with a changed bit, with another length, or cut short. It is mostly refused."""
        chance = self.chance
        at, bit = chance.choice(((0, 7), (0, 6), (0, 3), (0, 2), (0, 1), (0, 0), (1, 0), (1, 7), (2, 7), (2, 2), (2, 1), (3, 3)))
        changed = bytearray(octets)
        changed[at] ^= 1 << bit
        small = bytearray(octets[:8])
        small[2], small[3] = small[2] & 0xFC, chance.choice((0, 3, 4, 5))
        return bytes(chance.choice((changed, changed, changed, small, octets[:-1], octets[:chance.randrange(1, 7)])))

    def operation(self, channel: VirtualChannel) -> str:
        """Returns a line with an operation, mostly on `channel`."""
        chance, vcid = self.chance, channel.vcid if self.chance.random() < 0.95 else self.chance.choice((0, 63, 64, 255))
        kind = chance.random()
        if kind < 0.55:
            octets = self.frame(channel)
            octets = self.spoilt(octets) if chance.random() < 0.1 else octets + chance.randbytes(chance.choice((0, 0, 0, 3)))
            if self.live and chance.random() < 0.2:
                return f"candidate {(octets + self.frame(channel) * (chance.random() < 0.1)).hex()}{'55' * chance.choice((0, 3, 6, 7))}"
            return f"frame {octets.hex() if chance.random() < 0.8 else octets.hex().upper()}"
        if kind < 0.55 + self.releases:
            return f"release {vcid}"
        if kind < 0.9:
            return f"take {vcid} {chance.choice([*channel.queues] * 3 + [5, 2_047])}"
        return f"unit {vcid} {chance.choice([*channel.maps] * 3 + [3, 64])}" if kind < 0.96 else f"clcw {vcid}"

    def operate(self, count: int) -> None:
        """Adds `count` lines with operations on any channels. Some of them have other white space and follow a comment or an empty line."""
        for _ in range(count):
            line = self.operation(self.chance.choice(list(self.receiver.channels.values())))
            if self.chance.random() < 0.05:
                self.add(self.chance.choice(("", " \t", "# frame 00", "\t#")))
                before, between, behind = (self.chance.choice(some) for some in (("\t", "  ", ""), ("  ", "\t", " \r"), (" ", "\r", "")))
                line = before + line.replace(" ", between) + behind
            self.add(line)

    def send(self, channel: VirtualChannel, sequenced: bool, field: bytes) -> None:
        """Adds lines that pass a data field on to reassembly at once: a Type-AD frame and its release if `sequenced` is true, else a Type-BD
        frame."""
        octets = self.octets(0x00, channel.vcid, channel.farm.vr, field) if sequenced else self.octets(0x20, channel.vcid, 0, field)
        self.add(f"frame {octets.hex()}")
        if sequenced:
            self.add(f"release {channel.vcid}")


def tour(drawer: Drawer) -> None:
    """Adds lines of all kinds on at most five channels."""
    for vcid in drawer.chance.sample(range(64), drawer.chance.choice((1, 1, 2, 3, 5))):
        drawer.channel(vcid)
    drawer.operate(drawer.chance.choice((5, 40, 120)))


def each_row(drawer: Drawer) -> None:
    """Adds lines that meet each row of FARM-1's table in each state. After each of them adds a `clcw`, and for tclive a `report`."""
    channel = drawer.channel(drawer.chance.randrange(64), width=drawer.chance.choice((4, 10, 252)), places=1)
    half = channel.farm.width // 2
    kinds = {"expected": (0x00, 0), "ahead": (0x00, half - 1), "behind": (0x00, -half), "outside": (0x00, half), "bypass": (0x20, 0),
             "invalid": (0x10, 0), "unlock": (0x30, 0), "set": (0x30, 0)}
    others = "ahead behind bypass invalid"
    for what in (f"{others} set unlock expected expected {others} expected unlock expected set expected outside {others} outside expected "
                 "set release expected unlock outside").split():
        field = UNLOCK if what == "unlock" else SET_VR + b"\x07" if what == "set" else drawer.field(channel)
        first, beside = kinds.get(what, (0, 0))
        drawer.add(f"frame {drawer.octets(first, channel.vcid, channel.farm.vr + beside, field).hex()}" if what in kinds else f"{what} {channel.vcid}")
        for report in ("clcw", "report") if drawer.live else ("clcw",):
            drawer.add(f"{report} {channel.vcid}")


def each_refusal(drawer: Drawer) -> None:
    """Adds lines that are refused for each reason of REFUSALS, and operations after them."""
    vcid, other = drawer.chance.sample(range(64), 2)
    for line in (f"channel {vcid} 10 1 0", f"queue {vcid} 5 1", f"map {vcid} 3 1"):
        drawer.add(line)
    good = drawer.octets(0x20, vcid, 0, b"\xc0" + drawer.chance.randbytes(9))
    changed = [bytes([good[0] ^ bit]) + good[1:] for bit in (0x40, 0x04, 0x01)]
    for octets in (good[:4], *changed, good[:3] + b"\x03" + good[4:], good[:-1], drawer.octets(0x20, other, 0, UNLOCK)):
        drawer.add(f"frame {octets.hex()}")
    for line in ("release {}", "take {} 5", "take {} 6", "unit {} 3", "unit {} 4", "clcw {}"):
        for place in (vcid, other):
            drawer.add(line.format(place))
    drawer.operate(5)


def many_channels(drawer: Drawer) -> None:
    """Sets up all channels that there can be, and operates on them."""
    for vcid in drawer.chance.sample(range(64), 64):
        drawer.channel(vcid)
    drawer.operate(150)


def full_buffer(drawer: Drawer) -> None:
    """Fills a buffer while V(R) goes past 255. Then operates on this channel and another, and releases a part or all of the buffer."""
    chance, channel = drawer.chance, drawer.channel(drawer.chance.randrange(32), places=64)
    drawer.channel(32 + chance.randrange(32))
    drawer.add(f"frame {drawer.octets(0x30, channel.vcid, 0, SET_VR + bytes([chance.randrange(193, 256)])).hex()}")
    for _ in range(chance.choice((65, 66))):
        drawer.add(f"frame {drawer.octets(0x00, channel.vcid, channel.farm.vr, drawer.field(channel)).hex()}")
    drawer.operate(20)
    for _ in range(chance.choice((5, 70))):
        drawer.add(f"release {channel.vcid}")
    drawer.operate(60)


def full_queues(drawer: Drawer, most: bool) -> None:
    """Fills a queue of packets and a queue of units, takes some of both, and fills the queues again. If `most` is true, the queues have the
    largest capacity."""
    chance, channel = drawer.chance, drawer.channel(drawer.chance.randrange(64), plain=0)
    capacity = 256 if most else chance.choice((1, 2, 3, 255))
    drawer.add(f"queue {channel.vcid} 77 {capacity}")
    drawer.add(f"map {channel.vcid} 33 {capacity}")
    for _ in range(2):
        for number in range(capacity + 1):
            drawer.send(channel, False, bytes.fromhex(f"c0104dc0000001{number:04x}"))
            drawer.send(channel, False, bytes.fromhex(f"e1{number:04x}"))
        for _ in range(chance.randrange(capacity + 2)):
            drawer.add(f"take {channel.vcid} 77")
            drawer.add(f"unit {channel.vcid} 33")
    drawer.operate(20)


def most_channels(drawer: Drawer) -> List[int]:
    """Sets up all channels and returns their ids. The first has a queue for each application, on the second each MAP is chosen, and the third
    has both."""
    vcids = drawer.chance.sample(range(64), 64)
    for vcid in vcids:
        drawer.add(f"channel {vcid} 254 64 0")
    for apid in range(2_047):
        drawer.add(f"queue {vcids[0]} {apid} {256 if apid == 77 else 1}")
        drawer.add(f"queue {vcids[2]} {apid} 1")
    for place in range(64):
        for vcid in vcids[1:3]:
            drawer.add(f"map {vcid} {place} 1")
    return vcids


def most_packets(drawer: Drawer, channel: VirtualChannel) -> None:
    """Sends a unit with a packet for each queue and with as many for one queue as it can hold, by Type-BD frames and then by Type-AD frames.
    Takes all packets after each. Then sends thousands of short units."""
    one = [bytes([0x10 | apid >> 8, apid & 255]) + bytes.fromhex("c0000000aa") for apid in range(2_047)]
    unit = b"".join(one) + one[77] * 255
    for sequenced in (False, True):
        for start in range(0, len(unit), LONGEST_PART):
            part = 0x40 * (start == 0) | 0x80 * (start + LONGEST_PART >= len(unit))
            drawer.send(channel, sequenced, bytes([part]) + unit[start:start + LONGEST_PART])
        for apid in [*range(2_047)] + [77] * 256:
            drawer.add(f"take {channel.vcid} {apid}")
    for _ in range(2_000):
        drawer.send(channel, False, b"\xc0" + one[77])
        drawer.add(f"take {channel.vcid} 77")


def at_bounds(drawer: Drawer) -> None:
    """Reaches several bounds in one script: all channels, a buffer full of the longest frames, a queued unit on each MAP, an incomplete unit of
    each service on each MAP, and the most packets."""
    vcids = most_channels(drawer)
    for vcid in vcids:
        drawer.send(drawer.receiver.channels[vcid], vcid % 2 > 0, b"\xe1")
    packets, units = (drawer.receiver.channels[vcid] for vcid in vcids[:2])
    for place in range(65):
        field = bytes([0xC0 | place % 64]) + drawer.chance.randbytes(LONGEST_PART)
        drawer.add(f"frame {drawer.octets(0x00, units.vcid, units.farm.vr, field).hex()}")
    for line in [f"release {units.vcid}"] * 65 + [f"unit {units.vcid} {place}" for place in range(64)]:
        drawer.add(line)
    for part in (0x40, 0x00, 0x80):
        for place in range(64):
            for sequenced in (True, False):
                drawer.send(units, sequenced, bytes([part | place]) + drawer.chance.randbytes(60))
    most_packets(drawer, packets)


def long_unit(drawer: Drawer, beyond: int) -> None:
    """Sends a unit that is `beyond` octets longer than the longest one. It is a packet, or comes on a chosen MAP, whose units are queued whole."""
    chance, channel = drawer.chance, drawer.channel(drawer.chance.randrange(64), plain=0)
    size, place, sequenced = LARGEST_UNIT + beyond, chance.choice((1, 33)), chance.random() < 0.3
    drawer.add(f"queue {channel.vcid} 77 2")
    drawer.add(f"map {channel.vcid} 33 2")
    unit = bytes.fromhex("104dc000") + (min(size, LARGEST_UNIT) - 7).to_bytes(2, "big") + chance.randbytes(size - 6)
    drawer.add(f"frame {drawer.octets(0x30, channel.vcid, 0, UNLOCK).hex()}")
    sent = 0
    while sent < size:
        part = min(size - sent, LONGEST_PART if sent else chance.randrange(LONGEST_PART - 300, LONGEST_PART + 1))
        flags = 0x40 if sent == 0 else 0x80 if sent + part == size else 0x00
        drawer.send(channel, sequenced, bytes([flags | place]) + unit[sent:sent + part])
        sent += part
    drawer.send(channel, sequenced, bytes([0x80 | place]) + unit[:9])
    for line in (f"take {channel.vcid} 77", f"unit {channel.vcid} 33"):
        drawer.add(line)
    drawer.operate(10)


def long_lines(drawer: Drawer) -> None:
    """Adds lines as long as the longest that `tclive` takes, and lines of one octet more."""
    drawer.channel(1)
    for more in drawer.chance.sample((0, 1), 2):
        drawer.add("#" * (LONGEST_LINE + more))
        drawer.add(f"frame {'00' * drawer.chance.randrange(1, 4_000)}".ljust(LONGEST_LINE + more))
    drawer.operate(5)


def long_script(drawer: Drawer, beyond: int) -> None:
    """Adds a few operations, and a comment that makes the script `beyond` octets longer than the longest one."""
    drawer.channel(drawer.chance.randrange(64))
    drawer.operate(5)
    drawer.add("#" * (LONGEST_SCRIPT + beyond - 1 - len(Script(0, tuple(drawer.lines)).octets)))


def with_number(command: str, at: int, number: str) -> str:
    """Returns a line of `command` with `number` at the place `at`. The word after the command is at place 0."""
    words = ["1", "10", "1", "0"][:len(NUMBERS[command])]
    words[at] = number
    return " ".join([command, *words])


def beyond_bounds(drawer: Drawer, command: str, at: int) -> None:
    """Adds a line in which the number at the place `at` is one more than the largest that it can be."""
    drawer.add("channel 1 10 2 0")
    drawer.add(with_number(command, at, str(NUMBERS[command][at] + 1)))


def bad_line(chance: random.Random, reason: str) -> str:
    """Returns a line that may be bad for `reason`. Whether it is bad depends on the lines before it, and the model decides it."""
    operation = chance.choice(("release 1", "take 1 5", "unit 1 3", "clcw 1", "frame 00"))
    command = chance.choice((operation, "channel 60 10 1 0", "queue 1 5 1", "map 1 3 1"))
    words = command.split()
    lines = {
        "unknown command": chance.choice((command.capitalize(), command.upper(), f"{command[:2]} 1", f"\x0b{command}", "\u00ffclcw 1", f"{words[0]}s 1")),
        "wrong number of words": chance.choice((f"{command} 1 1", words[0], f"{words[0]} 0 0 0 0 # no comment", "channel 1 10 1", "frame 00 00")),
        "bad number": with_number(chance.choice(list(NUMBERS)), 0, chance.choice(("-1", "+1", "0x1", "1_0", "000001", "x", "\u00b2"))),
        "bad hex": "frame " + chance.choice(("0", "000", "0g", "0x00", "00-0", "0_", "00ff0", "00\x00")),
        "bad option": f"channel {chance.choice((1, 60, 64))} {chance.choice((9, 10))} 1 0 {chance.choice(('Plain', 'plai', 'plains', '0', '#'))}",
        "too late": chance.choice(("channel 60 10 1 0", "channel 60 9 0 0 plain", "queue 1 2047 1", "map 1 3 1", "map 60 64 0")),
        "no channel": operation, "double channel": f"channel 1 {chance.choice((9, 10))} {chance.choice((0, 1))} 0{chance.choice(('', ' plain'))}",
        "unknown channel": chance.choice(("queue 60 5 1", "map 60 3 1", "queue 255 2047 0", "map 64 64 0")),
        "bad channel": f"channel {chance.choice((64, 255))} {chance.choice((9, 10))} 65 0",
        "bad window": f"channel 60 {chance.choice((0, 1, 9, 255))} {chance.choice((0, 1))} 0", "bad buffer": f"channel 60 10 {chance.choice((0, 65, 255))} 0",
        "bad application": f"queue 1 {chance.choice((2_047, 2_048, 65_535))} {chance.choice((0, 1))}",
        "double application": f"queue 1 5 {chance.choice((0, 1))}",
        "bad capacity": f"queue 1 9 {chance.choice((0, 257, 65_535))}", "bad map": f"map {chance.choice((1, 2))} {chance.choice((64, 255))} 0",
        "double map": f"map 1 3 {chance.choice((0, 1))}", "bad units": f"map {chance.choice((1, 2))} 4 {chance.choice((0, 257, 65_535))}",
        "map on plain channel": "map 2 3 1",
    }
    return lines[reason]


def fault(drawer: Drawer, reason: str) -> None:
    """Adds a line that is bad for `reason`, and sometimes another bad one before it or after it."""
    chance = drawer.chance
    for line in ("link 1 0 0", "report 1", "deliver 1", "collect 1", "candidate 00") if drawer.live else ():
        drawer.add(line)
    if reason != "no channel":
        for line in ("channel 1 10 2 0", "channel 2 4 1 255 plain", "queue 1 5 2", "map 1 3 1"):
            drawer.add(line)
    if reason in ("too late", "unknown command", "wrong number of words", "bad number", "bad hex"):
        drawer.operate(1 if reason == "too late" else chance.randrange(12))
    drawer.add(bad_line(chance, reason))
    drawer.add(chance.choice(("clcw 1", "clcw", "frame 0")))


def out_of_range(command: str, at: int) -> Callable[[Drawer], None]:
    """Returns the drawing of a script for `beyond_bounds`."""
    return partial(beyond_bounds, command=command, at=at)


# How scripts are drawn for a bound, for the rows of FARM-1, or for the reason of a bad line, by what they are for.
SPECIAL: Dict[str, Callable[[Drawer], None]] = {
    "each row": each_row, "each refusal": each_refusal, "all channels": many_channels, "several bounds": at_bounds,
    "a full buffer": full_buffer, "queues of 256": partial(full_queues, most=True), "full queues": partial(full_queues, most=False),
    "a nearly longest unit": partial(long_unit, beyond=-1), "a longest unit": partial(long_unit, beyond=0),
    "a longer unit": partial(long_unit, beyond=1), "longest lines": long_lines,
    "a longest script": partial(long_script, beyond=0), "a longer script": partial(long_script, beyond=1),
    **{f"a large number: {command}, word {at}": out_of_range(command, at) for command, most in NUMBERS.items() for at in range(len(most))},
    **{f"a bad line: {reason}": partial(fault, reason=reason) for reason in BAD}}


@lru_cache(maxsize=None)
def draw(kind: str, seed: int, live: bool = False) -> Script:
    """Draws a script of a kind, which is one of SPECIAL or a tour."""
    drawer = Drawer(random.Random(f"{kind} {seed}"), live)
    SPECIAL.get(kind, tour)(drawer)
    return Script(drawer.scid, tuple(drawer.lines), live)


def shortened(script: Script, differs: Callable[[Script], bool], tries: int = 300) -> Script:
    """Returns a part of the script for which `differs` is still true. Leaves out half of the lines at first, and single lines in the end, as long
    as `differs` stays true. Calls it at most `tries` times."""
    size = max(1, len(script.lines) // 2)
    while tries > 0:
        start, shorter = 0, False
        while start < len(script.lines) and tries > 0:
            tries -= 1
            less = script._replace(lines=script.lines[:start] + script.lines[start + size:])
            if differs(less):
                script, shorter = less, True
            else:
                start += size
        if size == 1 and not shorter:
            break
        size = max(1, size // 2)
    return script


def keep(folder: Path, scripts: List[Script]) -> None:
    """Adds the scripts without a bad line to a folder, in the form of stored conformance cases."""
    with open(folder / "index", "a", encoding="ascii") as index:
        for place, script in enumerate(script for script in scripts if not script.outcome.fault):
            answers = "".join(f"{line}\n" for line in script.outcome.answers + script.outcome.report)
            (folder / f"drawn-{place}.script").write_bytes(script.octets)
            (folder / f"drawn-{place}.out").write_text(answers, encoding="ascii")
            print(f"drawn-{place} {script.scid}", file=index)


def main() -> None:
    """Draws scripts, one of each kind and then tours, and keeps them."""
    parser = argparse.ArgumentParser(description="Adds drawn scripts to a folder of stored cases.")
    parser.add_argument("folder", type=Path, metavar="FOLDER")
    parser.add_argument("--seed", type=int, default=random.SystemRandom().randrange(1 << 32), help="the seed of the scripts")
    parser.add_argument("--scripts", type=int, default=160, metavar="N", help="how many scripts are drawn (160)")
    given = parser.parse_args()
    print(f"drawing: seed {given.seed}", flush=True)
    kinds = [*SPECIAL, *["tour"] * given.scripts][:given.scripts]
    keep(given.folder, [draw(kind, given.seed + place) for place, kind in enumerate(kinds)])


if __name__ == "__main__":
    main()
