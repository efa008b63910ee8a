"""An attack on tcrx-bench: peers break each of its rules, all at once. Meanwhile the packets of an honest sender must come out, and reports must be
answered. Each peer must be told what is wrong, and each frame must be counted."""
from __future__ import annotations

import random
import re
import socket
import struct
from collections import Counter
from pathlib import Path

from comparing import until
from client_parts import ONE, UNLOCK, frame, whole
from peers import PATIENT, Peers
from senders import Sender

OPTIONS = "--tc-tcp 0 --tc-udp 0 --lines 0 --packets-tcp 0 --clcw-tcp 0 --http 0 --period 0"
# Channel 0 is that of the honest sender. Channel 1 is that of senders that number their frames at random, and has no queue for their packets.
SETUP = "channel 0 254 64 0\nqueue 0 100 64\nchannel 1 10 8 0\nqueue 1 6 16\n"
OTHER = frame(0, whole(0, ONE), scid=43)
# Headers that begin no frame: the version or a spare bit is set, or the length is below 5.
BAD_HEADERS = [bytes.fromhex(header) for header in ("402a040c00", "c02a040c00", "082a040c00", "042a040c00", "002a040400", "002a040000", "ffffffffff")]
NO_FRAME = re.compile(rb"(tcrx-bench: octets that begin no frame: [0-9a-f]{10} at octet \d+\n)?")
# The lines that the bench prints about these peers on standard error.
SAID = (r"octets that begin no frame: [0-9a-f]{10} at octet \d+|the connection ended with \d+ octets of a frame|"
        rf"9 octets of a frame, and no more within {PATIENT} seconds")
# Requests over HTTP, and the status of each answer.
REQUESTS = [(b"\0\xff\r\n\r\n", 400), (b"GET / HTTP/9.9\r\n\r\n", 400), (b"GET\r\n\r\n", 400), (b"GET " * 99 + b"\r\n\r\n", 400),
            (b"get / HTTP/1.1\r\n\r\n", 400), (b"BREW / HTTP/1.1\r\n\r\n", 405), (b"POST / HTTP/1.1\r\nContent-Length: 999999999\r\n\r\n", 405),
            (b"GET /../../etc/passwd HTTP/1.1\r\n\r\n", 404), (b"GET /%00 HTTP/1.1\r\n\r\n", 404),
            (b"GET / HTTP/1.1\r\nHost: site.example\r\n\r\n", 421),
            (b"GET / HTTP/1.1\r\nHost: localhost\r\nHost: localhost\r\nHost: x\r\n\r\n", 421), (b"GET / HT", 408),
            (b"GET / HTTP/1.1\r\nX: " + b"x" * 9000 + b"\r\n\r\n", 431), (b"x" * 1_000_000, 431)]


class RuleBreakers(Peers):
    """A bench with peers that break its rules, and what they have sent."""

    def __init__(self, room: Path, honest: Sender) -> None:
        super().__init__(room, OPTIONS, SETUP, [honest])
        self.frames: Counter[str] = Counter()
        """How many frames each kind of peer has sent."""
        self.datagrams = self.faults = 0
        self.deaf = self.bench.reader("lines")

    # --- Frames ---

    def other_spacecraft(self, dice: random.Random) -> None:
        """Sends a hundred frames of other spacecraft."""
        octets = [frame(dice.randrange(256), dice.randbytes(dice.randrange(1, 9)), scid=dice.choice((0, 41, 43, 1023))) for _ in range(100)]
        self.see(self.told(b"".join(octets)), b"", "what is said of other spacecraft")
        self.frames["refused"] += 100

    def bad_header(self, dice: random.Random) -> None:
        """Sends a header that begins no frame, behind some frames."""
        count, header = dice.randrange(4), dice.choice(BAD_HEADERS)
        wanted = f"tcrx-bench: octets that begin no frame: {header.hex()} at octet {count * len(OTHER)}\n"
        self.see(self.told(OTHER * count + header + dice.randbytes(99)), wanted.encode(), "what is said of a bad header")
        self.frames["refused"] += count
        self.faults += 1

    def wrong_length(self, _: random.Random) -> None:
        """Sends a frame whose length field names fewer octets than it has, so that its last octets are taken for the next frame, and one whose length
        field names more."""
        self.see(self.told(b"\x00\x2b\x04\x06\x00\xc0\x10" + b"\xff" * 6), b"tcrx-bench: octets that begin no frame: ffffffffff at octet 7\n",
                 "what is said of a length that is too small")
        self.see(self.told(b"\x00\x2a\x07\xff\x00" + b"\xc0" * 9), b"", "what is said of a length that is too large")
        self.frames["refused"] += 1
        self.faults += 2

    def drawn_octets(self, dice: random.Random) -> None:
        """Sends octets drawn at random. What looks like a frame in front of them is counted here by its length field."""
        octets, at, count = dice.randbytes(5000), 0, 0
        while not octets[at] & 0xCC and 6 <= (length := ((octets[at + 2] & 3) << 8 | octets[at + 3]) + 1) < len(octets) - at - 5:
            at, count = at + length, count + 1
        said = self.told(octets)
        self.see(bool(NO_FRAME.fullmatch(said)), True, f"what is said of drawn octets: {said!r}")
        self.frames["drawn"] += count
        self.faults += 1

    def half_frame(self, _: random.Random) -> None:
        """Sends half a frame, and waits in silence."""
        wanted = f"tcrx-bench: 9 octets of a frame, and no more within {PATIENT} seconds\n"
        self.see(self.told(OTHER[:9], ends=False), wanted.encode(), "what is said of half a frame")
        self.faults += 1

    def vanishing(self, dice: random.Random) -> None:
        """Cuts off a connection within a frame, a line or a request."""
        with self.bench.connect(dice.choice(("tc-tcp", "lines", "http"))) as link:
            link.sendall(OTHER[:dice.randrange(1, 9)])
            link.setsockopt(socket.SOL_SOCKET, socket.SO_LINGER, struct.pack("ii", 1, 0))
        self.wait()

    def out_of_order(self, dice: random.Random) -> None:
        """Sends frames of Types AD and BD with drawn numbers, and an Unlock."""
        octets = [frame(dice.randrange(256), whole(0, ONE), bypass=dice.random() < 0.2) for _ in range(40)] + [UNLOCK]
        self.see(self.told(b"".join(octets)), b"", "what is said of any numbers")
        self.frames["any number"] += len(octets)

    def datagram(self, dice: random.Random) -> None:
        """Sends datagrams that are empty, too short, cut off or too long, or that have a frame of another spacecraft."""
        for octets in (b"", OTHER[:4], OTHER[:9], dice.randbytes(2) + b"\xff" * 1500, OTHER + dice.randbytes(99)):
            self.bench.datagram(octets)
            self.datagrams += 1
        self.wait()

    # --- Lines, requests, and what nobody reads ---

    def huge_line(self, dice: random.Random) -> None:
        """Sends a line of 300,000 octets or more, which is bad, and one that is good."""
        answers = self.told(dice.choice((b"x", b"\0", b"frame ", b"# ")) * 300_000 + b"\nclcw 0\n", "lines").split(b"\n")
        self.see((answers[0], answers[1][:7], answers[2:]), (b"bad too long", b"clcw 0 ", [b""]), "the answers to a huge line and a good one")

    def binary_lines(self, dice: random.Random) -> None:
        """Sends lines of drawn octets. Each line is bad, unless it is empty or a comment."""
        lines = [dice.randbytes(dice.randrange(200)).replace(b"\n", b"") for _ in range(50)]
        words = [re.split(rb"[ \t\r]+", line.strip(b" \t\r"))[0] for line in lines]
        said = self.told(b"\n".join(lines) + b"\n", "lines")
        wanted = sum(bool(word) and word[:1] != b"#" for word in words)
        self.see([answer[:4] for answer in said.split(b"\n")], [b"bad "] * wanted + [b""], f"the answers to binary lines, {said[:99]!r}")

    def deaf_asker(self, _: random.Random) -> None:
        """Cuts off a connection, and sends lines over another one until no more are taken, as nobody reads the answers. The last connection stays
        open while the bench ends."""
        self.deaf.setsockopt(socket.SOL_SOCKET, socket.SO_LINGER, struct.pack("ii", 1, 0))
        self.deaf.close()
        self.deaf = self.bench.connect("lines", buffer=4096)
        self.deaf.settimeout(1)
        try:
            while True:
                self.deaf.sendall(b"report 1\n" * 1000)
        except socket.timeout:
            pass

    def nonsense(self, _: random.Random) -> None:
        """Sends requests that are none, too long, for another site, or not whole."""
        for octets, status in REQUESTS:
            self.see(self.told(octets, "http", ends=False)[:12], f"HTTP/1.1 {status}".encode(), f"the answer to {octets[:50]!r}")

    def sent_to_readers(self, dice: random.Random) -> None:
        """Sends octets to a port for readers."""
        with self.bench.connect(dice.choice(("clcw-tcp", "packets-tcp"))) as link:
            link.sendall(dice.randbytes(1 << 18))
        self.wait()


def attack(room: Path, seconds: float) -> None:
    """Starts all peers for so many seconds, beside an honest sender."""
    honest = Sender(0)
    honest.pause = 0.1
    these = RuleBreakers(room, honest)
    these.carry_on([these.other_spacecraft, these.bad_header, these.wrong_length, these.drawn_octets, these.half_frame, these.vanishing,
                    these.out_of_order, these.datagram, these.huge_line, these.binary_lines, these.deaf_asker, these.nonsense,
                    these.sent_to_readers], seconds)
    compare(these, honest)
    these.end(SAID, seconds)
    these.deaf.close()


def compare(these: RuleBreakers, honest: Sender) -> None:
    """Compares what the bench counted with what was sent."""
    bench = these.bench
    until(lambda: sum(bench.port("tc-udp").get(count, 0) for count in ("frames", "lost")) == these.datagrams)
    state, by_udp = bench.state(), bench.port("tc-udp")
    assert by_udp["frames"] + by_udp.get("lost", 0) == these.datagrams
    first, second = ({event: count for event, count in channel["events"].items() if count} for channel in state["channels"])
    assert (first, sum(second.values())) == ({"E1": honest.sent}, these.frames["any number"])
    refused = these.frames["refused"] + these.frames["drawn"] + 2 * honest.batches + by_udp["frames"]
    assert (sum(state["refused"].values()), state["frames"]) == (refused, refused + honest.sent + these.frames["any number"])
    # A connection that is cut off within a frame is a fault only if its octets were read before.
    assert 0 <= bench.port("tc-tcp")["faults"] - these.faults <= these.turns["vanishing"]
