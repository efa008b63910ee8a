"""An attack on tcrx-bench with CLTUs and telemetry frames: peers send noise, parts of CLTUs and datagrams of all kinds, or read nothing, all at once.
Meanwhile the packets of honest senders must come out, reports and pages must be answered, and each telemetry frame must be whole."""
from __future__ import annotations

import random
import socket
import struct
import time
from pathlib import Path

from client_parts import ONE, cltu, frame, sum_of, whole
from peers import Peers
from senders import IDLE, Sender

# The number of honest senders, and the octets of a telemetry frame.
HONEST, LENGTH = 3, 24
OPTIONS = ("--fecf --cltu correct --tc-tcp 0 --tc-udp 0 --lines 0 --packets-tcp 0 --clcw-tcp 0 --http 0 --tm-tcp 0 --tm-rate 100 --tm-fecf "
           f"--tm-length {LENGTH} --period 0.05 --link-timeout 1")
SETUP = "".join(f"channel {place} 254 64 0\nqueue {place} {100 + place} 64\n" for place in range(HONEST))
OTHER = cltu(frame(0, whole(0, ONE), scid=43, fecf=True))
# The lines that the bench prints about these peers on standard error.
SAID = r"a CLTU carried more than 1029 octets, and is left out|behind 1 frame of a CLTU \d+ octets are left out(: see --cltu-frames)?"


class Noise(Peers):
    """A bench with peers that send noise."""

    def noise(self, dice: random.Random) -> None:
        """Sends drawn octets over a connection, some of them with start sequences behind them."""
        self.told(b"".join(dice.randbytes(dice.randrange(4000)) + dice.choice((b"", b"\xeb\x90" * 50, IDLE)) for _ in range(20)))

    def part(self, dice: random.Random) -> None:
        """Sends a part of a CLTU, and closes the connection or cuts it off."""
        with self.bench.connect("tc-tcp") as link:
            link.sendall(OTHER[:dice.randrange(2, 14)])
            if dice.random() < 0.5:
                link.setsockopt(socket.SOL_SOCKET, socket.SO_LINGER, struct.pack("ii", 1, 0))
        self.wait()

    def datagrams(self, dice: random.Random) -> None:
        """Sends datagrams that are empty, or that have CLTUs of another spacecraft or drawn octets."""
        for _ in range(20):
            self.bench.datagram(dice.choice((OTHER, OTHER * 20, b"", dice.randbytes(dice.randrange(3000)))))
        self.wait()

    def deaf(self, dice: random.Random) -> None:
        """Reads nothing of CLCWs, telemetry frames or the state of the page for up to five seconds."""
        with self.bench.connect(dice.choice(("clcw-tcp", "tm-tcp", "http")), buffer=2048) as link:
            link.sendall(b"GET /events HTTP/1.1\r\nHost: localhost\r\n\r\n")
            self.ended.wait(dice.random() * 5)

    def page(self, dice: random.Random) -> None:
        """Asks for the page, for what it shows, or for a page that there isn't."""
        path, status = dice.choice((("/", 200), ("/state", 200), ("/metrics", 200), ("/x", 404)))
        self.see(self.bench.get(path)[0][:12], f"HTTP/1.1 {status}", f"the answer to a request for {path}")

    def telemetry(self, dice: random.Random) -> None:
        """Reads telemetry frames for up to four seconds. Each frame must have its fields, a CLCW of one of the channels, and its sum."""
        octets, end = b"", time.monotonic() + dice.random() * 4
        with self.bench.connect("tm-tcp") as link:
            while time.monotonic() < end and not self.ended.is_set():
                octets += link.recv(1 << 16)
        for one in (octets[at:at + LENGTH] for at in range(0, len(octets) - LENGTH + 1, LENGTH)):
            self.see((one[:2].hex(), one[4:-6].hex(), one[-6], one[-5] >> 2 in range(HONEST), one[-2:]),
                     ("02a1", "1ffe" + "55" * (LENGTH - 12), 1, True, sum_of(one[:-2])), "a telemetry frame")


def attack(room: Path, seconds: float) -> None:
    """Starts all peers for so many seconds, beside honest senders."""
    these = Noise(room, OPTIONS, SETUP, [Sender(place, in_cltus=True) for place in range(HONEST)])
    these.carry_on([*[these.noise] * 3, these.part, these.datagrams, *[these.deaf] * 3, these.page, these.telemetry], seconds)
    events = [{event: count for event, count in channel["events"].items() if count} for channel in these.bench.state()["channels"]]
    assert events == [{"E1": each.sent} for each in these.honest]
    these.end(SAID, seconds)
