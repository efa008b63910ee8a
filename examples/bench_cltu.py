"""Sends the packets of bench.py to tcrx-bench in CLTUs, and reads the CLCWs that come down in telemetry frames. One
CLTU in five is lost, and one bit in a thousand of all other octets is flipped.

Usage: python3 examples/bench_cltu.py SEED [--udp] [--detect] [--randomised]
"""
import random
import select
import socket
import sys
from functools import partial
from pathlib import Path
from typing import Dict, Iterator, List

TOP = Path(__file__).resolve().parent.parent
sys.path[:0] = [str(TOP / "examples"), str(TOP / "clients/python")]
# pylint: disable=wrong-import-position  # all are found by the path above
import bench
import bench_udp
from tcrx import Clcw, randomise, read_tm, write_cltu

# The share of CLTUs that are lost, the share of bits that are flipped, the octets between CLTUs, and the telemetry frames per second.
LOST, TURNED, IDLE, RATE = 0.2, 0.001, b"\x55" * 16, "250"


def turned(dice: random.Random, octets: bytes) -> bytes:
    """Returns octets as a bad link delivers them, with some bits flipped."""
    wrong = sum((dice.random() < TURNED) << bit for bit in range(8 * len(octets)))
    return (int.from_bytes(octets, "big") ^ wrong).to_bytes(len(octets), "big")


class Coded(bench_udp.Remote):
    """A receiver that the sender reaches over CLTUs and telemetry frames."""

    def __init__(self, ports: Dict[str, int], clcws: socket.socket, seed: int, randomised: bool) -> None:
        super().__init__(ports, clcws)
        self.dice, self.randomised = random.Random(seed), randomised

    def bring(self, octets: bytes) -> None:
        """Sends a frame in its CLTU over the bad link, or only the octets between CLTUs if the CLTU is lost."""
        cltu = write_cltu(randomise(octets) if self.randomised else octets)
        self.frames.send(turned(self.dice, IDLE + (b"" if self.dice.random() < LOST else cltu) + IDLE))

    def clcw(self, vcid: int) -> Clcw:
        """Returns the CLCW of a telemetry frame that was written after everything that was sent had arrived. The second
        frame that comes from now on is such a frame."""
        while select.select([self.clcws], [], [], 0)[0]:
            self.clcws.recv(2048)
        self.clcws.recv(2048)
        came = read_tm(self.clcws.recv(2048), fecf=True)
        assert came.scid == 42 and came.clcw and came.clcw.channel == vcid
        return came.clcw


def through(dice: random.Random, past: List[bytes], turning: bool) -> Iterator[bytes]:
    """Yields each frame unchanged, because CLTUs have a link of their own."""
    del dice, turning
    yield past[-1]


def run(seed: int, udp: bool = False, mode: str = "correct", randomised: bool = False) -> str:
    """Sends packets until each has arrived. Returns the result of `bench.run`, and the line that the bench prints
    about the sender."""
    said: List[str] = []
    words = ["--tc-udp" if udp else "--tc-tcp", "0", "--cltu", mode, *["--randomised"] * randomised, "--tm-udp", "PLACE",
             "--tm-rate", RATE, "--tm-length", "64", "--tm-fecf", "--sender", "1", "10"]
    begin = partial(bench_udp.start, words=words, made=partial(Coded, seed=seed, randomised=randomised), said=said)
    good, bench.link = bench.link, through
    try:
        return f"{bench.run(seed, True, begin=begin)}\n{said[-1]}"
    finally:
        bench.link = good


if __name__ == "__main__":
    if not sys.argv[1:] or not sys.argv[1].isdecimal():
        sys.exit(__doc__)
    bench.say(lambda: run(int(sys.argv[1]), "--udp" in sys.argv, "detect" if "--detect" in sys.argv else "correct", "--randomised" in sys.argv))
