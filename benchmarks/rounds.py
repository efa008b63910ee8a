"""Makes COUNT rounds by the package in Python, as c/checks/rounds.c does. A round is a frame, its release and its take.

usage: benchmarks/rounds.py channel|receiver COUNT

The rounds are made on a `Channel`, or on a `Receiver`, whose calls are lines.
"""
from __future__ import annotations

import sys
from functools import partial
from pathlib import Path
from typing import Callable, List

TOP = Path(__file__).resolve().parent.parent
sys.path.insert(0, str(TOP / "clients/python"))
from tcrx import Brought, Channel, Packet, Receiver, Refused, Released  # noqa: E402  # pylint: disable=wrong-import-position

# The frame of each number.
FRAMES: List[bytes] = [bytes.fromhex(f"002a040c{number:02x}c01005c0000000aa") for number in range(256)]


def packets_of(rounds: int, bring: Callable[[bytes], Brought | Refused], release: Callable[[], Released | Refused],
               take: Callable[[], Packet | Refused]) -> int:
    """Makes rounds. Returns the number of rounds in which the frame was accepted and released, and its packet was taken."""
    taken = 0
    for number in range(rounds):
        brought, released, packet = bring(FRAMES[number & 255]), release(), take()
        taken += isinstance(brought, Brought) and brought.accepted and bool(released) and isinstance(packet, Packet) and len(packet.octets) == 7
    return taken


def main() -> int:
    """Makes the rounds that the command line requests."""
    way, rounds = sys.argv[1], int(sys.argv[2])
    if way == "channel":
        with Channel(1, width=10, buffer=4, first=0, queues={5: 16}) as channel:
            taken = packets_of(rounds, channel.bring, channel.release, partial(channel.take, 5))
    else:
        with Receiver(42) as receiver:
            receiver.channel(1, width=10, buffer=4, first=0)
            receiver.queue(1, 5, 16)
            taken = packets_of(rounds, receiver.bring, partial(receiver.release, 1), partial(receiver.take, 1, 5))
    print(f"{taken} packets in {rounds} rounds")
    return 0 if taken == rounds else 1


if __name__ == "__main__":
    sys.exit(main())
