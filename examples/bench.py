"""Sends packets over a bad link until each has arrived, guided by CLCWs.

Usage: python3 examples/bench.py SEED [--fecf]
"""
import random
import sys
from pathlib import Path
from typing import Any, Callable, ContextManager, Iterator, List
TOP = Path(__file__).resolve().parent.parent
sys.path.insert(0, str(TOP / "clients/python"))
# pylint: disable-next=wrong-import-position  # it is found by the path above
from tcrx import NotStarted, Receiver, add_fecf, write_segments, write_unlock

def link(dice: random.Random, past: List[bytes], turning: bool) -> Iterator[bytes]:
    """Yields the frames that arrive when the newest one is sent. One in five times it is lost, and one in five times an old
    frame comes again. If `turning` is set, one in five frames has up to 16 bits in a row flipped."""
    for octets in [past[-1]] * (dice.random() > 0.2) + [dice.choice(past[-40:])] * (dice.random() < 0.2):
        turned = dice.randrange(1, 1 << 16) << dice.randrange(8 * len(octets) - 15) if turning and dice.random() < 0.2 else 0
        yield (int.from_bytes(octets, "big") ^ turned).to_bytes(len(octets), "big")

def start(fecf: bool) -> Receiver:
    """Creates a receiver with a small buffer."""
    receiver = Receiver(42, fecf=fecf)
    receiver.channel(1, width=20, buffer=4, first=0)
    receiver.queue(1, apid=5, capacity=4)
    return receiver

def made(packets: List[bytes], fecf: bool) -> List[bytes]:
    """Returns the frame of each packet, and then an Unlock, all with a frame error control field if `fecf` is set."""
    frames = [write_segments(packet, scid=42, vcid=1, ns=place % 256, map=0)[0] for place, packet in enumerate(packets)] + [write_unlock(42, 1)]
    return [add_fecf(frame) for frame in frames] if fecf else frames

def run(seed: int, fecf: bool, count: int = 300, begin: Callable[[bool], ContextManager[Any]] = start) -> str:
    """Sends `count` packets to the receiver that `begin` starts, and returns a line that says how many frames were sent."""
    # pylint: disable=too-many-locals  # one loop, from the CLCW to the packets
    dice, acknowledged, sent = random.Random(seed), 0, 0
    past: List[bytes] = []
    came: List[bytes] = []
    packets = [bytes.fromhex(f"1005{0xc000 + place:04x}0003{dice.getrandbits(32):08x}") for place in range(count)]
    *frames, unlock = made(packets, fecf)
    with begin(fecf) as receiver:
        while len(came) < count:
            clcw = receiver.clcw(1)
            assert clcw  # the receiver has channel 1
            moved = (clcw.vr - acknowledged) % 256
            acknowledged += moved  # each frame before V(R) was accepted
            first = acknowledged if clcw.retransmit or not moved else sent  # as after a timer if V(R) stayed
            sent = first if clcw.lockout or clcw.wait else min(acknowledged + 10, count)
            for frame in [unlock] * clcw.lockout + frames[first:sent]:
                past.append(frame)
                for octets in link(dice, past, fecf):
                    receiver.bring(octets)
            while dice.random() < 0.8 and receiver.release(1):
                came += receiver.packets(1, apid=5)
    assert came == packets
    return f"{count} packets came in their order, each once; {len(past)} frames were sent, {past.count(unlock)} of them Unlocks"

def say(what: Callable[[], str]) -> None:
    """Prints the result, or exits with a message if the library is missing."""
    try:
        print(what())
    except (NotStarted, OSError) as error:
        sys.exit(str(error))

if __name__ == "__main__":
    if not sys.argv[1:] or not sys.argv[1].isdecimal():
        sys.exit(__doc__)
    say(lambda: run(int(sys.argv[1]), "--fecf" in sys.argv))
