"""Telemetry frames, which take CLCWs down."""
from __future__ import annotations

import asyncio
from argparse import Namespace
from typing import Callable, Dict

from ..channel import write_tm
from ..values import Clcw
from .spacecraft import Spacecraft

# The attached synchronization marker of telemetry frames (CCSDS 131.0-B).
MARKER = bytes.fromhex("1acffc1d")
# Octets of a telemetry frame in front of its data.
FRONT = 6


class Telemetry:
    """Sends telemetry frames at one pace, from its begin on. Each has the newest CLCW of a channel: the one that was active last, and behind
    such a frame, and where none was, one channel after the other in turn."""

    def __init__(self, options: Namespace, spacecraft: Spacecraft) -> None:
        self.options, self.spacecraft, self.loop = options, spacecraft, asyncio.get_running_loop()
        self.send: Callable[[bytes], None] = lambda octets: None
        self.frames = self.next_in_turn = self.place = 0
        self.was_of_active = False
        self.started = 0.0

    def begin(self) -> None:
        """Begins with the first frame now."""
        self.started = self.loop.time()
        self._make_next()

    def _make_next(self) -> None:
        """Sends the next frame, if there is a channel; and so on. Its time is counted from the begin, so that no delay adds up."""
        if self.spacecraft.is_ending:
            return
        if self.spacecraft.channels:
            self._send_frame(self.spacecraft.channels[self._next_channel()].word)
        self.place += 1
        self.loop.call_at(self.started + self.place / self.options.tm_rate, self._make_next)

    def _next_channel(self) -> int:
        """Returns the channel whose CLCW is sent next."""
        active, self.spacecraft.active = self.spacecraft.active, None
        self.was_of_active = active is not None and not self.was_of_active
        if active is not None and self.was_of_active:
            return active
        vcids = sorted(self.spacecraft.channels)
        self.next_in_turn += 1
        return vcids[(self.next_in_turn - 1) % len(vcids)]

    def _send_frame(self, word: str) -> None:
        """Sends a frame with a CLCW. All frames are of one virtual channel, so both of their counts are the same."""
        count, chosen = self.frames % 256, self.options
        frame = write_tm(self.spacecraft.scid, chosen.tm_vcid, count, count, Clcw(int(word, 16)), size=chosen.tm_length, fecf=chosen.tm_fecf)
        self.frames += 1
        self.spacecraft.changes += 1
        self.spacecraft.journal.write(f"# {self.spacecraft.now():.6f} telemetry {frame[:FRONT].hex()} clcw {word}")
        self.send(frame)

    def state(self) -> Dict[str, object]:
        """Returns the state as values of JSON."""
        chosen = self.options
        return {"length": chosen.tm_length, "rate": chosen.tm_rate, "vcid": chosen.tm_vcid, "fecf": chosen.tm_fecf, "marker": chosen.tm_marker,
                "frames": self.frames}
