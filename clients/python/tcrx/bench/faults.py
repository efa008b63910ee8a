"""Faults on purpose: what a bad link does, by chance, and the same again with the same seed."""
from __future__ import annotations

import asyncio
import random
from argparse import Namespace
from typing import Callable, List

from .ports import Hub, Port

# Frames that are delayed at a time; more come without a delay.
MOST_DELAYED = 2048


class Faults:  # pylint: disable=too-few-public-methods  # it is called by the ports
    """A link that loses, repeats, delays and changes the frames that arrive, and loses CLCWs and telemetry frames. Each time is counted at
    a port."""

    def __init__(self, options: Namespace, hub: Hub) -> None:
        self.options, self.spacecraft, self.loop = options, hub.spacecraft, asyncio.get_running_loop()
        # Two, so that CLCWs change nothing for the frames.
        self.dice, self.dice_of_clcws = random.Random(options.seed), random.Random(options.seed)
        self.delayed = 0
        for port in hub.ports:
            if port.place.kind in ("tc-tcp", "tc-udp"):
                port.bring = self._link_of(port)

    def _link_of(self, port: Port) -> Callable[[bytes, str], None]:
        """Returns a function that brings the frames of a port over the link."""
        def happens(share: float, what: str) -> bool:
            found = self.dice.random() < share
            if found:
                port.count(what)
            return found

        def bring(octets: bytes, source: str) -> None:
            if happens(self.options.drop, "dropped"):
                return
            for _ in range(1 + happens(self.options.twice, "repeated")):
                arrives = octets
                if octets and happens(self.options.flip, "flipped"):
                    arrives = (int.from_bytes(octets, "big") ^ 1 << self.dice.randrange(8 * len(octets))).to_bytes(len(octets), "big")
                late = self.dice.random() * self.options.delay
                if late and self.delayed < MOST_DELAYED:
                    self.delayed += 1
                    port.count("delayed")
                    self.loop.call_later(late, self._bring_late, arrives, source)
                else:
                    self.spacecraft.bring(arrives, source)
        return bring

    def _bring_late(self, octets: bytes, source: str) -> None:
        """Brings a frame that was delayed, unless the bench ends: then it is still under way."""
        self.delayed -= 1
        if not self.spacecraft.is_ending:
            self.spacecraft.bring(octets, source)

    def sender(self, send: Callable[[bytes], None], ports: List[Port]) -> Callable[[bytes], None]:
        """Returns a function that sends CLCWs or telemetry frames to these ports, apart from those that are lost."""
        def send_some(octets: bytes) -> None:
            if self.dice_of_clcws.random() >= self.options.drop_clcw:
                send(octets)
                return
            for port in ports:
                port.count("dropped")
        return send_some
