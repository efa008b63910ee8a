"""The demonstration: two senders that retransmit, over a link that loses frames, and keys by which whoever looks on disturbs it.

They are what any other sender is to the bench: frames go to its port by UDP, and CLCWs come back by UDP.
"""
from __future__ import annotations

import asyncio
import os
import socket
import sys
import termios
import time
import tty
from typing import Any, Callable, List, Optional, Tuple

from ..channel import add_fecf, write_frame, write_packet
from ..values import Clcw

SETUP = ("channel 1 20 8 0", "queue 1 5 16", "channel 2 10 4 0", "queue 2 6 8")
# Each channel with the application that its packets are for.
SENDERS = ((1, 5), (2, 6))
# Seconds between two frames of a sender; without a step forward after which it begins again with the oldest; frames under way at most.
PACE, TIMER, MOST = 0.25, 1.5, 8
LOST = 5
KEYS = "keys: l loses the next frames, o locks channel 1 out, u unlocks it, q ends"


class Sender:
    """Sends numbered packets on one channel until the CLCW says that each was accepted: a small FOP-1."""

    def __init__(self, vcid: int, apid: int) -> None:
        self.vcid, self.apid = vcid, apid
        self.accepted = self.sent = 0
        """How many frames were accepted and sent since the begin."""
        self.clcw: Optional[Clcw] = None
        self.moved = time.monotonic()

    def hear(self, clcw: Clcw) -> None:
        """Learns from a CLCW what was accepted, and what is to be sent again."""
        step = (clcw.vr - self.accepted) % 256
        self.accepted += step
        if step or self.sent == self.accepted:
            self.moved = time.monotonic()
        self.sent = self.accepted if clcw.retransmit else max(self.sent, self.accepted)
        self.clcw = clcw

    def next(self) -> Optional[Tuple[int, bytes]]:
        """Returns the number and the data field that are to be sent next, if any."""
        if self.clcw and (self.clcw.lockout or self.clcw.wait):
            self.sent = self.accepted
            return None
        if time.monotonic() - self.moved > TIMER:
            self.sent, self.moved = self.accepted, time.monotonic()
        if self.sent - self.accepted >= MOST:
            return None
        self.sent += 1
        number = self.sent - 1
        return number, b"\xc0" + write_packet(self.apid, number & 0x3FFF, number.to_bytes(4, "big"))


def is_in_background() -> bool:
    """Returns whether this is a job in the background of a terminal."""
    try:
        return os.tcgetpgrp(sys.stdin.fileno()) != os.getpgrp()
    except OSError:
        return False


class Demo:
    """The senders, and who disturbs them."""

    def __init__(self, scid: int, fecf: bool) -> None:
        self.scid, self.fecf = scid, fecf
        self.loop = asyncio.get_running_loop()
        self.socket = socket.socket(socket.AF_INET, socket.SOCK_DGRAM)
        self.socket.bind(("127.0.0.1", 0))
        self.socket.setblocking(False)
        self.senders = {vcid: Sender(vcid, apid) for vcid, apid in SENDERS}
        self.lost = self.frames = 0
        self.kept: Optional[List[Any]] = None
        self.hears = False
        """Whether keys are heard."""
        self.quit: Callable[[], None] = lambda: None

    def port(self) -> int:
        """Returns the port to which CLCWs are to be sent."""
        return int(self.socket.getsockname()[1])

    def begin(self, frames: int, quit_bench: Callable[[], None]) -> None:
        """Begins to send to a port of this machine."""
        self.quit = quit_bench
        self.frames = frames
        self.loop.add_reader(self.socket, self._hear)
        self._send_next()

    def _listen_to_keys(self) -> None:
        """Hears keys, but not in the background, where a job that asks the terminal for something is stopped."""
        if self.hears != is_in_background():
            return
        self.hears = not self.hears
        if not self.hears:
            self.loop.remove_reader(sys.stdin)
            return
        try:
            self.loop.add_reader(sys.stdin, self._obey)
            self.kept = self.kept or termios.tcgetattr(sys.stdin)
            tty.setcbreak(sys.stdin)
        except (OSError, ValueError, termios.error):
            # Standard input is no terminal, a file, or closed.
            pass

    def _send(self, number: int, data: bytes, vcid: int = 1, is_command: bool = False) -> None:
        """Sends a frame: data in sequence, or a control command."""
        frame = write_frame(self.scid, vcid, number % 256, data, bypass=is_command, control=is_command)
        try:
            self.socket.sendto(add_fecf(frame) if self.fecf else frame, ("127.0.0.1", self.frames))
        except OSError:
            pass

    def _send_next(self) -> None:
        """Has each sender send what is next, up to the end."""
        if self.socket.fileno() < 0:
            return
        for sender in self.senders.values():
            found = sender.next()
            if found and self.lost:
                self.lost -= 1
            elif found:
                self._send(*found, vcid=sender.vcid)
        self._listen_to_keys()
        self.loop.call_later(PACE, self._send_next)

    def _hear(self) -> None:
        """Hands CLCWs to their sender."""
        try:
            while True:
                clcw = Clcw(int.from_bytes(self.socket.recv(4), "big"))
                if clcw.channel in self.senders:
                    self.senders[clcw.channel].hear(clcw)
        except OSError:
            pass

    def _obey(self) -> None:
        """Does what the keys say."""
        if is_in_background():
            return
        keys = os.read(sys.stdin.fileno(), 100).decode("ascii", errors="replace")
        if not keys:
            self.loop.remove_reader(sys.stdin)
        for key in keys:
            if key == "l":
                self.lost += LOST
            elif key == "q":
                self.quit()
            # Three times, as the link loses some: a frame whose number is far from the one that is expected; and Unlock.
            for _ in range(3):
                if key == "o":
                    self._send(self.senders[1].accepted + 128, b"\xc0locked out")
                elif key == "u":
                    self._send(0, b"\x00", is_command=True)

    def end(self) -> None:
        """Gives the terminal back, and sends nothing more."""
        self.loop.remove_reader(self.socket)
        self.socket.close()
        if self.kept is not None and not is_in_background():
            termios.tcsetattr(sys.stdin, termios.TCSADRAIN, self.kept)
