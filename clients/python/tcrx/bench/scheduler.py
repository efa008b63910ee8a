"""Shares the time of the event loop among the output to readers, the connections that send frames, and those that send lines.

In each round of the event loop output has a turn, then frames, then lines. So a line waits for one turn of each, however many connections
send frames or read output. Within its kind the source that has waited longest comes first. The length of a turn is a time, since the work of
a frame depends on what it brings and on who reads that. Whatever else the event loop has to do, such as a new connection or a CLCW on its
period, is done between two rounds.
"""
from __future__ import annotations

import asyncio
from collections import deque
from typing import Callable, Deque, Iterator, Protocol

# Seconds of a turn. A new connection has its first answer after four or five rounds.
OUTPUT_TURN, FRAMES_TURN, LINES_TURN = 0.001, 0.002, 0.001


class Source(Protocol):  # pylint: disable=too-few-public-methods  # it is what others have
    """A connection, socket or output that has work to do in turns."""

    wants_turn: bool
    """Whether it has something that isn't done yet."""

    def take_turn(self, has_time: Callable[[], bool]) -> None:
        """Does at least one piece of its work, such as a frame, and goes on as long as there is time."""


def work_on(pieces: Iterator[None], has_time: Callable[[], bool]) -> bool:
    """Does work piece by piece as long as there is time. Returns whether pieces may be left."""
    for _ in pieces:
        if not has_time():
            return True
    return False


class FairQueue:
    """The sources of one kind that wait for their turn."""

    def __init__(self, clock: Callable[[], float]) -> None:
        self.clock = clock
        self.waiting: Deque[Source] = deque()
        self.seconds, self.has_begun, self.end = 0.0, False, 0.0
        """How long the turn of this round of the event loop lasts, whether it has begun, and when it is over."""

    def renew(self, seconds: float) -> None:
        """Prepares the turn of a new round. One that lasts no time has room for one piece of work."""
        self.seconds, self.has_begun = seconds, False

    def has_time(self) -> bool:
        """Returns whether the turn isn't over. The first call in a round begins the turn."""
        if self.has_begun:
            return self.clock() < self.end
        self.has_begun, self.end = True, self.clock() + self.seconds
        return True

    def serve(self) -> None:
        """Lets the sources work until the turn is over."""
        while self.waiting and self.has_time():
            source = self.waiting.popleft()
            source.take_turn(self.has_time)
            if source.wants_turn:
                self.waiting.append(source)


class Scheduler:
    """Gives turns. While output is behind, frames have none, and lines have one for a single line."""

    def __init__(self, loop: asyncio.AbstractEventLoop, is_behind: Callable[[], bool]) -> None:
        self.loop, self.is_behind = loop, is_behind
        self.output, self.frames, self.lines = self.queues = FairQueue(loop.time), FairQueue(loop.time), FairQueue(loop.time)
        self.is_due = False
        """Whether the next round is to come."""
        self._renew()

    def enqueue(self, queue: FairQueue, source: Source) -> None:
        """Has a source wait for its turn."""
        source.wants_turn = True
        queue.waiting.append(source)
        if not self.is_due:
            self._plan_round()

    def serve_now(self, queue: FairQueue, source: Source) -> None:
        """Has a source work at once if the turn of its queue isn't over, and otherwise in a later round."""
        self.enqueue(queue, source)
        queue.serve()

    def count_senders(self) -> int:
        """Returns how many senders of frames or lines wait for their turn."""
        return len(self.frames.waiting) + len(self.lines.waiting)

    def close(self) -> None:
        """Forgets the senders that wait."""
        for queue in (self.frames, self.lines):
            queue.waiting.clear()

    def _plan_round(self) -> None:
        """Has the next round come."""
        self.is_due = True
        self.loop.call_soon(self._next_round)

    def _renew(self) -> None:
        """Prepares the turns of a round."""
        is_behind = self.is_behind()
        self.output.renew(OUTPUT_TURN)
        self.lines.renew(0.0 if is_behind else LINES_TURN)
        if not is_behind:
            self.frames.renew(FRAMES_TURN)

    def _next_round(self) -> None:
        """Gives each queue its turn. After a round in which no turn begins, the next one comes once a source has something to do."""
        self._renew()
        try:
            for queue in self.queues:
                queue.serve()
        finally:
            self.is_due = False
            if any(queue.has_begun for queue in self.queues):
                self._plan_round()
