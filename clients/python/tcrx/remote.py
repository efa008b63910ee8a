"""A receiver elsewhere, over a connection that carries the lines of a receiver and their answers: the port of `--lines` of `tcrx-bench`, a
`tclive` behind TCP, or a serial line behind a socket.

- A line that sets something up has no answer unless it is bad. So a second line is sent after it: `?`, which isn't a command, and is always
  answered `bad unknown command`, maybe with a hint. If that answer comes first, the line was good.
- If a call has no answer, it raises an exception, a `Fault`. After a `BadLine` or `NotSetUp` the receiver goes on as it was. After any other
  fault, and after an interrupt during a call, the connection is closed, because an answer that comes later would be taken for that of the next
  line.
- Calls may come from several threads. Each call waits until the call before it has its answer. Use a receiver only in the process that created it.
"""
from __future__ import annotations

import socket
import threading
import time
from contextlib import contextmanager
from functools import partial
from typing import Callable, Dict, Iterator, List, Optional

from .receiver import Form, LineReceiver, final_of
from .values import Ended, Fault, Final, TimedOut, Unexpected, without_hint

__all__ = ["RemoteReceiver"]

PROBE, PROBE_ANSWER = "?", "bad unknown command"
# The beginnings of the line that ends an answer of several lines, or that is the whole answer.
LAST = ("clcw ", "bad ", "refused channel")
# The numbers of octets after which an answer, or a final report, isn't read any further. The longest answer is a unit of 65,542 octets, each in
# two digits. A final report has at most a line for each of 64 channels, and for each of their 2,047 applications and 64 MAPs.
LONGEST_ANSWER, LONGEST_REPORT = 1 << 20, 1 << 23


class RemoteReceiver(LineReceiver):
    """A receiver at the other end of a connected stream socket."""

    def __init__(self, connection: socket.socket, *, timeout: Optional[float] = None) -> None:
        """Takes the connection over, and checks that the other end answers. The socket then belongs to the receiver, and is
        closed with it. With a `timeout`, or if the socket has one, each call has this number of seconds, including this one.
        The attribute `timeout` may be changed between calls.

        Raises `Ended`, `TimedOut`, and `Unexpected`."""
        self.timeout = connection.gettimeout() if timeout is None else timeout
        if self.timeout is not None and not self.timeout > 0:
            raise ValueError("a timeout is a number of seconds over 0, or None for no limit")
        self._connection, self._lock, self._left = connection, threading.Lock(), bytearray()
        self._over: Optional[Callable[[], Fault]] = None
        """Creates the fault for each later call. Each call gets a new one, because an exception that is raised again keeps all of its traces."""
        self._channels: List[int] = []
        self._until: Optional[float] = None
        answer = self._answers(PROBE, Form.ONE)[0]
        if without_hint(answer) != PROBE_ANSWER:
            raise self._misfits(PROBE, answer)

    def _end(self, fault: Callable[[], Fault]) -> Fault:
        """Closes the connection. Returns the fault of this call, which each later call raises as well."""
        self._over = fault
        self._connection.close()
        return fault()

    def _misfits(self, line: str, answer: str) -> Fault:
        return self._end(partial(Unexpected, line, answer[:1000]))

    @contextmanager
    def _turn(self) -> Iterator[None]:
        """Lets one call run at a time. If the call times out, loses the connection or is interrupted, the connection is closed."""
        with self._lock:
            if self._over:
                raise self._over()
            self._until = None if self.timeout is None else time.monotonic() + self.timeout
            try:
                yield
            except Fault:
                raise
            except socket.timeout:
                raise self._end(partial(TimedOut, f"no whole answer came within {self.timeout} seconds")) from None
            except OSError:
                raise self._end(partial(Ended, None, "")) from None
            except BaseException:
                self._end(partial(Ended, None, "a call was interrupted"))
                raise

    def _set_time(self) -> None:
        """Sets the timeout of the socket to the time that the call has left. Raises `socket.timeout` if none is left."""
        left = None if self._until is None else self._until - time.monotonic()
        if left is not None and left <= 0:
            raise socket.timeout
        self._connection.settimeout(left)

    def _receive(self) -> bool:
        """Receives more octets. Returns false if the other end has closed the connection."""
        self._set_time()
        more = self._connection.recv(65536)
        self._left += more
        return bool(more)

    def _read(self, line: str) -> str:
        """Returns the next line of an answer to a line, without its line feed."""
        searched = 0
        while (end := self._left.find(b"\n", searched)) < 0:
            searched = len(self._left)
            if searched > LONGEST_ANSWER:
                raise self._misfits(line, self._left[:1000].decode("ascii", errors="replace"))
            if not self._receive():
                raise self._end(partial(Ended, None, ""))
        answer = self._left[:end].decode("ascii", errors="replace")
        del self._left[:end + 1]
        return answer

    def _answers(self, line: str, form: Form) -> List[str]:
        with self._turn():
            if self._left:
                raise self._misfits("no line", self._left[:1000].decode("ascii", errors="replace"))
            rest = memoryview(f"{line}\n{PROBE * (form is Form.IF_BAD)}".encode("ascii") + b"\n" * (form is Form.IF_BAD))
            while rest:
                self._set_time()
                rest = rest[self._connection.send(rest):]
            answers = [self._read(line)]
            if form is Form.IF_BAD:
                return self._set_up_answers(line, answers[0])
            while form is Form.MANY and not answers[-1].startswith(LAST):
                answers.append(self._read(line))
            return answers

    def _set_up_answers(self, line: str, answer: str) -> List[str]:
        """Returns the answer to a line that sets something up: no lines if the line was good. `answer` is the first line that came."""
        if without_hint(answer) == PROBE_ANSWER:
            if line.startswith("channel "):
                self._channels.append(int(line.split(" ")[1]))
            return []
        if not answer.startswith("bad ") or without_hint(self._read(line)) != PROBE_ANSWER:
            raise self._misfits(line, answer)
        return [answer]

    def close(self) -> Dict[int, Final]:
        """Ends the lines, and returns the final report by channel. A second call returns the same report. A bench goes
        on when its connection is closed, so its report is empty.

        Raises `Ended` if the report isn't whole, and `Unexpected` if the other end answers anything else."""
        if self._final is not None:
            return self._final
        with self._turn():
            self._connection.shutdown(socket.SHUT_WR)
            while len(self._left) <= LONGEST_REPORT and self._receive():
                pass
            text = self._left.decode("ascii", errors="replace")
            try:
                report = final_of(text.split("\n")[:-1])
            except ValueError as line:
                raise self._misfits("the end of the lines", str(line)) from None
            if len(text) > LONGEST_REPORT or (text and not text.endswith("\n")) or not set(self._channels) <= set(report):
                raise self._end(partial(Ended, None, "without its whole report"))
            self._end(partial(Ended, None, "it was closed"))
            self._final = report
            return report

    def _drop(self) -> None:
        with self._lock:
            if self._over is None:
                self._end(partial(Ended, None, "it was closed"))
