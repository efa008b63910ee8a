"""A receiver of one spacecraft whose calls are lines of text: in this process, or elsewhere (remote.py)."""
from __future__ import annotations

import enum
import re
import socket
import warnings
from operator import index
from types import TracebackType
from typing import TYPE_CHECKING, Callable, Dict, FrozenSet, Iterator, List, Match, NoReturn, Optional, Tuple, Type, TypeVar, Union

from .lines import Over, Session
from .values import (BadLine, Brought, Clcw, Collected, Delivered, Delivery, Ended, Event, Fault, Final, NotSetUp, Octets, Packet, Refusal, Refused,
                     Released, Report, State, Unexpected, Unit, octets_of, why_bad)

if TYPE_CHECKING:
    from .channel import Library
    from .remote import RemoteReceiver

__all__ = ["Receiver"]

OF_FRAMES = frozenset({Refusal.SHORT, Refusal.VERSION, Refusal.SPARE, Refusal.LENGTH, Refusal.TRUNCATED, Refusal.CHECK, Refusal.SPACECRAFT,
                       Refusal.CHANNEL})
OF_CHANNELS = frozenset({Refusal.CHANNEL})
# No number in an answer is longer, and Python refuses to read a number of thousands of digits.
NUMBER = r"(\d{1,20})"
COUNTS = rf"queued {NUMBER} dropped {NUMBER} rest ([01])"
OCTETS, WORD = r"((?:[0-9a-f]{2})+)", r"([0-9a-f]{8})"

Answer = TypeVar("Answer")
Self = TypeVar("Self", bound="LineReceiver")


class Form(enum.Enum):
    """The number of lines that answer a line."""

    ONE = 1
    """One line."""
    IF_BAD = 2
    """One line if the line is bad, and otherwise none."""
    MANY = 3
    """Several lines, the last of which is a CLCW, or one line if the line is refused or bad."""


def number(value: int) -> int:
    """Returns a whole number. No text, fraction or `None` passes as one."""
    return int(index(value))


def delivery_of(queued: str, dropped: str, rest: str) -> Delivery:
    """Returns the delivery that these words describe."""
    return Delivery(int(queued), int(dropped), rest == "1")


def counts_of(words: str, kind: str) -> Dict[int, int]:
    """Returns the counts that follow each word `kind`, by application or MAP."""
    return {int(place): int(count) for place, count in re.findall(rf"\b{kind} {NUMBER} {NUMBER}", words)}


def clcw_of(channel: int, digits: str) -> Clcw:
    """Returns a channel's CLCW. Raises `ValueError` if it is that of another channel."""
    clcw = Clcw(int(digits, 16))
    if clcw.channel != channel:
        raise ValueError(digits)
    return clcw


def taken_of(channel: int, answer: str) -> Union[Packet, Unit]:
    """Returns the packet or the unit in a line of a delivery. Raises `ValueError` for any other line."""
    if found := re.fullmatch(rf"take {channel} {NUMBER} {OCTETS}", answer):
        return Packet(channel, int(found[1]), bytes.fromhex(found[2]))
    if found := re.fullmatch(rf"unit {channel} {NUMBER} (-|{OCTETS})", answer):
        return Unit(channel, int(found[1]), bytes.fromhex(found[2].strip("-")))
    raise ValueError(answer)


def read_one(answer: str, pattern: str, refusals: FrozenSet[Refusal], made: Callable[[Match[str]], Answer]) -> Union[Answer, Refused]:
    """Returns the value that `made` makes of the words that the pattern finds, or one of these refusals. Raises `ValueError` for any other
    answer."""
    if answer.startswith("refused ") and Refusal(answer[8:]) in refusals:
        return Refused(Refusal(answer[8:]))
    found = re.fullmatch(pattern, answer)
    if found is None:
        raise ValueError(answer)
    return made(found)


def final_of(lines: List[str]) -> Dict[int, Final]:
    """Returns the final report by channel. Raises `ValueError` if these aren't the lines of one."""
    report: Dict[int, Final] = {}
    for line in lines:
        if found := re.fullmatch(rf"final {NUMBER} {WORD} events {NUMBER} buffered {NUMBER}", line):
            report[int(found[1])] = Final(clcw_of(int(found[1]), found[2]), int(found[3]), int(found[4]))
        elif (found := re.fullmatch(rf"(queue|map) {NUMBER} {NUMBER} {NUMBER}", line)) and int(found[2]) in report:
            channel = report[int(found[2])]
            (channel.queues if found[1] == "queue" else channel.maps)[int(found[3])] = int(found[4])
        else:
            raise ValueError(line)
    return report


class LineReceiver:
    """A receiver whose calls are lines of text. The classes that are derived from this one decide how a line reaches the receiver."""

    # pylint: disable=redefined-builtin  # MAP is the standard's word

    _final: Optional[Dict[int, Final]] = None

    def _answers(self, line: str, form: Form) -> List[str]:
        """Returns the lines that answer a line."""
        raise NotImplementedError

    def _misfits(self, line: str, answer: str) -> Fault:
        """Returns the fault of an answer that doesn't fit its line."""
        return Unexpected(line, answer)

    def close(self) -> Dict[int, Final]:
        """Ends the lines, and returns the final report by channel. A second call returns the same report."""
        raise NotImplementedError

    def _ask(self, line: str, form: Form, read: Callable[[List[str]], Answer]) -> Answer:
        """Returns what `read` makes of the answer to a line. `read` must raise `ValueError` if it isn't an answer to this line."""
        answers = self._answers(line, form)
        try:
            return read(answers)
        except (ValueError, IndexError):
            if not answers or not answers[0].startswith("bad "):
                raise self._misfits(line, "\n".join(answers)) from None
        raise BadLine(line, why_bad(answers[0]))

    def _operate(self, line: str, pattern: str, refusals: FrozenSet[Refusal], made: Callable[[Match[str]], Answer]) -> Union[Answer, Refused]:
        """Returns the answer to an operation, made from the words that the pattern finds."""
        return self._ask(line, Form.ONE, lambda answers: read_one(answers[0], pattern, refusals, made))

    def _set_up(self, line: str) -> None:
        """Carries out a line that sets something up."""
        def read(answers: List[str]) -> None:
            if answers:
                raise ValueError
        self._ask(line, Form.IF_BAD, read)

    # --- Setting up, before any operation ---

    def channel(self, vcid: int, *, width: int, buffer: int, first: int, plain: bool = False) -> None:
        """Sets up a virtual channel (0 to 63). `width` is the width of its window (even, 2 to 254), `buffer` the number
        of data fields that its buffer holds (1 to 64), and `first` its first V(R) (0 to 255). With `plain` its data
        fields have no segment headers."""
        self._set_up(f"channel {number(vcid)} {number(width)} {number(buffer)} {number(first)}{' plain' if plain else ''}")

    def queue(self, vcid: int, apid: int, capacity: int) -> None:
        """Gives a channel a queue for the packets of an application (0 to 2,046). `capacity` is the number of packets
        that it holds (1 to 256)."""
        self._set_up(f"queue {number(vcid)} {number(apid)} {number(capacity)}")

    def map(self, vcid: int, map: int, capacity: int) -> None:
        """Gives a channel a queue for the units of a MAP (0 to 63). `capacity` is the number of units that it holds (1
        to 256)."""
        self._set_up(f"map {number(vcid)} {number(map)} {number(capacity)}")

    # --- Operations ---

    def bring(self, octets: Octets) -> Union[Brought, Refused]:
        """Brings octets that arrive, with the frame at their front. There is no line for no octets at all, so a single
        octet is brought in that case, which is refused in the same way. With the frame error control field, every fault
        of the octets is `CHECK`."""
        return self._bring("frame", octets, OF_FRAMES)

    def candidate(self, octets: Octets) -> Union[Brought, Refused]:
        """Brings the octets that a CLTU carried: a frame, and fill behind it, which is left out. The frame is as long as
        its length field says. If more than fill follows it, the candidate is refused by `MORE`."""
        return self._bring("candidate", octets, OF_FRAMES | {Refusal.MORE})

    def _bring(self, word: str, octets: Octets, refusals: FrozenSet[Refusal]) -> Union[Brought, Refused]:
        """Brings octets by a line that begins with this word, which may get one of these refusals."""
        return self._operate(f"{word} {octets_of(octets).hex() or '00'}", rf"frame {NUMBER} (E[1-9]) accepted ([01]) {COUNTS}", refusals,
                             lambda found: Brought(int(found[1]), Event(found[2]), found[3] == "1", delivery_of(*found.groups()[3:])))

    def release(self, vcid: int) -> Union[Released, Refused]:
        """Releases the oldest data field from the buffer to reassembly."""
        return self._operate(f"release {number(vcid)}", rf"release {number(vcid)} {COUNTS}", OF_CHANNELS | {Refusal.EMPTY},
                             lambda found: Released(vcid, delivery_of(*found.groups())))

    def take(self, vcid: int, apid: int) -> Union[Packet, Refused]:
        """Takes the oldest packet out of the queue of an application."""
        return self._operate(f"take {number(vcid)} {number(apid)}", rf"take {number(vcid)} {number(apid)} {OCTETS}",
                             OF_CHANNELS | {Refusal.NO_QUEUE, Refusal.EMPTY}, lambda found: Packet(vcid, apid, bytes.fromhex(found[1])))

    def take_unit(self, vcid: int, map: int) -> Union[Unit, Refused]:
        """Takes the oldest unit out of the queue of a MAP."""
        return self._operate(f"unit {number(vcid)} {number(map)}", rf"unit {number(vcid)} {number(map)} (-|{OCTETS})",
                             OF_CHANNELS | {Refusal.NO_MAP, Refusal.EMPTY}, lambda found: Unit(vcid, map, bytes.fromhex(found[1].strip("-"))))

    def packets(self, vcid: int, apid: int) -> Iterator[bytes]:
        """Yields the packets that wait for an application, the oldest first. Each packet is taken when the iterator
        reaches it, until none waits. Raises `NotSetUp` if there is no such channel or queue."""
        while isinstance(packet := self.take(vcid, apid), Packet):
            yield packet.octets
        if packet.reason is not Refusal.EMPTY:
            raise NotSetUp(packet)

    def units(self, vcid: int, map: int) -> Iterator[bytes]:
        """Yields the units that wait in the queue of a MAP, as `packets` does."""
        while isinstance(unit := self.take_unit(vcid, map), Unit):
            yield unit.octets
        if unit.reason is not Refusal.EMPTY:
            raise NotSetUp(unit)

    def clcw(self, vcid: int) -> Union[Clcw, Refused]:
        """Returns the channel's CLCW, with the flags of the link as they were last set."""
        return self._operate(f"clcw {number(vcid)}", rf"clcw {number(vcid)} {WORD}", OF_CHANNELS,
                             lambda found: clcw_of(number(vcid), found[1]))

    def deliver(self, vcid: int) -> Union[Delivered, Refused]:
        """Releases the oldest data field from the buffer, if one waits, and then takes everything that waits in the
        queues of the channel."""
        channel = number(vcid)

        def read(answers: List[str]) -> Union[Delivered, Refused]:
            released = read_one(answers[0], rf"release {channel} {COUNTS}", OF_CHANNELS | {Refusal.EMPTY},
                                lambda found: Released(channel, delivery_of(*found.groups())))
            if released == Refused(Refusal.CHANNEL):
                return Refused(Refusal.CHANNEL)
            return Delivered(channel, released, *self._collected(channel, answers[1:]))
        return self._ask(f"deliver {channel}", Form.MANY, read)

    def collect(self, vcid: int) -> Union[Collected, Refused]:
        """Takes everything that waits in the queues of the channel, and releases nothing."""
        channel = number(vcid)

        def read(answers: List[str]) -> Union[Collected, Refused]:
            if answers == ["refused channel"]:
                return Refused(Refusal.CHANNEL)
            return Collected(channel, *self._collected(channel, answers))
        return self._ask(f"collect {channel}", Form.MANY, read)

    @staticmethod
    def _collected(channel: int, answers: List[str]) -> Tuple[Tuple[Union[Packet, Unit], ...], Clcw]:
        """Returns the packets and units that were taken out of the queues, and the CLCW, which comes last."""
        clcw = re.fullmatch(rf"clcw {channel} {WORD}", answers[-1])
        if clcw is None:
            raise ValueError(answers[-1])
        return tuple(taken_of(channel, answer) for answer in answers[:-1]), clcw_of(channel, clcw[1])

    def link(self, vcid: int, no_rf: bool, no_bit_lock: bool) -> Union[bool, Refused]:
        """Sets the flags No RF Available and No Bit Lock in later CLCWs of a channel. Returns True if that was done."""
        line = f"link {number(vcid)} {int(bool(no_rf))} {int(bool(no_bit_lock))}"
        return self._operate(line, re.escape(line), OF_CHANNELS, lambda found: True)

    def report(self, vcid: int) -> Union[Report, Refused]:
        """Returns the present state of the channel."""
        pattern = (rf"report {number(vcid)} state (open|wait|lockout) vr {NUMBER} lockout ([01]) wait ([01]) retransmit ([01]) farm-b ([0-3])"
                   rf" buffered {NUMBER}((?: queue \d{{1,20}} \d{{1,20}})*(?: map \d{{1,20}} \d{{1,20}})*)")
        return self._operate(f"report {number(vcid)}", pattern, OF_CHANNELS,
                             lambda found: Report(vcid, State(found[1]), int(found[2]), found[3] == "1", found[4] == "1", found[5] == "1", int(found[6]),
                                                  int(found[7]), counts_of(found[8], "queue"), counts_of(found[8], "map")))

    # --- The end ---

    @property
    def final(self) -> Dict[int, Final]:
        """The final report by channel, once the receiver is closed. Raises `ValueError` before that, and if the receiver
        was ended by an exception."""
        if self._final is None:
            raise ValueError("there is no final report: the receiver wasn't closed, or it was ended by an exception")
        return self._final

    def _drop(self) -> None:
        """Ends the receiver without a report."""
        raise NotImplementedError

    def __enter__(self: Self) -> Self:
        return self

    def __exit__(self, kind: Optional[Type[BaseException]], error: Optional[BaseException], trace: Optional[TracebackType]) -> None:
        """Closes the receiver. If an exception is on its way, there is no report."""
        if error is None:
            self.close()
        else:
            self._drop()


class Receiver(LineReceiver):
    """A receiver of one spacecraft in this process: a `Session` of the library."""

    def __init__(self, scid: int, *, fecf: bool = False, library: Library = None, program: object = None, timeout: object = None) -> None:
        """Creates a receiver for the spacecraft with the id `scid` (0 to 1,023). With `fecf` each frame must end with
        the frame error control field, which is checked and removed. `library` is the path of libtcrx.so.0. Without it,
        the library is looked for by `find_library`. `program` and `timeout` do nothing, and the next version won't know
        them.

        Raises `NotStarted` if the library isn't there or has no sessions, `BadSettings`, and `NoMemory`.
        """
        if program is not None or timeout is not None:
            warnings.warn("a Receiver starts no program any more, so leave out program= and timeout=", DeprecationWarning, stacklevel=2)
        self._session = Session.live(number(scid), fecf=fecf, library=library)

    @classmethod
    def over(cls, connection: socket.socket) -> RemoteReceiver:
        """Returns a `RemoteReceiver`. The next version won't have this call."""
        from .remote import RemoteReceiver  # pylint: disable=import-outside-toplevel,redefined-outer-name  # it imports this file
        warnings.warn("write RemoteReceiver(socket) in place of Receiver.over(socket)", DeprecationWarning, stacklevel=2)
        return RemoteReceiver(connection)

    def __reduce__(self) -> NoReturn:
        raise TypeError("a receiver can't be copied or pickled: a copy wouldn't be a second receiver")

    def _answers(self, line: str, form: Form) -> List[str]:
        try:
            return self._session.answer(line).split("\n")[:-1]
        except Over:
            raise Ended(None, "it was closed") from None

    def close(self) -> Dict[int, Final]:
        """Ends the lines, and returns the final report by channel. A second call returns the same report. Raises
        `Ended` if the receiver was left by an exception, and the exceptions of `Session.end` if memory runs out."""
        if self._final is None:
            self._final = final_of(self._session.end().split("\n")[:-1])
            self._session.close()
        return self._final

    def _drop(self) -> None:
        self._session.close()
