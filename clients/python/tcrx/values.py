"""The values that the calls of this package return, and the exceptions that they raise if they have none."""
from __future__ import annotations

import enum
from dataclasses import dataclass, field
from typing import Dict, Literal, Optional, Tuple, Union

__all__ = ["BadLine", "BadSettings", "Brought", "Clcw", "Collected", "Delivered", "Delivery", "Ended", "Event", "Fault", "Final", "NoMemory",
           "NotSetUp", "NotStarted", "Outcome", "Packet", "Refusal", "Refused", "Released", "Report", "State", "TimedOut", "Unexpected", "Unit"]

Octets = Union[bytes, bytearray, memoryview]


class Event(enum.Enum):
    """The row of FARM-1's table that a frame met."""

    E1 = "E1"
    """Type-AD, expected, with room in the buffer."""
    E2 = "E2"
    """Type-AD, expected, with no room in the buffer."""
    E3 = "E3"
    """Type-AD, ahead of V(R), because a frame before it was lost."""
    E4 = "E4"
    """Type-AD, behind V(R), because it came before."""
    E5 = "E5"
    """Type-AD, outside the window."""
    E6 = "E6"
    """Type-BD."""
    E7 = "E7"
    """Type-BC, Unlock."""
    E8 = "E8"
    """Type-BC, Set V(R)."""
    E9 = "E9"
    """Invalid: Type-AC, or a Type-BC frame that carries no control command."""


class Outcome(enum.Enum):
    """The outcome for a frame."""

    ACCEPTED = "accepted"
    """The frame's data was accepted."""
    DISCARDED = "discarded"
    """The frame was discarded."""
    LOCKOUT = "lockout"
    """The frame was outside the window (E5) and was discarded, and the channel is in lockout. A frame that meets
    another event in lockout is `DISCARDED`. Look at `lockout` of the channel's CLCW to know whether the channel is in
    lockout."""
    COMMAND = "control command"
    """The frame was a control command. It was obeyed, except that a Set V(R) in lockout is only counted."""


class State(enum.Enum):
    """A state of FARM-1."""

    OPEN = "open"
    WAIT = "wait"
    LOCKOUT = "lockout"


class Refusal(enum.Enum):
    """The reason why an operation can't be done. docs/reference/scripts.md says what to do about each."""

    SHORT = "short"
    VERSION = "version"
    SPARE = "spare"
    LENGTH = "length"
    TRUNCATED = "truncated"
    MORE = "more"
    CHECK = "check"
    SPACECRAFT = "spacecraft"
    CHANNEL = "channel"
    EMPTY = "empty"
    NO_QUEUE = "no queue"
    NO_MAP = "no map"


@dataclass(frozen=True)
class Refused:
    """A refusal: the operation can't be done, and changed nothing. It is false as a truth value."""

    reason: Refusal

    def __bool__(self) -> Literal[False]:
        return False


class Answered:  # pylint: disable=too-few-public-methods  # it passes its truth on to classes that have more
    """An answer that isn't a refusal. It is true as a truth value."""

    def __bool__(self) -> Literal[True]:
        return True


@dataclass(frozen=True)
class Delivery:
    """The outcome for the unit that an operation ended. If it ended none, nothing was queued or dropped."""

    queued: int
    """The number of packets that were queued, or 1 for a unit that was queued whole."""
    dropped: int
    """The number of packets that were dropped, or 1 for a whole unit that was dropped."""
    rest: bool
    """Whether octets were left that don't begin with a packet."""


@dataclass(frozen=True)
class Brought(Answered):
    """The answer to a frame."""

    channel: int
    event: Event
    accepted: bool
    """Whether the frame's data was accepted."""
    delivery: Delivery

    @property
    def outcome(self) -> Outcome:
        """The outcome for the frame."""
        if self.accepted:
            return Outcome.ACCEPTED
        if self.event in (Event.E7, Event.E8):
            return Outcome.COMMAND
        return Outcome.LOCKOUT if self.event is Event.E5 else Outcome.DISCARDED


@dataclass(frozen=True)
class Released(Answered):
    """The answer to a release: the oldest data field left the buffer."""

    channel: int
    delivery: Delivery


@dataclass(frozen=True)
class Packet(Answered):
    """A packet that was taken out of a queue."""

    channel: int
    apid: int
    octets: bytes
    """The whole packet, with its header."""


@dataclass(frozen=True)
class Unit(Answered):
    """A unit that was taken out of the queue of a MAP."""

    channel: int
    map: int
    octets: bytes
    """The whole unit, which may have no octets."""


@dataclass(frozen=True)
class Clcw(Answered):
    """A communications link control word (CCSDS 232.0-B, 4.2)."""

    word: int
    """All 32 bits."""

    @property
    def channel(self) -> int:
        """The virtual channel id."""
        return self.word >> 18 & 63

    @property
    def no_rf(self) -> bool:
        """The No RF Available flag."""
        return bool(self.word >> 15 & 1)

    @property
    def no_bit_lock(self) -> bool:
        """The No Bit Lock flag."""
        return bool(self.word >> 14 & 1)

    @property
    def lockout(self) -> bool:
        """The Lockout flag: an Unlock is needed."""
        return bool(self.word >> 13 & 1)

    @property
    def wait(self) -> bool:
        """The Wait flag: the buffer has no room. Sending again is useless before a release."""
        return bool(self.word >> 12 & 1)

    @property
    def retransmit(self) -> bool:
        """The Retransmit flag: frames from V(R) on are wanted again."""
        return bool(self.word >> 11 & 1)

    @property
    def farm_b(self) -> int:
        """The FARM-B counter, 0 to 3."""
        return self.word >> 9 & 3

    @property
    def vr(self) -> int:
        """V(R), 0 to 255: the number of the frame that is expected next."""
        return self.word & 255

    def __str__(self) -> str:
        return (f"vc {self.channel} status {self.word >> 26 & 7} norf {self.no_rf:d} nobitlock {self.no_bit_lock:d} lockout {self.lockout:d} "
                f"wait {self.wait:d} retransmit {self.retransmit:d} farmb {self.farm_b} vr {self.vr}")


@dataclass(frozen=True)
class Delivered(Answered):
    """A release, and everything that was taken after it, so that nothing waits in the queues of the channel."""

    channel: int
    released: Union[Released, Refused]
    """The answer to the release. It is a refusal by `EMPTY` if no data field waited, as after a Type-BD frame, whose
    packets wait at once."""
    taken: Tuple[Union[Packet, Unit], ...]
    """The packets of each queue, and then the units of each MAP, in the order of the set-up, with the oldest of each
    first."""
    clcw: Clcw
    """The CLCW after all of these, with the flags of the link."""


@dataclass(frozen=True)
class Collected(Answered):
    """Everything that waited in the queues of the channel, which was taken."""

    channel: int
    taken: Tuple[Union[Packet, Unit], ...]
    """The packets of each queue, and then the units of each MAP, in the order of the set-up, with the oldest of each
    first."""
    clcw: Clcw
    """The CLCW after all of these, with the flags of the link."""


@dataclass(frozen=True)
class Report(Answered):
    """The present state of a channel, without its events."""

    channel: int
    state: State
    vr: int
    lockout: bool
    wait: bool
    retransmit: bool
    farm_b: int
    buffered: int
    """The number of data fields that wait in the buffer."""
    queues: Dict[int, int]
    """The number of packets that wait in the queue of each application."""
    maps: Dict[int, int]
    """The number of units that wait in the queue of each MAP."""


@dataclass(frozen=True)
class Final:
    """The state of a channel at the end of the lines."""

    clcw: Clcw
    events: int
    """The number of frames, releases, takes and units that were answered."""
    buffered: int
    """The number of data fields that waited in the buffer."""
    queues: Dict[int, int] = field(default_factory=dict)
    """The number of packets that waited in the queue of each application."""
    maps: Dict[int, int] = field(default_factory=dict)
    """The number of units that waited in the queue of each MAP."""


class Fault(Exception):
    """The reason why a call has no answer."""


class NotStarted(Fault):
    """The library isn't there, or has no sessions."""


class BadSettings(Fault):
    """Nothing is created from these settings."""


class NoMemory(Fault, MemoryError):
    """There is too little memory for a channel, or for a line of a session, which can then be given again. Once a
    channel is created, none of its calls requests any."""


class BadLine(Fault):
    """A line was answered `bad`. The receiver goes on as it was. docs/reference/scripts.md lists the reasons. If a hint
    follows the reason, only the message has it."""

    def __init__(self, line: str, reason: str) -> None:
        super().__init__(f"{reason}: {shorten(line)}")
        self.line, self.reason = line, without_hint(reason)


class Ended(Fault):
    """The receiver, or the connection to it, ended before its answer."""

    def __init__(self, status: Optional[int], error: str) -> None:
        super().__init__(f"the receiver has ended{': ' if error else ''}{error}")
        self.status, self.error = status, error
        """`status` is None, because no program ended. `error` is the reason, if it is known."""


class TimedOut(Fault):
    """No whole answer came within the timeout. The connection was closed, because the answer may still come."""


class Unexpected(Fault):
    """An answer doesn't fit its line, so the two ends are out of step. The connection was closed."""

    def __init__(self, line: str, answer: str) -> None:
        super().__init__(f"`{shorten(line)}` was answered `{shorten(answer)}`")
        self.line, self.answer = line, answer


class NotSetUp(Fault):
    """There is no such channel, queue or MAP to take from. The receiver goes on as it was."""

    def __init__(self, refused: Refused) -> None:
        super().__init__(refused.reason.value)
        self.refused = refused


def without_hint(answer: str) -> str:
    """Returns a bad answer, or a reason, without the hint that may follow it. A hint tells the user what to write instead."""
    return answer.partition(": ")[0]


def why_bad(answer: str) -> str:
    """Returns the reason of a bad answer. An answer of two words, such as `bad number`, is itself the reason. In a longer
    answer the reason follows the word `bad`."""
    return answer if without_hint(answer).count(" ") == 1 else answer[4:]


def shorten(text: str) -> str:
    """Returns at most 80 characters of a text, for a message."""
    return text if len(text) <= 80 else text[:77] + "..."


def octets_of(given: Union[bytes, bytearray, memoryview]) -> bytes:
    """Returns octets as `bytes`. Raises `TypeError` for a text and for a number, of which `bytes` would make zeros."""
    try:
        return given if isinstance(given, bytes) else memoryview(given).tobytes()
    except TypeError:
        raise TypeError(f"octets are wanted, as bytes.fromhex makes them of digits, and not {type(given).__name__}") from None
