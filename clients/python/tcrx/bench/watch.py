"""What is reported of the sender of a channel: whether each Type-AD frame that arrives is one that a sliding window and links that keep order let
come. Then every packet comes once and in order.

Nothing is reckoned here. A second session of the library has a channel whose window is twice the sender's: its half ahead of V(R) is the sender's window where
V(R) is the first number that the sender doesn't know to be accepted, and its half behind V(R) has the numbers from which a sender learns by a
report value of V(R). So FARM-1, which is proved, says of a frame by its event whether it may be sent, and of a CLCW whether it says something new.
Each question is asked once, as the answer to it never changes.

A window says nothing of what frames carry. So the data of accepted frames are kept, and a frame that comes back under an accepted number with other
data ends the promise, too.
"""
from __future__ import annotations

from typing import Callable, Dict, List, NamedTuple, Optional, Sequence, Tuple

from ..lines import Session
from ..values import Clcw

# A frame of Type-AD has neither flag in its first octet.
FLAGS = 0x30
# The number of accepted frames whose data are kept: those in the half behind V(R). A frame in the other half may carry new data.
KEPT = 128
# The events of a frame that is expected or in the half ahead; and of one that is expected or in the half behind.
AHEAD, BEHIND = ("E1", "E2", "E3"), ("E1", "E2", "E4")


class Seen(NamedTuple):
    """An event of a sender that the receiving end sees, with its time: a frame with its N(S), a CLCW with its N(R), or a setting of V(R)."""

    what: str
    number: int
    time: float
    is_changed: bool = False
    """Whether this is a frame with other data than was accepted under its number."""


class Watch:  # pylint: disable=too-many-instance-attributes  # what is known of a sender
    """The sender of a channel, with a window of so many frames."""

    def __init__(self, channel: int, window: int, judge: Session, breaks: Callable[[Watch, Seen, bool], None]) -> None:
        self.channel, self.window, self.judge, self.breaks = channel, window, judge, breaks
        judge.answer(f"channel {channel} {2 * window} 1 0 plain")
        self.frames = self.breaches = self.changed = 0
        self.since: Optional[float] = None
        """When V(R) was last set, by a Set V(R) or with the channel."""
        self.broken: Optional[Seen] = None
        """The first frame since then after which nothing is promised."""
        self.was_broken = False
        """Whether there was such a frame before."""
        self.is_set = False
        """Whether a Set V(R) came, of which the next CLCW says if it was obeyed."""
        self.numbers: List[int] = []
        """That of the first frame which the sender didn't know to be accepted, and the N(R) of each CLCW that it may have read since."""
        self.events = bytearray(1 << 16)
        """The answers so far: the number of the event of a frame, by V(R) and N(S), or 0."""
        self.data: Dict[int, str] = {}
        """The data of the last accepted frames, by their numbers."""

    def see(self, seen: Seen) -> None:
        """Judges a frame, or keeps what else is seen. Another CLCW with the same N(R) says nothing new to a sender."""
        if seen.what == "frame" and self.numbers:
            self._judge(seen)
        elif seen.what == "set":
            self.was_broken |= self.broken is not None
            self.numbers, self.broken, self.since = [seen.number], None, seen.time
        elif seen.what == "clcw" and self.numbers[-1:] != [seen.number]:
            self.numbers.append(seen.number)

    def _judge(self, seen: Seen) -> None:
        """Judges a frame."""
        found = self._fewest_read(seen.number)
        self.frames += 1
        self.changed += seen.is_changed
        if found:
            self.numbers[:found[0] + 1] = [found[1]]
        else:
            self.breaches += 1
        if seen.is_changed or not found:
            self.broken = self.broken or seen
            self.breaks(self, seen, not found)

    def _fewest_read(self, number: int) -> Optional[Tuple[int, int]]:
        """The sender didn't know the frame with the first of `numbers` to be accepted; the others are report values of CLCWs made since. How many
        of these it must have read to send the frame with this number, and the first number that it didn't know then; None if its window doesn't
        let it, whichever it had read."""
        first = self.numbers[0]
        for place, report in enumerate(self.numbers):
            if place and self._event_of(report, first) in BEHIND:
                first = report
            if self._event_of(first, number) in AHEAD:
                return place, first
        return None

    def _event_of(self, expected: int, number: int) -> str:
        """Returns the event of a frame with this number where V(R) is the other one, for which the judge is asked once."""
        place = expected << 8 | number
        if not self.events[place]:
            octet = f"{self.channel << 2:02x}"
            for line in (f"frame 3000{octet}050000", f"frame 3000{octet}07008200{expected:02x}", f"frame 0000{octet}05{number:02x}00"):
                answer = self.judge.answer(line)
            self.events[place] = int(answer.split(" ")[2][1:])
        return f"E{self.events[place]}"

    def has_other_data(self, number: int, data: str, is_accepted: bool) -> bool:
        """Returns whether other data were accepted under the number of a frame. Keeps the data of an accepted frame."""
        if is_accepted:
            self.data.pop((number + KEPT) % 256, None)
            self.data[number] = data
        return self.data.get(number, data) != data

    def state(self) -> Dict[str, object]:
        """Returns the report as values of JSON."""
        return {"channel": self.channel, "window": self.window, "frames": self.frames, "breaches": self.breaches, "changed": self.changed,
                "waiting": 0, "in_order": self.broken is None,
                "broken_by": self.broken and {"number": self.broken.number, "time": round(self.broken.time, 6)},
                "since": None if self.since is None else round(self.since, 6)}

    def text(self) -> str:
        """Returns the report as a line."""
        if self.since is None:
            return f"sender of channel {self.channel}, window {self.window}: no such channel was set up"
        return f"sender of channel {self.channel}, window {self.window}: {self.frames} frames, {self.breaches} breaches; {self._promise(self.since)}"

    def _promise(self, since: float) -> str:
        """Returns the promise about the packets."""
        if self.broken:
            why = ", which came back with other data" if self.broken.is_changed else ""
            return f"no promise since frame {self.broken.number} at {self.broken.time:.6f} s{why}"
        return f"every packet once and in order{f' since V(R) was set at {since:.6f} s' if self.was_broken else ''}"


class Watches:
    """The senders that are watched, and the session that judges them."""

    def __init__(self, chosen: Sequence[Sequence[int]], note: Callable[[str, float], None] = lambda text, time: None) -> None:
        self.note, judge = note, Session.live(0)
        self.all = {channel: Watch(channel, window, judge, self._breaks) for channel, window in chosen}
        self.time: Callable[[], float] = lambda: 0.0
        """The time of what is answered, in seconds since the begin."""

    def _breaks(self, watch: Watch, seen: Seen, is_breach: bool) -> None:
        """Notes a frame after which nothing is promised: a breach, or one that came back with other data."""
        what = f"breaks the window of {watch.window} or the order" if is_breach else "came back with other data than was accepted"
        self.note(f"channel {watch.channel}: frame {seen.number} {what}", seen.time)

    def missing(self) -> List[int]:
        """Returns the watched channels that weren't set up."""
        return [watch.channel for watch in self.all.values() if watch.since is None]

    def begin(self, channel: int, first: int) -> None:
        """Notes that a channel was set up, with its first V(R)."""
        if watch := self.all.get(channel):
            watch.data.clear()
            watch.see(Seen("set", first, self.time()))

    def see(self, line: str, answers: List[str]) -> None:
        """Looks at a line that the receiver was given, and at its answers."""
        for answer in answers:
            words = answer.split(" ")
            watch = self.all.get(int(words[1])) if words[0] in ("frame", "clcw") and len(words) > 2 else None
            if watch and words[0] == "clcw":
                clcw = Clcw(int(words[2], 16))
                is_new = watch.is_set and not clcw.lockout
                watch.is_set = False
                if is_new:
                    watch.data.clear()
                watch.see(Seen("set" if is_new else "clcw", clcw.vr, self.time()))
            elif watch:
                digits = line.split(None, 2)[1]
                octets = bytes.fromhex(digits[:10])
                watch.is_set = words[2] == "E8"
                if not octets[0] & FLAGS:
                    end = 2 * (((octets[2] & 3) << 8 | octets[3]) + 1)
                    is_changed = watch.has_other_data(octets[4], digits[10:end], words[2] == "E1")
                    watch.see(Seen("frame", octets[4], self.time(), is_changed))

    def state(self) -> List[Dict[str, object]]:
        """Returns the reports on all senders as values of JSON."""
        return [watch.state() for watch in self.all.values()]

    def texts(self) -> List[str]:
        """Returns the reports on all senders as lines."""
        return [watch.text() for watch in self.all.values()]
