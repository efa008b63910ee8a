"""The spacecraft that all connections share: it answers frames and lines as they arrive, hands on what they lead to, and counts.

Its receiver is a session of the library. A line is a call, and its answers are there when the call returns. Behind each frame goes a line by
which the receiver hands on all that comes of it, so nothing is foreseen.
"""
from __future__ import annotations

import asyncio
import enum
import re
import time
from collections import Counter, deque
from typing import Callable, Deque, Dict, List, Optional, Tuple

from ..lines import Session
from ..values import Clcw, Fault, NoMemory, why_bad, without_hint
from .journal import SET_UP, Journal, printable
from .octets import ends_with_sum

# Events that are kept.
LAST_EVENTS = 200
# Octets of a frame line: more than a frame has change no answer.
MOST_OCTETS = 2048
# Notes of ports that are kept.
LAST_NOTES = 20
# The bench's own line, and where a release comes from that it makes after some time.
ANEW, RELEASE = "anew", "release"
EVENTS = tuple(f"E{number}" for number in range(1, 10))
FRAME_LINE = re.compile("(frame|candidate) ((?:[0-9a-fA-F]{2})+)")


class Release(enum.Enum):
    """When the bench releases what was accepted."""

    AUTO = "auto"
    AFTER = "after"
    MANUAL = "manual"


# The line behind that of a frame: a field that waits for its time isn't released, but what a Type-BD frame brought doesn't wait.
BEHIND = {Release.AUTO: "deliver", Release.AFTER: "collect", Release.MANUAL: "clcw"}


class Arrival:  # pylint: disable=too-few-public-methods  # a record, made for each frame
    """A frame or line that arrived, with what is to be known when it is answered."""

    __slots__ = ("came", "source", "line", "octets", "event")

    def __init__(self, came: float, source: str, line: str, octets: bytes = b"") -> None:
        self.came, self.source, self.line, self.octets = came, source, line, octets
        self.event: Optional[Event] = None


class Event:  # pylint: disable=too-few-public-methods  # a record, made for each frame
    """An event for the connections that watch: its number, its answer, and the CLCW after it."""

    __slots__ = ("number", "arrival", "answer", "word")

    def __init__(self, number: int, arrival: Arrival, answer: str, word: str) -> None:
        self.number, self.arrival, self.answer, self.word = number, arrival, answer, word

    def state(self) -> Dict[str, object]:
        """Returns the event as values of JSON."""
        came = self.arrival
        return {"id": self.number, "time": round(came.came, 6), "source": came.source, "line": "" if came.octets else printable(came.line),
                "octets": came.octets.hex(), "answer": self.answer, "clcw": self.word}


class Channel:  # pylint: disable=too-few-public-methods,too-many-instance-attributes  # what is known of a channel
    """A virtual channel: its settings, and what was last said of it."""

    def __init__(self, vcid: int, width: int, buffer: int, first: int, plain: bool) -> None:
        self.vcid, self.width, self.buffer, self.first, self.plain = vcid, width, buffer, first, plain
        self.queues: Dict[int, int] = {}
        self.maps: Dict[int, int] = {}
        self.word = f"{0x01000000 | vcid << 18 | first:08x}"
        self.buffered = 0
        self.in_queues: Dict[int, int] = {}
        self.in_maps: Dict[int, int] = {}
        self.events = dict.fromkeys(EVENTS, 0)
        self.last: Optional[Tuple[int, str]] = None
        """N(S) of the last frame, and its event."""
        self.changed = True


class Spacecraft:  # pylint: disable=too-many-instance-attributes  # what is known of a spacecraft
    """The receiver with all that is known of it. `outputs` are what is called with CLCWs, packets and units."""

    # pylint: disable-next=too-many-arguments  # the receiver and what was chosen
    def __init__(self, session: Session, journal: Journal, scid: int, fecf: bool, release: Release, release_after: float) -> None:
        self.session, self.journal, self.scid, self.fecf, self.release, self.release_after = session, journal, scid, fecf, release, release_after
        self.behind = BEHIND[release]
        self.begun = time.monotonic()
        self.channels: Dict[int, Channel] = {}
        self.refused: Counter[str] = Counter()
        self.bad: Counter[str] = Counter()
        self.frames = self.packets = self.units = self.refused_of_lines = 0
        self.last_events: Deque[Event] = deque(maxlen=LAST_EVENTS)
        self.last_notes: Deque[Dict[str, object]] = deque(maxlen=LAST_NOTES)
        """The events of ports. They have a list of their own, so that no peer can push the receiver's events out."""
        self.count_of_events = self.count_of_notes = self.changes = 0
        self.send_clcw: Callable[[bytes], None] = lambda octets: None
        self.send_packet: Callable[[bytes], None] = lambda octets: None
        self.send_unit: Callable[[bytes], None] = lambda octets: None
        self.coding: Callable[[], Dict[str, object]] = lambda: {"cltu": None, "telemetry": None}
        """Returns the state of CLTUs and telemetry frames as values of JSON."""
        self.senders: Callable[[], List[Dict[str, object]]] = list
        """Returns the reports on senders as values of JSON."""
        self.begun_channel: Callable[[int, int], None] = lambda vcid, first: None
        """Called with a channel that is set up, and its V(R)."""
        self.answered: Callable[[str, List[str]], None] = lambda line, answers: None
        """Called with a line and its answers."""
        self.failed: Callable[[str], None] = lambda why: None
        """Called if the receiver gives no more answers, with the reason."""
        self.arrived: Callable[[], None] = lambda: None
        """Called when a frame arrives."""
        self.took_sum: Callable[[str], None] = lambda source: None
        """Called where the first frame of a channel ends with its frame error control field, and that was data."""
        self.renew: Callable[[str], str] = lambda source: ""
        """Called with the source of the line that has the receiver begun anew. Returns the answer to it."""
        self.is_ending = False
        """From the end on nothing is written that nobody asked for."""
        self.next_in_turn = 0
        self.active: Optional[int] = None
        """The channel that took in the last frame, until telemetry has reported it."""

    def now(self) -> float:
        """Returns the seconds since the bench began."""
        return time.monotonic() - self.begun

    # --- What arrives ---

    def bring(self, octets: bytes, source: str, word: str = "frame") -> str:
        """Has octets answered, with a frame at their front; or what a CLTU carried, where the word is `candidate`. Returns the answer."""
        self.arrived()
        octets = octets[:MOST_OCTETS] or b"\0"
        arrival = Arrival(self.now(), source, f"{word} {octets.hex()}", octets)
        answer, = self.answers_to(arrival.line)
        if answer.startswith("frame "):
            self._frame_answered(arrival, answer)
        else:
            self._refused(arrival, answer)
        return answer

    def order(self, line: str, source: str) -> str:
        """Carries out a line of a person or a script, which has its words with a space between each two. Returns the answer, which is empty if
        there is none."""
        if found := FRAME_LINE.fullmatch(line):
            answer = self.bring(bytes.fromhex(found[2]), source, found[1])
            self.refused_of_lines += answer.startswith("refused ")
            return answer
        if line == ANEW:
            return self.renew(source)
        return self._order(Arrival(self.now(), source, line))

    def answers_to(self, line: str) -> List[str]:
        """Returns the answers to a line, of which the first is empty if there is none. Raises a `Fault` where memory ran out at one, after
        which there are no more."""
        try:
            answers = self.session.answer(line.encode("latin-1"))[:-1].split("\n")
        except NoMemory:
            # Nothing was done.
            answers = ["bad no memory"]
        except Fault as fault:
            self.failed(f"the receiver has ended: {fault}")
            raise
        self.answered(line, answers)
        return answers

    def begin_anew(self, session: Session) -> None:
        """Knows nothing of the receiver any more, as it is another one."""
        self.session, self.next_in_turn, self.active = session, 0, None
        self.channels.clear()
        self.changes += 1

    def set_up(self, line: str) -> str:
        """Sets up a channel, queue or MAP of the options. Returns why the line is bad, or an empty text."""
        answer = self.answers_to(line)[0]
        if answer:
            return why_bad(answer)
        self._note_set_up(line)
        return ""

    def _ask(self, arrival: Arrival, line: str) -> str:
        """Returns the answer to a line that has one."""
        answer, = self.answers_to(line)
        self._log_origin(arrival)
        self.journal.answer(line, answer)
        self.changes += 1
        return answer

    def _log_origin(self, arrival: Arrival) -> None:
        """Writes to the log where an arrival came from, and when it was answered."""
        if self.journal.file:
            self.journal.origin(arrival.came, self.now(), arrival.source)

    # --- Frames ---

    def _refused(self, arrival: Arrival, answer: str) -> None:
        """Counts a frame that reached no channel, or of which nothing came, as where memory ran out."""
        self.frames += 1
        self.changes += 1
        self._log_origin(arrival)
        self.journal.answer(arrival.line, answer)
        self._note_event(arrival, answer)
        if answer.startswith("bad "):
            self.bad[without_hint(why_bad(answer))] += 1
        else:
            self.refused[answer.partition(" ")[2]] += 1

    def _frame_answered(self, arrival: Arrival, answer: str) -> None:
        """Counts a frame, and hands on what comes of it."""
        words = answer.split(" ")
        channel = self.channels[int(words[1])]
        event = words[2]
        self.frames += 1
        channel.events[event] += 1
        if channel.last is None and not self.fecf and ends_with_sum(arrival.octets):
            self.took_sum(arrival.source)
        channel.last = arrival.octets[4], event
        self.active = channel.vcid
        answers = self.answers_to(f"{self.behind} {channel.vcid}")
        self._note_event(arrival, answer, answers[-1][-8:] if answers[-1].startswith("clcw ") else "")
        if self.journal.file:
            self._log_origin(arrival)
            self.journal.answer(arrival.line, answer)
        self._hand_on(channel, answers)
        if self.release is Release.AFTER and words[4] == "1" and event == "E1":
            asyncio.get_running_loop().call_later(self.release_after, self._release_later, channel)

    def _hand_on(self, channel: Channel, answers: List[str], asked: bool = False) -> None:
        """Sends all that a receiver has handed on: packets, units, and at last the CLCW. That nothing waited is noted if it was asked."""
        self.changes += 1
        channel.changed = True
        for answer in answers:
            if answer.startswith("take "):
                self.packets += 1
                self.send_packet(bytes.fromhex(answer.rpartition(" ")[2]))
            elif answer.startswith("unit "):
                self._send_unit(answer)
            elif answer.startswith("clcw "):
                channel.word = answer[-8:]
                self.send_clcw(bytes.fromhex(channel.word))
        self.journal.handed_on(channel.vcid, answers, asked)

    def _send_unit(self, answer: str) -> None:
        """Sends a unit behind its channel, MAP and length."""
        _, vcid, place, digits = answer.split(" ")
        unit = bytes.fromhex(digits.strip("-"))
        self.units += 1
        self.send_unit(bytes([int(vcid), int(place)]) + len(unit).to_bytes(4, "big") + unit)

    def _release_later(self, channel: Channel) -> None:
        """Releases a data field whose time has come."""
        if not self.is_ending and self.channels.get(channel.vcid) is channel:
            self._deliver(Arrival(self.now(), RELEASE, f"release {channel.vcid}"))

    def _deliver(self, arrival: Arrival) -> str:
        """Hands on what is released by a line, or by the bench after some time."""
        answers = self.answers_to(f"deliver{arrival.line[7:]}")
        self._log_origin(arrival)
        if len(answers) == 1:
            self.journal.answer(f"release{arrival.line[7:]}", answers[0])
        else:
            if answers[0].startswith("release "):
                self._note_event(arrival, answers[0], answers[-1][-8:])
            self._hand_on(self.channels[int(answers[-1].split(" ")[1])], answers, asked=True)
        return "\n".join(answers) if arrival.line.startswith("deliver") else answers[0]

    def _collect(self, arrival: Arrival) -> str:
        """Hands on what waits, by a line."""
        answers = self.answers_to(arrival.line)
        self._log_origin(arrival)
        if answers[-1].startswith("clcw "):
            self._hand_on(self.channels[int(answers[-1].split(" ")[1])], answers)
        else:
            self.journal.answer(f"clcw{arrival.line[7:]}", answers[0])
        return "\n".join(answers)

    def _take(self, arrival: Arrival) -> str:
        """Sends a packet or unit."""
        answer = self._ask(arrival, arrival.line)
        if not answer.startswith(("refused ", "bad ")):
            self.channels[int(answer.split(" ")[1])].changed = True
            if answer.startswith("take "):
                self.packets += 1
                self.send_packet(bytes.fromhex(answer.rpartition(" ")[2]))
            else:
                self._send_unit(answer)
        return answer

    def _send_clcw(self, arrival: Arrival, vcid: int) -> None:
        """Sends the CLCW of a channel."""
        answer = self._ask(arrival, f"clcw {vcid}")
        if answer.startswith("clcw "):
            if arrival.event:
                arrival.event.word = answer[-8:]
            channel = self.channels[vcid]
            channel.word, channel.changed = answer[-8:], True
            self.send_clcw(bytes.fromhex(channel.word))

    # --- Lines of people, and the bench's own ---

    def _order(self, arrival: Arrival) -> str:
        """Carries out a line that isn't a frame, and returns the answer."""
        word = arrival.line.partition(" ")[0]
        if word in SET_UP:
            return self._set_up(arrival)
        # A person's release has all handed on as the bench's own, but with --release manual.
        if word == "deliver" or (word == "release" and self.release is not Release.MANUAL and arrival.line.count(" ") == 1):
            return self._deliver(arrival)
        if word == "collect":
            return self._collect(arrival)
        if word in ("take", "unit"):
            return self._take(arrival)
        return self._do_other(arrival)

    def _set_up(self, arrival: Arrival) -> str:
        """Notes what a line sets up, or why it is bad."""
        answer = self.answers_to(arrival.line)[0]
        self._log_origin(arrival)
        if answer:
            self.journal.answer(arrival.line, answer)
            self.bad[without_hint(why_bad(answer))] += 1
        else:
            self._note_set_up(arrival.line)
        self.changes += 1
        return answer

    def _note_set_up(self, line: str) -> None:
        """Notes a channel, queue or MAP that was set up."""
        self.journal.write(line)
        word, *others = line.split(" ")
        numbers = [int(number) for number in others if number != "plain"]
        if word == "channel":
            self.channels[numbers[0]] = Channel(numbers[0], numbers[1], numbers[2], numbers[3], others[-1] == "plain")
            self.begun_channel(numbers[0], numbers[3])
        elif word == "queue":
            self.channels[numbers[0]].queues[numbers[1]] = numbers[2]
        else:
            self.channels[numbers[0]].maps[numbers[1]] = numbers[2]

    def _do_other(self, arrival: Arrival) -> str:
        """Carries out any other line."""
        answer = self._ask(arrival, arrival.line)
        if answer.startswith("bad "):
            self.bad[without_hint(why_bad(answer))] += 1
        elif answer.startswith(("link ", "release ")):
            # Both change the CLCW.
            vcid = int(answer.split(" ")[1])
            self._note_event(arrival, answer)
            self._send_clcw(arrival, vcid)
        return answer

    def say_next_clcw(self) -> None:
        """Sends the CLCW of the next channel, in turn."""
        if self.channels:
            vcids = sorted(self.channels)
            self.next_in_turn += 1
            self._send_clcw(Arrival(self.now(), "period", ""), vcids[(self.next_in_turn - 1) % len(vcids)])

    def set_link(self, lost: bool) -> None:
        """Sets both flags of the link on each channel, or takes them back."""
        for vcid in sorted(self.channels):
            self._order(Arrival(self.now(), "link-timeout", f"link {vcid} {int(lost)} {int(lost)}"))

    # --- What is shown ---

    def _note_event(self, arrival: Arrival, answer: str, word: str = "") -> None:
        """Keeps an event for those who watch."""
        self.count_of_events += 1
        arrival.event = Event(self.count_of_events, arrival, answer, word)
        self.last_events.append(arrival.event)

    def events_since(self, since: int) -> List[Dict[str, object]]:
        """Returns the events after the one with this number, as values of JSON."""
        return [event.state() for event in self.last_events if event.number > since]

    def note_text(self, source: str, text: str, at: Optional[float] = None) -> None:
        """Keeps what happened on a port, or to the log; now, or at another time."""
        self.changes += 1
        self.count_of_notes += 1
        self.last_notes.append({"id": self.count_of_notes, "time": round(self.now() if at is None else at, 6), "source": source, "text": printable(text)})

    def read_report(self, channel: Channel, answer: str) -> None:
        """Notes what a report says of buffer and queues."""
        if answer.startswith("report "):
            channel.buffered = int(re.findall(r" buffered (\d+)", answer)[0])
            channel.in_queues, channel.in_maps = ({int(place): int(count) for place, count in re.findall(rf" {word} (\d+) (\d+)", answer)}
                                                  for word in ("queue", "map"))

    def refresh(self) -> None:
        """Has reports made of the channels that changed."""
        for channel in self.channels.values():
            if channel.changed and not self.is_ending:
                channel.changed = False
                self.read_report(channel, self.answers_to(f"report {channel.vcid}")[0])

    def state(self) -> Dict[str, object]:
        """Returns all that is known of the receiver, as values of JSON."""
        return {"spacecraft": self.scid, "fecf": self.fecf, "release": self.release.value, "frames": self.frames,
                "packets": self.packets, "units": self.units, "refused": dict(self.refused), "bad": dict(self.bad), **self.coding(),
                "senders": self.senders(), "channels": [state_of(self.channels[vcid]) for vcid in sorted(self.channels)]}


def state_of(channel: Channel) -> Dict[str, object]:
    """Returns the state of a channel as values of JSON."""
    clcw = Clcw(int(channel.word, 16))
    return {
        "channel": channel.vcid, "width": channel.width, "plain": channel.plain, "vr": clcw.vr, "clcw": f"{clcw.word:08x}",
        "state": "lockout" if clcw.lockout else "wait" if clcw.wait else "open",
        "lockout": clcw.lockout, "wait": clcw.wait, "retransmit": clcw.retransmit, "no_rf": clcw.no_rf, "no_bit_lock": clcw.no_bit_lock,
        "farm_b": clcw.farm_b, "last": None if channel.last is None else {"number": channel.last[0], "event": channel.last[1]},
        "events": channel.events,
        "buffer": {"used": channel.buffered, "capacity": channel.buffer},
        "queues": [{"apid": apid, "used": channel.in_queues.get(apid, 0), "capacity": room} for apid, room in channel.queues.items()],
        "maps": [{"map": place, "used": channel.in_maps.get(place, 0), "capacity": room} for place, room in channel.maps.items()],
    }
