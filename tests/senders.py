"""An attack on tcrx-bench: 61 senders send as fast as they can. 40 of them have a channel of their own, and the others share seven channels, three
senders a channel. Among their frames are some of another spacecraft and of a channel that isn't set up. Meanwhile others read all packets and CLCWs,
or ask for reports. In the end the senders send on while the bench is asked to end."""
from __future__ import annotations

import re
import socket
import struct
import threading
import time
from collections import Counter
from pathlib import Path
from typing import Callable, Dict, List, Optional

from bench_parts import Bench, read_all, read_on, word_of
from comparing import until
from client_parts import ONE, cltu, frame, packet, whole

SENDERS, OWN, SHARING = 61, 40, 3
# A sender sends so many frames at once whose packets come out, and behind them two frames that are refused.
BATCH = 32
# How many frames of a sender may be on their way.
ON_THE_WAY = 512
REFUSED = ({"scid": 43}, {"channel": 63})
# The idle sequence that is sent in front of a CLTU.
IDLE = b"\x55" * 12
# The identifier of a packet, its sequence control, its length field, and its data, which are a number.
PACKET = struct.Struct(">HHHI")
# The line that the bench prints if --patience is over before it has answered everything that it has read.
LEFT = re.compile(r"tcrx-bench: left unanswered at the end: what came over \d+ connections and sockets\n")
# Seconds of --patience, and seconds that a report may take.
PATIENT, LONGEST_WAIT = 30, 10
# Seconds after which the memory of the bench is measured first, if that fits into the attack. From then on it may grow by the first share. In a
# shorter attack it may grow by the second. On a busy machine it takes two minutes until all that the bench keeps is full.
SETTLED, GROWTH, EARLY_GROWTH = 150, 0.05, 0.25
OPTIONS = f"--tc-tcp 0 --lines 0 --packets-tcp 0 --clcw-tcp 0 --http 0 --connections 64 --period 0 --patience {PATIENT}".split()


class Sender:
    """A sender, which gives each of its packets the next number. If `in_cltus` is set, each of its frames has its frame error control field,
    and comes in a CLTU."""

    def __init__(self, place: int, in_cltus: bool = False) -> None:
        self.apid, self.is_alone, self.in_cltus, self.pause = 100 + place, place < OWN, in_cltus, 0.0
        self.channel = place if self.is_alone else OWN + (place - OWN) // SHARING
        self.sent = 0
        """How many of its frames have a packet that is to come out."""
        self.batches = 0
        self.answered = b""
        """What the bench has sent to it."""

    def next_batch(self) -> bytes:
        """Returns the next frames: of Type AD on a channel of its own, of Type BD on one that it shares."""
        frames = [frame(number % 256, whole(0, packet(self.apid, *number.to_bytes(4, "big"))), self.channel, not self.is_alone, fecf=self.in_cltus)
                  for number in range(self.sent, self.sent + BATCH)]
        frames += [frame(0, whole(0, ONE), fecf=self.in_cltus, **other) for other in REFUSED]
        return b"".join(IDLE + cltu(each) for each in frames) if self.in_cltus else b"".join(frames)

    def send(self, bench: Bench, ended: threading.Event, came: Optional[Counter[int]] = None) -> None:
        """Sends over one connection until `ended` is set, or until the bench closes the connection. `came` has how many packets of each sender came
        out. If it is given, the sender waits while many of its frames are on their way, as the kernel would buffer a million of them."""
        with bench.connect("tc-tcp") as link:
            try:
                while not ended.is_set():
                    if came is not None and self.sent - came[self.apid] > ON_THE_WAY:
                        ended.wait(0.01)
                        continue
                    link.sendall(self.next_batch())
                    self.sent, self.batches = self.sent + BATCH, self.batches + 1
                    ended.wait(self.pause)
                link.shutdown(socket.SHUT_WR)
                self.answered = read_all(link)
            except OSError:
                pass


class Tally:
    """A reader of packets, with how many of each sender came to it, and which ones didn't come once and in order."""

    def __init__(self, bench: Bench) -> None:
        self.link = bench.reader()
        self.numbers: Counter[int] = Counter()
        self.wrong: List[str] = []
        self.rest = b""

    def read(self) -> None:
        """Reads until the bench closes the connection."""
        try:
            with self.link:
                while more := self.link.recv(1 << 16):
                    self.take(self.rest + more)
        except OSError as fault:
            self.wrong.append(repr(fault))

    def take(self, octets: bytes) -> None:
        """Counts the packets of these octets, and keeps the rest."""
        size = len(octets) - len(octets) % PACKET.size
        for identifier, control, length, number in PACKET.iter_unpack(octets[:size]):
            apid = identifier - 0x1000
            if (control, length, number) != (0xC000, 3, self.numbers[apid]):
                self.wrong.append(f"{apid}: {number} after {self.numbers[apid]} packets")
            self.numbers[apid] += 1
        self.rest = octets[size:]


class Asker:
    """A peer that asks for a report, waits for the answer, and asks again."""

    def __init__(self) -> None:
        self.count, self.longest = 0, 0.0
        self.wrong: List[bytes] = []

    def ask(self, bench: Bench, ended: threading.Event) -> None:
        """Asks until `ended` is set, or until an answer is wrong."""
        try:
            with bench.connect("lines") as link, link.makefile("rb") as answers:
                while not ended.is_set():
                    begun = time.monotonic()
                    link.sendall(b"report 0\n")
                    answer = answers.readline()
                    if not answer.startswith(b"report 0 state open vr "):
                        self.wrong.append(answer)
                        return
                    self.count, self.longest = self.count + 1, max(self.longest, time.monotonic() - begun)
                    ended.wait(0.05)
        except OSError as fault:
            self.wrong.append(repr(fault).encode())

    def compare(self) -> None:
        """Checks that several reports came, each of them whole and soon."""
        assert (self.wrong, self.count > 3) == ([], True)
        assert self.longest < LONGEST_WAIT


def begin(work: Callable[..., None], *given: object) -> threading.Thread:
    """Starts a thread that calls this function."""
    thread = threading.Thread(target=work, args=given, daemon=True)
    thread.start()
    return thread


def grown(bench: Bench, seconds: float) -> str:
    """Waits so many seconds, and compares the memory of a bench after them with that after SETTLED seconds, or after a third of them if that is
    earlier. Returns both as a text."""
    settling = min(SETTLED, seconds / 3)
    time.sleep(settling)
    before = bench.memory()
    time.sleep(seconds - settling)
    more = bench.memory() - before
    assert abs(more) <= (GROWTH if settling == SETTLED else EARLY_GROWTH) * before, f"memory grew by {more} KiB, and it was {before} KiB"
    return f"{before} KiB and {more} more"


class Crowd:
    """A bench with all senders and readers."""

    def __init__(self, room: Path) -> None:
        self.senders = [Sender(place) for place in range(SENDERS)]
        self.channels = sorted({sender.channel for sender in self.senders})
        setup = [f"channel {channel} 254 64 0" for channel in self.channels] + [f"queue {each.channel} {each.apid} 64" for each in self.senders]
        self.bench = Bench(room, *OPTIONS, setup="\n".join(setup) + "\n", has_log=False)
        self.tallies, self.words, self.asker = [Tally(self.bench) for _ in range(2)], bytearray(), Asker()
        self.readers = [begin(tally.read) for tally in self.tallies] + [begin(read_on, self.bench.reader("clcw-tcp"), self.words)]

    def begin(self, ended: threading.Event, *came: Counter[int]) -> List[threading.Thread]:
        """Starts all that send or ask."""
        return [*(begin(sender.send, self.bench, ended, *came) for sender in self.senders), begin(self.asker.ask, self.bench, ended)]

    def sent(self) -> Dict[int, int]:
        """Returns how many packets of each sender are to come out."""
        return {sender.apid: sender.sent for sender in self.senders}

    def refused(self) -> int:
        """Returns how many frames of each of the two kinds are to be refused."""
        return sum(sender.batches for sender in self.senders)


def attack(room: Path, seconds: float) -> None:
    """Has all send for so many seconds, and compares what became of each frame."""
    crowd, ended = Crowd(room), threading.Event()
    threads = crowd.begin(ended, crowd.tallies[0].numbers)
    try:
        memory = grown(crowd.bench, seconds)
    finally:
        ended.set()
    for thread in threads:
        thread.join()
    print(f"senders: {sum(crowd.sent().values())} frames in {seconds:.0f} s, {crowd.asker.count} reports of which one took "
          f"{crowd.asker.longest:.2f} s, {memory}", flush=True)
    compare(crowd)
    end_while_all_send(crowd)


def compare(crowd: Crowd) -> None:
    """Compares what the bench counted, and what came to readers, with what was sent."""
    sent, refused = crowd.sent(), crowd.refused()
    assert min(sent.values()) > BATCH, f"a sender has sent too little: {sent}"
    assert {sender.answered for sender in crowd.senders} == {b""}, "what senders are told"
    until(lambda: all(sum(tally.numbers.values()) == sum(sent.values()) for tally in crowd.tallies))
    for tally in crowd.tallies:
        assert (dict(tally.numbers), tally.wrong[:3], tally.rest) == (sent, [], b""), "the packets of each sender, once and in order"
    state = crowd.bench.state()
    assert (state["frames"], state["refused"], state["bad"]) == (sum(sent.values()) + 2 * refused, {"spacecraft": refused, "channel": refused}, {})
    for channel in state["channels"]:
        own = [sender for sender in crowd.senders if sender.channel == channel["channel"]]
        # Type AD in sequence is E1, and Type BD is E6.
        wanted = {"E1" if own[0].is_alone else "E6": sum(each.sent for each in own)}
        assert {event: count for event, count in channel["events"].items() if count} == wanted, channel["channel"]
    port = crowd.bench.port("clcw-tcp")
    assert port["sent"] + port.get("lost", 0) == sum(sent.values()), "CLCWs that were made, one for each frame that was accepted"
    assert until(lambda: len(crowd.words) == 4 * port["sent"]), f"{len(crowd.words)} octets of CLCWs came, of {port['sent']} that were sent"
    crowd.asker.compare()


def end_while_all_send(crowd: Crowd) -> None:
    """Asks the bench to end while all send on, and compares the packets that came with its final report."""
    before = crowd.bench.state()["frames"]
    threads = crowd.begin(threading.Event())
    assert until(lambda: crowd.bench.state()["frames"] > before + SENDERS * BATCH), "frames before the end aren't answered"
    begun = time.monotonic()
    status, printed, error = crowd.bench.end()
    seconds = time.monotonic() - begun
    print(f"senders: the end took {seconds:.1f} s of {PATIENT}", flush=True)
    for thread in threads + crowd.readers:
        thread.join()
    assert seconds < PATIENT + 1
    is_short = status == 1 and seconds > 0.8 * PATIENT and LEFT.fullmatch(error)
    assert (status, error) == (0, "") or is_short
    assert crowd.tallies[0].numbers == crowd.tallies[1].numbers, "the packets that came to one reader and to the other"
    for tally in crowd.tallies:
        assert (tally.wrong[:3], tally.rest) == ([], b""), "the packets of each sender at the end"
    assert printed == report_of(crowd, crowd.tallies[0].numbers)


def report_of(crowd: Crowd, came: Counter[int]) -> str:
    """Returns the final report of a bench of which so many packets of each sender came. A frame of Type AD leads to three events: it is accepted and
    released, and its packet is taken. A frame of Type BD isn't released."""
    lines = []
    for channel in crowd.channels:
        own = [sender for sender in crowd.senders if sender.channel == channel]
        count = sum(came[sender.apid] for sender in own)
        farm_b, vr, events = (0, count % 256, 3 * count) if own[0].is_alone else (count % 4, 0, 2 * count)
        lines += [f"final {channel} {word_of(channel, 0, farm_b, vr)} events {events} buffered 0"]
        lines += [f"queue {channel} {each.apid} 0" for each in own]
    return "".join(line + "\n" for line in lines)
