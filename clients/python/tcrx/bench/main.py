"""A bench that several can share: one spacecraft's telecommand receiver for many connections.

Frames come in over TCP and UDP as they are, or in CLTUs, and people's lines; one session of the library answers all, in the order of their
arrival. CLCWs, packets, units and telemetry frames go out to whoever listens, and a page shows the state. README.md in this folder has the way
of a frame, docs/howto/bench.md the first three commands, and docs/reference/tcrx-bench.md each option.
"""
from __future__ import annotations

import asyncio
import gc
import os
import signal
import sys
import time
from argparse import Namespace
from functools import partial
from typing import Callable, Dict, Iterator, List, Optional

from ..channel import file_of, load
from ..lines import Session
from ..values import Fault
from .admission import room_for
from .cltu import CltuConnection, CltuDecoding
from .datagrams import Datagrams, Target
from .demo import KEYS, SETUP, Demo
from .faults import Faults
from .journal import Journal, replay
from .octets import Cutter
from .options import note_of_old, read_setup, read_words, warning_of, warning_of_files
from .ports import Broadcast, Connection, FrameConnection, Hub, LineConnection, Notes, Place, Port, Reader, all_senders, write_some
from .spacecraft import Release, Spacecraft
from .telemetry import MARKER, Telemetry
from .watch import Watches
from .web import Visitor, Web

# Seconds between two writes of the log, and that readers have at the end.
LOG_PAUSE, LAST_READ = 0.2, 1.0
# Seconds between two tries to print a report that nobody reads, and how many octets of reports wait at most.
PRINT_PAUSE, MOST_UNPRINTED = 0.005, 1 << 23
# The note on a frame whose frame error control field was taken as data.
TOOK_SUM = "a frame ends with its frame error control field, which is data here; --fecf takes it off"
# The part of `--patience` in which the bench still answers at its end what has arrived. The rest is left for the report.
LAST_ANSWERS = 0.8
# The note at the start if senders are watched and frames have no frame error control field.
NO_FECF = "--sender without --fecf: a frame whose bits were flipped on the way can look like a breach of its sender"


class NotUp(Exception):
    """The bench can't begin; the status says which end that is."""

    def __init__(self, text: str, status: int) -> None:
        super().__init__(text)
        self.status = status


class LinkWatch:  # pylint: disable=too-few-public-methods  # it is called by the clock and by each frame
    """Sets the flags of the link where no frame came for some time, and takes them back with the next one."""

    def __init__(self, spacecraft: Spacecraft, seconds: float) -> None:
        self.spacecraft, self.seconds, self.last, self.lost = spacecraft, seconds, time.monotonic(), False
        spacecraft.arrived = self._arrived
        self._look()

    def _arrived(self) -> None:
        self.last = time.monotonic()
        if self.lost:
            self.lost = False
            self.spacecraft.set_link(False)

    def _look(self) -> None:
        left = self.last + self.seconds - time.monotonic()
        if self.spacecraft.is_ending:
            return
        if left <= 0 and not self.lost:
            self.lost = True
            self.spacecraft.set_link(True)
        asyncio.get_running_loop().call_later(max(left, 0.01) if not self.lost else self.seconds, self._look)


class Bench:  # pylint: disable=too-many-instance-attributes  # it is made of these parts
    """The receiver with its ports, from the begin to the end."""

    def __init__(self, options: Namespace, journal: Journal, notes: Notes) -> None:
        self.options, self.journal, self.notes = options, journal, notes
        self.loop = asyncio.get_running_loop()
        self.over: "asyncio.Future[str]" = self.loop.create_future()
        """Done when the receiver gives no more answers, with the reason."""
        release = Release.MANUAL if options.release == "manual" else Release.AUTO if options.release_after is None else Release.AFTER
        self.spacecraft = Spacecraft(self._new_session(), journal, options.scid, options.fecf, release, options.release_after or 0.0)
        self.spacecraft.failed = self._fail
        listening = sum(not place.kind.endswith("-udp") for place in options.places)
        self.hub = Hub(self.spacecraft, notes, room_for(listening, options.connections), options.patience, options.connections_per_address)
        self.web: Optional[Web] = None
        self.listening: Dict[str, List[Port]] = {}
        self.targets: List[Target] = []
        self.faults: Optional[Faults] = None
        self.decoding = CltuDecoding(options, self.hub) if options.cltu else None
        self.watches = self._watch() if options.sender else None
        self.telemetry = Telemetry(options, self.spacecraft) if options.has_telemetry else None
        self.said_fault = False
        self.link_watch: Optional[LinkWatch] = None
        self.unprinted, self.print_until, self.was_printed = b"", 0.0, True
        """What of the final reports isn't printed yet; until when that is tried; and whether all that was due was printed."""
        self.until: Optional[float] = None
        """When it must have ended, once it has to."""

    # --- The begin ---

    def _new_session(self) -> Session:
        """Returns a receiver for which nothing is set up."""
        return Session.live(self.options.scid, fecf=self.options.fecf)

    def _fail(self, why: str) -> None:
        """Has the bench end with this reason, as the receiver gives no more answers."""
        if not self.over.done():
            self.over.set_result(why)

    def _watch(self) -> Watches:
        """Has the senders watched that were named."""
        watches = Watches(self.options.sender, partial(self.spacecraft.note_text, "sender"))
        self.spacecraft.begun_channel, self.spacecraft.senders, self.spacecraft.answered = watches.begin, watches.state, watches.see
        watches.time = self.spacecraft.now
        return watches

    def set_up(self) -> None:
        """Sets up the receiver. Raises `NotUp` where that can't be done."""
        for number, line in self.options.lines:
            if why := self.spacecraft.set_up(line):
                raise NotUp(f"{self.options.setup}, line {number}: {why}", 2)
        if self.watches and self.options.lines and (missing := self.watches.missing()):
            raise NotUp(f"--sender: channel {missing[0]} isn't set up", 2)

    async def open_ports(self) -> None:
        """Opens all ports. Raises `NotUp` where one can't be opened."""
        hosts = [place.host for place in self.options.places if place.kind == "http"]
        library = {"file": (file := file_of(load(None))), "version": file.rpartition(".so.")[2]}
        self.web = Web(self.hub, hosts, library) if hosts else None
        makers: Dict[str, Callable[[Port], Connection]] = {
            "tc-tcp": self._sender_of_frames, "lines": LineConnection, "clcw-tcp": Reader, "packets-tcp": Reader, "units-tcp": Reader,
            "tm-tcp": Reader, "http": self._visitor}
        for place in self.options.places:
            try:
                if place.kind in makers:
                    self.listening.setdefault(place.kind, []).append(await self.hub.listen(place, makers[place.kind]))
                elif place.kind == "tc-udp":
                    Datagrams(place, self.hub, self.options.fill, self._decode if self.decoding else None)
                else:
                    self.targets.append(Target(place, self.hub))
            except (OSError, OverflowError) as error:
                raise NotUp(f"--{place.kind} {place.host}:{place.port}: {getattr(error, 'strerror', None) or error}", 1) from None
        if self.options.has_faults:
            self.faults = Faults(self.options, self.hub)
        for name, kind in (("send_clcw", "clcw"), ("send_packet", "packets"), ("send_unit", "units")):
            setattr(self.spacecraft, name, self._sender(kind))
        self.spacecraft.coding = self._coding
        if self.telemetry:
            self.telemetry.send = self._sender("tm")

    def _sender_of_frames(self, port: Port) -> Connection:
        """Returns a connection for frames, or for CLTUs."""
        if self.decoding:
            return CltuConnection(port, self.decoding)
        return FrameConnection(port, Cutter(self.options.scid, self.options.fill, self.options.resync, self.options.fecf))

    def _decode(self, port: Port, source: str, octets: bytes) -> Iterator[None]:
        """Decodes the CLTUs of a datagram, for which no other datagram is waited."""
        assert self.decoding
        return self.decoding.pieces(self.decoding.new_decoder(), port, source, octets)

    def _coding(self) -> Dict[str, object]:
        """Returns the state of CLTUs and telemetry frames as values of JSON."""
        return {"cltu": self.decoding.state() if self.decoding else None, "telemetry": self.telemetry.state() if self.telemetry else None}

    def _visitor(self, port: Port) -> Visitor:
        """Returns a connection for the page."""
        assert self.web
        return Visitor(port, self.web)

    def _sender(self, kind: str) -> Callable[[bytes], None]:
        """Returns a function that sends to all places of a kind."""
        targets, ports = [target for target in self.targets if target.port.place.kind == f"{kind}-udp"], self.listening.get(f"{kind}-tcp", [])
        front = MARKER if kind == "tm" and self.options.tm_marker else b""
        send = all_senders([*(target.send for target in targets), *(Broadcast(port, front).send for port in ports)])
        return self.faults.sender(send, [*ports, *(target.port for target in targets)]) if self.faults and kind in ("clcw", "tm") else send

    def say_ports(self) -> None:
        """Says where it listens, one line a port. Raises `NotUp` where that can't be written."""
        lines = [f"{port.place.kind} {port.address}" for port in self.hub.ports]
        if not self.write("".join(line + "\n" for line in [*lines, "ready"])):
            raise NotUp("standard output can't be written", 1)

    @staticmethod
    def write(text: str) -> bool:
        """Writes to standard output. Returns whether that could be done."""
        try:
            print(text, end="", flush=True)
            return True
        except OSError:
            # The rest of the text isn't tried again when the program exits.
            os.dup2(os.open(os.devnull, os.O_WRONLY), sys.stdout.fileno())
            return False

    # --- What happens from time to time ---

    def begin_timers(self) -> None:
        """Begins what happens from time to time."""
        if self.options.period:
            self._say_clcw()
        if self.options.link_timeout:
            self.link_watch = LinkWatch(self.spacecraft, self.options.link_timeout)
        self.spacecraft.renew, self.spacecraft.took_sum = self._renew, self._say_took_sum
        if self.telemetry:
            self.telemetry.begin()
        self._write_log()

    def _renew(self, source: str) -> str:
        """Ends the receiver with its report, and begins another one, with another file of the log. Returns the answer to the line."""
        try:
            session = self._new_session()
        except Fault as fault:
            return f"bad {fault}"
        self._end_receiver()
        self.journal.begin_part()
        self.spacecraft.begin_anew(session)
        try:
            self.set_up()
        except NotUp as fault:
            # Memory ran out, since the same lines were good before.
            self._fail(str(fault))
        self.spacecraft.note_text(source, "the receiver was begun anew")
        if self.link_watch and self.link_watch.lost:
            self.spacecraft.set_link(True)
        return f"anew {self.journal.part}"

    def _say_took_sum(self, source: str) -> None:
        """Says that --fecf may be missing."""
        self.notes.say(f"{source}: {TOOK_SUM}")
        self.spacecraft.note_text(source, TOOK_SUM)

    def _say_clcw(self) -> None:
        """Has a CLCW made, if somebody is there for it."""
        if self.spacecraft.is_ending:
            return
        if any(target.port.place.kind == "clcw-udp" for target in self.targets) or any(port.open for port in self.listening.get("clcw-tcp", [])):
            self.spacecraft.say_next_clcw()
        self.loop.call_later(self.options.period, self._say_clcw)

    def _write_log(self) -> None:
        """Writes what came to the log."""
        if self.spacecraft.is_ending:
            return
        self.journal.flush()
        if self.journal.fault:
            self._say_log_fault()
        self.loop.call_later(LOG_PAUSE, self._write_log)

    def _say_log_fault(self) -> None:
        """Says once that the log ends early."""
        if not self.said_fault:
            self.said_fault = True
            self.notes.say_once(f"{self.journal.fault}; it ends here, and the bench goes on")
            self.spacecraft.note_text("log", self.journal.fault)

    # --- The end ---

    def has_to_end(self) -> None:
        """Gives the bench the time of `--patience` to end, or no more time at a second call."""
        if self.until is None:
            self.until = time.monotonic() + self.options.patience
        else:
            self.notes.say_once("interrupted twice")
            self.until = time.monotonic()

    async def end(self) -> int:
        """Answers what has arrived, prints the final report, and closes all; the status."""
        if self.until is None:
            self.has_to_end()
        await self.hub.stop_listening()
        left = await self._answer_last()
        self.spacecraft.is_ending = True
        if self.over.done():
            self._report_all(self.over.result())
        else:
            self._log_coding()
            self._end_receiver()
        if self.web:
            self.web.send()
        self.journal.close()
        if self.journal.fault:
            self._say_log_fault()
        await self.hub.close(LAST_READ)
        for target in self.targets:
            target.close()
        said = await self._is_printed()
        if self.watches:
            said = self.write("".join(line + "\n" for line in self.watches.texts())) and said
        self.notes.say_left_out()
        is_whole = not (self.over.done() or left or self.journal.fault or (self.watches and self.watches.missing()))
        return 0 if is_whole and said else 1

    async def _answer_last(self) -> int:
        """Has what was read answered, as far as a part of `--patience` reaches. Returns how many connections and sockets had more."""
        reserve = (1 - LAST_ANSWERS) * self.options.patience
        while (left := self.hub.scheduler.count_senders()) and time.monotonic() < (self.until or 0.0) - reserve and not self.over.done():
            await asyncio.sleep(0)
        if left:
            self.notes.say_once(f"left unanswered at the end: what came over {left} connections and sockets")
        self.hub.scheduler.close()
        return left

    def _end_receiver(self) -> None:
        """Ends the receiver, and has its final report logged and printed."""
        report = self.spacecraft.session.end()
        self.journal.end(report)
        self._print(report)

    def _log_coding(self) -> None:
        """Adds to the log what was counted of CLTUs and telemetry frames."""
        for name, counts in self._coding().items():
            if isinstance(counts, dict):
                self.journal.write(" ".join([f"# {name}:", *(f"{what} {count}" for what, count in counts.items())]))

    def _print(self, report: str) -> None:
        """Prints a final report, as far as it is read. Others go on while nobody reads it, up to `--patience`."""
        if not self.unprinted:
            self.print_until = time.monotonic() + self.options.patience
        self.unprinted += report.encode()
        if len(self.unprinted) == len(report):
            self._print_on()

    def _print_on(self) -> None:
        """Prints what is left of the reports, and tries again as long as nobody reads it."""
        try:
            self.unprinted = write_some(sys.stdout, self.unprinted)
            late = bool(self.unprinted) and time.monotonic() > (self.print_until if self.until is None else self.until)
        except OSError:
            late = True
        if late or len(self.unprinted) > MOST_UNPRINTED:
            self.unprinted, self.was_printed = b"", False
            self.notes.say_once("the final report can't be written")
        elif self.unprinted:
            self.loop.call_later(PRINT_PAUSE, self._print_on)

    async def _is_printed(self) -> bool:
        """Waits until the reports are printed, or can't be. Returns whether all were."""
        while self.unprinted:
            await asyncio.sleep(PRINT_PAUSE)
        return self.was_printed

    def _report_all(self, why: str) -> None:
        """Reports to everyone why there are no more answers."""
        self.notes.say_once(why)
        self.journal.write(f"# {why}")
        for port in self.hub.ports:
            for connection in list(port.open):
                if connection.welcome and not connection.done and not isinstance(connection, Visitor):
                    connection.done = True
                    connection.transport.write(connection.last_words(why))


async def serve(options: Namespace) -> int:
    """Begins, serves until it is asked to end or the receiver ends, and ends; the status."""
    loop = asyncio.get_running_loop()
    asked: "asyncio.Future[str]" = loop.create_future()
    notes = Notes()
    notes.handle_exceptions(loop)
    try:
        journal = Journal(options.log, options.scid, options.fecf)
    except OSError as error:
        raise NotUp(f"--log {options.log}: {error.strerror}", 2) from None
    demo = Demo(options.scid, options.fecf) if options.demo else None
    if demo:
        options.places.append(Place("clcw-udp", "127.0.0.1", demo.port()))
    bench = Bench(options, journal, notes)

    def ask_to_end() -> None:
        bench.has_to_end()
        if not asked.done():
            asked.set_result("asked to end")
    for number in (signal.SIGTERM, signal.SIGINT, signal.SIGHUP):
        loop.add_signal_handler(number, ask_to_end)
    try:
        bench.set_up()
        await bench.open_ports()
        bench.say_ports()
    except NotUp:
        await bench.hub.stop_listening()
        journal.discard()
        raise
    if note := note_of_old(options):
        notes.say_once(note)
    for place in options.open_to_others:
        notes.say_once(warning_of(place))
    if options.sender and not options.fecf:
        notes.say_once(NO_FECF)
    if bench.hub.most < options.connections:
        notes.say_once(warning_of_files(bench.hub.most))
    bench.begin_timers()
    # Python's garbage collector looks no more at what there is by now, which would take ten milliseconds each time.
    gc.freeze()
    if demo:
        bench.write(f"open http://{bench.listening['http'][0].address}/\n{KEYS}\n")
        demo.begin([port for port in bench.hub.ports if port.place.kind == "tc-udp"][-1].number, ask_to_end)
    await asyncio.wait({asked, bench.over}, return_when=asyncio.FIRST_COMPLETED)
    if demo:
        demo.end()
    return await bench.end()


def open_streams() -> None:
    """Has standard streams that are closed be open, so that no file or socket takes the place of one, nor what is said goes to another."""
    for place, name in enumerate(("stdin", "stdout", "stderr")):
        try:
            os.fstat(place)
        except OSError:
            # pylint: disable-next=consider-using-with  # it stays open
            setattr(sys, name, open(os.open(os.devnull, os.O_RDWR), "r" if place == 0 else "w", encoding="utf-8"))


def main() -> int:
    """Reads the command line, and serves or replays; the status."""
    open_streams()
    options = read_words(sys.argv[1:])
    try:
        if options.replay:
            return replay(options.replay, options.sender)
        options.lines = read_setup(options.setup) if options.setup else list(enumerate(SETUP, 1)) if options.demo else []
        return asyncio.run(serve(options))
    except NotUp as error:
        print(f"tcrx-bench: {error}", file=sys.stderr)
        return error.status
    except Fault as error:
        print(f"tcrx-bench: {error}", file=sys.stderr)
        return 1
    except ValueError as error:
        print(f"tcrx-bench: {error}", file=sys.stderr)
        return 2
    except MemoryError:
        print("tcrx-bench: out of memory", file=sys.stderr)
        return 1
