"""The ports of the bench: frames and lines come in, CLCWs, packets and units go out. All in the thread of the event loop."""
from __future__ import annotations

import asyncio
import errno
import ipaddress
import logging
import os
import re
import select
import socket
import sys
import time
import traceback
from collections import deque
from pathlib import Path
from typing import IO, TYPE_CHECKING, Any, Callable, Deque, Dict, Iterator, List, Mapping, NamedTuple, Optional, Set, Tuple, Union, cast

from .admission import MOST_LINGERING, plain, refusal_of
from .octets import BROWSER, Cutter, has_request
from .scheduler import FairQueue, Scheduler, work_on
from .spacecraft import Spacecraft

if TYPE_CHECKING:
    from .datagrams import Datagrams

# Octets of a line, without its end; octets that wait for a slow reader of CLCWs, and of packets or units.
LONGEST_LINE, MOST_WORDS, MOST_KEPT = 8192, 1024, 1 << 22
# Octets of the kernel's buffer for a reader of CLCWs: old ones are of no use.
CLCW_BUFFER = 4096
# Octets that are read at once, so that nobody waits long for another.
CHUNK = 1 << 14
# Frames that are answered between two looks at the clock.
AT_ONCE = 8
# Octets that may wait to be written to the readers of a port, before frames have to wait as well.
HIGH_WATER = 1 << 16
# After 60 seconds of silence the other end's machine is asked whether it is there, three times; else its place is given back.
KEEPALIVE = ((socket.SOL_SOCKET, socket.SO_KEEPALIVE, 1), (socket.IPPROTO_TCP, socket.TCP_KEEPIDLE, 60),
             (socket.IPPROTO_TCP, socket.TCP_KEEPINTVL, 10), (socket.IPPROTO_TCP, socket.TCP_KEEPCNT, 3))
# Seconds that a connection that was told why it is closed has to read that.
LINGER = 0.5

Network = Union[ipaddress.IPv4Network, ipaddress.IPv6Network]
WORDS = re.compile(r"[ \t\r]+")


class Place(NamedTuple):
    """A port that is listened on, or that datagrams go to: what for, the host and the port, and who may connect."""

    kind: str
    host: str
    port: int
    allowed: List[Network] = []

    def allows(self, address: str) -> bool:
        """Returns whether a peer with this address may connect."""
        if not self.allowed:
            return True
        try:
            given = ipaddress.ip_address(plain(address))
        except ValueError:
            return False
        return any(given in network for network in self.allowed)


def shown(host: str, port: int) -> str:
    """Returns an address as it is written in the command line."""
    return f"[{host}]:{port}" if ":" in host else f"{host}:{port}"


def write_some(given: IO[str], octets: bytes) -> bytes:
    """Writes octets to a standard stream as far as it has room, and returns the rest. Raises `OSError`."""
    looking = select.poll()
    looking.register(given.fileno(), select.POLLOUT)
    # Where there is room at all, a pipe has room for so much.
    while octets and looking.poll(0):
        octets = octets[os.write(given.fileno(), octets[:select.PIPE_BUF]):]
    return octets


class Notes:
    """Says on standard error what happens. Of what ports and peers lead to it says some lines in ten seconds, and how many more there were;
    one for which there is no room, as nobody reads them, is one of those."""

    MOST, SECONDS = 20, 10.0

    def __init__(self) -> None:
        self.begun, self.last = 0.0, ""
        self.count = self.left_out = 0

    def say(self, text: str) -> None:
        """Writes a line, unless there were many, or it is the one before again."""
        now = time.monotonic()
        if now - self.begun > self.SECONDS:
            self.say_left_out()
            self.begun, self.count, self.last = now, 0, ""
        if self.count >= self.MOST or text == self.last:
            self.left_out += 1
            return
        self.count, self.last = self.count + 1, text
        self.say_once(text)

    def say_left_out(self) -> None:
        """Says how many lines weren't written."""
        if self.left_out and self._write(f"{self.left_out} more such lines weren't written"):
            self.left_out = 0

    def say_once(self, text: str) -> None:
        """Writes a line of the bench itself, which comes once."""
        self.left_out += not self._write(text)

    @staticmethod
    def _write(text: str) -> bool:
        """Writes a line. Returns whether that could be done without waiting."""
        try:
            return not write_some(sys.stderr, f"tcrx-bench: {text}\n".encode(errors="backslashreplace"))
        except OSError:
            return False

    def handle_exceptions(self, loop: asyncio.AbstractEventLoop) -> None:
        """Has the event loop report an exception by a line, in place of a trace each time."""
        loop.set_exception_handler(lambda _, context: self.say(complaint_of(context)))
        logger = logging.getLogger("asyncio")
        logger.propagate = False
        logger.addHandler(Relay(self.say))


class Relay(logging.Handler):
    """Hands on what is logged, a line each."""

    def __init__(self, say: Callable[[str], None]) -> None:
        super().__init__()
        self.say = say

    def emit(self, record: logging.LogRecord) -> None:
        """Hands a message on."""
        self.say(" ".join(record.getMessage().split()))


def complaint_of(context: Mapping[str, Any]) -> str:
    """Returns a complaint of the event loop as a line: its message, the exception, and the place at which it was raised."""
    fault = context.get("exception")
    if isinstance(fault, OSError) and fault.errno in (errno.EMFILE, errno.ENFILE):
        return f"connections have to wait: {fault.strerror}"
    places = list(traceback.walk_tb(fault.__traceback__))[-1:] if fault else []
    where = "".join(f", at {Path(frame.f_code.co_filename).name}:{line}" for frame, line in places)
    return " ".join(f"{context.get('message')}: {fault!r}{where}".split())


class Port:
    """A port with its connections and what is counted there."""

    def __init__(self, place: Place, hub: Hub) -> None:
        self.place, self.hub = place, hub
        self.address = shown(place.host, place.port)
        self.open: Set[Connection] = set()
        self.counts: Dict[str, int] = {}
        self.bring: Callable[[bytes, str], object] = hub.spacecraft.bring
        """Called with each frame that arrives here, and from where."""
        self.update_counts: Callable[[], None] = lambda: None
        """Called before the counts are shown."""
        self.server: Optional[asyncio.AbstractServer] = None

    @property
    def number(self) -> int:
        """The number of the port."""
        return int(self.address.rpartition(":")[2])

    def count(self, what: str, more: int = 1) -> None:
        """Counts what happened here."""
        self.counts[what] = self.counts.get(what, 0) + more
        self.hub.spacecraft.changes += 1

    def note(self, source: str, text: str) -> None:
        """Says what happened with a peer, on standard error and among the notes of the page. The source names this port and the peer."""
        self.hub.notes.say(f"{source}: {text}")
        self.hub.spacecraft.note_text(source, text)

    def state(self) -> Dict[str, object]:
        """Returns the state of the port as values of JSON."""
        self.update_counts()
        return {"port": self.place.kind, "address": self.address, "open": len(self.open), **self.counts}

    def peers(self) -> List[Dict[str, object]]:
        """Returns the peers that are connected, the oldest connection first, as values of JSON."""
        now = time.monotonic()
        return [{"peer": each.peer, "seconds": round(now - each.since, 3), "octets": each.octets} for each in sorted(self.open, key=lambda each: each.since)]


class Hub:  # pylint: disable=too-many-instance-attributes  # what ports share
    """All ports with what they share."""

    # pylint: disable-next=too-many-arguments  # what ports share
    def __init__(self, spacecraft: Spacecraft, notes: Notes, most: int, patience: float, per_address: int = 0) -> None:
        self.spacecraft, self.notes, self.most, self.patience, self.per_address = spacecraft, notes, most, patience, per_address
        self.ports: List[Port] = []
        self.datagrams: List[Datagrams] = []
        self.broadcasts: List[Broadcast] = []
        self.loop = asyncio.get_running_loop()
        self.lingering: Dict[Connection, None] = {}
        """Those that were sent why they are closed, in that order."""
        self.closed = False
        """From then on nothing more is read. What was read before is still answered."""
        self.scheduler = Scheduler(self.loop, self.is_behind)
        self._sweep()

    def is_behind(self) -> bool:
        """Returns whether so much waits to be written to the readers of a port that frames have to wait, too."""
        return any(broadcast.size > HIGH_WATER for broadcast in self.broadcasts)

    def _sweep(self) -> None:
        """Checks the timeouts of each connection from time to time."""
        if not self.closed:
            for port in self.ports:
                for connection in list(port.open):
                    connection.check_timeouts()
            self.loop.call_later(min(1.0, self.patience / 4), self._sweep)

    async def listen(self, place: Place, made: Callable[[Port], Connection]) -> Port:
        """Listens for connections. Raises `OSError` where that can't be done."""
        port = Port(place, self)
        port.server = await self.loop.create_server(lambda: made(port), place.host, place.port)
        port.address = address_of(port.server.sockets[0])
        self.ports.append(port)
        return port

    def linger(self, connection: Connection) -> None:
        """Closes a connection once the other end had time to read why. Where too many wait for that, the oldest had its time."""
        if len(self.lingering) >= MOST_LINGERING:
            next(iter(self.lingering)).leave()
        self.lingering[connection] = None
        self.loop.call_later(LINGER, connection.leave)

    async def stop_listening(self) -> None:
        """Takes no more connections, and reads nothing more."""
        self.closed = True
        for port in self.ports:
            if port.server:
                port.server.close()
            for connection in list(port.open):
                connection.update_reading()
        while self.datagrams:
            self.datagrams.pop().close()

    async def close(self, seconds: float) -> None:
        """Closes all connections; one that doesn't read what is there for it is cut off after some seconds."""
        for broadcast in self.broadcasts:
            broadcast.flush()
        for port in self.ports:
            for connection in list(port.open):
                connection.finish()
        until = time.monotonic() + seconds
        while any(port.open for port in self.ports) and time.monotonic() < until:
            await asyncio.sleep(0.01)
        for port in self.ports:
            for connection in list(port.open):
                connection.transport.abort()
        await asyncio.sleep(0)


def address_of(given: socket.socket) -> str:
    """Returns the address to which a socket is bound."""
    host, port = given.getsockname()[:2]
    return shown(host, port)


class Connection(asyncio.BufferedProtocol):  # pylint: disable=too-many-instance-attributes  # what all kinds have
    """One connection. `welcome` says whether a text may be written to it before it is closed."""

    welcome = True
    transport: asyncio.Transport
    # What is read is passed on before anything else is read, so all have one buffer.
    room = bytearray(CHUNK)

    def __init__(self, port: Port) -> None:
        self.port, self.hub = port, port.hub
        self.peer, self.source, self.address = "", "", ""
        self.done = self.paused = False
        self.since, self.octets = time.monotonic(), 0
        """When it was made, and how many octets came."""

    def connection_made(self, transport: asyncio.BaseTransport) -> None:
        """Takes the connection, or turns it away."""
        self.transport = cast(asyncio.Transport, transport)
        name = transport.get_extra_info("peername") or ("?", 0)
        self.address, self.peer = plain(name[0]), shown(name[0], name[1])
        self.source = f"{self.port.place.kind} {self.peer}"
        if why := refusal_of(self.port, self.address):
            self._refuse(why)
        else:
            self.port.open.add(self)
            self.port.count("connections")
            for option in KEEPALIVE:
                transport.get_extra_info("socket").setsockopt(*option)
            self.opened()
            # After this call, as older versions of asyncio begin to read behind it.
            self.hub.loop.call_soon(self.update_reading)

    def _refuse(self, why: str) -> None:
        """Counts and closes a connection that isn't taken."""
        self.port.count("turned_away")
        self.turn_away(why)

    def opened(self) -> None:
        """Prepares a connection that was taken."""

    def get_buffer(self, sizehint: int) -> bytearray:
        """Returns the buffer into which octets are read."""
        return self.room

    def buffer_updated(self, nbytes: int) -> None:
        """Takes in this number of octets, which are in the buffer."""
        self.octets += nbytes
        self.data_received(bytes(self.room[:nbytes]))

    def data_received(self, data: bytes) -> None:
        """Takes in the octets that came. By default they are ignored, since some ports expect none."""

    def turn_away(self, why: str) -> None:
        """Says why the connection is closed, and closes it once the other end had time to read that."""
        if self.done:
            return
        self.done = True
        self.port.note(self.source, why)
        if not self.welcome:
            self.transport.abort()
            return
        self.transport.write(self.last_words(why))
        try:
            self.transport.write_eof()
        except OSError:
            # The other end is gone, and reads nothing.
            self.transport.abort()
            return
        # What still comes is read, as the text would be lost otherwise.
        self.hub.linger(self)

    def last_words(self, why: str) -> bytes:
        """Returns the text that is written before the connection is closed."""
        return f"tcrx-bench: {why}\n".encode("ascii", errors="replace")

    def finish(self) -> None:
        """Closes the connection once the other end has read what was written to it."""
        self.transport.close()

    def leave(self) -> None:
        """Closes the connection, where it isn't over."""
        self.hub.lingering.pop(self, None)
        self.transport.abort()

    def connection_lost(self, exc: Optional[Exception]) -> None:
        """Forgets the connection, which is over."""
        self.hub.lingering.pop(self, None)
        self.port.open.discard(self)
        self.hub.spacecraft.changes += 1

    def update_reading(self) -> None:
        """Pauses or resumes reading."""

    def check_timeouts(self) -> None:
        """Does what is due by now."""

    def pause_writing(self) -> None:
        """Notes that the other end doesn't read what was written."""
        self.paused = True

    def resume_writing(self) -> None:
        """Notes that the other end reads again."""
        self.paused = False


def set_reading(transport: asyncio.Transport, reads: bool) -> None:
    """Pauses or resumes the reading of a transport, unless it is closing."""
    if transport.is_closing() or transport.is_reading() == reads:
        return
    if reads:
        transport.resume_reading()
    else:
        transport.pause_reading()


class SendingConnection(Connection):
    """One that sends frames or lines, which are answered by turns. While it waits for its turn it reads nothing, so little of it waits."""

    def __init__(self, port: Port, queue: FairQueue) -> None:
        super().__init__(port)
        self.queue, self.wants_turn = queue, False

    def request_turn(self) -> None:
        """Asks for a turn."""
        if not self.wants_turn:
            self.hub.scheduler.serve_now(self.queue, self)

    def take_turn(self, has_time: Callable[[], bool]) -> None:
        """Has frames or lines answered, one at least, as long as there is time."""
        raise NotImplementedError

    def update_reading(self) -> None:
        set_reading(self.transport, not self.wants_turn and not self.hub.closed)


class FrameConnection(SendingConnection):
    """Raw frames, one after the other."""

    def __init__(self, port: Port, cutter: Cutter) -> None:
        super().__init__(port, port.hub.scheduler.frames)
        self.cutter = cutter
        self.begun: Optional[float] = None
        """Since when a frame has begun that isn't whole."""

    def data_received(self, data: bytes) -> None:
        """Keeps what came, and asks for a turn to bring the frames that are whole now."""
        if self.done:
            return
        self.cutter.kept += data
        self.request_turn()
        self.update_reading()

    def take_turn(self, has_time: Callable[[], bool]) -> None:
        self.wants_turn = False
        if self.done:
            return
        cutter, count, skipped = self.cutter, 0, self.cutter.skipped
        while not self.wants_turn:
            pieces = cutter.cut(AT_ONCE)
            for frame in filter(None, pieces):
                self.port.bring(frame, self.source)
                count += 1
            if len(pieces) < AT_ONCE:
                break
            self.wants_turn = not has_time()
        if count:
            self.port.count("frames", count)
        if count or not cutter.kept:
            self.begun = None
        if cutter.kept and self.begun is None:
            self.begun = time.monotonic()
        if cutter.skipped != skipped:
            self._note_skipped(cutter.skipped - skipped, "octets began no frame")
        if cutter.fault:
            self.port.count("turned_away" if cutter.fault == BROWSER else "faults")
            self.turn_away(cutter.fault)
        self.update_reading()

    def _note_skipped(self, count: int, why: str) -> None:
        self.port.count("skipped_octets", count)
        self.port.note(self.source, f"{count} octets skipped: {why}")

    def check_timeouts(self) -> None:
        """Gives up a frame that has begun and isn't whole after some time."""
        if self.begun is None or self.done or self.wants_turn or time.monotonic() - self.begun < self.hub.patience or self._has_more():
            return
        what = f"{len(self.cutter.kept)} octets of a frame, and no more within {self.hub.patience:g} seconds"
        self.port.count("faults")
        if not self.cutter.resync:
            self.turn_away(what)
            return
        self.begun = None
        skipped = self.cutter.skipped
        self.cutter.skip_begun()
        self._note_skipped(self.cutter.skipped - skipped, what)
        self.data_received(b"")

    def _has_more(self) -> bool:
        """Returns whether octets have come that weren't read yet, as the bench was busy with others."""
        looking = select.poll()
        looking.register(self.transport.get_extra_info("socket").fileno(), select.POLLIN)
        return bool(looking.poll(0))

    def connection_lost(self, exc: Optional[Exception]) -> None:
        """Notes a connection that ended within a frame, unless the bench is ending."""
        if self.cutter.kept and not self.done and not self.hub.closed:
            self.port.count("faults")
            self.port.note(self.source, f"the connection ended with {len(self.cutter.kept)} octets of a frame")
        super().connection_lost(exc)


class LineConnection(SendingConnection):
    """Lines, as `tclive` reads them; the answers go back."""

    def __init__(self, port: Port) -> None:
        super().__init__(port, port.hub.scheduler.lines)
        self.begun = b""
        self.lines: Deque[Optional[bytes]] = deque()
        """Lines that wait for their turn; None stands for one that is too long."""
        self.too_long = False
        self.ended = self.is_lost = False

    def data_received(self, data: bytes) -> None:
        """Keeps the lines that are whole, and asks for a turn to pass them on."""
        if self.done:
            return
        octets = self.begun + data
        if has_request(octets):
            self.port.count("turned_away")
            self.turn_away(BROWSER)
            return
        *lines, begun = octets.split(b"\n")
        for line in lines:
            self._keep(line)
        self.too_long = self.too_long or len(begun) > LONGEST_LINE
        self.begun = begun[:LONGEST_LINE + 1]
        self.update_reading()

    def _keep(self, line: bytes) -> None:
        """Keeps a whole line until its turn."""
        self.lines.append(None if self.too_long or len(line) > LONGEST_LINE else line)
        self.too_long = False

    def _may_order(self) -> bool:
        """Returns whether lines wait and can be carried out. They can't while the answers to others aren't read."""
        return bool(self.lines) and not self.paused and not self.done

    def take_turn(self, has_time: Callable[[], bool]) -> None:
        while self._may_order():
            self._order(self.lines.popleft())
            if not has_time():
                break
        self.wants_turn = self._may_order()
        if self.is_lost and not self.wants_turn:
            self.port.open.discard(self)
        self.update_reading()

    def _order(self, octets: Optional[bytes]) -> None:
        """Has a line carried out, unless it has neither an answer nor an effect. One that is too long is answered as such, whatever it says."""
        words = ["?" * (LONGEST_LINE + 1)] if octets is None else [word for word in WORDS.split(octets.decode("latin-1")) if word]
        if words and not words[0].startswith("#"):
            if octets is not None:
                self.port.count("lines")
            answer = self.hub.spacecraft.order(" ".join(words), self.source)
            if answer and not self.done and not self.transport.is_closing():
                self.transport.write(f"{answer}\n".encode("ascii", errors="replace"))

    def update_reading(self) -> None:
        """Reads no more lines while some wait, or while answers do; asks for a turn where one is wanted; closes at the end."""
        if self._may_order():
            self.request_turn()
        # One that was told why it is closed is read on, as that text would be lost otherwise.
        set_reading(self.transport, self.done or not (self.lines or self.paused or self.hub.closed))
        if self.ended and not self.lines and not self.transport.is_closing():
            self.transport.close()

    def eof_received(self) -> bool:
        """Keeps the last line, after which none comes. The answers to those that wait still go out."""
        if self.begun and not self.done:
            self._keep(self.begun)
            self.begun = b""
        self.ended = True
        self.hub.loop.call_soon(self.update_reading)
        return not self.done

    def finish(self) -> None:
        """Tells the other end if not all of its lines were answered."""
        if (left := len(self.lines)) and not self.done and not self.transport.is_closing():
            self.transport.write(self.last_words(f"lines of this connection that were left unanswered at the end: {left}"))
        super().finish()
        if self.is_lost:
            self.port.open.discard(self)

    def connection_lost(self, exc: Optional[Exception]) -> None:
        """Keeps the place at the port while lines of the connection wait for their turn, so that connections that were cut off don't pile up."""
        super().connection_lost(exc)
        self.is_lost = True
        if self.wants_turn:
            self.port.open.add(self)

    def pause_writing(self) -> None:
        super().pause_writing()
        self.update_reading()

    def resume_writing(self) -> None:
        super().resume_writing()
        self.update_reading()


class Reader(Connection):
    """One that reads CLCWs, packets or units. Where it is slow it loses the oldest of what waits."""

    welcome = False

    def __init__(self, port: Port) -> None:
        super().__init__(port)
        self.kept: Deque[bytes] = deque()
        """The pieces that wait while the other end doesn't read."""
        self.size, self.most = 0, MOST_WORDS if port.place.kind == "clcw-tcp" else MOST_KEPT

    def opened(self) -> None:
        """Makes the buffers small, so that output waits here, where the oldest can be left out."""
        self.transport.set_write_buffer_limits(0)
        if self.most == MOST_WORDS:
            self.transport.get_extra_info("socket").setsockopt(socket.SOL_SOCKET, socket.SO_SNDBUF, CLCW_BUFFER)

    def send(self, pieces: List[bytes], octets: bytes) -> None:
        """Writes pieces, which are these octets. If the other end doesn't read, they are kept, and the oldest that are kept are left out."""
        if self.transport.is_closing():
            return
        if not self.paused:
            self._write(octets, len(pieces))
            return
        self.kept.extend(pieces)
        self.size += len(octets)
        lost = 0
        while self.size > self.most:
            self.size -= len(self.kept.popleft())
            lost += 1
        if lost:
            self.port.count("lost", lost)

    def _write(self, octets: bytes, count: int) -> None:
        """Writes octets, which are this number of pieces."""
        self.port.count("sent", count)
        self.transport.write(octets)

    def _write_kept(self) -> None:
        """Writes what is kept, in one go."""
        if self.kept and not self.transport.is_closing():
            octets, count = b"".join(self.kept), len(self.kept)
            self.kept.clear()
            self.size = 0
            self._write(octets, count)

    def resume_writing(self) -> None:
        super().resume_writing()
        self._write_kept()

    def finish(self) -> None:
        """Writes what is kept before the connection is closed. So a slow reader that reads on gets the newest in the end."""
        self._write_kept()
        super().finish()

    def connection_lost(self, exc: Optional[Exception]) -> None:
        """Counts what is kept as lost."""
        if self.kept:
            self.port.count("lost", len(self.kept))
        super().connection_lost(exc)


class Broadcast:
    """Sends what goes out at a port to all of its readers, each piece behind the octets `front`. The pieces of a round of the event loop are
    joined, and written in turns."""

    def __init__(self, port: Port, front: bytes) -> None:
        self.port, self.front, self.wants_turn = port, front, False
        self.pieces: List[bytes] = []
        self.size = 0
        """What isn't written to any reader yet, and how many octets that are."""
        self.writes: Iterator[None] = iter(())
        port.hub.broadcasts.append(self)

    def send(self, octets: bytes) -> None:
        """Has a piece written to each reader, in a later round of the event loop."""
        if not self.port.open:
            return
        self.pieces.append(self.front + octets)
        self.size += len(octets)
        if not self.wants_turn:
            self.writes = self._write()
            self.port.hub.scheduler.enqueue(self.port.hub.scheduler.output, self)

    def take_turn(self, has_time: Callable[[], bool]) -> None:
        """Writes to some readers, one at least, as long as there is time."""
        # After an exception, what is sent next begins anew.
        self.wants_turn = False
        self.wants_turn = work_on(self.writes, has_time)

    def _write(self) -> Iterator[None]:
        """Writes to a reader at each step, until each has all pieces."""
        while self.pieces:
            pieces, self.pieces, self.size = self.pieces, [], 0
            octets = b"".join(pieces)
            for connection in list(self.port.open):
                cast(Reader, connection).send(pieces, octets)
                yield

    def flush(self) -> None:
        """Writes all pieces at once."""
        self.take_turn(lambda: True)


def all_senders(senders: List[Callable[[bytes], None]]) -> Callable[[bytes], None]:
    """Returns a function that calls each of these."""
    if len(senders) == 1:
        return senders[0]

    def send(octets: bytes) -> None:
        for each in senders:
            each(octets)
    return send


def parse_place(kind: str, word: str, default: Optional[str] = "127.0.0.1") -> Tuple[Place, bool]:
    """Returns the place that `[HOST:]PORT` names, and whether a host was named. Raises `ValueError` for any other word."""
    found = re.fullmatch(r"(?:(\[[^\]]+\]|[^:\[\]]+):)?(\d{1,5})", word)
    if found is None or int(found[2]) > 65535 or (default is None and found[1] is None):
        raise ValueError(word)
    return Place(kind, found[1].strip("[]") if found[1] else str(default), int(found[2]), []), found[1] is not None
