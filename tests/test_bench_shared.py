"""What several users of tcrx-bench get of it: whom a port takes and who gives up its place there, whose turn it is and how long a turn lasts,
whom the state shows, what a note says, and an end within --patience whatever goes on."""
from __future__ import annotations

import asyncio
import itertools
import json
import re
import time
from functools import partial
from typing import Callable, List, Set, Tuple
from unittest.mock import Mock, patch

import pytest
import tcrx.bench.main as tcrx_bench
from bench_parts import Bench, read_all, word_of
from client_parts import ONE, UNLOCK, cltu, frame, whole
from comparing import until
from tcrx.bench.admission import SILENT, plain
from tcrx.bench.octets import Cutter, begins_frame
from tcrx.bench.ports import AT_ONCE, HIGH_WATER, Broadcast, Connection, FrameConnection, Hub, LineConnection, Place, Port, Reader
from tcrx.bench.scheduler import FRAMES_TURN, LINES_TURN, OUTPUT_TURN, Scheduler
from tcrx.bench.spacecraft import Release, Spacecraft
from tcrx.lines import Lost

pytest_plugins = "bench_fixtures"  # pylint: disable=invalid-name  # pytest reads this name
Benches = Callable[..., Bench]


# --- Who is taken ---

def transport_of(address: str) -> Mock:
    """Returns the other end of a connection."""
    known = {"peername": (address, 9), "socket": Mock()}
    return Mock(**{"get_extra_info.side_effect": known.get, "is_closing.return_value": False})


def connected(port: Port, address: str = "192.0.2.7", age: float = 0.0, octets: int = 0) -> Connection:
    """Returns a connection that is `age` seconds old and has sent so many octets."""
    connection = Connection(port)
    connection.connection_made(transport_of(address))
    connection.since, connection.octets = time.monotonic() - age, octets
    return connection


def hub_of(most: int, per_address: int = 0) -> Hub:
    """Returns what ports share, without a receiver."""
    return Hub(Mock(changes=0), Mock(), most, 60.0, per_address)


def places(kind: str, ages: List[Tuple[float, int]]) -> Tuple[List[bool], bool, List[str]]:
    """Has one more connection come to a port that connections with these ages and octets fill, while the clock stands still. Returns which of them
    have their places then, whether the new one has one, and what is noted."""
    async def come() -> Tuple[List[bool], bool, List[str]]:
        port = Port(Place(kind, "127.0.0.1", 0), hub_of(len(ages)))
        old = [connected(port, age=age, octets=octets) for age, octets in ages]
        new = connected(port)
        notes = [call.args[0].partition(": ")[2] for call in port.hub.notes.say.call_args_list]  # type: ignore[attr-defined]
        return [each in port.open for each in old], new in port.open, notes
    with patch.object(time, "monotonic", return_value=1000.0):
        return asyncio.run(come())


AGES = [(300.0, 9), (100.0, 0), (200.0, 0), (150.0, 3)]
REFUSED = [True] * 4, False, ["there are 4 connections, and no more are taken"]


@pytest.mark.parametrize("kind", ["tc-tcp", "lines"])
def test_the_oldest_silent_connection_gives_up_its_place(kind: str) -> None:
    """A port that takes frames or lines is full."""
    note = "nothing came in 200 seconds, and the port is full: a new connection takes this place"
    assert places(kind, AGES) == ([True, True, False, True], True, [note])


@pytest.mark.parametrize("kind", ["tc-tcp", "lines"])
@pytest.mark.parametrize("ages", [pytest.param([(SILENT, 0)] * 4, id="silent for a minute"),
                                  pytest.param([(900.0, 1)] * 4, id="not silent")])
def test_other_connections_keep_their_places(kind: str, ages: List[Tuple[float, int]]) -> None:
    """A port that takes frames or lines is full."""
    assert places(kind, ages) == REFUSED


@pytest.mark.parametrize("kind", ["clcw-tcp", "packets-tcp", "units-tcp", "tm-tcp", "http"])
def test_a_port_that_only_sends_keeps_silent_connections(kind: str) -> None:
    """Its peers are silent by design."""
    assert places(kind, AGES) == REFUSED


def test_connections_per_address(bench: Benches) -> None:
    """Each address may have so many connections at each port."""
    shared = bench("--lines", "0", "--tc-tcp", "0", "--http", "0", "--connections-per-address", "2", "--connections", "4")
    links = [shared.connect("lines") for _ in range(2)]
    with shared.connect("lines") as third:
        assert read_all(third) == b"tcrx-bench: this address has 2 connections, and no more are taken\n"
    with shared.connect("lines", "127.0.0.2") as other, shared.connect("tc-tcp"):
        other.sendall(b"clcw 1\n")
        assert other.recv(99).decode() == f"clcw 1 {word_of(1, 0, 0, 0)}\n"
    links.pop().close()
    # The address has a place again.
    assert until(lambda: len(shared.ask("clcw 1\n")) == 1 and "clcw" in shared.ask("clcw 1\n")[0])
    links.pop().close()
    assert shared.end()[0] == 0


@pytest.mark.parametrize("address, wanted", [("::ffff:192.0.2.7", "192.0.2.7"), ("192.0.2.7", "192.0.2.7"), ("fe80::1%eth0", "fe80::1"), ("?", "?")])
def test_the_plain_form_of_an_address(address: str, wanted: str) -> None:
    """It has no zone, and an IPv4 address isn't mapped to IPv6."""
    assert plain(address) == wanted


@pytest.mark.parametrize("per_address, wanted", [(0, 7), (1, 2), (4, 5)])
def test_two_forms_of_one_address_count_together(per_address: int, wanted: int) -> None:
    """Six connections come from one address, and one from another."""
    async def taken() -> int:
        port = Port(Place("lines", "127.0.0.1", 0), hub_of(9, per_address))
        for address in ["192.0.2.7", "::ffff:192.0.2.7"] * 3 + ["192.0.2.8"]:
            connected(port, address)
        return len(port.open)
    assert asyncio.run(taken()) == wanted


def test_the_state_shows_who_holds_each_port(bench: Benches) -> None:
    """GET /state shows them. The events of the page and the figures for Prometheus don't."""
    shared = bench("--lines", "0", "--tc-tcp", "0", "--tc-udp", "0", "--http", "0")
    with shared.connect("tc-tcp", "127.0.0.2") as silent, shared.connect("tc-tcp") as sender:
        sender.sendall(frame(0, whole(0, ONE)))
        until(lambda: shared.state()["frames"] == 1)
        held = shared.port("tc-tcp")["peers"]
        names = [f"127.0.0.2:{silent.getsockname()[1]}", f"127.0.0.1:{sender.getsockname()[1]}"]
        assert [(peer["peer"], peer["octets"]) for peer in held] == [(names[0], 0), (names[1], 13)]
        assert held[0]["seconds"] >= held[1]["seconds"] >= 0
        assert shared.port("lines")["peers"] == [] and "peers" not in shared.port("tc-udp")
        assert "peers" not in shared.get("/metrics")[1]
        with shared.connect("http") as page:
            page.sendall(b"GET /events HTTP/1.1\r\n\r\n")
            with page.makefile("rb") as events:
                shown = next(json.loads(line[6:]) for line in events if line.startswith(b"data: "))
        assert [set(port) & {"peers"} for port in shown["ports"]] == [set()] * 4
    assert shared.end()[0] == 0


# --- Whose turn it is ---

class Clock:
    """A clock that shows how long the work took that was done so far."""

    def __init__(self) -> None:
        self.now = 0.0

    def work(self, seconds: float) -> None:
        """Lets so much time pass."""
        self.now += seconds

    def hub(self, count: int = 999) -> Hub:
        """Returns what ports share, by this clock. Each port has so many places."""
        hub = hub_of(count)
        hub.scheduler = Scheduler(Mock(**{"time.side_effect": lambda: self.now, "call_soon": hub.loop.call_soon}), hub.is_behind)
        return hub


# The number of frames, lines or writes in a turn. Each takes a little more than this part of a turn.
IN_TURN = 64
FRAME, LINE, WRITE = (seconds / (IN_TURN - 0.5) for seconds in (FRAMES_TURN, LINES_TURN, OUTPUT_TURN))


def sender_to(port: Port, frames: int) -> FrameConnection:
    """Returns a connection that has sent so many frames."""
    link = FrameConnection(port, Cutter(42, 1, False))
    link.connection_made(transport_of("192.0.2.7"))
    link.data_received(UNLOCK * frames)
    return link


def asker_of(hub: Hub, lines: int, seconds: float, came: List[str], clock: Clock) -> LineConnection:
    """Returns a connection that has sent so many lines, each of which takes some time."""
    def order(*_: object) -> None:
        came.append("lines")
        clock.work(seconds)
    hub.spacecraft.order.side_effect = order  # type: ignore[attr-defined]
    link = LineConnection(Port(Place("lines", "127.0.0.1", 0), hub))
    link.connection_made(transport_of("192.0.2.8"))
    link.data_received(b"clcw 1\n" * lines)
    return link


def brought(senders: int, lines: int, rounds: int) -> List[Tuple[str, int]]:
    """Returns who had how many frames or lines answered in a row, of senders with 250 frames each and one connection with so many lines."""
    async def bring_all() -> List[str]:
        came: List[str] = []
        clock = Clock()
        hub = clock.hub()
        for number in range(senders):
            port = Port(Place("tc-tcp", "127.0.0.1", 0), hub)

            def bring(*_: object, name: str = f"sender {number}") -> None:
                came.append(name)
                clock.work(FRAME)
            port.bring = bring
            sender_to(port, 250)
        asker_of(hub, lines, LINE, came, clock)
        for _ in range(rounds):
            await asyncio.sleep(0)
        return came
    return [(source, len(list(group))) for source, group in itertools.groupby(asyncio.run(bring_all()))]


def test_lines_have_a_turn_behind_each_turn_of_frames() -> None:
    """Senders have their turns in the order in which they requested them. Sender 0 had its first turn before the others came."""
    each = IN_TURN
    wanted = [("sender 0", each), ("lines", each), ("sender 0", each), ("lines", each), ("sender 1", each), ("lines", 22), ("sender 2", each),
              ("sender 0", each), ("sender 1", each)]
    assert brought(3, 150, 9)[:9] == wanted


def test_a_line_waits_for_one_turn_beside_64_senders() -> None:
    """The turn is that of the first sender."""
    assert brought(64, 1, 1)[:2] == [("sender 0", IN_TURN), ("lines", 1)]


def test_the_last_turn_of_three_senders() -> None:
    """After three turns each sender has 58 frames left. When sender 0 has ended, its round has time for AT_ONCE frames of sender 1."""
    found = brought(3, 0, 99)
    assert sum(count for _, count in found) == 750
    assert found[-1] == ("sender 1", 250 - 3 * IN_TURN - AT_ONCE)


def test_forty_senders_of_one_frame_have_turns_in_one_round() -> None:
    """All frames are answered in it."""
    async def count() -> int:
        came: List[bytes] = []
        port = Port(Place("tc-tcp", "127.0.0.1", 0), Clock().hub())
        port.bring = lambda octets, source: came.append(octets)
        for _ in range(40):
            sender_to(port, 1)
        return len(came)
    assert asyncio.run(count()) == 40


async def came_of(readers: int, frames: int, size: int, line: float) -> Tuple[List[str], int, Set[bytes]]:
    """Has a sender of so many frames beside 250 lines, each of which takes `line` seconds. For each frame all readers are sent `size` octets, and
    each third reader doesn't read. Returns the frames, lines and writes to readers in their order, the most pieces that waited to be written,
    and what was written to the readers that read."""
    came: List[str] = []
    clock = Clock()
    hub = clock.hub()
    outlet, port = Port(Place("packets-tcp", "127.0.0.1", 0), hub), Port(Place("tc-tcp", "127.0.0.1", 0), hub)
    links = [Reader(outlet) for _ in range(readers)]
    written: List[List[bytes]] = [[] for _ in links]
    broadcast, waited = Broadcast(outlet, b""), [0]

    def write(octets: bytes, whole_output: List[bytes]) -> None:
        came.append("writes")
        clock.work(WRITE)
        whole_output.append(octets)

    def bring(*_: object) -> None:
        broadcast.send(bytes([came.count("frames") % 256]) * size)
        came.append("frames")
        clock.work(4 * FRAME)
        waited[0] = max(waited[0], len(broadcast.pieces))
    for place, link in enumerate(links):
        link.connection_made(transport_of("192.0.2.9"))
        link.transport.write.side_effect = partial(write, whole_output=written[place])  # type: ignore[attr-defined]
        link.paused = place % 3 == 2
    port.bring = bring
    sender_to(port, frames)
    asker_of(hub, 250, line, came, clock)
    while hub.scheduler.is_due:
        await asyncio.sleep(0)
    return came, waited[0], {b"".join(octets) for place, octets in enumerate(written) if place % 3 < 2}


@pytest.mark.parametrize("readers, reading", [(3, 2), (90, 60), (900, 600)])
def test_a_turn_is_as_long_beside_any_number_of_readers(readers: int, reading: int) -> None:
    """A frame takes as long as four did before. Each reader gets all that is sent, in order."""
    came, _, written = asyncio.run(came_of(readers, 250, 4, LINES_TURN))
    turns = [part.split() for part in " ".join(came).split("lines")]
    assert max(turn.count("frames") for turn in turns) == IN_TURN // 4
    assert max(turn.count("writes") for turn in turns) == min(reading, IN_TURN)
    assert written == {b"".join(bytes([number]) * 4 for number in range(250))}


def test_frames_wait_while_output_is_behind() -> None:
    """While more than HIGH_WATER octets wait to be written to the readers of a port, no frame is answered, and one line in a round. A turn of frames
    leads to more octets than may wait."""
    came, most, written = asyncio.run(came_of(900, 100, HIGH_WATER // 8, LINE))
    assert most == IN_TURN // 4
    rows = [(what, len(list(group))) for what, group in itertools.groupby(came)]
    assert {count for (before, _), (what, count) in zip(rows, rows[1:]) if (before, what) == ("writes", "lines")} == {1}
    assert {len(octets) for octets in written} == {100 * HIGH_WATER // 8}


@pytest.mark.parametrize("rounds, wanted", [
    pytest.param(0, (True, False, IN_TURN, False), id="its lines wait"),
    pytest.param(9, (False, True, 2 * IN_TURN + 9, False), id="its lines are carried out")])
def test_a_connection_that_is_cut_off_keeps_its_place_while_its_lines_wait(rounds: int, wanted: Tuple[bool, bool, int, bool]) -> None:
    """So no more connections wait than the port takes. Compared are whether it has its place, whether a new one is taken, how many of its lines were
    carried out, and whether it has its place when it is finished."""
    async def cut_off() -> Tuple[bool, bool, int, bool]:
        came: List[str] = []
        clock = Clock()
        link = asker_of(clock.hub(1), 2 * IN_TURN + 9, LINE, came, clock)
        port = link.port
        link.connection_lost(None)
        for _ in range(rounds):
            await asyncio.sleep(0)
        has_place, is_taken, count = link in port.open, connected(port) in port.open, len(came)
        link.finish()
        return has_place, is_taken, count, link in port.open
    assert asyncio.run(cut_off()) == wanted


@pytest.mark.parametrize("lines", [pytest.param(2 * IN_TURN, id="lines wait behind the first turn"), pytest.param(IN_TURN, id="no line waits")])
def test_no_lines_are_carried_out_while_their_answers_are_not_read(lines: int) -> None:
    """Nor are more of them read. Once the answers are read, the other lines are carried out."""
    async def seen() -> List[Tuple[int, str]]:
        came: List[str] = []
        clock, found = Clock(), []
        link = asker_of(clock.hub(), lines, LINE, came, clock)
        for change in (link.pause_writing, link.resume_writing):
            change()
            for _ in range(9):
                await asyncio.sleep(0)
            calls = [call[0] for call in link.transport.method_calls]  # type: ignore[attr-defined]
            found.append((len(came), [name for name in calls if "_reading" in name[2:]][-1]))
        return found
    assert asyncio.run(seen()) == [(IN_TURN, "pause_reading"), (lines, "resume_reading")]


# --- What is noted ---

def test_cltus_with_too_many_frames_are_noted(bench: Benches) -> None:
    """A note names its port once, and --cltu-frames if the octets that are left out begin with a frame."""
    shared = bench("--tc-udp", "0", "--tc-tcp", "0", "--http", "0", "--period", "0", "--cltu", "detect")
    octets = frame(0, whole(0, ONE), bypass=1)
    carried = [octets * 2, octets + b"\x55" * 30, octets + frame(0, whole(0, ONE), scid=43), octets + octets[:6]]
    for count, each in enumerate(carried, 1):
        shared.datagram(cltu(each))
        assert until(lambda: shared.state()["cltu"]["overfull_cltus"] == count), count  # pylint: disable=cell-var-from-loop
    notes = shared.state()["notes"]
    assert [note["text"].partition(": ")[2] for note in notes] == ["see --cltu-frames"] + [""] * 3
    assert [note["source"] for note in notes if not re.fullmatch(r"tc-udp 127\.0\.0\.1:\d+", note["source"])] == []
    assert [line.count("tc-udp") for line in shared.end()[2].splitlines()] == [1] * 4


LONG = frame(0, bytes(range(1, 250)), fecf=True)
WRONG_SUM = LONG[:-1] + bytes([LONG[-1] ^ 1])


@pytest.mark.parametrize("octets, scid, fecf, wanted", [
    pytest.param(LONG, 42, True, True, id="frame"), pytest.param(LONG + b"x", 42, True, True, id="frame and an octet"),
    pytest.param(WRONG_SUM, 42, True, False, id="wrong sum"), pytest.param(WRONG_SUM, 42, False, True, id="wrong sum that isn't one"),
    pytest.param(LONG, 43, True, False, id="another spacecraft"), pytest.param(LONG[:-1], 42, False, False, id="an octet is missing"),
    pytest.param(LONG[:5], 42, False, False, id="header"), pytest.param(b"\x40" + LONG[1:], 42, False, False, id="another version")])
def test_whether_octets_begin_with_a_frame(octets: bytes, scid: int, fecf: bool, wanted: bool) -> None:
    """So a frame is told from noise behind the last frame of a CLTU."""
    assert begins_frame(octets, scid, fecf) == wanted


# --- The end ---

class Endless:  # pylint: disable=too-few-public-methods  # it is what the scheduler calls
    """A source of frames that never has them all answered."""

    wants_turn = True

    def take_turn(self, has_time: Callable[[], bool]) -> None:
        """Does nothing."""


def end_of(patience: float, *sources: Endless) -> Tuple[int, float, List[str]]:
    """Returns how many sources are left unanswered at the end of a bench, how many seconds that takes, and what is said."""
    async def answer_last() -> Tuple[int, float, List[str]]:
        hub, notes = hub_of(9), Mock()
        for source in sources:
            hub.scheduler.enqueue(hub.scheduler.frames, source)
        before = time.monotonic()
        bench = Mock(hub=hub, notes=notes, until=before + patience, options=Mock(patience=patience), **{"over.done.return_value": False})
        left = await tcrx_bench.Bench._answer_last(bench)  # pylint: disable=protected-access  # it is called at the end of a bench
        return left, time.monotonic() - before, [call.args[0] for call in notes.say_once.call_args_list]
    return asyncio.run(answer_last())


def test_an_end_at_which_nothing_waits() -> None:
    """Nothing is left, and nothing is said, although --patience is long."""
    left, _, said = end_of(1000.0)
    assert (left, said) == (0, [])


def test_an_end_at_which_sources_never_end() -> None:
    """It takes as long as --patience, and says what is left."""
    left, seconds, said = end_of(1.0, Endless(), Endless())
    assert (left, said) == (2, ["left unanswered at the end: what came over 2 connections and sockets"])
    assert 0.75 < seconds < 5


def test_a_receiver_without_memory_ends_the_bench() -> None:
    """Memory ran out at an answer, so the receiver gives no more answers. The bench fails with this reason."""
    why: List[str] = []
    session = Mock(**{"answer.side_effect": Lost("memory ran out at an answer, which is lost")})
    spacecraft = Spacecraft(session, Mock(), 42, False, Release.AUTO, 0.0)
    spacecraft.failed = why.append
    with pytest.raises(Lost):
        spacecraft.bring(frame(0, whole(0, ONE)), "tc-udp")
    assert why == ["the receiver has ended: memory ran out at an answer, which is lost"]
