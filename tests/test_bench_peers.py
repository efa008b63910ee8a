"""What tcrx-bench does with peers that it must withstand: peers that send without an end, beside others and while it is asked to end, browsers that a
page of another site has send something, peers that are gone before they are answered, more connections than it may open files, and addresses and
names that aren't allowed."""
from __future__ import annotations

import asyncio
import os
import random
import re
import signal
import socket
import threading
import time
from contextlib import closing, contextmanager
from functools import partial
from ipaddress import ip_network
from pathlib import Path
from typing import Callable, Iterator, List, Set, Tuple
from unittest.mock import Mock

import pytest
from bench_parts import SETUP, Bench, is_replayed, numbered, read_all, read_count, read_on, replay, word_of
from client_parts import ONE, UNLOCK, cltu, frame, whole
from comparing import until
from senders import begin
from tcrx.bench.admission import MOST_LINGERING
from tcrx.bench.journal import MOST_LINES
from tcrx.bench.octets import BROWSER, METHODS, Cutter
from tcrx.bench.options import network_of, read_words
from tcrx.bench.ports import CHUNK, LONGEST_LINE, Connection, FrameConnection, Hub, LineConnection, Place, Port
from tcrx.bench.web import allowed_host, names_of

pytest_plugins = "bench_fixtures"  # pylint: disable=invalid-name  # pytest reads this name
Benches = Callable[..., Bench]
# The number of frames that are answered before a bench is asked to end.
MANY = 3_000
# The number of peers that are gone, and the number of connections where fewer files may be open.
GONE, OVER = 500, 120
# The note on a log that can't be written any further.
FULL = "tcrx-bench: the log can't be written: File too large; it ends here, and the bench goes on\n"
# The number of turns of each endless sender before another one is answered.
TURNS = 4
FIRST_CLCW = f"clcw 1 {word_of(1, 0, 0, 0)}"


# --- The end ---

def send_on(link: socket.socket, octets: bytes = b"".join(frame(number, whole(0, numbered(5, number))) for number in range(256))) -> None:
    """Sends these octets, or frames in sequence, again and again as fast as they are taken, until the other end closes the connection."""
    try:
        while True:
            link.sendall(octets)
    except OSError:
        pass


@pytest.mark.attack(240)
@pytest.mark.parametrize("name, words, most", [
    pytest.param("SIGINT", (), 0, id="SIGINT"), pytest.param("SIGTERM", ("--period", "0.01"), 0, id="SIGTERM"),
    pytest.param("SIGTERM", (), 64, id="log of 64 KiB")])
def test_it_ends_while_a_sender_never_stops(bench: Benches, name: str, words: Tuple[str, ...], most: int) -> None:
    """It answers what has arrived, and ends within --patience with its report, also if its log may have only `most` kibibytes."""
    loaded = bench("--tc-tcp", "0", "--packets-tcp", "0", "--clcw-tcp", "0", "--http", "0", *words, limit=f"-f {most or 'unlimited'}")
    packets = bytearray()
    with loaded.connect("packets-tcp") as one, loaded.connect("clcw-tcp") as other, loaded.connect("tc-tcp") as sender:
        assert until(lambda: loaded.port("packets-tcp")["open"] == loaded.port("clcw-tcp")["open"] == 1)
        threads = [begin(read_on, one, packets), begin(read_on, other, bytearray()), begin(send_on, sender)]
        assert until(lambda: loaded.state()["frames"] > MANY)
        begun = time.monotonic()
        status, printed, error = loaded.end(signal.Signals[name])
        assert time.monotonic() - begun < 10
        for thread in threads:
            thread.join()
    assert (status, error) == ((1, FULL) if most else (0, ""))
    frames = len(packets) // 7
    assert frames > MANY and packets == b"".join(numbered(5, number % 256) for number in range(frames))
    # Each frame and release and take is an event.
    assert printed == f"final 1 {word_of(1, 0, 0, frames % 256)} events {3 * frames} buffered 0\nqueue 1 5 0\n"
    (has_whole_lines if most else has_all)(loaded, most or frames)


def has_all(loaded: Bench, frames: int) -> None:
    """Checks that the log has so many frames and the report."""
    assert len(re.findall(b"^frame ", loaded.log.read_bytes(), re.M)) == frames
    is_replayed(loaded, "under load")


def has_whole_lines(loaded: Bench, most: int) -> None:
    """Checks that the log has whole lines in so many kibibytes, and no report."""
    log = loaded.log.read_bytes()
    assert most << 9 < len(log) <= most << 10 and log.endswith(b"\n")
    ran = replay(loaded)
    assert ran.returncode == 0 and ran.stdout.endswith(" answers are those of the log, which has no final report\n")


def seconds_to_end(idle: Bench) -> float:
    """Returns how many seconds the end takes of a bench that nobody sends to, and that makes CLCWs of its own."""
    octets = bytearray()
    with idle.connect("clcw-tcp") as link:
        reader = begin(read_on, link, octets)
        assert until(lambda: len(octets) >= 8)
        begun = time.monotonic()
        assert idle.end() == (0, f"final 1 {word_of(1, 0, 0, 0)} events 0 buffered 0\nqueue 1 5 0\n", "")
        seconds = time.monotonic() - begun
        reader.join()
    return seconds


@pytest.mark.parametrize("period", ["1", "0.01", "0.000001"])
def test_an_idle_bench_ends_within_a_second(bench: Benches, period: str) -> None:
    """However often it makes CLCWs of its own. Other work on the machine may delay two tries of three."""
    assert any(seconds_to_end(bench("--clcw-tcp", "0", "--tc-tcp", "0", "--period", period)) < 1 for _ in range(3))


def refuses(ending: Bench, kind: str) -> bool:
    """Returns whether a port takes no connections."""
    try:
        ending.connect(kind).close()
    except ConnectionRefusedError:
        return True
    return False


def test_a_second_signal_ends_it_at_once(bench: Benches) -> None:
    """Nobody reads its report, which is longer than a pipe has room for. Meanwhile it takes no connections."""
    setup = "".join(f"channel {vcid} 10 8 0\n" + "".join(f"queue {vcid} {apid} 1\n" for apid in range(2047)) for vcid in range(4))
    ending = bench("--tc-tcp", "0", "--lines", "0", "--http", "0", "--clcw-tcp", "0", "--period", "0", "--patience", "600", setup=setup)
    ending.state()
    ending.child.send_signal(signal.SIGTERM)
    for kind in ending.ports:
        assert until(partial(refuses, ending, kind)), kind
    until(lambda: b"# end" in ending.log.read_bytes())
    assert ending.child.poll() is None
    ending.child.send_signal(signal.SIGTERM)
    # Only then is the report read.
    assert ending.child.wait(10) == 1
    _, printed, error = ending.ended()
    assert printed.startswith("final 0 ") and "final 3 " not in printed
    assert error == "tcrx-bench: interrupted twice\ntcrx-bench: the final report can't be written\n"


# --- Many at one port ---

@contextmanager
def held(stopped: Bench) -> Iterator[None]:
    """Stops the bench meanwhile, so that all that is sent to it waits there when it goes on."""
    state = Path(f"/proc/{stopped.child.pid}/stat")
    stopped.child.send_signal(signal.SIGSTOP)
    until(lambda: state.read_text(encoding="ascii").rpartition(") ")[2][0] == "T")
    try:
        yield
    finally:
        stopped.child.send_signal(signal.SIGCONT)


class Beside:
    """A bench beside endless senders, each of which has so many frames in a turn, and other connections to the bench."""

    def __init__(self, shared: Bench, senders: int, octets: bytes, each: int) -> None:
        self.shared = shared
        # Some of the frames before may not be in the file yet. Each has at least five of the lines that wait to be written.
        self.most = TURNS * senders * each + MOST_LINES // 5
        self.links = [shared.connect("tc-tcp") for _ in range(senders + 1)]
        self.packets, self.lines = shared.connect("packets-tcp"), shared.connect("lines")
        self.came, self.answers = bytearray(), bytearray()
        self.threads = [begin(send_on, link, octets * (1 + 65536 // len(octets))) for link in self.links[1:]]
        self.threads += [begin(read_on, self.packets, self.came), begin(read_on, self.lines, self.answers)]

    def comes(self, name: str, log: Path, send: Callable[[], object], is_there: Callable[[], object], *frames: bytes) -> None:
        """Sends something while the bench is stopped. It has to come behind few frames of others by the log: those before these frames, or all of
        them if the log ends with it."""
        with held(self.shared):
            start = log.stat().st_size
            send()
        assert until(is_there), f"{name}: {self.answers!r} {self.came!r}"

        def logged() -> bytes:
            with open(log, "rb") as file:
                file.seek(start)
                return file.read()
        assert until(lambda: all(each in logged() for each in frames)), name
        octets = logged()
        before = octets[:max((octets.find(each) for each in frames), default=len(octets))].count(b"\nframe ")
        assert before <= self.most, name

    def close(self) -> None:
        """Ends the bench and all connections."""
        self.shared.child.kill()
        self.shared.ended()
        for thread in self.threads:
            thread.join()
        for link in (*self.links, self.packets, self.lines):
            link.close()


SHORTEST, LONGEST = (frame(0, b"\xc0" + bytes(count), bypass=1) for count in (0, 1018))


@pytest.mark.attack(240)
# Behind the octets is how many of them are counted in one turn, at most.
@pytest.mark.parametrize("senders, octets, each, words", [
    pytest.param(1, SHORTEST, CHUNK // 6, (), id="shortest frames"), pytest.param(2, LONGEST, CHUNK // 1024 + 1, (), id="longest frames"),
    pytest.param(8, UNLOCK, CHUNK // 7, (), id="Unlock"), pytest.param(4, cltu(SHORTEST), CHUNK // 18, ("--cltu", "correct"), id="CLTUs"),
    pytest.param(8, random.Random(3).randbytes(CHUNK), CHUNK // 256, ("--cltu", "correct"), id="noise")])
def test_others_have_their_turns_beside_endless_senders(bench: Benches, senders: int, octets: bytes, each: int, words: Tuple[str, ...]) -> None:
    """A line, a frame in pieces, a datagram and a receiver begun anew are answered before each sender had TURNS turns, with what was there
    already."""
    shared = bench("--tc-tcp", "0", "--tc-udp", "0", "--lines", "0", "--packets-tcp", "0", "--http", "0", "--period", "0", *words,
                   setup=SETUP + "channel 2 10 8 0\nqueue 2 6 16\n")
    with closing(Beside(shared, senders, octets, each)) as beside:
        assert until(lambda: shared.port("tc-tcp").get("cltus" if words else "frames", 0) > 4 * each)
        for receiver in (1, 2):
            own = [frame(0, whole(0, numbered(6, 2 * receiver + by_udp)), channel=2, bypass=1) for by_udp in (0, 1)]
            sent = [cltu(octets) if words else octets for octets in own]
            see_receiver(beside, receiver, sent, [b"\nframe " + octets.hex().encode() for octets in own])
        assert sorted(beside.came[6::7]) == [2, 3, 4, 5]
        assert shared.port("tc-tcp")["open"] == senders + 1


def see_receiver(beside: Beside, receiver: int, sent: List[bytes], logged: List[bytes]) -> None:
    """Has a receiver, by its number, get a line, the rest of a frame, a datagram, and the line that begins the receiver anew."""
    shared, link = beside.shared, beside.links[0]
    log = shared.log if receiver == 1 else Path(f"{shared.log}.{receiver}")
    link.sendall(sent[0][:9])
    beside.comes("a line", log, partial(beside.lines.sendall, b"report 2\n"),
                 lambda: beside.answers.count(b"report 2 state open vr 0 ") == receiver, b"\n#> report 2\n")

    def send_both() -> None:
        link.sendall(sent[0][9:])
        shared.datagram(sent[1])
    beside.comes("packets", log, send_both, lambda: len(beside.came) == 14 * receiver, *logged)
    beside.comes("a receiver anew", log, partial(beside.lines.sendall, b"anew\n"), lambda: b"anew %d\n" % (receiver + 1) in beside.answers)


@pytest.mark.parametrize("rest, is_closed", [pytest.param(b"", True, id="nothing"), pytest.param(b"x", False, id="an octet")])
def test_a_frame_that_is_not_whole_in_time_closes_its_connection(rest: bytes, is_closed: bool) -> None:
    """It doesn't if its rest waits unread."""
    async def look() -> bool:
        theirs, ours = socket.socketpair()
        with theirs, ours:
            connection = FrameConnection(Port(Place("tc-tcp", "127.0.0.1", 0), Hub(Mock(changes=0), Mock(), 1, 60.0)), Cutter(42, 1, False))
            connection.transport = Mock(**{"get_extra_info.return_value": ours})
            connection.data_received(UNLOCK[:5])
            connection.begun = time.monotonic() - 61
            theirs.send(rest)
            connection.check_timeouts()
            return connection.done
    assert asyncio.run(look()) == is_closed


@pytest.mark.attack(240)
def test_a_flood_of_datagrams_holds_up_nobody(bench: Benches) -> None:
    """Datagrams come faster than they are answered. What comes over TCP doesn't wait behind all of them, and each is counted."""
    flooded = bench("--tc-tcp", "0", "--tc-udp", "0", "--lines", "0", "--http", "0", "--period", "0")
    sent, enough = [0], threading.Event()

    def flood() -> None:
        with socket.socket(socket.AF_INET, socket.SOCK_DGRAM) as link:
            link.connect(("127.0.0.1", flooded.ports["tc-udp"]))
            while not enough.is_set():
                sent[0] += sum(link.send(b"x") for _ in range(20))
    thread = begin(flood)
    try:
        assert until(lambda: flooded.port("tc-udp").get("lost", 0) > 0)
        before = flooded.state()["frames"]
        with flooded.connect("tc-tcp") as sender, flooded.connect("lines") as lines, lines.makefile("rb") as answers:
            sender.sendall(frame(0, whole(0, ONE)))
            lines.sendall(b"report 1\n")
            assert answers.readline().startswith(b"report 1 state open vr")
    finally:
        enough.set()
        thread.join()
    assert until(lambda: sum(flooded.port("tc-udp")[each] for each in ("frames", "lost")) == sent[0]), (sent, flooded.port("tc-udp"))
    assert flooded.end()[::2] == (0, "")
    log = flooded.log.read_text(encoding="ascii").split("\n")
    for what in ("#> report 1", "#= frame 1 E1 accepted 1 queued 0 dropped 0 rest 0"):
        assert sum(line == "#= refused short" for line in log[:log.index(what)]) - before < 6000, what


def test_connections_are_looked_after(bench: Benches) -> None:
    """A timer of a minute keeps each connection alive, as the kernel shows it."""
    kept = bench("--tc-tcp", "0", "--lines", "0", "--http", "0", "--period", "0")
    ports = {f"0100007F:{port:04X}": kind for kind, port in kept.ports.items()}

    def are_kept_alive() -> bool:
        rows = [line.split() for line in Path("/proc/net/tcp").read_text(encoding="ascii").split("\n")[1:-1]]
        # The addresses, the state (1: there is a connection), the timer (2: it keeps alive) and when it runs out.
        timers = [(ports[row[1]], row[5][:2], int(row[5][3:], 16) / os.sysconf("SC_CLK_TCK")) for row in rows if row[3] == "01" and row[1] in ports]
        return {kind for kind, _, _ in timers} >= {"lines", "tc-tcp"} and all(timer == "02" and left <= 60 for _, timer, left in timers)
    with kept.connect("tc-tcp"), kept.connect("lines"):
        assert until(are_kept_alive)


@pytest.mark.parametrize("length, wanted", [pytest.param(LONGEST_LINE, "clcw 1", id="longest"),
                                            pytest.param(LONGEST_LINE + 1, "?" * (LONGEST_LINE + 1), id="too long")])
def test_a_line_of_the_most_octets(length: int, wanted: str) -> None:
    """It is carried out, in whatever two pieces it comes, also where its line feed comes alone. A line with one octet more is too long."""
    line = b"clcw" + b" " * (length - 5) + b"1"
    for place in (0, 1, length - 1, length):
        spacecraft = Mock()
        connection = LineConnection(Mock(**{"hub.spacecraft": spacecraft}))
        connection.transport = Mock()
        for piece in (line[:place], line[place:] + b"\n"):
            connection.data_received(piece)
            connection.take_turn(lambda: False)
        assert [call.args[0] for call in spacecraft.order.call_args_list] == [wanted], place


def test_only_frames_of_allowed_addresses_are_taken(bench: Benches) -> None:
    """By TCP, and by UDP."""
    choosy = bench("--tc-tcp", "0", "--allow", "127.0.0.2", "--tc-udp", "0", "--allow", "127.0.0.4/31", "--packets-tcp", "0", "--http", "0")
    with choosy.connect("packets-tcp") as packets:
        with choosy.connect("tc-tcp") as link:
            assert read_all(link) == b"tcrx-bench: this address isn't allowed here\n"
        choosy.datagram(frame(0, whole(0, numbered(5, 0))), "127.0.0.6")
        choosy.datagram(frame(0, whole(0, numbered(5, 1))), "127.0.0.5")
        with choosy.connect("tc-tcp", "127.0.0.2") as link:
            assert read_count(packets, 7) == numbered(5, 1)
            link.sendall(frame(1, whole(0, numbered(5, 2))))
            assert read_count(packets, 7) == numbered(5, 2)
    assert choosy.end()[0] == 0


# --- Browsers ---

LINES = f"frame {frame(0, whole(0, ONE)).hex()}\nframe {UNLOCK.hex()}\nlink 1 1 1\nqueue 1 9 4\nchannel 9 10 1 0\n".encode()
OCTETS = b"x" * 1100 + frame(0, whole(0, ONE)) + frame(1, whole(0, ONE)) + UNLOCK
# The first message of TLS, as far as the kind of its message. What follows may be what a page has given the browser to keep.
HELLO = b"\x16\x03\x01\x02\x00\x01\x00\x01\xfc\x03\x03"
TOLD = f"tcrx-bench: {BROWSER}\n".encode()


def request_of(method: bytes, body: bytes) -> bytes:
    """Returns a request as a browser makes it of a form with enctype=text/plain on a page of another site."""
    return (method + b"/ HTTP/1.1\r\nHost: 127.0.0.1\r\nConnection: keep-alive\r\nContent-Length: %d\r\nOrigin: https://site.example\r\n"
            b"Content-Type: text/plain\r\nUser-Agent: Mozilla/5.0 (X11; Linux x86_64)\r\nReferer: https://site.example/\r\n\r\n" % len(body)) + body


def answer_to(asked: Bench, kind: str, octets: bytes) -> bytes:
    """Returns what comes of octets at a port until it closes the connection."""
    with asked.connect(kind) as link:
        try:
            link.sendall(octets)
            link.shutdown(socket.SHUT_WR)
            return read_all(link)
        except OSError:
            return b""


@pytest.mark.attack(240)
@pytest.mark.parametrize("kind, body", [("lines", LINES), ("tc-tcp", OCTETS)], ids=["lines", "tc-tcp"])
def test_browsers_of_other_sites_are_turned_away(bench: Benches, kind: str, body: bytes) -> None:
    """Nothing is obeyed of what a page of another site has a browser send, by each method of HTTP or by TLS."""
    asked = bench("--tc-tcp", "0", "--lines", "0", "--http", "0", "--resync", "--period", "0")
    for octets in (*(request_of(method, body) for method in METHODS), HELLO + b"\n" + body):
        assert answer_to(asked, kind, octets) == TOLD, octets[:9]
    assert asked.port(kind).get("turned_away") == len(METHODS) + 1
    state = asked.state()
    assert [event for event in state["events"] if event["line"] or event["octets"]] == []
    assert [(channel["no_rf"], len(channel["queues"])) for channel in state["channels"]] == [(False, 1)]
    assert state["frames"] == 0
    status, _, error = asked.end()
    assert status == 0 and f": {BROWSER}\n" in error and error.count("\n") < 60


@pytest.mark.attack(240)
def test_a_request_in_pieces_is_turned_away_behind_a_line(bench: Benches) -> None:
    """The line is answered. Lines that only look like a request are no browser's."""
    asked = bench("--lines", "0")
    with asked.connect("lines") as link:
        link.sendall(b"clcw 1\nP")
        with link.makefile("rb") as answers:
            assert answers.readline().decode() == FIRST_CLCW + "\n"
            link.sendall(b"OST / HTTP/1.1\r\n\r\nlink 1 1 1\n")
            assert answers.read() == TOLD
    assert asked.ask("posts / \n POST\nclcw 1\n")[2:] == [FIRST_CLCW]
    assert asked.end()[0] == 0


# --- Peers without number ---

@pytest.mark.attack(240)
def test_peers_that_are_gone_while_they_are_turned_away(bench: Benches) -> None:
    """They lead to a few lines on standard error, and the page keeps the receiver's events."""
    left = bench("--tc-tcp", "0", "--allow", "192.0.2.7", "--lines", "0", "--http", "0", "--period", "0")
    left.ask("".join(f"frame {frame(number, whole(0, ONE)).hex()}\n" for number in range(3)))
    for _ in range(GONE):
        left.connect("tc-tcp").close()
    assert until(lambda: left.port("tc-tcp").get("turned_away") == GONE)
    state = left.state()
    assert [event["answer"][:10] for event in state["events"]] == ["frame 1 E1"] * 3
    assert [note["id"] for note in state["notes"]] == list(range(GONE - 19, GONE + 1))
    assert {note["text"] for note in state["notes"]} == {"this address isn't allowed here"}
    status, _, error = left.end()
    assert status == 0
    # Twenty lines in ten seconds, and how many more there were.
    assert error.count("\n") < 84 and "Traceback" not in error
    said = sum(map(int, re.findall(r"^tcrx-bench: (\d+) more such lines weren't written$", error, re.M)))
    assert said + error.count("isn't allowed here") == GONE


CROWDED = ("--tc-tcp", "0", "--lines", "0", "--http", "0", "--period", "0", "--connections", "200")


@pytest.mark.attack(240)
def test_each_port_takes_fewer_connections_where_few_files_may_be_open(bench: Benches) -> None:
    """It says so, and answers who is there."""
    crowded = bench(*CROWDED, limit="-n 64")
    with crowded.connect("lines") as old, old.makefile("rb") as answers:
        links = [crowded.connect("tc-tcp") for _ in range(OVER)]
        old.sendall(b"clcw 1\n")
        assert answers.readline().decode() == FIRST_CLCW + "\n"
        assert until(lambda: crowded.port("tc-tcp").get("turned_away", 0) == OVER - 10)
    for link in links:
        link.close()
    assert crowded.ask("clcw 1\n") == [FIRST_CLCW]
    status, _, error = crowded.end()
    assert status == 0
    assert error.startswith("tcrx-bench: warning: 64 files may be open (ulimit -n), so each port takes 10 connections at a time\n")
    assert "Traceback" not in error and error.count("\n") < 60


@pytest.mark.attack(240)
def test_it_allows_itself_more_files(bench: Benches) -> None:
    """If only the soft limit is low."""
    crowded = bench(*CROWDED, limit="-Sn 64")
    links = [crowded.connect("tc-tcp") for _ in range(OVER)]
    assert until(lambda: crowded.port("tc-tcp")["open"] == OVER)
    for link in links:
        link.close()
    assert crowded.end()[::2] == (0, "")


def test_the_oldest_of_too_many_lingering_connections_are_cut_off() -> None:
    """They were sent why they are closed, and haven't closed their ends."""
    async def linger(more: int) -> List[bool]:
        hub = Hub(Mock(), Mock(), 1, 60.0)
        lingering = [Connection(Port(Place("lines", "127.0.0.1", 0), hub)) for _ in range(MOST_LINGERING + more)]
        for connection in lingering:
            connection.transport = Mock()
            hub.linger(connection)
        return [connection.transport.abort.called for connection in lingering]  # type: ignore[attr-defined]
    assert asyncio.run(linger(7)) == [True] * 7 + [False] * MOST_LINGERING


@pytest.mark.parametrize("address, allowed", [
    ("192.0.2.5", True), ("::ffff:192.0.2.5", True), ("::ffff:192.0.2.6", False), ("192.0.2.6", False), ("2001:db8::1", True), ("2001:db9::1", False),
    ("fe80::1%eth0", False), ("?", False)])
def test_addresses_of_allowed_networks(address: str, allowed: bool) -> None:
    """Two networks are allowed, one of IPv4 and one of IPv6."""
    assert Place("tc-udp", "::", 0, [ip_network("192.0.2.4/31"), ip_network("2001:db8::/32")]).allows(address) == allowed


@pytest.mark.parametrize("word, wanted", [("::ffff:192.0.2.4/127", "192.0.2.4/31"), ("::fffe:0:0/95", "::fffe:0:0/95"), ("::1", "::1/128"),
                                          ("192.0.2.7", "192.0.2.7/32")])
def test_the_network_that_a_word_allows(word: str, wanted: str) -> None:
    """The word is that behind --allow."""
    assert str(network_of(word)) == wanted


@pytest.mark.parametrize("host, warned", [("[::]", True), ("192.0.2.7", True), ("bench-pc", True), ("[::1]", False), ("127.9.9.9", False),
                                          ("localhost", False)])
def test_a_port_that_is_open_to_others_is_warned_of(host: str, warned: bool) -> None:
    """One that is open to this machine alone isn't."""
    assert bool(read_words(["--scid", "1", "--http", f"{host}:0"]).open_to_others) == warned


# --- Its own name ---

def test_the_page_is_given_by_the_names_of_this_machine(bench: Benches) -> None:
    """It is given by no other name."""
    named = bench("--http", "0.0.0.0:0")
    own = socket.gethostname()
    for host, status in ((own, 200), (f"{own}:10028", 200), (own.upper(), 200), ("localhost", 200), ("127.0.0.1", 200), (f"x{own}", 421),
                         (f"{own}.site.example", 421), (f"site.example.{own}", 421), ("0.0.0.0.site.example", 421)):
        for path in ("/", "/metrics"):
            assert named.get(path, host=host)[0][:12] == f"HTTP/1.1 {status}", (path, host)
    for full in names_of(own, socket.getfqdn()):
        # It is looked up once the bench is up.
        assert until(lambda: named.get("/", host=full)[0].startswith("HTTP/1.1 200")), full  # pylint: disable=cell-var-from-loop
    assert named.end()[0] == 0


@pytest.mark.parametrize("name, full, wanted", [
    ("Bench-PC", "bench-pc.lab.example", {"bench-pc", "bench-pc.lab.example"}), ("bench-pc", "localhost", {"bench-pc"}),
    ("bench-pc", "bench-pc", {"bench-pc"}), ("bench-pc", "bench-pcs.lab.example", {"bench-pc"}), ("", "", set()),
    ("bench-pc.lab.example", "bench-pc.lab.example", {"bench-pc", "bench-pc.lab.example"})])
def test_the_names_of_a_machine(name: str, full: str, wanted: Set[str]) -> None:
    """Its full name counts if it begins with its name."""
    assert names_of(name, full) == wanted


@pytest.mark.parametrize("host, allowed", [("BENCH-PC:80", True), ("bench-pc", True), ("[::1]:80", True), ("192.0.2.7", True), ("", False),
                                           ("bench-pc:x", False), ("bench-pc.", False)])
def test_hosts_that_are_allowed(host: str, allowed: bool) -> None:
    """The name of this machine, with or without a port, and each address are allowed."""
    assert allowed_host(host, {"bench-pc"}) == allowed
