"""Starts tcrx-bench as its users do, and talks to it over loopback: many connections at once, readers that are late, each way in and out, and
what each option leads to. What comes out is compared with what was sent, and the answers in each log with those of `tcrx`."""
from __future__ import annotations

import json
import random
import re
import select
import signal
import socket
import threading
from collections import Counter
from contextlib import ExitStack
from functools import partial
from itertools import cycle
from pathlib import Path
from typing import IO, Any, Callable, Dict, Iterable, List, NamedTuple, Set, Tuple

import pytest
from hypothesis import given, settings, strategies as st

import bench as bench_example
import bench_udp
from bench_parts import SETUP, Bench, ends, lines_of, numbered, read_all, read_count, read_on, replays, udp_socket, word_of, words_sent
from client_parts import ONE, UNLOCK, frame, packet, whole
from comparing import until
from tcrx.bench.main import TOOK_SUM

FRAMES, DATAGRAMS, LATE = 10_000, 500, 8_000
# A frame of another spacecraft whose data has an Unlock of this one.
OTHERS = bytes.fromhex("202b040b00c0302a04050000")
TWO_CHANNELS = SETUP + "channel 2 10 8 0\nqueue 2 6 64\n"
THREE = [numbered(5, number) for number in range(3)]
Start = Callable[..., Bench]
# The bench calls the library, and logs are compared with tcrx.
pytestmark = pytest.mark.usefixtures("library", "tcrx")


@pytest.fixture(name="bench")
def start_bench(tmp_path: Path) -> Start:
    """Returns a function that starts tcrx-bench. What still runs at the end of the test is killed."""
    return partial(Bench, tmp_path)


def begin_thread(call: Callable[..., None], *given_to: object) -> threading.Thread:
    """Starts a thread, which doesn't keep the tests from ending."""
    thread = threading.Thread(target=call, args=given_to, daemon=True)
    thread.start()
    return thread


def clcws_in(octets: bytes) -> List[str]:
    """Returns the digits of each whole CLCW in octets."""
    return [octets[at:at + 4].hex() for at in range(0, len(octets) - len(octets) % 4, 4)]


# --- Many connections at once ---

class Session(NamedTuple):
    """What came of a session with a sender by TCP, one by UDP, three readers of CLCWs and two connections for lines, all at once."""

    bench: Bench
    packets: bytes
    # The state after the last packet, and what `Bench.end` returns.
    state: Any
    ended: Tuple[int, str, str]
    # The CLCWs of two readers, and those of a third one that read nothing until all packets had come.
    read: List[List[str]]
    stalled: List[str]
    # Whether the third reader came to the newest CLCWs while the bench still ran.
    has_caught_up: bool
    # The answers to the lines of each connection.
    answers: List[List[str]]


def send_in_pieces(link: socket.socket, octets: bytes) -> None:
    """Sends octets in pieces of odd sizes."""
    sizes, at = cycle((1, 4099, 3, 255, 7, 1021, 13)), 0
    while at < len(octets):
        size = next(sizes)
        link.sendall(octets[at:at + size])
        at += size


def send_datagrams(bench: Bench) -> None:
    """Sends Type-BD frames on channel 2, no more at once than the kernel keeps."""
    for number in range(DATAGRAMS):
        bench.datagram(frame(0, whole(0, numbered(6, number)), channel=2, bypass=1))
        if number % 50 == 49:
            until(lambda sent=number: bench.port("tc-udp").get("frames", 0) > sent)  # type: ignore[misc]


def ask_again(bench: Bench, answers: List[str], end: threading.Event) -> None:
    """Asks for the report of both channels line by line until it is asked to end."""
    with bench.connect("lines") as link, link.makefile("rwb") as lines:
        while not (answers and end.is_set()):
            for vcid in (1, 2):
                lines.write(f"report {vcid}\n".encode())
                lines.flush()
                answers.append(lines.readline().decode())


def has_caught_up(octets: bytearray, bench: Bench) -> bool:
    """Returns whether the last hundred CLCWs that were read are in a row among the log's last ones."""
    words, noted = clcws_in(bytes(octets))[-100:], words_sent(bench.log)
    return any(words == noted[end - 100:end] for end in range(max(100, len(noted) - 50), len(noted) + 1))


@pytest.fixture(scope="module", name="many")
def connect_many(tmp_path_factory: pytest.TempPathFactory) -> Session:
    """Has the session with many connections."""
    bench = Bench(tmp_path_factory.mktemp("many"), "--tc-tcp", "0", "--tc-udp", "0", "--lines", "0", "--clcw-tcp", "0", "--packets-tcp", "0",
                  "--http", "0", "--period", "0.05", setup=TWO_CHANNELS)
    read, stalled, end = [bytearray(), bytearray()], bytearray(), threading.Event()
    answers: List[List[str]] = [[], []]
    with ExitStack() as links:
        *readers, packets, sender = (links.enter_context(bench.connect(kind)) for kind in ("clcw-tcp", "clcw-tcp", "packets-tcp", "tc-tcp"))
        late = links.enter_context(bench.connect("clcw-tcp", buffer=2048))
        assert until(lambda: bench.port("clcw-tcp")["open"] == 3 and bench.port("packets-tcp")["open"] == 1)
        others = [begin_thread(read_on, *given_to) for given_to in zip(readers, read)]
        others += [begin_thread(ask_again, bench, said, end) for said in answers]
        octets = b"".join(frame(number % 256, whole(0, numbered(5, number))) for number in range(FRAMES))
        senders = [begin_thread(send_in_pieces, sender, octets), begin_thread(send_datagrams, bench)]
        came = read_count(packets, 7 * (FRAMES + DATAGRAMS))
        for thread in senders:
            thread.join()
        end.set()
        state = bench.state()
        # It reads from now on, and goes on while the bench shuts down, as what waits is sent until then.
        others.append(begin_thread(read_on, late, stalled))
        caught_up = until(lambda: has_caught_up(stalled, bench))
        ended = bench.end()
        for thread in others:
            thread.join()
    return Session(bench, came, state, ended, [clcws_in(bytes(octets)) for octets in read], clcws_in(bytes(stalled)), caught_up, answers)


@pytest.mark.parametrize("apid, count", [(5, FRAMES), (6, DATAGRAMS)], ids=["by TCP", "by UDP"])
def test_packets_of_one_sender_of_many_come_in_their_order(many: Session, apid: int, count: int) -> None:
    """Compares the packets of one of the two senders."""
    wanted = [numbered(apid, number) for number in range(count)]
    each = [many.packets[at:at + 7] for at in range(0, len(many.packets), 7)]
    assert [one for one in each if one[:2] == wanted[0][:2]] == wanted


def test_frames_of_many_senders_are_counted(many: Session) -> None:
    """Compares the count of the state."""
    assert many.state["frames"] == FRAMES + DATAGRAMS


def test_final_report_after_many_connections(many: Session) -> None:
    """Each frame, each release and each take is an event."""
    last = [word_of(1, 0, 0, FRAMES % 256), word_of(2, 0, DATAGRAMS % 4, 0)]
    assert many.ended == (0, f"final 1 {last[0]} events {3 * FRAMES} buffered 0\nqueue 1 5 0\n"
                             f"final 2 {last[1]} events {2 * DATAGRAMS} buffered 0\nqueue 2 6 0\n", "")


@pytest.mark.parametrize("place", [0, 1])
def test_reader_of_clcws_beside_many_others_gets_those_of_the_log_in_a_row(many: Session, place: int) -> None:
    """V(R), which the sender knows, rises by one with each frame."""
    words, noted = many.read[place], words_sent(many.bench.log)
    assert len(words) > FRAMES and any(words == noted[at:at + len(words)] for at in range(len(noted) - len(words) + 1))
    first = [each for each in words if each.startswith("0104")]
    steps = [each for at, each in enumerate(first) if at == 0 or first[at - 1] != each]
    wanted = [word_of(1, 0, 0, number % 256) for number in range(FRAMES + 1)]
    assert steps in (wanted, wanted[1:])


def is_part(words: List[str], of: Iterable[str]) -> bool:
    """Returns whether words come in their order among others."""
    others = iter(of)
    return all(each in others for each in words)


def test_reader_of_clcws_that_stalls_loses_old_ones_which_are_counted(many: Session) -> None:
    """What it reads later are CLCWs of the log in their order."""
    noted = words_sent(many.bench.log)
    assert many.stalled and len(many.stalled) < len(noted) and is_part(many.stalled, noted)
    assert next(port for port in many.state["ports"] if port["port"] == "clcw-tcp").get("lost", 0) > FRAMES // 4


def test_reader_of_clcws_that_stalled_comes_to_the_newest_ones(many: Session) -> None:
    """It does so while the bench runs."""
    assert many.has_caught_up


def test_lines_are_answered_beside_many_senders(many: Session) -> None:
    """Compares the form of each answer."""
    assert all(many.answers) and all(re.fullmatch(r"report [12] state open vr \d+ .*\n", line) for lines in many.answers for line in lines)


def test_log_of_many_connections_is_replayed(many: Session) -> None:
    """Compares the answers in the log with those of tcrx, and by --replay."""
    replays(many.bench, "many at once")


def test_late_readers_have_all_that_waits_when_the_bench_shuts_down(bench: Start) -> None:
    """They must read within a second, which a busy machine may not let them. So there are three tries."""
    assert any(late_readers_have_all(bench) for _ in range(3))


def late_readers_have_all(bench: Start) -> bool:
    """Has two readers read nothing until the bench shuts down. Returns whether a reader of packets then has all of them, and one of CLCWs, which
    has lost old ones, the newest."""
    running = bench("--tc-tcp", "0", "--clcw-tcp", "0", "--packets-tcp", "0", "--http", "0", "--period", "0")
    # Less than waits for a reader of packets at most, and more CLCWs than the kernel keeps.
    packets = [packet(5, *number.to_bytes(2, "big"), *bytes(490)) for number in range(LATE)]
    read = [bytearray(), bytearray()]
    with running.connect("clcw-tcp", buffer=4096) as clcws, running.connect("packets-tcp") as others:
        assert until(lambda: running.port("clcw-tcp")["open"] == running.port("packets-tcp")["open"] == 1)
        with running.connect("tc-tcp") as sender:
            sender.sendall(b"".join(frame(number & 255, whole(0, each)) for number, each in enumerate(packets)))
            assert until(lambda: running.state()["packets"] == LATE)
        counts = running.port("clcw-tcp")
        assert counts.get("lost", 0) > 0 and LATE - 256 <= counts["lost"] + counts["sent"] <= LATE
        running.child.send_signal(signal.SIGTERM)
        # The final report is in the log just before the connections are closed.
        assert until(lambda: b"\n#= final 1 " in running.log.read_bytes()[-200:])
        followers = [begin_thread(read_on, *given_to) for given_to in zip((clcws, others), read)]
        assert running.ended()[::2] == (0, "")
        for thread in followers:
            thread.join()
    size = running.log.stat().st_size / LATE - 4 * (len(packets[0]) + 6)
    assert 150 < size < 220, f"besides its octets a frame takes {size} octets of the log"
    return clcws_in(bytes(read[0]))[-256:] == words_sent(running.log)[-256:] and read[1] == b"".join(packets)


# --- Each way in and out ---

def test_frames_come_by_each_way_in_and_what_they_lead_to_goes_out_by_each_way(bench: Start) -> None:
    """Frames come by TCP, by UDP and by a line. CLCWs, packets and units go out by TCP and by UDP."""
    with ExitStack() as links:
        targets = {kind: links.enter_context(udp_socket()) for kind in ("clcw", "packets", "units")}
        words = [word for kind, link in targets.items() for word in (f"--{kind}-udp", f"127.0.0.1:{link.getsockname()[1]}")]
        running = bench("--tc-tcp", "0", "--tc-udp", "0", "--lines", "0", "--packets-tcp", "0", "--units-tcp", "0", "--http", "0", "--period", "0",
                        *words, setup=SETUP + "map 1 3 4\n")
        packets, units, sender = (links.enter_context(link) for link in (running.reader(), running.reader("units-tcp"), running.connect("tc-tcp")))
        sender.sendall(frame(0, whole(0, ONE)))
        assert targets["clcw"].recv(9).hex() == word_of(1, 0, 0, 1)
        running.datagram(frame(1, whole(3, b"whole")))
        assert targets["clcw"].recv(9).hex() == word_of(1, 0, 0, 2)
        assert running.ask(f"frame {frame(2, whole(3, b'')).hex()}\n") == ["frame 1 E1 accepted 1 queued 0 dropped 0 rest 0"]
        assert targets["clcw"].recv(9).hex() == word_of(1, 0, 0, 3)
        assert targets["packets"].recv(99) == read_count(packets, len(ONE)) == ONE
        wanted = [bytes([1, 3]) + len(unit).to_bytes(4, "big") + unit for unit in (b"whole", b"")]
        assert [targets["units"].recv(99) for _ in wanted] == wanted
        assert read_count(units, len(b"".join(wanted))) == b"".join(wanted)
    assert running.end()[:2] == (0, f"final 1 {word_of(1, 0, 0, 3)} events 9 buffered 0\nqueue 1 5 0\nmap 1 3 0\n")
    replays(running, "each way in and out")


def test_lines_are_answered_one_by_one(bench: Start) -> None:
    """Among them are comments, bad lines, and lines that are just too long and just not. The last one has no line end."""
    running = bench("--tc-tcp", "0", "--lines", "0")
    given_lines = (f"frame {frame(0, whole(0, ONE)).hex()}\n# no answer\n\n  release \t 1\r\nframe 0\nqueue 1 9 1\n{'x' * 9000}\n"
                   f"clcw{' ' * 8187}1\nclcw{' ' * 8188}1\nclcw 1")
    clcw = f"clcw 1 {word_of(1, 0, 0, 1)}"
    assert running.ask(given_lines) == [
        "frame 1 E1 accepted 1 queued 0 dropped 0 rest 0", "refused empty", "bad hex: HEX is two hexadecimal digits for each octet", "bad too late",
        "bad too long", clcw, "bad too long", clcw]
    ends(running, "lines")


def test_bench_starts_no_other_program(bench: Start) -> None:
    """Looks at the children of its process once it has answered."""
    running = bench("--lines", "0")
    assert running.ask("clcw 1\n") == [f"clcw 1 {word_of(1, 0, 0, 0)}"]
    children = Path(f"/proc/{running.child.pid}/task/{running.child.pid}/children")
    assert children.read_text(encoding="ascii") == ""


# --- Frames of all kinds in a row ---

def odd_frames(dice: random.Random, first: int) -> bytes:
    """Returns the octets of 1,500 frames of all kinds, if the first expected frame has this number."""
    octets, number = b"", first
    for _ in range(1500):
        kind, data = dice.random(), b"".join(numbered(dice.choice((5, 5, 6, 7)), dice.randrange(256)) for _ in range(dice.randrange(1, 5)))
        place = dice.choice((number, number, number, number + dice.randrange(-12, 13)))
        if kind < 0.55:
            octets += frame(place % 256, bytes([dice.choice((0xC0, 0xC0, 0xC9, 0x40, 0x00, 0x80))]) + data)
            number += place == number
        elif kind < 0.75:
            octets += frame(0, bytes([dice.choice((0xC0, 0xC9, 0x40, 0x00, 0x80))]) + data, bypass=1)
        elif kind < 0.85:
            octets += frame(dice.randrange(4), data, channel=2, bypass=dice.randrange(2))
        elif kind < 0.9:
            octets += frame(0, whole(0, ONE), channel=dice.choice((1, 3)), scid=dice.choice((42, 43)), bypass=1)
        else:
            octets += UNLOCK + frame(0, bytes([0x82, 0, number % 256]), bypass=1, command=1)
    return octets


def read_odd_log(bench: Bench) -> Set[str]:
    """Sees that no release in the log was in vain, and that each accepted Type-AD frame was released before the next frame. Returns the events that
    arose."""
    lines = lines_of(bench.log)
    for line, behind in zip(lines, lines[1:]):
        if re.fullmatch(r"#= frame \d+ E1 accepted 1 .*", line):
            assert behind.startswith("release "), "a release comes late"
        if line.startswith(("release", "take", "unit")):
            assert not behind.startswith("#= refused"), f"{line} is in vain"
    return {found[1] for found in map(re.compile(r"#= .* (E\d) accepted").match, lines) if found}


def test_odd_frames_are_released_and_taken_at_once(bench: Start) -> None:
    """Frames of all kinds come in a row, in segments and out of order. The packets that come out are those of the log."""
    @settings(max_examples=2)
    @given(st.randoms(use_true_random=True))
    def try_frames(dice: random.Random) -> None:
        first, got = dice.randrange(256), bytearray()
        running = bench("--tc-tcp", "0", "--packets-tcp", "0", "--http", "0", "--period", "0",
                        setup=f"channel 1 20 1 {first}\nqueue 1 5 8\nqueue 1 6 2\nmap 1 9 2\nchannel 2 10 2 0 plain\nqueue 2 5 4\n")
        with running.reader() as packets:
            with running.connect("tc-tcp") as sender:
                sender.sendall(odd_frames(dice, first))
            follower = begin_thread(read_on, packets, got)
            assert until(lambda: sum(line.startswith(("#= frame", "#= refused")) for line in lines_of(running.log)) >= 1500)
            status, printed, _ = running.end()
            follower.join()
        assert status == 0
        assert re.fullmatch(r"(final \d+ [0-9a-f]{8} events \d+ buffered 0\n|(queue|map) \d+ \d+ 0\n)+", printed), "something is left"
        assert read_odd_log(running) >= {"E1", "E3", "E4", "E5", "E6", "E7", "E8"}
        noted = "".join(re.findall(r"^#= take \d+ \d+ ([0-9a-f]+)$", running.log.read_text(), re.M))
        assert noted and got.hex() == noted
        replays(running, "odd frames")
    try_frames()  # pylint: disable=no-value-for-parameter  # hypothesis draws them


def test_packets_of_a_unit_in_segments_go_out_queue_by_queue(bench: Start) -> None:
    """Within a queue they come in the order of the unit."""
    running = bench("--tc-tcp", "0", "--packets-tcp", "0", "--http", "0", "--period", "0", setup=SETUP + "queue 1 6 4\n")
    unit = [numbered(apid, number) for number, apid in enumerate((6, 5, 6, 5))]
    octets, wanted = b"".join(unit), b"".join(unit[place] for place in (1, 3, 0, 2))
    parts = [b"\x40" + octets[:9], b"\x00" + octets[9:15], b"\x80" + octets[15:]]
    with running.reader() as packets, running.connect("tc-tcp") as sender:
        for bypass in (0, 1):
            sender.sendall(b"".join(frame(number, part, bypass=bypass) for number, part in enumerate(parts)))
            assert read_count(packets, 28) == wanted, f"bypass {bypass}"
    ends(running, "segments")


# --- Releases ---

def test_slow_application_fills_the_buffer_until_a_release_after_some_time(bench: Start) -> None:
    """The CLCW says Wait until then."""
    running = bench("--tc-tcp", "0", "--clcw-tcp", "0", "--packets-tcp", "0", "--lines", "0", "--http", "0", "--period", "0",
                    "--release-after", "0.5", setup="channel 1 10 1 0\nqueue 1 5 4\n")
    # Type-BD, behind which nothing is released; accepted; no room, which sets Wait and Retransmit; after the release Retransmit alone.
    wanted = [word_of(1, 0, 1, 0), word_of(1, 0, 1, 1), word_of(1, 3, 1, 1), word_of(1, 1, 1, 1)]
    with running.reader("clcw-tcp") as clcws, running.reader() as packets, running.connect("tc-tcp") as sender:
        sender.sendall(frame(0, whole(0, ONE), bypass=1) + frame(0, whole(0, ONE)) + frame(1, whole(0, ONE)))
        assert clcws_in(read_count(clcws, 16)) == wanted
        assert read_count(packets, 14) == ONE + ONE
    assert running.end()[:2] == (0, f"final 1 {wanted[3]} events 6 buffered 0\nqueue 1 5 0\n")
    found = re.findall(r"^# (\d+\.\d+) \d+\.\d+ (\S+)", running.log.read_text(encoding="ascii"), re.M)
    assert [source for _, source in found].count("release") == 1
    came = {source: float(when) for when, source in found}
    assert came["release"] - came["tc-tcp"] >= 0.499, "the release comes too soon"
    replays(running, "a slow application")


def test_packets_of_type_bd_frames_do_not_wait_for_a_slow_application(bench: Start) -> None:
    """A Type-AD frame that came before waits on."""
    running = bench("--tc-tcp", "0", "--packets-tcp", "0", "--http", "0", "--period", "0", "--release-after", "3600")
    with running.reader() as packets, running.connect("tc-tcp") as sender:
        sender.sendall(frame(0, whole(0, THREE[0])) + frame(0, whole(0, THREE[1] + THREE[2]), bypass=1))
        assert read_count(packets, 14) == THREE[1] + THREE[2]
    assert until(lambda: running.state()["channels"][0]["buffer"]["used"] == 1)
    assert running.state()["packets"] == 2
    assert running.end()[0] == 0


def test_log_of_many_type_bd_frames_with_a_slow_application_is_short(bench: Start) -> None:
    """However many are under way, each is one block of lines, because what waits is taken once."""
    many_frames = 3_000
    running = bench("--tc-tcp", "0", "--packets-tcp", "0", "--http", "0", "--period", "0", "--release-after", "3600")
    with running.reader() as packets, running.connect("tc-tcp") as sender:
        sender.sendall(frame(0, whole(0, ONE), bypass=1) * many_frames)
        assert read_count(packets, len(ONE) * many_frames) == ONE * many_frames
    assert running.end()[0] == 0
    assert running.log.stat().st_size <= 400 * many_frames
    replays(running, "many Type-BD frames with a slow application")


def test_lines_release_and_take_if_releases_are_manual(bench: Start) -> None:
    """There are 300 queues. What lines take goes to the readers."""
    running = bench("--tc-tcp", "0", "--packets-tcp", "0", "--lines", "0", "--http", "0", "--release", "manual",
                    setup="channel 1 10 8 0\n" + "".join(f"queue 1 {apid} 4\n" for apid in range(300, 0, -1)))
    with running.reader() as packets, running.connect("tc-tcp") as sender:
        sender.sendall(frame(0, whole(0, ONE)) + frame(0, whole(0, ONE), bypass=1))
        assert until(lambda: running.state()["frames"] == 2)
        channel = running.state()["channels"][0]
        assert (channel["buffer"]["used"], [queue["apid"] for queue in channel["queues"] if queue["used"]]) == (1, [5])
        assert running.ask("take 1 5\ntake 1 5\nrelease 1\ntake 1 5\n") == [
            f"take 1 5 {ONE.hex()}", "refused empty", "release 1 queued 1 dropped 0 rest 0", f"take 1 5 {ONE.hex()}"]
        assert read_count(packets, 14) == ONE + ONE
    ends(running, "releases by lines")


def test_lines_collect_candidate_and_deliver_have_packets_and_units_go_to_readers(bench: Start) -> None:
    """The frames have their frame error control field. A deliver that finds nothing is in the log, too."""
    running = bench("--fecf", "--release", "manual", "--lines", "0", "--packets-tcp", "0", "--units-tcp", "0", "--http", "0", "--period", "0",
                    setup=SETUP + "map 1 3 4\n")
    by_bd = frame(0, whole(0, THREE[0]), bypass=1, fecf=True)
    first, second = (frame(number, whole(0, THREE[number + 1]), fecf=True) for number in (0, 1))
    unit = frame(2, whole(3, b"whole"), fecf=True)
    with running.reader() as packets, running.reader("units-tcp") as units:
        answers = running.ask("".join(f"{line}\n" for line in (
            f"frame {by_bd.hex()}", "collect 1", f"candidate {first.hex()}5555", f"frame {second.hex()}", f"candidate {unit.hex()}",
            *["deliver 1"] * 4, "collect 1", "candidate " + first[:-1].hex())))
        assert read_count(packets, 21) == b"".join(THREE)
        assert read_count(units, 11) == b"\x01\x03\x00\x00\x00\x05whole"
    clcw = f"clcw 1 {word_of(1, 0, 1, 3)}"
    accepted, delivered = "frame 1 {} accepted 1 queued {} dropped 0 rest 0", "release 1 queued 1 dropped 0 rest 0"
    assert answers == [
        accepted.format("E6", 1), f"take 1 5 {THREE[0].hex()}", f"clcw 1 {word_of(1, 0, 1, 0)}", *[accepted.format("E1", 0)] * 3,
        delivered, f"take 1 5 {THREE[1].hex()}", clcw, delivered, f"take 1 5 {THREE[2].hex()}", clcw,
        delivered, "unit 1 3 " + b"whole".hex(), clcw, "refused empty", clcw, clcw, "refused check"]
    state = running.state()
    assert [state[what] for what in ("frames", "packets", "units")] == [5, 3, 1]
    ends(running, "a person's lines")
    lines = lines_of(running.log)
    assert [lines[place + 1] for place, line in enumerate(lines) if line == "release 1"][-1] == "#= refused empty"


# --- The link ---

def test_flags_of_the_link_are_set_after_some_time_and_cleared_by_a_frame(bench: Start) -> None:
    """They are set again when nothing comes for that time."""
    with udp_socket() as clcws:
        running = bench("--tc-udp", "0", "--clcw-udp", f"127.0.0.1:{clcws.getsockname()[1]}", "--lines", "0", "--period", "0",
                        "--link-timeout", "0.8", setup=TWO_CHANNELS)
        assert [clcws.recv(9).hex() for _ in range(2)] == [word_of(1, 24, 0, 0), word_of(2, 24, 0, 0)]
        running.datagram(frame(0, whole(0, ONE)))
        assert [clcws.recv(9).hex() for _ in range(3)] == [word_of(1, 0, 0, 0), word_of(2, 0, 0, 0), word_of(1, 0, 0, 1)]
        assert [clcws.recv(9).hex() for _ in range(2)] == [word_of(1, 24, 0, 1), word_of(2, 24, 0, 0)]
    ends(running, "flags of the link")


def test_flag_of_the_link_is_set_by_a_line(bench: Start) -> None:
    """The CLCW that has it is in the log."""
    running = bench("--lines", "0", setup=TWO_CHANNELS)
    assert running.ask("link 2 1 0\nclcw 2\nlink 9 1 1\n") == ["link 2 1 0", f"clcw 2 {word_of(2, 16, 0, 0)}", "refused channel"]
    ends(running, "a flag by a line")
    assert "#~ clcw 2 " + word_of(2, 16, 0, 0) in lines_of(running.log)


def test_clcws_of_two_channels_come_in_turn_by_time(bench: Start) -> None:
    """No frame comes."""
    running = bench("--clcw-tcp", "0", "--period", "0.02", setup=TWO_CHANNELS)
    with running.connect("clcw-tcp") as clcws:
        seen = [read_count(clcws, 4).hex() for _ in range(6)]
    one, two = word_of(1, 0, 0, 0), word_of(2, 0, 0, 0)
    assert seen in ([one, two] * 3, [two, one] * 3)
    assert running.end()[0] == 0


def test_frames_with_their_sum_are_in_the_log_without_it(bench: Start) -> None:
    """So tcrx runs the log. A frame whose sum is wrong is refused."""
    running = bench("--fecf", "--tc-tcp", "0", "--packets-tcp", "0", "--lines", "0", "--http", "0", "--period", "0")
    right = frame(0, whole(0, ONE), fecf=True)
    wrong = right[:-1] + bytes([right[-1] ^ 1])
    with running.reader() as packets, running.connect("tc-tcp") as sender:
        sender.sendall(wrong + right + frame(1, whole(0, ONE), fecf=True) + frame(0, whole(0, ONE), scid=41, fecf=True))
        assert read_count(packets, 14) == ONE + ONE
        assert until(lambda: running.state()["refused"].get("spacecraft") == 1)
    assert running.ask("report 1\n")[0].startswith("report 1 state open vr 2 lockout")
    assert running.end() == (0, f"final 1 {word_of(1, 0, 0, 2)} events 6 buffered 0\nqueue 1 5 0\n", "")
    assert [line for line in lines_of(running.log) if re.match("#[=~] (frame|refused)", line)] == [
        "#~ refused check", *["#= frame 1 E1 accepted 1 queued 0 dropped 0 rest 0"] * 2, "#= refused spacecraft"]
    replays(running, "sums")


def test_hint_is_printed_once_if_frames_seem_to_have_a_sum_without_fecf(bench: Start) -> None:
    """Two such frames come over one connection."""
    running = bench("--lines", "0")
    running.ask(f"frame {frame(0, whole(0, ONE), fecf=True).hex()}\n" * 2)
    assert re.fullmatch(rf"tcrx-bench: lines 127\.0\.0\.1:\d+: {re.escape(TOOK_SUM)}\n", running.end()[2])


# --- Streams of octets ---

@pytest.mark.parametrize("fecf", [False, True], ids=["without sums", "with sums"])
def test_fill_between_frames_is_left_out(bench: Start, fecf: bool) -> None:
    """It fills each frame up to a multiple of seven octets, on a connection and in a datagram."""
    one, two, three = (frame(number, whole(0, each), fecf=fecf) for number, each in enumerate(THREE))
    fill = b"\x55" * (-len(one) % 7)
    running = bench("--tc-tcp", "0", "--tc-udp", "0", "--packets-tcp", "0", "--http", "0", "--fill", "7", "--period", "0", *["--fecf"] * fecf)
    with running.reader() as packets, running.connect("tc-tcp") as sender:
        sender.sendall(one + fill + two)
        assert read_count(packets, 14) == THREE[0] + THREE[1]
        sender.sendall(fill)
        running.datagram(three + fill)
        assert until(lambda: running.state()["frames"] == 3)
        assert (running.state()["refused"], running.state()["packets"]) == ({}, 3)
    ends(running, "fill")


def test_connection_with_octets_that_begin_no_frame_is_answered_and_closed(bench: Start) -> None:
    """Others go on. What it is answered is on standard error, too."""
    one, two, _ = (frame(number, whole(0, each)) for number, each in enumerate(THREE))
    running, said = bench("--tc-tcp", "0", "--packets-tcp", "0", "--http", "0", "--period", "0"), "octets that begin no frame: 474554202f at octet 13"
    with running.reader() as packets, running.connect("tc-tcp") as sender, running.connect("tc-tcp") as other:
        sender.sendall(one + b"GET / HTTP/1.1\r\n" + two)
        assert read_all(sender) == f"tcrx-bench: {said}\n".encode()
        other.sendall(two)
        assert read_count(packets, 14) == THREE[0] + THREE[1]
    status, _, error = running.end()
    assert status == 0 and said in error


def test_connection_that_ends_within_a_frame_is_noted(bench: Start) -> None:
    """It isn't answered."""
    running = bench("--tc-tcp", "0", "--period", "0")
    with running.connect("tc-tcp") as sender:
        sender.sendall(frame(0, whole(0, ONE)) + frame(1, whole(0, ONE))[:6])
        sender.shutdown(socket.SHUT_WR)
        assert read_all(sender) == b""
    status, _, error = running.end()
    assert status == 0 and "the connection ended with 6 octets of a frame" in error


def test_octets_that_begin_no_frame_are_skipped_with_resync(bench: Start) -> None:
    """Each frame between them is found, also one of another spacecraft, whose data looks like a frame of this one."""
    @settings(max_examples=2)
    @given(st.binary(min_size=3000, max_size=3000).map(lambda octets: bytes((1, 2, 0xFF, 0x2A, 0xC0)[octet % 5] for octet in octets)))
    def try_noise(drawn: bytes) -> None:
        noise = b"\xff" + drawn + b"\xff\xff"
        one, two, three = (frame(number, whole(0, each)) for number, each in enumerate(THREE))
        running = bench("--tc-tcp", "0", "--packets-tcp", "0", "--http", "0", "--period", "0", "--resync")
        with running.reader() as packets, running.connect("tc-tcp") as sender:
            for octets in (noise, one, b"\xff", two, OTHERS, b"\x00\x2a\xff\xff", three):
                sender.sendall(octets)
            assert read_count(packets, 21) == b"".join(THREE)
        assert running.port("tc-tcp").get("skipped_octets") == len(noise) + 1 + 4
        assert (running.state()["refused"], sum(running.state()["channels"][0]["events"].values())) == ({"spacecraft": 1}, 3)
        ends(running, "octets that were skipped")
    try_noise()  # pylint: disable=no-value-for-parameter  # hypothesis draws it


@pytest.mark.parametrize("seed", [1, 2])
@pytest.mark.parametrize("fecf", [False, True], ids=["without sums", "with sums"])
def test_sender_of_the_examples_has_all_packets_come_over_a_bad_link(fecf: bool, seed: int) -> None:
    """The link loses and repeats frames and flips bits. Each packet comes once, in its order."""
    said = bench_example.run(seed, fecf, begin=bench_udp.start)
    assert re.fullmatch(r"300 packets came in their order, each once; \d+ frames were sent, \d+ of them Unlocks", said)


# --- What is served over HTTP ---

def bring_traffic(bench: Bench) -> None:
    """Has four frames, of which one is accepted and one opens the lockout, come to a bench with two channels, and waits for them."""
    with bench.connect("tc-tcp") as sender:
        sender.sendall(frame(0, whole(0, ONE)) + frame(9, whole(0, ONE)) + frame(0, whole(0, ONE), channel=7) +
                       frame(5, whole(0, ONE), channel=2, bypass=1))
        assert until(lambda: bench.state()["frames"] == 4)


BAD_LINES = "clcw\nclcw 256\nchannel 1 10\nclcw 1 1"


def test_page_asks_for_nothing_from_outside(bench: Start) -> None:
    """It links to nothing but itself, and its head forbids the browser all else."""
    head, page = bench("--http", "0").get("/")
    assert head.startswith("HTTP/1.1 200") and "Content-Security-Policy: default-src 'none'" in head
    assert page.startswith("<!DOCTYPE html>") and "@import" not in page
    assert not [link for link in re.findall(r"""(?:src|href)=["']([^"']+)""", page) if not link.startswith(("#", "data:"))]


def test_requests_are_answered_by_their_status(bench: Start) -> None:
    """Among them are other paths, methods and hosts. A request by HEAD gets no body."""
    running = bench("--http", "0")
    for path, method, host, status in (("/no", "GET", "localhost", 404), ("/", "POST", "localhost", 405), ("/state", "DELETE", "localhost", 405),
                                       ("/state", "GET", "spacecraft.example", 421), ("/state", "GET", "127.0.0.1:80", 200),
                                       ("/x" * 5000, "GET", "localhost", 431), ("/", "HEAD", "localhost", 200), ("/no", "HEAD", "localhost", 404)):
        head, body = running.get(path, method, host)
        assert (head[:12], bool(body)) == (f"HTTP/1.1 {status}", method != "HEAD"), f"{method} {path[:20]} for {host}"


def next_state(events: IO[bytes]) -> Any:
    """Returns the next state that a page is sent."""
    while not (line := events.readline()).startswith(b"data: "):
        if not line:
            raise EOFError
    return json.loads(line[6:])


def hears_nothing(follower: socket.socket) -> bool:
    """Returns whether nothing more comes to a page that follows for a while. What has come is read."""
    return not select.select([follower], [], [], 0.6)[0] or not follower.recv(1 << 16)


def test_page_that_follows_gets_each_event_once_and_nothing_when_nothing_changes(bench: Start) -> None:
    """The frames come in two parts."""
    running, seen = bench("--tc-tcp", "0", "--http", "0", setup=TWO_CHANNELS), list[Any]()
    with running.connect("http") as follower:
        follower.sendall(b"GET /events HTTP/1.1\r\nHost: localhost\r\n\r\n")
        with follower.makefile("rb") as events, running.connect("tc-tcp") as sender:
            first = next_state(events)
            assert (first["frames"], first["events"]) == (0, [])
            for place, octets in enumerate((frame(0, whole(0, ONE)) + frame(9, whole(0, ONE)),
                                            frame(0, whole(0, ONE), channel=7) + frame(5, whole(0, ONE), channel=2, bypass=1)), 1):
                sender.sendall(octets)
                while not seen or seen[-1]["id"] < 2 * place:
                    seen += next_state(events)["events"]
        assert [(each["id"], each["answer"]) for each in seen] == [
            (1, "frame 1 E1 accepted 1 queued 0 dropped 0 rest 0"), (2, "frame 1 E5 accepted 0 queued 0 dropped 0 rest 0"), (3, "refused channel"),
            (4, "frame 2 E6 accepted 1 queued 0 dropped 1 rest 0")]
        assert until(lambda: hears_nothing(follower))


def test_state_has_each_field_of_a_channel(bench: Start) -> None:
    """The channel is locked out, and has accepted one frame."""
    running = bench("--tc-tcp", "0", "--http", "0", setup=TWO_CHANNELS)
    bring_traffic(running)
    wanted: Dict[str, Any] = {
        "channel": 1, "width": 10, "plain": False, "vr": 1, "clcw": word_of(1, 4, 0, 1), "state": "lockout", "lockout": True,
        "wait": False, "retransmit": False, "no_rf": False, "no_bit_lock": False, "farm_b": 0, "last": {"number": 9, "event": "E5"},
        "buffer": {"used": 0, "capacity": 8},
        "events": {f"E{number}": int(number in (1, 5)) for number in range(1, 10)}, "queues": [{"apid": 5, "used": 0, "capacity": 16}], "maps": []}
    state = running.state()
    assert state["channels"][0] == wanted
    assert [state[each] for each in ("frames", "packets", "refused")] == [4, 1, {"channel": 1}]
    assert running.end()[0] == 0


def test_bad_lines_are_answered_with_hints_and_counted_by_reason(bench: Start) -> None:
    """The state has the reason without the hint."""
    running = bench("--lines", "0", "--http", "0", setup=TWO_CHANNELS)
    assert running.ask(BAD_LINES) == [
        "bad wrong number of words: write clcw VC", "bad number: VC is 0 to 63",
        "bad wrong number of words: write channel VC WIDTH BUFFER VR [plain]", "bad wrong number of words: write clcw VC"]
    assert running.state()["bad"] == {"wrong number of words": 3, "bad number": 1}


def test_datagram_that_cannot_be_sent_is_counted_as_lost(bench: Start) -> None:
    """It would go to all machines, which the kernel forbids."""
    running = bench("--tc-tcp", "0", "--http", "0", "--packets-udp", "255.255.255.255:9")
    bring_traffic(running)
    assert running.port("packets-udp") == {"port": "packets-udp", "address": "255.255.255.255:9", "open": 0, "lost": 1}


def test_figures_for_prometheus(bench: Start) -> None:
    """Compares their form and some of them. Two ports of one kind have a figure each."""
    running = bench("--tc-tcp", "0", "--lines", "0", "--http", "0", "--clcw-tcp", "0", "--clcw-tcp", "0", setup=TWO_CHANNELS)
    bring_traffic(running)
    running.ask(BAD_LINES)
    text = running.get("/metrics")[1]
    lines = text.split("\n")[:-1]
    form = re.compile(r'# TYPE tcrx_\w+ (counter|gauge)|tcrx_\w+(\{\w+="[^"]*"(,\w+="[^"]*")*\})? \d+(\.\d+)?')
    assert lines and not [line for line in lines if not form.fullmatch(line)]
    kinds = Counter(line.split()[2] for line in lines if line.startswith("#"))
    figures = Counter(line.rpartition(" ")[0] for line in lines if not line.startswith("#"))
    assert not [name for counts in (kinds, figures) for name, count in counts.items() if count > 1]
    assert {'tcrx_frames_total{channel="1",event="E5"} 1', 'tcrx_flag{channel="1",flag="lockout"} 1', 'tcrx_vr{channel="1"} 1',
            'tcrx_refused_total{reason="channel"} 1', 'tcrx_bad_total{reason="wrong number of words"} 3'} <= set(lines)
    assert len(re.findall(r'^tcrx_port_open\{port="clcw-tcp",address="127\.0\.0\.1:\d+"\} 0$', text, re.M)) == 2
