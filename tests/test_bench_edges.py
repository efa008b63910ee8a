"""Has tcrx-bench take CLTUs and send telemetry frames: pieces of any length on several connections at a time, wrong bits, datagrams and browsers;
the pace, the counts and the CLCWs of telemetry, and its readers. Also closes the loop over both edges by the sender of examples/bench_cltu.py, over a
link that flips one bit in a thousand and loses a fifth of the CLTUs. With --long that is done 100 times."""
from __future__ import annotations

import asyncio
import random
import re
import subprocess
import threading
import time
from argparse import Namespace
from collections import Counter
from functools import partial
from pathlib import Path
from typing import Any, Callable, Dict, Iterator, List, NamedTuple, Set, Tuple
from unittest.mock import Mock

import pytest
from hypothesis import given, settings, strategies as st

import bench_cltu
from bench_parts import SETUP, Bench, ends, lines_of, numbered, read_all, read_count, read_on, replays, udp_socket, word_of
from client_parts import ONE, UNLOCK, frame, sum_of, whole
from comparing import TOP, until
from tcrx.bench.journal import without_fill
from tcrx.bench.octets import BROWSER, METHODS
from tcrx.bench.telemetry import Telemetry

IDLE = b"\x55" * 15
TWO_CHANNELS = SETUP + "channel 2 10 8 7\nqueue 2 6 16\n"
# The counts of CLTUs, in the order of the log's last lines.
COUNTED = ("cltus", "corrected_blocks", "rejected_blocks", "refused_candidates")
Start = Callable[..., Bench]
# The bench calls the library, and logs are compared with tcrx.
pytestmark = pytest.mark.usefixtures("library", "tcrx")
MakeCltus = Callable[..., List[bytes]]


def pytest_generate_tests(metafunc: pytest.Metafunc) -> None:
    """Has the loop closed with one seed, or with 25 if --long is given."""
    if "seed" in metafunc.fixturenames:
        metafunc.parametrize("seed", range(25 if metafunc.config.getoption("long", False) else 1))


def start_with_page(work: Path, *words: str, setup: str = SETUP) -> Bench:
    """Starts a bench with a page and these options."""
    return Bench(work, "--http", "0", "--period", "0", *words, setup=setup)


@pytest.fixture(name="bench")
def start_bench(tmp_path: Path) -> Start:
    """Returns a function that starts a bench with a page. What still runs at the end of the test is killed."""
    return partial(start_with_page, tmp_path)


@pytest.fixture(scope="session", name="cltus_of")
def make_cltus(tcmake: Path) -> MakeCltus:
    """Returns a function that has tcmake make the CLTUs of frames."""
    def answers(lines: List[str]) -> List[str]:
        said = subprocess.run([tcmake], input="".join(line + "\n" for line in lines), stdout=subprocess.PIPE, text=True, check=True).stdout
        return [line.partition(" ")[2] for line in said.splitlines()]

    def cltus(frames: List[bytes], randomised: bool = False) -> List[bytes]:
        plain = answers([f"random {each.hex()}" for each in frames]) if randomised else [each.hex() for each in frames]
        return [bytes.fromhex(digits) for digits in answers([f"cltu {digits}" for digits in plain])]
    return cltus


def flipped(octets: bytes, *bits: int) -> bytes:
    """Returns octets with these bits flipped, counted from the first."""
    number = int.from_bytes(octets, "big")
    for bit in bits:
        number ^= 1 << 8 * len(octets) - 1 - bit
    return number.to_bytes(len(octets), "big")


def counts_of(bench: Bench) -> Dict[str, int]:
    """Returns what the state counts of CLTUs."""
    return {what: count for what, count in bench.state()["cltu"].items() if what not in ("mode", "randomised", "most_frames")}


# --- What each mode takes of wrong bits ---

class Traffic(NamedTuple):
    """What came of CLTUs with wrong bits in one mode."""

    bench: Bench
    # The frames whose packets must come by TCP, by their number, and what must be counted.
    good: List[int]
    wanted: Dict[str, int]
    by_tcp: bytes
    by_udp: bytes
    counts: Dict[str, int]
    port: Any
    metrics: str
    ended: Tuple[int, str, str]


@pytest.fixture(scope="module", params=[(mode, randomised) for mode in ("correct", "detect") for randomised in (False, True)],
                ids=["correct", "correct-randomised", "detect", "detect-randomised"], name="traffic")
def have_traffic(request: pytest.FixtureRequest, tmp_path_factory: pytest.TempPathFactory, cltus_of: MakeCltus) -> Traffic:
    """Has CLTUs with wrong bits come in one mode. The second one has a wrong bit in a block, the third two, the fourth is of another spacecraft, and
    the last of those by TCP has a wrong bit in its start sequence. Then two come by UDP, and one that is parted between two datagrams."""
    mode, randomised = request.param
    bench = start_with_page(tmp_path_factory.mktemp("traffic"), "--cltu", mode, *["--randomised"] * randomised, "--tc-tcp", "0", "--tc-udp", "0",
                            "--packets-tcp", "0")
    frames = [frame(0, whole(0, numbered(5, number)), bypass=1) for number in range(6)] + [frame(0, whole(0, ONE), scid=43), UNLOCK]
    cltus = cltus_of([*frames, frame(0, whole(0, numbered(5, 8)), bypass=1)], randomised)
    octets = IDLE.join([b"\x00\xff", cltus[0], flipped(cltus[1], 20), flipped(cltus[2], 20, 21), cltus[6], cltus[3], cltus[7], flipped(cltus[8], 3),
                        b""])
    good = [0, 1, 3, 8] if mode == "correct" else [0, 3]
    wanted = {"refused_candidates": 1, "cltus": len(good) + 4, "corrected_blocks": int(mode == "correct"),
              "rejected_blocks": 1 if mode == "correct" else 2, "overlong_cltus": 0, "overfull_cltus": 0}
    with bench.reader() as packets, bench.connect("tc-tcp") as sender:
        for place in range(0, len(octets), 5):
            sender.sendall(octets[place:place + 5])
            time.sleep(0.001)
        by_tcp = read_count(packets, 7 * len(good))
        for datagram in (cltus[4][:12], cltus[4][12:], b"", IDLE + cltus[4] + cltus[5]):
            bench.datagram(datagram)
        by_udp = read_count(packets, 14)
        until(lambda: counts_of(bench) == wanted)
        counts = counts_of(bench)
    return Traffic(bench, good, wanted, by_tcp, by_udp, counts, bench.port("tc-udp"), bench.get("/metrics")[1], bench.end())


def test_frames_of_cltus_with_wrong_bits_come_by_tcp_as_the_mode_has_it(traffic: Traffic) -> None:
    """The mode `correct` corrects one wrong bit of a block or a start sequence. The mode `detect` takes none."""
    assert traffic.by_tcp == b"".join(numbered(5, number) for number in traffic.good)


def test_cltu_in_one_datagram_comes_and_one_in_two_does_not(traffic: Traffic) -> None:
    """There are four datagrams, one of them empty, and one of them with two CLTUs."""
    assert traffic.by_udp == numbered(5, 4) + numbered(5, 5)
    assert (traffic.port["datagrams"], traffic.port["cltus"]) == (4, 2)


def test_cltus_and_their_blocks_are_counted_in_the_state(traffic: Traffic) -> None:
    """Compares all counts."""
    assert traffic.counts == traffic.wanted


def test_cltus_and_their_blocks_are_counted_for_prometheus(traffic: Traffic) -> None:
    """Compares all counts."""
    lines = traffic.metrics.splitlines()
    assert [name for name, count in traffic.wanted.items() if f"tcrx_{name}_total {count}" not in lines] == []


def test_final_report_after_cltus(traffic: Traffic) -> None:
    """Nothing is on standard error."""
    count = len(traffic.good)
    assert traffic.ended == (0, f"final 1 {word_of(1, 0, (count + 3) % 4, 0)} events {2 * count + 5} buffered 0\nqueue 1 5 0\n", "")


def test_log_has_the_counts_of_cltus_at_its_end(traffic: Traffic) -> None:
    """Compares four of them."""
    said = [re.findall(rf" {name} (\d+)", line) for line in lines_of(traffic.bench.log) if line.startswith("# cltu: ") for name in COUNTED]
    assert [int(found[0]) for found in said] == [traffic.wanted[name] for name in COUNTED]


def test_log_has_the_counts_of_each_piece_with_cltus(traffic: Traffic) -> None:
    """Compares the sums of three of them."""
    parts = [re.fullmatch(r"# \d+\.\d{6} cltu tc-(?:tcp|udp) 127\.0\.0\.1:\d+ found (\d+) corrected (\d+) rejected (\d+) overlong 0", line)
             for line in lines_of(traffic.bench.log) if " cltu tc-" in line]
    assert [sum(int(part[place]) for part in parts if part) for place in (1, 2, 3)] == [traffic.wanted[name] for name in COUNTED[:3]]


def test_log_of_cltus_is_replayed(traffic: Traffic) -> None:
    """Compares the answers in the log with those of tcrx, and by --replay."""
    replays(traffic.bench, "CLTUs")


# --- CLTUs with several frames, and with too much ---

@pytest.mark.parametrize("fecf, randomised", [(False, False), (True, True)], ids=["plain", "randomised and with sums"])
def test_all_frames_of_cltus_with_several_frames_come(bench: Start, cltus_of: MakeCltus, fecf: bool, randomised: bool) -> None:
    """Each of 400 CLTUs has one to four frames of any length, and a wrong bit."""
    @settings(max_examples=2)
    @given(st.randoms(use_true_random=True))
    def try_cltus(dice: random.Random) -> None:
        count, carried = 0, []
        for _ in range(400):
            numbers = range(count, count := count + dice.randrange(1, 5))
            carried.append(b"".join(frame(0, whole(0, numbered(5, number) + bytes(dice.randrange(200))), bypass=1, fecf=fecf) for number in numbers))
        running = bench("--cltu", "correct", "--cltu-frames", "4", *["--randomised"] * randomised, *["--fecf"] * fecf, "--tc-tcp", "0",
                        "--packets-tcp", "0")
        with running.reader() as packets, running.connect("tc-tcp") as sender:
            sender.sendall(b"".join(IDLE + flipped(cltu, 40) for cltu in cltus_of(carried, randomised)))
            assert read_count(packets, 7 * count) == b"".join(numbered(5, number) for number in range(count))
        assert [counts_of(running)[what] for what in ("cltus", "refused_candidates", "overfull_cltus")] == [400, 0, 0]
        ends(running, "CLTUs of several frames")
    try_cltus()  # pylint: disable=no-value-for-parameter  # hypothesis draws them


def test_cltus_that_carry_too_much_are_counted_noted_and_logged(bench: Start, cltus_of: MakeCltus) -> None:
    """Two have more frames than may be, and their first frames come. One carries more octets than may be. The next one comes whole."""
    two = [frame(0, whole(0, numbered(5, number)), bypass=1) for number in range(2)]
    long = cltus_of([bytes(1029)])[0]
    overfull = cltus_of([two[0] + two[1], two[0] + b"\x40" + two[1][1:]])
    running = bench("--cltu", "detect", "--tc-udp", "0", "--packets-tcp", "0")
    with running.reader() as packets:
        for octets in (*overfull, long[:-8] + long[2:], *cltus_of([two[1]])):
            running.datagram(octets)
        assert read_count(packets, 21) == numbered(5, 0) * 2 + numbered(5, 1)
    wanted = {"cltus": 3, "corrected_blocks": 0, "rejected_blocks": 0, "refused_candidates": 0, "overlong_cltus": 1, "overfull_cltus": 2}
    until(lambda: counts_of(running) == wanted)
    assert counts_of(running) == wanted
    port = running.port("tc-udp")
    assert [port.get(what) for what in ("datagrams", "frames", "cltus", "overlong_cltus", "overfull_cltus")] == [4, 3, 3, 1, 2]
    assert sorted(note["text"] for note in running.state()["notes"]) == [
        "a CLTU carried more than 1029 octets, and is left out",
        *(f"behind 1 frame of a CLTU 15 octets are left out{hint}" for hint in ("", ": see --cltu-frames"))]
    assert running.end()[0] == 0
    logged = running.log.read_text(encoding="ascii")
    assert len(re.findall(r" cltu tc-udp \S+ overfull frames 1 left 15$", logged, re.M)) == 2
    assert len(re.findall(r" overlong 1$", logged, re.M)) == 1


def test_second_frame_of_a_cltu_that_is_none_is_refused(bench: Start, cltus_of: MakeCltus) -> None:
    """Its version is wrong."""
    one, other = (frame(0, whole(0, numbered(5, number)), bypass=1) for number in range(2))
    running = bench("--cltu", "detect", "--cltu-frames", "2", "--tc-udp", "0")
    running.datagram(cltus_of([one + b"\x40" + other[1:]])[0])
    assert until(lambda: running.state()["frames"] == 2)
    assert (running.state()["refused"], counts_of(running)["refused_candidates"]) == ({"version": 1}, 1)
    assert running.end()[0] == 0


def test_frames_of_cltus_before_their_channel_is_set_up_are_counted_at_their_port(bench: Start, cltus_of: MakeCltus) -> None:
    """The first comes before any channel is set up, the second before its own."""
    running = bench("--cltu", "detect", "--tc-udp", "0", "--lines", "0", setup="")
    for count, cltu in enumerate(cltus_of([frame(0, whole(0, ONE), channel=channel) for channel in (1, 2, 1)]), 1):
        running.datagram(cltu)
        assert until(lambda count=count: running.state()["frames"] == count), f"frame {count} doesn't come"  # type: ignore[misc]
        running.ask("channel 1 10 8 0\n" * (count == 1))
    state, port = running.state(), running.port("tc-udp")
    assert (state["bad"], state["refused"], state["channels"][0]["vr"]) == ({"no channel": 1}, {"channel": 1}, 1)
    assert counts_of(running)["refused_candidates"] == 1
    assert [port[what] for what in ("datagrams", "cltus", "frames")] == [3, 3, 3]


def test_command_of_the_page_on_benches_sends_a_cltu(bench: Start, tcmake: Path) -> None:
    """It is run with a free port."""
    command, = re.findall(r"^printf .*tcmake.*$", (TOP / "docs/howto/bench.md").read_text(encoding="utf-8"), re.M)
    running = bench("--cltu", "correct", "--fecf", "--tc-tcp", "0")
    subprocess.run(["bash", "-c", command.replace("./tcmake", str(tcmake)).replace("10025", str(running.ports["tc-tcp"]))], check=True)
    assert until(lambda: running.state()["frames"] == 1)
    assert [channel["vr"] for channel in running.state()["channels"]] == [1]
    assert running.end()[0] == 0


# --- Connections with CLTUs ---

@pytest.fixture(name="pair")
def make_pair(cltus_of: MakeCltus) -> List[bytes]:
    """Returns the CLTUs of two Type-AD frames with a packet each."""
    return cltus_of([frame(number, whole(0, numbered(5, number))) for number in range(2)])


def test_cltus_that_are_mixed_on_two_connections_come(bench: Start, pair: List[bytes]) -> None:
    """Each connection has a decoder of its own."""
    running = bench("--cltu", "correct", "--tc-tcp", "0", "--packets-tcp", "0")
    with running.reader() as packets, running.connect("tc-tcp") as first, running.connect("tc-tcp") as second:
        for place in range(0, len(pair[0]), 3):
            for link, octets in ((first, pair[0]), (second, pair[1])):
                link.sendall(octets[place:place + 3])
                time.sleep(0.002)
        assert read_count(packets, 14) == numbered(5, 0) + numbered(5, 1)
    assert running.end()[0] == 0


def test_cltu_that_is_parted_between_two_connections_does_not_come(bench: Start, pair: List[bytes]) -> None:
    """The first connection is closed within the CLTU. The second one begins with its rest, and then has another CLTU, which comes."""
    running = bench("--cltu", "correct", "--tc-tcp", "0")
    for count, octets in enumerate((pair[0][:20], pair[0][20:], pair[0]), 1):
        with running.connect("tc-tcp") as sender:
            sender.sendall(octets)
        # pylint: disable-next=cell-var-from-loop  # it is called in this turn
        assert until(lambda: running.port("tc-tcp")["connections"] == count and not running.port("tc-tcp")["open"])
        assert (counts_of(running)["cltus"], running.state()["frames"]) == ((1, 1) if count == 3 else (0, 0)), f"connection {count}"
    assert running.end()[0] == 0


def test_browsers_are_turned_away_from_a_port_for_cltus(bench: Start, pair: List[bytes]) -> None:
    """The CLTU behind the request of a browser doesn't come, whatever the method is."""
    running = bench("--cltu", "correct", "--tc-tcp", "0")
    for method in METHODS:
        with running.connect("tc-tcp") as page:
            page.sendall(method + b"/ HTTP/1.1\r\nHost: 127.0.0.1\r\n\r\n" + b"x" * 40 + pair[0])
            assert read_all(page) == f"tcrx-bench: {BROWSER}\n".encode(), method
    assert (counts_of(running)["cltus"], running.state()["frames"]) == (0, 0)
    assert running.end()[0] == 0


@pytest.mark.parametrize("length", [6, 255, 256, 257, 1024])
def test_fill_behind_a_frame_is_left_out_of_the_log(length: int) -> None:
    """The frame has this many octets."""
    octets = frame(0, bytes(length - 5))
    assert without_fill(octets + b"\x55" * 6) == octets


# --- Telemetry ---

def fields_of(octets: bytes, fecf: bool) -> Tuple[int, int, int, str]:
    """Returns the spacecraft with the virtual channel, both counts and the CLCW of a telemetry frame, whose other fields and sum must be right."""
    end = len(octets) - 2 * fecf
    first = int.from_bytes(octets[:2], "big")
    assert (first >> 14, first & 1, octets[4:6].hex(), set(octets[6:end - 4])) == (0, 1, "1ffe", {0x55}), octets.hex()
    assert not fecf or sum_of(octets[:-2]) == octets[-2:], octets.hex()
    return first >> 1 & 0x1FFF, octets[2], octets[3], octets[end - 4:end].hex()


def frames_in(octets: bytes, length: int, fecf: bool) -> List[Tuple[int, int, int, str]]:
    """Returns the fields of each whole telemetry frame in octets."""
    return [fields_of(octets[at:at + length], fecf) for at in range(0, len(octets) - length + 1, length)]


class Telemetries(NamedTuple):
    """The options of telemetry frames: their length, whether they have a sum, and their virtual channel."""

    length: int
    fecf: bool
    vcid: int

    @property
    def words(self) -> List[str]:
        """Returns the options of the bench."""
        return ["--tm-rate", "200", "--tm-length", str(self.length), "--tm-vcid", str(self.vcid), *["--tm-fecf"] * self.fecf]


each_layout = pytest.mark.parametrize(
    "layout", [Telemetries(11, False, 0), Telemetries(1115, True, 5), Telemetries(2048, True, 7), Telemetries(13, True, 0)],
    ids=lambda layout: f"{layout.length} octets")


@each_layout
def test_telemetry_frames_by_udp_have_counts_that_go_on_and_clcws_in_turn(bench: Start, layout: Telemetries) -> None:
    """Looks at 300 frames. Datagrams may be lost if this process isn't quick enough to read them, and then the counts go on by more than one."""
    with udp_socket() as target:
        running = bench("--tm-udp", f"127.0.0.1:{target.getsockname()[1]}", *layout.words, setup=TWO_CHANNELS)
        read = [target.recv(4096) for _ in range(300)]
    came = [fields_of(octets, layout.fecf) for octets in read]
    steps = [(after[1] - before[1]) % 256 for before, after in zip(came, came[1:])]
    assert came[0][1] == 0 and all(0 < step < 128 for step in steps)
    assert came == [(42 << 3 | layout.vcid, number, number, word_of(1 + number % 2, 0, 0, 7 * (number % 2))) for _, number, _, _ in came]
    assert running.end()[0] == 0


@each_layout
def test_telemetry_frames_by_tcp_have_the_newest_clcws_which_are_logged(bench: Start, layout: Telemetries) -> None:
    """The CLCWs change by a frame, by a flag of the link, and by a new receiver, whose log is a second one. The counts rise by one."""
    length, took = layout.length, bytearray()

    def last_words() -> Set[str]:
        end = len(took) // length * length
        return {clcw for *_, clcw in frames_in(bytes(took[max(0, end - 2 * length):end]), length, layout.fecf)}
    running = bench("--tm-tcp", "0", *layout.words, "--tc-udp", "0", "--lines", "0", setup=TWO_CHANNELS)
    changed, anew = {word_of(1, 0, 0, 1), f"{int(word_of(2, 0, 0, 7), 16) | 0x8000:08x}"}, {word_of(1, 0, 0, 0), word_of(2, 0, 0, 7)}
    with running.connect("tm-tcp") as reader:
        follower = threading.Thread(target=read_on, args=(reader, took), daemon=True)
        follower.start()
        running.datagram(frame(0, whole(0, ONE)))
        running.ask("link 2 1 0\n")
        assert until(lambda: last_words() == changed), f"{last_words()} and not {changed}"
        running.ask("anew\n")
        assert until(lambda: last_words() == anew), f"{last_words()} and not {anew}"
        assert until(lambda: len(took) > 260 * length)
        came = len(took) // length
        assert running.state()["telemetry"]["frames"] >= came
        assert running.end()[0] == 0
        follower.join()
    assert len(took) % length == 0
    frames = frames_in(bytes(took), length, layout.fecf)
    assert len(frames) > 256 and {frame_of[0] for frame_of in frames} == {42 << 3 | layout.vcid}
    assert all((after[1] - before[1]) % 256 == (after[2] - before[2]) % 256 == 1 for before, after in zip(frames, frames[1:]))
    logged = [line for log in (running.log, Path(f"{running.log}.2")) for line in lines_of(log) if " telemetry " in line]
    assert {line.rpartition(" ")[2] for line in logged} >= changed | anew
    assert any(re.match(rf"# \d+\.\d+ telemetry {frames[0][0] << 1 | 1:04x}ffff1ffe clcw ", line) for line in logged)


def test_clcw_of_the_channel_that_was_active_last_comes_first_in_marked_telemetry(bench: Start) -> None:
    """Then the turn goes on. With --tm-marker the marker precedes each frame."""
    running = bench("--tm-tcp", "0", "--tm-rate", "4", "--tm-length", "20", "--tm-marker", "--lines", "0", setup=TWO_CHANNELS)
    found = []
    with running.connect("tm-tcp") as reader:
        for number in range(8):
            octets = read_count(reader, 24)
            assert octets[:4].hex() == "1acffc1d"
            found.append(octets[21] >> 2)
            if number in (1, 4):
                # This is not the channel whose turn it is.
                running.ask(f"frame {frame(0, whole(0, ONE), channel=found[-1], bypass=1).hex()}\n")
    first = found[0]
    second = 3 - first
    assert found[:7] == [first, second, second, first, second, second, first]
    assert running.end()[0] == 0


def test_telemetry_by_udp_has_no_marker_if_that_by_tcp_has(bench: Start) -> None:
    """Looks at three frames by UDP, and at the first octets by TCP."""
    with udp_socket() as target:
        running = bench("--tm-tcp", "0", "--tm-udp", f"127.0.0.1:{target.getsockname()[1]}", "--tm-rate", "20", "--tm-length", "20", "--tm-marker")
        with running.connect("tm-tcp") as reader:
            assert [fields_of(target.recv(99), False)[::3] for _ in range(3)] == [(42 << 3, word_of(1, 0, 0, 0))] * 3
            assert read_count(reader, 4).hex() == "1acffc1d"
    assert running.end()[0] == 0


def test_clcws_of_a_quiet_channel_come_beside_a_busy_one(monkeypatch: pytest.MonkeyPatch) -> None:
    """A frame comes on the busy channel before each of 12 telemetry frames."""
    sent: List[str] = []
    channels = {vcid: Mock(word=word_of(vcid, 0, 0, 0)) for vcid in (1, 2)}
    spacecraft = Mock(channels=channels, is_ending=False, scid=42, changes=0, **{"now.return_value": 0.0})
    monkeypatch.setattr(asyncio, "get_running_loop", lambda: Mock(**{"time.return_value": 0.0}))
    telemetry = Telemetry(Namespace(tm_rate=1.0, tm_vcid=0, tm_length=20, tm_fecf=False), spacecraft)
    telemetry.send = lambda octets: sent.append(octets[-4:].hex())
    for _ in range(12):
        spacecraft.active = 1
        telemetry._make_next()  # pylint: disable=protected-access  # it is called by a clock otherwise
    busy, quiet = word_of(1, 0, 0, 0), word_of(2, 0, 0, 0)
    # The busy one, one in turn, and so on.
    assert sent == [busy, busy, busy, quiet] * 3


# --- The pace of telemetry ---

class LateLoop:
    """A loop of asyncio with a clock of its own, whose calls come late."""

    def __init__(self) -> None:
        self.now = 7.0
        self.due: List[Tuple[float, Callable[[], None]]] = []

    def time(self) -> float:
        """Returns what its clock shows."""
        return self.now

    def call_at(self, at: float, call: Callable[[], None]) -> None:
        """Has something called at this time, or later."""
        self.due.append((at, call))

    def call_later(self, seconds: float, call: Callable[[], None]) -> None:
        """Has something called after so many seconds, or later."""
        self.call_at(self.now + seconds, call)


@pytest.mark.parametrize("delays, wanted", [
    ([0.0] * 300, [number / 100 for number in range(301)]),
    ([0.001] * 300, [0.0, *(round(number / 100 + 0.001, 6) for number in range(1, 301))]),
    ([0.0] * 10 + [0.5] + [0.0] * 100, [*(number / 100 for number in range(11)), *[0.61] * 51, *(number / 100 for number in range(62, 112))])],
    ids=["no call is late", "each call is a millisecond late", "one call is half a second late"])
def test_telemetry_frame_is_made_at_its_time_or_at_once_if_that_is_past(monkeypatch: pytest.MonkeyPatch, delays: List[float],
                                                                        wanted: List[float]) -> None:
    """Frame n is made n / rate after the first one, here at 100 a second, so that no delay adds up."""
    loop, times = LateLoop(), list[float]()
    spacecraft = Mock(is_ending=False, channels={1: Mock(word="01040001")}, scid=42, active=None, changes=0, **{"now.return_value": 0.0})
    monkeypatch.setattr(asyncio, "get_running_loop", lambda: loop)
    telemetry = Telemetry(Namespace(tm_vcid=0, tm_length=100, tm_rate=100, tm_fecf=False), spacecraft)
    telemetry.send = lambda octets: times.append(round(loop.now - 7, 6))
    telemetry.begin()
    for delay in delays:
        at, call = loop.due.pop()
        loop.now = max(loop.now, at) + delay
        call()
    assert times == wanted


def test_telemetry_goes_on_beside_a_sender_that_never_stops(bench: Start) -> None:
    """Reads 300 frames."""
    with udp_socket() as target:
        running = bench("--tm-udp", f"127.0.0.1:{target.getsockname()[1]}", "--tm-rate", "100", "--tc-tcp", "0", "--tm-length", "100")
        octets = b"".join(frame(number, whole(0, numbered(5, number))) for number in range(256))
        with running.connect("tc-tcp") as sender:
            sender.setblocking(False)
            for _ in range(300):
                try:
                    sender.send(octets)
                except BlockingIOError:
                    pass
                target.recv(4096)
        assert running.state()["telemetry"]["frames"] >= 300 and running.state()["frames"] > 300


# --- Readers of telemetry ---

def test_slow_reader_of_telemetry_loses_whole_frames_the_oldest(bench: Start) -> None:
    """The count of the lost frames is that by which the count in the frames goes on."""
    running = bench("--tm-tcp", "0", "--tm-rate", "1000", "--tm-length", "2048", "--tm-fecf")
    with running.connect("tm-tcp", buffer=4096) as reader:
        assert until(lambda: running.port("tm-tcp").get("lost", 0) > 100)
        # More than waits for it here and in the kernel, so that it has come to the newest.
        raw = [read_count(reader, 2048) for _ in range(6000)]
        lost = running.port("tm-tcp")["lost"]
    assert all(octets[:2] == raw[0][:2] and octets[4:7] == b"\x1f\xfe\x55" for octets in raw)
    assert [fields_of(octets, True)[1] for octets in raw[-20:]] == [(raw[0][2] + lost + number) % 256 for number in range(5980, 6000)]
    assert running.end()[0] == 0


def test_share_of_telemetry_is_lost_on_purpose(bench: Start) -> None:
    """Half of it is, by a draw of the bench."""
    running = bench("--tm-tcp", "0", "--tm-rate", "1000", "--tm-length", "20", "--drop-clcw", "0.5")
    with running.connect("tm-tcp") as reader:
        counts = [fields_of(read_count(reader, 20), False)[1] for _ in range(400)]
    steps = Counter((after - before) % 256 for before, after in zip(counts, counts[1:]))
    assert 150 < steps[1] < 250 and running.port("tm-tcp")["dropped"] >= 200
    assert running.end()[0] == 0


def test_telemetry_begins_once_there_is_a_channel(bench: Start) -> None:
    """There is none for ten times the time between two frames."""
    running = bench("--tm-tcp", "0", "--tm-rate", "100", "--lines", "0", setup="")
    with running.connect("tm-tcp") as reader:
        time.sleep(0.1)
        assert running.state()["telemetry"]["frames"] == 0
        running.ask("channel 3 10 8 9\nqueue 3 5 4\n")
        assert fields_of(read_count(reader, 1115), False) == (42 << 3, 0, 0, word_of(3, 0, 0, 9))
    assert running.end()[0] == 0


# --- The loop over both edges ---

@pytest.mark.parametrize("udp", [False, True], ids=["TCP", "UDP"])
@pytest.mark.parametrize("mode", ["correct", "detect"])
def test_all_packets_come_over_the_closed_loop(seed: int, mode: str, udp: bool) -> None:
    """Each comes once and in order, and the bench, which watches the sender, reports no breach. With -rP it is shown how many frames that took."""
    said = bench_cltu.run(seed, udp, mode, (seed + udp) % 2 == 1)
    print(said)
    assert re.fullmatch(r"300 packets came in their order, each once; \d+ frames were sent, \d+ of them Unlocks\n"
                        r"sender of channel 1, window 10: \d+ frames, 0 breaches; every packet once and in order", said)


def test_sender_of_the_closed_loop_sees_a_wrong_octet(monkeypatch: pytest.MonkeyPatch) -> None:
    """The link changes an octet of each frame, and the sum with it."""
    def change(_: object, past: List[bytes], __: bool) -> Iterator[bytes]:
        octets = past[-1][:-3] + bytes([past[-1][-3] ^ 1])
        yield octets + sum_of(octets)
    monkeypatch.setattr(bench_cltu, "through", change)
    with pytest.raises(AssertionError):
        bench_cltu.run(1)
