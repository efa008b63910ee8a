"""What tcrx-bench does where things go wrong on purpose: with faults that its options inject, with receivers that a line begins anew, with a log that
can't go on, with pages that read slowly, and in the demonstration (--demo)."""
from __future__ import annotations

import os
import pty
import re
import signal
import socket
import sys
import termios
import threading
import time
from argparse import Namespace
from pathlib import Path
from typing import Any, Callable, Dict, Iterator, List, Tuple
from unittest.mock import Mock, patch

import pytest
from bench_parts import PROGRAM, Bench, lines_of, numbered, read_count, replay, word_of
from client_parts import ONE, frame, whole
from comparing import PATIENCE, run, until
from tcrx.bench.faults import Faults
from tcrx.bench.web import Follower, Web

pytest_plugins = "bench_fixtures"  # pylint: disable=invalid-name  # pytest reads this name
Benches = Callable[..., Bench]
Counts = Dict[str, int]
FRAMES = 40
SUMMED = [frame(number, whole(0, numbered(5, number)), fecf=True) for number in range(FRAMES)]
FIRST = f"frame {frame(0, whole(0, ONE)).hex()}\n"


# --- Faults that options inject ---

def counted_by(faulty: Bench, kind: str) -> Counts:
    """Returns what is counted at a port, but for its connections."""
    return {what: count for what, count in faulty.port(kind).items() if what not in ("port", "address", "open", "peers", "connections")}


@pytest.mark.parametrize("option, at_frames, at_clcws, events, refused", [
    pytest.param("--drop", {"dropped": FRAMES}, {}, {}, {}, id="drop"),
    pytest.param("--twice", {"repeated": FRAMES}, {"sent": 2 * FRAMES}, {"E1": FRAMES, "E4": FRAMES}, {}, id="twice"),
    pytest.param("--flip", {"flipped": FRAMES}, {}, {}, {"check": FRAMES}, id="flip"),
    pytest.param("--drop-clcw", {}, {"dropped": FRAMES}, {"E1": FRAMES}, {}, id="drop-clcw")])
# pylint: disable-next=too-many-arguments  # all of them belong to one option
def test_a_fault_of_all_frames_is_counted(bench: Benches, option: str, at_frames: Counts, at_clcws: Counts, events: Counts, refused: Counts) -> None:
    """The ports for frames and CLCWs count it, and the state has the events and refusals that it leads to."""
    faulty = bench("--fecf", "--tc-tcp", "0", "--clcw-tcp", "0", "--http", "0", "--period", "0", option, "1")

    def counted() -> Tuple[Counts, Counts, int]:
        return counted_by(faulty, "tc-tcp"), counted_by(faulty, "clcw-tcp"), faulty.state()["frames"]
    wanted = ({"frames": FRAMES, **at_frames}, at_clcws, sum(events.values()) + sum(refused.values()))
    with faulty.reader("clcw-tcp"), faulty.connect("tc-tcp") as sender:
        sender.sendall(b"".join(SUMMED))
        until(lambda: counted() == wanted)
        assert counted() == wanted
        state = faulty.state()
    assert {event: count for event, count in state["channels"][0]["events"].items() if count} == events
    assert state["refused"] == refused
    assert faulty.end()[0] == 0


def order_of(bench: Benches, *words: str) -> List[int]:
    """Returns the numbers of the frames that reach the receiver, in their order."""
    faulty = bench("--fecf", "--tc-udp", "0", "--http", "0", "--period", "0", *words)
    for each in SUMMED:
        faulty.datagram(each)

    def all_came() -> bool:
        port = faulty.port("tc-udp")
        return bool(port.get("frames") == FRAMES and faulty.state()["frames"] + port.get("dropped", 0) == FRAMES)
    assert until(all_came), faulty.port("tc-udp")
    assert faulty.end()[0] == 0
    return [int(line[17:19], 16) for line in lines_of(faulty.log) if line.startswith("#* frame")]


def test_a_seed_drops_the_same_frames_again(bench: Benches) -> None:
    """Another seed drops others."""
    one, again, other = (order_of(bench, "--drop", "0.5", "--seed", seed) for seed in ("3", "3", "4"))
    assert one == again != other
    assert 5 < len(one) < FRAMES - 5 and one == sorted(one)


def test_delayed_frames_come_in_another_order(bench: Benches) -> None:
    """Each of them comes once."""
    late = order_of(bench, "--delay", "0.3")
    assert sorted(late) == list(range(FRAMES)) != late


def faults_of(hub: Mock, **chosen: float) -> Faults:
    """Returns the faults of a bench with these options."""
    options = Namespace(**{"drop": 0.0, "twice": 0.0, "flip": 0.0, "delay": 0.0, "drop_clcw": 0.0, "seed": 1, **chosen})
    with patch("asyncio.get_running_loop", return_value=Mock()):
        return Faults(options, hub)


def throw(count: int, octets: bytes, clcws: bool = False, **chosen: float) -> List[bytes]:
    """Has so many frames, or octets with the number of each frame, come to the faults with these options. Returns what reaches the receiver."""
    came: List[bytes] = []
    port = Mock(**{"place.kind": "tc-udp"})
    faults = faults_of(Mock(ports=[port], **{"spacecraft.bring": lambda octets, source: came.append(octets)}), drop_clcw=0.5, **chosen)
    for number in range(count):
        port.bring(octets or bytes([number]), "")
        if clcws:
            faults.sender(lambda octets: None, [])(b"")
    return came


def test_each_bit_is_flipped() -> None:
    """One bit is flipped at a time."""
    turned = [int.from_bytes(each, "big") for each in throw(999, bytes(2), flip=1.0)]
    assert (set(turned), len(turned)) == ({1 << bit for bit in range(16)}, 999)


def test_a_repeat_is_flipped_independently() -> None:
    """Both, one of them, or none of the two are flipped."""
    pairs = throw(99, b"\0", flip=0.5, twice=1.0)
    assert {(bool(one[0]), bool(other[0])) for one, other in zip(pairs[::2], pairs[1::2])} == {
        (one, other) for one in (False, True) for other in (False, True)}


def test_lost_clcws_change_nothing_for_frames() -> None:
    """The same frames are lost."""
    assert throw(99, b"", clcws=True, drop=0.5) == throw(99, b"", drop=0.5)


def test_2048_frames_are_delayed_at_a_time() -> None:
    """The next frame comes at once, and once one has come another one is delayed. None comes at the end."""
    came: List[bytes] = []
    port = Mock(**{"place.kind": "tc-udp"})
    hub = Mock(ports=[port], **{"spacecraft.bring": lambda octets, source: came.append(octets), "spacecraft.is_ending": False})
    faults = faults_of(hub, delay=9.0)
    for number in range(2049):
        port.bring(number.to_bytes(2, "big"), "")
    assert came == [(2048).to_bytes(2, "big")]
    first, second = (call.args for call in faults.loop.call_later.call_args_list[:2])  # type: ignore[attr-defined]
    first[1](*first[2:])
    port.bring(b"next", "")
    hub.spacecraft.is_ending = True
    second[1](*second[2:])
    assert (came[1:], len(port.count.call_args_list)) == ([bytes(2)], 2049)


# --- A receiver that is begun anew ---

def test_a_new_receiver_has_channels_and_counts_of_its_own(bench: Benches) -> None:
    """What the old one was to release isn't released in the new one. A link that was lost is reported to the new one."""
    begun = bench("--lines", "0", "--packets-tcp", "0", "--http", "0", "--period", "0", "--release-after", "1", "--link-timeout", "3")
    with begun.connect("packets-tcp") as packets:
        begun.ask(f"channel 63 10 8 0\n{''.join(f'queue 63 {apid} 4{chr(10)}' for apid in range(300))}{FIRST}")
        old = begun.state()["channels"]
        assert [(channel["channel"], channel["buffer"]["used"], len(channel["queues"])) for channel in old] == [(1, 1, 1), (63, 0, 300)]
        begun.ask("anew\n")
        # So its own release comes later than that of the old receiver would.
        time.sleep(0.5)
        new = begun.state()["channels"]
        assert [(channel["channel"], channel["buffer"]["used"], sum(channel["events"].values())) for channel in new] == [(1, 0, 0)]
        begun.ask(FIRST)
        assert read_count(packets, len(ONE)) == ONE
    log = Path(f"{begun.log}.2")
    assert until(lambda: " release\n" in log.read_text(encoding="utf-8"))
    came = re.findall(r"^# (\d+\.\d+) \d+\.\d+ (lines|release)", log.read_text(encoding="utf-8"), re.M)
    assert [source for _, source in came] == ["lines", "release"]
    assert float(came[1][0]) - float(came[0][0]) > 0.9
    lost = [f"clcw 1 {word_of(1, 24, 0, 1)}"]
    assert until(lambda: begun.ask("clcw 1\n") == lost)
    begun.ask("anew\n")
    assert until(lambda: begun.ask("clcw 1\n") == [f"clcw 1 {word_of(1, 24, 0, 0)}"], 5)
    assert "".join(f"queue 63 {apid} 0\n" for apid in range(300)) in begun.end()[1]


def test_lines_behind_anew_are_the_new_receivers(bench: Benches) -> None:
    """What comes before the line `anew` is the old receiver's. Each receiver has a log, which --replay accepts."""
    begun = bench("--tc-tcp", "0", "--packets-tcp", "0", "--lines", "0", "--http", "0", "--clcw-udp", "127.0.0.1:9", "--period", "0.0001")
    accepted, report = "frame 1 E1 accepted 1 queued 0 dropped 0 rest 0", f"final 1 {word_of(1, 0, 0, 1)} events 3 buffered 0\nqueue 1 5 0\n"
    with begun.reader() as packets, begun.connect("tc-tcp") as sender:
        sender.sendall(frame(0, whole(0, ONE)))
        assert read_count(packets, 7) == ONE
        answers = begun.ask(f"queue 1 9 1\nanew\nclcw 1\n{FIRST} link 1 1 0\nanew\n{FIRST}clcw 1\nanew now\n")
        assert [answer.partition(":")[0] for answer in answers] == [
            "bad too late", "anew 2", f"clcw 1 {word_of(1, 0, 0, 0)}", accepted, "link 1 1 0", "anew 3", accepted, f"clcw 1 {word_of(1, 0, 0, 1)}",
            "bad unknown command"]
        assert read_count(packets, 14) == ONE + ONE
        sender.sendall(frame(1, whole(0, ONE)))
        assert read_count(packets, 7) == ONE, "a packet of the last receiver, by an old connection"
    state = begun.state()
    assert (state["frames"], state["receiver"], state["channels"][0]["vr"]) == (4, "running", 2)
    assert [note["text"] for note in state["notes"]] == ["the receiver was begun anew"] * 2
    # Setting the flags of the link is no event, besides the frame, its release and its take.
    assert begun.end() == (0, f"{report * 2}final 1 {word_of(1, 0, 0, 2)} events 6 buffered 0\nqueue 1 5 0\n", "")
    for part in ("", ".2", ".3"):
        ran = run(sys.executable, PROGRAM, "--replay", f"{begun.log}{part}")
        assert ran.returncode == 0 and "and the final report are those of the log" in ran.stdout, part


def test_a_log_goes_on_under_the_next_free_number(bench: Benches) -> None:
    """Files that have the next numbers are kept."""
    begun = bench("--lines", "0")
    for number in (2, 3):
        (begun.folder / f"log.{number}").write_text("kept")
    assert begun.ask("anew\nclcw 1\nanew\n") == ["anew 4", f"clcw 1 {word_of(1, 0, 0, 0)}", "anew 5"]
    assert begun.end()[::2] == (0, "")
    assert [(begun.folder / f"log.{number}").read_text() for number in (2, 3)] == ["kept"] * 2
    said = [run(sys.executable, PROGRAM, "--replay", f"{begun.log}{part}").stdout for part in ("", ".4", ".5")]
    assert said == [f"{count} answers and the final report are those of the log\n" for count in (0, 1, 0)]


def test_a_log_whose_folder_is_gone(bench: Benches, tmp_path: Path) -> None:
    """The bench says that the log can't go on, and goes on itself. --replay accepts what is there."""
    begun = bench("--lines", "0")
    begun.log = begun.folder.rename(tmp_path / "moved") / "log"
    assert begun.ask("anew\nclcw 1\n") == ["anew 2", f"clcw 1 {word_of(1, 0, 0, 0)}"]
    assert begun.end()[::2] == (1, "tcrx-bench: the log can't be written: No such file or directory; it ends here, and the bench goes on\n")
    assert replay(begun).returncode == 0


# --- Pages that look at the bench ---

def test_the_state_is_made_once_for_pages_that_have_seen_the_same() -> None:
    """A page that doesn't read is sent nothing."""
    pages = [Mock(paused=number == 0, seen=number // 20) for number in range(32)]
    web = Mock(followers=pages, spacecraft=Mock(count_of_events=7, changes=3))
    web.state.side_effect = lambda since: {"since": since}
    Web.send(web)
    assert [call.args for call in web.state.call_args_list] == [(0,), (1,)]
    texts = [(b'data: {"since": %d}\n\n' % seen, 7, 3) for seen in (0, 1)]
    assert [page.send.call_args and page.send.call_args.args for page in pages] == [None, *texts[:1] * 19, *texts[1:] * 12]


def test_a_slow_page_is_sent_the_newest_state_once_it_reads() -> None:
    """Nothing has changed since then. After that nothing more is sent."""
    web = Mock(hub=Mock(closed=False), spacecraft=Mock(changes=3, count_of_events=7), followers=[])
    web.state.return_value, web.send = {}, lambda: Web.send(web)
    pages = [Follower(Mock(paused=slow, web=web)) for slow in (False, True)]
    sent = []
    for slow in (True, False, False):
        pages[1].visitor.paused = slow
        Web._tick(web)  # pylint: disable=protected-access  # it is called by a clock otherwise
        sent.append([page.visitor.transport.write.call_count - 1 for page in pages])  # type: ignore[attr-defined]
    assert sent == [[1, 0], [2, 1], [2, 1]]


# --- The demonstration ---

@pytest.fixture(name="terminal")
def open_terminal() -> Iterator[Tuple[int, int]]:
    """Returns both ends of a terminal: that of a user, and that of a program."""
    ends = pty.openpty()
    yield ends
    for end in ends:
        os.close(end)


def test_the_demonstration_obeys_keys(bench: Benches, terminal: Tuple[int, int]) -> None:
    """Packets come although frames are lost. One key has the next frames be lost, one locks the channel out, one unlocks it, and one ends the
    demonstration. All packets that were taken came once and in order, by their own numbers."""
    user, keys = terminal
    before = termios.tcgetattr(keys)
    shown = bench("--demo", "--lines", "0", setup="", stdin=keys)
    assert shown.child.stdout
    assert [shown.child.stdout.readline().decode() for _ in range(2)] == [
        f"open http://127.0.0.1:{shown.ports['http']}/\n", "keys: l loses the next frames, o locks channel 1 out, u unlocks it, q ends\n"]

    def channel(number: int) -> Any:
        return shown.state()["channels"][number - 1]
    assert until(lambda: channel(1)["vr"] > 4 and channel(2)["vr"] > 4 and shown.state()["packets"] > 8), shown.state()["channels"]
    assert termios.tcgetattr(keys) != before, "keys aren't read at once"
    os.write(user, b"l")
    os.write(user, b"o")
    assert until(lambda: channel(1)["lockout"]), channel(1)
    locked = channel(1)["vr"]
    os.write(user, b"u")
    assert until(lambda: not channel(1)["lockout"] and channel(1)["vr"] not in (locked, locked + 1)), channel(1)
    assert until(lambda: shown.port("tc-udp").get("dropped", 0) > 0)
    os.write(user, b"q")
    status, printed, error = shown.ended()
    assert (status, error, termios.tcgetattr(keys)) == (0, "", before)
    assert re.fullmatch(r"final 1 .*\nqueue 1 5 \d+\nfinal 2 .*\nqueue 2 6 \d+\n", printed)
    for apid in (5, 6):
        numbers = [int(line[-8:], 16) for line in lines_of(shown.log) if re.match(rf"#= take \d {apid} ", line)]
        assert numbers == list(range(len(numbers))) and len(numbers) > 4, apid


class Shell:
    """An interactive shell in a terminal of its own, and what is printed there."""

    def __init__(self) -> None:
        self.pid, self.terminal = pty.fork()
        if self.pid == 0:
            # The lines that are typed here go into no history of the user.
            os.execvpe("bash", ["bash", "--norc", "-i"], {**os.environ, "HISTFILE": ""})
        self.said = bytearray()
        self.listener = threading.Thread(target=self.listen)
        self.listener.start()

    def listen(self) -> None:
        """Reads until the shell ends."""
        try:
            while more := os.read(self.terminal, 4096):
                self.said.extend(more)
        except OSError:
            pass

    def type(self, text: str) -> None:
        """Types a text."""
        os.write(self.terminal, text.encode())

    def close(self) -> None:
        """Ends the shell, and its jobs, as the shell passes this signal on to them."""
        os.kill(self.pid, signal.SIGHUP)
        os.waitpid(self.pid, 0)
        self.listener.join()
        os.close(self.terminal)


@pytest.fixture(name="shell")
def begin_shell() -> Iterator[Shell]:
    """Returns an interactive shell, which is ended when the test ends."""
    begun = Shell()
    yield begun
    begun.close()


@pytest.mark.usefixtures("library")
def test_the_demonstration_as_a_job_in_the_background(shell: Shell, tmp_path: Path) -> None:
    """It isn't stopped, and reads keys once it is in the foreground."""
    shell.type(f"cd {tmp_path}; {sys.executable} {PROGRAM} --demo &\n")
    assert until(lambda: b"q ends\r\n" in shell.said), bytes(shell.said)
    found = re.search(rb"open http://127\.0\.0\.1:(\d+)/", shell.said)
    assert found
    with socket.create_connection(("127.0.0.1", int(found[1])), PATIENCE) as link:
        link.sendall(b"GET /events HTTP/1.1\r\n\r\n")
        with link.makefile("rb") as events:
            counts = (int(count[1]) for line in events if (count := re.search(rb'"frames": (\d+)', line)))
            assert any(count > 8 for count in counts), bytes(shell.said)
    shell.type("fg\n")

    def has_ended() -> bool:
        shell.type("q")
        return b"final 2 " in shell.said
    assert until(has_ended), bytes(shell.said)
