"""Shows what users of the Python package see: the answers of a receiver in the process and of one behind a connection, their faults and their
types. It also runs the sender's bench over bad links, and the commands and programs that docs/howto/bench.md and docs/howto/sender.md show.
tests/test_client_ends.py has what else can go wrong, and tests/test_drawn.py compares the answers line by line with the model.
"""
from __future__ import annotations

import ast
import importlib.util
import os
import re
import select
import shutil
import socket
import subprocess
import sys
import sysconfig
import termios
import threading
import time
from concurrent.futures import ThreadPoolExecutor
from pathlib import Path
from typing import Any, Callable, Iterator

import pytest

import bench
from bench_parts import free_port, read_count
from client_parts import CLIENT, NOTHING, ONE, SET_VR_9, UNLOCK, frame, packet, whole, word
from comparing import PATIENCE, TOP, run, until
from tcrx import (BadLine, Brought, Collected, Delivery, Ended, Event, Final, NotSetUp, Outcome, Packet, Receiver, Refusal, Refused, Released,
                  RemoteReceiver, Report, State, Unit)

# pylint: disable=redefined-outer-name  # a test takes a fixture by its name
pytestmark = [pytest.mark.quick, pytest.mark.usefixtures("library")]
BENCH, PAGE, SENDER, TUTORIAL = TOP / "examples/bench.py", TOP / "docs/howto/bench.md", TOP / "docs/howto/sender.md", TOP / "docs/tutorial.md"
SEEDS = range(20)
# A call of a receiver.
Call = Callable[[Any], object]


@pytest.fixture
def local() -> Iterator[Receiver]:
    """Yields a receiver in this process."""
    with Receiver(42) as started:
        yield started


@pytest.fixture
def served(tclive: Path, begin: Callable[..., Any]) -> Iterator[tuple[socket.socket, Any]]:
    """Yields a connection over TCP, and the tclive at its other end, which must end when the connection is closed."""
    with socket.create_server(("localhost", 0)) as server, socket.create_connection(server.getsockname(), timeout=PATIENCE) as connection:
        accepted, _ = server.accept()
        with accepted:
            child = begin(tclive, "--scid", 42, stdin=accepted, stdout=accepted)
        yield connection, child
    child.wait(PATIENCE)


@pytest.fixture
def remote(served: tuple[socket.socket, Any]) -> RemoteReceiver:
    """Returns a receiver behind a connection."""
    return RemoteReceiver(served[0])


@pytest.fixture(params=["local", "remote"])
def receiver(request: pytest.FixtureRequest) -> Any:
    """Returns a receiver of each kind, for one test each."""
    return request.getfixturevalue(request.param)


# --- Answers ---

def test_a_frame_has_the_outcome_of_its_event(receiver: Any) -> None:
    """One channel meets every event, as the frames come in this order."""
    receiver.channel(1, width=10, buffer=1, first=7)
    rows = [(frame(7, whole(0, ONE)), Event.E1, Outcome.ACCEPTED), (frame(7, whole(0, ONE)), Event.E4, Outcome.DISCARDED),
            (frame(12, whole(0, ONE)), Event.E3, Outcome.DISCARDED), (frame(8, whole(0, ONE)), Event.E2, Outcome.DISCARDED),
            (frame(0, whole(0, ONE), bypass=1), Event.E6, Outcome.ACCEPTED), (frame(13, whole(0, ONE)), Event.E5, Outcome.LOCKOUT),
            (SET_VR_9, Event.E8, Outcome.COMMAND), (frame(0, whole(0, ONE), command=1), Event.E9, Outcome.DISCARDED),
            # In lockout only E5 has this outcome, although the CLCW has the flag after each frame.
            (UNLOCK, Event.E7, Outcome.COMMAND), (frame(200, whole(0, ONE)), Event.E5, Outcome.LOCKOUT),
            (frame(12, whole(0, ONE)), Event.E3, Outcome.DISCARDED)]
    answers = [receiver.bring(octets) for octets, _, _ in rows]
    assert [(brought.channel, brought.event, brought.outcome) for brought in answers] == [(1, event, outcome) for _, event, outcome in rows]


def test_an_open_receiver_has_no_final_report(receiver: Any) -> None:
    """Reading the attribute `final` raises an exception."""
    with pytest.raises(ValueError) as fault:
        _ = receiver.final
    assert fault.type is ValueError


def test_a_second_close_returns_the_same_report(receiver: Any) -> None:
    """The attribute `final` has this report, too."""
    receiver.channel(1, width=10, buffer=1, first=7)
    wanted = {1: Final(word(1, 0, 0, 7), 0, 0)}
    assert receiver.close() == wanted
    assert (receiver.close(), receiver.final) == (wanted, wanted)


def test_a_closed_receiver_has_ended(receiver: Any) -> None:
    """A call after the close raises an exception."""
    receiver.channel(1, width=10, buffer=1, first=7)
    receiver.close()
    with pytest.raises(Ended) as fault:
        receiver.clcw(1)
    assert fault.type is Ended


def test_a_candidate_may_have_fill(receiver: Any) -> None:
    """The octets after the frame are left out."""
    receiver.channel(1, width=10, buffer=2, first=0)
    assert receiver.candidate(frame(0, whole(0, ONE)) + b"\x55" * 6) == Brought(1, Event.E1, True, NOTHING)


def test_a_candidate_with_more_than_fill_is_refused(receiver: Any) -> None:
    """The receiver goes on as it was."""
    receiver.channel(1, width=10, buffer=2, first=0)
    assert receiver.candidate(frame(0, whole(0, ONE)) + b"\x55" * 7) == Refused(Refusal.MORE)
    assert receiver.candidate(frame(0, whole(0, ONE))) == Brought(1, Event.E1, True, NOTHING)


def test_collect_takes_everything_and_releases_nothing(receiver: Any) -> None:
    """A data field stays in the buffer."""
    receiver.channel(1, width=10, buffer=2, first=0)
    receiver.queue(1, 5, 2)
    receiver.map(1, 4, 2)
    for octets in (frame(0, whole(0, ONE)), frame(0, whole(0, ONE), bypass=1), frame(0, whole(4, b"\xfe"), bypass=1)):
        receiver.bring(octets)
    assert receiver.collect(1) == Collected(1, (Packet(1, 5, ONE), Unit(1, 4, b"\xfe")), word(1, 0, 2, 1))
    assert receiver.collect(1) == Collected(1, (), word(1, 0, 2, 1))
    assert receiver.report(1) == Report(1, State.OPEN, 1, False, False, False, 2, 1, {5: 0}, {4: 0})


def test_collect_of_a_channel_that_is_not_set_up_is_refused(receiver: Any) -> None:
    """The answer to this line is a single line. To a good one several lines come."""
    receiver.channel(1, width=10, buffer=2, first=0)
    assert receiver.collect(2) == Refused(Refusal.CHANNEL)


# --- Packets and units one by one ---

@pytest.fixture
def waiting(local: Receiver) -> Receiver:
    """Returns a receiver in which two packets of application 5 wait, and a unit of MAP 4."""
    local.channel(1, width=10, buffer=1, first=0)
    local.queue(1, 5, 2)
    local.map(1, 4, 2)
    local.bring(frame(0, whole(0, packet(5, 1) + packet(5, 2)), bypass=1))
    local.bring(frame(0, whole(4, b"\xfe"), bypass=1))
    return local


def test_packets_are_yielded_once(waiting: Receiver) -> None:
    """The oldest packet comes first. A second iterator yields nothing."""
    assert [list(waiting.packets(1, 5)) for _ in range(2)] == [[packet(5, 1), packet(5, 2)], []]


def test_units_are_yielded_once(waiting: Receiver) -> None:
    """A second iterator yields nothing."""
    assert [list(waiting.units(1, 4)) for _ in range(2)] == [[b"\xfe"], []]


@pytest.mark.parametrize("name, vcid, key, why", [("packets", 1, 6, Refusal.NO_QUEUE), ("packets", 2, 5, Refusal.CHANNEL),
                                                  ("units", 1, 5, Refusal.NO_MAP), ("units", 2, 4, Refusal.CHANNEL)])
def test_there_is_no_iterator_over_what_is_not_set_up(waiting: Receiver, name: str, vcid: int, key: int, why: Refusal) -> None:
    """The exception has the refusal."""
    with pytest.raises(NotSetUp) as fault:
        list(getattr(waiting, name)(vcid, key))
    assert (fault.type, fault.value.refused) == (NotSetUp, Refused(why))


@pytest.mark.parametrize("kind", [bytes, bytearray, memoryview])
def test_octets_may_be_of_several_types(local: Receiver, kind: Any) -> None:
    """The frame is answered in the same way."""
    local.channel(1, width=10, buffer=1, first=0)
    assert local.bring(kind(frame(0, whole(0, ONE), bypass=1))) == Brought(1, Event.E6, True, Delivery(0, 1, False))


def test_no_octets_are_too_short(local: Receiver) -> None:
    """No line can bring them, so a single octet is brought, which is refused in the same way."""
    local.channel(1, width=10, buffer=1, first=0)
    assert local.bring(b"") == Refused(Refusal.SHORT)


def test_an_answer_is_true_and_a_refusal_false(local: Receiver) -> None:
    """A delivery is true even if nothing was released or taken."""
    local.channel(1, width=10, buffer=1, first=0)
    assert [bool(answer) for answer in (local.deliver(1), local.clcw(1), Refused(Refusal.EMPTY))] == [True, True, False]


def test_a_frame_needs_its_sum_if_the_receiver_is_told_so() -> None:
    """A frame without a sum, or with a right one, is brought. The other answers with this option are compared by test_tclive.py."""
    with Receiver(42, fecf=True) as receiver:
        receiver.channel(1, width=10, buffer=1, first=0)
        assert receiver.bring(frame(0, whole(0, ONE))) == Refused(Refusal.CHECK)
        assert receiver.bring(frame(0, whole(0, ONE), fecf=True)) == Brought(1, Event.E1, True, NOTHING)
        assert receiver.report(1) == Report(1, State.OPEN, 1, False, False, False, 0, 1, {}, {})


def test_a_candidate_with_its_sum_may_have_fill() -> None:
    """The octets of `bring` must end with the sum."""
    with Receiver(42, fecf=True) as receiver:
        receiver.channel(1, width=10, buffer=1, first=0)
        octets = frame(0, whole(0, ONE), fecf=True) + b"\x55" * 6
        assert (receiver.bring(octets), receiver.candidate(octets)) == (Refused(Refusal.CHECK), Brought(1, Event.E1, True, NOTHING))


# --- Faults ---

@pytest.mark.parametrize("call, reason", [(lambda it: it.channel(-1, width=10, buffer=1, first=0), "bad number"),
                                          (lambda it: it.bring(bytes(4094)), "too long"), (lambda it: it.bring(bytes(10_000_000)), "too long")],
                         ids=["a number below 0", "one octet more than a line has", "far more octets than a line has"])
def test_a_receiver_goes_on_after_a_bad_line(local: Receiver, call: Call, reason: str) -> None:
    """The exception has the reason, and the channel is as it was."""
    local.channel(1, width=10, buffer=1, first=0)
    with pytest.raises(BadLine) as fault:
        call(local)
    assert (fault.type, fault.value.reason) == (BadLine, reason)
    assert reason in str(fault.value) and fault.value.line
    assert local.clcw(1) == word(1, 0, 0, 0)
    assert local.bring(frame(0, whole(0, ONE))) == Brought(1, Event.E1, True, NOTHING)
    assert local.close() == {1: Final(word(1, 0, 0, 1), 1, 1)}


@pytest.mark.parametrize("call", [lambda it: it.clcw(1), lambda it: it.close()], ids=["clcw", "close"])
def test_a_receiver_ends_with_its_connection(served: tuple[socket.socket, Any], call: Call) -> None:
    """The exception has no status, because the program that ended isn't a child of the receiver."""
    connection, child = served
    receiver = RemoteReceiver(connection)
    receiver.channel(1, width=10, buffer=1, first=0)
    child.kill()
    child.wait()
    with pytest.raises(Ended) as fault:
        call(receiver)
    assert (fault.type, fault.value.status) == (Ended, None)


def test_threads_that_call_at_once_get_their_own_answers(local: Receiver) -> None:
    """Four threads call one receiver. Each has a channel of its own."""
    for vcid in range(4):
        local.channel(vcid, width=10, buffer=2, first=vcid * 60)
        local.queue(vcid, 5, 1)
    together = threading.Barrier(4)

    def work(vcid: int) -> None:
        together.wait(PATIENCE)
        for place in range(100):
            data = packet(5, vcid, place)
            octets = frame((vcid * 60 + place) % 256, whole(0, data), channel=vcid)
            answers = (local.bring(octets), local.release(vcid), local.take(vcid, 5), local.clcw(vcid))
            assert answers == (Brought(vcid, Event.E1, True, NOTHING), Released(vcid, Delivery(1, 0, False)), Packet(vcid, 5, data),
                               word(vcid, 0, 0, (vcid * 60 + place + 1) % 256))
    with ThreadPoolExecutor(4) as pool:
        list(pool.map(work, range(4)))
    assert local.close() == {vcid: Final(word(vcid, 0, 0, (vcid * 60 + 100) % 256), 300, 0, {5: 0}, {}) for vcid in range(4)}


# --- The sender's bench ---

@pytest.mark.parametrize("fecf", [False, True], ids=["without sums", "with sums"])
def test_each_packet_comes_once_and_in_order_over_a_bad_link(fecf: bool) -> None:
    """The links are bad, because each frame is sent more than twice on average, and lockout occurs."""
    sent, unlocks = 0, 0
    for seed in SEEDS:
        answer = bench.run(seed, fecf)
        found = re.fullmatch(r"300 packets came in their order, each once; (\d+) frames were sent, (\d+) of them Unlocks", answer)
        assert found, f"seed {seed}: {answer}"
        sent, unlocks = sent + int(found[1]), unlocks + int(found[2])
    assert sent > 2 * 300 * len(SEEDS) and unlocks


def test_the_bench_finds_a_wrong_octet(monkeypatch: pytest.MonkeyPatch) -> None:
    """This link alters the last octet of the third frame. A bench that compared nothing would not notice it."""
    monkeypatch.setattr(bench, "link", lambda dice, past, turning: iter([past[-1][:-1] + bytes([past[-1][-1] ^ (len(past) == 3)])]))
    with pytest.raises(AssertionError):
        bench.run(1, False)


RUNS: list[tuple[str, str]] = re.findall(r"^\$ python3 (examples/bench.py [^\n]*)\n(.*)$", SENDER.read_text(encoding="utf-8"), re.M)


def test_the_page_on_senders_shows_two_runs_of_the_bench() -> None:
    """The next test runs each of them."""
    assert len(RUNS) == 2


@pytest.mark.parametrize("words, line", RUNS)
def test_a_run_of_the_bench_prints_what_its_page_shows(words: str, line: str) -> None:
    """The command and the line are read from the page."""
    ran = run(sys.executable, *words.split())
    assert (ran.returncode, ran.stdout, ran.stderr) == (0, f"{line}\n", "")


# --- Sources and types ---

def is_of_the_library(name: str) -> bool:
    """Returns whether a module is one of Python's own."""
    spec = importlib.util.find_spec(name)
    place = (spec.origin or "") if spec else ""
    return place in ("built-in", "frozen") or (place.startswith(sysconfig.get_paths()["stdlib"]) and "site-packages" not in place)


@pytest.mark.parametrize("path", [*sorted(CLIENT.glob("tcrx/**/*.py")), CLIENT / "tcrx_bench.py", BENCH], ids=lambda path: str(path.relative_to(TOP)))
def test_a_source_needs_python_3_9_alone(path: Path) -> None:
    """It has the syntax of Python 3.9, and imports Python's own modules and the package itself."""
    tree = ast.parse(path.read_text(encoding="utf-8"), feature_version=(3, 9))
    names = [alias.name for node in ast.walk(tree) if isinstance(node, ast.Import) for alias in node.names]
    names += [node.module or "" for node in ast.walk(tree) if isinstance(node, ast.ImportFrom) and not node.level]
    assert not [name for name in names if name.partition(".")[0] != "tcrx" and not is_of_the_library(name)]


def shown_programs(page: Path) -> list[str]:
    """Returns the programs in Python that a page shows."""
    return re.findall(r"^```python\n(.*?)^```$", page.read_text(encoding="utf-8"), re.M | re.S)


@pytest.fixture(scope="module")
def mypy(tmp_path_factory: pytest.TempPathFactory) -> Callable[..., subprocess.CompletedProcess[str]]:
    """Returns a function that runs mypy over files, in an empty folder. What mypy keeps of one run serves the next one."""
    kept, empty = tmp_path_factory.mktemp("kept"), tmp_path_factory.mktemp("empty")

    def checked(*files: Path, **names: str) -> subprocess.CompletedProcess[str]:
        return run("mypy", "--strict", "--cache-dir", kept, *files, cwd=empty, names=names)
    return checked


@pytest.fixture
def talker(tmp_path: Path) -> Path:
    """Returns a file with the program that the page on the bench shows."""
    [text] = shown_programs(PAGE)
    (tmp_path / "talker.py").write_text(text, encoding="utf-8")
    return tmp_path / "talker.py"


@pytest.mark.needs("mypy")
def test_mypy_finds_nothing_in_the_client_and_the_shown_programs(mypy: Callable[..., Any], talker: Path, tmp_path: Path) -> None:
    """These are the package, the sender's bench, and the programs of two pages."""
    [text] = shown_programs(TUTORIAL)
    (tmp_path / "lost.py").write_text(text, encoding="utf-8")
    ran = mypy(CLIENT / "tcrx", BENCH, talker, tmp_path / "lost.py", MYPYPATH=str(CLIENT))
    assert ran.returncode == 0, ran.stdout + ran.stderr


@pytest.mark.needs("mypy")
def test_mypy_finds_wrong_uses_of_the_client(mypy: Callable[..., Any], tmp_path: Path) -> None:
    """Each line after the first has a wrong use."""
    lines = ["from tcrx import Receiver", "Receiver(42).clcw(1).vr", "Receiver(42).release('1')", "Receiver('42')", ""]
    (tmp_path / "wrong.py").write_text("\n".join(lines), encoding="ascii")
    ran = mypy(tmp_path / "wrong.py", MYPYPATH=str(CLIENT))
    assert ran.returncode == 1, ran.stdout + ran.stderr
    assert [line for line in range(1, 5) if f"wrong.py:{line}: error" in ran.stdout] == [2, 3, 4]


@pytest.mark.needs("mypy")
@pytest.mark.parametrize("marked", [True, False], ids=["with its marker", "without its marker"])
def test_mypy_reads_the_types_of_an_installed_package(mypy: Callable[..., Any], talker: Path, tmp_path: Path, marked: bool) -> None:
    """It reads them if the package has the marker py.typed, and fails without it."""
    shutil.copytree(CLIENT / "tcrx", tmp_path / "site/tcrx", ignore=shutil.ignore_patterns("__pycache__", *["py.typed"] * (not marked)))
    ran = mypy(talker, PYTHONPATH=str(tmp_path / "site"))
    assert ran.returncode == (0 if marked else 1), ran.stdout + ran.stderr


# --- What the page on the bench shows ---

def test_the_shown_program_talks_to_a_tclive(tclive: Path, talker: Path, begin: Callable[..., Any]) -> None:
    """The test puts a free port in place of the one on the page."""
    names = {**os.environ, "PYTHONPATH": str(CLIENT), "PYTHONDONTWRITEBYTECODE": "1"}
    with socket.create_server(("localhost", 0)) as server:
        server.settimeout(PATIENCE)
        text = talker.read_text(encoding="utf-8").replace("10025", str(server.getsockname()[1]))
        ours = begin(sys.executable, "-c", text, env=names, stdout=subprocess.PIPE, text=True)
        accepted, _ = server.accept()
    with accepted:
        child = begin(tclive, "--scid", 42, stdin=accepted, stdout=accepted)
    assert (ours.communicate(timeout=PATIENCE)[0], ours.returncode, child.wait(PATIENCE)) == ("17039360\n", 0, 0)


# The commands in the table of links, and a part of each by which the test that runs it finds it.
COMMANDS = [row.split("`")[1] for row in re.findall(r"^\| [^|]* \| `.*` \|$", PAGE.read_text(encoding="utf-8"), re.M) if "./tclive --scid" in row]
PARTS = ["TCP-LISTEN:", "/dev/tcp/", "UDP-LISTEN:", "PTY,", "/dev/ttyUSB0"]
LINES = b"channel 1 10 2 0\nqueue 1 5 1\nframe 002a040c00c01005c0000000aa\nrelease 1\ntake 1 5\nclcw 1\n"
ANSWERS = b"frame 1 E1 accepted 1 queued 0 dropped 0 rest 0\nrelease 1 queued 1 dropped 0 rest 0\ntake 1 5 1005c0000000aa\nclcw 1 01040001\n"
FINAL = b"final 1 01040001 events 3 buffered 0\nqueue 1 5 0\n"
BAD = b"bad unknown command: use channel, queue, map, frame, release, take, unit, clcw, link, report, deliver, collect or candidate\n"
# A function that starts the command of the page that has this part, with these texts in place of some of its own.
Starts = Callable[[str, dict[str, object]], Any]


def test_the_page_shows_five_commands() -> None:
    """Each of them is run by one of the tests below, which finds it by its part."""
    assert [[part for part in PARTS if part in command] for command in COMMANDS] == [[part] for part in PARTS]


@pytest.fixture
def start_command(tclive: Path, begin: Callable[..., Any]) -> Starts:
    """Returns a function that starts a command of the page."""
    def start(part: str, others: dict[str, object]) -> Any:
        [command] = [command for command in COMMANDS if part in command]
        replaced: dict[str, object] = {"./tclive": tclive, **others}
        for text, other in replaced.items():
            assert text in command
            command = command.replace(text, str(other))
        words = f"exec {command}" if command.startswith("socat") else command
        return begin("bash", "-c", words, stdin=subprocess.DEVNULL, stderr=subprocess.DEVNULL)
    return start


@pytest.fixture
def terminal() -> Iterator[tuple[int, int]]:
    """Yields the two ends of a pseudo-terminal."""
    ends = os.openpty()
    yield ends
    for end in ends:
        os.close(end)


def connect(port: int) -> socket.socket:
    """Returns a connection to a server that may not be there yet."""
    end = time.monotonic() + PATIENCE
    while True:
        try:
            return socket.create_connection(("localhost", port), timeout=PATIENCE)
        except OSError:
            if time.monotonic() > end:
                raise
            time.sleep(0.05)


def talk(link: socket.socket) -> tuple[bytes, bytes]:
    """Sends the lines over a stream socket, which is closed afterwards. Returns the answers and the final report."""
    link.settimeout(PATIENCE)
    with link:
        link.sendall(LINES)
        answers = read_count(link, len(ANSWERS))
        link.shutdown(socket.SHUT_WR)
        return answers, read_count(link, len(FINAL))


def talk_by_terminal(master: int, slave: int) -> bytes:
    """Sends the lines over a terminal once it is raw, so that nothing is read twice. Returns the answers."""
    assert until(lambda: not termios.tcgetattr(slave)[3] & (termios.ICANON | termios.ECHO))
    os.write(master, LINES)
    octets = b""
    while len(octets) < len(ANSWERS) and select.select([master], [], [], PATIENCE)[0]:
        octets += os.read(master, 4096)
    return octets


def answer_to_probe(sender: socket.socket) -> bytes:
    """Sends a datagram with a bad line until somebody listens. Returns the first datagram that answers."""
    end = time.monotonic() + PATIENCE
    while True:
        try:
            sender.send(b"?\n")
            return sender.recv(4096)
        except ConnectionRefusedError:
            assert time.monotonic() < end, "nobody listens"
            time.sleep(0.1)


@pytest.mark.needs("socat")
def test_a_tclive_for_each_connection_by_socat(start_command: Starts) -> None:
    """The second connection has a new receiver."""
    port = free_port()
    start_command("TCP-LISTEN:", {"10025": port})
    assert [talk(connect(port)) for _ in range(2)] == [(ANSWERS, FINAL)] * 2


def test_a_tclive_connects_to_a_program_by_bash(start_command: Starts) -> None:
    """It exits with status 0 after the program has shut down its half of the connection."""
    with socket.create_server(("localhost", 0)) as server:
        server.settimeout(PATIENCE)
        child = start_command("/dev/tcp/", {"10025": server.getsockname()[1]})
        assert talk(server.accept()[0]) == (ANSWERS, FINAL)
    assert child.wait(PATIENCE) == 0


@pytest.mark.needs("socat")
def test_a_tclive_answers_datagrams_by_socat(start_command: Starts) -> None:
    """Each line is a datagram. An answer may come in two datagrams."""
    port = free_port(socket.SOCK_DGRAM)
    start_command("UDP-LISTEN:", {"10025": port})
    with socket.socket(socket.AF_INET, socket.SOCK_DGRAM) as sender:
        sender.settimeout(PATIENCE)
        sender.connect(("localhost", port))
        octets = answer_to_probe(sender)
        for line in LINES.splitlines(keepends=True):
            sender.send(line)
        assert octets + read_count(sender, len(BAD + ANSWERS) - len(octets)) == BAD + ANSWERS


@pytest.mark.needs("socat")
def test_a_tclive_on_a_pseudo_terminal_by_socat(start_command: Starts, tmp_path: Path) -> None:
    """The terminal has the name that the command gives it."""
    name = tmp_path / "ttyTC"
    start_command("PTY,", {"link=ttyTC": f"link={name}"})
    assert until(name.exists)
    end = os.open(name, os.O_RDWR | os.O_NOCTTY)
    try:
        assert talk_by_terminal(end, end) == ANSWERS
    finally:
        os.close(end)


def test_a_tclive_on_a_serial_line(start_command: Starts, terminal: tuple[int, int]) -> None:
    """A pseudo-terminal takes the place of the serial line."""
    start_command("/dev/ttyUSB0", {"/dev/ttyUSB0": os.ttyname(terminal[1])})
    assert talk_by_terminal(*terminal) == ANSWERS
