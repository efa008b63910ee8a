"""Shows how receivers in Python end and fail. Receivers in the process are given values of another type, are forked, and lack their library.
Receivers behind a connection get strange answers, answers that never end or never come, and interrupts. None of them leaves a file open.
"""
from __future__ import annotations

import copy
import gc
import os
import pickle
import shutil
import signal
import socket
import subprocess
import sys
import threading
import time
from pathlib import Path
from typing import Any, Callable, Iterable, Iterator, NoReturn, Optional

import pytest

import pythons
from client_parts import CLIENT, UNLOCK
from comparing import PATIENCE, TOP, run, until
from tcrx import BadLine, BadSettings, Clcw, Ended, Fault, Final, NotStarted, Receiver, RemoteReceiver, TimedOut, Unexpected

# pylint: disable=redefined-outer-name  # a test takes a fixture by its name
# pylint: disable=protected-access  # what is below a receiver is made to fail
pytestmark = pytest.mark.usefixtures("library")
PROBED, FRONT = "bad unknown command: use channel or clcw", "final 1 01040000 events 0 buffered 0"
NAMES = {"PYTHONPATH": str(CLIENT), "PYTHONDONTWRITEBYTECODE": "1"}
# A call of a receiver.
Call = Callable[[Any], object]


def set_up(receiver: Any) -> Any:
    """Returns the receiver, with a channel."""
    receiver.channel(1, width=10, buffer=1, first=0)
    return receiver


def interrupt(*_: object) -> NoReturn:
    """Raises what Ctrl-C raises during a wait."""
    raise KeyboardInterrupt


# --- In this process ---

def test_an_exception_ends_the_receiver_of_a_block() -> None:
    """It has no final report then."""
    with pytest.raises(KeyError), Receiver(42) as receiver:
        set_up(receiver)
        raise KeyError
    with pytest.raises(Ended) as fault:
        receiver.clcw(1)
    with pytest.raises(ValueError) as unreported:
        _ = receiver.final
    assert (fault.type, unreported.type) == (Ended, ValueError)


def test_a_spacecraft_over_its_bound_has_no_receiver() -> None:
    """The greatest spacecraft id is 1,023."""
    with pytest.raises(BadSettings) as fault:
        Receiver(1024)
    assert fault.type is BadSettings


@pytest.mark.parametrize("copied", [copy.copy, copy.deepcopy, pickle.dumps])
def test_a_receiver_cannot_be_copied(copied: Call) -> None:
    """A copy wouldn't be a second receiver."""
    with Receiver(42) as receiver, pytest.raises(TypeError) as fault:
        copied(receiver)
    assert fault.type is TypeError


def old_over() -> object:
    """Returns a receiver behind a connection that has answered, by the call of earlier versions."""
    ours, theirs = socket.socketpair()
    with theirs:
        theirs.send(b"bad unknown command\n")
        return Receiver.over(ours)


@pytest.mark.parametrize("call, kind", [(lambda: Receiver(42, program="tclive"), Receiver), (lambda: Receiver(42, timeout=5.0), Receiver),
                                        (old_over, RemoteReceiver)], ids=["program=", "timeout=", "Receiver.over"])
def test_a_warning_names_what_the_next_version_lacks(call: Callable[[], Any], kind: type) -> None:
    """It is the only warning, and names the line of the caller."""
    with pytest.warns(DeprecationWarning) as said:
        made = call()
    made._drop()
    assert [(each.category, each.filename) for each in said] == [(DeprecationWarning, __file__)]
    assert isinstance(made, kind)


CALLS: dict[str, Callable[[Any, Any], object]] = {
    "channel": lambda it, value: it.channel(value, width=10, buffer=1, first=0),
    "width": lambda it, value: it.channel(2, width=value, buffer=1, first=0),
    "buffer": lambda it, value: it.channel(2, width=10, buffer=value, first=0),
    "first": lambda it, value: it.channel(2, width=10, buffer=1, first=value),
    "release": lambda it, value: it.release(value), "deliver": lambda it, value: it.deliver(value), "collect": lambda it, value: it.collect(value),
    "clcw": lambda it, value: it.clcw(value), "report": lambda it, value: it.report(value), "link": lambda it, value: it.link(value, True, True),
    "channel of a queue": lambda it, value: it.queue(value, 5, 1), "application of a queue": lambda it, value: it.queue(1, value, 1),
    "capacity of a queue": lambda it, value: it.queue(1, 5, value), "channel of a MAP": lambda it, value: it.map(value, 5, 1),
    "MAP": lambda it, value: it.map(1, value, 1), "capacity of a MAP": lambda it, value: it.map(1, 5, value),
    "channel of take": lambda it, value: it.take(value, 5), "application of take": lambda it, value: it.take(1, value),
    "channel of take_unit": lambda it, value: it.take_unit(value, 5), "MAP of take_unit": lambda it, value: it.take_unit(1, value)}


@pytest.mark.parametrize("value", ["1", 1.0, None, b"1"], ids=repr)
@pytest.mark.parametrize("call", CALLS.values(), ids=CALLS)
def test_a_number_of_another_type_is_an_error(call: Callable[[Any, Any], object], value: object) -> None:
    """The receiver carries out no line."""
    with Receiver(42) as receiver:
        set_up(receiver)
        with pytest.raises(TypeError) as fault:
            call(receiver, value)
    assert (fault.type, receiver.final) == (TypeError, {1: Final(Clcw(0x01040000), 0, 0)})


@pytest.mark.parametrize("value", ["00", None, 1], ids=repr)
@pytest.mark.parametrize("name", ["bring", "candidate"])
def test_octets_of_another_type_are_an_error(name: str, value: object) -> None:
    """The message says how octets are made."""
    with Receiver(42) as receiver:
        set_up(receiver)
        with pytest.raises(TypeError) as fault:
            getattr(receiver, name)(value)
    assert (fault.type, receiver.final) == (TypeError, {1: Final(Clcw(0x01040000), 0, 0)})
    assert str(fault.value) == f"octets are wanted, as bytes.fromhex makes them of digits, and not {type(value).__name__}"


def test_true_is_a_number() -> None:
    """Python's truth values are whole numbers."""
    with Receiver(42) as receiver:
        assert set_up(receiver).clcw(True) == Clcw(0x01040000)


# --- Processes ---

PROGRAM = """
import os, sys, time
from tcrx import Receiver
receiver = Receiver(42)
receiver.channel(1, width=10, buffer=1, first=3)
"""
INTERRUPTED = PROGRAM + """
import signal
# Whoever runs this in the background may have set interrupts to be ignored, which children inherit.
signal.signal(signal.SIGINT, signal.default_int_handler)
try:
    print("ready", flush=True)
    time.sleep(60)
except KeyboardInterrupt:
    print(hex(receiver.clcw(1).word), receiver.close()[1].events)
"""
FORKED = PROGRAM + """
child = os.fork()
receiver.bring(bytes.fromhex("002a040603c0aa" if child else "002a040604c0aa"))
if child:
    os.waitpid(child, 0)
print(receiver.report(1).vr, receiver.close()[1].events, flush=True)
"""
# strace may be installed, and forbidden to trace. Then the test that needs it isn't there.
MAY_TRACE = not shutil.which("strace") or run("strace", "-o", "/dev/null", "true").returncode == 0
# The command of the Python that runs the tests, and that of Python 3.9 if this version is here, too.
PYTHONS = {name: command for name, command in (("this version", sys.executable), ("3.9", pythons.find("3.9"))) if command}


def test_a_receiver_goes_on_after_ctrl_c_between_two_calls(begin: Callable[..., Any]) -> None:
    """The handler of the interrupt calls it."""
    child = begin(sys.executable, "-c", INTERRUPTED, stdout=subprocess.PIPE, text=True, env={**os.environ, **NAMES})
    child.stdout.readline()
    child.send_signal(signal.SIGINT)
    assert (child.communicate(timeout=PATIENCE)[0], child.returncode) == ("0x1040003 0\n", 0)


def test_after_a_fork_each_process_has_its_own_receiver() -> None:
    """The parent and the child bring different frames. The child prints first."""
    ran = run(sys.executable, "-c", FORKED, names=NAMES)
    assert (ran.returncode, ran.stdout, ran.stderr) == (0, "3 1\n4 1\n", "")


if MAY_TRACE:
    @pytest.mark.needs("strace")
    def test_a_receiver_starts_no_process() -> None:
        """The trace has the start of Python itself, and nothing that creates a process or a thread."""
        ran = run("strace", "-f", "-qq", "-e", "trace=process", "-o", "/dev/stderr", sys.executable, "-c", f"{PROGRAM}receiver.close()", names=NAMES)
        calls = [line for line in ran.stderr.splitlines() if any(f" {name}(" in f" {line}" for name in ("clone", "clone3", "fork", "vfork"))]
        assert (ran.returncode, calls, "execve" in ran.stderr) == (0, [], True)


@pytest.mark.parametrize("command", PYTHONS.values(), ids=PYTHONS)
def test_a_receiver_runs_with_each_python(command: str) -> None:
    """These are the version that runs the tests, and Python 3.9 if it is installed."""
    ran = run(command, "-c", PROGRAM + "print(hex(receiver.clcw(1).word), receiver.release(1), receiver.close()[1].events)", names=NAMES)
    assert (ran.returncode, ran.stdout, ran.stderr) == (0, "0x1040003 Refused(reason=<Refusal.EMPTY: 'empty'>) 0\n", "")


# --- Where nothing is built ---

ADVICE = "make -C dist"
SENDERS = [f"examples/{name}.py" for name in ("bench", "bench_udp", "bench_cltu")]


@pytest.fixture
def unbuilt(tmp_path: Path) -> Iterator[Path]:
    """Yields a tree in which nothing is built. Nothing may be built there afterwards."""
    for name in ("tools/library", "dist/Makefile", "tcrx-bench", *SENDERS):
        (tmp_path / name).parent.mkdir(parents=True, exist_ok=True)
        shutil.copy(TOP / name, tmp_path / name)
    shutil.copytree(CLIENT, tmp_path / "clients/python", ignore=shutil.ignore_patterns("__pycache__", "lib*"))
    (tmp_path / "log").write_text("# tcrx-bench 0 spacecraft 42, begun 0\n", encoding="utf-8")
    yield tmp_path
    assert [path.name for path in (tmp_path / "dist").iterdir()] == ["Makefile"]


def test_a_receiver_says_what_builds_the_library(unbuilt: Path) -> None:
    """The message of the exception has the command."""
    program = "import tcrx\ntry:\n    tcrx.Receiver(42)\nexcept tcrx.NotStarted as fault:\n    print(fault)"
    ran = run(sys.executable, "-c", program, names={**NAMES, "PYTHONPATH": str(unbuilt / "clients/python")})
    assert ran.returncode == 0 and ADVICE in ran.stdout, ran.stderr


@pytest.mark.parametrize("words", [["--scid", "42", "--lines", "127.0.0.1:0"], ["--replay", "log"]], ids=["a port", "a replay"])
def test_the_bench_says_what_builds_the_library(unbuilt: Path, words: list[str]) -> None:
    """Its status is 70."""
    ran = run(unbuilt / "tcrx-bench", *words, cwd=unbuilt)
    assert ran.returncode == 70 and f"Type: {ADVICE}" in ran.stderr


@pytest.mark.parametrize("name", SENDERS)
def test_a_sender_says_what_builds_the_library(unbuilt: Path, name: str) -> None:
    """Standard error has the command, and the status isn't 0."""
    ran = run(sys.executable, unbuilt / name, "1", timeout=PATIENCE)
    assert ran.returncode and ADVICE in ran.stderr


def test_a_library_that_is_not_there_has_no_receivers(tmp_path: Path) -> None:
    """The caller gives a path at which there is none."""
    with pytest.raises(NotStarted) as fault:
        Receiver(42, library=tmp_path / "nowhere")
    assert fault.type is NotStarted


# --- Behind a connection: answers ---

def serve(theirs: socket.socket, over: threading.Event, answers: Iterable[str], then: Iterable[bytes]) -> None:
    """Gives these answers, one for each line that it reads, and then sends these octets. With octets that are empty it waits for a line in between,
    and with `b"-"` a tenth of a second, or until all is over. If there are no octets, it reads to the end of the lines. Then it closes the
    connection."""
    with theirs, theirs.makefile("rb") as lines:
        try:
            for answer in answers:
                lines.readline()
                theirs.sendall(answer.encode() + b"\n")
            for octets in then:
                if octets == b"-":
                    over.wait(0.1)
                elif octets:
                    theirs.sendall(octets)
                else:
                    lines.readline()
            if not then:
                lines.read()
        except OSError:
            pass


@pytest.fixture
def stranger() -> Iterator[Callable[..., Any]]:
    """Yields a function that returns a receiver whose other end is `serve` with these answers and octets. All connections are closed when the test
    ends."""
    ends: list[tuple[socket.socket, threading.Thread]] = []
    over = threading.Event()

    def start(*answers: str, then: Iterable[bytes] = (), timeout: Optional[float] = PATIENCE) -> RemoteReceiver:
        ours, theirs = socket.socketpair()
        ends.append((ours, threading.Thread(target=serve, args=(theirs, over, answers, then), daemon=True)))
        ends[-1][1].start()
        return RemoteReceiver(ours, timeout=timeout)
    yield start
    over.set()
    for ours, thread in ends:
        ours.close()
        thread.join(PATIENCE)
        assert not thread.is_alive()


# A function that starts a stranger.
Stranger = Callable[..., Any]


def is_closed(receiver: Any) -> bool:
    """Returns whether the connection of a receiver is closed."""
    return bool(receiver._connection.fileno() < 0)


def test_another_answer_to_the_probe_is_no_receivers(stranger: Stranger) -> None:
    """The first line isn't a command, so a receiver answers that it is bad."""
    with pytest.raises(Unexpected) as fault:
        stranger("ready")
    assert fault.type is Unexpected


def test_an_end_before_the_first_answer_ends_the_receiver(stranger: Stranger) -> None:
    """The other end closes the connection after the first line."""
    with pytest.raises(Ended) as fault:
        stranger(then=[b""])
    assert fault.type is Ended


STATE = "vr 0 lockout 0 wait 0 retransmit 0 farm-b 0 buffered 0"
STRANGE: dict[str, tuple[Call, list[str]]] = {
    "clcw": (lambda it: it.clcw(1), ["clcw 2 01040000", "clcw 1 01080000", "clcw 1 0104000", "clcw 1 0104000G", "refused empty", "refused", "", FRONT,
                                     "release 1 queued 0 dropped 0 rest 0"]),
    "bring": (lambda it: it.bring(UNLOCK), ["frame 1 E0 accepted 1 queued 0 dropped 0 rest 0", "refused empty", "frame 1 E1 accepted 1",
                                            "frame 1 E1 accepted 2 queued 0 dropped 0 rest 0"]),
    "take": (lambda it: it.take(1, 5), ["take 1 6 aa", "take 1 5 a", "take 1 5 -", "take 1 5", "refused no map"]),
    "report": (lambda it: it.report(1), [f"report 1 state shut {STATE}", f"report 1 state open {STATE} map 1 1 queue 1 1"]),
    "deliver": (lambda it: it.deliver(1), ["release 2 queued 0 dropped 0 rest 0\nclcw 1 01040000", "clcw 1 01040000",
                                           "refused empty\nclcw 2 01080000", "refused empty\ntake 1 5 -\nclcw 1 01040000",
                                           "refused empty\ntake 2 5 aa\nclcw 1 01040000", "refused empty\nrefused empty\nclcw 1 01040000"]),
    "collect": (lambda it: it.collect(1), ["refused empty\nclcw 1 01040000", "clcw 2 01040000", "take 1 5\nclcw 1 01040000"]),
    "link": (lambda it: it.link(1, True, False), ["link 1 0 1", "link 1 1"])}


@pytest.mark.parametrize("name, answer", [(name, answer) for name, (_, answers) in STRANGE.items() for answer in answers])
def test_an_answer_that_is_none_to_its_line_closes_the_connection(stranger: Stranger, name: str, answer: str) -> None:
    """The exception has the answer. A later call raises such an exception, too."""
    receiver = stranger(PROBED, answer)
    with pytest.raises(Unexpected) as fault:
        STRANGE[name][0](receiver)
    assert (fault.type, fault.value.answer, is_closed(receiver)) == (Unexpected, answer, True)
    with pytest.raises(Unexpected) as later:
        receiver.release(1)
    assert later.type is Unexpected


def test_an_answer_that_is_cut_ends_the_receiver(stranger: Stranger) -> None:
    """The connection is closed before its line feed."""
    with pytest.raises(Ended) as fault:
        stranger(PROBED, then=[b"", b"clcw 1"]).clcw(1)
    assert fault.type is Ended


def test_a_receiver_goes_on_after_memory_ran_out_at_its_other_end(stranger: Stranger) -> None:
    """The next answer is that of the next line. No channel was set up, so the report is empty."""
    receiver = stranger(PROBED, "bad no memory", "clcw 1 01040000", then=[b""])
    with pytest.raises(BadLine) as fault:
        receiver.clcw(1)
    assert (fault.type, fault.value.reason) == (BadLine, "no memory")
    assert "no memory" in str(fault.value) and fault.value.line
    assert (receiver.clcw(1), receiver.close()) == (Clcw(0x01040000), {})


def test_only_the_message_has_the_hint_of_a_bad_answer(stranger: Stranger) -> None:
    """Its attribute `reason` doesn't. The answer to the first line has no hint here."""
    receiver = stranger("bad unknown command", "bad wrong number of words: write clcw VC", then=[b""])
    with pytest.raises(BadLine) as fault:
        receiver.clcw(1)
    assert (fault.type, fault.value.line, fault.value.reason) == (BadLine, "clcw 1", "wrong number of words")
    assert (str(fault.value), receiver.close()) == ("wrong number of words: write clcw VC: clcw 1", {})


def test_a_line_that_sets_up_may_get_a_bad_answer_with_a_hint(stranger: Stranger) -> None:
    """The receiver goes on without the channel."""
    receiver = stranger("bad unknown command", "bad window: make it even", PROBED, then=[b""])
    with pytest.raises(BadLine) as fault:
        set_up(receiver)
    assert (fault.type, fault.value.reason, receiver.close()) == (BadLine, "bad window", {})
    assert "bad window" in str(fault.value) and fault.value.line


@pytest.mark.parametrize("kind, answers, then", [
    (Unexpected, ["channel 1", PROBED], []), (Unexpected, ["bad window", "bad window"], []), (Ended, [], [b"", b"bad window\n"])],
                         ids=["an answer to a good line", "two answers to a bad line", "an answer to a bad line, and the end"])
def test_a_line_that_sets_up_gets_no_other_answer(stranger: Stranger, kind: type, answers: list[str], then: list[bytes]) -> None:
    """A good line gets none, and a bad one gets one. The line after it, which isn't a command, gets one as well."""
    with pytest.raises(Fault) as fault:
        set_up(stranger(PROBED, *answers, then=then))
    assert fault.type is kind


# --- Behind a connection: reports ---

@pytest.fixture
def reported(stranger: Stranger) -> Callable[..., Any]:
    """Returns a function that returns what closing a receiver with a channel returns if its other end reports these octets."""
    # The line that sets up is read without an answer, and the probe after it has its own.
    return lambda *report: set_up(stranger(PROBED, then=[b"", b"", f"{PROBED}\n".encode(), b"", *report])).close()


def test_a_report_has_each_channel(reported: Callable[..., Any]) -> None:
    """There is one channel here."""
    assert reported(f"{FRONT}\n".encode()) == {1: Final(Clcw(0x01040000), 0, 0)}


@pytest.mark.parametrize("kind, report", [
    *((Unexpected, f"{report}\n") for report in ("final 2 01040000 events 0 buffered 0", "final 1 0104 events 0 buffered 0", "queue 1 5 0",
                                                 f"{FRONT}\nqueue 2 5 0", f"{FRONT}\n", "why")),
    *((Ended, report) for report in ("", "final 2 01080000 events 0 buffered 0\n", f"{FRONT}\nqueue 1 5 "))])
def test_a_report_that_is_wrong_or_not_whole_is_a_fault(reported: Callable[..., Any], kind: type, report: str) -> None:
    """The exception is `Ended` if a part is missing, and otherwise `Unexpected`."""
    with pytest.raises(Fault) as fault:
        reported(report.encode())
    assert fault.type is kind


def test_a_report_without_end_ends_the_receiver(reported: Callable[..., Any]) -> None:
    """The connection stays open at its other end, so a receiver that reads on waits too long."""
    with pytest.raises(Ended) as fault:
        reported(f"{FRONT}\n".encode() * (1 << 18), *[b"-"] * 1200)
    assert fault.type is Ended


# --- Behind a connection: bounds ---

@pytest.mark.parametrize("octets", [b"a" * (1 << 22), b"release 1 queued " + b"9" * 5000 + b" dropped 0 rest 0\n",
                                    b"release 1 queued " + b"9" * 25 + b" dropped 0 rest 0\n"],
                         ids=["an answer without end", "a number of 5,000 digits", "a number of 25 digits"])
def test_an_answer_is_read_up_to_a_bound(stranger: Stranger, octets: bytes) -> None:
    """The connection stays open at its other end, so a receiver that reads on waits too long. The fault keeps only the beginning."""
    with pytest.raises(Unexpected) as fault:
        stranger(PROBED, then=[b"", octets, b""], timeout=10).release(1)
    assert fault.type is Unexpected and len(fault.value.answer) <= 1000


def test_an_answer_that_nobody_asked_for_is_a_fault(stranger: Stranger) -> None:
    """It isn't taken for the answer to the next line."""
    receiver = stranger(PROBED, then=[b"", b"clcw 1 01040000\nclcw 1 01040007\n", b"", b"clcw 1 01040000\n"])
    receiver.clcw(1)
    with pytest.raises(Unexpected) as fault:
        receiver.clcw(1)
    assert fault.type is Unexpected and "01040007" in fault.value.answer


def depth(fault: BaseException) -> int:
    """Returns the number of calls in the trace of a fault."""
    calls, trace = 0, fault.__traceback__
    while trace:
        calls, trace = calls + 1, trace.tb_next
    return calls


def test_each_call_after_the_end_has_a_fault_of_its_own(stranger: Stranger) -> None:
    """So no trace grows. All of these exceptions have the same words."""
    receiver, faults = stranger(PROBED, then=[b""]), []
    for _ in range(30):
        with pytest.raises(Ended) as fault:
            receiver.clcw(1)
        assert fault.type is Ended
        faults.append(fault.value)
    assert len({id(each) for each in faults}) == 30
    assert len({depth(each) for each in faults[1:]}) == 1
    assert {(each.status, str(each)) for each in faults} == {(None, "the receiver has ended")}


# --- Behind a connection: interrupts and timeouts ---

@pytest.mark.parametrize("call", [lambda receiver: receiver.clcw(1), set_up], ids=["clcw", "a channel"])
def test_an_interrupt_during_a_call_closes_the_connection(stranger: Stranger, monkeypatch: pytest.MonkeyPatch, call: Call) -> None:
    """Otherwise the answer that is still to come would be taken for that to the next line."""
    receiver = stranger(PROBED)
    monkeypatch.setattr(receiver, "_receive", interrupt)
    with pytest.raises(KeyboardInterrupt):
        call(receiver)
    assert is_closed(receiver)
    with pytest.raises(Ended) as fault:
        receiver.clcw(1)
    assert fault.type is Ended


def test_an_exception_in_a_block_closes_the_connection(stranger: Stranger) -> None:
    """The receiver doesn't wait for a report."""
    with pytest.raises(KeyError), stranger(PROBED) as receiver:
        raise KeyError
    assert is_closed(receiver)


def time_out(call: Callable[..., object], *given: object) -> str:
    """Checks that a call times out within five seconds, and returns the message."""
    begun = time.monotonic()
    with pytest.raises(TimedOut) as fault:
        call(*given)
    assert fault.type is TimedOut and time.monotonic() - begun < 5
    return str(fault.value)


DRIP = [b"c", b"-"] * 60
LATE: dict[str, tuple[list[bytes], Call]] = {
    "no answer": ([b"-"] * 60, lambda it: it.clcw(1)), "half an answer": ([b"", b"clcw 1 01", *[b"-"] * 60], lambda it: it.clcw(1)),
    "a slow answer": ([b"", *DRIP], lambda it: it.clcw(1)), "a slow report": (DRIP, lambda it: it.close()),
    "a line that isn't read": ([b"-"] * 60, lambda it: it.bring(bytes(10_000_000)))}


@pytest.mark.parametrize("then, call", LATE.values(), ids=LATE)
def test_a_call_times_out_and_closes_the_connection(stranger: Stranger, then: list[bytes], call: Call) -> None:
    """A slow answer has an octet each tenth of a second. A later call raises such an exception at once, without a wait."""
    receiver = stranger(PROBED, then=then)
    receiver.timeout = 0.4
    # What came before the call would be an answer that nobody asked for.
    receiver._left.clear()
    assert "0.4 seconds" in time_out(call, receiver)
    assert is_closed(receiver)
    receiver.timeout = PATIENCE
    time_out(receiver.clcw, 1)


def test_a_start_without_an_answer_times_out(stranger: Stranger) -> None:
    """The receiver sends a first line when it is created, and waits for its answer."""
    time_out(lambda: stranger(then=[b"-"] * 60, timeout=0.2))


def test_the_timeout_of_a_socket_is_that_of_its_receiver() -> None:
    """The receiver is created without a timeout of its own."""
    ours, theirs = socket.socketpair()
    with ours, theirs:
        ours.settimeout(0.4)
        time_out(RemoteReceiver, ours)


@pytest.mark.parametrize("timeout", [0, -1.0, float("nan")])
def test_a_timeout_is_over_0(timeout: float) -> None:
    """The receiver isn't created with any other number."""
    with socket.socket() as unused, pytest.raises(ValueError) as fault:
        RemoteReceiver(unused, timeout=timeout)
    assert fault.type is ValueError


def test_an_answer_may_come_within_the_timeout(stranger: Stranger) -> None:
    """A channel is set up, and its CLCW comes."""
    receiver = set_up(stranger(PROBED, then=[b"", b"", f"{PROBED}\n".encode(), b"", b"clcw 1 01040003\n"]))
    assert receiver.clcw(1) == Clcw(0x01040003)


# --- What stays open ---

def open_files() -> set[str]:
    """Returns what this process has open: files by their paths, and sockets by their numbers."""
    found = set()
    for number in os.listdir("/proc/self/fd"):
        try:
            found.add(os.readlink(f"/proc/self/fd/{number}"))
        except OSError:
            pass
    return found


STARTS: dict[str, Callable[[Stranger], object]] = {
    "a receiver that is closed": lambda _: Receiver(42).close(), "a spacecraft over its bound": lambda _: Receiver(1024),
    "a connection that is closed": lambda stranger: stranger(PROBED, then=[b""]).close(), "a strange answer": lambda stranger: stranger("ready")}


@pytest.mark.parametrize("start", STARTS.values(), ids=STARTS)
def test_nothing_stays_open(stranger: Stranger, start: Callable[[Stranger], object]) -> None:
    """The exception is kept, and with it its receiver. So a file isn't closed only because the receiver is forgotten."""
    kept: list[object] = []
    gc.collect()
    with Receiver(42):
        before = open_files()
    try:
        kept.append(start(stranger))
    except Fault as fault:
        kept.append(fault)
    until(lambda: open_files() <= before)
    assert (open_files() - before, len(kept)) == (set(), 1)
