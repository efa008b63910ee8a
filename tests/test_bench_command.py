"""Tries the command tcrx-bench: command lines and set-up files that it refuses, the logs that it replays, the commands that the pages show, the
versions of Python, and what it does if what it prints can't be written or isn't read."""
from __future__ import annotations

import contextlib
import io
import json
import os
import re
import signal
import socket
import subprocess
import sys
import threading
from functools import partial
from pathlib import Path
from typing import Callable, List, Tuple

import pytest

import pythons
import tcrx.bench.main as tcrx_bench
from bench_parts import PROGRAM, SETUP, Bench, answers_of, free_port, lines_of, numbered, read_all, read_count, replays, word_of
from client_parts import ONE, frame, whole
from comparing import PATIENCE, TOP, run, until
from tcrx.bench import journal
from tcrx.bench.ports import Notes

PAGE, RECIPES = TOP / "docs/howto/bench.md", TOP / "docs/howto/recipes.md"
# Command lines that are refused, the set-up file where it isn't the usual one, the exit status, and what is printed.
Refused = Tuple[List[str], str, int, str]
# These are about CLTUs and telemetry frames.
EDGES: Tuple[Tuple[List[str], str], ...] = (
    (["--tc-tcp", "0", "--cltu", "both"], "--cltu: invalid choice: 'both' (choose from"),
    (["--demo", "--cltu", "correct", "--tc-tcp", "0"], "--cltu: not with --demo"),
    (["--lines", "0", "--cltu", "detect", "--randomised"], "--cltu: not without --tc-tcp or --tc-udp"),
    (["--tc-udp", "0", "--randomised", "--tm-length", "9"], "--tm-length: '9' isn't a number from 11 to 2048"),
    (["--tc-udp", "0", "--randomised", "--tm-length", "99"], "--randomised: not without --cltu"),
    (["--tm-tcp", "0", "--tm-length", "2049"], "--tm-length: '2049' isn't a number from 11 to 2048"),
    (["--tm-tcp", "0", "--tm-length", "12", "--tm-fecf"], "--tm-length: with --tm-fecf it is at least 13"),
    (["--lines", "0", "--tm-rate", "5", "--tm-length", "99"], "--tm-length: not without --tm-tcp or --tm-udp"),
    (["--lines", "0", "--tm-marker"], "--tm-marker: not without --tm-tcp or --tm-udp"),
    (["--tc-udp", "0", "--cltu-frames", "2"], "--cltu-frames: not without --cltu"),
    (["--tc-udp", "0", "--cltu", "detect", "--cltu-frames", "172"], "--cltu-frames: '172' isn't a number from 1 to 171"),
    *((["--tm-tcp", "0", "--tm-rate", rate], f"--tm-rate: '{rate}' isn't a number from 0.001 to 1000") for rate in ("0", "1001", "nan", "x")),
    (["--tm-tcp", "0", "--tm-vcid", "8"], "--tm-vcid: '8' isn't a number from 0 to 7"),
    (["--tm-udp", "99"], "--tm-udp: '99' isn't HOST:PORT"),
    (["--tc-tcp", "0", "--cltu", "detect", "--fill", "7", "--resync"], "--fill: not with --cltu, which takes fill off"),
    (["--tc-tcp", "0", "--cltu", "detect", "--resync"], "--resync: not with --cltu, which searches in any case"))
REFUSED: Tuple[Refused, ...] = (
    ([], SETUP, 2, "no port is named"),
    (["--tc-tcp", "x"], SETUP, 2, "isn't [HOST:]PORT"),
    (["--clcw-udp", "99"], SETUP, 2, "isn't HOST:PORT"),
    (["--allow", "::1", "--lines", "0"], SETUP, 2, "behind the port"),
    (["--lines", "0", "--allow", "10.0.0.1/8"], SETUP, 2, "--allow"),
    (["--lines", "0", "--period", "-1"], SETUP, 2, "--period"),
    (["--lines", "0", "--fill", "0"], SETUP, 2, "--fill"),
    (["--clcw-udp", "127.0.0.1:9", "--clcw-udp", "127.0.0.1:9"], SETUP, 2, "named twice"),
    (["--lines", "0", "--release", "manual", "--release-after", "1"], SETUP, 2, "--release-after"),
    *((words, SETUP, 2, f"error: argument {text}") for words, text in EDGES),
    (["--lines", "0"], "channel 1 10 1 0\n\n# a comment\nqueue 1 5 999\n", 2, "setup, line 4: bad capacity"),
    (["--lines", "0"], "channel 1 10 1 0\nclcw 1\n", 2, "setup, line 2: only channel, queue and map lines"),
    (["--lines", "0", "--log", "/dev/null"], SETUP, 2, "--log /dev/null: File exists"),
    (["--lines", "0", "--setup", "/dev/zero"], SETUP, 2, "/dev/zero has more than 1048576 octets"),
    (["--replay", "/dev/zero"], SETUP, 1, "line 1 of /dev/zero has more than 1048580 octets"))
Start = Callable[..., Bench]
# The bench calls the library, and logs are compared with tcrx.
pytestmark = pytest.mark.usefixtures("library", "tcrx")


@pytest.fixture(name="bench")
def start_bench(tmp_path: Path) -> Start:
    """Returns a function that starts tcrx-bench. What still runs at the end of the test is killed."""
    return partial(Bench, tmp_path)


@pytest.fixture(name="setup")
def write_setup(tmp_path: Path) -> Path:
    """Writes the set-up file of one channel, and returns its path."""
    path = tmp_path / "setup"
    path.write_text(SETUP, encoding="ascii")
    return path


def run_bench(*words: object) -> subprocess.CompletedProcess[str]:
    """Runs the bench with these options to its end."""
    return run(sys.executable, PROGRAM, *words)


# --- Command lines ---

@pytest.mark.parametrize("words, lines, status, text", REFUSED,
                         ids=[" ".join(words or ["no port"]) + (f" with {lines!r}" if lines != SETUP else "") for words, lines, _, _ in REFUSED])
def test_bad_command_line_or_set_up_is_refused(setup: Path, words: List[str], lines: str, status: int, text: str) -> None:
    """Nothing is printed but the reason."""
    setup.write_text(lines, encoding="ascii")
    ran = run_bench("--scid", "42", "--setup", setup, *words)
    assert (ran.returncode, ran.stdout) == (status, "") and text in ran.stderr and "Traceback" not in ran.stderr


def test_bench_whose_port_is_taken_does_not_start(setup: Path, tmp_path: Path) -> None:
    """It names the port, and leaves no log behind."""
    log = tmp_path / "log"
    with socket.create_server(("127.0.0.1", 0)) as taken:
        port = taken.getsockname()[1]
        ran = run_bench("--scid", "42", "--setup", setup, "--http", port, "--log", log)
    assert ran.returncode == 1 and f"--http 127.0.0.1:{port}: " in ran.stderr
    assert not log.exists()


def test_ports_that_others_reach_are_warned_of(bench: Start) -> None:
    """Whoever reaches a port for lines commands the receiver."""
    error = bench("--lines", "0.0.0.0:0", "--allow", "10.0.0.0/8", "--http", "0.0.0.0:0").end(signal.SIGINT)[2]
    assert "whoever is at 10.0.0.0/8 commands the receiver" in error and "whoever connects sees what it received" in error


# --- Replay ---

@pytest.fixture(scope="module", name="session")
def run_session(tmp_path_factory: pytest.TempPathFactory) -> str:
    """Returns the log of a session with a frame, a flag of the link that is set, CLCWs, a report and a bad line."""
    bench = Bench(tmp_path_factory.mktemp("session"), "--lines", "0")
    bench.ask(f"frame {frame(0, whole(0, ONE)).hex()}\nlink 1 1 1\nclcw 1\nreport 1\nno such line\nclcw 1\n")
    assert bench.end()[0] == 0
    return bench.log.read_text()


def replay(log: Path, text: str) -> subprocess.CompletedProcess[str]:
    """Writes a log, and replays it."""
    log.write_text(text)
    return run_bench("--replay", log)


def test_log_of_a_session_is_replayed(session: str, tmp_path: Path) -> None:
    """Each answer is that of the log."""
    ran = replay(tmp_path / "log", session)
    assert (ran.returncode, ran.stderr) == (0, "") and re.fullmatch(r"\d+ answers and the final report are those of the log\n", ran.stdout)


def test_replay_of_a_file_that_is_no_log_is_refused(setup: Path) -> None:
    """The file is one that sets up a channel."""
    ran = run_bench("--replay", setup)
    assert ran.returncode == 1 and "isn't a log" in ran.stderr


@pytest.mark.parametrize("old, new", [("#= frame 1 E1", "#= frame 1 E2"), ("#~ clcw 1 0104c001", "#~ clcw 1 01048001"), ("events 3", "events 4"),
                                      ("#~ report 1 state open", "#~ report 1 state wait")])
def test_replay_finds_a_changed_answer(session: str, tmp_path: Path, old: str, new: str) -> None:
    """One answer of the log is changed."""
    assert old in session
    ran = replay(tmp_path / "log", session.replace(old, new, 1))
    assert ran.returncode == 1 and "and the replay" in ran.stderr


def says_of(log: Path, text: str) -> str:
    """Replays a log with an answer too few, too many or in the wrong place, and returns what is said of it."""
    ran = replay(log, text)
    assert ran.returncode == 1
    return ran.stderr


def test_replay_names_an_answer_that_the_log_lacks(session: str, tmp_path: Path) -> None:
    """It is the log's last line."""
    said = says_of(tmp_path / "log", session.rpartition("#= ")[0])
    assert "the log has no more answers, and the replay `queue 1 5 0`" in said


def test_replay_names_an_answer_too_many(session: str, tmp_path: Path) -> None:
    """It comes after the final report."""
    said = says_of(tmp_path / "log", session + "#= queue 1 5 0\n")
    assert "the log has `queue 1 5 0`, and the replay no more answers" in said


def test_replay_names_a_second_answer_to_a_line(session: str, tmp_path: Path) -> None:
    """It comes right before the next line."""
    said = says_of(tmp_path / "log", session.replace("#> link", "#= clcw 1 01040001\n#> link", 1))
    assert "`clcw 1` has an answer already" in said


def test_replay_names_a_line_without_an_answer(session: str, tmp_path: Path) -> None:
    """It sets a flag of the link."""
    said = says_of(tmp_path / "log", session.replace("#~ link 1 1 1\n", ""))
    assert "`link 1 1 1`: the log has no whole answer" in said


def test_replay_shows_a_long_answer_in_part_and_without_what_a_terminal_obeys(session: str, tmp_path: Path) -> None:
    """The answer begins with an escape sequence."""
    said = says_of(tmp_path / "log", session.replace("#~ link 1 1 1", "#~ \x1b]0;" + "x" * 9000))
    assert "the log has `?]0;" + "x" * 93 + "...`, and the replay" in said


def test_log_that_was_cut_off_is_replayed_so_far(session: str, tmp_path: Path) -> None:
    """It is cut at every fifth place, as if the bench had been killed there."""
    log, report = tmp_path / "log", session.index("#= queue")
    for place in [*range(session.index("\n") + 1, len(session), 5), session.index("# end\n") + 6, report + 9]:
        if place == report:
            continue
        log.write_text(session[:place])
        said = io.StringIO()
        with contextlib.redirect_stdout(said), contextlib.redirect_stderr(said):
            status = journal.replay(log)
        ending = "has no final report" if session[place - 1] == "\n" else f"is cut off in line {session.count(chr(10), 0, place) + 1}"
        assert status == 0, f"a log cut at {place}"
        assert said.getvalue().endswith(f" answers are those of the log, which {ending}\n"), f"a log cut at {place}"


def test_replay_of_a_long_log_takes_little_memory(session: str, tmp_path: Path) -> None:
    """The log has 13 MiB. Its lines are read one by one."""
    log = tmp_path / "log"
    log.write_text(session.partition("\n")[0] + "\nchannel 1 10 8 0\n" + "clcw 1\n#= clcw 1 01040000\n" * 500_000)
    code = ("import sys; from pathlib import Path; from tcrx.bench.journal import replay; replay(Path(sys.argv[1]));"
            "print(Path('/proc/self/status').read_text().partition('VmHWM:')[2].split()[0])")
    answered, most = run(sys.executable, "-c", code, log, names={"PYTHONPATH": str(PROGRAM.parent)}).stdout.splitlines()
    assert answered == "500000 answers are those of the log, which has no final report"
    assert int(most) < 49152


def test_log_is_drawn_by_draw_run(session: str, tmp_path: Path) -> None:
    """The picture has the frame that was accepted."""
    log, printed = tmp_path / "log", tmp_path / "printed"
    log.write_text(session)
    printed.write_text(answers_of(log))
    ran = run(TOP / "tools/draw_run", log, printed)
    assert (ran.returncode, ran.stderr) == (0, "") and ran.stdout.count('class="mark accepted"') == 1


# --- What the pages show ---

def test_first_commands_of_the_page_on_benches(tmp_path: Path) -> None:
    """They are run with free ports. The frame that they send arrives and is in the state, and the report is printed at the end."""
    blocks = re.findall(r"^```bash\n(.*?)^```$", PAGE.read_text(encoding="utf-8"), re.M | re.S)
    setup, start, send = "".join(blocks[:2]).splitlines()
    ports = {port: str(free_port()) for port in ("10025", "10026", "10027", "10028")}
    for port, free in ports.items():
        start, send = start.replace(port, free), send.replace(port, free)
    (tmp_path / "tcrx-bench").symlink_to(TOP / "tcrx-bench")
    subprocess.run(["bash", "-c", setup], cwd=tmp_path, check=True)
    with subprocess.Popen(["bash", "-c", f"exec {start}"], cwd=tmp_path, stdout=subprocess.PIPE, text=True) as child:
        try:
            assert child.stdout
            names = {"tc-tcp": "10025", "clcw-tcp": "10026", "packets-tcp": "10027", "http": "10028"}
            assert [child.stdout.readline() for _ in range(5)] == [*(f"{kind} 127.0.0.1:{ports[port]}\n" for kind, port in names.items()), "ready\n"]
            subprocess.run(["bash", "-c", send], check=True)
            assert until(lambda: "E1 accepted 1" in (tmp_path / "bench.log").read_text(encoding="ascii"))
            with socket.create_connection(("127.0.0.1", int(ports["10028"]))) as link:
                link.sendall(b"GET /state HTTP/1.1\r\n\r\n")
                state = json.loads(read_all(link).partition(b"\r\n\r\n")[2])
        finally:
            child.terminate()
        assert (state["frames"], state["packets"], state["channels"][0]["vr"]) == (1, 1, 1)
        assert child.stdout.read() == f"final 1 {word_of(1, 0, 0, 1)} events 3 buffered 0\nqueue 1 5 0\n"
    assert child.returncode == 0


def test_bench_that_the_recipes_copy_finds_the_library_there(tmp_path: Path) -> None:
    """Runs the commands with which the recipes copy the bench and the library into a folder of their own, but as this user."""
    blocks = re.findall(r"^```sh\n(.*?)^```$", RECIPES.read_text(encoding="utf-8"), re.M | re.S)
    commands = "".join(block for block in blocks if "sudo" in block).replace("sudo ", "").replace("/srv/bench", str(tmp_path / "srv"))
    log = tmp_path / "copied.log"
    log.write_text("# tcrx-bench 0.3.0 spacecraft 42, begun 2026-01-01T00:00:00Z\nchannel 1 10 1 0\nclcw 1\n#= clcw 1 01040000\n")
    ran = run("bash", "-ec", f"{commands}\n{tmp_path}/srv/tcrx-bench --replay {log}", names={"TCRX_LIB_DIR": ""})
    assert (ran.returncode, ran.stdout, ran.stderr) == (0, "1 answers are those of the log, which has no final report\n", "")


# --- Versions of Python ---

@pytest.mark.needs("python3.9")
def test_bench_runs_by_python_3_9(bench: Start) -> None:
    """Frames, lines and the page are answered."""
    python = pythons.find("3.9")
    assert python
    running = bench("--tc-tcp", "0", "--lines", "0", "--http", "0", "--packets-tcp", "0", python=python)
    wanted = b"".join(numbered(5, number) for number in range(100))
    with running.reader() as packets, running.connect("tc-tcp") as sender:
        sender.sendall(b"".join(frame(number, whole(0, numbered(5, number))) for number in range(100)))
        assert read_count(packets, 700) == wanted
    assert running.ask("clcw 1\n") == [f"clcw 1 {word_of(1, 0, 0, 100)}"]
    assert (running.state()["frames"], running.get("/")[0][:12]) == (100, "HTTP/1.1 200")
    assert (running.child.poll(), running.end()[::2]) == (None, (0, ""))
    replays(running, "Python 3.9")


@pytest.mark.parametrize("version", [pytest.param(version, marks=pytest.mark.needs(f"python{version}")) for version in ("3.6", "3.7", "3.8")])
def test_bench_refuses_an_older_python(version: str) -> None:
    """The command says which version it needs."""
    python = pythons.find(version)
    assert python
    ran = run(TOP / "tcrx-bench", "--version", names={"PATH": f"{Path(python).parent}:{os.environ['PATH']}"})
    assert (ran.returncode, ran.stdout, ran.stderr) == (70, "", "tcrx-bench: Python 3.9 or later is needed\n")


# --- What it prints can't be written, or isn't read ---

def test_ports_that_cannot_be_printed_end_the_bench(setup: Path) -> None:
    """Standard output is a full device."""
    with open("/dev/full", "wb") as full:
        ran = run_bench_into(full.fileno(), "--scid", "42", "--setup", setup, "--lines", "0")
    assert ran.returncode == 1 and "can't be written" in ran.stderr and "Traceback" not in ran.stderr


def run_bench_into(stdout: int, *words: object) -> subprocess.CompletedProcess[str]:
    """Runs the bench with another standard output."""
    return run(sys.executable, PROGRAM, *words, stdout=stdout, timeout=PATIENCE)


def test_final_report_that_cannot_be_printed_is_said(bench: Start) -> None:
    """The other end of standard output is closed."""
    running = bench("--lines", "0")
    assert running.child.stdout
    running.child.stdout.close()
    running.child.send_signal(signal.SIGTERM)
    assert running.child.wait(PATIENCE) == 1
    running.errors.close()
    assert (running.folder / "errors").read_text(encoding="utf-8") == "tcrx-bench: the final report can't be written\n"


def test_bench_without_standard_error_answers_and_reports(bench: Start) -> None:
    """What would be printed on standard error goes nowhere else."""
    running = bench("--tc-tcp", "0", "--period", "0", limit="-f unlimited; exec 2>&-")
    with running.connect("tc-tcp") as link:
        link.sendall(b"\xff" * 9)
        assert b"octets that begin no frame" in read_all(link)
    assert running.end()[:2] == (0, f"final 1 {word_of(1, 0, 0, 0)} events 0 buffered 0\nqueue 1 5 0\n")
    assert [line for line in lines_of(running.log)[1:] if not line.startswith(("channel", "queue", "# end", "#= "))] == []


def test_standard_error_that_nobody_reads_holds_nothing_up(monkeypatch: pytest.MonkeyPatch) -> None:
    """Lines for which there is no room are counted."""
    output, given = os.pipe()
    notes = Notes()

    def say() -> None:
        for number in range(4000):
            notes.say_once(f"{number} {'x' * 80}")
    with open(output, "rb", buffering=0) as reader, open(given, "w", encoding="ascii") as full:
        monkeypatch.setattr("sys.stderr", full)
        thread = threading.Thread(target=say, daemon=True)
        thread.start()
        thread.join(PATIENCE)
        assert not thread.is_alive()
        read = reader.read(1 << 20).decode().split("\n")[:-1]
        notes.say_left_out()
        assert read == [f"tcrx-bench: {number} {'x' * 80}" for number in range(len(read))]
        assert reader.read(99).decode() == f"tcrx-bench: {4000 - len(read)} more such lines weren't written\n"


def test_memory_that_runs_out_is_said(monkeypatch: pytest.MonkeyPatch, capsys: pytest.CaptureFixture[str]) -> None:
    """It runs out in a replay."""
    def run_out(*_: object, **__: object) -> int:
        raise MemoryError
    monkeypatch.setattr(tcrx_bench, "replay", run_out)
    monkeypatch.setattr("sys.argv", ["tcrx-bench", "--replay", "x"])
    assert (tcrx_bench.main(), capsys.readouterr().err) == (1, "tcrx-bench: out of memory\n")


def test_few_lines_of_the_log_wait_to_be_written(tmp_path: Path) -> None:
    """There are 20,000 lines with an answer."""
    log, most = journal.Journal(tmp_path / "long", 42, False), 0
    for _ in range(20_000):
        log.origin(0.0, 0.0, "x")
        log.answer("clcw 1", "clcw 1 01040000")
        most = max(most, len(log.lines))
    assert most < 5_000
