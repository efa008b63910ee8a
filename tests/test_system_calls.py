"""Shows what programs do when system calls fail. strace makes them fail. In tcrx, tclive and tcmake one call of a kind fails (the first, the
second, a middle or the last one), or all of them fail, with each of the usual errors. In tcrx-bench every fifth call of a kind fails while frames,
lines and readers come and go. pytest collects nothing of this file if strace is installed and may not trace.
"""
from __future__ import annotations

import re
import shutil
import socket
import subprocess
import threading
import time
from collections import Counter
from pathlib import Path
from typing import Iterator

import pytest

from bench_parts import Bench, numbered, read_on
from client_parts import frame, whole
from comparing import until

pytestmark = pytest.mark.needs("strace")
# Whether pytest collects the tests of this file.
__test__ = not shutil.which("strace") or subprocess.run(["strace", "-o", "/dev/null", "true"], capture_output=True, check=False).returncode == 0

SETUP = "channel 1 254 64 0\nqueue 1 5 256\nmap 1 3 4\n"
SCRIPT = SETUP + "frame 202a040c00c01005c0000000aa\nrelease 1\ntake 1 5\nclcw 1\n" * 20 + "frame 00\nunit 1 3\n"
MADE = "ad 42 1 0 0 aabb\nexplain 002a040c00c01005c0000000aa\nsegments 42 1 0 1 3 aabbccddeeff\ncltu aabb\ntm 42 1 11 01040001\n" * 20
# The command lines, each with the script that it reads.
GIVEN = [("tcrx run --scid 42", SCRIPT), ("tcrx parallel --scid 42", SCRIPT), ("tclive --scid 42", SCRIPT + "deliver 1\nreport 1\nlink 1 1 0\n"),
         ("tcmake", MADE), ("tclive --help", "")]
# The usual errors of some calls, the errors to try with all others, and the errors after which a program repeats a call until it succeeds.
ERRORS = {"read": "EINTR EIO EAGAIN EBADF", "write": "EINTR EIO ENOSPC EPIPE EAGAIN", "mmap": "ENOMEM", "munmap": "EINVAL",
          "mprotect": "ENOMEM", "futex": "EINTR EAGAIN", "clone3": "EAGAIN ENOSYS", "openat": "EMFILE ENOENT", "getrandom": "ENOSYS EAGAIN"}
OTHERS, AGAIN = "EINVAL ENOSYS EPERM", {"EINTR", "EAGAIN"}
# Calls that never fail here: those without which no program ends, and one that reports an error by an address.
NEVER = {"exit_group", "exit", "rt_sigreturn", "brk"}
# The loader of programs makes the first calls of a run. The first call after these is this one in a program in Rust, and in a program in C the one
# after the loader's last.
FIRST, LAST_OF_LOADER = "rt_sigaction(SIGPIPE", "munmap("
# The calls of the bench that fail, with their usual errors, and the number of calls from one that fails to the next.
OF_BENCH = {"sendto": "ENOBUFS EAGAIN EPIPE ECONNRESET", "recvfrom": "EAGAIN ECONNRESET ENOMEM", "accept4": "EMFILE ECONNABORTED ENOBUFS EPERM",
            "epoll_wait": "EINTR", "setsockopt": "ENOBUFS EINVAL"}
STEP = 5


# --- Programs ---

def failures(lines: list[str]) -> Iterator[tuple[str, str, str]]:
    """Yields each failure to be tried for the calls in the lines of a trace: the name of the call, the error, and the times at which it fails."""
    calls = [re.sub(r"^\d+ +", "", line) for line in lines if "(" in line and not re.match(r"^\d+ +(\+\+\+|---|<\.\.\.)", line)]
    loaded = next((place + 1 for place, line in enumerate(calls) if line.startswith(LAST_OF_LOADER)), len(calls))
    own = next((place for place, line in enumerate(calls) if line.startswith(FIRST)), loaded)
    before, after = (Counter(line.split("(")[0] for line in part) for part in (calls[:own], calls[own:]))
    for call, count in sorted(after.items()):
        first = before[call] + 1
        for error in ERRORS.get(call, OTHERS).split() if call not in NEVER else []:
            for at in sorted({first, first + 1, first + count // 2, before[call] + count}):
                yield call, error, str(at)
            if error not in AGAIN:
                yield call, error, f"{first}+"


def fault_of(ran: subprocess.CompletedProcess[bytes], usual: bytes, silent: bool) -> str:
    """Returns what is wrong with a run in which calls failed, or nothing. It must print the beginning of its usual output. Its status must be 0 only
    if the output is complete, and otherwise standard error must say why, unless the run may be silent. No signal may end it."""
    printed, status = ran.stdout, ran.returncode
    if usual.startswith(printed) and 0 <= status < 128 and (ran.stderr or silent if status else printed == usual):
        return ""
    return f"status {status}, {len(printed)} of {len(usual)} octets, {ran.stderr.decode(errors='replace')}"


@pytest.mark.parametrize("line, script", GIVEN, ids=[line for line, _ in GIVEN])
def test_a_program_says_why_if_a_call_fails(line: str, script: str, stand_ins: bool, tmp_path: Path, request: pytest.FixtureRequest) -> None:
    """It says nothing if all writes fail. All failures are tried, and those that go wrong are listed."""
    name, *words = line.split()
    given, trace = tmp_path / "given", tmp_path / "trace"
    given.write_text(script, encoding="ascii")

    def traced(*more: str) -> subprocess.CompletedProcess[bytes]:
        with open(given, "rb") as lines:
            command = ["strace", "-f", "-qq", "-o", trace, *more, request.getfixturevalue(name), *words]
            return subprocess.run(command, stdin=lines, capture_output=True, timeout=60, check=False)

    usual = traced()
    if stand_ins and b"needs the proved program" in usual.stderr:
        # A tcrx that dist builds has no `parallel`, so nothing more is tried.
        assert (usual.returncode, usual.stdout) == (70, b"")
        return
    assert usual.returncode == 0
    tried = list(failures(trace.read_text(encoding="latin-1").splitlines()))
    assert "write" in {call for call, _, _ in tried}
    wrong = []
    for call, error, at in tried:
        try:
            fault = fault_of(traced("-e", f"inject={call}:error={error}:when={at}"), usual.stdout, call == "write" and "+" in at)
        except subprocess.TimeoutExpired:
            fault = "it hangs"
        wrong += [f"{call} {error} at {at}: {fault}"] * bool(fault)
    assert not wrong, "\n".join(wrong)


# --- The bench ---

def use(bench: Bench) -> None:
    """Sends frames over eight connections, and asks for lines and pages. Ignores errors, because the failures that are tried cause them."""
    for turn in range(8):
        try:
            with bench.connect("tc-tcp") as link:
                for number in range(25):
                    link.sendall(frame(0, whole(0, numbered(5, turn * 25 + number)), bypass=1))
                    time.sleep(0.001)
        except OSError:
            pass
        for part in ("lines", "page"):
            try:
                _ = bench.ask("report 1\nclcw 1\n") if part == "lines" else bench.get("/state")
            except (OSError, ValueError):
                pass


def read(link: socket.socket, octets: bytearray) -> None:
    """Reads packets until the end of the stream, or until the connection fails."""
    try:
        read_on(link, octets)
    except OSError:
        pass


def use_while_calls_fail(bench: Bench, call: str, error: str) -> None:
    """Uses the bench while every fifth call of a kind fails. At least one must fail."""
    trace = bench.folder / "trace"
    with subprocess.Popen(["strace", "-qq", "-o", trace, "-p", str(bench.child.pid), "-e", f"inject={call}:error={error}:when=3+{STEP}"],
                          stderr=subprocess.PIPE) as tracing:
        assert until(lambda: f"TracerPid:\t{tracing.pid}" in Path(f"/proc/{bench.child.pid}/status").read_text(encoding="ascii"))
        use(bench)
        tracing.terminate()
    assert "INJECTED" in trace.read_text(encoding="latin-1")


@pytest.mark.usefixtures("library")
@pytest.mark.parametrize("call, error", [(call, error) for call, errors in OF_BENCH.items() for error in errors.split()])
def test_the_bench_goes_on_if_calls_fail(call: str, error: str, tmp_path: Path) -> None:
    """It answers afterwards, exits with its report, and has sent all packets to a reader that lost none."""
    bench = Bench(tmp_path, *"--tc-tcp 0 --lines 0 --http 0 --packets-tcp 0 --clcw-tcp 0 --patience 4".split(), setup=SETUP)
    packets = bytearray()
    with bench.connect("packets-tcp", buffer=1 << 20) as link:
        reader = threading.Thread(target=read, args=(link, packets), daemon=True)
        reader.start()
        use_while_calls_fail(bench, call, error)
        assert until(lambda: bench.ask("report 1\n")[:1], 10)
        port, frames = bench.port("packets-tcp"), bench.state()["frames"]
        status, printed, said = bench.end()
        reader.join(20)
    assert (status, "Traceback" in said, bool(printed)) == (0, False, True), said[-300:]
    assert port.get("lost") or not port["open"] or len(packets) == 7 * frames
