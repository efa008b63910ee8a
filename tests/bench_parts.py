"""What the tests of tcrx-bench share: the bench as a process, its ports, and its log."""
from __future__ import annotations

import json
import os
import re
import signal
import socket
import subprocess
import sys
import tempfile
from itertools import zip_longest
from pathlib import Path
from typing import Any, Dict, List, Tuple

from client_parts import word
from comparing import PATIENCE, TOP, begun, program_of, run, until

PROGRAM = TOP / "clients/python/tcrx_bench.py"
# The programs of this tree, which must be built: what makes CLTUs, and whose answers are compared with those of a log.
TCRX, TCMAKE = program_of("tcrx"), program_of("tcmake")
SETUP = "channel 1 10 8 0\nqueue 1 5 16\n"


def numbered(apid: int, number: int) -> bytes:
    """Returns a packet of a single octet of data, by its number."""
    return (0x1000 | apid).to_bytes(2, "big") + (0xC000 | number & 0x3FFF).to_bytes(2, "big") + b"\x00\x00" + bytes([number & 255])


def word_of(channel: int, flags: int, farm_b: int, report: int) -> str:
    """Returns a CLCW's eight digits."""
    return f"{word(channel, flags, farm_b, report).word:08x}"


def read_on(link: socket.socket, octets: bytearray) -> None:
    """Reads all that comes until the other end closes, and adds it piece by piece, as another thread may look at it."""
    link.settimeout(PATIENCE)
    try:
        while more := link.recv(1 << 16):
            octets += more
    except ConnectionResetError:
        pass


def read_all(link: socket.socket) -> bytes:
    """Returns all that comes until the other end closes."""
    octets = bytearray()
    read_on(link, octets)
    return bytes(octets)


def read_count(link: socket.socket, count: int) -> bytes:
    """Returns so many octets, or fewer where no more come."""
    octets = b""
    link.settimeout(PATIENCE)
    while len(octets) < count and (more := link.recv(count - len(octets))):
        octets += more
    return octets


def free_port(kind: int = socket.SOCK_STREAM) -> int:
    """Returns a port of this machine that nothing uses at the moment."""
    with socket.socket(socket.AF_INET, kind) as taken:
        taken.bind(("127.0.0.1", 0))
        return int(taken.getsockname()[1])


def udp_socket() -> socket.socket:
    """Returns a socket on a free port to which datagrams can be sent."""
    link = socket.socket(socket.AF_INET, socket.SOCK_DGRAM)
    link.bind(("127.0.0.1", 0))
    link.settimeout(PATIENCE)
    return link


class Bench:
    """A bench that runs, from its start to its end. Its ports are free ones."""

    def __init__(self, work: Path, *words: str, setup: str = SETUP, python: str = sys.executable,
                 limit: str = "-f unlimited", stdin: int = subprocess.DEVNULL, has_log: bool = True) -> None:
        self.folder = Path(tempfile.mkdtemp(dir=work))
        self.log = self.folder / "log"
        self.errors = open(self.folder / "errors", "w+b")  # pylint: disable=consider-using-with  # it is closed in `ended`
        (self.folder / "setup").write_text(setup)
        log = ["--log", str(self.log)] if has_log and "--log" not in words else []
        # With a limit: -f of the kibibytes that a file may have, -n of the files that may be open.
        given = ["bash", "-c", f'ulimit {limit}; exec "$0" "$@"', python, str(PROGRAM), "--scid", "42",
                 *(["--setup", str(self.folder / "setup")] if setup else []), *log, *words]
        # pylint: disable-next=consider-using-with  # it is ended in `ended`, or by the check
        self.child = subprocess.Popen(given, stdin=stdin, stdout=subprocess.PIPE, stderr=self.errors)
        begun.append(self.child)
        self.ports: Dict[str, int] = {}
        assert self.child.stdout
        for line in iter(self.child.stdout.readline, b""):
            if line == b"ready\n":
                break
            kind, address = line.decode().split()
            self.ports[kind] = int(address.rpartition(":")[2])

    def connect(self, kind: str, source: str = "127.0.0.1", buffer: int = 0) -> socket.socket:
        """Returns a connection to a port, with a small buffer for what comes where one is named."""
        link = socket.socket()
        if buffer:
            link.setsockopt(socket.SOL_SOCKET, socket.SO_RCVBUF, buffer)
        link.settimeout(PATIENCE)
        link.bind((source, 0))
        link.connect(("127.0.0.1", self.ports[kind]))
        return link

    def reader(self, kind: str = "packets-tcp") -> socket.socket:
        """Returns a connection to a port that sends, once it is one of those that are counted there."""
        open_before = self.port(kind)["open"]
        link = self.connect(kind)
        until(lambda: self.port(kind)["open"] > open_before)
        return link

    def datagram(self, octets: bytes, source: str = "127.0.0.1") -> None:
        """Sends a datagram to the port for frames."""
        with socket.socket(socket.AF_INET, socket.SOCK_DGRAM) as link:
            link.bind((source, 0))
            link.sendto(octets, ("127.0.0.1", self.ports["tc-udp"]))

    def ask(self, lines: str) -> List[str]:
        """Returns the answers to lines over a connection of their own, which is closed behind them."""
        with self.connect("lines") as link:
            link.sendall(lines.encode("latin-1"))
            link.shutdown(socket.SHUT_WR)
            return read_all(link).decode("latin-1").split("\n")[:-1]

    def get(self, path: str, method: str = "GET", host: str = "localhost") -> Tuple[str, str]:
        """Returns the head and the body of an answer over HTTP."""
        with self.connect("http") as link:
            link.sendall(f"{method} {path} HTTP/1.1\r\nHost: {host}\r\n\r\n".encode())
            head, _, body = read_all(link).decode().partition("\r\n\r\n")
            return head, body

    def end(self, number: int = signal.SIGTERM) -> Tuple[int, str, str]:
        """Asks it to end, and gives its status, what it printed behind its ports, and what was on standard error."""
        self.child.send_signal(number)
        return self.ended()

    def ended(self) -> Tuple[int, str, str]:
        """Returns what `end` returns, of a bench that ends by itself."""
        printed, _ = self.child.communicate(timeout=PATIENCE)
        self.errors.seek(0)
        error = self.errors.read().decode()
        self.errors.close()
        return self.child.returncode, printed.decode(), error

    def state(self) -> Any:
        """Returns the state as it is given over HTTP."""
        return json.loads(self.get("/state")[1])

    def port(self, kind: str) -> Any:
        """Returns what is counted on a port."""
        return next(port for port in self.state()["ports"] if port["port"] == kind)

    def open_files(self) -> List[str]:
        """Returns what the process has open, without the files of its event loop."""
        found = []
        for number in os.listdir(f"/proc/{self.child.pid}/fd"):
            try:
                found.append(os.readlink(f"/proc/{self.child.pid}/fd/{number}"))
            except OSError:
                pass
        return found

    def memory(self) -> int:
        """Returns how many kibibytes the process has in memory."""
        return int(re.findall(r"VmRSS:\s+(\d+)", Path(f"/proc/{self.child.pid}/status").read_text(encoding="ascii"))[0])

    def threads(self) -> int:
        """Returns how many threads the process has."""
        return len(os.listdir(f"/proc/{self.child.pid}/task"))


# --- The log ---

def lines_of(log: Path) -> List[str]:
    """Returns the lines of a log."""
    return log.read_text(encoding="latin-1").split("\n")[:-1]


def script_of(log: Path) -> str:
    """Returns the script that a log is, without its comments: `tcrx` takes a mebibyte."""
    return "".join(line + "\n" for line in lines_of(log) if not line.startswith("#"))


def answers_of(log: Path) -> str:
    """Returns the answers that a log has for `tcrx`."""
    return "".join(line[3:] + "\n" for line in lines_of(log) if line.startswith("#= "))


def words_sent(log: Path) -> List[str]:
    """Returns the CLCWs of a log in their order, with the flags of the link."""
    found: List[str] = []
    for line in lines_of(log):
        if match := re.fullmatch(r"#([=~]) clcw \d+ ([0-9a-f]{8})", line):
            if match[1] == "~":
                found.pop()
            found.append(match[2])
    return found


def run_tcrx(script: str) -> str:
    """Returns what `tcrx run` prints for a script."""
    ran = run(TCRX, "run", "--scid", "42", given=script)
    return ran.stdout + ran.stderr


def same_lines(answer: str, wanted: str, what: str) -> None:
    """Compares texts of many lines, and shows the first that differ."""
    pairs = zip_longest(answer.split("\n"), wanted.split("\n"))
    found = next((f"line {place}: {one!r}, and not {other!r}" for place, (one, other) in enumerate(pairs, 1) if one != other), "")
    assert not found and wanted, f"{what}: {found or 'nothing to compare'}"


def replay(bench: Bench, *words: str) -> subprocess.CompletedProcess[str]:
    """Runs --replay over a log."""
    return run(sys.executable, PROGRAM, "--replay", bench.log, *words)


def is_replayed(bench: Bench, what: str) -> None:
    """Compares the answers of a log with those of a new receiver by the bench itself."""
    ran = replay(bench)
    good = (ran.returncode, ran.stderr) == (0, "") and re.fullmatch(r"\d+ answers and the final report are those of the log\n", ran.stdout)
    assert good, f"{what}: the log by --replay: {ran}"


def replays(bench: Bench, what: str) -> None:
    """Compares the answers of a log with those of `tcrx`, and by --replay."""
    same_lines(run_tcrx(script_of(bench.log)), answers_of(bench.log), f"{what}: the log by tcrx")
    is_replayed(bench, what)


def ends(bench: Bench, what: str) -> None:
    """Ends a bench, whose status must be 0, and compares the answers of its log."""
    assert bench.end()[0] == 0, f"{what}: status"
    replays(bench, what)
