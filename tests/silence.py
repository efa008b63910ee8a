"""An attack on tcrx-bench: silent connections take all places of each of its ports, and more connections come than there are places. For a minute
newcomers at a port for frames or lines are told so. After that each newcomer takes the place of the oldest silent connection. A port that only sends
keeps its silent connections, and the port for the page closes them after --patience."""
from __future__ import annotations

import re
import socket
import time
from pathlib import Path
from typing import Dict, List

from bench_parts import Bench, numbered, read_all, read_count, word_of
from comparing import until
from client_parts import frame, whole

# The ports that take frames or lines, and the seconds after which a connection that says nothing may lose its place there.
HEARD, SILENT = ("tc-tcp", "lines"), 60
# Places of each port, connections that come beyond them at once, and seconds after which one more comes, again and again.
PLACES, OVER, PAUSE = 8, 100, 2.5
# Seconds of --patience.
PATIENT = 10
# The ports whose silent connections stay.
KINDS = (*HEARD, "packets-tcp", "clcw-tcp")
OPTIONS = [word for kind in (*KINDS, "http") for word in (f"--{kind}", "0")] + f"--connections {PLACES} --period 0 --patience {PATIENT}".split()
FULL = f"there are {PLACES} connections, and no more are taken"
GIVEN_UP = r"nothing came in (\d+) seconds, and the port is full: a new connection takes this place"
# The lines that the bench prints about these connections on standard error.
SAID = re.compile(rf"tcrx-bench: (\S+ 127\.0\.0\.1:\d+: ({FULL}|{GIVEN_UP})|\d+ more such lines weren't written)")


class Silence:
    """A bench whose ports are taken by silent connections, but for a talker at the port for frames and a reader of packets."""

    def __init__(self, room: Path) -> None:
        self.bench = Bench(room, *OPTIONS)
        self.packets, self.talker = self.bench.reader("packets-tcp"), self.bench.connect("tc-tcp")
        self.count = 0
        """How many frames were sent."""
        self.held: Dict[str, List[socket.socket]] = {kind: [] for kind in KINDS}

    def fill(self) -> None:
        """Takes all places that are left, and says nothing there."""
        for kind, held in self.held.items():
            while len(held) < PLACES - (kind in ("tc-tcp", "packets-tcp")):
                held.append(self.bench.connect(kind))

    def serve(self, link: socket.socket, kind: str = "tc-tcp") -> None:
        """Sends a frame, whose packet must come, or a line, which must be answered."""
        if kind == "lines":
            link.sendall(b"clcw 1\n")
            assert read_count(link, 16).decode() == f"clcw 1 {word_of(1, 0, 0, self.count % 256)}\n"
            return
        link.sendall(frame(self.count % 256, whole(0, numbered(5, self.count))))
        assert read_count(self.packets, 7) == numbered(5, self.count)
        self.count += 1

    def turned_away(self, kind: str, count: int) -> None:
        """Compares what so many newcomers are told at a full port. A port that only sends tells them nothing."""
        links, what = [self.bench.connect(kind) for _ in range(count)], f"what newcomers at the full port {kind} are told"
        assert {said_to(link, what) for link in links} == {f"tcrx-bench: {FULL}\n".encode() if kind in HEARD else b""}, what
        for link in links:
            link.close()


def said_to(link: socket.socket, what: str) -> bytes:
    """Returns what the bench says to a connection until it closes it. Raises `TimeoutError` with this text if it doesn't close it."""
    try:
        return read_all(link)
    except socket.timeout:
        raise TimeoutError(f"{what}: the connection stays open") from None


def is_closed(link: socket.socket) -> bool:
    """Returns whether the bench has closed a connection to which it sends nothing."""
    link.setblocking(False)
    try:
        return not link.recv(1)
    except BlockingIOError:
        return False
    finally:
        link.setblocking(True)


def attack(room: Path, seconds: float) -> None:
    """Holds all places for a minute, and again as often as that fits into these seconds."""
    these, begun, memory = Silence(room), time.monotonic(), 0
    these.serve(these.talker)
    files, threads = len(these.bench.open_files()), these.bench.threads()
    fill_page(these)
    while True:
        hold(these)
        take_over(these)
        memory = memory or these.bench.memory()
        if time.monotonic() - begun + SILENT > seconds:
            break
    more = these.bench.memory() - memory
    assert abs(more) < memory / 20, f"memory grew by {more} KiB, and it was {memory} KiB"
    held = sum(map(len, these.held.values()))
    assert until(lambda: len(these.bench.open_files()) == files + held), f"{len(these.bench.open_files())} files are open, and not {files} and {held}"
    assert these.bench.threads() == threads
    print(f"silence: {memory} KiB and {more} more", flush=True)
    end(these)


def fill_page(these: Silence) -> None:
    """Takes all places of the port for the page. Those visitors must be turned away after --patience, and the next one must be served."""
    links = [these.bench.connect("http") for _ in range(PLACES)]
    with these.bench.connect("http") as link:
        head, _, body = said_to(link, "what a visitor is told while all others are silent").decode().partition("\r\n\r\n")
        assert (head[:12], body) == ("HTTP/1.1 503", f"{FULL}\n")
    for link in links:
        assert said_to(link, "what a silent visitor is told")[:12] == b"HTTP/1.1 408"
        link.close()
    assert these.bench.get("/state")[0][:12] == "HTTP/1.1 200"


def hold(these: Silence) -> None:
    """Takes all places. For a minute no connection may lose its place, and after that none at the ports for readers."""
    these.serve(these.talker)
    these.fill()
    end_of_silence = time.monotonic() + SILENT
    for kind in KINDS:
        these.turned_away(kind, OVER)
    while time.monotonic() < end_of_silence - 2 * PAUSE:
        these.serve(these.talker)
        for kind in KINDS:
            these.turned_away(kind, 1)
        time.sleep(PAUSE)
    closed = [kind for kind, links in these.held.items() for link in links if is_closed(link)]
    assert not closed, "these ports have closed silent connections within a minute"
    time.sleep(max(0.0, end_of_silence - time.monotonic()) + 1)
    for kind in KINDS:
        if kind not in HEARD:
            these.turned_away(kind, 1)


def take_over(these: Silence) -> None:
    """Has newcomers take the places of silent connections, the oldest first. A connection that has sent something must keep its place."""
    for kind in HEARD:
        newcomers: List[socket.socket] = []
        for oldest in these.held[kind]:
            newcomers.append(these.bench.connect(kind))
            these.serve(newcomers[-1], kind)
            said = said_to(oldest, f"what the oldest silent connection at {kind} is told")
            found = re.fullmatch(f"tcrx-bench: {GIVEN_UP}\n", said.decode())
            assert found and int(found[1]) >= SILENT, said
            oldest.close()
        these.turned_away(kind, 1)
        these.serve(these.talker)
        for link in newcomers:
            link.close()
        these.held[kind].clear()
    assert until(lambda: [these.bench.port(kind)["open"] for kind in HEARD] == [1, 0]), "connections that have ended are counted"


def end(these: Silence) -> None:
    """Asks the bench to end, with silent connections at the ports for readers."""
    begun = time.monotonic()
    status, _, error = these.bench.end()
    took = time.monotonic() - begun
    assert took < PATIENT + 1
    assert (status, [line for line in error.splitlines() if not SAID.fullmatch(line)][:3]) == (0, [])
    for link in (*these.held["packets-tcp"], *these.held["clcw-tcp"], these.packets, these.talker):
        link.close()
