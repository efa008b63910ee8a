"""Starts peers of several kinds beside honest senders, for the attacks that are made of such peers: a bench, what its peers have sent, and what must
come out of the frames of the honest senders."""
from __future__ import annotations

import random
import re
import socket
import threading
import time
from collections import Counter
from pathlib import Path
from typing import Callable, List, Sequence

from bench_parts import Bench, read_all
from comparing import until
from senders import BATCH, LEFT, Asker, Sender, Tally, begin, grown

# Seconds of --patience.
PATIENT = 6
Peer = Callable[[random.Random], None]


class Peers:
    """A bench with peers, and what they have sent."""

    def __init__(self, room: Path, options: str, setup: str, honest: List[Sender]) -> None:
        self.bench, self.ended = Bench(room, *options.split(), "--patience", str(PATIENT), setup=setup), threading.Event()
        self.honest, self.tally = honest, Tally(self.bench)
        self.turns: Counter[str] = Counter()
        self.wrong: List[str] = []

    def begin(self, peer: Peer, place: int) -> threading.Thread:
        """Starts a peer, which takes turns until `ended` is set."""
        name = peer.__name__

        def go() -> None:
            dice = random.Random(f"{place} {name}")
            while not self.ended.is_set():
                try:
                    peer(dice)
                except OSError as fault:
                    self.wrong.append(f"{name}: {fault!r}")
                self.turns[name] += 1
                self.ended.wait(0.02)
        return begin(go)

    def told(self, octets: bytes, kind: str = "tc-tcp", ends: bool = True) -> bytes:
        """Sends octets over a connection, and returns what the bench says to it until it closes it. A peer that doesn't end its side
        waits in silence."""
        with self.bench.connect(kind) as link:
            try:
                link.sendall(octets)
                if ends:
                    link.shutdown(socket.SHUT_WR)
            except OSError:
                # The bench has closed the connection amid the octets. Its last lines can still be read.
                pass
            return read_all(link)

    def wait(self) -> None:
        """Asks for a CLCW, and waits for it. So a peer that waits for nothing else sends no faster than the bench answers."""
        self.see([answer[:7] for answer in self.bench.ask("clcw 1\n")], ["clcw 1 "], "the answer to a line beside others")

    def see(self, found: object, wanted: object, what: str) -> None:
        """Notes what isn't as it is wanted."""
        if found != wanted:
            self.wrong.append(f"{what}: {found!r}, and not {wanted!r}")

    def carry_on(self, peers: Sequence[Peer], seconds: float) -> None:
        """Starts all peers for so many seconds, beside the honest senders, a reader of packets and a peer that asks for reports. Compares what these
        peers were told and sent."""
        bench, tally, asker, name = self.bench, self.tally, Asker(), type(self).__module__
        begin(tally.read)
        files = len(bench.open_files())
        threads = [self.begin(peer, place) for place, peer in enumerate(peers)] + [begin(asker.ask, bench, self.ended)]
        threads += [begin(sender.send, bench, self.ended, tally.numbers) for sender in self.honest]
        try:
            memory = grown(bench, seconds)
        finally:
            self.ended.set()
        for thread in threads:
            thread.join()
        sent = {each.apid: each.sent for each in self.honest}
        print(f"{name}: {dict(self.turns)} turns in {seconds:.0f} s, {sum(sent.values())} frames of honest senders, {asker.count} reports "
              f"of which one took {asker.longest:.2f} s, {memory}", flush=True)
        assert all(self.turns[peer.__name__] for peer in peers), f"a peer took no turn: {self.turns}"
        assert not self.wrong[:5]
        asker.compare()
        assert min(sent.values()) > BATCH, f"honest senders have sent {sent}"
        until(lambda: sum(tally.numbers.values()) >= sum(sent.values()))
        assert (dict(tally.numbers), tally.wrong[:3], tally.rest) == (sent, [], b""), "the packets of honest senders, once and in order"
        assert until(lambda: len(bench.open_files()) <= files), f"{len(bench.open_files())} files are open, and {files} were"

    def end(self, said: str, seconds: float) -> None:
        """Asks the bench to end after so many seconds, and looks at what it has left behind. `said` is the pattern of its lines on standard
        error, which name a port and a peer in front."""
        bench = self.bench
        own = {str(bench.log), str(bench.folder / "errors")}
        assert {name for name in bench.open_files() if name.startswith("/") and not name.startswith("/dev/")} <= own
        begun = time.monotonic()
        status, _, error = bench.end()
        took = time.monotonic() - begun
        assert took < PATIENT + 1
        lines = error.splitlines(keepends=True)
        # On a busy machine --patience can be over before all that was read is answered.
        is_short = took > 0.8 * PATIENT and any(map(LEFT.fullmatch, lines))
        assert status == int(is_short)
        # In ten seconds there are at most twenty lines, and one with the number of those that were left out.
        assert len(lines) < 21 * (seconds / 10 + 3)
        pattern = re.compile(rf"tcrx-bench: (\S+ 127\.0\.0\.1:\d+: ({said})|\d+ more such lines weren't written)\n" + rf"|{LEFT.pattern}" * is_short)
        assert [line for line in lines if not pattern.fullmatch(line)][:3] == []
        assert sorted(path.name for path in bench.folder.iterdir()) == ["errors", "log", "setup"]
