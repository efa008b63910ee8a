"""Sends the packets of bench.py to tcrx-bench by UDP.

Usage: python3 examples/bench_udp.py SEED [--fecf]
"""
import select
import signal
import socket
import subprocess
import sys
import tempfile
from contextlib import contextmanager
from pathlib import Path
from typing import Callable, Dict, Iterator, List, Optional, Sequence

TOP = Path(__file__).resolve().parent.parent
sys.path[:0] = [str(TOP / "examples"), str(TOP / "clients/python")]
# pylint: disable-next=wrong-import-position  # both are found by the path above
import bench
from tcrx import Clcw  # pylint: disable=wrong-import-position

# The seconds without a CLCW after which no more are expected, and the seconds between two CLCWs that follow no frame.
QUIET, PERIOD = 0.004, "0.02"
# The options for the ports: frames come to the bench by UDP, and CLCWs go to the address that replaces PLACE.
PORTS = ("--tc-udp", "0", "--clcw-udp", "PLACE", "--period", PERIOD)


class Remote:
    """A receiver that the sender reaches over the ports of a bench. The bench releases and takes by itself."""

    def __init__(self, ports: Dict[str, int], clcws: socket.socket) -> None:
        self.clcws = clcws
        self.frames = socket.socket(socket.AF_INET, socket.SOCK_DGRAM if "tc-udp" in ports else socket.SOCK_STREAM)
        self.frames.connect(("127.0.0.1", ports["tc-udp" if "tc-udp" in ports else "tc-tcp"]))
        self.packets_link = socket.create_connection(("127.0.0.1", ports["packets-tcp"]), 60)
        # Connections are accepted in their order. So when a line is answered, packets are sent to the connection above, and none is missed.
        with socket.create_connection(("127.0.0.1", ports["lines"]), 60) as lines:
            lines.sendall(b"clcw 1\n")
            lines.recv(99)
        self.left = b""

    def bring(self, octets: bytes) -> None:
        """Sends octets, as the link delivers them."""
        self.frames.send(octets)

    def clcw(self, vcid: int) -> Clcw:
        """Returns the newest CLCW once all frames that were sent are answered. That is so when no other CLCW comes for
        a moment."""
        octets = self.clcws.recv(4)
        while select.select([self.clcws], [], [], QUIET)[0]:
            octets = self.clcws.recv(4)
        clcw = Clcw(int.from_bytes(octets, "big"))
        assert clcw.channel == vcid
        return clcw

    def release(self, _: int) -> bool:
        """Returns whether packets came, which the bench released."""
        return bool(select.select([self.packets_link], [], [], 0)[0])

    def packets(self, _: int, apid: int) -> Iterator[bytes]:
        """Yields the packets that came, each as long as its length field says."""
        self.left += self.packets_link.recv(65536)
        while len(self.left) >= 7 and len(self.left) >= (end := 7 + int.from_bytes(self.left[4:6], "big")):
            assert int.from_bytes(self.left[:2], "big") & 0x7FF == apid
            yield self.left[:end]
            self.left = self.left[end:]

    def close(self) -> None:
        """Closes its sockets."""
        for link in (self.frames, self.packets_link, self.clcws):
            link.close()


@contextmanager
def start(fecf: bool, words: Sequence[str] = PORTS,
          made: Callable[[Dict[str, int], socket.socket], Remote] = Remote, said: Optional[List[str]] = None) -> Iterator[Remote]:
    """Starts a bench on free ports. Adds the lines that the bench prints when it exits to `said`."""
    clcws = socket.socket(socket.AF_INET, socket.SOCK_DGRAM)
    clcws.bind(("127.0.0.1", 0))
    clcws.settimeout(60)
    with tempfile.NamedTemporaryFile("w") as setup:
        setup.write("channel 1 20 4 0\nqueue 1 5 4\n")
        setup.flush()
        given: List[str] = [sys.executable, str(TOP / "clients/python/tcrx_bench.py"), "--scid", "42", "--setup", setup.name, "--packets-tcp", "0",
                            "--lines", "0", *["--fecf"] * fecf, *(word.replace("PLACE", f"127.0.0.1:{clcws.getsockname()[1]}") for word in words)]
        with subprocess.Popen(given, stdout=subprocess.PIPE, text=True) as child:
            assert child.stdout
            ports: Dict[str, int] = {}
            for line in iter(child.stdout.readline, "ready\n"):
                kind, _, port = line.replace(":", " ").split()
                ports[kind] = int(port)
            remote = made(ports, clcws)
            try:
                yield remote
            finally:
                remote.close()
                child.send_signal(signal.SIGTERM)
                printed = child.communicate()[0]
                if said is not None:
                    said += printed.splitlines()


if __name__ == "__main__":
    if not sys.argv[1:] or not sys.argv[1].isdecimal():
        sys.exit(__doc__)
    bench.say(lambda: bench.run(int(sys.argv[1]), "--fecf" in sys.argv, begin=start))
