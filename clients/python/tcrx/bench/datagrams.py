"""The ports of the bench for datagrams: frames and CLTUs come in, CLCWs, packets, units and telemetry frames go out."""
from __future__ import annotations

import socket
import sys
from typing import Callable, Iterator, Optional

from .ports import Hub, Place, Port, address_of, shown
from .scheduler import work_on

# Octets of a datagram.
LONGEST_DATAGRAM = 65536
# Octets that the kernel keeps of datagrams, where it may; what Linux says of the memory of a socket, and where in it, how many it lost.
DATAGRAM_BUFFER, SO_MEMINFO, DROPS = 1 << 22, 55, 8


def bound(place: Place) -> socket.socket:
    """Returns a socket for datagrams that come to a place."""
    family, _, _, _, address = socket.getaddrinfo(place.host, place.port, type=socket.SOCK_DGRAM)[0]
    given = socket.socket(family, socket.SOCK_DGRAM)
    try:
        given.setblocking(False)
        given.bind(address)
    except OSError:
        given.close()
        raise
    return given


class Datagrams:
    """A port that takes a frame in each datagram, or CLTUs where it is given what decodes them. While it waits for its turn the kernel keeps what
    comes, and loses what it has no room for."""

    def __init__(self, place: Place, hub: Hub, fill: int, decode: Optional[Callable[[Port, str, bytes], Iterator[None]]] = None) -> None:
        self.port, self.hub, self.fill, self.decode = Port(place, hub), hub, fill, decode
        self.wants_turn = self.is_read = False
        self.pieces: Iterator[None] = iter(())
        """The work that the datagrams are that have come, piece by piece."""
        self.socket = bound(place)
        self.socket.setsockopt(socket.SOL_SOCKET, socket.SO_RCVBUF, DATAGRAM_BUFFER)
        self.port.address = address_of(self.socket)
        self.port.update_counts = self._count_lost
        hub.ports.append(self.port)
        hub.datagrams.append(self)
        self._update_reading()

    def _update_reading(self) -> None:
        """Has `_come` called when a datagram comes, unless this waits for its turn anyway."""
        is_read = not self.wants_turn and not self.hub.closed
        if is_read and not self.is_read:
            self.hub.loop.add_reader(self.socket, self._come)
        elif self.is_read and not is_read:
            self.hub.loop.remove_reader(self.socket)
        self.is_read = is_read

    def _come(self) -> None:
        """Asks for a turn."""
        self.pieces = self._answer()
        self.hub.scheduler.serve_now(self.hub.scheduler.frames, self)
        self._update_reading()

    def _count_lost(self) -> None:
        """Looks how many the kernel has lost."""
        found = self.socket.getsockopt(socket.SOL_SOCKET, SO_MEMINFO, 4 * (DROPS + 1))
        if lost := int.from_bytes(found[4 * DROPS:], sys.byteorder):
            self.port.counts["lost"] = lost

    def take_turn(self, has_time: Callable[[], bool]) -> None:
        """Has datagrams answered, as long as there is time."""
        self.wants_turn = work_on(self.pieces, has_time)
        self._update_reading()

    def _answer(self) -> Iterator[None]:
        """Has the datagrams answered that are there, a piece of the work at each step. At the end no more are read."""
        while not self.hub.closed:
            try:
                octets, sender = self.socket.recvfrom(LONGEST_DATAGRAM)
            except OSError:
                return
            source = f"{self.port.place.kind} {shown(sender[0], sender[1])}"
            if not self.port.place.allows(sender[0]):
                self.port.count("turned_away")
                yield
            elif self.decode:
                self.port.count("datagrams")
                yield from self.decode(self.port, source, octets)
            else:
                self.port.count("frames")
                if self.fill > 1 and len(octets) >= 4:
                    octets = octets[:((octets[2] & 3) << 8 | octets[3]) + 1]
                self.port.bring(octets, source)
                yield

    def close(self) -> None:
        """Reads nothing more."""
        self._update_reading()
        self._count_lost()
        self.port.update_counts = lambda: None
        self.socket.close()


class Target:
    """A place that datagrams are sent to."""

    def __init__(self, place: Place, hub: Hub) -> None:
        family, _, _, _, self.address = socket.getaddrinfo(place.host, place.port, type=socket.SOCK_DGRAM)[0]
        self.socket = socket.socket(family, socket.SOCK_DGRAM)
        self.socket.setblocking(False)
        self.port = Port(place, hub)
        hub.ports.append(self.port)

    def send(self, octets: bytes) -> None:
        """Sends a datagram; one that can't be sent is lost."""
        try:
            self.socket.sendto(octets, self.address)
            self.port.count("sent")
        except OSError:
            self.port.count("lost")

    def close(self) -> None:
        """Sends nothing more."""
        self.socket.close()
