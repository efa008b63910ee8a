"""A virtual channel in the process of a Python program: the calls of the shared library libtcrx.so.0, by ctypes.

    from tcrx import Channel

    with Channel(1, width=10, buffer=2, first=0, queues={5: 8}) as channel:
        brought = channel.bring(bytes.fromhex("002a040c00c01005c0000000aa"))
        channel.release()
        for octets in channel.packets(5):
            ...
    print(channel.final.events)

The functions of the library are proved: each returns what its definition says. This module is not proved. It builds its
records as in the header, passes each argument on, makes a value from each record that is returned, and frees a channel
once. That is only tested, call by call. Nothing is proved about Python, ctypes or libffi.

`c.py` declares the records and calls of the library. The values are those of `values.py`: the answer to an operation is
`Brought`, `Released`, `Packet`, `Unit`, `Clcw` or `Report`, or `Refused` with its reason. If a call has no answer, it
raises an exception.
"""
from __future__ import annotations

import ctypes
import os
import threading
import weakref
from ctypes import byref
from contextlib import ExitStack
from dataclasses import dataclass
from operator import index
from pathlib import Path
from types import TracebackType
from typing import Any, Dict, Iterable, Iterator, List, Mapping, NoReturn, Optional, Tuple, Type, Union

from .values import (BadSettings, Brought, Clcw, Delivery, Ended, Event, Fault, Final, NoMemory, NotSetUp, NotStarted, Octets, Packet, Refusal,
                     Refused, Released, Report, State, Unit, octets_of)
from .c import *  # pylint: disable=wildcard-import,unused-wildcard-import  # everything that the header declares
from .c import _Channel, _Decoder, _Header, _Limit, _Map, _PacketHeader, _Queue, _Settings, _TmHeader

__all__ = ["BadSettings", "Carried", "Channel", "Decoder", "Frame", "NoMemory", "NotRead", "NotWritten", "Rack", "Tm", "add_fecf", "check_fecf",
           "find_library", "randomise", "read_frame", "read_tm", "storage", "write_cltu", "write_frame", "write_packet", "write_segments",
           "write_set_vr", "write_tm", "write_unlock"]

LIBRARY = "libtcrx.so.0"
Library = Union[str, "os.PathLike[str]", None]
# The statuses that are refusals, each with its answer.
REFUSED = {SHORT: Refused(Refusal.SHORT), BAD_VERSION: Refused(Refusal.VERSION), SPARE: Refused(Refusal.SPARE),
           LENGTH_SMALL: Refused(Refusal.LENGTH), TRUNCATED: Refused(Refusal.TRUNCATED), NO_QUEUE: Refused(Refusal.NO_QUEUE),
           NO_MAP: Refused(Refusal.NO_MAP), EMPTY: Refused(Refusal.EMPTY), OTHER_SPACECRAFT: Refused(Refusal.SPACECRAFT),
           UNKNOWN_CHANNEL: Refused(Refusal.CHANNEL)}
# The statuses of octets that aren't one frame with the right frame error control field.
UNCHECKED = (SHORT, BAD_VERSION, SPARE, LENGTH_SMALL, TRUNCATED, FILL, NO_FECF, WRONG_FECF)
EVENTS = dict(enumerate(Event, 1))
STATES = {OPEN: State.OPEN, WAIT: State.WAIT, LOCKOUT: State.LOCKOUT}
# The outcomes for most units, which are created once.
NOTHING, ONE_QUEUED = Delivery(0, 0, False), Delivery(1, 0, False)
# The size of the buffer into which packets and units are taken. A longer item is taken into a buffer of its own.
FIRST_ROOM = 4096
# The largest number of octets of a stream that are passed to the library at a time.
PIECE = 4096


def find_library() -> str:
    """Returns the path of the shared library. It is looked for in the folder that TCRX_LIB_DIR names, next to this
    file, where pip and tools/install put it, and in a clone in `dist`, where `make -C dist` builds it. Otherwise its
    name alone is returned, by which the loader looks for it."""
    named = os.environ.get("TCRX_LIB_DIR")
    if named:
        return str(Path(named) / LIBRARY)
    here = Path(__file__).resolve()
    places = [here.with_name(LIBRARY)] + [here.parents[3] / "dist" / LIBRARY] * (here.parts[-4:-1] == ("clients", "python", "tcrx"))
    return next((str(place) for place in places if place.is_file()), LIBRARY)


def file_of(library: ctypes.PyDLL) -> str:
    """Returns the path of a library that is loaded, which the kernel knows also if the loader found it by its name."""
    name = str(library._name)  # pylint: disable=protected-access  # ctypes has no other name of it
    if "/" in name:
        return name
    with open("/proc/self/maps", encoding="utf-8", errors="replace") as maps:
        return next((line.split(None, 5)[5].rstrip() for line in maps if line.rstrip().endswith(f"/{name}")), name)


_libraries: Dict[str, ctypes.PyDLL] = {}


def load(path: Library) -> ctypes.PyDLL:
    """Returns the library, with the types of its calls. Raises `NotStarted` if it isn't there."""
    name = find_library() if path is None else os.fspath(path)
    if name not in _libraries:
        try:
            library = ctypes.PyDLL(name)
            for call, (answer, arguments) in CALLS.items():
                function = getattr(library, call)
                function.restype, function.argtypes = answer, arguments
        except (OSError, AttributeError) as error:
            raise NotStarted(f"there is no library {name}: {error}. Name it by library=, or its folder by TCRX_LIB_DIR, or "
                             "type `make -C dist` in a clone, on a machine with a C compiler and make") from error
        _libraries[name] = library
    return _libraries[name]


def in_range(value: int, most: int, what: str) -> int:
    """Returns a whole number. Raises `ValueError` if the type of the parameter in C can't hold it."""
    number = int(index(value))
    if not 0 <= number <= most:
        raise ValueError(f"{what} is {number}, and must be 0 to {most}")
    return number


def text_of(library: ctypes.PyDLL, status: int) -> str:
    """Returns the library's text of a status."""
    room = ctypes.create_string_buffer(TEXT_ROOM)
    written = library.tcrx_text_at(status, room, TEXT_ROOM)
    return room.value.decode("ascii") if written.status == DONE else f"status {status}"


# pylint: disable-next=too-many-arguments  # they are the settings of a channel
def lists_of(vcid: int, width: int, buffer: int, first: int, plain: bool, queues: Optional[Mapping[int, int]],
             maps: Optional[Mapping[int, int]]) -> Tuple[Any, ...]:
    """Returns the arguments for settings. Even a list without entries needs a place in memory."""
    settings = _Settings(in_range(vcid, 255, "vcid"), in_range(width, 255, "width"), in_range(buffer, 255, "buffer"),
                         in_range(first, 255, "first"), 0 if plain else 1)
    its_queues = [_Queue(in_range(apid, 65535, "an APID"), in_range(room, 65535, "a capacity")) for apid, room in (queues or {}).items()]
    its_maps = [_Map(in_range(map_id, 255, "a MAP"), in_range(room, 65535, "a capacity")) for map_id, room in (maps or {}).items()]
    return (settings, (_Queue * max(1, len(its_queues)))(*its_queues), len(its_queues),
            (_Map * max(1, len(its_maps)))(*its_maps), len(its_maps))


def limits_of(limits: Mapping[int, int], others: int) -> Tuple[Any, ...]:
    """Returns the arguments for limits."""
    listed = [_Limit(in_range(map_id, 255, "a MAP"), in_range(octets, 2**32 - 1, "a limit")) for map_id, octets in limits.items()]
    return (in_range(others, 2**32 - 1, "others"), (_Limit * max(1, len(listed)))(*listed), len(listed))


def check_made(library: ctypes.PyDLL, status: int) -> None:
    """Raises an exception if settings were rejected. The exception has the reason."""
    if status == NO_MEMORY:
        raise NoMemory(text_of(library, status))
    if status != DONE:
        raise BadSettings(text_of(library, status))


# pylint: disable-next=too-many-arguments  # they are the settings and the limits of a channel
def storage(vcid: int, *, width: int, buffer: int, first: int, plain: bool = False,
            queues: Optional[Mapping[int, int]] = None, maps: Optional[Mapping[int, int]] = None,
            limits: Optional[Mapping[int, int]] = None, others: int = 0,
            library: Library = None) -> int:
    """Returns how many bytes the creation of a channel with these settings and limits requests. No other call of the
    channel requests any."""
    loaded = load(library)
    lists = lists_of(vcid, width, buffer, first, plain, queues, maps)
    answer = (loaded.tcrx_storage_at(*lists) if limits is None else
              loaded.tcrx_storage_with_limits_at(*lists, *limits_of(limits, others)))
    check_made(loaded, answer.status)
    return int(answer.count)


@dataclass(frozen=True)
class Frame:
    """The header of the frame at the front of octets, and the number of octets in the frame."""

    scid: int
    vcid: int
    ns: int  # pylint: disable=invalid-name  # the standard's N(S)
    """N(S), the frame sequence number."""
    bypass: bool
    """Whether the frame is of Type-B, and not of Type-A."""
    control: bool
    """Whether the frame is of Type-C, and not of Type-D."""
    length: int


def read_frame(octets: Octets, *, library: Library = None) -> Union[Frame, Refused]:
    """Reads the header of the frame at the front of octets, by which a caller can find the channel that the frame is
    for."""
    whole = octets_of(octets)
    frame = load(library).tcrx_read_frame_at(whole, len(whole))
    if frame.status != DONE:
        return REFUSED[frame.status]
    read = frame.header
    return Frame(read.scid, read.vcid, read.ns, read.bypass == 1, read.control == 1, frame.length)


# --- What a sender writes ---

MOST_FRAME, MOST_CLTU, MOST_TM = 1024, 1186, 2048


class NotWritten(Fault):
    """Nothing is written from these values."""


def written_by(library: ctypes.PyDLL, name: str, *given: Any, room: int = MOST_FRAME) -> Tuple[int, bytes]:
    """Returns the status of a call that writes, and the octets that it wrote."""
    octets = ctypes.create_string_buffer(room)
    written = getattr(library, name)(*given, octets, room)
    return written.status, octets.raw[:written.length] if written.status == DONE else b""


def made_by(library: ctypes.PyDLL, name: str, *given: Any, room: int = MOST_FRAME) -> bytes:
    """Returns the octets that a call writes. Raises `NotWritten` with the reason if it writes none."""
    status, octets = written_by(library, name, *given, room=room)
    if status != DONE:
        raise NotWritten(text_of(library, status))
    return octets


def header_of(scid: int, vcid: int, ns: int, bypass: bool, control: bool) -> _Header:
    """Returns the record of a header."""
    return _Header(in_range(scid, 65535, "scid"), in_range(vcid, 255, "vcid"), in_range(ns, 255, "ns"), int(bool(bypass)), int(bool(control)))


# pylint: disable-next=too-many-arguments  # they are the fields of a header
def write_packet(apid: int, count: int, field: Octets, *, telecommand: bool = True, secondary: bool = False, sequence: int = 3,
                 library: Library = None) -> bytes:
    """Returns a packet of an application (`apid` 0 to 2,047) with a packet data field of 1 to 65,536 octets. `count` is
    its sequence count (0 to 16,383), `sequence` its sequence flags (0 to 3, and 3 for unsegmented), and `secondary`
    says that it has a secondary header. Raises `NotWritten`."""
    whole = octets_of(field)
    header = _PacketHeader(in_range(apid, 65535, "apid"), in_range(count, 65535, "count"), int(bool(telecommand)), int(bool(secondary)),
                           in_range(sequence, 255, "sequence"))
    return made_by(load(library), "tcrx_write_packet_at", header, whole, len(whole), room=len(whole) + 6)


# pylint: disable-next=too-many-arguments  # they are the fields of a header
def write_frame(scid: int, vcid: int, ns: int, field: Octets, *, bypass: bool = False, control: bool = False, library: Library = None) -> bytes:
    """Returns a frame of a spacecraft (0 to 1,023) on a virtual channel (0 to 63), with the N(S) `ns` (0 to 255) and a
    data field of 1 to 1,019 octets. The frame is of Type-AD, with `bypass` of Type-BD, and with `bypass` and `control`
    of Type-BC. The data field has the segment header, if the channel has segment headers. Raises `NotWritten`."""
    whole = octets_of(field)
    return made_by(load(library), "tcrx_write_frame_at", header_of(scid, vcid, ns, bypass, control), whole, len(whole))


# pylint: disable-next=too-many-arguments,redefined-builtin  # they are the fields of two headers, by their names in tcrx
def write_segments(unit: Octets, *, scid: int, vcid: int, ns: int, map: int, size: int = 1018, bypass: bool = False,
                   library: Library = None) -> List[bytes]:
    """Returns the frames that carry a unit of 1 to 65,542 octets in segments of a MAP (0 to 63). Each carries `size`
    octets of it (1 to 1,018), and the last one carries the octets that are left. The frames are of Type-AD, whose N(S)
    counts up from `ns`, and with `bypass` of Type-BD. Raises `NotWritten`."""
    loaded, whole = load(library), octets_of(unit)
    frames: List[bytes] = []
    given = (header_of(scid, vcid, ns, bypass, False), in_range(map, 255, "map"), in_range(size, 65535, "size"))
    while True:
        status, frame = written_by(loaded, "tcrx_write_segment_at", *given, len(frames), whole, len(whole))
        if status == NO_SEGMENT:
            return frames
        if status != DONE:
            raise NotWritten(text_of(loaded, status))
        frames.append(frame)


def write_unlock(scid: int, vcid: int, *, library: Library = None) -> bytes:
    """Returns the Type-BC frame with the control command Unlock. Raises `NotWritten`."""
    return made_by(load(library), "tcrx_write_command_at", in_range(scid, 65535, "scid"), in_range(vcid, 255, "vcid"), UNLOCK, 0)


def write_set_vr(scid: int, vcid: int, vr: int, *, library: Library = None) -> bytes:
    """Returns the Type-BC frame with the control command Set V(R), which sets V(R) to `vr` (0 to 255). Raises
    `NotWritten`."""
    given = in_range(scid, 65535, "scid"), in_range(vcid, 255, "vcid"), SET_VR, in_range(vr, 255, "vr")
    return made_by(load(library), "tcrx_write_command_at", *given)


def add_fecf(frame: Octets, *, library: Library = None) -> bytes:
    """Returns a frame with its frame error control field. Raises `NotWritten`."""
    whole = octets_of(frame)
    return made_by(load(library), "tcrx_add_fecf_at", whole, len(whole))


def check_fecf(frame: Octets, *, library: Library = None) -> Union[bytes, Refused]:
    """Returns a frame without its frame error control field if that is right. Otherwise returns a refusal by `CHECK`,
    as a `Receiver` with `fecf` does."""
    whole = octets_of(frame)
    status, plain = written_by(load(library), "tcrx_check_fecf_at", whole, len(whole))
    return plain if status == DONE else Refused(Refusal.CHECK)


def write_cltu(frame: Octets, *, library: Library = None) -> bytes:
    """Returns the CLTU that carries a frame, or 1 to 1,029 other octets. Raises `NotWritten`."""
    whole = octets_of(frame)
    return made_by(load(library), "tcrx_write_cltu_at", whole, len(whole), room=MOST_CLTU)


class Decoder:
    """A decoder that finds CLTUs in a stream, which may come in pieces of any size. Its attributes `corrected` and
    `rejected` count the code blocks that it corrected and rejected, apart from tail sequences. Its attribute `overlong`
    counts the CLTUs that carried more than 1,029 octets, which give no candidate."""

    def __init__(self, *, correct: bool, library: Library = None) -> None:
        """Creates a decoder. If `correct` is true, it corrects one wrong bit in each code block. Otherwise it only
        detects wrong bits."""
        self._library = load(library)
        self._kept = _Decoder(int(bool(correct)), 0, 0, 0, 0)
        self._carried = ctypes.create_string_buffer(DECODER_ROOM)
        self._seen = memoryview(self._carried)
        self.corrected = self.rejected = self.overlong = 0

    def feed(self, octets: Octets) -> List[bytes]:
        """Returns the candidates that end in these octets. A candidate has the octets that a CLTU carried: a frame with
        fill behind it, or several frames. A `Rack` brings candidates as they are."""
        frames: List[bytes] = []
        whole = octets_of(octets)
        for at in range(0, len(whole), PIECE):
            rest = whole[at:at + PIECE]
            while rest:
                answer = self._library.tcrx_cltu_octets_at(self._kept, rest, len(rest), self._carried, DECODER_ROOM)
                self._kept, rest = answer.decoder, rest[answer.taken:]
                self.corrected += answer.corrected
                self.rejected += answer.rejected
                self.overlong += answer.overlong
                if answer.ended:
                    frames.append(self._seen[:self._kept.carried].tobytes())
        return frames

    def search(self) -> bool:
        """Looks for a start sequence anew, as after a loss of bit lock. Returns whether that cuts short what began as a
        CLTU."""
        was_decoding = bool(self._kept.decoding)
        self._kept = self._library.tcrx_cltu_search(self._kept).decoder
        return was_decoding

    def __reduce__(self) -> NoReturn:
        raise TypeError("a decoder can't be copied or pickled: a copy would share the octets that it keeps")


def randomise(frame: Octets, *, library: Library = None) -> bytes:
    """Returns a frame, or the octets that a CLTU carried, with the random sequence added. Adding the sequence twice
    changes nothing. Raises `NotWritten`."""
    whole = octets_of(frame)
    return made_by(load(library), "tcrx_randomise_at", whole, len(whole), room=MOST_CLTU)


@dataclass(frozen=True)
class Tm:
    """The fields of a telemetry frame. The first header pointer is 2,046 if all data are idle, and 2,047 if no packet
    begins. The operational control field has a CLCW, or else a Type-2 report, whose four octets are the number
    `report`."""
    scid: int
    vcid: int
    master_count: int
    channel_count: int
    clcw: Optional[Clcw]
    pointer: int = 2046
    report: Optional[int] = None


class NotRead(Fault):
    """The octets aren't a telemetry frame."""


# pylint: disable-next=too-many-arguments  # they are the fields of a header
def write_tm(scid: int, vcid: int, master_count: int, channel_count: int, clcw: Clcw, *, size: int, fecf: bool = False,
             library: Library = None) -> bytes:
    """Returns a telemetry frame of `size` octets (11 to 2,048, with `fecf` at least 13) that carries a CLCW, on a virtual
    channel (0 to 7). All other data in it are idle. The counts are 0 to 255. Raises `NotWritten`."""
    header = _TmHeader(in_range(scid, 65535, "scid"), in_range(vcid, 255, "vcid"), in_range(master_count, 255, "master_count"),
                       in_range(channel_count, 255, "channel_count"))
    given = header, int(bool(fecf)), clcw.word, in_range(size, 65535, "size")
    return made_by(load(library), "tcrx_write_tm_at", *given, room=MOST_TM)


def read_tm(octets: Octets, *, fecf: bool = False, library: Library = None) -> Tm:
    """Reads octets that are one telemetry frame. Raises `NotRead` with the reason if they aren't one."""
    loaded, whole = load(library), octets_of(octets)
    answer = loaded.tcrx_read_tm_at(int(bool(fecf)), whole, len(whole))
    if answer.status != DONE:
        raise NotRead(text_of(loaded, answer.status))
    header, control = answer.header, answer.clcw
    clcw, report = (None, control) if control >> 31 else (Clcw(control), None)
    return Tm(header.scid, header.vcid, header.master_count, header.channel_count, clcw, answer.pointer, report)


def delivery_of(answer: Any) -> Delivery:
    """Returns the outcome for a unit, from the record that a call returned."""
    queued, dropped, rest = answer.queued, answer.dropped, answer.rest
    if queued > 1 or dropped or rest:
        return Delivery(queued, dropped, rest == 1)
    return ONE_QUEUED if queued else NOTHING


def free(library: ctypes.PyDLL, held: _Channel) -> None:
    """Frees the channel in a record. The record then holds none."""
    library.tcrx_channel_free_at(byref(held))


# pylint: disable-next=too-many-instance-attributes  # a channel keeps what each of its calls needs
class Channel:
    """A virtual channel of a receiver, in this process. Its attribute `vcid` is its virtual channel id."""

    def __init__(self, vcid: int, *, width: int, buffer: int, first: int, plain: bool = False,
                 queues: Optional[Mapping[int, int]] = None, maps: Optional[Mapping[int, int]] = None,
                 limits: Optional[Mapping[int, int]] = None, others: int = 0,
                 library: Library = None) -> None:
        """Creates a virtual channel (0 to 63). `width` is the width of its window (even, 2 to 254), `buffer` the number
        of data fields that its buffer holds (1 to 64), and `first` its first V(R) (0 to 255). With `plain` its data
        fields have no segment headers. `queues` has the capacity of the packet queues by application, and `maps` that
        of the unit queues by MAP, 1 to 256 each.

        `limits` has the most octets of a unit by MAP, 1 to 65,542, and `others` is the limit of each MAP that isn't
        listed there. Without `limits` each unit may have 65,542 octets. `library` is the path of libtcrx.so.0. Without
        it, the library is looked for by `find_library`.

        Raises `NotStarted` if the library isn't there, `BadSettings`, and `NoMemory`.
        """
        self._library, self._lock = load(library), threading.Lock()
        self.vcid = in_range(vcid, 255, "vcid")
        self._queues, self._maps = tuple(queues or ()), tuple(maps or ())
        self._final: Optional[Final] = None
        self._link = (0, 0)
        self._held = _Channel(0, None)
        self._at = byref(self._held)
        self._room = ctypes.create_string_buffer(FIRST_ROOM)
        self._seen = memoryview(self._room)
        lists = lists_of(vcid, width, buffer, first, plain, queues, maps)
        check_made(self._library, self._library.tcrx_channel_new_at(self._at, *lists) if limits is None else
                   self._library.tcrx_channel_new_with_limits_at(self._at, *lists, *limits_of(limits, others)))
        self._finalizer = weakref.finalize(self, free, self._library, self._held)

    def _move_to(self, held: _Channel) -> None:
        """Moves the channel to another place in memory, as a `Rack` does."""
        with self._lock:
            held.held, held.place = self._held.held, self._held.place
            self._held.held, self._held.place = 0, None
            self._held, self._at = held, byref(held)
            if self._finalizer.detach():
                self._finalizer = weakref.finalize(self, free, self._library, held)

    def __reduce__(self) -> NoReturn:
        raise TypeError("a channel can't be copied or pickled: a copy wouldn't be a second channel")

    def _raise(self, status: int) -> NoReturn:
        """Raises the exception for the status of a call that has no answer."""
        if status == NO_CHANNEL:
            raise Ended(None, "it was closed")
        raise Fault(text_of(self._library, status))

    def _refuse(self, status: int) -> Refused:
        """Returns the refusal that a status stands for. Raises an exception if the status isn't a refusal."""
        refused = REFUSED.get(status)
        return self._raise(status) if refused is None else refused

    def _count(self, answer: Any) -> int:
        """Returns the count in a record."""
        if answer.status != DONE:
            self._raise(answer.status)
        return int(answer.count)

    # --- Operations ---

    def bring(self, octets: Octets) -> Union[Brought, Refused]:
        """Brings octets that arrive, with the frame at their front. The call doesn't look at the spacecraft and the
        channel that the frame is for. A `Rack` does that."""
        whole = octets_of(octets)
        with self._lock:
            reply = self._library.tcrx_channel_frame_at(self._at, whole, len(whole))
        if reply.status:
            return self._refuse(reply.status)
        return Brought(self.vcid, EVENTS[reply.event], reply.accepted == 1, delivery_of(reply))

    def release(self) -> Union[Released, Refused]:
        """Releases the oldest data field from the buffer to reassembly."""
        with self._lock:
            answer = self._library.tcrx_channel_release_at(self._at)
        if answer.status:
            return self._refuse(answer.status)
        return Released(self.vcid, delivery_of(answer))

    def _taken(self, call: Any, key: int) -> Union[bytes, Refused]:
        """Returns the item that a call takes out of a queue. The item is taken into the channel's own buffer, or into a
        new one if that is too short."""
        with self._lock:
            written = call(self._at, key, self._room, FIRST_ROOM)
            if not written.status:
                return self._seen[:written.length].tobytes()
            if written.status != NO_ROOM:
                return self._refuse(written.status)
            room = ctypes.create_string_buffer(written.length)
            written = call(self._at, key, room, written.length)
            return self._refuse(written.status) if written.status else room.raw

    def take(self, apid: int) -> Union[Packet, Refused]:
        """Takes the oldest packet out of the queue of an application."""
        taken = self._taken(self._library.tcrx_channel_take_at, in_range(apid, 65535, "an APID"))
        return Packet(self.vcid, apid, taken) if isinstance(taken, bytes) else taken

    # pylint: disable-next=redefined-builtin  # as in tcrx
    def take_unit(self, map: int) -> Union[Unit, Refused]:
        """Takes the oldest unit out of the queue of a MAP."""
        taken = self._taken(self._library.tcrx_channel_take_unit_at, in_range(map, 255, "a MAP"))
        return Unit(self.vcid, map, taken) if isinstance(taken, bytes) else taken

    def packets(self, apid: int) -> Iterator[bytes]:
        """Yields the packets that wait for an application, the oldest first. Each packet is taken when the iterator
        reaches it, until none waits. Raises `NotSetUp` if there is no such queue."""
        while isinstance(packet := self.take(apid), Packet):
            yield packet.octets
        if packet.reason is not Refusal.EMPTY:
            raise NotSetUp(packet)

    # pylint: disable-next=redefined-builtin  # as in tcrx
    def units(self, map: int) -> Iterator[bytes]:
        """Yields the units that wait in the queue of a MAP, as `packets` does."""
        while isinstance(unit := self.take_unit(map), Unit):
            yield unit.octets
        if unit.reason is not Refusal.EMPTY:
            raise NotSetUp(unit)

    def clcw(self) -> Clcw:
        """Returns the channel's CLCW, with the flags of the link as they were last set."""
        with self._lock:
            answer = self._library.tcrx_channel_clcw_at(self._at, *self._link)
        if answer.status:
            self._raise(answer.status)
        return Clcw(answer.word)

    def link(self, no_rf: bool, no_bit_lock: bool) -> None:
        """Sets the flags No RF Available and No Bit Lock of the link in later CLCWs."""
        self._link = (int(bool(no_rf)), int(bool(no_bit_lock)))

    def report(self) -> Report:
        """Returns the present state of the channel."""
        with self._lock:
            answer = self._library.tcrx_channel_report_at(self._at)
            if answer.status:
                self._raise(answer.status)
            farm, (buffered, queues, maps) = answer.farm, self._counts()
        return Report(self.vcid, STATES[farm.state], farm.vr, farm.lockout == 1, farm.wait == 1, farm.retransmit == 1, farm.farm_b,
                      buffered, queues, maps)

    def _counts(self) -> Tuple[int, Dict[int, int], Dict[int, int]]:
        """Returns how much waits in the buffer and in each queue."""
        library, at = self._library, self._at
        queues = {apid: self._count(library.tcrx_channel_queued_at(at, apid)) for apid in self._queues}
        maps = {map: self._count(library.tcrx_channel_units_at(at, map)) for map in self._maps}
        return self._count(library.tcrx_channel_buffered_at(at)), queues, maps

    @property
    def events(self) -> int:
        """The number of frames, releases and takes that were answered."""
        with self._lock:
            return self._count(self._library.tcrx_channel_events_at(self._at))

    # --- The end ---

    @property
    def final(self) -> Final:
        """The state of the channel when it was closed."""
        if self._final is None:
            raise ValueError("the channel isn't closed")
        return self._final

    def close(self) -> Final:
        """Frees the channel, and returns its last state. A second call returns the same state."""
        if self._final is None:
            clcw, events = self.clcw(), self.events
            with self._lock:
                if self._final is None:
                    self._final = Final(clcw, events, *self._counts())
                    self._finalizer()
        return self._final

    def __enter__(self) -> Channel:
        return self

    def __exit__(self, kind: Optional[Type[BaseException]], error: Optional[BaseException], trace: Optional[TracebackType]) -> None:
        """Closes the channel."""
        self.close()


@dataclass(frozen=True)
class Carried:
    """The outcome for the frames that a CLTU carried, in their order, and the octets behind the last of them if they
    aren't fill."""
    frames: List[Union[Brought, Refused]]
    more: bytes = b""


class Rack:
    """The channels of a spacecraft, in this process. A rack finds the channel that a frame is for. Each channel is used
    and closed by itself, and a channel that is closed isn't in the rack any more. A channel is in one rack at a time,
    which is the last one that was created with it. The attributes `scid` and `fecf` are those with which the rack was
    created."""

    def __init__(self, scid: int, channels: Iterable[Channel], *, fecf: bool = False) -> None:
        """Creates a rack of channels for the spacecraft with the id `scid` (0 to 1,023). With `fecf` each frame must
        carry the frame error control field, which is checked and removed."""
        self.scid, self.fecf = in_range(scid, 65535, "scid"), bool(fecf)
        self._channels = tuple(channels)
        self._held = (_Channel * max(1, len(self._channels)))()
        # pylint: disable=protected-access  # a rack has the memory of its channels, and takes turns with them
        self._library = self._channels[0]._library if self._channels else load(None)
        # Each lock is taken once, and in one order for all racks, so that no two calls wait for each other.
        self._locks = [lock for _, lock in sorted({id(channel): channel._lock for channel in self._channels}.items())]
        for held, channel in zip(self._held, self._channels):
            channel._move_to(held)

    def __reduce__(self) -> NoReturn:
        raise TypeError("a rack can't be copied or pickled: its channels are in its memory alone")

    def _call(self, name: str, *given: Any) -> Any:
        """Calls the library, in turn with the calls on each channel."""
        with ExitStack() as locked:
            for lock in self._locks:
                locked.enter_context(lock)
            return getattr(self._library, name)(self._held, len(self._channels), *given)

    def bring(self, octets: Octets) -> Union[Brought, Refused]:
        """Brings octets that arrive, with the frame at their front, to the first channel that the frame is for. With
        `fecf`, octets that aren't one frame with the right field at its end are refused by `CHECK`, as a `Receiver`
        does."""
        whole = octets_of(octets)
        return self._brought(self._call("tcrx_rack_frame_at", self.scid, int(self.fecf), whole, len(whole)))

    def bring_candidate(self, octets: Octets, *, most: int = 1) -> Carried:
        """Brings the frames of a candidate, which a `Decoder` returns, one after the other, and at most `most` of them.
        Each is as long as its length field says. With `fecf` its field is then checked. If octets that aren't fill
        don't begin with a frame, their refusal is the last answer."""
        answers: List[Union[Brought, Refused]] = []
        rest = octets_of(octets)
        for _ in range(in_range(most, 255, "most")):
            reply = self._call("tcrx_rack_candidate_at", self.scid, int(self.fecf), rest, len(rest))
            answers.append(self._brought(reply))
            rest = rest[reply.length:]
            if not reply.more:
                return Carried(answers)
        return Carried(answers, rest)

    def _brought(self, reply: Any) -> Union[Brought, Refused]:
        """Returns the answer that a reply of a rack stands for."""
        if reply.status:
            return Refused(Refusal.CHECK) if self.fecf and reply.status in UNCHECKED else REFUSED[reply.status]
        return Brought(reply.vcid, EVENTS[reply.event], reply.accepted == 1, delivery_of(reply))

    def channel(self, vcid: int) -> Optional[Channel]:
        """Returns the first channel with this virtual channel id, or None if there is none."""
        found = self._call("tcrx_rack_find_at", in_range(vcid, 255, "vcid"))
        return self._channels[found.place] if found.status == DONE else None
