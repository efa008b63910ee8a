"""Gives drawn octets to the parts of tcrx-bench that read what strangers send or have written: the cutter of frames, the look for browsers,
requests over HTTP, the reader of logs, the file that sets up, and the command line. The octets are made of kept ones by a few changes. Octets in
pieces must be answered as they are in one. What is refused must be refused by the exception that the code has for it, and nothing else may be
raised."""
from __future__ import annotations

import asyncio
import contextlib
import io
from functools import partial
from pathlib import Path
from typing import Callable, NamedTuple, Optional
from unittest.mock import Mock

import pytest
from hypothesis import given, settings, strategies as st

from client_parts import ONE, SET_VR_9, UNLOCK, frame, whole
from tcrx.bench.journal import Log, Unfit, compare
from tcrx.bench.octets import Cutter, begins_request, has_request
from tcrx.bench.options import read_setup, read_words
from tcrx.bench.ports import Hub, Place, Port
from tcrx.bench.web import STATUSES, Visitor

# The inputs that are changed: streams of frames, beginnings of browsers, logs, files that set up, and command lines. Add inputs that show a fault.
FRAMES = [UNLOCK, SET_VR_9, frame(0, whole(0, ONE)), frame(1, bytes(1019)), UNLOCK + frame(3, whole(1, ONE)) * 3, frame(0, ONE, scid=43)]
REQUESTS = [b"GET / HTTP/1.1\r\nHost: localhost\r\n\r\n", b"HEAD /state HTTP/1.0\r\n\r\n", b"GET /metrics?a=b HTTP/1.1\r\nHost: [::1]:80\r\n\r\n",
            b"POST / HTTP/1.1\r\nHost: 127.0.0.1\r\nhost: x\r\n\r\n", b"GET /\xff HTTP/1.1\r\nHost: 1\r\n\r\n", b"\x16\x03\x01\x00\x05\x01"]
LOGS = [b"# tcrx-bench 0.3.0 spacecraft 42, begun 2026-01-01T00:00:00Z\nchannel 1 10 8 0\n# 1.0 1.1 lines 127.0.0.1:1\nclcw 1\n#= clcw 1 01040000\n"
        b"#~ clcw 1 0104c000\n#> link 1 1 1\n#= link 1\n#* frame 00\nframe 01\n#= refused short\n# end\n#= final 1 01040000 events 0 buffered 0\n"]
SETUPS = [b"channel 1 10 8 0\nqueue 1 5 16\n\n# a comment\nmap 1 3 4\n", b"frame 00\n", b"channel 1 10 8 0 plain\r\n"]
WORDS = [b"--scid 42 --tc-tcp 0", b"--demo", b"--scid 1 --http [::1]:0 --allow 10.0.0.0/8 --fill 8 --drop 0.5 --seed 3", b"--replay x",
         b"--scid 1 --tc-udp 0 --cltu detect --randomised --tm-tcp h:1 --tm-length 12 --tm-fecf --period 1e3 --patience nan"]
# The answers of a receiver to a log.
ANSWERS = ["clcw 1 01040000", "link 1", "refused short", "final 1 01040000 events 0 buffered 0"]
LONGEST = 5_000


class Change(NamedTuple):
    """A change of octets: between two places, a part is put in. It replaces nothing, as many octets as it has, or those between the places."""

    places: tuple[int, int]
    # Without a part the octets between the places are put in.
    part: Optional[bytes]
    replaced: str


def with_changes(octets: bytes, changes: list[Change]) -> bytes:
    """Returns octets with changes. A place beyond the last octet counts from the first again."""
    made = bytearray(octets)
    for change in changes:
        at, end = sorted(place % (len(made) + 1) for place in change.places)
        part = bytes(made[at:end]) if change.part is None else change.part
        made[at:at + {"nothing": 0, "as many": len(part), "between": end - at}[change.replaced]] = part
        del made[LONGEST:]
    return bytes(made)


def changed(kept: list[bytes]) -> st.SearchStrategy[bytes]:
    """Returns a strategy for kept octets with a few changes."""
    part = st.one_of(st.binary(min_size=1, max_size=1), st.sampled_from(kept), st.none(), st.binary(max_size=8))
    place = st.integers(0, LONGEST)
    change = st.builds(Change, st.tuples(place, place), part, st.sampled_from(("nothing", "as many", "between")))
    return st.builds(with_changes, st.sampled_from(kept), st.lists(change, max_size=16))


CUTS = st.lists(st.integers(1, LONGEST), max_size=40)


def pieces(octets: bytes, cuts: list[int]) -> list[bytes]:
    """Returns the octets, cut at these places. A place beyond the last octet counts from the first again."""
    places = sorted({0, len(octets), *(cut % (len(octets) + 1) for cut in cuts)})
    return [octets[one:other] for one, other in zip(places, places[1:])]


@pytest.fixture(scope="module", name="file")
def file_of(tmp_path_factory: pytest.TempPathFactory) -> Path:
    """Returns the path of a file that each example writes anew."""
    return tmp_path_factory.mktemp("fuzz") / "file"


def cut_into_frames(cutter: Cutter, parts: list[bytes], at_once: list[int]) -> tuple[list[bytes], str]:
    """Returns the frames that a cutter finds in the parts of a stream, and its fault. It cuts so many pieces at a time, in turn."""
    frames: list[bytes] = []
    turns = 0
    for part in parts:
        cutter.kept += part
        while found := cutter.cut(at_once[turns % len(at_once)]):
            frames += filter(None, found)
            turns += 1
    return frames, cutter.fault


COUNTS = st.lists(st.integers(1, 8), min_size=1, max_size=8)


@settings(max_examples=2_500)
@given(octets=changed(FRAMES + REQUESTS), cuts=CUTS, fill=st.sampled_from((1, 8)), fecf=st.booleans(), resync=st.booleans(),
       counts=st.tuples(COUNTS, COUNTS))
# pylint: disable-next=too-many-arguments  # what is drawn
def test_a_stream_in_pieces_is_cut_as_in_one(octets: bytes, cuts: list[int], fill: int, fecf: bool, resync: bool,
                                             counts: tuple[list[int], list[int]]) -> None:
    """Compares the frames of a stream up to its first fault."""
    whole_stream, in_pieces = (cut_into_frames(Cutter(42, fill, fecf, resync), parts, at_once)
                               for parts, at_once in zip(([octets], pieces(octets, cuts)), counts))
    assert in_pieces == whole_stream


@settings(max_examples=2_500)
@given(octets=changed(REQUESTS), more=st.integers(0, LONGEST))
def test_a_browser_is_known_by_its_first_octets(octets: bytes, more: int) -> None:
    """Compares what is known of the beginning of a stream, once it is known, with what is known of all of it. A stream that begins like a request has
    the first line of one."""
    ends = sorted({*range(min(20, len(octets))), len(octets), more % (len(octets) + 1)})
    known = [begins_request(octets[:end]) for end in ends]
    first = next((each for each in known if each is not None), None)
    assert (first, first is not True or has_request(octets)) == (known[-1], True)


async def statuses_of(parts: list[bytes]) -> list[int]:
    """Returns the statuses of the answers to the parts of a request. What is in the state isn't compared here."""
    web = Mock(names={"localhost"}, page="page", policy="policy", followers=[])
    visitor = Visitor(Port(Place("http", "127.0.0.1", 0), Hub(Mock(changes=0), Mock(), 1, 60.0)), web)
    visitor.transport = Mock(**{"is_closing.return_value": True})
    setattr(visitor, "_say_state", partial(getattr(visitor, "_say"), 200))
    for part in parts:
        visitor.data_received(part)
    return [int(call.args[0].split(b" ")[1]) for call in visitor.transport.write.call_args_list]


@settings(max_examples=600)
@given(octets=changed(REQUESTS), cuts=CUTS)
def test_a_request_in_pieces_is_answered_once_and_as_in_one(octets: bytes, cuts: list[int]) -> None:
    """Compares the statuses of the answers, which the code must have. A request that is too long is answered at the piece where it is."""
    one, other = (asyncio.run(statuses_of(parts)) for parts in ([octets], pieces(octets, cuts)))
    assert one == other or 431 in one + other
    assert len(other) <= 1 and set(other) <= set(STATUSES)


def outcome(call: Callable[[], object], *kinds: type[BaseException]) -> str:
    """Returns what became of a call: what it returned, or its refusal by an exception of these kinds. Any other exception goes on."""
    try:
        return f"gave {call()!r}"
    except kinds as fault:
        return f"{type(fault).__name__}: {fault}"


@settings(max_examples=1_200)
@given(octets=changed(LOGS), count=st.sampled_from((0, 1, 4)))
def test_a_log_is_read_or_refused_for_the_same_reason_again(file: Path, octets: bytes, count: int) -> None:
    """Reads a log twice, and compares it with some answers of a receiver."""
    file.write_bytes(octets)
    first, again = (outcome(lambda: compare(Log(file), iter(ANSWERS[:count])), Unfit) for _ in range(2))
    assert first == again


@settings(max_examples=1_200)
@given(octets=changed(SETUPS))
def test_each_line_of_a_setup_sets_something_up(file: Path, octets: bytes) -> None:
    """Reads a file that sets up. It is refused, or each of its lines is one that sets something up."""
    file.write_bytes(octets)
    with contextlib.suppress(ValueError):
        for number, line in read_setup(file):
            assert line.split()[0] in ("channel", "queue", "map") and number > 0


@settings(max_examples=400)
@given(octets=changed(WORDS))
def test_a_command_line_is_read_or_refused_with_a_text(octets: bytes) -> None:
    """Reads a command line. It is one, or ends with status 2 and a text, or with status 0 for the help and the version."""
    said = io.StringIO()
    with contextlib.redirect_stderr(said), contextlib.redirect_stdout(said):
        found = outcome(lambda: read_words(octets.decode("latin-1").split()) and None, SystemExit)
    assert found in ("gave None", "SystemExit: 0") or (found == "SystemExit: 2" and "error: " in said.getvalue())
