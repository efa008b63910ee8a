"""Compares the CLTUs and telemetry frames that tcmake makes and decodes with those of a second implementation, coding.py. Known words and streams
are compared, also in pieces. Code blocks, streams, CLTUs of several frames and telemetry frames are drawn."""
from __future__ import annotations

import random
from collections import Counter
from pathlib import Path
from typing import Callable, NamedTuple, Optional

import pytest
from hypothesis import given, settings, strategies as st

from client_parts import cltu, coded
from coding import MODES, START, TAIL, Found, decoded, searched, sequence, taken_out, telemetry, wrong
from comparing import run

Ask = Callable[..., "list[str]"]
BY_MODE = pytest.mark.parametrize("mode", MODES)
WHOLE, NOTHING = "frame 61626355555555", "blocks corrected 0 rejected 0 overlong 0"


@pytest.fixture(scope="module", name="ask")
def ask_of(tcmake: Path) -> Ask:
    """Returns a function that runs tcmake over lines, and returns the lines of its answers."""
    def ask(lines: list[str], *words: str) -> list[str]:
        ended = run(tcmake, *words, given="\n".join(lines) + "\n")
        assert (ended.returncode, ended.stderr) == (0, "")
        return ended.stdout.splitlines()
    return ask


# --- Known words ---

KNOWN = {
    "random 0000000000": "random ff399e5a68",
    "random " + "00" * 300: "random " + sequence(300).hex(),
    # More octets than a CLTU carries.
    "random " + "00" * 2000: "random " + sequence(2000).hex(),
    "cltu 00000000000000": "cltu eb9000000000000000fec5c5c5c5c5c5c579",
    "cltu 00000000000001": "cltu eb900000000000000174c5c5c5c5c5c5c579",
    "cltu 22f600ff00421a": "cltu eb9022f600ff00421a12c5c5c5c5c5c5c579",
    "tm 0 0 11 00000000": "tm 000100001ffe5500000000",
    "tm 1023 7 12 01040001": "tm 3fff00001ffe555501040001",
    "tm 42 1 11 01040001": "tm 02a300001ffe5501040001",
    "telemetry 02a3ff071ffe5501040001": "tm scid 42 vc 1 master 255 channel 7 pointer 2046 clcw 01040001",
    "telemetry 7fffff071fff5501040001": "refused version",
    "telemetry 02a2ff071ffe5501040001": "refused control",
    "telemetry 02a3ff071ffe01040001": "refused short",
    "tm 42 8 11 01040001": "bad channel: VC is 0 to 63, for tm 0 to 7",
    "tm 42 1 10 01040001": "bad size: SIZE is 1 to 1018, for tm 11 to 2048",
    "tm 42 1 2049 01040001": "bad size: SIZE is 1 to 1018, for tm 11 to 2048",
    "tm 42 1 11 010400": "bad clcw: HEX is four octets",
    "octets 3 eb90": "bad no decoder",
    "decoder 3 both": "bad mode: MODE is detect or correct",
    "cltu " + "00" * 1030: "bad too much data",
}


@pytest.mark.parametrize("line", KNOWN, ids=lambda line: str(line)[:40])
def test_a_known_line_is_answered_as_worked_out(ask: Ask, line: str) -> None:
    """Compares the answer to a line with that of the standard, or with one that was worked out by hand."""
    assert ask([line]) == [KNOWN[line]]


def test_known_lines_in_a_row_are_each_answered(ask: Ask) -> None:
    """Compares the answers to all known lines in one session."""
    assert ask(list(KNOWN)) == list(KNOWN.values())


def test_octets_of_each_length_are_coded_and_randomised(ask: Ask) -> None:
    """Compares CLTUs and random sequences with those of the second implementation."""
    frames = [random.Random(count).randbytes(count) for count in [*range(1, 40), 200, 1018, 1024, 1029]]
    made = [f"cltu {cltu(frame).hex()}" for frame in frames]
    turned = [f"random {bytes(a ^ b for a, b in zip(frame, sequence(len(frame)))).hex()}" for frame in frames]
    assert ask([f"{word} {frame.hex()}" for word in ("cltu", "random") for frame in frames]) == made + turned


@BY_MODE
@pytest.mark.parametrize("start, errors", [("eb90", 0), ("eb91", 1), ("6b90", 1), ("ea90", 1), ("eb80", 1), ("ea91", 2), ("e890", 2), ("eb93", 2)])
def test_a_start_sequence_counts_with_as_many_wrong_bits_as_are_allowed(ask: Ask, start: str, errors: int, mode: str) -> None:
    """Compares whether a CLTU is found whose start sequence has this number of wrong bits."""
    found = [WHOLE] if errors <= MODES[mode] else []
    assert ask([f"decoder 7 {mode}", f"octets 7 {start}{cltu(b'abc')[2:].hex()}"]) == [*found, NOTHING]


def test_an_empty_cltu_carries_no_frame(ask: Ask) -> None:
    """Compares the answers to a CLTU without a code block, and to one after it."""
    lines = ["decoder 0 correct", "octets 0 eb90c5c5c5c5c5c5c579", f"octets 0 {cltu(b'abc').hex()}"]
    assert ask(lines) == [NOTHING, WHOLE, NOTHING]


# --- What a decoder remembers ---

def ended_by_eb() -> bytes:
    """Returns a code block without a wrong bit whose last octet is the first of the start sequence."""
    return next(block for block in (coded(number.to_bytes(7, "big"))[:7] + b"\xeb" for number in range(1 << 12)) if decoded(block, 0)[0] is not None)


def answer_to(corrected: int, rejected: int, overlong: int) -> str:
    """Returns the line that ends the answer to octets."""
    return f"blocks corrected {corrected} rejected {rejected} overlong {overlong}"


REJECTED, LAST, REST = bytes(7) + b"\xeb", ended_by_eb(), cltu(b"abc")[1:]
# As many octets as a CLTU carries, and their code blocks.
CARRIED = [bytes([place]) * 7 for place in range(147)]
BLOCKS, LONGEST = b"".join(map(coded, CARRIED)), f"frame {b''.join(CARRIED).hex()}"
# Pieces of a stream, of which None is a search, and the answers to them.
REMEMBERED: dict[str, tuple[list[Optional[bytes]], list[str]]] = {
    "rejected block": ([START + REJECTED + REST], [answer_to(0, 1, 0)]),
    "rejected block and whole start": ([START + REJECTED + b"\xeb" + REST], [WHOLE, answer_to(0, 1, 0)]),
    "overlong": ([START + BLOCKS + LAST + REST], [answer_to(0, 0, 1)]),
    "overlong and whole start": ([START + BLOCKS + LAST + b"\xeb" + REST], [WHOLE, answer_to(0, 0, 1)]),
    "overlong by a block with a wrong bit": ([START + BLOCKS + wrong(LAST, [3])], [answer_to(0, 0, 1)]),
    "longest whose last block has a wrong bit": ([START + BLOCKS[:-8] + wrong(BLOCKS[-8:], [3]) + TAIL], [LONGEST, answer_to(1, 0, 0)]),
    "search": ([b"\xeb", None, REST], [NOTHING, "search cut 0", NOTHING]),
    "no search": ([b"\xeb", REST], [NOTHING, WHOLE, NOTHING]),
    "search in a CLTU": ([START + BLOCKS[:8] + b"\xeb", None, REST], [NOTHING, "search cut 1", NOTHING]),
}


@pytest.mark.parametrize("what", REMEMBERED)
def test_octets_that_are_done_with_begin_no_start_sequence(ask: Ask, what: str) -> None:
    """Checks that the last octet of a rejected code block, of an overlong CLTU or before a search isn't taken as the first half of a start sequence.
    Also compares the counts for a CLTU that a block with a wrong bit ends or makes overlong."""
    pieces, answers = REMEMBERED[what]
    assert ask(["decoder 9 correct", *(f"octets 9 {piece.hex()}" if piece else "search 9" for piece in pieces)]) == answers


# --- Known streams ---

# Streams, each with its candidates if wrong bits are only detected, and its candidates if one wrong bit is corrected.
STREAMS = {
    "one CLTU": ("eb90302a040500005594c5c5c5c5c5c5c579", "302a0405000055", "302a0405000055"),
    "two code blocks": ("eb90002a040c00c010aa05c0000000aa55e0c5c5c5c5c5c5c579", "002a040c00c01005c0000000aa55", "002a040c00c01005c0000000aa55"),
    "two CLTUs": ("eb90302a040500005594c5c5c5c5c5c5c579eb900000000000000174c5c5c5c5c5c5c579", "302a0405000055 00000000000001",
                  "302a0405000055 00000000000001"),
    # The last octet before the CLTU is the first of a start sequence.
    "other octets": ("90eb00ebeb90302a040500005594c5c5c5c5c5c5c579eb0090", "302a0405000055", "302a0405000055"),
    "no code block": ("eb90c5c5c5c5c5c5c579eb90302a040500005594c5c5c5c5c5c5c579", "302a0405000055", "302a0405000055"),
    "two wrong bits in an octet of the start": ("eb93302a040500005594c5c5c5c5c5c5c579", "", ""),
    "two wrong bits in both octets of the start": ("ea91302a040500005594c5c5c5c5c5c5c579", "", ""),
    "without the last octet": ("eb90302a040500005594c5c5c5c5c5c5c5", "", ""),
    "start and idle sequence before it": ("eb90555555555555555555555555555555eb90302a040500005594c5c5c5c5c5c5c579", "302a0405000055",
                                          "302a0405000055"),
    "the first bit of the start is wrong": ("6b90302a040500005594c5c5c5c5c5c5c579", "", "302a0405000055"),
    "the last bit of the start is wrong": ("eb91302a040500005594c5c5c5c5c5c5c579", "", "302a0405000055"),
    # If the false start counts, the octets of the right one belong to a code block.
    "false start before it": ("eb80eb90302a040500005594c5c5c5c5c5c5c579", "302a0405000055", ""),
    "wrong bit in the first block": ("eb90302a040500005d94c5c5c5c5c5c5c579", "", "302a0405000055"),
    "wrong parity bit in the second block": ("eb90002a040c00c010aa05c0000000aa5560c5c5c5c5c5c5c579", "002a040c00c010",
                                             "002a040c00c01005c0000000aa55"),
    "two wrong bits in the second block": ("eb90002a040c00c010aa05c0000000ab5560c5c5c5c5c5c5c579", "002a040c00c010", "002a040c00c010"),
    # The tail sequence is rejected in both modes.
    "wrong bit in the tail": ("eb90302a040500005594c5c5c5c5c5c5c571", "302a0405000055", "302a0405000055"),
}


@BY_MODE
@pytest.mark.parametrize("name", STREAMS)
def test_a_known_stream_has_the_same_candidates_in_pieces_of_each_length(ask: Ask, name: str, mode: str) -> None:
    """Sends a stream to new decoders in pieces of 1 to 19 octets, and compares the candidates."""
    stream, *frames = STREAMS[name]
    wanted = [f"frame {frame}" for frame in frames[MODES[mode]].split()]
    for size in range(1, 20):
        pieces = [stream[at:at + 2 * size] for at in range(0, len(stream), 2 * size)]
        found = [line for line in ask([f"decoder 0 {mode}", *(f"octets 0 {piece}" for piece in pieces)]) if line.startswith("frame ")]
        assert found == wanted, f"in pieces of {size} octets"


@pytest.mark.parametrize("hidden", ["aa" * 16, "00" * 16])
def test_a_search_finds_the_next_cltu_after_a_false_start(ask: Ask, hidden: str) -> None:
    """Compares the answers to `search` after a start sequence that no CLTU follows, and the candidates after it."""
    lines = ["decoder 1 correct", f"octets 1 eb90{hidden}", "search 1", f"octets 1 {cltu(b'abcdefg').hex()}", "search 1", "search 2"]
    found = [line for line in ask(lines) if not line.startswith("blocks")]
    assert found == ["search cut 1", f"frame {b'abcdefg'.hex()}", "search cut 0", "bad no decoder"]


def test_without_a_search_a_cltu_after_a_false_start_is_lost(ask: Ask) -> None:
    """Checks that the octets of such a CLTU count as code blocks."""
    answers = ask(["decoder 1 correct", "octets 1 eb90" + "aa" * 16 + cltu(b"abcdefg").hex()])
    assert answers and f"frame {b'abcdefg'.hex()}" not in answers


def test_256_decoders_work_at_a_time(ask: Ask) -> None:
    """Gives each decoder a CLTU, and one of them 7,000 CLTUs in a piece."""
    whole = cltu(b"abcdefg").hex()
    answers = ask([f"decoder {number} detect" for number in range(256)] + [f"octets {number} {whole}" for number in range(256)]
                  + [f"octets 0 {whole * 7_000}"])
    assert answers.count(f"frame {b'abcdefg'.hex()}") == 7_256


# --- Drawn code blocks ---

# Seeds of a random generator, which makes octets and errors in great numbers.
SEEDS = st.integers(0, (1 << 24) - 1)


class Damaged(NamedTuple):
    """Seven octets, their code block with wrong bits, and how many of its first 63 bits are wrong. Its filler bit may be wrong, too."""

    information: bytes
    block: bytes
    errors: int


def damaged(seed: int) -> Damaged:
    """Returns a code block with zero to four wrong bits."""
    chance = random.Random(seed)
    information, errors = chance.randbytes(7), chance.randrange(5)
    return Damaged(information, wrong(coded(information), chance.sample(range(63), errors) + [63] * chance.randrange(2)), errors)


@BY_MODE
@settings(max_examples=100)
@given(st.lists(SEEDS.map(damaged), min_size=200, max_size=200))
def test_a_block_is_corrected_or_rejected_as_its_wrong_bits_allow(ask: Ask, mode: str, blocks: list[Damaged]) -> None:
    """Compares what a decoder makes of code blocks, each in a CLTU of its own. With `detect` it notices up to three wrong bits. With `correct` it
    corrects one, and notices two."""
    most, lines, wanted = MODES[mode], [f"decoder 0 {mode}"], []
    for information, block, errors in blocks:
        found, was_corrected = decoded(block, most)
        is_right = errors <= most
        assert (found == information) == is_right and (found is None or is_right or errors + most > 3), "what coding.py makes of a block"
        lines.append(f"octets 0 {(START + block + TAIL).hex()}")
        wanted += [*([f"frame {found.hex()}"] if found else []), answer_to(int(was_corrected), int(found is None), 0)]
    assert ask(lines) == wanted


# --- Drawn streams ---

def octets_of(sizes: st.SearchStrategy[int]) -> st.SearchStrategy[bytes]:
    """Returns a strategy for octets, of which there are as many as `sizes` draws."""
    return st.builds(lambda seed, size: random.Random(seed).randbytes(size), SEEDS, sizes)


def damage(octets: bytes, places: list[int]) -> bytes:
    """Returns octets with inverted bits. A place beyond the last bit counts from the first bit again."""
    return wrong(octets, sorted({place % (8 * len(octets)) for place in places}))


def part_of(octets: bytes, share: int) -> bytes:
    """Returns the first octets of a CLTU, so many 64ths of them."""
    return octets[:len(octets) * share // 64]


def twice(octets: bytes) -> bytes:
    """Returns a CLTU with its code blocks twice. If it is long, it is overlong then."""
    return octets[:-len(TAIL)] + octets[len(START):]


CLTUS = octets_of(st.sampled_from((1, 6, 7, 8, 20, 60))).map(cltu)
LONG_CLTUS = octets_of(st.sampled_from((9, 1024, 1029))).map(cltu)
# The parts of a stream: CLTUs, mostly with wrong bits, other octets, and octets that are like a start sequence.
NOISE = st.one_of(
    CLTUS, *[st.builds(damage, CLTUS, st.lists(st.integers(0, 700), max_size=6))] * 2,
    st.builds(part_of, LONG_CLTUS, st.integers(0, 63)), LONG_CLTUS.map(twice), octets_of(st.integers(0, 39)),
    st.sampled_from((b"\xeb", b"\x90", START, b"\xeb" + START, b"\x55", b"\x55" * 16, b"\x55" * 29)),
    st.sets(st.integers(0, 15), min_size=1, max_size=2).map(lambda bits: wrong(START, [*bits])))


class Stream(NamedTuple):
    """A stream for a decoder of its own: the decoder's number and mode, and the stream's pieces."""

    decoder: int
    mode: str
    pieces: list[bytes]


def cut(octets: bytes, lengths: list[int]) -> list[bytes]:
    """Returns octets in pieces of these lengths, which are taken in turn. None of the pieces is empty."""
    pieces: list[bytes] = []
    at = 0
    while at < len(octets):
        length = lengths[len(pieces) % len(lengths)]
        pieces.append(octets[at:at + length])
        at += length
    return pieces


PIECES = st.builds(lambda parts, lengths: cut(b"".join(parts) or b"\0", lengths), st.lists(NOISE, min_size=1, max_size=20),
                   st.lists(st.sampled_from((1, 2, 7, 8, 9, 20, 64, 200)), min_size=1, max_size=20))
SESSIONS = st.lists(st.builds(Stream, st.integers(0, 255), st.sampled_from([*MODES]), PIECES), min_size=1, max_size=4,
                    unique_by=lambda it: it.decoder)


@settings(max_examples=60)
@given(SESSIONS, st.randoms(use_true_random=True))
def test_streams_in_pieces_are_decoded_as_in_one(ask: Ask, streams: list[Stream], chance: random.Random) -> None:
    """Compares what several decoders make of streams whose pieces come in any order with what coding.py makes of each whole stream."""
    order = [number for number, stream in enumerate(streams) for _ in stream.pieces]
    chance.shuffle(order)
    left = [list(stream.pieces) for stream in streams]
    lines = [f"decoder {stream.decoder} {stream.mode}" for stream in streams]
    lines += [f"octets {streams[number].decoder} {left[number].pop(0).hex()}" for number in order]
    answers, found = iter(ask(lines)), [Counter[str]() for _ in streams]
    frames: list[list[bytes]] = [[] for _ in streams]
    for number in order:
        for words in map(str.split, answers):
            if words[0] == "blocks":
                found[number].update(dict(zip(words[1::2], map(int, words[2::2]))))
                break
            frames[number].append(bytes.fromhex(words[1]))
    counted = [(frames[number], *(found[number][what] for what in ("corrected", "rejected", "overlong"))) for number in range(len(streams))]
    wanted: list[Found] = [searched(b"".join(stream.pieces), MODES[stream.mode]) for stream in streams]
    assert (counted, list(answers)) == (wanted, [])


# --- CLTUs of several frames ---

def frame_of(size: int, seed: int) -> bytes:
    """Returns a frame of so many octets, with a random type and random octets."""
    chance = random.Random(seed)
    first, second = chance.choice((0, 0b10, 0b11)) << 12 | chance.randrange(1024), chance.randrange(64) << 10 | size - 1
    return first.to_bytes(2, "big") + second.to_bytes(2, "big") + chance.randbytes(size - 4)


class Sent(NamedTuple):
    """Frames that are sent in a CLTU, octets after them in it, the places of wrong bits, and how many frames are taken out at most."""

    frames: list[bytes]
    behind: bytes
    errors: list[int]
    most: int


FEW = st.lists(st.builds(frame_of, st.sampled_from((6, 7, 8, 13)) | st.integers(6, 249), SEEDS), min_size=1, max_size=4)
LONG = st.lists(st.builds(frame_of, st.integers(500, 1024), SEEDS), min_size=2, max_size=2)
SENT = st.builds(Sent, st.one_of(*[FEW] * 9, LONG), st.one_of(*[st.just(b"")] * 9, octets_of(st.integers(0, 8))),
                 st.just([]) | st.lists(st.integers(0, 9000), min_size=1, max_size=3), st.sampled_from((1, 2, 3, 4, 4, 4, 255)))


def carried(ask: Ask, mode: str, several: list[Sent], reached: Counter[str]) -> None:
    """Compares the frames that are taken out of CLTUs of several frames. Counts in `reached` what became of the CLTUs."""
    lines, wanted = [f"decoder 0 {mode}"], []
    for sent in several:
        stream = damage(cltu(b"".join(sent.frames) + sent.behind), sent.errors) + b"\x55" * 16
        candidates, corrected, rejected, overlong = searched(stream, MODES[mode])
        lines.append(f"octets 0 {stream.hex()}")
        wanted += [*(f"frame {candidate.hex()}" for candidate in candidates), answer_to(corrected, rejected, overlong)]
        for candidate in candidates:
            taken, rest = taken_out(candidate, sent.most)
            is_fill = len(rest) <= 6 and not taken_out(rest, 1)[0]
            lines.append(f"frames {sent.most} {candidate.hex()}")
            wanted += [*(f"frame {frame.hex()}" for frame in taken), f"fill {len(rest)}" if is_fill else f"more {rest.hex()}"]
            reached["all" if taken == sent.frames and is_fill else "first" if taken == sent.frames[:sent.most] else "others"] += 1
        reached["too long"] += overlong
    assert ask(lines) == wanted


@BY_MODE
def test_frames_are_taken_out_of_drawn_cltus(ask: Ask, mode: str) -> None:
    """Draws CLTUs of one to four frames. Some have wrong bits, some have more frames than are taken, and some are too long."""
    reached = Counter[str]()

    @settings(max_examples=130)
    @given(st.lists(SENT, min_size=16, max_size=16))
    def compare(several: list[Sent]) -> None:
        """Compares what becomes of CLTUs that are drawn."""
        carried(ask, mode, several, reached)
    compare()  # pylint: disable=no-value-for-parameter  # `given` passes them
    assert min(reached[kind] for kind in ("all", "first", "others", "too long")) > 0, reached


def test_frames_of_each_length_and_many_frames_are_taken_out(ask: Ask) -> None:
    """Compares the frames that are taken out of candidates with one frame of each length, and with up to as many frames as a CLTU has room for."""
    rows = [[size] for size in range(6, 1025)] + [[6] * number for number in range(1, 172)]
    frames = [[frame_of(size, size + place) for place, size in enumerate(row)] for row in rows]
    candidates = [octets + b"\x55" * (-len(octets) % 7) for octets in map(b"".join, frames)]
    answers = [[*(f"frame {frame.hex()}" for frame in row), f"fill {-sum(map(len, row)) % 7}"] for row in frames]
    assert ask([f"frames 255 {octets.hex()}" for octets in candidates]) == sum(answers, [])


# --- Telemetry frames ---

class Made(NamedTuple):
    """A telemetry frame that is to be made: its spacecraft, its channel, its size, and its operational control field."""

    scid: int
    vcid: int
    size: int
    control: bytes


TELEMETRY = st.builds(Made, st.just(42) | st.integers(0, 1023), st.integers(0, 7), st.sampled_from((13, 14, 100, 2048)),
                      st.binary(min_size=4, max_size=4))
BY_FIELD = pytest.mark.parametrize("words", [[], ["--fecf"]], ids=["plain", "fecf"])


def made_and_read_back(ask: Ask, words: list[str], several: list[Made]) -> list[str]:
    """Compares telemetry frames, which are counted for each spacecraft and each channel, and the answers that read them back. Returns the frames."""
    masters, channels = Counter[int](), Counter[tuple[int, int]]()
    wanted, read = [], []
    for scid, vcid, size, control in several:
        counts = masters[scid] % 256, channels[scid, vcid] % 256
        masters[scid] += 1
        channels[scid, vcid] += 1
        wanted.append(f"tm {telemetry(scid, vcid, counts, control, size, bool(words)).hex()}")
        kind = "report" if control[0] > 127 else "clcw"
        read.append(f"tm scid {scid} vc {vcid} master {counts[0]} channel {counts[1]} pointer 2046 {kind} {control.hex()}")
    made = ask([f"tm {it.scid} {it.vcid} {it.size} {it.control.hex()}" for it in several], *words)
    assert made == wanted
    assert ask([f"telemetry {line[3:]}" for line in made], *words) == read
    return made


@BY_FIELD
@settings(max_examples=10)
@given(several=st.lists(TELEMETRY, min_size=220, max_size=220))
def test_telemetry_frames_are_made_and_read_back(ask: Ask, words: list[str], several: list[Made]) -> None:
    """Draws telemetry frames of several spacecraft and channels, also with Type-2 reports."""
    made_and_read_back(ask, words, several)


@BY_FIELD
def test_the_counts_of_telemetry_frames_begin_anew_after_255(ask: Ask, words: list[str]) -> None:
    """Makes 1,200 frames of a spacecraft on two of its channels, and reads them back."""
    made_and_read_back(ask, words, [Made(42, 3 * (place % 2), 13, place.to_bytes(4, "big")) for place in range(1_200)])


@settings(max_examples=20)
@given(st.lists(st.tuples(TELEMETRY, st.integers(16, 99)), min_size=10, max_size=10))
def test_with_fecf_a_telemetry_frame_with_a_wrong_bit_is_refused(ask: Ask, several: list[tuple[Made, int]]) -> None:
    """Draws frames and the place of their wrong bit, which is behind the spacecraft and the channel."""
    frames = [wrong(telemetry(it.scid, it.vcid, (0, 0), it.control, it.size, True), [place]) for it, place in several]
    assert ask([f"telemetry {frame.hex()}" for frame in frames], "--fecf") == ["refused check"] * len(frames)
