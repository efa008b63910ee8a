"""Starts tclive, and compares its answers and its exit status with the right ones: for each stored case, bad lines and their hints, frame error
control fields, candidates, streams that end early or fail, and command lines. Many frames must need hardly more memory than a few.
`test_drawn.py` compares the answers to drawn lines."""
from __future__ import annotations

import binascii
import re
import subprocess
from pathlib import Path
from typing import Any, Callable

import pytest

from comparing import PATIENCE, TOP, Case
from model import LONGEST_LINE, perform

pytestmark = pytest.mark.quick

# The hint for a line with an unknown command, and the hint of each command for a line with a wrong number of words.
USE = "use channel, queue, map, frame, release, take, unit, clcw, link, report, deliver, collect or candidate"
WRITE = {
    "channel": "write channel VC WIDTH BUFFER VR [plain]", "queue": "write queue VC APID CAPACITY", "map": "write map VC MAP CAPACITY",
    "frame": "write frame HEX, octets without spaces", "release": "write release VC", "take": "write take VC APID", "unit": "write unit VC MAP",
    "clcw": "write clcw VC", "link": "write link VC RF BL", "report": "write report VC", "deliver": "write deliver VC",
    "collect": "write collect VC", "candidate": "write candidate HEX, octets without spaces",
}
MARKED = "unknown command: the line begins with a byte order mark; save the file without it"
# Bad lines before any channel, each with the reason and the hint of its answer.
BAD = [
    (b"\xef\xbb\xbfclcw 1", MARKED), (b" \xff\xfec", MARKED), (b"\xfe\xff\0c", MARKED),
    (b"channel 256 10 1 0", "number: VC is 0 to 63"), (b"channel 1 -1 x 0", "number: WIDTH is even, 2 to 254"),
    (b"channel 1 10 256 x", "number: BUFFER is 1 to 64"), (b"channel 1 10 1 000000 x", "number: VR is 0 to 255"),
    (b"channel 64 9 0 0", "channel: VC is 0 to 63"), (b"channel 63 9 0 0", "window: WIDTH is even, 2 to 254"),
    (b"channel 63 254 65 0", "buffer: BUFFER is 1 to 64"), (b"channel 1 10 1 0 flat", "option: write plain or nothing after VR"),
    (b"queue 1 65536 65536", "number: APID is 0 to 2046"), (b"queue 1 65535 65536", "number: CAPACITY is 1 to 256"),
    (b"map 1 256 1", "number: MAP is 0 to 63"), (b"frame 0", "hex: HEX is two hexadecimal digits for each octet"),
    (b"take 1 x", "number: APID is 0 to 2046"), (b"unit 1 x", "number: MAP is 0 to 63"), (b"link 1 2 2", "number: RF is 0 or 1"),
    (b"link 1 1 2", "number: BL is 0 or 1"), (b"report 256", "number: VC is 0 to 63"), (b"clcw 1", "no channel"), (b"queue 1 5 1", "unknown channel"),
]
# Bad lines behind those that set up channel 1, and behind an operation.
BAD_BEHIND_CHANNEL = [
    (b"queue 1 2047 0", "application: APID is 0 to 2046"), (b"queue 1 5 257", "capacity: CAPACITY is 1 to 256"),
    (b"map 1 64 0", "map: MAP is 0 to 63"), (b"map 1 5 0", "units: CAPACITY is 1 to 256"),
]
BAD_BEHIND_OPERATION = [(b"map 1 5 1", "too late"), (b"queue 1 5 1", "too late"), (b"channel 2 10 1 0", "too late")]
HINT = "tclive: each frame ended with a frame error control field, which was treated as data; tclive --fecf checks and removes it\n"
CHANNEL, FINAL = "channel 1 10 1 0", "final 1 01040000 events 0 buffered 0\n"
# A Type-AD frame with a packet, a command frame, and a Type-BD frame with part of a packet. They have no frame error control field.
PLAIN, NONE, PART = (bytes.fromhex(digits) for digits in ("002a040c00c01005c0000000aa", "302a04050000", "202a040900c0aabbccdd"))
# The numbers of frames whose memory is compared, and how much more the many may need. The memory that is needed is found in steps.
FEW, MANY, ALLOWED_KIB, STEP_KIB, ROOM_KIB = 512, 102_400, 64, 16, 1 << 20
Run = Callable[..., "tuple[int, str, str]"]


@pytest.fixture(name="run")
def run_of(tclive: Path) -> Run:
    """Returns a function that runs tclive over lines until it exits, and returns its status and the texts of both streams. It has tclive receive for
    spacecraft 42, unless it is given a command line."""
    def run(lines: bytes | list[str], *words: str | bytes) -> tuple[int, str, str]:
        data = lines if isinstance(lines, bytes) else "\n".join(lines).encode()
        ran = subprocess.run([tclive, *(words or ("--scid", "42"))], input=data, capture_output=True, check=False)
        return ran.returncode, ran.stdout.decode("latin-1"), ran.stderr.decode("latin-1")
    return run


def summed(plain: bytes) -> bytes:
    """Returns a frame with its frame error control field, which its length counts."""
    longer = plain[:2] + (int.from_bytes(plain[2:4], "big") + 2).to_bytes(2, "big") + plain[4:]
    return longer + binascii.crc_hqx(longer, 0xFFFF).to_bytes(2, "big")


def bypassing(size: int) -> bytes:
    """Returns a Type-BD frame of so many octets. Those behind its header are zeros."""
    return (0x202A0400 + size - 1).to_bytes(4, "big") + bytes(size - 4)


def with_each_bit_changed(octets: bytes) -> list[bytes]:
    """Returns copies of the octets. In each of them another bit is changed."""
    return [(int.from_bytes(octets, "big") ^ 1 << bit).to_bytes(len(octets), "big") for bit in range(8 * len(octets))]


def lines_of(command: str, several: list[bytes]) -> list[str]:
    """Returns a line of this command for each of several frames or candidates."""
    return [f"{command} {octets.hex()}" for octets in several]


# --- Cases and bad lines ---

def test_a_case_gets_its_stored_answers(run: Run, case: Case) -> None:
    """Compares the answers to a case with the stored ones, or with those of the model if a line of the case is bad for tclive."""
    if case.fault or max(map(len, case.script.split(b"\n"))) > LONGEST_LINE:
        outcome = perform(int(case.scid), case.script, live=True)
        wanted = "".join(f"{line}\n" for line in outcome.answers + outcome.report)
    else:
        wanted = case.answers.decode()
    status, printed, error = run(case.script, "--scid", case.scid)
    assert (status, re.sub("(?m)^(bad [a-z ]+): .*", r"\1", printed), error) == (0, wanted, "")


@pytest.mark.parametrize("words", ["{}", " {}\t1 1 1  1 1 1\r"], ids=["few", "many"])
@pytest.mark.parametrize("command", WRITE)
def test_a_wrong_number_of_words_gets_the_form_of_the_command(run: Run, command: str, words: str) -> None:
    """Compares the answers to fewer and to more words than a command takes."""
    assert run([words.format(command)]) == (0, f"bad wrong number of words: {WRITE[command]}\n", "")


@pytest.mark.parametrize("line", ["no", "chanel 1 10 1 0", "Channel 1 10 1 0", "channels 1 10 1 0", "tak 1 5", "-", "fr\0me 00", "1"])
def test_an_unknown_command_gets_a_list_of_the_commands(run: Run, line: str) -> None:
    """Compares the answers to first words that are nearly a command."""
    assert run([line]) == (0, f"bad unknown command: {USE}\n", "")


@pytest.mark.parametrize("line, answer", BAD)
def test_a_bad_line_gets_a_reason_and_a_hint(run: Run, line: bytes, answer: str) -> None:
    """Compares the answers to bad lines before any channel."""
    assert run(line) == (0, f"bad {answer}\n", "")


@pytest.mark.parametrize("line, answer", BAD_BEHIND_CHANNEL)
def test_a_bad_line_behind_a_channel_gets_a_reason_and_a_hint(run: Run, line: bytes, answer: str) -> None:
    """Compares the answers to lines that are bad although their channel is set up."""
    assert run(CHANNEL.encode() + b"\n" + line) == (0, f"bad {answer}\n{FINAL}", "")


@pytest.mark.parametrize("line, answer", BAD_BEHIND_OPERATION)
def test_a_line_that_sets_up_behind_an_operation_is_too_late(run: Run, line: bytes, answer: str) -> None:
    """Compares the answers to lines that would set something up behind a line `link`, which is answered."""
    assert run(CHANNEL.encode() + b"\nlink 1 0 0\n" + line) == (0, f"link 1 0 0\nbad {answer}\n{FINAL}", "")


def test_bad_lines_in_a_row_are_each_answered(run: Run) -> None:
    """Compares the answers to all bad lines of this file in one session."""
    lines = [*(line for line, _ in BAD), CHANNEL.encode(), *(line for line, _ in BAD_BEHIND_CHANNEL)]
    answers = [answer for _, answer in BAD + BAD_BEHIND_CHANNEL]
    assert run(b"\n".join(lines)) == (0, "".join(f"bad {answer}\n" for answer in answers) + FINAL, "")


@pytest.mark.parametrize("command", WRITE)
def test_the_help_lists_the_form_of_the_hint(command: str) -> None:
    """Looks in the source of the help for the form that the hint of a command has."""
    form = WRITE[command].removeprefix("write ").partition(",")[0]
    assert f"\n  {form}  " in (TOP / "crates/command_line/src/help.rt").read_text()


# --- Frame error control fields ---

def test_with_fecf_each_frame_with_a_wrong_bit_or_length_is_refused(run: Run) -> None:
    """Compares the answers to a frame of each shorter length, of an octet more, and with each bit changed. They cause no event."""
    frame = summed(PLAIN)
    wrong = [frame[:count] for count in range(1, len(frame))] + [frame + b"\0"] + with_each_bit_changed(frame)
    answers = "refused check\n" * len(wrong) + "frame 1 E1 accepted 1 queued 0 dropped 0 rest 0\nfinal 1 01040001 events 1 buffered 1\n"
    assert run([CHANNEL, *lines_of("frame", [*wrong, frame])], "--scid", "42", "--fecf") == (0, answers, "")


def test_with_fecf_a_frame_of_each_length_is_accepted(run: Run) -> None:
    """Compares the answers to frames from the shortest to the longest. Their data fields are made of packets of seven octets that are dropped."""
    sizes = range(6, 1023)
    frames = [summed(bypassing(size)[:5] + b"\xff" + bytes(size - 6)) for size in sizes]
    answers = "".join(f"frame 1 E6 accepted 1 queued 0 dropped {(size - 6) // 7} rest {int((size - 6) % 7 > 0)}\n" for size in sizes)
    answers += f"final 1 {0x01040000 | (len(sizes) % 4) << 9:08x} events {len(sizes)} buffered 0\n"
    assert run([CHANNEL, *lines_of("frame", frames)], "--scid", "42", "--fecf") == (0, answers, "")


def test_without_fecf_the_field_is_data(run: Run) -> None:
    """Compares the answer to a frame with the field, of which tclive knows nothing."""
    status, printed, _ = run([CHANNEL, *lines_of("frame", [summed(PLAIN)])])
    assert status == 0 and printed.startswith("frame 1 E1 accepted 1")


@pytest.mark.parametrize("frames, words, is_hinted", [
    ([summed(PLAIN)], [], True), ([summed(PLAIN)] * 3, [], True), ([], [], False), ([NONE, summed(PLAIN)], [], False),
    ([summed(PLAIN), NONE], [], False), ([summed(PLAIN), summed(PLAIN)[:-1]], [], False), ([summed(PLAIN), summed(PLAIN) + b"\0"], [], False),
    ([bytes.fromhex("302a0405754f")], [], False), ([summed(PLAIN)], ["--fecf"], False)],
    ids=["one", "three", "no frame", "without behind with", "with behind without", "short", "fill", "no data before it", "the option is given"])
def test_a_hint_on_the_field_comes_if_each_frame_had_it(run: Run, frames: list[bytes], words: list[str], is_hinted: bool) -> None:
    """Compares standard error at the end. The hint comes if there was a frame, each frame ended with its field, and --fecf wasn't given."""
    status, _, error = run([CHANNEL, "frame 0", *lines_of("frame", frames), "clcw 1"], "--scid", "42", *words)
    assert (status, error) == (0, HINT if is_hinted else "")


# --- Candidates, and a delivery ---

@pytest.mark.parametrize("words", [[], ["--fecf"]], ids=["plain", "fecf"])
def test_a_candidate_of_each_length_is_answered_as_its_frame(run: Run, words: list[str]) -> None:
    """Compares the answers to candidates with fill after the frame with those to the frames alone."""
    frames = [summed(bypassing(size)) for size in range(6, 1023)] if words else [bypassing(size) for size in range(6, 1025)]
    filled = [frame + b"\x55" * (-len(frame) % 7) for frame in frames]
    of_candidates, of_frames = (run(["channel 1 10 1 0 plain", *lines_of(command, several)], "--scid", "42", *words)
                                for command, several in (("candidate", filled), ("frame", frames)))
    assert of_candidates == of_frames and of_candidates[0] == 0
    assert of_candidates[1].count("frame 1 E6 accepted 1 ") == len(frames)


def test_a_candidate_that_carries_more_is_refused(run: Run) -> None:
    """Compares the answers to a frame with another, with seven octets of fill, and with the beginning of another and fill. A frame with less fill is
    accepted."""
    frame = summed(PART)
    candidates = [frame + frame, frame + b"\x55" * 7, frame + frame[:6] + b"\x55" * 3, frame + b"\x55" * 6]
    answers = "refused more\n" * 3 + "frame 1 E6 accepted 1 queued 0 dropped 0 rest 1\nfinal 1 01040200 events 1 buffered 0\n"
    assert run([CHANNEL, *lines_of("candidate", candidates)], "--scid", "42", "--fecf") == (0, answers, "")


def test_with_fecf_a_candidate_with_a_changed_bit_is_refused(run: Run) -> None:
    """Compares the answers to a candidate each of whose bits, but for those of its fill, is changed in turn. They cause no event."""
    candidates = [octets + b"\x55\x55" for octets in with_each_bit_changed(summed(PART))]
    status, printed, error = run([CHANNEL, *lines_of("candidate", candidates)], "--scid", "42", "--fecf")
    *answers, final = printed.splitlines(True)
    assert (status, final, error) == (0, FINAL, "")
    assert len(answers) == len(candidates) and set(answers) <= {"refused check\n", "refused more\n"}


FRAME, OTHER, UNKNOWN = summed(PART), PART[:1] + b"\x2b" + PART[2:], PART[:2] + b"\x08" + PART[3:]
WRONG = FRAME[:-1] + bytes([FRAME[-1] ^ 1])
ACCEPTED = "frame 1 E6 accepted 1 queued 0 dropped 0 rest 1"
# Candidates with more than a frame, those before the first channel, and those behind it, each with its answer.
MORE = [(PART + PART, "refused more"), (OTHER + OTHER, "refused more"), (UNKNOWN + PART, "refused more"), (PART + b"\x55" * 7, "refused more")]
FIRST = [*MORE, (PART, "bad no channel"), (b"\x30", "bad no channel")]
BEHIND = [*MORE, (OTHER, "refused spacecraft"), (UNKNOWN, "refused channel"), (b"\x30", "refused short"), (PART, ACCEPTED)]
SUMMED_MORE = [(FRAME + FRAME, "refused more"), (WRONG + WRONG, "refused more"), (WRONG, "refused check"), (b"\x30", "refused check"),
               (summed(OTHER) + b"\x55" * 7, "refused more")]
SUMMED_BEHIND = [*SUMMED_MORE, (FRAME, ACCEPTED), (summed(OTHER), "refused spacecraft"), (summed(UNKNOWN), "refused channel")]


@pytest.mark.parametrize("words, first, behind", [([], FIRST, BEHIND), (["--fecf"], [*SUMMED_MORE, (FRAME, "bad no channel")], SUMMED_BEHIND)],
                         ids=["plain", "fecf"])
def test_the_refusal_of_a_candidate_is_the_first_that_applies(run: Run, words: list[str], first: list[Any], behind: list[Any]) -> None:
    """Compares which refusal comes first with docs/reference/tclive.md, before and after the first channel. A line that sets something up is still
    taken after refused candidates that carry more, and is too late after another candidate."""
    lines = [*lines_of("candidate", [octets for octets, _ in first]), CHANNEL, *lines_of("candidate", [first[0][0]]), "queue 1 5 1",
             *lines_of("candidate", [octets for octets, _ in behind]), "queue 1 6 1"]
    status, printed, error = run(lines, "--scid", "42", *words)
    answers = [*(answer for _, answer in first), first[0][1], *(answer for _, answer in behind), "bad too late"]
    assert (status, printed.splitlines()[:-2], error) == (0, answers, "")


def test_a_delivery_takes_as_many_packets_as_a_queue_holds(run: Run) -> None:
    """Compares the answer of `deliver` with 256 packets in a queue."""
    packets = [f"1005c0000001{number:04x}" for number in range(256)]
    status, printed, _ = run([CHANNEL, "queue 1 5 256", *(f"frame 202a040d00c0{packet}" for packet in packets), "deliver 1"])
    taken = "".join(f"take 1 5 {packet}\n" for packet in packets)
    assert status == 0 and f"refused empty\n{taken}clcw 1 01040000\n" in printed


# --- Streams ---

@pytest.mark.parametrize("data, answers", [
    (b"", ""), (b"\n\n# no lines\n", ""), (CHANNEL.encode(), FINAL), (CHANNEL.encode() + b"\nclcw 1", "clcw 1 01040000\n" + FINAL),
    (b"x" * 1_000_000, "bad too long\n"), (b"x" * 1_000_000 + b"\n" + CHANNEL.encode() + b"\n", "bad too long\n" + FINAL),
    (b"#" * LONGEST_LINE + b"\n", ""), (b"#" * LONGEST_LINE, ""), (b"#" * (LONGEST_LINE + 1), "bad too long\n")],
    ids=["nothing", "no line", "channel without line feed", "operation without line feed", "a million octets", "channel behind a million octets",
         "longest line", "longest line without line feed", "line of an octet more"])
def test_a_stream_is_answered_to_its_end(run: Run, data: bytes, answers: str) -> None:
    """Compares the answers to streams that end early or have long lines."""
    assert run(data) == (0, answers, "")


def test_a_folder_cannot_be_read(tclive: Path) -> None:
    """Compares how tclive ends if standard input is a folder."""
    ran = subprocess.run(["sh", "-c", '"$0" --scid 42 <"$1"', tclive, TOP / "tools"], capture_output=True, check=False)
    assert (ran.returncode, ran.stdout, ran.stderr) == (1, b"", b"tclive: cannot read\n")


@pytest.mark.parametrize("words, data", [("--scid 42", b"no\n"), ("--scid 42", CHANNEL.encode() + b"\n"), ("--help", b""), ("--version", b"")],
                         ids=["bad line", "final report", "help", "version"])
def test_a_full_device_cannot_be_written(tclive: Path, words: str, data: bytes) -> None:
    """Compares how tclive ends if its output goes to a full device."""
    with open("/dev/full", "wb") as full:
        ran = subprocess.run([tclive, *words.split()], input=data, stdout=full, stderr=subprocess.PIPE, check=False)
    assert (ran.returncode, ran.stderr) == (1, b"tclive: cannot write\n")


def test_a_pipe_that_nobody_reads_ends_it(tclive: Path, begin: Callable[..., subprocess.Popen[bytes]]) -> None:
    """Compares how tclive ends: by SIGPIPE, or by the fault of a write."""
    pipes = {"stdin": subprocess.PIPE, "stdout": subprocess.PIPE, "stderr": subprocess.PIPE}
    with begin(tclive, "--scid", "42", **pipes) as child:
        assert child.stdin and child.stdout and child.stderr
        child.stdout.close()
        child.stdin.write(b"no\n")
        child.stdin.close()
        error = child.stderr.read()
        assert (child.wait(PATIENCE), error) in [(1, b"tclive: cannot write\n"), (-13, b"")]


# --- Command lines ---

@pytest.mark.parametrize("words", ["", "--scid", "--scid 1024", "--scid -1", "--scid x", "run --scid 42", "--scid 42 more", "--scid 42 --fecf=yes",
                                   "--scid 42 --scid 43", "--fecf"])
def test_a_bad_command_line_is_rejected_before_any_line_is_answered(tclive: Path, words: str) -> None:
    """Compares the status and the streams for a command line that isn't valid."""
    ran = subprocess.run([tclive, *words.split()], input=b"no\n", capture_output=True, check=False)
    assert (ran.returncode, ran.stdout, ran.stderr != b"") == (2, b"", True)


def test_a_word_that_is_not_utf_8_is_named(run: Run) -> None:
    """Compares the text for such a word of the command line."""
    assert run(b"", b"--scid", b"\xff") == (2, "", "tclive: word 2 isn't valid UTF-8: \\xff\n")


@pytest.mark.parametrize("word", ["--version", "-V"])
def test_the_version_is_that_of_the_sources(run: Run, word: str) -> None:
    """Compares the version with the one in the sources."""
    found = re.search(r'VERSION: &str = "(.*)";', (TOP / "crates/command_line/src/help.rt").read_text())
    assert found and run(b"", word) == (0, f"tclive {found[1]}\n", "")


@pytest.mark.parametrize("word", ["--help", "-h"])
def test_the_help_names_options_and_lines(run: Run, word: str, stand_ins: bool) -> None:
    """Looks for texts in the help. That of programs that stand in for the proved ones names the options alone."""
    status, printed, error = run(b"", word)
    texts = ["--scid", "--fecf"]
    texts += [] if stand_ins else ["link VC RF BL", "report VC", "deliver VC", "collect VC", "candidate HEX", "8192"]
    assert (status, [text for text in texts if text not in printed], error) == (0, [], "")


@pytest.mark.parametrize("scid", ["0", "1023"])
def test_the_least_and_the_largest_spacecraft_are_taken(run: Run, scid: str) -> None:
    """Compares the status at both bounds of the spacecraft identifier."""
    assert run(b"", "--scid", scid) == (0, "", "")


# --- Memory ---

def lines_of_rounds(count: int) -> str:
    """Returns lines for `count` frames, a multiple of 256, each of which is released and its packet taken."""
    once = "".join(f"frame 002a040c{number:02x}c01005c0000000aa\nrelease 1\ntake 1 5\n" for number in range(256))
    return f"{CHANNEL}\nqueue 1 5 1\n" + once * (count // 256)


def final_within(tclive: Path, lines: Path, kib: int) -> str:
    """Runs tclive over a file with at most so many KiB of memory. Returns the channel's line of the final report if all lines were answered."""
    command = 'ulimit -v "$1" && exec "$0" --scid 42 <"$2" 2>/dev/null | tail -n 2 | head -n 1'
    return subprocess.run(["sh", "-c", command, tclive, str(kib), lines], capture_output=True, text=True, check=False).stdout.strip()


def test_many_frames_need_hardly_more_memory_than_a_few(tclive: Path, tmp_path: Path) -> None:
    """Finds how much memory a few frames need, and has many frames answered with at most 64 KiB more."""
    few, many = tmp_path / "few", tmp_path / "many"
    few.write_text(lines_of_rounds(FEW))
    many.write_text(lines_of_rounds(MANY))
    low, high = 0, ROOM_KIB // STEP_KIB
    while high - low > 1:
        middle = (low + high) // 2
        is_enough = final_within(tclive, few, middle * STEP_KIB) == f"final 1 01040000 events {3 * FEW} buffered 0"
        low, high = (low, middle) if is_enough else (middle, high)
    limit = high * STEP_KIB + ALLOWED_KIB
    assert final_within(tclive, many, limit) == f"final 1 01040000 events {3 * MANY} buffered 0", f"with at most {limit} KiB"
