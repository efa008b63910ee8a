"""The program tcmake: its stored answers, the frame error control field, the hints about bad lines, long lines, streams that end early or fail,
command lines, and help. Each test compares the exit status, standard output and standard error with the right ones."""
from __future__ import annotations

import binascii
import re
import subprocess
from pathlib import Path
from typing import Any, Callable, List, Union

import pytest
from comparing import PATIENCE, TOP
from program_parts import FULL, ended, version

pytestmark = pytest.mark.quick

# The texts in the help of the proved program: the form of each line, limits, and exit statuses.
LISTED = ("packet APID COUNT HEX ", "ad SCID VC NS MAP HEX ", "bd SCID VC MAP HEX ", "unlock SCID VC ", "setvr SCID VC X ",
          "segments SCID VC NS MAP SIZE HEX ", "explain HEX ", "clcw HEX ", "cltu HEX ", "random HEX ", "tm SCID VC SIZE HEX ", "telemetry HEX ",
          "decoder ID MODE ", "octets ID HEX ", "search ID ", "frames MOST HEX ", "# WORDS ", "0 to 2047", "0 to 16383", "1 to 65536", "0 to 1023",
          "0 to 63", "0 to 255", "1 to 1018", "1 to 65542", "262143", "  0   ", "  1   ", "  2   ")
COMMANDS = "packet, ad, bd, unlock, setvr, segments, explain, clcw, cltu, random, tm, telemetry, decoder, octets, search or frames"
MARKED = "unknown command: the line begins with a byte order mark; save the file without it"
# The form of each command. A line with another number of words has it in its answer.
FORMS = {
    "packet 5 aa": "packet APID COUNT HEX, octets without spaces", "ad 42 1 0 0 10 05": "ad SCID VC NS MAP HEX, octets without spaces",
    "bd 42 1 aa": "bd SCID VC MAP HEX, octets without spaces", "unlock 42 1 0": "unlock SCID VC", "setvr 42 1": "setvr SCID VC X",
    "segments 42 1 0 0 aa": "segments SCID VC NS MAP SIZE HEX, octets without spaces", "explain 00 2a 04": "explain HEX, octets without spaces",
    "clcw": "clcw HEX, octets without spaces", "cltu 00 00": "cltu HEX, octets without spaces", "random": "random HEX, octets without spaces",
    "tm 42 1 01040001": "tm SCID VC SIZE HEX, octets without spaces", "telemetry": "telemetry HEX, octets without spaces",
    "decoder 1": "decoder ID MODE", "octets eb90": "octets ID HEX, octets without spaces", "search": "search ID",
    "frames 0055": "frames MOST HEX, octets without spaces",
}
# Lines with a word that is wrong, each with the reason in its answer.
REASONS = {
    b"CLCW 01040001": f"unknown command: use {COMMANDS}", b"\xef\xbb\xbfclcw 01040001": MARKED, b" \xff\xfec": MARKED,
    b"unlock x 64": "number: SCID is 0 to 1023", b"unlock 1024 64": "spacecraft: SCID is 0 to 1023",
    b"setvr 42 256 256": "number: VC is 0 to 63, for tm 0 to 7", b"setvr 42 64 255": "channel: VC is 0 to 63, for tm 0 to 7",
    b"setvr 42 1 256": "number: X is 0 to 255", b"ad 42 1 256 64 0": "number: NS is 0 to 255", b"ad 42 1 255 Plain 0": "number: MAP is 0 to 63",
    b"bd 42 1 64 00": "map: MAP is 0 to 63", b"segments 42 1 0 63 -1 00": "number: SIZE is 1 to 1018, for tm 11 to 2048",
    b"segments 42 1 0 63 0 00": "size: SIZE is 1 to 1018, for tm 11 to 2048", b"packet 65536 0 00": "number: APID is 0 to 2047",
    b"packet 2048 16384 00": "application: APID is 0 to 2047", b"packet 5 1e3 00": "number: COUNT is 0 to 16383",
    b"packet 5 16384 00": "count: COUNT is 0 to 16383", b"packet 5 0 0": "hex: HEX is two hexadecimal digits for each octet",
    b"decoder 256 detect": "number: ID is 0 to 255", b"decoder 255 detects": "mode: MODE is detect or correct",
    b"octets x 00": "number: ID is 0 to 255", b"clcw 010400": "clcw: HEX is four octets",
}
# An Unlock: its frame, and two lines that explain it.
UNLOCK = "302a04050000"
EXPLAINED = b"header BC scid 42 vc 1 ns 0 octets 6 fill %d\ncommand unlock\n"


def lines(*several: Union[str, bytes]) -> bytes:
    """Returns these lines, each with a line feed."""
    return b"".join((line.encode() if isinstance(line, str) else line) + b"\n" for line in several)


# --- Answers ---

def test_stored_lines_get_their_stored_answers(tcmake: Path) -> None:
    """Gives the stored lines from their file."""
    folder = TOP / "crates/tcmake"
    assert ended(tcmake, given=folder / "stdin") == (0, (folder / "stdout").read_bytes(), b"")


def test_no_line_gets_no_answer(tcmake: Path) -> None:
    """Gives no line."""
    assert ended(tcmake) == (0, b"", b"")


def test_each_line_is_answered_before_the_next_is_written(tcmake: Path, begin: Callable[..., subprocess.Popen[Any]]) -> None:
    """Writes each line only after reading the answer to the line before. A program that doesn't answer is killed after a while."""
    pipe = subprocess.PIPE
    with begin("timeout", PATIENCE, tcmake, stdin=pipe, stdout=pipe, stderr=pipe, bufsize=0) as child:
        assert child.stdin and child.stdout
        for line, answer in (("unlock 42 1", f"frame {UNLOCK}"), ("unlock 1", "bad wrong number of words: write unlock SCID VC"),
                             ("packet 5 0 aa", "packet 1005c0000000aa")):
            child.stdin.write(lines(line))
            assert child.stdout.readline() == lines(answer), line
        out, error = child.communicate()
        assert (child.returncode, out, error) == (0, b"", b"")


def test_with_most_0_frames_says_what_the_whole_candidate_is(tcmake: Path) -> None:
    """Extracts no frame from fill and from other octets, and one frame from a candidate that is this frame."""
    given = lines(f"frames 0 {UNLOCK}", "frames 0 5555", "frames 0 555555555555", "frames 0 55555555555555", f"frames 1 {UNLOCK}")
    wanted = lines(f"more {UNLOCK}", "fill 2", "fill 6", "more 55555555555555", f"frame {UNLOCK}", "fill 0")
    assert ended(tcmake, given=given) == (0, wanted, b"")


def test_explain_counts_fill_and_prints_other_octets_after_a_frame(tcmake: Path) -> None:
    """Explains a frame with fill after it, with fill that is too long, and with another frame after it."""
    wanted = EXPLAINED % 6 + EXPLAINED % 7 + lines("more 55555555555555") + EXPLAINED % 6 + lines(f"more {UNLOCK}")
    given = lines(f"explain {UNLOCK}555555555555", f"explain {UNLOCK}55555555555555", f"explain {UNLOCK}{UNLOCK}")
    assert ended(tcmake, given=given) == (0, wanted, b"")


# --- The frame error control field ---

def frame_line(header: str, number: int, field: bytes) -> str:
    """Returns the line of a frame on virtual channel 1, with its frame error control field. `header` has its first two octets."""
    octets = bytes.fromhex(header) + (0x400 + len(field) + 6).to_bytes(2, "big") + bytes([number]) + field
    return f"frame {(octets + binascii.crc_hqx(octets, 0xffff).to_bytes(2, 'big')).hex()}"


def test_with_fecf_frames_have_their_field_and_packets_have_none(tcmake: Path) -> None:
    """Makes a frame of each kind. Their fields were computed by Python's binascii.crc_hqx(.., 0xffff)."""
    given = lines("unlock 42 1", "setvr 42 1 77", "ad 42 1 0 0 1005c0000000aa", "packet 5 0 aa")
    wanted = lines("frame 302a0407000020e7", "frame 302a04090082004d88d4", "frame 002a040e00c01005c0000000aa6b6e", "packet 1005c0000000aa")
    assert ended(tcmake, "--fecf", given=given) == (0, wanted, b"")


@pytest.mark.parametrize("octets", ["302a04050000", "302a0405754f", "302a0406000000", "302a0406003461"])
def test_with_fecf_explain_refuses_a_frame_of_fewer_than_8_octets(tcmake: Path, octets: str) -> None:
    """Explains short frames. Two of them end with the check sum of the octets before."""
    assert ended(tcmake, "--fecf", given=lines(f"explain {octets}")) == (0, b"refused check\n", b"")


def test_a_unit_makes_3000_segments_with_their_fields(tcmake: Path) -> None:
    """Makes a frame of each octet of a unit."""
    unit = bytes(place * 7 % 256 for place in range(3_000))
    flags = [1, *[0] * 2_998, 2]
    wanted = [frame_line("002a", (250 + at) % 256, bytes([flags[at] << 6 | 9, unit[at]])) for at in range(3_000)]
    assert ended(tcmake, "--fecf", given=lines(f"segments 42 1 250 9 1 {unit.hex()}")) == (0, lines(*wanted), b"")


def test_a_frame_of_each_length_has_its_field(tcmake: Path) -> None:
    """Makes a Type-BD frame of each length that leaves room for the field."""
    several = [bytes(place * 5 % 256 for place in range(length)) for length in range(1, 1018)]
    given = lines(*(f"bd 42 1 plain {data.hex()}" for data in several))
    assert ended(tcmake, "--fecf", given=given) == (0, lines(*(frame_line("202a", 0, data) for data in several)), b"")


# --- Bad lines ---

@pytest.mark.parametrize("line, form", FORMS.items(), ids=[line.split()[0] for line in FORMS])
def test_a_wrong_number_of_words_is_answered_by_the_form(tcmake: Path, line: str, form: str) -> None:
    """Gives each command with too few or too many words."""
    assert ended(tcmake, given=lines(line)) == (0, lines(f"bad wrong number of words: write {form}"), b"")


@pytest.mark.parametrize("line, reason", REASONS.items(), ids=[str(line)[2:-1] for line in REASONS])
def test_a_wrong_word_is_answered_by_its_values(tcmake: Path, line: bytes, reason: str) -> None:
    """Gives lines with an unknown command, or with a value that is no number or out of range."""
    assert ended(tcmake, given=lines(line)) == (0, lines(f"bad {reason}"), b"")


def test_all_bad_lines_of_a_stream_are_answered(tcmake: Path) -> None:
    """Gives all bad lines one after the other."""
    wanted = [*(f"bad wrong number of words: write {form}" for form in FORMS.values()), *(f"bad {reason}" for reason in REASONS.values())]
    assert ended(tcmake, given=lines(*FORMS, *REASONS)) == (0, lines(*wanted), b"")


STRICT = b"tcmake: a line is bad, and no later line was answered\n"
GOOD = lines("# bad", "unlock 42 1", "packet 5 0 bad0bad0", "explain 00")
GOOD_ANSWERS = lines(f"frame {UNLOCK}", "packet 1005c0000003bad0bad0", "refused short")


def test_without_strict_the_lines_after_a_bad_line_are_answered(tcmake: Path) -> None:
    """Gives good lines whose answers look bad, a bad line, and one more good line."""
    ran = ended(tcmake, given=GOOD + lines("octets 1 00", "unlock 42 1"))
    assert ran == (0, GOOD_ANSWERS + lines("bad no decoder", f"frame {UNLOCK}"), b"")


@pytest.mark.parametrize("words, given, answers", [
    (["--strict"], GOOD + lines("octets 1 00"), GOOD_ANSWERS + lines("bad no decoder")),
    (["--fecf", "--strict"], lines("explain 0"), lines("bad hex: HEX is two hexadecimal digits for each octet")),
    (["--strict"], bytes(1_000_000) + b"\n", lines("bad too long"))], ids=["no decoder", "hex", "too long"])
def test_with_strict_a_bad_line_is_the_last_that_is_answered(tcmake: Path, words: List[str], given: bytes, answers: bytes) -> None:
    """Gives a line that is bad for one of three reasons, and a good line after it."""
    assert ended(tcmake, *words, given=given + lines("unlock 42 1")) == (1, answers, STRICT)


def test_with_strict_good_lines_are_answered_to_their_end(tcmake: Path) -> None:
    """Gives a good line alone."""
    assert ended(tcmake, "--strict", given=lines("unlock 42 1")) == (0, lines(f"frame {UNLOCK}"), b"")


# --- Long lines ---

LARGE = "aa" * 65_536


def test_the_longest_packet_is_printed_whole(tcmake: Path) -> None:
    """Makes a packet of 65,542 octets."""
    assert ended(tcmake, given=lines(f"packet 5 0 {LARGE}")) == (0, lines(f"packet 1005c000ffff{LARGE}"), b"")


def test_the_frames_of_the_longest_packet_carry_it_whole(tcmake: Path) -> None:
    """Makes frames of up to 1,024 octets that carry a packet of 65,542 octets."""
    ran = ended(tcmake, given=lines(f"segments 42 1 0 0 1018 1005c000ffff{LARGE}"))
    octets = [line.removeprefix("frame ") for line in ran.out.decode().splitlines()]
    assert (ran.status, ran.error) == (0, b"")
    assert sorted(len(it) // 2 for it in octets) == [396, *[1024] * 64]
    assert "".join(it[12:] for it in octets) == f"1005c000ffff{LARGE}"


def test_a_line_that_is_too_long_is_bad_and_the_next_is_answered(tcmake: Path) -> None:
    """Gives a line of a million octets, and one without a line feed at the end of the stream."""
    assert ended(tcmake, given=b"#" * 1_000_000 + b"\nunlock 42 1") == (0, lines("bad too long", f"frame {UNLOCK}"), b"")


# --- Streams that fail ---

def test_a_folder_cannot_be_read(tcmake: Path) -> None:
    """Has the program read a folder."""
    assert ended(tcmake, given=TOP / "tools") == (1, b"", b"tcmake: cannot read\n")


@pytest.mark.parametrize("words", [[], ["--help"], ["--version"]], ids=["answer", "help", "version"])
def test_output_that_cannot_be_written_is_reported(tcmake: Path, words: List[str]) -> None:
    """Has the program write to a full device."""
    assert ended(tcmake, *words, given=lines("unlock 42 1"), to=FULL) == (1, b"", b"tcmake: cannot write\n")


# --- Command lines, version and help ---

@pytest.mark.parametrize("words", ["--scid 42", "more", "--fecf=yes", "0" * 1000], ids=lambda words: str(words)[:10])
def test_a_wrong_command_line_is_refused(tcmake: Path, words: str) -> None:
    """Gives options that there aren't, and words where there may be none."""
    ran = ended(tcmake, *words.split())
    assert (ran.status, ran.out) == (2, b"")
    assert ran.error


@pytest.mark.parametrize("words, place, shown", [(["--fecf", b"\xff"], 2, r"\xff"), ([b"w\xc3\n", "--help"], 1, r"w\xc3\n"),
                                                 (["--fecf", b"0" * 1000 + b"\x80"], 2, "0" * 1000 + r"\x80")], ids=["alone", "before help", "long"])
def test_a_word_that_is_not_utf_8_is_shown_in_full(tcmake: Path, words: List[Union[str, bytes]], place: int, shown: str) -> None:
    """Gives a word that isn't valid UTF-8. It is printed, however long it is, and before other words are judged."""
    assert ended(tcmake, *words) == (2, b"", f"tcmake: word {place} isn't valid UTF-8: {shown}\n".encode())


@pytest.mark.parametrize("word", ["--version", "-V"])
def test_the_version_is_that_of_the_source(tcmake: Path, word: str) -> None:
    """Gives both words for the version."""
    assert ended(tcmake, word) == (0, f"tcmake {version()}\n".encode(), b"")


@pytest.fixture(name="shown", scope="module")
def the_help(tcmake: Path) -> str:
    """Returns the help of the program."""
    ran = ended(tcmake, "--help")
    assert (ran.status, ran.error) == (0, b"")
    return ran.out.decode()


def test_the_help_lists_the_options(shown: str) -> None:
    """Looks for both options in the help."""
    assert "--fecf" in shown
    assert "--strict" in shown


def test_the_help_lists_each_command_that_the_source_reads(shown: str, stand_ins: bool) -> None:
    """Compares the commands in the help with those in the source. The help of programs that stand in lists none."""
    source = (TOP / "crates/tc_make/src/line.rt").read_text(encoding="utf-8")
    commands: List[str] = re.findall(r' if \*?command == b"([a-z]*)"', source)
    assert len(commands) == 16
    assert stand_ins or re.findall(r"^  ([a-z]+) [A-Z]", shown.partition("\nLines")[2].partition("\n  # ")[0], re.M) == commands


def test_the_help_lists_forms_limits_and_statuses(shown: str, stand_ins: bool) -> None:
    """Looks for each text in the help. That of programs that stand in is shorter."""
    assert stand_ins or [text for text in LISTED if text not in shown] == []


def test_the_example_of_the_help_works(tcmake: Path, shown: str, stand_ins: bool) -> None:
    """Runs the example in the help. The help of programs that stand in has none."""
    found = re.search(r"^Example:\n(.*)$", shown, re.M)
    assert found or stand_ins
    if found:
        ran = subprocess.run(["bash", "-c", f'tcmake() {{ "$0" "$@"; }}; {found[1]}', str(tcmake)], capture_output=True, check=False)
        assert (ran.returncode, ran.stdout, ran.stderr) == (0, b"frame 002a040c00c01005c0000000aa\n", b"")
