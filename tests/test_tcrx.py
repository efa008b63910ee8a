"""The program tcrx: its answers to the examples, scripts that end early, the hint on frame error control fields, command lines, help, and streams
that fail. Each test compares the exit status, standard output and standard error with the right ones."""
from __future__ import annotations

import binascii
import re
import subprocess
from pathlib import Path
from typing import Dict, List, Tuple, Union

import pytest
from comparing import TOP
from program_parts import FULL, Ended, commands, ended, version

pytestmark = pytest.mark.quick

GIVEN = ("--scid", "42")
EXAMPLES = sorted((TOP / "examples").glob("*.tcs"))
TWO_CHANNELS = TOP / "examples/two-channels.tcs"
LONGEST_SCRIPT = 1_048_576
# The lines and the limits that the help of the proved program lists.
LISTED = ("channel VC WIDTH BUFFER VR [plain] ", "queue VC APID CAPACITY ", "frame HEX ", "release VC ", "take VC APID ", "map VC MAP CAPACITY ",
          "unit VC MAP ", "clcw VC ", "0 to 63", "2 to 254", "1 to 64", "0 to 255", "0 to 2046", "1 to 256", "1048576", "  0   ", "  1   ",
          "  2   ", "tcrx run --scid 42")


def pytest_generate_tests(metafunc: pytest.Metafunc) -> None:
    """Makes a test that takes `command` one test for each command of the program."""
    if "command" in metafunc.fixturenames:
        metafunc.parametrize("command", commands(metafunc.config))


def printed(command: str, answers: bytes, report: bytes) -> bytes:
    """Returns what a command prints for a script that it runs to its end. Only `run` prints the answers to the lines."""
    return answers + report if command == "run" else report


def split_stored(script: Path) -> Tuple[bytes, bytes]:
    """Returns the stored answers to the lines of an example, and its stored report."""
    lines = script.with_suffix(".out").read_bytes().splitlines(keepends=True)
    report = [line for line in lines if re.match(rb"(final|queue|map) ", line)]
    assert lines[-len(report):] == report
    return b"".join(lines[:-len(report)]), b"".join(report)


# --- Scripts ---

@pytest.mark.parametrize("example", EXAMPLES, ids=[path.stem for path in EXAMPLES])
def test_an_example_gets_its_answers(tcrx: Path, command: str, example: Path) -> None:
    """Runs an example from its file."""
    assert ended(tcrx, command, *GIVEN, given=example) == (0, printed(command, *split_stored(example)), b"")


def test_an_empty_script_prints_nothing(tcrx: Path, command: str) -> None:
    """Runs a script without a line."""
    assert ended(tcrx, command, *GIVEN) == (0, b"", b"")


def test_a_channel_after_an_operation_is_too_late(tcrx: Path, command: str) -> None:
    """Runs a script that sets up a channel after its first operation."""
    script = b"channel 1 10 1 0\nclcw 1\nchannel 2 10 1 0\n"
    assert ended(tcrx, command, *GIVEN, given=script) == (1, printed(command, b"clcw 1 01040000\n", b""), b"line 3: too late\n")


def test_a_bad_line_ends_a_script_without_a_report(tcrx: Path, command: str) -> None:
    """Runs an example with a bad line at its end."""
    answers, _ = split_stored(TWO_CHANNELS)
    script = TWO_CHANNELS.read_bytes() + b"frame 0g\n"
    assert ended(tcrx, command, *GIVEN, given=script) == (1, printed(command, answers, b""), b"line 13: bad hex\n")


def test_a_script_with_an_octet_too_many_is_too_long(tcrx: Path, command: str) -> None:
    """Runs a comment that is longer than a script may be."""
    assert ended(tcrx, command, *GIVEN, given=b"#" * (LONGEST_SCRIPT + 1)) == (1, b"", b"line 0: too long\n")


@pytest.mark.parametrize("scid", [0, 1023])
def test_only_frames_for_the_given_spacecraft_are_accepted(tcrx: Path, command: str, scid: int) -> None:
    """Hands over a frame for the spacecraft of the command line, and one for another spacecraft."""
    script = f"channel 1 10 1 0\nframe {scid:04x}040c00c01005c0000000aa\nframe {1023 - scid:04x}040c00c01005c0000000aa\n"
    answers = b"frame 1 E1 accepted 1 queued 0 dropped 0 rest 0\nrefused spacecraft\n"
    wanted = printed(command, answers, b"final 1 01040001 events 1 buffered 1\n")
    assert ended(tcrx, command, f"--scid={scid}", given=script.encode()) == (0, wanted, b"")


# --- The hint on frame error control fields ---

HINT = b"tcrx: each frame ends with a frame error control field, which tcrx treats as data; tclive --fecf checks and removes it\n"
CHANNEL = b"channel 1 10 2 0\n"
ACCEPTED, OBEYED = (f"frame 1 {event} queued 0 dropped 0 rest 0\n".encode() for event in ("E1 accepted 1", "E9 accepted 0"))
# A line with an Unlock and its field, and one with a Type-AD frame and its field.
UNLOCK, CARRIER = b"frame\t302A0407000020e7 \r\n", b"frame 002a040e00c01005c0000000aa6b6e\n"
SPACES = b" " * 5000
WRONG_FIELD, NO_FIELD = b"frame 002a040e00c01005c0000000aa6b6f\n", b"frame 002a040c00c01005c0000000aa\n"


def longest_frame() -> bytes:
    """Returns a line with the longest frame and its field."""
    octets = bytes.fromhex("202a07ff00c0") + b"\xff" * 1016
    return b"frame " + (octets + binascii.crc_hqx(octets, 0xffff).to_bytes(2, "big")).hex().encode() + b"\n"


def final(number: int, events: int, buffered: int) -> bytes:
    """Returns the report on channel 1, with this V(R)."""
    return f"final 1 010400{number:02x} events {events} buffered {buffered}\n".encode()


# Scripts after the line of the channel, each with its answers and its report. For the answers a field is data like other octets.
HINTED: Dict[str, Tuple[bytes, bytes, bytes]] = {
    "two frames and a long comment": (UNLOCK + b"# " + b"0" * 5000 + b"\n" + CARRIER, OBEYED + ACCEPTED, final(1, 2, 1)),
    "no line feed at the end": (CARRIER[:-1], ACCEPTED, final(1, 1, 1)),
    "a frame after many spaces": (SPACES + b" " + CARRIER, ACCEPTED, final(1, 1, 1)),
    "the longest frame": (longest_frame(), b"frame 1 E6 accepted 1 queued 0 dropped 0 rest 1\n", b"final 1 01040200 events 1 buffered 0\n"),
}
UNHINTED: Dict[str, Tuple[bytes, bytes, bytes]] = {
    "no frame": (b"", b"", final(0, 0, 0)),
    "a wrong field first": (WRONG_FIELD + UNLOCK, ACCEPTED + OBEYED, final(1, 2, 1)),
    "a wrong field last": (UNLOCK + WRONG_FIELD[:-1], OBEYED + ACCEPTED, final(1, 2, 1)),
    "no field first": (NO_FIELD + UNLOCK, ACCEPTED + OBEYED, final(1, 2, 1)),
    "no field last": (UNLOCK + NO_FIELD[:-1], OBEYED + ACCEPTED, final(1, 2, 1)),
    "a short frame": (CARRIER + b"frame ffff\n", ACCEPTED + b"refused short\n", final(1, 1, 1)),
    "a frame that is far too long": (CARRIER + b"frame " + b"0" * 5000 + b"\n", ACCEPTED + b"refused length\n", final(1, 1, 1)),
    "no field after many spaces": (CARRIER + SPACES + b" frame 002a040c01c01005c0000000aa\n", ACCEPTED * 2, final(2, 2, 2)),
    "octets after the field": (b"frame 302a0407000020e70000\n", OBEYED, final(0, 1, 0)),
}


@pytest.mark.parametrize("script, answers, report", HINTED.values(), ids=HINTED)
def test_there_is_a_hint_if_each_frame_ends_with_its_field(tcrx: Path, command: str, script: bytes, answers: bytes, report: bytes) -> None:
    """Hands over frames that are complete and end with the check sum of their octets."""
    assert ended(tcrx, command, *GIVEN, given=CHANNEL + script) == (0, printed(command, answers, report), HINT)


@pytest.mark.parametrize("script, answers, report", UNHINTED.values(), ids=UNHINTED)
def test_there_is_no_hint_if_a_frame_does_not_end_with_its_field(tcrx: Path, command: str, script: bytes, answers: bytes, report: bytes) -> None:
    """Runs scripts in which a frame ends in another way, or which have no frame."""
    assert ended(tcrx, command, *GIVEN, given=CHANNEL + script) == (0, printed(command, answers, report), b"")


def test_a_script_that_ends_early_has_no_hint(tcrx: Path, command: str) -> None:
    """Runs a frame with its field, and then a bad line. Standard error has only the fault."""
    ran = ended(tcrx, command, *GIVEN, given=CHANNEL + CARRIER + b"frame 0g\n")
    assert ran == (1, printed(command, ACCEPTED, b""), b"line 3: bad hex\n")


def test_a_hint_that_cannot_be_written_is_no_failure(tcrx: Path, command: str) -> None:
    """Hands over a frame with its field, with a full device as standard error."""
    assert ended(tcrx, command, *GIVEN, given=CHANNEL + CARRIER, errors_to=FULL) == (0, printed(command, ACCEPTED, final(1, 1, 1)), b"")


# --- Command lines ---

def said_of(ran: Ended) -> str:
    """Returns the text on standard error of a program that must have refused its command line."""
    assert (ran.status, ran.out) == (2, b"")
    assert ran.error
    return ran.error.decode()


REFUSED = ["", "run", "run --scid 1024", "run --scid -1", "run --scid 42 more.tcs", "run --help=yes", "parallel", "parallel --scid 1024",
           "walk --scid 1", "rnu --scid 42", "0" * 1000]


@pytest.mark.parametrize("words", REFUSED, ids=[words[:22] or "nothing" for words in REFUSED])
def test_a_wrong_command_line_is_refused(tcrx: Path, words: str) -> None:
    """Gives unknown commands, and options that are missing or wrong."""
    said_of(ended(tcrx, *words.split()))


def test_an_empty_word_is_refused(tcrx: Path) -> None:
    """Gives one word, which is empty."""
    said_of(ended(tcrx, ""))


def test_a_file_as_a_word_gets_the_hint_that_a_script_is_read_from_standard_input(tcrx: Path, stand_ins: bool) -> None:
    """Gives the name of a file as a word."""
    said = said_of(ended(tcrx, "run", *GIVEN, "more.tcs"))
    assert "tcrx run --scid 42 < FILE" in said or (stand_ins and "tcrx run --scid N < SCRIPT" in said)


def test_an_unknown_command_gets_no_hint(tcrx: Path) -> None:
    """Gives a word that is like no command. There is no hint on standard input, and no command is suggested."""
    said = said_of(ended(tcrx, "walk", "--scid", "1"))
    assert "< FILE" not in said
    assert "did you mean" not in said


def test_a_command_with_a_slip_gets_the_right_one_suggested(tcrx: Path, stand_ins: bool) -> None:
    """Gives a command with two letters exchanged. Programs that stand in suggest nothing."""
    said = said_of(ended(tcrx, "rnu", *GIVEN))
    assert stand_ins or "tcrx: did you mean run?" in said


@pytest.mark.parametrize("words, place, shown", [(["run", "--scid", b"\xff"], 3, r"\xff"), ([b"w\xc3\n", "--help"], 1, r"w\xc3\n"),
                                                 (["run", b"0" * 1000 + b"\x80"], 2, "0" * 1000 + r"\x80")], ids=["alone", "before help", "long"])
def test_a_word_that_is_not_utf_8_is_shown_in_full(tcrx: Path, words: List[Union[str, bytes]], place: int, shown: str) -> None:
    """Gives a word that isn't valid UTF-8. It is printed, however long it is, and before other words are judged."""
    assert ended(tcrx, *words) == (2, b"", f"tcrx: word {place} isn't valid UTF-8: {shown}\n".encode())


# --- Version and help ---

@pytest.mark.parametrize("word", ["--version", "-V"])
def test_the_version_is_that_of_the_source(tcrx: Path, word: str) -> None:
    """Gives both words for the version."""
    assert ended(tcrx, word) == (0, f"tcrx {version()}\n".encode(), b"")


def help_of(program: Path, *words: str) -> str:
    """Returns the help that a program prints."""
    ran = ended(program, *words, "--help")
    assert (ran.status, ran.error) == (0, b"")
    return ran.out.decode()


@pytest.mark.parametrize("word", ["run", "parallel"])
def test_the_help_of_a_command_has_its_option(tcrx: Path, stand_ins: bool, word: str) -> None:
    """Reads the help of each command. That of the proved program also has the range of the spacecraft id."""
    shown = help_of(tcrx, word)
    assert "--scid " in shown
    assert stand_ins or "--scid <N>  The spacecraft id, from 0 to 1023" in shown


def test_the_help_lists_lines_limits_and_statuses(tcrx: Path, stand_ins: bool) -> None:
    """Reads the whole help. That of programs that stand in is shorter."""
    shown = help_of(tcrx)
    assert stand_ins or [text for text in LISTED if text not in shown] == []


def test_the_example_of_the_help_works(tcrx: Path, stand_ins: bool) -> None:
    """Runs the example in the help. The help of programs that stand in has none."""
    found = re.search(r"^Example:\n(.*)$", help_of(tcrx), re.M)
    assert found or stand_ins
    if found:
        ran = subprocess.run(["bash", "-c", f'tcrx() {{ "$0" "$@"; }}; {found[1]}', str(tcrx)], capture_output=True, check=False)
        assert (ran.returncode, ran.stdout, ran.stderr) == (0, ACCEPTED + final(1, 1, 1), b"")


# --- Streams that fail ---

def test_a_folder_cannot_be_read(tcrx: Path, command: str) -> None:
    """Has the program read a folder."""
    assert ended(tcrx, command, *GIVEN, given=TOP / "examples") == (1, b"", b"line 0: cannot read\n")


def test_answers_that_cannot_be_written_are_reported(tcrx: Path, command: str) -> None:
    """Has the program write its answers to a full device."""
    assert ended(tcrx, command, *GIVEN, given=TWO_CHANNELS, to=FULL) == (1, b"", b"line 0: cannot write\n")


@pytest.mark.parametrize("word", ["--help", "--version"])
def test_help_and_version_that_cannot_be_written_are_reported(tcrx: Path, word: str) -> None:
    """Has the program write its help and its version to a full device."""
    assert ended(tcrx, word, to=FULL) == (1, b"", b"tcrx: cannot write\n")


def test_help_of_a_command_that_cannot_be_written_is_reported(tcrx: Path, command: str) -> None:
    """Has the program write the help of each command to a full device."""
    assert ended(tcrx, command, "--help", to=FULL) == (1, b"", b"tcrx: cannot write\n")


def test_a_refusal_that_cannot_be_written_keeps_its_status(tcrx: Path) -> None:
    """Gives an unknown command, with a full device as standard error."""
    assert ended(tcrx, "walk", errors_to=FULL) == (2, b"", b"")
