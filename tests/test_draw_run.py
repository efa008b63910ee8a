"""Shows that the pictures of tools/draw_run are those of their scripts and answers: the line, kind, channel and label of each mark, and V(R) and the
flags wherever a CLCW was printed. The scripts are those of examples/, a run with every event of the table in docs/reference/farm-1.md, and long ones.
Files that don't belong together are refused with the reason.
"""
from __future__ import annotations

import os
import shutil
import subprocess
import sys
import xml.etree.ElementTree as tree
from pathlib import Path
from typing import Callable, NamedTuple

import pytest

import pythons
from comparing import TOP, run

# pylint: disable=redefined-outer-name  # a test takes a fixture by its name
TOOL = TOP / "tools/draw_run"
SCRIPTS = sorted(TOP.glob("examples/*.tcs"))
NAMES = [script.stem for script in SCRIPTS]
TUTORIAL_PICTURE = TOP / "examples/two-segments.svg"
LOCKOUT, LOCKOUT_ANSWERS = TOP / "examples/lockout.tcs", TOP / "examples/lockout.out"
BITS = {"lockout": 0x2000, "wait": 0x1000, "retransmit": 0x0800}

# A run with every event of a frame, with a window of width 10 and a buffer for one data field. Each row has a line, its answer by the table in
# docs/reference/farm-1.md, the kind and the label of its mark, and V(R) and the flags after it.
EVERY_EVENT = [
    ("frame 002a040600c0aa", "frame 1 E1 accepted 1 queued 0 dropped 0 rest 0", "accepted", "E1", 1, ""),
    ("frame 002a040603c0aa", "frame 1 E3 accepted 0 queued 0 dropped 0 rest 0", "discarded", "E3", 1, "retransmit"),
    ("frame 002a040601c0aa", "frame 1 E2 accepted 0 queued 0 dropped 0 rest 0", "discarded", "E2", 1, "wait retransmit"),
    ("clcw 1", "clcw 1 01041801", "clcw", "CLCW", 1, "wait retransmit"),
    ("release 1", "release 1 queued 0 dropped 0 rest 1", "release", "release", 1, "retransmit"),
    ("frame 002a040600c0aa", "frame 1 E4 accepted 0 queued 0 dropped 0 rest 0", "discarded", "E4", 1, "retransmit"),
    ("frame 202a040600c0aa", "frame 1 E6 accepted 1 queued 0 dropped 0 rest 1", "accepted", "E6", 1, "retransmit"),
    ("frame 302a04070082004d", "frame 1 E8 accepted 0 queued 0 dropped 0 rest 0", "control", "E8", 77, ""),
    ("frame 102a040600c0aa", "frame 1 E9 accepted 0 queued 0 dropped 0 rest 0", "discarded", "E9", 77, ""),
    ("frame 002a04064dc0aa", "frame 1 E1 accepted 1 queued 0 dropped 0 rest 0", "accepted", "E1", 78, ""),
    ("frame 002a04066fc0aa", "frame 1 E5 accepted 0 queued 0 dropped 0 rest 0", "lockout", "E5", 78, "lockout"),
    ("frame 002a04066fc0aa", "frame 1 E5 accepted 0 queued 0 dropped 0 rest 0", "discarded", "E5", 78, "lockout"),
    ("frame 302a040700820005", "frame 1 E8 accepted 0 queued 0 dropped 0 rest 0", "control", "E8", 78, "lockout"),
    ("frame 302a04050000", "frame 1 E7 accepted 0 queued 0 dropped 0 rest 0", "control", "E7", 78, ""),
    ("frame 00", "refused short", "refused", "short", 78, ""),
]
# The FARM-B counter in this CLCW is 0 again after the four events that count: E6, E8, E8 and E7.
EVERY_EVENT_FINAL = "final 1 0104004e events 13 buffered 1\n"
# A run with a full buffer, lockout, and a release in lockout, which clears Wait and leaves Lockout set. Each row has a line, and the flags after
# it.
RELEASE_IN_LOCKOUT = [
    ("frame 002a040600c0aa", ""), ("frame 002a040601c0aa", "wait retransmit"), ("frame 002a04066fc0aa", "lockout wait retransmit"),
    ("release 1", "lockout retransmit"), ("clcw 1", "lockout retransmit"), ("frame 302a04050000", "")]
CHANNEL = "channel 1 10 1 0\n"


# --- Pictures ---

def draw(*words: str | Path) -> subprocess.CompletedProcess[bytes]:
    """Runs the tool with these words."""
    return subprocess.run([TOOL, *words], capture_output=True, stdin=subprocess.DEVNULL, check=False)


def picture_of(script: Path, printed: Path) -> bytes:
    """Returns the picture of a script and its answers, which must be drawn without a message."""
    drawn = draw(script, printed)
    assert (drawn.returncode, drawn.stderr) == (0, b"")
    return drawn.stdout


def parts(picture: bytes, kind: str) -> list[tree.Element]:
    """Returns the groups of a picture whose first class is `kind`."""
    return [each for each in tree.fromstring(picture).iter("{http://www.w3.org/2000/svg}g") if each.get("class", "").split(" ")[0] == kind]


def track(picture: bytes, channel: str, flag: str = "") -> list[int]:
    """Returns V(R) of a channel, or one of its flags, before the first operation and after each. The rows of the picture must fit together."""
    found = [each for each in parts(picture, "flag" if flag else "report")
             if (each.get("data-channel"), each.get("data-flag", "")) == (channel, flag)]
    rows = [[int(word) for word in each.get("data-values", "").split()] for each in found]
    # Each row begins with the value with which the one above ends.
    assert [above[-1:] for above in rows[:-1]] == [below[:1] for below in rows[1:]]
    return [value for place, row in enumerate(rows) for value in row[place > 0:]]


def flags_of(picture: bytes) -> dict[str, list[int]]:
    """Returns the flags of channel 1 before the first operation and after each."""
    return {flag: track(picture, "1", flag) for flag in BITS}


def flags_wanted(rows: list[str]) -> dict[str, list[int]]:
    """Returns what `flags_of` must return for rows that name the flags that are set after each operation."""
    return {flag: [0, *(int(flag in row.split()) for row in rows)] for flag in BITS}


# --- The scripts of examples/ ---

class Example(NamedTuple):
    """A script of examples/, with its picture."""

    script: Path
    picture: bytes
    # The words of the lines that set up, and those of the operations, each with the number of its line.
    setups: list[list[str]]
    operations: list[tuple[int, list[str]]]
    # The words of each line that was printed.
    answers: list[list[str]]


@pytest.fixture(scope="module", params=SCRIPTS, ids=NAMES)
def example(request: pytest.FixtureRequest) -> Example:
    """Draws a script of examples/, for one test each."""
    script: Path = request.param
    printed = script.with_suffix(".out")
    lines = [(place, line.split()) for place, line in enumerate(script.read_text(encoding="utf-8").split("\n"), 1)]
    operations = [(place, words) for place, words in lines if words and words[0] in ("frame", "release", "take", "unit", "clcw")]
    setups = [words for _, words in lines if words and words[0] in ("channel", "queue", "map")]
    answers = [line.split() for line in printed.read_text(encoding="utf-8").splitlines()]
    return Example(script, picture_of(script, printed), setups, operations, answers)


def expected_mark(line: int, words: list[str], answer: list[str], locked: set[str]) -> tuple[str, ...]:
    """Returns the line, kind, channel and label of the mark for a line with these words and this answer. Keeps the channels in lockout in
    `locked`."""
    if answer[0] == "refused":
        return str(line), "refused", "" if words[0] == "frame" else words[1], " ".join(answer[1:])
    if words[0] != "frame":
        return str(line), words[0], words[1], "CLCW" if words[0] == "clcw" else words[0]
    channel, event = answer[1], answer[2]
    kind = "control" if event in ("E7", "E8") else "accepted" if answer[4] == "1" else "discarded"
    if event == "E5" and channel not in locked:
        locked.add(channel)
        kind = "lockout"
    locked -= {channel} if event == "E7" else set()
    return str(line), kind, channel, event


def test_two_pictures_of_an_example_are_the_same(example: Example) -> None:
    """The picture is drawn anew, and compared with the first one."""
    assert picture_of(example.script, example.script.with_suffix(".out")) == example.picture


def test_an_example_has_a_mark_for_each_operation(example: Example) -> None:
    """The line, kind, channel and label of a mark follow from the script and its answers."""
    locked: set[str] = set()
    wanted = [expected_mark(place, words, answer, locked) for (place, words), answer in zip(example.operations, example.answers)]
    marks = [(each.get("data-line"), each.get("class", "").split(" ")[-1], each.get("data-channel", ""), each.get("data-label"))
             for each in parts(example.picture, "mark")]
    assert wanted and sorted(map(str, marks)) == sorted(map(str, wanted))


def test_v_r_of_an_example_begins_as_set_up_and_rises_with_accepted_frames(example: Example) -> None:
    """It rises by 1 after each Type-AD frame that its channel accepts. In a run with a Set V(R) only its beginning is compared."""
    count, plain = len(example.operations), not any(answer[0] == "frame" and answer[2] == "E8" for answer in example.answers)
    for channel, first in [(words[1], int(words[4])) for words in example.setups if words[0] == "channel"]:
        values = track(example.picture, channel)
        rises = [answer[2:5:2] == ["E1", "1"] and answer[1] == channel for answer in example.answers[:count]]
        assert (len(values), values[0]) == (count + 1, first)
        assert not plain or [(after - before) % 256 for before, after in zip(values, values[1:])] == rises


def test_v_r_and_flags_of_an_example_are_those_of_each_clcw(example: Example) -> None:
    """A CLCW is printed for a line `clcw`, and for each channel at the end."""
    count = len(example.operations)
    reported = [(min(place, count - 1) + 1, answer[1], int(answer[2], 16))
                for place, answer in enumerate(example.answers) if answer[0] in ("clcw", "final")]
    drawn = [(at, channel, [track(example.picture, channel, flag)[at] for flag in ("", *BITS)]) for at, channel, _ in reported]
    assert reported
    assert drawn == [(at, channel, [word & 255, *(int(word & bit != 0) for bit in BITS.values())]) for at, channel, word in reported]


def test_the_picture_of_the_tutorial_is_that_of_the_tool() -> None:
    """The tree has it beside its script."""
    assert TUTORIAL_PICTURE.read_bytes() == picture_of(TUTORIAL_PICTURE.with_suffix(".tcs"), TUTORIAL_PICTURE.with_suffix(".out"))


# --- Runs by the table of FARM-1 ---

EVERY_EVENT_SCRIPT = CHANNEL + "".join(f"{row[0]}\n" for row in EVERY_EVENT)
EVERY_EVENT_ANSWERS = "".join(f"{row[1]}\n" for row in EVERY_EVENT) + EVERY_EVENT_FINAL


@pytest.fixture(scope="module")
def every_event(tmp_path_factory: pytest.TempPathFactory) -> bytes:
    """Returns the picture of the run with every event."""
    script = tmp_path_factory.mktemp("every") / "every.tcs"
    script.write_text(EVERY_EVENT_SCRIPT, encoding="ascii")
    script.with_suffix(".out").write_text(EVERY_EVENT_ANSWERS, encoding="ascii")
    return picture_of(script, script.with_suffix(".out"))


def test_tcrx_answers_every_event_by_the_table(tcrx: Path) -> None:
    """The next tests draw these answers."""
    assert run(tcrx, "run", "--scid", "42", given=EVERY_EVENT_SCRIPT).stdout == EVERY_EVENT_ANSWERS


def test_every_event_has_its_mark_and_shows_its_number(every_event: bytes) -> None:
    """The number is N(S), which only a Type-AD frame has."""
    numbers = [str(int(row[0][14:16], 16)) if row[0].startswith("frame 00") and len(row[0]) > 8 else None for row in EVERY_EVENT]
    wanted = [(row[2], row[3], number) for row, number in zip(EVERY_EVENT, numbers)]
    marks = [(each.get("class", "").split(" ")[-1], each.get("data-label"), each.get("data-sequence")) for each in parts(every_event, "mark")]
    assert sorted(map(str, marks)) == sorted(map(str, wanted))
    assert not [number for number in numbers if number and f">N(S) {number}<".encode() not in every_event]


def test_every_event_is_followed_by_v_r_and_flags_of_the_table(every_event: bytes) -> None:
    """The picture also has those before the first event."""
    assert track(every_event, "1") == [0, *(row[4] for row in EVERY_EVENT)]
    assert flags_of(every_event) == flags_wanted([row[5] for row in EVERY_EVENT])


def test_a_release_in_lockout_clears_wait_alone(tcrx: Path, tmp_path: Path) -> None:
    """The picture of the answers of tcrx has the flags of the table."""
    script, printed = tmp_path / "locked.tcs", tmp_path / "locked.out"
    script.write_text(CHANNEL + "".join(f"{row[0]}\n" for row in RELEASE_IN_LOCKOUT), encoding="ascii")
    ran = run(tcrx, "run", "--scid", "42", given=script.read_text(encoding="ascii"))
    assert (ran.returncode, ran.stderr) == (0, "")
    printed.write_text(ran.stdout, encoding="ascii")
    assert flags_of(picture_of(script, printed)) == flags_wanted([row[1] for row in RELEASE_IN_LOCKOUT])


# --- Sizes, titles, and versions of Python ---

@pytest.fixture
def draw_long(tmp_path: Path) -> Callable[[int], subprocess.CompletedProcess[bytes]]:
    """Returns a function that draws a run of so many operations."""
    def drawn(count: int) -> subprocess.CompletedProcess[bytes]:
        script, printed = tmp_path / "long.tcs", tmp_path / "long.out"
        script.write_text(CHANNEL + "clcw 1\n" * count, encoding="ascii")
        printed.write_text("clcw 1 01040000\n" * count + "final 1 01040000 events 0 buffered 0\n", encoding="ascii")
        return draw(script, printed)
    return drawn


@pytest.mark.parametrize("count", [16, 17, 2000])
def test_operations_are_drawn_in_rows_of_16(draw_long: Callable[[int], subprocess.CompletedProcess[bytes]], count: int) -> None:
    """The picture is as large as its rows, and no two numbers of lines have the same place."""
    drawn = draw_long(count).stdout
    picture, rows = tree.fromstring(drawn), -(-count // 16)
    width, height = int(picture.get("width", "0")), int(picture.get("height", "0"))
    assert (len(parts(drawn, "mark")), len(parts(drawn, "report"))) == (count, rows)
    assert width < 1200 and 150 * rows < height < 220 * rows + 160
    assert track(drawn, "1") == [0] * (count + 1)
    places = {(text.get("x"), text.get("y")) for text in picture.iter("{http://www.w3.org/2000/svg}text") if text.get("class") == "number"}
    assert len(places) == count


def test_at_most_2000_operations_are_drawn(draw_long: Callable[[int], subprocess.CompletedProcess[bytes]]) -> None:
    """A run of one operation more is refused."""
    drawn = draw_long(2001)
    assert drawn.returncode == 1 and b"at most 2000 are drawn" in drawn.stderr


def test_a_title_may_have_any_name(tmp_path: Path) -> None:
    """The name of the script has octets that aren't in XML, and characters that XML escapes. The picture is otherwise the same."""
    script, odd = TUTORIAL_PICTURE.with_suffix(".tcs"), tmp_path / os.fsdecode(b"odd \xff\x01<&>.tcs")
    shutil.copy(script, odd)
    picture, title = TUTORIAL_PICTURE.read_bytes(), f"A run of {script.name}".encode()
    assert picture.count(title + b"<") == 2
    assert picture_of(odd, script.with_suffix(".out")) == picture.replace(title, b"A run of odd ??&lt;&amp;&gt;.tcs")


OLD = ("3.8", "3.7", "3.6")
# The command of the Python that runs the tests, and those of other versions that are here.
PYTHONS = {name: command for name, command in [("this version", sys.executable), *((name, pythons.find(name)) for name in ("3.9", *OLD))] if command}


@pytest.mark.parametrize("version", PYTHONS)
def test_python_draws_from_3_9_on(version: str, tmp_path: Path) -> None:
    """The picture is the same by each version. An older Python says which one is needed."""
    script, picture = TUTORIAL_PICTURE.with_suffix(".tcs"), tmp_path / "picture"
    ran = subprocess.run([PYTHONS[version], TOOL, script, script.with_suffix(".out"), "--output", picture], capture_output=True, check=False)
    if version in OLD:
        assert (ran.returncode, picture.exists(), b"Python 3.9 or later is needed" in ran.stderr) == (1, False, True)
    else:
        assert (ran.returncode, picture.read_bytes()) == (0, TUTORIAL_PICTURE.read_bytes())


# --- Refusals ---

def refusal(*words: str | Path) -> str:
    """Returns the error of the tool, which must end with status 1 and print no picture."""
    ended = draw(*words)
    assert (ended.returncode, ended.stdout, ended.stderr[:10]) == (1, b"", b"draw_run: ")
    return ended.stderr.decode()


@pytest.mark.parametrize("script", SCRIPTS, ids=NAMES)
def test_answers_to_another_script_are_refused(script: Path) -> None:
    """The answers are those of each other script of examples/."""
    assert all(refusal(script, other.with_suffix(".out")) for other in SCRIPTS if other != script)


ANSWERS = LOCKOUT_ANSWERS.read_text(encoding="utf-8")
REPORT = ANSWERS.splitlines()[-1]
WORD = REPORT.split()[2]
OTHER_WORD = f"{int(WORD, 16) ^ 0x200:08x}"
WRONG = {
    "another CLCW": (ANSWERS.replace("01042000", "01040000"), "isn't what the events before it lead to"),
    "half a line": (ANSWERS[:-1], "ends within a line"),
    "another V(R) at the end": (ANSWERS.replace(REPORT, REPORT.replace(WORD, "01040009")), "the final report: the CLCW 01040009 isn't"),
    "another FARM-B counter at the end": (ANSWERS.replace(REPORT, REPORT.replace(WORD, OTHER_WORD)), "the final report: the CLCW"),
    "another number of events": (ANSWERS.replace(REPORT, REPORT.replace(" buffered ", "1 buffered ")), "the final report: channel 1 has"),
    "another number in the buffer": (ANSWERS.replace(REPORT, REPORT + "7"), "the final report: channel 1 has"),
    "a report of another channel": (ANSWERS.replace("final 1", "final 2"), "isn't that of the script's channels"),
    "a line after the report": (ANSWERS + "more\n", "none of its lines"),
    "an answer too few": (ANSWERS.replace("clcw 1 01042000\n", ""), "answers were printed"),
    "an event that is none": (ANSWERS.replace("E5", "E0"), "the answer in its place"),
}


@pytest.mark.parametrize("answers, reason", WRONG.values(), ids=WRONG)
def test_changed_answers_are_refused(answers: str, reason: str, tmp_path: Path) -> None:
    """They are the answers of an example, with one change."""
    (tmp_path / "made").write_text(answers, encoding="utf-8")
    assert reason in refusal(LOCKOUT, tmp_path / "made")


def test_a_script_that_is_not_there_is_refused(tmp_path: Path) -> None:
    """The message has its name."""
    assert "missing can't be read: No such file" in refusal(tmp_path / "missing", LOCKOUT_ANSWERS)


def test_a_folder_is_refused(tmp_path: Path) -> None:
    """The command line has it in place of the answers."""
    assert "can't be read: Is a directory" in refusal(LOCKOUT, tmp_path)


def test_a_picture_that_can_not_be_written_is_refused(tmp_path: Path) -> None:
    """The folder of the picture isn't there."""
    assert "can't be written" in refusal("--output", tmp_path / "missing/picture", LOCKOUT, LOCKOUT_ANSWERS)


def test_a_script_without_a_channel_is_refused(tmp_path: Path) -> None:
    """Its only line is for a channel that isn't set up."""
    (tmp_path / "made").write_text("clcw 1\n", encoding="ascii")
    assert "no channel" in refusal(tmp_path / "made", LOCKOUT_ANSWERS)


def test_no_picture_is_written_over_the_answers(tmp_path: Path) -> None:
    """The answers stay as they are."""
    made = tmp_path / "made"
    made.write_text(ANSWERS, encoding="utf-8")
    assert "would be written over" in refusal("--output", made, LOCKOUT, made)
    assert made.read_text(encoding="utf-8") == ANSWERS


@pytest.mark.parametrize("words", [[], [LOCKOUT], ["--more", LOCKOUT, LOCKOUT_ANSWERS]], ids=["no words", "no answers", "an unknown option"])
def test_a_wrong_command_line_ends_with_status_2(words: list[str | Path]) -> None:
    """Standard error says why."""
    ended = draw(*words)
    assert (ended.returncode, ended.stdout, bool(ended.stderr)) == (2, b"", True)


# --- What is drawn otherwise ---

def test_help_names_the_two_files() -> None:
    """The text is printed on standard output."""
    helped = draw("--help")
    assert (helped.returncode, helped.stderr, b"SCRIPT PRINTED" in helped.stdout) == (0, b"", True)


@pytest.fixture
def ended_early(tmp_path: Path) -> Path:
    """Returns a script whose second operation is bad, so that only the answer to the first was printed. Its answers are beside it."""
    script = tmp_path / "bad.tcs"
    script.write_text(f"{CHANNEL}clcw 1\nframe 0g\nclcw 1\n", encoding="ascii")
    script.with_suffix(".out").write_text("clcw 1 01040000\n", encoding="ascii")
    return script


def test_a_run_that_ended_early_is_drawn_up_to_its_fault(ended_early: Path) -> None:
    """The picture says that the run ended with a fault."""
    picture = picture_of(ended_early, ended_early.with_suffix(".out"))
    assert b"ended with a fault" in picture and len(parts(picture, "mark")) == 1


def test_the_picture_can_be_written_to_a_file(ended_early: Path, tmp_path: Path) -> None:
    """It is the picture that is printed without this option."""
    printed = ended_early.with_suffix(".out")
    ended = draw(ended_early, printed, "--output", tmp_path / "picture")
    assert (ended.returncode, ended.stdout, (tmp_path / "picture").read_bytes()) == (0, b"", picture_of(ended_early, printed))
