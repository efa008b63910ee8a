"""The program tcrx over scripts of a mebibyte, the longest that it takes. The whole output of `run` and of `parallel` must be that of the model
(checks/model.py), and the memory that they take must be what docs/explanation/memory.md says."""
from __future__ import annotations

import re
import subprocess
from pathlib import Path
from typing import Callable, Dict, Iterator, List, NamedTuple, Union

import pytest
from comparing import TOP
from model import LONGEST_SCRIPT, perform
from program_parts import commands

SPACECRAFT, APPLICATION = 42, 5
# The longest unit that only packets of the least length fill has 9,363 packets of 7 octets. A frame carries 1,018 octets of it.
APPLICATIONS, PACKETS, SHARE = 2047, 9_363, 1_018
# The seconds that a run may take.
GENEROUS = 60


class Script(NamedTuple):
    """A script, with the answers and the report that the model prints for it."""

    text: bytes
    answers: bytes
    report: bytes


def frame(vcid: int, number: int, size: int) -> str:
    """Returns a Type-AD frame of `size` octets with one unsegmented packet, as hexadecimal digits."""
    data = bytes(size - 12)
    packet = bytes([0x10, APPLICATION, 0xC0, 0]) + (len(data) - 1).to_bytes(2, "big") + data
    header = bytes([SPACECRAFT >> 8, SPACECRAFT & 255, vcid << 2 | size - 1 >> 8, size - 1 & 255, number])
    return (header + b"\xc0" + packet).hex()


def octets_of(lines: List[str]) -> int:
    """Returns how many octets lines have in a script."""
    return sum(len(line) + 1 for line in lines)


def rounds_of(vcids: List[int], size: int) -> List[str]:
    """Returns lines that set channels up, and rounds of a frame, its release and its take on each channel in turn. Adds rounds up to the length of
    the longest script."""
    lines = [line for v in vcids for line in (f"channel {v} 10 64 0", f"queue {v} {APPLICATION} 256")]
    octets, rounds = octets_of(lines), 0
    while True:
        vcid, number = vcids[rounds % len(vcids)], rounds // len(vcids) % 256
        more = [f"frame {frame(vcid, number, size)}", f"release {vcid}", f"take {vcid} {APPLICATION}"]
        octets += octets_of(more)
        if octets > LONGEST_SCRIPT:
            return lines
        rounds += 1
        lines += more


def queue_lines() -> List[str]:
    """Returns lines for channels with a queue for each application, up to the length of the longest script. No line is an operation."""
    every = (f"channel {vcid} 10 64 0" if apid < 0 else f"queue {vcid} {apid} 1" for vcid in range(64) for apid in range(-1, 2047))
    lines: List[str] = []
    octets = 0
    for line in every:
        octets += len(line) + 1
        if octets > LONGEST_SCRIPT:
            break
        lines.append(line)
    return lines


def segments() -> Iterator[str]:
    """Yields the lines of Type-BD frames that carry the longest unit of packets on channel 1, MAP 0. Its packets are for the applications in
    turn."""
    unit = b"".join(bytes([0x10 | apid >> 8, apid & 255, 0xC0, 0, 0, 0, 0])
                    for apid in (place % APPLICATIONS for place in range(PACKETS)))
    shares = [unit[start:start + SHARE] for start in range(0, len(unit), SHARE)]
    for place, share in enumerate(shares):
        part = 0x40 if place == 0 else 0x80 if place == len(shares) - 1 else 0
        size = len(share) + 6
        header = bytes([0x20 | SPACECRAFT >> 8, SPACECRAFT & 255, 1 << 2 | size - 1 >> 8, size - 1 & 255, 0, part])
        yield "frame " + (header + share).hex()


def long_units() -> List[str]:
    """Returns lines for a channel with a queue for each application, and for as many of the longest units as fit. The queues have room for all
    packets of the first two units. Later units fill the queues."""
    lines, unit = ["channel 1 10 1 0"] + [f"queue 1 {apid} 10" for apid in range(APPLICATIONS)], list(segments())
    return lines + unit * ((LONGEST_SCRIPT - octets_of(lines)) // octets_of(unit))


SCRIPTS: Dict[str, Callable[[], List[str]]] = {
    "frames of 13 octets": lambda: rounds_of([1], 13),
    "frames of 1,024 octets": lambda: rounds_of([1], 1024),
    "frames of 13 octets on four channels": lambda: rounds_of([1, 2, 3, 4], 13),
    "frames of 13 octets on 64 channels": lambda: rounds_of(list(range(64)), 13),
    "queue lines": queue_lines,
    "units of 9,363 packets for 2,047 queues": long_units,
}


def text(lines: List[str]) -> bytes:
    """Returns the text of lines."""
    return "".join(line + "\n" for line in lines).encode()


@pytest.fixture(name="script", scope="module", params=SCRIPTS.values(), ids=list(SCRIPTS))
def large_script(request: pytest.FixtureRequest) -> Script:
    """Returns a large script, and what the model prints for it."""
    lines = text(request.param())
    outcome = perform(SPACECRAFT, lines)
    size = len(lines)
    assert 900_000 < size <= LONGEST_SCRIPT
    return Script(lines, text(outcome.answers), text(outcome.report))


def pytest_generate_tests(metafunc: pytest.Metafunc) -> None:
    """Makes a test that takes `command` one test for each command of the program."""
    if "command" in metafunc.fixturenames:
        metafunc.parametrize("command", commands(metafunc.config))


def test_a_large_script_gets_the_answers_of_the_model_within_a_minute(tcrx: Path, script: Script, command: str) -> None:
    """Runs a script, and compares the whole output."""
    ran = subprocess.run([tcrx, command, "--scid", str(SPACECRAFT)], input=script.text, capture_output=True, timeout=GENEROUS, check=False)
    assert (ran.returncode, ran.stderr) == (0, b"")
    found, due = (octets.split(b"\n") for octets in (ran.stdout, script.answers + script.report if command == "run" else script.report))
    assert next(((place, *pair) for place, pair in enumerate(zip(found, due)) if pair[0] != pair[1]), None) is None
    assert len(found) == len(due)


@pytest.mark.needs("time")
def test_a_large_script_takes_the_memory_that_the_page_says(tcrx: Path, stand_ins: bool, script: Script, command: str, tmp_path: Path) -> None:
    """Measures the peak of memory by GNU time. Python can't measure it, because the peak of a process that it starts counts Python's own memory.
    The page is about the proved program, and the peak may be beyond its range by a tenth."""
    page = (TOP / "docs/explanation/memory.md").read_text(encoding="utf-8")
    found = re.search(r"With the largest scripts they took (\d+) to (\d+)\s+MiB", page)
    assert found
    words: List[Union[str, Path]] = ["time", "-f", "%M", "-o", tmp_path / "peak", tcrx, command, "--scid", str(SPACECRAFT)]
    subprocess.run(words, input=script.text, stdout=subprocess.DEVNULL, timeout=GENEROUS, check=True)
    peak = int((tmp_path / "peak").read_text(encoding="ascii")) / 1024
    assert stand_ins or 0.9 * int(found[1]) <= peak <= 1.1 * int(found[2])
