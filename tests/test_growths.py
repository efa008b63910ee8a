"""Refuses growths of memory, one in each run. A growth is a call of `malloc` or `realloc`. The first growth of a test or program is refused in its
first run, the second one in its second run, and so on, until a run has no growth of that number. All runs are children of one process, which
tests/refuse.c forks before its `main`.

The tests are those with "growth" in their names, of the crates that tests/growing_calls names. `rt ci` leaves their test programs in
crates/NAME/out. If a call reports that it ran out of memory, such a test prints `refused: ` and the name of the call. Some run must print each call
that tests/growing_calls names. If memory runs out, tcrx, tcmake and tclive must report it. tcmake and tclive must then answer later lines as if the
refused one weren't there."""
# pylint: disable=missing-function-docstring  # the names of the tests say what they show
from __future__ import annotations

import binascii
import os
import re
import subprocess
from dataclasses import dataclass, replace
from functools import cached_property
from pathlib import Path
from typing import Callable, Dict, List, NamedTuple, Optional

import pytest
from comparing import TOP

pytestmark = pytest.mark.needs("cc", "gcc")
# For each crate of tests, the calls of which some run must report that memory ran out.
CALLS: Dict[str, List[str]] = {}
for named in (TOP / "tests/growing_calls").read_text(encoding="ascii").splitlines():
    CALLS.setdefault(named.partition(": ")[0], []).append(named.partition(": ")[2])


class Run(NamedTuple):
    """A run in which one growth was refused: the number of the growth, whether the run came to it, its status, and what it wrote."""

    growth: int
    met: bool
    status: int
    out: bytes
    error: bytes


class Refuser(NamedTuple):
    """A library that refuses growths, and a folder for what the runs write."""

    shim: Path
    work: Path

    def runs(self, words: List[str], stored: Optional[Path] = None) -> List[Run]:
        """Runs a command once for each growth, and once more, when there is no growth of the next number. Returns these runs."""
        front = self.work / "run"
        more = {"LD_PRELOAD": str(self.shim), "REFUSE_EACH": str(front), "REFUSE_INPUT": str(stored or os.devnull)}
        subprocess.run(words, cwd=TOP, env={**os.environ, **more}, check=True)
        found = []
        for line in Path(f"{front}.runs").read_text(encoding="ascii").splitlines():
            growth, status, met = map(int, line.split())
            out, error = Path(f"{front}.{growth}.out"), Path(f"{front}.{growth}.err")
            found.append(Run(growth, met == 1, status, out.read_bytes(), error.read_bytes()))
            out.unlink()
            error.unlink()
        assert any(run.met for run in found), f"{words}: no growth was refused"
        return found


@pytest.fixture(name="refuser", scope="module")
def make_refuser(tmp_path_factory: pytest.TempPathFactory) -> Refuser:
    """Compiles the library that refuses growths."""
    work = tmp_path_factory.mktemp("growths")
    subprocess.run(["cc", "-shared", "-fPIC", "-O1", "-o", work / "refuse.so", TOP / "tests/refuse.c", "-ldl"], check=True)
    return Refuser(work / "refuse.so", work)


# --- Tests of crates ---

class Crate(NamedTuple):
    """A crate of tests, and the runs of each of its tests of growths."""

    name: str
    runs: Dict[str, List[Run]]


@pytest.fixture(name="crate", scope="module", params=CALLS)
def run_crate(request: pytest.FixtureRequest, refuser: Refuser) -> Crate:
    """Runs the tests of growths of a crate."""
    tests = TOP / f"crates/{request.param}/out/{request.param}_tests"
    assert tests.exists(), "rt ci builds this program"
    listed = subprocess.run([tests, "--list"], stdout=subprocess.PIPE, check=True, text=True).stdout
    names = [name for name in re.findall(r"^(.*): test$", listed, re.M) if "growth" in name]
    return Crate(request.param, {name: refuser.runs([str(tests), name]) for name in names})


def test_a_test_passes_whichever_growth_is_refused(crate: Crate) -> None:
    assert crate.runs, "the crate has no test of growths"
    assert [(name, run) for name, runs in crate.runs.items() for run in runs if run.status] == []


def test_a_growth_of_each_call_was_refused(crate: Crate) -> None:
    reported = {call for runs in crate.runs.values() for run in runs for call in re.findall(r"^refused: (.*)$", run.out.decode(), re.M)}
    assert [call for call in CALLS[crate.name] if call not in reported] == []


# --- Programs ---

@dataclass
class Program:
    """A program over lines. `words` is its command, and `expected` has its answers to the lines. `is_good` returns whether a run of it is good.
    For each of the `statuses` some run must exit with it. For each of the `commands` some run must report that it ran out of memory over a
    line with this command."""

    words: List[str]
    lines: List[bytes]
    expected: bytes
    is_good: Callable[[Run, Program], bool]
    statuses: List[int]
    commands: str = ""

    def answers(self, lines: List[bytes]) -> List[bytes]:
        """Runs the program over these lines with no growth refused, and returns the lines of its answers."""
        ran = subprocess.run(self.words, input=b"".join(lines), stdout=subprocess.PIPE, stderr=subprocess.PIPE, check=True)
        return ran.stdout.splitlines(keepends=True)

    @cached_property
    def out_of_memory(self) -> Dict[bytes, str]:
        """Returns what the program may write if it runs out of memory over a line, each text with the command of this line. It has the answers
        to the lines before, for tcmake also the beginning of the answer to this line, then `bad no memory`, and then the answers that the
        later lines get without this line. A final report is no answer to a line."""
        fronts, found = [], {}
        for count in range(len(self.lines) + 1):
            answers = self.answers(self.lines[:count])
            fronts.append(answers[: next((at for at, it in enumerate(answers) if it.startswith(b"final ")), None)])
        for place, line in enumerate(self.lines):
            before, own = fronts[place], fronts[place + 1][len(fronts[place]) :]
            after = self.answers(self.lines[:place] + self.lines[place + 1 :])[len(before) :]
            for count in range(max(1, len(own)) if Path(self.words[0]).name == "tcmake" else 1):
                found[b"".join([*before, *own[:count], b"bad no memory\n", *after])] = (line.split() or [b""])[0].decode()
        return found


def is_judged(run: Run) -> bool:
    """Returns whether the run refused its command line, with a message and no answer."""
    return run.status == 2 and not run.out and bool(run.error)


def is_script_good(run: Run, program: Program) -> bool:
    """Returns whether the run did the whole script, or reported that it ran out of memory."""
    if run.status == 0:
        return run.out == program.expected and not run.error
    if run.status == 1:
        return program.expected.startswith(run.out) and bool(re.search(rb"^line [0-9]+: no memory$", run.error, re.M))
    return is_judged(run)


def is_parallel_good(run: Run, program: Program) -> bool:
    """Returns whether the run did the whole script, or reported that it ran out of memory and wrote no answer."""
    return is_script_good(run, program) and not (run.status and run.out)


def are_lines_answered(run: Run, program: Program) -> bool:
    """Returns whether the run answered all lines, or all but one that ran out of memory and did nothing, or stopped with a report that memory
    ran out."""
    if run.status == 0:
        return not run.error and (run.out == program.expected or run.out in program.out_of_memory)
    if run.status == 1:
        return program.expected.startswith(run.out) and bool(re.search(rb"^(tclive|tcmake): no memory$", run.error, re.M))
    return is_judged(run)


def stored_lines(name: str, is_good: Callable[[Run, Program], bool], statuses: List[int], commands: str = "") -> Program:
    """Returns a program over its stored lines."""
    folder = TOP / "crates" / name
    arguments = folder / "args"
    words = [name, *(arguments.read_text().splitlines() if arguments.exists() else [])]
    lines = (folder / "stdin").read_bytes().splitlines(keepends=True)
    return Program(words, lines, (folder / "stdout").read_bytes(), is_good, statuses, commands)


def in_parallel(program: Program) -> Program:
    """Returns the program with the command `parallel`, which has a worker for each channel, and writes only the final report."""
    report = program.expected[program.expected.index(b"final ") :]
    return replace(program, words=["parallel" if word == "run" else word for word in program.words], expected=report)


def with_field(words: str, table: List[tuple[str, str]], commands: str) -> Program:
    """Returns a program whose frames have the frame error control field. Each row of the table has a line and its answer."""
    lines, answers = ([row[column].encode() for row in table] for column in (0, 1))
    return Program([*words.split(), "--fecf"], [it + b"\n" for it in lines], b"".join(answers), are_lines_answered, [0, 1], commands)


def summed(octets: str) -> str:
    """Returns a frame with its frame error control field."""
    return f"{octets}{binascii.crc_hqx(bytes.fromhex(octets), 0xffff):04x}"


NO_BLOCK = "blocks corrected 0 rejected 0 overlong 0\n"
PROGRAMS = {
    "tcrx": stored_lines("tcrx", is_script_good, [1, 2]),
    "tcrx parallel": in_parallel(stored_lines("tcrx", is_parallel_good, [1, 2])),
    "tcmake": stored_lines("tcmake", are_lines_answered, [0, 1, 2], "packet ad bd unlock setvr segments explain"),
    "tclive": stored_lines("tclive", are_lines_answered, [0, 1, 2], "channel queue map report frame release"),
    # If memory runs out over a new decoder, the decoder that is there stays.
    "tcmake --fecf": with_field("tcmake", [
        ("ad 42 1 0 0 1005c0000000aa", "frame 002a040e00c01005c0000000aa6b6e\n"),
        ("unlock 42 1", "frame 302a0407000020e7\n"),
        ("segments 42 1 0 0 4 1005c0000000aa", "frame 002a040b00401005c0001a74\nframe 002a040a01800000aad66b\n"),
        ("explain 002a040e00c01005c0000000aa6b6e", "header AD scid 42 vc 1 ns 0 octets 13 fill 0\nsegment unsegmented map 0 octets 7\n"
         "holds TC apid 5 count 0 flags 3 secondary 0 1005c0000000aa\n"),
        ("cltu 22f600ff00421a", "cltu eb9022f600ff00421a12c5c5c5c5c5c5c579\n"),
        ("random 00000000", "random ff399e5a\n"),
        ("tm 42 1 13 01040001", "tm 02a300001ffe550104000138f7\n"),
        ("decoder 3 detect", ""), ("octets 3 eb90616263", NO_BLOCK), ("decoder 3 detect", ""), ("octets 3 5555555568c5c5c5c5c5c5c579", NO_BLOCK),
    ], "ad unlock segments explain cltu random tm decoder"),
    "tclive --fecf": with_field("tclive --scid 42", [
        ("channel 1 10 2 0", ""), ("queue 1 5 2", ""), ("map 1 3 1", ""), ("link 1 0 0", "link 1 0 0\n"),
        ("candidate 002a040e00c01005c0000000aa6b6e002a040e00c01005c0000000aa6b6e", "refused more\n"),
        (f"candidate {summed('002a041500c01005c0000000aa1005c0000000bb')}5555", "frame 1 E1 accepted 1 queued 0 dropped 0 rest 0\n"),
        (f"frame {summed('202a040900c3ddee')}", "frame 1 E6 accepted 1 queued 1 dropped 0 rest 0\n"),
        ("deliver 1", "release 1 queued 2 dropped 0 rest 0\ntake 1 5 1005c0000000aa\ntake 1 5 1005c0000000bb\nunit 1 3 ddee\nclcw 1 01040201\n"),
        ("collect 1", "clcw 1 01040201\nfinal 1 01040201 events 6 buffered 0\nqueue 1 5 0\nmap 1 3 0\n"),
    ], "channel queue map link candidate frame deliver"),
}


def pytest_generate_tests(metafunc: pytest.Metafunc) -> None:
    """Makes a test that takes `ran` one test for each program. Programs that stand in for the proved ones have no command `parallel`."""
    if "ran" in metafunc.fixturenames:
        names = [name for name in PROGRAMS if name != "tcrx parallel" or not metafunc.config.getoption("programs")]
        metafunc.parametrize("ran", names, indirect=True, scope="module")


class Ran(NamedTuple):
    """A program, and its runs with a growth refused in each."""

    program: Program
    runs: List[Run]


@pytest.fixture(name="ran", scope="module")
def run_program(request: pytest.FixtureRequest, refuser: Refuser) -> Ran:
    """Runs a program over its lines, with each of its growths refused in turn."""
    name, *words = PROGRAMS[request.param].words
    program = replace(PROGRAMS[request.param], words=[str(request.getfixturevalue(name)), *words])
    stored = refuser.work / "lines"
    stored.write_bytes(b"".join(program.lines))
    return Ran(program, refuser.runs(program.words, stored))


def test_a_program_answers_its_lines(ran: Ran) -> None:
    assert b"".join(ran.program.answers(ran.program.lines)) == ran.program.expected


def test_a_program_reports_each_growth_that_is_refused(ran: Ran) -> None:
    assert [run for run in ran.runs if not ran.program.is_good(run, ran.program)] == []


def test_a_program_exits_with_each_status_for_want_of_memory(ran: Ran, stand_ins: bool) -> None:
    # The programs of dist read their command line without a growth.
    wanted = set(ran.program.statuses) - ({2} if stand_ins else set())
    assert wanted <= {run.status for run in ran.runs}


def test_a_growth_of_a_line_with_each_command_was_refused(ran: Ran) -> None:
    reported = {ran.program.out_of_memory.get(run.out) for run in ran.runs} if ran.program.commands else set()
    assert [command for command in ran.program.commands.split() if command not in reported] == []
