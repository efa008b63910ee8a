"""Draws scripts (checks/drawing.py), and compares the answers of each receiver with those of a model that was written from the pages
(checks/model.py): `tcrx run`, `tcrx parallel`, tclive, the client in Python, and channels in C over the library. Programs that stand in for the
proved ones have no `tcrx parallel`, and the library for C isn't theirs. If an answer differs, the test shows the shortest script that it found."""
from __future__ import annotations

import re
import subprocess
from collections import Counter
from pathlib import Path
from typing import Callable, NamedTuple

import pytest
from hypothesis import Phase, example, given, settings, strategies as st

from comparing import TOP, Case, run
from drawing import BOUNDS, SPECIAL, WANTED, Script, draw, reached_by, shortened
from model import LIVE, OPERATIONS, SETTINGS, perform
from script_in_python import answers_of

# The line that tcrx adds to standard error if each frame happens to end with the right frame error control field.
HINT = "tcrx: each frame ends with a frame error control field"
# The text on standard output, the text on standard error, and the exit status of a program.
Ended = tuple[str, str, int]
# A script that differs is shortened by its lines, and not by its seed.
UNSHRUNK = (Phase.explicit, Phase.generate)
SEEDS = st.integers(1, 1 << 24)


def text_of(lines: list[str]) -> str:
    """Returns the text of lines."""
    return "".join(f"{line}\n" for line in lines)


def by_run(script: Script) -> Ended:
    """Returns the texts and the status that `tcrx run` or tclive must end with. The hints of tclive about bad lines are left out."""
    outcome = script.outcome
    return text_of(outcome.answers + outcome.report), text_of([outcome.fault] if outcome.fault else []), int(bool(outcome.fault))


def by_parallel(script: Script) -> Ended:
    """Returns the texts and the status that `tcrx parallel` must end with. It prints only the final report."""
    return (text_of(script.outcome.report), *by_run(script)[1:])


def spoken(script: Script) -> Script:
    """Returns a script with only those lines for which the client in Python has a call, written as the client writes them."""
    numbers = {**SETTINGS, **OPERATIONS, **LIVE}
    del numbers["collect"]
    lines = []
    for words in (re.findall("[^ \t\r]+", line) for line in script.lines):
        count = len(numbers.get(words[0], ())) if words else 0
        is_plain = words[-1:] == ["plain"] and words[0] == "channel"
        is_call = count > 0 and len(words) == 1 + count + is_plain and all(re.fullmatch("[0-9]{1,5}", word) for word in words[1:1 + count])
        is_call = is_call and (words[0] != "link" or {*words[2:]} <= {"0", "1"})
        if is_call or re.fullmatch("frame ([0-9a-fA-F]{2})+", " ".join(words)):
            lines.append(" ".join(str(int(word)) if is_call and word.isdigit() else word for word in words))
    return script._replace(lines=tuple(lines))


class Way(NamedTuple):
    """A way to run scripts."""

    run: Callable[[Script], Ended]
    # Returns how a script must end.
    wanted: Callable[[Script], Ended] = by_run
    # True if the scripts for tclive are run, and not those for tcrx.
    is_live: bool = False
    # Returns the script as it is run in this way.
    form: Callable[[Script], Script] = lambda script: script
    # False if only scripts without a bad line are run.
    takes_bad: bool = True

    def differs(self, script: Script) -> bool:
        """Returns whether a script ends in another way than it must."""
        # pylint: disable-next=too-many-function-args  # `wanted` is a field, and no method
        return (self.takes_bad or not script.outcome.fault) and self.run(script) != self.wanted(script)


def by_program(*words: object) -> Callable[[Script], Ended]:
    """Returns a function that runs a program over a script for the spacecraft that it appends to the words. The hints of tclive and the line HINT of
    tcrx are left out."""
    def ended(script: Script) -> Ended:
        ran = subprocess.run([*map(str, words), str(script.scid)], input=script.octets, capture_output=True, check=False)
        printed = re.sub("^(bad [a-z ]+): .*", r"\1", ran.stdout.decode(errors="replace"), flags=re.MULTILINE)
        return printed, "".join(line for line in ran.stderr.decode(errors="replace").splitlines(True) if not line.startswith(HINT)), ran.returncode
    return ended


# --- The ways that there are ---

def pytest_generate_tests(metafunc: pytest.Metafunc) -> None:
    """Gives each way its scripts."""
    if "way" not in metafunc.fixturenames:
        return
    needs = {"C": [pytest.mark.needs("cc", "gcc")]}
    names = ["tcrx run", "tclive", "client", *([] if metafunc.config.getoption("programs") else ["tcrx parallel", "C"])]
    if "kind" not in metafunc.fixturenames:
        metafunc.parametrize("way", [pytest.param(name, marks=needs.get(name, [])) for name in names], indirect=True, scope="module")
        return
    bad = ("a bad line", "a large number", "a longer script")
    pairs = [(name, kind) for name in names for kind in SPECIAL if name != "C" or not kind.startswith(bad)]
    metafunc.parametrize(("way", "kind"), [pytest.param(*pair, marks=needs.get(pair[0], [])) for pair in pairs], indirect=["way"], scope="module")


def in_c(folder: Path) -> Path:
    """Compiles channels in C over the library, and returns the path of the program."""
    built = run(TOP / "tools/launch", "--build", "tc_c")
    assert built.returncode == 0, built.stderr
    program, library = folder / "in_c", TOP / "crates/tc_c/out/libtc_c.a"
    ran = run("cc", "-std=c99", "-O2", "-Idist", "c/checks/channels.c", "dist/tcrx_memory.c", library, "-o", program)
    assert ran.returncode == 0, ran.stderr
    return program


@pytest.fixture(scope="module", name="way")
def way_of(request: pytest.FixtureRequest, tmp_path_factory: pytest.TempPathFactory) -> Way:
    """Returns the way of this name."""
    if request.param == "C":
        return Way(by_program(in_c(tmp_path_factory.mktemp("c"))), takes_bad=False)
    if request.param == "client":
        request.getfixturevalue("library")
        return Way(lambda script: (answers_of(script.scid, script.lines), "", 0), is_live=True, form=spoken)
    if request.param == "tclive":
        return Way(by_program(request.getfixturevalue("tclive"), "--scid"), is_live=True)
    command = request.param.removeprefix("tcrx ")
    return Way(by_program(request.getfixturevalue("tcrx"), command, "--scid"), by_parallel if command == "parallel" else by_run)


# --- The comparisons ---

def compare(way: Way, script: Script) -> None:
    """Compares how a way ends over a script with how it must end. If they differ, compares it over a shorter script on which they also differ."""
    script = way.form(script)
    if way.differs(script):
        script = shortened(script, way.differs)
        assert way.run(script) == way.wanted(script), f"spacecraft {script.scid}:\n{text_of([*script.lines])}"


def test_the_model_has_the_stored_answers(case: Case) -> None:
    """Compares the model's answers to a stored case with the stored ones."""
    outcome = perform(int(case.scid), case.script)
    assert (text_of(outcome.answers + outcome.report), outcome.fault) == (case.answers.decode(), case.fault)


def test_the_scripts_reach_each_situation() -> None:
    """Counts what the first script of each kind reaches: each bound, each row of FARM-1's table in each state, each refusal and each reason."""
    reached = sum((reached_by(draw(kind, 0, live)) for live in (False, True) for kind in SPECIAL), Counter[str]())
    print(", ".join(f"{what} {reached[what]}" for what in BOUNDS))
    assert [what for what in WANTED if not reached[what]] == []


@settings(max_examples=2, phases=UNSHRUNK)
@given(seed=SEEDS)
@example(seed=0)
def test_a_script_for_a_bound_or_a_reason_is_answered_as_by_the_model(way: Way, kind: str, seed: int) -> None:
    """Draws scripts for a bound, for the rows of FARM-1, or for the reason of a bad line."""
    compare(way, draw(kind, seed, way.is_live))


@settings(max_examples=420, phases=UNSHRUNK)
@given(seed=SEEDS)
def test_a_tour_is_answered_as_by_the_model(way: Way, seed: int) -> None:
    """Draws scripts with lines of all kinds on at most five channels."""
    compare(way, draw("tour", seed, way.is_live))
