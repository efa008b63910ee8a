"""Attacks on tcrx-bench, the programs of dist and tools/install. An attack fails if it does harm: an answer or a packet is lost, an exception isn't
caught, a file is written in a place where none belongs, memory grows, or the end doesn't come within --patience. It also fails if it takes longer
than its mark says. Other files have attacks, too. Start all of them by `tests/run -m attack`, for example with `--minutes 10 --beside 30`."""
from __future__ import annotations

import re
from pathlib import Path
from typing import Callable, Iterator

import noise
import pytest
import rule_breakers
import senders
import silence
from comparing import TOP, run


@pytest.fixture(name="room")
# pylint: disable-next=unused-argument  # the library must be built
def enter_room(tmp_path: Path, library: Path, monkeypatch: pytest.MonkeyPatch) -> Iterator[Path]:
    """Returns a folder in which programs are started, and to which they write their temporary files. Then looks at what was written: a bench
    has a folder of its own in it, with three files at most."""
    monkeypatch.chdir(tmp_path)
    monkeypatch.setenv("TMPDIR", str(tmp_path))
    yield tmp_path
    files = [path.relative_to(tmp_path) for path in tmp_path.rglob("*") if not path.is_dir()]
    assert [path for path in files if len(path.parts) != 2 or path.name not in ("errors", "log", "setup")] == []


@pytest.mark.parametrize("attack", [
    pytest.param(senders.attack, id="senders", marks=pytest.mark.attack(120)),
    pytest.param(rule_breakers.attack, id="rule_breakers", marks=pytest.mark.attack(90)),
    pytest.param(noise.attack, id="noise", marks=pytest.mark.attack(90)),
    pytest.param(silence.attack, id="silence", marks=pytest.mark.attack(120))])
def test_an_attack_on_the_bench_does_no_harm(attack: Callable[[Path, float], None], room: Path, pytestconfig: pytest.Config) -> None:
    """The module of each attack says what its peers do."""
    attack(room, 60 * pytestconfig.getoption("minutes"))


@pytest.mark.again
@pytest.mark.attack(90)
def test_streams_of_the_programs_of_dist_do_no_harm() -> None:
    """The streams of dist's programs are closed or full, nobody reads their pipes, and the disk that they write to fills."""
    ran = run(TOP / "checks/dist_programs", names={"ONLY": "check_streams"})
    found = re.search(r"(\d+)[^0-9]* passed, 0 failed", ran.stdout.strip().rpartition("\n")[2])
    assert ran.returncode == 0 and found and int(found[1]) >= 33, ran.stdout + ran.stderr
