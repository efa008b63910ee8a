"""Counts comparisons for the checks in Python, runs commands within a bound of time, reads the conformance cases, and prints a check's last
line."""
from __future__ import annotations

import os
import re
import signal
import subprocess
import sys
import time
from collections import Counter
from pathlib import Path
from typing import Any, Callable, Dict, Iterator, List, Mapping, NamedTuple, Optional

# Modules that are imported after this one leave no compiled files.
sys.dont_write_bytecode = True
TOP = Path(__file__).resolve().parent.parent
DATA = TOP / "crates/conformance/data"
# The patterns of the files in which cases and their answers are stored.
STORED = ("crates/conformance/data/*", "crates/*/stdin", "crates/*/stdout", "crates/*/args", "crates/*/status", "examples/*.tcs", "examples/*.out",
          "c/examples/*.stdout", "clients/rust/tcrx/examples/*.stdout")
NAME = Path(sys.argv[0]).stem
# The launcher of the programs builds nothing during a check.
os.environ["TCRX_BUILD"] = "no"
# The folder of programs that are compared in place of those that are proved and built here. Their messages about a wrong command line may
# differ. Their version, their message about a word that isn't UTF-8, and their exit status may not.
STAND_INS = os.environ.get("TCRX_PROGRAMS", "")
# The seconds after which a wait counts as failed, and those after which a command or a part of a check does.
PATIENCE, LONGEST = 60, 900
counted: Counter[bool] = Counter()
# The parts that were left out because a program isn't installed, each with the number of its comparisons.
skipped: List[str] = []
# The programs that run beside the check. They are killed if a part of it leaves them behind.
begun: List[subprocess.Popen[Any]] = []


class Case(NamedTuple):
    """A conformance case: the name of its script, the spacecraft identifier, and the fault with which the script must end."""

    name: str
    scid: str
    # The text of the fault, or an empty text if the script runs to its end.
    fault: str

    @property
    def script(self) -> bytes:
        """Reads the script."""
        return (DATA / f"{self.name}.script").read_bytes()

    @property
    def answers(self) -> bytes:
        """Reads what must be printed for the script's lines and at its end."""
        return (DATA / f"{self.name}.out").read_bytes()


def cases() -> List[Case]:
    """Reads all conformance cases, in the order of their index."""
    lines = (DATA / "index").read_text(encoding="utf-8").splitlines()
    return [Case(*[*line.split(" ", 2), ""][:3]) for line in lines]


def program_of(name: str) -> Path:
    """Returns the path of the program of this name that is compared."""
    return Path(STAND_INS) / name if STAND_INS else TOP / "crates" / name / "out" / name


def good_cases() -> List[Case]:
    """Returns the cases whose scripts run to their end."""
    return [case for case in cases() if not case.fault]


def stored_files() -> List[Path]:
    """Returns the paths of the files with stored cases and answers."""
    return sorted(path for pattern in STORED for path in TOP.glob(pattern) if path.is_file())


def rows(page: str) -> Iterator[List[str]]:
    """Yields the cells of each row of the tables of a page."""
    for line in page.split("\n"):
        if line.startswith("| "):
            yield [cell.strip() for cell in line.strip("|").split(" | ")]


def is_near(one: str, other: str) -> bool:
    """Returns whether two cells are the same, or whether they begin with numbers of which one is at most a tenth more, and then go on in
    the same way."""
    if one == other:
        return True
    first, second = (re.match(r"([\d,]+)(.*)", it) for it in (one, other))
    if not first or not second or first[2] != second[2]:
        return False
    low, high = sorted(int(it[1].replace(",", "")) for it in (first, second))
    return high * 10 <= low * 11


def expect(good: object, what: str, why: str = "") -> None:
    """Counts a comparison. If it failed, prints its name `what` and the end of `why`, which shows why it failed."""
    counted[bool(good)] += 1
    if not good:
        print(f"{NAME}: WRONG: {what}{': ' if why else ''}{why[-800:]}", flush=True)


def same(found: object, wanted: object, what: str) -> None:
    """Compares a value with the one that is wanted, and prints both if they differ."""
    expect(found == wanted, f"{what}: {found!r}, and not {wanted!r}")


def skip(name: str, count: int) -> None:
    """Notes a part that is left out, with the number of its comparisons. .ci/run lowers the check's minimum by this number. If a part is
    left out because a command is missing, `name` must be that of the command. .ci/run then sees whether it is really missing."""
    skipped.append(f"{name} ({count})")


def until(true: Callable[[], object], seconds: float = PATIENCE) -> bool:
    """Waits until `true` returns something true, for at most so many seconds. Returns whether it did."""
    end = time.monotonic() + seconds
    while not true():
        if time.monotonic() > end:
            return False
        time.sleep(0.01)
    return True


def run(*words: object, given: str = "", names: Optional[Mapping[str, str]] = None, **more: Any) -> subprocess.CompletedProcess[str]:
    """Runs a command to its end. It runs in the top folder unless `more` has another, reads the text `given`, and has the variables
    `names` in its environment."""
    rules: Dict[str, Any] = {"cwd": TOP, "stdout": subprocess.PIPE, "stderr": subprocess.PIPE, "timeout": LONGEST, **more}
    environment = {**os.environ, **(names or {})}
    return subprocess.run([str(word) for word in words], input=given, text=True, env=environment, check=False, **rules)


def count_in(what: str, ran: subprocess.CompletedProcess[str], least: int) -> None:
    """Counts the comparisons of another check that was run, which its last line has. It must have passed, with so many comparisons at least."""
    last = ran.stdout.strip().rpartition("\n")[2]
    found = re.search(r"(\d+)[^0-9]* passed, ", last)
    passed = int(found[1]) if found else 0
    print(f"{what}: {last}", flush=True)
    counted[True] += passed
    expect(ran.returncode == 0 and passed >= least, what, ran.stdout + ran.stderr)


def is_wanted(check: Callable[..., None]) -> bool:
    """Returns whether a part of a check is to run. All of them are, unless the variable ONLY names some."""
    only = os.environ.get("ONLY", "").split()
    return not only or check.__name__ in only


def need(*goals: str) -> None:
    """Ends the check if one of these programs and libraries isn't built from its present sources, and prints what builds it. The programs
    of TCRX_PROGRAMS need no build."""
    if STAND_INS:
        return
    ran = run(TOP / "tools/launch", "--build", *goals)
    if ran.returncode:
        print(f"{ran.stderr}{NAME}: nothing was compared")
        sys.exit(ran.returncode)


def need_library() -> None:
    """Builds the library of dist that the Python package tcrx calls. Ends the check if that can't be done."""
    ran = run(TOP / "tools/library", names={"TCRX_BUILD": ""})
    if ran.returncode:
        print(f"{ran.stderr}{NAME}: nothing was compared")
        sys.exit(ran.returncode)


class Stuck(BaseException):
    """An exception that ends a part of a check that takes too long. It is no `Exception`, so no other handler catches it."""


def give_up(*_: object) -> None:
    """Ends a part of a check when its alarm comes."""
    raise Stuck


def attempt(check: Callable[..., None], *given: object, keep: bool = False, longest: float = LONGEST) -> None:
    """Runs a part of a check. An exception that ends it counts as a failed comparison. Then the programs in `begun` are killed, unless
    `keep` is set."""
    signal.signal(signal.SIGALRM, give_up)
    signal.setitimer(signal.ITIMER_REAL, longest, PATIENCE)
    try:
        check(*given)
    except (Exception, Stuck) as fault:  # pylint: disable=broad-exception-caught  # any of them counts as failed
        expect(False, f"{check.__name__} ended with {fault!r}")
    finally:
        signal.setitimer(signal.ITIMER_REAL, 0)
        for child in [] if keep else begun:
            if child.poll() is None:
                child.kill()
                child.wait()
        if not keep:
            begun.clear()


def close(of: str = "") -> int:
    """Prints the last line: how many comparisons passed and failed, and which parts were left out. Returns the exit status."""
    left = f"; skipped: {', '.join(skipped)}" if skipped else ""
    print(f"{of or NAME}: {counted[True]} passed, {counted[False]} failed{left}")
    return 1 if counted[False] or not (counted[True] or skipped) else 0
