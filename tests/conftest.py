"""What all tests share: the programs and cases that they are given, what they may start, when they may be skipped, and their last line."""
from __future__ import annotations

import fcntl
import os
import subprocess
import sys
from pathlib import Path
from typing import Any, Callable, Generator, Iterator, List

import hypothesis
import pytest

TOP = Path(__file__).resolve().parent.parent
sys.path[:0] = [str(TOP / "checks"), str(TOP / "clients/python"), str(TOP / "examples")]
for part in ("bench_parts", "client_parts", "noise", "peers", "rule_breakers", "senders", "silence"):
    pytest.register_assert_rewrite(part)
# pylint: disable=wrong-import-position  # these are found by the path above
import comparing  # noqa: E402
import packages  # noqa: E402
import program_parts  # noqa: E402

# Two runs draw the same. `--hypothesis-profile=others` draws others. No test fails because drawing takes long.
SLOW = [hypothesis.HealthCheck.too_slow]
hypothesis.settings.register_profile("same", derandomize=True, deadline=None, database=None, suppress_health_check=SLOW)
hypothesis.settings.register_profile("others", deadline=None, database=None, print_blob=True, suppress_health_check=SLOW)
hypothesis.settings.load_profile("same")
NEEDED = pytest.StashKey[List[str]]()
# Keeps a processor busy until the process that has started it ends.
LOOP = "import os\nparent = os.getppid()\nwhile os.getppid() == parent: pass"


def pytest_addoption(parser: pytest.Parser) -> None:
    """Adds the options of attacks, and those that have the tests compare other programs. The variable TCRX_PROGRAMS does so, too."""
    parser.addoption("--minutes", type=float, default=0.2, metavar="N",
                     help="how long the peers of an attack send; silent connections are held for a minute at least (0.2 if not given)")
    parser.addoption("--beside", type=int, default=0, metavar="N", help="run the tests beside so many processes that keep the processors busy")
    parser.addoption("--programs", type=Path, default=os.environ.get("TCRX_PROGRAMS"),
                     help="a folder with tcrx, tclive and tcmake, which are compared in place of those that are proved and built here")
    parser.addoption("--proved", action="store_true", help="the programs of --programs were proved, too, for example for another processor")
    parser.addoption("--long", action="store_true", help="a sender over CLTUs and telemetry frames closes its loop 100 times, and not 4 times")


def pytest_configure(config: pytest.Config) -> None:
    """Has the parts that tests share with checks compare the programs of --programs, too."""
    if config.getoption("programs"):
        comparing.STAND_INS = str(config.getoption("programs").absolute())


def pytest_generate_tests(metafunc: pytest.Metafunc) -> None:
    """Makes a test that takes `case` one test for each stored case."""
    if "case" in metafunc.fixturenames:
        metafunc.parametrize("case", comparing.cases(), ids=[case.name for case in comparing.cases()])


def pytest_collection_modifyitems(config: pytest.Config, items: List[pytest.Item]) -> None:
    """Has an attack end within the seconds that it is marked with. It may take longer beside busy processes and with more minutes."""
    for item in items:
        for mark in item.iter_markers("attack"):
            seconds = mark.args[0] * (1 + config.getoption("beside") / 10) + 60 * config.getoption("minutes")
            item.add_marker(pytest.mark.timeout(seconds, func_only=True))


# --- What is compared ---

@pytest.fixture(scope="session")
def stand_ins(pytestconfig: pytest.Config) -> bool:
    """Returns whether the programs stand in for those that are proved and built here. Their messages about a wrong command line may differ. Their
    version, their message about a word that isn't UTF-8, and their exit status may not."""
    return program_parts.stands_in(pytestconfig)


def program(name: str) -> Any:
    """Returns a fixture that gives the path of a program, and ends the tests if it isn't built from its present sources."""
    @pytest.fixture(scope="session", name=name)
    def path() -> Path:
        if comparing.STAND_INS:
            if not comparing.program_of(name).is_file():
                pytest.exit(f"there is no {name} in {comparing.STAND_INS}", 70)
            return comparing.program_of(name)
        # With -n several processes come here at once. The launcher lets only one of them look at what is built.
        with open(__file__, encoding="utf-8") as lock:
            fcntl.flock(lock, fcntl.LOCK_EX)
            ran = comparing.run(TOP / "tools/launch", "--build", name)
        if ran.returncode:
            pytest.exit(f"{ran.stderr}{name} isn't built", ran.returncode)
        return TOP / "crates" / name / "out" / name
    return path


tcrx, tclive, tcmake = program("tcrx"), program("tclive"), program("tcmake")


@pytest.fixture(scope="session")
def library() -> Path:
    """Builds the library of dist that the Python package tcrx calls, and returns its folder. Ends the tests if it can't be built."""
    ran = comparing.run(TOP / "tools/library", names={"TCRX_BUILD": ""})
    if ran.returncode:
        pytest.exit(f"{ran.stderr}the library isn't built", ran.returncode)
    return TOP / "dist"


# --- What a test may start ---

@pytest.fixture(scope="session", autouse=True)
def busy(pytestconfig: pytest.Config) -> Iterator[None]:
    """Keeps the processors busy with as many processes as --beside names."""
    # pylint: disable-next=consider-using-with  # they are ended below
    loops = [subprocess.Popen(["nice", sys.executable, "-c", LOOP]) for _ in range(pytestconfig.getoption("beside"))]
    yield
    for loop in loops:
        loop.kill()
        loop.wait()


@pytest.fixture(autouse=True)
def nothing_runs_on() -> Iterator[None]:
    """Kills the programs that a test has left in `comparing.begun`."""
    yield
    for child in comparing.begun:
        if child.poll() is None:
            child.kill()
            child.wait()
    comparing.begun.clear()


@pytest.fixture
def begin() -> Callable[..., subprocess.Popen[Any]]:
    """Returns a function that starts a program beside the test. The program is killed when the test ends."""
    def start(*words: object, **streams: Any) -> subprocess.Popen[Any]:
        # pylint: disable-next=consider-using-with  # nothing_runs_on ends it
        comparing.begun.append(subprocess.Popen([str(word) for word in words], **streams))
        return comparing.begun[-1]
    return start


# --- Skipped tests, and the last line ---

def pytest_runtest_setup(item: pytest.Item) -> None:
    """Skips a test if a command that it is marked to need isn't there and can't be installed."""
    for mark in item.iter_markers("needs"):
        command = mark.args[0]
        if not packages.has(command, *mark.args[1:]):
            item.stash[NEEDED] = [command]
            pytest.skip(command)


@pytest.hookimpl(hookwrapper=True)  # type: ignore[misc]  # pytest 7.2 gives the decorator no type
def pytest_runtest_makereport(item: pytest.Item) -> Generator[None, Any, None]:
    """Counts a test that was skipped in any other way as failed."""
    outcome = yield
    report = outcome.get_result()
    if report.skipped and NEEDED not in item.stash:
        report.outcome = "failed"
        report.longrepr = f"{item.nodeid} was skipped, and isn't marked to need a command"


def pytest_unconfigure(config: pytest.Config) -> None:
    """Prints the last line, which .ci/run reads: how many tests passed and failed, and for which commands how many were skipped."""
    reporter: Any = config.pluginmanager.get_plugin("terminalreporter")
    if reporter is None or hasattr(config, "workerinput") or config.option.collectonly:
        return
    stats = reporter.stats
    commands = [report.longrepr[2].removeprefix("Skipped: ") for report in stats.get("skipped", [])]
    left = ", ".join(f"{command} ({commands.count(command)})" for command in sorted(set(commands)))
    failed = len(stats.get("failed", [])) + len(stats.get("error", []))
    print(f"tests: {len(stats.get('passed', []))} passed, {failed} failed{'; skipped: ' if left else ''}{left}", flush=True)
