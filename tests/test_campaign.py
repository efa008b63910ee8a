"""Shows how tools/campaign runs the scripts of a folder with GNU parallel, resumes a campaign that was killed or terminated, judges each script, and
refuses bad command lines. The programs of most campaigns note each start, so that a script that runs once too often is seen. The test of a full disk
is only there if this user may mount a file system."""
# pylint: disable=missing-function-docstring  # the names of the tests say what they show
from __future__ import annotations

import fcntl
import os
import re
import shutil
import signal
import subprocess
import sys
import tempfile
import time
from collections import Counter
from pathlib import Path
from typing import Any, Iterator, NamedTuple

import pytest
import comparing
import pythons
from comparing import TOP, run, until

TOOL = TOP / "tools/campaign"
COUNT, BAD, WAITING = 200, 77, 100
# The seconds after which something that still runs counts as failed.
PATIENCE = 120
needs_parallel = pytest.mark.needs("parallel")
FINAL, OTHER = "final 1 01040007 events 0 buffered 0", "final 1 01040008 events 0 buffered 0"
# Versions of Python that are there, and the one that runs the tests.
OWN = f"{sys.version_info[0]}.{sys.version_info[1]}"
VERSIONS = [OWN, *(version for version in ("3.9", "3.8", "3.7", "3.6") if version != OWN and shutil.which(f"python{version}"))]


class Ended(NamedTuple):
    """A campaign that has ended: its status and what it wrote."""

    status: int
    out: str
    error: str

    @property
    def lines(self) -> list[str]:
        """Returns the lines of the standard output."""
        return self.out.splitlines()


def start(*words: str | Path, path: str | None = None, before: tuple[str | Path, ...] = (), python: str = sys.executable) -> Ended:
    """Runs the tool with these words. `before` is a command that starts it, `path` another search path, and `python` another Python."""
    names = {"PATH": path} if path is not None else {}
    ran = run(*before, python, TOOL, *words, errors="surrogateescape", names=names, timeout=PATIENCE)
    return Ended(ran.returncode, ran.stdout, ran.stderr)


def is_refused(status: int, reason: str, *words: str | Path, path: str | None = None) -> None:
    """Asserts that the tool ends with this status, prints nothing on standard output, and has the reason on standard error."""
    ended = start(*words, path=path)
    assert (ended.status, ended.out) == (status, "") and reason in ended.error


def write_command(path: Path, text: str) -> None:
    """Writes a script of the shell that can be started."""
    path.write_text(f"#!/bin/sh\n{text}")
    path.chmod(0o755)


@pytest.fixture(name="folder")
def make_folder(tmp_path: Path) -> Path:
    """Returns a folder with one script."""
    made = tmp_path / "one script"
    made.mkdir()
    (made / "a.1.tcs").write_text("channel 1 10 2 7\n")
    return made


@pytest.fixture(name="other_path")
def make_other_path(tmp_path: Path) -> Path:
    """Returns a folder in which a test may put another command `parallel`."""
    (tmp_path / "another").mkdir()
    return tmp_path / "another"


# --- Bad command lines and missing commands ---

def test_a_missing_folder_is_refused(tmp_path: Path) -> None:
    is_refused(2, "missing can't be read: No such file", tmp_path / "missing")


def test_a_folder_without_scripts_is_refused(tmp_path: Path) -> None:
    is_refused(2, "has no script", tmp_path)


@pytest.mark.parametrize("name", ["name.tcs", "name.1024.tcs", "name.01.tcs", "-n.1.tcs", "a b.1.tcs", ".1.tcs"])
def test_a_script_with_a_bad_name_is_refused(tmp_path: Path, name: str) -> None:
    (tmp_path / name).touch()
    is_refused(2, f"{name} has no name of the form NAME.SCID.tcs", tmp_path)


def test_a_folder_in_the_place_of_a_script_is_refused(tmp_path: Path) -> None:
    (tmp_path / "a.1.tcs").mkdir()
    is_refused(2, "a.1.tcs is no file", tmp_path)


@pytest.mark.parametrize("words", ["", "--jobs 0 good", "--jobs x good", "--sshloginfile missing good", "--more good"])
def test_a_bad_command_line_is_refused(folder: Path, words: str) -> None:
    given = {"good": folder, "missing": folder.parent / "missing"}
    is_refused(2, "usage:", *(given.get(word, word) for word in words.split()))
    assert not (folder / "results").exists()


def test_without_gnu_parallel_nothing_is_started(folder: Path, other_path: Path) -> None:
    is_refused(70, "GNU parallel is needed", folder, path=str(other_path))
    assert not (folder / "results").exists()


def test_another_command_of_this_name_is_not_taken_for_gnu_parallel(folder: Path, other_path: Path) -> None:
    write_command(other_path / "parallel", "echo another\n")
    is_refused(70, "isn't GNU parallel", folder, path=f"{other_path}:{os.environ['PATH']}")
    assert not (folder / "results").exists()


def test_help() -> None:
    ended = start("--help")
    assert (ended.status, ended.error) == (0, "") and "--sshloginfile" in ended.out


@needs_parallel
def test_a_missing_program_is_refused(folder: Path) -> None:
    is_refused(2, "is no program", "--program", folder / "missing", folder)


# --- A campaign of 200 scripts that is killed or terminated ---

class Bench:
    """A folder of 200 scripts, of which one is bad, and a program that notes the spacecraft of each start and then becomes tcrx. As long as the
    file `hold` exists, the program waits at one of the scripts instead."""

    def __init__(self, work: Path, program: Path) -> None:
        self.folder, self.starts_file, self.hold, self.waiting = work / "scripts", work / "starts", work / "hold", work / "waiting"
        self.program, self.results = work / "noting", work / "scripts/results"
        self.folder.mkdir()
        for place in range(COUNT):
            frame = f"frame {place:04x}040c00c01005c0000000aa\n"
            words = "clcw 1\nchannel 2 10 1 0\n" if place == BAD else frame
            (self.folder / f"case{place:03d}.{place}.tcs").write_text("channel 1 10 1 0\n" + words)
        write_command(self.program, f'echo "$3" >>"{self.starts_file}"\nif [ "$3" = {WAITING} ] && [ -e "{self.hold}" ]; then\n'
                      f'  echo "half an answer"\n  echo $$ >"{self.waiting}.new"\n  mv "{self.waiting}.new" "{self.waiting}"\n'
                      f'  exec sleep 1000\nfi\nexec "{program}" "$@"\n')

    def starts(self) -> Counter[int]:
        """Returns how often the script of each spacecraft was started."""
        return Counter(int(line) for line in self.starts_file.read_text().split()) if self.starts_file.exists() else Counter()

    def begin(self, *words: str) -> subprocess.Popen[Any]:
        """Starts a campaign beside the test."""
        # pylint: disable-next=consider-using-with  # nothing_runs_on ends it
        child = subprocess.Popen([TOOL, "--program", self.program, "--jobs", "2", *words, self.folder], stdin=subprocess.DEVNULL,
                                 stdout=subprocess.PIPE, stderr=subprocess.PIPE, text=True)
        comparing.begun.append(child)
        return child

    def finish(self, *words: str) -> Ended:
        """Runs a campaign to its end."""
        child = self.begin(*words)
        out, error = child.communicate(timeout=PATIENCE)
        return Ended(child.returncode, out, error)

    def wait_for_script(self) -> int:
        """Waits until the program is started at the script at which it waits. Returns the id of its process."""
        assert until(self.waiting.exists, PATIENCE), "the script that waits was never started"
        return int(self.waiting.read_text())

    def have_jobs_ended(self) -> bool:
        """Waits until all jobs of a killed campaign have ended. Returns whether they have."""
        def is_free() -> bool:
            with open(self.results / "scripts", encoding="utf-8") as listed:
                try:
                    fcntl.flock(listed, fcntl.LOCK_EX | fcntl.LOCK_NB)
                except OSError:
                    return False
            return True
        return until(is_free, PATIENCE)

    def logged(self) -> set[int]:
        """Returns the spacecraft of the scripts in the job log."""
        return {int(line.split("\t")[0]) - 1 for line in (self.results / "joblog").read_text().splitlines()[1:]}

    def release(self) -> None:
        """Ends the program that waits, if one does."""
        if self.waiting.exists():
            kill(int(self.waiting.read_text()))


def kill(*processes: int) -> None:
    """Kills those of these processes that still run."""
    for process in processes:
        try:
            os.kill(process, signal.SIGKILL)
        except ProcessLookupError:
            pass


def lines_of(closing: str) -> list[str]:
    """Returns the lines that a complete campaign of a bench prints."""
    wanted = [f"case{place:03d}.{place}\tdone\tfinal 1 01040001 events 1 buffered 1" for place in range(COUNT)]
    wanted[BAD] = f"case{BAD:03d}.{BAD}\tfault\tline 3: too late"
    return [*wanted, closing]


class Broken(NamedTuple):
    """A campaign that was killed and then resumed."""

    # A second campaign that was started beside the first.
    beside: Ended
    # Whether the jobs of the first one ended with it, the scripts that it had done, and those that it had started.
    has_ended: bool
    done: set[int]
    before: Counter[int]
    # The campaign that resumed it, and the scripts that were started up to its end.
    resumed: Ended
    after: Counter[int]
    # A campaign when all is done, one with --failed, and the scripts that were started up to the end of each.
    again: tuple[Ended, Counter[int]]
    failed: tuple[Ended, Counter[int]]
    results: Path


def kill_campaign(bench: Bench) -> Ended:
    """Starts a campaign, kills it with all processes that it started, and returns how a second one ended that was started beside it."""
    bench.hold.touch()
    child = bench.begin()
    waiting = bench.wait_for_script()
    below = [int(word) for word in Path(f"/proc/{child.pid}/task/{child.pid}/children").read_text(encoding="ascii").split()]
    # The processes that the campaign started keep its standard error open, so this can't read up to the end of it.
    for process in below:
        os.kill(process, signal.SIGSTOP)
    child.kill()
    child.wait()
    beside = bench.finish()
    kill(*below, waiting)
    return beside


@pytest.fixture(name="broken", scope="module")
def break_campaign(tmp_path_factory: pytest.TempPathFactory, tcrx: Path) -> Iterator[Broken]:
    """Kills a campaign and resumes it."""
    bench = Bench(tmp_path_factory.mktemp("broken"), tcrx)
    try:
        beside = kill_campaign(bench)
        has_ended, done, before = bench.have_jobs_ended(), bench.logged(), bench.starts()
        bench.hold.unlink()
        resumed, after = bench.finish(), bench.starts()
        again = bench.finish(), bench.starts()
        failed = bench.finish("--failed"), bench.starts()
        yield Broken(beside, has_ended, done, before, resumed, after, again, failed, bench.results)
    finally:
        bench.release()


@needs_parallel
def test_a_second_campaign_beside_the_first_is_refused(broken: Broken) -> None:
    assert (broken.beside.status, broken.beside.out) == (2, "") and "works in" in broken.beside.error


@needs_parallel
def test_a_killed_campaign_has_done_some_scripts(broken: Broken) -> None:
    assert broken.has_ended and 0 < len(broken.done) < COUNT and WAITING not in broken.done


@needs_parallel
def test_a_resumed_campaign_runs_each_script_once_that_was_not_done(broken: Broken) -> None:
    assert {place: broken.after[place] for place in broken.done} == dict.fromkeys(broken.done, 1)
    others = set(range(COUNT)) - broken.done
    assert {place: broken.after[place] for place in others} == {place: broken.before[place] + 1 for place in others}
    assert broken.after[WAITING] == 2


@needs_parallel
def test_a_resumed_campaign_prints_a_line_for_each_script(broken: Broken) -> None:
    assert broken.resumed.status == 1 and f"{len(broken.done)} of {COUNT} scripts were done before" in broken.resumed.error
    assert broken.resumed.lines == lines_of(f"{COUNT} scripts: {COUNT - 1} done, 1 fault")


@needs_parallel
def test_the_results_of_a_resumed_campaign_are_what_tcrx_prints(broken: Broken) -> None:
    answers = "frame 1 E1 accepted 1 queued 0 dropped 0 rest 0\nfinal 1 01040001 events 1 buffered 1\n"
    wanted = {f"case{place:03d}.{place}.out": "clcw 1 01040000\n" if place == BAD else answers for place in range(COUNT)}
    assert {name: (broken.results / name).read_text() for name in wanted} == wanted


@needs_parallel
def test_a_campaign_that_is_done_runs_nothing_again(broken: Broken) -> None:
    ended, starts = broken.again
    assert (ended.status, len(ended.lines), starts - broken.after) == (1, COUNT + 1, Counter())


@needs_parallel
def test_failed_runs_the_bad_script_again(broken: Broken) -> None:
    ended, starts = broken.failed
    assert (ended.status, starts - broken.again[1]) == (1, Counter([BAD]))


@pytest.fixture(name="bench")
def make_bench(tmp_path: Path, tcrx: Path) -> Iterator[Bench]:
    """Returns a folder of 200 scripts. Ends the program that waits at one of them."""
    bench = Bench(tmp_path, tcrx)
    yield bench
    bench.release()


@needs_parallel
def test_a_terminated_campaign_ends_at_once_and_can_be_resumed(bench: Bench) -> None:
    bench.hold.touch()
    child = bench.begin()
    bench.wait_for_script()
    begun = time.monotonic()
    child.terminate()
    out, error = child.communicate(timeout=PATIENCE)
    assert (child.returncode, out) == (143, "") and "goes on from here" in error
    assert time.monotonic() - begun < 25, "the campaign waits for the job that runs"
    assert bench.have_jobs_ended()
    before, done = bench.starts(), bench.logged() - {WAITING}
    bench.hold.unlink()
    resumed = bench.finish()
    assert (resumed.status, resumed.lines) == (1, lines_of(f"{COUNT} scripts: {COUNT - 1} done, 1 fault"))
    again = bench.starts() - before
    assert again[WAITING] == 1 and not set(again) & done


# --- Folders, machines and results ---

@needs_parallel
def test_results_of_other_scripts_are_refused(folder: Path, tcrx: Path) -> None:
    assert start("--program", tcrx, folder).status == 0
    (folder / "a.1.tcs").write_text("channel 1 10 1 0\n")
    is_refused(2, "other scripts, a.1.tcs", "--program", tcrx, folder)


@needs_parallel
def test_machines_from_a_file_and_another_results_folder(tmp_path: Path, tcrx: Path) -> None:
    machines, scripts = tmp_path / "machines", tmp_path / "two scripts"
    machines.write_text("2/:\n")
    scripts.mkdir()
    for name in ("a.b.0.tcs", "c.1023.tcs"):
        (scripts / name).write_text("channel 1 10 2 7\n")
    ended = start("--sshloginfile", machines, "--program", tcrx, "--results", tmp_path / "elsewhere", scripts)
    assert (ended.status, ended.lines) == (0, [f"a.b.0\tdone\t{FINAL}", f"c.1023\tdone\t{FINAL}", "2 scripts: 2 done"])
    assert (tmp_path / "elsewhere/a.b.0.out").is_file() and not (scripts / "results").exists()


@needs_parallel
@pytest.mark.parametrize("name", ["scripts", "joblog", "joblog.new", "a.1.out", "a.1.out.err", ""])
def test_a_link_among_the_results_or_in_their_place_is_refused(folder: Path, tmp_path: Path, tcrx: Path, name: str) -> None:
    mine, results = tmp_path / "mine", folder / "results"
    mine.mkdir()
    (mine / "a.1.out").write_text("mine\n")
    if name:
        results.mkdir()
    (results / name).symlink_to(mine / "a.1.out" if name else mine)
    is_refused(2, "is a link", "--program", tcrx, folder)
    assert [(each.name, each.read_text()) for each in mine.iterdir()] == [("a.1.out", "mine\n")]


@needs_parallel
def test_a_link_that_results_names_is_taken(folder: Path, tmp_path: Path, tcrx: Path) -> None:
    (tmp_path / "mine").mkdir()
    (folder / "results").symlink_to(tmp_path / "mine")
    assert start("--program", tcrx, "--results", folder / "results", folder).status == 0


@needs_parallel
@pytest.mark.parametrize("name", ["scripts", "joblog", "joblog.new", "a.1.out", "a.1.out.err", "a.1.out.seq"])
@pytest.mark.parametrize("kind", ["no plain file", "a hard link"])
def test_a_fifo_or_a_hard_link_among_the_results_is_refused_at_once(folder: Path, tmp_path: Path, tcrx: Path, kind: str, name: str) -> None:
    mine = tmp_path / "plain"
    (folder / "results").mkdir()
    mine.write_text("mine\n")
    if kind == "a hard link":
        os.link(mine, folder / "results" / name)
    else:
        os.mkfifo(folder / "results" / name)
    ended = start("--program", tcrx, folder, before=("timeout", "--kill-after=1", "5"))
    assert (ended.status, ended.out) == (70, "") and f"results/{name} can't be written: it is {kind}" in ended.error
    assert mine.read_text() == "mine\n"


# --- How the ends of programs are judged ---

WHOLE = "final 1 01040001 events 1 buffered 0\nqueue 1 5 0\nqueue 1 7 1\nfinal 2 01080000 events 0 buffered 0\nmap 2 3 0\n"
# For each spacecraft, the shell command that the program runs, and the state and the text that the campaign must print for its script. One of
# the commands kills the shell that GNU parallel started for it.
ENDS = [("echo answer; echo 'line 2: no memory' >&2; exit 1", "failed", "status 1 line 2: no memory"),
        ("echo answer; echo 'line 0: unbalanced' >&2; exit 1", "failed", "status 1 line 0: unbalanced"),
        ("echo answer; echo 'line 2: cannot write' >&2; exit 1", "failed", "status 1 line 2: cannot write"),
        ("echo answer; echo 'line 2: bad number' >&2; exit 1", "fault", "line 2: bad number"),
        ("echo answer; echo no memory >&2; exit 1", "failed", "status 1 no memory"),
        ("exit 255", "failed", "status 255"), ("kill -KILL $PPID", "killed", "by signal 9"), ("kill -TERM $$; sleep 9", "killed", "by signal 15"),
        ("exit 139", "killed", "by signal 11"), (f"echo answer; printf '{WHOLE}'", "done", WHOLE.strip().replace("\n", "; "))]
SUMMARY = [*(f"end.{place}\t{state}\t{text}" for place, (_, state, text) in enumerate(ENDS)), "10 scripts: 1 done, 1 fault, 3 killed, 5 failed"]
# The places of the scripts that another run starts again.
AGAIN = {place for place, (_, state, _) in enumerate(ENDS) if state in ("failed", "killed")}


class Ends:
    """A folder with a script for each row of ENDS, and a program that notes each start and runs the command of the row. The name of the folder
    isn't UTF-8."""

    def __init__(self, work: Path) -> None:
        self.folder, self.program, self.noted = work / os.fsdecode(b"scr\xffipts"), work / "ending", work / "ending.starts"
        self.folder.mkdir()
        for place in range(len(ENDS)):
            (self.folder / f"end.{place}.tcs").write_text("channel 1 10 1 0\n")
        cases = "\n".join(f"{place}) {what} ;;" for place, (what, _, _) in enumerate(ENDS))
        write_command(self.program, f'echo "$3" >>"{self.noted}"\ncase "$3" in\n{cases}\nesac\n')
        self.first, self.started = self.run()

    def run(self, *words: str | Path, after: tuple[str | Path, ...] = ()) -> tuple[Ended, set[int]]:
        """Runs the campaign. Returns what it ended with, and the scripts that it started, each of which must have been started only once."""
        self.noted.write_text("")
        ended = start("--program", self.program, "--jobs", "1", *words, self.folder, before=after)
        starts = [int(line) for line in self.noted.read_text().split()]
        assert len(starts) == len(set(starts)), f"scripts were started twice: {starts}"
        return ended, set(starts)

    def copy(self, target: Path) -> Path:
        """Copies the results of the first campaign to another folder, and returns it."""
        shutil.copytree(self.folder / "results", target)
        return target


@pytest.fixture(name="ends", scope="module")
def run_ends(tmp_path_factory: pytest.TempPathFactory) -> Ends:
    """Returns a folder whose campaign has run once."""
    return Ends(tmp_path_factory.mktemp("ends"))


@needs_parallel
def test_each_end_of_a_program_is_judged(ends: Ends) -> None:
    assert (ends.first.status, ends.first.lines, ends.started) == (1, SUMMARY, set(range(len(ENDS))))


@needs_parallel
def test_scripts_that_failed_or_were_killed_run_again(ends: Ends, tmp_path: Path) -> None:
    ended, started = ends.run("--results", ends.copy(tmp_path / "results"))
    assert (ended.status, ended.lines, started) == (1, SUMMARY, AGAIN)


def split_log(log: Path) -> tuple[bytes, bytes]:
    """Returns the line of the last script in a job log, and all other lines."""
    whole = log.read_bytes()
    mine = next(line for line in whole.splitlines(keepends=True) if line.startswith(b"10\t"))
    return mine, whole.replace(mine, b"")


# Job logs with half a line, as a full disk leaves them.
@needs_parallel
@pytest.mark.parametrize("where", ["without its line feed", "within its command", "within its status", "before another",
                                   "within its place, before another"])
def test_a_script_runs_again_if_its_line_of_the_job_log_ends(ends: Ends, tmp_path: Path, where: str) -> None:
    results = ends.copy(tmp_path / "results")
    mine, others = split_log(results / "joblog")
    text = {"without its line feed": mine[:-1], "within its command": mine[:-9], "within its status": mine[:mine.index(b"\t0\t0\t") + 2],
            "before another": mine[:-9] + mine, "within its place, before another": b"1" + mine[1:].replace(b".9.tcs", b".8.tcs")}
    (results / "joblog").write_bytes(others + text[where])
    ended, started = ends.run("--results", results)
    assert (ended.lines, started) == (SUMMARY, AGAIN | {9})


@needs_parallel
def test_the_last_of_two_lines_of_a_script_in_the_job_log_counts(ends: Ends, tmp_path: Path) -> None:
    results = ends.copy(tmp_path / "results")
    mine, others = split_log(results / "joblog")
    (results / "joblog").write_bytes(others + mine.replace(b"\t0\t0\t", b"\t9\t0\t") + mine)
    assert ends.run("--results", results)[1] == AGAIN


# --- Stored results ---

@needs_parallel
def test_results_that_are_the_stored_ones_change_nothing(ends: Ends, tmp_path: Path) -> None:
    ended, _ = ends.run("--results", ends.copy(tmp_path / "results"), "--expect", ends.copy(tmp_path / "stored"))
    assert ended.lines == SUMMARY


@needs_parallel
@pytest.mark.parametrize("kind, reason", [
    ("a blank more", "line 4 is `queue 1 7 1` and not `queue 1 7 1 `"), ("a line more", "line 7 is `` and not `more`"),
    ("a line feed less", "line 7 is `` and not ``"), ("nothing", "line 1 is `answer` and not ``")], ids=["blank", "line", "line feed", "empty"])
def test_a_result_that_is_not_the_stored_one_differs(ends: Ends, tmp_path: Path, kind: str, reason: str) -> None:
    stored = ends.copy(tmp_path / "stored")
    out = stored / "end.9.out"
    text = out.read_text()
    changed = {"a blank more": text.replace("queue 1 7 1", "queue 1 7 1 "), "a line more": text + "more\n", "a line feed less": text[:-1],
               "nothing": ""}
    out.write_text(changed[kind])
    ended, started = ends.run("--results", ends.copy(tmp_path / "results"), "--expect", stored)
    assert ended.status == 1 and f"end.9\tdiffers\t{reason}" in ended.lines and 9 not in started
    assert ended.lines[-1].startswith("10 scripts: 0 done, 1 differs, 1 fault")


@needs_parallel
def test_a_stored_result_that_is_missing_differs(ends: Ends, tmp_path: Path) -> None:
    stored = ends.copy(tmp_path / "stored")
    (stored / "end.3.out").unlink()
    ended, _ = ends.run("--results", ends.copy(tmp_path / "results"), "--expect", stored)
    assert "end.3\tdiffers\t" in ended.out and "end.3.out can't be read: No such file" in ended.out


@needs_parallel
def test_a_missing_folder_of_stored_results_is_refused(ends: Ends, tmp_path: Path) -> None:
    is_refused(2, "is no folder", "--expect", tmp_path / "missing", ends.folder)


@needs_parallel
def test_results_are_not_compared_with_themselves(ends: Ends) -> None:
    is_refused(2, "compared with itself", "--expect", ends.folder / "results", ends.folder)


@needs_parallel
@pytest.mark.parametrize("stored, status, lines", [
    (FINAL, 0, [f"a.1\tdone\t{FINAL}", "1 scripts: 1 done"]),
    (OTHER, 1, [f"a.1\tdiffers\tline 1 is `{FINAL}` and not `{OTHER}`", "1 scripts: 0 done, 1 differs"])],
    ids=["as stored", "another"])
def test_a_stored_result_alone_decides(folder: Path, tmp_path: Path, tcrx: Path, stored: str, status: int, lines: list[str]) -> None:
    (tmp_path / "stored").mkdir()
    (tmp_path / "stored/a.1.out").write_text(f"{stored}\n")
    ended = start("--program", tcrx, "--expect", tmp_path / "stored", folder)
    assert (ended.status, ended.lines) == (status, lines)


# --- Long reports, full disks and closed pipes ---

@needs_parallel
def test_a_long_report_is_cut_after_1000_characters(folder: Path, tcrx: Path) -> None:
    (folder / "a.1.tcs").write_text("channel 1 10 2 7\n" + "".join(f"queue 1 {application} 1\n" for application in range(2_000)))
    ended = start("--program", tcrx, folder)
    report = "; ".join([FINAL, *(f"queue 1 {application} 0" for application in range(2_000))])
    assert (ended.status, ended.lines) == (0, [f"a.1\tdone\t{report[:1000]} ...", "1 scripts: 1 done"])


@needs_parallel
@pytest.mark.parametrize("shell, reason", [('"$@" >/dev/full', "No space left"), ('{ "$@"; echo $? >"$0"; } | true', "Broken pipe")],
                         ids=["full disk", "closed pipe"])
def test_a_summary_that_cannot_be_written(ends: Ends, tmp_path: Path, shell: str, reason: str) -> None:
    ended, _ = ends.run("--results", ends.copy(tmp_path / "results"), after=("bash", "-c", shell, tmp_path / "status"))
    status = ended.status or int((tmp_path / "status").read_text())
    assert status == 70 and f"standard output can't be written: {reason}" in ended.error and "Traceback" not in ended.error


@needs_parallel
@pytest.mark.parametrize("limit, file", [(0, "scripts"), (1, "joblog.new")])
def test_files_of_a_campaign_that_cannot_be_written(ends: Ends, tmp_path: Path, limit: int, file: str) -> None:
    results = tmp_path / "limited"
    if limit:
        # The line of one script becomes longer than the limit of 1,024 octets, so that the log can't be written anew.
        log = ends.copy(results) / "joblog"
        log.write_bytes(re.sub(rb"(?m)^(10\t.*)$", rb"\1 " + b"x" * 2000, log.read_bytes()))
    ended, started = ends.run("--results", results, after=("bash", "-c", f'ulimit -f {limit}; exec "$@"', "bash"))
    assert (ended.status, started) == (70, set()) and f"{file} can't be written" in ended.error and "Traceback" not in ended.error


def can_mount() -> bool:
    """Returns whether this user may mount a file system here."""
    if os.geteuid():
        return False
    with tempfile.TemporaryDirectory() as disk:
        if subprocess.run(["mount", "-t", "tmpfs", "tmpfs", disk], stderr=subprocess.DEVNULL, check=False).returncode:
            return False
        subprocess.run(["umount", disk], check=True)
    return True


if can_mount():
    @pytest.fixture(name="small_disk")
    def mount_small_disk(tmp_path: Path) -> Iterator[Path]:
        """Mounts a file system of 48 KiB, and returns its folder."""
        disk = tmp_path / "disk"
        disk.mkdir()
        subprocess.run(["mount", "-t", "tmpfs", "-o", "size=48k", "tmpfs", disk], check=True)
        yield disk
        subprocess.run(["umount", disk], check=True)

    @needs_parallel
    def test_a_cut_result_on_a_full_disk_does_not_count_as_done(small_disk: Path, tmp_path: Path, tcrx: Path) -> None:
        many, results = tmp_path / "many", small_disk / "results"
        many.mkdir()
        for place in range(24):
            (many / f"s.{place}.tcs").write_text("channel 1 10 2 0\n" + "clcw 1\n" * 100)
        full = start("--program", tcrx, "--results", results, many)
        assert full.status == 1 and "Traceback" not in full.error
        done = {line.split("\t")[0] for line in full.lines if line.split("\t")[1:2] == ["done"]}
        assert 0 < len(done) < 24 and {(results / f"{name}.out").read_text().count("\n") for name in done} == {101}
        subprocess.run(["mount", "-o", "remount,size=4m", small_disk], check=True)
        again = start("--program", tcrx, "--results", results, many)
        assert again.status == 0 and {(results / f"s.{place}.out").read_text().count("\n") for place in range(24)} == {101}


# --- GNU parallel and versions of Python ---

def test_a_gnu_parallel_that_starts_nothing_is_reported(folder: Path, other_path: Path, tcrx: Path) -> None:
    write_command(other_path / "parallel", '[ "$1" = --version ] || exit 255\necho GNU parallel\n')
    is_refused(70, "ended with status 255", "--program", tcrx, folder, path=f"{other_path}:{os.environ['PATH']}")


@pytest.mark.parametrize("has_machines", [False, True], ids=["this machine", "machines"])
def test_gnu_parallel_brings_scripts_to_given_machines_and_removes_them_there(folder: Path, other_path: Path, tcrx: Path, has_machines: bool) -> None:
    noted, machines = other_path / "words", other_path / "one machine"
    machines.write_text("1/:\n")
    write_command(other_path / "parallel", f'[ "$1" = --version ] || printf "%s\\n" "$@" >"{noted}"\necho GNU parallel\n')
    meant = ["--sshloginfile", str(machines.resolve()), "--transferfile", "{1}", "--cleanup"]
    more = ["--sshloginfile", str(machines)] if has_machines else []
    start("--program", tcrx, *more, folder, path=f"{other_path}:{os.environ['PATH']}")
    assert [word for word in noted.read_text().splitlines() if word in meant] == (meant if has_machines else [])


@needs_parallel
@pytest.mark.parametrize("version", VERSIONS)
def test_python_3_9_and_later_run_a_campaign_and_older_ones_say_why_not(folder: Path, tcrx: Path, version: str) -> None:
    command = sys.executable if version == OWN else pythons.find(version)
    assert command
    ended = start("--program", tcrx, folder, python=command)
    if int(version.partition(".")[2]) >= 9:
        assert (ended.status, ended.lines) == (0, [f"a.1\tdone\t{FINAL}", "1 scripts: 1 done"])
    else:
        assert (ended.status, ended.out) == (1, "") and "Python 3.9 or later is needed" in ended.error and not (folder / "results").exists()
