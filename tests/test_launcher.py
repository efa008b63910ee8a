"""Shows when the launcher of the programs builds them, what it says and keeps if a build is interrupted or fails, how starts and builds wait for each
other, when a program of dist takes the place of one that isn't built, and what --try, --build and --test do. Everything runs in a small tree with a
stand-in for `rt`, which proves nothing (launcher_parts.py)."""
# pylint: disable=missing-function-docstring  # the names of the tests say what they show
from __future__ import annotations

import fcntl
import os
import re
import shutil
import signal
from pathlib import Path
from typing import Any, Iterator, NamedTuple

import pytest
from comparing import TOP, until
from launcher_parts import DistTree, Ended, Tree, write_command

# Crates that don't depend on each other begin together.
MEETING = ("meet tc_link tc_packet", "meet tc_packet tc_link", "meet tc_status tc_text", "meet tc_text tc_status")
NO_RT = "the command rt, which the build needs, isn't on the path"


@pytest.fixture(name="tree")
def make_tree(tmp_path: Path) -> Iterator[Tree]:
    """Returns a tree in which nothing is built. No temporary file may be left when the test ends."""
    tree = Tree(tmp_path)
    yield tree
    tree.close()
    assert not list(tree.temporary.iterdir())


@pytest.fixture(name="built")
def build_tree(tree: Tree) -> Tree:
    """Returns a tree in which one start has built the program tcrx."""
    assert tree.start("tcrx").status == 0
    tree.called()
    return tree


@pytest.fixture(name="dist")
def make_dist_tree(tmp_path: Path) -> Iterator[DistTree]:
    """Returns a tree in which nothing is built, with a folder dist. No temporary file may be left when the test ends."""
    tree = DistTree(tmp_path)
    yield tree
    tree.close()
    assert not list(tree.temporary.iterdir())


def reaches(tree: Tree, builds: int, *words: str, **more: Any) -> Ended:
    """Starts tcrx, and asserts that its program was reached, after so many builds in this tree. Returns how it ended."""
    ended = tree.start("tcrx", *words, **more)
    assert (ended.status, tree.builds()) == (0, builds) and "words: " in ended.out
    return ended


def gives_up(tree: Tree, reason: str, *words: str, **more: Any) -> Ended:
    """Starts tcrx, and asserts that it finds no program, and says why. Returns how it ended."""
    ended = tree.start("tcrx", *words, **more)
    assert (ended.status, ended.out) == (70, "") and "tcrx: the program isn't built" in ended.error and reason in ended.error
    return ended


# --- A first start ---

class First(NamedTuple):
    """A tree with a first start in it, whose crates begin together where they can."""

    tree: Tree
    ended: Ended


@pytest.fixture(name="first", scope="module")
def start_first(tmp_path_factory: pytest.TempPathFactory) -> First:
    """Starts a program that isn't built. The tests that share the tree don't change it."""
    tree = Tree(tmp_path_factory.mktemp("first"))
    tree.rt_does(*MEETING)
    return First(tree, tree.start("tcrx", "run", "--scid", "42", given="hello"))


def test_a_first_start_builds_the_program_and_gives_it_words_and_input(first: First) -> None:
    assert first.ended.status == 0 and first.ended.lines[:2] == ["words: run --scid 42", "input: hello"]


def test_a_first_start_builds_each_crate_once_with_no_input(first: First) -> None:
    wanted = "tc_channel: lib,tc_cli: lib,tc_link: lib,tc_packet: lib,tc_station: lib,tc_status: lib,tc_text: lib,tcrx: run -- --help"
    assert sorted(re.sub(r" --jobs \d", "", line) for line in first.tree.starts()) == wanted.split(",")


def test_crates_that_begin_together_share_the_jobs_and_one_alone_gets_all(first: First) -> None:
    assert first.tree.jobs("tc_link", "tc_packet", "tc_channel", "tc_status", "tc_text", "tc_cli", "tcrx") == [2, 2, 4, 2, 2, 4, 4]


def test_no_rt_waits_for_another(first: First) -> None:
    assert not (first.tree.top / "rt.waited").exists()


def test_a_build_says_how_many_crates_it_builds_and_what_to_do_meanwhile(first: First) -> None:
    lines = first.ended.error.splitlines()
    assert lines[0].partition(". ")[0] == "tcrx: proving and building 8 crates, with at most 4 jobs at a time"
    assert lines[2] == "tcrx: Meanwhile ./tcrx --try WORD... runs the program unproved."


def test_a_build_says_for_each_crate_how_many_are_done_and_which_are_in_progress(first: First) -> None:
    lines = [line for line in first.ended.error.splitlines() if " of 8 crates done" in line]
    form = r".*3 of 8 crates done, the last was tc_channel \(\d+ s\); in progress: tc_status, tc_text"
    assert len(lines) == 9 and sum(re.fullmatch(form, line) is not None for line in lines) == 1


def test_the_program_its_stamp_and_the_libraries_are_left(first: First) -> None:
    assert first.tree.left() == ["built", "tcrx"] and os.listdir(first.tree.crates / "tc_status/out") == ["rlib"]


@pytest.mark.parametrize("words, count", [("--help", 3), ("-h", 3), ("run --help", 0)], ids=["--help", "-h", "run --help"])
def test_help_lists_the_words_of_the_launcher(first: First, words: str, count: int) -> None:
    ended = first.tree.start("tcrx", *words.split())
    assert ended.lines[0] == f"words: {words}" and len(re.findall("^  --(?:try|build|test)  ", ended.out, re.M)) == count


def test_arenas_of_memory_under_a_limit_of_address_space(first: First) -> None:
    assert "arenas: 1" in first.tree.start("tcrx", before=("bash", "-c", 'ulimit -v 4000000; exec "$@"', "bash")).lines


# --- Later starts ---

def test_a_second_start_builds_nothing_reads_no_source_and_has_the_status_of_the_program(built: Tree) -> None:
    ended = built.start("tcrx", "fail")
    assert (ended.status, ended.error, built.called(), built.builds()) == (3, "tcrx: why it failed\n", ["find"], 1)


def test_new_times_of_sources_lead_to_no_build(built: Tree) -> None:
    built.change("touch tc_link/src/lib.rt ../crates.txt")
    reaches(built, 1)
    built.called()
    assert reaches(built, 1).error == "" and built.called() == ["find"], "the second start after them reads sources"


# A change in the folder of the crates after a build, and the builds that it leads to. If there must be no build, there is no `rt` on the path.
@pytest.mark.parametrize("more, change", [
    pytest.param(0, "echo changed >station_tests/src/lib.rt; sed -i 's/^station_tests .*/station_tests: tc_link/' ../crates.txt",
                 id="crate of tests"),
    pytest.param(0, "mkdir tc_link/must-fail; touch tcrx/stdin tc_link/{wrong.edits,must-fail/a.edit}", id="stored lines and edits"),
    pytest.param(1, "echo changed >tc_link/specs/Lib.antt", id="specification"),
    pytest.param(1, "echo changed >tc_station/src/more.rt", id="new source"),
    pytest.param(1, "rm tc_station/src/old.rt", id="removed source"),
    pytest.param(1, "mkdir tc_cli/proofs; echo >tc_cli/proofs/Lib.antt", id="new folder"),
    pytest.param(1, "cp -p tc_link/src/lib.rt was; echo fn tc_lonk >tc_link/src/lib.rt; touch -r was tc_link/src/lib.rt", id="same length and time"),
    pytest.param(1, "touch -d 'now + 1 day' tcrx/out/*; echo changed >tc_link/specs/Lib.antt", id="program of tomorrow"),
    pytest.param(1, "sed -i 's/^tc_text:/tc_text may_wait=1:/' ../crates.txt", id="line of crates.txt"),
    pytest.param(0, "rm tcrx/out/built", id="no stamp, as if another tool had built the program"),
    pytest.param(1, "echo old >tc_link/src/lib.rt; touch -d 2001-01-01 tc_link/src/lib.rt", id="old source"),
    pytest.param(0, "echo new >tc_link/src/lib.rt; echo '# as before' >>tcrx/out/tcrx", id="another tool has built the program anew since"),
    pytest.param(1, "rm tcrx/out/built; touch -d 'now + 1 minute' tc_link/src/lib.rt", id="another tool had built the program before")])
def test_a_change_leads_to_a_build_if_the_program_is_made_of_it(tree: Tree, more: int, change: str) -> None:
    (tree.crates / "tc_station/src/old.rt").touch()
    reaches(tree, 1)
    tree.change(change)
    reaches(tree, 1 + more, path=tree.with_rt if more else tree.without_rt)


def test_a_source_that_changes_while_it_is_built_is_built_again(tree: Tree) -> None:
    tree.rt_does("edit tcrx tc_link")
    reaches(tree, 1)
    tree.rt_does()
    reaches(tree, 2)


def test_starts_by_links_from_elsewhere_build_nothing(built: Tree) -> None:
    elsewhere = built.work / "elsewhere"
    elsewhere.mkdir()
    for name, target in (("tcrx", f"{built.top}/tcrx"), ("launch", f"{built.top}/tools/launch"), ("receiver", "tcrx")):
        (elsewhere / name).symlink_to(target)
    assert built.start("receiver", "run", where=elsewhere).lines[0] == "words: run"
    assert built.start("launch", "tcrx", "now", where=elsewhere).lines[0] == "words: now" and built.builds() == 1


# --- Builds that are interrupted or fail ---

@pytest.mark.parametrize("sent", [signal.SIGINT, signal.SIGTERM], ids=["INT", "TERM"])
def test_an_interrupted_build_ends_what_is_at_work_and_a_later_start_goes_on(tree: Tree, sent: signal.Signals) -> None:
    """Two crates are at work, of which one ignores signals. Both have kept something at the end."""
    tree.rt_does("meet tc_status tc_text", "meet tc_text tc_status", "keep tc_status", "deaf tc_status", "wait tc_text")
    beside = tree.begin("tcrx")
    assert until(lambda: len(tree.at_work()) == 2)
    beside.child.send_signal(sent)
    ended = beside.end()
    assert (ended.status < 0 or ended.status > 128) and tree.left() == []
    assert ended.error.splitlines()[-2:] == ["tcrx: interrupted. What is proved is kept, and the next start continues from there.",
                                             "tcrx: 3 of 8 crates done; in progress: tc_status, tc_text"]
    assert until(lambda: not tree.at_work())
    tree.rt_does("keep tc_status")
    tree.start("tcrx")
    assert (tree.starts()[-1], tree.left(), tree.kept()) == ("tcrx: run --jobs 4 -- --help", ["built", "tcrx"], [2, 1])


def test_a_program_that_fails_half_written_is_not_taken(tree: Tree) -> None:
    tree.rt_does("half tcrx", "fail tcrx")
    gives_up(tree, "the build failed in the crate tcrx")
    tree.rt_does()
    reaches(tree, 2)
    assert tree.left() == ["built", "tcrx"]


def test_what_a_killed_build_leaves_is_not_taken_for_the_program(tree: Tree) -> None:
    tree.rt_does("half tcrx", "wait tcrx")
    beside = tree.begin("tcrx")
    assert until(lambda: len(tree.at_work()) == 1)
    group = os.getpgid(tree.at_work()[0])
    beside.child.kill()
    os.killpg(group, signal.SIGKILL)
    beside.end()
    assert os.access(tree.top / "out/rooms/tcrx/crates/tcrx/out/tcrx", os.X_OK), "the killed build left no program in its room"
    tree.rt_does()
    reaches(tree, 2)
    assert tree.left() == ["built", "tcrx"]


def test_a_crate_that_fails_ends_the_one_beside_it_and_a_later_build_goes_on(tree: Tree) -> None:
    """Both have kept something."""
    tree.rt_does("keep tc_text", "keep tc_status", "wait tc_text", "second tc_status", "fail tc_status")
    ended = gives_up(tree, f"the reason that rt gives, in {tree.crates}/tc_status")
    assert "tcrx: the build failed in the crate tc_status. These are the last lines of " in ended.error
    assert until(lambda: not tree.at_work()) and not (tree.top / "out").exists()
    tree.rt_does("keep tc_text", "keep tc_status")
    assert (tree.start("tcrx", "--build").status, tree.builds(), tree.kept()) == (0, 4, [2, 3])


def test_a_build_without_a_folder_for_rooms(tree: Tree) -> None:
    (tree.top / "out").touch()
    gives_up(tree, f"the folder {tree.top}/out/rooms can't be created.")


def test_a_stamp_that_cannot_be_written(tree: Tree) -> None:
    (tree.crates / "tcrx/out/built").mkdir(parents=True)
    gives_up(tree, "crates/tcrx/out/built can't be written")


def test_a_start_whose_progress_cannot_be_written_builds(tree: Tree) -> None:
    tree.start("tcrx", error=Path("/dev/full"))
    assert tree.left() == ["built", "tcrx"]


def test_a_start_whose_progress_nobody_reads_builds(tree: Tree) -> None:
    tree.start("tcrx", before=("bash", "-c", 'env --default-signal=PIPE "$@" 2> >(true)', "bash"))
    assert tree.left() == ["built", "tcrx"]


def test_a_start_without_rt_says_what_there_is_without_the_kit(tree: Tree) -> None:
    assert "tcrx: Without the kit you can run make -C dist demo" in gives_up(tree, NO_RT, path=tree.without_rt).error


def test_a_start_without_flock(tree: Tree) -> None:
    (tree.tools / "flock").unlink()
    gives_up(tree, "the command flock, which the build needs, isn't on the path")


def test_a_tree_that_cannot_be_written(tree: Tree) -> None:
    (tree.crates / "tc_link/out").touch()
    gives_up(tree, "crates/tc_link/out can't be written")


def test_a_tree_without_crates_txt(tree: Tree) -> None:
    (tree.top / "crates.txt").unlink()
    gives_up(tree, "crates.txt doesn't say what it is made of")


# --- Jobs ---

def test_one_processor_builds_crates_one_by_one_those_with_the_most_waiting_lines_first(tree: Tree) -> None:
    tree.rt_does("apart tc_packet tc_link")
    write_command(tree.kit / "nproc", "echo 1")
    (tree.crates / "tc_packet/src/more.rt").write_text("one\nline\nmore\n")
    tree.start("tcrx", names={"RT_JOBS": None})
    order = "tc_packet tc_link tc_channel tc_status tc_text tc_station tc_cli tcrx"
    assert [line.partition(":")[0] for line in tree.starts()] == order.split() and tree.jobs("tc_packet", "tc_channel") == [1, 1]


# The processors, the free memory in kB, and the control group's limit in bytes. Then come the number of jobs that is announced, the jobs of two
# crates that begin together, and those of one that is alone.
@pytest.mark.parametrize("machine, announced, due", [
    ((4, 99000000, "max"), 4, [2, 2, 4]), ((2, 99000000, "max"), 2, [1, 1, 2]), ((32, 99000000, "max"), 32, [8, 8, 8]),
    ((8, 12600000, "max"), 5, [3, 2, 5]), ((4, 99000000, "8000000000"), 3, [2, 1, 3]), ((4, 2000000, "max"), 1, [1, 1, 1])],
    ids=["4 processors", "2 processors", "32 processors", "memory for 5", "control group for 3", "memory for 1"])
def test_the_number_of_jobs_follows_from_processors_and_memory(tree: Tree, machine: tuple[int, int, str], announced: int, due: list[int]) -> None:
    processors, memory, group = machine
    free, most = tree.work / "free", tree.work / "most"
    write_command(tree.kit / "nproc", f"echo {processors}")
    write_command(tree.kit / "sed", f'exec {shutil.which("sed")} "${{@//\\/proc\\/meminfo/{free}}}"')
    write_command(tree.kit / "grep", f'exec {shutil.which("grep")} "${{@//\\/sys\\/fs\\/cgroup\\/memory.max/{most}}}"')
    free.write_text(f"MemTotal: 99000000 kB\nMemAvailable: {memory} kB\n")
    most.write_text(f"{group}\n")
    ended = tree.start("tcrx", names={"RT_JOBS": None})
    assert re.findall(r" at most (\d+) ", ended.error.splitlines()[0]) == [str(announced)]
    assert tree.jobs("tc_packet", "tc_link", "tc_channel") == due


def test_a_crate_that_begins_beside_another_gets_the_jobs_that_are_free(tree: Tree) -> None:
    tree.rt_does("meet tc_text tc_station", "meet tc_station tc_text")
    tree.start("tcrx")
    assert tree.jobs("tc_status", "tc_text", "tc_station", "tc_cli") == [2, 2, 2, 4]


# --- Starts and builds that wait ---

def is_free(folder: Path) -> bool:
    """Returns whether no `rt` and no build has locked a folder."""
    opened = os.open(folder, os.O_RDONLY)
    try:
        fcntl.flock(opened, fcntl.LOCK_EX | fcntl.LOCK_NB)
        return True
    except OSError:
        return False
    finally:
        os.close(opened)


def test_a_build_waits_for_another_rt_and_a_second_start_waits_for_the_build(tree: Tree) -> None:
    """While the program of the first start runs, whose input ends last, no `rt` has to wait."""
    tree.rt_does("paused tcrx")
    locked, (reader, writer) = os.open(tree.crates / "tc_link", os.O_RDONLY), os.pipe()
    try:
        fcntl.flock(locked, fcntl.LOCK_EX)
        first = tree.begin("tcrx", "first", stdin=reader)
        assert until(lambda: first.says("tcrx: waiting for another rt, which is at work in the crate tc_link."))
        fcntl.flock(locked, fcntl.LOCK_UN)
        assert until(lambda: tree.builds() == 1) and not is_free(tree.crates / "tc_station")
        second = tree.begin("tcrx", "second")
        assert until(lambda: second.says("tcrx: waiting for another start, which is building a program."))
        (tree.top / "go").touch()
        assert second.end().lines[0] == "words: second"
        assert until(lambda: is_free(tree.crates / "tc_station"))
    finally:
        for descriptor in (locked, reader, writer):
            os.close(descriptor)
    assert first.end().lines[0] == "words: first" and tree.builds() == 1


# --- The program in dist in the place of one that isn't built ---

def answers(dist: DistTree, compiled: int, *words: str, **more: Any) -> Ended:
    """Starts a program, and asserts that the one in dist was reached. The C compiler must have been started so many times, and `rt` not at all."""
    ended = dist.start(*words, **more)
    assert (ended.status, ended.out, dist.compiled(), dist.builds()) == (0, f"dist: {' '.join(words[1:])}\n", compiled, 0)
    return ended


def test_without_the_kit_the_program_in_dist_answers_and_a_line_says_how_to_prove_one(dist: DistTree) -> None:
    ended = answers(dist, 1, "tcrx", "run", "--scid", "42", path=dist.with_cc)
    assert re.fullmatch("tcrx: dist.tcrx answers, .* with the Rattle kit, run ./tcrx --build\n", ended.error)


def test_a_second_start_of_the_program_in_dist_reads_no_source_and_says_nothing(dist: DistTree) -> None:
    answers(dist, 1, "tcrx", "run", path=dist.with_cc)
    dist.called()
    assert answers(dist, 1, "tcrx", "run", "--scid", "43", path=dist.with_cc).error == "" and dist.called() == ["find"]


@pytest.mark.parametrize("words", ["tcrx run", "tclive --fecf", "tcmake --strict"])
def test_with_the_kit_a_start_takes_the_program_in_dist_too(dist: DistTree, words: str) -> None:
    answers(dist, 1, *words.split(), path=dist.with_both)


def test_wrong_words_start_no_proof(dist: DistTree) -> None:
    ended = dist.start("tcrx", "wrong", path=dist.with_both)
    assert (ended.status, ended.out, dist.builds()) == (2, "dist: wrong\n", 0)


def test_help_of_the_program_in_dist_lists_the_words_of_the_launcher(dist: DistTree) -> None:
    ended = dist.start("tcrx", "--help", path=dist.with_cc)
    assert ended.lines[0] == "dist: --help" and len(re.findall("^  --(?:try|build|test|no-dist)  ", ended.out, re.M)) == 4


def test_a_program_that_is_in_dist_already_answers_if_nothing_may_be_built(dist: DistTree) -> None:
    answers(dist, 1, "tcrx", path=dist.with_cc)
    answers(dist, 1, "tcrx", path=dist.with_cc, names={"TCRX_BUILD": "no"})


def test_a_program_in_dist_that_is_older_than_its_assembly_is_made_again_if_that_is_allowed(dist: DistTree) -> None:
    answers(dist, 1, "tcrx", path=dist.with_cc)
    next(dist.top.glob("dist/*/tcrx_lines.s")).write_text("changed\n")
    gives_up(dist, "a start without TCRX_BUILD=no builds it from dist", path=dist.with_cc, names={"TCRX_BUILD": "no"})
    answers(dist, 2, "tcrx", path=dist.with_cc)


def test_a_program_that_make_has_built_in_dist_answers(dist: DistTree) -> None:
    answers(dist, 1, "tcrx", path=dist.with_cc)
    (dist.top / "dist/.tcrx.built").unlink()
    answers(dist, 1, "tcrx", path=dist.with_cc)


def test_after_an_edit_only_programs_that_are_made_without_it_answer_from_dist(dist: DistTree) -> None:
    dist.change("echo changed >tc_cli/src/lib.rt")
    gives_up(dist, NO_RT, path=dist.with_cc)
    gives_up(dist, "its sources have changed since", path=dist.with_both, names={"TCRX_BUILD": "dist"})
    answers(dist, 1, "tcmake", path=dist.with_cc)
    reaches(dist, 1, "run", path=dist.with_both)


def test_a_program_that_is_proved_and_built_comes_first(dist: DistTree) -> None:
    reaches(dist, 1, "--no-dist", "run", path=dist.with_both)
    reaches(dist, 1, "run", path=dist.with_both)
    dist.change("echo changed >tc_cli/src/lib.rt")
    dist.name_sources()
    ended = dist.start("tcrx", "run", path=dist.with_both)
    assert (ended.out, dist.builds()) == ("dist: run\n", 1), "one that was built from earlier sources comes first"


def test_the_proved_program_is_built_if_that_is_requested(dist: DistTree) -> None:
    answers(dist, 1, "tcrx", path=dist.with_both)
    assert "words: run --scid 42" in reaches(dist, 1, "--no-dist", "run", "--scid", "42", path=dist.with_both).lines


def test_the_proved_program_cannot_be_had_without_the_kit(dist: DistTree) -> None:
    gives_up(dist, NO_RT, "--no-dist", "run", path=dist.with_cc)


def test_a_start_may_be_allowed_to_build_nothing_or_only_the_program_in_dist(dist: DistTree) -> None:
    gives_up(dist, "a start without TCRX_BUILD=no builds it from dist", path=dist.with_both, names={"TCRX_BUILD": "no"})
    answers(dist, 1, "tcrx", "run", path=dist.with_both, names={"TCRX_BUILD": "dist"})


@pytest.mark.parametrize("lacking, reason", [
    ("compiler", "there is no C compiler (nocc)."), ("assembly", "it has no assembly for this processor (sparc64)."),
    ("permission", "TREE/dist can't be written."), ("headers", "TREE/dist/tcrx can't be built: tcrx.c:1: no stdio.h.")],
    ids=["compiler", "assembly", "permission", "headers"])
def test_if_something_is_missing_for_dist_the_program_is_proved_or_a_line_says_what(dist: DistTree, lacking: str, reason: str) -> None:
    names = {"compiler": {"CC": "nocc"}, "assembly": {"HOSTTYPE": "sparc64"}}.get(lacking, {})
    if lacking == "permission":
        write_command(dist.compiler / "mktemp", "exit 1")
    elif lacking == "headers":
        (dist.work / "no_headers").touch()
    reason = reason.replace("TREE", str(dist.top))
    ended = gives_up(dist, f"dist can't take its place: {reason}", "run", path=dist.with_cc, names=names)
    assert len([line for line in ended.error.splitlines() if ": dist/tcrx answers, " not in line]) == 1
    reaches(dist, 1, "run", path=dist.with_both, names=names)
    assert dist.made() == []


def test_a_command_of_the_proved_program_alone(dist: DistTree) -> None:
    ended = dist.start("tcrx", "parallel", "--scid", "42", path=dist.with_cc)
    assert (ended.status, ended.out) == (70, "dist: parallel --scid 42\n")
    assert ended.error.splitlines()[1].startswith("tcrx: the program isn't built, and the command ")
    ended = dist.start("tcrx", "parallel", "--scid", "42", path=dist.with_both)
    assert (ended.status, ended.lines[-3], dist.builds()) == (0, "words: parallel --scid 42", 1)


def test_of_two_starts_at_once_each_gets_a_whole_program_in_dist(dist: DistTree) -> None:
    (dist.work / "slow").touch()
    both = [dist.begin("tcrx", place, path=dist.with_cc) for place in ("1", "2")]
    assert [beside.end().out for beside in both] == ["dist: 1\n", "dist: 2\n"]
    assert (dist.compiled(), dist.made()) == (2, [".tcrx.built", "tcrx"])
    answers(dist, 2, "tcrx", path=dist.with_cc)


# --- Sources that are tried unproved ---

def test_a_program_that_is_tried_gets_words_and_input_and_leaves_nothing(tree: Tree) -> None:
    ended = tree.start("tcrx", "--try", "run", "--scid", "42", given="hello")
    assert ended.status == 0 and ended.lines[:2] == ["words: run --scid 42", "input: hello"]
    assert len(re.findall("^tcrx: .*unproved", ended.error, re.M)) == 1
    assert not re.search("^(interpreter|checked|run=)", ended.error, re.M), "the lines that rt adds"
    assert tree.starts() == ["tcrx: try -- run --scid 42"] and sorted(os.listdir(tree.crates / "tcrx")) == ["specs", "src"]


def test_a_program_that_is_tried_has_its_own_status(tree: Tree) -> None:
    ended = tree.start("tcrx", "--try", "fail")
    assert ended.status == 3 and "tcrx: why it failed" in ended.error


def test_help_of_a_program_that_is_tried_waits_for_no_input(tree: Tree) -> None:
    reader, writer = os.pipe()
    with open(reader, "rb") as stdin, open(writer, "wb"):
        assert tree.start("tcrx", "--try", "--help", stdin=stdin).status == 0


def test_sources_that_cannot_be_run(tree: Tree) -> None:
    tree.change("echo fault >tcrx/src/lib.rt")
    ended = tree.start("tcrx", "--try")
    assert ended.status == 70 and "error[unused-must-use]" in ended.error


def test_a_program_cannot_be_tried_without_rt(tree: Tree) -> None:
    ended = tree.start("tcrx", "--try", path=tree.without_rt)
    assert ended.status == 70 and "isn't on the path" in ended.error


@pytest.fixture(name="cases")
def lay_out_cases(tree: Tree) -> Tree:
    """Returns a tree with stored cases. The stand-in takes the input of a case for its output. Its status is 1 if the input has the word `fault`."""
    data = tree.crates / "conformance/data"
    for folder in (data, tree.top / "checks"):
        folder.mkdir(parents=True)
    for name in ("tcrx", "tclive", "tcmake"):
        for file in ("stdin", "stdout"):
            (tree.crates / name / file).write_text(f"lines of {name}\n")
    for ending in ("script", "out"):
        (data / f"one.{ending}").write_text("one\n")
        (data / f"two.{ending}").write_text("fault\n")
    (data / "index").write_text("one 7\ntwo 42 line 1: fault\n")
    (tree.top / "checks/tried_cases").write_text("tcrx one\ntcrx two\ntclive one\n")
    return tree


def test_stored_cases_can_be_tried_and_leave_nothing(cases: Tree) -> None:
    ended = cases.start("tcrx", "--try", "--test")
    assert (ended.status, ended.out) == (0, "test: 6 cases passed, 0 failed; the programs ran unproved, with checks at run time\n")
    assert sorted(line for line in cases.starts() if ": try" not in line) == ["one: --scid 7", "one: run --scid 7", "two: run --scid 42"]
    assert sorted(os.listdir(cases.crates / "tcrx")) == ["specs", "src", "stdin", "stdout"]


def test_tried_cases_with_another_answer_or_status_fail(cases: Tree) -> None:
    data = cases.crates / "conformance/data"
    (data / "one.out").write_text("other\n")
    (data / "index").write_text("one 7\ntwo 42\n")
    ended = cases.start("tclive", "--try", "--test")
    assert ended.status == 1 and len([line for line in ended.lines if re.search("output=differs|status=1", line)]) == 5
    assert ended.lines[-1] == "test: 3 cases passed, 3 failed; the programs ran unproved, with checks at run time"


# --- Requested builds, and starts that may build nothing ---

def test_a_start_that_may_build_nothing_says_what_builds_the_program(tree: Tree) -> None:
    ended = gives_up(tree, "This start builds nothing", names={"TCRX_BUILD": "no"})
    lines = ended.error.splitlines()
    assert lines[1] == f"tcrx: To prove and build it with the Rattle kit, run: {tree.top}/tcrx --build"
    assert lines[2].startswith("tcrx: Without the kit you can run make") and tree.builds() == 0


def test_a_requested_build_builds_each_crate_once_and_starts_no_program(tree: Tree) -> None:
    assert tree.start("tcrx", "--build", names={"TCRX_BUILD": "no"}).status == 0
    wanted = "tc_c tc_c_lines tc_channel tc_cli tc_link tc_packet tc_station tc_status tc_text tclive tcmake tcrx"
    assert sorted(line.partition(":")[0] for line in tree.starts()) == wanted.split()
    # Three crates begin together, and the one with the longest chain gets half of the jobs.
    assert tree.jobs("tc_channel", "tcmake", "tc_c") == [2, 1, 1]
    assert tree.start("tclive", "--build") == (0, "", "") and tree.builds() == 4
    reaches(tree, 4, names={"TCRX_BUILD": "no"})


def test_a_requested_build_builds_only_the_program_that_is_missing(tree: Tree) -> None:
    tree.start("tcrx", "--build")
    (tree.crates / "tcmake/out/tcmake").unlink()
    ended = tree.start("tclive", "--build", names={"TCRX_BUILD": "no", "RT_JOBS": "2"})
    assert ended.status == 0 and "tclive: proving and building 3 crates, with at most 2 jobs at a time." in ended.error
    assert (tree.builds(), tree.starts()[-1]) == (5, "tcmake: run --jobs 2 -- --help")


def test_nothing_that_was_built_from_other_sources_is_taken(tree: Tree) -> None:
    tree.start("tcrx", "--build")
    tree.change("echo changed >tc_link/src/lib.rt")
    gives_up(tree, "its sources have changed since", names={"TCRX_BUILD": "no"})
    ended = tree.start("tools/install", tree.work / "nowhere", "library", names={"TCRX_BUILD": "no"})
    assert ended.status == 70 and "install: the library isn't built, or its sources have changed since" in ended.error
    assert ended.error.splitlines()[1].endswith(f" run: {tree.top}/tcrx --build")
    assert tree.builds() == 4 and not (tree.work / "nowhere").exists()


# --- Quick checks, and words ---

def test_the_quick_checks_run_over_what_is_built(tree: Tree) -> None:
    """One of them compares, one skips some parts, one skips all, and one fails."""
    (tree.top / "checks").mkdir()
    write_command(tree.top / "checks/first", 'echo a line; echo "12 starts passed, 0 failed, $*"')
    write_command(tree.top / "checks/second", 'echo "second: 30 passed, 0 failed; skipped: one (3), two (4), $TCRX_INSTALL (5)"')
    write_command(tree.top / "checks/third", 'echo "third: 0 passed, 0 failed; skipped: all (12)"')
    write_command(tree.top / "checks/fourth", "echo what is wrong; exit 3")
    (tree.top / "checks/quick").write_text("checks/first -m quick\nchecks/second\nchecks/third\nchecks/fourth\n")
    ended = tree.start("tcrx", "--test")
    assert (ended.status, tree.builds()) == (1, 4)
    assert [re.sub(r", \d+ s:", ":", line) for line in ended.lines] == [
        "1 of 4 checks/first -m quick: 12 starts passed, 0 failed, -m quick",
        "2 of 4 checks/second: 30 passed, 0 failed; skipped: one (3), two (4), no (5)",
        "3 of 4 checks/third: 0 passed, 0 failed; skipped: all (12)", "what is wrong", "4 of 4 checks/fourth: failed with status 3",
        "test: 2 checks passed, 1 failed; 42 comparisons; 4 skipped: one (3), two (4), no (5), all (12)"]


def test_a_quick_check_alone(tree: Tree) -> None:
    (tree.top / "checks").mkdir()
    write_command(tree.top / "checks/first", "echo 12 starts passed, 0 failed")
    (tree.top / "checks/quick").write_text("checks/first\n")
    ended = tree.start("tclive", "--test")
    assert (ended.status, tree.builds(), ended.lines[-1]) == (0, 4, "test: 1 checks passed, 0 failed; 12 comparisons; 0 skipped")


def test_each_quick_check_is_there() -> None:
    commands = [line.split()[0] for line in (TOP / "checks/quick").read_text().splitlines()]
    assert commands and [name for name in commands if not os.access(TOP / name, os.X_OK)] == []


def test_another_word_is_refused_and_the_words_are_listed(tree: Tree) -> None:
    ended = tree.start("tools/launch", "--other", "tc_c")
    assert ended.status == 2 and "--other is none of these words" in ended.error
    assert len([line for line in ended.error.splitlines() if re.search(r"PROGRAM --(try|build|test) |--build NAME", line)]) == 5


@pytest.mark.parametrize("file, form", [
    ("crates/command_line/src/*.rt", '.*const VERSION: &str = "(.*)";$'), ("dist/tcrx.h", '#define TCRX_API_TEXT "(.*)"$'),
    ("clients/rust/Cargo.toml", 'version = "(.*)"$'), ("clients/python/tcrx/__init__.py", '__version__ = "(.*)"$')],
    ids=["programs", "C", "Rust", "Python"])
def test_a_version_is_that_of_the_newest_heading_of_the_changes(file: str, form: str) -> None:
    newest = re.findall(r"^## \[(\d[^\]]*)\]", (TOP / "CHANGELOG.md").read_text(), re.M)[0]
    assert [version for path in TOP.glob(file) for version in re.findall(f"^{form}", path.read_text(), re.M)] == [newest]
