"""Shows which files tools/install installs, with which modes, and that it replaces each file as a whole or leaves it as it was. It runs in a small
tree with stand-ins for `rt` and the C compiler (launcher_parts.py)."""
# pylint: disable=missing-function-docstring  # the names of the tests say what they show
from __future__ import annotations

import os
import re
import stat
import subprocess
from pathlib import Path
from typing import Iterator, NamedTuple

import pytest
from comparing import TOP, run
from launcher_parts import LICENCES, Ended, Tree, write_command

PYTHON = "share/dekorihe/python/tcrx"
VERSION = re.findall('^#define TCRX_API_TEXT "(.*)"$', (TOP / "dist/tcrx.h").read_text(), re.M)[0]


@pytest.fixture(name="tree")
def make_tree(tmp_path: Path) -> Iterator[Tree]:
    """Returns a tree in which nothing is built. No temporary file may be left when the test ends."""
    tree = Tree(tmp_path)
    yield tree
    tree.close()
    assert not list(tree.temporary.iterdir())


def fails(tree: Tree, status: int, reason: str, *words: object) -> Ended:
    """Starts tools/install, and asserts that it exits with this status and says why. Returns how it ended."""
    ended = tree.start("tools/install", *words)
    assert ended.status == status and reason in ended.error
    return ended


class Place(NamedTuple):
    """What is at a place: a folder, the octets of a file, or what a link leads to. The mode of a link is left out."""

    mode: int
    content: bytes | str


def listed(folder: Path) -> dict[str, Place]:
    """Returns what is at each place below a folder."""
    def at(path: Path) -> Place:
        if path.is_symlink():
            return Place(0, os.readlink(path))
        return Place(stat.S_IMODE(path.stat().st_mode), "" if path.is_dir() else path.read_bytes())
    return {path.relative_to(folder).as_posix(): at(path) for path in folder.rglob("*")}


# --- A whole installation ---

class Installed(NamedTuple):
    """A tree, and a folder into which it was installed with a mask that would remove permissions."""

    tree: Tree
    folder: Path


@pytest.fixture(name="whole", scope="module")
def install_whole(tmp_path_factory: pytest.TempPathFactory) -> Installed:
    """Installs everything. The tests that share the folder don't change it."""
    tree = Tree(tmp_path_factory.mktemp("whole"))
    assert tree.start("tools/install", tree.work / "masked", umask=0o077).status == 0
    return Installed(tree, tree.work / "masked")


def from_tree(tree: Tree, room: Path) -> dict[str, Place]:
    """Returns what must be at each place of the folder, besides the files that name the version, the shared library and the list of licences."""
    top, found = tree.top, {}
    files = {f"bin/{name}": top / f"crates/{name}/out/{name}" for name in ("tcrx", "tclive", "tcmake")} | {"bin/tcrx-bench": top / "tcrx-bench"}
    files |= {f"include/{name}": top / f"dist/{name}" for name in ("tcrx.h", "tcrx_at.h", "tcrx_lines.h", "tcrx.hpp", "tcrx_lines.hpp")}
    files |= {f"share/dekorihe/{name}": top / f"dist/{name}" for name in ("tcrx_memory.c", "tcrx_lines_memory.c", "tcrx_static.c")}
    python = [path for pattern in ("*.py", "py.typed", "bench/*") for path in (top / "clients/python/tcrx").glob(pattern)]
    files |= {f"{PYTHON}/{path.relative_to(top / 'clients/python/tcrx')}": path for path in python}
    files["share/dekorihe/python/tcrx_bench.py"] = top / "clients/python/tcrx_bench.py"
    files |= {f"share/dekorihe/licences/{name}": tree.kit / "rattle" / name for name in LICENCES}
    files |= {f"share/dekorihe/licences/{name}": top / name for name in ("LICENSE", "NOTICE")}
    subprocess.run([top / "tools/header_page", room / "c.md"], check=True)
    subprocess.run([top / "tools/man", room], check=True)
    files["share/doc/dekorihe/docs/reference/c.md"] = room / "c.md"
    for name in ("tcrx", "tclive", "tcmake", "tcrx-bench"):
        files[f"share/man/man1/{name}.1"] = room / f"{name}.1"
        files[f"share/bash-completion/completions/{name}"] = top / f"completion/{name}.bash"
    for place, source in files.items():
        found[place] = Place(0o755 if place.startswith("bin/") else 0o644, source.read_bytes())
    archives = [top / f"crates/{name}/out/lib{name}.a" for name in ("tc_c", "tc_c_lines")]
    found["lib/libtcrx.a"] = Place(0o644, b"".join(path.read_bytes() for path in archives))
    links = {"lib/libtc_c.a": "libtcrx.a", "lib/libtcrx.so": "libtcrx.so.0", f"{PYTHON}/libtcrx.so.0": "../../../../lib/libtcrx.so.0"}
    found |= {place: Place(0, target) for place, target in links.items()}
    found |= {str(above): Place(0o755, "") for place in found for above in Path(place).parents if above.name}
    return found


def test_what_is_installed_is_as_it_is_in_the_tree(whole: Installed, tmp_path: Path) -> None:
    wanted, found = from_tree(whole.tree, tmp_path), listed(whole.folder)
    assert {place: found.get(place) for place in wanted} == wanted
    others = {place: what.mode for place, what in found.items() if place not in wanted}
    files = ["cmake/dekorihe/dekorihe-config-version.cmake", "cmake/dekorihe/dekorihe-config.cmake", "libtcrx.so.0", "pkgconfig/dekorihe-static.pc",
             "pkgconfig/dekorihe.pc"]
    assert others == {**dict.fromkeys([*(f"lib/{file}" for file in files), "share/dekorihe/licences/README"], 0o644),
                      **dict.fromkeys(["lib/cmake", "lib/cmake/dekorihe", "lib/pkgconfig"], 0o755)}


def test_the_shared_library_is_made_of_the_static_one_and_of_memory(whole: Installed) -> None:
    assert re.search("^cc -shared .*/libtcrx.a .*/memory.o .*/lines_memory.o", (whole.folder / "lib/libtcrx.so.0").read_text(), re.M)


def test_files_for_pkg_config_and_cmake_have_the_version_and_no_placeholder(whole: Installed) -> None:
    texts = [path.read_text() for name in ("pkgconfig", "cmake") for path in (whole.folder / "lib" / name).rglob("*") if path.is_file()]
    assert len([text for text in texts if re.search(rf'[ "]{re.escape(VERSION)}\b', text)]) == 3
    assert [path.name for path in (whole.folder / "lib/pkgconfig").iterdir() if "@" in path.read_text()] == []


def test_the_bench_that_was_installed_starts(whole: Installed) -> None:
    ended = run(whole.folder / "bin/tcrx-bench", "--version")
    assert (ended.returncode, ended.stdout) == (0, f"tcrx-bench {VERSION}\n")


def test_the_list_of_licences_names_the_crate_for_which_the_kit_has_none(whole: Installed) -> None:
    assert (whole.folder / "share/dekorihe/licences/README").read_text().splitlines()[1:] == [
        "clap: clap/LICENSE-APACHE clap/LICENSE-MIT", "hex: no licence text in the kit", "strsim: strsim/LICENSE", "thiserror: thiserror/LICENSE"]


def without_shared(folder: Path) -> dict[str, Place]:
    """Returns what is at each place, without the shared library. That of the stand-in names a temporary folder."""
    return {place: what for place, what in listed(folder).items() if place != "lib/libtcrx.so.0"}


def test_staged_files_are_those_that_are_installed_and_name_no_folder(whole: Installed, tmp_path: Path) -> None:
    final, staging = tmp_path / "final/usr", tmp_path / "staged"
    ended = whole.tree.start("tools/install", final, names={"DESTDIR": f"{staging}/"}, umask=0o077)
    staged = Path(f"{staging}{final}")
    assert f"{staged}/bin/tcrx" in ended.lines and not final.exists()
    assert without_shared(staged) == without_shared(whole.folder)
    octets = [path.read_bytes() for path in staging.rglob("*") if path.is_file()]
    assert [name for name in (staging, final) if any(os.fsencode(name) in each for each in octets)] == []


def test_a_relative_folder_cannot_be_staged(whole: Installed, tmp_path: Path) -> None:
    ended = whole.tree.start("tools/install", "staged/usr", names={"DESTDIR": str(tmp_path)})
    assert ended.status == 2 and f"install: DESTDIR is {tmp_path}, so PREFIX must begin with /: staged/usr" in ended.error


# --- Parts, and what is missing ---

def test_without_rt_and_a_c_compiler_what_is_built_is_installed(whole: Installed, tmp_path: Path) -> None:
    ended = whole.tree.start("tools/install", tmp_path, path=whole.tree.without_rt)
    assert ended.status == 0 and "rt isn't on the path, so the licences of the kit's crates can't be read" in ended.error
    assert "there is no C compiler (cc), so the shared library is not made, and not installed." in ended.error
    assert sorted(os.listdir(tmp_path / "lib")) == ["cmake", "libtc_c.a", "libtcrx.a", "pkgconfig"]
    assert os.listdir(tmp_path / "lib/pkgconfig") == ["dekorihe-static.pc"]
    licences = (tmp_path / "share/dekorihe/licences/README").read_text().splitlines()
    assert "clap: no licence text here, since the kit was not at hand when this was installed" in licences


def test_the_library_alone_with_its_licences(tree: Tree) -> None:
    part = tree.work / "part"
    assert tree.start("tools/install", part, "library").status == 0
    assert sorted(os.listdir(part)) == ["include", "lib", "share"]
    assert sorted(os.listdir(part / "share/dekorihe/licences")) == ["LICENSE", "NOTICE", "README", "thiserror"]
    assert (tree.builds(), tree.starts()[-1]) == (1, "tc_c_lines: lib --jobs 4 --cpu=x86-64")


def test_the_programs_alone(tree: Tree) -> None:
    assert tree.start("tools/install", tree.work / "part", "programs").status == 0
    assert sorted(os.listdir(tree.work / "part")) == ["bin", "lib", "share"] and tree.builds() == 3


def test_an_install_by_a_link_from_elsewhere(whole: Installed, tmp_path: Path) -> None:
    (tmp_path / "install").symlink_to(whole.tree.top / "tools/install")
    whole.tree.start("install", tmp_path / "by_link", "programs", where=tmp_path)
    assert os.access(tmp_path / "by_link/bin/tclive", os.X_OK)


def test_a_shared_library_that_cannot_be_made(tree: Tree) -> None:
    (tree.kit / "no_cc").touch()
    fails(tree, 1, "install: the shared library can't be made of the static one.", tree.work / "none", "library")
    assert not (tree.work / "none").exists()


def test_a_library_that_cannot_be_built(tree: Tree) -> None:
    tree.rt_does("fail tc_c")
    reason = "install: the library isn't built. If memory or disk space ran out, free some and start tools/install again"
    fails(tree, 70, reason, tree.work / "none", "library")
    assert not (tree.work / "none").exists()


def test_another_word_is_refused(tree: Tree) -> None:
    fails(tree, 2, "usage: tools/install PREFIX", tree.work / "none", "everything")
    assert not (tree.work / "none").exists()


def test_an_install_without_a_folder_is_refused(tree: Tree) -> None:
    fails(tree, 2, "usage: tools/install PREFIX")


def test_help_begins_with_the_usage(tree: Tree) -> None:
    ended = tree.start("tools/install", "--help")
    usage = re.findall("usage: tools/install PREFIX .*", (tree.top / "tools/install").read_text())[-1]
    assert (ended.status, ended.lines[0]) == (0, usage)


# --- Files that are there already ---

@pytest.fixture(name="older")
def install_older(tree: Tree) -> Path:
    """Installs the programs, and writes another text into one of them. Returns the path of this one."""
    tree.start("tools/install", tree.work / "other", "programs")
    (tree.work / "other/bin/tcrx").write_text("old\n")
    return tree.work / "other/bin/tcrx"


def test_an_update_on_a_full_disk_leaves_the_file_as_it_was(tree: Tree, older: Path) -> None:
    write_command(tree.kit / "cp", 'echo half >"$2"', "exit 1")
    fails(tree, 1, f"install: {older} can't be written; it is as it was before.", tree.work / "other", "programs")
    assert older.read_text() == "old\n"


def test_an_update_that_is_stopped_while_it_writes_leaves_nothing_else(tree: Tree, older: Path) -> None:
    # The stand-in for `cp` ends the parent of its own parent, because the tool starts `cp` from a process that is in the folder of the new file.
    write_command(tree.kit / "cp", 'echo half >"$2"', 'read -r _ _ _ tool _ <"/proc/$PPID/stat" && kill -TERM "$tool"', "exit 1")
    assert tree.start("tools/install", tree.work / "other", "programs").status == 143
    assert older.read_text() == "old\n" and sorted(os.listdir(older.parent)) == ["tclive", "tcmake", "tcrx", "tcrx-bench"]


def test_nothing_is_replaced_if_a_folder_is_in_the_way(tree: Tree) -> None:
    blocked, program = tree.work / "blocked/share/man/man1/tcmake.1", tree.work / "blocked/bin/tcrx"
    blocked.mkdir(parents=True)
    program.parent.mkdir()
    program.write_text("old\n")
    fails(tree, 1, f"install: {blocked} is a folder. Move it away, and start tools/install again.", tree.work / "blocked", "programs")
    assert program.read_text() == "old\n"


def test_a_place_where_nothing_can_be_written(tree: Tree) -> None:
    (tree.work / "file").touch()
    assert tree.start("tools/install", tree.work / "file").status == 1


def test_three_installations_at_once_leave_the_files_that_one_leaves(whole: Installed, tmp_path: Path) -> None:
    for _ in range(4):
        several = [whole.tree.begin("tools/install", str(tmp_path / "at_once")) for _ in range(3)]
        ended = [beside.end() for beside in several]
        assert [each.status for each in ended] == [0, 0, 0]
        assert [line for each in ended for line in each.error.splitlines() if not re.match("install: [1-9p]", line)] == []
    assert without_shared(tmp_path / "at_once") == without_shared(whole.folder)
