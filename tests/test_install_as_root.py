"""Starts tools/install as root while links and folders of another user are in the way, or come in the way during the installation. Nothing that
belongs to that user may change. An installation must either be refused without a change, or put its files where they belong. Nothing is proved,
because tests/stand_in_rt takes the place of the kit. Without root's rights there are no tests here."""
# pylint: disable=missing-function-docstring  # the names of the tests say what they show
from __future__ import annotations

import os
import re
import shutil
import subprocess
import sys
import tempfile
from pathlib import Path
from typing import Dict, Iterator, NamedTuple, Tuple

import pytest
from comparing import TOP, until
from launcher_parts import Ended, Tree, command, write_command

pytestmark = pytest.mark.attack(240)
# pytest leaves the tests of a module out if this is false.
__test__ = os.geteuid() == 0
NOBODY = 65534
# In each scene `p` and `good` belong to root, and `his` belongs to the user nobody. In `mine` there are files with the names of some that are
# installed.
PREPARE = f"""
mkdir p good his mine mine/inner && chmod 700 mine/inner
for name in tcrx tcrx.1 LICENSE; do echo mine >mine/$name && chmod 600 mine/$name; done
chown {NOBODY} his
others_link() {{ mkdir -p "${{2%/*}}" && ln -s "$1" "$2" && chown -h {NOBODY} "$2"; }}
"""
At = Tuple[int, int, int, int, str]


class Scene:
    """A folder into which something is installed, and what is at each place before that: its mode, owner, size, time and target."""

    def __init__(self, folder: Path, makes: str) -> None:
        self.folder = folder
        subprocess.run(["bash", "-c", f"{PREPARE}\n{makes}"], cwd=folder, umask=0o022, stdout=subprocess.DEVNULL, check=False)
        self.before = self.found()

    def found(self) -> Dict[str, At]:
        """Returns what is at each place."""
        def at(path: Path) -> At:
            now = path.lstat()
            return now.st_mode, now.st_uid, now.st_size, now.st_mtime_ns, os.readlink(path) if path.is_symlink() else ""
        return {path.relative_to(self.folder).as_posix(): at(path) for path in self.folder.rglob("*")}

    def mine_is_as_before(self) -> None:
        """Asserts that nothing has changed in `mine`."""
        now, before = ({name: at for name, at in all_of.items() if name.startswith("mine")} for all_of in (self.found(), self.before))
        assert now == before

    def is_as_due(self, ended: Ended, refused: bool, named: str) -> None:
        """Asserts that an installation was refused without a change, with a message that names this folder, or that tcrx is now in this folder."""
        self.mine_is_as_before()
        if refused:
            assert ended.status == 70 and self.found() == self.before
            form = rf"install: (.* write to )?{re.escape(f'{self.folder}/{named}')}(, and could| belongs to nobody ).*\n"
            assert re.fullmatch(form, ended.error)
        else:
            assert (ended.status, ended.error) == (0, "") and os.access(self.folder / named / "tcrx", os.X_OK)


class Built(NamedTuple):
    """A tree with everything built, and the folder of an archive that the user nobody has unpacked."""

    tree: Tree
    unpacked: Path


@pytest.fixture(name="room")
def make_room() -> Iterator[Path]:
    """Returns a temporary folder that every user may pass. The folders of pytest belong to root alone."""
    with tempfile.TemporaryDirectory() as room:
        os.chmod(room, 0o711)
        yield Path(room).resolve()


@pytest.fixture(name="built_once", scope="module")
def build_once() -> Iterator[Built]:
    """Builds everything, and installs it into a folder that is then the archive of the user nobody."""
    mask = os.umask(0o022)
    with tempfile.TemporaryDirectory() as room:
        tree = Tree(Path(room).resolve())
        os.umask(mask)
        assert tree.start("tools/install", tree.work / "unpacked").status == 0
        pages = tree.work / "unpacked/share/doc/dekorihe"
        (pages / "tools").mkdir()
        for source, name in (("guard", "guard"), ("install_unpacked", "install")):
            shutil.copy(TOP / "tools" / source, pages / "tools" / name)
        subprocess.run(["chown", "-R", str(NOBODY), tree.work / "unpacked"], check=True)
        yield Built(tree, pages)
        tree.close()


@pytest.fixture(name="built")
def leave_nothing(built_once: Built) -> Iterator[Built]:
    """Returns a tree with everything built. No temporary file may be left when the test ends."""
    yield built_once
    assert not list(built_once.tree.temporary.iterdir())


@pytest.fixture(name="tree")
def tree_of(built: Built) -> Tree:
    """Returns a tree with everything built."""
    return built.tree


@pytest.fixture(name="scene")
def make_scene(room: Path) -> Scene:
    """Returns a scene in which nothing is in the way."""
    return Scene(room, "")


# For each scene PREFIX, and commands that change it before. A refused installation names a folder, and any other one puts tcrx into it.
@pytest.mark.parametrize("named, prefix, makes", [
    pytest.param("p/share/dekorihe/licences", "/p", "others_link ../../../mine p/share/dekorihe/licences",
                 id="his link to mine in the place of licences"),
    pytest.param("p/share/man/man1", "/p", "others_link ../../../mine p/share/man/man1", id="his link to mine in the place of man pages"),
    pytest.param("p/share/man/man1", "/p", "others_link ../../../none p/share/man/man1", id="his broken link in the place of man pages"),
    pytest.param("p/share", "/p", "others_link ../good p/share", id="his link to a good folder in the place of share"),
    pytest.param("p/bin", "/p", "others_link ../mine p/bin", id="his link in the place of bin"),
    pytest.param("link", "/link", "others_link mine link", id="his link as PREFIX"),
    pytest.param("link", "/link/q", "others_link good link", id="his link above PREFIX"),
    pytest.param("his", "/his", "true", id="his folder as PREFIX"),
    pytest.param("his", "/his/p", "mkdir his/p # above PREFIX", id="a folder of root in his folder"),
    pytest.param("his", "/p/../his/../good", "true", id="his folder on the way"),
    pytest.param("p/share/man", "/p", f"mkdir -p p/share/man; chown {NOBODY} p/share/man", id="his folder in share"),
    pytest.param("p", "/p", "chmod 757 p", id="others can write to PREFIX"),
    pytest.param("good", "/good/p", "chmod 775 good; mkdir good/p", id="a group can write above PREFIX"),
    pytest.param("p/bin", "/p", "mkdir p/bin; chmod 1777 p/bin", id="others can write to bin"),
    pytest.param("p", "/p", "chmod 1777 p", id="a sticky folder as PREFIX"),
    pytest.param("good/p", "/good/p", f"chmod 1777 good; mkdir good/p; chown {NOBODY} good/p", id="his folder in a sticky folder"),
    pytest.param("his", "/his/p", "chmod 1777 his; mkdir his/p", id="a folder of root in his sticky folder"),
    pytest.param("good", "/good/p", "chmod 1777 good; ln -s ../mine good/p # which nobody could have moved there",
                 id="a link of root in a sticky folder"),
    pytest.param("his", "/p", "ln -s ../his p/bin", id="a link of root to his folder in the place of bin"),
    pytest.param("his", "/p", 'ln -s "$PWD/his/in" p/share', id="a link of root to nothing in his folder"),
    pytest.param("his", "/link", "ln -s good/up link; ln -s ../his good/up", id="a link of root through another to his folder")])
def test_root_does_not_install_through_what_another_user_could_change(tree: Tree, room: Path, named: str, prefix: str, makes: str) -> None:
    scene = Scene(room, makes)
    scene.is_as_due(tree.start("tools/install", f"{room}{prefix}", "programs"), True, named)


@pytest.mark.parametrize("named, prefix, makes", [
    pytest.param("good/p/bin", "/good/p", "chmod 1777 good; mkdir good/p", id="a folder of root in a sticky folder"),
    pytest.param("good/p/bin", "/good/p", "chmod 1777 good", id="a new folder in a sticky folder"),
    pytest.param("p/bin", "/p", "! getent group staff || { chgrp staff p; chmod 2775 p; }", id="the group staff can write"),
    pytest.param("good", "/p", "ln -s ../good p/bin", id="a link of root in the place of bin"),
    pytest.param("good/bin", "/link/p/..", 'mkdir good/p; ln -s "$PWD/good" link', id="a link of root on the way"),
    pytest.param("good/bin", "/p", "rmdir p; ln -s link p; ln -s good/ link", id="PREFIX is a link through another"),
    pytest.param("p/bin", "/p", "mkdir p/bin; others_link ../../mine/tcrx p/bin/tcrx", id="his link in the place of tcrx"),
    pytest.param("p/bin", "/p", "mkdir p/bin; ln mine/tcrx p/bin", id="a hard link in the place of tcrx")])
def test_root_installs_where_no_other_user_could_change_the_way(tree: Tree, room: Path, named: str, prefix: str, makes: str) -> None:
    scene = Scene(room, makes)
    scene.is_as_due(tree.start("tools/install", f"{room}{prefix}", "programs"), False, named)


def test_root_does_not_install_into_a_folder_of_another_user_by_a_relative_path(tree: Tree, scene: Scene) -> None:
    ended = tree.start("tools/install", "p", "programs", before=("env", "-C", scene.folder / "his"))
    scene.is_as_due(ended, True, "his")


def test_root_does_not_stage_into_a_folder_of_another_user(tree: Tree, scene: Scene) -> None:
    ended = tree.start("tools/install", "/usr", "programs", names={"DESTDIR": str(scene.folder / "his")})
    scene.is_as_due(ended, True, "his")


def test_root_installs_nothing_if_another_user_owns_the_folder_for_temporary_files(tree: Tree, scene: Scene) -> None:
    ended = tree.start("tools/install", scene.folder / "p", "programs", names={"TMPDIR": str(scene.folder / "his")})
    assert (ended.status, os.listdir(scene.folder / "p"), os.listdir(scene.folder / "mine/inner")) == (70, [], [])


def test_root_installs_nothing_if_another_user_is_first_in_a_sticky_folder(tree: Tree, room: Path, tmp_path: Path) -> None:
    """The other user puts a link into the folder just before a folder of this name is created there."""
    scene = Scene(room, "rmdir p; chmod 1777 good; cd good; ln -s ../mine mine")
    write_command(tmp_path / "mkdir", f"[ \"$1\" != -m ] || {{ ln -s mine '{room}/good/p' && chown -h {NOBODY} '{room}/good/p'; }}",
                  f'exec {command("mkdir")} "$@"')
    assert tree.start("tools/install", room / "good/p", "programs", path=(tmp_path, *tree.with_rt)).status == 70
    scene.mine_is_as_before()


def test_root_installs_nothing_into_a_new_folder_to_which_others_can_write(tree: Tree, scene: Scene, tmp_path: Path) -> None:
    """A new folder has more permissions than were requested, as it can have by a default of its parent."""
    folder = scene.folder / "p"
    write_command(tmp_path / "mkdir", f"{command('mkdir')} \"$@\" && [[ $* != *p/bin ]] || chmod 777 '{folder}/bin'")
    ended = tree.start("tools/install", folder, "programs", path=(tmp_path, *tree.with_rt))
    assert ended.status == 70 and f"write to {folder}/bin, and" in ended.error and [it for it in folder.rglob("*") if not it.is_dir()] == []


# --- The tools/install of an archive that the user nobody has unpacked ---

@pytest.mark.parametrize("refused, named, prefix, makes", [
    (True, "his", "his/new", "true"),
    (True, "p/share/man/man1", "p", "mkdir -p p/share/man/man1; chmod 777 p/share/man/man1"),
    (True, "p/share/dekorihe/python/tcrx", "p", "mkdir -p p/share/dekorihe/python/tcrx; chmod 777 p/share/dekorihe/python/*"),
    (False, "p/bin", "p", "mkdir p/bin; others_link ../../mine/tcrx p/bin/tcrx"),
    (False, "p/bin", "p", "mkdir p/bin; ln mine/tcrx p/bin")],
    ids=["his folder", "others can write to a folder of man pages", "others can write to a folder of the client", "his link", "hard link"])
def test_root_installs_an_archive_of_another_user(built: Built, room: Path, refused: bool, named: str, prefix: str, makes: str) -> None:
    scene = Scene(room, makes)
    scene.is_as_due(built.tree.start("tools/install", room / prefix, where=built.unpacked), refused, named)
    assert [path for path in (room / "p").rglob("*") if path.lstat().st_uid] == []


# --- While another user is at work ---

# Replaces each new folder in a folder of the user nobody by a link, and puts a link into a sticky folder.
RACER = f"""
import os, sys, time
os.setgroups([])
os.setgid({NOBODY})
os.setuid({NOBODY})
os.chdir(sys.argv[1])
open("his/up", "w").close()
while True:
    for name in ["good/new", *(f"his/bin/{{name}}" for name in os.listdir("his/bin") if name.startswith(".new."))]:
        try:
            if name != "good/new" and not os.path.islink(name):
                os.rename(name, name.replace(".new.", "was."))
            os.symlink(f"{{sys.argv[1]}}/mine/inner", name)
        except OSError:
            pass
"""


def test_nothing_elsewhere_changes_in_twenty_installations_while_another_user_puts_links(tree: Tree, room: Path) -> None:
    scene = Scene(room, f"mkdir his/bin; chown {NOBODY} his/bin; chmod 1777 good")
    with subprocess.Popen([sys.executable, "-c", RACER, room]) as racer:
        try:
            assert until((room / "his/up").exists)
            for _ in range(10):
                for place in ("his", "good/new"):
                    tree.start("tools/install", room / place, "programs")
                subprocess.run(["rm", "-rf", room / "good/new"], check=True)
            assert racer.poll() is None
        finally:
            racer.kill()
    scene.mine_is_as_before()


def test_another_user_installs_into_a_folder_of_its_own(tree: Tree, scene: Scene) -> None:
    his = scene.folder / "his"
    drop = (command("setpriv"), f"--reuid={NOBODY}", f"--regid={NOBODY}", "--clear-groups")
    scene.is_as_due(tree.start("tools/install", his, "programs", before=drop, names={"TMPDIR": str(his)}), False, "his/bin")
