"""Makes a release by tools/release in a copy of the tree, and looks at it as its users would. A second run in a clone at another place, as another
user if this one is root, must make the same octets. The commands of the archive's README and of some pages run without the Rattle kit on the path.
dpkg installs and removes the package in a root of its own. To get the result of CI that BUILD must have, .ci/run is started over stand-ins."""
# pylint: disable=missing-function-docstring  # the names of the tests say what they show
from __future__ import annotations

import gzip
import hashlib
import io
import json
import os
import re
import shutil
import subprocess
import sys
import tarfile
import tempfile
from collections.abc import Mapping
from pathlib import Path
from typing import Any, Iterator, NamedTuple

import pytest
from comparing import TOP, run

# One process runs these tests, because they share a release. The first of them waits until the modules and the release are made.
pytestmark = [pytest.mark.needs("dpkg-deb", "dpkg"), pytest.mark.needs("dpkg"), pytest.mark.needs("wasm-opt", "binaryen"),
              pytest.mark.needs("wasm2c", "wabt"), pytest.mark.xdist_group("release"), pytest.mark.timeout(3600)]
PROGRAMS = ("tcrx", "tclive", "tcmake")
BUILT = (*(f"crates/{name}/out/{name}" for name in PROGRAMS), *(f"crates/{name}/out/lib{name}.a" for name in ("tc_c", "tc_c_lines")))
# The modules of the portable C and of the page, where tools/target keeps them.
MODULES = {"module": "crates/tc_c/out/targets/module", "lines.module": "crates/tc_c_lines/out/targets/lines.module"}
KEPT = (*MODULES.values(), *(f"{it}.sum" for it in MODULES.values()))
# The files at the top of the archive, which tools/install doesn't install.
OWN = ("README", "BUILD", "SHA256SUMS")
PAGES = "share/doc/dekorihe"
# The folders and files of the tree that the archive has besides those that tools/install installs, each with its place there.
TAKEN = {"clients/python": "share/dekorihe/python", "clients/rust": "share/dekorihe/rust", "docs": f"{PAGES}/docs",
         "c/examples": f"{PAGES}/c/examples", "c/programs": f"{PAGES}/c/programs",
         "examples": f"{PAGES}/examples", "c/README.md": f"{PAGES}/c/README.md", "README.md": f"{PAGES}/README.md",
         "CHANGELOG.md": f"{PAGES}/CHANGELOG.md", "SECURITY.md": f"{PAGES}/SECURITY.md", "tools/campaign": f"{PAGES}/tools/campaign",
         "tools/draw_run": f"{PAGES}/tools/draw_run", "tools/guard": f"{PAGES}/tools/guard", "tools/install_unpacked": f"{PAGES}/tools/install"}
# The pages in these folders that aren't in the archive.
LEFT_OUT = ("docs/proving/",)
# The links in the folder of the pages. They lead to the programs, headers and folders that the pages' commands use.
LINKS = tuple(f"{PAGES}/{name}" for name in (
    "tcrx", "tclive", "tcmake", "tcrx-bench", "clients/python", "clients/rust", "build", *(f"dist/tcrx{name}" for name in (
        ".h", "_at.h", ".hpp", "_lines.h", "_lines.hpp", "_memory.c", "_lines_memory.c", "_static.c"))))
PORTABLE = "share/dekorihe/portable"
# The time of the commit of the copy.
WHEN = 1700000000
WHO = "Somebody <somebody@place.example>"

# The properties of the programs' linking that SECURITY.md names, with the lines by which readelf shows them.
LINKING = {
    "position-independent": r"^ *Type: +DYN ", "a stack that isn't run": r"^ *GNU_STACK .* RW +0", "tables that are only read": r"^ *GNU_RELRO ",
    "all of them, from the start on": r"\(BIND_NOW\)|\(FLAGS_1\).*\bNOW\b",
}


def bill_of(version: str) -> str:
    """Returns the place of the bill of materials in the archive."""
    return f"{PAGES}/dekorihe-{version}.cdx.json"


def must(*words: object, cwd: Path = TOP, names: Mapping[str, str] | None = None) -> str:
    """Runs a command, which must succeed, and returns its output."""
    ran = run(*words, cwd=cwd, names=names)
    assert ran.returncode == 0, f"{' '.join(map(str, words))}: status {ran.returncode}\n{ran.stdout[-2000:]}{ran.stderr[-2000:]}"
    return ran.stdout.strip()


def sum_of(path: Path) -> str:
    """Returns the SHA-256 of a file."""
    return hashlib.sha256(path.read_bytes()).hexdigest()


# --- Copies of the tree ---

def commit_all(tree: Path) -> None:
    """Makes a folder a repository with one commit. The commit is the same at any time and place."""
    who = {"GIT_AUTHOR_NAME": "Somebody", "GIT_AUTHOR_EMAIL": "somebody@place.example", "GIT_AUTHOR_DATE": f"{WHEN} +0000"}
    who.update({name.replace("AUTHOR", "COMMITTER"): value for name, value in who.items()})
    must("git", "init", "-q", cwd=tree)
    must("git", "add", "-A", cwd=tree)
    must("git", "-c", "commit.gpgsign=false", "commit", "-q", "-m", "All of it", cwd=tree, names=who)


def copy_built(tree: Path) -> None:
    """Copies the files that are built here into a copy of the tree. They are then newer than its sources."""
    for name in (*BUILT, *KEPT):
        (tree / name).parent.mkdir(parents=True, exist_ok=True)
        shutil.copy(TOP / name, tree / name)


def copy_tree(tree: Path) -> None:
    """Copies the tree as it is, commits the copy, and adds the built files."""
    def made(folder: str, names: list[str]) -> set[str]:
        return {name for name in names if name in (".git", "out", "target", "__pycache__") and (Path(folder) / name).is_dir()}
    shutil.copytree(TOP, tree, ignore=made, symlinks=True)
    commit_all(tree)
    copy_built(tree)


def installed(tree: Path, work: Path) -> dict[str, int]:
    """Returns the files that tools/install installs, with their modes."""
    must(tree / "tools/install", work / "installed")
    files = [path for path in (work / "installed").rglob("*") if not path.is_dir()]
    return {path.relative_to(work / "installed").as_posix(): path.lstat().st_mode & 0o777 for path in files}


def taken(tree: Path, work: Path) -> set[str]:
    """Returns the places in the archive of all files besides those that tools/install installs. They come from the tree, or other tools
    write them."""
    must(tree / "tools/portable", work / "portable")
    made = [path for path in (work / "portable").rglob("*") if path.is_file()]
    found = {*LINKS, f"{PAGES}/receiver.html", *(f"{PORTABLE}/{path.relative_to(work / 'portable').as_posix()}" for path in made)}
    must(tree / "tools/write_vectors", work / "vectors", names={"TCRX_LIB_DIR": str(work / "installed/lib")})
    found |= {f"{PAGES}/vectors/{path.name}" for path in (work / "vectors").iterdir()}
    for name in must("git", "ls-files", cwd=tree).split("\n"):
        source = next((source for source in TAKEN if name == source or name.startswith(source + "/")), None)
        if source and not name.startswith(LEFT_OUT):
            found.add(TAKEN[source] + name[len(source):])
    return found


def make(tree: Path, folder: Path, names: Mapping[str, str] | None = None) -> str:
    """Makes a release of the tree as it is."""
    return must(tree / "tools/release", "--snapshot", folder, names=names)


def make_elsewhere(tree: Path, folder: Path) -> None:
    """Makes a release in another environment, and as another user if this one is root. The files of the tree have other times."""
    names = {"TZ": "Pacific/Auckland", "LC_ALL": "C.UTF-8", "XZ_OPT": "--block-size=64KiB", "TAR_OPTIONS": "--mode=a+w", "GZIP": "--rsyncable",
             "SOURCE_DATE_EPOCH": "7", "HOME": str(folder), "DESTDIR": str(folder / "nowhere")}
    must("find", tree, "-exec", "touch", "-h", "-d", "2001-01-01", "{}", "+")
    copy_built(tree)
    folder.mkdir()
    drop: tuple[str, ...] = ()
    if os.geteuid() == 0 and shutil.which("setpriv"):
        must("chown", "-R", "65534:65534", tree, folder)
        drop = ("setpriv", "--reuid=65534", "--regid=65534", "--clear-groups")
    must(*drop, "bash", "-c", 'umask 077 && exec "$@"', "bash", tree / "tools/release", "--snapshot", folder, cwd=tree, names=names)


class Release(NamedTuple):
    """A release that was made twice, the tree of which it was made, and what tools/release printed. `number` is the version without the commit, and
    `name` is the folder in the archive."""

    work: Path
    tree: Path
    number: str
    version: str
    name: str
    printed: str

    @property
    def files(self) -> list[str]:
        """Returns the names of its files."""
        return [f"{self.name}.tar.xz", f"dekorihe_{self.version}_amd64.deb", "SHA256SUMS"]

    def path(self, place: int) -> Path:
        """Returns the path of one of its files."""
        return self.work / "first" / self.files[place]


@pytest.fixture(autouse=True, scope="module")
def build_modules(tmp_path_factory: pytest.TempPathFactory) -> None:
    """Builds the portable modules, which a release takes from this tree together with the programs and libraries."""
    must(TOP / "tools/launch", "--build", *PROGRAMS, "tc_c", "tc_c_lines")
    for goal in MODULES:
        must(TOP / "tools/target", goal, tmp_path_factory.mktemp("modules") / goal)


@pytest.fixture(name="release", scope="module")
def make_twice() -> Iterator[Release]:
    """Makes a release twice. Temporary files are below the same folder, so that a file that contains their path is found."""
    with tempfile.TemporaryDirectory() as room:
        os.chmod(room, 0o755)
        work = Path(room).resolve()
        tree, second = work / "tree", work / "a second/clone"
        copy_tree(tree)
        number = re.findall(r"^## \[(\d[^]]*)\]", (TOP / "CHANGELOG.md").read_text(), re.M)[0]
        version = f"{number}+{must('git', 'rev-parse', '--short=10', 'HEAD', cwd=tree)}"
        # This is the result of CI for another commit, which BUILD must not have.
        (tree / "out/ci").mkdir(parents=True)
        (tree / "out/ci" / ("0" * 40)).write_text("ci: 1 steps passed, 0 failed\n")
        printed = make(tree, work / "first", names={"TMPDIR": str(work)})
        second.parent.mkdir()
        must("git", "clone", "-q", tree, second)
        make_elsewhere(second, work / "other")
        yield Release(work, tree, number, version, f"dekorihe-{version}-linux-x86_64", printed)


class Archive(NamedTuple):
    """The members of an archive, and the octets of its files and links, by their places below its folder."""

    members: list[tarfile.TarInfo]
    inside: str
    files: dict[str, bytes]

    def at(self, place: str) -> tarfile.TarInfo:
        """Returns the member at a place."""
        return next(member for member in self.members if member.name == self.inside + place)


def read(archive: tarfile.TarFile, inside: str) -> Archive:
    """Reads an archive whose files are below the folder `inside`."""
    members = archive.getmembers()
    files = {member.name[len(inside):]: file.read() for member in members if not member.isdir() and (file := archive.extractfile(member))}
    return Archive(members, inside, files)


@pytest.fixture(name="archive", scope="module")
def read_archive(release: Release) -> Archive:
    """Reads the archive of the release."""
    with tarfile.open(release.path(0)) as archive:
        return read(archive, f"{release.name}/")


@pytest.fixture(name="package", scope="module")
def read_package(release: Release) -> Archive:
    """Reads the Debian package of the release."""
    raw = subprocess.run(["dpkg-deb", "--fsys-tarfile", release.path(1)], stdout=subprocess.PIPE, check=True).stdout
    with tarfile.open(fileobj=io.BytesIO(raw)) as archive:
        return read(archive, "./usr/")


@pytest.fixture(name="modes", scope="module")
def install_tree(release: Release) -> dict[str, int]:
    """Returns the files that tools/install installs, with their modes."""
    return installed(release.tree, release.work)


@pytest.fixture(name="places", scope="module")
def list_places(release: Release, modes: dict[str, int]) -> set[str]:
    """Returns the places of all files that the archive must have."""
    return {*modes, *taken(release.tree, release.work), bill_of(release.version), *OWN}


@pytest.fixture(name="glibc", scope="module")
def read_glibc(archive: Archive, tmp_path_factory: pytest.TempPathFactory) -> str:
    """Returns the newest version of the C library that a program or a library of the archive needs, by objdump."""
    linked, versions = tmp_path_factory.mktemp("glibc") / "linked", {"0"}
    for octets in archive.files.values():
        if octets.startswith(b"\x7fELF"):
            linked.write_bytes(octets)
            versions.update(re.findall(r"\bGLIBC_([0-9.]+)", must("objdump", "-T", linked)))
    return max(versions, key=lambda version: [int(part) for part in version.split(".")])


def sums_of(text: str, front: str) -> dict[str, str]:
    """Returns the sums of a list, by the places of the files."""
    return {line.split(front, 1)[1]: line.split(front, 1)[0] for line in text.strip().split("\n")}


def shas(files: Mapping[str, bytes], places: Mapping[str, object] | set[str]) -> dict[str, str]:
    """Returns the SHA-256 of the files at these places."""
    return {place: hashlib.sha256(files[place]).hexdigest() for place in places}


# --- The files of a release ---

def test_a_second_run_elsewhere_makes_the_same_octets(release: Release) -> None:
    first, other = ({file: sum_of(release.work / folder / file) for file in release.files} for folder in ("first", "other"))
    assert first == other


def test_a_release_has_three_files_with_their_sums(release: Release) -> None:
    assert sorted(path.name for path in (release.work / "first").iterdir()) == sorted(release.files)
    must("sha256sum", "--quiet", "-c", "SHA256SUMS", cwd=release.work / "first")


def test_tools_release_prints_the_files_and_the_c_library_that_they_need(release: Release, glibc: str) -> None:
    assert release.printed.split("\n") == [*(str(release.path(place)) for place in range(3)), f"needs glibc {glibc} or later"]


def test_tools_release_takes_the_newest_of_the_versions_that_programs_need() -> None:
    """These versions may have the same order by numbers and by letters in the programs, so the sort is tried by itself."""
    sort = re.findall(r"^ *glibc=\$\((sort -\w+) \"\$room/needed\" \| tail -n 1\)$", (TOP / "tools/release").read_text(), re.M)
    assert [run(*words.split(), given="2.4\n2.34\n2.2.5\n2.34\n").stdout.split()[-1] for words in sort] == ["2.34"]


def test_readme_and_page_name_the_c_library(release: Release, archive: Archive, glibc: str) -> None:
    first = f"Dekorihe {release.version}, for Linux on x86-64 with the GNU C library (glibc) {glibc} or later"
    assert archive.files["README"].decode().split("\n")[0] == first
    assert f"GNU C library (glibc) {glibc} or later" in (TOP / "docs/howto/install.md").read_text()


# --- The archive and the package ---

@pytest.mark.parametrize("kind", ["archive", "package"])
def test_members_have_fixed_owners_times_modes_places_and_order(kind: str, request: pytest.FixtureRequest) -> None:
    found: Archive = request.getfixturevalue(kind)
    assert [it.name for it in found.members if (it.uid, it.gid, it.mtime) != (0, 0, WHEN) or it.uname not in ("", "root")] == []
    assert [it.name for it in found.members
            if not it.issym() and it.mode != (0o755 if it.isdir() or it.mode & 0o111 else 0o644)] == []
    assert [it.name for it in found.members if not it.isdir() and not it.name.startswith(found.inside)] == []
    # dpkg-deb puts links after everything else.
    names = [(kind == "package" and it.issym(), it.name.split("/")) for it in found.members]
    assert names == sorted(names)


def test_the_archive_has_what_is_installed_and_what_is_taken_from_the_tree(archive: Archive, places: set[str]) -> None:
    names = {it.name[len(archive.inside):] for it in archive.members if not it.isdir()}
    assert names == places


def test_files_of_the_archive_have_the_modes_with_which_they_are_installed(archive: Archive, modes: dict[str, int]) -> None:
    assert [place for place, mode in modes.items() if not (found := archive.at(place)).issym() and found.mode != mode] == []


def test_the_archive_has_the_sums_of_its_files(archive: Archive) -> None:
    regular = {it.name[len(archive.inside):] for it in archive.members if it.isreg()} - {"SHA256SUMS"}
    assert sums_of(archive.files["SHA256SUMS"].decode(), "  ") == shas(archive.files, regular)


def test_no_file_names_a_folder_of_this_machine(release: Release, archive: Archive) -> None:
    homes = [str(release.work), f"{TOP}/crates/", f"{TOP}/tools/"]
    assert [place for place, octets in archive.files.items() if any(home.encode() in octets for home in homes)] == []


@pytest.mark.usefixtures("places")
def test_the_archive_has_the_vectors_that_are_written_here(release: Release, archive: Archive) -> None:
    wanted = {f"{PAGES}/vectors/{path.name}": path.read_bytes() for path in (release.work / "vectors").iterdir()}
    assert wanted and {place: octets for place, octets in archive.files.items() if place in wanted} == wanted


def test_programs_and_libraries_are_stripped(archive: Archive, tmp_path: Path) -> None:
    found = []
    for name, octets in archive.files.items():
        if octets.startswith(b"\x7fELF"):
            (tmp_path / "linked").write_bytes(octets)
            found += [name] if re.search(r" \.(symtab|debug\w*) ", must("readelf", "-SW", tmp_path / "linked")) else []
    assert not found


@pytest.mark.parametrize("program", PROGRAMS)
def test_a_program_is_linked_as_the_page_on_security_says(archive: Archive, tmp_path: Path, program: str) -> None:
    (tmp_path / "linked").write_bytes(archive.files[f"bin/{program}"])
    printed = must("readelf", "-hldW", tmp_path / "linked")
    assert [what for what, form in LINKING.items() if not re.search(form, printed, re.M)] == []
    assert "RWE" not in printed, "memory that is written and run"
    assert "__stack_chk" not in must("readelf", "--dyn-syms", "-W", tmp_path / "linked"), "a stack protector"


def test_the_package_has_the_files_of_the_archive(archive: Archive, package: Archive) -> None:
    """Its man pages are compressed. It has three files of its own."""
    found, wanted = dict(package.files), {place: octets for place, octets in archive.files.items() if place not in OWN}
    for page in [place for place in wanted if place.startswith("share/man/")]:
        assert gzip.decompress(found.pop(f"{page}.gz")) == wanted.pop(page), page
    own = [found.pop(f"{PAGES}/{name}") for name in ("BUILD", "copyright", "changelog.gz")]
    assert own[0] == archive.files["BUILD"] and b"Apache" in own[1]
    assert found.keys() == wanted.keys() and [place for place in wanted if found[place] != wanted[place]] == []


def test_the_changes_of_the_package_have_their_form(release: Release, package: Archive) -> None:
    changes = gzip.decompress(package.files[f"{PAGES}/changelog.gz"]).decode()
    assert re.match(rf"dekorihe \({re.escape(release.version)}\) \w+; urgency=\w+\n\n  \* .*\n\n -- {WHO}  ", changes)


def test_the_package_has_the_sums_of_its_files(release: Release, package: Archive) -> None:
    regular = [it.name[len(package.inside):] for it in package.members if it.isreg()]
    wanted = {place: hashlib.md5(package.files[place]).hexdigest() for place in regular}
    assert sums_of(must("dpkg-deb", "--info", release.path(1), "md5sums"), "  usr/") == wanted


def test_the_package_has_its_fields_and_libraries(release: Release, archive: Archive, glibc: str) -> None:
    wanted = {"Package": "dekorihe", "Version": release.version, "Architecture": "amd64", "Depends": f"libc6 (>= {glibc})", "Maintainer": WHO}
    assert {field: must("dpkg-deb", "--field", release.path(1), field) for field in wanted} == wanted
    for name, number in re.findall(r"^lib/(\w+)\.so\.(\d+)$", "\n".join(archive.files), re.M):
        assert " triggers " in must("dpkg-deb", "--info", release.path(1))
        assert f"{name} {number} dekorihe" in must("dpkg-deb", "--info", release.path(1), "shlibs")


def test_dpkg_installs_and_removes_the_package(release: Release, tmp_path: Path) -> None:
    """Python leaves a cache next to the client, which must go, too."""
    root = tmp_path / "root"
    for name in ("var/lib/dpkg/info", "var/lib/dpkg/updates", "etc", "usr/share/doc"):
        (root / name).mkdir(parents=True)
    (root / "var/lib/dpkg/status").touch()
    # dpkg would remove this folder with the package if it were empty.
    (root / "usr/share/doc/other").touch()

    def dpkg(*words: object) -> str:
        path = os.environ["PATH"] + ":/usr/sbin:/sbin"
        return must("dpkg", f"--root={root}", "--force-not-root", "--force-script-chrootless", "--force-depends", f"--log={tmp_path}/dpkg.log",
                    *words, names={"PATH": path})

    def left() -> set[str]:
        return {path.relative_to(root).as_posix() for path in root.rglob("*") if "var/lib/dpkg" not in path.as_posix()}
    before = left()
    dpkg("--install", release.path(1))
    assert (root / "usr/bin/tcrx").exists() and (root / f"usr/{PAGES}/copyright").exists() and dpkg("--verify", "dekorihe") == ""
    client = root / "usr/share/dekorihe/python"
    must("env", "-u", "PYTHONDONTWRITEBYTECODE", "-u", "PYTHONPYCACHEPREFIX", f"PYTHONPATH={client}", sys.executable, "-c", "import tcrx")
    assert (client / "tcrx/__pycache__").is_dir()
    dpkg("--remove", "dekorihe")
    assert left() == before


# --- Use of the archive ---

@pytest.fixture(name="unpacked", scope="module")
def unpack(release: Release, tmp_path_factory: pytest.TempPathFactory) -> Path:
    """Unpacks the archive as a user would, and returns its folder."""
    place = tmp_path_factory.mktemp("unpacked")
    must("tar", "-xf", release.path(0), cwd=place)
    return place / release.name


@pytest.mark.parametrize("program", PROGRAMS)
def test_an_unpacked_program_starts(release: Release, unpacked: Path, program: str) -> None:
    assert must(unpacked / "bin" / program, "--version", cwd=unpacked, names={"PATH": os.defpath}) == f"{program} {release.number}"


def test_the_unpacked_archive_has_its_sums(unpacked: Path) -> None:
    must("sha256sum", "--quiet", "-c", "SHA256SUMS", cwd=unpacked)


@pytest.mark.needs("cc", "gcc")
def test_the_commands_of_the_readme_print_what_it_shows(unpacked: Path) -> None:
    """They run one after the other in one shell, without the kit on the path."""
    text = (unpacked / "README").read_text().partition("\n    Folder ")[0]
    found = [(command + re.sub("^    > ", "", more, flags=re.M), re.sub("^    ", "", printed, flags=re.M)) for command, more, printed in
             re.findall(r"^    \$ (.*\n)((?:    > .*\n)*)((?:    (?!\$ |> ).*\n)*)", text, re.M)]
    assert len(found) == 10
    script = "".join(f"{command}printf '\\n== end {place} %s\\n' $?\n" for place, (command, _) in enumerate(found))
    ran = run("bash", "-c", script, cwd=unpacked, names={"PATH": os.defpath, "PYTHONDONTWRITEBYTECODE": "1"})
    printed = re.split(r"\n== end \d+ (\d+)\n", ran.stdout)
    for place, (command, wanted) in enumerate(found):
        assert printed[2 * place:2 * place + 2] == [wanted, "0"], f"{command.strip()}: {ran.stderr}"


def test_each_link_on_a_page_of_the_archive_leads_to_a_file(unpacked: Path) -> None:
    links = []
    for page in (unpacked / PAGES).rglob("*.md"):
        text = re.sub(r"^```.*?^```$", "", page.read_text(), flags=re.M | re.S)
        links += [(page, link) for link in re.findall(r"\]\(([^)\s]+)\)", text) if not re.match(r"\w+:", link)]
    assert len(links) > 100 and [(str(page), link) for page, link in links if not (page.parent / link.partition("#")[0]).exists()] == []


@pytest.mark.parametrize("page", ["docs/tutorial.md", "docs/howto/flight.md", "docs/howto/embed.md"])
def test_the_commands_of_a_page_run_where_the_archive_was_unpacked(release: Release, tmp_path: Path, page: str) -> None:
    must("tar", "-xf", release.path(0), cwd=tmp_path)
    pages = tmp_path / release.name / PAGES
    # checks/pages takes the folder above its own as the top of the tree.
    (pages / "checks").mkdir()
    shutil.copy(TOP / "checks/pages", pages / "checks/pages")
    cargo = shutil.which("cargo")
    path = ":".join([f"{tmp_path}/{release.name}/bin", os.defpath, *([str(Path(cargo).parent)] if cargo else [])])
    must("python3", pages / "checks/pages", page, names={"PATH": path})


def test_the_four_commands_of_the_guide_for_c_make_its_program(release: Release, tmp_path: Path) -> None:
    must("tar", "-xf", release.path(0), cwd=tmp_path)
    pages = tmp_path / release.name / PAGES
    guide = (pages / "c/README.md").read_text().partition("\n## Four commands\n")[2].partition("\n## ")[0]
    script = re.findall(r"^\$ (.*)$", guide, re.M)
    assert len(script) == 4
    printed = [must("bash", "-c", command, cwd=pages, names={"PATH": os.defpath, "HOME": str(tmp_path)}) for command in script]
    assert printed[-1] == (pages / "c/examples/channel.stdout").read_text().strip()


# --- The bill of materials ---

class Bill(NamedTuple):
    """The bill of materials: all of it, its parts by their references, and the programs and libraries of the archive."""

    whole: dict[str, Any]
    parts: dict[str, Any]
    linked: set[str]

    def reached(self, ref: str) -> set[str]:
        """Returns all parts on which a part depends, directly or not."""
        ways = {way["ref"]: way.get("dependsOn", []) for way in self.whole["dependencies"]}
        found: set[str] = set()
        left = [ref]
        while left:
            if (name := left.pop()) not in found:
                found.add(name)
                left += ways.get(name, [])
        return found - {ref}


@pytest.fixture(name="bill", scope="module")
def read_bill(release: Release, archive: Archive) -> Bill:
    """Reads the bill of materials of the archive."""
    whole = json.loads(archive.files[bill_of(release.version)])
    regular = sums_of(archive.files["SHA256SUMS"].decode(), "  ")
    linked = {name for name in regular if archive.files[name].startswith((b"\x7fELF", b"!<arch>\n"))}
    return Bill(whole, {part["bom-ref"]: part for part in whole["components"]}, linked)


APACHE = [{"license": {"id": "Apache-2.0"}}]


def time_of_commit() -> str:
    """Returns the time of the commit of the copy, as BUILD and the bill of materials write it."""
    return must("date", "-u", "-d", f"@{WHEN}", "+%Y-%m-%dT%H:%M:%SZ")


def test_the_bill_of_materials_has_its_form_and_product(release: Release, bill: Bill) -> None:
    assert [bill.whole.get(key) for key in ("bomFormat", "specVersion", "version")] == ["CycloneDX", "1.6", 1]
    about, rights = bill.whole["metadata"]["component"], (TOP / "NOTICE").read_text().split("\n")[1]
    assert [about[key] for key in ("name", "version", "licenses", "copyright")] == ["dekorihe", release.version, APACHE, rights]
    assert bill.whole["metadata"]["timestamp"] == time_of_commit()


def test_each_part_of_the_bill_has_a_name_of_its_own_and_each_dependency_is_of_a_part(bill: Bill) -> None:
    named = {ref for way in bill.whole["dependencies"] for ref in (way["ref"], *way["dependsOn"])}
    assert len(bill.parts) == len(bill.whole["components"]) and named <= {*bill.parts, "dekorihe"}


def test_the_bill_has_the_sums_of_programs_and_libraries(archive: Archive, bill: Bill) -> None:
    sums = {ref: part["hashes"] for ref, part in bill.parts.items() if "hashes" in part}
    assert sums == {name: [{"alg": "SHA-256", "content": sha}] for name, sha in shas(archive.files, bill.linked).items()}


def test_the_bill_names_the_compiler_and_what_is_not_in_the_files(bill: Bill) -> None:
    assert bill.parts["rattle-kit"]["version"] == must("rt", "version")
    assert {ref for ref, part in bill.parts.items() if part.get("scope") == "excluded"} == {"rattle-kit", "clang"}
    assert bill.linked | {"wabt"} <= bill.reached("dekorihe")


def crates_of(*names: str) -> set[str]:
    """Returns the crates of the repository and of the kit that crates.txt names for these crates, directly or not."""
    lines = dict(re.findall(r"^(\w+)[^:#\n]*:([^#\n]*)", (TOP / "crates.txt").read_text(), re.M))
    found, before = set(names), set[str]()
    while found != before:
        found, before = found.union(*(lines.get(it, "").split() for it in found)), found
    return found


def test_the_bill_has_the_crates_that_crates_txt_names(release: Release, bill: Bill) -> None:
    ours = {path.name for path in (TOP / "crates").iterdir()}
    all_of = set[str]()
    for name in bill.linked:
        wanted = crates_of("tc_c", "tc_c_lines") if name.startswith("lib/") else crates_of(name[len("bin/"):])
        found = bill.reached(name)
        all_of |= found
        assert {ref for ref in found if ref.startswith("crate/")} == {f"crate/{it}" for it in wanted & ours}, name
        assert {f"kit/{it}" for it in wanted - ours} | {"kit/std", "kit/core"} <= found, name
    assert {ref for ref in bill.parts if "/" in ref and ref not in bill.linked} == all_of
    crates = {ref: (part["version"], part["licenses"]) for ref, part in bill.parts.items() if ref.startswith("crate/")}
    assert crates == dict.fromkeys(crates, (release.version, APACHE))


def noticed() -> dict[str, list[str]]:
    """Returns the cells of each row in the table of NOTICE. The key is the name of a crate of the kit."""
    head, _, rest = (TOP / "NOTICE").read_text().partition("\n  -")
    marks, *lines = rest.partition("\n\n")[0].split("\n")
    starts = [place.start() for place in re.finditer(r"-+", "  -" + marks)]
    assert "Contained in" in head, "the table of NOTICE"
    rows: dict[str, list[str]] = {}
    for line in lines:
        cells = [line[start:end].strip() for start, end in zip(starts, [*starts[1:], None])]
        if cells[0]:
            rows[cells[0]] = cells
        else:
            last = list(rows)[-1]
            rows[last] = [f"{above} {cell}".strip() for above, cell in zip(rows[last], cells)]
    return rows


@pytest.mark.parametrize("name", noticed())
def test_the_bill_agrees_with_notice_on_a_crate_of_the_kit(bill: Bill, name: str) -> None:
    """Compares the files that contain it, its version and its licences."""
    _, origin, licence, places = noticed()[name]
    part = bill.parts.get(f"kit/{name}", {})
    inside = {Path(file).name for file in bill.linked if f"kit/{name}" in bill.reached(file)} - {"libtcrx.so.0"}
    assert inside == set(re.findall(r"tc\w+(?=,| |$)|libtcrx\.a", places)) & {Path(file).name for file in bill.linked}
    numbered = re.fullmatch(rf"{name.replace('_', '-')} (\S+)", origin)
    assert part.get("version") == (numbered and numbered[1])
    names = re.findall(r"Apache-2\.0|BSD-3-Clause|MIT", json.dumps(part.get("licenses", [])))
    assert set(names) == (set(re.findall(r"Apache-2\.0|BSD-3-Clause|MIT", licence)) if part else set())


def test_notice_names_each_crate_of_the_kit_in_the_bill(bill: Bill) -> None:
    text = (TOP / "NOTICE").read_text()
    assert [ref for ref in bill.parts if ref.startswith("kit/") and not re.search(rf"\b{ref[4:]}\b", text)] == []


# --- BUILD, and the result of CI in it ---

def has_built(text: str, release: Release, glibc: str, said: list[str]) -> None:
    """Asserts that BUILD has the commit, the time, the kit, the C library, this result of CI, and the sums of what was built."""
    lines = dict(line.split(None, 1) for line in text.split("\n\n")[1].split("\n"))
    wanted = {"commit": must("git", "rev-parse", "HEAD", cwd=release.tree), "time": time_of_commit(), "kit": must("rt", "version"),
              "glibc": f"{glibc} or later"}
    assert {name: lines.get(name) for name in wanted} == wanted and re.search(r"\bversion \d", lines["compiler"])
    assert text.partition("What CI said of this commit:\n")[2].partition("\n\n")[0].split("\n") == [f"  {line}" for line in said]
    sums = re.findall(r"^  ([0-9a-f]{64})  (?:bin|lib)/\S+$", text, re.M)
    assert {*(sum_of(TOP / name) for name in BUILT if not name.endswith(".a")), sum_of_library()} <= set(sums)


def sum_of_library() -> str:
    """Returns the SHA-256 of the static library that joins the two that were built, as tools/install makes it."""
    with tempfile.TemporaryDirectory() as room:
        for crate, member in (("tc_c", "tcrx.o"), ("tc_c_lines", "tcrx_lines.o")):
            library = TOP / f"crates/{crate}/out/lib{crate}.a"
            (Path(room) / member).write_bytes(subprocess.run(["ar", "p", library], stdout=subprocess.PIPE, check=True).stdout)
        must("ar", "rcDs", "libtcrx.a", "tcrx.o", "tcrx_lines.o", cwd=Path(room))
        return sum_of(Path(room) / "libtcrx.a")


def test_build_has_no_result_of_ci_for_another_commit(release: Release, archive: Archive, glibc: str) -> None:
    has_built(archive.files["BUILD"].decode(), release, glibc, ["not run on this commit in this copy of the repository"])


def stub(path: Path, last: str, more: str = "true") -> None:
    """Writes a stand-in for a command. It prints the line `last`, and then runs the command `more`."""
    path.parent.mkdir(parents=True, exist_ok=True)
    path.write_text(f"#!/bin/sh\necho '{last}'\n{more}\n")
    path.chmod(0o755)


class Small:  # pylint: disable=too-few-public-methods  # .ci/run only runs there
    """A tree with .ci/run, and stand-ins for all commands that it starts. The last one skips all of its comparisons."""

    def __init__(self, work: Path) -> None:
        self.tree, self.path = work / "small", f"{work}/kit:{os.environ['PATH']}"
        stub(work / "kit/rt", "rt: 20000 passed, 0 failed")
        (self.tree / ".ci").mkdir(parents=True)
        shutil.copy(TOP / ".ci/run", self.tree / ".ci/run")
        (self.tree / ".gitignore").write_text("out/\n")
        self.steps = re.findall(r"^step \d+ ((?:checks|tests)/\w+)", (TOP / ".ci/run").read_text(), re.M)
        for step in self.steps:
            stub(self.tree / step, f"{Path(step).name}: 20000 comparisons passed, 0 failed")
        stub(self.tree / self.steps[-1], f"{Path(self.steps[-1]).name}: 0 passed, 0 failed; skipped: all of it (20000)")
        copy_built(self.tree)
        commit_all(self.tree)
        self.note = self.tree / "out/ci" / must("git", "rev-parse", "HEAD", cwd=self.tree)

    def run(self) -> subprocess.CompletedProcess[str]:
        """Runs .ci/run there."""
        return run(self.tree / ".ci/run", names={"PATH": self.path})


@pytest.fixture(name="small")
def make_small(tmp_path: Path) -> Small:
    """Returns a tree with .ci/run and stand-ins."""
    return Small(tmp_path)


def test_the_quick_checks_are_steps_of_ci(small: Small) -> None:
    assert {line.split()[0] for line in (TOP / "checks/quick").read_text().splitlines()} <= set(small.steps)


def test_ci_keeps_what_it_prints_at_its_end_and_build_has_it(release: Release, small: Small, glibc: str, tmp_path: Path) -> None:
    printed = small.run().stdout.strip().split("\n")[-len(small.steps) - 2:]
    assert printed[0] == "rt: rt: 20000 passed, 0 failed" and printed[-1].startswith(f"ci: {len(small.steps)} steps passed, 0 failed;")
    assert printed[-1].endswith(f"; left out: {small.steps[-1]}: all of it (20000)")
    kept = small.note.read_text()
    assert kept.split("\n") == [*printed, *(f"{sum_of(small.tree / built)}  {built}" for built in BUILT), ""]
    ours = release.tree / "out/ci" / must("git", "rev-parse", "HEAD", cwd=release.tree)
    try:
        for text, last in ((kept, "are those that it ran."), (kept.replace(sum_of(small.tree / BUILT[0]), "0" * 64), "were built again since.")):
            ours.write_text(text)
            make(release.tree, tmp_path / "said")
            with tarfile.open(tmp_path / "said" / release.files[0]) as archive:
                build = read(archive, f"{release.name}/").files["BUILD"].decode()
            has_built(build, release, glibc, [*printed, f"The programs and the library below {last}"])
    finally:
        ours.unlink()


def test_ci_keeps_nothing_if_a_step_fails(small: Small) -> None:
    stub(small.tree / small.steps[3], "20000 passed", "false")
    ran = small.run()
    assert ran.returncode == 1 and "ci: 4 steps passed, 1 failed;" in ran.stdout and not small.note.exists()


def test_ci_keeps_nothing_for_a_tree_that_is_not_committed(small: Small) -> None:
    (small.tree / "more").touch()
    assert small.run().returncode == 0 and not small.note.exists()


# --- What is refused ---

class Refusing(NamedTuple):
    """A clone of the tree, and a folder with an older file."""

    tree: Path
    folder: Path
    version: str

    def refused(self, status: int, why: str, *words: object, names: Mapping[str, str] | None = None) -> None:
        """Asserts that tools/release exits with this status, says why, and leaves the folder as it was."""
        ran = run(self.tree / "tools/release", *words, names=names)
        assert ran.returncode == status and why in ran.stderr
        assert {path.name: path.read_bytes() for path in self.folder.iterdir()} == {"SHA256SUMS": b"old\n"}


@pytest.fixture(name="clone")
def make_clone(release: Release, tmp_path: Path) -> Refusing:
    """Clones the tree."""
    must("git", "clone", "-q", release.tree, tmp_path / "clone")
    (tmp_path / "kept").mkdir()
    (tmp_path / "kept/SHA256SUMS").write_text("old\n")
    return Refusing(tmp_path / "clone", tmp_path / "kept", release.number)


def unreleased(tree: Path) -> str:
    """Returns the entries of CHANGELOG.md under "Unreleased", or an empty text."""
    lines = (tree / "CHANGELOG.md").read_text().partition("## [Unreleased]")[2].partition("\n## [")[0]
    return lines if "\n- " in lines else ""


def test_another_version_is_refused(clone: Refusing) -> None:
    clone.refused(1, f"this tree is version {clone.version}", "9.9.9", clone.folder)


def test_changes_without_a_version_are_refused(clone: Refusing) -> None:
    page = clone.tree / "CHANGELOG.md"
    page.write_text(page.read_text().replace("## [Unreleased]\n", "## [Unreleased]\n\n- A change.\n", 1))
    commit_more(clone.tree)
    clone.refused(1, f"changes since version {clone.version}: give them a number", clone.version, clone.folder)


@pytest.mark.parametrize("words", ["", "--all", "VERSION FOLDER more", "vVERSION", "VERSION --folder", "--snapshot --folder"])
def test_a_bad_command_line_is_refused(clone: Refusing, words: str) -> None:
    given = words.replace("VERSION", clone.version).replace("FOLDER", str(clone.folder))
    clone.refused(2, "usage: tools/release VERSION|--snapshot [FOLDER]", *given.split())


@pytest.mark.parametrize("file", ["untracked", "LICENSE"])
def test_a_changed_tree_is_refused(clone: Refusing, file: str) -> None:
    with (clone.tree / file).open("a") as changed:
        changed.write("More.\n")
    clone.refused(1, "the tree isn't as it was committed", "--snapshot", clone.folder)


def test_a_missing_command_is_named(clone: Refusing, tmp_path: Path) -> None:
    tools = tmp_path / "tools"
    tools.mkdir()
    for directory in reversed(os.environ["PATH"].split(":")):
        for command in Path(directory).glob("*"):
            if command.name != "dpkg-deb" and not (tools / command.name).is_symlink():
                (tools / command.name).symlink_to(command)
    clone.refused(1, "the command dpkg-deb isn't on the path", "--snapshot", clone.folder, names={"PATH": str(tools)})


def test_a_folder_that_cannot_be_made_is_refused(release: Release, tmp_path: Path) -> None:
    (tmp_path / "file").touch()
    assert run(release.tree / "tools/release", "--snapshot", tmp_path / "file/below").returncode == 1


def test_a_tree_that_is_no_clone_is_refused(clone: Refusing, tmp_path: Path) -> None:
    shutil.rmtree(clone.tree / ".git")
    clone.refused(1, "isn't a clone of the repository", "--snapshot", clone.folder, names={"GIT_CEILING_DIRECTORIES": str(tmp_path)})


def commit_more(tree: Path) -> None:
    """Commits what has changed in a tree."""
    must("git", "-c", "user.name=Somebody", "-c", "user.email=somebody@place.example", "-c", "commit.gpgsign=false", "commit", "-q", "-a",
         "-m", "More", cwd=tree)


def test_a_release_with_a_number(clone: Refusing, tmp_path: Path) -> None:
    """If CHANGELOG.md has entries under "Unreleased", they are rewritten before, so that they don't count as entries."""
    if lines := unreleased(clone.tree):
        page = clone.tree / "CHANGELOG.md"
        page.write_text(page.read_text().replace(lines, re.sub(r"^- ", "", lines, flags=re.M)))
        commit_more(clone.tree)
    copy_built(clone.tree)
    printed = must(clone.tree / "tools/release", clone.version, tmp_path / "version").split("\n")
    assert printed[0] == str(tmp_path / "version" / f"dekorihe-{clone.version}-linux-x86_64.tar.xz")
