"""What the tests of the launcher and of tools/install share: a small tree with both, in which a stand-in for `rt` (tests/stand_in_rt) proves nothing
and writes a program that prints what it was given. The path has this stand-in, the tools of the system, and no other `rt`."""
from __future__ import annotations

import os
import platform
import re
import shutil
import signal
import subprocess
from contextlib import suppress
from pathlib import Path
from typing import Any, IO, Mapping, NamedTuple, Optional, Sequence

import comparing
from comparing import PATIENCE, TOP

TOOLS = ("bash env timeout readlink dirname sed sort xargs mkdir flock nproc tail head wc rm rmdir sleep cat chmod install touch mv mktemp grep cp ln"
         " stat paste").split()
# The files of the tree that the small tree has, too.
COPIED = ("tcrx tcmake tclive tcrx-bench dist/*.h dist/*.hpp dist/tcrx_memory.c dist/tcrx_lines_memory.c dist/tcrx_static.c c/packaging/*"
          " clients/python/*.py clients/python/tcrx/*.py clients/python/tcrx/py.typed clients/python/tcrx/bench/*.py clients/python/tcrx/bench/*.html"
          " clients/python/tcrx/bench/*.md completion/* LICENSE NOTICE tools/launch tools/build tools/stand_in tools/quick_checks tools/try_tests"
          " tools/install tools/put tools/guard").split()
# The lines of its crates.txt have all forms that there are, and also name crates of the kit, which have no line.
CRATES = """tc_link: thiserror
tc_packet: thiserror
station_tests tests_may=Threads+Wait: tc_link tc_station
tc_channel: tc_link tc_packet thiserror
tc_status: tc_link tc_channel
tc_station may_wait=13: tc_link tc_channel tc_status
tc_text: tc_channel hex   # a comment: station_tests
tc_cli may_wait=20: tc_link tc_channel tc_status tc_station tc_text hex
tcrx may_wait=4: tc_text tc_cli tc_station clap
tcmake: tc_link tc_packet clap
tclive: tc_text tc_cli clap
tc_c staticlib: tc_link tc_packet
tc_c_lines staticlib: tc_text
"""
# The texts of licences in the kit. clap has two texts. strsim, on which clap depends, and thiserror have one each. hex has none.
LICENCES = ("clap/LICENSE-APACHE", "clap/LICENSE-MIT", "strsim/LICENSE", "thiserror/LICENSE")
# The files of the folder dist of the small tree, each of which has its name as its text.
MACHINE = platform.machine()
# The seconds after which a command that still runs is stopped.
LONGEST = 300
DIST = [*(f"dist/{name}" for name in (f"{MACHINE}/tcrx_lines.s", "tcrx.h", "tcrx_at.h", "tcrx_lines.h", "tcrx_memory.c", "tcrx_lines_memory.c")),
        *(f"c/programs/{name}" for name in ("lines.h", "tcrx.c", "tclive.c", "tcmake.c"))]


class Ended(NamedTuple):
    """A program that has ended: its status and what it wrote."""

    status: int
    out: str
    error: str

    @property
    def lines(self) -> list[str]:
        """Returns the lines of the standard output."""
        return self.out.splitlines()


class Beside(NamedTuple):
    """A program that runs beside the test, and the files that it writes to."""

    child: subprocess.Popen[Any]
    out: Path
    error: Path

    def says(self, text: str) -> bool:
        """Returns whether a text is on standard error."""
        return text in self.error.read_text()

    def end(self) -> Ended:
        """Waits until the program has ended."""
        return Ended(self.child.wait(PATIENCE), self.out.read_text(), self.error.read_text())


def write_command(path: Path, *lines: str) -> None:
    """Writes a command in Bash."""
    path.write_text("\n".join(("#!/usr/bin/env bash", *lines, "")))
    path.chmod(0o755)


def command(name: str) -> str:
    """Returns the path of a command of this system."""
    found = shutil.which(name)
    assert found, f"the command {name} isn't on the path"
    return found


class Tree:
    """A small tree in which nothing is built, and the folders of its path. The folder for temporary files has a quotation mark in its name."""

    def __init__(self, work: Path) -> None:
        work.chmod(0o711)
        self.work, self.top, self.tools, self.kit, self.calls = work, work / "tree", work / "tools", work / "kit", work / "calls"
        self.temporary, self.crates = work / "it's", work / "tree/crates"
        self.with_rt, self.without_rt = (self.kit, self.tools), (self.tools,)
        for folder in (self.top, self.tools, self.kit, self.temporary):
            folder.mkdir()
        self._lay_out_tools()
        self._lay_out_kit()
        self._lay_out_tree()

    def _lay_out_tools(self) -> None:
        """Puts the tools of the system on the path. Starts of those that could make the launcher slow are noted. An archive of the stand-in for
        `ar` has the texts of its objects."""
        for name in TOOLS:
            (self.tools / name).symlink_to(command(name))
        for name in ("find", "sha256sum"):
            write_command(self.tools / name, f"echo {name} >>'{self.calls}'", f'exec {command(name)} "$@"')
        write_command(self.tools / "ar", 'if [ "$1" = p ]; then cat "$2"; else cat "${@:3}" >"$2"; fi')

    def _lay_out_kit(self) -> None:
        """Makes the kit: the stand-in for `rt`, the texts of licences, and a C compiler that writes its words to its output file."""
        shutil.copy(TOP / "tests/stand_in_rt", self.kit / "rt")
        write_command(self.kit / "cc", 'words=$*; while [ "$1" != -o ]; do shift; done', 'echo "cc $words" >"$2"; [ ! -e "${0%/*}/no_cc" ] || exit 1')
        for name in (*LICENCES, "hex/src"):
            (self.kit / "rattle" / name).parent.mkdir(parents=True, exist_ok=True)
        for name in LICENCES:
            (self.kit / "rattle" / name).write_text(f"the text of {name}\n")
        (self.kit / "rlibs/clap.rlib").mkdir(parents=True)
        (self.kit / "rlibs/clap.rlib/format").write_text("dep strsim\n")

    def _lay_out_tree(self) -> None:
        """Makes the tree, with stand-ins for the tools that write pages."""
        for source in (path for pattern in COPIED for path in TOP.glob(pattern) if path.is_file()):
            target = self.top / source.relative_to(TOP)
            target.parent.mkdir(parents=True, exist_ok=True)
            shutil.copy(source, target, follow_symlinks=False)
        write_command(self.top / "tools/man", 'for name in tcrx tclive tcmake tcrx-bench; do echo "page of $name" >"$1/$name.1"; done')
        write_command(self.top / "tools/header_page", 'echo a page >"$1"')
        write_command(self.top / "tools/unlink")
        write_command(self.top / "tools/library", 'mkdir -p "${0%/*}/../dist" && cd "${0%/*}/../dist"',
                      "[ -e libtcrx.so.0 ] || echo a library >libtcrx.so.0")
        (self.top / "crates.txt").write_text(CRATES)
        for name in re.findall(r"^\w+", CRATES, re.M):
            for folder, file, text in (("src", "lib.rt", f"fn {name}"), ("specs", "Lib.antt", f"pub mod {name}")):
                (self.crates / name / folder).mkdir(parents=True)
                (self.crates / name / folder / file).write_text(f"{text}\n")

    def close(self) -> None:
        """Kills what the stand-in for `rt` left behind."""
        for process in self.at_work():
            with suppress(ProcessLookupError):
                os.kill(process, signal.SIGKILL)

    # --- What the stand-ins do, and what they note ---

    def rt_does(self, *lines: str) -> None:
        """Has the stand-in for `rt` do what these lines say. Without a line it only builds."""
        (self.top / "rt.does").write_text("".join(f"{line}\n" for line in lines))

    def at_work(self) -> list[int]:
        """Returns the processes that still run of those that have noted that they wait."""
        noted = self.top / "rt.process"
        return [int(word) for word in noted.read_text().split() if is_running(int(word))] if noted.exists() else []

    def starts(self) -> list[str]:
        """Returns a line for each start of `rt`: the crate and the words."""
        noted = self.top / "rt.starts"
        return noted.read_text().splitlines() if noted.exists() else []

    def builds(self) -> int:
        """Returns how many builds of programs and of tc_c there were."""
        return sum(": run" in line or line.startswith("tc_c: lib") for line in self.starts())

    def jobs(self, *names: str) -> list[int]:
        """Returns how many jobs each of these crates got."""
        return [int(number) for name in names for number in re.findall(rf"^{name}: .*--jobs (\d+)", "\n".join(self.starts()), re.M)]

    def called(self) -> list[str]:
        """Returns the tools that were started since this was called last, of those that could make the launcher slow."""
        found = self.calls.read_text().split() if self.calls.exists() else []
        self.calls.write_text("")
        return found

    def left(self) -> list[str]:
        """Returns the files in the folder of the program tcrx, and the rooms and logs of builds that are left."""
        return [*sorted(path.name for path in (self.crates / "tcrx/out").iterdir()), *map(str, self.top.glob("out/**")),
                *map(str, self.crates.glob("*/out/build.log"))]

    def kept(self) -> list[int]:
        """Returns how often tc_status and tc_text have kept something."""
        found = [self.crates / name / "out/incremental/kept" for name in ("tc_status", "tc_text")]
        return [len(path.read_text().splitlines()) for path in found if path.exists()]

    # --- Starts ---

    def environment(self, path: Optional[Sequence[Path]], names: Optional[Mapping[str, Optional[str]]]) -> dict[str, str]:
        """Returns an environment with this path, or with one that has the kit. A variable of `names` that is None is left out."""
        folders = ":".join(map(str, path or self.with_rt))
        all_of = {**os.environ, "TCRX_BUILD": None, "TMPDIR": str(self.temporary), "RT_JOBS": "4", "PATH": folders, **(names or {})}
        return {name: value for name, value in all_of.items() if value is not None}

    # pylint: disable-next=too-many-arguments  # a test names the few that it needs
    def start(self, *words: object, given: str = "", stdin: Optional[IO[Any]] = None, path: Optional[Sequence[Path]] = None,
              names: Optional[Mapping[str, Optional[str]]] = None, before: Sequence[object] = (), where: Optional[Path] = None,
              error: Optional[Path] = None, umask: int = 0o022) -> Ended:
        """Runs a command of the tree, or of the folder `where`. It reads a line with the text `given` from a file, because a signal could end a
        process that wrote into a pipe. `before` is a command that starts it. After five minutes it is stopped, and its status is 124."""
        (self.work / "in").write_text(f"{given}\n")
        out, error = self.work / "out", error or self.work / "error"
        line = [command("timeout"), "--kill-after=5", str(LONGEST), *map(str, before), str((where or self.top) / str(words[0])), *map(str, words[1:])]
        with open(self.work / "in", encoding="utf-8") as text, open(out, "w", encoding="utf-8") as output, open(error, "w", encoding="utf-8") as said:
            ran = subprocess.run(line, cwd="/", env=self.environment(path, names), stdin=stdin or text, stdout=output, stderr=said, umask=umask,
                                 check=False)
        return Ended(ran.returncode, out.read_text(), error.read_text() if error.is_file() else "")

    def begin(self, *words: str, stdin: int = subprocess.DEVNULL, path: Optional[Sequence[Path]] = None) -> Beside:
        """Starts a command of the tree beside the test. INT has its effect even if the tests ignore it."""
        number = len(comparing.begun)
        out, error = self.work / f"out.{number}", self.work / f"error.{number}"
        line = [command("env"), "--default-signal=INT", str(self.top / words[0]), *words[1:]]
        with open(out, "w", encoding="utf-8") as output, open(error, "w", encoding="utf-8") as said:
            # pylint: disable-next=consider-using-with  # nothing_runs_on ends it
            child = subprocess.Popen(line, cwd="/", env=self.environment(path, None), stdin=stdin, stdout=output, stderr=said, umask=0o022)
        comparing.begun.append(child)
        return Beside(child, out, error)

    def change(self, commands: str) -> None:
        """Runs commands of Bash in the folder of the crates."""
        subprocess.run(["bash", "-c", commands], cwd=self.crates, check=True)


class DistTree(Tree):
    """A small tree whose folder dist was made from its sources. Its C compiler makes a program that prints its words, and can be slow or fail."""

    def __init__(self, work: Path) -> None:
        super().__init__(work)
        self.compiler = work / "cc"
        self.compiler.mkdir()
        self.with_cc, self.with_both = (self.compiler, self.tools), (self.compiler, *self.with_rt)
        for name in DIST:
            (self.top / name).parent.mkdir(parents=True, exist_ok=True)
            (self.top / name).write_text(f"{name}\n")
        write_command(work / "program", 'echo "dist: $*"', '[ "${1:-}" != parallel ] || exit 70', '[ "${1:-}" != wrong ] || exit 2')
        write_command(self.compiler / "cc", f"echo \"${{*: -3}}\" >>'{work}/cc.starts'",
                      f"[ ! -e '{work}/no_headers' ] || {{ echo 'tcrx.c:1: no stdio.h' >&2 && exit 1; }}", f"[ ! -e '{work}/slow' ] || sleep 0.5",
                      f"cp '{work}/program' \"${{*: -1}}\" && chmod +x \"${{*: -1}}\"")
        self.name_sources()

    def name_sources(self) -> None:
        """Has dist say that it was made from the present sources."""
        (self.top / "dist/sources").write_text(self.start("tools/launch", "--sum", "tcrx", "tclive", "tcmake", path=self.without_rt).out)

    def compiled(self) -> int:
        """Returns how often the C compiler was started."""
        noted = self.work / "cc.starts"
        return len(noted.read_text().splitlines()) if noted.exists() else 0

    def made(self) -> list[str]:
        """Returns the files at the top of dist besides sources and headers."""
        files = [path.name for path in (self.top / "dist").iterdir() if path.is_file()]
        return sorted(name for name in files if not re.fullmatch(r"tcrx\w*\.[ch]\w*|sources", name))


def is_running(process: int) -> bool:
    """Returns whether a process runs, or hasn't been waited for."""
    try:
        os.kill(process, 0)
    except ProcessLookupError:
        return False
    return True
