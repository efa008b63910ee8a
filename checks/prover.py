"""Runs the kit's prover on changed copies of this tree's crates, for checks/refuse_edits, checks/no_growth and checks/in_flight."""
from __future__ import annotations

import shutil
import subprocess
import tempfile
from pathlib import Path

from wrong_bodies import GIVEN_FILE, SOURCES, TOP, Crate, Fault, Trial, crates_below


def run(words: list[str], folder: Path) -> tuple[int, str]:
    """Runs a command in a folder, and returns its status and what it printed."""
    ran = subprocess.run(words, cwd=folder, stdin=subprocess.DEVNULL, stdout=subprocess.PIPE, stderr=subprocess.STDOUT, text=True, errors="replace",
                         check=False)
    return ran.returncode, ran.stdout


class Prover:
    """The kit's prover, `rattle`. It checks and builds crates over the libraries that were built in a tree."""

    def __init__(self, crates: dict[str, Crate], room: Path):
        self.crates = crates
        self.tree = TOP
        self.room = room
        if not shutil.which("rt"):
            raise Fault("the command rt isn't on the path: it is in the folder bin of the Rattle kit")
        # `rt doc` prints the path of a page in the top folder of the kit.
        status, printed = run(["rt", "doc"], TOP)
        if status:
            raise Fault(f"rt doc: {printed}")
        self.kit = Path(printed.strip()).parent

    def all_below(self, chosen: list[Crate]) -> list[Crate]:
        """Returns all crates that the chosen ones depend on, in the order of crates.txt."""
        names = {deeper.name for it in chosen for deeper in crates_below(it, self.crates)}
        return [it for it in self.crates.values() if it.name in names]

    def build_below(self, chosen: list[Crate]) -> None:
        """Builds the libraries that the chosen crates depend on."""
        for it in self.all_below(chosen):
            status, printed = run(["rt", "lib"], it.folder)
            if status:
                raise Fault(f"{it.name} isn't proved:\n{printed}")

    def take_below(self, chosen: list[Crate], since: Path) -> None:
        """Uses the libraries that `rt ci` has left in the tree since the file `since` was written. If a developer's own checks had left
        older ones, `rt ci` has put these back. Then it builds all of them in a copy of the tree."""
        below, begun = self.all_below(chosen), since.stat().st_mtime
        if all(self.library(it).is_dir() and self.library(it).stat().st_mtime >= begun for it in below):
            return
        self.tree = self.room / "tree"
        for it in below:
            for part in SOURCES:
                if (it.folder / part).is_dir():
                    shutil.copytree(it.folder / part, self.tree / "crates" / it.name / part)
        (self.tree / "crates.txt").write_text("".join(f"{it.line}\n" for it in below), encoding="utf-8")
        shutil.copy(TOP / "HANDLES", self.tree)
        status, printed = run(["rt", "ci"], self.tree)
        if status:
            raise Fault(f"the libraries below aren't proved:\n{printed}")

    def library(self, crate: Crate) -> Path:
        """Returns the path of a crate's library."""
        return self.tree / "crates" / crate.name / "out" / "rlib" / f"{crate.name}.rlib"

    def kept(self, crate: Crate) -> Path:
        """Returns the folder that keeps what was proved of a crate."""
        return self.room / crate.name

    def rattle(self, verb: str, crate: Crate, folder: Path, kept: Path, more: list[str]) -> tuple[int, str]:
        """Checks or builds (`verb`) a crate in `folder`. It starts from the proofs in the folder `kept`, and adds its own to them. Returns
        the status and what was printed."""
        words = [str(self.kit / "bin" / "rattle"), verb, "--crate-name", crate.name, crate.root]
        of_kit = ["std", *(it for it in crate.named if it not in self.crates)]
        of_ours = [self.crates[it] for it in crate.named if it in self.crates]
        libraries = {it: self.kit / "rlibs" / f"{it}.rlib" for it in of_kit} | {it.name: self.library(it) for it in of_ours}
        words += [word for name, place in libraries.items() for word in ("--extern", f"{name}={place}")]
        folders = [self.kit / "rlibs", *(self.library(it).parent for it in crates_below(crate, self.crates))]
        words += [word for it in folders for word in ("-L", f"dependency={it}")]
        words += ["--antt-project", str(self.kit / "rattle" / "logic" / "antt-project.json")]
        # A crate that declares a foreign function must name the library that defines it.
        defined = "nothing" if (folder / GIVEN_FILE).is_file() else ""
        words += ["--logic-built", str(self.kit / "logic_built"), "--links", f"{crate.name}={defined}"]
        words += ["--crate-type", "staticlib"] if crate.is_static else []
        return run([*words, "--incremental", str(kept), *more], folder)

    def try_edits(self, crate: Crate, trial: Trial, is_first: bool, more: list[str]) -> str:
        """Checks a copy of a crate with edits in it, with `more` words on the check's command line, and returns what it printed. The first
        check of a crate keeps what it proves. A later one starts from this."""
        with tempfile.TemporaryDirectory(prefix="edits-", dir=self.room) as room:
            for part in SOURCES:
                if (crate.folder / part).is_dir():
                    shutil.copytree(crate.folder / part, Path(room) / part)
            for file in trial.gone:
                (Path(room) / file).unlink()
            for file, text in trial.files.items():
                (Path(room) / file).parent.mkdir(parents=True, exist_ok=True)
                (Path(room) / file).write_text(text, encoding="utf-8")
            kept = self.kept(crate)
            if not is_first:
                kept = Path(room) / "kept"
                shutil.copytree(self.kept(crate), kept)
            return self.rattle("check", crate, Path(room), kept, more)[1]

    def build_archive(self, crate: Crate, jobs: int) -> str:
        """Builds a static library from what the first check of its crate proved. Returns what was printed if that fails, and else an empty
        text."""
        made = crate.folder / "out" / f"lib{crate.name}.a"
        made.parent.mkdir(exist_ok=True)
        more = ["--jobs", str(jobs), "--cpu", "x86-64", "--toolchain", str(self.kit / "toolchain"), "--backend", "llvm", "-o", str(made)]
        status, printed = self.rattle("build", crate, crate.folder, self.kept(crate), more)
        # tools/target starts from these proofs when it proves and builds the library for other machines.
        if not status:
            kept = made.parent / "targets" / "incremental"
            shutil.rmtree(kept, ignore_errors=True)
            shutil.copytree(self.kept(crate), kept)
        return printed if status else ""
