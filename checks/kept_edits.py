"""Keeps the results of checks/refuse_edits on the machine, outside of the tree: which edits were refused, and which controls weren't. They
are kept under the sums of all that was read, so that refuse_edits tries again only those for which something has changed.

A file is for one state of a crate. The state consists of the kit's version, the sources of the check, and, for the crate and those that it
depends on, the line in crates.txt, the sources, the definitions and the proofs. Each line of the file has the sum of an edit or control and
its result. The last line is the sum of the other lines. A file with another last line isn't used. A file is first written under another
name, and then renamed.
"""
from __future__ import annotations

import hashlib
import os
import tempfile
from pathlib import Path
from typing import Sequence, Tuple

from wrong_bodies import WRONG, Crate, Edit, crates_below, sources_in

HERE = Path(__file__).resolve().parent
# The sources that decide how an edit is tried and what counts as a refusal.
TOOLS = ("refuse_edits", "kept_edits.py", "wrong_bodies.py", "judging.py", "prover.py")
# The number of states of a crate that are kept. The oldest ones are removed.
MOST_STATES = 20


def folder_here() -> Path | None:
    """Returns the folder in which results are kept for this user, or None if the environment names no place for it."""
    cache, home = os.environ.get("XDG_CACHE_HOME", ""), os.environ.get("HOME", "")
    if not cache.startswith("/"):
        cache = f"{home}/.cache" if home.startswith("/") else ""
    return Path(cache) / "dekorihe" / "edits" if cache else None


def sum_of(edit: Edit) -> str:
    """Returns the sum of an edit or control: of its kind, its changes, its texts that are alike, and the clause that it names."""
    parts = (edit.kind, edit.changes, sorted(edit.alikes.items()), edit.turned)
    return hashlib.sha256(repr(parts).encode()).hexdigest()


class Kept:
    """The results that are kept in a folder. The state of a crate is that in which it was when it was looked at first."""

    def __init__(self, folder: Path, kit: str, crates: dict[str, Crate]):
        self.folder = folder
        self.kit = kit
        self.crates = crates
        self.states: dict[str, str] = {}
        self.seen: dict[str, dict[str, str]] = {}

    def state_of(self, crate: Crate) -> str:
        """Returns the sum of all that a check of the crate's edits reads besides the edits, as it is when this is called."""
        total = hashlib.sha256(self.kit.encode())
        for tool in TOOLS:
            total.update(hashlib.sha256((HERE / tool).read_bytes()).digest())
        for it in (*crates_below(crate, self.crates), crate):
            total.update(hashlib.sha256(it.line.encode()).digest())
            for path, octets in sources_in(it.folder).items():
                total.update(hashlib.sha256(path.encode()).digest() + hashlib.sha256(octets).digest())
        return total.hexdigest()

    def file_of(self, crate: Crate) -> Path:
        """Returns the path of the file for the state in which the crate was when it was looked at first."""
        if crate.name not in self.states:
            self.states[crate.name] = self.state_of(crate)
        return self.folder / f"{crate.name}-{self.states[crate.name]}"

    def read(self, crate: Crate) -> dict[str, str]:
        """Reads the results for a crate, and returns them by the sums of the edits. Returns nothing if the file isn't whole."""
        try:
            lines = self.file_of(crate).read_text(encoding="ascii").splitlines()
        except (OSError, UnicodeDecodeError):
            return {}
        *seen, last = lines or [""]
        is_whole = last == hashlib.sha256("".join(seen).encode()).hexdigest()
        return dict((each[:64], each[65:]) for each in seen) if is_whole else {}

    def way(self, crate: Crate, edit: Edit) -> str | None:
        """Returns the kept result of an edit or control: the way in which an edit was refused, or `right` for a control that wasn't.
        Returns None if no result is kept."""
        if crate.name not in self.seen:
            self.seen[crate.name] = self.read(crate)
        return self.seen[crate.name].get(sum_of(edit))

    def has(self, crate: Crate, edit: Edit) -> bool:
        """Returns whether a result of the edit or control is kept."""
        return self.way(crate, edit) is not None

    def keep(self, crate: Crate, edits: Sequence[Tuple[Edit, str]]) -> None:
        """Keeps these results, unless something that was read has changed meanwhile. All of them must be as they should be."""
        file = self.file_of(crate)
        if not edits or self.state_of(crate) != self.states[crate.name]:
            return
        seen = self.read(crate)
        seen.update((sum_of(it), way) for it, way in edits)
        sums = sorted(f"{sum_of_it} {way}" for sum_of_it, way in seen.items())
        try:
            self.folder.mkdir(parents=True, exist_ok=True)
            with tempfile.NamedTemporaryFile("w", encoding="ascii", dir=self.folder, prefix=".", delete=False) as part:
                part.write("".join(f"{it}\n" for it in (*sums, hashlib.sha256("".join(sums).encode()).hexdigest())))
            os.replace(part.name, file)
            states = sorted(self.folder.glob(f"{crate.name}-*"), key=lambda it: -it.stat().st_mtime)
            for old in states[MOST_STATES:]:
                old.unlink()
        except OSError as fault:
            print(f"{crate.name}: the results of its edits can't be kept: {fault}", flush=True)


def misplaced() -> list[str]:
    """Keeps results for two made-up crates, of which one depends on the other. Returns the results that are wrongly kept, and those
    that are wrongly missing."""
    with tempfile.TemporaryDirectory(prefix="kept-") as place:
        room = Path(place)
        crates = {"low": Crate("low:"), "high": Crate("high: low")}
        for name, crate in crates.items():
            crate.folder = room / name
            for part in ("src", "proofs"):
                (crate.folder / part).mkdir(parents=True)
                (crate.folder / part / "file").write_text(name, encoding="ascii")
        edit = Edit("high", "made_up", WRONG, [("src/file", "high", "low")])
        other = Edit("high", "made_up", WRONG, [("src/file", "high", "lower")])
        high, proof = crates["high"], crates["low"].folder / "proofs" / "file"

        def looks(kit: str = "kit") -> Kept:
            return Kept(room / "kept", kit, crates)

        found = {"an edit that was never seen": looks().has(high, edit)}
        changed = looks()
        changed.has(high, edit)
        proof.write_text("changed while it was tried", encoding="ascii")
        changed.keep(high, [(edit, "values")])
        proof.write_text("low", encoding="ascii")
        found["an edit of sources that changed while it was tried"] = looks().has(high, edit)
        looks().keep(high, [(edit, "values")])
        found["nothing for an edit that was just kept"] = looks().way(high, edit) != "values"
        found["another edit"] = looks().has(high, other)
        found["the right body"] = looks().has(high, edit.right())
        found["an edit by another kit"] = looks("other").has(high, edit)
        for file, text in ((proof, "low"), (high.folder / "src" / "file", "high")):
            file.write_text("changed", encoding="ascii")
            found[f"an edit whose {file.relative_to(room)} has changed"] = looks().has(high, edit)
            file.write_text(text, encoding="ascii")
        crates["low"].line = "low: lower"
        found["an edit whose line of crates.txt has changed"] = looks().has(high, edit)
        crates["low"].line = "low:"
        found["nothing for an edit for which all is as it was"] = not looks().has(high, edit)
        looks().keep(high, [(other, "limit")])
        kept = looks().file_of(high)
        found["not the results of both edits"] = [looks().way(high, it) for it in (edit, other)] != ["values", "limit"]
        kept.write_text("".join(kept.read_text(encoding="ascii").splitlines(True)[:-1]), encoding="ascii")
        found["an edit of a file that was cut short"] = looks().has(high, edit) or looks().has(high, other)
        return [it for it, is_wrong in found.items() if is_wrong]
