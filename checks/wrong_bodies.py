"""Reads the crates of the repository and the edits in their must-fail/ and wrong.edits, and lays out the copies of a crate in which
edits are tried.

In such a copy a mutant stands next to the original function, as a function of its own, or in place of it. The original bodies that
no edit changes are given away: a call of a function that ensures a false statement takes their place. The first lines of
checks/refuse_edits say why. That check tries the copies.
"""
from __future__ import annotations

import re
from collections import Counter
from dataclasses import dataclass, field, replace
from functools import cached_property
from pathlib import Path

TOP = Path(__file__).resolve().parent.parent
SOURCES = ("src", "specs", "proofs")
FUNCTION = re.compile(r"^( *)(?:pub(?:\([a-z]+\))? )?(?:const |unsafe )*(?:extern \"C\" )?fn (\w+)")
BLOCK = re.compile(r"^(?:impl|(?:pub )?trait)\b")
OF_A_TRAIT = re.compile(r"impl(?:<.*?>)? (?:\w+::)*(\w+)(?:<(\w+)>|<.*>)? for (?:\w+::)*(\w+)(?:<(\w+)>)?")
OF_A_TYPE = re.compile(r"impl(?:<.*?>)? (\w+)")
OF_ANY_TYPE = re.compile(r"impl(?:<(.*?)>)? (\w+)(?:<([^>]*)>)? (?:where|\{)")
TYPE = re.compile(r"^(?:pub(?:\([a-z]+\))? )?(?:struct|enum) (\w+)", re.M)
CALL = re.compile(r"\b([a-z_]\w*)(?:::<[^>]*>)?\(|::([a-z_]\w*)\b")
# Functions that must keep their bodies. A const function can't call the one that ensures a false statement. A function in a cycle of
# calls has a measure in its proofs. A function that returns an `impl` type gets this type from its body.
KEEPS_ITS_BODY = re.compile(r"\bconst fn\b|#\[(?:cycle|measure)\b|-> [^{]*\bimpl\b")
# The places of a crate's edits. The edits that `rt ci` tries one by one are files in a folder, in the kit's form. Those that are tried
# many at once are in one file. There each edit begins with its name, below the path of the file that it edits.
MUST_FAIL, WRONG = "must-fail", "wrong.edits"
# The beginnings of two lines of a file in must-fail. The first names the clause that the mutant breaks. The second stands below a 'new:'
# line, and has a text with the same exits and the right value.
TURNS, ALIKE = "# turns: ", "# alike: "
# The first line of an edit in wrong.edits: its name, and in parentheses the clause that the mutant breaks.
NAMED = re.compile(r"(\w+)(?: \((\w+)\))?")
# The words that an edit has in place of a clause if its mutant breaks the invariant of a type or of a loop, or a condition that a call
# requires. Such a mutant is tried without any clause.
NO_CLAUSE = ("invariant", "requires")
# The exits of a body. Each of them makes another path through it: a `?`, a branch, an arm of a match, or a jump.
EXIT = re.compile(r"\?(?=[;,.)\]}\s]|$)|\b(?:return|if|else|break|continue|matches)\b|=>|&&|\|\|")
CLAUSE = re.compile(r"^ +(?:requires|ensures|ghost)\*?(?: (\w+))? \{|^ +ghost ")
# The first line of an answer for a clause that a function ensures.
ANSWER = re.compile(r"^(?:pub |abbrev )*(returns[\w-]*) :", re.M)
LOOP = re.compile(r"\b(?:for|while|loop)\b")
# The name and the text of an answer to a goal that no function has.
NO_GOAL = "no-such-goal"
NO_GOAL_TEXT = f"\npub {NO_GOAL} : goal.{NO_GOAL}\n{NO_GOAL} c = c\n"
GIVEN = "crate::given_away::away(); unreachable!()"
GIVEN_FILE = "src/given_away.rt"
GIVEN_TEXT = """//! A function that ensures a false statement. The bodies that are given away call it.

ghost use Rattle.std.specs.Prelude.{IsTrue, false};

unsafe extern "C" {
    pub(crate) safe fn away()
        ensures { IsTrue false };
}
"""


class Fault(Exception):
    """A reason for which something can't be tried."""


def exits_of(text: str) -> Counter[str]:
    """Returns how many exits of each kind a text has, as far as the text shows."""
    return Counter(EXIT.findall(text))


def fault_of_alike(old: str, new: str, alike: str) -> str:
    """Returns why the text `alike` is no control for an edit of `old` to `new`, or an empty text if it is one. A control differs from
    both texts. It has as many exits of each kind as the new text. If the edit changes the exits, it hasn't those of the old text."""
    if alike in (old, new):
        return f"is the {'new' if alike == new else 'old'} text itself"
    if exits_of(alike) == exits_of(old) != exits_of(new):
        return "has the exits of the old text"
    if exits_of(alike) != exits_of(new):
        return "hasn't the exits of the new text"
    return ""


def module_of(file: str) -> list[str]:
    """Returns the path of the module that a file holds."""
    path = file.removeprefix("src/").removesuffix(".rt")
    return [] if path in ("lib", "main") else path.split("/")


@dataclass(frozen=True)
class Function:
    """A function of a file. `first`, `start`, `body` and `last` are numbers of lines, counted from 0: those of its first attribute, of its
    name, of the brace that opens its body, and of its end. `block` is the first line of the impl or trait in which it stands, or empty.
    `home` is the file of the type if it is a type's method, and else `file`."""

    file: str
    home: str
    name: str
    block: str
    first: int
    start: int
    body: int
    last: int

    @property
    def modules(self) -> list[list[str]]:
        """Returns the paths of the modules under which the prover may name the function: that of its file, and that of its type."""
        return [module_of(it) for it in dict.fromkeys((self.file, self.home))]

    @property
    def owner(self) -> str:
        """Returns the beginning of the prover's name for the impl of a trait in which the function stands: the names of the type and
        of the trait. Each is followed by its type argument if that is one word and no parameter of the impl. The text is empty for a
        function that stands in no such impl."""
        found = OF_A_TRAIT.match(self.block)
        if not found:
            return ""
        given = set(re.findall(r"\w+", self.block.partition("> ")[0])) if self.block.startswith("impl<") else set()
        of_type, of_trait = (it if it and it not in given else "" for it in (found[4], found[2]))
        return found[3] + of_type + found[1] + of_trait

    @property
    def answers(self) -> re.Pattern[str]:
        """Returns the pattern of the paths of the function's answers. Its first group is the folder in which the folder of the function
        stands. Its second group is a + if the function calls itself."""
        starts = "|".join("/".join(["proofs", *it]) for it in self.modules)
        return re.compile(rf"((?:{starts})/(?:[^/]+/)?)(\+?){self.name}/")

    def folder_of(self, name: str) -> str | None:
        """Returns the folder for answers of another function, `name`, that is written beside this one, or None if it isn't known."""
        if not self.block:
            return "/".join(["proofs", *self.modules[0], name])
        found = OF_ANY_TYPE.match(self.block)
        given = set(re.findall(r"\w+", found[1] or "")) if found else set()
        if found and set(re.findall(r"\w+", found[3] or "")) <= given:
            return "/".join(["proofs", *self.modules[-1], found[2], name])
        return None

    def is_answered_in(self, folder: str) -> bool:
        """Returns whether the files in this folder of proofs are answers of the function."""
        starts = ["/".join([*it, self.owner]) for it in self.modules]
        return folder.split("/")[-1] == self.name and any(folder.startswith(it) for it in starts)

    def has_body_in(self, line: int) -> bool:
        """Returns whether the line of this number is in the body or has the name. The line with the name counts, since an edit may
        change the patterns of the parameters, which the body uses."""
        return line == self.start or self.body < line < self.last


@dataclass
class Edit:
    """An edit of must-fail/ or wrong.edits, or a control in the form of an edit.

    Each of the `changes` is a file, an old text, which is in the file exactly once, and its new text. `alikes` has texts with the same
    exits and the right value, by the place of the change that they belong to. `function` is the function whose body is all that the
    edit changes, or None if it changes more. `turned` is the clause of the function that the mutant breaks, or empty if the edit names
    none. `kind` is `wrong` for an edit. A control, which must not be refused, is `right` if it is the original body, or `alike`."""

    crate: str
    name: str
    folder: str
    changes: list[tuple[str, str, str]] = field(default_factory=list)
    alikes: dict[int, str] = field(default_factory=dict)
    function: Function | None = None
    turned: str = ""
    kind: str = "wrong"

    @property
    def changed(self) -> Function:
        """Returns the function whose body is all that the edit changes. There must be one."""
        assert self.function, f"{self.name} changes more than a body"
        return self.function

    def right(self) -> "Edit":
        """Returns a control with the original body: an edit that leaves each text as it is."""
        return replace(self, changes=[(file, old, old) for file, old, _ in self.changes], kind="right")

    def alike(self) -> "Edit":
        """Returns a control that has the exits of the edit and the right values."""
        changes = [(file, old, self.alikes.get(at, new)) for at, (file, old, new) in enumerate(self.changes)]
        return replace(self, changes=changes, kind="alike")

    @property
    def is_right(self) -> bool:
        """Returns whether this is a control, which must not be refused."""
        return self.kind != "wrong"

    @property
    def adds_exit(self) -> bool:
        """Returns whether the new texts have more exits than the old ones, as far as the texts show."""
        return sum(len(EXIT.findall(new)) - len(EXIT.findall(old)) for _, old, new in self.changes) > 0

    @property
    def needs_false_goal(self) -> bool:
        """Returns whether a goal that is merely not proved doesn't count as a refusal. It may be the goal of an added exit, which no
        answer names. Without a control, nothing shows that such a goal would be proved if the value were right."""
        return self.kind == "wrong" and self.adds_exit and not self.alikes

    @property
    def modules(self) -> list[str]:
        """Returns the paths of the modules that the edit changes."""
        return ["::".join(module_of(it)) for it in dict.fromkeys(file for file, _, _ in self.changes)]

    @property
    def title(self) -> str:
        """Returns the name by which the edit or control is reported."""
        return f"{self.crate}/{self.name}" + (f" ({self.kind})" if self.is_right else "")

    @property
    def origin(self) -> tuple[str, str]:
        """Returns what edits have in common if they change one body and break one clause: the same original is a control for them."""
        return self.place, self.turned

    @property
    def place(self) -> str:
        """Returns the file and the name of the function that the edit changes, with the name of its type if it has one. If the edit
        changes more than a body, returns only the first file."""
        if not self.function:
            return self.changes[0][0]
        of_a_trait, of_a_type = (it.match(self.function.block) for it in (OF_A_TRAIT, OF_A_TYPE))
        owner = of_a_trait[3] if of_a_trait else of_a_type[1] if of_a_type else ""
        return f"{self.function.file} {owner + '::' if owner else ''}{self.function.name}"


@dataclass
class Trial:
    """The differences between a crate and a copy of it that tries edits. `files` has the new texts, by their paths. `gone` has the
    paths of the files that are removed. `functions` has each edit with the function that is its mutant, or with None if the edit
    changes more than a body."""

    files: dict[str, str] = field(default_factory=dict)
    gone: set[str] = field(default_factory=set)
    functions: list[tuple[Edit, Function | None]] = field(default_factory=list)

    @property
    def names(self) -> list[str]:
        """Returns the names of the mutants."""
        return [it.name for _, it in self.functions if it]

    @property
    def paths(self) -> list[str]:
        """Returns the names and the modules to which a check can be restricted. A mutant that stands beside its original is named by
        itself. For other edits the modules that they change are named. If one of these is the root of the crate, which has no path,
        nothing is returned."""
        found = [[it.name] if it and it != edit.function else edit.modules for edit, it in self.functions]
        paths = [path for it in found for path in it]
        return paths if all(paths) else []


def functions_of(file: str, text: str) -> list[Function]:
    """Finds the functions of a file by its layout. A function ends at the first closing brace that is indented like its first line."""
    found, lines, block = [], text.split("\n"), ""
    for start, line in enumerate(lines):
        if BLOCK.match(line):
            block = line
        if read := FUNCTION.match(line):
            indent, name = read.groups()
            ends = (indent + "}", indent + "{}")
            last = next((at for at in range(start, len(lines)) if lines[at].startswith(ends)), start)
            body = next((at for at in range(start, last) if lines[at].rstrip().endswith("{")), start)
            for at in range(start + 1, last):
                if lines[at].rstrip() == indent + "{":
                    body = at
            body = last if lines[last].rstrip() == indent + "{}" else body
            first = start
            while first and lines[first - 1].startswith(indent + "#["):
                first -= 1
            found.append(Function(file, file, name, block if indent else "", first, start, body, last))
    return found


def of_one_clause(answers: str, clause: str) -> str:
    """Returns a function's answers without those for clauses other than `clause`. In the names of the others the clause is left out,
    as it is in the names of the goals of a function that ensures only one clause."""
    kept, is_kept = [], True
    for line in answers.split("\n"):
        # A line that begins with `unfolding`, or with no word, belongs to the answer before.
        if re.match(r"\w", line) and not line.startswith("unfolding "):
            found = re.search(r"\breturns[\w-]*-clause-(\w+)", line.partition(":")[0].partition("=")[0])
            is_kept = not found or found[1] == clause
        kept += [line] if is_kept else []
    return re.sub(rf"\b(returns[\w-]*)-clause-{clause}\b(?!-)", r"\1", "\n".join(kept))


def read_wrong(crate: str, text: str) -> list[Edit]:
    """Reads the edits of a crate's wrong.edits. A line with `-` has the old text, and the line below it, with `+`, has the new text. A
    line with `~` may follow, with the text that is alike."""
    edits: list[Edit] = []
    file = old = ""
    for line in text.splitlines():
        if line.startswith("src/"):
            file = line
        elif line.startswith("- "):
            old = line.removeprefix("- ")
        elif line.startswith("+") and edits:
            edits[-1].changes.append((file, old, line.removeprefix("+").removeprefix(" ")))
        elif line.startswith("~ ") and edits and edits[-1].changes:
            edits[-1].alikes[len(edits[-1].changes) - 1] = line.removeprefix("~ ")
        elif named := NAMED.fullmatch(line):
            edits.append(Edit(crate, named[1], WRONG, turned=named[2] or ""))
        elif line and not line.startswith("# "):
            raise Fault(f"{WRONG}: a line that can't be read: {line}")
    return edits


def read_must_fail(crate: str, path: Path) -> Edit:
    """Reads an edit from a file in a crate's must-fail."""
    if path.suffix != ".edit" or not path.is_file():
        raise Fault(f"{path.name}: its name doesn't end in .edit")
    edit, file, old = Edit(crate, path.stem, MUST_FAIL), "", ""
    for line in path.read_text(encoding="utf-8").split("\n"):
        if line.startswith("file: "):
            file = line.removeprefix("file: ").strip()
        elif line.startswith(TURNS):
            edit.turned = line.removeprefix(TURNS).strip()
        elif line.startswith("old: "):
            old = line.removeprefix("old: ")
        elif line.startswith("new:"):
            edit.changes.append((file, old, line.removeprefix("new:").removeprefix(" ")))
        elif line.startswith(ALIKE) and edit.changes:
            edit.alikes[len(edit.changes) - 1] = line.removeprefix(ALIKE)
    return edit


def sources_in(folder: Path) -> dict[str, bytes]:
    """Reads the sources of a crate, and returns them by their paths in its folder."""
    files = sorted(it for part in SOURCES for it in (folder / part).rglob("*") if it.is_file())
    return {str(it.relative_to(folder)): it.read_bytes() for it in files}


class Crate:
    """A crate of the repository, as its line of crates.txt describes it."""

    def __init__(self, line: str):
        before, _, after = line.partition(":")
        self.line = line
        self.name, *labels = before.split()
        self.is_static = "staticlib" in labels
        self.named = after.split()
        self.folder = TOP / "crates" / self.name
        self.root = "src/main.rt" if (self.folder / "src/main.rt").is_file() else "src/lib.rt"

    @cached_property
    def texts(self) -> dict[str, str]:
        """Returns the texts of the crate's sources, by their paths in its folder."""
        return {path: octets.decode("utf-8") for path, octets in sources_in(self.folder).items()}

    @cached_property
    def functions(self) -> list[Function]:
        """Returns the functions of the crate."""
        sources = {file: text for file, text in self.texts.items() if file.endswith(".rt")}
        homes = {name: file for file, text in sources.items() for name in TYPE.findall(text)}
        found = [it for file, text in sources.items() for it in functions_of(file, text)]
        owners = [None if it.owner else OF_A_TYPE.match(it.block) for it in found]
        return [replace(it, home=homes.get(owner[1], it.file)) if owner else it for it, owner in zip(found, owners)]

    @property
    def weight(self) -> int:
        """Returns the number of lines of the crate's sources."""
        return sum(text.count("\n") for text in self.texts.values())

    def calls_of(self, function: Function) -> set[str]:
        """Returns the names of the functions that the body calls, as far as the text shows."""
        lines = self.texts[function.file].split("\n")[function.body + 1 : function.last]
        return {one or other for one, other in CALL.findall("\n".join(lines))}

    @cached_property
    def reached(self) -> dict[str, set[str]]:
        """Returns, for each name of a function, the names of the crate's functions that it calls, directly or through others, as far
        as the text shows."""
        names = {it.name for it in self.functions}
        calls: dict[str, set[str]] = {it: set() for it in names}
        for it in self.functions:
            calls[it.name] |= self.calls_of(it) & names
        reached = {}
        for name in names:
            found: set[str] = set()
            left = [name]
            while left:
                more = calls[left.pop()] - found
                found |= more
                left += more
            reached[name] = found
        return reached

    def has_answers(self, function: Function) -> bool:
        """Returns whether goals of the function have answers. These are tried whatever the function calls."""
        return any(function.answers.match(it) for it in self.texts)

    @property
    def has_edits(self) -> bool:
        """Returns whether the crate has edits."""
        return any((self.folder / it).exists() for it in (MUST_FAIL, WRONG))

    def edits(self) -> list[Edit]:
        """Reads the crate's edits."""
        must_fail, wrong = self.folder / MUST_FAIL, self.folder / WRONG
        found = [read_must_fail(self.name, it) for it in sorted(must_fail.iterdir())] if must_fail.is_dir() else []
        found += read_wrong(self.name, wrong.read_text(encoding="utf-8")) if wrong.is_file() else []
        if twice := [name for name, count in Counter(it.name for it in found).items() if count > 1]:
            raise Fault(f"{twice[0]}: two edits have this name")
        for it in found:
            self.look_at(it)
        return found

    def look_at(self, edit: Edit) -> None:
        """Notes the function that the edit changes. Raises a fault if the edit can't be applied, if its text that is alike can't be a
        control for it, or if its function has no clause of the name that it gives."""
        for file, old, _ in edit.changes:
            if (found := self.texts.get(file, "").count(old)) != 1:
                raise Fault(f"{edit.name}: an old text stands in {file} {found} times, and not once")
        if not edit.changes:
            raise Fault(f"{edit.name}: it changes nothing")
        faults = [fault_of_alike(*edit.changes[at][1:], alike) for at, alike in edit.alikes.items()]
        if any(faults):
            raise Fault(f"{edit.name}: its control {max(faults)}")
        edit.function = self.edited_function(edit)
        clauses = self.clauses_of(edit.function) if edit.function else []
        if edit.turned and clauses is not None and edit.turned not in (*clauses, *NO_CLAUSE):
            raise Fault(f"{edit.name}: its function has no clause '{edit.turned}'")

    def clauses_of(self, function: Function) -> list[str] | None:
        """Returns the names of the clauses that a function ensures, above its body or in the trait that declares it. Returns None if
        that is a trait of the kit."""
        head: str | None = "\n".join(self.texts[function.file].split("\n")[function.first : function.body])
        if found := OF_A_TRAIT.match(function.block):
            head = self.declared(found[1], function.name)
        return None if head is None else re.findall(r"^ +ensures\*? (\w+) \{", head, re.M)

    def declared(self, trait: str, name: str) -> str | None:
        """Returns the declaration of a function in a trait of this crate or of one that it names, or None if there is none."""
        for crate in (self.name, *self.named):
            for path in sorted((TOP / "crates" / crate / "src").rglob("*.rt")):
                block = re.search(rf"^pub trait {trait}\b.*?^\}}", path.read_text(encoding="utf-8"), re.M | re.S)
                if found := block and re.search(rf"^    fn {name}\b.*?(?:;$|^    \{{$)", block[0], re.M | re.S):
                    return found[0]
        return None

    def edited_function(self, edit: Edit) -> Function | None:
        """Returns the function whose body is all that the edit changes, or None if it changes more."""
        places = set(self.changed_by(edit))
        return places.pop() if len(places) == 1 else None

    def changed_by(self, edit: Edit) -> list[Function | None]:
        """Returns, for each change of the edit, the function in whose body it stands, or None if it stands in none."""
        places = []
        for file, old, _ in edit.changes:
            line = self.texts[file][: self.texts[file].index(old)].count("\n")
            inside = [it for it in self.functions if it.file == file and it.has_body_in(line)]
            places.append(max(inside, key=lambda it: it.first) if inside else None)
        return places

    def can_be_given(self, function: Function) -> bool:
        """Returns whether the function can be given away: whether a body that never returns can take the place of its own. Its callers know
        only what it ensures."""
        lines = self.texts[function.file].split("\n")[function.first : function.last + 1]
        head, last = lines[: function.body - function.first + 1], lines[-1].strip()
        is_one = sum(bool(FUNCTION.match(it)) for it in head) == 1
        has_body = (last == "}" and head[-1].endswith("{")) or (last == "{}" and len(head) == len(lines))
        is_free = not function.block.removeprefix("pub ").startswith("trait") and not KEEPS_ITS_BODY.search("\n".join(head))
        return is_one and has_body and is_free and not self.is_static

    def given(self, edits: list[Edit]) -> Trial:
        """Lays out a copy in which the original bodies are given away. Those that the edits change stay. If an edit changes something
        outside of a body, all bodies in that file stay. Each line keeps its number."""
        changed = [(file, it) for edit in edits for (file, _, _), it in zip(edit.changes, self.changed_by(edit))]
        files, own = {file for file, it in changed if not it}, [it for _, it in changed]
        given = [it for it in self.functions if it.file not in files and it not in own and self.can_be_given(it)]
        left = [(module, it.name) for it in self.functions if it not in given for module in it.modules]
        given = [it for it in given if not any((module, it.name) in left for module in it.modules)]
        trial, texts = Trial(), {it.file: self.texts[it.file].split("\n") for it in given}
        for it in given:
            lines = texts[it.file]
            lines[it.body] = lines[it.body].removesuffix("}") + " " + GIVEN + (" }" if it.body == it.last else "")
            lines[it.body + 1 : it.last] = [""] * (it.last - it.body - 1)
            answers = it.answers
            found = [(path, answers.match(path)) for path in self.texts]
            trial.gone |= {path for path, place in found if place and not place[2]}
        trial.files = {file: "\n".join(lines) for file, lines in texts.items()}
        if given:
            trial.files[GIVEN_FILE] = GIVEN_TEXT
            trial.files[self.root] = trial.files.get(self.root, self.texts[self.root]) + "mod given_away;\n"
        return trial

    def edited(self, edits: list[Edit], texts: dict[str, str]) -> dict[str, str]:
        """Applies the edits, and returns the new texts of the files that they change. `texts` has the files that differ in the copy."""
        made = {}
        for file in {it for edit in edits for it, _, _ in edit.changes}:
            text = texts.get(file, self.texts[file])
            changes = [(text.index(old), old, new) for edit in edits for it, old, new in edit.changes if it == file]
            for at, old, new in sorted(changes, reverse=True):
                text = text[:at] + new + text[at + len(old) :]
            made[file] = text
        return made

    def lets_call_itself(self, edit: Edit) -> bool:
        """Returns whether the edit makes its function call itself. Such a function needs a measure, and a check of it beside others may
        end before it has judged the others."""
        right = edit.changed
        own = rf"\b(?:self\.|Self::){right.name}\(" if right.block else rf"(?<![\w.:]){right.name}\("
        texts = self.texts[right.file], self.edited([edit], {})[right.file]
        right_body, wrong_body = ("\n".join(it.split("\n")[right.body : right.last]) for it in texts)
        return bool(re.search(own, wrong_body)) and not re.search(own, right_body)

    def can_stand_beside(self, edit: Edit) -> bool:
        """Returns whether the mutant can be a function of its own. It must not be a method of a trait, and the edit must not make it
        call itself."""
        block = edit.function.block if edit.function else "trait"
        is_of_no_trait = not block or (block.startswith("impl") and not OF_A_TRAIT.match(block))
        return is_of_no_trait and not self.lets_call_itself(edit)

    def beside(self, edits: list[Edit]) -> Trial:
        """Lays out a copy in which the mutant of each edit stands beside the original, with the original's contract and answers."""
        trial = self.given([])
        added: dict[str, list[tuple[int, str, Edit, str]]] = {}
        for number, edit in enumerate(edits):
            right = edit.changed
            name = f"{right.name}_{edit.kind}_{number}"
            wrong = self.edited([edit], {})[right.file].split("\n")[right.first : right.last + 1]
            wrong[: right.body - right.first] = self.head_of(edit)
            text = re.sub(rf"\bfn {right.name}\b", f"fn {name}", "\n".join(wrong), count=1)
            added.setdefault(right.file, []).append((right.last, text, edit, name))
            trial.files |= self.answers_of(edit, name)
        for file, wrongs in added.items():
            lines = trial.files.get(file, self.texts[file]).split("\n")
            for last, text, _, _ in sorted(wrongs, key=lambda it: it[0], reverse=True):
                lines[last + 1 : last + 1] = ["", *text.split("\n")]
            trial.files[file] = "\n".join(lines)
            found = {it.name: it for it in functions_of(file, trial.files[file])}
            trial.functions += [(edit, replace(found[name], home=edit.changed.home)) for _, _, edit, name in wrongs]
        return trial

    def tries_one_clause(self, edit: Edit) -> bool:
        """Returns whether the clause that the mutant breaks is tried without the others. This is so only if no goal of the function rests on
        the others: it doesn't call itself, its loops have invariants of their own, and no answer is for several clauses."""
        right = edit.changed
        lines = self.edited([edit], {})[right.file].split("\n")[right.first : right.last]
        at = right.body - right.first
        is_one_of_more = sum(it.strip().startswith("ensures") for it in lines[:at]) > 1
        body = "\n".join(lines[at:])
        places = {path: text for path, text in self.texts.items() if right.answers.match(path)}
        answers = {path.rpartition("/")[2]: text for path, text in places.items()}
        is_plain = answers.keys() <= {"Answers.antt", "Invariants.antt"} and len(places) == len(answers)
        is_apart = all("-clause-" in it for it in ANSWER.findall(answers.get("Answers.antt", "")))
        has_invariant = not LOOP.search(body) or "Invariants.antt" in answers
        return bool(edit.turned) and is_one_of_more and is_plain and is_apart and has_invariant and f"self.{right.name}(" not in body

    def answers_of(self, edit: Edit, name: str) -> dict[str, str]:
        """Returns the files with the original's answers, rewritten for the mutant, by their paths. An answer to a goal that no function
        has is added. If an answer is wrong, the check doesn't try each goal again in order to print what is left to prove."""
        right = edit.changed
        made: dict[str, str] = {}
        for path, text in self.texts.items():
            if (place := right.answers.match(path)) and not place[2]:
                module = f"Rattle.{self.name}.{place[1].replace('/', '.')}"
                text = text.replace(f"{module}{right.name}.", f"{module}{name}.")
                made[f"{place[1]}{name}{path[place.end() - 1 :]}"] = text
        folders = {path.rpartition("/")[0] for path in made}
        own = None if folders else right.folder_of(name)
        if len(folders) == 1 or own:
            path = f"{own or folders.pop()}/Answers.antt"
            text = made.get(path, "")
            made[path] = (of_one_clause(text, edit.turned) if self.tries_one_clause(edit) else text) + NO_GOAL_TEXT
        return made

    def head_of(self, edit: Edit) -> list[str]:
        """Returns the lines of the edited function before its body. If the clause that the mutant breaks is tried without the others,
        the other clauses that the function ensures are left out."""
        right = edit.changed
        lines = self.edited([edit], {})[right.file].split("\n")[right.first : right.body]
        if not self.tries_one_clause(edit):
            return lines
        kept, is_kept = [], True
        for line in lines:
            if clause := CLAUSE.match(line):
                is_ensured = line.strip().startswith("ensures")
                is_kept = not is_ensured or clause[1] == edit.turned
                # The name is left out. The goal of a single clause with a name would be a record of one field, which is another type
                # than that of the answer.
                line = line.replace(f" {clause[1]} {{", " {", 1) if is_ensured else line
            if is_kept:
                kept.append(line)
        return kept

    def instead(self, edits: list[Edit], is_given: bool) -> Trial:
        """Lays out a copy in which the mutants take the place of the originals. If `is_given`, the other bodies are given away."""
        trial = self.given(edits) if is_given else Trial()
        trial.files |= self.edited(edits, trial.files)
        trial.functions = [(it, it.function) for it in edits]
        return trial

    def disturb(self, one: Function, other: Function) -> bool:
        """Returns whether edits of two functions can't be judged in one check. That is so if they are one function. It is also so if one
        of them calls the other and has no answers, because its goals wait until the other is proved."""
        if (one.file, one.name, one.owner) == (other.file, other.name, other.owner):
            return True
        for above, below in ((one, other), (other, one)):
            calls = self.calls_of(above)
            is_above = any(below.name == it or below.name in self.reached.get(it, ()) for it in calls)
            if is_above and not self.has_answers(above):
                return True
        return False

    def sets_of(self, edits: list[Edit]) -> list[list[Edit]]:
        """Splits the edits into sets in which none disturbs another. An edit of more than a body is a set by itself, and so is one that
        makes its function call itself."""
        sets: list[list[Edit]] = []
        placed = [(it, it.function) for it in edits if it.function and not self.lets_call_itself(it)]
        for edit, function in sorted(placed, key=lambda it: -sum(it[1] == other for _, other in placed)):
            fitting = [all(not self.disturb(function, it.function) for it in other if it.function) for other in sets]
            if True in fitting:
                sets[fitting.index(True)].append(edit)
            else:
                sets.append([edit])
        return sets + [[it] for it in edits if not any(it in other for other in sets)]


def crates_below(crate: Crate, crates: dict[str, Crate]) -> list[Crate]:
    """Returns all crates that `crate` depends on, in the order of crates.txt."""
    names = {it for it in crate.named if it in crates}
    names |= {deeper.name for it in names for deeper in crates_below(crates[it], crates)}
    return [it for it in crates.values() if it.name in names]


def read_crates() -> dict[str, Crate]:
    """Reads the crates of the repository, and returns them in the order of crates.txt."""
    lines = [line.split("#")[0] for line in (TOP / "crates.txt").read_text(encoding="utf-8").splitlines()]
    crates = [Crate(line.strip()) for line in lines if ":" in line]
    return {it.name: it for it in crates}
