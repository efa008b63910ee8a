"""Reads dist/tcrx.h or dist/tcrx_lines.h, for the tools that derive something from a header. Its functions return the parts of the header with their
constants, records and calls, and the comments on them.

The comments are read as doxygen reads them. These commands are known: @file, @brief, @par, @defgroup with @{ and @}, @param, @return and
@copydoc. Text between @cond and @endcond is left out. A comment after a field or a constant is about that field or constant.
"""
from __future__ import annotations

import re
from dataclasses import dataclass, field
from typing import Dict, List, NamedTuple, Tuple

COMMENT = r"/\*[*!]?(?!\<)(?P<comment>.*?)\*/"
DEFINE = r"^#define[ \t]+(?P<macro>TCRX_\w+)\b(?P<value>(?:[^\n\\]|\\\n)+)"
STRUCT = r"^typedef struct \{(?P<fields>[^}]*)\} (?P<record>\w+);"
ALIAS = r"^typedef (?P<kind>\w+) (?P<alias>\w+);"
ENUM = r"^enum \{(?P<constants>[^}]*)\};"
CALL = r"^(?P<inline>static inline )?(?P<call>\w[\w ]*? \*?tcrx_\w+\([^)]*\))(?:;| \{\n.*?^\})"
BEHIND = r"[ \t]*(?:/\*\*?<?(.*?)\*/)?"
# Names in comments that Markdown shows as code.
IN_CODE = re.compile(r"(`[^`]+`)|#?\b((?:tcrx|TCRX|rattle)_\w+(?:\.[ch]\b)?|\w+\.[acho]\b)(?:\(\))?")


@dataclass
class Item:
    """An item of the header that a comment describes: its kind, its text, and the comment."""

    kind: str
    text: str
    comment: str
    parts: List[Tuple[str, str, str]] = field(default_factory=list)
    """The constants with their values, or the fields with their types, each with its description."""
    is_inline: bool = False
    """Whether a call is C in the header, which calls an exported function. That function has the same name, with _at at its end."""

    def parameters(self) -> List[Tuple[str, str]]:
        """Returns the parameters of a call with their descriptions, except those whose description is only their name."""
        found = re.findall(r"^@param (\w+)\s+(.*?)(?=^@|\Z)", self.comment, re.M | re.S)
        return [(name, sentence(words)) for name, words in found if words.strip().lower() != f"the {name}"]


@dataclass
class Group:
    """A part of the header."""

    title: str
    comment: str
    items: List[Item] = field(default_factory=list)


def uncommented(text: str) -> str:
    """Returns the words of a comment, with an empty line between paragraphs."""
    lines = [re.sub(r"^\s*\*? ?", "", line).rstrip() for line in text.strip().split("\n")]
    return "\n".join(lines).strip()


def constants_of(body: str) -> List[Tuple[str, str, str]]:
    """Returns the constants of an enumeration, with their values and comments."""
    found = re.findall(r"(TCRX_\w+) = (\d+),?" + BEHIND, body, re.S)
    return [(name, value, uncommented(comment)) for name, value, comment in found]


def fields_of(body: str) -> List[Tuple[str, str, str]]:
    """Returns the fields of a record, with their types and comments."""
    found = re.findall(r"^ *(\w+ \*?)(\w+);" + BEHIND, body, re.M | re.S)
    return [(name, kind.strip(), uncommented(comment)) for kind, name, comment in found]


def item_of(found: "re.Match[str]", comment: str) -> Item:
    """Returns the item that a match of one of the patterns stands for."""
    if found["macro"] and found["value"].startswith("("):
        return Item("call", found["macro"] + found["value"].partition(")")[0] + ")", comment)
    if found["macro"]:
        parted = re.fullmatch(r"(.*?)" + BEHIND + r"\s*", found["value"].replace("\\\n", " "), re.S)
        assert parted
        value, behind = parted.groups()
        words = uncommented(behind or "") or comment
        return Item("macro", found["macro"], comment, [(found["macro"], " ".join(value.split()), words)])
    if found["record"]:
        return Item("record", found["record"], comment, fields_of(found["fields"]))
    if found["alias"]:
        return Item("record", found["alias"], comment, [])
    if found["constants"]:
        return Item("constants", "", comment, constants_of(found["constants"]))
    return Item("call", " ".join(found["call"].split()), comment, is_inline=bool(found["inline"]))


def groups_of(header: str) -> Tuple[str, List[Group]]:
    """Returns the text of the file's comment, and the parts of the header. Items without a group are in a part without a title."""
    header = re.sub(r"/\*\* @cond \*/.*?/\*\* @endcond \*/|^TCRX_TO_BE_READ\s", "", header, flags=re.M | re.S)
    front, groups, comment, end = "", [Group("", "")], "", 0
    for found in re.finditer("|".join((COMMENT, DEFINE, STRUCT, ALIAS, ENUM, CALL)), header, re.M | re.S):
        near = header[end : found.start()].strip() == ""
        end = found.end()
        if found["comment"] is None:
            groups[-1].items.append(item_of(found, comment if near else ""))
            comment = ""
            continue
        comment = uncommented(found["comment"])
        if not front:
            front = comment
        elif opens := re.search(r"@defgroup \w+ (.*)", comment):
            groups.append(Group(opens[1], re.sub(r"@defgroup .*|@\{", "", comment).strip()))
        elif "@}" in comment:
            groups.append(Group("", ""))
    return front, [group for group in groups if group.items]


def prose(text: str) -> str:
    """Returns a comment's words as Markdown, on one line."""
    text = re.sub(r"@(?:brief|file \S+)", "", text)
    return " ".join(IN_CODE.sub(lambda found: found[1] or f"`{found[2]}`", text).split())


def sentence(text: str) -> str:
    """Returns a comment's words on one line, without the full stop if they are a single sentence."""
    return prose(text).rstrip(".") if text.count(". ") == 0 else prose(text)


def name_of(item: Item) -> str:
    """Returns the name of a call."""
    return re.split(r"\W+", item.text.partition("(")[0])[-1]


# --- The interface of the library ---

class Call(NamedTuple):
    """A call: its name for callers in C, the name of the exported function, the type of its result, its parameters by type and name, and
    its comment."""

    name: str
    exported: str
    answer: str
    parameters: List[Tuple[str, str]]
    comment: str


class Interface(NamedTuple):
    """The constants, records and calls that the library exports, in the order in which the header describes them. Only tcrx.h has a version."""

    version: List[int]
    enumerations: List[Item]
    records: Dict[str, Item]
    calls: List[Call]

    def statuses(self) -> Dict[str, str]:
        """Returns the statuses with their meanings."""
        return {name: words for item in self.enumerations for name, _, words in item.parts if item.parts[0][0] == "TCRX_DONE"}


def parameter_of(text: str) -> Tuple[str, str]:
    """Returns a parameter's type and name."""
    parted = re.fullmatch(r"(.*[ *])(\w+)", text)
    assert parted, text
    return parted[1].strip(), parted[2]


def exported_calls(calls: Dict[str, Item]) -> List[Call]:
    """Returns the calls that the library exports, from all calls that the header declares. Their texts are octets.
    A declaration that copies the comment of another call isn't one more call."""
    exported = []
    for name, item in calls.items():
        if item.text.startswith("tcrx_") and not item.comment.startswith("@copydoc"):
            answer, _, listed = item.text.rstrip(")").partition("(")
            parameters = [parameter_of(each.replace("char *", "uint8_t *")) for each in listed.split(", ")]
            exported.append(Call(name, f"{name}_at" if item.is_inline else name, answer.split()[0], parameters, item.comment))
    return exported


def interface_of(header: str) -> Interface:
    """Returns the constants, records and calls that the library exports, from the text of its header."""
    items = [item for group in groups_of(header)[1] for item in group.items]
    macros = {name: value for item in items if item.kind == "macro" for name, value, _ in item.parts}
    return Interface([int(macros[f"TCRX_API_{part}"]) for part in ("MAJOR", "MINOR", "PATCH") if f"TCRX_API_{part}" in macros],
                     [item for item in items if item.kind == "constants"],
                     {item.text: item for item in items if item.kind == "record" and item.parts},
                     exported_calls({name_of(item): item for item in items if item.kind == "call"}))
