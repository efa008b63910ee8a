"""Reads what a check of a crate with edits in it printed, and finds out which edits were refused. checks/refuse_edits starts the checks."""
from __future__ import annotations

import re

from wrong_bodies import NO_GOAL, Edit, Function

ONLY_CALLS = re.compile(r"(?:; )?it calls .*?, which (?:is|are) not proved")
ONLY = re.compile(r"^only=(\d+) proved=(\d+)", re.M)
NAMES_ALONE = re.compile(
    r"has no field|is not in scope|has no `|was not admitted|is no name|operand is missing|cannot continue"
)
# The words of the check about a goal that it found false, and not merely unproved.
IS_FALSE = "the facts known there allow values at which this goal is false"
# The words of the check about a goal at which a tactic stopped before it had tried everything: about one without an answer, and about an
# answer.
MET_LIMIT = ("gave up at one of its limits", "stopped at its own limit")
# The words that are put before such a message if a control of the edit is proved.
HAS_CONTROL = "a right body doesn't come to this limit"
# The ways in which an edit can be refused, the strongest first: the check names values for which a goal is false, it finds no proof, it
# gives up at a limit to which a right body doesn't come, or it gives up at another limit.
WAYS = ("values", "no_proof", "control", "limit")


def way_of(why: str) -> str:
    """Returns the way of `WAYS` in which an edit is refused, by the message `why` of the check."""
    if IS_FALSE in why:
        return "values"
    if any(it in why for it in MET_LIMIT):
        return "control" if HAS_CONTROL in why else "limit"
    return "no_proof"


def strongest(found: list[str]) -> str | None:
    """Returns the first of the messages that refuse an edit in the strongest way, or None if there are no messages."""
    return min(found, key=lambda it: WAYS.index(way_of(it))) if found else None


def is_judged(printed: str) -> bool:
    """Returns whether the check judged the proofs and found that something isn't proved."""
    only = ONLY.search(printed)
    return only[1] != only[2] if only else bool(re.search(r"^logic=not-proved", printed, re.M))


def is_proved(printed: str) -> bool:
    """Returns whether the check found everything proved that it looked at."""
    only = ONLY.search(printed)
    return only[1] == only[2] != "0" if only else bool(re.search(r"^logic=proved", printed, re.M))


def unproved(printed: str) -> set[str]:
    """Returns the names, without their paths, of the functions that the check didn't prove."""
    return {it.split("::")[-1] for it in re.findall(r"^fn (\S+): (?:not proved|no proof)", printed, re.M)}


def lacks(printed: str, function: str) -> list[str]:
    """Returns what the check found wrong with the functions whose name matches the pattern `function`. It leaves out that they call a
    function that isn't proved."""
    found = re.findall(rf"^fn {function}: (?:(not proved)|no proof: (.*))", printed, re.M)
    return [it for it in (one or ONLY_CALLS.sub("", other) for one, other in found) if it]


def messages(printed: str) -> list[str]:
    """Returns the messages of the check, each in one line. Indented lines belong to the message above them."""
    return re.sub(r"\n {2,}(?=\S)", " ", printed).split("\n")


def reason(printed: str, edit: Edit, function: Function) -> str | None:
    """Returns the strongest message about an unproved goal or a wrong answer of the edited function itself, or None if there is none."""
    inside = "|".join("".join(f"{word}::" for word in it) for it in function.modules)
    owner = rf"{function.owner}\w*::" if function.owner else r"(?:[^:\s]+::)?"
    if not lacks(printed, rf"{edit.crate}::(?:{inside}){owner}{function.name}"):
        return None
    found = []
    for line in messages(printed):
        goal = re.match(r"note: (src/\S+?):(\d+):\d+: (?:it is not proved that|`search` found no proof)", line)
        if goal and goal[1] == function.file and function.first < int(goal[2]) <= function.last + 1:
            if IS_FALSE in line or not edit.needs_false_goal:
                found.append(line.removeprefix("note: "))
        answer = re.match(r"(?:\./)?proofs/(\S+)/\w+\.antt:\d+:\d+: error: (.*)", line)
        if answer and not NAMES_ALONE.search(answer[2]) and f"`{NO_GOAL}`" not in answer[2]:
            if function.is_answered_in(answer[1]):
                found.append(line)
    return strongest(found)


def reason_alone(printed: str, edit: Edit) -> str | None:
    """Returns the strongest message about something that isn't proved, of a check with only one edit, or None if there is none. There is
    none if the check couldn't read a source or a definition (`NAMES_ALONE`)."""
    lines = messages(printed)
    if any(re.match(r"(\./)?(src|specs)/\S+: error: ", it) and NAMES_ALONE.search(it) for it in lines):
        return None
    found = [it for it in lines if re.match(r"note: src/\S+: it is not proved that", it)]
    found += [it for it in lines if re.match(r"(\./)?\S+:\d+:\d+: error: ", it) and not NAMES_ALONE.search(it)]
    if edit.needs_false_goal:
        found = [it for it in found if IS_FALSE in it or re.match(r"(\./)?proofs/", it)]
    elif not found:
        found = [it for it in lines if re.match(r"(note: )?src/\S+:\d+:\d+:", it)]
        found += [it for it in lacks(printed, r"\S+") if it != "not proved"]
    why = strongest(found)
    return why.removeprefix("note: ") if why else None


def unread(printed: str, functions: list[tuple[Edit, Function | None]]) -> list[tuple[Edit, str]]:
    """Returns the edits that can't be compiled, each with the message about it. If there is one, the check ends after a few seconds,
    before it starts the prover."""
    found: list[tuple[Edit, str]] = []
    for line in messages(printed):
        fault = re.match(r"(?:\./)?(src/\S+?):(\d+):\d+: error\[", line)
        if not fault:
            continue
        for edit, function in functions:
            is_here = function and function.file == fault[1] and function.first < int(fault[2]) <= function.last + 1
            if is_here and edit not in [it for it, _ in found]:
                found.append((edit, line))
    return found
