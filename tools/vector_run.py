"""Carries out the steps of test vectors by the proved library and by a second implementation. The answers of both must be the same."""
from __future__ import annotations

import sys
from pathlib import Path
from typing import Any, Dict, Iterator, List, Optional, Protocol, Tuple, TypeVar

sys.path[:0] = [str(Path(__file__).resolve().parent.parent / folder) for folder in ("checks", "clients/python")]
# pylint: disable=wrong-import-position  # the modules are found by the path above
import model  # noqa: E402
from client_parts import sum_of  # noqa: E402
from coding import MODES, read_clcw, read_telemetry, searched, sequence, taken_out  # noqa: E402
from tcrx import Session  # noqa: E402

Settings = Dict[str, Any]
Step = Dict[str, Any]
Answer = TypeVar("Answer", str, bytes)
# The settings of a vector that has no others. If `drain` is true, everything that waits in the queues is taken after each step.
USUAL: Settings = {"scid": 42, "vcid": 1, "width": 10, "buffer": 1, "firstVr": 0, "segmentHeaders": True, "fecf": False, "queues": {"5": 256},
                   "maps": {}, "drain": True}
# The kinds of steps that leave the channel as it is.
READS = ("clcw", "telemetry")


class Differ(Exception):
    """A difference between the library and the second implementation."""


class Unit(Protocol):
    """A receiver that answers the lines of `tclive` and of `tcmake`."""

    def live(self, line: str) -> str:
        """Returns the answer of `tclive` to a line."""

    def make(self, line: str) -> str:
        """Returns the answer of `tcmake` to a line."""


class Library:
    """The proved library."""

    def __init__(self, settings: Settings) -> None:
        self._live, self._make = Session.live(settings["scid"], fecf=settings["fecf"]), Session.make(fecf=settings["fecf"])

    def live(self, line: str) -> str:
        """Returns the answer of `tclive` to a line."""
        return self._live.answer(line)

    def make(self, line: str) -> str:
        """Returns the answer of `tcmake` to a line."""
        return self._make.answer(line)


class Model:
    """The second implementation: checks/model.py behind the check of a frame error control field, and checks/coding.py."""

    def __init__(self, settings: Settings) -> None:
        self._fecf, self._receiver = settings["fecf"], model.Receiver(settings["scid"], live=True)
        self._most, self._stream, self._seen = 0, b"", (0, 0, 0, 0)

    def live(self, line: str) -> str:
        """Returns the answer of `tclive` to a line."""
        if self._fecf and line.startswith("frame "):
            plain = without_sum(bytes.fromhex(line[6:]))
            if plain is None:
                return "refused check\n"
            line = f"frame {plain.hex()}"
        answer = self._receiver.answer(line)
        return "" if answer is None else f"{answer}\n"

    def make(self, line: str) -> str:
        """Returns the answer of `tcmake` to a line. The method that is named after the first word of the line computes it."""
        word, *rest = line.split()
        return "".join(f"{answer}\n" for answer in getattr(self, f"_{word}")(*rest))

    def _decoder(self, _: str, mode: str) -> List[str]:
        self._most, self._stream, self._seen = MODES[mode], b"", (0, 0, 0, 0)
        return []

    def _octets(self, _: str, digits: str) -> Iterator[str]:
        """Searches the whole stream again, and yields the answer for its last piece."""
        self._stream += bytes.fromhex(digits)
        frames, *counts = searched(self._stream, self._most)
        seen, self._seen = self._seen, (len(frames), counts[0], counts[1], counts[2])
        yield from (f"frame {frame.hex()}" for frame in frames[seen[0]:])
        corrected, rejected, overlong = (now - before for now, before in zip(counts, seen[1:]))
        yield f"blocks corrected {corrected} rejected {rejected} overlong {overlong}"

    def _frames(self, most: str, digits: str) -> Iterator[str]:
        frames, rest = taken_out(bytes.fromhex(digits), int(most))
        yield from (f"frame {frame.hex()}" for frame in frames)
        yield f"more {rest.hex()}" if len(rest) > 6 or taken_out(rest, 1)[0] else f"fill {len(rest)}"

    def _random(self, digits: str) -> List[str]:
        octets = bytes.fromhex(digits)
        return ["random " + bytes(one ^ other for one, other in zip(octets, sequence(len(octets)))).hex()]

    def _clcw(self, digits: str) -> List[str]:
        return [read_clcw(int(digits, 16))]

    def _telemetry(self, digits: str) -> List[str]:
        return [" ".join(read_telemetry(bytes.fromhex(digits), self._fecf))]


def without_sum(octets: bytes) -> Optional[bytes]:
    """Returns the frame without its frame error control field, if the octets are one frame that ends with the right field."""
    if taken_out(octets, 1) != ([octets], b"") or len(octets) < 8 or sum_of(octets[:-2]) != octets[-2:]:
        return None
    return octets[:2] + (int.from_bytes(octets[2:4], "big") - 2).to_bytes(2, "big") + octets[4:-2]


class Pair:
    """The library and the second implementation. Their answers are compared."""

    def __init__(self, settings: Settings) -> None:
        self._units: Tuple[Unit, Unit] = Library(settings), Model(settings)

    def live(self, line: str) -> str:
        """Returns the answer of `tclive` to a line."""
        return self._same(line, *(unit.live(line) for unit in self._units))

    def make(self, line: str) -> str:
        """Returns the answer of `tcmake` to a line."""
        return self._same(line, *(unit.make(line) for unit in self._units))

    @staticmethod
    def _same(line: str, by_library: str, by_model: str) -> str:
        if by_library.startswith("bad "):
            raise Differ(f"{line[:200]} is answered {by_library[:200]}")
        return agreed(line, by_library, by_model)


def agreed(what: str, by_library: Answer, by_model: Answer) -> Answer:
    """Returns the answer of the library and of the second implementation. Raises `Differ` if their answers differ."""
    if by_library != by_model:
        raise Differ(f"{what[:200]}\n  the library gives {by_library[:200]!r}\n  the model gives   {by_model[:200]!r}")
    return by_library


def set_up(unit: Unit, settings: Settings) -> None:
    """Sets a unit up for a vector."""
    vcid = settings["vcid"]
    unit.live(f"channel {vcid} {settings['width']} {settings['buffer']} {settings['firstVr']}{'' if settings['segmentHeaders'] else ' plain'}")
    for word, queues in (("queue", settings["queues"]), ("map", settings["maps"])):
        for key, capacity in queues.items():
            unit.live(f"{word} {vcid} {key} {capacity}")
    if "cltu" in settings:
        unit.make(f"decoder 0 {settings['cltu']}")


def answered(answer: str, state: str) -> Step:
    """Returns the outcome that a line describes: a refusal, or an event with the counts for the unit that it completed, if any."""
    words = answer.split()
    if words[0] == "refused":
        return {"refused": " ".join(words[1:])}
    numbers = dict(zip(words[-6::2], map(int, words[-5::2])))
    outcome: Step = {"event": words[2] if words[0] == "frame" else "E10", "state": state}
    if words[0] == "frame":
        outcome["accepted"] = words[4] == "1"
    return {**outcome, **numbers} if any(numbers.values()) else outcome


def taken(lines: List[str]) -> Step:
    """Returns the packets in lines by application, and the units by MAP."""
    found: Step = {"packets": {}, "units": {}}
    for word, _, key, digits in (line.split() for line in lines if not line.startswith(("clcw ", "refused "))):
        found["packets" if word == "take" else "units"].setdefault(key, []).append(digits.replace("-", ""))
    return found


def state_of(unit: Unit, vcid: int) -> str:
    """Returns the name of FARM-1's present state."""
    return {"open": "S1", "wait": "S2", "lockout": "S3"}[unit.live(f"report {vcid}").split()[3]]


def bring(unit: Unit, vcid: int, line: str) -> Step:
    """Passes a line with a frame or a release to a unit, and returns the outcome."""
    state = state_of(unit, vcid)
    return answered(unit.live(line), state)


def receive(unit: Unit, settings: Settings, digits: str) -> Step:
    """Passes octets of a stream of CLTUs to a unit, which decodes them, and then the frames that they carried. Returns the outcome."""
    *found, counts = unit.make(f"octets 0 {digits}").splitlines()
    numbers = counts.split()[1:]
    outcome: Step = {"candidates": [line.split()[1] for line in found], **dict(zip(numbers[::2], map(int, numbers[1::2]))), "frames": [], "more": []}
    for candidate in outcome["candidates"]:
        plain = unit.make(f"random {candidate}").split()[1] if settings.get("randomiser") else candidate
        *frames, rest = unit.make(f"frames {settings['framesPerCltu']} {plain}").splitlines()
        outcome["more"] += rest.split()[1:] if rest.startswith("more ") else []
        for frame in frames:
            outcome["frames"].append({"octets": frame.split()[1], **bring(unit, settings["vcid"], frame)})
    return outcome


def read(unit: Unit, step: Step) -> Step:
    """Returns the fields that a unit reads in a CLCW or a telemetry frame, or the refusal."""
    words = unit.make(f"{step['do']} {step['octets']}").split()
    if words[0] == "refused":
        return {"refused": words[1]}
    fields: Step = {key: value if key in READS + ("report",) else int(value) for key, value in zip(words[1::2], words[2::2])}
    return {"fields": fields} if step["do"] == "clcw" else fields


def perform(unit: Unit, settings: Settings, step: Step) -> Step:
    """Carries out a step, and returns its outcome."""
    if step["do"] in READS:
        return read(unit, step)
    vcid, outcome = settings["vcid"], {}
    if step["do"] == "frame":
        outcome = bring(unit, vcid, f"frame {step['octets']}")
    elif step["do"] == "release":
        outcome = bring(unit, vcid, f"release {vcid}")
    elif step["do"] == "stream":
        outcome = receive(unit, settings, step["octets"])
    elif step["do"] == "link":
        unit.live(f"link {vcid} {step['noRf']} {step['noBitLock']}")
    elif step["do"] == "take":
        line = unit.live(f"unit {vcid} {step['map']}" if "map" in step else f"take {vcid} {step['apid']}").rstrip()
        outcome = {**(answered(line, "") if line.startswith("refused") else {}), **taken([line])}
    if settings["drain"]:
        outcome.update(taken(unit.live(f"collect {vcid}").splitlines()))
    return {**outcome, "clcw": unit.live(f"clcw {vcid}").split()[2]}
