"""The journal of a session: a script that `tcrx` and `tools/draw_run` take, with answers and times in its comments; and its replay.

    # 1.204113 1.204467 tc-tcp 127.0.0.1:40122     when it came and was answered, in seconds from the begin, and from where
    frame 002a040c00c01005c0000000aa                a line of a script, as the receiver was given it
    #= frame 1 E1 accepted 1 queued 0 ...          its answer by `tcrx`, which is that of the receiver, too
    #~ clcw 1 0104c001                             the answer of the receiver where it differs: the CLCW with the flags of the link
    #> link 1 1 1                                  a line that the receiver has and `tcrx` hasn't
    #* frame 002a040e00...                         what the receiver was given in place of the script's next line: a frame with its sum

Lines that were bad are in comments of no such kind: they changed nothing.
"""
from __future__ import annotations

import re
import sys
from datetime import datetime, timezone
from io import FileIO
from itertools import islice
from pathlib import Path
from functools import partial
from typing import Iterable, Iterator, List, NamedTuple, Optional, Sequence

from .. import __version__
from ..channel import check_fecf
from ..lines import Session
from ..remote import LONGEST_ANSWER
from ..values import Fault
from .octets import HEADER
from .watch import Watches

# The bits of a CLCW that `tcrx` never sets: No RF Available and No Bit Lock.
LINK_FLAGS = 0xC000
# Octets of a line with its end: those of an answer, behind the mark that it is one.
LONGEST = LONGEST_ANSWER + 4
# Lines that wait to be written, besides those of one answer, however long it takes until the next time to write them.
MOST_LINES = 4096
# The lines that have no answer where they are good.
SET_UP = frozenset({"channel", "queue", "map"})
# When something was answered; a channel that is set up, and its V(R).
ANSWERED, CHANNEL = re.compile(r"# \d+\.\d{6} (\d+\.\d{6}) .*"), re.compile(r"channel +(\d+) +\d+ +\d+ +(\d+)(?: .*)?")
FIRST = re.compile(r"# tcrx-bench \S+ spacecraft (\d{1,4})(, with frame error control)?, begun \S+")


def printable(text: str) -> str:
    """Returns a text without what a terminal would obey, and not longer than a line of a page."""
    return re.sub(r"[^ -~]", "?", text if len(text) <= 100 else text[:97] + "...")


class Journal:
    """Writes the journal. Without a file it does nothing."""

    def __init__(self, path: Optional[Path], scid: int, fecf: bool) -> None:
        self.path, self.scid, self.fecf, self.part = path, scid, fecf, 1
        self.file: Optional[FileIO] = None
        self.size = 0
        """How many octets of whole lines it has."""
        self.fault = ""
        """Why the journal ends before the session, if it does."""
        self.lines: List[str] = []
        self._begin(path)

    def _begin(self, path: Optional[Path]) -> None:
        """Begins a file."""
        # It is written in large pieces, so it needs no buffer.
        self.file = FileIO(str(path), "xb") if path else None
        self.size = 0
        begun = datetime.now(timezone.utc).strftime("%Y-%m-%dT%H:%M:%S.%fZ")
        self.write(f"# tcrx-bench {__version__} spacecraft {self.scid}{', with frame error control' if self.fecf else ''}, begun {begun}")

    def begin_part(self) -> None:
        """Goes on in the file with the next free number, for a receiver that is begun anew. Where that fails the journal ends."""
        self.close()
        self.part += 1
        while self.path and not self.fault:
            try:
                self._begin(self.path.with_name(f"{self.path.name}.{self.part}"))
                return
            except FileExistsError:
                self.part += 1
            except OSError as error:
                self.fault = f"the log can't be written: {error.strerror}"

    def discard(self) -> None:
        """Removes the file, which this journal created."""
        if self.file is not None and self.path is not None:
            self._close_file()
            self.path.unlink(missing_ok=True)

    def write(self, *lines: str) -> None:
        """Adds lines."""
        if self.file is not None:
            self.lines += lines

    def flush(self) -> None:
        """Writes what was added. Where that fails, the journal ends, and what it has so far can be replayed."""
        if self.file is None or not self.lines:
            return
        octets = "".join([line + "\n" for line in self.lines]).encode("latin-1", errors="replace")
        self.lines.clear()
        written = 0
        try:
            while written < len(octets):
                written += self.file.write(octets[written:]) or 0
        except OSError as error:
            self.size += octets.rfind(b"\n", 0, written) + 1
            self._break_off(error)
        else:
            self.size += written

    def _break_off(self, error: OSError) -> None:
        """Ends the journal with its last whole line."""
        self.fault = f"the log can't be written: {error.strerror}"
        if self.file is not None:
            try:
                self.file.truncate(self.size)
            except OSError:
                pass
        self._close_file()

    def _close_file(self) -> None:
        if self.file is not None:
            try:
                self.file.close()
            except OSError as error:
                self.fault = self.fault or f"the log can't be written: {error.strerror}"
            self.file = None

    def close(self) -> None:
        """Writes all and closes the file."""
        self.flush()
        self._close_file()

    # --- What is answered ---

    def origin(self, came: float, answered: float, source: str) -> None:
        """Adds when the lines that follow came and were answered, and from where."""
        if self.file is not None:
            if len(self.lines) > MOST_LINES:
                self.flush()
            self.lines.append(f"# {came:.6f} {answered:.6f} {source}")

    def answer(self, line: str, answer: str) -> None:
        """Adds a line and its answer."""
        if self.file is None:
            return
        word = line.partition(" ")[0]
        if answer.startswith("bad "):
            self.write(f"# {printable(line)}: {answer}")
        elif word in ("link", "report") or answer == "refused more":
            self.write(f"#> {line}", f"#~ {answer}")
        elif word == "candidate":
            # To the receiver it is its frame.
            self.answer(f"frame {without_fill(bytes.fromhex(line[len(word) + 1:])).hex()}", answer)
        elif word == "frame" and self.fecf:
            self._frame_with_sum(line, answer)
        elif word == "clcw" and not answer.startswith("refused ") and int(answer[-8:], 16) & LINK_FLAGS:
            self.write(line, f"#= {without_link(answer)}", f"#~ {answer}")
        else:
            self.write(line, f"#= {answer}")

    def handed_on(self, vcid: int, answers: List[str], asked: bool) -> None:
        """Writes the items that a receiver has handed on, as the lines of a script that do the same. If `asked` is set, also writes that no
        field waited for a release."""
        if self.file is None:
            return
        for answer in answers:
            word = answer.partition(" ")[0]
            if word in ("take", "unit"):
                self.lines += (answer.rpartition(" ")[0], f"#= {answer}")
            elif word in ("release", "clcw"):
                self.answer(f"{word} {vcid}", answer)
            elif asked:
                self.answer(f"release {vcid}", answer)

    def _frame_with_sum(self, line: str, answer: str) -> None:
        """Adds a frame with its sum, which `tcrx` takes without it."""
        if answer == "refused check":
            self.write(f"#> {line}", f"#~ {answer}")
        else:
            plain = check_fecf(bytes.fromhex(line[6:]))
            assert isinstance(plain, bytes)  # the receiver found its sum right
            self.write(f"#* {line}", f"frame {plain.hex()}", f"#= {answer}")

    def end(self, report: str) -> None:
        """Adds the final report."""
        self.write("# end", *(f"#= {line}" for line in report.splitlines()))


def without_fill(octets: bytes) -> bytes:
    """Returns a candidate up to the end of the frame that its length field names, and at least its first five octets if it has as many."""
    return octets[:max(HEADER, ((octets[2] & 3) << 8 | octets[3]) + 1)] if len(octets) > HEADER else octets


# --- Replay ---

class Unfit(Exception):
    """A file can't be replayed, or the replay differs; the text says why."""


class Step(NamedTuple):
    """A line that the receiver is given, with the number of its line in the journal, and the answer that is noted, or none. One of the final
    report has no line. And when it was answered."""

    line: str
    place: int
    answer: Optional[str]
    time: float


def steps_of(lines: Iterable[str]) -> Iterator[Step]:
    """Yields the lines of a journal that the receiver is given, each with its answer, and then those of the report. Raises `Unfit` at a
    second answer."""
    line, place, answer, time, coming = "", 0, None, 0.0, 0.0
    in_place_of_next = False
    for number, text in enumerate(lines, 2):
        if text.startswith(("#= ", "#~ ")):
            if line and answer is not None and text[1] == "=":
                raise Unfit(f"line {number}: `{printable(line)}` has an answer already")
            answer = text[3:]
            if not line:
                yield Step("", number, answer, time)
            continue
        begins = text.startswith(("#> ", "#* "))
        if text.startswith("#") and not begins and text != "# end":
            found = ANSWERED.fullmatch(text)
            coming = float(found[1]) if found else coming
            continue
        if line and not in_place_of_next:
            yield Step(line, place, answer, time)
        if not in_place_of_next:
            line, place, answer, time = text[3:] if begins else "" if text == "# end" else text, number, None, coming
        in_place_of_next = text.startswith("#* ")
    if line:
        yield Step(line, place, answer, time)


class Log:  # pylint: disable=too-few-public-methods  # it is gone through, more than once
    """A journal, which is read line by line whenever it is gone through."""

    def __init__(self, path: Path) -> None:
        self.path, self.cut = path, 0
        """The number of the last line where that has no end, as the journal was cut off there."""
        first = FIRST.fullmatch(next(self._lines(), ""))
        if first is None:
            raise Unfit(f"{path} isn't a log of tcrx-bench")
        self.scid, self.fecf = int(first[1]), bool(first[2])

    def _lines(self) -> Iterator[str]:
        """Yields its whole lines."""
        try:
            with open(self.path, encoding="latin-1", newline="\n") as file:
                for number, line in enumerate(iter(lambda: file.readline(LONGEST + 1), ""), 1):
                    if len(line) > LONGEST:
                        raise Unfit(f"line {number} of {self.path} has more than {LONGEST} octets")
                    if not line.endswith("\n"):
                        self.cut = number
                        return
                    yield line[:-1]
        except OSError as error:
            raise Unfit(f"{self.path} can't be read: {error.strerror}") from None

    def steps(self) -> Iterator[Step]:
        """Yields the lines that the receiver is given, and the final report."""
        return steps_of(islice(self._lines(), 1, None))


def without_link(answer: Optional[str]) -> Optional[str]:
    """Returns an answer of a receiver as `tcrx` gives it: a CLCW has no flags of the link."""
    if answer and re.fullmatch(r"clcw \d+ [0-9a-f]{8}", answer):
        return f"{answer[:-8]}{int(answer[-8:], 16) & ~LINK_FLAGS:08x}"
    return answer


def answers_again(log: Log) -> Iterator[str]:
    """Yields the answers of a new receiver to the lines of a journal, and its final report."""
    with Session.live(log.scid, fecf=log.fecf) as session:
        for step in log.steps():
            if step.line:
                yield from session.answer(step.line.encode("latin-1")).split("\n")[:-1]
        yield from session.end().split("\n")[:-1]


def compare(log: Log, answers: Iterator[str], watches: Optional[Watches] = None) -> str:
    """Compares the answers of a journal with others, has its senders judged, and says how many answers are the same. Raises `Unfit` at the first
    that isn't."""
    count, has_report = 0, False
    silent: Optional[Step] = None
    for step in log.steps():
        if watches:
            watches.time = partial(float, step.time)
        if step.line.partition(" ")[0] in SET_UP:
            if watches and (channel := CHANNEL.fullmatch(step.line)):
                watches.begin(int(channel[1][:4]), int(channel[2][:4]) & 255)
            continue
        if silent:
            raise Unfit(f"line {silent.place}, `{printable(silent.line)}`: the log has no whole answer")
        answer = next(answers, None)
        if step.answer is None or step.answer == without_link(answer) != answer:
            silent = step
            continue
        if step.answer != answer:
            found = "no more answers" if answer is None else f"`{printable(answer)}`"
            raise Unfit(f"line {step.place}, `{printable(step.line) or 'the report'}`: the log has `{printable(step.answer)}`, and the replay {found}")
        if watches:
            watches.see(step.line, [answer])
        has_report = not step.line
        count += not has_report
    if has_report and not log.cut and (more := next(answers, None)) is not None:
        raise Unfit(f"the log has no more answers, and the replay `{printable(more)}`")
    if log.cut:
        return f"{count} answers are those of the log, which is cut off in line {log.cut}"
    return f"{count} answers {'and the final report are those of the log' if has_report else 'are those of the log, which has no final report'}"


def replay(path: Path, senders: Sequence[Sequence[int]] = ()) -> int:
    """Gives the lines of a journal to a new receiver, compares its answers with those of the journal, and says what was found, also of its
    senders; the status."""
    try:
        log = Log(path)
        watches = Watches(senders, lambda text, time: print(f"{time:.6f} s: {text}")) if senders else None
        said = compare(log, answers_again(log), watches)
        if watches and (missing := watches.missing()):
            raise Unfit(f"--sender: channel {missing[0]} isn't set up in {path}")
        print("\n".join([said, *(watches.texts() if watches else ())]))
        return 0
    except (Unfit, Fault) as error:
        print(f"tcrx-bench: {error}", file=sys.stderr)
        return 1
