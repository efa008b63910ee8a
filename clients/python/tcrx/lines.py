"""Sessions that answer lines of text in the process of a Python program: calls of the shared library libtcrx.so.0.

    from tcrx import Session

    with Session.live(42) as session:
        for line in ("channel 1 10 2 0", "queue 1 5 8", "frame 002a040c00c01005c0000000aa", "release 1", "take 1 5"):
            print(session.answer(line), end="")
        print(session.end(), end="")

A session answers as the program `tclive`, `tcrx` or `tcmake` does, octet for octet, which is proved of the functions of
the library. This module is not proved. It passes each line on, returns the text, and frees a session once. That is
only tested, by all stored cases.

The library has sessions on x86-64 and aarch64. In portable C they are missing, and `Session` raises `NotStarted` there.
"""
from __future__ import annotations

import ctypes
import threading
import weakref
from ctypes import byref
from types import TracebackType
from typing import Any, Dict, NoReturn, Optional, Tuple, Type, Union

from .c import DONE, NO_MEMORY, NO_ROOM
from .channel import FIRST_ROOM, Library, in_range, load
from .lines_c import BAD_LINE, BAD_SCID, CALLS, LOST, NO_SESSION, OVER, WAITING, _Lines
from .values import BadSettings, Ended, Fault, NoMemory, NotStarted, Octets, octets_of

__all__ = ["BadScript", "Lost", "NoRoom", "Over", "Session", "Waiting"]


class BadScript(Fault):
    """A script ends here, or there is no final report. No more lines are answered."""

    def __init__(self, text: str) -> None:
        super().__init__(text.rstrip())
        self.text = text
        """The reason as the program prints it, with its line feed."""


class NoRoom(Fault, MemoryError):
    """There is too little memory for a text, which waits. `Session.text` returns it."""


class Waiting(Fault):
    """The text of an earlier call waits, so nothing was done. `Session.text` returns it."""


class Lost(Fault):
    """Memory ran out at an answer, which is lost. No more lines are answered."""


class Over(Fault):
    """The lines have ended, by `Session.end` or by a `BadScript`. No more lines are answered."""


# The reasons why a call has no answer, by their statuses.
FAULTS: Dict[int, Tuple[Type[Fault], str]] = {
    NO_MEMORY: (NoMemory, "there is too little memory"), BAD_SCID: (BadSettings, "the spacecraft id is over 1,023"),
    WAITING: (Waiting, "the text of an earlier call waits"), LOST: (Lost, "memory ran out at an answer, which is lost"),
    OVER: (Over, "the lines have ended")}


def load_lines(path: Library) -> ctypes.PyDLL:
    """Returns the library, with the types of the calls of a session. Raises `NotStarted` if it isn't there or has no
    sessions."""
    library = load(path)
    try:
        for call, (answer, arguments) in CALLS.items():
            function = getattr(library, call)
            function.restype, function.argtypes = answer, arguments
    except AttributeError as error:
        raise NotStarted(f"the library has no sessions of lines, as in portable C: {error}. It has them on x86-64 and aarch64") from error
    return library


def free(library: ctypes.PyDLL, held: _Lines) -> None:
    """Frees the session in a record. The record then holds none."""
    library.tcrx_lines_free_at(byref(held))


class Session:
    """A session, which answers lines. `live`, `script` and `make` create one."""

    def __init__(self, library: Library, kind: str, *given: int) -> None:
        """Creates a session by the call `tcrx_lines_KIND_at` of the library, whose other arguments are `given`."""
        self._library, self._lock = load_lines(library), threading.Lock()
        self._held = _Lines(0, None)
        self._at = byref(self._held)
        self._room = ctypes.create_string_buffer(FIRST_ROOM)
        self._seen = memoryview(self._room)
        status = getattr(self._library, f"tcrx_lines_{kind}_at")(self._at, *given)
        if status != DONE:
            self._raise(status)
        self._finalizer = weakref.finalize(self, free, self._library, self._held)

    @classmethod
    def live(cls, scid: int, *, fecf: bool = False, library: Library = None) -> Session:
        """Creates a session that answers lines as `tclive` does, for the spacecraft with the id `scid` (0 to 1,023).
        With `fecf` each frame must end with a frame error control field, which is checked and removed. `library` is the
        path of libtcrx.so.0. Without it, the library is looked for by `find_library`.

        Raises `NotStarted` if the library isn't there or has no sessions, `BadSettings`, and `NoMemory`."""
        return cls(library, "live", in_range(scid, 65535, "scid"), int(bool(fecf)))

    @classmethod
    def script(cls, scid: int, *, library: Library = None) -> Session:
        """Creates a session that carries out a script as `tcrx run` does. The script ends at its first bad line. The call
        raises the exceptions of `live`."""
        return cls(library, "script", in_range(scid, 65535, "scid"))

    @classmethod
    def make(cls, *, fecf: bool = False, library: Library = None) -> Session:
        """Creates a session that answers lines as `tcmake` does. With `fecf` each frame that it makes ends with a frame
        error control field. The call raises the exceptions of `live`."""
        return cls(library, "make", int(bool(fecf)))

    def __reduce__(self) -> NoReturn:
        raise TypeError("a session can't be copied or pickled: a copy wouldn't be a second session")

    def _raise(self, status: int, text: str = "") -> NoReturn:
        """Raises the exception for the status of a call that has no answer."""
        if status == BAD_LINE:
            raise BadScript(text)
        if status == NO_SESSION:
            raise Ended(None, "it was closed")
        fault, why = FAULTS.get(status, (Fault, f"status {status}"))
        raise fault(why)

    def _text(self) -> Any:
        """Returns the text that waits."""
        return self._library.tcrx_lines_text_at(self._at, self._room, len(self._room))

    def _whole(self, written: Any) -> str:
        """Returns the whole text of a call. If the buffer is too short for the text, it grows."""
        while written.status == NO_ROOM:
            try:
                self._room = ctypes.create_string_buffer(written.length)
                self._seen = memoryview(self._room)
            except MemoryError as error:
                raise NoRoom(f"there is too little memory for the text of {written.length} octets, which waits") from error
            written = self._text()
        text = str(self._seen[:written.length], "ascii") if written.status in (DONE, BAD_LINE) else ""
        return text if written.status == DONE else self._raise(written.status, text)

    def answer(self, line: Union[str, Octets]) -> str:
        """Carries out a line, which has no line feed at its end, and returns the text of its answer: lines with their
        line feeds, or nothing. If there is too little memory for what a line sets up, the answer of a receiver is `bad
        no memory`, as that of `tclive`, and a script ends.

        Raises `NoMemory` after which the line can be given again, `BadScript`, `NoRoom`, `Waiting`, `Lost`, `Over`, and
        `Ended` if the session was closed."""
        octets = line.encode("utf-8", "surrogateescape") if isinstance(line, str) else octets_of(line)
        with self._lock:
            written = self._library.tcrx_lines_answer_at(self._at, octets, len(octets), self._room, len(self._room))
            # Most texts fit into the buffer.
            return self._whole(written) if written.status else str(self._seen[:written.length], "ascii")

    def text(self) -> str:
        """Returns the text that waits after `NoRoom`, as the call that raised it would have. It is empty if none
        waits."""
        with self._lock:
            return self._whole(self._text())

    def end(self) -> str:
        """Ends the lines, and returns the final report of a receiver's channels. A maker has no channels, so its report is
        empty. The call raises the exceptions of `answer`."""
        with self._lock:
            return self._whole(self._library.tcrx_lines_end_at(self._at, self._room, len(self._room)))

    @property
    def saw_check_sums(self) -> bool:
        """Whether frames were brought to a receiver that checks no frame error control fields, and each of them ended
        with the right one. The programs then print a hint at their end."""
        with self._lock:
            answer = self._library.tcrx_lines_saw_check_sums_at(self._at)
        if answer.status != DONE:
            self._raise(answer.status)
        return bool(answer.flag)

    def close(self) -> None:
        """Frees the session. A second call does nothing."""
        with self._lock:
            self._finalizer()

    def __enter__(self) -> Session:
        return self

    def __exit__(self, kind: Optional[Type[BaseException]], error: Optional[BaseException], trace: Optional[TracebackType]) -> None:
        """Closes the session."""
        self.close()
