#!/usr/bin/env python3
"""Runs the stored cases through sessions of lines of the client in Python, line by line, over a shared library. A session takes the scripts as
`tcrx run` does, and others take the stored input of `tclive` and of `tcmake`. Tries the faults of a session. Closes, drops and copies
sessions, and shares one between threads. Refuses each growth of memory. Tries a library without sessions. Compares the declarations with
the header by a C program.

usage: checks/bindings_lines.py LIBRARY REFUSING PORTABLE     the shared library, one over c/checks/refusing_memory.c, and one in portable C
The last line says how many checks passed. `checks/bindings` starts it.
"""
from __future__ import annotations

import binascii
import copy
import ctypes
import gc
import os
import pickle
import sys
import threading
from functools import partial
from pathlib import Path
from typing import Any, Callable, List, Optional, Tuple, Union

from comparing import TOP, cases, close, expect, same
from client_parts import raises
from bindings_channel import check_places, refusing_memory
import tcrx
import tcrx.lines_c as tcrx_lines_c
from tcrx import Channel, Ended, NotStarted
from tcrx.values import BadSettings, NoMemory, Octets
from tcrx.lines import BadScript, NoRoom, Over, Session, Waiting

# The texts of the answers, and the fault that ended the script.
Come = Tuple[str, str]


def lines_of(script: bytes) -> List[bytes]:
    """Returns the lines of a script without their line feeds."""
    lines = script.split(b"\n")
    return lines if lines[-1] else lines[:-1]


def come_of(session: Session, script: bytes) -> Come:
    """Returns the answers to the lines of a script with the final report, and the fault that ended it. Closes the session."""
    texts: List[str] = []
    try:
        texts += map(session.answer, lines_of(script))
        texts.append(session.end())
        return "".join(texts), ""
    except BadScript as bad:
        return "".join(texts), bad.text
    finally:
        raises(Over, partial(session.answer, "clcw 1"), "a line after the end")
        raises(Over, session.end, "a second end")
        session.close()


def check_cases() -> None:
    """Compares the answers to each stored case and to the input that is stored for `tclive` and `tcmake`."""
    stored = cases()
    expect(len(stored) > 100 and sum(bool(case.fault) for case in stored) > 40, f"{len(stored)} cases")
    for case in stored:
        wanted = (case.answers.decode("ascii"), f"{case.fault}\n" if case.fault else "")
        same(come_of(Session.script(int(case.scid)), case.script), wanted, f"case {case.name}")
    for name, session in (("tclive", Session.live(42)), ("tcmake", Session.make())):
        folder = TOP / "crates" / name
        same(come_of(session, (folder / "stdin").read_bytes()), ((folder / "stdout").read_text(encoding="ascii"), ""), f"the lines of {name}")
    print(f"session in Python: {len(stored)} cases")


def check_sums() -> None:
    """Compares how sessions write, check and notice frame error control fields. Python's standard library has their CRC."""
    plain = bytes.fromhex("002a040e00c01005c0000000aa")
    ended = f"frame {plain.hex()}{binascii.crc_hqx(plain, 0xffff):04x}"
    with Session.make(fecf=True) as maker:
        same(maker.answer("ad 42 1 0 0 1005c0000000aa"), f"{ended}\n", "a frame that ends with a field")
    for fecf in (False, True):
        with Session.live(42, fecf=fecf) as session:
            same((session.answer("channel 1 10 4 0"), session.saw_check_sums), ("", False), "no frame yet")
            same(session.answer(ended), "frame 1 E1 accepted 1 queued 0 dropped 0 rest 0\n", "a frame with a field")
            same(session.saw_check_sums, not fecf, "only a right field was seen")
            same(session.answer(f"frame {plain.hex()}0000") == "refused check\n", fecf, "a frame with a wrong field")
            session.end()
            same(session.saw_check_sums, False, "a wrong field was seen")


def check_faults() -> None:
    """Tries settings, lines and values that are refused."""
    same(str(raises(BadSettings, lambda: Session.live(1024), "no spacecraft")), "the spacecraft id is over 1,023", "the text of the fault")
    raises(BadSettings, lambda: Session.script(1024), "no spacecraft of a script")
    raises(ValueError, lambda: Session.script(65536), "a spacecraft that C's type doesn't have")
    with Session.script(42) as script:
        same(script.answer("# a comment"), "", "a comment")
        bad = raises(BadScript, lambda: script.answer("fram 00"), "a bad line of a script")
        same((str(bad), getattr(bad, "text", "")), ("line 2: unknown command", "line 2: unknown command\n"), "the text of the fault")
        same(str(raises(Over, lambda: script.answer("# a comment"), "a line after that")), "the lines have ended", "the text of the fault")
    with Session.live(42) as live:
        expect(live.answer(b"fram 00").startswith("bad unknown command"), "a bad line of a receiver")
        lines: Tuple[Union[str, Octets], ...] = (bytearray(b"channel 1 10 4 0"), memoryview(b"# a comment"), "", "# \u00e4 \udcff", "#\0")
        for line in lines:
            same(live.answer(line), "", f"the line {line!r}")
        same(live.text(), "", "no text waits")
        number: Any = 5
        raises(TypeError, lambda: live.answer(number), "a number for a line")
        same(live.answer("clcw 1"), "clcw 1 01040000\n", "a line after these")


def check_room() -> None:
    """Checks that a text waits in the session if there is no memory for its buffer in Python."""
    field = "aa" * 2100
    made, buffer = f"packet 1005c0000833{field}\n", ctypes.create_string_buffer

    def refused(count: int) -> object:
        raise MemoryError(count)
    with Session.make() as maker:
        ctypes.create_string_buffer = refused  # type: ignore[assignment]
        try:
            raises(NoRoom, lambda: maker.answer(f"packet 5 0 {field}"), "a text without room")
            raises(NoRoom, maker.text, "a text still without room")
        finally:
            ctypes.create_string_buffer = buffer
        raises(Waiting, lambda: maker.answer("packet 5 1 aa"), "a line while a text waits")
        raises(Waiting, maker.end, "the end while a text waits")
        same((maker.text(), maker.text()), (made, ""), "the text that waited")
        same(maker.answer(f"packet 5 0 {field}"), made, "the same line again")
        same(maker.end(), "", "the report of a maker")


def check_ends() -> None:
    """Closes a session and uses it after that, copies one, and shares one between threads."""
    session = Session.live(42)
    session.close()
    session.close()
    calls = (lambda: session.answer("clcw 1"), session.text, session.end, lambda: session.saw_check_sums)
    for place, call in enumerate(calls):
        same(str(raises(Ended, call, f"call {place} after the close")), "the receiver has ended: it was closed", "the text of the fault")
    copies: Tuple[Callable[[object], object], ...] = (copy.copy, copy.deepcopy, pickle.dumps)
    with Session.live(42) as other:
        for copied in copies:
            raises(TypeError, partial(copied, other), "a copy of a session")
        other.answer("channel 1 10 4 0")
        threads = [threading.Thread(target=lambda: [other.answer("frame 302a04050000") for _ in range(500)]) for _ in range(4)]
        for thread in threads:
            thread.start()
        for thread in threads:
            thread.join()
        same(other.end().split()[4], "2000", "the events of a session that four threads share")


def check_growths(refusing: str) -> None:
    """Refuses each block of memory in turn. A line whose block is refused is given again."""
    memory, refused = refusing_memory(refusing), 0

    def done(call: Callable[[], object]) -> object:
        """Repeats a call, each time with a later block refused, until the call is carried out. Returns its answer, or the fault that ended a
        script."""
        nonlocal refused
        for growth in range(1000):
            memory.tcrx_refuse(growth)
            answer: Optional[object] = None
            try:
                answer = call()
            except NoMemory:
                pass
            except BadScript as bad:
                answer = bad.text
            was_refused = memory.tcrx_refuse(-1) < 0
            # A receiver gives this answer if there is no memory for what the line sets up. Then nothing is set up.
            if answer not in (None, "bad no memory\n"):
                return answer
            refused += 1
            expect(was_refused, "a call fails where a block is refused")
        return None
    session = done(lambda: Session.live(42, library=refusing))
    assert isinstance(session, Session)
    folder = TOP / "crates/tclive"
    texts = [str(done(partial(session.answer, line))) for line in lines_of((folder / "stdin").read_bytes())]
    same("".join(texts) + session.end(), (folder / "stdout").read_text(encoding="ascii"), "the answers of a session whose blocks are refused")
    expect(refused > 20, f"{refused} blocks were refused")
    with Session.script(42, library=refusing) as script, Session.live(42, library=refusing) as live:
        same(done(partial(script.answer, "channel 1 10 4 0")), "line 1: no memory\n", "a script without memory")
        live.answer("channel 1 10 4 0")
        same(done(live.end), "no memory\n", "no report without memory")
    print(f"session in Python: {refused} blocks refused")
    expect(memory.tcrx_blocks() > 0, "a session has blocks")
    del session
    gc.collect()
    same(memory.tcrx_blocks(), 0, "blocks of a session that nothing refers to")


def check_portable(portable: str) -> None:
    """Checks that a library in portable C has channels but no sessions, and that the fault gives this reason."""
    with Channel(1, width=10, buffer=4, first=0, limits={0: 64}, library=portable) as channel:
        same(channel.events, 0, "a channel in portable C")
    fault = raises(NotStarted, lambda: Session.live(42, library=portable), "a session in portable C")
    expect("no sessions of lines, as in portable C" in str(fault), f"the fault of a session in portable C: {fault}")


def main() -> int:
    """Runs each part over the libraries that the command line names."""
    library, refusing, portable = sys.argv[1], sys.argv[2], sys.argv[3]
    os.environ["TCRX_LIB_DIR"] = str(Path(library).parent)
    same((tcrx.Session, hasattr(tcrx, "Session")), (Session, True), "the session of tcrx")
    check_places(tcrx_lines_c, "tcrx_lines.h", 3)
    check_cases()
    check_sums()
    check_faults()
    check_room()
    check_ends()
    check_growths(refusing)
    check_portable(portable)
    return close(f"session in Python {sys.version_info.major}.{sys.version_info.minor}")


if __name__ == "__main__":
    sys.exit(main())
