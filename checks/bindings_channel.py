#!/usr/bin/env python3
"""Calls the channel of the client in Python over a shared library. Compares each field of what is read and reported. Refuses each growth of
memory. Closes, drops and copies channels, and shares them between threads. Checks where the library is found. Compares the declarations
with the header by a C program.

usage: checks/bindings_channel.py LIBRARY REFUSING     the shared library, and one over c/checks/refusing_memory.c
The last line says how many checks passed. `checks/bindings` starts it.
"""
from __future__ import annotations

import copy
import ctypes
import ctypes.util
import gc
import os
import pickle
import re
import shutil
import subprocess
import sys
import tempfile
import threading
import time
from functools import partial
from pathlib import Path
from types import ModuleType
from typing import Any, Callable, Dict, List, Tuple, Type

from comparing import PATIENCE, TOP, close, expect, run
from client_parts import NOTHING, ONE, UNLOCK, cltu, frame, packet, raises, same, whole
import tcrx
import tcrx.channel as tcrx_channel
from tcrx import (Brought, Channel, Clcw, Delivery, Ended, Event, Final, NotSetUp, NotStarted, Outcome, Packet, Refusal, Refused,
                  Released, Report, State, Unit)
from tcrx.channel import (BadSettings, Decoder, Frame, NoMemory, NotRead, NotWritten, Rack, Tm, add_fecf, check_fecf, randomise, read_frame,
                          read_tm, storage, write_cltu, write_frame, write_packet, write_segments, write_set_vr, write_tm, write_unlock)

HEADER = TOP / "dist/tcrx.h"
SETTINGS: Dict[str, Any] = {"width": 10, "buffer": 4, "first": 0, "queues": {5: 4, 9: 2}, "maps": {2: 3}}


# --- Answers ---

def check_values() -> None:
    """Compares what scripts don't show: outcomes, reports, the flags of the link, frames as a bytearray and as a memoryview, and the iterators
    over packets and units that wait."""
    with Channel(1, **SETTINGS) as channel:
        brought = channel.bring(frame(0, whole(0, ONE)))
        same(isinstance(brought, Brought) and brought.outcome, Outcome.ACCEPTED, "the outcome of a frame")
        channel.release()
        channel.bring(frame(0, whole(2, b""), bypass=1))
        same(channel.report(), Report(1, State.OPEN, 1, False, False, False, 1, 0, {5: 1, 9: 0}, {2: 1}), "a report")
        channel.link(True, True)
        same((channel.clcw().no_rf, channel.clcw().no_bit_lock, channel.events), (True, True, 3), "the flags of the link")
        channel.link(False, False)
        for octets in (bytearray(UNLOCK), memoryview(UNLOCK)):
            same(channel.bring(octets), Brought(1, Event.E7, False, NOTHING), "octets of another type")
        channel.bring(frame(0, whole(1, packet(5, 1) + packet(9, 2) + b"\x10"), bypass=1))
        waiting = (list(channel.packets(5)), list(channel.packets(9)), list(channel.units(2)))
        same(waiting, ([ONE, packet(5, 1)], [packet(9, 2)], [b""]), "packets and units that wait")
        raises(NotSetUp, lambda: list(channel.packets(6)), "packets of no queue")
        raises(NotSetUp, lambda: list(channel.units(6)), "units of no MAP")
    same(channel.final, Final(Clcw(0x01040001), 10, 0, {5: 0, 9: 0}, {2: 0}), "the report at the end")
    same((bool(brought), bool(Refused(Refusal.EMPTY))), (True, False), "the truth of answers")


def check_replies() -> None:
    """Compares the replies to frames, a release and takes with values worked out by hand from CCSDS 232.1-B, 6.3. There is a frame for each
    event from E1 to E9. One frame has three packets, but its queue has room for only two."""
    rows = ((frame(252, b"\xc0"), Event.E3, False, NOTHING), (frame(250, whole(0, ONE)), Event.E1, True, NOTHING),
            (frame(251, b"\xc0"), Event.E2, False, NOTHING), (frame(250, b"\xc0"), Event.E4, False, NOTHING),
            (frame(0, whole(0, ONE * 3 + b"\x10"), bypass=1), Event.E6, True, Delivery(2, 1, True)),
            (frame(0, whole(2, b"\xab\xcd"), bypass=1), Event.E6, True, Delivery(1, 0, False)),
            (frame(100, b"\xc0"), Event.E5, False, NOTHING), (bytes.fromhex("302a040700820009"), Event.E8, False, NOTHING),
            (UNLOCK, Event.E7, False, NOTHING), (bytes.fromhex("102a04050000"), Event.E9, False, NOTHING))
    with Channel(1, width=10, buffer=1, first=250, queues={5: 2}, maps={2: 3}) as channel:
        for octets, event, accepted, delivery in rows:
            same(channel.bring(octets), Brought(1, event, accepted, delivery), f"the reply to a frame, {event.value}")
        same(channel.release(), Released(1, Delivery(0, 1, False)), "the reply to a release")
        same([channel.take(5), channel.take_unit(2)], [Packet(1, 5, ONE), Unit(1, 2, b"\xab\xcd")], "takes")
        same([channel.release(), channel.take_unit(2)], [Refused(Refusal.EMPTY)] * 2, "nothing waits")
        same([channel.take(6), channel.take_unit(3)], [Refused(Refusal.NO_QUEUE), Refused(Refusal.NO_MAP)], "no such queue, and no such MAP")
    same(channel.final, Final(Clcw(0x010400fb), 13, 0, {5: 1}, {2: 0}), "the report at the end")


def check_racks() -> None:
    """Checks to which channel of a rack a frame goes, some refusals, and channels that are closed or moved to another rack."""
    at_seven: Dict[str, Any] = {"width": 10, "buffer": 4, "first": 7, "limits": {0: 64}}
    first, second, other = (Channel(vcid, **at_seven) for vcid in (5, 5, 8))
    rack = Rack(675, [first, second, other])
    sent = write_frame(675, 5, 7, b"\xc0\xaa")
    same(rack.bring(sent + b"\0"), Brought(5, Event.E1, True, NOTHING), "a frame with fill")
    same((rack.channel(5) is first, rack.channel(8) is other, rack.channel(6), rack.channel(255)), (True, True, None, None), "channels by their ids")
    rack.fecf = True
    ended = add_fecf(write_frame(675, 8, 7, b"\xc0\xaa"))
    same([rack.bring(octets) for octets in (sent, b"", ended + b"\0", ended[:-1] + b"\0", sent[:3] + b"\5" + sent[4:6])],
         [Refused(Refusal.CHECK)] * 5, "frames without the field")
    same(rack.bring(ended), Brought(8, Event.E1, True, NOTHING), "a frame with the field")
    same(rack.bring(add_fecf(write_frame(676, 9, 0, b"\0"))), Refused(Refusal.SPACECRAFT), "another spacecraft after the check")
    same((first.events, second.events, other.events), (1, 0, 1), "the events of each")
    first.close()
    same((rack.channel(5) is second, rack.bring(add_fecf(sent))), (True, Brought(5, Event.E1, True, NOTHING)), "the next channel with that id")
    moved = Rack(675, [other])
    same((rack.channel(8), moved.channel(8) is other, other.events), (None, True, 1), "a channel that is moved")
    same(other.release(), Released(8, Delivery(0, 0, True)), "its release")
    same((second.close().events, other.close().events), (1, 2), "the events at the end")
    same(Rack(675, []).bring(sent), Refused(Refusal.CHANNEL), "a rack of no channel")
    check_rack_turns(sent)
    raises(ValueError, lambda: Rack(65536, []), "a spacecraft that C's type doesn't have")


def check_chain() -> None:
    """Sends packets in CLTUs of one to four frames, with the frame error control field and without. Each CLTU has one wrong bit, and no packet
    may be lost. If a CLTU carries more frames than are taken, the rest must be reported."""
    limits: Dict[str, Any] = {"limits": {0: 1024}, "width": 10, "buffer": 4, "first": 0, "queues": {5: 8}}
    for fecf in (False, True):
        with Channel(1, **limits) as channel:
            rack, decoder, lost, carried = Rack(42, [channel], fecf=fecf), Decoder(correct=True), 0, 0
            for turn in range(80):
                packets = [write_packet(5, turn, bytes(3 + (turn + 1) * (place + 37) % 233)) for place in range(1 + turn % 4)]
                plain = [write_frame(42, 1, 0, b"\xc0" + packet, bypass=True) for packet in packets]
                frames = [add_fecf(each) for each in plain] if fecf else plain
                stream = bytearray(write_cltu(randomise(b"".join(frames))))
                stream[7] ^= 1
                for candidate in decoder.feed(stream):
                    found = rack.bring_candidate(randomise(candidate), most=len(packets))
                    carried += all(found.frames) and found.more == b""
                lost += [channel.take(5) for _ in packets] != [Packet(1, 5, packet) for packet in packets]
            same((lost, carried, decoder.overlong), (0, 80, 0), f"CLTUs that are lost on their way, {fecf}")
            found = rack.bring_candidate(frames[0] * 2, most=1)
            same((len(found.frames), found.more), (1, frames[0]), "a frame more than is taken")
            found = rack.bring_candidate(frames[0] + b"\x40" * 8, most=3)
            same(found.frames[1:], [Refused(Refusal.CHECK if fecf else Refusal.VERSION)], "octets after a frame that aren't a frame")


def check_candidates() -> None:
    """Tries candidates of twenty frames for two channels in turn, and candidates of three frames. The middle frame of the three is refused,
    for each of three reasons."""
    ids = (5, 8) * 10
    sent = [frame(0, whole(0, b"\xaa" * 43), vcid, bypass=1, scid=675, fecf=True) for vcid in ids]
    brought = [Brought(vcid, Event.E6, True, Delivery(0, 0, True)) for vcid in ids]
    limits: Dict[str, Any] = {"width": 10, "buffer": 4, "first": 7, "limits": {0: 64}}
    with Channel(5, **limits) as five, Channel(8, **limits) as eight:
        rack = Rack(675, [five, eight], fecf=True)
        found = rack.bring_candidate(b"".join(sent) + b"\x55" * 6, most=20)
        same((found.frames, found.more, five.events, eight.events), (brought, b"", 10, 10), "a candidate of twenty frames")
        found = rack.bring_candidate(b"".join(sent), most=19)
        same((found.frames, found.more), (brought[:19], sent[19]), "nineteen frames of twenty")
        for reason, middle in ((Refusal.CHECK, sent[1][:-1] + bytes([sent[1][-1] ^ 1])), (Refusal.SPACECRAFT, frame(0, b"\xc0", 8, fecf=True)),
                               (Refusal.CHANNEL, frame(0, b"\xc0", 9, scid=675, fecf=True))):
            found = rack.bring_candidate(sent[0] + middle + sent[2], most=3)
            same((found.frames, found.more), ([brought[0], Refused(reason), brought[2]], b""), f"a frame between two that is refused by {reason}")


def check_searches() -> None:
    """Starts a search in the middle of a CLTU, in each mode. The search must drop what the CLTU has carried so far, and keep the decoder's
    mode."""
    carried = bytes(range(1, 15))
    sent = cltu(carried)
    wrong = sent[:5] + bytes([sent[5] ^ 16]) + sent[6:]
    for correct in (True, False):
        cut = Decoder(correct=correct)
        cut.feed(sent[:13])
        same((cut.search(), cut.search(), cut.feed(sent[13:])), (True, False, []), "the rest of a CLTU after a search")
        same((cut.feed(wrong), cut.corrected, cut.rejected), ([carried] * correct, int(correct), int(not correct)), "the mode after a search")
        same(cut.feed(sent), [carried], "a CLTU after a search")
        cut.feed(b"\xeb\x90" + bytes.fromhex("00000000000000fe") * 148)
        same(cut.overlong, 1, "a CLTU that carries too much")


def check_rack_turns(sent: bytes) -> None:
    """Calls two racks of the same channels from several threads. Each rack has one of the channels twice. No call may wait for ever."""
    one, two = (Channel(vcid, width=10, buffer=4, first=7, limits={0: 64}) for vcid in (5, 8))
    racks = (Rack(675, [one, two, one]), Rack(675, [two, one, two]))
    threads = [threading.Thread(target=lambda rack=rack: [rack.bring(sent) for _ in range(2000)], daemon=True) for rack in racks for _ in range(2)]
    for thread in threads:
        thread.start()
    for thread in threads:
        thread.join(60)
    same((any(thread.is_alive() for thread in threads), one.events, two.events), (False, 4000, 0), "racks of the same channels in several threads")


# Frames of spacecraft 675, each with fill after it, and their fields. Type-BD has only the bypass flag, Type-BC has both flags, Type-AD has
# none, and Type-AC has only the control flag.
FRAMES = (("22a39407c8c0aabb5555", Frame(675, 37, 200, True, False, 8)), ("32a33005110055", Frame(675, 12, 17, True, True, 6)),
          ("02a3fd2bff" + 297 * "00", Frame(675, 63, 255, False, False, 300)), ("12a30005800055", Frame(675, 0, 128, False, True, 6)))
# CLCWs of virtual channel 37 with FARM-B counter 2 and V(R) 181. The first five have one flag each, from No RF Available to Retransmit. The
# last has the largest status field and no flag.
WORDS = (0x019484B5, 0x019444B5, 0x019424B5, 0x019414B5, 0x01940CB5, 0x1D9404B5)
# Frames, each with the report after it. They are a Type-AD frame ahead of V(R) (E3), the expected one with room (E1) and without (E2),
# Unlock (E7), and a Type-AD frame outside the window (E5).
STEPS = ((frame(252, b"\xc0"), Report(1, State.OPEN, 250, False, False, True, 0, 0, {}, {})),
         (frame(250, b"\xc0"), Report(1, State.OPEN, 251, False, False, False, 0, 1, {}, {})),
         (frame(251, b"\xc0"), Report(1, State.WAIT, 251, False, True, True, 0, 1, {}, {})),
         (UNLOCK, Report(1, State.OPEN, 251, False, False, False, 1, 1, {}, {})),
         (frame(100, b"\xc0"), Report(1, State.LOCKOUT, 251, True, False, False, 1, 1, {}, {})))


# Packets and their fields: APID, count, packet data field, packet type, secondary header flag, sequence flags. They are those of
# c/checks/fields.h.
PACKETS: Tuple[Tuple[str, Tuple[int, int, bytes], Dict[str, Any]], ...] = (
    ("1da512340002aabbcc", (1445, 4660, b"\xaa\xbb\xcc"), {"secondary": True, "sequence": 0}),
    ("000540010000aa", (5, 1, b"\xaa"), {"telecommand": False, "sequence": 1}),
    ("17febfff012b" + 300 * "00", (2046, 16383, bytes(300)), {"sequence": 2}),
    ("0800eaaa0000aa", (0, 10922, b"\xaa"), {"telecommand": False, "secondary": True}))


def check_made() -> None:
    """Compares frames and packets that are written with those of c/checks/fields.h, and tries a call of each kind that is refused."""
    for digits, (apid, count, field), others in PACKETS:
        same(write_packet(apid, count, field, **others).hex(), digits, f"the packet {digits[:12]}")
    unit, plain = bytes(range(1, 8)), "22a39407c8c0aabb"
    three = write_segments(unit, scid=675, vcid=37, ns=255, map=37, size=3)
    same([each.hex() for each in three], ["02a39408ff65010203", "02a394080025040506", "02a3940601a507"], "segments")
    same([each.hex() for each in write_segments(unit, scid=675, vcid=37, ns=200, map=37, bypass=True)], ["22a3940cc8e501020304050607"], "one segment")
    same((write_unlock(675, 12).hex(), write_set_vr(675, 12, 9).hex()), ("32a330050000", "32a3300700820009"), "commands")
    ended = add_fecf(bytes.fromhex(plain))
    same((ended.hex(), check_fecf(ended)), ("22a39409c8c0aabb4c91", bytes.fromhex(plain)), "a frame with its field, and without it")
    same([check_fecf(octets) for octets in (bytes.fromhex(plain), b"", b"\xff\xff")], [Refused(Refusal.CHECK)] * 3, "no frames with a field")
    for call in (lambda: write_packet(2048, 0, b"\0"), lambda: write_frame(0, 0, 0, b""), lambda: write_segments(unit, scid=0, vcid=0, ns=0, map=64),
                 lambda: write_unlock(1024, 0), lambda: add_fecf(b"")):
        raises(NotWritten, call, "a call that is refused")
    same(str(Clcw(0x1d9484b5)), "vc 37 status 7 norf 1 nobitlock 0 lockout 0 wait 0 retransmit 0 farmb 2 vr 181", "a CLCW as text")


def check_streams(sent: bytes, plain: bytes) -> None:
    """Decodes a CLTU in pieces. Then decodes it with a wrong bit, which one mode corrects, while the other mode rejects the CLTU. Then gives
    a decoder more octets at once than it passes to one call of C."""
    wrong, carried = sent[:5] + bytes([sent[5] ^ 16]) + sent[6:], plain + b"\x55" * 6
    decoder, strict = Decoder(correct=True), Decoder(correct=False)
    same([decoder.feed(octets) for octets in (sent[:9], sent[9:-1], sent[-1:], wrong)], [[], [carried], [], [carried]], "a stream in pieces")
    same((decoder.corrected, decoder.rejected), (1, 0), "one wrong bit that is corrected")
    same((strict.feed(wrong), strict.corrected, strict.rejected), ([], 0, 1), "one wrong bit that is detected")
    many = [number.to_bytes(7, "big") for number in range(500)]
    same(strict.feed(b"".join(map(cltu, many))), many, "500 CLTUs at once")


def check_ends_of_the_link() -> None:
    """Compares a CLTU, the random sequence and telemetry frames with those of c/checks/fields.h, and tries calls of each kind that are refused."""
    plain, clcw = bytes.fromhex("22a39407c8c0aabb"), Clcw(0x1d9484b5)
    same(write_cltu(plain).hex(), "eb9022a39407c8c0aaf0bb5555555555553ec5c5c5c5c5c5c579", "a CLTU")
    longest = bytes(place * 7 & 255 for place in range(1029))
    same(write_cltu(longest), cltu(longest), "the longest CLTU")
    same((randomise(plain).hex(), randomise(randomise(plain))), ("dd9a0a5da029ac4e", plain), "the random sequence, on and off")
    check_streams(bytes.fromhex("eb9022a39407c8c0aaf0bb5555555555553ec5c5c5c5c5c5c57955"), plain)
    for digits, fecf, size in (("2a3bc84d1ffe5555551d9484b5", False, 13), ("2a3bc84d1ffe5555551d9484b57ee3", True, 15)):
        same(write_tm(675, 5, 200, 77, clcw, size=size, fecf=fecf).hex(), digits, "a telemetry frame")
        same(read_tm(bytes.fromhex(digits), fecf=fecf), Tm(675, 5, 200, 77, clcw, 2046), "the fields of a telemetry frame")
    same(read_tm(bytes.fromhex("2a3bc84d1ffe5555559d9484b5")), Tm(675, 5, 200, 77, None, 2046, 0x9D9484B5), "a Type-2 report")
    same(read_tm(bytes.fromhex("2a3bc84d19235555551d9484b5")), Tm(675, 5, 200, 77, clcw, 291), "a first header pointer")
    for call in (lambda: write_cltu(b""), lambda: write_cltu(bytes(1030)), lambda: randomise(bytes(1030)),
                 lambda: write_tm(1024, 0, 0, 0, clcw, size=13), lambda: write_tm(0, 0, 0, 0, clcw, size=2049)):
        raises(NotWritten, call, "a call at an end of the link that is refused")
    for octets, fecf in ((bytes(10), False), (bytes(11), False), (bytes.fromhex("2a3bc84d1ffe5555551d9484b5"), True), (b"\x40" * 11, False)):
        raises(NotRead, lambda given=octets, ends=fecf: read_tm(given, fecf=ends), "a telemetry frame that is refused")


def check_fields() -> None:
    """Compares each field of frames, of CLCWs, and of the reports after steps, and the channel's CLCW with each flag of the link alone. All values
    are worked out by hand, by the layouts of docs/reference/formats.md and the state table of CCSDS 232.1-B, 6.3."""
    for digits, wanted in FRAMES:
        same(read_frame(bytes.fromhex(digits)), wanted, f"the fields of the frame {digits[:10]}")
        made = write_frame(wanted.scid, wanted.vcid, wanted.ns, bytes.fromhex(digits)[5:wanted.length], bypass=wanted.bypass, control=wanted.control)
        same(made, bytes.fromhex(digits)[:wanted.length], f"the frame {digits[:10]} from its fields")
    for place, number in enumerate(WORDS):
        clcw = Clcw(number)
        flags = (clcw.no_rf, clcw.no_bit_lock, clcw.lockout, clcw.wait, clcw.retransmit)
        same(flags, tuple(place == flag for flag in range(5)), f"the flags of the CLCW {number:08x}")
        same((clcw.channel, clcw.farm_b, clcw.vr), (37, 2, 181), f"the numbers of the CLCW {number:08x}")
        names = ("norf", "nobitlock", "lockout", "wait", "retransmit")
        said = " ".join(f"{name} {int(place == flag)}" for flag, name in enumerate(names))
        same(str(clcw), f"vc 37 status {7 if place == 5 else 0} {said} farmb 2 vr 181", f"the CLCW {number:08x} as text")
    with Channel(1, width=10, buffer=1, first=250, limits={}, others=16) as channel:
        for octets, report in STEPS:
            expect(channel.bring(octets), "a frame of a step")
            same(channel.report(), report, "a report")
        for no_rf, no_bit_lock, number in ((True, False, 0x0104A2FB), (False, True, 0x010462FB)):
            channel.link(no_rf, no_bit_lock)
            same(channel.clcw(), Clcw(number), "a flag of the link alone")


def changed(change: Dict[str, Any]) -> Dict[str, Any]:
    """Returns the settings with a change."""
    return {**SETTINGS, **change}


def check_refused() -> None:
    """Tries settings, values and libraries that are refused."""
    tried: Tuple[Dict[str, Any], ...] = (
        {"width": 9}, {"queues": {5: 0}}, {"maps": {64: 1}}, {"plain": True})
    texts = [str(raises(BadSettings, partial(Channel, 1, **changed(change)), f"{change}")) for change in tried]
    expect(texts[0] == "the width of the window isn't even and 2 to 254" and all(texts), f"why settings are refused: {texts}")
    same(str(raises(BadSettings, lambda: storage(1, **changed({"width": 9})), "the storage of an odd window")), texts[0], "the same text")
    expect(storage(1, **SETTINGS) > 65542, "a storage")
    limited: Tuple[Dict[str, Any], ...] = ({"limits": {}, "others": 65543}, {"limits": {2: 0}}, {"limits": {}})
    for change in limited:
        why = [str(raises(BadSettings, partial(call, 1, **changed(change)), f"{change}")) for call in (Channel, storage)]
        expect(why[0] == why[1] and "limit" in why[0], f"why limits are refused: {why}")
    same(storage(1, width=10, buffer=8, first=0, queues=dict.fromkeys((5, 6, 7, 8), 8), limits={0: 1024}), 49624, "the storage within limits")
    # These are 1,051 bytes for the buffer, 5,120 and 2 * 64 * 65,542 for open runs, 64 for each queue, 65,574 for each packet, and 4,096
    # for the table.
    many: Dict[str, Any] = {"width": 10, "buffer": 1, "first": 0, "queues": dict.fromkeys(range(256), 256)}
    same(storage(1, **many), 4305873691, "a storage of more octets than 32 bits count")
    raises(ValueError, lambda: Channel(1, **changed({"limits": {2: 2**32}})), "a limit that C's type doesn't have")
    raises(ValueError, lambda: Channel(256, **SETTINGS), "a number that C's type doesn't have")
    raises(ValueError, lambda: Channel(1, **changed({"queues": {70000: 1}})), "an APID that C's type doesn't have")
    text: Any = "1"
    raises(TypeError, lambda: Channel(text, **SETTINGS), "a text for a number")
    with Channel(1, **SETTINGS) as channel:
        raises(ValueError, lambda: channel.take(-1), "an APID below 0")
        wrongs: Tuple[Any, ...] = ("1", 5)
        for wrong in wrongs:
            fault = raises(TypeError, partial(channel.bring, wrong), f"{wrong!r} for octets")
            expect(str(fault).startswith("octets are wanted, as bytes.fromhex makes them"), f"the fault of {wrong!r} for octets: {fault}")
        refusals = [channel.bring(octets) for octets in (b"", b"\x00" * 4, b"\x40" + UNLOCK[1:], b"\x04" + UNLOCK[1:], UNLOCK[:5],
                                                         UNLOCK[:3] + b"\x04" + UNLOCK[4:])]
        same([refused.reason.value for refused in refusals if isinstance(refused, Refused)],
             ["short", "short", "version", "spare", "truncated", "length"], "no frames")
        same([read_frame(octets) for octets in (b"", UNLOCK[:5])], [refusals[0], refusals[4]], "no frames to be read")
        same(channel.events, 0, "the events after refused frames")
    raises(NotStarted, lambda: Channel(1, **SETTINGS, library="/nowhere/libtcrx.so.0"), "a library that isn't there")
    raises(NotStarted, lambda: Channel(1, **SETTINGS, library=ctypes.util.find_library("c")), "another library")
    raises(AttributeError, lambda: getattr(tcrx, "Chanel"), "a name that tcrx doesn't have")


# --- Ends ---

def check_ends() -> None:
    """Closes channels and uses them after that, copies them, and leaves one open when Python exits."""
    channel = Channel(1, **SETTINGS)
    raises(ValueError, lambda: channel.final, "the report of an open channel")
    final = channel.close()
    expect(channel.close() is final and channel.final is final, "a second close")
    calls = (lambda: channel.bring(UNLOCK), channel.release, lambda: channel.take(5), lambda: channel.take_unit(2), channel.clcw,
             channel.report, lambda: channel.events, lambda: list(channel.packets(5)))
    for place, call in enumerate(calls):
        same(str(raises(Ended, call, f"call {place} after the close")), "the receiver has ended: it was closed", "the text of the fault")
    copies: Tuple[Callable[[object], object], ...] = (copy.copy, copy.deepcopy, pickle.dumps)
    for copied in copies:
        with Channel(1, **SETTINGS) as other:
            kept: Tuple[object, ...] = (other, Rack(42, [other]), Rack(42, []), Decoder(correct=True))
            for each in kept:
                raises(TypeError, partial(copied, each), f"a copy of a {type(each).__name__}")
    try:
        with Channel(1, **SETTINGS) as other:
            raise KeyError
    except KeyError:
        raises(Ended, other.release, "a channel that an exception left")
    left = "from tcrx import Channel; channel = Channel(1, width=10, buffer=2, first=0); kept = [channel]; kept.append(kept); print('ended')"
    ran = run(sys.executable, "-c", left, names={"PYTHONPATH": str(TOP / "clients/python")})
    same((ran.returncode, ran.stdout, ran.stderr), (0, "ended\n", ""), "a channel that is open when Python ends")


def check_threads() -> None:
    """Uses two channels in two threads, and one channel that four threads share."""
    def rounds(octet: int, good: List[bool]) -> None:
        with Channel(1, **SETTINGS) as channel:
            for number in range(2000):
                came = channel.bring(frame(number % 256, whole(0, packet(5, octet)))) and channel.release()
                good.append(bool(came) and channel.take(5) == Packet(1, 5, packet(5, octet)))
    answers: List[List[bool]] = [[], []]
    threads = [threading.Thread(target=rounds, args=(0xA0 + place, good)) for place, good in enumerate(answers)]
    for thread in threads:
        thread.start()
    for thread in threads:
        thread.join()
    same(answers, [[True] * 2000] * 2, "two channels in two threads")
    with Channel(1, **SETTINGS) as shared:
        threads = [threading.Thread(target=lambda: [shared.bring(UNLOCK) for _ in range(1000)]) for _ in range(4)]
        for thread in threads:
            thread.start()
        for thread in threads:
            thread.join()
        same((shared.events, shared.clcw().farm_b), (4000, 0), "a channel that four threads share")


def check_turns() -> None:
    """Checks that each call of a channel and of its rack waits while another thread holds the channel's lock."""
    with Channel(1, **SETTINGS) as channel:
        rack = Rack(42, [channel])
        calls: Tuple[Callable[[], object], ...] = (
            partial(channel.bring, UNLOCK), channel.release, partial(channel.take, 5), partial(channel.take_unit, 2), channel.clcw,
            channel.report, lambda: channel.events, partial(rack.bring, UNLOCK), partial(rack.bring_candidate, UNLOCK), partial(rack.channel, 1))
        threads = [threading.Thread(target=call, daemon=True) for call in calls]
        with channel._lock:  # pylint: disable=protected-access  # nothing else shows that a call waits
            for thread in threads:
                thread.start()
            time.sleep(0.2)
            same([thread.is_alive() for thread in threads], [True] * len(threads), "the calls that wait")
        for thread in threads:
            thread.join(PATIENCE)
        same([thread.is_alive() for thread in threads], [False] * len(threads), "the calls that still wait")


def check_fork() -> None:
    """Checks that after a fork each process has a channel of its own."""
    with Channel(1, **SETTINGS) as channel:
        channel.bring(frame(0, whole(0, ONE)))
        child = os.fork()
        if child == 0:
            good = bool(channel.release()) and channel.take(5) == Packet(1, 5, ONE) and channel.close().events == 3
            os._exit(0 if good else 1)  # pylint: disable=protected-access  # a child of a fork ends so
        same(os.waitpid(child, 0)[1], 0, "the channel of a child")
        same((channel.events, bool(channel.release())), (1, True), "the channel of its parent")


# --- Memory ---

def refusing_memory(refusing: str) -> ctypes.PyDLL:
    """Returns a library with the calls of c/checks/refusing_memory.c."""
    memory = ctypes.PyDLL(refusing)
    memory.tcrx_refuse.restype, memory.tcrx_blocks.restype = ctypes.c_long, ctypes.c_long
    memory.tcrx_refuse.argtypes = [ctypes.c_long]
    return memory


def check_growths(refusing: str) -> None:
    """Refuses in turn each block that the creation of a channel requests. c/checks/growths.c shows that no other call requests any."""
    memory, refused = refusing_memory(refusing), 0

    def done(call: Callable[[], Any], look: Callable[[], object], what: str) -> Any:
        """Repeats a call, and refuses another growth each time, until no growth is refused. Returns the last answer. The refused calls must
        raise `NoMemory` and change nothing."""
        nonlocal refused
        for growth in range(1000):
            before = look()
            memory.tcrx_refuse(growth)
            try:
                answer = call()
            except NoMemory as error:
                answer = error
            if memory.tcrx_refuse(-1) >= 0:
                return answer
            refused += 1
            expect(isinstance(answer, NoMemory) and isinstance(answer, MemoryError) and look() == before, f"{what}, growth {growth}: {answer!r}")
        return None
    unlimited = done(lambda: Channel(1, **SETTINGS, library=refusing), memory.tcrx_blocks, "a channel")
    unlimited.close()
    channel = done(lambda: Channel(1, **SETTINGS, limits={0: 64, 2: 3}, library=refusing), memory.tcrx_blocks, "a channel within limits")
    expect(refused >= 8, f"{refused} blocks were refused")
    print(f"channel in Python: {refused} blocks refused")
    expect(memory.tcrx_blocks() > 0, "a channel has blocks")
    del channel, unlimited
    gc.collect()
    same(memory.tcrx_blocks(), 0, "blocks of a channel that nothing refers to")
    with Channel(1, **SETTINGS, library=refusing):
        expect(memory.tcrx_blocks() > 0, "a channel in a with has blocks")
    same(memory.tcrx_blocks(), 0, "blocks of a channel that was closed")


# --- Declarations ---

def name_in_c(kind: Type[ctypes.Structure]) -> str:
    """Returns a record's name in the header. That of _FarmAnswer is tcrx_farm_answer."""
    return "tcrx_" + "_".join(word.lower() for word in re.findall(r"[A-Z][a-z]*", kind.__name__))


def check_places(module: ModuleType, header: str, least: int) -> None:
    """Compares the size of each record that a module declares, and the place and size of each field, with those in a C program that includes
    the header."""
    kinds = [kind for kind in vars(module).values() if isinstance(kind, type) and issubclass(kind, ctypes.Structure)
             and kind is not ctypes.Structure]
    expect(len(kinds) >= least, f"{len(kinds)} records")
    lines = [f'#include "{header}"', "#include <stdio.h>", "int main(void) {"]
    wanted: List[str] = []
    for kind in kinds:
        name = name_in_c(kind)
        lines.append(f'printf("{name} %zu\\n", sizeof({name}));')
        wanted.append(f"{name} {ctypes.sizeof(kind)}")
        for field in (str(each[0]) for each in kind._fields_):  # pylint: disable=protected-access
            lines.append(f'printf("{name} {field} %zu %zu\\n", offsetof({name}, {field}), sizeof((({name} *)0)->{field}));')
            wanted.append(f"{name} {field} {getattr(kind, field).offset} {getattr(kind, field).size}")
    with tempfile.TemporaryDirectory() as folder:
        (Path(folder) / "said.c").write_text("\n".join([*lines, "return 0; }\n"]))
        subprocess.run([os.environ.get("CC", "cc"), f"-I{HEADER.parent}", "said.c", "-o", "said"], cwd=folder, check=True)
        said = subprocess.run([Path(folder) / "said"], capture_output=True, text=True, check=True).stdout
    same(said.split("\n")[:-1], wanted, "sizes and places")


def check_found(library: str) -> None:
    """Checks which library is found if no variable names its folder. It is the one beside the client, or else that in the folder `dist` of a
    clone, or else the one that the loader finds by its name."""
    os.environ.pop("TCRX_LIB_DIR", None)
    found = "import tcrx.channel as at; print(at.find_library(), at.file_of(at.load(None)))"
    with tempfile.TemporaryDirectory() as folder:
        top = Path(folder).resolve()
        package, at_root, by_loader = (top / place for place in ("clients/python/tcrx", "dist", "lib"))
        shutil.copytree(TOP / "clients/python/tcrx", package, ignore=shutil.ignore_patterns("__pycache__", "lib*"))
        for place in (by_loader, at_root, package):
            place.mkdir(exist_ok=True)
            made = place / "libtcrx.so.0"
            shutil.copy(library, made)
            ran = run(sys.executable, "-c", found, names={"PYTHONPATH": str(package.parent), "LD_LIBRARY_PATH": str(by_loader)})
            same((ran.stdout, ran.stderr), (f"{made.name if place == by_loader else made} {made}\n", ""), f"the library in {place}")


def main() -> int:
    """Runs each part over the libraries that the command line names."""
    library, refusing = sys.argv[1], sys.argv[2]
    check_found(library)
    os.environ["TCRX_LIB_DIR"] = str(Path(library).parent)
    same(tcrx_channel.find_library(), library, "the library that is found")
    same((tcrx.Channel, tcrx.Rack, hasattr(tcrx, "Channel")), (Channel, Rack, True), "the channel and the rack of tcrx")
    check_places(tcrx_channel, "tcrx.h", 10)
    check_values()
    check_replies()
    check_racks()
    check_chain()
    check_candidates()
    check_searches()
    check_fields()
    check_made()
    check_ends_of_the_link()
    check_refused()
    check_ends()
    check_threads()
    check_turns()
    check_fork()
    check_growths(refusing)
    return close(f"channel in Python {sys.version_info.major}.{sys.version_info.minor}")


if __name__ == "__main__":
    sys.exit(main())
