"""Defines a third receiver, which only checks/vectors uses. Its form is another than that of the library and of model.py: FARM-1 has no table, and no
state beside its flags. Numbers are compared by signed distances, headers are whole numbers, and CLTUs are decoded octet by octet. checks/vectors
plants faults in the text of this file, so each text that it replaces is here only once."""
from __future__ import annotations

from typing import Any, Dict, Iterator, List, Optional, Tuple

Step = Dict[str, Any]


class Refused(Exception):
    """The refusal of octets or of an operation. Its argument is the reason."""


def shifted(octets: bytes, register: int, taps: int, width: int) -> int:
    """Returns the value of a shift register after `octets`. Each time a 1 leaves it, `taps` are added to it."""
    for place in range(8 * len(octets) - 1, -1, -1):
        out = register >> width - 1 ^ int.from_bytes(octets, "big") >> place & 1
        register = register << 1 & (1 << width) - 1 ^ (taps if out & 1 else 0)
    return register


class Farm:
    """FARM-1, by its flags and numbers alone."""

    def __init__(self, settings: Step) -> None:
        self.half, self.vr = settings["width"] // 2, settings["firstVr"]
        self.lockout = self.wait = self.retransmit = self.counter = 0

    @property
    def state(self) -> str:
        """Returns the name of the state."""
        return "S3" if self.lockout else "S2" if self.wait else "S1"

    def numbered(self, number: int, room: bool) -> Tuple[str, bool]:
        """Takes the number of a Type-AD frame. Returns the event, and whether the frame is accepted."""
        distance = (number - self.vr + 128) % 256 - 128
        open_, accepted = self.state == "S1", False
        if distance == 0 and room:
            event, accepted = "E1", open_
            if accepted:
                self.vr = (self.vr + 1) % 256
                self.retransmit = 0
        elif distance == 0:
            event = "E2"
            if open_:
                self.wait = self.retransmit = 1
        elif 0 < distance < self.half:
            event = "E3"
            if open_:
                self.retransmit = 1
        elif -self.half <= distance < 0:
            event = "E4"
        else:
            event, self.lockout = "E5", 1
        return event, accepted

    def command(self, field: bytes) -> str:
        """Takes the data field of a Type-BC frame, and returns the event."""
        if field == b"\x00":
            self.lockout = self.wait = 0
            self.retransmit = 0
        elif len(field) == 3 and field.startswith(b"\x82\x00"):
            if not self.lockout:
                self.vr, self.wait, self.retransmit = field[2], 0, 0
        else:
            return "E9"
        self.counter = (self.counter + 1) % 4
        return "E7" if len(field) == 1 else "E8"

    def word(self, vcid: int, link: int) -> str:
        """Returns the CLCW."""
        flags = link << 3 | self.lockout << 2 | self.wait << 1 | self.retransmit
        return f"{0x01000000 + vcid * 2**18 + flags * 2**11 + self.counter * 2**9 + self.vr:08x}"


class Decoder:
    """A decoder that finds CLTUs in a stream, octet by octet."""

    def __init__(self, corrects: bool) -> None:
        self.corrects, self.before, self.block, self.carried = corrects, b"", b"", bytearray()
        self.counts = {"corrected": 0, "rejected": 0, "overlong": 0}
        self.busy = False

    def take(self, octet: int) -> Optional[bytes]:
        """Takes an octet of the stream, and returns the candidate that ends with it, if there is one."""
        if not self.busy:
            self.before = self.before[-1:] + bytes([octet])
            wrong = bin(int.from_bytes(self.before, "big") ^ 0xEB90).count("1")
            self.busy = len(self.before) == 2 and wrong <= self.corrects
            return None
        self.block += bytes([octet])
        if len(self.block) < 8:
            return None
        block, self.block = self.block, b""
        information = self.decoded(block)
        if information is not None and len(self.carried) < 1029:
            self.carried += information
            return None
        carried = bytes(self.carried)
        self.busy, self.before, self.carried = False, b"", bytearray()
        if information is not None:
            self.counts["overlong"] += 1
            return None
        self.counts["rejected"] += block != bytes.fromhex("c5c5c5c5c5c5c579")
        return carried or None

    def decoded(self, block: bytes) -> Optional[bytes]:
        """Returns the octets that a code block carries, or None if it is rejected. To correct a wrong bit, tries to invert each bit."""
        word = int.from_bytes(block, "big")
        for turned in [0, *(1 << bit for bit in range(1, 64) if self.corrects)]:
            octets = (word ^ turned).to_bytes(8, "big")
            if shifted(octets[:7], 0, 0x45, 7) ^ 0x7F == octets[7] >> 1:
                self.counts["corrected"] += turned > 0 and len(self.carried) < 1029
                return octets[:7]
        return None


def plain(octets: bytes, fecf: bool) -> bytes:
    """Returns the frame at the front of octets, without its frame error control field. The length field stays as it is."""
    faults = {"short": len(octets) < 5}
    if len(octets) > 4:
        header = int.from_bytes(octets[:5], "big")
        length = (header >> 8 & 0x3FF) + 1
        faults = {"version": header >> 38 > 0, "spare": header >> 34 & 3 > 0, "length": length < 6, "truncated": length > len(octets)}
    found = [fault for fault, holds in faults.items() if holds]
    if fecf and (found or length < 8 or length < len(octets) or shifted(octets, 0xFFFF, 0x1021, 16)):
        raise Refused("check")
    if found:
        raise Refused(found[0])
    return octets[:length - 2 * fecf]


def frame_length(octets: bytes) -> int:
    """Returns the length of the frame with which these octets begin, or 0 if they begin with none."""
    try:
        return len(plain(octets, False))
    except Refused:
        return 0


def cut(unit: bytes) -> Iterator[bytes]:
    """Yields the packets at the front of a unit, and then the octets that are left over."""
    while len(unit) >= 7 and unit[0] < 0x20 and len(unit) >= 7 + int.from_bytes(unit[4:6], "big"):
        size = 7 + int.from_bytes(unit[4:6], "big")
        yield unit[:size]
        unit = unit[size:]
    yield unit


def random_octets(count: int) -> bytes:
    """Returns the first octets of the random sequence, by a register of eight bits."""
    register, octets = 0xFF, bytearray()
    for _ in range(count):
        octet = 0
        for _ in range(8):
            octet = octet << 1 | register >> 7
            register = register << 1 & 0xFF | (bin(register & 0b11111010).count("1") & 1)
        octets.append(octet)
    return bytes(octets)


class Receiver:
    """A receiver with a vector's settings, which carries out steps."""

    def __init__(self, settings: Step) -> None:
        self.settings, self.farm, self.link = settings, Farm(settings), 0
        self.buffer: List[bytes] = []
        self.runs: Dict[Tuple[str, int], List[bytes]] = {}
        self.waiting: Dict[str, Dict[str, List[str]]] = {kind: {key: [] for key in settings[its]} for kind, its in (("packets", "queues"), ("units", "maps"))}
        self.decoder = Decoder(settings.get("cltu") == "correct")

    def step(self, step: Step) -> Step:
        """Carries out a step, and returns its outcome."""
        octets = bytes.fromhex(step.get("octets", ""))
        try:
            outcome: Step = getattr(self, f"do_{step['do']}")(octets, step)
        except Refused as why:
            outcome = {"refused": str(why)}
        if step["do"] in ("clcw", "telemetry"):
            return outcome
        if self.settings["drain"]:
            outcome.update({kind: {key: items for key, items in queues.items() if items} for kind, queues in self.waiting.items()})
            self.waiting = {kind: {key: [] for key in queues} for kind, queues in self.waiting.items()}
        elif step["do"] == "take":
            outcome = {"packets": {}, "units": {}, **outcome}
        return {**outcome, "clcw": self.farm.word(self.settings["vcid"], self.link)}

    def do_frame(self, octets: bytes, _: Step) -> Step:
        """Takes a frame."""
        whole = plain(octets, self.settings["fecf"])
        header, field = int.from_bytes(whole[:5], "big"), whole[5:]
        if header >> 24 & 0x3FF != self.settings["scid"]:
            raise Refused("spacecraft")
        if header >> 18 & 0x3F != self.settings["vcid"]:
            raise Refused("channel")
        state, kind, delivered = self.farm.state, header >> 36 & 3, {}
        if kind == 0:
            event, accepted = self.farm.numbered(header & 0xFF, len(self.buffer) < self.settings["buffer"])
            self.buffer += [field] if accepted else []
        elif kind == 2:
            event, accepted, self.farm.counter = "E6", True, (self.farm.counter + 1) % 4
            delivered = self.reassemble("BD", field)
        else:
            event, accepted = self.farm.command(field) if kind == 3 else "E9", False
        return {"event": event, "state": state, "accepted": accepted, **delivered}

    def do_release(self, _: bytes, __: Step) -> Step:
        """Releases the oldest data field from the buffer."""
        if not self.buffer:
            raise Refused("empty")
        state, self.farm.wait = self.farm.state, 0
        return {"event": "E10", "state": state, **self.reassemble("AD", self.buffer.pop(0))}

    def do_link(self, _: bytes, step: Step) -> Step:
        """Sets the flags of the link."""
        self.link = step["noRf"] << 1 | step["noBitLock"]
        return {}

    def do_take(self, _: bytes, step: Step) -> Step:
        """Takes the oldest packet or unit out of a queue."""
        kind, key = ("units", str(step["map"])) if "map" in step else ("packets", str(step["apid"]))
        if key not in self.waiting[kind]:
            raise Refused("no map" if kind == "units" else "no queue")
        if not self.waiting[kind][key]:
            raise Refused("empty")
        return {kind: {key: [self.waiting[kind][key].pop(0)]}}

    def reassemble(self, service: str, field: bytes) -> Step:
        """Takes a data field into reassembly, and delivers the unit that it completes, if any."""
        if not self.settings["segmentHeaders"]:
            return self.deliver("", field)
        place, (flags, map_id) = (service, field[0] & 63), divmod(field[0], 64)
        run = [] if flags & 1 else self.runs.get(place)
        self.runs.pop(place, None)
        if run is None or sum(map(len, run)) + len(field) - 1 > 65_542:
            return {}
        run.append(field[1:])
        if flags & 2:
            return self.deliver(str(map_id), b"".join(run))
        self.runs[place] = run
        return {}

    def deliver(self, key: str, unit: bytes) -> Step:
        """Puts a unit into its queue, or cuts it into packets. Returns how many were queued and dropped, and whether octets are left over."""
        if key in self.settings["maps"]:
            has_room = self.keep("units", key, unit, self.settings["maps"][key])
            return {"queued": int(has_room), "dropped": int(not has_room), "rest": 0}
        *found, rest = cut(unit)
        kept = 0
        for packet in found:
            apid = str(int.from_bytes(packet[:2], "big") & 0x7FF)
            kept += bool(packet[0] & 0x10) and apid in self.waiting["packets"] and self.keep("packets", apid, packet, self.settings["queues"][apid])
        return {"queued": kept, "dropped": len(found) - kept, "rest": int(bool(rest))} if found or rest else {}

    def keep(self, kind: str, key: str, item: bytes, capacity: int) -> bool:
        """Puts an item into a queue, and returns whether there was room for it."""
        queue = self.waiting[kind][key]
        if len(queue) >= capacity:
            return False
        queue.append(item.hex())
        return True

    def do_stream(self, octets: bytes, _: Step) -> Step:
        """Decodes octets of a stream of CLTUs, and takes the frames that they carry."""
        self.decoder.counts = {name: 0 for name in self.decoder.counts}
        candidates = [candidate for octet in octets if (candidate := self.decoder.take(octet))]
        shown: Step = {"candidates": [candidate.hex() for candidate in candidates], **self.decoder.counts, "frames": [], "more": []}
        for candidate in candidates:
            if self.settings.get("randomiser"):
                candidate = bytes(one ^ other for one, other in zip(candidate, random_octets(len(candidate))))
            left = self.settings["framesPerCltu"]
            while left and (length := frame_length(candidate)):
                shown["frames"].append({"octets": candidate[:length].hex(), **self.framed(candidate[:length])})
                candidate, left = candidate[length:], left - 1
            shown["more"] += [candidate.hex()] if len(candidate) > 6 or frame_length(candidate) else []
        return shown

    def framed(self, octets: bytes) -> Step:
        """Takes a frame that a CLTU carried."""
        try:
            return self.do_frame(octets, {})
        except Refused as why:
            return {"refused": str(why)}

    @staticmethod
    def do_clcw(octets: bytes, _: Step) -> Step:
        """Reads a CLCW."""
        word = int.from_bytes(octets, "big")
        if word & 0xE3030100 != 0x01000000:
            raise Refused("clcw")
        places = {"vc": (18, 63), "status": (26, 7), "norf": (15, 1), "nobitlock": (14, 1), "lockout": (13, 1), "wait": (12, 1), "retransmit": (11, 1),
                  "farmb": (9, 3), "vr": (0, 255)}
        return {"fields": {name: word >> place & mask for name, (place, mask) in places.items()}}

    def do_telemetry(self, octets: bytes, _: Step) -> Step:
        """Reads a telemetry frame."""
        fecf = self.settings["fecf"]
        if len(octets) < 11 + 2 * fecf:
            raise Refused("short")
        header = int.from_bytes(octets[:6], "big")
        if header >> 46:
            raise Refused("version")
        if not header >> 32 & 1:
            raise Refused("control")
        if fecf and shifted(octets, 0xFFFF, 0x1021, 16):
            raise Refused("check")
        control = octets[-6:-2] if fecf else octets[-4:]
        return {"scid": header >> 36 & 0x3FF, "vc": header >> 33 & 7, "master": header >> 24 & 0xFF, "channel": header >> 16 & 0xFF,
                "pointer": header & 0x7FF, "report" if control[0] & 0x80 else "clcw": control.hex()}
