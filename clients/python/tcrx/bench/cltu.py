"""CLTUs, out of which frames are taken. What a decoder finds in CLTUs are candidates, out of which frames are taken, each as long as its length
field says. The receiver judges them.
"""
from __future__ import annotations

from argparse import Namespace
from collections import Counter
from typing import Callable, Dict, Iterator, List, Optional

from ..channel import Decoder, randomise
from ..lines import Session
from .octets import BROWSER, LONGEST_FRONT, begins_frame, begins_request
from .ports import Hub, Port, SendingConnection
from .scheduler import work_on

# Octets that are decoded at once, which take a small part of a turn.
PIECE = 512
# The counts that the state and the metrics have of CLTUs.
CLTU_COUNTS = ("cltus", "corrected_blocks", "rejected_blocks", "overlong_cltus", "overfull_cltus")


class CltuDecoding:
    """A part of the bench that finds frames in CLTUs, and hands them to the ports on which they came."""

    def __init__(self, options: Namespace, hub: Hub) -> None:
        self.mode, self.randomised, self.most, self.hub = options.cltu, options.randomised, options.cltu_frames, hub
        self.maker = Session.make()
        self.counts: Counter[str] = Counter()

    def new_decoder(self) -> Decoder:
        """Returns a decoder for octets with CLTUs that follow one another."""
        return Decoder(correct=self.mode == "correct")

    def pieces(self, decoder: Decoder, port: Port, source: str, octets: bytes) -> Iterator[None]:
        """Decodes a piece of the octets, or brings a frame, at each step."""
        for at in range(0, max(1, len(octets)), PIECE):
            for candidate in self._decode(decoder, port, source, octets[at:at + PIECE]):
                yield from self._bring(port, source, randomise(candidate) if self.randomised else candidate)
            yield

    def _decode(self, decoder: Decoder, port: Port, source: str, octets: bytes) -> List[bytes]:
        """Returns the candidates in a piece, and counts what was found there."""
        before = decoder.corrected, decoder.rejected, decoder.overlong
        found = decoder.feed(octets)
        corrected, rejected, overlong = (now - then for now, then in zip((decoder.corrected, decoder.rejected, decoder.overlong), before))
        counts = {"cltus": len(found), "corrected_blocks": corrected, "rejected_blocks": rejected, "overlong_cltus": overlong}
        for what, count in counts.items():
            if count:
                self.counts[what] += count
                port.count(what, count)
        if any(counts.values()):
            spacecraft = self.hub.spacecraft
            spacecraft.journal.write(f"# {spacecraft.now():.6f} cltu {source} found {len(found)} corrected {corrected} rejected {rejected} overlong {overlong}")
        if overlong:
            port.note(source, "a CLTU carried more than 1029 octets, and is left out")
        return found

    def _bring(self, port: Port, source: str, candidate: bytes) -> Iterator[None]:
        """Brings the frames of a candidate, one at each step. What begins with no frame is brought as well, so that the receiver says why; more
        frames than may be are counted and noted."""
        *frames, last = self.maker.answer(f"frames {self.most} {candidate.hex()}").split("\n")[:-1]
        word, _, behind = last.partition(" ")
        for frame in frames:
            port.bring(bytes.fromhex(frame[6:]), source)
            port.count("frames")
            yield
        if word == "more" and len(frames) < self.most:
            port.bring(bytes.fromhex(behind), source)
        elif word == "more":
            self._say_overfull(port, source, bytes.fromhex(behind))

    def _say_overfull(self, port: Port, source: str, left: bytes) -> None:
        """Counts and notes a CLTU with more frames than may be, or with noise behind them."""
        self.counts["overfull_cltus"] += 1
        port.count("overfull_cltus")
        spacecraft = self.hub.spacecraft
        hint = ": see --cltu-frames" if begins_frame(left, spacecraft.scid, spacecraft.fecf) else ""
        port.note(source, f"behind {self.most} frame{'s' * (self.most > 1)} of a CLTU {len(left)} octets are left out{hint}")
        spacecraft.journal.write(f"# {spacecraft.now():.6f} cltu {source} overfull frames {self.most} left {len(left)}")

    def state(self) -> Dict[str, object]:
        """Returns the state as values of JSON."""
        spacecraft = self.hub.spacecraft
        return {"mode": self.mode, "randomised": self.randomised, "most_frames": self.most,
                "refused_candidates": sum(spacecraft.refused.values()) - spacecraft.refused_of_lines, **{what: self.counts[what] for what in CLTU_COUNTS}}


class CltuConnection(SendingConnection):
    """CLTUs with whatever is between them."""

    def __init__(self, port: Port, decoding: CltuDecoding) -> None:
        super().__init__(port, port.hub.scheduler.frames)
        self.decoding, self.decoder = decoding, decoding.new_decoder()
        self.pieces: Iterator[None] = iter(())
        """The pieces of what was read last that aren't decoded yet."""
        self.front: Optional[bytes] = b""
        """The first octets of the stream, which are kept until it is clear that no browser sends them."""

    def data_received(self, data: bytes) -> None:
        """Asks for a turn to decode what came. No CLTU that a page has sent is looked for."""
        if self.done:
            return
        if self.front is not None:
            data = self.front + data
            is_request = begins_request(data[:LONGEST_FRONT])
            self.front = data
            if is_request:
                self.port.count("turned_away")
                self.turn_away(BROWSER)
            if is_request is not False:
                return
            self.front = None
        self.pieces = self.decoding.pieces(self.decoder, self.port, self.source, data)
        self.request_turn()
        self.update_reading()

    def take_turn(self, has_time: Callable[[], bool]) -> None:
        self.wants_turn = work_on(self.pieces, has_time)
        self.update_reading()
