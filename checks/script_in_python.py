"""Carries out the lines of a script by calls of the client in Python, and returns the results in the form in which `tclive` answers. The client
must have a call for each line. The line may be bad."""
from __future__ import annotations

from typing import Any, Callable, Dict, List, Sequence, Tuple

from tcrx import BadLine, Brought, Clcw, Delivered, Final, Packet, Receiver, Refused, Report, Unit


def line_of(answer: Any) -> str:
    """Returns an answer of the client in the form of `tclive`. A delivery has several lines."""
    if isinstance(answer, (Refused, Clcw)):
        return f"refused {answer.reason.value}" if isinstance(answer, Refused) else f"clcw {answer.channel} {answer.word:08x}"
    if isinstance(answer, (Packet, Unit)):
        what, key = ("take", answer.apid) if isinstance(answer, Packet) else ("unit", answer.map)
        return f"{what} {answer.channel} {key} {answer.octets.hex() or '-'}"
    if isinstance(answer, Report):
        flags = f"lockout {answer.lockout:d} wait {answer.wait:d} retransmit {answer.retransmit:d} farm-b {answer.farm_b}"
        words = [f"report {answer.channel} state {answer.state.value} vr {answer.vr} {flags} buffered {answer.buffered}"]
        return " ".join([*words, *(f"{what} {key} {count}" for what, key, count in counts_of(answer))])
    if isinstance(answer, Delivered):
        return "\n".join(map(line_of, [answer.released, *answer.taken, answer.clcw]))
    unit = f"queued {answer.delivery.queued} dropped {answer.delivery.dropped} rest {int(answer.delivery.rest)}"
    if isinstance(answer, Brought):
        return f"frame {answer.channel} {answer.event.value} accepted {int(answer.accepted)} {unit}"
    return f"release {answer.channel} {unit}"


def counts_of(answer: Any) -> List[Tuple[str, int, int]]:
    """Returns the kind, the number and the count of waiting items of each queue in a report."""
    return [(what, key, count) for what, counts in (("queue", answer.queues), ("map", answer.maps)) for key, count in counts.items()]


def final_of(vcid: int, final: Final) -> str:
    """Returns the lines of a channel in the final report."""
    lines = [f"final {vcid} {final.clcw.word:08x} events {final.events} buffered {final.buffered}"]
    return "".join(f"{line}\n" for line in [*lines, *(f"{what} {vcid} {key} {count}" for what, key, count in counts_of(final))])


def answer_by(receiver: Receiver, words: List[str]) -> str:
    """Carries out a line by the call that is for it. Returns the answer, which is empty for a line that sets something up."""
    numbers = [int(word) for word in words[1:] if words[0] != "frame" and word != "plain"]
    calls: Dict[str, Callable[..., Any]] = {
        "channel": lambda vcid, width, buffer, first: receiver.channel(vcid, width=width, buffer=buffer, first=first, plain=len(words) > 5),
        "frame": lambda: receiver.bring(bytes.fromhex(words[1])), "link": lambda vcid, no_rf, lock: receiver.link(vcid, bool(no_rf), bool(lock)),
        "queue": receiver.queue, "map": receiver.map, "release": receiver.release, "take": receiver.take, "unit": receiver.take_unit,
        "clcw": receiver.clcw, "report": receiver.report, "deliver": receiver.deliver}
    try:
        answer = calls[words[0]](*numbers)
    except BadLine as bad:
        return f"bad {bad.reason.removeprefix('bad ')}\n"
    if answer is None:
        return ""
    return " ".join(words) + "\n" if answer is True else f"{line_of(answer)}\n"


def answers_of(scid: int, lines: Sequence[str]) -> str:
    """Carries out lines, with one space between words, by a receiver. Returns the answers and the final report."""
    with Receiver(scid) as receiver:
        answers = [answer_by(receiver, line.split(" ")) for line in lines]
    return "".join([*answers, *(final_of(vcid, final) for vcid, final in receiver.final.items())])
