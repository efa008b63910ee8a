"""What tcrx-bench reports of the senders that its option --sender watches. It reports each frame that breaks the window, the order or the data
of a sender, and nothing of a sender that keeps them: in its state, to Prometheus, in its last line, and by --replay."""
from __future__ import annotations

import re
import sys
from pathlib import Path
from typing import Any, Callable, List, Tuple
from unittest.mock import Mock

import pytest
from bench_parts import PROGRAM, SETUP, Bench, numbered, replay
from client_parts import ONE, UNLOCK, frame, whole
from comparing import PATIENCE, run, until
from hypothesis import given, settings, strategies as st
from tcrx.bench.watch import Watches

pytest_plugins = "bench_fixtures"  # pylint: disable=invalid-name  # pytest reads this name
pytestmark = pytest.mark.usefixtures("library")
Benches = Callable[..., Bench]
# The setup of a channel whose window is wider than that of the sender.
WIDE = "channel 1 200 8 0\nqueue 1 5 16\n"
# A Set V(R) to 0.
SET_TO_0 = frame(0, b"\x82\x00\x00", bypass=1, command=1)
# The words of the last line in front of the promise.
LAST = "sender of channel 1, window 10: "


def numbered_frame(number: int, data: int = -1) -> bytes:
    """Returns a frame with this number. Its packet has the same number, or `data`."""
    return frame(number % 256, whole(0, numbered(5, number if data < 0 else data)))


def watching(bench: Benches, *words: str, setup: str = SETUP) -> Bench:
    """Starts a bench that watches a sender with a window of 10."""
    return bench("--http", "0", "--period", "0", "--tc-tcp", "0", "--lines", "0", "--sender", "1", "10", *words, setup=setup)


def sender_of(watched: Bench) -> Any:
    """Returns what the state has of the sender."""
    return watched.state()["senders"][0]


def judged(watched: Bench, frames: List[bytes], count: int) -> Any:
    """Sends frames. Returns what the state has of the sender once `count` of its frames are judged."""
    with watched.connect("tc-tcp") as sender:
        sender.sendall(b"".join(frames))
        until(lambda: sender_of(watched)["frames"] == count)
    return sender_of(watched)


def last_line(watched: Bench) -> str:
    """Ends a bench. Returns its last line without the words in front. --replay must print the same line, but for the time."""
    status, printed, _ = watched.end()
    assert status == 0
    last, replayed = printed.splitlines()[-1], replay(watched, "--sender", "1", "10").stdout.splitlines()[-1]
    assert re.sub(r"\d+\.\d{6}", "T", replayed) == re.sub(r"\d+\.\d{6}", "T", last)
    assert last.startswith(LAST)
    return last[len(LAST):]


# --- Breaches of the window and the order, worked out by hand ---

@pytest.mark.parametrize("sent, wrong", [
    # 0 is lost, so no CLCW reports more than 0, and up to 9 may be sent.
    pytest.param([*range(1, 256)], [*range(10, 256)], id="a window of 256"),
    # When the sender sends 29, it has read that those below 20 are accepted.
    pytest.param([*range(30), 19, 20, 5], [19, 5], id="what is acknowledged is sent again"),
    pytest.param([*range(19, -1, -1)], [*range(19, 9, -1)], id="another order"),
    pytest.param([*range(1, 10), 0, 0, *range(1, 11), 10, *range(2, 12)], [], id="a sender that keeps the window")])
def test_each_breach_is_reported(bench: Benches, sent: List[int], wrong: List[int]) -> None:
    """The state, the figures for Prometheus, the notes, the last line and --replay have each breach."""
    watched = watching(bench, setup=WIDE)
    state = judged(watched, [numbered_frame(number) for number in sent], len(sent))
    assert (state["frames"], state["breaches"], state["in_order"]) == (len(sent), len(wrong), not wrong)
    assert (state["broken_by"] or {}).get("number") == (wrong[0] if wrong else None)
    figures = re.findall(r'^tcrx_sender_(.*)\{channel="1",window="10"\} (\d+)$', watched.get("/metrics")[1], re.M)
    assert set(figures) >= {("frames_total", f"{len(sent)}"), ("breaches_total", f"{len(wrong)}"), ("in_order", f"{int(not wrong)}")}
    texts = [f"channel 1: frame {number} breaks the window of 10 or the order" for number in wrong]
    assert [note["text"] for note in watched.state()["notes"] if note["source"] == "sender"] == texts[-20:]
    last = watched.end()[1].splitlines()[-1]
    promise = rf"no promise since frame {wrong[0]} at \d+\.\d{{6}} s" if wrong else "every packet once and in order"
    assert re.fullmatch(f"{LAST}{len(sent)} frames, {len(wrong)} breaches; {promise}", last)
    printed = replay(watched, "--sender", "1", "10").stdout.splitlines()
    assert [line.partition(" s: ")[2] for line in printed[:-2]] == texts
    assert printed[-1].partition(" at ")[0] == last.partition(" at ")[0]


def test_numbers_begin_with_the_first_vr(bench: Benches) -> None:
    """The sender of a channel whose first V(R) is 200 begins with 200."""
    watched = watching(bench, setup="channel 1 200 8 200\nqueue 1 5 16\n")
    state = judged(watched, [numbered_frame(number) for number in (*range(200, 266), 199)], 67)
    assert (state["breaches"], state["broken_by"]["number"]) == (1, 199)
    assert last_line(watched).startswith("67 frames, 1 breaches; no promise since frame 199 at ")


def test_frames_of_other_types_are_not_judged(bench: Benches) -> None:
    """Frames of Types BC, AC and BD are no breach, and Unlock doesn't renew the promise."""
    others = [UNLOCK, frame(100, b"\x00", command=1), frame(77, whole(0, ONE), bypass=1)]
    watched = watching(bench, setup=WIDE)
    state = judged(watched, [numbered_frame(0), *others, numbered_frame(1)], 2)
    assert (state["frames"], state["breaches"]) == (2, 0)
    since = state["since"]
    state = judged(watched, [numbered_frame(30), *others, numbered_frame(2)], 4)
    assert (state["breaches"], state["in_order"], state["since"]) == (1, False, since)
    assert '\ntcrx_sender_in_order{channel="1",window="10"} 0\n' in watched.get("/metrics")[1]
    last_line(watched)


# --- What renews the promise ---

@pytest.mark.parametrize("width, renewed", [pytest.param(200, True, id="open"), pytest.param(10, False, id="in lockout")])
def test_set_vr_renews_the_promise(bench: Benches, width: int, renewed: bool) -> None:
    """Numbers begin anew where V(R) is set, and so does the promise. With a width of 10, frame 12 leads to lockout, in which V(R) isn't set."""
    watched = watching(bench, setup=f"channel 1 {width} 8 0\nqueue 1 5 16\n")
    state = judged(watched, [*map(numbered_frame, (0, 1, 12)), SET_TO_0, *map(numbered_frame, range(3))], 6)
    assert (state["breaches"], state["in_order"]) == (1, renewed)
    found = re.fullmatch(r"6 frames, 1 breaches; every packet once and in order since V\(R\) was set at (\d+\.\d{6}) s", last_line(watched))
    assert (found and float(found[1])) == (state["since"] if renewed else None)
    assert not renewed or state["since"] > 0


def test_a_receiver_begun_anew_renews_the_promise(bench: Benches) -> None:
    """The new receiver's sender is watched from its first number on, and a breach of it is reported."""
    watched = watching(bench)
    state = judged(watched, [numbered_frame(12)], 1)
    assert (state["breaches"], state["in_order"]) == (1, False)
    assert watched.ask("anew\n") == ["anew 2"]
    state = sender_of(watched)
    assert (state["breaches"], state["in_order"]) == (1, True)
    assert judged(watched, [numbered_frame(number) for number in (0, 1, 13)], 4)["breaches"] == 2
    status, printed, _ = watched.end()
    assert status == 0
    assert re.fullmatch(rf"{LAST}4 frames, 2 breaches; no promise since frame 13 at \d+\.\d{{6}} s", printed.splitlines()[-1])


# --- Frames that come back ---

def test_other_data_end_the_promise(bench: Benches) -> None:
    """A frame may come back as it was accepted, also if its number was used before. It may not come back with other data."""
    watched = watching(bench)
    state = judged(watched, [numbered_frame(number) for number in range(300) for _ in (0, 1)], 600)
    assert (state["changed"], state["in_order"]) == (0, True)
    state = judged(watched, [numbered_frame(299, data=7)], 601)
    assert (state["changed"], state["breaches"], state["in_order"], state["broken_by"]["number"]) == (1, 0, False, 43)
    assert watched.state()["notes"][-1]["text"] == "channel 1: frame 43 came back with other data than was accepted"
    assert '\ntcrx_sender_changed_total{channel="1",window="10"} 1\n' in watched.get("/metrics")[1]
    assert re.fullmatch(r"601 frames, 0 breaches; no promise since frame 43 at \d+\.\d{6} s, which came back with other data", last_line(watched))


def test_other_data_may_come_after_a_set_vr(bench: Benches) -> None:
    """The frame with other data is ahead of V(R), and isn't accepted."""
    state = judged(watching(bench), [*map(numbered_frame, range(3)), SET_TO_0, numbered_frame(2, data=9)], 4)
    assert (state["changed"], state["in_order"]) == (0, True)


def test_the_data_of_128_numbers_are_kept() -> None:
    """V(R) is 44, so these are 172 to 255 and 0 to 43."""
    watch = Watches([(1, 127)]).all[1]
    for number in range(300):
        watch.has_other_data(number % 256, str(number), True)
    assert [number for number in range(256) if watch.has_other_data(number, "x", False)] == [*range(44), *range(172, 256)]


# --- What is kept and asked for a judgement ---

def test_what_is_known_is_not_asked_again() -> None:
    """One of 65 CLCWs with the same report is kept. The judge is asked once about nine frames with one number."""
    watches = Watches([(1, 10)])
    judge = watches.all[1].judge = Mock(wraps=watches.all[1].judge)
    watches.begin(1, 0)
    for _ in range(65):
        watches.see("clcw 1", ["clcw 1 01040000"])
    assert watches.all[1].numbers == [0]
    for _ in range(9):
        watches.see("frame 002a040732c00000", ["frame 1 E5 accepted 0 queued 0 dropped 0 rest 0"])
    assert [call.args[0] for call in judge.answer.call_args_list] == ["frame 300004050000", "frame 3000040700820000", "frame 000004053200"]
    assert watches.state()[0]["breaches"] == 9


def is_breach_seen(window: int, extra: int, begin: int, steps: List[Tuple[str, int]], watches: Watches) -> bool:
    """Plays a session of a sender whose window is wider by `extra` than the one that is watched. The links lose, repeat and delay, but keep the
    order. The receiver has a wide window and room. Returns whether a frame came that the sender of the narrower window couldn't have sent,
    whatever it had read."""
    known = accepted = low = 0
    sent: List[int] = []
    reported: List[int] = []
    made, is_seen = [0], False
    watches.begin(1, begin)
    for step, drawn in steps:
        if step == "send":
            sent.append(known + drawn % (window + extra))
        elif step == "arrive" and sent:
            index = sent[0] if drawn % 5 == 0 else sent.pop(0)
            may = [count for count in made if low <= count and (index - count) % 256 < window]
            is_seen |= not may
            low = min(may, default=low)
            accepted += index == accepted
            watches.see(f"frame 002a0400{(begin + index) % 256:02x}", ["frame 1 E1 accepted 1"])
            made.append(accepted)
            watches.see("clcw 1", [f"clcw 1 {0x01040000 | (begin + accepted) % 256:08x}"])
            reported.append(accepted)
        elif step == "read" and reported:
            known = reported[0] if drawn % 5 == 0 else reported.pop(0)
        elif step == "lose" and sent and reported:
            (sent if drawn % 2 else reported).pop(0)
    return is_seen


@pytest.mark.parametrize("extra", [0, 1])
def test_a_breach_is_reported_if_and_only_if_it_can_be_seen(extra: int) -> None:
    """No sender that keeps its window is reported, and one with a wider window is reported as soon as a frame shows it."""
    seen: List[bool] = []
    steps = st.lists(st.tuples(st.sampled_from(["send"] * 3 + ["arrive", "read", "lose"]), st.integers(0, 65535)), min_size=300, max_size=300)

    # On a busy machine a draw may be slow.
    @settings(max_examples=40)
    @given(st.sampled_from([1, 2, 10, 100, 126, 127]), st.integers(0, 255), steps)
    def play(window: int, begin: int, drawn: List[Tuple[str, int]]) -> None:
        watches = Watches([(1, window)])
        seen.append(is_breach_seen(window, extra, begin, drawn, watches))
        assert (watches.state()[0]["breaches"] != 0) == seen[-1]
    play()  # pylint: disable=no-value-for-parameter  # hypothesis draws the values
    assert len(seen) >= 40 and any(seen) == (extra > 0)


# --- Command lines ---

@pytest.mark.parametrize("words, why", [
    (["64", "10"], "64 isn't a channel"), (["1", "0"], "1 to 127 frames"), (["1", "128"], "'128' isn't a number"),
    (["1", "9", "--sender", "1", "9"], "one sender")])
def test_a_sender_that_cannot_be_watched(words: List[str], why: str) -> None:
    """The command line is rejected with the reason."""
    ran = run(sys.executable, PROGRAM, "--scid", "1", "--http", "0", "--sender", *words)
    assert ran.returncode == 2 and why in ran.stderr


def test_a_channel_that_the_setup_lacks(tmp_path: Path) -> None:
    """The bench doesn't start."""
    setup = tmp_path / "setup"
    setup.write_text(SETUP)
    words = [sys.executable, PROGRAM, "--scid", "42", "--http", "0", "--sender", "2", "10", "--setup", setup]
    ran = run(*words, timeout=PATIENCE)
    assert (ran.returncode, ran.stdout, ran.stderr) == (2, "", "tcrx-bench: --sender: channel 2 isn't set up\n")


def test_a_channel_that_no_line_sets_up(bench: Benches) -> None:
    """The bench exits with status 1, and so does --replay."""
    watched = bench("--lines", "0", "--sender", "1", "10", setup="")
    watched.ask("channel 2 10 8 0\n")
    status, printed, _ = watched.end()
    assert (status, printed.splitlines()[-1]) == (1, LAST + "no such channel was set up")
    ran = replay(watched, "--sender", "1", "10")
    assert ran.returncode == 1 and "--sender: channel 1 isn't set up in" in ran.stderr


@pytest.mark.parametrize("words, is_warned", [((), True), (("--fecf",), False)])
def test_without_fecf_it_warns_of_flipped_bits(bench: Benches, words: Tuple[str, ...], is_warned: bool) -> None:
    """Without the frame error control field flipped bits look like breaches."""
    error = watching(bench, *words).end()[2]
    assert ("flipped" in error) == is_warned
