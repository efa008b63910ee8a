"""What the page of tcrx-bench shows in a real browser without a window (Chromium), while frames come. It is compared with the state that the bench
gives as JSON. The page must be usable by keys alone, fit narrow and wide windows, and have contrast in light and dark. Nothing may be obeyed that a
page of another site sends. `tests/run test_bench_page.py -k looks --basetemp=FOLDER` leaves pictures of the page below FOLDER,
which pytest empties first."""
from __future__ import annotations

import json
import re
import threading
import time
from contextlib import contextmanager
from http.server import BaseHTTPRequestHandler, ThreadingHTTPServer
from pathlib import Path
from typing import Any, Callable, Dict, Iterator, List, Tuple

import browser
import pytest
from bench_parts import Bench
from client_parts import ONE, UNLOCK, cltu, frame, packet, whole
from comparing import until

pytest_plugins = "bench_fixtures"  # pylint: disable=invalid-name  # pytest reads this name
pytestmark = pytest.mark.needs("chromium", "chromium", "fonts-dejavu-core")
Benches = Callable[..., Bench]
SETUP = "channel 1 10 8 0\nqueue 1 5 16\nqueue 1 7 4\nchannel 2 20 4 250 plain\nqueue 2 5 4\nchannel 6 100 4 3\nmap 6 3 8\n"
# All that a card shows of a channel, in the words of the state.
SHOWN = """
Array.from(document.querySelectorAll("#channels section")).map(card => ({
  channel: Number(card.id.slice(8)), clcw: card.querySelector(".clcw").textContent,
  lamps: Object.fromEntries(Array.from(card.querySelectorAll("[data-flag]")).map(lamp => [lamp.dataset.flag, lamp.textContent])),
  facts: Object.fromEntries(Array.from(card.querySelectorAll("[data-fact]")).map(fact => [fact.dataset.fact, fact.textContent])),
  bars: Object.fromEntries(Array.from(card.querySelectorAll("[data-bar]")).map(bar => [bar.dataset.bar,
    [bar.querySelector("output").textContent, bar.querySelector("meter").value, bar.querySelector("meter").max]])),
  events: Object.fromEntries(Array.from(card.querySelectorAll("[data-event]")).map(cell => [cell.dataset.event, Number(cell.textContent)])),
  ahead: card.querySelectorAll(".tick.ahead").length, behind: card.querySelectorAll(".tick.behind").length,
  numbers: Array.from(card.querySelectorAll(".tick")).flatMap((tick, number) => tick.classList.contains("ahead") ? [number] : []),
  big: card.querySelector(".big").textContent, heard: card.querySelector("svg").getAttribute("aria-label")}))
"""
ROWS = "Array.from(document.querySelectorAll('#list [role=option]')).map(row => row.id)"
COUNT_OF_ROWS = "document.querySelector('#list').childElementCount"


# --- A bench and its page ---

@pytest.fixture(scope="module", name="chromium")
def start_browser() -> Iterator[browser.Browser]:
    """Returns a browser, which the tests of this file share."""
    command = browser.find()
    assert command
    with browser.Browser(command) as chromium:
        yield chromium


@pytest.fixture(name="running")
def start_running(bench: Benches) -> Bench:
    """Returns a bench with three channels that watches two senders."""
    return bench("--tc-tcp", "0", "--lines", "0", "--http", "0", "--release", "manual", "--sender", "1", "5", "--sender", "2", "10", setup=SETUP)


@contextmanager
def page_of(chromium: browser.Browser, running: Bench) -> Iterator[browser.Browser]:
    """Opens the page of a bench. In the end the browser may complain of nothing but the end of the bench."""
    chromium.complaints.clear()
    chromium.look(1400, 1250)
    chromium.open(f"http://127.0.0.1:{running.ports['http']}/")
    yield chromium
    # This page leads to no complaint when the bench ends.
    chromium.ask("Page.navigate", url="about:blank")
    assert [each for each in chromium.complaints if not re.search("ERR_CONNECTION_REFUSED|ERR_INCOMPLETE_CHUNKED", each)] == []


@pytest.fixture(name="page")
def open_page(chromium: browser.Browser, running: Bench) -> Iterator[browser.Browser]:
    """Returns the page of the bench once it shows the frames and lines that have come since it was opened."""
    with page_of(chromium, running) as page:
        assert page.wait("document.getElementById('up').textContent === 'running'")
        send_some(running)
        assert page.wait(f"events.length && events[events.length - 1].id === {running.state()['count_of_events']}")
        yield page


def send_some(running: Bench) -> None:
    """Sends 23 frames and three lines, which lead to each event, to flags, and to something in buffer and queues."""
    with running.connect("tc-tcp") as link:
        link.sendall(b"".join(frame(number, whole(0, packet(5, number))) for number in range(12)))
        link.sendall(frame(250, ONE, channel=2) + frame(251, ONE, channel=2) + frame(254, ONE, channel=2) + frame(100, ONE, channel=2))
        link.sendall(frame(0, whole(3, b"hello"), channel=6, bypass=1) * 3 + frame(0, b"\x00", channel=6, bypass=1, command=1))
        link.sendall(frame(0, b"\x82\x00\x63", channel=6, bypass=1, command=1) + frame(0, b"\x01", channel=6, command=1))
        link.sendall(frame(3, whole(3, b"a"), channel=9))
        assert until(lambda: (running.state()["frames"], [sender["frames"] for sender in running.state()["senders"]]) == (23, [12, 4]))
    running.ask("release 1\nrelease 1\nlink 6 1 1\n")


def send_more(running: Bench, *frames: bytes) -> None:
    """Sends frames, and waits until they are answered."""
    before = running.state()["frames"]
    with running.connect("tc-tcp") as link:
        link.sendall(b"".join(frames))
        assert until(lambda: running.state()["frames"] == before + len(frames))


def text_of(page: browser.Browser, place: str) -> Any:
    """Returns the text of an element."""
    return page.value(f"document.getElementById('{place}').textContent")


# --- The state ---

def wanted_of(channel: Any, senders: Any) -> Dict[str, object]:
    """Returns what a card must show of a channel of the state, and of its sender if that is watched."""
    names = {"lockout": "Lockout", "wait": "Wait", "retransmit": "Retransmit", "no_rf": "No RF", "no_bit_lock": "No bit lock"}
    bars = {"buffer": channel["buffer"], **{f"apid-{each['apid']}": each for each in channel["queues"]},
            **{f"map-{each['map']}": each for each in channel["maps"]}}
    last, half = channel["last"], channel["width"] // 2
    shown = [f"{each['frames']} frames, {each['breaches']} breaches: "
             + ("every packet once and in order" if each["in_order"] else f"no promise since frame {each['broken_by']['number']}")
             for each in senders if each["channel"] == channel["channel"]]
    heard = f"Window of channel {channel['channel']}: {channel['vr']} is expected, {half - 1} numbers ahead of it and {half} behind it"
    return {"channel": channel["channel"], "clcw": channel["clcw"],
            "lamps": {flag: f"{name}: {'on' if channel[flag] else 'off'}" for flag, name in names.items()},
            "facts": {"state": channel["state"], "vr": str(channel["vr"]), "last": f"{last['number']} ({last['event']})" if last else "none",
                      "farm_b": str(channel["farm_b"]), "width": str(channel["width"]), "sender": "".join(shown)},
            "bars": {name: [f"{each['used']} of {each['capacity']}", each["used"], each["capacity"]] for name, each in bars.items()},
            "events": channel["events"],
            "ahead": half, "behind": half, "numbers": sorted((channel["vr"] + step) % 256 for step in range(half)), "big": str(channel["vr"]),
            "heard": heard + (f"; the last frame had {last['number']}" if last else "")}


def same_as_state(page: browser.Browser, running: Bench) -> Any:
    """Compares all that the page shows with the state, once it has come to it, and returns the state. Senders are judged later than frames are
    counted."""
    compared: List[Tuple[Any, Any]] = []

    def agree() -> bool:
        """Returns whether the page has come to the state."""
        now, newest, cards = running.state(), page.value("events.length ? events[events.length - 1].id : 0"), page.value(SHOWN)
        compared.append((now, cards))
        return bool(newest == now["count_of_events"] and cards == [wanted_of(channel, now["senders"]) for channel in now["channels"]])
    until(agree)
    state, cards = compared[-1]
    assert cards == [wanted_of(channel, state["senders"]) for channel in state["channels"]]
    refused = ", ".join(f"{reason} {count}" for reason, count in {**state["refused"], **state["bad"]}.items()) or "none"
    wanted = {**{key: str(state[key]) for key in ("frames", "packets", "units", "release")}, "refused": refused}
    assert {key: text_of(page, key) for key in wanted} == wanted
    return state


def test_it_shows_the_state(page: browser.Browser, running: Bench) -> None:
    """After a run, and after two more frames. Without CLTUs and telemetry frames it shows no count of them."""
    for place in ("cltus", "telemetry_frames"):
        assert page.value(f"document.getElementById('{place}').getBoundingClientRect().width === 0"), place
    state = same_as_state(page, running)
    flags = [{key for key in ("lockout", "wait", "retransmit", "no_rf", "no_bit_lock") if channel[key]} for channel in state["channels"]]
    assert flags == [{"retransmit"}, {"lockout", "retransmit"}, {"no_rf", "no_bit_lock"}]
    assert page.value(ROWS) == [f"event-{number}" for number in range(state["count_of_events"], 0, -1)]
    send_more(running, UNLOCK, frame(8, whole(0, ONE)))
    same_as_state(page, running)


def test_it_keeps_up_with_200_frames_a_second(page: browser.Browser, running: Bench) -> None:
    """It soon shows the last frame, and has the last 200 events alone."""
    before = running.state()["frames"]
    with running.connect("tc-tcp") as link:
        for _ in range(60):
            link.sendall(frame(0, whole(9, b"x"), channel=6, bypass=1) * 10)
            time.sleep(0.05)
        until(lambda: running.state()["frames"] == before + 600)
    assert page.wait(f"document.getElementById('frames').textContent === '{before + 600}'", 5)
    last = running.state()["count_of_events"]
    assert page.value(ROWS) == [f"event-{number}" for number in range(last, last - 200, -1)]
    same_as_state(page, running)


def test_it_shows_what_is_noted_of_a_port(page: browser.Browser, running: Bench) -> None:
    """In a list of its own, apart from the events."""
    before = running.state()["count_of_events"]
    with running.connect("tc-tcp") as link:
        link.sendall(b"no frame")
        link.recv(100)
    assert page.wait("Array.from(document.querySelectorAll('#notes li')).some(note => note.textContent.includes(', tc-tcp '))")
    assert page.value("document.querySelector('#notes li').textContent").endswith(": octets that begin no frame: 6e6f206672 at octet 0")
    assert not page.value("document.getElementById('noted').hidden") and running.state()["count_of_events"] == before


def test_it_shows_that_the_bench_has_ended(page: browser.Browser, running: Bench) -> None:
    """The page stays open."""
    assert running.end()[0] == 0
    assert page.wait("document.getElementById('up').textContent.startsWith('the bench doesn\\'t answer')")


def test_it_shows_counts_of_cltus_and_telemetry_frames(chromium: browser.Browser, bench: Benches) -> None:
    """It has four counts more, also in a narrow window."""
    running = bench("--cltu", "correct", "--tc-udp", "0", "--tm-tcp", "0", "--tm-rate", "20", "--http", "0")
    for each in [frame(number, whole(0, ONE)) for number in range(3)] + [frame(0, whole(0, ONE), scid=43)]:
        octets = bytearray(cltu(each))
        octets[4] ^= 4
        running.datagram(bytes(octets))
    with page_of(chromium, running) as page:
        for place, wanted in (("cltus", "4"), ("corrected_blocks", "4"), ("refused_candidates", "1"), ("telemetry_frames", "[1-9][0-9]+")):
            assert page.wait(f"/^{wanted}$/.test(document.getElementById('{place}').textContent)"), place
            assert page.value(f"document.getElementById('{place}').getBoundingClientRect().width > 0"), place
        page.look(360, 800)
        assert page.value("document.documentElement.scrollWidth <= innerWidth")
    assert running.end()[0] == 0


# --- Keys, names and looks ---

def details(page: browser.Browser) -> Dict[str, str]:
    """Returns what the page shows of the event that is chosen."""
    return dict(page.value("Array.from(document.querySelectorAll('#detail tr')).map(row => [row.cells[0].textContent, row.cells[1].textContent])"))


def choose(page: browser.Browser, *keys: str) -> None:
    """Presses these keys in the list of events."""
    page.value("document.getElementById('list').focus()")
    for key in keys:
        page.press(key)


def test_keys_choose_an_event(page: browser.Browser) -> None:
    """The event's frame is taken apart by the standard's layout."""
    choose(page, "Home", "End")
    assert page.value("document.querySelector('#list [aria-selected=true]').id") == "event-1"
    wanted = {"Kind": "Type-AD, data in sequence", "Spacecraft": "42", "Virtual channel": "1", "Length": "13 octets, 13 came", "N(S)": "0",
              "Segment": "unsegmented", "MAP": "0", "Application": "5", "Packet's data": "1 octet",
              "Answer": "frame 1 E1 accepted 1 queued 0 dropped 0 rest 0", "CLCW after it": "01040001"}
    shown = details(page)
    assert {key: shown.get(key) for key in wanted} == wanted
    assert text_of(page, "octets") == "00 2a 04 0c 00 c0 10 05 c0 00 00 00 00"
    choose(page, "ArrowUp")
    assert page.value("scrollY") == 0, "a choice in the list scrolls the page"
    assert details(page)["N(S)"] == "1", "the arrow chooses the next newer event"
    # This is what the user of a screen reader hears as chosen.
    assert page.value("document.getElementById('list').getAttribute('aria-activedescendant')") == "event-2"
    choose(page, "PageUp", "PageUp", "ArrowDown")
    assert details(page).get("Command") == "Set V(R) to 99"


def test_the_list_waits_while_an_event_is_chosen(page: browser.Browser, running: Bench) -> None:
    """It is followed again after Escape."""
    choose(page, "End")
    rows = page.value(COUNT_OF_ROWS)
    send_more(running, frame(9, whole(0, ONE)))
    assert page.wait("document.getElementById('frames').textContent === '24'")
    assert page.value(COUNT_OF_ROWS) == rows
    page.press("Escape")
    assert page.value(COUNT_OF_ROWS) == rows + 1


def test_the_tab_key_stops_at_each_control(page: browser.Browser) -> None:
    """These are the link that skips to the events, the button that holds their list, and the list."""
    stops = []
    page.value("document.activeElement.blur()")
    for _ in range(4):
        page.press("Tab")
        stops.append(page.value("document.activeElement.className || document.activeElement.id"))
    assert set(stops) >= {"skip", "hold", "list"}


def test_each_part_has_a_name(page: browser.Browser) -> None:
    """That is, each picture, bar, list and table."""
    unnamed = page.value("""Array.from(document.querySelectorAll("svg, meter, [role=listbox], [role=region], section"))
      .filter(each => !(each.getAttribute("aria-label") || document.getElementById(each.getAttribute("aria-labelledby"))))
      .map(each => each.outerHTML.slice(0, 80))""")
    assert unnamed == []


def test_a_change_of_state_is_said_aloud(page: browser.Browser, running: Bench) -> None:
    """In the page's language, English."""
    assert page.value("document.documentElement.lang === 'en' && document.getElementById('heard').getAttribute('role') === 'status'")
    send_more(running, UNLOCK, frame(8, whole(0, ONE)))
    assert page.wait("document.getElementById('heard').textContent.startsWith('channel 1 ')"), text_of(page, "heard")


def contrast_of(page: browser.Browser, selector: str) -> float:
    """Returns the contrast of a text with what is behind it, by the formula of WCAG 2."""
    found = page.value(f"""(() => {{ let each = document.querySelector({json.dumps(selector)}); const ink = getComputedStyle(each).color;
      while (each && getComputedStyle(each).backgroundColor === "rgba(0, 0, 0, 0)") each = each.parentElement;
      return [ink, getComputedStyle(each || document.body).backgroundColor]; }})()""")
    lights: List[float] = []
    for colour in found:
        parts = [int(part) / 255 for part in re.findall(r"\d+", colour)[:3]]
        red, green, blue = (part / 12.92 if part <= 0.04045 else ((part + 0.055) / 1.055) ** 2.4 for part in parts)
        lights.append(0.2126 * red + 0.7152 * green + 0.0722 * blue)
    return (max(lights) + 0.05) / (min(lights) + 0.05)


def test_looks_in_wide_and_narrow_windows(page: browser.Browser, tmp_path: Path) -> None:
    """In light and dark nothing is wider than the window, and each text has contrast. Leaves a picture of each look."""
    for name, width, height in (("wide", 1400, 1250), ("middle", 900, 900), ("narrow", 360, 800)):
        for dark in (False, True):
            look = f"{name}-{'dark' if dark else 'light'}"
            page.look(width, height, dark)
            page.picture(tmp_path / f"{look}.png")
            assert page.value("document.documentElement.scrollWidth <= innerWidth"), look
            wide = page.value("""Array.from(document.querySelectorAll("section.card > *, .bar > *, .head > *"))
              .filter(each => each.getBoundingClientRect().right > each.closest("section").getBoundingClientRect().right + 1)
              .map(each => each.outerHTML.slice(0, 80))""")
            assert wide == [], look
            for selector in ("h1", "dt", "dd", "#up", "li[data-on='1']", "li[data-on='0']", "#list .bad", "#legend", "#ports th"):
                assert contrast_of(page, selector) >= 4.5, (look, selector)


# --- A page of another site ---

class Site(BaseHTTPRequestHandler):
    """Another site: one page, with a frame inside it for what a form leads to."""

    def do_GET(self) -> None:  # pylint: disable=invalid-name  # as the library names it
        """Gives the page."""
        self.send_response(200)
        self.send_header("Content-Type", "text/html")
        self.end_headers()
        self.wfile.write(b"<!DOCTYPE html><title>Another site</title><iframe name='inside'></iframe>")

    def log_message(self, format: str, *args: object) -> None:  # pylint: disable=redefined-builtin  # as the library names it
        """Logs nothing."""


# A form with lines, behind a name that makes a comment of its front; and a request with octets.
FORM = """(() => { const form = document.createElement("form"), area = document.createElement("textarea");
  Object.assign(form, {method: "post", enctype: "text/plain", action: %s, target: "inside"});
  Object.assign(area, {name: "# ", value: "\\n" + %s}); form.append(area); document.body.append(form); form.submit(); })()"""
FETCH = """fetch(%s, {method: "POST", mode: "no-cors", body: new Uint8Array(%s), signal: AbortSignal.timeout(5000)}).then(() => "sent", String)"""


def test_nothing_is_obeyed_of_a_page_of_another_site(chromium: browser.Browser, bench: Benches) -> None:
    """It has the browser send requests to the ports for lines and for frames."""
    running = bench("--tc-tcp", "0", "--lines", "0", "--http", "0", "--resync", setup=SETUP)
    lines = f"frame {frame(0, whole(0, ONE)).hex()}\nframe {UNLOCK.hex()}\nlink 1 1 1\n"
    octets = b"x" * 1100 + frame(0, whole(0, ONE)) + UNLOCK
    with ThreadingHTTPServer(("127.0.0.1", 0), Site) as site:
        threading.Thread(target=site.serve_forever, daemon=True).start()
        chromium.open(f"http://localhost:{site.server_port}/")
        addresses = {kind: json.dumps(f"http://127.0.0.1:{running.ports[kind]}/") for kind in ("lines", "tc-tcp")}
        chromium.value(FORM % (addresses["lines"], json.dumps(lines)))
        for kind, sent in (("lines", lines.encode()), ("tc-tcp", octets)):
            chromium.value(FETCH % (addresses[kind], json.dumps(list(sent))))
        for kind, least in (("lines", 2), ("tc-tcp", 1)):
            # pylint: disable-next=cell-var-from-loop  # it is called within this round
            assert until(lambda: running.port(kind).get("turned_away", 0) >= least, 20), running.port(kind)
        site.shutdown()
    state = running.state()
    assert [event for event in state["events"] if event["line"] or event["octets"]] == []
    assert (state["frames"], [channel["no_rf"] for channel in state["channels"]]) == (0, [False] * 3)
    assert running.end()[0] == 0
