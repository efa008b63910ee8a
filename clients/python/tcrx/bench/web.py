"""The page: one file, the state as JSON and as Prometheus text, and server-sent events. It only reads."""
from __future__ import annotations

import base64
import hashlib
import ipaddress
import json
import re
import socket
import threading
import time
from pathlib import Path
from typing import Collection, Dict, Iterator, List, Mapping, Optional, Set, Tuple, cast

from .. import __version__
from .options import is_loopback
from .ports import Connection, Hub, Port

PAGE = Path(__file__).resolve().parent / "page.html"
# Octets of a request, and seconds between two looks at what changed.
LONGEST_REQUEST, PAUSE = 8192, 0.2
# Seconds after which something is sent, so that a connection that is gone is noticed.
HEARTBEAT = 15.0
HEADERS = "X-Content-Type-Options: nosniff\r\nReferrer-Policy: no-referrer\r\nCache-Control: no-store\r\nConnection: close\r\n"


def hash_of(text: str) -> str:
    """Returns the hash of a script or a style sheet for the content security policy."""
    return f"'sha256-{base64.b64encode(hashlib.sha256(text.encode()).digest()).decode()}'"


def policy_of(page: str) -> str:
    """Returns the content security policy. It allows the page's own script and style sheet, and this server."""
    scripts, styles = (" ".join(hash_of(text) for text in re.findall(rf"<{name}>(.*?)</{name}>", page, re.S)) for name in ("script", "style"))
    return (f"default-src 'none'; script-src {scripts}; style-src {styles}; connect-src 'self'; img-src data:; base-uri 'none'; form-action 'none'; "
            "frame-ancestors 'none'")


class Web:
    """The state that the connections of the page share."""

    def __init__(self, hub: Hub, hosts: Collection[str], library: Mapping[str, str]) -> None:
        self.hub, self.spacecraft, self.library = hub, hub.spacecraft, library
        self.names = {"localhost", *(host.lower() for host in hosts), *names_of(socket.gethostname(), "")}
        if not all(map(is_loopback, hosts)):
            # It may be asked for over the network, where that takes its time: nobody waits for it.
            threading.Thread(target=self._learn_full_name, daemon=True).start()
        self.page = PAGE.read_text(encoding="utf-8")
        self.policy = policy_of(self.page)
        self.begun = time.time()
        self.followers: List[Follower] = []
        self._tick()

    def state(self, since: int = 0, has_peers: bool = False) -> Dict[str, object]:
        """Returns all that is known, with the events after the one with this number, and with the peers of each port if they are wanted."""
        ports = [{**port.state(), **({"peers": port.peers()} if has_peers and port.server else {})} for port in self.hub.ports]
        return {"program": f"tcrx-bench {__version__}", "receiver": "running", "library": self.library, "begun": round(self.begun, 3),
                "seconds": round(self.spacecraft.now(), 3), **self.spacecraft.state(), "ports": ports,
                "notes": list(self.spacecraft.last_notes), "count_of_events": self.spacecraft.count_of_events,
                "events": self.spacecraft.events_since(since)}

    def _learn_full_name(self) -> None:
        """Looks up the full name of this machine, by which the page may be asked for as well."""
        self.names |= names_of(socket.gethostname(), socket.getfqdn())

    def _tick(self) -> None:
        """Looks from time to time whether something changed that is to be sent."""
        if self.hub.closed:
            return
        if any(each.is_behind(self.spacecraft.changes) for each in self.followers):
            self.send()
        self.hub.loop.call_later(PAUSE, self._tick)

    def send(self) -> None:
        """Sends what changed to each that follows and is not slow; one that is gets all of it later, but for events that are too old."""
        self.spacecraft.refresh()
        texts: Dict[int, bytes] = {}
        for each in self.followers:
            if not each.paused:
                # It is made once for all that have seen the same events.
                if each.seen not in texts:
                    texts[each.seen] = f"data: {json.dumps(self.state(each.seen))}\n\n".encode()
                each.send(texts[each.seen], self.spacecraft.count_of_events, self.spacecraft.changes)


def names_of(own: str, full: str) -> Set[str]:
    """Returns the names of a machine: its own, the same without a domain, and its full name if that is its own with a domain."""
    own, full = own.lower(), full.lower()
    short = own.partition(".")[0]
    return {own, short, *([full] if full.startswith(f"{short}.") else [])} - {""}


def allowed_host(name: str, names: Collection[str]) -> bool:
    """Returns whether a request may be for a host of this name: an address, or one of these names. Another site that has its name lead here
    can't read the page so."""
    host = re.sub(r":\d+$", "", name).strip("[]")
    try:
        ipaddress.ip_address(host)
        return True
    except ValueError:
        return host.lower() in names


class Visitor(Connection):
    """One request over HTTP."""

    def __init__(self, port: Port, web: Web) -> None:
        super().__init__(port)
        self.web = web
        self.request = b""
        self.came = time.monotonic()
        self.follower: Optional[Follower] = None

    def last_words(self, why: str) -> bytes:
        return answer(503, "text/plain", f"{why}\n")

    def data_received(self, data: bytes) -> None:
        """Answers once the request is whole."""
        if self.done or self.follower:
            return
        self.request += data
        head, end, _ = self.request.partition(b"\r\n\r\n")
        if len(head) > LONGEST_REQUEST:
            self._say(431, "the request is too long\n")
        elif end:
            self._answer(head.decode("latin-1").split("\r\n"))

    def check_timeouts(self) -> None:
        """Gives up a request that isn't whole after some time. To a page that follows, sends something from time to time."""
        if self.follower:
            self.follower.send_heartbeat()
        elif not self.done and time.monotonic() - self.came > self.hub.patience:
            self._say(408, f"no whole request within {self.hub.patience:g} seconds\n")

    def _say(self, status: int, text: str, kind: str = "text/plain", more: str = "") -> None:
        """Writes an answer, and closes."""
        self.done = True
        self.port.count("requests")
        self.transport.write(answer(status, kind, text, more, body=not self.request.startswith(b"HEAD ")))
        self.transport.close()

    def _answer(self, lines: List[str]) -> None:
        """Answers a request."""
        found = re.fullmatch(r"([A-Z]+) (/[^ ?]*)(?:\?[^ ]*)? HTTP/1\.[01]", lines[0])
        method, path = (found[1], found[2]) if found else ("", "")
        hosts = [line.partition(":")[2].strip() for line in lines[1:] if line.lower().startswith("host:")]
        if found is None:
            self._say(400, "this is no request\n")
        elif len(hosts) > 1 or not all(allowed_host(host, self.web.names) for host in hosts):
            self._say(421, "this host isn't served here\n")
        elif method not in ("GET", "HEAD"):
            self._say(405, "this page only reads\n", more="Allow: GET, HEAD\r\n")
        elif path == "/":
            self._say(200, self.web.page, "text/html", f"Content-Security-Policy: {self.web.policy}\r\n")
        elif path in ("/state", "/metrics"):
            self.web.spacecraft.refresh()
            self._say_state(path)
        elif path == "/events" and method == "GET":
            self.follower = Follower(self)
        else:
            self._say(404, "there is /, /state, /metrics and /events\n")

    def _say_state(self, path: str) -> None:
        """Answers with the state at this moment."""
        if path == "/state":
            self._say(200, json.dumps(self.web.state(has_peers=True)) + "\n", "application/json")
        else:
            self._say(200, "".join(line + "\n" for line in metrics_of(self.web.state())), "text/plain; version=0.0.4")

    def connection_lost(self, exc: Optional[Exception]) -> None:
        if self.follower and self.follower in self.web.followers:
            self.web.followers.remove(self.follower)
        super().connection_lost(exc)


STATUSES = {200: "OK", 400: "Bad Request", 404: "Not Found", 405: "Method Not Allowed", 408: "Request Timeout", 421: "Misdirected Request",
            431: "Request Header Fields Too Large", 503: "Service Unavailable"}


def answer(status: int, kind: str, text: str, more: str = "", body: bool = True) -> bytes:
    """Returns an answer over HTTP."""
    octets = text.encode()
    named = kind if "version=" in kind else f"{kind}; charset=utf-8"
    head = f"HTTP/1.1 {status} {STATUSES[status]}\r\nContent-Type: {named}\r\nContent-Length: {len(octets)}\r\n{HEADERS}{more}\r\n"
    return head.encode("latin-1") + (octets if body else b"")


class Follower:
    """A page that is sent what changes, as server-sent events."""

    def __init__(self, visitor: Visitor) -> None:
        self.visitor = visitor
        self.seen, self.shown, self.sent = 0, -1, 0.0
        visitor.port.count("requests")
        visitor.transport.set_write_buffer_limits(1 << 16)
        visitor.transport.write(f"HTTP/1.1 200 OK\r\nContent-Type: text/event-stream; charset=utf-8\r\n{HEADERS}\r\nretry: 2000\n\n".encode())
        visitor.web.followers.append(self)

    @property
    def paused(self) -> bool:
        """Whether what was sent before isn't read yet."""
        return self.visitor.paused

    def is_behind(self, changes: int) -> bool:
        """Returns whether it reads and there were changes since it was last sent the state."""
        return not self.paused and self.shown != changes

    def send(self, text: bytes, seen: int, shown: int) -> None:
        """Sends a state, up to an event of this number, with so many changes."""
        self.seen, self.shown, self.sent = seen, shown, time.monotonic()
        self.visitor.transport.write(text)

    def send_heartbeat(self) -> None:
        """Sends a comment if nothing was sent for long."""
        if self.sent and not self.paused and time.monotonic() - self.sent > HEARTBEAT:
            self.sent = time.monotonic()
            self.visitor.transport.write(b": still here\n\n")


# --- Prometheus ---

def labelled(name: str, **labels: object) -> str:
    """Returns a name with its labels."""
    words = ",".join(f'{label}="{value}"' for label, value in labels.items())
    return f"tcrx_{name}{{{words}}}" if words else f"tcrx_{name}"


def channel_metrics(channel: Dict[str, object]) -> Iterator[Tuple[str, str, Dict[str, object], object]]:
    """Yields the figures of a channel, as `all_metrics` does."""
    about = {"channel": channel["channel"]}
    for event, count in cast(Dict[str, int], channel["events"]).items():
        yield "frames_total", "counter", {**about, "event": event}, count
    for flag in ("lockout", "wait", "retransmit", "no_rf", "no_bit_lock"):
        yield "flag", "gauge", {**about, "flag": flag}, int(cast(bool, channel[flag]))
    yield "vr", "gauge", about, channel["vr"]
    yield "farm_b", "gauge", about, channel["farm_b"]
    buffer = cast(Dict[str, int], channel["buffer"])
    yield "buffer_fields", "gauge", about, buffer["used"]
    for name, key in (("queue_packets", "apid"), ("map_units", "map")):
        for queue in cast(List[Dict[str, int]], channel["queues" if key == "apid" else "maps"]):
            yield name, "gauge", {**about, key: queue[key]}, queue["used"]


def all_metrics(state: Dict[str, object]) -> Iterator[Tuple[str, str, Dict[str, object], object]]:
    """Yields the name, the kind, the labels and the value of each figure."""
    yield "seconds", "gauge", {}, state["seconds"]
    yield "packets_total", "counter", {}, state["packets"]
    yield "units_total", "counter", {}, state["units"]
    for name in ("refused", "bad"):
        for reason, count in cast(Dict[str, int], state[name]).items():
            yield f"{name}_total", "counter", {"reason": reason}, count
    if cltu := cast(Dict[str, object], state["cltu"]):
        for what in ("cltus", "corrected_blocks", "rejected_blocks", "refused_candidates", "overlong_cltus", "overfull_cltus"):
            yield f"{what}_total", "counter", {}, cltu[what]
    if telemetry := cast(Dict[str, object], state["telemetry"]):
        yield "telemetry_frames_total", "counter", {}, telemetry["frames"]
    for sender in cast(List[Dict[str, object]], state["senders"]):
        about = {"channel": sender["channel"], "window": sender["window"]}
        yield "sender_frames_total", "counter", about, sender["frames"]
        yield "sender_breaches_total", "counter", about, sender["breaches"]
        yield "sender_changed_total", "counter", about, sender["changed"]
        yield "sender_waiting", "gauge", about, sender["waiting"]
        yield "sender_in_order", "gauge", about, int(cast(bool, sender["in_order"]))
    for channel in cast(List[Dict[str, object]], state["channels"]):
        yield from channel_metrics(channel)
    for port in cast(List[Dict[str, object]], state["ports"]):
        about = {"port": port["port"], "address": port["address"]}
        yield "port_open", "gauge", about, port["open"]
        for what, value in port.items():
            if what not in about and what != "open":
                yield f"port_{what}_total", "counter", about, value


def metrics_of(state: Dict[str, object]) -> Iterator[str]:
    """Yields the lines of the Prometheus text: those of one name together, after its kind."""
    families: Dict[str, List[str]] = {}
    kinds: Dict[str, str] = {}
    for name, kind, labels, value in all_metrics(state):
        kinds[name] = kind
        families.setdefault(name, []).append(f"{labelled(name, **labels)} {value}")
    for name, lines in families.items():
        yield f"# TYPE tcrx_{name} {kinds[name]}"
        yield from lines
