"""The command line of the bench."""
from __future__ import annotations

import argparse
import ipaddress
import resource
from pathlib import Path
from typing import Any, List, Optional, Sequence, Tuple

from .. import __version__
from .ports import Network, Place, parse_place

# What is listened on: the option's name, and what it is for.
LISTENS = (
    ("tc-tcp", "raw frames over TCP, one after the other; with --cltu a stream of CLTUs"),
    ("tc-udp", "raw frames over UDP, one in each datagram; with --cltu CLTUs"),
    ("lines", "lines of text, as tclive takes them; each answer goes to the connection that sent the line"),
    ("clcw-tcp", "CLCWs to whoever connects, four octets each"),
    ("packets-tcp", "packets to whoever connects, one after the other"),
    ("units-tcp", "units to whoever connects, each after its channel, MAP and length"),
    ("tm-tcp", "telemetry frames with CLCWs to whoever connects, one after the other"),
    ("http", "a web page that shows the state; /state returns it as JSON, and /metrics its figures for Prometheus"),
)
SENDS = (("clcw-udp", "CLCWs to HOST:PORT, one in each datagram"), ("packets-udp", "packets to HOST:PORT, one in each datagram"),
         ("units-udp", "units to HOST:PORT, one in each datagram"), ("tm-udp", "telemetry frames to HOST:PORT, one in each datagram"))

# Options that do nothing any more.
OLD = ("program", "tcmake")
# As many of the shortest frames as the 1,029 octets of a CLTU have room for.
MOST_FRAMES = 171
# The options of telemetry frames where they aren't given.
TM_DEFAULTS = {"tm_length": 1115, "tm_rate": 1.0, "tm_vcid": 0, "tm_fecf": False, "tm_marker": False}
# The fewest octets of a telemetry frame that ends with its frame error control field.
SHORTEST_WITH_FECF = 13

# Octets of a file that sets up: those of a script.
LONGEST_SETUP = 1 << 20

# Faults on purpose: the option's name, and of what it is the share.
FAULTS = (("drop", "lose this share of the frames that arrive, 0 to 1: 0.2 loses a fifth. With --cltu, of the frames out of CLTUs"),
          ("twice", "let this share of the frames arrive twice"),
          ("flip", "flip one bit in this share of the frames"), ("drop-clcw", "lose this share of the CLCWs and telemetry frames that are sent"))


def number_in(least: int, most: int) -> Any:
    """Returns a function that reads a whole number of a range."""
    def read(word: str) -> int:
        if not word.isascii() or not word.isdecimal() or len(word) > 9 or not least <= int(word) <= most:
            raise argparse.ArgumentTypeError(f"{word!r} isn't a number from {least} to {most}")
        return int(word)
    return read


def seconds(word: str) -> float:
    """Reads a number of seconds."""
    try:
        value = float(word)
    except ValueError:
        value = -1.0
    if not 0 <= value <= 1e6:
        raise argparse.ArgumentTypeError(f"{word!r} isn't a number of seconds")
    return value


def rate(word: str) -> float:
    """Reads a number of frames a second."""
    try:
        value = float(word)
    except ValueError:
        value = 0.0
    if not 0.001 <= value <= 1000:
        raise argparse.ArgumentTypeError(f"{word!r} isn't a number from 0.001 to 1000")
    return value


def share(word: str) -> float:
    """Reads a share, from 0 to 1."""
    try:
        value = float(word)
    except ValueError:
        value = -1.0
    if not 0 <= value <= 1:
        raise argparse.ArgumentTypeError(f"{word!r} isn't a number from 0 to 1")
    return value


class Listen(argparse.Action):
    """Notes a place that is listened on."""

    def __call__(self, parser: argparse.ArgumentParser, namespace: argparse.Namespace, values: Any, option_string: Optional[str] = None) -> None:
        kind = self.option_strings[0][2:]
        sends = kind in [name for name, _ in SENDS]
        try:
            place, named = parse_place(kind, values, None if sends else "127.0.0.1")
        except ValueError:
            parser.error(f"argument --{kind}: {values!r} isn't {'HOST:PORT' if sends else '[HOST:]PORT'}")
        if sends and place in namespace.places:
            parser.error(f"argument --{kind}: {values} is named twice")
        namespace.places.append(place)
        if named and not sends and not is_loopback(place.host):
            namespace.open_to_others.append(place)
        namespace.last = None if sends else place


def network_of(word: str) -> Network:
    """Returns the network that a word names. IPv4 addresses that are written as IPv6 addresses become IPv4 addresses. Raises `ValueError`."""
    network = ipaddress.ip_network(word)
    mapped = network.network_address.ipv4_mapped if isinstance(network, ipaddress.IPv6Network) and network.prefixlen >= 96 else None
    return ipaddress.IPv4Network((int(mapped), network.prefixlen - 96)) if mapped else network


class Allow(argparse.Action):
    """Notes who may connect to the place before it."""

    def __call__(self, parser: argparse.ArgumentParser, namespace: argparse.Namespace, values: Any, option_string: Optional[str] = None) -> None:
        if namespace.last is None:
            parser.error("argument --allow: it comes behind the port that it is for")
        try:
            namespace.last.allowed.append(network_of(values))
        except ValueError:
            parser.error(f"argument --allow: {values!r} isn't ADDRESS or ADDRESS/BITS, with no bit behind these")


def is_loopback(host: str) -> bool:
    """Returns whether only this machine can reach a host."""
    try:
        return ipaddress.ip_address(host).is_loopback
    except ValueError:
        return host == "localhost"


class Lines(argparse.RawDescriptionHelpFormatter):
    """Help with options on lines of their own width."""

    def __init__(self, prog: str) -> None:
        super().__init__(prog, max_help_position=28, width=118)


def make_parser() -> argparse.ArgumentParser:
    """Returns the parser of the command line."""
    made = argparse.ArgumentParser(prog="tcrx-bench", allow_abbrev=False, formatter_class=Lines, usage="tcrx-bench --scid N [OPTION]...", description=(
        "Runs one spacecraft's telecommand receiver and opens ports to it. Frames or CLTUs come in over TCP and UDP;\n"
        "CLCWs, packets, units and telemetry frames go out. PORT is a port of 127.0.0.1, or HOST:PORT. Port 0 takes a free port."))
    made.add_argument("-V", "--version", action="version", version=f"tcrx-bench {__version__}")
    made.add_argument("--scid", type=number_in(0, 1023), metavar="<N>", help="the spacecraft identifier, 0 to 1023; with --demo 42 if not given")
    made.add_argument("--fecf", action="store_true", help="each frame ends with its frame error control field")
    made.add_argument("--setup", type=Path, metavar="<FILE>",
                      help="a file of channel, queue and map lines; without it, lines at the port of --lines set the receiver up")
    for name in OLD:
        made.add_argument(f"--{name}", metavar="<FILE>", help="does nothing any more, and goes with the next version: the bench starts no program")
    for name, text in LISTENS:
        made.add_argument(f"--{name}", action=Listen, dest="places", metavar="<PORT>", help=text)
    for name, text in SENDS:
        made.add_argument(f"--{name}", action=Listen, dest="places", metavar="<PORT>", help=text)
    made.add_argument("--allow", action=Allow, dest="last", metavar="<ADDRESS>",
                      help="let only this address, or this network (ADDRESS/BITS), use the port named before it; may be given several times")
    add_edges(made)
    add_behaviour(made)
    made.set_defaults(places=[], open_to_others=[], last=None)
    return made


def add_edges(made: argparse.ArgumentParser) -> None:
    """Adds the options of CLTUs and telemetry frames."""
    made.add_argument("--cltu", choices=("correct", "detect"), metavar="<MODE>",
                      help="frames arrive in CLTUs. With MODE correct one wrong bit in each code block is corrected, with detect none is. "
                           "Not with --demo, --fill or --resync")
    made.add_argument("--cltu-frames", type=number_in(1, MOST_FRAMES), metavar="<N>",
                      help="how many frames a CLTU may carry with --cltu, 1 to 171; 1 if not given")
    made.add_argument("--randomised", action="store_true", help="take the random sequence off what CLTUs carry, with --cltu")
    made.add_argument("--tm-length", type=number_in(11, 2048), metavar="<N>",
                      help="length of telemetry frames in octets, 11 to 2048, with --tm-fecf at least 13; 1115 if not given. "
                           "This option and the next four need --tm-tcp or --tm-udp")
    made.add_argument("--tm-rate", type=rate, metavar="<N>", help="telemetry frames a second, 0.001 to 1000; 1 if not given")
    made.add_argument("--tm-vcid", type=number_in(0, 7), metavar="<N>", help="the virtual channel of telemetry frames, 0 to 7; 0 if not given")
    made.add_argument("--tm-fecf", action="store_true", default=None, help="each telemetry frame ends with its frame error control field")
    made.add_argument("--tm-marker", action="store_true", default=None, help="send the sync marker 1acffc1d before each telemetry frame over TCP")


def add_behaviour(made: argparse.ArgumentParser) -> None:
    """Adds the options that say how the bench behaves."""
    made.add_argument("--fill", type=number_in(1, 1024), default=1, metavar="<N>",
                      help="each frame is padded with fill to a multiple of N octets, 1 to 1024; 1 if not given")
    made.add_argument("--resync", action="store_true", help="skip octets that begin no frame, instead of closing the connection")
    made.add_argument("--period", type=seconds, default=1.0, metavar="<SECONDS>",
                      help="send a CLCW of the next channel this often, besides those after frames; 1 if not given, 0 for none")
    made.add_argument("--release", choices=("auto", "manual"), default="auto", metavar="<WHEN>",
                      help="auto releases accepted data and takes packets and units at once; manual leaves that to lines; auto if not given")
    made.add_argument("--release-after", type=seconds, metavar="<SECONDS>",
                      help="release data only this long after its frame came, so that the buffer can fill and the CLCW can show Wait")
    made.add_argument("--link-timeout", type=seconds, metavar="<SECONDS>",
                      help="set No RF Available and No Bit Lock when no frame came for this long; the next frame clears them")
    made.add_argument("--sender", nargs=2, action="append", default=[], type=number_in(0, 127), metavar=("<VC>", "<K>"),
                      help="watch whether the sender of channel VC (0 to 63) keeps a window of K frames (1 to 127) and its link keeps the order; "
                           "may be given once for each channel")
    made.add_argument("--connections", type=number_in(1, 10000), default=32, metavar="<N>",
                      help="how many connections a port takes at a time; 32 if not given")
    made.add_argument("--connections-per-address", type=number_in(1, 10000), default=0, metavar="<N>",
                      help="how many connections a port takes from one address at a time; no such limit if not given")
    made.add_argument("--patience", type=seconds, default=10.0, metavar="<SECONDS>",
                      help="how long the bench waits for the rest of a frame or request, and for all that is left when it is asked to "
                           "end; 10 if not given")
    for name, text in FAULTS:
        made.add_argument(f"--{name}", type=share, default=0.0, metavar="<SHARE>", help=text)
    made.add_argument("--delay", type=seconds, default=0.0, metavar="<SECONDS>",
                      help="delay each frame by a random time up to this one, so that the order changes; 2048 frames at a time")
    made.add_argument("--seed", type=number_in(0, 999999999), default=0, metavar="<N>",
                      help="seed of the random faults: the same seed gives the same faults; 0 if not given")
    made.add_argument("--demo", action="store_true",
                      help="also start two senders over a link that loses a fifth of the frames, and print the address of the page")
    made.add_argument("--log", type=Path, metavar="<FILE>", help="write a log of frames, lines and answers, as a script, to this file, which must be new")
    made.add_argument("--replay", type=Path, metavar="<FILE>",
                      help="give a log to a new receiver, compare its answers, and exit; with --sender, watch senders in the log, too")


def read_words(words: Sequence[str]) -> argparse.Namespace:
    """Returns the options. A bad command line ends the program with status 2."""
    made = make_parser()
    options = made.parse_args(words)
    if fault := fault_of_senders(options.sender):
        made.error(fault)
    if options.replay:
        return options
    if options.scid is None and not options.demo:
        made.error("the following arguments are required: --scid")
    if not options.places and not options.demo:
        made.error("no port is named, so nobody could connect")
    if options.release_after is not None and options.release == "manual":
        made.error("argument --release-after: not with --release manual")
    if not options.patience:
        made.error("argument --patience: it must be over 0")
    if fault := fault_of_edges(options):
        made.error(fault)
    options.cltu_frames = options.cltu_frames or 1
    for name, value in TM_DEFAULTS.items():
        setattr(options, name, value if getattr(options, name) is None else getattr(options, name))
    if options.demo:
        set_demo(options)
    options.has_telemetry = any(place.kind in ("tm-tcp", "tm-udp") for place in options.places)
    options.has_faults = bool(options.delay) or any(getattr(options, name.replace("-", "_")) for name, _ in FAULTS)
    return options


def fault_of_edges(options: argparse.Namespace) -> str:
    """Returns the first fault of the options of CLTUs and telemetry frames, in the order of the options, or an empty text."""
    kinds = {place.kind for place in options.places}
    has_telemetry = bool(kinds & {"tm-tcp", "tm-udp"})
    rows = [(options.cltu and options.demo, "--cltu: not with --demo"),
            (options.cltu and not kinds & {"tc-tcp", "tc-udp"}, "--cltu: not without --tc-tcp or --tc-udp"),
            (options.cltu_frames and not options.cltu, "--cltu-frames: not without --cltu"),
            (options.randomised and not options.cltu, "--randomised: not without --cltu"),
            *((getattr(options, name) is not None and not has_telemetry, f"--{name.replace('_', '-')}: not without --tm-tcp or --tm-udp")
              for name in TM_DEFAULTS),
            (options.tm_fecf and (options.tm_length or SHORTEST_WITH_FECF) < SHORTEST_WITH_FECF,
             f"--tm-length: with --tm-fecf it is at least {SHORTEST_WITH_FECF}"),
            (options.cltu and options.fill > 1, "--fill: not with --cltu, which takes fill off"),
            (options.cltu and options.resync, "--resync: not with --cltu, which searches in any case")]
    return next((f"argument {text}" for is_wrong, text in rows if is_wrong), "")


def fault_of_senders(senders: Sequence[Sequence[int]]) -> str:
    """Returns the first fault of the senders that are to be watched, or an empty text."""
    channels = [channel for channel, _ in senders]
    rows = [(channel > 63, f"{channel} isn't a channel from 0 to 63") for channel in channels]
    rows += [(not window, "a window has 1 to 127 frames") for _, window in senders] + [(len(set(channels)) < len(channels), "a channel has one sender")]
    return next((f"argument --sender: {text}" for is_wrong, text in rows if is_wrong), "")


def set_demo(options: argparse.Namespace) -> None:
    """Chooses for the demonstration what wasn't chosen."""
    options.scid = 42 if options.scid is None else options.scid
    options.drop = options.drop or 0.2
    if options.release == "auto" and options.release_after is None:
        options.release_after = 0.3
    kinds = {place.kind for place in options.places}
    options.places += [Place(kind, "127.0.0.1", 0) for kind in ("http", "tc-udp") if kind == "tc-udp" or kind not in kinds]


def read_setup(path: Path) -> List[Tuple[int, str]]:
    """Returns the lines of a file that sets up, with their numbers. Raises `ValueError` if it can't be read or has other lines."""
    try:
        with open(path, encoding="latin-1") as file:
            text = file.read(LONGEST_SETUP + 1)
    except OSError as error:
        raise ValueError(f"{path} can't be read: {error.strerror}") from None
    if len(text) > LONGEST_SETUP:
        raise ValueError(f"{path} has more than {LONGEST_SETUP} octets")
    found, lines = [], text.split("\n")
    for number, line in enumerate(lines, 1):
        words = line.split()
        if not words or words[0].startswith("#"):
            continue
        if words[0] not in ("channel", "queue", "map"):
            raise ValueError(f"{path}, line {number}: only channel, queue and map lines set up")
        found.append((number, " ".join(words)))
    return found


def warning_of(place: Place) -> str:
    """Returns a warning about a port that others can reach."""
    who = "whoever is at " + ", ".join(map(str, place.allowed)) if place.allowed else "whoever connects"
    what = "commands the receiver" if place.kind in ("tc-tcp", "tc-udp", "lines") else "sees what it received"
    return f"warning: --{place.kind} listens on {place.host}: {who} {what}, without any login"


def warning_of_files(room: int) -> str:
    """Returns a warning that fewer files may be open than the connections could need."""
    limit = resource.getrlimit(resource.RLIMIT_NOFILE)[0]
    return f"warning: {limit} files may be open (ulimit -n), so each port takes {room} connections at a time"


def note_of_old(options: argparse.Namespace) -> str:
    """Returns a note about options that do nothing any more, or an empty text."""
    given = [f"--{name}" for name in OLD if getattr(options, name)]
    return f"{' and '.join(given)} {'do' if given[1:] else 'does'} nothing any more: the bench starts no program" if given else ""
