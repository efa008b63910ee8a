"""A telecommand receiver in a Python program: calls of the shared library libtcrx.so.0.

    from tcrx import Receiver

    with Receiver(42) as receiver:
        receiver.channel(1, width=10, buffer=2, first=0)
        receiver.queue(1, apid=5, capacity=8)
        brought = receiver.bring(bytes.fromhex("002a040c00c01005c0000000aa"))
        receiver.release(1)
        for octets in receiver.packets(1, apid=5):
            ...
    print(receiver.final[1].events)

A `Receiver` answers the lines that docs/reference/scripts.md describes, as values. A `RemoteReceiver` does so for a receiver elsewhere. A
`Session` answers lines as texts. A `Channel` is a single virtual channel, and a `Rack` finds the channel that a frame is for. A `Decoder` finds
CLTUs, and functions make and read frames, packets, CLTUs and telemetry frames.

The functions of the library are proved: each returns what its definition says (README.md says what is proved). Nothing in this package is
proved, nor is anything about Python, ctypes or libffi.

- A refusal of the receiver's is an answer, `Refused`, with its reason. It is false, and each other answer is true.
- If a call has no answer, it raises an exception, a `Fault`. After a `BadLine` or `NotSetUp` the receiver goes on as it was.
- Threads. A call of the library keeps the GIL, because it takes a few microseconds. So calls on one receiver, session or channel from several
  threads take turns, and each is whole. In a Python without a GIL, a lock in each makes its calls take turns.
- An interrupt (Ctrl-C) never comes during a call of the library. The receiver goes on, but the answer may be lost.
- After a fork each process has the receiver as it was then, and the two have nothing in common from then on.
- An object that is neither closed nor in a `with` is freed by its finaliser, when nothing refers to it or when Python exits.

The package needs only the standard library, and Python 3.9 or later. Importing it loads no library, and never starts a compiler.
"""
from .channel import (BadSettings, Carried, Channel, Decoder, Frame, NoMemory, NotRead, NotWritten, Rack, Tm, add_fecf, check_fecf, find_library,
                      randomise, read_frame, read_tm, storage, write_cltu, write_frame, write_packet, write_segments, write_set_vr, write_tm, write_unlock)
from .lines import BadScript, Lost, NoRoom, Over, Session, Waiting
from .receiver import Receiver
from .remote import RemoteReceiver
from .values import (BadLine, Brought, Clcw, Collected, Delivered, Delivery, Ended, Event, Fault, Final, NotSetUp, NotStarted, Outcome, Packet, Refusal,
                     Refused, Released, Report, State, TimedOut, Unexpected, Unit)

# The version of the programs, and of the newest heading of CHANGELOG.md.
__version__ = "0.3.0"

__all__ = ["BadLine", "BadScript", "BadSettings", "Brought", "Carried", "Channel", "Clcw", "Collected", "Decoder", "Delivered", "Delivery", "Ended",
           "Event", "Fault", "Final", "Frame", "Lost", "NoMemory", "NoRoom", "NotRead", "NotSetUp", "NotStarted", "NotWritten", "Outcome", "Over",
           "Packet", "Rack", "Receiver", "Refusal", "Refused", "Released", "RemoteReceiver", "Report", "Session", "State", "TimedOut", "Tm",
           "Unexpected", "Unit", "Waiting", "add_fecf", "check_fecf", "find_library", "randomise", "read_frame", "read_tm", "storage", "write_cltu",
           "write_frame", "write_packet", "write_segments", "write_set_vr", "write_tm", "write_unlock"]
