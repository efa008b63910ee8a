"""A spacecraft's receiver in Python, with two virtual channels behind one call. Frames end with their frame error
control field, and the packets of a channel are for one application."""
from contextlib import ExitStack

from tcrx import Brought, Channel, Rack, add_fecf, write_packet, write_segments

SPACECRAFT = 42
APPLICATIONS = {1: 5, 2: 7}


# pylint: disable-next=too-many-arguments  # they are parts of a frame
def send(rack: Rack, vcid: int, application: int, octet: int, *, ns: int = 0, bypass: bool = False, turned: int = 0) -> None:
    """Sends an octet in a packet, as a ground test does. The frame ends with its frame error control field. `turned` has
    the bits of one octet of the frame that are flipped on the way."""
    packet = write_packet(application, 0, bytes([octet]))
    frames = write_segments(packet, scid=SPACECRAFT, vcid=vcid, ns=ns, map=0, bypass=bypass)
    sent = bytearray(add_fecf(frames[0]))
    sent[12] ^= turned
    brought = rack.bring(sent)
    print(f"channel {brought.channel}: {brought.event.name}" if isinstance(brought, Brought) else "refused")


def serve(channel: Channel, application: int) -> None:
    """Releases all data fields, takes all packets, and prints the CLCW."""
    while channel.release():
        pass
    for packet in channel.packets(application):
        print("packet", packet.hex())
    print(f"clcw {channel.clcw().word:08x}")


def main() -> None:
    """Creates the channels, which are freed at the end of the block."""
    with ExitStack() as made:
        channels = [made.enter_context(Channel(vcid, width=10, buffer=4, first=0, queues={application: 8}, limits={0: 256}))
                    for vcid, application in APPLICATIONS.items()]
        rack = Rack(SPACECRAFT, channels, fecf=True)
        send(rack, 1, 5, 0xaa)
        send(rack, 2, 7, 0xbb, bypass=True)
        send(rack, 1, 5, 0xcc, ns=1, turned=1)
        send(rack, 3, 5, 0xdd)
        for channel in channels:
            serve(channel, APPLICATIONS[channel.vcid])


if __name__ == "__main__":
    main()
