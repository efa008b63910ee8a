"""Sends three telecommands to a channel. The third has an N(S) far outside the window, so FARM-1 goes to lockout. The
channel is then unlocked, the third telecommand comes again with the expected N(S), and all three packets are taken."""
from tcrx import Brought, Channel

UNLOCK = bytes.fromhex("302a04050000")


def frame(number: int, packet: int) -> bytes:
    """Returns the frame with this N(S) that carries this packet."""
    return bytes.fromhex(f"002a040c{number:02x}c01005c0{packet:02x}0000aa")


def bring(channel: Channel, octets: bytes) -> None:
    """Brings a frame."""
    brought = channel.bring(octets)
    print("frame", brought.event.name if isinstance(brought, Brought) else brought)


def main() -> None:
    """Makes the pass."""
    with Channel(1, width=10, buffer=4, first=0, queues={5: 8}) as channel:
        for number, packet in ((0, 0), (1, 1), (50, 2)):
            bring(channel, frame(number, packet))
        print(f"clcw {channel.clcw().word:08x}")
        bring(channel, UNLOCK)
        bring(channel, frame(2, 2))
        while channel.release():
            pass
        for octets in channel.packets(5):
            print("packet", octets.hex())
        print(f"clcw {channel.clcw().word:08x}")


if __name__ == "__main__":
    main()
