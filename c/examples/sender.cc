// Sends commands, and a packet over both services, as a ground test does, in C++. Each frame is written into a buffer,
// printed, and read back.
#include <tcrx.hpp>

#include <array>
#include <cstdint>
#include <cstdio>

namespace {

constexpr std::uint16_t spacecraft = 42;
constexpr std::uint8_t channel = 1;

// Returns whether the frame was written and reads back.
bool send(const tcrx::Result<tcrx::Octets> &frame) {
    if (!frame) {
        return false;
    }
    for (const std::uint8_t octet : *frame) {
        std::printf("%02x", octet);
    }
    const tcrx::Result<tcrx::Kind> kind = tcrx::kind(*frame);
    std::printf(" kind %u number %u\n", static_cast<unsigned>(kind->arrival), static_cast<unsigned>(kind->number));
    const tcrx::Result<tcrx::Frame> read = tcrx::read_frame(*frame);
    return read && read->octets.size() == frame->size() && read->header.scid == spacecraft && read->header.vcid == channel;
}

}  // namespace

int main() {
    const std::uint8_t field[] = {0xaa};
    std::array<std::uint8_t, 7> packet_room{};
    std::array<std::uint8_t, 1024> room{};
    const tcrx::Result<tcrx::Octets> packet = tcrx::Packet::write({5}, field, packet_room);
    const tcrx::Segments type_ad = {{spacecraft, channel, 0}}, type_bd = {{spacecraft, channel, 7, true}};
    const bool sent = packet && send(tcrx::write_command(spacecraft, channel, {tcrx::Arrival::unlock}, room))
        && send(tcrx::write_command(spacecraft, channel, {tcrx::Arrival::set_vr, 77}, room))
        && send(tcrx::write_segment(type_ad, 0, *packet, room)) && send(tcrx::write_segment(type_bd, 0, *packet, room));
    return sent ? 0 : 1;
}
