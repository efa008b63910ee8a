// A spacecraft's receiver in C++, with two virtual channels behind one call. The channels are freed when the lifetime
// of their array ends. Frames end with their frame error control field, and the packets of a channel are for one
// application.
#include <tcrx.hpp>

#include <array>
#include <cstddef>
#include <cstdint>
#include <cstdio>
#include <utility>

namespace {

constexpr std::uint16_t spacecraft = 42, longest_unit = 256;
// The applications of channels 1 and 2.
constexpr std::array<std::uint16_t, 2> applications = {5, 7};
using Channels = std::array<tcrx::Channel, applications.size()>;

// Creates each channel, and moves it to its place. Prints the reason if that fails.
bool start(Channels &channels) {
    const tcrx::Limit limits[] = {{0, longest_unit}};
    for (std::uint8_t i = 0; i < channels.size(); i++) {
        const tcrx::Queue queues[] = {{applications[i], 8}};
        tcrx::Result<tcrx::Channel> made = tcrx::Channel::make({static_cast<std::uint8_t>(i + 1), 10, 4, 0}, queues, {}, {0, limits});
        if (!made) {
            std::printf("no channel: %s\n", tcrx::text(made.status()).c_str());
            return false;
        }
        channels[i] = *std::move(made);
    }
    return true;
}

// Sends an octet in a packet, as a ground test does. The frame ends with its frame error control field. `turned` has the
// bits of one octet of the frame that are flipped on the way.
void send(tcrx::Rack &rack, const tcrx::Header &header, std::uint16_t application, std::uint8_t octet, std::uint8_t turned = 0) {
    std::array<std::uint8_t, 64> packet{}, frame{}, sent{};
    const auto unit = tcrx::Packet::write({application}, tcrx::Octets(&octet, 1), packet);
    const auto bare = tcrx::write_segment({header}, 0, *unit, frame);
    const std::size_t length = tcrx::add_fecf(*bare, sent)->size();
    sent[12] ^= turned;
    const tcrx::Result<tcrx::Located> taken = rack.frame({sent.data(), length});
    if (taken) {
        std::printf("channel %u: E%u\n", static_cast<unsigned>(taken->vcid), static_cast<unsigned>(taken->brought.event));
    } else {
        std::printf("refused\n");
    }
}

// Releases all data fields, takes all packets, and prints the CLCW.
void serve(tcrx::Channel &channel, std::uint16_t application) {
    while (channel.release()) {
    }
    std::array<std::uint8_t, longest_unit> room{};
    while (const tcrx::Result<tcrx::Octets> packet = channel.take(application, room)) {
        std::printf("packet ");
        for (const std::uint8_t octet : *packet) {
            std::printf("%02x", static_cast<unsigned>(octet));
        }
        std::printf("\n");
    }
    std::printf("clcw %08x\n", static_cast<unsigned>(channel.clcw()->word));
}

}  // namespace

int main() {
    Channels channels;
    if (!start(channels)) {
        return 1;
    }
    tcrx::Rack rack(spacecraft, channels, true);
    send(rack, {spacecraft, 1, 0}, 5, 0xaa);
    send(rack, {spacecraft, 2, 0, true}, 7, 0xbb);
    send(rack, {spacecraft, 1, 1}, 5, 0xcc, 1);
    send(rack, {spacecraft, 3, 0}, 5, 0xdd);
    for (std::size_t i = 0; i < channels.size(); i++) {
        serve(channels[i], applications[i]);
    }
    return 0;
}
