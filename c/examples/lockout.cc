// Sends three telecommands to a channel. The third has an N(S) far outside the window, so FARM-1 goes to lockout. The
// channel is then unlocked, the third telecommand comes again with the expected N(S), and all three packets are taken.
#include <tcrx.hpp>

#include <array>
#include <cstdint>
#include <cstdio>
#include <utility>

namespace {

constexpr std::uint16_t spacecraft = 42;
constexpr std::uint8_t channel_id = 1, application = 5;

void bring(tcrx::Channel &channel, tcrx::Octets octets) {
    std::printf("frame E%u\n", static_cast<unsigned>(channel.frame(octets)->event));
}

// Sends the frame with this N(S) that carries this packet.
void send(tcrx::Channel &channel, std::uint8_t ns, std::uint8_t packet) {
    const std::uint8_t field[] = {0xc0, 0x10, application, 0xc0, packet, 0x00, 0x00, 0xaa};
    std::array<std::uint8_t, 64> room{};
    bring(channel, *tcrx::write_frame({spacecraft, channel_id, ns, false, false}, field, room));
}

void print_clcw(tcrx::Channel &channel) {
    std::printf("clcw %08x\n", static_cast<unsigned>(channel.clcw()->word));
}

void print_packets(tcrx::Channel &channel) {
    std::array<std::uint8_t, 64> room{};
    while (const tcrx::Result<tcrx::Octets> packet = channel.take(application, room)) {
        std::printf("packet ");
        for (const std::uint8_t octet : *packet) {
            std::printf("%02x", static_cast<unsigned>(octet));
        }
        std::printf("\n");
    }
}

}  // namespace

int main() {
    const std::uint8_t unlock[] = {0x30, spacecraft, channel_id << 2, 0x05, 0x00, 0x00};
    const tcrx::Queue queues[] = {{application, 8}};
    tcrx::Result<tcrx::Channel> made = tcrx::Channel::make({channel_id, 10, 4, 0}, queues);
    if (!made) {
        return 1;
    }
    tcrx::Channel channel = *std::move(made);
    send(channel, 0, 0);
    send(channel, 1, 1);
    send(channel, 50, 2);
    print_clcw(channel);
    bring(channel, unlock);
    send(channel, 2, 2);
    while (channel.release()) {
    }
    print_packets(channel);
    print_clcw(channel);
    return 0;
}
