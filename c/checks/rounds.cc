// Makes the rounds of c/checks/rounds.c on a channel of tcrx.hpp. The output is the number of packets that were taken.
//
//    rounds COUNT
#include "../../dist/tcrx.hpp"

#include <array>
#include <cstdint>
#include <cstdio>
#include <cstdlib>

int main(int count, char **words) {
    const tcrx::Queue queues[] = {{5, 16}};
    tcrx::Result<tcrx::Channel> made = tcrx::Channel::make({1, 10, 4, 0}, queues);
    if (count != 2 || !made) {
        return 2;
    }
    std::array<std::uint8_t, 13> frame = {0x00, 0x2a, 0x04, 0x0c, 0x00, 0xc0, 0x10, 0x05, 0xc0, 0x00, 0x00, 0x00, 0xaa};
    std::array<std::uint8_t, 64> packet{};
    const unsigned long rounds = std::strtoul(words[1], nullptr, 10);
    unsigned long taken = 0;
    for (unsigned long i = 0; i < rounds; i++) {
        frame[4] = static_cast<std::uint8_t>(i);
        const tcrx::Result<tcrx::Brought> brought = made->frame(frame);
        const tcrx::Result<tcrx::Delivery> delivery = made->release();
        const tcrx::Result<tcrx::Octets> written = made->take(5, packet);
        taken += brought->accepted && delivery->queued == 1 && written->size() == 7 ? 1 : 0;
    }
    std::printf("%lu packets in %lu rounds\n", taken, rounds);
    return taken == rounds ? 0 : 1;
}
