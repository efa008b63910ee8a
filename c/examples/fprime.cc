/*
 * Shows how a component of F Prime calls a rack. F Prime generates the base class of the component from this model:
 *
 *     passive component TcReceiver {
 *       guarded input port frameIn: Fw.BufferSend
 *       output port frameReturn: Fw.BufferSend
 *       output port packetOut: Fw.Com
 *       telemetry Clcw: U32
 *     }
 *
 * The model also has the ports that telemetry needs. It was tried only with the stand-ins in c/checks/stand_ins, and
 * not with F Prime.
 */
#include "TcReceiverComponentAc.hpp"

#include <tcrx.h>

namespace Components {

class TcReceiver final : public TcReceiverComponentBase {
public:
    explicit TcReceiver(const char *name) : TcReceiverComponentBase(name) {}

    /** Creates the channels when the topology is set up. Nothing requests memory after that. */
    bool start() {
        const tcrx_settings settings = {1, 10, 4, 0, 1};
        const tcrx_queue queue = {APPLICATION, 8};
        const tcrx_limit limit = {0, MOST_UNIT};
        return tcrx_channel_new_with_limits(&m_rack[0], settings, &queue, 1, nullptr, 0, 0, &limit, 1) == TCRX_DONE;
    }

private:
    enum : uint16_t { SPACECRAFT = 42, CHANNELS = 1, APPLICATION = 5, MOST_UNIT = 256 };

    /** Handles a frame. A guarded port holds the component's lock, so two threads are never at the rack at the same
     * time. */
    void frameIn_handler(FwIndexType, Fw::Buffer &frame) override {
        (void)tcrx_rack_frame(m_rack, CHANNELS, SPACECRAFT, 0, frame.getData(), frame.getSize());
        frameReturn_out(0, frame);
        while (tcrx_channel_release(&m_rack[0]).status == TCRX_DONE) {
            sendPackets();
        }
        tlmWrite_Clcw(tcrx_channel_clcw(&m_rack[0], 0, 0).word);
    }

    void sendPackets() {
        uint8_t octets[MOST_UNIT];
        for (;;) {
            const tcrx_written taken = tcrx_channel_take(&m_rack[0], APPLICATION, octets, sizeof octets);
            if (taken.status != TCRX_DONE) {
                return;
            }
            Fw::ComBuffer packet(octets, taken.length);
            packetOut_out(0, packet, 0);
        }
    }

    tcrx_channel m_rack[CHANNELS] = {};
};

} // namespace Components

int main() {
    Components::TcReceiver receiver("tcReceiver");
    return receiver.start() && stand_in::bring(receiver) ? 0 : 1;
}
