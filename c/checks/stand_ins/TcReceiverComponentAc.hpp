/*
 * A stand-in for the code that F Prime generates from the model in c/examples/fprime.cc, and for the headers that this
 * code includes. It was written for this repository so that the example compiles and runs. Its ports print. It isn't a
 * part of F Prime, and shows nothing about it.
 */
#ifndef TC_RECEIVER_COMPONENT_AC_HPP
#define TC_RECEIVER_COMPONENT_AC_HPP

#include <cstddef>
#include <cstdint>
#include <cstdio>

using U32 = std::uint32_t;
using FwIndexType = std::int16_t;
using FwSizeType = std::size_t;

namespace Fw {

class Buffer {
public:
    Buffer(std::uint8_t *data, FwSizeType size) : m_data(data), m_size(size) {}
    std::uint8_t *getData() const { return m_data; }
    FwSizeType getSize() const { return m_size; }

private:
    std::uint8_t *m_data;
    FwSizeType m_size;
};

class ComBuffer {
public:
    ComBuffer(const std::uint8_t *data, FwSizeType size) : m_data(data), m_size(size) {}
    const std::uint8_t *getBuffAddr() const { return m_data; }
    FwSizeType getBuffLength() const { return m_size; }

private:
    const std::uint8_t *m_data;
    FwSizeType m_size;
};

} // namespace Fw

namespace Components {

class TcReceiverComponentBase {
public:
    explicit TcReceiverComponentBase(const char *name) : m_name(name) {}
    virtual ~TcReceiverComponentBase() = default;
    TcReceiverComponentBase(const TcReceiverComponentBase &) = delete;
    TcReceiverComponentBase &operator=(const TcReceiverComponentBase &) = delete;
    void frameIn(Fw::Buffer &frame) { frameIn_handler(0, frame); }

protected:
    virtual void frameIn_handler(FwIndexType port, Fw::Buffer &frame) = 0;
    void frameReturn_out(FwIndexType, const Fw::Buffer &frame) const { std::printf("%s: %u octets back\n", m_name, unsigned(frame.getSize())); }
    void packetOut_out(FwIndexType, const Fw::ComBuffer &packet, U32) const {
        std::printf("%s: packet ", m_name);
        for (FwSizeType i = 0; i < packet.getBuffLength(); i++) {
            std::printf("%02x", unsigned(packet.getBuffAddr()[i]));
        }
        std::printf("\n");
    }
    void tlmWrite_Clcw(U32 word) const { std::printf("%s: clcw %08x\n", m_name, unsigned(word)); }

private:
    const char *m_name;
};

} // namespace Components

namespace stand_in {

/** Brings Type-AD frames 0 and 2 of spacecraft 42, channel 1. Frame 2 is ahead of V(R), so that Retransmit is set. */
inline bool bring(Components::TcReceiverComponentBase &component) {
    std::uint8_t first[] = {0x00, 0x2a, 0x04, 0x0c, 0x00, 0xc0, 0x10, 0x05, 0xc0, 0x00, 0x00, 0x00, 0xaa};
    std::uint8_t ahead[] = {0x00, 0x2a, 0x04, 0x0c, 0x02, 0xc0, 0x10, 0x05, 0xc0, 0x02, 0x00, 0x00, 0xcc};
    Fw::Buffer one(first, sizeof first), other(ahead, sizeof ahead);
    component.frameIn(one);
    component.frameIn(other);
    return true;
}

} // namespace stand_in

#endif
