/**
 * @file tcrx.hpp
 * @brief The receiver for C++17, over tcrx.h. It is header only, and needs no exceptions, no RTTI and no memory of its own.
 *
 * @par Proofs
 * The functions of the library are proved: each returns what its definition says, for all input that the C header
 * allows. This header is not proved. It passes each argument on, makes a value from each record that is returned, and
 * frees a channel once. Tests check that, with the cases of the calls from C. Nothing is proved about the memory to
 * which a view refers, about a view that outlives its memory, or about two threads that use one channel at the same
 * time.
 *
 * @par Results
 * A call that can fail returns a tcrx::Result. It is a value, or a tcrx::Error with the first reason why the call
 * failed. If the call failed, you may still read the value, but it means nothing.
 *
 * @par Memory
 * A channel requests its memory from rattle_alloc when it is created, and returns it to rattle_dealloc when it is
 * freed. libtcrx.so has these functions over malloc. With libtcrx.a, link tcrx_memory.c, tcrx_static.c, or two
 * functions of your own.
 */
#pragma once

#include "tcrx.h"

#include <array>
#include <cstddef>
#include <cstdint>
#include <iterator>
#include <type_traits>
#include <utility>

namespace tcrx {

/** The outcome of a call. tcrx.h describes each status. */
enum class Status : tcrx_status {
    // tools/c_interface writes the following lines from dist/tcrx.h.
    done = TCRX_DONE,
    too_short = TCRX_SHORT,
    bad_version = TCRX_BAD_VERSION,
    spare = TCRX_SPARE,
    length_small = TCRX_LENGTH_SMALL,
    truncated = TCRX_TRUNCATED,
    fill = TCRX_FILL,
    no_fecf = TCRX_NO_FECF,
    wrong_fecf = TCRX_WRONG_FECF,
    bad_field = TCRX_BAD_FIELD,
    empty_data = TCRX_EMPTY_DATA,
    too_long = TCRX_TOO_LONG,
    no_memory = TCRX_NO_MEMORY,
    long_packet = TCRX_LONG_PACKET,
    long_unit = TCRX_LONG_UNIT,
    long_frame = TCRX_LONG_FRAME,
    bad_size = TCRX_BAD_SIZE,
    no_segment = TCRX_NO_SEGMENT,
    bad_command = TCRX_BAD_COMMAND,
    bad_width = TCRX_BAD_WIDTH,
    bad_state = TCRX_BAD_STATE,
    bad_farm_b = TCRX_BAD_FARM_B,
    bad_flag = TCRX_BAD_FLAG,
    flags_disagree = TCRX_FLAGS_DISAGREE,
    bad_arrival = TCRX_BAD_ARRIVAL,
    no_entry = TCRX_NO_ENTRY,
    bad_vcid = TCRX_BAD_VCID,
    no_clcw = TCRX_NO_CLCW,
    no_packet = TCRX_NO_PACKET,
    no_room = TCRX_NO_ROOM,
    null = TCRX_NULL,
    no_status = TCRX_NO_STATUS,
    bad_buffer = TCRX_BAD_BUFFER,
    bad_apid = TCRX_BAD_APID,
    double_apid = TCRX_DOUBLE_APID,
    bad_capacity = TCRX_BAD_CAPACITY,
    bad_map = TCRX_BAD_MAP,
    double_map = TCRX_DOUBLE_MAP,
    bad_units = TCRX_BAD_UNITS,
    plain_map = TCRX_PLAIN_MAP,
    no_channel = TCRX_NO_CHANNEL,
    in_use = TCRX_IN_USE,
    no_queue = TCRX_NO_QUEUE,
    no_map = TCRX_NO_MAP,
    empty = TCRX_EMPTY,
    other_spacecraft = TCRX_OTHER_SPACECRAFT,
    unknown_channel = TCRX_UNKNOWN_CHANNEL,
    bad_others = TCRX_BAD_OTHERS,
    bad_limit_map = TCRX_BAD_LIMIT_MAP,
    double_limit = TCRX_DOUBLE_LIMIT,
    bad_limit = TCRX_BAD_LIMIT,
    plain_limit = TCRX_PLAIN_LIMIT,
    unlisted_map = TCRX_UNLISTED_MAP,
    long_cltu = TCRX_LONG_CLTU,
    bad_length = TCRX_BAD_LENGTH,
    no_control = TCRX_NO_CONTROL,
    bad_decoder = TCRX_BAD_DECODER
    // The lines that tools/c_interface writes end here.
};

/** A view of elements that are elsewhere, with their number. It is a std::span for C++17. */
template <typename Element>
class View {
public:
    constexpr View() noexcept = default;
    constexpr View(Element *at, std::size_t count) noexcept : at_(at), count_(count) {}

    /** Creates a view of an array. */
    template <std::size_t Count>
    constexpr View(Element (&array)[Count]) noexcept : at_(array), count_(Count) {}

    /** Creates a view of something that has data() and size(), such as std::array, std::vector, std::span and another
     * view. */
    template <typename Holder, typename = std::enable_if_t<
                                   std::is_convertible_v<decltype(std::declval<Holder &>().data()), Element *>>>
    constexpr View(Holder &holder) noexcept : at_(holder.data()), count_(holder.size()) {}
    template <typename Holder, typename = std::enable_if_t<
                                   std::is_convertible_v<decltype(std::declval<const Holder &>().data()), Element *>>>
    constexpr View(const Holder &holder) noexcept : at_(holder.data()), count_(holder.size()) {}

    constexpr Element *data() const noexcept { return at_; }
    constexpr std::size_t size() const noexcept { return count_; }
    constexpr bool empty() const noexcept { return count_ == 0; }
    constexpr Element *begin() const noexcept { return at_; }
    constexpr Element *end() const noexcept { return at_ + count_; }
    constexpr Element &operator[](std::size_t place) const noexcept { return at_[place]; }

    /** Returns the elements from a place on, at most `most` of them. The view is empty if there are none. */
    constexpr View part(std::size_t from, std::size_t most = static_cast<std::size_t>(-1)) const noexcept {
        const std::size_t left = from < count_ ? count_ - from : 0;
        return left == 0 ? View() : View(at_ + from, most < left ? most : left);
    }

private:
    Element *at_ = nullptr;
    std::size_t count_ = 0;
};

/** Octets that a call reads. */
using Octets = View<const std::uint8_t>;
/** Room to which a call writes octets. */
using Room = View<std::uint8_t>;

/** The reason why a call failed. */
struct Error {
    Status status = Status::done;
    /** The number of octets that the room must have if the status is Status::no_room, otherwise 0. */
    std::size_t needed = 0;
};

/** A value, or the reason why there is none. It is the part of std::expected that works without exceptions. */
template <typename Value>
class [[nodiscard]] Result {
public:
    constexpr Result(Value value) noexcept : value_(std::move(value)) {}
    constexpr Result(Error error) noexcept : error_(error) {}

    constexpr bool has_value() const noexcept { return error_.status == Status::done; }
    constexpr explicit operator bool() const noexcept { return has_value(); }
    constexpr Value &value() & noexcept { return value_; }
    constexpr const Value &value() const & noexcept { return value_; }
    constexpr Value &&value() && noexcept { return std::move(value_); }
    constexpr Value &operator*() & noexcept { return value_; }
    constexpr const Value &operator*() const & noexcept { return value_; }
    constexpr Value &&operator*() && noexcept { return std::move(value_); }
    constexpr Value *operator->() noexcept { return &value_; }
    constexpr const Value *operator->() const noexcept { return &value_; }
    /** Returns the value, or another one if the call failed. */
    constexpr Value value_or(Value other) const & noexcept { return has_value() ? value_ : std::move(other); }
    constexpr const Error &error() const noexcept { return error_; }
    /** Returns Status::done, or the status of the error. */
    constexpr Status status() const noexcept { return error_.status; }

private:
    Value value_{};
    Error error_{};
};

/** The text of a status, which ends with a 0. */
struct Text {
    std::array<char, TCRX_TEXT_ROOM> characters{};
    const char *c_str() const noexcept { return characters.data(); }
};

/** Returns the text of a status. The text is empty if the number isn't a status. */
inline Text text(Status status) noexcept {
    Text answer;
    tcrx_text(static_cast<tcrx_status>(status), answer.characters.data(), answer.characters.size());
    return answer;
}

/** A state of FARM-1. */
enum class State : std::uint8_t { open = TCRX_OPEN, wait = TCRX_WAIT, lockout = TCRX_LOCKOUT };

/** An arrival at FARM-1. */
enum class Arrival : std::uint8_t {
    ad = TCRX_AD,
    bd = TCRX_BD,
    unlock = TCRX_UNLOCK,
    set_vr = TCRX_SET_VR,
    invalid = TCRX_INVALID,
    release = TCRX_RELEASE
};

/** A row E1 to E10 of FARM-1's state table. */
enum class Event : std::uint8_t { none = 0, e1, e2, e3, e4, e5, e6, e7, e8, e9, e10 };

/** The kind of a frame, and the N(S) of a Type-AD frame or the new V(R) of a Set V(R). */
struct Kind {
    Arrival arrival = Arrival::invalid;
    std::uint8_t number = 0;
};

/** A CLCW, as a word. */
struct Clcw {
    std::uint32_t word = 0;
    constexpr std::uint8_t status_field() const noexcept { return bits(26, 7); }
    constexpr std::uint8_t vcid() const noexcept { return bits(18, 63); }
    constexpr bool no_rf() const noexcept { return bits(15, 1) != 0; }
    constexpr bool no_bit_lock() const noexcept { return bits(14, 1) != 0; }
    constexpr bool lockout() const noexcept { return bits(13, 1) != 0; }
    constexpr bool wait() const noexcept { return bits(12, 1) != 0; }
    constexpr bool retransmit() const noexcept { return bits(11, 1) != 0; }
    constexpr std::uint8_t farm_b() const noexcept { return bits(9, 3); }
    constexpr std::uint8_t vr() const noexcept { return bits(0, 255); }

private:
    constexpr std::uint8_t bits(unsigned from, std::uint32_t mask) const noexcept {
        return static_cast<std::uint8_t>(word >> from & mask);
    }
};

/** The parts of this header that callers don't use. */
namespace detail {

constexpr Error refused(tcrx_status status, std::size_t needed = 0) noexcept {
    return Error{static_cast<Status>(status), needed};
}

constexpr std::uint8_t flag(bool given) noexcept {
    return given ? 1 : 0;
}

/** Returns a pointer for a call. An empty view has no pointer, but the library must be given one. If a view has a count
 * but no pointer, the call still fails. */
inline const std::uint8_t *pointer(Octets octets) noexcept {
    static constexpr std::uint8_t nothing = 0;
    return octets.data() == nullptr && octets.empty() ? &nothing : octets.data();
}

/** Returns a pointer for room. Room of no octets, to which nothing is written, gets one as well. */
inline std::uint8_t *pointer(Room room, std::uint8_t &nothing) noexcept {
    return room.data() == nullptr && room.empty() ? &nothing : room.data();
}

constexpr Result<Octets> written(tcrx_written answer, Room room) noexcept {
    return answer.status == TCRX_DONE ? Result<Octets>(Octets(room.data(), answer.length)) : refused(answer.status, answer.length);
}

}  // namespace detail

/** The record of FARM-1: the width of its window and its six components. */
struct Farm {
    std::uint8_t width = 0;
    State state = State::open;
    std::uint8_t vr = 0;
    std::uint8_t farm_b = 0;
    bool lockout = false;
    bool wait = false;
    bool retransmit = false;

    static constexpr Farm of(const tcrx_farm &farm) noexcept {
        return {farm.width, static_cast<State>(farm.state), farm.vr, farm.farm_b, farm.lockout == 1, farm.wait == 1, farm.retransmit == 1};
    }
    constexpr tcrx_farm record() const noexcept {
        return {width, static_cast<std::uint8_t>(state), vr, farm_b, detail::flag(lockout), detail::flag(wait), detail::flag(retransmit)};
    }
};

/** The outcome of a step of FARM-1: the record after the step, the event, and whether the frame was accepted. */
struct Step {
    Farm farm;
    Event event = Event::none;
    bool accepted = false;
};

/** Starts FARM-1: tcrx_farm_start(). */
inline Result<Farm> start_farm(std::uint8_t width, std::uint8_t first_vr) noexcept {
    const tcrx_farm_answer answer = tcrx_farm_start(width, first_vr);
    return answer.status == TCRX_DONE ? Result<Farm>(Farm::of(answer.farm)) : detail::refused(answer.status);
}

/** Takes one step of FARM-1: tcrx_farm_step(). `room` says whether the buffer has room for the data field of a Type-AD
 * frame. */
inline Result<Step> step(const Farm &farm, Kind kind, bool room) noexcept {
    const tcrx_step_answer answer = tcrx_farm_step(farm.record(), static_cast<std::uint8_t>(kind.arrival), kind.number, detail::flag(room));
    if (answer.status != TCRX_DONE) {
        return detail::refused(answer.status);
    }
    return Step{Farm::of(answer.farm), static_cast<Event>(answer.event), answer.accepted == 1};
}

/** Returns the CLCW that reports a FARM-1: tcrx_clcw(). */
inline Result<Clcw> clcw(const Farm &farm, std::uint8_t vcid, bool no_rf = false, bool no_bit_lock = false) noexcept {
    const tcrx_clcw_answer answer = tcrx_clcw(farm.record(), vcid, detail::flag(no_rf), detail::flag(no_bit_lock));
    return answer.status == TCRX_DONE ? Result<Clcw>(Clcw{answer.word}) : detail::refused(answer.status);
}

/** Reads a word that must be a CLCW of COP-1: tcrx_read_clcw(). */
inline Result<Clcw> read_clcw(std::uint32_t word) noexcept {
    const tcrx_clcw_fields answer = tcrx_read_clcw(word);
    return answer.status == TCRX_DONE ? Result<Clcw>(Clcw{word}) : detail::refused(answer.status);
}

/** The primary header of a frame, without the frame length. */
struct Header {
    std::uint16_t scid = 0;
    std::uint8_t vcid = 0;
    std::uint8_t ns = 0;
    /** Whether the frame is of Type-B, and not of Type-A. */
    bool bypass = false;
    /** Whether the frame is of Type-C, and not of Type-D. */
    bool control = false;

    constexpr tcrx_header record() const noexcept { return {scid, vcid, ns, detail::flag(bypass), detail::flag(control)}; }
};

/** The frame at the front of octets. */
struct Frame {
    Header header;
    /** The octets of the frame. The first five are its header. */
    Octets octets;
    constexpr Octets field() const noexcept { return octets.part(5); }
};

/** Reads the frame at the front of octets: tcrx_read_frame(). The result refers to these octets. */
inline Result<Frame> read_frame(Octets octets) noexcept {
    const tcrx_frame answer = tcrx_read_frame(detail::pointer(octets), octets.size());
    if (answer.status != TCRX_DONE) {
        return detail::refused(answer.status);
    }
    const tcrx_header &read = answer.header;
    return Frame{Header{read.scid, read.vcid, read.ns, read.bypass == 1, read.control == 1}, octets.part(0, answer.length)};
}

/** Determines the kind of the frame at the front of octets: tcrx_kind(). */
inline Result<Kind> kind(Octets octets) noexcept {
    const tcrx_kind_answer answer = tcrx_kind(detail::pointer(octets), octets.size());
    return answer.status == TCRX_DONE ? Result<Kind>(Kind{static_cast<Arrival>(answer.kind), answer.number}) : detail::refused(answer.status);
}

/** Writes a frame to the front of room, and returns it from there: tcrx_write_frame(). */
inline Result<Octets> write_frame(const Header &header, Octets field, Room room) noexcept {
    std::uint8_t nothing = 0;
    std::uint8_t *const to = detail::pointer(room, nothing);
    return detail::written(tcrx_write_frame(header.record(), detail::pointer(field), field.size(), to, room.size()), room);
}

/** The way in which a unit is sent in segments. */
struct Segments {
    /** The header of the first frame. The N(S) of Type-AD frames counts up from there. */
    Header header;
    /** The MAP, at most 63. */
    std::uint8_t map = 0;
    /** The number of octets of the unit that a segment carries, 1 to 1,018. The last segment carries the octets that
     * are left. */
    std::uint16_t size = 1018;
};

/** Writes the frame that carries the segment at a place of a unit, counted from 0: tcrx_write_segment(). Behind the
 * last segment the status is Status::no_segment. */
inline Result<Octets> write_segment(const Segments &how, std::uint32_t place, Octets unit, Room room) noexcept {
    std::uint8_t nothing = 0;
    const std::uint8_t *const from = detail::pointer(unit);
    std::uint8_t *const to = detail::pointer(room, nothing);
    return detail::written(tcrx_write_segment(how.header.record(), how.map, how.size, place, from, unit.size(), to, room.size()), room);
}

/** Writes the Type-BC frame with a control command, of the kind Arrival::unlock or Arrival::set_vr:
 * tcrx_write_command(). */
inline Result<Octets> write_command(std::uint16_t scid, std::uint8_t vcid, Kind command, Room room) noexcept {
    std::uint8_t nothing = 0;
    std::uint8_t *const to = detail::pointer(room, nothing);
    return detail::written(tcrx_write_command(scid, vcid, static_cast<std::uint8_t>(command.arrival), command.number, to, room.size()), room);
}

/** Writes a frame with its frame error control field: tcrx_add_fecf(). */
inline Result<Octets> add_fecf(Octets frame, Room room) noexcept {
    std::uint8_t nothing = 0;
    return detail::written(tcrx_add_fecf(detail::pointer(frame), frame.size(), detail::pointer(room, nothing), room.size()), room);
}

/** Checks the frame error control field of a frame, and writes the frame without it: tcrx_check_fecf(). */
inline Result<Octets> check_fecf(Octets frame, Room room) noexcept {
    std::uint8_t nothing = 0;
    return detail::written(tcrx_check_fecf(detail::pointer(frame), frame.size(), detail::pointer(room, nothing), room.size()), room);
}

/** The primary header of a packet, without the packet length. By default it is that of an unsegmented telecommand
 * packet without a secondary header. */
struct PacketHeader {
    std::uint16_t apid = 0;
    /** The sequence count or the packet name. */
    std::uint16_t count = 0;
    bool telecommand = true;
    bool secondary = false;
    /** The sequence flags. */
    std::uint8_t sequence = 3;
};

/** The packet at the front of octets. Its first six octets are its primary header. */
struct Packet {
    std::uint16_t apid = 0;
    /** The sequence count or the packet name. */
    std::uint16_t count = 0;
    bool telecommand = false;
    bool secondary = false;
    /** The sequence flags. */
    std::uint8_t sequence = 0;
    Octets octets;

    /** Writes a packet to the front of room, and returns it from there: tcrx_write_packet(). */
    static Result<Octets> write(const PacketHeader &header, Octets field, Room room) noexcept {
        std::uint8_t nothing = 0;
        const tcrx_packet_header record = {header.apid, header.count, detail::flag(header.telecommand), detail::flag(header.secondary),
                                           header.sequence};
        std::uint8_t *const to = detail::pointer(room, nothing);
        return detail::written(tcrx_write_packet(record, detail::pointer(field), field.size(), to, room.size()), room);
    }
};

/** Reads the packet at the front of octets: tcrx_read_packet(). The result refers to these octets. */
inline Result<Packet> read_packet(Octets octets) noexcept {
    const tcrx_packet answer = tcrx_read_packet(detail::pointer(octets), octets.size());
    if (answer.status != TCRX_DONE) {
        return detail::refused(answer.status);
    }
    return Packet{answer.apid, answer.count, answer.telecommand == 1, answer.secondary == 1, answer.sequence, octets.part(0, answer.length)};
}

/** Writes the CLTU that carries a frame to the front of room, and returns it from there: tcrx_write_cltu(). */
inline Result<Octets> write_cltu(Octets frame, Room room) noexcept {
    std::uint8_t nothing = 0;
    return detail::written(tcrx_write_cltu(detail::pointer(frame), frame.size(), detail::pointer(room, nothing), room.size()), room);
}

/** The outcome for octets of a stream. */
struct Fed {
    /** Whether the last octet that was taken ended a candidate frame. */
    bool ended = false;
    /** The candidate frame, with fill behind it. It is valid until the next octets are fed. */
    Octets frame;
    /** The octets behind those that were taken. */
    Octets rest;
    /** The number of code blocks that ended in these octets and had one bit corrected. */
    std::uint64_t corrected = 0;
    /** The number of code blocks that were rejected in these octets, without tail sequences. */
    std::uint64_t rejected = 0;
    /** The number of CLTUs that carried more than 1,029 octets. They end no candidate frame. */
    std::uint64_t overlong = 0;
};

/** A decoder of CLTUs in a stream, with the octets that it holds: tcrx_cltu_octets(). */
class Decoder {
public:
    /** Creates a decoder that corrects one wrong bit in each code block, or only detects wrong bits. */
    explicit Decoder(bool correct) noexcept { kept_.correct = detail::flag(correct); }

    /** Takes the next octets of the stream. These are all octets, or those up to and including the first one that ends
     * a candidate frame. */
    Fed feed(Octets octets) noexcept {
        const tcrx_decoded answer = tcrx_cltu_octets(kept_, detail::pointer(octets), octets.size(), carried_.data(), carried_.size());
        kept_ = answer.decoder;
        const auto taken = static_cast<std::size_t>(answer.taken);
        const bool ended = answer.ended == 1;
        return {ended, ended ? Octets(carried_.data(), kept_.carried) : Octets(), Octets(octets.data() + taken, octets.size() - taken),
                answer.corrected, answer.rejected, answer.overlong};
    }

    /** Looks for a start sequence anew, as after a loss of bit lock: tcrx_cltu_search(). */
    void search() noexcept { kept_ = tcrx_cltu_search(kept_).decoder; }

private:
    tcrx_decoder kept_{};
    std::array<std::uint8_t, TCRX_DECODER_ROOM> carried_{};
};

/** Adds the random sequence to a frame, or to the octets that a CLTU carried, and writes the result to the front of
 * room: tcrx_randomise(). */
inline Result<Octets> randomise(Octets frame, Room room) noexcept {
    std::uint8_t nothing = 0;
    return detail::written(tcrx_randomise(detail::pointer(frame), frame.size(), detail::pointer(room, nothing), room.size()), room);
}

/** The ids and the frame counts in the primary header of a telemetry frame. */
struct TmHeader {
    std::uint16_t scid = 0;
    std::uint8_t vcid = 0;
    /** The master channel frame count: the number of earlier frames of the spacecraft, modulo 256. */
    std::uint8_t master_count = 0;
    /** The virtual channel frame count: the number of earlier frames of the virtual channel, modulo 256. */
    std::uint8_t channel_count = 0;
};

/** The fields of a telemetry frame. */
struct Tm {
    TmHeader header;
    /** The operational control field, for read_clcw(). */
    std::uint32_t clcw = 0;
    /** The first header pointer: 2,046 if all data are idle, 2,047 if no packet begins. */
    std::uint16_t pointer = 0;
};

/** Writes a telemetry frame of `size` octets that carries a CLCW to the front of room: tcrx_write_tm(). */
inline Result<Octets> write_tm(const TmHeader &header, bool fecf, Clcw clcw, std::uint16_t size, Room room) noexcept {
    std::uint8_t nothing = 0;
    const tcrx_tm_header record = {header.scid, header.vcid, header.master_count, header.channel_count};
    std::uint8_t *const to = detail::pointer(room, nothing);
    return detail::written(tcrx_write_tm(record, detail::flag(fecf), clcw.word, size, to, room.size()), room);
}

/** Reads octets that are one telemetry frame: tcrx_read_tm(). */
inline Result<Tm> read_tm(bool fecf, Octets octets) noexcept {
    const tcrx_tm answer = tcrx_read_tm(detail::flag(fecf), detail::pointer(octets), octets.size());
    if (answer.status != TCRX_DONE) {
        return detail::refused(answer.status);
    }
    const tcrx_tm_header &read = answer.header;
    return Tm{TmHeader{read.scid, read.vcid, read.master_count, read.channel_count}, answer.clcw, answer.pointer};
}

/** The settings from which a channel is created, apart from its queues. */
struct Settings {
    /** The virtual channel id, 0 to 63. */
    std::uint8_t vcid = 0;
    /** The width of the sliding window, even and 2 to 254. */
    std::uint8_t width = 0;
    /** The number of data fields that the buffer holds, 1 to 64. */
    std::uint8_t buffer = 0;
    /** V(R) at the start. */
    std::uint8_t first_vr = 0;
    /** Whether data fields begin with a segment header. */
    bool segmented = true;

    constexpr tcrx_settings record() const noexcept { return {vcid, width, buffer, first_vr, detail::flag(segmented)}; }
};

/** A queue for the packets of an application: its APID, and the number of packets that it holds. */
using Queue = tcrx_queue;
/** A chosen MAP, and the number of units that its queue holds. */
using Map = tcrx_map;
/** The limit of one MAP. A longer unit is dropped when it ends. */
using Limit = tcrx_limit;
using Queues = View<const Queue>;
using Maps = View<const Map>;

/** The limits for the units of each MAP. */
struct Limits {
    /** The largest number of octets in a unit of a MAP that isn't listed, at most 65,542. It may be 0 if there are
     * segment headers. */
    std::uint32_t others = 0;
    /** The MAPs with a limit of their own. Without segment headers the list must be empty. */
    View<const Limit> maps;
};

/** The outcome for the unit that an operation ended. If no unit ended, each number is 0. */
struct Delivery {
    std::uint32_t queued = 0;
    std::uint32_t dropped = 0;
    /** Whether octets were left that don't begin with a packet. */
    bool rest = false;
};

/** The outcome for a frame. */
struct Brought {
    Event event = Event::none;
    bool accepted = false;
    Delivery delivery;
};

/** Returns how many bytes the creation of a channel with these settings requests: tcrx_storage(). */
inline Result<std::uint64_t> storage(const Settings &settings, Queues queues, Maps maps = {}) noexcept {
    const tcrx_count answer = tcrx_storage(settings.record(), queues.data(), queues.size(), maps.data(), maps.size());
    return answer.status == TCRX_DONE ? Result<std::uint64_t>(answer.count) : detail::refused(answer.status);
}

/** Returns how many bytes the creation of a channel within limits requests: tcrx_storage_with_limits(). */
inline Result<std::uint64_t> storage(const Settings &settings, Queues queues, Maps maps, const Limits &limits) noexcept {
    const tcrx_count answer = tcrx_storage_with_limits(settings.record(), queues.data(), queues.size(), maps.data(), maps.size(),
                                                       limits.others, limits.maps.data(), limits.maps.size());
    return answer.status == TCRX_DONE ? Result<std::uint64_t>(answer.count) : detail::refused(answer.status);
}

/**
 * A virtual channel, or none. It can be moved but not copied, and is freed when its lifetime ends. A channel that was
 * moved from, freed or never created holds none, and each call on it fails with Status::no_channel.
 *
 * Only one call at a time may use a channel, including the calls for its counts. Threads that share a channel need a
 * lock.
 */
class Channel {
public:
    /** Creates a channel. The call fails as tcrx_channel_new() does. */
    static Result<Channel> make(const Settings &settings, Queues queues, Maps maps = {}) noexcept {
        Channel made;
        const tcrx_status status =
            tcrx_channel_new(&made.held_, settings.record(), queues.data(), queues.size(), maps.data(), maps.size());
        if (status != TCRX_DONE) {
            return detail::refused(status);
        }
        return made;
    }

    /** Creates a channel within limits. The call fails as tcrx_channel_new_with_limits() does. */
    static Result<Channel> make(const Settings &settings, Queues queues, Maps maps, const Limits &limits) noexcept {
        Channel made;
        const tcrx_status status = tcrx_channel_new_with_limits(&made.held_, settings.record(), queues.data(), queues.size(),
                                                                maps.data(), maps.size(), limits.others, limits.maps.data(),
                                                                limits.maps.size());
        if (status != TCRX_DONE) {
            return detail::refused(status);
        }
        return made;
    }

    Channel() noexcept = default;
    Channel(const Channel &) = delete;
    Channel &operator=(const Channel &) = delete;
    Channel(Channel &&other) noexcept : held_(std::exchange(other.held_, tcrx_channel{0, nullptr})) {}
    Channel &operator=(Channel &&other) noexcept {
        const tcrx_channel taken = std::exchange(other.held_, tcrx_channel{0, nullptr});
        free();
        held_ = taken;
        return *this;
    }
    ~Channel() { free(); }

    /** Returns whether a channel is held. */
    bool is_held() const noexcept { return held_.held == 1; }

    /** Brings the frame at the front of octets to the channel. The call doesn't look at the spacecraft and the channel
     * that the frame is for. A Rack does that. */
    Result<Brought> frame(Octets octets) noexcept {
        const tcrx_reply answer = tcrx_channel_frame(&held_, detail::pointer(octets), octets.size());
        if (answer.status != TCRX_DONE) {
            return detail::refused(answer.status);
        }
        return Brought{static_cast<Event>(answer.event), answer.accepted == 1, Delivery{answer.queued, answer.dropped, answer.rest == 1}};
    }

    /** Releases the oldest data field from the buffer to reassembly and the queues. */
    Result<Delivery> release() noexcept {
        const tcrx_delivery answer = tcrx_channel_release(&held_);
        if (answer.status != TCRX_DONE) {
            return detail::refused(answer.status);
        }
        return Delivery{answer.queued, answer.dropped, answer.rest == 1};
    }

    /** Takes the oldest packet out of a queue, writes it to the front of room, and returns it from there. If the status
     * is Status::no_room, the packet stays in its queue. */
    Result<Octets> take(std::uint16_t apid, Room room) noexcept {
        std::uint8_t nothing = 0;
        return detail::written(tcrx_channel_take(&held_, apid, detail::pointer(room, nothing), room.size()), room);
    }

    /** Takes the oldest unit out of the queue of a chosen MAP, as take() takes a packet. A unit may have no octets. */
    Result<Octets> take_unit(std::uint8_t map, Room room) noexcept {
        std::uint8_t nothing = 0;
        return detail::written(tcrx_channel_take_unit(&held_, map, detail::pointer(room, nothing), room.size()), room);
    }

    /** Returns the channel's CLCW, with the flags of the link. */
    Result<Clcw> clcw(bool no_rf = false, bool no_bit_lock = false) noexcept {
        const tcrx_clcw_answer answer = tcrx_channel_clcw(&held_, detail::flag(no_rf), detail::flag(no_bit_lock));
        return answer.status == TCRX_DONE ? Result<Clcw>(Clcw{answer.word}) : detail::refused(answer.status);
    }

    /** Returns the record of the channel's FARM-1. */
    Result<Farm> report() noexcept {
        const tcrx_farm_answer answer = tcrx_channel_report(&held_);
        return answer.status == TCRX_DONE ? Result<Farm>(Farm::of(answer.farm)) : detail::refused(answer.status);
    }

    /** Returns the number of data fields that wait in the buffer. */
    Result<std::uint64_t> buffered() noexcept { return counted(tcrx_channel_buffered(&held_)); }
    /** Returns the number of packets that wait in the queue of an application. */
    Result<std::uint64_t> queued(std::uint16_t apid) noexcept { return counted(tcrx_channel_queued(&held_, apid)); }
    /** Returns the number of units that wait in the queue of a chosen MAP. */
    Result<std::uint64_t> units(std::uint8_t map) noexcept { return counted(tcrx_channel_units(&held_, map)); }
    /** Returns the number of frames, releases and takes that were done. */
    Result<std::uint64_t> events() noexcept { return counted(tcrx_channel_events(&held_)); }

    /** Frees the channel before its lifetime ends. Returns Status::no_channel if none is held. */
    Status free() noexcept { return static_cast<Status>(tcrx_channel_free(&held_)); }

    /** Returns the record for calls of tcrx.h. */
    tcrx_channel *get() noexcept { return &held_; }

private:
    static Result<std::uint64_t> counted(const tcrx_count &answer) noexcept {
        return answer.status == TCRX_DONE ? Result<std::uint64_t>(answer.count) : detail::refused(answer.status);
    }

    tcrx_channel held_ = {0, nullptr};
};

/** The outcome for a frame, and the virtual channel id of the channel that took it in. */
struct Located {
    std::uint8_t vcid = 0;
    Brought brought;
};

/** The outcome for the frame at the front of a candidate, and the octets that follow the frame. */
struct Carried {
    Result<Located> frame;
    /** The octets behind the frame, or all octets if no frame was found. */
    Octets rest;
    /** Whether more octets follow the frame than can be fill. */
    bool more = false;
};

/**
 * The channels of a spacecraft, in an array that is elsewhere and outlives the rack. Places that hold no channel are
 * skipped.
 *
 * Only one call at a time may use a rack, and no other call may use one of its channels meanwhile.
 */
class Rack {
public:
    /** Creates a rack. `fecf` says whether frames end with the frame error control field, which is then checked. */
    Rack(std::uint16_t scid, View<Channel> channels, bool fecf = false) noexcept : channels_(channels), scid_(scid), fecf_(fecf) {}

    /** Brings the frame at the front of octets to the channel that it is for: tcrx_rack_frame(). */
    Result<Located> frame(Octets octets) noexcept {
        const tcrx_rack_reply answer =
            tcrx_rack_frame(first(), channels_.size(), scid_, detail::flag(fecf_), detail::pointer(octets), octets.size());
        return located(answer);
    }

    /** Brings the frame at the front of a candidate to the channel that it is for: tcrx_rack_candidate(). */
    Carried candidate(Octets octets) noexcept {
        const tcrx_candidate_reply answer =
            tcrx_rack_candidate(first(), channels_.size(), scid_, detail::flag(fecf_), detail::pointer(octets), octets.size());
        return {located(answer), Octets(octets.data() + answer.length, octets.size() - answer.length), answer.more == 1};
    }

    /** Returns the first channel with this virtual channel id, or a null pointer: tcrx_rack_find(). */
    Channel *find(std::uint8_t vcid) noexcept {
        const tcrx_place answer = tcrx_rack_find(first(), channels_.size(), vcid);
        return answer.status == TCRX_DONE ? channels_.data() + answer.place : nullptr;
    }

private:
    template <typename Reply> static Result<Located> located(const Reply &answer) noexcept {
        if (answer.status != TCRX_DONE) {
            return detail::refused(answer.status);
        }
        const Delivery delivery = {answer.queued, answer.dropped, answer.rest == 1};
        return Located{answer.vcid, Brought{static_cast<Event>(answer.event), answer.accepted == 1, delivery}};
    }

    // For the library, an array of channels is an array of their records.
    static_assert(std::is_standard_layout_v<Channel> && sizeof(Channel) == sizeof(tcrx_channel), "a channel is its record alone");

    tcrx_channel *first() noexcept { return channels_.empty() || channels_.data() == nullptr ? nullptr : channels_.data()->get(); }

    View<Channel> channels_;
    std::uint16_t scid_;
    bool fecf_;
};

}  // namespace tcrx
