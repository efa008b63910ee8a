// Checks the edge cases of tcrx.hpp, for checks/bindings. Channels are moved, dropped, freed and used after that, each
// request for memory is refused in turn, and two channels work in two threads. Views of nothing and bad settings are
// passed. Each field that is read or reported is compared with the rows of fields.h. The program is linked with
// c/checks/refusing_memory.c. The last line of the output is the number of checks that passed.
#include "../../dist/tcrx.hpp"
#include "fields.h"

#include <algorithm>
#include <array>
#include <cstdint>
#include <cstdio>
#include <iterator>
#include <string>
#include <thread>
#include <utility>
#include <vector>

extern "C" long tcrx_refuse(long growth);
extern "C" long tcrx_blocks();

namespace {

using Bytes = std::vector<std::uint8_t>;
constexpr tcrx::Settings settings = {1, 10, 4, 0};
const std::array<tcrx::Queue, 2> queues = {{{5, 4}, {9, 2}}};
const std::array<tcrx::Map, 1> maps = {{{2, 3}}};
int passed = 0;
int failed = 0;

void expect(bool good, const std::string &what) {
    (good ? passed : failed) += 1;
    if (!good) {
        std::printf("ends: %s: WRONG\n", what.c_str());
    }
}

tcrx::Channel make() {
    return *tcrx::Channel::make(settings, queues, maps);
}

// Returns a frame of spacecraft 42 on channel 1, written by the library.
Bytes frame(std::uint8_t number, bool bypass, const Bytes &field) {
    Bytes room(1024);
    const tcrx::Result<tcrx::Octets> written = tcrx::write_frame({42, 1, number, bypass, false}, field, room);
    room.resize(written->size());
    return room;
}

Bytes first_packet() {
    return frame(0, false, {0xc0, 0x10, 0x05, 0xc0, 0x00, 0x00, 0x00, 0xaa});
}

// Returns all that a channel can report, as numbers.
std::vector<std::uint64_t> look(tcrx::Channel &channel) {
    const tcrx::Farm farm = channel.report().value();
    return {channel.clcw(true).value().word,   farm.vr, farm.farm_b, farm.width, channel.buffered().value(), channel.queued(5).value(),
            channel.queued(9).value(), channel.units(2).value(), channel.events().value()};
}

// Returns whether each call of a channel fails as if no channel were held.
bool is_none(tcrx::Channel &channel) {
    Bytes room(8);
    constexpr tcrx::Status none = tcrx::Status::no_channel;
    return !channel.is_held() && channel.frame(first_packet()).status() == none && channel.release().status() == none
        && channel.take(5, room).status() == none && channel.take_unit(2, room).status() == none && channel.clcw().status() == none
        && channel.report().status() == none && channel.buffered().status() == none && channel.queued(5).status() == none
        && channel.units(2).status() == none && channel.events().status() == none && channel.free() == none;
}

void check_moves() {
    tcrx::Channel never;
    expect(is_none(never), "a channel that was never made");
    tcrx::Channel first = make();
    const long of_one = tcrx_blocks();
    expect(first.frame(first_packet())->event == tcrx::Event::e1, "a frame before a move");
    const std::vector<std::uint64_t> before = look(first);
    tcrx::Channel second(std::move(first));
    expect(is_none(first), "a channel that was moved from");  // NOLINT: it holds none
    expect(look(second) == before, "the channel after a move");
    tcrx::Channel third = make();
    third = std::move(second);
    expect(look(third) == before && is_none(second), "a move over a channel that is held");
    expect(tcrx_blocks() <= of_one + 2, "the freed channel that a move replaced");
    tcrx::Channel &same = third;
    third = std::move(same);
    expect(look(third) == before, "a move onto itself");
    std::swap(third, second);
    expect(look(second) == before && is_none(third), "a swap");
    expect(second.free() == tcrx::Status::done && is_none(second), "a channel that was freed");
    expect(tcrx_blocks() == 0, "no block is left of freed channels");
    second = make();
    expect(second.is_held() && second.events().value() == 0, "a new channel in the place of a freed one");
}

void check_drops() {
    {
        std::vector<tcrx::Channel> channels;
        for (int i = 0; i < 20; i++) {
            channels.push_back(make());
            (void)channels.back().frame(first_packet());
        }
        expect(channels.front().buffered().value() == 1 && tcrx_blocks() > 0, "channels in a vector that grows");
    }
    expect(tcrx_blocks() == 0, "no block is left of channels that ended");
}

// Refuses each block of a channel that is created. growths.c checks that no other call requests one.
void check_refused_growths() {
    const tcrx::Limit listed[] = {{0, 64}, {2, 6}};
    const tcrx::Limits limits = {0, listed};
    int refusals = 0;
    tcrx::Channel channel;
    const auto made = [&] {
        tcrx::Result<tcrx::Channel> result = tcrx::Channel::make(settings, queues, maps, limits);
        if (result) {
            channel = std::move(*result);
        }
        return result.status();
    };
    for (long growth = 0; growth < 1000; growth++) {
        tcrx_refuse(growth);
        const tcrx::Status status = made();
        if (tcrx_refuse(-1) >= 0) {
            break;
        }
        refusals += 1;
        expect(status == tcrx::Status::no_memory && tcrx_blocks() == 0, "a channel that isn't made");
    }
    expect(channel.is_held() && refusals > 0, "a channel that is made in the end");
    expect(refusals >= 8, std::to_string(refusals) + " growths were refused");
    std::printf("ends: %d growths refused\n", refusals);
}

// Makes rounds on a channel of its own. Returns how many packets came out as they were sent.
int rounds(std::uint8_t octet, int count) {
    tcrx::Channel channel = make();
    std::array<std::uint8_t, 64> room{};
    int good = 0;
    for (int i = 0; i < count; i++) {
        const Bytes sent = frame(static_cast<std::uint8_t>(i), false, {0xc0, 0x10, 0x05, 0xc0, 0x00, 0x00, 0x00, octet});
        const bool came = channel.frame(sent)->accepted && channel.release()->queued == 1;
        const tcrx::Result<tcrx::Octets> taken = channel.take(5, room);
        good += came && taken && taken->size() == 7 && (*taken)[6] == octet ? 1 : 0;
    }
    return good;
}

void check_threads() {
    std::array<int, 2> good{};
    std::array<std::thread, 2> threads;
    for (std::size_t i = 0; i < threads.size(); i++) {
        threads[i] = std::thread([&good, i] { good[i] = rounds(static_cast<std::uint8_t>(0xa0 + i), 5000); });
    }
    for (std::thread &thread : threads) {
        thread.join();
    }
    expect(good[0] == 5000 && good[1] == 5000, "two channels in two threads");
}

void check_views() {
    tcrx::Channel channel = make();
    expect(channel.frame({}).status() == tcrx::Status::too_short, "no octets");
    expect(channel.frame({nullptr, 6}).status() == tcrx::Status::null, "six octets at a null pointer");
    expect(tcrx::read_frame({}).status() == tcrx::Status::too_short, "no octets to be read");
    expect(tcrx::read_packet({}).status() == tcrx::Status::no_packet, "no octets of a packet");
    expect(tcrx::write_frame({}, {}, {}).status() == tcrx::Status::empty_data, "a frame of nothing");
    const Bytes field = {1, 2, 3};
    const tcrx::Result<tcrx::Octets> written = tcrx::write_frame({}, field, {});
    expect(written.status() == tcrx::Status::no_room && written.error().needed == 8, "a frame into no room");
    const Bytes sent = first_packet();
    const tcrx::Result<tcrx::Frame> read = tcrx::read_frame(sent);
    expect(read->field().size() == 8 && read->field().data() == sent.data() + 5, "the data field of a frame");
    expect(tcrx::Octets(sent).part(99).empty() && tcrx::Octets(sent).part(1, 2).size() == 2, "parts of a view");
    (void)channel.frame(sent);
    (void)channel.release();
    const tcrx::Result<tcrx::Octets> taken = channel.take(5, {});
    expect(taken.status() == tcrx::Status::no_room && taken.error().needed == 7, "a packet into no room");
    expect(channel.take(6, {}).status() == tcrx::Status::no_queue && channel.take_unit(3, {}).status() == tcrx::Status::no_map, "no such queue");
    expect(taken.value_or(sent).size() == sent.size() && taken->empty(), "the value of a refused call");
}

// Checks a rack: the channel that a frame goes to, and each refusal.
void check_racks() {
    using tcrx::Status;
    const tcrx::Settings five = {5, 10, 4, 7}, eight = {8, 10, 4, 7};
    std::array<tcrx::Channel, 4> channels;
    channels[1] = *tcrx::Channel::make(five, {}, {}, {64, {}});
    channels[2] = *tcrx::Channel::make(five, {}, {}, {64, {}});
    channels[3] = *tcrx::Channel::make(eight, {}, {}, {64, {}});
    tcrx::Rack rack(675, channels), ended_rack(675, channels, true);
    const auto frame_to = [](std::uint16_t scid, std::uint8_t vcid, bool ended) {
        Bytes room(16), plain = {0xc0, 0xaa};
        const Bytes frame = [&] {
            const tcrx::Result<tcrx::Octets> written = tcrx::write_frame({scid, vcid, 7, false, false}, plain, room);
            return Bytes(written->begin(), written->end());
        }();
        const tcrx::Result<tcrx::Octets> added = tcrx::add_fecf(frame, room);
        return ended ? Bytes(added->begin(), added->end()) : frame;
    };
    const tcrx::Result<tcrx::Located> first = rack.frame(frame_to(675, 5, false)), other = ended_rack.frame(frame_to(675, 8, true));
    expect(first && first->vcid == 5 && first->brought.event == tcrx::Event::e1 && first->brought.accepted, "a frame of a rack");
    expect(other && other->vcid == 8 && other->brought.event == tcrx::Event::e1, "a frame of a rack with its field");
    expect(channels[1].events().value() == 1 && channels[2].events().value() == 0 && channels[3].events().value() == 1, "the events of a rack");
    expect(rack.find(5) == &channels[1] && rack.find(8) == &channels[3] && rack.find(9) == nullptr, "channels by their ids");
    expect(rack.frame(frame_to(676, 9, false)).status() == Status::other_spacecraft, "another spacecraft");
    expect(rack.frame(frame_to(675, 9, false)).status() == Status::unknown_channel, "another channel");
    Bytes wrong = frame_to(676, 9, true), fill = frame_to(675, 5, true);
    wrong.back() ^= 1;
    fill.push_back(0);
    expect(ended_rack.frame(wrong).status() == Status::wrong_fecf && ended_rack.frame(fill).status() == Status::fill, "a wrong field, and fill");
    expect(ended_rack.frame(frame_to(675, 5, false)).status() == Status::no_fecf, "no field");
    expect(rack.frame({}).status() == Status::too_short, "no octets of a rack");
    expect(rack.candidate({}).frame.status() == Status::too_short, "a candidate of no octets");
    expect(channels[1].free() == Status::done && rack.find(5) == &channels[2], "the next channel with that id");
    expect(tcrx::Rack(675, {}).frame(frame_to(675, 5, false)).status() == Status::unknown_channel, "a rack of no channel");
    expect(tcrx::Rack(675, {nullptr, 1}).frame(frame_to(675, 5, false)).status() == Status::null, "a rack at a null pointer");
}

// Returns a Type-BD frame of 51 octets for a channel of spacecraft 675, with its frame error control field.
Bytes bypass_frame(std::uint8_t vcid) {
    const Bytes field(44, 0xaa);
    Bytes plain(64), ended(64);
    const tcrx::Result<tcrx::Octets> written = tcrx::write_frame({675, vcid, 0, true, false}, field, plain);
    const tcrx::Result<tcrx::Octets> added = tcrx::add_fecf(*written, ended);
    return Bytes(added->begin(), added->end());
}

// Brings a candidate of frames of 51 octets, which are for channels 5 and 8 in turn and have 6 octets of fill behind
// them. The frame at the place `refused` has a wrong field. Returns whether each outcome is right.
bool is_carried(tcrx::Rack &rack, tcrx::Octets candidate, std::size_t refused) {
    bool good = true;
    for (std::size_t place = 0; candidate.size() > 6; place++) {
        const tcrx::Carried carried = rack.candidate(candidate);
        const bool as_wanted = place == refused
            ? carried.frame.status() == tcrx::Status::wrong_fecf
            : carried.frame && carried.frame->vcid == (place % 2 == 0 ? 5 : 8) && carried.frame->brought.event == tcrx::Event::e6;
        const tcrx::Octets rest = candidate.part(51);
        const bool is_behind = carried.rest.data() == rest.data() && carried.rest.size() == rest.size();
        good = good && as_wanted && is_behind && carried.more == (rest.size() > 6);
        candidate = rest;
    }
    return good;
}

// Checks a candidate of twenty frames, and one of three frames, the middle one of which is refused.
void check_candidates() {
    std::array<tcrx::Channel, 2> channels;
    channels[0] = *tcrx::Channel::make({5, 10, 4, 7}, {}, {}, {64, {}});
    channels[1] = *tcrx::Channel::make({8, 10, 4, 7}, {}, {}, {64, {}});
    tcrx::Rack rack(675, channels, true);
    Bytes octets;
    for (std::uint8_t place = 0; place < 20; place++) {
        const Bytes one = bypass_frame(place % 2 == 0 ? 5 : 8);
        octets.insert(octets.end(), one.begin(), one.end());
    }
    octets.resize(20 * 51 + 6, 0x55);
    expect(is_carried(rack, octets, 20), "a candidate of twenty frames");
    expect(channels[0].events().value() == 10 && channels[1].events().value() == 10, "the events of twenty frames");
    octets.resize(3 * 51);
    octets.resize(3 * 51 + 6, 0x55);
    octets[101] ^= 1;
    expect(is_carried(rack, octets, 1), "a candidate of three frames of which the middle one is refused");
    expect(channels[0].events().value() == 12 && channels[1].events().value() == 10, "the events of two frames of three");
}

// Returns whether these are the fields of a row.
template <std::size_t Count>
bool are_fields(const std::array<std::size_t, Count> &found, const std::uint32_t (&wanted)[Count]) {
    return std::equal(found.begin(), found.end(), std::begin(wanted));
}

// Checks each row of frames, and the kinds, which are in the order of the rows. A frame that was read is written again.
void check_frames() {
    using tcrx::Arrival;
    constexpr Arrival arrivals[] = {Arrival::bd, Arrival::unlock, Arrival::set_vr, Arrival::ad, Arrival::invalid};
    const Arrival *arrival = arrivals;
    for (const frame_row &row : frame_rows) {
        const tcrx::Result<tcrx::Frame> read = tcrx::read_frame({row.octets, row.count});
        const tcrx::Result<tcrx::Kind> kind = tcrx::kind({row.octets, row.count});
        const tcrx::Header &header = read->header;
        const std::array<std::size_t, OF_FRAME> found = {header.scid,    header.vcid,         header.ns,     header.bypass,
                                                         header.control, read->octets.size(), row.fields[6], kind->number};
        expect(read && are_fields(found, row.fields) && read->octets.data() == row.octets, "the fields of a frame");
        expect(kind && kind->arrival == *arrival++, "the kind of a frame");
        Bytes room(MOST_OCTETS);
        const tcrx::Result<tcrx::Octets> written = tcrx::write_frame(header, read->field(), room);
        expect(Bytes(written->begin(), written->end()) == Bytes(row.octets, row.octets + row.fields[5]), "a frame written from its fields");
    }
}

// Checks each row of CLCWs and of packets.
void check_words_and_packets() {
    for (const clcw_row &row : clcw_rows) {
        const tcrx::Result<tcrx::Clcw> read = tcrx::read_clcw(row.word);
        const std::array<std::size_t, OF_CLCW> found = {read->status_field(), read->vcid(),    read->no_rf(),
                                                        read->no_bit_lock(),  read->lockout(), read->wait(),
                                                        read->retransmit(),   read->farm_b(),  read->vr()};
        expect(read && are_fields(found, row.fields) && read->word == row.word, "the fields of a CLCW");
    }
    for (const packet_row &row : packet_rows) {
        const tcrx::Result<tcrx::Packet> read = tcrx::read_packet({row.octets, row.count});
        const std::array<std::size_t, OF_PACKET> found = {read->octets.size(), read->apid,      read->count,
                                                          read->telecommand,   read->secondary, read->sequence};
        expect(read && are_fields(found, row.fields) && read->octets.data() == row.octets, "the fields of a packet");
        const tcrx::PacketHeader header = {read->apid, read->count, read->telecommand, read->secondary, read->sequence};
        Bytes room(MOST_OCTETS);
        const tcrx::Result<tcrx::Octets> written = tcrx::Packet::write(header, read->octets.part(6), room);
        expect(Bytes(written->begin(), written->end()) == Bytes(row.octets, row.octets + row.fields[0]), "a packet written from its fields");
    }
}

// Returns whether these are the octets of a row.
bool is_made(const tcrx::Result<tcrx::Octets> &made, const made_row &row) {
    return made && Bytes(made->begin(), made->end()) == Bytes(row.octets, row.octets + row.count);
}

// Checks each row of frames that calls write, and then one failing call for each way to write a frame.
void check_made() {
    using tcrx::Arrival;
    using tcrx::Status;
    const tcrx::Segments three = {{675, 37, 255}, 37, 3}, whole = {{675, 37, 200, true}, 37};
    Bytes room(16), again(16);
    for (std::uint32_t place = 0; place < 3; place++) {
        expect(is_made(tcrx::write_segment(three, place, made_unit, room), segment_rows[place]), "a segment");
    }
    expect(tcrx::write_segment(three, 3, made_unit, room).status() == Status::no_segment, "a segment behind the last one");
    expect(is_made(tcrx::write_segment(whole, 0, made_unit, room), whole_row), "a unit in one segment");
    expect(is_made(tcrx::write_command(675, 12, {Arrival::unlock, 77}, room), command_rows[0]), "Unlock");
    expect(is_made(tcrx::write_command(675, 12, {Arrival::set_vr, 9}, room), command_rows[1]), "Set V(R)");
    const tcrx::Octets plain = {frame_rows[0].octets, frame_rows[0].fields[5]};
    expect(is_made(tcrx::add_fecf(plain, room), fecf_row), "a frame with its field");
    const tcrx::Result<tcrx::Octets> taken = tcrx::check_fecf({fecf_row.octets, fecf_row.count}, again);
    expect(taken && Bytes(taken->begin(), taken->end()) == Bytes(plain.begin(), plain.end()), "a frame without its field");
    expect(tcrx::write_segment(three, 0, {}, {}).status() == Status::empty_data, "a segment of nothing");
    expect(tcrx::write_command(675, 12, {Arrival::bd, 0}, room).status() == Status::bad_command, "a bad command");
    expect(tcrx::Packet::write({}, {}, {}).status() == Status::empty_data, "a packet of nothing");
    expect(tcrx::add_fecf(plain, {}).error().needed == 10, "no room for a field");
    expect(tcrx::check_fecf(plain, {}).status() == Status::wrong_fecf, "a frame without a field");
}

// Checks a CLTU that stands between other octets, without a wrong bit and with one. The wrong bit is corrected in one
// mode, and the block is rejected in the other.
void check_streams() {
    for (std::size_t i = 0; i < 3; i++) {
        tcrx::Decoder decoder(i != 2);
        Bytes stream(cltu_octets, cltu_octets + sizeof cltu_octets), given;
        stream[5] ^= i == 0 ? 0 : 16;
        stream.insert(stream.begin(), 0xeb);
        stream.insert(stream.end(), {0xeb, 0x90});
        std::uint64_t corrected = 0, rejected = 0;
        for (tcrx::Octets rest = stream; rest.size() > 0;) {
            const tcrx::Fed fed = decoder.feed(rest);
            expect(fed.ended == (fed.frame.size() > 0) && fed.rest.size() == (fed.ended ? 2u : 0u), "the octets that are taken");
            given.insert(given.end(), fed.frame.begin(), fed.frame.end());
            corrected += fed.corrected;
            rejected += fed.rejected;
            rest = fed.rest;
        }
        Bytes carried(frame_rows[0].octets, frame_rows[0].octets + frame_rows[0].fields[5]);
        carried.resize(14, 0x55);
        expect(corrected == (i == 1 ? 1u : 0u) && rejected == (i == 2 ? 1u : 0u), "the counts of code blocks");
        expect(given == (i == 2 ? Bytes() : carried), "the octets that a CLTU carried");
    }
}

// Checks a search amid a CLTU, in each mode. It drops what the CLTU has carried so far, and the decoder keeps its mode.
// Then comes a CLTU that carries too much.
void check_searches() {
    for (const bool correct : {true, false}) {
        tcrx::Decoder decoder(correct);
        const Bytes whole(cltu_octets, cltu_octets + sizeof cltu_octets);
        Bytes wrong = whole;
        wrong[5] ^= 16;
        decoder.feed(tcrx::Octets(whole).part(0, 13));
        decoder.search();
        expect(!decoder.feed(tcrx::Octets(whole).part(13)).ended, "the rest of a CLTU behind a search");
        const tcrx::Fed fed = decoder.feed(wrong);
        expect(fed.ended == correct && (fed.corrected == 1) == correct && (fed.rejected == 0) == correct, "the mode behind a search");
        Bytes carried(frame_rows[0].octets, frame_rows[0].octets + frame_rows[0].fields[5]);
        carried.resize(14, 0x55);
        const tcrx::Octets given = decoder.feed(whole).frame;
        expect(Bytes(given.begin(), given.end()) == carried, "a CLTU behind a search");
        Bytes overlong = {0xeb, 0x90};
        for (unsigned block = 0; block < 148; block++) {
            overlong.insert(overlong.end(), {0, 0, 0, 0, 0, 0, 0, 0xfe});
        }
        const tcrx::Fed long_fed = decoder.feed(overlong);
        expect(!long_fed.ended && long_fed.overlong == 1, "a CLTU that carries too much");
    }
}

// Checks a CLTU, the random sequence and telemetry frames, and then one failing call for each of them.
void check_ends_of_the_link() {
    using tcrx::Status;
    const tcrx::Octets plain = {frame_rows[0].octets, frame_rows[0].fields[5]};
    const tcrx::TmHeader header = {675, 5, 200, 77};
    Bytes room(32);
    const tcrx::Result<tcrx::Octets> cltu = tcrx::write_cltu(plain, room);
    expect(cltu && Bytes(cltu->begin(), cltu->end()) == Bytes(cltu_octets, cltu_octets + sizeof cltu_octets), "a CLTU");
    expect(is_made(tcrx::randomise(plain, room), random_row), "a frame with the random sequence");
    expect(is_made(tcrx::write_tm(header, false, {TM_CLCW}, 13, room), tm_row), "a telemetry frame");
    expect(is_made(tcrx::write_tm(header, true, {TM_CLCW}, 15, room), tm_fecf_row), "a telemetry frame with its field");
    const tcrx::Result<tcrx::Tm> read = tcrx::read_tm(true, {tm_fecf_row.octets, tm_fecf_row.count});
    expect(read && read->clcw == TM_CLCW && read->pointer == 2046, "the fields of a telemetry frame");
    const tcrx::TmHeader &found = read->header;
    expect(found.scid == 675 && found.vcid == 5 && found.master_count == 200 && found.channel_count == 77, "the header of a telemetry frame");
    Bytes reporting(tm_row.octets, tm_row.octets + tm_row.count);
    reporting[9] |= 0x80;
    const tcrx::Result<tcrx::Tm> type_2 = tcrx::read_tm(false, reporting);
    expect(type_2 && type_2->clcw == 0x9d9484b5 && tcrx::read_clcw(type_2->clcw).status() == Status::no_clcw, "a Type-2 report");
    expect(tcrx::write_cltu({}, room).status() == Status::empty_data, "a CLTU of nothing");
    expect(tcrx::randomise(plain, {}).error().needed == 8, "no room for random octets");
    expect(tcrx::write_cltu(tcrx::Octets(Bytes(1030)), room).status() == Status::long_cltu, "a CLTU of too much");
    expect(tcrx::write_tm(header, true, {}, 12, room).status() == Status::bad_length, "a short telemetry frame");
    expect(tcrx::read_tm(true, {tm_row.octets, tm_row.count}).status() == Status::wrong_fecf, "a telemetry frame without a field");
    expect(tcrx::read_tm(false, tcrx::Octets(Bytes(11))).status() == Status::no_control, "a telemetry frame without a CLCW");
}

struct ReplyRow {
    Bytes octets;
    tcrx::Event event;
    tcrx::Delivery delivery;
    bool accepted;
};

const Bytes one_packet = {0x10, 0x05, 0xc0, 0x00, 0x00, 0x00, 0xaa};

// Returns a data field with `count` packets, and with one more octet at its end if there are several.
Bytes packets(int count) {
    Bytes field = {0xc0};
    for (int i = 0; i < count; i++) {
        field.insert(field.end(), one_packet.begin(), one_packet.end());
    }
    if (count > 1) {
        field.push_back(0x10);
    }
    return field;
}

// Returns a frame of each event with its reply, which was worked out by hand from CCSDS 232.1-B, 6.3. One frame has
// three packets, two of which find room.
std::vector<ReplyRow> reply_rows() {
    using tcrx::Event;
    return {
        {frame(252, false, {0xc0}), Event::e3, {}, false},
        {frame(250, false, packets(1)), Event::e1, {}, true},
        {frame(251, false, {0xc0}), Event::e2, {}, false},
        {frame(250, false, {0xc0}), Event::e4, {}, false},
        {frame(0, true, packets(3)), Event::e6, {2, 1, true}, true},
        {frame(0, true, {0xc2, 0xab, 0xcd}), Event::e6, {1, 0, false}, true},
        {frame(100, false, {0xc0}), Event::e5, {}, false},
        {{0x30, 0x2a, 0x04, 0x07, 0x00, 0x82, 0x00, 0x09}, Event::e8, {}, false},
        {{0x30, 0x2a, 0x04, 0x05, 0x00, 0x00}, Event::e7, {}, false},
        {{0x10, 0x2a, 0x04, 0x05, 0x00, 0x00}, Event::e9, {}, false},
    };
}

bool is(const tcrx::Delivery &found, const tcrx::Delivery &wanted) {
    return found.queued == wanted.queued && found.dropped == wanted.dropped && found.rest == wanted.rest;
}

// Checks the reply of each row, and the results of a release and of takes after them.
void check_replies() {
    const tcrx::Queue two[] = {{5, 2}};
    tcrx::Channel channel = *tcrx::Channel::make({1, 10, 1, 250}, two, maps, {32, {}});
    for (const ReplyRow &row : reply_rows()) {
        const tcrx::Result<tcrx::Brought> brought = channel.frame(row.octets);
        expect(brought && brought->event == row.event && brought->accepted == row.accepted && is(brought->delivery, row.delivery),
               "the reply to a frame");
    }
    expect(channel.buffered().value() == 1 && channel.queued(5).value() == 2 && channel.units(2).value() == 1, "the counts of waiting items");
    expect(is(channel.release().value(), {0, 1, false}), "the reply to a release");
    Bytes room(8), other(8);
    const tcrx::Result<tcrx::Octets> taken = channel.take(5, room), unit = channel.take_unit(2, other);
    expect(taken && Bytes(taken->begin(), taken->end()) == one_packet, "a packet that is taken");
    expect(unit && Bytes(unit->begin(), unit->end()) == Bytes({0xab, 0xcd}), "a unit that is taken");
    expect(channel.release().status() == tcrx::Status::empty && channel.take_unit(2, room).status() == tcrx::Status::empty, "empty queues");
    expect(channel.events().value() == 13 && channel.clcw()->word == 0x010400fb, "the events, and the CLCW");
}

// Checks the report of a channel after each step, in the order of the rows. Then checks its CLCW with each flag of the
// link alone.
void check_reports() {
    using tcrx::State;
    const tcrx::Settings tried = {step_settings.vcid, step_settings.width, step_settings.buffer, step_settings.first_vr};
    tcrx::Channel channel = *tcrx::Channel::make(tried, {}, {}, {16, {}});
    constexpr State states[] = {State::open, State::open, State::wait, State::open, State::lockout};
    const State *state = states;
    for (const step_row &row : step_rows) {
        expect(channel.frame(row.octets).status() == tcrx::Status::done, "a step");
        const tcrx::Farm farm = channel.report().value();
        const std::array<std::size_t, OF_FARM> found = {farm.width,   row.fields[1], farm.vr,        farm.farm_b,
                                                        farm.lockout, farm.wait,     farm.retransmit};
        expect(are_fields(found, row.fields) && farm.state == *state++, "a report");
    }
    const tcrx::Farm farm = channel.report().value();
    expect(channel.clcw(true, false)->word == link_words[0] && tcrx::clcw(farm, 1, true, false)->word == link_words[0], "No RF Available");
    expect(channel.clcw(false, true)->word == link_words[1] && tcrx::clcw(farm, 1, false, true)->word == link_words[1], "No Bit Lock");
}

void check_settings() {
    const auto status = [](const tcrx::Settings &tried, tcrx::Queues its_queues, tcrx::Maps its_maps) {
        const tcrx::Status made = tcrx::Channel::make(tried, its_queues, its_maps).status();
        return tcrx::storage(tried, its_queues, its_maps).status() == made ? made : tcrx::Status::no_status;
    };
    const auto within = [](const tcrx::Limits &limits) {
        const tcrx::Status made = tcrx::Channel::make(settings, queues, maps, limits).status();
        return tcrx::storage(settings, queues, maps, limits).status() == made ? made : tcrx::Status::no_status;
    };
    const tcrx::Limit of_two[] = {{2, 6}}, no_limit[] = {{2, 0}};
    using tcrx::Status;
    expect(status({1, 9, 4, 0}, {}, {}) == Status::bad_width && status({1, 10, 4, 0, false}, {}, maps) == Status::plain_map, "bad settings");
    expect(status(settings, {nullptr, 1}, {}) == Status::null && status(settings, {}, {}) == Status::done, "queues at a null pointer");
    expect(tcrx::storage(settings, queues, maps).value() > 65542, "a storage");
    expect(within({65543, {}}) == Status::bad_others && within({0, no_limit}) == Status::bad_limit, "bad limits");
    expect(within({0, {}}) == Status::unlisted_map && within({0, of_two}) == Status::done, "a limit of each MAP");
    expect(within({0, {nullptr, 1}}) == Status::null, "limits at a null pointer");
    const tcrx::Settings eight = {1, 10, 8, 0};
    const tcrx::Queue four[] = {{5, 8}, {6, 8}, {7, 8}, {8, 8}};
    const tcrx::Limit one[] = {{0, 1024}};
    expect(tcrx::storage(eight, four, {}, {0, one}).value() == 49624, "the storage of four queues of 8 with units of 1,024 octets");
    // The storage has 1,051 bytes for the buffer, 5,120 and 2 * 64 * 65,542 for open runs, 64 for each queue, 65,574
    // for each packet, and 4,096 for the table.
    std::vector<tcrx::Queue> many;
    for (std::uint16_t apid = 0; apid < 256; apid++) {
        many.push_back({apid, 256});
    }
    expect(tcrx::storage({1, 10, 1, 0}, many).value() == 4305873691, "a storage of more octets than 32 bits count");
    expect(std::string(tcrx::text(Status::empty).c_str()) == "nothing waits there", "a text");
    expect(tcrx::text(static_cast<Status>(99)).c_str()[0] == '\0', "the text of no status");
    const tcrx::Result<tcrx::Farm> farm = tcrx::start_farm(10, 7);
    const tcrx::Result<tcrx::Step> step = tcrx::step(*farm, {tcrx::Arrival::ad, 7}, true);
    expect(step->accepted && step->event == tcrx::Event::e1 && step->farm.vr == 8 && step->farm.width == 10, "a step of FARM-1");
    expect(tcrx::start_farm(9, 0).status() == Status::bad_width, "a FARM-1 of an odd width");
    expect(tcrx::clcw(*farm, 64).status() == Status::bad_vcid && tcrx::read_clcw(0xffffffff).status() == Status::no_clcw, "no CLCW");
}

}  // namespace

int main() {
    check_moves();
    check_drops();
    check_refused_growths();
    check_threads();
    check_views();
    check_racks();
    check_candidates();
    check_frames();
    check_words_and_packets();
    check_made();
    check_streams();
    check_searches();
    check_ends_of_the_link();
    check_replies();
    check_reports();
    check_settings();
    expect(tcrx_blocks() == 0, "no block is left");
    std::printf("ends: %d passed, %d failed\n", passed, failed);
    return failed == 0 && passed > 0 ? 0 : 1;
}
