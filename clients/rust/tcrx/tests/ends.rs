//! Tests channels that are moved, dropped and sent to other threads, calls that fail, and each field that is read or
//! reported. The expected values were worked out by hand.

use std::error::Error;
use std::thread;
use tcrx::{
    add_fecf, check_fecf, randomise, write_cltu, Arrival, BringError, Brought, CandidateError, Channel, Clcw, Command, Decoder,
    Delivery, Event, Farm, FarmError, FecfError, Frame, FrameError, Header, Kind, Limit, Limits, Link, Map, Packet, PacketHeader,
    Queue, Rack, RackError, ReleaseError, Segments, Settings, SettingsError, State, TakeError, Tm, TmError, TmHeader, WriteError,
};

const PACKET: [u8; 7] = [0x10, 0x05, 0xc0, 0x00, 0x00, 0x00, 0xaa];
const QUEUES: &[Queue] = &[Queue { apid: 5, capacity: 4 }, Queue { apid: 9, capacity: 2 }];
const MAPS: &[Map] = &[Map { map: 2, capacity: 3 }];
const SETTINGS: Settings<'static> =
    Settings { vcid: 1, width: 10, buffer: 4, first_vr: 0, segmented: true, queues: QUEUES, maps: MAPS };

fn frame(ns: u8, bypass: bool, field: &[u8]) -> Vec<u8> {
    let mut room = [0; 1024];
    Header { scid: 42, vcid: 1, ns, bypass, control: false }.write(field, &mut room).expect("a frame").to_vec()
}

fn packet_frame(ns: u8, octet: u8) -> Vec<u8> {
    frame(ns, false, &[0xc0, 0x10, 0x05, 0xc0, 0x00, 0x00, 0x00, octet])
}

#[test]
fn a_channel_that_is_moved_is_the_same() {
    let mut channel = Channel::new(&SETTINGS).expect("settings");
    channel.frame(&packet_frame(0, 0xaa)).expect("a frame");
    let mut boxed = Box::new(channel);
    assert_eq!((boxed.events(), boxed.buffered(), boxed.report().vr), (1, 1, 1));
    assert_eq!(boxed.release(), Ok(Delivery { queued: 1, dropped: 0, rest: false }));
    let mut all: Vec<Channel> = (0..20).map(|_| Channel::new(&SETTINGS).expect("settings")).collect();
    all.push(*boxed);
    all.reverse();
    let mut room = [0; 64];
    assert_eq!(all[0].take(5, &mut room), Ok(&PACKET[..]));
    assert_eq!(all[0].queued(5), Some(0));
    let other = std::mem::replace(&mut all[0], Channel::new(&SETTINGS).expect("settings"));
    assert_eq!((other.events(), all[0].events()), (3, 0));
    other.close();
}

#[test]
fn two_channels_in_two_threads() {
    fn rounds(mut channel: Channel, octet: u8) -> u32 {
        let mut room = [0; 64];
        (0..5000u32)
            .filter(|number| {
                let accepted = channel.frame(&packet_frame(*number as u8, octet)).is_ok_and(|brought| brought.accepted);
                let queued = channel.release().is_ok_and(|delivery| delivery.queued == 1);
                accepted && queued && channel.take(5, &mut room).is_ok_and(|packet| packet.len() == 7 && packet[6] == octet)
            })
            .count() as u32
    }
    let threads: Vec<_> = [0xa0, 0xa1]
        .map(|octet| {
            let channel = Channel::new(&SETTINGS).expect("settings");
            thread::spawn(move || rounds(channel, octet))
        })
        .into();
    for thread in threads {
        assert_eq!(thread.join().expect("no panic"), 5000);
    }
}

#[test]
fn refused_settings_say_why() {
    let tried = [
        (Settings { width: 9, ..SETTINGS }, SettingsError::BadWidth),
        (Settings { queues: &[QUEUES[0], QUEUES[0]], ..SETTINGS }, SettingsError::DoubleApid),
        (Settings { maps: &[Map { map: 2, capacity: 0 }], ..SETTINGS }, SettingsError::BadUnits),
        (Settings { segmented: false, ..SETTINGS }, SettingsError::PlainMap),
    ];
    for (settings, error) in tried {
        assert_eq!(Channel::new(&settings).err(), Some(error));
        assert_eq!(settings.storage(), Err(error));
        assert!(!error.to_string().is_empty() && !error.to_string().starts_with("status"), "{error}");
    }
    assert!(SETTINGS.storage().expect("settings") > 65_542);
    let boxed: Box<dyn Error> = SettingsError::BadWidth.into();
    assert_eq!(boxed.to_string(), "the width of the window isn't even and 2 to 254");
    assert_eq!(SettingsError::Other(99).to_string(), "status 99");
    assert_eq!((SettingsError::BadWidth.status(), SettingsError::Other(99).status()), (20, 99));
}

#[test]
fn refused_limits_say_why() {
    let tried = [
        (Limits { others: 65_543, maps: &[] }, SettingsError::BadOthers),
        (Limits { others: 9, maps: &[Limit { map: 2, octets: 0 }] }, SettingsError::BadLimit),
        (Limits::default(), SettingsError::UnlistedMap),
    ];
    for (limits, error) in tried {
        assert_eq!(Channel::with_limits(&SETTINGS, &limits).err(), Some(error));
        assert_eq!(SETTINGS.storage_with_limits(&limits), Err(error));
        assert!(!error.to_string().starts_with("status"), "{error}");
    }
    let queues = [5, 6, 7, 8].map(|apid| Queue { apid, capacity: 8 });
    let eight = Settings { buffer: 8, queues: &queues, maps: &[], ..SETTINGS };
    let limits = Limits { others: 0, maps: &[Limit { map: 0, octets: 1_024 }] };
    assert_eq!(eight.storage_with_limits(&limits), Ok(49_624));
    assert!(Channel::with_limits(&eight, &limits).is_ok());
}

/// The storage has 1,051 octets for the buffer, 5,120 and 2 * 64 * 65,542 for open runs, 64 for each queue, 65,574 for each
/// packet, and 4,096 for the table.
#[test]
fn a_storage_of_more_octets_than_32_bits_count() {
    let queues: Vec<Queue> = (0..256).map(|apid| Queue { apid, capacity: 256 }).collect();
    let large = Settings { buffer: 1, queues: &queues, maps: &[], ..SETTINGS };
    assert_eq!(large.storage(), Ok(4_305_873_691));
    assert_eq!(large.storage_with_limits(&Limits { others: 65_542, maps: &[] }), Ok(4_305_873_691));
}

#[test]
fn refused_takes_say_what_they_need() {
    let mut channel = Channel::new(&SETTINGS).expect("settings");
    let mut room = [0; 6];
    assert_eq!((Frame::read(&[]), channel.frame(&[])), (Err(FrameError::Short), Err(BringError::Short)));
    assert_eq!(channel.release(), Err(ReleaseError::Empty));
    assert_eq!(channel.take(5, &mut room), Err(TakeError::Empty));
    assert_eq!(channel.take(6, &mut room), Err(TakeError::NoQueue));
    assert_eq!(channel.take_unit(3, &mut room), Err(TakeError::NoMap));
    channel.frame(&frame(0, true, &[0xc0, 0x10, 0x05, 0xc0, 0x00, 0x00, 0x00, 0xaa])).expect("a frame");
    assert_eq!(channel.take(5, &mut room), Err(TakeError::NoRoom { needed: 7 }));
    assert_eq!(channel.take(5, &mut []), Err(TakeError::NoRoom { needed: 7 }));
    assert_eq!((channel.queued(5), channel.queued(6), channel.units(2), channel.units(3)), (Some(1), None, Some(0), None));
    channel.frame(&frame(0, true, &[0xc2])).expect("a frame");
    assert_eq!(channel.take_unit(2, &mut []), Ok(&[][..]), "a unit of no octets");
    assert!(format!("{channel:?}").contains("events: 3"), "{channel:?}");
}

#[test]
fn single_calls() {
    let expected = |number| Kind { arrival: Arrival::Ad, number };
    assert_eq!(Header::default().write(&[], &mut [0; 64]), Err(WriteError::EmptyData));
    assert_eq!(Header::default().write(&[0; 8], &mut [0; 12]), Err(WriteError::NoRoom { needed: 13 }));
    let step = Farm::new(10, 7).expect("a width").step(expected(7), true).expect("a step");
    assert_eq!((step.event, step.accepted, step.farm.vr, step.farm.state), (Event::E1, true, 8, State::Open));
    let waits = step.farm.step(expected(8), false).expect("a step").farm;
    assert_eq!((waits.state, waits.wait, waits.retransmit), (State::Wait, true, true));
    assert_eq!(waits.step(expected(8), true), Err(FarmError::NoEntry));
    let released = waits.step(Kind { arrival: Arrival::Release, number: 0 }, true).expect("a step");
    assert_eq!((released.event, released.farm.state), (Event::E10, State::Open));
    assert_eq!(Farm::new(9, 0), Err(FarmError::BadWidth));
    assert_eq!(waits.clcw(64, false, false), Err(FarmError::BadVcid));
    assert_eq!((Clcw::read(u32::MAX), Packet::read(&[])), (None, None));
    let channel = Channel::new(&SETTINGS).expect("settings");
    assert!(channel.clcw(Link { no_rf: false, no_bit_lock: true }).no_bit_lock());
}

/// Returns a frame for this spacecraft and channel whose data field has two octets. If `fecf` is set, the frame ends with a frame
/// error control field.
fn located_frame(scid: u16, vcid: u8, fecf: bool) -> Vec<u8> {
    let (mut room, mut ended) = ([0; 16], [0; 16]);
    let header = Header { scid, vcid, ns: 7, bypass: false, control: false };
    let plain = header.write(&[0xc0, 0xaa], &mut room).expect("a frame");
    if fecf {
        add_fecf(plain, &mut ended).expect("a field").to_vec()
    } else {
        plain.to_vec()
    }
}

#[test]
fn a_rack_gives_each_frame_to_its_channel() {
    let settings = |vcid| Settings { vcid, width: 10, buffer: 4, first_vr: 7, segmented: true, queues: &[], maps: &[] };
    let limits = Limits { others: 64, maps: &[] };
    let mut channels: Vec<Channel> =
        [5, 5, 8].into_iter().map(|vcid| Channel::with_limits(&settings(vcid), &limits).expect("settings")).collect();
    let mut rack = Rack { scid: 675, fecf: false, channels: &mut channels };
    let (vcid, brought) = rack.frame(&located_frame(675, 5, false)).expect("a frame");
    assert_eq!((vcid, brought.event, brought.accepted), (5, Event::E1, true));
    assert_eq!(rack.frame(&located_frame(676, 9, false)), Err(RackError::OtherSpacecraft));
    assert_eq!(rack.frame(&located_frame(675, 9, false)), Err(RackError::UnknownChannel));
    assert_eq!(rack.frame(&[]), Err(RackError::Short));
    rack.fecf = true;
    let mut octets = located_frame(675, 8, true);
    octets.push(0);
    assert_eq!(rack.frame(&octets), Err(RackError::Fill));
    octets.pop();
    let (vcid, brought) = rack.frame(&octets).expect("a frame");
    assert_eq!((vcid, brought.event, brought.accepted), (8, Event::E1, true));
    octets[8] ^= 1;
    assert_eq!(rack.frame(&octets), Err(RackError::WrongFecf));
    assert_eq!(rack.frame(&located_frame(675, 8, false)), Err(RackError::NoFecf));
    assert_eq!(rack.frame(&located_frame(676, 9, true)), Err(RackError::OtherSpacecraft));
    assert_eq!(rack.candidate(&[]).frame, Err(CandidateError::Short));
    assert_eq!(rack.channel(8).map(|channel| channel.events()), Some(1));
    assert_eq!(rack.channel(5).map(|channel| channel.release()), Some(Ok(Delivery { queued: 0, dropped: 0, rest: true })));
    assert!(rack.channel(9).is_none() && rack.channel(255).is_none());
    let events: Vec<u64> = channels.iter().map(Channel::events).collect();
    assert_eq!(events, [2, 0, 1]);
    let mut none = Rack { scid: 675, fecf: false, channels: &mut [] };
    assert_eq!(none.frame(&located_frame(675, 5, false)), Err(RackError::UnknownChannel));
}

/// One candidate has twenty frames. The other has three, and the middle one is refused. Each frame is of Type-BD, has 51 octets
/// with its frame error control field, and is for channel 5 or 8 in turn. Six octets of fill follow the last frame.
#[test]
fn candidates_of_several_frames() {
    let settings = |vcid| Settings { vcid, queues: &[], maps: &[], ..SETTINGS };
    let limits = Limits { others: 64, maps: &[] };
    let mut channels = [5, 8].map(|vcid| Channel::with_limits(&settings(vcid), &limits).expect("settings"));
    let mut rack = Rack { scid: 675, fecf: true, channels: &mut channels };
    let frame_of = |place: usize| {
        let (mut room, mut ended) = ([0; 64], [0; 64]);
        let header = Header { scid: 675, vcid: [5, 8][place % 2], ns: 0, bypass: true, control: false };
        add_fecf(header.write(&[0xaa; 44], &mut room).expect("a frame"), &mut ended).expect("a field").to_vec()
    };
    for (count, refused) in [(20, 20), (3, 1)] {
        let mut candidate: Vec<u8> = (0..count).flat_map(frame_of).chain([0x55; 6]).collect();
        if refused < count {
            candidate[51 * refused + 50] ^= 1;
        }
        let mut rest = &candidate[..];
        for place in 0..count {
            let carried = rack.candidate(rest);
            let wanted = if place == refused { Err(CandidateError::WrongFecf) } else { Ok(([5, 8][place % 2], Event::E6)) };
            assert_eq!(carried.frame.map(|(vcid, brought)| (vcid, brought.event)), wanted, "frame {place} of {count}");
            assert_eq!((carried.rest, carried.more), (&rest[51..], place + 1 < count), "behind frame {place} of {count}");
            rest = carried.rest;
        }
    }
    assert_eq!(channels.map(|channel| channel.events()), [12, 10]);
}

/// Returns octets that begin with these. All others are 0.
fn octets_of(front: &[u8], count: usize) -> Vec<u8> {
    let mut octets = front.to_vec();
    octets.resize(count, 0);
    octets
}

/// Type-BD has only the bypass flag, Type-BC has both flags, Type-AD has none, and Type-AC has only the control command flag. Two
/// octets of fill follow each frame.
#[test]
fn frames_field_by_field() {
    let header = |vcid, ns, bypass, control| Header { scid: 675, vcid, ns, bypass, control };
    let kind = |arrival, number| Kind { arrival, number };
    let rows: [(&[u8], usize, Header, Kind); 5] = [
        (&[0x22, 0xa3, 0x94, 0x07, 0xc8, 0xc0, 0xaa, 0xbb], 8, header(37, 200, true, false), kind(Arrival::Bd, 0)),
        (&[0x32, 0xa3, 0x30, 0x05, 0x11, 0x00], 6, header(12, 17, true, true), kind(Arrival::Unlock, 0)),
        (&[0x32, 0xa3, 0x30, 0x07, 0x11, 0x82, 0x00, 0x09], 8, header(12, 17, true, true), kind(Arrival::SetVr, 9)),
        (&[0x02, 0xa3, 0xfd, 0x2b, 0xff], 300, header(63, 255, false, false), kind(Arrival::Ad, 255)),
        (&[0x12, 0xa3, 0x00, 0x05, 0x80, 0x00], 6, header(0, 128, false, true), kind(Arrival::Invalid, 0)),
    ];
    for (front, length, header, kind) in rows {
        let octets = octets_of(front, length + 2);
        let read = Frame::read(&octets).expect("a frame");
        assert_eq!((read.header(), read.kind()), (header, kind));
        assert_eq!((read.octets(), read.field()), (&octets[..length], &octets[5..length]));
        assert_eq!(header.write(read.field(), &mut [0; 300]), Ok(&octets[..length]));
    }
}

/// The words have each flag alone, from No RF Available to Retransmit. The last word has the largest status field.
#[test]
fn clcws_field_by_field() {
    let words = [0x0194_84b5, 0x0194_44b5, 0x0194_24b5, 0x0194_14b5, 0x0194_0cb5, 0x1d94_04b5];
    for (place, word) in words.into_iter().enumerate() {
        let read = Clcw::read(word).expect("a CLCW");
        let flags = [read.no_rf(), read.no_bit_lock(), read.lockout(), read.wait(), read.retransmit()];
        let (alone, status): ([bool; 5], u8) = (std::array::from_fn(|flag| flag == place), if place == 5 { 7 } else { 0 });
        assert_eq!(flags, alone, "{word:08x}");
        assert_eq!((read.word(), read.status_field(), read.vcid(), read.farm_b(), read.vr()), (word, status, 37, 2, 181));
        let [no_rf, no_bit_lock, lockout, wait, retransmit] = alone.map(u8::from);
        let said = format!(
            "vc 37 status {status} norf {no_rf} nobitlock {no_bit_lock} lockout {lockout} wait {wait} retransmit {retransmit} farmb 2 vr 181"
        );
        assert_eq!((format!("{read:?}"), read.to_string()), (format!("Clcw({word:#010x}: {said})"), said));
    }
}

/// Writes the frames of the rows of c/checks/fields.h: segments of a unit, commands, and a frame with its frame error control
/// field. Then makes failing calls of the functions that write.
#[test]
fn what_is_made() -> Result<(), Box<dyn Error>> {
    let (unit, mut room) = ([1, 2, 3, 4, 5, 6, 7], [0; 16]);
    let header = |ns, bypass| Header { scid: 675, vcid: 37, ns, bypass, control: false };
    let three = Segments { header: header(255, false), map: 37, size: 3 };
    let segments: [&[u8]; 3] = [
        &[0x02, 0xa3, 0x94, 0x08, 0xff, 0x65, 1, 2, 3],
        &[0x02, 0xa3, 0x94, 0x08, 0x00, 0x25, 4, 5, 6],
        &[0x02, 0xa3, 0x94, 0x06, 0x01, 0xa5, 7],
    ];
    for (place, segment) in (0..).zip(segments) {
        assert_eq!(three.write(place, &unit, &mut room), Ok(Some(segment)));
    }
    assert_eq!(three.write(3, &unit, &mut room), Ok(None));
    let whole = Segments { header: header(200, true), size: 1018, ..three };
    assert_eq!(whole.write(0, &unit, &mut room)?, Some(&[0x22, 0xa3, 0x94, 0x0c, 0xc8, 0xe5, 1, 2, 3, 4, 5, 6, 7][..]));
    assert_eq!(Command::Unlock.write(675, 12, &mut room)?, [0x32, 0xa3, 0x30, 0x05, 0x00, 0x00]);
    assert_eq!(Command::SetVr(9).write(675, 12, &mut room)?, [0x32, 0xa3, 0x30, 0x07, 0x00, 0x82, 0x00, 0x09]);
    let plain = [0x22, 0xa3, 0x94, 0x07, 0xc8, 0xc0, 0xaa, 0xbb];
    let ended = [0x22, 0xa3, 0x94, 0x09, 0xc8, 0xc0, 0xaa, 0xbb, 0x4c, 0x91];
    assert_eq!(add_fecf(&plain, &mut room)?, ended);
    assert_eq!(check_fecf(&ended, &mut room)?, plain);
    assert_eq!(three.write(0, &[], &mut room), Err(WriteError::EmptyData));
    assert_eq!(Command::Unlock.write(675, 12, &mut [0; 5]), Err(WriteError::NoRoom { needed: 6 }));
    assert_eq!(Packet::write(&PacketHeader::telecommand(2048, 0), &[0], &mut room), Err(WriteError::BadField));
    assert_eq!(add_fecf(&plain, &mut []), Err(FecfError::NoRoom { needed: 10 }));
    assert_eq!(check_fecf(&plain, &mut room), Err(FecfError::WrongFecf));
    Ok(())
}

/// The parity bits and the random sequence come from another implementation.
#[test]
fn ends_of_the_link() -> Result<(), Box<dyn Error>> {
    let mut room = [0; 32];
    let plain = [0x22, 0xa3, 0x94, 0x07, 0xc8, 0xc0, 0xaa, 0xbb];
    let cltu = [
        0xeb, 0x90, 0x22, 0xa3, 0x94, 0x07, 0xc8, 0xc0, 0xaa, 0xf0, 0xbb, 0x55, 0x55, 0x55, 0x55, 0x55, 0x55, 0x3e, 0xc5, 0xc5,
        0xc5, 0xc5, 0xc5, 0xc5, 0xc5, 0x79,
    ];
    assert_eq!(write_cltu(&plain, &mut room)?, cltu);
    assert_eq!(randomise(&plain, &mut room)?, [0xdd, 0x9a, 0x0a, 0x5d, 0xa0, 0x29, 0xac, 0x4e]);
    let header = TmHeader { scid: 675, vcid: 5, master_count: 200, channel_count: 77 };
    let clcw = Clcw::read(0x1d94_84b5).ok_or("no CLCW")?;
    let frame = [0x2a, 0x3b, 0xc8, 0x4d, 0x1f, 0xfe, 0x55, 0x55, 0x55, 0x1d, 0x94, 0x84, 0xb5, 0x7e, 0xe3];
    assert_eq!(header.write(false, clcw, 13, &mut room)?, &frame[..13]);
    assert_eq!(header.write(true, clcw, 15, &mut room)?, frame);
    assert_eq!(Tm::read(true, &frame)?, Tm { header, clcw: clcw.word(), pointer: 2046 });
    let mut reporting = [0; 13];
    reporting.copy_from_slice(&frame[..13]);
    reporting[9] |= 0x80;
    let type_2 = Tm::read(false, &reporting)?;
    assert_eq!((type_2, Clcw::read(type_2.clcw)), (Tm { header, clcw: 0x9d94_84b5, pointer: 2046 }, None), "a Type-2 report");
    assert_eq!(Tm::read(true, &frame[..13]), Err(TmError::WrongFecf));
    assert_eq!(Tm::read(false, &frame[..10]), Err(TmError::BadLength));
    assert_eq!(Tm::read(false, &[0; 11]), Err(TmError::NoControl));
    assert_eq!(Tm::read(false, &[0x40; 11]), Err(TmError::BadVersion));
    assert_eq!(write_cltu(&[0; 1030], &mut room), Err(WriteError::LongCltu));
    assert_eq!(randomise(&[], &mut room), Err(WriteError::EmptyData));
    assert_eq!(header.write(true, clcw, 12, &mut room), Err(WriteError::BadLength));
    assert_eq!(header.write(false, clcw, 33, &mut room), Err(WriteError::NoRoom { needed: 33 }));
    Ok(())
}

/// The CLTU of `ends_of_the_link` is followed by another octet. It also comes with a wrong bit, which is corrected in one mode. In
/// the other mode its code block is rejected.
#[test]
fn streams_of_cltus() {
    let cltu = [
        0xeb, 0x90, 0x22, 0xa3, 0x94, 0x07, 0xc8, 0xc0, 0xaa, 0xf0, 0xbb, 0x55, 0x55, 0x55, 0x55, 0x55, 0x55, 0x3e, 0xc5, 0xc5,
        0xc5, 0xc5, 0xc5, 0xc5, 0xc5, 0x79, 0x55,
    ];
    let carried = [0x22, 0xa3, 0x94, 0x07, 0xc8, 0xc0, 0xaa, 0xbb, 0x55, 0x55, 0x55, 0x55, 0x55, 0x55];
    let mut decoder = Decoder::new(true);
    for (turned, wrong) in [(0, 0), (0x10, 1)] {
        let mut stream = cltu;
        stream[5] ^= turned;
        for size in 1..=stream.len() {
            let (mut frames, mut corrected) = (Vec::new(), 0);
            for piece in stream.chunks(size) {
                let mut rest = piece;
                while !rest.is_empty() {
                    let fed = decoder.feed(rest);
                    frames.extend(fed.frame.map(<[u8]>::to_vec));
                    corrected += fed.corrected;
                    assert_eq!(fed.rejected, 0);
                    rest = fed.rest;
                }
            }
            assert_eq!((frames, corrected), (vec![carried.to_vec()], wrong));
        }
    }
    let fed = decoder.feed(&cltu);
    assert_eq!((fed.frame, fed.rest), (Some(&carried[..]), &cltu[26..]));
    let mut stream = cltu;
    stream[5] ^= 0x10;
    let mut strict = Decoder::new(false);
    let fed = strict.feed(&stream);
    assert_eq!((fed.frame, fed.rest, fed.corrected, fed.rejected, fed.overlong), (None, &[][..], 0, 1, 0));
    // A search drops what a CLTU has carried so far, and the decoder keeps its mode.
    for (decoder, wrong) in [(&mut decoder, (Some(&carried[..]), 1, 0)), (&mut strict, (None, 0, 1))] {
        decoder.feed(&cltu[..13]);
        decoder.search();
        assert_eq!(decoder.feed(&cltu[13..]).frame, None);
        let fed = decoder.feed(&stream);
        assert_eq!((fed.frame, fed.corrected, fed.rejected), wrong);
        assert_eq!(decoder.feed(&cltu).frame, Some(&carried[..]));
    }
    let mut long = vec![0xeb, 0x90];
    long.extend([0, 0, 0, 0, 0, 0, 0, 0xfe].repeat(148));
    let fed = strict.feed(&long);
    assert_eq!((fed.frame, fed.overlong), (None, 1));
}

/// The rows have each value of the sequence flags. Another octet follows each packet.
#[test]
fn packets_field_by_field() {
    let packet =
        |apid, count, telecommand, secondary, sequence, octets| Packet { apid, count, telecommand, secondary, sequence, octets };
    let rows = [
        (9, packet(1445, 4660, true, true, 0, &[0x1d, 0xa5, 0x12, 0x34, 0x00, 0x02, 0xaa, 0xbb, 0xcc][..])),
        (7, packet(5, 1, false, false, 1, &[0x00, 0x05, 0x40, 0x01, 0x00, 0x00, 0xaa])),
        (306, packet(2046, 16_383, true, false, 2, &[0x17, 0xfe, 0xbf, 0xff, 0x01, 0x2b])),
        (7, packet(0, 10_922, false, true, 3, &[0x08, 0x00, 0xea, 0xaa, 0x00, 0x00, 0xaa])),
    ];
    for (length, row) in rows {
        let octets = octets_of(row.octets, length + 1);
        assert_eq!(Packet::read(&octets), Some(Packet { octets: &octets[..length], ..row }));
        let Packet { apid, count, telecommand, secondary, sequence, .. } = row;
        let header = PacketHeader { apid, count, telecommand, secondary, sequence };
        assert_eq!(Packet::write(&header, &octets[6..length], &mut [0; 306]), Ok(&octets[..length]));
    }
}

/// There is a frame for each event, from CCSDS 232.1-B, 6.3. A release and takes follow. One frame has three packets, two of which
/// find room.
#[test]
fn replies_field_by_field() {
    let settings = Settings { buffer: 1, first_vr: 250, queues: &[Queue { apid: 5, capacity: 2 }], ..SETTINGS };
    let mut channel = Channel::new(&settings).expect("settings");
    let (nothing, one, three) =
        (Delivery::default(), [&[0xc0], &PACKET[..]].concat(), [&[0xc0][..], &PACKET.repeat(3), &[0x10]].concat());
    let rows = [
        (frame(252, false, &[0xc0]), Event::E3, false, nothing),
        (frame(250, false, &one), Event::E1, true, nothing),
        (frame(251, false, &[0xc0]), Event::E2, false, nothing),
        (frame(250, false, &[0xc0]), Event::E4, false, nothing),
        (frame(0, true, &three), Event::E6, true, Delivery { queued: 2, dropped: 1, rest: true }),
        (frame(0, true, &[0xc2, 0xab, 0xcd]), Event::E6, true, Delivery { queued: 1, dropped: 0, rest: false }),
        (frame(100, false, &[0xc0]), Event::E5, false, nothing),
        (vec![0x30, 0x2a, 0x04, 0x07, 0x00, 0x82, 0x00, 0x09], Event::E8, false, nothing),
        (vec![0x30, 0x2a, 0x04, 0x05, 0x00, 0x00], Event::E7, false, nothing),
        (vec![0x10, 0x2a, 0x04, 0x05, 0x00, 0x00], Event::E9, false, nothing),
    ];
    for (octets, event, accepted, delivery) in rows {
        assert_eq!(channel.frame(&octets), Ok(Brought { event, accepted, delivery }));
    }
    assert_eq!((channel.buffered(), channel.queued(5), channel.units(2)), (1, Some(2), Some(1)));
    assert_eq!(channel.release(), Ok(Delivery { queued: 0, dropped: 1, rest: false }));
    let mut room = [0; 8];
    assert_eq!(channel.take(5, &mut room), Ok(&PACKET[..]));
    assert_eq!(channel.take_unit(2, &mut room), Ok(&[0xab, 0xcd][..]));
    assert_eq!((channel.release(), channel.take_unit(2, &mut room)), (Err(ReleaseError::Empty), Err(TakeError::Empty)));
    assert_eq!((channel.events(), channel.clcw(Link::default()).word()), (13, 0x0104_00fb));
}

/// Reports come after a Type-AD frame ahead of V(R) (E3), the expected one with room (E1) and without (E2), Unlock (E7), and a
/// Type-AD frame outside the window (E5). Then comes the CLCW with each flag of the link alone.
#[test]
fn reports_field_by_field() {
    let mut channel = Channel::new(&Settings { buffer: 1, first_vr: 250, ..SETTINGS }).expect("settings");
    let farm = |state, vr, farm_b, lockout, wait, retransmit| Farm { width: 10, state, vr, farm_b, lockout, wait, retransmit };
    let steps = [
        ([0x00, 0x2a, 0x04, 0x05, 252, 0xc0], farm(State::Open, 250, 0, false, false, true)),
        ([0x00, 0x2a, 0x04, 0x05, 250, 0xc0], farm(State::Open, 251, 0, false, false, false)),
        ([0x00, 0x2a, 0x04, 0x05, 251, 0xc0], farm(State::Wait, 251, 0, false, true, true)),
        ([0x30, 0x2a, 0x04, 0x05, 0, 0x00], farm(State::Open, 251, 1, false, false, false)),
        ([0x00, 0x2a, 0x04, 0x05, 100, 0xc0], farm(State::Lockout, 251, 1, true, false, false)),
    ];
    for (octets, after) in steps {
        channel.frame(&octets).expect("a frame");
        assert_eq!(channel.report(), after);
    }
    for (no_rf, no_bit_lock, word) in [(true, false, 0x0104_a2fb), (false, true, 0x0104_62fb)] {
        assert_eq!(channel.clcw(Link { no_rf, no_bit_lock }).word(), word);
        assert_eq!(channel.report().clcw(1, no_rf, no_bit_lock).map(Clcw::word), Ok(word));
    }
}
