//! The calls of `tcrx.h`: records, statuses and functions, as the header declares them. The crate `tcrx` has safe calls over them.
//!
//! **Proofs.** The functions of the library are proved. These declarations are not. A test compares each record's size, each
//! field's place and size, and each number with what a C program reports about the header. All calls are unsafe here, because a
//! pointer must point to as many octets as the count says and may never be null, and because only one call at a time may use a
//! channel.
//!
//! **Memory.** The crate links `libtcrx.a`, and defines its two memory functions over `malloc`. With the feature `own-memory`
//! the program defines them. With the feature `shared` the crate links `libtcrx.so`, which has its own. Sessions of lines, which
//! the feature `lines` declares, need a third function.
#![no_std]

use core::ffi::c_void;

#[cfg(not(any(feature = "shared", feature = "own-memory")))]
mod memory;

/// The outcome of a call. The header describes each status.
pub type Status = u32;

/// The initial value of a [`Channel`], `TCRX_HOLDS_NONE`.
pub const HOLDS_NONE: Channel = Channel { held: 0, place: core::ptr::null_mut() };

macro_rules! numbers {
    ($($(#[$about:meta])* $name:ident: $kind:ty = $value:expr;)*) => {
        $($(#[$about])* pub const $name: $kind = $value;)*
        /// Each number with its name, which follows `TCRX_` in the header.
        pub const NUMBERS: &[(&str, u32)] = &[$((stringify!($name), $name as u32)),*];
    };
}

macro_rules! records {
    ($($(#[$about:meta])* $name:ident as $in_c:literal { $($(#[$said:meta])* $field:ident: $kind:ty),* $(,)? })*) => {
        $(
            $(#[$about])*
            #[repr(C)]
            #[derive(Clone, Copy, Debug, PartialEq, Eq)]
            pub struct $name {
                $($(#[$said])* pub $field: $kind,)*
            }
        )*
        /// Each record by its name in C, with its size, and with the name, the place and the size of each field.
        pub const LAYOUTS: &[(&str, usize, &[(&str, usize, usize)])] = &[$((
            $in_c,
            size_of::<$name>(),
            &[$((stringify!($field), core::mem::offset_of!($name, $field), size_of::<$kind>())),*],
        )),*];
    };
}

#[cfg(feature = "lines")]
pub mod lines;

// tools/c_interface writes the following lines from dist/tcrx.h.
/// The version of the interface that these declarations are for, in the form of `TCRX_API_VERSION`.
pub const API_VERSION: u32 = 0x0000_0300;

numbers! {
    /// The call succeeded.
    DONE: Status = 0;
    /// There are fewer than 5 octets, too few for a frame.
    SHORT: Status = 1;
    /// The version number of the frame isn't 0.
    BAD_VERSION: Status = 2;
    /// The spare bits of the frame aren't 0.
    SPARE: Status = 3;
    /// The length field of the frame gives fewer than 6 octets.
    LENGTH_SMALL: Status = 4;
    /// The length field of the frame gives more octets than there are.
    TRUNCATED: Status = 5;
    /// Octets follow the frame, but the call takes only a frame.
    FILL: Status = 6;
    /// The frame has fewer than 8 octets, too few to end with a frame error control field.
    NO_FECF: Status = 7;
    /// The frame error control field is wrong.
    WRONG_FECF: Status = 8;
    /// A field of the header is over its bound, so nothing is written.
    BAD_FIELD: Status = 10;
    /// A data field, a unit or a frame is empty, so nothing is written.
    EMPTY_DATA: Status = 11;
    /// The data field has more than 1,019 octets, so no frame is written.
    TOO_LONG: Status = 12;
    /// There is too little memory, so no channel is created.
    NO_MEMORY: Status = 13;
    /// The packet data field has more than 65,536 octets, so no packet is written.
    LONG_PACKET: Status = 14;
    /// The unit has more than 65,542 octets, so no segment is written.
    LONG_UNIT: Status = 15;
    /// The frame has more than 1,022 octets, so no frame error control field is added.
    LONG_FRAME: Status = 16;
    /// The size of a segment isn't 1 to 1,018 octets, so no segment is written.
    BAD_SIZE: Status = 17;
    /// The unit has no segment at this place, so no segment is written.
    NO_SEGMENT: Status = 18;
    /// The kind is neither `TCRX_UNLOCK` nor `TCRX_SET_VR`, so no command is written.
    BAD_COMMAND: Status = 19;
    /// The width of the window isn't an even number from 2 to 254.
    BAD_WIDTH: Status = 20;
    /// The state isn't 1 to 3.
    BAD_STATE: Status = 21;
    /// The FARM-B counter is over 3.
    BAD_FARM_B: Status = 22;
    /// A flag is neither 0 nor 1.
    BAD_FLAG: Status = 23;
    /// FARM-1 never has these flags in this state.
    FLAGS_DISAGREE: Status = 24;
    /// The arrival isn't 1 to 6.
    BAD_ARRIVAL: Status = 25;
    /// The state table has no entry for an expected Type-AD frame that finds room in `TCRX_WAIT`.
    NO_ENTRY: Status = 26;
    /// The virtual channel id is over 63.
    BAD_VCID: Status = 30;
    /// The word isn't a CLCW of COP-1.
    NO_CLCW: Status = 31;
    /// The octets don't begin with a whole packet of version 0.
    NO_PACKET: Status = 40;
    /// The buffer is too short.
    NO_ROOM: Status = 50;
    /// A pointer is null.
    NULL: Status = 51;
    /// No status has this number.
    NO_STATUS: Status = 52;
    /// The number of data fields in the buffer of the settings isn't 1 to 64.
    BAD_BUFFER: Status = 60;
    /// The APID of a queue in the settings is over 2,046.
    BAD_APID: Status = 61;
    /// Two queues in the settings have the same APID.
    DOUBLE_APID: Status = 62;
    /// The capacity of a packet queue in the settings isn't 1 to 256.
    BAD_CAPACITY: Status = 63;
    /// A MAP in the settings, or of a segment, is over 63.
    BAD_MAP: Status = 64;
    /// The settings choose a MAP twice.
    DOUBLE_MAP: Status = 65;
    /// The capacity of a chosen MAP's queue in the settings isn't 1 to 256.
    BAD_UNITS: Status = 66;
    /// The settings choose a MAP, but have no segment headers.
    PLAIN_MAP: Status = 67;
    /// No channel is held.
    NO_CHANNEL: Status = 70;
    /// A channel is already held.
    IN_USE: Status = 71;
    /// No queue has this APID.
    NO_QUEUE: Status = 72;
    /// This MAP isn't chosen.
    NO_MAP: Status = 73;
    /// Nothing waits in the buffer or in the queue.
    EMPTY: Status = 74;
    /// The frame is for another spacecraft.
    OTHER_SPACECRAFT: Status = 75;
    /// No channel has this virtual channel id.
    UNKNOWN_CHANNEL: Status = 76;
    /// The limit `others` is over 65,542, or it is 0 without segment headers.
    BAD_OTHERS: Status = 80;
    /// The MAP of a limit is over 63.
    BAD_LIMIT_MAP: Status = 81;
    /// Two limits are for the same MAP.
    DOUBLE_LIMIT: Status = 82;
    /// The limit of a MAP isn't 1 to 65,542.
    BAD_LIMIT: Status = 83;
    /// A limit is for a MAP, but the settings have no segment headers.
    PLAIN_LIMIT: Status = 84;
    /// A chosen MAP has no limit of its own, and `others` is 0.
    UNLISTED_MAP: Status = 85;
    /// There are more than 1,029 octets, the most that a CLTU carries.
    LONG_CLTU: Status = 90;
    /// The length of the telemetry frame isn't 11 to 2,048 octets, or 13 to 2,048 with a frame error control field.
    BAD_LENGTH: Status = 91;
    /// The telemetry frame has no operational control field.
    NO_CONTROL: Status = 92;
    /// The record isn't one that a decoder can have.
    BAD_DECODER: Status = 93;
    /// Enough for any text, with the 0 at its end.
    TEXT_ROOM: usize = 64;
    /// State S1, Open.
    OPEN: u8 = 1;
    /// State S2, Wait.
    WAIT: u8 = 2;
    /// State S3, Lockout.
    LOCKOUT: u8 = 3;
    /// A Type-AD frame, with sequence control.
    AD: u8 = 1;
    /// A Type-BD frame, without sequence control.
    BD: u8 = 2;
    /// A Type-BC frame with the control command Unlock.
    UNLOCK: u8 = 3;
    /// A Type-BC frame with the control command Set V(R).
    SET_VR: u8 = 4;
    /// A Type-AC frame, which is reserved, or a Type-BC frame that carries no control command.
    INVALID: u8 = 5;
    /// A buffer release, when a data field has left the buffer.
    RELEASE: u8 = 6;
    /// Enough for the 1,029 octets that a CLTU carries at most, and one code block.
    DECODER_ROOM: usize = 1037;
}

records! {
    /// The record of FARM-1: the width of its window and its six components.
    Farm as "tcrx_farm" {
        /// The width of the sliding window, even and 2 to 254.
        width: u8,
        /// `TCRX_OPEN`, `TCRX_WAIT` or `TCRX_LOCKOUT`.
        state: u8,
        /// The receiver frame sequence number V(R), modulo 256.
        vr: u8,
        /// The FARM-B counter, 0 to 3.
        farm_b: u8,
        /// The Lockout flag, which is 1 only in `TCRX_LOCKOUT`.
        lockout: u8,
        /// The Wait flag, which is 1 in `TCRX_WAIT` and 0 in `TCRX_OPEN`.
        wait: u8,
        /// The Retransmit flag, which is 1 whenever the Wait flag is 1.
        retransmit: u8,
    }
    /// A status with the record of a FARM-1.
    FarmAnswer as "tcrx_farm_answer" {
        /// `TCRX_DONE`, or the reason why the call failed.
        status: Status,
        /// The record of FARM-1.
        farm: Farm,
    }
    /// The outcome of a step of FARM-1. If the call fails, `farm` is the record that was passed.
    StepAnswer as "tcrx_step_answer" {
        /// `TCRX_DONE`, or the reason why the call failed.
        status: Status,
        /// The record of FARM-1 after the step.
        farm: Farm,
        /// The row E1 to E10 of the state table, as a number from 1 to 10.
        event: u8,
        /// 1 if the frame's data was accepted, otherwise 0. It is also 0 for a control command.
        accepted: u8,
    }
    /// A status with a CLCW.
    ClcwAnswer as "tcrx_clcw_answer" {
        /// `TCRX_DONE`, or the reason why the call failed.
        status: Status,
        /// The CLCW, whose first bit is the most significant bit of the word.
        word: u32,
    }
    /// A status with the fields of a CLCW.
    ClcwFields as "tcrx_clcw_fields" {
        /// `TCRX_DONE`, or the reason why the call failed.
        status: Status,
        /// The status field, 0 to 7, whose meaning is left to the mission.
        status_field: u8,
        /// The virtual channel id, 0 to 63.
        vcid: u8,
        /// The No RF Available flag.
        no_rf: u8,
        /// The No Bit Lock flag.
        no_bit_lock: u8,
        /// The Lockout flag.
        lockout: u8,
        /// The Wait flag.
        wait: u8,
        /// The Retransmit flag.
        retransmit: u8,
        /// The FARM-B counter, 0 to 3.
        farm_b: u8,
        /// The report value, which is V(R).
        vr: u8,
    }
    /// The primary header of a frame, without the frame length.
    Header as "tcrx_header" {
        /// The spacecraft id, 0 to 1,023.
        scid: u16,
        /// The virtual channel id, 0 to 63.
        vcid: u8,
        /// The frame sequence number N(S).
        ns: u8,
        /// The bypass flag: 1 for Type-B, 0 for Type-A.
        bypass: u8,
        /// The control command flag: 1 for Type-C, 0 for Type-D.
        control: u8,
    }
    /// The header and the length of the frame at the front of octets. The first 5 octets of the frame are its header, and the
    /// others are its data field.
    Frame as "tcrx_frame" {
        /// `TCRX_DONE`, or the reason why the call failed.
        status: Status,
        /// The primary header.
        header: Header,
        /// The number of octets in the frame, 6 to 1,024.
        length: u16,
    }
    /// The kind of a frame.
    KindAnswer as "tcrx_kind_answer" {
        /// `TCRX_DONE`, or the reason why the call failed.
        status: Status,
        /// The kind, `TCRX_AD` to `TCRX_INVALID`.
        kind: u8,
        /// The N(S) of `TCRX_AD`, the new V(R) of `TCRX_SET_VR`, or 0 for other kinds.
        number: u8,
    }
    /// The header and the length of the packet at the front of octets. The first 6 octets of the packet are its primary header.
    Packet as "tcrx_packet" {
        /// `TCRX_DONE`, or the reason why the call failed.
        status: Status,
        /// The number of octets in the packet, 7 to 65,542.
        length: u32,
        /// The APID, at most 2,047. The APID 2,047 marks idle packets.
        apid: u16,
        /// The sequence count or the packet name, at most 16,383.
        count: u16,
        /// The packet type: 1 for telecommand, 0 for telemetry.
        telecommand: u8,
        /// The secondary header flag.
        secondary: u8,
        /// The sequence flags, at most 3.
        sequence: u8,
    }
    /// The primary header of a packet, without the version and the length.
    PacketHeader as "tcrx_packet_header" {
        /// The APID, at most 2,047. The APID 2,047 marks idle packets.
        apid: u16,
        /// The sequence count or the packet name, at most 16,383.
        count: u16,
        /// The packet type: 1 for telecommand, 0 for telemetry.
        telecommand: u8,
        /// The secondary header flag.
        secondary: u8,
        /// The sequence flags, at most 3. An unsegmented packet has 3.
        sequence: u8,
    }
    /// The ids and the frame counts in the primary header of a telemetry frame.
    TmHeader as "tcrx_tm_header" {
        /// The spacecraft id, 0 to 1,023.
        scid: u16,
        /// The virtual channel id, 0 to 7.
        vcid: u8,
        /// The master channel frame count: earlier frames of the spacecraft, modulo 256.
        master_count: u8,
        /// The virtual channel frame count: earlier frames of the virtual channel, modulo 256.
        channel_count: u8,
    }
    /// The fields of a telemetry frame with an operational control field. The first bit of that field is the most significant bit
    /// of `clcw`, and is 0 for a CLCW and 1 for a Type-2 report.
    Tm as "tcrx_tm" {
        /// `TCRX_DONE`, or the reason why the call failed.
        status: Status,
        /// The operational control field.
        clcw: u32,
        /// The primary header.
        header: TmHeader,
        /// The first header pointer: 2,046 if all data are idle, 2,047 if no packet begins.
        pointer: u16,
    }
    /// A decoder of CLTUs (communications link transmission units), without the octets that it holds, which are in a buffer. At the
    /// start, each field except `correct` is 0. If `correct` is 1, the decoder corrects one wrong bit in a code block, and accepts
    /// a start sequence with one wrong bit. If `correct` is 0, it does neither.
    Decoder as "tcrx_decoder" {
        /// 1 to correct one wrong bit in a code block, 0 to correct none.
        correct: u8,
        /// 1 if a start sequence has come and code blocks are decoded, otherwise 0.
        decoding: u8,
        /// The previous octet, while a start sequence is looked for.
        last: u8,
        /// The number of octets of the next code block that have come, 0 to 7.
        count: u8,
        /// The number of octets that code blocks have carried since the start sequence, 0 to 1,029.
        carried: u16,
    }
    /// The outcome for octets of a stream. If `ended` is 1, the candidate frame is the first `decoder.carried` octets of the
    /// buffer. If the call fails, `decoder` is the record that was passed.
    Decoded as "tcrx_decoded" {
        /// `TCRX_DONE`, or the reason why the call failed.
        status: Status,
        /// The decoder after the octets that were taken.
        decoder: Decoder,
        /// 1 if the last octet that was taken ended a candidate frame, otherwise 0.
        ended: u8,
        /// The number of octets that were taken.
        taken: u64,
        /// The number of code blocks that ended in these octets and had one bit corrected.
        corrected: u64,
        /// The number of code blocks that were rejected in these octets, without tail sequences.
        rejected: u64,
        /// The number of CLTUs that carried more than 1,029 octets. They end no candidate frame.
        overlong: u64,
    }
    /// A status with a number of octets. If the status is `TCRX_NO_ROOM`, `length` is the number of octets that the buffer needs.
    Written as "tcrx_written" {
        /// `TCRX_DONE`, or the reason why the call failed.
        status: Status,
        /// The number of octets that were written.
        length: usize,
    }
    /// A virtual channel in the caller's memory, or none. Set it to `TCRX_HOLDS_NONE` before the first call, and don't write to it
    /// after that. A copy of this record isn't a second channel. You may move a channel to another place, if you set the old place
    /// to `TCRX_HOLDS_NONE` before the next call. A channel that is still held when the lifetime of this memory ends isn't freed.
    Channel as "tcrx_channel" {
        /// 1 if a channel is held, otherwise 0.
        held: u8,
        /// The library's own data.
        place: *mut c_void,
    }
    /// The settings from which a channel is created, apart from its queues.
    Settings as "tcrx_settings" {
        /// The virtual channel id, 0 to 63.
        vcid: u8,
        /// The width of the sliding window, even and 2 to 254.
        width: u8,
        /// The number of data fields that the buffer holds, 1 to 64.
        buffer: u8,
        /// V(R) at the start.
        first_vr: u8,
        /// 1 if data fields begin with a segment header, 0 if each data field is a unit by itself.
        segmented: u8,
    }
    /// A queue for the telecommand packets of one application.
    Queue as "tcrx_queue" {
        /// The APID of the packets, at most 2,046.
        apid: u16,
        /// The number of packets that the queue holds, 1 to 256.
        capacity: u16,
    }
    /// A chosen MAP (multiplexer access point), whose units are queued whole instead of being cut into packets.
    Map as "tcrx_map" {
        /// The MAP, at most 63.
        map: u8,
        /// The number of units that its queue holds, 1 to 256.
        capacity: u16,
    }
    /// The limit for the units of one MAP.
    Limit as "tcrx_limit" {
        /// The MAP, at most 63.
        map: u8,
        /// The largest number of octets in a unit of the MAP, 1 to 65,542.
        octets: u32,
    }
    /// The outcome for a frame, and for the unit that the frame ended. If no unit ended, `queued`, `dropped` and `rest` are 0. A
    /// packet is dropped if it isn't a telecommand, if there is no queue for its APID, or if that queue has no room. A whole unit
    /// is dropped if its queue has no room.
    Reply as "tcrx_reply" {
        /// `TCRX_DONE`, or the reason why the call failed.
        status: Status,
        /// The number of packets that were queued, or 1 for a unit that was queued whole.
        queued: u32,
        /// The number of packets that were dropped, or 1 for a whole unit that was dropped.
        dropped: u32,
        /// The row E1 to E9 of the state table of FARM-1, as a number from 1 to 9.
        event: u8,
        /// 1 if the frame's data was accepted, otherwise 0. It is also 0 for a control command.
        accepted: u8,
        /// 1 if octets were left that don't begin with a packet, otherwise 0.
        rest: u8,
    }
    /// The outcome for the unit that a released data field ended. If no unit ended, each number is 0.
    Delivery as "tcrx_delivery" {
        /// `TCRX_DONE`, or the reason why the call failed.
        status: Status,
        /// The number of packets that were queued, or 1 for a unit that was queued whole.
        queued: u32,
        /// The number of packets that were dropped, or 1 for a whole unit that was dropped.
        dropped: u32,
        /// 1 if octets were left that don't begin with a packet, otherwise 0.
        rest: u8,
    }
    /// The outcome for a frame, and the channel that took it in.
    RackReply as "tcrx_rack_reply" {
        /// `TCRX_DONE`, or the reason why the call failed.
        status: Status,
        /// The number of packets that were queued, or 1 for a unit that was queued whole.
        queued: u32,
        /// The number of packets that were dropped, or 1 for a whole unit that was dropped.
        dropped: u32,
        /// The row E1 to E9 of the state table of FARM-1, as a number from 1 to 9.
        event: u8,
        /// 1 if the frame's data was accepted, otherwise 0. It is also 0 for a control command.
        accepted: u8,
        /// 1 if octets were left that don't begin with a packet, otherwise 0.
        rest: u8,
        /// The virtual channel id of that channel, 0 to 63.
        vcid: u8,
    }
    /// The outcome for the frame at the front of a candidate, and the channel that took it in. If a frame was found but the call
    /// fails, `more` and `length` are set nevertheless.
    CandidateReply as "tcrx_candidate_reply" {
        /// `TCRX_DONE`, or the reason why the call failed.
        status: Status,
        /// The number of packets that were queued, or 1 for a unit that was queued whole.
        queued: u32,
        /// The number of packets that were dropped, or 1 for a whole unit that was dropped.
        dropped: u32,
        /// The row E1 to E9 of the state table of FARM-1, as a number from 1 to 9.
        event: u8,
        /// 1 if the frame's data was accepted, otherwise 0. It is also 0 for a control command.
        accepted: u8,
        /// 1 if octets were left that don't begin with a packet, otherwise 0.
        rest: u8,
        /// The virtual channel id of that channel, 0 to 63.
        vcid: u8,
        /// 1 if more follows the frame than can be fill: over six octets, or another frame.
        more: u8,
        /// The number of octets in the frame, 6 to 1,024, with its frame error control field.
        length: u16,
    }
    /// A status with a place in an array.
    Place as "tcrx_place" {
        /// `TCRX_DONE`, or the reason why the call failed.
        status: Status,
        /// The place, counted from 0.
        place: usize,
    }
    /// A status with a count.
    Count as "tcrx_count" {
        /// `TCRX_DONE`, or the reason why the call failed.
        status: Status,
        /// The count.
        count: u64,
    }
}

extern "C" {
    /// Writes the text of a status to the front of a buffer. The text is ASCII, and ends with a 0. A buffer of `TCRX_TEXT_ROOM`
    /// octets is long enough for each text.
    ///
    /// Returns the length of the text, with the 0 at its end. The call fails with `TCRX_NO_STATUS` if no status has this number, or
    /// `TCRX_NO_ROOM` if the buffer is too short.
    pub fn tcrx_text_at(status: Status, text: *mut u8, room: usize) -> Written;
    /// Starts FARM-1 in `TCRX_OPEN`, with every flag and the FARM-B counter at 0.
    ///
    /// Returns the record of FARM-1. The call fails with `TCRX_BAD_WIDTH` if the width isn't an even number from 2 to 254.
    pub fn tcrx_farm_start(width: u8, first_vr: u8) -> FarmAnswer;
    /// Takes one step of FARM-1, by its state table (CCSDS 232.1-B, 6.3). Pass the record that it returns to the next call.
    ///
    /// Returns the outcome of the step, whose record is again one that FARM-1 can have. The call fails with `TCRX_BAD_WIDTH`,
    /// `TCRX_BAD_STATE`, `TCRX_BAD_FARM_B`, `TCRX_BAD_FLAG` or `TCRX_FLAGS_DISAGREE` if FARM-1 can't have the record that you
    /// passed. After that it fails with `TCRX_BAD_FLAG` if `room` is neither 0 nor 1, `TCRX_BAD_ARRIVAL` if the arrival isn't 1 to
    /// 6, or `TCRX_NO_ENTRY` if an expected Type-AD frame arrives in `TCRX_WAIT` and `room` is 1. The last status never occurs if
    /// `room` is 0 in `TCRX_WAIT`. That is its value for a buffer from which nothing was released since it was full.
    pub fn tcrx_farm_step(farm: Farm, arrival: u8, number: u8, room: u8) -> StepAnswer;
    /// Builds the CLCW that reports this FARM-1 for a virtual channel. Its status field is 0, and COP-1 is in effect.
    ///
    /// Returns the CLCW. The call fails with `TCRX_BAD_WIDTH` to `TCRX_FLAGS_DISAGREE` if FARM-1 can't have this record,
    /// `TCRX_BAD_VCID` if the virtual channel id is over 63, or `TCRX_BAD_FLAG` if a flag of the link is neither 0 nor 1.
    pub fn tcrx_clcw(farm: Farm, vcid: u8, no_rf: u8, no_bit_lock: u8) -> ClcwAnswer;
    /// Reads the fields of a CLCW of COP-1. In such a word the type, the version and the spare bits are 0, and COP is 1.
    ///
    /// Returns the fields. The call fails with `TCRX_NO_CLCW` for any other word.
    pub fn tcrx_read_clcw(word: u32) -> ClcwFields;
    /// Reads the header and the length of the frame at the front of octets. Octets that follow the frame are fill.
    ///
    /// Returns the header and the length. The call fails with `TCRX_SHORT` to `TCRX_TRUNCATED` if the octets don't begin with a
    /// frame.
    pub fn tcrx_read_frame_at(octets: *const u8, count: usize) -> Frame;
    /// Determines the kind of the frame at the front of octets, by its two flags and its data field. `tcrx_farm_step` takes the
    /// kind and the number as this call returns them.
    ///
    /// Returns the kind. The call fails as `tcrx_read_frame` does.
    pub fn tcrx_kind_at(octets: *const u8, count: usize) -> KindAnswer;
    /// Writes a frame to the front of a buffer. The frame consists of its header and a data field of 1 to 1,019 octets.
    ///
    /// Returns the length of the frame, which is 5 more than that of its data field. The call fails with `TCRX_BAD_FLAG` if a flag
    /// of the header is neither 0 nor 1, `TCRX_BAD_FIELD` if an id of the header is over its bound, `TCRX_EMPTY_DATA` if the data
    /// field is empty, `TCRX_TOO_LONG` if it has more than 1,019 octets, or `TCRX_NO_ROOM` if the buffer is too short.
    pub fn tcrx_write_frame_at(header: Header, field: *const u8, field_count: usize, octets: *mut u8, room: usize) -> Written;
    /// Writes the frame that carries one segment of a unit to the front of a buffer. Call it for the places 0, 1, 2 and so on,
    /// until it fails with `TCRX_NO_SEGMENT`. The N(S) of Type-AD frames counts up modulo 256 from that of the header. A unit of at
    /// most `size` octets is one unsegmented segment.
    ///
    /// Returns the length of the frame, which is 6 more than the number of octets that the segment carries. The call fails with
    /// `TCRX_BAD_FLAG` if a flag of the header is neither 0 nor 1, `TCRX_BAD_FIELD` if an id of the header is over its bound or the
    /// header is that of a Type-C frame, `TCRX_BAD_MAP` if the MAP is over 63, `TCRX_BAD_SIZE` if `size` isn't 1 to 1,018,
    /// `TCRX_EMPTY_DATA` if the unit is empty, `TCRX_LONG_UNIT` if it has more than 65,542 octets, `TCRX_NO_SEGMENT` if the unit
    /// has no segment at this place, or `TCRX_NO_ROOM` if the buffer is too short.
    pub fn tcrx_write_segment_at(
        header: Header,
        map: u8,
        size: u16,
        place: u32,
        unit: *const u8,
        unit_count: usize,
        octets: *mut u8,
        room: usize,
    ) -> Written;
    /// Writes the Type-BC frame with a control command to the front of a buffer. The N(S) of the frame is 0.
    ///
    /// Returns the length of the frame, 6 or 8. The call fails with `TCRX_BAD_FIELD` if an id is over its bound, `TCRX_BAD_COMMAND`
    /// if the kind is another one, or `TCRX_NO_ROOM` if the buffer is too short.
    pub fn tcrx_write_command_at(scid: u16, vcid: u8, kind: u8, number: u8, octets: *mut u8, room: usize) -> Written;
    /// Adds a frame error control field to a frame, and writes the frame to the front of a buffer. The written frame is two octets
    /// longer, and its length field counts them.
    ///
    /// Returns the length of the frame with the field. The call fails with `TCRX_SHORT` to `TCRX_TRUNCATED` if the octets don't
    /// begin with a frame, `TCRX_FILL` if octets follow the frame, `TCRX_LONG_FRAME` if the frame has more than 1,022 octets, or
    /// `TCRX_NO_ROOM` if the buffer is too short.
    pub fn tcrx_add_fecf_at(frame: *const u8, frame_count: usize, octets: *mut u8, room: usize) -> Written;
    /// Checks the frame error control field with which a frame ends, and writes the frame without the field to the front of a
    /// buffer. The written frame is the one from which `tcrx_add_fecf` makes these octets. Pass it to `tcrx_channel_frame`.
    ///
    /// Returns the length of the frame without the field. The call fails with `TCRX_SHORT` to `TCRX_TRUNCATED` if the octets don't
    /// begin with a frame, `TCRX_FILL` if octets follow the frame, `TCRX_NO_FECF` if the frame has fewer than 8 octets,
    /// `TCRX_WRONG_FECF` if the field is wrong, or `TCRX_NO_ROOM` if the buffer is too short.
    pub fn tcrx_check_fecf_at(frame: *const u8, frame_count: usize, octets: *mut u8, room: usize) -> Written;
    /// Writes a packet to the front of a buffer. The packet consists of its primary header and a packet data field of 1 to 65,536
    /// octets.
    ///
    /// Returns the length of the packet, which is 6 more than that of its packet data field. The call fails with `TCRX_BAD_FLAG` if
    /// a flag of the header is neither 0 nor 1, `TCRX_BAD_FIELD` if another field of the header is over its bound,
    /// `TCRX_EMPTY_DATA` if the packet data field is empty, `TCRX_LONG_PACKET` if it has more than 65,536 octets, or `TCRX_NO_ROOM`
    /// if the buffer is too short.
    pub fn tcrx_write_packet_at(
        header: PacketHeader,
        field: *const u8,
        field_count: usize,
        octets: *mut u8,
        room: usize,
    ) -> Written;
    /// Reads the primary header and the length of the packet at the front of octets. Octets that follow the packet don't matter.
    /// The secondary header, the sequence flags and the sequence count may have any value.
    ///
    /// Returns the header and the length. The call fails with `TCRX_NO_PACKET` if the octets don't begin with a whole packet of
    /// version 0.
    pub fn tcrx_read_packet_at(octets: *const u8, count: usize) -> Packet;
    /// Writes the CLTU (communications link transmission unit) that carries a frame to the front of a buffer. The CLTU consists of
    /// the start sequence, the code blocks, with fill in the last one if it needs some, and the tail sequence. Each code block has
    /// 8 octets and carries 7 octets of the frame. The start and tail sequences have 10 octets together.
    ///
    /// Returns the length of the CLTU, at most 1,186. The call fails with `TCRX_EMPTY_DATA` if there are no octets,
    /// `TCRX_LONG_CLTU` if there are more than 1,029, or `TCRX_NO_ROOM` if the buffer is too short.
    pub fn tcrx_write_cltu_at(frame: *const u8, frame_count: usize, octets: *mut u8, room: usize) -> Written;
    /// Gives a decoder the next octets of a stream. The decoder takes all octets, or those up to and including the first one that
    /// ends a candidate frame. It looks for a start sequence, and then decodes code blocks until one is rejected. The tail sequence
    /// is rejected, too. The octets that the accepted code blocks carried are a candidate frame, with fill behind it.
    /// `tcrx_rack_candidate` takes it in this form. A CLTU that carries more than 1,029 octets is counted, and ends no candidate
    /// frame. Pass the returned record to the next call, with the octets that weren't taken yet, and with the same buffer. The
    /// whole buffer belongs to the decoder.
    ///
    /// Returns the outcome for the octets. The call fails with `TCRX_BAD_FLAG` if a flag of the decoder is neither 0 nor 1,
    /// `TCRX_BAD_DECODER` if no decoder has this record, or `TCRX_NO_ROOM` if the buffer has fewer than `TCRX_DECODER_ROOM` octets.
    pub fn tcrx_cltu_octets_at(decoder: Decoder, octets: *const u8, count: usize, frame: *mut u8, room: usize) -> Decoded;
    /// Makes a decoder look for a start sequence anew, as after a loss of bit lock. Code blocks that it has taken since the last
    /// start sequence end no candidate frame. If `decoding` was 1, the call cuts a CLTU short, or octets that only began like one.
    ///
    /// Returns the record for the next call of `tcrx_cltu_octets`, with 0 in all other fields. The call fails with `TCRX_BAD_FLAG`
    /// if a flag of the decoder is neither 0 nor 1, or `TCRX_BAD_DECODER` if no decoder has this record.
    pub fn tcrx_cltu_search(decoder: Decoder) -> Decoded;
    /// Adds the random sequence to octets, and writes the result to the front of a buffer. If a mission randomises its CLTUs, a
    /// sender calls this for each frame before `tcrx_write_cltu`, and a receiver calls it for the octets that each CLTU carried.
    /// Adding the sequence twice changes nothing.
    ///
    /// Returns the number of octets. The call fails with `TCRX_EMPTY_DATA` if there are no octets, `TCRX_LONG_CLTU` if there are
    /// more than 1,029, or `TCRX_NO_ROOM` if the buffer is too short.
    pub fn tcrx_randomise_at(frame: *const u8, frame_count: usize, octets: *mut u8, room: usize) -> Written;
    /// Writes a telemetry frame that carries a CLCW to the front of a buffer. All other data in the frame are idle. For the next
    /// frame of the virtual channel, add 1 to both counts of the header. For the next frame of another virtual channel, add 1 to
    /// the master count. As `uint8_t` they count modulo 256.
    ///
    /// Returns the length of the frame. The call fails with `TCRX_BAD_FLAG` if `fecf` is neither 0 nor 1, `TCRX_BAD_FIELD` if an id
    /// of the header is over its bound, `TCRX_BAD_LENGTH` if `size` is out of its range, or `TCRX_NO_ROOM` if the buffer is too
    /// short.
    pub fn tcrx_write_tm_at(header: TmHeader, fecf: u8, clcw: u32, size: u16, octets: *mut u8, room: usize) -> Written;
    /// Reads octets that are one telemetry frame. The call doesn't look into the frame's secondary header and packets.
    ///
    /// Returns the fields of the frame. The call fails with `TCRX_BAD_FLAG` if `fecf` is neither 0 nor 1, `TCRX_BAD_LENGTH` if
    /// there aren't 11 to 2,048 octets, or 13 to 2,048 with a frame error control field, `TCRX_BAD_VERSION` if the version number
    /// isn't 0, `TCRX_NO_CONTROL` if the frame has no operational control field, or `TCRX_WRONG_FECF` if the frame error control
    /// field is wrong.
    pub fn tcrx_read_tm_at(fecf: u8, octets: *const u8, count: usize) -> Tm;
    /// Computes how many bytes `tcrx_channel_new` requests for these settings. The count doesn't include the bytes that the memory
    /// functions add to each block, the block of the channel itself, and the copies of the two lists, which have 4 bytes for each
    /// entry. `TCRX_STORAGE_OF` includes all of these.
    ///
    /// Returns the number of bytes. The call fails with `TCRX_BAD_FLAG` or the first fault of the settings, as `tcrx_channel_new`
    /// does.
    pub fn tcrx_storage_at(
        settings: Settings,
        queues: *const Queue,
        queue_count: usize,
        maps: *const Map,
        map_count: usize,
    ) -> Count;
    /// Computes how many bytes `tcrx_channel_new_with_limits` requests for these settings and limits. The count doesn't include the
    /// copy of the limits either, which has 8 bytes for each entry.
    ///
    /// Returns the number of bytes. The call fails with `TCRX_BAD_FLAG` or the first fault of the settings or the limits, as
    /// `tcrx_channel_new_with_limits` does.
    pub fn tcrx_storage_with_limits_at(
        settings: Settings,
        queues: *const Queue,
        queue_count: usize,
        maps: *const Map,
        map_count: usize,
        others: u32,
        limits: *const Limit,
        limit_count: usize,
    ) -> Count;
    /// Creates a channel, which is held until it is freed. A unit has at most 65,542 octets. All memory that the channel ever uses
    /// is requested here.
    ///
    /// Returns `TCRX_DONE`. The call fails with `TCRX_IN_USE` if a channel is already held, or `TCRX_BAD_FLAG` if `segmented` is
    /// neither 0 nor 1. After that it fails with the first fault of the settings: `TCRX_BAD_VCID`, `TCRX_BAD_WIDTH`,
    /// `TCRX_BAD_BUFFER`, `TCRX_BAD_APID`, `TCRX_DOUBLE_APID`, `TCRX_BAD_CAPACITY`, `TCRX_BAD_MAP`, `TCRX_DOUBLE_MAP`,
    /// `TCRX_BAD_UNITS` or `TCRX_PLAIN_MAP`. Last it fails with `TCRX_NO_MEMORY` if there is too little memory.
    pub fn tcrx_channel_new_at(
        channel: *mut Channel,
        settings: Settings,
        queues: *const Queue,
        queue_count: usize,
        maps: *const Map,
        map_count: usize,
    ) -> Status;
    /// Creates a channel with a limit for the units of each MAP, so that it requests less memory. A unit that is longer than its
    /// limit is dropped when it ends, and no reply reports that. Without limits, units of more than 65,542 octets are dropped in
    /// this way. With segment headers, `others` may be 0. Then a MAP that isn't listed ends no unit except the empty one. Without
    /// segment headers, no MAP may be listed, and `others` is the limit of each data field.
    ///
    /// Returns `TCRX_DONE`. The call fails as `tcrx_channel_new` does. Between the faults of the settings and `TCRX_NO_MEMORY` it
    /// fails with the first fault of the limits: `TCRX_BAD_OTHERS`, `TCRX_BAD_LIMIT_MAP`, `TCRX_DOUBLE_LIMIT`, `TCRX_BAD_LIMIT`,
    /// `TCRX_PLAIN_LIMIT` or `TCRX_UNLISTED_MAP`.
    pub fn tcrx_channel_new_with_limits_at(
        channel: *mut Channel,
        settings: Settings,
        queues: *const Queue,
        queue_count: usize,
        maps: *const Map,
        map_count: usize,
        others: u32,
        limits: *const Limit,
        limit_count: usize,
    ) -> Status;
    /// Brings the frame at the front of octets to the channel. Octets that follow the frame are fill. The data field of an accepted
    /// Type-AD frame waits in the buffer. The unit that an accepted Type-BD frame ends is queued at once. The call doesn't look at
    /// the spacecraft id and the virtual channel id of the frame. `tcrx_rack_frame` chooses a channel by them.
    ///
    /// Returns the event of FARM-1, and the outcome for the unit. The call fails with `TCRX_NO_CHANNEL`, or `TCRX_SHORT` to
    /// `TCRX_TRUNCATED` if the octets don't begin with a frame.
    pub fn tcrx_channel_frame_at(channel: *mut Channel, octets: *const u8, count: usize) -> Reply;
    /// Releases the oldest data field from the buffer to reassembly. The unit that the data field ends is cut into packets, which
    /// are queued. A unit of a chosen MAP is queued whole.
    ///
    /// Returns the outcome for the unit. The call fails with `TCRX_NO_CHANNEL`, or `TCRX_EMPTY` if the buffer is empty.
    pub fn tcrx_channel_release_at(channel: *mut Channel) -> Delivery;
    /// Takes the oldest packet out of a queue, and writes it, with its header, to the front of a buffer. A packet has 7 to 65,542
    /// octets. If the call fails, the packet stays in its queue.
    ///
    /// Returns the length of the packet. The call fails with `TCRX_NO_CHANNEL`, `TCRX_NO_QUEUE` if no queue has this APID,
    /// `TCRX_EMPTY` if the queue is empty, or `TCRX_NO_ROOM` if the buffer is too short.
    pub fn tcrx_channel_take_at(channel: *mut Channel, apid: u16, octets: *mut u8, room: usize) -> Written;
    /// Takes the oldest unit out of the queue of a chosen MAP, and writes it to the front of a buffer. A unit may have no octets.
    /// If the call fails, the unit stays in its queue.
    ///
    /// Returns the length of the unit. The call fails with `TCRX_NO_CHANNEL`, `TCRX_NO_MAP` if the MAP isn't chosen, `TCRX_EMPTY`
    /// if its queue is empty, or `TCRX_NO_ROOM` if the buffer is too short.
    pub fn tcrx_channel_take_unit_at(channel: *mut Channel, map: u8, octets: *mut u8, room: usize) -> Written;
    /// Builds the CLCW of the channel, as `tcrx_clcw` does for a record of FARM-1.
    ///
    /// Returns the CLCW. The call fails with `TCRX_NO_CHANNEL`, or `TCRX_BAD_FLAG` if a flag of the link is neither 0 nor 1.
    pub fn tcrx_channel_clcw_at(channel: *mut Channel, no_rf: u8, no_bit_lock: u8) -> ClcwAnswer;
    /// Reads the record of the channel's FARM-1, which `tcrx_farm_step` and `tcrx_clcw` can take.
    ///
    /// Returns the record of FARM-1. The call fails with `TCRX_NO_CHANNEL`.
    pub fn tcrx_channel_report_at(channel: *mut Channel) -> FarmAnswer;
    /// Counts the data fields that wait in the buffer.
    ///
    /// Returns the number of data fields. The call fails with `TCRX_NO_CHANNEL`.
    pub fn tcrx_channel_buffered_at(channel: *mut Channel) -> Count;
    /// Counts the packets that wait in a queue.
    ///
    /// Returns the number of packets. The call fails with `TCRX_NO_CHANNEL`, or `TCRX_NO_QUEUE` if no queue has this APID.
    pub fn tcrx_channel_queued_at(channel: *mut Channel, apid: u16) -> Count;
    /// Counts the units that wait in the queue of a chosen MAP.
    ///
    /// Returns the number of units. The call fails with `TCRX_NO_CHANNEL`, or `TCRX_NO_MAP` if the MAP isn't chosen.
    pub fn tcrx_channel_units_at(channel: *mut Channel, map: u8) -> Count;
    /// Counts the frames, releases and takes that the channel has done.
    ///
    /// Returns the number of frames, releases and takes, or 2^64 - 1 if there are more. The call fails with `TCRX_NO_CHANNEL`.
    pub fn tcrx_channel_events_at(channel: *mut Channel) -> Count;
    /// Frees the channel and everything that waits in it. Another channel can then be created in its place.
    ///
    /// Returns `TCRX_DONE`. The call fails with `TCRX_NO_CHANNEL`.
    pub fn tcrx_channel_free_at(channel: *mut Channel) -> Status;
    /// Brings the frame at the front of octets to its channel, if the frame is for this spacecraft. That is the first channel with
    /// the virtual channel id of the frame. If frames end with the frame error control field, the field is checked first, and the
    /// channel gets the frame without it. If frames end with the field although `fecf` is 0, no status reports that, because the
    /// field counts as data. Each control command is then event 9, and `rest` is 1 after each packet that came in one frame.
    ///
    /// Returns the event of FARM-1, the outcome for the unit, and the channel. The call fails with `TCRX_BAD_FLAG` if `fecf` is
    /// neither 0 nor 1, `TCRX_SHORT` to `TCRX_TRUNCATED` if the octets don't begin with a frame, `TCRX_FILL`, `TCRX_NO_FECF` or
    /// `TCRX_WRONG_FECF` if `fecf` is 1 and `tcrx_check_fecf` fails in this way, `TCRX_OTHER_SPACECRAFT` if the frame is for
    /// another spacecraft, or `TCRX_UNKNOWN_CHANNEL` if no channel has the virtual channel id of the frame.
    pub fn tcrx_rack_frame_at(
        channels: *mut Channel,
        channel_count: usize,
        scid: u16,
        fecf: u8,
        octets: *const u8,
        count: usize,
    ) -> RackReply;
    /// Brings the frame at the front of a candidate to its channel, as `tcrx_rack_frame` does. A candidate is the octets that a
    /// CLTU carried. The length field of the frame is read first, and says where the frame ends. Then the frame error control field
    /// is checked. The octets that follow the frame are fill, or the next frame. If a CLTU may carry several frames, pass the
    /// octets behind the frame to this call again, as long as `more` is 1.
    ///
    /// Returns the event of FARM-1, the outcome for the unit, the channel, and the length of the frame. The call fails with
    /// `TCRX_BAD_FLAG` if `fecf` is neither 0 nor 1, `TCRX_SHORT` to `TCRX_TRUNCATED` if the octets don't begin with a frame,
    /// `TCRX_NO_FECF` if `fecf` is 1 and the frame has fewer than 8 octets, `TCRX_WRONG_FECF` if `fecf` is 1 and the frame error
    /// control field is wrong, `TCRX_OTHER_SPACECRAFT` if the frame is for another spacecraft, or `TCRX_UNKNOWN_CHANNEL` if no
    /// channel has the virtual channel id of the frame.
    pub fn tcrx_rack_candidate_at(
        channels: *mut Channel,
        channel_count: usize,
        scid: u16,
        fecf: u8,
        octets: *const u8,
        count: usize,
    ) -> CandidateReply;
    /// Finds the first channel with a virtual channel id.
    ///
    /// Returns the place of the channel. The call fails with `TCRX_UNKNOWN_CHANNEL` if no channel has this virtual channel id.
    pub fn tcrx_rack_find_at(channels: *mut Channel, channel_count: usize, vcid: u8) -> Place;
}
// The lines that tools/c_interface writes end here.
