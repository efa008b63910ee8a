//! Single calls, which keep no state and request no memory: frames, packets, CLCWs, FARM-1, CLTUs and telemetry frames.

use crate::errors::{FarmError, FecfError, FrameError, TmError, WriteError};
use core::fmt;
use tcrx_sys as sys;

/// The primary header of a frame, without the frame length.
#[derive(Clone, Copy, Debug, Default, PartialEq, Eq, Hash)]
pub struct Header {
    /// The spacecraft id, 0 to 1,023.
    pub scid: u16,
    /// The virtual channel id, 0 to 63.
    pub vcid: u8,
    /// The frame sequence number N(S).
    pub ns: u8,
    /// Whether the frame is of Type-B, and not of Type-A.
    pub bypass: bool,
    /// Whether the frame is of Type-C, and not of Type-D.
    pub control: bool,
}

/// Returns the octets that were written to the front of `room`, or the error.
fn written(answer: sys::Written, room: &[u8]) -> Result<&[u8], WriteError> {
    match answer.status {
        sys::DONE => Ok(&room[..answer.length]),
        status => Err(WriteError::of(status, answer.length)),
    }
}

impl Header {
    fn record(&self) -> sys::Header {
        sys::Header { scid: self.scid, vcid: self.vcid, ns: self.ns, bypass: self.bypass.into(), control: self.control.into() }
    }

    /// Writes a frame with this header and a data field of 1 to 1,019 octets to the front of `room`, and returns it
    /// from there.
    pub fn write<'room>(&self, field: &[u8], room: &'room mut [u8]) -> Result<&'room [u8], WriteError> {
        // SAFETY: both pointers point to as many octets as the counts say, and only one of them is written to.
        let answer = unsafe { sys::tcrx_write_frame_at(self.record(), field.as_ptr(), field.len(), room.as_mut_ptr(), room.len()) };
        written(answer, room)
    }
}

/// The way in which a unit is sent in segments.
#[derive(Clone, Copy, Debug, PartialEq, Eq, Hash)]
pub struct Segments {
    /// The header of the first frame. The N(S) of Type-AD frames counts up from there.
    pub header: Header,
    /// The MAP, at most 63.
    pub map: u8,
    /// The number of octets of the unit that a segment carries, 1 to 1,018. The last segment carries the octets that
    /// are left.
    pub size: u16,
}

impl Segments {
    /// Writes the frame that carries the segment at a place of a unit, counted from 0, to the front of `room`. Returns
    /// `None` if the unit has no segment there.
    pub fn write<'room>(&self, place: u32, unit: &[u8], room: &'room mut [u8]) -> Result<Option<&'room [u8]>, WriteError> {
        let (header, from, to) = (self.header.record(), unit.as_ptr(), room.as_mut_ptr());
        // SAFETY: both pointers point to as many octets as the counts say, and only one of them is written to.
        let answer = unsafe { sys::tcrx_write_segment_at(header, self.map, self.size, place, from, unit.len(), to, room.len()) };
        if answer.status == sys::NO_SEGMENT {
            return Ok(None);
        }
        written(answer, room).map(Some)
    }
}

/// A control command.
#[derive(Clone, Copy, Debug, PartialEq, Eq, Hash)]
pub enum Command {
    /// Unlock.
    Unlock,
    /// Set V(R) to this number.
    SetVr(u8),
}

impl Command {
    /// Writes the Type-BC frame with this command to the front of `room`, and returns it from there.
    pub fn write(self, scid: u16, vcid: u8, room: &mut [u8]) -> Result<&[u8], WriteError> {
        let (kind, number) = match self {
            Command::Unlock => (sys::UNLOCK, 0),
            Command::SetVr(vr) => (sys::SET_VR, vr),
        };
        // SAFETY: the pointer points to as many octets as the room has.
        let answer = unsafe { sys::tcrx_write_command_at(scid, vcid, kind, number, room.as_mut_ptr(), room.len()) };
        written(answer, room)
    }
}

/// Adds a frame error control field to a frame, which nothing may follow, and writes the frame to the front of `room`.
/// The written frame is two octets longer.
pub fn add_fecf<'room>(frame: &[u8], room: &'room mut [u8]) -> Result<&'room [u8], FecfError> {
    // SAFETY: both pointers point to as many octets as the counts say, and only one of them is written to.
    let answer = unsafe { sys::tcrx_add_fecf_at(frame.as_ptr(), frame.len(), room.as_mut_ptr(), room.len()) };
    match answer.status {
        sys::DONE => Ok(&room[..answer.length]),
        status => Err(FecfError::of(status, answer.length)),
    }
}

/// Checks the frame error control field with which a frame ends, and writes the frame without the field to the front of
/// `room`. Nothing may follow the frame.
pub fn check_fecf<'room>(frame: &[u8], room: &'room mut [u8]) -> Result<&'room [u8], FecfError> {
    // SAFETY: both pointers point to as many octets as the counts say, and only one of them is written to.
    let answer = unsafe { sys::tcrx_check_fecf_at(frame.as_ptr(), frame.len(), room.as_mut_ptr(), room.len()) };
    match answer.status {
        sys::DONE => Ok(&room[..answer.length]),
        status => Err(FecfError::of(status, answer.length)),
    }
}

/// Writes the CLTU that carries a frame, or 1 to 1,029 other octets, to the front of `room`, and returns it from there.
pub fn write_cltu<'room>(frame: &[u8], room: &'room mut [u8]) -> Result<&'room [u8], WriteError> {
    // SAFETY: both pointers point to as many octets as the counts say, and only one of them is written to.
    let answer = unsafe { sys::tcrx_write_cltu_at(frame.as_ptr(), frame.len(), room.as_mut_ptr(), room.len()) };
    written(answer, room)
}

/// The outcome for octets of a stream.
#[derive(Clone, Copy, Debug, PartialEq, Eq, Hash)]
pub struct Fed<'decoder, 'octets> {
    /// The candidate frame, with fill behind it, if the last octet that was taken ended one.
    pub frame: Option<&'decoder [u8]>,
    /// The octets behind those that were taken.
    pub rest: &'octets [u8],
    /// The number of code blocks that ended in these octets and had one bit corrected.
    pub corrected: u64,
    /// The number of code blocks that were rejected in these octets, without tail sequences.
    pub rejected: u64,
    /// The number of CLTUs that carried more than 1,029 octets. They end no candidate frame.
    pub overlong: u64,
}

/// A decoder of CLTUs in a stream, with the octets that it holds.
#[derive(Clone, Debug)]
pub struct Decoder {
    kept: sys::Decoder,
    carried: [u8; sys::DECODER_ROOM],
}

impl Decoder {
    /// Creates a decoder that corrects one wrong bit in each code block, or only detects wrong bits.
    pub fn new(correct: bool) -> Self {
        let kept = sys::Decoder { correct: correct.into(), decoding: 0, last: 0, count: 0, carried: 0 };
        Decoder { kept, carried: [0; sys::DECODER_ROOM] }
    }

    /// Takes the next octets of the stream. These are all octets, or those up to and including the first one that ends
    /// a candidate frame.
    pub fn feed<'decoder, 'octets>(&'decoder mut self, octets: &'octets [u8]) -> Fed<'decoder, 'octets> {
        // SAFETY: both pointers point to as many octets as the counts say, and only one of them is written to.
        let answer = unsafe {
            sys::tcrx_cltu_octets_at(self.kept, octets.as_ptr(), octets.len(), self.carried.as_mut_ptr(), self.carried.len())
        };
        self.kept = answer.decoder;
        Fed {
            frame: (answer.ended == 1).then(|| &self.carried[..self.kept.carried.into()]),
            rest: &octets[answer.taken as usize..],
            corrected: answer.corrected,
            rejected: answer.rejected,
            overlong: answer.overlong,
        }
    }

    /// Looks for a start sequence anew, as after a loss of bit lock.
    pub fn search(&mut self) {
        // SAFETY: the call takes a record by value.
        self.kept = unsafe { sys::tcrx_cltu_search(self.kept) }.decoder;
    }
}

/// Adds the random sequence to a frame, or to the octets that a CLTU carried, and writes the result to the front of
/// `room`. Adding the sequence twice changes nothing.
pub fn randomise<'room>(frame: &[u8], room: &'room mut [u8]) -> Result<&'room [u8], WriteError> {
    // SAFETY: both pointers point to as many octets as the counts say, and only one of them is written to.
    let answer = unsafe { sys::tcrx_randomise_at(frame.as_ptr(), frame.len(), room.as_mut_ptr(), room.len()) };
    written(answer, room)
}

/// The ids and the frame counts in the primary header of a telemetry frame.
#[derive(Clone, Copy, Debug, Default, PartialEq, Eq, Hash)]
pub struct TmHeader {
    /// The spacecraft id, 0 to 1,023.
    pub scid: u16,
    /// The virtual channel id, 0 to 7.
    pub vcid: u8,
    /// The master channel frame count: the number of earlier frames of the spacecraft, modulo 256.
    pub master_count: u8,
    /// The virtual channel frame count: the number of earlier frames of the virtual channel, modulo 256.
    pub channel_count: u8,
}

impl TmHeader {
    /// Writes a telemetry frame of `size` octets with this header, which carries a CLCW, to the front of `room`. With
    /// `fecf` it ends with a frame error control field.
    pub fn write(self, fecf: bool, clcw: Clcw, size: u16, room: &mut [u8]) -> Result<&[u8], WriteError> {
        let TmHeader { scid, vcid, master_count, channel_count } = self;
        let header = sys::TmHeader { scid, vcid, master_count, channel_count };
        // SAFETY: the pointer points to as many octets as the room has.
        let answer = unsafe { sys::tcrx_write_tm_at(header, fecf.into(), clcw.word(), size, room.as_mut_ptr(), room.len()) };
        written(answer, room)
    }
}

/// The fields of a telemetry frame.
#[derive(Clone, Copy, Debug, PartialEq, Eq, Hash)]
pub struct Tm {
    /// The primary header.
    pub header: TmHeader,
    /// The operational control field, for [`Clcw::read`].
    pub clcw: u32,
    /// The first header pointer: 2,046 if all data are idle, 2,047 if no packet begins.
    pub pointer: u16,
}

impl Tm {
    /// Reads octets that are one telemetry frame. With `fecf` it ends with a frame error control field, which is
    /// checked.
    pub fn read(fecf: bool, octets: &[u8]) -> Result<Self, TmError> {
        // SAFETY: the pointer points to as many octets as the count says.
        let answer = unsafe { sys::tcrx_read_tm_at(fecf.into(), octets.as_ptr(), octets.len()) };
        if answer.status != sys::DONE {
            return Err(TmError::of(answer.status, 0));
        }
        let sys::TmHeader { scid, vcid, master_count, channel_count } = answer.header;
        let header = TmHeader { scid, vcid, master_count, channel_count };
        Ok(Tm { header, clcw: answer.clcw, pointer: answer.pointer })
    }
}

/// An arrival at FARM-1.
#[derive(Clone, Copy, Debug, PartialEq, Eq, Hash)]
#[repr(u8)]
pub enum Arrival {
    /// A Type-AD frame.
    Ad = sys::AD,
    /// A Type-BD frame.
    Bd = sys::BD,
    /// A Type-BC frame with the control command Unlock.
    Unlock = sys::UNLOCK,
    /// A Type-BC frame with the control command Set V(R).
    SetVr = sys::SET_VR,
    /// A Type-AC frame, or a Type-BC frame that carries no control command.
    Invalid = sys::INVALID,
    /// A buffer release, when a data field has left the buffer.
    Release = sys::RELEASE,
}

/// The kind of a frame, as [`Farm::step`] takes it.
#[derive(Clone, Copy, Debug, PartialEq, Eq, Hash)]
pub struct Kind {
    /// The arrival.
    pub arrival: Arrival,
    /// The N(S) of a Type-AD frame, the new V(R) of a Set V(R), or 0 for other kinds.
    pub number: u8,
}

/// The frame at the front of octets.
#[derive(Clone, Copy, Debug, PartialEq, Eq, Hash)]
pub struct Frame<'octets> {
    header: Header,
    octets: &'octets [u8],
}

impl<'octets> Frame<'octets> {
    /// Reads the frame. Octets that follow it are fill.
    pub fn read(octets: &'octets [u8]) -> Result<Self, FrameError> {
        // SAFETY: the pointer points to as many octets as the count says.
        let frame = unsafe { sys::tcrx_read_frame_at(octets.as_ptr(), octets.len()) };
        if frame.status != sys::DONE {
            return Err(FrameError::of(frame.status, 0));
        }
        let read = frame.header;
        let header = Header { scid: read.scid, vcid: read.vcid, ns: read.ns, bypass: read.bypass == 1, control: read.control == 1 };
        Ok(Frame { header, octets: &octets[..frame.length.into()] })
    }

    /// Returns the primary header of the frame.
    pub fn header(&self) -> Header {
        self.header
    }

    /// Returns all octets of the frame.
    pub fn octets(&self) -> &'octets [u8] {
        self.octets
    }

    /// Returns the data field of the frame.
    pub fn field(&self) -> &'octets [u8] {
        &self.octets[5..]
    }

    /// Returns the kind of the frame.
    pub fn kind(&self) -> Kind {
        // SAFETY: the pointer points to as many octets as the count says.
        let answer = unsafe { sys::tcrx_kind_at(self.octets.as_ptr(), self.octets.len()) };
        let arrival = match answer.kind {
            sys::AD => Arrival::Ad,
            sys::BD => Arrival::Bd,
            sys::UNLOCK => Arrival::Unlock,
            sys::SET_VR => Arrival::SetVr,
            _ => Arrival::Invalid,
        };
        Kind { arrival, number: answer.number }
    }
}

/// The primary header of a packet, without the packet length.
#[derive(Clone, Copy, Debug, PartialEq, Eq, Hash)]
pub struct PacketHeader {
    /// The application process id, at most 2,047.
    pub apid: u16,
    /// The sequence count or the packet name, at most 16,383.
    pub count: u16,
    /// Whether the packet is a telecommand packet, and not a telemetry packet.
    pub telecommand: bool,
    /// The secondary header flag.
    pub secondary: bool,
    /// The sequence flags, at most 3.
    pub sequence: u8,
}

impl PacketHeader {
    /// Returns the header of an unsegmented telecommand packet without a secondary header.
    pub fn telecommand(apid: u16, count: u16) -> Self {
        PacketHeader { apid, count, telecommand: true, secondary: false, sequence: 3 }
    }
}

/// The packet at the front of octets.
#[derive(Clone, Copy, Debug, PartialEq, Eq, Hash)]
pub struct Packet<'octets> {
    /// The application process id, which is 2,047 for idle packets.
    pub apid: u16,
    /// The sequence count or the packet name.
    pub count: u16,
    /// Whether the packet is a telecommand packet, and not a telemetry packet.
    pub telecommand: bool,
    /// The secondary header flag.
    pub secondary: bool,
    /// The sequence flags, at most 3.
    pub sequence: u8,
    /// All octets of the packet. The first six are the primary header.
    pub octets: &'octets [u8],
}

impl<'octets> Packet<'octets> {
    /// Reads the packet. Returns `None` if the octets don't begin with a whole packet of version 0.
    pub fn read(octets: &'octets [u8]) -> Option<Self> {
        // SAFETY: the pointer points to as many octets as the count says.
        let packet = unsafe { sys::tcrx_read_packet_at(octets.as_ptr(), octets.len()) };
        (packet.status == sys::DONE).then(|| Packet {
            apid: packet.apid,
            count: packet.count,
            telecommand: packet.telecommand == 1,
            secondary: packet.secondary == 1,
            sequence: packet.sequence,
            octets: &octets[..packet.length as usize],
        })
    }

    /// Writes a packet with this header and a packet data field of 1 to 65,536 octets to the front of `room`, and
    /// returns it from there.
    pub fn write<'room>(header: &PacketHeader, field: &[u8], room: &'room mut [u8]) -> Result<&'room [u8], WriteError> {
        let header = sys::PacketHeader {
            apid: header.apid,
            count: header.count,
            telecommand: header.telecommand.into(),
            secondary: header.secondary.into(),
            sequence: header.sequence,
        };
        // SAFETY: both pointers point to as many octets as the counts say, and only one of them is written to.
        let answer = unsafe { sys::tcrx_write_packet_at(header, field.as_ptr(), field.len(), room.as_mut_ptr(), room.len()) };
        written(answer, room)
    }
}

/// A CLCW of COP-1. Its `Debug` prints its fields. Its `Display` prints the words that `tcmake` prints for them.
#[derive(Clone, Copy, PartialEq, Eq, Hash)]
pub struct Clcw(u32);

impl Clcw {
    pub(crate) fn of(word: u32) -> Self {
        Clcw(word)
    }

    /// Reads a word. Returns `None` if it isn't a CLCW of COP-1.
    pub fn read(word: u32) -> Option<Self> {
        // SAFETY: the call takes no pointer.
        let fields = unsafe { sys::tcrx_read_clcw(word) };
        (fields.status == sys::DONE).then_some(Clcw(word))
    }

    /// Returns all 32 bits.
    pub fn word(self) -> u32 {
        self.0
    }

    fn bits(self, from: u32, mask: u32) -> u8 {
        (self.0 >> from & mask) as u8
    }

    /// Returns the status field, whose meaning is left to the mission.
    pub fn status_field(self) -> u8 {
        self.bits(26, 7)
    }

    /// Returns the virtual channel id.
    pub fn vcid(self) -> u8 {
        self.bits(18, 63)
    }

    /// Returns the No RF Available flag.
    pub fn no_rf(self) -> bool {
        self.bits(15, 1) == 1
    }

    /// Returns the No Bit Lock flag.
    pub fn no_bit_lock(self) -> bool {
        self.bits(14, 1) == 1
    }

    /// Returns the Lockout flag, which says that an Unlock is needed.
    pub fn lockout(self) -> bool {
        self.bits(13, 1) == 1
    }

    /// Returns the Wait flag, which says that the buffer has no room.
    pub fn wait(self) -> bool {
        self.bits(12, 1) == 1
    }

    /// Returns the Retransmit flag, which says that frames from V(R) on are wanted again.
    pub fn retransmit(self) -> bool {
        self.bits(11, 1) == 1
    }

    /// Returns the FARM-B counter, 0 to 3.
    pub fn farm_b(self) -> u8 {
        self.bits(9, 3)
    }

    /// Returns V(R), the number of the frame that is expected next.
    pub fn vr(self) -> u8 {
        self.bits(0, 255)
    }
}

impl fmt::Debug for Clcw {
    fn fmt(&self, to: &mut fmt::Formatter<'_>) -> fmt::Result {
        write!(to, "Clcw({:#010x}: {self})", self.0)
    }
}

impl fmt::Display for Clcw {
    fn fmt(&self, to: &mut fmt::Formatter<'_>) -> fmt::Result {
        let (no_rf, no_bit_lock) = (u8::from(self.no_rf()), u8::from(self.no_bit_lock()));
        write!(to, "vc {} status {} norf {no_rf} nobitlock {no_bit_lock} ", self.vcid(), self.status_field())?;
        let (lockout, wait, retransmit) = (u8::from(self.lockout()), u8::from(self.wait()), u8::from(self.retransmit()));
        write!(to, "lockout {lockout} wait {wait} retransmit {retransmit} farmb {} vr {}", self.farm_b(), self.vr())
    }
}

/// A state of FARM-1.
#[derive(Clone, Copy, Debug, PartialEq, Eq, Hash)]
#[repr(u8)]
pub enum State {
    /// State S1.
    Open = sys::OPEN,
    /// State S2.
    Wait = sys::WAIT,
    /// State S3.
    Lockout = sys::LOCKOUT,
}

/// A row of FARM-1's state table.
#[derive(Clone, Copy, Debug, PartialEq, Eq, Hash)]
pub enum Event {
    /// Type-AD, expected, with room in the buffer.
    E1,
    /// Type-AD, expected, with no room in the buffer.
    E2,
    /// Type-AD, ahead of V(R), because a frame before it was lost.
    E3,
    /// Type-AD, behind V(R), because it came before.
    E4,
    /// Type-AD, outside the window.
    E5,
    /// Type-BD.
    E6,
    /// Type-BC, Unlock.
    E7,
    /// Type-BC, Set V(R).
    E8,
    /// Invalid.
    E9,
    /// A release of the buffer.
    E10,
}

impl Event {
    /// Returns the event with this number. The library returns no other number.
    pub(crate) fn of(number: u8) -> Self {
        match number {
            1 => Event::E1,
            2 => Event::E2,
            3 => Event::E3,
            4 => Event::E4,
            5 => Event::E5,
            6 => Event::E6,
            7 => Event::E7,
            8 => Event::E8,
            10 => Event::E10,
            _ => Event::E9,
        }
    }
}

/// FARM-1: the width of its window and its six components.
#[derive(Clone, Copy, Debug, PartialEq, Eq, Hash)]
pub struct Farm {
    /// The width of the sliding window, even and 2 to 254.
    pub width: u8,
    /// The state.
    pub state: State,
    /// V(R), the number of the frame that is expected next.
    pub vr: u8,
    /// The FARM-B counter, 0 to 3.
    pub farm_b: u8,
    /// The Lockout flag.
    pub lockout: bool,
    /// The Wait flag.
    pub wait: bool,
    /// The Retransmit flag.
    pub retransmit: bool,
}

/// A step of FARM-1.
#[derive(Clone, Copy, Debug, PartialEq, Eq, Hash)]
pub struct Step {
    /// The record of FARM-1 after the step.
    pub farm: Farm,
    /// The row of the state table.
    pub event: Event,
    /// Whether the frame was accepted.
    pub accepted: bool,
}

impl Farm {
    /// Starts FARM-1.
    pub fn new(width: u8, first_vr: u8) -> Result<Self, FarmError> {
        // SAFETY: the call takes no pointer.
        let answer = unsafe { sys::tcrx_farm_start(width, first_vr) };
        if answer.status == sys::DONE {
            Ok(Farm::of(answer.farm))
        } else {
            Err(FarmError::of(answer.status, 0))
        }
    }

    /// Takes the next step. `room` says whether the buffer has room for the data field of a Type-AD frame.
    pub fn step(self, kind: Kind, room: bool) -> Result<Step, FarmError> {
        // SAFETY: the call takes no pointer.
        let answer = unsafe { sys::tcrx_farm_step(self.record(), kind.arrival as u8, kind.number, room.into()) };
        if answer.status != sys::DONE {
            return Err(FarmError::of(answer.status, 0));
        }
        Ok(Step { farm: Farm::of(answer.farm), event: Event::of(answer.event), accepted: answer.accepted == 1 })
    }

    /// Returns the CLCW that reports this FARM-1.
    pub fn clcw(self, vcid: u8, no_rf: bool, no_bit_lock: bool) -> Result<Clcw, FarmError> {
        // SAFETY: the call takes no pointer.
        let answer = unsafe { sys::tcrx_clcw(self.record(), vcid, no_rf.into(), no_bit_lock.into()) };
        if answer.status == sys::DONE {
            Ok(Clcw(answer.word))
        } else {
            Err(FarmError::of(answer.status, 0))
        }
    }

    pub(crate) fn of(farm: sys::Farm) -> Self {
        let state = match farm.state {
            sys::WAIT => State::Wait,
            sys::LOCKOUT => State::Lockout,
            _ => State::Open,
        };
        let (lockout, wait, retransmit) = (farm.lockout == 1, farm.wait == 1, farm.retransmit == 1);
        Farm { width: farm.width, state, vr: farm.vr, farm_b: farm.farm_b, lockout, wait, retransmit }
    }

    fn record(self) -> sys::Farm {
        sys::Farm {
            width: self.width,
            state: self.state as u8,
            vr: self.vr,
            farm_b: self.farm_b,
            lockout: self.lockout.into(),
            wait: self.wait.into(),
            retransmit: self.retransmit.into(),
        }
    }
}
