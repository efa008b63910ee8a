//! A virtual channel that the library holds.

use crate::errors::{BringError, CandidateError, RackError, ReleaseError, SettingsError, TakeError};
use crate::link::{Clcw, Event, Farm};
use core::cell::UnsafeCell;
use core::fmt;
use tcrx_sys as sys;

/// The settings from which a channel is created.
#[derive(Clone, Copy, Debug, PartialEq, Eq)]
pub struct Settings<'lists> {
    /// The virtual channel id, 0 to 63.
    pub vcid: u8,
    /// The width of the sliding window, even and 2 to 254.
    pub width: u8,
    /// The number of data fields that the buffer holds, 1 to 64.
    pub buffer: u8,
    /// V(R) at the start.
    pub first_vr: u8,
    /// Whether data fields begin with a segment header. If not, each data field is a unit by itself.
    pub segmented: bool,
    /// The packet queues, by application.
    pub queues: &'lists [sys::Queue],
    /// The chosen MAPs, whose units are queued whole.
    pub maps: &'lists [sys::Map],
}

impl Settings<'_> {
    fn record(&self) -> sys::Settings {
        let (vcid, width, buffer, first_vr) = (self.vcid, self.width, self.buffer, self.first_vr);
        sys::Settings { vcid, width, buffer, first_vr, segmented: self.segmented.into() }
    }

    /// Returns how many bytes the creation of a channel with these settings requests. No other call of the channel
    /// requests memory.
    pub fn storage(&self) -> Result<u64, SettingsError> {
        let (queues, maps) = (self.queues, self.maps);
        // SAFETY: both pointers point to as many entries as the counts say.
        let answer = unsafe { sys::tcrx_storage_at(self.record(), queues.as_ptr(), queues.len(), maps.as_ptr(), maps.len()) };
        if answer.status == sys::DONE {
            Ok(answer.count)
        } else {
            Err(SettingsError::of(answer.status, 0))
        }
    }

    /// Returns how many bytes the creation of a channel with these settings and limits requests.
    pub fn storage_with_limits(&self, limits: &Limits<'_>) -> Result<u64, SettingsError> {
        let (queues, maps, listed) = (self.queues, self.maps, limits.maps);
        // SAFETY: the pointers point to as many entries as the counts say.
        let answer = unsafe {
            sys::tcrx_storage_with_limits_at(
                self.record(),
                queues.as_ptr(),
                queues.len(),
                maps.as_ptr(),
                maps.len(),
                limits.others,
                listed.as_ptr(),
                listed.len(),
            )
        };
        if answer.status == sys::DONE {
            Ok(answer.count)
        } else {
            Err(SettingsError::of(answer.status, 0))
        }
    }
}

/// The limits for the units of each MAP. A unit that is longer than its limit is dropped when it ends, and no reply
/// reports that.
#[derive(Clone, Copy, Debug, Default, PartialEq, Eq)]
pub struct Limits<'list> {
    /// The largest number of octets in a unit of a MAP that isn't listed, at most 65,542. Without segment headers it is
    /// the limit of each data field. With segment headers it may be 0. A MAP that isn't listed then ends no unit except
    /// the empty one.
    pub others: u32,
    /// The MAPs with a limit of their own. Without segment headers the list must be empty.
    pub maps: &'list [sys::Limit],
}

/// The outcome for the unit that an operation ended. If no unit ended, nothing was queued or dropped.
#[derive(Clone, Copy, Debug, Default, PartialEq, Eq, Hash)]
pub struct Delivery {
    /// The number of packets that were queued, or 1 for a unit that was queued whole.
    pub queued: u32,
    /// The number of packets that were dropped, or 1 for a whole unit that was dropped.
    pub dropped: u32,
    /// Whether octets were left that don't begin with a packet.
    pub rest: bool,
}

/// The outcome for a frame.
#[derive(Clone, Copy, Debug, PartialEq, Eq, Hash)]
pub struct Brought {
    /// The row of FARM-1's table that the frame met.
    pub event: Event,
    /// Whether the frame was accepted.
    pub accepted: bool,
    /// The outcome for the unit that the frame ended.
    pub delivery: Delivery,
}

/// The flags of the link that a CLCW reports.
#[derive(Clone, Copy, Debug, Default, PartialEq, Eq, Hash)]
pub struct Link {
    /// The No RF Available flag.
    pub no_rf: bool,
    /// The No Bit Lock flag.
    pub no_bit_lock: bool,
}

/// A virtual channel, with its buffer, its reassembly and its queues. It is freed when it is dropped.
///
/// A channel can be sent to another thread. Two threads that share one need a lock:
///
/// ```compile_fail,E0277
/// fn shared(_: impl Sync) {}
/// fn of(channel: tcrx::Channel) {
///     shared(channel);
/// }
/// ```
#[repr(transparent)] // a rack's array of channels is an array of their records
pub struct Channel(UnsafeCell<sys::Channel>);

// SAFETY: calls of the library on a channel may be made from any thread, and so may the memory functions. The cell
// keeps two threads from making calls at the same time.
unsafe impl Send for Channel {}

impl Channel {
    /// Creates a channel. All memory that it ever has is requested here. A unit has at most 65,542 octets.
    pub fn new(settings: &Settings<'_>) -> Result<Self, SettingsError> {
        let mut held = sys::HOLDS_NONE;
        let (queues, maps) = (settings.queues, settings.maps);
        // SAFETY: the channel holds none, and both lists have as many entries as the counts say.
        let status = unsafe {
            sys::tcrx_channel_new_at(&mut held, settings.record(), queues.as_ptr(), queues.len(), maps.as_ptr(), maps.len())
        };
        if status == sys::DONE {
            Ok(Channel(UnsafeCell::new(held)))
        } else {
            Err(SettingsError::of(status, 0))
        }
    }

    /// Creates a channel within limits. It requests less memory than a channel without limits.
    pub fn with_limits(settings: &Settings<'_>, limits: &Limits<'_>) -> Result<Self, SettingsError> {
        let mut held = sys::HOLDS_NONE;
        let (queues, maps, listed) = (settings.queues, settings.maps, limits.maps);
        // SAFETY: the channel holds none, and the lists have as many entries as the counts say.
        let status = unsafe {
            sys::tcrx_channel_new_with_limits_at(
                &mut held,
                settings.record(),
                queues.as_ptr(),
                queues.len(),
                maps.as_ptr(),
                maps.len(),
                limits.others,
                listed.as_ptr(),
                listed.len(),
            )
        };
        if status == sys::DONE {
            Ok(Channel(UnsafeCell::new(held)))
        } else {
            Err(SettingsError::of(status, 0))
        }
    }

    /// Brings the frame at the front of octets to the channel. The call doesn't look at the spacecraft and the channel
    /// that the frame is for. A [`Rack`] does that.
    pub fn frame(&mut self, octets: &[u8]) -> Result<Brought, BringError> {
        // SAFETY: this value holds a channel, nobody else uses it, and there are as many octets as the count says.
        let reply = unsafe { sys::tcrx_channel_frame_at(self.0.get_mut(), octets.as_ptr(), octets.len()) };
        if reply.status != sys::DONE {
            return Err(BringError::of(reply.status, 0));
        }
        let delivery = Delivery { queued: reply.queued, dropped: reply.dropped, rest: reply.rest == 1 };
        Ok(Brought { event: Event::of(reply.event), accepted: reply.accepted == 1, delivery })
    }

    /// Releases the oldest data field from the buffer to reassembly and the queues.
    pub fn release(&mut self) -> Result<Delivery, ReleaseError> {
        // SAFETY: this value holds a channel, and nobody else uses it.
        let delivery = unsafe { sys::tcrx_channel_release_at(self.0.get_mut()) };
        if delivery.status != sys::DONE {
            return Err(ReleaseError::of(delivery.status, 0));
        }
        Ok(Delivery { queued: delivery.queued, dropped: delivery.dropped, rest: delivery.rest == 1 })
    }

    /// Takes the oldest packet out of a queue, writes it to the front of `room`, and returns it from there. If the room
    /// is too short, the packet stays in the queue, and the error says how many octets it needs.
    pub fn take<'room>(&mut self, apid: u16, room: &'room mut [u8]) -> Result<&'room [u8], TakeError> {
        // SAFETY: this value holds a channel, nobody else uses it, and the room is as long as it says.
        let written = unsafe { sys::tcrx_channel_take_at(self.0.get_mut(), apid, room.as_mut_ptr(), room.len()) };
        if written.status == sys::DONE {
            Ok(&room[..written.length])
        } else {
            Err(TakeError::of(written.status, written.length))
        }
    }

    /// Takes the oldest unit out of the queue of a chosen MAP, as `take` takes a packet. A unit may have no octets.
    pub fn take_unit<'room>(&mut self, map: u8, room: &'room mut [u8]) -> Result<&'room [u8], TakeError> {
        // SAFETY: this value holds a channel, nobody else uses it, and the room is as long as it says.
        let written = unsafe { sys::tcrx_channel_take_unit_at(self.0.get_mut(), map, room.as_mut_ptr(), room.len()) };
        if written.status == sys::DONE {
            Ok(&room[..written.length])
        } else {
            Err(TakeError::of(written.status, written.length))
        }
    }

    /// Returns the channel's CLCW.
    pub fn clcw(&self, link: Link) -> Clcw {
        // SAFETY: a channel is held. No other thread has it, because the cell isn't `Sync`, and the call is over before
        // another begins.
        Clcw::of(unsafe { sys::tcrx_channel_clcw_at(self.0.get(), link.no_rf.into(), link.no_bit_lock.into()) }.word)
    }

    /// Returns the record of the channel's FARM-1.
    pub fn report(&self) -> Farm {
        // SAFETY: this call is safe for the reasons given in `clcw`.
        Farm::of(unsafe { sys::tcrx_channel_report_at(self.0.get()) }.farm)
    }

    /// Returns the number of data fields that wait in the buffer.
    pub fn buffered(&self) -> u64 {
        // SAFETY: this call is safe for the reasons given in `clcw`.
        unsafe { sys::tcrx_channel_buffered_at(self.0.get()) }.count
    }

    /// Returns the number of packets that wait in the queue of an application, or `None` if it has no queue.
    pub fn queued(&self, apid: u16) -> Option<u64> {
        // SAFETY: this call is safe for the reasons given in `clcw`.
        let answer = unsafe { sys::tcrx_channel_queued_at(self.0.get(), apid) };
        (answer.status == sys::DONE).then_some(answer.count)
    }

    /// Returns the number of units that wait in the queue of a MAP, or `None` if the MAP isn't chosen.
    pub fn units(&self, map: u8) -> Option<u64> {
        // SAFETY: this call is safe for the reasons given in `clcw`.
        let answer = unsafe { sys::tcrx_channel_units_at(self.0.get(), map) };
        (answer.status == sys::DONE).then_some(answer.count)
    }

    /// Returns the number of frames, releases and takes that were done.
    pub fn events(&self) -> u64 {
        // SAFETY: this call is safe for the reasons given in `clcw`.
        unsafe { sys::tcrx_channel_events_at(self.0.get()) }.count
    }

    /// Frees the channel before the end of its scope. After that it can't be used:
    ///
    /// ```compile_fail,E0382
    /// fn of(channel: tcrx::Channel) -> u64 {
    ///     channel.close();
    ///     channel.events()
    /// }
    /// ```
    pub fn close(self) {}
}

/// The outcome for the frame at the front of a candidate, and the octets that follow the frame.
#[derive(Clone, Copy, Debug, PartialEq, Eq)]
pub struct Carried<'octets> {
    /// The outcome for the frame, as `Rack::frame` returns it.
    pub frame: Result<(u8, Brought), CandidateError>,
    /// The octets behind the frame, or all octets if no frame was found.
    pub rest: &'octets [u8],
    /// Whether more octets follow the frame than can be fill.
    pub more: bool,
}

/// The channels of a spacecraft.
#[derive(Debug)]
pub struct Rack<'channels> {
    /// The spacecraft id.
    pub scid: u16,
    /// Whether frames end with the frame error control field. If so, the field is checked, and nothing may follow the
    /// frame. If not, octets that follow a frame are fill.
    pub fecf: bool,
    /// The channels. If several have the same virtual channel id, the first one is found.
    pub channels: &'channels mut [Channel],
}

impl Rack<'_> {
    /// Brings the frame at the front of octets to the channel that it is for. Returns the virtual channel id of that
    /// channel, and the outcome.
    pub fn frame(&mut self, octets: &[u8]) -> Result<(u8, Brought), RackError> {
        let (at, count) = (self.channels.as_mut_ptr().cast(), self.channels.len());
        // SAFETY: the channels are records of the library that nobody else uses, and both pointers point to as many
        // entries as the counts say.
        let reply = unsafe { sys::tcrx_rack_frame_at(at, count, self.scid, self.fecf.into(), octets.as_ptr(), octets.len()) };
        if reply.status != sys::DONE {
            return Err(RackError::of(reply.status, 0));
        }
        let delivery = Delivery { queued: reply.queued, dropped: reply.dropped, rest: reply.rest == 1 };
        Ok((reply.vcid, Brought { event: Event::of(reply.event), accepted: reply.accepted == 1, delivery }))
    }

    /// Brings the frame at the front of a candidate to its channel. A candidate comes from a `Decoder`. The length
    /// field of the frame is read first, and says where the frame ends. Then the frame error control field is checked.
    pub fn candidate<'octets>(&mut self, octets: &'octets [u8]) -> Carried<'octets> {
        let (at, count) = (self.channels.as_mut_ptr().cast(), self.channels.len());
        // SAFETY: this call is safe for the reasons given in `frame`.
        let reply = unsafe { sys::tcrx_rack_candidate_at(at, count, self.scid, self.fecf.into(), octets.as_ptr(), octets.len()) };
        let frame = if reply.status == sys::DONE {
            let delivery = Delivery { queued: reply.queued, dropped: reply.dropped, rest: reply.rest == 1 };
            Ok((reply.vcid, Brought { event: Event::of(reply.event), accepted: reply.accepted == 1, delivery }))
        } else {
            Err(CandidateError::of(reply.status, 0))
        };
        Carried { frame, rest: &octets[reply.length.into()..], more: reply.more == 1 }
    }

    /// Returns the channel with this virtual channel id.
    pub fn channel(&mut self, vcid: u8) -> Option<&mut Channel> {
        let (at, count) = (self.channels.as_mut_ptr().cast(), self.channels.len());
        // SAFETY: this call is safe for the reasons given in `frame`.
        let found = unsafe { sys::tcrx_rack_find_at(at, count, vcid) };
        if found.status == sys::DONE {
            self.channels.get_mut(found.place)
        } else {
            None
        }
    }
}

impl Drop for Channel {
    fn drop(&mut self) {
        // SAFETY: this value holds a channel that nobody else uses, and that isn't used after this.
        unsafe { sys::tcrx_channel_free_at(self.0.get_mut()) };
    }
}

impl fmt::Debug for Channel {
    fn fmt(&self, to: &mut fmt::Formatter<'_>) -> fmt::Result {
        to.debug_struct("Channel").field("farm", &self.report()).field("events", &self.events()).finish_non_exhaustive()
    }
}
