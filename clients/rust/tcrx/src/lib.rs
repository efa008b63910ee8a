//! The spacecraft's end of a CCSDS telecommand link: transfer frames, FARM-1 (the frame acceptance and reporting mechanism), space
//! packets and CLCWs (communications link control words), over the library of `tcrx.h`.
//!
//! **Proofs.** The functions of the library are proved: each returns what its definition says. This crate is not proved. It
//! passes each argument on, makes a value from each record that is returned, and frees a channel once. Tests compare all of
//! that with values that were worked out by hand. Rust itself ensures that a slice is as long as it says, that a channel isn't
//! used after its end, and that two threads don't use one at the same time.
//!
//! ```
//! use tcrx::{Channel, Event, Link, Queue, Settings};
//!
//! # fn main() -> Result<(), Box<dyn std::error::Error>> {
//! let queues = [Queue { apid: 5, capacity: 16 }];
//! let settings = Settings { vcid: 1, width: 10, buffer: 4, first_vr: 0, segmented: true, queues: &queues, maps: &[] };
//! let mut channel = Channel::new(&settings)?;
//! let brought = channel.frame(&[0x00, 0x2a, 0x04, 0x0c, 0x00, 0xc0, 0x10, 0x05, 0xc0, 0x00, 0x00, 0x00, 0xaa])?;
//! assert_eq!(brought.event, Event::E1);
//! channel.release()?;
//! let mut room = [0; 64];
//! assert_eq!(channel.take(5, &mut room)?, [0x10, 0x05, 0xc0, 0x00, 0x00, 0x00, 0xaa]);
//! assert_eq!(channel.clcw(Link::default()).word(), 0x01040001);
//! # Ok(())
//! # }
//! ```
//!
//! The crate needs neither `std` nor an allocator of Rust's, because packets are taken into slices of the caller's. The crate
//! `tcrx-sys` describes which library is linked and where it gets its memory. Its features `shared`, `own-memory` and `lines` are
//! also features of this crate.
//!
//! With the feature `lines` there are also sessions that answer lines of text, as the programs `tclive`, `tcrx` and `tcmake` do. They
//! need an allocator of Rust's, and a library for x86-64 or aarch64.
#![no_std]

mod channel;
mod errors;
#[cfg(feature = "lines")]
mod lines;
mod link;

pub use channel::{Brought, Carried, Channel, Delivery, Limits, Link, Rack, Settings};
pub use errors::{
    BringError, CandidateError, FarmError, FecfError, FrameError, RackError, ReleaseError, SettingsError, TakeError, TmError,
    WriteError,
};
#[cfg(feature = "lines")]
pub use lines::{LineError, Session, SessionError};
pub use link::{
    add_fecf, check_fecf, randomise, write_cltu, Arrival, Clcw, Command, Decoder, Event, Farm, Fed, Frame, Header, Kind, Packet,
    PacketHeader, Segments, State, Step, Tm, TmHeader,
};
pub use tcrx_sys::{Limit, Map, Queue};
