//! The errors of the calls, by call. The text of each is the library's.

use core::error::Error;
use core::fmt;
use tcrx_sys as sys;

/// Writes the library's text of a status.
fn write_text(status: u32, to: &mut fmt::Formatter<'_>) -> fmt::Result {
    let mut text = [0; sys::TEXT_ROOM];
    // SAFETY: the pointer points to as many octets as the room says.
    let written = unsafe { sys::tcrx_text_at(status, text.as_mut_ptr(), text.len()) };
    // The length counts the 0 at the end.
    match core::str::from_utf8(&text[..written.length.saturating_sub(1)]) {
        Ok(text) if written.status == sys::DONE => to.write_str(text),
        _ => write!(to, "status {status}"),
    }
}

macro_rules! refusals {
    ($(#[$about:meta])* $name:ident {
        $($(#[$said:meta])* $variant:ident $({ $needed:ident })? = $status:ident,)*
    }) => {
        $(#[$about])*
        #[derive(Clone, Copy, Debug, PartialEq, Eq, Hash)]
        #[non_exhaustive]
        pub enum $name {
            $($(#[$said])* $variant $({
                /// The number of octets that the room must have.
                $needed: usize
            })?,)*
            /// Another status, which this version of the library doesn't return.
            Other(u32),
        }

        impl $name {
            /// Returns the error for a status other than done, with the length that was returned with it.
            #[allow(unused_variables)]
            pub(crate) fn of(status: u32, length: usize) -> Self {
                match status {
                    $(sys::$status => Self::$variant $({ $needed: length })?,)*
                    other => Self::Other(other),
                }
            }

            /// Returns the status, as a number of `tcrx.h`.
            pub fn status(self) -> u32 {
                match self {
                    $(Self::$variant { .. } => sys::$status,)*
                    Self::Other(status) => status,
                }
            }
        }

        impl fmt::Display for $name {
            fn fmt(&self, to: &mut fmt::Formatter<'_>) -> fmt::Result {
                write_text(self.status(), to)
            }
        }

        impl Error for $name {}
    };
}

// tools/c_interface writes the following lines from dist/tcrx.h.
refusals! {
    /// The reason why octets don't begin with a frame.
    FrameError {
        /// There are fewer than 5 octets, too few for a frame.
        Short = SHORT,
        /// The version number of the frame isn't 0.
        BadVersion = BAD_VERSION,
        /// The spare bits of the frame aren't 0.
        Spare = SPARE,
        /// The length field of the frame gives fewer than 6 octets.
        LengthSmall = LENGTH_SMALL,
        /// The length field of the frame gives more octets than there are.
        Truncated = TRUNCATED,
    }
}

refusals! {
    /// The reason why nothing is written.
    WriteError {
        /// A field of the header is over its bound, so nothing is written.
        BadField = BAD_FIELD,
        /// A data field, a unit or a frame is empty, so nothing is written.
        EmptyData = EMPTY_DATA,
        /// The data field has more than 1,019 octets, so no frame is written.
        TooLong = TOO_LONG,
        /// The buffer is too short.
        NoRoom { needed } = NO_ROOM,
        /// A MAP in the settings, or of a segment, is over 63.
        BadMap = BAD_MAP,
        /// The size of a segment isn't 1 to 1,018 octets, so no segment is written.
        BadSize = BAD_SIZE,
        /// The unit has more than 65,542 octets, so no segment is written.
        LongUnit = LONG_UNIT,
        /// The packet data field has more than 65,536 octets, so no packet is written.
        LongPacket = LONG_PACKET,
        /// There are more than 1,029 octets, the most that a CLTU carries.
        LongCltu = LONG_CLTU,
        /// The length of the telemetry frame isn't 11 to 2,048 octets, or 13 to 2,048 with a frame error control field.
        BadLength = BAD_LENGTH,
    }
}

refusals! {
    /// The reason why octets aren't a telemetry frame.
    TmError {
        /// The length of the telemetry frame isn't 11 to 2,048 octets, or 13 to 2,048 with a frame error control field.
        BadLength = BAD_LENGTH,
        /// The version number of the frame isn't 0.
        BadVersion = BAD_VERSION,
        /// The telemetry frame has no operational control field.
        NoControl = NO_CONTROL,
        /// The frame error control field is wrong.
        WrongFecf = WRONG_FECF,
    }
}

refusals! {
    /// The reason why no frame error control field is added or removed.
    FecfError {
        /// There are fewer than 5 octets, too few for a frame.
        Short = SHORT,
        /// The version number of the frame isn't 0.
        BadVersion = BAD_VERSION,
        /// The spare bits of the frame aren't 0.
        Spare = SPARE,
        /// The length field of the frame gives fewer than 6 octets.
        LengthSmall = LENGTH_SMALL,
        /// The length field of the frame gives more octets than there are.
        Truncated = TRUNCATED,
        /// Octets follow the frame, but the call takes only a frame.
        Fill = FILL,
        /// The frame has more than 1,022 octets, so no frame error control field is added.
        LongFrame = LONG_FRAME,
        /// The buffer is too short.
        NoRoom { needed } = NO_ROOM,
        /// The frame has fewer than 8 octets, too few to end with a frame error control field.
        NoFecf = NO_FECF,
        /// The frame error control field is wrong.
        WrongFecf = WRONG_FECF,
    }
}

refusals! {
    /// The reason why FARM-1 can't take a step, or why there is no such FARM-1.
    FarmError {
        /// The width of the window isn't an even number from 2 to 254.
        BadWidth = BAD_WIDTH,
        /// The FARM-B counter is over 3.
        BadFarmB = BAD_FARM_B,
        /// FARM-1 never has these flags in this state.
        FlagsDisagree = FLAGS_DISAGREE,
        /// The state table has no entry for an expected Type-AD frame that finds room in `TCRX_WAIT`.
        NoEntry = NO_ENTRY,
        /// The virtual channel id is over 63.
        BadVcid = BAD_VCID,
    }
}

refusals! {
    /// The reason why no channel is created from settings.
    SettingsError {
        /// The virtual channel id is over 63.
        BadVcid = BAD_VCID,
        /// The width of the window isn't an even number from 2 to 254.
        BadWidth = BAD_WIDTH,
        /// The number of data fields in the buffer of the settings isn't 1 to 64.
        BadBuffer = BAD_BUFFER,
        /// The APID of a queue in the settings is over 2,046.
        BadApid = BAD_APID,
        /// Two queues in the settings have the same APID.
        DoubleApid = DOUBLE_APID,
        /// The capacity of a packet queue in the settings isn't 1 to 256.
        BadCapacity = BAD_CAPACITY,
        /// A MAP in the settings, or of a segment, is over 63.
        BadMap = BAD_MAP,
        /// The settings choose a MAP twice.
        DoubleMap = DOUBLE_MAP,
        /// The capacity of a chosen MAP's queue in the settings isn't 1 to 256.
        BadUnits = BAD_UNITS,
        /// The settings choose a MAP, but have no segment headers.
        PlainMap = PLAIN_MAP,
        /// There is too little memory, so no channel is created.
        NoMemory = NO_MEMORY,
        /// The limit `others` is over 65,542, or it is 0 without segment headers.
        BadOthers = BAD_OTHERS,
        /// The MAP of a limit is over 63.
        BadLimitMap = BAD_LIMIT_MAP,
        /// Two limits are for the same MAP.
        DoubleLimit = DOUBLE_LIMIT,
        /// The limit of a MAP isn't 1 to 65,542.
        BadLimit = BAD_LIMIT,
        /// A limit is for a MAP, but the settings have no segment headers.
        PlainLimit = PLAIN_LIMIT,
        /// A chosen MAP has no limit of its own, and `others` is 0.
        UnlistedMap = UNLISTED_MAP,
    }
}

refusals! {
    /// The reason why a channel didn't take a frame in. The channel stays as it was.
    BringError {
        /// There are fewer than 5 octets, too few for a frame.
        Short = SHORT,
        /// The version number of the frame isn't 0.
        BadVersion = BAD_VERSION,
        /// The spare bits of the frame aren't 0.
        Spare = SPARE,
        /// The length field of the frame gives fewer than 6 octets.
        LengthSmall = LENGTH_SMALL,
        /// The length field of the frame gives more octets than there are.
        Truncated = TRUNCATED,
    }
}

refusals! {
    /// The reason why none of the channels took a frame in. All channels stay as they were.
    RackError {
        /// There are fewer than 5 octets, too few for a frame.
        Short = SHORT,
        /// The version number of the frame isn't 0.
        BadVersion = BAD_VERSION,
        /// The spare bits of the frame aren't 0.
        Spare = SPARE,
        /// The length field of the frame gives fewer than 6 octets.
        LengthSmall = LENGTH_SMALL,
        /// The length field of the frame gives more octets than there are.
        Truncated = TRUNCATED,
        /// Octets follow the frame, but the call takes only a frame.
        Fill = FILL,
        /// The frame has fewer than 8 octets, too few to end with a frame error control field.
        NoFecf = NO_FECF,
        /// The frame error control field is wrong.
        WrongFecf = WRONG_FECF,
        /// The frame is for another spacecraft.
        OtherSpacecraft = OTHER_SPACECRAFT,
        /// No channel has this virtual channel id.
        UnknownChannel = UNKNOWN_CHANNEL,
    }
}

refusals! {
    /// The reason why none of the channels took in the frame of a candidate, which fill may follow. All channels stay as they were.
    CandidateError {
        /// There are fewer than 5 octets, too few for a frame.
        Short = SHORT,
        /// The version number of the frame isn't 0.
        BadVersion = BAD_VERSION,
        /// The spare bits of the frame aren't 0.
        Spare = SPARE,
        /// The length field of the frame gives fewer than 6 octets.
        LengthSmall = LENGTH_SMALL,
        /// The length field of the frame gives more octets than there are.
        Truncated = TRUNCATED,
        /// The frame has fewer than 8 octets, too few to end with a frame error control field.
        NoFecf = NO_FECF,
        /// The frame error control field is wrong.
        WrongFecf = WRONG_FECF,
        /// The frame is for another spacecraft.
        OtherSpacecraft = OTHER_SPACECRAFT,
        /// No channel has this virtual channel id.
        UnknownChannel = UNKNOWN_CHANNEL,
    }
}

refusals! {
    /// The reason why nothing left the buffer. The channel stays as it was.
    ReleaseError {
        /// Nothing waits in the buffer or in the queue.
        Empty = EMPTY,
    }
}

refusals! {
    /// The reason why nothing was taken out of a queue. The channel stays as it was.
    TakeError {
        /// No queue has this APID.
        NoQueue = NO_QUEUE,
        /// Nothing waits in the buffer or in the queue.
        Empty = EMPTY,
        /// The buffer is too short.
        NoRoom { needed } = NO_ROOM,
        /// This MAP isn't chosen.
        NoMap = NO_MAP,
    }
}
// The lines that tools/c_interface writes end here.
