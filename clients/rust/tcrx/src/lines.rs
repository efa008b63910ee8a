//! Sessions that answer lines of text.

extern crate alloc;

use alloc::string::String;
use alloc::vec::Vec;
use core::error::Error;
use core::fmt;
use core::mem::take;
use core::str::from_utf8;
use tcrx_sys as sys;
use tcrx_sys::lines as calls;

const ASCII: &str = "the texts of the library are ASCII";

/// The reason why no session is created.
#[derive(Clone, Copy, Debug, PartialEq, Eq, Hash)]
#[non_exhaustive]
pub enum SessionError {
    /// The spacecraft id is over 1,023.
    BadScid,
    /// There is too little memory.
    NoMemory,
    /// Another status, which this version of the library doesn't return.
    Other(u32),
}

impl fmt::Display for SessionError {
    fn fmt(&self, to: &mut fmt::Formatter<'_>) -> fmt::Result {
        match self {
            Self::BadScid => to.write_str("the spacecraft id is over 1,023"),
            Self::NoMemory => to.write_str("there is too little memory"),
            Self::Other(status) => write!(to, "status {status}"),
        }
    }
}

impl Error for SessionError {}

/// The reason why a line has no answer, or why there is no final report.
#[derive(Clone, Debug, PartialEq, Eq, Hash)]
#[non_exhaustive]
pub enum LineError {
    /// The script ends here, or there is no final report. The text is the reason as the program prints it, with its line feed.
    BadLine(String),
    /// There is too little memory. Nothing was done, and the line can be given again.
    NoMemory,
    /// There is too little memory for the text, which waits. [`Session::text`] returns it.
    NoRoom {
        /// The number of octets that the text needs.
        needed: usize,
    },
    /// The text of an earlier call waits, so nothing was done. [`Session::text`] returns it.
    Waiting,
    /// Memory ran out at an answer, which is lost. No more lines are answered.
    Lost,
    /// The lines have ended, by [`Session::end`] or by [`LineError::BadLine`]. No more lines are answered.
    Over,
    /// Another status, which this version of the library doesn't return.
    Other(u32),
}

impl fmt::Display for LineError {
    fn fmt(&self, to: &mut fmt::Formatter<'_>) -> fmt::Result {
        match self {
            Self::BadLine(why) => to.write_str(why.trim_end()),
            Self::NoMemory => to.write_str("there is too little memory for the line"),
            Self::NoRoom { needed } => write!(to, "there is too little memory for the text of {needed} octets, which waits"),
            Self::Waiting => to.write_str("the text of an earlier call waits"),
            Self::Lost => to.write_str("memory ran out at an answer, which is lost"),
            Self::Over => to.write_str("the lines have ended"),
            Self::Other(status) => write!(to, "status {status}"),
        }
    }
}

impl Error for LineError {}

/// A session, which answers lines of text as the program `tclive`, `tcrx` or `tcmake` does. It is freed when it is dropped.
///
/// A text consists of lines with their line feeds, or is empty. It is valid until the next call.
///
/// ```
/// # fn main() -> Result<(), Box<dyn std::error::Error>> {
/// let mut session = tcrx::Session::live(42, false)?;
/// let mut texts = String::new();
/// for line in ["channel 1 10 4 0", "queue 1 5 16", "frame 002a040c00c01005c0000000aa", "release 1", "take 1 5"] {
///     texts += session.answer(line)?;
/// }
/// texts += session.end()?;
/// assert_eq!(texts, "frame 1 E1 accepted 1 queued 0 dropped 0 rest 0
/// release 1 queued 1 dropped 0 rest 0
/// take 1 5 1005c0000000aa
/// final 1 01040001 events 3 buffered 0
/// queue 1 5 0
/// ");
/// # Ok(())
/// # }
/// ```
///
/// A session can be sent to another thread. Two threads that share one need a lock.
pub struct Session {
    held: calls::Lines,
    text: Vec<u8>,
}

// SAFETY: calls of the library on a session may be made from any thread, and so may the memory functions. Each call takes
// the session by an exclusive reference.
unsafe impl Send for Session {}

impl Session {
    fn new(begin: impl FnOnce(*mut calls::Lines) -> sys::Status) -> Result<Self, SessionError> {
        let mut session = Session { held: calls::HOLDS_NONE, text: Vec::new() };
        match begin(&mut session.held) {
            sys::DONE => Ok(session),
            calls::BAD_SCID => Err(SessionError::BadScid),
            sys::NO_MEMORY => Err(SessionError::NoMemory),
            other => Err(SessionError::Other(other)),
        }
    }

    /// Creates a session that answers lines as `tclive` does, for the spacecraft with the id `scid` (0 to 1,023). With
    /// `fecf` each frame must end with a frame error control field, which is checked and removed.
    pub fn live(scid: u16, fecf: bool) -> Result<Self, SessionError> {
        // SAFETY: the record holds no session, and belongs to nobody else.
        Self::new(|held| unsafe { calls::tcrx_lines_live_at(held, scid, fecf.into()) })
    }

    /// Creates a session that carries out a script as `tcrx run` does. The script ends at its first bad line.
    pub fn script(scid: u16) -> Result<Self, SessionError> {
        // SAFETY: this call is safe for the reason given in `live`.
        Self::new(|held| unsafe { calls::tcrx_lines_script_at(held, scid) })
    }

    /// Creates a session that answers lines as `tcmake` does. With `fecf` each frame that it makes ends with a frame error
    /// control field.
    pub fn make(fecf: bool) -> Result<Self, SessionError> {
        // SAFETY: this call is safe for the reason given in `live`.
        Self::new(|held| unsafe { calls::tcrx_lines_make_at(held, fecf.into()) })
    }

    /// Carries out a line, which has no line feed at its end, and returns the text of its answer. If there is too
    /// little memory for the channel, queue or MAP that a line sets up, a receiver answers `bad no memory`, as `tclive`
    /// does, and a script ends.
    pub fn answer(&mut self, line: impl AsRef<[u8]>) -> Result<&str, LineError> {
        let line = line.as_ref();
        // SAFETY: a session is held, by nobody else, and both pointers point to as many octets as the counts say.
        let written = unsafe {
            let (text, room) = (self.text.as_mut_ptr(), self.text.len());
            calls::tcrx_lines_answer_at(&mut self.held, line.as_ptr(), line.len(), text, room)
        };
        self.whole(written)
    }

    /// Returns the text that waits after [`LineError::NoRoom`], with the error that the earlier call would have
    /// returned, if any. The text is empty if none waits.
    pub fn text(&mut self) -> Result<&str, LineError> {
        let written = self.waiting();
        self.whole(written)
    }

    /// Ends the lines, and returns the final report of a receiver's channels. The report of a maker is empty.
    pub fn end(&mut self) -> Result<&str, LineError> {
        // SAFETY: a session is held, by nobody else, and the pointer points to as many octets as the count says.
        let written = unsafe { calls::tcrx_lines_end_at(&mut self.held, self.text.as_mut_ptr(), self.text.len()) };
        self.whole(written)
    }

    /// Returns whether frames were brought to a receiver that checks no frame error control fields, and each of these
    /// frames ended with a right one. The programs then print a hint at their end.
    pub fn saw_check_sums(&mut self) -> bool {
        // SAFETY: a session is held, by nobody else.
        unsafe { calls::tcrx_lines_saw_check_sums_at(&mut self.held) }.flag == 1
    }

    fn waiting(&mut self) -> sys::Written {
        // SAFETY: this call is safe for the reasons given in `end`.
        unsafe { calls::tcrx_lines_text_at(&mut self.held, self.text.as_mut_ptr(), self.text.len()) }
    }

    /// Returns the whole text of a call. The buffer grows if it is too short.
    fn whole(&mut self, written: sys::Written) -> Result<&str, LineError> {
        let mut written = written;
        while written.status == sys::NO_ROOM {
            let needed = written.length;
            if self.text.try_reserve_exact(needed - self.text.len()).is_err() {
                return Err(LineError::NoRoom { needed });
            }
            self.text.resize(needed, 0);
            written = self.waiting();
        }
        match written.status {
            sys::DONE => Ok(from_utf8(&self.text[..written.length]).expect(ASCII)),
            calls::BAD_LINE => {
                // No more lines are answered, so the buffer isn't needed any longer.
                let mut why = take(&mut self.text);
                why.truncate(written.length);
                Err(LineError::BadLine(String::from_utf8(why).expect(ASCII)))
            }
            sys::NO_MEMORY => Err(LineError::NoMemory),
            calls::WAITING => Err(LineError::Waiting),
            calls::LOST => Err(LineError::Lost),
            calls::OVER => Err(LineError::Over),
            other => Err(LineError::Other(other)),
        }
    }
}

impl Drop for Session {
    fn drop(&mut self) {
        // SAFETY: the session belongs to nobody else, and isn't used after this. If none is held, the call does nothing.
        unsafe { calls::tcrx_lines_free_at(&mut self.held) };
    }
}

impl fmt::Debug for Session {
    fn fmt(&self, to: &mut fmt::Formatter<'_>) -> fmt::Result {
        to.debug_struct("Session").finish_non_exhaustive()
    }
}
