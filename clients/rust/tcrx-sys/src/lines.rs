//! The calls of `tcrx_lines.h`: sessions that answer lines of text. The feature `lines` declares them. The library has
//! them on x86-64 and aarch64, but not in portable C.

use crate::{Status, Written};
use core::ffi::c_void;

/// The initial value of a [`Lines`], `TCRX_HOLDS_NONE`.
pub const HOLDS_NONE: Lines = Lines { held: 0, place: core::ptr::null_mut() };

// tools/c_interface writes the following lines from dist/tcrx_lines.h.
numbers! {
    /// No session is held.
    NO_SESSION: Status = 100;
    /// A session is already held.
    SESSION_IN_USE: Status = 101;
    /// The spacecraft id is over 1,023.
    BAD_SCID: Status = 102;
    /// The script ends here, and the text says why.
    BAD_LINE: Status = 103;
    /// The text of an earlier call still waits, so nothing was done.
    WAITING: Status = 104;
    /// Memory ran out at an answer, which is lost, so no more lines are answered.
    LOST: Status = 105;
    /// The lines have ended, so no more lines are answered.
    OVER: Status = 106;
}

records! {
    /// A session in the caller's memory, or none. Set it to `TCRX_HOLDS_NONE` before the first call, and don't write to it after
    /// that. A copy of this record isn't a second session. You may move a session to another place, if you set the old place to
    /// `TCRX_HOLDS_NONE` before the next call. A session that is still held when the lifetime of this memory ends isn't freed.
    Lines as "tcrx_lines" {
        /// 1 if a session is held, otherwise 0.
        held: u8,
        /// The library's own data.
        place: *mut c_void,
    }
    /// A status with a flag.
    FlagAnswer as "tcrx_flag_answer" {
        /// `TCRX_DONE`, or the reason why the call failed.
        status: Status,
        /// The flag, 0 or 1.
        flag: u8,
    }
}

extern "C" {
    /// Creates a session that answers lines as `tclive` does: a receiver for which nothing is set up.
    ///
    /// Returns `TCRX_DONE`. The call fails with `TCRX_SESSION_IN_USE`, `TCRX_BAD_SCID`, `TCRX_BAD_FLAG`, or `TCRX_NO_MEMORY`.
    pub fn tcrx_lines_live_at(lines: *mut Lines, scid: u16, fecf: u8) -> Status;
    /// Creates a session that carries out a script as `tcrx run` does: a receiver for which nothing is set up. It ends at the first
    /// bad line.
    ///
    /// Returns `TCRX_DONE`. The call fails with `TCRX_SESSION_IN_USE`, `TCRX_BAD_SCID`, or `TCRX_NO_MEMORY`.
    pub fn tcrx_lines_script_at(lines: *mut Lines, scid: u16) -> Status;
    /// Creates a session that answers lines as `tcmake` does: a maker that has made nothing.
    ///
    /// Returns `TCRX_DONE`. The call fails with `TCRX_SESSION_IN_USE`, `TCRX_BAD_FLAG`, or `TCRX_NO_MEMORY`.
    pub fn tcrx_lines_make_at(lines: *mut Lines, fecf: u8) -> Status;
    /// Carries out a line, and writes the text of its answer to the front of a buffer. Many lines have an answer without octets.
    /// The answer of one line may be several lines, each with its line feed. If the status is `TCRX_BAD_LINE`, the text is the
    /// reason why the script ends at this line, as `tcrx` prints it. After `TCRX_NO_MEMORY` nothing was done, and the line can be
    /// given again.
    ///
    /// Returns the length of the text. The call fails with `TCRX_NO_SESSION`, `TCRX_WAITING`, `TCRX_OVER`, `TCRX_NO_MEMORY`,
    /// `TCRX_LOST`, `TCRX_NO_ROOM` if the buffer is too short, or `TCRX_BAD_LINE` if the text says why the script ends.
    pub fn tcrx_lines_answer_at(lines: *mut Lines, line: *const u8, count: usize, text: *mut u8, room: usize) -> Written;
    /// Returns the text that waits because an earlier buffer was too short for it. If no text waits, the text is empty.
    ///
    /// Returns the length of the text, with the status that the earlier call would have returned if the buffer had been long
    /// enough. The call fails with `TCRX_NO_SESSION`, or `TCRX_NO_ROOM` if this buffer is too short, too.
    pub fn tcrx_lines_text_at(lines: *mut Lines, text: *mut u8, room: usize) -> Written;
    /// Ends the lines, and writes the final report of a receiver's channels to the front of a buffer. The report of a maker has no
    /// octets. After this call no more lines are answered. If the status is `TCRX_BAD_LINE`, there is no report, and the text is
    /// the reason, as the program prints it.
    ///
    /// Returns the length of the text. The call fails with `TCRX_NO_SESSION`, `TCRX_WAITING`, `TCRX_OVER`, `TCRX_NO_MEMORY`,
    /// `TCRX_LOST`, `TCRX_NO_ROOM` if the buffer is too short, or `TCRX_BAD_LINE` if the text says why there is no report.
    pub fn tcrx_lines_end_at(lines: *mut Lines, text: *mut u8, room: usize) -> Written;
    /// Tells whether frames were brought to a receiver that checks no frame error control fields, and each of these frames ended
    /// with a right one. The programs then print a hint at their end. The answer stays the same after `tcrx_lines_end`.
    ///
    /// Returns the flag. The call fails with `TCRX_NO_SESSION`.
    pub fn tcrx_lines_saw_check_sums_at(lines: *mut Lines) -> FlagAnswer;
    /// Frees the session. Another session can then be created in its place.
    ///
    /// Returns `TCRX_DONE`. The call fails with `TCRX_NO_SESSION`.
    pub fn tcrx_lines_free_at(lines: *mut Lines) -> Status;
}
// The lines that tools/c_interface writes end here.
