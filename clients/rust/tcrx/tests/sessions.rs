//! Passes the stored cases to sessions, line by line: scripts as `tcrx run` does, and the input of `tclive` and of
//! `tcmake`. Tests each error. Refuses each block in turn, both those of the library and those of the buffer for texts.

mod refusing;

use refusing::{blocks, refuse};
use std::alloc::{GlobalAlloc, Layout, System};
use std::cell::Cell;
use std::fs;
use std::path::PathBuf;
use std::thread;
use tcrx::{add_fecf, Header, LineError, Session, SessionError};

thread_local! {
    /// Whether a block for a text is refused.
    static TEXTS_REFUSED: Cell<bool> = const { Cell::new(false) };
}

struct Allocator;

// SAFETY: each function returns null, which is allowed, or calls the system's allocator.
unsafe impl GlobalAlloc for Allocator {
    unsafe fn alloc(&self, layout: Layout) -> *mut u8 {
        if TEXTS_REFUSED.get() {
            return std::ptr::null_mut();
        }
        // SAFETY: the caller promises what the system's allocator requires.
        unsafe { System.alloc(layout) }
    }

    unsafe fn dealloc(&self, at: *mut u8, layout: Layout) {
        // SAFETY: the caller promises what the system's allocator requires.
        unsafe { System.dealloc(at, layout) }
    }
}

#[global_allocator]
static ALLOCATOR: Allocator = Allocator;

fn stored(path: &str) -> Vec<u8> {
    let file = PathBuf::from(env!("CARGO_MANIFEST_DIR")).join("../../../crates").join(path);
    fs::read(&file).unwrap_or_else(|error| panic!("{}: {error}", file.display()))
}

fn lines_of(script: &[u8]) -> Vec<&[u8]> {
    let mut lines: Vec<&[u8]> = script.split(|octet| *octet == b'\n').collect();
    if lines.last() == Some(&&b""[..]) {
        lines.pop();
    }
    lines
}

/// The texts of the answers to lines and of the final report, and the reason why a script ended.
type Come = (String, String);

fn text_of(answer: Result<&str, LineError>, come: &mut Come) -> bool {
    match answer {
        Ok(text) => come.0 += text,
        Err(LineError::BadLine(why)) => come.1 = why,
        Err(error) => panic!("{error}"),
    }
    come.1.is_empty()
}

fn come_of(mut session: Session, lines: &[&[u8]]) -> Come {
    let mut come = Come::default();
    if lines.iter().all(|line| text_of(session.answer(line), &mut come)) {
        text_of(session.end(), &mut come);
    }
    assert_eq!(session.answer("clcw 1"), Err(LineError::Over));
    assert_eq!(session.end(), Err(LineError::Over));
    come
}

/// Returns the stored cases, each with its name, its spacecraft and its fault.
fn cases() -> Vec<(String, u16, String)> {
    let index = String::from_utf8(stored("conformance/data/index")).expect("text");
    let case = |line: &str| {
        let mut words = line.splitn(3, ' ');
        let name = words.next().expect("a name").to_string();
        let scid = words.next().and_then(|word| word.parse().ok()).expect("a spacecraft");
        (name, scid, words.next().map_or(String::new(), |fault| format!("{fault}\n")))
    };
    index.lines().map(case).collect()
}

#[test]
fn each_stored_case_is_answered_as_it_is_stored() {
    let cases = cases();
    let faults = cases.iter().filter(|(_, _, fault)| !fault.is_empty()).count();
    assert!(cases.len() > 100 && faults > 40, "{} cases, {faults} of them with a fault", cases.len());
    for (name, scid, fault) in &cases {
        let script = stored(&format!("conformance/data/{name}.script"));
        let answers = String::from_utf8(stored(&format!("conformance/data/{name}.out"))).expect("ASCII");
        let come = come_of(Session::script(*scid).expect("a session"), &lines_of(&script));
        assert_eq!(come, (answers, fault.clone()), "case {name}");
    }
    println!("{} cases", cases.len());
}

#[test]
fn lines_are_answered_as_by_tclive_and_tcmake() {
    for (program, session) in [("tclive", Session::live(42, false)), ("tcmake", Session::make(false))] {
        let answers = String::from_utf8(stored(&format!("{program}/stdout"))).expect("ASCII");
        let come = come_of(session.expect("a session"), &lines_of(&stored(&format!("{program}/stdin"))));
        assert_eq!(come, (answers, String::new()), "{program}");
    }
}

#[test]
fn sums_are_added_checked_and_seen() {
    let mut room = [0; 64];
    let header = Header { scid: 42, vcid: 1, ns: 0, bypass: false, control: false };
    let plain = header.write(&[0xc0, 0x10, 0x05, 0xc0, 0x00, 0x00, 0x00, 0xaa], &mut room).expect("a frame").to_vec();
    let ended: String = add_fecf(&plain, &mut room).expect("a frame").iter().map(|octet| format!("{octet:02x}")).collect();
    let mut maker = Session::make(true).expect("a session");
    assert_eq!(maker.answer("ad 42 1 0 0 1005c0000000aa"), Ok(&*format!("frame {ended}\n")));
    for fecf in [false, true] {
        let mut session = Session::live(42, fecf).expect("a session");
        assert_eq!(session.answer("channel 1 10 4 0"), Ok(""));
        assert!(!session.saw_check_sums());
        let answer = session.answer(format!("frame {ended}")).expect("an answer").to_string();
        assert_eq!(answer, "frame 1 E1 accepted 1 queued 0 dropped 0 rest 0\n");
        assert_eq!(session.end().map(|text| text.lines().count()), Ok(1));
        assert_eq!(session.saw_check_sums(), !fecf);
    }
}

#[test]
fn sessions_that_there_are_not() {
    assert_eq!(Session::live(1024, false).map(drop), Err(SessionError::BadScid));
    assert_eq!(Session::script(1024).map(drop), Err(SessionError::BadScid));
    assert_eq!(SessionError::BadScid.to_string(), "the spacecraft id is over 1,023");
    assert!(Session::script(1023).is_ok());
}

#[test]
fn a_bad_line_ends_a_script_and_no_other_lines() {
    let mut script = Session::script(42).expect("a session");
    assert_eq!(script.answer("# a comment"), Ok(""));
    let bad = LineError::BadLine("line 2: unknown command\n".to_string());
    assert_eq!(bad.to_string(), "line 2: unknown command");
    assert_eq!(script.answer("fram 00"), Err(bad));
    assert_eq!(script.answer("# a comment"), Err(LineError::Over));
    let mut live = Session::live(42, false).expect("a session");
    let bad = live.answer("fram 00").expect("an answer").to_string();
    assert!(bad.starts_with("bad unknown command"), "{bad}");
    assert_eq!(live.answer("channel 1 10 4 0"), Ok(""));
    assert_eq!(live.text(), Ok(""));
}

#[test]
fn a_text_waits_until_there_is_room_for_it() {
    let mut session = Session::live(42, false).expect("a session");
    session.answer("channel 1 10 4 0").expect("an answer");
    TEXTS_REFUSED.set(true);
    let first = session.answer("clcw 1").map(str::len);
    let again = session.text().map(str::len);
    TEXTS_REFUSED.set(false);
    assert_eq!((first, again), (Err(LineError::NoRoom { needed: 16 }), Err(LineError::NoRoom { needed: 16 })));
    assert_eq!(session.answer("frame 00"), Err(LineError::Waiting));
    assert_eq!(session.end(), Err(LineError::Waiting));
    assert_eq!(session.text(), Ok("clcw 1 01040000\n"));
    assert_eq!(session.text(), Ok(""));
    assert_eq!(session.end(), Ok("final 1 01040000 events 0 buffered 0\n"));
}

#[test]
fn a_session_can_be_moved_to_another_thread() {
    let mut session = Session::live(42, false).expect("a session");
    session.answer("channel 1 10 4 0").expect("an answer");
    let moved = thread::spawn(move || session.answer("clcw 1").map(str::to_string).map_err(|error| error.to_string()));
    assert_eq!(moved.join().expect("a thread"), Ok("clcw 1 01040000\n".to_string()));
}

/// Makes a call again and again, each time with one more block that is allocated, until no block is refused. Returns
/// its result, and the number of refused blocks.
fn until_done<T>(mut call: impl FnMut() -> Option<T>) -> (T, u32) {
    for refused in 0.. {
        refuse(Some(refused));
        let answer = call();
        let was_refused = refuse(None).is_none();
        if let Some(done) = answer {
            return (done, refused);
        }
        assert!(was_refused, "a call failed though no block was refused");
    }
    unreachable!()
}

/// Returns the answer to a line, or `None` if a block that it needs is refused.
fn answered(session: &mut Session, line: &[u8]) -> Option<String> {
    match session.answer(line) {
        // This is a receiver's answer if there is no memory for the channel, queue or MAP that the line sets up. The
        // line then sets up nothing.
        Ok("bad no memory\n") | Err(LineError::NoMemory) => None,
        Ok(text) => Some(text.to_string()),
        Err(error) => panic!("{error}"),
    }
}

#[test]
fn each_block_is_refused_in_turn() {
    let script = stored("tclive/stdin");
    let made = || match Session::live(42, false) {
        Ok(session) => Some(session),
        Err(error) => {
            assert_eq!((error, blocks()), (SessionError::NoMemory, 0));
            None
        }
    };
    let (mut session, mut refused) = until_done(made);
    assert!(refused > 0);
    let mut texts = String::new();
    for line in lines_of(&script) {
        let (text, of_line) = until_done(|| answered(&mut session, line));
        texts += &text;
        refused += of_line;
    }
    texts += session.end().expect("a report");
    assert_eq!(texts.as_bytes(), stored("tclive/stdout"));
    assert!(refused > 20, "{refused} blocks were refused");
    drop(session);
    assert_eq!(blocks(), 0, "no block is left");
    println!("{refused} blocks refused");
}

/// Makes a call again and again, with a block refused each time, until its result isn't `NoMemory`. Returns that
/// result.
fn until_bad(mut call: impl FnMut() -> Result<String, LineError>) -> Result<String, LineError> {
    until_done(|| match call() {
        Err(LineError::NoMemory) => None,
        other => Some(other),
    })
    .0
}

#[test]
fn without_memory_a_script_ends_and_there_is_no_report() {
    let mut script = Session::script(42).expect("a session");
    let bad = until_bad(|| script.answer("channel 1 10 4 0").map(str::to_string));
    assert_eq!(bad, Err(LineError::BadLine("line 1: no memory\n".to_string())));
    let mut live = Session::live(42, false).expect("a session");
    assert_eq!(live.answer("channel 1 10 4 0"), Ok(""));
    let bad = until_bad(|| live.end().map(str::to_string));
    assert_eq!(bad, Err(LineError::BadLine("no memory\n".to_string())));
    assert_eq!(live.end(), Err(LineError::Over));
}
