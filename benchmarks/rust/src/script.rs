//! Scripts, their answers and their faults. The journals of a script's channels are counted and not kept.
use crate::channel::{Delivery, QueueSetting, Settings, SettingsFault};
use crate::journal::Counted;
use crate::link::{FrameFault, Link};
use crate::station::{LocateFault, Operator, Order, ReleaseRefused, Station, TakeRefused, Watcher, WorkList};
use std::fmt::{self, Write as _};
use std::io::{Read, Write};

pub const MOST: usize = 1_048_576;

#[derive(Clone, Copy, Debug, PartialEq, Eq)]
pub enum Reason {
    UnknownCommand,
    WordCount,
    BadNumber,
    BadHex,
    TooLate,
    NoChannel,
    DoubleChannel,
    UnknownChannel,
    BadVcid,
    BadWindow,
    BadBuffer,
    BadApid,
    DoubleApid,
    BadCapacity,
}

impl fmt::Display for Reason {
    fn fmt(&self, f: &mut fmt::Formatter<'_>) -> fmt::Result {
        f.write_str(match self {
            Reason::UnknownCommand => "unknown command",
            Reason::WordCount => "wrong number of words",
            Reason::BadNumber => "bad number",
            Reason::BadHex => "bad hex",
            Reason::TooLate => "too late",
            Reason::NoChannel => "no channel",
            Reason::DoubleChannel => "double channel",
            Reason::UnknownChannel => "unknown channel",
            Reason::BadVcid => "bad channel",
            Reason::BadWindow => "bad window",
            Reason::BadBuffer => "bad buffer",
            Reason::BadApid => "bad application",
            Reason::DoubleApid => "double application",
            Reason::BadCapacity => "bad capacity",
        })
    }
}

impl From<SettingsFault> for Reason {
    fn from(it: SettingsFault) -> Reason {
        match it {
            SettingsFault::BadVcid => Reason::BadVcid,
            SettingsFault::BadWindow => Reason::BadWindow,
            SettingsFault::BadBuffer => Reason::BadBuffer,
            SettingsFault::BadApid => Reason::BadApid,
            SettingsFault::DoubleApid => Reason::DoubleApid,
            SettingsFault::BadCapacity => Reason::BadCapacity,
        }
    }
}

#[derive(Clone, Debug, PartialEq, Eq)]
pub enum Line {
    Blank,
    Channel { vcid: u8, width: u8, buffer: u8, first: u8 },
    Queue { vcid: u8, apid: u16, capacity: u16 },
    Frame(Vec<u8>),
    Release(u8),
    Take(u8, u16),
    Clcw(u8),
}

#[derive(Debug)]
pub enum ScriptFault {
    Line { line: u32, reason: Reason },
    Read,
    TooLong,
    Write,
    Unbalanced,
}

impl fmt::Display for ScriptFault {
    fn fmt(&self, f: &mut fmt::Formatter<'_>) -> fmt::Result {
        match self {
            ScriptFault::Line { line, reason } => write!(f, "line {line}: {reason}"),
            ScriptFault::Read => f.write_str("line 0: cannot read"),
            ScriptFault::TooLong => f.write_str("line 0: too long"),
            ScriptFault::Write => f.write_str("line 0: cannot write"),
            ScriptFault::Unbalanced => f.write_str("line 0: unbalanced"),
        }
    }
}

fn number(word: &[u8], most: u32) -> Result<u32, Reason> {
    if word.is_empty() || word.len() > 5 || !word.iter().all(u8::is_ascii_digit) {
        return Err(Reason::BadNumber);
    }
    let value = word.iter().fold(0, |all, it| all * 10 + u32::from(it - b'0'));
    if value > most { Err(Reason::BadNumber) } else { Ok(value) }
}

fn small(word: &[u8]) -> Result<u8, Reason> {
    Ok(number(word, 255)? as u8)
}

fn wide(word: &[u8]) -> Result<u16, Reason> {
    Ok(number(word, 65_535)? as u16)
}

fn digit(octet: u8) -> Option<u8> {
    match octet {
        b'0'..=b'9' => Some(octet - b'0'),
        b'a'..=b'f' => Some(octet - b'a' + 10),
        b'A'..=b'F' => Some(octet - b'A' + 10),
        _ => None,
    }
}

pub fn read_hex(word: &[u8]) -> Option<Vec<u8>> {
    let (pairs, []) = word.as_chunks::<2>() else {
        return None;
    };
    pairs.iter().map(|&[high, low]| Some(digit(high)? << 4 | digit(low)?)).collect()
}

fn write_hex(out: &mut String, octets: &[u8]) {
    const DIGITS: &[u8; 16] = b"0123456789abcdef";
    out.reserve(2 * octets.len());
    for it in octets {
        out.push(char::from(DIGITS[usize::from(it >> 4)]));
        out.push(char::from(DIGITS[usize::from(it & 15)]));
    }
}

pub fn parse_line(text: &[u8]) -> Result<Line, Reason> {
    let mut words = text.split(|it| matches!(it, b' ' | b'\t' | b'\r')).filter(|it| !it.is_empty());
    let Some(first) = words.next() else {
        return Ok(Line::Blank);
    };
    if first[0] == b'#' {
        return Ok(Line::Blank);
    }
    let wanted = match first {
        b"channel" => 4,
        b"queue" => 3,
        b"take" => 2,
        b"frame" | b"release" | b"clcw" => 1,
        _ => return Err(Reason::UnknownCommand),
    };
    let mut rest: [&[u8]; 4] = [b""; 4];
    let mut count = 0;
    for word in words {
        if count == wanted {
            return Err(Reason::WordCount);
        }
        rest[count] = word;
        count += 1;
    }
    if count != wanted {
        return Err(Reason::WordCount);
    }
    Ok(match first {
        b"channel" => Line::Channel { vcid: small(rest[0])?, width: small(rest[1])?, buffer: small(rest[2])?, first: small(rest[3])? },
        b"queue" => Line::Queue { vcid: small(rest[0])?, apid: wide(rest[1])?, capacity: wide(rest[2])? },
        b"take" => Line::Take(small(rest[0])?, wide(rest[1])?),
        b"frame" => Line::Frame(read_hex(rest[0]).ok_or(Reason::BadHex)?),
        b"release" => Line::Release(small(rest[0])?),
        _ => Line::Clcw(small(rest[0])?),
    })
}

fn read_whole<R: Read>(input: &mut R) -> Result<Vec<u8>, ScriptFault> {
    let mut text = Vec::new();
    let mut limited = input.take(MOST as u64 + 1);
    limited.read_to_end(&mut text).map_err(|_| ScriptFault::Read)?;
    if text.len() > MOST { Err(ScriptFault::TooLong) } else { Ok(text) }
}

fn lines(text: &[u8]) -> impl Iterator<Item = (u32, &[u8])> {
    let whole = text.strip_suffix(b"\n").unwrap_or(text);
    let some = (!text.is_empty()).then(|| whole.split(|it| *it == b'\n'));
    (1..).zip(some.into_iter().flatten())
}

/// The lines before the first operation, which set channels up.
struct Setup {
    settings: Vec<Settings>,
    is_open: bool,
}

impl Setup {
    fn add(&mut self, line: &Line) -> Result<(), Reason> {
        let is_setup = matches!(line, Line::Channel { .. } | Line::Queue { .. });
        if is_setup && !self.is_open {
            return Err(Reason::TooLate);
        }
        if !is_setup && self.settings.is_empty() {
            return Err(Reason::NoChannel);
        }
        match *line {
            Line::Channel { vcid, width, buffer, first } => {
                if self.settings.iter().any(|it| it.vcid == vcid) {
                    return Err(Reason::DoubleChannel);
                }
                let made = Settings { vcid, width, buffer, first, queues: Vec::new() };
                made.check()?;
                self.settings.push(made);
            }
            Line::Queue { vcid, apid, capacity } => {
                let it = self.settings.iter_mut().find(|it| it.vcid == vcid);
                let it = it.ok_or(Reason::UnknownChannel)?;
                it.queues.push(QueueSetting { apid, capacity });
                it.check()?;
            }
            _ => self.is_open = false,
        }
        Ok(())
    }
}

fn refusal(it: LocateFault) -> &'static str {
    match it {
        LocateFault::Frame(FrameFault::Short) => "refused short",
        LocateFault::Frame(FrameFault::Version) => "refused version",
        LocateFault::Frame(FrameFault::Spare) => "refused spare",
        LocateFault::Frame(FrameFault::LengthSmall) => "refused length",
        LocateFault::Frame(FrameFault::Truncated) => "refused truncated",
        LocateFault::OtherSpacecraft => "refused spacecraft",
        LocateFault::UnknownChannel => "refused channel",
    }
}

struct Running {
    station: Station<Counted>,
    me: Operator,
    watchers: Vec<(u8, Watcher)>,
}

impl Running {
    fn new(scid: u16, settings: Vec<Settings>) -> Running {
        let vcids: Vec<u8> = settings.iter().map(|it| it.vcid).collect();
        let mut station: Station<Counted> = Station::new(scid, settings).expect("the settings were checked");
        let me = station.operators(1).and_then(|mut all| all.pop()).expect("the first operator");
        let watcher = |vcid: u8| (vcid, station.watcher(vcid).expect("a channel of the station"));
        let watchers = vcids.into_iter().map(watcher).collect();
        Running { station, me, watchers }
    }

    fn answer(&mut self, line: &Line, out: &mut String) {
        match line {
            Line::Frame(octets) => self.bring(octets, out),
            Line::Release(vcid) => self.release(*vcid, out),
            Line::Take(vcid, apid) => self.take(*vcid, *apid, out),
            Line::Clcw(vcid) => self.clcw(*vcid, out),
            _ => {}
        }
    }

    fn bring(&mut self, octets: &[u8], out: &mut String) {
        match self.station.bring(&mut self.me, octets) {
            Ok(it) => {
                let act = it.reply.act;
                let _ = write!(out, "frame {} E{} accepted {}", it.vcid, act.event, u8::from(act.accepted));
                write_delivery(out, &it.reply.delivery);
            }
            Err(fault) => {
                let _ = writeln!(out, "{}", refusal(fault));
            }
        }
    }

    fn release(&mut self, vcid: u8, out: &mut String) {
        match self.station.release(&mut self.me, vcid) {
            Ok(it) => {
                let _ = write!(out, "release {vcid}");
                write_delivery(out, &it);
            }
            Err(ReleaseRefused::UnknownChannel) => out.push_str("refused channel\n"),
            Err(ReleaseRefused::Empty) => out.push_str("refused empty\n"),
        }
    }

    fn take(&mut self, vcid: u8, apid: u16, out: &mut String) {
        match self.station.take(&mut self.me, vcid, apid) {
            Ok(packet) => {
                let _ = write!(out, "take {vcid} {apid} ");
                write_hex(out, &packet);
                out.push('\n');
            }
            Err(TakeRefused::UnknownChannel) => out.push_str("refused channel\n"),
            Err(TakeRefused::NoQueue) => out.push_str("refused no queue\n"),
            Err(TakeRefused::Empty) => out.push_str("refused empty\n"),
        }
    }

    fn clcw(&self, vcid: u8, out: &mut String) {
        match self.watchers.iter().find(|it| it.0 == vcid) {
            Some((_, watcher)) => {
                let _ = writeln!(out, "clcw {vcid} {:08x}", self.station.watch(watcher, Link::default()));
            }
            None => out.push_str("refused channel\n"),
        }
    }
}

fn write_delivery(out: &mut String, it: &Delivery) {
    let _ = writeln!(out, " queued {} dropped {} rest {}", it.queued, it.dropped, u8::from(it.rest));
}

fn report(station: Station<Counted>, operators: Vec<Operator>) -> Result<String, ScriptFault> {
    let mut channels = station.close(operators).map_err(|_| ScriptFault::Unbalanced)?;
    channels.sort_by_key(|it| it.settings().vcid);
    let mut out = String::new();
    for it in &channels {
        let vcid = it.settings().vcid;
        let _ = writeln!(out, "final {vcid} {:08x} events {} buffered {}", it.clcw(Link::default()), it.events(), it.buffered());
        for queue in &it.settings().queues {
            let _ = writeln!(out, "queue {vcid} {} {}", queue.apid, it.queued(queue.apid).unwrap_or(0));
        }
    }
    Ok(out)
}

fn put<W: Write>(output: &mut W, text: &str) -> Result<(), ScriptFault> {
    output.write_all(text.as_bytes()).map_err(|_| ScriptFault::Write)
}

pub fn run_script<R: Read, W: Write>(scid: u16, input: &mut R, output: &mut W) -> Result<(), ScriptFault> {
    let text = read_whole(input)?;
    let mut setup = Setup { settings: Vec::new(), is_open: true };
    let mut running = None;
    let mut answer = String::new();
    for (at, text) in lines(&text) {
        let bad = |reason| ScriptFault::Line { line: at, reason };
        let line = parse_line(text).map_err(bad)?;
        if line == Line::Blank {
            continue;
        }
        setup.add(&line).map_err(bad)?;
        if setup.is_open {
            continue;
        }
        let running = running.get_or_insert_with(|| Running::new(scid, setup.settings.clone()));
        answer.clear();
        running.answer(&line, &mut answer);
        put(output, &answer)?;
    }
    if running.is_none() && !setup.settings.is_empty() {
        running = Some(Running::new(scid, setup.settings));
    }
    if let Some(it) = running {
        put(output, &report(it.station, vec![it.me])?)?;
    }
    output.flush().map_err(|_| ScriptFault::Write)
}

pub fn parallel_script<R: Read, W: Write>(scid: u16, input: &mut R, output: &mut W) -> Result<(), ScriptFault> {
    let text = read_whole(input)?;
    let mut setup = Setup { settings: Vec::new(), is_open: true };
    let mut operations = Vec::new();
    for (at, text) in lines(&text) {
        let bad = |reason| ScriptFault::Line { line: at, reason };
        let line = parse_line(text).map_err(bad)?;
        if line == Line::Blank {
            continue;
        }
        setup.add(&line).map_err(bad)?;
        if !setup.is_open {
            operations.push(line);
        }
    }
    if setup.settings.is_empty() {
        return Ok(());
    }
    let mut lists: Vec<WorkList> = setup.settings.iter().map(|it| WorkList { vcid: it.vcid, jobs: Vec::new() }).collect();
    let mut station: Station<Counted> = Station::new(scid, setup.settings).expect("the settings were checked");
    for it in operations {
        let (vcid, order) = match it {
            Line::Frame(octets) => match station.locate(&octets).map(|it| it.vcid) {
                Ok(vcid) => (vcid, Order::Bring(octets)),
                Err(_) => continue,
            },
            Line::Release(vcid) => (vcid, Order::Release),
            Line::Take(vcid, apid) => (vcid, Order::Take(apid)),
            _ => continue,
        };
        if let Some(list) = lists.iter_mut().find(|it| it.vcid == vcid) {
            list.jobs.push(order);
        }
    }
    let mut operators = station.operators(lists.len() as u16).expect("at most 64 operators");
    station.work(&mut operators, &lists);
    put(output, &report(station, operators)?)?;
    output.flush().map_err(|_| ScriptFault::Write)
}
