//! Transfer frames, control commands, the window, FARM-1 and the CLCW (CCSDS 232.0-B and 232.1-B).

#[derive(Clone, Copy, Debug, PartialEq, Eq)]
pub struct Header {
    pub bypass: bool,
    pub control: bool,
    pub scid: u16,
    pub vcid: u8,
    pub ns: u8,
}

#[derive(Clone, Copy, Debug, PartialEq, Eq)]
pub enum FrameFault {
    Short,
    Version,
    Spare,
    LengthSmall,
    Truncated,
}

#[derive(Clone, Copy, Debug)]
pub struct Frame<'a> {
    header: Header,
    octets: &'a [u8],
}

impl<'a> Frame<'a> {
    pub fn header(&self) -> Header {
        self.header
    }
    pub fn octets(&self) -> &'a [u8] {
        self.octets
    }
    pub fn field(&self) -> &'a [u8] {
        &self.octets[5..]
    }
}

pub fn read_frame(input: &[u8]) -> Result<Frame<'_>, FrameFault> {
    let [a, b, c, d, ns, ..] = *input else {
        return Err(FrameFault::Short);
    };
    if a >> 6 != 0 {
        return Err(FrameFault::Version);
    }
    if a >> 2 & 3 != 0 {
        return Err(FrameFault::Spare);
    }
    let length = (usize::from(c & 3) << 8 | usize::from(d)) + 1;
    if length < 6 {
        return Err(FrameFault::LengthSmall);
    }
    let octets = input.get(..length).ok_or(FrameFault::Truncated)?;
    let header = Header {
        bypass: a & 0x20 != 0,
        control: a & 0x10 != 0,
        scid: u16::from(a & 3) << 8 | u16::from(b),
        vcid: c >> 2,
        ns,
    };
    Ok(Frame { header, octets })
}

#[derive(Clone, Copy, Debug, PartialEq, Eq)]
pub enum WriteFault {
    BadField,
    EmptyData,
    TooLong,
}

pub fn write_frame(header: &Header, field: &[u8]) -> Result<Vec<u8>, WriteFault> {
    if header.scid > 1023 || header.vcid > 63 {
        return Err(WriteFault::BadField);
    }
    if field.is_empty() {
        return Err(WriteFault::EmptyData);
    }
    if field.len() > 1019 {
        return Err(WriteFault::TooLong);
    }
    let length = field.len() + 4;
    let mut octets = Vec::with_capacity(length + 1);
    octets.extend_from_slice(&[
        u8::from(header.bypass) << 5 | u8::from(header.control) << 4 | (header.scid >> 8) as u8,
        header.scid as u8,
        header.vcid << 2 | (length >> 8) as u8,
        length as u8,
        header.ns,
    ]);
    octets.extend_from_slice(field);
    Ok(octets)
}

#[derive(Clone, Copy, Debug, PartialEq, Eq)]
pub enum Command {
    Unlock,
    SetVr(u8),
}

pub fn read_command(field: &[u8]) -> Option<Command> {
    match *field {
        [0] => Some(Command::Unlock),
        [0x82, 0, x] => Some(Command::SetVr(x)),
        _ => None,
    }
}

#[derive(Clone, Copy, Debug, PartialEq, Eq)]
pub enum Kind {
    Ad(u8),
    Bd,
    Bc(Command),
    Invalid,
}

pub fn kind(frame: &Frame<'_>) -> Kind {
    let header = frame.header();
    match (header.bypass, header.control) {
        (false, false) => Kind::Ad(header.ns),
        (true, false) => Kind::Bd,
        (true, true) => read_command(frame.field()).map_or(Kind::Invalid, Kind::Bc),
        (false, true) => Kind::Invalid,
    }
}

#[derive(Clone, Copy, Debug, PartialEq, Eq)]
pub enum Place {
    Expected,
    Ahead,
    Behind,
    Outside,
}

#[derive(Clone, Copy, Debug, PartialEq, Eq)]
pub struct Window {
    half: u8,
}

impl Window {
    pub fn new(width: u8) -> Option<Window> {
        (width >= 2 && width <= 254 && width % 2 == 0).then_some(Window { half: width / 2 })
    }

    pub fn place(&self, vr: u8, ns: u8) -> Place {
        let ahead = ns.wrapping_sub(vr);
        if ahead == 0 {
            Place::Expected
        } else if ahead < self.half {
            Place::Ahead
        } else if ahead.wrapping_neg() <= self.half {
            Place::Behind
        } else {
            Place::Outside
        }
    }
}

#[derive(Clone, Copy, Debug, PartialEq, Eq)]
pub enum State {
    S1,
    S2,
    S3,
}

#[derive(Clone, Copy, Debug, PartialEq, Eq)]
pub struct Report {
    pub state: State,
    pub vr: u8,
    pub lockout: bool,
    pub wait: bool,
    pub retransmit: bool,
    pub farm_b: u8,
}

#[derive(Clone, Copy, Debug, PartialEq, Eq)]
pub enum Arrival {
    Frame { kind: Kind, room: bool },
    Release,
}

#[derive(Clone, Copy, Debug, PartialEq, Eq)]
pub struct Act {
    pub event: u8,
    pub accepted: bool,
}

#[derive(Clone, Debug)]
pub struct Farm {
    window: Window,
    report: Report,
}

impl Farm {
    pub fn new(window: Window, first: u8) -> Farm {
        Farm {
            window,
            report: Report {
                state: State::S1,
                vr: first,
                lockout: false,
                wait: false,
                retransmit: false,
                farm_b: 0,
            },
        }
    }

    pub fn report(&self) -> Report {
        self.report
    }

    /// Takes one step by the table of FARM-1.
    pub fn step(&mut self, arrival: Arrival) -> Act {
        match arrival {
            Arrival::Release => self.released(),
            Arrival::Frame { kind: Kind::Ad(ns), room } => self.sequenced(ns, room),
            Arrival::Frame { kind: Kind::Bd, .. } => {
                self.count();
                Act { event: 6, accepted: true }
            }
            Arrival::Frame { kind: Kind::Bc(command), .. } => self.commanded(command),
            Arrival::Frame { kind: Kind::Invalid, .. } => discarded(9),
        }
    }

    fn count(&mut self) {
        self.report.farm_b = (self.report.farm_b + 1) & 3;
    }

    fn released(&mut self) -> Act {
        let now = &mut self.report;
        now.wait = false;
        if now.state == State::S2 {
            now.state = State::S1;
        }
        discarded(10)
    }

    fn sequenced(&mut self, ns: u8, room: bool) -> Act {
        let now = &mut self.report;
        let is_open = now.state == State::S1;
        match self.window.place(now.vr, ns) {
            Place::Expected if room => {
                if !is_open {
                    return discarded(1);
                }
                now.vr = now.vr.wrapping_add(1);
                now.retransmit = false;
                Act { event: 1, accepted: true }
            }
            Place::Expected => {
                if is_open {
                    now.retransmit = true;
                    now.wait = true;
                    now.state = State::S2;
                }
                discarded(2)
            }
            Place::Ahead => {
                now.retransmit |= is_open;
                discarded(3)
            }
            Place::Behind => discarded(4),
            Place::Outside => {
                now.lockout = true;
                now.state = State::S3;
                discarded(5)
            }
        }
    }

    fn commanded(&mut self, command: Command) -> Act {
        self.count();
        let now = &mut self.report;
        match command {
            Command::Unlock => {
                now.retransmit = false;
                now.wait = false;
                now.lockout = false;
                now.state = State::S1;
                discarded(7)
            }
            Command::SetVr(x) => {
                if now.state != State::S3 {
                    now.retransmit = false;
                    now.wait = false;
                    now.vr = x;
                    now.state = State::S1;
                }
                discarded(8)
            }
        }
    }
}

fn discarded(event: u8) -> Act {
    Act { event, accepted: false }
}

#[derive(Clone, Copy, Debug, Default, PartialEq, Eq)]
pub struct Link {
    pub no_rf: bool,
    pub no_bit_lock: bool,
}

pub fn clcw_word(report: &Report, vcid: u8, link: Link) -> u32 {
    1 << 24
        | u32::from(vcid) << 18
        | u32::from(link.no_rf) << 15
        | u32::from(link.no_bit_lock) << 14
        | u32::from(report.lockout) << 13
        | u32::from(report.wait) << 12
        | u32::from(report.retransmit) << 11
        | u32::from(report.farm_b) << 9
        | u32::from(report.vr)
}
