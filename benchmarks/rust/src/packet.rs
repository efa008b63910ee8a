//! Segments, reassembly and space packets (CCSDS 232.0-B and 133.0-B).

pub const MOST_UNIT: usize = 65_542;

#[derive(Clone, Copy, Debug, PartialEq, Eq)]
pub enum Part {
    First,
    Continuing,
    Last,
    Unsegmented,
}

#[derive(Clone, Copy, Debug, PartialEq, Eq)]
pub struct Segment {
    pub part: Part,
    pub map: u8,
}

pub fn read_segment(octet: u8) -> Segment {
    let part = match octet >> 6 {
        0 => Part::Continuing,
        1 => Part::First,
        2 => Part::Last,
        _ => Part::Unsegmented,
    };
    Segment { part, map: octet & 63 }
}

#[derive(Clone, Copy, Debug, PartialEq, Eq)]
pub struct Packet<'a> {
    pub telecommand: bool,
    pub secondary: bool,
    pub apid: u16,
    pub flags: u8,
    pub count: u16,
    pub octets: &'a [u8],
}

pub fn read_packet(input: &[u8]) -> Option<Packet<'_>> {
    let [a, b, c, d, e, f, ..] = *input else {
        return None;
    };
    if a >> 5 != 0 {
        return None;
    }
    let length = usize::from(u16::from_be_bytes([e, f])) + 7;
    Some(Packet {
        telecommand: a & 0x10 != 0,
        secondary: a & 0x08 != 0,
        apid: u16::from(a & 7) << 8 | u16::from(b),
        flags: c >> 6,
        count: u16::from(c & 0x3f) << 8 | u16::from(d),
        octets: input.get(..length)?,
    })
}

/// The packets at the front of a unit, one after the other.
#[derive(Clone, Debug)]
pub struct Cut<'a> {
    rest: &'a [u8],
}

pub fn cut(unit: &[u8]) -> Cut<'_> {
    Cut { rest: unit }
}

impl<'a> Cut<'a> {
    pub fn rest(&self) -> &'a [u8] {
        self.rest
    }
}

impl<'a> Iterator for Cut<'a> {
    type Item = Packet<'a>;

    fn next(&mut self) -> Option<Packet<'a>> {
        let packet = read_packet(self.rest)?;
        self.rest = &self.rest[packet.octets.len()..];
        Some(packet)
    }
}

#[derive(Clone, Copy, Debug, PartialEq, Eq)]
pub enum Service {
    Ad,
    Bd,
}

/// The open run of each of the 128 streams.
#[derive(Debug)]
pub struct Reassembler {
    runs: Vec<Option<Vec<u8>>>,
}

/// A unit that a field ended: the field's own body, or the joined bodies of its run.
#[derive(Debug, PartialEq, Eq)]
pub enum Unit<'a> {
    Whole(&'a [u8]),
    Joined(Vec<u8>),
}

impl Unit<'_> {
    pub fn octets(&self) -> &[u8] {
        match self {
            Unit::Whole(body) => body,
            Unit::Joined(run) => run,
        }
    }
}

impl Reassembler {
    pub fn new() -> Reassembler {
        Reassembler { runs: (0..128).map(|_| None).collect() }
    }

    pub fn push<'a>(&mut self, service: Service, field: &'a [u8]) -> Option<Unit<'a>> {
        let (&first, body) = field.split_first()?;
        let segment = read_segment(first);
        let stream = usize::from(segment.map) + if service == Service::Bd { 64 } else { 0 };
        let slot = &mut self.runs[stream];
        match segment.part {
            Part::Unsegmented => {
                *slot = None;
                (body.len() <= MOST_UNIT).then_some(Unit::Whole(body))
            }
            Part::First => {
                *slot = (body.len() <= MOST_UNIT).then(|| body.to_vec());
                None
            }
            Part::Continuing => {
                if let Some(run) = slot {
                    if run.len() + body.len() > MOST_UNIT {
                        *slot = None;
                    } else {
                        run.extend_from_slice(body);
                    }
                }
                None
            }
            Part::Last => {
                let mut run = slot.take()?;
                if run.len() + body.len() > MOST_UNIT {
                    return None;
                }
                run.extend_from_slice(body);
                Some(Unit::Joined(run))
            }
        }
    }
}
