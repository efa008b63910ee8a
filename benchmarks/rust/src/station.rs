//! Channels, each behind a lock, operators with counts, and status words without a lock.
use crate::channel::{Channel, Delivery, FrameReply, Settings, SettingsFault, TakeFault};
use crate::journal::Journal;
use crate::link::{Frame, FrameFault, Link, read_frame};
use std::sync::atomic::{AtomicU32, Ordering};
use std::sync::{Arc, Mutex, MutexGuard};
use std::thread;

/// A status word.
#[derive(Debug)]
struct Word(AtomicU32);

#[derive(Debug)]
pub struct Watcher {
    word: Arc<Word>,
}

impl Watcher {
    pub fn read(&self) -> u32 {
        self.word.0.load(Ordering::SeqCst)
    }
}

#[derive(Debug)]
pub struct Desk<J> {
    channel: Channel<J>,
    word: Arc<Word>,
}

impl<J: Journal> Desk<J> {
    pub fn new(settings: Settings) -> Result<Desk<J>, SettingsFault> {
        let channel = Channel::new(settings)?;
        let word = Arc::new(Word(AtomicU32::new(channel.clcw(Link::default()))));
        Ok(Desk { channel, word })
    }
    fn publish(&self) {
        self.word.0.store(self.channel.clcw(Link::default()), Ordering::SeqCst);
    }
    pub fn frame(&mut self, frame: &Frame<'_>) -> FrameReply {
        let reply = self.channel.frame(frame);
        self.publish();
        reply
    }
    pub fn release(&mut self) -> Option<Delivery> {
        let delivery = self.channel.release()?;
        self.publish();
        Some(delivery)
    }
    pub fn take(&mut self, apid: u16) -> Result<Vec<u8>, TakeFault> {
        let packet = self.channel.take(apid)?;
        self.publish();
        Ok(packet)
    }
    pub fn watcher(&self) -> Watcher {
        Watcher { word: Arc::clone(&self.word) }
    }
}

#[derive(Clone, Copy, Debug, PartialEq, Eq)]
pub enum StationFault {
    BadScid,
    NoChannel,
    DoubleVcid(u8),
    Settings(u8, SettingsFault),
}

#[derive(Clone, Copy, Debug, PartialEq, Eq)]
pub enum LocateFault {
    Frame(FrameFault),
    OtherSpacecraft,
    UnknownChannel,
}

#[derive(Clone, Copy, Debug, PartialEq, Eq)]
pub struct UnknownChannel;

#[derive(Clone, Copy, Debug, PartialEq, Eq)]
pub enum ReleaseRefused {
    UnknownChannel,
    Empty,
}

#[derive(Clone, Copy, Debug, PartialEq, Eq)]
pub enum TakeRefused {
    UnknownChannel,
    NoQueue,
    Empty,
}

#[derive(Clone, Copy, Debug)]
pub struct Located<'a> {
    pub vcid: u8,
    pub frame: Frame<'a>,
    lane: usize,
}

#[derive(Debug)]
pub struct Operator {
    counts: Vec<u64>,
}

#[derive(Clone, Copy, Debug, PartialEq, Eq)]
pub struct Brought {
    pub vcid: u8,
    pub reply: FrameReply,
}

#[derive(Debug)]
pub enum CloseFault<J> {
    Missing(Station<J>, Vec<Operator>),
    Unbalanced(Vec<Channel<J>>, Vec<Operator>),
}

#[derive(Clone, Debug)]
pub enum Order {
    Bring(Vec<u8>),
    Release,
    Take(u16),
}

#[derive(Clone, Debug)]
pub struct WorkList {
    pub vcid: u8,
    pub jobs: Vec<Order>,
}

const NONE: u8 = u8::MAX;

#[derive(Debug)]
pub struct Station<J> {
    scid: u16,
    desks: Vec<Mutex<Desk<J>>>,
    vcids: Vec<u8>,
    lane_of: [u8; 64],
    issued: usize,
}

impl<J: Journal> Station<J> {
    pub fn new(scid: u16, settings: Vec<Settings>) -> Result<Station<J>, StationFault> {
        if scid > 1023 {
            return Err(StationFault::BadScid);
        }
        if settings.is_empty() {
            return Err(StationFault::NoChannel);
        }
        let vcids: Vec<u8> = settings.iter().map(|it| it.vcid).collect();
        for (at, vcid) in vcids.iter().enumerate() {
            if vcids[..at].contains(vcid) {
                return Err(StationFault::DoubleVcid(*vcid));
            }
        }
        let mut desks = Vec::with_capacity(settings.len());
        let mut lane_of = [NONE; 64];
        for (lane, it) in settings.into_iter().enumerate() {
            let vcid = it.vcid;
            let desk = Desk::new(it).map_err(|fault| StationFault::Settings(vcid, fault))?;
            desks.push(Mutex::new(desk));
            lane_of[usize::from(vcid)] = lane as u8;
        }
        Ok(Station { scid, desks, vcids, lane_of, issued: 0 })
    }

    fn lane(&self, vcid: u8) -> Option<usize> {
        let lane = *self.lane_of.get(usize::from(vcid))?;
        (lane != NONE).then_some(usize::from(lane))
    }

    fn lock(&self, lane: usize) -> MutexGuard<'_, Desk<J>> {
        self.desks[lane].lock().expect("no panic under the lock")
    }

    pub fn locate<'a>(&self, input: &'a [u8]) -> Result<Located<'a>, LocateFault> {
        let frame = read_frame(input).map_err(LocateFault::Frame)?;
        let header = frame.header();
        if header.scid != self.scid {
            return Err(LocateFault::OtherSpacecraft);
        }
        let lane = self.lane(header.vcid).ok_or(LocateFault::UnknownChannel)?;
        Ok(Located { vcid: header.vcid, frame, lane })
    }

    /// Returns new operators, or `None` if there would be more than 65,535 over the station's life.
    pub fn operators(&mut self, n: u16) -> Option<Vec<Operator>> {
        let issued = self.issued + usize::from(n);
        if issued > 65_535 {
            return None;
        }
        self.issued = issued;
        Some((0..n).map(|_| Operator { counts: vec![0; self.desks.len()] }).collect())
    }

    pub fn bring(&self, me: &mut Operator, input: &[u8]) -> Result<Brought, LocateFault> {
        let located = self.locate(input)?;
        let reply = self.lock(located.lane).frame(&located.frame);
        count(&mut me.counts[located.lane]);
        Ok(Brought { vcid: located.vcid, reply })
    }

    pub fn release(&self, me: &mut Operator, vcid: u8) -> Result<Delivery, ReleaseRefused> {
        let lane = self.lane(vcid).ok_or(ReleaseRefused::UnknownChannel)?;
        let delivery = self.lock(lane).release().ok_or(ReleaseRefused::Empty)?;
        count(&mut me.counts[lane]);
        Ok(delivery)
    }

    pub fn take(&self, me: &mut Operator, vcid: u8, apid: u16) -> Result<Vec<u8>, TakeRefused> {
        let lane = self.lane(vcid).ok_or(TakeRefused::UnknownChannel)?;
        let packet = self.lock(lane).take(apid).map_err(|it| match it {
            TakeFault::NoQueue => TakeRefused::NoQueue,
            TakeFault::Empty => TakeRefused::Empty,
        })?;
        count(&mut me.counts[lane]);
        Ok(packet)
    }

    pub fn watcher(&self, vcid: u8) -> Result<Watcher, UnknownChannel> {
        let lane = self.lane(vcid).ok_or(UnknownChannel)?;
        Ok(self.lock(lane).watcher())
    }

    pub fn watch(&self, watcher: &Watcher, link: Link) -> u32 {
        watcher.read() | u32::from(link.no_rf) << 15 | u32::from(link.no_bit_lock) << 14
    }

    pub fn close(self, operators: Vec<Operator>) -> Result<Vec<Channel<J>>, Box<CloseFault<J>>> {
        if operators.len() < self.issued {
            return Err(Box::new(CloseFault::Missing(self, operators)));
        }
        let open = |it: Mutex<Desk<J>>| it.into_inner().expect("no panic under the lock").channel;
        let vcids = self.vcids;
        let channels: Vec<Channel<J>> = self.desks.into_iter().map(open).collect();
        let balanced = channels.iter().enumerate().all(|(lane, it)| {
            let counted: u128 = operators.iter().map(|me| u128::from(me.counts[lane])).sum();
            it.settings().vcid == vcids[lane] && u128::from(it.events()) == counted
        });
        if balanced { Ok(channels) } else { Err(Box::new(CloseFault::Unbalanced(channels, operators))) }
    }

    pub fn work(&self, operators: &mut [Operator], lists: &[WorkList]) {
        thread::scope(|scope| {
            for (me, list) in operators.iter_mut().zip(lists) {
                scope.spawn(move || {
                    for job in &list.jobs {
                        match job {
                            Order::Bring(octets) => drop(self.bring(me, octets)),
                            Order::Release => drop(self.release(me, list.vcid)),
                            Order::Take(apid) => drop(self.take(me, list.vcid, *apid)),
                        }
                    }
                });
            }
        });
    }
}

fn count(it: &mut u64) {
    *it = it.saturating_add(1);
}
