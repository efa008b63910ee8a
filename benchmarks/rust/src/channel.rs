//! One virtual channel with its journal.
use crate::journal::Journal;
use crate::link::{Act, Arrival, Farm, Frame, Link, Window, clcw_word, kind};
use crate::packet::{Packet, Reassembler, Service, cut};
use std::collections::VecDeque;

#[derive(Clone, Debug, PartialEq, Eq)]
pub struct QueueSetting {
    pub apid: u16,
    pub capacity: u16,
}

#[derive(Clone, Debug, PartialEq, Eq)]
pub struct Settings {
    pub vcid: u8,
    pub width: u8,
    pub buffer: u8,
    pub first: u8,
    pub queues: Vec<QueueSetting>,
}

#[derive(Clone, Copy, Debug, PartialEq, Eq)]
pub enum SettingsFault {
    BadVcid,
    BadWindow,
    BadBuffer,
    BadApid,
    DoubleApid,
    BadCapacity,
}

impl Settings {
    pub fn check(&self) -> Result<(), SettingsFault> {
        if self.vcid > 63 {
            return Err(SettingsFault::BadVcid);
        }
        if Window::new(self.width).is_none() {
            return Err(SettingsFault::BadWindow);
        }
        if !(1..=64).contains(&self.buffer) {
            return Err(SettingsFault::BadBuffer);
        }
        if self.queues.iter().any(|it| it.apid > 2046) {
            return Err(SettingsFault::BadApid);
        }
        for (at, it) in self.queues.iter().enumerate() {
            if self.queues[..at].iter().any(|other| other.apid == it.apid) {
                return Err(SettingsFault::DoubleApid);
            }
        }
        if self.queues.iter().any(|it| !(1..=256).contains(&it.capacity)) {
            return Err(SettingsFault::BadCapacity);
        }
        Ok(())
    }
}

#[derive(Clone, Copy, Debug, Default, PartialEq, Eq)]
pub struct Delivery {
    pub queued: u32,
    pub dropped: u32,
    pub rest: bool,
}

#[derive(Clone, Copy, Debug, PartialEq, Eq)]
pub struct FrameReply {
    pub act: Act,
    pub delivery: Delivery,
}

#[derive(Clone, Copy, Debug, PartialEq, Eq)]
pub enum TakeFault {
    NoQueue,
    Empty,
}

#[derive(Debug)]
struct Queue {
    apid: u16,
    capacity: usize,
    packets: VecDeque<Vec<u8>>,
}

#[derive(Debug)]
pub struct Channel<J> {
    settings: Settings,
    farm: Farm,
    buffer: VecDeque<Vec<u8>>,
    reassembler: Reassembler,
    queues: Vec<Queue>,
    journal: J,
}

// Queues the packets of a unit.
fn offer(queues: &mut [Queue], unit: &[u8]) -> Delivery {
    if cfg!(feature = "same_surface") {
        let unit = unit.to_vec();
        let mut packets = cut(&unit);
        let list: Vec<Packet<'_>> = packets.by_ref().collect();
        let delivery = offer_each(queues, list.into_iter());
        Delivery { rest: !packets.rest().is_empty(), ..delivery }
    } else {
        let mut packets = cut(unit);
        let delivery = offer_each(queues, packets.by_ref());
        Delivery { rest: !packets.rest().is_empty(), ..delivery }
    }
}

fn offer_each<'a>(queues: &mut [Queue], packets: impl Iterator<Item = Packet<'a>>) -> Delivery {
    let mut delivery = Delivery::default();
    for packet in packets {
        match queues.iter_mut().find(|it| it.apid == packet.apid) {
            Some(queue) if packet.telecommand && queue.packets.len() < queue.capacity => {
                queue.packets.push_back(packet.octets.to_vec());
                delivery.queued += 1;
            }
            _ => delivery.dropped += 1,
        }
    }
    delivery
}

impl<J: Journal> Channel<J> {
    pub fn new(settings: Settings) -> Result<Channel<J>, SettingsFault> {
        settings.check()?;
        let window = Window::new(settings.width).ok_or(SettingsFault::BadWindow)?;
        let queue = |it: &QueueSetting| Queue {
            apid: it.apid,
            capacity: usize::from(it.capacity),
            packets: VecDeque::with_capacity(usize::from(it.capacity)),
        };
        Ok(Channel {
            farm: Farm::new(window, settings.first),
            buffer: VecDeque::with_capacity(usize::from(settings.buffer)),
            reassembler: Reassembler::new(),
            queues: settings.queues.iter().map(queue).collect(),
            journal: J::default(),
            settings,
        })
    }

    pub fn frame(&mut self, frame: &Frame<'_>) -> FrameReply {
        let room = self.buffer.len() < usize::from(self.settings.buffer);
        let act = self.farm.step(Arrival::Frame { kind: kind(frame), room });
        let mut delivery = Delivery::default();
        if act.accepted {
            if act.event == 1 {
                self.buffer.push_back(frame.field().to_vec());
            } else if let Some(unit) = self.reassembler.push(Service::Bd, frame.field()) {
                delivery = offer(&mut self.queues, unit.octets());
            }
        }
        self.journal.add_frame(frame.octets());
        FrameReply { act, delivery }
    }

    /// Releases the oldest data field. Returns `None` if the buffer is empty.
    pub fn release(&mut self) -> Option<Delivery> {
        let field = self.buffer.pop_front()?;
        self.farm.step(Arrival::Release);
        let unit = self.reassembler.push(Service::Ad, &field);
        let delivery = unit.map_or(Delivery::default(), |it| offer(&mut self.queues, it.octets()));
        self.journal.add_release();
        Some(delivery)
    }

    pub fn take(&mut self, apid: u16) -> Result<Vec<u8>, TakeFault> {
        let queue = self.queues.iter_mut().find(|it| it.apid == apid);
        let queue = queue.ok_or(TakeFault::NoQueue)?;
        let packet = queue.packets.pop_front().ok_or(TakeFault::Empty)?;
        self.journal.add_take(apid);
        Ok(packet)
    }

    pub fn clcw(&self, link: Link) -> u32 {
        clcw_word(&self.farm.report(), self.settings.vcid, link)
    }
    pub fn buffered(&self) -> usize {
        self.buffer.len()
    }
    pub fn queued(&self, apid: u16) -> Option<usize> {
        self.queues.iter().find(|it| it.apid == apid).map(|it| it.packets.len())
    }
    pub fn events(&self) -> u64 {
        self.journal.count()
    }
    pub fn settings(&self) -> &Settings {
        &self.settings
    }
}
