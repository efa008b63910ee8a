//! The journals that keep a channel's events: as a list, or only as their number.

/// An operation that a channel answered.
#[derive(Clone, Debug, PartialEq, Eq)]
pub enum Event {
    Frame(Vec<u8>),
    Release,
    Take(u16),
}

/// A channel's events, the oldest first.
pub trait Journal: Default + Send {
    /// Adds a frame by its octets.
    fn add_frame(&mut self, octets: &[u8]);
    /// Adds a release.
    fn add_release(&mut self);
    /// Adds a take from the queue of this application.
    fn add_take(&mut self, apid: u16);
    /// Returns the number of events.
    fn count(&self) -> u64;
}

/// A journal that keeps each event with its octets.
#[derive(Debug, Default)]
pub struct Kept(Vec<Event>);

impl Journal for Kept {
    fn add_frame(&mut self, octets: &[u8]) {
        self.0.push(Event::Frame(octets.to_vec()));
    }
    fn add_release(&mut self) {
        self.0.push(Event::Release);
    }
    fn add_take(&mut self, apid: u16) {
        self.0.push(Event::Take(apid));
    }
    fn count(&self) -> u64 {
        self.0.len() as u64
    }
}

/// A journal that counts the events.
#[derive(Debug, Default)]
pub struct Counted(u64);

impl Counted {
    fn raise(&mut self) {
        self.0 = self.0.saturating_add(1);
    }
}

impl Journal for Counted {
    fn add_frame(&mut self, _octets: &[u8]) {
        self.raise();
    }
    fn add_release(&mut self) {
        self.raise();
    }
    fn add_take(&mut self, _apid: u16) {
        self.raise();
    }
    fn count(&self) -> u64 {
        self.0
    }
}
