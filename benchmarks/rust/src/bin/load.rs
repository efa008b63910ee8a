//! Makes the load of `tc_bench`. With no argument it prints the three scores that `tc_bench` prints. With `rounds
//! recorded COUNT` or `rounds counting COUNT` it prints the score of COUNT rounds on a bare channel, whose journal is
//! recorded or counted.
use plain_receiver::channel::{Channel, Delivery, FrameReply, QueueSetting, Settings};
use plain_receiver::journal::{Counted, Journal, Kept};
use plain_receiver::link::{Header, Link, read_frame, write_frame};
use plain_receiver::station::{Operator, Order, Station, WorkList};
use std::process::ExitCode;

const SCID: u16 = 42;
const APID: u16 = 5;
const FACTOR: u64 = 1_099_511_628_211;

/// A number that each answer changes.
struct Score(u64);

impl Score {
    fn add(&mut self, word: u64) {
        self.0 = self.0.wrapping_mul(FACTOR).wrapping_add(word);
    }
    fn add_delivery(&mut self, delivery: Delivery) {
        self.add(u64::from(delivery.queued));
        self.add(u64::from(delivery.dropped));
        self.add(u64::from(delivery.rest));
    }
    fn add_reply(&mut self, vcid: u8, reply: FrameReply) {
        self.add(u64::from(vcid));
        self.add(u64::from(reply.act.event));
        self.add(u64::from(reply.act.accepted));
        self.add_delivery(reply.delivery);
    }
    fn add_packet(&mut self, octets: &[u8]) {
        self.add(octets.len() as u64);
        octets.iter().for_each(|it| self.add(u64::from(*it)));
    }
}

/// The frames for one virtual channel, which are made before the load begins.
struct Sender {
    vcid: u8,
    sequenced: Vec<Vec<u8>>,
    bypassing: Vec<Vec<u8>>,
    unlock: Vec<u8>,
}

impl Sender {
    fn new(vcid: u8) -> Sender {
        let written = |bypass, control, ns, field: &[u8]| {
            let header = Header { bypass, control, scid: SCID, vcid, ns };
            write_frame(&header, field).expect("the header and the field fit a frame")
        };
        let field = |octet| [0xc0, 0x10, 0x05, 0xc0, 0, 0, 0, octet];
        Sender {
            vcid,
            sequenced: (0..=255).map(|it| written(false, false, it, &field(it))).collect(),
            bypassing: (0..=255).map(|it| written(true, false, 0, &field(it))).collect(),
            unlock: written(true, true, 0, &[0]),
        }
    }
    fn first(&self, number: u8) -> &[u8] {
        &self.sequenced[usize::from(number)]
    }
    /// Returns the frame that follows an accepted frame: that frame again, a Type-BD frame, a frame ahead of V(R), or an
    /// Unlock.
    fn second(&self, number: u8) -> &[u8] {
        match number % 4 {
            0 => self.first(number),
            1 => &self.bypassing[usize::from(number)],
            2 => self.first(number.wrapping_add(2)),
            _ => &self.unlock,
        }
    }
}

fn settings(vcid: u8) -> Settings {
    Settings { vcid, width: 10, buffer: 4, first: 0, queues: vec![QueueSetting { apid: APID, capacity: 16 }] }
}

fn new_station(vcids: &[u8]) -> Station<Kept> {
    Station::new(SCID, vcids.iter().map(|it| settings(*it)).collect()).expect("the settings make a station")
}

fn make_round(station: &Station<Kept>, me: &mut Operator, sender: &Sender, number: u8, score: &mut Score) {
    for octets in [sender.first(number), sender.second(number)] {
        let brought = station.bring(me, octets).expect("a frame of a channel of the station");
        score.add_reply(brought.vcid, brought.reply);
    }
    let watcher = station.watcher(sender.vcid).expect("a channel of the station");
    score.add(u64::from(station.watch(&watcher, Link::default())));
    score.add_delivery(station.release(me, sender.vcid).expect("a field waits"));
    score.add_packet(&station.take(me, sender.vcid, APID).expect("a packet waits"));
}

fn add_channels(score: &mut Score, channels: &[Channel<Kept>]) {
    for channel in channels {
        score.add(u64::from(channel.settings().vcid));
        score.add(u64::from(channel.clcw(Link::default())));
        score.add(channel.events());
        score.add(channel.buffered() as u64);
        score.add(channel.queued(APID).expect("the channel has the queue") as u64);
    }
}

/// Makes a round on each channel in turn, `rounds` times, in one thread.
fn in_turn(vcids: &[u8], rounds: u32) -> u64 {
    let senders: Vec<Sender> = vcids.iter().map(|it| Sender::new(*it)).collect();
    let mut station = new_station(vcids);
    let mut me = station.operators(1).and_then(|mut all| all.pop()).expect("the first operator");
    let mut score = Score(0);
    for number in 0..rounds {
        for sender in &senders {
            make_round(&station, &mut me, sender, (number % 256) as u8, &mut score);
        }
    }
    add_channels(&mut score, &station.close(vec![me]).expect("the counts are in balance"));
    score.0
}

fn work_list(vcid: u8, rounds: u32) -> WorkList {
    let sender = Sender::new(vcid);
    let mut jobs = Vec::new();
    for number in 0..rounds {
        let number = (number % 256) as u8;
        jobs.push(Order::Bring(sender.first(number).to_vec()));
        jobs.push(Order::Bring(sender.second(number).to_vec()));
        jobs.push(Order::Release);
        jobs.push(Order::Take(APID));
    }
    WorkList { vcid, jobs }
}

/// Makes `rounds` rounds on each channel, with a worker for each channel.
fn by_workers(vcids: &[u8], rounds: u32) -> u64 {
    let lists: Vec<WorkList> = vcids.iter().map(|it| work_list(*it, rounds)).collect();
    let mut station = new_station(vcids);
    let mut operators = station.operators(lists.len() as u16).expect("few operators");
    station.work(&mut operators, &lists);
    let mut score = Score(0);
    add_channels(&mut score, &station.close(operators).expect("the counts are in balance"));
    score.0
}

/// Makes rounds on a bare channel. In a round a frame is taken in, its data field is released, and its packet is taken.
fn play<J: Journal>(count: u32) -> u64 {
    let sender = Sender::new(1);
    let mut channel: Channel<J> = Channel::new(settings(1)).expect("the settings make a channel");
    let mut score = Score(0);
    for number in 0..count {
        let frame = read_frame(sender.first((number % 256) as u8)).expect("a frame");
        score.add_reply(1, channel.frame(&frame));
        score.add_delivery(channel.release().expect("a field waits"));
        score.add_packet(&channel.take(APID).expect("a packet waits"));
    }
    score.add(channel.events());
    score.0
}

fn main() -> ExitCode {
    const FOUR: [u8; 4] = [1, 2, 3, 63];
    let words: Vec<String> = std::env::args().skip(1).collect();
    let words: Vec<&str> = words.iter().map(String::as_str).collect();
    match words[..] {
        [] => {
            println!("one channel {:016x}", in_turn(&[1], 20_000));
            println!("four channels {:016x}", in_turn(&FOUR, 5_000));
            println!("four workers {:016x}", by_workers(&FOUR, 5_000));
        }
        ["rounds", form, count] => {
            let Ok(count) = count.parse() else {
                return ExitCode::from(2);
            };
            println!("{:016x}", if form == "recorded" { play::<Kept>(count) } else { play::<Counted>(count) });
        }
        _ => return ExitCode::from(2),
    }
    ExitCode::SUCCESS
}
