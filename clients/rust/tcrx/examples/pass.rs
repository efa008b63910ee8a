//! Simulates a pass. A ground station sends commands over a link that loses frames, and reads the CLCWs that come down.
//! It sends again from the number that the spacecraft expects, until each command has arrived.

use tcrx::{Channel, Clcw, Frame, Header, Limit, Limits, Link, Packet, Queue, Settings};

const SPACECRAFT: u16 = 42;
const CHANNEL: u8 = 1;
const HEATER: u16 = 5;
/// The frames that the link loses, by their place among all frames that are sent.
const LOST: [usize; 2] = [1, 4];

/// The spacecraft's end of the link.
struct Spacecraft {
    channel: Channel,
}

impl Spacecraft {
    /// Brings an arriving frame to the channel, if it is for this channel, and prints the value that each packet sets.
    fn receive(&mut self, octets: &[u8]) -> Result<(), Box<dyn std::error::Error>> {
        let header = Frame::read(octets)?.header();
        if (header.scid, header.vcid) != (SPACECRAFT, CHANNEL) {
            return Ok(());
        }
        let brought = self.channel.frame(octets)?;
        println!("  spacecraft: {:?}{}", brought.event, if brought.accepted { ", accepted" } else { "" });
        while self.channel.release().is_ok() {}
        let mut room = [0; 256];
        while let Ok(octets) = self.channel.take(HEATER, &mut room) {
            let packet = Packet::read(octets).expect("the queue has packets");
            println!("  spacecraft: heater {} for packet {}", octets[6], packet.count);
        }
        Ok(())
    }
}

/// Returns a telecommand packet that switches the heater.
fn command(count: u8, value: u8) -> [u8; 8] {
    [0xc0, 0x10, HEATER as u8, 0xc0, count, 0x00, 0x00, value]
}

fn main() -> Result<(), Box<dyn std::error::Error>> {
    let queues = [Queue { apid: HEATER, capacity: 8 }];
    let settings = Settings { vcid: CHANNEL, width: 10, buffer: 4, first_vr: 0, segmented: true, queues: &queues, maps: &[] };
    let limits = Limits { others: 0, maps: &[Limit { map: 0, octets: 256 }] };
    println!("the channel takes {} octets", settings.storage_with_limits(&limits)?);
    let mut spacecraft = Spacecraft { channel: Channel::with_limits(&settings, &limits)? };
    let commands: Vec<[u8; 8]> = (0..5).map(|count| command(count, 10 + count)).collect();
    let (mut acknowledged, mut sent, mut next) = (0, 0, 0);
    while acknowledged < commands.len() {
        if next == commands.len() {
            next = acknowledged;
        }
        let header = Header { scid: SPACECRAFT, vcid: CHANNEL, ns: next as u8, bypass: false, control: false };
        let mut room = [0; 64];
        let frame = header.write(&commands[next], &mut room)?;
        println!("ground: frame {next}{}", if LOST.contains(&sent) { ", which is lost" } else { "" });
        if !LOST.contains(&sent) {
            spacecraft.receive(frame)?;
        }
        (sent, next) = (sent + 1, next + 1);
        let clcw: Clcw = spacecraft.channel.clcw(Link::default());
        acknowledged = usize::from(clcw.vr());
        if clcw.retransmit() {
            println!("ground: CLCW {:08x}, again from {acknowledged}", clcw.word());
            next = acknowledged;
        }
    }
    println!("{sent} frames for {} commands, {} events", commands.len(), spacecraft.channel.events());
    Ok(())
}
