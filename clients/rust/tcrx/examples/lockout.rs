//! Sends three telecommands to a channel. The third has an N(S) far outside the window, so FARM-1 goes to lockout. The channel
//! is then unlocked, the third telecommand comes again with the expected N(S), and all three packets are taken.

use std::error::Error;
use tcrx::{Channel, Header, Link, Queue, Settings};

const SPACECRAFT: u16 = 42;
const CHANNEL: u8 = 1;
const APPLICATION: u16 = 5;
const UNLOCK: [u8; 6] = [0x30, SPACECRAFT as u8, CHANNEL << 2, 0x05, 0x00, 0x00];

fn bring(channel: &mut Channel, octets: &[u8]) -> Result<(), Box<dyn Error>> {
    println!("frame {:?}", channel.frame(octets)?.event);
    Ok(())
}

/// Sends the frame with this N(S) that carries this packet.
fn send(channel: &mut Channel, ns: u8, packet: u8) -> Result<(), Box<dyn Error>> {
    let header = Header { scid: SPACECRAFT, vcid: CHANNEL, ns, bypass: false, control: false };
    let field = [0xc0, 0x10, APPLICATION as u8, 0xc0, packet, 0x00, 0x00, 0xaa];
    let mut room = [0; 64];
    bring(channel, header.write(&field, &mut room)?)
}

fn print_clcw(channel: &Channel) {
    println!("clcw {:08x}", channel.clcw(Link::default()).word());
}

fn print_packets(channel: &mut Channel) {
    let mut room = [0; 64];
    while let Ok(packet) = channel.take(APPLICATION, &mut room) {
        print!("packet ");
        packet.iter().for_each(|octet| print!("{octet:02x}"));
        println!();
    }
}

fn main() -> Result<(), Box<dyn Error>> {
    let queues = [Queue { apid: APPLICATION, capacity: 8 }];
    let settings = Settings { vcid: CHANNEL, width: 10, buffer: 4, first_vr: 0, segmented: true, queues: &queues, maps: &[] };
    let mut channel = Channel::new(&settings)?;
    send(&mut channel, 0, 0)?;
    send(&mut channel, 1, 1)?;
    send(&mut channel, 50, 2)?;
    print_clcw(&channel);
    bring(&mut channel, &UNLOCK)?;
    send(&mut channel, 2, 2)?;
    while channel.release().is_ok() {}
    print_packets(&mut channel);
    print_clcw(&channel);
    Ok(())
}
