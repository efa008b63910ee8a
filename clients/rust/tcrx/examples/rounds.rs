//! Makes COUNT rounds on a channel, as `c/checks/rounds.c` does. In a round a frame is brought to the channel and released, and its
//! packet is taken. The output is the number of packets that were taken.
//!
//! usage: rounds COUNT

use std::process::ExitCode;
use tcrx::{Channel, Queue, Settings};

fn main() -> ExitCode {
    let Some(Ok(rounds)) = std::env::args().nth(1).map(|count| count.parse::<u64>()) else { return ExitCode::from(2) };
    let queues = [Queue { apid: 5, capacity: 16 }];
    let settings = Settings { vcid: 1, width: 10, buffer: 4, first_vr: 0, segmented: true, queues: &queues, maps: &[] };
    let Ok(mut channel) = Channel::new(&settings) else { return ExitCode::from(2) };
    let mut frame = [0x00, 0x2a, 0x04, 0x0c, 0x00, 0xc0, 0x10, 0x05, 0xc0, 0x00, 0x00, 0x00, 0xaa];
    let mut room = [0; 64];
    let mut taken = 0;
    for round in 0..rounds {
        frame[4] = round as u8;
        let accepted = channel.frame(&frame).is_ok_and(|brought| brought.accepted);
        let queued = channel.release().is_ok_and(|delivery| delivery.queued == 1);
        let came = channel.take(5, &mut room).is_ok_and(|packet| packet.len() == 7);
        taken += u64::from(accepted && queued && came);
    }
    println!("{taken} packets in {rounds} rounds");
    if taken == rounds {
        ExitCode::SUCCESS
    } else {
        ExitCode::FAILURE
    }
}
