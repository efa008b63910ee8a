//! Refuses each block of a new channel in turn, by memory functions of this program's own. The call must fail with `NoMemory`, and
//! no block may be left. No other call may request a block.

mod refusing;

use refusing::{blocks, refuse};
use tcrx::{Channel, Header, Limit, Limits, Map, Queue, Settings, SettingsError};

/// Makes a call while the next block would be refused, and checks that the call requests no block.
fn without_memory<Answer>(call: impl FnOnce() -> Answer) -> Answer {
    refuse(Some(0));
    let answer = call();
    assert_eq!(refuse(None), Some(0), "a call requested memory");
    answer
}

fn frame(bypass: bool, field: &[u8]) -> Vec<u8> {
    let mut room = [0; 64];
    Header { scid: 42, vcid: 1, ns: 0, bypass, control: false }.write(field, &mut room).expect("a frame").to_vec()
}

/// Refuses each block of a new channel in turn. Returns the channel that is created when no block is refused, and the
/// number of refused blocks.
fn made(make: impl Fn() -> Result<Channel, SettingsError>) -> (Channel, u32) {
    let before = blocks();
    let mut refused = 0;
    loop {
        refuse(Some(refused));
        let answer = make();
        refuse(None);
        match answer {
            Ok(channel) => return (channel, refused),
            Err(error) => assert_eq!((error, blocks()), (SettingsError::NoMemory, before)),
        }
        refused += 1;
    }
}

#[test]
fn each_block_is_refused_in_turn() {
    let (queues, maps) = ([Queue { apid: 5, capacity: 4 }], [Map { map: 2, capacity: 3 }]);
    let settings = Settings { vcid: 1, width: 10, buffer: 4, first_vr: 0, segmented: true, queues: &queues, maps: &maps };
    let limits = Limits { others: 0, maps: &[Limit { map: 0, octets: 64 }, Limit { map: 2, octets: 3 }] };
    let (unlimited, of_it) = made(|| Channel::new(&settings));
    let (mut channel, of_the_other) = made(|| Channel::with_limits(&settings, &limits));
    assert!(of_it > 0 && of_the_other > 0);
    drop(unlimited);
    let frames =
        [frame(false, &[0xc0, 0x10, 0x05, 0xc0, 0x00, 0x00, 0x00, 0xaa]), frame(true, &[0x42, 1, 2]), frame(true, &[0x82, 3])];
    for octets in &frames {
        without_memory(|| channel.frame(octets)).expect("a frame");
    }
    without_memory(|| channel.release()).expect("a data field");
    let mut room = [0; 64];
    assert_eq!(without_memory(|| channel.take(5, &mut room)), Ok(&[0x10, 0x05, 0xc0, 0x00, 0x00, 0x00, 0xaa][..]));
    assert_eq!(without_memory(|| channel.take_unit(2, &mut room)), Ok(&[1, 2, 3][..]));
    println!("{} blocks refused", of_it + of_the_other);
    assert!(blocks() > 0);
    drop(channel);
    assert_eq!(blocks(), 0, "no block is left");
}
