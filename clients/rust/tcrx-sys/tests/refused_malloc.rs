//! Tests the crate's own memory when `malloc` returns null. Each block of a new channel is refused in turn, by a
//! `malloc` of this program that the linker finds before that of the C library. The call must return `NO_MEMORY`, and
//! no channel may be held.
#![cfg(not(any(feature = "shared", feature = "own-memory")))]

use std::cell::Cell;
use std::ffi::c_void;
use std::ptr::null_mut;
use tcrx_sys::{tcrx_channel_free_at, tcrx_channel_new_with_limits_at, Channel, Limit, Map, Queue, Settings, Status};
use tcrx_sys::{DONE, HOLDS_NONE, NO_MEMORY};

extern "C" {
    /// The C library's `malloc` under its other name.
    fn __libc_malloc(count: usize) -> *mut c_void;
}

thread_local! {
    /// The number of blocks that are allocated before one is refused, or `None` if none is refused.
    static GIVEN_FIRST: Cell<Option<u32>> = const { Cell::new(None) };
}

#[no_mangle]
extern "C" fn malloc(count: usize) -> *mut c_void {
    match GIVEN_FIRST.get() {
        Some(0) => {
            GIVEN_FIRST.set(None);
            null_mut()
        }
        left => {
            GIVEN_FIRST.set(left.map(|blocks| blocks - 1));
            // SAFETY: any count may be requested.
            unsafe { __libc_malloc(count) }
        }
    }
}

fn make(channel: &mut Channel) -> Status {
    let settings = Settings { vcid: 1, width: 10, buffer: 4, first_vr: 0, segmented: 1 };
    let (queue, map) = (Queue { apid: 5, capacity: 4 }, Map { map: 2, capacity: 3 });
    let limits = [Limit { map: 0, octets: 64 }, Limit { map: 2, octets: 3 }];
    // SAFETY: the channel holds none, and the lists have as many entries as the counts say.
    unsafe { tcrx_channel_new_with_limits_at(channel, settings, &queue, 1, &map, 1, 0, limits.as_ptr(), limits.len()) }
}

#[test]
fn each_block_that_malloc_refuses_is_no_memory() {
    let mut channel = HOLDS_NONE;
    let mut refused = 0;
    loop {
        GIVEN_FIRST.set(Some(refused));
        let status = make(&mut channel);
        let was_refused = GIVEN_FIRST.replace(None).is_none();
        assert_eq!((status, channel.held), if was_refused { (NO_MEMORY, 0) } else { (DONE, 1) }, "block {refused}");
        if !was_refused {
            break;
        }
        refused += 1;
    }
    assert!(refused >= 8, "{refused} blocks were refused");
    // SAFETY: the channel is held, and isn't used after this.
    assert_eq!(unsafe { tcrx_channel_free_at(&mut channel) }, DONE);
}
