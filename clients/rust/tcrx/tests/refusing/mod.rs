//! The memory functions of tests that refuse blocks.

use std::alloc::{GlobalAlloc, Layout, System};
use std::cell::Cell;
use std::ptr::null_mut;

thread_local! {
    /// The number of blocks that are allocated before one is refused, or `None` if none is refused.
    static GIVEN_FIRST: Cell<Option<u32>> = const { Cell::new(None) };
    static BLOCKS: Cell<i64> = const { Cell::new(0) };
}

/// A block, and whether it could be allocated.
#[repr(C)]
struct Block {
    given: bool,
    at: *mut u8,
}

/// The number of octets in front of each block. They hold the size of the block, so that it can be freed.
const FRONT: usize = 16;

fn layout(octets: usize) -> Layout {
    Layout::from_size_align(octets + FRONT, 16).expect("a layout")
}

fn is_refused() -> bool {
    let left = GIVEN_FIRST.get();
    GIVEN_FIRST.set(match left {
        Some(0) => None,
        other => other.map(|count| count - 1),
    });
    left == Some(0)
}

/// Writes the size of a block into its front, and returns the address behind the front. If `at` is null, returns no block.
unsafe fn answer(at: *mut u8, octets: usize) -> Block {
    if at.is_null() {
        return Block { given: false, at: FRONT as *mut u8 };
    }
    // SAFETY: the block has room for its front.
    unsafe {
        at.cast::<usize>().write(octets);
        Block { given: true, at: at.add(FRONT) }
    }
}

#[no_mangle]
extern "C" fn rattle_alloc(count: usize, _alignment: usize) -> Block {
    // SAFETY: the layout isn't empty.
    let at = if is_refused() { null_mut() } else { unsafe { System.alloc(layout(count)) } };
    BLOCKS.set(BLOCKS.get() + i64::from(!at.is_null()));
    // SAFETY: the block is new, and has room for its front.
    unsafe { answer(at, count) }
}

#[no_mangle]
unsafe extern "C" fn rattle_realloc(at: *mut u8, _count_before: usize, count: usize, _alignment: usize) -> Block {
    if is_refused() {
        // SAFETY: no block is returned.
        return unsafe { answer(null_mut(), count) };
    }
    // SAFETY: the block comes from these functions, which wrote its size into its front.
    unsafe {
        let front = at.sub(FRONT);
        answer(System.realloc(front, layout(front.cast::<usize>().read()), count + FRONT), count)
    }
}

#[no_mangle]
unsafe extern "C" fn rattle_dealloc(at: *mut u8) {
    BLOCKS.set(BLOCKS.get() - 1);
    // SAFETY: the block comes from these functions.
    unsafe {
        let front = at.sub(FRONT);
        System.dealloc(front, layout(front.cast::<usize>().read()));
    }
}

/// Refuses the block after `given_first` others, or none. Returns the rest of the previous number, which is `None` if
/// the block with that number was refused.
pub(crate) fn refuse(given_first: Option<u32>) -> Option<u32> {
    GIVEN_FIRST.replace(given_first)
}

/// Returns the number of blocks in use by this thread.
pub(crate) fn blocks() -> i64 {
    BLOCKS.get()
}
