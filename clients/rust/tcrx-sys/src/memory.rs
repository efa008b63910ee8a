//! The memory of channels and sessions over `malloc`: `dist/tcrx_memory.c` and `dist/tcrx_lines_memory.c`, for programs that link
//! `libtcrx.a`.

use core::ffi::c_void;
use core::ptr::addr_of_mut;

extern "C" {
    fn malloc(count: usize) -> *mut c_void;
    fn free(at: *mut c_void);
    #[cfg(feature = "lines")]
    fn realloc(at: *mut c_void, count: usize) -> *mut c_void;
}

/// A block, and whether it could be allocated.
#[repr(C)]
pub(crate) struct Block {
    given: bool,
    at: *mut c_void,
}

static mut NOTHING: u8 = 0;

fn answer(at: *mut c_void) -> Block {
    // If nothing is allocated, the address is that of an octet that nobody writes to, and not null.
    Block { given: !at.is_null(), at: if at.is_null() { addr_of_mut!(NOTHING).cast() } else { at } }
}

/// Returns a new block. A block of no octets is also a block.
#[no_mangle]
extern "C" fn rattle_alloc(count: usize, alignment: usize) -> Block {
    // SAFETY: any count may be requested.
    answer(unsafe { malloc(if count == 0 { alignment } else { count }) })
}

/// Returns a block of `count` octets with the content of the given block, which is freed. If no such block can be
/// allocated, the given block stays as it was.
///
/// # Safety
///
/// The block must be one that `rattle_alloc` or this function returned, and that hasn't been freed.
#[cfg(feature = "lines")]
#[no_mangle]
unsafe extern "C" fn rattle_realloc(at: *mut c_void, _count_before: usize, count: usize, alignment: usize) -> Block {
    // SAFETY: the caller promises that the block comes from malloc or realloc.
    answer(unsafe { realloc(at, if count == 0 { alignment } else { count }) })
}

/// Frees a block.
///
/// # Safety
///
/// The block must be one that one of the functions above returned and that hasn't been freed.
#[no_mangle]
unsafe extern "C" fn rattle_dealloc(at: *mut c_void) {
    // SAFETY: the caller promises that the block comes from malloc.
    unsafe { free(at) }
}
