//! The five calls as C sees them, of each that is measured.

use crate::fast;
// Links the archives of the proved library.
use differ as _;
use std::slice::{from_raw_parts, from_raw_parts_mut};

pub type Start = unsafe extern "C" fn(
    *const u8,
    usize,
    *const u8,
    usize,
    *const u8,
    usize,
    *mut u8,
    usize,
) -> u64;
pub type Pass = unsafe extern "C" fn(*mut u8, usize, u32, u8) -> u64;
pub type Show = unsafe extern "C" fn(*const u8, usize, *mut u8, usize) -> u64;
pub type Queued = unsafe extern "C" fn(*const u8, usize) -> u64;
pub type Damping = unsafe extern "C" fn(i32) -> u64;

#[derive(Clone, Copy)]
pub struct Calls {
    pub start: Start,
    pub pass: Pass,
    pub show: Show,
    pub queued: Queued,
    pub damping: Damping,
}

extern "C" {
    fn kilmstra_start(
        levels: *const u8,
        levels_len: usize,
        block: *const u8,
        block_len: usize,
        pairs: *const u8,
        pairs_len: usize,
        state: *mut u8,
        state_len: usize,
    ) -> u64;

    fn kilmstra_pass(state: *mut u8, state_len: usize, d: u32, finished: u8) -> u64;

    fn kilmstra_show(state: *const u8, state_len: usize, buffer: *mut u8, buffer_len: usize)
        -> u64;

    fn kilmstra_queued(state: *const u8, state_len: usize) -> u64;

    fn kilmstra_damping(angle: i32) -> u64;
}

/// The proved calls.
pub const PROVED: Calls = Calls {
    start: kilmstra_start,
    pass: kilmstra_pass,
    show: kilmstra_show,
    queued: kilmstra_queued,
    damping: kilmstra_damping,
};

/// The calls written by hand.
pub const BY_HAND: Calls = Calls {
    start: fast_start,
    pass: fast_pass,
    show: fast_show,
    queued: fast_queued,
    damping: fast_damping,
};

/// Calls that do nothing: what they cost is the cost of measuring.
pub const NONE: Calls = Calls {
    start: no_start,
    pass: no_pass,
    show: no_show,
    queued: no_queued,
    damping: no_damping,
};

impl Calls {
    pub fn named(name: &str) -> Option<Calls> {
        match name {
            "proved" => Some(PROVED),
            "hand" => Some(BY_HAND),
            "none" => Some(NONE),
            _ => None,
        }
    }

    pub fn start(&self, levels: &[u8], block: &[u8], pairs: &[u8], state: &mut [u8]) -> u64 {
        // SAFETY: pointers and lengths are those of slices; the one that is written overlaps no other.
        unsafe {
            (self.start)(
                levels.as_ptr(),
                levels.len(),
                block.as_ptr(),
                block.len(),
                pairs.as_ptr(),
                pairs.len(),
                state.as_mut_ptr(),
                state.len(),
            )
        }
    }

    pub fn pass(&self, state: &mut [u8], d: u32, finished: bool) -> u64 {
        // SAFETY: pointer and length are those of a slice.
        unsafe { (self.pass)(state.as_mut_ptr(), state.len(), d, u8::from(finished)) }
    }

    pub fn show(&self, state: &[u8], buffer: &mut [u8]) -> u64 {
        // SAFETY: pointers and lengths are those of two slices that don't overlap.
        unsafe {
            (self.show)(
                state.as_ptr(),
                state.len(),
                buffer.as_mut_ptr(),
                buffer.len(),
            )
        }
    }

    pub fn queued(&self, state: &[u8]) -> u64 {
        // SAFETY: pointer and length are those of a slice.
        unsafe { (self.queued)(state.as_ptr(), state.len()) }
    }

    pub fn damping(&self, angle: i32) -> u64 {
        // SAFETY: a number goes in and one comes out.
        unsafe { (self.damping)(angle) }
    }
}

unsafe extern "C" fn fast_start(
    levels: *const u8,
    levels_len: usize,
    block: *const u8,
    block_len: usize,
    pairs: *const u8,
    pairs_len: usize,
    state: *mut u8,
    state_len: usize,
) -> u64 {
    // SAFETY: the caller lends slices; the one that is written overlaps no other.
    unsafe {
        fast::start(
            from_raw_parts(levels, levels_len),
            from_raw_parts(block, block_len),
            from_raw_parts(pairs, pairs_len),
            from_raw_parts_mut(state, state_len),
        )
    }
}

unsafe extern "C" fn fast_pass(state: *mut u8, state_len: usize, d: u32, finished: u8) -> u64 {
    // SAFETY: the caller lends a slice.
    unsafe { fast::pass(from_raw_parts_mut(state, state_len), d, finished != 0) }
}

unsafe extern "C" fn fast_show(
    state: *const u8,
    state_len: usize,
    buffer: *mut u8,
    buffer_len: usize,
) -> u64 {
    // SAFETY: the caller lends two slices that don't overlap.
    unsafe {
        fast::show(
            from_raw_parts(state, state_len),
            from_raw_parts_mut(buffer, buffer_len),
        )
    }
}

unsafe extern "C" fn fast_queued(state: *const u8, state_len: usize) -> u64 {
    // SAFETY: the caller lends a slice.
    unsafe { fast::queued(from_raw_parts(state, state_len)) }
}

unsafe extern "C" fn fast_damping(angle: i32) -> u64 {
    fast::damping(angle)
}

unsafe extern "C" fn no_start(
    _: *const u8,
    _: usize,
    _: *const u8,
    _: usize,
    _: *const u8,
    _: usize,
    _: *mut u8,
    _: usize,
) -> u64 {
    0
}

unsafe extern "C" fn no_pass(_: *mut u8, _: usize, _: u32, _: u8) -> u64 {
    0
}

unsafe extern "C" fn no_show(_: *const u8, _: usize, _: *mut u8, _: usize) -> u64 {
    0
}

unsafe extern "C" fn no_queued(_: *const u8, _: usize) -> u64 {
    0
}

unsafe extern "C" fn no_damping(_: i32) -> u64 {
    0
}
