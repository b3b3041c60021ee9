//! The dispatcher's calls for C: starting, passing, showing the queue, and asking how much of it is left.

use crate::proved::unpacked;

extern "C" {
    fn kilmstra_start(
        levels: *const u8,
        levels_len: usize,
        block: *const u8,
        block_len: usize,
        pairs: *const u8,
        pairs_len: usize,
        state: *mut u8,
        state_len: usize,
    ) -> u64;

    fn kilmstra_pass(state: *mut u8, state_len: usize, d: u32, finished: u8) -> u64;

    fn kilmstra_show(state: *const u8, state_len: usize, buffer: *mut u8, buffer_len: usize)
        -> u64;

    fn kilmstra_queued(state: *const u8, state_len: usize) -> u64;
}

#[derive(Clone, Copy, PartialEq, Eq, Debug)]
pub enum Order {
    Run { task: u8, level: u8, hold: u32 },
    Idle { hold: u32 },
}

const RUN: u8 = 1;
const IDLE: u8 = 2;

/// Reads a level block, a plan block and the plan's list of pairs, fills the state with a fresh start
/// of the first two, and returns the first order.
pub fn start(levels: &[u8], block: &[u8], pairs: &[u8], state: &mut [u8]) -> Result<Order, u32> {
    // SAFETY: pointers and lengths are those of four slices that don't overlap; the call reads the
    // first three and writes within the fourth.
    let answer = unsafe {
        kilmstra_start(
            levels.as_ptr(),
            levels.len(),
            block.as_ptr(),
            block.len(),
            pairs.as_ptr(),
            pairs.len(),
            state.as_mut_ptr(),
            state.len(),
        )
    };
    ordered(answer)
}

/// Tells the dispatcher that d ticks went by. The running job finished if `finished` isn't 0.
pub fn pass(state: &mut [u8], d: u32, finished: u8) -> Result<Order, u32> {
    // SAFETY: pointer and length are those of a slice, within which the call reads and writes.
    let answer = unsafe { kilmstra_pass(state.as_mut_ptr(), state.len(), d, finished) };
    ordered(answer)
}

/// Shows the queue of a state, and says how many bytes that took.
pub fn show(state: &[u8], buffer: &mut [u8]) -> Result<u64, u32> {
    // SAFETY: pointers and lengths are those of two slices that don't overlap; the call reads the
    // first and writes within the second.
    let answer = unsafe {
        kilmstra_show(
            state.as_ptr(),
            state.len(),
            buffer.as_mut_ptr(),
            buffer.len(),
        )
    };
    unpacked(answer)
}

/// How many plain ticks are queued in all, as the state says it at its end.
pub fn queued(state: &[u8]) -> Result<u32, u32> {
    // SAFETY: pointer and length are those of a slice, which the call only reads.
    let answer = unsafe { kilmstra_queued(state.as_ptr(), state.len()) };
    totalled(answer)
}

/// All that an accepted answer has above its lowest byte is the total.
fn totalled(answer: u64) -> Result<u32, u32> {
    let total = unpacked(answer)?;
    Ok(u32::try_from(total).expect("a total has 32 bits"))
}

/// From the lowest byte of an accepted answer's rest on: the kind, the task and the level, a byte
/// each, then the hold.
fn ordered(answer: u64) -> Result<Order, u32> {
    let rest = unpacked(answer)?;
    let byte = |place: u32| (rest >> (8 * place)) as u8;
    let (kind, task, level) = (byte(0), byte(1), byte(2));
    let hold = u32::try_from(rest >> 24).expect("a hold has 32 bits");
    match (kind, task, level) {
        (RUN, _, _) => Ok(Order::Run { task, level, hold }),
        (IDLE, 0, 0) => Ok(Order::Idle { hold }),
        _ => panic!("{answer:#018x} is no order"),
    }
}

#[cfg(test)]
mod tests {
    use super::*;
    use std::fmt::Debug;

    /// Would catch a decoder that drops or swaps a part of an answer, so that a wrong one looks
    /// right.
    #[test]
    fn every_bit_of_an_order_counts() {
        let run = |task, level, hold| Ok(Order::Run { task, level, hold });
        assert_eq!(ordered(0x0000_0004_0700_0100), run(0, 7, 4));
        assert_eq!(ordered(0xffff_ffff_fffe_0100), run(0xfe, 0xff, u32::MAX));
        assert_eq!(ordered(0x8000_0001_0201_0100), run(1, 2, 0x8000_0001));
        let idle = Order::Idle { hold: 65_535 };
        assert_eq!(ordered(0x0000_ffff_0000_0200), Ok(idle));
        assert_eq!(ordered(14), Err(14));
        assert_eq!(ordered(256 + 14), Err(270));
    }

    /// The same of a total.
    #[test]
    fn every_bit_of_a_total_counts() {
        assert_eq!(totalled(0), Ok(0));
        assert_eq!(totalled(0x0000_0000_0000_0e00), Ok(14));
        assert_eq!(totalled(0x0000_0080_0002_0100), Ok(0x8000_0201));
        assert_eq!(totalled(0x0000_00ff_ffff_ff00), Ok(u32::MAX));
        assert_eq!(totalled(10), Err(10));
        assert_eq!(totalled(256 + 10), Err(266));
    }

    fn is_no_answer<T: Debug>(decoder: fn(u64) -> T, answer: u64) {
        let decoded = std::panic::catch_unwind(|| decoder(answer));
        assert!(decoded.is_err(), "{answer:#018x} was taken for {decoded:?}");
    }

    /// Would catch a decoder that takes for a total what is none.
    #[test]
    fn other_answers_are_no_totals() {
        // A bit more than a total has, and a refusal with something above it.
        is_no_answer(totalled, 0x0000_0100_0000_0000);
        is_no_answer(totalled, 0x8000_0000_0000_0000);
        is_no_answer(totalled, 0x0000_0001_0000_000a);
    }

    /// Would catch a decoder that takes for an order what is none.
    #[test]
    fn other_answers_are_no_orders() {
        // No kind, another kind, idle with a task or a level, a refusal with a hold.
        is_no_answer(ordered, 0);
        is_no_answer(ordered, 0x0000_0001_0000_0300);
        is_no_answer(ordered, 0x0000_0001_0001_0200);
        is_no_answer(ordered, 0x0000_0001_0100_0200);
        is_no_answer(ordered, 0x0000_0001_0000_000e);
    }
}
