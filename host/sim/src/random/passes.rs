//! Random passes.

use super::Random;
use crate::dispatch::Order;

/// A pass that is most likely accepted after this order, often with an early finish.
pub fn likely_pass(random: &mut Random, order: Order) -> (u32, bool) {
    match order {
        Order::Idle { hold } => (random.between(1, u64::from(hold)) as u32, false),
        Order::Run { hold, .. } => {
            let d = random.between(1, u64::from(hold)) as u32;
            // At the end of its hold a job has either finished or been preempted. Which of both
            // is possible the order doesn't tell, so a few of these are refused.
            let finished = random.one_in(2) || (d == hold && random.one_in(2));
            (d, finished)
        }
    }
}

/// Any pass: one likely accepted, or one around the order's hold, or one far off.
pub fn any_pass(random: &mut Random, order: Order) -> (u32, bool) {
    let hold = match order {
        Order::Run { hold, .. } => hold,
        Order::Idle { hold } => hold,
    };
    match random.below(8) {
        0 => (
            random.pick(&[0, hold, hold + 1, hold + 2]),
            random.one_in(2),
        ),
        1 => (hold, random.one_in(2)),
        2 if random.one_in(4) => (random.number() as u32, random.one_in(2)),
        _ => likely_pass(random, order),
    }
}
