//! Rounds of calls, and the time that they take.

use crate::calls::{Calls, BY_HAND, NONE, PROVED};
use crate::inputs::{Input, QUEUE_BYTES, STATE_BYTES};
use std::arch::asm;
use std::ptr::addr_of_mut;
use std::time::Instant;

pub const CALLS: [Call; 6] = [
    Call::Start,
    Call::StartPairs,
    Call::Pass,
    Call::Show,
    Call::Queued,
    Call::Damping,
];

/// The counts of tasks that the calls are measured at.
pub const COUNTS: [usize; 4] = [1, 3, 8, 16];

#[derive(Clone, Copy)]
pub enum Call {
    /// Without pairs.
    Start,
    /// With as many pairs as there may be.
    StartPairs,
    Pass,
    Show,
    Queued,
    Damping,
}

impl Call {
    pub fn name(self) -> &'static str {
        match self {
            Call::Start => "start",
            Call::StartPairs => "start-pairs",
            Call::Pass => "pass",
            Call::Show => "show",
            Call::Queued => "queued",
            Call::Damping => "damping",
        }
    }

    pub fn named(name: &str) -> Option<Call> {
        CALLS.into_iter().find(|call| call.name() == name)
    }

    /// Pairs take the same time whatever the count is, so the largest does for them. The damping has
    /// nothing to do with tasks, so the inputs of one count do.
    pub fn counts(self) -> &'static [usize] {
        match self {
            Call::StartPairs => &[16],
            Call::Damping => &[1],
            _ => &COUNTS,
        }
    }
}

/// The same value, but the compiler can't know that. Later Rusts have it in `std::hint`.
fn black_box<T>(mut value: T) -> T {
    // SAFETY: there is no instruction in it.
    unsafe { asm!("/* {} */", in(reg) addr_of_mut!(value), options(nostack, preserves_flags)) };
    value
}

/// One call on every input, each on a fresh copy of its state.
pub fn round(call: Call, calls: &Calls, inputs: &[Input]) {
    let calls = black_box(calls);
    let mut state = [0; STATE_BYTES];
    let mut queue = [0; QUEUE_BYTES];
    for input in inputs {
        state.copy_from_slice(&input.state);
        let lent = black_box(&mut state);
        black_box(match call {
            Call::Start => calls.start(&input.levels, &input.block, &[], lent),
            Call::StartPairs => calls.start(&input.levels, &input.block, &input.pairs, lent),
            Call::Pass => calls.pass(lent, input.d, input.finished),
            Call::Show => calls.show(lent, black_box(&mut queue)),
            Call::Queued => calls.queued(lent),
            Call::Damping => calls.damping(input.angle),
        });
    }
}

/// Nanoseconds per call of the proved one and of the one written by hand. Of many rounds, taken in
/// turn, the fastest of each counts: it is the one that was least disturbed. What the round costs
/// without its calls is taken off.
pub fn times(call: Call, inputs: &[Input], rounds: usize) -> (f64, f64) {
    let kinds = [PROVED, BY_HAND, NONE];
    let mut least = [f64::INFINITY; 3];
    for _ in 0..rounds {
        for (calls, least) in kinds.iter().zip(&mut least) {
            let begin = Instant::now();
            round(call, calls, inputs);
            let spent = begin.elapsed().as_nanos() as f64;
            *least = least.min(spent / inputs.len() as f64);
        }
    }
    (least[0] - least[2], least[1] - least[2])
}
