//! What several tests need.

use crate::base::start;
use sim::dispatch::{pass, show, sound, Order};
use sim::layout::STATE_BYTES;
use sim::plan::Task;
use sim::random::blocks::block_of;

/// The block of the bench plan, packed by hand.
pub const BENCH_BLOCK: [u8; 15] = [
    0x11, 0x80, 0x05, 0x00, 0x0c, 0x80, 0x00, 0x50, 0x00, 0xc8, 0x00, 0x0f, 0x00, 0x12, 0xc0,
];

/// The passes of 01's listing, the last two as 02's No. 4 has them.
pub const BENCH_PASSES: [(u32, bool); 6] = [
    (1, true),
    (7, true),
    (2, true),
    (4, true),
    (5, true),
    (1, false),
];

/// Tasks from pairs of period and worst case, without fixed ticks.
pub fn tasks(pairs: &[(u64, u64)]) -> Vec<Task> {
    let task = |(period, worst): &(u64, u64)| task(*period, *worst, 0, 0);
    pairs.iter().map(task).collect()
}

/// Tasks from period, worst case and fixed ticks, without floors.
pub fn fixed_tasks(triples: &[(u64, u64, u64)]) -> Vec<Task> {
    let task = |(period, worst, fixed): &(u64, u64, u64)| task(*period, *worst, *fixed, 0);
    triples.iter().map(task).collect()
}

/// Tasks from period, worst case, fixed ticks and floor.
pub fn floor_tasks(numbers: &[(u64, u64, u64, u64)]) -> Vec<Task> {
    let task = |(period, worst, fixed, floor): &(u64, u64, u64, u64)| {
        task(*period, *worst, *fixed, *floor)
    };
    numbers.iter().map(task).collect()
}

fn task(period: u64, worst: u64, fixed: u64, floor: u64) -> Task {
    Task {
        period,
        worst,
        fixed,
        floor,
    }
}

pub fn bench_plan() -> Vec<Task> {
    tasks(&[(10, 400), (10, 400), (30, 600)])
}

/// A plan with fixed ticks. At 40 units a tick its tasks take 2 + 3 ticks of 10 and 6 + 13 of 40,
/// so 20 and 19 of 40. At 30 they take 2 + 4 and 6 + 17, so 24 and 23: too much. Nominal is level
/// 3.
pub fn sensor_plan() -> Vec<Task> {
    fixed_tasks(&[(10, 100, 2), (40, 500, 6)])
}

pub fn run(task: u8, level: u8, hold: u32) -> Order {
    Order::Run { task, level, hold }
}

pub fn idle(hold: u32) -> Order {
    Order::Idle { hold }
}

/// A state started with the plan, and led through passes that are all accepted.
pub fn led(plan: &[Task], passes: &[(u32, bool)]) -> ([u8; STATE_BYTES], Order) {
    let mut state = [0; STATE_BYTES];
    let mut order = start(&block_of(plan), &mut state).unwrap();
    for (d, finished) in passes {
        order = pass(&mut state, *d, *finished).unwrap();
    }
    (state, order)
}

/// The queue shown, as pairs of task and plain ticks left.
pub fn queue(state: &[u8]) -> Vec<(usize, u64)> {
    let mut buffer = [0; 48];
    let length = show(state, &mut buffer).unwrap();
    let entry = |bytes: &[u8]| {
        (
            usize::from(bytes[0]),
            256 * u64::from(bytes[1]) + u64::from(bytes[2]),
        )
    };
    buffer[..length].chunks(3).map(entry).collect()
}

/// Passes and wants this refusal, with no byte of the state changed.
#[track_caller]
pub fn refuses_pass(state: &[u8], d: u32, finished: bool, number: u32) {
    let mut after = state.to_vec();
    assert_eq!(pass(&mut after, d, finished), Err(number));
    assert_eq!(after, state);
}

/// Shows into a buffer of this length and wants this refusal, with no byte changed.
#[track_caller]
pub fn refuses_show(state: &[u8], length: usize, number: u32) {
    let mut buffer = vec![0xa5; length];
    assert_eq!(show(state, &mut buffer), Err(number));
    assert_eq!(buffer, vec![0xa5; length]);
}

#[track_caller]
pub fn unsound(state: &[u8]) {
    refuses_pass(state, 1, false, 10);
    refuses_show(state, 48, 10);
}

#[track_caller]
pub fn is_sound(state: &[u8]) {
    assert!(sound(state).is_some());
    assert_ne!(pass(&mut state.to_vec(), 1, false), Err(10));
}
