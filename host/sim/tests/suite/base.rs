//! The simulator's calls with 01's speeds loaded: what 01 says of a plan or a state, it says of
//! these.

use sim::job::Left;
use sim::plan::{Judged, Task};
use sim::{ActualBook, Levels, Order, PlainBook, Schedule};

/// The level block of 01's speeds, packed by hand.
pub const BASE_LEVELS: [u8; 11] = [
    0x80, 0x28, 0x14, 0x07, 0x82, 0x80, 0xc8, 0x3c, 0x14, 0x06, 0x40,
];

/// The time that so much work needs at a level, with no fixed ticks before it.
pub fn time_needed(work: u64, level: usize) -> u64 {
    let left = Left { fixed: 0, work };
    sim::job::time_needed(left, Levels::base().speed(level))
}

pub fn admission_sum(tasks: &[Task], hyperperiod: u64, level: usize) -> u64 {
    sim::plan::admission_sum(tasks, hyperperiod, Levels::base().speed(level))
}

pub fn judge(count: u64, tasks: &[Task]) -> Result<Judged, u32> {
    sim::judge(&BASE_LEVELS, count, tasks)
}

pub fn judge_list(tasks: &[Task]) -> Result<Judged, u32> {
    sim::judge_list(&BASE_LEVELS, tasks)
}

pub fn read_plan(block: &[u8]) -> Result<(Vec<Task>, Judged), u32> {
    sim::read_plan(&BASE_LEVELS, block)
}

pub fn write_plan(count: u64, tasks: &[Task], buffer: &mut [u8]) -> Result<usize, u32> {
    sim::write_plan(&BASE_LEVELS, count, tasks, buffer)
}

/// Without pairs; what is said of these is in `pairs`.
pub fn start(block: &[u8], state: &mut [u8]) -> Result<Order, u32> {
    sim::start(&BASE_LEVELS, block, &[], state)
}

/// The listing of a plan and passes, with 01's speeds in front.
pub fn listing(rest: &[u8]) -> Vec<u8> {
    sim::listing(&[&BASE_LEVELS[..], rest].concat())
}

pub fn plain_schedule(tasks: &[Task], nominal: usize) -> Schedule {
    Schedule::new(&Levels::base(), tasks, nominal)
}

pub fn actual_book(plan: &[Task], first: Order) -> ActualBook {
    ActualBook::new(&Levels::base(), plan, first)
}

pub fn plain_book(plan: &[Task]) -> PlainBook {
    PlainBook::new(&Levels::base(), plan)
}
