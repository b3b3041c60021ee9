//! Speeds, a plan and passes, as both the text form and the bench input say them; and pairs, which only
//! the text form says.

use sim::pairs::Pair;
use sim::plan::Task;
use sim::Levels;

/// How many bits a pass has for its ticks.
pub const D_BITS: usize = 15;

/// 02, No. 5, of the numbers in a pair: "one byte a number".
pub const NUMBER_BITS: usize = 8;

/// The largest number that a field of so many bits can hold.
pub const fn largest(bits: usize) -> u64 {
    (1 << bits) - 1
}

/// One pass: d ticks went by, and the running job finished at their end or didn't.
#[derive(Clone, Copy, PartialEq, Eq, Debug)]
pub struct Pass {
    pub d: u32,
    pub finished: bool,
}

/// Every number in it fits its field. Nothing else is asked: the dispatcher may refuse it all.
#[derive(Clone, PartialEq, Eq, Debug)]
pub struct Script {
    pub speeds: Vec<u64>,
    pub tasks: Vec<Task>,
    /// What comes with the plan at starting. A bench input has no place for them.
    pub pairs: Vec<Pair>,
    pub passes: Vec<Pass>,
}

impl Default for Script {
    /// 01's speeds, no task, no pair and no pass: what a text that says nothing says.
    fn default() -> Script {
        Script {
            speeds: Levels::base().speeds().to_vec(),
            tasks: Vec::new(),
            pairs: Vec::new(),
            passes: Vec::new(),
        }
    }
}
