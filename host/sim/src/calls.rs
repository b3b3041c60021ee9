//! The calls as a host makes them. 02, No. 1: "Every call that takes a plan takes this block before
//! it", so its questions, 18 to 20, come before the call's own. Passing and showing take no plan;
//! they find the speeds in the state. Asking for the total of the queue wants neither, and asking for
//! the damping not even a state.

use crate::dispatch::{self, Order};
use crate::knee;
use crate::level_block::read_levels;
use crate::pairs::read_pairs;
use crate::plan::{self, Judged, Task};

/// Judging a count and its tasks.
pub fn judge(level_block: &[u8], count: u64, tasks: &[Task]) -> Result<Judged, u32> {
    plan::judge(&read_levels(level_block)?, count, tasks)
}

/// Judging a list of any length.
pub fn judge_list(level_block: &[u8], tasks: &[Task]) -> Result<Judged, u32> {
    plan::judge_list(&read_levels(level_block)?, tasks)
}

/// Reading a plan.
pub fn read_plan(level_block: &[u8], block: &[u8]) -> Result<(Vec<Task>, Judged), u32> {
    plan::read_plan(&read_levels(level_block)?, block)
}

/// Writing a plan.
pub fn write_plan(
    level_block: &[u8],
    count: u64,
    tasks: &[Task],
    buffer: &mut [u8],
) -> Result<usize, u32> {
    plan::write_plan(&read_levels(level_block)?, count, tasks, buffer)
}

/// Copying: reading a plan, then writing it.
pub fn copy_plan(level_block: &[u8], block: &[u8], buffer: &mut [u8]) -> Result<usize, u32> {
    let levels = read_levels(level_block)?;
    let (tasks, _) = plan::read_plan(&levels, block)?;
    plan::write_plan(&levels, tasks.len() as u64, &tasks, buffer)
}

/// Asking about the pairs that are to come with a plan: starting's questions up to 22. The answer is
/// how many pairs there are.
pub fn pairs(level_block: &[u8], block: &[u8], pairs: &[u8]) -> Result<usize, u32> {
    let (tasks, _) = read_plan(level_block, block)?;
    Ok(read_pairs(&tasks, pairs)?.len())
}

/// Starting. 02, No. 5: the list of pairs "comes with the plan".
pub fn start(
    level_block: &[u8],
    block: &[u8],
    pairs: &[u8],
    state: &mut [u8],
) -> Result<Order, u32> {
    dispatch::start(&read_levels(level_block)?, block, pairs, state)
}

/// What `queued` answers, as one number. The total may be any number of 32 bits, so 64 are wanted.
pub fn queued_number(state: &[u8]) -> u64 {
    as_number(dispatch::queued(state).map(u64::from))
}

/// What `damping` answers, as one number.
pub fn damping_number(angle: i32) -> u64 {
    as_number(knee::damping(angle))
}

/// A refusal is its number, in the lowest byte; else that byte is 0 and the answer stands from bit 8 on.
fn as_number(answer: Result<u64, u32>) -> u64 {
    match answer {
        Ok(answer) => answer << 8,
        Err(number) => u64::from(number),
    }
}
