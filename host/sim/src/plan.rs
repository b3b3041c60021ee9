//! 01, "Plan, levels, plain schedule", and the questions 1 to 9 about plans; 02, No. 2: the fixed
//! ticks of a task, and question 21; No. 8: its floor, and question 24. Admission, the nominal level
//! and the hyperperiod don't look at floors.

use crate::bits::Bits;
use crate::block::{block_bytes, pack_block, take_head, Edition};
use crate::job::{time_needed, Left};
use crate::levels::Levels;

/// A task as the host holds it. The fields are wider than their ranges, so that a value out of
/// range can be handed over and refused.
#[derive(Clone, Copy, PartialEq, Eq, Debug)]
pub struct Task {
    pub period: u64,
    pub worst: u64,
    /// Ticks that its job takes at every level, before its work.
    pub fixed: u64,
    /// The lowest level that its job may be run at. Level 0 is the lowest there is, so 0 is no floor at
    /// all.
    pub floor: u64,
}

impl Task {
    /// Whether it has anything that edition 1 of a plan block has no bits for.
    pub fn has_addition(&self) -> bool {
        self.fixed > 0 || self.floor > 0
    }

    /// What its job has to do on arrival.
    pub fn whole_job(&self) -> Left {
        Left {
            fixed: self.fixed,
            work: self.worst,
        }
    }
}

/// What reading and judging say about a plan beside the plan itself.
#[derive(Clone, Copy, PartialEq, Eq, Debug)]
pub struct Judged {
    pub nominal: usize,
    pub hyperperiod: u64,
}

pub const LARGEST_COUNT: u64 = 16;
pub const LARGEST_PERIOD: u64 = 65_535;
pub const LARGEST_WORST: u64 = 1_048_575;
pub const LARGEST_FIXED: u64 = 255;
pub const LARGEST_HYPERPERIOD: u64 = 1_000_000;

/// The least common multiple, or nothing if it is over the limit. The multiples of the larger
/// number are tried one by one.
fn common_multiple(a: u64, b: u64, limit: u64) -> Option<u64> {
    let larger = a.max(b);
    let smaller = a.min(b);
    let mut multiple = larger;
    while multiple <= limit {
        if multiple % smaller == 0 {
            return Some(multiple);
        }
        multiple += larger;
    }
    None
}

/// "The hyperperiod is the least common multiple of all periods." Nothing if it is over
/// 1,000,000: once some of the periods go over it, all of them together do as well.
pub fn hyperperiod(tasks: &[Task]) -> Option<u64> {
    let mut multiple = 1;
    for task in tasks {
        multiple = common_multiple(multiple, task.period, LARGEST_HYPERPERIOD)?;
    }
    Some(multiple)
}

/// "the sum of (time needed for the worst case at that level, times hyperperiod divided by
/// period)". For tasks in range it stays far below the largest u64.
pub fn admission_sum(tasks: &[Task], hyperperiod: u64, speed: u64) -> u64 {
    let mut sum = 0;
    for task in tasks {
        sum += time_needed(task.whole_job(), speed) * (hyperperiod / task.period);
    }
    sum
}

/// "The nominal level is the lowest that admits it."
fn nominal_level(levels: &Levels, tasks: &[Task], hyperperiod: u64) -> Option<usize> {
    levels.lowest(|speed| admission_sum(tasks, hyperperiod, speed) <= hyperperiod)
}

pub fn count_in_range(count: u64) -> bool {
    (1..=LARGEST_COUNT).contains(&count)
}

fn task_in_range(task: &Task) -> bool {
    (1..=LARGEST_PERIOD).contains(&task.period)
        && (1..=LARGEST_WORST).contains(&task.worst)
        && task.fixed <= LARGEST_FIXED
}

/// Question 6. A block has no room for fixed ticks out of their range, so in reading these never say
/// no to it.
fn ask_ranges(tasks: &[Task]) -> Result<(), u32> {
    if tasks.iter().all(task_in_range) {
        Ok(())
    } else {
        Err(6)
    }
}

/// Question 24: "a floor naming no loaded level". A floor is a number of any size here, and one that is
/// too large is never out of range: 6 doesn't ask about it.
fn ask_floors(levels: &Levels, tasks: &[Task]) -> Result<(), u32> {
    let names_a_level = |task: &Task| task.floor < levels.count() as u64;
    if tasks.iter().all(names_a_level) {
        Ok(())
    } else {
        Err(24)
    }
}

/// Questions 3, 6, 24, 7 and 8 about a count and its tasks. Entries past the count are not looked at.
pub fn judge(levels: &Levels, count: u64, tasks: &[Task]) -> Result<Judged, u32> {
    if !count_in_range(count) {
        return Err(3);
    }
    let tasks = &tasks[..count as usize];
    ask_ranges(tasks)?;
    ask_floors(levels, tasks)?;
    ask_admission(levels, tasks)
}

/// Questions 7 and 8, about tasks in range.
fn ask_admission(levels: &Levels, tasks: &[Task]) -> Result<Judged, u32> {
    let hyperperiod = hyperperiod(tasks).ok_or(7u32)?;
    let nominal = nominal_level(levels, tasks, hyperperiod).ok_or(8u32)?;
    Ok(Judged {
        nominal,
        hyperperiod,
    })
}

/// Judging a list of any length: its count is its length.
pub fn judge_list(levels: &Levels, tasks: &[Task]) -> Result<Judged, u32> {
    judge(levels, tasks.len() as u64, tasks)
}

/// Reading a plan: questions 1 to 6, 21, 24, 7 and 8.
pub fn read_plan(levels: &Levels, block: &[u8]) -> Result<(Vec<Task>, Judged), u32> {
    if block.len() < 2 {
        return Err(1);
    }
    let mut bits = Bits::unpack(block);
    let (edition, count) = take_head(&mut bits);
    if !edition.is_accepted() {
        return Err(2);
    }
    if !count_in_range(count) {
        return Err(3);
    }
    if block.len() != block_bytes(edition, count) {
        return Err(4);
    }
    let mut tasks = Vec::new();
    for _ in 0..count {
        tasks.push(edition.take_task(&mut bits));
    }
    // 02, No. 8, of the bits that were spare: "Question 5 no longer tests these bits."
    if !bits.all_zero() {
        return Err(5);
    }
    ask_ranges(&tasks)?;
    // "21 an edition 2 block whose additions are all zero; put after 6 in reading."
    if edition == Edition::SECOND && !tasks.iter().any(Task::has_addition) {
        return Err(21);
    }
    // "24 a floor naming no loaded level; put after 6 and 21."
    ask_floors(levels, &tasks)?;
    let judged = ask_admission(levels, &tasks)?;
    Ok((tasks, judged))
}

/// Writing a plan: questions 3, 6, 24, 7, 8, then 9. Returns how many bytes were written; "Bytes past
/// those written stay untouched."
pub fn write_plan(
    levels: &Levels,
    count: u64,
    tasks: &[Task],
    buffer: &mut [u8],
) -> Result<usize, u32> {
    judge(levels, count, tasks)?;
    let tasks = &tasks[..count as usize];
    let block = pack_block(Edition::of_tasks(tasks), count, tasks);
    if buffer.len() < block.len() {
        return Err(9);
    }
    buffer[..block.len()].copy_from_slice(&block);
    Ok(block.len())
}
