//! 01, Blocks, and 02, No. 1, No. 2, No. 6 and No. 8: the state, packed into its block and unpacked.
//! This file knows nothing of what the plan, the jobs and the order have to do with each other.

use crate::job::Left;
use crate::layout::{self, Field, ENTRIES, ENTRIES_END, IDLE, SPEEDS, STATE_BYTES};
use crate::levels::Levels;
use crate::plan::Task;

/// What the state has of one task: the task, and how far its latest job has come.
#[derive(Clone, Copy, PartialEq, Eq, Debug)]
pub struct Entry {
    pub task: Task,
    pub left: Left,
    pub plain_left: u64,
}

/// The task and the level of a run order. The block has no hold.
#[derive(Clone, Copy, PartialEq, Eq, Debug)]
pub struct Running {
    pub task: usize,
    pub level: usize,
}

/// The state block unpacked. No running task means an idle order.
#[derive(Clone, PartialEq, Eq, Debug)]
pub struct State {
    pub clock: u64,
    pub running: Option<Running>,
    pub entries: Vec<Entry>,
    /// The speeds that it was started with.
    pub levels: Levels,
}

impl State {
    /// The plan that it is a state of.
    pub fn tasks(&self) -> Vec<Task> {
        self.entries.iter().map(|entry| entry.task).collect()
    }

    /// 02, No. 6: "how many plain ticks are queued in all", found by going through the entries. It
    /// isn't kept beside them: what is a sum is summed, and so can't differ.
    pub fn total(&self) -> u64 {
        self.entries.iter().map(|entry| entry.plain_left).sum()
    }
}

fn all_zero(bytes: &[u8]) -> bool {
    bytes.iter().all(|byte| *byte == 0)
}

/// Unpacks a block, or nothing if it hasn't the state's length or isn't laid out as the documents
/// have it: 1 to 16 entries, zeros where there are to be zeros, level 0 for idle, and behind them a
/// table that can be loaded. The total isn't looked at; whether it is the entries' is asked of a sound
/// state.
pub fn unpack(block: &[u8]) -> Option<State> {
    if block.len() != STATE_BYTES {
        return None;
    }
    let running = unpack_order(block)?;
    let count = layout::COUNT.get(block) as usize;
    if !(1..=ENTRIES).contains(&count) || layout::HEAD_ZERO.get(block) != 0 {
        return None;
    }
    let entries = (0..count).map(|task| unpack_entry(block, task)).collect();
    // "Entries past the count are zero."
    if !all_zero(&block[layout::entry_at(count)..ENTRIES_END]) {
        return None;
    }
    Some(State {
        clock: layout::CLOCK.get(block),
        running,
        entries,
        levels: unpack_levels(block)?,
    })
}

/// "the count and eight speeds of two bytes, unused ones zero".
fn unpack_levels(block: &[u8]) -> Option<Levels> {
    let count = layout::LEVEL_COUNT.get(block) as usize;
    if count > SPEEDS {
        return None;
    }
    let mut speeds = Vec::new();
    for level in 0..SPEEDS {
        speeds.push(layout::speed_of(level).get(block));
    }
    let (used, unused) = speeds.split_at(count);
    if unused.iter().any(|speed| *speed != 0) {
        return None;
    }
    Levels::of(used)
}

/// "task of the order (1; 255 for idle), level (1; 0 for idle)".
fn unpack_order(block: &[u8]) -> Option<Option<Running>> {
    let (task, level) = (layout::TASK.get(block), layout::LEVEL.get(block));
    if task != IDLE {
        return Some(Some(Running {
            task: task as usize,
            level: level as usize,
        }));
    }
    if level != 0 {
        return None;
    }
    Some(None)
}

fn unpack_entry(block: &[u8], task: usize) -> Entry {
    let number = |part: Field| layout::of_task(task, part).get(block);
    Entry {
        task: Task {
            period: number(layout::PERIOD),
            worst: layout::worst_in(block, task),
            fixed: number(layout::FIXED),
            floor: layout::floor_in(block, task),
        },
        left: Left {
            fixed: number(layout::FIXED_LEFT),
            work: number(layout::WORK_LEFT),
        },
        plain_left: number(layout::PLAIN_LEFT),
    }
}

/// The block of a state. Its total is the one of the entries, whatever else is said of them. Only the
/// lowest bits that fit a field get into it.
pub fn pack(state: &State) -> [u8; STATE_BYTES] {
    let mut block = [0; STATE_BYTES];
    layout::CLOCK.put(&mut block, state.clock);
    match state.running {
        Some(running) => {
            layout::TASK.put(&mut block, running.task as u64);
            layout::LEVEL.put(&mut block, running.level as u64);
        }
        None => layout::TASK.put(&mut block, IDLE),
    }
    layout::COUNT.put(&mut block, state.entries.len() as u64);
    for (task, entry) in state.entries.iter().enumerate() {
        pack_entry(&mut block, task, entry);
    }
    pack_levels(&mut block, &state.levels);
    layout::TOTAL.put(&mut block, state.total());
    block
}

fn pack_levels(block: &mut [u8], levels: &Levels) {
    layout::LEVEL_COUNT.put(block, levels.count() as u64);
    for (level, speed) in levels.speeds().iter().enumerate() {
        layout::speed_of(level).put(block, *speed);
    }
}

fn pack_entry(block: &mut [u8], task: usize, entry: &Entry) {
    layout::put_floor(block, task, entry.task.floor);
    layout::put_worst(block, task, entry.task.worst);
    let mut put = |part: Field, number| layout::of_task(task, part).put(block, number);
    put(layout::PERIOD, entry.task.period);
    put(layout::WORK_LEFT, entry.left.work);
    put(layout::PLAIN_LEFT, entry.plain_left);
    put(layout::FIXED, entry.task.fixed);
    put(layout::FIXED_LEFT, entry.left.fixed);
}
