//! Random states around 02's No. 6: with a total that isn't the entries' sum, and sound ones in which
//! an arrival replaces an entry that still has plain ticks.

use super::lone::clock_near_arrival;
use super::states::{invented_entry, with_some_order};
use super::Random;
use crate::dispatch::ticks_to_next_arrival;
use crate::job::Left;
use crate::layout::{self, ENTRIES, STATE_BYTES};
use crate::levels::Levels;
use crate::plan::{judge_list, Task};
use crate::schedule::allotment;
use crate::state::{pack, Entry, State};

const TRIES: u32 = 40;

/// The total that the entries of a block add up to, all sixteen of them: those past the count have
/// nothing to add where the block is laid out as it should be.
pub fn put_total(block: &mut [u8]) {
    let plain_left = |task| layout::of_task(task, layout::PLAIN_LEFT).get(block);
    let total = (0..ENTRIES).map(plain_left).sum();
    layout::TOTAL.put(block, total);
}

/// A sound state with another total. Where nothing is queued, 0 and the same bytes the other way round
/// are no other, and the state is as it was.
pub fn with_a_total_changed(random: &mut Random, block: &[u8; STATE_BYTES]) -> [u8; STATE_BYTES] {
    let mut forged = *block;
    let other = another_total(random, block);
    layout::TOTAL.put(&mut forged, other);
    forged
}

/// One off, 0, the bytes the other way round, a sum that an entry was left out of or put into twice, or
/// one that is right in its last two bytes alone; else a huge one or any. One below 0 is the largest.
fn another_total(random: &mut Random, block: &[u8]) -> u64 {
    let total = layout::TOTAL.get(block);
    let count = layout::COUNT.get(block) as usize;
    let entry = layout::of_task(random.place(count), layout::PLAIN_LEFT).get(block);
    let largest = u64::from(u32::MAX);
    match random.below(4) {
        0 => random.pick(&[total + 1, total.wrapping_sub(1)]),
        1 => random.pick(&[0, u64::from((total as u32).swap_bytes())]),
        2 => random.pick(&[total - entry, total + entry, total + (1 << 16)]),
        _ => {
            let any = random.between(0, largest);
            random.pick(&[largest, largest - 1, 1 << 31, 256 * total, any])
        }
    }
}

/// A sound state with an arrival so near that entries are replaced there with plain ticks left: their
/// jobs have finished, and they have as many plain ticks as their allotment. No run reaches one, as the
/// plain schedule closes each job by its deadline; but nothing of it is unsound. Nothing for a plan
/// where none is found: with a single task that has one plain tick, it is gone at the arrival.
pub fn replacing_state(
    random: &mut Random,
    levels: &Levels,
    tasks: &[Task],
) -> Option<[u8; STATE_BYTES]> {
    for _ in 0..TRIES {
        let mut state = near_an_arrival(random, levels, tasks);
        if ticks_replaced(&state) > 0 {
            with_some_order(random, &mut state);
            return Some(pack(&state));
        }
    }
    None
}

/// A state whose jobs about to be replaced have finished and have all of their plain ticks, and whose
/// others have come anywhere. Its order is still to be chosen.
fn near_an_arrival(random: &mut Random, levels: &Levels, tasks: &[Task]) -> State {
    let judged = judge_list(levels, tasks).expect("the plan is an accepted one");
    let nominal = levels.speed(judged.nominal);
    let ended = random.between(1, 4);
    let mut state = State {
        clock: clock_near_arrival(random, tasks),
        running: None,
        entries: Vec::new(),
        levels: levels.clone(),
    };
    for task in tasks {
        let entry = invented_entry(random, task, nominal, ended);
        state.entries.push(entry);
    }
    end_those_replaced(&mut state, nominal);
    state
}

fn end_those_replaced(state: &mut State, nominal: u64) {
    let arrival = state.clock + ticks_to_next_arrival(state);
    for entry in &mut state.entries {
        if arrival % entry.task.period == 0 {
            *entry = ended_entry(entry.task, nominal);
        }
    }
}

/// A job that has finished before any plain tick went by.
fn ended_entry(task: Task, nominal: u64) -> Entry {
    Entry {
        task,
        left: Left::NOTHING,
        plain_left: allotment(&task, nominal),
    }
}

/// How many plain ticks the entries replaced at the next arrival have left then. Their deadline is that
/// arrival, so the ticks up to there are taken from them before any other entry.
pub fn ticks_replaced(state: &State) -> u64 {
    let gap = ticks_to_next_arrival(state);
    let arrival = state.clock + gap;
    let replaced = |entry: &&Entry| arrival % entry.task.period == 0;
    let entries = state.entries.iter().filter(replaced);
    let queued: u64 = entries.map(|entry| entry.plain_left).sum();
    queued.saturating_sub(gap)
}
