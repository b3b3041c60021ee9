//! Random states: reached by runs, invented but sound, and forged.

use super::blocks::block_of;
use super::lone::{sound_lone_state, with_another_job_open};
use super::passes::likely_pass;
use super::tables::{bad_speeds, some_levels};
use super::totals::{put_total, replacing_state, with_a_total_changed};
use super::Random;
use crate::clock::LARGEST_CLOCK;
use crate::dispatch::{choose, pass, start, Order};
use crate::job::{time_needed, Left};
use crate::layout::{
    self, ENTRIES, ENTRIES_END, ENTRY_BYTES, HEAD_BYTES, SPEEDS, SPEEDS_END, STATE_BYTES,
};
use crate::levels::{Levels, FASTEST};
use crate::plan::{
    judge_list, Judged, Task, LARGEST_COUNT, LARGEST_FIXED, LARGEST_PERIOD, LARGEST_WORST,
};
use crate::schedule::allotment;
use crate::state::{pack, unpack, Entry, State};

/// The state and the order after so many random passes from the start of an accepted plan.
/// Refused ones count, and change nothing.
pub fn reached_state(
    random: &mut Random,
    levels: &Levels,
    tasks: &[Task],
    passes: usize,
) -> ([u8; STATE_BYTES], Order) {
    let mut state = [0; STATE_BYTES];
    let started = start(levels, &block_of(tasks), &[], &mut state);
    let mut order = started.expect("the plan is an accepted one");
    for _ in 0..passes {
        let (d, finished) = likely_pass(random, order);
        if let Ok(next) = pass(&mut state, d, finished) {
            order = next;
        }
    }
    (state, order)
}

/// A sound state, and what its plan is judged to be.
fn unpack_sound(block: &[u8; STATE_BYTES]) -> (State, Judged) {
    let state = unpack(block).expect("the state is a sound one");
    let judged = judge_list(&state.levels, &state.tasks()).expect("the state is a sound one");
    (state, judged)
}

/// A sound state moved to the last hyperperiod or so before the largest clock. All arrivals and
/// deadlines move by the same ticks, so it is sound still.
pub fn late_state(random: &mut Random, block: &[u8; STATE_BYTES]) -> [u8; STATE_BYTES] {
    let (mut state, judged) = unpack_sound(block);
    let most = (LARGEST_CLOCK - state.clock) / judged.hyperperiod;
    let fewer = random.below(2).min(most);
    state.clock += (most - fewer) * judged.hyperperiod;
    pack(&state)
}

/// A sound state with any clock and any progress of the jobs, most likely one that no run from a
/// start can reach. The level of its order is anything from the lowest that fits to the highest that is
/// sound. One of four has exactly one open job, often one behind its plain ticks (02, No. 4). One of
/// eight, where the plan has it, has plain ticks left in an entry that is about to be replaced (02, No. 6).
pub fn invented_state(random: &mut Random, levels: &Levels, tasks: &[Task]) -> [u8; STATE_BYTES] {
    match random.below(8) {
        0 | 1 => sound_lone_state(random, levels, tasks).0,
        2 => replacing_state(random, levels, tasks)
            .unwrap_or_else(|| any_sound_state(random, levels, tasks)),
        _ => any_sound_state(random, levels, tasks),
    }
}

fn any_sound_state(random: &mut Random, levels: &Levels, tasks: &[Task]) -> [u8; STATE_BYTES] {
    let judged = judge_list(levels, tasks).expect("the plan is an accepted one");
    let nominal = levels.speed(judged.nominal);
    let mut state = State {
        clock: some_clock(random),
        running: None,
        entries: Vec::new(),
        levels: levels.clone(),
    };
    let ended = random.between(1, 4);
    for task in tasks {
        let entry = invented_entry(random, task, nominal, ended);
        state.entries.push(entry);
    }
    with_some_order(random, &mut state);
    pack(&state)
}

/// An order is chosen at the lowest level; a sound one may have a higher one, up to the nominal.
pub(super) fn with_some_order(random: &mut Random, state: &mut State) {
    let judged = judge_list(&state.levels, &state.tasks()).expect("the plan is an accepted one");
    state.running = choose(state);
    if let Some(running) = &mut state.running {
        let highest = highest_level(&state.entries[running.task].task, judged.nominal);
        running.level = random.between(running.level as u64, highest as u64) as usize;
    }
}

/// The highest level that a sound order may run the task's job at: "the higher of nominal and floor".
pub(super) fn highest_level(task: &Task, nominal: usize) -> usize {
    nominal.max(task.floor as usize)
}

/// An early clock, one near the largest, or any.
pub(super) fn some_clock(random: &mut Random) -> u64 {
    match random.below(4) {
        0 => random.below(1_000),
        1 => LARGEST_CLOCK - random.below(100),
        2 => LARGEST_CLOCK - random.below(100_000),
        _ => random.between(0, LARGEST_CLOCK),
    }
}

/// An entry whose job has come anywhere; one in so many has not ended.
pub(super) fn invented_entry(random: &mut Random, task: &Task, nominal: u64, ended: u64) -> Entry {
    let left = if !random.one_in(ended) {
        Left::NOTHING
    } else {
        invented_left(random, task)
    };
    let least = time_needed(left, nominal);
    let plain_left = match random.below(3) {
        0 => least,
        1 => allotment(task, nominal),
        _ => random.between(least, allotment(task, nominal)),
    };
    Entry {
        task: *task,
        left,
        plain_left,
    }
}

/// Any work and any fixed ticks left, with or without the whole work: soundness asks no more.
pub(super) fn invented_left(random: &mut Random, task: &Task) -> Left {
    let fixed = match random.below(3) {
        0 => 0,
        1 => task.fixed,
        _ => random.between(0, task.fixed),
    };
    let work = if random.one_in(4) {
        task.worst
    } else {
        random.between(1, task.worst)
    };
    Left { fixed, work }
}

/// A sound state with something changed: some bytes, one field moved to an edge, its table of speeds,
/// its total, its length, or a job opened that takes from the running one what a lone job may do. Some
/// of these are sound all the same. But for the changed total itself, most have the total of their
/// entries, so that it doesn't decide alone.
pub fn forged_state(random: &mut Random, block: &[u8; STATE_BYTES]) -> Vec<u8> {
    match random.below(12) {
        0 => with_another_length(random, block),
        1 | 2 => with_bytes_changed(random, block),
        3 | 4 => with_a_table_changed(random, block).to_vec(),
        5 => with_another_job_open(random, block).to_vec(),
        6 => with_a_total_changed(random, block).to_vec(),
        _ => with_a_field_changed(random, block),
    }
}

fn with_another_length(random: &mut Random, block: &[u8]) -> Vec<u8> {
    let mut forged = block.to_vec();
    let length = random.pick(&[
        0,
        1,
        HEAD_BYTES - 1,
        HEAD_BYTES,
        HEAD_BYTES + ENTRY_BYTES,
        STATE_BYTES / 2,
        ENTRIES_END,
        ENTRIES_END + 1,
        SPEEDS_END - 1,
        SPEEDS_END,
        SPEEDS_END + 1,
        STATE_BYTES - 2,
        STATE_BYTES - 1,
        STATE_BYTES,
        STATE_BYTES + 1,
        STATE_BYTES + ENTRY_BYTES,
        2 * STATE_BYTES,
    ]);
    forged.resize(length, 0);
    forged
}

/// Some bytes changed. Three of four times the total is then made that of the entries again.
fn with_bytes_changed(random: &mut Random, block: &[u8]) -> Vec<u8> {
    let mut forged = block.to_vec();
    for _ in 0..random.between(1, 4) {
        let place = random.place(forged.len());
        match random.below(4) {
            0 => forged[place] = forged[place].wrapping_add(1),
            1 => forged[place] = forged[place].wrapping_sub(1),
            2 => forged[place] ^= 1 << random.below(8),
            _ => forged[place] = random.number() as u8,
        }
    }
    if !random.one_in(4) {
        put_total(&mut forged);
    }
    forged
}

/// One field of the head or of an entry set to a value near an edge of what is sound.
fn with_a_field_changed(random: &mut Random, block: &[u8; STATE_BYTES]) -> Vec<u8> {
    let (mut state, judged) = unpack_sound(block);
    let place = random.place(state.entries.len());
    let mut forged = block.to_vec();
    match random.below(14) {
        0 => layout::CLOCK.put(&mut forged, another_clock(random, state.clock)),
        1 => layout::TASK.put(&mut forged, another_task(random, &state, place)),
        2 => {
            let level = layout::LEVEL.get(block);
            let other = another_level(random, &state, judged.nominal, level);
            layout::LEVEL.put(&mut forged, other);
        }
        3 => layout::COUNT.put(&mut forged, another_count(random, &state)),
        4 => fill_an_empty_byte(random, &mut forged, state.entries.len()),
        12 | 13 => put_another_floor(random, &mut forged, &state, judged.nominal),
        kind => {
            let nominal = state.levels.speed(judged.nominal);
            change_an_entry(random, &mut state.entries[place], kind, nominal);
            forged = pack(&state).to_vec();
        }
    }
    forged
}

/// The table of speeds damaged: another count, a speed out of range or not rising, a speed where none
/// is used, or another table that can be loaded. With the last, and with a smaller or larger speed
/// between its neighbours, the rest of the state decides.
pub fn with_a_table_changed(random: &mut Random, block: &[u8; STATE_BYTES]) -> [u8; STATE_BYTES] {
    let mut forged = *block;
    let count = layout::LEVEL_COUNT.get(block) as usize;
    let place = random.place(count);
    match random.below(8) {
        0 => {
            let other = another_level_count(random, count);
            layout::LEVEL_COUNT.put(&mut forged, other);
        }
        1 => {
            let out = random.pick(&[0, FASTEST + 1, 1 << 10, 1 << 15, u64::from(u16::MAX)]);
            layout::speed_of(place).put(&mut forged, out);
        }
        2 => copy_a_neighbour(random, &mut forged, count, place),
        3 => swap_neighbours(&mut forged, count, place),
        4 => {
            // With all eight in use, it is the last of them.
            let unused = (count + random.place(SPEEDS)).min(SPEEDS - 1);
            let speed = random.pick(&[1, 256, FASTEST]);
            layout::speed_of(unused).put(&mut forged, speed);
        }
        5 => put_table(&mut forged, some_levels(random).speeds()),
        6 => put_table(&mut forged, &bad_speeds(random)),
        _ => {
            let speed = layout::speed_of(place).get(block);
            let near = random.pick(&[speed + 1, speed - 1]);
            layout::speed_of(place).put(&mut forged, near);
        }
    }
    forged
}

/// A count that no table has, one more or one less; a smaller one may leave speeds unused that are
/// not zero.
fn another_level_count(random: &mut Random, count: usize) -> u64 {
    let (count, most) = (count as u64, SPEEDS as u64);
    random.pick(&[0, most, most + 1, 255, count - 1, count + 1])
}

/// The speed at this place is the one before it, or the first is the one behind it. A single speed
/// stays alone.
fn copy_a_neighbour(random: &mut Random, block: &mut [u8], count: usize, place: usize) {
    let from = if place > 0 {
        place - 1
    } else {
        1.min(count - 1)
    };
    let speed = layout::speed_of(from).get(block);
    let equal_or_below = speed - u64::from(place > 0 && random.one_in(2));
    layout::speed_of(place).put(block, equal_or_below);
}

/// Two neighbours in the wrong order; a single speed stays alone.
fn swap_neighbours(block: &mut [u8], count: usize, place: usize) {
    let other = if place > 0 {
        place - 1
    } else {
        1.min(count - 1)
    };
    let (one, two) = (layout::speed_of(place), layout::speed_of(other));
    let (first, second) = (one.get(block), two.get(block));
    one.put(block, second);
    two.put(block, first);
}

/// These speeds, with their count and zeros behind them.
pub fn put_table(block: &mut [u8], speeds: &[u64]) {
    layout::LEVEL_COUNT.put(block, speeds.len() as u64);
    for level in 0..SPEEDS {
        let speed = speeds.get(level).copied().unwrap_or(0);
        layout::speed_of(level).put(block, speed);
    }
}

fn another_clock(random: &mut Random, clock: u64) -> u64 {
    let near = [clock + 1, clock.saturating_sub(1)];
    let far = [0, LARGEST_CLOCK, LARGEST_CLOCK + 1, u64::from(u32::MAX)];
    if random.one_in(2) {
        random.pick(&near)
    } else {
        random.pick(&far)
    }
}

fn another_task(random: &mut Random, state: &State, place: usize) -> u64 {
    let most = LARGEST_COUNT;
    let count = state.entries.len() as u64;
    random.pick(&[0, 1, most - 1, most, 254, 255, count, place as u64])
}

/// At and beside the bounds that a sound order's level has. Where it is below 0, its byte is the largest.
fn another_level(random: &mut Random, state: &State, nominal: usize, level: u64) -> u64 {
    let (top, nominal) = (state.levels.top() as u64, nominal as u64);
    let floor = state
        .running
        .map_or(0, |order| state.entries[order.task].task.floor);
    let lower = level.wrapping_sub(1);
    let above = nominal.max(floor) + 1;
    let below = floor.wrapping_sub(1);
    let ends = [0, top, top + 1, 255];
    let bounds = [nominal, nominal + 1, lower, floor, above, below];
    random.pick(&[&ends[..], &bounds].concat())
}

/// Any of the sixteen floors that four bits hold, or one at an edge, in the entry of the task that runs or
/// in any other: at the ends of the table, past it, and at and beside the order's level and the nominal
/// one.
fn put_another_floor(random: &mut Random, block: &mut [u8], state: &State, nominal: usize) {
    let (nominal, count) = (nominal as u64, state.levels.count() as u64);
    let level = layout::LEVEL.get(block);
    let any = random.below(16);
    let near = [level, level + 1, level.saturating_sub(1)];
    let edges = [any, any, 0, nominal, nominal + 1, count - 1, count, 8, 15];
    let floor = random.pick(&[&edges[..], &near].concat());
    let some = random.place(state.entries.len());
    let task = match state.running {
        Some(order) if random.one_in(2) => order.task,
        _ => some,
    };
    layout::put_floor(block, task, floor);
}

fn another_count(random: &mut Random, state: &State) -> u64 {
    let most = LARGEST_COUNT;
    let count = state.entries.len() as u64;
    random.pick(&[0, 1, most, most + 1, 255, count - 1, count + 1])
}

/// Anything into a byte that is zero in a sound state: of the head, of the first entry past the
/// count, or of the last entry. With sixteen tasks the last entry is in use.
fn fill_an_empty_byte(random: &mut Random, block: &mut [u8], count: usize) {
    let past = layout::entry_at(count.min(ENTRIES - 1));
    let last = layout::entry_at(ENTRIES - 1);
    let (head, end) = (layout::HEAD_ZERO.at, ENTRIES_END - 1);
    let empty = [head, past, past + ENTRY_BYTES - 1, last, end];
    block[random.pick(&empty)] = random.number() as u8;
}

/// Other work, fixed ticks or plain ticks left, or another period, worst case or fixed ticks. A worst case
/// past its range doesn't fit its bits, and its lowest ones are 0.
fn change_an_entry(random: &mut Random, entry: &mut Entry, kind: u64, nominal: u64) {
    let Task {
        period,
        worst,
        fixed,
        ..
    } = entry.task;
    let Left {
        fixed: fixed_left,
        work,
    } = entry.left;
    match kind {
        5 => {
            entry.left.work = random.pick(&[0, 1, worst - 1, worst, worst + 1, work + 1]);
        }
        6 => {
            let full = allotment(&entry.task, nominal);
            let least = time_needed(entry.left, nominal);
            let choices = [0, full - 1, full, full + 1, least, least.saturating_sub(1)];
            entry.plain_left = random.pick(&choices);
        }
        7 => {
            let longer = (period + 1).min(LARGEST_PERIOD);
            let twice = 2 * period % (LARGEST_PERIOD + 1);
            let choices = [0, 1, period - 1, longer, LARGEST_PERIOD, twice];
            entry.task.period = random.pick(&choices);
        }
        8 => {
            let past = LARGEST_WORST + 1;
            let choices = [0, 1, worst - 1, worst + 1, work, LARGEST_WORST, past];
            entry.task.worst = random.pick(&choices);
        }
        9 => {
            let fewer = fixed.saturating_sub(1);
            let choices = [0, 1, fewer, fixed + 1, fixed_left, LARGEST_FIXED];
            entry.task.fixed = random.pick(&choices);
        }
        _ => {
            let fewer = fixed_left.saturating_sub(1);
            let choices = [0, 1, fewer, fixed_left + 1, fixed, fixed + 1, LARGEST_FIXED];
            entry.left.fixed = random.pick(&choices);
        }
    }
}
