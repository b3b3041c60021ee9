//! Random states around 02's No. 4: with a job that is the only open one, ahead of its plain ticks or
//! behind them, on each side of the ticks to the next arrival; and the same with a second job open,
//! where No. 4 allows nothing.

use super::states::{highest_level, invented_left, some_clock};
use super::Random;
use crate::clock::LARGEST_CLOCK;
use crate::dispatch::{by_urgency, choose, choose_with, ticks_to_next_arrival, Rule};
use crate::job::{time_needed, Left};
use crate::layout::STATE_BYTES;
use crate::levels::Levels;
use crate::numbers::div_ceil;
use crate::plan::{judge_list, Task};
use crate::schedule::allotment;
use crate::state::{pack, unpack, Entry, Running, State};

/// How the only open job of a state stands. Its plan, clock and entries are good otherwise, and the
/// order runs it at a level from its floor to the higher of nominal and floor, but for the last two.
#[derive(Clone, Copy, PartialEq, Eq, PartialOrd, Ord, Debug)]
pub enum Lone {
    /// Its time at nominal is within its plain ticks, and the order's level meets 01's allowance.
    Ahead,
    /// Ahead of its plain ticks too; its time at the order's level is above 01's allowance and at most
    /// the ticks to the next arrival.
    ByGap,
    /// Its time at nominal exceeds its plain ticks. Its time at the order's level is less than the
    /// ticks to the next arrival.
    Behind,
    /// Behind its plain ticks, and its time at the order's level is exactly the ticks to the next
    /// arrival.
    AtGap,
    /// The same with one tick more than these, so not sound. Often 01's allowance is met all the same.
    OverGap,
    /// Ahead of its plain ticks, and the order's level is the next below the lowest that meets 01's
    /// allowance or the ticks to the next arrival, so not sound. It is no lower than the floor.
    TooSlow,
    /// 02, No. 8: the order's level is below the floor, so not sound. With that level as its floor it would
    /// be, ahead of its plain ticks or behind them.
    BelowFloor,
    /// The order's level is above the higher of nominal and floor, so not sound. With that level as its
    /// floor it would be.
    TooFast,
}

impl Lone {
    pub const ALL: [Lone; 8] = [
        Lone::Ahead,
        Lone::ByGap,
        Lone::Behind,
        Lone::AtGap,
        Lone::OverGap,
        Lone::TooSlow,
        Lone::BelowFloor,
        Lone::TooFast,
    ];

    pub const SOUND: [Lone; 4] = [Lone::Ahead, Lone::ByGap, Lone::Behind, Lone::AtGap];

    pub fn is_sound(self) -> bool {
        Lone::SOUND.contains(&self)
    }
}

/// Why a state with more than one open job isn't sound, though with the running one alone it would be.
#[derive(Clone, Copy, PartialEq, Eq, PartialOrd, Ord, Debug)]
pub enum Crowded {
    /// The running job is behind its plain ticks. Its time at the order's level is at most the ticks
    /// to the next arrival.
    Behind,
    /// The running job is ahead of its plain ticks. Its time at the order's level is above 01's
    /// allowance and at most the ticks to the next arrival.
    ByGap,
}

const TRIES: u32 = 200;

/// A state of an accepted plan with exactly one open job, and how that stands.
pub fn lone_state(
    random: &mut Random,
    levels: &Levels,
    tasks: &[Task],
) -> ([u8; STATE_BYTES], Lone) {
    let wanted = random.pick(&Lone::ALL);
    lone_state_of(random, levels, tasks, wanted)
}

/// The same, sound.
pub fn sound_lone_state(
    random: &mut Random,
    levels: &Levels,
    tasks: &[Task],
) -> ([u8; STATE_BYTES], Lone) {
    let wanted = random.pick(&Lone::SOUND);
    lone_state_of(random, levels, tasks, wanted)
}

/// One of this kind, if one is found. Not every plan has each: a job that takes a tick at every level
/// is never one over, with a period of 1 nothing is less than the ticks to the next arrival, and with a
/// single level none is below a floor or above nominal. A job ahead of its plain ticks there is in every
/// plan. For an order below the floor the running job's task gets another one than the plan's.
fn lone_state_of(
    random: &mut Random,
    levels: &Levels,
    tasks: &[Task],
    wanted: Lone,
) -> ([u8; STATE_BYTES], Lone) {
    for _ in 0..TRIES {
        if let Some(state) = try_lone(random, levels, tasks, wanted) {
            return (pack(&state), wanted);
        }
    }
    // The nominal level meets the job's own plain ticks, and so does a floor above it.
    let mut ahead = try_ahead(random, levels, tasks);
    if let Some(order) = &mut ahead.running {
        order.level = highest_level(&tasks[order.task], nominal_level(levels, tasks));
    }
    (pack(&ahead), Lone::Ahead)
}

/// A state with a second job open, less urgent than the running one and with plain ticks for all that
/// it needs, and why it isn't sound. Nothing for a plan where none is found, as one with a single task.
pub fn crowded_state(
    random: &mut Random,
    levels: &Levels,
    tasks: &[Task],
) -> Option<([u8; STATE_BYTES], Crowded)> {
    let wanted = random.pick(&[Crowded::Behind, Crowded::ByGap]);
    for _ in 0..TRIES {
        let kind = match wanted {
            Crowded::Behind => random.pick(&[Lone::Behind, Lone::AtGap]),
            Crowded::ByGap => Lone::ByGap,
        };
        if let Some(mut state) = try_lone(random, levels, tasks, kind) {
            if open_another_job(random, &mut state) {
                return Some((pack(&state), wanted));
            }
        }
    }
    None
}

/// A sound state with one more job open, less urgent than the running one, with plain ticks for it. If
/// there is no such job it stays as it was.
pub fn with_another_job_open(random: &mut Random, block: &[u8; STATE_BYTES]) -> [u8; STATE_BYTES] {
    let mut state = unpack(block).expect("the state is a sound one");
    open_another_job(random, &mut state);
    pack(&state)
}

/// Says whether there was a job to be opened.
fn open_another_job(random: &mut Random, state: &mut State) -> bool {
    let running = match state.running {
        Some(running) => running.task,
        None => return false,
    };
    let mut later = by_urgency(state);
    let place = later.iter().position(|task| *task == running);
    later.drain(..=place.expect("the order runs one of the tasks"));
    later.retain(|task| !state.entries[*task].left.is_open());
    if later.is_empty() {
        return false;
    }
    let nominal = nominal_speed(&state.levels, &state.tasks());
    let entry = &mut state.entries[random.pick(&later)];
    *entry = ahead_entry(random, &entry.task, nominal);
    true
}

fn nominal_level(levels: &Levels, tasks: &[Task]) -> usize {
    let judged = judge_list(levels, tasks).expect("the plan is an accepted one");
    judged.nominal
}

fn nominal_speed(levels: &Levels, tasks: &[Task]) -> u64 {
    levels.speed(nominal_level(levels, tasks))
}

/// Whether the order's level is one that only the ticks to the next arrival allow.
fn is_by_gap(state: &State) -> bool {
    match (state.running, choose_with(state, Rule::Base)) {
        (Some(running), Some(base)) => running.level < base.level,
        _ => false,
    }
}

fn try_lone(random: &mut Random, levels: &Levels, tasks: &[Task], kind: Lone) -> Option<State> {
    match kind {
        Lone::Ahead | Lone::ByGap => {
            let state = try_ahead(random, levels, tasks);
            (is_by_gap(&state) == (kind == Lone::ByGap)).then_some(state)
        }
        Lone::TooSlow => {
            let mut state = try_ahead(random, levels, tasks);
            let mut order = choose(&state)?;
            order.level = order.level.checked_sub(1)?;
            state.running = Some(order);
            let floor = tasks[order.task].floor;
            (order.level as u64 >= floor).then_some(state)
        }
        Lone::BelowFloor => {
            let lower = without_floors(tasks);
            let (mut state, order) = try_sound(random, levels, &lower)?;
            let floor = random.between(order.level as u64 + 1, levels.count() as u64);
            put_back_floors(&mut state, tasks);
            state.entries[order.task].task.floor = floor.min(levels.top() as u64);
            (order.level < levels.top()).then_some(state)
        }
        Lone::TooFast => {
            let (mut state, mut order) = try_sound(random, levels, tasks)?;
            let highest = highest_level(&tasks[order.task], nominal_level(levels, tasks));
            let past = random.between(highest as u64 + 1, levels.count() as u64);
            order.level = past as usize;
            state.running = Some(order);
            (order.level <= levels.top()).then_some(state)
        }
        Lone::Behind => try_behind(random, levels, tasks, |random, gap| {
            (gap > 1).then(|| random.between(1, gap - 1))
        }),
        Lone::AtGap => try_behind(random, levels, tasks, |_, gap| Some(gap)),
        Lone::OverGap => try_behind(random, levels, tasks, |_, gap| Some(gap + 1)),
    }
}

/// A sound one of some kind, and its order.
fn try_sound(random: &mut Random, levels: &Levels, tasks: &[Task]) -> Option<(State, Running)> {
    let kind = random.pick(&Lone::SOUND);
    let state = try_lone(random, levels, tasks, kind)?;
    let order = state.running?;
    Some((state, order))
}

fn without_floors(tasks: &[Task]) -> Vec<Task> {
    let without = |task: &Task| Task { floor: 0, ..*task };
    tasks.iter().map(without).collect()
}

fn put_back_floors(state: &mut State, tasks: &[Task]) {
    for (entry, task) in state.entries.iter_mut().zip(tasks) {
        entry.task.floor = task.floor;
    }
}

/// A lone job ahead of its plain ticks, at any level from the lowest that meets its allowance to the
/// highest that it may have.
fn try_ahead(random: &mut Random, levels: &Levels, tasks: &[Task]) -> State {
    let nominal = nominal_level(levels, tasks);
    let mut state = ended_state(random, levels, tasks);
    state.clock = if random.one_in(2) {
        some_clock(random)
    } else {
        clock_near_arrival(random, tasks)
    };
    let task = random.place(tasks.len());
    state.entries[task] = ahead_entry(random, &tasks[task], levels.speed(nominal));
    let mut order = choose(&state).expect("a job is open");
    let highest = highest_level(&tasks[task], nominal);
    order.level = random.between(order.level as u64, highest as u64) as usize;
    state.running = Some(order);
    state
}

/// A lone job behind its plain ticks that needs so many ticks at the order's level as the function
/// makes of those to the next arrival; nothing if it can't need so many.
fn try_behind(
    random: &mut Random,
    levels: &Levels,
    tasks: &[Task],
    ticks_of: impl Fn(&mut Random, u64) -> Option<u64>,
) -> Option<State> {
    let nominal = nominal_level(levels, tasks);
    let mut state = ended_state(random, levels, tasks);
    let task = random.place(tasks.len());
    let highest = highest_level(&tasks[task], nominal);
    let level = random.between(tasks[task].floor, highest as u64) as usize;
    state.clock = clock_near_arrival(random, tasks);
    let ticks = ticks_of(random, ticks_to_next_arrival(&state))?;
    let left = left_that_needs(random, &tasks[task], levels.speed(level), ticks)?;
    let least = time_needed(left, levels.speed(nominal));
    state.entries[task].left = left;
    state.entries[task].plain_left = match random.below(3) {
        0 => 0,
        1 => least - 1,
        _ => random.between(0, least - 1),
    };
    state.running = Some(Running { task, level });
    Some(state)
}

/// No job open, and any plain ticks left of each. The clock is still to be set.
fn ended_state(random: &mut Random, levels: &Levels, tasks: &[Task]) -> State {
    let nominal = nominal_speed(levels, tasks);
    let mut entries = Vec::new();
    for task in tasks {
        let full = allotment(task, nominal);
        let any = random.between(0, full);
        entries.push(Entry {
            task: *task,
            left: Left::NOTHING,
            plain_left: random.pick(&[0, full, any]),
        });
    }
    State {
        clock: 0,
        running: None,
        entries,
        levels: levels.clone(),
    }
}

/// An open job with plain ticks for all that it needs at the nominal level.
fn ahead_entry(random: &mut Random, task: &Task, nominal: u64) -> Entry {
    let left = invented_left(random, task);
    let least = time_needed(left, nominal);
    let more = random.between(least, allotment(task, nominal));
    Entry {
        task: *task,
        left,
        plain_left: random.pick(&[least, more]),
    }
}

/// A clock some ticks before an arrival of a task: few, or as many as a job takes, or any.
pub(super) fn clock_near_arrival(random: &mut Random, tasks: &[Task]) -> u64 {
    let period = random.pick(tasks).period;
    let before = match random.below(3) {
        0 => random.between(1, period.min(4)),
        1 => random.between(1, period.min(40)),
        _ => random.between(1, period),
    };
    let arrival = (some_clock(random) / period + 1) * period;
    // The last arrivals may lie past the largest clock, and then a period earlier is as good.
    if arrival - before > LARGEST_CLOCK {
        arrival - period - before
    } else {
        arrival - before
    }
}

/// What can be left of a job that needs exactly so many ticks at a speed; nothing if it never needs as
/// many.
fn left_that_needs(random: &mut Random, task: &Task, speed: u64, ticks: u64) -> Option<Left> {
    let longest = div_ceil(task.worst, speed);
    if ticks > task.fixed + longest {
        return None;
    }
    let fixed = random.between(ticks.saturating_sub(longest), task.fixed.min(ticks - 1));
    let whole = (ticks - fixed) * speed;
    let work = random.between(whole - speed + 1, whole.min(task.worst));
    Some(Left { fixed, work })
}
