//! 01, "Orders and passes", and the questions that starting, passing and showing put. 02, No. 1:
//! "Orders and the plain schedule are from now on those of the loaded speeds", which after the start
//! are the state's own. 02, No. 4: a job that is the only open one has the ticks to the next arrival
//! as its allowance where these are more than 01's. 02, No. 6: the total of the plain ticks left. 02,
//! No. 8: no order runs a job at a level below its task's floor.

use crate::clock::{clock_after, LARGEST_CLOCK};
use crate::job::{left_after, time_needed, Left};
use crate::layout::{self, STATE_BYTES};
use crate::levels::Levels;
use crate::pairs::read_pairs;
use crate::plan::{judge_list, read_plan, Judged, Task};
use crate::schedule::{allotment, Urgency};
use crate::state::{pack, unpack, Entry, Running, State};

#[derive(Clone, Copy, PartialEq, Eq, Debug)]
pub enum Order {
    Run { task: u8, level: u8, hold: u32 },
    Idle { hold: u32 },
}

/// Which allowance a new order's level is chosen by: 01's alone, or the one of 02's No. 4. The calls
/// know the second only; the first is there for what is to be compared with it.
#[derive(Clone, Copy, PartialEq, Eq, Debug)]
pub enum Rule {
    Base,
    LoneGap,
}

/// Starting: reads the block (1 to 8, 21 and 24), then the pairs (22, which 02's No. 5 has "put after 8"),
/// then asks for the state's 221 bytes (9). Of a longer buffer the bytes past them stay as they were.
/// The pairs go no further: they are in neither the state nor the order.
pub fn start(levels: &Levels, block: &[u8], pairs: &[u8], state: &mut [u8]) -> Result<Order, u32> {
    let (tasks, judged) = read_plan(levels, block)?;
    read_pairs(&tasks, pairs)?;
    if state.len() < STATE_BYTES {
        return Err(9);
    }
    let mut fresh = State {
        clock: 0,
        running: None,
        entries: Vec::new(),
        levels: levels.clone(),
    };
    let nominal = levels.speed(judged.nominal);
    for task in tasks {
        fresh.entries.push(new_job(task, nominal));
    }
    fresh.running = choose(&fresh);
    state[..STATE_BYTES].copy_from_slice(&pack(&fresh));
    Ok(order_now(&fresh))
}

/// Passing: asks whether the state is sound (10), then 11 to 15, and only then changes it.
pub fn pass(state: &mut [u8], d: u32, finished: bool) -> Result<Order, u32> {
    let (mut now, judged) = sound(state).ok_or(10u32)?;
    let d = u64::from(d);
    ask_about_pass(&now, d, finished)?;

    // "In this order": the queue, the running job, the clock, the arrivals, the order.
    take_from_queue(&mut now, d);
    if let Some(running) = now.running {
        let entry = &mut now.entries[running.task];
        entry.left = if finished {
            Left::NOTHING
        } else {
            left_after(entry.left, d, now.levels.speed(running.level))
        };
    }
    now.clock = clock_after(now.clock, d);
    let arrived = let_jobs_arrive(&mut now, judged.nominal);
    if finished || arrived {
        now.running = choose(&now);
    }
    state.copy_from_slice(&pack(&now));
    Ok(order_now(&now))
}

/// Questions 11 to 15, put to a sound state.
fn ask_about_pass(now: &State, d: u64, finished: bool) -> Result<(), u32> {
    if d < 1 {
        return Err(11);
    }
    if d > ticks_to_next_arrival(now) {
        return Err(12);
    }
    if finished && now.running.is_none() {
        return Err(13);
    }
    if let Some(running) = now.running {
        let needed = time_of_order(now, running);
        if d > needed || (!finished && d == needed) {
            return Err(14);
        }
    }
    if clock_after(now.clock, d) > LARGEST_CLOCK {
        return Err(15);
    }
    Ok(())
}

/// Showing the queue: asks whether the state is sound (10), then for room (9). "3 bytes an entry,
/// task then plain ticks left, most urgent first, entries with plain ticks left only".
pub fn show(state: &[u8], buffer: &mut [u8]) -> Result<usize, u32> {
    let (now, _) = sound(state).ok_or(10u32)?;
    let mut shown = Vec::new();
    for task in by_urgency(&now) {
        let left = now.entries[task].plain_left;
        if left > 0 {
            shown.push(task as u8);
            shown.push((left / 256) as u8);
            shown.push((left % 256) as u8);
        }
    }
    if buffer.len() < shown.len() {
        return Err(9);
    }
    buffer[..shown.len()].copy_from_slice(&shown);
    Ok(shown.len())
}

/// How many plain ticks are queued in all. 02, No. 6: "answer from it without going through the
/// entries, asking only for the 221 bytes (10)". So of a state that isn't sound the answer is what its
/// last four bytes say, and that may be any number of 32 bits.
pub fn queued(state: &[u8]) -> Result<u32, u32> {
    if state.len() != STATE_BYTES {
        return Err(10);
    }
    Ok(layout::TOTAL.get(state) as u32)
}

/// The state and what its plan is judged to be, or nothing if 01's "Sound means ..." fails. It is
/// put with the state's own speeds; that these can be loaded is part of it.
pub fn sound(block: &[u8]) -> Option<(State, Judged)> {
    // "exactly 200 bytes, laid out as above", which now are 221.
    let state = unpack(block)?;
    // 02, No. 6: "A state whose total differs is unsound."
    if layout::TOTAL.get(block) != state.total() {
        return None;
    }
    // "a plan that passes 3, 6, 7, 8"; 02, No. 8, of soundness: "it also puts 24". So from here on every
    // floor is a level of the state's own table.
    let judged = judge_list(&state.levels, &state.tasks()).ok()?;
    // "a clock in range"
    if state.clock > LARGEST_CLOCK {
        return None;
    }
    // The order comes first here, because what is asked of an entry may depend on the order's level,
    // and that has to be one of the table.
    if !order_is_sound(&state, judged.nominal) {
        return None;
    }
    let nominal = state.levels.speed(judged.nominal);
    if !(0..state.entries.len()).all(|task| entry_is_sound(&state, task, nominal)) {
        return None;
    }
    Some((state, judged))
}

/// "for each task, work left at most the worst case, plain ticks left at most the allotment, and
/// the time needed for the work left at the nominal level at most the plain ticks left". 02, No. 2,
/// of the fixed ticks left: "no more than the fixed ticks, and zero in a finished job". That a job
/// with some of them left has all of its work isn't asked. 02, No. 4, of the time needed: see below.
fn entry_is_sound(state: &State, task: usize, nominal: u64) -> bool {
    let entry = &state.entries[task];
    let finished = !entry.left.is_open();
    entry.left.is_within(entry.task.whole_job())
        && (!finished || entry.left.fixed == 0)
        && entry.plain_left <= allotment(&entry.task, nominal)
        && (time_needed(entry.left, nominal) <= entry.plain_left
            || ends_within_the_gap(state, task))
}

/// 02, No. 4: soundness "lets a lone job's time at nominal exceed its plain ticks left if its time at
/// the order's level is at most the ticks to the next arrival". So the job ends before it has to share
/// the processor again. That it meets its allowance isn't enough: with plain ticks of other jobs in
/// that, the job could be open at the next arrival, with too few plain ticks of its own.
fn ends_within_the_gap(state: &State, task: usize) -> bool {
    match state.running {
        Some(running) => {
            running.task == task
                && is_lone(state, task)
                && time_of_order(state, running) <= ticks_to_next_arrival(state)
        }
        None => false,
    }
}

/// "an idle order exactly if no job is open, else the most urgent open job at a level no higher
/// than nominal that meets its allowance". 02, No. 4: "The soundness test uses the same allowance" as a
/// new order. 02, No. 8: "Soundness wants a run order's level at or above the floor, and at most the
/// higher of nominal and floor". So the level is one of the state's table.
fn order_is_sound(state: &State, nominal: usize) -> bool {
    match (most_urgent_open(state), state.running) {
        (None, None) => true,
        (Some(urgent), Some(running)) => {
            let floor = floor_of(state, urgent);
            running.task == urgent
                && running.level >= floor
                && running.level <= nominal.max(floor)
                && time_of_order(state, running) <= allowance(state, urgent)
        }
        _ => false,
    }
}

/// The level below which a task's job is not run.
fn floor_of(state: &State, task: usize) -> usize {
    state.entries[task].task.floor as usize
}

/// An entry just after an arrival: "a new job with full worst case and allotment".
fn new_job(task: Task, nominal: u64) -> Entry {
    Entry {
        task,
        left: task.whole_job(),
        plain_left: allotment(&task, nominal),
    }
}

/// What the job of a run order needs at the order's level.
fn time_of_order(state: &State, running: Running) -> u64 {
    let left = state.entries[running.task].left;
    time_needed(left, state.levels.speed(running.level))
}

/// An entry stands for the task's latest job, because each arrival replaces what stood there. So
/// its arrival is the largest multiple of the period that is at most the clock.
fn latest_arrival(state: &State, task: usize) -> u64 {
    let period = state.entries[task].task.period;
    state.clock / period * period
}

/// The next multiple of the period after the clock: the deadline of the entry's job too.
fn next_arrival(state: &State, task: usize) -> u64 {
    latest_arrival(state, task) + state.entries[task].task.period
}

pub(crate) fn ticks_to_next_arrival(state: &State) -> u64 {
    let mut fewest = u64::MAX;
    for task in 0..state.entries.len() {
        fewest = fewest.min(next_arrival(state, task) - state.clock);
    }
    fewest
}

/// "the deadline is its next arrival"
fn urgency_of(state: &State, task: usize) -> Urgency {
    (next_arrival(state, task), latest_arrival(state, task), task)
}

/// All task numbers, the one with the most urgent job first, its job open or not.
pub(crate) fn by_urgency(state: &State) -> Vec<usize> {
    let mut order: Vec<usize> = (0..state.entries.len()).collect();
    order.sort_by_key(|task| urgency_of(state, *task));
    order
}

fn most_urgent_open(state: &State) -> Option<usize> {
    by_urgency(state)
        .into_iter()
        .find(|task| state.entries[*task].left.is_open())
}

/// 02, No. 4: "the job is the only open one", so no other task's job has work left.
fn is_lone(state: &State, task: usize) -> bool {
    (0..state.entries.len()).all(|other| state.entries[other].left.is_open() == (other == task))
}

/// 02, No. 4: "if the job is the only open one, its allowance is the larger of 01's and the ticks to
/// the next arrival."
fn allowance(state: &State, task: usize) -> u64 {
    let base = base_allowance(state, task);
    if is_lone(state, task) {
        base.max(ticks_to_next_arrival(state))
    } else {
        base
    }
}

/// 01's allowance: "the sum of the plain ticks left of all jobs at least as urgent as it, itself
/// included, finished or not in the dispatcher"
fn base_allowance(state: &State, task: usize) -> u64 {
    let own = urgency_of(state, task);
    let mut sum = 0;
    for other in 0..state.entries.len() {
        if urgency_of(state, other) <= own {
            sum += state.entries[other].plain_left;
        }
    }
    sum
}

/// "The level is the lowest at which the work left needs no more than the allowance." 02, No. 8: "The
/// level chosen is the lowest at or above the floor that meets the allowance. A floor above nominal is
/// obeyed."
fn lowest_level(state: &State, task: usize, allowance: u64) -> usize {
    let left = state.entries[task].left;
    let meets = |speed| time_needed(left, speed) <= allowance;
    let level = state.levels.lowest_from(floor_of(state, task), meets);
    // A job that a new order is chosen for has its time needed at the nominal level within its own
    // plain ticks, and those are part of either allowance; at a floor above that it needs no more. A
    // lone job may have fallen behind its plain ticks, but then it is the one that runs, and no order is
    // chosen while it is open: nobody else can finish, and it ends within the ticks to the next arrival.
    level.expect("the higher of nominal and floor always meets the allowance")
}

/// The task and level of a new order: the most urgent open job, or idle if there is none.
pub fn choose(state: &State) -> Option<Running> {
    choose_with(state, Rule::LoneGap)
}

/// The same by either rule.
pub fn choose_with(state: &State, rule: Rule) -> Option<Running> {
    let task = most_urgent_open(state)?;
    let allowance = match rule {
        Rule::Base => base_allowance(state, task),
        Rule::LoneGap => allowance(state, task),
    };
    Some(Running {
        task,
        level: lowest_level(state, task, allowance),
    })
}

/// The order of a state, with its hold.
///
/// A new order has the hold that 01 says: the smaller of the time needed and the ticks to the next
/// arrival, and for idle the latter. An order that stays has a hold that fell by d, but the block
/// doesn't keep the hold. It needn't: the same rule, put to the state after the pass, gives it.
/// - The time needed at the order's level fell by exactly d, at any speed. Of the d ticks some went
///   to the fixed ticks, which are a part of it as they stand. The others, say k, each took a whole
///   tick's worth of the work left: (work - k * speed) / speed is work / speed - k, and taking away
///   the whole number k doesn't change the rounding.
/// - The clock rose by d and nothing arrived, so the ticks to the next arrival fell by exactly d.
///
/// If both fall by d, so does the smaller of them. Pass by pass, the hold of an order that stays
/// is therefore always what this rule gives for the state as it stands.
fn order_now(state: &State) -> Order {
    let arrival = ticks_to_next_arrival(state);
    match state.running {
        None => Order::Idle {
            hold: arrival as u32,
        },
        Some(running) => Order::Run {
            task: running.task as u8,
            level: running.level as u8,
            hold: time_of_order(state, running).min(arrival) as u32,
        },
    }
}

/// "d ticks are taken from the queue, most urgent entry first, entries at 0 leaving it". With the
/// queue empty, the rest of the ticks are lost.
fn take_from_queue(state: &mut State, d: u64) {
    let order = by_urgency(state);
    for _ in 0..d {
        let first = order
            .iter()
            .copied()
            .find(|task| state.entries[*task].plain_left > 0);
        if let Some(task) = first {
            state.entries[task].plain_left -= 1;
        }
    }
}

/// "tasks whose period divides the clock get a new job with full worst case and allotment,
/// replacing what stood there". Says whether there was one.
fn let_jobs_arrive(state: &mut State, nominal: usize) -> bool {
    let nominal = state.levels.speed(nominal);
    let mut arrived = false;
    for entry in &mut state.entries {
        if state.clock % entry.task.period == 0 {
            *entry = new_job(entry.task, nominal);
            arrived = true;
        }
    }
    arrived
}
