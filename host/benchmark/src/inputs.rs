//! What the measured calls are given: level blocks, blocks of plans that are accepted over them, lists
//! of pairs that are good for these, states that their runs reach, passes that are accepted there, and
//! angles in their range. The same every time.

use crate::calls::PROVED;
use sim::knee::{LARGEST_ANGLE, SMALLEST_ANGLE};
use sim::level_block::write_levels;
use sim::levels::Levels;
use sim::pairs::{pack_pairs, Pair, MOST_PAIRS};
use sim::plan::{judge_list, Task, LARGEST_FIXED};
use sim::random::blocks::block_of;
use sim::random::pairs::good_pairs;
use sim::random::Random;

pub use sim::layout::STATE_BYTES;
pub const QUEUE_BYTES: usize = 48;

const PASSES_OF_A_PLAN: usize = 16;

/// Whether a plan is to have fixed ticks, and whether floors.
const KINDS: [(bool, bool); 4] = [(false, false), (false, true), (true, false), (true, true)];

/// 01's speeds, fewer levels, odd speeds, and speeds far apart up to the fastest that there can be.
const TABLES: [&[u64]; 4] = [
    &[10, 20, 30, 40, 50, 60, 80, 100],
    &[40, 70, 100],
    &[13, 27, 41, 55, 83, 111],
    &[7, 19, 53, 101, 211, 419, 677, 1_000],
];

/// Divisors of 720,720, so that every choice of them has an accepted hyperperiod.
const PERIODS: [u64; 12] = [
    280, 420, 560, 630, 840, 1_008, 1_260, 1_680, 2_520, 5_040, 9_360, 10_010,
];

/// One input: the blocks and the pairs are for starting, the state for passing, showing and asking for its
/// total, the ticks and the finish for passing, the angle for asking for its damping.
#[derive(Clone)]
pub struct Input {
    pub levels: Vec<u8>,
    pub block: Vec<u8>,
    pub pairs: Vec<u8>,
    pub state: [u8; STATE_BYTES],
    pub d: u32,
    pub finished: bool,
    pub angle: i32,
}

/// The inputs for so many tasks: for each table a plan without fixed ticks and one with some, and of either
/// kind one without floors and one with some.
pub fn inputs(tasks: usize) -> Vec<Input> {
    let mut random = Random::new(tasks as u64);
    let mut found = Vec::new();
    for (nth, table) in TABLES.into_iter().enumerate() {
        let table = Levels::new(table);
        let levels = write_levels(&table);
        for (with_fixed, with_floors) in KINDS {
            let mut plan = accepted_plan(&mut random, &table, tasks, with_fixed);
            if with_floors {
                give_floors(&mut plan, &table, nth);
            }
            add_run(&mut random, &levels, &plan, &mut found);
        }
    }
    found
}

/// Floors at nominal, above it and below it, and none at all for every fourth task. With which of them the
/// first task begins, goes with the table, so that plans of one task have each kind.
fn give_floors(plan: &mut [Task], levels: &Levels, nth: usize) {
    let judged = judge_list(levels, plan).expect("the plan is an accepted one");
    let (nominal, top) = (judged.nominal as u64, levels.top() as u64);
    let floors = [nominal, (nominal + 1).min(top), nominal / 2, 0];
    let in_turn = floors.iter().cycle().skip(nth % 3);
    for (task, floor) in plan.iter_mut().zip(in_turn) {
        task.floor = *floor;
    }
}

/// A plan that fills much of what some level has. Fixed ticks take up to a quarter of the time.
fn accepted_plan(
    random: &mut Random,
    levels: &Levels,
    count: usize,
    with_fixed: bool,
) -> Vec<Task> {
    let fastest = levels.speed(levels.top());
    let part = 4 * count as u64;
    loop {
        let units = random.between(fastest / 5, fastest);
        let mut task = || {
            let period = random.pick(&PERIODS);
            let most = if with_fixed { period / part } else { 0 };
            Task {
                period,
                worst: (period * units / count as u64).max(1),
                fixed: random.between(0, most.min(LARGEST_FIXED)),
                floor: 0,
            }
        };
        let plan: Vec<Task> = (0..count).map(|_| task()).collect();
        if judge_list(levels, &plan).is_ok() {
            return plan;
        }
    }
}

/// As many pairs as a list may have, from all over the good ones of a plan; none if it has none.
fn full_list(plan: &[Task]) -> Vec<u8> {
    let good = good_pairs(plan);
    let nth = |place: usize| good.get(place * good.len() / MOST_PAIRS).copied();
    let pairs: Vec<Pair> = (0..MOST_PAIRS).filter_map(nth).collect();
    pack_pairs(&pairs)
}

/// Runs a plan, and keeps each accepted pass with the state that it was made in.
fn add_run(random: &mut Random, levels: &[u8], plan: &[Task], found: &mut Vec<Input>) {
    let (block, pairs) = (block_of(plan), full_list(plan));
    let mut state = [0; STATE_BYTES];
    let mut hold = hold_of(PROVED.start(levels, &block, &pairs, &mut state));
    let mut kept = 0;
    while kept < PASSES_OF_A_PLAN {
        // Half the passes use the hold up, so that there are many ends and arrivals.
        let d = if random.one_in(2) {
            hold
        } else {
            random.between(1, hold)
        };
        let (before, d, finished) = (state, d as u32, random.one_in(2));
        let reply = PROVED.pass(&mut state, d, finished);
        if reply % 256 == 0 {
            hold = hold_of(reply);
            kept += 1;
            found.push(Input {
                levels: levels.to_vec(),
                block: block.clone(),
                pairs: pairs.clone(),
                state: before,
                d,
                finished,
                angle: angle_of(found.len()),
            });
        }
    }
}

/// Angles all over the range, each far from the one before. They are not drawn, so that the passes that
/// are drawn stay what they were.
fn angle_of(nth: usize) -> i32 {
    let angles = LARGEST_ANGLE - SMALLEST_ANGLE + 1;
    SMALLEST_ANGLE + (nth as i32 * 523) % angles
}

fn hold_of(order: u64) -> u64 {
    order >> 32
}
