//! Plans, blocks and lengths made for the tests, beside the simulator's own.

use crate::both::{Both, PLACES};
use differ::proved::Judged;
use sim::block::{block_bytes, Edition};
use sim::levels::{Levels, MOST_LEVELS};
use sim::plan::{judge_list, Task, LARGEST_FIXED, LARGEST_PERIOD, LARGEST_WORST};
use sim::random::blocks::block_of;
use sim::random::plans::{plan_at_level, plan_at_level_within, SMALL_BASES};
use sim::random::tables::some_or_base_levels;
use sim::random::Random;

/// Tasks from pairs of period and worst case, without fixed ticks and without floors.
pub fn tasks(pairs: &[(u64, u64)]) -> Vec<Task> {
    let task = |(period, worst): &(u64, u64)| task(*period, *worst, 0, 0);
    pairs.iter().map(task).collect()
}

/// Tasks from period, worst case and fixed ticks, without floors.
pub fn fixed_tasks(triples: &[(u64, u64, u64)]) -> Vec<Task> {
    let task = |(period, worst, fixed): &(u64, u64, u64)| task(*period, *worst, *fixed, 0);
    triples.iter().map(task).collect()
}

/// Tasks from period, worst case, fixed ticks and floor.
pub fn floor_tasks(numbers: &[(u64, u64, u64, u64)]) -> Vec<Task> {
    let task = |(period, worst, fixed, floor): &(u64, u64, u64, u64)| {
        task(*period, *worst, *fixed, *floor)
    };
    numbers.iter().map(task).collect()
}

pub fn task(period: u64, worst: u64, fixed: u64, floor: u64) -> Task {
    Task {
        period,
        worst,
        fixed,
        floor,
    }
}

/// 01's bench plan.
pub fn bench_plan() -> Vec<Task> {
    tasks(&[(10, 400), (10, 400), (30, 600)])
}

/// An accepted plan of any kind, with any speeds.
pub fn some_plan(random: &mut Random) -> (Levels, Vec<Task>) {
    let levels = some_or_base_levels(random);
    let level = random.place(levels.count());
    let plan = if random.one_in(2) {
        plan_at_level(random, &levels, level)
    } else {
        let base = random.pick(&SMALL_BASES);
        plan_at_level_within(random, &levels, level, base)
    };
    (levels, plan)
}

/// The tasks as a host hands them over. What 32 bits don't hold becomes the largest that they do,
/// which is as far out of range.
pub fn numbers_of(tasks: &[Task]) -> Vec<u32> {
    let narrow = |number: u64| u32::try_from(number).unwrap_or(u32::MAX);
    let four = |task: &Task| [task.period, task.worst, task.fixed, task.floor].map(narrow);
    tasks.iter().flat_map(four).collect()
}

/// Whether a block can hold these tasks, in range or not.
pub fn fits_block(tasks: &[Task]) -> bool {
    let fits = |task: &Task| {
        task.period <= LARGEST_PERIOD
            && task.worst <= LARGEST_WORST
            && task.fixed <= LARGEST_FIXED
            && task.floor < MOST_LEVELS
    };
    tasks.len() < 32 && tasks.iter().all(fits)
}

/// Whether the block of these tasks has a task, and periods of which one can tell which are multiples.
pub fn has_periods(tasks: &[Task]) -> bool {
    let period_fits = |task: &Task| (1..=LARGEST_PERIOD).contains(&task.period);
    !tasks.is_empty() && tasks.iter().all(period_fits)
}

/// Any level, any bases, and exactly so many tasks: accepted.
pub fn plan_of_count(random: &mut Random, levels: &Levels, count: usize) -> Vec<Task> {
    loop {
        let level = random.place(levels.count());
        let mut tasks = plan_at_level(random, levels, level);
        if tasks.len() >= count {
            // With fewer tasks the hyperperiod and the sum are no greater.
            tasks.truncate(count);
            assert!(judge_list(levels, &tasks).is_ok());
            return tasks;
        }
    }
}

/// What some task of a plan has beside a period and a worst case. With none of it the writer gives the
/// plan edition 1, else edition 2.
#[derive(Clone, Copy, PartialEq, Eq, Debug)]
pub enum Additions {
    None,
    Fixed,
    Floors,
    Both,
}

impl Additions {
    pub const ALL: [Additions; 4] = [
        Additions::None,
        Additions::Fixed,
        Additions::Floors,
        Additions::Both,
    ];

    pub fn of(tasks: &[Task]) -> Additions {
        let fixed = tasks.iter().any(|task| task.fixed > 0);
        let floors = tasks.iter().any(|task| task.floor > 0);
        match (fixed, floors) {
            (false, false) => Additions::None,
            (true, false) => Additions::Fixed,
            (false, true) => Additions::Floors,
            (true, true) => Additions::Both,
        }
    }

    /// All of them in turn. Of a single level there is no floor, so there it is the first two.
    pub fn nth(nth: usize, levels: &Levels) -> Additions {
        match levels.count() {
            1 => Additions::ALL[nth % 2],
            _ => Additions::ALL[nth % 4],
        }
    }

    pub fn edition(self) -> Edition {
        match self {
            Additions::None => Edition::FIRST,
            _ => Edition::SECOND,
        }
    }
}

/// The same, and one that has exactly these additions. The table must have more than one level, as else
/// there is no floor.
pub fn plan_with(
    random: &mut Random,
    levels: &Levels,
    count: usize,
    additions: Additions,
) -> Vec<Task> {
    loop {
        let tasks = plan_of_count(random, levels, count);
        if Additions::of(&tasks) == additions {
            assert_eq!(Edition::of_tasks(&tasks), additions.edition());
            return tasks;
        }
    }
}

/// The same tasks but for one step: a field one more or one less, two places swapped, a task left
/// out, or one of them twice.
pub fn nearby(random: &mut Random, tasks: &[Task]) -> Vec<Task> {
    let mut near = tasks.to_vec();
    let place = random.place(near.len());
    match random.below(12) {
        0 | 1 => near[place].worst += 1,
        2 => near[place].worst -= 1,
        3 => near[place].period += 1,
        4 => near[place].period -= 1,
        5 => near.swap(place, 0),
        6 => drop(near.remove(place)),
        7 => near[place].fixed += 1,
        8 => near[place].fixed = near[place].fixed.saturating_sub(1),
        9 => near[place].floor += 1,
        10 => near[place].floor = near[place].floor.saturating_sub(1),
        _ => near.push(near[place]),
    }
    near
}

/// Any few tasks in range, with short periods that are often far from a common multiple, and floors that
/// eight levels have.
pub fn loose_plan(random: &mut Random) -> Vec<Task> {
    let longest = random.pick(&[4, 12, 40, 200, 3_000, LARGEST_PERIOD]);
    let heaviest = random.pick(&[1, 20, 100, 2_000, LARGEST_WORST]);
    let most_fixed = random.pick(&[0, 0, 1, 20, LARGEST_FIXED]);
    let highest = random.pick(&[0, 0, 1, 4, MOST_LEVELS - 1]);
    let count = random.between(1, 6);
    let task = |_| Task {
        period: random.between(1, longest),
        worst: random.between(1, heaviest),
        fixed: random.between(0, most_fixed),
        floor: random.between(0, highest),
    };
    (0..count).map(task).collect()
}

/// A buffer's length: exact, one byte off, empty, or anything.
pub fn some_room(random: &mut Random, needed: usize) -> usize {
    match random.below(8) {
        0 | 1 => needed,
        2 => needed - 1,
        3 => needed + 1,
        4 => 0,
        5 => random.place(needed),
        _ => needed + random.place(40),
    }
}

/// Puts a list of tasks to every call: it is judged and written, and its block read and copied.
/// Reading must say what judging says.
#[track_caller]
pub fn put_tasks(both: &mut Both, random: &mut Random, tasks: &[Task]) -> Result<Judged, u32> {
    let numbers = numbers_of(tasks);
    let judged = both.judge(tasks.len(), &numbers);
    let needed = block_bytes(Edition::of_tasks(tasks), tasks.len().min(PLACES) as u64);
    let _ = both.write(tasks.len(), &numbers, some_room(random, needed));
    if fits_block(tasks) {
        assert_eq!(put_block(both, random, &block_of(tasks)), judged);
    }
    judged
}

/// Puts a block to reading and copying.
#[track_caller]
pub fn put_block(both: &mut Both, random: &mut Random, block: &[u8]) -> Result<Judged, u32> {
    let room = some_room(random, block.len().max(1));
    let _ = both.copy(block, room);
    both.read(block)
}
