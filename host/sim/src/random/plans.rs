//! Random plans: accepted ones at a chosen level, ones on each side of an edge, and lists with
//! fields at and past their ranges. About half of the plans have no fixed ticks, and about half no
//! floor. What a plan is chosen for has nothing to do with its floors, so they are given to it at the
//! end.

use super::Random;
use crate::job::time_needed;
use crate::levels::Levels;
use crate::plan::{
    admission_sum, hyperperiod, judge_list, Task, LARGEST_COUNT, LARGEST_FIXED,
    LARGEST_HYPERPERIOD, LARGEST_PERIOD, LARGEST_WORST,
};

/// The periods of a random plan are divisors of one of these numbers, so that the hyperperiod
/// stays within bounds. Most have many divisors.
pub const BASES: [u64; 20] = [
    1, 2, 7, 12, 30, 60, 100, 210, 360, 840, 2_520, 4_096, 9_240, 27_720, 55_440, 65_535, 131_070,
    720_720, 999_999, 1_000_000,
];

/// The same for runs tick by tick through many hyperperiods.
pub const SMALL_BASES: [u64; 14] = [1, 2, 3, 4, 6, 8, 12, 16, 24, 30, 36, 60, 120, 240];

/// Full plans have a task with the base itself as its period, or are built as
/// `plan_with_sum` does it for the largest hyperperiod.
pub const FULL_BASES: [u64; 9] = [1, 2, 6, 30, 120, 840, 2_520, 5_040, 1_000_000];

const TRIES: u32 = 50_000;

/// An accepted plan whose nominal level is the given one, with any of the bases.
pub fn plan_at_level(random: &mut Random, levels: &Levels, level: usize) -> Vec<Task> {
    let base = random.pick(&BASES);
    plan_at_level_within(random, levels, level, base)
}

/// An accepted plan whose nominal level is the given one and whose periods divide the base.
pub fn plan_at_level_within(
    random: &mut Random,
    levels: &Levels,
    level: usize,
    base: u64,
) -> Vec<Task> {
    let usable = usable_periods(base);
    let speed = levels.speed(level);
    let with_fixed = tries_fixed(random);
    let tasks = until_found(|| {
        let count = random.between(1, LARGEST_COUNT);
        let periods: Vec<u64> = (0..count).map(|_| random.pick(&usable)).collect();
        let allotments = random_allotments(random, &periods, speed)?;
        let tasks = tasks_with(random, &periods, &allotments, speed, with_fixed);
        let judged = judge_list(levels, &tasks).ok()?;
        (judged.nominal == level).then_some(tasks)
    });
    with_floors(random, levels, level, tasks)
}

/// A plan with hyperperiod 1,000,000 exactly, accepted.
pub fn plan_at_largest_hyperperiod(random: &mut Random, levels: &Levels) -> Vec<Task> {
    let with_fixed = tries_fixed(random);
    let (tasks, nominal) = until_found(|| {
        let periods = periods_with_hyperperiod(random, LARGEST_HYPERPERIOD)?;
        let speed = random.pick(levels.speeds());
        let allotments = random_allotments(random, &periods, speed)?;
        let tasks = tasks_with(random, &periods, &allotments, speed, with_fixed);
        let judged = judge_list(levels, &tasks).ok()?;
        Some((tasks, judged.nominal))
    });
    with_floors(random, levels, nominal, tasks)
}

/// A plan whose hyperperiod is a little above 1,000,000. Its worst cases are anything in range, so
/// that question 8 would often say no as well, were it asked. Its floors are levels of the table: 24
/// would be told before 7.
pub fn plan_above_largest_hyperperiod(random: &mut Random, levels: &Levels) -> Vec<Task> {
    let periods = until_found(|| {
        let above = LARGEST_HYPERPERIOD + random.between(1, 1_000);
        periods_with_hyperperiod(random, above)
    });
    let with_fixed = random.one_in(2);
    let mut tasks = Vec::new();
    for period in periods {
        let worst = if random.one_in(2) {
            1
        } else {
            random.between(1, LARGEST_WORST)
        };
        tasks.push(Task {
            period,
            worst,
            fixed: some_fixed(random, with_fixed, LARGEST_FIXED),
            floor: 0,
        });
    }
    // It has no nominal level; any will do in its place.
    let level = random.place(levels.count());
    with_floors(random, levels, level, tasks)
}

/// A plan whose admission sum at the level is the hyperperiod exactly. Often the level is nominal.
pub fn full_plan(random: &mut Random, levels: &Levels, level: usize) -> Vec<Task> {
    let tasks = plan_with_sum(random, levels.speed(level), 0);
    with_floors(random, levels, level, tasks)
}

/// A plan whose admission sum at the level is one more than the hyperperiod.
pub fn plan_one_over(random: &mut Random, levels: &Levels, level: usize) -> Vec<Task> {
    let tasks = plan_with_sum(random, levels.speed(level), 1);
    with_floors(random, levels, level, tasks)
}

/// A full plan at the level with all its ticks fully used, and one unit of work more in the last
/// task, which costs that task a whole tick.
pub fn plan_one_unit_over(random: &mut Random, levels: &Levels, level: usize) -> Vec<Task> {
    let speed = levels.speed(level);
    let mut tasks = full_plan(random, levels, level);
    for task in &mut tasks {
        task.worst = (time_needed(task.whole_job(), speed) - task.fixed) * speed;
    }
    let last = tasks.len() - 1;
    tasks[last].worst += 1;
    tasks
}

/// An accepted plan whose valve (02, No. 7) may end with its first tick and at its deadline. It takes all
/// of its period, or shares it with a task that fills the rest. That one's period is a multiple of the
/// valve's: at its arrival the valve comes first, and before its deadline the valve has to wait.
pub fn valve_plan(random: &mut Random, levels: &Levels) -> Vec<Task> {
    let level = random.place(levels.count());
    let speed = levels.speed(level);
    let with_fixed = tries_fixed(random);
    let period = random.between(1, 12);
    let any = random.between(1, period);
    let own = random.pick(&[1, any, period]);
    let (mut periods, mut ticks) = (vec![period], vec![own]);
    if own < period {
        let times = random.pick(&[2, 2, 3, 4]);
        periods.push(times * period);
        ticks.push(times * (period - own));
    }
    let tasks = tasks_with(random, &periods, &ticks, speed, with_fixed);
    with_floors(random, levels, level, tasks)
}

/// The same tasks with floors, two of three times: each has none, any that is a level of the table, the
/// nominal one, the one above it, or one below. A table with a single level has no floor but none.
pub fn with_floors(
    random: &mut Random,
    levels: &Levels,
    nominal: usize,
    mut tasks: Vec<Task>,
) -> Vec<Task> {
    let (nominal, top) = (nominal as u64, levels.top() as u64);
    let without = random.one_in(3);
    for task in &mut tasks {
        let any = random.between(0, top);
        let below = random.between(0, nominal);
        let above = (nominal + 1).min(top);
        let floor = random.pick(&[0, 0, any, below, nominal, above]);
        task.floor = if without { 0 } else { floor };
    }
    tasks
}

/// A list of 0 to 18 tasks, many of them with fields at and past their ranges, and floors that name no
/// level.
pub fn edge_list(random: &mut Random, levels: &Levels) -> Vec<Task> {
    let level = random.place(levels.count());
    let mut tasks = plan_at_level(random, levels, level);
    if random.one_in(8) {
        let length = random.between(0, 18) as usize;
        tasks.resize(
            length,
            Task {
                period: 1_000,
                worst: 1,
                fixed: 0,
                floor: 0,
            },
        );
    }
    if tasks.is_empty() {
        return tasks;
    }
    for _ in 0..random.below(3) {
        let place = random.place(tasks.len());
        match random.below(4) {
            0 => tasks[place].period = edge_value(random, LARGEST_PERIOD),
            1 => tasks[place].worst = edge_value(random, LARGEST_WORST),
            2 => tasks[place].fixed = edge_value(random, LARGEST_FIXED),
            _ => tasks[place].floor = edge_floor(random, levels),
        }
    }
    tasks
}

/// A count with 18 entries beside it. Entries past the count may be anything, and the count may be
/// out of range.
pub fn edge_count_and_entries(random: &mut Random, levels: &Levels) -> (u64, Vec<Task>) {
    let mut tasks = edge_list(random, levels);
    let count = match random.below(8) {
        0 => random.pick(&[0, 1, 16, 17, 18, 255, 256, 65_537, 1 << 32, u64::MAX]),
        _ => tasks.len() as u64,
    };
    while tasks.len() < 18 {
        tasks.push(Task {
            period: edge_value(random, LARGEST_PERIOD),
            worst: edge_value(random, LARGEST_WORST),
            fixed: edge_value(random, LARGEST_FIXED),
            floor: edge_floor(random, levels),
        });
    }
    (count, tasks)
}

/// A floor at, near or far past the highest level of the table. Some would be one of its levels with
/// high bits left out.
fn edge_floor(random: &mut Random, levels: &Levels) -> u64 {
    let (top, count) = (levels.top() as u64, levels.count() as u64);
    let near = [0, 1, top, count, count + 1, 7, 8];
    let far = [
        8 + top,
        15,
        16,
        255,
        256,
        1 << 16,
        1 << 31,
        u64::from(u32::MAX),
        1 << 32,
        u64::MAX,
    ];
    match random.below(3) {
        0 => random.pick(&far),
        _ => random.pick(&near),
    }
}

/// A value at, near or far past the ends of the range from 1 to the largest.
fn edge_value(random: &mut Random, largest: u64) -> u64 {
    let near = [
        0,
        1,
        2,
        largest - 1,
        largest,
        largest + 1,
        largest + 2,
        2 * largest,
    ];
    let far = [
        1 << 16,
        1 << 20,
        1 << 24,
        1 << 32,
        (1 << 32) + 10,
        u64::MAX - 1,
        u64::MAX,
    ];
    match random.below(3) {
        0 => random.pick(&near),
        1 => random.pick(&far),
        _ => random.between(1, largest),
    }
}

/// Tries until a try gives something. A hundred or so are mostly enough, so after very many the
/// thing sought can't be there at all.
fn until_found<T>(mut attempt: impl FnMut() -> Option<T>) -> T {
    for _ in 0..TRIES {
        if let Some(found) = attempt() {
            return found;
        }
    }
    panic!("nothing found in {TRIES} tries")
}

/// All divisors of the base that can be a period.
fn usable_periods(base: u64) -> Vec<u64> {
    (1..=LARGEST_PERIOD.min(base))
        .filter(|period| base % period == 0)
        .collect()
}

fn hyperperiod_of(periods: &[u64]) -> Option<u64> {
    let tasks: Vec<Task> = periods
        .iter()
        .map(|period| Task {
            period: *period,
            worst: 1,
            fixed: 0,
            floor: 0,
        })
        .collect();
    hyperperiod(&tasks)
}

/// The longest allotment at a speed that a worst case in range can have, its last tick fully used.
fn longest_allotment(speed: u64) -> u64 {
    LARGEST_WORST / speed
}

/// Ticks for each task, with a sum that a level of this speed admits; or nothing if even one tick
/// each is too much.
fn random_allotments(random: &mut Random, periods: &[u64], speed: u64) -> Option<Vec<u64>> {
    let hyperperiod = hyperperiod_of(periods)?;
    let least: u64 = periods.iter().map(|period| hyperperiod / period).sum();
    let mut room = hyperperiod.checked_sub(least)?;
    let mut allotments = vec![1; periods.len()];
    for _ in 0..random.below(60) {
        let place = random.place(periods.len());
        let weight = hyperperiod / periods[place];
        let most = (room / weight).min(longest_allotment(speed) - allotments[place]);
        if most > 0 {
            let more = random.between(1, most);
            allotments[place] += more;
            room -= more * weight;
        }
    }
    Some(allotments)
}

/// Whether a plan is sought that has fixed ticks. Many a plan has no room for them, so with two of
/// three about half of the plans found have some.
fn tries_fixed(random: &mut Random) -> bool {
    !random.one_in(3)
}

/// None if the plan is to have none; else none, the most that there can be, or any between.
fn some_fixed(random: &mut Random, with_fixed: bool, most: u64) -> u64 {
    let most = most.min(LARGEST_FIXED);
    if !with_fixed {
        return 0;
    }
    match random.below(4) {
        0 => 0,
        1 => most,
        _ => random.between(0, most),
    }
}

/// Tasks that take exactly these ticks at the speed, without floors. If told so, some of the ticks are
/// fixed ones. As these are the same at the speeds below, a plan at a level is harder to find with them,
/// so now and then there are none all the same.
fn tasks_with(
    random: &mut Random,
    periods: &[u64],
    ticks: &[u64],
    speed: u64,
    with_fixed: bool,
) -> Vec<Task> {
    let with_fixed = with_fixed && !random.one_in(16);
    let mut tasks = Vec::new();
    for (period, ticks) in periods.iter().zip(ticks) {
        // Every job has some work, which takes a tick at least.
        let fixed = some_fixed(random, with_fixed, ticks - 1);
        // A last tick that is only partly used is a tick all the same.
        let unused = if random.one_in(2) {
            0
        } else {
            random.below(speed)
        };
        tasks.push(Task {
            period: *period,
            worst: (ticks - fixed) * speed - unused,
            fixed,
            floor: 0,
        });
    }
    tasks
}

/// At most 16 periods with this least common multiple, or nothing if a prime power in it is too
/// large for a period.
fn periods_with_hyperperiod(random: &mut Random, multiple: u64) -> Option<Vec<u64>> {
    let powers = prime_powers(multiple);
    if powers.iter().any(|power| *power > LARGEST_PERIOD) {
        return None;
    }
    let usable = usable_periods(multiple);
    let free = random.below(LARGEST_COUNT + 1 - powers.len() as u64);
    let mut periods = powers;
    for _ in 0..free {
        periods.push(random.pick(&usable));
    }
    // Not always the prime powers first.
    for place in 0..periods.len() {
        let other = random.place(periods.len());
        periods.swap(place, other);
    }
    Some(periods)
}

/// 12 gives 4 and 3.
fn prime_powers(number: u64) -> Vec<u64> {
    let mut powers = Vec::new();
    let mut rest = number;
    let mut prime = 2;
    while rest > 1 {
        let mut power = 1;
        while rest % prime == 0 {
            rest /= prime;
            power *= prime;
        }
        if power > 1 {
            powers.push(power);
        }
        prime += 1;
    }
    powers
}

/// A plan without floors whose admission sum at the speed is the hyperperiod plus the extra ticks.
fn plan_with_sum(random: &mut Random, speed: u64, extra: u64) -> Vec<Task> {
    let base = random.pick(&FULL_BASES);
    let usable = usable_periods(base);
    let with_fixed = tries_fixed(random);
    until_found(|| {
        let (periods, ticks) = shares(random, &usable, base, base + extra, speed)?;
        let longest = longest_allotment(speed);
        if !ticks.iter().all(|own| (1..=longest).contains(own)) {
            return None;
        }
        let tasks = tasks_with(random, &periods, &ticks, speed, with_fixed);
        let sum = admission_sum(&tasks, base, speed);
        (hyperperiod(&tasks) == Some(base) && sum == base + extra).then_some(tasks)
    })
}

/// Periods, and ticks for each that come to the given sum over a hyperperiod of the base: the first
/// tasks take some of it, the last ones exactly what is left.
fn shares(
    random: &mut Random,
    usable: &[u64],
    base: u64,
    sum: u64,
    speed: u64,
) -> Option<(Vec<u64>, Vec<u64>)> {
    let longest = longest_allotment(speed);
    let count = random.between(0, 14);
    let mut periods: Vec<u64> = (0..count).map(|_| random.pick(usable)).collect();
    let mut ticks = Vec::new();
    let mut left = sum;
    for period in &periods {
        let most = (left / 2 / (base / period)).min(longest);
        let own = random.between(1, most.max(1));
        ticks.push(own);
        left = left.checked_sub(own * (base / period))?;
    }
    if base <= LARGEST_PERIOD {
        periods.push(base);
        ticks.push(left);
    } else {
        let (a, b) = split_in_two(left, longest)?;
        periods.extend([62_500, 40_000]);
        ticks.extend([a, b]);
    }
    Some((periods, ticks))
}

/// Ticks for a task of period 62,500 and one of period 40,000 that come to the given sum over
/// 1,000,000 ticks, where they have 16 and 25 jobs.
fn split_in_two(sum: u64, longest: u64) -> Option<(u64, u64)> {
    for a in 1..=longest {
        let first = 16 * a;
        if first < sum && (sum - first) % 25 == 0 && (sum - first) / 25 <= longest {
            return Some((a, (sum - first) / 25));
        }
    }
    None
}
