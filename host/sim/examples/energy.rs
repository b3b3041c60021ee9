//! Compares the energy of three dispatchers on random plans: one that always runs at the nominal level,
//! one with 01's allowance alone, and the simulator's, with the gap of 02's No. 4. Then it says what a
//! floor (02, No. 8) under the valve costs, and under every task, beside the same plans without one. A tick
//! costs the cube of its speed, an idle one nothing. 01's eight speeds, no fixed ticks.
//!
//! `cargo run --release --offline -p sim --example energy`

use sim::dispatch::{choose_with, pass, start, Rule};
use sim::knee::VALVE;
use sim::layout::{self, STATE_BYTES};
use sim::numbers::div_ceil;
use sim::plan::{judge_list, Judged, Task};
use sim::random::blocks::block_of;
use sim::random::Random;
use sim::schedule::first_arrival_after;
use sim::state::unpack;
use sim::Levels;

/// The real work of a job is its worst case divided by one of these.
const RATIOS: [u64; 4] = [1, 2, 5, 10];
/// As every job of a task has the same real work, one hyperperiod is like the next.
const HYPERPERIODS: u64 = 3;
const PLANS_OF_16: usize = 240;
const PLANS_OF_FEW: usize = 400;
/// Of the plans with floors there are seven runs each, for one task and for all.
const PLANS_WITH_FLOORS: usize = 80;

/// Divisors of 2,520.
const PERIODS: [u64; 30] = [
    30, 35, 36, 40, 42, 45, 56, 60, 63, 70, 72, 84, 90, 105, 120, 126, 140, 168, 180, 210, 252,
    280, 315, 360, 420, 504, 630, 840, 1_260, 2_520,
];

/// How the level of a new order is chosen.
#[derive(Clone, Copy, PartialEq, Eq)]
enum Dispatcher {
    Nominal,
    By(Rule),
}

#[derive(Clone)]
struct Plan {
    tasks: Vec<Task>,
    judged: Judged,
}

/// What a run took.
#[derive(Clone, Copy, Default)]
struct Spent {
    energy: u64,
    ticks: u64,
    ticks_run: u64,
    /// Ticks of lone jobs at a level below the one that 01's allowance would have had.
    slower: u64,
}

/// An accepted plan of so many tasks with this nominal level: random periods, and random shares of the
/// time at that level.
fn random_plan(random: &mut Random, levels: &Levels, count: usize, level: usize) -> Plan {
    loop {
        let shares: Vec<u64> = (0..count).map(|_| random.between(1, 100)).collect();
        let whole: u64 = shares.iter().sum();
        let mut tasks = Vec::new();
        for share in shares {
            let period = random.pick(&PERIODS);
            let ticks = (period * share / whole).max(1);
            let unused = random.below(levels.speed(level));
            tasks.push(Task {
                period,
                worst: ticks * levels.speed(level) - unused,
                fixed: 0,
                floor: 0,
            });
        }
        match judge_list(levels, &tasks) {
            Ok(judged) if judged.nominal == level => return Plan { tasks, judged },
            _ => {}
        }
    }
}

/// A run in which each job finishes when its real work is done. A pass ends at a finish or at an
/// arrival, so after each the order is a new one.
fn spend(levels: &Levels, plan: &Plan, dispatcher: Dispatcher, ratio: u64) -> Spent {
    let mut state = [0; STATE_BYTES];
    start(levels, &block_of(&plan.tasks), &[], &mut state).expect("the plan is an accepted one");
    let real_work = |task: &Task| div_ceil(task.worst, ratio);
    let mut real: Vec<u64> = plan.tasks.iter().map(real_work).collect();
    let mut spent = Spent::default();
    let end = HYPERPERIODS * plan.judged.hyperperiod;
    while spent.ticks < end {
        let gap = first_arrival_after(&plan.tasks, spent.ticks) - spent.ticks;
        let (mut d, mut finished) = (gap, false);
        if let Some((task, level, slower)) = order_of(dispatcher, plan, &mut state) {
            let speed = levels.speed(level);
            let needed = div_ceil(real[task], speed);
            finished = needed <= gap;
            d = needed.min(gap);
            real[task] -= (d * speed).min(real[task]);
            spent.energy += d * speed.pow(3);
            spent.ticks_run += d;
            spent.slower += if slower { d } else { 0 };
        }
        pass(&mut state, d as u32, finished).expect("the pass follows the order");
        spent.ticks += d;
        for (task, real) in plan.tasks.iter().zip(&mut real) {
            if spent.ticks % task.period == 0 {
                *real = real_work(task);
            }
        }
    }
    spent
}

/// The task and level of the new order, and whether the level is below that of 01's allowance. The
/// simulator has chosen it by No. 4; by another rule the level is a higher one, no higher than
/// nominal, and so the state with it is as sound.
fn order_of(
    dispatcher: Dispatcher,
    plan: &Plan,
    state: &mut [u8; STATE_BYTES],
) -> Option<(usize, usize, bool)> {
    let now = unpack(state).expect("the simulator leaves a state that can be unpacked");
    let base = choose_with(&now, Rule::Base)?;
    let level = match dispatcher {
        Dispatcher::Nominal => plan.judged.nominal,
        Dispatcher::By(rule) => choose_with(&now, rule)?.level,
    };
    layout::LEVEL.put(state, level as u64);
    Some((base.task, level, level < base.level))
}

/// Of many plans, each counting alike: energy by 01's allowance and with the gap, in parts of the
/// nominal level's; with the gap in parts of 01's; and the sums of what was spent with the gap.
#[derive(Default)]
struct Row {
    base: f64,
    gap: f64,
    gap_to_base: f64,
    sums: Spent,
}

fn row(levels: &Levels, plans: &[Plan], ratio: u64) -> Row {
    let mut row = Row::default();
    let part =
        |spent: Spent, of: Spent| spent.energy as f64 / of.energy as f64 / plans.len() as f64;
    for plan in plans {
        let nominal = spend(levels, plan, Dispatcher::Nominal, ratio);
        let base = spend(levels, plan, Dispatcher::By(Rule::Base), ratio);
        let gap = spend(levels, plan, Dispatcher::By(Rule::LoneGap), ratio);
        row.base += part(base, nominal);
        row.gap += part(gap, nominal);
        row.gap_to_base += part(gap, base);
        row.sums.ticks += gap.ticks;
        row.sums.ticks_run += gap.ticks_run;
        row.sums.slower += gap.slower;
    }
    row
}

/// Plans of so many tasks, their nominal levels taken in turn.
fn plans(random: &mut Random, levels: &Levels, count: usize, how_many: usize) -> Vec<Plan> {
    (0..how_many)
        .map(|place| random_plan(random, levels, count, place % levels.count()))
        .collect()
}

fn print_table(levels: &Levels, plans: &[Plan], count: usize) {
    let rows: Vec<(u64, Row)> = RATIOS
        .into_iter()
        .map(|ratio| (ratio, row(levels, plans, ratio)))
        .collect();
    let ticks = rows[0].1.sums.ticks;
    println!(
        "{count} tasks: {} plans, {ticks} ticks with each ratio and rule",
        plans.len()
    );
    println!();
    println!("| ratio | 01's rule / nominal | No. 4 / nominal | No. 4 / 01's rule |");
    println!("|---|---|---|---|");
    for (ratio, row) in &rows {
        let (base, gap, gap_to_base) = (row.base, row.gap, row.gap_to_base);
        println!("| {ratio} | {base:.3} | {gap:.3} | {gap_to_base:.3} |");
    }
    println!();
    println!("A lone job ran slower than by 01's rule:");
    println!();
    for (ratio, row) in &rows {
        let share = |of: u64| 100.0 * row.sums.slower as f64 / of as f64;
        let (run, all) = (share(row.sums.ticks_run), share(row.sums.ticks));
        println!("- ratio {ratio}: {run:.1} % of the ticks run, {all:.1} % of all ticks");
    }
    println!();
}

/// The plan with this floor under the valve, or under every task.
fn with_floor(plan: &Plan, floor: usize, all: bool) -> Plan {
    let mut floored = plan.clone();
    for (task, numbers) in floored.tasks.iter_mut().enumerate() {
        if all || task == VALVE {
            numbers.floor = floor as u64;
        }
    }
    floored
}

/// What a plan spends with each ratio.
fn energies(levels: &Levels, plan: &Plan) -> Vec<u64> {
    let rule = Dispatcher::By(Rule::LoneGap);
    let energy = |ratio| spend(levels, plan, rule, ratio).energy;
    RATIOS.into_iter().map(energy).collect()
}

/// Energy with a floor in parts of that without it, for each ratio, of one plan.
type Parts = Vec<f64>;

fn parts(levels: &Levels, plan: &Plan, without: &[u64], floor: usize, all: bool) -> Parts {
    let with = energies(levels, &with_floor(plan, floor, all));
    let part = |(with, without): (&u64, &u64)| *with as f64 / *without as f64;
    with.iter().zip(without).map(part).collect()
}

/// The mean over plans, in words for a row of a table.
fn mean(parts: &[&Parts]) -> String {
    let mean = |place: usize| {
        let sum: f64 = parts.iter().map(|of_plan| of_plan[place]).sum();
        format!("{:.3}", sum / parts.len() as f64)
    };
    let means: Vec<String> = (0..RATIOS.len()).map(mean).collect();
    means.join(" | ")
}

/// A floor may be far above the nominal level of a plan, and then it is most of what the plan costs. So
/// the plans whose nominal level is no lower are told once more by themselves.
fn print_floors(levels: &Levels, plans: &[Plan], count: usize, all: bool) {
    let whose = if all { "every task" } else { "the valve" };
    println!(
        "{count} tasks, a floor under {whose}: energy in parts of that without it, {} plans",
        plans.len()
    );
    println!();
    let told = |of: &str| RATIOS.map(|ratio| format!("{of}ratio {ratio}")).join(" | ");
    let (of_all, of_some) = (told("all plans, "), told("nominal no lower, "));
    println!("| floor | {of_all} | {of_some} |");
    println!("|---|{}", "---|".repeat(2 * RATIOS.len()));
    let without: Vec<Vec<u64>> = plans.iter().map(|plan| energies(levels, plan)).collect();
    for floor in 1..levels.count() {
        let of_plan = |(plan, without): (&Plan, &Vec<u64>)| {
            let is_within = floor <= plan.judged.nominal;
            (is_within, parts(levels, plan, without, floor, all))
        };
        let told: Vec<(bool, Parts)> = plans.iter().zip(&without).map(of_plan).collect();
        let every: Vec<&Parts> = told.iter().map(|(_, parts)| parts).collect();
        let within = told.iter().filter(|(is_within, _)| *is_within);
        let within: Vec<&Parts> = within.map(|(_, parts)| parts).collect();
        println!("| {floor} | {} | {} |", mean(&every), mean(&within));
    }
    println!();
}

fn main() {
    let levels = Levels::base();
    let mut random = Random::new(5_003);
    println!("Energy in parts of another rule's, the mean over the plans. Nominal levels 0 to 7 in turn.");
    println!();
    for (count, how_many) in [(16, PLANS_OF_16), (6, PLANS_OF_FEW), (3, PLANS_OF_FEW)] {
        let plans = plans(&mut random, &levels, count, how_many);
        print_table(&levels, &plans, count);
    }
    for count in [16, 4] {
        let plans = plans(&mut random, &levels, count, PLANS_WITH_FLOORS);
        for all in [false, true] {
            print_floors(&levels, &plans, count, all);
        }
    }
}
