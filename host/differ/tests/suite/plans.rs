//! Random plans, judged, written, read and copied on both sides.

use crate::both::{Both, Call, ACCEPTED, NUMBERS};
use crate::made::{loose_plan, nearby, numbers_of, put_tasks, some_room};
use sim::block::{block_bytes, Edition};
use sim::levels::{Levels, MOST_LEVELS};
use sim::plan::{Task, LARGEST_FIXED, LARGEST_PERIOD, LARGEST_WORST};
use sim::random::plans::{
    edge_count_and_entries, full_plan, plan_above_largest_hyperperiod, plan_at_largest_hyperperiod,
    plan_at_level, plan_one_over, plan_one_unit_over,
};
use sim::random::tables::levels_of_count;
use sim::random::Random;

/// The calls that are put to a list of tasks.
const PLAN_CALLS: [Call; 4] = [Call::Judge, Call::Read, Call::Write, Call::Copy];

/// Would catch a level or a hyperperiod that is wrong for some plan, a task or a field that is
/// packed wrongly at some place, and a plan refused for no reason. Their neighbours would catch an
/// edge that is off by one.
#[test]
fn accepted_plans_at_every_level_and_their_neighbours() {
    let levels = Levels::base();
    let mut both = Both::new(&levels);
    let mut random = Random::new(101);
    for level in 0..levels.count() {
        for _ in 0..700 {
            let tasks = plan_at_level(&mut random, &levels, level);
            let judged = put_tasks(&mut both, &mut random, &tasks);
            assert_eq!(judged.map(|judged| judged.level), Ok(level as u64));
            for _ in 0..4 {
                let near = nearby(&mut random, &tasks);
                let _ = put_tasks(&mut both, &mut random, &near);
            }
        }
    }
    both.saw("accepted plans and neighbours", 79_000);
    for call in [Call::Judge, Call::Read] {
        both.wants(call, ACCEPTED, 10_000);
        both.wants(call, 3, 200);
        both.wants(call, 6, 150);
        both.wants(call, 7, 500);
        both.wants(call, 8, 250);
    }
    both.wants(Call::Write, 9, 2_500);
    both.wants(Call::Copy, 9, 2_500);
    both.wants_editions(&PLAN_CALLS, 2_000);
}

/// The same with the speeds of other boards: would catch a speed that is still 01's, one taken from
/// another place of the block, and a level that the table doesn't have.
#[test]
fn accepted_plans_of_any_table_and_their_neighbours() {
    let mut both = Both::new(&Levels::base());
    let mut random = Random::new(107);
    let mut at_level = [0; MOST_LEVELS as usize];
    for round in 0..4_000 {
        let levels = levels_of_count(&mut random, 1 + round % MOST_LEVELS as usize);
        both.load(&levels);
        assert_eq!(both.read_levels(), Ok(levels.count() as u64));
        let level = random.place(levels.count());
        let tasks = plan_at_level(&mut random, &levels, level);
        let judged = put_tasks(&mut both, &mut random, &tasks);
        assert_eq!(judged.map(|judged| judged.level), Ok(level as u64));
        at_level[level] += 1;
        for _ in 0..4 {
            let near = nearby(&mut random, &tasks);
            let _ = put_tasks(&mut both, &mut random, &near);
        }
    }
    both.saw("accepted plans of any table and neighbours", 83_000);
    for call in [Call::Judge, Call::Read] {
        both.wants(call, ACCEPTED, 9_000);
        for number in [6, 7, 8, 24] {
            both.wants(call, number, 200);
        }
    }
    both.wants_editions(&PLAN_CALLS, 2_000);
    assert!(at_level.iter().all(|times| *times > 30), "{at_level:?}");
}

/// Would catch a limit on the hyperperiod that is off by a little, a multiple that is not the
/// least, and a limit that depends on the order of the tasks.
#[test]
fn plans_around_the_largest_hyperperiod() {
    let levels = Levels::base();
    let mut both = Both::new(&levels);
    let mut random = Random::new(102);
    for _ in 0..1_800 {
        let at = plan_at_largest_hyperperiod(&mut random, &levels);
        let judged = put_tasks(&mut both, &mut random, &at);
        assert_eq!(judged.map(|judged| judged.hyperperiod), Ok(1_000_000));
        let above = plan_above_largest_hyperperiod(&mut random, &levels);
        assert_eq!(put_tasks(&mut both, &mut random, &above), Err(7));
    }
    both.saw("largest hyperperiod", 12_000);
    both.wants(Call::Judge, ACCEPTED, 1_500);
    both.wants(Call::Judge, 7, 1_500);
    both.wants_editions(&PLAN_CALLS, 300);
}

/// A plan that fills its hyperperiod at a level, one a tick over and one a unit over; returns the
/// last.
fn around_the_full_sum(
    both: &mut Both,
    random: &mut Random,
    levels: &Levels,
    level: usize,
) -> Vec<Task> {
    let full = full_plan(random, levels, level);
    let judged = put_tasks(both, random, &full);
    assert!(judged.map_or(false, |judged| judged.level <= level as u64));
    let over = plan_one_over(random, levels, level);
    let judged = put_tasks(both, random, &over);
    assert_ne!(judged.map(|judged| judged.level), Ok(level as u64));
    let unit = plan_one_unit_over(random, levels, level);
    let judged = put_tasks(both, random, &unit);
    if level == levels.top() {
        assert_eq!(judged, Err(8));
    } else {
        assert_eq!(judged.map(|judged| judged.level), Ok(level as u64 + 1));
    }
    unit
}

/// Would catch an admission sum that is off by one or is cut, a time needed that is rounded down,
/// fixed ticks left out of it or scaled, and a speed that is wrong at one level.
#[test]
fn plans_around_the_full_sum() {
    let levels = Levels::base();
    let mut both = Both::new(&levels);
    let mut random = Random::new(103);
    for level in 0..levels.count() {
        for _ in 0..400 {
            let _ = around_the_full_sum(&mut both, &mut random, &levels, level);
        }
    }
    both.saw("full sum", 38_000);
    both.wants(Call::Judge, ACCEPTED, 5_000);
    both.wants(Call::Judge, 8, 800);
    both.wants_editions(&PLAN_CALLS, 1_000);
}

/// The same with the speeds of other boards: the slowest, the fastest, and ones next to each other.
#[test]
fn plans_around_the_full_sum_of_any_table() {
    let mut both = Both::new(&Levels::base());
    let mut random = Random::new(108);
    for round in 0..1_600 {
        let levels = levels_of_count(&mut random, 1 + round % MOST_LEVELS as usize);
        both.load(&levels);
        let level = random.place(levels.count());
        let unit = around_the_full_sum(&mut both, &mut random, &levels, level);
        // The same plan where every speed is a unit faster.
        let near: Vec<u64> = levels.speeds().iter().map(|speed| speed + 1).collect();
        if let Some(near) = Levels::of(&near) {
            both.load(&near);
            let _ = put_tasks(&mut both, &mut random, &unit);
        }
    }
    both.saw("full sum of any table", 23_000);
    both.wants(Call::Judge, ACCEPTED, 3_000);
    both.wants(Call::Judge, 8, 800);
    both.wants_editions(&PLAN_CALLS, 800);
}

/// Would catch a plan judged with some of the speeds alone: the verdict goes with the fastest speed,
/// the level with all of them.
#[test]
fn one_plan_with_many_tables() {
    let mut both = Both::new(&Levels::base());
    let mut random = Random::new(109);
    for _ in 0..300 {
        let own = both.load_some(&mut random);
        let level = random.place(own.count());
        let tasks = plan_at_level(&mut random, &own, level);
        for _ in 0..20 {
            both.load_some(&mut random);
            let _ = put_tasks(&mut both, &mut random, &tasks);
        }
    }
    both.saw("one plan with many tables", 24_000);
    both.wants(Call::Judge, ACCEPTED, 1_000);
    both.wants(Call::Judge, 8, 1_000);
    both.wants(Call::Judge, 24, 500);
    both.wants(Call::Read, 24, 500);
    both.wants_editions(&PLAN_CALLS, 300);
}

/// Whether fixed ticks past their range are all that 6 says no to.
fn only_fixed_is_out(count: usize, entries: &[Task]) -> bool {
    let in_range = |task: &Task| {
        (1..=LARGEST_PERIOD).contains(&task.period) && (1..=LARGEST_WORST).contains(&task.worst)
    };
    let plan = entries.get(..count).unwrap_or(&[]);
    plan.iter().all(in_range) && plan.iter().any(|task| task.fixed > LARGEST_FIXED)
}

/// Whether a floor that is no level of the table is all that 24 says no to, and the ranges say nothing.
fn only_a_floor_is_out(levels: &Levels, count: usize, entries: &[Task]) -> bool {
    let in_range = |task: &Task| {
        (1..=LARGEST_PERIOD).contains(&task.period)
            && (1..=LARGEST_WORST).contains(&task.worst)
            && task.fixed <= LARGEST_FIXED
    };
    let plan = entries.get(..count).unwrap_or(&[]);
    plan.iter().all(in_range) && plan.iter().any(|task| task.floor >= levels.count() as u64)
}

/// Would catch a range off by one, a field or a count cut to fewer bits, and entries past the count
/// that are looked at. A floor far out of range is 24 and never 6.
#[test]
fn fields_and_counts_at_their_edges() {
    let mut both = Both::new(&Levels::base());
    let mut random = Random::new(104);
    let (mut fixed_out, mut floor_out) = (0, 0);
    for _ in 0..15_000 {
        let levels = both.load_some(&mut random);
        let (count, entries) = edge_count_and_entries(&mut random, &levels);
        let count = count as usize;
        let mut numbers = numbers_of(&entries);
        let judged = both.judge(count, &numbers);
        if only_fixed_is_out(count, &entries) && count <= 16 {
            assert_eq!(judged, Err(6));
            fixed_out += 1;
        }
        if only_a_floor_is_out(&levels, count, &entries) && count <= 16 {
            assert_eq!(judged, Err(24));
            floor_out += 1;
        }
        let plan = &entries[..count.min(16)];
        let needed = block_bytes(Edition::of_tasks(plan), plan.len() as u64);
        let _ = both.write(count, &numbers, some_room(&mut random, needed));
        // The same with some numbers missing.
        numbers.truncate(random.place(numbers.len()));
        let _ = both.judge(count, &numbers);
        let _ = both.write(count, &numbers, some_room(&mut random, needed));
    }
    both.saw("edges of fields and counts", 60_000);
    for call in [Call::Judge, Call::Write] {
        both.wants(call, ACCEPTED, 3_000);
        both.wants(call, 3, 500);
        both.wants(call, 6, 3_000);
        both.wants(call, 8, 50);
        both.wants(call, 24, 1_000);
    }
    both.wants_editions(&[Call::Judge, Call::Write], 500);
    assert!(fixed_out > 1_000, "{fixed_out}");
    assert!(floor_out > 1_000, "{floor_out}");
}

/// Would catch a list that is read past its end, where more good numbers stand, one that is not
/// read up to it, and a count that some list lets through.
#[test]
fn every_count_with_a_list_of_every_length() {
    let levels = Levels::base();
    let mut both = Both::new(&levels);
    let mut random = Random::new(105);
    let additions = [
        (1, 0, 0),
        (1_000, 0, 7),
        (1, 255, 0),
        (1_000, 7, 3),
        (1_000, 0, 0),
    ];
    for count in 0..=31 {
        for length in 0..=80 {
            for (worst, fixed, floor) in additions {
                let mut good = [[16_000, worst, fixed, floor]; 32].concat();
                // The last task's fixed ticks and its floor may be missing: it has none then.
                let enough = (1..=16).contains(&count) && length + 2 >= NUMBERS * count;
                assert_eq!(both.judge(count, &good[..length]).is_ok(), enough);
                let written = both.write(count, &good[..length], 100);
                assert_eq!(written.is_ok(), enough);
                // A zero matters exactly if a task of the plan has it as its period or its worst case.
                let place = random.place(good.len());
                good[place] = 0;
                let holed = both.judge(count, &good[..length]);
                let matters = place < NUMBERS * count && place % NUMBERS < 2;
                assert_eq!(holed.is_ok(), enough && !matters);
                // A number far out of range matters wherever a task of the plan has it. As a floor it is
                // told by its own number.
                good[place] = 1 << 20;
                let heavy = both.judge(count, &good[..length]);
                let seen = place < NUMBERS * count && place < length;
                assert_eq!(heavy.is_ok(), enough && !seen);
                let as_floor = enough && seen && place % NUMBERS == 3;
                assert_eq!(heavy == Err(24), as_floor);
            }
        }
    }
    both.saw("counts and lengths of lists", 51_000);
    both.wants_editions(&[Call::Judge, Call::Write], 700);
    both.wants(Call::Judge, ACCEPTED, 700);
    both.wants(Call::Judge, 3, 1_000);
    both.wants(Call::Judge, 6, 1_000);
    both.wants(Call::Judge, 24, 100);
}

/// Would catch a wrong least common multiple or sum where nothing was chosen to come out even.
#[test]
fn loose_plans() {
    let levels = Levels::base();
    let mut both = Both::new(&levels);
    let mut random = Random::new(106);
    for _ in 0..20_000 {
        let tasks = loose_plan(&mut random);
        let _ = put_tasks(&mut both, &mut random, &tasks);
    }
    both.saw("loose plans", 80_000);
    for number in [ACCEPTED, 7, 8] {
        both.wants(Call::Judge, number, 2_000);
        both.wants(Call::Read, number, 2_000);
    }
    both.wants_editions(&PLAN_CALLS, 500);
}
