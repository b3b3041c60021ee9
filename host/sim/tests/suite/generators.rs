//! The random helpers give what they promise.

use crate::base::{admission_sum, judge, judge_list, read_plan, start, write_plan};
use sim::dispatch::{pass, show};
use sim::job::time_needed;
use sim::layout::STATE_BYTES;
use sim::levels::Levels;
use sim::plan::Task;
use sim::random::blocks::{bench_input, block_of, block_of_no_additions, damaged_block};
use sim::random::lone::{
    crowded_state, lone_state, sound_lone_state, with_another_job_open, Crowded, Lone,
};
use sim::random::passes::{any_pass, likely_pass};
use sim::random::plans::{
    edge_count_and_entries, edge_list, full_plan, plan_above_largest_hyperperiod,
    plan_at_largest_hyperperiod, plan_at_level, plan_at_level_within, plan_one_over,
    plan_one_unit_over, valve_plan, BASES, SMALL_BASES,
};
use sim::random::states::{
    forged_state, invented_state, late_state, reached_state, with_a_table_changed,
};
use sim::random::tables::{
    bad_level_block, bad_speeds, damaged_level_block, levels_of_count, some_levels,
    some_or_base_levels,
};
use sim::random::totals::{put_total, replacing_state, ticks_replaced, with_a_total_changed};
use sim::random::Random;
use sim::{read_levels, write_levels};
use std::collections::{BTreeMap, BTreeSet};

fn is_sound(state: &[u8]) -> bool {
    sim::dispatch::sound(state).is_some()
}

/// A plan with a short hyperperiod, with the levels taken in turn.
fn small_plan(random: &mut Random, round: usize) -> Vec<Task> {
    let levels = Levels::base();
    let base = random.pick(&SMALL_BASES);
    plan_at_level_within(random, &levels, round % levels.count(), base)
}

#[test]
fn splitmix64_gives_its_known_numbers() {
    // The first numbers of the published generator for seed 1234567.
    let mut random = Random::new(1_234_567);
    assert_eq!(random.number(), 6_457_827_717_110_365_317);
    assert_eq!(random.number(), 3_203_168_211_198_807_973);
    assert_eq!(random.number(), 9_817_491_932_198_370_423);
}

#[test]
fn plans_have_the_level_chosen() {
    let levels = Levels::base();
    let mut random = Random::new(1);
    for base in BASES.into_iter().chain(SMALL_BASES) {
        for level in 0..levels.count() {
            let tasks = plan_at_level_within(&mut random, &levels, level, base);
            let judged = judge_list(&tasks).unwrap();
            assert_eq!(judged.nominal, level);
            assert_eq!(base % judged.hyperperiod, 0);
        }
    }
}

#[test]
fn plans_vary() {
    let levels = Levels::base();
    let mut random = Random::new(2);
    let mut counts = BTreeSet::new();
    let mut hyperperiods = BTreeSet::new();
    for round in 0..400 {
        let tasks = plan_at_level(&mut random, &levels, round % levels.count());
        counts.insert(tasks.len());
        hyperperiods.insert(judge_list(&tasks).unwrap().hyperperiod);
    }
    assert_eq!(counts.len(), 16);
    assert!(hyperperiods.len() > 40);
}

fn has_fixed(tasks: &[Task]) -> bool {
    tasks.iter().any(|task| task.fixed > 0)
}

#[test]
fn plans_come_with_and_without_fixed_ticks() {
    let mut random = Random::new(17);
    let mut seen: BTreeMap<(&str, bool), u32> = BTreeMap::new();
    let mut fixed_ticks = BTreeSet::new();
    let mut counts = BTreeSet::new();
    for round in 0..800 {
        let levels = some_or_base_levels(&mut random);
        let level = random.place(levels.count());
        let plans = [
            ("level", plan_at_level(&mut random, &levels, level)),
            ("small", small_plan(&mut random, round)),
            ("largest", plan_at_largest_hyperperiod(&mut random, &levels)),
            (
                "above",
                plan_above_largest_hyperperiod(&mut random, &levels),
            ),
            ("full", full_plan(&mut random, &levels, level)),
            ("over", plan_one_over(&mut random, &levels, level)),
            ("unit", plan_one_unit_over(&mut random, &levels, level)),
        ];
        for (kind, tasks) in plans {
            *seen.entry((kind, has_fixed(&tasks))).or_default() += 1;
            fixed_ticks.extend(tasks.iter().map(|task| task.fixed));
            if has_fixed(&tasks) {
                counts.insert(tasks.len());
            }
        }
    }
    // Each kind both ways, in all numbers of tasks and of fixed ticks.
    assert_eq!(seen.len(), 14);
    assert!(seen.values().all(|times| *times > 200), "{seen:?}");
    assert_eq!(counts, (1..=16).collect());
    assert_eq!(fixed_ticks, (0..=255).collect());
}

fn has_floor(tasks: &[Task]) -> bool {
    tasks.iter().any(|task| task.floor > 0)
}

/// Where a floor stands, if there is one.
fn kind_of_floor(floor: u64, nominal: usize) -> &'static str {
    match (floor, nominal as u64) {
        (0, _) => "none",
        (floor, nominal) if floor < nominal => "below",
        (floor, nominal) if floor == nominal => "at",
        (floor, nominal) if floor == nominal + 1 => "next",
        _ => "far above",
    }
}

#[test]
fn plans_come_with_and_without_floors() {
    let mut random = Random::new(32);
    let mut seen: BTreeMap<(&str, bool, bool), u32> = BTreeMap::new();
    let mut floors: BTreeMap<&str, u32> = BTreeMap::new();
    for _ in 0..1_200 {
        let levels = some_or_base_levels(&mut random);
        let level = random.place(levels.count());
        let plans = [
            ("level", plan_at_level(&mut random, &levels, level)),
            ("largest", plan_at_largest_hyperperiod(&mut random, &levels)),
            (
                "above",
                plan_above_largest_hyperperiod(&mut random, &levels),
            ),
            ("full", full_plan(&mut random, &levels, level)),
            ("over", plan_one_over(&mut random, &levels, level)),
            ("unit", plan_one_unit_over(&mut random, &levels, level)),
            ("valve", valve_plan(&mut random, &levels)),
        ];
        for (kind, tasks) in plans {
            *seen
                .entry((kind, has_fixed(&tasks), has_floor(&tasks)))
                .or_default() += 1;
            // All of them are levels of the table.
            assert!(tasks.iter().all(|task| task.floor < levels.count() as u64));
            if let Ok(judged) = sim::plan::judge_list(&levels, &tasks) {
                for task in &tasks {
                    let kind = kind_of_floor(task.floor, judged.nominal);
                    *floors.entry(kind).or_default() += 1;
                }
            }
        }
    }
    // Each kind in all four ways.
    assert_eq!(seen.len(), 28, "{seen:?}");
    assert!(seen.values().all(|times| *times > 120), "{seen:?}");
    assert_eq!(floors.len(), 5, "{floors:?}");
    assert!(floors.values().all(|times| *times > 400), "{floors:?}");
}

#[test]
fn plans_around_the_largest_hyperperiod() {
    let levels = Levels::base();
    let mut random = Random::new(3);
    for _ in 0..40 {
        let tasks = plan_at_largest_hyperperiod(&mut random, &levels);
        assert_eq!(judge_list(&tasks).unwrap().hyperperiod, 1_000_000);
        assert_eq!(
            judge_list(&plan_above_largest_hyperperiod(&mut random, &levels)),
            Err(7)
        );
    }
}

#[test]
fn plans_around_the_full_sum() {
    let levels = Levels::base();
    let mut random = Random::new(4);
    let mut hyperperiods = BTreeSet::new();
    for round in 0..160 {
        let level = round % levels.count();
        let full = full_plan(&mut random, &levels, level);
        let judged = judge_list(&full).unwrap();
        assert_eq!(
            admission_sum(&full, judged.hyperperiod, level),
            judged.hyperperiod
        );
        assert!(judged.nominal <= level);
        hyperperiods.insert(judged.hyperperiod);

        let over = plan_one_over(&mut random, &levels, level);
        let unit = plan_one_unit_over(&mut random, &levels, level);
        if level == levels.top() {
            assert_eq!(judge_list(&over), Err(8));
            assert_eq!(judge_list(&unit), Err(8));
        } else {
            let judged = judge_list(&unit).unwrap();
            assert_eq!(judged.nominal, level + 1);
            // A partly used tick can make a lower level no worse, so this one is only not `level`.
            assert_ne!(judge_list(&over).map(|judged| judged.nominal), Ok(level));
        }
    }
    assert!(hyperperiods.contains(&1_000_000));
}

#[test]
fn plans_of_a_valve_are_full() {
    let mut random = Random::new(31);
    let mut seen: BTreeMap<(usize, bool), u32> = BTreeMap::new();
    let mut periods = BTreeSet::new();
    for _ in 0..2_000 {
        let levels = some_or_base_levels(&mut random);
        let plan = valve_plan(&mut random, &levels);
        let judged = sim::plan::judge_list(&levels, &plan).unwrap();
        let valve = plan[0].period;
        periods.insert(valve);
        *seen.entry((plan.len(), has_fixed(&plan))).or_default() += 1;
        if let Some(other) = plan.get(1) {
            assert_eq!(judged.hyperperiod, other.period);
            assert!(other.period > valve);
            // At some level there is no tick to spare.
            let sum = |speed: &u64| sim::plan::admission_sum(&plan, other.period, *speed);
            assert!(levels.speeds().iter().any(|it| sum(it) == other.period));
        }
    }
    assert_eq!(periods, (1..=12).collect());
    assert_eq!(seen.len(), 4, "{seen:?}");
    assert!(seen.values().all(|times| *times > 200), "{seen:?}");
}

#[test]
fn edge_lists_meet_every_answer_and_agree() {
    let levels = Levels::base();
    let mut random = Random::new(5);
    let mut answers = BTreeSet::new();
    let mut editions = BTreeSet::new();
    let (mut refused_for_fixed, mut far_floors) = (0, 0);
    for _ in 0..800 {
        let list = edge_list(&mut random, &levels);
        answers.insert(judge_list(&list).err());
        refused_for_fixed += u32::from(only_fixed_is_out_of_range(&list));
        let is_far = |task: &Task| task.floor > u64::from(u16::MAX);
        far_floors += u32::from(judge_list(&list) == Err(24) && list.iter().any(is_far));
        let (count, entries) = edge_count_and_entries(&mut random, &levels);
        let judged = judge(count, &entries);
        answers.insert(judged.err());
        // Writing says the same, and what is written reads back as the same plan.
        let mut buffer = [0xa5; 100];
        match write_plan(count, &entries, &mut buffer) {
            Ok(length) => {
                editions.insert(buffer[0] >> 4);
                let (tasks, read) = read_plan(&buffer[..length]).unwrap();
                assert_eq!(tasks, entries[..count as usize]);
                assert_eq!(Ok(read), judged);
                assert!(buffer[length..].iter().all(|byte| *byte == 0xa5));
            }
            Err(number) => {
                assert_eq!(judged, Err(number));
                assert_eq!(buffer, [0xa5; 100]);
            }
        }
    }
    assert_eq!(
        answers,
        BTreeSet::from([None, Some(3), Some(6), Some(7), Some(8), Some(24)])
    );
    assert_eq!(editions, BTreeSet::from([1, 2]));
    assert!(refused_for_fixed > 20, "{refused_for_fixed}");
    assert!(far_floors > 15, "{far_floors}");
}

/// Refused with 6, and not if the fixed ticks past 255 were none.
fn only_fixed_is_out_of_range(list: &[Task]) -> bool {
    let mut within = list.to_vec();
    for task in &mut within {
        if task.fixed > 255 {
            task.fixed = 0;
        }
    }
    judge_list(list) == Err(6) && judge_list(&within) != Err(6)
}

#[test]
fn damaged_blocks_meet_every_answer_and_write_back() {
    let levels = Levels::base();
    let mut random = Random::new(6);
    let mut answers = BTreeSet::new();
    let mut editions = BTreeSet::new();
    for round in 0..1_500 {
        let tasks = plan_at_level(&mut random, &levels, round % levels.count());
        let block = damaged_block(&mut random, &block_of(&tasks));
        let read = read_plan(&block);
        answers.insert(read.as_ref().err().copied());
        let mut state = [0xa5; STATE_BYTES];
        let started = start(&block, &mut state);
        match read {
            // An accepted block written again has the same bytes.
            Ok((tasks, _)) => {
                let mut buffer = vec![0; block.len()];
                assert_eq!(
                    write_plan(tasks.len() as u64, &tasks, &mut buffer),
                    Ok(block.len())
                );
                assert_eq!(buffer, block);
                assert!(started.is_ok());
                assert!(is_sound(&state));
                editions.insert(block[0] >> 4);
            }
            Err(number) => {
                assert_eq!(started, Err(number));
                assert_eq!(state, [0xa5; STATE_BYTES]);
            }
        }
    }
    // With eight levels every floor that a block can hold is one of them.
    assert_eq!(answers.len(), 10, "accepted, 1 to 8, 21: {answers:?}");
    assert_eq!(editions, BTreeSet::from([1, 2]));
}

#[test]
fn damaged_blocks_of_edition_2_have_other_floors_or_no_additions() {
    let mut random = Random::new(18);
    let (mut other, mut no_level, mut closing, mut none) = (0, 0, 0, 0);
    for _ in 0..3_000 {
        let levels = some_or_base_levels(&mut random);
        let level = random.place(levels.count());
        let read_plan = |block: &[u8]| sim::plan::read_plan(&levels, block);
        let tasks = plan_at_level(&mut random, &levels, level);
        if !has_fixed(&tasks) && !has_floor(&tasks) {
            assert_eq!(read_plan(&block_of_no_additions(&tasks)), Err(21));
            continue;
        }
        let end = 9 + 47 * tasks.len();
        let block = block_of(&tasks);
        let damaged = damaged_block(&mut random, &block);
        if damaged.len() != block.len() {
            continue;
        }
        let set = |place: usize| damaged[place / 8] & (0x80 >> (place % 8)) != 0;
        match read_plan(&damaged) {
            Err(5) => {
                assert!((end..8 * block.len()).any(set));
                closing += 1;
            }
            Err(21) => none += 1,
            Err(24) => no_level += 1,
            Ok((read, _)) => other += u32::from(floors_of(&read) != floors_of(&tasks)),
            _ => {}
        }
    }
    assert!(
        other > 60 && no_level > 60 && closing > 60 && none > 60,
        "{other} {no_level} {closing} {none}"
    );
}

fn floors_of(tasks: &[Task]) -> Vec<u64> {
    tasks.iter().map(|task| task.floor).collect()
}

/// What a state's order is to its floors, where there is one.
#[test]
fn invented_and_reached_states_have_orders_at_and_above_floors() {
    let mut random = Random::new(33);
    let mut seen: BTreeMap<&str, u32> = BTreeMap::new();
    for round in 0..10_000 {
        let (levels, tasks) = any_plan(&mut random);
        let block = match round % 2 {
            0 => invented_state(&mut random, &levels, &tasks),
            _ => reached_state(&mut random, &levels, &tasks, 12).0,
        };
        assert!(is_sound(&block));
        let state = sim::state::unpack(&block).unwrap();
        assert_eq!(state.tasks(), tasks);
        let order = match state.running {
            Some(order) => order,
            None => continue,
        };
        let judged = sim::plan::judge_list(&levels, &tasks).unwrap();
        let floor = tasks[order.task].floor as usize;
        let kind = match order.level {
            _ if floor == 0 => "none",
            level if level == floor && floor > judged.nominal => "above nominal",
            level if level == floor => "at it",
            _ => "above it",
        };
        *seen.entry(kind).or_default() += 1;
    }
    assert_eq!(seen.len(), 4, "{seen:?}");
    assert!(seen.values().all(|times| *times > 200), "{seen:?}");
}

/// Every floor that four bits hold gets into a state, and whether it is sound then hangs on the table and
/// on the order.
#[test]
fn forged_states_have_every_floor() {
    let mut random = Random::new(34);
    let mut nibbles: BTreeMap<u64, u32> = BTreeMap::new();
    let (mut no_level, mut over_the_order, mut under, mut sound_still) = (0, 0, 0, 0);
    for _ in 0..30_000 {
        let (levels, tasks) = any_plan(&mut random);
        let block = invented_state(&mut random, &levels, &tasks);
        let forged = forged_state(&mut random, &block);
        let before = sim::state::unpack(&block).unwrap();
        let after = match sim::state::unpack(&forged) {
            // Nothing but a floor has changed.
            Some(after) if is_but_for_floors(&before, &after) => after,
            _ => continue,
        };
        for task in 0..tasks.len() {
            if after.tasks()[task].floor != tasks[task].floor {
                *nibbles.entry(after.tasks()[task].floor).or_default() += 1;
            }
        }
        let is_level = |task: &Task| task.floor < levels.count() as u64;
        let floor = after.running.map(|it| after.tasks()[it.task].floor);
        let level = after.running.map(|it| it.level as u64);
        let in_table = after.tasks().iter().all(is_level);
        assert!(in_table || !is_sound(&forged));
        no_level += u32::from(!in_table);
        over_the_order += u32::from(in_table && floor > level);
        under += u32::from(in_table && floor <= level && !is_sound(&forged));
        sound_still += u32::from(is_sound(&forged));
    }
    assert_eq!(nibbles.len(), 16, "{nibbles:?}");
    assert!(nibbles.values().all(|times| *times > 10), "{nibbles:?}");
    // The third kind is an order above nominal whose floor is below it.
    assert!(
        no_level > 100 && over_the_order > 60 && under > 20 && sound_still > 200,
        "{no_level} {over_the_order} {under} {sound_still}"
    );
}

/// Whether two states differ, and in floors alone.
fn is_but_for_floors(one: &sim::state::State, other: &sim::state::State) -> bool {
    let mut same = other.clone();
    if same.entries.len() != one.entries.len() {
        return false;
    }
    for (entry, own) in same.entries.iter_mut().zip(&one.entries) {
        entry.task.floor = own.task.floor;
    }
    same == *one && other != one
}

#[test]
fn reached_late_and_invented_states_are_sound() {
    let levels = Levels::base();
    let mut random = Random::new(7);
    let mut late_answers = BTreeSet::new();
    for round in 0..300 {
        let tasks = small_plan(&mut random, round);
        let (reached, order) = reached_state(&mut random, &levels, &tasks, 30);
        assert!(is_sound(&reached));
        let mut late = late_state(&mut random, &reached);
        assert!(is_sound(&late));
        assert!(is_sound(&invented_state(&mut random, &levels, &tasks)));
        // Led on from there, the largest clock is met sooner or later.
        let mut order = order;
        for _ in 0..20 {
            let (d, finished) = likely_pass(&mut random, order);
            match pass(&mut late, d, finished) {
                Ok(next) => order = next,
                Err(number) => {
                    late_answers.insert(number);
                }
            }
        }
        assert!(is_sound(&late));
    }
    assert!(late_answers.contains(&15));
}

/// Twenty passes of any kind, after each of which the state is sound, and as it was if refused.
fn lead_on(random: &mut Random, state: &mut [u8], answers: &mut BTreeSet<u32>) {
    let mut order = sim::Order::Idle { hold: 3 };
    for _ in 0..20 {
        let before = state.to_vec();
        let (d, finished) = any_pass(random, order);
        match pass(state, d, finished) {
            Ok(next) => order = next,
            Err(number) => {
                answers.insert(number);
                assert_eq!(state, before);
            }
        }
        assert!(is_sound(state));
    }
}

#[test]
fn sound_states_stay_sound_whatever_is_passed() {
    let levels = Levels::base();
    let mut random = Random::new(8);
    let mut answers = BTreeSet::new();
    let (mut still_sound, mut unsound, mut part_of_both) = (0, 0, 0);
    for round in 0..2_400 {
        let tasks = small_plan(&mut random, round);
        let start = match round % 3 {
            0 => invented_state(&mut random, &levels, &tasks),
            _ => reached_state(&mut random, &levels, &tasks, 12).0,
        };
        let mut state = forged_state(&mut random, &start);
        if !is_sound(&state) {
            unsound += 1;
            let before = state.clone();
            assert_eq!(pass(&mut state, 1, false), Err(10));
            assert_eq!(show(&state, &mut [0; 48]), Err(10));
            assert_eq!(state, before);
            continue;
        }
        still_sound += 1;
        let entries = sim::state::unpack(&state).unwrap().entries;
        let partly =
            |entry: &sim::state::Entry| entry.left.fixed > 0 && entry.left.work < entry.task.worst;
        part_of_both += u32::from(entries.iter().any(partly));
        lead_on(&mut random, &mut state, &mut answers);
    }
    assert!(
        still_sound > 400 && unsound > 400,
        "{still_sound} sound, {unsound} not"
    );
    // With fixed ticks left and work below the worst case, which no run can reach.
    assert!(part_of_both > 10, "{part_of_both}");
    assert_eq!(answers, BTreeSet::from([11, 12, 13, 14, 15]));
}

#[test]
fn bench_inputs_have_accepted_and_refused_passes() {
    let levels = Levels::base();
    let mut random = Random::new(9);
    let mut words = BTreeSet::new();
    for round in 0..60 {
        let tasks = small_plan(&mut random, round);
        let input = bench_input(&mut random, &levels, &tasks, 40);
        let lines = String::from_utf8(sim::listing(&input)).unwrap();
        assert!(lines.starts_with("plan "));
        assert!(lines.lines().count() >= 42);
        for line in lines.lines().skip(1) {
            let mut parts = line.split(' ');
            let first = parts.next().unwrap();
            let word = if first == "refused" {
                line
            } else {
                parts.next().unwrap()
            };
            words.insert(word.to_string());
        }
    }
    let expected = [
        "idle",
        "refused 11",
        "refused 12",
        "refused 13",
        "refused 14",
        "refused 16",
        "run",
    ];
    assert_eq!(words, expected.map(String::from).into());
}

#[test]
fn tables_vary_and_have_every_count() {
    let mut random = Random::new(10);
    let mut counts = BTreeSet::new();
    let (mut slowest, mut fastest, mut narrow) = (0, 0, 0);
    for _ in 0..400 {
        let levels = some_levels(&mut random);
        counts.insert(levels.count());
        slowest += u32::from(levels.speed(0) == 1);
        fastest += u32::from(levels.speed(levels.top()) == 1_000);
        narrow += u32::from(levels.speed(levels.top()) <= 20);
    }
    assert_eq!(counts, (1..=8).collect());
    assert!(slowest > 80 && fastest > 80 && narrow > 80);
}

#[test]
fn plans_have_the_level_chosen_in_any_table() {
    let mut random = Random::new(11);
    for _ in 0..60 {
        let levels = some_levels(&mut random);
        for level in 0..levels.count() {
            let nominal =
                |tasks: &[Task]| sim::plan::judge_list(&levels, tasks).map(|it| it.nominal);
            let at = plan_at_level(&mut random, &levels, level);
            assert_eq!(nominal(&at), Ok(level), "{levels:?}");
            let full = full_plan(&mut random, &levels, level);
            assert!(nominal(&full).unwrap() <= level, "{levels:?}");
            // However close the next speed is, it does a tick's one unit more.
            let over = plan_one_unit_over(&mut random, &levels, level);
            let next = level + 1;
            let wanted = if level == levels.top() {
                Err(8)
            } else {
                Ok(next)
            };
            assert_eq!(nominal(&over), wanted, "{levels:?}");
        }
    }
}

#[test]
fn tables_of_a_count_and_01s_now_and_then() {
    let mut random = Random::new(12);
    for count in 1..=8 {
        for _ in 0..20 {
            assert_eq!(levels_of_count(&mut random, count).count(), count);
        }
    }
    let base = (0..400).filter(|_| some_or_base_levels(&mut random) == Levels::base());
    assert!((60..140).contains(&base.count()));
}

#[test]
fn bad_level_blocks_are_refused_as_told() {
    let mut random = Random::new(13);
    for number in [18, 19, 20] {
        let mut lengths = BTreeSet::new();
        let mut counts = BTreeSet::new();
        for _ in 0..800 {
            let block = bad_level_block(&mut random, number);
            assert_eq!(read_levels(&block), Err(number), "{block:02x?}");
            lengths.insert(block.len());
            counts.insert(block.first().map(|byte| byte >> 4));
        }
        // Every count there is for the number, and for 18 no count at all.
        assert_eq!(counts.len(), 8 + usize::from(number == 18), "{counts:?}");
        assert!(lengths.len() >= 8, "{lengths:?}");
    }
    for _ in 0..400 {
        assert_eq!(Levels::of(&bad_speeds(&mut random)), None);
    }
}

#[test]
fn damaged_level_blocks_meet_every_answer() {
    let mut random = Random::new(14);
    let mut answers: BTreeMap<Option<u32>, u32> = BTreeMap::new();
    for _ in 0..2_000 {
        let levels = some_or_base_levels(&mut random);
        let block = damaged_level_block(&mut random, &write_levels(&levels));
        let read = read_levels(&block);
        *answers.entry(read.as_ref().err().copied()).or_default() += 1;
        if let Ok(read) = read {
            assert_eq!(write_levels(&read), block);
        }
    }
    for answer in [None, Some(18), Some(19), Some(20)] {
        assert!(answers[&answer] > 80, "{answers:?}");
    }
}

#[test]
fn changed_tables_of_states_are_of_every_kind() {
    let mut random = Random::new(15);
    let (mut sound_still, mut bad, mut another) = (0, 0, 0);
    for _ in 0..1_500 {
        let levels = some_or_base_levels(&mut random);
        let level = random.place(levels.count());
        let tasks = plan_at_level(&mut random, &levels, level);
        let state = invented_state(&mut random, &levels, &tasks);
        let forged = with_a_table_changed(&mut random, &state);
        // Nothing but the table has changed.
        assert_eq!(forged[..200], state[..200]);
        assert_eq!(forged[217..], state[217..]);
        match sim::state::unpack(&forged) {
            None => bad += 1,
            Some(other) if other.levels != levels => another += 1,
            Some(_) => {}
        }
        sound_still += u32::from(is_sound(&forged) && forged != state);
    }
    assert!(
        bad > 600 && another > 200 && sound_still > 60,
        "{bad} {another} {sound_still}"
    );
}

#[test]
fn states_with_any_table_stay_sound() {
    let mut random = Random::new(16);
    let mut answers = BTreeSet::new();
    for round in 0..600 {
        let levels = some_levels(&mut random);
        let level = random.place(levels.count());
        let base = random.pick(&SMALL_BASES);
        let tasks = plan_at_level_within(&mut random, &levels, level, base);
        let mut state = match round % 3 {
            0 => invented_state(&mut random, &levels, &tasks),
            1 => reached_state(&mut random, &levels, &tasks, 12).0,
            _ => {
                let (reached, _) = reached_state(&mut random, &levels, &tasks, 12);
                late_state(&mut random, &reached)
            }
        };
        assert!(is_sound(&state));
        lead_on(&mut random, &mut state, &mut answers);
        assert_eq!(sim::state::unpack(&state).unwrap().levels, levels);
    }
    assert_eq!(answers, BTreeSet::from([11, 12, 13, 14, 15]));
}

/// A plan of any size with any table or 01's.
fn any_plan(random: &mut Random) -> (Levels, Vec<Task>) {
    let levels = some_or_base_levels(random);
    let level = random.place(levels.count());
    let tasks = match random.below(3) {
        0 => plan_at_level(random, &levels, level),
        _ => {
            let base = random.pick(&SMALL_BASES);
            plan_at_level_within(random, &levels, level, base)
        }
    };
    (levels, tasks)
}

/// What a state has to do with 02's No. 4, found the long way.
struct Told {
    open: usize,
    /// Of the running job: time at nominal, plain ticks left, and time at the order's level.
    nominal_time: u64,
    plain_left: u64,
    order_time: u64,
    gap: u64,
    /// Whether the order's level meets 01's allowance.
    meets_base: bool,
    /// The order's level, its job's floor, and the higher of that and nominal.
    level: usize,
    floor: usize,
    highest: usize,
}

fn told(block: &[u8]) -> Told {
    let state = sim::state::unpack(block).unwrap();
    let tasks = state.tasks();
    let judged = sim::plan::judge_list(&state.levels, &tasks).unwrap();
    let running = state.running.unwrap();
    let entry = state.entries[running.task];
    let time_at = |level| time_needed(entry.left, state.levels.speed(level));
    let deadline = |task: &Task| (state.clock / task.period + 1) * task.period;
    let urgency = |task: usize| {
        let due = deadline(&tasks[task]);
        (due, due - tasks[task].period, task)
    };
    let own = urgency(running.task);
    let at_least_as_urgent = (0..tasks.len()).filter(|task| urgency(*task) <= own);
    let base: u64 = at_least_as_urgent
        .map(|task| state.entries[task].plain_left)
        .sum();
    Told {
        open: state.entries.iter().filter(|it| it.left.work > 0).count(),
        nominal_time: time_at(judged.nominal),
        plain_left: entry.plain_left,
        order_time: time_at(running.level),
        gap: tasks.iter().map(deadline).min().unwrap() - state.clock,
        meets_base: time_at(running.level) <= base,
        level: running.level,
        floor: entry.task.floor as usize,
        highest: judged.nominal.max(entry.task.floor as usize),
    }
}

/// The kind of a state with one open job, as its definition has it.
fn is_of_kind(told: &Told, kind: Lone) -> bool {
    let behind = told.nominal_time > told.plain_left;
    let meets_gap = told.order_time <= told.gap;
    let holds = match kind {
        Lone::Ahead => !behind && told.meets_base,
        Lone::ByGap => !behind && !told.meets_base && meets_gap,
        Lone::Behind => behind && told.order_time < told.gap,
        Lone::AtGap => behind && told.order_time == told.gap,
        Lone::OverGap => behind && told.order_time == told.gap + 1,
        Lone::TooSlow => !behind && !told.meets_base && !meets_gap,
        Lone::BelowFloor => told.level < told.floor,
        Lone::TooFast => told.level > told.highest,
    };
    // Of the last two alone the level is out of its bounds.
    let out_of_bounds = !(told.floor..=told.highest).contains(&told.level);
    holds && out_of_bounds == matches!(kind, Lone::BelowFloor | Lone::TooFast)
}

#[test]
fn lone_states_are_of_the_kind_told() {
    let mut random = Random::new(19);
    let mut kinds: BTreeMap<(Lone, bool), u32> = BTreeMap::new();
    let mut counts = BTreeSet::new();
    for _ in 0..9_000 {
        let (levels, tasks) = any_plan(&mut random);
        let (state, kind) = lone_state(&mut random, &levels, &tasks);
        let told = told(&state);
        assert_eq!(told.open, 1);
        assert!(is_of_kind(&told, kind), "{kind:?} {state:?}");
        assert_eq!(is_sound(&state), kind.is_sound(), "{kind:?} {state:?}");
        // The floor is all that is wrong with an order below it, and with one above nominal.
        if let Lone::BelowFloor | Lone::TooFast = kind {
            let mut mended = sim::state::unpack(&state).unwrap();
            let order = mended.running.unwrap();
            mended.entries[order.task].task.floor = order.level as u64;
            assert!(is_sound(&sim::state::pack(&mended)), "{state:?}");
        }
        *kinds.entry((kind, told.meets_base)).or_default() += 1;
        counts.insert(tasks.len());
    }
    // Those that are behind, or whose level is wrong, on either side of 01's allowance.
    assert!(kinds.values().all(|times| *times > 200), "{kinds:?}");
    assert_eq!(kinds.len(), 13, "{kinds:?}");
    assert_eq!(counts, (1..=16).collect());
}

#[test]
fn sound_lone_states_stay_sound_whatever_is_passed() {
    let mut random = Random::new(20);
    let mut answers = BTreeSet::new();
    let mut kinds: BTreeMap<Lone, u32> = BTreeMap::new();
    for _ in 0..3_000 {
        let (levels, tasks) = any_plan(&mut random);
        let (mut state, kind) = sound_lone_state(&mut random, &levels, &tasks);
        assert!(is_sound(&state));
        *kinds.entry(kind).or_default() += 1;
        lead_on_from(&mut random, &mut state, &mut answers);
    }
    assert_eq!(kinds.len(), Lone::SOUND.len());
    assert!(kinds.values().all(|times| *times > 300), "{kinds:?}");
    assert_eq!(answers, BTreeSet::from([11, 12, 13, 14, 15]));
}

/// The same as `lead_on`, with passes near the hold of the state's own order from the first one on.
fn lead_on_from(random: &mut Random, state: &mut [u8; STATE_BYTES], answers: &mut BTreeSet<u32>) {
    let told = told(state);
    let hold = told.order_time.min(told.gap) as u32;
    for finished in [false, true] {
        for d in [1, hold.saturating_sub(1), hold] {
            let mut next = *state;
            if let Err(number) = pass(&mut next, d, finished) {
                answers.insert(number);
                assert_eq!(next, *state);
            }
            assert!(is_sound(&next));
        }
    }
    lead_on(random, state, answers);
}

#[test]
fn crowded_states_are_not_sound_and_alone_they_would_be() {
    let mut random = Random::new(21);
    let mut kinds: BTreeMap<(Crowded, bool), u32> = BTreeMap::new();
    for _ in 0..3_000 {
        let (levels, tasks) = any_plan(&mut random);
        let (block, kind) = match crowded_state(&mut random, &levels, &tasks) {
            Some(crowded) => crowded,
            None => continue,
        };
        assert!(!is_sound(&block), "{kind:?} {block:?}");
        let told = told(&block);
        assert_eq!(told.open, 2);
        assert!(told.order_time <= told.gap);
        let behind = told.nominal_time > told.plain_left;
        assert_eq!(behind, kind == Crowded::Behind);
        assert!(behind || !told.meets_base);
        *kinds.entry((kind, told.meets_base)).or_default() += 1;
        // With the other job ended it is sound.
        let mut state = sim::state::unpack(&block).unwrap();
        let running = state.running.unwrap().task;
        for (task, entry) in state.entries.iter_mut().enumerate() {
            if task != running {
                entry.left = sim::job::Left::NOTHING;
            }
        }
        assert!(is_sound(&sim::state::pack(&state)));
    }
    assert_eq!(kinds.len(), 3, "{kinds:?}");
    assert!(kinds.values().all(|times| *times > 150), "{kinds:?}");
    // A single task is never in company.
    let one = small_plan_of_one();
    let levels = Levels::base();
    assert!((0..20).all(|_| crowded_state(&mut random, &levels, &one).is_none()));
}

fn small_plan_of_one() -> Vec<Task> {
    vec![Task {
        period: 10,
        worst: 95,
        fixed: 0,
        floor: 0,
    }]
}

#[test]
fn invented_and_forged_states_have_lone_jobs_of_every_kind() {
    let mut random = Random::new(22);
    let mut invented: BTreeMap<Lone, u32> = BTreeMap::new();
    let (mut over, mut slower, mut in_company) = (0, 0, 0);
    for _ in 0..20_000 {
        let (levels, tasks) = any_plan(&mut random);
        let block = invented_state(&mut random, &levels, &tasks);
        assert!(is_sound(&block));
        let state = sim::state::unpack(&block).unwrap();
        if state.running.is_none() {
            continue;
        }
        let before = told(&block);
        let kind = Lone::SOUND
            .into_iter()
            .find(|kind| is_of_kind(&before, *kind));
        if before.open != 1 {
            continue;
        }
        *invented.entry(kind.unwrap()).or_default() += 1;
        let mut forged = forged_state(&mut random, &block);
        forged.resize(STATE_BYTES, 0);
        if is_sound(&forged) || forged[200..217] != block[200..217] {
            continue;
        }
        // What just isn't sound any more, where what was changed leaves a plan and an order.
        let after = match sim::state::unpack(&forged) {
            Some(after) if after.tasks() == tasks && after.running == state.running => {
                told(&forged)
            }
            _ => continue,
        };
        over += u32::from(after.open == 1 && is_of_kind(&after, Lone::OverGap));
        slower += u32::from(after.open == 1 && is_of_kind(&after, Lone::TooSlow));
        in_company += u32::from(after.open == 2 && after.order_time <= after.gap);
    }
    assert_eq!(invented.len(), Lone::SOUND.len(), "{invented:?}");
    assert!(invented.values().all(|times| *times > 300), "{invented:?}");
    assert!(
        over > 20 && slower > 5 && in_company > 60,
        "{over} {slower} {in_company}"
    );
}

#[test]
fn another_job_is_opened_where_there_is_one() {
    let mut random = Random::new(23);
    let (mut opened, mut as_it_was) = (0, 0);
    for _ in 0..600 {
        let (levels, tasks) = any_plan(&mut random);
        let block = invented_state(&mut random, &levels, &tasks);
        let other = with_another_job_open(&mut random, &block);
        let open = |block: &[u8]| {
            let entries = sim::state::unpack(block).unwrap().entries;
            entries.iter().filter(|it| it.left.work > 0).count()
        };
        match open(&other) - open(&block) {
            0 => {
                assert_eq!(other, block);
                as_it_was += 1;
            }
            1 => opened += 1,
            more => panic!("{more} opened"),
        }
    }
    assert!(opened > 100 && as_it_was > 100, "{opened} {as_it_was}");
}

/// What the entries of a block add up to, read from where 01 has them.
fn sum_of_entries(block: &[u8]) -> u64 {
    let plain_left = |task: usize| {
        let at = 8 + 12 * task + 8;
        256 * u64::from(block[at]) + u64::from(block[at + 1])
    };
    (0..16).map(plain_left).sum()
}

fn total(block: &[u8]) -> u64 {
    u64::from(sim::queued(block).unwrap())
}

/// How a changed total differs from the one that was right.
fn kind_of_total(right: u64, other: u64) -> &'static str {
    let swapped = u64::from((right as u32).swap_bytes());
    match other {
        _ if other == right => "the same",
        _ if other == right + 1 => "one more",
        _ if other + 1 == right => "one less",
        0 => "zero",
        _ if other == swapped => "swapped",
        4_294_967_295 => "largest",
        _ if other > 1 << 20 => "huge",
        _ => "any",
    }
}

#[test]
fn changed_totals_are_of_every_kind() {
    let mut random = Random::new(24);
    let mut kinds: BTreeMap<&str, u32> = BTreeMap::new();
    for _ in 0..4_000 {
        let (levels, tasks) = any_plan(&mut random);
        let state = invented_state(&mut random, &levels, &tasks);
        let forged = with_a_total_changed(&mut random, &state);
        // Nothing but the total has changed, and it alone decides.
        assert_eq!(forged[..217], state[..217]);
        assert_eq!(is_sound(&forged), forged == state);
        let kind = kind_of_total(total(&state), total(&forged));
        *kinds.entry(kind).or_default() += 1;
        // Put right again it is as it was.
        let mut again = forged;
        put_total(&mut again);
        assert_eq!(again, state);
    }
    assert_eq!(kinds.len(), 8, "{kinds:?}");
    assert!(kinds.values().all(|times| *times > 100), "{kinds:?}");
}

#[test]
fn forged_states_mostly_have_the_total_of_their_entries() {
    let mut random = Random::new(25);
    let (mut right, mut wrong, mut wrong_alone) = (0, 0, 0);
    for _ in 0..6_000 {
        let (levels, tasks) = any_plan(&mut random);
        let block = invented_state(&mut random, &levels, &tasks);
        assert_eq!(total(&block), sum_of_entries(&block));
        let forged = forged_state(&mut random, &block);
        if forged.len() != STATE_BYTES {
            assert_eq!(sim::queued(&forged), Err(10));
            continue;
        }
        if total(&forged) == sum_of_entries(&forged) {
            right += 1;
            continue;
        }
        wrong += 1;
        assert!(!is_sound(&forged));
        // With the right total it would be sound.
        let mut settled = forged;
        put_total(&mut settled);
        wrong_alone += u32::from(is_sound(&settled));
    }
    assert!(right > 9 * wrong, "{right} {wrong}");
    assert!(wrong > 300 && wrong_alone > 300, "{wrong} {wrong_alone}");
}

/// Which tasks' periods end at the next arrival of any, and the ticks up to there.
fn replaced_next(state: &sim::state::State) -> (Vec<usize>, u64) {
    let gap_of = |task: &Task| task.period - state.clock % task.period;
    let gaps: Vec<u64> = state.tasks().iter().map(gap_of).collect();
    let gap = *gaps.iter().min().unwrap();
    let next = (0..gaps.len()).filter(|task| gaps[*task] == gap);
    (next.collect(), gap)
}

#[test]
fn replacing_states_are_sound_and_replace_ticks() {
    let mut random = Random::new(26);
    let (mut none, mut idle, mut running, mut several) = (0, 0, 0, 0);
    for _ in 0..3_000 {
        let (levels, tasks) = any_plan(&mut random);
        let block = match replacing_state(&mut random, &levels, &tasks) {
            Some(block) => block,
            None => {
                none += 1;
                continue;
            }
        };
        assert!(is_sound(&block));
        let state = sim::state::unpack(&block).unwrap();
        let (next, gap) = replaced_next(&state);
        // They have finished, and have more plain ticks than will go by.
        let finished = |task: &usize| state.entries[*task].left.work == 0;
        assert!(next.iter().all(finished));
        let plain_left = |task: &usize| state.entries[*task].plain_left;
        let queued: u64 = next.iter().map(plain_left).sum();
        assert!(queued > gap);
        assert_eq!(ticks_replaced(&state), queued - gap);
        idle += u32::from(state.running.is_none());
        running += u32::from(state.running.is_some());
        several += u32::from(next.len() > 1);
    }
    assert!(idle > 300 && running > 300, "{idle} {running}");
    assert!(several > 300 && none < 600, "{several} {none}");
    // A single plain tick is gone at the arrival.
    let one_tick = vec![Task {
        period: 3,
        worst: 10,
        fixed: 0,
        floor: 0,
    }];
    let levels = Levels::base();
    assert_eq!(replacing_state(&mut random, &levels, &one_tick), None);
}

#[test]
fn invented_states_replace_ticks_when_led_on() {
    let mut random = Random::new(27);
    let (mut replacing, mut replaced) = (0, 0);
    for _ in 0..3_000 {
        let (levels, tasks) = any_plan(&mut random);
        let mut block = invented_state(&mut random, &levels, &tasks);
        let state = sim::state::unpack(&block).unwrap();
        let ticks = ticks_replaced(&state);
        if ticks == 0 {
            continue;
        }
        replacing += 1;
        let gap = replaced_next(&state).1 as u32;
        let finished = state.running.is_some() && random.one_in(2);
        replaced += u32::from(pass(&mut block, gap, finished).is_ok());
    }
    assert!(replacing > 600 && replaced > 300, "{replacing} {replaced}");
}
