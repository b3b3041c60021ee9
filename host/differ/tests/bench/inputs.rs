//! Inputs of every kind.

use crate::program::{examples, Both};
use sim::block::{block_bytes, pack_block, Edition};
use sim::dispatch::{pass, start};
use sim::layout::STATE_BYTES;
use sim::levels::Levels;
use sim::plan::Task;
use sim::random::blocks::{bench_input, block_of, damaged_block};
use sim::random::plans::{
    edge_list, full_plan, plan_above_largest_hyperperiod, plan_at_largest_hyperperiod,
    plan_at_level, plan_at_level_within, plan_one_over, SMALL_BASES,
};
use sim::random::tables::{
    bad_level_block, damaged_level_block, levels_of_count, some_or_base_levels,
};
use sim::random::Random;
use sim::state::unpack;
use sim::write_levels;
use std::fs;

/// 01's example: its eight speeds, the bench plan and six passes, the last two as 02's No. 4 has them.
const EXAMPLE: [u8; 38] = [
    0x80, 0x28, 0x14, 0x07, 0x82, 0x80, 0xc8, 0x3c, 0x14, 0x06, 0x40, 0x11, 0x80, 0x05, 0x00, 0x0c,
    0x80, 0x00, 0x50, 0x00, 0xc8, 0x00, 0x0f, 0x00, 0x12, 0xc0, 0x80, 0x01, 0x80, 0x07, 0x80, 0x02,
    0x80, 0x04, 0x80, 0x05, 0x00, 0x01,
];

/// Where its level block and its plan block end.
const LEVELS_END: usize = 11;
const PLAN_END: usize = 26;

const LARGEST_INPUT: usize = 65_536;

fn bench_plan() -> Vec<Task> {
    let (levels, plan) = EXAMPLE[..PLAN_END].split_at(LEVELS_END);
    sim::read_plan(levels, plan).unwrap().0
}

/// Any plan of a level that the simulator accepts.
fn some_plan(random: &mut Random, levels: &Levels, level: usize, round: usize) -> Vec<Task> {
    match round % 3 {
        0 => plan_at_level(random, levels, level),
        1 => full_plan(random, levels, level),
        _ => {
            let base = random.pick(&SMALL_BASES);
            plan_at_level_within(random, levels, level, base)
        }
    }
}

fn one_task(period: u64, worst: u64) -> Vec<Task> {
    one_task_with(period, worst, 0)
}

fn one_task_with(period: u64, worst: u64, fixed: u64) -> Vec<Task> {
    vec![Task {
        period,
        worst,
        fixed,
        floor: 0,
    }]
}

/// An input with so many bytes and a run as long as fits.
fn input_of_length(random: &mut Random, levels: &Levels, tasks: &[Task], length: usize) -> Vec<u8> {
    let mut input = bench_input(random, levels, tasks, length / 2);
    input.resize(length, 0);
    input
}

/// How many plans had fixed ticks, floors, and floors alone; and how many lines ran a task at a level above
/// nominal.
#[derive(Default, Debug)]
struct Had {
    fixed: u32,
    floors: u32,
    floors_alone: u32,
    above_nominal: u32,
}

impl Had {
    fn note(&mut self, plan: &[Task], listed: &str) {
        let fixed = plan.iter().any(|task| task.fixed > 0);
        let floors = plan.iter().any(|task| task.floor > 0);
        self.fixed += u32::from(fixed);
        self.floors += u32::from(floors);
        self.floors_alone += u32::from(floors && !fixed);
        let mut nominal = None;
        for line in listed.lines() {
            let words: Vec<&str> = line.split(' ').collect();
            match words[..] {
                ["plan", _, level, _] => nominal = level.parse::<u32>().ok(),
                [_, "run", _, level, _] => {
                    self.above_nominal += u32::from(level.parse().ok() > nominal);
                }
                _ => {}
            }
        }
    }

    /// Of 800 plans.
    #[track_caller]
    fn wants_of_800(&self) {
        let half = 200..600;
        assert!(half.contains(&self.fixed), "{self:?}");
        assert!(half.contains(&self.floors), "{self:?}");
        assert!(self.floors_alone > 100, "{self:?}");
        assert!(self.above_nominal > 1_000, "{self:?}");
    }
}

/// A run of a plan that a level of the table admits, with up to 120 passes.
fn one_run(
    both: &mut Both,
    random: &mut Random,
    levels: &Levels,
    level: usize,
    round: usize,
    had: &mut Had,
) {
    let plan = some_plan(random, levels, level, round);
    let passes = random.between(0, 120) as usize;
    let listed = both.list(&bench_input(random, levels, &plan, passes));
    assert!(listed.lines().count() >= 2 + passes);
    had.note(&plan, &listed);
}

/// Lines of every kind came up, and often.
fn saw_every_line(both: &Both) {
    both.wants("plan", 800);
    both.wants("run", 20_000);
    both.wants("idle", 2_000);
    for number in [11, 12, 14] {
        both.wants(&format!("refused {number}"), 500);
    }
    both.wants("refused 13", 50);
    both.wants("refused 16", 60);
}

/// Would catch a wrong line, one missing or one too many, for runs with early ends and refused
/// passes at every level; a refused pass that ends the listing or moves the clock.
#[test]
fn runs_at_every_level() {
    let levels = Levels::base();
    let mut both = Both::new();
    let mut random = Random::new(2_101);
    let mut had = Had::default();
    for round in 0..800 {
        let level = round % levels.count();
        one_run(&mut both, &mut random, &levels, level, round, &mut had);
    }
    both.saw("runs at every level", 800);
    saw_every_line(&both);
    had.wants_of_800();
}

/// The same with the speeds of other boards: would catch a program that has 01's for all, or cuts the
/// level block at another place than its count says.
#[test]
fn runs_with_any_table() {
    let mut both = Both::new();
    let mut random = Random::new(2_107);
    let mut had = Had::default();
    for round in 0..800 {
        let levels = levels_of_count(&mut random, 1 + round % 8);
        let level = random.place(levels.count());
        one_run(&mut both, &mut random, &levels, level, round, &mut had);
    }
    both.saw("runs with any table", 800);
    saw_every_line(&both);
    had.wants_of_800();
}

/// Would catch a plan block that is cut by its count alone: with edition 2 the passes follow later,
/// with any other edition than 2 as early as with 1.
#[test]
fn plans_are_cut_by_their_edition() {
    let mut both = Both::new();
    let mut random = Random::new(2_109);
    let levels = Levels::base();
    let mut accepted = [0, 0];
    for round in 0..320 {
        let edition = Edition(round % 16);
        let count = 1 + round / 16 % 16;
        // Neither, fixed ticks, or a floor.
        let task = Task {
            period: 4_000,
            worst: 37,
            fixed: if round % 3 == 1 { 255 / (count + 1) } else { 0 },
            floor: if round % 3 == 2 { count % 8 } else { 0 },
        };
        let has_addition = task.has_addition();
        let mut input = write_levels(&levels);
        input.extend(pack_block(edition, count, &vec![task; count as usize]));
        let blocks = input.len();
        // Passes of any kind, and good ones, and an odd byte now and then.
        for _ in 0..random.below(8) {
            let any = random.number() as u16;
            input.extend(random.pick(&[0x8001, 0x0001, any]).to_be_bytes());
        }
        if random.one_in(3) {
            input.push(random.number() as u8);
        }
        let passes = input.len() - blocks;
        let listed = both.list(&input);
        let count = listed.lines().count();
        match (edition, has_addition) {
            (Edition::SECOND, false) => assert_eq!(listed, "refused 21\n"),
            (Edition::FIRST, _) | (Edition::SECOND, true) => {
                accepted[usize::from(edition == Edition::SECOND)] += 1;
                assert_eq!(count, 2 + (passes + 1) / 2);
            }
            _ => assert_eq!(listed, "refused 2\n"),
        }
        // A byte short, the reader has all there are.
        let listed = both.list(&input[..blocks - 1]);
        let known = Edition::ACCEPTED.contains(&edition);
        assert_eq!(listed, if known { "refused 4\n" } else { "refused 2\n" });
    }
    both.saw("plans cut by their edition", 640);
    assert!(accepted.iter().all(|times| *times > 10), "{accepted:?}");
    both.wants("refused 2", 250);
    both.wants("refused 4", 30);
    both.wants("refused 21", 5);
    both.wants("refused 16", 5);
}

/// How many passes of an input end while the running job has fixed ticks left, as the simulator has
/// it.
fn passes_inside(levels: &Levels, plan: &[Task], input: &[u8]) -> u32 {
    let block = block_of(plan);
    let mut state = [0; STATE_BYTES];
    if start(levels, &block, &[], &mut state).is_err() {
        return 0;
    }
    let mut inside = 0;
    for pair in input[write_levels(levels).len() + block.len()..].chunks_exact(2) {
        let number = u16::from_be_bytes([pair[0], pair[1]]);
        let (d, finished) = (u32::from(number & 0x7fff), number >> 15 == 1);
        let before = unpack(&state).expect("it is a state");
        let fixed = before
            .running
            .map_or(0, |order| before.entries[order.task].left.fixed);
        let passed = pass(&mut state, d, finished).is_ok();
        inside += u32::from(passed && u64::from(d) < fixed);
    }
    inside
}

/// Would catch a listing with fixed ticks that scale, come after the work or are lost.
#[test]
fn runs_inside_the_fixed_ticks() {
    let mut both = Both::new();
    let mut random = Random::new(2_110);
    let mut inside = 0;
    for round in 0..200 {
        let levels = some_or_base_levels(&mut random);
        let (count, period) = (random.between(1, 3), 360);
        let task = |place| Task {
            period: period / (1 + place * (round % 3)),
            worst: random.between(1, 20),
            fixed: random.between(20, 35),
            floor: random.pick(&[0, levels.top() as u64]),
        };
        let plan: Vec<Task> = (0..count).map(task).collect();
        let input = bench_input(&mut random, &levels, &plan, 60);
        let listed = both.list(&input);
        assert!(listed.starts_with("plan ") || listed == "refused 8\n");
        inside += passes_inside(&levels, &plan, &input);
    }
    both.saw("runs inside the fixed ticks", 200);
    both.wants("plan", 150);
    both.wants("run", 3_000);
    both.wants("refused 14", 50);
    assert!(inside > 1_000, "{inside}");
}

/// Would catch an input read past its end or short of it, a level block that is given the plan too, a
/// plan block that is given the passes too, and an odd byte that is let go.
#[test]
fn every_cut() {
    let levels = Levels::base();
    let mut both = Both::new();
    let mut random = Random::new(2_102);
    for length in 0..=EXAMPLE.len() {
        both.list(&EXAMPLE[..length]);
    }
    for edition in Edition::ACCEPTED {
        let mut longest = plan_at_level(&mut random, &levels, 3);
        // With fixed ticks in the first task, if any, so that each part of it has some.
        while longest.len() < 16
            || (longest[0].fixed > 0) != (edition == Edition::SECOND)
            || Edition::of_tasks(&longest) != edition
        {
            longest = plan_at_level(&mut random, &levels, 3);
        }
        cuts_of(&mut both, &mut random, &longest);
    }
    both.saw("cuts", 480);
    both.wants("refused 18", 9);
    both.wants("refused 19", 40);
    both.wants("refused 1", 18);
    both.wants("refused 4", 250);
    both.wants("refused 16", 40);
    both.wants("plan", 80);
}

/// Every cut of inputs with the first of these tasks.
fn cuts_of(both: &mut Both, random: &mut Random, longest: &[Task]) {
    for (count, fastest) in [(1, 100), (2, 1_000), (9, 500), (16, 999)] {
        // With 1, 2, 3 and 8 speeds, the fastest of which can do it.
        let below = match count {
            1 => &[][..],
            2 => &[1],
            9 => &[3, 77],
            _ => &[5, 7, 9, 20, 44, 90, 313],
        };
        let board = Levels::new(&[below, &[fastest]].concat());
        // Floors that the board has; one of a single level has none.
        let mut plan = longest[..count].to_vec();
        for task in &mut plan {
            task.floor %= board.count() as u64;
        }
        let input = bench_input(random, &board, &plan, 6);
        for length in 0..=input.len() {
            both.list(&input[..length]);
        }
    }
}

/// Would catch a bit of the input that is not looked at or is taken for another, in 01's example, in one
/// with fixed ticks and in one with floors as well.
#[test]
fn every_flipped_bit() {
    let mut both = Both::new();
    let stored = |name: &str| fs::read(examples().join(name)).expect("it is stored");
    let [fixed, floors] = ["fixed-ticks.in", "floors.in"].map(stored);
    for mut input in [EXAMPLE.to_vec(), fixed, floors] {
        for place in 0..8 * input.len() {
            input[place / 8] ^= 0x80 >> (place % 8);
            both.list(&input);
            input[place / 8] ^= 0x80 >> (place % 8);
        }
    }
    both.saw("flipped bits", 1_200);
    for said in ["plan", "run", "idle"] {
        both.wants(said, 100);
    }
    for number in [2, 8, 12, 13, 14, 19, 20] {
        both.wants(&format!("refused {number}"), 4);
    }
    // A count of 0 or of 9 and more: with one flipped bit of 8 each.
    both.wants("refused 18", 4);
}

/// Would catch a refused plan that doesn't end the listing, or that is refused with another number.
#[test]
fn damaged_plans() {
    let mut both = Both::new();
    let mut random = Random::new(2_103);
    for round in 0..1_200 {
        let levels = some_or_base_levels(&mut random);
        let level = random.place(levels.count());
        let plan = match round % 5 {
            0 => plan_one_over(&mut random, &levels, level),
            1 => plan_at_largest_hyperperiod(&mut random, &levels),
            2 => plan_above_largest_hyperperiod(&mut random, &levels),
            3 => edge_list(&mut random, &levels),
            _ => plan_at_level(&mut random, &levels, level),
        };
        let mut block = block_of(&plan);
        if round % 2 == 0 {
            block = damaged_block(&mut random, &block);
        }
        let mut input = [write_levels(&levels), block].concat();
        for _ in 0..random.below(24) {
            let any = random.number() as u8;
            input.push(random.pick(&[0x00, 0x80, 0x01, 0x02, any]));
        }
        both.list(&input);
    }
    both.saw("damaged plans", 1_200);
    for number in 2..=8 {
        both.wants(&format!("refused {number}"), 25);
    }
    both.wants("refused 21", 10);
    both.wants("refused 24", 20);
    both.wants("plan", 200);
}

/// Would catch a refused level block that doesn't end the listing, is refused with another number, or
/// is cut at another place than its count says.
#[test]
fn damaged_levels() {
    let mut both = Both::new();
    let mut random = Random::new(2_108);
    for round in 0..900 {
        let levels = some_or_base_levels(&mut random);
        let level = random.place(levels.count());
        let plan = some_plan(&mut random, &levels, level, round);
        let whole = bench_input(&mut random, &levels, &plan, 8);
        let (own, rest) = whole.split_at(write_levels(&levels).len());
        let block = match round % 4 {
            0 => damaged_level_block(&mut random, own),
            kind => bad_level_block(&mut random, 17 + kind as u32),
        };
        let listed = both.list(&[&block[..], rest].concat());
        // Whatever follows, a bad count or a bad speed ends it.
        if round % 4 == 1 && !block.is_empty() {
            assert_eq!(listed, "refused 18\n");
        }
        if round % 4 == 3 {
            assert_eq!(listed, "refused 20\n");
        }
        // Without anything to follow, the block has all there is.
        let alone = both.list(&block);
        if round % 4 == 1 {
            assert_eq!(alone, "refused 18\n");
        }
    }
    both.saw("damaged levels", 1_800);
    for number in [18, 19, 20] {
        both.wants(&format!("refused {number}"), 200);
    }
    both.wants("refused 1", 50);
    both.wants("plan", 10);
}

/// Would catch an end on some bytes, and a count or an edition let through.
#[test]
fn rubbish() {
    let mut both = Both::new();
    let mut random = Random::new(2_104);
    for first in 0..=255 {
        both.list(&[first]);
    }
    for round in 0..600 {
        let length = random.below(200) as usize;
        let mut input = vec![0; length];
        input.fill_with(|| random.number() as u8);
        if let Some(first) = input.first_mut() {
            // Most others are refused at once.
            *first = 0x10 | *first & 0x0f;
        }
        if round % 3 > 0 {
            input = [&EXAMPLE[..LEVELS_END], &input].concat();
        }
        both.list(&input);
    }
    both.saw("rubbish", 850);
    both.wants("refused 18", 128);
    both.wants("refused 19", 128);
    both.wants("refused 3", 100);
}

/// Would catch a largest input that is off by one, an input that is cut, and 17 asked after the plan
/// is read.
#[test]
fn the_largest_inputs() {
    let levels = Levels::base();
    let mut both = Both::new();
    let mut random = Random::new(2_105);
    // The blocks of the bench plan leave an odd byte at one length, those of a single task at the
    // other.
    let fixed = one_task_with(40, 300, 5);
    for plan in [bench_plan(), one_task(40, 300), one_task(12, 600), fixed] {
        for length in [LARGEST_INPUT - 1, LARGEST_INPUT] {
            let edition = Edition::of_tasks(&plan);
            let blocks = LEVELS_END + block_bytes(edition, plan.len() as u64);
            let odd = (length - blocks) % 2 == 1;
            let listed = both.list(&input_of_length(&mut random, &levels, &plan, length));
            assert_eq!(listed.ends_with("refused 16\n"), odd);
            assert!(listed.lines().count() > 32_000);
        }
        for length in [LARGEST_INPUT + 1, LARGEST_INPUT + 2, 2 * LARGEST_INPUT] {
            let listed = both.list(&input_of_length(&mut random, &levels, &plan, length));
            assert_eq!(listed, "refused 17\n");
        }
    }
    // Whatever the bytes are.
    for byte in [0x00, 0x10, 0xff] {
        assert_eq!(both.list(&vec![byte; LARGEST_INPUT + 1]), "refused 17\n");
        assert_ne!(both.list(&vec![byte; LARGEST_INPUT]), "refused 17\n");
    }
    both.list(&vec![0x10; 1 << 20]);
    both.saw("the largest inputs", 25);
    both.wants("refused 17", 16);
    both.wants("run", 60_000);
}

/// Would catch a clock or a hold that is printed wrong from some count of digits on.
#[test]
fn long_clocks() {
    let mut both = Both::new();
    // A tick of work, then idle until the next arrival: 65,535 ticks with three passes.
    let plan = block_of(&one_task(65_535, 10));
    let mut input = [&EXAMPLE[..LEVELS_END], &plan].concat();
    let period: [u16; 3] = [0x8001, 0x7fff, 0x7fff];
    while input.len() + 6 <= LARGEST_INPUT {
        for pass in period {
            input.extend(pass.to_be_bytes());
        }
    }
    let listed = both.list(&input);
    assert!(
        listed.ends_with("\n715576665 run 0 0 1\n"),
        "{}",
        &listed[listed.len() - 40..]
    );
    both.saw("long clocks", 1);
    both.wants("run", 10_900);
    both.wants("idle", 21_000);
}

/// Would catch a program that takes the first piece of its input for all of it.
#[test]
fn inputs_in_pieces() {
    let levels = Levels::base();
    let mut both = Both::new();
    let mut random = Random::new(2_106);
    for size in 1..=EXAMPLE.len() {
        both.list_in_pieces(&EXAMPLE, size);
    }
    let bench = bench_plan();
    for size in [4_095, 4_096, 10_000, 65_535, 65_536] {
        for length in [LARGEST_INPUT, LARGEST_INPUT + 1] {
            let input = input_of_length(&mut random, &levels, &bench, length);
            both.list_in_pieces(&input, size);
        }
    }
    both.saw("inputs in pieces", 48);
    both.wants("refused 17", 5);
    both.wants("plan", 43);
}
