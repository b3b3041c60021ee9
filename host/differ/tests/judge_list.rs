//! A list of tasks judged without packing it, on both sides. The lists stand between entries that
//! may not be looked at, the level block between bytes, and nothing of them may change.

// Brings the archives in.
use differ as _;
use sim::levels::{Levels, MOST_LEVELS};
use sim::plan::{Judged, Task, LARGEST_FIXED, LARGEST_PERIOD, LARGEST_WORST};
use sim::random::plans::{
    edge_list, full_plan, plan_above_largest_hyperperiod, plan_at_largest_hyperperiod,
    plan_at_level, plan_one_over, plan_one_unit_over,
};
use sim::random::tables::{bad_level_block, damaged_level_block, some_or_base_levels};
use sim::random::Random;
use sim::{judge_list, write_levels};
use std::collections::BTreeMap;

/// A task as C has it.
#[repr(C)]
#[derive(Clone, Copy, PartialEq, Eq, Debug)]
struct Entry {
    period: u32,
    worst: u32,
    fixed: u32,
    floor: u32,
}

/// Four numbers of four bytes each, without a gap.
const _: () = assert!(std::mem::size_of::<Entry>() == 16);

extern "C" {
    fn kilmstra_judge_list(
        levels: *const u8,
        levels_len: usize,
        tasks: *const Entry,
        count: usize,
    ) -> u64;
}

/// Stands for "accepted" where else a refusal's number stands.
const ACCEPTED: u32 = 0;

/// What stands around a list: with one of these looked at, most answers would be others.
const AROUND: [Entry; 4] = [
    entry(0, 0),
    with_all(u32::MAX, u32::MAX, u32::MAX, u32::MAX),
    // All of a plan's ticks at the highest level.
    entry(1, 100),
    // The same with fixed ticks, and a floor that is no level.
    with_all(256, 100, 255, 8),
];

/// An entry without fixed ticks and without a floor.
const fn entry(period: u32, worst: u32) -> Entry {
    with_all(period, worst, 0, 0)
}

/// An entry without a floor.
const fn with_fixed(period: u32, worst: u32, fixed: u32) -> Entry {
    with_all(period, worst, fixed, 0)
}

/// An entry without fixed ticks.
const fn with_floor(period: u32, worst: u32, floor: u32) -> Entry {
    with_all(period, worst, 0, floor)
}

const fn with_all(period: u32, worst: u32, fixed: u32, floor: u32) -> Entry {
    Entry {
        period,
        worst,
        fixed,
        floor,
    }
}

/// What stands around a level block.
const MARKS: [u8; 2] = [0xa5, 0x5a];

/// Puts lists to both sides, and counts the answers on which they agreed.
struct Both {
    /// The level block that both sides are handed.
    level_block: Vec<u8>,
    seen: BTreeMap<u32, u64>,
    /// How many of the accepted lists have fixed ticks, and how many have floors.
    accepted_with_fixed: u64,
    accepted_with_floors: u64,
}

/// The content with two elements like this on each side.
fn between<T: Copy>(around: T, content: &[T]) -> Vec<T> {
    [&[around; 2][..], content, &[around; 2]].concat()
}

impl Both {
    fn new(levels: &Levels) -> Both {
        Both {
            level_block: write_levels(levels),
            seen: BTreeMap::new(),
            accepted_with_fixed: 0,
            accepted_with_floors: 0,
        }
    }

    #[track_caller]
    fn judge(&mut self, list: &[Entry]) -> Result<Judged, u32> {
        let levels = &self.level_block;
        let wanted = judge_list(levels, &as_tasks(list));
        let lists: u64 = self.seen.values().sum();
        let lent = between(AROUND[(lists % 4) as usize], list);
        let lent_levels = between(MARKS[(lists % 2) as usize], levels);
        let (before, levels_before) = (lent.clone(), lent_levels.clone());
        // SAFETY: pointers and lengths are those of two slices, which the call only reads.
        let answer = unsafe {
            kilmstra_judge_list(
                lent_levels[2..].as_ptr(),
                levels.len(),
                lent[2..].as_ptr(),
                list.len(),
            )
        };
        let what = || format!("{} of {list:?}, levels {levels:02x?}", list.len());
        assert_eq!(answer, as_answer(wanted), "{}", what());
        assert_eq!(lent, before, "an entry has changed");
        assert_eq!(lent_levels, levels_before, "a level has changed");
        *self
            .seen
            .entry(wanted.err().unwrap_or(ACCEPTED))
            .or_default() += 1;
        let has_fixed = list.iter().any(|entry| entry.fixed > 0);
        self.accepted_with_fixed += u64::from(wanted.is_ok() && has_fixed);
        let has_floor = list.iter().any(|entry| entry.floor > 0);
        self.accepted_with_floors += u64::from(wanted.is_ok() && has_floor);
        wanted
    }

    /// Wants so many accepted lists with fixed ticks, and as many without; and the same of floors.
    #[track_caller]
    fn wants_additions(&self, least: u64) {
        let accepted = self.seen.get(&ACCEPTED).copied().unwrap_or(0);
        for with in [self.accepted_with_fixed, self.accepted_with_floors] {
            let without = accepted - with;
            assert!(with >= least && without >= least, "{with} and {without}");
        }
    }

    /// Wants this answer at least so often.
    #[track_caller]
    fn wants(&self, number: u32, least: u64) {
        let times = self.seen.get(&number).copied().unwrap_or(0);
        assert!(times >= least, "{number} only {times} times");
    }

    /// Prints what came of the lists.
    fn saw(&self, what: &str) {
        let (fixed, floors) = (self.accepted_with_fixed, self.accepted_with_floors);
        println!(
            "{what}: {:?}, {fixed} with fixed ticks, {floors} with floors",
            self.seen
        );
    }
}

/// A refusal's number; else the level from bit 8 on and the hyperperiod from bit 16 on.
fn as_answer(judged: Result<Judged, u32>) -> u64 {
    match judged {
        Ok(judged) => 256 * judged.nominal as u64 + 65_536 * judged.hyperperiod,
        Err(number) => u64::from(number),
    }
}

fn as_tasks(list: &[Entry]) -> Vec<Task> {
    let task = |entry: &Entry| Task {
        period: u64::from(entry.period),
        worst: u64::from(entry.worst),
        fixed: u64::from(entry.fixed),
        floor: u64::from(entry.floor),
    };
    list.iter().map(task).collect()
}

/// What 32 bits don't hold becomes the largest that they do, which is as far out of range.
fn as_entries(tasks: &[Task]) -> Vec<Entry> {
    let narrow = |number: u64| u32::try_from(number).unwrap_or(u32::MAX);
    let entry = |task: &Task| {
        let numbers = [task.period, task.worst, task.fixed, task.floor];
        let [period, worst, fixed, floor] = numbers.map(narrow);
        with_all(period, worst, fixed, floor)
    };
    tasks.iter().map(entry).collect()
}

/// Would catch a list that is not asked for its length, one of 17 or more judged by its first
/// entries, one whose length is cut to fewer bits, and fields asked about before the count.
#[test]
fn lists_of_every_length() {
    let levels = Levels::base();
    let mut both = Both::new(&levels);
    let mut lengths: Vec<usize> = (0..=40).collect();
    lengths.extend([255, 256, 257, 272, 999, 1_000, 1_001]);
    lengths.extend([65_535, 65_536, 65_537, 65_552, 1 << 18]);
    for length in lengths {
        // Good ones, ones out of range, and ones too much for every level.
        let entries = [
            (entry(60_000, 37), None),
            (entry(60_000, 600), None),
            (with_fixed(60_000, 600, 255), None),
            (entry(0, 0), Some(6)),
            (with_fixed(60_000, 600, 256), Some(6)),
            (entry(1, 101), Some(8)),
            (with_fixed(200, 1, 200), Some(8)),
            (with_floor(60_000, 600, 7), None),
            (with_floor(60_000, 600, 8), Some(24)),
            (with_floor(60_000, 600, u32::MAX), Some(24)),
        ];
        for (each, otherwise) in entries {
            let judged = both.judge(&vec![each; length]);
            let wanted = match length {
                0 | 17.. => Some(3),
                _ => otherwise,
            };
            assert_eq!(judged.err(), wanted, "{length} of {each:?}");
        }
    }
    both.saw("lists of every length");
    both.wants(3, 200);
    both.wants(6, 32);
    both.wants(8, 32);
    both.wants(24, 32);
    both.wants_additions(16);
}

/// Would catch a place that is not looked at, and a range that is off by one at either end or is
/// asked about after a field was cut to fewer bits.
#[test]
fn fields_at_and_past_their_ranges() {
    let levels = Levels::base();
    let mut both = Both::new(&levels);
    let periods = edges(LARGEST_PERIOD as u32, 16);
    let worsts = edges(LARGEST_WORST as u32, 20);
    let fixed_ticks = edges(LARGEST_FIXED as u32, 8);
    let mut floors = edges(MOST_LEVELS as u32 - 1, 3);
    // With the high bit left out, these are levels.
    floors.extend((3..32).map(|bit| (1 << bit) + 2));
    for length in [1, 2, 15, 16, 17, 1_000] {
        let places = if length > 20 {
            vec![0, 15, 16, 999]
        } else {
            (0..length).collect()
        };
        for place in places {
            let mut list = vec![entry(65_535, 1); length];
            for period in &periods {
                list[place] = entry(*period, 1);
                let judged = both.judge(&list);
                let is_out = *period < 1 || u64::from(*period) > LARGEST_PERIOD;
                assert_eq!(judged == Err(6), is_out && length <= 16);
            }
            for worst in &worsts {
                list[place] = entry(65_535, *worst);
                let judged = both.judge(&list);
                let is_out = *worst < 1 || u64::from(*worst) > LARGEST_WORST;
                assert_eq!(judged == Err(6), is_out && length <= 16);
            }
            for fixed in &fixed_ticks {
                list[place] = with_fixed(65_535, 1, *fixed);
                let judged = both.judge(&list);
                let is_out = u64::from(*fixed) > LARGEST_FIXED;
                assert_eq!(judged == Err(6), is_out && length <= 16);
            }
            for floor in &floors {
                list[place] = with_floor(65_535, 1, *floor);
                let judged = both.judge(&list);
                let is_out = u64::from(*floor) >= MOST_LEVELS;
                assert_eq!(judged == Err(24), is_out && length <= 16);
            }
        }
    }
    both.saw("fields at and past their ranges");
    both.wants(3, 800);
    both.wants(6, 1_500);
    both.wants(24, 800);
    both.wants_additions(100);
}

/// Would catch a floor that is held to eight levels, or to another board's count of them.
#[test]
fn floors_over_every_count_of_levels() {
    let mut both = Both::new(&Levels::base());
    for count in 1..=MOST_LEVELS as u32 {
        let speeds: Vec<u64> = (0..count).map(|level| 100 + u64::from(level)).collect();
        both.level_block = write_levels(&Levels::new(&speeds));
        for floor in 0..16 {
            for place in 0..3 {
                let mut list = [entry(10, 400), with_fixed(30, 500, 1), entry(30, 500)];
                list[place].floor = floor;
                let wanted = (floor >= count).then_some(24);
                assert_eq!(both.judge(&list).err(), wanted, "{floor} of {count}");
            }
        }
    }
    both.saw("floors over every count of levels");
    both.wants(24, 3 * (15 + 14 + 13 + 12 + 11 + 10 + 9 + 8));
    both.wants(ACCEPTED, 3 * 36);
}

/// Values at the ends of a range of so many bits, and values that would be 10 with one high bit left
/// out.
fn edges(largest: u32, bits: u32) -> Vec<u32> {
    let mut values = vec![0, 1, 2, largest - 1, largest, largest + 1, u32::MAX];
    values.extend((bits..32).map(|bit| (1 << bit) + 10));
    values
}

/// Would catch a level or a hyperperiod that is wrong for some list, fields that are swapped, a last
/// entry left out, and one looked at past the end.
#[test]
fn lists_of_every_kind() {
    let levels = Levels::base();
    let mut both = Both::new(&levels);
    let mut random = Random::new(1_001);
    let mut nominal = vec![0; levels.count()];
    for round in 0..2_000 {
        put_lists(
            &mut both,
            &mut random,
            &levels,
            round % levels.count(),
            &mut nominal,
        );
    }
    both.saw("lists of every kind");
    both.wants_additions(3_000);
    println!("levels {nominal:?}");
    both.wants(ACCEPTED, 12_000);
    both.wants(3, 30);
    both.wants(6, 500);
    both.wants(7, 3_000);
    both.wants(8, 1_000);
    both.wants(24, 500);
    assert!(nominal.iter().all(|times| *times > 300), "{nominal:?}");
}

/// The same with the speeds of other boards: would catch a list judged with 01's.
#[test]
fn lists_of_every_kind_with_any_table() {
    let mut both = Both::new(&Levels::base());
    let mut random = Random::new(1_002);
    let mut nominal = vec![0; 8];
    for _ in 0..2_500 {
        let levels = some_or_base_levels(&mut random);
        both.level_block = write_levels(&levels);
        let level = random.place(levels.count());
        put_lists(&mut both, &mut random, &levels, level, &mut nominal);
    }
    both.saw("lists of every kind with any table");
    both.wants_additions(3_000);
    println!("levels {nominal:?}");
    both.wants(ACCEPTED, 12_000);
    both.wants(3, 30);
    both.wants(6, 500);
    both.wants(7, 3_000);
    both.wants(8, 1_000);
    both.wants(24, 500);
    assert!(nominal.iter().all(|times| *times > 100), "{nominal:?}");
}

/// Puts lists of every kind for a level, and counts the nominal levels that they have.
fn put_lists(
    both: &mut Both,
    random: &mut Random,
    levels: &Levels,
    level: usize,
    nominal: &mut [u64],
) {
    let lists = [
        plan_at_level(random, levels, level),
        full_plan(random, levels, level),
        plan_one_over(random, levels, level),
        plan_one_unit_over(random, levels, level),
        plan_at_largest_hyperperiod(random, levels),
        plan_above_largest_hyperperiod(random, levels),
        edge_list(random, levels),
    ];
    for tasks in lists {
        let mut list = as_entries(&tasks);
        if let Ok(judged) = both.judge(&list) {
            nominal[judged.nominal] += 1;
        }
        // One field a little off.
        if let Some(last) = list.last_mut() {
            last.worst = last.worst.wrapping_add(1);
            let _ = both.judge(&list);
        }
        if let Some(last) = list.last_mut() {
            last.worst = last.worst.wrapping_sub(1);
            last.fixed = last.fixed.wrapping_add(1);
            let _ = both.judge(&list);
        }
        if let Some(last) = list.last_mut() {
            last.fixed = last.fixed.wrapping_sub(1);
            last.floor = last.floor.wrapping_add(1);
            let _ = both.judge(&list);
        }
    }
}

/// Would catch a level block that isn't asked about, or is asked about after the list.
#[test]
fn bad_level_blocks() {
    let mut both = Both::new(&Levels::base());
    let mut random = Random::new(1_003);
    let lists = [
        vec![entry(10, 400)],
        vec![with_fixed(20, 400, 5)],
        vec![with_fixed(20, 400, 256)],
        vec![with_floor(20, 400, 7)],
        vec![with_floor(20, 400, u32::MAX)],
        vec![],
        vec![entry(0, 0); 17],
        vec![entry(0, 0)],
        vec![entry(1_000, 1), entry(1_001, 1)],
        vec![entry(1, 1_001)],
    ];
    for round in 0..1_800 {
        let number = [18, 19, 20][round % 3];
        both.level_block = bad_level_block(&mut random, number);
        let list = &lists[round / 3 % lists.len()];
        assert_eq!(both.judge(list), Err(number), "{list:?}");
    }
    // Damage that may leave the block a good one, and then the list decides.
    for round in 0..3_000 {
        let levels = write_levels(&some_or_base_levels(&mut random));
        both.level_block = damaged_level_block(&mut random, &levels);
        let _ = both.judge(&lists[round % lists.len()]);
    }
    both.saw("bad level blocks");
    for number in [18, 19, 20] {
        both.wants(number, 800);
    }
    both.wants(ACCEPTED, 10);
    both.wants(3, 50);
}

/// Would catch a question asked before its turn: each list is refused for two reasons.
#[test]
fn the_first_no_decides() {
    let levels = Levels::base();
    let mut both = Both::new(&levels);
    let cases = [
        (vec![entry(0, 0); 17], 3),
        (vec![entry(1_000, 1); 17], 3),
        (vec![entry(1_000, 1), entry(1_001, 1), entry(0, 1)], 6),
        (vec![entry(1, 101), entry(5, 0)], 6),
        (vec![with_fixed(10, 10, 256); 17], 3),
        (vec![entry(1_000, 1), with_fixed(1_001, 1, 256)], 6),
        (vec![entry(1, 101), with_fixed(5, 1, 256)], 6),
        (vec![entry(1_000, 1), with_fixed(1_001, 1, 255)], 7),
        (vec![with_fixed(1, 1, 1)], 8),
        (vec![entry(1_000, 900_000), entry(1_001, 900_000)], 7),
        (vec![entry(1, 1), entry(1, 1)], 8),
        (vec![with_floor(10, 10, 8); 17], 3),
        (vec![with_all(10, 10, 256, 8)], 6),
        (vec![with_floor(10, 10, 8), entry(0, 1)], 6),
        (vec![with_floor(1_000, 1, 8), entry(1_001, 1)], 24),
        (vec![entry(1_000, 1), with_floor(1_001, 1, u32::MAX)], 24),
        (vec![entry(1, 101), with_floor(5, 1, 8)], 24),
        (vec![with_floor(1, 101, 7)], 8),
    ];
    for (list, number) in cases {
        assert_eq!(both.judge(&list), Err(number), "{list:?}");
    }
    let bench = [entry(10, 400), entry(10, 400), entry(30, 600)];
    let wanted = Judged {
        nominal: 7,
        hyperperiod: 30,
    };
    assert_eq!(both.judge(&bench), Ok(wanted));
    // 6 + 4 ticks at 10 units a tick, 7 + 2 at 20.
    for (fixed, nominal) in [(6, 0), (7, 1)] {
        let hyperperiod = 10;
        let wanted = Judged {
            nominal,
            hyperperiod,
        };
        assert_eq!(both.judge(&[with_fixed(10, 40, fixed)]), Ok(wanted));
        // A floor is nothing to the level.
        assert_eq!(both.judge(&[with_all(10, 40, fixed, 7)]), Ok(wanted));
    }
    both.wants_additions(1);
    for number in [3, 6, 7, 8, 24] {
        both.wants(number, 1);
    }
}
