//! Cases whose answers stand in 01 or in 02, No. 2 and No. 8, or follow from them by hand.

use crate::both::Both;
use crate::made::{bench_plan, fits_block, fixed_tasks, floor_tasks, numbers_of, task, tasks};
use differ::proved::Judged;
use sim::levels::Levels;
use sim::plan::Task;
use sim::random::blocks::block_of;

/// 01, "Blocks": period 40 and worst case 300.
const EXAMPLE: [u8; 6] = [0x10, 0x80, 0x14, 0x00, 0x09, 0x60];

/// The same with 5 fixed ticks, in edition 2: 01100 ends the worst case, then 00000101 and 000.
const FIXED_EXAMPLE: [u8; 7] = [0x20, 0x80, 0x14, 0x00, 0x09, 0x60, 0x28];

/// The same with a floor of 3 instead, and with both: 00000000 and 011, 00000101 and 011.
const FLOOR_EXAMPLE: [u8; 7] = [0x20, 0x80, 0x14, 0x00, 0x09, 0x60, 0x03];
const BOTH_EXAMPLE: [u8; 7] = [0x20, 0x80, 0x14, 0x00, 0x09, 0x60, 0x2b];

fn accepted(level: u64, hyperperiod: u64) -> Result<Judged, u32> {
    Ok(Judged { level, hyperperiod })
}

/// Wants this answer of judging and writing and, where a block can hold the tasks, of reading and
/// copying.
#[track_caller]
fn wants(tasks: &[Task], answer: Result<Judged, u32>) {
    let levels = Levels::base();
    let mut both = Both::new(&levels);
    let numbers = numbers_of(tasks);
    assert_eq!(both.judge(tasks.len(), &numbers), answer, "{tasks:?}");
    let written = both.write(tasks.len(), &numbers, 100);
    assert_eq!(written.err(), answer.err(), "{tasks:?}");
    if fits_block(tasks) {
        let block = block_of(tasks);
        assert_eq!(both.read(&block), answer, "{tasks:?}");
        assert_eq!(both.copy(&block, 100).err(), answer.err(), "{tasks:?}");
    }
}

/// Would catch bits packed from the wrong end, fields swapped or of another width, and a count in
/// the wrong place.
#[test]
fn the_example_block_both_ways() {
    let levels = Levels::base();
    let mut both = Both::new(&levels);
    assert_eq!(both.write(1, &[40, 300], 8).as_deref(), Ok(&EXAMPLE[..]));
    assert_eq!(both.copy(&EXAMPLE, 8).as_deref(), Ok(&EXAMPLE[..]));
    // 300 units at 10 a tick are 30 of 40 ticks.
    assert_eq!(both.read(&EXAMPLE), accepted(0, 40));
    assert_eq!(both.judge(1, &[40, 300]), accepted(0, 40));
    assert_eq!(both.write(1, &[40, 300, 0], 8).as_deref(), Ok(&EXAMPLE[..]));
}

/// The same in edition 2.
#[test]
fn the_example_with_fixed_ticks_both_ways() {
    let mut both = Both::new(&Levels::base());
    let wanted = Ok(&FIXED_EXAMPLE[..]);
    assert_eq!(both.write(1, &[40, 300, 5], 8).as_deref(), wanted);
    assert_eq!(both.copy(&FIXED_EXAMPLE, 8).as_deref(), wanted);
    // 5 and 30 of 40 ticks.
    assert_eq!(both.read(&FIXED_EXAMPLE), accepted(0, 40));
    assert_eq!(both.judge(1, &[40, 300, 5]), accepted(0, 40));
    assert_eq!(both.write(1, &[40, 300, 5], 6), Err(9));
    assert_eq!(both.copy(&FIXED_EXAMPLE, 6), Err(9));
}

/// The same with a floor.
#[test]
fn the_example_with_a_floor_both_ways() {
    let mut both = Both::new(&Levels::base());
    for (fixed, example) in [(0, &FLOOR_EXAMPLE), (5, &BOTH_EXAMPLE)] {
        let numbers = [40, 300, fixed, 3];
        assert_eq!(both.write(1, &numbers, 8).as_deref(), Ok(&example[..]));
        assert_eq!(both.copy(example, 8).as_deref(), Ok(&example[..]));
        // 30 and 35 of 40 ticks, as without the floor.
        assert_eq!(both.read(example), accepted(0, 40));
        assert_eq!(both.judge(1, &numbers), accepted(0, 40));
        assert_eq!(both.write(1, &numbers, 6), Err(9));
        assert_eq!(both.copy(example, 6), Err(9));
    }
    // Three levels have no level 3, and four have one.
    both.load(&Levels::new(&[10, 20, 30]));
    assert_eq!(both.read(&FLOOR_EXAMPLE), Err(24));
    both.load(&Levels::new(&[10, 20, 30, 40]));
    assert_eq!(both.read(&FLOOR_EXAMPLE), accepted(0, 40));
}

/// Would catch a floor that moves the nominal level or the admission.
#[test]
fn floors_and_the_level() {
    for floor in 0..8 {
        wants(&floor_tasks(&[(40, 300, 0, floor)]), accepted(0, 40));
        let bench = |worst| {
            let task = |(period, worst)| (period, worst, 0, floor);
            floor_tasks(&[(10, 400), (10, 400), (30, worst)].map(task))
        };
        wants(&bench(600), accepted(7, 30));
        wants(&bench(601), Err(8));
    }
}

/// Would catch fixed ticks left out of the time needed, or divided by the speed; a sum that counts
/// them once for all jobs; and a limit on them that is off by one.
#[test]
fn fixed_ticks_and_the_level() {
    // 6 + 4 ticks at 10 units, 8 + 2 at 20, 9 + 1 at 40; 10 + 1 is too much at every level.
    let levels = [(0, 0), (6, 0), (7, 1), (8, 1), (9, 3)];
    for (fixed, level) in levels {
        wants(&fixed_tasks(&[(10, 40, fixed)]), accepted(level, 10));
    }
    wants(&fixed_tasks(&[(10, 40, 10)]), Err(8));
    wants(&fixed_tasks(&[(256, 100, 255)]), accepted(7, 256));
    wants(&fixed_tasks(&[(255, 100, 255)]), Err(8));
    // A fixed tick counts once for each job: 15 and 15 of 30 ticks, then 18 and 15.
    wants(
        &fixed_tasks(&[(10, 400, 1), (30, 1_500, 0)]),
        accepted(7, 30),
    );
    wants(&fixed_tasks(&[(10, 400, 2), (30, 1_500, 0)]), Err(8));
    // The bench plan has no room for one.
    for place in 0..3 {
        let mut plan = bench_plan();
        plan[place].fixed = 1;
        wants(&plan, Err(8));
    }
}

/// Writes a block for each count, copies it, and wants these lengths of both.
fn blocks_have(sizes: [usize; 16], fixed: u64) {
    let mut both = Both::new(&Levels::base());
    for (before, size) in sizes.into_iter().enumerate() {
        let list = fixed_tasks(&vec![(1_000, 37, fixed); before + 1]);
        let numbers = numbers_of(&list);
        let block = both.write(list.len(), &numbers, 100).unwrap();
        assert_eq!(block.len(), size);
        assert_eq!(both.write(list.len(), &numbers, size).as_ref(), Ok(&block));
        assert_eq!(both.write(list.len(), &numbers, size - 1), Err(9));
        assert_eq!(both.copy(&block, size).as_ref(), Ok(&block));
        assert_eq!(both.copy(&block, size - 1), Err(9));
    }
}

/// Would catch closing bits forgotten or a whole byte of them, for odd and for even counts.
#[test]
fn blocks_have_6_to_74_bytes() {
    let sizes = [
        6, 11, 15, 20, 24, 29, 33, 38, 42, 47, 51, 56, 60, 65, 69, 74,
    ];
    blocks_have(sizes, 0);
}

/// The same with fixed ticks.
#[test]
fn blocks_of_edition_2_have_7_to_96_bytes() {
    let sizes = [
        7, 13, 19, 25, 31, 37, 43, 49, 54, 60, 66, 72, 78, 84, 90, 96,
    ];
    blocks_have(sizes, 5);
}

/// Would catch a writer that looks at some of the tasks only, or past the count, for its edition.
#[test]
fn the_edition_that_is_written() {
    let mut both = Both::new(&Levels::base());
    for count in 1..=16 {
        let mut list = tasks(&vec![(1_000, 37); count]);
        let mut first_byte = |list: &[Task]| {
            // One past the count, which must not matter.
            let numbers = [numbers_of(list), vec![0, 0, 255, 7]].concat();
            both.write(count, &numbers, 100).unwrap()[0]
        };
        assert_eq!(first_byte(&list) >> 4, 1);
        for place in 0..count {
            for fixed in [1, 128, 255] {
                list[place].fixed = fixed;
                assert_eq!(first_byte(&list) >> 4, 2);
            }
            list[place].fixed = 0;
            for floor in [1, 4, 7] {
                list[place].floor = floor;
                assert_eq!(first_byte(&list) >> 4, 2);
            }
            list[place].floor = 0;
        }
    }
}

/// Past the largest by one or by far, and numbers that would be 10 with one high bit left out.
fn past(bits: u32) -> Vec<u64> {
    let mut numbers = vec![1 << bits, (1 << bits) + 1, u64::from(u32::MAX)];
    numbers.extend((bits..32).map(|bit| (1 << bit) + 10));
    numbers
}

/// Would catch a range that is off by one at either end, a field cut to fewer bits before it is
/// asked about, and a place that is not asked about.
#[test]
fn each_field_at_the_ends_of_its_range() {
    for count in 1..=16 {
        for place in 0..count {
            let with_all = |period, worst, fixed, floor| {
                let mut list = tasks(&vec![(65_535, 1); count]);
                list[place] = task(period, worst, fixed, floor);
                list
            };
            let with_fixed = |period, worst, fixed| with_all(period, worst, fixed, 0);
            let with = |period, worst| with_fixed(period, worst, 0);
            // One tick of 65,535 for each task.
            wants(&with(65_535, 1), accepted(0, 65_535));
            // All of the ticks for one task, and one for each of the others.
            let full = if count == 1 { accepted(0, 1) } else { Err(8) };
            wants(&with(1, 1), full);
            // 52,429 ticks at 20 a tick, and 104,858 at 10.
            wants(&with(65_535, 1_048_575), accepted(1, 65_535));
            wants(&with(0, 1), Err(6));
            wants(&with(65_535, 0), Err(6));
            for period in past(16) {
                wants(&with(period, 1), Err(6));
            }
            for worst in past(20) {
                wants(&with(65_535, worst), Err(6));
            }
            for fixed in [1, 127, 128, 254, 255] {
                wants(&with_fixed(65_535, 1, fixed), accepted(0, 65_535));
            }
            for fixed in past(8) {
                wants(&with_fixed(65_535, 1, fixed), Err(6));
            }
            for floor in 1..8 {
                wants(&with_all(65_535, 1, 0, floor), accepted(0, 65_535));
            }
            // With the high bit left out, the second ones are levels.
            for floor in past(3).into_iter().chain((3..32).map(|bit| (1 << bit) + 2)) {
                wants(&with_all(65_535, 1, 0, floor), Err(24));
            }
        }
    }
    // 1,048,575 units at 100 a tick are 10,486 ticks.
    wants(&tasks(&[(10_486, 1_048_575)]), accepted(7, 10_486));
    wants(&tasks(&[(10_485, 1_048_575)]), Err(8));
}

/// Would catch a limit that is off by one, a multiple that is not the least, and a product that
/// wraps at 32 or 64 bits.
#[test]
fn hyperperiods_around_a_million() {
    wants(&tasks(&[(15_625, 1), (64, 1)]), accepted(0, 1_000_000));
    wants(&tasks(&[(64, 1), (15_625, 1)]), accepted(0, 1_000_000));
    // The product of these two is far above, the least common multiple is not.
    wants(&tasks(&[(62_500, 1), (40_000, 1)]), accepted(0, 1_000_000));
    wants(&tasks(&[(999, 1), (1_000, 1)]), accepted(0, 999_000));
    wants(&tasks(&[(37, 1), (27_027, 1)]), accepted(0, 999_999));
    // 101 times 9,901 is 1,000,001.
    wants(&tasks(&[(101, 1), (9_901, 1)]), Err(7));
    wants(&tasks(&[(1_000, 1), (1_001, 1)]), Err(7));
    // 580 and 113 have 65,540, and times 65,533 that is 65,524 more than 2 to the 32.
    for order in [[580, 113, 65_533], [65_533, 113, 580], [113, 65_533, 580]] {
        wants(&tasks(&order.map(|period| (period, 1))), Err(7));
    }
    let primes = [
        65_521, 65_519, 65_497, 65_479, 65_449, 65_447, 65_437, 65_423, 65_419, 65_413, 65_407,
        65_393, 65_381, 65_371, 65_357, 65_353,
    ];
    wants(&tasks(&primes.map(|period| (period, 1))), Err(7));
}

/// Would catch a wrong speed, a time needed that is rounded down, and a level that is not the
/// lowest.
#[test]
fn one_tick_holds_a_levels_speed_and_no_more() {
    let levels = Levels::base();
    for (level, speed) in levels.speeds().iter().enumerate() {
        wants(&tasks(&[(1, *speed)]), accepted(level as u64, 1));
        let over = if level < levels.top() {
            accepted(level as u64 + 1, 1)
        } else {
            Err(8)
        };
        wants(&tasks(&[(1, speed + 1)]), over);
    }
}

/// Would catch a sum that must stay below the hyperperiod, or may go over it.
#[test]
fn the_bench_plan_fills_30_of_30() {
    wants(&bench_plan(), accepted(7, 30));
    wants(&tasks(&[(10, 400), (10, 400), (30, 601)]), Err(8));
    wants(&tasks(&[(10, 400), (10, 401), (30, 600)]), Err(8));
    wants(&tasks(&[(10, 400), (10, 400), (29, 600)]), Err(8));
}

/// Would catch numbers read past the end of their list, a list that must have the count's length,
/// and tasks past the count that are asked about.
#[test]
fn numbers_that_are_not_there_are_zero() {
    let levels = Levels::base();
    let mut both = Both::new(&levels);
    assert_eq!(both.judge(1, &[]), Err(6));
    assert_eq!(both.judge(1, &[40]), Err(6));
    assert_eq!(both.judge(2, &[40, 300]), Err(6));
    assert_eq!(both.judge(2, &[40, 300, 40]), Err(6));
    assert_eq!(both.write(2, &[40, 300, 40], 80), Err(6));
    assert_eq!(both.judge(2, &[40, 300, 0, 0, 40]), Err(6));
    assert_eq!(both.judge(1, &[40, 300, 0, 0, u32::MAX]), accepted(0, 40));
    assert_eq!(both.judge(1, &[40, 300, 256, 0, 40]), Err(6));
    assert_eq!(both.judge(1, &[40, 300, 0, u32::MAX]), Err(24));
    let written = both.write(1, &[40, 300, 0, 0, u32::MAX, 7, 9], 80);
    assert_eq!(written.as_deref(), Ok(&EXAMPLE[..]));
    let written = both.write(1, &[40, 300, 5, 0, u32::MAX, 7, 9], 80);
    assert_eq!(written.as_deref(), Ok(&FIXED_EXAMPLE[..]));
    let written = both.write(1, &[40, 300, 5, 3, u32::MAX, 7, 9], 80);
    assert_eq!(written.as_deref(), Ok(&BOTH_EXAMPLE[..]));
    // Sixteen tasks of 1 + 50 ticks each in 1,000, and more numbers than a plan has places for.
    let mut many = [[1_000, 1_000, 1, 2]; 20].concat();
    assert_eq!(both.judge(16, &many), accepted(1, 1_000));
    assert_eq!(both.judge(16, &many[..64]), accepted(1, 1_000));
    // Without the last number the last task has no floor, and without the one before no fixed ticks.
    assert_eq!(both.judge(16, &many[..63]), accepted(1, 1_000));
    assert_eq!(both.judge(16, &many[..62]), accepted(1, 1_000));
    assert_eq!(both.judge(16, &many[..61]), Err(6));
    many[64..].fill(0);
    assert_eq!(both.judge(16, &many), accepted(1, 1_000));
    assert_eq!(both.judge(17, &many), Err(3));
}

/// A caller of before 02's No. 8 hands over three numbers a task. Would catch a change of what it gets:
/// with one task the same as ever, as the floor that is not there is 0; with two, what they say when read
/// four a task; with more, 6 always, as the last task then has no worst case.
#[test]
fn three_numbers_a_task_of_an_older_caller() {
    let mut both = Both::new(&Levels::base());
    assert_eq!(both.judge(1, &[40, 300, 5]), accepted(0, 40));
    let written = both.write(1, &[40, 300, 5], 8);
    assert_eq!(written.as_deref(), Ok(&FIXED_EXAMPLE[..]));
    assert_eq!(both.write(1, &[40, 300, 0], 8).as_deref(), Ok(&EXAMPLE[..]));
    // Of two, the second's period is the first's floor, its worst case is its period, and its fixed ticks
    // are its worst case. Without these that is 6; with some, 24 if the floor is no level.
    assert_eq!(both.judge(2, &[40, 300, 0, 40, 300, 0]), Err(6));
    assert_eq!(both.judge(2, &[40, 300, 5, 8, 300, 5]), Err(24));
    assert_eq!(both.judge(2, &[40, 300, 5, 40, 65_536, 5]), Err(6));
    // A period that is a level is taken for one, and then another plan is judged, written or refused:
    // (40, 300, 5, 7) and (300, 5).
    assert_eq!(both.judge(2, &[40, 300, 5, 7, 300, 5]), accepted(0, 600));
    let other = both.write(2, &[40, 300, 5, 7, 300, 5], 80);
    let same = both.write(2, &[40, 300, 5, 7, 300, 5, 0, 0], 80);
    assert_eq!((other.is_ok(), other), (true, same));
    assert_eq!(both.judge(2, &[997, 300, 5, 7, 1_009, 5]), Err(7));
    assert_eq!(both.judge(2, &[30, 300, 0, 7, 1, 255]), Err(8));
    for count in 3..=16 {
        for each in [[40, 300, 5], [7, 7, 7], [40, 300, 0]] {
            let numbers = vec![each; count].concat();
            assert_eq!(both.judge(count, &numbers), Err(6));
            assert_eq!(both.write(count, &numbers, 100), Err(6));
        }
    }
}
