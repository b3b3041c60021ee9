//! Each refusal number from 1 to 9, 21 and 24 is reached, from every call that can give it, and where
//! several questions would say no the first decides. 18 to 20 are in `levels`, and 22 in `pairs`.

use crate::both::{Both, Call, ACCEPTED};
use crate::made::{bench_plan, fixed_tasks, floor_tasks, numbers_of, tasks};
use sim::block::{pack_block, Edition};
use sim::levels::Levels;
use sim::plan::Task;
use sim::random::blocks::{block_of, block_of_no_additions};

/// Reading and copying refuse the block so, however long the buffer, and so does asking about its pairs,
/// whatever the list.
#[track_caller]
fn refuses_block(both: &mut Both, block: &[u8], number: u32) {
    assert_eq!(both.read(block), Err(number));
    for pairs in [&[][..], &[0, 1], &[1, 0], &[0], &[0xff; 2], &[0; 34]] {
        assert_eq!(both.pairs(block, pairs), Err(number));
    }
    for room in [0, 1, block.len(), 96, 110] {
        assert_eq!(both.copy(block, room), Err(number));
    }
}

/// All five calls refuse the tasks so.
#[track_caller]
fn refuses_tasks(both: &mut Both, list: &[Task], number: u32) {
    let numbers = numbers_of(list);
    assert_eq!(both.judge(list.len(), &numbers), Err(number));
    for room in [0, 1, 96, 110] {
        assert_eq!(both.write(list.len(), &numbers, room), Err(number));
    }
    refuses_block(both, &block_of(list), number);
}

fn refusals_1_and_2(both: &mut Both) {
    for short in [&[][..], &[0x10], &[0x1f], &[0xff], &[0x00]] {
        refuses_block(both, short, 1);
    }
    for edition in [0].into_iter().chain(3..16).map(Edition) {
        refuses_block(both, &pack_block(edition, 3, &bench_plan()), 2);
        // With edition 2's length too.
        let mut long = block_of_no_additions(&bench_plan());
        long[0] = (edition.0 as u8) << 4 | long[0] & 0x0f;
        refuses_block(both, &long, 2);
        // Before a bad count, a bad length and a bad field.
        refuses_block(both, &pack_block(edition, 0, &[]), 2);
        refuses_block(both, &pack_block(edition, 17, &tasks(&[(0, 0)])), 2);
    }
}

fn refusals_3_and_4(both: &mut Both) {
    for count in [0].into_iter().chain(17..32) {
        // Before a bad length and a bad field.
        refuses_block(both, &pack_block(Edition::FIRST, count, &[]), 3);
        refuses_block(both, &pack_block(Edition::FIRST, count, &bench_plan()), 3);
        refuses_tasks(both, &tasks(&vec![(1_000, 1); count as usize]), 3);
        refuses_tasks(both, &tasks(&vec![(0, 0); count as usize]), 3);
    }
    let block = block_of(&bench_plan());
    for length in 2..block.len() {
        refuses_block(both, &block[..length], 4);
    }
    // Before a closing bit and a bad field.
    refuses_block(both, &[&block[..], &[0]].concat(), 4);
    refuses_block(both, &[&block[..], &[1]].concat(), 4);
    refuses_block(
        both,
        &pack_block(Edition::FIRST, 3, &tasks(&[(0, 0), (0, 0)])),
        4,
    );
}

fn refusals_5_and_6(both: &mut Both) {
    for bit in [1, 2, 4] {
        for list in [bench_plan(), tasks(&[(0, 0)]), tasks(&[(1, 101)])] {
            // Before a bad field, and before a plan that no level admits.
            let mut block = block_of(&list);
            *block.last_mut().unwrap() |= bit;
            refuses_block(both, &block, 5);
        }
    }
    refuses_tasks(both, &tasks(&[(0, 1)]), 6);
    refuses_tasks(both, &tasks(&[(1, 0)]), 6);
    // Before 7 and 8, though the tasks in front are enough for these.
    refuses_tasks(both, &tasks(&[(1_000, 1), (1_001, 1), (0, 1)]), 6);
    refuses_tasks(both, &tasks(&[(1, 101), (5, 0)]), 6);
}

fn refusals_7_to_9(both: &mut Both) {
    refuses_tasks(both, &tasks(&[(1_000, 1), (1_001, 1)]), 7);
    // Before 8.
    refuses_tasks(both, &tasks(&[(1_000, 900_000), (1_001, 900_000)]), 7);
    refuses_tasks(both, &tasks(&[(1, 101)]), 8);
    refuses_tasks(both, &tasks(&[(1, 1), (1, 1)]), 8);
    let numbers = numbers_of(&bench_plan());
    let block = block_of(&bench_plan());
    for room in 0..15 {
        assert_eq!(both.write(3, &numbers, room), Err(9));
        assert_eq!(both.copy(&block, room), Err(9));
    }
    assert_eq!(both.write(3, &numbers, 15).as_ref(), Ok(&block));
    assert_eq!(both.copy(&block, 15).as_ref(), Ok(&block));
    assert!(both.judge(3, &numbers).is_ok());
    assert!(both.read(&block).is_ok());
    assert_eq!(both.pairs(&block, &[0, 1]), Ok(1));
}

/// 21 is put in reading alone, after 6 and before 7 and 8.
fn refusal_21(both: &mut Both) {
    for list in [
        bench_plan(),
        tasks(&[(1_000, 1), (1_001, 1)]),
        tasks(&[(1, 101)]),
    ] {
        let block = block_of_no_additions(&list);
        refuses_block(both, &block, 21);
        // After the length.
        refuses_block(both, &block[..block.len() - 1], 4);
        // The last bit of two or three tasks is a closing one, which comes first. That of one task is its
        // floor's, and with a floor 21 is not said.
        let mut last_bit = block.clone();
        *last_bit.last_mut().unwrap() |= 1;
        let number = if list.len() > 1 { 5 } else { 8 };
        refuses_block(both, &last_bit, number);
    }
    refuses_block(both, &block_of_no_additions(&tasks(&[(0, 1)])), 6);
    refuses_block(both, &block_of_no_additions(&tasks(&[(1, 0)])), 6);
    // With a fixed tick they are refused as in edition 1, or accepted.
    refuses_tasks(both, &fixed_tasks(&[(1_000, 1, 0), (1_001, 1, 1)]), 7);
    refuses_tasks(both, &fixed_tasks(&[(1, 1, 1)]), 8);
    refuses_tasks(both, &fixed_tasks(&[(0, 1, 1)]), 6);
    let good = fixed_tasks(&[(10, 300, 0), (10, 300, 1)]);
    assert!(both.read(&block_of(&good)).is_ok());
    assert!(both.judge(2, &numbers_of(&good)).is_ok());
}

/// 24 is put wherever a plan is, after 6 and 21 and before 7 and 8. A floor of any size is asked about, in
/// a block only as far as its bits go: there it takes a table with fewer than eight levels.
fn refusal_24(both: &mut Both) {
    for floor in [8, 9, 15, 16, 256, 1 << 31, u32::MAX.into()] {
        let list = floor_tasks(&[(10, 300, 0, 0), (10, 300, 0, floor)]);
        let numbers = numbers_of(&list);
        assert_eq!(both.judge(2, &numbers), Err(24));
        for room in [0, 1, 96] {
            assert_eq!(both.write(2, &numbers, room), Err(24));
        }
    }
    both.load(&Levels::new(&[50, 100]));
    refuses_tasks(both, &floor_tasks(&[(10, 300, 0, 2)]), 24);
    refuses_tasks(both, &floor_tasks(&[(10, 300, 0, 7), (10, 300, 1, 0)]), 24);
    // After 3 and 6.
    refuses_tasks(both, &floor_tasks(&[(10, 300, 0, 2); 17]), 3);
    refuses_tasks(both, &floor_tasks(&[(0, 300, 0, 2)]), 6);
    refuses_tasks(both, &floor_tasks(&[(10, 300, 0, 2), (10, 0, 0, 0)]), 6);
    // Never with 21: a floor is an addition. Before 7 and 8.
    refuses_block(both, &block_of_no_additions(&bench_plan()), 21);
    refuses_tasks(
        both,
        &floor_tasks(&[(1_000, 1, 0, 2), (1_001, 1, 0, 0)]),
        24,
    );
    refuses_tasks(both, &floor_tasks(&[(1_000, 1, 0, 1), (1_001, 1, 0, 0)]), 7);
    refuses_tasks(both, &floor_tasks(&[(1, 101, 0, 2)]), 24);
    refuses_tasks(both, &floor_tasks(&[(1, 101, 0, 1)]), 8);
    let good = floor_tasks(&[(10, 300, 0, 1)]);
    assert!(both.read(&block_of(&good)).is_ok());
    both.load(&Levels::base());
}

/// Would catch a question left out, two in the wrong order, and a wrong number.
#[test]
fn every_number_from_every_call_that_gives_it() {
    let levels = Levels::base();
    let mut both = Both::new(&levels);
    refusals_1_and_2(&mut both);
    refusals_3_and_4(&mut both);
    refusals_5_and_6(&mut both);
    refusals_7_to_9(&mut both);
    refusal_21(&mut both);
    refusal_24(&mut both);
    let given = [
        (Call::Judge, &[3, 6, 7, 8, 24][..]),
        (Call::Read, &[1, 2, 3, 4, 5, 6, 7, 8, 21, 24]),
        (Call::Write, &[3, 6, 7, 8, 9, 24]),
        (Call::Copy, &[1, 2, 3, 4, 5, 6, 7, 8, 9, 21, 24]),
        (Call::Pairs, &[1, 2, 3, 4, 5, 6, 7, 8, 21, 24]),
    ];
    both.wants_never(Call::Judge, 21);
    both.wants_never(Call::Write, 21);
    for (call, numbers) in given {
        both.wants(call, ACCEPTED, 1);
        for number in numbers {
            both.wants(call, *number, 2);
        }
    }
    both.saw("every number", 2_000);
}

/// Would catch a count cut to fewer bits before it is asked about, and a plan of so many tasks read
/// past its places.
#[test]
fn counts_far_out_of_range() {
    let levels = Levels::base();
    let mut both = Both::new(&levels);
    let numbers = numbers_of(&tasks(&[(1_000, 1); 20]));
    for width in [5, 8, 16, 32, 63] {
        for low in 0..=16 {
            let count = (1usize << width) + low;
            assert_eq!(both.judge(count, &numbers), Err(3));
            assert_eq!(both.write(count, &numbers, 90), Err(3));
        }
    }
    let cut = [3, 4, 36, 47].map(|each| usize::MAX / each);
    for count in [usize::MAX, usize::MAX - 1, usize::MAX / 2]
        .into_iter()
        .chain(cut)
    {
        assert_eq!(both.judge(count, &numbers), Err(3));
        assert_eq!(both.write(count, &numbers, 90), Err(3));
    }
    assert!(both.judge(16, &numbers).is_ok());
    assert!(both.write(16, &numbers, 90).is_ok());
    both.saw("counts far out of range", 184);
    both.wants(Call::Judge, 3, 91);
    both.wants(Call::Write, 3, 91);
}
