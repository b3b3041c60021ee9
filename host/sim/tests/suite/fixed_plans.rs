//! 02, No. 2: plans with fixed ticks, their blocks and how the bench cuts them, on each side of every
//! edge.

use crate::base::{judge, judge_list, listing, read_plan, start, write_plan, BASE_LEVELS};
use crate::common::{bench_plan, fixed_tasks, led, sensor_plan, tasks, BENCH_BLOCK};
use sim::block::{block_bytes, pack_block, Edition};
use sim::layout::STATE_BYTES;
use sim::plan::Task;
use sim::random::blocks::{block_of, block_of_no_additions};
use sim::state::unpack;

/// Period 40, worst case 300 and 5 fixed ticks, packed by hand: 0010 00001, 16 and 20 bits as in 01's
/// example, 00000101, and 000 for no floor. That is 56 bits, so no closing bit.
const EXAMPLE: [u8; 7] = [0x20, 0x80, 0x14, 0x00, 0x09, 0x60, 0x28];

/// Each call that reads the block wants this refusal, with no byte changed.
#[track_caller]
fn refuses_block(block: &[u8], number: u32) {
    assert_eq!(read_plan(block), Err(number));
    for length in [0, 96, STATE_BYTES] {
        let mut lent = vec![0xa5; length];
        assert_eq!(start(block, &mut lent), Err(number));
        assert_eq!(sim::copy_plan(&BASE_LEVELS, block, &mut lent), Err(number));
        assert_eq!(lent, vec![0xa5; length]);
    }
}

/// Reads the block as these tasks, and copies it to the byte.
#[track_caller]
fn accepts_block(block: &[u8], plan: &[Task]) {
    let (read, judged) = read_plan(block).unwrap();
    assert_eq!(read, plan);
    assert_eq!(judge_list(plan), Ok(judged));
    let mut buffer = [0xa5; 97];
    let copied = sim::copy_plan(&BASE_LEVELS, block, &mut buffer);
    assert_eq!(copied, Ok(block.len()));
    assert_eq!(&buffer[..block.len()], block);
    assert!(buffer[block.len()..].iter().all(|byte| *byte == 0xa5));
    assert!(start(block, &mut [0; STATE_BYTES]).is_ok());
}

/// A block of edition 2 with one of its bits turned over.
fn flipped(mut block: Vec<u8>, place: usize) -> Vec<u8> {
    block[place / 8] ^= 0x80 >> (place % 8);
    block
}

#[test]
fn the_example_of_edition_2() {
    let plan = fixed_tasks(&[(40, 300, 5)]);
    accepts_block(&EXAMPLE, &plan);
    let mut buffer = [0xa5; 8];
    assert_eq!(write_plan(1, &plan, &mut buffer), Ok(7));
    assert_eq!((&buffer[..7], buffer[7]), (&EXAMPLE[..], 0xa5));
    assert_eq!(write_plan(1, &plan, &mut [0; 6]), Err(9));
    // 5 and 30 of 40 ticks at level 0; 10 and 30; not 11 and 30, but 11 and 15 at level 1.
    let nominal = |fixed| judge_list(&fixed_tasks(&[(40, 300, fixed)])).map(|it| it.nominal);
    assert_eq!(
        [nominal(5), nominal(10), nominal(11)],
        [Ok(0), Ok(0), Ok(1)]
    );
}

#[test]
fn blocks_of_edition_2_have_7_to_96_bytes() {
    let sizes = [
        7, 13, 19, 25, 31, 37, 43, 49, 54, 60, 66, 72, 78, 84, 90, 96,
    ];
    for (before, size) in sizes.into_iter().enumerate() {
        let plan = fixed_tasks(&vec![(4_000, 37, 5); before + 1]);
        let count = plan.len() as u64;
        assert_eq!(block_bytes(Edition::SECOND, count), size);
        let block = block_of(&plan);
        assert_eq!(block.len(), size);
        accepts_block(&block, &plan);
        assert_eq!(write_plan(count, &plan, &mut vec![0; size - 1]), Err(9));
    }
}

#[test]
fn the_edition_that_is_written() {
    let edition = |plan: &[Task]| {
        let mut buffer = [0; 96];
        let length = write_plan(plan.len() as u64, plan, &mut buffer).unwrap();
        assert_eq!(read_plan(&buffer[..length]).unwrap().0, plan);
        (buffer[0] >> 4, length)
    };
    for count in 1..=16 {
        let mut plan = tasks(&vec![(4_000, 37); count]);
        let (first, second) = ((9 + 36 * count + 7) / 8, (9 + 47 * count + 7) / 8);
        assert_eq!(edition(&plan), (1, first));
        // A single fixed tick of any task will do.
        for place in 0..count {
            plan[place].fixed = 1;
            assert_eq!(edition(&plan), (2, second));
            plan[place].fixed = 0;
        }
    }
    // One past the count doesn't.
    let mut plan = tasks(&[(4_000, 37); 3]);
    plan[2].fixed = 1;
    let mut buffer = [0; 96];
    assert_eq!(
        (write_plan(2, &plan, &mut buffer), buffer[0]),
        (Ok(11), 0x11)
    );
    assert_eq!(
        (write_plan(3, &plan, &mut buffer), buffer[0]),
        (Ok(19), 0x21)
    );
}

#[test]
fn every_number_of_fixed_ticks_comes_back() {
    for fixed in 0..=255 {
        let plan = fixed_tasks(&[(4_000, 37, fixed), (4_000, 37, 255 - fixed)]);
        let block = block_of(&plan);
        assert_eq!(block[0] >> 4, 2);
        accepts_block(&block, &plan);
        let (state, _) = led(&plan, &[]);
        assert_eq!(unpack(&state).unwrap().tasks(), plan);
    }
}

#[test]
fn editions_1_and_2_and_no_other() {
    let plan = fixed_tasks(&[(40, 300, 5), (40, 300, 0)]);
    accepts_block(&pack_block(Edition::SECOND, 2, &plan), &plan);
    accepts_block(
        &pack_block(Edition::FIRST, 2, &tasks(&[(40, 300); 2])),
        &tasks(&[(40, 300); 2]),
    );
    for edition in [0, 3, 4, 7, 8, 15] {
        // Of either edition's length, with bad counts and with closing bits set.
        for mut block in [block_of(&plan), block_of(&tasks(&[(40, 300); 2]))] {
            block[0] = (edition << 4) | (block[0] & 0x0f);
            refuses_block(&block, 2);
            block[1] &= 0x7f;
            *block.last_mut().unwrap() |= 1;
            refuses_block(&block, 2);
        }
    }
}

#[test]
fn each_edition_has_its_own_length() {
    for count in 1..=16 {
        let plan = fixed_tasks(&vec![(4_000, 37, 5); count]);
        let second = block_of(&plan);
        let first = pack_block(Edition::FIRST, count as u64, &plan);
        for length in 2..second.len() {
            refuses_block(&second[..length], 4);
        }
        refuses_block(&[&second[..], &[0]].concat(), 4);
        // The one's number with the other's length.
        let number = |block: &[u8], edition: u8| {
            let mut other = block.to_vec();
            other[0] = (edition << 4) | (block[0] & 0x0f);
            other
        };
        refuses_block(&number(&second, 1), 4);
        refuses_block(&number(&first, 2), 4);
    }
}

/// 02, No. 8: the three bits behind the fixed ticks, which were spare and tested under 5, are the floor.
#[test]
fn floor_and_closing_bits() {
    for count in 1..=16 {
        let good = fixed_tasks(&vec![(4_000, 37, 4); count]);
        // 6 and 21 come later.
        let bad = fixed_tasks(&vec![(0, 37, 0); count]);
        for (plan, number) in [(good, None), (bad, Some(6))] {
            let block = pack_block(Edition::SECOND, count as u64, &plan);
            let end = 9 + 47 * count;
            for task in 0..count {
                for (bit, floor) in [(44, 4), (45, 2), (46, 1)] {
                    let other = flipped(block.clone(), 9 + 47 * task + bit);
                    let mut floored = plan.clone();
                    floored[task].floor = floor;
                    match number {
                        Some(number) => refuses_block(&other, number),
                        None => accepts_block(&other, &floored),
                    }
                }
            }
            for closing in end..8 * block.len() {
                refuses_block(&flipped(block.clone(), closing), 5);
            }
        }
    }
    // The bit before the floor is the last of the fixed ticks, the one behind it is the next task's or a
    // closing one.
    let plan = fixed_tasks(&[(4_000, 37, 4), (4_000, 37, 4)]);
    let odd = fixed_tasks(&[(4_000, 37, 5), (4_000, 37, 4)]);
    accepts_block(&flipped(block_of(&plan), 9 + 43), &odd);
    let longer = fixed_tasks(&[(4_000, 37, 4), (4_000 + 32_768, 37, 4)]);
    assert_eq!(flipped(block_of(&plan), 9 + 47), block_of(&longer));
}

#[test]
fn number_6_for_fixed_ticks() {
    for past in [256, 257, 511, 512, 65_536, 1 << 32, u64::MAX] {
        for place in 0..3 {
            let mut plan = fixed_tasks(&[(4_000, 37, 255); 3]);
            assert!(judge_list(&plan).is_ok());
            plan[place].fixed = past;
            assert_eq!(judge_list(&plan), Err(6));
            assert_eq!(judge(3, &plan), Err(6));
            assert_eq!(write_plan(3, &plan, &mut [0; 96]), Err(6));
            assert_eq!(write_plan(3, &plan, &mut []), Err(6));
            // Past the count they are not looked at.
            assert_eq!(judge(place as u64, &plan).is_ok(), place > 0);
        }
    }
    // Before 7 and 8.
    let over = fixed_tasks(&[(1_000, 1, 0), (1_001, 1, 256)]);
    assert_eq!(judge_list(&over), Err(6));
    assert_eq!(judge_list(&fixed_tasks(&[(1, 101, 256)])), Err(6));
    // After 3.
    assert_eq!(judge_list(&fixed_tasks(&[(1, 1, 256); 17])), Err(3));
}

#[test]
fn number_8_for_fixed_ticks_alone() {
    let nominal = |fixed| judge_list(&fixed_tasks(&[(10, 40, fixed)])).map(|it| it.nominal);
    // 6 + 4 at 10 a tick, 8 + 2 at 20, 9 + 1 at 40; 10 + 1 is too much at every level.
    assert_eq!([nominal(0), nominal(6), nominal(7)], [Ok(0), Ok(0), Ok(1)]);
    assert_eq!(
        [nominal(8), nominal(9), nominal(10)],
        [Ok(1), Ok(3), Err(8)]
    );
    refuses_block(&block_of(&fixed_tasks(&[(10, 40, 10)])), 8);
    assert!(judge_list(&fixed_tasks(&[(256, 100, 255)])).is_ok());
    assert_eq!(judge_list(&fixed_tasks(&[(255, 100, 255)])), Err(8));
    // The bench plan fills 30 of 30 ticks: there is no room for a fixed one in any of its tasks.
    for place in 0..3 {
        let mut plan = bench_plan();
        plan[place].fixed = 1;
        assert_eq!(judge_list(&plan), Err(8));
        refuses_block(&block_of(&plan), 8);
        assert_eq!(write_plan(3, &plan, &mut [0; 96]), Err(8));
    }
    // A fixed tick counts once for each job: 15 and 15 of 30 ticks, then 18 and 15.
    assert!(judge_list(&fixed_tasks(&[(10, 400, 1), (30, 1_500, 0)])).is_ok());
    assert_eq!(
        judge_list(&fixed_tasks(&[(10, 400, 2), (30, 1_500, 0)])),
        Err(8)
    );
    // Before it 7.
    let long = fixed_tasks(&[(1_000, 1, 255), (1_001, 1_048_575, 255)]);
    refuses_block(&block_of(&long), 7);
}

#[test]
fn number_21() {
    refuses_block(&block_of_no_additions(&bench_plan()), 21);
    for count in 1..=16 {
        let mut plan = tasks(&vec![(4_000, 37); count]);
        let block = block_of_no_additions(&plan);
        refuses_block(&block, 21);
        // Judging and writing don't put it, and what is written is edition 1.
        assert!(judge_list(&plan).is_ok());
        assert_eq!(
            write_plan(count as u64, &plan, &mut [0; 74]),
            Ok((9 + 36 * count + 7) / 8)
        );
        // The other side: one fixed tick in any task.
        for place in 0..count {
            plan[place].fixed = 1;
            accepts_block(&block_of(&plan), &plan);
            plan[place].fixed = 0;
        }
        // After 4 and 5. With one task and with nine there is no closing bit.
        refuses_block(&block[..block.len() - 1], 4);
        let last = 8 * block.len() - 1;
        if last >= 9 + 47 * count {
            refuses_block(&flipped(block.clone(), last), 5);
        }
    }
    // After 6.
    refuses_block(&block_of_no_additions(&tasks(&[(0, 37)])), 6);
    refuses_block(&block_of_no_additions(&tasks(&[(40, 37), (40, 0)])), 6);
    // Before 7 and 8.
    let long = tasks(&[(1_000, 1), (1_001, 1)]);
    refuses_block(&block_of_no_additions(&long), 21);
    refuses_block(&block_of(&long), 7);
    let full = tasks(&[(1, 101)]);
    refuses_block(&block_of_no_additions(&full), 21);
    refuses_block(&block_of(&full), 8);
    // After 3, with nothing behind the count.
    refuses_block(&[0x20, 0x00], 3);
    refuses_block(&[0x28, 0x80], 3);
}

fn text(rest: &[u8]) -> String {
    String::from_utf8(listing(rest)).unwrap()
}

#[test]
fn the_bench_cuts_by_edition_too() {
    let block = block_of(&sensor_plan());
    assert_eq!(block.len(), 13);
    let start = "plan 2 3 40\n0 run 0 3 5\n";
    assert_eq!(text(&block), start);
    // The pass follows the thirteenth byte.
    let passed = [&block[..], &[0x80, 0x05]].concat();
    assert_eq!(text(&passed), start.to_string() + "5 run 1 3 5\n");
    let odd = [&block[..], &[0x80]].concat();
    assert_eq!(text(&odd), start.to_string() + "refused 16\n");
    // Cut as edition 1, it would be read from 11 bytes.
    for length in 2..13 {
        assert_eq!(text(&block[..length]), "refused 4\n");
    }
    // The same tasks in edition 1: the passes follow the eleventh byte. At 30 units a tick they take
    // 16 and 17 of 40.
    let first = pack_block(Edition::FIRST, 2, &sensor_plan());
    let passed = [&first[..], &[0x80, 0x04]].concat();
    assert_eq!(text(&passed), "plan 2 2 40\n0 run 0 2 4\n4 run 1 2 6\n");
    // With 21 and with 5 there is one line, whatever follows. The last bit is a closing one.
    let needless = [&block_of_no_additions(&sensor_plan())[..], &[0x80, 0x05]].concat();
    assert_eq!(text(&needless), "refused 21\n");
    let closing = [&flipped(block, 9 + 94)[..], &[0x80, 0x05]].concat();
    assert_eq!(text(&closing), "refused 5\n");
}

#[test]
fn other_editions_are_cut_as_1() {
    for count in 1..=16 {
        let first = block_bytes(Edition::FIRST, count);
        assert!(first < block_bytes(Edition::SECOND, count));
        for edition in [0, 3, 4, 15].map(Edition) {
            assert_eq!(block_bytes(edition, count), first);
        }
    }
    for edition in [0x01, 0x31, 0xf1] {
        let mut block = BENCH_BLOCK;
        block[0] = edition;
        assert_eq!(
            text(&[&block[..], &[0x80, 0x01, 0x00]].concat()),
            "refused 2\n"
        );
    }
}

#[test]
fn a_listing_with_fixed_ticks() {
    // At 1 task 0 ends inside its fixed ticks. Task 1 has 4 + 19 ticks, and 6 + 17 at 30 units. At
    // 4 it has used 3 of its fixed ticks, at 10 all of them and 3 ticks at 30. At 11 there are 4 +
    // 14 ticks for 410 units, 14 at 30; 21 at 20 are too many. At 25 there are 9 for 140, 7 at 20.
    // It ends at 30 with 4 of its plain ticks left; its deadline is task 0's and it came first, so
    // they count: 9 for 2 + 5 at 20.
    let passes = [
        0x80, 0x01, 0x00, 0x03, 0x00, 0x06, 0x80, 0x01, 0x00, 0x09, 0x80, 0x05, 0x80, 0x05,
    ];
    let expected = "\
plan 2 3 40
0 run 0 3 5
1 run 1 2 9
4 run 1 2 6
10 run 0 3 5
11 run 1 2 9
20 run 0 3 5
25 run 1 1 5
30 run 0 1 7
";
    let input = [&block_of(&sensor_plan())[..], &passes].concat();
    assert_eq!(text(&input), expected);
}
