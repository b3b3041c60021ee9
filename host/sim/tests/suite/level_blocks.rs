//! 02, No. 1: the level block, on each side of 18, 19 and 20, and in front of every call that takes a
//! plan.

use crate::base::BASE_LEVELS;
use crate::common::{bench_plan, run, tasks, BENCH_BLOCK};
use sim::layout::{self, STATE_BYTES};
use sim::level_block::{level_block_bytes, pack_levels};
use sim::plan::Task;
use sim::random::blocks::block_of;
use sim::{read_levels, write_levels, Levels};

/// Reads the block, and puts it in front of each call that takes a plan, and wants this refusal of
/// all, with no byte changed. Some of the plans after it would be refused as well, but that is asked
/// later.
#[track_caller]
fn refuses(levels: &[u8], number: u32) {
    assert_eq!(read_levels(levels), Err(number));
    let bad = tasks(&[(0, 0)]);
    for (count, list) in [(3, bench_plan()), (1, bad), (0, Vec::new())] {
        assert_eq!(sim::judge(levels, count, &list), Err(number));
        assert_eq!(sim::judge_list(levels, &list), Err(number));
        refuses_buffers(levels, &list, number);
    }
    for block in [&BENCH_BLOCK[..], &[], &[0x30, 0x00]] {
        assert_eq!(sim::read_plan(levels, block), Err(number));
    }
    // In a listing, where 17 alone comes before it.
    let line = format!("refused {number}\n");
    assert_eq!(sim::listing(levels), line.as_bytes());
}

/// The same of the calls that are lent a buffer.
#[track_caller]
fn refuses_buffers(levels: &[u8], list: &[Task], number: u32) {
    let count = list.len() as u64;
    for length in [0, 14, STATE_BYTES - 1, STATE_BYTES, 300] {
        let mut buffer = vec![0xa5; length];
        let written = sim::write_plan(levels, count, list, &mut buffer);
        assert_eq!(written, Err(number));
        let block = block_of(list);
        assert_eq!(sim::copy_plan(levels, &block, &mut buffer), Err(number));
        assert_eq!(sim::start(levels, &block, &[], &mut buffer), Err(number));
        assert_eq!(buffer, vec![0xa5; length]);
    }
}

/// The block of these speeds and their own count is read as these.
#[track_caller]
fn accepts(speeds: &[u64]) {
    let block = pack_levels(speeds.len() as u64, speeds);
    let levels = read_levels(&block).unwrap();
    assert_eq!(levels.speeds(), speeds);
    assert_eq!(write_levels(&levels), block);
}

#[test]
fn the_block_of_01s_speeds() {
    assert_eq!(read_levels(&BASE_LEVELS), Ok(Levels::base()));
    assert_eq!(write_levels(&Levels::base()), BASE_LEVELS);
}

#[test]
fn blocks_have_2_to_11_bytes() {
    let sizes = [2, 3, 5, 6, 7, 8, 10, 11];
    for (before, size) in sizes.into_iter().enumerate() {
        let speeds: Vec<u64> = (1..=before as u64 + 1).collect();
        assert_eq!(write_levels(&Levels::new(&speeds)).len(), size);
        assert_eq!(level_block_bytes(before as u64 + 1), size);
        accepts(&speeds);
    }
}

#[test]
fn number_18() {
    refuses(&[], 18);
    let eight = BASE_LEVELS;
    for count in [0, 9, 10, 14, 15] {
        let mut block = eight;
        block[0] = count << 4 | eight[0] & 0x0f;
        refuses(&block, 18);
        // Before a wrong length, a closing bit and a speed of 0.
        refuses(&block[..1], 18);
        refuses(&[count << 4, 0, 0, 1], 18);
    }
    // The other side: a count of 8, and of 1 with its own length.
    assert!(read_levels(&eight).is_ok());
    accepts(&[1]);
}

#[test]
fn number_19_for_the_length() {
    for count in 1..=8 {
        let speeds: Vec<u64> = (1..=count).map(|place| 100 * place).collect();
        let block = pack_levels(count, &speeds);
        accepts(&speeds);
        // A block shorter than its count needs, down to the byte with the count.
        for length in 1..block.len() {
            refuses(&block[..length], 19);
        }
        // One byte longer, or more; in a listing these are the plan's.
        for (more, line) in [
            (&[0][..], "refused 1\n"),
            (&[1], "refused 1\n"),
            (&[0; 9], "refused 2\n"),
        ] {
            let longer = [&block[..], more].concat();
            assert_eq!(read_levels(&longer), Err(19));
            assert_eq!(sim::judge_list(&longer, &bench_plan()), Err(19));
            assert_eq!(sim::listing(&longer), line.as_bytes());
        }
        // The length of another count.
        let other = count % 8 + 1;
        let mut swapped = block.clone();
        swapped[0] = (other as u8) << 4 | block[0] & 0x0f;
        assert_eq!(read_levels(&swapped), Err(19));
    }
    // Before a speed of 0.
    refuses(&[0x20, 0x00], 19);
}

#[test]
fn number_19_for_the_closing_bits() {
    let closing = [2, 0, 6, 4, 2, 0, 6, 4];
    for (before, bits) in closing.into_iter().enumerate() {
        let count = before as u64 + 1;
        let speeds: Vec<u64> = (1..=count).collect();
        for bit in 0..bits {
            let mut block = pack_levels(count, &speeds);
            *block.last_mut().unwrap() |= 1 << bit;
            refuses(&block, 19);
            // Before a speed of 0 and one that doesn't rise.
            let mut zeros = pack_levels(count, &vec![0; count as usize]);
            *zeros.last_mut().unwrap() |= 1 << bit;
            refuses(&zeros, 19);
        }
        // The bit above them is the last speed's.
        let mut block = pack_levels(count, &speeds);
        *block.last_mut().unwrap() ^= 1 << bits;
        assert_ne!(read_levels(&block), Err(19));
    }
}

#[test]
fn number_20_for_the_range() {
    for count in 1..=8 {
        for place in 0..count {
            // The smallest and the largest speeds that still rise through that place.
            let low: Vec<u64> = (1..=count as u64).collect();
            let high: Vec<u64> = (0..count as u64)
                .map(|n| 1_001 + n - count as u64)
                .collect();
            accepts(&low);
            accepts(&high);
            for (speeds, out) in [(&low, 0), (&high, 1_001), (&high, 1_023)] {
                let mut bad = speeds.clone();
                bad[place] = out;
                refuses(&pack_levels(count as u64, &bad), 20);
            }
        }
    }
    // In order and next to each other, so that the range alone is against them.
    refuses(&pack_levels(1, &[0]), 20);
    refuses(&pack_levels(2, &[0, 1]), 20);
    refuses(&pack_levels(2, &[1_000, 1_001]), 20);
    refuses(&pack_levels(1, &[1_001]), 20);
    accepts(&[1]);
    accepts(&[1_000]);
    accepts(&[1, 1_000]);
}

#[test]
fn number_20_for_speeds_that_do_not_rise() {
    for count in 2..=8 {
        for place in 1..count {
            let good: Vec<u64> = (1..=count as u64).map(|n| 10 * n).collect();
            let mut equal = good.clone();
            equal[place] = equal[place - 1];
            refuses(&pack_levels(count as u64, &equal), 20);
            let mut falling = good.clone();
            falling[place] = falling[place - 1] - 1;
            refuses(&pack_levels(count as u64, &falling), 20);
            let mut rising = good.clone();
            rising[place] = rising[place - 1] + 1;
            accepts(&rising);
        }
    }
    refuses(&pack_levels(2, &[1_000, 1_000]), 20);
    refuses(&pack_levels(2, &[2, 1]), 20);
    refuses(&pack_levels(2, &[1_000, 1]), 20);
}

#[test]
fn a_plan_that_one_table_admits_and_another_refuses() {
    // The bench plan fills 30 of 30 ticks at 100 a tick.
    let fast = pack_levels(3, &[7, 90, 100]);
    let slow = pack_levels(3, &[7, 90, 99]);
    let mut buffer = [0; 15];
    let mut state = [0; STATE_BYTES];
    let judged = sim::judge_list(&fast, &bench_plan()).unwrap();
    assert_eq!((judged.nominal, judged.hyperperiod), (2, 30));
    assert_eq!(sim::judge(&fast, 3, &bench_plan()), Ok(judged));
    assert_eq!(
        sim::read_plan(&fast, &BENCH_BLOCK),
        Ok((bench_plan(), judged))
    );
    assert_eq!(
        sim::write_plan(&fast, 3, &bench_plan(), &mut buffer),
        Ok(15)
    );
    assert_eq!(sim::copy_plan(&fast, &BENCH_BLOCK, &mut buffer), Ok(15));
    assert_eq!(buffer, BENCH_BLOCK);
    assert_eq!(
        sim::start(&fast, &BENCH_BLOCK, &[], &mut state),
        Ok(run(0, 2, 4))
    );
    // Refused, and nothing changed.
    let before = state;
    assert_eq!(sim::judge(&slow, 3, &bench_plan()), Err(8));
    assert_eq!(sim::judge_list(&slow, &bench_plan()), Err(8));
    assert_eq!(sim::read_plan(&slow, &BENCH_BLOCK), Err(8));
    assert_eq!(
        sim::write_plan(&slow, 3, &bench_plan(), &mut buffer),
        Err(8)
    );
    assert_eq!(sim::copy_plan(&slow, &BENCH_BLOCK, &mut buffer), Err(8));
    assert_eq!(sim::start(&slow, &BENCH_BLOCK, &[], &mut state), Err(8));
    assert_eq!((buffer, state), (BENCH_BLOCK, before));
}

#[test]
fn copying_reads_then_asks_for_room() {
    let mut buffer = [0xa5; 16];
    assert_eq!(
        sim::copy_plan(&BASE_LEVELS, &BENCH_BLOCK, &mut buffer),
        Ok(15)
    );
    assert_eq!((&buffer[..15], buffer[15]), (&BENCH_BLOCK[..], 0xa5));
    let mut short = [0xa5; 14];
    assert_eq!(
        sim::copy_plan(&BASE_LEVELS, &BENCH_BLOCK, &mut short),
        Err(9)
    );
    assert_eq!(
        sim::copy_plan(&BASE_LEVELS, &BENCH_BLOCK[..14], &mut short),
        Err(4)
    );
    assert_eq!(short, [0xa5; 14]);
}

#[test]
fn the_state_has_the_table_that_was_loaded() {
    let started = |speeds: &[u64]| {
        let mut state = [0xa5; STATE_BYTES];
        let levels = pack_levels(speeds.len() as u64, speeds);
        sim::start(&levels, &block_of(&tasks(&[(40, 300)])), &[], &mut state).unwrap();
        state
    };
    let one = started(&[300]);
    assert_eq!(
        one[200..217],
        [1, 1, 44, 0, 0, 0, 0, 0, 0, 0, 0, 0, 0, 0, 0, 0, 0]
    );
    let three = started(&[1, 255, 1_000]);
    let expected = [3, 0, 1, 0, 255, 3, 232, 0, 0, 0, 0, 0, 0, 0, 0, 0, 0];
    assert_eq!(three[200..217], expected);
    // Passing leaves it as it was.
    let mut led = three;
    sim::pass(&mut led, 1, true).unwrap();
    assert_eq!(led[200..217], expected);
    assert_eq!(layout::LEVEL_COUNT.get(&led), 3);
    assert_eq!(layout::speed_of(2).get(&led), 1_000);
}
