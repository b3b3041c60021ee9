//! Each refusal number from 1 to 17 is reached, from every call that can give it, and the questions
//! come in 01's order. 18 to 20 are in `level_blocks`, 21 is in `fixed_plans`, 22 in `pairs`, and 24 in
//! `floors`.

use crate::base::{judge, judge_list, listing, read_plan, start, write_plan};
use crate::common::{bench_plan, led, refuses_pass, refuses_show, tasks, BENCH_BLOCK};
use sim::block::{pack_block, Edition};
use sim::layout::STATE_BYTES;
use sim::plan::Task;
use sim::queued;
use sim::state::{pack, unpack};

/// Reads and starts with the block and wants this refusal of both, with no byte changed. The
/// buffer for the state is too short, but that is asked last.
#[track_caller]
fn refuses_block(block: &[u8], number: u32) {
    assert_eq!(read_plan(block), Err(number));
    for length in [0, STATE_BYTES - 1, STATE_BYTES, STATE_BYTES + 100] {
        let mut state = vec![0xa5; length];
        assert_eq!(start(block, &mut state), Err(number));
        assert_eq!(state, vec![0xa5; length]);
    }
}

/// Judges, writes, reads and starts with these tasks and wants this refusal of all.
#[track_caller]
fn refuses_tasks(list: &[Task], number: u32) {
    let count = list.len() as u64;
    assert_eq!(judge_list(list), Err(number));
    assert_eq!(judge(count, list), Err(number));
    for length in [0, 100] {
        let mut buffer = vec![0xa5; length];
        assert_eq!(write_plan(count, list, &mut buffer), Err(number));
        assert_eq!(buffer, vec![0xa5; length]);
    }
    refuses_block(&pack_block(Edition::FIRST, count, list), number);
}

#[test]
fn number_1() {
    refuses_block(&[], 1);
    refuses_block(&[0x10], 1);
    // Whatever the edition seems to be.
    refuses_block(&[0xff], 1);
}

#[test]
fn number_2() {
    for edition in [0].into_iter().chain(3..16).map(Edition) {
        refuses_block(&pack_block(edition, 3, &bench_plan()), 2);
        // Before the count and the length.
        refuses_block(&pack_block(edition, 0, &[]), 2);
    }
}

#[test]
fn number_3() {
    for count in [0].into_iter().chain(17..32) {
        refuses_block(&pack_block(Edition::FIRST, count, &bench_plan()), 3);
    }
    // Before 6.
    refuses_tasks(&[], 3);
    refuses_tasks(&tasks(&[(0, 0); 17]), 3);
    for count in [0, 17, 32, 256, u64::MAX] {
        assert_eq!(judge(count, &bench_plan()), Err(3));
        assert_eq!(write_plan(count, &bench_plan(), &mut []), Err(3));
    }
}

#[test]
fn number_4() {
    refuses_block(&BENCH_BLOCK[..14], 4);
    refuses_block(&BENCH_BLOCK[..2], 4);
    refuses_block(&[&BENCH_BLOCK[..], &[0]].concat(), 4);
    // Before the closing bits.
    refuses_block(&[&BENCH_BLOCK[..], &[1]].concat(), 4);
}

#[test]
fn number_5() {
    for bit in [1, 2, 4] {
        let mut block = BENCH_BLOCK;
        block[14] |= bit;
        refuses_block(&block, 5);
    }
    // Bit 8 is the last of task 2's worst case: 601 units.
    let mut block = BENCH_BLOCK;
    block[14] |= 8;
    refuses_block(&block, 8);
    // Before 6.
    let mut block = pack_block(Edition::FIRST, 1, &tasks(&[(0, 0)]));
    block[5] |= 1;
    refuses_block(&block, 5);
}

#[test]
fn number_6() {
    refuses_tasks(&tasks(&[(0, 1)]), 6);
    refuses_tasks(&tasks(&[(1, 0)]), 6);
    // Before 7 and 8, though the tasks in front would be refused with these.
    refuses_tasks(&tasks(&[(1_000, 1), (1_001, 1), (0, 1)]), 6);
    refuses_tasks(&tasks(&[(1, 101), (5, 0)]), 6);
    // Past the fields of a block, so for a host's list only.
    for (period, worst) in [
        (65_536, 1),
        (1, 1_048_576),
        (u64::MAX, 1),
        (1, u64::MAX),
        (u64::MAX, u64::MAX),
        (65_536 + 10, 1),
    ] {
        let list = tasks(&[(10, 10), (period, worst)]);
        assert_eq!(judge_list(&list), Err(6));
        assert_eq!(write_plan(2, &list, &mut []), Err(6));
    }
    // The other side.
    assert_eq!(judge_list(&tasks(&[(65_535, 1), (1, 1)])), Err(8));
    assert!(judge_list(&tasks(&[(65_535, 1)])).is_ok());
    assert!(judge_list(&tasks(&[(65_535, 1_048_575)])).is_ok());
    assert_eq!(judge_list(&tasks(&[(10_485, 1_048_575)])), Err(8));
    assert!(judge_list(&tasks(&[(10_486, 1_048_575)])).is_ok());
}

#[test]
fn number_7() {
    refuses_tasks(&tasks(&[(1_000, 1), (1_001, 1)]), 7);
    // Before 8.
    refuses_tasks(&tasks(&[(1_000, 1_048_575), (1_001, 1_048_575)]), 7);
    // Sixteen large primes, whose multiple no u64 holds.
    let primes = [
        65_521, 65_519, 65_497, 65_479, 65_449, 65_447, 65_437, 65_423, 65_419, 65_413, 65_407,
        65_393, 65_381, 65_371, 65_357, 65_353,
    ];
    refuses_tasks(&tasks(&primes.map(|period| (period, 1))), 7);
}

#[test]
fn number_8() {
    refuses_tasks(&tasks(&[(1, 101)]), 8);
    refuses_tasks(&tasks(&[(1, 1), (1, 1)]), 8);
    refuses_tasks(&tasks(&[(10, 400), (10, 400), (30, 601)]), 8);
}

#[test]
fn number_9() {
    for length in [0, 14] {
        let mut buffer = vec![0xa5; length];
        assert_eq!(write_plan(3, &bench_plan(), &mut buffer), Err(9));
        assert_eq!(buffer, vec![0xa5; length]);
    }
    for length in [0, STATE_BYTES - 1] {
        let mut state = vec![0xa5; length];
        assert_eq!(start(&BENCH_BLOCK, &mut state), Err(9));
        assert_eq!(state, vec![0xa5; length]);
    }
    let (state, _) = led(&bench_plan(), &[]);
    refuses_show(&state, 8, 9);
    refuses_show(&state, 0, 9);
}

#[test]
fn numbers_10_to_15() {
    let (state, _) = led(&bench_plan(), &[]);
    refuses_show(&state[1..], 48, 10);
    refuses_pass(&state[1..], 1, false, 10);
    assert_eq!(queued(&state[1..]), Err(10));
    refuses_pass(&state, 0, false, 11);
    refuses_pass(&state, 11, true, 12);
    let (idle, _) = led(&bench_plan(), &[(1, true), (1, true), (1, true)]);
    refuses_pass(&idle, 1, true, 13);
    refuses_pass(&state, 4, false, 14);
    let mut late = unpack(&state).unwrap();
    late.clock = 4_000_000_000;
    refuses_pass(&pack(&late), 1, false, 15);
}

#[test]
fn numbers_16_and_17() {
    let odd = [&BENCH_BLOCK[..], &[0]].concat();
    assert!(listing(&odd).ends_with(b"\nrefused 16\n"));
    assert_eq!(listing(&vec![0x11; 65_537]), b"refused 17\n");
}
