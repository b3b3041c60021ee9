//! 01, Blocks: the plan block and the state block.

use crate::base::{judge, judge_list, read_plan, start, write_plan};
use crate::common::{bench_plan, led, run, tasks, BENCH_BLOCK};
use sim::plan::{Judged, Task};

const EXAMPLE: [u8; 6] = [0x10, 0x80, 0x14, 0x00, 0x09, 0x60];

/// 01's speeds behind the entries of the state block: their count, then two bytes each.
const BASE_TABLE: [u8; 17] = [8, 0, 10, 0, 20, 0, 30, 0, 40, 0, 50, 0, 60, 0, 80, 0, 100];

#[test]
fn the_example_block_is_read() {
    let (plan, judged) = read_plan(&EXAMPLE).unwrap();
    assert_eq!(plan, tasks(&[(40, 300)]));
    // 300 units at 10 a tick are 30 ticks of 40.
    assert_eq!(
        judged,
        Judged {
            nominal: 0,
            hyperperiod: 40
        }
    );
}

#[test]
fn the_example_block_is_written() {
    let mut buffer = [0xa5; 8];
    assert_eq!(write_plan(1, &tasks(&[(40, 300)]), &mut buffer), Ok(6));
    assert_eq!(buffer[..6], EXAMPLE);
    assert_eq!(buffer[6..], [0xa5, 0xa5]);
}

#[test]
fn one_task_takes_6_bytes_and_sixteen_take_74() {
    let sixteen = tasks(&[(1_000, 37); 16]);
    let mut buffer = [0; 74];
    assert_eq!(write_plan(1, &sixteen, &mut buffer), Ok(6));
    assert_eq!(write_plan(16, &sixteen, &mut buffer), Ok(74));
    assert_eq!(read_plan(&buffer).unwrap().0, sixteen);
    assert_eq!(write_plan(1, &sixteen, &mut [0; 5]), Err(9));
    assert_eq!(write_plan(16, &sixteen, &mut [0; 73]), Err(9));
}

#[test]
fn the_bench_block_is_read_and_written() {
    let (plan, judged) = read_plan(&BENCH_BLOCK).unwrap();
    assert_eq!(plan, bench_plan());
    assert_eq!(
        judged,
        Judged {
            nominal: 7,
            hyperperiod: 30
        }
    );
    let mut buffer = [0; 15];
    assert_eq!(write_plan(3, &plan, &mut buffer), Ok(15));
    assert_eq!(buffer, BENCH_BLOCK);
}

#[test]
fn entries_past_the_count_are_not_looked_at() {
    let mut long = bench_plan();
    long.push(Task {
        period: 0,
        worst: u64::MAX,
        fixed: u64::MAX,
        floor: u64::MAX,
    });
    assert_eq!(judge(3, &long), judge_list(&bench_plan()));
    assert_eq!(judge(4, &long), Err(6));
    let mut buffer = [0; 15];
    assert_eq!(write_plan(3, &long, &mut buffer), Ok(15));
    assert_eq!(buffer, BENCH_BLOCK);
}

#[test]
fn starting_fills_221_bytes_and_no_more() {
    let mut state = [0xa5; 226];
    assert_eq!(start(&BENCH_BLOCK, &mut state), Ok(run(0, 7, 4)));
    let mut expected = [0; 221];
    // Clock 0, task 0, level 7, count 3, then the entries, behind them the speeds, and at the end the
    // total of 4 + 4 + 6.
    expected[..8].copy_from_slice(&[0, 0, 0, 0, 0, 7, 3, 0]);
    expected[8..20].copy_from_slice(&[0, 10, 0, 1, 144, 0, 1, 144, 0, 4, 0, 0]);
    expected[20..32].copy_from_slice(&[0, 10, 0, 1, 144, 0, 1, 144, 0, 4, 0, 0]);
    expected[32..44].copy_from_slice(&[0, 30, 0, 2, 88, 0, 2, 88, 0, 6, 0, 0]);
    expected[200..217].copy_from_slice(&BASE_TABLE);
    expected[217..].copy_from_slice(&[0, 0, 0, 14]);
    assert_eq!(state[..221], expected);
    assert_eq!(state[221..], [0xa5; 5]);
}

#[test]
fn the_state_block_of_an_idle_order() {
    let (state, _) = led(
        &bench_plan(),
        &[(1, true), (7, true), (2, true), (4, true), (4, true)],
    );
    let mut expected = [0; 221];
    // Clock 18, idle, level 0; all finished, and task 2 has 4 plain ticks left, which are all.
    expected[..8].copy_from_slice(&[0, 0, 0, 18, 255, 0, 3, 0]);
    expected[8..20].copy_from_slice(&[0, 10, 0, 1, 144, 0, 0, 0, 0, 0, 0, 0]);
    expected[20..32].copy_from_slice(&[0, 10, 0, 1, 144, 0, 0, 0, 0, 0, 0, 0]);
    expected[32..44].copy_from_slice(&[0, 30, 0, 2, 88, 0, 0, 0, 0, 4, 0, 0]);
    expected[200..217].copy_from_slice(&BASE_TABLE);
    expected[217..].copy_from_slice(&[0, 0, 0, 4]);
    assert_eq!(state, expected);
}
