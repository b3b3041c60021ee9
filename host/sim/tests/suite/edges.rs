//! 01, "On each side of the edge", bullet by bullet.

use crate::base::{admission_sum, judge, judge_list, read_plan, write_plan};
use crate::common::{
    bench_plan, idle, led, queue, refuses_pass, refuses_show, run, tasks, BENCH_PASSES,
};
use sim::block::{pack_block, Edition};
use sim::dispatch::{pass, show};
use sim::plan::Judged;

#[test]
fn empty_block_and_count_17() {
    assert_eq!(read_plan(&[]), Err(1));
    let seventeen = tasks(&[(1_000, 1); 17]);
    let block = pack_block(Edition::FIRST, 17, &seventeen);
    assert_eq!(read_plan(&block), Err(3));
    assert_eq!(judge_list(&seventeen), Err(3));
    assert_eq!(judge(17, &seventeen), Err(3));
    assert_eq!(write_plan(17, &seventeen, &mut [0; 200]), Err(3));
    assert!(judge_list(&seventeen[..16]).is_ok());
}

#[test]
fn hyperperiod_of_a_million_and_above() {
    assert_eq!(
        judge_list(&tasks(&[(15_625, 1), (64, 1)])),
        Ok(Judged {
            nominal: 0,
            hyperperiod: 1_000_000
        })
    );
    assert_eq!(judge_list(&tasks(&[(1_000, 1), (1_001, 1)])), Err(7));
    // 101 times 9,901: one over.
    assert_eq!(judge_list(&tasks(&[(101, 1), (9_901, 1)])), Err(7));
}

#[test]
fn the_bench_plan_fills_30_of_30() {
    let plan = bench_plan();
    assert_eq!(admission_sum(&plan, 30, 7), 30);
    assert_eq!(
        judge_list(&plan),
        Ok(Judged {
            nominal: 7,
            hyperperiod: 30
        })
    );
    assert_eq!(
        judge_list(&tasks(&[(10, 400), (10, 400), (30, 601)])),
        Err(8)
    );
}

#[test]
fn period_1() {
    let nominal = |work| judge_list(&tasks(&[(1, work)])).map(|judged| judged.nominal);
    assert_eq!(nominal(10), Ok(0));
    assert_eq!(nominal(11), Ok(1));
    assert_eq!(nominal(60), Ok(5));
    assert_eq!(nominal(61), Ok(6));
    assert_eq!(nominal(80), Ok(6));
    assert_eq!(nominal(81), Ok(7));
    assert_eq!(nominal(100), Ok(7));
    assert_eq!(nominal(101), Err(8));
}

#[test]
fn passes_of_the_bench_plan_at_tick_0() {
    let (state, _) = led(&bench_plan(), &[]);
    // 100 of 400 units left at level 7.
    assert_eq!(pass(&mut state.clone(), 3, false), Ok(run(0, 7, 1)));
    refuses_pass(&state, 4, false, 14);
    refuses_pass(&state, 5, true, 14);
    refuses_pass(&state, 11, true, 12);
    refuses_pass(&state, 0, true, 11);
    refuses_pass(&state, 0, false, 11);
    // The other side of 14: all 4 ticks, and finished.
    assert!(pass(&mut state.clone(), 4, true).is_ok());
}

#[test]
fn finishing_while_idle_at_tick_19() {
    // 02, No. 4: "01's case of a finish while idle moves there, with 1 tick."
    let (state, order) = led(&bench_plan(), &BENCH_PASSES[..5]);
    assert_eq!(order, idle(1));
    refuses_pass(&state, 1, true, 13);
    assert!(pass(&mut state.clone(), 1, false).is_ok());
}

#[test]
fn queue_at_tick_1() {
    let (state, _) = led(&bench_plan(), &BENCH_PASSES[..1]);
    let mut buffer = [0xa5; 11];
    assert_eq!(show(&state, &mut buffer), Ok(9));
    assert_eq!(buffer, [0, 0, 3, 1, 0, 4, 2, 0, 6, 0xa5, 0xa5]);
    assert_eq!(show(&state, &mut [0; 9]), Ok(9));
    refuses_show(&state, 8, 9);
}

#[test]
fn queue_at_tick_20() {
    let (state, _) = led(&bench_plan(), &BENCH_PASSES);
    assert_eq!(queue(&state), [(2, 2), (0, 4), (1, 4)]);
}
