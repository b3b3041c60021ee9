//! 01, "Where a scheduler goes astray", bullet by bullet.

use crate::base::{judge_list, time_needed};
use crate::common::{bench_plan, idle, led, queue, run, tasks, BENCH_PASSES};
use sim::pass;

#[test]
fn time_to_spare_is_not_lent_to_a_more_urgent_job() {
    // Task 2 ends at tick 10 with 4 plain ticks left; its deadline is 30, those of tasks 0 and 1
    // are 20.
    let (state, order) = led(&bench_plan(), &BENCH_PASSES[..3]);
    assert_eq!(queue(&state), [(0, 4), (1, 4), (2, 4)]);
    assert_eq!(order, run(0, 7, 4));
    // With the 4 ticks lent, 8 would do at level 4.
    assert_eq!(time_needed(400, 4), 8);
    assert_eq!(time_needed(400, 3), 10);
}

#[test]
fn a_less_recent_job_with_the_same_deadline_counts_in_the_allowance() {
    // At tick 20, all deadlines are 30, and task 2 arrived first: 2 plus 4 ticks for 400 units.
    let (state, order) = led(&bench_plan(), &BENCH_PASSES);
    assert_eq!(queue(&state)[0], (2, 2));
    assert_eq!(order, run(0, 6, 5));
}

#[test]
fn a_job_that_returns_from_preemption_gets_no_allotment_again() {
    // Task 2 gets ticks 8 and 9, is preempted at tick 10, and returns at tick 18 with 400 units
    // and 4 plain ticks left. With 6 more it would run at a lower level.
    let preempted = [(4, true), (4, true), (2, false), (4, true), (4, true)];
    let (state, order) = led(&bench_plan(), &preempted);
    assert_eq!(queue(&state), [(2, 4)]);
    assert_eq!(order, run(2, 7, 2));
    let (state, order) = led(&bench_plan(), &[&preempted[..], &[(2, false)]].concat());
    assert_eq!(queue(&state), [(2, 2), (0, 4), (1, 4)]);
    // Task 2 is the most urgent, for it arrived first: 200 units in 2 ticks.
    assert_eq!(order, run(2, 7, 2));
}

#[test]
fn the_queue_goes_on_while_the_processor_idles() {
    // 02, No. 4: the job that runs from 14 on has 5 ticks. Here it ends after 4, so that 2 are left.
    let early = [&BENCH_PASSES[..4], &[(4, true)]].concat();
    let (mut state, order) = led(&bench_plan(), &early);
    assert_eq!(order, idle(2));
    assert_eq!(queue(&state), [(2, 4)]);
    pass(&mut state, 1, false).unwrap();
    assert_eq!(queue(&state), [(2, 3)]);
    pass(&mut state, 1, false).unwrap();
    assert_eq!(queue(&state), [(2, 2), (0, 4), (1, 4)]);
}

#[test]
fn the_time_needed_is_rounded_up() {
    assert_eq!(time_needed(0, 7), 0);
    assert_eq!(time_needed(1, 7), 1);
    assert_eq!(time_needed(100, 7), 1);
    assert_eq!(time_needed(101, 7), 2);
    assert_eq!(time_needed(400, 5), 7);
    assert_eq!(time_needed(400, 6), 5);
    assert_eq!(time_needed(u64::MAX, 0), 1_844_674_407_370_955_162);
    // At tick 1 task 1 has 7 ticks for 400 units: 6 and 2 thirds at level 5, so 7.
    let (state, order) = led(&bench_plan(), &BENCH_PASSES[..1]);
    assert_eq!(order, run(1, 5, 7));
    // All of these 7 ticks may go by before it ends, and none more.
    assert!(pass(&mut state.clone(), 6, false).is_ok());
    assert!(pass(&mut state.clone(), 7, true).is_ok());
    // In the admission too, task by task: 5, 5 and 2 ticks of 10. Rounded down they are 9, and
    // rounded up only together they are 10.
    assert_eq!(
        judge_list(&tasks(&[(10, 401), (10, 401), (10, 101)])),
        Err(8)
    );
}
