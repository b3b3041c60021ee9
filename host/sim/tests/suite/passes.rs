//! Passing, beyond 01's own cases.

use crate::common::{bench_plan, idle, led, queue, refuses_pass, run, tasks};
use sim::clock::LARGEST_CLOCK;
use sim::dispatch::{pass, show};
use sim::layout::{self, STATE_BYTES};
use sim::state::{pack, unpack};

#[test]
fn an_order_that_stays_keeps_task_and_level_and_its_hold_falls() {
    let (mut state, order) = led(&bench_plan(), &[(1, true)]);
    assert_eq!(order, run(1, 5, 7));
    assert_eq!(pass(&mut state, 2, false), Ok(run(1, 5, 5)));
    assert_eq!(pass(&mut state, 4, false), Ok(run(1, 5, 1)));
    // 400 units less 6 times 60.
    assert_eq!(unpack(&state).unwrap().entries[1].left.work, 40);
    refuses_pass(&state, 1, false, 14);
    assert_eq!(pass(&mut state, 1, true), Ok(run(2, 7, 2)));
}

#[test]
fn an_order_that_stays_is_not_chosen_anew() {
    // The bench plan at tick 1: for task 1 level 5 is the lowest, but 6 and 7 are sound as well.
    // Chosen anew a tick later, with 6 ticks for what is left, the level would fall.
    let (lowest, _) = led(&bench_plan(), &[(1, true)]);
    for (level, hold) in [(6, 4), (7, 3)] {
        let mut state = lowest;
        layout::LEVEL.put(&mut state, u64::from(level));
        assert_eq!(pass(&mut state, 1, false), Ok(run(1, level, hold)));
        assert_eq!(layout::LEVEL.get(&state), u64::from(level));
    }
}

#[test]
fn an_unfinished_job_goes_on_after_an_arrival() {
    // Task 1 is the less urgent; at tick 4 a new job of task 0 preempts it.
    let plan = tasks(&[(4, 10), (12, 60)]);
    let (mut state, order) = led(&plan, &[]);
    assert_eq!(order, run(0, 0, 1));
    assert_eq!(pass(&mut state, 1, true), Ok(run(1, 0, 3)));
    assert_eq!(pass(&mut state, 3, false), Ok(run(0, 0, 1)));
    assert_eq!(queue(&state), [(0, 1), (1, 3)]);
    assert_eq!(pass(&mut state, 1, true), Ok(run(1, 0, 3)));
}

#[test]
fn arrivals_of_a_single_task() {
    let plan = tasks(&[(3, 20)]);
    let (mut state, order) = led(&plan, &[]);
    assert_eq!(order, run(0, 0, 2));
    assert_eq!(pass(&mut state, 1, true), Ok(idle(2)));
    assert_eq!(queue(&state), [(0, 1)]);
    assert_eq!(pass(&mut state, 1, false), Ok(idle(1)));
    assert_eq!(queue(&state), []);
    // Nothing to show needs no room.
    assert_eq!(show(&state, &mut []), Ok(0));
    assert_eq!(pass(&mut state, 1, false), Ok(run(0, 0, 2)));
    assert_eq!(queue(&state), [(0, 2)]);
}

#[test]
fn the_largest_clock() {
    // 40 divides 4,000,000,000. One tick before it, with the job ended.
    let (state, _) = led(&tasks(&[(40, 300)]), &[(1, true)]);
    let mut late = unpack(&state).unwrap();
    late.clock = LARGEST_CLOCK - 1;
    late.entries[0].plain_left = 0;
    let mut late = pack(&late);
    refuses_pass(&late, 2, false, 12);
    assert_eq!(pass(&mut late, 1, false), Ok(run(0, 0, 30)));
    assert_eq!(late[layout::CLOCK.range()], [0xee, 0x6b, 0x28, 0x00]);
    // The state is sound, and its queue can be shown, but no tick more can go by.
    assert_eq!(queue(&late), [(0, 30)]);
    refuses_pass(&late, 1, false, 15);
    refuses_pass(&late, 1, true, 15);
    // The questions before 15 come first.
    refuses_pass(&late, 0, false, 11);
    refuses_pass(&late, 41, false, 12);
    refuses_pass(&late, 30, false, 14);
    refuses_pass(&late, 30, true, 15);
    refuses_pass(&late, u32::MAX, true, 12);
}

#[test]
fn the_first_no_decides() {
    let (running, _) = led(&bench_plan(), &[]);
    // 12 before 14; 11 before 14.
    refuses_pass(&running, 11, false, 12);
    refuses_pass(&running, 10, false, 14);
    let (idling, _) = led(
        &bench_plan(),
        &[(1, true), (7, true), (2, true), (4, true), (4, true)],
    );
    // 11 and 12 before 13.
    refuses_pass(&idling, 0, true, 11);
    refuses_pass(&idling, 3, true, 12);
    refuses_pass(&idling, 1, true, 13);
    // 10 before all.
    refuses_pass(&idling[..STATE_BYTES - 1], 0, true, 10);
}
