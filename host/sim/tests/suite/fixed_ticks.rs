//! 02, No. 2: the time needed with fixed ticks, and what they are in orders, passes, states and
//! books.

use crate::base::{actual_book, plain_book};
use crate::common::{
    fixed_tasks, idle, is_sound, led, queue, refuses_pass, run, sensor_plan, unsound,
};
use sim::books::demand3_holds;
use sim::dispatch::pass;
use sim::job::{left_after, time_needed, Left};
use sim::layout::STATE_BYTES;
use sim::random::states::put_table;
use sim::state::{pack, unpack, State};
use sim::Order;

#[test]
fn the_time_needed() {
    let time = |fixed, work, speed| time_needed(Left { fixed, work }, speed);
    assert_eq!(time(0, 0, 10), 0);
    assert_eq!(time(5, 0, 10), 5);
    assert_eq!(time(5, 1, 10), 6);
    assert_eq!(time(5, 10, 10), 6);
    assert_eq!(time(5, 11, 10), 7);
    // The fixed ticks are the same at every speed, and the work's are rounded up by themselves.
    assert_eq!(time(255, 1_048_575, 1), 255 + 1_048_575);
    assert_eq!(time(255, 1_048_575, 1_000), 255 + 1_049);
}

#[test]
fn fixed_ticks_are_used_first() {
    let job = Left {
        fixed: 3,
        work: 100,
    };
    let left = |d| {
        let left = left_after(job, d, 30);
        (left.fixed, left.work)
    };
    assert_eq!([left(0), left(1), left(2)], [(3, 100), (2, 100), (1, 100)]);
    assert_eq!([left(3), left(4), left(6)], [(0, 100), (0, 70), (0, 10)]);
}

/// The state's entry of a task: the fixed ticks and the work left of its job.
fn left_in(state: &[u8; STATE_BYTES], task: usize) -> (u64, u64) {
    let left = unpack(state).unwrap().entries[task].left;
    (left.fixed, left.work)
}

#[test]
fn the_state_of_a_start() {
    let (state, order) = led(&sensor_plan(), &[]);
    assert_eq!(order, run(0, 3, 5));
    assert_eq!(state[8..20], [0, 10, 0, 0, 100, 0, 0, 100, 0, 5, 2, 2]);
    assert_eq!(state[20..32], [0, 40, 0, 1, 244, 0, 1, 244, 0, 19, 6, 6]);
    assert!(state[32..200].iter().all(|byte| *byte == 0));
}

#[test]
fn an_early_finish_inside_the_fixed_ticks() {
    let (state, order) = led(&sensor_plan(), &[(1, true)]);
    assert_eq!(order, run(1, 2, 9));
    // The task keeps its 2 fixed ticks, the job has none left, and its 4 plain ticks are shown.
    assert_eq!(state[8..20], [0, 10, 0, 0, 100, 0, 0, 0, 0, 4, 2, 0]);
    assert_eq!(queue(&state), [(0, 4), (1, 19)]);
    // With the last of the fixed ticks: 3 + 19 for task 1, so level 3.
    let (state, order) = led(&sensor_plan(), &[(2, true)]);
    assert_eq!(order, run(1, 3, 8));
    assert_eq!(left_in(&state, 0), (0, 0));
}

#[test]
fn an_arrival_in_the_middle_of_the_fixed_ticks() {
    let mut led_on = led(&sensor_plan(), &[(5, true)]).0;
    let mut then = |d, finished, order| assert_eq!(pass(&mut led_on, d, finished), Ok(order));
    // From 5 to 10 task 1 has 5 of its 6 fixed ticks; with the last one it goes on at 15.
    then(5, false, run(0, 3, 5));
    then(5, true, run(1, 3, 5));
    assert_eq!(left_in(&led_on, 1), (1, 500));
    assert_eq!(queue(&led_on), [(1, 14)]);
    let mut then = |d, finished, order| assert_eq!(pass(&mut led_on, d, finished), Ok(order));
    then(1, false, run(1, 3, 4));
    then(4, false, run(0, 3, 5));
    then(5, true, run(1, 3, 5));
    assert_eq!(left_in(&led_on, 1), (0, 500 - 4 * 40));
    // At 30 it has task 0's deadline and came first.
    assert_eq!(pass(&mut led_on, 5, false), Ok(run(1, 3, 4)));
    assert_eq!(left_in(&led_on, 1), (0, 140));
    // At 34 task 0 is alone, with 6 ticks to the next arrival (02, No. 4): 2 + 4 of them at 30 units.
    assert_eq!(pass(&mut led_on, 4, true), Ok(run(0, 2, 6)));
    assert_eq!(pass(&mut led_on.clone(), 5, true), Ok(idle(1)));
    // At 40 both have all of it again.
    assert_eq!(pass(&mut led_on, 6, true), Ok(run(0, 3, 5)));
    assert_eq!(led_on[4..], led(&sensor_plan(), &[]).0[4..]);
}

#[test]
fn an_order_inside_the_fixed_ticks_stays() {
    // From 1 on task 1 runs at 30 units, where it needs 23 ticks, with 9 to the next arrival.
    let (mut state, _) = led(&sensor_plan(), &[(1, true)]);
    for used in 1..=6 {
        assert_eq!(pass(&mut state, 1, false), Ok(run(1, 2, 9 - used)));
        assert_eq!(left_in(&state, 1), (u64::from(6 - used), 500));
    }
    assert_eq!(pass(&mut state, 1, false), Ok(run(1, 2, 2)));
    assert_eq!(left_in(&state, 1), (0, 470));
}

#[test]
fn number_14_with_fixed_ticks() {
    let (state, _) = led(&sensor_plan(), &[]);
    // 5 ticks at level 3.
    assert_eq!(pass(&mut state.clone(), 4, false), Ok(run(0, 3, 1)));
    refuses_pass(&state, 5, false, 14);
    assert_eq!(pass(&mut state.clone(), 5, true), Ok(run(1, 3, 5)));
    refuses_pass(&state, 6, true, 14);
    // 9 fixed ticks and one for the work.
    let (state, order) = led(&fixed_tasks(&[(10, 10, 9)]), &[]);
    assert_eq!(order, run(0, 0, 10));
    let mut last = state;
    assert_eq!(pass(&mut last, 9, false), Ok(run(0, 0, 1)));
    assert_eq!(left_in(&last, 0), (0, 10));
    refuses_pass(&last, 1, false, 14);
    assert_eq!(pass(&mut last, 1, true), Ok(run(0, 0, 10)));
    refuses_pass(&state, 10, false, 14);
}

#[test]
fn the_allowance_to_the_tick() {
    // At 1 there are 4 + 19 ticks, and 6 + 17 at 30 units a tick are just that: of 511 units one is
    // too many. With 7 fixed ticks 480 units are as much. The allotment is 19 ticks in each case.
    let level = |worst, fixed| {
        let plan = fixed_tasks(&[(10, 100, 2), (40, worst, fixed)]);
        let (state, order) = led(&plan, &[(1, true)]);
        assert_eq!(queue(&state), [(0, 4), (1, 19)]);
        match order {
            Order::Run { level, .. } => level,
            Order::Idle { .. } => panic!("a job is open"),
        }
    };
    assert_eq!([level(510, 6), level(511, 6)], [2, 3]);
    assert_eq!([level(480, 7), level(481, 6)], [2, 2]);
    assert_eq!(level(520, 6), 3);
    // 18 fixed ticks and 1 at 40 units: in 23 ticks 4 at 10 units will do.
    assert_eq!(level(40, 18), 0);
}

/// The sensor plan at tick 1, task 0 ended, task 1 running at level 2, changed as told.
fn changed(change: impl Fn(&mut State)) -> [u8; STATE_BYTES] {
    let (state, _) = led(&sensor_plan(), &[(1, true)]);
    let mut state = unpack(&state).unwrap();
    change(&mut state);
    pack(&state)
}

#[test]
fn soundness_of_the_fixed_ticks_left() {
    is_sound(&changed(|_| {}));
    // Above the fixed ticks, with little work left, so that the plain ticks are enough.
    let task_1 = |fixed, work| {
        changed(move |state| {
            state.entries[1].left = Left { fixed, work };
        })
    };
    is_sound(&task_1(6, 1));
    unsound(&task_1(7, 1));
    unsound(&task_1(18, 1));
    unsound(&task_1(255, 1));
    // Fixed ticks left with work below the worst case are sound.
    for (fixed, work) in [(6, 500), (6, 499), (1, 499), (1, 1), (0, 500), (0, 1)] {
        is_sound(&task_1(fixed, work));
    }
    // The time needed with them is at most the plain ticks left: 6 + 13 of 19, 6 + 13 of 18.
    let plain = |left, work| {
        changed(move |state| {
            state.entries[1].left.work = work;
            state.entries[1].plain_left = left;
        })
    };
    is_sound(&plain(18, 480));
    unsound(&plain(18, 481));
    unsound(&plain(20, 480));
}

#[test]
fn soundness_of_a_finished_job() {
    // Task 0 has ended with 4 plain ticks left, which would be enough for its 2 fixed ticks.
    let task_0 = |fixed| changed(move |state| state.entries[0].left.fixed = fixed);
    is_sound(&task_0(0));
    unsound(&task_0(1));
    unsound(&task_0(2));
    unsound(&task_0(3));
    // With work as well the job is open, and the more urgent one. With the order to run it the state
    // is sound: 4 ticks, 2 fixed and 2 at 40 units.
    let open = |fixed, work| {
        changed(move |state| {
            state.entries[0].left = Left { fixed, work };
            let running = state.running.as_mut().unwrap();
            running.task = 0;
            running.level = 3;
        })
    };
    is_sound(&open(2, 80));
    unsound(&open(2, 81));
    is_sound(&open(1, 81));
    unsound(&open(2, 0));
}

#[test]
fn soundness_of_the_fixed_ticks_of_a_task() {
    // 3 fixed ticks for task 0: nominal is then level 4, where task 1 has 16 plain ticks.
    let task_0 = |fixed, plain_left| {
        changed(move |state| {
            state.entries[0].task.fixed = fixed;
            state.entries[1].plain_left = plain_left;
        })
    };
    is_sound(&task_0(2, 19));
    unsound(&task_0(3, 19));
    unsound(&task_0(3, 17));
    is_sound(&changed(|state| {
        state.entries[0].task.fixed = 3;
        state.entries[1].plain_left = 16;
        state.running.as_mut().unwrap().level = 4;
    }));
    // Too many for every level: 8.
    unsound(&task_0(10, 19));
    unsound(&task_0(255, 19));
    // Bytes past the count are zero.
    for place in 32..200 {
        let mut forged = changed(|_| {});
        forged[place] = 1;
        unsound(&forged);
    }
}

#[test]
fn soundness_of_the_order() {
    // 23 ticks for 6 + 17 at 30 units, which are 6 + 18 at 29.
    let table = |speed| {
        let mut state = changed(|_| {});
        put_table(&mut state, &[10, 20, speed, 40, 50, 60, 80, 100]);
        state
    };
    is_sound(&table(30));
    unsound(&table(29));
    // With one of the fixed ticks used they are 5 + 18.
    let mut used = unpack(&table(29)).unwrap();
    used.entries[1].left.fixed = 5;
    is_sound(&pack(&used));
    let level = |level| changed(move |state| state.running.as_mut().unwrap().level = level);
    unsound(&level(1));
    is_sound(&level(3));
    unsound(&level(4));
}

#[test]
fn the_plain_schedule() {
    // Who gets each of the 40 ticks; the last one nobody does. From 30 on both have the same
    // deadline, and task 1 came first.
    let mut book = plain_book(&sensor_plan());
    for tick in 0..40 {
        let served = match tick {
            0..=29 => Some(usize::from(tick % 10 >= 5)),
            30..=33 => Some(1),
            34..=38 => Some(0),
            _ => None,
        };
        let first = book.open_jobs().first().map(|job| job.task);
        assert_eq!(first, served, "{tick}");
        book.pass(1, Ok(idle(1)));
    }
    assert_eq!(book.open_jobs().len(), 2);
}

#[test]
fn the_dispatchers_book_keeps_what_is_left() {
    let plan = sensor_plan();
    let mut actual = actual_book(&plan, run(0, 3, 5));
    let mut plain = plain_book(&plan);
    let mut enter = |d, finished, reply: Result<Order, u32>| {
        actual.pass(d, finished, reply);
        plain.pass(d, reply);
        assert_eq!(demand3_holds(&plan, &actual, &plain), Ok(()));
        let left = actual.left();
        [(left[0].fixed, left[0].work), (left[1].fixed, left[1].work)]
    };
    assert_eq!(enter(6, true, Err(14)), [(2, 100), (6, 500)]);
    assert_eq!(enter(1, false, Ok(run(0, 3, 4))), [(1, 100), (6, 500)]);
    assert_eq!(enter(3, false, Ok(run(0, 3, 1))), [(0, 20), (6, 500)]);
    assert_eq!(enter(1, true, Ok(run(1, 3, 5))), [(0, 0), (6, 500)]);
    // Preempted with a fixed tick left, at a level that doesn't matter for these.
    assert_eq!(enter(5, false, Ok(run(0, 3, 5))), [(2, 100), (1, 500)]);
    assert_eq!(enter(1, true, Ok(run(1, 2, 9))), [(0, 0), (1, 500)]);
    // Now at 30 units.
    assert_eq!(enter(3, false, Ok(run(1, 2, 6))), [(0, 0), (0, 440)]);
    assert_eq!(enter(6, true, Ok(run(0, 3, 5))), [(2, 100), (0, 0)]);
    // Idle ticks take nothing.
    assert_eq!(enter(2, true, Ok(idle(8))), [(0, 0), (0, 0)]);
    assert_eq!(enter(8, false, Ok(run(0, 3, 5))), [(2, 100), (0, 0)]);
    // Told to go on for longer than it needs, nothing is left of a job, and it is open still.
    actual.pass(7, false, Ok(run(0, 3, 1)));
    assert_eq!(actual.left()[0], Left::NOTHING);
    assert!(actual
        .jobs()
        .iter()
        .any(|job| job.task == 0 && job.arrival == 30 && job.open));
}

#[test]
fn a_dispatcher_that_forgets_the_fixed_ticks_breaks_demand_3() {
    // 100 units in 5 ticks, as if they were all that there is: level 1, and 2 + 5 ticks of it.
    let plan = sensor_plan();
    let mut actual = actual_book(&plan, run(0, 1, 5));
    let mut plain = plain_book(&plan);
    for (tick, kept) in [(4, true), (5, false)] {
        let d = tick - actual.clock() as u32;
        actual.pass(d, false, Ok(run(0, 1, 7 - tick)));
        plain.pass(d, Ok(run(0, 1, 7 - tick)));
        let verdict = demand3_holds(&plan, &actual, &plain);
        assert_eq!(verdict.is_ok(), kept, "{verdict:?}");
    }
}
