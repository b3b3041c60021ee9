//! 02, No. 4: a lone job may use the gap. Orders, passes and soundness; the books have their own
//! tests.

use crate::common::{
    floor_tasks, idle, is_sound, queue, refuses_pass, run, sensor_plan, tasks, unsound,
};
use sim::dispatch::{choose_with, pass, sound, start, Order, Rule};
use sim::forging::{self, Progress};
use sim::job::time_needed;
use sim::layout::{self, STATE_BYTES};
use sim::plan::{judge_list, Task};
use sim::random::blocks::block_of;
use sim::schedule::allotment;
use sim::state::{unpack, Entry, Running};
use sim::Levels;

/// A state started with these speeds and this plan, and led through passes that are all accepted.
fn led(speeds: &[u64], plan: &[Task], passes: &[(u32, bool)]) -> ([u8; STATE_BYTES], Order) {
    let mut state = [0; STATE_BYTES];
    let mut order = start(&Levels::new(speeds), &block_of(plan), &[], &mut state).unwrap();
    for (d, finished) in passes {
        order = pass(&mut state, *d, *finished).unwrap();
    }
    (state, order)
}

const BASE: [u64; 8] = [10, 20, 30, 40, 50, 60, 80, 100];

/// The bench plan at tick 14, where task 1's job, of this worst case, is the only open one. It has its
/// own 4 plain ticks, and 6 to the next arrival.
fn bench_at_14(worst: u64) -> Order {
    let plan = tasks(&[(10, 400), (10, worst), (30, 600)]);
    led(&BASE, &plan, &[(4, true), (4, true), (2, true), (4, true)]).1
}

#[test]
fn the_gap_to_the_unit() {
    // 6 ticks are 360 units at level 5, and 480 at level 6.
    assert_eq!(bench_at_14(400), run(1, 6, 5));
    assert_eq!(bench_at_14(361), run(1, 6, 5));
    assert_eq!(bench_at_14(360), run(1, 5, 6));
    assert_eq!(bench_at_14(301), run(1, 5, 6));
    // Fixed ticks are a part of the time: 2 + 4 and 1 + 5 ticks at 50 units, and 1 + 5 at 60.
    let fixed = |worst, fixed| {
        let mut plan = tasks(&[(10, 400), (10, worst), (30, 600)]);
        plan[1].fixed = fixed;
        led(&BASE, &plan, &[(4, true), (4, true), (2, true), (4, true)]).1
    };
    assert_eq!(fixed(200, 2), run(1, 4, 6));
    assert_eq!(fixed(201, 1), run(1, 4, 6));
    assert_eq!(fixed(251, 1), run(1, 5, 6));
}

#[test]
fn a_job_that_is_not_alone_has_no_gap() {
    // At 1 task 1 has 7 plain ticks, 9 ticks to the next arrival, and task 2's job is open too. At
    // level 4 it would need 8.
    let plan = tasks(&[(10, 400), (10, 400), (30, 600)]);
    assert_eq!(led(&BASE, &plan, &[(1, true)]).1, run(1, 5, 7));
    // One unit of work beside it is enough for that.
    let one_unit = tasks(&[(10, 400), (10, 400), (30, 1)]);
    assert_eq!(led(&BASE, &one_unit, &[(1, true)]).1, run(1, 5, 7));
    // Ten ticks later it is done, all else is as before, and the job is alone. Task 0's plain ticks
    // are no open job.
    let to_11 = [(1, true), (7, true), (1, true), (1, false), (1, true)];
    let (state, order) = led(&BASE, &one_unit, &to_11);
    assert_eq!(queue(&state), [(0, 3), (1, 4)]);
    assert_eq!(order, run(1, 4, 8));
}

#[test]
fn the_larger_of_both() {
    // At 1 the sensor plan's task 1 is alone with 4 + 19 plain ticks, and 9 to the next arrival. It
    // needs 6 + 17 at level 2.
    let (state, order) = led(&BASE, &sensor_plan(), &[(1, true)]);
    assert_eq!(order, run(1, 2, 9));
    assert_eq!(queue(&state), [(0, 4), (1, 19)]);
    // 510 units are as many ticks, and 511 one more.
    let mut longer = sensor_plan();
    longer[1].worst = 510;
    assert_eq!(led(&BASE, &longer, &[(1, true)]).1, run(1, 2, 9));
    longer[1].worst = 511;
    assert_eq!(led(&BASE, &longer, &[(1, true)]).1, run(1, 3, 9));
}

#[test]
fn a_long_gap_to_the_unit() {
    // Task 0 takes a tick, and then task 1 has 39 to the next arrival: 390 units at 10. At 10 both
    // together would need more than 40 ticks, so nominal is 20 units a tick, and task 1 has 20.
    let alone = |worst| {
        let plan = tasks(&[(40, 11), (40, worst)]);
        let (state, order) = led(&BASE, &plan, &[(1, true)]);
        assert_eq!(queue(&state), [(1, 20)]);
        order
    };
    assert_eq!(alone(390), run(1, 0, 39));
    assert_eq!(alone(391), run(1, 1, 20));
    // A single task is always alone. Its nominal level is the lowest that has it done in a period, so
    // for its whole job there is none lower; and for its rest no order is chosen.
    assert_eq!(led(&BASE, &tasks(&[(40, 400)]), &[]).1, run(0, 0, 40));
    assert_eq!(led(&BASE, &tasks(&[(40, 401)]), &[]).1, run(0, 1, 21));
}

/// Two tasks of period 3 with 2 units each. At one unit a tick they would need 4 ticks of 3, so nominal
/// is two units a tick, and each has one plain tick.
fn two_tasks() -> Vec<Task> {
    tasks(&[(3, 2), (3, 2)])
}

#[test]
fn the_smallest_use_of_the_exception() {
    let (mut state, order) = led(&[1, 2], &two_tasks(), &[]);
    assert_eq!(order, run(0, 1, 1));
    assert_eq!(queue(&state), [(0, 1), (1, 1)]);
    // Alone, with one plain tick and two to the next arrival.
    assert_eq!(pass(&mut state, 1, true), Ok(run(1, 0, 2)));
    assert_eq!(queue(&state), [(1, 1)]);
    // A unit left, no plain tick, and one tick to go.
    assert_eq!(pass(&mut state, 1, false), Ok(run(1, 0, 1)));
    assert_eq!(queue(&state), []);
    let job = unpack(&state).unwrap().entries[1];
    assert_eq!((job.left.work, job.plain_left), (1, 0));
    // It can't be said to go on at the arrival; so it is closed there.
    refuses_pass(&state, 1, false, 14);
    refuses_pass(&state, 2, true, 12);
    assert_eq!(pass(&mut state, 1, true), Ok(run(0, 1, 1)));
    assert_eq!(queue(&state), [(0, 1), (1, 1)]);
}

#[test]
fn an_order_that_stays_keeps_its_level_past_the_plain_finish() {
    // From 14 on 400 units take 5 ticks at level 6. After the plain finish at 18 nothing changes.
    let plan = tasks(&[(10, 400), (10, 400), (30, 600)]);
    let passes = [(4, true), (4, true), (2, true), (4, true)];
    let (mut state, _) = led(&BASE, &plan, &passes);
    for hold in [4, 3, 2, 1] {
        assert_eq!(pass(&mut state, 1, false), Ok(run(1, 6, hold)));
    }
    assert_eq!(queue(&state), [(2, 4)]);
    refuses_pass(&state, 1, false, 14);
    assert_eq!(pass(&mut state, 1, true), Ok(idle(1)));
}

#[test]
fn the_rule_without_the_gap_is_01s() {
    // The line at 14 in 01's listing, and in 02's.
    let plan = tasks(&[(10, 400), (10, 400), (30, 600)]);
    let (state, _) = led(&BASE, &plan, &[(4, true), (4, true), (2, true), (4, true)]);
    let state = unpack(&state).unwrap();
    let level = |rule| choose_with(&state, rule).map(|order| order.level);
    assert_eq!(level(Rule::Base), Some(7));
    assert_eq!(level(Rule::LoneGap), Some(6));
    assert_eq!(state.running, choose_with(&state, Rule::LoneGap));
}

/// A state of this plan with a clock, an order to run a task at a level, and the progress of each task.
fn forged(
    speeds: &[u64],
    plan: &[Task],
    clock: u64,
    (task, level): (usize, usize),
    progress: &[Progress],
) -> [u8; STATE_BYTES] {
    let running = Some(Running { task, level });
    forging::forged(speeds, plan, clock, running, progress)
}

/// The two tasks' state with task 0 ended, this clock, and task 1 at this level with this work and
/// these plain ticks left.
fn two_at(clock: u64, level: usize, work: u64, plain_left: u64) -> [u8; STATE_BYTES] {
    let progress = [(0, 0, 0), (0, work, plain_left)];
    forged(&[1, 2], &two_tasks(), clock, (1, level), &progress)
}

#[test]
fn soundness_of_a_lone_job_behind_its_plain_ticks() {
    // One tick to the next arrival at 2, two at 1, three at 0.
    is_sound(&two_at(2, 0, 1, 0));
    is_sound(&two_at(1, 0, 2, 0));
    is_sound(&two_at(1, 0, 1, 0));
    // One over: two ticks at one unit a tick. At nominal it is one.
    unsound(&two_at(2, 0, 2, 0));
    is_sound(&two_at(2, 1, 2, 0));
    // With a plain tick it isn't behind, and it may be at any level that meets its allowance, which
    // isn't below the ticks to the next arrival.
    unsound(&two_at(2, 0, 2, 1));
    is_sound(&two_at(2, 1, 2, 1));
    is_sound(&two_at(1, 0, 2, 1));
    // Levels above nominal, or of no table, are none that it may have.
    unsound(&two_at(1, 2, 1, 0));
    unsound(&two_at(1, 255, 1, 0));
    let faster = |level| {
        let progress = [(0, 0, 0), (0, 1, 0)];
        forged(&[1, 2, 4], &two_tasks(), 1, (1, level), &progress)
    };
    is_sound(&faster(1));
    unsound(&faster(2));
    // The rest is asked as before.
    unsound(&two_at(0, 0, 3, 0));
    unsound(&two_at(1, 0, 1, 2));
}

#[test]
fn soundness_asks_that_it_is_the_only_open_job() {
    // Task 0 is the more urgent, and two ticks are left.
    let both = |order, first: Progress, second: Progress| {
        forged(&[1, 2], &two_tasks(), 1, order, &[first, second])
    };
    // Either one behind, with the other open.
    is_sound(&both((0, 1), (0, 1, 1), (0, 1, 1)));
    unsound(&both((0, 1), (0, 1, 0), (0, 1, 1)));
    unsound(&both((0, 1), (0, 1, 1), (0, 1, 0)));
    unsound(&both((0, 1), (0, 1, 0), (0, 1, 0)));
    // Alone either may be.
    is_sound(&both((0, 1), (0, 1, 0), (0, 0, 1)));
    is_sound(&both((1, 1), (0, 0, 1), (0, 1, 0)));
    // Ahead of their plain ticks, at a level that meets the gap and not 01's allowance: 2 ticks, and
    // one plain tick.
    unsound(&both((0, 0), (0, 2, 1), (0, 1, 1)));
    is_sound(&both((0, 0), (0, 2, 1), (0, 0, 1)));
    // Behind, with plain ticks of a finished job to meet 01's allowance: at one unit a tick 2 ticks of
    // 3. With the third job open it may not be so.
    let three = tasks(&[(8, 2), (8, 2), (8, 2)]);
    let third = |work| {
        let progress = [(0, 0, 2), (0, 2, 1), (0, work, 2)];
        forged(&[1], &three, 2, (1, 0), &progress)
    };
    is_sound(&third(0));
    unsound(&third(1));
    unsound(&third(2));
    // An order that runs the other task, or none.
    unsound(&both((0, 0), (0, 0, 0), (0, 1, 0)));
    let mut idling = both((1, 0), (0, 0, 0), (0, 1, 0));
    is_sound(&idling);
    layout::TASK.put(&mut idling, layout::IDLE);
    unsound(&idling);
}

#[test]
fn soundness_asks_for_the_gap_and_not_for_the_allowance() {
    // At one unit a tick: task 0 has ended with 3 plain ticks left, task 1 needs 2 with none. The
    // next arrival is a tick away, and its allowance 3.
    let plan = tasks(&[(4, 3), (8, 2)]);
    let at_3 = |work, plain_left| {
        let progress = [(0, 0, 3), (0, work, plain_left)];
        forged(&[1], &plan, 3, (1, 0), &progress)
    };
    unsound(&at_3(2, 0));
    unsound(&at_3(2, 1));
    // A tick later it would be open beside a new job, with a tick to run and none of its own: not
    // sound, whichever rule is asked.
    let then = forged(&[1], &plan, 4, (0, 0), &[(0, 3, 3), (0, 1, 0)]);
    unsound(&then);
    // With plain ticks it may be open then.
    let mut ahead = at_3(2, 2);
    is_sound(&ahead);
    assert_eq!(pass(&mut ahead, 1, false), Ok(run(1, 0, 1)));
    is_sound(&ahead);
    // And with a single tick to run it is closed then.
    let mut within = at_3(1, 0);
    is_sound(&within);
    refuses_pass(&within, 1, false, 14);
    assert_eq!(pass(&mut within, 1, true), Ok(run(0, 0, 3)));
    is_sound(&within);
}

#[test]
fn soundness_takes_the_time_at_the_orders_level() {
    // 4 ticks to the next arrival. 10 units are 4 ticks at 3 units a tick and 3 at nominal, which is 4
    // units a tick; 13 are 5 and 4. With the other's plain ticks either level meets 01's allowance.
    let plan = tasks(&[(10, 20), (10, 16)]);
    let at_6 = |level, work, plain_left| {
        let progress = [(0, 0, 5), (0, work, plain_left)];
        forged(&[3, 4], &plan, 6, (1, level), &progress)
    };
    is_sound(&at_6(0, 10, 0));
    is_sound(&at_6(0, 12, 0));
    unsound(&at_6(0, 13, 0));
    is_sound(&at_6(1, 13, 0));
    is_sound(&at_6(1, 16, 0));
    is_sound(&at_6(0, 13, 4));
    unsound(&at_6(0, 13, 3));
    // Fixed ticks count in either time.
    let mut plan = plan;
    plan[1].fixed = 1;
    plan[1].worst = 12;
    let with_fixed = |fixed, work| {
        let progress = [(0, 0, 5), (fixed, work, 0)];
        forged(&[3, 4], &plan, 6, (1, 0), &progress)
    };
    is_sound(&with_fixed(1, 9));
    unsound(&with_fixed(1, 10));
    is_sound(&with_fixed(0, 12));
}

/// All states of a plan in its first hyperperiod, with any work, fixed ticks and plain ticks left that
/// are in range, and any order to run a task at a level up to the highest that a sound one may have.
fn every_state(speeds: &[u64], plan: &[Task], check: &mut impl FnMut([u8; STATE_BYTES])) {
    let levels = Levels::new(speeds);
    let judged = judge_list(&levels, plan).unwrap();
    let nominal = levels.speed(judged.nominal);
    let mut progress: Vec<Vec<Progress>> = vec![Vec::new()];
    for task in plan {
        let longer = |before: &Vec<Progress>| {
            let mut all = Vec::new();
            for fixed in 0..=task.fixed {
                for work in 0..=task.worst {
                    for plain_left in 0..=allotment(task, nominal) {
                        let mut more = before.clone();
                        more.push((fixed, work, plain_left));
                        all.push(more);
                    }
                }
            }
            all
        };
        progress = progress.iter().flat_map(longer).collect();
    }
    for clock in 0..judged.hyperperiod {
        for progress in &progress {
            for order in (0..plan.len()).flat_map(|task| {
                let levels = 0..=judged.nominal.max(plan[task].floor as usize);
                levels.map(move |level| (task, level))
            }) {
                check(forged(speeds, plan, clock, order, progress));
            }
        }
    }
}

/// Whatever is passed, a sound state is sound after it; and some of these are sound by the exception
/// alone.
#[test]
fn every_sound_state_of_small_plans_stays_sound() {
    let plans: [(&[u64], &[(u64, u64, u64, u64)]); 9] = [
        (&[1], &[(4, 3, 0, 0), (8, 2, 0, 0)]),
        (&[1, 2], &[(3, 2, 0, 0), (3, 2, 0, 0)]),
        (&[1, 2], &[(2, 1, 0, 0), (6, 4, 0, 0)]),
        (&[1, 2, 3], &[(4, 3, 0, 0), (6, 4, 1, 0)]),
        (&[1, 2], &[(4, 2, 0, 0), (4, 2, 0, 0), (8, 2, 0, 0)]),
        // 02, No. 8: floors at nominal and above it.
        (&[1, 2], &[(4, 3, 0, 1), (4, 3, 0, 0)]),
        (&[1, 2, 3], &[(4, 3, 0, 2), (4, 3, 0, 1)]),
        (&[1, 2, 3], &[(4, 3, 0, 0), (6, 4, 1, 2)]),
        (&[1, 2, 4], &[(4, 2, 0, 2), (4, 2, 0, 2), (8, 2, 0, 0)]),
    ];
    for (speeds, plan) in plans {
        let (mut sound_states, mut behind) = (0, 0);
        every_state(speeds, &floor_tasks(plan), &mut |state| {
            let (now, judged) = match sound(&state) {
                Some(found) => found,
                None => return,
            };
            sound_states += 1;
            let nominal = now.levels.speed(judged.nominal);
            let is_behind = |it: &Entry| time_needed(it.left, nominal) > it.plain_left;
            behind += u32::from(now.entries.iter().any(is_behind));
            for (d, finished) in (1..=8).flat_map(|d| [(d, false), (d, true)]) {
                let mut next = state;
                if pass(&mut next, d, finished).is_ok() {
                    assert!(sound(&next).is_some(), "{now:?}, {d} ticks, {finished}");
                }
            }
        });
        assert!(sound_states > 100 && behind > 10, "{sound_states} {behind}");
    }
}
