//! "Sound means ...", clause by clause, by forging states that just fail it and states that just
//! keep to it.

use crate::common::{bench_plan, led, refuses_pass, refuses_show, tasks, BENCH_PASSES};
use sim::dispatch::{pass, show};
use sim::layout::{self, STATE_BYTES};
use sim::random::states::put_table;
use sim::state::{pack, unpack, State};
use sim::Levels;

#[track_caller]
fn unsound(state: &[u8]) {
    refuses_pass(state, 1, false, 10);
    refuses_show(state, 48, 10);
    // Before the room is asked for.
    refuses_show(state, 0, 10);
}

#[track_caller]
fn is_sound(state: &[u8]) {
    assert!(show(state, &mut [0; 48]).is_ok());
    assert_ne!(pass(&mut state.to_vec(), 1, false), Err(10));
}

/// The bench plan at tick 1, with task 1 running at level 5, changed as told.
fn changed(change: impl Fn(&mut State)) -> [u8; STATE_BYTES] {
    let (state, _) = led(&bench_plan(), &BENCH_PASSES[..1]);
    let mut state = unpack(&state).unwrap();
    change(&mut state);
    pack(&state)
}

/// The state with this task and level in its order.
fn with_order(mut state: [u8; STATE_BYTES], task: u64, level: u64) -> [u8; STATE_BYTES] {
    layout::TASK.put(&mut state, task);
    layout::LEVEL.put(&mut state, level);
    state
}

/// The bench plan at tick 1 with these speeds in its table, their count, and zeros behind them.
fn with_table(speeds: &[u64]) -> [u8; STATE_BYTES] {
    let mut state = changed(|_| {});
    put_table(&mut state, speeds);
    state
}

#[test]
fn length_and_zero_bytes() {
    let good = changed(|_| {});
    is_sound(&good);
    unsound(&[]);
    unsound(&good[..200]);
    unsound(&good[..217]);
    unsound(&good[..220]);
    unsound(&[&good[..], &[0]].concat());
    // The zero byte of the head, and everything past the third entry.
    for place in [7].into_iter().chain(44..200) {
        let mut forged = good;
        forged[place] = 1;
        unsound(&forged);
    }
}

#[test]
fn the_plan_within() {
    for count in [0, 2, 4, 16, 17, 255] {
        let mut forged = changed(|_| {});
        layout::COUNT.put(&mut forged, count);
        unsound(&forged);
    }
    // 6. With a period of 65,535 a level admits the largest worst case. Since 02's No. 8 the next larger
    // doesn't fit its 20 bits: in the three bytes it is a floor of 1 and a worst case of 0.
    unsound(&changed(|state| state.entries[0].task.period = 0));
    let (largest, _) = led(&tasks(&[(65_535, 1_048_575)]), &[]);
    is_sound(&largest);
    let mut past = largest;
    layout::of_task(0, layout::FLOOR_AND_WORST).put(&mut past, 1_048_576);
    assert_eq!(
        (layout::floor_in(&past, 0), layout::worst_in(&past, 0)),
        (1, 0)
    );
    unsound(&past);
    // 7. With 1,000 beside it, 1,250 is a good period and 1,001 isn't.
    let mut pair = unpack(&led(&tasks(&[(1_000, 10), (1_000, 10)]), &[]).0).unwrap();
    pair.entries[1].task.period = 1_250;
    is_sound(&pack(&pair));
    pair.entries[1].task.period = 1_001;
    unsound(&pack(&pair));
    // 8. Of task 2's allotment of 6 ticks, 510 units take as much as 600 do.
    is_sound(&changed(|state| {
        state.entries[2].task.worst = 510;
        state.entries[2].left.work = 510;
    }));
    unsound(&changed(|state| state.entries[2].task.worst = 601));
}

#[test]
fn the_clock() {
    // 4,000,000,000 is 10 past a multiple of 30; all tasks have their first ticks left then.
    let at = |clock| {
        changed(move |state| {
            state.clock = clock;
            state.entries[0].plain_left = 4;
        })
    };
    is_sound(&at(4_000_000_000));
    unsound(&at(4_000_000_001));
    unsound(&at(u64::from(u32::MAX)));
}

#[test]
fn work_and_plain_ticks_left() {
    // Work left at most the worst case: a task with 395 units has 4 ticks as well.
    let with = |work_left| {
        changed(move |state| {
            state.entries[1].task.worst = 395;
            state.entries[1].left.work = work_left;
        })
    };
    is_sound(&with(395));
    unsound(&with(396));
    // Plain ticks left at most the allotment.
    is_sound(&changed(|state| state.entries[0].plain_left = 4));
    unsound(&changed(|state| state.entries[0].plain_left = 5));
    // The time needed at the nominal level at most the plain ticks left.
    is_sound(&changed(|state| {
        state.entries[2].left.work = 500;
        state.entries[2].plain_left = 5;
    }));
    unsound(&changed(|state| {
        state.entries[2].left.work = 501;
        state.entries[2].plain_left = 5;
    }));
    unsound(&changed(|state| state.entries[2].plain_left = 5));
    // That the plain ticks left can still be had before the deadline isn't asked.
    is_sound(&changed(|state| {
        state.clock = 9;
        state.entries[0].plain_left = 4;
    }));
}

#[test]
fn the_order() {
    let order = |task, level| with_order(changed(|_| {}), task, level);
    is_sound(&order(1, 5));
    is_sound(&order(1, 6));
    is_sound(&order(1, 7));
    // 8 ticks at level 4 don't meet the allowance of 7; no level is above 7.
    unsound(&order(1, 4));
    unsound(&order(1, 8));
    unsound(&order(1, 255));
    // Task 0 has ended, task 2 is less urgent, there is no task 3, and a job is open.
    unsound(&order(0, 7));
    unsound(&order(2, 7));
    unsound(&order(3, 7));
    unsound(&order(254, 7));
    unsound(&order(255, 0));
    unsound(&order(255, 5));
}

#[test]
fn a_level_above_nominal() {
    // Nominal level 1; 20 units need 1 tick there and at level 2.
    let (state, _) = led(&tasks(&[(1, 20)]), &[]);
    assert_eq!(layout::LEVEL.get(&state), 1);
    unsound(&with_order(state, 0, 2));
}

#[test]
fn an_idle_order() {
    let (idle, _) = led(&bench_plan(), &BENCH_PASSES[..5]);
    is_sound(&idle);
    for (task, level) in [(0, 0), (0, 7), (2, 0), (2, 7), (255, 1), (254, 0)] {
        unsound(&with_order(idle, task, level));
    }
    // A single unit of work open while idle, with plain ticks to do it.
    let mut forged = unpack(&idle).unwrap();
    forged.entries[2].left.work = 1;
    unsound(&pack(&forged));
}

#[test]
fn which_job_an_entry_stands_for_follows_from_the_clock() {
    // At clock 1 tasks 0 and 1 are more urgent than task 2 (deadlines 10 and 30); at clock 21
    // all deadlines are 30, and task 2 arrived first.
    let at = |clock, task| {
        let state = changed(move |state| state.clock = clock);
        with_order(state, task, 7)
    };
    is_sound(&at(1, 1));
    unsound(&at(1, 2));
    is_sound(&at(21, 2));
    unsound(&at(21, 1));
    // At clock 20 the jobs of tasks 0 and 1 have just arrived, at 19 they are those from 10.
    is_sound(&at(19, 1));
    is_sound(&at(20, 2));
}

#[test]
fn the_count_of_levels() {
    let count = |state: &mut [u8; STATE_BYTES], count| layout::LEVEL_COUNT.put(state, count);
    // With fewer, the last speeds are there and not used; with more, the next ones are 0.
    for other in [0, 1, 7, 9, 16, 128, 255] {
        let mut state = changed(|_| {});
        count(&mut state, other);
        unsound(&state);
    }
    // 60 and 100 units a tick are levels 0 and 1 then, so the order names another level.
    let mut two = with_order(with_table(&[60, 100]), 1, 0);
    is_sound(&two);
    for other in [0, 1, 3, 8] {
        count(&mut two, other);
        unsound(&two);
    }
}

#[test]
fn the_speeds_of_the_table() {
    let good = Levels::base().speeds().to_vec();
    is_sound(&with_table(&good));
    for place in 0..8 {
        let with = |speed| {
            let mut speeds = good.clone();
            speeds[place] = speed;
            with_table(&speeds)
        };
        // Out of range.
        for speed in [0, 1_001, 1_024, 65_535] {
            unsound(&with(speed));
        }
        // The same as a neighbour, or past it.
        if place > 0 {
            unsound(&with(good[place - 1]));
            unsound(&with(good[place - 1] - 1));
        }
        if place < 7 {
            unsound(&with(good[place + 1]));
            unsound(&with(good[place + 1] + 1));
        }
    }
    // At their ends. The order has 7 ticks for 400 units at level 5, and nominal is 100.
    is_sound(&with_table(&[1, 20, 30, 40, 50, 60, 80, 100]));
    let fastest = |speed| with_order(with_table(&[60, 100, speed]), 1, 0);
    is_sound(&fastest(1_000));
    unsound(&fastest(1_001));
}

#[test]
fn speeds_that_are_not_used() {
    for count in 1..8 {
        let speeds: Vec<u64> = (0..count).map(|place| 100 + place).collect();
        let good = with_order(with_table(&speeds), 1, 0);
        is_sound(&good);
        for unused in count as usize..8 {
            for speed in [1, 255, 256, 200 + unused as u64] {
                let mut forged = good;
                layout::speed_of(unused).put(&mut forged, speed);
                unsound(&forged);
            }
        }
    }
}

#[test]
fn the_rest_of_the_state_is_asked_with_its_own_table() {
    // Level 5 runs at 60. At 58 a tick 400 units need 7 ticks still, at 57 they need 8.
    is_sound(&with_table(&[10, 20, 30, 40, 50, 58, 80, 100]));
    unsound(&with_table(&[10, 20, 30, 40, 50, 57, 80, 100]));
    // At 99 no level admits the plan; at 101 all is as before, and 120 gives allotments of 4, 4 and
    // 5 ticks, where task 2 has 6 plain ticks left.
    unsound(&with_table(&[10, 20, 30, 40, 50, 60, 80, 99]));
    is_sound(&with_table(&[10, 20, 30, 40, 50, 60, 80, 101]));
    unsound(&with_table(&[10, 20, 30, 40, 50, 60, 80, 120]));
    // Nominal is then level 6, and an order at level 7 is above it.
    let higher = with_table(&[10, 20, 30, 40, 50, 60, 100, 200]);
    is_sound(&with_order(higher, 1, 6));
    unsound(&with_order(higher, 1, 7));
}

#[test]
fn the_total() {
    // 3 + 4 + 6 plain ticks, and `total` has more on it.
    let with = |total| {
        let mut state = changed(|_| {});
        layout::TOTAL.put(&mut state, total);
        state
    };
    is_sound(&with(13));
    for total in [0, 12, 14, 4_294_967_295] {
        unsound(&with(total));
    }
}
