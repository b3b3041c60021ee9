//! 01's cases of starting, passing and showing, with the answers that stand there, and cases of other
//! speeds, of fixed ticks and of lone jobs, worked out by hand.

use crate::both::Both;
use crate::dispatch::STATE_BYTES;
use crate::made::{bench_plan, fixed_tasks, tasks};
use crate::view::queue_bytes;
use differ::dispatcher::Order;
use sim::levels::Levels;
use sim::plan::Task;
use sim::random::blocks::block_of;
use sim::random::totals::put_total;

/// The passes of 01's listing, and what they are answered. 02, No. 4: at 14 task 1's job is alone and
/// has 6 ticks to the next arrival, so it runs at level 6 and ends at 19.
const LISTING: [(u32, u8, Order); 6] = [
    (1, 1, run(1, 5, 7)),
    (7, 1, run(2, 7, 2)),
    (2, 1, run(0, 7, 4)),
    (4, 1, run(1, 6, 5)),
    (5, 1, idle(1)),
    (1, 0, run(0, 6, 5)),
];

const fn run(task: u8, level: u8, hold: u32) -> Order {
    Order::Run { task, level, hold }
}

const fn idle(hold: u32) -> Order {
    Order::Idle { hold }
}

/// The bench plan after so many passes of the listing.
fn led(both: &mut Both, passes: usize) -> [u8; STATE_BYTES] {
    let mut state = [0; STATE_BYTES];
    let first = both.start(&block_of(&bench_plan()), &[], &mut state);
    assert_eq!(first, Ok(run(0, 7, 4)));
    for (d, finished, order) in &LISTING[..passes] {
        assert_eq!(both.pass(&mut state, *d, *finished), Ok(*order));
    }
    state
}

/// Would catch every one of the ways astray that 01 lists: the run goes through the ticks that it
/// names.
#[test]
fn the_listing() {
    let levels = Levels::base();
    let mut both = Both::new(&levels);
    for passes in 0..=LISTING.len() {
        led(&mut both, passes);
    }
}

/// Would catch a field at another place of the state, or with its bytes in another order.
#[test]
fn the_state_byte_by_byte() {
    let levels = Levels::base();
    let mut both = Both::new(&levels);
    let mut state = led(&mut both, 1);
    let mut wanted = [0; STATE_BYTES];
    // Clock 1, task 1, level 5, three entries.
    wanted[..8].copy_from_slice(&[0, 0, 0, 1, 1, 5, 3, 0]);
    // 400 is hex 190 and 600 is hex 258. Task 0 has ended and had one of its 4 ticks.
    wanted[8..20].copy_from_slice(&[0, 10, 0, 1, 0x90, 0, 0, 0, 0, 3, 0, 0]);
    wanted[20..32].copy_from_slice(&[0, 10, 0, 1, 0x90, 0, 1, 0x90, 0, 4, 0, 0]);
    wanted[32..44].copy_from_slice(&[0, 30, 0, 2, 0x58, 0, 2, 0x58, 0, 6, 0, 0]);
    // Eight levels, and their speeds in two bytes each.
    let table = [8, 0, 10, 0, 20, 0, 30, 0, 40, 0, 50, 0, 60, 0, 80, 0, 100];
    wanted[200..217].copy_from_slice(&table);
    // 3 + 4 + 6 plain ticks.
    wanted[217..].copy_from_slice(&[0, 0, 0, 13]);
    assert_eq!(state, wanted);
    // Two ticks at 60 a tick: 280 left, hex 118.
    assert_eq!(both.pass(&mut state, 2, 0), Ok(run(1, 5, 5)));
    wanted[3] = 3;
    wanted[17] = 1;
    wanted[26..28].copy_from_slice(&[1, 0x18]);
    wanted[220] = 11;
    assert_eq!(state, wanted);
    // Idle at tick 19: task 255, level 0. Only task 2's allotment isn't used up.
    let idle = led(&mut both, 5);
    assert_eq!(idle[..8], [0, 0, 0, 19, 255, 0, 3, 0]);
    assert_eq!(idle[8..20], [0, 10, 0, 1, 0x90, 0, 0, 0, 0, 0, 0, 0]);
    assert_eq!(idle[20..32], [0, 10, 0, 1, 0x90, 0, 0, 0, 0, 0, 0, 0]);
    assert_eq!(idle[32..44], [0, 30, 0, 2, 0x58, 0, 0, 0, 0, 3, 0, 0]);
    assert_eq!(idle[200..217], table);
    assert_eq!(idle[217..], [0, 0, 0, 3]);
}

/// Would catch an edge of 11 to 14 that is off by one.
#[test]
fn passes_of_the_bench_plan_at_tick_0() {
    let levels = Levels::base();
    let mut both = Both::new(&levels);
    let state = led(&mut both, 0);
    let mut answer = |d, finished| both.pass(&mut state.clone(), d, finished);
    assert_eq!(answer(3, 0), Ok(run(0, 7, 1)));
    assert_eq!(answer(4, 0), Err(14));
    assert_eq!(answer(4, 1), Ok(run(1, 7, 4)));
    assert_eq!(answer(5, 1), Err(14));
    assert_eq!(answer(10, 1), Err(14));
    assert_eq!(answer(11, 1), Err(12));
    assert_eq!(answer(0, 0), Err(11));
    assert_eq!(answer(0, 1), Err(11));
}

/// Would catch a finish that is taken though no job runs. 02, No. 4: "01's case of a finish while idle
/// moves there, with 1 tick."
#[test]
fn finishing_while_idle_at_tick_19() {
    let levels = Levels::base();
    let mut both = Both::new(&levels);
    let mut state = led(&mut both, 5);
    assert_eq!(both.pass(&mut state, 1, 1), Err(13));
    assert_eq!(both.pass(&mut state, 2, 1), Err(12));
    assert_eq!(both.pass(&mut state, 1, 0), Ok(run(0, 6, 5)));
    // Where the lone job ends at 18, there are two ticks of it.
    let mut earlier = led(&mut both, 4);
    assert_eq!(both.pass(&mut earlier, 4, 1), Ok(idle(2)));
    assert_eq!(both.pass(&mut earlier, 2, 1), Err(13));
    assert_eq!(both.pass(&mut earlier, 3, 1), Err(12));
    assert_eq!(both.pass(&mut earlier, 1, 0), Ok(idle(1)));
    assert_eq!(both.pass(&mut earlier, 1, 0), Ok(run(0, 6, 5)));
}

/// Would catch a queue that is sorted by deadline and number alone, and one byte too few asked for.
#[test]
fn queues_at_ticks_1_and_20() {
    let levels = Levels::base();
    let mut both = Both::new(&levels);
    let first = led(&mut both, 1);
    let queue = [0, 0, 3, 1, 0, 4, 2, 0, 6];
    assert_eq!(both.show(&first, 9).as_deref(), Ok(&queue[..]));
    assert_eq!(both.show(&first, 8), Err(9));
    let last = led(&mut both, 6);
    let queue = queue_bytes(&[(2, 2), (0, 4), (1, 4)]);
    assert_eq!(both.show(&last, 48), Ok(queue));
}

/// Would catch a wrong answer where the plan has no room at all: every tick starts a new job.
#[test]
fn period_1() {
    let levels = Levels::base();
    let mut both = Both::new(&levels);
    for (work, level) in [(10, 0), (11, 1), (60, 5), (61, 6), (100, 7)] {
        let mut state = [0; STATE_BYTES];
        let first = both.start(&block_of(&tasks(&[(1, work)])), &[], &mut state);
        assert_eq!(first, Ok(run(0, level, 1)));
        for _ in 0..50 {
            assert_eq!(both.pass(&mut state, 1, 0), Err(14));
            assert_eq!(both.pass(&mut state, 2, 1), Err(12));
            assert_eq!(both.pass(&mut state, 1, 1), Ok(run(0, level, 1)));
        }
    }
    let mut state = [0; STATE_BYTES];
    assert_eq!(
        both.start(&block_of(&tasks(&[(1, 101)])), &[], &mut state),
        Err(8)
    );
}

/// Would catch a table that is stored at another place, with its bytes in another order, with more
/// speeds than were loaded, or not at all.
#[test]
fn the_table_in_the_state_byte_by_byte() {
    let mut both = Both::new(&Levels::new(&[1, 258, 1_000]));
    let mut state = [0xa5; STATE_BYTES + 3];
    let first = both.start(&block_of(&tasks(&[(40, 300)])), &[], &mut state);
    // 300 units are 2 ticks at 258, and too many at 1.
    assert_eq!(first, Ok(run(0, 1, 2)));
    let wanted = [3, 0, 1, 1, 2, 3, 232, 0, 0, 0, 0, 0, 0, 0, 0, 0, 0];
    assert_eq!(state[200..217], wanted);
    assert_eq!(state[STATE_BYTES..], [0xa5; 3]);
    let mut state: [u8; STATE_BYTES] = state[..STATE_BYTES].try_into().unwrap();
    assert_eq!(both.pass(&mut state, 1, 0), Ok(run(0, 1, 1)));
    assert_eq!(both.pass(&mut state, 1, 1), Ok(idle(38)));
    assert_eq!(state[200..217], wanted);
    // One level alone: 300 units are a tick at 1,000.
    both.load(&Levels::new(&[1_000]));
    let mut state = [0xa5; STATE_BYTES];
    let first = both.start(&block_of(&tasks(&[(40, 300)])), &[], &mut state);
    assert_eq!(first, Ok(run(0, 0, 1)));
    let wanted = [1, 3, 232, 0, 0, 0, 0, 0, 0, 0, 0, 0, 0, 0, 0, 0, 0];
    assert_eq!(state[200..217], wanted);
}

/// Would catch speeds that are 01's whatever was loaded: 7, 13 and 29 units a tick, with the answers
/// worked out by hand.
#[test]
fn a_run_at_odd_speeds() {
    let mut both = Both::new(&Levels::new(&[7, 13, 29]));
    let plan = tasks(&[(10, 40), (15, 56)]);
    let mut state = [0; STATE_BYTES];
    // 4 and 5 ticks at 13 are 22 of 30; 6 and 8 at 7 are 34.
    assert_eq!(
        both.start(&block_of(&plan), &[], &mut state),
        Ok(run(0, 1, 4))
    );
    // 3 and 5 ticks for 56 units, which are 8 exactly at 7.
    assert_eq!(both.pass(&mut state, 1, 1), Ok(run(1, 0, 8)));
    assert_eq!(both.pass(&mut state, 3, 0), Ok(run(1, 0, 5)));
    assert_eq!(both.pass(&mut state, 5, 0), Err(14));
    assert_eq!(both.pass(&mut state, 5, 1), Ok(idle(1)));
    assert_eq!(both.pass(&mut state, 1, 0), Ok(run(0, 1, 4)));
    assert_eq!(both.show(&state, 48), Ok(queue_bytes(&[(0, 4)])));
    // The same plan with 01's speeds, and with ones too slow for it.
    both.load(&Levels::base());
    assert_eq!(
        both.start(&block_of(&plan), &[], &mut state),
        Ok(run(0, 0, 4))
    );
    both.load(&Levels::new(&[1, 6]));
    assert_eq!(both.start(&block_of(&plan), &[], &mut state), Err(8));
}

/// Would catch fixed ticks that scale, come after the work, are lost at a preemption or stay in a job
/// that ended, with the answers worked out by hand. At 40 units a tick the tasks take 2 + 3 ticks
/// of 10 and 6 + 13 of 40, so 39 of 40; at 30 it would be 47.
#[test]
fn a_run_with_fixed_ticks() {
    let mut both = Both::new(&Levels::base());
    let mut state = started_with_fixed_ticks(&mut both);
    assert_eq!(state[8..20], [0, 10, 0, 0, 100, 0, 0, 100, 0, 5, 2, 2]);
    assert_eq!(state[20..32], [0, 40, 0, 1, 244, 0, 1, 244, 0, 19, 6, 6]);
    assert_eq!(both.pass(&mut state.clone(), 5, 0), Err(14));
    assert_eq!(both.pass(&mut state.clone(), 6, 1), Err(14));
    assert_eq!(both.pass(&mut state.clone(), 4, 0), Ok(run(0, 3, 1)));
    // With its worst case used, task 1 starts at 5, and has one fixed tick left at 10.
    assert_eq!(both.pass(&mut state, 5, 1), Ok(run(1, 3, 5)));
    assert_eq!(both.pass(&mut state, 5, 0), Ok(run(0, 3, 5)));
    assert_eq!(state[20..32], [0, 40, 0, 1, 244, 0, 1, 244, 0, 14, 6, 1]);
    assert_eq!(both.pass(&mut state, 5, 1), Ok(run(1, 3, 5)));
    assert_eq!(both.pass(&mut state, 5, 0), Ok(run(0, 3, 5)));
    // 4 ticks at 40: 340 left, hex 154.
    assert_eq!(state[20..32], [0, 40, 0, 1, 244, 0, 1, 0x54, 0, 9, 6, 0]);
    assert_eq!(both.pass(&mut state, 5, 1), Ok(run(1, 3, 5)));
    // At 30 task 1 has the same deadline and came first.
    assert_eq!(both.pass(&mut state, 5, 0), Ok(run(1, 3, 4)));
    // At 34 task 0 is alone: 2 + 4 ticks at 30 units are the 6 to the next arrival.
    assert_eq!(both.pass(&mut state, 4, 1), Ok(run(0, 2, 6)));
    assert_eq!(both.pass(&mut state, 5, 1), Ok(idle(1)));
    assert_eq!(both.pass(&mut state, 1, 0), Ok(run(0, 3, 5)));
}

fn started_with_fixed_ticks(both: &mut Both) -> [u8; STATE_BYTES] {
    let block = block_of(&fixed_tasks(&[(10, 100, 2), (40, 500, 6)]));
    let mut state = [0xa5; STATE_BYTES];
    assert_eq!(both.start(&block, &[], &mut state), Ok(run(0, 3, 5)));
    state
}

/// The same where task 0 ends inside its fixed ticks.
#[test]
fn an_end_inside_the_fixed_ticks() {
    let mut both = Both::new(&Levels::base());
    let mut early = started_with_fixed_ticks(&mut both);
    // 4 + 19 ticks for 6 + 17 at 30 units. Task 1 is alone, and the 9 ticks to the next arrival are
    // fewer.
    assert_eq!(both.pass(&mut early, 1, 1), Ok(run(1, 2, 9)));
    assert_eq!(early[8..20], [0, 10, 0, 0, 100, 0, 0, 0, 0, 4, 2, 0]);
    assert_eq!(both.show(&early, 6), Ok(queue_bytes(&[(0, 4), (1, 19)])));
    assert_eq!(both.pass(&mut early, 3, 0), Ok(run(1, 2, 6)));
    assert_eq!(early[20..32], [0, 40, 0, 1, 244, 0, 1, 244, 0, 19, 6, 3]);
    // Forged: more left than there are, some left in the finished job, and work gone before them.
    let forged = |both: &mut Both, place: usize, value| {
        let mut forged = early;
        forged[place] = value;
        both.show(&forged, 48).err()
    };
    assert_eq!(forged(&mut both, 31, 7), Some(10));
    assert_eq!(forged(&mut both, 19, 1), Some(10));
    assert_eq!(forged(&mut both, 26, 0), None);
    assert_eq!(both.pass(&mut early, 6, 0), Ok(run(0, 3, 5)));
    // 3 fixed ticks and 3 at 30: 410 left, hex 19a.
    assert_eq!(early[20..32], [0, 40, 0, 1, 244, 0, 1, 0x9a, 0, 14, 6, 0]);
}

/// 01's speeds and this plan, after passes that are all accepted: the state, and the order of the last.
fn led_through(both: &mut Both, plan: &[Task], passes: &[(u32, u8)]) -> ([u8; STATE_BYTES], Order) {
    let mut state = [0; STATE_BYTES];
    let mut order = both.start(&block_of(plan), &[], &mut state);
    for (d, finished) in passes {
        order = both.pass(&mut state, *d, *finished);
    }
    (state, order.expect("all are accepted"))
}

/// Two tasks of period 40 at nominal level 1, 20 units a tick. Task 0 has 3 plain ticks and ends after
/// so many; then task 1's job, of this worst case, is alone, and the rest of the 40 is its gap.
fn alone_after(ticks: u32, worst: u64) -> Order {
    let mut both = Both::new(&Levels::base());
    let plan = tasks(&[(40, 41), (40, worst)]);
    led_through(&mut both, &plan, &[(ticks, 1)]).1
}

/// Would catch a gap that is a tick or a unit off, or that isn't used at all: its own plain ticks and
/// those that task 0 left are about 20, and at 10 units a tick it needs about 40.
#[test]
fn a_lone_jobs_gap_to_the_unit() {
    // 39 ticks to the next arrival are 390 units at level 0. One unit more is level 1.
    assert_eq!(alone_after(1, 390), run(1, 0, 39));
    assert_eq!(alone_after(1, 391), run(1, 1, 20));
    // With a tick less they are 380, and with one less still 370.
    assert_eq!(alone_after(2, 390), run(1, 1, 20));
    assert_eq!(alone_after(2, 381), run(1, 1, 20));
    assert_eq!(alone_after(2, 380), run(1, 0, 38));
    assert_eq!(alone_after(3, 380), run(1, 1, 19));
    assert_eq!(alone_after(3, 371), run(1, 1, 19));
    assert_eq!(alone_after(3, 370), run(1, 0, 37));
    // Fixed ticks are a part of the time: 9 + 30 at level 0, and 9 + 31.
    let mut both = Both::new(&Levels::base());
    let mut with_fixed = |worst| {
        let plan = fixed_tasks(&[(40, 41, 0), (40, worst, 9)]);
        led_through(&mut both, &plan, &[(1, 1)]).1
    };
    assert_eq!(with_fixed(300), run(1, 0, 39));
    assert_eq!(with_fixed(301), run(1, 1, 25));
}

/// The bench plan with another worst case of task 2, whose job is alone at 2. 8 ticks are left to the
/// next arrival, and of 01's allowance 2 + 4 plain ticks of the others, and its own at 100 units a tick.
fn alone_at_2(worst: u64) -> Order {
    let mut both = Both::new(&Levels::base());
    let plan = tasks(&[(10, 400), (10, 400), (30, worst)]);
    led_through(&mut both, &plan, &[(1, 1), (1, 1)]).1
}

/// Would catch the gap being taken though 01's allowance is larger: "its allowance is the larger of
/// 01's and the ticks to the next arrival".
#[test]
fn the_larger_of_both_to_the_unit() {
    // 11 plain ticks are 440 units at level 3. In 8 ticks that would be level 5.
    assert_eq!(alone_at_2(440), run(2, 3, 8));
    assert_eq!(alone_at_2(441), run(2, 4, 8));
    // 12 are 600 units at level 4, as many as the plan has room for.
    assert_eq!(alone_at_2(600), run(2, 4, 8));
    // 8 of each are 160 units at level 1.
    assert_eq!(alone_at_2(160), run(2, 1, 8));
    assert_eq!(alone_at_2(161), run(2, 2, 6));
    // 7 plain ticks and a gap of 8: 80 units at level 0. 7 ticks would be level 1.
    assert_eq!(alone_at_2(80), run(2, 0, 8));
    assert_eq!(alone_at_2(81), run(2, 1, 5));
}

/// Would catch the gap given to a job in company.
#[test]
fn a_job_in_company_has_no_gap() {
    let mut both = Both::new(&Levels::base());
    // At 1 task 1 has 7 plain ticks and 9 to the next arrival, and needs 8 at level 4. One unit of
    // another job is enough for level 5.
    let plan = tasks(&[(10, 400), (10, 400), (30, 1)]);
    assert_eq!(led_through(&mut both, &plan, &[(1, 1)]).1, run(1, 5, 7));
    // At 11 all is the same, and that job is done. Task 0's plain ticks are no open job.
    let to_11 = [(1, 1), (7, 1), (1, 1), (1, 0), (1, 1)];
    let (state, order) = led_through(&mut both, &plan, &to_11);
    assert_eq!(order, run(1, 4, 8));
    assert_eq!(both.show(&state, 6), Ok(queue_bytes(&[(0, 3), (1, 4)])));
}

/// Two tasks of period 3 with 2 units each, at 1 or 2 units a tick: in one tick at nominal each.
fn two_tasks(both: &mut Both) -> [u8; STATE_BYTES] {
    let mut state = [0xa5; STATE_BYTES];
    let first = both.start(&block_of(&tasks(&[(3, 2), (3, 2)])), &[], &mut state);
    assert_eq!(first, Ok(run(0, 1, 1)));
    state
}

/// Would catch a job that may not be open past its plain finish, or may be so past the next arrival:
/// the smallest use that there is of 02's exception.
#[test]
fn the_smallest_use_of_the_exception() {
    let mut both = Both::new(&Levels::new(&[1, 2]));
    let mut state = two_tasks(&mut both);
    let fresh = state;
    // At 1 it is alone, with one plain tick and two to the next arrival.
    assert_eq!(both.pass(&mut state, 1, 1), Ok(run(1, 0, 2)));
    assert_eq!(both.show(&state, 3), Ok(queue_bytes(&[(1, 1)])));
    // At 2 a unit is left, no plain tick, and one tick to go: nothing is queued.
    assert_eq!(both.pass(&mut state, 1, 0), Ok(run(1, 0, 1)));
    assert_eq!(both.show(&state, 0), Ok(vec![]));
    assert_eq!(both.show(&state, 48), Ok(vec![]));
    let mut wanted = [0; STATE_BYTES];
    wanted[..8].copy_from_slice(&[0, 0, 0, 2, 1, 0, 2, 0]);
    wanted[8..20].copy_from_slice(&[0, 3, 0, 0, 2, 0, 0, 0, 0, 0, 0, 0]);
    wanted[20..32].copy_from_slice(&[0, 3, 0, 0, 2, 0, 0, 1, 0, 0, 0, 0]);
    wanted[200..205].copy_from_slice(&[2, 0, 1, 0, 2]);
    assert_eq!(state, wanted);
    // It can't go on at the arrival. A refused pass leaves it open past its plain finish.
    assert_eq!(both.pass(&mut state, 1, 0), Err(14));
    assert_eq!(both.pass(&mut state, 2, 0), Err(12));
    assert_eq!(both.pass(&mut state, 2, 1), Err(12));
    assert_eq!(state, wanted);
    assert_eq!(both.show(&state, 48), Ok(vec![]));
    // It ends at 3, with the arrival of both tasks: all is as at the start, but for the clock.
    assert_eq!(both.pass(&mut state, 1, 1), Ok(run(0, 1, 1)));
    wanted = fresh;
    wanted[3] = 3;
    assert_eq!(state, wanted);
    assert_eq!(both.show(&state, 6), Ok(queue_bytes(&[(0, 1), (1, 1)])));
}

/// Would catch soundness without the exception, or with more than it allows: the same at 2, forged.
#[test]
fn the_smallest_use_of_the_exception_forged() {
    let mut both = Both::new(&Levels::new(&[1, 2]));
    let mut state = two_tasks(&mut both);
    assert_eq!(both.pass(&mut state, 1, 1), Ok(run(1, 0, 2)));
    assert_eq!(both.pass(&mut state, 1, 0), Ok(run(1, 0, 1)));
    let mut forged = |changes: &[(usize, u8)]| {
        let mut forged = state;
        for (place, value) in changes {
            forged[*place] = *value;
        }
        put_total(&mut forged);
        let passed = both.pass(&mut forged.clone(), 1, 1).err();
        assert_eq!(both.show(&forged, 48).err(), passed);
        passed
    };
    let (clock, level, ended_work, ended_plain, work, plain) = (3, 5, 15, 17, 27, 29);
    assert_eq!(forged(&[]), None);
    // Two units are two ticks at level 0, and one is left; at level 1 they are one.
    assert_eq!(forged(&[(work, 2)]), Some(10));
    assert_eq!(forged(&[(work, 2), (level, 1)]), None);
    assert_eq!(forged(&[(work, 2), (clock, 1)]), None);
    // Where the gap isn't enough it takes two plain ticks, its own and the other task's.
    assert_eq!(forged(&[(work, 2), (plain, 1)]), Some(10));
    assert_eq!(forged(&[(work, 2), (ended_plain, 1)]), Some(10));
    assert_eq!(forged(&[(work, 2), (plain, 1), (ended_plain, 1)]), None);
    // With task 0's job open, whatever it has, it isn't alone.
    assert_eq!(forged(&[(ended_work, 1)]), Some(10));
    assert_eq!(forged(&[(ended_work, 1), (ended_plain, 1)]), Some(10));
    let first_runs = [(ended_work, 1), (ended_plain, 1), (4, 0), (plain, 1)];
    assert_eq!(forged(&first_runs[..3]), Some(10));
    assert_eq!(forged(&first_runs), None);
}

/// Would catch soundness that lets a job in company be behind its plain ticks: of three tasks with a unit
/// each, at one unit a tick, the first has ended and left its plain tick, and the second runs.
#[test]
fn a_job_in_company_may_not_be_behind() {
    let mut both = Both::new(&Levels::new(&[1]));
    let mut state = [0; STATE_BYTES];
    let first = both.start(&block_of(&tasks(&[(4, 1); 3])), &[], &mut state);
    assert_eq!(first, Ok(run(0, 0, 1)));
    let (order, first_work, plain, third_work, total) = (4, 15, 29, 39, 220);
    state[order] = 1;
    state[first_work] = 0;
    assert!(both.show(&state, 9).is_ok());
    // Without a plain tick of its own, it has the first one's for an allowance, and 4 ticks of gap.
    state[plain] = 0;
    state[total] = 2;
    assert_eq!(both.show(&state, 9), Err(10));
    assert_eq!(both.pass(&mut state, 1, 1), Err(10));
    // Alone it may be so.
    state[third_work] = 0;
    assert_eq!(both.show(&state, 9), Ok(queue_bytes(&[(0, 1), (2, 1)])));
    assert_eq!(both.pass(&mut state, 1, 1), Ok(idle(3)));
}
