//! Other speeds than 01's, with answers worked out by hand from 01's rules: they name levels, not
//! these eight speeds.

use crate::common::{idle, queue, refuses_pass, refuses_show, run, tasks};
use sim::dispatch::{pass, sound, start, Order};
use sim::job::{left_after, time_needed, Left};
use sim::layout::{self, STATE_BYTES};
use sim::plan::{judge_list, read_plan, write_plan, Judged, Task};
use sim::random::blocks::block_of;
use sim::random::states::put_table;
use sim::{listing, write_levels, Levels, PlainBook};

fn odd() -> Levels {
    Levels::new(&[7, 13, 29])
}

/// At 7 units a tick these take 6 of 10 and 8 of 15 ticks, so 18 and 16 of 30: too much. At 13 they
/// take 4 and 5, so 12 and 10.
fn odd_plan() -> Vec<Task> {
    tasks(&[(10, 40), (15, 56)])
}

/// A state started with the plan and led through passes, with the order that stands at the end.
fn led(levels: &Levels, plan: &[Task], passes: &[(u32, bool)]) -> ([u8; STATE_BYTES], Order) {
    let mut state = [0; STATE_BYTES];
    let mut order = start(levels, &block_of(plan), &[], &mut state).unwrap();
    for (d, finished) in passes {
        order = pass(&mut state, *d, *finished).unwrap();
    }
    (state, order)
}

fn judged(nominal: usize, hyperperiod: u64) -> Result<Judged, u32> {
    Ok(Judged {
        nominal,
        hyperperiod,
    })
}

#[test]
fn one_tick_holds_a_levels_speed_and_no_more() {
    for speeds in [&[7, 13, 29][..], &[1], &[1_000], &[1, 1_000], &[999, 1_000]] {
        let levels = Levels::new(speeds);
        let nominal = |work| judge_list(&levels, &tasks(&[(1, work)])).map(|it| it.nominal);
        for (level, speed) in speeds.iter().enumerate() {
            assert_eq!(nominal(*speed), Ok(level));
            let next = level + 1;
            let over = if next < speeds.len() {
                Ok(next)
            } else {
                Err(8)
            };
            assert_eq!(nominal(speed + 1), over);
        }
        assert_eq!(nominal(1), Ok(0));
    }
}

#[test]
fn admission_at_odd_speeds() {
    assert_eq!(judge_list(&odd(), &odd_plan()), judged(1, 30));
    // 18 and 12 are 30 of 30: 42 units take 6 ticks at 7, and 43 take 7.
    assert_eq!(
        judge_list(&odd(), &tasks(&[(10, 42), (15, 42)])),
        judged(0, 30)
    );
    assert_eq!(
        judge_list(&odd(), &tasks(&[(10, 42), (15, 43)])),
        judged(1, 30)
    );
    // 6 and 6 ticks at 29 are 18 and 12 again; a unit more than 174 is too much for all levels.
    assert_eq!(
        judge_list(&odd(), &tasks(&[(10, 174), (15, 174)])),
        judged(2, 30)
    );
    assert_eq!(judge_list(&odd(), &tasks(&[(10, 174), (15, 175)])), Err(8));
}

#[test]
fn the_block_is_the_same_and_the_verdict_is_the_tables() {
    let block = block_of(&odd_plan());
    let mut buffer = [0xa5; 11];
    for (levels, nominal) in [
        (odd(), 1),
        (Levels::base(), 0),
        (Levels::new(&[1, 5, 9, 10]), 2),
    ] {
        let (plan, found) = read_plan(&levels, &block).unwrap();
        assert_eq!((plan, Ok(found)), (odd_plan(), judged(nominal, 30)));
        let written = write_plan(&levels, 2, &odd_plan(), &mut buffer);
        assert_eq!((written, &buffer[..]), (Ok(11), &block[..]));
    }
    // 40 and 56 units at 6 are 7 and 10 ticks: 41 of 30.
    let slow = Levels::new(&[1, 6]);
    assert_eq!(read_plan(&slow, &block), Err(8));
    assert_eq!(write_plan(&slow, 2, &odd_plan(), &mut [0; 11]), Err(8));
    assert_eq!(start(&slow, &block, &[], &mut [0; STATE_BYTES]), Err(8));
}

#[test]
fn a_listing_at_odd_speeds() {
    let passes = [
        0x80, 0x01, 0x00, 0x03, 0x00, 0x05, 0x80, 0x05, 0x00, 0x01, 0x80, 0x04, 0x00, 0x01,
    ];
    let input = [&write_levels(&odd())[..], &block_of(&odd_plan()), &passes].concat();
    // At 1 task 1 has 3 and 5 ticks for 56 units, which at 7 are 8 exactly. After 3 of these, 35
    // units are left, and 5 ticks that don't finish them are refused. At 10 and 15 the jobs have
    // their own 4 and 5 ticks alone. The 5 ticks to the next arrival (02, No. 4) are no more for the
    // one, and for the other, which would need 6 at 7 units, too few.
    let expected = "\
plan 2 1 30
0 run 0 1 4
1 run 1 0 8
4 run 1 0 5
refused 14
9 idle 1
10 run 0 1 4
14 idle 1
15 run 1 1 5
";
    assert_eq!(listing(&input), expected.as_bytes());
}

#[test]
fn the_allowance_at_odd_speeds_to_the_unit() {
    // As above, with a unit more: 57 units need 9 ticks at 7, and still 5 at 13. A third job is open
    // beside it, or it would have the 9 ticks to the next arrival (02, No. 4).
    let exact = tasks(&[(10, 40), (15, 56), (30, 1)]);
    let over = tasks(&[(10, 40), (15, 57), (30, 1)]);
    let (_, order) = led(&odd(), &exact, &[(1, true)]);
    assert_eq!(order, run(1, 0, 8));
    let (_, order) = led(&odd(), &over, &[(1, true)]);
    assert_eq!(order, run(1, 1, 5));
    // Ended a tick later, there is one tick less in the queue: 7 for 56 units.
    let (_, order) = led(&odd(), &exact, &[(2, true)]);
    assert_eq!(order, run(1, 1, 5));
}

#[test]
fn the_gap_at_odd_speeds_to_the_unit() {
    // 02, No. 4: alone at 1, with 8 plain ticks and 9 to the next arrival. 63 units are 9 ticks at 7,
    // and 64 are 10; both are 5 at 13.
    let alone = |worst| led(&odd(), &tasks(&[(10, 40), (15, worst)]), &[(1, true)]).1;
    assert_eq!(alone(57), run(1, 0, 9));
    assert_eq!(alone(63), run(1, 0, 9));
    assert_eq!(alone(64), run(1, 1, 5));
}

#[test]
fn the_work_left_falls_by_the_levels_own_speed() {
    let (state, _) = led(&odd(), &odd_plan(), &[(1, true), (3, false)]);
    let work = |task| layout::of_task(task, layout::WORK_LEFT).get(&state);
    assert_eq!((work(0), work(1)), (0, 56 - 3 * 7));
    assert_eq!(queue(&state), [(1, 5)]);
    let (state, order) = led(&odd(), &odd_plan(), &[(3, false)]);
    assert_eq!(
        layout::of_task(0, layout::WORK_LEFT).get(&state),
        40 - 3 * 13
    );
    assert_eq!(order, run(0, 1, 1));
    assert_eq!(queue(&state), [(0, 1), (1, 5)]);
}

#[test]
fn the_plain_schedule_at_odd_speeds() {
    // Who gets each of the 30 ticks; at 9, 14 and from 24 on nobody does.
    let expected = [(0, 0..4), (1, 4..9), (0, 10..14), (1, 15..20), (0, 20..24)];
    let mut book = PlainBook::new(&odd(), &odd_plan());
    for tick in 0..30 {
        let served = expected.iter().find(|(_, ticks)| ticks.contains(&tick));
        let first = book.open_jobs().first().map(|job| job.task);
        assert_eq!(first, served.map(|(task, _)| *task), "{tick}");
        book.pass(1, Ok(idle(1)));
    }
}

#[test]
fn a_single_level() {
    // At one unit a tick the times are the worst cases: 6 and 4 of 10 ticks.
    let levels = Levels::new(&[1]);
    let full = tasks(&[(5, 3), (10, 4)]);
    assert_eq!(judge_list(&levels, &full), judged(0, 10));
    assert_eq!(judge_list(&levels, &tasks(&[(5, 3), (10, 5)])), Err(8));
    let (mut state, order) = led(&levels, &full, &[]);
    assert_eq!(order, run(0, 0, 3));
    // However much time there is, no level is lower.
    assert_eq!(pass(&mut state, 1, true), Ok(run(1, 0, 4)));
    assert_eq!(queue(&state), [(0, 2), (1, 4)]);
    assert_eq!(pass(&mut state, 3, false), Ok(run(1, 0, 1)));
    assert_eq!(pass(&mut state, 1, false), Err(14));
    assert_eq!(pass(&mut state, 1, true), Ok(run(0, 0, 3)));
    assert_eq!(queue(&state), [(1, 2), (0, 3)]);
}

#[test]
fn speeds_1_and_1000() {
    let levels = Levels::new(&[1, 1_000]);
    assert_eq!(judge_list(&levels, &tasks(&[(10, 10)])), judged(0, 10));
    assert_eq!(judge_list(&levels, &tasks(&[(10, 11)])), judged(1, 10));
    // 2 of 4 and 3 of 100 ticks at 1,000. Task 1 is preempted at 4 with 2 units and 1 plain tick
    // left; the tick that task 0 leaves unused makes it 2, which do at one unit a tick.
    let passes = [(2, true), (2, false), (1, true)];
    let (mut state, order) = led(&levels, &tasks(&[(4, 2_000), (100, 2_002)]), &passes);
    assert_eq!(queue(&state), [(0, 1), (1, 1)]);
    assert_eq!(order, run(1, 0, 2));
    assert_eq!(pass(&mut state, 1, false), Ok(run(1, 0, 1)));
    assert_eq!(pass(&mut state, 1, true), Ok(idle(1)));
    // With 3 units left they are more than its 2 plain ticks, but alone it has the 3 to the next
    // arrival (02, No. 4).
    let (_, order) = led(&levels, &tasks(&[(4, 2_000), (100, 2_003)]), &passes);
    assert_eq!(order, run(1, 0, 3));
    // With 4 units left it takes the higher level, and most of its tick is lost.
    let (mut state, order) = led(&levels, &tasks(&[(4, 2_000), (100, 2_004)]), &passes);
    assert_eq!(order, run(1, 1, 1));
    assert_eq!(pass(&mut state, 1, false), Err(14));
    assert_eq!(pass(&mut state, 1, true), Ok(idle(2)));
}

#[test]
fn the_slowest_speed_fills_two_bytes_of_ticks() {
    let levels = Levels::new(&[1, 1_000]);
    let (state, order) = led(&levels, &tasks(&[(65_535, 65_535)]), &[]);
    assert_eq!(order, run(0, 0, 65_535));
    assert_eq!(queue(&state), [(0, 65_535)]);
    // A unit more is 66 ticks at 1,000. The largest worst case is 61,681 ticks at 17 units and one
    // too many at 16.
    let over = tasks(&[(65_535, 65_536)]);
    assert_eq!(led(&levels, &over, &[]).1, run(0, 1, 66));
    let largest = tasks(&[(65_535, 1_048_575)]);
    assert_eq!(judge_list(&Levels::new(&[16]), &largest), Err(8));
    let (_, order) = led(&Levels::new(&[17]), &largest, &[]);
    assert_eq!(order, run(0, 0, 61_681));
}

#[test]
fn soundness_is_asked_with_the_states_own_table() {
    let (state, _) = led(&odd(), &odd_plan(), &[]);
    assert!(sound(&state).is_some());
    // At 10 a tick, which then is nominal, 56 units need 6 ticks, and the state has 5 left for them.
    // The next table admits the plan at no level; the last has no level 1.
    for speeds in [Levels::base().speeds(), &[1, 6], &[13]] {
        let mut forged = state;
        put_table(&mut forged, speeds);
        refuses_pass(&forged, 1, false, 10);
        refuses_show(&forged, 48, 10);
    }
    // With another highest level nothing in the state changes its meaning.
    let mut other = state;
    put_table(&mut other, &[7, 13, 1_000]);
    assert_eq!(pass(&mut other, 1, false), Ok(run(0, 1, 3)));
    // A level that the table doesn't have, where the highest that it has is nominal and meets the
    // allowance.
    let (mut forged, _) = led(&Levels::new(&[13]), &odd_plan(), &[]);
    assert!(sound(&forged).is_some());
    layout::LEVEL.put(&mut forged, 1);
    assert!(sound(&forged).is_none());
}

#[test]
fn ticks_take_their_time_from_a_job_at_every_speed() {
    for speed in [1, 2, 3, 7, 29, 99, 100, 999, 1_000] {
        for work in (1..400).chain([999, 1_000, 1_001, 1_048_575]) {
            for fixed in [0, 1, 2, 7, 255] {
                let left = Left { fixed, work };
                let needed = time_needed(left, speed);
                // The last tick is needed, and no tick more.
                let for_work = needed - fixed;
                assert!((for_work - 1) * speed < work && work <= for_work * speed);
                for d in (1..needed).take(20).chain([needed - 1]) {
                    let rest = left_after(left, d, speed);
                    assert!(rest.is_open() && rest.is_within(left));
                    assert_eq!(time_needed(rest, speed), needed - d);
                }
            }
        }
        assert_eq!(time_needed(Left::NOTHING, speed), 0);
    }
}

#[test]
fn what_is_no_table() {
    let nine = [1, 2, 3, 4, 5, 6, 7, 8, 9];
    for speeds in [
        &[][..],
        &[0],
        &[0, 5],
        &[5, 5],
        &[10, 20, 15],
        &[1_001],
        &nine,
    ] {
        assert_eq!(Levels::of(speeds), None, "{speeds:?}");
        let made = std::panic::catch_unwind(|| Levels::new(speeds));
        assert!(made.is_err(), "{speeds:?}");
    }
    assert!(Levels::of(&nine[..8]).is_some());
}

#[test]
fn the_table_of_01() {
    let base = Levels::base();
    assert_eq!(base.speeds(), [10, 20, 30, 40, 50, 60, 80, 100]);
    assert_eq!((base.count(), base.top(), base.speed(6)), (8, 7, 80));
}
