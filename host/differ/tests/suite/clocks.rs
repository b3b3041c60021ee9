//! The last ticks before the largest clock.

use crate::both::{Both, Call, ACCEPTED};
use crate::dispatch::STATE_BYTES;
use crate::made::{bench_plan, tasks};
use crate::view::{told, View};
use sim::clock::LARGEST_CLOCK;
use sim::layout;
use sim::levels::Levels;
use sim::plan::Task;
use sim::random::blocks::block_of;
use sim::random::plans::{plan_at_level_within, SMALL_BASES};
use sim::random::Random;

fn clock_in(state: &[u8]) -> u64 {
    layout::CLOCK.get(state)
}

/// A fresh start moved to the last arrival of all tasks together that is at least so many ticks
/// before the largest clock.
fn started_late(both: &mut Both, plan: &[Task], before: u64) -> [u8; STATE_BYTES] {
    let mut state = [0; STATE_BYTES];
    both.start(&block_of(plan), &[], &mut state).unwrap();
    let hyperperiod = sim::judge_list(&both.level_block, plan)
        .unwrap()
        .hyperperiod;
    let clock = (LARGEST_CLOCK - before) / hyperperiod * hyperperiod;
    layout::CLOCK.put(&mut state, clock);
    state
}

/// Would catch a largest clock that is off by one or can't be reached, and a state that is unsound
/// there: each run goes on until only 15 is left, which is at the largest clock or a hold before it.
#[test]
fn runs_up_to_the_largest_clock() {
    let mut both = Both::new(&Levels::base());
    let mut random = Random::new(701);
    let mut at_the_end = 0;
    for _ in 0..200 {
        let levels = both.load_some(&mut random);
        let (level, base) = (random.place(levels.count()), random.pick(&SMALL_BASES));
        let plan = plan_at_level_within(&mut random, &levels, level, base);
        let before = random.below(40);
        let mut state = started_late(&mut both, &plan, before);
        loop {
            let (d, finished) = View::of(&state).some_pass(&mut random);
            let reply = both.pass(&mut state, d, told(&mut random, finished));
            assert!(both.show(&state, 48).is_ok());
            if reply == Err(15) {
                break;
            }
            assert!(reply.is_ok());
        }
        // From here one tick at a time.
        while clock_in(&state) < LARGEST_CLOCK {
            let (d, finished) = View::of(&state).one_tick(&mut random);
            both.pass(&mut state, d, told(&mut random, finished))
                .unwrap();
        }
        let (d, finished) = View::of(&state).whole_hold();
        let reply = both.pass(&mut state, d, told(&mut random, finished));
        assert_eq!(reply, Err(15));
        assert!(both.show(&state, 48).is_ok());
        at_the_end += 1;
    }
    both.saw("runs up to the largest clock", 10_000);
    both.wants_editions(&[Call::Start], 30);
    both.wants_inside(20);
    both.wants(Call::Pass, ACCEPTED, 1_000);
    both.wants(Call::Pass, 15, 200);
    assert_eq!(at_the_end, 200);
}

/// Would catch a clock past the largest that is let through, or one cut to fewer bits.
#[test]
fn clocks_around_the_largest() {
    let levels = Levels::base();
    let mut both = Both::new(&levels);
    // Period 1 arrives at every clock, so the same state is sound at each.
    let state = started_late(&mut both, &tasks(&[(1, 10)]), 0);
    let largest = LARGEST_CLOCK as u32;
    let clocks = (largest - 300..=largest + 300).chain(u32::MAX - 300..=u32::MAX);
    for clock in clocks {
        let mut at = state;
        layout::CLOCK.put(&mut at, u64::from(clock));
        let shown = both.show(&at, 48);
        assert_eq!(shown.is_ok(), clock <= largest, "{clock}");
        let wanted = match clock {
            clock if clock > largest => Err(10),
            clock if clock == largest => Err(15),
            _ => Ok(()),
        };
        assert_eq!(both.pass(&mut at, 1, 1).map(|_| ()), wanted, "{clock}");
    }
    both.saw("clocks around the largest", 1_800);
    both.wants(Call::Pass, 15, 1);
    both.wants(Call::Pass, 10, 600);
    both.wants(Call::Show, 10, 600);
}

/// Would catch 15 asked before its turn: at the largest clock every other question still comes first.
#[test]
fn fifteen_is_asked_last() {
    let levels = Levels::base();
    let mut both = Both::new(&levels);
    // 4,000,000,000 is 10 ticks past a multiple of 30.
    let mut state = started_late(&mut both, &bench_plan(), 10);
    for _ in 0..2 {
        assert!(both.pass(&mut state, 4, 1).is_ok());
    }
    assert!(both.pass(&mut state, 2, 1).is_ok());
    assert_eq!(clock_in(&state), LARGEST_CLOCK);
    assert_eq!(both.pass(&mut state, 0, 1), Err(11));
    assert_eq!(both.pass(&mut state, 11, 1), Err(12));
    assert_eq!(both.pass(&mut state, u32::MAX, 0), Err(12));
    assert_eq!(both.pass(&mut state, 5, 1), Err(14));
    assert_eq!(both.pass(&mut state, 4, 0), Err(14));
    assert_eq!(both.pass(&mut state, 4, 1), Err(15));
    assert_eq!(both.pass(&mut state, 3, 0), Err(15));
    assert_eq!(both.pass(&mut state, 1, 0), Err(15));
    both.saw("fifteen last", 12);
    // 13 before 15: idle two ticks before the end.
    let mut idle = started_late(&mut both, &tasks(&[(12, 10)]), 4);
    assert!(both.pass(&mut idle, 1, 1).is_ok());
    let left = (LARGEST_CLOCK - clock_in(&idle)) as u32;
    assert_eq!(both.pass(&mut idle, left + 1, 1), Err(13));
    assert_eq!(both.pass(&mut idle, left + 1, 0), Err(15));
    assert!(both.pass(&mut idle, left, 0).is_ok());
}
