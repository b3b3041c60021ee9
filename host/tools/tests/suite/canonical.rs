//! The turns of the canonical schedule, against the simulator's own book of it.

use crate::common::{tasks, tasks_with_fixed};
use sim::plan::{Judged, Task};
use sim::random::plans::{full_plan, plan_at_level_within, SMALL_BASES};
use sim::random::tables::some_or_base_levels;
use sim::random::Random;
use sim::schedule::allotment;
use sim::{Levels, Order, PlainBook};
use tools::canonical::{turns_within, Turn};
use tools::run::Span;

fn judged(levels: &Levels, plan: &[Task]) -> Judged {
    sim::plan::judge_list(levels, plan).unwrap()
}

fn turns(levels: &Levels, plan: &[Task], window: Span) -> Vec<Turn> {
    turns_within(levels, plan, judged(levels, plan), window)
}

/// The task and the arrival of a job that gets a tick, and whether that is one of its fixed ticks.
type Got = Option<(usize, u64, bool)>;

/// Which job gets each tick, told by the book fed one tick at a time: the one with a tick less
/// left afterwards. Its first ticks are the fixed ones.
fn by_the_book(levels: &Levels, plan: &[Task], ticks: u64) -> Vec<Got> {
    let mut book = PlainBook::new(levels, plan);
    let nominal = levels.speed(judged(levels, plan).nominal);
    let mut got = Vec::new();
    for _ in 0..ticks {
        let before = book.open_jobs();
        book.pass(1, Ok(Order::Idle { hold: 1 }));
        let after = book.open_jobs();
        let served = before.iter().find(|job| !after.contains(job));
        got.push(served.map(|job| {
            let task = &plan[job.task];
            let had = allotment(task, nominal) - job.left;
            (job.task, job.arrival, had < task.fixed)
        }));
        book.forget_closed();
    }
    got
}

fn by_the_turns(turns: &[Turn], window: Span) -> Vec<Got> {
    let mut got = vec![None; window.ticks() as usize];
    for turn in turns {
        for tick in turn.span.from..turn.span.to {
            let place = &mut got[(tick - window.from) as usize];
            assert_eq!(*place, None, "one tick given twice");
            let is_fixed = tick < turn.span.from + turn.fixed;
            *place = Some((turn.task, turn.arrival, is_fixed));
        }
    }
    got
}

#[track_caller]
fn agrees(levels: &Levels, plan: &[Task], from: u64, to: u64) {
    let window = Span { from, to };
    let turns = turns(levels, plan, window);
    let expected = by_the_book(levels, plan, to);
    assert_eq!(by_the_turns(&turns, window), expected[from as usize..]);
    for pair in turns.windows(2) {
        let joined = pair[0].span.to == pair[1].span.from;
        let same = (pair[0].task, pair[0].arrival) == (pair[1].task, pair[1].arrival);
        assert!(!(joined && same), "one turn in two pieces: {pair:?}");
    }
}

#[test]
fn windows_of_random_plans() {
    let mut random = Random::new(21);
    for round in 0..200 {
        let levels = some_or_base_levels(&mut random);
        let level = random.place(levels.count());
        let base = random.pick(&SMALL_BASES);
        let plan = match round % 2 {
            0 => plan_at_level_within(&mut random, &levels, level, base),
            _ => full_plan(&mut random, &levels, level),
        };
        let hyperperiod = judged(&levels, &plan).hyperperiod;
        // Up to three hyperperiods, within bounds; the book is slow.
        let to = random.between(1, (3 * hyperperiod).min(1_500));
        let from = random.below(to);
        agrees(&levels, &plan, from, to);
    }
}

#[test]
fn the_example() {
    let plan = tasks(&[(10, 400), (10, 400), (30, 600)]);
    let levels = Levels::base();
    agrees(&levels, &plan, 0, 90);
    let turns = turns(&levels, &plan, Span { from: 0, to: 30 });
    let spans: Vec<(usize, u64, u64)> = turns
        .iter()
        .map(|turn| (turn.task, turn.span.from, turn.span.to))
        .collect();
    let expected = [
        (0, 0, 4),
        (1, 4, 8),
        (2, 8, 10),
        (0, 10, 14),
        (1, 14, 18),
        (2, 18, 22),
        (0, 22, 26),
        (1, 26, 30),
    ];
    assert_eq!(spans, expected);
}

#[test]
fn fixed_ticks_come_first() {
    // Task 0 has 2 ticks, task 1 has 3 fixed ones and 2 more.
    let plan = tasks_with_fixed(&[(4, 20, 0), (12, 20, 3)]);
    let levels = Levels::new(&[10]);
    agrees(&levels, &plan, 0, 36);
    let turns = turns(&levels, &plan, Span { from: 0, to: 12 });
    let spans: Vec<(usize, u64, u64, u64)> = turns
        .iter()
        .map(|turn| (turn.task, turn.span.from, turn.span.to, turn.fixed))
        .collect();
    let expected = [
        (0, 0, 2, 0),
        (1, 2, 4, 2),
        (0, 4, 6, 0),
        (1, 6, 9, 1),
        (0, 9, 11, 0),
    ];
    assert_eq!(spans, expected);
}
