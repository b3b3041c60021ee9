//! A run as the picture sees it, against what the listing tells.

use crate::common::{any_run, tasks_with_fixed, with_levels, EXAMPLE, LEVELS_END, PLAN_END};
use crate::told::{told, Ran};
use sim::layout::STATE_BYTES;
use sim::random::blocks::block_of;
use sim::random::Random;
use sim::schedule::PlainJob;
use sim::{start, Order, PlainBook};
use tools::run::{follow, Refusal, Run, Span, Stretch};

fn ran(stretch: &Stretch) -> Ran {
    Ran {
        task: stretch.task,
        level: stretch.level,
        from: stretch.span.from,
        to: stretch.span.to,
        fixed: stretch.fixed,
        finished: stretch.early.is_some(),
    }
}

#[track_caller]
fn agrees(run: &Run, input: &[u8]) {
    let told = told(input);
    assert_eq!(run.stretches.iter().map(ran).collect::<Vec<_>>(), told.ran);
    let idle: Vec<(u64, u64)> = run.idle.iter().map(|span| (span.from, span.to)).collect();
    assert_eq!(idle, told.idle);
    let refused = |refusal: &Refusal| (refusal.tick, refusal.number);
    let refused: Vec<(u64, u32)> = run.refusals.iter().map(refused).collect();
    assert_eq!(refused, told.refused);
    assert_eq!(run.clock, told.clock);
}

#[test]
fn random_runs_are_as_the_listing_tells() {
    let mut random = Random::new(11);
    let (mut stretches, mut refusals, mut idle, mut fixed) = (0, 0, 0, 0);
    for _ in 0..1_000 {
        let input = any_run(&mut random, 60);
        let run = follow(&input).unwrap();
        agrees(&run, &input);
        stretches += run.stretches.len();
        refusals += run.refusals.len();
        idle += run.idle.len();
        let has_both = |ran: &&Stretch| 0 < ran.fixed && ran.fixed < ran.span.ticks();
        fixed += run.stretches.iter().filter(has_both).count();
    }
    assert!(stretches > 10_000 && refusals > 3_000 && idle > 1_000 && fixed > 500);
}

#[test]
fn the_example() {
    let run = follow(&EXAMPLE).unwrap();
    agrees(&run, &EXAMPLE);
    let early: Vec<Option<u64>> = run.stretches.iter().map(|stretch| stretch.early).collect();
    assert_eq!(early, [Some(3), Some(0), Some(4), Some(0), Some(0)]);
    // 02, No. 4: the last job is alone, and takes until 19. Its plain finish is at 18.
    assert_eq!(run.idle, [Span { from: 19, to: 20 }]);
    let past: Vec<u64> = run.stretches.iter().map(|it| it.past_plain).collect();
    assert_eq!(past, [0, 0, 0, 0, 1]);
    assert_eq!((run.clock, run.end_of_order(), run.accepted), (20, 25, 6));
    let order = Order::Run {
        task: 0,
        level: 6,
        hold: 5,
    };
    assert_eq!(run.order, order);
}

#[test]
fn jobs_are_named_by_their_arrival() {
    let run = follow(&EXAMPLE).unwrap();
    let jobs: Vec<(usize, u64)> = run.stretches.iter().map(|s| (s.task, s.arrival)).collect();
    assert_eq!(jobs, [(0, 0), (1, 0), (2, 0), (0, 10), (1, 10)]);
}

/// For each stretch the ticks of it that come after the finish of its job in the plain schedule, which
/// is kept tick by tick.
fn past_plain(run: &Run) -> Vec<u64> {
    let mut book = PlainBook::new(&run.levels, &run.tasks);
    let mut past = vec![0; run.stretches.len()];
    for tick in 0..run.clock {
        for (place, stretch) in run.stretches.iter().enumerate() {
            let runs = (stretch.span.from..stretch.span.to).contains(&tick);
            let is_open =
                |job: &PlainJob| (job.task, job.arrival) == (stretch.task, stretch.arrival);
            if runs && !book.open_jobs().iter().any(is_open) {
                past[place] += 1;
            }
        }
        book.pass(1, Ok(Order::Idle { hold: 1 }));
        book.forget_closed();
    }
    past
}

#[test]
fn ticks_past_the_plain_finish_are_those_of_the_book() {
    let mut random = Random::new(13);
    let (mut some, mut all, mut none) = (0, 0, 0);
    for _ in 0..500 {
        let run = follow(&any_run(&mut random, 40)).unwrap();
        let told: Vec<u64> = run.stretches.iter().map(|it| it.past_plain).collect();
        assert_eq!(told, past_plain(&run));
        for stretch in &run.stretches {
            let part = stretch.past_plain;
            some += u32::from(part > 0 && part < stretch.span.ticks());
            all += u32::from(part == stretch.span.ticks());
            none += u32::from(part == 0);
        }
    }
    // A stretch begins before the plain finish: the order in it was chosen with plain ticks left.
    assert!(
        some > 200 && all == 0 && none > 2_000,
        "{some} {all} {none}"
    );
}

/// An early end never reaches past the deadline, so the picture's boxes can't overlap.
#[test]
fn unused_time_ends_by_the_deadline() {
    let mut random = Random::new(12);
    let mut some = 0;
    for _ in 0..500 {
        let run = follow(&any_run(&mut random, 60)).unwrap();
        for stretch in &run.stretches {
            let early = stretch.early.unwrap_or(0);
            let deadline = stretch.arrival + run.tasks[stretch.task].period;
            assert!(stretch.span.to + early <= deadline);
            some += usize::from(early > 0);
        }
    }
    assert!(some > 1_000);
}

#[test]
fn passes_that_change_nothing_make_one_stretch() {
    // Three ticks of task 0, told one by one.
    let input = [&EXAMPLE[..PLAN_END], &[0, 1, 0, 1, 0, 1]].concat();
    let run = follow(&input).unwrap();
    assert_eq!(run.stretches.len(), 1);
    assert_eq!(run.stretches[0].span, Span { from: 0, to: 3 });
    assert_eq!((run.stretches[0].early, run.accepted), (None, 3));
}

#[test]
fn whole_inputs_refused() {
    assert_eq!(follow(&[]).unwrap_err(), 18);
    assert_eq!(follow(&[0x00, 0x10, 0x80]).unwrap_err(), 18);
    assert_eq!(follow(&EXAMPLE[..LEVELS_END - 1]).unwrap_err(), 19);
    assert_eq!(follow(&[0x10, 0x01, 0x10, 0x80]).unwrap_err(), 19);
    assert_eq!(follow(&[0x10, 0x00, 0x10, 0x80]).unwrap_err(), 20);
    let refused = |rest: &[u8]| follow(&with_levels(rest)).unwrap_err();
    assert_eq!(refused(&[]), 1);
    assert_eq!(refused(&[0x00, 0x80]), 2);
    assert_eq!(refused(&[0x30, 0x80]), 2);
    assert_eq!(refused(&[0x18, 0x80, 0x00]), 3);
    assert_eq!(follow(&EXAMPLE[..PLAN_END - 1]).unwrap_err(), 4);
    assert_eq!(refused(&[0x20, 0x80, 0x14, 0x00, 0x09, 0x60]), 4);
    let mut closed = block_of(&tasks_with_fixed(&[(40, 300, 5), (40, 300, 0)]));
    closed[12] |= 1;
    assert_eq!(refused(&closed), 5);
    assert_eq!(refused(&[0x10, 0x80, 0, 0, 0, 0x20]), 6);
    assert_eq!(refused(&[0x20, 0x80, 0, 0, 0, 0x20, 0]), 6);
    assert_eq!(refused(&[0x20, 0x80, 0x14, 0x00, 0x09, 0x60, 0]), 21);
    let one_level = [
        &[0x11, 0x90][..],
        &[0x20, 0x80, 0x14, 0x00, 0x09, 0x60, 0x2c],
    ]
    .concat();
    assert_eq!(follow(&one_level).unwrap_err(), 24);
    let long = [&EXAMPLE[..PLAN_END], &vec![0; 65_537 - PLAN_END]].concat();
    assert_eq!(follow(&long).unwrap_err(), 17);
    assert_eq!(follow(&long[..65_536]).unwrap().refusals.len(), 32_755);
}

#[test]
fn without_passes_there_is_the_first_order() {
    let run = follow(&EXAMPLE[..PLAN_END]).unwrap();
    let (levels, plan) = EXAMPLE[..PLAN_END].split_at(LEVELS_END);
    assert_eq!(
        Ok(run.order),
        start(levels, plan, &[], &mut [0; STATE_BYTES])
    );
    assert_eq!((run.clock, run.end_of_order()), (0, 4));
}
