//! The books, and that demand 3 checked on them can fail.

use crate::base::{actual_book, plain_book, plain_schedule};
use crate::common::{bench_plan, idle, run, tasks};
use sim::books::{
    arrivals_hold, deadlines_hold, demand3_holds, last_finish_holds, last_finish_past_plain,
    lone_finishes_hold, past_plain_finish, total_holds, ActualBook, BookJob, Closed,
    FinishPastPlain, PlainBook,
};
use sim::plan::Task;
use sim::schedule::PlainJob;
use sim::Levels;

#[derive(Clone)]
struct Books {
    plan: Vec<Task>,
    actual: ActualBook,
    plain: PlainBook,
}

impl Books {
    fn new(plan: Vec<Task>, first: sim::Order) -> Books {
        Books::at_speeds(&Levels::base(), plan, first)
    }

    fn at_speeds(levels: &Levels, plan: Vec<Task>, first: sim::Order) -> Books {
        Books {
            actual: ActualBook::new(levels, &plan, first),
            plain: PlainBook::new(levels, &plan),
            plan,
        }
    }

    fn pass(
        &mut self,
        d: u32,
        finished: bool,
        reply: Result<sim::Order, u32>,
    ) -> Result<(), String> {
        self.actual.pass(d, finished, reply);
        self.plain.pass(d, reply);
        demand3_holds(&self.plan, &self.actual, &self.plain)
    }

    fn lone_finishes(&self) -> Result<(), String> {
        lone_finishes_hold(&self.plan, &self.actual, &self.plain)
    }
}

fn open_jobs(jobs: Vec<BookJob>) -> Vec<(usize, u64)> {
    jobs.into_iter()
        .filter(|job| job.open)
        .map(|job| (job.task, job.arrival))
        .collect()
}

#[test]
fn the_plain_schedule_of_the_bench_plan() {
    // Who gets each of the 30 ticks.
    let expected = [
        0, 0, 0, 0, 1, 1, 1, 1, 2, 2, //
        0, 0, 0, 0, 1, 1, 1, 1, 2, 2, //
        2, 2, 0, 0, 0, 0, 1, 1, 1, 1,
    ];
    let mut schedule = plain_schedule(&bench_plan(), 7);
    for task in expected {
        assert_eq!(schedule.open_jobs()[0].task, task);
        schedule.tick();
    }
    // All closed at 30 but the jobs that arrived just there.
    let fresh = |task, left| PlainJob {
        task,
        arrival: 30,
        left,
    };
    assert_eq!(
        schedule.open_jobs(),
        [fresh(0, 4), fresh(1, 4), fresh(2, 6)]
    );
    assert_eq!(schedule.clock(), 30);
    assert_eq!(schedule.jobs().len(), 4 + 4 + 2);
    schedule.forget_closed();
    assert_eq!(schedule.jobs().len(), 3);
}

#[test]
fn the_run_of_the_listing_keeps_demand_3() {
    let mut books = Books::new(bench_plan(), run(0, 7, 4));
    assert_eq!(
        demand3_holds(&books.plan, &books.actual, &books.plain),
        Ok(())
    );
    let passes = [
        (1, true, run(1, 5, 7)),
        (7, true, run(2, 7, 2)),
        (2, true, run(0, 7, 4)),
        // 02, No. 4: from here on the job is alone, and closes a tick after its plain finish.
        (4, true, run(1, 6, 5)),
        (5, true, idle(1)),
        (1, false, run(0, 6, 5)),
    ];
    for (d, finished, reply) in passes {
        // At 18 it is open past its plain finish.
        if reply == idle(1) {
            let mut at_18 = books.clone();
            assert_eq!(at_18.pass(4, false, Ok(run(1, 6, 1))), Ok(()));
            assert_eq!(past_plain_finish(&at_18.actual, &at_18.plain).len(), 1);
        }
        assert_eq!(books.pass(d, finished, Ok(reply)), Ok(()));
        assert_eq!(books.lone_finishes(), Ok(()));
    }
    let past = last_finish_past_plain(&books.plan, &books.actual, &books.plain).unwrap();
    assert_eq!((past.plain_finish, past.closed.tick), (18, 19));
    assert_eq!(past.first_arrival, 20);
    assert_eq!(books.actual.clock(), 20);
    assert_eq!(open_jobs(books.actual.jobs()), [(0, 20), (1, 20)]);
    assert_eq!(open_jobs(books.plain.jobs()), [(2, 0), (0, 20), (1, 20)]);
}

#[test]
fn a_refused_pass_changes_neither_book() {
    let mut books = Books::new(bench_plan(), run(0, 7, 4));
    assert_eq!(books.pass(4, true, Err(14)), Ok(()));
    assert_eq!((books.actual.clock(), books.plain.clock()), (0, 0));
    assert_eq!(open_jobs(books.actual.jobs()).len(), 3);
    // And the order last returned is still the one to run task 0.
    assert_eq!(books.pass(1, true, Ok(run(1, 5, 7))), Ok(()));
    assert_eq!(open_jobs(books.actual.jobs()), [(1, 0), (2, 0)]);
}

#[test]
fn lending_to_a_more_urgent_job_breaks_it() {
    // The first of 01's ways astray: at tick 10 task 0 gets level 4, and takes until tick 18.
    let mut books = Books::new(bench_plan(), run(0, 7, 4));
    assert_eq!(books.pass(1, true, Ok(run(1, 5, 7))), Ok(()));
    assert_eq!(books.pass(7, true, Ok(run(2, 7, 2))), Ok(()));
    assert_eq!(books.pass(2, true, Ok(run(0, 4, 8))), Ok(()));
    // Task 1 hasn't had a tick since its arrival at 10; in the plain schedule it is done.
    let not_in_plain = books.pass(8, true, Ok(run(1, 7, 2)));
    assert!(not_in_plain
        .unwrap_err()
        .starts_with("open in the dispatcher"));
}

#[test]
fn a_replaced_job_stays_open_and_is_late() {
    // A dispatcher that stays idle, with a period so short that the plain schedule, too, has the
    // job open to the last tick.
    let mut books = Books::new(tasks(&[(1, 10)]), idle(1));
    assert!(demand3_holds(&books.plan, &books.actual, &books.plain).is_ok());
    assert!(books.pass(1, false, Ok(idle(1))).is_err());
    assert_eq!(open_jobs(books.actual.jobs()), [(0, 0), (0, 1)]);
    assert_eq!(open_jobs(books.plain.jobs()), [(0, 1)]);
}

#[test]
fn each_part_of_the_check_can_fail() {
    let plan = tasks(&[(2, 10)]);
    let plain_at = |ticks| {
        let mut book = plain_book(&plan);
        book.pass(ticks, Ok(idle(1)));
        book
    };
    let fresh = actual_book(&plan, run(0, 0, 1));
    assert_eq!(demand3_holds(&plan, &fresh, &plain_at(0)), Ok(()));
    assert!(demand3_holds(&plan, &fresh, &plain_at(1))
        .unwrap_err()
        .starts_with("clocks"));
    // With an order that runs it, it could be a lone job that uses the gap (02, No. 4).
    let mut open = fresh.clone();
    open.pass(1, false, Ok(idle(1)));
    let not_in_plain = demand3_holds(&plan, &open, &plain_at(1));
    assert!(not_in_plain
        .unwrap_err()
        .starts_with("open in the dispatcher"));
    // Both late: told a period of 1, jobs from 0 have their deadline at 1.
    let shorter = tasks(&[(1, 10)]);
    let slow = tasks(&[(2, 20)]);
    let mut actual = actual_book(&slow, run(0, 0, 2));
    let mut plain = plain_book(&slow);
    actual.pass(1, false, Ok(run(0, 0, 1)));
    plain.pass(1, Ok(run(0, 0, 1)));
    assert_eq!(demand3_holds(&slow, &actual, &plain), Ok(()));
    assert!(demand3_holds(&shorter, &actual, &plain)
        .unwrap_err()
        .starts_with("late in the dispatcher"));
    // Late in the plain schedule alone: the dispatcher's job ended early.
    let mut ended = actual_book(&slow, run(0, 0, 2));
    ended.pass(1, true, Ok(idle(1)));
    assert_eq!(demand3_holds(&slow, &ended, &plain), Ok(()));
    assert!(demand3_holds(&shorter, &ended, &plain)
        .unwrap_err()
        .starts_with("late in the plain"));
}

#[test]
fn finished_closes_the_latest_job_and_no_older_one() {
    // Period 1, the job from tick 0 replaced at tick 1 while open.
    let plan = tasks(&[(1, 10)]);
    let mut book = actual_book(&plan, run(0, 0, 1));
    book.pass(1, false, Ok(run(0, 0, 1)));
    book.pass(1, true, Ok(run(0, 0, 1)));
    assert_eq!(open_jobs(book.jobs()), [(0, 0), (0, 2)]);

    // The latest job already closed and forgotten: the older one stays open all the same.
    let plan = tasks(&[(2, 10)]);
    let mut book = actual_book(&plan, run(0, 0, 1));
    book.pass(2, false, Ok(run(0, 0, 1)));
    book.pass(1, true, Ok(run(0, 0, 1)));
    book.forget_closed();
    book.pass(1, true, Ok(run(0, 0, 1)));
    assert_eq!(open_jobs(book.jobs()), [(0, 0), (0, 4)]);
}

#[test]
fn forgetting_closed_jobs_changes_no_verdict() {
    let mut kept = Books::new(bench_plan(), run(0, 7, 4));
    let mut forgetful = Books::new(bench_plan(), run(0, 7, 4));
    let passes = [
        (4, true, run(1, 7, 4)),
        (4, true, run(2, 7, 2)),
        (2, false, run(0, 7, 4)),
        (4, true, run(2, 7, 6)),
    ];
    for (d, finished, reply) in passes {
        let verdict = kept.pass(d, finished, Ok(reply));
        assert_eq!(forgetful.pass(d, finished, Ok(reply)), verdict);
        forgetful.actual.forget_closed();
        forgetful.plain.forget_closed();
        assert_eq!(
            open_jobs(forgetful.actual.jobs()),
            open_jobs(kept.actual.jobs())
        );
        assert_eq!(
            open_jobs(forgetful.plain.jobs()),
            open_jobs(kept.plain.jobs())
        );
    }
    // The last reply left task 1 out; four ticks on, both books tell so.
    assert!(kept.pass(4, true, Ok(idle(2))).is_err());
    assert!(forgetful.pass(4, true, Ok(idle(2))).is_err());
    assert!(forgetful.actual.jobs().len() < kept.actual.jobs().len());
}

/// 02, No. 4: two tasks of period 3 with 2 units each, at 1 or 2 units a tick. Each has one plain tick.
/// Task 0 has finished after one tick.
fn lone_at_1(reply: sim::Order) -> Books {
    let levels = Levels::new(&[1, 2]);
    let mut books = Books::at_speeds(&levels, tasks(&[(3, 2), (3, 2)]), run(0, 1, 1));
    assert_eq!(books.pass(1, true, Ok(reply)), Ok(()));
    books
}

fn open(task: usize, arrival: u64) -> BookJob {
    BookJob {
        task,
        arrival,
        open: true,
    }
}

#[test]
fn the_smallest_use_of_the_exception() {
    let mut books = lone_at_1(run(1, 0, 2));
    assert_eq!(past_plain_finish(&books.actual, &books.plain), []);
    assert_eq!(books.actual.time_left(&open(1, 0)), Some(2));
    // At 2 the job is open and its plain job closed; a tick of it is left, and one to the arrival.
    assert_eq!(books.pass(1, false, Ok(run(1, 0, 1))), Ok(()));
    let past = past_plain_finish(&books.actual, &books.plain);
    assert_eq!(past, [open(1, 0)]);
    assert_eq!(books.actual.time_left(&past[0]), Some(1));
    // So it is after a refused pass, which changes nothing.
    assert_eq!(books.pass(1, false, Err(14)), Ok(()));
    assert_eq!(past_plain_finish(&books.actual, &books.plain), past);
    assert_eq!(books.lone_finishes(), Ok(()));
    // It closes at 3, the first arrival after its plain finish at 2.
    assert_eq!(books.pass(1, true, Ok(run(0, 1, 1))), Ok(()));
    assert_eq!(books.lone_finishes(), Ok(()));
    let closed = Closed {
        task: 1,
        arrival: 0,
        tick: 3,
    };
    assert_eq!(books.actual.last_closed(), Some(closed));
    let finish = FinishPastPlain {
        closed,
        plain_finish: 2,
        first_arrival: 3,
    };
    let told = last_finish_past_plain(&books.plan, &books.actual, &books.plain);
    assert_eq!(told, Some(finish));
}

#[test]
fn the_exception_asks_for_the_gap() {
    // Two tasks of period 5 that have two plain ticks each at 2 units a tick. From 2 on task 1 is alone
    // and gets a unit a tick; at 4 its plain job is closed, and a tick is left to the arrival.
    let levels = Levels::new(&[1, 2]);
    let at_4 = |worst, level| {
        let plan = tasks(&[(5, 3), (5, worst)]);
        let mut books = Books::at_speeds(&levels, plan, run(0, 1, 2));
        assert_eq!(books.pass(2, true, Ok(run(1, 0, 3))), Ok(()));
        let verdict = books.pass(2, false, Ok(run(1, level, 1)));
        assert_eq!(past_plain_finish(&books.actual, &books.plain).len(), 1);
        (books.actual.time_left(&open(1, 0)), verdict)
    };
    // A unit is left of 3, and two of 4, which are one tick or two, as the order's level has it.
    assert_eq!(at_4(3, 0), (Some(1), Ok(())));
    assert_eq!(at_4(4, 1), (Some(1), Ok(())));
    let (left, verdict) = at_4(4, 0);
    assert_eq!(left, Some(2));
    assert!(verdict.unwrap_err().starts_with("open in the dispatcher"));
}

#[test]
fn the_exception_asks_for_a_lone_job_that_runs() {
    // At 2 task 1 has a unit left, its plain job is closed, and one tick is left.
    let told = |reply| lone_at_1(run(1, 0, 2)).pass(1, false, Ok(reply));
    assert_eq!(told(run(1, 0, 1)), Ok(()));
    // An order that is idle or runs the other task gives it no time.
    assert!(told(idle(1)).is_err());
    assert!(told(run(0, 0, 1)).is_err());
    // With task 0 open as well, both closed in the plain schedule.
    let levels = Levels::new(&[1, 2]);
    let mut books = Books::at_speeds(&levels, tasks(&[(3, 2), (3, 2)]), run(1, 0, 2));
    assert!(books.pass(1, false, Ok(run(1, 0, 1))).is_err());
    assert!(books.pass(1, false, Ok(run(1, 0, 1))).is_err());
    // Or with one open in both: task 0's job, of period 6, is the less urgent.
    let mut books = Books::at_speeds(&levels, tasks(&[(6, 4), (3, 2)]), run(1, 0, 2));
    assert_eq!(books.clone().pass(1, true, Ok(run(0, 1, 1))), Ok(()));
    let not_lone = books.pass(1, false, Ok(run(1, 0, 1))).unwrap_err();
    assert!(not_lone.starts_with("open in the dispatcher"), "{not_lone}");
    assert_eq!(past_plain_finish(&books.actual, &books.plain), [open(1, 0)]);
}

#[test]
fn a_dispatcher_that_gives_the_gap_to_every_job_breaks_it() {
    // The bench plan at 1: task 1 has 7 plain ticks and 9 to the next arrival, and task 2 is open. At
    // level 4 it takes 8, to tick 9; its plain finish is at 8.
    let mut books = Books::new(bench_plan(), run(0, 7, 4));
    assert_eq!(books.pass(1, true, Ok(run(1, 4, 8))), Ok(()));
    assert_eq!(books.pass(6, false, Ok(run(1, 4, 2))), Ok(()));
    assert!(books.pass(1, false, Ok(run(1, 4, 1))).is_err());
}

#[test]
fn what_is_said_of_arrivals_can_fail() {
    // Task 1 is at one unit a tick, and not said to have finished at 3.
    let mut books = lone_at_1(run(1, 0, 2));
    books.pass(1, false, Ok(run(1, 0, 1))).unwrap();
    let holds = |books: &Books| arrivals_hold(&books.plan, &books.actual, &books.plain);
    assert_eq!(holds(&books), Ok(()));
    let mut late = books.clone();
    assert!(late.pass(1, false, Ok(run(0, 1, 1))).is_err());
    assert!(holds(&late).unwrap_err().starts_with("open at the arrival"));
    assert_eq!(late.lone_finishes(), holds(&late));
    assert_eq!(books.pass(1, true, Ok(run(0, 1, 1))), Ok(()));
    assert_eq!(holds(&books), Ok(()));
    // Only at an arrival tick. Of periods 2 and 6, task 1 has two plain ticks at 2 units a tick, from 1
    // to 2 and from 3 to 4; here it gets a unit in each, of 4.
    let levels = Levels::new(&[1, 2]);
    let plan = tasks(&[(2, 1), (6, 4)]);
    let mut books = Books::at_speeds(&levels, plan, run(0, 1, 1));
    books.pass(1, true, Ok(run(1, 0, 1))).unwrap();
    books.pass(1, false, Ok(run(0, 1, 1))).unwrap();
    assert_eq!(past_plain_finish(&books.actual, &books.plain), []);
    books.pass(1, true, Ok(run(1, 0, 1))).unwrap();
    // At 3 open in both; at 4, an arrival tick, open in the dispatcher alone.
    assert_eq!(holds(&books), Ok(()));
    assert!(books.pass(1, false, Ok(run(0, 1, 1))).is_err());
    assert_eq!(past_plain_finish(&books.actual, &books.plain), [open(1, 0)]);
    assert!(holds(&books).is_err());
    // At 5 it is so still, and 5 is no arrival tick.
    assert!(books.pass(1, true, Ok(run(1, 0, 1))).is_err());
    assert_eq!(holds(&books), Ok(()));
}

#[test]
fn what_is_said_of_finishes_can_fail() {
    // Task 1 of a plan with periods 2 and 6, as before: its plain finish is at 4, and the first
    // arrival strictly after that at 6. Closed at 5 or at 6 it holds.
    let levels = Levels::new(&[1, 2]);
    let holds = |books: &Books| last_finish_holds(&books.plan, &books.actual, &books.plain);
    let closed_after = |ticks: &[u32]| {
        let plan = tasks(&[(2, 1), (6, 4)]);
        let mut books = Books::at_speeds(&levels, plan, run(0, 1, 1));
        for (place, d) in ticks.iter().enumerate() {
            // Task 0 never finishes, and task 1 only at the end.
            let last = place + 1 == ticks.len();
            assert_eq!(holds(&books), Ok(()));
            books.actual.pass(*d, last, Ok(run(1, 0, 1)));
            books.plain.pass(*d, Ok(run(1, 0, 1)));
        }
        books
    };
    let finish = |books: &Books| last_finish_past_plain(&books.plan, &books.actual, &books.plain);
    let told = finish(&closed_after(&[1, 4])).unwrap();
    assert_eq!((told.plain_finish, told.first_arrival), (4, 6));
    assert_eq!(told.closed.tick, 5);
    assert_eq!(holds(&closed_after(&[1, 4])), Ok(()));
    assert_eq!(holds(&closed_after(&[1, 5])), Ok(()));
    // Before its plain finish, and with it.
    assert_eq!(finish(&closed_after(&[1, 2])), None);
    assert_eq!(finish(&closed_after(&[1, 3])), None);
    // At 7 the pass went over the arrival at 6.
    let late = closed_after(&[1, 6]);
    let why = holds(&late).unwrap_err();
    assert!(why.starts_with("closed after the first arrival"), "{why}");
    assert_eq!(late.lone_finishes(), Err(why));
    // A job closed already isn't closed once more.
    let mut again = closed_after(&[1, 4]);
    again.actual.pass(1, true, Ok(idle(1)));
    again.plain.pass(1, Ok(idle(1)));
    assert_eq!(finish(&again), Some(told));
}

#[test]
fn what_is_said_of_deadlines_can_fail() {
    // Two ticks of 2, judged as if the period were 1.
    let plan = tasks(&[(2, 20)]);
    let shorter = tasks(&[(1, 20)]);
    let mut books = Books::new(plan.clone(), run(0, 0, 2));
    let holds = |plan: &[Task], books: &Books| deadlines_hold(plan, &books.actual, &books.plain);
    assert_eq!(books.pass(1, false, Ok(run(0, 0, 1))), Ok(()));
    assert_eq!(holds(&plan, &books), Ok(()));
    let late = holds(&shorter, &books).unwrap_err();
    assert!(late.starts_with("late in the dispatcher"), "{late}");
    let mut ended = Books::new(plan, run(0, 0, 2));
    assert_eq!(ended.pass(1, true, Ok(idle(1))), Ok(()));
    let late = holds(&shorter, &ended).unwrap_err();
    assert!(late.starts_with("late in the plain"), "{late}");
    assert!(lone_finishes_hold(&shorter, &ended.actual, &ended.plain).is_err());
}

#[test]
fn the_plain_schedules_sum() {
    // The bench plan: 14 ticks at the start, and at 10 and 20 eight more each.
    let mut book = plain_book(&bench_plan());
    let mut sums = Vec::new();
    for _ in 0..=30 {
        sums.push(book.ticks_left());
        book.pass(1, Ok(idle(1)));
    }
    let first = (5..=14).rev();
    let second = (3..=4 + 8).rev();
    let third = (1..=2 + 8).rev();
    let expected: Vec<u64> = first.chain(second).chain(third).chain([14]).collect();
    assert_eq!(sums, expected);
}

#[test]
fn what_is_said_of_the_total_can_fail() {
    let mut book = plain_book(&bench_plan());
    assert_eq!(total_holds(&book, Ok(14)), Ok(()));
    for answer in [Ok(0), Ok(13), Ok(15), Ok(14 << 8), Ok(u32::MAX), Err(10)] {
        let verdict = total_holds(&book, answer);
        assert!(verdict.unwrap_err().starts_with("14 plain ticks queued"));
    }
    // A refused pass changes nothing of it, an accepted one does, and forgetting closed jobs doesn't.
    book.pass(4, Err(14));
    assert_eq!(total_holds(&book, Ok(14)), Ok(()));
    book.pass(4, Ok(run(1, 7, 4)));
    assert_eq!(total_holds(&book, Ok(10)), Ok(()));
    assert!(total_holds(&book, Ok(14)).is_err());
    book.forget_closed();
    assert_eq!(total_holds(&book, Ok(10)), Ok(()));
    // With nothing queued it is 0, however long: 3 ticks of 10.
    let mut idling = plain_book(&tasks(&[(10, 30)]));
    idling.pass(3, Ok(idle(7)));
    assert_eq!(total_holds(&idling, Ok(0)), Ok(()));
    idling.pass(6, Ok(idle(1)));
    assert_eq!(total_holds(&idling, Ok(0)), Ok(()));
    assert!(total_holds(&idling, Err(10)).is_err());
}
