//! 02, No. 7: the damping for an angle, and that what is promised of the valve's finishes can fail.

use crate::common::{idle, run, tasks};
use sim::knee::{
    damping, finishes_are_near, finishes_have_come, most_apart, most_change, no_wait_is_too_long,
    refresh_holds, Refresh,
};
use sim::layout::STATE_BYTES;
use sim::plan::Task;
use sim::random::blocks::block_of;
use sim::random::Random;
use sim::{damping_number, pass, write_levels, ActualBook, Levels, Order};

/// Each angle with its damping, worked out by hand.
#[track_caller]
fn are(wanted: &[(i32, u64)]) {
    for (angle, wanted) in wanted {
        assert_eq!(damping(*angle), Ok(*wanted), "at {angle} tenths");
    }
}

#[test]
fn the_edges_of_the_range() {
    are(&[(-50, 12), (-49, 12), (-1, 12), (0, 12), (1, 12)]);
    are(&[(1_299, 111), (1_300, 112)]);
    for angle in [-52, -51, 1_301, 1_302, i32::MIN, i32::MIN + 1, i32::MAX] {
        assert_eq!(damping(angle), Err(23), "{angle}");
    }
}

/// Would catch a point that isn't met, and a line that is drawn from the wrong one.
#[test]
fn the_points_and_their_neighbours() {
    // 12 + 49 / 25; 14 + 3 / 50.
    are(&[(49, 13), (50, 14), (51, 14)]);
    // 14 + 147 / 50; 17 + 8 / 100.
    are(&[(99, 16), (100, 17), (101, 17)]);
    // 17 + 792 / 100; 25 + 12 / 100.
    are(&[(199, 24), (200, 25), (201, 25)]);
    // 25 + 2,388 / 100; 49 + 12 / 100.
    are(&[(399, 48), (400, 49), (401, 49)]);
    // 49 + 2,388 / 100; 73 + 8 / 100.
    are(&[(599, 72), (600, 73), (601, 73)]);
    // 73 + 2,392 / 100; 97 + 15 / 400.
    are(&[(899, 96), (900, 97), (901, 97)]);
    // 97 + 5,985 / 400.
    are(&[(1_299, 111), (1_300, 112)]);
}

/// Would catch a damping that is rounded up or to the nearest: on each line the last angle before a step
/// and the first one after it.
#[test]
fn the_steps_of_each_line() {
    // 1 in 25.
    are(&[(24, 12), (25, 13), (26, 13)]);
    // 3 in 50: 48, 51 and 99, 102 fiftieths.
    are(&[(66, 14), (67, 15), (83, 15), (84, 16)]);
    // 8 in 100: 96, 104 and 696, 704 hundredths.
    are(&[(112, 17), (113, 18), (187, 23), (188, 24)]);
    // 12 in 100: 96, 108 and 1,200 hundredths; then 96, 108 once more from the next point on.
    are(&[(208, 25), (209, 26), (299, 36), (300, 37)]);
    are(&[(408, 49), (409, 50), (499, 60), (500, 61)]);
    // 8 in 100.
    are(&[(612, 73), (613, 74), (749, 84), (750, 85)]);
    // 15 in 400: 390, 405 and 1,500 four-hundredths.
    are(&[
        (926, 97),
        (927, 98),
        (1_000, 100),
        (1_006, 100),
        (1_007, 101),
    ]);
}

/// The points in tenths of a degree, written once more.
const IN_TENTHS: [(u64, u64); 8] = [
    (0, 12),
    (50, 14),
    (100, 17),
    (200, 25),
    (400, 49),
    (600, 73),
    (900, 97),
    (1_300, 112),
];

/// Would catch any damping that isn't the largest whole number at or below the line: the line is at least
/// as high, and lower than one more. Asked without a division, and of each point on both its lines.
#[test]
fn every_angle_lies_on_its_line() {
    let mut asked = 0;
    for line in IN_TENTHS.windows(2) {
        let ((from, low), (to, high)) = (line[0], line[1]);
        for tenths in from..=to {
            let risen = damping(tenths as i32).unwrap() - low;
            let (run, rise) = (to - from, (high - low) * (tenths - from));
            assert!(risen * run <= rise && rise < (risen + 1) * run, "{tenths}");
            asked += 1;
        }
    }
    assert_eq!(asked, 1_301 + 6);
    are(&(-50..=0).map(|angle| (angle, 12)).collect::<Vec<_>>());
}

/// Would catch an angle that is cut to fewer bits before its range is asked for, or whose sign is lost.
#[test]
fn every_other_angle_is_refused() {
    let mut random = Random::new(7_001);
    let powers = (11..31).map(|bit| 1 << bit);
    let beside = powers.flat_map(|power: i32| [power - 1, power, power + 1]);
    let of_both_signs = beside.flat_map(|angle| [angle, -angle]);
    let cut =
        (-50..=1_300).flat_map(|angle: i32| [angle + 65_536, angle - 65_536, angle ^ 1 << 31]);
    let any = (0..100_000).map(|_| random.number() as i32);
    let around = (-100_000..=100_000).chain(of_both_signs).chain(cut);
    let (mut accepted, mut refused) = (0, 0);
    for angle in around.chain(any) {
        let in_range = (-50..=1_300).contains(&angle);
        assert_eq!(damping(angle).err(), (!in_range).then_some(23), "{angle}");
        accepted += u32::from(in_range);
        refused += u32::from(!in_range);
    }
    assert!(
        accepted >= 1_351 && refused > 300_000,
        "{accepted} {refused}"
    );
}

/// Would catch an answer that has the damping in the byte of the refusals.
#[test]
fn the_answer_as_one_number() {
    assert_eq!(damping_number(-51), 23);
    assert_eq!(damping_number(1_301), 23);
    assert_eq!(damping_number(-50), 12 * 256);
    assert_eq!(damping_number(50), 14 * 256);
    assert_eq!(damping_number(1_300), 112 * 256);
}

#[test]
fn the_most_that_a_change_moves() {
    let most = [0, 1, 8, 9, 16, 17, 25, 100, 1_350].map(most_change);
    assert_eq!(most, [1, 1, 1, 2, 2, 3, 4, 13, 163]);
}

/// "An angle change of k tenths moves the damping by at most 1 plus 12 times k divided by 100, rounded
/// down": every two angles, in both directions.
#[test]
fn every_change_of_the_angle() {
    let angles: Vec<i32> = (-50..=1_300).collect();
    let (mut asked, mut moved_most) = (0, 0);
    for from in &angles {
        for to in &angles {
            let moved = damping(*from).unwrap().abs_diff(damping(*to).unwrap());
            let tenths = u64::from(from.abs_diff(*to));
            assert!(moved <= most_change(tenths), "from {from} to {to}");
            asked += 1;
            moved_most += u32::from(moved == most_change(tenths));
        }
    }
    assert_eq!(asked, 1_351 * 1_351);
    // So the 1 can't be left out. From 208 to 209 the damping goes from 25 to 26, and 12 / 100 is 0.
    assert!(moved_most > 10_000, "{moved_most}");
}

/// A dispatcher's book and the valve's finishes in it.
#[derive(Clone)]
struct Watched {
    book: ActualBook,
    valve: Refresh,
}

impl Watched {
    fn new(plan: &[Task], first: Order) -> Watched {
        Watched {
            book: ActualBook::new(&Levels::new(&[1]), plan, first),
            valve: Refresh::new(plan),
        }
    }

    /// Enters a pass and its reply, whatever a dispatcher would say to it. Says whether it finished a job
    /// of the valve's.
    fn enter(&mut self, d: u32, finished: bool, reply: Result<Order, u32>) -> bool {
        let before = self.book.clone();
        self.book.pass(d, finished, reply);
        self.valve.pass(&before, &self.book)
    }

    /// The same, and what is then to be said of the promise.
    fn pass(&mut self, d: u32, finished: bool, reply: Order) -> Result<(), String> {
        self.enter(d, finished, Ok(reply));
        refresh_holds(&self.valve)
    }

    /// What the three parts of the promise say.
    fn parts(&self) -> [Result<(), String>; 3] {
        [finishes_are_near, finishes_have_come, no_wait_is_too_long].map(|part| part(&self.valve))
    }

    /// The only part that fails says so.
    #[track_caller]
    fn breaks(&self, broken: usize, beginning: &str) {
        for (place, part) in self.parts().iter().enumerate() {
            assert_eq!(part.is_err(), place == broken, "{part:?}");
        }
        let why = refresh_holds(&self.valve).unwrap_err();
        assert!(why.starts_with(beginning), "{why}");
        assert_eq!(self.parts()[broken], Err(why));
    }
}

/// One unit a tick, and the valve takes both ticks of its period at most.
fn smallest() -> Watched {
    Watched::new(&tasks(&[(2, 2)]), run(0, 0, 2))
}

/// The smallest run in which the finishes lie as far apart as is promised, by the simulator's own
/// replies: the valve finishes after one tick, and then takes all of its next period.
#[test]
fn two_periods_less_a_tick_are_attained() {
    let plan = tasks(&[(2, 2)]);
    let (levels, block) = (write_levels(&Levels::new(&[1])), block_of(&plan));
    let mut state = [0; STATE_BYTES];
    let first = sim::start(&levels, &block, &[], &mut state).unwrap();
    let mut watched = Watched::new(&plan, first);
    let finishes = [(1, true), (1, false), (2, true)].map(|(d, finished)| {
        let reply = pass(&mut state, d, finished);
        assert!(reply.is_ok());
        let told = watched.enter(d, finished, reply);
        assert_eq!(refresh_holds(&watched.valve), Ok(()));
        told
    });
    assert_eq!(finishes, [true, false, true]);
    assert_eq!(watched.valve.consecutive(), [(1, 4)]);
    assert_eq!(watched.valve.awaiting(), [4]);
    assert_eq!((most_apart(2), watched.valve.clock()), (3, 4));
    // A tick before, the first finish was 2 ticks ago, and one more was to come.
    let mut earlier = smallest();
    assert_eq!(earlier.pass(1, true, idle(1)), Ok(()));
    assert_eq!(earlier.pass(1, false, run(0, 0, 2)), Ok(()));
    assert_eq!(earlier.pass(1, false, run(0, 0, 1)), Ok(()));
    assert_eq!(
        (earlier.valve.clock(), earlier.valve.awaiting()),
        (3, vec![1])
    );
    assert_eq!(earlier.pass(1, true, run(0, 0, 2)), Ok(()));
    assert_eq!(earlier.valve.consecutive(), [(1, 4)]);
}

/// Would catch finishes that may lie a tick farther apart: the last pass has a tick more than passing
/// accepts.
#[test]
fn finishes_that_are_too_far_apart() {
    let mut watched = smallest();
    assert_eq!(watched.pass(1, true, idle(1)), Ok(()));
    assert_eq!(watched.pass(1, false, run(0, 0, 2)), Ok(()));
    assert!(watched.pass(3, true, run(0, 0, 1)).is_err());
    assert_eq!(watched.valve.consecutive(), [(1, 5)]);
    watched.breaks(0, "too far apart for a period of 2");
    // It stays so, however near the next finish is: at 6, of the job of 4.
    assert!(watched.pass(1, true, run(0, 0, 2)).is_err());
    assert_eq!(watched.valve.consecutive(), [(1, 5), (5, 6)]);
    watched.breaks(0, "too far apart for a period of 2");
}

/// Would catch a check that doesn't want the first finish to be the earlier one: the second is told in a
/// pass without ticks.
#[test]
fn finishes_at_the_same_tick() {
    let mut watched = smallest();
    assert_eq!(watched.pass(2, true, run(0, 0, 2)), Ok(()));
    assert!(watched.pass(0, true, idle(2)).is_err());
    assert_eq!(watched.valve.consecutive(), [(2, 2)]);
    watched.breaks(
        0,
        "the valve's job finished at 2, and the one before it at 2",
    );
}

/// Would catch a watcher that has nothing to say where there are no finishes: the dispatcher stays idle.
#[test]
fn a_valve_that_never_finishes() {
    let mut watched = Watched::new(&tasks(&[(2, 2)]), idle(2));
    for _ in 0..3 {
        assert_eq!(watched.pass(1, false, idle(1)), Ok(()));
    }
    assert!(watched.pass(1, false, idle(2)).is_err());
    watched.breaks(1, "not finished at 4: the valve's job of 0");
    // Or only the first does, at its deadline. The second is late at 4, which is 2 ticks after that.
    let mut once = smallest();
    assert_eq!(once.pass(2, true, idle(2)), Ok(()));
    assert_eq!(once.pass(1, false, idle(1)), Ok(()));
    assert!(once.pass(1, false, idle(2)).is_err());
    once.breaks(1, "not finished at 4: the valve's job of 2");
    // Or only the second. That of 0 is late at 2, but the promise is about two jobs.
    let mut second = Watched::new(&tasks(&[(2, 2)]), idle(2));
    assert_eq!(second.pass(2, false, run(0, 0, 2)), Ok(()));
    assert_eq!(second.pass(1, true, idle(1)), Ok(()));
    assert!(second.pass(1, false, idle(2)).is_err());
    second.breaks(1, "not finished at 4: the valve's job of 0");
}

/// The same of one that stops later in the run.
#[test]
fn a_valve_that_stops() {
    let mut watched = smallest();
    for _ in 0..4 {
        assert_eq!(watched.pass(2, true, run(0, 0, 2)), Ok(()));
    }
    assert_eq!(watched.valve.consecutive(), [(2, 4), (4, 6), (6, 8)]);
    assert_eq!(watched.pass(1, false, idle(1)), Ok(()));
    assert!(watched.pass(1, false, run(0, 0, 2)).is_err());
    watched.breaks(1, "not finished at 10: the valve's job of 8");
    // The job of 10 finishes. It is no consecutive one of that of 6.
    assert!(watched.pass(2, true, run(0, 0, 2)).is_err());
    assert_eq!(watched.valve.consecutive().len(), 3);
    assert_eq!(watched.valve.awaiting(), [8, 12]);
}

/// Would catch a wait that may be a tick longer. Where passes have a tick or more, the job that waits is
/// late by then as well; so here its predecessor finishes at its arrival.
#[test]
fn a_wait_that_is_too_long() {
    let mut watched = smallest();
    assert_eq!(watched.pass(0, true, idle(2)), Ok(()));
    assert_eq!(watched.pass(2, false, run(0, 0, 2)), Ok(()));
    assert!(watched.pass(1, false, run(0, 0, 1)).is_err());
    assert_eq!(
        (watched.valve.clock(), watched.valve.awaiting()),
        (3, vec![0])
    );
    watched.breaks(2, "no next finish by 3: the valve's last was at 0");
    // With a tick before that finish it is late at 4 and not before, by both.
    let mut late = smallest();
    assert_eq!(late.pass(1, true, idle(1)), Ok(()));
    assert_eq!(late.pass(2, false, run(0, 0, 1)), Ok(()));
    assert!(late.pass(1, false, idle(1)).is_err());
    assert_eq!(late.parts().map(|part| part.is_err()), [false, true, true]);
}

/// A period of one tick: each job finishes a tick after the one before.
#[test]
fn a_period_of_one_tick() {
    let mut watched = Watched::new(&tasks(&[(1, 1)]), run(0, 0, 1));
    for _ in 0..5 {
        assert_eq!(watched.pass(1, true, run(0, 0, 1)), Ok(()));
    }
    assert_eq!(
        watched.valve.consecutive(),
        [(1, 2), (2, 3), (3, 4), (4, 5)]
    );
    assert_eq!(most_apart(1), 1);
    assert!(watched.pass(1, false, run(0, 0, 1)).is_err());
}

/// Would catch a refused pass that is taken for a finish, and a refused one that is taken for time gone by.
#[test]
fn a_refused_pass_finishes_nothing() {
    let mut watched = smallest();
    assert!(!watched.enter(3, true, Err(12)));
    assert!(!watched.enter(u32::MAX, false, Err(12)));
    assert_eq!(watched.valve.clock(), 0);
    assert!(watched.enter(1, true, Ok(idle(1))));
    assert!(!watched.enter(1, true, Err(13)));
    assert_eq!(watched.valve.awaiting(), [1]);
    assert_eq!(refresh_holds(&watched.valve), Ok(()));
}

/// Would catch the finish of another task's job that is taken for the valve's.
#[test]
fn another_task_is_no_valve() {
    let plan = tasks(&[(4, 2), (2, 1)]);
    let mut watched = Watched::new(&plan, run(1, 0, 1));
    assert_eq!(watched.valve.period(), 4);
    assert!(!watched.enter(1, true, Ok(run(0, 0, 1))));
    assert!(!watched.enter(1, false, Ok(run(1, 0, 1))));
    assert!(!watched.enter(1, true, Ok(run(0, 0, 1))));
    assert!(watched.enter(1, true, Ok(run(1, 0, 1))));
    assert_eq!(watched.valve.awaiting(), [4]);
    // Task 1 goes on by itself, and the valve's job of 4 never comes.
    for _ in 0..3 {
        assert_eq!(watched.pass(1, true, run(1, 0, 1)), Ok(()));
    }
    assert!(watched.pass(1, true, run(1, 0, 1)).is_err());
    watched.breaks(1, "not finished at 8: the valve's job of 4");
}

/// Would catch a watcher that wants closed jobs kept, or takes forgotten ones for finished again.
#[test]
fn forgetting_closed_jobs_changes_no_finish() {
    let plan = tasks(&[(2, 1), (4, 2)]);
    let (mut kept, mut forgetful) = (
        Watched::new(&plan, run(0, 0, 1)),
        Watched::new(&plan, run(0, 0, 1)),
    );
    for round in 0..20 {
        // By turns the valve and the other task, for a tick each.
        let reply = run(((round + 1) % 2) as u8, 0, 1);
        let before = forgetful.book.clone();
        forgetful.book.pass(1, true, Ok(reply));
        // One of three times they are kept, and then forgotten in a pass that doesn't finish them.
        if round % 3 > 0 {
            forgetful.book.forget_closed();
        }
        let told = forgetful.valve.pass(&before, &forgetful.book);
        assert_eq!(kept.enter(1, true, Ok(reply)), told);
        assert_eq!(told, round % 2 == 0);
        assert_eq!(refresh_holds(&forgetful.valve), Ok(()));
    }
    assert!(forgetful.book.jobs().len() < kept.book.jobs().len());
    assert_eq!(forgetful.valve.consecutive(), kept.valve.consecutive());
    assert_eq!(kept.valve.consecutive().len(), 9);
}

/// A pass that the watcher wasn't told of may have had a finish in it.
#[test]
#[should_panic(expected = "a pass was left out")]
fn no_pass_may_be_left_out() {
    let mut watched = smallest();
    watched.book.pass(1, true, Ok(idle(1)));
    watched.enter(1, false, Ok(run(0, 0, 2)));
}
