//! 02, No. 7: the damping for an angle of the knee, and how soon the valve's job comes round again. Of
//! the dispatcher nothing is known here but the book that is kept of its replies.

use crate::books::ActualBook;
use crate::plan::Task;
use std::collections::BTreeMap;

/// "The angle is signed, in tenths of a degree, -50 to 1,300."
pub const SMALLEST_ANGLE: i32 = -50;
pub const LARGEST_ANGLE: i32 = 1_300;
const TENTHS: u64 = 10;

/// "Below 0 the damping is 12."
const BELOW_ZERO: u64 = 12;

/// "straight lines through (degrees, damping) 0, 12; 5, 14; 10, 17; 20, 25; 40, 49; 60, 73; 90, 97;
/// 130, 112".
pub const POINTS: [(u64, u64); 8] = [
    (0, 12),
    (5, 14),
    (10, 17),
    (20, 25),
    (40, 49),
    (60, 73),
    (90, 97),
    (130, 112),
];

/// The damping for an angle, or 23 if that is "outside its range", which is all that is asked.
pub fn damping(angle: i32) -> Result<u64, u32> {
    if !(SMALLEST_ANGLE..=LARGEST_ANGLE).contains(&angle) {
        return Err(23);
    }
    match u64::try_from(angle) {
        Ok(tenths) => Ok(on_the_lines(tenths)),
        Err(_) => Ok(BELOW_ZERO),
    }
}

/// "From 0 it comes from a constant table of 1,301 entries, one for each tenth, whose rule is straight
/// lines [...], rounded down." Here there is the rule and no table: on the line between two points the
/// damping rises with the angle in the same share, and what it rises by is rounded down. An angle at
/// which two lines meet has the same damping on both.
fn on_the_lines(tenths: u64) -> u64 {
    let line = POINTS
        .windows(2)
        .find(|line| tenths <= TENTHS * line[1].0)
        .expect("the last point is at the largest angle");
    let ((from, low), (to, high)) = (line[0], line[1]);
    low + (high - low) * (tenths - TENTHS * from) / (TENTHS * (to - from))
}

/// "An angle change of k tenths moves the damping by at most 1 plus 12 times k divided by 100, rounded
/// down." In either direction. It is the same number whether the 1 is added before the rounding or after
/// it.
pub fn most_change(tenths: u64) -> u64 {
    1 + 12 * tenths / 100
}

/// "The crate names task 0 as the valve job".
pub const VALVE: usize = 0;

/// The finishes of the valve's jobs in a run, told by the dispatcher's book alone. "as long as passes go
/// on being accepted past both": what is refused changes nothing here either.
#[derive(Clone, Debug)]
pub struct Refresh {
    period: u64,
    /// The dispatcher's book's, after the passes entered so far.
    clock: u64,
    /// Of each valve job that has finished, by its arrival, the clock after the pass that finished it.
    finishes: BTreeMap<u64, u64>,
}

impl Refresh {
    /// Of a run of this plan that has just been started.
    pub fn new(plan: &[Task]) -> Refresh {
        Refresh {
            period: plan[VALVE].period,
            clock: 0,
            finishes: BTreeMap::new(),
        }
    }

    /// Enters a pass, accepted or refused, by the dispatcher's book before it and after it: it finishes a
    /// job that is open in the one and closed in the other. Says whether it finished one of the valve's.
    /// A job that isn't in the later book's list any more was closed, and forgotten.
    pub fn pass(&mut self, before: &ActualBook, after: &ActualBook) -> bool {
        assert_eq!(before.clock(), self.clock, "a pass was left out");
        let jobs = after.jobs();
        let mut finished = before.jobs();
        finished.retain(|job| job.task == VALVE && job.open && !jobs.contains(job));
        for job in &finished {
            self.finishes.insert(job.arrival, after.clock());
        }
        self.clock = after.clock();
        !finished.is_empty()
    }

    pub fn period(&self) -> u64 {
        self.period
    }

    pub fn clock(&self) -> u64 {
        self.clock
    }

    /// The finishes of every two consecutive jobs that have both finished, in the order of their
    /// arrivals.
    pub fn consecutive(&self) -> Vec<(u64, u64)> {
        let mut both = Vec::new();
        for (arrival, first) in &self.finishes {
            if let Some(second) = self.finish_of(arrival + self.period) {
                both.push((*first, second));
            }
        }
        both
    }

    /// The finishes of the jobs whose next job hasn't finished. In a run that keeps what is promised it
    /// is that of the last one.
    pub fn awaiting(&self) -> Vec<u64> {
        let mut waiting = Vec::new();
        for (arrival, finish) in &self.finishes {
            if self.finish_of(arrival + self.period).is_none() {
                waiting.push(*finish);
            }
        }
        waiting
    }

    fn finish_of(&self, arrival: u64) -> Option<u64> {
        self.finishes.get(&arrival).copied()
    }
}

/// The most ticks from a valve job's finish to the next one's: "twice its period less one tick".
pub fn most_apart(period: u64) -> u64 {
    2 * period - 1
}

/// 02, No. 7, as it stands after the passes entered so far: "between the finishes of two consecutive
/// valve jobs lie at most twice its period less one tick, as long as passes go on being accepted past
/// both." To be asked after each pass.
pub fn refresh_holds(valve: &Refresh) -> Result<(), String> {
    finishes_are_near(valve)?;
    finishes_have_come(valve)?;
    no_wait_is_too_long(valve)
}

/// Of two consecutive jobs that have both finished, the first did so before the second, and not longer
/// before than is promised.
pub fn finishes_are_near(valve: &Refresh) -> Result<(), String> {
    for (first, second) in valve.consecutive() {
        if first >= second {
            return Err(format!(
                "the valve's job finished at {second}, and the one before it at {first}"
            ));
        }
        if second - first > most_apart(valve.period) {
            return Err(format!(
                "too far apart for a period of {}: the valve's finishes at {first} and {second}",
                valve.period
            ));
        }
    }
    Ok(())
}

/// That the finishes are near says nothing of a job that never finishes. So: once the clock has come to
/// the second deadline of two consecutive jobs, both have finished.
pub fn finishes_have_come(valve: &Refresh) -> Result<(), String> {
    let mut arrival = 0;
    while arrival + 2 * valve.period <= valve.clock {
        for job in [arrival, arrival + valve.period] {
            if valve.finish_of(job).is_none() {
                return Err(format!(
                    "not finished at {}: the valve's job of {job}",
                    valve.clock
                ));
            }
        }
        arrival += valve.period;
    }
    Ok(())
}

/// The same of a run that ends before that: after each pass that leaves the next job unfinished, one tick
/// more is still not too many.
pub fn no_wait_is_too_long(valve: &Refresh) -> Result<(), String> {
    for finish in valve.awaiting() {
        if valve.clock - finish >= most_apart(valve.period) {
            return Err(format!(
                "no next finish by {}: the valve's last was at {finish}",
                valve.clock
            ));
        }
    }
    Ok(())
}
