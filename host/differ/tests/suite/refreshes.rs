//! What 02's No. 7 comes to in a run, told by the dispatcher's book alone.

use sim::knee::{most_apart, Refresh};

/// How often the valve's jobs finished, and how long that took.
#[derive(Default, Debug)]
pub struct Refreshes {
    /// Passes that finished a job of the valve's, and those whose predecessor had finished too: all of
    /// them but for the first of a run.
    finished: u64,
    consecutive: u64,
    /// Of the latter those exactly two periods less a tick after it, where the period is one tick and
    /// where it is longer; and in a plan of one task, and of more.
    farthest_of_one: u64,
    farthest: u64,
    farthest_alone: u64,
    farthest_in_company: u64,
    /// With a longer period, those a tick after it, and those exactly a period after it.
    nearest: u64,
    a_period: u64,
    /// After an accepted pass, and after a refused one: the next job is awaited still, and only one tick
    /// is left for it.
    last_tick: u64,
    last_tick_refused: u64,
}

impl Refreshes {
    /// To be told after each pass: whether it finished a job of the valve's, and whether it was accepted;
    /// and how many tasks there are.
    pub fn note(&mut self, valve: &Refresh, tasks: usize, finished: bool, accepted: bool) {
        let period = valve.period();
        if finished {
            self.finished += 1;
            if let Some((first, second)) = last_two(valve) {
                self.note_apart(second - first, period, tasks);
            }
        }
        let waits = |finish: &u64| valve.clock() - finish + 1 == most_apart(period);
        if period > 1 && valve.awaiting().iter().any(waits) {
            self.last_tick += u64::from(accepted);
            self.last_tick_refused += u64::from(!accepted);
        }
    }

    fn note_apart(&mut self, apart: u64, period: u64, tasks: usize) {
        self.consecutive += 1;
        let farthest = apart == most_apart(period);
        if period == 1 {
            self.farthest_of_one += u64::from(farthest);
            return;
        }
        self.farthest += u64::from(farthest);
        self.farthest_alone += u64::from(farthest && tasks == 1);
        self.farthest_in_company += u64::from(farthest && tasks > 1);
        self.nearest += u64::from(apart == 1);
        self.a_period += u64::from(apart == period);
    }

    /// Wants so many finishes of consecutive jobs, and so many of them as far apart as they may be, with a
    /// period longer than a tick.
    #[track_caller]
    pub fn wants(&self, consecutive: u64, farthest: u64) {
        assert!(self.consecutive >= consecutive, "{self:?}");
        assert!(self.farthest >= farthest, "{self:?}");
    }

    /// Wants each kind at least so often.
    #[track_caller]
    pub fn wants_each(&self, least: u64) {
        let seen = [
            self.farthest_of_one,
            self.farthest_alone,
            self.farthest_in_company,
            self.nearest,
            self.a_period,
            self.last_tick,
            self.last_tick_refused,
        ];
        assert!(seen.iter().all(|times| *times >= least), "{self:?}");
    }
}

/// The finishes of the two consecutive jobs that have finished last.
fn last_two(valve: &Refresh) -> Option<(u64, u64)> {
    valve.consecutive().last().copied()
}
