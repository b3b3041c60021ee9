//! What 02's No. 4 comes to in a run, told by the two books alone.

use sim::books::{last_finish_past_plain, past_plain_finish, ActualBook, BookJob, PlainBook};
use sim::job::time_needed;
use sim::levels::{Levels, MOST_LEVELS};
use sim::plan::Task;
use sim::schedule::{first_arrival_after, urgency};

/// How often a lone job used the gap. The exception is in use where a job is open and its plain job
/// closed.
#[derive(Default, Debug)]
pub struct Gaps {
    /// New orders for a lone job at a level that 01's allowance would not have met; ones with more of
    /// 01's allowance than ticks to the next arrival; and ones with as many.
    slower: u64,
    base_larger: u64,
    both_equal: u64,
    /// The exception in use after an accepted pass, and after a refused one; with the job's time left
    /// exactly the ticks to the next arrival, and in a plan with fixed ticks.
    after_accepted: u64,
    after_refused: u64,
    exactly: u64,
    with_fixed: u64,
    /// In use after an accepted pass, by the number of levels there are.
    of_levels: [u64; MOST_LEVELS as usize + 1],
    /// Jobs that finished past their plain finish, and those that did so at the first arrival after it.
    finished_past: u64,
    finished_at_arrival: u64,
    /// Arrival ticks at which an older job is open.
    older_open: u64,
}

/// A run as it stands: its plan, the levels with the nominal one, and both books.
pub struct Stand<'a> {
    pub plan: &'a [Task],
    pub levels: &'a Levels,
    pub nominal: usize,
    pub actual: &'a ActualBook,
    pub plain: &'a PlainBook,
}

impl Stand<'_> {
    pub fn open_jobs(&self) -> Vec<BookJob> {
        let mut open = self.actual.jobs();
        open.retain(|job| job.open);
        open
    }

    /// Whether jobs have arrived at this clock. None of them has finished yet.
    pub fn has_arrival(&self) -> bool {
        let clock = self.actual.clock();
        self.open_jobs().iter().any(|job| job.arrival == clock)
    }

    fn ticks_to_arrival(&self) -> u64 {
        let clock = self.actual.clock();
        first_arrival_after(self.plan, clock) - clock
    }

    /// The lowest level that meets the allowance of the task's latest job, whatever its floor.
    pub fn lowest_level(&self, task: usize) -> usize {
        let open = self.open_jobs();
        let own = open.iter().filter(|job| job.task == task);
        let job = own.max_by_key(|job| job.arrival).expect("its job is open");
        let mut allowance = self.base_allowance(job);
        if open.len() == 1 {
            allowance = allowance.max(self.ticks_to_arrival());
        }
        let left = self.actual.left()[task];
        let lowest = self
            .levels
            .lowest(|speed| time_needed(left, speed) <= allowance);
        lowest.expect("the nominal level meets it")
    }

    /// 01's allowance of a job: what the plain schedule has left of the jobs at least as urgent.
    pub fn base_allowance(&self, job: &BookJob) -> u64 {
        let own = urgency(self.plan, job.task, job.arrival);
        let open = self.plain.open_jobs();
        let counted = open
            .iter()
            .filter(|other| urgency(self.plan, other.task, other.arrival) <= own);
        counted.map(|other| other.left).sum()
    }
}

impl Gaps {
    /// To be told after each pass. Of an accepted one, whether it said that the job finished; of a
    /// refused one nothing.
    pub fn note(&mut self, stand: &Stand, accepted: Option<bool>) {
        let in_use = past_plain_finish(stand.actual, stand.plain);
        // "a lone job may be open and its plain job closed": one, then, and no other job is open.
        if let Some(job) = in_use.first() {
            assert_eq!(stand.open_jobs(), [*job], "{:?}", stand.plan);
        }
        let in_use = in_use.first();
        match accepted {
            None => self.after_refused += u64::from(in_use.is_some()),
            Some(finished) => {
                if let Some(job) = in_use {
                    self.note_in_use(stand, job);
                }
                self.note_order(stand, finished);
            }
        }
    }

    fn note_in_use(&mut self, stand: &Stand, job: &BookJob) {
        self.after_accepted += 1;
        let left = stand.actual.time_left(job);
        self.exactly += u64::from(left == Some(stand.ticks_to_arrival()));
        self.with_fixed += u64::from(stand.plan.iter().any(|task| task.fixed > 0));
        self.of_levels[stand.levels.count()] += 1;
    }

    /// The finish that an accepted pass told, and the order that was chosen after it.
    fn note_order(&mut self, stand: &Stand, finished: bool) {
        let past = last_finish_past_plain(stand.plan, stand.actual, stand.plain);
        if let (true, Some(past)) = (finished, past) {
            self.finished_past += 1;
            self.finished_at_arrival += u64::from(past.closed.tick == past.first_arrival);
        }
        let (open, clock) = (stand.open_jobs(), stand.actual.clock());
        let arrived = open.iter().any(|job| job.arrival == clock);
        let older = open.iter().any(|job| job.arrival < clock);
        self.older_open += u64::from(arrived && older);
        if let ([job], true) = (&open[..], finished || arrived) {
            let (base, gap) = (stand.base_allowance(job), stand.ticks_to_arrival());
            self.slower += u64::from(stand.actual.time_left(job) > Some(base));
            self.base_larger += u64::from(base > gap);
            self.both_equal += u64::from(base == gap);
        }
    }

    /// Wants each kind at least so often.
    #[track_caller]
    pub fn wants(&self, least: u64) {
        let seen = [
            self.slower,
            self.base_larger,
            self.both_equal,
            self.after_accepted,
            self.after_refused,
            self.exactly,
            self.with_fixed,
            self.finished_past,
            self.finished_at_arrival,
            self.older_open,
        ];
        assert!(seen.iter().all(|times| *times >= least), "{self:?}");
    }

    /// Wants the exception in use at least so often with each number of levels above one. With a
    /// single level there is none below the nominal one, and no job falls behind.
    #[track_caller]
    pub fn wants_of_levels(&self, least: u64) {
        let (single, more) = (&self.of_levels[..2], &self.of_levels[2..]);
        assert_eq!(single, [0, 0], "{self:?}");
        assert!(more.iter().all(|times| *times >= least), "{self:?}");
    }
}
