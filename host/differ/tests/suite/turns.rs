//! What 02's No. 5 comes to in a run, told by the dispatcher's book alone.

use sim::books::{pairs_hold, ActualBook, BookJob};
use sim::pairs::{pack_pairs, pairs_in, Pair};
use sim::plan::Task;

/// How often a pair of a run's list was met by an accepted pass.
#[derive(Default, Debug)]
pub struct Turns {
    /// The pass is about a job of the later task: one that hasn't run before, and one that has.
    first: u64,
    again: u64,
    /// The same by the periods: both equal, or the later task's longer.
    equal: u64,
    longer: u64,
    /// The same by the tick at which both jobs arrived: the start, or one in the run.
    from_start: u64,
    from_run: u64,
    /// Among them those with a newer job of the earlier task open, which isn't the one that counts.
    newer_open: u64,
    /// The pass is about a job of the earlier task, and the later's that arrived with it is open: it
    /// waits for its turn.
    waits: u64,
}

impl Turns {
    /// To be told before the book is: it stands as it was before the pass.
    pub fn note(&mut self, plan: &[Task], actual: &ActualBook, pairs: &[u8]) {
        let (running, arrival) = match actual.running_job() {
            Some(job) => job,
            None => return,
        };
        let mut pairs = pairs_in(pairs);
        pairs.sort();
        pairs.dedup();
        for pair in pairs {
            if pair.later == running {
                self.note_later(plan, actual, pair, arrival);
            } else if pair.earlier == running {
                self.note_earlier(actual, pair, arrival);
            }
        }
    }

    /// The pair is good, so the earlier task had an arrival at the same tick too. That job is closed.
    fn note_later(&mut self, plan: &[Task], actual: &ActualBook, pair: Pair, arrival: u64) {
        let (earlier, later) = (plan[pair.earlier], plan[pair.later]);
        assert_eq!(arrival % earlier.period, 0, "{plan:?}");
        assert!(!is_open(actual, pair.earlier, |at| at == arrival));
        if actual.left()[pair.later] == later.whole_job() {
            self.first += 1;
        } else {
            self.again += 1;
        }
        if earlier.period == later.period {
            self.equal += 1;
        } else {
            self.longer += 1;
        }
        if arrival == 0 {
            self.from_start += 1;
        } else {
            self.from_run += 1;
        }
        self.newer_open += u64::from(is_open(actual, pair.earlier, |at| at > arrival));
    }

    /// Of the pair turned round the promise doesn't hold here, and the book has to say so.
    fn note_earlier(&mut self, actual: &ActualBook, pair: Pair, arrival: u64) {
        if is_open(actual, pair.later, |at| at == arrival) {
            let turned = Pair {
                earlier: pair.later,
                later: pair.earlier,
            };
            assert!(pairs_hold(actual, &pack_pairs(&[turned])).is_err());
            self.waits += 1;
        }
    }

    /// Wants each kind at least so often.
    #[track_caller]
    pub fn wants(&self, least: u64) {
        let seen = [
            self.first,
            self.again,
            self.equal,
            self.longer,
            self.from_start,
            self.from_run,
            self.newer_open,
            self.waits,
        ];
        assert!(seen.iter().all(|times| *times >= least), "{self:?}");
    }
}

/// Whether the book has an open job of the task with such an arrival.
fn is_open(actual: &ActualBook, task: usize, such: impl Fn(u64) -> bool) -> bool {
    let open = |job: &BookJob| job.open && job.task == task && such(job.arrival);
    actual.jobs().iter().any(open)
}
