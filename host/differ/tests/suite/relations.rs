//! How the two tasks of a pair stand to each other (02, No. 5), told from 02's words once more, so that
//! tests can aim at each kind of pair and know beforehand whether it is good.

use sim::plan::Task;
use std::collections::BTreeMap;
use Relation::*;

/// What there is to say about a pair, told by its numbers and periods once more.
#[derive(Clone, Copy, PartialEq, Eq, PartialOrd, Ord, Debug)]
pub enum Relation {
    /// A number that no task has.
    NoEarlier,
    NoLater,
    Neither,
    /// A task with itself.
    Itself,
    /// The periods are equal, and the earlier has the lower number, or the higher one.
    Equal,
    EqualTurned,
    /// One period is a multiple of the other: the later task's, or the earlier's.
    Multiple,
    MultipleTurned,
    /// The later task's is a tick beside a multiple.
    Near,
    Other,
}

pub const RELATIONS: [Relation; 10] = [
    NoEarlier,
    NoLater,
    Neither,
    Itself,
    Equal,
    EqualTurned,
    Multiple,
    MultipleTurned,
    Near,
    Other,
];

impl Relation {
    pub fn of(plan: &[Task], earlier: usize, later: usize) -> Relation {
        let period = |place: usize| plan.get(place).map(|task| task.period);
        let (first, second) = match (period(earlier), period(later)) {
            (Some(first), Some(second)) => (first, second),
            (None, Some(_)) => return NoEarlier,
            (Some(_), None) => return NoLater,
            (None, None) => return Neither,
        };
        // By going through the multiples, as a reader of 02 would.
        let reaches = |step: u64, to: u64| (1..=to / step).any(|times| times * step == to);
        if earlier == later {
            Itself
        } else if first == second && earlier < later {
            Equal
        } else if first == second {
            EqualTurned
        } else if reaches(first, second) {
            Multiple
        } else if reaches(second, first) {
            MultipleTurned
        } else if reaches(first, second - 1) || reaches(first, second + 1) {
            Near
        } else {
            Other
        }
    }

    pub fn is_good(self) -> bool {
        self == Equal || self == Multiple
    }
}

/// How often each was met.
#[derive(Default, Debug)]
pub struct Relations(BTreeMap<Relation, u64>);

impl Relations {
    pub fn note(&mut self, relation: Relation) {
        *self.0.entry(relation).or_default() += 1;
    }

    #[track_caller]
    pub fn wants(&self, relations: &[Relation], least: u64) {
        println!("    {self:?}");
        for relation in relations {
            let times = self.0.get(relation).copied().unwrap_or(0);
            assert!(times >= least, "{relation:?} only {times} times");
        }
    }
}
