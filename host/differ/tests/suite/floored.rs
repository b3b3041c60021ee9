//! What 02's No. 8 comes to in a run, told by the two books alone.

use crate::gaps::Stand;
use differ::dispatcher::Order;
use sim::job::time_needed;
use sim::knee::VALVE;

/// How often a floor had a say in an order, or would have had.
#[derive(Default, Debug)]
pub struct Floored {
    /// New orders for a task with a floor: ones that the floor raised, up to the nominal level and above
    /// it; and ones at a level that the allowance wanted anyway, above the floor or just there.
    raised: u64,
    above_nominal: u64,
    over_it: u64,
    just_there: u64,
    /// Of those raised: of the only open job, and of one in company; with fixed ticks left; and, of the
    /// only open job, still at a level that 01's allowance would not have met.
    alone: u64,
    in_company: u64,
    with_fixed: u64,
    by_gap: u64,
    /// Raised above nominal: of the valve, and of a job that had run before.
    valve: u64,
    again: u64,
    /// Passes at whose end an order above nominal stands: accepted ones, refused ones, and accepted ones
    /// that changed nothing but the ticks.
    stands: u64,
    stands_refused: u64,
    stays: u64,
}

impl Floored {
    /// To be told after each pass, with the order that then stands. Of an accepted pass, whether it said
    /// that the job finished; of a refused one nothing.
    pub fn note(&mut self, stand: &Stand, order: Order, accepted: Option<bool>) {
        let (task, level) = match order {
            Order::Run { task, level, .. } => (usize::from(task), usize::from(level)),
            Order::Idle { .. } => return,
        };
        let is_above = level > stand.nominal;
        match accepted {
            None => self.stands_refused += u64::from(is_above),
            Some(finished) => {
                let is_new = finished || stand.has_arrival();
                self.stands += u64::from(is_above);
                self.stays += u64::from(is_above && !is_new);
                if is_new {
                    self.note_new(stand, task, level);
                }
            }
        }
    }

    /// "The level chosen is the lowest at or above the floor that meets the allowance." Here the lowest
    /// that meets the allowance is found first, and then the higher of the two.
    fn note_new(&mut self, stand: &Stand, task: usize, level: usize) {
        let floor = stand.plan[task].floor as usize;
        let lowest = stand.lowest_level(task);
        assert_eq!(level, lowest.max(floor), "{:?}", stand.plan);
        if floor == 0 {
            return;
        }
        self.over_it += u64::from(lowest > floor);
        self.just_there += u64::from(lowest == floor);
        if lowest < floor {
            self.note_raised(stand, task, level);
        }
    }

    fn note_raised(&mut self, stand: &Stand, task: usize, level: usize) {
        let is_above = level > stand.nominal;
        self.above_nominal += u64::from(is_above);
        self.raised += u64::from(!is_above);
        let open = stand.open_jobs();
        self.alone += u64::from(open.len() == 1);
        self.in_company += u64::from(open.len() > 1);
        let left = stand.actual.left()[task];
        self.with_fixed += u64::from(left.fixed > 0);
        if let [job] = &open[..] {
            let needed = time_needed(left, stand.levels.speed(level));
            self.by_gap += u64::from(needed > stand.base_allowance(job));
        }
        self.valve += u64::from(is_above && task == VALVE);
        self.again += u64::from(is_above && left != stand.plan[task].whole_job());
    }

    /// Wants each kind at least so often.
    #[track_caller]
    pub fn wants(&self, least: u64) {
        self.wants_above(least);
        let seen = [
            self.raised,
            self.over_it,
            self.just_there,
            self.alone,
            self.in_company,
            self.with_fixed,
            self.by_gap,
            self.again,
        ];
        assert!(seen.iter().all(|times| *times >= least), "{self:?}");
    }

    /// Wants orders above nominal, the valve's among them, at least so often.
    #[track_caller]
    pub fn wants_above(&self, least: u64) {
        let seen = [
            self.above_nominal,
            self.valve,
            self.stands,
            self.stands_refused,
            self.stays,
        ];
        assert!(seen.iter().all(|times| *times >= least), "{self:?}");
    }
}
