//! What a pass makes of the total (02, No. 6), worked out from the queue before it and 01's words once
//! more, so that tests know it beforehand and can tell what happened on the way.

use sim::layout::{of_task, ENTRIES, PLAIN_LEFT};
use sim::plan::judge_list;
use sim::schedule::allotment;
use sim::state::{unpack, State};

/// The plain ticks left that stand in a block's entries.
pub fn sum_of(block: &[u8]) -> u64 {
    let plain_left = |task| of_task(task, PLAIN_LEFT).get(block);
    (0..ENTRIES).map(plain_left).sum()
}

/// An accepted pass as the queue sees it, all in plain ticks.
#[derive(Clone, Copy, Default, Debug)]
pub struct Step {
    pub before: u64,
    /// Taken from the queue, and lost as nothing was in it any more.
    pub taken: u64,
    pub lost: u64,
    /// What replaced entries had left, and the allotments that came in their places.
    pub replaced: u64,
    pub brought: u64,
}

impl Step {
    /// The state must be a sound one, and the pass of d ticks one that is accepted.
    pub fn of(block: &[u8], d: u32) -> Step {
        let state = unpack(block).expect("the state is a sound one");
        let clock = state.clock + u64::from(d);
        let arrives = |task: usize| clock % state.entries[task].task.period == 0;
        let mut step = Step {
            before: sum_of(block),
            lost: u64::from(d),
            ..Step::default()
        };
        for (task, left) in queue_of(&state) {
            let taken = left.min(step.lost);
            step.taken += taken;
            step.lost -= taken;
            if arrives(task) {
                step.replaced += left - taken;
            }
        }
        step.brought = brought(&state, arrives);
        step
    }

    pub fn after(&self) -> u64 {
        self.before - self.taken - self.replaced + self.brought
    }
}

/// Tasks and plain ticks left, most urgent first: "the earlier deadline, then the earlier arrival, then
/// the lower task number".
fn queue_of(state: &State) -> Vec<(usize, u64)> {
    let urgency = |task: &usize| {
        let period = state.entries[*task].task.period;
        let arrival = state.clock / period * period;
        (arrival + period, arrival, *task)
    };
    let mut tasks: Vec<usize> = (0..state.entries.len()).collect();
    tasks.sort_by_key(urgency);
    let left = |task: usize| (task, state.entries[task].plain_left);
    tasks.into_iter().map(left).collect()
}

/// The allotments of the tasks that arrive.
fn brought(state: &State, arrives: impl Fn(usize) -> bool) -> u64 {
    let tasks = state.tasks();
    let judged = judge_list(&state.levels, &tasks).expect("the state is a sound one");
    let nominal = state.levels.speed(judged.nominal);
    let arriving = (0..tasks.len()).filter(|task| arrives(*task));
    arriving.map(|task| allotment(&tasks[task], nominal)).sum()
}

/// How often accepted passes did what to the total.
#[derive(Default, Debug)]
pub struct Sums {
    /// Nothing arrived: ticks stay in the queue; the last one was taken with the last tick of the pass;
    /// the pass had more ticks than the queue; and there was nothing in it.
    stays: u64,
    just_emptied: u64,
    ran_dry: u64,
    empty: u64,
    /// The same with an arrival.
    stays_at_arrival: u64,
    just_emptied_at_arrival: u64,
    ran_dry_at_arrival: u64,
    empty_at_arrival: u64,
    /// Passes that replaced entries with ticks left, and how many ticks these were in all.
    pub replacing: u64,
    pub ticks_replaced: u64,
}

impl Sums {
    pub fn note(&mut self, step: &Step) {
        let left = step.before - step.taken;
        let kind = match (step.before, step.lost, step.brought > 0) {
            (0, _, false) => &mut self.empty,
            (0, _, true) => &mut self.empty_at_arrival,
            (_, 0, false) if left > 0 => &mut self.stays,
            (_, 0, true) if left > 0 => &mut self.stays_at_arrival,
            (_, 0, false) => &mut self.just_emptied,
            (_, 0, true) => &mut self.just_emptied_at_arrival,
            (_, _, false) => &mut self.ran_dry,
            (_, _, true) => &mut self.ran_dry_at_arrival,
        };
        *kind += 1;
        self.replacing += u64::from(step.replaced > 0);
        self.ticks_replaced += step.replaced;
    }

    /// Wants each kind at least so often, but for the last two, which no run has.
    #[track_caller]
    pub fn wants(&self, least: u64) {
        let seen = [
            self.stays,
            self.just_emptied,
            self.ran_dry,
            self.empty,
            self.stays_at_arrival,
            self.just_emptied_at_arrival,
            self.ran_dry_at_arrival,
            self.empty_at_arrival,
        ];
        assert!(seen.iter().all(|times| *times >= least), "{self:?}");
    }

    /// The same where the plain schedule has no tick to spare: the queue is empty at arrivals alone.
    #[track_caller]
    pub fn wants_full(&self, least: u64) {
        let seen = [
            self.stays,
            self.stays_at_arrival,
            self.just_emptied_at_arrival,
        ];
        assert!(seen.iter().all(|times| *times >= least), "{self:?}");
        let never = [self.just_emptied, self.ran_dry, self.empty];
        assert_eq!(never, [0; 3], "{self:?}");
        let never = [self.ran_dry_at_arrival, self.empty_at_arrival];
        assert_eq!(never, [0; 2], "{self:?}");
    }

    /// Wants that no entry was replaced with ticks left: the plain schedule closes each job by its
    /// deadline.
    #[track_caller]
    pub fn wants_none_replaced(&self) {
        assert_eq!((self.replacing, self.ticks_replaced), (0, 0), "{self:?}");
    }

    /// Wants so many passes that replaced some, and so many ticks replaced in all.
    #[track_caller]
    pub fn wants_replaced(&self, passes: u64, ticks: u64) {
        let enough = self.replacing >= passes && self.ticks_replaced >= ticks;
        assert!(enough, "{self:?}");
    }
}
