//! States written by hand, and every idle state of a small plan, for the tests of this crate and for
//! those over the proved calls. Nothing is asked of them: whether one is sound is for a test to say.

use crate::job::Left;
use crate::layout::STATE_BYTES;
use crate::levels::Levels;
use crate::plan::{judge_list, Task};
use crate::schedule::allotment;
use crate::state::{pack, Entry, Running, State};

/// What an entry has left: fixed ticks, work and plain ticks.
pub type Progress = (u64, u64, u64);

/// A state of this plan at these speeds, with a clock, an order and the progress of each task.
pub fn forged(
    speeds: &[u64],
    plan: &[Task],
    clock: u64,
    running: Option<Running>,
    progress: &[Progress],
) -> [u8; STATE_BYTES] {
    let entry = |(task, &(fixed, work, plain_left)): (&Task, &Progress)| Entry {
        task: *task,
        left: Left { fixed, work },
        plain_left,
    };
    pack(&State {
        clock,
        running,
        entries: plan.iter().zip(progress).map(entry).collect(),
        levels: Levels::new(speeds),
    })
}

/// All states in the first hyperperiod whose jobs have finished, with any plain ticks left.
pub fn every_idle_state(speeds: &[u64], plan: &[Task]) -> Vec<[u8; STATE_BYTES]> {
    let levels = Levels::new(speeds);
    let judged = judge_list(&levels, plan).expect("the plan is an accepted one");
    let progress = every_plain_left(plan, levels.speed(judged.nominal));
    let at = |clock| {
        let all = progress.iter();
        all.map(move |progress| forged(speeds, plan, clock, None, progress))
    };
    (0..judged.hyperperiod).flat_map(at).collect()
}

/// No work left, and each number of plain ticks up to the allotments.
fn every_plain_left(plan: &[Task], nominal: u64) -> Vec<Vec<Progress>> {
    let mut progress = vec![Vec::new()];
    for task in plan {
        let longer = |before: &Vec<Progress>| {
            let before = before.clone();
            let full = allotment(task, nominal);
            (0..=full).map(move |left| [&before[..], &[(0, 0, left)]].concat())
        };
        progress = progress.iter().flat_map(longer).collect();
    }
    progress
}
