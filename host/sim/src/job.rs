//! What is left of a job, the time that it needs, and what some ticks leave of it. 02, No. 2: not all
//! of a job scales with the level, as some of its ticks are the same at every one.

use crate::numbers::div_ceil;

/// What a job has still to do.
#[derive(Clone, Copy, PartialEq, Eq, Debug)]
pub struct Left {
    pub fixed: u64,
    pub work: u64,
}

impl Left {
    /// Of a finished job: "work left (3; 0 once finished)", and fixed ticks left "zero in a finished
    /// job".
    pub const NOTHING: Left = Left { fixed: 0, work: 0 };

    /// A job is open in the dispatcher while it has work left. Its fixed ticks go first, so work is
    /// the last that it has.
    pub fn is_open(self) -> bool {
        self.work > 0
    }

    /// Whether it can be what is left of a job that had so much to do: "work left at most the worst
    /// case", and fixed ticks left "no more than the fixed ticks".
    pub fn is_within(self, whole: Left) -> bool {
        self.work <= whole.work && self.fixed <= whole.fixed
    }
}

/// "Time needed becomes fixed ticks left plus work left divided by speed, rounded up".
pub fn time_needed(left: Left, speed: u64) -> u64 {
    left.fixed + div_ceil(left.work, speed)
}

/// What so many ticks at a speed leave of a job that they don't finish: "a job uses its fixed ticks
/// first", and for each tick after these "its work left falls by" the level's speed. The ticks are
/// fewer than the job needs (14), so some work is left.
pub fn left_after(left: Left, d: u64, speed: u64) -> Left {
    let on_fixed = d.min(left.fixed);
    let on_work = d - on_fixed;
    Left {
        fixed: left.fixed - on_fixed,
        work: left.work - on_work * speed,
    }
}
