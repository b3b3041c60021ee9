//! The canonical ("plain") schedule as stretches of ticks, from the simulator's schedule.

use crate::run::Span;
use sim::levels::Levels;
use sim::numbers::div_ceil;
use sim::plan::{Judged, Task};
use sim::schedule::{allotment, Schedule};

/// A job getting ticks of the canonical schedule without a break.
#[derive(Clone, Copy, PartialEq, Eq, Debug)]
pub struct Turn {
    pub task: usize,
    pub arrival: u64,
    pub span: Span,
    /// How many of its ticks, the first ones, are fixed ticks.
    pub fixed: u64,
}

/// All turns in a window, cut to it.
///
/// At each multiple of the hyperperiod all jobs so far are closed, as their deadlines have come,
/// and every task has an arrival, as at tick 0. So one hyperperiod tells all the others.
pub fn turns_within(levels: &Levels, tasks: &[Task], judged: Judged, window: Span) -> Vec<Turn> {
    let round = judged.hyperperiod;
    let schedule = Schedule::new(levels, tasks, judged.nominal);
    let nominal = levels.speed(judged.nominal);
    let pattern = first_turns(schedule, tasks, nominal, round.min(window.to));
    let mut turns = Vec::new();
    for shift in (window.from / round..div_ceil(window.to, round)).map(|nth| nth * round) {
        for turn in &pattern {
            let span = Span {
                from: turn.span.from + shift,
                to: turn.span.to + shift,
            };
            let fixed = span.first(turn.fixed).within(window);
            if let Some(span) = span.within(window) {
                let arrival = turn.arrival + shift;
                turns.push(Turn {
                    arrival,
                    span,
                    fixed: fixed.map_or(0, |part| part.ticks()),
                    ..*turn
                });
            }
        }
    }
    turns
}

/// The turns of the first so many ticks, from a schedule at tick 0 and the nominal level's speed.
fn first_turns(mut schedule: Schedule, tasks: &[Task], nominal: u64, ticks: u64) -> Vec<Turn> {
    let mut turns: Vec<Turn> = Vec::new();
    for tick in 0..ticks {
        // "Each tick goes to the most urgent open job".
        if let Some(job) = schedule.open_jobs().first() {
            let task = &tasks[job.task];
            let had = allotment(task, nominal) - job.left;
            let turn = Turn {
                task: job.task,
                arrival: job.arrival,
                span: Span {
                    from: tick,
                    to: tick + 1,
                },
                fixed: u64::from(had < task.fixed),
            };
            add_tick(&mut turns, turn);
        }
        schedule.tick();
        schedule.forget_closed();
    }
    turns
}

/// A tick that goes on where the last turn stopped, for the same job, makes that turn longer.
fn add_tick(turns: &mut Vec<Turn>, tick: Turn) {
    if let Some(last) = turns.last_mut() {
        let same_job = (last.task, last.arrival) == (tick.task, tick.arrival);
        if same_job && last.span.to == tick.span.from {
            last.span.to = tick.span.to;
            last.fixed += tick.fixed;
            return;
        }
    }
    turns.push(tick);
}
