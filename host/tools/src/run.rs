//! A bench input led through the simulator: what ran when and at which level, when nothing did,
//! and which passes were refused.

use crate::bench::{split, unpack_pass, LARGEST_INPUT};
use crate::script::Pass;
use sim::dispatch::{pass, show, start, Order};
use sim::job::{time_needed, Left};
use sim::layout::{ENTRIES, STATE_BYTES};
use sim::level_block::read_levels;
use sim::levels::Levels;
use sim::pairs::{pairs_in, Pair};
use sim::plan::{read_plan, Judged, Task};
use sim::state::unpack;

/// The ticks from one clock reading up to another.
#[derive(Clone, Copy, PartialEq, Eq, Debug)]
pub struct Span {
    pub from: u64,
    pub to: u64,
}

impl Span {
    pub fn ticks(&self) -> u64 {
        self.to - self.from
    }

    /// The first so many ticks of it.
    pub fn first(&self, ticks: u64) -> Span {
        Span {
            from: self.from,
            to: self.from + ticks,
        }
    }

    /// The last so many ticks of it.
    pub fn last(&self, ticks: u64) -> Span {
        Span {
            from: self.to - ticks,
            to: self.to,
        }
    }

    /// The part of it that lies in the other one, if any does.
    pub fn within(&self, other: Span) -> Option<Span> {
        let from = self.from.max(other.from);
        let to = self.to.min(other.to);
        (from < to).then_some(Span { from, to })
    }
}

/// A job running at one level without a break.
#[derive(Clone, Copy, PartialEq, Eq, Debug)]
pub struct Stretch {
    pub task: usize,
    pub arrival: u64,
    pub level: usize,
    pub span: Span,
    /// How many of its ticks, the first ones, were fixed ticks.
    pub fixed: u64,
    /// How many of its ticks, the last ones, came after the job's plain finish (02, No. 4).
    pub past_plain: u64,
    /// If the job finished at the end of it: how many ticks more its worst case would have taken
    /// at this level.
    pub early: Option<u64>,
}

/// A refused pass: the clock at which it came, and the number it got.
#[derive(Clone, Copy, PartialEq, Eq, Debug)]
pub struct Refusal {
    pub tick: u64,
    pub number: u32,
}

#[derive(Clone, Debug)]
pub struct Run {
    pub levels: Levels,
    pub tasks: Vec<Task>,
    /// The pairs that it was started with.
    pub pairs: Vec<Pair>,
    pub judged: Judged,
    pub stretches: Vec<Stretch>,
    pub idle: Vec<Span>,
    pub refusals: Vec<Refusal>,
    /// How many passes were accepted.
    pub accepted: usize,
    /// Where the run ends, the order that stands there, and of its job the fixed ticks left and the
    /// ticks to its plain finish.
    pub clock: u64,
    pub order: Order,
    pub fixed_left: u64,
    pub to_plain_finish: u64,
}

/// The run of a bench input, or the number that the whole input is refused with. 02, No. 5, of the list
/// of pairs: "the bench program's is empty".
pub fn follow(input: &[u8]) -> Result<Run, u32> {
    follow_with_pairs(input, &[])
}

/// The same, started with a list of pairs. They change nothing in the run, but may be refused.
pub fn follow_with_pairs(input: &[u8], pairs: &[u8]) -> Result<Run, u32> {
    if input.len() > LARGEST_INPUT {
        return Err(17);
    }
    let parts = split(input);
    let levels = read_levels(parts.levels)?;
    let (tasks, judged) = read_plan(&levels, parts.plan)?;
    let mut state = [0; STATE_BYTES];
    let order = start(&levels, parts.plan, pairs, &mut state)?;
    let mut run = Run {
        levels,
        tasks,
        pairs: pairs_in(pairs),
        judged,
        stretches: Vec::new(),
        idle: Vec::new(),
        refusals: Vec::new(),
        accepted: 0,
        clock: 0,
        order,
        fixed_left: 0,
        to_plain_finish: 0,
    };
    let mut passes = parts.passes.chunks_exact(2);
    for bytes in &mut passes {
        run.put(unpack_pass(bytes), &mut state);
    }
    if !passes.remainder().is_empty() {
        run.refuse(16);
    }
    run.fixed_left = run.left_to_run(&state).fixed;
    run.to_plain_finish = run.ticks_to_plain_finish(&state);
    Ok(run)
}

impl Run {
    /// Where the hold of the last order ends.
    pub fn end_of_order(&self) -> u64 {
        let hold = match self.order {
            Order::Run { hold, .. } | Order::Idle { hold } => hold,
        };
        self.clock + u64::from(hold)
    }

    /// The arrival of the task's latest job, which is the one that can run.
    pub fn latest_arrival(&self, task: usize) -> u64 {
        let period = self.tasks[task].period;
        self.clock / period * period
    }

    fn refuse(&mut self, number: u32) {
        let tick = self.clock;
        self.refusals.push(Refusal { tick, number });
    }

    /// Puts a pass to the simulator and enters what came of it.
    fn put(&mut self, told: Pass, state: &mut [u8]) {
        let left = self.left_to_run(state);
        let to_plain_finish = self.ticks_to_plain_finish(state);
        let next = match pass(state, told.d, told.finished) {
            Ok(next) => next,
            Err(number) => return self.refuse(number),
        };
        let span = Span {
            from: self.clock,
            to: self.clock + u64::from(told.d),
        };
        match self.order {
            Order::Idle { .. } => self.add_idle(span),
            Order::Run { task, level, .. } => {
                let (task, level) = (usize::from(task), usize::from(level));
                let needed = time_needed(left, self.levels.speed(level));
                self.add_stretch(Stretch {
                    task,
                    arrival: self.latest_arrival(task),
                    level,
                    span,
                    fixed: left.fixed.min(span.ticks()),
                    past_plain: span.ticks().saturating_sub(to_plain_finish),
                    early: told.finished.then(|| needed - span.ticks()),
                })
            }
        }
        self.accepted += 1;
        self.clock = span.to;
        self.order = next;
    }

    /// What is left of the job that the order runs; nothing if it is to stay idle.
    fn left_to_run(&self, state: &[u8]) -> Left {
        let task = match self.order {
            Order::Run { task, .. } => usize::from(task),
            Order::Idle { .. } => return Left::NOTHING,
        };
        let state = unpack(state).expect("the simulator leaves a state that can be unpacked");
        state.entries[task].left
    }

    /// In how many ticks the job that the order runs is done in the plain schedule, if nothing arrives
    /// before: those of the queue up to the job. None if it isn't in the queue, as it is done there.
    fn ticks_to_plain_finish(&self, state: &[u8]) -> u64 {
        let running = match self.order {
            Order::Run { task, .. } => task,
            Order::Idle { .. } => return 0,
        };
        let mut queue = [0; 3 * ENTRIES];
        let length = show(state, &mut queue).expect("the simulator leaves a sound state");
        let mut ticks = 0;
        for entry in queue[..length].chunks(3) {
            ticks += u64::from(u16::from_be_bytes([entry[1], entry[2]]));
            if entry[0] == running {
                return ticks;
            }
        }
        0
    }

    /// A stretch that goes on where the last one stopped, of the same job at the same level,
    /// makes that one longer.
    fn add_stretch(&mut self, stretch: Stretch) {
        if let Some(last) = self.stretches.last_mut() {
            let same_job = last.task == stretch.task && last.arrival == stretch.arrival;
            if same_job && last.level == stretch.level && last.span.to == stretch.span.from {
                last.span.to = stretch.span.to;
                last.fixed += stretch.fixed;
                last.past_plain += stretch.past_plain;
                last.early = stretch.early;
                return;
            }
        }
        self.stretches.push(stretch);
    }

    fn add_idle(&mut self, span: Span) {
        match self.idle.last_mut() {
            Some(last) if last.to == span.from => last.to = span.to,
            _ => self.idle.push(span),
        }
    }
}
