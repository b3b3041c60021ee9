//! What the bench program's listing tells about a run, read from its lines alone.

use sim::{listing, read_plan, Task};
use std::collections::BTreeMap;
use tools::bench::{split, unpack_pass};

/// Ticks that went to a task at a level, without a break.
#[derive(Clone, Copy, PartialEq, Eq, Debug)]
pub struct Ran {
    pub task: usize,
    pub level: usize,
    pub from: u64,
    pub to: u64,
    /// How many of them, the first ones, were fixed ticks: a job has so many first as its task says.
    pub fixed: u64,
    pub finished: bool,
}

#[derive(Default, Debug)]
pub struct Told {
    pub ran: Vec<Ran>,
    pub idle: Vec<(u64, u64)>,
    /// The clock at each refused pass, and its number.
    pub refused: Vec<(u64, u32)>,
    pub clock: u64,
    /// The ticks that each job has had, by task and arrival.
    had: BTreeMap<(usize, u64), u64>,
}

/// Each line after the first two answers one pass. An accepted pass ran what the last order before
/// it said, up to the new clock.
pub fn told(input: &[u8]) -> Told {
    let text = String::from_utf8(listing(input)).unwrap();
    let parts = split(input);
    let (tasks, _) = read_plan(parts.levels, parts.plan).unwrap();
    let mut lines = text
        .lines()
        .skip(1)
        .map(|line| line.split(' ').collect::<Vec<_>>());
    let mut order = lines.next().unwrap();
    let mut told = Told::default();
    for (place, line) in lines.enumerate() {
        if line[0] == "refused" {
            told.refused.push((told.clock, line[1].parse().unwrap()));
            continue;
        }
        let to = line[0].parse().unwrap();
        let finished = unpack_pass(&parts.passes[2 * place..]).finished;
        enter(&mut told, &order, &tasks, to, finished);
        told.clock = to;
        order = line;
    }
    told
}

fn enter(told: &mut Told, order: &[&str], tasks: &[Task], to: u64, finished: bool) {
    let from = told.clock;
    if order[1] == "idle" {
        match told.idle.last_mut() {
            Some(last) if last.1 == from => last.1 = to,
            _ => told.idle.push((from, to)),
        }
        return;
    }
    let task: usize = order[2].parse().unwrap();
    let level: usize = order[3].parse().unwrap();
    let period = tasks[task].period;
    let new_job = from % period == 0;
    let had = told.had.entry((task, from / period * period)).or_default();
    let fixed = tasks[task].fixed.saturating_sub(*had).min(to - from);
    *had += to - from;
    match told.ran.last_mut() {
        Some(last)
            if !last.finished
                && !new_job
                && (last.task, last.level, last.to) == (task, level, from) =>
        {
            last.to = to;
            last.fixed += fixed;
            last.finished = finished;
        }
        _ => told.ran.push(Ran {
            task,
            level,
            from,
            to,
            fixed,
            finished,
        }),
    }
}
