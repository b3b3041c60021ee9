//! The plain schedule: "each tick goes to the most urgent open job, and a job closes when it has
//! had its allotment." No job is replaced here.

use crate::job::time_needed;
use crate::levels::Levels;
use crate::plan::Task;

/// Deadline, arrival, task number: "The more urgent of two jobs has the earlier deadline, then
/// the earlier arrival, then the lower task number". So the smaller of two is the more urgent.
pub type Urgency = (u64, u64, usize);

/// "the deadline is its next arrival", one period after the arrival.
pub fn deadline(tasks: &[Task], task: usize, arrival: u64) -> u64 {
    arrival + tasks[task].period
}

/// The first arrival of any task strictly after a tick.
pub fn first_arrival_after(tasks: &[Task], tick: u64) -> u64 {
    let mut first = u64::MAX;
    for task in tasks {
        first = first.min((tick / task.period + 1) * task.period);
    }
    first
}

pub fn urgency(tasks: &[Task], task: usize, arrival: u64) -> Urgency {
    (deadline(tasks, task, arrival), arrival, task)
}

/// "A task's allotment is its worst case's time at the nominal level", of which this is the speed.
pub fn allotment(task: &Task, nominal: u64) -> u64 {
    time_needed(task.whole_job(), nominal)
}

/// A job with the ticks that it has still to get; it is open while there are some.
#[derive(Clone, Copy, PartialEq, Eq, Debug)]
pub struct PlainJob {
    pub task: usize,
    pub arrival: u64,
    pub left: u64,
}

#[derive(Clone, Debug)]
pub struct Schedule {
    tasks: Vec<Task>,
    /// The nominal level's speed.
    nominal: u64,
    clock: u64,
    jobs: Vec<PlainJob>,
}

impl Schedule {
    /// At tick 0, with every task's first job just arrived.
    pub fn new(levels: &Levels, tasks: &[Task], nominal: usize) -> Schedule {
        let mut schedule = Schedule {
            tasks: tasks.to_vec(),
            nominal: levels.speed(nominal),
            clock: 0,
            jobs: Vec::new(),
        };
        schedule.let_jobs_arrive();
        schedule
    }

    pub fn clock(&self) -> u64 {
        self.clock
    }

    /// Every job so far, or since closed ones were last forgotten.
    pub fn jobs(&self) -> &[PlainJob] {
        &self.jobs
    }

    /// The open jobs, most urgent first.
    pub fn open_jobs(&self) -> Vec<PlainJob> {
        let mut open: Vec<PlainJob> = self
            .jobs
            .iter()
            .copied()
            .filter(|job| job.left > 0)
            .collect();
        open.sort_by_key(|job| urgency(&self.tasks, job.task, job.arrival));
        open
    }

    /// One tick: the most urgent open job gets it, or it is lost; then the clock rises by 1 and
    /// the jobs due there arrive. Returns the job that closed with it, if one did.
    pub fn tick(&mut self) -> Option<PlainJob> {
        let mut closed = None;
        if let Some(place) = self.most_urgent_open() {
            let job = &mut self.jobs[place];
            job.left -= 1;
            closed = (job.left == 0).then_some(*job);
        }
        self.clock += 1;
        self.let_jobs_arrive();
        closed
    }

    /// Drops the closed jobs from the list, for long runs. They get no more ticks anyway.
    pub fn forget_closed(&mut self) {
        self.jobs.retain(|job| job.left > 0);
    }

    /// The place in the list of the most urgent open job.
    fn most_urgent_open(&self) -> Option<usize> {
        let mut best: Option<usize> = None;
        for place in 0..self.jobs.len() {
            if self.jobs[place].left == 0 {
                continue;
            }
            match best {
                Some(other) if self.urgency_at(other) < self.urgency_at(place) => {}
                _ => best = Some(place),
            }
        }
        best
    }

    fn urgency_at(&self, place: usize) -> Urgency {
        let job = self.jobs[place];
        urgency(&self.tasks, job.task, job.arrival)
    }

    /// "Every task has a job arriving at tick 0 and at each multiple of its period".
    fn let_jobs_arrive(&mut self) {
        for task in 0..self.tasks.len() {
            if self.clock % self.tasks[task].period == 0 {
                let left = allotment(&self.tasks[task], self.nominal);
                self.jobs.push(PlainJob {
                    task,
                    arrival: self.clock,
                    left,
                });
            }
        }
    }
}
