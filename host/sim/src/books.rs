//! 01, "The run in demand 3": the two job books, and the demand checked on them, with the exception
//! that 02's No. 4 makes for a lone job; what its No. 5 promises of good pairs; and what its No. 6 says
//! of the total. Nothing in them comes from the state block.

use crate::dispatch::Order;
use crate::job::{left_after, time_needed, Left};
use crate::levels::Levels;
use crate::pairs::pairs_in;
use crate::plan::{judge_list, Task};
use crate::schedule::{deadline, first_arrival_after, PlainJob, Schedule};

/// "A job is its task and its arrival. It is open from its arrival until the book closes it".
#[derive(Clone, Copy, PartialEq, Eq, Debug)]
pub struct BookJob {
    pub task: usize,
    pub arrival: u64,
    pub open: bool,
}

/// A job that was closed, and the clock then.
#[derive(Clone, Copy, PartialEq, Eq, Debug)]
pub struct Closed {
    pub task: usize,
    pub arrival: u64,
    pub tick: u64,
}

/// The dispatcher's book, "fed the plan, the passes and the replies". Beside the jobs it keeps what
/// is left of each task's latest one; the speeds say what the ticks at a level leave.
#[derive(Clone, Debug)]
pub struct ActualBook {
    levels: Levels,
    plan: Vec<Task>,
    clock: u64,
    jobs: Vec<BookJob>,
    left: Vec<Left>,
    running: Option<Running>,
    last_closed: Option<Closed>,
}

/// The task and the level of "the order last returned".
#[derive(Clone, Copy, Debug)]
struct Running {
    task: usize,
    level: usize,
}

impl ActualBook {
    /// Opened with an accepted plan and the order that starting returned.
    pub fn new(levels: &Levels, plan: &[Task], first: Order) -> ActualBook {
        let mut book = ActualBook {
            levels: levels.clone(),
            plan: plan.to_vec(),
            clock: 0,
            jobs: Vec::new(),
            left: vec![Left::NOTHING; plan.len()],
            running: running_in(first),
            last_closed: None,
        };
        book.let_jobs_arrive();
        book
    }

    pub fn clock(&self) -> u64 {
        self.clock
    }

    pub fn jobs(&self) -> Vec<BookJob> {
        self.jobs.clone()
    }

    /// What is left of each task's latest job: all of it at its arrival, less what the accepted
    /// passes since then gave it at the levels ordered, and nothing once it is closed.
    pub fn left(&self) -> &[Left] {
        &self.left
    }

    /// The task and the arrival of the job that the next pass is about: "the running task is the one
    /// named by the order last returned before it", and its job is that task's latest. Nothing for an
    /// idle order.
    pub fn running_job(&self) -> Option<(usize, u64)> {
        let task = self.running?.task;
        Some((task, self.latest_arrival(task)))
    }

    /// 02, No. 4: the job's "time left at the order's level", the order being the one last returned.
    /// Nothing for a job that this order doesn't run.
    pub fn time_left(&self, job: &BookJob) -> Option<u64> {
        let running = self.running?;
        let runs = self.running_job() == Some((job.task, job.arrival));
        let speed = self.levels.speed(running.level);
        runs.then(|| time_needed(self.left[job.task], speed))
    }

    /// The job closed last, at the end of the pass that said so: "whether the running job finished at
    /// their end".
    pub fn last_closed(&self) -> Option<Closed> {
        self.last_closed
    }

    /// Enters a pass and the reply to it.
    pub fn pass(&mut self, d: u32, finished: bool, reply: Result<Order, u32>) {
        let order = match reply {
            Ok(order) => order,
            // "A refused pass changes neither book."
            Err(_) => return,
        };
        // "An accepted pass that says finished closes that task's latest job; then the clock
        // rises by d." With an idle order there is no running task, so nothing to close.
        if let Some(running) = self.running {
            self.take_from_job(running, u64::from(d));
            if finished {
                self.close_latest_job(running.task, u64::from(d));
            }
        }
        for _ in 0..d {
            self.clock += 1;
            self.let_jobs_arrive();
        }
        // For the next pass, this is "the order last returned before it".
        self.running = running_in(order);
    }

    /// Drops the closed jobs, for long runs. A closed job says nothing more in demand 3.
    pub fn forget_closed(&mut self) {
        self.jobs.retain(|job| job.open);
    }

    /// The ticks of a pass go to the running task's latest job. A dispatcher that is held to the book
    /// may let it run for longer than it needs; then nothing is left of it.
    fn take_from_job(&mut self, running: Running, d: u64) {
        let speed = self.levels.speed(running.level);
        let left = &mut self.left[running.task];
        *left = if d < time_needed(*left, speed) {
            left_after(*left, d, speed)
        } else {
            Left::NOTHING
        };
    }

    fn latest_arrival(&self, task: usize) -> u64 {
        let period = self.plan[task].period;
        self.clock / period * period
    }

    /// The latest job is found by its arrival, not by its place in the list: it may be closed and
    /// forgotten already, and then an older open one mustn't be closed in its stead. The clock is
    /// still the one before the d ticks at whose end it finished.
    fn close_latest_job(&mut self, task: usize, d: u64) {
        self.left[task] = Left::NOTHING;
        let arrival = self.latest_arrival(task);
        let tick = self.clock + d;
        for job in &mut self.jobs {
            if job.task == task && job.arrival == arrival && job.open {
                job.open = false;
                self.last_closed = Some(Closed {
                    task,
                    arrival,
                    tick,
                });
            }
        }
    }

    fn let_jobs_arrive(&mut self) {
        for task in 0..self.plan.len() {
            if self.clock % self.plan[task].period == 0 {
                self.jobs.push(BookJob {
                    task,
                    arrival: self.clock,
                    open: true,
                });
                self.left[task] = self.plan[task].whole_job();
            }
        }
    }
}

fn running_in(order: Order) -> Option<Running> {
    match order {
        Order::Run { task, level, .. } => Some(Running {
            task: usize::from(task),
            level: usize::from(level),
        }),
        Order::Idle { .. } => None,
    }
}

/// The plain schedule's book, "fed the plan and the d of each accepted pass". The speeds say how
/// long the allotments are.
#[derive(Clone, Debug)]
pub struct PlainBook {
    schedule: Schedule,
    /// Of each task the job closed last.
    last_closed: Vec<Option<Closed>>,
}

impl PlainBook {
    /// Opened with an accepted plan.
    pub fn new(levels: &Levels, plan: &[Task]) -> PlainBook {
        let judged = judge_list(levels, plan).expect("a book is kept for an accepted plan only");
        PlainBook {
            schedule: Schedule::new(levels, plan, judged.nominal),
            last_closed: vec![None; plan.len()],
        }
    }

    pub fn clock(&self) -> u64 {
        self.schedule.clock()
    }

    pub fn jobs(&self) -> Vec<BookJob> {
        let mut jobs = Vec::new();
        for job in self.schedule.jobs() {
            jobs.push(BookJob {
                task: job.task,
                arrival: job.arrival,
                open: job.left > 0,
            });
        }
        jobs
    }

    /// The open jobs with their ticks left, most urgent first: what the queue shown has to be.
    pub fn open_jobs(&self) -> Vec<PlainJob> {
        self.schedule.open_jobs()
    }

    /// The ticks that all open jobs together have still to get.
    pub fn ticks_left(&self) -> u64 {
        self.open_jobs().iter().map(|job| job.left).sum()
    }

    /// Enters a pass: d ticks of the plain schedule if it was accepted, nothing if not.
    pub fn pass(&mut self, d: u32, reply: Result<Order, u32>) {
        if reply.is_err() {
            return;
        }
        for _ in 0..d {
            if let Some(job) = self.schedule.tick() {
                self.last_closed[job.task] = Some(Closed {
                    task: job.task,
                    arrival: job.arrival,
                    tick: self.schedule.clock(),
                });
            }
        }
    }

    /// When a job closed here, if it is the one of its task that closed last. That is all that is
    /// asked about: an older one is past its deadline.
    pub fn plain_finish(&self, task: usize, arrival: u64) -> Option<u64> {
        let closed = self.last_closed[task].filter(|closed| closed.arrival == arrival);
        closed.map(|closed| closed.tick)
    }

    /// Drops the closed jobs, for long runs.
    pub fn forget_closed(&mut self) {
        self.schedule.forget_closed();
    }
}

/// Demand 3, as it stands after the passes entered so far: a job open in the dispatcher is open in the
/// plain schedule, but for 02's exception, and "all deadlines hold".
pub fn demand3_holds(plan: &[Task], actual: &ActualBook, plain: &PlainBook) -> Result<(), String> {
    if actual.clock() != plain.clock() {
        return Err(format!("clocks {} and {}", actual.clock(), plain.clock()));
    }
    for job in past_plain_finish(actual, plain) {
        if !may_use_the_gap(plan, actual, &job) {
            return Err(format!(
                "open in the dispatcher, not in the plain schedule: {job:?}"
            ));
        }
    }
    deadlines_hold(plan, actual, plain)
}

/// The jobs that are open in the dispatcher's book and not in the plain one. By demand 3 there is one
/// at most.
pub fn past_plain_finish(actual: &ActualBook, plain: &PlainBook) -> Vec<BookJob> {
    let plain_jobs = plain.jobs();
    let mut past = actual.jobs();
    past.retain(|job| job.open && !plain_jobs.contains(job));
    past
}

/// 02, No. 4: "after a pass, accepted or refused, a lone job may be open and its plain job closed, if
/// its time left at the order's level is at most the ticks to the next arrival." A lone job is the only
/// one open in the dispatcher's book, so one that was replaced in the state counts as well. Of a job
/// that was told to go on when all of its time was over, none is left; passing refuses that (14), and
/// at the next arrival it isn't alone.
fn may_use_the_gap(plan: &[Task], actual: &ActualBook, job: &BookJob) -> bool {
    let lone = actual
        .jobs()
        .iter()
        .all(|other| !other.open || other == job);
    let gap = first_arrival_after(plan, actual.clock()) - actual.clock();
    match actual.time_left(job) {
        Some(left) => lone && left <= gap,
        None => false,
    }
}

/// What else 02's No. 4 says of a run, as it stands after the passes entered so far. To be asked after
/// each pass: of the closings it looks at the last one, and of the arrival ticks at one where the clock
/// stands. No pass steps over an arrival (12).
pub fn lone_finishes_hold(
    plan: &[Task],
    actual: &ActualBook,
    plain: &PlainBook,
) -> Result<(), String> {
    arrivals_hold(plan, actual, plain)?;
    last_finish_holds(plan, actual, plain)?;
    deadlines_hold(plan, actual, plain)
}

/// "At each arrival tick every older open job is still open in the plain schedule".
pub fn arrivals_hold(plan: &[Task], actual: &ActualBook, plain: &PlainBook) -> Result<(), String> {
    let clock = actual.clock();
    let arrival_tick = plan.iter().any(|task| clock % task.period == 0);
    for job in past_plain_finish(actual, plain) {
        if arrival_tick && job.arrival < clock {
            return Err(format!(
                "open at the arrival tick {clock}, not in the plain schedule: {job:?}"
            ));
        }
    }
    Ok(())
}

/// A job that closed after its plain finish, the clock at that finish, and the first arrival after it.
#[derive(Clone, Copy, PartialEq, Eq, Debug)]
pub struct FinishPastPlain {
    pub closed: Closed,
    pub plain_finish: u64,
    pub first_arrival: u64,
}

/// The job that the dispatcher closed last, if its plain finish was before that.
pub fn last_finish_past_plain(
    plan: &[Task],
    actual: &ActualBook,
    plain: &PlainBook,
) -> Option<FinishPastPlain> {
    let closed = actual.last_closed()?;
    let plain_finish = plain.plain_finish(closed.task, closed.arrival)?;
    (plain_finish < closed.tick).then(|| FinishPastPlain {
        closed,
        plain_finish,
        first_arrival: first_arrival_after(plan, plain_finish),
    })
}

/// "A lone job that closes after its plain finish closes no later than the first arrival after that
/// plain finish." Here it is asked of every job: by demand 3 only a lone one does so.
pub fn last_finish_holds(
    plan: &[Task],
    actual: &ActualBook,
    plain: &PlainBook,
) -> Result<(), String> {
    match last_finish_past_plain(plan, actual, plain) {
        Some(past) if past.closed.tick > past.first_arrival => Err(format!(
            "closed after the first arrival after its plain finish: {past:?}"
        )),
        _ => Ok(()),
    }
}

/// 02, No. 5, of a list of pairs as starting takes it and the book as it stands before a pass that is
/// accepted: if the pass is about a job of a pair's later task, "the earlier's job that arrived at the
/// same tick" is closed. That is more than "no job of the later task first runs while" it is open: it
/// isn't open in any later pass of that job either. A job that isn't in the book's list any more was
/// closed, and forgotten.
pub fn pairs_hold(actual: &ActualBook, pairs: &[u8]) -> Result<(), String> {
    let (running, arrival) = match actual.running_job() {
        Some(job) => job,
        None => return Ok(()),
    };
    for pair in pairs_in(pairs) {
        let open = BookJob {
            task: pair.earlier,
            arrival,
            open: true,
        };
        if pair.later == running && actual.jobs.contains(&open) {
            return Err(format!(
                "open while task {running}'s job of the same arrival runs: {open:?}"
            ));
        }
    }
    Ok(())
}

/// 02, No. 6, of what `queued` answers after the passes entered so far, refused ones too: "It equals
/// the full sum after the start and every accepted pass." The sum is taken over the ready queue of the
/// plain schedule. The state of an accepted start has the bytes that are asked for, so a refusal is as
/// wrong as another total.
pub fn total_holds(plain: &PlainBook, answer: Result<u32, u32>) -> Result<(), String> {
    let sum = plain.ticks_left();
    match answer {
        Ok(total) if u64::from(total) == sum => Ok(()),
        _ => Err(format!(
            "{sum} plain ticks queued at clock {}, and the answer is {answer:?}",
            plain.clock()
        )),
    }
}

/// "all deadlines hold": a job whose deadline has come is closed, in both books.
pub fn deadlines_hold(plan: &[Task], actual: &ActualBook, plain: &PlainBook) -> Result<(), String> {
    no_open_job_is_late(plan, actual.clock(), &actual.jobs())
        .map_err(|job| format!("late in the dispatcher: {job}"))?;
    no_open_job_is_late(plan, plain.clock(), &plain.jobs())
        .map_err(|job| format!("late in the plain schedule: {job}"))
}

/// "Its deadline has come when it is at most the clock."
fn no_open_job_is_late(plan: &[Task], clock: u64, jobs: &[BookJob]) -> Result<(), String> {
    for job in jobs {
        if job.open && deadline(plan, job.task, job.arrival) <= clock {
            return Err(format!("{job:?} at clock {clock}"));
        }
    }
    Ok(())
}
