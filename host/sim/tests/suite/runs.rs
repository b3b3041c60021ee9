//! Random runs: plans led through passes, with demand 3, what 02's No. 4 says of the finishes, No. 6 of
//! the total, No. 7 of the valve and No. 8 of the level, the queue and the order checked after each
//! against what the books alone say.

use crate::common::{floor_tasks, queue};
use sim::books::{
    demand3_holds, last_finish_past_plain, lone_finishes_hold, past_plain_finish, total_holds,
    ActualBook, BookJob, PlainBook,
};
use sim::dispatch::{pass, queued, show, start, Order};
use sim::job::{time_needed, Left};
use sim::knee::{most_apart, refresh_holds, Refresh, VALVE};
use sim::layout::STATE_BYTES;
use sim::levels::Levels;
use sim::plan::{judge_list, Task};
use sim::random::blocks::block_of;
use sim::random::passes::any_pass;
use sim::random::plans::{full_plan, plan_at_level, plan_at_level_within, valve_plan, SMALL_BASES};
use sim::random::tables::{some_levels, some_or_base_levels};
use sim::random::Random;
use sim::schedule::urgency;
use sim::state::unpack;

/// What went on in the runs, to be sure that they met what they are for.
#[derive(Default, Debug)]
struct Tally {
    runs: u64,
    accepted: u64,
    refused: u64,
    finished_early: u64,
    stayed: u64,
    interrupted: u64,
    below_nominal: u64,
    idle: u64,
    /// Runs of plans that have fixed ticks.
    with_fixed: u64,
    /// Passes that end with fixed ticks of the running job left: it ended there, goes on, or was
    /// interrupted by an arrival.
    finished_in_fixed: u64,
    stayed_in_fixed: u64,
    interrupted_in_fixed: u64,
    lone: LoneTally,
    total: TotalTally,
    valve: ValveTally,
    floors: FloorTally,
}

/// What 02's No. 8 is about.
#[derive(Default, Debug)]
struct FloorTally {
    /// Runs of plans that have a floor.
    runs: u64,
    /// New orders for a task with a floor, at a level that without it would be lower: up to nominal, and
    /// above it. Of a lone job, and of one in company. And those that the floor leaves as they are.
    raised: u64,
    above_nominal: u64,
    alone: u64,
    in_company: u64,
    left_alone: u64,
    /// Passes, accepted and refused, at whose end such an order above nominal stands.
    stands: u64,
    stands_refused: u64,
    /// After these, a job is open past its plain finish in a plan that has a floor.
    past_plain: u64,
    /// A job that finished early with a level that its floor had raised.
    early: u64,
    /// The valve, task 0, was given a level above nominal.
    valve_above: u64,
}

impl FloorTally {
    /// Each of these at least so many times.
    #[track_caller]
    fn wants(&self, runs: u64, times: u64) {
        assert!(self.runs > runs, "{self:?}");
        let seen = [
            self.raised,
            self.above_nominal,
            self.alone,
            self.in_company,
            self.left_alone,
            self.stands,
            self.stands_refused,
            self.past_plain,
            self.early,
            self.valve_above,
        ];
        assert!(seen.iter().all(|seen| *seen > times), "{self:?}");
    }
}

/// What 02's No. 7 is about.
#[derive(Default, Debug)]
struct ValveTally {
    /// Passes that finished a job of the valve's whose predecessor had finished too; where the period is
    /// longer than a tick, those as far after it as may be, and those a tick after it.
    consecutive: u64,
    farthest: u64,
    nearest: u64,
    /// Passes, accepted and refused, at whose end the next job is awaited, and one tick more is the
    /// last.
    last_tick: u64,
    last_tick_refused: u64,
}

impl ValveTally {
    /// After a pass.
    fn count(&mut self, valve: &Refresh, finished: bool, accepted: bool) {
        let most = most_apart(valve.period());
        if let (true, Some((first, second))) = (finished, valve.consecutive().last()) {
            let apart = second - first;
            self.consecutive += 1;
            self.farthest += u64::from(most > 1 && apart == most);
            self.nearest += u64::from(most > 1 && apart == 1);
        }
        let waited = valve
            .awaiting()
            .iter()
            .any(|it| valve.clock() - it + 1 == most);
        self.last_tick += u64::from(most > 1 && waited && accepted);
        self.last_tick_refused += u64::from(most > 1 && waited && !accepted);
    }

    /// So many finishes, and each of the others at least so many times.
    #[track_caller]
    fn wants(&self, consecutive: u64, times: u64) {
        assert!(self.consecutive > consecutive, "{self:?}");
        let seen = [
            self.farthest,
            self.nearest,
            self.last_tick,
            self.last_tick_refused,
        ];
        assert!(seen.iter().all(|seen| *seen > times), "{self:?}");
    }
}

/// What 02's No. 6 is about.
#[derive(Default, Debug)]
struct TotalTally {
    /// Accepted passes with some queued before: that leave some, that leave none, and with more ticks
    /// than were queued.
    lowered: u64,
    emptied: u64,
    ran_dry: u64,
    /// Accepted passes with nothing queued before, and nothing after.
    stayed_empty: u64,
    /// Accepted passes that bring more than they take, and those with some of the older left.
    raised: u64,
    added: u64,
    /// Refused ones with some queued.
    refused: u64,
    /// Sums that one byte doesn't hold.
    long: u64,
}

impl TotalTally {
    /// After a pass, from the plain schedule's sums before it and now.
    fn count(&mut self, before: u64, now: u64, d: u32, accepted: bool) {
        let (d, left) = (u64::from(d), before.saturating_sub(u64::from(d)));
        self.long += u64::from(now > 255);
        if !accepted {
            self.refused += u64::from(before > 0);
            return;
        }
        self.lowered += u64::from(before > 0 && now == left && now > 0);
        self.emptied += u64::from(before > 0 && now == 0);
        self.ran_dry += u64::from(before > 0 && before < d);
        self.stayed_empty += u64::from(before == 0 && now == 0);
        self.raised += u64::from(now > left);
        self.added += u64::from(now > left && left > 0);
    }

    /// Each of these at least so many times.
    #[track_caller]
    fn wants(&self, times: u64) {
        let seen = [
            self.lowered,
            self.emptied,
            self.ran_dry,
            self.stayed_empty,
            self.raised,
            self.added,
            self.refused,
        ];
        assert!(seen.iter().all(|seen| *seen > times), "{self:?}");
    }
}

/// What 02's No. 4 is about.
#[derive(Default, Debug)]
struct LoneTally {
    /// New orders for a lone job with more ticks to the next arrival than 01's allowance, and those
    /// of them at a level that 01's wouldn't have met; with fewer ticks, and with as many.
    gap_larger: u64,
    slower: u64,
    base_larger: u64,
    both_equal: u64,
    /// After an accepted and after a refused pass: a job open, and closed in the plain schedule. Its
    /// time left is exactly the ticks to the next arrival.
    past_plain: u64,
    past_plain_refused: u64,
    exactly: u64,
    /// Jobs closed after their plain finish, and those closed at the first arrival after it.
    closed_past_plain: u64,
    closed_at_arrival: u64,
    /// Arrival ticks with older open jobs.
    older_open: u64,
}

impl LoneTally {
    /// Each of these at least so many times.
    #[track_caller]
    fn wants(&self, times: u64) {
        let seen = [
            self.gap_larger,
            self.slower,
            self.base_larger,
            self.both_equal,
            self.past_plain,
            self.past_plain_refused,
            self.exactly,
            self.closed_past_plain,
            self.closed_at_arrival,
            self.older_open,
        ];
        assert!(seen.iter().all(|seen| *seen > times), "{self:?}");
    }
}

impl Tally {
    /// So many runs with fixed ticks and as many without, and passes of each kind that end inside
    /// them.
    #[track_caller]
    fn wants_fixed_ticks(&self, runs: u64) {
        let without = self.runs - self.with_fixed;
        assert!(self.with_fixed > runs && without > runs, "{self:?}");
        assert!(self.finished_in_fixed > 4 * runs, "{self:?}");
        assert!(self.stayed_in_fixed > 2 * runs, "{self:?}");
        assert!(self.interrupted_in_fixed > runs / 4, "{self:?}");
    }
}

#[derive(Clone)]
struct Run {
    levels: Levels,
    plan: Vec<Task>,
    state: [u8; STATE_BYTES],
    order: Order,
    actual: ActualBook,
    plain: PlainBook,
    nominal: usize,
    /// What is left of each task's latest job, told by the passes and replies alone, tick by tick.
    left: Vec<Left>,
    valve: Refresh,
}

impl Run {
    fn new(levels: &Levels, plan: Vec<Task>) -> Run {
        let mut state = [0; STATE_BYTES];
        let order = start(levels, &block_of(&plan), &[], &mut state).unwrap();
        let run = Run {
            actual: ActualBook::new(levels, &plan, order),
            plain: PlainBook::new(levels, &plan),
            nominal: judge_list(levels, &plan).unwrap().nominal,
            left: plan.iter().map(Task::whole_job).collect(),
            valve: Refresh::new(&plan),
            levels: levels.clone(),
            plan,
            state,
            order,
        };
        assert_eq!(run.order, run.new_order());
        run.check_books_and_queue();
        run
    }

    /// One random pass, with everything checked.
    fn step(&mut self, random: &mut Random, tally: &mut Tally) {
        let (d, finished) = any_pass(random, self.order);
        self.put(d, finished, tally);
    }

    /// This pass, with everything checked.
    fn put(&mut self, d: u32, finished: bool, tally: &mut Tally) {
        let (before, queued_before) = (self.state, self.plain.ticks_left());
        let reply = pass(&mut self.state, d, finished);
        let book_before = self.actual.clone();
        self.actual.pass(d, finished, reply);
        self.plain.pass(d, reply);
        let valve_finished = self.valve.pass(&book_before, &self.actual);
        tally
            .valve
            .count(&self.valve, valve_finished, reply.is_ok());
        let queued_now = self.plain.ticks_left();
        tally
            .total
            .count(queued_before, queued_now, d, reply.is_ok());
        match reply {
            Err(_) => {
                tally.refused += 1;
                assert_eq!(self.state, before, "a refused pass changed the state");
                tally.lone.past_plain_refused += u64::from(self.past_plain().is_some());
                tally.floors.stands_refused += u64::from(self.is_above_nominal());
            }
            Ok(order) => {
                tally.accepted += 1;
                tally.floors.early += u64::from(self.finishes_early_by_floor(d, finished));
                let is_new = self.follow(d, finished, order, tally);
                self.count_lone(finished, &mut tally.lone);
                self.count_floors(is_new, &mut tally.floors);
            }
        }
        self.check_books_and_queue();
        self.actual.forget_closed();
        self.plain.forget_closed();
    }

    /// Checks the order against the definitions, after an accepted pass. Says whether it is a new one.
    fn follow(&mut self, d: u32, finished: bool, order: Order, tally: &mut Tally) -> bool {
        let mut in_fixed = false;
        if let Order::Run { task, level, .. } = self.order {
            let left = &mut self.left[usize::from(task)];
            for _ in 0..d {
                one_tick(left, self.levels.speed(usize::from(level)));
            }
            in_fixed = left.fixed > 0;
            if finished && left.is_open() {
                tally.finished_early += 1;
            }
            if finished {
                *left = Left::NOTHING;
            } else {
                assert!(left.is_open());
            }
        }
        tally.finished_in_fixed += u64::from(finished && in_fixed);
        let mut arrived = false;
        for (task, left) in self.plan.iter().zip(&mut self.left) {
            if self.actual.clock() % task.period == 0 {
                *left = task.whole_job();
                arrived = true;
            }
        }
        if finished || arrived {
            assert_eq!(order, self.new_order());
            if !finished && matches!(self.order, Order::Run { .. }) {
                tally.interrupted += 1;
                tally.interrupted_in_fixed += u64::from(in_fixed);
            }
        } else {
            tally.stayed += 1;
            tally.stayed_in_fixed += u64::from(in_fixed);
            assert_eq!(order, with_less_hold(self.order, d));
        }
        self.order = order;
        match order {
            Order::Idle { .. } => tally.idle += 1,
            Order::Run { level, .. } => {
                if usize::from(level) < self.nominal {
                    tally.below_nominal += 1;
                }
            }
        }
        finished || arrived
    }

    /// The task and the level of the order that stands.
    fn running(&self) -> Option<(usize, usize)> {
        match self.order {
            Order::Run { task, level, .. } => Some((usize::from(task), usize::from(level))),
            Order::Idle { .. } => None,
        }
    }

    fn is_above_nominal(&self) -> bool {
        matches!(self.running(), Some((_, level)) if level > self.nominal)
    }

    /// Whether such a pass ends a job that had time left at a level that is its floor's.
    fn finishes_early_by_floor(&self, d: u32, finished: bool) -> bool {
        let at_floor = |(task, level): &(usize, usize)| {
            let floor = self.plan[*task].floor as usize;
            floor > 0 && *level == floor
        };
        let has_time = |(task, level): (usize, usize)| {
            time_needed(self.left[task], self.levels.speed(level)) > u64::from(d)
        };
        finished && self.running().filter(at_floor).map_or(false, has_time)
    }

    /// What an accepted pass, and the order that came of it, have to do with 02's No. 8.
    fn count_floors(&self, is_new: bool, tally: &mut FloorTally) {
        tally.stands += u64::from(self.is_above_nominal());
        let has_floor = self.plan.iter().any(|task| task.floor > 0);
        tally.past_plain += u64::from(has_floor && self.past_plain().is_some());
        let (task, level) = match self.running() {
            Some(order) if is_new && self.plan[order.0].floor > 0 => order,
            _ => return,
        };
        let lowest = match self.new_order_from(|_| 0) {
            Order::Run { level, .. } => usize::from(level),
            Order::Idle { .. } => panic!("a job is open"),
        };
        let lone = self.open_jobs().len() == 1;
        if level == lowest {
            tally.left_alone += 1;
            return;
        }
        assert_eq!(level, self.plan[task].floor as usize);
        tally.raised += u64::from(level <= self.nominal);
        tally.above_nominal += u64::from(level > self.nominal);
        tally.alone += u64::from(lone);
        tally.in_company += u64::from(!lone);
        tally.valve_above += u64::from(task == VALVE && level > self.nominal);
    }

    /// The job that is open and closed in the plain schedule, if there is one.
    fn past_plain(&self) -> Option<BookJob> {
        let past = past_plain_finish(&self.actual, &self.plain);
        assert!(past.len() <= 1, "{past:?}");
        past.first().copied()
    }

    /// What an accepted pass, and the order that came of it, have to do with 02's No. 4.
    fn count_lone(&self, finished: bool, tally: &mut LoneTally) {
        let clock = self.actual.clock();
        if let Some(job) = self.past_plain() {
            tally.past_plain += 1;
            let left = self.actual.time_left(&job);
            tally.exactly += u64::from(left == Some(self.gap()));
        }
        let past = last_finish_past_plain(&self.plan, &self.actual, &self.plain);
        if let (true, Some(past)) = (finished, past) {
            tally.closed_past_plain += 1;
            tally.closed_at_arrival += u64::from(past.closed.tick == past.first_arrival);
        }
        let open = self.open_jobs();
        let arrived = open.iter().any(|job| job.arrival == clock);
        let older = open.iter().any(|job| job.arrival < clock);
        tally.older_open += u64::from(arrived && older);
        if let ([job], true) = (&open[..], finished || arrived) {
            let base = self.base_allowance(job);
            tally.gap_larger += u64::from(self.gap() > base);
            tally.base_larger += u64::from(self.gap() < base);
            tally.both_equal += u64::from(self.gap() == base);
            tally.slower += u64::from(self.actual.time_left(job) > Some(base));
        }
    }

    fn open_jobs(&self) -> Vec<BookJob> {
        let mut open = self.actual.jobs();
        open.retain(|job| job.open);
        open
    }

    /// The ticks to the next arrival.
    fn gap(&self) -> u64 {
        let clock = self.actual.clock();
        let to_arrival = |task: &Task| task.period - clock % task.period;
        self.plan.iter().map(to_arrival).min().unwrap()
    }

    /// 01's allowance.
    fn base_allowance(&self, job: &BookJob) -> u64 {
        let own = urgency(&self.plan, job.task, job.arrival);
        let mut allowance = 0;
        for plain in self.plain.open_jobs() {
            if urgency(&self.plan, plain.task, plain.arrival) <= own {
                allowance += plain.left;
            }
        }
        allowance
    }

    /// A new order as 01 and 02's No. 4 and No. 8 define it, from the books and what is left of the jobs.
    fn new_order(&self) -> Order {
        self.new_order_from(|task| self.plan[task].floor as usize)
    }

    /// The same with these floors.
    fn new_order_from(&self, floor: impl Fn(usize) -> usize) -> Order {
        let arrival = self.gap();
        let open = self.open_jobs();
        let urgent = open
            .iter()
            .min_by_key(|job| urgency(&self.plan, job.task, job.arrival));
        let job = match urgent {
            Some(job) => job,
            None => {
                return Order::Idle {
                    hold: arrival as u32,
                }
            }
        };
        // "if the job is the only open one, its allowance is the larger of 01's and the ticks to the
        // next arrival."
        let mut allowance = self.base_allowance(job);
        if open.len() == 1 && arrival > allowance {
            allowance = arrival;
        }
        let left = self.left[job.task];
        let needed = |level| time_needed(left, self.levels.speed(level));
        // "the lowest at or above the floor that meets the allowance"
        let level = (floor(job.task)..self.levels.count())
            .find(|level| needed(*level) <= allowance)
            .unwrap();
        let hold = needed(level).min(arrival) as u32;
        Order::Run {
            task: job.task as u8,
            level: level as u8,
            hold,
        }
    }

    fn check_books_and_queue(&self) {
        assert_eq!(
            demand3_holds(&self.plan, &self.actual, &self.plain),
            Ok(()),
            "{:?}",
            self.plan
        );
        assert_eq!(
            lone_finishes_hold(&self.plan, &self.actual, &self.plain),
            Ok(()),
            "{:?}",
            self.plan
        );
        assert_eq!(refresh_holds(&self.valve), Ok(()), "{:?}", self.plan);
        let plain: Vec<(usize, u64)> = self
            .plain
            .open_jobs()
            .iter()
            .map(|job| (job.task, job.left))
            .collect();
        assert_eq!(queue(&self.state), plain, "{:?}", self.plan);
        assert_eq!(
            total_holds(&self.plain, queued(&self.state)),
            Ok(()),
            "{:?}",
            self.plan
        );
        // What the dispatcher's book keeps of the jobs is what the state says of them.
        assert_eq!(self.actual.left(), self.left, "{:?}", self.plan);
        let entries = unpack(&self.state).unwrap().entries;
        let in_state: Vec<Left> = entries.iter().map(|entry| entry.left).collect();
        assert_eq!(in_state, self.left, "{:?}", self.plan);
        let shown = 3 * plain.len();
        if shown > 0 {
            let mut short = [0xa5; 48];
            let room = &mut short[..shown - 1];
            assert_eq!(show(&self.state, room), Err(9));
            assert_eq!(short, [0xa5; 48]);
        }
    }
}

/// A tick of a job: a fixed one while there are some, then one at the speed, whose last may be used
/// only partly.
fn one_tick(left: &mut Left, speed: u64) {
    if left.fixed > 0 {
        left.fixed -= 1;
    } else {
        left.work -= speed.min(left.work);
    }
}

fn with_less_hold(order: Order, d: u32) -> Order {
    match order {
        Order::Run { task, level, hold } => Order::Run {
            task,
            level,
            hold: hold - d,
        },
        Order::Idle { hold } => Order::Idle { hold: hold - d },
    }
}

/// A run of 120 passes on a plan that one of four times is a full one. With a long period in it
/// there is none, as the books go tick by tick.
fn run_on_a_small_plan(levels: &Levels, random: &mut Random, round: u32, tally: &mut Tally) {
    let level = random.place(levels.count());
    let plan = match round % 4 {
        0 => full_plan(random, levels, level),
        _ => {
            let base = random.pick(&SMALL_BASES);
            plan_at_level_within(random, levels, level, base)
        }
    };
    if plan.iter().any(|task| task.period > 10_000) {
        return;
    }
    count_run(&plan, tally);
    let mut run = Run::new(levels, plan);
    for _ in 0..120 {
        run.step(random, tally);
    }
}

fn count_run(plan: &[Task], tally: &mut Tally) {
    tally.runs += 1;
    tally.with_fixed += u64::from(plan.iter().any(|task| task.fixed > 0));
    tally.floors.runs += u64::from(plan.iter().any(|task| task.floor > 0));
}

#[test]
fn random_runs_on_small_plans() {
    let levels = Levels::base();
    let mut random = Random::new(2_001);
    let mut tally = Tally::default();
    for round in 0..1_000 {
        run_on_a_small_plan(&levels, &mut random, round, &mut tally);
    }
    assert!(tally.runs > 350, "{}", tally.runs);
    assert!(
        tally.accepted > 20_000 && tally.refused > 2_000,
        "{} {}",
        tally.accepted,
        tally.refused
    );
    assert!(tally.finished_early > 3_000, "{}", tally.finished_early);
    assert!(tally.stayed > 3_000, "{}", tally.stayed);
    assert!(tally.interrupted > 200, "{}", tally.interrupted);
    assert!(tally.below_nominal > 1_000, "{}", tally.below_nominal);
    assert!(tally.idle > 1_000, "{}", tally.idle);
    tally.wants_fixed_ticks(100);
    tally.lone.wants(100);
    tally.total.wants(10);
    tally.valve.wants(10_000, 150);
    tally.floors.wants(150, 50);
}

#[test]
fn random_runs_on_large_plans() {
    let levels = Levels::base();
    let mut random = Random::new(2_002);
    let mut tally = Tally::default();
    for round in 0..24 {
        let plan = plan_at_level(&mut random, &levels, round % levels.count());
        let mut run = Run::new(&levels, plan);
        for _ in 0..60 {
            run.step(&mut random, &mut tally);
        }
    }
    assert!(tally.accepted > 500 && tally.finished_early > 100);
    assert!(tally.total.long > 200, "{tally:?}");
}

/// Demand 3 and the orders don't depend on which speeds there are.
#[test]
fn random_runs_with_random_tables() {
    let mut random = Random::new(2_003);
    let mut tally = Tally::default();
    for round in 0..500 {
        let levels = some_levels(&mut random);
        run_on_a_small_plan(&levels, &mut random, round, &mut tally);
    }
    assert!(tally.runs > 250, "{}", tally.runs);
    assert!(tally.accepted > 15_000, "{}", tally.accepted);
    assert!(tally.finished_early > 2_000, "{}", tally.finished_early);
    assert!(tally.interrupted > 100, "{}", tally.interrupted);
    assert!(tally.below_nominal > 500, "{}", tally.below_nominal);
    tally.wants_fixed_ticks(60);
    tally.lone.wants(50);
    tally.total.wants(4);
    tally.valve.wants(8_000, 100);
    tally.floors.wants(100, 30);
}

/// Plans of one to four tasks, in which a job is often alone; of random tables and 01's.
#[test]
fn random_runs_with_lone_jobs() {
    let mut random = Random::new(2_004);
    let mut tally = Tally::default();
    while tally.runs < 3_000 {
        let levels = some_or_base_levels(&mut random);
        let level = random.place(levels.count());
        let base = random.pick(&SMALL_BASES[6..]);
        let plan = plan_at_level_within(&mut random, &levels, level, base);
        if plan.len() > 4 {
            continue;
        }
        count_run(&plan, &mut tally);
        let mut run = Run::new(&levels, plan);
        for _ in 0..60 {
            run.step(&mut random, &mut tally);
        }
    }
    tally.wants_fixed_ticks(300);
    tally.lone.wants(500);
    tally.total.wants(200);
    tally.valve.wants(30_000, 350);
    tally.floors.wants(1_000, 200);
}

/// A pass after which the valve's job has ended with its first tick, or goes on for as long as it can, one
/// as often as the other; other jobs always do the latter. Now and then it is told to go on for a tick
/// alone, or for too long.
fn swinging_pass(run: &Run, random: &mut Random) -> (u32, bool) {
    let (task, level, hold) = match run.order {
        Order::Idle { hold } => return (hold, false),
        Order::Run { task, level, hold } => (usize::from(task), usize::from(level), hold),
    };
    let left = run.left[task];
    if task == VALVE && left == run.plan[task].whole_job() && random.one_in(2) {
        return (1, true);
    }
    let ends = |d: u32| time_needed(left, run.levels.speed(level)) == u64::from(d);
    match random.below(8) {
        0 => (hold, false),
        1 | 2 => (1, ends(1)),
        _ => (hold, ends(hold)),
    }
}

/// 02, No. 7: runs in which the valve finishes as soon as it can and as late as it may. Would catch a
/// promise that a dispatcher doesn't keep, and a bound that no run comes to.
#[test]
fn random_runs_of_the_valve() {
    let mut random = Random::new(2_005);
    let mut tally = Tally::default();
    while tally.runs < 1_000 {
        let levels = some_or_base_levels(&mut random);
        let plan = valve_plan(&mut random, &levels);
        count_run(&plan, &mut tally);
        let mut run = Run::new(&levels, plan);
        for _ in 0..60 {
            let (d, finished) = swinging_pass(&run, &mut random);
            run.put(d, finished, &mut tally);
        }
    }
    tally.valve.wants(20_000, 200);
    assert!(tally.floors.valve_above > 500, "{tally:?}");
}

/// Every pass that may be accepted, and one refused with 14, up to a tick.
fn put_every_pass(run: &Run, until: u64, tally: &mut Tally) {
    if run.actual.clock() >= until {
        tally.runs += 1;
        return;
    }
    let hold = match run.order {
        Order::Run { hold, .. } | Order::Idle { hold } => hold,
    };
    let finishes = matches!(run.order, Order::Run { .. });
    for (d, finished) in (1..=hold).flat_map(|d| [(d, false), (d, true)]) {
        if finished && !finishes {
            continue;
        }
        let mut next = run.clone();
        next.put(d, finished, tally);
        if next.actual.clock() > run.actual.clock() {
            put_every_pass(&next, until, tally);
        }
    }
}

/// Of small plans whose jobs are soon alone, all runs there are through a hyperperiod or more.
#[test]
fn every_run_of_small_plans() {
    let mut tally = Tally::default();
    let plans: [(&[u64], &[(u64, u64, u64, u64)], u64); 13] = [
        (&[1, 2], &[(3, 2, 0, 0), (3, 2, 0, 0)], 12),
        (&[1, 2], &[(2, 1, 0, 0), (6, 4, 0, 0)], 12),
        (&[1, 2, 3], &[(4, 3, 0, 0), (6, 5, 0, 0)], 12),
        (&[1, 3], &[(5, 4, 1, 0), (5, 3, 0, 0)], 10),
        (&[1, 2], &[(4, 2, 0, 0), (4, 2, 0, 0), (8, 2, 0, 0)], 8),
        (&[2, 3, 5], &[(3, 4, 0, 0), (6, 5, 1, 0)], 12),
        // 02, No. 7: the valve alone, and before and after a task of twice its period.
        (&[1], &[(2, 2, 0, 0)], 12),
        (&[1], &[(3, 1, 0, 0), (6, 4, 0, 0)], 12),
        // 02, No. 8: a floor at nominal, under the one task and under the other; floors above nominal, of
        // a task alone and beside others; and one with fixed ticks before it.
        (&[1, 2], &[(3, 2, 0, 1), (3, 2, 0, 0)], 12),
        (&[1, 2, 3], &[(4, 3, 0, 0), (6, 5, 0, 1)], 12),
        (&[1, 2, 4], &[(4, 4, 0, 2)], 12),
        (&[1, 2, 3], &[(3, 2, 0, 2), (3, 2, 0, 1), (6, 2, 0, 2)], 12),
        (&[1, 2, 3], &[(5, 4, 1, 2), (5, 3, 0, 1)], 10),
    ];
    for (speeds, plan, until) in plans {
        let plan = floor_tasks(plan);
        tally.floors.runs += u64::from(plan.iter().any(|task| task.floor > 0));
        let run = Run::new(&Levels::new(speeds), plan);
        put_every_pass(&run, until, &mut tally);
    }
    assert!(tally.runs > 3_000, "{}", tally.runs);
    tally.lone.wants(100);
    tally.total.wants(60);
    tally.valve.wants(3_000, 200);
    tally.floors.wants(4, 30);
}
