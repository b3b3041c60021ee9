//! Long runs of accepted plans, with fixed ticks and floors and without, and with a good list of pairs.
//! After every pass, accepted or refused, demand 3 and what else 02's No. 4 says of a run are checked on
//! the simulator's two books, which are fed the library's replies and nothing of the state; and the queue
//! shown must be the one of the plain schedule's book, and what the state has left of each job what the
//! dispatcher's book has. What No. 5 promises is checked on that book before every accepted pass. After
//! every pass the total that No. 6 has answered is the plain schedule's, and what No. 7 promises of the
//! valve's finishes is checked on the dispatcher's book before the pass and after it. The level of every
//! new order is the one that No. 8 has, worked out from the two books.

use crate::both::{Both, Call, Kind, ACCEPTED};
use crate::dispatch::{as_simulated, STATE_BYTES};
use crate::floored::Floored;
use crate::gaps::{Gaps, Stand};
use crate::made::bench_plan;
use crate::refreshes::Refreshes;
use crate::sums::{Step, Sums};
use crate::turns::Turns;
use crate::view::{queue_bytes, told, View};
use differ::dispatcher::Order;
use sim::books::{demand3_holds, lone_finishes_hold, pairs_hold};
use sim::books::{total_holds, ActualBook, PlainBook};
use sim::job::Left;
use sim::knee::{refresh_holds, Refresh, VALVE};
use sim::layout::TOTAL;
use sim::levels::{Levels, MOST_LEVELS};
use sim::plan::{judge_list, Task};
use sim::random::blocks::block_of;
use sim::random::pairs::{bad_list, good_list};
use sim::random::passes::any_pass;
use sim::random::plans::{full_plan, plan_at_level, plan_at_level_within, valve_plan};
use sim::random::plans::{with_floors, SMALL_BASES};
use sim::random::tables::{levels_of_count, some_levels};
use sim::random::Random;
use sim::state::unpack;

/// How the passes of a run are chosen.
#[derive(Clone, Copy)]
enum Style {
    /// Every job takes its worst case.
    Worst,
    /// Every job ends within its hold, most often soon.
    Early,
    /// A pass for every tick.
    TickByTick,
    /// Accepted ones, ones around the hold, and ones far off.
    Any,
    /// The only open job goes on for as long as it can, told in several passes, and now and then for
    /// longer, which is refused.
    Lasting,
    /// The valve's job ends after its first tick or takes as long as it can, one as often as the other;
    /// all other jobs take their worst case. Some of it is told in several passes, and now and then for
    /// too long, which is refused.
    Swinging,
}

const STYLES: [Style; 4] = [Style::Worst, Style::Early, Style::TickByTick, Style::Any];

/// What went on in the runs, to be sure that they met what they are for.
#[derive(Default, Debug)]
struct Tally {
    early: u64,
    interrupted: u64,
    stayed: u64,
    below_nominal: u64,
    idle: u64,
    levels: Vec<u64>,
    /// Passes at whose end the running job had fixed ticks left: it ended, it stays, or an arrival
    /// chose anew.
    early_in_fixed: u64,
    stayed_in_fixed: u64,
    interrupted_in_fixed: u64,
    /// Runs of plans with fixed ticks, and of plans without.
    with_fixed: u64,
    without: u64,
    /// The same of floors.
    with_floors: u64,
    no_floor: u64,
    gaps: Gaps,
    turns: Turns,
    sums: Sums,
    refreshes: Refreshes,
    floored: Floored,
}

impl Tally {
    fn new() -> Tally {
        Tally {
            levels: vec![0; MOST_LEVELS as usize],
            ..Tally::default()
        }
    }

    /// Wants so many runs with fixed ticks and without, and passes of each kind inside them.
    #[track_caller]
    fn wants_fixed(&self, runs: u64, early: u64, stayed: u64, interrupted: u64) {
        let enough = self.with_fixed >= runs && self.without >= runs;
        assert!(enough, "{self:?}");
        assert!(self.early_in_fixed >= early, "{self:?}");
        assert!(self.stayed_in_fixed >= stayed, "{self:?}");
        assert!(self.interrupted_in_fixed >= interrupted, "{self:?}");
    }

    /// Wants so many runs with floors and without, and each kind of order that a floor has a say in.
    #[track_caller]
    fn wants_floors(&self, runs: u64, orders: u64) {
        let enough = self.with_floors >= runs && self.no_floor >= runs;
        assert!(enough, "{self:?}");
        self.floored.wants(orders);
    }
}

struct Run {
    plan: Vec<Task>,
    /// The list that it was started with.
    pairs: Vec<u8>,
    levels: Levels,
    nominal: usize,
    state: [u8; STATE_BYTES],
    order: Order,
    actual: ActualBook,
    plain: PlainBook,
    valve: Refresh,
}

impl Run {
    fn new(both: &mut Both, levels: &Levels, plan: Vec<Task>) -> Run {
        both.load(levels);
        let mut state = [0xa5; STATE_BYTES];
        let block = block_of(&plan);
        // The lists are drawn apart, so that they don't change which passes are drawn.
        let mut random = Random::new(both.times(Call::Start));
        let bad = bad_list(&mut random, &plan);
        assert_eq!(both.start(&block, &bad, &mut state), Err(22));
        let pairs = good_list(&mut random, &plan);
        let order = both
            .start(&block, &pairs, &mut state)
            .expect("the plan is an accepted one");
        let run = Run {
            levels: levels.clone(),
            nominal: judge_list(levels, &plan).unwrap().nominal,
            actual: ActualBook::new(levels, &plan, as_simulated(order)),
            plain: PlainBook::new(levels, &plan),
            valve: Refresh::new(&plan),
            plan,
            pairs,
            state,
            order,
        };
        run.check(both);
        run
    }

    fn choose(&self, view: View, random: &mut Random, style: Style) -> (u32, bool) {
        match style {
            Style::Worst => view.whole_hold(),
            Style::Early => view.early_end(random),
            Style::TickByTick => view.one_tick(random),
            Style::Any => any_pass(random, as_simulated(self.order)),
            Style::Lasting if !view.lone => view.some_pass(random),
            Style::Lasting if random.one_in(3) => (view.hold() as u32, false),
            Style::Lasting => view.going_on(random),
            Style::Swinging if self.valve_begins() && random.one_in(2) => (1, true),
            Style::Swinging if random.one_in(8) => (view.hold() as u32, false),
            Style::Swinging if random.one_in(3) => view.going_on(random),
            Style::Swinging => view.whole_hold(),
        }
    }

    /// Whether the next pass is about a job of the valve's that hasn't run before.
    fn valve_begins(&self) -> bool {
        let runs = self.actual.running_job().map(|(task, _)| task) == Some(VALVE);
        runs && self.actual.left()[VALVE] == self.plan[VALVE].whole_job()
    }

    /// One pass, with everything checked after it.
    fn step(&mut self, both: &mut Both, random: &mut Random, style: Style, tally: &mut Tally) {
        let view = View::of(&self.state);
        let (d, finished) = self.choose(view, random, style);
        let before = self.state;
        let reply = both.pass(&mut self.state, d, told(random, finished));
        assert_eq!(reply.err().unwrap_or(0), view.refusal(d, finished));
        if reply.is_ok() {
            self.check_pairs(tally);
            self.check_total(&before, d, tally);
        }
        let entered = reply.map(as_simulated);
        let book = self.actual.clone();
        self.actual.pass(d, finished, entered);
        self.plain.pass(d, entered);
        self.watch_valve(&book, reply.is_ok(), tally);
        if let Ok(order) = reply {
            self.note(view, d, finished, order, tally);
            self.order = order;
        }
        let accepted = reply.ok().map(|_| finished);
        tally.gaps.note(&self.stand(), accepted);
        tally.floored.note(&self.stand(), self.order, accepted);
        self.check(both);
        self.actual.forget_closed();
        self.plain.forget_closed();
    }

    fn note(&self, view: View, d: u32, finished: bool, order: Order, tally: &mut Tally) {
        let d = u64::from(d);
        let arrived = d == view.to_arrival;
        if d < view.fixed {
            match (finished, arrived) {
                (true, _) => tally.early_in_fixed += 1,
                (false, true) => tally.interrupted_in_fixed += 1,
                (false, false) => tally.stayed_in_fixed += 1,
            }
        }
        match view.needed {
            Some(needed) if finished && d < needed => tally.early += 1,
            Some(_) if !finished && arrived => tally.interrupted += 1,
            _ => {}
        }
        if !finished && !arrived {
            tally.stayed += 1;
        }
        match order {
            Order::Idle { .. } => tally.idle += 1,
            Order::Run { level, .. } => {
                tally.levels[usize::from(level)] += 1;
                tally.below_nominal += u64::from(usize::from(level) < self.nominal);
            }
        }
    }

    fn stand(&self) -> Stand<'_> {
        Stand {
            plan: &self.plan,
            levels: &self.levels,
            nominal: self.nominal,
            actual: &self.actual,
            plain: &self.plain,
        }
    }

    /// No. 5's promise, by the dispatcher's book before an accepted pass: the earlier task's job that
    /// arrived with the running one is closed.
    fn check_pairs(&self, tally: &mut Tally) {
        let promise = pairs_hold(&self.actual, &self.pairs);
        assert_eq!(promise, Ok(()), "{:?} in {:?}", self.pairs, self.plan);
        tally.turns.note(&self.plan, &self.actual, &self.pairs);
    }

    /// Tells the watcher of the valve's finishes of a pass, by the dispatcher's book before it and now.
    /// What No. 7 promises of them is asked with everything else.
    fn watch_valve(&mut self, before: &ActualBook, accepted: bool, tally: &mut Tally) {
        let finished = self.valve.pass(before, &self.actual);
        let tasks = self.plan.len();
        tally.refreshes.note(&self.valve, tasks, finished, accepted);
    }

    /// The total after an accepted pass is the one that the queue before it leads to.
    fn check_total(&self, before: &[u8], d: u32, tally: &mut Tally) {
        let step = Step::of(before, d);
        assert_eq!(TOTAL.get(&self.state), step.after(), "{step:?}");
        tally.sums.note(&step);
    }

    fn check(&self, both: &mut Both) {
        let demand = demand3_holds(&self.plan, &self.actual, &self.plain);
        assert_eq!(demand, Ok(()), "{:?}", self.plan);
        // "A lone job that closes after its plain finish closes no later than the first arrival after
        // that plain finish. At each arrival tick every older open job is still open in the plain
        // schedule, and all deadlines hold."
        let finishes = lone_finishes_hold(&self.plan, &self.actual, &self.plain);
        assert_eq!(finishes, Ok(()), "{:?}", self.plan);
        let refresh = refresh_holds(&self.valve);
        assert_eq!(refresh, Ok(()), "{:?}", self.plan);
        let open = self.plain.open_jobs();
        let open: Vec<(usize, u64)> = open.iter().map(|job| (job.task, job.left)).collect();
        let shown = both.show(&self.state, 48);
        assert_eq!(shown, Ok(queue_bytes(&open)), "{:?}", self.plan);
        let total = total_holds(&self.plain, both.queued(&self.state));
        assert_eq!(total, Ok(()), "{:?}", self.plan);
        let entries = unpack(&self.state).expect("it is a state").entries;
        let left: Vec<Left> = entries.iter().map(|entry| entry.left).collect();
        assert_eq!(left, self.actual.left(), "{:?}", self.plan);
    }
}

/// A run of so many passes, all in one style.
fn run(
    both: &mut Both,
    random: &mut Random,
    (levels, plan): (&Levels, &[Task]),
    style: Style,
    passes: u32,
    tally: &mut Tally,
) {
    let mut run = Run::new(both, levels, plan.to_vec());
    match plan.iter().any(|task| task.fixed > 0) {
        false => tally.without += 1,
        true => tally.with_fixed += 1,
    }
    match plan.iter().any(|task| task.floor > 0) {
        false => tally.no_floor += 1,
        true => tally.with_floors += 1,
    }
    for _ in 0..passes {
        run.step(both, random, style, tally);
    }
}

/// Would catch a wrong task, level, hold, clock, work left or plain ticks left after any pass of a
/// run; ticks lent to a more urgent job, or not counted where deadlines are equal; an allotment
/// pushed twice; a queue that stands still; a level always nominal; and any deadline missed.
#[test]
fn long_runs_at_every_level() {
    let levels = Levels::base();
    let mut both = Both::new(&levels);
    let mut random = Random::new(401);
    let mut tally = Tally::new();
    for level in 0..levels.count() {
        for round in 0..160 {
            let base = random.pick(&SMALL_BASES);
            let plan = plan_at_level_within(&mut random, &levels, level, base);
            let style = STYLES[round % STYLES.len()];
            run(
                &mut both,
                &mut random,
                (&levels, &plan),
                style,
                160,
                &mut tally,
            );
        }
    }
    println!("{tally:?}");
    both.saw("runs at every level", 185_000);
    both.wants(Call::Pass, ACCEPTED, 50_000);
    for number in [11, 12, 13, 14] {
        both.wants(Call::Pass, number, 100);
    }
    assert!(
        tally.early > 5_000 && tally.interrupted > 1_000,
        "{tally:?}"
    );
    assert!(tally.stayed > 5_000 && tally.idle > 5_000, "{tally:?}");
    assert!(tally.below_nominal > 5_000, "{tally:?}");
    assert!(tally.levels.iter().all(|times| *times > 2_000), "{tally:?}");
    tally.wants_fixed(80, 500, 500, 50);
    tally.gaps.wants(30);
    tally.turns.wants(300);
    tally.sums.wants(10);
    tally.sums.wants_none_replaced();
    tally.refreshes.wants(25_000, 800);
    tally.wants_floors(80, 60);
}

/// The same where the plain schedule has no tick to spare: would catch a level that is one too low,
/// or a tick lent twice, as a job that is late.
#[test]
fn long_runs_of_full_plans() {
    let levels = Levels::base();
    let mut both = Both::new(&levels);
    let mut random = Random::new(402);
    let mut tally = Tally::new();
    let mut runs = 0;
    while runs < 128 {
        let plan = full_plan(&mut random, &levels, runs % levels.count());
        // The books go tick by tick.
        if plan.iter().any(|task| task.period > 3_000) {
            continue;
        }
        let style = STYLES[runs / levels.count() % STYLES.len()];
        run(
            &mut both,
            &mut random,
            (&levels, &plan),
            style,
            120,
            &mut tally,
        );
        runs += 1;
    }
    println!("{tally:?}");
    both.saw("runs of full plans", 46_000);
    both.wants(Call::Pass, ACCEPTED, 13_000);
    assert!(tally.early > 1_000 && tally.interrupted > 100, "{tally:?}");
    assert!(tally.below_nominal > 1_000, "{tally:?}");
    tally.wants_fixed(20, 100, 100, 10);
    tally.gaps.wants(10);
    tally.turns.wants(100);
    tally.sums.wants_full(2_000);
    tally.sums.wants_none_replaced();
    tally.refreshes.wants(5_000, 100);
    tally.wants_floors(30, 10);
}

/// A plan at any level, a full one if told so. Half of them are at the highest, which few tables would
/// else get to. Its periods are not long: the books go tick by tick.
fn short_plan(random: &mut Random, levels: &Levels, full: bool) -> Vec<Task> {
    loop {
        let any = random.place(levels.count());
        let level = random.pick(&[any, levels.top()]);
        let base = random.pick(&SMALL_BASES);
        let plan = if full {
            full_plan(random, levels, level)
        } else {
            plan_at_level_within(random, levels, level, base)
        };
        if plan.iter().all(|task| task.period <= 10_000) {
            return plan;
        }
    }
}

/// The same with the speeds of other boards: would catch a speed taken from another table, from
/// another level of it, or left out of an allotment, an allowance or the work done.
#[test]
fn runs_with_any_table() {
    let mut both = Both::new(&Levels::base());
    let mut random = Random::new(405);
    let mut tally = Tally::new();
    for round in 0..1_600 {
        let levels = some_levels(&mut random);
        let plan = short_plan(&mut random, &levels, round % 3 == 0);
        let board = (&levels, &plan[..]);
        let style = STYLES[round % STYLES.len()];
        run(&mut both, &mut random, board, style, 80, &mut tally);
    }
    println!("{tally:?}");
    both.saw("runs with any table", 219_000);
    both.wants(Call::Pass, ACCEPTED, 60_000);
    for number in [11, 12, 13, 14] {
        both.wants(Call::Pass, number, 100);
    }
    assert!(
        tally.early > 5_000 && tally.interrupted > 1_000,
        "{tally:?}"
    );
    assert!(tally.below_nominal > 3_000, "{tally:?}");
    assert!(tally.levels.iter().all(|times| *times > 500), "{tally:?}");
    tally.wants_fixed(200, 1_000, 1_000, 100);
    tally.gaps.wants(40);
    tally.turns.wants(500);
    tally.sums.wants(10);
    tally.sums.wants_none_replaced();
    tally.refreshes.wants(25_000, 900);
    tally.wants_floors(200, 50);
}

/// Would catch a table that is mixed up with another one: a state goes on with its own, whatever is
/// loaded for others in between.
#[test]
fn runs_of_two_boards_side_by_side() {
    let mut both = Both::new(&Levels::base());
    let mut random = Random::new(406);
    let mut tally = Tally::new();
    for _ in 0..60 {
        let boards = [Levels::base(), some_levels(&mut random)];
        let mut runs = boards.map(|levels| {
            let plan = short_plan(&mut random, &levels, false);
            Run::new(&mut both, &levels, plan)
        });
        for _ in 0..40 {
            for run in &mut runs {
                run.step(&mut both, &mut random, Style::Any, &mut tally);
            }
        }
    }
    both.saw("runs of two boards", 14_800);
    both.wants_editions(&[Call::Start], 20);
    both.wants_inside(20);
    both.wants(Call::Pass, ACCEPTED, 3_000);
    assert!(tally.early > 300 && tally.below_nominal > 100, "{tally:?}");
}

/// Would catch a number of ticks, of work or of plain ticks that is cut to fewer bits.
#[test]
fn runs_with_long_periods() {
    let levels = Levels::base();
    let mut both = Both::new(&levels);
    let mut random = Random::new(403);
    let mut tally = Tally::new();
    for level in 0..levels.count() {
        for round in 0..6 {
            let plan = plan_at_level(&mut random, &levels, level);
            // A pass for every tick would not come far.
            let style = [Style::Worst, Style::Early, Style::Any][round % 3];
            run(
                &mut both,
                &mut random,
                (&levels, &plan),
                style,
                50,
                &mut tally,
            );
        }
    }
    println!("{tally:?}");
    both.saw("runs with long periods", 7_300);
    both.wants(Call::Pass, ACCEPTED, 2_000);
    assert!(tally.early > 300, "{tally:?}");
    tally.wants_fixed(10, 20, 3, 20);
    tally.sums.wants_none_replaced();
    tally.refreshes.wants(400, 5);
}

/// Plans whose jobs are mostly fixed ticks, so that many passes end inside them: would catch fixed
/// ticks that are taken after the work, scaled by the level, given back at a preemption, kept in a
/// job that ended, or left out of an allotment, an allowance or a hold.
#[test]
fn runs_inside_the_fixed_ticks() {
    let mut both = Both::new(&Levels::base());
    let mut random = Random::new(407);
    let mut tally = Tally::new();
    let mut runs = 0;
    while runs < 240 {
        let levels = some_levels(&mut random);
        let plan = mostly_fixed(&mut random);
        let plan = match judge_list(&levels, &plan) {
            Ok(judged) => with_floors(&mut random, &levels, judged.nominal, plan),
            Err(_) => continue,
        };
        let board = (&levels, &plan[..]);
        let style = STYLES[runs % STYLES.len()];
        run(&mut both, &mut random, board, style, 120, &mut tally);
        runs += 1;
    }
    println!("{tally:?}");
    both.saw("runs inside the fixed ticks", 87_000);
    both.wants(Call::Pass, ACCEPTED, 20_000);
    both.wants(Call::Pass, 14, 400);
    both.wants_inside(3_000);
    tally.wants_fixed(0, 3_000, 3_000, 500);
    tally.gaps.wants(4);
    tally.turns.wants(100);
    tally.sums.wants(100);
    tally.sums.wants_none_replaced();
    tally.refreshes.wants(4_000, 1);
    tally.wants_floors(50, 5);
}

/// A plan of one to four tasks, whose jobs are soon alone. Where there is a lower level than the nominal
/// one, the plain schedule has ticks to spare as often as not.
fn plan_of_few(random: &mut Random, levels: &Levels) -> Vec<Task> {
    loop {
        let count = random.between(1, 4);
        // 2 and 3 divide each of these.
        let base = random.pick(&SMALL_BASES[8..]);
        let most_fixed = random.pick(&[0, base / 12]);
        let task = |_| {
            let period = base / random.between(1, 3);
            let most = levels.speed(levels.top()) * period / count;
            Task {
                period,
                worst: random.between(1, most),
                fixed: random.between(0, most_fixed),
                floor: 0,
            }
        };
        let plan: Vec<Task> = (0..count).map(task).collect();
        match judge_list(levels, &plan) {
            Ok(judged) if judged.nominal > 0 || levels.count() == 1 => {
                return with_floors(random, levels, judged.nominal, plan)
            }
            _ => {}
        }
    }
}

/// The same where a job is often the only open one (02, No. 4), with one to eight levels: would catch
/// the gap given to a job that has company, taken though 01's allowance is larger, or one tick off; and
/// a lone job that is open past its plain finish and goes on past the next arrival.
#[test]
fn runs_with_lone_jobs() {
    let mut both = Both::new(&Levels::base());
    let mut random = Random::new(408);
    let mut tally = Tally::new();
    for round in 0..4_000 {
        let levels = levels_of_count(&mut random, 1 + round % MOST_LEVELS as usize);
        let plan = plan_of_few(&mut random, &levels);
        let board = (&levels, &plan[..]);
        let style = match round / 8 % 8 {
            0..=3 => STYLES[round / 8 % STYLES.len()],
            _ => Style::Lasting,
        };
        run(&mut both, &mut random, board, style, 80, &mut tally);
    }
    println!("{tally:?}");
    both.saw("runs with lone jobs", 390_000);
    tally.wants_fixed(400, 500, 500, 30);
    tally.gaps.wants(200);
    tally.gaps.wants_of_levels(70);
    tally.turns.wants(1_000);
    tally.sums.wants(1_500);
    tally.sums.wants_none_replaced();
    tally.refreshes.wants(18_000, 10);
    tally.wants_floors(400, 150);
}

/// A plan of two to six tasks with few periods, each a multiple of the shortest and in any order, so
/// that most of its tasks are in good pairs. Together they fill much of the plain schedule.
fn plan_of_multiples(random: &mut Random, levels: &Levels) -> Vec<Task> {
    let with_fixed = random.one_in(2);
    loop {
        let count = random.between(2, 6);
        let shortest = random.between(count, 30);
        let most_fixed = if with_fixed { shortest / 2 } else { 0 };
        let task = |_| {
            let period = shortest * random.pick(&[1, 1, 2, 2, 3, 4, 6]);
            let most = levels.speed(levels.top()) * period / count;
            Task {
                period,
                worst: random.between((most / 2).max(1), most.max(1)),
                fixed: random.between(0, most_fixed),
                floor: 0,
            }
        };
        let plan: Vec<Task> = (0..count).map(task).collect();
        if let Ok(judged) = judge_list(levels, &plan) {
            return with_floors(random, levels, judged.nominal, plan);
        }
    }
}

/// The same where most tasks are in pairs (02, No. 5): would catch a job that runs ahead of one that
/// arrived with it and has the shorter period, or the same one and the lower number; and a promise that
/// is about another job of the earlier task.
#[test]
fn runs_with_pairs() {
    let mut both = Both::new(&Levels::base());
    let mut random = Random::new(409);
    let mut tally = Tally::new();
    for round in 0..2_000 {
        let levels = levels_of_count(&mut random, 1 + round % MOST_LEVELS as usize);
        let plan = plan_of_multiples(&mut random, &levels);
        let board = (&levels, &plan[..]);
        let style = STYLES[round / 8 % STYLES.len()];
        run(&mut both, &mut random, board, style, 80, &mut tally);
    }
    println!("{tally:?}");
    both.saw("runs with pairs", 390_000);
    both.wants_kind(Call::Start, Kind::SomePairs, 1_300);
    tally.wants_fixed(300, 600, 600, 50);
    tally.gaps.wants(60);
    tally.turns.wants(2_500);
    tally.sums.wants(1_500);
    tally.sums.wants_none_replaced();
    tally.refreshes.wants(18_000, 30);
    tally.wants_floors(400, 150);
}

/// The same where the valve's jobs end early and late (02, No. 7): would catch a finish that lies a tick
/// too far from the one before it, a valve that is kept waiting by what is less urgent, and a promise that
/// is about another task.
#[test]
fn runs_of_the_valve() {
    let mut both = Both::new(&Levels::base());
    let mut random = Random::new(410);
    let mut tally = Tally::new();
    for round in 0..1_400 {
        let levels = levels_of_count(&mut random, 1 + round % MOST_LEVELS as usize);
        let plan = valve_plan(&mut random, &levels);
        let board = (&levels, &plan[..]);
        let style = Style::Swinging;
        run(&mut both, &mut random, board, style, 80, &mut tally);
    }
    println!("{tally:?}");
    both.saw("runs of the valve", 290_000);
    both.wants(Call::Pass, ACCEPTED, 80_000);
    tally.wants_fixed(200, 500, 200, 50);
    tally.sums.wants_none_replaced();
    tally.refreshes.wants(40_000, 10_000);
    tally.refreshes.wants_each(400);
    tally.floored.wants_above(500);
}

/// Two to five tasks with much in fixed ticks and little work, periods short and long.
fn mostly_fixed(random: &mut Random) -> Vec<Task> {
    let count = random.between(2, 5);
    let base = random.pick(&[120, 240, 720, 2_520]);
    let short = random.between(2, 12);
    let task = |place| {
        let long = random.between(1, 6);
        let period = base / if place == 0 { short } else { long };
        let share = (period / count).max(2);
        Task {
            // Divisors of the base alone keep the hyperperiod short.
            period: (1..=period).rev().find(|it| base % it == 0).unwrap_or(1),
            worst: random.between(1, 60),
            fixed: random.between(share / 2, share - 1).min(255),
            floor: 0,
        }
    };
    (0..count).map(task).collect()
}

/// Would catch what builds up over many hyperperiods.
#[test]
fn the_bench_plan_for_thousands_of_passes() {
    let levels = Levels::base();
    let mut both = Both::new(&levels);
    let mut random = Random::new(404);
    let mut tally = Tally::new();
    for style in STYLES {
        let plan = bench_plan();
        run(
            &mut both,
            &mut random,
            (&levels, &plan),
            style,
            4_000,
            &mut tally,
        );
    }
    println!("{tally:?}");
    both.saw("the bench plan", 48_000);
    both.wants(Call::Pass, ACCEPTED, 14_000);
    assert!(tally.early > 3_000 && tally.interrupted > 500, "{tally:?}");
    assert!(tally.below_nominal > 3_000, "{tally:?}");
    tally.sums.wants_full(1_000);
    tally.sums.wants_none_replaced();
    tally.refreshes.wants(3_000, 0);
}
