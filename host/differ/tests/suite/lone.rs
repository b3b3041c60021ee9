//! 02, No. 4, put to states that a host may hand over: a lone job ahead of its plain ticks or behind
//! them, on each side of the ticks to the next arrival, and the same in company.

use crate::both::{Both, Call, ACCEPTED};
use crate::dispatch::STATE_BYTES;
use crate::made::{floor_tasks, some_plan};
use crate::states::put_state;
use crate::sums::Step;
use crate::view::{told, View};
use sim::job::{time_needed, Left};
use sim::layout::{of_task, CLOCK, FIXED_LEFT, LEVEL, PLAIN_LEFT, TASK, WORK_LEFT};
use sim::levels::Levels;
use sim::plan::{judge_list, Task};
use sim::random::lone::{crowded_state, lone_state, with_another_job_open, Crowded, Lone};
use sim::random::totals::put_total;
use sim::random::Random;
use sim::schedule::{allotment, first_arrival_after, urgency, Urgency};
use sim::state::{pack, unpack, Entry, Running, State};
use std::collections::BTreeMap;

/// How the running job of a state stands, worked out from the words of 01 and 02 once more.
#[derive(Clone, Copy, Debug)]
struct Standing {
    /// "the only open one"
    lone: bool,
    /// Its time at nominal exceeds its plain ticks left.
    behind: bool,
    /// Whether it has fixed ticks left.
    in_fixed: bool,
    /// Its time at the order's level, the ticks to the next arrival, and 01's allowance.
    needed: u64,
    gap: u64,
    base: u64,
}

impl Standing {
    /// Nothing where no plan can be judged, or the order doesn't run an open job at a level that its floor
    /// and the nominal one allow (02, No. 8).
    fn of(block: &[u8]) -> Option<Standing> {
        let state = unpack(block)?;
        let tasks = state.tasks();
        let nominal = judge_list(&state.levels, &tasks).ok()?.nominal;
        let order = state.running?;
        let job = state.entries.get(order.task)?;
        let floor = job.task.floor as usize;
        if !(floor..=nominal.max(floor)).contains(&order.level) || !job.left.is_open() {
            return None;
        }
        let own = urgency_in(&state, order.task);
        let mut base = 0;
        for (task, entry) in state.entries.iter().enumerate() {
            if urgency_in(&state, task) <= own {
                base += entry.plain_left;
            }
        }
        let open = state.entries.iter().filter(|entry| entry.left.is_open());
        Some(Standing {
            lone: open.count() == 1,
            behind: time_needed(job.left, state.levels.speed(nominal)) > job.plain_left,
            in_fixed: job.left.fixed > 0,
            needed: time_needed(job.left, state.levels.speed(order.level)),
            gap: first_arrival_after(&tasks, state.clock) - state.clock,
            base,
        })
    }

    /// Which of the cases it is; some go together.
    fn cases(&self) -> Vec<Case> {
        let (needed, gap, base) = (self.needed, self.gap, self.base);
        let alone = |behind| self.lone && self.behind == behind;
        let in_company = |behind| !self.lone && self.behind == behind;
        let all = [
            (Case::ByBase, alone(false) && gap < needed && needed <= base),
            (Case::ByGap, alone(false) && base < needed && needed <= gap),
            (Case::TooSlow, alone(false) && gap.max(base) < needed),
            (Case::Behind, alone(true) && needed < gap),
            (Case::AtGap, alone(true) && needed == gap),
            (Case::OneOver, alone(true) && needed == gap + 1),
            (
                Case::OnlyBase,
                alone(true) && gap < needed && needed <= base,
            ),
            (Case::BehindInCompany, in_company(true) && needed <= gap),
            (
                Case::GapInCompany,
                in_company(false) && base < needed && needed <= gap,
            ),
        ];
        let holds = all.into_iter().filter(|(_, holds)| *holds);
        holds.map(|(case, _)| case).collect()
    }

    /// 02's exception: it "lets a lone job's time at nominal exceed its plain ticks left if its time at
    /// the order's level is at most the ticks to the next arrival".
    fn by_exception(&self) -> bool {
        self.lone && self.behind && self.needed <= self.gap
    }
}

/// The task's latest job, which is the one that the entry stands for.
fn urgency_in(state: &State, task: usize) -> Urgency {
    let period = state.entries[task].task.period;
    urgency(&state.tasks(), task, state.clock / period * period)
}

#[derive(Clone, Copy, PartialEq, Eq, PartialOrd, Ord, Debug)]
enum Case {
    /// Alone and ahead of its plain ticks: the order's level meets 01's allowance and not the gap, the
    /// gap and not 01's allowance, or neither.
    ByBase,
    ByGap,
    TooSlow,
    /// Alone and behind its plain ticks: its time at the order's level is less than the gap, as much,
    /// or one more; or it is more, but within 01's allowance.
    Behind,
    AtGap,
    OneOver,
    OnlyBase,
    /// Another job is open: behind, and its time is within the gap; or ahead, and its time is within
    /// the gap and not within 01's allowance.
    BehindInCompany,
    GapInCompany,
}

impl Case {
    const SOUND: [Case; 4] = [Case::ByBase, Case::ByGap, Case::Behind, Case::AtGap];

    /// Whatever else there is in a state.
    const UNSOUND: [Case; 5] = [
        Case::TooSlow,
        Case::OneOver,
        Case::OnlyBase,
        Case::BehindInCompany,
        Case::GapInCompany,
    ];
}

/// How often there was a state of each case, and how often one was taken for sound by the exception
/// while its job had fixed ticks left.
#[derive(Default, Debug)]
struct Seen {
    cases: BTreeMap<(Case, bool), u64>,
    in_fixed: u64,
}

impl Seen {
    /// Counts a state, and whether it was taken for a sound one. The unsound cases never are.
    #[track_caller]
    fn note(&mut self, state: &[u8], taken: bool) {
        let standing = match Standing::of(state) {
            Some(standing) => standing,
            None => return,
        };
        for case in standing.cases() {
            let unsound = Case::UNSOUND.contains(&case);
            assert!(!(taken && unsound), "{case:?} {standing:?}");
            *self.cases.entry((case, taken)).or_default() += 1;
        }
        let by_exception = taken && standing.by_exception();
        self.in_fixed += u64::from(by_exception && standing.in_fixed);
    }

    /// Wants each case, sound or not as it has to be, at least so often.
    #[track_caller]
    fn wants(&self, what: &str, least: u64) {
        println!("{what}: {self:?}");
        let sound = Case::SOUND.map(|case| (case, true));
        let unsound = Case::UNSOUND.map(|case| (case, false));
        for case in sound.iter().chain(&unsound) {
            let times = self.cases.get(case).copied().unwrap_or(0);
            assert!(times >= least, "{what}: {case:?} only {times} times");
        }
        assert!(self.in_fixed >= least, "{self:?}");
    }
}

/// The state with one number that is one more or one less: a tick of the clock, a level, a unit of the
/// running job's work, a fixed tick or a plain tick of it, which the total has too. Then with another job
/// open.
fn beside(random: &mut Random, state: &[u8; STATE_BYTES]) -> Vec<[u8; STATE_BYTES]> {
    let task = TASK.get(state) as usize;
    let of_job = [WORK_LEFT, FIXED_LEFT, PLAIN_LEFT].map(|part| of_task(task, part));
    let mut all = Vec::new();
    for field in [CLOCK, LEVEL].into_iter().chain(of_job) {
        let number = field.get(state);
        for other in [number + 1, number.wrapping_sub(1)] {
            let mut moved = *state;
            field.put(&mut moved, other);
            put_total(&mut moved);
            all.push(moved);
        }
    }
    all.push(with_another_job_open(random, state));
    all
}

/// Would catch a lone job that is refused what No. 4 allows, or allowed more: a time that must be less
/// than the gap, or may be one more; 01's allowance taken for the gap, or the other way round; and the
/// same allowed in company. Each state is put to both, and so are those one step beside it.
#[test]
fn lone_states_and_those_beside_them() {
    let mut both = Both::new(&Levels::base());
    let mut random = Random::new(1_001);
    let (mut made, mut near) = (Seen::default(), Seen::default());
    for _ in 0..8_000 {
        let (levels, plan) = some_plan(&mut random);
        let (state, kind) = lone_state(&mut random, &levels, &plan);
        let taken = put_state(&mut both, &mut random, &state);
        assert_eq!(taken, kind.is_sound(), "{kind:?} {state:02x?}");
        made.note(&state, taken);
        for other in beside(&mut random, &state) {
            let taken = put_state(&mut both, &mut random, &other);
            near.note(&other, taken);
        }
        if let Some((crowded, _)) = crowded_state(&mut random, &levels, &plan) {
            made.note(&crowded, put_state(&mut both, &mut random, &crowded));
        }
    }
    both.saw("lone states and those beside them", 220_000);
    made.wants("made", 100);
    near.wants("beside", 300);
    both.wants_editions(&[Call::Show], 5_000);
    both.wants(Call::Pass, ACCEPTED, 15_000);
    both.wants(Call::Pass, 10, 20_000);
}

/// The state with all jobs ended but the running one.
fn alone(state: &[u8; STATE_BYTES]) -> [u8; STATE_BYTES] {
    let mut state = unpack(state).expect("it is a state");
    let running = state.running.expect("its order runs a job").task;
    for (task, entry) in state.entries.iter_mut().enumerate() {
        if task != running {
            entry.left = Left::NOTHING;
        }
    }
    pack(&state)
}

/// Would catch what No. 4 allows being allowed in company: a state with a second open job, which has
/// plain ticks for all that it needs, isn't sound, and with that job ended it is.
#[test]
fn a_second_open_job_makes_it_unsound() {
    let mut both = Both::new(&Levels::base());
    let mut random = Random::new(1_002);
    let mut seen: BTreeMap<Crowded, u32> = BTreeMap::new();
    for _ in 0..3_500 {
        let (levels, plan) = some_plan(&mut random);
        let (state, kind) = match crowded_state(&mut random, &levels, &plan) {
            Some(crowded) => crowded,
            None => continue,
        };
        assert!(!put_state(&mut both, &mut random, &state), "{kind:?}");
        assert!(
            put_state(&mut both, &mut random, &alone(&state)),
            "{kind:?}"
        );
        *seen.entry(kind).or_default() += 1;
    }
    both.saw("a second open job", 10_000);
    println!("{seen:?}");
    for kind in [Crowded::Behind, Crowded::ByGap] {
        assert!(seen.get(&kind) > Some(&500), "{seen:?}");
    }
}

/// What a state becomes with one field of its running job changed, or of its head.
fn with(state: &[u8; STATE_BYTES], change: impl Fn(&mut State, usize)) -> [u8; STATE_BYTES] {
    let mut state = unpack(state).expect("it is a state");
    let task = state.running.expect("its order runs a job").task;
    change(&mut state, task);
    pack(&state)
}

/// The most work that the running job's ticks at the order's level hold.
fn most_work(state: &[u8; STATE_BYTES]) -> u64 {
    let state = unpack(state).expect("it is a state");
    let order = state.running.expect("its order runs a job");
    let (left, speed) = (
        state.entries[order.task].left,
        state.levels.speed(order.level),
    );
    (time_needed(left, speed) - left.fixed) * speed
}

/// How often each edge was met.
#[derive(Default, Debug)]
struct Edges {
    tick_later: u32,
    tick_earlier: u32,
    unit: u32,
    plain_tick: u32,
}

/// A lone job behind its plain ticks that ends with the next arrival: with a tick less to it the state
/// is unsound, with a tick more it is sound; the last unit that its ticks hold is in, the next one not.
fn put_edges_of_the_gap(
    both: &mut Both,
    random: &mut Random,
    state: &[u8; STATE_BYTES],
    seen: &mut Edges,
) {
    let now = unpack(state).expect("it is a state");
    let gap = first_arrival_after(&now.tasks(), now.clock) - now.clock;
    if gap > 1 {
        let later = with(state, |state, _| state.clock += 1);
        assert!(!put_state(both, random, &later));
        seen.tick_later += 1;
    }
    if now.entries.iter().all(|it| now.clock % it.task.period != 0) {
        let earlier = with(state, |state, _| state.clock -= 1);
        assert!(put_state(both, random, &earlier));
        seen.tick_earlier += 1;
    }
    let most = most_work(state);
    let job = now.entries[now.running.expect("its order runs a job").task];
    if most < job.task.worst {
        let full = with(state, |state, task| state.entries[task].left.work = most);
        assert!(put_state(both, random, &full));
        let over = with(&full, |state, task| state.entries[task].left.work += 1);
        assert!(!put_state(both, random, &over));
        seen.unit += 1;
    }
}

/// A lone job that doesn't end within the gap, but within 01's allowance: with plain ticks for its time
/// at nominal the state is sound, with one less it isn't.
fn put_edge_of_the_plain_ticks(
    both: &mut Both,
    random: &mut Random,
    state: &[u8; STATE_BYTES],
    seen: &mut Edges,
) {
    let ahead = with(state, |state, task| {
        let judged = judge_list(&state.levels, &state.tasks()).expect("an accepted plan");
        let entry = &mut state.entries[task];
        entry.plain_left = time_needed(entry.left, state.levels.speed(judged.nominal));
    });
    let one_less = with(&ahead, |state, task| state.entries[task].plain_left -= 1);
    if Standing::of(&one_less).map_or(false, |it| it.needed <= it.base) {
        assert!(put_state(both, random, &ahead));
        assert!(!put_state(both, random, &one_less));
        seen.plain_tick += 1;
    }
}

/// Would catch the exception being off by a tick, a unit or a plain tick.
#[test]
fn on_each_side_of_the_gap() {
    let mut both = Both::new(&Levels::base());
    let mut random = Random::new(1_003);
    let mut seen = Edges::default();
    for _ in 0..9_000 {
        let (levels, plan) = some_plan(&mut random);
        let (state, kind) = lone_state(&mut random, &levels, &plan);
        match kind {
            Lone::AtGap => put_edges_of_the_gap(&mut both, &mut random, &state, &mut seen),
            Lone::OverGap => put_edge_of_the_plain_ticks(&mut both, &mut random, &state, &mut seen),
            _ => {}
        }
    }
    both.saw("each side of the gap", 8_900);
    println!("{seen:?}");
    let Edges {
        tick_later,
        tick_earlier,
        unit,
        plain_tick,
    } = seen;
    for times in [tick_later, tick_earlier, unit, plain_tick] {
        assert!(times >= 150, "{seen:?}");
    }
}

/// What the passes from forged states met.
#[derive(Default, Debug)]
struct Led {
    /// States sound by the exception: at first, and after accepted passes.
    first: u64,
    after: u64,
    /// Passes from these: a finish at the next arrival, one before it, and one refused with 14.
    at_arrival: u64,
    before: u64,
    refused: u64,
}

/// Leads a sound state on by some passes. After each, accepted or refused, neither call says 10.
fn lead_on(both: &mut Both, random: &mut Random, state: &mut [u8; STATE_BYTES], led: &mut Led) {
    let in_use = |state: &[u8]| Standing::of(state).map_or(false, |it| it.by_exception());
    led.first += u64::from(in_use(state));
    for _ in 0..6 {
        let (view, before) = (View::of(state), in_use(state));
        let (d, finished) = match random.below(4) {
            0 => (view.hold() as u32, false),
            1 => view.going_on(random),
            _ => view.some_pass(random),
        };
        let reply = both.pass(state, d, told(random, finished));
        assert_eq!(reply.err().unwrap_or(0), view.refusal(d, finished));
        assert!(both.show(state, 48).is_ok(), "{state:02x?}");
        led.after += u64::from(reply.is_ok() && in_use(state));
        let ended = before && finished && reply.is_ok();
        led.at_arrival += u64::from(ended && u64::from(d) == view.to_arrival);
        led.before += u64::from(ended && u64::from(d) < view.to_arrival);
        led.refused += u64::from(before && reply == Err(14));
    }
}

/// Would catch a pass that leaves a sound state unsound: lone states, those one step beside them and
/// ones with another job open, led on by several passes each as far as they are sound.
#[test]
fn sound_states_stay_sound() {
    let mut both = Both::new(&Levels::base());
    let mut random = Random::new(1_004);
    let mut led = Led::default();
    for _ in 0..3_500 {
        let (levels, plan) = some_plan(&mut random);
        let (state, _) = lone_state(&mut random, &levels, &plan);
        let mut states = beside(&mut random, &state);
        states.push(state);
        for _ in 0..3 {
            let mut forged = random.pick(&states);
            if put_state(&mut both, &mut random, &forged) {
                lead_on(&mut both, &mut random, &mut forged, &mut led);
            }
        }
    }
    both.saw("sound states led on", 65_000);
    println!("{led:?}");
    let Led {
        first,
        after,
        at_arrival,
        before,
        refused,
    } = led;
    for times in [first, after, at_arrival, before, refused] {
        assert!(times >= 300, "{led:?}");
    }
}

/// All that can be left of a task's job and of its plain ticks.
fn every_entry(task: &Task, nominal: u64) -> Vec<Entry> {
    let mut all = Vec::new();
    for fixed in 0..=task.fixed {
        for work in 0..=task.worst {
            for plain_left in 0..=allotment(task, nominal) {
                all.push(Entry {
                    task: *task,
                    left: Left { fixed, work },
                    plain_left,
                });
            }
        }
    }
    all
}

/// All states of a plan in its first hyperperiod, sound or not, with any order to run a task at a level of
/// the table.
fn every_state(levels: &Levels, plan: &[Task]) -> Vec<[u8; STATE_BYTES]> {
    let judged = judge_list(levels, plan).expect("the plan is an accepted one");
    let mut lists = vec![Vec::new()];
    for task in plan {
        let more = every_entry(task, levels.speed(judged.nominal));
        let longer = |list: &Vec<Entry>| {
            let list = list.clone();
            more.iter()
                .map(move |entry| [&list[..], &[*entry]].concat())
                .collect::<Vec<_>>()
        };
        lists = lists.iter().flat_map(longer).collect();
    }
    let mut all = Vec::new();
    for clock in 0..judged.hyperperiod {
        for entries in &lists {
            for order in 0..plan.len() * levels.count() {
                all.push(pack(&State {
                    clock,
                    running: Some(Running {
                        task: order % plan.len(),
                        level: order / plan.len(),
                    }),
                    entries: entries.clone(),
                    levels: levels.clone(),
                }));
            }
        }
    }
    all
}

/// Puts every pass that can be accepted, and those one tick beyond, to a sound state; after each, both
/// calls take it for sound still, and the total is what the pass had to make of it.
fn put_every_pass(both: &mut Both, state: &[u8; STATE_BYTES]) {
    let view = View::of(state);
    for d in 1..=view.to_arrival as u32 + 1 {
        for finished in [false, true] {
            let mut after = *state;
            let reply = both.pass(&mut after, d, u8::from(finished));
            assert_eq!(reply.err().unwrap_or(0), view.refusal(d, finished));
            if reply.is_ok() {
                assert!(both.show(&after, 48).is_ok());
                assert_eq!(both.pass(&mut after, 0, 0), Err(11));
                let total = Step::of(state, d).after();
                assert_eq!(both.queued(&after).map(u64::from), Ok(total));
            }
        }
    }
}

/// Would catch any wrong answer about soundness in plans so small that all of their states can be put
/// to both, and any pass that leads from a sound one to an unsound one.
#[test]
fn every_state_of_small_plans() {
    let mut both = Both::new(&Levels::base());
    let mut seen = Seen::default();
    // With three tasks a job in company can be behind its plain ticks, and within the gap and those
    // that an ended job has left.
    let plans = [
        (&[1][..], &[(4, 3, 0, 0), (8, 2, 0, 0)][..]),
        (&[1, 2], &[(3, 2, 0, 0), (3, 2, 0, 0)]),
        (&[1, 2], &[(2, 1, 0, 0), (6, 4, 0, 0)]),
        (&[1, 2, 3], &[(4, 3, 0, 0), (6, 3, 1, 0)]),
        (&[1], &[(4, 1, 0, 0), (4, 1, 0, 0), (4, 1, 0, 0)]),
        (&[1, 2], &[(4, 2, 0, 0), (4, 2, 0, 0), (4, 1, 0, 0)]),
        // 02, No. 8: floors at nominal and above it.
        (&[1, 2], &[(3, 2, 0, 1), (3, 2, 0, 0)]),
        (&[1, 2, 3], &[(3, 2, 0, 2), (3, 2, 0, 1)]),
        (&[1, 2, 3], &[(4, 3, 0, 1), (6, 3, 1, 2)]),
    ];
    for (speeds, plan) in plans {
        for state in every_state(&Levels::new(speeds), &floor_tasks(plan)) {
            let taken = both.show(&state, 48).is_ok();
            seen.note(&state, taken);
            if taken {
                put_every_pass(&mut both, &state);
            } else {
                assert_eq!(both.pass(&mut state.clone(), 1, 0), Err(10));
            }
        }
    }
    both.saw("every state of small plans", 100_000);
    seen.wants("every state of small plans", 50);
}
