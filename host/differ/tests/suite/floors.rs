//! 02, No. 8: floors. Directed cases with the answers worked out by hand, and random ones: where 24 stands
//! among the questions, round trips, the level that is chosen, and what soundness wants of a level and of
//! a floor. Runs with floors are in `runs`, and a floor's bits in `blocks`.

use crate::both::{Both, Call, Kind, ACCEPTED};
use crate::dispatch::STATE_BYTES;
use crate::made::{
    bench_plan, fits_block, floor_tasks, numbers_of, put_tasks, some_plan, tasks, Additions,
};
use crate::states::{put_state, some_sound_state};
use crate::view::{queue_bytes, told, View};
use differ::dispatcher::Order;
use sim::block::{pack_block, Edition};
use sim::dispatch::sound;
use sim::job::time_needed;
use sim::layout::{floor_in, put_floor, COUNT, LEVEL, LEVEL_COUNT};
use sim::levels::{Levels, MOST_LEVELS};
use sim::plan::{judge_list, Task};
use sim::random::blocks::block_of;
use sim::random::pairs::{bad_list, good_list};
use sim::random::plans::with_floors;
use sim::random::states::reached_state;
use sim::random::tables::levels_of_count;
use sim::random::Random;
use sim::schedule::{first_arrival_after, urgency};
use sim::state::{unpack, State};
use std::collections::BTreeMap;

const fn run(task: u8, level: u8, hold: u32) -> Order {
    Order::Run { task, level, hold }
}

const fn idle(hold: u32) -> Order {
    Order::Idle { hold }
}

/// Speeds of 10, 20 .. units a tick, as many as told.
fn so_many(count: usize) -> Levels {
    let speeds: Vec<u64> = (1..=count as u64).map(|nth| 10 * nth).collect();
    Levels::new(&speeds)
}

/// 01's speeds and this plan, after passes that are all accepted: the state, and the order of the last.
#[track_caller]
fn led(both: &mut Both, plan: &[Task], passes: &[(u32, u8)]) -> ([u8; STATE_BYTES], Order) {
    let mut state = [0xa5; STATE_BYTES];
    let mut order = both.start(&block_of(plan), &[], &mut state);
    for (d, finished) in passes {
        order = both.pass(&mut state, *d, *finished);
    }
    (state, order.expect("all are accepted"))
}

/// The task and the level of a run order.
fn running(order: Order) -> Option<(usize, usize)> {
    match order {
        Order::Run { task, level, .. } => Some((usize::from(task), usize::from(level))),
        Order::Idle { .. } => None,
    }
}

/// Would catch a floor at another place of the state, one that is lost when a job ends or comes again, and
/// one that gets into the work left.
#[test]
fn the_floor_in_the_state_byte_by_byte() {
    let mut both = Both::new(&Levels::base());
    let plan = floor_tasks(&[(10, 400, 0, 6), (10, 400, 0, 0), (30, 600, 0, 7)]);
    let (mut state, order) = led(&mut both, &plan, &[]);
    assert_eq!(order, run(0, 7, 4));
    // 400 is hex 190 and 600 is hex 258.
    assert_eq!(state[8..20], [0, 10, 0x60, 1, 0x90, 0, 1, 0x90, 0, 4, 0, 0]);
    assert_eq!(
        state[20..32],
        [0, 10, 0x00, 1, 0x90, 0, 1, 0x90, 0, 4, 0, 0]
    );
    assert_eq!(
        state[32..44],
        [0, 30, 0x70, 2, 0x58, 0, 2, 0x58, 0, 6, 0, 0]
    );
    assert!(state[44..200].iter().all(|byte| *byte == 0));
    assert_eq!(both.pass(&mut state, 1, 1), Ok(run(1, 5, 7)));
    assert_eq!(state[8..20], [0, 10, 0x60, 1, 0x90, 0, 0, 0, 0, 3, 0, 0]);
    assert_eq!(both.pass(&mut state, 7, 1), Ok(run(2, 7, 2)));
    assert_eq!(both.pass(&mut state, 2, 1), Ok(run(0, 7, 4)));
    assert_eq!(state[8..20], [0, 10, 0x60, 1, 0x90, 0, 1, 0x90, 0, 4, 0, 0]);
    assert_eq!(state[32..44], [0, 30, 0x70, 2, 0x58, 0, 0, 0, 0, 4, 0, 0]);
    // The largest of both: 20 bits of worst case, all of them set, and a floor of 7.
    let (state, order) = led(&mut both, &floor_tasks(&[(65_535, 1_048_575, 255, 7)]), &[]);
    assert_eq!(order, run(0, 7, 255 + 10_486));
    assert_eq!(state[8..16], [255, 255, 0x7f, 255, 255, 0x0f, 255, 255]);
}

/// Would catch a floor that is not obeyed, is obeyed up to nominal only, or changes the plain schedule: 300
/// units of a task alone, whose nominal level is 0, are so many ticks at each of 01's levels.
#[test]
fn a_floor_above_nominal_of_a_lone_job() {
    let mut both = Both::new(&Levels::base());
    for (floor, ticks) in [30, 15, 10, 8, 6, 5, 4, 3].into_iter().enumerate() {
        let plan = floor_tasks(&[(40, 300, 0, floor as u64)]);
        let (mut state, order) = led(&mut both, &plan, &[]);
        assert_eq!(order, run(0, floor as u8, ticks));
        assert_eq!(both.show(&state, 3), Ok(queue_bytes(&[(0, 30)])));
        assert_eq!(both.pass(&mut state, ticks, 0), Err(14));
        assert_eq!(both.pass(&mut state, ticks + 1, 1), Err(14));
        let stays = run(0, floor as u8, ticks - 1);
        assert_eq!(both.pass(&mut state.clone(), 1, 0), Ok(stays));
        assert_eq!(both.pass(&mut state, ticks, 1), Ok(idle(40 - ticks)));
        assert_eq!(both.queued(&state), Ok(30 - ticks));
    }
}

/// The same beside another task: at level 1, which is nominal, they have 5 and 10 ticks of 20.
#[test]
fn a_floor_above_nominal_of_one_of_several() {
    let mut both = Both::new(&Levels::base());
    let plan = floor_tasks(&[(20, 100, 0, 7), (20, 200, 0, 2)]);
    let (mut state, order) = led(&mut both, &plan, &[]);
    assert_eq!(order, run(0, 7, 1));
    assert_eq!(both.pass(&mut state, 1, 0), Err(14));
    // 14 plain ticks and 19 to the next arrival: 10 at level 1 would do, and 7 are it at level 2.
    assert_eq!(both.pass(&mut state, 1, 1), Ok(run(1, 2, 7)));
    assert_eq!(both.show(&state, 6), Ok(queue_bytes(&[(0, 4), (1, 10)])));
    assert_eq!(both.pass(&mut state, 7, 1), Ok(idle(12)));
    assert_eq!(both.show(&state, 6), Ok(queue_bytes(&[(1, 7)])));
    // Without the second floor, and with the first one alone.
    let one = floor_tasks(&[(20, 100, 0, 7), (20, 200, 0, 0)]);
    assert_eq!(led(&mut both, &one, &[(1, 1)]).1, run(1, 1, 10));
}

/// Would catch a floor taken for the level: where the allowance wants a higher one, that is chosen. At 1
/// task 1 of the bench plan has 7 ticks for 400 units.
#[test]
fn a_floor_below_the_level_changes_nothing() {
    let mut both = Both::new(&Levels::base());
    for (floor, order) in [(0, 5), (1, 5), (4, 5), (5, 5), (6, 6), (7, 7)] {
        let plan = floor_tasks(&[(10, 400, 0, 0), (10, 400, 0, floor), (30, 600, 0, 0)]);
        let hold = [7, 5, 4][order as usize - 5];
        assert_eq!(led(&mut both, &plan, &[(1, 1)]).1, run(1, order, hold));
    }
    // 02, No. 4: alone at 14 it has 6 ticks to the next arrival, so level 6 unless its floor is above.
    let passes = [(4, 1), (4, 1), (2, 1), (4, 1)];
    for (floor, order) in [(5, run(1, 6, 5)), (6, run(1, 6, 5)), (7, run(1, 7, 4))] {
        let plan = floor_tasks(&[(10, 400, 0, 0), (10, 400, 0, floor), (30, 600, 0, 0)]);
        assert_eq!(led(&mut both, &plan, &passes).1, order);
    }
}

/// A plan made so that certain questions say no, and what they are.
struct Faulty {
    list: Vec<Task>,
    /// In the order in which they are asked.
    refusals: Vec<u32>,
}

/// Over two levels: with each of the faults told by its number, or without it. Without an addition a block
/// of edition 2 is refused with 21; a bad floor is one.
fn faulty(random: &mut Random, faults: &[u32]) -> Faulty {
    let mut list = floor_tasks(&[(2_000, 30, 0, 0)]);
    let has = |number: u32| faults.contains(&number);
    if has(6) {
        let bad = [(0, 1, 0, 0), (2_000, 0, 0, 0)];
        list.extend(floor_tasks(&[random.pick(&bad)]));
    }
    if has(24) {
        let floor = random.pick(&[2, 2, 3, 7]);
        list.extend(floor_tasks(&[(2_000, 1, 0, floor)]));
    } else if !has(21) {
        let addition = random.pick(&[(2_000, 1, 1, 0), (2_000, 1, 0, 1), (2_000, 1, 1, 1)]);
        list.extend(floor_tasks(&[addition]));
    }
    if has(7) {
        list.extend(tasks(&[(1_999, 1)]));
    }
    if has(8) {
        list.extend(tasks(&[(2_000, 1_000_000)]));
    }
    for place in 0..list.len() {
        let other = random.place(list.len());
        list.swap(place, other);
    }
    let asked = [6, 21, 24, 7, 8, 22, 9];
    let refusals = asked.into_iter().filter(|number| has(*number)).collect();
    Faulty { list, refusals }
}

/// Puts the tasks to all calls that take a plan. Each refuses with the first of its own questions.
#[track_caller]
fn put_faulty(both: &mut Both, random: &mut Random, faulty: &Faulty) {
    let Faulty { list, refusals } = faulty;
    let (count, numbers) = (list.len(), numbers_of(list));
    let block = pack_block(Edition::SECOND, count as u64, list);
    let first = |own: &[u32]| refusals.iter().copied().find(|it| own.contains(it));
    let short = refusals.contains(&9);
    let pairs = match refusals.contains(&22) {
        // Pairs of tasks whose periods can't be told are bad in other ways.
        true if list.iter().any(|task| task.period == 0) => vec![0],
        true => bad_list(random, list),
        false => Vec::new(),
    };
    assert_eq!(both.judge(count, &numbers).err(), first(&[6, 24, 7, 8]));
    assert_eq!(both.read(&block).err(), first(&[6, 21, 24, 7, 8]));
    let asked = both.pairs(&block, &pairs).err();
    assert_eq!(asked, first(&[6, 21, 24, 7, 8, 22]));
    let room = if short { random.place(6) } else { 96 };
    let written = both.write(count, &numbers, room).err();
    assert_eq!(written, first(&[6, 24, 7, 8, 9]));
    let copied = both.copy(&block, room).err();
    assert_eq!(copied, first(&[6, 21, 24, 7, 8, 9]));
    let room = STATE_BYTES - usize::from(short);
    let started = both.start(&block, &pairs, &mut vec![0x3c; room]).err();
    assert_eq!(started, first(&[6, 21, 24, 7, 8, 22, 9]));
}

/// Would catch 24 asked before 6, or after 7, 8, 22 or 9, by any call: all choices of faults, but for 21
/// and 24 together, which no block has.
#[test]
fn where_24_stands_among_the_questions() {
    let mut both = Both::new(&Levels::new(&[50, 100]));
    let mut random = Random::new(1_801);
    let numbers = [6, 21, 24, 7, 8, 22, 9];
    for choice in 0..1 << numbers.len() {
        let chosen = |place: &usize| choice >> place & 1 == 1;
        let places = (0..numbers.len()).filter(chosen);
        let faults: Vec<u32> = places.map(|place| numbers[place]).collect();
        if faults.contains(&21) && faults.contains(&24) {
            continue;
        }
        for _ in 0..12 {
            let faulty = faulty(&mut random, &faults);
            put_faulty(&mut both, &mut random, &faulty);
        }
    }
    both.saw("where 24 stands", 6_900);
    for call in [Call::Judge, Call::Read, Call::Write, Call::Copy] {
        both.wants(call, 24, 150);
    }
    for call in [Call::Pairs, Call::Start] {
        for number in [6, 21, 24, 7, 8, 22] {
            both.wants(call, number, 20);
        }
    }
    both.wants_never(Call::Judge, 21);
    both.wants_never(Call::Write, 21);
    both.wants(Call::Start, 9, 12);
    both.wants(Call::Start, ACCEPTED, 12);
}

/// Would catch a floor that is refused though its level is there, let through though it isn't, or told by
/// another number: every floor of every task over every count of levels, and floors of any size.
#[test]
fn every_floor_over_every_count_of_levels() {
    let mut both = Both::new(&Levels::base());
    let mut random = Random::new(1_802);
    for count in 1..=MOST_LEVELS as usize {
        both.load(&so_many(count));
        for size in 1..=16 {
            for place in 0..size {
                let large = 1 << random.between(4, 31);
                let sizes = [8, 9, 15, 16, 255, 256, 65_536, u64::from(u32::MAX), large];
                for floor in (0..8).chain(sizes) {
                    let mut list = tasks(&vec![(60_000, 37); size]);
                    list[place].floor = floor;
                    let judged = put_tasks(&mut both, &mut random, &list);
                    let refusal = (floor >= count as u64).then_some(24);
                    assert_eq!(judged.err(), refusal, "{floor} of {count}");
                    assert_eq!(fits_block(&list), floor < 8);
                }
            }
        }
    }
    both.saw("every floor over every count of levels", 50_000);
    both.wants(Call::Judge, 24, 8 * 136 * 9);
    both.wants(Call::Read, 24, 136 * 28);
    both.wants_kind(Call::Read, Kind::FloorsAlone, 136 * 28);
    both.wants_kind(Call::Write, Kind::FloorsAlone, 2_000);
}

/// Would catch a round trip that loses a floor, writes another edition, or leaves another byte: what is
/// written reads back as the same tasks, and what is read is written as the same bytes.
#[test]
fn round_trips() {
    let mut both = Both::new(&Levels::base());
    let mut random = Random::new(1_803);
    let mut seen: BTreeMap<String, u32> = BTreeMap::new();
    for _ in 0..6_000 {
        let (levels, plan) = some_plan(&mut random);
        both.load(&levels);
        let block = both.write(plan.len(), &numbers_of(&plan), 96).unwrap();
        let additions = Additions::of(&plan);
        assert_eq!(u64::from(block[0] >> 4), additions.edition().0);
        let (read, _) = sim::read_plan(&both.level_block, &block).unwrap();
        assert_eq!(read, plan);
        assert!(both.read(&block).is_ok());
        assert_eq!(both.copy(&block, block.len()).as_ref(), Ok(&block));
        *seen.entry(format!("{additions:?}")).or_default() += 1;
    }
    both.saw("round trips", 18_000);
    println!("    {seen:?}");
    assert_eq!(seen.len(), 4, "{seen:?}");
    assert!(seen.values().all(|times| *times > 600), "{seen:?}");
}

/// The plan with this floor under a task.
fn floored(plan: &[Task], task: usize, floor: usize) -> Vec<Task> {
    let mut plan = plan.to_vec();
    plan[task].floor = floor as u64;
    plan
}

/// Would catch a first order at another level than the higher of the floor and the level without it: every
/// floor that the table has, under the task that is started, and under another, where it is nothing to it.
#[test]
fn first_orders_with_every_floor() {
    let mut both = Both::new(&Levels::base());
    let mut random = Random::new(1_804);
    let (mut raised, mut above, mut as_it_was) = (0, 0, 0);
    for _ in 0..2_000 {
        let (levels, plan) = some_plan(&mut random);
        both.load(&levels);
        let nominal = judge_list(&levels, &plan).unwrap().nominal;
        let plan: Vec<Task> = plan.iter().map(|task| Task { floor: 0, ..*task }).collect();
        let mut state = [0; STATE_BYTES];
        let first = both.start(&block_of(&plan), &[], &mut state).unwrap();
        let (task, lowest) = running(first).expect("a job has arrived");
        for floor in 0..levels.count() {
            let mut start = |plan: &[Task]| {
                let order = both.start(&block_of(plan), &[], &mut state).unwrap();
                running(order).expect("a job has arrived")
            };
            let own = start(&floored(&plan, task, floor));
            assert_eq!(own, (task, lowest.max(floor)), "{plan:?}");
            let other = random.place(plan.len());
            if other != task {
                assert_eq!(start(&floored(&plan, other, floor)), (task, lowest));
            }
            as_it_was += u32::from(floor <= lowest);
            raised += u32::from(floor > lowest && floor <= nominal);
            above += u32::from(floor > lowest && floor > nominal);
        }
    }
    both.saw("first orders with every floor", 10_000);
    println!("    {raised} raised, {above} above nominal, {as_it_was} as it was");
    // A first order has its own plain ticks alone, unless there is one task: then nominal is its level.
    assert!(above > 2_000 && as_it_was > 2_000, "{above} {as_it_was}");
}

/// Would catch the same after a pass: a state is led on with every floor that the table has under the task
/// whose order comes next. A floor of a job that doesn't run is nothing to the state's soundness.
#[test]
fn next_orders_with_every_floor() {
    let mut both = Both::new(&Levels::base());
    let mut random = Random::new(1_805);
    let mut seen: BTreeMap<&str, u32> = BTreeMap::new();
    for _ in 0..6_000 {
        let state = without_floors(&some_sound_state(&mut random));
        if sound(&state).is_none() {
            continue;
        }
        let now = unpack(&state).expect("the state is a sound one");
        let nominal = judge_list(&now.levels, &now.tasks()).unwrap().nominal;
        let (d, finished) = View::of(&state).some_pass(&mut random);
        let mut after = state;
        let reply = both.pass(&mut after, d, told(&mut random, finished));
        let (task, lowest) = match reply.map(running) {
            Ok(Some(order)) => order,
            _ => continue,
        };
        // With the same task running it may be the old order, whose level stays.
        let before = now.running.map(|order| order.task);
        if before == Some(task) {
            continue;
        }
        for floor in 0..now.levels.count() {
            let mut other = state;
            put_floor(&mut other, task, floor as u64);
            let reply = both.pass(&mut other, d, u8::from(finished));
            let order = reply.map(running);
            assert_eq!(order, Ok(Some((task, lowest.max(floor)))));
            assert_eq!(floor_in(&other, task), floor as u64);
            let kind = match floor {
                _ if floor > lowest && floor > nominal => "above nominal",
                _ if floor > lowest => "raised",
                _ => "as it was",
            };
            *seen.entry(kind).or_default() += 1;
        }
    }
    both.saw("next orders with every floor", 10_000);
    println!("    {seen:?}");
    assert_eq!(seen.len(), 3, "{seen:?}");
    assert!(seen.values().all(|times| *times > 1_000), "{seen:?}");
}

fn without_floors(state: &[u8; STATE_BYTES]) -> [u8; STATE_BYTES] {
    let mut without = *state;
    for task in 0..COUNT.get(state) as usize {
        put_floor(&mut without, task, 0);
    }
    without
}

/// What soundness asks of the running job of a state that is sound but for its level and its floors, all in
/// the words of 01 and 02.
struct Asked {
    state: State,
    task: usize,
    nominal: usize,
    lone: bool,
    behind: bool,
    gap: u64,
    allowance: u64,
}

impl Asked {
    /// Nothing where no job runs.
    fn of(block: &[u8]) -> Option<Asked> {
        let state = unpack(block).expect("the state is a sound one");
        let task = state.running?.task;
        let plan = state.tasks();
        let nominal = judge_list(&state.levels, &plan).ok()?.nominal;
        let urgency_of = |task: usize| {
            let period = plan[task].period;
            urgency(&plan, task, state.clock / period * period)
        };
        let as_urgent = (0..plan.len()).filter(|other| urgency_of(*other) <= urgency_of(task));
        let base: u64 = as_urgent.map(|it| state.entries[it].plain_left).sum();
        let open = state.entries.iter().filter(|entry| entry.left.is_open());
        let lone = open.count() == 1;
        let gap = first_arrival_after(&plan, state.clock) - state.clock;
        let entry = state.entries[task];
        let behind = time_needed(entry.left, state.levels.speed(nominal)) > entry.plain_left;
        Some(Asked {
            task,
            nominal,
            lone,
            behind,
            gap,
            allowance: if lone { base.max(gap) } else { base },
            state,
        })
    }

    /// Whether the level does what the job needs: it meets the allowance and, where the job is behind its
    /// plain ticks, it ends within the gap, alone.
    fn does(&self, level: usize) -> bool {
        let left = self.state.entries[self.task].left;
        let needed = time_needed(left, self.state.levels.speed(level));
        needed <= self.allowance && (!self.behind || self.lone && needed <= self.gap)
    }

    /// Which of No. 8's cases it is with such an order and such a floor.
    fn case(&self, level: usize, floor: usize) -> Case {
        let count = self.state.levels.count();
        match (level, floor) {
            (_, floor) if floor >= 8 => Case::NoLevelAtAll,
            (_, floor) if floor >= count => Case::NoLevelOfTheTable,
            (level, _) if level >= count => Case::PastTheTable,
            (level, floor) if level < floor && self.does(level) => Case::BelowTheFloor,
            (level, floor) if level > self.nominal.max(floor) => Case::AboveBoth,
            (level, _) if !self.does(level) => Case::TooSlow,
            (level, floor) if level < floor => panic!("{level} and {floor} are told above"),
            (_, _) if self.behind && floor > self.nominal => Case::BehindAboveNominal,
            (_, _) if self.behind && floor > 0 => Case::BehindWithFloor,
            (_, floor) if floor > self.nominal => Case::AboveNominal,
            (level, floor) if level == floor => Case::AtTheFloor,
            _ => Case::BetweenBoth,
        }
    }
}

#[derive(Clone, Copy, PartialEq, Eq, PartialOrd, Ord, Debug)]
enum Case {
    /// The floor is 8 to 15, or one that the table is too short for.
    NoLevelAtAll,
    NoLevelOfTheTable,
    /// The level is none of the table.
    PastTheTable,
    /// All else would be right.
    BelowTheFloor,
    AboveBoth,
    TooSlow,
    /// Sound: behind its plain ticks by No. 4's exception, with a floor above nominal and with a lower one.
    BehindAboveNominal,
    BehindWithFloor,
    /// Sound: ahead of them, at a floor above nominal, at a lower one, and above it up to nominal.
    AboveNominal,
    AtTheFloor,
    BetweenBoth,
}

impl Case {
    fn is_sound(self) -> bool {
        self >= Case::BehindAboveNominal
    }
}

/// A state that is sound but for its level and its floors, with a job that runs.
fn some_running_state(random: &mut Random) -> ([u8; STATE_BYTES], Asked) {
    loop {
        let state = some_sound_state(random);
        if let Some(asked) = Asked::of(&state) {
            return (state, asked);
        }
    }
}

/// Would catch a bound of the level that is off by one, the floor of another task asked about, a floor above
/// nominal that is not obeyed, and 24 left out: every level with every floor of four bits, in states of
/// every kind.
#[test]
fn every_level_with_every_floor() {
    let mut both = Both::new(&Levels::base());
    let mut random = Random::new(1_806);
    let mut seen: BTreeMap<Case, u64> = BTreeMap::new();
    for _ in 0..600 {
        let (state, asked) = some_running_state(&mut random);
        let count = LEVEL_COUNT.get(&state);
        for floor in 0..16 {
            for level in (0..=count).chain([255]) {
                let mut other = state;
                put_floor(&mut other, asked.task, floor);
                LEVEL.put(&mut other, level);
                let case = asked.case(level as usize, floor as usize);
                let taken = put_state(&mut both, &mut random, &other);
                assert_eq!(taken, case.is_sound(), "{case:?} {other:02x?}");
                *seen.entry(case).or_default() += 1;
            }
        }
    }
    both.saw("every level with every floor", 100_000);
    println!("    {seen:?}");
    assert_eq!(seen.len(), 11, "{seen:?}");
    assert!(seen.values().all(|times| *times >= 50), "{seen:?}");
}

/// Would catch a floor that is asked about in the running task's entry alone, or past the count: every floor
/// in every entry.
#[test]
fn every_floor_in_every_entry() {
    let mut both = Both::new(&Levels::base());
    let mut random = Random::new(1_807);
    let (mut sound_still, mut no_level, mut past) = (0, 0, 0);
    for _ in 0..200 {
        let state = some_sound_state(&mut random);
        let now = unpack(&state).expect("the state is a sound one");
        let (tasks, count) = (now.entries.len(), now.levels.count() as u64);
        for task in 0..16 {
            for floor in 0..16 {
                let mut other = state;
                put_floor(&mut other, task, floor);
                let taken = put_state(&mut both, &mut random, &other);
                let runs = now.running.map(|order| order.task) == Some(task);
                if task >= tasks {
                    assert_eq!(taken, floor == 0);
                    past += u32::from(!taken);
                } else if floor >= count {
                    assert!(!taken);
                    no_level += 1;
                } else if !runs {
                    assert!(taken, "{other:02x?}");
                    sound_still += 1;
                }
            }
        }
    }
    both.saw("every floor in every entry", 100_000);
    println!("    {sound_still} sound, {no_level} naming no level, {past} past the count");
    assert!(
        sound_still > 3_000 && no_level > 5_000 && past > 10_000,
        "{sound_still} {no_level} {past}"
    );
}

/// Would catch a state that is judged by another count of levels than its own: the table of a sound state
/// is cut to fewer levels, or is given more.
#[test]
fn floors_and_the_states_own_table() {
    let mut both = Both::new(&Levels::base());
    // 20 units in 40 ticks: at each of these speeds they are a tick, so that the table's count alone
    // decides.
    for floor in 0..8 {
        for count in 1..=8 {
            let levels: Vec<u64> = (0..count).map(|level| 100 + level).collect();
            both.load(&Levels::new(&levels));
            let mut state = [0; STATE_BYTES];
            let block = block_of(&floor_tasks(&[(40, 20, 0, 0)]));
            assert_eq!(both.start(&block, &[], &mut state), Ok(run(0, 0, 1)));
            put_floor(&mut state, 0, floor);
            LEVEL.put(&mut state, floor);
            let shown = both.show(&state, 3);
            assert_eq!(shown.is_ok(), floor < count, "{floor} of {count}");
            let passed = both.pass(&mut state, 1, 1);
            assert_eq!(passed.is_ok(), floor < count, "{floor} of {count}");
        }
    }
    both.saw("floors and the state's own table", 192);
    both.wants(Call::Show, 10, 28);
    both.wants(Call::Pass, ACCEPTED, 36);
}

/// Would catch a floor that gets into a reply, the queue or the total where it has no say: plans whose floors
/// are all at most the levels that are ordered anyway go the same way as those without.
#[test]
fn low_floors_change_nothing_but_their_own_bits() {
    let mut both = Both::new(&Levels::base());
    let mut random = Random::new(1_808);
    let (mut same, mut other_way) = (0, 0);
    for _ in 0..1_500 {
        let (levels, plan) = some_plan(&mut random);
        both.load(&levels);
        let plain: Vec<Task> = plan.iter().map(|task| Task { floor: 0, ..*task }).collect();
        let lowest = random.between(0, levels.top() as u64);
        let low: Vec<Task> = plain
            .iter()
            .map(|task| Task {
                floor: lowest,
                ..*task
            })
            .collect();
        let (mut one, mut two) = ([0; STATE_BYTES], [0; STATE_BYTES]);
        let mut first = both.start(&block_of(&plain), &[], &mut one);
        let mut second = both.start(&block_of(&low), &[], &mut two);
        for _ in 0..8 {
            let is_low = |it: Order| running(it).map_or(true, |(_, level)| level as u64 >= lowest);
            if !first.map_or(false, is_low) {
                other_way += 1;
                break;
            }
            assert_eq!(first, second, "{low:?}");
            assert_eq!(without_floors(&two), one);
            same += 1;
            let (d, finished) = View::of(&one).some_pass(&mut random);
            first = both.pass(&mut one, d, u8::from(finished));
            second = both.pass(&mut two, d, u8::from(finished));
        }
    }
    both.saw("low floors", 6_000);
    println!("    {same} the same, {other_way} where a floor has a say");
    assert!(same > 3_000 && other_way > 500, "{same} {other_way}");
}

/// Would catch a dead end, or a state that a floor leads out of what is sound: sound states are given floors
/// under jobs that don't run, and led on for a while.
#[test]
fn states_led_on_with_other_floors() {
    let mut both = Both::new(&Levels::base());
    let mut random = Random::new(1_809);
    let (mut above, mut accepted) = (0, 0);
    for _ in 0..1_500 {
        let (levels, plan) = some_plan(&mut random);
        let nominal = judge_list(&levels, &plan).unwrap().nominal;
        let (mut state, _) = reached_state(&mut random, &levels, &plan, 10);
        let floors = with_floors(&mut random, &levels, nominal, plan);
        let runs = unpack(&state)
            .expect("it is a state")
            .running
            .map(|it| it.task);
        for (task, numbers) in floors.iter().enumerate() {
            if runs != Some(task) {
                put_floor(&mut state, task, numbers.floor);
            }
        }
        for _ in 0..12 {
            let view = View::of(&state);
            let (d, finished) = view.some_pass(&mut random);
            let reply = both.pass(&mut state, d, told(&mut random, finished));
            assert_eq!(reply.err().unwrap_or(0), view.refusal(d, finished));
            assert!(both.show(&state, 48).is_ok());
            accepted += u32::from(reply.is_ok());
            let is_above = |it: Order| running(it).map_or(false, |(_, level)| level > nominal);
            above += u32::from(reply.map_or(false, is_above));
        }
    }
    both.saw("states led on with other floors", 36_000);
    println!("    {accepted} accepted, {above} above nominal");
    assert!(accepted > 15_000 && above > 1_000, "{accepted} {above}");
}

/// Would catch starting that asks about floors with a good list of pairs only, or leaves 22 out with floors:
/// plans with floors and lists of both kinds.
#[test]
fn floors_with_pairs() {
    let mut both = Both::new(&Levels::base());
    let mut random = Random::new(1_810);
    for round in 0..1_200 {
        let levels = levels_of_count(&mut random, 1 + round % MOST_LEVELS as usize);
        both.load(&levels);
        let light = light_plan(&mut random);
        let plan = with_floors(&mut random, &levels, levels.top(), light);
        let good = good_list(&mut random, &plan);
        let bad = bad_list(&mut random, &plan);
        let block = block_of(&plan);
        let started = both.start(&block, &good, &mut [0; STATE_BYTES]).err();
        assert_eq!(both.pairs(&block, &good).err(), started);
        assert_eq!(both.pairs(&block, &bad), Err(started.unwrap_or(22)));
        // A floor past the table is told before the list. With eight levels a block has no room for one.
        if levels.count() < 8 {
            let past = floored(&plan, random.place(plan.len()), levels.count());
            assert_eq!(both.pairs(&block_of(&past), &bad), Err(24));
        }
    }
    both.saw("floors with pairs", 4_600);
    both.wants(Call::Pairs, 22, 900);
    both.wants(Call::Pairs, 24, 900);
    both.wants(Call::Start, ACCEPTED, 900);
}

/// The bench plan's periods, with so little work that every level admits it.
fn light_plan(random: &mut Random) -> Vec<Task> {
    let mut plan = bench_plan();
    for task in &mut plan {
        task.worst = random.between(1, 2);
        task.fixed = random.below(2);
    }
    plan
}
