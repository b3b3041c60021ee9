//! The calls written by hand are a fair yardstick only if they do what the proved ones do. They, the
//! proved calls and the simulator get the same calls, and must give the same replies and leave the same
//! bytes.

use benchmark::calls::{BY_HAND, PROVED};
use benchmark::inputs::{inputs, QUEUE_BYTES};
use benchmark::measure::{Call, COUNTS};
use sim::dispatch::Order;
use sim::layout::{self, STATE_BYTES};
use sim::level_block::write_levels;
use sim::levels::Levels;
use sim::pairs::{pack_pairs, MOST_PAIRS, PAIR_BYTES};
use sim::plan::Task;
use sim::random::blocks::{block_of, block_of_no_additions, damaged_block};
use sim::random::lone::{lone_state, with_another_job_open};
use sim::random::pairs::{any_list, bad_list, good_list, good_pairs};
use sim::random::passes::any_pass;
use sim::random::plans;
use sim::random::states::{forged_state, invented_state, late_state, with_a_table_changed};
use sim::random::tables::{bad_level_block, damaged_level_block, some_or_base_levels};
use sim::random::totals::ticks_replaced;
use sim::random::Random;
use sim::state::{unpack, Entry, State};
use std::collections::BTreeMap;
use std::fmt::Arguments;

/// How often each reply was given: 0 for an accepted call, else the refusal's number.
#[derive(Default)]
struct Seen(BTreeMap<u64, u64>);

impl Seen {
    fn add(&mut self, reply: u64) {
        *self.0.entry(reply % 256).or_default() += 1;
    }

    #[track_caller]
    fn were(&self, call: &str, wanted: &[u64]) {
        let calls: u64 = self.0.values().sum();
        println!("{call}: {calls} calls, replies {:?}", self.0);
        assert!(self.0.keys().eq(wanted), "other replies were wanted");
    }
}

/// A reply, and the bytes that the call was lent, as it left them.
type Outcome = (u64, Vec<u8>);

#[track_caller]
fn same(hand: &Outcome, proved: &Outcome, simulated: &Outcome, told: Arguments) {
    assert_eq!(hand, proved, "by hand and proved, told {told}");
    assert_eq!(hand, simulated, "by hand and simulated, told {told}");
}

/// What a call makes of lent bytes.
fn outcome(lent: &[u8], call: impl Fn(&mut [u8]) -> u64) -> Outcome {
    let mut bytes = lent.to_vec();
    (call(&mut bytes), bytes)
}

/// What the simulator answers, as a call's reply has it: 0 or a refusal's number in the lowest byte.
fn reply_of(simulated: Result<Order, u32>) -> u64 {
    match simulated {
        Err(number) => u64::from(number),
        Ok(Order::Idle { hold }) => u64::from(hold) << 32 | 2 << 8,
        Ok(Order::Run { task, level, hold }) => {
            u64::from(hold) << 32 | u64::from(level) << 24 | u64::from(task) << 16 | 1 << 8
        }
    }
}

fn order_in(reply: u64) -> Order {
    let hold = (reply >> 32) as u32;
    match (reply >> 8) as u8 {
        1 => Order::Run {
            task: (reply >> 16) as u8,
            level: (reply >> 24) as u8,
            hold,
        },
        _ => Order::Idle { hold },
    }
}

/// Without pairs.
fn start_agrees(levels: &[u8], block: &[u8], room: usize, seen: &mut Seen) -> Outcome {
    start_with_agrees(levels, block, &[], room, seen)
}

fn start_with_agrees(
    levels: &[u8],
    block: &[u8],
    pairs: &[u8],
    room: usize,
    seen: &mut Seen,
) -> Outcome {
    let lent = vec![0xa5; room];
    let simulated = |state: &mut [u8]| reply_of(sim::start(levels, block, pairs, state));
    let hand = outcome(&lent, |state| BY_HAND.start(levels, block, pairs, state));
    same(
        &hand,
        &outcome(&lent, |state| PROVED.start(levels, block, pairs, state)),
        &outcome(&lent, simulated),
        format_args!("{levels:02x?}, {block:02x?}, {pairs:?}, {room} bytes"),
    );
    seen.add(hand.0);
    hand
}

fn pass_agrees(state: &[u8], d: u32, finished: bool, seen: &mut Seen) -> Outcome {
    let hand = outcome(state, |state| BY_HAND.pass(state, d, finished));
    same(
        &hand,
        &outcome(state, |state| PROVED.pass(state, d, finished)),
        &outcome(state, |state| reply_of(sim::pass(state, d, finished))),
        format_args!("{state:02x?}, {d} ticks, finished: {finished}"),
    );
    seen.add(hand.0);
    hand
}

fn show_agrees(state: &[u8], room: usize, seen: &mut Seen) {
    let lent = vec![0xa5; room];
    let simulated = |buffer: &mut [u8]| match sim::show(state, buffer) {
        Ok(length) => 256 * length as u64,
        Err(number) => u64::from(number),
    };
    let hand = outcome(&lent, |buffer| BY_HAND.show(state, buffer));
    same(
        &hand,
        &outcome(&lent, |buffer| PROVED.show(state, buffer)),
        &outcome(&lent, simulated),
        format_args!("{state:02x?}, {room} bytes"),
    );
    seen.add(hand.0);
}

/// A task without fixed ticks and without a floor.
fn simple_task(period: u64, worst: u64) -> Task {
    fixed_task(period, worst, 0)
}

/// A task without a floor.
fn fixed_task(period: u64, worst: u64, fixed: u64) -> Task {
    Task {
        period,
        worst,
        fixed,
        floor: 0,
    }
}

/// What asking for the total answers, of a state or of any other bytes.
fn queued_agrees(state: &[u8], seen: &mut Seen) -> u64 {
    let hand = outcome(state, |state| BY_HAND.queued(state));
    same(
        &hand,
        &outcome(state, |state| PROVED.queued(state)),
        &outcome(state, |state| sim::queued_number(state)),
        format_args!("{state:02x?}"),
    );
    seen.add(hand.0);
    hand.0
}

/// What asking for the damping answers. Nothing is lent.
fn damping_agrees(angle: i32, seen: &mut Seen) -> u64 {
    let hand = (BY_HAND.damping(angle), Vec::new());
    same(
        &hand,
        &(PROVED.damping(angle), Vec::new()),
        &(sim::damping_number(angle), Vec::new()),
        format_args!("{angle} tenths"),
    );
    seen.add(hand.0);
    hand.0
}

/// Asks for the total of a sound state, which is to be the sum of what its entries have.
fn total_is_the_sum(state: &[u8], seen: &mut Seen) {
    let sum = unpacked(state).total();
    assert_eq!(queued_agrees(state, seen), 256 * sum, "{state:02x?}");
}

fn unpacked(state: &[u8]) -> State {
    unpack(state).expect("it is laid out as a state is")
}

/// Plans of all kinds, most of them accepted.
fn any_plan(random: &mut Random, levels: &Levels) -> Vec<Task> {
    let level = random.place(levels.count());
    match random.below(8) {
        0 => plans::plan_at_largest_hyperperiod(random, levels),
        1 => plans::plan_above_largest_hyperperiod(random, levels),
        2 => plans::plan_one_over(random, levels, level),
        3 => plans::edge_list(random, levels),
        4 => plans::full_plan(random, levels, level),
        _ => plans::plan_at_level(random, levels, level),
    }
}

/// An accepted plan.
fn good_plan(random: &mut Random, levels: &Levels) -> Vec<Task> {
    let level = random.place(levels.count());
    if random.one_in(2) {
        plans::full_plan(random, levels, level)
    } else {
        plans::plan_at_level(random, levels, level)
    }
}

/// A level block as it is to be, or one that is refused in some way.
fn any_level_block(random: &mut Random, levels: &Levels) -> Vec<u8> {
    let block = write_levels(levels);
    match random.below(8) {
        0 => {
            let number = random.pick(&[18, 19, 20]);
            bad_level_block(random, number)
        }
        1 => damaged_level_block(random, &block),
        _ => block,
    }
}

/// Would catch a table or a plan read, judged or started in another way, and questions put in another
/// order.
#[test]
fn starts_agree() {
    let mut random = Random::new(1);
    let mut seen = Seen::default();
    for _ in 0..6_000 {
        let table = some_or_base_levels(&mut random);
        let mut block = block_of(&any_plan(&mut random, &table));
        if random.one_in(2) {
            block = damaged_block(&mut random, &block);
        }
        let levels = any_level_block(&mut random, &table);
        let pairs = list_of_another_plan(&mut random, &table);
        let room = any_room(&mut random);
        start_with_agrees(&levels, &block, &pairs, room, &mut seen);
    }
    let all = [0, 1, 2, 3, 4, 5, 6, 7, 8, 9, 18, 19, 20, 21, 22, 24];
    seen.were("start", &all);
}

/// Too little for the state, as much as it has, and more.
fn any_room(random: &mut Random) -> usize {
    let exact = STATE_BYTES;
    random.pick(&[0, exact - 1, exact, exact, exact, exact + 1, exact + 40])
}

/// No pairs, or a list that was not made for the plan that it is to come with, which need not be
/// accepted.
fn list_of_another_plan(random: &mut Random, levels: &Levels) -> Vec<u8> {
    if random.one_in(2) {
        return Vec::new();
    }
    let plan = good_plan(random, levels);
    any_list(random, &plan)
}

/// Would catch a list judged in another way, asked about at another place, or that leaves a trace: a
/// good one is to leave what an empty one does.
#[test]
fn lists_of_pairs_agree() {
    let mut random = Random::new(5);
    let (mut with, mut without) = Default::default();
    for _ in 0..6_000 {
        let table = some_or_base_levels(&mut random);
        let plan = good_plan(&mut random, &table);
        let (levels, block) = (write_levels(&table), block_of(&plan));
        let room = any_room(&mut random);
        let pairs = good_list(&mut random, &plan);
        let started = start_with_agrees(&levels, &block, &pairs, room, &mut with);
        assert_eq!(started, start_agrees(&levels, &block, room, &mut without));
        let pairs = bad_list(&mut random, &plan);
        start_with_agrees(&levels, &block, &pairs, room, &mut with);
    }
    with.were("start, with pairs", &[0, 9, 22]);
    without.were("start, without them", &[0, 9]);
}

/// Periods of all kinds beside each other: equal, multiples, and neither. Sixteen of them, and so little
/// work that every level admits it.
fn mixed_plan() -> Vec<Task> {
    let periods = [
        300, 100, 100, 200, 600, 450, 150, 900, 100, 300, 1_800, 225, 200, 600, 50, 50,
    ];
    periods.map(|period| simple_task(period, 1)).to_vec()
}

/// Would catch an edge of a pair that is drawn elsewhere: every pair of two bytes with sixteen tasks, and
/// with fewer of them every pair of numbers around theirs.
#[test]
fn every_pair_agrees() {
    let mut seen = Seen::default();
    let levels = write_levels(&Levels::base());
    let plan = mixed_plan();
    for bytes in 0..=u16::MAX {
        let pair = bytes.to_be_bytes();
        start_with_agrees(&levels, &block_of(&plan), &pair, STATE_BYTES, &mut seen);
    }
    for count in 1..=plan.len() {
        let block = block_of(&plan[..count]);
        for earlier in 0..18 {
            for later in 0..18 {
                start_with_agrees(&levels, &block, &[earlier, later], STATE_BYTES, &mut seen);
            }
        }
    }
    seen.were("start, every pair", &[0, 22]);
}

/// Would catch a length that is asked about in another way: each up to past twice the longest, and ones
/// that are short again when counted in a byte or in two.
#[test]
fn lengths_of_lists_agree() {
    let mut seen = Seen::default();
    let levels = write_levels(&Levels::base());
    let plan = mixed_plan();
    let good = pack_pairs(&good_pairs(&plan));
    let wrapped = [1 << 8, 1 << 9, 1 << 16, 1 << 17];
    let around = wrapped.iter().flat_map(|length| length - 2..=length + 34);
    for length in (0..=70).chain(around) {
        let pairs: Vec<u8> = good.iter().cycle().copied().take(length).collect();
        let room = STATE_BYTES;
        let (reply, _) = start_with_agrees(&levels, &block_of(&plan), &pairs, room, &mut seen);
        let is_right = length <= PAIR_BYTES * MOST_PAIRS && length % PAIR_BYTES == 0;
        assert_eq!(reply % 256 == 0, is_right, "{length} bytes");
    }
    seen.were("start, every length", &[0, 22]);
}

/// Would catch a pair that is not looked at, and 22 after 9: in a list of each length one pair after the
/// other is bad, in several ways, with room for the state and without.
#[test]
fn pairs_at_every_place_agree() {
    let mut seen = Seen::default();
    let levels = write_levels(&Levels::base());
    let plan = mixed_plan();
    let good = pack_pairs(&good_pairs(&plan));
    // A task with itself, two turned round, periods that do not divide, and numbers that are too high.
    let bad = [[0, 0], [2, 1], [4, 0], [0, 5], [16, 0], [1, 16], [255, 255]];
    for count in 1..=MOST_PAIRS {
        for place in (0..PAIR_BYTES * count).step_by(PAIR_BYTES) {
            for pair in bad {
                let mut pairs = good[..PAIR_BYTES * count].to_vec();
                pairs[place..place + PAIR_BYTES].copy_from_slice(&pair);
                for room in [STATE_BYTES, STATE_BYTES - 1] {
                    let block = block_of(&plan);
                    start_with_agrees(&levels, &block, &pairs, room, &mut seen);
                }
            }
        }
    }
    seen.were("start, a bad pair at each place", &[22]);
}

/// Would catch an edge of the plan block's second edition that is drawn elsewhere: every edition and
/// count, and every value of fixed ticks and floor, in blocks of every length up to the longest.
#[test]
fn plan_blocks_agree() {
    let mut seen = Seen::default();
    let levels = write_levels(&Levels::base());
    let task = fixed_task(600, 1, 1);
    for count in 1..=16 {
        let block = block_of(&vec![task; count]);
        for head in 0..=u8::MAX {
            let mut other = block.clone();
            other[0] = head;
            start_agrees(&levels, &other, STATE_BYTES, &mut seen);
        }
        for place in 1..block.len() {
            for bit in 0..8 {
                let mut other = block.clone();
                other[place] ^= 1 << bit;
                start_agrees(&levels, &other, STATE_BYTES, &mut seen);
            }
        }
        start_agrees(&levels, &block[..block.len() - 1], STATE_BYTES, &mut seen);
        let longer = [&block[..], &[0]].concat();
        start_agrees(&levels, &longer, STATE_BYTES, &mut seen);
        start_agrees(
            &levels,
            &block_of_no_additions(&vec![task; count]),
            STATE_BYTES,
            &mut seen,
        );
    }
    // The last byte of a single task has the lower bits of its fixed ticks, then its floor, which few
    // levels may not have.
    let block = block_of(&[task]);
    for last in 0..=u8::MAX {
        let mut other = block.clone();
        other[6] = last;
        start_agrees(&levels, &other, STATE_BYTES, &mut seen);
        for count in 1..=8 {
            let speeds: Vec<u64> = (100..100 + count).collect();
            let few = write_levels(&Levels::new(&speeds));
            start_agrees(&few, &other, STATE_BYTES, &mut seen);
        }
    }
    seen.were("start, plan blocks", &[0, 2, 3, 4, 5, 6, 7, 8, 21, 24]);
}

/// 02, No. 8: would catch a floor that is read, stored or obeyed in another way: every floor of every task,
/// in plans of every size over every count of levels, with what each pass makes of it.
#[test]
fn floors_agree() {
    let (mut starts, mut passes) = (Seen::default(), Seen::default());
    let mut random = Random::new(11);
    let (mut at_floor, mut above, mut over) = (0, 0, 0);
    for count in 1..=8 {
        let speeds: Vec<u64> = (1..=count).map(|nth| 10 * nth).collect();
        let table = Levels::new(&speeds);
        let levels = write_levels(&table);
        for size in [1, 2, 3, 16] {
            for (place, floor) in (0..size).flat_map(|place| (0..8).map(move |it| (place, it))) {
                // About half of what the fastest level can do.
                let mut plan = vec![fixed_task(400, 2_000 * count / size as u64, 2); size];
                plan[place].floor = floor;
                let (reply, mut state) =
                    start_agrees(&levels, &block_of(&plan), STATE_BYTES, &mut starts);
                assert_eq!(reply == 24, floor >= count, "{floor} of {count}");
                if reply == 24 {
                    continue;
                }
                let nominal = sim::plan::judge_list(&table, &plan).unwrap().nominal as u64;
                let mut order = order_in(reply);
                for _ in 0..2 * size {
                    let (d, finished) = any_pass(&mut random, order);
                    let (reply, after) = pass_agrees(&state, d, finished, &mut passes);
                    if reply % 256 == 0 {
                        order = order_in(reply);
                    }
                    if let Order::Run { task, level, .. } = order {
                        let own = floor > 0 && usize::from(task) == place;
                        let level = u64::from(level);
                        at_floor += u32::from(own && level == floor && level <= nominal);
                        above += u32::from(own && level > nominal);
                        over += u32::from(own && level > floor);
                    }
                    state = after;
                }
            }
        }
    }
    starts.were("start, with floors", &[0, 24]);
    passes.were("pass, with floors", &[0, 11, 12, 13, 14]);
    let seen = [at_floor, above, over];
    assert!(seen.iter().all(|times| *times > 150), "{seen:?}");
}

/// Would catch a floor in the state that is tested in another way: each of the sixteen that its bits can
/// hold, with each level, in every entry of a state that runs, one that idles, and tables of every size.
#[test]
fn floors_in_states_agree() {
    let (mut starts, mut passes, mut shows) = Default::default();
    for count in 1..=8 {
        let speeds: Vec<u64> = (100..100 + count).collect();
        let levels = write_levels(&Levels::new(&speeds));
        let block = block_of(&[simple_task(30, 400), fixed_task(60, 300, 2)]);
        let (_, fresh) = start_agrees(&levels, &block, STATE_BYTES, &mut starts);
        let (_, second) = pass_agrees(&fresh, 1, true, &mut passes);
        let (_, idle) = pass_agrees(&second, 1, true, &mut passes);
        for state in [fresh, second, idle] {
            for (task, floor) in (0..3).flat_map(|task| (0..16).map(move |it| (task, it))) {
                for level in (0..=8).chain([255]) {
                    let mut forged = state.clone();
                    layout::put_floor(&mut forged, task, floor);
                    layout::LEVEL.put(&mut forged, level);
                    show_agrees(&forged, QUEUE_BYTES, &mut shows);
                    pass_agrees(&forged, 1, false, &mut passes);
                }
            }
        }
    }
    starts.were("start, before floors are forged", &[0]);
    shows.were("show, with forged floors", &[0, 10]);
    passes.were("pass, with forged floors", &[0, 10]);
}

/// Would catch an edge of the level block that is drawn elsewhere: every block of two bytes is tried,
/// which are those of a single level, every shorter one, and every last byte of the longest.
#[test]
fn level_blocks_agree() {
    let mut seen = Seen::default();
    let plan = block_of(&[simple_task(65_535, 1)]);
    start_agrees(&[], &plan, STATE_BYTES, &mut seen);
    for first in 0..=u8::MAX {
        start_agrees(&[first], &plan, STATE_BYTES, &mut seen);
    }
    for bytes in 0..=u16::MAX {
        start_agrees(&bytes.to_be_bytes(), &plan, STATE_BYTES, &mut seen);
    }
    for last in 0..=u8::MAX {
        let mut base = write_levels(&Levels::base());
        *base.last_mut().expect("it has eleven bytes") = last;
        start_agrees(&base, &plan, STATE_BYTES, &mut seen);
    }
    seen.were("start, level blocks", &[0, 18, 19, 20]);
}

/// Would catch a pass that goes another way at some point of a run, and a total that isn't the sum there.
#[test]
fn runs_agree() {
    let mut random = Random::new(2);
    let (mut starts, mut passes, mut shows, mut totals) = Default::default();
    for _ in 0..400 {
        let table = some_or_base_levels(&mut random);
        let block = block_of(&good_plan(&mut random, &table));
        let levels = write_levels(&table);
        let (first, mut state) = start_agrees(&levels, &block, STATE_BYTES, &mut starts);
        total_is_the_sum(&state, &mut totals);
        let mut order = order_in(first);
        for _ in 0..50 {
            let (d, finished) = any_pass(&mut random, order);
            let (reply, after) = pass_agrees(&state, d, finished, &mut passes);
            state = after;
            total_is_the_sum(&state, &mut totals);
            if reply % 256 == 0 {
                order = order_in(reply);
            }
        }
        show_agrees(&state, QUEUE_BYTES, &mut shows);
    }
    starts.were("start, of runs", &[0]);
    passes.were("pass, in runs", &[0, 11, 12, 13, 14]);
    shows.were("show, after runs", &[0]);
    totals.were("queued, in runs", &[0]);
}

/// 02, No. 4: states with one open job on each side of the gap, and with another job opened in them.
#[test]
fn lone_states_agree() {
    let mut random = Random::new(10);
    let (mut passes, mut shows) = (Seen::default(), Seen::default());
    let mut kinds: BTreeMap<String, u32> = BTreeMap::new();
    for _ in 0..20_000 {
        let table = some_or_base_levels(&mut random);
        let plan = good_plan(&mut random, &table);
        let (lone, kind) = lone_state(&mut random, &table, &plan);
        *kinds.entry(format!("{kind:?}")).or_default() += 1;
        let state = if kind.is_sound() && random.one_in(4) {
            with_another_job_open(&mut random, &lone)
        } else {
            lone
        };
        show_agrees(&state, QUEUE_BYTES, &mut shows);
        let d = random.pick(&[1, 1, 2, 3, 10]);
        let finished = random.one_in(2);
        pass_agrees(&state, d, finished, &mut passes);
    }
    assert!(
        kinds.len() == 8 && kinds.values().all(|times| *times > 300),
        "{kinds:?}"
    );
    shows.were("show", &[0, 10]);
    passes.were("pass, in lone states", &[0, 10, 12, 14, 15]);
}

/// Would catch a state called sound by one and not by the other, or changed in another way.
#[test]
fn invented_and_forged_states_agree() {
    let mut random = Random::new(3);
    let (mut passes, mut shows, mut totals) = Default::default();
    for _ in 0..20_000 {
        let table = some_or_base_levels(&mut random);
        let plan = good_plan(&mut random, &table);
        let sound = invented_state(&mut random, &table, &plan);
        let state = match random.below(5) {
            0 => sound.to_vec(),
            1 => late_state(&mut random, &sound).to_vec(),
            2 => with_a_table_changed(&mut random, &sound).to_vec(),
            _ => forged_state(&mut random, &sound),
        };
        queued_agrees(&state, &mut totals);
        let room = random.place(QUEUE_BYTES + 9);
        show_agrees(&state, room, &mut shows);
        let hold = random.pick(&[1, 2, 5, 20, 100, 1_000]);
        let (d, _) = any_pass(&mut random, Order::Idle { hold });
        let finished = random.one_in(2);
        pass_agrees(&state, d, finished, &mut passes);
    }
    shows.were("show", &[0, 9, 10]);
    passes.were("pass, in made states", &[0, 10, 11, 12, 13, 14, 15]);
    totals.were("queued, in made states", &[0, 10]);
}

fn ticks_to_next_arrival(state: &State) -> u64 {
    let ticks = |entry: &Entry| entry.task.period - state.clock % entry.task.period;
    let least = state.entries.iter().map(ticks).min();
    least.expect("there is a task")
}

/// 02, No. 6: in a run an entry that is replaced has no ticks left, but in a sound state it may. Would
/// catch a total that keeps them, and one that is lowered by more than the queue has: states of all
/// kinds get a pass to the next arrival.
#[test]
fn arrivals_in_invented_states_agree() {
    let mut random = Random::new(6);
    let (mut passes, mut totals) = Default::default();
    let (mut replaced, mut emptied) = (0, 0);
    for _ in 0..10_000 {
        let table = some_or_base_levels(&mut random);
        let plan = good_plan(&mut random, &table);
        let state = invented_state(&mut random, &table, &plan);
        let before = unpacked(&state);
        let next = ticks_to_next_arrival(&before);
        let (reply, after) = pass_agrees(&state, next as u32, random.one_in(2), &mut passes);
        total_is_the_sum(&after, &mut totals);
        if reply % 256 == 0 {
            replaced += u32::from(ticks_replaced(&before) > 0);
            emptied += u32::from(before.total() < next);
        }
    }
    println!("ticks replaced {replaced} times, fewer than d {emptied} times");
    assert!(replaced > 500 && emptied > 300);
    passes.were("pass, to an arrival", &[0, 13, 14, 15]);
    totals.were("queued, at an arrival", &[0]);
}

/// 02, No. 6: the smallest state in which a replaced entry has ticks left. One of its two goes with the
/// tick, the other with the job, and two come: the total is 2, not 3.
#[test]
fn the_smallest_replaced_ticks_agree() {
    let mut seen = Seen::default();
    let levels = write_levels(&Levels::new(&[1]));
    let block = block_of(&[simple_task(2, 2)]);
    let (_, mut state) = start_agrees(&levels, &block, STATE_BYTES, &mut seen);
    layout::CLOCK.put(&mut state, 1);
    layout::TASK.put(&mut state, layout::IDLE);
    layout::of_task(0, layout::WORK_LEFT).put(&mut state, 0);
    let (_, after) = pass_agrees(&state, 1, false, &mut seen);
    assert_eq!(queued_agrees(&after, &mut seen), 256 * 2);
    seen.were("the smallest replaced ticks", &[0]);
}

/// Each of its four bytes anything, one more, one less, and turned round.
fn totals_beside(sum: u32) -> Vec<u32> {
    let mut totals = vec![sum.wrapping_add(1), sum.wrapping_sub(1), sum.swap_bytes()];
    for place in 0..4 {
        let with = |byte: u8| {
            let mut bytes = sum.to_be_bytes();
            bytes[place] = byte;
            u32::from_be_bytes(bytes)
        };
        totals.extend((0..=255).map(with));
    }
    totals
}

/// Would catch a total that soundness leaves out or tests in part, and asking that wants a sound state
/// or reads fewer than four bytes: the total is changed in the state with the largest sum that there
/// can be, in one with less and in one with none.
#[test]
fn totals_in_states_agree() {
    let (mut starts, mut passes, mut shows, mut totals) = Default::default();
    let levels = write_levels(&Levels::new(&[1]));
    let mut started = |period, worst| {
        let block = block_of(&[simple_task(period, worst)]);
        start_agrees(&levels, &block, STATE_BYTES, &mut starts).1
    };
    let (full, some) = (started(65_535, 65_535), started(800, 700));
    let (_, none) = pass_agrees(&started(800, 300), 300, true, &mut passes);
    for state in [full, some, none] {
        let sum = unpacked(&state).total();
        for total in totals_beside(sum as u32) {
            let mut forged = state.clone();
            layout::TOTAL.put(&mut forged, total.into());
            assert_eq!(queued_agrees(&forged, &mut totals), 256 * u64::from(total));
            show_agrees(&forged, QUEUE_BYTES, &mut shows);
            let (reply, _) = pass_agrees(&forged, 1, false, &mut passes);
            let is_right = u64::from(total) == sum;
            assert_eq!(reply % 256 == 0, is_right, "{total} for {sum}");
        }
    }
    starts.were("start, before totals are forged", &[0]);
    passes.were("pass, with forged totals", &[0, 10]);
    shows.were("show, with forged totals", &[0, 10]);
    totals.were("queued, with forged totals", &[0]);
}

/// Would catch a length that is asked about in another way: each up to past twice the state's, one of
/// which is the state's again when counted in a byte, and one that is when counted in two. The bytes are
/// those of a state, then zeros.
#[test]
fn lengths_of_states_agree() {
    let (mut starts, mut passes, mut shows, mut totals) = Default::default();
    let levels = write_levels(&Levels::base());
    let (_, state) = start_agrees(&levels, &block_of(&mixed_plan()), STATE_BYTES, &mut starts);
    for length in (0..=500).chain([STATE_BYTES + 65_536]) {
        let mut other = state.clone();
        other.resize(length, 0);
        let reply = queued_agrees(&other, &mut totals);
        assert_eq!(reply == 10, length != 221, "{length} bytes");
        show_agrees(&other, QUEUE_BYTES, &mut shows);
        pass_agrees(&other, 1, true, &mut passes);
    }
    starts.were("start, before the length is changed", &[0]);
    passes.were("pass, of every length", &[0, 10]);
    shows.were("show, of every length", &[0, 10]);
    totals.were("queued, of every length", &[0, 10]);
}

/// Would catch asking that looks at anything but the length and the last four bytes.
#[test]
fn totals_of_any_bytes_agree() {
    let mut random = Random::new(7);
    let mut totals = Seen::default();
    for _ in 0..20_000 {
        let bytes: Vec<u8> = (0..STATE_BYTES).map(|_| random.number() as u8).collect();
        let reply = queued_agrees(&bytes, &mut totals);
        assert_eq!(reply, 256 * layout::TOTAL.get(&bytes));
    }
    totals.were("queued, of any bytes", &[0]);
}

/// 02, No. 7: would catch an entry of the table that is worked out in another way, and a range that is
/// asked about in another way: every angle in it and far to both sides, the ends of 32 bits, the powers of
/// two of both signs with what lies beside them, and any angles.
#[test]
fn dampings_agree() {
    let mut random = Random::new(8);
    let mut seen = Seen::default();
    for angle in -100_000..=100_000 {
        let reply = damping_agrees(angle, &mut seen);
        assert_eq!(reply == 23, !(-50..=1_300).contains(&angle), "{angle}");
    }
    let powers = (0..31).map(|bit| 1 << bit);
    let centres = powers.flat_map(|power: i32| [power, -power]);
    for centre in centres.chain([i32::MIN, i32::MAX]) {
        for beside in -1_400..=1_400 {
            damping_agrees(centre.wrapping_add(beside), &mut seen);
        }
    }
    for _ in 0..200_000 {
        damping_agrees(random.number() as i32, &mut seen);
    }
    seen.were("damping", &[0, 23]);
}

/// Numbers on both sides of every edge that a speed has beside these two.
fn edges(before: u64, after: u64) -> [u64; 14] {
    let (below, above) = (before.saturating_sub(1), after + 1);
    [
        0,
        1,
        below,
        before,
        before + 1,
        after.saturating_sub(1),
        after,
        above,
        999,
        1_000,
        1_001,
        1_024,
        32_768,
        65_535,
    ]
}

/// Would catch a table in the state that is tested in another way: for every size of it each speed is
/// put at its edges, unused ones too, and the count is anything. The job needs so little that the
/// order does not fail in the table's stead.
#[test]
fn tables_in_states_agree() {
    let speeds = [2, 3, 5, 300, 301, 640, 998, 999];
    let block = block_of(&[simple_task(60_000, 1)]);
    let (mut starts, mut passes, mut shows) = Default::default();
    for count in 1..=speeds.len() {
        let levels = write_levels(&Levels::new(&speeds[..count]));
        let (_, state) = start_agrees(&levels, &block, STATE_BYTES, &mut starts);
        let mut forged_agrees = |field: layout::Field, number: u64| {
            let mut forged = state.clone();
            field.put(&mut forged, number);
            show_agrees(&forged, QUEUE_BYTES, &mut shows);
            pass_agrees(&forged, 1, true, &mut passes);
        };
        for other in 0..=255 {
            forged_agrees(layout::LEVEL_COUNT, other);
        }
        for level in 0..speeds.len() {
            let kept = |place: usize| layout::speed_of(place).get(&state);
            let before = if level > 0 { kept(level - 1) } else { 0 };
            let after = if level < 7 { kept(level + 1) } else { 0 };
            for number in edges(before, after) {
                forged_agrees(layout::speed_of(level), number);
            }
        }
    }
    starts.were("start, before tables are forged", &[0]);
    shows.were("show, with forged tables", &[0, 10]);
    passes.were("pass, with forged tables", &[0, 10]);
}

/// Would catch a floor that is taken for a part of the worst case: the largest there is fills its 20 bits,
/// and 1,048,576 in the same bytes is a floor of 1 and a worst case of 0.
#[test]
fn the_largest_worst_case_agrees() {
    let mut seen = Seen::default();
    let levels = write_levels(&Levels::base());
    let block = block_of(&[simple_task(60_000, 1_048_575)]);
    let (_, mut state) = start_agrees(&levels, &block, STATE_BYTES, &mut seen);
    show_agrees(&state, QUEUE_BYTES, &mut seen);
    for floor_and_worst in [1_048_576, 1_048_577, 2_097_151, 8_388_607, 16_777_215] {
        layout::of_task(0, layout::FLOOR_AND_WORST).put(&mut state, floor_and_worst);
        show_agrees(&state, QUEUE_BYTES, &mut seen);
        pass_agrees(&state, 1, false, &mut seen);
    }
    seen.were("the largest worst case", &[0, 10]);
}

/// Would catch fixed ticks in the state that are tested or used up in another way: each of the two
/// bytes is anything, in a fresh job, in one that has run a little, and in one that is finished.
#[test]
fn fixed_ticks_in_states_agree() {
    let (mut starts, mut passes, mut shows) = Default::default();
    let levels = write_levels(&Levels::base());
    let tasks = [(200, 300, 20), (600, 300, 9)];
    let block = block_of(&tasks.map(|(period, worst, fixed)| fixed_task(period, worst, fixed)));
    let (_, fresh) = start_agrees(&levels, &block, STATE_BYTES, &mut starts);
    let (_, begun) = pass_agrees(&fresh, 5, false, &mut passes);
    let (_, worked) = pass_agrees(&begun, 16, false, &mut passes);
    let (_, finished) = pass_agrees(&worked, 1, true, &mut passes);
    for state in [fresh, begun, worked, finished] {
        for field in [layout::FIXED, layout::FIXED_LEFT] {
            for number in 0..=255 {
                let mut forged = state.clone();
                layout::of_task(0, field).put(&mut forged, number);
                show_agrees(&forged, QUEUE_BYTES, &mut shows);
                for (d, finished) in [(1, false), (20, false), (21, true), (200, false)] {
                    pass_agrees(&forged, d, finished, &mut passes);
                }
            }
        }
    }
    starts.were("start, before fixed ticks are forged", &[0]);
    shows.were("show, with forged fixed ticks", &[0, 10]);
    passes.were("pass, with forged fixed ticks", &[0, 10, 12, 14]);
}

/// Would catch measured calls that are refused, or that are done differently.
#[test]
fn measured_inputs_agree() {
    let (mut starts, mut passes, mut shows, mut totals, mut dampings) = Default::default();
    for input in COUNTS.into_iter().flat_map(inputs) {
        let (levels, block) = (&input.levels, &input.block);
        start_agrees(levels, block, STATE_BYTES, &mut starts);
        start_with_agrees(levels, block, &input.pairs, STATE_BYTES, &mut starts);
        show_agrees(&input.state, QUEUE_BYTES, &mut shows);
        total_is_the_sum(&input.state, &mut totals);
        pass_agrees(&input.state, input.d, input.finished, &mut passes);
        damping_agrees(input.angle, &mut dampings);
    }
    starts.were("start, measured", &[0]);
    passes.were("pass, measured", &[0]);
    shows.were("show, measured", &[0]);
    totals.were("queued, measured", &[0]);
    dampings.were("damping, measured", &[0]);
}

/// Would catch plans that have no floors, or too many: half of them have some, and some of these are above
/// nominal. Floors are told by the states, of which each has its plan.
#[test]
fn half_of_the_measured_plans_have_floors() {
    for tasks in COUNTS {
        let inputs = inputs(tasks);
        let (mut with, mut above) = (0, 0);
        for input in &inputs {
            let state = unpacked(&input.state);
            let judged = sim::plan::judge_list(&state.levels, &state.tasks()).unwrap();
            let highest = state.tasks().iter().map(|task| task.floor).max();
            with += usize::from(highest > Some(0));
            above += usize::from(highest > Some(judged.nominal as u64));
        }
        assert!(2 * with <= inputs.len(), "{with}");
        assert!(3 * with >= inputs.len() && above > 0, "{with} {above}");
    }
}

/// Would catch angles of which some lines, or those below 0, are left out.
#[test]
fn measured_angles_are_all_over_the_range() {
    for &tasks in Call::Damping.counts() {
        let angles: Vec<i32> = inputs(tasks).iter().map(|input| input.angle).collect();
        for ends in [-50, 0, 50, 100, 200, 400, 600, 900, 1_300].windows(2) {
            assert!(angles
                .iter()
                .any(|angle| (ends[0]..ends[1]).contains(angle)));
        }
    }
}

/// Would catch a start measured with fewer pairs than it is said to have.
#[test]
fn measured_lists_are_full() {
    for &tasks in Call::StartPairs.counts() {
        for input in inputs(tasks) {
            assert_eq!(input.pairs.len(), PAIR_BYTES * MOST_PAIRS);
        }
    }
}

/// Would catch a reciprocal that is off for one of the speeds that a table can have: the time of a
/// job stands in the state as its plain ticks, and both its edges are tried.
#[test]
fn every_speed_divides_exactly() {
    let mut starts = Seen::default();
    for speed in 1..=1_000 {
        let levels = write_levels(&Levels::new(&[speed]));
        let most = (1_048_575 / speed).min(65_280);
        for (ticks, fixed) in [(1, 0), (2, 1), (most / 2, 7), (most - 1, 0), (most, 255)] {
            for worst in [(ticks - 1) * speed + 1, ticks * speed] {
                let block = block_of(&[fixed_task(65_535, worst, fixed)]);
                let (_, state) = start_agrees(&levels, &block, STATE_BYTES, &mut starts);
                let left = layout::of_task(0, layout::PLAIN_LEFT).get(&state);
                assert_eq!(left, fixed + ticks, "{worst} and {fixed} at {speed}");
            }
        }
    }
    starts.were("start, every speed", &[0]);
}
