//! 02, No. 6: the total of the plain ticks left, which stands in the state's last four bytes, and the
//! call that answers from them. Runs from a start are in `runs`; here are states that a host may hand
//! over: with another total, with an entry that is replaced while it has ticks left, or no states at all.

use crate::both::{Both, Call, ACCEPTED};
use crate::dispatch::STATE_BYTES;
use crate::made::{bench_plan, fixed_tasks, loose_plan, plan_of_count, some_plan, tasks};
use crate::states::some_sound_state;
use crate::sums::{sum_of, Step, Sums};
use crate::view::{queue_bytes, told, View};
use differ::dispatcher::Order;
use sim::dispatch::sound;
use sim::forging::{every_idle_state, forged};
use sim::job::Left;
use sim::layout::{of_task, COUNT, ENTRIES, PLAIN_LEFT};
use sim::levels::Levels;
use sim::plan::{judge_list, Task};
use sim::random::blocks::block_of;
use sim::random::states::{forged_state, invented_state, reached_state};
use sim::random::tables::some_or_base_levels;
use sim::random::totals::{put_total, replacing_state, ticks_replaced, with_a_total_changed};
use sim::random::Random;
use sim::schedule::allotment;
use sim::state::{pack, unpack, Running};
use std::collections::BTreeMap;

/// Where the four bytes are, told by 02's own numbers.
const FROM: usize = 217;
const END: usize = 221;

/// What stands in the last four bytes, most significant first.
fn standing(state: &[u8]) -> u32 {
    let bytes = state[FROM..END].iter();
    bytes.fold(0, |number, byte| number << 8 | u32::from(*byte))
}

fn with_total(state: &[u8; STATE_BYTES], total: u32) -> [u8; STATE_BYTES] {
    let mut other = *state;
    other[FROM..].copy_from_slice(&total.to_be_bytes());
    other
}

/// Passing refuses the state with 10 whatever the pass, and showing whatever the buffer. What the call
/// that answers from the four bytes says of it is what stands there.
#[track_caller]
fn is_unsound(both: &mut Both, state: &[u8; STATE_BYTES]) {
    let passes = [(0, 0), (1, 0), (1, 1), (4, 1), (u32::MAX, 0)];
    for ((d, finished), room) in passes.into_iter().zip([0, 3, 48, 49, 60]) {
        assert_eq!(both.pass(&mut state.clone(), d, finished), Err(10));
        assert_eq!(both.show(state, room), Err(10));
    }
    assert_eq!(both.queued(state), Ok(standing(state)));
}

/// A state cut or grown to every length, at its end or in front.
fn put_every_length(both: &mut Both, random: &mut Random, state: &[u8; STATE_BYTES]) {
    // With the high bits of the length left out, the last ones would be right.
    let long = [8, 12, 16, 20].map(|bit| END + (1 << bit));
    for length in (0..=2 * END + 20).chain(long) {
        let mut other = state.to_vec();
        other.resize(length, random.pick(&[0x00, 0xff]));
        assert_eq!(both.queued(&other).is_ok(), length == END, "{length}");
        let mut shifted = vec![0; length.saturating_sub(END)];
        shifted.extend(&state[END.saturating_sub(length)..]);
        assert_eq!(shifted.len(), length);
        assert_eq!(both.queued(&shifted).is_ok(), length == END, "{length}");
    }
}

/// Would catch a call that takes a state of another length, the older 217 bytes among them, that reads
/// past what it was lent, or that says another number than 10.
#[test]
fn totals_of_every_length() {
    let mut both = Both::new(&Levels::base());
    let mut random = Random::new(1_101);
    for _ in 0..16 {
        let state = some_sound_state(&mut random);
        put_every_length(&mut both, &mut random, &state);
    }
    both.saw("totals of every length", 14_900);
    both.wants(Call::Queued, 10, 14_800);
    both.wants(Call::Queued, ACCEPTED, 32);
}

/// Each of the four bytes with every value.
fn put_every_value(both: &mut Both, state: &[u8; STATE_BYTES]) {
    for (place, value) in (FROM..END).flat_map(|place| (0..=255).map(move |it| (place, it))) {
        let mut other = *state;
        other[place] = value;
        assert_eq!(both.queued(&other), Ok(standing(&other)));
    }
}

/// The ends of what one to four bytes hold.
fn put_edges_of_the_bytes(both: &mut Both, state: &[u8; STATE_BYTES]) {
    for total in [0, 1, 255, 256, 65_535, 65_536, 1 << 24, 1 << 31, u32::MAX] {
        assert_eq!(both.queued(&with_total(state, total)), Ok(total));
    }
}

/// Would catch a byte left out of the total or put at another place of it.
#[test]
fn every_value_of_each_byte() {
    let mut both = Both::new(&Levels::base());
    let mut random = Random::new(1_102);
    for _ in 0..12 {
        let state = some_sound_state(&mut random);
        put_every_value(&mut both, &state);
        put_edges_of_the_bytes(&mut both, &state);
    }
    both.saw("every value of each byte", 12_000);
    both.wants(Call::Queued, ACCEPTED, 12_000);
}

/// Changes each byte before the four. Says how many of these states are no longer sound.
fn put_other_bytes(both: &mut Both, random: &mut Random, state: &[u8; STATE_BYTES]) -> usize {
    let total = both.queued(state);
    let mut unsound = 0;
    for round in 0..4 * FROM {
        let (place, mut other) = (round / 4, *state);
        let values = [0x00, 0xff, state[place] ^ 0x01, random.number() as u8];
        other[place] = values[round % 4];
        assert_eq!(both.queued(&other), total, "{place}");
        unsound += usize::from(sound(&other).is_none());
    }
    unsound
}

/// Would catch a call that asks whether the state is sound, or takes anything from before its last four
/// bytes: with any other byte changed it answers the same.
#[test]
fn no_other_byte_matters() {
    let mut both = Both::new(&Levels::base());
    let mut random = Random::new(1_103);
    let mut unsound = 0;
    for _ in 0..12 {
        let state = some_sound_state(&mut random);
        unsound += put_other_bytes(&mut both, &mut random, &state);
    }
    both.saw("no other byte matters", 10_000);
    both.wants(Call::Queued, ACCEPTED, 10_000);
    println!("    {unsound} not sound");
    assert!(unsound > 3_000, "{unsound}");
}

/// The same of blocks that are no states.
#[test]
fn totals_of_any_bytes() {
    let mut both = Both::new(&Levels::base());
    let mut random = Random::new(1_104);
    let mut high = 0;
    for _ in 0..20_000 {
        let mut block = [0; STATE_BYTES];
        block.fill_with(|| random.number() as u8);
        let answer = both.queued(&block);
        assert_eq!(answer, Ok(standing(&block)));
        high += u32::from(answer >= Ok(1 << 31));
    }
    both.saw("totals of any bytes", 20_000);
    both.wants(Call::Queued, ACCEPTED, 20_000);
    assert!(high > 9_000, "{high}");
}

/// The same where all bytes are one.
#[test]
fn totals_of_the_same_bytes() {
    let mut both = Both::new(&Levels::base());
    for filler in 0..=255 {
        let total = u32::from(filler) * 0x0101_0101;
        assert_eq!(both.queued(&[filler; STATE_BYTES]), Ok(total));
    }
    both.wants(Call::Queued, ACCEPTED, 256);
}

/// The same of states that are sound, and of forged ones. Those taken for sound have their entries' sum.
#[test]
fn totals_of_forged_states() {
    let mut both = Both::new(&Levels::base());
    let mut random = Random::new(1_105);
    let (mut sound, mut another) = (0, 0);
    for _ in 0..16_000 {
        let state = some_sound_state(&mut random);
        assert_eq!(both.queued(&state).map(u64::from), Ok(sum_of(&state)));
        let forged = forged_state(&mut random, &state);
        let answer = both.queued(&forged);
        if both.show(&forged, 48).is_ok() {
            assert_eq!(answer.map(u64::from), Ok(sum_of(&forged)));
            sound += 1;
        } else if let Ok(total) = answer {
            another += u32::from(u64::from(total) != sum_of(&forged));
        }
    }
    both.saw("totals of forged states", 48_000);
    both.wants(Call::Queued, ACCEPTED, 30_000);
    both.wants(Call::Queued, 10, 1_000);
    both.wants(Call::Show, 10, 10_000);
    println!("    {sound} sound, {another} with another total");
    assert!(sound > 3_500 && another > 1_200, "{sound} {another}");
}

/// Would catch a bit of the total that soundness doesn't look at.
#[test]
fn each_bit_of_the_total_flipped() {
    let mut both = Both::new(&Levels::base());
    let mut random = Random::new(1_106);
    let mut state = some_sound_state(&mut random);
    for round in 0..300 * 32 {
        if round % 32 == 0 {
            state = some_sound_state(&mut random);
            assert!(both.show(&state, 48).is_ok());
        }
        is_unsound(
            &mut both,
            &with_total(&state, standing(&state) ^ 1 << (round % 32)),
        );
    }
    both.saw("each bit of the total flipped", 105_000);
    both.wants(Call::Pass, 10, 48_000);
    both.wants(Call::Show, 10, 48_000);
    both.wants(Call::Queued, ACCEPTED, 9_600);
}

/// Another total than the entries' sum.
#[derive(Clone, Copy, PartialEq, Eq, PartialOrd, Ord, Debug)]
enum Wrong {
    OneMore,
    OneLess,
    Zero,
    /// Its bytes the other way round, and its lower two in place of the upper two.
    Swapped,
    High,
    /// An entry left out, or put in twice.
    LeftOut,
    Twice,
    /// Right in the lower two bytes, or the lower three.
    SecondByte,
    FirstByte,
    /// The largest, and the one that is minus the sum in 32 bits.
    Largest,
    Negative,
    /// The work left in all, and what a start of the plan has.
    Work,
    Allotments,
    Any,
}

const WRONG: [Wrong; 14] = [
    Wrong::OneMore,
    Wrong::OneLess,
    Wrong::Zero,
    Wrong::Swapped,
    Wrong::High,
    Wrong::LeftOut,
    Wrong::Twice,
    Wrong::SecondByte,
    Wrong::FirstByte,
    Wrong::Largest,
    Wrong::Negative,
    Wrong::Work,
    Wrong::Allotments,
    Wrong::Any,
];

impl Wrong {
    /// Such a total for a sound state. It may be the right one after all.
    fn of(self, random: &mut Random, state: &[u8; STATE_BYTES]) -> u32 {
        let total = standing(state);
        let task = random.place(COUNT.get(state) as usize);
        let entry = of_task(task, PLAIN_LEFT).get(state) as u32;
        match self {
            Wrong::OneMore => total + 1,
            Wrong::OneLess => total.wrapping_sub(1),
            Wrong::Zero => 0,
            Wrong::Swapped => total.swap_bytes(),
            Wrong::High => total << 16,
            Wrong::LeftOut => total - entry,
            Wrong::Twice => total + entry,
            Wrong::SecondByte => total + (1 << 16),
            Wrong::FirstByte => total + (1 << 24),
            Wrong::Largest => u32::MAX,
            Wrong::Negative => total.wrapping_neg(),
            Wrong::Work => work_in(state),
            Wrong::Allotments => allotments_in(state),
            Wrong::Any => random.number() as u32,
        }
    }
}

fn work_in(state: &[u8]) -> u32 {
    let state = unpack(state).expect("the state is a sound one");
    let left: u64 = state.entries.iter().map(|entry| entry.left.work).sum();
    left as u32
}

fn allotments_in(state: &[u8]) -> u32 {
    let state = unpack(state).expect("the state is a sound one");
    allotments(&state.levels, &state.tasks())
}

/// The plain ticks of all of a plan's jobs that arrive at the start.
fn allotments(levels: &Levels, plan: &[Task]) -> u32 {
    let judged = judge_list(levels, plan).expect("the plan is an accepted one");
    let nominal = levels.speed(judged.nominal);
    let ticks: u64 = plan.iter().map(|task| allotment(task, nominal)).sum();
    ticks as u32
}

/// Would catch soundness that doesn't ask for the total, asks for it roughly, or adds up something else
/// than the plain ticks left.
#[test]
fn totals_beside_the_sum() {
    let mut both = Both::new(&Levels::base());
    let mut random = Random::new(1_107);
    let mut seen: BTreeMap<Wrong, u32> = BTreeMap::new();
    let mut same = 0;
    for round in 0..1_000 * WRONG.len() {
        let state = some_sound_state(&mut random);
        let wrong = WRONG[round % WRONG.len()];
        let total = wrong.of(&mut random, &state);
        let other = with_total(&state, total);
        if total == standing(&state) {
            assert!(both.show(&other, 48).is_ok(), "{wrong:?}");
            same += 1;
        } else {
            is_unsound(&mut both, &other);
            *seen.entry(wrong).or_default() += 1;
        }
    }
    both.saw("totals beside the sum", 140_000);
    println!("    {seen:?}, {same} the same");
    let enough = |wrong: &Wrong| seen.get(wrong) >= Some(&500);
    assert!(WRONG.iter().all(enough), "{seen:?}");
    assert!(same >= 500, "{same}");
}

/// The same with the simulator's own wrong totals, and with the total that stood there a pass before.
#[test]
fn totals_changed_and_totals_gone_by() {
    let mut both = Both::new(&Levels::base());
    let mut random = Random::new(1_108);
    let (mut changed, mut gone_by) = (0, 0);
    for _ in 0..4_000 {
        let state = some_sound_state(&mut random);
        let other = with_a_total_changed(&mut random, &state);
        if other != state {
            is_unsound(&mut both, &other);
            changed += 1;
        }
        let mut after = state;
        let (d, finished) = some_pass(&mut random, &state);
        let reply = both.pass(&mut after, d, finished);
        if reply.is_ok() && standing(&after) != standing(&state) {
            is_unsound(&mut both, &with_total(&after, standing(&state)));
            is_unsound(&mut both, &with_total(&state, standing(&after)));
            gone_by += 1;
        }
    }
    both.saw("totals changed and totals gone by", 100_000);
    println!("    {changed} changed, {gone_by} gone by");
    assert!(changed > 3_500 && gone_by > 2_500, "{changed} {gone_by}");
}

const fn run(task: u8, level: u8, hold: u32) -> Order {
    Order::Run { task, level, hold }
}

/// Would catch a total that keeps what a replaced entry still had: with one unit a tick, a task of period
/// 2 and 2 units has finished at 1, with both of its plain ticks left. The next tick takes one of them, and
/// the arrival replaces the other.
#[test]
fn the_smallest_entry_replaced_with_a_tick_left() {
    let mut both = Both::new(&Levels::new(&[1]));
    let mut wanted = [0; STATE_BYTES];
    wanted[..8].copy_from_slice(&[0, 0, 0, 1, 255, 0, 1, 0]);
    wanted[8..20].copy_from_slice(&[0, 2, 0, 0, 2, 0, 0, 0, 0, 2, 0, 0]);
    wanted[200..203].copy_from_slice(&[1, 0, 1]);
    wanted[217..].copy_from_slice(&[0, 0, 0, 2]);
    let mut state = forged(&[1], &tasks(&[(2, 2)]), 1, None, &[(0, 0, 2)]);
    assert_eq!(state, wanted);
    assert_eq!(both.queued(&state), Ok(2));
    assert_eq!(both.show(&state, 3), Ok(queue_bytes(&[(0, 2)])));
    assert_eq!(both.pass(&mut state, 1, 0), Ok(run(0, 0, 2)));
    wanted[..8].copy_from_slice(&[0, 0, 0, 2, 0, 0, 1, 0]);
    wanted[8..20].copy_from_slice(&[0, 2, 0, 0, 2, 0, 0, 2, 0, 2, 0, 0]);
    assert_eq!(state, wanted);
    assert_eq!(both.queued(&state), Ok(2));
    assert_eq!(both.show(&state, 3), Ok(queue_bytes(&[(0, 2)])));
    // With 3 it would be no state.
    is_unsound(&mut both, &with_total(&state, 3));
    // The next job takes both of its ticks, and nothing is left over.
    assert_eq!(both.pass(&mut state, 2, 1), Ok(run(0, 0, 2)));
    wanted[3] = 4;
    assert_eq!(state, wanted);
}

/// Puts a pass to a copy of the state. If it is accepted, the total is the one worked out beforehand, and
/// the state is sound.
#[track_caller]
fn put_pass(
    both: &mut Both,
    state: &[u8; STATE_BYTES],
    (d, finished): (u32, u8),
    sums: &mut Sums,
) -> Option<[u8; STATE_BYTES]> {
    let mut after = *state;
    let reply = both.pass(&mut after, d, finished);
    let total = both.queued(&after);
    if reply.is_err() {
        assert_eq!(total, Ok(standing(state)));
        return None;
    }
    let step = Step::of(state, d);
    assert_eq!(total.map(u64::from), Ok(step.after()), "{step:?}");
    assert_eq!(sum_of(&after), step.after(), "{step:?}");
    assert!(both.show(&after, 48).is_ok());
    sums.note(&step);
    Some(after)
}

/// Would catch ticks of one replaced entry kept and of another not, ones taken twice because a less
/// urgent entry is replaced as well, and ones of an entry that stays.
#[test]
fn entries_replaced_with_ticks_left_by_hand() {
    let mut both = Both::new(&Levels::new(&[1]));
    let mut sums = Sums::default();
    let mut total_after = |state: &[u8; STATE_BYTES], d, finished| {
        let after = put_pass(&mut both, state, (d, finished), &mut sums);
        standing(&after.expect("the pass is accepted"))
    };
    // Two ticks each at 3 of 4: one is taken from task 0, and 1 + 2 are replaced by 2 + 2.
    let twins = tasks(&[(4, 2), (4, 2)]);
    let two = forged(&[1], &twins, 3, None, &[(0, 0, 2), (0, 0, 2)]);
    assert_eq!(total_after(&two, 1, 0), 4);
    // Task 1 has a period of 8 and keeps its 2. Of task 0's 3 one is taken and 2 are replaced by 3.
    let plan = tasks(&[(4, 3), (8, 2)]);
    let first = forged(&[1], &plan, 3, None, &[(0, 0, 3), (0, 0, 2)]);
    assert_eq!(total_after(&first, 1, 0), 5);
    // The same while task 1 runs, and where it finishes with the tick.
    let running = Some(Running { task: 1, level: 0 });
    let while_running = forged(&[1], &plan, 3, running, &[(0, 0, 3), (0, 2, 2)]);
    assert_eq!(total_after(&while_running, 1, 0), 5);
    assert_eq!(total_after(&while_running, 1, 1), 5);
    // At 7 both are replaced: of 3 + 2 one is taken, and 3 + 2 come.
    let both_replaced = forged(&[1], &plan, 7, None, &[(0, 0, 3), (0, 0, 2)]);
    assert_eq!(total_after(&both_replaced, 1, 0), 5);
    // Nothing is left to be replaced where the ticks are used up.
    let used_up = forged(&[1], &plan, 1, None, &[(0, 0, 3), (0, 0, 1)]);
    assert_eq!(total_after(&used_up, 3, 0), 4);
    assert_eq!(
        (sums.replacing, sums.ticks_replaced),
        (5, 3 + 2 + 2 + 2 + 4)
    );
}

/// A pass that is accepted, but for one past the largest clock. Now and then one goes only some of the
/// way to the next arrival, so that a queue can run dry before it.
fn some_pass(random: &mut Random, state: &[u8; STATE_BYTES]) -> (u32, u8) {
    let view = View::of(state);
    let (d, finished) = match random.below(3) {
        0 => view.going_on(random),
        _ => view.some_pass(random),
    };
    (d, told(random, finished))
}

/// So many passes from a state, with the total checked after each.
fn lead_on(
    both: &mut Both,
    random: &mut Random,
    from: &[u8; STATE_BYTES],
    passes: u32,
    sums: &mut Sums,
) {
    let mut state = *from;
    for _ in 0..passes {
        let pass = some_pass(random, &state);
        state = put_pass(both, &state, pass, sums).unwrap_or(state);
    }
}

/// Would catch a wrong total where entries are replaced with ticks left, in plans of every kind: each
/// such state is led to its arrival at once, with a job that runs on or one that ends, if there is one.
#[test]
fn entries_replaced_with_ticks_left() {
    let mut both = Both::new(&Levels::base());
    let mut random = Random::new(1_109);
    let (mut at_once, mut sums) = (Sums::default(), Sums::default());
    let (mut running, mut states) = (0, 0);
    while states < 4_000 {
        let (levels, plan) = some_plan(&mut random);
        let state = match replacing_state(&mut random, &levels, &plan) {
            Some(state) => state,
            None => continue,
        };
        states += 1;
        let (view, before) = (View::of(&state), at_once.ticks_replaced);
        let gap = view.to_arrival as u32;
        let led = [0, 1].map(|it| put_pass(&mut both, &state, (gap, it), &mut at_once));
        let times = led.iter().flatten().count() as u64;
        running += u32::from(times > 0 && view.needed.is_some());
        // The simulator's own count of them is the same.
        let replaced = ticks_replaced(&unpack(&state).expect("it is a state"));
        assert_eq!(at_once.ticks_replaced - before, times * replaced);
        lead_on(&mut both, &mut random, &state, 5, &mut sums);
    }
    both.saw("entries replaced with ticks left", 79_000);
    println!("    {at_once:?}");
    at_once.wants_replaced(4_000, 500_000);
    println!("    {sums:?}");
    sums.wants_replaced(4_000, 500_000);
    println!("    {running} with a job that runs");
    assert!(running > 500, "{running}");
}

/// Puts every pass on a state whose jobs have all finished.
fn put_every_idle_pass(both: &mut Both, state: &[u8; STATE_BYTES], sums: &mut Sums) {
    assert!(both.show(state, 48).is_ok());
    for d in 1..=View::of(state).to_arrival as u32 + 1 {
        put_pass(both, state, (d, 0), sums);
    }
}

/// Would catch a rare way that ticks are taken, lost, replaced or brought: each state of small plans
/// whose jobs have all finished, with every pass on it.
#[test]
fn every_idle_state_of_small_plans() {
    let mut both = Both::new(&Levels::base());
    let mut sums = Sums::default();
    let plans = [
        (&[1][..], &[(2, 2)][..]),
        (&[1], &[(4, 3), (8, 2)]),
        (&[1, 2], &[(3, 2), (3, 2)]),
        (&[1], &[(4, 1), (4, 2), (8, 2)]),
        (&[2], &[(6, 4), (4, 2), (12, 4)]),
    ];
    let states = |(speeds, plan): (&[u64], &[(u64, u64)])| every_idle_state(speeds, &tasks(plan));
    for state in plans.into_iter().flat_map(states) {
        put_every_idle_pass(&mut both, &state, &mut sums);
    }
    both.saw("every idle state of small plans", 4_700);
    println!("    {sums:?}");
    sums.wants(30);
    sums.wants_replaced(100, 160);
}

/// One task of 5 ticks in 12 has finished, with so many of them left. Each number of ticks goes by.
fn put_idle_ticks(both: &mut Both, clock: u64, total: u64, sums: &mut Sums) {
    let state = forged(&[1], &tasks(&[(12, 5)]), clock, None, &[(0, 0, total)]);
    let gap = 12 - clock;
    for d in 1..=gap {
        let after = put_pass(both, &state, (d as u32, 0), sums);
        let left = if d == gap { 5 } else { total.saturating_sub(d) };
        assert_eq!(after.map(|it| standing(&it)), Some(left as u32));
    }
    assert!(put_pass(both, &state, (gap as u32 + 1, 0), sums).is_none());
}

/// Would catch a total that falls below 0 or stays where it was while nothing runs.
#[test]
fn idle_stretches_to_the_tick() {
    let mut both = Both::new(&Levels::new(&[1]));
    let mut sums = Sums::default();
    for (clock, total) in (0..12).flat_map(|clock| (0..=5).map(move |total| (clock, total))) {
        put_idle_ticks(&mut both, clock, total, &mut sums);
    }
    both.saw("idle stretches to the tick", 1_500);
    println!("    {sums:?}");
    sums.wants(5);
}

/// The state with all jobs ended, and at most so many plain ticks in each entry.
fn idle_with_few(random: &mut Random, state: &[u8; STATE_BYTES], most: u64) -> [u8; STATE_BYTES] {
    let mut state = unpack(state).expect("the state is a sound one");
    state.running = None;
    for entry in &mut state.entries {
        entry.left = Left::NOTHING;
        entry.plain_left = entry.plain_left.min(random.between(0, most));
    }
    pack(&state)
}

/// The same in plans of every kind: the ticks of the pass are about as many as are queued, or many more.
#[test]
fn idle_stretches_of_any_plan() {
    let mut both = Both::new(&Levels::base());
    let mut random = Random::new(1_110);
    let mut sums = Sums::default();
    for _ in 0..30_000 {
        let (levels, plan) = some_plan(&mut random);
        let invented = invented_state(&mut random, &levels, &plan);
        let most = random.pick(&[0, 1, 3, 40]);
        let state = idle_with_few(&mut random, &invented, most);
        let (total, gap) = (standing(&state), View::of(&state).to_arrival as u32);
        let near = [total.saturating_sub(1), total, total + 1, total + 9];
        let far = [gap - 1, gap];
        let d = random.pick(&[&near[..], &far].concat());
        put_pass(&mut both, &state, (d, 0), &mut sums);
    }
    both.saw("idle stretches of any plan", 70_000);
    println!("    {sums:?}");
    sums.wants(900);
    sums.wants_replaced(500, 2_000);
}

/// Would catch a start that wants more or less room than 221 bytes, one that doesn't write the four
/// bytes, or writes past them, and one that adds up something else than the allotments.
#[test]
fn starts_at_220_221_and_222_bytes() {
    let mut both = Both::new(&Levels::base());
    let mut random = Random::new(1_111);
    for round in 0..1_600 {
        let levels = both.load_some(&mut random);
        let plan = plan_of_count(&mut random, &levels, 1 + round % 16);
        let block = block_of(&plan);
        let mark = random.pick(&[0x00, 0xff, 0xa5]);
        let mut started = [mark; 222];
        assert_eq!(both.start(&block, &[], &mut started[..220]), Err(9));
        assert_eq!(both.start(&block, &[], &mut started[..217]), Err(9));
        assert_eq!(started, [mark; 222]);
        let first = both.start(&block, &[], &mut started[..221]);
        assert_eq!(started[221], mark);
        let total = allotments(&levels, &plan);
        assert_eq!(started[FROM..END], total.to_be_bytes());
        assert_eq!(both.queued(&started[..221]), Ok(total));
        // Once more with a byte to spare, over what another run has left.
        started[FROM..].fill(!mark);
        assert_eq!(both.start(&block, &[], &mut started), first);
        assert_eq!(started[FROM..END], total.to_be_bytes());
        assert_eq!(started[221], !mark);
        assert_eq!(both.queued(&started), Err(10));
    }
    both.saw("starts at 220, 221 and 222 bytes", 9_600);
    both.wants(Call::Start, ACCEPTED, 3_200);
    both.wants(Call::Start, 9, 3_200);
    both.wants(Call::Queued, ACCEPTED, 1_600);
    both.wants(Call::Queued, 10, 1_600);
    both.wants_editions(&[Call::Start], 500);
}

/// The start of a plan with 01's speeds, whose total must be this.
#[track_caller]
fn started(both: &mut Both, plan: &[Task], total: u32) -> [u8; STATE_BYTES] {
    let mut state = [0xa5; STATE_BYTES];
    assert!(both.start(&block_of(plan), &[], &mut state).is_ok());
    assert_eq!(both.queued(&state), Ok(total));
    assert_eq!(state[FROM..], total.to_be_bytes());
    state
}

/// Would catch a total that is cut to fewer bits than the largest of an accepted plan has. The sum of
/// allotment divided by period is at most 1 and no period above 65,535, so neither is the total.
#[test]
fn the_largest_total_of_a_plan() {
    let mut both = Both::new(&Levels::base());
    // 15 tasks of 4,096 ticks, and one of 4,095.
    let mut plan = tasks(&[(65_535, 40_960); 16]);
    plan[15].worst = 40_950;
    let mut state = started(&mut both, &plan, 65_535);
    assert_eq!(both.pass(&mut state, 1, 0), Ok(run(0, 0, 4_095)));
    assert_eq!(both.queued(&state), Ok(65_534));
    assert_eq!(both.pass(&mut state, 4_095, 1), Ok(run(1, 0, 4_096)));
    assert_eq!(both.queued(&state), Ok(61_439));
    // The same with 255 of the ticks fixed ones.
    for task in &mut plan {
        task.fixed = 255;
        task.worst -= 2_550;
    }
    started(&mut both, &plan, 65_535);
    // One task alone, led to where it comes again, and so the total too.
    let mut alone = started(&mut both, &tasks(&[(65_535, 655_350)]), 65_535);
    assert_eq!(both.pass(&mut alone, 65_534, 0), Ok(run(0, 0, 1)));
    assert_eq!(both.queued(&alone), Ok(1));
    assert_eq!(both.pass(&mut alone, 1, 1), Ok(run(0, 0, 65_535)));
    assert_eq!(both.queued(&alone), Ok(65_535));
    // A unit more, and 20 units a tick take half as many.
    plan = tasks(&[(65_535, 40_960); 16]);
    plan[15].worst = 40_951;
    started(&mut both, &plan, 32_768);
    started(&mut both, &tasks(&[(65_535, 655_351)]), 32_768);
    started(&mut both, &fixed_tasks(&[(65_535, 652_800, 255)]), 65_535);
}

/// Would catch a total that is cut to fewer bits than the field has, in states that aren't sound.
#[test]
fn the_largest_total_of_the_field() {
    let mut both = Both::new(&Levels::base());
    let fresh = started(&mut both, &bench_plan(), 14);
    for total in [u32::MAX, u32::MAX - 1, 1 << 31, 1 << 16, 65_535, 15, 13, 0] {
        let other = with_total(&fresh, total);
        assert_eq!(both.queued(&other), Ok(total));
        is_unsound(&mut both, &other);
    }
    let rubbish = [0xff; STATE_BYTES];
    assert_eq!(both.queued(&rubbish), Ok(4_294_967_295));
    is_unsound(&mut both, &rubbish);
}

/// The same with sixteen entries as full as they can be, which are more than any allotment, and the total
/// that they have.
#[test]
fn entries_as_full_as_they_can_be() {
    let mut both = Both::new(&Levels::base());
    let mut full = started(&mut both, &tasks(&[(65_535, 1); 16]), 16);
    for task in 0..ENTRIES {
        of_task(task, PLAIN_LEFT).put(&mut full, 65_535);
    }
    put_total(&mut full);
    assert_eq!(both.queued(&full), Ok(1_048_560));
    is_unsound(&mut both, &full);
}

/// Puts passes that are refused to the state, at each edge.
fn put_refused(both: &mut Both, random: &mut Random, state: &mut [u8; STATE_BYTES]) {
    let (view, before) = (View::of(state), *state);
    let edges = view.edges().into_iter();
    for (d, finished) in edges.flat_map(|d| [(d, false), (d, true)]) {
        if view.refusal(d, finished) != ACCEPTED {
            let reply = both.pass(state, d, told(random, finished));
            assert_eq!(reply, Err(view.refusal(d, finished)));
            assert_eq!(state[FROM..], before[FROM..]);
            assert_eq!(both.queued(state), Ok(standing(&before)));
        }
    }
}

/// Would catch a refused pass that moves the total, with each of the numbers, and one after which the
/// next isn't counted from where it stood.
#[test]
fn refused_passes_leave_the_four_bytes() {
    let mut both = Both::new(&Levels::base());
    let mut random = Random::new(1_112);
    let mut sums = Sums::default();
    for _ in 0..2_500 {
        let mut state = some_sound_state(&mut random);
        put_refused(&mut both, &mut random, &mut state);
        lead_on(&mut both, &mut random, &state, 5, &mut sums);
    }
    both.saw("refused passes leave the four bytes", 170_000);
    println!("    {sums:?}");
    sums.wants(10);
    let enough = |number| both.wants(Call::Pass, number, 1_000);
    (11..=15).for_each(enough);
}

/// An accepted plan of few tasks, whose queue is often empty for a while.
fn some_light_plan(random: &mut Random) -> (Levels, Vec<Task>) {
    loop {
        let (levels, plan) = (some_or_base_levels(random), loose_plan(random));
        if judge_list(&levels, &plan).is_ok() {
            return (levels, plan);
        }
    }
}

/// Would catch a total that goes astray within a run, in plans of every kind and long ones too, which the
/// books of `runs` are too slow for.
#[test]
fn totals_along_runs_of_any_plan() {
    let mut both = Both::new(&Levels::base());
    let mut random = Random::new(1_113);
    let mut sums = Sums::default();
    for round in 0..800 {
        let (levels, plan) = match round % 2 {
            0 => some_plan(&mut random),
            _ => some_light_plan(&mut random),
        };
        let (state, _) = reached_state(&mut random, &levels, &plan, 0);
        assert_eq!(both.queued(&state), Ok(allotments(&levels, &plan)));
        lead_on(&mut both, &mut random, &state, 40, &mut sums);
    }
    both.saw("totals along runs of any plan", 96_000);
    println!("    {sums:?}");
    sums.wants(100);
    sums.wants_none_replaced();
}
