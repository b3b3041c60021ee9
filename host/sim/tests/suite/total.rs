//! 02, No. 6: the total of the plain ticks queued, at the end of the state block, and the call that
//! answers from it. That it is the plain schedule's sum in random runs is in `runs`.

use crate::base::{judge_list, start};
use crate::common::{
    bench_plan, fixed_tasks, idle, is_sound, led, queue, refuses_pass, refuses_show, run,
    sensor_plan, tasks, unsound, BENCH_BLOCK, BENCH_PASSES,
};
use sim::forging::{every_idle_state, forged};
use sim::layout::{self, STATE_BYTES};
use sim::plan::Task;
use sim::random::blocks::block_of;
use sim::random::passes::any_pass;
use sim::random::plans::{plan_at_level, plan_at_level_within, SMALL_BASES};
use sim::random::states::invented_state;
use sim::random::tables::some_or_base_levels;
use sim::random::totals::replacing_state;
use sim::random::Random;
use sim::schedule::allotment;
use sim::state::{pack, unpack, Running, State};
use sim::{pass, queued, queued_number, Levels, Order};

/// The bench plan's state at tick 1, where the queue is 3, 4 and 6 ticks, with this total.
fn with_total(total: u32) -> [u8; STATE_BYTES] {
    let (mut state, _) = led(&bench_plan(), &BENCH_PASSES[..1]);
    state[217..].copy_from_slice(&total.to_be_bytes());
    state
}

/// What the entries of a block add up to, read byte by byte from where 01 has them.
fn sum_of_entries(state: &[u8]) -> u32 {
    let plain_left = |task: usize| {
        let at = 8 + 12 * task + 8;
        256 * u32::from(state[at]) + u32::from(state[at + 1])
    };
    (0..16).map(plain_left).sum()
}

/// What the queue shown adds up to.
fn sum_shown(state: &[u8]) -> u64 {
    queue(state).iter().map(|(_, left)| left).sum()
}

/// Would catch a call that takes a state of another length, the older 217 bytes among them.
#[test]
fn another_length_is_refused_with_10() {
    let (good, _) = led(&bench_plan(), &[]);
    assert_eq!(queued(&good), Ok(14));
    is_sound(&good);
    let longer = [&good[..], &good[..]].concat();
    for length in (0..=220).chain(222..=442) {
        assert_eq!(queued(&longer[..length]), Err(10), "{length}");
        assert_eq!(queued_number(&longer[..length]), 10, "{length}");
        unsound(&longer[..length]);
    }
    // One byte too few or too many, with the total at the end all the same.
    unsound(&good[1..]);
    assert_eq!(queued(&good[1..]), Err(10));
    let shifted = [&[0], &good[..]].concat();
    unsound(&shifted);
    assert_eq!(queued(&shifted), Err(10));
}

/// Would catch a start that has enough with too few bytes.
#[test]
fn starting_with_220_bytes_is_refused_with_9() {
    for length in [0, 1, 200, 217, 218, 219, 220] {
        let mut state = vec![0xa5; length];
        assert_eq!(start(&BENCH_BLOCK, &mut state), Err(9), "{length}");
        assert_eq!(state, vec![0xa5; length]);
    }
}

/// Would catch a start that wants more, or writes past them.
#[test]
fn starting_with_221_bytes_or_more_writes_221() {
    for length in [221, 222, 225, 300, 442] {
        let mut state = vec![0xa5; length];
        assert_eq!(start(&BENCH_BLOCK, &mut state), Ok(run(0, 7, 4)));
        assert_eq!(state[217..221], [0, 0, 0, 14]);
        assert_eq!(state[221..], vec![0xa5; length - 221]);
        assert_eq!(state[..221], led(&bench_plan(), &[]).0);
    }
}

/// Would catch a total that counts worst cases, work or one entry only, or isn't most significant byte
/// first.
#[test]
fn a_start_has_the_sum_of_the_allotments() {
    let started = |plan: &[Task]| led(plan, &[]).0;
    // 4 + 4 + 6 of the bench plan; 5 + 19 of the sensor plan, fixed ticks among them.
    assert_eq!(queued(&started(&bench_plan())), Ok(14));
    assert_eq!(queued(&started(&sensor_plan())), Ok(24));
    // 300 ticks at 10 units, then 300 and 213, which are 513: two bytes are used.
    let one = started(&tasks(&[(1_000, 3_000)]));
    assert_eq!(one[217..], [0, 0, 1, 44]);
    assert_eq!(queued(&one), Ok(300));
    let two = started(&tasks(&[(1_000, 3_000), (1_000, 2_125)]));
    assert_eq!(two[217..], [0, 0, 2, 1]);
    assert_eq!(queued(&two), Ok(513));
    // With other speeds loaded the allotments are others: 8 + 8 + 12 ticks of 50 units would be too
    // much, 2 + 2 + 3 of 200 are not.
    let mut state = [0; STATE_BYTES];
    let levels = Levels::new(&[50, 200]);
    sim::dispatch::start(&levels, &BENCH_BLOCK, &[], &mut state).unwrap();
    assert_eq!(queued(&state), Ok(7));
}

/// Would catch a total that isn't lowered by the ticks gone by, or not raised by the arrivals.
#[test]
fn the_totals_of_the_listing() {
    // At 10 tasks 0 and 1 bring 4 each; at 18 task 1's plain job is done, at 19 a tick of task 2 more.
    // At 20 the queue is (2, 2), (0, 4), (1, 4).
    let totals = [14, 13, 6, 4 + 4 + 4, 8, 3, 2 + 4 + 4];
    for (passes, total) in totals.into_iter().enumerate() {
        let (state, _) = led(&bench_plan(), &BENCH_PASSES[..passes]);
        assert_eq!(queued(&state), Ok(total), "{passes}");
        assert_eq!(sum_shown(&state), u64::from(total), "{passes}");
    }
    // However the job ends, early or at all: a tick takes one from the queue.
    let (mut state, _) = led(&bench_plan(), &[]);
    for total in [13, 12, 11] {
        assert_eq!(queued(&state), Ok(total + 1));
        pass(&mut state, 1, false).unwrap();
        assert_eq!(queued(&state), Ok(total));
    }
}

/// Not sound, by passing and by showing, whatever else is asked; and answered as it stands.
#[track_caller]
fn is_another_total(total: u32) {
    let state = with_total(total);
    unsound(&state);
    assert_eq!(queued(&state), Ok(total));
    assert_eq!(queued_number(&state), u64::from(total) * 256);
    // 10 comes before the questions about the pass and the room.
    refuses_pass(&state, 0, true, 10);
    refuses_pass(&state, 4, false, 10);
    refuses_pass(&state, u32::MAX, true, 10);
    refuses_show(&state, 0, 10);
}

/// Would catch a soundness that doesn't ask for the total, and a call that goes through the entries or
/// asks for more than the length.
#[test]
fn another_total_is_unsound_and_answered_as_it_stands() {
    is_sound(&with_total(13));
    let others = [
        0,
        1,
        12,
        14,
        255,
        13 + 256,
        13 + (1 << 16),
        13 + (1 << 24),
        u32::swap_bytes(13),
        u32::MAX - 13,
        u32::MAX - 1,
        u32::MAX,
    ];
    others.into_iter().for_each(is_another_total);
}

/// Would catch a soundness that asks for a part of the four bytes.
#[test]
fn each_bit_of_the_total_is_asked_for() {
    for bit in 0..32 {
        is_another_total(13 ^ (1 << bit));
    }
}

/// Would catch a soundness that leaves out entries: all but the running job's, or those of finished
/// jobs.
#[test]
fn the_total_is_that_of_all_entries() {
    // Task 0 has finished with 3 ticks left, task 1 runs with 4, task 2 waits with 6.
    for total in [3, 4, 6, 3 + 4, 3 + 6, 4 + 6, 13 + 3, 13 + 13] {
        is_another_total(total);
    }
}

/// Would catch a soundness that asks for another total than the one of the entries as they stand.
#[test]
fn a_plain_tick_more_or_less_wants_another_total() {
    for (plain_left, total) in [(4, 14), (2, 12)] {
        let mut state = unpack(&with_total(13)).unwrap();
        state.entries[0].plain_left = plain_left;
        // With a tick less level 5 wouldn't meet the allowance.
        state.running.as_mut().unwrap().level = 7;
        let mut block = pack(&state);
        is_sound(&block);
        assert_eq!(queued(&block), Ok(total));
        block[217..].copy_from_slice(&[0, 0, 0, 13]);
        unsound(&block);
        assert_eq!(queued(&block), Ok(13));
    }
}

/// Would catch a sum over sixteen entries that stands for "Entries past the count are zero."
#[test]
fn a_tick_past_the_count_is_unsound_with_either_total() {
    for total in [13, 14] {
        let mut state = with_total(total);
        state[8 + 12 * 3 + 9] = 1;
        unsound(&state);
        assert_eq!(queued(&state), Ok(total));
    }
}

/// Would catch a call that asks for anything but the length.
#[test]
fn every_other_byte_is_nothing_to_the_answer() {
    let good = with_total(13);
    for place in 0..217 {
        let mut state = good;
        state[place] = !state[place];
        assert_eq!(queued(&state), Ok(13), "{place}");
    }
    assert_eq!(queued(&[0; 221]), Ok(0));
    assert_eq!(queued(&[255; 221]), Ok(u32::MAX));
    let rising: Vec<u8> = (0..221).map(|place| place as u8).collect();
    assert_eq!(queued(&rising), Ok(0xd9da_dbdc));
    unsound(&rising);
}

/// Would catch an answer that is cut at 32 bits, or has the total in the byte of the refusals.
#[test]
fn the_answer_as_one_number() {
    assert_eq!(queued_number(&[]), 10);
    assert_eq!(queued_number(&with_total(0)), 0);
    assert_eq!(queued_number(&with_total(10)), 2_560);
    assert_eq!(queued_number(&with_total(13)), 3_328);
    assert_eq!(queued_number(&with_total(1 << 24)), 1 << 32);
    let largest = with_total(4_294_967_295);
    assert_eq!(queued_number(&largest), 1_099_511_627_520);
    assert_eq!(queued(&largest), Ok(4_294_967_295));
    unsound(&largest);
}

/// Would catch a total that is only lowered by the ticks and raised by the allotments: what the replaced
/// entry still had stays in it then.
#[test]
fn the_smallest_entry_replaced_with_ticks_left() {
    // Finished at tick 1 of 2, with both plain ticks left. A tick later one of them is gone, and the
    // other is replaced by two new ones.
    let plan = tasks(&[(2, 2)]);
    let mut state = forged(&[1], &plan, 1, None, &[(0, 0, 2)]);
    is_sound(&state);
    assert_eq!(queued(&state), Ok(2));
    assert_eq!(pass(&mut state, 1, false), Ok(run(0, 0, 2)));
    assert_eq!(queued(&state), Ok(2));
    assert_eq!(queue(&state), [(0, 2)]);
    is_sound(&state);
    // From a run none is left to be replaced.
    let mut reached = forged(&[1], &plan, 1, None, &[(0, 0, 1)]);
    assert_eq!(pass(&mut reached, 1, false), Ok(run(0, 0, 2)));
    assert_eq!(queued(&reached), Ok(2));
}

/// The same with a second task: one that is replaced as well, one that isn't, and one that runs.
#[test]
fn entries_of_two_tasks_replaced_with_ticks_left() {
    // At 3 of 4 both have finished, with two ticks each. One is taken from task 0; 1 and 2 go.
    let twins = tasks(&[(4, 2), (4, 2)]);
    let mut both = forged(&[1], &twins, 3, None, &[(0, 0, 2), (0, 0, 2)]);
    is_sound(&both);
    assert_eq!(pass(&mut both, 1, false), Ok(run(0, 0, 2)));
    assert_eq!(queued(&both), Ok(4));
    // Task 1, of period 8, keeps its two. Task 0 has 2 of 3 left and gets 3.
    let plan = tasks(&[(4, 3), (8, 2)]);
    let mut first = forged(&[1], &plan, 3, None, &[(0, 0, 3), (0, 0, 2)]);
    assert_eq!(queued(&first), Ok(5));
    assert_eq!(pass(&mut first, 1, false), Ok(run(0, 0, 3)));
    // Both have the deadline 8 then, and task 1 came first.
    assert_eq!(queue(&first), [(1, 2), (0, 3)]);
    assert_eq!(queued(&first), Ok(5));
    // While task 1 runs.
    for (finished, reply) in [(false, run(1, 0, 1)), (true, run(0, 0, 3))] {
        let running = Some(Running { task: 1, level: 0 });
        let mut state = forged(&[1], &plan, 3, running, &[(0, 0, 3), (0, 2, 2)]);
        assert_eq!(pass(&mut state, 1, finished), Ok(reply));
        assert_eq!(queued(&state), Ok(5));
    }
    // A tick earlier, in two passes: the first replaces nothing.
    let mut earlier = forged(&[1], &plan, 2, None, &[(0, 0, 3), (0, 0, 1)]);
    assert_eq!(pass(&mut earlier, 1, false), Ok(idle(1)));
    assert_eq!(queued(&earlier), Ok(3));
    assert_eq!(pass(&mut earlier, 1, false), Ok(run(0, 0, 3)));
    assert_eq!(queued(&earlier), Ok(4));
}

/// Would catch a total that doesn't hold the largest there can be.
///
/// A level that admits a plan has the sum of allotment times hyperperiod divided by period at most the
/// hyperperiod, so the sum of allotment divided by period is at most 1. No period is above 65,535, so
/// the sum of the allotments is at most 65,535 times that. It is 65,535 exactly where all periods are
/// so long and every tick of them is allotted, whether to one task or to sixteen.
#[test]
fn the_largest_total_of_an_accepted_plan() {
    // At 10 units a tick 15 tasks take 4,096 ticks each, and one takes 4,095.
    let mut plan = tasks(&[(65_535, 40_960); 16]);
    plan[15].worst = 40_950;
    let (mut state, order) = led(&plan, &[]);
    assert_eq!(order, run(0, 0, 4_096));
    assert_eq!(queued(&state), Ok(65_535));
    assert_eq!(state[217..], [0, 0, 255, 255]);
    assert_eq!(queued_number(&state), 65_535 << 8);
    assert_eq!(pass(&mut state, 4_096, true), Ok(run(1, 0, 4_096)));
    assert_eq!(queued(&state), Ok(65_535 - 4_096));
    // With fixed ticks the same: 255 of the 4,096.
    for task in &mut plan {
        task.fixed = 255;
        task.worst -= 2_550;
    }
    assert_eq!(queued(&led(&plan, &[]).0), Ok(65_535));
    // One task alone has as many, which are all that two bytes of an entry hold.
    let (alone, _) = led(&tasks(&[(65_535, 655_350)]), &[]);
    assert_eq!(queued(&alone), Ok(65_535));
}

/// The other side of it.
#[test]
fn plans_beside_the_largest_total() {
    // A unit more, and 10 units a tick don't admit it: at 20 it is half as much. With 10 units as the
    // only speed nothing admits it.
    let mut plan = tasks(&[(65_535, 40_960); 16]);
    plan[15].worst = 40_951;
    assert_eq!(queued(&led(&plan, &[]).0), Ok(16 * 2_048));
    assert_eq!(judge_list(&plan).unwrap().nominal, 1);
    assert_eq!(sim::plan::judge_list(&Levels::new(&[10]), &plan), Err(8));
    // A shorter period for one of the sixteen, and its share of the ticks is worth less.
    let mut shorter = tasks(&[(65_535, 40_960); 15]);
    shorter.push(fixed_tasks(&[(21_845, 13_650, 0)])[0]);
    assert_eq!(queued(&led(&shorter, &[]).0), Ok(15 * 4_096 + 1_365));
}

/// The totals after idle passes. A task of 3 ticks in 10 has finished after one, so two are left, and
/// nine to the arrival.
fn totals_while_idle(passes: &[u32]) -> Vec<u32> {
    let (mut state, order) = led(&tasks(&[(10, 30)]), &[(1, true)]);
    assert_eq!((order, queued(&state)), (idle(9), Ok(2)));
    let mut totals = Vec::new();
    for d in passes {
        pass(&mut state, *d, false).unwrap();
        totals.push(queued(&state).unwrap());
    }
    totals
}

/// Would catch a total that falls below 0 or stays where it was while nothing runs.
#[test]
fn ticks_that_nobody_gets_are_lost() {
    // The queue's clock doesn't stand still (01, "Where a scheduler goes astray").
    assert_eq!(totals_while_idle(&[1, 1, 1, 1]), [1, 0, 0, 0]);
    // As many as are left, then with the queue empty, then to the arrival, which brings 3.
    assert_eq!(totals_while_idle(&[2, 5, 2]), [0, 0, 3]);
    // One more than are left, two more, and all there are.
    assert_eq!(totals_while_idle(&[3, 6]), [0, 3]);
    assert_eq!(totals_while_idle(&[4, 4, 1]), [0, 0, 3]);
    assert_eq!(totals_while_idle(&[9]), [3]);
}

/// The same while a lone job runs past its plain finish (02, No. 4).
#[test]
fn ticks_past_the_plain_finish_are_lost_too() {
    // From 1 on task 1 is alone with 20 plain ticks at 20 units a tick, and takes 39 at 10.
    let plan = tasks(&[(40, 11), (40, 390)]);
    let (state, order) = led(&plan, &[(1, true)]);
    assert_eq!((order, queued(&state)), (run(1, 0, 39), Ok(20)));
    for (d, total) in [(19, 1), (20, 0), (21, 0), (38, 0)] {
        let mut later = state;
        assert_eq!(pass(&mut later, d, false), Ok(run(1, 0, 39 - d)));
        assert_eq!(queued(&later), Ok(total));
        assert_eq!(pass(&mut later, 39 - d, true), Ok(run(0, 1, 1)));
        assert_eq!(queued(&later), Ok(21));
    }
    let mut at_once = state;
    assert_eq!(pass(&mut at_once, 39, true), Ok(run(0, 1, 1)));
    assert_eq!(queued(&at_once), Ok(21));
}

/// Would catch a refused pass that lowers the total.
#[test]
fn refused_passes_leave_the_total() {
    let refused = |state: &[u8], d, finished, number| {
        let before = queued(state);
        let mut after = state.to_vec();
        assert_eq!(pass(&mut after, d, finished), Err(number));
        assert_eq!(queued(&after), before);
        assert_eq!(after, state);
    };
    let (running, _) = led(&bench_plan(), &BENCH_PASSES[..1]);
    refused(&running, 0, false, 11);
    refused(&running, 10, true, 12);
    refused(&running, u32::MAX, false, 12);
    refused(&running, 7, false, 14);
    refused(&running, 8, true, 14);
    let (idling, _) = led(&bench_plan(), &BENCH_PASSES[..5]);
    assert_eq!(queued(&idling), Ok(3));
    refused(&idling, 1, true, 13);
    let mut late = unpack(&running).unwrap();
    late.clock = 4_000_000_000;
    refused(&pack(&late), 1, false, 15);
    refused(&with_total(14), 1, false, 10);
    // After one that was refused the next is counted from where it stood.
    let mut state = running;
    assert_eq!(pass(&mut state, 7, false), Err(14));
    assert_eq!(pass(&mut state, 6, false), Ok(run(1, 5, 1)));
    assert_eq!(queued(&state), Ok(7));
}

/// Whether the task has an arrival at this clock.
fn arrives(state: &State, clock: u64, task: usize) -> bool {
    clock % state.entries[task].task.period == 0
}

/// The total after an accepted pass, from the queue shown before it and the plan alone: the ticks are
/// taken from the front, what then stands in a replaced entry goes, and its allotment comes. Also how
/// many ticks went that way.
fn expected_after(before: &[u8], d: u64) -> (u64, u64) {
    let state = unpack(before).unwrap();
    let tasks = state.tasks();
    let judged = sim::plan::judge_list(&state.levels, &tasks).unwrap();
    let nominal = state.levels.speed(judged.nominal);
    let clock = state.clock + d;
    let (mut rest, mut total, mut replaced) = (d, 0, 0);
    for (task, left) in queue(before) {
        let taken = left.min(rest);
        rest -= taken;
        if arrives(&state, clock, task) {
            replaced += left - taken;
        } else {
            total += left - taken;
        }
    }
    let arriving = (0..tasks.len()).filter(|task| arrives(&state, clock, *task));
    let allotments: u64 = arriving.map(|task| allotment(&tasks[task], nominal)).sum();
    (total + allotments, replaced)
}

/// What the passes on forged states met.
#[derive(Default, Debug)]
struct Tally {
    accepted: u32,
    refused: u32,
    /// Entries replaced with ticks left.
    replaced: u32,
    /// More ticks than were queued.
    ran_dry: u32,
    arrived: u32,
}

/// Some passes on a state that is sound, with the total checked after each.
fn lead_on(random: &mut Random, state: &mut [u8; STATE_BYTES], tally: &mut Tally) {
    let now = unpack(&state[..]).unwrap();
    let to_arrival = now
        .tasks()
        .into_iter()
        .map(|it| it.period - now.clock % it.period);
    // The first ones go to the arrival, if they may.
    let gap = to_arrival.min().unwrap() as u32;
    let mut order = Order::Idle { hold: gap };
    for round in 0..6 {
        let before = *state;
        let (d, finished) = match round {
            0 => (gap, false),
            1 => (gap, true),
            _ => any_pass(random, order),
        };
        match pass(state, d, finished) {
            Err(_) => {
                tally.refused += 1;
                assert_eq!(*state, before);
            }
            Ok(next) => {
                order = next;
                tally.count(&before, state, u64::from(d));
            }
        }
        assert_eq!(queued(&state[..]), Ok(sum_of_entries(&state[..])));
        assert_eq!(sum_shown(&state[..]), u64::from(sum_of_entries(&state[..])));
    }
}

impl Tally {
    fn count(&mut self, before: &[u8], after: &[u8], d: u64) {
        let (total, replaced) = expected_after(before, d);
        assert_eq!(queued(after).map(u64::from), Ok(total), "{before:?} {d}");
        self.accepted += 1;
        self.replaced += u32::from(replaced > 0);
        self.ran_dry += u32::from(sum_shown(before) < d);
        self.arrived += u32::from(total > sum_shown(before).saturating_sub(d));
    }
}

/// Would catch a wrong total that runs from a start don't show: of invented states and of those around
/// a replaced entry, with every kind of table and plan.
#[test]
fn the_total_after_passes_on_forged_states() {
    let mut random = Random::new(6_001);
    let mut tally = Tally::default();
    for round in 0..3_000 {
        let levels = some_or_base_levels(&mut random);
        let level = random.place(levels.count());
        let base = random.pick(&SMALL_BASES);
        let plan = match round % 3 {
            0 => plan_at_level(&mut random, &levels, level),
            _ => plan_at_level_within(&mut random, &levels, level, base),
        };
        let replacing = match round % 2 {
            0 => replacing_state(&mut random, &levels, &plan),
            _ => None,
        };
        let mut state = replacing.unwrap_or_else(|| invented_state(&mut random, &levels, &plan));
        lead_on(&mut random, &mut state, &mut tally);
    }
    assert!(tally.accepted > 6_000 && tally.refused > 2_000, "{tally:?}");
    assert!(tally.replaced > 700 && tally.ran_dry > 200, "{tally:?}");
    assert!(tally.arrived > 2_000, "{tally:?}");
}

/// Of small plans each sound state whose jobs have all finished, with every pass on it. Would catch a
/// rare way that ticks are taken, lost, replaced or brought which random states miss.
#[test]
fn the_total_after_every_pass_on_every_idle_state() {
    let plans: [(&[u64], &[(u64, u64)]); 4] = [
        (&[1], &[(2, 2)]),
        (&[1], &[(4, 3), (8, 2)]),
        (&[1, 2], &[(3, 2), (3, 2)]),
        (&[1], &[(4, 1), (4, 2), (8, 2)]),
    ];
    let mut tally = Tally::default();
    for (speeds, plan) in plans {
        for state in every_idle_state(speeds, &tasks(plan)) {
            put_every_idle_pass(&state, &mut tally);
        }
    }
    assert!(tally.accepted > 500 && tally.replaced > 50, "{tally:?}");
    assert!(tally.ran_dry > 50 && tally.arrived > 50, "{tally:?}");
}

fn put_every_idle_pass(state: &[u8; STATE_BYTES], tally: &mut Tally) {
    is_sound(state);
    for d in 1..=8 {
        let mut after = *state;
        if pass(&mut after, d, false).is_ok() {
            tally.count(state, &after, u64::from(d));
        }
    }
}

/// The layout's own names stand where 02 has them.
#[test]
fn the_total_is_the_last_four_bytes() {
    assert_eq!((layout::TOTAL.range(), STATE_BYTES), (217..221, 221));
    assert_eq!(layout::speed_of(8).at, 217);
    let (state, _) = led(&bench_plan(), &[]);
    assert_eq!(layout::TOTAL.get(&state), 14);
    // A start on another plan leaves nothing of an older total.
    let mut state = with_total(u32::MAX);
    start(&block_of(&tasks(&[(40, 300)])), &mut state).unwrap();
    assert_eq!(state[217..], [0, 0, 0, 30]);
}
