//! 02, No. 5: the list of pairs on each side of 22, where 22 stands among the other questions, that a
//! good list changes neither the state nor an order, and what it promises of a run.

use crate::base::{actual_book, start, BASE_LEVELS};
use crate::common::{bench_plan, floor_tasks, idle, run, sensor_plan, tasks, BENCH_BLOCK};
use sim::books::{pairs_hold, ActualBook};
use sim::dispatch::{pass, Order};
use sim::layout::STATE_BYTES;
use sim::level_block::pack_levels;
use sim::pairs::{pack_pairs, Pair};
use sim::plan::{judge_list, Task};
use sim::random::blocks::{block_of, block_of_no_additions};
use sim::random::pairs::{any_list, bad_list, good_list, good_pairs};
use sim::random::passes::any_pass;
use sim::random::plans::{full_plan, plan_at_level, plan_at_level_within, SMALL_BASES};
use sim::random::tables::some_or_base_levels;
use sim::random::Random;
use sim::{write_levels, Levels};
use std::collections::BTreeSet;

/// Periods 10, 10, 30, 20 and 15, and so little work that every level admits it.
fn mixed_plan() -> Vec<Task> {
    tasks(&[(10, 10), (10, 10), (30, 10), (20, 10), (15, 10)])
}

/// So many tasks of one period.
fn even_plan(count: usize) -> Vec<Task> {
    tasks(&vec![(100, 10); count])
}

/// Sixteen good pairs of the mixed plan, no two neighbours the same.
fn sixteen_pairs() -> Vec<u8> {
    let some = [0, 1, 0, 2, 0, 3, 1, 2, 1, 3, 4, 2];
    some.iter().cycle().copied().take(32).collect()
}

/// Asks about the list and starts with it, and wants this number of both, whatever room there is for
/// the state, with no byte changed.
#[track_caller]
fn refuses(levels: &[u8], block: &[u8], list: &[u8], number: u32) {
    assert_eq!(sim::pairs(levels, block, list), Err(number), "{list:?}");
    for length in [0, STATE_BYTES - 1, STATE_BYTES, STATE_BYTES + 83] {
        let mut state = vec![0xa5; length];
        let started = sim::start(levels, block, list, &mut state);
        assert_eq!(started, Err(number), "{list:?}");
        assert_eq!(state, vec![0xa5; length]);
    }
}

#[track_caller]
fn is_bad(plan: &[Task], list: &[u8]) {
    refuses(&BASE_LEVELS, &block_of(plan), list, 22);
}

/// Accepted with its count of pairs, and started to the same order and the same bytes as without.
#[track_caller]
fn is_good(plan: &[Task], list: &[u8]) {
    let block = block_of(plan);
    assert_eq!(sim::pairs(&BASE_LEVELS, &block, list), Ok(list.len() / 2));
    let (mut with, mut without) = ([0xa5; 300], [0xa5; 300]);
    let started = sim::start(&BASE_LEVELS, &block, list, &mut with);
    assert_eq!(started, start(&block, &mut without));
    assert!(started.is_ok());
    assert_eq!(with, without);
    assert!(with[STATE_BYTES..].iter().all(|byte| *byte == 0xa5));
}

/// Would catch a rule that is wrong for the plan inside the knee: of its nine pairs three are good.
#[test]
fn the_pairs_of_the_bench_plan() {
    for earlier in 0..3 {
        for later in 0..3 {
            let list = [earlier, later];
            match earlier < later {
                true => is_good(&bench_plan(), &list),
                false => is_bad(&bench_plan(), &list),
            }
        }
    }
    assert_eq!(sim::pairs(&BASE_LEVELS, &BENCH_BLOCK, &[0, 1, 1, 2]), Ok(2));
}

/// Would catch a list that has to have a pair in it, as for a plan of one task, which has no good one.
#[test]
fn an_empty_list_is_good() {
    for plan in [bench_plan(), mixed_plan(), sensor_plan(), even_plan(1)] {
        is_good(&plan, &[]);
    }
}

/// Would catch a limit of 15 or 17 pairs, or one in bytes, and a list that must not say a pair twice.
#[test]
fn up_to_16_pairs() {
    for count in 0..=16 {
        is_good(&mixed_plan(), &sixteen_pairs()[..2 * count]);
        is_good(&mixed_plan(), &[4, 2].repeat(count));
    }
    for count in [17, 18, 31, 32, 127, 128, 129, 256, 257, 272, 32_768, 32_784] {
        is_bad(&mixed_plan(), &[4, 2].repeat(count));
    }
}

/// Would catch an odd byte that isn't looked at: without it each of these is a good list. The byte is a
/// number that a pair could begin with.
#[test]
fn an_odd_byte() {
    for length in (1..33).step_by(2) {
        let list = &sixteen_pairs()[..length];
        is_good(&mixed_plan(), &list[..length - 1]);
        is_bad(&mixed_plan(), list);
    }
    let too_long = [&sixteen_pairs()[..], &[0]].concat();
    assert_eq!(too_long.len(), 33);
    is_bad(&mixed_plan(), &too_long);
    // A byte is no pair whatever it says, and however few tasks there are.
    for byte in 0..=255 {
        is_bad(&mixed_plan(), &[byte]);
        is_bad(&even_plan(1), &[byte]);
    }
}

/// Would catch equal periods let through where the numbers are equal too.
#[test]
fn a_task_with_itself() {
    for task in 0..5 {
        is_bad(&mixed_plan(), &[task, task]);
    }
    for count in 1..=16 {
        let last = count as u8 - 1;
        is_bad(&even_plan(count), &[last, last]);
    }
}

/// Would catch equal periods let through in any order, or in the wrong one, or in none.
#[test]
fn equal_periods_in_both_orders() {
    for one in 0..16 {
        for other in one + 1..16 {
            is_good(&even_plan(16), &[one, other]);
            is_bad(&even_plan(16), &[other, one]);
        }
    }
}

/// Would catch the multiple turned round, a longer period that needn't be a multiple, and a rule on the
/// numbers where the periods differ.
#[test]
fn the_multiple_of_a_period() {
    // The earlier task has the lower number, and then the higher.
    for (earlier, later) in [(0, 2), (0, 3), (1, 2), (1, 3), (4, 2)] {
        is_good(&mixed_plan(), &[earlier, later]);
        is_bad(&mixed_plan(), &[later, earlier]);
    }
    // 10 and 15, 15 and 20, 20 and 30: neither is a multiple of the other.
    for (one, other) in [(0, 4), (1, 4), (3, 4), (2, 3)] {
        is_bad(&mixed_plan(), &[one, other]);
        is_bad(&mixed_plan(), &[other, one]);
    }
    // The longest period that there can be is 3 times 21,845 and 5 times 13,107, and odd.
    let plan = tasks(&[(65_535, 1), (3, 1), (5, 1), (6, 1)]);
    is_good(&plan, &[1, 0, 2, 0, 1, 3]);
    is_bad(&plan, &[3, 0]);
    is_bad(&plan, &[1, 2]);
    // A multiple, one less and one more.
    is_good(&tasks(&[(4, 10), (8, 10)]), &[0, 1]);
    is_bad(&tasks(&[(4, 10), (7, 10)]), &[0, 1]);
    is_bad(&tasks(&[(4, 10), (9, 10)]), &[0, 1]);
}

/// Would catch a number at the count, or any past it, that is taken for a task, as the earlier or as
/// the later; and a last task that isn't taken for one.
#[test]
fn numbers_at_and_past_the_count() {
    for count in 1..=16 {
        let plan = even_plan(count);
        let last = count as u8 - 1;
        if count > 1 {
            is_good(&plan, &[0, last]);
        }
        for past in (last + 1..=20).chain([31, 32, 127, 128, 240, 254, 255]) {
            is_bad(&plan, &[0, past]);
            is_bad(&plan, &[past, 0]);
            is_bad(&plan, &[past, last]);
            is_bad(&plan, &[past, past]);
            is_bad(&plan, &[past - 1, past]);
        }
    }
}

/// Would catch a list of which only the first pair is looked at, or all but the last, and one whose
/// count is let through before its pairs are: a bad pair at each place of a list of any length.
#[test]
fn a_bad_pair_at_each_place() {
    let bad = [[0, 0], [1, 0], [2, 0], [3, 2], [0, 5], [5, 2], [255, 255]];
    for count in 1..=16 {
        let good = &sixteen_pairs()[..2 * count];
        is_good(&mixed_plan(), good);
        for place in 0..count {
            for pair in bad {
                let mut list = good.to_vec();
                list[2 * place..2 * place + 2].copy_from_slice(&pair);
                is_bad(&mixed_plan(), &list);
            }
        }
    }
}

/// The words of No. 5 the long way: multiples are found by adding up.
fn is_good_by_words(plan: &[Task], earlier: usize, later: usize) -> bool {
    if earlier >= plan.len() || later >= plan.len() {
        return false;
    }
    let mut multiple = plan[earlier].period;
    while multiple < plan[later].period {
        multiple += plan[earlier].period;
    }
    let equal = plan[earlier].period == plan[later].period;
    multiple == plan[later].period && (!equal || earlier < later)
}

/// Would catch any rule but No. 5's: every pair of numbers up to 17 of random plans.
#[test]
fn every_pair_of_random_plans() {
    let mut random = Random::new(5_001);
    let (mut good, mut bad) = (0, 0);
    for _ in 0..150 {
        let levels = some_or_base_levels(&mut random);
        let level = random.place(levels.count());
        let plan = plan_at_level(&mut random, &levels, level);
        let (level_block, block) = (write_levels(&levels), block_of(&plan));
        for (earlier, later) in (0..18).flat_map(|one| (0..18).map(move |other| (one, other))) {
            let told = sim::pairs(&level_block, &block, &[earlier as u8, later as u8]);
            let expected = is_good_by_words(&plan, earlier, later);
            assert_eq!(told, if expected { Ok(1) } else { Err(22) }, "{plan:?}");
            good += u32::from(expected);
            bad += u32::from(!expected && earlier < plan.len() && later < plan.len());
        }
    }
    assert!(good > 1_000 && bad > 1_000, "{good} {bad}");
}

/// Would catch lists made for the tests that are not what they are made for.
#[test]
fn random_lists_are_good_or_bad() {
    let mut random = Random::new(5_002);
    let mut lengths = BTreeSet::new();
    let (mut odd, mut long, mut pair, mut refused) = (0, 0, 0, 0);
    for round in 0..600 {
        let levels = Levels::base();
        let plan = plan_at_level(&mut random, &levels, round % levels.count());
        let asked = |list: &[u8]| sim::pairs(&BASE_LEVELS, &block_of(&plan), list);
        let good = good_list(&mut random, &plan);
        assert_eq!(asked(&good), Ok(good.len() / 2));
        lengths.insert(good.len());
        let bad = bad_list(&mut random, &plan);
        assert_eq!(asked(&bad), Err(22));
        odd += u32::from(bad.len() % 2 == 1);
        long += u32::from(bad.len() > 32);
        pair += u32::from(bad.len() % 2 == 0 && bad.len() <= 32);
        refused += u32::from(asked(&any_list(&mut random, &plan)).is_err());
    }
    assert_eq!(lengths, (0..=16).map(|pairs| 2 * pairs).collect());
    assert!(odd > 100 && long > 100 && pair > 200, "{odd} {long} {pair}");
    assert!((100..400).contains(&refused), "{refused}");
}

/// A level block or a plan block for each number that starting asks about before 22.
fn refused_before() -> Vec<(u32, Vec<u8>, Vec<u8>)> {
    let base = |number, block: Vec<u8>| (number, BASE_LEVELS.to_vec(), block);
    let board = |number, levels| (number, levels, BENCH_BLOCK.to_vec());
    let changed = |place: usize, byte| {
        let mut block = BENCH_BLOCK.to_vec();
        block[place] = byte;
        block
    };
    vec![
        board(18, Vec::new()),
        board(19, BASE_LEVELS[..10].to_vec()),
        board(20, pack_levels(2, &[30, 20])),
        base(1, vec![0x10]),
        base(2, changed(0, 0x31)),
        base(3, changed(0, 0x18)),
        base(4, BENCH_BLOCK[..14].to_vec()),
        base(5, changed(14, 0xc1)),
        base(6, block_of(&tasks(&[(10, 400), (0, 400)]))),
        base(21, block_of_no_additions(&bench_plan())),
        (
            24,
            pack_levels(1, &[100]),
            block_of(&floor_tasks(&[(10, 400, 0, 0), (10, 400, 0, 1)])),
        ),
        base(7, block_of(&tasks(&[(1_000, 1), (1_001, 1)]))),
        base(8, block_of(&tasks(&[(10, 400), (10, 400), (30, 601)]))),
    ]
}

/// Would catch 22 before any number that comes before it, 8 above all: with each of these refusals, a
/// list that is good, too long, odd, or bad at its first pair or its last.
#[test]
fn number_22_comes_after_all_that_reading_asks() {
    let lists: [&[u8]; 7] = [
        &[],
        &[0, 1],
        &[0; 34],
        &[0],
        &[1, 0],
        &[0, 1, 9, 9],
        &[255; 2],
    ];
    for (number, levels, block) in refused_before() {
        for list in lists {
            refuses(&levels, &block, list, number);
        }
    }
    // Each of these lists but the first two is refused where nothing else is.
    for list in &lists[2..] {
        refuses(&BASE_LEVELS, &BENCH_BLOCK, list, 22);
    }
}

/// Would catch 22 after 9, or a state written before either is asked.
#[test]
fn number_22_comes_before_9() {
    for length in [0, 1, STATE_BYTES - 1] {
        for (list, number) in [
            (&[1, 0][..], 22),
            (&[0], 22),
            (&[0; 34], 22),
            (&[0, 1], 9),
            (&[], 9),
        ] {
            let mut state = vec![0xa5; length];
            let started = sim::start(&BASE_LEVELS, &BENCH_BLOCK, list, &mut state);
            assert_eq!(started, Err(number));
            assert_eq!(state, vec![0xa5; length]);
        }
    }
}

/// Would catch pairs that get into the state or the order, or that change a pass that follows.
#[test]
fn the_state_and_the_orders_do_not_depend_on_the_list() {
    let mut random = Random::new(5_003);
    let mut pairs = 0;
    for round in 0..300 {
        let levels = some_or_base_levels(&mut random);
        let plan = plan_at_level(&mut random, &levels, round % levels.count());
        let (level_block, block) = (write_levels(&levels), block_of(&plan));
        let list = good_list(&mut random, &plan);
        let (mut with, mut without) = ([0xa5; 250], [0xa5; 250]);
        let started = sim::start(&level_block, &block, &list, &mut with);
        assert_eq!(started, sim::start(&level_block, &block, &[], &mut without));
        assert_eq!(with, without);
        pairs += list.len() / 2;
        let mut order = started.unwrap();
        for _ in 0..20 {
            let (d, finished) = any_pass(&mut random, order);
            let reply = pass(&mut with[..STATE_BYTES], d, finished);
            assert_eq!(reply, pass(&mut without[..STATE_BYTES], d, finished));
            assert_eq!(with, without);
            order = reply.unwrap_or(order);
        }
        let bad = bad_list(&mut random, &plan);
        assert_eq!(sim::start(&level_block, &block, &bad, &mut with), Err(22));
        assert_eq!(with, without);
    }
    assert!(pairs > 1_000, "{pairs}");
}

#[track_caller]
fn breaks(book: &ActualBook, list: &[u8]) {
    let why = pairs_hold(book, list).unwrap_err();
    assert!(why.starts_with("open while task"), "{why}");
}

/// Would catch a check that asks about the wrong one of the two tasks, or that always says yes: at the
/// start of the bench plan all three jobs are open.
#[test]
fn the_check_wants_the_earlier_job_closed() {
    let told = |task, list: &[u8]| pairs_hold(&actual_book(&bench_plan(), run(task, 7, 4)), list);
    assert_eq!(told(0, &[0, 1, 0, 2, 1, 2]), Ok(()));
    assert!(told(1, &[0, 1]).is_err());
    assert!(told(2, &[1, 2]).is_err());
    // A pair of another later task says nothing, nor does the running one as the earlier.
    assert_eq!(told(1, &[0, 2, 1, 2]), Ok(()));
    assert_eq!(told(2, &[0, 1]), Ok(()));
    // At any place of the list.
    for place in 0..16 {
        let mut list = [0, 1].repeat(16);
        list[2 * place + 1] = 2;
        assert!(told(2, &list).is_err());
        assert_eq!(told(0, &list), Ok(()));
    }
    assert_eq!(told(2, &[]), Ok(()));
    // While the dispatcher stays idle nothing runs.
    let nothing_runs = actual_book(&bench_plan(), idle(10));
    assert_eq!(pairs_hold(&nothing_runs, &[0, 1, 0, 2, 1, 2]), Ok(()));
}

/// Would catch a check that takes a refused pass for a finish, a finish of another task for the earlier
/// one's, or a job that was forgotten for an open one.
#[test]
fn the_earlier_job_is_closed_by_its_own_finish() {
    let mut book = actual_book(&bench_plan(), run(0, 7, 4));
    book.pass(4, true, Err(14));
    let mut astray = book.clone();
    astray.pass(1, false, Ok(run(1, 7, 4)));
    breaks(&astray, &[0, 1]);
    // Task 1 finishes and task 2 runs: one of its two is closed.
    astray.pass(1, true, Ok(run(2, 7, 6)));
    breaks(&astray, &[0, 2]);
    assert_eq!(pairs_hold(&astray, &[1, 2]), Ok(()));
    book.pass(1, true, Ok(run(1, 5, 7)));
    assert_eq!(pairs_hold(&book, &[0, 1]), Ok(()));
    for mut book in [book.clone(), astray] {
        let told = [[0, 1], [0, 2], [1, 2]].map(|list| pairs_hold(&book, &list));
        book.forget_closed();
        let after = [[0, 1], [0, 2], [1, 2]].map(|list| pairs_hold(&book, &list));
        assert_eq!(told, after);
    }
}

/// Would catch a check on the earlier task's latest job in place of the one that arrived with the
/// running job: here the latest is open and may be, and then it is closed and the other one isn't.
#[test]
fn the_check_is_about_the_job_of_the_same_arrival() {
    // Task 0's jobs of 0 and 10 finish, the one of 20 is open; task 2's job of 0 runs at 20.
    let mut book = actual_book(&bench_plan(), run(0, 7, 4));
    for reply in [run(2, 7, 6), run(0, 7, 4), run(2, 7, 6), run(2, 7, 6)] {
        let finished = reply == run(2, 7, 6) && book.running_job().map(|job| job.0) == Some(0);
        book.pass(5, finished, Ok(reply));
    }
    assert_eq!((book.clock(), book.running_job()), (20, Some((2, 0))));
    assert_eq!(pairs_hold(&book, &[0, 2]), Ok(()));
    breaks(&book, &[1, 2]);
    // At 30 both arrive anew, and the job of 30 is another one.
    book.pass(10, true, Ok(run(2, 7, 6)));
    assert_eq!(book.running_job(), Some((2, 30)));
    breaks(&book, &[0, 2]);
    // Task 0's job of 0 is told to go on over 10, where the next one replaces it. That one finishes.
    let mut book = actual_book(&bench_plan(), run(0, 7, 4));
    book.pass(10, false, Ok(run(0, 7, 4)));
    book.pass(1, true, Ok(run(2, 7, 6)));
    assert_eq!(book.running_job(), Some((2, 0)));
    breaks(&book, &[0, 2]);
    // Of task 1, with the same period, the job of 10 runs, and task 0's of 10 is closed.
    book.pass(1, false, Ok(run(1, 7, 4)));
    assert_eq!(book.running_job(), Some((1, 10)));
    assert_eq!(pairs_hold(&book, &[0, 1]), Ok(()));
}

/// Would catch a check that asks at a job's first pass only: the earlier job is open in a later pass,
/// with both jobs' tasks in between.
#[test]
fn the_check_holds_for_every_pass_of_the_later_job() {
    let mut book = actual_book(&bench_plan(), run(1, 7, 4));
    for _ in 0..3 {
        breaks(&book, &[0, 1]);
        book.pass(1, false, Ok(run(1, 7, 3)));
    }
    book.pass(1, false, Ok(run(0, 7, 3)));
    assert_eq!(pairs_hold(&book, &[0, 1]), Ok(()));
    book.pass(1, false, Ok(run(1, 7, 3)));
    breaks(&book, &[0, 1]);
}

/// What was seen of the promise.
#[derive(Default, Debug)]
struct Tally {
    runs: u64,
    accepted: u64,
    /// Accepted passes whose running task is a pair's later one, and those of a job that didn't arrive
    /// at tick 0.
    later_runs: u64,
    not_at_0: u64,
    /// Of these passes, each with a pair whose earlier task had an arrival at the running job's own:
    /// before that job's deadline, so that it could have been open. With equal periods, with others,
    /// and with a newer job of the earlier task open.
    could_be_open: u64,
    equal: u64,
    longer: u64,
    newer_open: u64,
    /// Passes at which the list turned round breaks the promise.
    turned_round: u64,
    /// Accepted passes of a pair's later task at a level above nominal (02, No. 8).
    above_nominal: u64,
}

impl Tally {
    /// What there is to say of a book before an accepted pass, and the check of the promise.
    #[track_caller]
    fn check(&mut self, plan: &[Task], book: &ActualBook, list: &[u8]) {
        assert_eq!(pairs_hold(book, list), Ok(()), "{plan:?} {list:?}");
        self.accepted += 1;
        let turned: Vec<u8> = list.iter().rev().copied().collect();
        self.turned_round += u64::from(pairs_hold(book, &turned).is_err());
        let (running, arrival) = match book.running_job() {
            Some(job) => job,
            None => return,
        };
        let own = list
            .chunks(2)
            .filter(|pair| usize::from(pair[1]) == running);
        let earlier: BTreeSet<usize> = own.map(|pair| usize::from(pair[0])).collect();
        self.later_runs += u64::from(!earlier.is_empty());
        self.not_at_0 += u64::from(!earlier.is_empty() && arrival > 0);
        for task in earlier {
            let period = plan[task].period;
            assert_eq!(arrival % period, 0, "it arrives then too");
            let before_deadline = book.clock() < arrival + period;
            self.could_be_open += u64::from(before_deadline);
            let equal = period == plan[running].period;
            self.equal += u64::from(before_deadline && equal);
            self.longer += u64::from(before_deadline && !equal);
            let newer = book
                .jobs()
                .iter()
                .any(|job| job.open && job.task == task && job.arrival > arrival);
            self.newer_open += u64::from(newer);
        }
    }

    #[track_caller]
    fn wants(&self, times: u64) {
        let seen = [
            self.later_runs,
            self.not_at_0,
            self.could_be_open,
            self.equal,
            self.longer,
            self.newer_open,
            self.turned_round,
        ];
        assert!(seen.iter().all(|seen| *seen > times), "{self:?}");
    }
}

/// A run of so many random passes, the promise checked before each that is accepted.
fn run_with(random: &mut Random, levels: &Levels, plan: &[Task], passes: usize, tally: &mut Tally) {
    let list = good_list(random, plan);
    let mut state = [0; STATE_BYTES];
    let (level_block, block) = (write_levels(levels), block_of(plan));
    let mut order = sim::start(&level_block, &block, &list, &mut state).unwrap();
    let mut book = ActualBook::new(levels, plan, order);
    let nominal = judge_list(levels, plan).unwrap().nominal;
    tally.runs += 1;
    for _ in 0..passes {
        let (d, finished) = any_pass(random, order);
        let reply = pass(&mut state, d, finished);
        if let Ok(next) = reply {
            tally.check(plan, &book, &list);
            tally.above_nominal += u64::from(runs_later_above(&list, order, nominal));
            order = next;
        }
        book.pass(d, finished, reply);
        book.forget_closed();
    }
}

/// Whether the order runs the later task of a pair at a level above nominal.
fn runs_later_above(list: &[u8], order: Order, nominal: usize) -> bool {
    match order {
        Order::Run { task, level, .. } => {
            usize::from(level) > nominal && list.chunks(2).any(|pair| pair[1] == task)
        }
        Order::Idle { .. } => false,
    }
}

/// Would catch a dispatcher that runs a later task's job too soon, and a check that asks about the
/// earlier task's latest job, or about the pair turned round.
#[test]
fn the_promise_on_random_runs() {
    let mut random = Random::new(5_004);
    let mut tally = Tally::default();
    for round in 0..1_200 {
        let levels = some_or_base_levels(&mut random);
        let level = random.place(levels.count());
        let base = random.pick(&SMALL_BASES[3..]);
        let plan = match round % 4 {
            0 => full_plan(&mut random, &levels, level),
            _ => plan_at_level_within(&mut random, &levels, level, base),
        };
        if plan.len() > 1 && plan.iter().all(|task| task.period <= 5_040) {
            run_with(&mut random, &levels, &plan, 120, &mut tally);
        }
    }
    assert!(tally.runs > 700 && tally.accepted > 50_000, "{tally:?}");
    assert!(tally.later_runs > 10_000, "{tally:?}");
    assert!(tally.could_be_open > 10_000, "{tally:?}");
    assert!(tally.above_nominal > 1_000, "{tally:?}");
    tally.wants(1_000);
}

/// Would catch what only long periods show, where a later job runs between many of the earlier task's.
#[test]
fn the_promise_on_large_plans() {
    let mut random = Random::new(5_005);
    let mut tally = Tally::default();
    for round in 0..60 {
        let levels = some_or_base_levels(&mut random);
        let plan = plan_at_level(&mut random, &levels, round % levels.count());
        run_with(&mut random, &levels, &plan, 60, &mut tally);
    }
    assert!(tally.accepted > 1_500, "{tally:?}");
    assert!(
        tally.could_be_open > 200 && tally.later_runs > 200,
        "{tally:?}"
    );
}

/// Every pass that may be accepted, up to a tick.
fn put_every_pass(
    plan: &[Task],
    before: ([u8; STATE_BYTES], Order, &ActualBook),
    list: &[u8],
    until: u64,
    tally: &mut Tally,
) {
    let (state, order, book) = before;
    if book.clock() >= until {
        tally.runs += 1;
        return;
    }
    let (Order::Run { hold, .. } | Order::Idle { hold }) = order;
    for (d, finished) in (1..=hold).flat_map(|d| [(d, false), (d, true)]) {
        let (mut next_state, mut next_book) = (state, book.clone());
        if let Ok(next) = pass(&mut next_state, d, finished) {
            tally.check(plan, book, list);
            next_book.pass(d, finished, Ok(next));
            next_book.forget_closed();
            put_every_pass(plan, (next_state, next, &next_book), list, until, tally);
        }
    }
}

/// The speeds, the tasks, and up to which tick it is led.
type SmallPlan = (&'static [u64], &'static [(u64, u64, u64, u64)], u64);

/// Would catch a rare order of finishes that random runs miss: of small plans, with all their good
/// pairs, all runs there are.
#[test]
fn the_promise_on_every_run_of_small_plans() {
    let plans: [SmallPlan; 9] = [
        (&[1, 2], &[(3, 2, 0, 0), (3, 2, 0, 0)], 12),
        (&[1, 2], &[(2, 1, 0, 0), (6, 4, 0, 0)], 12),
        (&[1, 2], &[(3, 2, 0, 0), (6, 8, 0, 0)], 18),
        (&[1, 2], &[(9, 6, 0, 0), (3, 4, 0, 0)], 18),
        (&[1, 3], &[(5, 4, 1, 0), (5, 3, 0, 0)], 10),
        (&[1, 2], &[(8, 2, 0, 0), (4, 2, 0, 0), (4, 2, 0, 0)], 8),
        (&[2, 3, 5], &[(6, 5, 1, 0), (3, 4, 0, 0)], 12),
        // 02, No. 8: the one task or the other above its nominal level, which is 1 in both.
        (&[1, 2, 3], &[(3, 4, 0, 2), (6, 4, 0, 0)], 12),
        (&[1, 2, 3], &[(3, 2, 0, 1), (6, 6, 0, 2)], 12),
    ];
    let mut tally = Tally::default();
    for (speeds, plan, until) in plans {
        let (levels, plan) = (Levels::new(speeds), floor_tasks(plan));
        let list = pack_pairs(&good_pairs(&plan));
        let mut state = [0; STATE_BYTES];
        let block = block_of(&plan);
        let first = sim::start(&write_levels(&levels), &block, &list, &mut state).unwrap();
        let book = ActualBook::new(&levels, &plan, first);
        put_every_pass(&plan, (state, first, &book), &list, until, &mut tally);
    }
    assert!(tally.runs > 2_000, "{tally:?}");
    tally.wants(100);
}

/// Would catch a list that is packed or taken apart the wrong way round.
#[test]
fn a_list_has_the_earlier_number_first() {
    let pair = |earlier, later| Pair { earlier, later };
    let pairs = [pair(0, 2), pair(4, 3)];
    assert_eq!(pack_pairs(&pairs), [0, 2, 4, 3]);
    assert_eq!(sim::pairs::pairs_in(&[0, 2, 4, 3]), pairs);
    assert_eq!(sim::pairs::pairs_in(&[]), []);
    // All good pairs of the mixed plan, by hand.
    let all = [(0, 1), (0, 2), (0, 3), (1, 2), (1, 3), (4, 2)];
    assert_eq!(good_pairs(&mixed_plan()), all.map(|(a, b)| pair(a, b)));
}
