//! 02, No. 5: lists of pairs, good ones and ones that are refused with 22, put to both calls that take
//! one. What a good list promises of a run is checked in `runs`.

use crate::both::{Both, Call, Kind, ACCEPTED};
use crate::dispatch::STATE_BYTES;
use crate::made::{bench_plan, fixed_tasks, floor_tasks, tasks};
use crate::made::{plan_of_count, plan_with, some_plan, Additions};
use crate::relations::{Relation, Relations, RELATIONS};
use differ::{dispatcher, proved};
use sim::levels::{Levels, MOST_LEVELS};
use sim::pairs::{pack_pairs, Pair};
use sim::plan::{judge_list, Task};
use sim::random::blocks::{block_of, block_of_no_additions};
use sim::random::pairs::{any_list, bad_list, good_list, good_pairs};
use sim::random::plans::{full_plan, plan_at_largest_hyperperiod, plan_at_level};
use sim::random::tables::{bad_level_block, levels_of_count};
use sim::random::Random;
use sim::write_levels;

/// The calls that take a list.
const CALLS: [Call; 2] = [Call::Pairs, Call::Start];

/// A list of so many pairs is as long as it can be.
const MOST: usize = 16;

/// Puts the list to both calls. Starting, in a buffer that is long enough, must say what asking says.
#[track_caller]
fn put(both: &mut Both, block: &[u8], list: &[u8]) -> Result<u64, u32> {
    let asked = both.pairs(block, list);
    let started = both.start(block, list, &mut [0xc3; STATE_BYTES]);
    assert_eq!(started.err(), asked.err(), "{list:02x?} with {block:02x?}");
    asked
}

/// An earlier and a later number, of tasks or not.
type Two = (usize, usize);

/// Plans with all of their good pairs, which were found by hand.
fn plans_with_their_pairs() -> Vec<(Vec<Task>, Vec<Two>)> {
    let in_order = |count: usize| -> Vec<Two> {
        let after = |earlier: usize| (earlier + 1..count).map(move |later| (earlier, later));
        (0..count).flat_map(after).collect()
    };
    vec![
        (bench_plan(), vec![(0, 1), (0, 2), (1, 2)]),
        (
            tasks(&[(30, 600), (10, 400), (10, 400)]),
            vec![(1, 0), (1, 2), (2, 0)],
        ),
        (fixed_tasks(&[(40, 300, 5)]), vec![]),
        (tasks(&[(20, 1), (30, 1)]), vec![]),
        (
            floor_tasks(&[(7, 1, 0, 7), (14, 1, 1, 0), (21, 1, 0, 3)]),
            vec![(0, 1), (0, 2)],
        ),
        // A tick beside the double.
        (tasks(&[(10, 1), (19, 1), (21, 1), (20, 1)]), vec![(0, 3)]),
        (
            fixed_tasks(&[(12, 1, 0), (6, 1, 0), (4, 1, 0), (3, 1, 0), (12, 1, 1)]),
            vec![
                (0, 4),
                (1, 0),
                (1, 4),
                (2, 0),
                (2, 4),
                (3, 0),
                (3, 1),
                (3, 4),
            ],
        ),
        // Periods of two bytes: ones whose lower byte is 0, and the longest.
        (
            tasks(&[(256, 1), (65_280, 1), (512, 1), (255, 1)]),
            vec![(0, 1), (0, 2), (3, 1)],
        ),
        (
            tasks(&[(65_535, 1), (21_845, 1), (43_690, 1), (65_535, 1), (5, 1)]),
            vec![
                (0, 3),
                (1, 0),
                (1, 2),
                (1, 3),
                (4, 0),
                (4, 1),
                (4, 2),
                (4, 3),
            ],
        ),
        (tasks(&[(1_000, 37); 16]), in_order(16)),
        (fixed_tasks(&[(1_000, 37, 5); 9]), in_order(9)),
    ]
}

/// Would catch a number cut to fewer bits or let through though no task has it, a multiple turned round,
/// equal periods in any order, and two numbers taken for each other.
#[test]
fn every_two_numbers() {
    let mut both = Both::new(&Levels::base());
    let mut relations = Relations::default();
    for (plan, good) in plans_with_their_pairs() {
        let block = block_of(&plan);
        for earlier in 0..=255 {
            for later in 0..=255 {
                let asked = both.pairs(&block, &[earlier as u8, later as u8]);
                let is_good = good.contains(&(earlier, later));
                assert_eq!(asked, if is_good { Ok(1) } else { Err(22) });
                let relation = Relation::of(&plan, earlier, later);
                assert_eq!(relation.is_good(), is_good, "{relation:?}");
                relations.note(relation);
            }
        }
    }
    both.saw("every two numbers", 720_896);
    both.wants(Call::Pairs, ACCEPTED, 184);
    both.wants_kind(Call::Pairs, Kind::NoFixed, 138);
    both.wants_kind(Call::Pairs, Kind::Fixed, 46);
    both.wants_kind(Call::Pairs, Kind::Floors, 2);
    relations.wants(&RELATIONS, 3);
}

/// The same of starting, with the numbers around the count and around those at which a bit is added.
#[test]
fn two_numbers_at_starting() {
    let mut both = Both::new(&Levels::base());
    let mut relations = Relations::default();
    let numbers: Vec<usize> = (0..=20)
        .chain([
            31, 32, 33, 47, 48, 63, 64, 65, 79, 127, 128, 129, 143, 144, 240, 254, 255,
        ])
        .collect();
    for (plan, good) in plans_with_their_pairs() {
        let block = block_of(&plan);
        for earlier in &numbers {
            for later in &numbers {
                let answer = put(&mut both, &block, &[*earlier as u8, *later as u8]);
                let is_good = good.contains(&(*earlier, *later));
                assert_eq!(answer, if is_good { Ok(1) } else { Err(22) });
                relations.note(Relation::of(&plan, *earlier, *later));
            }
        }
    }
    both.saw("two numbers at starting", 31_000);
    for call in CALLS {
        both.wants(call, ACCEPTED, 184);
        both.wants(call, 22, 15_000);
    }
    relations.wants(&RELATIONS, 3);
}

/// Lengths past the longest list. With some of the high bits left out many of these would be good.
fn too_long() -> Vec<usize> {
    let mut lengths: Vec<usize> = (33..=70).collect();
    for high in [128, 256, 512, 4_096, 65_536, 1 << 20] {
        lengths.extend(high - 2..=high + 2);
        lengths.extend(high + 30..=high + 34);
    }
    lengths
}

/// Would catch a length that is cut to fewer bits, an edge that is off by a pair or by a byte, an odd
/// byte that is left out, and a count of pairs that is wrong.
#[test]
fn lists_of_every_length() {
    let mut both = Both::new(&Levels::base());
    let mut random = Random::new(1_401);
    let fixed = fixed_tasks(&[(20, 40, 1), (40, 40, 0)]);
    let floors = floor_tasks(&[(20, 40, 0, 0), (40, 40, 0, 5)]);
    for plan in [bench_plan(), tasks(&[(1_000, 37); 16]), fixed, floors] {
        let (block, good) = (block_of(&plan), good_pairs(&plan));
        for length in (0..=32).chain(too_long()) {
            for _ in 0..4 {
                let pairs: Vec<Pair> = (0..=length / 2).map(|_| random.pick(&good)).collect();
                let list = &pack_pairs(&pairs)[..length];
                let fits = length <= 2 * MOST && length % 2 == 0;
                let wanted = if fits { Ok(length as u64 / 2) } else { Err(22) };
                assert_eq!(put(&mut both, &block, list), wanted, "{length} bytes");
            }
        }
    }
    // Of a plan without good pairs only the empty list is good, whatever is in the others.
    let block = block_of(&tasks(&[(20, 1), (30, 1)]));
    for length in (0..=32).chain(too_long()) {
        for filler in [0, 1, 2, 0xff] {
            let wanted = if length == 0 { Ok(0) } else { Err(22) };
            assert_eq!(put(&mut both, &block, &vec![filler; length]), wanted);
        }
    }
    both.saw("lists of every length", 3_900);
    for call in CALLS {
        both.wants(call, ACCEPTED, 200);
        both.wants(call, 22, 1_500);
    }
    both.wants_editions(&CALLS, 60);
    both.wants_lists(&CALLS, 16);
}

/// Would catch bytes that are read past a list's end: whether what stands behind it is good or bad
/// mustn't matter. Elsewhere these bytes are marks, here they are numbers of tasks too.
#[test]
fn what_stands_behind_a_list() {
    let levels = write_levels(&Levels::base());
    let (mut accepted, mut refused) = (0, 0);
    for (plan, good) in plans_with_their_pairs() {
        let block = block_of(&plan);
        let good: Vec<u8> = good
            .iter()
            .flat_map(|(a, b)| [*a as u8, *b as u8])
            .collect();
        for behind in [[0, 0], [0xff, 0xff], [0, 1]] {
            for pairs in 0..=MOST + 1 {
                let mut all: Vec<u8> = good.iter().copied().cycle().take(2 * pairs).collect();
                let length = all.len();
                all.extend(behind.iter().cycle().take(64));
                // A byte more takes one of those behind.
                for length in [length, length + 1] {
                    let list = &all[..length];
                    let wanted = sim::pairs(&levels, &block, list).map(|count| count as u64);
                    assert_eq!(proved::pairs(&levels, &block, list), wanted);
                    let mut state = [0; STATE_BYTES];
                    let started = dispatcher::start(&levels, &block, list, &mut state);
                    assert_eq!(started.err(), wanted.err());
                    accepted += u32::from(wanted.is_ok());
                    refused += u32::from(wanted.is_err());
                }
            }
        }
    }
    println!("what stands behind a list: {accepted} accepted, {refused} refused");
    assert!(accepted > 400 && refused > 500);
}

/// Would catch a place of the list that isn't looked at, or one alone that is.
#[test]
fn a_bad_pair_at_every_place() {
    let mut both = Both::new(&Levels::base());
    let mut random = Random::new(1_402);
    let mut relations = Relations::default();
    // Bad pairs of every kind can be made of these.
    let plan = tasks(&[(12, 1), (24, 1), (12, 1), (25, 1), (18, 1)]);
    let fixed = fixed_tasks(&[(12, 1, 1), (24, 1, 0), (12, 1, 0), (25, 1, 0), (18, 1, 1)]);
    let mut floors = plan.clone();
    floors[3].floor = 4;
    let bad = [
        (0, 5),
        (5, 1),
        (255, 255),
        (1, 1),
        (2, 0),
        (1, 0),
        (0, 3),
        (0, 4),
        (16, 1),
        (0, 17),
    ];
    for plan in [plan, fixed, floors] {
        let (block, good) = (block_of(&plan), good_pairs(&plan));
        for size in 1..=MOST {
            for place in 0..size {
                for (earlier, later) in bad {
                    let mut pairs: Vec<Pair> = (0..size).map(|_| random.pick(&good)).collect();
                    let list = pack_pairs(&pairs);
                    assert_eq!(put(&mut both, &block, &list), Ok(size as u64));
                    pairs[place] = Pair { earlier, later };
                    let list = pack_pairs(&pairs);
                    assert_eq!(put(&mut both, &block, &list), Err(22));
                    relations.note(Relation::of(&plan, earlier, later));
                }
            }
        }
    }
    both.saw("a bad pair at every place", 10_800);
    for call in CALLS {
        both.wants(call, ACCEPTED, 2_700);
        both.wants(call, 22, 2_700);
    }
    both.wants_editions(&CALLS, 1_300);
    let bad_ones: Vec<Relation> = RELATIONS.into_iter().filter(|one| !one.is_good()).collect();
    relations.wants(&bad_ones, 270);
}

/// Would catch any bit of a list that is not looked at, or is taken for another.
#[test]
fn every_single_flipped_bit_of_a_list() {
    let mut both = Both::new(&Levels::base());
    let mut random = Random::new(1_403);
    for round in 0..160 {
        let levels = both.load_some(&mut random);
        let additions = Additions::nth(round, &levels);
        let plan = plan_with(&mut random, &levels, 1 + round / 10, additions);
        let (block, mut list) = (block_of(&plan), good_list(&mut random, &plan));
        for place in 0..8 * list.len() {
            list[place / 8] ^= 0x80 >> (place % 8);
            let answer = put(&mut both, &block, &list);
            // Of the high bits every one makes a number that no task has.
            if place % 8 < 4 {
                assert_eq!(answer, Err(22));
            }
            list[place / 8] ^= 0x80 >> (place % 8);
        }
    }
    both.saw("flipped bits of lists", 20_000);
    for call in CALLS {
        both.wants(call, ACCEPTED, 500);
        both.wants(call, 22, 8_000);
    }
    both.wants_editions(&CALLS, 200);
}

/// A plan of two to six tasks whose periods are often equal, a multiple of another one's in either
/// order, or a tick beside it. They are short, so that the hyperperiod stays within its limit.
fn plan_of_relations(random: &mut Random, levels: &Levels) -> Vec<Task> {
    loop {
        let count = random.between(2, 6);
        let first = random.between(1, 60);
        let with_fixed = random.one_in(2);
        let highest = random.pick(&[0, levels.top() as u64]);
        let task = |_| {
            let multiple = first * random.between(1, 4);
            let other = random.between(1, 60);
            let near = random.pick(&[multiple - 1, multiple + 1]).max(1);
            Task {
                period: random.pick(&[first, multiple, multiple, near, other]),
                worst: random.between(1, 3),
                fixed: if with_fixed { random.below(2) } else { 0 },
                floor: random.between(0, highest),
            }
        };
        let plan: Vec<Task> = (0..count).map(task).collect();
        if judge_list(levels, &plan).is_ok() {
            return plan;
        }
    }
}

/// Would catch a period that is wrongly taken for a multiple or for none, whatever the speeds and the
/// fixed ticks are.
#[test]
fn periods_of_every_relation() {
    let mut both = Both::new(&Levels::base());
    let mut random = Random::new(1_404);
    let (mut plain, mut fixed) = (Relations::default(), Relations::default());
    for round in 0..1_500 {
        let levels = levels_of_count(&mut random, 1 + round % MOST_LEVELS as usize);
        both.load(&levels);
        let plan = plan_of_relations(&mut random, &levels);
        let block = block_of(&plan);
        let relations = match plan.iter().any(|task| task.fixed > 0) {
            false => &mut plain,
            true => &mut fixed,
        };
        // With the count, which is the first number that no task has.
        for earlier in 0..=plan.len() {
            for later in 0..=plan.len() {
                let answer = both.pairs(&block, &[earlier as u8, later as u8]);
                let relation = Relation::of(&plan, earlier, later);
                assert_eq!(answer.is_ok(), relation.is_good(), "{relation:?} {plan:?}");
                relations.note(relation);
                // Starting asks the same, so fewer will do.
                if random.one_in(2) {
                    let _ = put(&mut both, &block, &[earlier as u8, later as u8]);
                }
            }
        }
    }
    both.saw("periods of every relation", 55_000);
    for call in CALLS {
        both.wants(call, ACCEPTED, 1_000);
        both.wants(call, 22, 5_000);
    }
    both.wants_editions(&CALLS, 300);
    plain.wants(&RELATIONS, 250);
    fixed.wants(&RELATIONS, 250);
}

/// A plan of any kind.
fn plan_of_any_kind(random: &mut Random, levels: &Levels) -> Vec<Task> {
    let (level, count) = (random.place(levels.count()), random.between(1, 16));
    match random.below(5) {
        0 => plan_of_count(random, levels, count as usize),
        1 => full_plan(random, levels, levels.top()),
        2 => plan_at_largest_hyperperiod(random, levels),
        3 => plan_of_relations(random, levels),
        _ => plan_at_level(random, levels, level),
    }
}

/// Would catch a list that only some plan makes good or bad.
#[test]
fn random_lists_of_random_plans() {
    let mut both = Both::new(&Levels::base());
    let mut random = Random::new(1_405);
    let mut of_size = [0; MOST + 1];
    for round in 0..4_000 {
        let levels = levels_of_count(&mut random, 1 + round % MOST_LEVELS as usize);
        both.load(&levels);
        let plan = plan_of_any_kind(&mut random, &levels);
        let block = block_of(&plan);
        let good = good_list(&mut random, &plan);
        let size = good.len() / 2;
        assert_eq!(put(&mut both, &block, &good), Ok(size as u64));
        of_size[size] += 1;
        let bad = bad_list(&mut random, &plan);
        assert_eq!(put(&mut both, &block, &bad), Err(22));
        // Any numbers up to the count, and bytes of any kind.
        let (length, most) = (random.below(8), random.pick(&[plan.len() as u64, 17, 255]));
        let any: Vec<u8> = (0..length).map(|_| random.between(0, most) as u8).collect();
        let _ = put(&mut both, &block, &any);
    }
    println!("{of_size:?}");
    both.saw("random lists of random plans", 24_000);
    for call in CALLS {
        both.wants(call, ACCEPTED, 4_000);
        both.wants(call, 22, 4_000);
    }
    both.wants_editions(&CALLS, 1_500);
    both.wants_lists(&CALLS, 400);
    assert!(of_size.iter().all(|times| *times > 50), "{of_size:?}");
}

/// The numbers that come before 22, in the order of their questions, each with a level block and a plan
/// block that are refused so.
fn refused_before(random: &mut Random) -> Vec<(u32, Vec<u8>, Vec<u8>)> {
    let base = write_levels(&Levels::base());
    let bench = block_of(&bench_plan());
    let over = tasks(&[(10, 400), (10, 400), (30, 601)]);
    let mut closed = block_of(&over);
    closed[14] |= 4;
    let mut closed_second = block_of(&fixed_tasks(&[(40, 300, 5), (40, 300, 0)]));
    closed_second[12] |= 1;
    let mut refused = Vec::new();
    for number in [18, 19, 20] {
        for block in [vec![], block_of(&over), bench.clone()] {
            refused.push((number, bad_level_block(random, number), block));
        }
    }
    for (number, block) in [
        (1, bench[..1].to_vec()),
        (2, bench[1..].to_vec()),
        (3, block_of(&tasks(&[(1_000, 1); 17]))),
        (4, bench[..14].to_vec()),
        (5, closed),
        (5, closed_second),
        (6, block_of(&tasks(&[(0, 1), (10, 1)]))),
        (6, block_of(&tasks(&[(10, 1), (10, 0)]))),
        (21, block_of_no_additions(&over)),
        (7, block_of(&tasks(&[(1_000, 1), (1_001, 1)]))),
        (7, block_of(&fixed_tasks(&[(1_001, 1, 255), (1_000, 1, 0)]))),
        (8, block_of(&over)),
        (8, block_of(&tasks(&[(1, 101)]))),
        (8, block_of(&fixed_tasks(&[(10, 40, 5), (10, 40, 5)]))),
    ] {
        refused.push((number, base.clone(), block));
    }
    // Plans that two levels would admit, and ones that none would, or whose hyperperiod is too long.
    let two_levels = write_levels(&Levels::new(&[50, 100]));
    for list in [
        floor_tasks(&[(40, 300, 0, 2), (40, 300, 0, 1)]),
        floor_tasks(&[(1_000, 1, 0, 0), (1_001, 1, 0, 7)]),
        floor_tasks(&[(1, 101, 5, 2)]),
    ] {
        refused.push((24, two_levels.clone(), block_of(&list)));
    }
    refused
}

/// The empty list, and ones that are bad for each plan. With the odd byte left out or a pair fewer some
/// would be good for the bench plan.
fn lists_for_any_plan() -> Vec<Vec<u8>> {
    vec![
        vec![],
        vec![0],
        vec![0, 1, 0],
        vec![1, 0],
        vec![0, 0],
        vec![0, 16],
        vec![0xff, 0xff],
        [[0, 1]; 17].concat(),
        [&[[0, 1]; 15].concat()[..], &[1, 0]].concat(),
        vec![0; 33],
        vec![0xa5; 256],
    ]
}

/// Would catch 22 said before any number that comes ahead of it, or after 9, and a byte changed on the
/// way to any of them.
#[test]
fn twenty_two_is_asked_after_8_and_before_9() {
    let mut both = Both::new(&Levels::base());
    let mut random = Random::new(1_406);
    let rooms = [0, 1, 200, STATE_BYTES - 1, STATE_BYTES, STATE_BYTES + 1];
    for (number, levels, block) in refused_before(&mut random) {
        both.level_block = levels;
        for list in lists_for_any_plan() {
            assert_eq!(both.pairs(&block, &list), Err(number));
            for room in rooms {
                let started = both.start(&block, &list, &mut vec![0x3c; room]);
                assert_eq!(started, Err(number), "{list:02x?} in {room} bytes");
            }
        }
    }
    both.load(&Levels::base());
    let plans = [
        bench_plan(),
        fixed_tasks(&[(10, 30, 1), (10, 30, 0), (30, 30, 0)]),
    ];
    for block in plans.map(|plan| block_of(&plan)) {
        for list in lists_for_any_plan() {
            let wanted = if list.is_empty() { Ok(0) } else { Err(22) };
            assert_eq!(both.pairs(&block, &list), wanted);
            for room in rooms {
                let started = both.start(&block, &list, &mut vec![0x3c; room]).err();
                let too_short = (room < STATE_BYTES).then_some(9);
                assert_eq!(
                    started,
                    wanted.err().or(too_short),
                    "{list:02x?} in {room} bytes"
                );
            }
        }
        // A good list leaves 9 to be said.
        for room in rooms {
            let started = both.start(&block, &[0, 1, 0, 2, 1, 2], &mut vec![0x3c; room]);
            let too_short = (room < STATE_BYTES).then_some(9);
            assert_eq!(started.err(), too_short);
        }
    }
    both.saw("22 after 8 and before 9", 1_900);
    for number in (1..=8).chain(18..=22).chain([24]) {
        both.wants(Call::Pairs, number, 11);
        both.wants(Call::Start, number, 66);
    }
    both.wants(Call::Start, 9, 16);
    both.wants(Call::Start, ACCEPTED, 8);
    both.wants_never(Call::Pairs, 9);
}

/// Would catch a list that leaves something in the state or in the order, and one that is still there
/// at the next start.
#[test]
fn the_state_and_the_order_are_those_of_the_empty_list() {
    let mut both = Both::new(&Levels::base());
    let mut random = Random::new(1_407);
    for _ in 0..1_000 {
        let (levels, plan) = some_plan(&mut random);
        both.load(&levels);
        let block = block_of(&plan);
        let mut wanted = [0; STATE_BYTES];
        let order = both.start(&block, &[], &mut wanted).unwrap();
        for _ in 0..6 {
            let list = any_list(&mut random, &plan);
            let before = random.number() as u8;
            let mut state = [before; STATE_BYTES];
            match both.start(&block, &list, &mut state) {
                Ok(other) => {
                    assert_eq!(other, order, "{list:?}");
                    assert_eq!(state, wanted, "{list:?}");
                }
                Err(number) => {
                    assert_eq!(number, 22);
                    assert_eq!(state, [before; STATE_BYTES], "{list:?}");
                }
            }
        }
    }
    both.saw("states without a trace of the list", 7_000);
    both.wants(Call::Start, 22, 1_500);
    both.wants_editions(&[Call::Start], 1_500);
    both.wants_lists(&[Call::Start], 1_000);
}
