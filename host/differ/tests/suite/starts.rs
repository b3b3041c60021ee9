//! Plans of every kind started in buffers of every length, with lists of pairs of every kind.

use crate::both::{Both, Call, ACCEPTED};
use crate::dispatch::STATE_BYTES;
use crate::made::{bench_plan, fixed_tasks, floor_tasks, has_periods, plan_of_count, tasks};
use differ::dispatcher::Order;
use sim::block::{pack_block, Edition};
use sim::levels::Levels;
use sim::plan::Task;
use sim::random::blocks::{block_of, block_of_no_additions, damaged_block};
use sim::random::pairs::{any_list, bad_list, good_list};
use sim::random::plans::{
    edge_list, full_plan, plan_above_largest_hyperperiod, plan_at_largest_hyperperiod,
    plan_at_level, plan_one_over,
};
use sim::random::Random;

/// Starts in a buffer of this length whose bytes before are anything.
#[track_caller]
fn put_start(
    both: &mut Both,
    random: &mut Random,
    (block, pairs): (&[u8], &[u8]),
    room: usize,
) -> Result<Order, u32> {
    let mut state = vec![0; room];
    match random.below(3) {
        0 => {}
        1 => state.fill(0xff),
        _ => state.fill_with(|| random.number() as u8),
    }
    both.start(block, pairs, &mut state)
}

/// A buffer's length: exact, one byte off, empty, or longer.
fn some_room(random: &mut Random) -> usize {
    let exact = STATE_BYTES;
    let longer = [exact + 1, exact + 12, 2 * exact];
    match random.below(9) {
        0 => random.pick(&[0, 200, 217]),
        1 => exact - 1,
        2..=5 => exact,
        other => longer[other as usize - 6],
    }
}

/// Would catch a buffer that must have exactly 221 bytes, a byte written past the 221 or past the
/// buffer, a buffer half filled before 9 is said, an old byte that shines through, and a list of pairs
/// that is asked about in long buffers only.
#[test]
fn starts_in_buffers_of_every_length() {
    let mut both = Both::new(&Levels::base());
    let mut random = Random::new(901);
    for count in 1..=16 {
        let levels = both.load_some(&mut random);
        let plan = plan_of_count(&mut random, &levels, count);
        let block = block_of(&plan);
        for room in 0..=STATE_BYTES + 60 {
            let good = good_list(&mut random, &plan);
            let reply = put_start(&mut both, &mut random, (&block, &good), room);
            assert_eq!(reply.is_ok(), room >= STATE_BYTES);
            let bad = bad_list(&mut random, &plan);
            let reply = put_start(&mut both, &mut random, (&block, &bad), room);
            assert_eq!(reply, Err(22));
        }
        // With the high bits of the length left out, some of these would be too short.
        let (high, exact) = (1 << 16, STATE_BYTES);
        for room in [exact + 256, high, high + exact - 1, high + exact, 1 << 18] {
            let good = good_list(&mut random, &plan);
            let reply = put_start(&mut both, &mut random, (&block, &good), room);
            assert!(reply.is_ok());
        }
    }
    both.saw("starts in buffers of every length", 8_900);
    both.wants(Call::Start, ACCEPTED, 1_000);
    both.wants(Call::Start, 9, 3_000);
    both.wants(Call::Start, 22, 4_400);
    both.wants_editions(&[Call::Start], 65);
    both.wants_lists(&[Call::Start], 65);
}

/// Would catch 9 or 22 said before another refusal, and a byte changed on the way to one.
#[test]
fn refused_blocks_in_buffers_of_every_length() {
    let levels = Levels::base();
    let mut both = Both::new(&levels);
    let mut random = Random::new(902);
    let bench = block_of(&bench_plan());
    let mut closed = bench.clone();
    closed[14] |= 4;
    // The block of two tasks has one closing bit in edition 2.
    let mut closed_second = block_of(&fixed_tasks(&[(40, 300, 5), (40, 300, 0)]));
    closed_second[12] |= 1;
    let refused = [
        (vec![], 1),
        (bench[..1].to_vec(), 1),
        (bench[1..].to_vec(), 2),
        (pack_block(Edition::FIRST, 0, &[]), 3),
        (block_of(&tasks(&[(1_000, 1); 17])), 3),
        (bench[..14].to_vec(), 4),
        ([&bench[..], &[0]].concat(), 4),
        (closed, 5),
        (closed_second, 5),
        (block_of_no_additions(&bench_plan()), 21),
        (block_of(&fixed_tasks(&[(10, 40, 10)])), 8),
        (block_of(&tasks(&[(10, 400), (10, 0)])), 6),
        (block_of(&tasks(&[(1_000, 1), (1_001, 1)])), 7),
        (block_of(&tasks(&[(10, 400), (10, 400), (30, 601)])), 8),
    ];
    // The bench plan's pairs, one turned round, an odd byte, no such tasks, and far too many.
    let lists = [
        &[][..],
        &[0, 1, 0, 2, 1, 2],
        &[1, 0],
        &[0],
        &[0xff; 4],
        &[0; 34],
    ];
    let floored = block_of(&floor_tasks(&[(40, 300, 0, 1), (40, 300, 0, 2)]));
    let base = refused.map(|(block, number)| (Levels::base(), block, number));
    let two_levels = (Levels::new(&[50, 100]), floored, 24);
    for (levels, block, number) in base.into_iter().chain([two_levels]) {
        both.load(&levels);
        for room in 0..=STATE_BYTES + 40 {
            for pairs in lists {
                let reply = put_start(&mut both, &mut random, (&block, pairs), room);
                assert_eq!(reply, Err(number));
            }
        }
    }
    both.saw("refused blocks in buffers of every length", 21_000);
    for number in (1..=8).chain([21, 24]) {
        both.wants(Call::Start, number, 1_500);
    }
}

/// Starts with a good list of the tasks' pairs where their periods tell, and then with one that isn't
/// good, which is refused with 22 unless there was a number before it.
fn start_with_lists(both: &mut Both, random: &mut Random, list: &[Task]) {
    let (block, room) = (block_of(list), some_room(random));
    if !has_periods(list) {
        let any = random.pick(&[&[][..], &[0, 1], &[0]]);
        let _ = put_start(both, random, (&block, any), room);
        return;
    }
    let good = good_list(random, list);
    let started = put_start(both, random, (&block, &good), room);
    let bad = bad_list(random, list);
    let refused = put_start(both, random, (&block, &bad), room);
    match started {
        Ok(_) | Err(9) => assert_eq!(refused, Err(22)),
        Err(_) => assert_eq!(refused, started),
    }
}

/// Would catch a first order or a fresh state that is wrong for some plan, and a list of pairs that
/// some plan makes good or bad.
#[test]
fn starts_of_plans_of_every_kind() {
    let mut both = Both::new(&Levels::base());
    let mut random = Random::new(903);
    for _ in 0..2_000 {
        let levels = both.load_some(&mut random);
        let level = random.place(levels.count());
        let lists = [
            plan_at_level(&mut random, &levels, level),
            full_plan(&mut random, &levels, level),
            plan_one_over(&mut random, &levels, level),
            plan_at_largest_hyperperiod(&mut random, &levels),
            plan_above_largest_hyperperiod(&mut random, &levels),
            edge_list(&mut random, &levels),
        ];
        for list in lists {
            start_with_lists(&mut both, &mut random, &list);
        }
    }
    both.saw("starts of plans of every kind", 23_000);
    both.wants(Call::Start, ACCEPTED, 3_000);
    both.wants_editions(&[Call::Start], 1_000);
    both.wants_lists(&[Call::Start], 500);
    for number in [6, 7, 8, 9, 24] {
        both.wants(Call::Start, number, 100);
    }
    both.wants(Call::Start, 22, 6_000);
}

/// Would catch damage that starting lets through though reading doesn't, or the other way round; and the
/// same of the list of pairs, which the damage can make good or bad.
#[test]
fn starts_of_damaged_blocks() {
    let mut both = Both::new(&Levels::base());
    let mut random = Random::new(904);
    for _ in 0..1_500 {
        let levels = both.load_some(&mut random);
        let level = random.place(levels.count());
        let plan = plan_at_level(&mut random, &levels, level);
        let block = block_of(&plan);
        for _ in 0..6 {
            let damaged = damaged_block(&mut random, &block);
            let (room, read) = (some_room(&mut random), both.read(&damaged));
            for pairs in [vec![], any_list(&mut random, &plan)] {
                let started = put_start(&mut both, &mut random, (&damaged, &pairs), room);
                let asked = both.pairs(&damaged, &pairs);
                match (read, asked) {
                    (Err(number), _) => assert_eq!(asked, Err(number)),
                    (Ok(_), Err(number)) => assert_eq!(number, 22),
                    (Ok(_), Ok(count)) => assert_eq!(count, pairs.len() as u64 / 2),
                }
                match asked {
                    Ok(_) if room < STATE_BYTES => assert_eq!(started, Err(9)),
                    Ok(_) => assert!(started.is_ok()),
                    Err(number) => assert_eq!(started, Err(number)),
                }
            }
        }
    }
    both.saw("starts of damaged blocks", 45_000);
    for number in [ACCEPTED, 1, 2, 3, 4, 5, 6, 7, 8, 9, 21, 24] {
        both.wants(Call::Start, number, 15);
    }
    for call in [Call::Pairs, Call::Start] {
        both.wants(call, 22, 500);
    }
    both.wants_editions(&[Call::Start], 250);
    both.wants_lists(&[Call::Pairs, Call::Start], 250);
}
