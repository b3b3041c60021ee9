//! Writing and copying into buffers of every length around the one that is needed.

use crate::both::{Both, Call, ACCEPTED};
use crate::made::{fixed_tasks, floor_tasks, numbers_of, plan_with, tasks, Additions};
use sim::levels::Levels;
use sim::random::blocks::block_of;
use sim::random::Random;

/// Would catch a buffer that must be longer than needed, a byte written past the block or past the
/// buffer, a buffer half filled before 9 is said, and an old byte that shines through.
#[test]
fn buffers_of_every_length() {
    let levels = Levels::base();
    let mut both = Both::new(&levels);
    let mut random = Random::new(301);
    for count in 1..=16 {
        for round in 0..8 {
            let additions = Additions::nth(round, &levels);
            let tasks = plan_with(&mut random, &levels, count, additions);
            let numbers = numbers_of(&tasks);
            let block = block_of(&tasks);
            assert_eq!(both.judge(count, &numbers), both.read(&block));
            for room in 0..block.len() {
                assert_eq!(both.write(count, &numbers, room), Err(9));
                assert_eq!(both.copy(&block, room), Err(9));
            }
            for room in block.len()..=block.len() + 40 {
                assert_eq!(both.write(count, &numbers, room).as_ref(), Ok(&block));
                assert_eq!(both.copy(&block, room).as_ref(), Ok(&block));
            }
        }
    }
    both.saw("buffers of every length", 20_000);
    for call in [Call::Write, Call::Copy] {
        both.wants(call, ACCEPTED, 5_000);
        both.wants(call, 9, 5_000);
    }
    both.wants_editions(&[Call::Write, Call::Copy], 2_500);
}

/// Would catch 9 said before another refusal, and a byte changed on the way to one.
#[test]
fn refused_plans_with_buffers_of_every_length() {
    let levels = Levels::base();
    let mut both = Both::new(&levels);
    let refused = [
        (tasks(&[(1_000, 1); 17]), 3),
        (tasks(&[(10, 400), (10, 0)]), 6),
        (tasks(&[(1_000, 1), (1_001, 1)]), 7),
        (tasks(&[(10, 400), (10, 400), (30, 601)]), 8),
        (fixed_tasks(&[(10, 400, 3), (10, 0, 3)]), 6),
        (fixed_tasks(&[(1_000, 1, 255), (1_001, 1, 0)]), 7),
        (fixed_tasks(&[(10, 40, 5), (10, 40, 5)]), 8),
        (floor_tasks(&[(10, 400, 0, 7), (10, 0, 0, 7)]), 6),
        (floor_tasks(&[(1_000, 1, 0, 7), (1_001, 1, 0, 0)]), 7),
        (floor_tasks(&[(10, 501, 0, 1), (10, 500, 0, 7)]), 8),
    ];
    for (list, number) in refused {
        let numbers = numbers_of(&list);
        let block = block_of(&list);
        // A single task has closing bits in edition 1 only.
        let mut closed = block_of(&tasks(&[(list[0].period, list[0].worst)]));
        *closed.last_mut().unwrap() |= 1;
        assert_eq!(both.judge(list.len(), &numbers), Err(number));
        assert_eq!(both.read(&block), Err(number));
        for room in 0..=block.len() + 40 {
            assert_eq!(both.write(list.len(), &numbers, room), Err(number));
            assert_eq!(both.copy(&block, room), Err(number));
            assert_eq!(both.copy(&block[..1], room), Err(1));
            assert_eq!(both.copy(&block[1..], room), Err(2));
            assert_eq!(both.copy(&closed[..5], room), Err(4));
            assert_eq!(both.copy(&closed, room), Err(5));
        }
    }
    // A floor that is no level, over one level, where the block has room for it.
    both.load(&Levels::new(&[100]));
    let list = floor_tasks(&[(10, 400, 0, 0), (10, 400, 0, 1)]);
    let (numbers, block) = (numbers_of(&list), block_of(&list));
    for room in 0..=block.len() + 40 {
        assert_eq!(both.write(2, &numbers, room), Err(24));
        assert_eq!(both.copy(&block, room), Err(24));
    }
    both.saw("refused with buffers of every length", 2_400);
    for number in [3, 6, 7, 8, 24] {
        both.wants(Call::Write, number, 40);
        both.wants(Call::Copy, number, 40);
    }
}
