//! Blocks, whole and damaged, read and copied on both sides. Each test has blocks of both editions.

use crate::both::{Both, Call, Kind, ACCEPTED};
use crate::made::{floor_tasks, plan_with, put_block, tasks, Additions};
use sim::block::{
    block_bytes, pack_block, Edition, COUNT_BITS, EDITION_BITS, FIXED_BITS, FLOOR_BITS, HEAD_BITS,
};
use sim::levels::{Levels, MOST_LEVELS};
use sim::random::blocks::{block_of, block_of_no_additions, damaged_block};
use sim::random::plans::plan_at_level;
use sim::random::tables::levels_of_count;
use sim::random::Random;

/// How many bits the head and so many tasks have.
fn used_bits(edition: Edition, count: usize) -> usize {
    HEAD_BITS + edition.task_bits() * count
}

/// The bits between the last task and the end of a block of so many tasks.
fn closing_bits(edition: Edition, count: usize) -> usize {
    8 * block_bytes(edition, count as u64) - used_bits(edition, count)
}

/// Whether the bit at this place is one of a task's floor.
fn is_floor(edition: Edition, count: usize, place: usize) -> bool {
    let each = edition.task_bits();
    edition == Edition::SECOND
        && (HEAD_BITS..used_bits(edition, count)).contains(&place)
        && (place - HEAD_BITS) % each >= each - FLOOR_BITS
}

/// The block with one bit turned over.
fn flip(block: &mut [u8], place: usize) {
    block[place / 8] ^= 0x80 >> (place % 8);
}

/// Would catch a length that is not asked about exactly or is the other edition's, and a block read
/// past its end.
#[test]
fn every_cut_and_every_tail() {
    let levels = Levels::base();
    let mut both = Both::new(&levels);
    let mut random = Random::new(201);
    for count in 1..=16 {
        for round in 0..16 {
            let additions = Additions::nth(round, &levels);
            let block = block_of(&plan_with(&mut random, &levels, count, additions));
            for length in 0..block.len() {
                let wanted = if length < 2 { 1 } else { 4 };
                let cut = put_block(&mut both, &mut random, &block[..length]);
                assert_eq!(cut, Err(wanted));
            }
            assert!(put_block(&mut both, &mut random, &block).is_ok());
            for more in 1..=8 {
                let filler = random.pick(&[0x00, 0xff, 0x10]);
                let longer = [&block[..], &vec![filler; more]].concat();
                assert_eq!(put_block(&mut both, &mut random, &longer), Err(4));
            }
        }
    }
    both.saw("cuts and tails", 24_000);
    both.wants(Call::Read, 4, 10_000);
    both.wants(Call::Copy, 4, 10_000);
    both.wants_editions(&[Call::Read], 128);
}

/// Would catch any bit that is not looked at, or is taken for another.
#[test]
fn every_single_flipped_bit() {
    let levels = Levels::base();
    let mut both = Both::new(&levels);
    let mut random = Random::new(202);
    let mut floors = 0;
    for count in 1..=16 {
        for round in 0..12 {
            let additions = Additions::nth(round, &levels);
            let edition = additions.edition();
            let mut block = block_of(&plan_with(&mut random, &levels, count, additions));
            for place in 0..8 * block.len() {
                flip(&mut block, place);
                let flipped = put_block(&mut both, &mut random, &block);
                if place < EDITION_BITS {
                    assert_eq!(flipped, Err(2));
                } else if place < HEAD_BITS {
                    assert!(matches!(flipped, Err(3 | 4)));
                } else if place >= used_bits(edition, count) {
                    assert_eq!(flipped, Err(5));
                } else if is_floor(edition, count, place) {
                    // All eight levels are there, so any floor will do, and none at all if there is
                    // another addition.
                    assert!(matches!(flipped, Ok(_) | Err(21)));
                    floors += 1;
                }
                flip(&mut block, place);
            }
        }
    }
    both.saw("flipped bits", 140_000);
    for number in [ACCEPTED, 2, 3, 4, 5, 6, 7, 8] {
        both.wants(Call::Read, number, 30);
        both.wants(Call::Copy, number, 30);
    }
    both.wants(Call::Read, ACCEPTED, 8_000);
    both.wants(Call::Read, 7, 8_000);
    both.wants_editions(&[Call::Read, Call::Copy], 1_000);
    // 3 of each task in the blocks of edition 2.
    assert_eq!(floors, 9 * 3 * (1 + 16) * 8);
}

/// Would catch a closing bit that is not asked about, and one asked about after the fields.
#[test]
fn every_pattern_of_closing_bits() {
    let levels = Levels::base();
    let mut both = Both::new(&levels);
    let mut random = Random::new(203);
    let mut singles = [0, 0];
    for (edition, singles) in Edition::ACCEPTED.into_iter().zip(&mut singles) {
        let additions = match edition {
            Edition::FIRST => Additions::None,
            _ => Additions::Both,
        };
        for count in 1..=16 {
            let good = block_of(&plan_with(&mut random, &levels, count, additions));
            let bad = pack_block(edition, count as u64, &tasks(&vec![(0, 0); count]));
            for pattern in 0u8..1 << closing_bits(edition, count) {
                *singles += u32::from(pattern.is_power_of_two());
                for (block, otherwise) in [(&good, ACCEPTED), (&bad, 6)] {
                    let mut closed = block.clone();
                    *closed.last_mut().unwrap() |= pattern;
                    let read = put_block(&mut both, &mut random, &closed);
                    let number = read.err().unwrap_or(ACCEPTED);
                    assert_eq!(number, if pattern == 0 { otherwise } else { 5 });
                }
            }
        }
    }
    // In edition 1, 3 of them for each odd count and 7 for each even one; in edition 2, 0 to 7 twice.
    assert_eq!(singles, [8 * 3 + 8 * 7, 2 * 28]);
    both.saw("closing bits", 6_300);
    both.wants_with_and_without(&[Call::Read], 16);
    both.wants(Call::Read, 6, 32);
    both.wants(Call::Read, 5, 2_500);
}

/// The bits that were spare are a floor (02, No. 8), and 5 no longer asks about them. Would catch a floor
/// that is read from other bits or not at all at some place, or is asked about before the fields or 21.
#[test]
fn every_pattern_of_floor_bits() {
    let mut both = Both::new(&Levels::base());
    let mut random = Random::new(206);
    for round in 0..2 * 16 {
        let (count, level_count) = (1 + round % 16, 1 + (round / 2) % MOST_LEVELS as usize);
        let levels = levels_of_count(&mut random, level_count);
        both.load(&levels);
        let plan = plan_with(&mut random, &levels, count, Additions::Fixed);
        let zeros = pack_block(Edition::SECOND, count as u64, &tasks(&vec![(0, 0); count]));
        let blocks = [
            (block_of(&plan), ACCEPTED),
            (block_of_no_additions(&plan), 21),
            (zeros, 6),
        ];
        for task in 0..count {
            let from = used_bits(Edition::SECOND, task + 1) - FLOOR_BITS;
            for floor in 0..1 << FLOOR_BITS {
                for (block, without) in &blocks {
                    let mut floored = block.clone();
                    // The most significant bit comes first.
                    for bit in (0..FLOOR_BITS).filter(|bit| floor >> bit & 1 == 1) {
                        flip(&mut floored, from + FLOOR_BITS - 1 - bit);
                    }
                    let read = put_block(&mut both, &mut random, &floored);
                    let wanted = match *without {
                        6 => 6,
                        _ if floor >= level_count => 24,
                        without if floor == 0 => without,
                        _ => ACCEPTED,
                    };
                    assert_eq!(read.err().unwrap_or(ACCEPTED), wanted);
                }
            }
        }
    }
    both.saw("floor bits", 13_000);
    both.wants_never(Call::Read, 5);
    both.wants(Call::Read, 24, 1_000);
    both.wants(Call::Copy, 24, 1_000);
    both.wants(Call::Read, 6, 2_000);
    both.wants(Call::Read, 21, 2 * 136);
    both.wants_kind(Call::Read, Kind::Floors, 1_500);
    both.wants_kind(Call::Read, Kind::FloorsAlone, 700);
}

/// Would catch 21 left out, asked before 6 or after 7 or 8, asked about some of the tasks only, or
/// said of a block that has a fixed tick or a floor.
#[test]
fn blocks_of_edition_2_without_additions() {
    let levels = Levels::base();
    let mut both = Both::new(&levels);
    let mut random = Random::new(207);
    for count in 1..=16 {
        let plan = plan_with(&mut random, &levels, count, Additions::None);
        let block = block_of_no_additions(&plan);
        assert_eq!(put_block(&mut both, &mut random, &block), Err(21));
        // 6 comes first, 7 and 8 later.
        let mut bad = plan.clone();
        bad[random.place(count)].worst = 0;
        let bad = block_of_no_additions(&bad);
        assert_eq!(put_block(&mut both, &mut random, &bad), Err(6));
        for (period, worst) in [(65_521, 1), (1, 1_048_575)] {
            let over = tasks(&[vec![(64, 1); count - 1], vec![(period, worst)]].concat());
            let block = block_of_no_additions(&over);
            assert_eq!(put_block(&mut both, &mut random, &block), Err(21));
            let first = put_block(&mut both, &mut random, &block_of(&over));
            assert_eq!(first.is_err(), count > 1 || worst > 1);
        }
        // Any single bit of any task's fixed ticks or floor will do.
        let roomy = block_of_no_additions(&tasks(&vec![(60_000, 37); count]));
        for task in 0..count {
            let end = used_bits(Edition::SECOND, task + 1);
            for place in end - FLOOR_BITS - FIXED_BITS..end {
                let mut block = roomy.clone();
                flip(&mut block, place);
                assert!(put_block(&mut both, &mut random, &block).is_ok());
            }
        }
        // The same tasks in edition 1, and edition 2's bytes with the number of edition 1.
        assert!(put_block(&mut both, &mut random, &block_of(&plan)).is_ok());
        let mut other = block;
        other[0] ^= 0x30;
        assert_eq!(put_block(&mut both, &mut random, &other), Err(4));
    }
    both.saw("edition 2 without additions", 2_400);
    both.wants(Call::Read, 21, 48);
    both.wants(Call::Copy, 21, 48);
    both.wants(Call::Read, 6, 16);
    both.wants_kind(Call::Read, Kind::Fixed, 1_000);
    both.wants_kind(Call::Read, Kind::FloorsAlone, 400);
    both.wants_kind(Call::Read, Kind::NoFixed, 16);
}

/// Would catch an edition or a count let through, a count with another's length, and a question
/// asked before its turn.
#[test]
fn every_edition_count_and_length() {
    let levels = Levels::base();
    let mut both = Both::new(&levels);
    let mut random = Random::new(204);
    let without = tasks(&[(1_000, 37); 16]);
    let with = floor_tasks(&[(1_000, 37, 5, 0); 16]);
    let floors = floor_tasks(&[(1_000, 37, 0, 7); 16]);
    for edition in (0..1 << EDITION_BITS).map(Edition) {
        for count in 0..1 << COUNT_BITS {
            for sixteen in [&without, &with, &floors] {
                let mut whole = pack_block(edition, count, sixteen);
                whole.extend([0, 0]);
                for length in 0..=whole.len() {
                    let _ = put_block(&mut both, &mut random, &whole[..length]);
                }
                let own = count.clamp(1, 16);
                let block = pack_block(edition, count, &sixteen[..own as usize]);
                let read = put_block(&mut both, &mut random, &block);
                let wanted = match (edition, own == count) {
                    (Edition::FIRST | Edition::SECOND, false) => Some(3),
                    (Edition::SECOND, true) if sixteen == &without => Some(21),
                    (Edition::FIRST | Edition::SECOND, true) => None,
                    _ => Some(2),
                };
                assert_eq!(read.err(), wanted);
            }
        }
    }
    both.saw("editions, counts and lengths", 160_000);
    both.wants_editions(&[Call::Read], 16);
    both.wants(Call::Read, 1, 2_000);
    both.wants(Call::Read, 2, 60_000);
    both.wants(Call::Read, 3, 2_000);
    both.wants(Call::Read, 4, 2_000);
    both.wants(Call::Read, 21, 16);
    // Every even count below 16, cut where the next period starts with a set bit.
    both.wants(Call::Read, 5, 7);
}

/// Would catch what happens only for some first bytes: they hold the edition, the count and the top
/// of the first period.
#[test]
fn every_pair_of_first_bytes() {
    let levels = Levels::base();
    let mut both = Both::new(&levels);
    let first_edition = block_of(&tasks(&[(60_000, 37); 16]));
    let second_edition = block_of(&floor_tasks(&[(60_000, 37, 5, 3); 16]));
    for first in 0..=u16::MAX {
        let edition = Edition(u64::from(first >> 12));
        let count = first >> 7 & 0x1f;
        let rest = if edition == Edition::SECOND {
            &second_edition
        } else {
            &first_edition
        };
        let length = match count {
            1..=16 => block_bytes(edition, u64::from(count)),
            _ => rest.len(),
        };
        let mut block = rest[..length].to_vec();
        block[..2].copy_from_slice(&first.to_be_bytes());
        // Nothing of the sixteen tasks may stand where the closing bits are.
        if let 1..=16 = count {
            block[length - 1] &= 0xff << closing_bits(edition, usize::from(count));
        }
        let _ = both.read(&block);
    }
    both.saw("first bytes", 65_000);
    both.wants_with_and_without(&[Call::Read], 100);
    both.wants(Call::Read, 2, 14 * 4_096);
    both.wants(Call::Read, 3, 2 * 16 * 128);
    both.wants(Call::Read, 7, 1_000);
}

/// Would catch damage of several kinds at once that slips through, or is refused with the wrong
/// number.
#[test]
fn damaged_blocks() {
    let mut both = Both::new(&Levels::base());
    let mut random = Random::new(205);
    for _ in 0..4_000 {
        let levels = both.load_some(&mut random);
        let level = random.place(levels.count());
        let tasks = plan_at_level(&mut random, &levels, level);
        let block = block_of(&tasks);
        for _ in 0..8 {
            let damaged = damaged_block(&mut random, &block);
            let _ = put_block(&mut both, &mut random, &damaged);
            let twice = damaged_block(&mut random, &damaged);
            let _ = put_block(&mut both, &mut random, &twice);
        }
    }
    both.saw("damaged blocks", 120_000);
    for number in [ACCEPTED, 1, 2, 3, 4, 5, 6, 7, 8, 21, 24] {
        both.wants(Call::Read, number, 100);
        both.wants(Call::Copy, number, 100);
    }
    both.wants(Call::Copy, 9, 100);
    both.wants_editions(&[Call::Read, Call::Copy], 1_000);
}
