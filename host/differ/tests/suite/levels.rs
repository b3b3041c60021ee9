//! Level blocks, whole and damaged, read on both sides and put ahead of every call that takes a plan.

use crate::both::{Both, Call, ACCEPTED, WITH_LEVELS};
use crate::dispatch::STATE_BYTES;
use crate::made::{bench_plan, fixed_tasks, floor_tasks, numbers_of, tasks};
use sim::level_block::{level_block_bytes, pack_levels, COUNT_BITS, SPEED_BITS};
use sim::levels::{Levels, FASTEST, MOST_LEVELS};
use sim::plan::Task;
use sim::random::blocks::{block_of, block_of_no_additions};
use sim::random::tables::{bad_level_block, damaged_level_block, levels_of_count};
use sim::random::Random;
use sim::write_levels;

const REFUSALS: [u32; 3] = [18, 19, 20];

/// Reads this block on both sides.
#[track_caller]
fn read(both: &mut Both, block: &[u8]) -> Result<u64, u32> {
    both.level_block = block.to_vec();
    both.read_levels()
}

/// The bits between the last of so many speeds and the end of their block.
fn closing_bits(count: usize) -> usize {
    8 * level_block_bytes(count as u64) - COUNT_BITS - SPEED_BITS * count
}

/// Puts the loaded block ahead of every call that takes a plan, with this list of pairs and buffers of
/// this length. Says with which number all of them refused, if they did.
#[track_caller]
fn put_before_all(both: &mut Both, list: &[Task], pairs: &[u8], room: usize) -> [Option<u32>; 7] {
    let (numbers, block) = (numbers_of(list), block_of(list));
    let mut state = vec![0xc3; room];
    [
        both.read_levels().err(),
        both.judge(list.len(), &numbers).err(),
        both.read(&block).err(),
        both.write(list.len(), &numbers, room).err(),
        both.copy(&block, room).err(),
        both.pairs(&block, pairs).err(),
        both.start(&block, pairs, &mut state).err(),
    ]
}

/// Would catch bits packed from the wrong end, a field of another width, and a count in the wrong
/// place.
#[test]
fn the_block_of_01s_speeds() {
    let mut both = Both::new(&Levels::base());
    let block = [
        0x80, 0x28, 0x14, 0x07, 0x82, 0x80, 0xc8, 0x3c, 0x14, 0x06, 0x40,
    ];
    assert_eq!(both.level_block, block);
    assert_eq!(both.read_levels(), Ok(8));
    assert_eq!(read(&mut both, &[0x11, 0x90]), Ok(1));
    // 7, 13 and 29.
    assert_eq!(read(&mut both, &[0x30, 0x1c, 0x0d, 0x07, 0x40]), Ok(3));
}

/// Would catch a count let through or refused that shouldn't be, a count with another's length, and a
/// question asked before its turn.
#[test]
fn every_first_byte_and_every_length() {
    let mut both = Both::new(&Levels::base());
    let rising: Vec<u64> = (1..=16).map(|place| 60 * place).collect();
    for first in 0..=255 {
        for filler in 0..4 {
            let mut block = match filler {
                0 => pack_levels(0, &rising),
                1 => vec![0x00; 21],
                2 => vec![0xff; 21],
                // Speeds that rise from 64 on, so that all counts can be right.
                _ => pack_levels(0, &[64, 128, 192, 256, 320, 384, 448, 512]),
            };
            block.resize(21, 0);
            block[0] = first;
            for length in 0..=14 {
                let _ = read(&mut both, &block[..length]);
            }
        }
    }
    both.saw("first bytes and lengths", 15_000);
    both.wants(Call::Levels, ACCEPTED, 20);
    both.wants(Call::Levels, 18, 7_000);
    both.wants(Call::Levels, 19, 6_000);
    both.wants(Call::Levels, 20, 100);
}

/// Would catch a length that is not asked about exactly, and a block read past its end.
#[test]
fn every_cut_and_every_tail() {
    let mut both = Both::new(&Levels::base());
    let mut random = Random::new(1_101);
    for count in 1..=MOST_LEVELS as usize {
        for _ in 0..60 {
            let block = write_levels(&levels_of_count(&mut random, count));
            assert_eq!(read(&mut both, &block), Ok(count as u64));
            assert_eq!(read(&mut both, &[]), Err(18));
            for length in 1..block.len() {
                assert_eq!(read(&mut both, &block[..length]), Err(19));
            }
            for more in 1..=12 {
                let filler = random.pick(&[0x00, 0xff, 0x10]);
                let longer = [&block[..], &vec![filler; more]].concat();
                assert_eq!(read(&mut both, &longer), Err(19));
            }
        }
    }
    // With the high bits of the length left out, these would be good.
    let block = write_levels(&Levels::base());
    for high in [256, 65_536, 1 << 20] {
        let mut longer = block.clone();
        longer.resize(high + block.len(), 0);
        assert_eq!(read(&mut both, &longer), Err(19));
    }
    both.saw("cuts and tails of level blocks", 9_300);
    both.wants(Call::Levels, ACCEPTED, 480);
    both.wants(Call::Levels, 19, 8_000);
}

/// Would catch any bit that is not looked at, or is taken for another.
#[test]
fn every_single_flipped_bit() {
    let mut both = Both::new(&Levels::base());
    let mut random = Random::new(1_102);
    for count in 1..=MOST_LEVELS as usize {
        let used = COUNT_BITS + SPEED_BITS * count;
        for _ in 0..60 {
            let mut block = write_levels(&levels_of_count(&mut random, count));
            for place in 0..8 * block.len() {
                block[place / 8] ^= 0x80 >> (place % 8);
                let flipped = read(&mut both, &block);
                if place < COUNT_BITS {
                    assert!(matches!(flipped, Err(18 | 19)));
                } else if place >= used {
                    assert_eq!(flipped, Err(19));
                } else {
                    assert!(matches!(flipped, Ok(_) | Err(20)));
                }
                block[place / 8] ^= 0x80 >> (place % 8);
            }
        }
    }
    both.saw("flipped bits of level blocks", 24_000);
    both.wants(Call::Levels, ACCEPTED, 2_000);
    both.wants(Call::Levels, 18, 300);
    both.wants(Call::Levels, 19, 1_500);
    both.wants(Call::Levels, 20, 2_000);
}

/// Would catch a closing bit that is not asked about, and one asked about after the speeds.
#[test]
fn every_pattern_of_closing_bits() {
    let mut both = Both::new(&Levels::base());
    let mut random = Random::new(1_103);
    let mut singles = 0;
    for count in 1..=MOST_LEVELS as usize {
        let good = write_levels(&levels_of_count(&mut random, count));
        let bad = pack_levels(count as u64, &vec![0; count]);
        for pattern in 0u8..1 << closing_bits(count) {
            singles += u32::from(pattern.is_power_of_two());
            for (block, otherwise) in [(&good, ACCEPTED), (&bad, 20)] {
                let mut closed = block.clone();
                *closed.last_mut().unwrap() |= pattern;
                let number = read(&mut both, &closed).err().unwrap_or(ACCEPTED);
                assert_eq!(number, if pattern == 0 { otherwise } else { 19 });
            }
        }
    }
    // 2, 0, 6 and 4 of them, twice.
    assert_eq!(singles, 24);
    both.saw("closing bits of level blocks", 340);
    both.wants(Call::Levels, 19, 290);
}

/// Would catch a range that is off by one at either end, at some place of some table.
#[test]
fn every_value_of_every_speed() {
    let mut both = Both::new(&Levels::base());
    let mut random = Random::new(1_104);
    for count in 1..=MOST_LEVELS as usize {
        let levels = levels_of_count(&mut random, count);
        for place in 0..count {
            let mut speeds = levels.speeds().to_vec();
            let below = if place > 0 { speeds[place - 1] } else { 0 };
            let above = speeds.get(place + 1).copied().unwrap_or(FASTEST + 1);
            for speed in 0..1 << SPEED_BITS {
                speeds[place] = speed;
                let answer = read(&mut both, &pack_levels(count as u64, &speeds));
                assert_eq!(answer.is_ok(), below < speed && speed < above);
                assert_eq!(answer.err().unwrap_or(20), 20);
            }
        }
    }
    both.saw("values of speeds", 36_000);
    both.wants(Call::Levels, 20, 20_000);
    both.wants(Call::Levels, ACCEPTED, 2_000);
}

/// Would catch neighbours that are not compared, or compared the wrong way at one place.
#[test]
fn neighbours_that_do_not_rise() {
    let mut both = Both::new(&Levels::base());
    for count in 2..=MOST_LEVELS {
        for place in 1..count as usize {
            for (step, answer) in [(-1, Err(20)), (0, Err(20)), (1, Ok(count))] {
                for spread in [2, 10, 100] {
                    let mut speeds: Vec<i64> = (1..=count as i64).map(|n| n * spread).collect();
                    speeds[place] = speeds[place - 1] + step;
                    let speeds: Vec<u64> = speeds.iter().map(|speed| *speed as u64).collect();
                    let block = pack_levels(count, &speeds);
                    assert_eq!(read(&mut both, &block), answer, "{speeds:?}");
                }
            }
        }
    }
    both.saw("neighbours", 250);
    both.wants(Call::Levels, 20, 160);
    both.wants(Call::Levels, ACCEPTED, 80);
}

/// Would catch damage of several kinds at once that slips through, or is refused with the wrong
/// number.
#[test]
fn damaged_level_blocks() {
    let mut both = Both::new(&Levels::base());
    let mut random = Random::new(1_105);
    let bench = bench_plan();
    for _ in 0..8_000 {
        let levels = both.load_some(&mut random);
        let once = damaged_level_block(&mut random, &write_levels(&levels));
        let answer = read(&mut both, &once);
        let judged = both.judge(3, &numbers_of(&bench));
        assert_eq!(answer.is_err(), matches!(judged, Err(18..=20)));
        let twice = damaged_level_block(&mut random, &once);
        let _ = read(&mut both, &twice);
        let _ = both.start(&block_of(&bench), &[], &mut [0; STATE_BYTES]);
    }
    both.saw("damaged level blocks", 32_000);
    for call in [Call::Levels, Call::Judge, Call::Start] {
        for number in REFUSALS {
            both.wants(call, number, 500);
        }
    }
    both.wants(Call::Levels, ACCEPTED, 500);
    both.wants(Call::Judge, ACCEPTED, 100);
}

/// Would catch a level block that some call doesn't ask about, asks about after its own questions, or
/// refuses with another number; and a byte changed on the way to such a refusal.
#[test]
fn bad_blocks_ahead_of_every_call() {
    let mut both = Both::new(&Levels::base());
    let mut random = Random::new(1_106);
    // Good ones, and ones that each later question is against.
    let lists = [
        bench_plan(),
        tasks(&[(40, 300)]),
        fixed_tasks(&[(40, 300, 5), (40, 300, 0)]),
        fixed_tasks(&[(40, 300, 256)]),
        fixed_tasks(&[(40, 300, 40)]),
        floor_tasks(&[(40, 300, 0, 7)]),
        floor_tasks(&[(40, 300, 0, 8)]),
        tasks(&[]),
        tasks(&[(1_000, 1); 17]),
        tasks(&[(0, 0)]),
        tasks(&[(1_000, 1), (1_001, 1)]),
        tasks(&[(1, 1_001)]),
    ];
    for round in 0..1_500 {
        let number = REFUSALS[round % 3];
        both.level_block = bad_level_block(&mut random, number);
        let list = &lists[round / 3 % lists.len()];
        let room = random.pick(&[0, 5, 15, 200, STATE_BYTES - 1, STATE_BYTES, 300]);
        let pairs = random.pick(&[&[][..], &[0, 1], &[1, 0], &[0], &[0xff; 2], &[0; 34]]);
        let answers = put_before_all(&mut both, list, pairs, room);
        assert_eq!(answers, [Some(number); 7]);
    }
    both.saw("bad blocks ahead of every call", 10_500);
    for call in WITH_LEVELS {
        for number in REFUSALS {
            both.wants(call, number, 500);
        }
    }
}

/// The same of every block that is too short or has a bad count, with a plan block that is empty or
/// too short itself.
#[test]
fn level_blocks_are_asked_about_before_plan_blocks() {
    let mut both = Both::new(&Levels::base());
    let good = write_levels(&Levels::base());
    let bench = block_of(&bench_plan());
    let needless = block_of_no_additions(&bench_plan());
    for length in 0..good.len() {
        both.level_block = good[..length].to_vec();
        let number = if length == 0 { 18 } else { 19 };
        for plan in [
            &[][..],
            &bench[..1],
            &bench[..14],
            &bench[1..],
            &bench,
            &needless,
        ] {
            for (room, pairs) in [(0, &[][..]), (15, &[0]), (STATE_BYTES, &[1, 0])] {
                assert_eq!(both.read(plan), Err(number));
                assert_eq!(both.copy(plan, room), Err(number));
                assert_eq!(both.pairs(plan, pairs), Err(number));
                assert_eq!(both.start(plan, pairs, &mut vec![0; room]), Err(number));
            }
        }
    }
    // With the whole block the plan's own questions are put.
    both.load(&Levels::base());
    for (plan, number) in [
        (&[][..], 1),
        (&bench[..14], 4),
        (&bench[1..], 2),
        (&needless, 21),
    ] {
        assert_eq!(both.read(plan), Err(number));
        assert_eq!(both.copy(plan, 74), Err(number));
        assert_eq!(both.pairs(plan, &[1, 0]), Err(number));
        let started = both.start(plan, &[1, 0], &mut [0; STATE_BYTES]);
        assert_eq!(started, Err(number));
    }
    both.saw("level blocks before plan blocks", 700);
    for call in [Call::Read, Call::Copy, Call::Pairs, Call::Start] {
        both.wants(call, 18, 15);
        both.wants(call, 19, 150);
    }
}

/// Would catch a floor asked about with another table than the one handed over: it goes with the count of
/// its levels alone.
#[test]
fn a_floor_that_one_table_has_and_another_has_not() {
    let mut both = Both::new(&Levels::base());
    for floor in 0..8 {
        let list = floor_tasks(&[(40, 300, 0, 0), (40, 300, 0, floor)]);
        for count in 1..=MOST_LEVELS {
            let speeds: Vec<u64> = (0..count).map(|level| 100 + level).collect();
            both.load(&Levels::new(&speeds));
            let refusal = (floor >= count).then_some(24);
            let answers = put_before_all(&mut both, &list, &[0, 1], STATE_BYTES);
            assert_eq!(answers[0], None);
            assert_eq!(answers[1..], [refusal; 6]);
        }
    }
    both.saw("floors and tables", 448);
    for call in &WITH_LEVELS[1..] {
        both.wants(*call, 24, 28);
        both.wants(*call, ACCEPTED, 36);
    }
}

/// Would catch a verdict that goes with another table than the one handed over: a unit a tick less,
/// and the bench plan has no room.
#[test]
fn admitted_by_one_table_and_refused_by_another() {
    let mut both = Both::new(&Levels::base());
    let bench = bench_plan();
    for below in [&[][..], &[7], &[1, 2, 3, 4, 5, 6, 98]] {
        for (fastest, refusal) in [(99, Some(8)), (100, None), (1_000, None)] {
            both.load(&Levels::new(&[below, &[fastest]].concat()));
            let answers = put_before_all(&mut both, &bench, &[0, 2], STATE_BYTES);
            assert_eq!(answers[0], None);
            assert_eq!(answers[1..], [refusal; 6]);
        }
    }
    both.saw("admitted and refused", 63);
    for call in &WITH_LEVELS[1..] {
        both.wants(*call, 8, 3);
        both.wants(*call, ACCEPTED, 6);
    }
}
