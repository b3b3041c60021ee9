//! Random tables of speeds, and level blocks that are refused.

use super::blocks::{damage_bytes, put_bits};
use super::Random;
use crate::level_block::{level_block_bytes, pack_levels, write_levels, COUNT_BITS, SPEED_BITS};
use crate::levels::{Levels, FASTEST, MOST_LEVELS};

/// Any number of speeds, close together or far apart, and often with the slowest or the fastest that
/// there can be.
pub fn some_levels(random: &mut Random) -> Levels {
    let count = random.between(1, MOST_LEVELS) as usize;
    levels_of_count(random, count)
}

/// Exactly so many speeds.
pub fn levels_of_count(random: &mut Random, count: usize) -> Levels {
    let fastest = random.pick(&[MOST_LEVELS, 20, 100, FASTEST]);
    let mut speeds = Vec::new();
    while speeds.len() < count {
        let speed = random.between(1, fastest);
        if !speeds.contains(&speed) {
            speeds.push(speed);
        }
    }
    speeds.sort();
    if random.one_in(4) {
        speeds[0] = 1;
    }
    if random.one_in(4) {
        speeds[count - 1] = FASTEST;
    }
    Levels::new(&speeds)
}

/// Any table, and now and then 01's.
pub fn some_or_base_levels(random: &mut Random) -> Levels {
    if random.one_in(4) {
        Levels::base()
    } else {
        some_levels(random)
    }
}

/// A level block that is refused with this number, 18, 19 or 20. What a later question would refuse
/// is often in it too.
pub fn bad_level_block(random: &mut Random, number: u32) -> Vec<u8> {
    match number {
        18 => with_a_bad_count(random),
        19 => with_a_bad_length_or_end(random),
        20 => block_of(&bad_speeds(random)),
        _ => panic!("{number} is no refusal of a level block"),
    }
}

fn block_of(speeds: &[u64]) -> Vec<u8> {
    pack_levels(speeds.len() as u64, speeds)
}

/// No byte at all, or a count of 0 or above 8, with anything after it.
fn with_a_bad_count(random: &mut Random) -> Vec<u8> {
    if random.one_in(8) {
        return Vec::new();
    }
    let mut block = write_levels(&some_levels(random));
    if random.one_in(4) {
        block.truncate(random.between(1, block.len() as u64) as usize);
    }
    let past = random.between(MOST_LEVELS + 1, (1 << COUNT_BITS) - 1);
    let count = random.pick(&[0, MOST_LEVELS + 1, past]);
    put_bits(&mut block, 0, COUNT_BITS, count);
    block
}

/// Shorter or longer than the count needs, or with a closing bit set.
fn with_a_bad_length_or_end(random: &mut Random) -> Vec<u8> {
    let speeds = if random.one_in(4) {
        bad_speeds(random)
    } else {
        some_levels(random).speeds().to_vec()
    };
    let mut block = block_of(&speeds);
    let used = COUNT_BITS + SPEED_BITS * speeds.len();
    let closing = 8 * block.len() - used;
    match random.below(3) {
        0 => block.truncate(random.between(1, block.len() as u64 - 1) as usize),
        1 if closing > 0 => put_bits(&mut block, used + random.place(closing), 1, 1),
        _ => {
            for _ in 0..random.pick(&[1, 1, 2, 5]) {
                let any = random.number() as u8;
                block.push(random.pick(&[0, any]));
            }
        }
    }
    block
}

/// Speeds that fit their fields and can't be loaded: 0, above 1,000, twice the same, or falling.
pub fn bad_speeds(random: &mut Random) -> Vec<u64> {
    let mut speeds = some_levels(random).speeds().to_vec();
    let place = random.place(speeds.len());
    match random.below(4) {
        0 => speeds[place] = 0,
        1 => {
            let past = random.between(FASTEST + 1, (1 << SPEED_BITS) - 1);
            speeds[place] = random.pick(&[FASTEST + 1, past]);
        }
        2 => stand_twice(&mut speeds, place),
        _ => {
            stand_twice(&mut speeds, place);
            // The second of the two is one less than the first, or the first one more.
            let second = (place + 1).min(speeds.len() - 1);
            if speeds[second] > 1 {
                speeds[second] -= 1;
            } else {
                speeds[second - 1] += 1;
            }
        }
    }
    speeds
}

/// The speed at this place again at the next one; behind the last, if a table has room for it.
fn stand_twice(speeds: &mut Vec<u64>, place: usize) {
    let own = speeds[place];
    if place + 1 < speeds.len() {
        speeds[place + 1] = own;
    } else if speeds.len() < MOST_LEVELS as usize {
        speeds.push(own);
    } else {
        speeds[place - 1] = own;
    }
}

/// A level block cut, made longer, with bits flipped, or with another count. Now and then the damage
/// leaves it one that is accepted.
pub fn damaged_level_block(random: &mut Random, block: &[u8]) -> Vec<u8> {
    let mut damaged = block.to_vec();
    if random.one_in(4) {
        let count = random.between(0, (1 << COUNT_BITS) - 1);
        put_bits(&mut damaged, 0, COUNT_BITS, count);
        // With the length that the count needs, whatever is then in it.
        if random.one_in(2) {
            damaged.resize(level_block_bytes(count), 0);
        }
        return damaged;
    }
    damage_bytes(random, &mut damaged);
    damaged
}
