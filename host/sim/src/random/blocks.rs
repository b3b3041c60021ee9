//! Random plan blocks, whole and damaged, and inputs for the bench program.

use super::passes::any_pass;
use super::Random;
use crate::block::{head, pack_block, Edition};
use crate::block::{
    COUNT_BITS, EDITION_BITS, FIXED_BITS, FLOOR_BITS, HEAD_BITS, PERIOD_BITS, WORST_BITS,
};
use crate::dispatch::{pass, start};
use crate::layout::STATE_BYTES;
use crate::level_block::write_levels;
use crate::levels::Levels;
use crate::plan::Task;

/// The block of a plan as the writer packs it, nothing being asked of it.
pub fn block_of(tasks: &[Task]) -> Vec<u8> {
    pack_block(Edition::of_tasks(tasks), tasks.len() as u64, tasks)
}

/// The same tasks without their fixed ticks and their floors, in a block of edition 2 all the same: one
/// for 21, if nothing else is asked of it before.
pub fn block_of_no_additions(tasks: &[Task]) -> Vec<u8> {
    let mut tasks = tasks.to_vec();
    for task in &mut tasks {
        task.fixed = 0;
        task.floor = 0;
    }
    pack_block(Edition::SECOND, tasks.len() as u64, &tasks)
}

/// The block cut, made longer, with bits flipped, with closing bits set, with another floor, edition or
/// count, or with a field or all additions set to zero. Now and then the damage leaves it as it was.
pub fn damaged_block(random: &mut Random, block: &[u8]) -> Vec<u8> {
    let mut damaged = block.to_vec();
    match random.below(10) {
        0..=3 => damage_bytes(random, &mut damaged),
        4 => set_closing_bit(random, &mut damaged),
        5 => put_a_floor(random, &mut damaged),
        6 => put_bits(&mut damaged, 0, EDITION_BITS, random.number()),
        7 => put_bits(&mut damaged, EDITION_BITS, COUNT_BITS, random.number()),
        8 => clear_additions(&mut damaged),
        _ => clear_field(random, &mut damaged),
    }
    damaged
}

/// A block of any kind cut, made longer, or with one or some bits flipped.
pub(super) fn damage_bytes(random: &mut Random, block: &mut Vec<u8>) {
    match random.below(4) {
        0 => block.truncate(random.place(block.len() + 1)),
        1 => {
            for _ in 0..random.between(1, 4) {
                let byte = if random.one_in(2) {
                    0
                } else {
                    random.number() as u8
                };
                block.push(byte);
            }
        }
        2 => flip_bits(random, block, 1),
        _ => flip_bits(random, block, 3),
    }
}

fn flip_bits(random: &mut Random, block: &mut [u8], most: u64) {
    if block.is_empty() {
        return;
    }
    for _ in 0..random.between(1, most) {
        let place = random.place(block.len());
        block[place] ^= 1 << random.below(8);
    }
}

/// Overwrites `width` bits from a bit's place on, as far as the block goes.
pub(super) fn put_bits(block: &mut [u8], from: usize, width: usize, number: u64) {
    for step in 0..width {
        let place = from + step;
        if place / 8 < block.len() {
            let mask = 0x80 >> (place % 8);
            block[place / 8] &= !mask;
            if (number >> (width - 1 - step)) & 1 == 1 {
                block[place / 8] |= mask;
            }
        }
    }
}

/// How many bits the block's tasks have each, and how many bits there are for them and past them;
/// nothing if the block ends before its count.
fn bits_for_tasks(block: &[u8]) -> Option<(usize, usize)> {
    let (edition, _) = head(block)?;
    Some((edition.task_bits(), 8 * block.len() - HEAD_BITS))
}

/// Where the additions of each task in a block of edition 2 begin, as far as the block goes. A
/// block of another edition has none.
fn additions(block: &[u8]) -> Vec<usize> {
    match (head(block), bits_for_tasks(block)) {
        (Some((edition, _)), Some((each, all))) if edition.has_additions() => (0..all / each)
            .map(|task| HEAD_BITS + each * task + PERIOD_BITS + WORST_BITS)
            .collect(),
        _ => Vec::new(),
    }
}

/// Gives a task any floor that fits its bits, which the table may have a level for or not.
fn put_a_floor(random: &mut Random, block: &mut [u8]) {
    let additions = additions(block);
    if !additions.is_empty() {
        let from = random.pick(&additions) + FIXED_BITS;
        put_bits(block, from, FLOOR_BITS, random.number());
    }
}

/// Sets the fixed ticks and the floor of every task to zero.
fn clear_additions(block: &mut [u8]) {
    for from in additions(block) {
        put_bits(block, from, FIXED_BITS + FLOOR_BITS, 0);
    }
}

/// Sets one of the bits between the last task and the end of the block.
fn set_closing_bit(random: &mut Random, block: &mut [u8]) {
    let closing = match bits_for_tasks(block) {
        Some((each, all)) => all % each,
        None => return,
    };
    if closing > 0 {
        let place = 8 * block.len() - 1 - random.place(closing);
        put_bits(block, place, 1, 1);
    }
}

/// Sets a period or a worst case to zero.
fn clear_field(random: &mut Random, block: &mut [u8]) {
    let (each, all) = match bits_for_tasks(block) {
        Some((each, all)) if all >= each => (each, all),
        _ => return,
    };
    let from = HEAD_BITS + each * random.place(all / each);
    if random.one_in(2) {
        put_bits(block, from, PERIOD_BITS, 0);
    } else {
        put_bits(block, from + PERIOD_BITS, WORST_BITS, 0);
    }
}

/// An input for the bench program: the levels, the plan, then passes that follow a run of the
/// simulator, so that many are accepted and some refused; now and then an odd byte at the end.
pub fn bench_input(random: &mut Random, levels: &Levels, tasks: &[Task], passes: usize) -> Vec<u8> {
    let block = block_of(tasks);
    let mut input = [write_levels(levels), block.clone()].concat();
    let mut state = [0; STATE_BYTES];
    if let Ok(first) = start(levels, &block, &[], &mut state) {
        let mut order = first;
        for _ in 0..passes {
            let (d, finished) = any_pass(random, order);
            let d = d & 0x7fff;
            let packed = (d as u16) | if finished { 0x8000 } else { 0 };
            input.extend(packed.to_be_bytes());
            if let Ok(next) = pass(&mut state, d, finished) {
                order = next;
            }
        }
    }
    if random.one_in(8) {
        input.push(random.number() as u8);
    }
    input
}
