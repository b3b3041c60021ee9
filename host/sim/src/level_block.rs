//! 02, No. 1: the level block, which is loaded ahead of the plan.

use crate::bits::Bits;
use crate::levels::{count_in_range, Levels};
use crate::numbers::div_ceil;

/// "4 bits of count (1 to 8), then 10 bits for each speed".
pub const COUNT_BITS: usize = 4;
pub const SPEED_BITS: usize = 10;

/// How many bytes the block of so many speeds has, after "zero bits to a whole byte".
pub fn level_block_bytes(count: u64) -> usize {
    div_ceil(COUNT_BITS as u64 + SPEED_BITS as u64 * count, 8) as usize
}

/// The count that a block says, or nothing if there is no byte to say it.
pub fn level_count(block: &[u8]) -> Option<u64> {
    let first = block.get(..1)?;
    Some(Bits::unpack(first).take(COUNT_BITS))
}

/// A level block with whatever is in the fields. Only the lowest bits that fit a field get into it.
pub fn pack_levels(count: u64, speeds: &[u64]) -> Vec<u8> {
    let mut bits = Bits::empty();
    bits.put(count, COUNT_BITS);
    for speed in speeds {
        bits.put(*speed, SPEED_BITS);
    }
    bits.pack()
}

/// Writing: the block of an accepted table.
pub fn write_levels(levels: &Levels) -> Vec<u8> {
    pack_levels(levels.count() as u64, levels.speeds())
}

/// Reading: "18 block empty or count outside 1 to 8; 19 length or closing bits wrong; 20 a speed out
/// of range or not rising; put in that order".
pub fn read_levels(block: &[u8]) -> Result<Levels, u32> {
    let count = level_count(block).ok_or(18u32)?;
    if !count_in_range(count) {
        return Err(18);
    }
    if block.len() != level_block_bytes(count) {
        return Err(19);
    }
    let mut bits = Bits::unpack(block);
    bits.take(COUNT_BITS);
    let mut speeds = Vec::new();
    for _ in 0..count {
        speeds.push(bits.take(SPEED_BITS));
    }
    if !bits.all_zero() {
        return Err(19);
    }
    Levels::of(&speeds).ok_or(20)
}

/// How much of an input is the level block: it "is cut by its count too", so as many bytes as its
/// count needs, or all there are if fewer, or if the count is bad.
pub fn bytes_for_levels(input: &[u8]) -> usize {
    match level_count(input) {
        Some(count) if count_in_range(count) => level_block_bytes(count).min(input.len()),
        _ => input.len(),
    }
}
