//! The bench input: a level block, a plan block, then two bytes a pass.

use crate::script::{largest, Pass, Script, D_BITS, NUMBER_BITS};
use sim::bits::Bits;
use sim::block::{block_bytes, head, pack_block, take_head, Edition};
use sim::block::{COUNT_BITS, FIXED_BITS, FLOOR_BITS, PERIOD_BITS, WORST_BITS};
use sim::level_block::{self, level_block_bytes, level_count, pack_levels, read_levels};
use sim::pairs::{pack_pairs, Pair};
use sim::plan::{judge_list, Task};
use std::fmt;

/// The bench program takes no more bytes than this.
pub const LARGEST_INPUT: usize = 65_536;

const FINISHED: u16 = 1 << D_BITS;

/// Why a bench input can't be said in text.
#[derive(Clone, Copy, PartialEq, Eq, Debug)]
pub enum Why {
    Empty,
    CutLevels { count: u64, needed: usize },
    LevelClosingBits,
    TooShort { length: usize },
    Edition(u64),
    CutBlock { count: u64, needed: usize },
    ClosingBits,
    NoAddition,
    OddByte,
}

/// The reason and its byte, the first byte being 0. For a cut input it is the first one missing.
#[derive(Clone, Copy, PartialEq, Eq, Debug)]
pub struct BytesError {
    pub byte: usize,
    pub why: Why,
}

impl fmt::Display for Why {
    fn fmt(&self, out: &mut fmt::Formatter) -> fmt::Result {
        match self {
            Why::Empty => write!(out, "the input is empty; it begins with a level block"),
            Why::CutLevels { count, needed } => write!(
                out,
                "the input ends here, within the level block: its count is {count}, so it needs \
                 {needed} bytes"
            ),
            Why::LevelClosingBits => {
                write!(out, "the closing bits of the level block are not zero")
            }
            Why::TooShort { length } => write!(
                out,
                "the input ends here, before the plan's count: length {length}, at least 2 needed"
            ),
            Why::Edition(edition) => {
                write!(out, "the edition is {edition}, not {}", accepted_editions())
            }
            Why::CutBlock { count, needed } => write!(
                out,
                "the input ends here, within the plan block: its count is {count}, so it needs \
                 {needed} bytes"
            ),
            Why::ClosingBits => write!(out, "the closing bits of the plan block are not zero"),
            Why::NoAddition => write!(
                out,
                "the edition is 2, but no task has fixed ticks or a floor; text without them means \
                 edition 1"
            ),
            Why::OddByte => write!(out, "an odd byte is left; a pass has two"),
        }
    }
}

impl fmt::Display for BytesError {
    fn fmt(&self, out: &mut fmt::Formatter) -> fmt::Result {
        write!(out, "byte {}: {}", self.byte, self.why)
    }
}

/// The bench input that says this, but for the pairs, which it has no place for. Every number must
/// fit its field.
pub fn to_bytes(script: &Script) -> Vec<u8> {
    debug_assert!(fits(script));
    let mut bytes = level_block_of(script);
    bytes.extend(plan_block_of(script));
    for pass in &script.passes {
        bytes.extend(pack_pass(*pass));
    }
    bytes
}

/// The list of pairs alone, as starting takes it. Every number must fit its byte.
pub fn to_pairs(script: &Script) -> Vec<u8> {
    debug_assert!(fits(script));
    pack_pairs(&script.pairs)
}

/// Reads a bench input, whether or not the dispatcher would take it. It says no pairs.
pub fn from_bytes(input: &[u8]) -> Result<Script, BytesError> {
    let parts = split(input);
    let speeds = unpack_levels(parts.levels)?;
    let tasks = unpack_block(parts.plan).map_err(|error| BytesError {
        byte: parts.levels.len() + error.byte,
        ..error
    })?;
    let pairs = parts.passes.chunks_exact(2);
    if !pairs.remainder().is_empty() {
        return Err(BytesError {
            byte: input.len() - 1,
            why: Why::OddByte,
        });
    }
    let passes = pairs.map(unpack_pass).collect();
    Ok(Script {
        speeds,
        tasks,
        passes,
        ..Script::default()
    })
}

/// The number that the bench program refuses the whole input with, if it does.
pub fn refusal(script: &Script) -> Option<u32> {
    if to_bytes(script).len() > LARGEST_INPUT {
        return Some(17);
    }
    match read_levels(&level_block_of(script)) {
        Ok(levels) => judge_list(&levels, &script.tasks).err(),
        Err(number) => Some(number),
    }
}

/// The number that starting refuses the plan and the pairs with, if it does: 22 is about the pairs, and
/// all else comes before it.
pub fn start_refusal(script: &Script) -> Option<u32> {
    let (levels, plan) = (level_block_of(script), plan_block_of(script));
    sim::pairs(&levels, &plan, &to_pairs(script)).err()
}

fn level_block_of(script: &Script) -> Vec<u8> {
    pack_levels(script.speeds.len() as u64, &script.speeds)
}

fn plan_block_of(script: &Script) -> Vec<u8> {
    let edition = Edition::of_tasks(&script.tasks);
    pack_block(edition, script.tasks.len() as u64, &script.tasks)
}

/// The two blocks, each as far as it is there, and what follows them.
#[derive(Clone, Copy, PartialEq, Eq, Debug)]
pub struct Parts<'a> {
    pub levels: &'a [u8],
    pub plan: &'a [u8],
    pub passes: &'a [u8],
}

/// Each block is cut by its own count, a bad one too; what the bench program would be given more of
/// then, it refuses for that count.
pub fn split(input: &[u8]) -> Parts<'_> {
    let length = level_count(input).map_or(0, level_block_bytes);
    let (levels, rest) = input.split_at(length.min(input.len()));
    let length = match head(rest) {
        Some((edition, count)) => block_bytes(edition, count),
        None => rest.len(),
    };
    let (plan, passes) = rest.split_at(length.min(rest.len()));
    Parts {
        levels,
        plan,
        passes,
    }
}

/// The first bit says finished, the other 15 are d.
pub fn unpack_pass(pair: &[u8]) -> Pass {
    let packed = u16::from_be_bytes([pair[0], pair[1]]);
    Pass {
        d: u32::from(packed & !FINISHED),
        finished: packed & FINISHED != 0,
    }
}

fn pack_pass(pass: Pass) -> [u8; 2] {
    let finished = if pass.finished { FINISHED } else { 0 };
    (finished | pass.d as u16).to_be_bytes()
}

fn fits(script: &Script) -> bool {
    let task_fits = |task: &Task| {
        task.period <= largest(PERIOD_BITS)
            && task.worst <= largest(WORST_BITS)
            && task.fixed <= largest(FIXED_BITS)
            && task.floor <= largest(FLOOR_BITS)
    };
    let speed_fits = |speed: &u64| *speed <= largest(level_block::SPEED_BITS);
    let number_fits = |number: usize| number as u64 <= largest(NUMBER_BITS);
    let pair_fits = |pair: &Pair| number_fits(pair.earlier) && number_fits(pair.later);
    script.speeds.len() as u64 <= largest(level_block::COUNT_BITS)
        && script.speeds.iter().all(speed_fits)
        && script.tasks.len() as u64 <= largest(COUNT_BITS)
        && script.tasks.iter().all(task_fits)
        && script.pairs.iter().all(pair_fits)
        && script
            .passes
            .iter()
            .all(|pass| u64::from(pass.d) <= largest(D_BITS))
}

/// `1 or 2`.
fn accepted_editions() -> String {
    let numbers: Vec<String> = Edition::ACCEPTED
        .iter()
        .map(|edition| edition.0.to_string())
        .collect();
    numbers.join(" or ")
}

/// Takes a level block apart, in the order of document 02's questions.
fn unpack_levels(block: &[u8]) -> Result<Vec<u64>, BytesError> {
    let at = |byte, why| Err(BytesError { byte, why });
    let length = block.len();
    let count = match level_count(block) {
        Some(count) => count,
        None => return at(0, Why::Empty),
    };
    let needed = level_block_bytes(count);
    if length < needed {
        return at(length, Why::CutLevels { count, needed });
    }
    let mut bits = Bits::unpack(block);
    bits.take(level_block::COUNT_BITS);
    let mut speeds = Vec::new();
    for _ in 0..count {
        speeds.push(bits.take(level_block::SPEED_BITS));
    }
    if !bits.all_zero() {
        return at(length - 1, Why::LevelClosingBits);
    }
    Ok(speeds)
}

/// Takes a plan block apart, in the order of document 01's questions.
fn unpack_block(block: &[u8]) -> Result<Vec<Task>, BytesError> {
    let at = |byte, why| Err(BytesError { byte, why });
    let length = block.len();
    if length < 2 {
        return at(length, Why::TooShort { length });
    }
    let mut bits = Bits::unpack(block);
    let (edition, count) = take_head(&mut bits);
    if !edition.is_accepted() {
        return at(0, Why::Edition(edition.0));
    }
    let needed = block_bytes(edition, count);
    if length < needed {
        return at(length, Why::CutBlock { count, needed });
    }
    let mut tasks = Vec::new();
    for _ in 0..count {
        tasks.push(edition.take_task(&mut bits));
    }
    if !bits.all_zero() {
        return at(length - 1, Why::ClosingBits);
    }
    // No text says these, as the writer gives such tasks the first edition.
    if edition != Edition::of_tasks(&tasks) {
        return at(0, Why::NoAddition);
    }
    Ok(tasks)
}
