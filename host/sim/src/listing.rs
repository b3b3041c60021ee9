//! 01, "The bench program", and 02, No. 1: its whole output for a given standard input, which is a
//! level block, a plan block and passes, without gaps.

use crate::bits::Bits;
use crate::block::{block_bytes, head};
use crate::clock::clock_after;
use crate::dispatch::{pass, start, Order};
use crate::layout::STATE_BYTES;
use crate::level_block::{bytes_for_levels, read_levels};
use crate::levels::Levels;
use crate::plan::{count_in_range, read_plan};

const LARGEST_INPUT: usize = 65_536;

/// Every line ends with a newline, the last one too.
pub fn listing(input: &[u8]) -> Vec<u8> {
    lines(input)
        .into_iter()
        .map(|line| line + "\n")
        .collect::<String>()
        .into_bytes()
}

fn lines(input: &[u8]) -> Vec<String> {
    // "The bench program asks before all: is the input at most 65,536 bytes? 17."
    if input.len() > LARGEST_INPUT {
        return vec![refused(17)];
    }
    // "In the bench input it precedes the plan, is cut by its count too, and ends the run if
    // refused."
    let (level_block, rest) = input.split_at(bytes_for_levels(input));
    match read_levels(level_block) {
        Ok(levels) => lines_with(&levels, rest),
        Err(number) => vec![refused(number)],
    }
}

/// The lines of what follows the level block.
fn lines_with(levels: &Levels, rest: &[u8]) -> Vec<String> {
    let (block, passes) = rest.split_at(bytes_for_the_reader(rest));
    // "If the reading is refused, the bench program prints that line and ends."
    let (tasks, judged) = match read_plan(levels, block) {
        Ok(read) => read,
        Err(number) => return vec![refused(number)],
    };
    let mut state = [0; STATE_BYTES];
    // 02, No. 5, of the list of pairs: "the bench program's is empty".
    let first = match start(levels, block, &[], &mut state) {
        Ok(order) => order_line(0, order),
        Err(number) => return vec![refused(number)],
    };
    let (nominal, hyperperiod) = (judged.nominal, judged.hyperperiod);
    let plan = format!("plan {} {nominal} {hyperperiod}", tasks.len());
    let mut lines = vec![plan, first];
    add_passes(passes, &mut state, &mut lines);
    lines
}

/// The lines of the passes, from the state of a start on.
fn add_passes(passes: &[u8], state: &mut [u8], lines: &mut Vec<String>) {
    let mut clock = 0;
    let mut pairs = passes.chunks_exact(2);
    for pair in &mut pairs {
        let (finished, d) = unpack_pass(pair);
        // "A refused pass prints its line and the next is read."
        match pass(state, d, finished) {
            Ok(order) => {
                clock = clock_after(clock, u64::from(d));
                lines.push(order_line(clock, order));
            }
            Err(number) => lines.push(refused(number)),
        }
    }
    // "At the end: is no odd byte left? 16."
    if !pairs.remainder().is_empty() {
        lines.push(refused(16));
    }
}

/// "The reader is given as many bytes as the count needs, or all there are if fewer, or if the
/// count is bad." Below two bytes there is no count to see, and the reader gets all there are. 02,
/// No. 2: "The bench cuts by edition too." Another edition than 1 or 2 is cut as 1: whatever the
/// reader is given of it, it refuses it with 2.
fn bytes_for_the_reader(rest: &[u8]) -> usize {
    match head(rest) {
        Some((edition, count)) if count_in_range(count) => {
            block_bytes(edition, count).min(rest.len())
        }
        _ => rest.len(),
    }
}

/// "two bytes each (1 bit finished, 15 bits d)"
fn unpack_pass(pair: &[u8]) -> (bool, u32) {
    let mut bits = Bits::unpack(pair);
    let finished = bits.take(1) == 1;
    let d = bits.take(15) as u32;
    (finished, d)
}

/// "clock, then run, task, level, hold; or idle, hold"
fn order_line(clock: u64, order: Order) -> String {
    match order {
        Order::Run { task, level, hold } => format!("{clock} run {task} {level} {hold}"),
        Order::Idle { hold } => format!("{clock} idle {hold}"),
    }
}

/// "A refusal's line is "refused" and the number."
fn refused(number: u32) -> String {
    format!("refused {number}")
}
