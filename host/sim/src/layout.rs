//! 01, Blocks, and 02, No. 1, No. 2, No. 6 and No. 8: where each number of the state block stands.
//! Nothing else in the simulator knows a place or a length of it.

use std::ops::Range;

/// So many bytes from a place on. In an entry the places are the entry's own, else the block's.
#[derive(Clone, Copy, PartialEq, Eq, Debug)]
pub struct Field {
    pub at: usize,
    pub bytes: usize,
}

const fn field(at: usize, bytes: usize) -> Field {
    Field { at, bytes }
}

/// "clock (4 bytes), task of the order (1; 255 for idle), level (1; 0 for idle), count (1), a zero
/// byte".
pub const CLOCK: Field = field(0, 4);
pub const TASK: Field = field(4, 1);
pub const LEVEL: Field = field(5, 1);
pub const COUNT: Field = field(6, 1);
pub const HEAD_ZERO: Field = field(7, 1);
pub const HEAD_BYTES: usize = 8;

/// "period (2), worst case (3), work left (3; 0 once finished), plain ticks left (2), two zero
/// bytes"; 02, No. 2: "the two zero bytes become fixed ticks and fixed ticks left". No. 8: a floor "in
/// the top four bits of the worst case's three bytes", so that these are one field of two numbers.
pub const PERIOD: Field = field(0, 2);
pub const FLOOR_AND_WORST: Field = field(2, 3);
pub const WORK_LEFT: Field = field(5, 3);
pub const PLAIN_LEFT: Field = field(8, 2);
pub const FIXED: Field = field(10, 1);
pub const FIXED_LEFT: Field = field(11, 1);
pub const ENTRY_BYTES: usize = 12;

/// What the floor counts in that field: the worst case has the bits below it, 20 of them, which its
/// range fills.
const FLOOR_UNIT: u64 = 1 << 20;
/// A floor of four bits is below this.
const FLOORS: u64 = 1 << 4;
const _: () = assert!(FLOOR_UNIT * FLOORS == 1 << (8 * FLOOR_AND_WORST.bytes));

/// "a block of 200 bytes ... sixteen entries of 12 bytes".
pub const ENTRIES: usize = 16;
pub const ENTRIES_END: usize = 200;
const _: () = assert!(ENTRIES_END == HEAD_BYTES + ENTRIES * ENTRY_BYTES);

/// 02, No. 1: "The state block grows to 217 bytes: at its end the count and eight speeds of two
/// bytes". They stood at its end then.
pub const LEVEL_COUNT: Field = field(200, 1);
pub const SPEEDS: usize = 8;
pub const SPEED_BYTES: usize = 2;
pub const SPEEDS_END: usize = 217;
const _: () = assert!(LEVEL_COUNT.at == ENTRIES_END);
const _: () = assert!(SPEEDS_END == speed_of(SPEEDS).at);

/// 02, No. 6: "Keep the total in the state block, as four bytes at its end (221 bytes)".
pub const TOTAL: Field = field(217, 4);
pub const STATE_BYTES: usize = 221;
const _: () = assert!(TOTAL.at == SPEEDS_END);
const _: () = assert!(STATE_BYTES == TOTAL.at + TOTAL.bytes);

/// What stands for the task in an idle order.
pub const IDLE: u64 = 255;

/// Where the entry of a task begins; for the count of tasks, where the entries in use end.
pub const fn entry_at(task: usize) -> usize {
    HEAD_BYTES + ENTRY_BYTES * task
}

/// The speed of a level; for the number of speeds, the place where they end.
pub const fn speed_of(level: usize) -> Field {
    let first = LEVEL_COUNT.at + LEVEL_COUNT.bytes;
    field(first + SPEED_BYTES * level, SPEED_BYTES)
}

/// A field of an entry as one of the block.
pub const fn of_task(task: usize, part: Field) -> Field {
    field(entry_at(task) + part.at, part.bytes)
}

/// The floor that stands in the entry of a task.
pub fn floor_in(block: &[u8], task: usize) -> u64 {
    of_task(task, FLOOR_AND_WORST).get(block) / FLOOR_UNIT
}

/// The worst case that stands there.
pub fn worst_in(block: &[u8], task: usize) -> u64 {
    of_task(task, FLOOR_AND_WORST).get(block) % FLOOR_UNIT
}

/// Puts the lowest four bits of a number as the floor, and leaves the worst case.
pub fn put_floor(block: &mut [u8], task: usize, floor: u64) {
    let both = floor % FLOORS * FLOOR_UNIT + worst_in(block, task);
    of_task(task, FLOOR_AND_WORST).put(block, both);
}

/// Puts the lowest 20 bits of a number as the worst case, and leaves the floor.
pub fn put_worst(block: &mut [u8], task: usize, worst: u64) {
    let both = floor_in(block, task) * FLOOR_UNIT + worst % FLOOR_UNIT;
    of_task(task, FLOOR_AND_WORST).put(block, both);
}

impl Field {
    pub fn range(self) -> Range<usize> {
        self.at..self.at + self.bytes
    }

    /// "Numbers have their most significant byte first".
    pub fn get(self, block: &[u8]) -> u64 {
        let mut number = 0;
        for byte in &block[self.range()] {
            number = 256 * number + u64::from(*byte);
        }
        number
    }

    /// Puts the lowest bytes of a number, as many as the field has.
    pub fn put(self, block: &mut [u8], number: u64) {
        let mut rest = number;
        for byte in block[self.range()].iter_mut().rev() {
            *byte = (rest % 256) as u8;
            rest /= 256;
        }
    }
}
