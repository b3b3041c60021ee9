//! 01, Blocks, and 02, No. 2 and No. 8: the plan block in its two editions. This file knows which bits
//! are which, and asks nothing of what they say.

use crate::bits::Bits;
use crate::numbers::div_ceil;
use crate::plan::Task;

/// "A plan block is 4 bits of edition (value 1), 5 bits of count, then for each task 16 bits of
/// period and 20 of worst case".
pub const EDITION_BITS: usize = 4;
pub const COUNT_BITS: usize = 5;
pub const PERIOD_BITS: usize = 16;
pub const WORST_BITS: usize = 20;

/// 02, No. 2: "Plan edition 2 adds, after each worst case, 8 bits of fixed ticks (0 to 255) and 3
/// spare zero bits". No. 8: "A task gets a floor, in the three spare bits of edition 2".
pub const FIXED_BITS: usize = 8;
pub const FLOOR_BITS: usize = 3;

/// What stands in front of the tasks, whatever the edition.
pub const HEAD_BITS: usize = EDITION_BITS + COUNT_BITS;

/// The number in the first bits of a plan block. It says what the block has of each task.
#[derive(Clone, Copy, PartialEq, Eq, Debug)]
pub struct Edition(pub u64);

impl Edition {
    pub const FIRST: Edition = Edition(1);
    pub const SECOND: Edition = Edition(2);

    /// Those to which question 2 says yes.
    pub const ACCEPTED: [Edition; 2] = [Edition::FIRST, Edition::SECOND];

    pub fn is_accepted(self) -> bool {
        Edition::ACCEPTED.contains(&self)
    }

    /// The edition that the writer gives to a plan of these tasks: it "uses edition 1 where all are
    /// zero". 02, No. 8: "A floor counts as an addition for 21 and for the writer's choice of edition."
    pub fn of_tasks(tasks: &[Task]) -> Edition {
        if tasks.iter().any(Task::has_addition) {
            Edition::SECOND
        } else {
            Edition::FIRST
        }
    }

    /// Whether its tasks have bits for fixed ticks and, behind these, for a floor.
    pub fn has_additions(self) -> bool {
        self == Edition::SECOND
    }

    /// How many bits a task has. Of an edition that isn't accepted no task is ever read; it has the
    /// first edition's, so that such a block can be made and cut.
    pub fn task_bits(self) -> usize {
        let additions = if self.has_additions() {
            FIXED_BITS + FLOOR_BITS
        } else {
            0
        };
        PERIOD_BITS + WORST_BITS + additions
    }

    /// Takes a task away from the front of the bits. "Edition 1 means no fixed ticks", and no floor
    /// either.
    pub fn take_task(self, bits: &mut Bits) -> Task {
        let period = bits.take(PERIOD_BITS);
        let worst = bits.take(WORST_BITS);
        let (fixed, floor) = if self.has_additions() {
            (bits.take(FIXED_BITS), bits.take(FLOOR_BITS))
        } else {
            (0, 0)
        };
        Task {
            period,
            worst,
            fixed,
            floor,
        }
    }

    fn put_task(self, bits: &mut Bits, task: &Task) {
        bits.put(task.period, PERIOD_BITS);
        bits.put(task.worst, WORST_BITS);
        if self.has_additions() {
            bits.put(task.fixed, FIXED_BITS);
            bits.put(task.floor, FLOOR_BITS);
        }
    }
}

/// How many bytes the plan block of so many tasks has, after "zero bits to a whole byte".
pub fn block_bytes(edition: Edition, count: u64) -> usize {
    let bits = HEAD_BITS as u64 + edition.task_bits() as u64 * count;
    div_ceil(bits, 8) as usize
}

/// Takes the edition and the count away from the front of a block's bits.
pub fn take_head(bits: &mut Bits) -> (Edition, u64) {
    let edition = Edition(bits.take(EDITION_BITS));
    let count = bits.take(COUNT_BITS);
    (edition, count)
}

/// The edition and the count of a block, or nothing if it is too short to have both.
pub fn head(block: &[u8]) -> Option<(Edition, u64)> {
    let front = block.get(..div_ceil(HEAD_BITS as u64, 8) as usize)?;
    Some(take_head(&mut Bits::unpack(front)))
}

/// A plan block with whatever is in the fields. Only the lowest bits that fit a field get into it,
/// and no fixed ticks and no floor into an edition that has no fields for them.
pub fn pack_block(edition: Edition, count: u64, tasks: &[Task]) -> Vec<u8> {
    let mut bits = Bits::empty();
    bits.put(edition.0, EDITION_BITS);
    bits.put(count, COUNT_BITS);
    for task in tasks {
        edition.put_task(&mut bits, task);
    }
    bits.pack()
}
