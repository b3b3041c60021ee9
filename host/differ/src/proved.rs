//! The calls on level blocks, plans and angles that the proved library has for C, with slices and
//! numbers in and results out.
//!
//! In C a slice is a pointer, then a length in elements. Each call on a plan takes a level block
//! first; the one on an angle takes nothing else.

extern "C" {
    fn kilmstra_levels_read(levels: *const u8, levels_len: usize) -> u64;

    fn kilmstra_plan_judge(
        levels: *const u8,
        levels_len: usize,
        count: usize,
        numbers: *const u32,
        numbers_len: usize,
    ) -> u64;

    fn kilmstra_plan_read(
        levels: *const u8,
        levels_len: usize,
        block: *const u8,
        block_len: usize,
    ) -> u64;

    fn kilmstra_plan_write(
        levels: *const u8,
        levels_len: usize,
        count: usize,
        numbers: *const u32,
        numbers_len: usize,
        buffer: *mut u8,
        buffer_len: usize,
    ) -> u64;

    fn kilmstra_plan_copy(
        levels: *const u8,
        levels_len: usize,
        block: *const u8,
        block_len: usize,
        buffer: *mut u8,
        buffer_len: usize,
    ) -> u64;

    fn kilmstra_pairs(
        levels: *const u8,
        levels_len: usize,
        block: *const u8,
        block_len: usize,
        pairs: *const u8,
        pairs_len: usize,
    ) -> u64;

    fn kilmstra_damping(angle: i32) -> u64;
}

/// What judging and reading say of an accepted plan.
#[derive(Clone, Copy, PartialEq, Eq, Debug)]
pub struct Judged {
    pub level: u64,
    pub hyperperiod: u64,
}

/// Reads a level block, and says how many levels it has.
pub fn read_levels(levels: &[u8]) -> Result<u64, u32> {
    // SAFETY: pointer and length are those of a slice, which the call only reads.
    let answer = unsafe { kilmstra_levels_read(levels.as_ptr(), levels.len()) };
    unpacked(answer)
}

/// Judges the plan of so many tasks. Its numbers are a period, a worst case, fixed ticks and a floor for
/// each task; the ones that are not there are 0.
pub fn judge(levels: &[u8], count: usize, numbers: &[u32]) -> Result<Judged, u32> {
    // SAFETY: pointers and lengths are those of two slices, which the call only reads.
    let answer = unsafe {
        kilmstra_plan_judge(
            levels.as_ptr(),
            levels.len(),
            count,
            numbers.as_ptr(),
            numbers.len(),
        )
    };
    judged(answer)
}

/// Reads a plan block.
pub fn read(levels: &[u8], block: &[u8]) -> Result<Judged, u32> {
    // SAFETY: pointers and lengths are those of two slices, which the call only reads.
    let answer =
        unsafe { kilmstra_plan_read(levels.as_ptr(), levels.len(), block.as_ptr(), block.len()) };
    judged(answer)
}

/// Writes the block of a plan, given as for judging, and says how many bytes it has.
pub fn write(levels: &[u8], count: usize, numbers: &[u32], buffer: &mut [u8]) -> Result<u64, u32> {
    // SAFETY: pointers and lengths are those of three slices that don't overlap; the call reads the
    // first two and writes within the third.
    let answer = unsafe {
        kilmstra_plan_write(
            levels.as_ptr(),
            levels.len(),
            count,
            numbers.as_ptr(),
            numbers.len(),
            buffer.as_mut_ptr(),
            buffer.len(),
        )
    };
    unpacked(answer)
}

/// Reads a plan block, writes its plan again, and says how many bytes were written.
pub fn copy(levels: &[u8], block: &[u8], buffer: &mut [u8]) -> Result<u64, u32> {
    // SAFETY: pointers and lengths are those of three slices that don't overlap; the call reads the
    // first two and writes within the third.
    let answer = unsafe {
        kilmstra_plan_copy(
            levels.as_ptr(),
            levels.len(),
            block.as_ptr(),
            block.len(),
            buffer.as_mut_ptr(),
            buffer.len(),
        )
    };
    unpacked(answer)
}

/// Reads a plan block and the list of pairs that is to come with it at starting, and says how many
/// pairs there are.
pub fn pairs(levels: &[u8], block: &[u8], pairs: &[u8]) -> Result<u64, u32> {
    // SAFETY: pointers and lengths are those of three slices, which the call only reads.
    let answer = unsafe {
        kilmstra_pairs(
            levels.as_ptr(),
            levels.len(),
            block.as_ptr(),
            block.len(),
            pairs.as_ptr(),
            pairs.len(),
        )
    };
    unpacked(answer)
}

/// The damping for an angle in tenths of a degree.
pub fn damping(angle: i32) -> Result<u64, u32> {
    // SAFETY: a number goes in and one comes out.
    let answer = unsafe { kilmstra_damping(angle) };
    unpacked(answer)
}

/// A level in the second byte, and a hyperperiod in all above it.
fn judged(answer: u64) -> Result<Judged, u32> {
    unpacked(answer).map(|rest| Judged {
        level: rest % 256,
        hyperperiod: rest / 256,
    })
}

/// A refusal has its number in the lowest byte and nothing else; any other answer has 0 there.
pub(crate) fn unpacked(answer: u64) -> Result<u64, u32> {
    match answer % 256 {
        0 => Ok(answer / 256),
        _ => Err(u32::try_from(answer).expect("a refusal is its number alone")),
    }
}

#[cfg(test)]
mod tests {
    use super::*;

    /// Would catch a decoder that drops a part of an answer, so that a wrong one looks right.
    #[test]
    fn every_bit_of_an_answer_counts() {
        assert_eq!(unpacked(9), Err(9));
        assert_eq!(unpacked(256 + 9), Err(265));
        assert_eq!(unpacked(256 * 96), Ok(96));
        assert_eq!(unpacked(0), Ok(0));
        assert_eq!(unpacked(1 << 63), Ok(1 << 55));
        assert_eq!(judged(3), Err(3));
        let last = Judged {
            level: 7,
            hyperperiod: 1_000_000,
        };
        assert_eq!(judged(256 * 7 + 65_536 * 1_000_000), Ok(last));
    }
}
