//! The clock of the state block and of the listing.

/// "The largest clock is 4,000,000,000 ticks."
pub const LARGEST_CLOCK: u64 = 4_000_000_000;

/// "the clock moves": where it stands after d ticks more.
pub fn clock_after(clock: u64, d: u64) -> u64 {
    clock + d
}
