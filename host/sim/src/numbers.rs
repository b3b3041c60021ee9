//! What is needed of arithmetic in more than one place.

/// A quotient rounded up.
pub fn div_ceil(number: u64, by: u64) -> u64 {
    number / by + u64::from(number % by > 0)
}
