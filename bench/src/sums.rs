//! What both sides do beside the work that is timed: they choose offsets, and fold their answers into
//! one number, so that nothing is left out and the two can be compared.

/// The tables' size, and the distance of ascending offsets, and the length that every mapping asks for.
pub const SIZE: u64 = 1 << 31;
pub const STEP: u64 = 4096;
pub const ASKED: u64 = 65_536;

/// The offset after an offset: further on, or drawn.
pub fn next(ascending: bool, offset: u64) -> u64 {
    if ascending { (offset + STEP) % SIZE } else { (offset * 1_103_515_245 + 12_345) % SIZE }
}

/// The sum with one more value in it: three times the sum, and the value.
pub fn fold(sum: u64, value: u64) -> u64 {
    sum.wrapping_mul(3).wrapping_add(value)
}
