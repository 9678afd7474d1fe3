//! Bits of floats for blocks: common ones, extreme ones, subnormal ones, and those of no number.

use crate::random::Random;

/// Where the exponent starts, and its highest number: that of infinities and of no number.
const NARROW: (u32, u64) = (23, 0xFF);
const WIDE: (u32, u64) = (52, 0x7FF);

/// A finite binary32.
pub fn finite(random: &mut Random) -> u32 {
    let one = 0x7F;
    let about_one = random.range(one - 30, one + 30) as u64;
    let any = random.range(0, 0xFE) as u64;
    // 0 is that of zero and the subnormal numbers, 0xFE that of the largest
    let exponent = random.pick(&[0, 0xFE, one as u64, about_one, any]);
    float(random, NARROW, exponent) as u32
}

/// A finite binary64.
pub fn finite_wide(random: &mut Random) -> u64 {
    let one = 0x3FF;
    let about_one = random.range(one - 50, one + 50) as u64;
    let any = random.range(0, 0x7FE) as u64;
    let exponent = random.pick(&[0, 0x7FE, one as u64, about_one, any]);
    float(random, WIDE, exponent)
}

/// An infinity, or a binary32 that is not a number.
pub fn not_finite(random: &mut Random) -> u32 {
    float(random, NARROW, NARROW.1) as u32
}

/// An infinity, or a binary64 that is not a number.
pub fn not_finite_wide(random: &mut Random) -> u64 {
    float(random, WIDE, WIDE.1)
}

/// The finite binary32 furthest from zero, of either sign.
pub fn largest(random: &mut Random) -> u32 {
    random.pick(&[f32::MAX, f32::MIN]).to_bits()
}

/// The finite binary64 furthest from zero, of either sign.
pub fn largest_wide(random: &mut Random) -> u64 {
    random.pick(&[f64::MAX, f64::MIN]).to_bits()
}

/// Bits with a given exponent, a random sign, and a fraction at an end of its range or anywhere.
fn float(random: &mut Random, (start, highest): (u32, u64), exponent: u64) -> u64 {
    let ones = (1 << start) - 1;
    let any = random.draw() & ones;
    let fraction = random.pick(&[0, 1, ones, 1 << (start - 1), any, any]);
    let sign = random.draw() & 1;
    ((sign * (highest + 1)) + exponent) << start | fraction
}
