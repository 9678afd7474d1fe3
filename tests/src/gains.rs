//! VERTICAL_GAINs for narrowing, as the bits of binary32: about 2^120, from which on 256 times a gain
//! is not finite; about 2^-134, from which on 256 times a subnormal one is a normal one; and of every
//! size between.

use crate::random::Random;

/// The bits of 2^120.
const TOO_HIGH: u32 = 0x7B80_0000;
/// The bits of 2^-134 and of 2^-126, the least that is not subnormal.
const SUBNORMAL_UP: u32 = 1 << 15;
const NORMAL: u32 = 1 << 23;
const SIGN: u32 = 1 << 31;

/// Bits without a sign at which something changes, and those beside them.
const NOTABLE: [u32; 16] = [
    0,
    1,
    2,
    SUBNORMAL_UP - 1,
    SUBNORMAL_UP,
    SUBNORMAL_UP + 1,
    NORMAL - 1,
    NORMAL,
    NORMAL + 1,
    0x3F80_0000, // 1
    TOO_HIGH - 1,
    TOO_HIGH,
    TOO_HIGH + 1,
    TOO_HIGH + NORMAL,
    0x7F00_0000, // 2^127
    0x7F7F_FFFF, // the greatest
];

/// Leading digits of subnormal numbers, and exponents of all others.
const LEADING: usize = 23;
const EXPONENTS: usize = 254;

/// In so many turns come the notable gains of both signs, and of any sign a subnormal one of each
/// leading digit and one of each exponent.
pub const TURNS: usize = 2 * NOTABLE.len() + LEADING + EXPONENTS;

/// The gain of a turn.
pub fn of_turn(turn: usize, random: &mut Random) -> u32 {
    let turn = turn % TURNS;
    if turn < 2 * NOTABLE.len() {
        return NOTABLE[turn / 2] | [0, SIGN][turn % 2];
    }
    let (sign, fraction) = (random.pick(&[0, SIGN]), random.draw() as u32);
    let bits = match turn - 2 * NOTABLE.len() {
        digit if digit < LEADING => (1 << digit) + fraction % (1 << digit),
        exponent => (1 + exponent - LEADING) as u32 * NORMAL + fraction % NORMAL,
    };
    sign | bits
}

/// The gain of a turn, or a 256th of one that is too high.
pub fn taken(turn: usize, random: &mut Random) -> u32 {
    let bits = of_turn(turn, random);
    if is_too_high(bits) {
        return bits - 8 * NORMAL;
    }
    bits
}

/// A gain for which 256 times itself is not finite.
pub fn too_high(random: &mut Random) -> u32 {
    let any = TOO_HIGH + random.below(8 * NORMAL as usize) as u32;
    let bits = random.pick(&[TOO_HIGH, TOO_HIGH, TOO_HIGH + 1, 0x7F7F_FFFF, any]);
    bits | random.pick(&[0, SIGN])
}

/// A gain of at most one unit in the last place beside 2^120.
pub fn about_too_high(random: &mut Random) -> u32 {
    random.pick(&[TOO_HIGH - 1, TOO_HIGH, TOO_HIGH + 1]) | random.pick(&[0, SIGN])
}

/// A subnormal gain of any leading digit.
pub fn subnormal(random: &mut Random) -> u32 {
    of_turn(2 * NOTABLE.len() + random.below(LEADING), random)
}

/// Whether 256 times a gain is beyond every finite number.
pub fn is_too_high(bits: u32) -> bool {
    bits & !SIGN >= TOO_HIGH
}

#[cfg(test)]
mod tests {
    use super::*;
    use std::collections::BTreeSet;

    /// The power of two at or below a gain's size.
    fn power(gain: f32) -> i64 {
        (f64::from(gain.abs()).to_bits() >> 52) as i64 - 1023
    }

    /// All are finite, and the limit by bits is 2^120.
    #[test]
    fn turns_have_gains_of_every_size() {
        let random = &mut Random::new(17, 0);
        let gains = (0..TURNS).map(|turn| f32::from_bits(of_turn(turn, random)));
        let gains: Vec<f32> = gains.collect();
        for gain in &gains {
            assert!(gain.is_finite());
            assert_eq!(is_too_high(gain.to_bits()), gain.abs() >= 2f32.powi(120), "{gain:e}");
        }
        let powers: BTreeSet<i64> =
            gains.iter().filter(|gain| **gain != 0.0).map(|gain| power(*gain)).collect();
        assert!(powers.into_iter().eq(-149..=127));
        for zero in [0f32, -0f32] {
            assert!(gains.iter().any(|gain| gain.to_bits() == zero.to_bits()));
        }
    }

    #[test]
    fn single_gains_are_of_their_kind() {
        let random = &mut Random::new(17, 1);
        for turn in 0..4 * TURNS {
            assert!(!is_too_high(taken(turn, random)));
            let [high, about] = [too_high(random), about_too_high(random)].map(f32::from_bits);
            assert!(high.is_finite() && high.abs() >= 2f32.powi(120));
            assert!((about.abs() / 2f32.powi(120) - 1.0).abs() <= f32::EPSILON);
            assert!(f32::from_bits(subnormal(random)).is_subnormal());
        }
    }
}
