//! Levels, as the bits of binary64: at the values of samples and beside them, between them, at the
//! ends of the range, and those of no number.

use super::scales::Scale;
use crate::floats;
use crate::law::points::sample;
use crate::law::rules::open;
use crate::random::Random;

/// The least subnormal number, and the greatest that is subnormal.
const LEAST: f64 = f64::from_bits(1);
const SUBNORMAL: f64 = f64::from_bits((1 << 52) - 1);

/// Levels at which something changes: every value stands between the outer ones.
const ENDS: [f64; 14] = [
    f64::MAX,
    f64::MIN,
    f32::MAX as f64,
    f32::MIN as f64,
    f64::MIN_POSITIVE,
    -f64::MIN_POSITIVE,
    SUBNORMAL,
    -SUBNORMAL,
    LEAST,
    -LEAST,
    0.0,
    -0.0,
    0.0,
    -0.0,
];

/// How many doubles stand between two neighbours of binary32, at most.
const WITHIN_FLOAT: usize = 1 << 29;

/// A level about the value of a sample, of any other kind, or of no number.
pub fn any(scale: &Scale, sample: i64, random: &mut Random) -> u64 {
    match random.below(12) {
        0 => floats::not_finite_wide(random),
        1 => floats::finite_wide(random),
        _ => finite(scale, sample, random).to_bits(),
    }
}

/// A finite level, most often about the value of a sample.
pub fn finite(scale: &Scale, sample: i64, random: &mut Random) -> f64 {
    match random.below(8) {
        0 => random.pick(&ENDS),
        _ => about(scale, sample, random),
    }
}

/// A level at a value, one unit in the last place beside it, between it and the next, or as near to
/// it as binary32 does not tell. Each is a finite one, since no value is beyond 2^144.
pub fn about(scale: &Scale, sample: i64, random: &mut Random) -> f64 {
    let value = scale.value(sample);
    let next = scale.value(sample + random.pick(&[-1, 1]));
    let nearby = 1 + random.below(WITHIN_FLOAT) as u64;
    match random.below(10) {
        // As IEEE compares, a value of either zero is at both.
        0..=2 if value == 0.0 => random.pick(&[0.0, -0.0]),
        0..=2 => value,
        3 => value.next_up(),
        4 => value.next_down(),
        5 => value / 2.0 + next / 2.0,
        6 => f64::from_bits(value.abs().to_bits() + nearby).copysign(value),
        7 => f64::from_bits(value.abs().to_bits().saturating_sub(nearby)).copysign(value),
        8 => -value,
        _ => in_float(value),
    }
}

/// The value rounded to binary32, or as it is where that is beyond it.
fn in_float(value: f64) -> f64 {
    let rounded = value as f32;
    if rounded.is_finite() {
        return f64::from(rounded);
    }
    value
}

/// A level for a segment of a block: about the value of one of its points, or of any point where
/// there is no such segment.
pub fn of_block(block: &[u8], array: u32, segment: u32, random: &mut Random) -> u64 {
    let Ok(opened) = open(block) else {
        let levels = [floats::finite_wide(random), floats::not_finite_wide(random)];
        return random.pick(&levels);
    };
    let scale = Scale { gain: opened.gain, offset: opened.offset };
    let array = i64::from(array).clamp(1, opened.arrays.len() as i64);
    let segment = i64::from(segment).clamp(1, opened.segments);
    let k = random.range(0, opened.points - 1);
    any(&scale, sample(&opened, array, segment, k), random)
}

#[cfg(test)]
mod tests {
    use super::*;
    use crate::shape::Shape;

    const QUIET: u64 = 1 << 51;

    #[test]
    fn levels_are_of_every_kind() {
        let random = &mut Random::new(22, 0);
        let scale = Scale { gain: 0.1, offset: 1e-9 };
        let value = scale.value(7);
        let levels: Vec<f64> = (0..4000).map(|_| f64::from_bits(any(&scale, 7, random))).collect();
        let some = |has: &dyn Fn(f64) -> bool| levels.iter().any(|level| has(*level));
        for level in ENDS {
            assert!(some(&|l| l.to_bits() == level.to_bits()), "{level:e}");
        }
        for level in [value, value.next_up(), value.next_down(), f64::from(value as f32)] {
            assert!(some(&|l| l == level), "{level:e}");
        }
        assert!(some(&|l| l > scale.value(7) && l < scale.value(8) && l as f32 != value as f32));
        assert!(some(&|l| l > value.next_up() && l as f32 == value as f32));
        for negative in [false, true] {
            let some =
                |has: &dyn Fn(f64) -> bool| some(&|l| l.is_sign_negative() == negative && has(l));
            assert!(some(&|l| l.is_infinite()));
            assert!(some(&|l| l.is_nan() && l.to_bits() & QUIET != 0));
            assert!(some(&|l| l.is_nan() && l.to_bits() & QUIET == 0));
        }
    }

    #[test]
    fn levels_about_values_are_finite() {
        let random = &mut Random::new(22, 1);
        for _ in 0..20_000 {
            let scale = Scale::any(random);
            let sample = random.pick(&[-32_768, -128, -1, 0, 1, 127, 32_767]);
            assert!(finite(&scale, sample, random).is_finite());
        }
    }

    #[test]
    fn every_block_has_levels() {
        for case in 0..200 {
            let random = &mut Random::new(22, 2 + case);
            let block = Shape::any(random).draft(random).bytes();
            for (array, segment) in [(0, 0), (1, 1), (2, u32::MAX), (u32::MAX, 2)] {
                of_block(&block, array, segment, random);
                of_block(&block[1..], array, segment, random);
            }
        }
    }
}
