//! Gains and offsets for crossings: gains of every size and sign, and offsets that meet a product,
//! that round it, or that swamp it, so that many samples share one value.

use crate::draft::Draft;
use crate::floats;
use crate::gains;
use crate::law::descriptor::{VERTICAL_GAIN, VERTICAL_OFFSET};
use crate::law::numbers::read_float;
use crate::random::Random;

/// How many powers of two an offset is above its gain: from 30 on differences are rounded, and from
/// 54 on neighbouring samples have one value.
const ABOVE_GAIN: (i64, i64) = (25, 75);

#[derive(Clone, Copy, Debug)]
pub struct Scale {
    pub gain: f32,
    pub offset: f32,
}

impl Scale {
    pub fn any(random: &mut Random) -> Scale {
        let gain = any_gain(random);
        Scale::with_gain(gain, random)
    }

    /// A gain with an offset of any kind.
    pub fn with_gain(gain: f32, random: &mut Random) -> Scale {
        let sample = random.pick(&[1, -1, 2, 127, -128, 32_767, -32_768]) as f32;
        let power = random.range(ABOVE_GAIN.0, ABOVE_GAIN.1) as i32;
        let part = 1.0 + random.below(1 << 23) as f32 / (1 << 23) as f32;
        let any = f32::from_bits(floats::finite(random));
        let offset = match random.below(8) {
            0 | 1 => random.pick(&[0.0, -0.0]),
            2 => gain,
            3 => gain * sample,
            4 => gain * 2f32.powi(power),
            5 => gain * part * 2f32.powi(power),
            6 => -gain * part * 2f32.powi(power),
            _ => any,
        };
        Scale { gain, offset: if offset.is_finite() { offset } else { any } }
    }

    /// The scale of a draft.
    pub fn of(draft: &Draft) -> Scale {
        let float = |at: usize| read_float(&draft.head[at..at + 4], draft.order);
        Scale { gain: float(VERTICAL_GAIN), offset: float(VERTICAL_OFFSET) }
    }

    pub fn set(&self, draft: &mut Draft) {
        draft.set_float(VERTICAL_GAIN, self.gain.to_bits());
        draft.set_float(VERTICAL_OFFSET, self.offset.to_bits());
    }

    /// The value that levels are drawn about.
    pub fn value(&self, sample: i64) -> f64 {
        f64::from(self.gain) * sample as f64 - f64::from(self.offset)
    }
}

fn any_gain(random: &mut Random) -> f32 {
    let common = f32::from_bits(floats::finite(random));
    let sized = f32::from_bits(gains::of_turn(random.below(gains::TURNS), random));
    let subnormal = f32::from_bits(gains::subnormal(random));
    let plain = random.pick(&[1.0, -1.0, 0.5, -0.25]);
    let end = random.pick(&[0.0, -0.0, f32::MAX, f32::MIN]);
    random.pick(&[common, common, sized, sized, subnormal, plain, end])
}

#[cfg(test)]
mod tests {
    use super::*;

    /// The exact difference less the rounded one, by Knuth's sum of two.
    fn rounded_away(scale: &Scale, sample: i64) -> f64 {
        let (product, offset) = (f64::from(scale.gain) * sample as f64, f64::from(scale.offset));
        let value = product - offset;
        let part = value - product;
        (product - (value - part)) + (-offset - part)
    }

    #[test]
    fn scales_are_of_every_kind() {
        let random = &mut Random::new(21, 0);
        let scales: Vec<Scale> = (0..3000).map(|_| Scale::any(random)).collect();
        assert!(scales.iter().all(|s| s.gain.is_finite() && s.offset.is_finite()));
        let some = |has: &dyn Fn(&Scale) -> bool| scales.iter().any(has);
        for gain in [0.0f32, -0.0, f32::MAX, f32::MIN] {
            assert!(some(&|s| s.gain.to_bits() == gain.to_bits()), "gain {gain:e}");
        }
        assert!(some(&|s| s.gain.is_subnormal() && s.gain > 0.0));
        assert!(some(&|s| s.gain.is_subnormal() && s.gain < 0.0));
        for rising in [true, false] {
            let some = |has: &dyn Fn(&Scale) -> bool| {
                some(&|s| s.gain != 0.0 && (s.gain > 0.0) == rising && has(s))
            };
            assert!(some(&|s| s.value(1) == 0.0) && some(&|s| s.value(-128) == 0.0));
            assert!(some(&|s| s.value(0) == s.value(1) && s.value(0) != s.value(32_767)));
            assert!(some(&|s| s.value(-32_768) == s.value(32_767)));
            assert!(some(&|s| s.value(0) != s.value(1) && rounded_away(s, 12_345) != 0.0));
        }
    }
}
