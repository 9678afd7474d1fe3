//! The samples of one segment: those below a level and those at or above it, put where the first of
//! the others is known.

use super::levels;
use super::scales::Scale;
use crate::law::numbers::{read_signed, store, Order};
use crate::random::Random;
use crate::samples::rail;

/// Samples of one type by where their values stand: below a level, or at or above it.
pub struct Sides {
    pub scale: Scale,
    pub level: f64,
    below: Vec<i64>,
    there: Vec<i64>,
}

/// The samples of a segment, and the first of its points at or above the level.
pub struct Row {
    pub samples: Vec<i64>,
    pub first: Option<usize>,
}

impl Sides {
    /// A scale and a level about a sample's value, with samples on both sides.
    pub fn any(width: usize, random: &mut Random) -> Sides {
        loop {
            let (scale, pivot) = (Scale::any(random), pivot(width, random));
            let level = levels::about(&scale, pivot, random);
            let is_below = |sample: &i64| scale.value(*sample) < level;
            let (below, there): (Vec<i64>, Vec<i64>) =
                candidates(width, pivot, random).into_iter().partition(is_below);
            if !below.is_empty() && !there.is_empty() {
                return Sides { scale, level, below, there };
            }
        }
    }

    /// So many points of which the one at a place is the first at the level. Behind it stand samples
    /// of one side or of both.
    pub fn first_at(&self, points: usize, place: usize, random: &mut Random) -> Row {
        let mut samples = drawn(&self.below, points, random);
        let both = [&self.below[..], &self.there].concat();
        let behind = [&self.below, &self.there, &both][random.below(3)];
        let rest = drawn(behind, points - place, random);
        samples[place..].copy_from_slice(&rest);
        samples[place] = random.pick(&self.there);
        Row { samples, first: Some(place) }
    }

    pub fn none(&self, points: usize, random: &mut Random) -> Row {
        Row { samples: drawn(&self.below, points, random), first: None }
    }

    pub fn all(&self, points: usize, random: &mut Random) -> Row {
        Row { samples: drawn(&self.there, points, random), first: Some(0) }
    }
}

/// A sample that a level is drawn about: often an end of its type or next to one.
fn pivot(width: usize, random: &mut Random) -> i64 {
    let [lowest, highest] = rail(width);
    let any = random.range(lowest, highest);
    random.pick(&[lowest, highest, lowest + 1, highest - 1, -1, 0, 1, any, any, any])
}

/// Samples at the ends of their type, about the pivot, and any; of words also those with the bytes
/// of these in the other order.
fn candidates(width: usize, pivot: i64, random: &mut Random) -> Vec<i64> {
    let [lowest, highest] = rail(width);
    let mut samples = vec![lowest, highest, lowest + 1, highest - 1, -1, 0, 1];
    samples.extend((pivot - 2..=pivot + 2).filter(|sample| (lowest..=highest).contains(sample)));
    samples.extend((0..4).map(|_| random.range(lowest, highest)));
    let turned: Vec<i64> = samples.iter().map(|sample| turned(*sample, width)).collect();
    samples.extend(turned);
    samples
}

/// The sample that a reader of the other byte order takes it for.
fn turned(sample: i64, width: usize) -> i64 {
    let mut bytes = [0; 2];
    store(&mut bytes[..width], Order::HiFirst, sample as u64);
    read_signed(&bytes[..width], Order::LoFirst)
}

/// So many of the samples, each any of them or all the same.
fn drawn(samples: &[i64], points: usize, random: &mut Random) -> Vec<i64> {
    if random.once_in(2) {
        return vec![random.pick(samples); points];
    }
    (0..points).map(|_| random.pick(samples)).collect()
}

#[cfg(test)]
mod tests {
    use super::*;

    fn value_at(sides: &Sides, row: &Row, k: usize) -> f64 {
        sides.scale.value(row.samples[k])
    }

    #[test]
    fn rows_cross_where_they_say() {
        for case in 0..2000 {
            let random = &mut Random::new(23, case);
            let sides = Sides::any(1 + case as usize % 2, random);
            let place = random.below(20);
            let row = sides.first_at(20, place, random);
            assert!((0..place).all(|k| value_at(&sides, &row, k) < sides.level));
            assert!(value_at(&sides, &row, place) >= sides.level);
            let (none, all) = (sides.none(20, random), sides.all(20, random));
            assert!((0..20).all(|k| value_at(&sides, &none, k) < sides.level));
            assert!((0..20).all(|k| value_at(&sides, &all, k) >= sides.level));
        }
    }

    /// Of each type the highest or the lowest sample is the only one there; of words some are on the
    /// other side in the other byte order, with rising and with falling gains.
    #[test]
    fn sides_are_of_every_kind() {
        for width in [1, 2] {
            let random = &mut Random::new(24, width as u64);
            let drawn: Vec<Sides> = (0..4000).map(|_| Sides::any(width, random)).collect();
            let some = |has: &dyn Fn(&Sides) -> bool| drawn.iter().any(has);
            let [lowest, highest] = rail(width);
            let only = |s: &Sides, end: i64| s.there.iter().all(|sample| *sample == end);
            assert!(some(&|s| only(s, highest) && s.scale.value(highest) == s.level));
            assert!(some(&|s| only(s, lowest) && s.scale.value(lowest) == s.level));
            let elsewhere = |s: &Sides| s.below.iter().any(|b| s.there.contains(&turned(*b, 2)));
            assert!(width == 1 || some(&|s| s.scale.gain > 0.0 && elsewhere(s)));
            assert!(width == 1 || some(&|s| s.scale.gain < 0.0 && elsewhere(s)));
        }
    }

    #[test]
    fn words_are_turned() {
        assert_eq!([1, -1, -32_768, 0x7F01].map(|word| turned(word, 2)), [256, -1, 128, 0x017F]);
        assert_eq!([1, -128].map(|byte| turned(byte, 1)), [1, -128]);
    }
}
