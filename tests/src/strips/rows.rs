//! The samples of one segment, made so that a strip hangs on one place or on a few: one greatest sample
//! or one least, ties of the greatest, samples at the rail. Beside these constant samples, ramps, and any.

use crate::random::Random;
use crate::samples::{self, rail};

/// The kinds of rows, which take turns, and the one that has the same sample at the rail everywhere.
pub const KINDS: usize = 9;
pub const ALIKE: usize = 5;

/// So many samples of a kind; where one place counts it is this one.
pub fn of_kind(
    kind: usize,
    width: usize,
    points: usize,
    place: usize,
    random: &mut Random,
) -> Vec<i64> {
    match kind {
        0 => greatest_at(width, points, place, random),
        1 => least_at(width, points, place, random),
        2 => ties(width, points, place, random),
        3 => samples::one(random, width, points, place),
        4 => rail_about(width, points, place, random),
        ALIKE => vec![random.pick(&rail(width)); points],
        6 => samples::all(random, width, points),
        7 => samples::pattern(width, points, random),
        _ => samples::segment(random, width, points),
    }
}

/// The greatest sample stands at a place alone.
pub fn greatest_at(width: usize, points: usize, place: usize, random: &mut Random) -> Vec<i64> {
    let [lowest, highest] = rail(width);
    let any = random.range(lowest + 1, highest);
    let greatest = random.pick(&[lowest + 1, -1, 0, 1, highest - 1, highest, any, any]);
    let below = random.range(lowest, greatest - 1);
    let other = random.pick(&[lowest, greatest - 1, below]);
    let mut samples = match random.once_in(2) {
        true => vec![other; points],
        false => (0..points).map(|_| random.range(lowest, greatest - 1)).collect(),
    };
    samples[place] = greatest;
    samples
}

/// The least sample stands at a place alone.
pub fn least_at(width: usize, points: usize, place: usize, random: &mut Random) -> Vec<i64> {
    // This turns the range of a type round.
    let turned = |sample: i64| -1 - sample;
    greatest_at(width, points, place, random).into_iter().map(turned).collect()
}

/// The greatest sample stands at a place, and at some behind it: next to it, in the next eight or
/// sixty-four, and at the end.
fn ties(width: usize, points: usize, place: usize, random: &mut Random) -> Vec<i64> {
    let mut samples = greatest_at(width, points, place, random);
    for behind in [place + 1, place + 7, place + 8, place + 63, place + 64, points - 1] {
        if place < behind && behind < points && random.once_in(2) {
            samples[behind] = samples[place];
        }
    }
    samples
}

/// Samples at the rail at a place, beside it and at the ends, and none elsewhere.
fn rail_about(width: usize, points: usize, place: usize, random: &mut Random) -> Vec<i64> {
    let mut samples = samples::none(random, width, points);
    for k in [0, place.saturating_sub(1), place, place + 1, points - 1] {
        if k < points && random.once_in(2) {
            samples[k] = random.pick(&rail(width));
        }
    }
    samples
}

#[cfg(test)]
mod tests {
    use super::*;

    #[test]
    fn one_sample_stands_alone() {
        for case in 0..2000 {
            let random = &mut Random::new(26, case);
            let width = 1 + case as usize % 2;
            let [lowest, highest] = rail(width);
            let place = random.below(20);
            let samples = greatest_at(width, 20, place, random);
            let others = |k: &usize| *k != place;
            assert!((0..20).filter(others).all(|k| samples[k] < samples[place]));
            assert!(samples.iter().all(|sample| (lowest..=highest).contains(sample)));
            let samples = least_at(width, 20, place, random);
            assert!((0..20).filter(others).all(|k| samples[k] > samples[place]));
            assert!(samples.iter().all(|sample| (lowest..=highest).contains(sample)));
        }
    }

    /// The first of the ties stands at the place, and some have more than one.
    #[test]
    fn ties_start_at_the_place() {
        let random = &mut Random::new(27, 0);
        let mut tied = 0;
        for place in (0..200).cycle().take(2000) {
            let samples = ties(2, 200, place, random);
            let greatest = samples[place];
            assert!(samples[..place].iter().all(|sample| *sample < greatest));
            tied += usize::from(samples[place + 1..].contains(&greatest));
        }
        assert!(tied > 1000, "{tied}");
    }
}
