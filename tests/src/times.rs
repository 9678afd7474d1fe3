//! TRIGGER_TIMEs for blocks: single ones, and lists in which none is less than the one before it.
//! All are finite.

use crate::floats::finite_wide;
use crate::random::Random;

/// The ends of the range, the ends of its parts, and both zeros.
const NOTABLE: [f64; 12] = [
    f64::MIN,
    -1.0,
    -f64::MIN_POSITIVE,
    -LEAST,
    -0.0,
    -0.0,
    0.0,
    0.0,
    LEAST,
    f64::MIN_POSITIVE,
    1.0,
    f64::MAX,
];

/// The least number above zero.
pub const LEAST: f64 = f64::from_bits(1);

pub fn any_time(random: &mut Random) -> f64 {
    f64::from_bits(finite_wide(random))
}

pub fn zero(random: &mut Random) -> f64 {
    random.pick(&[0.0, -0.0])
}

pub fn below_zero(random: &mut Random) -> f64 {
    let any = -any_time(random).abs();
    random.pick(&[any.min(-LEAST), -LEAST, f64::MIN])
}

pub fn subnormal(random: &mut Random) -> f64 {
    let size = random.range(1, (1 << 52) - 1) as f64;
    random.pick(&[size, -size]) * LEAST
}

/// Two times, the second one unit in the last place above the first.
pub fn neighbours(random: &mut Random) -> (f64, f64) {
    let low = any_time(random).min(f64::MAX.next_down());
    (low, low.next_up())
}

/// Two times, the second less than the first; half of the time neither is below zero.
pub fn lesser(random: &mut Random) -> [f64; 2] {
    let (a, b) = (any_time(random), any_time(random));
    let (a, b) = if random.once_in(2) { (a.abs(), b.abs()) } else { (a, b) };
    let (low, high) = if a == b { neighbours(random) } else { (a.min(b), a.max(b)) };
    [high, low]
}

/// Times of one kind: of both signs or one, notable, all the same, or a few units apart.
pub fn ascending(random: &mut Random, count: usize) -> Vec<f64> {
    let kind = random.below(9);
    let start = any_time(random);
    let time = |_| match kind {
        0 | 1 => any_time(random),
        2 => -any_time(random).abs(),
        3 | 4 => random.pick(&NOTABLE),
        5 => start,
        6 => units_behind(start, random.below(4) as u64),
        _ => any_time(random).abs(),
    };
    sorted((0..count).map(time).collect())
}

/// Those that are 0.0 and above, in bits too: none is −0.0.
pub fn ascending_from_zero(random: &mut Random, count: usize) -> Vec<f64> {
    sorted(ascending(random, count).into_iter().map(f64::abs).collect())
}

/// The time so many units in the last place further from zero, or the last finite one.
fn units_behind(time: f64, units: u64) -> f64 {
    let bits = (time.abs().to_bits() + units).min(f64::MAX.to_bits());
    f64::from_bits(bits).copysign(time)
}

/// The sort is stable: −0.0 and 0.0 are equal, and stand in the order in which they came.
fn sorted(mut times: Vec<f64>) -> Vec<f64> {
    times.sort_by(|a, b| a.partial_cmp(b).expect("finite times compare"));
    times
}
