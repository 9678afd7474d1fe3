//! Values of pairs: at the ends of what 32 bits hold and of what ten digits say, beside the powers of
//! ten and of two, and of any number of digits.

use crate::random::Random;

/// How many digits a value has at most.
pub const MOST_DIGITS: usize = 10;

/// The highest number that a value says, and the highest that as many digits do.
const HIGHEST: u64 = 4_294_967_295;
const TEN_NINES: u64 = 9_999_999_999;

/// How many digits it takes to say more than 64 bits hold.
const WIDE_DIGITS: usize = 20;

/// A number that a value may say.
pub fn right(random: &mut Random) -> u32 {
    match random.below(8) {
        0 | 1 => random.pick(&[0, 0, 0, 1, 2, 9]),
        2 => random.below(100) as u32,
        3 => beside_power(random),
        4 => (HIGHEST - random.below(7) as u64) as u32,
        5 => below_highest(random) as u32,
        6 => ((random.draw() >> 32) >> random.below(33)) as u32,
        _ => of_digits(1 + random.below(MOST_DIGITS), random),
    }
}

/// A number of so many digits, one to ten, that a value may say.
pub fn of_digits(count: usize, random: &mut Random) -> u32 {
    let least = if count == 1 { 0 } else { 10u64.pow(count as u32 - 1) };
    let most = (10u64.pow(count as u32) - 1).min(HIGHEST);
    match random.below(4) {
        0 => least as u32,
        1 => most as u32,
        _ => random.range(least as i64, most as i64) as u32,
    }
}

/// A power of ten or of two, or a neighbour.
fn beside_power(random: &mut Random) -> u32 {
    let ten = 10u32.pow(random.below(MOST_DIGITS) as u32);
    let two = 1 << random.below(32);
    random.pick(&[ten, two]) - 1 + random.below(3) as u32
}

/// The first digits of the highest number, then a lower one, then any.
fn below_highest(random: &mut Random) -> u64 {
    let (unit, start, digit) = parted(random, |digit| digit > 0);
    let start = start - 1 - random.below(digit as usize) as u64;
    start * unit + random.below(unit as usize) as u64
}

/// The first digits of the highest number, then a higher one, then any.
fn above_highest(random: &mut Random) -> u64 {
    let (unit, start, digit) = parted(random, |digit| digit < 9);
    let start = start + 1 + random.below(9 - digit as usize) as u64;
    start * unit + random.below(unit as usize) as u64
}

/// The highest number up to a digit of that kind: what the digit counts, those digits, and the digit.
fn parted(random: &mut Random, kind: fn(u64) -> bool) -> (u64, u64, u64) {
    loop {
        let unit = 10u64.pow(random.below(MOST_DIGITS) as u32);
        let start = HIGHEST / unit;
        if kind(start % 10) {
            return (unit, start, start % 10);
        }
    }
}

/// A number of ten digits that 32 bits do not hold.
pub fn too_large(random: &mut Random) -> u64 {
    let above = HIGHEST + 1 + random.below(7) as u64;
    let twice = 2 * (HIGHEST + 1) - 1 + random.below(9) as u64;
    let any = random.range(HIGHEST as i64 + 1, TEN_NINES as i64) as u64;
    let parted = above_highest(random);
    random.pick(&[HIGHEST + 1, above, parted, parted, twice, any, TEN_NINES])
}

/// Eleven digits or more, whatever they say: zeros, a right value behind zeros, before or behind another
/// digit, and numbers whose low 32 or 64 bits are few.
pub fn too_long(random: &mut Random) -> Vec<u8> {
    let number = u64::from(right(random));
    let more = 1 + random.below(9) as u64;
    let wide = (1u128 << 64) + u128::from(more);
    match random.below(8) {
        0 => vec![b'0'; MOST_DIGITS + more as usize],
        1 | 2 => padded(number, MOST_DIGITS + 1),
        3 => padded(number, MOST_DIGITS + 2 + random.below(90)),
        4 => padded((HIGHEST + 1) * (more + 2) + number % 10, MOST_DIGITS + 1),
        5 => [padded(number, MOST_DIGITS), padded(more, 1)].concat(),
        6 => [padded(more, 1), padded(number, MOST_DIGITS)].concat(),
        _ => padded_wide(wide, WIDE_DIGITS),
    }
}

/// The digits of a number, at least so many, worked out one by one.
pub fn padded(number: u64, least: usize) -> Vec<u8> {
    padded_wide(number.into(), least)
}

fn padded_wide(number: u128, least: usize) -> Vec<u8> {
    let (mut digits, mut rest) = (vec![], number);
    while rest > 0 || digits.len() < least.max(1) {
        digits.push(b"0123456789"[(rest % 10) as usize]);
        rest /= 10;
    }
    digits.reverse();
    digits
}

#[cfg(test)]
mod tests {
    use super::*;

    #[test]
    fn digits_say_the_number() {
        for (number, least, digits) in [
            (0, 0, &b"0"[..]),
            (0, 3, b"000"),
            (7, 1, b"7"),
            (10, 2, b"10"),
            (4_294_967_295, 1, b"4294967295"),
            (90, 10, b"0000000090"),
        ] {
            assert_eq!(padded(number, least), digits);
        }
        assert_eq!(padded_wide((1 << 64) + 3, 20), b"18446744073709551619");
    }

    /// All that is drawn is on its side of each end, and the ends themselves are drawn.
    #[test]
    fn values_are_right_or_not() {
        let random = &mut Random::new(21, 0);
        let (mut least, mut most) = (u64::MAX, 0);
        let mut drawn = std::collections::BTreeSet::new();
        for _ in 0..20_000 {
            drawn.insert(right(random));
            assert!(below_highest(random) < HIGHEST);
            let large = too_large(random);
            assert!((HIGHEST + 1..=TEN_NINES).contains(&large));
            (least, most) = (least.min(large), most.max(large));
            assert!(too_long(random).len() > MOST_DIGITS);
        }
        assert_eq!((least, most), (HIGHEST + 1, TEN_NINES));
        let ends = [0, 1, 9, 10, 999_999_999, 1_000_000_000, 1 << 31, u32::MAX - 1, u32::MAX];
        assert!(ends.iter().all(|number| drawn.contains(number)));
        for count in 1..=MOST_DIGITS {
            let digits = |number: u32| padded(number.into(), 1).len();
            assert!((0..100).all(|_| digits(of_digits(count, random)) == count));
        }
    }
}
