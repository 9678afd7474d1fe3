//! Samples of right blocks: any, at the rail, one beside it, and such as a reader of another type or
//! byte order would take for the rail; words about the multiples of 256; constant ones, ramps and
//! spikes.

use crate::draft::Draft;
use crate::law::numbers::{read_signed, store, Order};
use crate::random::Random;
use crate::shape::Shape;

const NEXT_TO_BYTE_RAIL: [i64; 2] = [-127, 126];
const NEXT_TO_WORD_RAIL: [i64; 2] = [-32_767, 32_766];
const FREE_BYTES: [i64; 4] = [-126, 125, 0, -1];
const FREE_WORDS: [i64; 12] = [
    // the limits of bytes, and next to them
    -128,
    127,
    -127,
    126,
    // one byte of a limit, and not the other
    word(0x7F80),
    word(0x80FF),
    word(0x7F00),
    word(0x00FF),
    // the limits in the other byte order
    word(0xFF7F),
    word(0x0080),
    // the limits of unsigned words
    word(0x0000),
    word(0xFFFF),
];

/// About the multiples of 256, where a word's high byte changes, and the ends of the range.
const HIGH_BYTE_CHANGES: [i64; 15] =
    [-32_768, -32_513, -32_512, -257, -256, -255, -1, 0, 1, 255, 256, 257, 32_511, 32_512, 32_767];

const fn word(bits: u16) -> i64 {
    bits as i16 as i64
}

/// The rail of samples of so many bytes: the lowest and the highest number.
pub fn rail(width: usize) -> [i64; 2] {
    match width {
        1 => [-128, 127],
        _ => [-32_768, 32_767],
    }
}

/// Samples of all segments of an array, as its bytes. Each segment has its own share at the rail.
pub fn array(random: &mut Random, shape: &Shape) -> Vec<u8> {
    let (width, points) = (shape.width(), shape.points as usize);
    let segments = (0..shape.segments()).flat_map(|_| segment(random, width, points));
    bytes(shape.order, width, &segments.collect::<Vec<_>>())
}

/// The bytes of samples.
pub fn bytes(order: Order, width: usize, samples: &[i64]) -> Vec<u8> {
    let mut bytes = vec![0; width * samples.len()];
    for (place, sample) in bytes.chunks_mut(width).zip(samples) {
        store(place, order, *sample as u64);
    }
    bytes
}

/// So many samples at the rail.
pub fn all(random: &mut Random, width: usize, points: usize) -> Vec<i64> {
    (0..points).map(|_| random.pick(&rail(width))).collect()
}

/// So many samples that are not at the rail, most of them next to it.
pub fn none(random: &mut Random, width: usize, points: usize) -> Vec<i64> {
    let (next, free) = match width {
        1 => (NEXT_TO_BYTE_RAIL, &FREE_BYTES[..]),
        _ => (NEXT_TO_WORD_RAIL, &FREE_WORDS[..]),
    };
    let mut one = || if random.once_in(3) { random.pick(free) } else { random.pick(&next) };
    (0..points).map(|_| one()).collect()
}

/// So many samples, of which the one at a place is at the rail.
pub fn one(random: &mut Random, width: usize, points: usize, place: usize) -> Vec<i64> {
    let mut samples = none(random, width, points);
    samples[place] = random.pick(&rail(width));
    samples
}

/// Constant samples, ramps up and down of small steps or over the whole range, and one spike.
pub fn pattern(width: usize, points: usize, random: &mut Random) -> Vec<i64> {
    let [lowest, highest] = rail(width);
    let (start, last) = (random.range(lowest, highest), points.max(2) as i64 - 1);
    let whole = |k: i64| lowest + (highest - lowest) * k / last;
    let mut samples: Vec<i64> = match random.below(4) {
        0 | 1 => vec![start; points],
        2 => (0..points as i64).map(whole).collect(),
        _ => (0..points as i64).map(|k| (start + k).min(highest)).collect(),
    };
    if random.once_in(2) {
        samples.reverse();
    }
    if random.once_in(2) {
        samples[random.below(points)] = random.range(lowest, highest);
    }
    samples
}

/// Gives a block such samples in place of its own, each segment others.
pub fn set_patterns(draft: &mut Draft, shape: &Shape, random: &mut Random) {
    let (width, points) = (shape.width(), shape.points as usize);
    let mut array = || {
        let rows = (0..shape.segments()).flat_map(|_| pattern(width, points, random));
        bytes(shape.order, width, &rows.collect::<Vec<_>>())
    };
    draft.array_1 = array();
    if shape.two_arrays {
        draft.array_2 = array();
    }
}

/// The samples of one segment of a right block.
pub fn segment(random: &mut Random, width: usize, points: usize) -> Vec<i64> {
    match random.below(9) {
        0..=2 => any(random, width, points),
        8 if width == 2 => (0..points).map(|_| random.pick(&HIGH_BYTE_CHANGES)).collect(),
        3 => byte_ends(random, width, points),
        4 => all(random, width, points),
        5 => none(random, width, points),
        6 => {
            let place = random.below(points);
            one(random, width, points, place)
        }
        _ => some(random, width, points),
    }
}

fn any(random: &mut Random, width: usize, points: usize) -> Vec<i64> {
    numbers(&random.bytes(width * points), width)
}

/// Samples with every byte at an end of a byte's range.
fn byte_ends(random: &mut Random, width: usize, points: usize) -> Vec<i64> {
    let ends = [0x00, 0x01, 0x7F, 0x80, 0xFF];
    let mut bytes = random.bytes(width * points);
    bytes.iter_mut().for_each(|byte| *byte = ends[usize::from(*byte) % ends.len()]);
    numbers(&bytes, width)
}

/// Samples of which one in two or one in nine is at the rail.
fn some(random: &mut Random, width: usize, points: usize) -> Vec<i64> {
    let mut samples = none(random, width, points);
    let share = random.pick(&[2, 9]);
    for sample in &mut samples {
        if random.once_in(share) {
            *sample = random.pick(&rail(width));
        }
    }
    samples
}

fn numbers(bytes: &[u8], width: usize) -> Vec<i64> {
    bytes.chunks(width).map(|sample| read_signed(sample, Order::HiFirst)).collect()
}

#[cfg(test)]
mod tests {
    use super::*;

    fn at_rail(samples: &[i64], width: usize) -> usize {
        samples.iter().filter(|sample| rail(width).contains(sample)).count()
    }

    #[test]
    fn all_none_and_one_are_at_the_rail() {
        for width in [1, 2] {
            let random = &mut Random::new(10, width as u64);
            assert_eq!(at_rail(&all(random, width, 500), width), 500);
            assert_eq!(at_rail(&none(random, width, 500), width), 0);
            for place in [0, 63, 64, 499] {
                let samples = one(random, width, 500, place);
                assert_eq!(at_rail(&samples, width), 1);
                assert!(rail(width).contains(&samples[place]));
            }
        }
    }

    /// Segments of one array differ in how many of their samples are at the rail.
    #[test]
    fn segments_have_different_shares() {
        for width in [1, 2] {
            let random = &mut Random::new(11, width as u64);
            let counts: Vec<usize> =
                (0..400).map(|_| at_rail(&segment(random, width, 9), width)).collect();
            for count in [0, 1, 2, 3, 9] {
                assert!(counts.contains(&count), "{count} of 9");
            }
            assert!(counts.windows(2).filter(|pair| pair[0] != pair[1]).count() > 200);
        }
    }
}
