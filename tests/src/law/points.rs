//! Points, in volts and seconds, and the marks of their samples.

use super::numbers::{read_double, read_signed};
use super::rules::Opened;

/// The sample of point k of a segment, of array 1 or 2.
pub fn sample(opened: &Opened, array: i64, segment: i64, k: i64) -> i64 {
    read_signed(sample_bytes(opened, array, segment, k), opened.order)
}

/// The bytes of that sample, as the block has them.
pub fn sample_bytes<'a>(opened: &Opened<'a>, array: i64, segment: i64, k: i64) -> &'a [u8] {
    let element = (segment - 1) * opened.points + k;
    let at = element as usize * opened.width();
    &opened.arrays[array as usize - 1][at..at + opened.width()]
}

/// A sample's value: the product is exact, the difference rounds once.
pub fn value(opened: &Opened, sample: i64) -> f64 {
    let (gain, offset) = (f64::from(opened.gain), f64::from(opened.offset));
    gain * sample as f64 - offset
}

/// The mark of a sample: whether it is at the rail, the lowest or the highest number of its type.
pub fn mark(opened: &Opened, sample: i64) -> bool {
    let (lowest, highest) = match opened.width() {
        1 => (-128, 127),
        _ => (-32_768, 32_767),
    };
    sample == lowest || sample == highest
}

/// How many of a segment's M samples are at the rail.
pub fn at_rail(opened: &Opened, array: i64, segment: i64) -> u64 {
    let marked = |k: &i64| mark(opened, sample(opened, array, segment, *k));
    (0..opened.points).filter(marked).count() as u64
}

/// i: the place of point k in the scope's trace buffer.
pub fn place(opened: &Opened, k: i64) -> i64 {
    opened.first_point + opened.sparsing * k
}

/// The time of point k of a segment.
pub fn time(opened: &Opened, segment: i64, k: i64) -> f64 {
    let i = place(opened, k);
    let interval = f64::from(opened.interval);
    if !opened.trigtime.is_empty() {
        // An entry is two doubles, TRIGGER_TIME and TRIGGER_OFFSET.
        let trigger_offset = double(opened, opened.trigtime, 2 * (segment - 1) + 1);
        return interval * i as f64 + trigger_offset;
    }
    if !opened.ristime.is_empty() {
        let j = i % (opened.ristime.len() as i64 / 8);
        return double(opened, opened.ristime, j) + interval * (i - j) as f64;
    }
    interval * i as f64 + opened.horiz_offset
}

/// A double of a table, counted from 0.
fn double(opened: &Opened, table: &[u8], number: i64) -> f64 {
    let at = 8 * number as usize;
    read_double(&table[at..at + 8], opened.order)
}
