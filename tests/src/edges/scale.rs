//! Edges of rules 7 and 8: the places in the trace buffer, and the floats.

use super::shapes::*;
use super::{edge, points, Edge};
use crate::draft::Draft;
use crate::floats;
use crate::gains;
use crate::law::descriptor::*;
use crate::law::rules::LAST_PLACE;
use crate::random::Random;

pub static EDGES: &[Edge] = &[
    // 7 INDEX
    edge(7, "F -1", any, |d, r| set_places(d, -1, r.range(0, 2))),
    edge(7, "F lowest", any, |d, _| d.set_long(FIRST_POINT, -(1 << 31))),
    edge(7, "F highest", any, |d, _| d.set_long(FIRST_POINT, (1 << 31) - 1)),
    edge(0, "last place highest", any, |d, _| set_last_place(d, 0)),
    edge(7, "last place beyond", any, |d, _| set_last_place(d, 1)),
    edge(0, "last place highest by S 0", some_points, |d, _| {
        d.set_long(SPARSING_FACTOR, 0);
        set_last_place(d, 0);
    }),
    edge(7, "last place beyond by S 0", some_points, |d, _| {
        d.set_long(SPARSING_FACTOR, 0);
        set_last_place(d, 1);
    }),
    edge(0, "last place highest with F 0", points_4_or_6, |d, _| {
        set_places(d, 0, highest_sparsing(d));
    }),
    edge(7, "last place beyond with F 1", points_4_or_6, |d, _| {
        set_places(d, 1, highest_sparsing(d));
    }),
    edge(0, "F at the last place", one_point, |d, _| d.set_long(FIRST_POINT, LAST_PLACE)),
    edge(7, "F beyond the last place", one_point, |d, _| d.set_long(FIRST_POINT, LAST_PLACE + 1)),
    edge(0, "S highest", one_point, |d, _| d.set_long(SPARSING_FACTOR, LAST_PLACE)),
    edge(7, "S beyond", one_point, |d, _| d.set_long(SPARSING_FACTOR, LAST_PLACE + 1)),
    edge(7, "S far beyond", one_point, |d, _| d.set_long(SPARSING_FACTOR, (1 << 31) - 1)),
    edge(7, "S -1", any, |d, _| set_places(d, points(d), -1)),
    edge(7, "S lowest", one_point, |d, _| d.set_long(SPARSING_FACTOR, -(1 << 31))),
    edge(7, "last place beyond 32 bits", points_33, |d, r| set_places(d, r.range(0, 9), 1 << 27)),
    // 8 FLOAT
    edge(8, "gain", any, |d, r| d.set_float(VERTICAL_GAIN, floats::not_finite(r))),
    edge(8, "offset", any, |d, r| d.set_float(VERTICAL_OFFSET, floats::not_finite(r))),
    edge(8, "interval", any, |d, r| d.set_float(HORIZ_INTERVAL, floats::not_finite(r))),
    edge(8, "horizontal offset", bare, set_not_finite_offset),
    edge(8, "horizontal offset beside TRIGTIME", trigtime, set_not_finite_offset),
    edge(8, "horizontal offset beside RISTIME", ristime, set_not_finite_offset),
    edge(8, "TRIGGER_TIME of an entry", trigtime, |d, r| set_trigtime_entry(d, r, 0)),
    edge(8, "TRIGGER_OFFSET of an entry", trigtime, |d, r| set_trigtime_entry(d, r, 1)),
    edge(8, "RIS_OFFSET", ristime, |d, r| {
        let bytes = d.doubles(&[floats::not_finite_wide(r)]);
        set_entry(&mut d.ristime, r, 1, 0, bytes);
    }),
    edge(0, "largest floats", any, |d, r| {
        d.set_float(VERTICAL_GAIN, floats::largest(r));
        d.set_float(VERTICAL_OFFSET, floats::largest(r));
        d.set_float(HORIZ_INTERVAL, floats::largest(r));
        d.set_double(HORIZ_OFFSET, floats::largest_wide(r));
        let bytes = d.doubles(&[floats::largest_wide(r)]);
        set_entry(&mut d.trigtime, r, 2, 1, bytes.clone());
        set_entry(&mut d.ristime, r, 1, 0, bytes);
    }),
    edge(0, "smallest floats", any, |d, r| {
        d.set_float(VERTICAL_GAIN, r.pick(&[1, 1 << 31 | 1]));
        d.set_float(VERTICAL_OFFSET, r.pick(&[0, 1, 1 << 31 | 1]));
        d.set_float(HORIZ_INTERVAL, r.pick(&[0, 1, 1 << 31 | 1]));
        d.set_double(HORIZ_OFFSET, r.pick(&[1, 1 << 63 | 1]));
    }),
    edge(0, "gain about 2^120", any, |d, r| d.set_float(VERTICAL_GAIN, gains::about_too_high(r))),
    edge(0, "subnormal gain", any, |d, r| d.set_float(VERTICAL_GAIN, gains::subnormal(r))),
    edge(0, "gain of either zero", any, |d, r| d.set_float(VERTICAL_GAIN, r.pick(&[0, 1 << 31]))),
    edge(0, "floats that no rule judges", any, |d, r| {
        for at in [164, 168, 292, 312, 328, 336, 340] {
            d.set_float(at, floats::not_finite(r));
        }
        for at in [188, 296] {
            d.set_double(at, floats::not_finite_wide(r));
        }
    }),
];

/// A block of words that obeys the rules: narrowing it is refused by 19, and no other call is.
pub static TOO_HIGH: Edge = edge(19, "gain too high for bytes", word, |d, r| {
    d.set_float(VERTICAL_GAIN, gains::too_high(r));
});

/// Puts F so that the last point's place is the highest one, or so many beyond.
fn set_last_place(draft: &mut Draft, beyond: i64) {
    let span = draft.long(SPARSING_FACTOR).max(1) * (points(draft) - 1);
    draft.set_long(FIRST_POINT, LAST_PLACE - span + beyond);
}

/// The highest S that F 0 leaves room for.
fn highest_sparsing(draft: &Draft) -> i64 {
    LAST_PLACE / (points(draft) - 1).max(1)
}

fn set_places(draft: &mut Draft, first: i64, factor: i64) {
    draft.set_long(FIRST_POINT, first);
    draft.set_long(SPARSING_FACTOR, factor);
}

/// Sets a double of the last or another entry of a table; `column` of `columns` in each entry.
fn set_entry(table: &mut [u8], random: &mut Random, columns: usize, column: usize, bytes: Vec<u8>) {
    let entries = table.len() / (8 * columns);
    if entries == 0 {
        return;
    }
    let any = random.below(entries);
    let entry = random.pick(&[0, entries - 1, any]);
    let at = 8 * (columns * entry + column);
    table[at..at + 8].copy_from_slice(&bytes);
}

fn set_trigtime_entry(draft: &mut Draft, random: &mut Random, column: usize) {
    let bytes = draft.doubles(&[floats::not_finite_wide(random)]);
    set_entry(&mut draft.trigtime, random, 2, column, bytes);
}

fn set_not_finite_offset(draft: &mut Draft, random: &mut Random) {
    draft.set_double(HORIZ_OFFSET, floats::not_finite_wide(random));
}
