//! Edges of rules 5 and 6: the lengths and the counts.

use super::shapes::*;
use super::{as_it_is, edge, segments, Edge};
use crate::draft::Draft;
use crate::law::descriptor::*;
use crate::random::Random;

pub static EDGES: &[Edge] = &[
    // 5 TILE
    edge(5, "WAVE_DESCRIPTOR 345", with_text, |d, _| move_length(d, WAVE_DESCRIPTOR, -1)),
    edge(5, "WAVE_DESCRIPTOR 347", with_text, |d, _| move_length(d, WAVE_DESCRIPTOR, 1)),
    edge(5, "RES_DESC1 not 0", with_text, |d, r| set_reserved(d, r, RES_DESC1)),
    edge(5, "RES_ARRAY1 not 0", with_text, |d, r| set_reserved(d, r, RES_ARRAY1)),
    edge(5, "RES_ARRAY2 not 0", with_text, |d, r| set_reserved(d, r, RES_ARRAY2)),
    edge(5, "RES_ARRAY3 not 0", with_text, |d, r| set_reserved(d, r, RES_ARRAY3)),
    edge(5, "USER_TEXT below 0, TRIGTIME makes up for it", bare, |d, _| {
        move_length(d, TRIGTIME_ARRAY, 16 * segments(d));
    }),
    edge(5, "TRIGTIME below 0", bare, |d, _| move_length(d, TRIGTIME_ARRAY, -16 * segments(d))),
    edge(5, "RISTIME below 0, as RIS_SWEEPS is", one_bare_segment, |d, r| {
        let entries = r.range(1, 9);
        move_length(d, RIS_TIME_ARRAY, -8 * entries);
        d.set_word(RIS_SWEEPS, -entries);
    }),
    edge(5, "array 1 below 0, as the count is", any, |d, _| {
        move_length(d, WAVE_ARRAY_1, -2 * d.array_1.len() as i64);
        d.set_long(WAVE_ARRAY_COUNT, -d.long(WAVE_ARRAY_COUNT));
    }),
    edge(5, "array 2 below 0", one_array, |d, _| {
        move_length(d, WAVE_ARRAY_2, -(d.array_1.len() as i64));
    }),
    edge(5, "sum one more than L", any, |d, _| d.add_to_length(USER_TEXT, 1)),
    edge(5, "sum one less than L", with_text, |d, _| d.add_to_length(USER_TEXT, -1)),
    edge(5, "L one more than the sum", any, |d, r| d.array_1.extend(r.bytes(1))),
    edge(5, "L one less than the sum", some_points, |d, _| {
        d.array_1.pop();
    }),
    edge(5, "sum beyond 32 bits, all else right", two_bare_arrays, |d, _| {
        let array = (1 << 31) - 2;
        let count = array / d.width as i64;
        let text = d.payload_len() as i64 + (1 << 32) - SIZE as i64 - 2 * array;
        d.set_length(USER_TEXT, text);
        d.set_length(WAVE_ARRAY_1, array);
        d.set_length(WAVE_ARRAY_2, array);
        d.set_long(WAVE_ARRAY_COUNT, count);
        d.set_long(SUBARRAY_COUNT, count);
        d.set_long(SEGMENT_INDEX, 0);
        d.set_long(FIRST_POINT, 0);
        d.set_long(SPARSING_FACTOR, 1);
    }),
    // 6 COUNT
    edge(6, "L 346", bare, |d, _| {
        d.array_1.clear();
        d.array_2.clear();
        d.fit_lengths();
    }),
    edge(6, "count 0 and no samples", any, |d, _| {
        d.array_1.clear();
        d.array_2.clear();
        d.fit_lengths();
        d.set_long(WAVE_ARRAY_COUNT, 0);
    }),
    edge(6, "count below 0", any, |d, _| d.set_long(WAVE_ARRAY_COUNT, -d.long(WAVE_ARRAY_COUNT))),
    edge(6, "SUBARRAY_COUNT -1", one_bare_segment, |d, _| d.set_long(SUBARRAY_COUNT, -1)),
    edge(6, "SUBARRAY_COUNT -g", many_segments_no_table, |d, _| {
        d.set_long(SUBARRAY_COUNT, -segments(d));
    }),
    edge(6, "SUBARRAY_COUNT lowest", any, |d, _| d.set_long(SUBARRAY_COUNT, -(1 << 31))),
    edge(6, "count one more than a multiple of g", many_segments, |d, _| {
        let count = d.long(WAVE_ARRAY_COUNT) + 1;
        d.array_1.resize(count as usize * d.width, 1);
        if !d.array_2.is_empty() {
            d.array_2.resize(count as usize * d.width, 2);
        }
        d.set_long(WAVE_ARRAY_COUNT, count);
        d.fit_lengths();
    }),
    edge(6, "g one more than the count", many_segments_no_table, |d, _| {
        d.set_long(SUBARRAY_COUNT, d.long(WAVE_ARRAY_COUNT) + 1);
        d.set_long(SEGMENT_INDEX, 0);
    }),
    edge(0, "g is the count", many_segments_of_one_point, as_it_is),
    edge(6, "count one more", one_segment, |d, _| {
        d.set_long(WAVE_ARRAY_COUNT, d.long(WAVE_ARRAY_COUNT) + 1);
    }),
    edge(6, "count one less", one_segment_of_some_points, |d, _| {
        d.set_long(WAVE_ARRAY_COUNT, d.long(WAVE_ARRAY_COUNT) - 1);
    }),
    edge(6, "the other sample width", any, |d, _| {
        d.set_word(COMM_TYPE, 2 - d.width as i64);
    }),
    edge(6, "array 1 one byte longer", with_text, |d, _| move_length(d, WAVE_ARRAY_1, 1)),
    edge(6, "array 1 one byte shorter", with_text, |d, _| move_length(d, WAVE_ARRAY_1, -1)),
    edge(6, "array 2 one byte shorter", two_arrays, |d, _| {
        d.array_2.pop();
        d.fit_lengths();
    }),
    edge(6, "array 2 one byte longer", two_arrays, |d, _| {
        d.array_2.push(7);
        d.fit_lengths();
    }),
    edge(6, "array 2 of one byte", one_array, |d, _| {
        d.array_2 = vec![7];
        d.fit_lengths();
    }),
    edge(6, "array 2 twice as long", two_arrays, |d, _| {
        d.array_2.extend(d.array_2.clone());
        d.fit_lengths();
    }),
    edge(6, "TRIGTIME one entry more", trigtime, |d, _| {
        set_trigtime_len(d, 16 * segments(d) + 16);
    }),
    edge(6, "TRIGTIME one entry less", trigtime_of_many, |d, _| {
        set_trigtime_len(d, 16 * segments(d) - 16);
    }),
    edge(6, "TRIGTIME half an entry more", trigtime, |d, _| {
        set_trigtime_len(d, 16 * segments(d) + 8);
    }),
    edge(6, "TRIGTIME one byte less", trigtime, |d, _| set_trigtime_len(d, 16 * segments(d) - 1)),
    edge(6, "TRIGTIME of 8g", trigtime, |d, _| set_trigtime_len(d, 8 * segments(d))),
    edge(0, "TRIGTIME with SUBARRAY_COUNT 0", trigtime_no_subarrays, as_it_is),
    edge(6, "RIS_SWEEPS one more", ristime, |d, _| {
        d.set_word(RIS_SWEEPS, d.ristime.len() as i64 / 8 + 1);
    }),
    edge(6, "RIS_SWEEPS one less", ristime, |d, _| {
        d.set_word(RIS_SWEEPS, d.ristime.len() as i64 / 8 - 1);
    }),
    edge(6, "RIS_SWEEPS 0 beside RISTIME", ristime, |d, _| d.set_word(RIS_SWEEPS, 0)),
    edge(6, "RISTIME one byte more", ristime, |d, _| {
        d.ristime.push(0);
        d.fit_lengths();
    }),
    edge(6, "RISTIME one byte less", ristime, |d, _| {
        d.ristime.pop();
        d.fit_lengths();
    }),
    edge(0, "any RIS_SWEEPS without RISTIME", bare, |d, r| {
        d.set_word(RIS_SWEEPS, r.pick(&[0, 1, -1, 32_767, -32_768]));
    }),
    edge(6, "RISTIME with two and more segments", many_segments_no_table, add_ristime),
    edge(0, "RISTIME with SUBARRAY_COUNT 0", ristime_no_subarrays, as_it_is),
    edge(6, "RISTIME with TRIGTIME", trigtime_of_one, add_ristime),
    edge(6, "SEGMENT_INDEX -1", any, |d, _| d.set_long(SEGMENT_INDEX, -1)),
    edge(6, "SEGMENT_INDEX lowest", any, |d, _| d.set_long(SEGMENT_INDEX, -(1 << 31))),
    edge(6, "SEGMENT_INDEX 1 of many", many_segments, |d, _| d.set_long(SEGMENT_INDEX, 1)),
    edge(6, "SEGMENT_INDEX highest of many", many_segments, |d, _| {
        d.set_long(SEGMENT_INDEX, (1 << 31) - 1);
    }),
    edge(0, "SEGMENT_INDEX 1 of one", one_segment, |d, _| d.set_long(SEGMENT_INDEX, 1)),
    edge(0, "SEGMENT_INDEX highest of one", one_segment, |d, _| {
        d.set_long(SEGMENT_INDEX, (1 << 31) - 1);
    }),
    edge(0, "SEGMENT_INDEX with SUBARRAY_COUNT 0", no_subarrays, |d, r| {
        d.set_long(SEGMENT_INDEX, r.range(1, 9));
    }),
];

/// Takes bytes from the user text's length and gives them to another, so that the sum stays.
fn move_length(draft: &mut Draft, place: usize, more: i64) {
    draft.add_to_length(place, more);
    draft.add_to_length(USER_TEXT, -more);
}

fn set_reserved(draft: &mut Draft, random: &mut Random, place: usize) {
    move_length(draft, place, random.pick(&[1, 4, 8, -1, -4]));
}

fn set_trigtime_len(draft: &mut Draft, length: i64) {
    draft.trigtime.resize(length as usize, 0);
    draft.fit_lengths();
}

fn add_ristime(draft: &mut Draft, random: &mut Random) {
    let entries = random.range(1, 6);
    draft.ristime = vec![0; 8 * entries as usize];
    draft.set_word(RIS_SWEEPS, entries);
    draft.fit_lengths();
}
