//! Edges of n and of the indices.

use super::edges::*;
use super::parts::Parts;
use crate::draft::Draft;
use crate::law::descriptor::*;
use crate::random::Random;

pub static EDGES: &[Edge] = &[
    edge(0, "one part", one, as_they_are),
    edge(0, "two parts", two, as_they_are),
    edge(0, "parts in the order of their indices", three_or_more, |p, _| p.sort()),
    edge(0, "parts in the order turned round", three_or_more, |p, _| {
        p.sort();
        p.drafts.reverse();
    }),
    edge(0, "the first part last", three_or_more, |p, _| p.sort_first_last()),
    edge(16, "no parts", any, |p, _| p.drafts.clear()),
    edge(16, "the first index missing", two_or_more, |p, _| remove(p, 1)),
    edge(16, "an index missing within", three_or_more, |p, r| {
        let index = r.range(2, p.count().max(3) - 1);
        remove(p, index);
    }),
    edge(0, "the last index missing", two_or_more, |p, _| remove(p, p.count())),
    edge(16, "an index twice", two_or_more, |p, r| {
        let (from, to) = different(p, r);
        p.index(from, |d| set_index(d, to));
    }),
    edge(16, "index 3 for 2", three_or_more, |p, _| p.index(2, |d| set_index(d, 3))),
    edge(16, "a part twice", any, |p, r| {
        let mut again = None;
        p.one(r, |d, _| again = Some(d.clone()));
        p.drafts.extend(again);
    }),
    edge(16, "index 0", any, |p, r| p.one(r, |d, _| set_index(d, 0))),
    edge(16, "index 0 of one part", one, |p, _| p.each(|d| set_index(d, 0))),
    edge(16, "index 0 for n", any, |p, _| p.index(p.count(), |d| set_index(d, 0))),
    edge(16, "index n + 1 for n", any, |p, _| {
        let n = p.count();
        p.index(n, |d| set_index(d, n + 1));
    }),
    edge(16, "index n + 1 for 1", two_or_more, |p, _| {
        let n = p.count();
        p.index(1, |d| set_index(d, n + 1));
    }),
    edge(16, "indices from 0", any, |p, _| p.each(|d| add_to_index(d, -1))),
    edge(16, "indices from 2", any, |p, _| p.each(|d| add_to_index(d, 1))),
    edge(16, "all indices 0", any, |p, _| p.each(|d| set_index(d, 0))),
    edge(16, "all indices 1", two_or_more, |p, _| p.each(|d| set_index(d, 1))),
    edge(16, "all indices n", two_or_more, |p, _| {
        let n = p.count();
        p.each(|d| set_index(d, n));
    }),
    edge(16, "indices of the right sum", three_or_more, |p, _| {
        p.index(1, |d| set_index(d, 2));
        p.index(3, |d| set_index(d, 2));
    }),
    edge(16, "the highest number for an index", any, |p, r| {
        p.one(r, |d, _| set_index(d, i64::from(i32::MAX)));
    }),
    edge(16, "an index that one byte takes for a right one", any, |p, r| {
        p.one(r, |d, _| add_to_index(d, 1 << 8));
    }),
    edge(16, "an index that two bytes take for a right one", any, |p, r| {
        p.one(r, |d, r| add_to_index(d, r.pick(&[1 << 16, 1 << 24, 1 << 30])));
    }),
    edge(16, "an index that one byte takes for n", any, |p, _| {
        p.index(p.count(), |d| add_to_index(d, 1 << 8));
    }),
    edge(16, "an index that two bytes take for n", any, |p, r| {
        p.index(p.count(), |d| add_to_index(d, r.pick(&[1 << 16, 1 << 24, 1 << 30])));
    }),
    edge(6, "an index below 0", any, |p, r| p.one(r, |d, _| set_index(d, -index(d)))),
    edge(6, "an index with its sign bit", any, |p, r| {
        p.one(r, |d, _| add_to_index(d, -(1 << 31)));
    }),
    edge(16, "a part of two segments", any, |p, r| p.one(r, |d, _| double(d))),
    edge(16, "all parts of two segments", any, |p, _| p.each(double)),
    edge(16, "one part of two segments", one, |p, _| p.each(double)),
];

fn index(draft: &Draft) -> i64 {
    draft.long(SEGMENT_INDEX)
}

fn set_index(draft: &mut Draft, index: i64) {
    draft.set_long(SEGMENT_INDEX, index);
}

fn add_to_index(draft: &mut Draft, more: i64) {
    set_index(draft, index(draft) + more);
}

fn remove(parts: &mut Parts, gone: i64) {
    parts.drafts.retain(|draft| index(draft) != gone);
}

/// Two different indices of parts.
fn different(parts: &Parts, random: &mut Random) -> (i64, i64) {
    let last = parts.count().max(2);
    let one = random.range(1, last);
    let other = random.range(1, last - 1);
    (one, if other < one { other } else { other + 1 })
}

/// Makes a part's one segment two, equal ones; SEGMENT_INDEX has to be 0 then.
fn double(draft: &mut Draft) {
    if !draft.ristime.is_empty() {
        draft.ristime.clear();
    }
    for part in [&mut draft.trigtime, &mut draft.array_1, &mut draft.array_2] {
        part.extend(part.clone());
    }
    draft.set_long(WAVE_ARRAY_COUNT, 2 * draft.long(WAVE_ARRAY_COUNT));
    draft.set_long(SUBARRAY_COUNT, 2);
    set_index(draft, 0);
    draft.fit_lengths();
}
