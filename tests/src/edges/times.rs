//! Edges of rule 20: TRIGGER_TIMEs that run backwards, just so or far, and those that do not; and
//! of rule 8 in tables that break both. From 0.0 up bits ascend as times do, below it they descend.

use super::shapes::*;
use super::{as_it_is, edge, Edge};
use crate::draft::Draft;
use crate::floats;
use crate::law::numbers::store;
use crate::random::Random;
use crate::times::*;

/// The two doubles of an entry.
const TIME: usize = 0;
const OFFSET: usize = 1;

pub static EDGES: &[Edge] = &[
    // Tables of every length
    edge(0, "one TRIGGER_TIME", trigtime_of_one, as_it_is),
    edge(0, "one TRIGGER_TIME, below zero", trigtime_of_one, |d, r| {
        let time = below_zero(r);
        set_time(d, 0, time);
    }),
    edge(0, "2 TRIGGER_TIMEs", |s, r| entries(s, r, 2), as_it_is),
    edge(0, "3 TRIGGER_TIMEs", |s, r| entries(s, r, 3), as_it_is),
    edge(0, "16 TRIGGER_TIMEs", |s, r| entries(s, r, 16), as_it_is),
    edge(0, "17 TRIGGER_TIMEs", |s, r| entries(s, r, 17), as_it_is),
    edge(0, "hundreds of TRIGGER_TIMEs", hundreds, as_it_is),
    edge(0, "hundreds of TRIGGER_TIMEs from zero up", hundreds, set_from_zero),
    edge(20, "the second of 2 less", |s, r| entries(s, r, 2), |d, r| break_at(d, r, 0)),
    edge(20, "the second of 3 less", |s, r| entries(s, r, 3), |d, r| break_at(d, r, 0)),
    edge(20, "the third of 3 less", |s, r| entries(s, r, 3), |d, r| break_at(d, r, 1)),
    edge(20, "one of 16 less", |s, r| entries(s, r, 16), break_somewhere),
    edge(20, "one of 17 less", |s, r| entries(s, r, 17), break_somewhere),
    edge(20, "one of hundreds less", hundreds, break_somewhere),
    // Where the order breaks
    edge(20, "less at the first pair", four_or_more, |d, r| break_at(d, r, 0)),
    edge(20, "less at the last pair", four_or_more, |d, r| break_at(d, r, last_pair(d))),
    edge(20, "less within, not less than the first", four_or_more, break_within),
    edge(20, "TRIGGER_TIMEs turned round", two_or_more, |d, r| {
        let step = r.pick(&[LEAST, 1.0, 1e300]);
        set_times(d, (0..).map(|n| f64::from(2 - n) * step));
    }),
    // By how much
    edge(0, "TRIGGER_TIMEs all equal", two_or_more, |d, r| {
        let time = any_time(r);
        set_times(d, std::iter::repeat(time));
    }),
    edge(0, "two equal", two_or_more, |d, r| {
        let time = any_time(r);
        put(d, r, [time, time]);
    }),
    edge(0, "one unit more", two_or_more, |d, r| {
        let (low, high) = neighbours(r);
        put(d, r, [low, high]);
    }),
    edge(20, "one unit less", two_or_more, |d, r| {
        let (low, high) = neighbours(r);
        put(d, r, [high, low]);
    }),
    edge(0, "subnormal, one unit more", two_or_more, |d, r| {
        let time = subnormal(r);
        put(d, r, [time, time.next_up()]);
    }),
    edge(20, "subnormal, one unit less", two_or_more, |d, r| {
        let time = subnormal(r);
        put(d, r, [time, time.next_down()]);
    }),
    edge(0, "the highest after the lowest", two_or_more, |d, r| put(d, r, [f64::MIN, f64::MAX])),
    edge(20, "the lowest after the highest", two_or_more, |d, r| put(d, r, [f64::MAX, f64::MIN])),
    edge(0, "the highest last, from zero up", two_or_more, |d, r| {
        set_from_zero(d, r);
        set_time(d, last(d), f64::MAX);
    }),
    edge(20, "less after the highest", two_or_more, |d, r| {
        let (less, _) = neighbours(r);
        put(d, r, [f64::MAX, less]);
    }),
    // About zero
    edge(0, "-0.0 after 0.0", two_or_more, |d, r| put(d, r, [0.0, -0.0])),
    edge(0, "0.0 after -0.0", two_or_more, |d, r| put(d, r, [-0.0, 0.0])),
    edge(0, "-0.0 last", two_or_more, |d, r| put_at(d, r, last_pair(d), [0.0, -0.0])),
    edge(0, "zeros of both signs", two_or_more, |d, r| {
        set_times(d, std::iter::repeat_with(|| zero(r)));
    }),
    edge(0, "the least above a zero after it", two_or_more, |d, r| {
        let zero = zero(r);
        put(d, r, [zero, LEAST]);
    }),
    edge(20, "the least above a zero before it", two_or_more, |d, r| {
        let zero = zero(r);
        put(d, r, [LEAST, zero]);
    }),
    edge(0, "the least below a zero before it", two_or_more, |d, r| {
        let zero = zero(r);
        put(d, r, [-LEAST, zero]);
    }),
    edge(20, "the least below a zero after it", two_or_more, |d, r| {
        let zero = zero(r);
        put(d, r, [zero, -LEAST]);
    }),
    edge(0, "from below zero to above", two_or_more, |d, r| {
        let (low, high) = (below_zero(r), -below_zero(r));
        put(d, r, [low, high]);
    }),
    edge(20, "from above zero to below", two_or_more, |d, r| {
        let (low, high) = (below_zero(r), -below_zero(r));
        put(d, r, [high, low]);
    }),
    edge(0, "below zero first, the others from zero up", two_or_more, |d, r| {
        let time = below_zero(r);
        set_from_zero(d, r);
        set_time(d, 0, time);
    }),
    edge(20, "below zero last, the others from zero up", two_or_more, |d, r| {
        let time = below_zero(r);
        set_from_zero(d, r);
        set_time(d, last(d), time);
    }),
    // Below zero
    edge(0, "below zero, ascending", two_or_more, |d, r| {
        let times = ascending_from_zero(r, count(d));
        set_times(d, times.into_iter().rev().map(|time| -time));
    }),
    edge(20, "below zero, descending", two_or_more, |d, r| {
        let time = below_zero(r) / 2.0;
        put(d, r, [time, 2.0 * time - 1.0]);
    }),
    // TRIGGER_OFFSET is free
    edge(0, "TRIGGER_OFFSETs run backwards", two_or_more, |d, _| set_offsets(d, -1.0)),
    edge(20, "TRIGGER_OFFSETs ascend, a TRIGGER_TIME is less", two_or_more, |d, r| {
        set_offsets(d, 1.0);
        break_somewhere(d, r);
    }),
    // 8 in the place of 20, wherever it stands
    edge(8, "time not finite before a lesser", four_or_more, |d, r| spoil(d, r, TIME, |_, _| 0)),
    edge(8, "time not finite right before a lesser", four_or_more, |d, r| {
        spoil(d, r, TIME, |at, _| at);
    }),
    edge(8, "time not finite for a lesser", four_or_more, |d, r| spoil(d, r, TIME, |at, _| at + 1)),
    edge(8, "time not finite after a lesser", four_or_more, |d, r| spoil(d, r, TIME, |_, end| end)),
    edge(8, "offset not finite before a lesser time", four_or_more, |d, r| {
        spoil(d, r, OFFSET, |_, _| 0);
    }),
    edge(8, "offset not finite right before a lesser time", four_or_more, |d, r| {
        spoil(d, r, OFFSET, |at, _| at);
    }),
    edge(8, "offset not finite beside a lesser time", four_or_more, |d, r| {
        spoil(d, r, OFFSET, |at, _| at + 1);
    }),
    edge(8, "offset not finite after a lesser time", four_or_more, |d, r| {
        spoil(d, r, OFFSET, |_, end| end);
    }),
    edge(8, "infinite time last, the others from zero up", two_or_more, |d, r| {
        set_from_zero(d, r);
        set_time(d, last(d), f64::INFINITY);
    }),
    edge(8, "infinite time first, below all", two_or_more, |d, _| {
        set_time(d, 0, f64::NEG_INFINITY);
    }),
    edge(8, "no number last, its bits above all others'", two_or_more, |d, r| {
        set_from_zero(d, r);
        set_number(d, last(d), TIME, r.range(0x7FF0_0000_0000_0001, i64::MAX) as u64);
    }),
    edge(8, "offset not finite in the first entry", two_or_more, |d, r| spoil_offset(d, r, 0)),
    edge(8, "offset not finite within", four_or_more, |d, r| spoil_offset(d, r, last(d) / 2)),
    edge(8, "offset not finite in the last entry", two_or_more, |d, r| spoil_offset(d, r, last(d))),
    edge(8, "the only time not finite", trigtime_of_one, |d, r| {
        set_number(d, 0, TIME, floats::not_finite_wide(r));
    }),
];

// Another edge may have left a table of one entry or none.

fn count(draft: &Draft) -> usize {
    draft.trigtime.len() / 16
}

fn last(draft: &Draft) -> usize {
    count(draft).saturating_sub(1)
}

/// The entry with which the last pair starts.
pub fn last_pair(draft: &Draft) -> usize {
    count(draft).saturating_sub(2)
}

/// The entry with which a pair starts, neither the first pair nor the last.
fn within(draft: &Draft, random: &mut Random) -> usize {
    1 + random.below(last_pair(draft).saturating_sub(1).max(1))
}

fn set_number(draft: &mut Draft, entry: usize, column: usize, bits: u64) {
    let at = 16 * entry + 8 * column;
    if let Some(place) = draft.trigtime.get_mut(at..at + 8) {
        store(place, draft.order, bits);
    }
}

fn set_time(draft: &mut Draft, entry: usize, time: f64) {
    set_number(draft, entry, TIME, time.to_bits());
}

fn set_times(draft: &mut Draft, times: impl IntoIterator<Item = f64>) {
    for (entry, time) in (0..count(draft)).zip(times) {
        set_time(draft, entry, time);
    }
}

pub fn set_from_zero(draft: &mut Draft, random: &mut Random) {
    set_times(draft, ascending_from_zero(random, count(draft)));
}

/// Offsets that run up, or backwards, by so much.
fn set_offsets(draft: &mut Draft, step: f64) {
    for entry in 0..count(draft) {
        set_number(draft, entry, OFFSET, (entry as f64 * step).to_bits());
    }
}

/// Puts two times side by side: at the first pair, the last, or any other.
fn put(draft: &mut Draft, random: &mut Random, pair: [f64; 2]) {
    let any = random.below(last_pair(draft) + 1);
    let at = random.pick(&[0, any, last_pair(draft)]);
    put_at(draft, random, at, pair);
}

/// Puts two times side by side. Those before ascend up to them, those behind go on from there, half
/// of the time all from zero up where they can.
fn put_at(draft: &mut Draft, random: &mut Random, at: usize, [first, second]: [f64; 2]) {
    let all = if random.once_in(2) { ascending } else { ascending_from_zero };
    let (low, high) = if second < first { (second, first) } else { (first, second) };
    let mut times = all(random, count(draft));
    for (entry, time) in times.iter_mut().enumerate() {
        *time = match entry.checked_sub(at) {
            Some(0) => first,
            Some(1) => second,
            Some(_) if *time < high => high,
            None if *time > low => low,
            _ => *time,
        };
    }
    set_times(draft, times);
}

/// A pair whose second time is less, and no other.
pub fn break_at(draft: &mut Draft, random: &mut Random, at: usize) {
    let pair = lesser(random);
    put_at(draft, random, at, pair);
}

/// No time is less than the first one.
fn break_within(draft: &mut Draft, random: &mut Random) {
    let at = within(draft, random);
    break_at(draft, random, at);
}

fn break_somewhere(draft: &mut Draft, random: &mut Random) {
    let pair = lesser(random);
    put(draft, random, pair);
}

/// Breaks the order, and puts a number that is not finite in an entry: which, by the entry before
/// the lesser time and by the last one.
fn spoil(draft: &mut Draft, random: &mut Random, column: usize, which: fn(usize, usize) -> usize) {
    let at = within(draft, random);
    break_at(draft, random, at);
    let entry = which(at, last(draft));
    set_number(draft, entry, column, floats::not_finite_wide(random));
}

/// An offset that is not finite beside times from zero up.
fn spoil_offset(draft: &mut Draft, random: &mut Random, entry: usize) {
    set_from_zero(draft, random);
    set_number(draft, entry, OFFSET, floats::not_finite_wide(random));
}
