//! Edges of the joined block's rules: trigger times of all parts, and RISTIME.

use super::edges::*;
use super::parts::{Parts, Plan};
use crate::draft::Draft;
use crate::floats;
use crate::law::descriptor::*;
use crate::law::numbers::store;
use crate::random::Random;
use crate::shape::Table;
use crate::times::*;

pub static EDGES: &[Edge] = &[
    edge(0, "TRIGGER_TIMEs of two parts", |n, r| trigtime_of(n, r, 2), as_they_are),
    edge(0, "TRIGGER_TIMEs all equal", trigtime, |p, r| {
        let time = any_time(r);
        p.each(|d| set_time(d, time));
    }),
    edge(0, "zeros of both signs", trigtime, |p, r| p.each(|d| set_time(d, zero(r)))),
    edge(0, "-0.0 behind 0.0", trigtime, |p, r| put(p, r, [0.0, -0.0])),
    edge(0, "one unit more", trigtime, |p, r| {
        let (low, high) = neighbours(r);
        put(p, r, [low, high]);
    }),
    edge(16, "one unit less", trigtime, |p, r| {
        let (low, high) = neighbours(r);
        put(p, r, [high, low]);
    }),
    edge(16, "less by any", trigtime, |p, r| {
        let times = lesser(r);
        put(p, r, times);
    }),
    edge(16, "the least below a zero behind it", trigtime, |p, r| {
        let zero = zero(r);
        put(p, r, [zero, -LEAST]);
    }),
    edge(16, "the first two out of order", trigtime_of_three, |p, _| {
        set_times(p, |index| if index == 1 { 1.5 } else { index as f64 - 1.0 });
    }),
    edge(16, "the last two out of order", trigtime_of_three, |p, _| {
        let n = p.count();
        set_times(p, |index| if index == n { n as f64 - 1.5 } else { index as f64 });
    }),
    edge(16, "all turned round", trigtime, |p, _| set_times(p, |index| -index as f64)),
    edge(16, "in order as they come, not by index", trigtime_of_three, |p, _| {
        p.sort_first_last();
        set_in_order_of_arrival(p);
    }),
    edge(0, "in order by index, not as they come", trigtime_of_three, |p, _| {
        p.sort_first_last();
        set_times(p, |index| index as f64);
    }),
    edge(0, "TRIGGER_OFFSETs that run backwards", trigtime, |p, _| {
        p.each(|d| set_double(d, 8, -d.long(SEGMENT_INDEX) as f64));
    }),
    edge(8, "a TRIGGER_OFFSET that is no number", trigtime, |p, r| {
        let bits = floats::not_finite_wide(r);
        p.one(r, |d, _| set_double(d, 8, f64::from_bits(bits)));
    }),
    edge(0, "RISTIME of one part", ristime_of_one, as_they_are),
    edge(16, "RISTIME, the same in all", no_table, |p, r| {
        let entries = r.range(1, 6);
        let table: Vec<u64> = (0..entries).map(|_| floats::finite_wide(r)).collect();
        p.each(|d| set_ristime(d, &table));
    }),
    edge(16, "RISTIME, another in each", no_table, |p, r| {
        let entries = r.range(1, 6);
        p.each(|d| {
            let table: Vec<u64> = (0..entries).map(|_| floats::finite_wide(r)).collect();
            set_ristime(d, &table);
        });
    }),
    edge(16, "RISTIME of two parts with index 0", no_table, |p, _| {
        p.each(|d| set_ristime(d, &[0]));
        p.each(|d| d.set_long(SEGMENT_INDEX, 0));
    }),
];

fn trigtime_of(plan: &mut Plan, random: &mut Random, count: i64) {
    plan.set_count(count, random);
    plan.shape.table = Table::Trigtime;
}

fn ristime_of_one(plan: &mut Plan, random: &mut Random) {
    plan.set_count(1, random);
    plan.shape.table = Table::Ristime(random.range(1, 10));
}

fn set_double(draft: &mut Draft, at: usize, number: f64) {
    if draft.trigtime.len() == 16 {
        store(&mut draft.trigtime[at..at + 8], draft.order, number.to_bits());
    }
}

fn set_time(draft: &mut Draft, time: f64) {
    set_double(draft, 0, time);
}

pub fn set_times(parts: &mut Parts, time: impl Fn(i64) -> f64) {
    parts.each(|draft| set_time(draft, time(draft.long(SEGMENT_INDEX))));
}

fn set_in_order_of_arrival(parts: &mut Parts) {
    let mut arrival = 0.0;
    parts.each(|draft| {
        arrival += 1.0;
        set_time(draft, arrival);
    });
}

/// Puts two times to neighbours by index; those before are the first of the two and those behind
/// are the greater, so that nothing else is out of order.
fn put(parts: &mut Parts, random: &mut Random, [first, second]: [f64; 2]) {
    let before = random.range(1, parts.count().max(2) - 1);
    set_times(parts, |index| match index {
        _ if index <= before => first,
        _ if index == before + 1 => second,
        _ => first.max(second),
    });
}

fn set_ristime(draft: &mut Draft, table: &[u64]) {
    draft.trigtime.clear();
    draft.ristime = draft.doubles(table);
    draft.set_word(RIS_SWEEPS, table.len() as i64);
    draft.fit_lengths();
}
