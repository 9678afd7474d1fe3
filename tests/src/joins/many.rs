//! Edges that need many parts, or long ones: few cases take them.

use super::edges::*;
use super::parts::{Parts, Plan};
use super::tables::set_times;
use crate::draft::Draft;
use crate::law::descriptor::*;
use crate::law::rules::LONGEST_PAYLOAD;
use crate::random::Random;
use crate::shape::Table;

pub static EDGES: &[Edge] = &[
    edge(0, "hundreds of parts", hundreds, as_they_are),
    edge(0, "999 parts", |n, r| n.set_many(999, r), as_they_are),
    edge(0, "1,000 parts", |n, r| n.set_many(1000, r), as_they_are),
    edge(16, "1,001 parts", |n, r| n.set_many(1001, r), as_they_are),
    edge(
        0,
        "1,001 parts and the last taken away",
        |n, r| n.set_many(1001, r),
        |p, _| {
            p.drafts.retain(|draft| draft.long(SEGMENT_INDEX) != 1001);
        },
    ),
    edge(
        4,
        "a bad part behind 1,001",
        |n, r| n.set_many(1001, r),
        |p, _| {
            let mut bad = p.drafts[0].clone();
            bad.set_word(COMM_TYPE, 2);
            p.drafts.push(bad);
        },
    ),
    edge(1, "a new line behind 1,001", |n, r| n.set_many(1001, r), |p, _| p.tail = vec![b'\n']),
    edge(
        2,
        "1,001 parts, the last cut short",
        |n, r| n.set_many(1001, r),
        |p, _| {
            p.drop_last_byte();
        },
    ),
    edge(
        16,
        "an index twice among 1,000",
        |n, r| n.set_many(1000, r),
        |p, r| {
            p.one(r, |d, _| d.set_long(SEGMENT_INDEX, d.long(SEGMENT_INDEX) % 1000 + 1));
        },
    ),
    edge(16, "a text of hundreds", hundreds, |p, r| {
        p.one(r, |d, _| {
            d.user_text.push(b'a');
            d.fit_lengths();
        });
    }),
    edge(16, "the last of hundreds of TRIGGER_TIMEs", hundreds_of_times, |p, _| {
        let n = p.count();
        set_times(p, |index| if index == n { 1.0 } else { 2.0 });
    }),
];

pub static LONGEST: &[Edge] = &[
    edge(0, "joined L 16,777,216", long, |p, r| lengthen(p, r, LONGEST_PAYLOAD)),
    edge(16, "joined L 16,777,217", long, |p, r| lengthen(p, r, LONGEST_PAYLOAD + 1)),
    edge(0, "parts that together are longer than a block", long, |p, r| {
        let text = r.bytes(LONGEST_PAYLOAD / 3 + 400);
        p.each(|d| {
            d.user_text = text.clone();
            d.fit_lengths();
        });
    }),
];

fn hundreds(plan: &mut Plan, random: &mut Random) {
    let count = random.range(100, 600);
    plan.set_many(count, random);
}

fn hundreds_of_times(plan: &mut Plan, random: &mut Random) {
    hundreds(plan, random);
    plan.shape.table = Table::Trigtime;
}

fn long(plan: &mut Plan, random: &mut Random) {
    let count = random.range(3, 5);
    plan.set_count(count, random);
}

/// Lengthens the arrays, and the user text by what is left, until the joined payload has so many
/// bytes.
fn lengthen(parts: &mut Parts, random: &mut Random, joined: usize) {
    let n = parts.drafts.len();
    let array = |draft: &Draft| draft.width * (joined / n / 2 / draft.width - 500);
    parts.each(|draft| {
        draft.array_1 = random.bytes(array(draft));
        draft.array_2 = random.bytes(array(draft));
        draft.set_long(WAVE_ARRAY_COUNT, (draft.array_1.len() / draft.width) as i64);
        draft.set_long(FIRST_POINT, 0);
        draft.set_long(SPARSING_FACTOR, 1);
    });
    let own = |draft: &Draft| draft.trigtime.len() + draft.array_1.len() + draft.array_2.len();
    let text = joined - SIZE - parts.drafts.iter().map(own).sum::<usize>();
    let text = random.bytes(text);
    parts.each(|draft| {
        draft.user_text = text.clone();
        draft.fit_lengths();
    });
}
