//! Edges that need a long block: few cases take them.

use super::shapes::*;
use super::times::{break_at, last_pair, set_from_zero};
use super::{as_it_is, edge, Edge};
use crate::draft::Draft;
use crate::law::descriptor::SIZE;
use crate::law::rules::LONGEST_PAYLOAD;
use crate::random::Random;
use crate::shape::{Shape, Table};

pub static EDGES: &[Edge] = &[
    edge(0, "#8 and L 16,777,216", any, |d, r| lengthen(d, r, LONGEST_PAYLOAD, 8)),
    edge(0, "#9 and L 16,777,216", any, |d, r| lengthen(d, r, LONGEST_PAYLOAD, 9)),
    edge(2, "#8 and L 16,777,217", any, |d, r| lengthen(d, r, LONGEST_PAYLOAD + 1, 8)),
    edge(2, "#9 and L 16,777,217", any, |d, r| lengthen(d, r, LONGEST_PAYLOAD + 1, 9)),
    edge(0, "RIS_SWEEPS 32,767", |s, r| long_ristime(s, r, 32_767), as_it_is),
    edge(6, "RIS_SWEEPS 32,768", |s, r| long_ristime(s, r, 32_768), as_it_is),
    edge(0, "L 16,777,216, nearly all of it samples", longest_array, |d, r| {
        lengthen(d, r, LONGEST_PAYLOAD, 8);
    }),
    edge(0, "a long array", long_array, as_it_is),
    edge(0, "65,537 segments", long_trigtime, as_it_is),
    edge(8, "last of 65,537 TRIGTIME entries", long_trigtime, |d, _| {
        let last = d.trigtime.len() - 8;
        d.trigtime[last..].fill(0xFF);
    }),
    edge(0, "65,537 TRIGGER_TIMEs from zero up", long_trigtime, set_from_zero),
    edge(20, "last of 65,537 TRIGGER_TIMEs", long_trigtime, |d, r| break_at(d, r, last_pair(d))),
];

/// Lengthens the user text until the payload has so many bytes, under a header of so many digits.
fn lengthen(draft: &mut Draft, random: &mut Random, payload_len: usize, digits: usize) {
    draft.least_digits = digits;
    let more = random.bytes(payload_len - draft.payload_len());
    draft.user_text.extend(more);
    draft.fit_lengths();
}

fn long_ristime(shape: &mut Shape, random: &mut Random, entries: i64) {
    one_segment(shape, random);
    shape.table = Table::Ristime(entries);
}

fn longest_array(shape: &mut Shape, _: &mut Random) {
    shape.word = true;
    shape.two_arrays = false;
    shape.subarrays = 4;
    shape.table = Table::None;
    shape.user_text = 0;
    shape.points = (LONGEST_PAYLOAD - SIZE) as i64 / 8;
}

fn long_array(shape: &mut Shape, random: &mut Random) {
    shape.subarrays = random.range(0, 3);
    shape.table = if shape.subarrays < 2 { Table::Ristime(7) } else { Table::Trigtime };
    shape.points = random.range(65_530, 80_000);
}

fn long_trigtime(shape: &mut Shape, random: &mut Random) {
    shape.subarrays = 65_537;
    shape.points = random.range(1, 3);
    shape.table = Table::Trigtime;
}
