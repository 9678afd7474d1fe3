//! Edges of descriptors and user texts that must be equal: one part differs from the others in one
//! thing that no rule judges, or in one that leaves it a good block.

use super::edges::*;
use super::parts::Parts;
use crate::draft::{Draft, BEHIND_NAMES};
use crate::law::descriptor::*;
use crate::law::numbers::Order;
use crate::random::Random;
use std::ops::Range;

/// What no rule judges in a block without RISTIME.
const FREE: [Range<usize>; 8] = [
    9..16,    // behind DESCRIPTOR_NAME
    27..32,   // behind TEMPLATE_NAME
    76..116,  // INSTRUMENT_NAME to the reserved words
    120..132, // PNTS_PER_SCREEN to LAST_VALID_PNT
    148..156, // SWEEPS_PER_ACQ to PAIR_OFFSET
    164..176, // MAX_VALUE to NOM_SUBARRAY_COUNT
    188..292, // PIXEL_OFFSET to HORUNIT
    292..346, // HORIZ_UNCERTAINTY to WAVE_SOURCE
];

pub static EDGES: &[Edge] = &[
    // Bytes that no rule judges
    edge(16, "a byte behind the first name's zero byte", two_or_more, |p, r| {
        flip(p, r, BEHIND_NAMES[0].clone());
    }),
    edge(16, "a byte behind the second name's zero byte", two_or_more, |p, r| {
        flip(p, r, BEHIND_NAMES[1].clone());
    }),
    edge(16, "one of the first two reserved words", two_or_more, |p, r| flip(p, r, 112..116)),
    edge(16, "the third reserved word", two_or_more, |p, r| flip(p, r, 320..322)),
    edge(16, "the unused word", two_or_more, |p, r| flip(p, r, 310..312)),
    edge(16, "a name or a label", two_or_more, |p, r| flip_any(p, r, &[76..92, 96..112])),
    edge(16, "a unit", two_or_more, |p, r| flip_any(p, r, &[196..244, 244..292])),
    edge(16, "a number that no rule judges", two_or_more, |p, r| {
        flip_any(p, r, &[92..96, 120..132]);
    }),
    edge(16, "SWEEPS_PER_ACQ, behind the index", two_or_more, |p, r| flip(p, r, 148..152)),
    edge(16, "the time of the trigger", two_or_more, |p, r| flip(p, r, 296..310)),
    edge(16, "RIS_SWEEPS without RISTIME", two_or_more, |p, r| flip(p, r, 322..324)),
    edge(16, "the last byte of the descriptor", two_or_more, |p, r| flip(p, r, 345..346)),
    edge(16, "any byte that no rule judges", two_or_more, |p, r| flip_any(p, r, &FREE)),
    edge(16, "a number for no number", two_or_more, |p, r| {
        // MAX_VALUE: quiet and signalling
        p.each(|d| d.set_float(164, 0x7FC0_0000));
        p.one(r, |d, _| d.set_float(164, 0x7F80_0001));
    }),
    // Numbers that rules judge
    edge(16, "FIRST_POINT beside the others'", one_point, |p, r| {
        p.one(r, |d, _| {
            let first = d.long(FIRST_POINT);
            d.set_long(FIRST_POINT, if first > 0 { first - 1 } else { 1 });
        });
    }),
    edge(16, "SPARSING_FACTOR 1 beside 0", two_or_more, |p, r| {
        p.each(|d| d.set_long(SPARSING_FACTOR, 0));
        p.one(r, |d, _| d.set_long(SPARSING_FACTOR, 1));
    }),
    edge(16, "SUBARRAY_COUNT 1 beside 0", two_or_more, |p, r| {
        p.one(r, |d, _| d.set_long(SUBARRAY_COUNT, 1 - d.long(SUBARRAY_COUNT).clamp(0, 1)));
    }),
    edge(0, "SPARSING_FACTOR 0", two_or_more, |p, _| p.each(|d| d.set_long(SPARSING_FACTOR, 0))),
    edge(0, "SUBARRAY_COUNT 0", any, |p, _| p.each(|d| d.set_long(SUBARRAY_COUNT, 0))),
    edge(0, "SUBARRAY_COUNT 1", any, |p, _| p.each(|d| d.set_long(SUBARRAY_COUNT, 1))),
    edge(16, "one unit of a float", two_or_more, |p, r| {
        p.one(r, |d, r| {
            let at = r.pick(&[VERTICAL_GAIN, VERTICAL_OFFSET, HORIZ_INTERVAL]);
            d.set_long(at, d.long(at) ^ 1);
        });
    }),
    edge(16, "a zero of the other sign", two_or_more, |p, r| {
        let at = r.pick(&[VERTICAL_GAIN, VERTICAL_OFFSET, HORIZ_INTERVAL]);
        p.each(|d| d.set_float(at, 0));
        p.one(r, |d, _| d.set_float(at, 1 << 31));
    }),
    edge(16, "HORIZ_OFFSET, a zero of the other sign", two_or_more, |p, r| {
        p.each(|d| d.set_double(HORIZ_OFFSET, 0));
        p.one(r, |d, _| d.set_double(HORIZ_OFFSET, 1 << 63));
    }),
    edge(16, "one point more", two_or_more, |p, r| {
        p.each(|d| d.set_long(SPARSING_FACTOR, 1));
        p.each(|d| d.set_long(FIRST_POINT, 0));
        p.one(r, |d, _| {
            let width = d.width;
            d.array_1.extend([1, 2].iter().take(width));
            if !d.array_2.is_empty() {
                d.array_2.extend([3, 4].iter().take(width));
            }
            d.set_long(WAVE_ARRAY_COUNT, d.long(WAVE_ARRAY_COUNT) + 1);
            d.fit_lengths();
        });
    }),
    edge(16, "the other sample width", two_or_more, |p, r| {
        p.one(r, |d, _| {
            let length = d.array_1.len() / d.width * (3 - d.width);
            d.array_1.resize(length, 1);
            if !d.array_2.is_empty() {
                d.array_2.resize(length, 2);
            }
            d.set_width(3 - d.width);
            d.fit_lengths();
        });
    }),
    edge(16, "with TRIGTIME beside without", two_or_more, |p, r| {
        p.one(r, |d, _| {
            d.trigtime.resize(16 - d.trigtime.len().min(16), 0);
            d.fit_lengths();
        });
    }),
    edge(16, "with array 2 beside without", two_or_more, |p, r| {
        p.one(r, |d, _| {
            d.array_2 = if d.array_2.is_empty() { d.array_1.clone() } else { vec![] };
            d.fit_lengths();
        });
    }),
    edge(16, "the other byte order", two_or_more, |p, r| p.one(r, |d, _| turn(d))),
    edge(16, "the other byte order and no table", no_table, |p, r| p.one(r, |d, _| turn(d))),
    edge(0, "all in the other byte order", any, |p, _| p.each(turn)),
    // User texts
    edge(16, "the first byte of the user text", with_text, |p, r| flip_text(p, r, |_, _| 0)),
    edge(16, "the last byte of the user text", with_text, |p, r| flip_text(p, r, |n, _| n - 1)),
    edge(16, "a byte of the user text", with_text, |p, r| flip_text(p, r, |n, r| r.below(n))),
    edge(16, "a byte of the user text behind a zero byte", two_or_more, |p, r| {
        p.each(|d| d.user_text = b"ends\0old".to_vec());
        p.each(Draft::fit_lengths);
        p.one(r, |d, r| d.user_text[5 + r.below(3)] ^= 1 << r.below(8));
    }),
    edge(16, "a user text one byte longer", two_or_more, |p, r| {
        p.one(r, |d, r| {
            d.user_text.push(r.pick(b"\0 a"));
            d.fit_lengths();
        });
    }),
    edge(16, "a user text one byte shorter", with_text, |p, r| {
        p.one(r, |d, _| {
            d.user_text.pop();
            d.fit_lengths();
        });
    }),
    edge(16, "no user text beside one", with_text, |p, r| {
        p.one(r, |d, _| {
            d.user_text.clear();
            d.fit_lengths();
        });
    }),
    edge(0, "a user text with a part in it", two_or_more, |p, _| {
        let text = p.drafts.first().map(Draft::bytes).unwrap_or_default();
        p.each(|d| {
            d.user_text = text.clone();
            d.fit_lengths();
        });
    }),
];

/// Changes a bit of one part's descriptor, somewhere in a range.
fn flip(parts: &mut Parts, random: &mut Random, range: Range<usize>) {
    let at = range.start + random.below(range.len());
    let bit = 1 << random.below(8);
    parts.one(random, |draft, _| draft.head[at] ^= bit);
}

/// The same in one of some ranges.
fn flip_any(parts: &mut Parts, random: &mut Random, ranges: &[Range<usize>]) {
    let range = ranges[random.below(ranges.len())].clone();
    flip(parts, random, range);
}

/// Changes a bit of one part's user text, at a place by the text's length.
fn flip_text(parts: &mut Parts, random: &mut Random, place: fn(usize, &mut Random) -> usize) {
    parts.one(random, |draft, random| {
        let length = draft.user_text.len();
        if length > 0 {
            draft.user_text[place(length, random)] ^= 1 << random.below(8);
        }
    });
}

/// The same numbers in the other byte order.
fn turn(draft: &mut Draft) {
    draft.order = if draft.order == Order::HiFirst { Order::LoFirst } else { Order::HiFirst };
    for (at, width, count) in NUMBERS {
        draft.head[at..at + width * count].chunks_mut(width).for_each(<[u8]>::reverse);
    }
    draft.set_word(COMM_ORDER, i64::from(draft.order == Order::LoFirst));
    for table in [&mut draft.trigtime, &mut draft.ristime] {
        table.chunks_mut(8).for_each(<[u8]>::reverse);
    }
    for array in [&mut draft.array_1, &mut draft.array_2] {
        array.chunks_mut(draft.width).for_each(<[u8]>::reverse);
    }
}
