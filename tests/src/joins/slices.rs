//! Edges of the slice: headers, what stands between the parts, and where the slice ends.

use super::edges::*;
use super::parts::Parts;
use crate::draft::Draft;
use crate::law::descriptor::*;
use crate::random::Random;

pub static EDGES: &[Edge] = &[
    edge(0, "#9 alone", any, |p, _| p.each(|d| d.least_digits = 9)),
    edge(0, "no leading zeros", any, |p, _| p.each(|d| d.least_digits = 1)),
    edge(0, "a header of its own for each part", three_or_more, |p, _| {
        let mut digits = 2;
        p.each(|d| {
            digits = if digits == 9 { 3 } else { digits + 1 };
            d.least_digits = digits;
        });
    }),
    edge(0, "last samples that are new lines", any, |p, _| p.each(|d| set_last_byte(d, b'\n'))),
    edge(0, "last samples that are #", any, |p, _| p.each(|d| set_last_byte(d, b'#'))),
    // What stands between and behind
    edge(1, "a new line behind the first part", two_or_more, |p, _| p.first(add_new_line)),
    edge(1, "a new line behind a part", any, |p, r| p.one(r, |d, _| add_new_line(d))),
    edge(1, "a new line behind each part", any, |p, _| p.each(add_new_line)),
    edge(1, "a new line behind the last part", any, |p, _| p.last(add_new_line)),
    edge(1, "a new line behind one part", one, |p, _| p.last(add_new_line)),
    edge(1, "another byte behind a part", any, |p, r| {
        p.one(r, |d, r| d.tail.push(r.pick(&[0, 9, 13, b' ', b'9', 0xFF])));
    }),
    edge(1, "a new line alone", any, |p, _| {
        p.drafts.clear();
        p.tail = vec![b'\n'];
    }),
    edge(1, "# behind the last", any, |p, _| p.tail = b"#".to_vec()),
    edge(1, "#9 behind the last", any, |p, _| p.tail = b"#9".to_vec()),
    edge(1, "a header without its last digit behind the last", any, |p, _| {
        p.tail = b"#900000034".to_vec();
    }),
    edge(2, "a header alone behind the last", any, |p, r| {
        p.tail = r.pick(&[b"#9000000347", b"#9000000346"]).to_vec();
    }),
    edge(2, "a header of L 0 behind the last", any, |p, _| p.tail = b"#10".to_vec()),
    edge(2, "a header of L 0 between two parts", two_or_more, |p, _| {
        p.first(|d| d.tail = b"#3000".to_vec());
    }),
    // Headers
    edge(1, "the first byte of a part", any, |p, r| {
        p.one(r, |d, r| d.hash = r.pick(b"\0\"$9 \n"));
    }),
    edge(1, "#0", any, |p, r| p.one(r, |d, _| d.count = Some(b'0'))),
    edge(1, "d that is no digit", any, |p, r| p.one(r, |d, r| d.count = Some(r.pick(b"/:A\xB9")))),
    edge(1, "a wrong digit", any, |p, r| {
        p.one(r, |d, r| {
            let mut digits = d.digits();
            let place = r.below(digits.len());
            digits[place] = r.pick(b"/: +\xB0");
            d.digits = Some(digits);
        });
    }),
    edge(2, "stated L 345", any, |p, r| p.one(r, |d, _| d.set_stated(345))),
    edge(2, "stated L 16,777,217 and beyond", any, |p, r| {
        p.one(r, |d, r| d.digits = Some(r.pick(&[b"016777217", b"999999999"]).to_vec()));
    }),
    edge(2, "stated L one more in the last", any, |p, _| p.last(|d| add_to_stated(d, 1))),
    edge(5, "stated L one less", any, |p, r| p.one(r, |d, _| d.set_stated(d.payload_len() - 1))),
    edge(5, "stated L one more, and a part behind", two_or_more, |p, _| {
        p.first(|d| add_to_stated(d, 1));
    }),
    edge(5, "stated L with the next part in it", two_or_more, |p, _| {
        let next = p.drafts.get(1).map_or(0, |d| d.bytes().len());
        p.first(|d| add_to_stated(d, next));
    }),
    // Where the slice ends
    edge(2, "the last byte missing", any, |p, _| p.drop_last_byte()),
    edge(2, "the last payload cut short", any, |p, r| {
        let header = p.drafts.last().map_or(0, Draft::header_len);
        keep(p, r, header, |payload| payload);
    }),
    edge(2, "the last header alone", any, |p, r| {
        let header = p.drafts.last().map_or(0, Draft::header_len);
        keep(p, r, header, |_| 1);
    }),
    edge(1, "the last header cut short", any, |p, r| {
        let header = p.drafts.last().map_or(2, Draft::header_len);
        let some = 1 + r.below(header - 1);
        keep(p, r, some, |_| 1);
    }),
    // A bad part and another
    edge(4, "COMM_TYPE 2", any, |p, r| p.one(r, |d, _| d.set_word(COMM_TYPE, 2))),
    edge(7, "FIRST_POINT in the first, COMM_TYPE in the last", two_or_more, |p, _| {
        p.last(|d| d.set_word(COMM_TYPE, 2));
        p.first(|d| d.set_long(FIRST_POINT, -1));
    }),
    edge(3, "a name in the first, SPARSING_FACTOR in the last", two_or_more, |p, _| {
        p.last(|d| d.set_long(SPARSING_FACTOR, -1));
        p.first(|d| d.head[8] = b'S');
    }),
    edge(4, "COMM_TYPE in the last, an index twice before it", three_or_more, |p, _| {
        let index = p.drafts.first().map_or(0, |d| d.long(SEGMENT_INDEX));
        p.drafts.iter_mut().take(2).for_each(|d| d.set_long(SEGMENT_INDEX, index));
        p.last(|d| d.set_word(COMM_TYPE, 2));
    }),
    edge(7, "FIRST_POINT in the last, another text before it", two_or_more, |p, _| {
        p.first(|d| d.user_text.push(0));
        p.first(Draft::fit_lengths);
        p.last(|d| d.set_long(FIRST_POINT, -1));
    }),
    edge(2, "the last cut short, index 0 before it", two_or_more, |p, _| {
        p.first(|d| d.set_long(SEGMENT_INDEX, 0));
        p.drop_last_byte();
    }),
    edge(8, "a gain in the first, the last cut short", two_or_more, |p, _| {
        p.first(|d| d.set_float(VERTICAL_GAIN, 0x7F80_0000));
        p.drop_last_byte();
    }),
];

fn add_new_line(draft: &mut Draft) {
    draft.tail.push(b'\n');
}

/// The last byte of the part's last array.
fn set_last_byte(draft: &mut Draft, byte: u8) {
    let array = if draft.array_2.is_empty() { &mut draft.array_1 } else { &mut draft.array_2 };
    if let Some(last) = array.last_mut() {
        *last = byte;
    }
}

/// States a longer payload, in so many digits or in one more.
fn add_to_stated(draft: &mut Draft, more: usize) {
    draft.set_stated(draft.payload_len() + more);
}

/// Keeps so many bytes of the last part, and some of those behind: fewer than `most` says of them.
fn keep(parts: &mut Parts, random: &mut Random, bytes: usize, most: fn(usize) -> usize) {
    let behind = parts.drafts.last().map_or(1, |draft| draft.bytes().len() - bytes);
    parts.kept = Some(parts.last_start() + bytes + random.below(most(behind).max(1)));
}
