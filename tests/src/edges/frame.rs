//! Edges of rules 1 to 4: the frame, the names, the form.

use super::shapes::*;
use super::{edge, Edge};
use crate::draft::{Draft, BEHIND_NAMES};
use crate::law::descriptor::*;
use crate::random::Random;
use std::ops::Range;

pub static EDGES: &[Edge] = &[
    // 1 FRAME
    edge(1, "empty slice", any, |d, _| d.kept = Some(0)),
    edge(1, "one byte", any, |d, _| d.kept = Some(1)),
    edge(1, "two bytes", any, |d, _| d.kept = Some(2)),
    edge(1, "a header cut short", any, |d, r| d.kept = Some(r.below(d.header_len()))),
    edge(1, "a header one byte short", any, |d, _| d.kept = Some(d.header_len() - 1)),
    edge(2, "a header alone", any, |d, _| d.kept = Some(d.header_len())),
    edge(1, "first byte", any, |d, r| d.hash = r.pick(b"\0\"$9 ")),
    edge(1, "#0", any, |d, _| d.count = Some(b'0')),
    edge(1, "#0 and no digits", any, |d, _| d.digits = Some(vec![])),
    edge(1, "d beside the digits", any, |d, r| d.count = Some(r.pick(b"/:"))),
    edge(1, "ten digits", any, |d, _| d.least_digits = 10),
    edge(1, "d that is no digit", any, |d, r| d.count = Some(r.pick(b"\0 #A\xB9\xFF"))),
    edge(1, "d one more than the digits", any, |d, r| {
        d.least_digits = 1 + r.below(8);
        d.count = Some(b'1' + d.digits().len() as u8);
    }),
    edge(2, "d one less than the digits", any, |d, _| {
        d.count = Some(b'0' - 1 + d.digits().len() as u8);
    }),
    edge(2, "#1", any, |d, r| few_digits(d, r, 1)),
    edge(2, "#2", any, |d, r| few_digits(d, r, 2)),
    edge(2, "#1 or #2 with L bytes", any, |d, r| {
        let count = 1 + r.below(2);
        few_digits(d, r, count);
        let stated = d.digits().iter().fold(0, |n, digit| 10 * n + usize::from(digit - b'0'));
        d.kept = Some(d.header_len() + stated);
    }),
    edge(0, "#3", short, |d, _| d.least_digits = 3),
    edge(0, "#4", short, |d, _| d.least_digits = 4),
    edge(0, "#5", short, |d, _| d.least_digits = 5),
    edge(0, "#6", short, |d, _| d.least_digits = 6),
    edge(0, "#7", short, |d, _| d.least_digits = 7),
    edge(0, "#8", short, |d, _| d.least_digits = 8),
    edge(0, "#9", short, |d, _| d.least_digits = 9),
    edge(0, "no leading zeros", any, |d, _| d.least_digits = 1),
    edge(1, "byte below the digits", any, |d, r| set_digit(d, r, b'/')),
    edge(1, "byte above the digits", any, |d, r| set_digit(d, r, b':')),
    edge(1, "sign, blank or high bit", any, |d, r| {
        let byte = r.pick(b"+- \0\xB0\xFF");
        set_digit(d, r, byte);
    }),
    // 2 LENGTH
    edge(2, "L 345", any, |d, _| {
        let Draft { order, least_digits, .. } = *d;
        *d = Draft { head: d.head.clone(), least_digits, ..Draft::plain(order) };
        d.head.pop();
    }),
    edge(2, "stated L 0", any, |d, r| {
        d.set_stated(0);
        let header = d.header_len();
        d.kept = r.pick(&[None, Some(header), Some(header + 1)]);
    }),
    edge(2, "stated L all nines", any, |d, r| d.digits = Some(vec![b'9'; 6 + r.below(4)])),
    edge(2, "stated L without its highest digit", any, |d, _| {
        d.least_digits = 1;
        d.digits = Some(d.digits()[1..].to_vec());
    }),
    edge(2, "one byte short", any, |d, _| {
        d.tail.clear();
        d.kept = Some(d.header_len() + d.payload_len() - 1);
    }),
    edge(2, "stated L one more", any, |d, _| {
        d.tail.clear();
        d.set_stated(d.payload_len() + 1);
    }),
    edge(2, "stated L one more, new line in its place", any, |d, _| {
        d.tail = vec![10, 11];
        d.set_stated(d.payload_len() + 1);
    }),
    edge(2, "stated L one less, no new line", any, |d, _| {
        d.tail.clear();
        set_last_byte(d, 11);
        d.set_stated(d.payload_len() - 1);
    }),
    edge(5, "last sample passes for the new line", any, |d, _| {
        d.tail.clear();
        set_last_byte(d, 10);
        d.set_stated(d.payload_len() - 1);
    }),
    edge(0, "last sample is a new line", any, |d, _| {
        d.tail.clear();
        set_last_byte(d, 10);
    }),
    edge(0, "nothing behind", any, |d, _| d.tail.clear()),
    edge(0, "new line behind", any, |d, _| d.tail = vec![10]),
    edge(2, "another byte behind", any, |d, r| d.tail = vec![r.pick(&[0, 9, 11, 13, 32, 138])]),
    edge(2, "two new lines behind", any, |d, _| d.tail = vec![10, 10]),
    edge(2, "carriage return and new line", any, |d, _| d.tail = vec![13, 10]),
    edge(2, "more behind the new line", any, |d, r| {
        let more = 1 + r.below(40);
        d.tail = [vec![10], r.bytes(more)].concat();
    }),
    // 3 NAME
    edge(3, "a bit of the first name", any, |d, r| flip_bit(d, r, 0..8)),
    edge(3, "a bit of the second name", any, |d, r| flip_bit(d, r, 16..26)),
    edge(3, "a bit of the first name's zero byte", any, |d, r| flip_bit(d, r, 8..9)),
    edge(3, "a bit of the second name's zero byte", any, |d, r| flip_bit(d, r, 26..27)),
    edge(3, "a name one character longer", any, |d, r| {
        let zero = r.pick(&[8, 26]);
        d.head[zero] = r.pick(b" 03Cx");
        d.head[zero + 1] = 0;
    }),
    edge(3, "a name with no zero byte", any, |d, r| {
        let behind = BEHIND_NAMES[r.below(2)].clone();
        set_old_bytes(d, r, behind.start - 1..behind.end);
    }),
    edge(3, "a name one character shorter", any, |d, r| d.head[r.pick(&[7, 25])] = 0),
    edge(3, "a name equal only up to a zero byte", any, |d, r| {
        let (first, second) = (r.below(8), 16 + r.below(10));
        d.head[r.pick(&[first, second])] = 0;
    }),
    edge(0, "names filled with zero bytes", any, |d, _| d.fill_names()),
    edge(0, "old bytes behind the first name's zero byte", any, |d, r| {
        d.fill_names();
        set_old_bytes(d, r, BEHIND_NAMES[0].clone());
    }),
    edge(0, "old bytes behind the second name's zero byte", any, |d, r| {
        d.fill_names();
        set_old_bytes(d, r, BEHIND_NAMES[1].clone());
    }),
    edge(0, "one byte right behind a name's zero byte", any, |d, r| {
        d.fill_names();
        d.head[r.pick(&[9, 27])] = r.pick(b"\x01 0\xFF");
    }),
    edge(0, "one byte at the end of a name's sixteen", any, |d, r| {
        d.fill_names();
        d.head[r.pick(&[15, 31])] = 1;
    }),
    edge(3, "another template", any, |d, r| d.head[25] = r.pick(b"0124")),
    edge(3, "names change places", any, |d, _| d.head[..32].rotate_left(16)),
    edge(3, "small letters", any, |d, _| d.head[..16].make_ascii_lowercase()),
    // 4 FORM
    edge(4, "COMM_ORDER 00 01", any, |d, _| set_comm_order(d, [0, 1])),
    edge(4, "COMM_ORDER 01 01", any, |d, _| set_comm_order(d, [1, 1])),
    edge(4, "COMM_ORDER with a high second byte", any, |d, r| {
        let first = r.pick(&[0, 1]);
        set_comm_order(d, [first, 1 << r.below(8)]);
    }),
    edge(4, "COMM_ORDER 02 00 and up", any, |d, r| set_comm_order(d, [2 + r.below(254) as u8, 0])),
    edge(4, "COMM_TYPE 2", any, |d, _| d.set_word(COMM_TYPE, 2)),
    edge(4, "COMM_TYPE -1", any, |d, _| d.set_word(COMM_TYPE, -1)),
    edge(4, "COMM_TYPE 1 in the other order", any, |d, _| d.set_word(COMM_TYPE, 256)),
    edge(4, "COMM_TYPE with a high byte", any, |d, r| {
        let low = r.range(0, 1);
        d.set_word(COMM_TYPE, low + 256 * r.range(1, 255));
    }),
    edge(5, "byte block under the other order", byte, |d, _| {
        let other = 1 - d.head[COMM_ORDER] - d.head[COMM_ORDER + 1];
        set_comm_order(d, [other, 0]);
    }),
];

fn set_digit(draft: &mut Draft, random: &mut Random, byte: u8) {
    let mut digits = draft.digits();
    let at = random.below(digits.len());
    digits[at] = byte;
    draft.digits = Some(digits);
}

/// So many digits, fewer than any payload's length has.
fn few_digits(draft: &mut Draft, random: &mut Random, count: usize) {
    draft.digits = Some((0..count).map(|_| b'0' + random.below(10) as u8).collect());
}

fn set_last_byte(draft: &mut Draft, byte: u8) {
    let array = if draft.array_2.is_empty() { &mut draft.array_1 } else { &mut draft.array_2 };
    if let Some(last) = array.last_mut() {
        *last = byte;
    }
}

fn flip_bit(draft: &mut Draft, random: &mut Random, of: Range<usize>) {
    let at = of.start + random.below(of.len());
    draft.head[at] ^= 1 << random.below(8);
}

/// Puts bytes other than zero there.
fn set_old_bytes(draft: &mut Draft, random: &mut Random, there: Range<usize>) {
    for byte in &mut draft.head[there] {
        *byte = 1 + random.below(255) as u8;
    }
}

fn set_comm_order(draft: &mut Draft, bytes: [u8; 2]) {
    draft.head[COMM_ORDER..COMM_ORDER + 2].copy_from_slice(&bytes);
}
