//! Crossings worked out by hand.

use super::{draft, listed, numbers, scaled, segmented, BOTH};
use crate::draft::Draft;
use crate::law::crossing::crossing;
use crate::law::descriptor::*;
use crate::law::numbers::Order;
use crate::samples::bytes;

/// What is answered for none.
const NONE: [u64; 2] = [0, 0];

/// The number that comes with so much room, and what the answer holds then.
fn asked(block: &[u8], choice: (u32, u32), level: f64, room: usize) -> (u32, Vec<u8>) {
    let mut answer = vec![7; room];
    let number = crossing(block, choice.0, choice.1, level, &mut answer);
    (number, answer)
}

/// What a crossing answers that nothing refuses.
fn crossed(block: &[u8], array: u32, segment: u32, level: f64) -> Vec<u64> {
    let (number, answer) = asked(block, (array, segment), level, 16);
    assert_eq!(number, 0);
    numbers(&answer)
}

/// Levels of the first segment of array 1, and the answers to them; in both types and orders.
fn check(samples: &[i64], gain: f32, offset: f32, table: &[(f64, [u64; 2])]) {
    for order in BOTH {
        for width in [1, 2] {
            let block = scaled(draft(order, samples, width), gain, offset).bytes();
            for (level, expected) in table {
                assert_eq!(crossed(&block, 1, 1, *level), expected, "level {level:e}");
            }
        }
    }
}

/// −1.75, 1.75, 0.75 and 4.25
#[test]
fn the_first_value_at_or_above() {
    let table = [
        (-1.76, [1, 0]),
        (-1.75, [1, 0]),
        (-1.74, [1, 1]),
        (0.75, [1, 1]),
        (1.75, [1, 1]),
        (1.76, [1, 3]),
        (4.25, [1, 3]),
        (4.26, NONE),
    ];
    check(&[-3, 4, 2, 9], 0.5, 0.25, &table);
}

/// −1.75, 1.75 and 9.75: the samples fall and the values rise.
#[test]
fn a_falling_gain() {
    let table = [
        (-1.75, [1, 0]),
        (-1.7, [1, 1]),
        (1.75, [1, 1]),
        (1.76, [1, 2]),
        (9.75, [1, 2]),
        (9.76, NONE),
    ];
    check(&[3, -4, -20], -0.5, 0.25, &table);
}

/// 0 × −1 − 0 is −0.0.
#[test]
fn either_zero_is_at_both() {
    let least = f64::from_bits(1);
    let table = [(0.0, [1, 0]), (-0.0, [1, 0]), (-least, [1, 0]), (least, NONE)];
    check(&[-1], 0.0, 0.0, &table);
    check(&[1], 0.0, 0.0, &table);
    check(&[1], -0.0, 0.0, &table);
    check(&[7], 1.0, 7.0, &table);
}

/// 1 × 1 − 2^−60 is rounded to 1, and 1 × 0 − 2^−60 is below 0.
#[test]
fn the_rounded_value_counts() {
    let small = 2f32.powi(-60);
    let one = 1f64;
    let table = [
        (-f64::from(small), [1, 0]),
        (0.0, [1, 1]),
        (one.next_down(), [1, 1]),
        (one, [1, 1]),
        (one.next_up(), NONE),
    ];
    check(&[0, 1], 1.0, small, &table);
    // 1 × 1 + 2^−60 is rounded to 1 too: it is not above it.
    check(&[0, 1], 1.0, -small, &[(one, [1, 1]), (one.next_up(), NONE)]);
    // Against an offset of 2^60 all these samples have one value.
    let swamped = -2f64.powi(60);
    let table = [(swamped, [1, 0]), (swamped.next_up(), NONE), (swamped.next_down(), [1, 0])];
    check(&[-3, 4, 2, 9], 1.0, 2f32.powi(60), &table);
}

#[test]
fn levels_beyond_every_value() {
    let table = [(f64::MAX, NONE), (f64::MIN, [1, 0]), (1e300, NONE), (-1e300, [1, 0])];
    check(&[-128, 127], f32::MAX, f32::MIN, &table);
    check(&[-128, 127], f32::MIN, f32::MAX, &table);
    // 2^−149 is the least value above 0: no level below it is above it.
    let least = 2f64.powi(-149);
    check(
        &[0, 1],
        f32::from_bits(1),
        0.0,
        &[(f64::from_bits(1), [1, 1]), (least, [1, 1]), (least.next_up(), NONE)],
    );
}

/// A word's bytes in the order of its block: 0x0100 and 0x0001, or the other way round.
#[test]
fn a_word_crosses_in_the_order_of_its_block() {
    for (order, expected) in [(Order::HiFirst, [1, 0]), (Order::LoFirst, [1, 1])] {
        let mut draft = scaled(draft(order, &[0; 2], 2), 1.0, 0.0);
        draft.array_1 = vec![1, 0, 0, 1];
        assert_eq!(crossed(&draft.bytes(), 1, 1, 2.0), expected);
    }
}

/// Three segments of two points in each of two arrays.
pub fn six_segments(order: Order) -> Draft {
    let mut draft = scaled(draft(order, &[1, 2, 9, 0, 3, 4], 1), 1.0, 0.0);
    draft.array_2 = bytes(order, 1, &[-1, -2, -3, 5, -5, -6]);
    draft.set_long(SUBARRAY_COUNT, 3);
    draft.set_long(FIRST_POINT, 4);
    draft.set_long(SPARSING_FACTOR, 6);
    draft.tail = vec![10];
    draft.fit_lengths();
    draft
}

#[test]
fn each_segment_of_each_array_by_itself() {
    for order in BOTH {
        let block = six_segments(order).bytes();
        let of_array = |array: u32, level: f64| {
            [1, 2, 3].map(|segment| crossed(&block, array, segment, level))
        };
        assert_eq!(of_array(1, 4.0), [NONE, [1, 0], [1, 1]]);
        assert_eq!(of_array(1, 2.0), [[1, 1], [1, 0], [1, 0]]);
        assert_eq!(of_array(1, 10.0), [NONE; 3]);
        assert_eq!(of_array(2, 4.0), [NONE, [1, 1], NONE]);
        assert_eq!(of_array(2, -5.0), [[1, 0]; 3]);
        assert_eq!(of_array(2, -2.5), [[1, 0], [1, 1], NONE]);
    }
}

#[test]
fn refusals_come_in_order() {
    let (block, one_array) = (six_segments(Order::HiFirst).bytes(), listed().bytes());
    let mut backwards = segmented(Order::LoFirst);
    backwards.trigtime = backwards.doubles(&[1f64, 0.0, 0.0, 0.0].map(f64::to_bits));
    let backwards = backwards.bytes();
    let table = [
        (&vec![], (0, 0), f64::NAN, 0, 1),
        (&backwards, (0, 0), f64::NAN, 0, 20),
        (&block, (0, 0), f64::NAN, 0, 9),
        (&block, (0, 1), 0.0, 16, 9),
        (&block, (3, 1), 0.0, 16, 9),
        (&one_array, (2, 1), 0.0, 16, 9),
        (&block, (1, 1), f64::NAN, 16, 9),
        (&block, (1, 4), f64::INFINITY, 0, 9),
        (&block, (1, 0), f64::NEG_INFINITY, 0, 9),
        (&block, (3, 4), 0.0, 0, 9),
        (&block, (2, 4), 0.0, 0, 10),
        (&block, (1, 0), 0.0, 15, 10),
        (&block, (1, 1), 0.0, 15, 13),
        (&block, (2, 3), 0.0, 8, 13),
    ];
    for (block, choice, level, room, number) in table {
        assert_eq!(asked(block, choice, level, room), (number, vec![7; room]));
    }
}

#[test]
fn no_nan_and_no_infinity_is_a_level() {
    let block = listed().bytes();
    let infinity = 0x7FF0u64 << 48;
    for payload in [0, 1, 1 << 31, 1 << 32, 1 << 51, 1 << 51 | 1, (1 << 52) - 1] {
        for sign in [0, 1 << 63] {
            let level = f64::from_bits(sign | infinity | payload);
            assert_eq!(asked(&block, (1, 1), level, 16), (9, vec![7; 16]));
        }
    }
}

#[test]
fn a_crossing_takes_16_bytes() {
    let block = listed().bytes();
    for room in [0, 1, 8, 15] {
        assert_eq!(asked(&block, (1, 1), 1.75, room), (13, vec![7; room]));
    }
    for room in [16, 17, 24, 40] {
        let (number, answer) = asked(&block, (1, 1), 1.75, room);
        assert_eq!((number, &answer[16..]), (0, &vec![7; room - 16][..]));
        assert_eq!(numbers(&answer[..16]), [1, 1]);
    }
}
