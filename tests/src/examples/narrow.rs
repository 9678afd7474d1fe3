//! Narrowing worked out by hand.

use super::{draft, number_of, numbers, scaled, segmented, BOTH};
use crate::draft::Draft;
use crate::law::calls;
use crate::law::descriptor::*;
use crate::law::narrow::narrow;
use crate::law::numbers::Order;
use crate::samples::bytes;

/// Samples, and the whole numbers at or below a 256th of them.
const FLOORS: [(i64, i8); 13] = [
    (-1, -1),
    (-256, -1),
    (-257, -2),
    (-32_768, -128),
    (255, 0),
    (256, 1),
    (32_767, 127),
    (0, 0),
    (-255, -1),
    (32_512, 127),
    (32_511, 126),
    (-32_512, -127),
    (-32_513, -128),
];

/// Gains, and 256 times themselves.
fn gains() -> [(f32, f32); 9] {
    let power = |n: i32| 2f64.powi(n) as f32;
    let below_limit = power(120).next_down();
    [
        (0.5, 128.0),
        (power(-149), power(-141)),
        (power(-127), power(-119)),
        (-0.0, -0.0),
        (0.0, 0.0),
        (-power(-141), -power(-133)),
        (power(-134), f32::MIN_POSITIVE),
        (below_limit, f32::MAX),
        (-below_limit, f32::MIN),
    ]
}

/// The number that comes with so much room, and what `out` and `answer` hold then.
fn asked(block: &[u8], out: usize, answer: usize) -> (u32, Vec<u8>, Vec<u8>) {
    let (mut out, mut answer) = (vec![7; out], vec![7; answer]);
    let number = narrow(block, &mut out, &mut answer);
    (number, out, answer)
}

/// What a block narrows to that nothing refuses.
fn narrowed(block: &[u8]) -> Vec<u8> {
    let (number, mut out, answer) = asked(block, block.len() + 6, 8);
    assert_eq!(number, 0);
    let length = numbers(&answer)[0] as usize;
    assert!(out[length..].iter().all(|byte| *byte == 7));
    out.truncate(length);
    out
}

fn words(order: Order) -> Draft {
    draft(order, &FLOORS.map(|(sample, _)| sample), 2)
}

/// The draft's block as it is to be, by its head and its array.
fn as_bytes(mut draft: Draft, array: &[i8]) -> Vec<u8> {
    draft.set_width(1);
    draft.array_1 = array.iter().map(|byte| *byte as u8).collect();
    draft.fit_lengths();
    draft.bytes()
}

#[test]
fn samples_become_the_whole_number_at_or_below() {
    for order in BOTH {
        let expected = as_bytes(words(order), &FLOORS.map(|(_, byte)| byte));
        assert_eq!(narrowed(&words(order).bytes()), expected);
    }
}

#[test]
fn the_gain_becomes_256_times_itself() {
    for (gain, expected) in gains() {
        for order in BOTH {
            let block = scaled(words(order), gain, 0.25).bytes();
            let scaled = scaled(words(order), expected, 0.25);
            assert_eq!(narrowed(&block), as_bytes(scaled, &FLOORS.map(|(_, byte)| byte)));
        }
    }
}

#[test]
fn nineteen_from_two_to_the_120_on() {
    let limit = 2f32.powi(120);
    for gain in [limit, limit.next_up(), f32::MAX] {
        for gain in [gain, -gain] {
            let block = scaled(words(Order::HiFirst), gain, 0.0).bytes();
            assert_eq!(number_of(&block), 0);
            for (out, answer) in [(400, 8), (0, 8), (400, 7), (0, 0)] {
                assert_eq!(asked(&block, out, answer), (19, vec![7; out], vec![7; answer]));
            }
            let bytes = scaled(draft(Order::HiFirst, &[1, 2], 1), gain, 0.0).bytes();
            assert_eq!(narrowed(&bytes), bytes);
        }
    }
    let not_finite = scaled(words(Order::LoFirst), f32::INFINITY, 0.0).bytes();
    assert_eq!(asked(&not_finite, 400, 8).0, 8);
    let mut backwards = segmented(Order::LoFirst);
    backwards.trigtime = backwards.doubles(&[1f64, 0.0, 0.0, 0.0].map(f64::to_bits));
    assert_eq!(asked(&scaled(backwards, limit, 0.0).bytes(), 400, 8).0, 20);
}

#[test]
fn thirteen_comes_last() {
    let block = words(Order::HiFirst).bytes();
    let length = 11 + 346 + FLOORS.len();
    for (out, answer) in [(length - 1, 8), (0, 8), (length, 7), (length, 0)] {
        assert_eq!(asked(&block, out, answer), (13, vec![7; out], vec![7; answer]));
    }
    let (number, out, answer) = asked(&block, length + 1, 9);
    assert_eq!((number, out[length], answer[8]), (0, 7, 7));
    assert_eq!(numbers(&answer[..8]), [length as u64]);
}

/// Two segments of two arrays with tables, texts and old bytes: all but four fields stay.
#[test]
fn every_other_field_stays() {
    for order in BOTH {
        let mut whole = segmented(order);
        whole.head[164..172].copy_from_slice(&[1, 2, 3, 4, 5, 6, 7, 8]); // MAX_VALUE, MIN_VALUE
        whole.set_word(172, 8); // NOMINAL_BITS
        whole.head[27..32].fill(9);
        whole.set_long(SPARSING_FACTOR, 0);
        whole.user_text = b"by hand".to_vec();
        whole.array_2 = bytes(order, 2, &[-1, 0, 255, 256, 257, -256, -257, 511, 512, 32_767]);
        whole.fit_lengths();
        let mut expected = whole.clone();
        expected.set_width(1);
        expected.array_1 = vec![0; 10];
        expected.array_2 = [-1, 0, 0, 1, 1, -1, -2, 1, 2, 127].map(|byte: i8| byte as u8).to_vec();
        expected.fit_lengths();
        whole.least_digits = 3;
        whole.tail = vec![10];
        assert_eq!(narrowed(&whole.bytes()), expected.bytes());
        // Half of the samples' 40 bytes are gone, and so is the new line; the header has six more.
        assert_eq!(expected.bytes().len(), whole.bytes().len() - 20 - 1 + 6);
    }
}

#[test]
fn bytes_are_rewritten_as_they_are() {
    let mut block = scaled(draft(Order::LoFirst, &[-128, -1, 127], 1), f32::MAX, 0.0);
    block.user_text = b"kept".to_vec();
    block.fit_lengths();
    let expected = block.bytes();
    block.least_digits = 3;
    block.tail = vec![10];
    assert_eq!(narrowed(&block.bytes()), expected);
    assert_eq!(narrowed(&expected), expected);
}

/// The document's setup of two segments: narrowed, then cut, and cut, then narrowed.
#[test]
fn narrowing_and_cutting_change_places() {
    for (order, other) in [(Order::HiFirst, 1), (Order::LoFirst, 0)] {
        let block = segmented(order).bytes();
        let cut = |block: &[u8]| {
            let (mut out, mut answer) = (vec![7; 400], [7; 16]);
            assert_eq!(calls::cut(block, 2, 0, 0, 2, other, &mut out, &mut answer), 0);
            let numbers = numbers(&answer);
            out.truncate(numbers[1] as usize);
            (out, numbers[0])
        };
        let (narrowed_last, c) = cut(&block);
        let (cut_last, same_c) = cut(&narrowed(&block));
        assert_eq!((narrowed(&narrowed_last), c), (cut_last, same_c));
        assert_eq!(narrowed(&narrowed_last).len(), 379 - 3);
    }
}

/// Gain 0.5, offset 0.25: the value of −3 falls by 0.5 × 253, from −1.75 to −128.25.
#[test]
fn a_value_falls_by_the_gain_times_the_rest() {
    let value = |block: &[u8]| {
        let mut answer = [7; 24];
        assert_eq!(calls::point(block, 1, 1, 0, &mut answer), 0);
        f64::from_bits(numbers(&answer)[0])
    };
    for order in BOTH {
        let block = scaled(draft(order, &[-3], 2), 0.5, 0.25).bytes();
        assert_eq!([value(&block), value(&narrowed(&block))], [-1.75, -128.25]);
    }
}
