//! Strips worked out by hand.

use super::crossing::six_segments;
use super::{draft, listed, segmented, BOTH};
use crate::law::numbers::{read_signed, Order};
use crate::law::strip::strip;

/// Bytes of least, greatest and answer.
type Rooms = [usize; 3];

/// The number that comes with so much room, and what the three slices hold then.
fn asked(block: &[u8], choice: (u32, u32, u32), rooms: Rooms) -> (u32, [Vec<u8>; 3]) {
    let mut slices = rooms.map(|room| vec![7; room]);
    let [least, greatest, answer] = &mut slices;
    let number = strip(block, choice.0, choice.1, choice.2, least, greatest, answer);
    (number, slices)
}

/// Leasts, greatests, and sum, number at the rail and peak of a strip that nothing refuses.
fn stripped(block: &[u8], array: u32, segment: u32, columns: u32) -> [Vec<i64>; 3] {
    let bytes = 8 * columns as usize;
    let (number, slices) = asked(block, (array, segment, columns), [bytes, bytes, 24]);
    assert_eq!(number, 0);
    let signed = |slice: Vec<u8>| slice.chunks(8).map(|n| read_signed(n, Order::HiFirst)).collect();
    slices.map(signed)
}

/// Strips of one segment, each in as many columns as it has leasts; all have the same three numbers.
fn check(samples: &[i64], widths: &[usize], table: &[(&[i64], &[i64])], numbers: [i64; 3]) {
    for order in BOTH {
        for width in widths {
            let block = draft(order, samples, *width).bytes();
            for (least, greatest) in table {
                let expected = [least.to_vec(), greatest.to_vec(), numbers.to_vec()];
                assert_eq!(stripped(&block, 1, 1, least.len() as u32), expected);
            }
        }
    }
}

/// Two columns start at points 0 and 3, three at 0, 2 and 4, four at 0, 1, 3 and 5, five at 0, 1, 2, 4
/// and 5, six at 0 to 5.
#[test]
fn seven_points_in_any_columns() {
    let samples = [3, -1, 4, -1, 5, -9, 5];
    let table: [(&[i64], &[i64]); 7] = [
        (&[-9], &[5]),
        (&[-1, -9], &[4, 5]),
        (&[-1, -1, -9], &[3, 4, 5]),
        (&[3, -1, -1, -9], &[3, 4, 5, 5]),
        (&[3, -1, -1, 5, -9], &[3, -1, 4, 5, 5]),
        (&[3, -1, 4, -1, 5, -9], &[3, -1, 4, -1, 5, 5]),
        (&samples, &samples),
    ];
    check(&samples, &[1, 2], &table, [6, 0, 4]);
}

/// Ten points in four columns: 0 and 1, 2 to 4, 5 and 6, 7 to 9.
#[test]
fn ramps() {
    let rising: (&[i64], &[i64]) = (&[0, 2, 5, 7], &[1, 4, 6, 9]);
    check(&[0, 1, 2, 3, 4, 5, 6, 7, 8, 9], &[1, 2], &[rising], [45, 0, 9]);
    let falling: (&[i64], &[i64]) = (&[8, 5, 3, 0], &[9, 7, 4, 2]);
    check(&[9, 8, 7, 6, 5, 4, 3, 2, 1, 0], &[1, 2], &[falling], [45, 0, 0]);
}

#[test]
fn the_first_of_the_greatest() {
    check(&[5, 5, 5], &[1, 2], &[(&[5], &[5]), (&[5, 5], &[5, 5])], [15, 0, 0]);
    check(&[-3, -2, -7, -2], &[1, 2], &[(&[-7], &[-2]), (&[-3, -7], &[-2, -2])], [-14, 0, 1]);
    check(&[0, -9, 8, 1, 8, 8], &[1, 2], &[(&[-9, 1], &[8, 8])], [16, 0, 2]);
}

/// Three of these are at the rail of bytes, and none is at that of words.
#[test]
fn the_rail_of_each_type() {
    let ends = [-128, 127, -127, 126, 127];
    check(&ends, &[1], &[(&[-128, -127], &[127, 127])], [125, 3, 1]);
    check(&ends, &[2], &[(&[-128, -127], &[127, 127])], [125, 0, 1]);
    let ends = [32_766, -32_768, 0, -32_767, 32_767];
    check(&ends, &[2], &[(&[-32_768, -32_767], &[32_766, 32_767])], [-2, 2, 4]);
}

/// The block that the document lists, and its samples FF FD, FD FF and 80.
#[test]
fn the_document_s_samples() {
    let block = listed().bytes();
    assert_eq!(stripped(&block, 1, 1, 1), [vec![-3], vec![4], vec![1, 0, 1]]);
    assert_eq!(stripped(&block, 1, 1, 2), [vec![-3, 4], vec![-3, 4], vec![1, 0, 1]]);
    for (order, bytes) in [(Order::HiFirst, [0xFF, 0xFD]), (Order::LoFirst, [0xFD, 0xFF])] {
        let mut word = draft(order, &[0], 2);
        word.array_1 = bytes.to_vec();
        assert_eq!(stripped(&word.bytes(), 1, 1, 1), [vec![-3], vec![-3], vec![-3, 0, 0]]);
        let mut byte = draft(order, &[0], 1);
        byte.array_1 = vec![0x80];
        assert_eq!(stripped(&byte.bytes(), 1, 1, 1), [vec![-128], vec![-128], vec![-128, 1, 0]]);
    }
}

#[test]
fn sums_beyond_32_bits() {
    let lowest: (&[i64], &[i64]) = (&[-32_768], &[-32_768]);
    check(&[-32_768; 65_537], &[2], &[lowest], [-2_147_516_416, 65_537, 0]);
    let highest: (&[i64], &[i64]) = (&[32_767; 2], &[32_767; 2]);
    check(&[32_767; 131_077], &[2], &[highest], [4_295_000_059, 131_077, 0]);
}

/// 100,000 points in 90,000 columns: 50,000 × 100,000 / 90,000 is between 55,555 and 55,556, the next
/// is between 55,556 and 55,557, and the last column has the points 99,998 and 99,999.
#[test]
fn columns_beyond_32_bits() {
    let samples: Vec<i64> = (0..100_000).map(|k| k % 100 - 50).collect();
    let block = draft(Order::HiFirst, &samples, 1).bytes();
    let [least, greatest, numbers] = stripped(&block, 1, 1, 90_000);
    assert_eq!((least[50_000], greatest[50_000]), (5, 5));
    assert_eq!((least[89_999], greatest[89_999]), (48, 49));
    assert_eq!(numbers, [-50_000, 0, 99]);
}

#[test]
fn each_segment_of_each_array_by_itself() {
    for order in BOTH {
        let block = six_segments(order).bytes();
        let of_array = |array: u32| [1, 2, 3].map(|n| stripped(&block, array, n, 1).concat());
        assert_eq!(of_array(1), [[1, 2, 3, 0, 1], [0, 9, 9, 0, 0], [3, 4, 7, 0, 1]]);
        assert_eq!(of_array(2), [[-2, -1, -3, 0, 0], [-3, 5, 2, 0, 1], [-6, -5, -11, 0, 0]]);
    }
}

#[test]
fn refusals_come_in_order() {
    let (block, one_array) = (six_segments(Order::HiFirst).bytes(), listed().bytes());
    let mut backwards = segmented(Order::LoFirst);
    backwards.trigtime = backwards.doubles(&[1f64, 0.0, 0.0, 0.0].map(f64::to_bits));
    let backwards = backwards.bytes();
    let table = [
        (&vec![], (0, 0, 0), [0; 3], 1),
        (&backwards, (0, 0, 0), [0; 3], 20),
        (&block, (0, 0, 0), [0; 3], 9),
        (&block, (3, 1, 1), [8, 8, 24], 9),
        (&one_array, (2, 1, 1), [8, 8, 24], 9),
        (&block, (1, 0, 0), [0; 3], 10),
        (&block, (2, 4, 1), [8, 8, 24], 10),
        (&block, (1, 1, 0), [0; 3], 11),
        (&block, (1, 1, 3), [24, 24, 24], 11),
        (&block, (2, 3, 1 << 31), [0; 3], 11),
        (&block, (2, 3, u32::MAX), [24; 3], 11),
        (&block, (1, 1, 2), [0; 3], 13),
    ];
    for (block, choice, rooms, number) in table {
        assert_eq!(asked(block, choice, rooms), (number, rooms.map(|room| vec![7; room])));
    }
}

#[test]
fn two_columns_take_16_16_and_24_bytes() {
    let block = listed().bytes();
    let short = [[15, 16, 24], [16, 15, 24], [16, 16, 23], [8, 16, 24], [16, 0, 40], [99, 99, 16]];
    for rooms in short {
        assert_eq!(asked(&block, (1, 1, 2), rooms), (13, rooms.map(|room| vec![7; room])));
    }
    for rooms in [[16, 16, 24], [17, 16, 24], [16, 24, 24], [16, 16, 25], [40, 30, 33]] {
        let (number, slices) = asked(&block, (1, 1, 2), rooms);
        assert_eq!(number, 0);
        for (slice, need) in slices.iter().zip([16, 16, 24]) {
            assert!(slice[..8] != [7; 8] && slice[need..].iter().all(|byte| *byte == 7));
        }
    }
}
