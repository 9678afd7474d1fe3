//! Walks, and the marks of samples worked out by hand.

use super::{draft, listed, numbers, BOTH, LISTED};
use crate::draft::Draft;
use crate::law::calls;
use crate::law::descriptor::{SUBARRAY_COUNT, VERTICAL_GAIN, VERTICAL_OFFSET};
use crate::law::numbers::Order;
use crate::law::tested;
use crate::samples::bytes;

/// Two samples, the highest and the lowest, in place of the listed ones.
fn listed_at_rail() -> Draft {
    let mut draft = listed();
    draft.array_1 = vec![0x7F, 0x80];
    draft
}

fn point(block: &[u8], array: u32, segment: u32, k: u32) -> Vec<u64> {
    let mut answer = [7; 24];
    assert_eq!(calls::point(block, array, segment, k, &mut answer), 0);
    numbers(&answer)
}

/// The marks of a segment by point; walk, step, fill and both calls with floats must agree.
fn marks(block: &[u8], array: u32, segment: u32, points: usize) -> Vec<u8> {
    let marks: Vec<u8> =
        (0..points).map(|k| point(block, array, segment, k as u32)[2] as u8).collect();
    let (mut values, mut times, mut walked) =
        (vec![7.0; points], vec![7.0; points], vec![7; points]);
    assert_eq!(tested::steps(block, array, segment, &mut values, &mut times, &mut walked), 0);
    assert_eq!(walked, marks);
    for (k, mark) in marks.iter().enumerate() {
        let mut stepped = [7];
        assert_eq!(tested::step(block, array, segment, k as u32, &mut [7.0; 2], &mut stepped), 2);
        assert_eq!(stepped, [*mark]);
    }
    let at_rail = marks.iter().map(|mark| u64::from(*mark)).sum();
    let mut answer = vec![7; 8 * points + 8];
    assert_eq!(calls::fill(block, array, segment, &mut answer), 0);
    assert_eq!(numbers(&answer)[points], at_rail);
    assert_eq!(tested::floats(block, array, segment, &mut values), at_rail);
    assert_eq!(tested::walked_floats(block, array, segment, &mut values), at_rail);
    marks
}

#[test]
fn a_walk_hands_out_its_points_and_is_done() {
    let block = listed().bytes();
    let [mut values, mut times, mut floats, mut walked] = [[7.0; 3]; 4];
    let mut marks = [7; 3];
    assert_eq!(tested::steps(&block, 1, 1, &mut values, &mut times, &mut marks), 0);
    assert_eq!(tested::floats(&block, 1, 1, &mut floats), 0);
    assert_eq!(tested::walked_floats(&block, 1, 1, &mut walked), 0);
    for (k, [value, time, mark]) in LISTED.into_iter().enumerate() {
        let (mut point, mut marked) = ([7.0; 2], [7]);
        assert_eq!(tested::step(&block, 1, 1, k as u32, &mut point, &mut marked), 2);
        assert_eq!(point.map(f64::to_bits), [value, time]);
        assert_eq!([values[k], times[k]], point);
        assert_eq!([floats[k], walked[k]], [values[k]; 2]);
        assert_eq!([u64::from(marks[k]), u64::from(marked[0])], [mark; 2]);
    }
    assert_eq!([values[2], times[2], floats[2], walked[2]], [7.0; 4]);
    assert_eq!(marks[2], 7);
}

#[test]
fn nothing_is_handed_out_where_a_walk_is_done_or_refused() {
    let block = listed_at_rail().bytes();
    let (mut point, mut mark) = ([7.0; 2], [7]);
    for behind in [2, 3, u32::MAX] {
        assert_eq!(tested::step(&block, 1, 1, behind, &mut point, &mut mark), 0);
    }
    let [mut values, mut times] = [[7.0; 2]; 2];
    let mut marks = [7; 2];
    for (array, segment, number) in [(0, 1, 9), (2, 1, 9), (1, 0, 10), (1, 2, 10)] {
        let walked = tested::steps(&block, array, segment, &mut values, &mut times, &mut marks);
        assert_eq!(walked, number);
        assert_eq!(tested::step(&block, array, segment, 0, &mut point, &mut mark), 0);
        for fill in [tested::floats, tested::walked_floats] {
            assert_eq!(fill(&block, array, segment, &mut values), u64::from(number) << 32);
        }
    }
    for [of_values, of_times, of_marks] in [[1, 2, 2], [2, 1, 2], [2, 2, 1]] {
        let (values, times) = (&mut values[..of_values], &mut times[..of_times]);
        let marks = &mut marks[..of_marks];
        assert_eq!(tested::steps(&block, 1, 1, values, times, marks), 13);
    }
    for fill in [tested::floats, tested::walked_floats] {
        assert_eq!(fill(&block, 1, 1, &mut values[..1]), 13 << 32);
    }
    assert_eq!([values, times, point], [[7.0; 2]; 3]);
    assert_eq!((mark, marks), ([7], [7; 2]));
}

#[test]
fn the_listed_block_at_the_rail() {
    let block = listed_at_rail().bytes();
    // 0.5 × 127 − 0.25 is 63.25, and 0.5 × −128 − 0.25 is −64.25
    assert_eq!(point(&block, 1, 1, 0), [0x404F_A000_0000_0000, LISTED[0][1], 1]);
    assert_eq!(point(&block, 1, 1, 1), [0xC050_1000_0000_0000, LISTED[1][1], 1]);
    let mut answer = [7; 24];
    assert_eq!(calls::fill(&block, 1, 1, &mut answer), 0);
    assert_eq!(numbers(&answer), [0x404F_A000_0000_0000, 0xC050_1000_0000_0000, 2]);
}

#[test]
fn bytes_and_words_have_their_own_rails() {
    for order in BOTH {
        let samples = [-128, -127, 126, 127, 0, -1];
        assert_eq!(marks(&draft(order, &samples, 1).bytes(), 1, 1, 6), [1, 0, 0, 1, 0, 0]);
        let samples = [-32_768, -32_767, 32_766, 32_767, -128, 127];
        assert_eq!(marks(&draft(order, &samples, 2).bytes(), 1, 1, 6), [1, 0, 0, 1, 0, 0]);
        // 7F80, 80FF, 7FFE, 8001, FF7F, 0080
        let samples = [32_640, -32_513, 32_766, -32_767, -129, 128];
        assert_eq!(marks(&draft(order, &samples, 2).bytes(), 1, 1, 6), [0; 6]);
    }
}

#[test]
fn a_word_is_marked_in_the_order_of_its_block() {
    for (order, expected) in [(Order::HiFirst, [1, 0, 1, 0]), (Order::LoFirst, [0, 1, 0, 1])] {
        let mut draft = draft(order, &[0; 4], 2);
        draft.array_1 = vec![0x7F, 0xFF, 0xFF, 0x7F, 0x80, 0x00, 0x00, 0x80];
        assert_eq!(marks(&draft.bytes(), 1, 1, 4), expected);
    }
}

#[test]
fn each_segment_of_each_array_has_its_own_marks() {
    for order in BOTH {
        let mut draft = draft(order, &[127, 1, 2, -128, -128, 127], 1);
        draft.array_2 = bytes(order, 1, &[0, 127, 126, -127, 5, -128]);
        draft.set_long(SUBARRAY_COUNT, 3);
        draft.fit_lengths();
        let block = draft.bytes();
        let of_array = |array: u32| [1, 2, 3].map(|segment| marks(&block, array, segment, 2));
        assert_eq!(of_array(1), [[1, 0], [0, 1], [1, 1]]);
        assert_eq!(of_array(2), [[0, 1], [0, 0], [0, 1]]);
    }
}

#[test]
fn the_sample_is_marked_and_not_the_value() {
    let mut draft = draft(Order::HiFirst, &[127, 5, -128], 1);
    draft.set_float(VERTICAL_GAIN, 0f32.to_bits());
    draft.set_float(VERTICAL_OFFSET, 1f32.to_bits());
    let block = draft.bytes();
    assert_eq!([0, 1, 2].map(|k| point(&block, 1, 1, k)[0]), [(-1f64).to_bits(); 3]);
    assert_eq!(marks(&block, 1, 1, 3), [1, 0, 1]);
}

#[test]
fn answers_take_24_and_8m_and_8_bytes() {
    let block = listed_at_rail().bytes();
    for (room, number) in [(16, 13), (23, 13), (24, 0)] {
        let [mut point, mut values] = [[7; 25]; 2];
        assert_eq!(calls::point(&block, 1, 1, 0, &mut point[..room]), number);
        assert_eq!(calls::fill(&block, 1, 1, &mut values[..room]), number);
        let written = if number == 0 { 24 } else { 0 };
        assert_eq!([&point[written..], &values[written..]], [&[7; 25][written..]; 2]);
    }
}

#[test]
fn a_step_hands_each_slice_what_it_has_room_for() {
    let block = listed_at_rail().bytes();
    let (mut point, mut mark) = ([7.0; 2], [7; 2]);
    assert_eq!(tested::step(&block, 1, 1, 0, &mut point[..1], &mut mark), 2);
    assert_eq!((point, mark), ([7.0; 2], [1, 7]));
    assert_eq!(tested::step(&block, 1, 1, 0, &mut point, &mut []), 2);
    assert_eq!(point, [63.25, -1.0]);
}
