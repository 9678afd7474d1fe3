//! Where the parts and the texts of the document's examples stand.

use super::{listed, numbers, segmented, BOTH};
use crate::draft::Draft;
use crate::law::descriptor::{
    FIRST_POINT, SEGMENT_INDEX, SPARSING_FACTOR, SUBARRAY_COUNT, TRACE_LABEL,
};
use crate::law::places;

fn layout(draft: &Draft) -> Vec<u64> {
    let mut answer = [7; 200];
    assert_eq!(places::layout(&draft.bytes(), &mut answer), 0);
    numbers(&answer)
}

fn text_place(draft: &Draft) -> Vec<u64> {
    let mut answer = [7; 16];
    assert_eq!(places::text_place(&draft.bytes(), &mut answer), 0);
    numbers(&answer)
}

fn label_place(draft: &Draft, fallback: &[u8]) -> Vec<u64> {
    let mut answer = [7; 24];
    assert_eq!(places::label_place(&draft.bytes(), fallback, &mut answer), 0);
    numbers(&answer)
}

#[test]
fn layout_of_the_listed_block() {
    let numbers = layout(&listed());
    assert_eq!(numbers[..5], [11, 0, 1, 0, 0]);
    assert_eq!(numbers[5..15], [346, 0, 0, 0, 0, 0, 2, 0, 0, 0]);
    assert_eq!(numbers[15..], [0, 346, 346, 346, 346, 346, 346, 348, 348, 348]);
}

#[test]
fn layout_of_two_segments() {
    for order in BOTH {
        let numbers = layout(&segmented(order));
        assert_eq!(numbers[..5], [11, 0, 1, 0, 2]);
        assert_eq!(numbers[5..15], [346, 0, 0, 32, 0, 0, 20, 0, 0, 0]);
        assert_eq!(numbers[15..], [0, 346, 346, 346, 378, 378, 378, 398, 398, 398]);
    }
}

#[test]
fn layout_of_every_field() {
    let mut draft = listed();
    draft.set_long(FIRST_POINT, 70_000);
    draft.set_long(SPARSING_FACTOR, 9);
    draft.set_long(SEGMENT_INDEX, 4);
    draft.set_long(SUBARRAY_COUNT, 1);
    draft.user_text = vec![0; 5];
    draft.array_2 = vec![3, 2];
    draft.fit_lengths();
    draft.least_digits = 6;
    let numbers = layout(&draft);
    assert_eq!(numbers[..5], [8, 70_000, 9, 4, 1]);
    assert_eq!(numbers[5..15], [346, 5, 0, 0, 0, 0, 2, 2, 0, 0]);
    assert_eq!(numbers[15..], [0, 346, 351, 351, 351, 351, 351, 353, 355, 355]);
}

#[test]
fn user_text_under_every_header() {
    let mut draft = segmented(BOTH[0]);
    for digits in 3..=9 {
        draft.least_digits = digits;
        draft.user_text.clear();
        draft.fit_lengths();
        let at = 2 + digits as u64 + 346;
        assert_eq!(text_place(&draft), [at, 0]);
        draft.user_text = b"by hand\0\n".to_vec();
        draft.fit_lengths();
        assert_eq!(text_place(&draft), [at, 9]);
    }
}

#[test]
fn label_or_fallback() {
    let mut draft = listed();
    assert_eq!(label_place(&draft, b"name"), [1, 0, 4]);
    assert_eq!(label_place(&draft, b""), [1, 0, 0]);
    draft.least_digits = 3;
    for (label, length) in [("C1\0old", 2), ("fifteen of them\0", 15), ("sixteen of these", 16)] {
        draft.set_text(TRACE_LABEL, label.as_bytes());
        assert_eq!(label_place(&draft, b"name"), [0, 5 + 96, length]);
    }
    draft.set_text(TRACE_LABEL, b"\0old");
    assert_eq!(label_place(&draft, b"na\0me"), [1, 0, 5]);
}

#[test]
fn refused_or_without_room() {
    let right = listed();
    let mut wrong = listed();
    wrong.tail = vec![0];
    for (draft, number, less) in [(&right, 13, 1), (&wrong, 2, 0), (&wrong, 2, 1)] {
        let block = draft.bytes();
        let mut answer = [7; 200];
        assert_eq!(places::layout(&block, &mut answer[less..]), number);
        assert_eq!(places::text_place(&block, &mut answer[..16 - less]), number);
        assert_eq!(places::label_place(&block, b"name", &mut answer[..24 - less]), number);
        assert_eq!(answer, [7; 200]);
    }
    let mut answer = [7; 30];
    assert_eq!(places::label_place(&right.bytes(), b"name", &mut answer), 0);
    assert_eq!(answer[24..], [7; 6]);
}
