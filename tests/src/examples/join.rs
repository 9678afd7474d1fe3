//! Joins worked out by hand.

use super::{draft, listed, numbers, segmented, setup, BOTH};
use crate::draft::Draft;
use crate::law::cut::cut;
use crate::law::descriptor::*;
use crate::law::join;
use crate::law::numbers::Order;
use crate::law::rules::open;

/// A part of bytes with its SEGMENT_INDEX.
fn part(order: Order, index: i64, samples: &[i64]) -> Draft {
    let mut part = draft(order, samples, 1);
    part.set_long(SEGMENT_INDEX, index);
    part
}

/// The same part with one trigger entry: a time and an offset.
fn triggered(mut part: Draft, time: f64, offset: f64) -> Draft {
    part.trigtime = part.doubles(&[time, offset].map(f64::to_bits));
    part.fit_lengths();
    part
}

fn slice(parts: &[Draft]) -> Vec<u8> {
    parts.iter().flat_map(Draft::bytes).collect()
}

/// The number, and what an accepted join wrote and answered.
fn joined(slice: &[u8]) -> Result<(Vec<u8>, Vec<u64>), u32> {
    let (mut out, mut answer) = (vec![7; slice.len() + 9], [7; 16]);
    match join::join(slice, &mut out, &mut answer) {
        0 => {
            let numbers = numbers(&answer);
            let behind = out.split_off(numbers[1] as usize);
            assert!(behind.iter().all(|byte| *byte == 7));
            Ok((out, numbers))
        }
        number => {
            assert!(out.iter().chain(&answer).all(|byte| *byte == 7));
            Err(number)
        }
    }
}

fn number_of(parts: &[Draft]) -> u32 {
    joined(&slice(parts)).err().unwrap_or(0)
}

#[test]
fn two_segments_by_index() {
    for order in BOTH {
        let (one, two) = (part(order, 1, &[-3, 4]), part(order, 2, &[5, -6]));
        let mut expected = draft(order, &[-3, 4, 5, -6], 1);
        expected.set_long(SUBARRAY_COUNT, 2);
        let expected = expected.bytes();
        assert_eq!(&expected[..11], b"#9000000350");
        for parts in [[one.clone(), two.clone()], [two, one]] {
            let (block, answer) = joined(&slice(&parts)).unwrap();
            assert_eq!(block, expected);
            assert_eq!(answer, [2, 361]);
        }
    }
}

#[test]
fn one_part_gets_index_0_and_one_subarray() {
    for subarrays in [0, 1] {
        let mut one = listed();
        one.set_long(SUBARRAY_COUNT, subarrays);
        one.set_long(SEGMENT_INDEX, 1);
        one.least_digits = 3;
        let (block, answer) = joined(&one.bytes()).unwrap();
        let mut expected = listed();
        expected.set_long(SUBARRAY_COUNT, 1);
        assert_eq!(block, expected.bytes());
        assert_eq!(answer, [1, 359]);
    }
}

#[test]
fn both_arrays_the_text_and_every_header() {
    let with = |index: i64, digits: usize, first: u8, second: u8| {
        let mut part = part(Order::LoFirst, index, &[0]);
        part.array_1 = vec![first];
        part.array_2 = vec![second];
        part.user_text = b"by hand".to_vec();
        part.set_long(SPARSING_FACTOR, 0);
        part.set_long(FIRST_POINT, 70_000);
        part.least_digits = digits;
        part.fit_lengths();
        part
    };
    let digits = [9, 3, 6, 4, 8, 5, 7];
    let parts: Vec<Draft> = (1..)
        .zip(digits)
        .map(|(index, digits)| with(index, digits, index as u8, 10 + index as u8))
        .collect();
    let mut expected = with(0, 9, 0, 0);
    expected.array_1 = vec![1, 2, 3, 4, 5, 6, 7];
    expected.array_2 = vec![11, 12, 13, 14, 15, 16, 17];
    expected.set_long(WAVE_ARRAY_COUNT, 7);
    expected.set_long(SUBARRAY_COUNT, 7);
    expected.fit_lengths();
    let arrivals = [4, 0, 6, 2, 1, 5, 3].map(|n| parts[n].clone());
    // L is 346 + 7 + 7 + 7
    assert_eq!(joined(&slice(&arrivals)).unwrap(), (expected.bytes(), vec![7, 378]));
}

#[test]
fn the_documents_two_segments_cut_and_joined() {
    for order in BOTH {
        let mut sequence = segmented(order);
        sequence.trigtime = sequence.doubles(&[1f64, 2.0, 3.0, 4.0].map(f64::to_bits));
        sequence.set_long(SPARSING_FACTOR, 1);
        let block = sequence.bytes();
        assert_eq!(block.len(), 409);
        let segment = |sn: u32| cut(&open(&block).unwrap(), &setup(1, 0, 0, sn), order).block;
        let (one, two) = (segment(1), segment(2));
        assert_eq!([one.len(), two.len()], [383, 383]);
        assert_eq!(joined(&[two, one].concat()).unwrap(), (block, vec![2, 409]));
    }
}

#[test]
fn trigger_entries_go_by_index_and_their_times_do_not_run_backwards() {
    for order in BOTH {
        let timed = |index: i64, time: f64| triggered(part(order, index, &[1]), time, -0.5);
        let number_with = |times: [f64; 3]| {
            let parts = [2, 3, 1].map(|index| timed(index, times[index as usize - 1]));
            number_of(&parts)
        };
        assert_eq!(number_with([1.0, 2.0, 3.0]), 0);
        assert_eq!(number_with([1.0, 1.0, 1.0]), 0);
        assert_eq!(number_with([0.0, -0.0, 0.0]), 0);
        assert_eq!(number_with([3.0, 1.0, 2.0]), 16); // in the order of arrival they are
        assert_eq!(number_with([1.0, 3.0, 2.0]), 16);
        assert_eq!(number_with([2.0, 1.0, 3.0]), 16);
        let parts = [timed(2, 5.0), timed(1, 4.0)];
        let (block, answer) = joined(&slice(&parts)).unwrap();
        let entries = parts[0].doubles(&[4.0f64, -0.5, 5.0, -0.5].map(f64::to_bits));
        assert_eq!(block[11 + 346..11 + 378], entries);
        assert_eq!(answer, [2, 391]); // 11 + 346 + 32 + 2
    }
}

#[test]
fn indices_are_1_to_n_each_once() {
    let number_with = |indices: &[i64]| {
        let parts: Vec<Draft> = indices.iter().map(|n| part(Order::HiFirst, *n, &[1])).collect();
        number_of(&parts)
    };
    assert_eq!(number_with(&[3, 1, 2]), 0);
    assert_eq!(number_with(&[1]), 0);
    let bad: [&[i64]; 9] =
        [&[], &[0], &[2], &[1, 1], &[1, 3], &[0, 1], &[2, 3], &[1, 2, 2, 4], &[1, i32::MAX as i64]];
    for indices in bad {
        assert_eq!(number_with(indices), 16, "{indices:?}");
    }
    assert_eq!(number_with(&[1, -1]), 6);
    let mut two_segments = part(Order::HiFirst, 0, &[1, 2]);
    two_segments.set_long(SUBARRAY_COUNT, 2);
    assert_eq!(number_of(&[two_segments]), 16);
}

#[test]
fn a_thousand_parts_and_one_more() {
    let parts: Vec<Draft> = (1..=1001).map(|n| part(Order::LoFirst, n, &[n % 100])).collect();
    let (block, answer) = joined(&slice(&parts[..1000])).unwrap();
    assert_eq!(answer, [1000, 11 + 346 + 1000]);
    assert_eq!(block[11 + 346 + 998], 99);
    assert_eq!(number_of(&parts), 16);
    // A bad part behind 1,001 good ones gives its own number.
    let bad = draft(Order::LoFirst, &[], 1);
    assert_eq!(number_of(&[&parts[..], &[bad]].concat()), 6);
}

#[test]
fn descriptors_and_texts_are_equal() {
    let with_text = |index: i64, text: &[u8]| {
        let mut part = part(Order::HiFirst, index, &[1]);
        part.user_text = text.to_vec();
        part.fit_lengths();
        part
    };
    assert_eq!(number_of(&[with_text(1, b"ab"), with_text(2, b"ab")]), 0);
    assert_eq!(number_of(&[with_text(1, b"ab"), with_text(2, b"aB")]), 16);
    assert_eq!(number_of(&[with_text(1, b"ab"), with_text(2, b"a")]), 16);
    assert_eq!(number_of(&[with_text(1, b""), with_text(2, b"a")]), 16);
    assert_eq!(number_of(&[part(Order::HiFirst, 1, &[1]), part(Order::LoFirst, 2, &[1])]), 16);
    // Every byte that may have another number in a good block, but those of SEGMENT_INDEX.
    let mut changed = 0;
    for at in 0..SIZE {
        for bit in [0, 7] {
            let mut other = part(Order::HiFirst, 2, &[1]);
            other.head[at] ^= 1 << bit;
            if open(&other.bytes()).is_ok() {
                let number = number_of(&[part(Order::HiFirst, 1, &[1]), other]);
                assert_eq!(number, 16, "byte {at}, bit {bit}");
                changed += usize::from(bit == 0);
            }
        }
    }
    assert!(changed > 250, "{changed} bytes");
}

#[test]
fn a_table_of_ris_offsets_goes_with_one_part_alone() {
    let with = |index: i64| {
        let mut part = part(Order::LoFirst, index, &[1]);
        part.ristime = part.doubles(&[2f64, 3.0].map(f64::to_bits));
        part.set_word(RIS_SWEEPS, 2);
        part.fit_lengths();
        part
    };
    let mut expected = with(0);
    expected.set_long(SUBARRAY_COUNT, 1);
    assert_eq!(joined(&with(1).bytes()).unwrap(), (expected.bytes(), vec![1, 374]));
    assert_eq!(number_of(&[with(1), with(2)]), 16);
}

#[test]
fn the_first_bad_part_gives_its_number() {
    let good = |index: i64| part(Order::HiFirst, index, &[1]);
    let (mut form, mut index) = (good(2), good(2));
    form.set_word(COMM_TYPE, 2);
    index.set_long(FIRST_POINT, -1);
    assert_eq!(number_of(&[good(1), form.clone(), index.clone()]), 4);
    assert_eq!(number_of(&[index.clone(), good(1), form]), 7);
    assert_eq!(number_of(&[good(1), good(1), index]), 7); // before the index that is there twice
    let back = triggered(good(1), 0.0, f64::NAN);
    assert_eq!(number_of(&[good(1), back]), 8);
    let mut backwards = draft(Order::HiFirst, &[1, 1], 1);
    backwards.set_long(SUBARRAY_COUNT, 2);
    backwards.trigtime = backwards.doubles(&[1f64, 0.0, 0.5, 0.0].map(f64::to_bits));
    backwards.fit_lengths();
    assert_eq!(number_of(&[good(1), backwards]), 20);
}

#[test]
fn nothing_stands_between_or_behind_the_parts() {
    let parts = [1, 2].map(|index| part(Order::HiFirst, index, &[10]).bytes());
    let [one, two] = &parts;
    assert_eq!(joined(&[&one[..], two].concat()).unwrap().1, [2, 359]);
    assert_eq!(joined(&[one, &b"\n"[..], two].concat()), Err(1));
    assert_eq!(joined(&[&one[..], two, b"\n"].concat()), Err(1));
    for (kept, number) in [(1, 1), (2, 1), (10, 1), (11, 2), (12, 2), (357, 2), (358, 0)] {
        assert_eq!(joined(&[one, &two[..kept]].concat()).err().unwrap_or(0), number, "{kept}");
    }
    assert_eq!(joined(b"\n"), Err(1));
    assert_eq!(joined(b"#"), Err(1));
    assert_eq!(joined(b"#1"), Err(1));
    assert_eq!(joined(b"#10"), Err(2));
}

#[test]
fn the_joined_payload_has_a_longest_length() {
    // 346 + 14 + 2 × 8,388,428 is 16,777,216
    let long = |index: i64, text: usize| {
        let mut part = part(Order::HiFirst, index, &[]);
        part.array_1 = vec![3; 8_388_428];
        part.set_long(WAVE_ARRAY_COUNT, 8_388_428);
        part.user_text = vec![b'a'; text];
        part.fit_lengths();
        part
    };
    let (block, answer) = joined(&slice(&[long(2, 14), long(1, 14)])).unwrap();
    assert_eq!(&block[..11], b"#9016777216");
    assert_eq!(answer, [2, 16_777_227]);
    assert_eq!(number_of(&[long(2, 15), long(1, 15)]), 16);
}

#[test]
fn room_comes_last() {
    let good = slice(&[part(Order::HiFirst, 2, &[1]), part(Order::HiFirst, 1, &[2])]);
    let twice = slice(&[part(Order::HiFirst, 2, &[1]), part(Order::HiFirst, 2, &[2])]);
    let rooms = [(359, 16, 0), (358, 16, 13), (359, 15, 13), (0, 0, 13), (400, 40, 0)];
    for (out_room, answer_room, number) in rooms {
        let (mut out, mut answer) = (vec![7; out_room], vec![7; answer_room]);
        assert_eq!(join::join(&twice, &mut out, &mut answer), 16);
        assert_eq!(join::join(&[&good[..], b"#"].concat(), &mut out, &mut answer), 1);
        assert_eq!(join::join(&good, &mut out, &mut answer), number);
        let (written, answered) = if number == 0 { (359, 16) } else { (0, 0) };
        assert!(out[written..].iter().chain(&answer[answered..]).all(|byte| *byte == 7));
    }
}
