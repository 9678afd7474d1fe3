//! The document's checked examples and the requests', and the descriptor's table held against its
//! own words. chains.rs has cuts of cuts, crossing.rs crossings, join.rs joins, marks.rs walks and
//! marks, narrow.rs narrowing, places.rs where things stand, setup.rs setups as lines, strip.rs
//! strips.

mod chains;
mod crossing;
mod join;
mod marks;
mod narrow;
mod places;
mod setup;
mod strip;

use crate::draft::Draft;
use crate::law::calls;
use crate::law::cut::{cut, kept_points, Setup};
use crate::law::descriptor::*;
use crate::law::numbers::{read, read_signed, store, Order};
use crate::law::points::{sample, time, value};
use crate::law::rules::{open, Opened, Refusal};
use crate::law::{tested, texts};
use crate::samples::bytes;

const BOTH: [Order; 2] = [Order::HiFirst, Order::LoFirst];

/// A block of one array of samples, byte or word, with no tables.
fn draft(order: Order, samples: &[i64], width: usize) -> Draft {
    let mut draft = Draft::plain(order);
    draft.set_width(width);
    draft.array_1 = bytes(order, width, samples);
    draft.set_long(WAVE_ARRAY_COUNT, samples.len() as i64);
    draft.fit_lengths();
    draft
}

fn number_of(block: &[u8]) -> u32 {
    calls::open(block, &mut [0; 40])
}

fn with_opened<T>(draft: &Draft, ask: impl Fn(&Opened) -> T) -> T {
    let block = draft.bytes();
    ask(&open(&block).expect("the example is a right block"))
}

/// Gain and offset of value examples.
fn scaled(mut draft: Draft, gain: f32, offset: f32) -> Draft {
    draft.set_float(VERTICAL_GAIN, gain.to_bits());
    draft.set_float(VERTICAL_OFFSET, offset.to_bits());
    draft
}

/// The block that the document lists, and of its points the bits of value and time, and the mark.
fn listed() -> Draft {
    let mut draft = scaled(draft(Order::LoFirst, &[-3, 4], 1), 0.5, 0.25);
    draft.set_float(HORIZ_INTERVAL, 0.25f32.to_bits());
    draft.set_double(HORIZ_OFFSET, (-1f64).to_bits());
    draft
}

const LISTED: [[u64; 3]; 2] = [
    [0xBFFC_0000_0000_0000, 0xBFF0_0000_0000_0000, 0],
    [0x3FFC_0000_0000_0000, 0xBFE8_0000_0000_0000, 0],
];

/// The block of two segments: M 5, WORD, TRIGTIME 32 bytes.
fn segmented(order: Order) -> Draft {
    let mut draft = draft(order, &[0; 10], 2);
    draft.trigtime = vec![0; 32];
    draft.set_long(SUBARRAY_COUNT, 2);
    draft.fit_lengths();
    draft
}

fn numbers(answer: &[u8]) -> Vec<u64> {
    answer.chunks(8).map(|bytes| read(bytes, Order::HiFirst)).collect()
}

fn setup(sp: u32, np: u32, fp: u32, sn: u32) -> Setup {
    Setup { sp, np, fp, sn }
}

#[test]
fn samples_are_signed() {
    assert_eq!(read_signed(&[0xFF, 0xFD], Order::HiFirst), -3);
    assert_eq!(read_signed(&[0xFD, 0xFF], Order::LoFirst), -3);
    for order in BOTH {
        assert_eq!(read_signed(&[0x80], order), -128);
        with_opened(&draft(order, &[-3, -32_768, 32_767], 2), |opened| {
            assert_eq!(sample(opened, 1, 1, 0), -3);
            assert_eq!(sample(opened, 1, 1, 1), -32_768);
            assert_eq!(sample(opened, 1, 1, 2), 32_767);
        });
    }
}

#[test]
fn values() {
    let expected = [(-3, -1.75), (-128, -64.25), (-32_768, -16_384.25)];
    with_opened(&scaled(draft(Order::HiFirst, &[0], 2), 0.5, 0.25), |opened| {
        for (sample, volts) in expected {
            assert_eq!(value(opened, sample), volts);
        }
    });
    let small = 2f32.powi(-60);
    with_opened(&scaled(draft(Order::HiFirst, &[1], 1), 1.0, small), |opened| {
        assert_eq!(value(opened, 1), 1.0);
    });
    // The sign of a zero is that of the two operations.
    with_opened(&scaled(draft(Order::HiFirst, &[1], 1), 0.0, 0.0), |opened| {
        assert_eq!(value(opened, -1).to_bits(), (-0.0f64).to_bits());
        assert_eq!(value(opened, 1).to_bits(), 0.0f64.to_bits());
    });
}

#[test]
fn times() {
    let mut plain = draft(Order::LoFirst, &[0; 3], 1);
    plain.set_float(HORIZ_INTERVAL, 0.25f32.to_bits());
    plain.set_double(HORIZ_OFFSET, (-1f64).to_bits());
    plain.set_long(FIRST_POINT, 4);
    plain.set_long(SPARSING_FACTOR, 6);
    with_opened(&plain, |opened| assert_eq!(time(opened, 1, 2), 3.0));

    let mut ris = draft(Order::HiFirst, &[0; 8], 1);
    ris.set_float(HORIZ_INTERVAL, 0.125f32.to_bits());
    ris.ristime = ris.doubles(&[0f64, 0.125, 0.25].map(f64::to_bits));
    ris.set_word(RIS_SWEEPS, 3);
    ris.fit_lengths();
    with_opened(&ris, |opened| assert_eq!(time(opened, 1, 7), 0.875));
}

#[test]
fn kept() {
    with_opened(&draft(Order::HiFirst, &[0; 10], 1), |opened| {
        assert_eq!(kept_points(opened, &setup(3, 0, 1, 0)), [1, 4, 7]);
        assert_eq!(kept_points(opened, &setup(6, 1, 4, 0)), [4]);
        let first = cut(opened, &setup(3, 0, 1, 0), Order::HiFirst).block;
        let second = open(&first).expect("a cut block is a right one");
        assert_eq!(kept_points(&second, &setup(2, 0, 1, 0)), [1]);
        let of_cut = cut(&second, &setup(2, 0, 1, 0), Order::HiFirst);
        let combined = cut(opened, &setup(6, of_cut.c as u32, 4, 0), Order::HiFirst);
        assert_eq!(of_cut.block, combined.block);
    });
}

#[test]
fn first_point_below_m() {
    let block = draft(Order::HiFirst, &[0; 10], 1).bytes();
    let (mut out, mut answer) = ([0; 400], [0; 16]);
    assert_eq!(calls::cut(&block, 0, 0, 9, 0, 0, &mut out, &mut answer), 0);
    assert_eq!(numbers(&answer), [1, 11 + 347]);
    assert_eq!(calls::cut(&block, 0, 0, 10, 0, 0, &mut out, &mut answer), 11);
}

#[test]
fn two_segments() {
    for order in BOTH {
        assert_eq!(segmented(order).payload_len(), 398);
        let block = segmented(order).bytes();
        assert_eq!(block.len(), 409);
        let (mut out, mut answer) = ([0; 379], [0; 16]);
        assert_eq!(calls::cut(&block, 2, 0, 0, 2, 0, &mut out, &mut answer), 0);
        assert_eq!(numbers(&answer), [3, 379]);
        assert_eq!(&out[..11], b"#9000000368");
    }
}

#[test]
fn refusals() {
    let right = draft(Order::LoFirst, &[1, 2], 1);
    let changed = |change: fn(&mut Draft)| {
        let mut draft = right.clone();
        change(&mut draft);
        number_of(&draft.bytes())
    };
    assert_eq!(changed(|_| ()), 0);
    assert_eq!(number_of(&[]), 1);
    let short = |draft: &mut Draft| {
        draft.array_1.clear();
        draft.head.pop();
    };
    assert_eq!(changed(short), 2); // L 345
    assert_eq!(changed(|draft| draft.tail = vec![10]), 0);
    assert_eq!(changed(|draft| draft.tail = vec![10, 10]), 2);
    assert_eq!(changed(|draft| draft.head[COMM_ORDER..COMM_ORDER + 2].copy_from_slice(&[0, 1])), 4);
    assert_eq!(changed(|draft| draft.set_long(FIRST_POINT, 268_435_454)), 0);
    assert_eq!(changed(|draft| draft.set_long(FIRST_POINT, 268_435_455)), 7);
    assert_eq!(open(&Draft::plain(Order::HiFirst).bytes()).unwrap_err(), Refusal::Count);
    // L 346
}

#[test]
fn trigger_times() {
    for order in BOTH {
        let number_with = |entries: &[[f64; 2]]| {
            let mut segmented = draft(order, &vec![0; entries.len()], 1);
            let bits: Vec<u64> = entries.iter().flatten().map(|number| number.to_bits()).collect();
            segmented.trigtime = segmented.doubles(&bits);
            segmented.set_long(SUBARRAY_COUNT, entries.len() as i64);
            segmented.fit_lengths();
            number_of(&segmented.bytes())
        };
        assert_eq!(number_with(&[[-2.0, 5.0], [-1.0, 4.0], [0.5, 3.0], [0.5, 2.0], [7.0, 1.0]]), 0);
        // Segment 5 before segment 4
        assert_eq!(number_with(&[[0.0, 0.0], [1.0, 0.0], [2.0, 0.0], [4.0, 0.0], [3.0, 0.0]]), 20);
        assert_eq!(number_with(&[[0.0, 0.0], [-0.0, 0.0], [0.0, 0.0]]), 0);
        assert_eq!(number_with(&[[4.0, 0.0], [3.0, 0.0], [5.0, f64::INFINITY]]), 8);
    }
}

#[test]
fn listing() {
    let block = listed().bytes();
    assert_eq!(&block[..11], b"#9000000348");
    let mut answer = [0; 40];
    assert_eq!(calls::open(&block, &mut answer), 0);
    assert_eq!(numbers(&answer), [1, 2, 1, 1, 0]);
    let mut values = [0; 24];
    assert_eq!(calls::fill(&block, 1, 1, &mut values), 0);
    for (k, listed) in LISTED.iter().enumerate() {
        let mut answer = [0; 24];
        assert_eq!(calls::point(&block, 1, 1, k as u32, &mut answer), 0);
        assert_eq!(numbers(&answer), listed);
        assert_eq!(numbers(&values)[k], listed[0]);
    }
    assert_eq!(numbers(&values)[2], 0);
}

#[test]
fn labels_and_user_texts() {
    let mut draft = listed();
    let mut label_of = |label: &[u8]| {
        draft.set_text(TRACE_LABEL, label);
        texts::label(&draft.bytes(), b"name").to_vec()
    };
    assert_eq!(label_of(b""), b"name");
    assert_eq!(label_of(b"C1\0old"), b"C1");
    assert_eq!(label_of(b"\0"), b"name");
    assert_eq!(label_of(b"fifteen of them\0"), b"fifteen of them");
    assert_eq!(label_of(b"sixteen of these"), b"sixteen of these");
    assert_eq!(texts::user_text(&draft.bytes()), b"");
    draft.user_text = b"by hand\0\n".to_vec();
    draft.fit_lengths();
    assert_eq!(texts::user_text(&draft.bytes()), b"by hand\0\n");
    draft.tail = vec![0];
    assert_eq!(texts::user_text(&draft.bytes()), b"");
    assert_eq!(texts::label(&draft.bytes(), b"name"), b"");
    let mut out = [1; 3];
    assert_eq!(tested::label(&listed().bytes(), b"name", &mut out), 4);
    assert_eq!(out, [1; 3]);
}

#[test]
fn numbers_and_texts_cover_the_descriptor_once() {
    // Texts and single bytes, as the document's table has them: start and bytes.
    let texts = [(0, 32), (76, 16), (96, 16), (196, 48), (244, 48), (304, 4)];
    let numbers = NUMBERS.map(|(at, width, count)| (at, width * count));
    let mut times = [0; SIZE];
    for (at, size) in numbers.into_iter().chain(texts) {
        times[at..at + size].iter_mut().for_each(|n| *n += 1);
    }
    assert_eq!(times, [1; SIZE]);
}

#[test]
fn what_is_stored_is_read() {
    for order in BOTH {
        for width in [1, 2, 4, 8] {
            let mut place = vec![0xEE; width];
            let number = 0x8123_4567_89AB_CDEF & (u64::MAX >> (64 - 8 * width));
            store(&mut place, order, number);
            assert_eq!(read(&place, order), number);
        }
    }
    let mut place = [0; 4];
    store(&mut place, Order::HiFirst, 0x0102_0304);
    assert_eq!(place, [1, 2, 3, 4]);
    store(&mut place, Order::LoFirst, 0x0102_0304);
    assert_eq!(place, [4, 3, 2, 1]);
}
