//! Cutting by SP, NP, FP and SN: the block that a cut writes.

use super::descriptor::*;
use super::numbers::{read, store, Order};
use super::points::{place, sample_bytes};
use super::rules::Opened;

/// Bytes that a cut or a narrowed block may have more than its block, and a joined block more than
/// its parts: it has nine digits, and an accepted block has at least three.
pub const CUT_MORE: usize = 6;

/// WAVEFORM_SETUP's four numbers; an SP of 0 counts as 1.
#[derive(Clone, Copy, Debug, PartialEq, Eq)]
pub struct Setup {
    pub sp: u32,
    pub np: u32,
    pub fp: u32,
    pub sn: u32,
}

impl Setup {
    pub fn step(&self) -> i64 {
        i64::from(self.sp.max(1))
    }
}

/// What a cut answers: c, the points kept of each kept segment, and the block.
pub struct Cut {
    pub c: i64,
    pub block: Vec<u8>,
}

/// Cuts a block by a setup that keeps at least one point.
pub fn cut(opened: &Opened, setup: &Setup, order: Order) -> Cut {
    let points = kept_points(opened, setup);
    let segments = kept_segments(opened, setup);
    let mut payload = head(opened, setup, order, points.len(), segments.len());
    payload.extend(opened.user_text);
    if !opened.trigtime.is_empty() {
        for segment in &segments {
            let at = 16 * (*segment as usize - 1);
            append(&mut payload, &opened.trigtime[at..at + 16], 8, opened.order, order);
        }
    }
    append(&mut payload, opened.ristime, 8, opened.order, order);
    for array in 1..=opened.arrays.len() as i64 {
        for n in &segments {
            for k in &points {
                let sample = sample_bytes(opened, array, *n, *k);
                append(&mut payload, sample, opened.width(), opened.order, order);
            }
        }
    }
    let block = framed(&payload);
    let c = points.len() as i64;
    Cut { c, block }
}

/// FP, FP + SP, FP + 2 SP, .. below M; no more than the first NP if NP > 0.
pub fn kept_points(opened: &Opened, setup: &Setup) -> Vec<i64> {
    let points = i64::from(setup.fp)..opened.points;
    let thinned = points.step_by(setup.step() as usize);
    match setup.np {
        0 => thinned.collect(),
        np => thinned.take(np as usize).collect(),
    }
}

/// All segments for SN 0, else SN alone.
pub fn kept_segments(opened: &Opened, setup: &Setup) -> Vec<i64> {
    match i64::from(setup.sn) {
        0 => (1..=opened.segments).collect(),
        sn => vec![sn],
    }
}

/// The descriptor of the block written, for c points of each of the kept segments.
fn head(opened: &Opened, setup: &Setup, order: Order, c: usize, segments: usize) -> Vec<u8> {
    let mut head = opened.descriptor.to_vec();
    for (at, width, count) in NUMBERS {
        for number in head[at..at + width * count].chunks_mut(width) {
            turn(number, opened.order, order);
        }
    }
    let count = c * segments;
    let array = count * opened.width();
    let comm_order = match order {
        Order::HiFirst => 0,
        Order::LoFirst => 1,
    };
    store(&mut head[COMM_ORDER..COMM_ORDER + 2], order, comm_order);
    let mut set_long = |at: usize, number: i64| store(&mut head[at..at + 4], order, number as u64);
    if !opened.trigtime.is_empty() {
        set_long(length_at(TRIGTIME_ARRAY), 16 * segments as i64);
    }
    set_long(length_at(WAVE_ARRAY_1), array as i64);
    if opened.arrays.len() == 2 {
        set_long(length_at(WAVE_ARRAY_2), array as i64);
    }
    set_long(WAVE_ARRAY_COUNT, count as i64);
    set_long(FIRST_POINT, place(opened, i64::from(setup.fp)));
    set_long(SPARSING_FACTOR, opened.sparsing * setup.step());
    if setup.sn > 0 {
        set_long(SUBARRAY_COUNT, 1);
        if opened.segment_index == 0 {
            set_long(SEGMENT_INDEX, i64::from(setup.sn));
        }
    }
    head
}

/// Adds a run of numbers of one width, turned to the order asked for.
fn append(payload: &mut Vec<u8>, numbers: &[u8], width: usize, from: Order, to: Order) {
    let start = payload.len();
    payload.extend(numbers);
    for number in payload[start..].chunks_mut(width) {
        turn(number, from, to);
    }
}

/// The same number in another order.
fn turn(number: &mut [u8], from: Order, to: Order) {
    let same = read(number, from);
    store(number, to, same);
}

/// The payload behind its `#9` header, with no new line.
pub fn framed(payload: &[u8]) -> Vec<u8> {
    let mut block = format!("#9{:09}", payload.len()).into_bytes();
    block.extend(payload);
    block
}
