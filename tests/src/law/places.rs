//! The calls of the C host that answer where things stand: the parts in the payload, the texts in
//! what was lent.

use super::calls::{number, room, write};
use super::descriptor::{SIZE, TRACE_LABEL};
use super::rules::{open, Refusal};
use super::texts::own_label;

/// Where a label stands: in the block, or in the fallback.
const IN_BLOCK: usize = 0;
const IN_FALLBACK: usize = 1;

/// Answers where the payload starts in the block; F, S, SEGMENT_INDEX, and SUBARRAY_COUNT as it
/// stands; the ten lengths; and where each of the ten parts starts in the payload.
pub fn layout(block: &[u8], answer: &mut [u8]) -> u32 {
    number(try_layout(block, answer))
}

/// Answers where the user text starts in the block, also where it is empty, and its length.
pub fn text_place(block: &[u8], answer: &mut [u8]) -> u32 {
    number(try_text_place(block, answer))
}

/// Answers 0 where the label is the block's own, else 1 for the fallback; where it starts in that
/// slice; and its length.
pub fn label_place(block: &[u8], fallback: &[u8], answer: &mut [u8]) -> u32 {
    number(try_label_place(block, fallback, answer))
}

fn try_layout(block: &[u8], answer: &mut [u8]) -> Result<(), Refusal> {
    let opened = open(block)?;
    let fields = [
        opened.start as i64,
        opened.first_point,
        opened.sparsing,
        opened.segment_index,
        opened.subarray_count,
    ];
    let lengths = opened.lengths;
    let starts = starts(&lengths);
    let numbers = [&fields[..], &lengths, &starts].concat();
    room(answer, numbers.len())?;
    write(answer, &unsigned(&numbers));
    Ok(())
}

/// Where each part starts in the payload: the first at 0, each where the one before it ends.
fn starts(lengths: &[i64; 10]) -> [i64; 10] {
    let mut end = 0;
    lengths.map(|length| {
        let start = end;
        end += length;
        start
    })
}

/// No number of a layout is below 0.
fn unsigned(numbers: &[i64]) -> Vec<u64> {
    numbers.iter().map(|number| *number as u64).collect()
}

fn try_text_place(block: &[u8], answer: &mut [u8]) -> Result<(), Refusal> {
    let opened = open(block)?;
    let at = opened.start + SIZE;
    let length = opened.user_text.len();
    room(answer, 2)?;
    write(answer, &[at as u64, length as u64]);
    Ok(())
}

fn try_label_place(block: &[u8], fallback: &[u8], answer: &mut [u8]) -> Result<(), Refusal> {
    let opened = open(block)?;
    let numbers = match own_label(&opened).len() {
        0 => [IN_FALLBACK, 0, fallback.len()],
        length => [IN_BLOCK, opened.start + TRACE_LABEL, length],
    };
    room(answer, 3)?;
    write(answer, &numbers.map(|number| number as u64));
    Ok(())
}
