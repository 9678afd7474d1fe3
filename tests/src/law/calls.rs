//! The calls of the C host: numbers and byte slices only. Each returns 0 or the refusal's number; a
//! refusal leaves every lent slice as it was. places.rs has those that answer where things stand,
//! combined.rs the one that makes one cut of two, crossing.rs the one that looks for a level, join.rs
//! the one that joins, narrow.rs the one that narrows, setup.rs the two that read and write setups as
//! lines, strip.rs the one that parts a segment into columns.

use super::cut::{cut as cut_block, Setup};
use super::numbers::{store, Order};
use super::points::{at_rail, mark, sample, time, value};
use super::rules::{open as open_block, refuse, Opened, Refusal, LAST_PLACE};

/// Answers g, M, arrays, COMM_ORDER, COMM_TYPE.
pub fn open(block: &[u8], answer: &mut [u8]) -> u32 {
    number(try_open(block, answer))
}

/// Answers the bits of the point's value, those of its time, and 1 where its sample is at the rail,
/// else 0.
pub fn point(block: &[u8], array: u32, segment: u32, point: u32, answer: &mut [u8]) -> u32 {
    number(try_point(block, array, segment, point, answer))
}

/// Answers the bits of all values of a segment, and behind them how many of its samples are at the
/// rail.
pub fn fill(block: &[u8], array: u32, segment: u32, answer: &mut [u8]) -> u32 {
    number(try_fill(block, array, segment, answer))
}

/// Writes the cut block to `out`; answers c and the block's length.
#[allow(clippy::too_many_arguments)] // the C call's own parameters
pub fn cut(
    block: &[u8],
    sp: u32,
    np: u32,
    fp: u32,
    sn: u32,
    order: u32,
    out: &mut [u8],
    answer: &mut [u8],
) -> u32 {
    number(try_cut(block, &Setup { sp, np, fp, sn }, order, out, answer))
}

pub fn number(result: Result<(), Refusal>) -> u32 {
    match result {
        Ok(()) => 0,
        Err(refusal) => refusal as u32,
    }
}

fn try_open(block: &[u8], answer: &mut [u8]) -> Result<(), Refusal> {
    let opened = open_block(block)?;
    let comm_order = match opened.order {
        Order::HiFirst => 0,
        Order::LoFirst => 1,
    };
    let numbers = [
        opened.segments as u64,
        opened.points as u64,
        opened.arrays.len() as u64,
        comm_order,
        opened.comm_type as u64,
    ];
    room(answer, numbers.len())?;
    write(answer, &numbers);
    Ok(())
}

fn try_point(
    block: &[u8],
    array: u32,
    segment: u32,
    point: u32,
    answer: &mut [u8],
) -> Result<(), Refusal> {
    let opened = open_block(block)?;
    let (array, segment, k) = (i64::from(array), i64::from(segment), i64::from(point));
    choose_array(&opened, array)?;
    choose_segment(&opened, segment)?;
    refuse(k >= opened.points, Refusal::Point)?;
    room(answer, 3)?;
    let value = value(&opened, sample(&opened, array, segment, k));
    let time = time(&opened, segment, k);
    let mark = mark(&opened, sample(&opened, array, segment, k));
    write(answer, &[value.to_bits(), time.to_bits(), u64::from(mark)]);
    Ok(())
}

fn try_fill(block: &[u8], array: u32, segment: u32, answer: &mut [u8]) -> Result<(), Refusal> {
    let opened = open_block(block)?;
    let (array, segment) = (i64::from(array), i64::from(segment));
    choose_array(&opened, array)?;
    choose_segment(&opened, segment)?;
    room(answer, opened.points as usize + 1)?;
    let value_of = |k: i64| value(&opened, sample(&opened, array, segment, k)).to_bits();
    let values: Vec<u64> = (0..opened.points).map(value_of).collect();
    let at_rail = at_rail(&opened, array, segment);
    write(answer, &[&values[..], &[at_rail]].concat());
    Ok(())
}

fn try_cut(
    block: &[u8],
    setup: &Setup,
    order: u32,
    out: &mut [u8],
    answer: &mut [u8],
) -> Result<(), Refusal> {
    let opened = open_block(block)?;
    let order = match order {
        0 => Order::HiFirst,
        1 => Order::LoFirst,
        _ => return Err(Refusal::Choice),
    };
    refuse(i64::from(setup.sn) > opened.segments, Refusal::Segment)?;
    refuse(i64::from(setup.fp) >= opened.points, Refusal::Point)?;
    refuse(opened.sparsing * setup.step() > LAST_PLACE, Refusal::Sparse)?;
    let cut = cut_block(&opened, setup, order);
    refuse(out.len() < cut.block.len(), Refusal::Room)?;
    room(answer, 2)?;
    out[..cut.block.len()].copy_from_slice(&cut.block);
    write(answer, &[cut.c as u64, cut.block.len() as u64]);
    Ok(())
}

/// 9 CHOICE, for an array
pub fn choose_array(opened: &Opened, array: i64) -> Result<(), Refusal> {
    refuse(array < 1, Refusal::Choice)?;
    refuse(array > opened.arrays.len() as i64, Refusal::Choice)
}

/// 10 SEGMENT, for a point, fill, walk, crossing or strip
pub fn choose_segment(opened: &Opened, segment: i64) -> Result<(), Refusal> {
    refuse(segment < 1, Refusal::Segment)?;
    refuse(segment > opened.segments, Refusal::Segment)
}

/// 13 ROOM, for an answer of so many numbers
pub fn room(answer: &[u8], numbers: usize) -> Result<(), Refusal> {
    refuse(answer.len() < 8 * numbers, Refusal::Room)
}

/// Writes numbers of eight bytes, high byte first; there is room for them.
pub fn write(answer: &mut [u8], numbers: &[u64]) {
    for (place, number) in answer.chunks_mut(8).zip(numbers) {
        store(place, Order::HiFirst, *number);
    }
}
