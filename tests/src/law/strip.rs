//! A segment in columns, to be drawn: the least and the greatest sample of each, and of the whole
//! segment the sum, the number at the rail and the first point of the greatest. The call of the C host.

use super::calls::{choose_array, choose_segment, number, room, write};
use super::points::{at_rail, sample};
use super::rules::{open, refuse, Opened, Refusal};

/// Writes the least sample of each column and the greatest; answers the sum of all M samples, how many
/// are at the rail, and the first point that holds the greatest sample.
pub fn strip(
    block: &[u8],
    array: u32,
    segment: u32,
    columns: u32,
    least: &mut [u8],
    greatest: &mut [u8],
    answer: &mut [u8],
) -> u32 {
    number(try_strip(block, array, segment, columns, least, greatest, answer))
}

fn try_strip(
    block: &[u8],
    array: u32,
    segment: u32,
    columns: u32,
    least: &mut [u8],
    greatest: &mut [u8],
    answer: &mut [u8],
) -> Result<(), Refusal> {
    let opened = open(block)?;
    let (array, segment, columns) = (i64::from(array), i64::from(segment), i64::from(columns));
    choose_array(&opened, array)?;
    choose_segment(&opened, segment)?;
    choose_columns(&opened, columns)?;
    room(least, columns as usize)?;
    room(greatest, columns as usize)?;
    room(answer, 3)?;
    let sample_of = |k: i64| sample(&opened, array, segment, k);
    let samples: Vec<i64> = (0..opened.points).map(sample_of).collect();
    let parts: Vec<&[i64]> = (0..columns).map(|q| column(&samples, q, columns)).collect();
    let leasts: Vec<u64> = parts.iter().map(|part| least_of(part) as u64).collect();
    let greatests: Vec<u64> = parts.iter().map(|part| greatest_of(part) as u64).collect();
    let sum: i64 = samples.iter().sum();
    let marks = at_rail(&opened, array, segment);
    let peak = first_of(&samples, greatest_of(&samples));
    write(least, &leasts);
    write(greatest, &greatests);
    write(answer, &[sum as u64, marks, peak]);
    Ok(())
}

/// 11 POINT, for columns
fn choose_columns(opened: &Opened, columns: i64) -> Result<(), Refusal> {
    refuse(columns < 1, Refusal::Point)?;
    refuse(columns > opened.points, Refusal::Point)
}

/// The samples of column q: from floor(q·M/W) up to but not including floor((q+1)·M/W).
fn column(samples: &[i64], q: i64, columns: i64) -> &[i64] {
    let points = samples.len() as i64;
    let start = q * points / columns;
    let end = (q + 1) * points / columns;
    &samples[start as usize..end as usize]
}

fn least_of(samples: &[i64]) -> i64 {
    samples.iter().copied().min().expect("W is at most M, so no column is empty")
}

fn greatest_of(samples: &[i64]) -> i64 {
    samples.iter().copied().max().expect("W is at most M, so no column is empty")
}

/// The first point that holds a sample.
fn first_of(samples: &[i64], held: i64) -> u64 {
    let point = samples.iter().position(|sample| *sample == held);
    point.expect("the sample is one of them") as u64
}
