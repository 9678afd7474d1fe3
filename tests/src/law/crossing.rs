//! Where a segment first crosses a level: the first point whose value is at or above it. The call of
//! the C host.

use super::calls::{choose_array, choose_segment, number, room, write};
use super::points::{sample, value};
use super::rules::{open, refuse, Opened, Refusal};

/// Answers 1 and the number of the first point of a segment whose value is at or above the level, or
/// 0 and 0 where there is none.
pub fn crossing(block: &[u8], array: u32, segment: u32, level: f64, answer: &mut [u8]) -> u32 {
    number(try_crossing(block, array, segment, level, answer))
}

fn try_crossing(
    block: &[u8],
    array: u32,
    segment: u32,
    level: f64,
    answer: &mut [u8],
) -> Result<(), Refusal> {
    let opened = open(block)?;
    let (array, segment) = (i64::from(array), i64::from(segment));
    choose_array(&opened, array)?;
    choose_level(level)?;
    choose_segment(&opened, segment)?;
    room(answer, 2)?;
    let numbers = match first(&opened, array, segment, level) {
        Some(k) => [1, k as u64],
        None => [0, 0],
    };
    write(answer, &numbers);
    Ok(())
}

/// 9 CHOICE, for a level
fn choose_level(level: f64) -> Result<(), Refusal> {
    refuse(level.is_infinite(), Refusal::Choice)?;
    refuse(level.is_nan(), Refusal::Choice)
}

/// The least number of a point whose value is at or above the level. As IEEE compares, -0.0 is at
/// 0.0.
fn first(opened: &Opened, array: i64, segment: i64, level: f64) -> Option<i64> {
    let value_of = |k: i64| value(opened, sample(opened, array, segment, k));
    let mut points = 0..opened.points;
    points.find(|k| value_of(*k) >= level)
}
