//! The calls in Rattle that a host in C does not have, as the exported test calls make them: the
//! fill of floats, a walk by its values alone, a walk with times and marks, one step of it, and the
//! texts.
//!
//! A text or a step answers how long it is. Where that is more than there is room for, the lent
//! slice holds what it held.

use super::calls::{choose_array, choose_segment, number};
use super::points::{at_rail, sample, value};
use super::rules::{open, refuse, Refusal};
use super::texts;
use super::walk::{Point, Walk};

/// Fills a lent array with all values of a segment; answers how many samples are at the rail.
pub fn floats(block: &[u8], array: u32, segment: u32, out: &mut [f64]) -> u64 {
    halves(try_floats(block, array, segment, out))
}

/// The same by a walk, point by point.
pub fn walked_floats(block: &[u8], array: u32, segment: u32, out: &mut [f64]) -> u64 {
    halves(try_walked_floats(block, array, segment, out))
}

/// All that a walk hands out until it is done: the values to one slice, the times to another, and
/// the marks to the third, 0 or 1.
pub fn steps(
    block: &[u8],
    array: u32,
    segment: u32,
    values: &mut [f64],
    times: &mut [f64],
    marks: &mut [u8],
) -> u32 {
    number(try_steps(block, array, segment, values, times, marks))
}

/// What the step after the first k hands out: a value and a time, and to a slice of its own the
/// mark; or nothing.
pub fn step(
    block: &[u8],
    array: u32,
    segment: u32,
    k: u32,
    out: &mut [f64],
    marks: &mut [u8],
) -> usize {
    let handed_out = match Walk::start(block, array, segment) {
        Ok(walk) => point_after(walk, k),
        Err(_) => None,
    };
    match handed_out {
        Some(Point { value, time, mark }) => {
            copied(&[u8::from(mark)], marks);
            copied(&[value, time], out)
        }
        None => copied(&[], out),
    }
}

pub fn user_text(block: &[u8], out: &mut [u8]) -> usize {
    copied(texts::user_text(block), out)
}

pub fn label(block: &[u8], fallback: &[u8], out: &mut [u8]) -> usize {
    copied(texts::label(block, fallback), out)
}

/// The refusal's number in the high half, or how many samples are at the rail in the low one.
fn halves(result: Result<u64, Refusal>) -> u64 {
    match result {
        Ok(at_rail) => at_rail,
        Err(refusal) => (refusal as u64) << 32,
    }
}

fn try_floats(block: &[u8], array: u32, segment: u32, out: &mut [f64]) -> Result<u64, Refusal> {
    let opened = open(block)?;
    let (array, segment) = (i64::from(array), i64::from(segment));
    choose_array(&opened, array)?;
    choose_segment(&opened, segment)?;
    let points = opened.points as usize;
    refuse(out.len() < points, Refusal::Room)?;
    for (k, place) in out[..points].iter_mut().enumerate() {
        *place = value(&opened, sample(&opened, array, segment, k as i64));
    }
    Ok(at_rail(&opened, array, segment))
}

fn try_walked_floats(
    block: &[u8],
    array: u32,
    segment: u32,
    out: &mut [f64],
) -> Result<u64, Refusal> {
    let mut walk = Walk::start(block, array, segment)?;
    refuse(out.len() < walk.opened.points as usize, Refusal::Room)?;
    let (mut handed_out, mut at_rail) = (0, 0);
    while let Some(point) = walk.point() {
        out[handed_out] = point.value;
        at_rail += u64::from(point.mark);
        handed_out += 1;
        walk.step();
    }
    Ok(at_rail)
}

fn try_steps(
    block: &[u8],
    array: u32,
    segment: u32,
    values: &mut [f64],
    times: &mut [f64],
    marks: &mut [u8],
) -> Result<(), Refusal> {
    let mut walk = Walk::start(block, array, segment)?;
    let points = walk.opened.points as usize;
    refuse(values.len() < points, Refusal::Room)?;
    refuse(times.len() < points, Refusal::Room)?;
    refuse(marks.len() < points, Refusal::Room)?;
    let mut handed_out = 0;
    while let Some(Point { value, time, mark }) = walk.point() {
        values[handed_out] = value;
        times[handed_out] = time;
        marks[handed_out] = u8::from(mark);
        handed_out += 1;
        walk.step();
    }
    Ok(())
}

/// The point after k steps. The first two behind the end show whether a walk stays done; no later
/// one is taken.
fn point_after(mut walk: Walk, k: u32) -> Option<Point> {
    let most = walk.opened.points + 2;
    for _ in 0..most.min(i64::from(k)) {
        walk.step();
    }
    walk.point()
}

/// Copies a part to the start of a slice that has room for it; answers how long the part is.
fn copied<T: Copy>(part: &[T], out: &mut [T]) -> usize {
    if part.len() <= out.len() {
        out[..part.len()].copy_from_slice(part);
    }
    part.len()
}
