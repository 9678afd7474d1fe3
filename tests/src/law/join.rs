//! Joining: blocks of one segment each, back to back in one slice, and the block that has all of
//! them by index. The call of the C host, and what it writes.

use super::calls::{number, room, write};
use super::cut::framed;
use super::descriptor::*;
use super::numbers::store;
use super::rules::{frame, open, refuse, stated, Opened, Refusal};

/// How many parts are joined at most.
const MOST_PARTS: usize = 1000;

/// Writes the joined block to `out`; answers n, how many parts there are, and the block's length.
pub fn join(slice: &[u8], out: &mut [u8], answer: &mut [u8]) -> u32 {
    number(try_join(slice, out, answer))
}

fn try_join(slice: &[u8], out: &mut [u8], answer: &mut [u8]) -> Result<(), Refusal> {
    let parts = parts(slice)?;
    let n = parts.len();
    refuse(n < 1, Refusal::Join)?;
    refuse(n > MOST_PARTS, Refusal::Join)?;
    refuse(parts.iter().any(|part| part.segments != 1), Refusal::Join)?;
    refuse(!each_once(&parts), Refusal::Join)?;
    refuse(!parts.iter().all(|part| alike(part, &parts[0])), Refusal::Join)?;
    let block = joined(&parts);
    refuse(open(&block).is_err(), Refusal::Join)?;
    refuse(out.len() < block.len(), Refusal::Room)?;
    room(answer, 2)?;
    out[..block.len()].copy_from_slice(&block);
    write(answer, &[n as u64, block.len() as u64]);
    Ok(())
}

/// The parts in the order in which they came, or the number of the first bad one. The slice is read
/// until it is used up.
fn parts(slice: &[u8]) -> Result<Vec<Opened<'_>>, Refusal> {
    let mut parts = vec![];
    let mut rest = slice;
    while !rest.is_empty() {
        let (part, behind) = rest.split_at(part_len(rest)?);
        parts.push(open(part)?);
        rest = behind;
    }
    Ok(parts)
}

/// How long the next part is: it ends after its L bytes, and is refused by 2 if fewer are left.
fn part_len(rest: &[u8]) -> Result<usize, Refusal> {
    let start = frame(rest)?;
    let end = start + stated(rest, start);
    refuse(rest.len() < end, Refusal::Length)?;
    Ok(end)
}

/// Whether the indices are 1 to n, each once.
fn each_once(parts: &[Opened]) -> bool {
    let indices = by_index(parts).into_iter().map(|part| part.segment_index);
    indices.eq(1..=parts.len() as i64)
}

fn by_index<'a, 'b>(parts: &'b [Opened<'a>]) -> Vec<&'b Opened<'a>> {
    let mut ordered: Vec<&Opened> = parts.iter().collect();
    ordered.sort_by_key(|part| part.segment_index);
    ordered
}

/// Whether descriptors and user texts are equal but for SEGMENT_INDEX.
fn alike(part: &Opened, first: &Opened) -> bool {
    let (before, behind) = (..SEGMENT_INDEX, SEGMENT_INDEX + 4..);
    part.descriptor[before] == first.descriptor[before]
        && part.descriptor[behind.clone()] == first.descriptor[behind]
        && part.user_text == first.user_text
}

/// The joined block: segments and trigger entries by index, all else as in the parts.
fn joined(parts: &[Opened]) -> Vec<u8> {
    let ordered = by_index(parts);
    let first = ordered[0];
    let mut payload = head(first, parts.len());
    payload.extend(first.user_text);
    ordered.iter().for_each(|part| payload.extend(part.trigtime));
    payload.extend(first.ristime);
    for array in 0..first.arrays.len() {
        ordered.iter().for_each(|part| payload.extend(part.arrays[array]));
    }
    framed(&payload)
}

/// The descriptor of the joined block, for n segments.
fn head(first: &Opened, n: usize) -> Vec<u8> {
    let mut head = first.descriptor.to_vec();
    let n = n as i64;
    let mut set_long =
        |at: usize, number: i64| store(&mut head[at..at + 4], first.order, number as u64);
    set_long(length_at(TRIGTIME_ARRAY), n * first.lengths[TRIGTIME_ARRAY]);
    set_long(length_at(WAVE_ARRAY_1), n * first.lengths[WAVE_ARRAY_1]);
    set_long(length_at(WAVE_ARRAY_2), n * first.lengths[WAVE_ARRAY_2]);
    set_long(WAVE_ARRAY_COUNT, n * first.points);
    set_long(SEGMENT_INDEX, 0);
    set_long(SUBARRAY_COUNT, n);
    head
}
