//! Strips whose answers are known without a law: those of known samples, and every refusal alone and
//! beside every other.

use super::columns;
use super::drawn::{self, Known, Row};
use super::told::Strip;
use crate::compare::{Checker, Difference};
use crate::draft::Draft;
use crate::edges;
use crate::questions::Extent;
use crate::random::Random;
use crate::request::Call;
use crate::rooms::{exact_request, with_room, Room};

/// How many bad blocks a turn has.
const BAD_BLOCKS: usize = 8;

/// Bytes of the answer.
const ANSWER: usize = 24;

/// Every segment of a block, in the columns that its samples were made for, in others, and in one or
/// all.
pub fn known(checker: &mut Checker, known: &Known, random: &mut Random) -> Result<(), Difference> {
    each_row(known, |block, array, segment, row| {
        let points = row.samples.len() as u32;
        let ends = random.pick(&[1, points]);
        for columns in [row.columns, columns::right(points, random), ends] {
            check_known(checker, block, [array, segment, columns], row, random)?;
        }
        Ok(())
    })
}

/// Every segment of a block, in as many columns as it may have.
pub fn in_any_columns(
    checker: &mut Checker,
    known: &Known,
    random: &mut Random,
) -> Result<(), Difference> {
    each_row(known, |block, array, segment, row| {
        for columns in 1..=row.columns {
            check_known(checker, block, [array, segment, columns], row, random)?;
        }
        Ok(())
    })
}

/// Asks about the rows of a block, by its bytes and by array and segment.
fn each_row(
    known: &Known,
    mut ask: impl FnMut(&[u8], u32, u32, &Row) -> Result<(), Difference>,
) -> Result<(), Difference> {
    let block = known.draft.bytes();
    for (array, rows) in (1..).zip(&known.arrays) {
        for (segment, row) in (1..).zip(rows) {
            ask(&block, array, segment, row)?;
        }
    }
    Ok(())
}

/// A strip, by the samples that the segment was made of.
fn check_known(
    checker: &mut Checker,
    block: &[u8],
    [array, segment, columns]: [u32; 3],
    row: &Row,
    random: &mut Random,
) -> Result<(), Difference> {
    let call = Call::Strip { array, segment, columns };
    let reply = checker.accepted(&exact_request(random, call, block))?;
    Strip::read(&reply).same(call, &Strip::of(&row.samples, row.marks, columns))?;
    checker.tally.known_strips += 1;
    Ok(())
}

/// Every set of what 9, 10, 11 and 13 refuse, of a right block and of bad ones: the first number comes.
pub fn refusals(checker: &mut Checker, random: &mut Random) -> Result<(), Difference> {
    let right = drawn::any(random);
    for faults in 0..16 {
        ask_refused(checker, &right, 0, faults, random)?;
    }
    let mut bad = edges::edges();
    bad.retain(|edge| edge.number != 0);
    for _ in 0..BAD_BLOCKS {
        let edge = random.pick(&bad);
        let (draft, faults) = (edges::one(edge, random), random.below(16));
        ask_refused(checker, &draft, edge.number, faults, random)?;
    }
    Ok(())
}

/// A strip with those of the four faults whose bits are set: array, segment, columns, room. The block
/// has its own number, or 0.
fn ask_refused(
    checker: &mut Checker,
    draft: &Draft,
    number: u32,
    faults: usize,
    random: &mut Random,
) -> Result<(), Difference> {
    let [bad_array, bad_segment, bad_columns, short] = [1, 2, 4, 8].map(|bit| faults & bit != 0);
    let block = draft.bytes();
    let extent = Extent::of(&block);
    let right = extent.right_segment(random);
    let array = if bad_array { extent.bad_array(random) } else { right.0 };
    let segment = if bad_segment { extent.bad_segment(random) } else { right.1 };
    let columns = match bad_columns {
        true => extent.bad_columns(random),
        false => columns::right(extent.points, random),
    };
    let room = room(columns.min(extent.points + 1), short, random);
    let call = Call::Strip { array, segment, columns };
    let reply = checker.ask(&with_room(random, call, &block, room))?;
    let expected = match () {
        () if number != 0 => number,
        () if bad_array => 9,
        () if bad_segment => 10,
        () if bad_columns => 11,
        () if short => 13,
        () => 0,
    };
    if reply.number != u64::from(expected) {
        return Err(Difference(format!("{call}, {room:?}: {}, not {expected}", reply.number)));
    }
    Ok(())
}

/// Room for so many columns: just enough or more in each slice, or too little in one of the three, in
/// two or in all.
fn room(columns: u32, short: bool, random: &mut Random) -> Room {
    let set = if short { 1 + random.below(7) } else { 0 };
    let mut lent = |need: usize, bit: usize| match set & bit != 0 {
        true => random.pick(&[need.max(1) - 1, need.max(1) - 1, need.max(8) - 8, need / 2, 0]),
        false => random.pick(&[need, need, need, need + 1, need + 8, need + 100]),
    };
    let column_bytes = 8 * columns as usize;
    let [least, greatest] = [1, 2].map(|bit| lent(column_bytes, bit));
    Room { least, greatest, ..Room::for_answer(lent(ANSWER, 4)) }
}
