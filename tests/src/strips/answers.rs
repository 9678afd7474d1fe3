//! Strips, on the core's own answers: they are those of the values that the points have, the segment's
//! numbers do not depend on the columns, columns joined in pairs are those of half as many, and what is
//! cut of a segment has its strips.

use super::columns;
use super::told::Strip;
use crate::compare::{reply_difference, same, Checker, Difference};
use crate::draft::Draft;
use crate::law::cut::Setup;
use crate::law::descriptor::{VERTICAL_GAIN, VERTICAL_OFFSET};
use crate::questions::Extent;
use crate::random::Random;
use crate::request::{Call, Request};
use crate::rooms::exact_request;

/// How many columns at most are cut out one by one.
const CUT_COLUMNS: u32 = 4;

/// A segment of a right block.
pub struct Asked {
    draft: Draft,
    block: Vec<u8>,
    points: u32,
    array: u32,
    segment: u32,
}

impl Asked {
    pub fn any(draft: Draft, random: &mut Random) -> Asked {
        let block = draft.bytes();
        let extent = Extent::of(&block);
        let (array, segment) = extent.right_segment(random);
        Asked { draft, block, points: extent.points, array, segment }
    }

    fn call(&self, columns: u32) -> Call {
        Call::Strip { array: self.array, segment: self.segment, columns }
    }
}

fn strip(
    checker: &mut Checker,
    call: Call,
    block: &[u8],
    random: &mut Random,
) -> Result<Strip, Difference> {
    let reply = checker.accepted(&exact_request(random, call, block))?;
    Ok(Strip::read(&reply))
}

/// With a gain of 1 and no offset the values are the samples: so says a fill, and so do the points. With
/// the block's own gain and offset the strip is the same. In as many columns as there are points each
/// has one sample.
pub fn check_values(
    checker: &mut Checker,
    asked: &Asked,
    random: &mut Random,
) -> Result<(), Difference> {
    let (array, segment) = (asked.array, asked.segment);
    let mut plain = asked.draft.clone();
    plain.set_float(VERTICAL_GAIN, 1f32.to_bits());
    plain.set_float(VERTICAL_OFFSET, 0f32.to_bits());
    let plain = plain.bytes();
    let fill = checker.accepted(&exact_request(random, Call::Fill { array, segment }, &plain))?;
    let points = asked.points as usize;
    let samples: Vec<i64> = (0..points).map(|k| f64::from_bits(fill.number_at(k)) as i64).collect();
    for columns in [columns::right(asked.points, random), asked.points] {
        let call = asked.call(columns);
        let request = exact_request(random, call, &plain);
        let reply = checker.accepted(&request)?;
        let strip = Strip::read(&reply);
        strip.same(call, &Strip::of(&samples, fill.number_at(points), columns))?;
        let peak = Call::Point { array, segment, point: strip.peak as u32 };
        let value = checker.accepted(&exact_request(random, peak, &plain))?.number_at(0);
        same(&format!("{call}: value of the peak"), value, fill.number_at(strip.peak as usize))?;
        let scaled = checker.ask(&Request { block: &asked.block, ..request })?;
        if let Some(what) = reply_difference(&reply, &scaled) {
            return Err(Difference(format!("{call}: changed by gain and offset\n    {what}")));
        }
        checker.tally.valued_strips += 1;
    }
    Ok(())
}

/// The least of the leasts, the greatest of the greatests and the three numbers are those of one column.
pub fn check_columns(
    checker: &mut Checker,
    asked: &Asked,
    random: &mut Random,
) -> Result<(), Difference> {
    let whole = strip(checker, asked.call(1), &asked.block, random)?;
    let [few, others] = [0; 2].map(|_| columns::right(asked.points, random));
    for columns in [few, others, asked.points] {
        let call = asked.call(columns);
        strip(checker, call, &asked.block, random)?.whole().same(call, &whole)?;
    }
    checker.tally.parted_segments += 1;
    Ok(())
}

/// While the columns are even in number, joined in pairs they are the strip of half as many.
pub fn check_pairs(
    checker: &mut Checker,
    asked: &Asked,
    random: &mut Random,
) -> Result<(), Difference> {
    // A segment of one point is in no even number of columns.
    let mut columns = columns::right(asked.points, random).max(2).min(asked.points) / 2 * 2;
    while columns > 1 && columns & 1 == 0 {
        let joined = strip(checker, asked.call(columns), &asked.block, random)?.paired();
        columns /= 2;
        let call = asked.call(columns);
        strip(checker, call, &asked.block, random)?.same(call, &joined)?;
        checker.tally.paired_strips += 1;
    }
    Ok(())
}

/// The segment by itself or among all, in either order, has the same strip; and the strip of one column
/// is made of those of the columns' points.
pub fn check_cuts(
    checker: &mut Checker,
    asked: &Asked,
    random: &mut Random,
) -> Result<(), Difference> {
    let columns = columns::right(asked.points, random);
    let of_segment = strip(checker, asked.call(columns), &asked.block, random)?;
    let points = Setup { sp: 1, np: 0, fp: 0, sn: 0 };
    let (call, of_cut) = cut_strip(checker, asked, points, columns, random)?;
    of_cut.same(call, &of_segment)?;
    let columns = 1 + random.below(asked.points.min(CUT_COLUMNS) as usize) as u32;
    check_column_cuts(checker, asked, columns, random)?;
    checker.tally.cut_strips += 1;
    Ok(())
}

/// The strip of what a setup keeps of the segment, cut out by itself or with the others.
fn cut_strip(
    checker: &mut Checker,
    asked: &Asked,
    setup: Setup,
    columns: u32,
    random: &mut Random,
) -> Result<(Call, Strip), Difference> {
    let setup = Setup { sn: random.pick(&[0, asked.segment]), ..setup };
    let cut = Call::Cut { setup, order: random.below(2) as u32 };
    let reply = checker.accepted(&exact_request(random, cut, &asked.block))?;
    let segment = if setup.sn == 0 { asked.segment } else { 1 };
    let call = Call::Strip { array: asked.array, segment, columns };
    let of_cut = strip(checker, call, reply.written(), random)?;
    Ok((call, of_cut))
}

/// A cut for each column: its least and greatest, and together the numbers of the segment.
fn check_column_cuts(
    checker: &mut Checker,
    asked: &Asked,
    columns: u32,
    random: &mut Random,
) -> Result<(), Difference> {
    let call = asked.call(columns);
    let of_segment = strip(checker, call, &asked.block, random)?;
    let start = |q: u64| q * u64::from(asked.points) / u64::from(columns);
    let mut made = Strip { least: vec![], greatest: vec![], sum: 0, marks: 0, peak: 0 };
    for q in 0..u64::from(columns) {
        let (fp, np) = (start(q) as u32, (start(q + 1) - start(q)) as u32);
        let setup = Setup { sp: 1, np, fp, sn: 0 };
        let (_, column) = cut_strip(checker, asked, setup, 1, random)?;
        if made.greatest.iter().all(|greatest| *greatest < column.greatest[0]) {
            made.peak = start(q).wrapping_add(column.peak);
        }
        made.least.extend(column.least);
        made.greatest.extend(column.greatest);
        // A wrong version may answer any numbers.
        made.sum = made.sum.wrapping_add(column.sum);
        made.marks = made.marks.wrapping_add(column.marks);
    }
    of_segment.same(call, &made)
}
