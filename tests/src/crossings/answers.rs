//! Crossings, on the core's own answers: the point answered is the first whose value is at or above
//! the level, samples behind it do not count, a higher level is not crossed earlier, and a cut crosses
//! where the kept points do.

use super::levels;
use super::scales::Scale;
use crate::compare::{reply_difference, same, Checker, Difference};
use crate::draft::Draft;
use crate::law::cut::Setup;
use crate::law::numbers::read_signed;
use crate::questions::Extent;
use crate::random::Random;
use crate::request::{Call, Reply, Request};
use crate::rooms::exact_request;

/// How many levels a segment is asked that are raised one after another.
const RAISED: usize = 6;

/// A segment of a right block.
pub struct Asked {
    draft: Draft,
    block: Vec<u8>,
    extent: Extent,
    array: u32,
    segment: u32,
    /// A level that the block was made for.
    level: Option<f64>,
}

impl Asked {
    pub fn any(draft: Draft, level: Option<f64>, random: &mut Random) -> Asked {
        let block = draft.bytes();
        let extent = Extent::of(&block);
        let (array, segment) = extent.right_segment(random);
        Asked { draft, block, extent, array, segment, level }
    }

    /// A finite level: the block's own, or one about the value of a sample of this segment.
    fn level(&self, random: &mut Random) -> f64 {
        if let (Some(level), true) = (self.level, random.once_in(2)) {
            return level;
        }
        let k = random.below(self.extent.points as usize);
        let (at, width) = (self.first_byte() + self.draft.width * k, self.draft.width);
        let sample = read_signed(&self.samples()[at..at + width], self.draft.order);
        levels::finite(&Scale::of(&self.draft), sample, random)
    }

    /// The bytes of the array asked for.
    fn samples(&self) -> &[u8] {
        [&self.draft.array_1, &self.draft.array_2][self.array as usize - 1]
    }

    /// Where the segment's bytes start in the array.
    fn first_byte(&self) -> usize {
        (self.segment as usize - 1) * self.extent.points as usize * self.draft.width
    }

    fn call(&self, level: f64) -> Call {
        Call::Crossing { array: self.array, segment: self.segment, level: level.to_bits() }
    }
}

/// The point that an answer has: 1 and its number, or 0 and 0 for none.
fn point_of(call: Call, reply: &Reply) -> Result<Option<u64>, Difference> {
    match [reply.number_at(0), reply.number_at(1)] {
        [1, point] => Ok(Some(point)),
        [0, 0] => Ok(None),
        other => Err(Difference(format!("{call}: {other:?} is neither a point nor none"))),
    }
}

fn crossing(
    checker: &mut Checker,
    call: Call,
    block: &[u8],
    random: &mut Random,
) -> Result<Option<u64>, Difference> {
    let reply = checker.accepted(&exact_request(random, call, block))?;
    point_of(call, &reply)
}

/// The values of the segment, by a fill: every one before the point is below the level and that of
/// the point is not; where there is none all are below. So say the points themselves.
pub fn check_values(
    checker: &mut Checker,
    asked: &Asked,
    random: &mut Random,
) -> Result<(), Difference> {
    let Asked { block, array, segment, .. } = asked;
    let level = asked.level(random);
    let call = asked.call(level);
    let crossed = crossing(checker, call, block, random)?;
    let fill = Call::Fill { array: *array, segment: *segment };
    let fill = checker.accepted(&exact_request(random, fill, block))?;
    let points = u64::from(asked.extent.points);
    let end = crossed.unwrap_or(points);
    let at = |k: u64| f64::from_bits(fill.number_at(k as usize)) >= level;
    if let Some(k) = (0..end.min(points)).find(|k| at(*k)) {
        return Err(Difference(format!("{call}: {crossed:?}, and point {k} is at the level")));
    }
    if crossed.is_some() && (end >= points || !at(end)) {
        return Err(Difference(format!("{call}: {crossed:?}, which is not at the level")));
    }
    for k in [end.wrapping_sub(1), end].into_iter().filter(|k| *k < points) {
        let point = Call::Point { array: *array, segment: *segment, point: k as u32 };
        let value = checker.accepted(&exact_request(random, point, block))?.number_at(0);
        same(&format!("{call}: value of point {k}"), value, fill.number_at(k as usize))?;
    }
    match crossed {
        Some(_) => checker.tally.crossings += 1,
        None => checker.tally.uncrossed += 1,
    }
    Ok(())
}

/// All samples are changed but those of the segment up to the point, or all of it where there is none:
/// the reply is the same.
pub fn check_behind(
    checker: &mut Checker,
    asked: &Asked,
    random: &mut Random,
) -> Result<(), Difference> {
    let call = asked.call(asked.level(random));
    let request = exact_request(random, call, &asked.block);
    let before = checker.accepted(&request)?;
    let points = u64::from(asked.extent.points);
    let kept = point_of(call, &before)?.map_or(points, |point| points.min(point.saturating_add(1)));
    let other = with_other_samples(asked, kept as usize, random).bytes();
    let behind = checker.ask(&Request { block: &other, ..request })?;
    if let Some(what) = reply_difference(&before, &behind) {
        return Err(Difference(format!("{call}: changed by samples behind it\n    {what}")));
    }
    checker.tally.changed_behind += 1;
    Ok(())
}

/// The block with so many samples of the segment kept, and any others elsewhere.
fn with_other_samples(asked: &Asked, kept: usize, random: &mut Random) -> Draft {
    let Asked { draft, array, .. } = asked;
    let mut other = draft.clone();
    other.array_1 = random.bytes(draft.array_1.len());
    other.array_2 = random.bytes(draft.array_2.len());
    let arrays = [&mut other.array_1, &mut other.array_2];
    let [start, length] = [asked.first_byte(), kept * draft.width];
    let place = start..start + length;
    arrays.into_iter().nth(*array as usize - 1).expect("array 1 or 2")[place.clone()]
        .copy_from_slice(&asked.samples()[place]);
    other
}

/// Levels from the lowest up: the point never moves to an earlier one, and behind none comes none.
pub fn check_raised(
    checker: &mut Checker,
    asked: &Asked,
    random: &mut Random,
) -> Result<(), Difference> {
    let mut levels: Vec<f64> = (0..RAISED).map(|_| asked.level(random)).collect();
    levels.sort_by(f64::total_cmp);
    let mut last = 0;
    for level in levels {
        let call = asked.call(level);
        let point = crossing(checker, call, &asked.block, random)?.unwrap_or(u64::MAX);
        if point < last {
            return Err(Difference(format!("{call}: {point}, and {last} for a lower level")));
        }
        last = point;
    }
    checker.tally.raised_levels += 1;
    Ok(())
}

/// A cut that keeps the points from one on crosses as many points earlier; one that ends before the
/// point, and one of an uncrossed segment, does not cross.
pub fn check_cuts(
    checker: &mut Checker,
    asked: &Asked,
    random: &mut Random,
) -> Result<(), Difference> {
    let level = asked.level(random);
    let crossed = crossing(checker, asked.call(level), &asked.block, random)?;
    let Some(point) = crossed else {
        let any = random.below(asked.extent.points as usize) as u64;
        return check_cut(checker, asked, level, [0, any], None, random);
    };
    let points = u64::from(asked.extent.points);
    if point >= points {
        return Err(Difference(format!("{}: {point} of {points} points", asked.call(level))));
    }
    let earlier = random.below(point as usize + 1) as u64;
    for first in [point, earlier] {
        check_cut(checker, asked, level, [0, first], Some(point - first), random)?;
    }
    if point > 0 {
        check_cut(checker, asked, level, [point, 0], None, random)?;
    }
    Ok(())
}

/// A cut by NP and FP, of the segment alone or of all, and where it crosses.
fn check_cut(
    checker: &mut Checker,
    asked: &Asked,
    level: f64,
    [np, fp]: [u64; 2],
    expected: Option<u64>,
    random: &mut Random,
) -> Result<(), Difference> {
    let (sp, sn) = (random.pick(&[0, 1]), random.pick(&[0, asked.segment]));
    let setup = Setup { sp, np: np as u32, fp: fp as u32, sn };
    let cut = Call::Cut { setup, order: random.below(2) as u32 };
    let reply = checker.accepted(&exact_request(random, cut, &asked.block))?;
    let segment = if sn == 0 { asked.segment } else { 1 };
    let call = Call::Crossing { array: asked.array, segment, level: level.to_bits() };
    let came = crossing(checker, call, reply.written(), random)?;
    if came != expected {
        return Err(Difference(format!("behind {cut}, {call}: {came:?}, not {expected:?}")));
    }
    checker.tally.cut_crossings += 1;
    Ok(())
}
