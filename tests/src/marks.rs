//! Marks, on the core's own answers: every call marks those samples of a known block that are at the
//! rail, and counts them. One is at each place of sixty-four, or all are, or none is.

use crate::compare::{Checker, Difference};
use crate::law::numbers::Order;
use crate::random::Random;
use crate::request::{Call, Reply};
use crate::rooms::exact_request;
use crate::samples;
use crate::shape::{any_order, Shape, Table};

/// How long a segment is: about one, two and three times sixty-four.
const LENGTHS: [usize; 8] = [63, 64, 65, 127, 128, 129, 130, 200];

/// In so many turns a sample at the rail stands at each place of sixty-four, in segments of each
/// length, of both types in both orders.
pub const TURNS: usize = 256;

/// One turn in so many has a segment whose count takes more than 16 bits.
const LONG_EVERY: usize = 64;

/// Segments of an array with one sample at the rail. Two more follow, with all their samples there
/// and with none.
const WITH_ONE: usize = 4;

/// The samples of one segment, and the point that is looked at closely.
struct Row {
    samples: Vec<i64>,
    point: usize,
}

/// A block made of known samples: the segments of one array or two.
struct Known {
    order: Order,
    /// Bytes of a sample.
    width: usize,
    arrays: Vec<Vec<Row>>,
}

/// The block of a turn; at some turns a long one too.
pub fn check(checker: &mut Checker, turn: usize, random: &mut Random) -> Result<(), Difference> {
    let known = block_of_turn(turn, random);
    check_block(checker, &known, random)?;
    if turn % LONG_EVERY == LONG_EVERY - 1 {
        let known = long_block(random);
        check_block(checker, &known, random)?;
    }
    Ok(())
}

/// Each turn has another order, type, length or eight places.
fn block_of_turn(turn: usize, random: &mut Random) -> Known {
    let order = [Order::HiFirst, Order::LoFirst][turn % 2];
    let width = 1 + turn / 2 % 2;
    let points = LENGTHS[turn / 4 % LENGTHS.len()];
    let first_place = 2 * WITH_ONE * (turn / 4 / LENGTHS.len()) % 64;
    let mut rows_of = |array: usize| {
        let places = first_place + WITH_ONE * array..first_place + WITH_ONE * (array + 1);
        let mut rows: Vec<Row> = places.map(|place| one(random, width, points, place)).collect();
        let mut rest = [samples::all(random, width, points), samples::none(random, width, points)];
        // In array 2 none comes before all.
        rest.rotate_left(array);
        rows.extend(rest.map(|samples| Row { samples, point: random.below(points) }));
        rows
    };
    let arrays = vec![rows_of(0), rows_of(1)];
    Known { order, width, arrays }
}

/// One sample at the rail, at a place of any sixty-four; at the last point where no point has it.
fn one(random: &mut Random, width: usize, points: usize, place: usize) -> Row {
    let at_place: Vec<usize> = (place..points).step_by(64).collect();
    let point = if at_place.is_empty() { points - 1 } else { random.pick(&at_place) };
    Row { samples: samples::one(random, width, points, point), point }
}

/// One segment with more samples at the rail than 16 bits count.
fn long_block(random: &mut Random) -> Known {
    let (order, width) = (any_order(random), 1 + random.below(2));
    let points = (1 << 16) + random.below(3);
    let samples = samples::all(random, width, points);
    let row = Row { samples, point: random.below(points) };
    Known { order, width, arrays: vec![vec![row]] }
}

impl Known {
    fn block(&self, random: &mut Random) -> Vec<u8> {
        let Known { order, width, arrays } = self;
        let shape = Shape {
            order: *order,
            word: *width == 2,
            two_arrays: arrays.len() == 2,
            subarrays: arrays[0].len() as i64,
            points: arrays[0][0].samples.len() as i64,
            table: random.pick(&[Table::None, Table::Trigtime]),
            user_text: random.below(20),
        };
        let mut draft = shape.draft(random);
        let bytes = |row: &Row| samples::bytes(*order, *width, &row.samples);
        let mut arrays = arrays.iter().map(|rows| rows.iter().flat_map(bytes).collect());
        draft.array_1 = arrays.next().unwrap_or_default();
        draft.array_2 = arrays.next().unwrap_or_default();
        draft.bytes()
    }
}

/// Every call for every segment, with just the room that it takes.
fn check_block(
    checker: &mut Checker,
    known: &Known,
    random: &mut Random,
) -> Result<(), Difference> {
    let block = known.block(random);
    let rail = samples::rail(known.width);
    for (array, rows) in (1..).zip(&known.arrays) {
        for (segment, Row { samples, point }) in (1..).zip(rows) {
            let mark = |sample: &i64| u64::from(rail.contains(sample));
            let marks: Vec<u64> = samples.iter().map(mark).collect();
            let beside = random.pick(&[point.saturating_sub(1), point + 1]).min(marks.len() - 1);
            for (call, expected) in expected(array, segment, &marks, [*point, beside]) {
                let reply = checker.ask(&exact_request(random, call, &block))?;
                same(call, &handed_on(call, &reply), &expected)?;
            }
        }
    }
    checker.tally.marked_blocks += 1;
    Ok(())
}

/// The calls for a segment, each with the marks that it hands on or with their count.
fn expected(array: u32, segment: u32, marks: &[u64], points: [usize; 2]) -> Vec<(Call, Vec<u64>)> {
    let count = vec![marks.iter().sum()];
    let mut expected = vec![
        (Call::Fill { array, segment }, count.clone()),
        (Call::Floats { array, segment }, count.clone()),
        (Call::WalkedFloats { array, segment }, count),
        (Call::Walk { array, segment }, marks.to_vec()),
    ];
    for k in points {
        let point = Call::Point { array, segment, point: k as u32 };
        let step = Call::Step { array, segment, k: k as u32 };
        expected.extend([(point, vec![marks[k]]), (step, vec![marks[k]])]);
    }
    expected
}

/// The marks that a reply hands on, or their count.
fn handed_on(call: Call, reply: &Reply) -> Vec<u64> {
    match call {
        Call::Point { .. } => vec![reply.number_at(2)],
        Call::Fill { .. } => vec![reply.number_at(reply.answer.len() / 8 - 1)],
        Call::Floats { .. } | Call::WalkedFloats { .. } => vec![reply.number],
        _ => reply.marks.iter().map(|mark| u64::from(*mark)).collect(),
    }
}

fn same(call: Call, came: &[u64], expected: &[u64]) -> Result<(), Difference> {
    if came.len() != expected.len() {
        return Err(Difference(format!(
            "{call}: {} marks or counts, and {} by the samples",
            came.len(),
            expected.len()
        )));
    }
    match came.iter().zip(expected).position(|(came, expected)| came != expected) {
        None => Ok(()),
        Some(at) => Err(Difference(format!(
            "{call}: mark or count {at} is {}, and {} by the samples",
            came[at], expected[at]
        ))),
    }
}

#[cfg(test)]
mod tests {
    use super::*;
    use std::collections::BTreeSet;

    /// The turns have each place that a segment has, in each length, type and order.
    #[test]
    fn turns_have_every_place() {
        let random = &mut Random::new(12, 0);
        let mut seen = BTreeSet::new();
        for turn in 0..TURNS {
            let Known { order, width, arrays } = block_of_turn(turn, random);
            for rows in arrays {
                for Row { samples, point } in &rows[..WITH_ONE] {
                    let rail = samples::rail(width);
                    assert!(rail.contains(&samples[*point]));
                    seen.insert((order == Order::HiFirst, width, samples.len(), point % 64));
                }
            }
        }
        let places = LENGTHS.map(|length| length.min(64));
        assert_eq!(seen.len(), 2 * 2 * places.iter().sum::<usize>());
    }
}
