//! The blocks that are asked for strips: those of known rows, with what counts at every place where a
//! reader of several samples at once may go wrong; and any others.

use super::columns::{self, SHORT};
use super::rows;
use crate::draft::Draft;
use crate::law::numbers::Order;
use crate::random::Random;
use crate::samples::{self, rail};
use crate::shape::{any_order, Shape, Table};

/// How long a segment is: about the powers of two and the multiples of 8, and others.
const LENGTHS: [usize; 46] = [
    1, 2, 3, 4, 5, 7, 8, 9, 10, 15, 16, 17, 24, 31, 32, 33, 47, 48, 63, 64, 65, 72, 96, 100, 127,
    128, 129, 160, 191, 192, 255, 256, 257, 320, 511, 512, 513, 1000, 1023, 1024, 1025, 2047, 2048,
    4095, 4096, 4097,
];

/// Segments of an array with known samples.
const ROWS: usize = 5;

/// How long the long segments are at least: q·M leaves 32 bits from the second on, and so does the sum of
/// the third where all samples are at the rail of words.
const LONG: [usize; 3] = [65_536, 100_000, 140_000];

/// The samples of a segment, how many of them are at the rail, and the columns that they are made for.
pub struct Row {
    pub samples: Vec<i64>,
    pub marks: u64,
    pub columns: u32,
}

/// A right block, and the samples of each segment of each array.
pub struct Known {
    pub draft: Draft,
    pub arrays: Vec<Vec<Row>>,
}

impl Row {
    fn new(samples: Vec<i64>, width: usize, columns: u32) -> Row {
        let marks = samples.iter().filter(|sample| rail(width).contains(sample)).count() as u64;
        Row { samples, marks, columns }
    }
}

/// A block with known samples of any turn.
pub fn any_known(random: &mut Random) -> Known {
    let turn = random.below(4 * LENGTHS.len());
    of_turn(turn, random)
}

/// A block with the length of a turn; in four rounds of the lengths they come in both types and both
/// orders. The kinds of its rows go round too.
pub fn of_turn(turn: usize, random: &mut Random) -> Known {
    let points = LENGTHS[turn % LENGTHS.len()];
    let kind = turn + turn / LENGTHS.len();
    let (order, width) = kind_of(kind);
    let row_of = |place: usize, random: &mut Random| {
        let kind = (ROWS * turn + place) % rows::KINDS;
        row(kind, width, points, columns::right(points as u32, random), random)
    };
    let mut arrays = vec![(0..ROWS).map(|place| row_of(place, random)).collect()];
    if random.once_in(2) {
        arrays.push((ROWS..2 * ROWS).map(|place| row_of(place, random)).collect());
    }
    known(order, width, arrays, random)
}

/// A block of short segments: of array 1 each has the greatest sample at another place, of array 2 the
/// least.
pub fn short(turn: usize, random: &mut Random) -> Known {
    let points = 1 + turn % SHORT as usize;
    let (order, width) = kind_of(turn + turn / SHORT as usize);
    let row = |samples: Vec<i64>| Row::new(samples, width, points as u32);
    let arrays = [rows::greatest_at, rows::least_at].map(|at| {
        (0..points).map(|place| row(at(width, points, place, random))).collect::<Vec<Row>>()
    });
    known(order, width, arrays.into(), random)
}

/// A long segment of any kind, in nearly as many columns as it has points, and one of the same samples
/// all at the rail, in one column or few.
pub fn long(random: &mut Random) -> Known {
    let (order, width) = (any_order(random), random.pick(&[1, 2, 2]));
    let points = random.pick(&LONG) + random.below(70);
    let nearly_all = (points - points / 10 - random.below(70)) as u32;
    let few = random.pick(&[1, 1, 2, 3, 1000]);
    let any = row(random.below(rows::KINDS), width, points, nearly_all, random);
    let alike = row(rows::ALIKE, width, points, few, random);
    known(order, width, vec![vec![any, alike]], random)
}

fn kind_of(turn: usize) -> (Order, usize) {
    ([Order::HiFirst, Order::LoFirst][turn % 2], 1 + turn / 2 % 2)
}

fn row(kind: usize, width: usize, points: usize, columns: u32, random: &mut Random) -> Row {
    let place = place(points, columns as usize, random);
    Row::new(rows::of_kind(kind, width, points, place, random), width, columns)
}

/// A place at an end of a column or of the segment, at or beside a multiple of a power of two that is
/// counted from the start of either, or any.
fn place(points: usize, columns: usize, random: &mut Random) -> usize {
    let q = random.below(columns);
    let [start, end] = [q, q + 1].map(|q| q * points / columns);
    let step = random.pick(&[8, 16, 32, 64]);
    let [in_segment, in_column] = [(0, points), (start, end)].map(|(start, end)| {
        let multiple = start + step * random.below((end - start) / step + 1);
        multiple + random.pick(&[0, 1, step - 1])
    });
    let any = random.below(points);
    let ends = [start, end - 1, end, 0, points - 1];
    let place = random.pick(&ends);
    random.pick(&[place, place, in_segment, in_column, in_column, any]).min(points - 1)
}

fn known(order: Order, width: usize, arrays: Vec<Vec<Row>>, random: &mut Random) -> Known {
    let segments = arrays[0].len();
    let shape = Shape {
        order,
        word: width == 2,
        two_arrays: arrays.len() == 2,
        subarrays: segments as i64,
        points: arrays[0][0].samples.len() as i64,
        table: Table::any(random, segments as i64),
        user_text: random.below(20),
    };
    let mut draft = shape.draft(random);
    let bytes = |row: &Row| samples::bytes(order, width, &row.samples);
    let mut parts = arrays.iter().map(|rows| rows.iter().flat_map(bytes).collect());
    draft.array_1 = parts.next().unwrap_or_default();
    draft.array_2 = parts.next().unwrap_or_default();
    Known { draft, arrays }
}

/// A right block of any shape, half of them with constant samples, ramps and spikes.
pub fn any(random: &mut Random) -> Draft {
    let shape = Shape::any(random);
    let mut draft = shape.draft(random);
    if random.once_in(2) {
        samples::set_patterns(&mut draft, &shape, random);
    }
    draft
}

#[cfg(test)]
mod tests {
    use super::*;
    use crate::law::rules::open;
    use std::collections::BTreeSet;

    #[test]
    fn turns_are_right_blocks_of_every_kind() {
        let random = &mut Random::new(28, 0);
        let mut seen = BTreeSet::new();
        for turn in 0..4 * LENGTHS.len() {
            let Known { draft, arrays } = of_turn(turn, random);
            let opened_points = open(&draft.bytes()).map(|opened| opened.points);
            assert_eq!(opened_points, Ok(arrays[0][0].samples.len() as i64));
            seen.insert((draft.order == Order::HiFirst, draft.width, arrays[0][0].samples.len()));
        }
        assert_eq!(seen.len(), 4 * LENGTHS.len());
        for turn in 0..4 * SHORT as usize {
            assert!(open(&short(turn, random).draft.bytes()).is_ok());
        }
        for _ in 0..10 {
            assert!(open(&long(random).draft.bytes()).is_ok());
        }
        for _ in 0..2000 {
            assert!(open(&any(random).bytes()).is_ok());
        }
    }

    /// The short turns have each place of each length, in both types and orders.
    #[test]
    fn short_turns_have_every_place() {
        let random = &mut Random::new(29, 0);
        let mut seen = BTreeSet::new();
        for turn in 0..4 * SHORT as usize {
            let Known { draft, arrays } = short(turn, random);
            for rows in &arrays {
                assert_eq!(rows.len(), rows[0].samples.len());
            }
            seen.insert((draft.order == Order::HiFirst, draft.width, arrays[0].len()));
        }
        assert_eq!(seen.len(), 4 * SHORT as usize);
    }

    #[test]
    fn places_are_about_the_columns() {
        let random = &mut Random::new(30, 0);
        // The columns of 300 points in three start at 0, 100 and 200.
        let seen: BTreeSet<usize> = (0..5000).map(|_| place(300, 3, random)).collect();
        for k in [0, 63, 64, 99, 100, 163, 164, 199, 200, 207, 208, 231, 263, 264, 299] {
            assert!(seen.contains(&k), "{k}");
        }
        assert!(seen.iter().all(|k| *k < 300));
    }
}
