//! The blocks that are asked for crossings: those of known rows, with the first point at the level at
//! every place where a reader of several samples at once may go wrong; and any others.

use super::rows::{Row, Sides};
use super::scales::Scale;
use crate::draft::Draft;
use crate::law::numbers::Order;
use crate::random::Random;
use crate::samples;
use crate::shape::{any_order, Shape, Table};

/// How long a segment is: the powers of two, and one less and more.
const LENGTHS: [usize; 27] = [
    1, 2, 3, 15, 16, 17, 31, 32, 33, 63, 64, 65, 127, 128, 129, 255, 256, 257, 511, 512, 513, 1023,
    1024, 1025, 4095, 4096, 4097,
];

/// Up to here every multiple of 8 has a first point at it and at its sides, from there on every
/// multiple of 64.
const EIGHTS: usize = 520;

/// Segments of an array with a first point at the level at a known place. Two more follow, with no
/// point there and with all.
const WITH_ONE: usize = 6;

/// A right block, the level, and for each segment of each array the first point at it.
pub struct Known {
    pub draft: Draft,
    pub level: f64,
    pub firsts: Vec<Vec<Option<usize>>>,
}

/// A length with some of its places, two arrays of them.
struct Places {
    points: usize,
    places: Vec<usize>,
}

/// All places of all lengths; of each length a part comes before the next part of any.
fn places() -> Vec<Places> {
    let mut parts: Vec<(usize, Places)> = vec![];
    for points in LENGTHS {
        let all = notable(points);
        let count = all.len().div_ceil(2 * WITH_ONE);
        for part in 0..count {
            let places = all.iter().copied().skip(part).step_by(count).collect();
            parts.push((part, Places { points, places }));
        }
    }
    parts.sort_by_key(|(part, _)| *part);
    parts.into_iter().map(|(_, places)| places).collect()
}

/// Places at and beside the multiples, and the last three.
fn notable(points: usize) -> Vec<usize> {
    let is_notable = |k: &usize| {
        let step = if *k < EIGHTS { 8 } else { 64 };
        (k + 1) % step < 3 || points - k <= 3
    };
    (0..points).filter(is_notable).collect()
}

/// A block with known places of any turn.
pub fn any_known(random: &mut Random) -> Known {
    let turn = random.below(4 * places().len());
    of_turn(turn, random)
}

/// A block with the places of a turn; in four rounds of the turns they come in both types and both
/// orders.
pub fn of_turn(turn: usize, random: &mut Random) -> Known {
    let all = places();
    let Places { points, places } = &all[turn % all.len()];
    let kind = turn + turn / all.len();
    let order = [Order::HiFirst, Order::LoFirst][kind % 2];
    let width = 1 + kind / 2 % 2;
    let sides = Sides::any(width, random);
    let mut rows_of = |array: usize| {
        let own = places.iter().cycle().skip(WITH_ONE * array).take(WITH_ONE);
        let mut rows: Vec<Row> = own.map(|place| sides.first_at(*points, *place, random)).collect();
        let mut rest = [sides.none(*points, random), sides.all(*points, random)];
        // In array 2 all comes before none.
        rest.rotate_left(array);
        rows.extend(rest);
        rows
    };
    let rows = vec![rows_of(0), rows_of(1)];
    known(order, width, &sides, &rows, random)
}

/// Two segments of 65,536 points or a few more; the first point at the level is one of the last, or
/// the first that 16 bits do not count, or any, or there is none.
pub fn long(random: &mut Random) -> Known {
    let (order, width) = (any_order(random), 1 + random.below(2));
    let points = (1 << 16) + 1 + random.below(70);
    let sides = Sides::any(width, random);
    let mut row = || {
        let any = random.below(points);
        let place = random.pick(&[1 << 16, points - 1, 65_535, any]);
        match random.once_in(5) {
            true => sides.none(points, random),
            false => sides.first_at(points, place, random),
        }
    };
    let rows = vec![vec![row(), row()]];
    known(order, width, &sides, &rows, random)
}

/// One segment of a few times 65,536 bytes with nothing behind it; the first point at the level is in
/// the front half.
pub fn early(random: &mut Random) -> Known {
    let (order, width) = (any_order(random), 1 + random.below(2));
    let points = (4 << 16) + random.below(70);
    let sides = Sides::any(width, random);
    let place = random.below(points / 2);
    let rows = vec![vec![sides.first_at(points, place, random)]];
    let mut early = known(order, width, &sides, &rows, random);
    early.draft.tail.clear();
    early
}

fn known(
    order: Order,
    width: usize,
    sides: &Sides,
    rows: &[Vec<Row>],
    random: &mut Random,
) -> Known {
    let shape = Shape {
        order,
        word: width == 2,
        two_arrays: rows.len() == 2,
        subarrays: rows[0].len() as i64,
        points: rows[0][0].samples.len() as i64,
        table: random.pick(&[Table::None, Table::Trigtime]),
        user_text: random.below(20),
    };
    let mut draft = shape.draft(random);
    sides.scale.set(&mut draft);
    let bytes = |row: &Row| samples::bytes(order, width, &row.samples);
    let mut arrays = rows.iter().map(|rows| rows.iter().flat_map(bytes).collect());
    draft.array_1 = arrays.next().unwrap_or_default();
    draft.array_2 = arrays.next().unwrap_or_default();
    let firsts = rows.iter().map(|rows| rows.iter().map(|row| row.first).collect());
    Known { draft, level: sides.level, firsts: firsts.collect() }
}

/// A right block of any shape with any scale. Half of them have the samples of any block, the others
/// constant ones, ramps and spikes.
pub fn any(random: &mut Random) -> Draft {
    let shape = Shape::any(random);
    let mut draft = shape.draft(random);
    if random.once_in(2) {
        Scale::any(random).set(&mut draft);
    }
    if random.once_in(2) {
        samples::set_patterns(&mut draft, &shape, random);
    }
    draft
}

#[cfg(test)]
mod tests {
    use super::*;
    use crate::law::rules::open;
    use std::collections::BTreeSet;

    /// Every length has its ends and both sides of every multiple of 8 near its start.
    #[test]
    fn places_are_about_the_multiples() {
        let all: BTreeSet<(usize, usize)> = places()
            .into_iter()
            .flat_map(|Places { points, places }| places.into_iter().map(move |k| (points, k)))
            .collect();
        for points in LENGTHS {
            for multiple in (0..=points).step_by(8) {
                let near = multiple < EIGHTS || multiple % 64 == 0;
                for k in [multiple.saturating_sub(1), multiple, multiple + 1] {
                    assert!(!near || k >= points || all.contains(&(points, k)), "{k} of {points}");
                }
            }
            assert!(all.contains(&(points, 0)) && all.contains(&(points, points - 1)));
        }
    }

    #[test]
    fn turns_are_right_blocks_of_every_kind() {
        let random = &mut Random::new(25, 0);
        let mut seen = BTreeSet::new();
        for turn in 0..4 * LENGTHS.len() {
            let Known { draft, level, firsts } = of_turn(turn, random);
            assert!(open(&draft.bytes()).is_ok() && level.is_finite());
            assert!(firsts.iter().all(|rows| rows.contains(&None) && rows.len() == WITH_ONE + 2));
            seen.insert((draft.order == Order::HiFirst, draft.width));
        }
        assert_eq!(seen.len(), 4);
        for _ in 0..10 {
            assert!(open(&long(random).draft.bytes()).is_ok());
            let Known { draft, firsts, .. } = early(random);
            assert!(open(&draft.bytes()).is_ok() && draft.tail.is_empty());
            assert!(firsts[0][0].is_some_and(|place| 2 * place < draft.array_1.len() / draft.width));
        }
        for _ in 0..2000 {
            assert!(open(&any(random).bytes()).is_ok());
        }
    }
}
