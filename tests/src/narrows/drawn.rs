//! What is narrowed: right blocks, most of them of words, whose arrays are about one, two and three
//! times 128 samples long, or as long as 16 bits count.

use crate::draft::Draft;
use crate::law::numbers::Order;
use crate::random::Random;
use crate::shape::{Shape, Table};

/// How many samples an array has.
const COUNTS: [i64; 11] = [1, 2, 127, 128, 129, 255, 256, 257, 383, 384, 385];

/// Each count, in both orders, of one array and of two.
pub const TURNS: usize = 4 * COUNTS.len();

/// A right block of words, or sometimes of bytes.
pub fn draft(turn: usize, random: &mut Random) -> Draft {
    let shape = Shape { word: !random.once_in(4), ..shape(turn, random) };
    shape.draft(random)
}

/// One of words with arrays of 65,536 samples or a few more.
pub fn long_draft(random: &mut Random) -> Draft {
    let count = (1 << 16) + random.range(0, 2);
    let turn = random.below(TURNS);
    shape_of(count, turn, random).draft(random)
}

/// A shape of words; each turn has another order, count, or number of arrays.
pub fn shape(turn: usize, random: &mut Random) -> Shape {
    shape_of(COUNTS[turn / 4 % COUNTS.len()], turn, random)
}

fn shape_of(count: i64, turn: usize, random: &mut Random) -> Shape {
    let subarrays = subarrays(count, random);
    Shape {
        order: [Order::HiFirst, Order::LoFirst][turn % 2],
        word: true,
        two_arrays: turn / 2 % 2 == 1,
        subarrays,
        points: count / subarrays.max(1),
        table: Table::any(random, subarrays),
        ..Shape::any(random)
    }
}

/// Parts so many samples into one segment to eight.
fn subarrays(count: i64, random: &mut Random) -> i64 {
    let whole: Vec<i64> = (1..=8).filter(|segments| count % segments == 0).collect();
    let any = random.pick(&whole);
    random.pick(&[0, 1, any, any])
}

#[cfg(test)]
mod tests {
    use super::*;
    use crate::law::descriptor::{SUBARRAY_COUNT, WAVE_ARRAY_COUNT};
    use crate::law::rules::open;

    /// The turns have each count with all that moves an array or a table.
    #[test]
    fn turns_have_every_count() {
        let random = &mut Random::new(18, 0);
        let drafts: Vec<Draft> = (0..20 * TURNS).map(|turn| draft(turn, random)).collect();
        assert!(drafts.iter().all(|draft| open(&draft.bytes()).is_ok()));
        for count in COUNTS {
            for order in [Order::HiFirst, Order::LoFirst] {
                let some = |has: fn(&Draft) -> bool| {
                    let mut fit = drafts.iter().filter(|draft| {
                        draft.order == order && draft.long(WAVE_ARRAY_COUNT) == count
                    });
                    fit.any(has)
                };
                assert!(some(|d| d.width == 1) && some(|d| d.width == 2), "{count}");
                assert!(some(|d| d.array_2.is_empty()) && some(|d| !d.array_2.is_empty()));
                assert!(some(|d| !d.trigtime.is_empty()) && some(|d| !d.ristime.is_empty()));
            }
        }
        assert!(drafts.iter().any(|d| d.long(SUBARRAY_COUNT) == 8));
        assert!(long_draft(random).array_1.len() >= 2 << 16);
    }
}
