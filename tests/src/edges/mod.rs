//! Every clause of refusals 1 to 8 and 20, just inside and just outside. An edge first asks for a shape,
//! then changes the right block made of it; alone, it makes `open` answer its number.

mod counts;
mod frame;
mod large;
mod scale;
mod shapes;
mod times;

use crate::draft::Draft;
use crate::law::descriptor::{SUBARRAY_COUNT, WAVE_ARRAY_COUNT};
use crate::random::Random;
use crate::shape::Shape;

pub use scale::TOO_HIGH;

pub struct Edge {
    /// What `open` answers; 0 where the edge is just inside.
    pub number: u32,
    pub name: &'static str,
    shape: fn(&mut Shape, &mut Random),
    change: fn(&mut Draft, &mut Random),
}

/// The edges that take turns.
pub fn edges() -> Vec<&'static Edge> {
    [frame::EDGES, counts::EDGES, scale::EDGES, times::EDGES].into_iter().flatten().collect()
}

/// The edges that need a long block.
pub fn large_edges() -> Vec<&'static Edge> {
    large::EDGES.iter().collect()
}

/// A block at one edge.
pub fn one(edge: &Edge, random: &mut Random) -> Draft {
    all(&[edge], random)
}

/// A block with several faults. They are made from the last rule to the first, because what an
/// early rule judges (the frame, the lengths) is built around what a late one does.
pub fn all(edges: &[&Edge], random: &mut Random) -> Draft {
    let mut edges = edges.to_vec();
    edges.sort_by_key(|edge| std::cmp::Reverse(edge.number));
    let mut shape = Shape::any(random);
    edges.iter().for_each(|edge| (edge.shape)(&mut shape, random));
    let mut draft = shape.draft(random);
    edges.iter().for_each(|edge| (edge.change)(&mut draft, random));
    draft
}

const fn edge(
    number: u32,
    name: &'static str,
    shape: fn(&mut Shape, &mut Random),
    change: fn(&mut Draft, &mut Random),
) -> Edge {
    Edge { number, name, shape, change }
}

fn as_it_is(_: &mut Draft, _: &mut Random) {}

// What a draft's fields say.

fn segments(draft: &Draft) -> i64 {
    draft.long(SUBARRAY_COUNT).max(1)
}

fn points(draft: &Draft) -> i64 {
    draft.long(WAVE_ARRAY_COUNT) / segments(draft)
}

#[cfg(test)]
mod tests {
    use super::*;
    use crate::law::calls;

    /// The expected numbers here are the table's own, not the implementation's.
    #[test]
    fn each_edge_alone_gives_its_number() {
        let (common, large) = (edges().into_iter(), large_edges().into_iter());
        for (edge, times) in common.map(|edge| (edge, 300)).chain(large.map(|edge| (edge, 2))) {
            for case in 0..times {
                let block = one(edge, &mut Random::new(7, case)).bytes();
                let number = calls::open(&block, &mut [0; 40]);
                assert_eq!(number, edge.number, "{}, case {case}", edge.name);
            }
        }
    }

    #[test]
    fn right_blocks_of_any_shape_are_accepted() {
        for case in 0..20_000 {
            let random = &mut Random::new(8, case);
            let block = Shape::any(random).draft(random).bytes();
            assert_eq!(calls::open(&block, &mut [0; 40]), 0, "case {case}");
        }
    }
}
