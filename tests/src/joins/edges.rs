//! Every clause of a join's refusals, just inside and just outside. An edge first asks for a plan,
//! then changes the right parts made by it; alone, it makes `join` answer its number.

use super::parts::{Parts, Plan};
use super::{alike, indices, many, slices, tables};
use crate::random::Random;
use crate::shape::Table;

pub struct Edge {
    /// What `join` answers where there is room; 0 where the edge is just inside.
    pub number: u32,
    pub name: &'static str,
    plan: fn(&mut Plan, &mut Random),
    change: fn(&mut Parts, &mut Random),
}

/// The edges that take turns. What changes the slice comes behind what changes its parts.
pub fn edges() -> Vec<&'static Edge> {
    [indices::EDGES, alike::EDGES, tables::EDGES, slices::EDGES].into_iter().flatten().collect()
}

/// The edges that need many parts.
pub fn many_edges() -> Vec<&'static Edge> {
    many::EDGES.iter().collect()
}

/// The edges that need long parts.
pub fn longest_edges() -> Vec<&'static Edge> {
    many::LONGEST.iter().collect()
}

/// Parts at several edges, which stand in the order of their table.
pub fn all(edges: &[&Edge], random: &mut Random) -> Parts {
    let mut plan = Plan::any(random);
    edges.iter().for_each(|edge| (edge.plan)(&mut plan, random));
    let mut parts = plan.parts(random);
    edges.iter().for_each(|edge| (edge.change)(&mut parts, random));
    parts
}

pub const fn edge(
    number: u32,
    name: &'static str,
    plan: fn(&mut Plan, &mut Random),
    change: fn(&mut Parts, &mut Random),
) -> Edge {
    Edge { number, name, plan, change }
}

pub fn as_they_are(_: &mut Parts, _: &mut Random) {}

// Plans that edges ask for.

pub fn any(_: &mut Plan, _: &mut Random) {}

pub fn one(plan: &mut Plan, random: &mut Random) {
    plan.set_count(1, random);
}

pub fn two(plan: &mut Plan, random: &mut Random) {
    plan.set_count(2, random);
}

pub fn two_or_more(plan: &mut Plan, random: &mut Random) {
    let any = random.range(2, 12);
    let count = random.pick(&[2, any]);
    plan.set_count(count, random);
}

pub fn three_or_more(plan: &mut Plan, random: &mut Random) {
    let any = random.range(3, 12);
    let count = random.pick(&[3, any]);
    plan.set_count(count, random);
}

pub fn no_table(plan: &mut Plan, random: &mut Random) {
    two_or_more(plan, random);
    plan.shape.table = Table::None;
}

pub fn trigtime(plan: &mut Plan, random: &mut Random) {
    two_or_more(plan, random);
    plan.shape.table = Table::Trigtime;
}

pub fn trigtime_of_three(plan: &mut Plan, random: &mut Random) {
    three_or_more(plan, random);
    plan.shape.table = Table::Trigtime;
}

pub fn with_text(plan: &mut Plan, random: &mut Random) {
    two_or_more(plan, random);
    plan.shape.user_text = 1 + random.below(40);
}

pub fn one_point(plan: &mut Plan, random: &mut Random) {
    two_or_more(plan, random);
    plan.shape.points = 1;
}

#[cfg(test)]
mod tests {
    use super::*;
    use crate::law::join;

    fn number_of(parts: &Parts) -> u32 {
        let slice = parts.bytes();
        join::join(&slice, &mut vec![0; slice.len() + 6], &mut [0; 16])
    }

    /// The expected numbers here are the table's own, not the implementation's.
    #[test]
    fn each_edge_alone_gives_its_number() {
        let (common, many) = (edges().into_iter(), many_edges().into_iter());
        let longest = longest_edges().into_iter().map(|edge| (edge, 1));
        let turns = common.map(|edge| (edge, 200)).chain(many.map(|edge| (edge, 3))).chain(longest);
        for (edge, times) in turns {
            for case in 0..times {
                let parts = all(&[edge], &mut Random::new(13, case));
                assert_eq!(number_of(&parts), edge.number, "{}, case {case}", edge.name);
            }
        }
    }

    /// Any two of them make a slice.
    #[test]
    fn any_two_edges_go_together() {
        let edges = edges();
        for (place, a) in edges.iter().enumerate() {
            for (case, b) in (0..).zip(&edges[place + 1..]) {
                number_of(&all(&[a, b], &mut Random::new(14, case)));
            }
        }
    }
}
