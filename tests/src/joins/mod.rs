//! Joins: sets of parts, right ones and those with faults, and what is asked of them.

mod alike;
mod answers;
mod cuts;
mod edges;
mod indices;
mod many;
mod parts;
mod slices;
mod tables;

use crate::compare::{Checker, Difference};
use crate::edges as blocks;
use crate::law::descriptor::SIZE;
use crate::random::Random;
use crate::request::Call;
use crate::rooms::request;
use edges::Edge;
use parts::{Parts, Plan};

/// One turn in so many has many parts.
const MANY_EVERY: u64 = 32;

/// The turns of a thousand that have long parts, one for each edge that needs them.
const LONG_TURNS: [u64; 3] = [100, 200, 300];

/// How many pairs of edges a turn has, and how many damages.
const PAIRS: usize = 8;
const DAMAGES: usize = 12;

/// The numbers of bad parts.
const BAD: [u32; 9] = [1, 2, 3, 4, 5, 6, 7, 8, 20];

/// Runs the join of a turn and answers what kind it was.
pub fn run(
    checker: &mut Checker,
    turn: u64,
    random: &mut Random,
) -> (String, Result<(), Difference>) {
    if let Some(place) = LONG_TURNS.iter().position(|long| *long == turn % 1000) {
        let edge = edges::longest_edges()[place];
        let slice = edges::all(&[edge], random).bytes();
        return (format!("long join: {}", edge.name), ask_slice(checker, &slice, random));
    }
    if turn % MANY_EVERY == MANY_EVERY - 1 {
        let edge = take_turn(&edges::many_edges(), turn / MANY_EVERY);
        let parts = edges::all(&[edge], random);
        return (format!("join of many: {}", edge.name), ask(checker, &parts, random));
    }
    match turn % 8 {
        0 => {
            let parts = Plan::any(random).parts(random);
            let asked = ask(checker, &parts, random);
            ("join".into(), asked.and_then(|()| answers::check_joined(checker, &parts, random)))
        }
        kind @ 1..=4 => {
            // The edges take turns, so that a few hundred joins have them all.
            let edge = take_turn(&edges::edges(), turn / 8 * 4 + kind - 1);
            let parts = edges::all(&[edge], random);
            (format!("join: {}", edge.name), ask(checker, &parts, random))
        }
        5 if turn % 16 == 5 => two_faults(checker, random),
        5 => bad_part(checker, turn / 16, random),
        6 => ("damaged join".into(), damaged(checker, random)),
        _ => ("join of cuts".into(), joined_cuts(checker, random)),
    }
}

/// Good parts in two orders of arrival, at any edge where all are good.
pub fn two_arrivals(checker: &mut Checker, random: &mut Random) -> Result<(), Difference> {
    let edge = random.pick(&edges::edges());
    let parts = edges::all(&[edge], random);
    if !parts.all_good() {
        return Ok(());
    }
    answers::check_arrival(checker, &parts, random)
}

/// The points of what right parts join to.
pub fn joined_points(checker: &mut Checker, random: &mut Random) -> Result<(), Difference> {
    let parts = Plan::any(random).parts(random);
    answers::check_joined(checker, &parts, random)
}

/// Parts that cuts wrote, seldom hundreds of them or a thousand.
pub fn joined_cuts(checker: &mut Checker, random: &mut Random) -> Result<(), Difference> {
    let mut plan = Plan::any(random);
    if random.once_in(200) {
        let hundreds = random.range(100, 999);
        plan.set_many(random.pick(&[hundreds, 1000]), random);
    }
    cuts::check(checker, &plan, random)
}

/// Good parts in two orders of arrival, others as they come.
fn ask(checker: &mut Checker, parts: &Parts, random: &mut Random) -> Result<(), Difference> {
    if parts.all_good() {
        return answers::check_arrival(checker, parts, random);
    }
    ask_slice(checker, &parts.bytes(), random)
}

fn ask_slice(checker: &mut Checker, slice: &[u8], random: &mut Random) -> Result<(), Difference> {
    checker.ask(&request(random, Call::Join, slice))?;
    Ok(())
}

fn take_turn(edges: &[&'static Edge], turn: u64) -> &'static Edge {
    edges[(turn % edges.len() as u64) as usize]
}

/// Some pairs of edges, of which one at least is refused.
fn two_faults(checker: &mut Checker, random: &mut Random) -> (String, Result<(), Difference>) {
    let mut kind = String::new();
    for _ in 0..PAIRS {
        let [a, b] = two_edges(random);
        kind = format!("join: {}; {}", a.name, b.name);
        let parts = edges::all(&[a, b], random);
        if let Err(difference) = ask(checker, &parts, random) {
            return (kind, Err(difference));
        }
    }
    (kind, Ok(()))
}

/// Two edges in the order of their table.
fn two_edges(random: &mut Random) -> [&'static Edge; 2] {
    let edges = edges::edges();
    loop {
        let (a, b) = (random.below(edges.len()), random.below(edges.len()));
        if a < b && (edges[a].number != 0 || edges[b].number != 0) {
            return [edges[a], edges[b]];
        }
    }
}

/// A bad block among good parts: before them, between them and behind them. Its number takes turns.
fn bad_part(
    checker: &mut Checker,
    turn: u64,
    random: &mut Random,
) -> (String, Result<(), Difference>) {
    let number = BAD[(turn % BAD.len() as u64) as usize];
    let bad: Vec<_> = blocks::edges().into_iter().filter(|edge| edge.number == number).collect();
    let edge = random.pick(&bad);
    let block = blocks::one(edge, random).bytes();
    let good: Vec<_> =
        Plan::any(random).parts(random).drafts.iter().map(|draft| draft.bytes()).collect();
    let mut ask = |place: usize| {
        let slice = [good[..place].concat(), block.clone(), good[place..].concat()].concat();
        ask_slice(checker, &slice, random)
    };
    let asked = [0, good.len() / 2, good.len()].into_iter().try_for_each(&mut ask);
    (format!("join with a bad part: {}", edge.name), asked)
}

/// Parts of which some bits of headers and descriptors have changed, one at a time.
fn damaged(checker: &mut Checker, random: &mut Random) -> Result<(), Difference> {
    let parts = Plan::any(random).parts(random);
    let slice = parts.bytes();
    for _ in 0..DAMAGES {
        let mut damaged = slice.clone();
        let part = random.below(parts.drafts.len());
        let start: usize = parts.drafts[..part].iter().map(|draft| draft.bytes().len()).sum();
        let at = start + random.below(parts.drafts[part].header_len() + SIZE);
        damaged[at] ^= 1 << random.below(8);
        ask_slice(checker, &damaged, random)?;
    }
    Ok(())
}
