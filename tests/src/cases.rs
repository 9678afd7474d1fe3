//! A case: one block and what is asked of it, or lines, fixed by a seed and a case number.

use crate::chains;
use crate::compare::{Checker, Difference};
use crate::crossings;
use crate::draft::{digits, Draft};
use crate::edges::{self, Edge};
use crate::headers;
use crate::joins;
use crate::law::descriptor::*;
use crate::law::numbers::{read_signed, store};
use crate::law::rules::open;
use crate::marks;
use crate::narrows;
use crate::pairs;
use crate::places;
use crate::questions::{place_calls, Extent};
use crate::random::Random;
use crate::request::Call;
use crate::results;
use crate::rooms::request;
use crate::setups;
use crate::shape::{any_order, Shape};
use crate::strips;

/// One case in so many has a long block.
const LARGE_EVERY: u64 = 400;

/// Runs a case and answers what kind it was.
pub fn run(checker: &mut Checker, seed: u64, case: u64) -> (String, Result<(), Difference>) {
    let random = &mut Random::new(seed, case);
    if case % LARGE_EVERY == LARGE_EVERY - 1 {
        let edge = take_turn(&edges::large_edges(), case / LARGE_EVERY);
        let block = edges::one(edge, random).bytes();
        return (format!("long block: {}", edge.name), ask_little(checker, &block, random));
    }
    match case % 8 {
        0 if case % 32 == 8 => narrows::run(checker, case / 32, random),
        0 if case % 32 == 24 => crossings::run(checker, case / 32, random),
        0 if case % 32 == 16 => strips::run(checker, case / 32, random),
        0 => {
            let block = right_block(random);
            ("right block".into(), ask_much(checker, &block, random))
        }
        1 => joins::run(checker, case / 8, random), // is_join
        turn @ 2..=4 => {
            // The edges take turns, so that a few hundred cases have them all.
            let edge = take_turn(&edges::edges(), case / 8 * 3 + turn - 2);
            let block = edges::one(edge, random).bytes();
            (format!("edge: {}", edge.name), ask_any(checker, &block, random))
        }
        5 => {
            let (a, b) = two_faults(random);
            let block = edges::all(&[a, b], random).bytes();
            (format!("two faults: {}; {}", a.name, b.name), ask_any(checker, &block, random))
        }
        6 if case % 64 == 22 => setups::run(checker, case / 64, random), // is_setup
        6 if case % 16 == 14 => {
            ("marks".into(), marks::check(checker, (case / 16) as usize, random))
        }
        6 => {
            let block = damaged(&right_draft(random), random);
            ("damage".into(), ask_any(checker, &block, random))
        }
        _ if case % 32 == 31 => ("two headers".into(), two_headers(checker, random)),
        _ if case % 32 == 23 => ("parts and texts".into(), parts_and_texts(checker, random)),
        _ if case % 32 == 15 => chains::run(checker, case / 32, random),
        _ => ("cut of a cut".into(), cut_of_cut(checker, random)),
    }
}

/// Whether a case asks for joins.
pub fn is_join(case: u64) -> bool {
    case % 8 == 1
}

/// Whether a case asks for setups as lines.
pub fn is_setup(case: u64) -> bool {
    case % 64 == 22
}

/// Two cuts, one after the other, of a right block.
pub fn cut_of_cut(checker: &mut Checker, random: &mut Random) -> Result<(), Difference> {
    let block = right_block(random);
    pairs::check(checker, &block, random)
}

/// A cut of a right block, and the same block narrowed; what is written is opened.
pub fn written_opened(checker: &mut Checker, random: &mut Random) -> Result<(), Difference> {
    let block = right_block(random);
    let cut = Extent::of(&block).cut(random);
    ask(checker, &block, random, &[cut, Call::Narrow])
}

/// The payload of a right block under another header.
pub fn two_headers(checker: &mut Checker, random: &mut Random) -> Result<(), Difference> {
    let draft = right_draft(random);
    headers::check(checker, &draft, random)
}

/// The parts and texts of a right block, where the calls say that they stand.
pub fn parts_and_texts(checker: &mut Checker, random: &mut Random) -> Result<(), Difference> {
    let draft = right_draft(random);
    places::check(checker, &draft, random)
}

/// The marks of a block's known samples.
pub fn marks_known(checker: &mut Checker, random: &mut Random) -> Result<(), Difference> {
    let turn = random.below(marks::TURNS);
    marks::check(checker, turn, random)
}

fn take_turn(edges: &[&'static Edge], turn: u64) -> &'static Edge {
    edges[(turn % edges.len() as u64) as usize]
}

fn right_draft(random: &mut Random) -> Draft {
    Shape::any(random).draft(random)
}

fn right_block(random: &mut Random) -> Vec<u8> {
    right_draft(random).bytes()
}

/// Two edges that two different rules refuse.
fn two_faults(random: &mut Random) -> (&'static Edge, &'static Edge) {
    let edges = edges::edges();
    loop {
        let (a, b) = (random.pick(&edges), random.pick(&edges));
        if a.number != 0 && b.number != 0 && a.number != b.number {
            return (a, b);
        }
    }
}

/// Random damage: bytes changed (most often in the header and descriptor), cut off, added, moved.
/// Half of the time the header is made to fit again, so that later rules see the damage.
fn damaged(draft: &Draft, random: &mut Random) -> Vec<u8> {
    let (mut block, header) = (draft.bytes(), draft.header_len());
    for _ in 0..random.range(1, 3) {
        let length = block.len();
        if length < header {
            return block;
        }
        let near = random.below(length.min(header + SIZE));
        let anywhere = random.below(length);
        match random.below(10) {
            0..=2 => block[near] ^= 1 << random.below(8),
            3 => block[near] = random.pick(&[0, 1, 0x7F, 0x80, 0xFF]),
            4 => block[anywhere] = random.draw() as u8,
            5 => block.truncate(anywhere),
            6 => {
                let more = 1 + random.below(20);
                block.extend(random.bytes(more));
            }
            7 => drop(block.drain(anywhere..length.min(anywhere + 16))),
            _ => change_long(&mut block, header, random),
        }
    }
    if block.len() > header && random.once_in(2) {
        let stated = digits(block.len() - header, header - 2);
        block.splice(1..header, [vec![b'0' + stated.len() as u8], stated].concat());
    }
    block
}

/// Puts an extreme number, or one near the old, in place of a long that the rules judge.
fn change_long(block: &mut [u8], header: usize, random: &mut Random) {
    let lengths = (0..10).map(length_at);
    let judged = [WAVE_ARRAY_COUNT, FIRST_POINT, SPARSING_FACTOR, SEGMENT_INDEX, SUBARRAY_COUNT];
    let fields: Vec<usize> = lengths.chain(judged).collect();
    let at = header + random.pick(&fields);
    if block.len() < at + 4 {
        return;
    }
    let order = any_order(random);
    let old = read_signed(&block[at..at + 4], order);
    let highest = i64::from(i32::MAX);
    let new = random.pick(&[0, 1, 2, -1, highest, -highest - 1, old + 1, old - 1, -old, 2 * old]);
    store(&mut block[at..at + 4], order, new as u64);
}

fn ask_any(checker: &mut Checker, block: &[u8], random: &mut Random) -> Result<(), Difference> {
    if open(block).is_ok() {
        return ask_much(checker, block, random);
    }
    ask_little(checker, block, random)
}

/// Each C call once but a join and those of lines, and two of the test calls.
fn ask_little(checker: &mut Checker, block: &[u8], random: &mut Random) -> Result<(), Difference> {
    let extent = Extent::of(block);
    let mut calls = extent.c_calls(block, random);
    let others = extent.test_calls(random);
    calls.extend([random.pick(&others), random.pick(&others)]);
    calls.push(chains::any_combined(random));
    ask(checker, block, random, &calls)
}

fn ask_much(checker: &mut Checker, block: &[u8], random: &mut Random) -> Result<(), Difference> {
    let extent = Extent::of(block);
    let mut calls = vec![Call::Open];
    calls.extend((0..6).map(|_| extent.point(random)));
    calls.extend((0..2).map(|_| extent.fill(random)));
    calls.extend((0..3).map(|_| extent.crossing(block, random)));
    calls.extend((0..3).map(|_| extent.strip(random)));
    calls.extend((0..2).map(|_| extent.cut(random)));
    calls.extend((0..2).map(|_| extent.right_cut(random)));
    calls.push(Call::Narrow);
    calls.extend(place_calls(random));
    calls.extend(extent.test_calls(random));
    calls.push(chains::any_combined(random));
    ask(checker, block, random, &calls)
}

fn ask(
    checker: &mut Checker,
    block: &[u8],
    random: &mut Random,
    calls: &[Call],
) -> Result<(), Difference> {
    for call in calls {
        let reply = checker.ask(&request(random, *call, block))?;
        if matches!(call, Call::Cut { .. } | Call::Narrow) {
            results::check(checker, block, *call, reply, random)?;
        }
    }
    Ok(())
}
