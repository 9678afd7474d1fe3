//! Demand 3, on the core's own answers: a cut of a cut is the one combined cut, and every kept
//! point has the value, time and mark it had in the first block.

use crate::chains::combined;
use crate::compare::{reply_difference, Checker, Difference};
use crate::law::cut::Setup;
use crate::questions::Extent;
use crate::random::Random;
use crate::request::{Call, Reply, Request};
use crate::rooms::{exact_request, with_room, Room};

/// Two cuts, one after the other, and the points of what they leave.
pub fn check(checker: &mut Checker, block: &[u8], random: &mut Random) -> Result<(), Difference> {
    let a = Extent::of(block).right_cut(random);
    let first = checker.ask(&exact_request(random, a, block))?;
    if first.number != 0 {
        return Err(Difference(format!("{a}: refused by {}", first.number)));
    }
    let first_block = first.written();
    kept_points(checker, block, a, &first, random)?;

    // b is of any kind: it may be refused, and its room may be short.
    let extent = Extent::of(first_block);
    let b = if random.once_in(4) { extent.cut(random) } else { extent.right_cut(random) };
    let all_room = Room::for_block(first_block.len(), 16);
    let full = checker.ask(&with_room(random, b, first_block, all_room))?;
    let need = if full.number == 0 { full.written().len() } else { first_block.len() };
    let out_room = random.pick(&[need, need, need, need - 1, need + 9]);
    let answer_room = random.pick(&[16, 16, 16, 16, 15, 20]);
    let room = Room::for_block(out_room, answer_room);
    let of_cut = with_room(random, b, first_block, room);
    let second = checker.ask(&of_cut)?;
    if second.number == 10 || second.number == 11 {
        // A segment or point that the first cut left out may well be in the first block.
        return Ok(());
    }
    let c = if second.number == 0 { second.number_at(0) as u32 } else { 0 };
    let (Call::Cut { setup: of_a, .. }, Call::Cut { setup: of_b, order }) = (a, b) else {
        unreachable!("both calls are cuts");
    };
    let at_once = match combined(checker, [of_a, of_b], c, random)? {
        Some(setup) => Call::Cut { setup, order },
        None => return refused_too(&second, a, b),
    };
    let reply = checker.ask(&Request { call: at_once, block, ..of_cut })?;
    same(&second, &reply, a, b)?;
    if second.number == 0 {
        kept_points(checker, block, at_once, &second, random)?;
    }
    Ok(())
}

/// Cuts with no combined setup: b was refused by 12 as well, or by 9, whatever its setup is.
fn refused_too(second: &Reply, a: Call, b: Call) -> Result<(), Difference> {
    match second.number {
        9 | 12 => Ok(()),
        number => Err(Difference(format!(
            "cuts are not combined, and the second gave {number}\n    first {a}\n    then {b}"
        ))),
    }
}

fn same(of_cut: &Reply, at_once: &Reply, a: Call, b: Call) -> Result<(), Difference> {
    match reply_difference(of_cut, at_once) {
        None => Ok(()),
        Some(what) => Err(Difference(format!(
            "a cut of a cut is not the combined cut\n    first {a}\n    then {b}\n    {what}"
        ))),
    }
}

/// The points of a cut block against the points of the first block that they are: value, time and
/// mark.
pub fn kept_points(
    checker: &mut Checker,
    block: &[u8],
    cut: Call,
    reply: &Reply,
    random: &mut Random,
) -> Result<(), Difference> {
    let Call::Cut { setup: Setup { sp, fp, sn, .. }, .. } = cut else {
        unreachable!("the call is a cut");
    };
    for (array, segment, k) in some_points(&Extent::of(reply.written()), random) {
        let kept = Call::Point { array, segment, point: k };
        let first = Call::Point {
            array,
            segment: if sn == 0 { segment } else { sn },
            point: fp + sp.max(1) * k,
        };
        let kept_reply = checker.ask(&exact_request(random, kept, reply.written()))?;
        let first_reply = checker.ask(&exact_request(random, first, block))?;
        if kept_reply.number != 0 || kept_reply.answer != first_reply.answer {
            return Err(Difference(format!("after {cut}, {kept} is not what {first} was")));
        }
    }
    Ok(())
}

/// Array, segment and number of every point of a small block, and of some points of another.
pub fn some_points(extent: &Extent, random: &mut Random) -> Vec<(u32, u32, u32)> {
    let all = u64::from(extent.arrays) * u64::from(extent.segments) * u64::from(extent.points);
    let point = |n: u64| {
        let (row, k) = (n / u64::from(extent.points), n % u64::from(extent.points));
        let (array, segment) = (row / u64::from(extent.segments), row % u64::from(extent.segments));
        (array as u32 + 1, segment as u32 + 1, k as u32)
    };
    if all <= 8 {
        return (0..all).map(point).collect();
    }
    let last = all - 1;
    let any = random.draw();
    [0, last, any % all, (any >> 20) % all].into_iter().map(point).collect()
}
