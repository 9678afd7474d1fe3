//! Joins, on the core's own answers: every order of arrival gives the same number and bytes, and the
//! points of segment k are those of part k.

use super::parts::Parts;
use crate::compare::{reply_difference, same, Checker, Difference};
use crate::pairs::some_points;
use crate::questions::Extent;
use crate::random::Random;
use crate::request::{Call, Reply, Request};
use crate::rooms::{exact_request, request};

/// Good parts in two orders of arrival.
pub fn check_arrival(
    checker: &mut Checker,
    parts: &Parts,
    random: &mut Random,
) -> Result<(), Difference> {
    let slice = parts.bytes();
    let asked = request(random, Call::Join, &slice);
    let first = checker.ask(&asked)?;
    let mut other = parts.clone();
    random.shuffle(&mut other.drafts);
    let other = other.bytes();
    let second = checker.ask(&Request { block: &other, ..asked })?;
    match reply_difference(&first, &second) {
        None => Ok(()),
        Some(what) => Err(Difference(format!("join: another arrival, another answer\n    {what}"))),
    }
}

/// Right parts: what they join to is opened, and its points are those of the parts.
pub fn check_joined(
    checker: &mut Checker,
    parts: &Parts,
    random: &mut Random,
) -> Result<(), Difference> {
    let slice = parts.bytes();
    let reply = joined(checker, &slice, random)?;
    let n = parts.drafts.len() as u64;
    same("join: n", reply.number_at(0), n)?;
    let block = reply.written();
    check_open(checker, parts, block, random)?;
    for (array, segment, point) in some_points(&Extent::of(block), random) {
        let Some(part) = parts.with_index(i64::from(segment)) else { continue };
        let of_part = part.bytes();
        let there = Call::Point { array, segment, point };
        let here = Call::Point { array, segment: 1, point };
        let there_reply = checker.ask(&exact_request(random, there, block))?;
        let here_reply = checker.ask(&exact_request(random, here, &of_part))?;
        if there_reply.number != 0 || there_reply.answer != here_reply.answer {
            return Err(Difference(format!("joined, {there} is not the part's {here}")));
        }
    }
    checker.tally.joined_blocks += 1;
    Ok(())
}

/// The reply to a join that nothing refuses.
pub fn joined(
    checker: &mut Checker,
    slice: &[u8],
    random: &mut Random,
) -> Result<Reply, Difference> {
    let reply = checker.ask(&exact_request(random, Call::Join, slice))?;
    same("join of right parts: refusal", reply.number, 0)?;
    Ok(reply)
}

/// The joined block has n segments, and all else that an open answers is as in a part.
fn check_open(
    checker: &mut Checker,
    parts: &Parts,
    block: &[u8],
    random: &mut Random,
) -> Result<(), Difference> {
    let part = parts.drafts[0].bytes();
    let of_block = checker.ask(&exact_request(random, Call::Open, block))?;
    same("open of a joined block: refusal", of_block.number, 0)?;
    let of_part = checker.ask(&exact_request(random, Call::Open, &part))?;
    same("joined block: segments", of_block.number_at(0), parts.drafts.len() as u64)?;
    for i in 1..5 {
        same(&format!("joined block: open's {i}"), of_block.number_at(i), of_part.number_at(i))?;
    }
    Ok(())
}
