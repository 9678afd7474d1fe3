//! The same payload under two headers, on the core's own answers: every call answers the same, but
//! that a place in the block moves with the header.

use crate::compare::{reply_difference, Checker, Difference};
use crate::draft::Draft;
use crate::questions::Extent;
use crate::random::Random;
use crate::request::{Call, Reply, Request};
use crate::rooms::request;

/// Each call of a block, and of its payload under a header with another number of digits.
pub fn check(checker: &mut Checker, draft: &Draft, random: &mut Random) -> Result<(), Difference> {
    let block = draft.bytes();
    let mut other = draft.clone();
    while other.header_len() == draft.header_len() {
        other.least_digits = 1 + random.below(9);
    }
    let (header, other_header) = (draft.header_len(), other.header_len());
    let other = other.bytes();
    let extent = Extent::of(&block);
    for call in [extent.c_calls(&block, random), extent.test_calls(random)].concat() {
        let asked = request(random, call, &block);
        let first = checker.ask(&asked)?;
        let second = checker.ask(&Request { block: &other, ..asked })?;
        let first = from_payload(first, call, header);
        let second = from_payload(second, call, other_header);
        same(&first, &second, call)?;
    }
    Ok(())
}

/// The reply with its place in the block counted from where the header ends.
fn from_payload(mut reply: Reply, call: Call, header: usize) -> Reply {
    if let Some(i) = place_in_block(&reply, call) {
        let place = reply.number_at(i).wrapping_sub(header as u64);
        reply.answer[8 * i..8 * i + 8].copy_from_slice(&place.to_be_bytes());
    }
    reply
}

/// Which number of an answer is a place in the block.
fn place_in_block(reply: &Reply, call: Call) -> Option<usize> {
    match call {
        _ if reply.number != 0 => None,
        Call::Layout | Call::TextPlace => Some(0),
        Call::LabelPlace { .. } if reply.number_at(0) == 0 => Some(1),
        _ => None,
    }
}

fn same(first: &Reply, second: &Reply, call: Call) -> Result<(), Difference> {
    match reply_difference(first, second) {
        None => Ok(()),
        Some(what) => {
            Err(Difference(format!("{call}: another header, another answer\n    {what}")))
        }
    }
}
