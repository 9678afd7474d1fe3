//! What a cut or a narrowing writes, on the core's own answers: of an accepted block none breaks a
//! rule, so no number is kept for one that would.

use crate::compare::{Checker, Difference};
use crate::law::rules::Refusal;
use crate::random::Random;
use crate::request::{Call, Reply};
use crate::rooms::{exact_request, roomy_request};

/// 13 comes last: a call that it refuses passes every other check.
const ROOM: u64 = Refusal::Room as u64;

/// What a cut or a narrowing wrote is opened. One that 13 alone refused is made with room for any of
/// the block.
pub fn check(
    checker: &mut Checker,
    block: &[u8],
    call: Call,
    reply: Reply,
    random: &mut Random,
) -> Result<(), Difference> {
    let reply = match reply.number {
        0 => reply,
        ROOM => checker.ask(&roomy_request(random, call, block))?,
        _ => return Ok(()),
    };
    if reply.number != 0 {
        let number = reply.number;
        return Err(Difference(format!("{call}: refused by {number} with room for all")));
    }
    let written = match call {
        Call::Narrow => reply.narrowed(),
        _ => reply.written(),
    };
    let opened = checker.ask(&exact_request(random, Call::Open, written))?;
    if opened.number != 0 {
        let number = opened.number;
        return Err(Difference(format!("{call}: what it wrote is refused by {number}")));
    }
    match call {
        Call::Narrow => checker.tally.narrowed_blocks += 1,
        _ => checker.tally.cut_blocks += 1,
    }
    Ok(())
}
