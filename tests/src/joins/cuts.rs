//! Parts that the core's own cuts with SN wrote, on its own answers: a cut of what they join to gives
//! a part back, and the segments of a sequence join to its plain cut.

use super::answers::joined;
use super::parts::Plan;
use crate::compare::{Checker, Difference};
use crate::law::cut::Setup;
use crate::law::descriptor::SEGMENT_INDEX;
use crate::questions::Extent;
use crate::random::Random;
use crate::request::Call;
use crate::rooms::exact_request;

/// How many parts are cut back out of a joined block at most.
const CUT_BACK: usize = 4;

/// Cuts of one block by its segments, or of blocks that are segments of their own.
pub fn check(checker: &mut Checker, plan: &Plan, random: &mut Random) -> Result<(), Difference> {
    let sequence = plan.sequence(random);
    let whole = sequence.bytes();
    let cut = Extent::of(&whole).right_cut(random);
    let from_sequence = random.once_in(2);
    let mut parts = vec![];
    if from_sequence {
        for sn in 1..=plan.shape.segments() as u32 {
            parts.push((sn, written(checker, &whole, with_sn(cut, sn), random)?));
        }
    } else {
        for draft in plan.parts_of(&sequence, random).drafts {
            let index = draft.long(SEGMENT_INDEX) as u32;
            parts.push((index, written(checker, &draft.bytes(), with_sn(cut, 1), random)?));
        }
    }
    random.shuffle(&mut parts);
    let slice: Vec<u8> = parts.iter().flat_map(|(_, part)| part.clone()).collect();
    let reply = joined(checker, &slice, random)?;
    let block = reply.written();
    for (index, part) in parts.iter().take(CUT_BACK) {
        let Call::Cut { order, .. } = cut else { unreachable!("the call is a cut") };
        let back = Call::Cut { setup: Setup { sp: 1, np: 0, fp: 0, sn: *index }, order };
        same(&format!("part {index}, by {back}"), &written(checker, block, back, random)?, part)?;
    }
    if from_sequence {
        let plain = written(checker, &whole, with_sn(cut, 0), random)?;
        same("segments of a sequence, joined", block, &plain)?;
    }
    checker.tally.joined_blocks += 1;
    Ok(())
}

fn with_sn(cut: Call, sn: u32) -> Call {
    let Call::Cut { setup, order } = cut else { unreachable!("the call is a cut") };
    Call::Cut { setup: Setup { sn, ..setup }, order }
}

/// What a cut writes that nothing refuses.
fn written(
    checker: &mut Checker,
    block: &[u8],
    cut: Call,
    random: &mut Random,
) -> Result<Vec<u8>, Difference> {
    let reply = checker.ask(&exact_request(random, cut, block))?;
    match reply.number {
        0 => Ok(reply.written().to_vec()),
        number => Err(Difference(format!("{cut}: refused by {number}"))),
    }
}

fn same(what: &str, came: &[u8], expected: &[u8]) -> Result<(), Difference> {
    if came == expected {
        return Ok(());
    }
    let first = came.iter().zip(expected).position(|(a, b)| a != b);
    let (came, expected) = (came.len(), expected.len());
    Err(Difference(format!("{what}: differs at {first:?}; {came} and {expected} bytes")))
}
