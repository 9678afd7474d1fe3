//! Narrowing: right blocks with gains of every size, two refusals at once, and what is checked on the
//! core's own answers.

mod answers;
mod asked;
mod cuts;
mod drawn;

use crate::compare::{Checker, Difference};
use crate::draft::Draft;
use crate::random::Random;

/// How many blocks a turn has that are checked on the core's own answers. One turn in so many has a
/// long block as well, and the first such turn is not among the first of all.
const BLOCKS: usize = 3;
const LONG_EVERY: usize = 8;
const FIRST_LONG: usize = 3;

/// One block of any kind in so many is long.
const LONG_ONCE_IN: usize = 100;

/// Runs a turn and answers what kind it was.
pub fn run(
    checker: &mut Checker,
    turn: u64,
    random: &mut Random,
) -> (String, Result<(), Difference>) {
    let of_kind = (turn / 5) as usize;
    match turn % 5 {
        0 => ("narrowed with any gain".into(), asked::gains(checker, of_kind, random)),
        1 => ("narrowed".into(), blocks(checker, of_kind, random, answers::check_points)),
        2 => ("narrowed and cut".into(), blocks(checker, of_kind, random, cuts::check)),
        3 => ("narrowed twice".into(), blocks(checker, of_kind, random, answers::check_twice)),
        _ => ("refused twice".into(), asked::two_refusals(checker, random)),
    }
}

/// What is checked of a right block on the core's own answers.
type Check = fn(&mut Checker, Draft, &mut Random) -> Result<(), Difference>;

/// The blocks of a turn.
fn blocks(
    checker: &mut Checker,
    turn: usize,
    random: &mut Random,
    check: Check,
) -> Result<(), Difference> {
    for turn in BLOCKS * turn..BLOCKS * (turn + 1) {
        let draft = drawn::draft(turn, random);
        check(checker, draft, random)?;
    }
    if turn % LONG_EVERY == FIRST_LONG {
        let draft = drawn::long_draft(random);
        check(checker, draft, random)?;
    }
    Ok(())
}

/// A right block, seldom a long one.
fn any_draft(random: &mut Random) -> Draft {
    let turn = random.below(drawn::TURNS);
    match random.once_in(LONG_ONCE_IN) {
        true => drawn::long_draft(random),
        false => drawn::draft(turn, random),
    }
}

/// The points of what a right block narrows to.
pub fn narrowed_points(checker: &mut Checker, random: &mut Random) -> Result<(), Difference> {
    let draft = any_draft(random);
    answers::check_points(checker, draft, random)
}

/// What a right block narrows to, narrowed again.
pub fn narrowed_twice(checker: &mut Checker, random: &mut Random) -> Result<(), Difference> {
    let draft = any_draft(random);
    answers::check_twice(checker, draft, random)
}

/// A cut of what a block narrows to, and what a cut of it narrows to.
pub fn narrowed_cuts(checker: &mut Checker, random: &mut Random) -> Result<(), Difference> {
    let draft = any_draft(random);
    cuts::check(checker, draft, random)
}
