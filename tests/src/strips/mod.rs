//! Strips: known samples at every place, columns of every width, every refusal, and what is checked on
//! the core's own answers.

mod answers;
mod asked;
pub mod columns;
mod drawn;
mod rows;
mod told;

use crate::compare::{Checker, Difference};
use crate::random::Random;
use answers::Asked;

/// How many blocks a turn has that are checked on the core's own answers.
const BLOCKS: usize = 4;

/// One turn of a kind in so many has a long block as well, and the first such turn is not among the first
/// of all.
const LONG_EVERY: usize = 8;
const FIRST_LONG: usize = 3;

/// Runs a turn and answers what kind it was.
pub fn run(
    checker: &mut Checker,
    turn: u64,
    random: &mut Random,
) -> (String, Result<(), Difference>) {
    let of_kind = (turn / 5) as usize;
    match turn % 5 {
        kind @ (0 | 3) => {
            let turn = 2 * of_kind + usize::from(kind == 3);
            ("strips of known samples".into(), known(checker, turn, random))
        }
        1 => ("strips of short segments".into(), short(checker, of_kind, random)),
        2 => ("refused strips".into(), asked::refusals(checker, random)),
        _ => ("strips and answers".into(), own_answers(checker, of_kind, random)),
    }
}

/// The known samples of a turn; at some turns those of a long block too.
fn known(checker: &mut Checker, turn: usize, random: &mut Random) -> Result<(), Difference> {
    let known = drawn::of_turn(turn, random);
    asked::known(checker, &known, random)?;
    if turn % LONG_EVERY == FIRST_LONG {
        let known = drawn::long(random);
        asked::known(checker, &known, random)?;
    }
    Ok(())
}

/// A short segment for each place of the greatest sample and of the least, in any columns.
fn short(checker: &mut Checker, turn: usize, random: &mut Random) -> Result<(), Difference> {
    let known = drawn::short(turn, random);
    asked::in_any_columns(checker, &known, random)
}

/// Each check on the core's own answers, of a few blocks each; at some turns of a long one too.
fn own_answers(checker: &mut Checker, turn: usize, random: &mut Random) -> Result<(), Difference> {
    for _ in 0..BLOCKS {
        by_values(checker, random)?;
        by_columns(checker, random)?;
        by_pairs(checker, random)?;
        by_cuts(checker, random)?;
    }
    if turn % LONG_EVERY == FIRST_LONG {
        let asked = Asked::any(drawn::long(random).draft, random);
        answers::check_values(checker, &asked, random)?;
        answers::check_columns(checker, &asked, random)?;
        answers::check_pairs(checker, &asked, random)?;
        answers::check_cuts(checker, &asked, random)?;
    }
    Ok(())
}

/// A segment of a right block, of known samples or of any shape.
fn any_asked(random: &mut Random) -> Asked {
    let draft = match random.once_in(2) {
        true => drawn::any_known(random).draft,
        false => drawn::any(random),
    };
    Asked::any(draft, random)
}

/// Strips, by the values of the segment's points.
pub fn by_values(checker: &mut Checker, random: &mut Random) -> Result<(), Difference> {
    let asked = any_asked(random);
    answers::check_values(checker, &asked, random)
}

/// What does not depend on how many columns there are.
pub fn by_columns(checker: &mut Checker, random: &mut Random) -> Result<(), Difference> {
    let asked = any_asked(random);
    answers::check_columns(checker, &asked, random)
}

/// Strips whose columns are joined in pairs.
pub fn by_pairs(checker: &mut Checker, random: &mut Random) -> Result<(), Difference> {
    let asked = any_asked(random);
    answers::check_pairs(checker, &asked, random)
}

/// Strips of what is cut: the segment, and the points of each column.
pub fn by_cuts(checker: &mut Checker, random: &mut Random) -> Result<(), Difference> {
    let asked = any_asked(random);
    answers::check_cuts(checker, &asked, random)
}
