//! Crossings: first points at every place, levels about every value, every refusal, and what is
//! checked on the core's own answers.

mod answers;
mod asked;
mod drawn;
pub mod levels;
mod rows;
mod scales;

use crate::compare::{Checker, Difference};
use crate::random::Random;
use answers::Asked;

/// How many blocks a turn has that are checked on the core's own answers.
const BLOCKS: usize = 4;

/// One turn of known places in so many has long blocks as well, and the first such turn is not among
/// the first of all. One block of any kind in so many is long.
const LONG_EVERY: usize = 16;
const FIRST_LONG: usize = 3;
const LONG_ONCE_IN: usize = 100;

/// Runs a turn and answers what kind it was.
pub fn run(
    checker: &mut Checker,
    turn: u64,
    random: &mut Random,
) -> (String, Result<(), Difference>) {
    let of_kind = (turn / 5) as usize;
    match turn % 5 {
        kind @ (0 | 3) => {
            let turn = 2 * of_kind + usize::from(kind == 3);
            ("crossings at known places".into(), places(checker, turn, random))
        }
        1 => ("crossings of levels".into(), asked::levels(checker, of_kind, random)),
        2 => ("refused crossings".into(), asked::refusals(checker, random)),
        _ => ("crossings and answers".into(), own_answers(checker, random)),
    }
}

/// The places of a turn; at some turns long blocks too.
fn places(checker: &mut Checker, turn: usize, random: &mut Random) -> Result<(), Difference> {
    let known = drawn::of_turn(turn, random);
    asked::places(checker, &known, random)?;
    if turn % LONG_EVERY == FIRST_LONG {
        let known = drawn::long(random);
        asked::places(checker, &known, random)?;
        let known = drawn::early(random);
        asked::unread(checker, &known, random)?;
    }
    Ok(())
}

/// Each check on the core's own answers, of a few blocks each.
fn own_answers(checker: &mut Checker, random: &mut Random) -> Result<(), Difference> {
    for _ in 0..BLOCKS {
        by_values(checker, random)?;
        by_samples_behind(checker, random)?;
        by_raised_levels(checker, random)?;
        by_cuts(checker, random)?;
    }
    Ok(())
}

/// A segment of a right block: of known places with their level, seldom a long one, or of any shape.
fn any_asked(random: &mut Random) -> Asked {
    let known = match random.below(LONG_ONCE_IN) {
        0 => drawn::long(random),
        1..=33 => drawn::any_known(random),
        _ => return Asked::any(drawn::any(random), None, random),
    };
    Asked::any(known.draft, Some(known.level), random)
}

/// A crossing, by the values of its segment.
pub fn by_values(checker: &mut Checker, random: &mut Random) -> Result<(), Difference> {
    let asked = any_asked(random);
    answers::check_values(checker, &asked, random)
}

/// A crossing with other samples behind its point.
pub fn by_samples_behind(checker: &mut Checker, random: &mut Random) -> Result<(), Difference> {
    let asked = any_asked(random);
    answers::check_behind(checker, &asked, random)
}

/// Crossings of a level that is raised.
pub fn by_raised_levels(checker: &mut Checker, random: &mut Random) -> Result<(), Difference> {
    let asked = any_asked(random);
    answers::check_raised(checker, &asked, random)
}

/// A crossing, and those of cuts about its point.
pub fn by_cuts(checker: &mut Checker, random: &mut Random) -> Result<(), Difference> {
    let asked = any_asked(random);
    answers::check_cuts(checker, &asked, random)
}
