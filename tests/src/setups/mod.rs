//! Setups as lines: right lines of every shape, every fault, damage, setups that are written, and what
//! is checked on the core's own answers.

mod answers;
mod asked;
mod changes;
mod damage;
mod faults;
mod listed;
mod typed;
mod values;
mod written;

use crate::compare::{Checker, Difference};
use crate::law::cut::Setup;
use crate::random::Random;
use typed::Spelling;

/// How long a normal line is: four values of one digit, and of ten.
const SHORTEST_LINE: usize = 24;
const LONGEST_LINE: usize = 60;

/// How many of each kind a turn has that are checked on the core's own answers.
const ANSWERS: usize = 12;

/// Runs a turn and answers what kind it was.
pub fn run(
    checker: &mut Checker,
    turn: u64,
    random: &mut Random,
) -> (String, Result<(), Difference>) {
    match turn % 5 {
        0 => ("right lines".into(), asked::right_lines(checker, random)),
        1 => ("lines with faults".into(), asked::faults(checker, random)),
        2 => ("setups written".into(), written::check(checker, random)),
        3 => ("damaged lines".into(), asked::damaged(checker, random)),
        _ => ("lines and answers".into(), own_answers(checker, random)),
    }
}

/// Each check on the core's own answers, of a few lines each.
fn own_answers(checker: &mut Checker, random: &mut Random) -> Result<(), Difference> {
    for _ in 0..ANSWERS {
        by_writing(checker, random)?;
        by_reading(checker, random)?;
        by_spellings(checker, random)?;
        by_more(checker, random)?;
    }
    Ok(())
}

/// The numbers of a setup, in the order of the answer.
fn numbers(Setup { sp, np, fp, sn }: Setup) -> [u32; 4] {
    [sp, np, fp, sn]
}

/// A line of known numbers or of known faults, and a setup whose line is known.
pub fn by_making(checker: &mut Checker, random: &mut Random) -> Result<(), Difference> {
    asked::any_known(checker, random)?;
    written::any_known(checker, random)
}

/// A setup that is written and read.
pub fn by_writing(checker: &mut Checker, random: &mut Random) -> Result<(), Difference> {
    let setup = written::any(random);
    answers::check_writing(checker, setup, random)
}

/// A line that is read and written.
pub fn by_reading(checker: &mut Checker, random: &mut Random) -> Result<(), Difference> {
    let spelling = Spelling::any(random);
    answers::check_reading(checker, &spelling, random)
}

/// A setup in several spellings.
pub fn by_spellings(checker: &mut Checker, random: &mut Random) -> Result<(), Difference> {
    let spelling = Spelling::any(random);
    answers::check_spellings(checker, &spelling, random)
}

/// A line with one byte more.
pub fn by_more(checker: &mut Checker, random: &mut Random) -> Result<(), Difference> {
    let spelling = Spelling::any(random);
    answers::check_more(checker, &spelling, random)
}
