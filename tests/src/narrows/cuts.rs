//! Narrowing and cutting change places, on the core's own answers: given room, either way is accepted
//! where the other is, and writes the same bytes.

use crate::compare::{Checker, Difference};
use crate::draft::Draft;
use crate::gains;
use crate::law::descriptor::VERTICAL_GAIN;
use crate::law::rules::Refusal;
use crate::questions::Extent;
use crate::random::Random;
use crate::request::{Call, Reply};
use crate::rooms::{roomy_request, with_room, Room};

/// 13, as replies give it.
const ROOM: u64 = Refusal::Room as u64;

/// A block with any gain, and a cut of any kind: both may be refused.
pub fn check(
    checker: &mut Checker,
    mut draft: Draft,
    random: &mut Random,
) -> Result<(), Difference> {
    let any = gains::of_turn(random.below(gains::TURNS), random);
    let gain = if random.once_in(4) { gains::too_high(random) } else { any };
    draft.set_float(VERTICAL_GAIN, gain);
    let block = draft.bytes();
    let extent = Extent::of(&block);
    let cut = if random.once_in(3) { extent.cut(random) } else { extent.right_cut(random) };

    let narrowed = checker.ask(&roomy_request(random, Call::Narrow, &block))?;
    let first_cut = checker.ask(&roomy_request(random, cut, &block))?;
    match (narrowed.number, first_cut.number) {
        (0, 0) => check_accepted(checker, cut, [&narrowed, &first_cut], random),
        (0, number) => {
            let last = checker.ask(&roomy_request(random, cut, narrowed.narrowed()))?;
            refused_too(checker, cut, last.number, number)
        }
        (number, 0) => {
            let last = checker.ask(&roomy_request(random, Call::Narrow, first_cut.written()))?;
            refused_too(checker, cut, last.number, number)
        }
        // Which of the two numbers comes hangs on which call comes first.
        _ => {
            checker.tally.refused_both_ways += 1;
            Ok(())
        }
    }
}

/// Both calls are accepted first, and so they are last: c and the block are the same both ways.
fn check_accepted(
    checker: &mut Checker,
    cut: Call,
    first: [&Reply; 2],
    random: &mut Random,
) -> Result<(), Difference> {
    let [narrowed, first_cut] = first;
    let cut_last = checker.ask(&roomy_request(random, cut, narrowed.narrowed()))?;
    let narrowed_last = checker.ask(&roomy_request(random, Call::Narrow, first_cut.written()))?;
    for (last, number) in [("cut", cut_last.number), ("narrowed", narrowed_last.number)] {
        if number != 0 {
            return Err(difference(cut, &format!("refused by {number} where it is {last} last")));
        }
    }
    let [c, first_c] = [&cut_last, first_cut].map(|reply| reply.number_at(0));
    let (written, other) = (cut_last.written(), narrowed_last.narrowed());
    if c != first_c || written != other {
        let at = written.iter().zip(other).position(|(a, b)| a != b);
        let what = format!("c {c} and {first_c}; {} and {} bytes", written.len(), other.len());
        return Err(difference(cut, &format!("{what}, differing at {at:?}")));
    }
    check_room(checker, cut, first, written.len(), random)?;
    checker.tally.changed_places += 1;
    Ok(())
}

/// What one of the two refuses is refused with the same number behind the other.
fn refused_too(
    checker: &mut Checker,
    cut: Call,
    came: u64,
    expected: u64,
) -> Result<(), Difference> {
    if came != expected {
        return Err(difference(cut, &format!("refused by {expected} first, by {came} last")));
    }
    checker.tally.refused_both_ways += 1;
    Ok(())
}

/// Both ways end with the same room: just what the block takes, and no byte less.
fn check_room(
    checker: &mut Checker,
    cut: Call,
    [narrowed, first_cut]: [&Reply; 2],
    need: usize,
    random: &mut Random,
) -> Result<(), Difference> {
    let (out, expected) = random.pick(&[(need, 0), (need.saturating_sub(1), ROOM)]);
    let cut_last = with_room(random, cut, narrowed.narrowed(), Room::for_block(out, 16));
    let narrow_last = with_room(random, Call::Narrow, first_cut.written(), Room::for_block(out, 8));
    for last in [cut_last, narrow_last] {
        let number = checker.ask(&last)?.number;
        if number != expected {
            let what = format!("{} with room of {out}: {number}, not {expected}", last.call);
            return Err(difference(cut, &what));
        }
    }
    Ok(())
}

fn difference(cut: Call, what: &str) -> Difference {
    Difference(format!("narrowing and cutting do not change places\n    {cut}\n    {what}"))
}
