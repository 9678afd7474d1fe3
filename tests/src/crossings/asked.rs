//! Crossings whose answers are known without a law: first points at known places, and every refusal
//! alone and beside every other. Beside these, levels of every kind with gains of every size.

use super::drawn::{self, Known};
use super::levels;
use super::scales::Scale;
use crate::compare::{same, Checker, Difference};
use crate::draft::Draft;
use crate::edges;
use crate::floats;
use crate::gains;
use crate::law::numbers::read_signed;
use crate::questions::Extent;
use crate::random::Random;
use crate::request::Call;
use crate::rooms::{exact_request, request, with_room, Room};
use crate::runner::PAGE;

/// How many gains a turn has, how many levels each of them, and how many bad blocks a turn.
const GAINS: usize = 4;
const LEVELS: usize = 5;
const BAD_BLOCKS: usize = 8;

/// Bytes that may be read behind the point: samples may be taken several at once.
const READ_AHEAD: usize = 4096;

/// Bytes of the answer, and slices that are too short and that are not.
const ANSWER: usize = 16;
const SHORT: [usize; 5] = [15, 15, 12, 8, 0];
const ENOUGH: [usize; 5] = [16, 16, 16, 17, 24];

/// Every segment of a block with first points at known places.
pub fn places(checker: &mut Checker, known: &Known, random: &mut Random) -> Result<(), Difference> {
    let (block, level) = (known.draft.bytes(), known.level.to_bits());
    for (array, firsts) in (1..).zip(&known.firsts) {
        for (segment, first) in (1..).zip(firsts) {
            let call = Call::Crossing { array, segment, level };
            let reply = checker.ask(&exact_request(random, call, &block))?;
            let expected = first.map_or([0, 0], |place| [1, place as u64]);
            let came = [reply.number_at(0), reply.number_at(1)];
            if reply.number != 0 || came != expected {
                let number = reply.number;
                return Err(Difference(format!("{call}: {number}, {came:?}, not {expected:?}")));
            }
            checker.tally.placed_crossings += 1;
        }
    }
    Ok(())
}

/// Reading ends at the point: the whole pages from a little behind it on cannot be touched.
pub fn unread(checker: &mut Checker, known: &Known, random: &mut Random) -> Result<(), Difference> {
    let (block, level) = (known.draft.bytes(), known.level.to_bits());
    let call = Call::Crossing { array: 1, segment: 1, level };
    let mut request = exact_request(random, call, &block);
    let place = known.firsts[0][0].expect("the block was made to cross");
    let behind = known.draft.array_1.len() - place * known.draft.width;
    request.unread = behind.saturating_sub(READ_AHEAD) / PAGE * PAGE;
    let reply = checker.ask(&request)?;
    same(&format!("{call}: point"), reply.number_at(1), place as u64)?;
    checker.tally.unread_crossings += 1;
    Ok(())
}

/// A block with gains that take turns, and levels about the values of its points.
pub fn levels(checker: &mut Checker, turn: usize, random: &mut Random) -> Result<(), Difference> {
    let mut draft = drawn::any(random);
    let extent = Extent::of(&draft.bytes());
    for turn in GAINS * turn..GAINS * (turn + 1) {
        let gain = f32::from_bits(gains::of_turn(turn, random));
        let scale = Scale::with_gain(gain, random);
        scale.set(&mut draft);
        let block = draft.bytes();
        for _ in 0..LEVELS {
            let (array, segment) = extent.right_segment(random);
            let level = levels::any(&scale, any_sample(&draft, random), random);
            let call = Call::Crossing { array, segment, level };
            let reply = checker.ask(&request(random, call, &block))?;
            let refused = !f64::from_bits(level).is_finite();
            if refused != (reply.number == 9) {
                return Err(Difference(format!("{call}: {}", reply.number)));
            }
        }
    }
    Ok(())
}

/// Any sample of array 1: levels about those of other segments are asked too.
fn any_sample(draft: &Draft, random: &mut Random) -> i64 {
    let at = draft.width * random.below(draft.array_1.len() / draft.width);
    read_signed(&draft.array_1[at..at + draft.width], draft.order)
}

/// Every set of what 9, 10 and 13 refuse, of a right block and of bad ones: the first number comes.
pub fn refusals(checker: &mut Checker, random: &mut Random) -> Result<(), Difference> {
    let right = drawn::any(random);
    for faults in 0..16 {
        ask_refused(checker, &right, 0, faults, random)?;
    }
    let mut bad = edges::edges();
    bad.retain(|edge| edge.number != 0);
    for _ in 0..BAD_BLOCKS {
        let edge = random.pick(&bad);
        let (draft, faults) = (edges::one(edge, random), random.below(16));
        ask_refused(checker, &draft, edge.number, faults, random)?;
    }
    Ok(())
}

/// A crossing with those of the four faults whose bits are set: array, level, segment, room. The
/// block has its own number, or 0.
fn ask_refused(
    checker: &mut Checker,
    draft: &Draft,
    number: u32,
    faults: usize,
    random: &mut Random,
) -> Result<(), Difference> {
    let [bad_array, bad_level, bad_segment, short] = [1, 2, 4, 8].map(|bit| faults & bit != 0);
    let block = draft.bytes();
    let extent = Extent::of(&block);
    let right = extent.right_segment(random);
    let array = if bad_array { extent.bad_array(random) } else { right.0 };
    let segment = if bad_segment { extent.bad_segment(random) } else { right.1 };
    let finite = levels::finite(&Scale::of(draft), 1, random);
    let level = if bad_level { floats::not_finite_wide(random) } else { finite.to_bits() };
    let room = random.pick(if short { &SHORT } else { &ENOUGH });
    let call = Call::Crossing { array, segment, level };
    let reply = checker.ask(&with_room(random, call, &block, Room::for_answer(room)))?;
    let expected = match () {
        () if number != 0 => number,
        () if bad_array || bad_level => 9,
        () if bad_segment => 10,
        () if room < ANSWER => 13,
        () => 0,
    };
    if reply.number != u64::from(expected) {
        return Err(Difference(format!("{call}, room {room}: {}, not {expected}", reply.number)));
    }
    Ok(())
}
