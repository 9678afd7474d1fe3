//! Narrowing with gains of every size and rooms about what the answer takes, and with two refusals at
//! once. The expected numbers and lengths here are by the gain's bits and the draft's parts alone.

use super::drawn;
use crate::compare::{Checker, Difference};
use crate::draft::Draft;
use crate::edges::{self, Edge};
use crate::gains;
use crate::law::descriptor::VERTICAL_GAIN;
use crate::random::Random;
use crate::request::Call;
use crate::rooms::{with_room, Room};
use crate::shape::Shape;

/// How many gains a block is narrowed with in a turn, and how many pairs of refusals a turn has.
const GAINS: usize = 12;
const PAIRS: usize = 8;

/// Bytes of the answer, and of a `#9` header.
const ANSWER: usize = 8;
const HEADER: usize = 11;

/// Blocks of words and of bytes with gains that take turns: words with enough room and with any. Often
/// the words are all 0: a flat trace is refused for its gain too.
pub fn gains(checker: &mut Checker, turn: usize, random: &mut Random) -> Result<(), Difference> {
    let words = drawn::shape(turn, random);
    let bytes = Shape { word: false, ..words.clone() };
    let [mut words, mut bytes] = [words, bytes].map(|shape| shape.draft(random));
    if random.once_in(2) {
        words.array_1.fill(0);
        words.array_2.fill(0);
    }
    for gain in GAINS * turn..GAINS * (turn + 1) {
        let bits = gains::of_turn(gain, random);
        words.set_float(VERTICAL_GAIN, bits);
        bytes.set_float(VERTICAL_GAIN, bits);
        let number = if gains::is_too_high(bits) { 19 } else { 0 };
        let what = format!("gain {bits:08X}");
        let exact = Room::for_block(narrowed_len(&words), ANSWER);
        ask(checker, &words, exact, number, &what, random)?;
        let room = any_room(&words, random);
        ask(checker, &words, room, number, &what, random)?;
        let room = any_room(&bytes, random);
        ask(checker, &bytes, room, 0, &what, random)?;
    }
    Ok(())
}

/// Blocks at the edges of 1 to 8 and 20 whose gain is too high as well: 19 comes behind these.
pub fn two_refusals(checker: &mut Checker, random: &mut Random) -> Result<(), Difference> {
    let mut bad = edges::edges();
    bad.retain(|edge| edge.number != 0);
    for _ in 0..PAIRS {
        let edge = random.pick(&bad);
        let draft = both(edge, random);
        let room = any_room(&draft, random);
        ask(checker, &draft, room, edge.number, edge.name, random)?;
    }
    Ok(())
}

/// A block at an edge, with a gain too high for bytes where the edge sets none.
fn both(edge: &'static Edge, random: &mut Random) -> Draft {
    edges::all(&[edge, &edges::TOO_HIGH], random)
}

/// A narrowing that gives its number, or 13 where nothing else refuses it and there is too little
/// room.
fn ask(
    checker: &mut Checker,
    draft: &Draft,
    room: Room,
    number: u32,
    what: &str,
    random: &mut Random,
) -> Result<(), Difference> {
    let (block, need) = (draft.bytes(), narrowed_len(draft));
    let reply = checker.ask(&with_room(random, Call::Narrow, &block, room))?;
    let short = room.out < need || room.answer < ANSWER;
    let expected = if number == 0 && short { 13 } else { number };
    if reply.number != u64::from(expected) {
        let came = reply.number;
        return Err(Difference(format!("narrow: {what}: {came}, not {expected}")));
    }
    if reply.number == 0 && reply.number_at(0) != need as u64 {
        let length = reply.number_at(0);
        return Err(Difference(format!("narrow: {what}: {length} bytes, not {need}")));
    }
    Ok(())
}

/// Room that is often just enough, else one byte less, none, or more.
fn any_room(draft: &Draft, random: &mut Random) -> Room {
    let need = narrowed_len(draft);
    let out = random.pick(&[need, need, need, need, need - 1, need + 1, need + 40, 0]);
    let answer = random.pick(&[ANSWER, ANSWER, ANSWER, ANSWER, 7, 9, 16, 0]);
    Room::for_block(out, answer)
}

/// How long a right block is when it is narrowed: words lose one byte of their two.
fn narrowed_len(draft: &Draft) -> usize {
    let lost = (draft.array_1.len() + draft.array_2.len()) * (draft.width - 1) / 2;
    HEADER + draft.payload_len() - lost
}

#[cfg(test)]
mod tests {
    use super::*;
    use crate::law::calls;

    /// A gain too high changes nothing for other calls, and its block obeys the rules.
    #[test]
    fn an_edge_keeps_its_number_beside_a_gain_too_high() {
        for edge in edges::edges().into_iter().filter(|edge| edge.number != 0) {
            for case in 0..50 {
                let block = both(edge, &mut Random::new(19, case)).bytes();
                assert_eq!(calls::open(&block, &mut [0; 40]), edge.number, "{}", edge.name);
            }
        }
        for case in 0..300 {
            let draft = edges::one(&edges::TOO_HIGH, &mut Random::new(20, case));
            assert_eq!(calls::open(&draft.bytes(), &mut [0; 40]), 0);
            assert_eq!(draft.width, 2);
        }
    }
}
