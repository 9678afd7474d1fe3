//! The slices lent to a call: with just enough room, with one byte or one float less, or with more.

use crate::calls::LAW;
use crate::law::cut::{Setup, CUT_MORE};
use crate::law::setup::normal_line;
use crate::law::texts;
use crate::questions::Extent;
use crate::random::Random;
use crate::request::{Call, Reply, Request};

/// The fill of a very long segment, its walk and a very long text are asked with too little room,
/// and take no gigabyte.
const MOST_ROOM: usize = 1 << 22;

/// Bytes of the slices that an answer goes to.
#[derive(Clone, Copy, Debug, Default)]
pub struct Room {
    pub out: usize,
    pub answer: usize,
    pub marks: usize,
    pub least: usize,
    pub greatest: usize,
}

impl Room {
    /// For a cut, a join or a narrowing: its block, then the numbers of its answer. For a setup write:
    /// its line.
    pub fn for_block(out: usize, answer: usize) -> Room {
        Room { out, answer, ..Room::default() }
    }

    pub fn for_answer(answer: usize) -> Room {
        Room { answer, ..Room::default() }
    }
}

/// A request with room that is often just enough, sometimes one byte or one float short.
pub fn request<'a>(random: &mut Random, call: Call, block: &'a [u8]) -> Request<'a> {
    let need = need(call, block);
    let unit = if call.takes_floats() { 8 } else { 1 };
    // What a cut, a join or a narrowing writes is hardly longer than what was lent.
    let most = match call {
        Call::Cut { .. } | Call::Join | Call::Narrow => usize::MAX,
        _ => MOST_ROOM,
    };
    let mut lent = |need: usize, unit: usize| (unit * near(random, need / unit)).min(most);
    let out = if need.out == 0 { 0 } else { lent(need.out, unit) };
    let answer = lent(need.answer, unit);
    let [marks, least, greatest] =
        [need.marks, need.least, need.greatest]
            .map(|need| if need == 0 { 0 } else { lent(need, 1) });
    with_room(random, call, block, Room { out, answer, marks, least, greatest })
}

/// A request with exactly the room that the answer takes.
pub fn exact_request<'a>(random: &mut Random, call: Call, block: &'a [u8]) -> Request<'a> {
    let need = need(call, block);
    with_room(random, call, block, need)
}

/// A request with room for any cut of a block, and for what it narrows to.
pub fn roomy_request<'a>(random: &mut Random, call: Call, block: &'a [u8]) -> Request<'a> {
    with_room(random, call, block, Room::for_block(block.len() + CUT_MORE, 16))
}

/// A request whose outputs hold random bytes.
pub fn with_room<'a>(random: &mut Random, call: Call, block: &'a [u8], room: Room) -> Request<'a> {
    let fallback = match call {
        Call::Label { fallback } | Call::LabelPlace { fallback } => random.bytes(fallback),
        _ => vec![],
    };
    let mut lent = |room: usize| match call.takes_floats() {
        true => without_nans(random.bytes(room)),
        false => random.bytes(room),
    };
    let (out, answer) = (lent(room.out), lent(room.answer));
    let [marks, least, greatest] =
        [room.marks, room.least, room.greatest].map(|room| random.bytes(room));
    Request { call, block, unread: 0, fallback, out, answer, marks, least, greatest }
}

/// Bytes of floats, none of them a NaN: a contract says that a float is as it was, and the logic has
/// one NaN, so it does not say which one a NaN is.
fn without_nans(mut bytes: Vec<u8>) -> Vec<u8> {
    for float in bytes.chunks_mut(8) {
        // An exponent of all ones, half in each of the two high bytes, loses one of them.
        if float[7] & 0x7F == 0x7F && float[6] & 0xF0 == 0xF0 {
            float[6] &= 0xEF;
        }
    }
    bytes
}

/// The room that an answer takes; for a refused call, some answer.
fn need(call: Call, block: &[u8]) -> Room {
    let points = || Extent::of(block).points as usize;
    match call {
        Call::Open => Room::for_answer(40),
        Call::Point { .. } => Room::for_answer(24),
        Call::Fill { .. } => Room::for_answer(8 * points() + 8),
        Call::Cut { .. } | Call::Join => need_of_block(call, block, 16, Reply::written),
        Call::Narrow => need_of_block(call, block, 8, Reply::narrowed),
        Call::Combined { .. } | Call::SetupRead => Room::for_answer(32),
        Call::SetupWrite { setup: Setup { sp, np, fp, sn } } => {
            Room::for_block(normal_line([sp, np, fp, sn]).len(), 8)
        }
        Call::Layout => Room::for_answer(200),
        Call::TextPlace | Call::Crossing { .. } => Room::for_answer(16),
        Call::LabelPlace { .. } => Room::for_answer(24),
        Call::Strip { columns, .. } => {
            // Refused columns are given the room of those that are not, or of one more.
            let columns = (columns as usize).clamp(1, points() + 1);
            Room { least: 8 * columns, greatest: 8 * columns, ..Room::for_answer(24) }
        }
        Call::Floats { .. } | Call::WalkedFloats { .. } => Room::for_answer(8 * points()),
        Call::Walk { .. } => {
            let points = points();
            Room { marks: points, ..Room::for_block(8 * points, 8 * points) }
        }
        Call::Step { .. } => Room { marks: 1, ..Room::for_answer(16) },
        Call::UserText => Room::for_answer(texts::user_text(block).len()),
        Call::Label { fallback } => Room::for_answer(texts::label(block, &vec![0; fallback]).len()),
    }
}

/// The room that the block takes which a call writes, beside an answer of so many bytes.
fn need_of_block(call: Call, block: &[u8], answer: usize, written: fn(&Reply) -> &[u8]) -> Room {
    let room = Room::for_block(block.len() + CUT_MORE, answer);
    let reply = LAW.reply(&with_zeros(call, block, room));
    Room::for_block(if reply.number == 0 { written(&reply).len() } else { 400 }, answer)
}

/// A request for a block to be written, whose outputs hold zeros.
fn with_zeros(call: Call, block: &[u8], room: Room) -> Request<'_> {
    let [out, answer] = [room.out, room.answer].map(|room| vec![0; room]);
    let (fallback, marks, least, greatest) = Default::default();
    Request { call, block, unread: 0, fallback, out, answer, marks, least, greatest }
}

/// So many bytes or floats, or as many as are too few or more.
fn near(random: &mut Random, need: usize) -> usize {
    match random.below(12) {
        0 | 1 => need.saturating_sub(1),
        2 => random.below(need.max(1)),
        3 => random.pick(&[0, 1, 8, need / 2, need.saturating_sub(8)]),
        4..=6 => need + 1 + random.below(30),
        _ => need,
    }
}

#[cfg(test)]
mod tests {
    use super::*;

    #[test]
    fn no_nan_is_lent() {
        let any = Random::new(9, 0).bytes(800_000);
        let least = f64::from_bits(0x7FF0_0000_0000_0001);
        let nans = [f64::NAN, -f64::NAN, least, -least].map(f64::to_le_bytes).concat();
        for float in without_nans([any, nans].concat()).chunks(8) {
            assert!(!f64::from_le_bytes(float.try_into().expect("eight bytes")).is_nan());
        }
    }
}
