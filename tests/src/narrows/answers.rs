//! Narrowing, on the core's own answers: what is written opens, has the points that there were, with
//! the values of their high-order bits, and is written again when it is narrowed again.

use crate::compare::{reply_difference, same, Checker, Difference};
use crate::draft::Draft;
use crate::gains;
use crate::law::cut::CUT_MORE;
use crate::law::descriptor::{VERTICAL_GAIN, VERTICAL_OFFSET};
use crate::law::numbers::{read_float, read_signed};
use crate::pairs::some_points;
use crate::questions::Extent;
use crate::random::Random;
use crate::request::{Call, Reply, Request};
use crate::rooms::{exact_request, with_room, Room};

/// COMM_TYPE of bytes.
const BYTE: u64 = 0;

/// A right block that is not refused, and the points of what it narrows to.
pub fn check_points(
    checker: &mut Checker,
    draft: Draft,
    random: &mut Random,
) -> Result<(), Difference> {
    let draft = taken(draft, random);
    let block = draft.bytes();
    let reply = accepted(checker, Call::Narrow, &block, random)?;
    let narrowed = reply.narrowed();
    check_open(checker, &block, narrowed, random)?;
    check_times(checker, &block, narrowed, random)?;
    if draft.width == 1 {
        check_bytes(checker, &block, narrowed, random)?;
        checker.tally.byte_blocks += 1;
    } else {
        check_words(checker, &draft, narrowed, random)?;
        checker.tally.word_blocks += 1;
    }
    Ok(())
}

/// A right block that is narrowed, and what it narrows to, with the same room.
pub fn check_twice(
    checker: &mut Checker,
    draft: Draft,
    random: &mut Random,
) -> Result<(), Difference> {
    let block = taken(draft, random).bytes();
    let reply = accepted(checker, Call::Narrow, &block, random)?;
    let narrowed = reply.narrowed();
    let need = narrowed.len();
    let less = [Room::for_block(need.saturating_sub(1), 8), Room::for_block(need, 7)];
    for room in [Room::for_block(need, 8), Room::for_block(need + CUT_MORE, 9), random.pick(&less)]
    {
        let asked = with_room(random, Call::Narrow, &block, room);
        let once = checker.ask(&asked)?;
        let twice = checker.ask(&Request { block: narrowed, ..asked })?;
        if let Some(what) = reply_difference(&once, &twice) {
            return Err(Difference(format!("narrowed twice, not as once\n    {what}")));
        }
    }
    checker.tally.narrowed_twice += 1;
    Ok(())
}

/// The block with a gain that is not too high. Half of them have no offset: their values are not
/// rounded.
fn taken(mut draft: Draft, random: &mut Random) -> Draft {
    let gain = gains::taken(random.below(gains::TURNS), random);
    draft.set_float(VERTICAL_GAIN, gain);
    if random.once_in(2) {
        draft.set_float(VERTICAL_OFFSET, random.pick(&[0f32, -0f32]).to_bits());
    }
    draft
}

/// The reply to a call that nothing refuses.
fn accepted(
    checker: &mut Checker,
    call: Call,
    block: &[u8],
    random: &mut Random,
) -> Result<Reply, Difference> {
    checker.accepted(&exact_request(random, call, block))
}

/// Segments, points, arrays and order are the same, and the samples are bytes; F, S, SEGMENT_INDEX
/// and SUBARRAY_COUNT are the same too.
fn check_open(
    checker: &mut Checker,
    block: &[u8],
    narrowed: &[u8],
    random: &mut Random,
) -> Result<(), Difference> {
    let before = accepted(checker, Call::Open, block, random)?;
    let after = accepted(checker, Call::Open, narrowed, random)?;
    for i in 0..4 {
        same(&format!("narrowed: open's {i}"), after.number_at(i), before.number_at(i))?;
    }
    same("narrowed: COMM_TYPE", after.number_at(4), BYTE)?;
    let before = accepted(checker, Call::Layout, block, random)?;
    let after = accepted(checker, Call::Layout, narrowed, random)?;
    for i in 1..5 {
        same(&format!("narrowed: layout's {i}"), after.number_at(i), before.number_at(i))?;
    }
    Ok(())
}

/// The time of each point is the same, bit for bit.
fn check_times(
    checker: &mut Checker,
    block: &[u8],
    narrowed: &[u8],
    random: &mut Random,
) -> Result<(), Difference> {
    for (array, segment, point) in some_points(&Extent::of(block), random) {
        let call = Call::Point { array, segment, point };
        let before = accepted(checker, call, block, random)?;
        let after = accepted(checker, call, narrowed, random)?;
        same(&format!("narrowed, {call}: time"), after.number_at(1), before.number_at(1))?;
    }
    Ok(())
}

/// A block of bytes has its values and marks.
fn check_bytes(
    checker: &mut Checker,
    block: &[u8],
    narrowed: &[u8],
    random: &mut Random,
) -> Result<(), Difference> {
    for fill in fills(&Extent::of(block)) {
        let before = accepted(checker, fill, block, random)?;
        let after = accepted(checker, fill, narrowed, random)?;
        if before.answer != after.answer {
            return Err(Difference(format!("bytes narrowed, {fill}: another answer")));
        }
    }
    Ok(())
}

/// The new gain is 256 times the old one, each value is that of the whole number at or below a 256th
/// of its sample, and without an offset it falls by the gain times what is left of the sample.
fn check_words(
    checker: &mut Checker,
    draft: &Draft,
    narrowed: &[u8],
    random: &mut Random,
) -> Result<(), Difference> {
    let [gain, offset] = [VERTICAL_GAIN, VERTICAL_OFFSET]
        .map(|at| f64::from(read_float(&draft.head[at..at + 4], draft.order)));
    check_gain(checker, draft, 256.0 * gain, narrowed, random)?;
    let block = draft.bytes();
    let extent = Extent::of(&block);
    let mut samples = [&draft.array_1[..], &draft.array_2]
        .into_iter()
        .flat_map(|array| array.chunks(2).map(|word| read_signed(word, draft.order)));
    for fill in fills(&extent) {
        let before = accepted(checker, fill, &block, random)?;
        let after = accepted(checker, fill, narrowed, random)?;
        let mut at_rail = 0;
        for (k, sample) in samples.by_ref().take(extent.points as usize).enumerate() {
            let (high, rest) = (sample >> 8, sample & 0xFF);
            let [old, new] = [&before, &after].map(|reply| f64::from_bits(reply.number_at(k)));
            let value = 256.0 * gain * high as f64 - offset;
            let falls = offset != 0.0 || old - new == gain * rest as f64;
            if new.to_bits() != value.to_bits() || !falls {
                return Err(Difference(format!(
                    "narrowed, {fill}: point {k} falls from {old:e} to {new:e}, sample {sample}"
                )));
            }
            at_rail += u64::from(!(-32_512..32_512).contains(&sample));
        }
        let count = after.number_at(extent.points as usize);
        same(&format!("narrowed, {fill}: samples at the rail"), count, at_rail)?;
    }
    Ok(())
}

/// The gain in the descriptor, where the payload starts by the core's own layout.
fn check_gain(
    checker: &mut Checker,
    draft: &Draft,
    expected: f64,
    narrowed: &[u8],
    random: &mut Random,
) -> Result<(), Difference> {
    let layout = accepted(checker, Call::Layout, narrowed, random)?;
    let at = layout.number_at(0) as usize + VERTICAL_GAIN;
    let gain = narrowed.get(at..at + 4).map(|bytes| f64::from(read_float(bytes, draft.order)));
    match gain {
        Some(gain) if gain.to_bits() == expected.to_bits() => Ok(()),
        _ => Err(Difference(format!("narrowed: gain {gain:?}, not {expected:e}"))),
    }
}

/// A fill of each segment of each array, in the order of the samples.
fn fills(extent: &Extent) -> Vec<Call> {
    let of_array = |array| (1..=extent.segments).map(move |segment| Call::Fill { array, segment });
    (1..=extent.arrays).flat_map(of_array).collect()
}
