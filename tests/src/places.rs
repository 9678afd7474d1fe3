//! Where things stand, on the core's own answers: the ten parts tile the payload, and at a text's
//! place stands what the call that copies the text copies.

use crate::compare::{same, Checker, Difference};
use crate::draft::Draft;
use crate::questions::place_calls;
use crate::random::Random;
use crate::request::{Call, Reply, Request};
use crate::rooms::exact_request;

/// Which numbers of a layout are the lengths and which the starts, by their first.
const LENGTHS: usize = 5;
const STARTS: usize = 15;
/// The user text's place in both lists.
const USER_TEXT: usize = 1;

/// The parts and the texts of a right block.
pub fn check(checker: &mut Checker, draft: &Draft, random: &mut Random) -> Result<(), Difference> {
    let block = draft.bytes();
    let [layout, text, label] = place_calls(random).map(|call| exact_request(random, call, &block));
    let layout = checker.accepted(&layout)?;
    check_parts(&layout, draft)?;
    check_user_text(checker, &text, &layout, random)?;
    check_label(checker, &label, random)?;
    checker.tally.placed_blocks += 1;
    Ok(())
}

/// The payload starts where the header ends. Its first part starts at 0, each part where the one
/// before it ends, and the last ends at L.
fn check_parts(layout: &Reply, draft: &Draft) -> Result<(), Difference> {
    same("layout: start of the payload", layout.number_at(0), draft.header_len() as u64)?;
    let mut end = 0;
    for part in 0..10 {
        let start = layout.number_at(STARTS + part);
        same(&format!("layout: start of part {part}"), start, end)?;
        end = start.wrapping_add(layout.number_at(LENGTHS + part));
    }
    same("layout: end of the last part", end, draft.payload_len() as u64)
}

/// The user text stands where the layout has it.
fn check_user_text(
    checker: &mut Checker,
    request: &Request,
    layout: &Reply,
    random: &mut Random,
) -> Result<(), Difference> {
    let place = checker.accepted(request)?;
    let (start, length) = (place.number_at(0), place.number_at(1));
    let by_layout = layout.number_at(0).wrapping_add(layout.number_at(STARTS + USER_TEXT));
    same("user text: start, and by the layout", start, by_layout)?;
    same("user text: length, and by the layout", length, layout.number_at(LENGTHS + USER_TEXT))?;
    let copy = checker.ask(&exact_request(random, Call::UserText, request.block))?;
    check_copy("user text", part(request.block, start, length), &copy)
}

/// The label stands in slice 0, the block, or in slice 1, the fallback.
fn check_label(
    checker: &mut Checker,
    request: &Request,
    random: &mut Random,
) -> Result<(), Difference> {
    let place = checker.accepted(request)?;
    let slices = [request.block, &request.fallback];
    let slice = slices.get(place.number_at(0) as usize);
    let stands = slice.and_then(|slice| part(slice, place.number_at(1), place.number_at(2)));
    let fallback = request.fallback.clone();
    let call = Call::Label { fallback: fallback.len() };
    let copied = exact_request(random, call, request.block);
    let copy = checker.ask(&Request { fallback, ..copied })?;
    check_copy("label", stands, &copy)
}

/// What stands at a place, or nothing where that runs beyond the slice.
fn part(slice: &[u8], start: u64, length: u64) -> Option<&[u8]> {
    slice.get(start as usize..)?.get(..length as usize)
}

/// What stands at a text's place is the text, byte for byte.
fn check_copy(what: &str, stands: Option<&[u8]>, copy: &Reply) -> Result<(), Difference> {
    let copied = copy.answer.get(..copy.number as usize);
    if stands.is_none() || stands != copied {
        return Err(Difference(format!(
            "{what}: at its place {stands:02X?}, copied {copied:02X?}"
        )));
    }
    Ok(())
}
