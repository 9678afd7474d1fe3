//! Narrowing WORD to BYTE: each sample keeps its high-order bits, and the gain makes up for the
//! others. The call of the C host, and what it writes.

use super::calls::{number, room, write};
use super::cut::framed;
use super::descriptor::*;
use super::numbers::{read_signed, store};
use super::rules::{open, refuse, Opened, Refusal};

/// Writes the narrowed block to `out`; answers the block's length.
pub fn narrow(block: &[u8], out: &mut [u8], answer: &mut [u8]) -> u32 {
    number(try_narrow(block, out, answer))
}

fn try_narrow(block: &[u8], out: &mut [u8], answer: &mut [u8]) -> Result<(), Refusal> {
    let opened = open(block)?;
    let word = opened.comm_type == 1;
    // Eight more in the exponent: the product is exact, or it is not finite.
    let gain = 256.0 * opened.gain;
    refuse(word && !gain.is_finite(), Refusal::Gain)?;
    let payload = if word { narrowed(&opened, gain) } else { as_it_is(&opened) };
    let block = framed(&payload);
    refuse(out.len() < block.len(), Refusal::Room)?;
    room(answer, 1)?;
    out[..block.len()].copy_from_slice(&block);
    write(answer, &[block.len() as u64]);
    Ok(())
}

/// A payload of words as one of bytes.
fn narrowed(opened: &Opened, gain: f32) -> Vec<u8> {
    let mut payload = head(opened, gain);
    payload.extend(opened.user_text);
    payload.extend(opened.trigtime);
    payload.extend(opened.ristime);
    for array in &opened.arrays {
        for word in array.chunks(2) {
            let sample = read_signed(word, opened.order);
            // The whole number at or below a 256th, also below zero.
            let byte = sample.div_euclid(256);
            payload.push(byte as u8);
        }
    }
    payload
}

/// The descriptor of the narrowed block; the order and all that is not named here stay.
fn head(opened: &Opened, gain: f32) -> Vec<u8> {
    let mut head = opened.descriptor.to_vec();
    let [array_1, array_2] = [WAVE_ARRAY_1, WAVE_ARRAY_2].map(|place| opened.lengths[place] / 2);
    let mut set = |at: usize, width: usize, bits: u64| {
        store(&mut head[at..at + width], opened.order, bits);
    };
    set(COMM_TYPE, 2, 0);
    set(length_at(WAVE_ARRAY_1), 4, array_1 as u64);
    set(length_at(WAVE_ARRAY_2), 4, array_2 as u64);
    set(VERTICAL_GAIN, 4, u64::from(gain.to_bits()));
    head
}

/// The payload of a block of bytes.
fn as_it_is(opened: &Opened) -> Vec<u8> {
    let arrays = opened.arrays.concat();
    [opened.descriptor, opened.user_text, opened.trigtime, opened.ristime, &arrays].concat()
}
