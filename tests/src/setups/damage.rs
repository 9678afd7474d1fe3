//! Lines that are nearly right, by whatever chance: one byte changed, removed, added or doubled
//! anywhere, cut at each place, pieces of lines in any order, and bytes of every kind.

use super::typed::{Spelling, KEYS, WORDS};
use super::values::{padded, right};
use crate::random::Random;

/// The bytes that lines are made of.
const ALPHABET: &[u8] = b"WFSUAVEORM_TPN ,0123456789";

/// How long a line of any bytes is at most, and how long one in so many is.
const MOST_BYTES: usize = 200;
const LONG_BYTES: usize = 4000;
const LONG_ONCE_IN: usize = 20;

/// A right line damaged in every way at each of its places, and cut there.
pub fn at_each_place(random: &mut Random) -> Vec<Vec<u8>> {
    let line = Spelling::any(random).bytes();
    let mut lines: Vec<Vec<u8>> = vec![];
    for place in 0..=line.len() {
        let (any, common) = (random.draw() as u8, of_alphabet(random));
        lines.push(with(&line, place, 0, &[random.pick(&[any, common])]));
        lines.push(line[..place].to_vec());
        if let Some(byte) = line.get(place) {
            let beside = [byte.wrapping_sub(1), byte.wrapping_add(1), byte ^ 0x20, byte ^ 0x80];
            let changed = [any, common, random.pick(&beside), random.pick(&beside)];
            lines.extend(changed.map(|byte| with(&line, place, 1, &[byte])));
            lines.push(with(&line, place, 1, &[]));
            lines.push(with(&line, place, 0, &[*byte]));
        }
    }
    lines
}

/// A right line with each of the 256 bytes at one place, for the one there or before it.
pub fn each_byte(random: &mut Random) -> Vec<Vec<u8>> {
    let line = Spelling::any(random).bytes();
    let place = random.below(line.len());
    let removed = random.below(2);
    (0..=255).map(|byte| with(&line, place, removed, &[byte])).collect()
}

/// A line with two damages.
pub fn twice(random: &mut Random) -> Vec<u8> {
    let mut line = Spelling::any(random).bytes();
    for _ in 0..2 {
        let place = random.below(line.len());
        let (removed, added) = random.pick(&[(0, 1), (1, 0), (1, 1)]);
        let bytes = [of_alphabet(random)];
        line = with(&line, place, removed, &bytes[..added]);
    }
    line
}

/// Words, keys, values, blanks and commas in any order, most of them behind a word and its blank.
pub fn in_pieces(random: &mut Random) -> Vec<u8> {
    let start = [random.pick(&WORDS), b" "].concat();
    let mut line = if random.once_in(8) { vec![] } else { start };
    let (mut more, mut key_is_next) = (random.below(10), true);
    while more > 0 {
        let turn = if random.once_in(12) { random.below(4) } else { usize::from(!key_is_next) };
        match turn {
            0 => line.extend(random.pick(&KEYS)),
            1 => line.extend(padded(right(random).into(), 1 + random.below(3))),
            2 => line.extend(random.pick(&WORDS)),
            _ => line.push(b' '),
        }
        key_is_next = turn != 0;
        more -= 1;
        if more > 0 && !random.once_in(20) {
            line.push(b',');
        }
    }
    line
}

/// Any bytes, bytes of lines, or digits, alone or behind the start of a line.
pub fn any_bytes(random: &mut Random) -> Vec<u8> {
    let most = if random.once_in(LONG_ONCE_IN) { LONG_BYTES } else { MOST_BYTES };
    let short = random.below(20);
    let length = random.below(most + 1);
    let length = random.pick(&[0, short, length, length]);
    let bytes: Vec<u8> = match random.below(3) {
        0 => random.bytes(length),
        1 => (0..length).map(|_| random.pick(ALPHABET)).collect(),
        _ => (0..length).map(|_| random.pick(b"0123456789")).collect(),
    };
    let start: &[u8] = random.pick(&[b"", b"", b"WFSU ", b"WFSU SP,", b"WAVEFORM_SETUP SN,4,"]);
    [start, &bytes].concat()
}

fn of_alphabet(random: &mut Random) -> u8 {
    random.pick(ALPHABET)
}

/// A line without so many bytes from a place on, and with others for them.
fn with(line: &[u8], place: usize, removed: usize, added: &[u8]) -> Vec<u8> {
    [&line[..place], added, &line[place + removed..]].concat()
}

#[cfg(test)]
mod tests {
    use super::*;
    use crate::law::setup::read_line;

    /// How many of so many lines are taken; a generator whose lines are all refused shows little.
    fn taken(count: usize, draw: fn(&mut Random) -> Vec<u8>) -> usize {
        let random = &mut Random::new(25, 0);
        (0..count).filter(|_| read_line(&draw(random), &mut [0; 32]) == 0).count()
    }

    #[test]
    fn some_lines_are_taken_and_most_refused() {
        for (draw, least) in [(twice as fn(&mut Random) -> _, 50), (in_pieces, 100), (any_bytes, 5)]
        {
            assert!((least..1000).contains(&taken(2000, draw)));
        }
        let random = &mut Random::new(26, 0);
        let lines: Vec<Vec<u8>> = (0..40).flat_map(|_| at_each_place(random)).collect();
        let right = lines.iter().filter(|line| read_line(line, &mut [0; 32]) == 0).count();
        assert!(right * 10 > lines.len() && right * 2 < lines.len());
    }
}
