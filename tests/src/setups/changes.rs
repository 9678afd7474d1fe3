//! Changes of a line in pieces, of which faults are made. Where there is no piece to change, that is
//! the fault already.

use super::typed::{Line, Pair, Spelling};
use crate::random::Random;

/// Changes one of the pairs.
pub fn some(line: &mut Line, random: &mut Random, change: impl Fn(&mut Pair, &mut Random)) {
    if !line.pairs.is_empty() {
        let place = random.below(line.pairs.len());
        change(&mut line.pairs[place], random);
    }
}

pub fn first(line: &mut Line, change: fn(&mut Pair)) {
    line.pairs.first_mut().into_iter().for_each(change);
}

/// Puts that between two pairs; a line of one pair gets all four.
pub fn between(line: &mut Line, random: &mut Random, bytes: &[u8]) {
    if line.pairs.len() == 1 {
        line.pairs = all_four(random);
    }
    if line.pairs.len() > 1 {
        let place = 1 + random.below(line.pairs.len() - 1);
        line.pairs[place].before = bytes.to_vec();
    }
}

/// Adds a pair that is there already, changed, at any place.
pub fn again(line: &mut Line, random: &mut Random, change: fn(&mut Pair, &mut Random)) {
    if line.pairs.is_empty() {
        return;
    }
    let of = random.below(line.pairs.len());
    let mut pair = line.pairs[of].clone();
    change(&mut pair, random);
    let place = random.below(line.pairs.len() + 1);
    line.pairs.insert(place, pair);
    line.pairs.iter_mut().for_each(|pair| pair.before = b",".to_vec());
    line.pairs[0].before.clear();
}

/// All four pairs, in any order.
pub fn all_four(random: &mut Random) -> Vec<Pair> {
    let mut keys = [0, 1, 2, 3];
    random.shuffle(&mut keys);
    Spelling::of_keys(&keys, random).line().pairs
}

/// Makes one capital letter small.
pub fn small_letter(bytes: &mut [u8], random: &mut Random) {
    let is_capital = |place: &usize| bytes[*place].is_ascii_uppercase();
    let capitals: Vec<usize> = (0..bytes.len()).filter(is_capital).collect();
    if !capitals.is_empty() {
        bytes[random.pick(&capitals)].make_ascii_lowercase();
    }
}

/// Adds a byte between two others.
pub fn add_inside(bytes: &mut Vec<u8>, byte: u8, random: &mut Random) {
    if bytes.len() > 1 {
        bytes.insert(1 + random.below(bytes.len() - 1), byte);
    }
}

/// Adds a byte anywhere.
pub fn add_any(bytes: &mut Vec<u8>, byte: u8, random: &mut Random) {
    bytes.insert(random.below(bytes.len() + 1), byte);
}
