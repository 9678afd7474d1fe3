//! Lines as somebody may type them: the spellings of a setup, and a line in pieces, which a fault
//! changes.

use super::values::{self, padded, MOST_DIGITS};
use crate::law::cut::Setup;
use crate::random::Random;

/// The words, short and long, and the keys in the order of the answer.
pub const WORDS: [&[u8]; 2] = [b"WFSU", b"WAVEFORM_SETUP"];
pub const KEYS: [&[u8]; 4] = [b"SP", b"NP", b"FP", b"SN"];

/// One way to say a setup: a word, and pairs of which none is there twice.
#[derive(Clone)]
pub struct Spelling {
    pub word: usize,
    pub pairs: Vec<Typed>,
}

/// A pair, its key by its place, and how many digits its value has at least.
#[derive(Clone, Copy)]
pub struct Typed {
    pub key: usize,
    pub number: u32,
    pub digits: usize,
}

impl Typed {
    pub fn any(key: usize, random: &mut Random) -> Typed {
        Typed { key, number: values::right(random), digits: any_digits(random) }
    }

    /// The pair that says what a missing one means.
    fn zero(key: usize, random: &mut Random) -> Typed {
        Typed { key, number: 0, digits: any_digits(random) }
    }
}

/// Most values have no leading zeros, some as many as there may be.
fn any_digits(random: &mut Random) -> usize {
    let some = 1 + random.below(MOST_DIGITS);
    random.pick(&[1, 1, 1, some, some, MOST_DIGITS])
}

/// Every set of one to four keys in every order: 64 in all.
pub fn key_orders() -> Vec<Vec<usize>> {
    let mut orders: Vec<Vec<usize>> = vec![vec![]];
    let mut next = 0;
    while next < orders.len() {
        let order = orders[next].clone();
        let missing = (0..KEYS.len()).filter(|key| !order.contains(key));
        orders.extend(missing.map(|key| [&order[..], &[key]].concat()));
        next += 1;
    }
    orders.split_off(1)
}

impl Spelling {
    /// These keys in this order, with any values.
    pub fn of_keys(keys: &[usize], random: &mut Random) -> Spelling {
        let pairs = keys.iter().map(|key| Typed::any(*key, random)).collect();
        Spelling { word: random.below(WORDS.len()), pairs }
    }

    pub fn any(random: &mut Random) -> Spelling {
        let orders = key_orders();
        Spelling::of_keys(&orders[random.below(orders.len())], random)
    }

    /// The setup: what the pairs say, and 0 for those that are missing.
    pub fn setup(&self) -> Setup {
        let mut numbers = [0; KEYS.len()];
        self.pairs.iter().for_each(|pair| numbers[pair.key] = pair.number);
        let [sp, np, fp, sn] = numbers;
        Setup { sp, np, fp, sn }
    }

    pub fn bytes(&self) -> Vec<u8> {
        self.line().bytes()
    }

    pub fn line(&self) -> Line {
        let pair = |(place, typed): (usize, &Typed)| Pair {
            before: if place == 0 { vec![] } else { vec![b','] },
            key: KEYS[typed.key].to_vec(),
            comma: vec![b','],
            value: padded(typed.number.into(), typed.digits),
        };
        let pairs = self.pairs.iter().enumerate().map(pair).collect();
        Line { word: WORDS[self.word].to_vec(), blank: vec![b' '], pairs, tail: vec![] }
    }

    /// The pairs in another order.
    pub fn shuffle(&mut self, random: &mut Random) {
        random.shuffle(&mut self.pairs);
    }

    /// Other leading zeros, or none.
    pub fn change_zeros(&mut self, random: &mut Random) {
        self.pairs.iter_mut().for_each(|pair| pair.digits = any_digits(random));
    }

    pub fn change_word(&mut self, _: &mut Random) {
        self.word = 1 - self.word;
    }

    /// Adds some of the missing pairs, as 0.
    pub fn add_zeros(&mut self, random: &mut Random) {
        for key in self.missing() {
            if random.once_in(2) {
                let place = random.below(self.pairs.len() + 1);
                self.pairs.insert(place, Typed::zero(key, random));
            }
        }
    }

    /// Leaves out pairs that say 0, but never the last one.
    pub fn drop_zeros(&mut self, random: &mut Random) {
        for place in (0..self.pairs.len()).rev() {
            if self.pairs.len() > 1 && self.pairs[place].number == 0 && random.once_in(2) {
                self.pairs.remove(place);
            }
        }
    }

    fn missing(&self) -> Vec<usize> {
        let there = |key: &usize| self.pairs.iter().any(|pair| pair.key == *key);
        (0..KEYS.len()).filter(|key| !there(key)).collect()
    }
}

/// A line in pieces.
#[derive(Clone)]
pub struct Line {
    pub word: Vec<u8>,
    pub blank: Vec<u8>,
    pub pairs: Vec<Pair>,
    pub tail: Vec<u8>,
}

/// A pair in pieces; the comma before it is that of the pair before.
#[derive(Clone)]
pub struct Pair {
    pub before: Vec<u8>,
    pub key: Vec<u8>,
    pub comma: Vec<u8>,
    pub value: Vec<u8>,
}

impl Line {
    pub fn bytes(&self) -> Vec<u8> {
        let pair = |pair: &Pair| [&pair.before[..], &pair.key, &pair.comma, &pair.value].concat();
        let pairs: Vec<u8> = self.pairs.iter().flat_map(pair).collect();
        [&self.word[..], &self.blank, &pairs, &self.tail].concat()
    }
}

/// A line, as a difference tells of it.
pub fn told(line: &[u8]) -> String {
    format!("\"{}\"", line.escape_ascii())
}

#[cfg(test)]
mod tests {
    use super::*;

    #[test]
    fn sets_of_keys_in_every_order() {
        let mut orders = key_orders();
        assert_eq!(orders.len(), 4 + 4 * 3 + 4 * 3 * 2 + 4 * 3 * 2);
        assert_eq!(orders[..5], [vec![0], vec![1], vec![2], vec![3], vec![0, 1]]);
        orders.sort();
        orders.dedup();
        assert_eq!(orders.len(), 64);
    }

    #[test]
    fn spellings_are_lines() {
        let mut spelling = Spelling {
            word: 0,
            pairs: vec![
                Typed { key: 2, number: 10, digits: 3 },
                Typed { key: 0, number: 4, digits: 1 },
            ],
        };
        assert_eq!(spelling.bytes(), b"WFSU FP,010,SP,4");
        assert_eq!(spelling.setup(), Setup { sp: 4, np: 0, fp: 10, sn: 0 });
        let random = &mut Random::new(22, 0);
        spelling.change_word(random);
        assert_eq!(spelling.bytes(), b"WAVEFORM_SETUP FP,010,SP,4");
        assert_eq!(spelling.missing(), [1, 3]);
    }
}
