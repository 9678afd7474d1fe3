//! Faults of a line: each makes it one that is refused, whatever other fault it has.

use super::changes::{add_any, add_inside, again, all_four, between, first, small_letter, some};
use super::listed;
use super::typed::{Line, Spelling, KEYS, WORDS};
use super::values::{padded, too_large, too_long};
use crate::random::Random;

pub struct Fault {
    pub name: &'static str,
    make: fn(&mut Line, &mut Random),
}

/// The faults of words and blanks, of commas, of keys, of values, of pairs, and of ends. Those that are
/// listed elsewhere are any of their list.
pub static FAULTS: &[Fault] = &[
    fault("another word", |line, r| listed::WORDS.any(line, r)),
    fault("no word and no blank", |line, _| (line.word, line.blank) = (vec![], vec![])),
    fault("the word in small letters", |line, _| line.word.make_ascii_lowercase()),
    fault("a small letter in the word", |line, r| small_letter(&mut line.word, r)),
    fault("the word twice", |line, r| line.word = [r.pick(&WORDS), b" ", r.pick(&WORDS)].concat()),
    fault("white space before the word", |line, r| line.word.insert(0, r.pick(b" \t\n\0"))),
    fault("a blank in the word", |line, r| add_inside(&mut line.word, b' ', r)),
    fault("another blank", |line, r| listed::BLANKS.any(line, r)),
    fault("no blank", |line, _| line.blank.clear()),
    fault("more blanks", |line, r| line.blank = vec![b' '; 2 + r.below(4)]),
    // Commas
    fault("a comma at the start", |line, _| first(line, |pair| pair.before = b",".to_vec())),
    fault("a comma at the end", |line, _| line.tail = b",".to_vec()),
    fault("another comma between pairs", |line, r| listed::PAIR_COMMAS.any(line, r)),
    fault("no comma between pairs", |line, r| between(line, r, b"")),
    fault("two commas between pairs", |line, r| between(line, r, b",,")),
    fault("another comma behind a key", |line, r| listed::KEY_COMMAS.any(line, r)),
    fault("no comma behind a key", |line, r| some(line, r, |pair, _| pair.comma.clear())),
    // Keys
    fault("another key", |line, r| listed::KEYS.any(line, r)),
    fault("a key in small letters", |line, r| {
        some(line, r, |pair, _| pair.key.make_ascii_lowercase());
    }),
    fault("a small letter in a key", |line, r| {
        some(line, r, |pair, r| small_letter(&mut pair.key, r));
    }),
    fault("a blank in a key", |line, r| {
        some(line, r, |pair, r| add_inside(&mut pair.key, b' ', r));
    }),
    fault("no key", |line, _| first(line, |pair| pair.key.clear())),
    fault("a value alone", |line, _| {
        first(line, |pair| (pair.key, pair.comma) = (vec![], vec![]));
    }),
    fault("a key alone behind the pairs", |line, r| {
        line.tail = [&b","[..], r.pick(&KEYS)].concat();
    }),
    fault("key and value in turn", |line, r| {
        some(line, r, |pair, _| std::mem::swap(&mut pair.key, &mut pair.value));
    }),
    // Values
    fault("another value", |line, r| listed::VALUES.any(line, r)),
    fault("no value", |line, r| some(line, r, |pair, _| pair.value.clear())),
    fault("a key alone", |line, _| {
        let last = line.pairs.last_mut();
        last.into_iter().for_each(|pair| (pair.comma, pair.value) = (vec![], vec![]));
    }),
    fault("a comma in a value", |line, r| {
        some(line, r, |pair, r| pair.value = r.pick(&[&b"1,000"[..], b"4,0", b"4,4"]).to_vec());
    }),
    fault("a byte beside the digits", |line, r| listed::DIGITS.any(line, r)),
    fault("a blank in a value", |line, r| {
        some(line, r, |pair, r| add_any(&mut pair.value, b' ', r));
    }),
    fault("a value too large", |line, r| {
        some(line, r, |pair, r| pair.value = padded(too_large(r), 1));
    }),
    fault("eleven digits or more", |line, r| some(line, r, |pair, r| pair.value = too_long(r))),
    // Pairs
    fault("the word alone", |line, _| (line.blank, line.pairs) = (vec![], vec![])),
    fault("no pair", |line, _| line.pairs.clear()),
    fault("a pair twice", |line, r| again(line, r, |_, _| ())),
    fault("a pair twice, once with another value", |line, r| {
        again(line, r, |pair, r| pair.value = padded(r.below(100) as u64, 1));
    }),
    fault("a pair twice, once with 0", |line, r| {
        again(line, r, |pair, _| pair.value = b"0".to_vec());
    }),
    fault("a pair twice, once without a value", |line, r| {
        again(line, r, |pair, _| pair.value.clear());
    }),
    fault("five pairs", |line, r| {
        line.pairs = all_four(r);
        again(line, r, |_, _| ());
    }),
    fault("eight pairs", |line, r| {
        let mut more = all_four(r);
        more[0].before = b",".to_vec();
        line.pairs = [all_four(r), more].concat();
    }),
    // Ends
    fault("another end", |line, r| listed::ENDS.any(line, r)),
    fault("a new line", |line, _| line.tail = b"\n".to_vec()),
];

const fn fault(name: &'static str, make: fn(&mut Line, &mut Random)) -> Fault {
    Fault { name, make }
}

/// A line that has these faults and is right else.
pub fn faulty(faults: &[&Fault], random: &mut Random) -> Vec<u8> {
    let mut line = Spelling::any(random).line();
    faults.iter().for_each(|fault| (fault.make)(&mut line, random));
    line.bytes()
}

#[cfg(test)]
mod tests {
    use super::*;
    use crate::calls::LAW;
    use crate::request::Call;
    use crate::rooms::exact_request;

    fn check_refused(faults: &[&Fault], random: &mut Random) {
        let line = faulty(faults, random);
        let reply = LAW.reply(&exact_request(random, Call::SetupRead, &line));
        let names: Vec<&str> = faults.iter().map(|fault| fault.name).collect();
        assert_eq!(reply.number, 15, "{}: {}", names.join("; "), line.escape_ascii());
    }

    /// The table says that each of these is refused; the implementation has no part in it.
    #[test]
    fn each_fault_is_refused() {
        for fault in FAULTS {
            (0..500).for_each(|case| check_refused(&[fault], &mut Random::new(23, case)));
        }
    }

    #[test]
    fn no_fault_undoes_another() {
        for (a, b) in FAULTS.iter().flat_map(|a| FAULTS.iter().map(move |b| (a, b))) {
            if a.name != b.name {
                (0..60).for_each(|case| check_refused(&[a, b], &mut Random::new(24, case)));
            }
        }
    }
}
