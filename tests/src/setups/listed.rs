//! Lists of what is no word, key, value, comma, blank or end of a line, each with the place where it goes.

use super::changes::{add_any, between, some};
use super::typed::{Line, Spelling};
use crate::random::Random;

pub struct List {
    bytes: &'static [&'static [u8]],
    put: fn(&mut Line, &[u8], &mut Random),
}

impl List {
    /// Puts any of them in its place.
    pub fn any(&self, line: &mut Line, random: &mut Random) {
        let bytes = random.pick(self.bytes);
        (self.put)(line, bytes, random);
    }
}

/// Cut, longer, mixed with the other word, in small letters, or of another command.
pub static WORDS: List = List {
    bytes: &[
        b"",
        b"W",
        b"WF",
        b"WFS",
        b"FSU",
        b"WFSUP",
        b"WFSUU",
        b"WFSU?",
        b"WFSU:",
        b"WFSU\0",
        b":WFSU",
        b"TA:WFSU",
        b"wfsu",
        b"Wfsu",
        b"WFSU_SETUP",
        b"WFSUWAVEFORM_SETUP",
        b"WAVEFORM_WFSU",
        b"WAVE",
        b"WAVEFORM",
        b"WAVEFORM_",
        b"SETUP",
        b"WAVEFORM_SETU",
        b"WAVEFORM_SETUPS",
        b"WAVEFORMSETUP",
        b"WAVEFORM SETUP",
        b"WAVEFORM-SETUP",
        b"WAVEFORM_SETUP?",
        b"waveform_setup",
        b"Waveform_Setup",
        b"COMM_FORMAT",
        b"CFMT",
        b"SP",
    ],
    put: |line, bytes, _| line.word = bytes.to_vec(),
};

/// None, white space of every kind, and what stands next to a blank or may be put for it.
pub static BLANKS: List = List {
    bytes: &[
        b"", b"  ", b"   ", b"\t", b" \t", b"\t ", b"\n", b" \n", b"\r", b"\0", b",", b" ,", b", ",
        b"_", b":", b" :", b";", b"=", b"?", b"\x0B", b"\x0C", b"\x1F", b"!", b"0", b"\xA0",
        b"\x85",
    ],
    put: |line, bytes, _| line.blank = bytes.to_vec(),
};

const COMMAS: &[&[u8]] = &[
    b"",
    b",,",
    b",,,",
    b" ",
    b", ",
    b" ,",
    b";",
    b":",
    b".",
    b"=",
    b"-",
    b"/",
    b"+",
    b"*",
    b"'",
    b"\t",
    b",\t",
    b"\n",
    b",\n",
    b"\0",
    b",\0",
    b"\x0C",
    b"\xAC",
    b"<",
    b"|",
    b"\xEF\xBC\x8C",
];

/// For the comma between two pairs, and for that behind a key.
pub static PAIR_COMMAS: List =
    List { bytes: COMMAS, put: |line, bytes, random| between(line, random, bytes) };
pub static KEY_COMMAS: List = List {
    bytes: COMMAS,
    put: |line, bytes, random| some(line, random, |pair, _| pair.comma = bytes.to_vec()),
};

/// Cut, longer, turned, mixed, in small letters, next to a letter, or digits.
pub static KEYS: List = List {
    bytes: &[
        b"S", b"P", b"N", b"F", b"PS", b"PN", b"PF", b"NS", b"SS", b"NN", b"PP", b"FF", b"FN",
        b"SF", b"sp", b"Sp", b"sP", b"np", b"fp", b"fP", b"sn", b"SPP", b"SSP", b"SP\0", b"SNP",
        b"NPFP", b"SQ", b"RP", b"TP", b"GP", b"EP", b"MP", b"OP", b"SM", b"SO", b"XP", b"00",
        b"10", b"WFSU", b"\xD3P", b"S\xD0",
    ],
    put: |line, bytes, random| some(line, random, |pair, _| pair.key = bytes.to_vec()),
};

/// What a reader of numbers may take: signs, points, exponents, other bases, parted digits, quotes, units,
/// and digits that are no decimal digits.
pub static VALUES: List = List {
    bytes: &[
        b"+4",
        b"-4",
        b"+0",
        b"-0",
        b"-1",
        b"--1",
        b"4-",
        b"4+",
        b"+",
        b"-",
        b"0x10",
        b"0X1F",
        b"0b11",
        b"0o17",
        b"10h",
        b"#H1F",
        b"$1F",
        b"A",
        b"F",
        b"1F",
        b"F1",
        b"4.0",
        b"4.",
        b".5",
        b"1e3",
        b"1E3",
        b"4E0",
        b"4L",
        b"4u",
        b"4us",
        b"1_000",
        b"1 000",
        b"1'000",
        b"\"4\"",
        b"'4'",
        b"(4)",
        b"ON",
        b"OFF",
        b"ALL",
        b"MAX",
        b"NAN",
        b"SP",
        b"4\0",
        b"\x004",
        b"\xEF\xBC\x94",
        b"\xB2",
        b"\xD9\xA4",
    ],
    put: |line, bytes, random| some(line, random, |pair, _| pair.value = bytes.to_vec()),
};

/// Digits that say more than 32 bits hold, and eleven of them or more.
static NUMBERS: List = List {
    bytes: &[
        b"4294967296",
        b"4294967297",
        b"4294967300",
        b"4294967305",
        b"4294967395",
        b"4300000000",
        b"5000000000",
        b"8589934591",
        b"8589934592",
        b"9999999999",
        b"10000000000",
        b"42949672950",
        b"00000000000",
        b"00000000001",
        b"04294967295",
        b"04294967296",
        b"000000000000",
        b"00000000000000000004",
        b"18446744073709551615",
        b"18446744073709551616",
        b"18446744073709551620",
        b"99999999999999999999999999999999999999999",
    ],
    put: |line, bytes, random| some(line, random, |pair, _| pair.value = bytes.to_vec()),
};

/// Bytes beside the digits, and digits with a bit changed.
pub static DIGITS: List = List {
    bytes: &[
        b"/", b":", b".", b";", b"\xAF", b"\xB0", b"\xB4", b"\xB9", b"\xBA", b"\x00", b"\x10",
        b"\x14", b"\x19", b"P", b"p", b"t", b"\xFF",
    ],
    put: |line, bytes, random| some(line, random, |pair, r| add_any(&mut pair.value, bytes[0], r)),
};

/// Line ends, white space, zero bytes, and what may part a line from the next.
pub static ENDS: List = List {
    bytes: &[
        b"\n",
        b"\r",
        b"\r\n",
        b"\n\r",
        b"\0",
        b"\n\0",
        b" ",
        b"  ",
        b" \n",
        b"\t",
        b"\x0B",
        b"\x0C",
        b";",
        b".",
        b"?",
        b":",
        b",",
        b",,",
        b",SP",
        b",NP,",
        b" #",
        b"\x1A",
        b"\x1F",
        b"\x7F",
        b"\xA0",
        b"\nWFSU SP,1",
        b";WFSU SP,1",
        b"\0WFSU SP,1",
        b"\r\nWFSU SP,1",
        b" WFSU SP,1",
        b"WFSU SP,1",
    ],
    put: |line, bytes, _| line.tail = bytes.to_vec(),
};

static LISTS: [&List; 9] =
    [&WORDS, &BLANKS, &PAIR_COMMAS, &KEY_COMMAS, &KEYS, &VALUES, &NUMBERS, &DIGITS, &ENDS];

/// For each that is listed a right line with it in its place.
pub fn lines(random: &mut Random) -> Vec<Vec<u8>> {
    all().map(|(list, bytes)| line_with(list, bytes, random)).collect()
}

/// A right line with one of them in its place.
pub fn any_line(random: &mut Random) -> Vec<u8> {
    let (list, bytes) = all().nth(random.below(all().count())).expect("it is one of them");
    line_with(list, bytes, random)
}

fn all() -> impl Iterator<Item = (&'static List, &'static [u8])> {
    LISTS.into_iter().flat_map(|list| list.bytes.iter().map(move |bytes| (list, *bytes)))
}

fn line_with(list: &List, bytes: &[u8], random: &mut Random) -> Vec<u8> {
    let mut line = Spelling::any(random).line();
    (list.put)(&mut line, bytes, random);
    line.bytes()
}

#[cfg(test)]
mod tests {
    use super::*;
    use crate::law::setup::read_line;

    /// The lists say that each of these is refused; the implementation has no part in it.
    #[test]
    fn what_is_listed_is_refused() {
        for case in 0..100 {
            for line in lines(&mut Random::new(27, case)) {
                assert_eq!(read_line(&line, &mut [0; 32]), 15, "{}", line.escape_ascii());
            }
        }
    }
}
