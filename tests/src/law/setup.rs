//! Setups as lines, as the oscilloscope takes them: `WFSU SP,4,NP,0,FP,10,SN,0`. The two calls of the C
//! host, one that reads a line and one that writes the normal line; and apart from them what a line is.

use super::calls::{number, room, write};
use super::rules::{refuse, Refusal};

/// The words that a line starts with; the normal line has the short one.
const SHORT_WORD: &str = "WFSU";
const LONG_WORD: &str = "WAVEFORM_SETUP";

/// The keys, in the order of the answer and of the normal line.
const KEYS: [&str; 4] = ["SP", "NP", "FP", "SN"];

const MOST_DIGITS: usize = 10;
const HIGHEST_VALUE: u64 = 4_294_967_295;

/// Answers SP, NP, FP and SN of the setup that the line says.
pub fn read_line(line: &[u8], answer: &mut [u8]) -> u32 {
    number(try_read(line, answer))
}

/// Writes the normal line of a setup to `out`; answers its length.
pub fn write_line(sp: u32, np: u32, fp: u32, sn: u32, out: &mut [u8], answer: &mut [u8]) -> u32 {
    number(try_write([sp, np, fp, sn], out, answer))
}

fn try_read(line: &[u8], answer: &mut [u8]) -> Result<(), Refusal> {
    let setup = setup_of(line)?;
    room(answer, 4)?;
    write(answer, &setup);
    Ok(())
}

fn try_write(setup: [u32; 4], out: &mut [u8], answer: &mut [u8]) -> Result<(), Refusal> {
    let line = normal_line(setup);
    refuse(out.len() < line.len(), Refusal::Text)?;
    room(answer, 1)?;
    out[..line.len()].copy_from_slice(&line);
    write(answer, &[line.len() as u64]);
    Ok(())
}

/// The four numbers that a line says; 15 TEXT where it is no line. Behind the word stand one to four
/// pairs, a key and a value each, and a comma between each piece and the next.
fn setup_of(line: &[u8]) -> Result<[u64; 4], Refusal> {
    let text = behind_word(line).ok_or(Refusal::Text)?;
    let pieces: Vec<&[u8]> = text.split(|byte| *byte == b',').collect();
    refuse(pieces.len() % 2 == 1, Refusal::Text)?;
    let pairs: Vec<&[&[u8]]> = pieces.chunks(2).collect();
    refuse(pairs.len() > KEYS.len(), Refusal::Text)?;
    refuse(!pairs.iter().all(|pair| is_key(pair[0])), Refusal::Text)?;
    refuse(!pairs.iter().all(|pair| is_value(pair[1])), Refusal::Text)?;
    let values = KEYS.map(|key| values_of(&pairs, key));
    refuse(values.iter().any(|values| values.len() > 1), Refusal::Text)?;
    Ok(values.map(|values| values.first().copied().unwrap_or(0)))
}

/// What stands behind one of the words and its blank.
fn behind_word(line: &[u8]) -> Option<&[u8]> {
    let words = [SHORT_WORD, LONG_WORD];
    let text = words.iter().find_map(|word| line.strip_prefix(word.as_bytes()))?;
    text.strip_prefix(b" ")
}

fn is_key(piece: &[u8]) -> bool {
    KEYS.iter().any(|key| piece == key.as_bytes())
}

/// One to ten decimal digits, leading zeros among them, for a number that 32 bits hold.
fn is_value(piece: &[u8]) -> bool {
    let digits_alone = piece.iter().all(|byte| byte.is_ascii_digit());
    let as_many = (1..=MOST_DIGITS).contains(&piece.len());
    digits_alone && as_many && decimal(piece) <= HIGHEST_VALUE
}

fn decimal(digits: &[u8]) -> u64 {
    digits.iter().fold(0, |number, digit| 10 * number + u64::from(digit - b'0'))
}

/// The values that stand behind a key: none where the pair is missing.
fn values_of(pairs: &[&[&[u8]]], key: &str) -> Vec<u64> {
    let with_key = pairs.iter().filter(|pair| pair[0] == key.as_bytes());
    with_key.map(|pair| decimal(pair[1])).collect()
}

/// The short word, a blank and all four pairs, without leading zeros.
pub fn normal_line(setup: [u32; 4]) -> Vec<u8> {
    let pair = |(key, value): (&str, u32)| format!("{key},{value}");
    let pairs = KEYS.into_iter().zip(setup).map(pair).collect::<Vec<_>>();
    format!("{SHORT_WORD} {}", pairs.join(",")).into_bytes()
}
