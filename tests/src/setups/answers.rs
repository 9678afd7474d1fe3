//! Lines and setups, on the core's own answers: what it writes it reads back; what it reads has one
//! normal line; the spellings of a setup are read the same; and no line is one with a byte more.

use super::typed::{told, Spelling, KEYS};
use super::{LONGEST_LINE, SHORTEST_LINE};
use crate::compare::{same, Checker, Difference};
use crate::law::cut::Setup;
use crate::random::Random;
use crate::request::Call;
use crate::rooms::{exact_request, with_room, Room};

/// Bytes of the answer to a setup write.
const ANSWER: usize = 8;

/// Bytes that a line may seem to end with, and how many others are tried behind it.
const SEEMING_ENDS: &[u8] = b",\n\r\0 \t;/:\xB0";
const OTHER_BYTES: usize = 4;

/// The ways to say a setup otherwise.
const RESPELLINGS: [fn(&mut Spelling, &mut Random); 5] = [
    Spelling::shuffle,
    Spelling::change_zeros,
    Spelling::change_word,
    Spelling::add_zeros,
    Spelling::drop_zeros,
];

/// The setup that a right line is read as.
fn read(checker: &mut Checker, line: &[u8], random: &mut Random) -> Result<Setup, Difference> {
    let reply = checker.ask(&exact_request(random, Call::SetupRead, line))?;
    same(&told(line), reply.number, 0)?;
    match [0, 1, 2, 3].map(|i| u32::try_from(reply.number_at(i))) {
        [Ok(sp), Ok(np), Ok(fp), Ok(sn)] => Ok(Setup { sp, np, fp, sn }),
        _ => Err(Difference(format!("{}: numbers of more than 32 bits", told(line)))),
    }
}

/// A line that must be read as a setup.
fn check_read(
    checker: &mut Checker,
    line: &[u8],
    setup: Setup,
    random: &mut Random,
) -> Result<(), Difference> {
    let came = read(checker, line, random)?;
    if came != setup {
        return Err(Difference(format!("{}: {came}, not {setup}", told(line))));
    }
    Ok(())
}

/// The line of a setup, with room for any.
fn write(checker: &mut Checker, setup: Setup, random: &mut Random) -> Result<Vec<u8>, Difference> {
    let call = Call::SetupWrite { setup };
    let out = LONGEST_LINE + random.below(2) * random.below(100);
    let reply = checker.accepted(&with_room(random, call, &[], Room::for_block(out, ANSWER)))?;
    let length = reply.number_at(0);
    if !(SHORTEST_LINE as u64..=LONGEST_LINE as u64).contains(&length) {
        return Err(Difference(format!("{call}: a line of {length}")));
    }
    Ok(reply.line().to_vec())
}

/// What was written is read as the same setup; with just that room it is the same line, and with less
/// it is refused.
pub fn check_writing(
    checker: &mut Checker,
    setup: Setup,
    random: &mut Random,
) -> Result<(), Difference> {
    let line = write(checker, setup, random)?;
    check_read(checker, &line, setup, random)?;
    let (call, need) = (Call::SetupWrite { setup }, line.len());
    for (out, answer, number) in
        [(need, ANSWER, 0), (need - 1, ANSWER, 15), (need, ANSWER - 1, 13), (need - 1, 0, 15)]
    {
        let reply = checker.ask(&with_room(random, call, &[], Room::for_block(out, answer)))?;
        same(&format!("{call}, out of {out}, answer of {answer}"), reply.number, number)?;
        if number == 0 && reply.line() != line {
            return Err(Difference(format!(
                "{call}: {}, then {}",
                told(&line),
                told(reply.line())
            )));
        }
    }
    checker.tally.read_back += 1;
    Ok(())
}

/// What was read is written as the normal line: it is read the same, written again it is the same, and
/// it is no longer than a line that has all four pairs.
pub fn check_reading(
    checker: &mut Checker,
    spelling: &Spelling,
    random: &mut Random,
) -> Result<(), Difference> {
    let line = spelling.bytes();
    let setup = read(checker, &line, random)?;
    let normal = write(checker, setup, random)?;
    let read_again = read(checker, &normal, random)?;
    let again = write(checker, read_again, random)?;
    let longer = spelling.pairs.len() == KEYS.len() && normal.len() > line.len();
    if read_again != setup || again != normal || longer {
        let [line, normal, again] = [&line, &normal, &again].map(|line| told(line));
        return Err(Difference(format!("{line} is {setup}, then {normal}, then {again}")));
    }
    checker.tally.normal_lines += 1;
    Ok(())
}

/// Another order, other leading zeros, the other word, and pairs of 0 added or left out: each alone,
/// and all together.
pub fn check_spellings(
    checker: &mut Checker,
    spelling: &Spelling,
    random: &mut Random,
) -> Result<(), Difference> {
    let setup = read(checker, &spelling.bytes(), random)?;
    let mut altogether = spelling.clone();
    for respell in RESPELLINGS {
        let mut other = spelling.clone();
        respell(&mut other, random);
        check_read(checker, &other.bytes(), setup, random)?;
        respell(&mut altogether, random);
    }
    check_read(checker, &altogether.bytes(), setup, random)?;
    checker.tally.respelled += 1;
    Ok(())
}

/// A line is taken, and with any byte behind it that is no digit it is not.
pub fn check_more(
    checker: &mut Checker,
    spelling: &Spelling,
    random: &mut Random,
) -> Result<(), Difference> {
    let line = spelling.bytes();
    read(checker, &line, random)?;
    let mut more = SEEMING_ENDS.to_vec();
    more.extend(random.bytes(OTHER_BYTES));
    more.retain(|byte| !byte.is_ascii_digit());
    for byte in more {
        let longer = [&line[..], &[byte]].concat();
        let reply = checker.ask(&exact_request(random, Call::SetupRead, &longer))?;
        same(&told(&longer), reply.number, 15)?;
    }
    checker.tally.ended_lines += 1;
    Ok(())
}
