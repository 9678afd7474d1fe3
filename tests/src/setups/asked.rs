//! Lines whose answer is known from how they were made: their four numbers, or 15 for a fault; and any
//! other lines.

use super::faults::{faulty, Fault, FAULTS};
use super::typed::{key_orders, told, Spelling, WORDS};
use super::{damage, listed, numbers};
use crate::compare::{same, Checker, Difference};
use crate::law::cut::Setup;
use crate::random::Random;
use crate::request::{Call, Request};
use crate::rooms::{with_room, Room};

/// Bytes of the answer, and how long its slice is.
const ANSWER: usize = 32;
const ROOMS: [usize; 12] = [ANSWER, ANSWER, ANSWER, ANSWER, ANSWER, 31, 33, 40, 64, 24, 8, 0];

/// How many pairs of faults a turn has, how many lines of any values, and how many of any other kind.
const FAULT_PAIRS: usize = 60;
const LINES: usize = 40;
const OTHERS: usize = 40;

/// Both words before every set of keys in every order, and some lines more.
pub fn right_lines(checker: &mut Checker, random: &mut Random) -> Result<(), Difference> {
    for keys in key_orders() {
        for word in 0..WORDS.len() {
            let spelling = Spelling { word, ..Spelling::of_keys(&keys, random) };
            check_known(checker, &spelling, random)?;
        }
    }
    for _ in 0..LINES {
        check_known(checker, &Spelling::any(random), random)?;
    }
    Ok(())
}

/// Every fault alone, what is listed for some, and some in pairs.
pub fn faults(checker: &mut Checker, random: &mut Random) -> Result<(), Difference> {
    for fault in FAULTS {
        check_fault(checker, &[fault], random)?;
    }
    for line in listed::lines(random) {
        check_refused(checker, &line, random)?;
    }
    for _ in 0..FAULT_PAIRS {
        check_fault(checker, &two_faults(random), random)?;
    }
    Ok(())
}

/// Lines that are nearly right, and any others.
pub fn damaged(checker: &mut Checker, random: &mut Random) -> Result<(), Difference> {
    let mut lines = damage::at_each_place(random);
    lines.extend(damage::each_byte(random));
    lines.extend((0..OTHERS).map(|_| damage::twice(random)));
    lines.extend((0..OTHERS).map(|_| damage::in_pieces(random)));
    lines.extend((0..OTHERS).map(|_| damage::any_bytes(random)));
    for line in lines {
        let room = random.pick(&ROOMS);
        checker.ask(&request(&line, room, random))?;
    }
    Ok(())
}

/// A right line, or one with a fault or two.
pub fn any_known(checker: &mut Checker, random: &mut Random) -> Result<(), Difference> {
    match random.below(5) {
        0 | 1 => check_refused(checker, &listed::any_line(random), random),
        2 => check_fault(checker, &[&FAULTS[random.below(FAULTS.len())]], random),
        3 => check_fault(checker, &two_faults(random), random),
        _ => check_known(checker, &Spelling::any(random), random),
    }
}

/// Two faults that are not one, in any order.
fn two_faults(random: &mut Random) -> [&'static Fault; 2] {
    let first = random.below(FAULTS.len());
    let second = (first + 1 + random.below(FAULTS.len() - 1)) % FAULTS.len();
    [&FAULTS[first], &FAULTS[second]]
}

/// A line, by the numbers that it was made of.
fn check_known(
    checker: &mut Checker,
    spelling: &Spelling,
    random: &mut Random,
) -> Result<(), Difference> {
    let (line, room) = (spelling.bytes(), random.pick(&ROOMS));
    let expected = if room < ANSWER { Err(13) } else { Ok(spelling.setup()) };
    check(checker, &line, room, expected, random)?;
    checker.tally.known_lines += u64::from(expected.is_ok());
    Ok(())
}

/// A line with faults.
fn check_fault(
    checker: &mut Checker,
    faults: &[&Fault],
    random: &mut Random,
) -> Result<(), Difference> {
    let names: Vec<&str> = faults.iter().map(|fault| fault.name).collect();
    let why = |Difference(text)| Difference(format!("{}: {text}", names.join("; ")));
    check_refused(checker, &faulty(faults, random), random).map_err(why)
}

/// A line that is refused whatever room there is.
fn check_refused(
    checker: &mut Checker,
    line: &[u8],
    random: &mut Random,
) -> Result<(), Difference> {
    let room = random.pick(&ROOMS);
    check(checker, line, room, Err(15), random)?;
    checker.tally.faulty_lines += 1;
    Ok(())
}

/// The number that comes, and what the answer's slice holds then.
fn check(
    checker: &mut Checker,
    line: &[u8],
    room: usize,
    expected: Result<Setup, u64>,
    random: &mut Random,
) -> Result<(), Difference> {
    let request = request(line, room, random);
    let reply = checker.ask(&request)?;
    same(&told(line), reply.number, expected.err().unwrap_or(0))?;
    let mut answer = request.answer;
    if let Ok(setup) = expected {
        let numbers = numbers(setup).map(|number| u64::from(number).to_be_bytes());
        answer[..ANSWER].copy_from_slice(&numbers.concat());
    }
    if reply.answer != answer {
        return Err(Difference(format!("{}: other numbers, or not as it was", told(line))));
    }
    Ok(())
}

fn request<'a>(line: &'a [u8], room: usize, random: &mut Random) -> Request<'a> {
    with_room(random, Call::SetupRead, line, Room::for_answer(room))
}
