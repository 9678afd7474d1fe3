//! Setups that are written: values of every number of digits in every place, the ends, and room of every
//! kind in both slices. The line is known from the digits.

use super::typed::KEYS;
use super::values::{of_digits, padded, right, MOST_DIGITS};
use super::{numbers, LONGEST_LINE};
use crate::compare::{same, Checker, Difference};
use crate::law::cut::Setup;
use crate::random::Random;
use crate::request::Call;
use crate::rooms::{with_room, Room};

/// Bytes of the answer, and how long its slice is.
const ANSWER: usize = 8;
const ANSWER_ROOMS: [usize; 5] = [ANSWER, 9, 16, 7, 0];

/// How many setups of any kind a turn has.
const ANY: usize = 24;

/// Every number of digits in every place, beside any others; the ends; and every set of what 15 and 13
/// refuse.
pub fn check(checker: &mut Checker, random: &mut Random) -> Result<(), Difference> {
    for digits in 1..=MOST_DIGITS {
        for place in 0..KEYS.len() {
            let mut values = [0; 4].map(|_| right(random));
            values[place] = of_digits(digits, random);
            check_any_room(checker, of(values), random)?;
        }
        let values = [0; 4].map(|_| of_digits(digits, random));
        check_any_room(checker, of(values), random)?;
    }
    for end in [0, u32::MAX] {
        check_every_room(checker, of([end; 4]), random)?;
    }
    check_every_room(checker, any(random), random)?;
    for _ in 0..ANY {
        check_any_room(checker, any(random), random)?;
    }
    Ok(())
}

/// Any setup, with any room.
pub fn any_known(checker: &mut Checker, random: &mut Random) -> Result<(), Difference> {
    check_any_room(checker, any(random), random)
}

pub fn any(random: &mut Random) -> Setup {
    of([0; 4].map(|_| right(random)))
}

fn of([sp, np, fp, sn]: [u32; 4]) -> Setup {
    Setup { sp, np, fp, sn }
}

/// The line that is to be written, put together of its digits.
fn line_of(setup: Setup) -> Vec<u8> {
    let mut line = b"WFSU".to_vec();
    for (place, (key, value)) in KEYS.into_iter().zip(numbers(setup)).enumerate() {
        line.push(if place == 0 { b' ' } else { b',' });
        line.extend([key, b","].concat());
        line.extend(padded(value.into(), 1));
    }
    line
}

fn check_any_room(
    checker: &mut Checker,
    setup: Setup,
    random: &mut Random,
) -> Result<(), Difference> {
    let outs = out_rooms(line_of(setup).len());
    // Just enough comes most often.
    let out = if random.once_in(2) { outs[2] } else { random.pick(&outs) };
    let answer = if random.once_in(2) { ANSWER } else { random.pick(&ANSWER_ROOMS) };
    let room = Room::for_block(out, answer);
    check_known(checker, setup, room, random)
}

fn check_every_room(
    checker: &mut Checker,
    setup: Setup,
    random: &mut Random,
) -> Result<(), Difference> {
    for out in out_rooms(line_of(setup).len()) {
        for answer in ANSWER_ROOMS {
            check_known(checker, setup, Room::for_block(out, answer), random)?;
        }
    }
    Ok(())
}

/// None, one byte less than a line takes, just enough, one more, and others.
fn out_rooms(need: usize) -> [usize; 9] {
    [0, need - 1, need, need + 1, need / 2, 5, 24, LONGEST_LINE, 200]
}

/// What is written and answered, and what is left as it was.
fn check_known(
    checker: &mut Checker,
    setup: Setup,
    room: Room,
    random: &mut Random,
) -> Result<(), Difference> {
    let line = line_of(setup);
    let call = Call::SetupWrite { setup };
    let request = with_room(random, call, &[], room);
    let reply = checker.ask(&request)?;
    let expected = match () {
        () if room.out < line.len() => 15,
        () if room.answer < ANSWER => 13,
        () => 0,
    };
    same(&format!("{call}, {room:?}"), reply.number, expected)?;
    let (mut out, mut answer) = (request.out, request.answer);
    if expected == 0 {
        out[..line.len()].copy_from_slice(&line);
        answer[..ANSWER].copy_from_slice(&(line.len() as u64).to_be_bytes());
    }
    if (reply.out, reply.answer) != (out, answer) {
        return Err(Difference(format!("{call}, {room:?}: another line, or not as it was")));
    }
    checker.tally.known_setups += 1;
    Ok(())
}

#[cfg(test)]
mod tests {
    use super::*;

    #[test]
    fn lines_of_digits() {
        assert_eq!(line_of(of([4, 0, 10, 0])), b"WFSU SP,4,NP,0,FP,10,SN,0");
        assert_eq!(line_of(of([0; 4])).len(), 24);
        assert_eq!(line_of(of([u32::MAX; 4])).len(), LONGEST_LINE);
    }
}
