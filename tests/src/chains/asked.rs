//! What is asked of combined setups: SPs and FPs at both limits, just inside and just outside, and
//! numbers of any size. Alone, an edge makes the call answer its number.

use crate::compare::{Checker, Difference};
use crate::law::cut::Setup;
use crate::law::rules::LAST_PLACE;
use crate::random::Random;
use crate::request::Call;
use crate::rooms::{with_room, Room};

/// Bytes of the answer, and how long its slice is.
const ANSWER: usize = 32;
const ROOMS: [usize; 8] = [ANSWER, ANSWER, ANSWER, ANSWER, 31, 33, 40, 0];

/// How many other calls stand beside the edges.
const ANY: usize = 8;

/// The highest SP, and its prime factors.
const HIGHEST_SP: u32 = LAST_PLACE as u32;
const SP_FACTORS: &[u32] = &[3, 5, 29, 43, 113, 127];

/// The prime factors of the highest FP, 4,294,967,295.
const FP_FACTORS: &[u32] = &[3, 5, 17, 257, 65_537];

/// The setup that no cut takes.
const HIGHEST: Setup = Setup { sp: u32::MAX, np: u32::MAX, fp: u32::MAX, sn: u32::MAX };

/// The SPs and FPs of two cuts, a before b.
struct Steps {
    sp: [u32; 2],
    fp: [u32; 2],
}

struct Edge {
    /// What the call answers where there is room; 0 where the edge is just inside.
    number: u32,
    name: &'static str,
    draw: fn(&mut Random) -> Steps,
}

static EDGES: &[Edge] = &[
    // SP
    edge(0, "small numbers", |r| by_sp(r, |r| [small(r), small(r)])),
    edge(0, "both SPs 0", |r| by_sp(r, |_| [0, 0])),
    edge(0, "SP 268,435,455 by factors", |r| by_sp(r, |r| factors(r, SP_FACTORS, HIGHEST_SP))),
    edge(0, "SP 268,435,455 beside 0 or 1", |r| by_sp(r, |r| [HIGHEST_SP, one(r)])),
    edge(12, "SP 268,435,456 beside 0 or 1", |r| by_sp(r, |r| [HIGHEST_SP + 1, one(r)])),
    edge(12, "SP 268,435,456 by factors", |r| by_sp(r, |r| powers(r, 28))),
    edge(0, "SP as near below its limit as a factor lets it", |r| {
        by_sp(r, |r| beside(r, |step| HIGHEST_SP / step))
    }),
    edge(12, "SP as near above its limit as a factor lets it", |r| {
        by_sp(r, |r| beside(r, |step| HIGHEST_SP / step + 1))
    }),
    edge(12, "SP that fits 32 bits", |r| by_sp(r, |r| beside(r, |step| u32::MAX / step))),
    edge(12, "SP whose low 32 bits are few", |r| {
        by_sp(r, |r| beside(r, |step| u32::MAX / step + 1))
    }),
    edge(12, "SP whose low 32 bits are 0", |r| by_sp(r, |r| powers(r, 32))),
    edge(12, "SP highest beside 0 or 1", |r| by_sp(r, |r| [u32::MAX, one(r)])),
    edge(12, "SP highest by highest", |_| Steps { sp: [u32::MAX; 2], fp: [0, 0] }),
    // FP
    edge(0, "FP 4,294,967,295", |r| by_fp(r, |step, fpb| [u32::MAX - step * fpb, fpb])),
    edge(12, "FP 4,294,967,296", |r| by_fp(r, |step, fpb| [u32::MAX - step * fpb + 1, fpb])),
    edge(0, "FP 4,294,967,295 by factors", |r| {
        by_product(r, 0, |r| factors(r, FP_FACTORS, u32::MAX))
    }),
    edge(12, "FP 4,294,967,296 by factors and 1", |r| {
        by_product(r, 1, |r| factors(r, FP_FACTORS, u32::MAX))
    }),
    edge(12, "FP 4,294,967,296 by factors", |r| by_product(r, 0, |r| powers(r, 32))),
    edge(0, "FP 4,294,967,295 behind an SPa of 0 or 1", |r| {
        let fpa = any_size(r);
        Steps { sp: [one(r), small(r)], fp: [fpa, u32::MAX - fpa] }
    }),
    edge(12, "FP 4,294,967,296 behind an SPa of 0 or 1", |r| {
        let fpa = any_size(r).max(1);
        Steps { sp: [one(r), small(r)], fp: [fpa, u32::MAX - fpa + 1] }
    }),
    edge(0, "FPa highest, whatever SP is", |r| Steps {
        sp: beside(r, |step| HIGHEST_SP / step),
        fp: [u32::MAX, 0],
    }),
    edge(12, "FPs highest", |r| Steps { sp: [small(r), small(r)], fp: [u32::MAX; 2] }),
    edge(0, "FPb that SPb would bring above", |r| apart(r, |steps| steps)),
    edge(12, "FPb that SPb would leave below", |r| apart(r, |[spa, spb]| [spb, spa])),
    // Both
    edge(12, "SP one above and FP above", |r| Steps {
        sp: powers(r, 28),
        fp: [u32::MAX, 1 + small(r)],
    }),
    edge(12, "SP highest, FPs highest", |r| Steps {
        sp: factors(r, SP_FACTORS, HIGHEST_SP),
        fp: [u32::MAX; 2],
    }),
];

/// Every edge, which gives its number or 13; all numbers at their highest; and some of any kind.
pub fn check(checker: &mut Checker, random: &mut Random) -> Result<(), Difference> {
    for Edge { number, name, draw } in EDGES {
        let (steps, room) = (draw(random), random.pick(&ROOMS));
        let call = call(random, steps);
        let came = ask(checker, call, room, random)?;
        let expected = if *number == 0 && room < ANSWER { 13 } else { *number };
        if came != u64::from(expected) {
            return Err(Difference(format!("{name}: {came}, not {expected}\n    {call}")));
        }
    }
    let mut calls = vec![Call::Combined { a: HIGHEST, b: HIGHEST, count: u32::MAX }];
    calls.extend((0..ANY).map(|_| any(random)));
    for call in calls {
        let room = random.pick(&ROOMS);
        ask(checker, call, room, random)?;
    }
    Ok(())
}

/// The number that comes with so much room.
fn ask(
    checker: &mut Checker,
    call: Call,
    room: usize,
    random: &mut Random,
) -> Result<u64, Difference> {
    let reply = checker.ask(&with_room(random, call, &[], Room::for_answer(room)))?;
    Ok(reply.number)
}

/// An edge, numbers of 32 bits, or numbers of any size.
pub fn any(random: &mut Random) -> Call {
    let steps = match random.below(8) {
        0..=3 => (EDGES[random.below(EDGES.len())].draw)(random),
        4 => drawn(random, |random| random.draw() as u32),
        _ => drawn(random, any_size),
    };
    call(random, steps)
}

fn drawn(random: &mut Random, number: fn(&mut Random) -> u32) -> Steps {
    let (sp, fp) = ([number(random), number(random)], [number(random), number(random)]);
    Steps { sp, fp }
}

const fn edge(number: u32, name: &'static str, draw: fn(&mut Random) -> Steps) -> Edge {
    Edge { number, name, draw }
}

/// The call for two cuts; NPs, SNs and c are any.
fn call(random: &mut Random, Steps { sp, fp }: Steps) -> Call {
    let [a, b] =
        [0, 1].map(|i| Setup { sp: sp[i], np: other(random), fp: fp[i], sn: other(random) });
    Call::Combined { a, b, count: other(random) }
}

fn other(random: &mut Random) -> u32 {
    let any = any_size(random);
    random.pick(&[0, 0, 1, any, any, any, u32::MAX])
}

/// Any number of any number of bits, from 0 to 32.
fn any_size(random: &mut Random) -> u32 {
    ((random.draw() >> 32) >> random.below(33)) as u32
}

fn small(random: &mut Random) -> u32 {
    random.below(10) as u32
}

/// An SP of 0, or of 1.
fn one(random: &mut Random) -> u32 {
    random.below(2) as u32
}

/// SPs in either order, with FPs that no SP brings above their limit.
fn by_sp(random: &mut Random, draw: fn(&mut Random) -> [u32; 2]) -> Steps {
    let mut sp = draw(random);
    random.shuffle(&mut sp);
    Steps { sp, fp: [small(random), small(random)] }
}

/// FPs for any SPa and any FPb, whose product is not 0 and fits 32 bits.
fn by_fp(random: &mut Random, draw: fn(u32, u32) -> [u32; 2]) -> Steps {
    let step = any_size(random).clamp(1, HIGHEST_SP);
    let fpb = 1 + any_size(random) % (u32::MAX / step);
    let spb = random.pick(&[0, 1, HIGHEST_SP / step]);
    Steps { sp: [step, spb], fp: draw(step, fpb) }
}

/// FPa, and two factors of which SPa and FPb are made; SPa is one that a cut takes.
fn by_product(random: &mut Random, fpa: u32, draw: fn(&mut Random) -> [u32; 2]) -> Steps {
    let [step, fpb] = draw(random);
    let (step, fpb) = if step > HIGHEST_SP { (fpb, step) } else { (step, fpb) };
    Steps { sp: [step, one(random)], fp: [fpa, fpb] }
}

/// A small step, one that is far greater, and an FPb that takes the small one alone.
fn apart(random: &mut Random, sp: fn([u32; 2]) -> [u32; 2]) -> Steps {
    let (low, high) = (random.range(0, 7) as u32, random.range(1 << 7, 1 << 25) as u32);
    Steps { sp: sp([low, high]), fp: [small(random), random.range(1 << 26, 1 << 28) as u32] }
}

/// Two factors of a number, by its prime factors.
fn factors(random: &mut Random, primes: &[u32], product: u32) -> [u32; 2] {
    let some = primes.iter().filter(|_| random.once_in(2)).product();
    [some, product / some]
}

/// Two powers of two whose product is 2 to that power.
fn powers(random: &mut Random, power: i64) -> [u32; 2] {
    let least = (power - 31).max(0);
    let first = random.range(least, power - least);
    [1 << first, 1 << (power - first)]
}

/// A step, and another found from it.
fn beside(random: &mut Random, other: fn(u32) -> u32) -> [u32; 2] {
    let step = any_size(random).clamp(2, HIGHEST_SP);
    [step, other(step)]
}

#[cfg(test)]
mod tests {
    use super::*;
    use crate::calls::LAW;
    use crate::rooms::exact_request;

    /// The expected numbers here are the table's own, not the implementation's.
    #[test]
    fn each_edge_gives_its_number() {
        for Edge { number, name, draw } in EDGES {
            for case in 0..2000 {
                let random = &mut Random::new(14, case);
                let steps = draw(random);
                let call = call(random, steps);
                let reply = LAW.reply(&exact_request(random, call, &[]));
                assert_eq!(reply.number, u64::from(*number), "{name}: {call}");
            }
        }
    }
}
