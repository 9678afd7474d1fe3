//! The combined setup of two cuts: the four numbers of the one cut that stands for both. The call
//! of the C host, which takes no block.

use super::calls::{number, room, write};
use super::cut::Setup;
use super::rules::{refuse, Refusal, LAST_PLACE};

/// The highest SP that any cut takes, and the highest FP that a setup holds.
const HIGHEST_SP: u64 = LAST_PLACE as u64;
const HIGHEST_FP: u64 = u32::MAX as u64;

/// Answers SP, NP, FP and SN of the one cut that stands for cut a, and then cut b of what a wrote;
/// `count` is the c that b answered.
#[allow(clippy::too_many_arguments)] // the C call's own parameters
pub fn combined(
    spa: u32,
    npa: u32,
    fpa: u32,
    sna: u32,
    spb: u32,
    npb: u32,
    fpb: u32,
    snb: u32,
    count: u32,
    answer: &mut [u8],
) -> u32 {
    let a = Setup { sp: spa, np: npa, fp: fpa, sn: sna };
    let b = Setup { sp: spb, np: npb, fp: fpb, sn: snb };
    number(try_combined(&a, &b, count, answer))
}

fn try_combined(a: &Setup, b: &Setup, count: u32, answer: &mut [u8]) -> Result<(), Refusal> {
    // 64 bits hold each product and the sum: none is above (2^32 - 1) 2^32.
    let (step_a, step_b) = (a.step() as u64, b.step() as u64);
    let sp = step_a * step_b;
    let np = u64::from(count);
    let fp = u64::from(a.fp) + step_a * u64::from(b.fp);
    let sn = u64::from(if a.sn != 0 { a.sn } else { b.sn });
    refuse(sp > HIGHEST_SP, Refusal::Sparse)?;
    refuse(fp > HIGHEST_FP, Refusal::Sparse)?;
    room(answer, 4)?;
    write(answer, &[sp, np, fp, sn]);
    Ok(())
}
