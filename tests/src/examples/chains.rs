//! Combined setups worked out by hand, and ten cuts in a row.

use super::{draft, numbers, setup};
use crate::chains::drawn;
use crate::law::calls;
use crate::law::combined::combined;
use crate::law::cut::{kept_points, Setup, CUT_MORE};
use crate::law::numbers::Order;
use crate::law::rules::open;
use crate::questions::Extent;
use crate::random::Random;

/// How many cuts a long chain has, and how many such chains are tried.
const CUTS: usize = 10;
const ROUNDS: u64 = 500;

/// The number that comes with so much room, and what the answer's slice holds then.
fn asked(a: Setup, b: Setup, count: u32, room: usize) -> (u32, Vec<u8>) {
    let mut answer = vec![7; room];
    let Setup { sp, np, fp, sn } = b;
    let number = combined(a.sp, a.np, a.fp, a.sn, sp, np, fp, sn, count, &mut answer);
    (number, answer)
}

/// The setup of the one cut, or the refusal.
fn one_of(a: Setup, b: Setup, count: u32) -> Result<Setup, u32> {
    let (number, answer) = asked(a, b, count, 32);
    if number != 0 {
        assert_eq!(answer, [7; 32]);
        return Err(number);
    }
    let four: Vec<u32> = numbers(&answer).iter().map(|n| u32::try_from(*n).unwrap()).collect();
    Ok(setup(four[0], four[1], four[2], four[3]))
}

/// What a cut writes that nothing refuses, and its c.
fn cut(block: &[u8], Setup { sp, np, fp, sn }: Setup, order: u32) -> (Vec<u8>, u32) {
    let (mut out, mut answer) = (vec![0; block.len() + CUT_MORE], [0; 16]);
    assert_eq!(calls::cut(block, sp, np, fp, sn, order, &mut out, &mut answer), 0);
    let numbers = numbers(&answer);
    out.truncate(numbers[1] as usize);
    (out, numbers[0] as u32)
}

#[test]
fn the_documents_two_cuts() {
    let block = draft(Order::HiFirst, &[10, 11, 12, 13, 14, 15, 16, 17, 18, 19], 1).bytes();
    let (a, b) = (setup(3, 0, 1, 0), setup(2, 0, 1, 0));
    let (first, c) = cut(&block, a, 0);
    assert_eq!((&first[357..], c), (&[11, 14, 17][..], 3));
    let (second, c) = cut(&first, b, 1);
    assert_eq!((&second[357..], c), (&[14][..], 1));
    let one = one_of(a, b, c).unwrap();
    assert_eq!(one, setup(6, 1, 4, 0));
    assert_eq!(cut(&block, one, 1), (second, c));
}

#[test]
fn the_headers_two_cuts() {
    assert_eq!(one_of(setup(2, 0, 10, 0), setup(6, 0, 15, 0), 5), Ok(setup(12, 5, 40, 0)));
}

#[test]
fn each_number_comes_from_where_the_document_says() {
    assert_eq!(one_of(setup(3, 50, 7, 2), setup(5, 9, 11, 1), 8), Ok(setup(15, 8, 40, 2)));
    assert_eq!(one_of(setup(3, 50, 7, 0), setup(5, 9, 11, 4), 8), Ok(setup(15, 8, 40, 4)));
    // An SP of 0 counts as 1 in both of its places.
    assert_eq!(one_of(setup(0, 0, 7, 0), setup(5, 0, 11, 0), 8), Ok(setup(5, 8, 18, 0)));
    assert_eq!(one_of(setup(3, 0, 7, 0), setup(0, 0, 11, 0), 8), Ok(setup(3, 8, 40, 0)));
    assert_eq!(one_of(setup(0, 0, 0, 0), setup(0, 0, 0, 0), 0), Ok(setup(1, 0, 0, 0)));
    // NP and SN are not judged.
    let high = u32::MAX;
    assert_eq!(
        one_of(setup(1, high, 0, high), setup(1, 0, 0, 3), high),
        Ok(setup(1, high, 0, high))
    );
}

#[test]
fn twelve_where_sp_or_fp_is_too_high() {
    let sp = |spa: u32, spb: u32| one_of(setup(spa, 0, 0, 0), setup(spb, 0, 0, 0), 1);
    assert_eq!(sp(16_383, 16_385), Ok(setup(268_435_455, 1, 0, 0)));
    assert_eq!(sp(16_384, 16_384), Err(12));
    for zero_or_one in [0, 1] {
        assert_eq!(sp(268_435_455, zero_or_one), Ok(setup(268_435_455, 1, 0, 0)));
        assert_eq!(sp(zero_or_one, 268_435_456), Err(12));
    }
    assert_eq!(sp(65_536, 65_536), Err(12)); // 0 in 32 bits
    assert_eq!(sp(u32::MAX, u32::MAX), Err(12)); // below 0 as a signed number of 64 bits
    let fp = |spa: u32, fpa: u32, fpb: u32| one_of(setup(spa, 0, fpa, 0), setup(7, 0, fpb, 0), 1);
    assert_eq!(fp(3, 0, 1_431_655_765), Ok(setup(21, 1, u32::MAX, 0)));
    assert_eq!(fp(3, 1, 1_431_655_765), Err(12));
    assert_eq!(fp(65_536, 0, 65_536), Err(12));
    assert_eq!(fp(0, 5, u32::MAX - 5), Ok(setup(7, 1, u32::MAX, 0)));
    assert_eq!(fp(0, 6, u32::MAX - 5), Err(12));
    assert_eq!(fp(1, u32::MAX, 0), Ok(setup(7, 1, u32::MAX, 0)));
    assert_eq!(fp(38_347_922, u32::MAX, u32::MAX), Err(12)); // SP is 268,435,454
}

#[test]
fn thirteen_comes_behind_twelve() {
    let (right, high) = (setup(2, 0, 3, 4), setup(1 << 28, 0, 0, 0));
    for room in [0, 8, 31] {
        assert_eq!(asked(right, right, 5, room), (13, vec![7; room]));
        assert_eq!(asked(high, right, 5, room), (12, vec![7; room]));
    }
    let (number, answer) = asked(right, right, 5, 40);
    assert_eq!((number, numbers(&answer[..32])), (0, vec![4, 5, 9, 4]));
    assert_eq!(answer[32..], [7; 8]);
}

/// However many times a block was cut: here ten times, in both orders.
#[test]
fn ten_cuts_are_one() {
    for round in 0..ROUNDS {
        let random = &mut Random::new(16, round);
        let block = drawn::block(random);
        let naming = drawn::naming(CUTS, random);
        let mut one = setup(0, 0, 0, 0);
        let (mut last, mut last_c, mut order) = (block.clone(), 0, 0);
        let mut kept: Vec<i64> = (0..i64::from(Extent::of(&block).points)).collect();
        for place in 0..CUTS {
            let extent = Extent::of(&last);
            let sn = drawn::sn(&extent, place, naming, random);
            let next = drawn::setup(&extent, sn, random);
            order = random.below(2) as u32;
            (last, last_c) = cut(&last, next, order);
            one = one_of(one, next, last_c).unwrap();
            let most = if next.np == 0 { kept.len() } else { next.np as usize };
            let (step, first) = (next.step() as usize, next.fp as usize);
            kept = kept.into_iter().skip(first).step_by(step).take(most).collect();
        }
        assert!(cut(&block, one, order) == (last, last_c), "round {round}: {one}");
        assert_eq!(kept_points(&open(&block).unwrap(), &one), kept, "round {round}: {one}");
    }
}
