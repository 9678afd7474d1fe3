//! Chains, on the core's own answers: cuts in a row, each of what the one before it wrote, are one
//! cut of the first block. Its setup is what the core's own combined call makes of theirs, one
//! after the other or in any groups.

mod asked;
pub(crate) mod drawn;

use crate::compare::{reply_difference, Checker, Difference};
use crate::law::cut::Setup;
use crate::law::rules::Refusal;
use crate::pairs::kept_points;
use crate::questions::Extent;
use crate::random::Random;
use crate::request::{Call, Reply, Request};
use crate::rooms::{exact_request, roomy_request, with_room, Room};

pub use asked::any as any_combined;

/// How many cuts a chain has at most.
pub const MOST_CUTS: usize = 8;

/// One turn in so many asks for combined setups alone.
const ASKED_EVERY: u64 = 4;

/// The setup of no cut: it leaves out nothing.
const WHOLE: Setup = Setup { sp: 0, np: 0, fp: 0, sn: 0 };

/// 12 and 13, as replies give them.
const SPARSE: u64 = Refusal::Sparse as u64;
const ROOM: u64 = Refusal::Room as u64;

/// Accepted cuts in a row.
struct Chain {
    cuts: Vec<Made>,
    /// What the last one is a cut of, and what it wrote.
    before: Vec<u8>,
    written: Vec<u8>,
}

/// One of them, and the c that it answered.
struct Made {
    setup: Setup,
    order: u32,
    c: u32,
}

/// Runs a turn and answers what kind it was.
pub fn run(
    checker: &mut Checker,
    turn: u64,
    random: &mut Random,
) -> (String, Result<(), Difference>) {
    match turn % ASKED_EVERY {
        0 => ("combined setups".into(), asked::check(checker, random)),
        _ => ("chain of cuts".into(), any_chain(checker, random)),
    }
}

/// A chain of one cut to eight against the one cut, and its setup against that of other groups.
pub fn any_chain(checker: &mut Checker, random: &mut Random) -> Result<(), Difference> {
    let block = drawn::block(random);
    let cuts = random.pick(&[1, 2, 3, 4, 5, 6, 7, MOST_CUTS, MOST_CUTS]);
    let chain = Chain::of(checker, &block, cuts, random)?;
    let one = one_by_one(checker, &chain.cuts, random)?;
    check_one_cut(checker, &block, &chain, one, random)?;
    let grouped = grouped(checker, &chain.cuts, random)?;
    if grouped != one {
        return Err(chain.difference(one, &format!("in other groups {grouped}")));
    }
    checker.tally.chains += 1;
    checker.tally.longest_chains += u64::from(cuts == MOST_CUTS);
    Ok(())
}

/// What the core makes of cut a, then cut b, which answered c; none where it refuses them by 12.
pub fn combined(
    checker: &mut Checker,
    [a, b]: [Setup; 2],
    c: u32,
    random: &mut Random,
) -> Result<Option<Setup>, Difference> {
    let call = Call::Combined { a, b, count: c };
    let reply = checker.ask(&exact_request(random, call, &[]))?;
    match reply.number {
        0 => match [0, 1, 2, 3].map(|i| u32::try_from(reply.number_at(i))) {
            [Ok(sp), Ok(np), Ok(fp), Ok(sn)] => Ok(Some(Setup { sp, np, fp, sn })),
            _ => Err(Difference(format!("{call}: numbers of more than 32 bits"))),
        },
        SPARSE => Ok(None),
        number => Err(Difference(format!("{call}: refused by {number}"))),
    }
}

impl Chain {
    /// So many cuts of a block, each with room for any.
    fn of(
        checker: &mut Checker,
        block: &[u8],
        cuts: usize,
        random: &mut Random,
    ) -> Result<Chain, Difference> {
        let mut chain = Chain { cuts: vec![], before: vec![], written: block.to_vec() };
        let naming = drawn::naming(cuts, random);
        for place in 0..cuts {
            let extent = Extent::of(&chain.written);
            let sn = drawn::sn(&extent, place, naming, random);
            let setup = drawn::setup(&extent, sn, random);
            chain.add(checker, setup, random)?;
        }
        Ok(chain)
    }

    /// Cuts what the last cut wrote, in either order.
    fn add(
        &mut self,
        checker: &mut Checker,
        setup: Setup,
        random: &mut Random,
    ) -> Result<(), Difference> {
        let order = random.below(2) as u32;
        let cut = Call::Cut { setup, order };
        let reply = checker.ask(&roomy_request(random, cut, &self.written))?;
        if reply.number != 0 {
            return Err(Difference(format!("{cut}: refused by {}", reply.number)));
        }
        self.cuts.push(Made { setup, order, c: reply.number_at(0) as u32 });
        self.before = std::mem::replace(&mut self.written, reply.written().to_vec());
        Ok(())
    }

    fn last(&self) -> &Made {
        self.cuts.last().expect("a chain has a cut")
    }

    fn difference(&self, one: Setup, what: &str) -> Difference {
        let mut text = "cuts in a row are not the one cut".to_string();
        for Made { setup, c, .. } in &self.cuts {
            text += &format!("\n    {setup}, c {c}");
        }
        Difference(format!("{text}\n    at once {one}\n    {what}"))
    }
}

/// The setup of accepted cuts: that of no cut, combined with each of them in turn.
fn one_by_one(
    checker: &mut Checker,
    cuts: &[Made],
    random: &mut Random,
) -> Result<Setup, Difference> {
    let next = |one: Setup, cut: &Made| accepted(checker, [one, cut.setup], cut.c, random);
    cuts.iter().try_fold(WHOLE, next)
}

/// The same by any groups: two that follow each other are combined by the c of the last cut.
fn grouped(checker: &mut Checker, cuts: &[Made], random: &mut Random) -> Result<Setup, Difference> {
    if let [cut] = cuts {
        return accepted(checker, [WHOLE, cut.setup], cut.c, random);
    }
    let (left, right) = cuts.split_at(1 + random.below(cuts.len() - 1));
    let groups = [grouped(checker, left, random)?, grouped(checker, right, random)?];
    accepted(checker, groups, right[right.len() - 1].c, random)
}

/// The combined setup of accepted cuts, which is never refused.
fn accepted(
    checker: &mut Checker,
    cuts: [Setup; 2],
    c: u32,
    random: &mut Random,
) -> Result<Setup, Difference> {
    let [a, b] = cuts;
    let refused = || Difference(format!("accepted cuts are not combined\n    {a}\n    {b}, c {c}"));
    combined(checker, cuts, c, random)?.ok_or_else(refused)
}

/// The one cut of the first block against the last of the chain, with the room that this one takes
/// and with one byte less; and its points against those of the first block.
fn check_one_cut(
    checker: &mut Checker,
    block: &[u8],
    chain: &Chain,
    one: Setup,
    random: &mut Random,
) -> Result<(), Difference> {
    let Made { setup, order, .. } = *chain.last();
    let (last, at_once) = (Call::Cut { setup, order }, Call::Cut { setup: one, order });
    let need = chain.written.len();
    let less = [Room::for_block(need.saturating_sub(1), 16), Room::for_block(need, 15)];
    for (room, number) in [(Room::for_block(need, 16), 0), (random.pick(&less), ROOM)] {
        let of_last = with_room(random, last, &chain.before, room);
        let last_reply = checker.ask(&of_last)?;
        let reply = checker.ask(&Request { call: at_once, block, ..of_last })?;
        if reply.number != number {
            let what = format!("expected {number}, came {}", reply.number);
            return Err(chain.difference(one, &what));
        }
        same(chain, one, &last_reply, &reply)?;
        if number == 0 {
            kept_points(checker, block, at_once, &reply, random)?;
        }
    }
    Ok(())
}

fn same(chain: &Chain, one: Setup, last: &Reply, at_once: &Reply) -> Result<(), Difference> {
    match reply_difference(last, at_once) {
        None => Ok(()),
        Some(what) => Err(chain.difference(one, &what)),
    }
}

#[cfg(test)]
mod tests {
    use super::*;
    use crate::calls::LAW;

    /// Chains of eight cuts, and the one setup of each.
    fn chains_of_eight(count: u64) -> Vec<(Chain, Setup)> {
        let mut core = LAW;
        let checker = &mut Checker::new(&mut core, LAW);
        let mut chain = |case: u64| {
            let random = &mut Random::new(15, case);
            let block = drawn::block(random);
            let chain = Chain::of(checker, &block, MOST_CUTS, random)?;
            let one = one_by_one(checker, &chain.cuts, random)?;
            Ok((chain, one))
        };
        let right = |Difference(text)| panic!("{text}");
        (0..count).map(|case| chain(case).unwrap_or_else(right)).collect()
    }

    #[test]
    fn chains_have_every_kind_of_cut_at_every_place() {
        let chains = chains_of_eight(1000);
        for place in 0..MOST_CUTS {
            let some = |has: fn(&Setup) -> bool| {
                chains.iter().any(|(chain, _)| has(&chain.cuts[place].setup))
            };
            assert!(some(|cut| cut.sp == 0) && some(|cut| cut.sp == 1) && some(|cut| cut.sp > 1));
            assert!(some(|cut| cut.np == 0) && some(|cut| cut.np > 1) && some(|cut| cut.fp > 1));
            let named = |chain: &Chain| chain.cuts.iter().position(|cut| cut.setup.sn > 1);
            assert!(chains.iter().any(|(chain, _)| named(chain) == Some(place)), "SN at {place}");
        }
        assert!(chains.iter().any(|(_, one)| one.sp == 268_435_455));
        let long = |(chain, one): &&(Chain, Setup)| chain.last().c >= 10 && one.sp >= 10;
        assert!(chains.iter().filter(long).count() >= 300);
    }
}
