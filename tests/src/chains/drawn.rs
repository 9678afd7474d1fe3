//! What chains are made of: right blocks of many points, and cuts that a lack of room alone can
//! refuse. Most of them leave points for more.

use crate::law::cut::Setup;
use crate::questions::Extent;
use crate::random::Random;
use crate::request::Call;
use crate::shape::Shape;
use std::cmp::Ordering;

/// The points of an array, at most.
const MOST_POINTS: i64 = 2400;

/// One cut in so many is any: it may leave a point alone, or bring SP to its limit.
const ANY_EVERY: usize = 24;

/// A right block of one to eight segments.
pub fn block(random: &mut Random) -> Vec<u8> {
    let mut shape = Shape::any(random);
    shape.subarrays = shape.subarrays.min(8);
    let most = MOST_POINTS / shape.segments();
    shape.points = random.range(most / 2, most);
    shape.draft(random).bytes()
}

/// Which of so many cuts is the first with an SN; none is where that is beyond the last.
pub fn naming(cuts: usize, random: &mut Random) -> usize {
    random.below(cuts + 2)
}

/// SN of a cut: any segment for the first that names one, and what is left of them behind it.
pub fn sn(extent: &Extent, place: usize, naming: usize, random: &mut Random) -> u32 {
    match place.cmp(&naming) {
        Ordering::Less => 0,
        Ordering::Equal => 1 + random.below(extent.segments as usize) as u32,
        Ordering::Greater => random.below(2) as u32,
    }
}

/// A cut with that SN: most take small steps from near the start.
pub fn setup(extent: &Extent, sn: u32, random: &mut Random) -> Setup {
    if random.once_in(ANY_EVERY) {
        let cut = extent.right_cut(random);
        let Call::Cut { setup, .. } = cut else { unreachable!("the call is a cut") };
        return Setup { sn, ..setup };
    }
    let few = 2 + random.below(4) as u32;
    let sp = random.pick(&[0, 0, 1, 1, 1, 2, 2, 3, few]).min(extent.sparse_limit());
    let near = random.below(extent.points as usize / 16 + 1) as u32;
    let fp = random.pick(&[0, 0, 1, 2, 3, near]).min(extent.points - 1);
    let c = (extent.points - fp).div_ceil(sp.max(1));
    let most = c - random.below(c as usize / 8 + 1) as u32;
    let np = random.pick(&[0, 0, 0, most, most, c - 1, c, c + 1, u32::MAX]);
    Setup { sp, np, fp, sn }
}
