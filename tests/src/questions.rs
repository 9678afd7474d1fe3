//! What is asked of a block: calls with numbers at and beyond their limits.

use crate::crossings::levels;
use crate::law::cut::Setup;
use crate::law::rules::{open, LAST_PLACE};
use crate::random::Random;
use crate::request::Call;
use crate::strips::columns;

/// The limits of a block's questions.
pub struct Extent {
    pub segments: u32,
    pub points: u32,
    pub arrays: u32,
    pub sparsing: u32,
}

impl Extent {
    /// Those of an accepted block; small ones for a refused block, where all questions are alike.
    pub fn of(block: &[u8]) -> Extent {
        match open(block) {
            Ok(opened) => Extent {
                segments: opened.segments as u32,
                points: opened.points as u32,
                arrays: opened.arrays.len() as u32,
                sparsing: opened.sparsing as u32,
            },
            Err(_) => Extent { segments: 2, points: 4, arrays: 1, sparsing: 1 },
        }
    }

    pub fn point(&self, random: &mut Random) -> Call {
        Call::Point {
            array: self.array(random),
            segment: self.segment(random),
            point: self.index(random),
        }
    }

    pub fn fill(&self, random: &mut Random) -> Call {
        Call::Fill { array: self.array(random), segment: self.segment(random) }
    }

    /// A level about a value of the segment asked for, or any other.
    pub fn crossing(&self, block: &[u8], random: &mut Random) -> Call {
        let (array, segment) = (self.array(random), self.segment(random));
        Call::Crossing { array, segment, level: levels::of_block(block, array, segment, random) }
    }

    pub fn strip(&self, random: &mut Random) -> Call {
        let (array, segment) = (self.array(random), self.segment(random));
        let columns = match random.below(10) {
            0 => self.bad_columns(random),
            _ => columns::right(self.points, random),
        };
        Call::Strip { array, segment, columns }
    }

    pub fn cut(&self, random: &mut Random) -> Call {
        let order = match random.below(12) {
            0 => random.pick(&[2, 3, 256, 65_536, 1 << 31, u32::MAX]),
            _ => random.below(2) as u32,
        };
        let sp = match random.below(12) {
            0 => self.sparse_limit() + 1,
            1 => self.wrapping_sp(random),
            _ => self.right_sp(random),
        };
        let fp = self.index(random);
        let sn = match random.below(12) {
            0 => self.beyond(random, self.segments),
            _ => self.right_sn(random),
        };
        Call::Cut { setup: Setup { sp, np: self.np(random, sp, fp), fp, sn }, order }
    }

    /// A cut that only a lack of room can refuse.
    pub fn right_cut(&self, random: &mut Random) -> Call {
        let sp = self.right_sp(random);
        let half = self.points / 2;
        let near = random.range(0, i64::from(half)) as u32;
        let fp = random.pick(&[0, 0, near, near, self.points - 1]);
        let np = self.np(random, sp, fp);
        let setup = Setup { sp, np, fp, sn: self.right_sn(random) };
        Call::Cut { setup, order: random.below(2) as u32 }
    }

    fn floats(&self, random: &mut Random) -> Call {
        Call::Floats { array: self.array(random), segment: self.segment(random) }
    }

    fn walked_floats(&self, random: &mut Random) -> Call {
        Call::WalkedFloats { array: self.array(random), segment: self.segment(random) }
    }

    fn walk(&self, random: &mut Random) -> Call {
        Call::Walk { array: self.array(random), segment: self.segment(random) }
    }

    /// A step of a walk, often behind its end.
    fn step(&self, random: &mut Random) -> Call {
        let (array, segment) = (self.array(random), self.segment(random));
        let behind = self.beyond(random, self.points - 1);
        let any = self.index(random);
        Call::Step { array, segment, k: random.pick(&[any, any, behind]) }
    }

    /// Each C call of a block once.
    pub fn c_calls(&self, block: &[u8], random: &mut Random) -> Vec<Call> {
        let mut calls = vec![Call::Open, self.point(random), self.fill(random), self.cut(random)];
        calls.push(self.crossing(block, random));
        calls.push(self.strip(random));
        calls.extend(place_calls(random));
        calls.push(Call::Narrow);
        calls
    }

    /// Each test call once.
    pub fn test_calls(&self, random: &mut Random) -> Vec<Call> {
        let (floats, walked_floats) = (self.floats(random), self.walked_floats(random));
        let (walk, step) = (self.walk(random), self.step(random));
        let label = Call::Label { fallback: fallback(random) };
        vec![floats, walked_floats, walk, step, Call::UserText, label]
    }

    fn array(&self, random: &mut Random) -> u32 {
        match random.below(10) {
            0 => random.pick(&[0, 2, 2, 3, 257, 65_537, 1 << 31 | 1, u32::MAX]),
            _ => 1 + random.below(self.arrays as usize) as u32,
        }
    }

    fn segment(&self, random: &mut Random) -> u32 {
        let any = 1 + random.below(self.segments as usize) as u32;
        match random.below(10) {
            0 if random.once_in(2) => 0,
            0 => self.beyond(random, self.segments),
            1 => 1,
            2 => self.segments,
            _ => any,
        }
    }

    /// An array and a segment that are there.
    pub fn right_segment(&self, random: &mut Random) -> (u32, u32) {
        let [array, segment] =
            [self.arrays, self.segments].map(|count| 1 + random.below(count as usize) as u32);
        (array, segment)
    }

    /// An array that is not there.
    pub fn bad_array(&self, random: &mut Random) -> u32 {
        let next = self.arrays + 1;
        random.pick(&[0, next, next, 3, 257, 65_537, 1 << 31 | 1, u32::MAX])
    }

    /// A segment that is not there.
    pub fn bad_segment(&self, random: &mut Random) -> u32 {
        let beyond = self.beyond(random, self.segments);
        random.pick(&[0, beyond, beyond])
    }

    /// Columns that a segment is not parted into: none, or more than its points.
    pub fn bad_columns(&self, random: &mut Random) -> u32 {
        let beyond = self.beyond(random, self.points);
        random.pick(&[0, 0, beyond, beyond, beyond, 1 << 31])
    }

    /// A point number or FP.
    fn index(&self, random: &mut Random) -> u32 {
        let any = random.below(self.points as usize) as u32;
        match random.below(10) {
            0 => self.beyond(random, self.points - 1),
            1 | 2 => 0,
            3 | 4 => self.points - 1,
            _ => any,
        }
    }

    /// A number above the last that is allowed: the next one, or one that a narrower or a signed
    /// number would take for an allowed one.
    fn beyond(&self, random: &mut Random, last: u32) -> u32 {
        let next = last + 1;
        random.pick(&[next, next, next + 1, 1 << 16 | last, 1 << 31 | last, u32::MAX]).max(next)
    }

    fn right_sp(&self, random: &mut Random) -> u32 {
        let limit = self.sparse_limit();
        let few = 2 + random.below(4) as u32;
        let any = 1 + random.below(self.points as usize + 1) as u32;
        random.pick(&[0, 1, 1, 2, few, few, any, any, self.points, limit]).min(limit)
    }

    /// The highest SP that 12 lets pass.
    pub fn sparse_limit(&self) -> u32 {
        LAST_PLACE as u32 / self.sparsing
    }

    /// An SP whose product with S passes 12 when it is kept in 32 bits.
    fn wrapping_sp(&self, random: &mut Random) -> u32 {
        let wrapping = (1u64 << 32).div_ceil(u64::from(self.sparsing));
        let wrapping = u32::try_from(wrapping).unwrap_or(u32::MAX);
        random.pick(&[wrapping, 1 << 28, 1 << 31, u32::MAX])
    }

    fn np(&self, random: &mut Random, sp: u32, fp: u32) -> u32 {
        let c = self.points.saturating_sub(fp).div_ceil(sp.max(1)).max(1);
        let few = 1 + random.below(c as usize) as u32;
        random.pick(&[0, 0, 0, 1, few, few, c - 1, c, c + 1, 1 << 16, 1 << 31, u32::MAX])
    }

    fn right_sn(&self, random: &mut Random) -> u32 {
        let any = 1 + random.below(self.segments as usize) as u32;
        random.pick(&[0, 0, 0, 1, any, any, self.segments])
    }
}

/// Each C call that answers where things stand.
pub fn place_calls(random: &mut Random) -> [Call; 3] {
    [Call::Layout, Call::TextPlace, Call::LabelPlace { fallback: fallback(random) }]
}

/// How long a fallback is: often as TRACE_LABEL or nearly so, sometimes beyond what a byte counts.
fn fallback(random: &mut Random) -> usize {
    let any = random.below(40);
    random.pick(&[0, 1, 15, 16, 17, 300, any])
}
