//! Sets of parts for a join. Right ones are made by parting a block of n segments, so that what they
//! join to is known.

use crate::draft::Draft;
use crate::law::descriptor::*;
use crate::law::rules::open;
use crate::random::Random;
use crate::shape::{Shape, Table};

/// What decides a set of right parts.
pub struct Plan {
    /// The shape of the block that they join to: its segments are n.
    pub shape: Shape,
    /// SUBARRAY_COUNT of each part: 0 or 1.
    pub subarrays: i64,
}

/// Parts in the making.
#[derive(Clone)]
pub struct Parts {
    /// In the order in which they come.
    pub drafts: Vec<Draft>,
    /// What stands behind the last.
    pub tail: Vec<u8>,
    /// Where the slice is to end early.
    pub kept: Option<usize>,
}

impl Plan {
    pub fn any(random: &mut Random) -> Plan {
        let mut shape = Shape::any(random);
        shape.points = shape.points.min(80);
        let mut plan = Plan { shape, subarrays: random.range(0, 1) };
        let count = match random.below(20) {
            0..=2 => 1,
            3..=6 => 2,
            7..=18 => random.range(3, 12),
            _ => random.range(13, 60),
        };
        plan.set_count(count, random);
        plan
    }

    /// n parts: RISTIME goes with one alone.
    pub fn set_count(&mut self, count: i64, random: &mut Random) {
        self.shape.subarrays = count;
        let ristime = Table::Ristime(random.range(1, 10));
        self.shape.table = match count {
            1 => random.pick(&[Table::None, Table::Trigtime, ristime]),
            _ => random.pick(&[Table::None, Table::Trigtime, Table::Trigtime]),
        };
    }

    /// So many parts of few points.
    pub fn set_many(&mut self, count: i64, random: &mut Random) {
        self.set_count(count, random);
        self.shape.points = random.range(1, 3);
        self.shape.user_text = random.pick(&[0, 0, 1, 20]);
    }

    /// The block that the parts join to.
    pub fn sequence(&self, random: &mut Random) -> Draft {
        let mut sequence = self.shape.draft(random);
        sequence.set_long(SEGMENT_INDEX, 0);
        sequence.least_digits = 9;
        sequence.tail.clear();
        sequence
    }

    /// Right parts in any order, under headers of any kind.
    pub fn parts(&self, random: &mut Random) -> Parts {
        let sequence = self.sequence(random);
        self.parts_of(&sequence, random)
    }

    pub fn parts_of(&self, sequence: &Draft, random: &mut Random) -> Parts {
        let segment = |index: i64| self.segment(sequence, index);
        let drafts = (1..=self.shape.segments()).map(segment).collect();
        let mut parts = Parts { drafts, tail: vec![], kept: None };
        set_headers(&mut parts, random);
        match random.below(8) {
            0 => (),
            1 => parts.drafts.reverse(),
            _ => random.shuffle(&mut parts.drafts),
        }
        parts
    }

    /// Segment `index` of a sequence, as a part.
    fn segment(&self, sequence: &Draft, index: i64) -> Draft {
        let (place, bytes) = (index as usize - 1, self.shape.points as usize * self.shape.width());
        let own = |all: &[u8], bytes: usize| match all.is_empty() {
            true => vec![],
            false => all[place * bytes..(place + 1) * bytes].to_vec(),
        };
        let mut part = Draft {
            head: sequence.head.clone(),
            user_text: sequence.user_text.clone(),
            trigtime: own(&sequence.trigtime, 16),
            ristime: sequence.ristime.clone(),
            array_1: own(&sequence.array_1, bytes),
            array_2: own(&sequence.array_2, bytes),
            width: sequence.width,
            ..Draft::plain(sequence.order)
        };
        part.set_long(WAVE_ARRAY_COUNT, self.shape.points);
        part.set_long(SUBARRAY_COUNT, self.subarrays);
        part.set_long(SEGMENT_INDEX, index);
        part.fit_lengths();
        part
    }
}

/// Headers of `#9`, of one other kind, or of all kinds.
fn set_headers(parts: &mut Parts, random: &mut Random) {
    let (mixed, one) = (random.once_in(2), random.pick(&[1, 3, 6, 9, 9, 9]));
    for draft in &mut parts.drafts {
        draft.least_digits = if mixed { 1 + random.below(9) } else { one };
    }
}

impl Parts {
    /// The finished slice.
    pub fn bytes(&self) -> Vec<u8> {
        let mut bytes: Vec<u8> = self.drafts.iter().flat_map(Draft::bytes).collect();
        bytes.extend(&self.tail);
        bytes.truncate(self.kept.unwrap_or(bytes.len()));
        bytes
    }

    /// Whether every part is good and nothing else stands in the slice.
    pub fn all_good(&self) -> bool {
        let good = |draft: &Draft| draft.tail.is_empty() && open(&draft.bytes()).is_ok();
        self.drafts.iter().all(good) && self.tail.is_empty() && self.kept.is_none()
    }

    /// The part with an index.
    pub fn with_index(&self, index: i64) -> Option<&Draft> {
        self.drafts.iter().find(|draft| draft.long(SEGMENT_INDEX) == index)
    }

    /// Brings the parts in the order of their indices.
    pub fn sort(&mut self) {
        self.drafts.sort_by_key(|draft| draft.long(SEGMENT_INDEX));
    }

    /// The same, but that the first comes last.
    pub fn sort_first_last(&mut self) {
        self.sort();
        let one = self.drafts.len().min(1);
        self.drafts.rotate_left(one);
    }

    /// Changes each part.
    pub fn each(&mut self, change: impl FnMut(&mut Draft)) {
        self.drafts.iter_mut().for_each(change);
    }

    /// Changes one part: the first, the last or any.
    pub fn one(&mut self, random: &mut Random, change: impl FnOnce(&mut Draft, &mut Random)) {
        let Some(last) = self.drafts.len().checked_sub(1) else { return };
        let any = random.below(last + 1);
        let place = random.pick(&[0, last, any]);
        change(&mut self.drafts[place], random);
    }

    /// Changes the part that comes first, or that comes last.
    pub fn first(&mut self, change: impl FnOnce(&mut Draft)) {
        if let Some(draft) = self.drafts.first_mut() {
            change(draft);
        }
    }

    pub fn last(&mut self, change: impl FnOnce(&mut Draft)) {
        if let Some(draft) = self.drafts.last_mut() {
            change(draft);
        }
    }

    /// Changes the part with an index.
    pub fn index(&mut self, index: i64, change: impl FnOnce(&mut Draft)) {
        let mut drafts = self.drafts.iter_mut();
        if let Some(draft) = drafts.find(|draft| draft.long(SEGMENT_INDEX) == index) {
            change(draft);
        }
    }

    /// The highest index of right parts: how many there are.
    pub fn count(&self) -> i64 {
        self.drafts.len() as i64
    }

    /// Ends the slice one byte early.
    pub fn drop_last_byte(&mut self) {
        self.kept = self.bytes().len().checked_sub(1);
    }

    /// Where the last part starts in the slice.
    pub fn last_start(&self) -> usize {
        let before = self.drafts.len().saturating_sub(1);
        self.drafts[..before].iter().map(|draft| draft.bytes().len()).sum()
    }
}

#[cfg(test)]
mod tests {
    use super::*;
    use crate::law::join;

    /// Parts of a block join to that block: this is the generator's own knowledge.
    #[test]
    fn right_parts_join_to_the_sequence_that_was_parted() {
        for case in 0..2000 {
            let random = &mut Random::new(12, case);
            let plan = Plan::any(random);
            let sequence = plan.sequence(random);
            let slice = plan.parts_of(&sequence, random).bytes();
            let expected = sequence.bytes();
            let (mut out, mut answer) = (vec![0; expected.len()], [0; 16]);
            assert_eq!(join::join(&slice, &mut out, &mut answer), 0, "case {case}");
            assert!(out == expected, "case {case}");
        }
    }
}
