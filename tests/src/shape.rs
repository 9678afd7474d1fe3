//! Right blocks of every shape.

use crate::draft::Draft;
use crate::floats;
use crate::law::descriptor::*;
use crate::law::numbers::{read_signed, Order};
use crate::law::rules::LAST_PLACE;
use crate::random::Random;
use crate::samples;
use crate::times;

#[derive(Clone, Copy, PartialEq)]
pub enum Table {
    None,
    Trigtime,
    /// RISTIME of so many entries.
    Ristime(i64),
}

impl Table {
    /// Any that so many segments may have.
    pub fn any(random: &mut Random, subarrays: i64) -> Table {
        match (random.below(3), subarrays) {
            (0, _) => Table::None,
            (1, 0 | 1) => Table::Ristime(random.range(1, 10)),
            _ => Table::Trigtime,
        }
    }
}

/// What decides how long a right block's parts are.
#[derive(Clone)]
pub struct Shape {
    pub order: Order,
    pub word: bool,
    pub two_arrays: bool,
    /// SUBARRAY_COUNT: 0 and 1 both give one segment.
    pub subarrays: i64,
    /// M
    pub points: i64,
    pub table: Table,
    pub user_text: usize,
}

impl Shape {
    pub fn any(random: &mut Random) -> Shape {
        let subarrays = match random.below(10) {
            0 | 1 => 0,
            2..=4 => 1,
            5..=8 => random.range(2, 8),
            _ => random.range(9, 40),
        };
        let points = match random.below(20) {
            0..=2 => 1,
            3..=12 => random.range(2, 12),
            13..=18 => random.range(13, 80),
            _ => random.range(81, 600),
        };
        let table = Table::any(random, subarrays);
        Shape {
            order: any_order(random),
            word: random.once_in(2),
            two_arrays: random.once_in(3),
            subarrays,
            points,
            table,
            user_text: match random.below(4) {
                0 | 1 => 0,
                2 => random.below(20),
                _ => random.below(300),
            },
        }
    }

    pub fn segments(&self) -> i64 {
        self.subarrays.max(1)
    }

    /// Bytes of a sample.
    pub fn width(&self) -> usize {
        1 + usize::from(self.word)
    }

    /// A right block of this shape. Fields that no rule judges hold random bytes, and so does what
    /// stands behind the zero bytes of the names in half of all blocks. Half of the headers are
    /// `#9`, the others have any number of digits that holds the length.
    pub fn draft(&self, random: &mut Random) -> Draft {
        let mut draft = Draft::plain(self.order);
        draft.head = random.bytes(SIZE);
        draft.set_frame_fields();
        if random.once_in(2) {
            draft.fill_names();
        }
        draft.set_width(self.width());
        let count = self.segments() * self.points;
        draft.set_long(WAVE_ARRAY_COUNT, count);
        draft.set_long(SUBARRAY_COUNT, self.subarrays);
        draft.set_long(SEGMENT_INDEX, self.segment_index(random));
        self.set_places(&mut draft, random);
        draft.set_text(TRACE_LABEL, &trace_label(random));
        draft.user_text = random.bytes(self.user_text);
        draft.array_1 = samples::array(random, self);
        if self.two_arrays {
            draft.array_2 = samples::array(random, self);
        }
        self.set_scale(&mut draft, random);
        self.set_tables(&mut draft, random);
        draft.fit_lengths();
        if random.once_in(3) {
            draft.tail = vec![10];
        }
        if random.once_in(2) {
            draft.least_digits = 1 + random.below(9);
        }
        draft
    }

    fn segment_index(&self, random: &mut Random) -> i64 {
        if self.segments() > 1 {
            return 0;
        }
        random.pick(&[0, 0, 1, 2, 77, i64::from(i32::MAX)])
    }

    /// F and SPARSING_FACTOR, often with the last place at or near its limit.
    fn set_places(&self, draft: &mut Draft, random: &mut Random) {
        let highest = LAST_PLACE / (self.points - 1).max(1);
        let few = random.range(2, 9).min(highest);
        let any = random.range(1, highest);
        let factor = random.pick(&[0, 0, 1, 1, few, few, any, highest]);
        let span = factor.max(1) * (self.points - 1);
        let room = LAST_PLACE - span;
        let few = random.range(0, 20).min(room);
        let any = random.range(0, room);
        let first = random.pick(&[0, 0, few, few, any, room]);
        draft.set_long(SPARSING_FACTOR, factor);
        draft.set_long(FIRST_POINT, first);
    }

    /// Gain, offset, interval and horizontal offset. Offsets that meet a product exactly show the
    /// sign of a zero.
    fn set_scale(&self, draft: &mut Draft, random: &mut Random) {
        let gain = f32::from_bits(floats::finite(random));
        let sample = read_signed(&draft.array_1[..self.width()], self.order);
        let met = gain * sample as f32;
        let offset = match random.below(4) {
            0 if met.is_finite() => met.to_bits(),
            1 => random.pick(&[0f32, -0f32]).to_bits(),
            _ => floats::finite(random),
        };
        draft.set_float(VERTICAL_GAIN, gain.to_bits());
        draft.set_float(VERTICAL_OFFSET, offset);
        let interval = f32::from_bits(floats::finite(random));
        draft.set_float(HORIZ_INTERVAL, interval.to_bits());
        let horiz_offset = self.time_offset(draft, interval, random);
        draft.set_double(HORIZ_OFFSET, horiz_offset);
    }

    /// A double to be added to interval × i.
    fn time_offset(&self, draft: &Draft, interval: f32, random: &mut Random) -> u64 {
        let k = random.range(0, self.points - 1);
        let i = draft.long(FIRST_POINT) + draft.long(SPARSING_FACTOR).max(1) * k;
        match random.below(4) {
            0 => (-(f64::from(interval) * i as f64)).to_bits(),
            1 => random.pick(&[0f64, -0f64]).to_bits(),
            _ => floats::finite_wide(random),
        }
    }

    /// TRIGGER_TIMEs that do not run backwards; TRIGGER_OFFSETs and RIS_OFFSETs are free.
    fn set_tables(&self, draft: &mut Draft, random: &mut Random) {
        let interval = f32::from_bits(draft.long(HORIZ_INTERVAL) as u32);
        let mut offsets = |count: i64| -> Vec<u64> {
            (0..count).map(|_| self.time_offset(draft, interval, random)).collect()
        };
        match self.table {
            Table::None => (),
            Table::Trigtime => {
                let offsets = offsets(self.segments());
                let times = times::ascending(random, offsets.len()).into_iter();
                let entries = times.zip(offsets).map(|(time, offset)| [time.to_bits(), offset]);
                draft.trigtime = draft.doubles(&entries.collect::<Vec<_>>().concat());
            }
            Table::Ristime(entries) => {
                draft.ristime = draft.doubles(&offsets(entries));
                draft.set_word(RIS_SWEEPS, entries);
            }
        }
    }
}

pub fn any_order(random: &mut Random) -> Order {
    random.pick(&[Order::HiFirst, Order::LoFirst])
}

/// TRACE_LABEL with so many bytes before its first zero byte; behind that stand zeros or old bytes.
fn trace_label(random: &mut Random) -> Vec<u8> {
    let any = random.below(17);
    let length = random.pick(&[0, 0, 1, 15, 16, any]);
    let mut label = random.bytes(16);
    label[..length].iter_mut().for_each(|byte| *byte = (*byte).max(1));
    if length < 16 {
        label[length] = 0;
    }
    if random.once_in(2) {
        label[length..].fill(0);
    }
    label
}

#[cfg(test)]
mod tests {
    use super::*;

    /// The first byte of the label that is zero, or 16.
    fn label_length(draft: &Draft) -> usize {
        let label = &draft.head[TRACE_LABEL..TRACE_LABEL + 16];
        label.iter().position(|byte| *byte == 0).unwrap_or(16)
    }

    /// A thousand right blocks have all that moves a part or a text.
    #[test]
    fn right_blocks_differ_in_every_place() {
        let draft = |random: &mut Random| Shape::any(random).draft(random);
        let drafts: Vec<Draft> = (0..1000).map(|case| draft(&mut Random::new(6, case))).collect();
        let some = |has: &dyn Fn(&Draft) -> bool| drafts.iter().any(has);
        for digits in 3..=9 {
            assert!(some(&|d| d.header_len() == 2 + digits), "#{digits}");
        }
        for length in [0, 1, 15, 16] {
            assert!(some(&|d| label_length(d) == length), "label of {length}");
        }
        for length in [0, 1, 14] {
            let old = |d: &Draft| d.head[TRACE_LABEL + length + 1] != 0;
            assert!(some(&|d| label_length(d) == length && old(d)), "old bytes behind {length}");
        }
        for subarrays in [0, 1, 2] {
            assert!(some(&|d| d.long(SUBARRAY_COUNT) == subarrays), "SUBARRAY_COUNT {subarrays}");
        }
        assert!(some(&|d| d.user_text.is_empty()) && some(&|d| d.user_text.len() > 255));
        assert!(some(&|d| d.long(SPARSING_FACTOR) == 0) && some(&|d| d.long(FIRST_POINT) > 0xFFFF));
        assert!(some(&|d| d.long(SEGMENT_INDEX) > 0));
        assert!(some(&|d| d.array_2.is_empty()) && some(&|d| !d.array_2.is_empty()));
        assert!(some(&|d| !d.trigtime.is_empty()) && some(&|d| !d.ristime.is_empty()));
        assert!(some(&|d| d.tail.is_empty()) && some(&|d| d.tail == [10]));
    }
}
