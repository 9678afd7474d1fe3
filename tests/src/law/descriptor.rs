//! The descriptor: where its fields stand, and how they are read.

use super::numbers::{read_double, read_float, read_signed, Order};

/// Bytes of the descriptor.
pub const SIZE: usize = 346;

pub const DESCRIPTOR_NAME: usize = 0;
pub const TEMPLATE_NAME: usize = 16;
pub const COMM_TYPE: usize = 32;
pub const COMM_ORDER: usize = 34;
pub const LENGTHS: usize = 36;
pub const TRACE_LABEL: usize = 96;
pub const WAVE_ARRAY_COUNT: usize = 116;
pub const FIRST_POINT: usize = 132;
pub const SPARSING_FACTOR: usize = 136;
pub const SEGMENT_INDEX: usize = 140;
pub const SUBARRAY_COUNT: usize = 144;
pub const VERTICAL_GAIN: usize = 156;
pub const VERTICAL_OFFSET: usize = 160;
pub const HORIZ_INTERVAL: usize = 176;
pub const HORIZ_OFFSET: usize = 180;
pub const RIS_SWEEPS: usize = 322;

/// Places in the list of the ten lengths; the list starts at LENGTHS, four bytes each.
pub const WAVE_DESCRIPTOR: usize = 0;
pub const USER_TEXT: usize = 1;
pub const RES_DESC1: usize = 2;
pub const TRIGTIME_ARRAY: usize = 3;
pub const RIS_TIME_ARRAY: usize = 4;
pub const RES_ARRAY1: usize = 5;
pub const WAVE_ARRAY_1: usize = 6;
pub const WAVE_ARRAY_2: usize = 7;
pub const RES_ARRAY2: usize = 8;
pub const RES_ARRAY3: usize = 9;

/// Where a length of the list stands in the descriptor.
pub const fn length_at(place: usize) -> usize {
    LENGTHS + 4 * place
}

/// Every number of the descriptor: where a run of them starts, the width of each, and how many.
/// What is not in here is text or a single byte, and has no byte order.
pub const NUMBERS: [(usize, usize, usize); 19] = [
    (32, 2, 2),  // COMM_TYPE, COMM_ORDER
    (36, 4, 10), // the ten lengths
    (92, 4, 1),  // INSTRUMENT_NUMBER
    (112, 2, 2), // reserved words
    (116, 4, 9), // WAVE_ARRAY_COUNT to SWEEPS_PER_ACQ
    (152, 2, 2), // POINTS_PER_PAIR, PAIR_OFFSET
    (156, 4, 4), // VERTICAL_GAIN, VERTICAL_OFFSET, MAX_VALUE, MIN_VALUE
    (172, 2, 2), // NOMINAL_BITS, NOM_SUBARRAY_COUNT
    (176, 4, 1), // HORIZ_INTERVAL
    (180, 8, 2), // HORIZ_OFFSET, PIXEL_OFFSET
    (292, 4, 1), // HORIZ_UNCERTAINTY
    (296, 8, 1), // TRIGGER_TIME: the seconds; its single bytes stand at 304 to 307
    (308, 2, 2), // TRIGGER_TIME: year, unused
    (312, 4, 1), // ACQ_DURATION
    (316, 2, 6), // RECORD_TYPE to VERT_COUPLING
    (328, 4, 1), // PROBE_ATT
    (332, 2, 2), // FIXED_VERT_GAIN, BANDWIDTH_LIMIT
    (336, 4, 2), // VERTICAL_VERNIER, ACQ_VERT_OFFSET
    (344, 2, 1), // WAVE_SOURCE
];

/// A payload whose byte order is known.
pub struct Descriptor<'a> {
    pub payload: &'a [u8],
    pub order: Order,
}

impl Descriptor<'_> {
    pub fn word(&self, at: usize) -> i64 {
        read_signed(&self.payload[at..at + 2], self.order)
    }

    pub fn long(&self, at: usize) -> i64 {
        read_signed(&self.payload[at..at + 4], self.order)
    }

    pub fn float(&self, at: usize) -> f32 {
        read_float(&self.payload[at..at + 4], self.order)
    }

    pub fn double(&self, at: usize) -> f64 {
        read_double(&self.payload[at..at + 8], self.order)
    }

    pub fn lengths(&self) -> [i64; 10] {
        std::array::from_fn(|place| self.long(length_at(place)))
    }
}
