//! A block in the making: each field and part can be set by itself, so that a fault can be made in
//! one place and everything else stay right.

use crate::law::descriptor::*;
use crate::law::numbers::{read_signed, store, Order};
use std::ops::Range;

/// What stands behind the zero bytes of DESCRIPTOR_NAME and TEMPLATE_NAME.
pub const BEHIND_NAMES: [Range<usize>; 2] = [9..16, 27..32];

#[derive(Clone)]
pub struct Draft {
    pub order: Order,
    /// Bytes of a sample.
    pub width: usize,
    /// The descriptor's 346 bytes.
    pub head: Vec<u8>,
    pub user_text: Vec<u8>,
    pub trigtime: Vec<u8>,
    pub ristime: Vec<u8>,
    pub array_1: Vec<u8>,
    pub array_2: Vec<u8>,
    /// `#` in a right block.
    pub hash: u8,
    /// d where it is not to be the count of the digits.
    pub count: Option<u8>,
    /// How many digits there are, or as many as the payload's length takes.
    pub least_digits: usize,
    /// The digits where they are not to be the payload's length.
    pub digits: Option<Vec<u8>>,
    /// What stands behind the payload.
    pub tail: Vec<u8>,
    /// Where the slice is to end early.
    pub kept: Option<usize>,
}

impl Draft {
    /// A byte block with the two names, WAVE_DESCRIPTOR and the order; zeros in every other field,
    /// and no parts.
    pub fn plain(order: Order) -> Draft {
        let mut draft = Draft {
            order,
            width: 1,
            head: vec![0; SIZE],
            user_text: vec![],
            trigtime: vec![],
            ristime: vec![],
            array_1: vec![],
            array_2: vec![],
            hash: b'#',
            count: None,
            least_digits: 9,
            digits: None,
            tail: vec![],
            kept: None,
        };
        draft.set_frame_fields();
        draft
    }

    /// The fields that rules 3 to 5 fix: names up to their zero bytes, COMM_ORDER, WAVE_DESCRIPTOR
    /// and the RES lengths.
    pub fn set_frame_fields(&mut self) {
        self.set_text(DESCRIPTOR_NAME, b"WAVEDESC\0");
        self.set_text(TEMPLATE_NAME, b"LECROY_2_3\0");
        self.set_word(COMM_ORDER, if self.order == Order::LoFirst { 1 } else { 0 });
        self.set_length(WAVE_DESCRIPTOR, SIZE as i64);
        for reserved in [RES_DESC1, RES_ARRAY1, RES_ARRAY2, RES_ARRAY3] {
            self.set_length(reserved, 0);
        }
    }

    /// Fills the names with zero bytes, as most instruments do.
    pub fn fill_names(&mut self) {
        for behind in BEHIND_NAMES {
            self.head[behind].fill(0);
        }
    }

    /// Sets COMM_TYPE for samples of one byte or two.
    pub fn set_width(&mut self, width: usize) {
        self.width = width;
        self.set_word(COMM_TYPE, width as i64 - 1);
    }

    pub fn set_text(&mut self, at: usize, text: &[u8]) {
        self.head[at..at + text.len()].copy_from_slice(text);
    }

    pub fn set_word(&mut self, at: usize, number: i64) {
        store(&mut self.head[at..at + 2], self.order, number as u64);
    }

    pub fn set_long(&mut self, at: usize, number: i64) {
        store(&mut self.head[at..at + 4], self.order, number as u64);
    }

    pub fn long(&self, at: usize) -> i64 {
        read_signed(&self.head[at..at + 4], self.order)
    }

    pub fn set_float(&mut self, at: usize, bits: u32) {
        store(&mut self.head[at..at + 4], self.order, u64::from(bits));
    }

    pub fn set_double(&mut self, at: usize, bits: u64) {
        store(&mut self.head[at..at + 8], self.order, bits);
    }

    /// The bytes of doubles in this block's order, for its tables.
    pub fn doubles(&self, bits: &[u64]) -> Vec<u8> {
        let mut bytes = vec![0; 8 * bits.len()];
        for (place, double) in bytes.chunks_mut(8).zip(bits) {
            store(place, self.order, *double);
        }
        bytes
    }

    /// Sets one of the ten lengths by its place in the list.
    pub fn set_length(&mut self, place: usize, length: i64) {
        self.set_long(length_at(place), length);
    }

    pub fn add_to_length(&mut self, place: usize, more: i64) {
        self.set_length(place, self.long(length_at(place)) + more);
    }

    /// Sets the lengths of the five parts to what they are.
    pub fn fit_lengths(&mut self) {
        self.set_length(USER_TEXT, self.user_text.len() as i64);
        self.set_length(TRIGTIME_ARRAY, self.trigtime.len() as i64);
        self.set_length(RIS_TIME_ARRAY, self.ristime.len() as i64);
        self.set_length(WAVE_ARRAY_1, self.array_1.len() as i64);
        self.set_length(WAVE_ARRAY_2, self.array_2.len() as i64);
    }

    /// Payload bytes.
    pub fn payload_len(&self) -> usize {
        self.parts().iter().map(|part| part.len()).sum()
    }

    /// The header's digits.
    pub fn digits(&self) -> Vec<u8> {
        match &self.digits {
            Some(digits) => digits.clone(),
            None => digits(self.payload_len(), self.least_digits),
        }
    }

    /// Makes the digits, as many as they are, state another number than the payload's length.
    pub fn set_stated(&mut self, number: usize) {
        self.digits = Some(digits(number, self.digits().len()));
    }

    /// Bytes before the payload.
    pub fn header_len(&self) -> usize {
        2 + self.digits().len()
    }

    /// The finished slice.
    pub fn bytes(&self) -> Vec<u8> {
        let digits = self.digits();
        let mut bytes = vec![self.hash, self.count.unwrap_or(b'0' + digits.len() as u8)];
        bytes.extend(digits);
        bytes.extend(self.parts().concat());
        bytes.extend(&self.tail);
        bytes.truncate(self.kept.unwrap_or(bytes.len()));
        bytes
    }

    fn parts(&self) -> [&[u8]; 6] {
        [&self.head, &self.user_text, &self.trigtime, &self.ristime, &self.array_1, &self.array_2]
    }
}

/// A number as so many digits, or as many as it takes.
pub fn digits(number: usize, least: usize) -> Vec<u8> {
    format!("{number:0least$}").into_bytes()
}
