//! Refusals 1 to 8 and 20: a block is opened, or refused with the number of the first rule that it
//! breaks.

use super::descriptor::*;
use super::numbers::{read_double, Order};

/// The refusals, with the document's numbers. 14 was never given and is not used; no call gives 17 or
/// 18.
#[derive(Clone, Copy, Debug, PartialEq, Eq)]
pub enum Refusal {
    Frame = 1,
    Length,
    Name,
    Form,
    Tile,
    Count,
    Index,
    Float,
    Choice,
    Segment,
    Point,
    Sparse,
    Room,
    Text = 15,
    Join,
    Gain = 19,
    Time,
}

pub const SHORTEST_PAYLOAD: usize = SIZE;
pub const LONGEST_PAYLOAD: usize = 16_777_216;
/// The highest place in the scope's trace buffer, and the highest sparsing.
pub const LAST_PLACE: i64 = 268_435_455;

/// A block that obeys rules 1 to 8 and 20. Each part is the part of the payload that bears its
/// name, empty where the block has none.
#[derive(Debug)]
pub struct Opened<'a> {
    /// Where the payload starts in the block.
    pub start: usize,
    pub order: Order,
    pub comm_type: i64,
    /// The ten lengths, in the descriptor's order.
    pub lengths: [i64; 10],
    pub descriptor: &'a [u8],
    pub user_text: &'a [u8],
    pub trigtime: &'a [u8],
    pub ristime: &'a [u8],
    /// One array, or two.
    pub arrays: Vec<&'a [u8]>,
    /// g: segments, at least 1.
    pub segments: i64,
    /// M: points in each segment of each array.
    pub points: i64,
    /// F
    pub first_point: i64,
    /// S: at least 1.
    pub sparsing: i64,
    pub segment_index: i64,
    /// SUBARRAY_COUNT as it stands, 0 or more.
    pub subarray_count: i64,
    pub gain: f32,
    pub offset: f32,
    pub interval: f32,
    pub horiz_offset: f64,
}

impl Opened<'_> {
    /// Bytes of a sample: 1 where COMM_TYPE is 0 (byte), 2 where it is 1 (word).
    pub fn width(&self) -> usize {
        sample_width(self.comm_type) as usize
    }
}

pub fn refuse(broken: bool, refusal: Refusal) -> Result<(), Refusal> {
    if broken {
        return Err(refusal);
    }
    Ok(())
}

/// Opens a block: rules 1 to 8 in their order, then 20.
pub fn open(block: &[u8]) -> Result<Opened<'_>, Refusal> {
    let start = frame(block)?;
    let payload = length(block, start)?;
    name(payload)?;
    let descriptor = form(payload)?;
    tile(&descriptor)?;
    count(&descriptor)?;
    let opened = parts(start, &descriptor);
    index(&descriptor, &opened)?;
    float(&opened)?;
    time(&opened)?;
    Ok(opened)
}

/// 1 FRAME: `#`, a digit d from 1 to 9, and d digits; hands out where the payload starts.
pub fn frame(block: &[u8]) -> Result<usize, Refusal> {
    refuse(block.len() < 2, Refusal::Frame)?;
    refuse(block[0] != b'#', Refusal::Frame)?;
    refuse(!(b'1'..=b'9').contains(&block[1]), Refusal::Frame)?;
    let start = 2 + usize::from(block[1] - b'0');
    refuse(block.len() < start, Refusal::Frame)?;
    let digits = &block[2..start];
    refuse(!digits.iter().all(u8::is_ascii_digit), Refusal::Frame)?;
    Ok(start)
}

/// 2 LENGTH; hands out the payload.
fn length(block: &[u8], start: usize) -> Result<&[u8], Refusal> {
    let stated = stated(block, start);
    refuse(stated < SHORTEST_PAYLOAD, Refusal::Length)?;
    refuse(stated > LONGEST_PAYLOAD, Refusal::Length)?;
    refuse(block.len() < start + stated, Refusal::Length)?;
    let (payload, behind) = block[start..].split_at(stated);
    refuse(!behind.is_empty() && behind != [10], Refusal::Length)?;
    Ok(payload)
}

/// L, as the digits before the payload state it.
pub fn stated(block: &[u8], start: usize) -> usize {
    let append = |number: usize, digit: &u8| 10 * number + usize::from(digit - b'0');
    block[2..start].iter().fold(0, append)
}

/// 3 NAME
fn name(payload: &[u8]) -> Result<(), Refusal> {
    let (descriptor_name, template_name) = (DESCRIPTOR_NAME, TEMPLATE_NAME);
    refuse(!named(&payload[descriptor_name..], b"WAVEDESC"), Refusal::Name)?;
    refuse(!named(&payload[template_name..], b"LECROY_2_3"), Refusal::Name)
}

/// Whether the name's characters stand there, followed by one zero byte. What stands behind it is
/// not judged.
fn named(bytes: &[u8], name: &[u8]) -> bool {
    bytes.starts_with(name) && bytes[name.len()] == 0
}

/// 4 FORM: COMM_ORDER is judged as two bytes and then gives the order of all else.
fn form(payload: &[u8]) -> Result<Descriptor<'_>, Refusal> {
    let order = match payload[COMM_ORDER..COMM_ORDER + 2] {
        [0, 0] => Order::HiFirst,
        [1, 0] => Order::LoFirst,
        _ => return Err(Refusal::Form),
    };
    let descriptor = Descriptor { payload, order };
    let comm_type = descriptor.word(COMM_TYPE);
    refuse(comm_type != 0 && comm_type != 1, Refusal::Form)?;
    Ok(descriptor)
}

/// 5 TILE
fn tile(descriptor: &Descriptor) -> Result<(), Refusal> {
    let lengths = descriptor.lengths();
    refuse(lengths[WAVE_DESCRIPTOR] != SIZE as i64, Refusal::Tile)?;
    refuse(lengths[RES_DESC1] != 0, Refusal::Tile)?;
    refuse(lengths[RES_ARRAY1] != 0, Refusal::Tile)?;
    refuse(lengths[RES_ARRAY2] != 0, Refusal::Tile)?;
    refuse(lengths[RES_ARRAY3] != 0, Refusal::Tile)?;
    refuse(lengths.iter().any(|length| *length < 0), Refusal::Tile)?;
    let sum: i64 = lengths.iter().sum();
    refuse(sum != descriptor.payload.len() as i64, Refusal::Tile)
}

/// 6 COUNT
fn count(descriptor: &Descriptor) -> Result<(), Refusal> {
    let lengths = descriptor.lengths();
    let count = descriptor.long(WAVE_ARRAY_COUNT);
    let width = sample_width(descriptor.word(COMM_TYPE));
    let (array_1, array_2) = (lengths[WAVE_ARRAY_1], lengths[WAVE_ARRAY_2]);
    let (trigtime, ristime) = (lengths[TRIGTIME_ARRAY], lengths[RIS_TIME_ARRAY]);
    let ris_sweeps = descriptor.word(RIS_SWEEPS);
    let segment_index = descriptor.long(SEGMENT_INDEX);
    refuse(count < 1, Refusal::Count)?;
    refuse(descriptor.long(SUBARRAY_COUNT) < 0, Refusal::Count)?;
    let g = segments(descriptor);
    refuse(count % g != 0, Refusal::Count)?;
    refuse(array_1 != count * width, Refusal::Count)?;
    refuse(array_2 != 0 && array_2 != count * width, Refusal::Count)?;
    refuse(trigtime != 0 && trigtime != 16 * g, Refusal::Count)?;
    refuse(ristime != 0 && ristime != 8 * ris_sweeps, Refusal::Count)?;
    refuse(ristime != 0 && g > 1, Refusal::Count)?;
    refuse(ristime != 0 && trigtime != 0, Refusal::Count)?;
    refuse(segment_index < 0, Refusal::Count)?;
    refuse(segment_index > 0 && g > 1, Refusal::Count)
}

fn sample_width(comm_type: i64) -> i64 {
    1 + comm_type
}

/// g: SUBARRAY_COUNT, and 0 counts as 1.
fn segments(descriptor: &Descriptor) -> i64 {
    descriptor.long(SUBARRAY_COUNT).max(1)
}

/// Everything that the calls need of a block that obeys rules 1 to 6.
fn parts<'a>(start: usize, descriptor: &Descriptor<'a>) -> Opened<'a> {
    let lengths = descriptor.lengths();
    // The RES lengths are all 0, so the parts follow one another in the order of the list.
    let mut rest = descriptor.payload;
    let mut next = |place: usize| {
        let (part, behind) = rest.split_at(lengths[place] as usize);
        rest = behind;
        part
    };
    let head = next(WAVE_DESCRIPTOR);
    let (user_text, trigtime) = (next(USER_TEXT), next(TRIGTIME_ARRAY));
    let (ristime, array_1, array_2) =
        (next(RIS_TIME_ARRAY), next(WAVE_ARRAY_1), next(WAVE_ARRAY_2));
    let g = segments(descriptor);
    Opened {
        start,
        order: descriptor.order,
        comm_type: descriptor.word(COMM_TYPE),
        lengths,
        descriptor: head,
        user_text,
        trigtime,
        ristime,
        arrays: [array_1, array_2].into_iter().filter(|array| !array.is_empty()).collect(),
        segments: g,
        points: descriptor.long(WAVE_ARRAY_COUNT) / g,
        first_point: descriptor.long(FIRST_POINT),
        sparsing: match descriptor.long(SPARSING_FACTOR) {
            0 => 1,
            factor => factor,
        },
        segment_index: descriptor.long(SEGMENT_INDEX),
        subarray_count: descriptor.long(SUBARRAY_COUNT),
        gain: descriptor.float(VERTICAL_GAIN),
        offset: descriptor.float(VERTICAL_OFFSET),
        interval: descriptor.float(HORIZ_INTERVAL),
        horiz_offset: descriptor.double(HORIZ_OFFSET),
    }
}

/// 7 INDEX
fn index(descriptor: &Descriptor, opened: &Opened) -> Result<(), Refusal> {
    let sparsing_factor = descriptor.long(SPARSING_FACTOR);
    let last_place = opened.first_point + opened.sparsing * (opened.points - 1);
    refuse(opened.first_point < 0, Refusal::Index)?;
    refuse(sparsing_factor < 0, Refusal::Index)?;
    refuse(sparsing_factor > LAST_PLACE, Refusal::Index)?;
    refuse(last_place > LAST_PLACE, Refusal::Index)
}

/// 8 FLOAT
fn float(opened: &Opened) -> Result<(), Refusal> {
    refuse(!opened.gain.is_finite(), Refusal::Float)?;
    refuse(!opened.offset.is_finite(), Refusal::Float)?;
    refuse(!opened.interval.is_finite(), Refusal::Float)?;
    refuse(!opened.horiz_offset.is_finite(), Refusal::Float)?;
    refuse(!finite(opened.trigtime, opened.order), Refusal::Float)?;
    refuse(!finite(opened.ristime, opened.order), Refusal::Float)
}

/// Whether a table of doubles has only finite ones.
fn finite(table: &[u8], order: Order) -> bool {
    table.chunks(8).all(|bytes| read_double(bytes, order).is_finite())
}

/// 20 TIME: within TRIGTIME no TRIGGER_TIME is less than the one before it.
fn time(opened: &Opened) -> Result<(), Refusal> {
    // TRIGGER_TIME is the first double of an entry's two.
    let trigger_time = |entry: &[u8]| read_double(&entry[..8], opened.order);
    let times: Vec<f64> = opened.trigtime.chunks(16).map(trigger_time).collect();
    refuse(times.windows(2).any(|pair| pair[1] < pair[0]), Refusal::Time)
}
