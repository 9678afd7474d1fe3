//! Numbers of one, two, four and eight bytes in either byte order.

#[derive(Clone, Copy, Debug, PartialEq, Eq)]
pub enum Order {
    HiFirst,
    LoFirst,
}

/// The bytes as one unsigned number.
pub fn read(bytes: &[u8], order: Order) -> u64 {
    let append = |number: u64, byte: &u8| number << 8 | u64::from(*byte);
    match order {
        Order::HiFirst => bytes.iter().fold(0, append),
        Order::LoFirst => bytes.iter().rev().fold(0, append),
    }
}

/// The bytes as one number in two's complement.
pub fn read_signed(bytes: &[u8], order: Order) -> i64 {
    let above = 64 - 8 * bytes.len() as u32;
    (read(bytes, order) << above) as i64 >> above
}

pub fn read_float(bytes: &[u8], order: Order) -> f32 {
    f32::from_bits(read(bytes, order) as u32)
}

pub fn read_double(bytes: &[u8], order: Order) -> f64 {
    f64::from_bits(read(bytes, order))
}

/// Stores the low bytes of a number, as many as the place has.
pub fn store(place: &mut [u8], order: Order, number: u64) {
    let low_first = number.to_le_bytes().into_iter();
    match order {
        Order::HiFirst => place.iter_mut().rev().zip(low_first).for_each(put),
        Order::LoFirst => place.iter_mut().zip(low_first).for_each(put),
    }
}

fn put((place, byte): (&mut u8, u8)) {
    *place = byte;
}
