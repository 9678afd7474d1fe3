//! Shapes that edges ask for.

use crate::random::Random;
use crate::shape::{Shape, Table};

pub fn any(_: &mut Shape, _: &mut Random) {}

pub fn byte(shape: &mut Shape, _: &mut Random) {
    shape.word = false;
}

pub fn word(shape: &mut Shape, _: &mut Random) {
    shape.word = true;
}

pub fn with_text(shape: &mut Shape, random: &mut Random) {
    shape.user_text = 8 + random.below(40);
}

pub fn bare(shape: &mut Shape, _: &mut Random) {
    shape.table = Table::None;
    shape.user_text = 0;
}

/// A payload of less than 1,000 bytes.
pub fn short(shape: &mut Shape, random: &mut Random) {
    shape.subarrays = random.range(0, 1);
    shape.points = random.range(1, 40);
    shape.user_text = random.below(40);
}

pub fn one_segment(shape: &mut Shape, random: &mut Random) {
    shape.subarrays = random.range(0, 1);
}

pub fn one_bare_segment(shape: &mut Shape, random: &mut Random) {
    one_segment(shape, random);
    bare(shape, random);
}

pub fn no_subarrays(shape: &mut Shape, _: &mut Random) {
    shape.subarrays = 0;
}

pub fn many_segments(shape: &mut Shape, random: &mut Random) {
    let any = random.range(2, 8);
    shape.subarrays = random.pick(&[2, any]);
    if shape.table != Table::None {
        shape.table = Table::Trigtime;
    }
}

pub fn many_segments_no_table(shape: &mut Shape, random: &mut Random) {
    many_segments(shape, random);
    shape.table = Table::None;
}

pub fn many_segments_of_one_point(shape: &mut Shape, random: &mut Random) {
    many_segments(shape, random);
    shape.points = 1;
}

pub fn one_point(shape: &mut Shape, _: &mut Random) {
    shape.points = 1;
}

pub fn some_points(shape: &mut Shape, random: &mut Random) {
    shape.points = random.range(2, 12);
}

pub fn one_segment_of_some_points(shape: &mut Shape, random: &mut Random) {
    one_segment(shape, random);
    some_points(shape, random);
}

pub fn points_33(shape: &mut Shape, _: &mut Random) {
    shape.points = 33;
}

/// M − 1 divides the last place.
pub fn points_4_or_6(shape: &mut Shape, random: &mut Random) {
    shape.points = random.pick(&[4, 6]);
}

pub fn one_array(shape: &mut Shape, random: &mut Random) {
    shape.two_arrays = false;
    some_points(shape, random);
}

pub fn two_arrays(shape: &mut Shape, random: &mut Random) {
    shape.two_arrays = true;
    some_points(shape, random);
}

pub fn two_bare_arrays(shape: &mut Shape, random: &mut Random) {
    bare(shape, random);
    two_arrays(shape, random);
}

pub fn trigtime(shape: &mut Shape, _: &mut Random) {
    shape.table = Table::Trigtime;
}

pub fn trigtime_of_many(shape: &mut Shape, random: &mut Random) {
    many_segments(shape, random);
    shape.table = Table::Trigtime;
}

pub fn trigtime_of_one(shape: &mut Shape, random: &mut Random) {
    one_segment(shape, random);
    shape.table = Table::Trigtime;
}

pub fn trigtime_no_subarrays(shape: &mut Shape, _: &mut Random) {
    shape.subarrays = 0;
    shape.table = Table::Trigtime;
}

/// TRIGTIME of so many entries, and few points.
pub fn entries(shape: &mut Shape, random: &mut Random, count: i64) {
    shape.subarrays = count;
    shape.points = random.range(1, 4);
    shape.table = Table::Trigtime;
}

pub fn hundreds(shape: &mut Shape, random: &mut Random) {
    let count = random.range(200, 400);
    entries(shape, random, count);
}

pub fn two_or_more(shape: &mut Shape, random: &mut Random) {
    let few = random.range(2, 8);
    let many = random.range(18, 400);
    let count = random.pick(&[2, 3, few, few, 16, 17, many]);
    entries(shape, random, count);
}

pub fn four_or_more(shape: &mut Shape, random: &mut Random) {
    two_or_more(shape, random);
    shape.subarrays = shape.subarrays.max(4);
}

pub fn ristime(shape: &mut Shape, random: &mut Random) {
    one_segment(shape, random);
    shape.table = Table::Ristime(random.range(1, 10));
}

pub fn ristime_no_subarrays(shape: &mut Shape, random: &mut Random) {
    ristime(shape, random);
    shape.subarrays = 0;
}
