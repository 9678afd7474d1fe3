//! A walk over one segment: its points one after another, then done for good.

use super::calls::{choose_array, choose_segment};
use super::points::{mark, sample, time, value};
use super::rules::{open, Opened, Refusal};

pub struct Walk<'a> {
    pub opened: Opened<'a>,
    array: i64,
    segment: i64,
    /// The point that the next step hands out.
    k: i64,
}

/// What a step hands out.
pub struct Point {
    pub value: f64,
    pub time: f64,
    pub mark: bool,
}

impl<'a> Walk<'a> {
    /// A walk before its first point, or its refusal.
    pub fn start(block: &'a [u8], array: u32, segment: u32) -> Result<Walk<'a>, Refusal> {
        let opened = open(block)?;
        let (array, segment) = (i64::from(array), i64::from(segment));
        choose_array(&opened, array)?;
        choose_segment(&opened, segment)?;
        Ok(Walk { opened, array, segment, k: 0 })
    }

    /// The point that the next step hands out; none where the walk is done.
    pub fn point(&self) -> Option<Point> {
        let Walk { opened, array, segment, k } = self;
        if *k == opened.points {
            return None;
        }
        let value = value(opened, sample(opened, *array, *segment, *k));
        let time = time(opened, *segment, *k);
        let mark = mark(opened, sample(opened, *array, *segment, *k));
        Some(Point { value, time, mark })
    }

    /// One step further; a walk that is done stays where it is.
    pub fn step(&mut self) {
        self.k = self.opened.points.min(self.k + 1);
    }
}
