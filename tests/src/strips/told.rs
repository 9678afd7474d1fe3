//! What a strip tells: as it is answered, and as samples have it, point by point.

use crate::compare::Difference;
use crate::request::{Call, Reply};

/// The least and the greatest sample of each column, and the three numbers of the segment.
#[derive(Clone, PartialEq)]
pub struct Strip {
    pub least: Vec<i64>,
    pub greatest: Vec<i64>,
    pub sum: i64,
    pub marks: u64,
    pub peak: u64,
}

impl Strip {
    /// As an accepted call answered it.
    pub fn read(reply: &Reply) -> Strip {
        Strip {
            least: signed(&reply.least),
            greatest: signed(&reply.greatest),
            sum: reply.number_at(0) as i64,
            marks: reply.number_at(1),
            peak: reply.number_at(2),
        }
    }

    /// That of samples of which so many are at the rail: each goes to the column that its point is in.
    pub fn of(samples: &[i64], marks: u64, columns: u32) -> Strip {
        let (points, columns) = (samples.len(), columns as usize);
        let mut least = vec![i64::MAX; columns];
        let mut greatest = vec![i64::MIN; columns];
        let (mut sum, mut peak) = (0, 0);
        for (k, sample) in samples.iter().enumerate() {
            // Column q starts at point k or before it where q·M is below (k + 1)·W.
            let q = ((k + 1) * columns - 1) / points;
            least[q] = least[q].min(*sample);
            greatest[q] = greatest[q].max(*sample);
            sum += sample;
            if *sample > samples[peak] {
                peak = k;
            }
        }
        Strip { least, greatest, sum, marks, peak: peak as u64 }
    }

    /// The strip of half as many columns: each is two neighbours.
    pub fn paired(&self) -> Strip {
        let pairs = |numbers: &[i64], join: fn(i64, i64) -> i64| {
            numbers.chunks(2).map(|pair| join(pair[0], pair[1])).collect()
        };
        let (least, greatest) = (pairs(&self.least, i64::min), pairs(&self.greatest, i64::max));
        Strip { least, greatest, ..*self }
    }

    /// The strip of one column: that of the whole segment.
    pub fn whole(&self) -> Strip {
        let least = self.least.iter().copied().min().into_iter().collect();
        let greatest = self.greatest.iter().copied().max().into_iter().collect();
        Strip { least, greatest, ..*self }
    }

    /// Two strips that must be one.
    pub fn same(&self, call: Call, expected: &Strip) -> Result<(), Difference> {
        match self.difference(expected) {
            None => Ok(()),
            Some(what) => Err(Difference(format!("{call}: {what}"))),
        }
    }

    fn difference(&self, expected: &Strip) -> Option<String> {
        let columns = |name: &str, came: &[i64], expected: &[i64]| {
            let q = came.iter().zip(expected).position(|(came, expected)| came != expected)?;
            Some(format!("{name} {q} is {}, not {}", came[q], expected[q]))
        };
        let number = |name: &str, came: i64, expected: i64| {
            (came != expected).then(|| format!("{name} is {came}, not {expected}"))
        };
        number("columns", self.least.len() as i64, expected.least.len() as i64)
            .or_else(|| columns("least", &self.least, &expected.least))
            .or_else(|| columns("greatest", &self.greatest, &expected.greatest))
            .or_else(|| number("sum", self.sum, expected.sum))
            .or_else(|| number("marks", self.marks as i64, expected.marks as i64))
            .or_else(|| number("peak", self.peak as i64, expected.peak as i64))
    }
}

/// Numbers of eight bytes, high byte first, in two's complement.
fn signed(bytes: &[u8]) -> Vec<i64> {
    let number = |bytes: &[u8]| i64::from_be_bytes(bytes.try_into().expect("eight bytes"));
    bytes.chunks(8).map(number).collect()
}

#[cfg(test)]
mod tests {
    use super::*;

    /// Seven points in three columns: points 0 and 1, 2 and 3, 4 to 6.
    #[test]
    fn points_go_to_their_columns() {
        let strip = Strip::of(&[3, -1, 4, -1, 5, -9, 5], 0, 3);
        assert_eq!((strip.least, strip.greatest), (vec![-1, -1, -9], vec![3, 4, 5]));
        assert_eq!((strip.sum, strip.peak), (6, 4));
    }

    #[test]
    fn strips_are_paired_and_made_whole() {
        let samples = [3, -1, 4, -1, 5, -9, 5];
        for columns in [2, 4, 6] {
            let strip = Strip::of(&samples, 1, columns);
            assert!(strip.paired() == Strip::of(&samples, 1, columns / 2));
            assert!(strip.whole() == Strip::of(&samples, 1, 1));
        }
    }
}
