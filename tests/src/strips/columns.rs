//! How many columns a segment is asked in: those that part its points evenly, those beside them, and
//! others.

use crate::random::Random;

/// Up to so many points a segment is asked in any columns.
pub const SHORT: u32 = 16;

/// How many points a column has where the columns part the points evenly.
const WIDTHS: [u32; 11] = [1, 2, 3, 4, 8, 16, 32, 63, 64, 100, 128];

/// Some primes, which hardly ever part the points evenly.
const PRIMES: [u32; 12] = [2, 3, 5, 7, 11, 13, 31, 61, 127, 509, 1021, 4093];

/// Columns that a segment of so many points may be asked in.
pub fn right(points: u32, random: &mut Random) -> u32 {
    let any = 1 + random.below(points as usize) as u32;
    let notable = random.pick(&notable(points));
    random.pick(&[notable, notable, notable, any])
}

/// Every number of a short segment, and of a longer one those that part it evenly and those beside
/// them, the primes, 1 and all.
pub fn notable(points: u32) -> Vec<u32> {
    if points <= SHORT {
        return (1..=points).collect();
    }
    let mut columns: Vec<u32> = WIDTHS
        .iter()
        .map(|width| points / width)
        .flat_map(|even| [even.max(2) - 1, even, even + 1])
        .collect();
    columns.extend(PRIMES);
    columns.extend([1, points]);
    columns.retain(|columns| (1..=points).contains(columns));
    columns.sort_unstable();
    columns.dedup();
    columns
}

#[cfg(test)]
mod tests {
    use super::*;

    #[test]
    fn columns_are_even_and_beside() {
        assert_eq!(notable(5), [1, 2, 3, 4, 5]);
        let of_256 = notable(256);
        for columns in [1, 2, 3, 4, 5, 15, 16, 17, 63, 64, 65, 84, 85, 86, 127, 128, 129, 255, 256]
        {
            assert!(of_256.contains(&columns), "{columns}");
        }
        for points in 1..300 {
            let notable = notable(points);
            assert!(notable.contains(&1) && notable.contains(&points));
            assert!(notable.iter().all(|columns| (1..=points).contains(columns)));
        }
    }
}
