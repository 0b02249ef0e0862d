//! Degrees from a probe's word and its reference's, by a table of the probe's resistance.

use crate::refusal::Refusal;

/// Milliohms of the reference, times 1,000,000 quanta for each of the probe's.
const REFERENCE: u64 = 1_000_000;
/// A word that stands for no time.
const NO_TIME: u32 = u32::MAX;
/// Entries that a table may have.
const FEWEST_ENTRIES: usize = 2;
const MOST_ENTRIES: usize = 512;
/// The largest entry that a table may have, in milliohms.
const LARGEST_ENTRY: u32 = 10_000_000;
/// The last degree of PT1000's table.
const LAST_DEGREE: i64 = 180;

/// PT1000's milliohms for each degree from 0 on, by IEC 60751, to the nearest whole, halves up.
pub fn pt1000() -> Vec<u32> {
    let ten_thousandths = |t: i64| 10_000_000_000 + 39_083_000 * t - 5_775 * t * t;
    (0..=LAST_DEGREE)
        .map(|degree| ((ten_thousandths(degree) + 5_000) / 10_000) as u32)
        .collect()
}

/// Thousandths of a degree, by a table whose entries stand for whole degrees from 0 on.
pub fn degrees(table: &[u32], probe: u32, reference: u32) -> Result<u32, Refusal> {
    if !is_table(table) {
        return Err(Refusal::BadTable);
    }
    if probe == NO_TIME || reference == NO_TIME || reference == 0 {
        return Err(Refusal::OffTheTable);
    }
    let resistance = u64::from(probe) * REFERENCE / u64::from(reference);
    let entry = |degree: usize| u64::from(table[degree]);
    // The entries that the resistance reaches.
    let reached = table.partition_point(|&entry| u64::from(entry) <= resistance);
    match reached {
        0 => Err(Refusal::OffTheTable),
        _ if reached < table.len() => {
            let (below, above) = (entry(reached - 1), entry(reached));
            let part = 1_000 * (resistance - below) / (above - below);
            Ok(1_000 * (reached - 1) as u32 + part as u32)
        }
        _ if entry(reached - 1) == resistance => Ok(1_000 * (reached - 1) as u32),
        _ => Err(Refusal::OffTheTable),
    }
}

fn is_table(table: &[u32]) -> bool {
    (FEWEST_ENTRIES..=MOST_ENTRIES).contains(&table.len())
        && table.windows(2).all(|pair| pair[0] < pair[1])
        && table.iter().all(|&entry| entry <= LARGEST_ENTRY)
}

#[cfg(test)]
mod tests {
    use super::*;

    const OFF: Result<u32, Refusal> = Err(Refusal::OffTheTable);
    const BAD: Result<u32, Refusal> = Err(Refusal::BadTable);

    #[test]
    fn the_printed_entries() {
        let table = pt1000();
        assert_eq!(table.len(), 181);
        assert_eq!(
            (table[0], table[1], table[100]),
            (1_000_000, 1_003_908, 1_385_055)
        );
        assert!(is_table(&table));
    }

    #[test]
    fn between_entries_rounded_down() {
        let table = pt1000();
        let at = |milliohms| degrees(&table, milliohms, 1_000_000);
        assert_eq!((at(1_000_000), at(1_385_055)), (Ok(0), Ok(100_000)));
        assert_eq!(at(1_003_907), Ok(999));
        let last = table[180];
        assert_eq!(
            (at(last - 1), at(last), at(last + 1)),
            (Ok(179_999), Ok(180_000), OFF)
        );
        assert_eq!(at(999_999), OFF);
    }

    #[test]
    fn words_without_a_resistance() {
        let table = pt1000();
        for (probe, reference) in [
            (u32::MAX, 9),
            (9, u32::MAX),
            (9, 0),
            (0, 9),
            (u32::MAX - 1, 1),
        ] {
            assert_eq!(degrees(&table, probe, reference), OFF);
        }
        assert_eq!(degrees(&table, u32::MAX - 1, u32::MAX - 1), Ok(0));
    }

    #[test]
    fn tables_that_are_none() {
        let long: Vec<u32> = (0..513).collect();
        for table in [&[][..], &[5], &[5, 5], &[6, 5], &[0, 10_000_001], &long] {
            assert_eq!(degrees(table, 0, 0), BAD);
        }
        assert_eq!(degrees(&long[..512], 511, 1_000_000), Ok(511_000));
        assert_eq!(degrees(&[0, 10_000_000], 1, 3), Ok(33));
    }
}
