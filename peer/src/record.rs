//! A record of differences: its quietest run and its listing.

use crate::refusal::Refusal;

/// Digits of a capture number in a listing, and in one of the old form.
pub const DIGITS: usize = 8;
pub const OLD_DIGITS: usize = 2;

/// The start of the run of `width` neighbours whose largest less smallest is least, the earliest
/// among equals, and that spread.
pub fn quietest(record: &[i32], width: usize) -> Result<(usize, i64), Refusal> {
    if width == 0 {
        return Err(Refusal::Width);
    }
    let spreads = record.windows(width).map(spread).enumerate();
    spreads
        .min_by_key(|&(_, spread)| spread)
        .ok_or(Refusal::Width)
}

fn spread(run: &[i32]) -> i64 {
    let (mut least, mut largest) = (i32::MAX, i32::MIN);
    for &difference in run {
        least = least.min(difference);
        largest = largest.max(difference);
    }
    i64::from(largest) - i64::from(least)
}

/// A line for each difference, the captures counting up from `first`.
pub fn listing(record: &[i32], first: u32, digits: usize) -> Result<String, Refusal> {
    let captures = u64::from(first)..1 << (4 * digits);
    // An empty record has no capture number to judge.
    if !record.is_empty() && captures.end.saturating_sub(captures.start) < record.len() as u64 {
        return Err(Refusal::CaptureNumber);
    }
    let lines = (captures.start..).zip(record);
    Ok(lines
        .map(|(capture, &difference)| line(digits, capture, difference))
        .collect())
}

/// Nanoseconds are quanta × 250 ÷ 65,536, to the nearest ten-thousandth, halves away from zero.
fn line(digits: usize, capture: u64, difference: i32) -> String {
    let sign = if difference < 0 { '-' } else { ' ' };
    let quanta = u64::from(difference.unsigned_abs());
    let nearest = (quanta * 250 * 10_000 + 32_768) / 65_536;
    let (whole, part) = (nearest / 10_000, nearest % 10_000);
    format!("{capture:0digits$X} {sign}{whole:>7}.{part:04}\n")
}

#[cfg(test)]
mod tests {
    use super::*;

    #[test]
    fn the_earliest_of_equal_runs() {
        let record = [5, 5, 5, 4, 4, 4, 4, 9];
        assert_eq!(quietest(&record, 3), Ok((0, 0)));
        assert_eq!(quietest(&record, 4), Ok((3, 0)));
        assert_eq!(quietest(&record, 8), Ok((0, 5)));
        assert_eq!(quietest(&[i32::MIN, i32::MAX], 2), Ok((0, 4_294_967_295)));
    }

    #[test]
    fn widths_that_a_record_has_not() {
        for (record, width) in [(&[][..], 0), (&[], 1), (&[7], 0), (&[7], 2)] {
            assert_eq!(quietest(record, width), Err(Refusal::Width));
        }
    }

    #[test]
    fn a_line_of_either_form() {
        assert_eq!(line(OLD_DIGITS, 3, -125_902), "03 -    480.2780\n");
        assert_eq!(line(DIGITS, 0xABC, i32::MIN), "00000ABC -8192000.0000\n");
        // 1,024 quanta are 3.90625 ns: a half goes away from zero.
        assert_eq!(line(OLD_DIGITS, 0, 1_024), "00        3.9063\n");
        assert_eq!(line(OLD_DIGITS, 0, -1_024), "00 -      3.9063\n");
    }

    #[test]
    fn the_last_capture_number() {
        let wanted = "FE        0.0000\nFF        0.0038\n";
        assert_eq!(listing(&[0, 1], 0xFE, OLD_DIGITS).as_deref(), Ok(wanted));
        let refused = Err(Refusal::CaptureNumber);
        assert_eq!(listing(&[0, 1], 0xFF, OLD_DIGITS), refused);
        assert_eq!(listing(&[0], 0x100, OLD_DIGITS), refused);
        assert_eq!(listing(&[], u32::MAX, OLD_DIGITS).as_deref(), Ok(""));
        let wanted = "FFFFFFFF -      0.0038\n";
        assert_eq!(listing(&[-1], u32::MAX, DIGITS).as_deref(), Ok(wanted));
        assert_eq!(listing(&[0, 0], u32::MAX, DIGITS), refused);
    }
}
