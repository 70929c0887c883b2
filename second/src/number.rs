//! Decimal numbers as plans and calls write them.

/// The number that `field` says: digits only, no zero in front unless it is 0, and at most `most`.
pub fn decimal(field: &[u8], most: u32) -> Option<u32> {
    let text = std::str::from_utf8(field).ok()?;
    let all_digits = !text.is_empty() && text.bytes().all(|b| b.is_ascii_digit());
    let zero_in_front = text.len() > 1 && text.starts_with('0');
    if !all_digits || zero_in_front {
        return None;
    }
    // A text of digits that does not fit is as good as one above `most`.
    text.parse().ok().filter(|&value| value <= most)
}

#[cfg(test)]
mod tests {
    use super::decimal;

    #[test]
    fn what_a_number_is() {
        assert_eq!(decimal(b"0", 65_535), Some(0));
        assert_eq!(decimal(b"65535", 65_535), Some(65_535));
        assert_eq!(decimal(b"4294967295", u32::MAX), Some(u32::MAX));
        let bad: [&[u8]; 9] = [b"", b"00", b"01", b"+1", b"-1", b" 1", b"1 ", b"1\r", b"\xff"];
        for field in bad {
            assert_eq!(decimal(field, u32::MAX), None, "{field:?}");
        }
        assert_eq!(decimal(b"65536", 65_535), None);
        assert_eq!(decimal(b"4294967296", u32::MAX), None);
        assert_eq!(decimal(b"99999999999999999999999", u32::MAX), None);
    }
}
