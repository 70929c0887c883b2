//! What the C entry has to answer and to leave in buffers of several sizes.

use crate::listing::listing;

/// The buffers that each plan text is listed into.
pub const SIZES: [usize; 4] = [0, 511, 512, 4_096];
/// So many bytes do the records of one text have.
pub const RECORDS_LENGTH: usize = SIZES[0] + SIZES[1] + SIZES[2] + SIZES[3] + 8 * SIZES.len();
const LEAST_BUFFER: usize = 512;

/// The byte at a place of a buffer before the call. The C driver has the same rule.
fn pattern(place: usize) -> u8 {
    (place * 7 + place / 256 + 13) as u8
}

/// The answered length, as eight bytes with the lowest first, and the whole buffer behind it.
pub fn record(text: &[u8], size: usize) -> Vec<u8> {
    let mut buffer: Vec<u8> = (0..size).map(pattern).collect();
    let written = if size < LEAST_BUFFER { String::new() } else { listing(text) };
    buffer[..written.len()].copy_from_slice(written.as_bytes());
    let mut record = (written.len() as u64).to_le_bytes().to_vec();
    record.append(&mut buffer);
    record
}
