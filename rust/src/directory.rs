//! A map of a font's directory (document 02, request 12/14), in the order in which the library judges it.
//!
//! The library alone judges fonts. This only finds words for what it refused: where the two do not agree, no place is named.

use crate::font::FontPlace;
use crate::refusal::Reason;

/// The header, which has the table count at byte 4, and a record: tag, checksum, offset, length.
const HEADER: usize = 12;
const RECORD: usize = 16;

/// 'maxp' has the glyph count in its bytes 4 and 5.
const LEAST_MAXP: usize = 6;

type Fault = (Reason, FontPlace);

/// The 'just' table and the glyph count, or what bars them.
pub(crate) fn tables(font: &[u8]) -> Result<(&[u8], u32), Fault> {
    let records = records(font).ok_or((Reason::FontEnds, FontPlace::Directory))?;
    let first = |tag: &[u8; 4], place| first(records, tag).ok_or((Reason::MissingTable, place));
    let (just, maxp) = (first(b"just", FontPlace::Just)?, first(b"maxp", FontPlace::Maxp)?);
    let just_bytes = stretch(font, just).ok_or((Reason::FontEnds, FontPlace::Just))?;
    let maxp_bytes = stretch(font, maxp).filter(|maxp| maxp.len() >= LEAST_MAXP);
    let maxp_bytes = maxp_bytes.ok_or((Reason::FontEnds, FontPlace::Maxp))?;
    for (record, bytes, place) in [(just, just_bytes, FontPlace::Just), (maxp, maxp_bytes, FontPlace::Maxp)] {
        if sum(bytes) != number(&record[4..8]) {
            return Err((Reason::WrongSum, place));
        }
    }
    Ok((just_bytes, number(&maxp_bytes[4..6])))
}

/// The records of a directory that is all there.
pub(crate) fn records(font: &[u8]) -> Option<&[u8]> {
    let count = number(font.get(4..6)?) as usize;
    font.get(HEADER..HEADER + RECORD * count)
}

/// The first record of a tag.
pub(crate) fn first<'a>(records: &'a [u8], tag: &[u8]) -> Option<&'a [u8]> {
    records.chunks_exact(RECORD).find(|record| record.starts_with(tag))
}

/// The bytes that a record names, where they are all there.
pub(crate) fn stretch<'a>(font: &'a [u8], record: &[u8]) -> Option<&'a [u8]> {
    let (offset, length) = (number(&record[8..12]) as usize, number(&record[12..16]) as usize);
    font.get(offset..offset.checked_add(length)?)
}

/// The big-endian number that at most four bytes hold.
fn number(bytes: &[u8]) -> u32 {
    bytes.iter().fold(0, |number, &byte| number << 8 | u32::from(byte))
}

/// The checksum of a table.
fn sum(bytes: &[u8]) -> u32 {
    let word = |part: &[u8]| number(part) << (8 * (4 - part.len()));
    bytes.chunks(4).map(word).fold(0, u32::wrapping_add)
}
