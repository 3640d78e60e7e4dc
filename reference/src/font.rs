//! Straight from a font file (document 02, request 12/14): the OpenType
//! directory, the glyph count of 'maxp', and the stretch that holds 'just'.

use crate::bytes::{get_u16, get_u32, refuse, Fault, CHECKSUM, FONT, MISSING};
use crate::table::check_table;

/// Version, table count and three search fields, of which only the count is
/// read.
pub const FONT_HEADER: usize = 12;
/// Tag, checksum, offset and length.
pub const FONT_RECORD: usize = 16;
pub const JUST: [u8; 4] = *b"just";
pub const MAXP: [u8; 4] = *b"maxp";
/// The glyph count ends here in 'maxp'.
const LEAST_MAXP: u64 = 6;

/// Where the accepted 'just' table of a font is, and the font's glyph count.
#[derive(Clone, Copy, Debug, PartialEq, Eq)]
pub struct Opened {
    pub offset: usize,
    pub length: usize,
    pub n: u32,
}

/// A record of the directory.
#[derive(Clone, Copy, Debug, PartialEq, Eq)]
pub struct FontRecord {
    pub tag: [u8; 4],
    pub checksum: u32,
    pub offset: u32,
    pub length: u32,
}

/// Finds 'just' and 'maxp' in a whole font and judges 'just' with the glyph
/// count of 'maxp'. Refusals are 21 for the directory, 22, 21 for the two
/// tables, 23, and then those of the 'just' table, with offsets that count from
/// its own start.
pub fn open_font(font: &[u8]) -> Result<Opened, Fault> {
    let records = directory(font)?;
    let (just, maxp) = (first_of(records, JUST), first_of(records, MAXP));
    let (Some(just), Some(maxp)) = (just, maxp) else { return Err(Fault::plain(MISSING)) };
    refuse(!is_inside(font, &just) || !is_inside(font, &maxp) || (maxp.length as u64) < LEAST_MAXP, FONT)?;
    let (table, count) = (stretch(font, &just), stretch(font, &maxp));
    refuse(checksum(table) != just.checksum || checksum(count) != maxp.checksum, CHECKSUM)?;
    let n = get_u16(count, 4) as u32;
    check_table(table, n)?;
    Ok(Opened { offset: just.offset as usize, length: just.length as usize, n })
}

/// The records of the directory, which must be wholly in the file.
fn directory(font: &[u8]) -> Result<&[[u8; FONT_RECORD]], Fault> {
    refuse(font.len() < FONT_HEADER, FONT)?;
    let end = FONT_HEADER + FONT_RECORD * get_u16(font, 4) as usize;
    refuse(font.len() < end, FONT)?;
    Ok(font[FONT_HEADER..end].as_chunks().0)
}

/// The first record with a tag.
fn first_of(records: &[[u8; FONT_RECORD]], tag: [u8; 4]) -> Option<FontRecord> {
    records.iter().map(record).find(|record| record.tag == tag)
}

fn record(bytes: &[u8; FONT_RECORD]) -> FontRecord {
    FontRecord {
        tag: [bytes[0], bytes[1], bytes[2], bytes[3]],
        checksum: get_u32(bytes, 4),
        offset: get_u32(bytes, 8),
        length: get_u32(bytes, 12),
    }
}

/// Whether a table is wholly in the file.
fn is_inside(font: &[u8], record: &FontRecord) -> bool {
    record.offset as u64 + record.length as u64 <= font.len() as u64
}

/// The bytes of a table that is wholly in the file.
fn stretch<'a>(font: &'a [u8], record: &FontRecord) -> &'a [u8] {
    &font[record.offset as usize..][..record.length as usize]
}

/// The sum of the 32-bit words, zero bytes filling the last one; what is
/// carried out of 32 bits is thrown away.
pub fn checksum(bytes: &[u8]) -> u32 {
    let word = |part: &[u8]| {
        let mut word = [0; 4];
        word[..part.len()].copy_from_slice(part);
        u32::from_be_bytes(word)
    };
    bytes.chunks(4).map(word).fold(0, u32::wrapping_add)
}
