//! Tables for the tests, built field by field.
#![allow(dead_code)]

pub mod command;

/// The glyph count that Apple's examples are read with.
pub const GLYPHS: u32 = 280;

pub fn words(values: &[u16]) -> Vec<u8> {
    values.iter().flat_map(|value| value.to_be_bytes()).collect()
}

pub fn longs(values: &[u32]) -> Vec<u8> {
    values.iter().flat_map(|value| value.to_be_bytes()).collect()
}

/// A pair of equal limits on both sides, shrinking by 0x0B00, written with a sign.
fn pair(class: u32, grow: u32, flags: [u16; 2]) -> Vec<u8> {
    [longs(&[class, grow, 0xFFFF_F500, grow, 0xFFFF_F500]), words(&flags)].concat()
}

/// What Apple's examples begin with: the header, the offsets of machine, clusters and actions, the width lookup, by which
/// glyph 2 has the first cluster and glyphs 3 to `last` the second, and the first cluster.
fn apple(machine: u16, actions: u16, last: u16) -> Vec<u8> {
    [
        longs(&[0x0001_0000]),
        words(&[0, 10, 0, machine, 48, actions]),
        words(&[2, 6, 2, 12, 1, 0, 2, 2, 0, last, 3, 28, 0xFFFF, 0xFFFF, 0, 0]),
        longs(&[1]),
        pair(0, 0x8000, [1, 1]),
    ]
    .concat()
}

/// Apple's simple example of source document 000, 104 bytes.
pub fn simple() -> Vec<u8> {
    [apple(0, 0, 275), longs(&[1]), pair(0, 0x2500, [2, 2])].concat()
}

/// Apple's complex example of source document 000, 444 bytes.
pub fn complex() -> Vec<u8> {
    let rows = [[1, 2, 1, 1, 0], [1, 2, 1, 1, 0], [1, 2, 1, 1, 1], [1, 2, 1, 1, 0]];
    [
        apple(168, 128, 226),
        longs(&[2]),
        pair(0, 0x2500, [2, 2]),
        pair(1, 0x2500, [0x1000, 2]),
        words(&[2, 6, 1, 6, 0, 0, 226, 2, 24, 0xFFFF, 0xFFFF, 0]),
        longs(&[1]),
        words(&[1, 1, 0, 12, 226, 0]),
        words(&[276, 0, 0, 0, 5, 8, 236, 256, 3, 223]),
        vec![4; 223],
        vec![0],
        rows.concat(),
        words(&[246, 1, 246, 0, 251, 0]),
    ]
    .concat()
}

/// One glyph that is unlimited, with a list of these actions, already written.
pub fn with_list(count: u32, actions: &[u8]) -> Vec<u8> {
    [
        longs(&[0x0001_0000]),
        words(&[0, 10, 0, 0, 24, 52, 8, 0, 1, 0]),
        longs(&[1, 0, 0, 0, 0, 0]),
        words(&[0x1000, 0]),
        words(&[8, 0, 1, 8]),
        longs(&[count]),
        actions.to_vec(),
    ]
    .concat()
}

/// The glyph is a ligature of glyphs 1 and 0, whose bytes stand last.
pub fn with_ligature() -> Vec<u8> {
    let action = [words(&[0, 0]), longs(&[24, 0, 0x8000]), words(&[7, 2, 1, 0])].concat();
    with_list(1, &action)
}

/// The glyph has so many actions that stretch it.
pub fn with_actions(count: u32) -> Vec<u8> {
    let action = [words(&[0, 3]), longs(&[8])].concat();
    with_list(count, &action.repeat(count as usize))
}

/// The sum of a table's 32-bit words, zeros filling the last, without its carries.
pub fn checksum(table: &[u8]) -> u32 {
    let byte = |(at, &byte): (usize, &u8)| u64::from(byte) << (24 - 8 * (at % 4));
    (table.iter().enumerate().map(byte).sum::<u64>() % (1 << 32)) as u32
}

/// A 'maxp' table of version 0.5.
pub fn maxp(glyphs: u16) -> Vec<u8> {
    [longs(&[0x0000_5000]), words(&[glyphs])].concat()
}

/// A font of these tables, in this order, each at a multiple of four; what lies between is not zeros.
pub fn font(tables: &[(&[u8; 4], &[u8])]) -> Vec<u8> {
    let mut directory = [longs(&[0x0001_0000]), words(&[tables.len() as u16, 0, 0, 0])].concat();
    let start = directory.len() + 16 * tables.len();
    let mut body = Vec::new();
    for (tag, table) in tables {
        directory.extend(*tag);
        directory.extend(longs(&[checksum(table), (start + body.len()) as u32, table.len() as u32]));
        body.extend(*table);
        body.resize(body.len().next_multiple_of(4), 0xEE);
    }
    [directory, body].concat()
}

/// A font of three tables around a 'just' table.
pub fn font_of(just: &[u8], glyphs: u16) -> Vec<u8> {
    font(&[(b"glyf", &[7; 5]), (b"just", just), (b"maxp", &maxp(glyphs))])
}

/// 'head' and 'hhea' with the units per em, and with the number of advances in 'hmtx'; their other fields are not zeros.
pub fn head(units_per_em: u16) -> Vec<u8> {
    [vec![0xEE; 18], words(&[units_per_em]), vec![0xEE; 34]].concat()
}

pub fn hhea(count: u16) -> Vec<u8> {
    [vec![0xEE; 34], words(&[count])].concat()
}

/// An 'hmtx' of these advances, each with a side bearing.
pub fn hmtx(advances: &[u16]) -> Vec<u8> {
    advances.iter().flat_map(|&advance| words(&[advance, 0xEEEE])).collect()
}

/// A font of a 'just' table and of advances, 1,000 units to the em.
pub fn font_with_advances(just: &[u8], glyphs: u16, advances: &[u16]) -> Vec<u8> {
    let hhea = hhea(advances.len() as u16);
    let hmtx = hmtx(advances);
    font(&[(b"head", &head(1_000)), (b"hhea", &hhea), (b"hmtx", &hmtx), (b"just", just), (b"maxp", &maxp(glyphs))])
}
