//! Straight from a font file: document 02, request 12/14.

mod common;

use common::*;
use reference::font::checksum;
use reference::generate;
use reference::*;

/// A record of a directory.
#[derive(Clone, Copy)]
struct Record {
    tag: [u8; 4],
    checksum: u32,
    offset: u32,
    length: u32,
}

/// A font of these records and of what stands past the directory.
fn font(records: &[Record], body: &[u8]) -> Vec<u8> {
    let head = Fields::new().l(0x0001_0000).ws(&[records.len() as u16, 1, 2, 3]);
    let all = records
        .iter()
        .fold(head, |out, record| out.bs(&record.tag).ls(&[record.checksum, record.offset, record.length]));
    all.bs(body).done()
}

fn just(checksum: u32, offset: u32, length: u32) -> Record {
    Record { tag: *b"just", checksum, offset, length }
}

fn maxp(checksum: u32, offset: u32, length: u32) -> Record {
    Record { tag: *b"maxp", checksum, offset, length }
}

/// The smallest table at 44 and a 'maxp' of 6 bytes at 56, with one glyph; two
/// bytes between them that nothing reads, and one at the end.
fn body() -> Vec<u8> {
    Fields::new().bs(&empty_table()).bs(&[0xAA, 0xBB]).l(0x0000_5000).w(1).b(0xCC).done()
}

// 00010000 + 00000000 + 0000(0000), and 00005000 + 0001(0000).
const JUST_SUM: u32 = 0x0001_0000;
const MAXP_SUM: u32 = 0x0001_5000;

const RECORDS: [Record; 2] = [
    Record { tag: *b"just", checksum: JUST_SUM, offset: 44, length: 10 },
    Record { tag: *b"maxp", checksum: MAXP_SUM, offset: 56, length: 6 },
];

/// The number of the refusal of a font; these have no offset.
fn refused(font: &[u8]) -> u32 {
    number(open_font(font).expect_err("a refusal"))
}

fn with(records: &[Record]) -> Vec<u8> {
    font(records, &body())
}

#[test]
fn a_small_font() {
    let opened = Opened { offset: 44, length: 10, n: 1 };
    let bytes = with(&RECORDS);
    assert_eq!(bytes.len(), 63);
    assert_eq!(open_font(&bytes), Ok(opened));
    // The order of the records, and the version, do not matter.
    let [first, second] = RECORDS;
    assert_eq!(open_font(&with(&[second, first])), Ok(opened));
    for version in [*b"OTTO", *b"true", [0; 4], *b"ttcf"] {
        let mut other = bytes.clone();
        other[..4].copy_from_slice(&version);
        assert_eq!(open_font(&other), Ok(opened));
    }
    // Nor do the search fields, or other tables, which may lie anywhere.
    let mut other = bytes.clone();
    other[6..12].fill(0xFF);
    assert_eq!(open_font(&other), Ok(opened));
    let third = Record { tag: *b"glyf", checksum: 1, offset: u32::MAX, length: u32::MAX };
    let shift = |record: Record| Record { offset: record.offset + 16, ..record };
    let three = with(&[third, shift(first), shift(second)]);
    assert_eq!(open_font(&three), Ok(Opened { offset: 60, length: 10, n: 1 }));
}

#[test]
fn sums() {
    assert_eq!(checksum(&[]), 0);
    assert_eq!(checksum(&[1]), 0x0100_0000);
    assert_eq!(checksum(&[1, 2]), 0x0102_0000);
    assert_eq!(checksum(&[1, 2, 3]), 0x0102_0300);
    assert_eq!(checksum(&[1, 2, 3, 4]), 0x0102_0304);
    assert_eq!(checksum(&[1, 2, 3, 4, 5]), 0x0602_0304);
    // FFFFFFFF + 00000002 = 1, and the carry is lost.
    assert_eq!(checksum(&[0xFF, 0xFF, 0xFF, 0xFF, 0, 0, 0, 2]), 1);
    assert_eq!(checksum(&[0x80, 0, 0, 0, 0x80]), 0);
    // 00010000 + 0 + 0000FFFF + FFFFFFFF: a table of 16 bytes, the last six of
    // which nothing reads.
    let body = Fields::new().bs(&empty_table()).bs(&[0xFF; 6]).l(0x0000_5000).w(1).done();
    let records = [just(0x0001_FFFE, 44, 16), maxp(MAXP_SUM, 60, 6)];
    assert_eq!(open_font(&font(&records, &body)), Ok(Opened { offset: 44, length: 16, n: 1 }));
}

#[test]
fn the_directory_must_be_whole() {
    let bytes = with(&RECORDS);
    // 12 + 2 x 16 bytes; at 44 it is whole, and the tables are not there.
    for length in 0..44 {
        assert_eq!(refused(&bytes[..length]), 21);
    }
    assert_eq!(refused(&bytes[..44]), 21);
    // No records at all: the directory is whole, and both are missing.
    assert_eq!(refused(&font(&[], &[])), 22);
    assert_eq!(refused(&font(&[], &[])[..11]), 21);
    // Too many tables for the file: (63 - 12) / 16 is 3.
    let with_count = |count: u8| {
        let mut other = bytes.clone();
        other[5] = count;
        other
    };
    assert!(open_font(&with_count(3)).is_ok());
    assert_eq!(refused(&with_count(4)), 21);
    // One record is left out.
    assert_eq!(refused(&with_count(1)), 22);
    assert_eq!(refused(&with_count(0)), 22);
    let mut most = bytes.clone();
    most[4..6].fill(0xFF);
    assert_eq!(refused(&most), 21);
}

#[test]
fn both_must_be_there() {
    let [first, second] = RECORDS;
    let named = |record: Record, tag: &[u8; 4]| Record { tag: *tag, ..record };
    assert_eq!(refused(&with(&[named(first, b"Just"), second])), 22);
    assert_eq!(refused(&with(&[first, named(second, b"maxP")])), 22);
    assert_eq!(refused(&with(&[first, first])), 22);
    // 22 comes before all that is wrong with the one that is there.
    assert_eq!(refused(&with(&[just(0, u32::MAX, u32::MAX), named(second, b"maxq")])), 22);
    assert_eq!(refused(&with(&[named(first, b"jusu"), maxp(0, 56, 5)])), 22);
}

#[test]
fn both_must_be_inside() {
    let [first, second] = RECORDS;
    // The file has 63 bytes.
    assert_eq!(refused(&with(&[first, maxp(MAXP_SUM, 58, 6)])), 21);
    assert_eq!(refused(&with(&[first, maxp(MAXP_SUM, 57, 6)])), 23);
    assert_eq!(refused(&with(&[just(JUST_SUM, 54, 10), second])), 21);
    assert_eq!(refused(&with(&[just(JUST_SUM, 53, 10), second])), 23);
    // Length 0 is inside at the end, not past it; then it is too short for a
    // table: refusal 1.
    assert_eq!(refused(&with(&[just(0, 63, 0), second])), 1);
    assert_eq!(refused(&with(&[just(0, 64, 0), second])), 21);
    // Sums past 32 bits do not come round.
    assert_eq!(refused(&with(&[just(JUST_SUM, 0xFFFF_FFFC, 48), second])), 21);
    assert_eq!(refused(&with(&[first, maxp(MAXP_SUM, 56, u32::MAX)])), 21);
    // A 'maxp' under 6 bytes, with a right or a wrong sum.
    for (length, sum) in [(5, 0x0000_5000), (4, 0x0000_5000), (0, 0), (5, 9)] {
        assert_eq!(refused(&with(&[first, maxp(sum, 56, length)])), 21);
    }
    // 7 bytes, the last of them CC.
    assert!(open_font(&with(&[first, maxp(0x0001_5000 + 0xCC00, 56, 7)])).is_ok());
    // 21 comes before 23, whichever table it is.
    assert_eq!(refused(&with(&[just(9, 44, 10), maxp(MAXP_SUM, 56, 5)])), 21);
    assert_eq!(refused(&with(&[just(JUST_SUM, 64, 0), maxp(9, 56, 6)])), 21);
}

#[test]
fn both_sums_must_agree() {
    let [first, second] = RECORDS;
    assert_eq!(refused(&with(&[just(JUST_SUM + 1, 44, 10), second])), 23);
    assert_eq!(refused(&with(&[first, maxp(MAXP_SUM - 1, 56, 6)])), 23);
    // The bytes that follow do not count: AABB and CC.
    assert_eq!(refused(&with(&[just(JUST_SUM + 0xAABB, 44, 10), second])), 23);
    assert_eq!(refused(&with(&[first, maxp(MAXP_SUM + 0xCC00, 56, 6)])), 23);
    // 23 comes before the table's own refusals, here 1.
    assert_eq!(refused(&with(&[just(9, 44, 9), second])), 23);
    assert_eq!(refused(&with(&[just(JUST_SUM, 44, 9), second])), 1);
}

#[test]
fn the_first_of_a_tag_counts() {
    // With three records the body stands at 60.
    let three = |records: [Record; 3]| open_font(&with(&records));
    let (good_just, good_maxp) = (just(JUST_SUM, 60, 10), maxp(MAXP_SUM, 72, 6));
    let opened = Ok(Opened { offset: 60, length: 10, n: 1 });
    for bad in [just(0, 60, 10), just(0, u32::MAX, 10), just(0, 60, 0)] {
        assert_eq!(three([good_just, bad, good_maxp]), opened);
        assert_eq!(three([good_just, good_maxp, bad]), opened);
        assert!(three([bad, good_just, good_maxp]).is_err());
    }
    for bad in [maxp(0, 72, 6), maxp(MAXP_SUM, 72, 5)] {
        assert_eq!(three([good_just, good_maxp, bad]), opened);
        assert_eq!(three([bad, good_maxp, good_just]).map_err(number), Err(if bad.length == 5 { 21 } else { 23 }));
    }
}

#[test]
fn then_the_tables_refusals() {
    let of = |table: &[u8], n: u16| {
        let maxp_at = 44 + table.len().next_multiple_of(4) as u32;
        let body = Fields::new().bs(table).to(maxp_at as usize - 44).l(0x0000_5000).w(n).done();
        let records =
            [just(checksum(table), 44, table.len() as u32), maxp(checksum(&body[maxp_at as usize - 44..]), maxp_at, 6)];
        open_font(&font(&records, &body))
    };
    let fault = |number, at| Err(Fault { number, at });
    assert_eq!(of(&empty_table(), 65_535), Ok(Opened { offset: 44, length: 10, n: 65_535 }));
    assert_eq!(of(&empty_table(), 0), fault(2, 0));
    assert_eq!(of(&empty_table()[..9], 0), fault(1, 0));
    assert_eq!(of(&[0; 10], 1), fault(3, 0));
    assert_eq!(of(&vec![0; 32_769], 1), fault(1, 0));
    // Offsets count from the table's own start: a lookup format at 16, and a
    // field that is not there at 10, though the file goes on.
    let head = |offset| Fields::new().l(0x0001_0000).ws(&[0, offset, 0]);
    assert_eq!(of(&head(10).ws(&[0, 0, 0, 9]).done(), 1), fault(5, 16));
    assert_eq!(of(&head(10).done(), 1), fault(4, 10));
    assert_eq!(of(&head(0xFFFF).done(), 1), fault(4, 0xFFFF));
    // The count of 'maxp' is the one that the table is read with.
    let table = table_with_records(&[([0; 4], [0, 0])]);
    assert!(of(&table, 1).is_ok());
    let all = head(10).ws(&[0, 20, 0]).ws(&[0, 0]).l(1).l(0).ls(&[0; 4]).ws(&[0, 0]).done();
    // Format 0 at 16 with N values: one at 18; the second would be at 20, where
    // the cluster's own count starts with 0, a value that names it again; the
    // third, 1, names a cluster at 21, whose count is 0x100.
    assert!(of(&all, 1).is_ok() && of(&all, 2).is_ok());
    assert_eq!(of(&all, 3), fault(6, 21));
}

#[test]
fn tables_may_overlap() {
    // 'maxp' in the header: its count is the table count, 2. The first twelve
    // bytes are 00010000 00020001 00020003.
    let [first, second] = RECORDS;
    let two = with(&[first, maxp(0x0005_0004, 0, 12)]);
    assert_eq!(open_font(&two), Ok(Opened { offset: 44, length: 10, n: 2 }));
    // 'maxp' on 'just' itself: its count is the format, 0.
    assert_eq!(refused(&with(&[first, maxp(0x0001_0000, 44, 6)])), 2);
    // 'just' over the two bytes between and 'maxp' too.
    let sum = JUST_SUM + 0xAABB + MAXP_SUM;
    let long = with(&[just(sum, 44, 18), second]);
    assert_eq!(open_font(&long), Ok(Opened { offset: 44, length: 18, n: 1 }));
}

/// The answer by the letter, over plain numbers.
fn plain(font: &[u8]) -> Result<(u64, u64, u32), (u32, u64)> {
    let number = |at: u64, size: u64| (at..at + size).fold(0u64, |value, at| value << 8 | font[at as usize] as u64);
    let length = font.len() as u64;
    if length < 12 || length < 12 + 16 * number(4, 2) {
        return Err((21, 0));
    }
    let records: Vec<u64> = (0..number(4, 2)).map(|index| 12 + 16 * index).collect();
    let find = |tag: u64| records.iter().find(|&&at| number(at, 4) == tag).copied();
    let (Some(just), Some(maxp)) = (find(0x6A75_7374), find(0x6D61_7870)) else { return Err((22, 0)) };
    let field = |record: u64, index: u64| number(record + 4 * index, 4);
    let outside = |record: u64| field(record, 2) + field(record, 3) > length;
    if outside(just) || outside(maxp) || field(maxp, 3) < 6 {
        return Err((21, 0));
    }
    let sum = |record: u64| {
        let (start, end) = (field(record, 2), field(record, 2) + field(record, 3));
        let byte = |at: u64| (number(at, 1)) << (24 - 8 * ((at - start) % 4));
        (start..end).map(byte).sum::<u64>() % (1 << 32)
    };
    if [just, maxp].iter().any(|&record| sum(record) != field(record, 1)) {
        return Err((23, 0));
    }
    let (start, count) = (field(just, 2), number(field(maxp, 2) + 4, 2) as u32);
    let table = &font[start as usize..(start + field(just, 3)) as usize];
    match check_table(table, count) {
        Ok(()) => Ok((start, field(just, 3), count)),
        Err(fault) => Err((fault.number, fault.at)),
    }
}

#[test]
fn drawn_fonts_agree_with_plain_numbers() {
    for index in 0..5_000 {
        let font = generate::font(120, index);
        let found = open_font(&font);
        let found = found.map(|opened| (opened.offset as u64, opened.length as u64, opened.n));
        assert_eq!(found.map_err(|fault| (fault.number, fault.at)), plain(&font), "draw {index}");
    }
}

#[test]
fn every_cut_of_a_font_is_refused() {
    // A font that ends with the later of its two tables.
    let mut bytes = with(&RECORDS);
    bytes.pop();
    assert!(open_font(&bytes).is_ok());
    for length in 0..bytes.len() {
        assert_eq!(refused(&bytes[..length]), 21);
    }
}
