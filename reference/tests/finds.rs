//! Finds in lookups (document 02, request 9/14): the value is that of a walk
//! from the front, the looks are those of plain halving.

mod common;

use common::{empty_table, Fields};
use reference::Direction::{Horizontal, Vertical};
use reference::*;

const SEED: u64 = 9;

/// A table whose horizontal width lookup is of these words; values 0 and 28
/// lead to a cluster each.
fn with_widths(lookup: &[u16]) -> Vec<u8> {
    let clusters = 16 + 2 * lookup.len() as u16;
    let fields = Fields::new().l(0x0001_0000).ws(&[0, 10, 0]).ws(&[0, clusters, 0]).ws(lookup);
    (0..2).fold(fields, |fields, _| fields.l(1).ls(&[0; 5]).ws(&[0, 0])).done()
}

/// The same for the vertical action lookup, with an empty list behind it; the
/// width lookup is of format 8 and has no glyphs.
fn with_actions(lookup: &[u16]) -> Vec<u8> {
    let fields = Fields::new().l(0x0001_0000).ws(&[0, 0, 10]).ws(&[0, 0, 22]).ws(&[8, 0, 0]);
    fields.ws(lookup).l(0).done()
}

/// Format 6 with value 0 for each of these glyphs.
fn singles(glyphs: &[u16]) -> Vec<u16> {
    let head = [6, 4, glyphs.len() as u16, 0, 0, 0];
    head.into_iter().chain(glyphs.iter().flat_map(|&glyph| [glyph, 0])).collect()
}

/// Format 2 with these units of first, last and value.
fn segments(units: &[[u16; 3]]) -> Vec<u16> {
    let head = [2, 6, units.len() as u16, 0, 0, 0];
    head.into_iter().chain(units.iter().flat_map(|&[first, last, value]| [last, first, value])).collect()
}

fn width(table: &[u8], n: u32, glyph: u16) -> Found {
    find(table, n, Horizontal, Which::Width, glyph).unwrap()
}

fn found(value: u16, looks: u32) -> Found {
    Found { value: Some(value), looks }
}

fn missed(looks: u32) -> Found {
    Found { value: None, looks }
}

/// The least b for which 2 to the power b exceeds n.
fn bound(n: usize) -> u32 {
    (0..).find(|&b| 1 << b > n).unwrap()
}

#[test]
fn the_lower_of_two_is_looked_at() {
    // Of 10, 20, 30, 40 first 20; then 10, or 30 and 40.
    let table = with_widths(&singles(&[10, 20, 30, 40]));
    let looks = |glyph| width(&table, 100, glyph).looks;
    assert_eq!([10, 20, 30, 40].map(looks), [2, 1, 2, 3]);
    assert_eq!([0, 15, 25, 35, 45].map(looks), [2, 2, 2, 3, 3]);
    assert_eq!((width(&table, 100, 30), width(&table, 100, 31)), (found(0, 2), missed(3)));
    // Of two, the first.
    let table = with_widths(&segments(&[[3, 5, 0], [6, 9, 28]]));
    assert_eq!([2, 3, 5].map(|glyph| width(&table, 100, glyph)), [missed(1), found(0, 1), found(0, 1)]);
    assert_eq!([6, 9, 10].map(|glyph| width(&table, 100, glyph)), [found(28, 2), found(28, 2), missed(2)]);
}

#[test]
fn looks_are_bounded() {
    assert_eq!([0, 1, 2, 3, 4, 7, 8, 1_000].map(bound), [0, 1, 2, 2, 3, 3, 4, 10]);
    for count in (0..70).chain([127, 128, 255, 256, 1_000, 4_000]) {
        let glyphs: Vec<u16> = (0..count).map(|k| 2 * k + 1).collect();
        let table = with_widths(&singles(&glyphs));
        let read = read_table(&table, 65_535).unwrap();
        assert_eq!(read.unit_count(Horizontal, Which::Width), count as usize);
        let all = (0..2 * count + 2).map(|glyph| read.find(Horizontal, Which::Width, glyph));
        let most = all.map(|found| found.looks).max();
        assert_eq!(most, Some(bound(count as usize)));
    }
}

#[test]
fn nothing_is_looked_at() {
    // No units; a deleted glyph; formats 0 and 8; no lookup; no direction.
    for table in [with_widths(&singles(&[])), with_widths(&singles(&[0xFFFF])), with_widths(&segments(&[]))] {
        assert_eq!([0, 7, 0xFFFE, 0xFFFF].map(|glyph| width(&table, 9, glyph)), [missed(0); 4]);
    }
    assert_eq!(width(&with_widths(&singles(&[0, 1, 2])), 9, 0xFFFF), missed(0));
    let every = with_widths(&[0, 0, 28, 0]);
    assert_eq!(
        [0, 1, 3, 0xFFFF].map(|glyph| width(&every, 3, glyph)),
        [found(0, 0), found(28, 0), missed(0), missed(0)]
    );
    let trimmed = with_widths(&[8, 5, 3, 28, 0, 0]);
    assert_eq!([4, 5, 6, 7].map(|glyph| width(&trimmed, 7, glyph)), [missed(0), found(28, 0), found(0, 0), missed(0)]);
    for which in [Which::Width, Which::Action] {
        for direction in Direction::BOTH {
            assert_eq!(find(&empty_table(), 1, direction, which, 0), Ok(missed(0)));
        }
    }
    let read = read_table(&trimmed, 7).unwrap();
    assert_eq!(read.find(Horizontal, Which::Action, 5), missed(0));
    assert_eq!(read.find(Vertical, Which::Width, 5), missed(0));
    assert_eq!(read.unit_count(Horizontal, Which::Width), 0);
}

#[test]
fn the_closing_unit_is_left_out() {
    // Counted or not, three units are two looks at most.
    let units = [[1, 1, 0], [3, 4, 28], [6, 6, 0], [0xFFFF, 0xFFFF, 77]];
    let mut uncounted = segments(&units);
    uncounted[2] = 3;
    let glyphs = [1, 3, 6, 7];
    let closing = with_widths(&singles(&[1, 3, 6, 0xFFFF]));
    let mut open = singles(&[1, 3, 6, 0xFFFF]);
    open[2] = 3;
    for table in [with_widths(&segments(&units)), with_widths(&uncounted)] {
        assert_eq!(glyphs.map(|glyph| width(&table, 9, glyph)), [found(0, 2), found(28, 1), found(0, 2), missed(2)]);
        assert_eq!(width(&table, 65_535, 0xFFFE), missed(2));
        assert_eq!(width(&table, 65_535, 0xFFFF), missed(0));
    }
    for table in [closing, with_widths(&open)] {
        assert_eq!(glyphs.map(|glyph| width(&table, 9, glyph)), [found(0, 2), found(0, 1), found(0, 2), missed(2)]);
        assert_eq!(read_table(&table, 9).unwrap().unit_count(Horizontal, Which::Width), 3);
    }
}

#[test]
fn a_unit_may_reach_the_end() {
    let table = with_widths(&segments(&[[0xFFF0, 0xFFFF, 28]]));
    assert_eq!(read_table(&table, 65_535).unwrap().unit_count(Horizontal, Which::Width), 1);
    let glyphs = [0xFFEF, 0xFFF0, 0xFFFE, 0xFFFF];
    let answers = [missed(1), found(28, 1), found(28, 1), missed(0)];
    assert_eq!(glyphs.map(|glyph| width(&table, 65_535, glyph)), answers);
}

#[test]
fn glyphs_past_the_count_have_looks_and_no_value() {
    let table = with_widths(&segments(&[[0, 4, 0], [5, 9, 28], [20, 30, 9_999]]));
    let answers = [found(28, 1), missed(1), missed(2), missed(2), missed(2)];
    assert_eq!([6, 7, 10, 20, 40].map(|glyph| width(&table, 7, glyph)), answers);
}

#[test]
fn format_4_has_a_value_for_each_glyph() {
    // Two units on one array: values 28, 0, 28 for 4, 5, 6 and 0, 28 for 8, 9.
    let lookup = [4, 6, 2, 0, 0, 0, 6, 4, 24, 9, 8, 26, 28, 0, 28];
    let table = with_widths(&lookup);
    let looked = [4, 5, 6].map(|glyph| width(&table, 20, glyph));
    assert_eq!(looked, [found(28, 1), found(0, 1), found(28, 1)]);
    let looked = [3, 7, 8, 9, 10].map(|glyph| width(&table, 20, glyph));
    assert_eq!(looked, [missed(1), missed(2), found(0, 2), found(28, 2), missed(2)]);
}

#[test]
fn an_action_value_of_zero_is_found() {
    // The list stands at 24, behind two units.
    let table = with_actions(&segments(&[[0, 1, 0], [2, 2, 24]]));
    let action = |glyph| find(&table, 9, Vertical, Which::Action, glyph).unwrap();
    assert_eq!([0, 1, 2, 3].map(action), [found(0, 1), found(0, 1), found(24, 2), missed(2)]);
    let read = read_table(&table, 9).unwrap();
    assert_eq!((read.list_at(Vertical, 0), read.list_at(Vertical, 2)), (None, Some(46)));
}

#[test]
fn a_table_is_refused_first() {
    let table = with_widths(&singles(&[3, 3]));
    let refused = |table: &[u8], n| find(table, n, Vertical, Which::Action, 0xFFFF).map_err(|fault| fault.number);
    assert_eq!(refused(&table, 9), Err(5));
    assert_eq!(refused(&table, 0), Err(2));
    assert_eq!(refused(&table[..9], 9), Err(1));
}

/// Where a lookup of a table stands, by its own bytes.
fn place(table: &[u8], direction: Direction, which: Which) -> Option<usize> {
    let offset = word(table, 6 + 2 * direction.index());
    match which {
        _ if offset == 0 => None,
        Which::Width => Some(offset + 6),
        Which::Action => Some(word(table, offset + 4)).filter(|&at| at != 0),
    }
}

fn word(table: &[u8], at: usize) -> usize {
    u16::from_be_bytes([table[at], table[at + 1]]) as usize
}

/// The units of a lookup of format 2, 4 or 6 as first, last and the place of
/// the third field; the closing one left out.
fn units(table: &[u8], base: usize) -> Vec<(usize, usize, usize)> {
    let unit = |k: usize| match word(table, base) {
        6 => (word(table, base + 12 + 4 * k), word(table, base + 12 + 4 * k), base + 14 + 4 * k),
        2 | 4 => (word(table, base + 14 + 6 * k), word(table, base + 12 + 6 * k), base + 16 + 6 * k),
        _ => unreachable!(),
    };
    let counted = if [2, 4, 6].contains(&word(table, base)) { word(table, base + 4) } else { 0 };
    (0..counted).map(unit).filter(|unit| unit.0 != 0xFFFF).collect()
}

/// The values of all glyphs, by walking over the lookup once.
fn walked(table: &[u8], base: usize, n: usize) -> Vec<Option<u16>> {
    let mut values = vec![None; 0x1_0000];
    let mut give = |glyph: usize, at: usize| {
        if glyph < n {
            values[glyph] = Some(word(table, at) as u16);
        }
    };
    match word(table, base) {
        0 => (0..n).for_each(|glyph| give(glyph, base + 2 + 2 * glyph)),
        8 => (0..word(table, base + 4)).for_each(|k| give(word(table, base + 2) + k, base + 6 + 2 * k)),
        4 => units(table, base).iter().for_each(|&(first, last, at)| {
            (first..=last).for_each(|glyph| give(glyph, base + word(table, at) + 2 * (glyph - first)));
        }),
        _ => units(table, base).iter().for_each(|&(first, last, at)| (first..=last).for_each(|glyph| give(glyph, at))),
    }
    values
}

fn plain_looks(units: &[(usize, usize, usize)], glyph: usize) -> u32 {
    let middle = match units.len() {
        0 => return 0,
        even if even % 2 == 0 => even / 2 - 1,
        odd => odd / 2,
    };
    match units[middle] {
        (first, _, _) if glyph < first => 1 + plain_looks(&units[..middle], glyph),
        (_, last, _) if glyph > last => 1 + plain_looks(&units[middle + 1..], glyph),
        _ => 1,
    }
}

/// Holds every find in a table against the plain ones.
fn compare(table: &[u8], n: u32) {
    let read = read_table(table, n).unwrap();
    for direction in Direction::BOTH {
        for which in [Which::Width, Which::Action] {
            let Some(base) = place(table, direction, which) else { continue };
            let (units, values) = (units(table, base), walked(table, base, n as usize));
            assert_eq!(read.unit_count(direction, which), units.len());
            for glyph in 0..=0xFFFF {
                let found = read.find(direction, which, glyph);
                let looks = if glyph == 0xFFFF { 0 } else { plain_looks(&units, glyph as usize) };
                assert_eq!(found, Found { value: values[glyph as usize], looks });
                assert!(looks <= bound(units.len()));
            }
        }
    }
}

#[test]
fn finds_agree_with_a_walk() {
    for index in 0..40 {
        let (table, n) = generate::long_table(SEED, index);
        compare(&table, n);
    }
    for index in 0..60 {
        let (table, n) = generate::sound_table(SEED, index);
        compare(&table, n);
    }
}
