//! Sheets by hand: what is one, and near misses.

mod common;

use common::Fields;
use reference::*;
use Direction::{Horizontal, Vertical};

const NONE: [u32; 8] = [0; 8];

/// A sheet of N glyphs whose horizontal direction is given.
fn sheet(n: u32, horizontal: Fields) -> Vec<u8> {
    Fields::new().l(n).bs(&horizontal.done()).ls(&NONE).done()
}

fn no_machine() -> Fields {
    Fields::new().ls(&[0; 4])
}

fn pair(class: u32, grow: u32) -> Vec<u8> {
    Fields::new().l(class).ls(&[grow, 0, 0, 0]).ws(&[0, 0]).done()
}

/// Clusters of one pair with the given grow limits, and their runs.
fn clusters(n: u32, grows: &[u32], runs: &[[u16; 3]]) -> Vec<u8> {
    let mut fields = no_machine().l(grows.len() as u32);
    for &grow in grows {
        fields = fields.l(1).bs(&pair(0, grow));
    }
    fields = fields.l(runs.len() as u32);
    for run in runs {
        fields = fields.ws(run);
    }
    sheet(n, fields.ls(&[0, 0]))
}

#[test]
fn the_empty_sheet() {
    let empty = |n: u32| Fields::new().l(n).ls(&NONE).ls(&NONE).done();
    assert!(check_sheet(&empty(1)));
    assert!(check_sheet(&empty(65_535)));
    assert!(!check_sheet(&empty(0)));
    assert!(!check_sheet(&empty(65_536)));
    assert!(!check_sheet(&empty(0x0001_0001)));
    assert!(!check_sheet(&[]));
    for length in 0..68 {
        assert!(!check_sheet(&empty(1)[..length]));
    }
    assert!(!check_sheet(&Fields(empty(1)).b(0).done()));
    assert!(!check_sheet(&Fields::new().l(1).ls(&NONE).ls(&[2, 0, 0, 0, 0, 0, 0, 0]).done()));
}

#[test]
fn runs_of_clusters() {
    assert!(check_sheet(&clusters(5, &[1, 2], &[[0, 0, 0], [1, 3, 1], [4, 4, 0]])));
    assert!(check_sheet(&clusters(5, &[1], &[[0, 0, 0], [2, 4, 0]])));
    // Not maximal, not rising, past N, turned round.
    assert!(!check_sheet(&clusters(5, &[1], &[[0, 0, 0], [1, 4, 0]])));
    assert!(!check_sheet(&clusters(5, &[1, 2], &[[0, 2, 0], [2, 3, 1]])));
    assert!(!check_sheet(&clusters(5, &[1], &[[0, 5, 0]])));
    assert!(!check_sheet(&clusters(5, &[1], &[[3, 2, 0]])));
    // Numbers out of order of first use, unused, not there, or twice.
    assert!(!check_sheet(&clusters(5, &[1, 2], &[[0, 0, 1], [1, 1, 0]])));
    assert!(!check_sheet(&clusters(5, &[1, 2], &[[0, 0, 0]])));
    assert!(!check_sheet(&clusters(5, &[1], &[[0, 0, 0], [1, 1, 1]])));
    assert!(!check_sheet(&clusters(5, &[1, 1], &[[0, 0, 0], [1, 1, 1]])));
    assert!(!check_sheet(&clusters(5, &[1], &[])));
}

#[test]
fn pairs() {
    let with = |count: u32, pairs: &[u8]| {
        check_sheet(&sheet(1, no_machine().l(1).l(count).bs(pairs).l(1).ws(&[0, 0, 0]).ls(&[0, 0])))
    };
    assert!(with(1, &pair(127, 16 << 16)));
    assert!(!with(1, &pair(128, 0)));
    assert!(!with(1, &pair(0, (16 << 16) + 1)));
    assert!(!with(0, &[]));
    let two = |first, second| Fields::new().bs(&pair(first, 0)).bs(&pair(second, 0)).done();
    assert!(with(2, &two(3, 4)));
    assert!(!with(2, &two(3, 3)));
    assert!(!with(2, &two(4, 3)));
    let flags = |grow: u16, shrink: u16| Fields::new().ls(&[0; 5]).ws(&[grow, shrink]).done();
    assert!(with(1, &flags(0x1003, 3)));
    for bad in [4, 15, 0x0010, 0x2000, 0x1004, 0x8000] {
        assert!(!with(1, &flags(bad, 0)));
        assert!(!with(1, &flags(0, bad)));
    }
    let shrink = |size: u32| Fields::new().ls(&[0, 0, size, 0, 0]).ws(&[0, 0]).done();
    assert!(with(1, &shrink(16 << 16)));
    assert!(!with(1, &shrink(0xFFFF_FFFF)));
}

#[test]
fn actions() {
    let with = |kind: u16, data: &[u8]| {
        let list = no_machine().ls(&[0, 0]).l(1).l(1).ws(&[127, kind]).l(data.len() as u32).bs(data);
        check_sheet(&sheet(2, list.l(1).ws(&[1, 1, 0])))
    };
    assert!(with(1, &[0, 1]));
    assert!(!with(1, &[0, 2]));
    assert!(!with(1, &[0, 1, 0, 0]));
    assert!(with(2, &[1, 2, 3, 4, 0xFF, 0xFF, 0, 1]));
    assert!(!with(2, &[1, 2, 3, 4, 0, 0, 0xFF, 0xFF]));
    assert!(with(3, &[]));
    assert!(!with(3, &[0, 0, 0, 0]));
    assert!(with(4, &[9; 16]));
    assert!(!with(4, &[9; 12]));
    assert!(with(5, &[0, 0, 0, 1]));
    assert!(!with(5, &[0, 1, 0, 1]));
    assert!(!with(6, &[]));
    let broken = |count: u16, glyphs: &[u16]| Fields::new().ls(&[1, 2]).ws(&[3, count]).ws(glyphs).done();
    assert!(with(0, &broken(1, &[1])));
    assert!(!with(0, &broken(1, &[2])));
    assert!(!with(0, &broken(0, &[])));
    assert!(!with(0, &broken(1, &[1, 1])));
    assert!(!with(0, &broken(2, &[1])));
    assert!(with(0, &broken(32, &[0; 32])));
    assert!(!with(0, &broken(33, &[0; 33])));
    assert!(!with(0, &[0; 11]));
}

/// A machine with one class run, entries and cells.
fn machine(sizes: [u32; 2], run: [u16; 3], entries: &[[u16; 2]], cells: &[u8]) -> Vec<u8> {
    let mut fields = Fields::new().l(1).ls(&sizes).l(1).ws(&run).l(entries.len() as u32);
    for entry in entries {
        fields = fields.ws(entry);
    }
    sheet(5, fields.l(cells.len() as u32).bs(cells).ls(&[0; 4]))
}

#[test]
fn machines() {
    let run = [0, 4, 3];
    let zeros = [0; 8];
    assert!(check_sheet(&machine([2, 4], run, &[[0, 0]], &zeros)));
    assert!(check_sheet(&machine([2, 4], [4, 4, 2], &[[1, 0xFFFF]], &zeros)));
    assert!(!check_sheet(&machine([2, 4], [0, 4, 1], &[[0, 0]], &zeros)));
    assert!(!check_sheet(&machine([2, 4], [0, 4, 4], &[[0, 0]], &zeros)));
    assert!(!check_sheet(&machine([2, 4], [0, 5, 3], &[[0, 0]], &zeros)));
    assert!(!check_sheet(&machine([2, 4], run, &[[2, 0]], &zeros)));
    assert!(!check_sheet(&machine([2, 4], run, &[[0, 0]], &zeros[..7])));
    assert!(!check_sheet(&machine([2, 3], run, &[[0, 0]], &zeros[..6])));
    assert!(!check_sheet(&machine([1, 4], run, &[[0, 0]], &zeros[..4])));
    // Entries twice, unused, or out of order.
    assert!(!check_sheet(&machine([2, 4], run, &[[0, 0], [0, 0]], &[0, 1, 0, 0, 0, 0, 0, 0])));
    assert!(!check_sheet(&machine([2, 4], run, &[[0, 0], [1, 0]], &zeros)));
    assert!(!check_sheet(&machine([2, 4], run, &[[0, 0], [1, 0]], &[1, 0, 0, 0, 0, 0, 0, 0])));
    assert!(check_sheet(&machine([2, 4], run, &[[0, 0], [1, 0]], &[0, 0, 0, 0, 0, 0, 0, 1])));
    // Three rows are the least only if rows 0 and 1 lead to row 2.
    let three = |last: u8| {
        let mut cells = [0; 12];
        cells[7] = last;
        machine([3, 4], run, &[[0, 0], [2, 0]][..1 + last as usize], &cells)
    };
    assert!(check_sheet(&three(1)));
    assert!(!check_sheet(&three(0)));
    let mut own = [0; 12];
    own[11] = 1;
    assert!(!check_sheet(&machine([3, 4], run, &[[0, 0], [2, 0]], &own)));
    // Row 3 through row 2, though row 2 comes after the two first.
    let mut through = [0; 16];
    through[0] = 0;
    through[8] = 1;
    assert!(check_sheet(&machine([4, 4], run, &[[2, 0], [3, 0]], &through)));
    // The greatest machine: no table could hold its cells.
    let greatest = machine([256, 255], run, &[[255, 0]], &[0; 256 * 255]);
    assert!(check_sheet(&greatest));
    assert!(!check_sheet(&machine([257, 255], run, &[[256, 0]], &[0; 257 * 255])));
}

#[test]
fn parts_of_a_sheet() {
    let bytes = machine([2, 4], [1, 2, 3], &[[1, 7], [0, 9]], &[0, 0, 0, 0, 0, 0, 0, 1]);
    let meaning = read_sheet(&bytes).unwrap();
    assert_eq!(meaning.glyph_count(), 5);
    assert_eq!(meaning.sizes(Horizontal), Some(Sizes { rows: 2, classes: 4 }));
    assert_eq!(meaning.sizes(Vertical), None);
    let classes: Vec<_> = (0..6).map(|glyph| meaning.glyph_class(Horizontal, glyph)).collect();
    assert_eq!(classes, [Some(1), Some(3), Some(3), Some(1), Some(1), None]);
    assert_eq!(meaning.glyph_class(Vertical, 0), None);
    assert_eq!(meaning.cell(Horizontal, 1, 3), Some(Cell { row: 0, flags: 9 }));
    assert_eq!(meaning.cell(Horizontal, 1, 2), Some(Cell { row: 1, flags: 7 }));
    assert_eq!(meaning.cell(Horizontal, 2, 0), None);
    assert_eq!(meaning.cell(Horizontal, 0, 4), None);
    let bytes = clusters(5, &[1, 2], &[[0, 0, 0], [2, 3, 1]]);
    let meaning = read_sheet(&bytes).unwrap();
    let grow = |glyph, class| meaning.width_record(Horizontal, glyph, class).map(|record| record.before_grow);
    assert_eq!([grow(0, 0), grow(1, 0), grow(2, 0), grow(3, 0)], [Some(1), None, Some(2), Some(2)]);
    assert_eq!([grow(4, 0), grow(0, 1), grow(5, 0), grow(0xFFFF, 0)], [None; 4]);
    assert_eq!(meaning.action(Horizontal, 0, 0), None);
}

#[test]
fn counts_are_not_trusted() {
    for section in 0..8 {
        let mut counts = [0u32; 8];
        counts[section] = u32::MAX;
        assert!(!check_sheet(&Fields::new().l(9).ls(&counts).ls(&NONE).done()));
    }
}
