//! First faults worked out by hand: the number and the field's place.

mod common;

use common::*;
use reference::*;
use Direction::Horizontal;

fn head(horizontal: u16, vertical: u16) -> Fields {
    Fields::new().l(0x0001_0000).ws(&[0, horizontal, vertical])
}

/// Horizontal at 10 with the given width lookup, clusters counted from `base`.
fn with_lookup(base: u16, lookup: &[u8]) -> Vec<u8> {
    head(10, 0).ws(&[0, base, 0]).bs(lookup).done()
}

/// Horizontal at 10 with no glyph in the width lookup, and one glyph whose
/// action list stands at 32 + 2 in the part at 22.
fn with_list(list: &[u8]) -> Vec<u8> {
    head(10, 0).ws(&[0, 0, 22]).ws(&[8, 0, 0]).ws(&[8, 0, 1, 8]).bs(list).done()
}

/// Glyph 0 with the given cluster at 24.
fn with_cluster(cluster: &[u8]) -> Vec<u8> {
    head(10, 0).ws(&[0, 24, 0]).ws(&[8, 0, 1, 0]).bs(cluster).done()
}

fn fault(table: &[u8], n: u32) -> (u32, u64) {
    let fault = check_table(table, n).expect_err("a fault");
    (fault.number, fault.at)
}

fn accepted(table: &[u8], n: u32) {
    assert_eq!(check_table(table, n), Ok(()));
}

#[test]
fn lengths_and_header() {
    let table = empty_table();
    accepted(&table, 1);
    accepted(&table, 65_535);
    // Refusals 1 to 3 have no offset.
    assert_eq!(fault(&table[..9], 1), (1, 0));
    assert_eq!(fault(&[], 0), (1, 0));
    let mut long = table.clone();
    long.resize(32_768, 0xAA);
    accepted(&long, 1);
    long.push(0);
    assert_eq!(fault(&long, 0), (1, 0));
    assert_eq!(fault(&table, 0), (2, 0));
    assert_eq!(fault(&table, 65_536), (2, 0));
    assert_eq!(fault(&[0; 10], 65_536), (2, 0));
    assert_eq!(fault(&[0; 10], 1), (3, 0));
    assert_eq!(fault(&Fields::new().l(0x0001_0000).ws(&[1, 0, 0]).done(), 1), (3, 0));
}

#[test]
fn offsets_of_a_direction() {
    assert_eq!(fault(&head(10, 0).done(), 1), (4, 10));
    assert_eq!(fault(&head(10, 0).b(0).done(), 1), (4, 10));
    assert_eq!(fault(&head(10, 0).ws(&[0]).done(), 1), (4, 12));
    assert_eq!(fault(&head(10, 0).ws(&[0, 0]).done(), 1), (4, 14));
    assert_eq!(fault(&head(10, 0).ws(&[0, 0, 0]).done(), 1), (4, 16));
    assert_eq!(fault(&head(0xFFFF, 0).done(), 1), (4, 0xFFFF));
    // A direction may stand in the header: here at 4, where its offsets are
    // the format 0, then 4 and 0, and its lookup starts at 10.
    accepted(&head(4, 0).ws(&[8, 0, 0]).done(), 1);
    // Both directions may be one, and horizontal is judged first.
    accepted(&head(10, 10).ws(&[0, 0, 0, 8, 0, 0]).done(), 1);
    // At 11 the three offsets are 0, and the format at 17 is 0x0800.
    assert_eq!(fault(&head(10, 11).ws(&[0, 0, 0, 8, 0, 0]).done(), 1), (5, 17));
    assert_eq!(fault(&head(10, 22).ws(&[0, 0, 0, 8, 0, 0]).done(), 1), (4, 22));
}

#[test]
fn lookup_formats() {
    for format in [1, 3, 5, 7, 9, 10, 0xFFFF] {
        assert_eq!(fault(&with_lookup(0, &Fields::new().w(format).done()), 1), (5, 16));
    }
    assert_eq!(fault(&with_lookup(0, &Fields::new().w(0).done()), 1), (4, 18));
    assert_eq!(fault(&with_lookup(0, &Fields::new().ws(&[0, 0]).done()), 2), (4, 20));
    for (format, size, wrong) in [(2, 6, 4), (4, 6, 8), (6, 4, 6)] {
        assert_eq!(fault(&with_lookup(0, &Fields::new().ws(&[format, wrong]).done()), 1), (5, 18));
        assert_eq!(fault(&with_lookup(0, &Fields::new().ws(&[format, size]).done()), 1), (4, 20));
        // With no units the search fields need not be there.
        accepted(&with_lookup(0, &Fields::new().ws(&[format, size, 0]).done()), 1);
        assert_eq!(fault(&with_lookup(0, &Fields::new().ws(&[format, size, 1]).done()), 1), (4, 28));
    }
    assert_eq!(fault(&with_lookup(0, &Fields::new().ws(&[8, 0]).done()), 1), (4, 20));
    assert_eq!(fault(&with_lookup(0, &Fields::new().ws(&[8, 0, 1]).done()), 1), (4, 22));
    // Values at and past N are not followed.
    accepted(&with_lookup(0, &Fields::new().ws(&[8, 1, 0xFFFF]).done()), 1);
}

#[test]
fn lookup_units() {
    let units = |format, size, count: u16, units: &[u16]| {
        with_lookup(0xFFFF, &Fields::new().ws(&[format, size, count, 1, 2, 3]).ws(units).done())
    };
    // Last, then first: a first past its last is judged at the first.
    assert_eq!(fault(&units(2, 6, 1, &[3, 4]), 1), (5, 30));
    assert_eq!(fault(&units(2, 6, 1, &[4]), 1), (4, 30));
    assert_eq!(fault(&units(2, 6, 1, &[4, 4]), 1), (4, 32));
    accepted(&units(2, 6, 1, &[4, 4, 0]), 4);
    // With glyph 4 in use, its cluster is far outside.
    assert_eq!(fault(&units(2, 6, 1, &[4, 4, 0]), 5), (4, 0xFFFF));
    assert_eq!(fault(&units(2, 6, 2, &[4, 4, 0, 5, 4]), 1), (5, 36));
    accepted(&units(2, 6, 2, &[4, 4, 0, 5, 5, 0]), 4);
    // The closing unit, counted: last only, and after what it may follow.
    accepted(&units(2, 6, 2, &[4, 4, 0, 0xFFFF, 0xFFFF, 0]), 4);
    assert_eq!(fault(&units(2, 6, 2, &[0xFFFF, 0xFFFF, 0, 0xFFFF, 0xFFFF, 0]), 1), (5, 36));
    assert_eq!(fault(&units(2, 6, 2, &[0xFFFF, 9, 0, 0xFFFF, 0xFFFF, 0]), 1), (5, 36));
    accepted(&units(2, 6, 1, &[0xFFFF, 9, 0]), 9);
    assert_eq!(fault(&units(6, 4, 2, &[4, 0, 4]), 1), (5, 32));
    accepted(&units(6, 4, 3, &[4, 0, 5, 0, 0xFFFF, 0]), 4);
    assert_eq!(fault(&units(6, 4, 1, &[4]), 1), (4, 30));
    // Units come before values: format 4's array is far outside, but the
    // second unit does not rise.
    assert_eq!(fault(&units(4, 6, 2, &[0, 0, 0xFFFF, 0, 0, 0]), 1), (5, 36));
    assert_eq!(fault(&units(4, 6, 1, &[0, 0, 0xFFFF]), 1), (4, 16 + 0xFFFF));
    // An array is not followed for a unit past N.
    accepted(&units(4, 6, 1, &[1, 1, 0xFFFF]), 1);
}

#[test]
fn cluster_rules() {
    let pair = |class: u32, limits: [u32; 4], flags: [u16; 2]| Fields::new().l(class).ls(&limits).ws(&flags).done();
    let one = |limits, flags| with_cluster(&Fields::new().l(1).bs(&pair(0, limits, flags)).done());
    let limit = 16 << 16;
    let below: u32 = 0xFFF0_0000;
    assert_eq!(below as i32, -(limit as i32));
    accepted(&one([limit, limit, limit, below], [3, 0xFFF3]), 1);
    accepted(&one([0, below, 0, 0], [0x1000, 0]), 1);
    assert_eq!(fault(&one([limit + 1, 0, 0, 0], [0, 0]), 1), (6, 32));
    assert_eq!(fault(&one([u32::MAX, 0, 0, 0], [0, 0]), 1), (6, 32));
    assert_eq!(fault(&one([0, limit + 1, 0, 0], [0, 0]), 1), (6, 36));
    assert_eq!(fault(&one([0, below - 1, 0, 0], [0, 0]), 1), (6, 36));
    assert_eq!(fault(&one([0, 0x8000_0000, 0, 0], [0, 0]), 1), (6, 36));
    assert_eq!(fault(&one([0, 0, limit + 1, 0], [0, 0]), 1), (6, 40));
    assert_eq!(fault(&one([0, 0, 0, limit + 1], [0, 0]), 1), (6, 44));
    assert_eq!(fault(&one([0; 4], [4, 4]), 1), (6, 48));
    assert_eq!(fault(&one([0; 4], [0, 0x100F]), 1), (6, 50));
    assert_eq!(fault(&with_cluster(&Fields::new().l(0).done()), 1), (6, 24));
    assert_eq!(fault(&with_cluster(&Fields::new().l(129).done()), 1), (6, 24));
    assert_eq!(fault(&with_cluster(&Fields::new().l(128).done()), 1), (4, 28));
    assert_eq!(fault(&with_cluster(&[0, 0, 0]), 1), (4, 24));
    // Classes rise by their low seven bits.
    let two = |first: u32, second: u32| {
        let first = pair(first, [0; 4], [0, 0]);
        with_cluster(&Fields::new().l(2).bs(&first).bs(&pair(second, [0; 4], [0, 0])).done())
    };
    accepted(&two(0xFFFF_FF80, 1), 1);
    accepted(&two(126, 0xFF), 1);
    assert_eq!(fault(&two(1, 1), 1), (6, 52));
    assert_eq!(fault(&two(1, 0x81), 1), (6, 52));
    assert_eq!(fault(&two(127, 128), 1), (6, 52));
}

#[test]
fn width_value_zero_is_a_cluster() {
    // wdcTableOffset 0 with value 0: the cluster is the table's own start,
    // whose first 32 bits, 0x00010000, are no cluster count.
    let table = with_lookup(0, &Fields::new().ws(&[8, 0, 1, 0]).done());
    assert_eq!(fault(&table, 1), (6, 0));
}

#[test]
fn action_value_zero_is_none() {
    let table = head(10, 0).ws(&[0, 0, 22]).ws(&[8, 0, 0]).ws(&[8, 0, 1, 0]).done();
    accepted(&table, 1);
    assert_eq!(read_table(&table, 1).unwrap().action(Horizontal, 0, 0), None);
}

#[test]
fn action_rules() {
    let one = |class: u16, kind: u16, length: u32, data: &[u8]| {
        with_list(&Fields::new().l(1).ws(&[class, kind]).l(length).bs(data).done())
    };
    // The list is at 30, its first action at 34, the data at 42.
    accepted(&one(127, 3, 8, &[]), 1);
    accepted(&one(0, 3, 0xFFFF_FFFC, &[]), 1);
    assert_eq!(fault(&one(128, 9, 0, &[]), 1), (8, 34));
    assert_eq!(fault(&one(0, 6, 0, &[]), 1), (8, 36));
    assert_eq!(fault(&one(0, 3, 4, &[]), 1), (8, 38));
    assert_eq!(fault(&one(0, 3, 9, &[]), 1), (8, 38));
    assert_eq!(fault(&one(0, 1, 8, &[]), 1), (8, 38));
    assert_eq!(fault(&one(0, 1, 12, &[]), 1), (4, 42));
    accepted(&one(0, 1, 12, &[0, 0]), 1);
    assert_eq!(fault(&one(0, 1, 12, &[0, 1]), 1), (8, 42));
    assert_eq!(fault(&one(0, 1, 12, &[0xFF, 0xFF]), 1), (8, 42));
    accepted(&one(0, 2, 16, &[9, 9, 9, 9, 0xFF, 0xFF, 0, 0]), 1);
    assert_eq!(fault(&one(0, 2, 16, &[9, 9, 9, 9, 0xFF, 0xFE, 0, 0]), 1), (8, 46));
    assert_eq!(fault(&one(0, 2, 16, &[9, 9, 9, 9, 0, 0, 0xFF, 0xFF]), 1), (8, 48));
    assert_eq!(fault(&one(0, 2, 12, &[9, 9, 9, 9, 0, 0, 0, 0]), 1), (8, 38));
    accepted(&one(0, 4, 24, &[7; 16]), 1);
    assert_eq!(fault(&one(0, 4, 24, &[7; 15]), 1), (4, 54));
    accepted(&one(0, 5, 12, &[7, 7, 0, 0]), 1);
    assert_eq!(fault(&one(0, 5, 12, &[0, 0, 0, 1]), 1), (8, 44));
    assert_eq!(fault(&one(0, 5, 12, &[0]), 1), (4, 42));
    assert_eq!(fault(&with_list(&Fields::new().l(65).done()), 1), (8, 30));
    assert_eq!(fault(&with_list(&Fields::new().l(64).done()), 1), (4, 34));
    accepted(&with_list(&Fields::new().l(0).done()), 1);
}

#[test]
fn decomposition_rules() {
    let one = |length: u32, count: u16, glyphs: &[u16]| {
        let list = Fields::new().l(1).ws(&[0, 0]).l(length).ls(&[1, 2]).ws(&[3, count]).ws(glyphs);
        with_list(&list.done())
    };
    // Data at 42, the count at 52, glyphs from 54.
    assert_eq!(fault(&one(16, 1, &[0]), 1), (8, 38));
    assert_eq!(fault(&one(20, 0, &[]), 1), (8, 52));
    assert_eq!(fault(&one(84, 33, &[]), 1), (8, 52));
    assert_eq!(fault(&one(20, 1, &[]), 1), (8, 52));
    assert_eq!(fault(&one(24, 3, &[]), 1), (8, 52));
    assert_eq!(fault(&one(24, 2, &[0]), 1), (4, 56));
    assert_eq!(fault(&one(24, 2, &[0, 2]), 2), (8, 56));
    let table = one(24, 2, &[0, 1]);
    accepted(&table, 2);
    assert_eq!(component_list(&table, 2, Horizontal, 0, 0), Stretch { at: 54, length: 4 });
    assert_eq!(component_bytes(&table, 2, Horizontal, 0, 0), [0, 0, 0, 1]);
    // Empty: another number, glyph or direction, or a table that is refused.
    let empty = Stretch::default();
    assert_eq!(component_list(&table, 2, Horizontal, 0, 1), empty);
    assert_eq!(component_list(&table, 2, Horizontal, 1, 0), empty);
    assert_eq!(component_list(&table, 2, Horizontal, 0xFFFF, 0), empty);
    assert_eq!(component_list(&table, 2, Direction::Vertical, 0, 0), empty);
    assert_eq!(component_list(&table, 1, Horizontal, 0, 0), empty);
    accepted(&one(84, 32, &[0; 32]), 1);
}

#[test]
fn second_action_starts_past_the_first() {
    // Two actions; the first says it is 2^32 - 4 bytes long.
    let list = Fields::new().l(2).ws(&[0, 3]).l(0xFFFF_FFFC).ws(&[0, 3]).l(8).done();
    assert_eq!(fault(&with_list(&list), 1), (4, 34 + 0xFFFF_FFFC));
    let list = Fields::new().l(2).ws(&[0, 3]).l(12).l(0xDEAD_BEEF).ws(&[5, 3]).l(8).done();
    let table = with_list(&list);
    accepted(&table, 1);
    let second = read_table(&table, 1).unwrap().action(Horizontal, 0, 1);
    assert_eq!(second, Some(Action { class: 5, kind: 3, data: vec![] }));
}

/// A machine at 22, so "here" is 30.
fn with_machine(fields: &[u16], rest: &[u8]) -> Vec<u8> {
    table_with_machine(&Fields::new().to(8).ws(fields).bs(rest).done())
}

#[test]
fn machine_rules() {
    assert_eq!(fault(&table_with_machine(&[0; 8]), 1), (4, 30));
    assert_eq!(fault(&with_machine(&[3], &[]), 1), (7, 30));
    assert_eq!(fault(&with_machine(&[256], &[]), 1), (7, 30));
    assert_eq!(fault(&with_machine(&[255], &[]), 1), (4, 32));
    assert_eq!(fault(&with_machine(&[4, 8, 10], &[]), 1), (4, 36));
    assert_eq!(fault(&with_machine(&[4, 8, 10, 20], &[]), 1), (4, 38));
    assert_eq!(fault(&with_machine(&[4, 8, 10, 20], &[0, 0]), 1), (4, 40));
    // Class bytes: glyph 0 is class 3, glyph 1 would be class 4.
    let classes = |n| fault(&with_machine(&[4, 8, 0xFFFF, 0], &[0, 0, 0, 2, 3, 4]), n);
    assert_eq!(classes(2), (7, 43));
    assert_eq!(classes(1), (4, 30 + 0xFFFF));
    assert_eq!(fault(&with_machine(&[4, 8, 0xFFFF, 0], &[0, 0, 0, 3, 3, 3]), 3), (4, 44));
}

#[test]
fn machine_entries() {
    // Rows at 12 (place 42) and entries at 20 (place 50), classes 4.
    let with = |cells: [u8; 8], entries: &[u16]| {
        with_machine(&[4, 8, 12, 20], &Fields::new().ws(&[0, 0]).bs(&cells).ws(entries).done())
    };
    let first = [0, 0, 0, 0, 0, 0, 0, 0];
    accepted(&with(first, &[12, 0]), 1);
    accepted(&with(first, &[16, 0xFFFF]), 1);
    assert_eq!(fault(&with(first, &[8, 0]), 1), (7, 50));
    assert_eq!(fault(&with(first, &[13, 0]), 1), (7, 50));
    assert_eq!(fault(&with(first, &[12]), 1), (4, 52));
    // Row 256 is one past the last. Row 255 is none too many, so reading goes
    // on: row 2 is the entry's own bytes, 04 first, and entry 4 is outside.
    assert_eq!(fault(&with(first, &[12 + 4 * 256, 0]), 1), (7, 50));
    assert_eq!(fault(&with(first, &[12 + 4 * 255, 0]), 1), (4, 66));
    // Row 2 starts right where the entries are: its first cell is byte 0, its
    // second byte 20, which asks for the entry at 50 + 80.
    assert_eq!(fault(&with(first, &[20, 0]), 1), (4, 130));
    // A bad entry that no cell uses is not judged; a used one is, at its cell.
    accepted(&with(first, &[12, 0, 1, 0]), 1);
    assert_eq!(fault(&with([0, 0, 0, 0, 0, 0, 0, 1], &[12, 0, 1, 0]), 1), (7, 54));
}

#[test]
fn the_machine_comes_before_the_lookup() {
    let table = head(10, 0).ws(&[22, 0, 0]).ws(&[9, 0, 0]).bs(&[0; 8]).w(3).done();
    assert_eq!(fault(&table, 1), (7, 30));
    // Widths come before actions, horizontal before vertical.
    let table = head(10, 1).ws(&[0, 0, 0xFFFF]).ws(&[9]).done();
    assert_eq!(fault(&table, 1), (5, 16));
    let table = head(10, 1).ws(&[0, 0, 0xFFFF]).ws(&[8, 0, 0]).done();
    assert_eq!(fault(&table, 1), (4, 0xFFFF));
}

// Document 02, request 4/14.

#[test]
fn every_call_gives_the_same_offset() {
    // A grow limit past 16 em, in the field at 32.
    let table = with_cluster(&Fields::new().l(1).l(0).ls(&[0x0010_0001, 0, 0, 0]).ws(&[0, 0]).done());
    let expected = Fault { number: 6, at: 32 };
    assert_eq!(check_table(&table, 1), Err(expected));
    assert_eq!(read_table(&table, 1).map(|_| ()), Err(expected));
    assert_eq!(write_sheet(&table, 1), Err(expected));
    assert_eq!(write_sheet_within(&table, 1, 0), Err(expected));
    assert_eq!(sheet_length(&table, 1), Err(expected));
    assert_eq!(find(&table, 1, Horizontal, Which::Width, 0), Err(expected));
    // The table comes before the line, whatever is lent.
    let input = LineInput { table: &table, n: 1, line: line(&[5], &[], -1, 0) };
    assert_eq!(justify(&input, 7, 8, 9, 0), Err(expected));
}

#[test]
fn other_refusals_have_offset_0() {
    let table = with_list(&Fields::new().l(1).ws(&[0, 0]).l(24).ls(&[1, 2]).ws(&[3, 1, 0]).done());
    let zero = |number| Some(Fault { number, at: 0 });
    assert_eq!(write_sheet_within(&table, 1, 67).err(), zero(16));
    assert_eq!(open_sheet(&[0; 68]).err(), zero(17));
    assert!(open_sheet(&write_sheet(&table, 1).unwrap()).is_ok());
    let of = |line: Line, lent: usize, room| justify(&LineInput { table: &table, n: 1, line }, lent, 1, 1, room).err();
    assert_eq!(of(line(&[0], &[0], 0, 1), 2, 1), zero(9));
    assert_eq!(of(line(&[0], &[0], 0, 0), 1, 1), zero(11));
    assert_eq!(of(line(&[0], &[-1], 0, 1), 1, 1), zero(12));
    assert_eq!(of(line(&[1], &[0], 0, 1), 1, 1), zero(13));
    assert_eq!(of(line(&[0], &[0], 0, 65_536), 1, 0), zero(16));
    assert_eq!(of(line(&[0], &[0], 0, 65_536), 1, 1), None);
}

#[test]
fn offsets_count_from_the_tables_start_in_both_directions() {
    // Horizontal at 10 is sound; vertical at 22 has its own lookup at 28.
    let two = |vertical: &[u16]| head(10, 22).ws(&[0, 0, 0, 8, 0, 0]).ws(vertical).done();
    assert_eq!(fault(&two(&[0, 0, 0, 9]), 1), (5, 28));
    assert_eq!(fault(&two(&[0, 0, 0, 2, 5]), 1), (5, 30));
    // A unit whose first, at 42, is past its last, at 40.
    assert_eq!(fault(&two(&[0, 0, 0, 2, 6, 1, 0, 0, 0, 1, 2, 0]), 1), (5, 42));
    assert_eq!(fault(&two(&[0, 0, 0, 2, 6, 1, 0, 0, 0, 1]), 1), (4, 42));
    // A cluster at 0x9000 + 0x9000: past the end and past 16 bits.
    assert_eq!(fault(&two(&[0, 0x9000, 0, 8, 0, 1, 0x9000]), 1), (4, 0x1_2000));
    // A lookup of the action part that is none is 5, not 8.
    assert_eq!(fault(&two(&[0, 0, 40, 8, 0, 0, 0, 0, 0, 7]), 1), (5, 40));
    assert_eq!(fault(&two(&[0, 0, 42, 8, 0, 0, 0, 0, 0, 7]), 1), (4, 42));
    assert_eq!(fault(&two(&[0, 0, 34, 8, 0, 0, 7]), 1), (5, 34));
}

#[test]
fn a_missing_byte_is_told_by_its_fields_first() {
    // The 32-bit count at 24 with 0 to 3 bytes of it there.
    for there in 0..4 {
        assert_eq!(fault(&with_cluster(&vec![0; there]), 1), (4, 24));
    }
    // The limit at 32 with 1 to 3 bytes of it there.
    for there in 1..4 {
        let cluster = Fields::new().l(1).l(0).bs(&vec![0; there]).done();
        assert_eq!(fault(&with_cluster(&cluster), 1), (4, 32));
    }
    // An action that starts past 2^32: the list is at 30, the action at 34.
    let list = Fields::new().l(2).ws(&[0, 3]).l(0xFFFF_FFFC).done();
    assert_eq!(fault(&with_list(&list), 1), (4, 0x1_0000_001E));
}
