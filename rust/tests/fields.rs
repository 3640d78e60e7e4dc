//! Which field a refusal speaks of: small damaged tables, worked out by hand from document 01.

mod common;

use common::{complex, longs, words, GLYPHS};
use just::{Field, Reason, Refusal, Table};

/// The refusal of a table, and the field in brackets.
fn says(table: &[u8], glyphs: u32) -> String {
    let refusal = Table::new(table, glyphs).expect_err("a refusal");
    format!("{refusal} ({})", Field::of(table, glyphs, refusal).expect("a field"))
}

/// A header with these two directions, then the rest.
fn table(directions: [u16; 2], rest: &[&[u8]]) -> Vec<u8> {
    [&longs(&[0x0001_0000])[..], &words(&[0]), &words(&directions), &rest.concat()].concat()
}

/// A horizontal direction at 10 without machine and actions: a width lookup at 16, and clusters that begin at `clusters`.
fn widths(clusters: u16, lookup: &[u16], rest: &[u32]) -> Vec<u8> {
    table([10, 0], &[&words(&[0, clusters, 0]), &words(lookup), &longs(rest)])
}

/// A horizontal direction with a machine at 22, of which all but the first, unread 8 bytes is given: it stands at 30.
fn machine(head: [u16; 4], rest: &[&[u8]]) -> Vec<u8> {
    table([10, 0], &[&words(&[22, 0, 0, 8, 0, 0]), &[0; 8], &words(&head), &rest.concat()])
}

/// A horizontal direction with an action lookup at 22, by which glyph 0 has the list at 30.
fn list(rest: &[&[u8]]) -> Vec<u8> {
    table([10, 0], &[&words(&[0, 0, 22, 8, 0, 0]), &words(&[8, 0, 1, 8]), &rest.concat()])
}

const OUTSIDE: &str = "a field to be read is not wholly in the table";
const LOOKUP: &str = "a lookup breaks its rule";
const CLUSTER: &str = "a width cluster breaks its rule";
const MACHINE: &str = "a class machine breaks its rule";
const ACTIONS: &str = "an action list breaks its rule";

#[test]
fn a_field_that_is_not_wholly_there() {
    // Of the three offsets at 10, 12 and 14 the last is cut off.
    let offsets = table([10, 0], &[&words(&[0, 0]), &[0]]);
    assert_eq!(says(&offsets, 1), format!("refused 4 at byte 14: {OUTSIDE} (horizontal: offset of the actions)"));
    // Values at 18 and 20; the glyph count asks for a third, at 22.
    let values = table([0, 10], &[&words(&[0, 0, 0, 0, 7, 7])]);
    assert_eq!(says(&values, 3), format!("refused 4 at byte 22: {OUTSIDE} (vertical, width lookup, glyph 2: value)"));
    // The entry table at 30 + 20 has the new row of entry 0, and no flags.
    let entry = machine([4, 8, 12, 20], &[&words(&[0, 0]), &[0; 8], &words(&[12])]);
    let field = "horizontal, machine, row 0, class 0, entry 0: flags";
    assert_eq!(says(&entry, 1), format!("refused 4 at byte 52: {OUTSIDE} ({field})"));
}

#[test]
fn a_field_that_lies_past_the_end() {
    let far = table([0xFFFF, 0], &[]);
    assert_eq!(says(&far, 1), format!("refused 4 at byte 65535: {OUTSIDE} (horizontal: offset of the machine)"));
    // The first of two actions, at 34, says that it is 2^32 - 4 bytes long.
    let long = list(&[&longs(&[2]), &words(&[0, 3]), &longs(&[0xFFFF_FFFC])]);
    let field = "horizontal, glyph 0, action 1: class";
    assert_eq!(says(&long, 1), format!("refused 4 at byte {}: {OUTSIDE} ({field})", 34 + 0xFFFF_FFFCu64));
}

#[test]
fn a_lookup() {
    let format = widths(0, &[9], &[]);
    assert_eq!(says(&format, 1), format!("refused 5 at byte 16: {LOOKUP} (horizontal, width lookup: format)"));
    // Units at 28 and 34: glyph 4, then glyphs 4 to 5.
    let units = widths(0, &[2, 6, 2, 0, 0, 0, 4, 4, 0, 5, 4, 0], &[]);
    let field = "horizontal, width lookup, unit 1: first glyph";
    assert_eq!(says(&units, 1), format!("refused 5 at byte 36: {LOOKUP} ({field})"));
    // An action lookup of format 6 at 22, whose units at 34 and 38 are for glyphs 4 and 3.
    let singles = table([10, 0], &[&words(&[0, 0, 22, 8, 0, 0]), &words(&[6, 4, 2, 0, 0, 0, 4, 0, 3, 0])]);
    assert_eq!(says(&singles, 1), format!("refused 5 at byte 38: {LOOKUP} (horizontal, action lookup, unit 1: glyph)"));
}

#[test]
fn a_cluster() {
    // Glyph 17 has the cluster at 24: pairs at 28, 52 and 76; the third shrinks by more than 16 em.
    let pair = |class: u32, shrink: u32| [class, 0, shrink, 0, 0, 0];
    let pairs = [pair(0, 0), pair(1, 0xFFF0_0000), pair(2, 0x0010_0001)].concat();
    let shrink = widths(24, &[8, 17, 1, 0], &[&[3], &pairs[..]].concat());
    let field = "horizontal, glyph 17, pair 2: before shrink";
    assert_eq!(says(&shrink, 18), format!("refused 6 at byte 84: {CLUSTER} ({field})"));
}

#[test]
fn where_fields_overlap_the_one_at_fault_is_named() {
    // Glyph 0 has the cluster at 26, which is sound. Glyph 1 has one at 30: its count is the class, 0, of glyph 0's pair.
    let inside = widths(26, &[8, 0, 2, 0, 4], &[1, 0, 0, 0, 0, 0, 0]);
    assert_eq!(says(&inside, 2), format!("refused 6 at byte 30: {CLUSTER} (horizontal, glyph 1, cluster: pair count)"));
    // The table's last byte, 54, is the class of glyph 0; the action lookup begins there too, and needs one more.
    let head = [&words(&[22, 0, 54, 8, 0, 0])[..], &[0; 8], &words(&[4, 20, 8, 16])].concat();
    let short = table([10, 0], &[&head, &[0; 8], &words(&[8, 0]), &words(&[0, 1]), &[0]]);
    assert_eq!(says(&short, 1), format!("refused 4 at byte 54: {OUTSIDE} (horizontal, action lookup: format)"));
}

#[test]
fn a_machine() {
    let count = machine([3, 0, 0, 0], &[]);
    assert_eq!(says(&count, 1), format!("refused 7 at byte 30: {MACHINE} (horizontal, machine: class count)"));
    // The class table at 38 gives glyph 0, at 42, class 3 and glyph 1, at 43, class 4, which is one too great.
    let class = machine([4, 8, 0, 0], &[&words(&[0, 2]), &[3, 4]]);
    let field = "horizontal, machine, class table, glyph 1: class";
    assert_eq!(says(&class, 2), format!("refused 7 at byte 43: {MACHINE} ({field})"));
    // Rows at 42 and 46, entries at 50 and 54; the second leads one byte past row 0.
    let entries = words(&[12, 0, 13, 0]);
    let entry = machine([4, 8, 12, 20], &[&words(&[0, 0]), &[0, 0, 0, 0, 0, 0, 0, 1], &entries]);
    let field = "horizontal, machine, row 1, class 3, entry 1: new row";
    assert_eq!(says(&entry, 1), format!("refused 7 at byte 54: {MACHINE} ({field})"));
}

#[test]
fn an_action_list() {
    let count = list(&[&longs(&[65])]);
    assert_eq!(
        says(&count, 1),
        format!("refused 8 at byte 30: {ACTIONS} (horizontal, glyph 0, action list: action count)")
    );
    // An action at 34 of type 0: limits at 42 and 46, order at 50, count at 52, components 0 and 2 at 54 and 56.
    let ligature = list(&[&longs(&[1]), &words(&[0, 0]), &longs(&[24, 0, 0]), &words(&[0, 2, 0, 2])]);
    let field = "horizontal, glyph 0, action 0, component 1: glyph";
    assert_eq!(says(&ligature, 2), format!("refused 8 at byte 56: {ACTIONS} ({field})"));
    // An action at 34 of type 3 and 12 bytes, then one at 46 of type 1, whose glyph at 54 is 1.
    let added = list(&[&longs(&[2]), &words(&[0, 3]), &longs(&[12, 0]), &words(&[0, 1]), &longs(&[12]), &words(&[1])]);
    assert_eq!(says(&added, 1), format!("refused 8 at byte 54: {ACTIONS} (horizontal, glyph 0, action 1: glyph)"));
}

#[test]
fn what_has_no_field() {
    let far = table([0xFFFF, 0], &[]);
    let refusal = |reason, offset| Refusal { reason, offset };
    // Another reason, another byte, another glyph count, and a table that has no fault.
    assert_eq!(Field::of(&far, 1, refusal(Reason::BadLookup, 65_535)), None);
    assert_eq!(Field::of(&far, 1, refusal(Reason::Outside, 10)), None);
    assert_eq!(Field::of(&far, 65_536, refusal(Reason::Outside, 65_535)), None);
    assert_eq!(Field::of(&complex(), GLYPHS, refusal(Reason::Outside, 10)), None);
    let version = Table::new(&[0; 10], 1).unwrap_err();
    assert_eq!((version, Field::of(&[0; 10], 1, version)), (refusal(Reason::Version, 0), None));
    for length in 0..10 {
        assert_eq!(Field::of(&far[..length], 1, refusal(Reason::Outside, 65_535)).is_some(), length >= 8);
    }
}

/// Every cut of Apple's complex example, and every change of one byte to some others.
#[test]
fn every_fault_of_a_damaged_table_has_a_field() {
    let whole = complex();
    let mut damaged: Vec<Vec<u8>> = (10..whole.len()).map(|length| whole[..length].to_vec()).collect();
    for at in 6..whole.len() {
        for change in [1, 2, 4, 16, 64, 128, 255] {
            let mut changed = whole.clone();
            changed[at] ^= change;
            damaged.push(changed);
        }
    }
    let refused = damaged.iter().filter_map(|table| Some((table, Table::new(table, GLYPHS).err()?)));
    for (table, refusal) in refused {
        assert!(Field::of(table, GLYPHS, refusal).is_some(), "{refusal}: no field");
    }
}
