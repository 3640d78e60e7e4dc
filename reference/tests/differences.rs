//! Differences of two tables: document 02, request 6/14.

mod common;

use std::time::Instant;

use common::*;
use reference::difference::{each_difference, Kind, Mark};
use reference::generate;
use reference::*;
use Direction::{Horizontal, Vertical};
use Mark::{Changed, OnlyFirst, OnlySecond};

/// The pairs of a cluster: class and before grow.
type Pairs<'a> = &'a [(u32, u32)];
/// The actions of a list, all of type 1: class and glyph.
type Adds<'a> = &'a [(u16, u16)];

/// What a table has: a machine, clusters by glyph, lists by glyph.
#[derive(Clone, Copy, Default)]
struct Plan<'a> {
    machine: Option<&'a [u8]>,
    clusters: &'a [(u16, Pairs<'a>)],
    lists: &'a [(u16, Adds<'a>)],
}

/// A lookup of format 6 for glyphs whose parts have these lengths and stand one
/// after the other from `start` on.
fn singles(glyphs: &[u16], lengths: &[usize], start: usize) -> Vec<u8> {
    let mut fields = Fields::new().ws(&[6, 4, glyphs.len() as u16, 0, 0, 0]);
    let mut at = start;
    for (glyph, length) in glyphs.iter().zip(lengths) {
        fields = fields.ws(&[*glyph, at as u16]);
        at += length;
    }
    fields.done()
}

/// A table with the plan in one direction or, sharing it, in both.
fn table(plan: Plan, horizontal: bool, vertical: bool) -> Vec<u8> {
    let cluster = |pairs: Pairs| {
        let count = Fields::new().l(pairs.len() as u32);
        pairs.iter().fold(count, |out, &(class, grow)| out.l(class).ls(&[grow, 0, 0, 0]).ws(&[0, 0])).done()
    };
    let list = |adds: Adds| {
        let count = Fields::new().l(adds.len() as u32);
        adds.iter().fold(count, |out, &(class, glyph)| out.ws(&[class, 1]).l(12).ws(&[glyph, 0])).done()
    };
    let clusters: Vec<Vec<u8>> = plan.clusters.iter().map(|(_, pairs)| cluster(pairs)).collect();
    let lists: Vec<Vec<u8>> = plan.lists.iter().map(|(_, adds)| list(adds)).collect();
    let lengths = |parts: &[Vec<u8>]| parts.iter().map(Vec::len).collect::<Vec<_>>();
    let of_clusters: Vec<u16> = plan.clusters.iter().map(|&(glyph, _)| glyph).collect();
    let of_lists: Vec<u16> = plan.lists.iter().map(|&(glyph, _)| glyph).collect();
    let widths = singles(&of_clusters, &lengths(&clusters), 0);
    let widths_at = 16 + widths.len();
    let actions_at = widths_at + clusters.concat().len();
    let heads = 12 + 4 * lists.len();
    let actions = singles(&of_lists, &lengths(&lists), heads);
    let machine_at = actions_at + actions.len() + lists.concat().len();
    let offsets = [horizontal, vertical].map(|there| if there { 10 } else { 0 });
    let head = Fields::new().l(0x0001_0000).w(0).ws(&offsets);
    let head = head.w(if plan.machine.is_some() { machine_at as u16 } else { 0 });
    let body = head.w(widths_at as u16).w(actions_at as u16).bs(&widths).bs(&clusters.concat());
    body.bs(&actions).bs(&lists.concat()).bs(plan.machine.unwrap_or(&[])).done()
}

/// A machine of `count` classes: classes of the glyphs from 0 on, cells by
/// entry number, entries by row number and flags.
fn machine(count: u16, classes: &[u8], cells: &[u8], entries: &[(u16, u16)]) -> Vec<u8> {
    let rows_at = 12 + classes.len() as u16;
    let entries_at = rows_at + cells.len() as u16;
    let head = Fields::new().to(8).ws(&[count, 8, rows_at, entries_at]).ws(&[0, classes.len() as u16]);
    let start = head.bs(classes).bs(cells);
    entries.iter().fold(start, |out, &(row, flags)| out.w(rows_at + count * row).w(flags)).done()
}

type Short = (Direction, Kind, Mark, [u32; 2]);

fn short(list: Vec<Difference>) -> Vec<Short> {
    list.into_iter().map(|d| (d.direction, d.kind, d.mark, d.numbers)).collect()
}

/// The list of two horizontal plans with five glyphs.
fn of(first: Plan, second: Plan) -> Vec<Short> {
    short(differences(&table(first, true, false), &table(second, true, false), 5).unwrap())
}

const CELLS: [u8; 8] = [0; 8];

#[test]
fn nothing_changed() {
    let some = machine(4, &[2, 3], &CELLS, &[(1, 7)]);
    let plan = Plan { machine: Some(&some), clusters: &[(0, &[(0, 1)])], lists: &[(1, &[(0, 0)])] };
    assert_eq!(of(plan, plan), []);
    assert_eq!(of(Plan::default(), Plan::default()), []);
    // An absent direction means what an empty one means.
    let (none, empty) = (table(plan, true, false), table(Plan::default(), false, false));
    assert_eq!(differences(&none, &none, 5), Ok(vec![]));
    assert_eq!(differences(&empty, &table(Plan::default(), true, true), 5), Ok(vec![]));
}

#[test]
fn glyph_classes_and_cells() {
    let first = machine(4, &[2, 3, 1], &CELLS, &[(1, 7), (0, 7)]);
    let with = |second: &[u8]| {
        of(Plan { machine: Some(&first), ..Plan::default() }, Plan { machine: Some(second), ..Plan::default() })
    };
    let class = |glyph| (Horizontal, Kind::GlyphClass, Changed, [glyph, 0]);
    let cell = |row, class| (Horizontal, Kind::Cell, Changed, [row, class]);
    assert_eq!(with(&machine(4, &[2, 0, 1], &CELLS, &[(1, 7)])), [class(1)]);
    // A glyph that the class table names as 1 and one that it does not name
    // are alike; glyph 4 is not named in the first.
    assert_eq!(with(&machine(4, &[2, 3], &CELLS, &[(1, 7)])), []);
    assert_eq!(with(&machine(4, &[2, 1, 1, 1, 0], &CELLS, &[(1, 7)])), [class(1), class(4)]);
    // Past N nothing counts.
    assert_eq!(with(&machine(4, &[2, 3, 1, 1, 1, 0], &CELLS, &[(1, 7)])), []);
    // Cells by row and flags, not by entry number.
    assert_eq!(with(&machine(4, &[2, 3, 1], &[1; 8], &[(9, 9), (1, 7)])), []);
    let cells = [0, 0, 1, 0, 0, 0, 0, 2];
    let other = machine(4, &[2, 3, 1], &cells, &[(1, 7), (0, 7), (1, 6)]);
    assert_eq!(with(&other), [cell(0, 2), cell(1, 3)]);
    let both = machine(4, &[0, 3, 1], &cells, &[(1, 7), (0, 7), (1, 6)]);
    assert_eq!(with(&both), [class(0), cell(0, 2), cell(1, 3)]);
}

#[test]
fn unlike_sizes_stand_alone() {
    let small = machine(4, &[2], &CELLS, &[(1, 7)]);
    let more_classes = machine(5, &[4], &[0; 10], &[(1, 7)]);
    let more_rows = machine(4, &[0], &[0; 12], &[(2, 9)]);
    let clusters: &[(u16, Pairs)] = &[(3, &[(0, 1)])];
    let plan = |machine| Plan { machine, clusters, ..Plan::default() };
    let sizes = |mark| (Horizontal, Kind::Sizes, mark, [0, 0]);
    let with = |first, second| of(plan(first), plan(second));
    assert_eq!(with(Some(&small), Some(&more_classes)), [sizes(Changed)]);
    assert_eq!(with(Some(&small), Some(&more_rows)), [sizes(Changed)]);
    assert_eq!(with(Some(&more_rows), None), [sizes(OnlyFirst)]);
    assert_eq!(with(None, Some(&small)), [sizes(OnlySecond)]);
    assert_eq!(with(None, None), []);
    // Records and lists are listed all the same.
    let second = Plan { machine: None, clusters: &[], lists: &[(0, &[(0, 0)])] };
    let record = (Horizontal, Kind::WidthRecord, OnlyFirst, [3, 0]);
    let list = (Horizontal, Kind::ActionList, OnlySecond, [0, 0]);
    assert_eq!(of(plan(Some(&small)), second), [sizes(OnlyFirst), record, list]);
}

#[test]
fn width_records_by_glyph_and_class() {
    let plan = |clusters| Plan { clusters, ..Plan::default() };
    let record = |mark, glyph, class| (Horizontal, Kind::WidthRecord, mark, [glyph, class]);
    let first = plan(&[(0, &[(0, 5), (3, 6), (127, 7)]), (1, &[(2, 1)]), (3, &[(2, 1)])]);
    let second = plan(&[(0, &[(1, 9), (3, 7), (127, 7)]), (2, &[(0, 1), (126, 2)]), (3, &[(2, 1)])]);
    let expected = [
        record(OnlyFirst, 0, 0),
        record(OnlySecond, 0, 1),
        record(Changed, 0, 3),
        record(OnlyFirst, 1, 2),
        record(OnlySecond, 2, 0),
        record(OnlySecond, 2, 126),
    ];
    assert_eq!(of(first, second), expected);
    // Glyphs past N have no records.
    assert_eq!(
        of(first, plan(&[(0, &[(0, 5), (3, 6), (127, 7)]), (1, &[(2, 1)]), (3, &[(2, 1)]), (5, &[(0, 1)])])),
        []
    );
}

#[test]
fn each_field_of_a_record_counts_and_no_ignored_bit() {
    let base = ([1, 2, 3, 4], [0, 0]);
    let of = |second| differences(&table_with_records(&[base]), &table_with_records(&[second]), 1).unwrap();
    let changed = vec![Difference { direction: Horizontal, kind: Kind::WidthRecord, mark: Changed, numbers: [0, 0] }];
    for place in 0..4 {
        let mut other = base;
        other.0[place] += 1;
        assert_eq!(of(other), changed);
    }
    assert_eq!(of((base.0, [0x1000, 0])), changed);
    assert_eq!(of((base.0, [0, 3])), changed);
    // Shrink limits of the other sign, and bits that are ignored.
    assert_eq!(of(([1, 2, 3u32.wrapping_neg(), 4u32.wrapping_neg()], [0xEFF0, 0x0FF0])), []);
}

#[test]
fn action_lists_by_glyph() {
    let plan = |lists| Plan { lists, ..Plan::default() };
    let list = |mark, glyph| (Horizontal, Kind::ActionList, mark, [glyph, 0]);
    let first = plan(&[(0, &[(0, 0), (1, 1)]), (1, &[(0, 0)]), (2, &[(0, 0)]), (3, &[])]);
    // Glyph 0 in another order: one difference; glyph 1 with none; glyph 2 with
    // one more; glyph 3's list of no actions is none; glyph 4 with a new one.
    let second = plan(&[(0, &[(1, 1), (0, 0)]), (1, &[]), (2, &[(0, 0), (0, 0)]), (4, &[(9, 0)])]);
    assert_eq!(of(first, second), [list(Changed, 0), list(OnlyFirst, 1), list(Changed, 2), list(OnlySecond, 4)]);
    assert_eq!(of(first, plan(&[(0, &[(0, 0), (1, 1)]), (1, &[(0, 0)]), (2, &[(0, 0)])])), []);
}

#[test]
fn padding_lengths_and_ignored_flags_are_no_difference() {
    let with = |list: Vec<u8>| {
        let head = Fields::new().l(0x0001_0000).ws(&[0, 0, 10]).ws(&[0, 0, 22]).ws(&[8, 0, 0]);
        head.ws(&[8, 0, 1, 8]).bs(&list).done()
    };
    let list = |flags: u16, glyph: u16, length: u32, rest: &[u8]| {
        with(Fields::new().l(1).ws(&[0, 5]).l(length).ws(&[flags, glyph]).bs(rest).done())
    };
    let of = |second: Vec<u8>| short(differences(&list(0, 0, 12, &[]), &second, 2).unwrap());
    assert_eq!(of(list(0xFFFF, 0, 16, &[1, 2, 3, 4])), []);
    assert_eq!(of(list(0, 1, 12, &[])), [(Vertical, Kind::ActionList, Changed, [0, 0])]);
}

#[test]
fn both_directions_in_order() {
    let first = machine(4, &[2], &CELLS, &[(1, 7)]);
    let second = machine(4, &[3], &[0, 0, 0, 0, 1, 0, 0, 0], &[(1, 7), (0, 0)]);
    let first = Plan { machine: Some(&first), clusters: &[(4, &[(0, 1)])], lists: &[(1, &[(0, 0)])] };
    let second = Plan { machine: Some(&second), clusters: &[(4, &[(0, 2)])], lists: &[] };
    let expected = |direction| {
        [
            (direction, Kind::GlyphClass, Changed, [0, 0]),
            (direction, Kind::Cell, Changed, [1, 0]),
            (direction, Kind::WidthRecord, Changed, [4, 0]),
            (direction, Kind::ActionList, OnlyFirst, [1, 0]),
        ]
    };
    let (a, b) = (table(first, true, true), table(second, true, true));
    assert_eq!(short(differences(&a, &b, 5).unwrap()), [expected(Horizontal), expected(Vertical)].concat());
    // Horizontal in one, vertical in the other: all is only in one of them.
    let (a, b) = (table(first, true, false), table(first, false, true));
    let all = |direction, mark| {
        [
            (direction, Kind::Sizes, mark, [0, 0]),
            (direction, Kind::WidthRecord, mark, [4, 0]),
            (direction, Kind::ActionList, mark, [1, 0]),
        ]
    };
    assert_eq!(
        short(differences(&a, &b, 5).unwrap()),
        [all(Horizontal, OnlyFirst), all(Vertical, OnlySecond)].concat()
    );
}

#[test]
fn refusals() {
    let good = table(Plan::default(), true, false);
    // Lookup formats that are none, at 16 and, in a vertical part, at 28.
    let first = Fields::new().l(0x0001_0000).ws(&[0, 10, 0]).ws(&[0, 0, 0, 9]).done();
    let second = Fields::new().l(0x0001_0000).ws(&[0, 10, 22]).ws(&[0, 0, 0, 8, 0, 0]).ws(&[0, 0, 0, 9]).done();
    let of = |a: &[u8], b: &[u8], n| differences(a, b, n).map(|list| list.len());
    let fault = |number, at| Err(Fault { number, at });
    assert_eq!(of(&first, &second, 1), fault(5, 16));
    assert_eq!(of(&second, &first, 1), fault(5, 28));
    assert_eq!(of(&good, &first, 1), fault(5, 16));
    assert_eq!(of(&second, &good, 1), fault(5, 28));
    // The first table's 5 comes before the second's 1.
    assert_eq!(of(&first, &[], 1), fault(5, 16));
    assert_eq!(of(&good, &[], 1), fault(1, 0));
    assert_eq!(of(&good, &[], 0), fault(2, 0));
    assert_eq!(of(&[], &first, 0), fault(1, 0));
    // A table's refusal comes before the room's.
    let some = table_with_records(&[([0; 4], [0, 0])]);
    assert_eq!(differences_into(&some, &first, 1, 0).map(|list| list.len()), fault(5, 16));
}

#[test]
fn rooms() {
    let none = table(Plan::default(), true, false);
    let some = table(Plan { clusters: &[(0, &[(0, 1), (1, 1), (2, 1)])], ..Plan::default() }, true, false);
    let of = |room| differences_into(&some, &none, 5, room).map(|list| list.len());
    assert_eq!(of(0), Err(Fault::plain(16)));
    assert_eq!(of(2), Err(Fault::plain(16)));
    assert_eq!(of(3), Ok(3));
    assert_eq!(of(usize::MAX), Ok(3));
    assert_eq!(differences_into(&some, &some, 5, 0), Ok(vec![]));
}

/// The list by the letter, from the questions that a meaning answers.
fn plain(first: &impl Parts, second: &impl Parts) -> Vec<Short> {
    let mut list = Vec::new();
    let n = first.glyph_count();
    let actions = |of: &dyn Fn(u32) -> Option<Action>| (0..64).map_while(of).collect::<Vec<_>>();
    for direction in Direction::BOTH {
        let mut note = |kind, a: Option<String>, b: Option<String>, numbers| {
            if a != b {
                let mark = if a.is_none() { OnlySecond } else { [OnlyFirst, Changed][b.is_some() as usize] };
                list.push((direction, kind, mark, numbers));
            }
        };
        let text = |value: &dyn std::fmt::Debug| Some(format!("{value:?}")).filter(|text| text != "None");
        let (a, b) = (first.sizes(direction), second.sizes(direction));
        note(Kind::Sizes, text(&a), text(&b), [0, 0]);
        if let (Some(sizes), true) = (a, a == b) {
            for glyph in 0..n {
                let (a, b) = (first.glyph_class(direction, glyph), second.glyph_class(direction, glyph));
                note(Kind::GlyphClass, text(&a), text(&b), [glyph, 0]);
            }
            for (row, class) in (0..sizes.rows).flat_map(|row| (0..sizes.classes).map(move |class| (row, class))) {
                let (a, b) = (first.cell(direction, row, class), second.cell(direction, row, class));
                note(Kind::Cell, text(&a), text(&b), [row, class]);
            }
        }
        for (glyph, class) in (0..n).flat_map(|glyph| (0..128).map(move |class| (glyph, class))) {
            let (a, b) = (first.width_record(direction, glyph, class), second.width_record(direction, glyph, class));
            note(Kind::WidthRecord, text(&a), text(&b), [glyph, class]);
        }
        for glyph in 0..n {
            let a = actions(&|number| first.action(direction, glyph, number));
            let b = actions(&|number| second.action(direction, glyph, number));
            let some = |list: &Vec<Action>| text(list).filter(|text| text != "[]");
            note(Kind::ActionList, some(&a), some(&b), [glyph, 0]);
        }
    }
    list
}

const SEED: u64 = 60;

#[test]
fn lists_agree_with_the_questions() {
    let (mut checked, mut lengths) = (0, 0);
    for index in 0..2_000 {
        let case = generate::pair(SEED, index);
        let (Ok(a), Ok(b)) = (read_table(&case.first, case.n), read_table(&case.second, case.n)) else { continue };
        if case.n > 40 {
            continue;
        }
        let list = differences(&case.first, &case.second, case.n).unwrap();
        lengths += list.len();
        assert_eq!(short(list), plain(&a, &b), "draw {index}");
        // The sheets say the same.
        let sheets = [write_sheet(&case.first, case.n).unwrap(), write_sheet(&case.second, case.n).unwrap()];
        let [a, b] = sheets.each_ref().map(|sheet| read_sheet(sheet).unwrap());
        assert_eq!(short(differences(&case.first, &case.second, case.n).unwrap()), plain(&a, &b));
        checked += 1;
    }
    assert!(checked > 300 && lengths > 3_000, "{checked} {lengths}");
}

#[test]
fn lists_are_empty_exactly_for_equal_sheets() {
    for index in 0..3_000 {
        let case = generate::pair(SEED, index);
        let Ok(list) = differences(&case.first, &case.second, case.n) else { continue };
        let equal = write_sheet(&case.first, case.n) == write_sheet(&case.second, case.n);
        assert_eq!(list.is_empty(), equal, "draw {index}");
        // Each stands once, and in order.
        let key = |d: &Difference| (d.direction.index(), d.kind, d.numbers);
        assert!(list.is_sorted_by(|a, b| key(a) < key(b)), "draw {index}");
        // The other way round the marks change places.
        let turn = |mark| match mark {
            Changed => Changed,
            OnlyFirst => OnlySecond,
            OnlySecond => OnlyFirst,
        };
        let turned: Vec<Difference> = list.iter().map(|d| Difference { mark: turn(d.mark), ..*d }).collect();
        assert_eq!(differences(&case.second, &case.first, case.n), Ok(turned));
        let expected = if list.len() > case.room { Err(Fault::plain(16)) } else { Ok(list) };
        assert_eq!(case.differences(), expected, "draw {index}");
    }
}

#[test]
fn refusals_of_drawn_pairs() {
    let mut unlike = 0;
    for index in 0..5_000 {
        let case = generate::pair(SEED, index);
        let (first, second) = (check_table(&case.first, case.n), check_table(&case.second, case.n));
        let found = differences(&case.first, &case.second, case.n).err();
        assert_eq!(found, first.err().or(second.err()));
        assert!(found.is_none() || case.differences() == Err(found.unwrap()));
        unlike += (first.is_err() && second.is_err() && first != second) as u32;
    }
    assert!(unlike >= 20, "{unlike}");
}

#[test]
fn many_glyphs_take_little_time() {
    // All of 65,535 glyphs with one of two clusters of 128 pairs, that differ in
    // the last; and with nothing at all.
    let n = 65_535;
    let with = |grow: u32| {
        let head = Fields::new().l(0x0001_0000).ws(&[0, 10, 0]).ws(&[0, 34, 0]);
        let mut fields = head.ws(&[2, 6, 1, 0, 0, 0]).ws(&[0xFFFE, 0, 0]).l(128);
        for class in 0..128 {
            let grow = if class == 127 { grow } else { 0 };
            fields = fields.l(class).ls(&[grow, 0, 0, 0]).ws(&[0, 0]);
        }
        fields.done()
    };
    let start = Instant::now();
    let list = differences(&with(1), &with(2), n).unwrap();
    assert_eq!(list.len(), 65_535);
    assert!(list.iter().zip(0..).all(|(d, glyph)| d.numbers == [glyph, 127]));
    assert_eq!(differences(&empty_table(), &empty_table(), n), Ok(vec![]));
    assert_eq!(differences_into(&with(1), &empty_table(), n, 1_000_000), Err(Fault::plain(16)));
    // All 65,535 × 128 of them, counted.
    let (first, none) = (with(1), empty_table());
    let mut count = 0;
    each_difference(&read_table(&first, n).unwrap(), &read_table(&none, n).unwrap(), |d| {
        count += (d.mark == OnlyFirst) as u32;
        true
    });
    assert_eq!(count, 65_535 * 128);
    assert!(start.elapsed().as_secs() < 20);
}
