//! The inputs that are timed: tables, lines and sheets of ordinary and of hostile make.

use crate::drafts;
use crate::questions::Questions;
use reference::examples::Fields;
use reference::generate::LineCase;
use reference::{one_size, sheet_of, Action, Cell, Direction, Parts, Sizes, WidthRecord};

/// A cluster of one pair for class 0, in 28 bytes.
pub fn cluster(fields: Fields, grow: u32) -> Fields {
    fields.l(1).l(0).ls(&[grow, 0x100, grow, 0x100]).ws(&[1, 1])
}

/// The header of a table with a horizontal direction at 10 and clusters at `clusters`; the width lookup follows.
pub fn head(clusters: u16) -> Fields {
    Fields::new().l(0x0001_0000).ws(&[0, 10, 0]).ws(&[0, clusters, 0])
}

/// `units` units of format 2, `step` glyphs apart, that lead in turn to `distinct` clusters.
pub fn ranges(units: u16, step: u16, distinct: u16) -> Vec<u8> {
    let clusters = 16 + 12 + 6 * units;
    let mut fields = head(clusters).ws(&[2, 6, units, 0, 0, 0]);
    for unit in 0..units {
        fields = fields.ws(&[unit * step + step - 2, unit * step, 28 * (unit % distinct)]);
    }
    (0..distinct).fold(fields, |fields, number| cluster(fields, number.into())).done()
}

/// An ordinary table with clusters that has, with its sheet, about so many bytes, as far as a table can: three units of format 2
/// to a cluster. Its glyph count stands beside it.
pub fn ordinary_clusters(bytes: usize) -> (Vec<u8>, u32) {
    let units = (bytes / 31).clamp(3, 2_000) as u16;
    (ranges(units, 10, units / 3), 10 * u32::from(units))
}

/// Units of format 4 that cover every glyph and share one array of `width` values, which lead in turn to `places` places, all of
/// which hold the same cluster.
pub fn shared_array(width: u16, places: u16) -> Vec<u8> {
    let units = u16::MAX / width;
    let array = 12 + 6 * units;
    let clusters = 16 + array + 2 * width;
    let mut fields = head(clusters).ws(&[4, 6, units, 0, 0, 0]);
    for unit in 0..units {
        fields = fields.ws(&[unit * width + (width - 1), unit * width, array]);
    }
    for value in 0..width {
        fields = fields.w(28 * (value % places));
    }
    (0..places).fold(fields, |fields, _| cluster(fields, 7)).done()
}

/// One unit of format 2 for all glyphs, and its cluster.
pub fn one_unit(grow: u32) -> Vec<u8> {
    cluster(head(16 + 18).ws(&[2, 6, 1, 0, 0, 0]).ws(&[0xFFFE, 0, 0]), grow).done()
}

/// Units of format 4 that cover every glyph and share one array of `width` values, which lead in turn to two places with the same
/// cluster of 128 pairs: no two glyphs beside each other have one place.
pub fn turned_rows(width: u16) -> Vec<u8> {
    let units = u16::MAX / width;
    let array = 12 + 6 * units;
    let size = 4 + 24 * 128;
    let mut fields = head(16 + array + 2 * width).ws(&[4, 6, units, 0, 0, 0]);
    for unit in 0..units {
        fields = fields.ws(&[unit * width + (width - 1), unit * width, array]);
    }
    fields = (0..width).fold(fields, |fields, value| fields.w(size * (value % 2)));
    let pairs =
        |fields: Fields| (0..128).fold(fields.l(128), |fields, class| fields.ls(&[class, 7, 7, 7, 7]).ws(&[1, 1]));
    pairs(pairs(fields)).done()
}

/// A second delivery of Apple's complex example: the classes of glyphs 100 to 102, a cell, a limit of glyphs 3 to 226, and the
/// glyph that their action adds.
pub fn delivered() -> Vec<u8> {
    let mut table = reference::examples::complex();
    table[285..288].fill(1);
    table[431] = 1;
    table[110] = 0x40;
    table[165] = 225;
    table
}

/// Format 8 for glyphs 0, 1, .., whose values are these offsets from the clusters.
pub fn trimmed(values: &[u16]) -> Fields {
    let count = values.len() as u16;
    head(22 + 2 * count).ws(&[8, 0, count]).ws(values)
}

/// Rows of pairs in which the flags of each pair are the count of a cluster that begins there, one to a glyph; each row grows as
/// `grow` says.
fn rows_of(rows: u16, pairs: u16, grow: fn(u16) -> u32) -> Vec<u8> {
    let size = 24 * pairs + 4;
    let values: Vec<u16> = (0..rows).flat_map(|row| (0..pairs).map(move |pair| size * row + 24 * pair)).collect();
    let mut fields = trimmed(&values);
    for row in 0..rows {
        fields = fields.l(pairs.into());
        for pair in 0..u32::from(pairs) {
            let count = (1..u32::from(pairs) - pair).rev().find(|count| count % 16 <= 3).unwrap_or(0);
            fields = fields.ls(&[pair, grow(row), 0x100, pair, 0x100, count]);
        }
    }
    fields.done()
}

/// Nine rows of 128 pairs that differ: 1,152 clusters and a sheet of more than 1 MB.
pub fn nested_rows() -> Vec<u8> {
    rows_of(9, 128, u32::from)
}

/// Rows that are all alike.
pub fn equal_rows(rows: u16, pairs: u16) -> Vec<u8> {
    rows_of(rows, pairs, |_| 0)
}

/// A row of clusters inside each other, or up to nine that differ, with about so many bytes of table and sheet.
pub fn ordinary_rows(bytes: usize) -> (Vec<u8>, u32) {
    let rows = (bytes / 188_000).clamp(1, 9) as u16;
    let pairs = ((bytes / usize::from(rows)) as f64 / 11.5).sqrt().clamp(4.0, 128.0) as u16;
    (rows_of(rows, pairs, u32::from), u32::from(rows) * u32::from(pairs))
}

/// Clusters of one pair that begin at each eighth byte, one to a glyph: these words stand between their counts.
fn overlapping(words: &[u32]) -> Vec<u8> {
    let values: Vec<u16> = (0..words.len() as u16 - 4).map(|number| 8 * number).collect();
    words.iter().fold(trimmed(&values), |fields, &word| fields.ls(&[1, word])).done()
}

/// Such clusters, all different.
pub fn overlapping_pairs(count: u32) -> Vec<u8> {
    let words: Vec<u32> = (0..count + 4).map(|number| number << 7).collect();
    overlapping(&words)
}

/// Such clusters, all different, for which the library's writer looks in one slot: their prints are one, modulo 8,191. A
/// cluster's words are its class, its before shrink and its after shrink, which weigh 17, 3 and 15.
pub fn one_print(count: u32) -> Vec<u8> {
    let mut words = vec![0, 0];
    for number in 2..count + 4 {
        let [class, before] = [words[words.len() - 2] % 128, words[words.len() - 1]];
        let rest = (17 * class + 3 * before) % 8_191;
        // 7,645 is the inverse of 15.
        words.push((8_191 - rest) * 7_645 % 8_191 + 8_191 * (number * 331 % 127));
    }
    overlapping(&words)
}

/// A direction without machine and clusters whose actions are at 22: a lookup of format 8, then the rest.
pub fn with_lists(values: &[u16]) -> Fields {
    let head = Fields::new().l(0x0001_0000).ws(&[0, 10, 0]).ws(&[0, 0, 22]).ws(&[8, 0, 0]);
    head.ws(&[8, 0, values.len() as u16]).ws(values)
}

/// `units` units of format 2, ten glyphs apart, that lead in turn to `distinct` lists of three actions: a ligature of three
/// components, a glyph that is added, and one that is added or substituted.
pub fn lists(units: u16, distinct: u16) -> Vec<u8> {
    let head = Fields::new().l(0x0001_0000).ws(&[0, 10, 0]).ws(&[0, 0, 22]).ws(&[8, 0, 0]);
    let mut fields = head.ws(&[2, 6, units, 0, 0, 0]);
    for unit in 0..units {
        fields = fields.ws(&[10 * unit + 8, 10 * unit, 12 + 6 * units + 60 * (unit % distinct)]);
    }
    for number in 0..distinct {
        fields = fields.l(3).ws(&[0, 0]).l(28).ls(&[0, 0x8000]).ws(&[1, 3, number, 1, 2, 0]);
        fields = fields.ws(&[1, 1]).l(12).ws(&[number, 0]).ws(&[2, 2]).l(16).l(0x4000).ws(&[3, number]);
    }
    fields.done()
}

/// The same with action lists, two units to a list.
pub fn ordinary_lists(bytes: usize) -> (Vec<u8>, u32) {
    let units = (bytes / 74).clamp(2, 900) as u16;
    (lists(units, units / 2), 10 * u32::from(units))
}

/// Lists of 64 actions that begin at each eighth byte, one to a glyph. The first 504 differ from each other and from the
/// rest, after a long common beginning; the rest are all alike.
pub fn alike_lists(count: u16) -> Vec<u8> {
    let place = |number: u16| 6 + 2 * count + 8 * number;
    let values: Vec<u16> = (count - 504..count).chain(0..count - 504).map(place).collect();
    let class = |number: u16| if number < count { 0 } else { (number - count) % 127 + 1 };
    let words = with_lists(&values);
    // Each length, 64, is also the count of the list that begins there.
    (0..count + 8 * 64).fold(words, |fields, number| fields.l(64).ws(&[class(number), 4])).l(64).done()
}

/// Lists of 64 actions that begin at each eighth byte, one to a glyph, all alike.
pub fn equal_lists(count: u16) -> Vec<u8> {
    let values: Vec<u16> = (0..count).map(|number| 6 + 2 * count + 8 * number).collect();
    (0..count + 8 * 64).fold(with_lists(&values), |fields, _| fields.l(64).ws(&[0, 3])).l(64).done()
}

/// Lists of `length` actions, each of as many bytes, that begin at each eighth byte; each `period`-th action of a chain has class 1.
/// So many lists differ, after a common beginning that may be long.
pub fn phased_lists(count: u16, length: u16, period: u16) -> Vec<u8> {
    let values: Vec<u16> = (0..count).map(|number| 6 + 2 * count + 8 * number).collect();
    let kind = if length < 24 { 3 } else { 4 };
    let class = |number: u16| u16::from(number / (length / 8) % period == period - 1);
    let word = |fields: Fields, number: u16| fields.l(length.into()).ws(&[class(number), kind]);
    (0..count + length * length / 8).fold(with_lists(&values), word).l(length.into()).done()
}

/// Lists of `length` actions that begin at each eighth byte, of `classes` classes as if drawn, or, in all but one of `rare` places, of
/// class 0: nearly all lists differ.
pub fn drawn_lists(count: u16, length: u16, classes: u64, rare: u64) -> Vec<u8> {
    let mut asked = Questions::new(1, 1);
    let values: Vec<u16> = (0..count).map(|number| 6 + 2 * count + 8 * number).collect();
    let mut class = || if asked.below(rare) == 0 { asked.below(classes) as u16 } else { 0 };
    let kind = if length < 24 { 3 } else { 4 };
    let word = |fields: Fields, _| fields.l(length.into()).ws(&[class(), kind]);
    (0..count + length * length / 8).fold(with_lists(&values), word).l(length.into()).done()
}

/// Lists of 64 actions, all alike, that begin at each eighth byte, in an order that leaps over the table.
pub fn leaping_lists(count: u16) -> Vec<u8> {
    let place = |number: u16| 6 + 2 * count + 8 * (u32::from(number) * 1_009 % u32::from(count)) as u16;
    let values: Vec<u16> = (0..count).map(place).collect();
    (0..count + 8 * 64).fold(with_lists(&values), |fields, _| fields.l(64).ws(&[0, 4])).l(64).done()
}

/// Units of format 4 that cover every glyph and share an array of `width` values, each of which leads to another list of 64 actions,
/// at each eighth byte: so no two glyphs beside each other have the same list.
pub fn shared_lists(width: u16) -> Vec<u8> {
    let units = u16::MAX / width;
    let array = 12 + 6 * units;
    let head = Fields::new().l(0x0001_0000).ws(&[0, 10, 0]).ws(&[0, 0, 22]).ws(&[8, 0, 0]);
    let mut fields = head.ws(&[4, 6, units, 0, 0, 0]);
    for unit in 0..units {
        fields = fields.ws(&[unit * width + (width - 1), unit * width, array]);
    }
    fields = (0..width).fold(fields, |fields, value| fields.w(array + 2 * width + 8 * value));
    let class = |number: u16| number / 8 % 128;
    (0..width + 512).fold(fields, |fields, number| fields.l(64).ws(&[class(number), 3])).l(64).done()
}

/// Lists of 64 actions, all alike, that begin at each eighth byte, led to by two lookups: each direction has its own.
pub fn twice_lists(count: u16) -> Vec<u8> {
    let size = 6 + 2 * count;
    let second = 22 + size;
    let lists = second + 12 + size;
    let values = |base: u16| (0..count).map(move |number| lists - base + 8 * number).collect::<Vec<u16>>();
    let head = Fields::new().l(0x0001_0000).ws(&[0, 10, second]).ws(&[0, 0, 22]).ws(&[8, 0, 0]);
    let first = head.ws(&[8, 0, count]).ws(&values(22)).ws(&[0, 0, second + 12]).ws(&[8, 0, 0]);
    let fields = first.ws(&[8, 0, count]).ws(&values(second + 12));
    (0..count + 8 * 64).fold(fields, |fields, _| fields.l(64).ws(&[0, 3])).l(64).done()
}

/// Lists of 32 ligatures with 32 components each that begin at each twentieth byte, one to a glyph, all alike: five words
/// that are by turns a class and type 0, a length, two limits, and the count of components or of a list's actions.
pub fn ligature_lists(count: u16) -> Vec<u8> {
    let values: Vec<u16> = (0..count).map(|number| 6 + 2 * count + 20 * number).collect();
    (0..count + 160).fold(with_lists(&values), |fields, _| fields.ls(&[32, 0, 100, 0, 0])).l(32).done()
}

/// Units of format 4 that cover every glyph and share one array, for clusters and for lists: the action lookup is the width
/// lookup. All values are one, which leads to a cluster from one base and to a list from the other.
pub fn shared_lookup(width: u16) -> Vec<u8> {
    let units = u16::MAX / width;
    let array = 12 + 6 * units;
    let value = array + 2 * width;
    // After the list, of one action, the cluster.
    let head = Fields::new().l(0x0001_0000).ws(&[0, 10, 0]).ws(&[0, 16 + 12, 16]);
    let mut fields = head.ws(&[4, 6, units, 0, 0, 0]);
    for unit in 0..units {
        fields = fields.ws(&[unit * width + (width - 1), unit * width, array]);
    }
    let fields = (0..width).fold(fields, |fields, _| fields.w(value));
    cluster(fields.l(1).ws(&[0, 3]).l(8), 7).done()
}

/// Units of format 4 that cover every glyph, each with an array of `width` values that begins `shift` values after that of the unit
/// before it. All values lead to one cluster.
pub fn shifted_arrays(width: u16, shift: u16) -> Vec<u8> {
    let units = u16::MAX / width;
    let array = 12 + 6 * units;
    let values = width + shift * units;
    let mut fields = head(16 + array + 2 * values).ws(&[4, 6, units, 0, 0, 0]);
    for unit in 0..units {
        fields = fields.ws(&[unit * width + (width - 1), unit * width, array + 2 * shift * unit]);
    }
    cluster((0..values).fold(fields, |fields, _| fields.w(0)), 7).done()
}

/// The same table with the vertical direction that the horizontal one is.
pub fn both_ways(mut table: Vec<u8>) -> Vec<u8> {
    table.copy_within(6..8, 8);
    table
}

/// A table with a list of so many actions for each of its glyphs, and an unlimited record.
pub fn many_actions(count: u32) -> Vec<u8> {
    let action = |fields: Fields, _| fields.ws(&[0, 3]).l(8);
    let list = (0..count).fold(Fields::new().l(count), action).done();
    drafts::table(&[drafts::grows(0, 0, 0x1000); 4], &list, &[])
}

/// A table with a machine in which each glyph takes 256 entries: all rows stay and lead to the next, but the last.
pub fn long_walk() -> Vec<u8> {
    let rows: Vec<[u8; 4]> = (0..=255).map(|row| [255, row, 255, 255]).collect();
    let entries: Vec<(u16, u16)> = (0..256).map(|row| if row < 255 { (row + 1, 0x4000) } else { (0, 0) }).collect();
    drafts::table(&[drafts::grows(0x1000, 0x1000, 0)], &[], &drafts::machine(&rows, &entries))
}

/// A table with a machine of 120 rows and 255 classes, whose cells name 256 entries in turn.
pub fn wide_machine() -> Vec<u8> {
    let (rows, classes) = (120u16, 255u16);
    let entries_at = 12 + rows * classes;
    let head = Fields::new().to(8).w(classes).ws(&[8, 12, entries_at]).ws(&[0, 0]);
    let cells: Vec<u8> = (0..rows * classes).map(|cell| (u32::from(cell) * 7 % 256) as u8).collect();
    let entry = |fields: Fields, number: u16| fields.w(12 + classes * (number % rows)).w(number);
    let machine = (0..256).fold(head.bs(&cells), entry).done();
    drafts::table(&[drafts::grows(0x1000, 0x1000, 0)], &[], &machine)
}

/// Apple's complex example without its machine.
pub fn without_machine() -> Vec<u8> {
    let mut table = reference::examples::complex();
    table[10..12].fill(0);
    table
}

/// A line of `count` glyphs from all over the font, at 12 pt, two points a glyph too narrow.
pub fn line(table: Vec<u8>, n: u32, count: usize) -> LineCase {
    let glyphs = (0..count as u32).map(|place| (place * 7_919 % n) as u16).collect();
    LineCase {
        sizes: one_size(12 * 65_536, count),
        advances: vec![6 * 65_536; count],
        target: 8 * 65_536 * count as i64,
        room: 64 * count,
        ..drafts::line(table, n, glyphs)
    }
}

/// A meaning in which each glyph has a cluster of one record, these in turn, and perhaps a ligature of one component, another one
/// for each; no table could hold many.
struct Spread {
    glyphs: u32,
    records: Vec<WidthRecord>,
    ligatures: bool,
}

impl Parts for Spread {
    fn glyph_count(&self) -> u32 {
        self.glyphs
    }

    fn sizes(&self, _: Direction) -> Option<Sizes> {
        None
    }

    fn glyph_class(&self, _: Direction, _: u32) -> Option<u8> {
        None
    }

    fn cell(&self, _: Direction, _: u32, _: u32) -> Option<Cell> {
        None
    }

    fn width_record(&self, direction: Direction, glyph: u32, class: u32) -> Option<WidthRecord> {
        let asked = direction == Direction::Horizontal && class == 0;
        asked.then(|| self.records.get(glyph as usize % self.records.len().max(1)).copied())?
    }

    fn action(&self, direction: Direction, glyph: u32, number: u32) -> Option<Action> {
        let asked = self.ligatures && direction == Direction::Horizontal && number == 0;
        let component = (glyph * 7_919 % self.glyphs) as u16;
        asked.then(|| Action { class: 0, kind: 0, data: Fields::new().ls(&[0, 0]).ws(&[0, 1, component]).done() })
    }
}

/// The sheet of a meaning with so many glyphs and distinct clusters.
pub fn sheet(glyphs: u32, distinct: u32) -> Vec<u8> {
    let records = (0..distinct).map(|number| drafts::grows(0x1000, number, 0)).collect();
    sheet_of(&Spread { glyphs, records, ligatures: false })
}

/// The sheet of a meaning with a ligature for each glyph: its lists differ in their last two bytes only.
pub fn ligature_sheet(glyphs: u32) -> Vec<u8> {
    sheet_of(&Spread { glyphs, records: Vec::new(), ligatures: true })
}

/// The sheet of a meaning whose clusters, one to a glyph and all different, find one slot when the library's reader tells
/// them apart: it mixes a cluster's seven words by adding and multiplying, and a slot is the upper 17 bits. Given the fourth
/// word, the after grow limit, the after shrink limit is one that leads there.
pub fn one_slot(count: u32) -> Vec<u8> {
    const FACTOR: u32 = 2_654_435_761;
    let inverse = (0..5).fold(FACTOR, |x, _| x.wrapping_mul(2u32.wrapping_sub(FACTOR.wrapping_mul(x))));
    let mixed = |words: &[u32]| words.iter().fold(0u32, |sum, word| sum.wrapping_add(*word).wrapping_mul(FACTOR));
    let record = |after: u32| {
        let before = mixed(&[1, 0, 0, 0, after]);
        let lead = |last: u32| last.wrapping_mul(inverse).wrapping_mul(inverse).wrapping_sub(before);
        let shrink = (0..1 << 15).map(lead).find(|&shrink| shrink <= 0x10_0000)?;
        Some(WidthRecord { after_shrink: shrink, ..drafts::grows(0, after, 0) })
    };
    let records: Vec<WidthRecord> = (0..).filter_map(record).take(count as usize).collect();
    sheet_of(&Spread { glyphs: count, records, ligatures: false })
}
