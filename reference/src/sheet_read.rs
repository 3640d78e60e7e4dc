//! The reader of sheets (document 01, "The sheet", and refusal 17).
//!
//! Bytes are a sheet when the writer would put down exactly these bytes for
//! some meaning within the limits. So everything that the writer fixes is
//! judged: first-use order, nothing unused, nothing twice, maximal runs, the
//! least row count, nothing after the end.

use std::collections::HashSet;

use crate::actions::{fixed_data, DECOMPOSE, LAST_CLASS, LAST_KIND, MOST_ACTIONS, MOST_COMPONENTS};
use crate::bytes::{get_u16, get_u32, Fault, SHEET};
use crate::cluster::{record_of, LAST_PRIORITY, MOST_PAIRS, PAIR};
use crate::machine::{Machine, LEAST_CLASSES, LEAST_ROWS, MOST_CLASSES, MOST_ROWS, OTHER_CLASS};
use crate::meaning::{Action, Cell, Direction, Parts, Sizes, WidthRecord, DELETED, LIMIT, UNLIMITED};
use crate::table::MOST_GLYPHS;

/// The most distinct entries: cells are bytes.
const MOST_ENTRIES: u32 = 256;

/// The meaning that an accepted sheet is written for.
#[derive(Debug)]
pub struct Meaning<'a> {
    n: u32,
    sides: [Side<'a>; 2],
}

#[derive(Debug)]
struct Side<'a> {
    machine: Option<(Machine, Runs<'a>)>,
    clusters: Vec<&'a [u8]>,
    cluster_runs: Runs<'a>,
    lists: Vec<&'a [u8]>,
    list_runs: Runs<'a>,
}

/// Whether the bytes are a sheet.
pub fn check_sheet(bytes: &[u8]) -> bool {
    read_sheet(bytes).is_some()
}

/// The meaning of a sheet, or refusal 17.
pub fn open_sheet(bytes: &[u8]) -> Result<Meaning<'_>, Fault> {
    read_sheet(bytes).ok_or(Fault::plain(SHEET))
}

/// The meaning of a sheet; `None` for bytes that are not a sheet.
pub fn read_sheet(bytes: &[u8]) -> Option<Meaning<'_>> {
    let mut cursor = Cursor { bytes, at: 0 };
    let n = cursor.u32()?;
    keep((1..=MOST_GLYPHS).contains(&n))?;
    let horizontal = read_side(&mut cursor, n)?;
    let vertical = read_side(&mut cursor, n)?;
    keep(cursor.at == bytes.len())?;
    Some(Meaning { n, sides: [horizontal, vertical] })
}

fn keep(kept: bool) -> Option<()> {
    kept.then_some(())
}

/// A place in the sheet that only moves forward. Nothing is taken before its
/// bytes are there, whatever a count says.
struct Cursor<'a> {
    bytes: &'a [u8],
    at: usize,
}

impl<'a> Cursor<'a> {
    fn take(&mut self, length: usize) -> Option<&'a [u8]> {
        let end = self.at.checked_add(length)?;
        let taken = self.bytes.get(self.at..end)?;
        self.at = end;
        Some(taken)
    }

    fn u16(&mut self) -> Option<u16> {
        self.take(2).map(|b| get_u16(b, 0))
    }

    fn u32(&mut self) -> Option<u32> {
        self.take(4).map(|b| get_u32(b, 0))
    }
}

/// The eight sections of a direction.
fn read_side<'a>(cursor: &mut Cursor<'a>, n: u32) -> Option<Side<'a>> {
    let machine = read_machine(cursor, n)?;
    let clusters = read_pieces(cursor, read_cluster)?;
    let cluster_runs = read_numbered_runs(cursor, n, clusters.len())?;
    let lists = read_pieces(cursor, |cursor| read_list(cursor, n))?;
    let list_runs = read_numbered_runs(cursor, n, lists.len())?;
    Some(Side { machine, clusters, cluster_runs, lists, list_runs })
}

/// Sections 1 to 4.
fn read_machine<'a>(cursor: &mut Cursor<'a>, n: u32) -> Option<Option<(Machine, Runs<'a>)>> {
    match cursor.u32()? {
        0 => {
            for _ in 0..3 {
                keep(cursor.u32()? == 0)?;
            }
            Some(None)
        }
        1 => {
            let rows = cursor.u32()?;
            let classes = cursor.u32()?;
            keep((LEAST_ROWS..=MOST_ROWS).contains(&rows))?;
            keep((LEAST_CLASSES..=MOST_CLASSES).contains(&classes))?;
            let runs = read_class_runs(cursor, n, classes)?;
            let entries = read_entries(cursor, rows)?;
            let cells = read_cells(cursor, rows * classes, &entries)?;
            keep(least_rows(&cells, classes) == rows)?;
            Some(Some((Machine { rows, classes, cells }, runs)))
        }
        _ => None,
    }
}

/// Section 2: any class below the class count but that of unnamed glyphs.
fn read_class_runs<'a>(cursor: &mut Cursor<'a>, n: u32, classes: u32) -> Option<Runs<'a>> {
    let runs = read_runs(cursor, n)?;
    for index in 0..runs.count() {
        let class = runs.value(index) as u32;
        keep(class != OTHER_CLASS as u32 && class < classes)?;
    }
    Some(runs)
}

/// Section 3: no entry twice, each leading to a row below S.
fn read_entries(cursor: &mut Cursor, rows: u32) -> Option<Vec<Cell>> {
    let count = cursor.u32()?;
    keep(count <= MOST_ENTRIES)?;
    let mut entries = Vec::new();
    let mut seen = HashSet::new();
    for _ in 0..count {
        let entry = Cell { row: cursor.u16()?, flags: cursor.u16()? };
        keep((entry.row as u32) < rows && seen.insert(entry))?;
        entries.push(entry);
    }
    Some(entries)
}

/// Section 4: entries come into use in their order, and all are used.
fn read_cells(cursor: &mut Cursor, count: u32, entries: &[Cell]) -> Option<Vec<Cell>> {
    keep(cursor.u32()? == count)?;
    let numbers = cursor.take(count as usize)?;
    let mut order = FirstUse::new(entries.len());
    let mut cells = Vec::with_capacity(numbers.len());
    for &number in numbers {
        keep(order.use_number(number as usize))?;
        cells.push(entries[number as usize]);
    }
    keep(order.all_used())?;
    Some(cells)
}

/// The least row count, 2 or more, whose rows lead only below it; cells must
/// lead to rows that are there.
fn least_rows(cells: &[Cell], classes: u32) -> u32 {
    let mut rows = LEAST_ROWS;
    let mut row = 0;
    while row < rows {
        let start = (row * classes) as usize;
        for cell in &cells[start..start + classes as usize] {
            rows = rows.max(cell.row as u32 + 1);
        }
        row += 1;
    }
    rows
}

/// Numbers that must come into use in rising order, none left out.
struct FirstUse {
    count: usize,
    used: usize,
}

impl FirstUse {
    fn new(count: usize) -> FirstUse {
        FirstUse { count, used: 0 }
    }

    fn use_number(&mut self, number: usize) -> bool {
        if number == self.used {
            self.used += 1;
        }
        number < self.used && number < self.count
    }

    fn all_used(&self) -> bool {
        self.used == self.count
    }
}

/// Sections 5 and 7: pieces, no two alike.
fn read_pieces<'a>(
    cursor: &mut Cursor<'a>,
    mut read: impl FnMut(&mut Cursor<'a>) -> Option<()>,
) -> Option<Vec<&'a [u8]>> {
    let count = cursor.u32()?;
    let mut pieces = Vec::new();
    let mut seen = HashSet::new();
    for _ in 0..count {
        let start = cursor.at;
        read(cursor)?;
        let piece = &cursor.bytes[start..cursor.at];
        keep(seen.insert(piece))?;
        pieces.push(piece);
    }
    Some(pieces)
}

/// A cluster as the writer puts it down: no bits but the kept ones, sizes in
/// place of signed shrink limits.
fn read_cluster(cursor: &mut Cursor) -> Option<()> {
    let count = cursor.u32()?;
    keep((1..=MOST_PAIRS).contains(&count))?;
    let mut before: Option<u32> = None;
    for _ in 0..count {
        let class = cursor.u32()?;
        keep(class <= LAST_CLASS as u32 && before.is_none_or(|b| b < class))?;
        for _ in 0..4 {
            keep(cursor.u32()? <= LIMIT)?;
        }
        for _ in 0..2 {
            keep(cursor.u16()? & !UNLIMITED <= LAST_PRIORITY)?;
        }
        before = Some(class);
    }
    Some(())
}

/// A list as the writer puts it down: never empty, exact data lengths.
fn read_list(cursor: &mut Cursor, n: u32) -> Option<()> {
    let count = cursor.u32()?;
    keep((1..=MOST_ACTIONS).contains(&count))?;
    for _ in 0..count {
        keep(cursor.u16()? <= LAST_CLASS)?;
        let kind = cursor.u16()?;
        keep(kind <= LAST_KIND)?;
        let length = cursor.u32()?;
        let data = cursor.take(length as usize)?;
        keep(keeps_data(kind, data, n))?;
    }
    Some(())
}

fn keeps_data(kind: u16, data: &[u8], n: u32) -> bool {
    let below = |at: usize| (get_u16(data, at) as u32) < n;
    if kind == 0 {
        return keeps_decompose(data, n);
    }
    if data.len() as u64 != fixed_data(kind) {
        return false;
    }
    match kind {
        1 => below(0),
        2 => (get_u16(data, 4) == DELETED || below(4)) && below(6),
        5 => get_u16(data, 0) == 0 && below(2),
        _ => true,
    }
}

fn keeps_decompose(data: &[u8], n: u32) -> bool {
    let head = DECOMPOSE as usize;
    if data.len() < head {
        return false;
    }
    let count = get_u16(data, 10);
    (1..=MOST_COMPONENTS).contains(&count)
        && data.len() == head + 2 * count as usize
        && data[head..].chunks(2).all(|g| (get_u16(g, 0) as u32) < n)
}

/// The runs of a section: first, last, value, 16 bits each.
#[derive(Clone, Copy, Debug)]
struct Runs<'a>(&'a [u8]);

impl Runs<'_> {
    fn count(&self) -> usize {
        self.0.len() / 6
    }

    fn first(&self, index: usize) -> u16 {
        get_u16(self.0, 6 * index)
    }

    fn last(&self, index: usize) -> u16 {
        get_u16(self.0, 6 * index + 2)
    }

    fn value(&self, index: usize) -> u16 {
        get_u16(self.0, 6 * index + 4)
    }

    /// The value of the run that a glyph is in, by binary search.
    fn of(&self, glyph: u32) -> Option<u16> {
        let (mut low, mut high) = (0, self.count());
        while low < high {
            let middle = (low + high) / 2;
            if self.last(middle) as u32 >= glyph {
                high = middle;
            } else {
                low = middle + 1;
            }
        }
        (low < self.count() && self.first(low) as u32 <= glyph).then(|| self.value(low))
    }
}

/// Rising runs below N, each as long as it can be.
fn read_runs<'a>(cursor: &mut Cursor<'a>, n: u32) -> Option<Runs<'a>> {
    let count = cursor.u32()?;
    let runs = Runs(cursor.take((count as usize).checked_mul(6)?)?);
    for index in 0..runs.count() {
        let first = runs.first(index);
        keep(first <= runs.last(index) && (runs.last(index) as u32) < n)?;
        if index > 0 {
            let before = runs.last(index - 1);
            let touches = before as u32 + 1 == first as u32;
            keep(before < first && !(touches && runs.value(index - 1) == runs.value(index)))?;
        }
    }
    Some(runs)
}

/// Sections 6 and 8: pieces come into use in their order, and all are used.
fn read_numbered_runs<'a>(cursor: &mut Cursor<'a>, n: u32, pieces: usize) -> Option<Runs<'a>> {
    let runs = read_runs(cursor, n)?;
    let mut order = FirstUse::new(pieces);
    for index in 0..runs.count() {
        keep(order.use_number(runs.value(index) as usize))?;
    }
    keep(order.all_used())?;
    Some(runs)
}

impl Meaning<'_> {
    fn side(&self, direction: Direction) -> &Side<'_> {
        &self.sides[direction.index()]
    }
}

impl Parts for Meaning<'_> {
    fn glyph_count(&self) -> u32 {
        self.n
    }

    fn sizes(&self, direction: Direction) -> Option<Sizes> {
        self.side(direction).machine.as_ref().map(|(machine, _)| machine.sizes())
    }

    fn glyph_class(&self, direction: Direction, glyph: u32) -> Option<u8> {
        let (_, runs) = self.side(direction).machine.as_ref()?;
        (glyph < self.n).then(|| runs.of(glyph).map_or(OTHER_CLASS, |class| class as u8))
    }

    fn cell(&self, direction: Direction, row: u32, class: u32) -> Option<Cell> {
        self.side(direction).machine.as_ref()?.0.cell(row, class)
    }

    fn width_record(&self, direction: Direction, glyph: u32, class: u32) -> Option<WidthRecord> {
        let side = self.side(direction);
        let cluster = side.clusters[side.cluster_runs.of(glyph)? as usize];
        record_in(cluster, class)
    }

    fn action(&self, direction: Direction, glyph: u32, number: u32) -> Option<Action> {
        let side = self.side(direction);
        let list = side.lists[side.list_runs.of(glyph)? as usize];
        action_in(list, number)
    }
}

/// The record of a class in a sheet's cluster, by binary search.
fn record_in(cluster: &[u8], class: u32) -> Option<WidthRecord> {
    let pair = PAIR as usize;
    let (mut low, mut high) = (0, get_u32(cluster, 0) as usize);
    while low < high {
        let middle = (low + high) / 2;
        let at = 4 + pair * middle;
        let here = get_u32(cluster, at);
        if here == class {
            return Some(record_of(&cluster[at + 4..at + pair]));
        } else if here < class {
            low = middle + 1;
        } else {
            high = middle;
        }
    }
    None
}

/// The action of a number in a sheet's list.
fn action_in(list: &[u8], number: u32) -> Option<Action> {
    if number >= get_u32(list, 0) {
        return None;
    }
    let mut at = 4;
    for _ in 0..number {
        at += 8 + get_u32(list, at + 4) as usize;
    }
    let length = get_u32(list, at + 4) as usize;
    let data = list[at + 8..at + 8 + length].to_vec();
    Some(Action { class: get_u16(list, at), kind: get_u16(list, at + 2), data })
}
