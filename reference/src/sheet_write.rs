//! The writer of sheets (document 01, "The sheet").
//!
//! `write_sheet` goes over the table's lookups once: a position that was met
//! before keeps its number, and a new one is written out, hashed, and compared
//! with what was written before. `sheet_of` is the slow definition: it asks
//! nothing but the questions that any meaning answers.

use std::collections::hash_map::DefaultHasher;
use std::collections::HashMap;
use std::hash::{Hash, Hasher};

use crate::actions;
use crate::bytes::{put_u16, put_u32, refuse, Fault, ROOM};
use crate::cluster;
use crate::machine::{GlyphClasses, OTHER_CLASS};
use crate::meaning::{Cell, Direction, Parts};
use crate::table::{read_table, Table};

/// The sheet of a table, or the table's first fault.
pub fn write_sheet(table: &[u8], n: u32) -> Result<Vec<u8>, Fault> {
    Ok(write_table_sheet(&read_table(table, n)?))
}

/// The same with a lent room of `room` bytes: 16 where the sheet is longer.
pub fn write_sheet_within(table: &[u8], n: u32, room: usize) -> Result<Vec<u8>, Fault> {
    let sheet = write_sheet(table, n)?;
    refuse(sheet.len() > room, ROOM)?;
    Ok(sheet)
}

/// The length of the table's sheet.
pub fn sheet_length(table: &[u8], n: u32) -> Result<usize, Fault> {
    write_sheet(table, n).map(|sheet| sheet.len())
}

/// The sheet of an accepted table.
pub fn write_table_sheet(table: &Table) -> Vec<u8> {
    let mut out = Vec::new();
    put_u32(&mut out, table.glyph_count());
    for direction in Direction::BOTH {
        write_machine(table, direction, &mut out);
        write_clusters(table, direction, &mut out);
        write_lists(table, direction, &mut out);
    }
    out
}

/// A run as sections 2, 6 and 8 have it: glyphs in a row that share a value.
#[derive(Clone, Copy, Debug, PartialEq, Eq)]
pub struct SheetRun {
    pub first: u16,
    pub last: u16,
    pub value: u16,
}

/// Rising runs, kept maximal.
#[derive(Default)]
pub struct RunList(pub Vec<SheetRun>);

impl RunList {
    pub fn add(&mut self, first: u32, last: u32, value: u32) {
        let value = value as u16;
        match self.0.last_mut() {
            Some(run) if run.last as u32 + 1 == first && run.value == value => run.last = last as u16,
            _ => self.0.push(SheetRun { first: first as u16, last: last as u16, value }),
        }
    }

    pub fn write(&self, out: &mut Vec<u8>) {
        put_u32(out, self.0.len() as u32);
        for run in &self.0 {
            put_u16(out, run.first);
            put_u16(out, run.last);
            put_u16(out, run.value);
        }
    }
}

/// Pieces of a section, each once, numbered in order of first use.
#[derive(Default)]
struct Pool {
    bytes: Vec<u8>,
    starts: Vec<usize>,
    by_hash: HashMap<u64, Vec<u32>>,
}

impl Pool {
    /// The number of the piece that `write` puts down.
    fn number(&mut self, write: impl FnOnce(&mut Vec<u8>)) -> u32 {
        let start = self.bytes.len();
        write(&mut self.bytes);
        let key = hash(&self.bytes[start..]);
        let known = self.by_hash.get(&key).into_iter().flatten().copied();
        if let Some(number) = known.clone().find(|&k| self.piece(k, start) == &self.bytes[start..]) {
            self.bytes.truncate(start);
            return number;
        }
        let number = self.starts.len() as u32;
        self.starts.push(start);
        self.by_hash.entry(key).or_default().push(number);
        number
    }

    /// A piece that ends where the next one starts, the last one at `end`.
    fn piece(&self, number: u32, end: usize) -> &[u8] {
        let index = number as usize;
        let stop = self.starts.get(index + 1).copied().unwrap_or(end);
        &self.bytes[self.starts[index]..stop]
    }

    fn write(&self, out: &mut Vec<u8>) {
        put_u32(out, self.starts.len() as u32);
        out.extend_from_slice(&self.bytes);
    }
}

fn hash(bytes: &[u8]) -> u64 {
    let mut hasher = DefaultHasher::new();
    bytes.hash(&mut hasher);
    hasher.finish()
}

/// For each position of the table one more than the number given to the piece
/// that stands there; 0 where none is given yet.
struct Numbers(Vec<u32>);

impl Numbers {
    fn new(table: &Table) -> Numbers {
        Numbers(vec![0; table.bytes().0.len()])
    }

    fn get_or(&mut self, at: u64, make: impl FnOnce() -> u32) -> u32 {
        let slot = &mut self.0[at as usize];
        if *slot == 0 {
            *slot = make() + 1;
        }
        *slot - 1
    }
}

/// Sections 1 to 4.
fn write_machine(table: &Table, direction: Direction, out: &mut Vec<u8>) {
    match (table.machine(direction), table.glyph_classes(direction)) {
        (Some(machine), Some(glyphs)) => {
            put_u32(out, 1);
            put_u32(out, machine.rows);
            put_u32(out, machine.classes);
            class_runs(glyphs).write(out);
            write_cells(&machine.cells, out);
        }
        _ => (0..4).for_each(|_| put_u32(out, 0)),
    }
}

/// Runs of one class other than the class of unnamed glyphs.
fn class_runs(glyphs: GlyphClasses) -> RunList {
    let mut runs = RunList::default();
    for (index, &class) in glyphs.bytes.iter().enumerate() {
        if class != OTHER_CLASS {
            let glyph = glyphs.first + index as u32;
            runs.add(glyph, glyph, class as u32);
        }
    }
    runs
}

/// Sections 3 and 4: entries are the same when row and flags are.
fn write_cells(cells: &[Cell], out: &mut Vec<u8>) {
    let mut entries: Vec<Cell> = Vec::new();
    let mut numbers: HashMap<Cell, u8> = HashMap::new();
    let mut used = Vec::with_capacity(cells.len());
    for &cell in cells {
        let number = *numbers.entry(cell).or_insert_with(|| {
            entries.push(cell);
            (entries.len() - 1) as u8
        });
        used.push(number);
    }
    put_u32(out, entries.len() as u32);
    for entry in &entries {
        put_u16(out, entry.row);
        put_u16(out, entry.flags);
    }
    put_u32(out, used.len() as u32);
    out.extend_from_slice(&used);
}

/// Sections 5 and 6.
fn write_clusters(table: &Table, direction: Direction, out: &mut Vec<u8>) {
    let (mut pool, mut runs, mut numbers) = (Pool::default(), RunList::default(), Numbers::new(table));
    for (run, at) in table.cluster_runs(direction) {
        let number = numbers.get_or(at, || pool.number(|o| cluster::write(table.bytes(), at, o)));
        runs.add(run.first, run.last, number);
    }
    pool.write(out);
    runs.write(out);
}

/// Sections 7 and 8; a list of no actions is no list.
fn write_lists(table: &Table, direction: Direction, out: &mut Vec<u8>) {
    let (mut pool, mut runs, mut numbers) = (Pool::default(), RunList::default(), Numbers::new(table));
    for (run, at) in table.list_runs(direction) {
        if table.bytes().known_u32(at) == 0 {
            continue;
        }
        let number = numbers.get_or(at, || pool.number(|o| actions::write(table.bytes(), at, o)));
        runs.add(run.first, run.last, number);
    }
    pool.write(out);
    runs.write(out);
}

/// The sheet of any meaning, by its questions alone. Slow: for each glyph it
/// asks for all 128 classes.
pub fn sheet_of(meaning: &impl Parts) -> Vec<u8> {
    let mut out = Vec::new();
    put_u32(&mut out, meaning.glyph_count());
    for direction in Direction::BOTH {
        machine_of(meaning, direction, &mut out);
        pieces_of(meaning, |glyph| cluster_of(meaning, direction, glyph), &mut out);
        pieces_of(meaning, |glyph| list_of(meaning, direction, glyph), &mut out);
    }
    out
}

fn machine_of(meaning: &impl Parts, direction: Direction, out: &mut Vec<u8>) {
    let Some(sizes) = meaning.sizes(direction) else {
        (0..4).for_each(|_| put_u32(out, 0));
        return;
    };
    put_u32(out, 1);
    put_u32(out, sizes.rows);
    put_u32(out, sizes.classes);
    let mut runs = RunList::default();
    for glyph in 0..meaning.glyph_count() {
        match meaning.glyph_class(direction, glyph) {
            Some(OTHER_CLASS) | None => {}
            Some(class) => runs.add(glyph, glyph, class as u32),
        }
    }
    runs.write(out);
    let mut cells = Vec::new();
    for row in 0..sizes.rows {
        for class in 0..sizes.classes {
            cells.extend(meaning.cell(direction, row, class));
        }
    }
    write_cells(&cells, out);
}

fn pieces_of(meaning: &impl Parts, piece: impl Fn(u32) -> Option<Vec<u8>>, out: &mut Vec<u8>) {
    let (mut pool, mut runs) = (Pool::default(), RunList::default());
    for glyph in 0..meaning.glyph_count() {
        if let Some(bytes) = piece(glyph) {
            runs.add(glyph, glyph, pool.number(|o| o.extend_from_slice(&bytes)));
        }
    }
    pool.write(out);
    runs.write(out);
}

fn cluster_of(meaning: &impl Parts, direction: Direction, glyph: u32) -> Option<Vec<u8>> {
    let mut out = vec![0; 4];
    let mut count = 0u32;
    for class in 0..128 {
        if let Some(record) = meaning.width_record(direction, glyph, class) {
            put_u32(&mut out, class);
            cluster::write_record(&record, &mut out);
            count += 1;
        }
    }
    out[..4].copy_from_slice(&count.to_be_bytes());
    (count > 0).then_some(out)
}

fn list_of(meaning: &impl Parts, direction: Direction, glyph: u32) -> Option<Vec<u8>> {
    let mut out = vec![0; 4];
    let mut count = 0u32;
    while let Some(action) = meaning.action(direction, glyph, count) {
        put_u16(&mut out, action.class);
        put_u16(&mut out, action.kind);
        put_u32(&mut out, action.data.len() as u32);
        out.extend_from_slice(&action.data);
        count += 1;
    }
    out[..4].copy_from_slice(&count.to_be_bytes());
    (count > 0).then_some(out)
}
