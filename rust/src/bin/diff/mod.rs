//! `just-sheet --diff`: what changed between two tables, a line for each difference or for each run of glyphs with the same
//! ones, and how many there are of each kind.
//!
//! A line is the direction, what differs, where (`glyph` or `row` and `class`, with their numbers) and the mark, one word each,
//! then a colon, what the first table has and what the second has, an arrow between them. The library lists the differences;
//! what they are is read off the two sheets.

use crate::{action_text, entry_text, put, record_text, run_text};
use just::{Action, Difference, DifferingPart, Direction, Entry, Machine, Mark, Pair, Run, Sheet, Side, Sizes, Table};
use std::fmt;

/// The kinds of differences as lines and counts name them, in the order of the list.
const KINDS: [&str; 5] = ["sizes", "class", "cell", "record", "actions"];

fn kind(part: DifferingPart) -> &'static str {
    match part {
        DifferingPart::Sizes => KINDS[0],
        DifferingPart::Class { .. } => KINDS[1],
        DifferingPart::Cell { .. } => KINDS[2],
        DifferingPart::Record { .. } => KINDS[3],
        DifferingPart::Actions { .. } => KINDS[4],
    }
}

fn glyph(part: DifferingPart) -> Option<u16> {
    match part {
        DifferingPart::Class { glyph } | DifferingPart::Actions { glyph } => Some(glyph),
        DifferingPart::Record { glyph, .. } => Some(glyph),
        DifferingPart::Sizes | DifferingPart::Cell { .. } => None,
    }
}

/// What is printed of two tables, and whether nothing has changed. Runs of glyphs with the same changes are one line for each
/// of these if it `folds`.
pub fn diff(first: &Table, second: &Table, folds: bool) -> Result<(String, bool), String> {
    let list = first.differences(second).map_err(|unlike| unlike.to_string())?;
    let sheets = [sheet(first)?, sheet(second)?];
    let mut out = String::new();
    for direction in [Direction::Horizontal, Direction::Vertical] {
        let own: Vec<Difference> =
            list.iter().filter(|difference| difference.direction == direction).copied().collect();
        let sides = sheets.each_ref().map(|bytes| side(bytes, direction));
        put_direction(&mut out, &own, &sides, folds);
    }
    put_counts(&mut out, &list);
    Ok((out, list.is_empty()))
}

fn sheet(table: &Table) -> Result<Vec<u8>, String> {
    table.write_sheet().map_err(|refusal| refusal.to_string())
}

fn side(sheet: &[u8], direction: Direction) -> Side {
    Sheet::new(sheet).expect("what was written is a sheet").side(direction)
}

/// The last line: all differences, and those of each kind.
fn put_counts(out: &mut String, list: &[Difference]) {
    let count = |name: &str| list.iter().filter(|difference| kind(difference.part) == name).count();
    let counts = KINDS.map(|name| format!("{name} {}", count(name)));
    put(out, format_args!("differences: {} ({})\n", list.len(), counts.join(", ")));
}

fn put_direction(out: &mut String, list: &[Difference], sides: &[Side; 2], folds: bool) {
    let mut open: Option<Block> = None;
    for of_one in list.chunk_by(|a, b| (kind(a.part), glyph(a.part)) == (kind(b.part), glyph(b.part))) {
        let block = Block::new(of_one, sides);
        match &mut open {
            Some(open) if folds && open.goes_on(&block) => open.glyphs = open.glyphs.zip(block.glyphs).map(joined),
            _ => {
                if let Some(done) = open.replace(block) {
                    done.put(out);
                }
            }
        }
    }
    if let Some(done) = open {
        done.put(out);
    }
}

/// A run, and the glyph after it.
fn joined((run, next): (Run, Run)) -> Run {
    Run { last: next.last, ..run }
}

/// The differences of one kind that glyphs in a row all have, or those that no glyph has.
struct Block<'a> {
    direction: Direction,
    kind: &'static str,
    glyphs: Option<Run>,
    changes: Vec<Change<'a>>,
}

/// A difference apart from its glyph.
#[derive(PartialEq)]
struct Change<'a> {
    row: Option<u16>,
    class: Option<u16>,
    mark: Mark,
    values: [Option<Value<'a>>; 2],
}

/// What a table has in a place.
#[derive(PartialEq)]
enum Value<'a> {
    Sizes(Sizes),
    Class(u8),
    Entry(Entry),
    Record(&'a Pair),
    Actions(&'a [Action]),
}

impl<'a> Block<'a> {
    /// Some differences of one direction and kind, of one glyph or of none.
    fn new(list: &[Difference], sides: &'a [Side; 2]) -> Block<'a> {
        let Difference { direction, part, .. } = list[0];
        let glyphs = glyph(part).map(|glyph| Run { first: glyph, last: glyph, value: 0 });
        Block { direction, kind: kind(part), glyphs, changes: list.iter().map(|one| Change::new(one, sides)).collect() }
    }

    /// Whether the next block has the same of the next glyph.
    fn goes_on(&self, next: &Block) -> bool {
        let follows = self.glyphs.zip(next.glyphs).is_some_and(|(run, next)| run.last + 1 == next.first);
        follows && self.kind == next.kind && self.changes == next.changes
    }

    fn put(&self, out: &mut String) {
        let direction = match self.direction {
            Direction::Horizontal => "horizontal",
            Direction::Vertical => "vertical",
        };
        for change in &self.changes {
            put(out, format_args!("{direction} {}", self.kind));
            let glyphs = self.glyphs.map(|run| format!("glyph {}", run_text(&run)));
            let [row, class] = [("row", change.row), ("class", change.class)]
                .map(|(name, number)| number.map(|number| format!("{name} {number}")));
            [glyphs, row, class].iter().flatten().for_each(|place| put(out, format_args!(" {place}")));
            let values: Vec<String> = change.values.iter().flatten().map(Value::to_string).collect();
            put(out, format_args!(" {}: {}\n", mark_text(change.mark), values.join(" -> ")));
        }
    }
}

fn mark_text(mark: Mark) -> &'static str {
    match mark {
        Mark::Changed => "changed",
        Mark::OnlyInFirst => "only-in-first",
        Mark::OnlyInSecond => "only-in-second",
    }
}

impl<'a> Change<'a> {
    fn new(difference: &Difference, sides: &'a [Side; 2]) -> Change<'a> {
        let (row, class) = match difference.part {
            DifferingPart::Cell { row, class } => (Some(row), Some(class)),
            DifferingPart::Record { class, .. } => (None, Some(class.into())),
            _ => (None, None),
        };
        Change { row, class, mark: difference.mark, values: sides.each_ref().map(|side| value(side, difference.part)) }
    }
}

fn value(side: &Side, part: DifferingPart) -> Option<Value<'_>> {
    match part {
        DifferingPart::Sizes => side.machine.as_ref().map(|machine| Value::Sizes(machine.sizes)),
        DifferingPart::Class { glyph } => side.machine.as_ref().map(|machine| Value::Class(class_of(machine, glyph))),
        DifferingPart::Cell { row, class } => {
            side.machine.as_ref().map(|machine| Value::Entry(cell(machine, row, class)))
        }
        DifferingPart::Record { glyph, class } => {
            let cluster = &side.clusters[usize::from(number_of(&side.cluster_runs, glyph)?)];
            cluster.iter().find(|pair| pair.class == class).map(Value::Record)
        }
        DifferingPart::Actions { glyph } => {
            Some(Value::Actions(&side.lists[usize::from(number_of(&side.list_runs, glyph)?)]))
        }
    }
}

/// The value of a glyph in rising runs.
fn number_of(runs: &[Run], glyph: u16) -> Option<u16> {
    let next = runs.get(runs.partition_point(|run| run.last < glyph))?;
    (next.first <= glyph).then_some(next.value)
}

/// Glyphs of class 1 are in no run.
fn class_of(machine: &Machine, glyph: u16) -> u8 {
    number_of(&machine.classes, glyph).map_or(1, |class| class as u8)
}

fn cell(machine: &Machine, row: u16, class: u16) -> Entry {
    let number = machine.cells[usize::from(row) * usize::from(machine.sizes.classes) + usize::from(class)];
    machine.entries[usize::from(number)]
}

impl fmt::Display for Value<'_> {
    fn fmt(&self, out: &mut fmt::Formatter) -> fmt::Result {
        match self {
            Value::Sizes(sizes) => write!(out, "{} rows and {} classes", sizes.rows, sizes.classes),
            Value::Class(class) => write!(out, "{class}"),
            Value::Entry(entry) => write!(out, "{}", entry_text(*entry)),
            Value::Record(pair) => write!(out, "{}", record_text(pair)),
            Value::Actions(list) => {
                write!(out, "{}", list.iter().map(action_text).collect::<Vec<_>>().join("; "))
            }
        }
    }
}
