//! A whole table: its header, its directions, and the parts of its meaning
//! answered from its bytes (document 01, "The table" and the order of
//! refusals).

use crate::actions;
use crate::bytes::{self, refuse, Bytes, Fault};
use crate::cluster;
use crate::lookup::{Found, Lookup, Run};
use crate::machine::{self, GlyphClasses, Machine};
use crate::meaning::{Action, Cell, Direction, Parts, Sizes, Stretch, WidthRecord};

pub const LEAST_LENGTH: usize = 10;
pub const MOST_LENGTH: usize = 32_768;
pub const MOST_GLYPHS: u32 = 65_535;
const VERSION: u32 = 0x0001_0000;

/// An accepted table.
#[derive(Debug)]
pub struct Table<'a> {
    bytes: Bytes<'a>,
    n: u32,
    sides: [Side<'a>; 2],
}

/// The two lookups of a direction.
#[derive(Clone, Copy, Debug, PartialEq, Eq, Hash)]
pub enum Which {
    Width,
    Action,
}

/// One direction of an accepted table; an absent one has nothing.
#[derive(Debug, Default)]
struct Side<'a> {
    machine: Option<(Machine, GlyphClasses<'a>)>,
    widths: Option<Placed<'a>>,
    actions: Option<Placed<'a>>,
}

/// A lookup and the position that its values count from.
#[derive(Debug)]
struct Placed<'a> {
    lookup: Lookup<'a>,
    base: u64,
}

impl Placed<'_> {
    /// The position that a glyph's value names.
    fn of(&self, glyph: u32) -> Option<u64> {
        self.lookup.value(glyph).map(|value| self.base + value as u64)
    }
}

/// Whether the table is accepted with N, or its first fault.
pub fn check_table(table: &[u8], n: u32) -> Result<(), Fault> {
    read_table(table, n).map(|_| ())
}

/// Reads the table with N.
pub fn read_table(table: &[u8], n: u32) -> Result<Table<'_>, Fault> {
    let bytes = Bytes(table);
    refuse(!(LEAST_LENGTH..=MOST_LENGTH).contains(&table.len()), bytes::LENGTH)?;
    refuse(!(1..=MOST_GLYPHS).contains(&n), bytes::GLYPH_COUNT)?;
    refuse(bytes.u32(0)? != VERSION || bytes.u16(4)? != 0, bytes::HEADER)?;
    let horizontal = read_direction(bytes, bytes.u16(6)?, n)?;
    let vertical = read_direction(bytes, bytes.u16(8)?, n)?;
    Ok(Table { bytes, n, sides: [horizontal, vertical] })
}

/// One direction: three offsets, machine, width lookup, clusters by glyph,
/// action lookup, lists by glyph.
fn read_direction(bytes: Bytes, offset: u16, n: u32) -> Result<Side, Fault> {
    if offset == 0 {
        return Ok(Side::default());
    }
    let at = offset as u64;
    let machine_at = bytes.u16(at)? as u64;
    let widths_at = bytes.u16(at + 2)? as u64;
    let actions_at = bytes.u16(at + 4)? as u64;
    let machine = if machine_at == 0 { None } else { Some(machine::read(bytes, machine_at, n)?) };
    let widths = read_widths(bytes, at + 6, widths_at, n)?;
    let actions = if actions_at == 0 { None } else { Some(read_actions(bytes, actions_at, n)?) };
    Ok(Side { machine, widths: Some(widths), actions })
}

/// The width lookup and its clusters; value 0 names a cluster like any other.
fn read_widths(bytes: Bytes, at: u64, base: u64, n: u32) -> Result<Placed, Fault> {
    let lookup = Lookup::read(bytes, at, n)?;
    let mut seen = Seen::new();
    for run in lookup.runs() {
        if seen.is_new(run.value) {
            cluster::check(bytes, base + run.value as u64)?;
        }
    }
    Ok(Placed { lookup, base })
}

/// The action lookup and its lists; value 0 names none.
fn read_actions(bytes: Bytes, base: u64, n: u32) -> Result<Placed, Fault> {
    let lookup = Lookup::read(bytes, base, n)?;
    let mut seen = Seen::new();
    for run in lookup.runs() {
        if run.value != 0 && seen.is_new(run.value) {
            actions::check(bytes, base + run.value as u64, n)?;
        }
    }
    Ok(Placed { lookup, base })
}

/// The values met so far, so that each position is judged once.
struct Seen(Vec<u64>);

impl Seen {
    fn new() -> Seen {
        Seen(vec![0; 65_536 / 64])
    }

    fn is_new(&mut self, value: u16) -> bool {
        let word = &mut self.0[value as usize / 64];
        let bit = 1 << (value % 64);
        let new = *word & bit == 0;
        *word |= bit;
        new
    }
}

impl<'a> Table<'a> {
    fn side(&self, direction: Direction) -> &Side<'a> {
        &self.sides[direction.index()]
    }

    pub fn bytes(&self) -> Bytes<'a> {
        self.bytes
    }

    pub fn machine(&self, direction: Direction) -> Option<&Machine> {
        self.side(direction).machine.as_ref().map(|(machine, _)| machine)
    }

    /// The class bytes of the glyphs below N.
    pub fn glyph_classes(&self, direction: Direction) -> Option<GlyphClasses<'a>> {
        self.side(direction).machine.as_ref().map(|&(_, glyphs)| glyphs)
    }

    /// The glyphs that have clusters, rising, each run with its cluster's place.
    pub fn cluster_runs(&self, direction: Direction) -> impl Iterator<Item = (Run, u64)> + 'a {
        placed_runs(self.side(direction).widths.as_ref())
    }

    /// The glyphs that have lists, rising, each run with its list's place.
    pub fn list_runs(&self, direction: Direction) -> impl Iterator<Item = (Run, u64)> + 'a {
        placed_runs(self.side(direction).actions.as_ref()).filter(|(run, _)| run.value != 0)
    }

    fn lookup(&self, direction: Direction, which: Which) -> Option<Lookup<'a>> {
        let side = self.side(direction);
        let placed = match which {
            Which::Width => &side.widths,
            Which::Action => &side.actions,
        };
        placed.as_ref().map(|placed| placed.lookup)
    }

    /// Finds a glyph in a lookup (document 02, request 9/14); an action value
    /// of 0 is found as 0. Where there is no lookup, nothing is looked at.
    pub fn find(&self, direction: Direction, which: Which, glyph: u16) -> Found {
        self.lookup(direction, which).map_or(Found::default(), |lookup| lookup.find(glyph))
    }

    /// How many units a lookup has, the closing one left out.
    pub fn unit_count(&self, direction: Direction, which: Which) -> usize {
        self.lookup(direction, which).map_or(0, |lookup| lookup.unit_count())
    }

    /// Where the cluster of a glyph stands.
    pub fn cluster_at(&self, direction: Direction, glyph: u32) -> Option<u64> {
        self.side(direction).widths.as_ref()?.of(glyph)
    }

    /// Where the action list of a glyph stands.
    pub fn list_at(&self, direction: Direction, glyph: u32) -> Option<u64> {
        let actions = self.side(direction).actions.as_ref()?;
        actions.of(glyph).filter(|&at| at != actions.base)
    }

    fn found(&self, direction: Direction, glyph: u32, number: u32) -> Option<actions::Found<'a>> {
        let at = self.list_at(direction, glyph)?;
        actions::list(self.bytes, at).nth(number as usize)
    }

    /// The glyph bytes of a type 0 action; empty where there is none.
    pub fn components(&self, direction: Direction, glyph: u32, number: u32) -> Stretch {
        let found = self.found(direction, glyph, number);
        found.map_or(Stretch::default(), |found| found.components())
    }
}

fn placed_runs<'a>(placed: Option<&Placed<'a>>) -> impl Iterator<Item = (Run, u64)> + 'a {
    let base = placed.map_or(0, |p| p.base);
    let runs = placed.map(|p| p.lookup.runs());
    runs.into_iter().flatten().map(move |run| (run, base + run.value as u64))
}

impl Parts for Table<'_> {
    fn glyph_count(&self) -> u32 {
        self.n
    }

    fn sizes(&self, direction: Direction) -> Option<Sizes> {
        self.machine(direction).map(Machine::sizes)
    }

    fn glyph_class(&self, direction: Direction, glyph: u32) -> Option<u8> {
        let glyphs = self.glyph_classes(direction)?;
        (glyph < self.n).then(|| glyphs.of(glyph))
    }

    fn cell(&self, direction: Direction, row: u32, class: u32) -> Option<Cell> {
        self.machine(direction)?.cell(row, class)
    }

    fn width_record(&self, direction: Direction, glyph: u32, class: u32) -> Option<WidthRecord> {
        cluster::record(self.bytes, self.cluster_at(direction, glyph)?, class)
    }

    fn action(&self, direction: Direction, glyph: u32, number: u32) -> Option<Action> {
        self.found(direction, glyph, number).map(|found| found.action())
    }
}

/// Finds a glyph in a lookup of a table, which is refused as ever.
pub fn find(table: &[u8], n: u32, direction: Direction, which: Which, glyph: u16) -> Result<Found, Fault> {
    Ok(read_table(table, n)?.find(direction, which, glyph))
}

/// The component list of an action, as a stretch of the table. It is empty,
/// never a refusal, where no type 0 action of an accepted table is named.
pub fn component_list(table: &[u8], n: u32, direction: Direction, glyph: u32, number: u32) -> Stretch {
    match read_table(table, n) {
        Ok(read) => read.components(direction, glyph, number),
        Err(_) => Stretch::default(),
    }
}

/// The bytes of the component list.
pub fn component_bytes(table: &[u8], n: u32, direction: Direction, glyph: u32, number: u32) -> &[u8] {
    let stretch = component_list(table, n, direction, glyph, number);
    &table[stretch.at..stretch.at + stretch.length]
}
