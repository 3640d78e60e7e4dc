//! What changed between two deliveries (document 02, request 6/14): the
//! differences of two accepted tables, read with one glyph count.
//!
//! Direction by direction: machine sizes, the class of each glyph, cells row by
//! row, width records by glyph and class, action lists by glyph. Many glyphs
//! share a cluster or a list, so what two places of the tables differ in is
//! worked out once and kept.

use std::collections::HashMap;
use std::rc::Rc;

use crate::actions;
use crate::bytes::{refuse, Fault, ROOM};
use crate::cluster;
use crate::lookup::Run;
use crate::meaning::{Action, Direction, Parts, WidthRecord};
use crate::table::{read_table, Table};

/// What differs.
#[derive(Clone, Copy, Debug, PartialEq, Eq, Hash, PartialOrd, Ord)]
pub enum Kind {
    /// S and the class count, as one.
    Sizes,
    /// A glyph's class in the machine.
    GlyphClass,
    /// A cell of the machine, by row and class.
    Cell,
    /// A width record, by glyph and class.
    WidthRecord,
    /// A glyph's whole action list.
    ActionList,
}

/// Where it stands.
#[derive(Clone, Copy, Debug, PartialEq, Eq, Hash, PartialOrd, Ord)]
pub enum Mark {
    Changed,
    OnlyFirst,
    OnlySecond,
}

/// One difference: the numbers are glyph and 0, row and class, glyph and class,
/// or both 0 for sizes.
#[derive(Clone, Copy, Debug, PartialEq, Eq, Hash)]
pub struct Difference {
    pub direction: Direction,
    pub kind: Kind,
    pub mark: Mark,
    pub numbers: [u32; 2],
}

/// Whether the listing goes on after a difference.
type Goes = bool;

/// The differences of two tables read with N, or the first table's refusal, or
/// else the second's.
pub fn differences(first: &[u8], second: &[u8], n: u32) -> Result<Vec<Difference>, Fault> {
    let mut list = Vec::new();
    each_difference(&read_table(first, n)?, &read_table(second, n)?, |difference| {
        list.push(difference);
        true
    });
    Ok(list)
}

/// The same with a lent room: 16 exactly when the list is longer.
pub fn differences_into(first: &[u8], second: &[u8], n: u32, room: usize) -> Result<Vec<Difference>, Fault> {
    let (first, second) = (read_table(first, n)?, read_table(second, n)?);
    let mut list = Vec::new();
    let mut longer = false;
    each_difference(&first, &second, |difference| {
        longer = list.len() == room;
        if !longer {
            list.push(difference);
        }
        !longer
    });
    refuse(longer, ROOM)?;
    Ok(list)
}

/// Hands over each difference of two accepted tables of one glyph count in the
/// order of the list, as long as `visit` says to go on.
pub fn each_difference(first: &Table, second: &Table, mut visit: impl FnMut(Difference) -> Goes) {
    for direction in Direction::BOTH {
        let mut give = |kind, mark, numbers| visit(Difference { direction, kind, mark, numbers });
        let goes = machines(first, second, direction, &mut give)
            && records(first, second, direction, &mut give)
            && lists(first, second, direction, &mut give);
        if !goes {
            return;
        }
    }
}

/// How two answers to one question differ, if they do.
fn mark<T: PartialEq>(first: Option<T>, second: Option<T>) -> Option<Mark> {
    match (first, second) {
        (Some(a), Some(b)) if a != b => Some(Mark::Changed),
        (Some(_), None) => Some(Mark::OnlyFirst),
        (None, Some(_)) => Some(Mark::OnlySecond),
        _ => None,
    }
}

/// Hands over a difference where there is one.
fn give_if(
    mark: Option<Mark>,
    kind: Kind,
    numbers: [u32; 2],
    give: &mut impl FnMut(Kind, Mark, [u32; 2]) -> Goes,
) -> Goes {
    mark.is_none_or(|mark| give(kind, mark, numbers))
}

/// Sizes; classes and cells only where both tables have machines of one size.
fn machines(
    first: &Table,
    second: &Table,
    direction: Direction,
    give: &mut impl FnMut(Kind, Mark, [u32; 2]) -> Goes,
) -> Goes {
    let (a, b) = (first.sizes(direction), second.sizes(direction));
    if let Some(mark) = mark(a, b) {
        return give(Kind::Sizes, mark, [0, 0]);
    }
    let Some(sizes) = a else { return true };
    let classes = (0..first.glyph_count()).all(|glyph| {
        let found = mark(first.glyph_class(direction, glyph), second.glyph_class(direction, glyph));
        give_if(found, Kind::GlyphClass, [glyph, 0], give)
    });
    let mut cells = (0..sizes.rows).flat_map(|row| (0..sizes.classes).map(move |class| (row, class)));
    classes
        && cells.all(|(row, class)| {
            let found = mark(first.cell(direction, row, class), second.cell(direction, row, class));
            give_if(found, Kind::Cell, [row, class], give)
        })
}

/// Where a glyph's cluster or list stands in the two tables.
type Places = (Option<u64>, Option<u64>);

/// The place that each glyph has in rising runs.
fn by_glyph(n: u32, runs: impl Iterator<Item = (Run, u64)>) -> Vec<Option<u64>> {
    let mut places = vec![None; n as usize];
    for (run, at) in runs {
        places[run.first as usize..=run.last as usize].fill(Some(at));
    }
    places
}

/// What is known of pairs of places, each worked out once; the pair met last is
/// at hand, as neighbours often share it.
struct Known<T> {
    found: HashMap<Places, T>,
    last: Option<(Places, T)>,
}

impl<T: Clone> Known<T> {
    fn new() -> Known<T> {
        Known { found: HashMap::new(), last: None }
    }

    fn of(&mut self, places: Places, work: impl FnOnce() -> T) -> &T {
        if self.last.as_ref().is_none_or(|(last, _)| *last != places) {
            let found = self.found.entry(places).or_insert_with(work).clone();
            self.last = Some((places, found));
        }
        &self.last.as_ref().expect("set above").1
    }
}

/// Width records by glyph and class.
fn records(
    first: &Table,
    second: &Table,
    direction: Direction,
    give: &mut impl FnMut(Kind, Mark, [u32; 2]) -> Goes,
) -> Goes {
    let [a, b] = [first, second].map(|table| by_glyph(table.glyph_count(), table.cluster_runs(direction)));
    let mut known = Known::new();
    (0..).zip(a.into_iter().zip(b)).all(|(glyph, places)| {
        let found: &Rc<[(u32, Mark)]> = known.of(places, || record_marks(first, second, places));
        found.iter().all(|&(class, mark)| give(Kind::WidthRecord, mark, [glyph, class]))
    })
}

/// The classes for which two clusters differ, rising.
fn record_marks(first: &Table, second: &Table, places: Places) -> Rc<[(u32, Mark)]> {
    let record =
        |table: &Table, at: Option<u64>, class| -> Option<WidthRecord> { cluster::record(table.bytes(), at?, class) };
    let both = |class| mark(record(first, places.0, class), record(second, places.1, class));
    (0..128).filter_map(|class| both(class).map(|mark| (class, mark))).collect()
}

/// Action lists by glyph.
fn lists(
    first: &Table,
    second: &Table,
    direction: Direction,
    give: &mut impl FnMut(Kind, Mark, [u32; 2]) -> Goes,
) -> Goes {
    let [a, b] = [first, second].map(|table| by_glyph(table.glyph_count(), table.list_runs(direction)));
    let mut known = Known::new();
    (0..).zip(a.into_iter().zip(b)).all(|(glyph, places)| {
        let found = known.of(places, || mark(actions_at(first, places.0), actions_at(second, places.1)));
        give_if(*found, Kind::ActionList, [glyph, 0], give)
    })
}

/// The actions of a list as a sheet has them; a list of none is no list.
fn actions_at(table: &Table, at: Option<u64>) -> Option<Vec<Action>> {
    let list: Vec<Action> = actions::list(table.bytes(), at?).map(|found| found.action()).collect();
    (!list.is_empty()).then_some(list)
}
