//! All of an accepted sheet's direction at once, read section by section (document 01, "The sheet").

use crate::parts::{long, word, Action, Direction, Entry, Limits, Pair, Rule, Sizes};

/// Glyphs in a row that have the same class, cluster or list.
#[derive(Clone, Copy, Debug, PartialEq, Eq, Hash)]
pub struct Run {
    pub first: u16,
    pub last: u16,
    /// The class, or the number of the cluster or the list.
    pub value: u16,
}

/// A class machine.
#[derive(Clone, Debug, PartialEq, Eq)]
pub struct Machine {
    pub sizes: Sizes,
    /// The glyphs of classes other than 1.
    pub classes: Vec<Run>,
    /// The distinct entries.
    pub entries: Vec<Entry>,
    /// The number of an entry for each cell, row by row.
    pub cells: Vec<u8>,
}

/// What a sheet says of a direction.
#[derive(Clone, Debug, Default, PartialEq, Eq)]
pub struct Side {
    pub machine: Option<Machine>,
    /// The distinct clusters.
    pub clusters: Vec<Vec<Pair>>,
    pub cluster_runs: Vec<Run>,
    /// The distinct action lists.
    pub lists: Vec<Vec<Action>>,
    pub list_runs: Vec<Run>,
}

/// A place in an accepted sheet, where every count can be believed.
struct Reader<'a> {
    bytes: &'a [u8],
    at: usize,
}

impl Reader<'_> {
    fn take(&mut self, length: usize) -> &[u8] {
        self.at += length;
        &self.bytes[self.at - length..self.at]
    }

    fn word(&mut self) -> u16 {
        word(self.take(2), 0)
    }

    fn long(&mut self) -> u32 {
        long(self.take(4), 0)
    }

    /// A count, then as many of one thing.
    fn many<T>(&mut self, one: fn(&mut Self) -> T) -> Vec<T> {
        (0..self.long()).map(|_| one(self)).collect()
    }

    fn run(&mut self) -> Run {
        Run { first: self.word(), last: self.word(), value: self.word() }
    }

    fn sizes(&mut self) -> Sizes {
        Sizes { rows: self.long() as u16, classes: self.long() as u16 }
    }

    fn entry(&mut self) -> Entry {
        Entry { row: self.word(), flags: self.word() }
    }

    fn cell(&mut self) -> u8 {
        self.take(1)[0]
    }

    fn pair(&mut self) -> Pair {
        let class = self.long() as u8;
        let mut limits = || Limits { grow: self.long(), shrink: self.long() };
        let (before, after) = (limits(), limits());
        Pair { class, before, after, grow: Rule::of(self.word()), shrink: Rule::of(self.word()) }
    }

    fn action(&mut self) -> Action {
        let (class, ty, size) = (self.word(), self.word(), self.long());
        Action::of(class, ty, self.take(size as usize))
    }

    fn side(&mut self) -> Side {
        let sizes = self.many(Self::sizes).pop();
        let (classes, entries, cells) = (self.many(Self::run), self.many(Self::entry), self.many(Self::cell));
        Side {
            machine: sizes.map(|sizes| Machine { sizes, classes, entries, cells }),
            clusters: self.many(|reader| reader.many(Self::pair)),
            cluster_runs: self.many(Self::run),
            lists: self.many(|reader| reader.many(Self::action)),
            list_runs: self.many(Self::run),
        }
    }
}

/// A direction of an accepted sheet.
pub(crate) fn read(sheet: &[u8], direction: Direction) -> Side {
    let mut reader = Reader { bytes: sheet, at: 4 };
    let horizontal = reader.side();
    match direction {
        Direction::Horizontal => horizontal,
        Direction::Vertical => reader.side(),
    }
}
