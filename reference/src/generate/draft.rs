//! Bytes under construction, with a note of every field that was put down, so
//! that a field can be found again and spoiled.

use super::rng::Rng;

/// What a field is.
#[derive(Clone, Copy, Debug, PartialEq, Eq, Hash, PartialOrd, Ord)]
pub enum Kind {
    Version,
    Format,
    DirectionOffset,
    PartOffset,
    LookupFormat,
    UnitSize,
    UnitCount,
    UnitBound,
    LastBeforeClosing,
    Value,
    ArrayOffset,
    TrimBound,
    ClusterCount,
    PairClass,
    Grow,
    Shrink,
    Flags,
    ActionCount,
    ActionClass,
    ActionKind,
    ActionLength,
    InnerLength,
    DecomposeLength,
    Data,
    ComponentCount,
    Glyph,
    AddedGlyph,
    ClassCount,
    MachineOffset,
    ClassBound,
    ClassByte,
    CellByte,
    EntryRow,
    EntryFlags,
    Ignored,
}

/// A field's place, and two numbers that its kind may need.
#[derive(Clone, Copy, Debug)]
pub struct Mark {
    pub at: usize,
    pub size: usize,
    pub kind: Kind,
    pub aux: [u32; 2],
}

#[derive(Clone, Debug, Default)]
pub struct Draft {
    pub bytes: Vec<u8>,
    pub marks: Vec<Mark>,
}

impl Draft {
    pub fn len(&self) -> usize {
        self.bytes.len()
    }

    pub fn is_empty(&self) -> bool {
        self.bytes.is_empty()
    }

    pub fn put(&mut self, kind: Kind, size: usize, value: u32) -> usize {
        self.put_with(kind, size, value, [0, 0])
    }

    pub fn put_with(&mut self, kind: Kind, size: usize, value: u32, aux: [u32; 2]) -> usize {
        let at = self.bytes.len();
        self.bytes.extend_from_slice(&value.to_be_bytes()[4 - size..]);
        self.marks.push(Mark { at, size, kind, aux });
        at
    }

    pub fn set(&mut self, at: usize, size: usize, value: u32) {
        self.bytes[at..at + size].copy_from_slice(&value.to_be_bytes()[4 - size..]);
    }

    pub fn get(&self, at: usize, size: usize) -> u32 {
        self.bytes[at..at + size].iter().fold(0, |value, &byte| value << 8 | byte as u32)
    }

    /// Puts another draft at the end and gives its place.
    pub fn append(&mut self, other: &Draft) -> usize {
        let start = self.bytes.len();
        self.bytes.extend_from_slice(&other.bytes);
        self.marks.extend(other.marks.iter().map(|mark| Mark { at: mark.at + start, ..*mark }));
        start
    }

    /// Puts down bytes that nothing reads.
    pub fn garbage(&mut self, rng: &mut Rng, count: usize) {
        for _ in 0..count {
            self.bytes.push(rng.draw() as u8);
        }
    }

    /// A random field, each kind that is there being as likely as the others.
    pub fn any_mark(&self, rng: &mut Rng) -> Option<Mark> {
        self.any_mark_of(rng, |_| true)
    }

    /// The same among the kinds that are wanted.
    pub fn any_mark_of(&self, rng: &mut Rng, wanted: impl Fn(Kind) -> bool) -> Option<Mark> {
        let mut kinds: Vec<Kind> = self.marks.iter().map(|mark| mark.kind).filter(|&kind| wanted(kind)).collect();
        kinds.sort();
        kinds.dedup();
        if kinds.is_empty() {
            return None;
        }
        let kind = rng.pick(&kinds);
        let marks: Vec<&Mark> = self.marks.iter().filter(|mark| mark.kind == kind).collect();
        Some(**marks.get(rng.below(marks.len() as u64) as usize)?)
    }
}
