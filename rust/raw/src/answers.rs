//! What the calls answer. The header's structs for answers all begin with a refusal and its offset, and those for parts
//! go on with `found`; here both are said once, for whatever follows.

/// The two directions of a table. A call takes the number: 0 is horizontal, any other vertical.
#[derive(Clone, Copy, Debug, PartialEq, Eq, Hash)]
#[repr(u32)]
pub enum Direction {
    Horizontal = 0,
    Vertical = 1,
}

/// A direction's two lookups: from glyphs to width records, and from glyphs to actions. A call takes the number: 0 is the
/// width lookup, any other the action lookup.
#[derive(Clone, Copy, Debug, PartialEq, Eq, Hash)]
#[repr(u32)]
pub enum Lookup {
    Width = 0,
    Action = 1,
}

/// The number of a refusal, its offset and zeros, or 0, 0 and what is said. The offset is 0 for all refusals but 4 to 8.
#[derive(Clone, Copy, Debug, PartialEq, Eq)]
#[repr(C)]
pub struct Answer<T> {
    pub refusal: u32,
    pub offset: u64,
    pub said: T,
}

/// Whether a table or a sheet is accepted: nothing else is said.
pub type Checked = Answer<()>;

/// Whether there is such a part, and the part; zeros where there is none.
#[derive(Clone, Copy, Debug, Default, PartialEq, Eq)]
#[repr(C)]
pub struct Found<T> {
    pub found: bool,
    pub part: T,
}

/// What is answered to who asks for a part.
pub type Part<T> = Answer<Found<T>>;

/// How many rows and classes a class machine has.
#[derive(Clone, Copy, Debug, Default, PartialEq, Eq, Hash)]
#[repr(C)]
pub struct Sizes {
    pub rows: u16,
    pub classes: u16,
}

/// What a cell of the class machine holds.
#[derive(Clone, Copy, Debug, Default, PartialEq, Eq, Hash)]
#[repr(C)]
pub struct Entry {
    pub row: u16,
    pub flags: u16,
}

/// By how much a side may grow and shrink, in ems (65,536 is one em), as sizes.
#[derive(Clone, Copy, Debug, Default, PartialEq, Eq, Hash)]
#[repr(C)]
pub struct Limits {
    pub grow: u32,
    pub shrink: u32,
}

/// 0x1000 for unlimited, and the priority, 0 to 3.
#[derive(Clone, Copy, Debug, Default, PartialEq, Eq, Hash)]
#[repr(C)]
pub struct Flags {
    pub grow: u16,
    pub shrink: u16,
}

/// A width record with its class.
#[derive(Clone, Copy, Debug, Default, PartialEq, Eq, Hash)]
#[repr(C)]
pub struct Pair {
    pub class: u32,
    pub before: Limits,
    pub after: Limits,
    pub flags: Flags,
}

/// An action: its data is the first `size` bytes, zeros follow.
#[derive(Clone, Copy, Debug, PartialEq, Eq, Hash)]
#[repr(C)]
pub struct Action {
    pub class: u16,
    pub ty: u16,
    pub size: u32,
    pub bytes: [u8; 76],
}

impl Default for Action {
    fn default() -> Action {
        Action { class: 0, ty: 0, size: 0, bytes: [0; 76] }
    }
}

/// A glyph's value in a lookup, 0 where it has none, and how many of the lookup's units a find of it looks at.
#[derive(Clone, Copy, Debug, Default, PartialEq, Eq, Hash)]
#[repr(C)]
pub struct Value {
    pub found: bool,
    pub value: u16,
    pub looks: u32,
}

/// How many units a lookup has for a find, and the bound on its looks.
#[derive(Clone, Copy, Debug, Default, PartialEq, Eq, Hash)]
#[repr(C)]
pub struct Units {
    pub units: u32,
    pub most: u32,
}

/// The numbers that a difference takes in the room of the call that lists them.
pub(crate) const NUMBERS: usize = 5;

/// A difference of two tables: direction, kind and mark by their numbers, and where it is.
#[derive(Clone, Copy, Debug, Default, PartialEq, Eq, Hash)]
#[repr(C)]
pub struct Difference {
    pub direction: u16,
    pub kind: u16,
    pub mark: u16,
    pub numbers: [u16; 2],
}

/// Where the 'just' table of a font begins, its length in bytes, and the font's glyph count.
#[derive(Clone, Copy, Debug, Default, PartialEq, Eq, Hash)]
#[repr(C)]
pub struct Opened {
    pub table_offset: u32,
    pub table_length: u32,
    pub glyph_count: u32,
}

/// A stretch of a table: the offset of its first byte, and its length in bytes.
#[derive(Clone, Copy, Debug, Default, PartialEq, Eq, Hash)]
#[repr(C)]
pub struct Stretch {
    pub offset: usize,
    pub length: usize,
}

/// In the header `found` and sizes have no struct of their own; the layout is the same, for what is said begins where the
/// offset ends, and no part is aligned more strictly. examples/boundary.c has the header's sizes.
const _: () = {
    assert!(size_of::<Checked>() == 16);
    assert!(size_of::<Answer<u32>>() == 24);
    assert!(size_of::<Part<Sizes>>() == 24);
    assert!(size_of::<Part<u8>>() == 24);
    assert!(size_of::<Part<Entry>>() == 24);
    assert!(size_of::<Part<Pair>>() == 48);
    assert!(size_of::<Part<Action>>() == 104);
    assert!(size_of::<Answer<Value>>() == 24);
    assert!(size_of::<Answer<Units>>() == 24);
    assert!(size_of::<Answer<Opened>>() == 32);
    assert!(size_of::<Answer<crate::Said>>() == 32);
    assert!(size_of::<Difference>() == NUMBERS * size_of::<u16>());
};
