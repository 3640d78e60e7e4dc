//! The parts of a meaning, and the questions that tables and sheets both answer.

use crate::refusal::Refusal;
use just_raw::{self as raw, Asked};

pub use raw::{Direction, Limits, Sizes};

/// What a cell of the class machine holds: the number of the new row, and flags.
#[derive(Clone, Copy, Debug, PartialEq, Eq, Hash)]
pub struct Entry {
    pub row: u16,
    pub flags: u16,
}

impl Entry {
    /// Whether the current glyph is marked.
    pub fn sets_mark(self) -> bool {
        self.flags & 0x8000 != 0
    }

    /// Whether the walk stays at the current glyph.
    pub fn stays(self) -> bool {
        self.flags & 0x4000 != 0
    }

    /// The class for the marked glyph; 0 is none.
    pub fn mark_class(self) -> u8 {
        (self.flags >> 7 & 0x7F) as u8
    }

    /// The class for the current glyph; 0 is none.
    pub fn current_class(self) -> u8 {
        (self.flags & 0x7F) as u8
    }
}

/// When a glyph takes its share: its priority, 0 to 3, and whether it is unlimited.
#[derive(Clone, Copy, Debug, PartialEq, Eq, Hash)]
pub struct Rule {
    pub priority: u8,
    pub unlimited: bool,
}

impl Rule {
    pub(crate) fn of(flags: u16) -> Rule {
        Rule { priority: (flags & 0xF) as u8, unlimited: flags & 0x1000 != 0 }
    }
}

/// A width record with its class.
#[derive(Clone, Copy, Debug, PartialEq, Eq, Hash)]
pub struct Pair {
    pub class: u8,
    pub before: Limits,
    pub after: Limits,
    pub grow: Rule,
    pub shrink: Rule,
}

/// A post-compensation action and the class that it is for.
#[derive(Clone, Debug, PartialEq, Eq, Hash)]
pub struct Action {
    pub class: u8,
    pub act: Act,
}

/// What an action does. Limits and thresholds are in ems (65,536 is one em).
#[derive(Clone, Debug, PartialEq, Eq, Hash)]
pub enum Act {
    /// Type 0: the glyph breaks into its components where its growth is outside these limits.
    Decompose { lower: i32, upper: i32, order: u16, components: Vec<u16> },
    /// Type 1: a glyph is added.
    Add { glyph: u16 },
    /// Type 2: a glyph is added, if any, and from the threshold on the glyph is substituted.
    AddOrSubstitute { threshold: i32, added: Option<u16>, substitute: u16 },
    /// Type 3: the glyph is stretched.
    Stretch,
    /// Type 4: the glyph changes along a variation axis.
    Ductile { axis: u32, minimum: i32, default: i32, maximum: i32 },
    /// Type 5: a glyph is added again and again.
    Repeat { glyph: u16 },
}

impl Act {
    /// The number of its type.
    pub fn type_number(&self) -> u16 {
        match self {
            Act::Decompose { .. } => 0,
            Act::Add { .. } => 1,
            Act::AddOrSubstitute { .. } => 2,
            Act::Stretch => 3,
            Act::Ductile { .. } => 4,
            Act::Repeat { .. } => 5,
        }
    }
}

/// The big-endian number at a place.
pub(crate) fn word(bytes: &[u8], at: usize) -> u16 {
    u16::from_be_bytes([bytes[at], bytes[at + 1]])
}

/// The same of 32 bits.
pub(crate) fn long(bytes: &[u8], at: usize) -> u32 {
    u32::from(word(bytes, at)) << 16 | u32::from(word(bytes, at + 2))
}

impl Action {
    /// An action from its type and data, as sheets and the part calls have them: accepted, and without padding.
    pub(crate) fn of(class: u16, ty: u16, data: &[u8]) -> Action {
        let fixed = |at: usize| long(data, at) as i32;
        let glyph = |at: usize| word(data, at);
        let act = match ty {
            0 => Act::Decompose {
                lower: fixed(0),
                upper: fixed(4),
                order: word(data, 8),
                components: data[12..].chunks_exact(2).map(|glyph| word(glyph, 0)).collect(),
            },
            1 => Act::Add { glyph: glyph(0) },
            2 => Act::AddOrSubstitute {
                threshold: fixed(0),
                added: Some(glyph(4)).filter(|&added| added != 0xFFFF),
                substitute: glyph(6),
            },
            3 => Act::Stretch,
            4 => Act::Ductile { axis: long(data, 0), minimum: fixed(4), default: fixed(8), maximum: fixed(12) },
            _ => Act::Repeat { glyph: glyph(2) },
        };
        Action { class: class as u8, act }
    }
}

/// What tables and sheets answer. Where there is nothing, the answer is `None`.
///
/// Each question but that for the glyph count judges the whole table or sheet again; [`Sheet::side`](crate::Sheet::side)
/// hands out all of a direction at once.
pub trait Meaning {
    /// The glyph count N.
    fn glyph_count(&self) -> u32;

    /// The sizes of a direction's class machine.
    fn sizes(&self, direction: Direction) -> Option<Sizes>;

    /// The machine's class of a glyph.
    fn class(&self, direction: Direction, glyph: u16) -> Option<u8>;

    /// What the machine's cell of a row and a class holds.
    fn cell(&self, direction: Direction, row: u16, class: u16) -> Option<Entry>;

    /// The width record of a glyph for a class.
    fn record(&self, direction: Direction, glyph: u16, class: u8) -> Option<Pair>;

    /// The action of a glyph by its number, from 0.
    fn action(&self, direction: Direction, glyph: u16, number: u16) -> Option<Action>;
}

/// What was accepted, as the library is asked for its parts.
pub(crate) trait Accepted {
    fn count(&self) -> u32;

    fn asked(&self) -> impl Asked;
}

impl<T: Accepted> Meaning for T {
    fn glyph_count(&self) -> u32 {
        self.count()
    }

    fn sizes(&self, direction: Direction) -> Option<Sizes> {
        part(self.asked().sizes(direction as u32))
    }

    fn class(&self, direction: Direction, glyph: u16) -> Option<u8> {
        part(self.asked().class(direction as u32, glyph))
    }

    fn cell(&self, direction: Direction, row: u16, class: u16) -> Option<Entry> {
        let raw::Entry { row, flags } = part(self.asked().cell(direction as u32, row, class))?;
        Some(Entry { row, flags })
    }

    fn record(&self, direction: Direction, glyph: u16, class: u8) -> Option<Pair> {
        let raw::Pair { class, before, after, flags } = part(self.asked().record(direction as u32, glyph, class))?;
        let (grow, shrink) = (Rule::of(flags.grow), Rule::of(flags.shrink));
        Some(Pair { class: class as u8, before, after, grow, shrink })
    }

    fn action(&self, direction: Direction, glyph: u16, number: u16) -> Option<Action> {
        let raw::Action { class, ty, size, bytes } = part(self.asked().action(direction as u32, glyph, number))?;
        Some(Action::of(class, ty, &bytes[..size as usize]))
    }
}

/// A part of what was accepted before: no refusal can come, for the bytes are lent and so cannot have changed.
fn part<T>(answer: raw::Part<T>) -> Option<T> {
    let raw::Found { found, part } = Refusal::or(answer).expect("what was accepted is accepted again");
    found.then_some(part)
}
