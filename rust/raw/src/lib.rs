//! The C boundary of the proved library: the calls and structs of include/just.h, each call as a safe function.
//!
//! A slice is lent as a pointer and a length, and answers are handed on as they come; the header says what they mean.
//!
//! Why the functions are safe: pointer and length are always those of one slice, whose pointer is aligned and not null,
//! even where it is empty. No call keeps a pointer, frees anything or unwinds; a call reads only what it is lent, writes
//! only through `*mut`, never past the length, and leaves valid values there. What is written is lent by `&mut`, so it
//! overlaps no other buffer.

mod answers;
mod differences;
mod font;
mod line;
mod sheet;
mod table;

pub use answers::{
    Action, Answer, Checked, Difference, Direction, Entry, Flags, Found, Limits, Lookup, Opened, Pair, Part, Sizes,
    Stretch, Units, Value,
};
pub use font::Font;
pub use line::{Lent, Line, Said, Verdict, GX_RULE, WITHIN_LIMITS};
pub use sheet::Sheet;
pub use table::Table;

/// The version of the C header that these functions follow.
pub const VERSION: u32 = 7;

/// What is asked for the parts of its meaning: a table or a sheet. It is judged first each time.
///
/// A direction is 0 for horizontal and any other number for vertical.
pub trait Asked: Copy {
    fn count(self) -> Answer<u32>;

    fn sizes(self, direction: u32) -> Part<Sizes>;

    fn class(self, direction: u32, glyph: u16) -> Part<u8>;

    fn cell(self, direction: u32, row: u16, class: u16) -> Part<Entry>;

    fn record(self, direction: u32, glyph: u16, class: u8) -> Part<Pair>;

    fn action(self, direction: u32, glyph: u16, number: u16) -> Part<Action>;
}
