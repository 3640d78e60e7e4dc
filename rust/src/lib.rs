//! AAT 'just' tables, lines and sheets: a safe layer over the proved library.
//!
//! All work on tables, lines and sheets is done by the proved code. This crate passes slices on, through `just-raw`, and turns
//! numbers into types; it judges nothing itself, but for finding words for a refusal, and for a font's advances.
//!
//! - [`Table`] is a table that was accepted with a glyph count; it justifies lines, writes its sheet and lists what a second
//!   table has changed.
//! - [`Font`] is a whole font, whose 'just' table was found and accepted with the font's own glyph count.
//! - [`Advances`] are those of a font's glyphs, which its lines are measured by.
//! - [`Sheet`] is bytes that were accepted as a sheet, the plain record of what a table means.
//! - [`Table`] and [`Sheet`] answer the questions of [`Meaning`].
//! - Whatever is refused is refused with a [`Refusal`], which has the documents' number and, for faults in a table, the
//!   byte; [`Field::of`] says which field stands there, [`FontPlace::of`] what of a font it is. A refusal changes no lent
//!   buffer.
//!
//! One unit is 1/65,536 point, so [`POINT`] units are a point; limits are in ems, 65,536 to the em.
//!
//! ```
//! use just::{Reason, Refusal, Table};
//!
//! let bytes = [0, 1, 0, 0, 0, 0, 0, 0, 0, 0];
//! let table = Table::new(&bytes, 1)?;
//! assert_eq!(table.write_sheet()?.len(), 68);
//! assert_eq!(Table::new(&bytes[..9], 1).unwrap_err().reason, Reason::TableLength);
//! # Ok::<(), Refusal>(())
//! ```

#![forbid(unsafe_code)]

mod advances;
mod difference;
mod directory;
mod field;
mod font;
mod layout;
mod line;
mod parts;
mod refusal;
mod sections;
mod sheet;
mod table;

pub use advances::{Advances, NoAdvances};
pub use difference::{Difference, DifferingPart, Mark, UnlikeCounts};
pub use field::{Field, Place};
pub use font::{Font, FontPlace};
pub use line::{
    one_size, Answer, Justified, Lent, Line, Verdict, VerdictRecord, DELETED, GX_RULE, POINT, WITHIN_LIMITS,
};
pub use parts::{Act, Action, Direction, Entry, Limits, Meaning, Pair, Rule, Sizes};
pub use refusal::{Reason, Refusal};
pub use sections::{Machine, Run, Side};
pub use sheet::Sheet;
pub use table::{Found, Lookup, Table, Units};
