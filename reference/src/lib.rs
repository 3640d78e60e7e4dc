//! A plain second reading of 'just' tables: what they mean, the sheet that is
//! written for a meaning, and the justification of one line.
//!
//! Each module names the passage of document 01 that it follows.

pub mod actions;
pub mod bytes;
pub mod cluster;
pub mod difference;
pub mod examples;
pub mod font;
pub mod generate;
pub mod line;
pub mod lookup;
pub mod machine;
pub mod meaning;
pub mod print;
pub mod share;
pub mod sheet_read;
pub mod sheet_write;
pub mod table;
pub mod verdict;
pub mod walk;

pub use bytes::Fault;
pub use difference::{differences, differences_into, Difference};
pub use font::{open_font, Opened};
pub use line::{justify, justify_with, one_size, Justified, Line, LineInput};
pub use lookup::Found;
pub use machine::Machine;
pub use meaning::{Action, Cell, Direction, Parts, Sizes, Stretch, WidthRecord};
pub use share::{factor, share, share_to_limits, totals, Room, Shares};
pub use sheet_read::{check_sheet, open_sheet, read_sheet, Meaning};
pub use sheet_write::{sheet_length, sheet_of, write_sheet, write_sheet_within};
pub use table::{check_table, component_bytes, component_list, find, read_table, Table, Which};
pub use verdict::{fires, Fires, VerdictRecord};
pub use walk::walk;
