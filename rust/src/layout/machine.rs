//! Class machines.

use super::{any, Side, Walk};
use crate::field::Place;

/// A class machine; all but the state array counts from the table's start.
struct Machine {
    classes: u64,
    class_table: u64,
    here: u64,
    states: u64,
    entries: u64,
}

impl Side<'_> {
    pub(super) fn machine(self, start: u64) -> Walk<()> {
        let here = start + 8;
        let head = self.part(Place::Machine, here);
        let machine = Machine {
            here,
            classes: head.word(0, "class count", |count| (4..=255).contains(&count))?,
            class_table: here + head.word(2, "offset of the class table", any)?,
            states: head.word(4, "offset of the state array", any)?,
            entries: here + head.word(6, "offset of the entry table", any)?,
        };
        self.classes(&machine)?;
        let (mut row, mut rows) = (0, 2);
        while row < rows {
            for class in 0..machine.classes {
                rows = rows.max(self.new_row(&machine, row, class)? + 1);
            }
            row += 1;
        }
        Ok(())
    }

    /// The class table: a class for each glyph below N that it names.
    fn classes(self, machine: &Machine) -> Walk<()> {
        let head = self.part(Place::ClassTable, machine.class_table);
        let first = head.word(0, "first glyph", any)?;
        let count = head.word(2, "glyph count", any)?;
        for glyph in (first..first + count).take_while(|&glyph| self.is_glyph(glyph)) {
            let class = self.part(Place::Class { glyph: glyph as u16 }, head.start + 4 + glyph - first);
            class.byte(0, "class", |class| class < machine.classes)?;
        }
        Ok(())
    }

    /// The row that a cell leads to, by the entry that it names.
    fn new_row(self, machine: &Machine, row: u64, class: u64) -> Walk<u64> {
        let Machine { classes, states, .. } = *machine;
        let at = machine.here + states + row * classes + class;
        let (row, class) = (row as u16, class as u16);
        let number = self.part(Place::Cell { row, class }, at).byte(0, "entry number", any)?;
        let entry = Place::Entry { row, class, number: number as u16 };
        let entry = self.part(entry, machine.entries + 4 * number);
        let is_row = |past: u64| past.is_multiple_of(classes) && past / classes < 256;
        let new = entry.word(0, "new row", |new| new.checked_sub(states).is_some_and(is_row))?;
        entry.word(2, "flags", any)?;
        Ok((new - states) / classes)
    }
}
